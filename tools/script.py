"""The program `cases` by the model: what it must print for its script, command by command.

What each command does is told in the head of the script itself, crates/cases/stdin. Two things in
it are none of the papers': row 7, for a state that no list of calls leaves (`left_by_calls`), and
the word `outside`, for numbers that a call is not made for.
"""
from model import (ANNUAL_COUNTS, BLOCK, CALIBRATION, CONDITIONS, COUNTS, HIGHEST_SLOPE, KINDS,
                   LAST_NUMBER, NO_FIGURES, NO_PLACE, PAIR, PLACES, READINGS, RECORD, SETTING,
                   Basis, Chart, Conditions, Function, Pair, Standing, alarms_of, annual_mark,
                   applied, calibrated, calibrates_as, chart_read, check_by_bits, formed_block,
                   in_standard, lent_list, made_closing, near, record_bytes, record_of,
                   record_row, report_line, s_of, sealed, six_alarms, taken_run, usable)

OLD_BYTE, ROOM = 0xA5, 600      # the target has room for so many bytes, each of them this one
LISTED = 13                     # the list has room for so many records


class Unknown(Exception):
    """The line is no command."""


def whole(word, low, high):
    """The number that a word is, in a range."""
    digits = word[1:] if word[:1] in ('-', '+') else word
    if not digits.isascii() or not digits.isdigit() or not low <= int(word) <= high:
        raise Unknown
    return int(word)


def byte(word):
    return whole(word, 0, 255)


def unsigned(word):
    return whole(word, 0, 2**32 - 1)


def signed(word):
    return whole(word, -2**31, 2**31 - 1)


def long(word):
    return whole(word, -2**63, 2**63 - 1)


class Desk:
    """What the script works on, and the lines that it has written."""

    def __init__(self):
        self.state = Standing(0)
        self.kept = self.state
        self.record = bytes(RECORD)
        self.listed = self.run = b''
        self.target = bytes([OLD_BYTE]) * ROOM
        self.edition, self.line, self.lines = 1, None, []
        self.chart = Chart()
        self.conditions = [Conditions(0, 0, 0, 1_100)] * 2      # the first pair's, the others'
        self.pairs = []                                         # a signal and an SRM value each

    def say(self, text):
        """Adds to the line of a case, or writes a line."""
        if self.line is None:
            self.lines.append(text)
        else:
            self.line += ' ' + text

    def write(self, text):
        self.lines.append(text)


# ---- Rounding and charts

def within(v, ends):
    return ends[0] <= v <= ends[1]


def write_near(d, n, over):
    n, over = long(n), long(over)
    takes = abs(n) <= 2**62 and 1 <= over <= 2**61
    d.write('near %d/%d %s' % (n, over, near(n, over, d.edition) if takes else 'outside'))


def write_unsigned(d, n, over):
    n, over = whole(n, 0, 2**64 - 1), whole(over, 0, 2**64 - 1)
    text = near(n, over, d.edition) if over else 'outside'
    d.write('unsigned %d/%d %s' % (n, over, text))


def read_one(d, s, difference):
    """One difference more, as far as the chart takes it."""
    if within(difference, (-800_000, 400_000)) and d.chart.readings < READINGS:
        d.chart = chart_read(d.chart, s, difference, d.edition)


def write_chart(d, name, s):
    d.write('%s %s' % (name, chart_figures(d.chart, unsigned(s))))


def more(d, name, s, *differences):
    for v in map(signed, differences):
        read_one(d, unsigned(s), v)
        write_chart(d, name, s)


def reset(d):
    d.chart = Chart(started=True)


def series(d, name, s, *differences):
    reset(d)
    more(d, name, s, *differences)


def fill(d, times, s, *differences):
    s, differences = unsigned(s), [signed(v) for v in differences]
    for _ in range(unsigned(times)):
        for v in differences:
            read_one(d, s, v)


def unstarted(d):
    d.chart = Chart()


def stop(d):
    d.chart = d.chart._replace(started=False)


def sound(d, name, readings, last, value, count):
    """No more than the readings can have made: each adds at most 1000 times 400,000."""
    readings, count, last, value = unsigned(readings), unsigned(count), signed(last), long(value)
    holds = readings <= READINGS and within(last, (-800_000, 400_000)) \
        and count <= readings and 0 <= value <= 400_000_000 * count
    d.write('%s %s %d' % ('sound', name, holds))


# ---- Standard conditions, fits and annual tests

FIGURE, OXYGEN = KINDS[PAIR].ranges[2], KINDS[SETTING].ranges[4]
HIGHEST_VALUE, HIGHEST_INTERCEPT = 8_000_000, 400_000_000_000


def conditions_of(words):
    if len(words) != 4:
        raise Unknown
    return Conditions(*map(signed, words))


def in_ranges(numbers, ranges):
    return all(within(v, ends) for v, ends in zip(numbers, ranges))


def conditions_text(at, oxygen):
    return 't %d p %d h %d o %d reference %d' % (*at, oxygen)


def write_standard(d, v, *words):
    v, at, oxygen = long(v), conditions_of(words[:4]), signed(*words[4:])
    takes = abs(v) <= HIGHEST_VALUE and in_ranges(at, CONDITIONS) and within(oxygen, OXYGEN)
    text = 'is %d' % in_standard(v, at, oxygen, d.edition) if takes else 'outside'
    d.write('standard %d %s %s' % (v, conditions_text(at, oxygen), text))


def function_taken(slope, intercept):
    return 1 <= slope <= HIGHEST_SLOPE and abs(intercept) <= HIGHEST_INTERCEPT


def write_value(d, x, slope, intercept, *words):
    x, slope, intercept = signed(x), long(slope), long(intercept)
    at, oxygen = conditions_of(words[:4]), signed(*words[4:])
    takes = within(x, FIGURE) and in_ranges(at, CONDITIONS) and within(oxygen, OXYGEN) \
        and function_taken(slope, intercept)
    text = 'outside'
    if takes:
        text = 'is %d' % calibrated(x, at, Function(slope, intercept, 0, 0), oxygen, d.edition)
    d.write('value %d B %d A %d %s %s' % (
        x, slope, intercept, conditions_text(at, oxygen), text))


def set_conditions(d, *words):
    d.conditions = [conditions_of(words[:4]), conditions_of(words[4:])]


def set_pairs(d, *words):
    numbers = [signed(w) for w in words]
    if len(numbers) % 2 or not numbers:
        raise Unknown
    d.pairs = list(zip(numbers[::2], numbers[1::2]))


def first_pairs(d, n):
    """The first n pairs of the list, its last one again past its end."""
    return (d.pairs + d.pairs[-1:] * n)[:n]


def set_pair(d, n, x, y):
    n = whole(n, 1, 10**6)
    d.pairs = first_pairs(d, max(n, len(d.pairs)))
    d.pairs[n - 1] = signed(x), signed(y)


def lent_pairs(d, n):
    first, others = d.conditions
    return [Pair(60, 91, x, y, *(others if i else first))
            for i, (x, y) in enumerate(first_pairs(d, n))]


def pairs_taken(pairs, sigma, oxygen):
    """What a fit of a list and an annual test ask for, beside E and Z or the function."""
    return len(pairs) <= 30 and within(sigma, KINDS[SETTING].ranges[1]) \
        and within(oxygen, OXYGEN) \
        and all(in_ranges(p[2:8], KINDS[PAIR].ranges[2:]) for p in pairs)


def figures_text(row, figures):
    return 'refusal %d passed %d B %d A %d top %d N %d' % (row, *(figures or NO_FIGURES))


def fit_head(name, n, basis, z):
    return '%s n %d E %d sigma %d reference %d Z %d ' % (name, n, *basis, z)


def fit(d, name, n, *words):
    n, (*basis, z) = unsigned(n), map(signed, words)
    basis, pairs = Basis(*basis), lent_pairs(d, n)
    text = 'outside'
    if pairs_taken(pairs, basis.sigma, basis.oxygen) \
            and within(basis.limit, KINDS[SETTING].ranges[0]) \
            and within(z, KINDS[CALIBRATION].ranges[0]):
        counted = n in COUNTS
        answer = calibrates_as(pairs, basis, z, d.edition) if counted else (20, None)
        text = figures_text(*answer)
    d.write(fit_head(name, n, basis, z) + text)


def lent(d, name, n, *words):
    n, (*basis, z) = unsigned(n), map(signed, words)
    basis = Basis(*basis)
    row, figures = lent_list(d.edition, basis, z, lent_pairs(d, n))
    d.write(fit_head(name, n, basis, z) + figures_text(row, figures))


def annual(d, name, limit, n, *words):
    n, (sigma, oxygen, slope, intercept) = unsigned(n), map(long, words)
    basis, pairs = Basis(signed(limit), sigma, oxygen), lent_pairs(d, n)
    text = 'outside'
    if pairs_taken(pairs, sigma, oxygen) and function_taken(slope, intercept):
        function = Function(slope, intercept, 0, 0)
        row, mark = annual_mark(pairs, basis, function, d.edition) \
            if n in ANNUAL_COUNTS else (20, None)
        text = 'refusal %d variability %d function %d' % (row, (mark or 0) & 1, (mark or 0) >> 1)
    d.write('%s n %d sigma %d reference %d B %d A %d %s' % (
        name, n, sigma, oxygen, slope, intercept, text))


def left_by_calls(st):
    """Some list of calls may leave the standing: its blocks can hold so many values."""
    return st.expected <= LAST_NUMBER + 1 and st.history.tally.total <= PLACES * st.expected


# ---- The state and the prepared record

def field_names(kind):
    """The names of a kind's fields; an unknown kind has none."""
    if kind not in KINDS:
        return ()
    return KINDS[kind].fields._fields[:len(KINDS[kind].ranges)]


def new(d, analyser):
    d.state = Standing(unsigned(analyser))


def record(d, kind, mark, minute, *fields):
    kind, mark, minute = byte(kind), byte(mark), unsigned(minute)
    fits = [long if n == 'intercept' else signed for n in field_names(kind)]
    if len(fields) > len(fits):
        raise Unknown
    numbers = [fit(word) for fit, word in zip(fits, fields)] + [0] * (len(fits) - len(fields))
    if kind in KINDS:
        d.record = record_bytes(kind, mark, minute, *numbers)
    else:
        d.record = minute_later(bytes([kind, mark]).ljust(RECORD, b'\0'), minute)


def set_byte(d, i, v):
    i = whole(i, 0, RECORD - 1)
    d.record = d.record[:i] + bytes([byte(v)]) + d.record[i + 1:]


def minute_later(b, minutes):
    minute = (int.from_bytes(b[4:8], 'little') + minutes) % 2**32
    return b[:4] + minute.to_bytes(4, 'little') + b[8:]


def apply(d, times='1', apart='0'):
    apart = unsigned(apart)
    for _ in range(unsigned(times)):
        r, h = record_of(d.record, d.state.edition), d.state.history
        row = record_row(h, r)
        if row:
            d.say('refused %d' % row)
            return
        d.state = d.state._replace(history=applied(h, r))
        d.record = minute_later(d.record, apart)


def try_record(d, title):
    row = record_row(d.state.history, record_of(d.record, d.state.edition))
    d.write('%s: %d' % (title, row))


def keep(d):
    d.kept = d.state


def back(d):
    d.state = d.kept


def expect(d, number):
    d.state = d.state._replace(expected=unsigned(number))


def open_block(d, edition):
    d.state = d.state._replace(edition=byte(edition))


# ---- Lines

def begin_case(d, title):
    d.line = title + ':'


def end_case(d):
    d.write(d.line)
    d.line = None


def or_dash(v):
    return '-' if v is None else str(v)


def show(d):
    h = d.state.history
    readings = [c.readings if c.started else None for c in h.charts]
    function = '-' if h.function is None else '%d %d %d %d' % h.function
    text = 'minute %d zero %s span %s pairs %d total %d outside %d over %d call %s calibration %s'
    d.say(text % (h.minute or 0, *map(or_dash, readings), len(h.pairs), *h.tally, h.weeks,
                  or_dash(h.call), function))


def chart_figures(c, s):
    """The figures of a chart at s, as a line shows them."""
    alarms = ''.join('01'[a] for a in alarms_of(c, s))
    return 's %d d %d P %d %d M %d %d V %d %d off %d on %d alarms %s' % (s, *c[2:], alarms)


def charts(d):
    h = d.state.history
    for mark, name in ((0, 'zero'), (1, 'span')):
        s = s_of(h.setting, mark) if h.setting else 0
        d.say(name + ' ' + chart_figures(h.charts[mark], s))


def report(d):
    h = d.state.history
    d.say(report_line(six_alarms(h), usable(h)))


# ---- Blocks and closings

def put_list(d):
    if len(d.listed) == LISTED * RECORD:
        d.say('no room')
    else:
        d.listed += d.record


def clear(d):
    d.listed = d.run = b''


def answered(d, row, place, written):
    """Fills the target, and writes the refusal, the place and what became of the target."""
    d.target = (written or b'').ljust(ROOM, bytes([OLD_BYTE]))
    d.say('refused %d place %d %s' % (row, place, 'kept' if written is None else 'written'))


def without(d, less):
    return d.listed[:max(0, len(d.listed) - whole(less, 0, len(d.listed)))]


def seven(d, row):
    """Row 7 stands behind 1 and 6."""
    return 7 if row not in (1, 6) and not left_by_calls(d.state) else row


def form_block(d, size, less='0'):
    row, place, state, block = formed_block(d.state, d.edition, without(d, less), unsigned(size))
    if seven(d, row) == 7:
        row, place, block = 7, NO_PLACE, None
    if block is not None:
        d.state, d.listed = state, b''
        d.run += block
    answered(d, row, place, block)


def make_closing(d, kind, minute, z, size, less='0'):
    row, place, closing = made_closing(d.state, d.edition, without(d, less), byte(kind),
                                       unsigned(minute), signed(z), unsigned(size))
    if seven(d, row) == 7:
        row, place, closing = 7, NO_PLACE, None
    d.record = closing or d.record
    answered(d, row, place, closing)


def target_bytes(d, first, end):
    d.say(d.target[unsigned(first):unsigned(end)].hex())


def take(d, size):
    size = unsigned(size)
    run = d.run[:size].ljust(size, b'\0')
    blocks, state, row, place = taken_run(d.state, run)
    if row != 1 and not left_by_calls(d.state):
        blocks, state, row, place = 0, d.state, 7, NO_PLACE
    d.state = state
    d.say('blocks %d refused %d place %d next %d' % (blocks, row, place, state.expected))


def poke(d, i, v):
    i = whole(i, 0, len(d.run) - 1)
    d.run = d.run[:i] + bytes([byte(v)]) + d.run[i + 1:]


def seal(d, block):
    at = whole(block, 0, len(d.run) // BLOCK - 1) * BLOCK
    d.run = d.run[:at] + sealed(d.run[at:at + BLOCK - 2]) + d.run[at + BLOCK:]


def tell_edition(d, edition):
    d.edition = byte(edition)


def check_text(d, text):
    d.write('%s: check %04x' % (text, check_by_bits(text.encode())))


COMMANDS = {
    'new': new, 'record': record, 'byte': set_byte, 'apply': apply, 'keep': keep, 'back': back,
    'end': end_case, 'show': show, 'charts': charts, 'report': report, 'list': put_list,
    'clear': clear, 'form': form_block, 'make': make_closing, 'bytes': target_bytes,
    'take': take, 'poke': poke, 'seal': seal, 'expect': expect, 'edition': tell_edition,
    'open': open_block,
    'near': write_near, 'unsigned': write_unsigned, 'series': series, 'more': more,
    'fill': fill, 'chart': write_chart, 'reset': reset, 'unstarted': unstarted, 'stop': stop,
    'sound': sound, 'standard': write_standard, 'value': write_value,
    'conditions': set_conditions, 'pairs': set_pairs, 'pair': set_pair, 'fit': fit,
    'lent': lent, 'annual': annual,
}
TEXTS = {'case': begin_case, 'try': try_record, 'check': check_text}     # the rest is one text


def run_line(d, line):
    word, _, rest = line.partition(' ')
    try:
        if word in TEXTS:
            TEXTS[word](d, rest)
        else:
            COMMANDS[word](d, *rest.split())
    except (KeyError, TypeError, ValueError, IndexError, Unknown):
        d.say('unknown')


def run_again(d, edition, lines):
    """`again N`: the lines above once more in edition N."""
    d.edition = byte(edition)
    d.write('edition %d' % d.edition)
    for line in lines:
        run_line(d, line)


def answers(script):
    """The lines for a script."""
    d, above = Desk(), []
    for line in script:
        line = line.rstrip('\n')
        if line.startswith('again '):
            run_again(d, line[6:], list(above))
        elif line and line.partition(' ')[0] != '#':
            run_line(d, line)
            above.append(line)
        yield from (text + '\n' for text in d.lines)
        d.lines.clear()
