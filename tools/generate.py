"""Makes files for tools/fuzz: valid ones of both editions, and damaged ones. All is drawn from a
random.Random, so that a seed gives the same files again. It goes by the model, which says at once
whether a record would be accepted: most of those that would not be are left out, or a file would
soon end.
"""
from math import isqrt

from model import (ANNUAL, ANNUAL_COUNTS, BLOCK, CALIBRATION, CONDITIONS, COUNTS, DAY, DROP,
                   FIELDS_AT, FURTHEST, K, KINDS, LAST_MINUTE, PAIR, PLACES, READING, READINGS,
                   RECORD, RECORDS_AT, RESET, SETTING, VALUE, WEEK, Conditions, History, Pair,
                   alarms_of, annual_mark, applied, basis_of, block_bytes, calibrated,
                   calibrates_as, closing_bytes, in_standard, record_bytes, record_of, record_row,
                   s_of, sealed, start_of)

HIGHEST = 400_000                 # signal, SRM value, reading and reference
I32 = (-2**31, 2**31 - 1)


class Full(Exception):
    """The file has as many blocks as it shall have."""


class Ended(Exception):
    """The file has met a refusal."""


class Writer:
    """Records on their way into blocks, with the history that they lead to."""

    def __init__(self, rng):
        self.rng, self.blocks, self.records = rng, [], b''
        self.analyser = rng.choice((0, 7, 2**32 - 1, rng.getrandbits(32)))
        self.edition = rng.choice((1, 1, 2))
        self.history = History()
        self.goal = rng.choice((1, 2, 4, 6, 10, 15, 20, 30))
        self.spoils = rng.choice((0, 0, 0.002, 0.05))       # how often a refused record stays
        self.neat = rng.random() < 0.5                      # nothing but neutral conditions
        self.halves = []                                    # values that weeks are made of
        self.begin()

    def begin(self):
        rng = self.rng
        self.size = rng.choice((PLACES, PLACES, PLACES, rng.randint(1, PLACES)))
        if self.edition == 1 and rng.random() < 0.08:
            self.edition = 2

    def close(self):
        if self.records:
            self.blocks.append(block_bytes(
                self.analyser, len(self.blocks), self.edition, self.records))
            self.records = b''
            self.begin()

    def put(self, record, spoils=None):
        """Adds a record. One that is refused is left out, or ends the file."""
        r = record_of(record, self.edition)
        refused = record_row(self.history, r)
        if refused and self.rng.random() >= (self.spoils if spoils is None else spoils):
            return False
        self.records += record
        if refused:
            self.close()
            raise Ended
        self.history = applied(self.history, r)
        if len(self.records) == RECORD * self.size:
            self.close()
            if len(self.blocks) >= self.goal:
                raise Full
        return True

    @property
    def minute(self):
        return self.history.minute or 0

    def conditions(self):
        """Of a pair or a value: as in the formula's reference, mild, or anything in range."""
        rng, oxygen = self.rng, self.history.setting.oxygen
        style = rng.random()
        if self.neat or style < 0.4:
            return Conditions(0, 0, 0, oxygen)
        if style < 0.8:
            return Conditions(rng.randint(-2000, 20000), rng.randint(-300, 300),
                              rng.randint(0, 2000), min(1800, oxygen + rng.randint(0, 300)))
        return Conditions(*(inside(rng, ends) for ends in CONDITIONS))


def inside(rng, ends):
    """A number of a range, its ends among them more often than others."""
    low, high = ends
    draw = rng.random()
    return low if draw < 0.05 else high if draw < 0.1 else rng.randint(low, high)


def about(rng, ends):
    """A number at the edge of a range, in it, or far from it."""
    low, high = ends
    return rng.choice((low - 1, low, low + 1, high - 1, high, high + 1,
                       rng.randint(low, high), rng.choice(I32)))


# ---- Stories: each adds some records

def first_setting(w):
    rng = w.rng
    limit = rng.choice((100, 1000, 10_000, 66_470, HIGHEST, inside(rng, (100, HIGHEST))))
    sigma = rng.choice((1, 10, 500, 10000, rng.randint(1, 10000)))
    s = [rng.choice((1, 2, 5, 10, 44, 100, 1000, 10000, rng.randint(1, 300))) for _ in range(2)]
    oxygen = rng.choice((0, 1100, 1800, rng.randint(0, 1800)))
    response = rng.choice((0, 0, 1, 7, 15, 60))
    minute = rng.choice((0, 1, rng.randint(0, 20000), rng.randint(0, 50_000_000)))
    numbers = [limit, sigma, *s, oxygen, response]
    if rng.random() < 0.1:
        i = rng.randrange(6)
        numbers[i] = about(rng, KINDS[SETTING].ranges[i])
    w.put(record_bytes(SETTING, 0, minute, *numbers), 1)


def difference(w, chart, s):
    """The next difference of a chart: drifting, or at the edge of one of its alarms."""
    rng, style = w.rng, w.rng.random()
    if style < 0.35:
        return rng.randint(-s, s)
    if style < 0.6:
        return rng.choice((1, -1)) * rng.randint(s, 2 * s)
    off = rng.choice((-1, 0, 0, 1))
    if style < 0.75:
        return (3351 * s - chart.p) // 1000 + off
    if style < 0.9:
        return -((3351 * s - chart.m) // 1000) - off
    step = isqrt(max(0, 175 * s * s - chart.v) // 10) + off
    return chart.last + rng.choice((1, -1)) * step


def reading_of(w, mark, d, minute):
    """A reading whose difference is d, as far as there is room for it."""
    reference = w.rng.choice((0, 0, 500, max(0, -d), w.rng.randint(0, 3000)))
    d = max(-2 * HIGHEST, min(HIGHEST, d))
    reference = max(0, min(reference, HIGHEST - d), -d - HIGHEST)
    return record_bytes(READING, mark, minute, d + reference, reference)


def charts(w):
    rng = w.rng
    mark = rng.randint(0, 1)
    if not w.history.charts[mark].started or rng.random() < 0.3:
        w.put(record_bytes(RESET, mark, later(w, rng.choice((0, 5, 2000)))))
    for _ in range(rng.choice((3, 8, 20))):
        s = s_of(w.history.setting, mark)
        d = difference(w, w.history.charts[mark], s)
        w.put(reading_of(w, mark, d, later(w, rng.choice((0, 0, 60, 1500)))))
        if rng.random() < 0.1:
            mark = 1 - mark


def later(w, most):
    """A minute at most so much later."""
    return min(LAST_MINUTE, w.minute + w.rng.randint(0, most))


def clamped(v):
    return max(0, min(HIGHEST, v))


def at_flip(rng, low, high, test):
    """A number at the place where the test's answer changes between low and high."""
    first = test(low)
    while high - low > 1:
        middle = (low + high) // 2
        low, high = (middle, high) if test(middle) == first else (low, middle)
    return rng.choice((low, high))


# ---- Pairs and closings

def next_end(w, length, gap):
    """The end of a pair that follows the newest one that waits, and the last record."""
    pairs = w.history.pairs
    soonest = max(w.minute, length)
    if pairs:
        soonest = max(soonest, pairs[-1].end + length)
        if length < 60:
            soonest = max(soonest, start_of(pairs[-1]) + 61 + length)
    draw = w.rng.random()
    if draw < 0.03:
        return soonest - 1
    return soonest if draw < 0.2 else soonest + w.rng.randint(0, gap)


def last_end(w):
    """The end of a set's last pair: 28 days after its first start, or its third day; or none."""
    first, draw = w.history.pairs[0], w.rng.random()
    if draw < 0.1:
        return start_of(first) + 40_320 + w.rng.randint(0, 1)
    if draw < 0.15:
        return (first.end // DAY + 2) * DAY - w.rng.randint(0, 1)
    return None


def put_pair(w, values, gap, end=None, spoils=None):
    """A pair with a signal, an SRM value and conditions."""
    rng, response = w.rng, w.history.setting.response or 7
    length = rng.choice((60, 60, 60, 60, 4 * response, max(30, 4 * response), 4 * response - 1,
                         rng.randint(30, 200), rng.choice((59, 60, 61)),
                         1440 if rng.random() < 0.1 else 60))
    coverage = rng.choice((91, 100, 95, 90 if rng.random() < 0.1 else 91))
    x, y, at = values
    minute = max(0, next_end(w, length, gap) if end is None else end)
    numbers = (length, coverage, clamped(x), clamped(y)) + tuple(at)
    return w.put(record_bytes(PAIR, 0, minute, *numbers), spoils)


def put_pairs(w, wanted, gap, values):
    """So many pairs, as far as they are accepted; `values` answers those of the next one."""
    for _ in range(3 * wanted):
        waiting = len(w.history.pairs)
        if waiting >= wanted:
            break
        end = last_end(w) if waiting and waiting == wanted - 1 else None
        put_pair(w, values(waiting), gap, end)


def narrow_pairs(rng, limit):
    """SRM values that lie closer together than 15 percent of the limit, or as much apart."""
    base, apart = rng.randint(1, HIGHEST // 4), 15 * limit // 100
    width = rng.choice((0, 1, apart // 2, apart - 1, apart, apart + 1))
    return lambda: base + rng.choice((0, width, rng.randint(0, max(0, width))))


def pair_values(rng, style, z, setting):
    """A drawing of (signal, SRM value) for the pairs of one calibration, each by its place."""
    slope = rng.choice((1.0, 1.0, 1.0, 0.1, 1.1, 5.0, 9.99, 10.01, 0.00001, rng.random() * 3))
    noise = int(setting.sigma * rng.choice((0, 0.3, 0.9, 1.5, 1.7, 2)))
    most = min(HIGHEST // 4, int(HIGHEST / (slope + 1)))
    base, y = rng.randint(1, HIGHEST // 4), narrow_pairs(rng, setting.limit)
    same = rng.choice(SAME + ((base, base), (base, base // 2)))

    def line(n):
        x = rng.randint(0, most)
        return x, int((x - z) * slope) + rng.randint(-noise, noise)

    return {
        'line': line,
        'ratio': lambda n: (z + base + rng.randint(0, 9), y()),
        'same': lambda n: same,
        'flat': lambda n: (base, rng.randint(0, HIGHEST)),
        'low': lambda n: (max(0, z) + rng.choice((-1, 0, 0, 0, 1)), y()),
        'none': lambda n: (rng.randint(0, HIGHEST), rng.choice((0, 0, 1))),
        'square': lambda n: rng.choice(((40_000, HIGHEST), (0, 0), (0, 0))),
    }[style]


# Pairs all alike. With Z 0 the first two give halves in B, the next tops that values make halves of
SAME = ((HIGHEST, 2), (40_000, 1), (35, 35), (460, 460), (56, 56), (20, 20), (11, 11), (1, 2),
        (2_000, 1_000))
STYLES = ('line',) * 5 + ('ratio',) * 4 + ('same', 'same', 'flat', 'low', 'none', 'square')
# D's, in parts of k, of which Q is all that a calibration at sigma 10,000 may have
EXACT = {15: (1, 2, -3), 17: (2, -2, 2, -2), 19: (3, -3), 25: (2, 2, -4)}


def far_pair(w):
    """A signal, SRM value and conditions with y' at 10,000,000 if it can be, and c about there."""
    rng, oxygen = w.rng, w.history.setting.oxygen
    for _ in range(300):
        at = Conditions(rng.randint(20_000, 50_000), rng.randint(-2_000, 0),
                        rng.randint(3_000, 5_000), rng.randint(1_500, 1_800))
        y = clamped(FURTHEST * HIGHEST // max(1, in_standard(HIGHEST, at, oxygen, w.edition)))
        if 0 <= in_standard(y, at, oxygen, w.edition) - FURTHEST <= 1:
            break
    return y // 9 + rng.choice((-1, 0, 0, 1)), y, at


def exact_values(w, wanted):
    """Values of which Q is the highest that passes, or just over it."""
    ds = [part * K[wanted] for part in EXACT[wanted]] + [0] * wanted
    ds[0] += w.rng.choice((0, 0, 1))
    at = Conditions(0, 0, 0, w.history.setting.oxygen)
    return [(200_000, 200_000 + d, at) for d in ds[:wanted]]


def verdict_values(w, wanted, z):
    """Values that just pass, or just fail, the variability test of a calibration."""
    rng, h = w.rng, w.history
    at, basis = w.conditions(), basis_of(h.setting)
    if wanted in EXACT and basis.sigma == 10_000 and basis.limit > 330_000:
        return exact_values(w, wanted)
    xs = [rng.randint(max(0, z) + 10, HIGHEST // 4) for _ in range(wanted)]
    noise = [rng.randint(-8 * basis.sigma, 8 * basis.sigma) for _ in xs]

    def values(t):
        return [(x, clamped(x + n * t // 10**6), at) for x, n in zip(xs, noise)]

    def passes(t):
        pairs = [Pair(60, 95, x, y, *at) for x, y, at in values(t)]
        row, figures = calibrates_as(pairs, basis, z, w.edition)
        return row == 0 and figures.mark == 1

    return values(at_flip(rng, 0, 10**6, passes))


def slope_values(w):
    """Fifteen values of which, with Z 0, B is at 1,000,000 or at 1, or up to a step off."""
    y, more = w.rng.choice(((133_333, w.rng.randint(4, 8)), (0, w.rng.randint(0, 3))))
    at = Conditions(0, 0, 0, w.history.setting.oxygen)
    return [(200_000, y + more, at)] + [(0, y, at)] * 14


def far_values(w, wanted):
    """Values nine times their signals, the last in conditions that raise it very much."""
    xs = [w.rng.randint(1_000, 44_000) for _ in range(wanted - 1)]
    at = w.conditions()
    return [(x, 9 * x + w.rng.randint(-9, 9), at) for x in xs] + [far_pair(w)]


def drawn_values(w, z):
    """Values of some style, each drawn when it is asked for."""
    draw = pair_values(w.rng, w.rng.choice(STYLES), z, w.history.setting)
    at = [w.conditions()]

    def values(n):
        if not w.neat and w.rng.random() < 0.3:
            at[0] = w.conditions()
        return (*draw(n), at[0])
    return values


def calibration(w):
    """Pairs and a closing after them."""
    rng = w.rng
    if w.history.pairs and rng.random() < 0.8:
        w.put(record_bytes(DROP, 0, later(w, 100)))
    z = rng.choice((0, 0, 0, 100, -10_000, 10_000, rng.randint(-9999, 9999)))
    wanted = rng.choice(COUNTS + (15, 15, 15, 15, 16, 17, 18, rng.randint(0, 31)))
    values, style = drawn_values(w, z), rng.random()
    if wanted in COUNTS and style < 0.12:
        values = verdict_values(w, wanted, z).__getitem__
    elif wanted in COUNTS and style < 0.2:
        values = far_values(w, wanted).__getitem__
    elif wanted == 15 and style < 0.3:
        values, z = slope_values(w).__getitem__, 0
    put_pairs(w, wanted, rng.choice((100, 40, 300, 600, 1300, 1400)), values)
    if len(w.history.pairs) == 30 and rng.random() < 0.2:
        put_pair(w, values(0), 100, None, 0.5)
    put_closing(w, CALIBRATION, z)


def even_tops(w):
    """A calibration by which c is the signal, and weeks of values with c a half over its top."""
    n = w.rng.choice((11, 20, 36, 56, 56, 460, 460, w.rng.randint(1, 500)))
    w.put(record_bytes(DROP, 0, w.minute))
    at = Conditions(0, 0, 0, w.history.setting.oxygen)
    put_pairs(w, 15, 300, lambda i: (n, n, at))
    put_closing(w, CALIBRATION, 0)
    weeks(w, 1.0)


def annual_values(w, wanted):
    """Values that just hold, or just don't, one of the annual test's two parts."""
    rng, h = w.rng, w.history
    at, basis = w.conditions(), basis_of(h.setting)
    xs = [rng.randint(0, HIGHEST // 4) for _ in range(wanted)]
    lines = [(h.function.intercept + h.function.slope * x) // 100_000 for x in xs]
    noise = [rng.randint(-8 * basis.sigma, 8 * basis.sigma) for _ in xs]
    part, sign = rng.choice((1, 2)), rng.choice((1, -1))
    small = rng.choice((0, 10, 1_000, 3_000))

    def values(t):
        if part == 1:
            return [(x, clamped(v + n * t // 10**6), at) for x, v, n in zip(xs, lines, noise)]
        total = 8 * basis.sigma * wanted * t // 10**6
        return [(x, clamped(v + sign * ((total + i) // wanted) + n * small // 10_000), at)
                for i, (x, v, n) in enumerate(zip(xs, lines, noise))]

    def holds(t):
        pairs = [Pair(60, 95, x, y, *at) for x, y, at in values(t)]
        row, mark = annual_mark(pairs, basis, h.function, w.edition)
        return row == 0 and mark & part != 0

    out = values(at_flip(rng, 0, 10**6, holds))
    if rng.random() < 0.3:
        x, y, far = far_pair(w)
        x = (y * 100_000 - h.function.intercept) // h.function.slope
        out[0] = x + rng.choice((0, 0, 1)), y, far
    return out


def annual(w):
    """Pairs that follow the function in force, more or less, and an annual closing."""
    rng, h = w.rng, w.history
    if h.function is None and rng.random() < 0.9:
        return
    if h.pairs and rng.random() < 0.9:
        w.put(record_bytes(DROP, 0, later(w, 100)))
    wanted = rng.choice(ANNUAL_COUNTS + (5, rng.randint(4, 9)))
    values = [(100, 100, w.conditions())] * 9
    if h.function is not None and wanted in ANNUAL_COUNTS:
        values = annual_values(w, wanted)
    put_pairs(w, wanted, 1000, values.__getitem__)
    put_closing(w, ANNUAL, 0)


def bent(rng, record):
    """A closing with one stored thing another."""
    kind, places = record[0], (8, 12, 16, 20, 24, 28)
    if kind == ANNUAL:
        places = (8,)
    if rng.random() < 0.3:
        mark = rng.choice((0, 1, 2, 3, 4, 255))
        return record[:1] + bytes([mark]) + record[2:]
    i = rng.choice(places) + rng.choice((0, 0, 1, 3))
    return record[:i] + bytes([record[i] ^ 1 << rng.randint(0, 7)]) + record[i + 1:]


def put_closing(w, kind, z):
    """The closing that the model makes; now and then another one in its place."""
    rng, draw = w.rng, w.rng.random()
    edition = 3 - w.edition if draw < 0.05 else w.edition
    minute = later(w, rng.choice((0, 10, 1000)))
    row, record = closing_bytes(w.history, edition, kind, minute, z)
    if row:
        numbers = (z, 1, 0, 1, 15) if kind == CALIBRATION else (5,)
        record = record_bytes(kind, rng.choice(KINDS[kind].marks), minute, *numbers)
        w.put(record, 0.1 if row in (20, 21) else 0.6)
    elif draw > 0.94:
        w.put(bent(rng, record), 0.3)
    else:
        w.put(record, 0.3)


# ---- Values and weeks

SHARES = ((20, 1), (20, 2), (19, 1), (21, 1), (40, 2), (41, 2), (5, 2), (5, 3), (10, 4), (3, 1),
          (3, 2), (1, 0), (1, 1), (4, 0), (0, 0), (7, 3), (2, 1), (60, 3), (60, 4))


def half_value(w):
    """A signal and conditions with c a half over the top in force, or none."""
    f, oxygen = w.history.function, w.history.setting.oxygen
    wanted = 2 * f.top + 1
    if (wanted * 50_000 - f.intercept) % f.slope == 0:
        x = (wanted * 50_000 - f.intercept) // f.slope
        if 0 <= x <= HIGHEST and w.rng.random() < 0.3:
            return x, Conditions(0, 0, 0, oxygen)
    for _ in range(30):
        v = w.rng.randint(f.top // 3, 3 * f.top + 2)
        if (v * 100_000 - f.intercept) % f.slope == 0:
            x, at = (v * 100_000 - f.intercept) // f.slope, half_ways(w.rng, oxygen, v, wanted)
            if at and 0 <= x <= HIGHEST:
                return x, at
    return None


def half_ways(rng, oxygen, v, wanted):
    """Conditions that take v to `wanted` halves by one factor alone, or none."""
    neutral, ways = Conditions(0, 0, 0, oxygen), []
    for over, name, most, sign in ((10130, 'pressure', 10130, 1), (10000, 'water', 10000, -1),
                                   (2100 - oxygen, 'oxygen', 2100, -1)):
        under, rest = divmod(2 * v * over, wanted)
        field = sign * (under - most)
        low, high = CONDITIONS[Conditions._fields.index(name)]
        if not rest and low <= field <= high and under % 2 == 0:
            ways.append(neutral._replace(**{name: field}))
    return rng.choice(ways) if ways else None


def edge_signal(w, at, outside):
    """A signal whose c is the last inside or the first outside, at the top or at 0."""
    rng, h, f = w.rng, w.history, w.history.function
    over = rng.random() < 0.8

    def c_is_beyond(x):
        c = calibrated(x, at, f, h.setting.oxygen, w.edition)
        return c > f.top if over else c >= 0

    low, high = 0, HIGHEST
    while high - low > 1:
        middle = (low + high) // 2
        low, high = (low, middle) if c_is_beyond(middle) else (middle, high)
    return high if over == outside else low


def put_value(w, outside, minute):
    """A value near the top in force or near 0, on the side that is wanted."""
    rng = w.rng
    at, mark = w.conditions(), int(rng.random() < 0.05)
    if w.history.function is None:
        x = 0
    elif w.halves:
        x, at = rng.choice(w.halves)
    else:
        x = edge_signal(w, at, outside) if rng.random() < 0.9 else rng.randint(0, HIGHEST)
    return w.put(record_bytes(VALUE, mark, minute, x, *at))


def weeks(w, halves=0.2):
    """Weeks of values, some of them outside; or of halves, which the edition's rule decides."""
    rng = w.rng
    if w.history.function is None:
        put_value(w, 0, w.minute)
        return
    found = [half_value(w) for _ in range(3)] if rng.random() < halves else []
    w.halves = [pair for pair in found if pair]
    share = rng.choice(SHARES)
    for _ in range(rng.choice((1, 1, 2, 5, 6, 7, 8))):
        if rng.random() < 0.2:
            share = rng.choice(SHARES)
        minute = (w.minute // WEEK + rng.choice((1, 1, 1, 2))) * WEEK + rng.choice((0, WEEK - 1))
        for i in range(share[0]):
            put_value(w, i < share[1], min(minute, LAST_MINUTE))
    w.halves = []


# ---- Edges

def edge_minute(w):
    rng = w.rng
    return rng.choice((w.minute, w.minute, later(w, 3000), later(w, 50), max(0, w.minute - 1),
                       LAST_MINUTE + rng.choice((0, 1)) if rng.random() < 0.2 else w.minute,
                       2**32 - 1 if rng.random() < 0.1 else w.minute))


def edge_record(w, spoils=0.1):
    """A record with one number at an edge, or a wrong mark or byte, and else in order."""
    rng = w.rng
    kind = rng.choice((1, 2, 2, 3, 4, 4, 4, 5, 6, 7, 7, 8))
    form, minute = KINDS[kind], edge_minute(w)
    numbers = [15 if ends is None else rng.randint(*ends) for ends in form.ranges]
    if kind == PAIR:
        numbers[:2] = rng.choice((60, 240)), rng.randint(91, 100)
        minute = max(minute, next_end(w, numbers[0], 100))
    ranged = [i for i, ends in enumerate(form.ranges) if ends is not None]
    draw = rng.random()
    if ranged and draw < 0.6:
        i = rng.choice(ranged)
        numbers[i] = about(rng, form.ranges[i])
    record = bytearray(record_bytes(kind, rng.choice(form.marks), minute, *numbers))
    if draw > 0.9:
        record[1] = rng.choice((1, 2, 3, 4, 255))
    elif draw > 0.8:
        at = rng.choice((2, 3, FIELDS_AT + form.layout.size, RECORD - 1, rng.randrange(RECORD)))
        record[at % RECORD] ^= 1 << rng.randrange(8)
    elif draw > 0.77:
        record[0] = rng.choice((0, 9, 10, 255))
    w.put(bytes(record), spoils)


def quiet(w):
    """Resets the charts that show an alarm."""
    for mark in (0, 1):
        if any(alarms_of(w.history.charts[mark], s_of(w.history.setting, mark))):
            w.put(record_bytes(RESET, mark, w.minute))


def ages(w):
    """No alarm, and a jump to the age of the call or of the calibration, give or take a minute.

    Where there is no call it is so far that one would show."""
    h, rng = w.history, w.rng
    if h.function is None or w.minute > LAST_MINUTE - 2_700_000:
        return
    quiet(w)
    old = h.function.minute + 2_629_440
    if h.call is not None:
        minute = h.call + 263_520
    else:
        minute = old if rng.random() < 0.3 else min(old, w.minute + 263_530)
    w.put(record_bytes(DROP, 0, max(w.minute, minute + rng.choice((-1, 0, 0, 1)))))


# What files are about: charts, a calibration and what follows from it, or all at once
STORIES = (
    (charts,) * 5 + (edge_record,),
    (calibration,) * 4 + (annual,) * 2 + (weeks,) * 5 + (ages,) * 3 + (edge_record, even_tops),
    (charts,) * 2 + (calibration,) * 3 + (annual, weeks, weeks, ages, edge_record),
)


def told(w):
    """The setting, and stories until the file has its blocks."""
    if w.rng.random() < 0.02:
        edge_record(w)
    first_setting(w)
    stories = w.rng.choice(STORIES)
    while True:
        w.rng.choice(stories)(w)


def limits(w):
    """A chart whose last reading takes a sum to its limit, or just over it."""
    rng, mark = w.rng, w.rng.randint(0, 1)
    s = s_of(w.history.setting, mark)
    k, sign, over = s // 5, rng.choice((1, -1)), rng.choice((0, 0, 1))
    w.put(record_bytes(RESET, mark, w.minute))
    if rng.random() < 0.5:                      # two steps, whose squares are 21.2 s² together
        ds = (23 * k, 24 * k + over)
    else:                                       # ten readings of 7.86 s together, or one of 3.351
        ds = (s,) * 9 + (-114 * s // 100 + over,) if s % 1000 else (3351 * s // 1000 + over,)
    for d in ds:
        w.put(reading_of(w, mark, sign * d, w.minute))


def ended(w):
    """A last record or two, by which more of what went before shows in the report."""
    w.goal, draw = 10**6, w.rng.random()
    if draw < 0.5:
        ages(w)
    elif draw < 0.65:
        limits(w)
    else:
        edge_record(w, 1)


def valid_blocks(rng):
    """The blocks of a file that is taken whole, but perhaps for a record in its last block."""
    w = Writer(rng)
    try:
        try:
            told(w)
        except Full:
            ended(w)
    except Ended:
        pass
    w.close()
    return w.blocks


def full_chart(rng):
    """Blocks in which a chart gets a reading after its hundred thousandth."""
    mark, s = rng.randint(0, 1), rng.choice((1, 44))
    setting = record_bytes(SETTING, 0, 5, 10_000, 500, s, s, 1100, 0)
    records = [setting, record_bytes(RESET, 1 - mark, 6), record_bytes(RESET, mark, 7)]
    records += [record_bytes(READING, 1 - mark, 8, 3, 0)] * rng.randint(0, 9)
    draws = [record_bytes(READING, mark, 9, s * d // 2, 0) for d in range(-3, 4)]
    records += rng.choices(draws, k=READINGS + rng.choice((1, 1, 2)))
    records.append(record_bytes(RESET, mark, 10))
    whole = b''.join(records)
    step = PLACES * RECORD
    return [block_bytes(9, n, 1, whole[at:at + step])
            for n, at in enumerate(range(0, len(whole), step))]


# ---- Damage

def resealed(block):
    return sealed(block[:510])


def with_byte(block, i, v):
    return block[:i] + bytes([v & 255]) + block[i + 1:]


def some_block(rng, blocks, change):
    """The blocks with one of them changed."""
    out, i = list(blocks), rng.randrange(len(blocks))
    out[i] = change(out[i])
    return out


def flipped(rng, blocks):
    """Bits changed, the check as it was."""
    data = bytearray(b''.join(blocks))
    for _ in range(rng.choice((1, 1, 2, 20))):
        data[rng.randrange(len(data))] ^= 1 << rng.randrange(8)
    return [bytes(data)]


def spoiled(rng, blocks):
    """A byte changed, and the check made right."""
    at = rng.choice((rng.randrange(510), RECORDS_AT + rng.randrange(12 * RECORD),
                     RECORDS_AT + RECORD * rng.randrange(12) + rng.choice((0, 1, 4, 5, 8, 9))))

    def change(b):
        v = rng.choice((b[at] + 1, b[at] - 1, 0, 255, rng.getrandbits(8)))
        return resealed(with_byte(b, at, v))
    return some_block(rng, blocks, change)


def headed(rng, blocks):
    """A wrong number in a block's head, or a stray byte, with the check made right."""
    def change(b):
        at, v = rng.choice(((8, 0), (8, 1), (8, 2), (8, 3), (8, 255), (9, 0), (9, 1), (9, 13),
                            (10, 1), (11, 128), (0, 1), (3, 255), (4, b[4] + 1), (4, b[4] - 1),
                            (6, 16), (7, 1), (492, 1), (509, 255), (12 + RECORD * b[9] % 480, 1)))
        return resealed(with_byte(b, at, v))
    return some_block(rng, blocks, change)


def numbered(rng, blocks):
    """A number at the end of what blocks may have."""
    n = rng.choice((999_999, 1_000_000, 2**32 - 1, 0))
    return some_block(rng, blocks, lambda b: resealed(b[:4] + n.to_bytes(4, 'little') + b[8:]))


def cut(rng, blocks):
    data = b''.join(blocks)
    at = rng.choice((rng.randrange(len(data) + 1), BLOCK * rng.randrange(len(blocks) + 1)))
    return [data[:max(0, at + rng.choice((-1, 0, 0, 1)))]]


def lengthened(rng, blocks):
    return blocks + [rng.choice((b'\0', bytes(511), bytes(512), rng.randbytes(512), blocks[0]))]


def doubled(rng, blocks):
    i = rng.randrange(len(blocks))
    return blocks[:i] + [blocks[i]] + blocks[i:]


def missing(rng, blocks):
    i = rng.randrange(len(blocks))
    return blocks[:i] + blocks[i + 1:]


def moved(rng, blocks):
    out = missing(rng, blocks)
    out.insert(rng.randrange(len(blocks)), rng.choice(blocks))
    return out


def foreign(rng, blocks):
    """A block of another file, at times with this one's analyser and the number that is due."""
    i, other = rng.randrange(len(blocks) + 1), rng.choice(valid_blocks(rng) or blocks)
    if rng.random() < 0.5:
        other = resealed(blocks[0][:4] + i.to_bytes(4, 'little') + other[8:])
    return blocks[:i] + [other] + blocks[i:]


def rewritten(rng, blocks, change):
    """The same with the records of one block changed, all of them with a right check."""
    def block(b):
        records = [b[i:i + RECORD] for i in range(12, 12 + RECORD * b[9], RECORD)]
        change(records)
        head = (b[:9] + bytes([len(records)]) + b[10:12] + b''.join(records)).ljust(510, b'\0')
        return sealed(head[:510])
    return some_block(rng, blocks, block)


def record_doubled(rng, blocks):
    return rewritten(rng, blocks, lambda rs: rs.insert(rng.randrange(len(rs) + 1),
                                                       rng.choice(rs)))


def record_missing(rng, blocks):
    return rewritten(rng, blocks, lambda rs: rs.pop(rng.randrange(len(rs))))


def record_bent(rng, blocks):
    """A number of one record a little higher or lower, or its minute."""
    def change(records):
        i = rng.randrange(len(records))
        at = rng.choice(range(4, RECORD, 4))
        v = int.from_bytes(records[i][at:at + 4], 'little') + rng.choice((-60, -1, 1, 1000))
        v = (v % 2**32).to_bytes(4, 'little')
        records[i] = records[i][:at] + v + records[i][at + 4:]
    return rewritten(rng, blocks, change)


def record_edged(rng, blocks):
    """A ranged number of one record at an end of its range, or past it."""
    def change(records):
        i = rng.randrange(len(records))
        form = KINDS.get(records[i][0])
        ranged = [(n, ends) for n, ends in enumerate(form.ranges) if ends] if form else []
        if ranged:
            n, ends = rng.choice(ranged)
            at, v = FIELDS_AT + 4 * n, about(rng, ends).to_bytes(4, 'little', signed=True)
            records[i] = records[i][:at] + v + records[i][at + 4:]
    return rewritten(rng, blocks, change)


def edition_from(rng, blocks):
    """Another edition from some block on, or in one block."""
    i, edition = rng.randrange(len(blocks)), rng.choice((1, 2))
    ends = rng.choice((i + 1, len(blocks)))
    return [resealed(with_byte(b, 8, edition)) if i <= n < ends else b
            for n, b in enumerate(blocks)]


def garbage(rng, blocks):
    return [rng.randbytes(rng.choice((0, 1, 511, 512, 513, 2048)))]


DAMAGES = (flipped, spoiled, spoiled, spoiled, headed, headed, numbered, cut, lengthened, doubled,
           missing, moved, foreign, foreign, record_doubled, record_missing, record_bent,
           record_bent, record_bent, record_edged, record_edged, record_edged, edition_from,
           edition_from)


def files(rng):
    """Files without end: each valid one, and then some damaged ones made of it."""
    while True:
        blocks = valid_blocks(rng)
        if not blocks:
            continue
        yield b''.join(blocks)
        for _ in range(rng.choice((1, 2, 4))):
            yield b''.join(rng.choice(DAMAGES)(rng, blocks))
        if rng.random() < 0.01:
            yield b''.join(garbage(rng, blocks))
