#!/usr/bin/env python3
"""tools/samples.py FOLDER: writes the sample files of crates/samples/data into FOLDER.

A new sample is one entry in `files`, its name in crates/samples/args, and what model.py prints for
it in crates/samples/stdout.
"""
import os
import sys

sys.dont_write_bytecode = True
from model import (BLOCK, CALIBRATION, DROP, PAIR, READING, RECORD, RECORDS_AT, RESET, SETTING,
                   VALUE, block_bytes, record_bytes, sealed)

PIECE = 128                     # blocks that the reader reads at a time, at most
E1 = record_bytes(SETTING, 0, 0, 66_470, 700, 44, 44, 1_100, 0)
E2 = record_bytes(SETTING, 0, 0, 10_000, 500, 44, 44, 1_100, 0)


def block(number, *records, edition=1, analyser=7):
    return block_bytes(analyser, number, edition, b''.join(records))


def changed(b, i, v, right=True):
    """A block with one byte changed, and its check made right or left as it was."""
    b = b[:i] + bytes([v]) + b[i + 1:]
    return sealed(b[:BLOCK - 2]) if right else b


def at_place(place, i):
    """Where byte i of a record stands in its block."""
    return RECORDS_AT + RECORD * place + i


def reading(minute, v=60, mark=0):
    return record_bytes(READING, mark, minute, v, 0)


def reset(minute=0, mark=0):
    return record_bytes(RESET, mark, minute)


def pair(end, coverage, x, y):
    return record_bytes(PAIR, 0, end, 60, coverage, x, y, 0, 0, 0, 1_100)


def value(minute, signal, mark=0):
    return record_bytes(VALUE, mark, minute, signal, 0, 0, 0, 1_100)


def closing(minute, *figures):
    return record_bytes(CALIBRATION, 1, minute, *figures)


def four(setting=E1):
    """A setting, a reset and three readings of 60: one more is an alarm."""
    return block(0, setting, reset(), reading(1), reading(2), reading(3))


def paired(pairs, rest, edition=1):
    """Two blocks of a setting, fifteen pairs and what follows them."""
    first, second = [E2] + pairs[:11], pairs[11:] + rest
    return block(0, *first, edition=edition) + block(1, *second, edition=edition)


def calibrated():
    pairs = [pair(1_500 + 300 * i, 91, 1_000, 1_000) for i in range(15)]
    return paired(pairs, [closing(6_000, 100, 111_111, -11_111_100, 1_100, 15)])


def start_up():
    """Values of mark 1 (C-11) in three blocks, and a block with a value of mark 2."""
    normal = value(10_080, 1_000), value(310_080, 1_000)
    high = [value(m, 400_000, 1) for m in (10_080, 20_160, 20_161, 300_000)]
    weeks = block(2, normal[0], high[0], value(10_081, 0, 1), *high[1:3],
                  record_bytes(DROP, 0, 30_240))
    last = block(4, normal[1], value(310_080, 400_000, 2))
    return calibrated() + weeks + block(3, high[3]) + last


def second_edition(edition):
    """A calibration that is edition 2's, in blocks of the edition that is told (C-12)."""
    ends = [1_500 + 1_440 * day + 60 * i for day in range(3) for i in range(5)]
    rest = [closing(6_000, 0, 2, 0, 2_000, 15), reset(6_001), reset(6_001, 1), reading(6_002),
            record_bytes(READING, 1, 6_002, 200_000, 200_000)]
    rest += [value(10_080 + i, 400_000) for i in range(3)]
    pairs = [pair(end, 100, 40_000, 1) for end in ends]
    return paired(pairs, rest, edition) + block(2, value(20_160, 40_000), edition=edition)


def changed_over(slope, top):
    """Pairs of edition 1, closed in edition 2 (C-13)."""
    pairs = [pair(1_000 + 360 * i, 100, 40_000, 1) for i in range(15)]
    made = closing(6_100, 0, slope, 0, top, 15)
    return paired(pairs, []) + block(2, made, value(10_080, 40_000), edition=2)


def editions(*wanted):
    """The first block and one of a reading for each edition that is wanted."""
    rest = [block(n, reading(n + 3), edition=e) for n, e in enumerate(wanted, 1)]
    return four(E2) + b''.join(rest)


def long(blocks):
    """Blocks of 1 to 12 records: the span chart is quiet, the zero chart falls."""
    out = [block(0, E1, reset(), reset(0, 1), analyser=2**32 - 1)]
    for n in range(1, blocks):
        readings = [reading(n, 0, 1)] * (n % 12) + [reading(n, -60)]
        out.append(block(n, *readings, analyser=2**32 - 1))
    return out


def refused_in_a_piece():
    """A block with a wrong check in the first piece, and the right one in the next."""
    out = long(PIECE + 3)
    out[PIECE], out[3] = out[3], changed(out[3], at_place(2, 8), 1, right=False)
    return b''.join(out)


def late():
    """Edition 1 in the first block of the second piece."""
    out = [block(0, E2, edition=2)]
    out += [block(n, record_bytes(DROP, 0, n), edition=2) for n in range(1, PIECE)]
    return b''.join(out) + block(PIECE, record_bytes(DROP, 0, PIECE))


def files():
    first, one = four(), block(0, E1)
    return {
        'empty': b'',
        'short': first[:-1],
        'block_and_byte': first + b'\0',
        'check': changed(first, at_place(2, 8), 61, right=False),
        'no_edition': changed(one, 8, 3),
        'no_records': block(0),
        'thirteen_records': changed(one, 9, 13),
        'stray_byte': changed(first, 509, 1),
        'past_the_count': changed(first, at_place(5, 0), 1),
        'number_too_large': block(1_000_000, E1),
        'other_analyser': first + block(1, reading(9), analyser=8),
        'other_number': first + block(2, reading(9)),
        'edition_1_then_2': editions(2),
        'edition_1_2_1': editions(2, 1),
        'edition_1_2_2': editions(2, 2),
        'edition_2_then_1': block(0, E1, edition=2) + block(1, reading(1)),
        'edition_and_analyser': editions(2) + block(2, reading(5), analyser=8),
        'first_not_0': block(1, E1),
        'refused_record': first + block(1, reading(9), reading(8)) + block(1, reading(9)),
        'alarm_in_the_second_block': first + block(1, reading(9)),
        'calibrated': calibrated(),
        'start_up': start_up(),
        'edition': block(0, E1, edition=2),
        'second_edition': second_edition(2),
        'second_edition_as_first': second_edition(1),
        'changed_over': changed_over(2, 2_000) + block(3, value(10_081, 400_000), edition=2),
        'changed_over_as_first': changed_over(3, 1),
        'first_record_refused': block(0, reading(0)),
        'last_record_refused': block(0, E1, *[reset()] * 10, b'\x09' + bytes(RECORD - 1)),
        'long': b''.join(long(515)),
        'full_piece': b''.join(long(PIECE)),
        'refused_ahead_of_a_piece': refused_in_a_piece(),
        'tail_in_the_second_piece': b''.join(long(PIECE + 1)) + bytes(3),
        'edition_2_then_1_late': late(),
    }


def main(words):
    if len(words) != 1:
        sys.exit(__doc__)
    for name, data in files().items():
        with open(os.path.join(words[0], name), 'wb') as f:
            f.write(data)


if __name__ == '__main__':
    main(sys.argv[1:])
