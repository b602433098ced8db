#!/usr/bin/env python3
"""blocks.py MIX BLOCKS > FILE: a file of blocks that the reader takes whole, for timing it.

MIX is one of
  mixed    three quarters values and a quarter readings; every 24,000 such records a calibration, an annual test, a drop and
           the resets
  resets   resets alone
  pairs    thirty pairs and a drop, again and again
The first record is a setting in each. The same arguments give the same file.
"""
import binascii
import random
import struct
import sys

ANALYSER = 77
LIMIT, SIGMA, ZERO_S, SPAN_S, OXYGEN, RESPONSE = 10000, 500, 44, 60, 1100, 0
LAST_MINUTE = 100_000_000
RENEWAL = 24_000  # records from one renewal of calibration and charts to the next


def record(kind, mark, minute, fields=b""):
    return struct.pack("<BBHI", kind, mark, 0, minute) + fields.ljust(32, b"\0")


def setting(minute):
    return record(1, 0, minute, struct.pack("<6i", LIMIT, SIGMA, ZERO_S, SPAN_S, OXYGEN, RESPONSE))


def reading(mark, minute, value, reference):
    return record(2, mark, minute, struct.pack("<2i", value, reference))


def reset(mark, minute):
    return record(3, mark, minute)


def pair(minute, length):
    """Signal and reference value 1,000 in neutral conditions, coverage 100."""
    return record(4, 0, minute, struct.pack("<8i", length, 100, 1000, 1000, 0, 0, 0, OXYGEN))


def calibration(minute):
    """The closing of fifteen such pairs with Z 100: B 111,111, A -11,111,100, top 1,100, passed."""
    return record(5, 1, minute, struct.pack("<2iq2i", 100, 111111, -11111100, 1100, 15))


def annual(minute):
    """The closing of five such pairs: no deviation, both verdicts passed."""
    return record(6, 3, minute, struct.pack("<i", 5))


def value(minute, signal, t, p, h, o):
    return record(7, 0, minute, struct.pack("<5i", signal, t, p, h, o))


def drop(minute):
    return record(8, 0, minute)


def renewal(minute):
    """Pairs over more than three days and their closing, an annual test, a pair that is dropped, and both charts reset: the records, and their last minute."""
    records = []
    for count, close in ((15, calibration), (5, annual), (1, drop)):
        for _ in range(count):
            minute += 330
            records.append(pair(minute, 60))
        records.append(close(minute))
    return records + [reset(0, minute), reset(1, minute)], minute


def mixed():
    draw = random.Random(1)
    minute = 0
    yield setting(minute)
    while True:
        records, minute = renewal(minute)
        yield from records
        for k in range(RENEWAL):
            minute += 5
            if k % 4 == 3:
                mark = k // 4 % 2
                reference = 80000 * mark
                yield reading(mark, minute, reference + draw.randrange(-50, 51), reference)
            else:
                yield value(minute, draw.randrange(500, 1000), draw.randrange(0, 20000), draw.randrange(-200, 200),
                            draw.randrange(0, 1000), draw.randrange(200, 1200))


def resets():
    yield setting(0)
    minute = 0
    while True:
        minute += 5
        yield reset(minute % 2, minute)


def pairs():
    yield setting(0)
    minute = 0
    while True:
        for _ in range(30):
            minute += 60
            yield pair(minute, 60)
        yield drop(minute)


def block(number, records):
    head = struct.pack("<IIBBH", ANALYSER, number, 1, len(records), 0)
    body = (head + b"".join(records)).ljust(510, b"\0")
    return body + struct.pack("<H", binascii.crc_hqx(body, 0xFFFF))


def main():
    mixes = {"mixed": mixed, "resets": resets, "pairs": pairs}
    if len(sys.argv) != 3 or sys.argv[1] not in mixes or not 1 <= int(sys.argv[2]) <= 1_000_000:
        sys.exit(__doc__)
    records = mixes[sys.argv[1]]()
    out = sys.stdout.buffer
    for number in range(int(sys.argv[2])):
        twelve = [next(records) for _ in range(12)]
        if struct.unpack_from("<I", twelve[-1], 4)[0] > LAST_MINUTE:
            sys.exit("blocks.py: the minutes end at block %d" % number)
        out.write(block(number, twelve))


main()
