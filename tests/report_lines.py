#!/usr/bin/env python3
"""Write the records of the program crate report_lines, and the lines that it has to print.

    python3 tests/report_lines.py

writes crates/report_lines/stdin and crates/report_lines/stdout, always the same. `rt ci` then runs the program on the one and compares
what it prints with the other.

This is a second source for the lines of document 01, "The trace program", and for the months and bends of document 02, W4: the lines are
Python's own formatting of the numbers, and not made by the Rattle code. The records are those that crates/report_lines/src/main.rt
describes.

The lines of the document's listing stand first. Then come findings in which one number at a time takes every power of ten that it can be,
one less, one more, and its limits, the two inputs in each of the four types with either sign; inputs at the limits of every pair of
types; and `end` and `refused` with such numbers. Of a ledger's months each number takes its limits in turn, and the bits of a rate every
digit at every place, Python's own quotients and a hundred random values. A record that is broken off stands last, and has no line.
"""
import pathlib
import random
import struct
from itertools import product

INT16, UINT16, INT32, UINT32 = range(4)
LEAST = [-2**15, 0, -2**31, 0]
GREATEST = [2**15 - 1, 2**16 - 1, 2**31 - 1, 2**32 - 1]
FINDING, END, REFUSED, RATE, NO_RATE, BEND = range(6)
MONTHS = [0, 1, 2, 9, 10, 11, 12, 99, 100, 255]
COUNTS = [0, 1, 9, 10, 4094, 4095, 49139, 49140, 2**31, 2**32 - 1]
BITS = [0, 1, 2**32 - 1, 2**32, 2**63 - 1, 2**63, 2**64 - 1, 0x3ff0000000000000, 0x0123456789abcdef, 0xfedcba9876543210]


def edges(least, greatest):
    """0, the limits, and each power of ten with its neighbours, of either sign, as far as they lie within the limits."""
    found = {least, greatest, 0}
    for k in range(10):
        for n in (10**k - 1, 10**k, 10**k + 1):
            found |= {n, -n}
    return sorted(n for n in found if least <= n <= greatest)


def finding(cycle=2, block=0, text=16513, diagnosis=2, ta=INT16, a=30000, tb=INT16, b=2768):
    word = 2**32
    record = struct.pack('<4B2H3I', FINDING, block, ta, tb, text, diagnosis, cycle, a % word, b % word)
    return record, f'finding {cycle} {block} {text} {diagnosis} {a} {b}\n'


def end(cycles, findings):
    return struct.pack('<4B2H3I', END, 0, 0, 0, 0, 0, cycles, findings, 0), f'end {cycles} {findings}\n'


def refused(number):
    return struct.pack('<4B2H3I', REFUSED, number, 0, 0, 0, 0, 0, 0, 0), f'refused {number}\n'


def month(number=1, findings=3, dismissed=1, bits=None):
    """A month with the rate of these bits, or with none."""
    kind, word = (NO_RATE, 'none') if bits is None else (RATE, '%016x' % bits)
    low, high = (bits or 0) % 2**32, (bits or 0) >> 32
    record = struct.pack('<4B4I', kind, number, 0, 0, low, findings, dismissed, high)
    return record, f'month {number} {findings} {dismissed} {word}\n'


def rate(number, findings, dismissed):
    """A month with its rate, the quotient as a double."""
    return month(number, findings, dismissed, int.from_bytes(struct.pack('>d', dismissed / findings), 'big'))


def bend(number):
    return struct.pack('<4B4I', BEND, number, 0, 0, 0, 0, 0, 0), f'bend {number}\n'


def ledger_rows():
    yield rate(1, 3, 1)
    yield month(2, 0, 0)
    for bits in [None, *BITS]:
        yield from (month(number=n, bits=bits) for n in MONTHS)
        yield from (month(findings=n, bits=bits) for n in COUNTS)
        yield from (month(dismissed=n, bits=bits) for n in COUNTS)
        yield month(255, 2**32 - 1, 2**32 - 1, bits)
    yield from (month(bits=digit << 4 * place) for place in range(16) for digit in range(1, 16))
    yield from (rate(12, n, d) for n in [1, 2, 3, 7, 4095, 49140] for d in sorted({0, 1, n // 2, n - 1, n}))
    numbers = random.Random(54)
    for _ in range(100):
        yield month(numbers.randrange(256), *(numbers.getrandbits(k) for k in (32, 32, 64)))
    yield from (bend(n) for n in range(256))


def rows():
    yield finding()
    yield end(2, 1)
    yield from (finding(cycle=n) for n in edges(0, 2**32 - 1))
    yield from (finding(block=n) for n in edges(0, 255))
    yield from (finding(text=n) for n in [16512, *edges(0, 65535)])
    yield from (finding(diagnosis=n) for n in [1, 2, 4, 64, 71, *edges(0, 65535)])
    for t in range(4):
        yield from (finding(ta=t, a=n) for n in edges(LEAST[t], GREATEST[t]))
        yield from (finding(tb=t, b=n) for n in edges(LEAST[t], GREATEST[t]))
    for ta, tb in product(range(4), range(4)):
        for a, b in product([LEAST[ta], GREATEST[ta]], [LEAST[tb], GREATEST[tb]]):
            yield finding(4294967295, 255, 65535, 65535, ta, a, tb, b)
    yield from (end(n, 0) for n in edges(0, 2**32 - 1))
    yield from (end(0, n) for n in edges(0, 2**32 - 1))
    yield from (refused(n) for n in range(256))
    yield from ledger_rows()


def main():
    made = list(rows())
    assert made[0][1] == 'finding 2 0 16513 2 30000 2768\n' and made[1][1] == 'end 2 1\n'
    assert rate(1, 3, 1)[1] == 'month 1 3 1 3fd5555555555555\n' and month(2, 0, 0)[1] == 'month 2 0 0 none\n'
    crate = pathlib.Path(__file__).resolve().parent.parent / 'crates' / 'report_lines'
    (crate / 'stdin').write_bytes(b''.join(record for record, _ in made) + made[0][0][:7])
    (crate / 'stdout').write_text(''.join(line for _, line in made), newline='\n')
    print(len(made), 'lines')


main()
