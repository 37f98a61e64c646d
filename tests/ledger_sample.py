#!/usr/bin/env python3
"""Writes the sample ledger and the text that the program `ledger` has to print for it, always the same.

    tests/ledger_sample.py REFERENCE

writes tests/ledgers/year.ledger and year.expected, and the same as crates/ledger/stdin and stdout, on which the gate
runs the program. REFERENCE is the program `ledger` of a second implementation, and the text is its own. Counts, rates
and bends are computed here once more, with whole numbers, fractions and Python's floats; where the two differ it ends
with status 1 and leaves the files as they were. `./desk year` and `./desk year --svg` on the sample make
tests/ledgers/year.shown and docs/year.svg.

The year: a person closes some 25 to 60 findings a month and dismisses 10 to 14 % of them, all year. From month 6 on a
script that nobody declared closes findings in bulk at the month's end, 24 to 70 of them, and dismisses nearly all. So
the rate with script closings bends after month 5, from 12.4 % to 61.0 %; without them it stays nearly flat and bends
after month 2, from 11.9 % to 12.6 %.
"""
import pathlib
import struct
import subprocess
import sys
from fractions import Fraction

HEAD, MONTHS = 96, 12
PERSON, SCRIPT = 0, 1

# Month by month, findings and dismissed.
BY_PERSON = [(46, 6), (38, 4), (47, 6), (46, 6), (25, 3), (36, 5), (45, 6), (50, 6), (39, 5), (60, 7), (30, 4), (27, 3)]
BY_SCRIPT = [(0, 0)] * 5 + [(24, 21), (56, 55), (70, 70), (62, 60), (70, 70), (48, 47), (52, 49)]

# Underflow and overflow of the arithmetic blocks, TWOHAND's findings, which have no text, and three that other kinds
# of block have: 0x4080, 0x4081, 0x4098, 0x4099 and 0x40B2 of source document 001.
TEXTS = [16512, 16513, 16513, 0, 16512, 16536, 16513, 0, 16537, 16512, 16562]


def spread(findings, dismissed):
    """The verdicts of a month, the dismissed ones evenly among the others."""
    return [(k + 1) * dismissed // findings - k * dismissed // findings for k in range(findings)]


def closings(month, closed_by, findings, dismissed):
    """The findings of one month that were closed alike, 6 bytes each. The blocks go round; a block has one text."""
    for k, verdict in enumerate(spread(findings, dismissed)):
        block = (11 * month + 29 * k) % 64
        yield struct.pack('<BBHBB', block, 0, TEXTS[block % len(TEXTS)], closed_by, verdict)


def body_of(month):
    return b''.join([*closings(month, PERSON, *BY_PERSON[month]), *closings(month, SCRIPT, *BY_SCRIPT[month])])


def ledger():
    bodies = [body_of(month) for month in range(MONTHS)]
    starts = [HEAD + sum(map(len, bodies[:month])) for month in range(MONTHS)]
    table = b''.join(struct.pack('<II', start, len(body)) for start, body in zip(starts, bodies))
    return table + b''.join(bodies)


def counts(file, with_script):
    """Findings and dismissed of each month, read from the file's bytes."""
    for month in range(MONTHS):
        start, length = struct.unpack_from('<II', file, 8 * month)
        entries = [file[at:at + 6] for at in range(start, start + length, 6)]
        taken = [entry for entry in entries if with_script or entry[4] == PERSON]
        yield len(taken), sum(entry[5] for entry in taken)


def share(lines):
    """The dismissed share of some months together."""
    return Fraction(sum(dismissed for _, dismissed in lines), sum(findings for findings, _ in lines))


def bend_of(lines):
    """The month where the share after it less the share up to it is largest, the earliest of several, or None."""
    both = [m for m in range(1, MONTHS) if any(f for f, _ in lines[:m]) and any(f for f, _ in lines[m:])]
    return max(both, key=lambda m: share(lines[m:]) - share(lines[:m]), default=None)


def text(file):
    for name, with_script in ('with', True), ('without', False):
        lines = list(counts(file, with_script))
        yield f'table {name}\n'
        for month, (findings, dismissed) in enumerate(lines, 1):
            bits = struct.pack('>d', dismissed / findings).hex() if findings else 'none'
            yield f'month {month} {findings} {dismissed} {bits}\n'
        yield f'bend {bend_of(lines) or "none"}\n'


def per_cent(fraction):
    """With one decimal, halves up."""
    tenths = int(fraction * 1000 + Fraction(1, 2))
    return f'{tenths // 10}.{tenths % 10}'


def check_year(file):
    """That the year is the one of the words above."""
    person = list(counts(file, False))
    assert person == BY_PERSON
    assert all(Fraction(10, 100) <= share([line]) <= Fraction(14, 100) for line in person)
    for with_script, bend, before, after in (True, 5, '12.4', '61.0'), (False, 2, '11.9', '12.6'):
        lines = list(counts(file, with_script))
        assert bend_of(lines) == bend
        assert (per_cent(share(lines[:bend])), per_cent(share(lines[bend:]))) == (before, after)


def main():
    if len(sys.argv) != 2:
        sys.exit(__doc__)
    file = ledger()
    check_year(file)
    expected = subprocess.run([sys.argv[1]], input=file, stdout=subprocess.PIPE, check=True).stdout
    if expected.decode() != ''.join(text(file)):
        sys.exit('ledger_sample: the second implementation prints another text')
    root = pathlib.Path(__file__).resolve().parent.parent
    for name, content in ('year.ledger', file), ('year.expected', expected):
        (root / 'tests/ledgers' / name).write_bytes(content)
    for name, content in ('stdin', file), ('stdout', expected):
        (root / 'crates/ledger' / name).write_bytes(content)
    print(len(file), 'bytes,', (len(file) - HEAD) // 6, 'findings')


main()
