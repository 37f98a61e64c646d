#!/usr/bin/env python3
"""Write the vectors of the program crate number_vectors, and what it has to print.

    python3 tests/number_vectors.py

writes crates/number_vectors/stdin and crates/number_vectors/stdout, always the same. `rt ci` then runs the program
on the one and compares what it prints with the other.

This is a second source for ADD, SUB, MUL and DIV: it is written from the words of document 01, "Arithmetic.", with
Python's exact integers and fractions, and not from the Rattle code. The records are those that
crates/number_vectors/src/main.rt describes.

Of each of the 64 mixes of types and the six operations it takes: results exactly at each limit of the output and one
beyond it, where two inputs of those types give them; the corners of the two input types; numbers around 0 of either
sign, which for DIV are halves; and for DIV a divisor of 0, and, where the types hold them, quotients of either sign
just below, at and just above a half and just below 1, by the greatest divisor, the one before it, and the least, or 2
where that is 0. The examples P1 to P9 of document 01 stand first, and are compared with what the document says of them.
A record that is broken off stands last, and has no line.
"""
import math
import pathlib
import struct
from fractions import Fraction
from itertools import product

ADD, SUB, MUL, FLOOR, CEIL, ROUND = range(6)
INT16, UINT16, INT32, UINT32 = range(4)
LEAST = [-2**15, 0, -2**31, 0]
GREATEST = [2**15 - 1, 2**16 - 1, 2**31 - 1, 2**32 - 1]


def rounded(op, quotient):
    if op == FLOOR:  # "floor cuts the fraction off"
        return math.trunc(quotient)
    if op == CEIL:  # "the smallest whole number not below the quotient"
        return math.ceil(quotient)
    below = math.floor(quotient)  # "round goes half away from zero"
    if quotient - below == Fraction(1, 2):
        return below if quotient < 0 else below + 1
    return below if quotient - below < Fraction(1, 2) else below + 1


def exact(op, a, b):
    """The exact result of the two inputs."""
    if op == ADD:
        return a + b
    if op == SUB:
        return a - b
    if op == MUL:
        return a * b
    return 0 if b == 0 else rounded(op, Fraction(a, b))  # "DIV by zero gives 0, no error"


def line(op, a, b, t):
    """What the block gives in an output of type t."""
    z = exact(op, a, b)
    return 'below' if z < LEAST[t] else 'above' if z > GREATEST[t] else str(z)


def holds(t, z):
    return LEAST[t] <= z <= GREATEST[t]


def edges(t):
    """Numbers of the type, those with the most on both sides first."""
    middle = (LEAST[t] + GREATEST[t]) // 2
    return [middle, LEAST[t], GREATEST[t], 0, 1, -1, LEAST[t] + 1, GREATEST[t] - 1]


def pairs_for(op, ta, tb, z):
    """Pairs that may give z, whatever their types hold."""
    if op in (ADD, SUB):
        for a in edges(ta):
            yield a, (z - a if op == ADD else a - z)
        for b in edges(tb):
            yield (z - b if op == ADD else z + b), b
    elif op == MUL:
        for factor in [2, -2, 3, -3, 4, -4, 5, 7, 17, 257, 65537, *edges(ta), *edges(tb)]:
            if factor != 0 and z % factor == 0:
                yield z // factor, factor
                yield factor, z // factor
    else:
        for b in [2, -2, 3, -3, 1, -1]:
            for more in range(abs(b), -abs(b) - 1, -1):
                yield z * b + more, b


def reaching(op, ta, tb, z):
    """One pair of inputs of the two types whose exact result is z, or none."""
    for a, b in pairs_for(op, ta, tb, z):
        if holds(ta, a) and holds(tb, b) and exact(op, a, b) == z:
            return [(a, b)]
    return []


def pairs(op, ta, tb, t):
    """The pairs of one mix of types, each once."""
    found = []
    for z in [LEAST[t] - 1, LEAST[t], GREATEST[t], GREATEST[t] + 1]:
        found += reaching(op, ta, tb, z)
    found += product([LEAST[ta], GREATEST[ta]], [LEAST[tb], GREATEST[tb]])
    if op in (FLOOR, CEIL, ROUND):
        found += [(5, 2), (-5, 2), (5, -2), (-5, -2), (-1, 2), (GREATEST[ta], 0)]
        for b in [GREATEST[tb], GREATEST[tb] - 1, LEAST[tb] or 2]:
            half = abs(b) // 2
            found += [(sign * a, b) for a in [half - 1, half, half + 1, abs(b) - 1] for sign in [1, -1]]
    else:
        found += [(1, 1), (-1, 1), (1, -1), (-1, -1), (0, 0)]
    return [p for p in dict.fromkeys(found) if holds(ta, p[0]) and holds(tb, p[1])]


# P1 to P9 of document 01: operation, type and number of each input, output type, and what the document says.
MARKED = [
    (SUB, INT16, -32768, INT16, 1, INT16, 'below'),
    (ADD, INT16, 30000, INT16, 2767, INT16, '32767'),
    (MUL, UINT32, 65535, UINT32, 65537, UINT32, '4294967295'),
    (MUL, UINT32, 65536, UINT32, 65536, UINT32, 'above'),
    (MUL, INT32, -2147483648, UINT32, 4294967295, INT32, 'below'),
    (FLOOR, INT16, 9, INT16, 0, INT16, '0'),
    (FLOOR, INT16, -7, INT16, 2, INT16, '-3'),
    (CEIL, INT16, -7, INT16, 2, INT16, '-3'),
    (ROUND, INT16, -7, INT16, 2, INT16, '-4'),
    (FLOOR, INT16, 5, INT16, 2, INT16, '2'),
    (CEIL, INT16, 5, INT16, 2, INT16, '3'),
    (ROUND, INT16, 5, INT16, 2, INT16, '3'),
    (FLOOR, INT32, -2147483648, INT32, -1, INT32, 'above'),
    (FLOOR, INT32, -2147483648, INT32, -1, UINT32, '2147483648'),
]


def main():
    vectors = []
    for op, ta, a, tb, b, t, said in MARKED:
        assert line(op, a, b, t) == said, (op, ta, a, tb, b, t)
        vectors.append((op, ta, tb, t, a, b))
    for op, ta, tb, t in product(range(6), range(4), range(4), range(4)):
        vectors += [(op, ta, tb, t, a, b) for a, b in pairs(op, ta, tb, t)]
    crate = pathlib.Path(__file__).resolve().parent.parent / 'crates' / 'number_vectors'
    word = 2**32
    records = b''.join(struct.pack('<4B2I', op, ta, tb, t, a % word, b % word) for op, ta, tb, t, a, b in vectors)
    (crate / 'stdin').write_bytes(records + records[:7])
    (crate / 'stdout').write_text(
        ''.join(line(op, a, b, t) + '\n' for op, ta, tb, t, a, b in vectors), newline='\n')
    print(len(vectors), 'vectors')


main()
