#!/usr/bin/env python3
"""Writes requests to check a file (`C`) and the answers that `batch` has to give, for tests/corpus.

    tests/casefile_vectors.py BATCH REQUESTS ANSWERS

A case is a file with the number of document 01, "Turned down: numbers and order" (0 accepted), that was written down
here from reading that document: for every clause a file that breaks only it, at its boundary, and the neighbour that is
accepted. After them come damaged copies of accepted files, whose numbers are the second implementation's: BATCH is its
program. It is asked about every file, and the script fails where a number that is written down is not the one that it
answers, and where a number does not come up.
"""
import pathlib
import struct
import subprocess
import sys

DECOUPLE, TWOHAND, ADD, SUB, MUL, DIV = 1, 2, 3, 4, 5, 6
INT16, UINT16, INT32, UINT32, BOOL = 0, 1, 2, 3, 4
EL6900, EL6910 = 0, 1
NONE = (0, 0, 0)
CASES = []


def ext(index, port=0):
    return (1, index, port)


def out(block, port):
    return (2, block, port)


def block(kind, order=0, group=0, parameters=(), links=(), zero=0):
    """A record of B; `links` is a dict by port or a list from port 0 on."""
    links = links if isinstance(links, dict) else dict(enumerate(links))
    bytes_ = bytes([kind, group, order, zero]) + bytes(parameters).ljust(12, b'\0')
    return bytes_ + b''.join(bytes(links.get(p, NONE)) for p in range(8))


def twohand(active=0b1111, opened=0, d1=0, d2=0, t=0, spare=(0, 0, 0, 0)):
    return struct.pack('<BBHHH', active, opened, d1, d2, t) + bytes(spare)


def case_file(device=EL6910, runs=(1,), inputs=(), blocks=(), outputs=(), trace=b'', **bodies):
    """The file; G, I, B, O, T replace a body's bytes, start_X and size_X its entries in the table."""
    parts = {
        'G': bytes([device, *runs]),
        'I': b''.join(bytes(i) for i in inputs),
        'B': b''.join(blocks),
        'O': b''.join(bytes(o) for o in outputs),
        'T': trace,
    }
    parts.update({k: v for k, v in bodies.items() if k in parts})
    table, at = b'', 40
    for name in 'GIBOT':
        start = bodies.get('start_' + name, at)
        size = bodies.get('size_' + name, len(parts[name]))
        table += struct.pack('<II', start % 2**32, size % 2**32)
        at += len(parts[name])
    return table + b''.join(parts[name] for name in 'GIBOT')


def case(number, data):
    CASES.append((number, bytes(data)))


# ---- small projects that are accepted

def adder(**changes):
    """One ADD of two INT16 inputs, put out; the listing of 01 without its two cycles."""
    base = dict(inputs=[(0, INT16), (0, INT16)], blocks=[block(ADD, links=[ext(0), ext(1)])], outputs=[(0, 0, 1)])
    base.update(changes)
    return case_file(**base)


def one(record, **changes):
    """One block whose inputs need nothing."""
    base = dict(blocks=[record])
    base.update(changes)
    return case_file(**base)


def hands(active=0b1111, links=None, **changes):
    """A TWOHAND over four BOOL inputs; `changes` go to its parameters."""
    links = {p: ext(p) for p in range(4) if active >> p & 1} if links is None else links
    record = block(TWOHAND, parameters=twohand(active, **changes), links=links)
    return case_file(inputs=[(0, BOOL)] * 4, blocks=[record])


def arithmetic(kind, first=INT16, second=INT16, output=INT16, rounding=0, spare=(), device=EL6910):
    return one(block(kind, parameters=bytes([first, second, output, rounding, *spare])), device=device)


def channels(linked, read_by=(), more=(), **changes):
    """A DECOUPLE (block 0) with these channels linked to BOOL inputs, these put out, and more blocks."""
    base = dict(
        inputs=[(0, BOOL)] * 8,
        blocks=[block(DECOUPLE, links={p: ext(p) for p in linked}), *more],
        outputs=[(0, 0, p) for p in read_by],
    )
    base.update(changes)
    return case_file(**base)


def mixed():
    """Two groups, every kind, links of every sort."""
    return case_file(
        runs=(1, 1),
        inputs=[(0, BOOL), (0, BOOL), (0, BOOL), (0, BOOL), (1, INT16), (1, UINT32)],
        blocks=[
            block(DECOUPLE, order=3, links={0: ext(0), 7: out(1, 1)}),
            block(TWOHAND, parameters=twohand(0b0111, 0b0101, d1=500, t=2500), links=[ext(0), ext(1), out(0, 7)]),
            block(ADD, order=2, group=1, parameters=bytes([INT16, UINT32, INT32]), links=[ext(4), ext(5)]),
            block(DIV, order=1, group=1, parameters=bytes([INT32, INT32, INT16, 2]), links=[out(2, 1), out(2, 1)]),
            block(MUL, order=4, group=1, parameters=bytes([INT16, INT16, UINT16]), links=[out(3, 1), NONE]),
            block(SUB, order=5, group=0, parameters=bytes([UINT16, UINT16, UINT16]), links=[out(4, 1), out(5, 1)]),
        ],
        outputs=[(0, 0, 0), (0, 1, 0), (1, 2, 1), (0, 5, 1), (0, 5, 1)],
        trace=bytes(2 * 28),
    )


def full():
    """64 blocks, 128 inputs, 64 outputs. Of each DECOUPLE four channels are put out and read the other four."""
    records = []
    for b in range(64):
        if b % 4 == 0:
            links = [out(b, p + 4) for p in range(4)] + [ext(b + p) for p in range(4)]
            records.append(block(DECOUPLE, order=63 - b, links=links))
        elif b % 4 == 1:
            links = [ext(b), ext(b + 1), out(b - 1, 4), out(b, 0)]
            records.append(block(TWOHAND, order=63 - b, parameters=twohand(0b1111, 0b0011, 100, 200, 300), links=links))
        else:
            links = [ext(64 + b), out(b, 1)]
            records.append(block(ADD + b % 4, order=63 - b, parameters=bytes([INT16, INT32, INT32]), links=links))
    outputs = [(0, b, p) for b in range(0, 64, 4) for p in range(4)]
    return case_file(inputs=[(0, BOOL)] * 64 + [(0, INT16)] * 64, blocks=records, outputs=outputs)


LISTING = case_file(
    inputs=[(0, INT16), (0, INT16)], blocks=[block(ADD, links=[ext(0), ext(1)])], outputs=[(0, 0, 1)],
    trace=bytes.fromhex('0A00013075 0000CF0A0000 0A00013075 0000D00A0000'))
assert len(LISTING) == 111
GOOD = [LISTING, adder(), hands(), channels([0, 7], [0, 7]), mixed(), full()]
for data in GOOD:
    case(0, data)

# ---- 1: file under 40 or over 65,536 bytes
case(1, b'')
case(1, adder()[:39])
case(2, bytes(40))
case(3, case_file(G=b''))


def sized(total):
    """A file of this many bytes that breaks nothing else."""
    for groups in range(1, 9):
        for inputs in range(20):
            for outputs in range(8):
                rest = total - (40 + 1 + groups + 2 * inputs + 40 + 3 * outputs)
                if rest % (2 + groups + 4 * inputs) == 0:
                    return case_file(runs=[1] * groups, inputs=[(0, INT16)] * inputs, blocks=[block(ADD)],
                                     outputs=[(0, 0, 1)] * outputs, trace=bytes(rest))
    raise AssertionError(total)


case(0, sized(65535))
case(0, sized(65536))
case(1, sized(65537))
case(1, adder() + bytes(100_000))

# ---- 2: the table. G starts at 40, each body where the one before ends, T ends with the file; as whole numbers, not
# modulo 2^32
for step in (-1, 1, 2**31):
    at = 40
    for name, size in (('G', 2), ('I', 4), ('B', 40), ('O', 3), ('T', 0)):
        case(2, adder(**{'start_' + name: at + step}))
        at += size
    case(2, adder(size_T=step))
case(2, adder() + b'\0')
case(2, adder(trace=bytes(11))[:-1])
for name, after, at, size in (('G', 'I', 40, 2), ('I', 'B', 42, 4), ('B', 'O', 46, 40), ('O', 'T', 86, 3)):
    for wrong in (size - 1, size + 1, 2**32 - 1):
        case(2, adder(**{'size_' + name: wrong}))
    case(2, adder(**{'size_' + name: 2**32 - 4, 'start_' + after: at - 4}))
case(2, adder(start_G=2**32 - 1, size_G=43))

# ---- 3: G: length or a value
case(3, adder(G=b'\1'))
case(3, adder(G=b''))
for n in (1, 2, 8):
    case(0, adder(runs=[1] * n))
case(3, adder(runs=[1] * 9))
case(3, adder(runs=[1] * 200))
for device in (EL6900, EL6910):
    case(0, one(block(DECOUPLE), device=device))
for device in (2, 255):
    case(3, one(block(DECOUPLE), device=device))
for runs, el6900, el6910 in (((0,), 0, 3), ((1,), 0, 0), ((2,), 3, 3), ((1, 0), 0, 3), ((1, 2), 3, 3),
                             ((1,) * 7 + (0,), 0, 3), ((1,) * 7 + (255,), 3, 3)):
    case(el6900, one(block(DECOUPLE), device=EL6900, runs=runs))
    case(el6910, one(block(DECOUPLE), device=EL6910, runs=runs))

# ---- 4: I: length or a value
for n in (0, 1, 127, 128):
    case(0, one(block(DECOUPLE), inputs=[(0, BOOL)] * n))
case(4, one(block(DECOUPLE), inputs=[(0, BOOL)] * 129))
case(4, one(block(DECOUPLE), I=bytes([0])))
case(4, one(block(DECOUPLE), I=bytes([0, 4] * 127 + [0])))
for kind in range(5):
    case(0, one(block(DECOUPLE), inputs=[(0, kind)]))
    case(0, one(block(DECOUPLE), inputs=[(0, kind)], device=EL6900))
for kind in (5, 255):
    case(4, one(block(DECOUPLE), inputs=[(0, kind)]))
    case(4, one(block(DECOUPLE), inputs=[(0, BOOL)] * 127 + [(0, kind)]))
for groups in (1, 2, 8):
    case(0, one(block(DECOUPLE), runs=[1] * groups, inputs=[(0, BOOL), (groups - 1, BOOL)]))
    case(4, one(block(DECOUPLE), runs=[1] * groups, inputs=[(0, BOOL), (groups, BOOL)]))

# ---- 5: B: length
case(5, case_file())
for n in (1, 2, 63, 64):
    case(0, case_file(blocks=[block(DECOUPLE, order=b) for b in range(n)]))
case(5, case_file(blocks=[block(DECOUPLE, order=b) for b in range(65)]))
case(5, case_file(B=block(DECOUPLE)[:39]))
case(5, case_file(B=block(DECOUPLE) + b'\0'))
case(5, case_file(B=(block(DECOUPLE) + block(DECOUPLE, order=1))[:79]))
# 5: kind, against the device too
for kind in (0, 7, 255):
    case(5, one(block(kind)))
    case(5, one(block(kind), device=EL6900))
for kind in (ADD, SUB, MUL, DIV):
    case(0, arithmetic(kind))
    case(5, arithmetic(kind, device=EL6900))
case(0, hands())
case(0, case_file(device=EL6900, runs=(0,), inputs=[(0, BOOL)] * 4,
                  blocks=[block(TWOHAND, parameters=twohand(), links=[ext(p) for p in range(4)])]))
# 5: group and the zero byte
for groups in (1, 2, 8):
    case(0, one(block(ADD, group=groups - 1), runs=[1] * groups))
    case(5, one(block(ADD, group=groups), runs=[1] * groups))
for zero in (1, 255):
    case(5, one(block(ADD, zero=zero)))
# 5: DECOUPLE has no parameters
for k in range(12):
    case(5, one(block(DECOUPLE, parameters=bytes(k) + b'\1')))
# 5: TWOHAND's masks; each pair needs an active input, the open mask is a subset
for active in range(16):
    case(0 if active & 3 and active >> 2 else 5, hands(active))
for active in (0b10101, 0b11111, 0b11110000, 255):
    case(5, hands(active, links={p: ext(p) for p in range(4) if active >> p & 1}))
for active, opened in ((0b1111, 0b1111), (0b0101, 0b0101), (0b1010, 0b0010), (0b1110, 0b1110), (0b1101, 0b1000)):
    case(0, hands(active, opened=opened))
for active, opened in ((0b0101, 0b0010), (0b0101, 0b1000), (0b1110, 0b0001), (0b1011, 0b0100), (0b1111, 0b10000),
                       (0b1111, 0b10001111)):
    case(5, hands(active, opened=opened))
# 5: TWOHAND's times
for d in (1, 255, 256, 59999, 60000):
    case(0, hands(d1=d))
    case(0, hands(d2=d))
for d in (60001, 65535):
    case(5, hands(d1=d))
    case(5, hands(d2=d))
for active in (0b0101, 0b0110, 0b1001, 0b1010, 0b1101, 0b1110):
    case(5, hands(active, d1=1))
    case(0 if active >> 2 == 3 else 5, hands(active, d2=1))
for active in (0b0111, 0b1011):
    case(0, hands(active, d1=60000))
    case(5, hands(active, d2=256))
for t in (1, 2499, 2500):
    case(0, hands(t=t))
for t in (2501, 65535):
    case(5, hands(t=t))
for k in range(4):
    case(5, hands(spare=[1 if j == k else 0 for j in range(4)]))
# 5: arithmetic: types 0 to 3 freely mixed, a rounding for DIV only, the rest zero
for kind in (ADD, SUB, MUL, DIV):
    case(0, arithmetic(kind, UINT32, INT32, UINT16))
    for types in ((4, 0, 0), (0, 4, 0), (0, 0, 4), (255, 0, 0), (0, 255, 0), (0, 0, 255)):
        case(5, arithmetic(kind, *types))
    for rounding in (1, 2):
        case(0 if kind == DIV else 5, arithmetic(kind, rounding=rounding))
    case(5, arithmetic(kind, rounding=3))
for k in range(8):
    case(5, arithmetic(ADD, spare=bytes(k) + b'\1'))

# ---- 6: execution numbers are 0 to n-1, each once


def orders(*numbers):
    return case_file(runs=(1, 1), blocks=[block(ADD, order=e, group=b % 2) for b, e in enumerate(numbers)])


for numbers in ((0,), (1, 0), (2, 0, 1), tuple(range(63, -1, -1)), tuple(b * 37 % 64 for b in range(64))):
    case(0, orders(*numbers))
for numbers in ((1,), (255,), (0, 0), (1, 1), (0, 2), (0, 1, 1), (2, 1, 2), (*range(63), 64), (*range(63), 0),
                (*range(63), 62), (63,) * 64):
    case(6, orders(*numbers))

# ---- 7: unknown kind, and a nonzero byte where none is allowed
for kind in (3, 255):
    case(7, one(block(ADD, links=[(kind, 0, 0)])))
    case(7, one(block(ADD, links={7: (kind, 0, 0)})))
case(7, one(block(ADD, links=[(0, 1, 0)])))
case(7, one(block(ADD, links=[(0, 0, 1)])))
case(7, adder(blocks=[block(ADD, links=[ext(0, 1), ext(1)])]))
# 7: unknown target
case(7, adder(blocks=[block(ADD, links=[ext(0), ext(2)])]))
case(7, adder(blocks=[block(ADD, links=[ext(255), ext(1)])]))
case(7, case_file(blocks=[block(ADD, links=[ext(0)])]))
case(0, one(block(ADD, links=[out(0, 1)])))
case(7, one(block(ADD, links=[out(1, 1)])))
case(7, one(block(ADD, links=[out(255, 1)])))
case(7, one(block(ADD, links=[out(0, 2)])))
for channel, port, number in ((0, 1, 0), (0, 2, 7), (8, 1, 7)):
    links = {0: out(0, channel), 2: out(1, port)}
    case(number, channels([0], [], more=[block(TWOHAND, order=1, parameters=twohand(0b0101), links=links)]))
# 7: past the last input port there is none, not even a good one
for p in range(2, 8):
    case(7, adder(blocks=[block(ADD, links={0: ext(0), p: ext(1)})]))
    case(7, one(block(ADD, links={p: out(0, 1)})))
for p in range(4, 8):
    case(7, hands(links={**{q: ext(q) for q in range(4)}, p: ext(0)}))
case(7, hands(links={**{q: ext(q) for q in range(4)}, 4: (0, 0, 9)}))
# 7: unequal types
for given in range(5):
    for wanted in range(4):
        record = block(ADD, parameters=bytes([wanted, wanted, 0]), links=[ext(0)])
        case(0 if given == wanted else 7, case_file(inputs=[(0, given)], blocks=[record]))
        record = block(ADD, parameters=bytes([0, wanted, 0]), links=[NONE, ext(0)])
        case(0 if given == wanted else 7, case_file(inputs=[(0, given)], blocks=[record]))
    case(0 if given == BOOL else 7, channels([0], [0], inputs=[(0, given)]))
for given in range(4):
    for wanted in range(4):
        record = block(MUL, parameters=bytes([wanted, 0, given]), links=[out(0, 1)])
        case(0 if given == wanted else 7, one(record))
case(7, one(block(ADD, links=[out(0, 0)])))
case(7, case_file(blocks=[block(ADD), block(DECOUPLE, order=1, links=[out(0, 1)])], outputs=[(0, 1, 0)]))
case(0, case_file(blocks=[block(ADD), block(DECOUPLE, order=1, links=[out(0, 0)])], outputs=[(0, 1, 0)]))
case(7, channels([0], [0], more=[block(ADD, order=1, links=[out(0, 0)])]))
# 7: an external input of another group, for every kind; a block of another group is fine
for kind, parameters, given, ports in ((DECOUPLE, b'', BOOL, [0]), (TWOHAND, twohand(0b0101), BOOL, [0, 2]),
                                       (ADD, b'', INT16, [0, 1])):
    for group, number in ((0, 0), (1, 7)):
        record = block(kind, group=group, parameters=parameters, links={p: ext(0) for p in ports})
        case(number, case_file(runs=(1, 1), inputs=[(0, given)], blocks=[record], outputs=[(group, 0, 0)]))
case(0, case_file(runs=(1, 1), blocks=[block(ADD), block(ADD, order=1, group=1, links=[out(0, 1)])]))
# 7: a TWOHAND input linked but not active, and the reverse
for active in range(16):
    if active & 3 and active >> 2:
        for p in range(4):
            links = {q: ext(q) for q in range(4) if (active ^ 1 << p) >> q & 1}
            case(7, hands(active, links=links))
# 7: the last link of the last block
first = [block(DECOUPLE, order=b) for b in range(63)]
case(7, case_file(blocks=first + [block(DECOUPLE, order=63, links={7: ext(0)})]))

# ---- 8: O: length, unknown group, block or port, block of another group
for n in (0, 1, 63, 64):
    case(0, adder(outputs=[(0, 0, 1)] * n))
case(8, adder(outputs=[(0, 0, 1)] * 65))
for n in (1, 2, 4):
    case(8, adder(O=bytes([0, 0, 1, 0, 0, 1])[:n]))
case(8, adder(outputs=[(1, 0, 1)]))
case(8, adder(outputs=[(255, 0, 1)]))
case(8, adder(outputs=[(0, 1, 1)]))
case(8, adder(outputs=[(0, 255, 1)]))
case(8, adder(outputs=[(0, 0, 2)]))
case(8, adder(outputs=[(0, 0, 255)]))
case(8, adder(outputs=[(0, 0, 1)] * 63 + [(0, 0, 2)]))
case(8, adder(outputs=[(0, 0, 1)] * 63 + [(0, 1, 1)]))
for p, number in ((0, 0), (1, 0), (2, 8)):
    base = dict(inputs=[(0, BOOL)] * 4, blocks=[block(TWOHAND, parameters=twohand(), links=[ext(q) for q in range(4)])])
    case(number, case_file(outputs=[(0, 0, p)], **base))
case(0, channels(range(8), range(8)))
case(8, channels(range(8), [*range(8), 8]))
for group, number in ((0, 8), (1, 0), (2, 8)):
    case(number, case_file(runs=(1, 1), blocks=[block(ADD, group=1)], outputs=[(group, 0, 1)]))
# 8: a channel that is linked and not read, or read and not linked; every channel
for p in range(8):
    case(8, channels([p]))
    case(8, channels([], [p]))
    case(0, channels([p], [p]))
    case(8, channels([p], [(p + 1) % 8]))
    case(8, channels(range(8), [q for q in range(8) if q != p]))
    reader = block(TWOHAND, order=1, parameters=twohand(0b0101), links={0: out(0, p), 2: out(0, p)})
    case(0, channels([p], more=[reader]))
    case(8, channels([], more=[reader]))
    # its own link reads it
    case(0, case_file(blocks=[block(DECOUPLE, links={p: out(0, p)})]))
    case(8, case_file(blocks=[block(DECOUPLE, links={p: out(0, (p + 1) % 8)})]))
case(0, case_file(blocks=[block(DECOUPLE, links={0: out(0, 1), 1: out(0, 0)})]))
# 8: of another DECOUPLE of another group; a channel of the same number of another block does not count
pair = [block(DECOUPLE, links=[ext(0)]), block(DECOUPLE, order=1, group=1, links=[out(0, 0)])]
case(0, case_file(runs=(1, 1), inputs=[(0, BOOL)], blocks=pair, outputs=[(1, 1, 0)]))
case(8, case_file(runs=(1, 1), inputs=[(0, BOOL)], blocks=pair))
case(8, case_file(runs=(1, 1), inputs=[(0, BOOL)], blocks=[pair[0], block(DECOUPLE, order=1)], outputs=[(0, 1, 0)]))
linked = first + [block(DECOUPLE, order=63, links={7: ext(0)})]
case(0, case_file(inputs=[(0, BOOL)], blocks=linked, outputs=[(0, 63, 7)]))
case(8, case_file(inputs=[(0, BOOL)], blocks=linked))
case(8, case_file(inputs=[(0, BOOL)], blocks=first + [block(DECOUPLE, order=63)], outputs=[(0, 63, 7)]))

# ---- 9: T is not a whole number of records
for groups, inputs in ((1, 0), (1, 2), (8, 128)):
    size = 2 + groups + 4 * inputs
    for length in (0, 1, size - 1, size, size + 1, 2 * size, 3 * size - 1, 100 * size):
        record = case_file(runs=[1] * groups, inputs=[(0, INT16)] * inputs, blocks=[block(ADD)], trace=bytes(length))
        case(0 if length % size == 0 else 9, record)
case(0, adder(trace=b'\xff' * 11))

# ---- the lowest number wins: each pair of refusals at once
BROKEN = {
    3: dict(device=2),
    4: dict(inputs=[(0, INT16), (9, INT16)]),
    5: (1, dict(zero=1)),
    6: (1, dict(order=5)),
    7: (0, dict(links=[ext(0), ext(1), ext(0)])),
    8: dict(outputs=[(0, 9, 0)]),
    9: dict(trace=bytes(12)),
}
for low in range(3, 10):
    for high in range(low, 10):
        records = [dict(kind=ADD, links=[ext(0), ext(1)]), dict(kind=ADD, order=1)]
        words = dict(inputs=[(0, INT16), (0, INT16)], outputs=[(0, 0, 1)])
        for number in (low, high):
            change = BROKEN[number]
            if isinstance(change, tuple):
                records[change[0]].update(change[1])
            else:
                words.update(change)
        words['blocks'] = [block(**r) for r in records]
        case(low, case_file(**words))
        case(2, case_file(**words, start_O=2))

# ---- damaged copies of accepted files


class Chance:
    """A generator of numbers that is the same everywhere."""

    def __init__(self, seed):
        self.state = seed

    def below(self, n):
        self.state = (self.state * 6364136223846793005 + 1442695040888963407) % 2**64
        return (self.state >> 33) % n


chance = Chance(20)
SMALL = [LISTING, hands(d1=60000, t=2500), channels([0, 3, 7], [0, 3, 7]), mixed(), mixed()]
damaged = []
for _ in range(400):
    data = bytearray(SMALL[chance.below(len(SMALL))])
    for _ in range(1 + chance.below(2)):
        at = chance.below(len(data)) if chance.below(4) == 0 else 40 + chance.below(len(data) - 40)
        near = data[at] ^ 1, (data[at] + 1) % 256, (data[at] - 1) % 256, chance.below(256)
        data[at] = (*range(9), *near)[chance.below(13)]
    damaged.append(bytes(data))


def main():
    batch, requests, answers = sys.argv[1:]
    files = [f for _, f in CASES] + damaged
    asked = b''.join(b'C' + struct.pack('<I', len(f)) + f for f in files)
    given = subprocess.run([batch], input=asked, stdout=subprocess.PIPE, check=True).stdout
    if len(given) != len(files):
        sys.exit(f'{len(files)} files, and the second implementation gives {len(given)} answers')
    wrong = [f'file {i}: written down {number}, the second implementation answers {given[i]}'
             for i, (number, _) in enumerate(CASES) if number != given[i]]
    wrong += [f'no file is answered {n}' for n in range(10) if n not in given[:len(CASES)]]
    wrong += [f'no damaged file is answered {n}' for n in (0, 2, 3, 4, 5, 6, 7, 8) if n not in given[len(CASES):]]
    if wrong:
        sys.exit('\n'.join(wrong))
    pathlib.Path(requests).write_bytes(asked)
    pathlib.Path(answers).write_bytes(given)
    print(f'files: {len(CASES)} numbers that are written down, {len(damaged)} damaged files')


main()
