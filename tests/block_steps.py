#!/usr/bin/env python3
"""Writes requests for cycles (`Y`) of single blocks and the answers that `batch` has to give, for tests/corpus.

    tests/block_steps.py BATCH REQUESTS ANSWERS

BATCH is the program `batch` of the second implementation (tests/reference), whose answers these are. Each sequence is a
case file of one block, in a group whose Run is linked, with an external input for each linked port and an external
output for each port, and runs cycle by cycle from the fresh state or from another well-formed one. States are asked
about by one cycle each: good ones, and damaged ones, which are refused with 11. The buffers that a cycle only writes
come filled with 238.

The group's byte is computed here as well, by the three steps of document 01, "One cycle". The script fails where the
second implementation leaves another one, where it refuses a cycle of a sequence, and where something that has to come
up does not.
"""
import itertools
import pathlib
import random
import struct
import subprocess
import sys

DECOUPLE, TWOHAND, ADD, SUB, MUL, DIV = range(1, 7)
INT16, UINT16, INT32, UINT32, BOOL = range(5)
LEAST = [-2**15, 0, -2**31, 0]
GREATEST = [2**15 - 1, 2**16 - 1, 2**31 - 1, 2**32 - 1]
PORTS_OUT = {DECOUPLE: 8, TWOHAND: 2, ADD: 2, SUB: 2, MUL: 2, DIV: 2}
RUN, ACK, COM, FAULT = 1, 2, 4, 8
RUN_ACK = RUN | ACK
RUNNING, ERROR = 1, 4
FRESH = bytes([2]) + bytes(15)
LENT = bytes([238])


class Reference:
    """The second implementation, one request at a time."""

    def __init__(self, batch):
        self.process = subprocess.Popen([batch], stdin=subprocess.PIPE, stdout=subprocess.PIPE)

    def answer(self, request, size):
        """The answer to a request for a cycle, whose three lent buffers have this many bytes."""
        self.process.stdin.write(request)
        self.process.stdin.flush()
        return self.process.stdout.read(5 + size)


class Block:
    """One block: its kind, its 12 parameter bytes, and which of its input ports are linked."""

    def __init__(self, kind, parameters, linked):
        self.kind, self.parameters, self.linked = kind, parameters, linked
        self.shown = linked if kind == DECOUPLE else range(PORTS_OUT[kind])

    def input_type(self, port):
        return BOOL if self.kind in (DECOUPLE, TWOHAND) else self.parameters[port]

    def file(self):
        """The case file, with no cycle records."""
        links = b''.join(bytes([1, self.linked.index(p), 0]) if p in self.linked else bytes(3) for p in range(8))
        bodies = [
            bytes([1, 1]),
            b''.join(bytes([0, self.input_type(p)]) for p in self.linked),
            bytes([self.kind, 0, 0, 0]) + self.parameters + links,
            b''.join(bytes([0, 0, p]) for p in self.shown),
            b'',
        ]
        table, at = b'', 40
        for body in bodies:
            table += struct.pack('<II', at, len(body))
            at += len(body)
        return table + b''.join(bodies)


def arithmetic(kind, a, b, out, rounding=0):
    return Block(kind, bytes([a, b, out, rounding]) + bytes(8), [0, 1])


def twohand(active=15, opened=0, d1=0, d2=0, t=0):
    parameters = struct.pack('<BBHHH', active, opened, d1, d2, t) + bytes(4)
    return Block(TWOHAND, parameters, [p for p in range(4) if active >> p & 1])


def decouple(linked=range(8)):
    return Block(DECOUPLE, bytes(12), list(linked))


def group_step(held, group, pending):
    """The group byte after this cycle, and the phase. 01, "One cycle"."""
    if pending:
        held = 1
    elif held & 1 and group & ACK:
        held = 3
    elif held == 3:
        held = 0
    if not group & RUN:
        return held, 0
    return held, 1 if held == 0 else 3 if held == 3 else 2


def quotient(block, words):
    """What is seen of a DIV that divided: of its rounding, the divisor's type and the quotient's sign whether the
    remainder is 0, below half the divisor, the last one below it, half, the first one above it or above; and of its
    rounding whether the double of the remainder takes more than 32 bits."""
    a, b = (w - 2**32 if t in (INT16, INT32) and w >= 2**31 else w for t, w in zip(block.parameters, words))
    rest, rounding = abs(a) % abs(b), block.parameters[3]
    more = 2 * rest - abs(b)
    fraction = 'none' if rest == 0 else 'half' if more == 0 else ('above' if more > 0 else 'below')
    if fraction in ('above', 'below') and abs(more) <= 2:
        fraction = 'just ' + fraction
    yield (DIV, 'quotient', rounding, block.parameters[1], 'below 0' if a * b < 0 else '0 or above', fraction)
    if 2 * rest >= 2**32:
        yield (DIV, 'remainder of 2^31 or more', rounding)


class Vectors:
    """The requests and their answers, and what came up."""

    def __init__(self, reference):
        self.reference, self.requests, self.answers, self.seen = reference, [], [], set()
        self.cycles = self.states_asked = 0

    def ask(self, block, record, state):
        """The request for a cycle and its answer, as bytes."""
        buffers = [block.file(), record, state, LENT * (4 * len(block.shown)), LENT * 16]
        request = b'Y' + b''.join(struct.pack('<I', len(b)) + b for b in buffers)
        return request, self.reference.answer(request, sum(map(len, buffers[2:])))

    def keep(self, request, answer):
        self.requests.append(request)
        self.answers.append(answer)

    def about(self, block, state):
        """A cycle that is refused with 11 where the block's state is not well formed."""
        record = struct.pack('<HB', 10, RUN) + bytes(4 * len(block.linked))
        request, answer = self.ask(block, record, bytes([0]) + state)
        if answer[0] not in (0, 11):
            sys.exit(f'kind {block.kind}, state {state.hex()}: the second implementation answers {answer[0]}')
        return request, answer

    def well_formed(self, block, state):
        return self.about(block, state)[1][0] == 0

    def sequence(self, block, cycles, start=FRESH):
        """Cycles are (group byte, elapsed ms, words by port), from a state of the block, its group not held."""
        state, held = bytes([0]) + start, 0
        for group, ms, words in cycles:
            held, phase = group_step(held, group, group & (COM | FAULT) or state[1] == ERROR)
            record = struct.pack('<HB', ms, group) + b''.join(struct.pack('<I', words[p]) for p in block.linked)
            request, answer = self.ask(block, record, state)
            before, state = state, answer[5:5 + len(state)]
            if answer[0] != 0 or state[0] != held:
                sys.exit(f'kind {block.kind}, parameters {block.parameters.hex()}, group byte {group}, {ms} ms, inputs '
                         f'{words}: the second implementation answers {answer[0]}, group byte {state[0]}, not {held}')
            self.keep(request, answer)
            self.cycles += 1
            self.seen.add((block.kind, 'phase', phase))
            self.seen.add((block.kind, 'step', before[1], state[1]))
            if state[1] == ERROR != before[1]:
                self.seen.add((block.kind, 'diagnosis', state[3]))
            if block.kind == DIV and state[1] == RUNNING and words[1] != 0:
                self.seen.update(quotient(block, words))

    def states(self, block, states):
        """Whether each state is well formed."""
        for state in states:
            request, answer = self.about(block, state)
            self.keep(request, answer)
            self.states_asked += 1
            self.seen.add((block.kind, 'refused' if answer[0] else 'formed', state[0]))


def raw(block, bits):
    """The words of TWOHAND's inputs with these effective values."""
    opened = block.parameters[1]
    return [(bits ^ opened) >> p & 1 for p in range(4)]


def hands(block, *cycles):
    """Cycles of a TWOHAND: effective bits, port 0 the lowest, then elapsed ms (10) and group byte (Run)."""
    full = [c if isinstance(c, tuple) else (c,) for c in cycles]
    return [(c[2] if len(c) > 2 else RUN, c[1] if len(c) > 1 else 10, raw(block, c[0])) for c in full]


def state(code, diagnosis=0, first=0, second=0, entry=0, output=0, spare=0, spare2=0):
    return struct.pack('<BBHHHHHI', code, spare, diagnosis, first, second, entry, spare2, output % 2**32)


def directed_twohand(vectors):
    def run(*cycles, start=FRESH):
        vectors.sequence(b, hands(b, *cycles), start)
    one, two, all4 = 0b0011, 0b1100, 0b1111
    for opened in (0, 0b0101, 0b1111):
        b = twohand(opened=opened)
        # every transition
        for path in [
                [0, one, all4, all4, one, 0],          # 2 3 11 1 1 13 3
                [0, two, all4, 0, 0],                  # 2 3 12 1 13 3
                [0, all4, all4, two, one, 0],          # both at once: 11, then 1
                [one, one, two, 0, 0, 1, 1],           # 2 13 13 13 3 3, one input alone stays
                [0, one, one, 0, two, two, 0],         # 11 stays, 11 to 3; 12 stays, 12 to 3
                [0, one, 1, 1, 0],                     # 11 to 13
                [0, two, 4, 8, 0],                     # 12 to 13
                [0, one, 0b0111, 0b1011, all4],        # one pair full and a part of the other
                [0, one, two, 0, 0],                   # bit 6 in 11
                [0, two, one, 0, 0],                   # bit 6 in 12
                [0, one, 0b1101, 0b1110, all4]]:
            run(*path)
    # one-channel pairs, and a mix
    for active in (0b0101, 0b1010, 0b0110, 0b0111, 0b1101):
        b = twohand(active, opened=active & 0b0110)
        p1, p2 = active & 3, active & 12
        run(0, p1, active, active, p1, 0, p2, active, 0, 0, active, active, 0)
        run(0, p1, p2, (0, 10, RUN_ACK), (0, 10), 0, p2, p1)
        run(active, p1, p2, 0, p2, p1, (p1, 10, RUN_ACK), (0, 10, RUN_ACK), 0, 0, 0)
    # discrepancy: at D, at D + 1, a change of sides, an agreement in between
    for pair, shift in ((0, 0), (1, 2)):
        for d in (1, 100, 60000):
            b = twohand(d1=d if pair == 0 else 0, d2=d if pair == 1 else 0)
            x, y = 1 << shift, 2 << shift
            whole = [(x, 1000)] * (d // 1000)
            rest = [(x, d % 1000)] if d % 1000 else []
            run(0, (x, 7), *whole, *rest, (0, 1))
            run(0, (x, 7), *whole, *rest, (y, 1), y, (y, 10, RUN_ACK), (x, 9, RUN_ACK), (0, 9, RUN_ACK), 0, 0)
            run((x, 7), *whole, (y, d % 1000 or 1000), (0, 5), (x, 9), (y, 1), 3 << shift, (x, 1))
    # a pair differs in every state; a state that errs from 1, 3, 13, 2
    b = twohand(d1=50, d2=70)
    run(0, 0b0111, (0b0101, 40), (0b0101, 30), (0b0101, 1), (0, 1, RUN_ACK))
    run(0, (one, 1), (0b0111, 1), (0b0111, 70), all4, (0b1110, 1), (0b1110, 50), (0b1110, 1))
    run(0, (0b0101, 1), (0b0101, 71))
    run((0b0101, 1), (0b0110, 60), (0b0110, 20, RUN_ACK), (0b0100, 20, RUN_ACK), (0, 1, RUN_ACK), 0)
    # the time between the pairs: at T, at T + 1, after both have let go, in 11 and in 12
    for t in (1, 500, 2500):
        b = twohand(t=t)
        whole = [(0, 1000)] * (t // 1000)
        for hand, other in ((one, two), (two, one)):
            held = [(hand, 1000)] * (t // 1000)
            rest = t % 1000
            last = [(hand, rest)] if rest else []
            run(0, (hand, 33), *held, *last, (hand, 1), (all4, 1, RUN_ACK), (0, 1, RUN_ACK), 0, 0)
            run(0, (hand, 33), *held, (all4, max(rest, 1)), all4, 0)
            run(0, (hand, 33), *held, (all4, rest + 1), (0, 1), 0)
            run(0, (hand, 33), *held, (0, rest + 1), (0, 1, RUN_ACK), 0)
            run(0, (hand, 33), *held, (other, rest + 1), (other, 1, RUN_ACK), (0, 1, RUN_ACK), 0)
            run(0, (hand, 33), (hand, 1), (0, 1), (hand, 1), *held[:1], (hand, 1))
    # bits together, as far as cycles from the fresh state lead there: 0 and 1; 1 and 2 in 11; 0 and 2 in 12; 2 and 6
    b = twohand(d1=20, d2=20, t=30)
    run(0, (0b0101, 5), (0b0101, 21), (0b0001, 1, RUN_ACK), (0, 1, RUN_ACK), 0)
    run(0, one, (0b0111, 5), (0b0111, 40), (0b0100, 1, RUN_ACK), (0, 1, RUN_ACK), 0)
    run(0, two, (0b1101, 5), (0b1110, 40), (0b0001, 1, RUN_ACK), (0, 1, RUN_ACK), 0)
    run(0, one, (0b0111, 5), (0b1101, 40), (0b1101, 1, RUN_ACK), (0b1100, 1, RUN_ACK), (0, 1, RUN_ACK), 0, 0)
    # every set of bits, from well-formed states that are about to err
    for code in (11, 12):
        for first in (0, 21):
            for second in (0, 21):
                for entry in (0, 30):
                    for bits in (0b0101, 0b1101, 0b0111, 0b1100, 0b0011, 0b1111, 0):
                        about_to = state(code, 0, first, second, entry)
                        run((bits, 1), (bits, 1, RUN_ACK), (0, 1, RUN_ACK), 0, start=about_to)
    for code in (1, 3, 13):
        for bits in (0b0101, 0b1101, 0b0111, 0b1111):
            run((bits, 1), (0, 1, RUN_ACK), 0, start=state(code, 0, 21, 21))
    # a fault of every set of bits, that goes or stays
    for diagnosis in (1, 2, 3, 4, 5, 6, 7, 64, 65, 66, 67, 68, 71):
        for bits in (0, 0b0001, 0b1000, 0b0011, 0b1111):
            run((bits, 1, RUN), (bits, 1, RUN_ACK), (0, 1, RUN_ACK), start=state(4, diagnosis))
    # the group held from outside, and acknowledged: from each state
    b = twohand(d1=50, t=500)
    for path in ([], [0], [one], [0, one], [0, two], [0, one, all4], [0, one, two], [0, (1, 1), (1, 51)]):
        for held in (RUN | COM, RUN | FAULT, RUN | COM | ACK):
            run(*path, (0, 10, held), (0, 10), (0, 10, RUN_ACK), (one, 10, RUN_ACK), (one, 10), 0)
        run(*path, (0, 10, 0), (0, 10), (0, 10, ACK), (0, 10, RUN_ACK), (0, 10, RUN_ACK), 0)
        run(*path, (0, 10, RUN_ACK), (0, 10), (0, 10, RUN_ACK), (0, 10, RUN_ACK), 0, 0)
        run(*path, (1, 10, RUN_ACK), (1, 10, RUN | COM), (0, 10, RUN_ACK), (0, 10, COM | ACK), 0, 0)


def directed_arithmetic(vectors):
    def words(a, b):
        return [a % 2**32, b % 2**32]
    for kind, a, b, out, rounding, bad, good in [
            (SUB, INT16, INT16, INT16, 0, (-32768, 1), (5, 3)),
            (ADD, INT16, INT16, INT16, 0, (30000, 2768), (30000, 2767)),
            (MUL, UINT32, UINT32, UINT32, 0, (65536, 65536), (65535, 65537)),
            (MUL, INT32, UINT32, INT32, 0, (-2147483648, 4294967295), (-1, 7)),
            (DIV, INT32, INT32, INT32, 0, (-2147483648, -1), (9, 0)),
            (DIV, INT16, INT16, INT16, 1, (-32768, -1), (-7, 2)),
            (DIV, INT16, INT16, UINT16, 2, (-7, 2), (5, 2))]:
        block = arithmetic(kind, a, b, out, rounding)
        bad, good = words(*bad), words(*good)
        for path in [
                # every phase from every state; a fault that stays, that goes, that comes back
                [(RUN, good), (RUN, bad), (RUN, bad), (RUN_ACK, bad), (RUN_ACK, good), (RUN_ACK, bad), (RUN, good),
                 (RUN, good)],
                [(RUN, bad), (RUN_ACK, good), (RUN, good), (RUN_ACK, good), (RUN_ACK, good), (RUN, bad), (RUN, good)],
                [(RUN, bad), (RUN_ACK, good), (RUN_ACK, good), (RUN, bad), (RUN, good)],
                [(RUN, bad), (0, good), (RUN, good), (RUN_ACK, good), (RUN, good)],
                [(RUN | COM, good), (RUN, good), (RUN_ACK, good), (RUN, good), (RUN_ACK | FAULT, bad), (RUN_ACK, bad),
                 (RUN, bad)],
                [(0, bad), (ACK, bad), (RUN, bad), (RUN_ACK | COM, good), (RUN_ACK | COM, good), (RUN | COM, good),
                 (RUN_ACK, good), (RUN, good)]]:
            vectors.sequence(block, [(group, 10, w) for group, w in path])


def directed_quotients(vectors):
    """DIV with quotients of either sign just below, at and just above a half, and around 1: by 2 and 3, and by the
    divisors at the limits of each type."""
    for rounding, t in itertools.product(range(3), (INT16, UINT16, INT32, UINT32)):
        divisors = [b for b in (2, 3, GREATEST[t] - 1, GREATEST[t], LEAST[t], LEAST[t] + 1) if b != 0]
        pairs = [(sign * a, b) for b in divisors for at in (abs(b) // 2, abs(b)) for a in (at - 1, at, at + 1)
                 for sign in (1, -1)]
        words = [(a % 2**32, b % 2**32) for a, b in pairs if LEAST[t] <= a <= GREATEST[t]]
        vectors.sequence(arithmetic(DIV, t, t, INT16, rounding), [(RUN, 10, w) for w in words])


def directed_decouple(vectors):
    bits = lambda v: [v >> p & 1 for p in range(8)]
    vectors.sequence(decouple(), [(RUN, 10, bits(1 << p)) for p in range(8)])
    path = [(RUN, 255), (0, 255), (RUN, 170), (RUN | COM, 85), (RUN, 85), (RUN_ACK, 85), (RUN, 85), (RUN | FAULT, 1)]
    vectors.sequence(decouple(), [(group, 10, bits(v)) for group, v in path])


def random_number(rng, t):
    edge = [LEAST[t], LEAST[t] + 1, -7, -1, 0, 1, 2, 7, GREATEST[t] // 2, GREATEST[t] - 1, GREATEST[t]]
    z = rng.choice(edge) if rng.random() < 0.7 else rng.randint(LEAST[t], GREATEST[t])
    return min(max(z, LEAST[t]), GREATEST[t]) % 2**32


def random_group(rng):
    group = RUN if rng.random() < 0.95 else 0
    if rng.random() < 0.25:
        group |= ACK
    if rng.random() < 0.04:
        group |= rng.choice([COM, FAULT])
    return group


def random_twohand(rng):
    active = rng.choice([15, 15, 15, 5, 6, 9, 10, 7, 11, 13, 14])
    limit = lambda both: rng.choice([0, 1, 20, 100, 1000]) if both else 0
    opened = active & rng.randrange(16)
    return twohand(active, opened, limit(active & 3 == 3), limit(active & 12 == 12), rng.choice([0, 0, 1, 50, 300]))


def random_hands(rng, block, n):
    """A walk: mostly the hands come and go as a whole, sometimes one bit turns."""
    active, bits, cycles = block.parameters[0], 0, []
    for _ in range(n):
        move = rng.random()
        if move < 0.35:
            bits = rng.choice([0, 3, 12, 15, 15])
        elif move < 0.7:
            bits ^= 1 << rng.randrange(4)
        elapsed = rng.choice([1, 2, 10, 19, 20, 50, 99, 100, 300, 1000])
        cycles.append((random_group(rng), elapsed, raw(block, bits & active)))
    return cycles


def random_state(vectors, rng, block):
    """A well-formed state of a TWOHAND, near its limits."""
    d1, d2, t = struct.unpack('<HHH', block.parameters[2:8])
    some = lambda top: rng.choice([0, 1, top, top + 1])
    while True:
        code, diagnosis = rng.choice([1, 3, 4, 5, 11, 11, 12, 12, 13]), rng.choice([0, 0, 1, 2, 4, 6, 64, 68])
        found = state(code, diagnosis, some(d1), some(d2), some(t))
        if vectors.well_formed(block, found):
            return found


def random_cycles(rng, words, n):
    return [(random_group(rng), rng.randint(1, 1000), words()) for _ in range(n)]


def random_sequences(vectors, rng):
    for _ in range(130):
        block = random_twohand(rng)
        vectors.sequence(block, random_hands(rng, block, rng.randint(8, 32)))
    for _ in range(70):
        block = random_twohand(rng)
        vectors.sequence(block, random_hands(rng, block, rng.randint(2, 5)), random_state(vectors, rng, block))
    for _ in range(110):
        kind = rng.choice([ADD, SUB, MUL, DIV])
        a, b, out = (rng.randrange(4) for _ in range(3))
        block = arithmetic(kind, a, b, out, rng.randrange(3) if kind == DIV else 0)
        words = lambda: [random_number(rng, a), random_number(rng, b)]
        vectors.sequence(block, random_cycles(rng, words, rng.randint(4, 14)))
    for _ in range(20):
        block = decouple([p for p in range(8) if rng.random() < 0.8])
        words = lambda: [rng.randrange(2) if p in block.linked else 0 for p in range(8)]
        vectors.sequence(block, random_cycles(rng, words, rng.randint(3, 9)))


def damaged_states(vectors, rng):
    codes = [1, 2, 3, 4, 5, 11, 12, 13]
    plain = [state(code) for code in range(17)]
    spare = [state(2, spare=1), state(2, spare2=1), state(2, spare2=256)]
    times = [state(1, first=1), state(1, second=1), state(1, entry=1)]
    for kind in (ADD, DIV):
        for out in range(4):
            words = {z + step for z in (LEAST[out], GREATEST[out]) for step in (-1, 0, 1)}
            words |= {-32768, -32769, 65535, 65536, 2**31, 5}
            diagnoses = [state(4, d) for d in range(5)] + [state(c, 1) for c in codes]
            outputs = [state(1, output=z) for z in sorted(words)]
            outputs += [state(c, 2 if c == 4 else 0, output=5) for c in codes]
            several = [state(4, 1, first=1), state(1, 1, output=5)]
            vectors.states(arithmetic(kind, 0, 0, out), plain + spare + diagnoses + outputs + times + several)
    outputs = [state(1, output=w) for w in (1, 255, 256, 2**31)] + [state(2, output=1)]
    vectors.states(decouple(), plain + spare + outputs + [state(1, 1)] + times)
    for d1, d2, t in [(0, 0, 0), (100, 0, 0), (0, 200, 0), (0, 0, 300), (100, 200, 300), (60000, 60000, 2500)]:
        block = twohand(d1=d1, d2=d2, t=t)
        tops = (('first', d1 + 1), ('second', d2 + 1), ('entry', t))
        limits = [state(c, **{field: v}) for c in codes for field, top in tops for v in (1, top, top + 1)]
        diagnoses = [state(4, d) for d in range(80)] + [state(4, 1 << b) for b in range(7, 16)]
        vectors.states(block, plain + spare + diagnoses + limits)
        vectors.states(block, [state(c, output=1) for c in codes] + [state(c, 64) for c in codes])
    for _ in range(60):
        block = random_twohand(rng)
        d1, d2, t = struct.unpack('<HHH', block.parameters[2:8])
        some = lambda top: rng.choice([0, 0, 1, top, top + 1, top + 2])
        for _ in range(12):
            code, diagnosis = rng.choice(codes), rng.choice([0, 0, 1, 2, 4, 64, 65, 70])
            vectors.states(block, [state(code, diagnosis, some(d1), some(d2), some(t))])


# The steps from code to code that come up for each kind.
DECOUPLE_STEPS = {1: [1, 2], 2: [1, 2]}
ARITHMETIC_STEPS = {1: [1, 2, 4], 2: [1, 2, 4], 4: [2, 4, 5], 5: [1, 2, 4, 5]}
TWOHAND_STEPS = {1: [1, 2, 4, 13], 2: [2, 3, 13], 3: [2, 3, 4, 11, 12], 4: [2, 4, 5], 5: [2, 3, 5, 13],
                 11: [1, 2, 3, 4, 11, 13], 12: [1, 2, 3, 4, 12, 13], 13: [2, 3, 4, 13]}


def wanted():
    """What has to come up: every phase, step and diagnosis of every kind; of DIV in each rounding a half and the
    remainders next to it by divisors of each type, of the signed ones in both signs, and a remainder whose double takes
    more than 32 bits; and of the states of DECOUPLE, TWOHAND, ADD and DIV each code that the kind has well formed and
    not, and each that it has not refused. A pair that is full does not differ, so bit 6 of TWOHAND comes with at most
    one of bits 0 and 1."""
    for rounding, t in itertools.product(range(3), (INT16, UINT16, INT32, UINT32)):
        for sign, fraction in itertools.product(('0 or above', 'below 0'), ('just below', 'half', 'just above')):
            if sign == '0 or above' or t in (INT16, INT32):
                yield (DIV, 'quotient', rounding, t, sign, fraction)
    yield from ((DIV, 'remainder of 2^31 or more', rounding) for rounding in range(3))
    for kind in range(DECOUPLE, DIV + 1):
        steps = DECOUPLE_STEPS if kind == DECOUPLE else TWOHAND_STEPS if kind == TWOHAND else ARITHMETIC_STEPS
        diagnoses = [] if kind == DECOUPLE else [*range(1, 8), 64, 65, 66, 68, 69, 70] if kind == TWOHAND else [1, 2]
        yield from ((kind, 'phase', phase) for phase in range(4))
        yield from ((kind, 'step', old, new) for old in steps for new in steps[old])
        yield from ((kind, 'diagnosis', diagnosis) for diagnosis in diagnoses)
        if kind in (DECOUPLE, TWOHAND, ADD, DIV):
            yield from ((kind, 'formed', code) for code in steps)
            yield from ((kind, 'refused', code) for code in range(17))


def main():
    batch, requests, answers = sys.argv[1:]
    vectors = Vectors(Reference(batch))
    directed_twohand(vectors)
    directed_arithmetic(vectors)
    directed_quotients(vectors)
    directed_decouple(vectors)
    random_sequences(vectors, random.Random(20))
    damaged_states(vectors, random.Random(21))
    missing = [what for what in wanted() if what not in vectors.seen]
    if missing:
        sys.exit(f'did not come up (kind, what): {missing}')
    pathlib.Path(requests).write_bytes(b''.join(vectors.requests))
    pathlib.Path(answers).write_bytes(b''.join(vectors.answers))
    print(f'blocks: {vectors.cycles} cycles in sequences, {vectors.states_asked} states')


if __name__ == '__main__':
    main()
