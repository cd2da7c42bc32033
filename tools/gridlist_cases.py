#!/usr/bin/env python3
"""Makes the cases that the program gridlist_cases replays, and what they must print.

usage: tools/oracle/build && tools/gridlist_cases.py

Writes crates/gridlist_cases/stdin (each case: two bytes of length, low byte first, and an input of gridlist; the last ends early) and
crates/gridlist_cases/stdout, which the oracle prints, and says how many cases end in each way. Writes crates/gridlist/stdin too, the
longest input with rubbish behind it, and crates/gridlist/stdout. Seeded, so that it makes the same files each time.
"""
import collections
import random

from cases import fixfix, pack, sided, store, varvar

RANDOM = random.Random(20261115)


def some_flags(n):
    return [RANDOM.randrange(2) for _ in range(n)]


def a_frame(slots, lead):
    """A frame that is likely to be accepted from a lead: its bits and where it ends past the slots."""
    while True:
        k = RANDOM.randrange(4)
        if lead == 0 and RANDOM.random() < 0.5:
            if RANDOM.random() < 0.5:
                return fixfix(RANDOM.randrange(3), RANDOM.randrange(2)), 0
            over = RANDOM.randrange(4)
            rel = [RANDOM.randrange(4) for _ in range(RANDOM.randrange(4))]
            if sum(2 * r + 2 for r in rel) < slots + over:
                n = len(rel) + 1
                return sided(1, over, rel, RANDOM.randrange(n + 1), some_flags(n)), over
        elif k < 2:
            rel = [RANDOM.randrange(4) for _ in range(RANDOM.randrange(4))]
            if lead + sum(2 * r + 2 for r in rel) < slots:
                n = len(rel) + 1
                return sided(2, lead, rel, RANDOM.randrange(n + 1), some_flags(n)), 0
        else:
            over = RANDOM.randrange(4)
            rel = [[RANDOM.randrange(4) for _ in range(RANDOM.randrange(4))] for _ in range(2)]
            n = len(rel[0]) + len(rel[1]) + 1
            if n <= 5 and lead + sum(2 * r + 2 for r in rel[0] + rel[1]) < slots + over:
                return varvar(lead, over, rel[0], rel[1], RANDOM.randrange(n + 1), some_flags(n)), over


def stream(slots, border, count):
    bits, lead = [], border - slots
    for _ in range(count):
        more, lead = a_frame(slots, lead)
        bits += more
    return bits


def longest(slots):
    """255 frames of 26 bits each, VarVar of five envelopes: the most bytes that a listing looks at."""
    bits, lead = [], 0
    while len(bits) < 255 * 26:
        over = RANDOM.randrange(4)
        j = RANDOM.randrange(1, 4)
        rel = [RANDOM.choice((0, 0, 1)) for _ in range(4)]
        if lead + sum(2 * r + 2 for r in rel) < slots + over:
            bits += varvar(lead, over, rel[:j], rel[j:], RANDOM.randrange(6), some_flags(5))
            lead = over
    return bytes([slots, slots, 255]) + pack(bits)


def made():
    # the paper's example, and inputs shorter than a header
    yield bytes.fromhex('1010020A4980')
    for k in range(4):
        yield bytes.fromhex('101001')[:k]
    # no frame asked for, whatever the slot count is
    for slots in (0, 15, 16, 99, 255):
        yield bytes([slots, 16, 0]) + bytes([255] * (slots % 3))
    # good streams of 1, 2, some and 255 frames, with rubbish behind
    for slots in (15, 16):
        for border in range(slots, slots + 4):
            for count in (1, 1, 2, 2, 5, 17):
                body = pack(stream(slots, border, count))
                yield bytes([slots, border, count]) + body
                yield bytes([slots, border, count]) + body + bytes(RANDOM.randrange(256) for _ in range(9))
        yield bytes([slots, slots, 255]) + pack(stream(slots, slots, 255))
        yield bytes([slots, slots + 3, 255]) + pack(stream(slots, slots + 3, 255)) + b'rubbish'
    # 1: other slot counts
    for slots in (0, 1, 14, 17, 30, 31, 32, 240, 255):
        yield bytes([slots, 16, 1]) + pack(fixfix(0, 1))
    # 8: FixFix code 3, also as the last bits there are, and VarVar with 6 and 7 envelopes
    for slots in (15, 16):
        yield bytes([slots, slots, 1]) + pack(fixfix(3, 1))
        yield bytes([slots, slots, 3]) + pack(fixfix(0, 1) + fixfix(1, 0) + fixfix(3, 0))
        for j, k in ((2, 3), (3, 2), (3, 3)):
            yield bytes([slots, slots, 1]) + pack(varvar(0, 0, [0] * j, [0] * k, 0, []))
            # the last count is the last field that there is
            yield bytes([slots, slots, 7]) + pack(fixfix(0, 1) * 6 + varvar(0, 0, [0] * j, [0] * k, 0, [])[:10])
        yield bytes([slots, slots, 5]) + pack(fixfix(0, 1) * 4 + fixfix(3, 0)[:4])
    # 9: borders below the slot count and above three past it, and each class from each wrong lead
    for slots in (15, 16):
        for border in (0, 1, slots - 2, slots - 1, slots + 4, slots + 5, 100, 255):
            yield bytes([slots, border, 1]) + pack(fixfix(0, 1))
            yield bytes([slots, border, 1]) + pack(sided(2, 3, [0], 0, [0, 1]))
        for lead in range(4):
            for other in range(4):
                yield bytes([slots, slots + lead, 1]) + pack(sided(2, other, [1], 2, [1, 0]))
                yield bytes([slots, slots + lead, 1]) + pack(varvar(other, 1, [0], [0], 2, [0, 1, 0]))
    # 6: borders that do not rise, pointers past the count, with a chain that meets or not
    for slots in (15, 16):
        yield bytes([slots, slots, 1]) + pack(sided(1, 0, [3, 3], 0, [0, 0, 0]))
        yield bytes([slots, slots + 2, 1]) + pack(sided(2, 2, [3, 3], 1, [1, 1, 1]))
        yield bytes([slots, slots + 1, 1]) + pack(varvar(2, 0, [3], [3], 1, [1, 1, 1]))
        yield bytes([slots, slots, 1]) + pack(sided(1, 0, [0], 3, [0, 1]))
        for p in (5, 6, 7):
            yield bytes([slots, slots, 1]) + pack(sided(1, 0, [0, 0, 0], p, [0, 1, 0, 1]))
            yield bytes([slots, slots, 1]) + pack(varvar(0, 0, [0, 0], [0, 0], p, [0, 1, 0, 1, 1]))
    # 7: each class cut at every bit, by frames before it that shift the end of the bytes
    whole = [
        fixfix(2, 1),
        sided(1, 2, [1, 0, 2], 3, [1, 0, 0, 1]),
        sided(2, 0, [0, 1, 0], 2, [0, 1, 1, 0]),
        varvar(0, 1, [0, 1], [1, 0], 3, [1, 0, 1, 0, 1]),
    ]
    for grid in whole:
        for before in range(8):
            bits = fixfix(0, before % 2) * before + grid
            for end in range(5 * before // 8 + 1, (len(bits) + 7) // 8 + 1):
                yield bytes([16, 16, before + 1]) + pack(bits)[:end]
            yield bytes([16, 16, before + 1]) + pack(bits)[:5 * before // 8]
    # anything at all
    for _ in range(60):
        slots = RANDOM.choice((15, 16))
        yield bytes([slots, slots + RANDOM.randrange(4), RANDOM.randrange(1, 9)]) + bytes(
            RANDOM.randrange(256) for _ in range(RANDOM.randrange(12)))
    # the longest input, and the same with rubbish behind it
    for slots in (15, 16):
        yield longest(slots)
        yield longest(slots) + bytes(RANDOM.randrange(256) for _ in range(300))


def main():
    cases = list(made())
    # one more, of which less is there than is asked for: what was read is listed and nothing behind it
    cases.append(bytes([16, 16, 255]) + pack(stream(16, 16, 9)))
    lengths = [len(c) for c in cases[:-1]] + [700]
    data = b''.join(bytes([n % 256, n // 256]) + c for n, c in zip(lengths, cases, strict=True))
    listed = store('gridlist_cases', 'gridlist', data)
    store('gridlist', 'listing', longest(16) + b'rubbish')
    ends = collections.Counter()
    for text in listed.split('.\n')[:-1]:
        last = text.split('\n')[-2] if text else ''
        ends['refused ' + last.split()[-1] if 'refused' in last else 'all frames' if last else 'nothing'] += 1
    print(len(cases), 'cases,', len(data), 'bytes,', listed.count('\n') - len(cases), 'lines:', dict(sorted(ends.items())))


main()
