#!/usr/bin/env python3
"""Makes the records whose time grids and bits the program grid_cases replays, and what it must print.

usage: tools/oracle/build && tools/grid_cases.py

Writes crates/grid_cases/stdin and crates/grid_cases/stdout, which the oracle prints, and says how many lines end in each way.
Seeded, so that it makes the same files each time.

A case, its numbers low byte first:
  1 byte   kind: 1 time grid, 2 writing
  21 bytes record, as in cases.py
  time grid: 8 bytes slot count
  writing:   2 bytes how many bytes of a range of 12 are lent, 1 byte that fills it, 8 bytes bit position
Its line: borders, noise borders and mark, or the refusal; the position after the bits, or the refusal, and the 12 bytes, of which the rest of the one in
which the bits end is clear.
"""
import collections
import itertools
import random
import struct

from cases import FIXFIX, FIXVAR, VARFIX, VARVAR, record, store

RANDOM = random.Random(20261118)
SIZE = 12


def time_grid(rec, slots):
    return b'\x01' + rec + struct.pack('<Q', slots)


def writing(rec, position=None, lent=SIZE, fill=0):
    position = RANDOM.randrange(8 * SIZE + 2) if position is None else position
    return b'\x02' + rec + struct.pack('<HBQ', lent, fill, position)


def flags(n):
    return [RANDOM.randrange(2) for _ in range(n)]


def shapes():
    """Every class with every count of envelopes and lengths that it can have, each with some lengths, borders and pointers."""
    for n in range(1, 6):
        yield record(FIXFIX, [RANDOM.randrange(2)] * n)
        yield record(FIXFIX, flags(n))
    for cls in (FIXVAR, VARFIX):
        for k in range(5):
            for b, pointer in itertools.product(range(4), range(k + 3)):
                rel = [RANDOM.choice((0, 0, 1, 2, 3)) for _ in range(k)]
                sides = {'rel1': rel, 'b1': b} if cls == FIXVAR else {'rel0': rel, 'b0': b}
                yield record(cls, flags(k + 1), pointer=pointer, **sides)
    for j, k in itertools.product(range(5), range(5)):
        if j + k < 5:
            for pointer in range(j + k + 3):
                rel0, rel1 = ([RANDOM.choice((0, 0, 0, 1, 2)) for _ in range(m)] for m in (j, k))
                yield record(VARVAR, flags(j + k + 1), RANDOM.randrange(4), RANDOM.randrange(4), rel0, rel1, pointer)


def odd():
    """Counts, border bytes, lengths, pointers and noise counts that no grid has, and fields that a class does not send."""
    for cls in range(4):
        rel = {'rel0': (1,)} if cls == VARFIX else {'rel1': (1,)} if cls else {}
        good = dict(flags=[1, 1], **rel)
        for b in (3, 4, 255):
            yield record(cls, b0=b, **good)
            yield record(cls, b1=b, **good)
        for noise in (0, 1, 3, 255):
            yield record(cls, noise=noise, **good)
        for num_env in (0, 1, 3, 5, 6, 255):
            yield record(cls, num_env=num_env, **good)
        for count in (0, 2, 4, 5, 255):
            yield record(cls, num_rel_0=count, **good)
            yield record(cls, num_rel_1=count, **good)
        for pointer in (2, 3, 4, 255):
            yield record(cls, pointer=pointer, **good)
        for r in (3, 4, 8, 127, 255):
            yield record(cls, [1, 0], rel0=(r,), rel1=(r,))
            yield record(cls, [1, 0, 1], rel0=(r,), rel1=(r,))
        yield record(cls, [0, 1], 3, 3, (0, 0, 0, 0), (0, 0, 0, 0), 1)


def sides(cls, rel):
    """The lists of a class, each of them in use."""
    return {FIXFIX: {}, FIXVAR: {'rel1': rel}, VARFIX: {'rel0': rel}, VARVAR: {'rel0': rel[:1], 'rel1': rel[1:]}}[cls]


def single():
    """One envelope: the time grid takes every pointer, with the mark that the formula gives, and only the noise count 1."""
    for cls in range(4):
        for pointer in (0, 1, 2, 3, 4, 127, 128, 253, 254, 255):
            yield record(cls, [1], pointer=pointer)
        for noise in (0, 2, 3, 255):
            yield record(cls, [1], noise=noise)


def wide():
    """Lengths of more than 255 slots, of which a few would be left if slots or borders were counted modulo 256."""
    for cls in (FIXVAR, VARFIX, VARVAR):
        for r in (126, 127, 128, 129, 130, 131, 254, 255):
            yield record(cls, [1, 0], **sides(cls, (r,)))
            yield record(cls, [1, 0, 1], **sides(cls, (0, r)))
            yield record(cls, [1, 0, 1], **sides(cls, (r, 0)))
    for r in (126, 127, 128, 129, 130, 131):
        yield record(VARVAR, [1, 0], rel1=(r,))


def stray():
    """Lengths above 3 in a list that the class does not send, at each place below its count, and anything in places past a count."""
    for cls, unused in ((FIXFIX, 'rel0'), (FIXFIX, 'rel1'), (FIXVAR, 'rel0'), (VARFIX, 'rel1')):
        for r, at in itertools.product((3, 4, 255), range(4)):
            yield record(cls, [1, 1], **sides(cls, (1,)), **{unused: (0,) * at + (r,)})
    for cls, leading, trailing in ((FIXFIX, 0, 0), (FIXVAR, 0, 1), (VARFIX, 1, 0), (VARVAR, 1, 0), (VARVAR, 0, 1)):
        for flag in (0, 1):
            rel0, rel1 = ((1,) * n + (255,) * (4 - n) for n in (leading, trailing))
            yield record(cls, [flag] * 2 + [1 - flag] * 3, rel0=rel0, rel1=rel1, num_env=2, num_rel_0=leading, num_rel_1=trailing)


def made(records):
    """The time grid and the bits of each record."""
    for rec in records:
        yield time_grid(rec, RANDOM.choice((15, 16)))
        yield writing(rec, RANDOM.randrange(64), fill=RANDOM.choice((0, 255, 0x5a)))


def main():
    cases = list(made(list(shapes()) + list(odd())))
    rec = record(VARVAR, flags(5), 1, 2, (0, 1), (1, 0), 3)
    for slots in (0, 14, 15, 16, 17, 31, 2 ** 32 + 16, 2 ** 64 - 1):
        cases.append(time_grid(rec, slots))
    # room to the bit, for each length of the range, and positions past it
    for lent in range(SIZE + 1):
        for position in (8 * lent - 27, 8 * lent - 26, 8 * lent - 25, 8 * lent, 8 * lent + 1):
            if position >= 0:
                cases.append(writing(rec, position, lent, 255))
    for position in (2 ** 32, 2 ** 63, 2 ** 64 - 26, 2 ** 64 - 1):
        cases.append(writing(rec, position))
        cases.append(writing(record(FIXFIX, [1, 0]), position))
    cases += made(itertools.chain(single(), wide(), stray()))
    data = b''.join(cases)
    lines = store('grid_cases', 'grids', data)
    ends = collections.Counter()
    for case, line in zip(cases, lines.splitlines(), strict=True):
        words = line.split()
        ends['time grid' if case[0] == 1 else 'writing', 'refused ' + words[1] if words[0] == 'refused' else 'answered'] += 1
        ends['writing', 'answered, fills its last byte'] += words[0] == 'written' and int(words[2]) % 8 == 0
    print(len(cases), 'cases,', len(data), 'bytes:')
    for (kind, end), count in sorted(ends.items()):
        print(f'  {kind}: {end}: {count}')


main()
