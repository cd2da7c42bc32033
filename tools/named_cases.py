#!/usr/bin/env python3
"""Makes the named borders that the program named_cases replays, and what it must print, which the model of named.py answers.

usage: tools/named_cases.py

Writes crates/named_cases/stdin and crates/named_cases/stdout, and says how many lines end in each way. Needs no Rust: it has no such call. Seeded, so that
it makes the same files each time. tools/named/run compares all that a record reaches.

A case, its numbers low byte first:
  1 byte   how many borders, each 4 bytes with sign
  1 byte   how many resolutions, each a byte, 1 for high
  4 bytes  mark, with sign
  8 bytes  slot count
Its line: the record, or the refusal.
"""
import collections
import itertools
import random
import struct

from cases import write
from named import SLOT_COUNTS, named, reached, shown

RANDOM = random.Random(20261119)
HUGE = (-1, 20, 255, 256, 65536 + 16, 2 ** 31 - 1, -2 ** 31, -2 ** 31 + 16)


def case(n, t, flags, l_a):
    data = bytes([len(t)]) + struct.pack(f'<{len(t)}i', *t) + bytes([len(flags), *flags]) + struct.pack('<iQ', l_a, n)
    return data, shown(named(n, t, flags, l_a), flags)


def patterns(count):
    """Resolutions that are all alike, in both ways, and some that are not."""
    yield [0] * count
    yield [1] * count
    if count > 1:
        flags = [RANDOM.randrange(2) for _ in range(count)]
        flags[-1] = 1 - flags[0]
        yield flags


def neighbours(t, l_a):
    """One border, or the mark, a little off."""
    for i, d in itertools.product(range(len(t)), (-1, 1)):
        yield t[:i] + (t[i] + d,) + t[i + 1:], l_a
    for other in range(-2, len(t) + 1):
        yield t, other


def cases():
    for n in SLOT_COUNTS:
        all_reached = sorted(reached(n))
        by_class = collections.defaultdict(list)
        for t, l_a in all_reached:
            by_class[len(t), reached(n)[t, l_a][0].cls].append((t, l_a))
        for group in by_class.values():
            for t, l_a in RANDOM.sample(group, min(len(group), 20)):
                for flags in patterns(len(t) - 1):
                    yield case(n, t, flags, l_a)
        for t, l_a in RANDOM.sample(all_reached, 25):
            for near, mark in neighbours(t, l_a):
                yield case(n, near, [RANDOM.randrange(2) for _ in near[1:]], mark)
        # one envelope with every end and mark
        for last, l_a in itertools.product(range(13, 21), range(-2, 4)):
            yield case(n, (0, last), [1], l_a)
        # numbers that no frame has, in each place
        for z in HUGE:
            for t in ((z, n), (0, z), (0, z, n), (0, 8, z), (0, 2, 4, 6, z, n)):
                yield case(n, t, [1] * (len(t) - 1), -1)
            yield case(n, (0, n), [1], z)
            yield case(n, (0, 2, 4, 6, 8, n), [1] * 5, z)
    # counts that do not fit, also where the first borders or resolutions alone would, and slot counts that no frame has
    for t in ((0, 16), (0, 8, 16), (0, 2, 4, 6, 8, 16)):
        for more in ((17,), (16,), (17, 18)):
            yield case(16, t + more, [1] * (len(t) - 1), -1)
            yield case(16, t, [1] * (len(t) - 1 + len(more)), -1)
    for borders, flags in itertools.product(range(9), range(8)):
        t = tuple(range(0, 2 * borders, 2))[:-1] + (16,) if borders else ()
        yield case(16, t, [1] * flags, -1)
    for n in (0, 1, 14, 17, 31, 2 ** 16 + 16, 2 ** 32 + 16, 2 ** 64 - 1):
        yield case(n, (0, 16), [1], -1)
        yield case(n, (), [], 7)


def main():
    made = list(dict.fromkeys(cases()))
    data = b''.join(c for c, _ in made)
    write('named_cases', data, ''.join(line + '\n' for _, line in made).encode())
    ends = collections.Counter(line.split()[0] + (' ' + line.split()[1] if line.startswith('refused') else '') for _, line in made)
    print(len(made), 'cases,', len(data), 'bytes:', ', '.join(f'{end} {count}' for end, count in sorted(ends.items())))


if __name__ == '__main__':
    main()
