#!/usr/bin/env python3
"""Makes the readings that the program reading_cases replays, and what they must print.

usage: tools/oracle/build && tools/reading_cases.py

Writes crates/reading_cases/stdin and crates/reading_cases/stdout, which the oracle prints, and says how many lines there are of each kind.
Seeded, so that it makes the same files each time.

A case, its numbers low byte first:
  1 byte   how many readings it has
  4 bytes  border that the first one carries, signed
  1 byte   flag that it carries, set where it is not 0
  8 bytes  its bit position
  1 byte   length of the bytes, and the bytes
A reading: 8 bytes slot count, 2 bytes how many of the bytes are lent, all where that is more than there are.
Its line: the frame that is read and whether it begins on an attack, or the refusal; then position, border and flag after it. A case ends with a dot.
"""
import collections
import random
import struct

from cases import FIXVAR, VARFIX, fixfix, pack, sided, store, varvar

RANDOM = random.Random(20261118)


def reading(slots, lent=255):
    return struct.pack('<QH', slots, lent)


def case(readings, border, bits, attack=0, position=0):
    data = pack(bits)
    return struct.pack('<BiBQB', len(readings), border, attack, position, len(data)) + data + b''.join(readings)


def flags(n):
    return [RANDOM.randrange(2) for _ in range(n)]


def fixvar(n, pointer, over=0):
    """FixVar of n envelopes, each but the first of 2 slots."""
    return sided(FIXVAR, over, [0] * (n - 1), pointer, flags(n))


def varfix(n, pointer, lead=0):
    return sided(VARFIX, lead, [0] * (n - 1), pointer, flags(n))


def both(leading, trailing, pointer, lead=0, over=0):
    return varvar(lead, over, [0] * leading, [0] * trailing, pointer, flags(leading + trailing + 1))


def made():
    for slots in (15, 16):
        plain = fixfix(0, 1)
        # every count and every pointer up to it, with FixFix of each count behind
        grids = [fixvar(n, p) for n in range(1, 5) for p in range(n + 1)] + [varfix(n, p) for n in range(1, 5) for p in range(n + 1)]
        grids += [both(j, n - 1 - j, p) for n in range(1, 6) for j in range(min(n, 4)) if n - 1 - j <= 3 for p in range(n + 1)]
        for i, grid in enumerate(grids):
            yield case([reading(slots)] * 3, slots, grid + fixfix(i % 3, 1) + plain)
            yield case([reading(slots)] * 2, slots, grid + fixfix(i % 3, 0), attack=255)
        # pointers past the count that their field holds
        for grid in [fixvar(2, 3), varfix(2, 3), both(0, 1, 3)] + [
                make for p in (5, 6, 7) for make in (fixvar(4, p), varfix(4, p), both(1, 2, p))] + [both(2, 2, p) for p in (6, 7)]:
            yield case([reading(slots)] * 2, slots, grid + plain, attack=1)
        # a flag that is set, refused readings of each kind, the frame that begins on the attack, and one that does not
        for seam in (fixvar(1, 1), both(0, 0, 1), fixvar(3, 1), both(2, 2, 1)):
            first = (len(seam) + 7) // 8
            yield case([reading(slots), reading(14), reading(31 - slots, first), reading(slots, 0), reading(slots), reading(slots)], slots, seam + plain * 2)
            for refused in (fixfix(3, 0), varfix(1, 0, 2), fixvar(4, 6)):
                yield case([reading(slots)] * 3, slots, seam + refused)
            # one attack after another: each frame marks one, and each behind it begins on one
            yield case([reading(slots)] * 5, slots, seam * 3 + plain * 2)
        # a frame that ends past its slots, the next one from there
        for over in range(1, 4):
            yield case([reading(slots)] * 4, slots, fixvar(2, 1, over) + varfix(2, 2, over) + fixvar(1, 1) + plain)
            yield case([reading(slots)] * 4, slots, both(1, 1, 1, 0, over) + both(0, 1, 1, over, over) + varfix(1, 1, over) + plain)
        # another position; borders that no frame meets leave the flag
        yield case([reading(slots)] * 3, slots, [1, 0, 1] + fixvar(1, 1) + plain, position=3)
        for border in (slots - 1, slots + 1, 0, -1, 2 ** 31 - 1, -2 ** 31):
            yield case([reading(slots)] * 2, border, plain * 2, attack=border % 2)
        yield case([reading(slots)] * 2, slots, plain, attack=7, position=2 ** 63)
    # longer streams with set flags among them
    for slots in (15, 16):
        for _ in range(12):
            bits, over = [], 0
            for _ in range(8):
                lead, over = over, RANDOM.randrange(4)
                j, k = RANDOM.randrange(3), RANDOM.randrange(3)
                bits += both(j, k, RANDOM.choice((0, 1, 1, 2)) if j + k else RANDOM.randrange(2), lead, over)
            yield case([reading(slots if RANDOM.randrange(5) else 17) for _ in range(11)], slots, bits)


def main():
    cases = list(made())
    data = b''.join(cases)
    lines = store('reading_cases', 'readings', data)
    kinds = collections.Counter()
    for line in lines.splitlines():
        words = line.split()
        if words[0] == 'reading':
            kinds['refused ' + words[2]] += 1
        elif words[0] == 'read':
            kinds[words[1]] += 1
            kinds['begins on an attack'] += 'begins' in line
            kinds['leaves the flag set'] += line.endswith('attack 1')
    print(len(cases), 'cases,', len(data), 'bytes,', len(lines), 'bytes of lines:')
    for kind, count in sorted(kinds.items()):
        print(f'  {kind}: {count}')


main()
