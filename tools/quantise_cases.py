#!/usr/bin/env python3
"""Makes the energies that the program quantise_cases replays, and what it must print, which is computed here in whole numbers.

usage: tools/quantise_cases.py

Writes crates/quantise_cases/stdin and crates/quantise_cases/stdout, and says how many lines end in each way. Needs no Rust: next to an edge the Rust's
logarithm may round either way, and the order's rule alone decides. Away from edges tools/compare has the Rust beside it.

The rule is that of docs/ORDER.md, R3-2 to R3-9, with fractions for r and its powers.

A case, its numbers low byte first:
  1 byte   1 for the coarse step, 0 for the fine one
  2 bytes  how many bytes of a range of 16 are lent
  energies, as samples in cases.py
Its line: given, or the refusal, and the 16 bytes, hexadecimal, each EE before the call.
"""
import collections
import fractions
import struct

from cases import bits, packed_samples, write

SIZE, UNTOUCHED = 16, 0xee
COARSE, FINE = 1, 0
POWER, TOP = {COARSE: 2, FINE: 4}, {COARSE: 63, FINE: 127}
INFINITY, NEGATIVE = 0x7ff << 52, 1 << 63


def attained(r, step, q):
    return r ** POWER[step] >= fractions.Fraction(2) ** (2 * q - 1)


def value(pattern, step):
    """The value of the energy of a bit pattern."""
    if pattern & ~NEGATIVE > INFINITY or pattern >= NEGATIVE:
        return 0
    if pattern == INFINITY:
        return TOP[step]
    energy = fractions.Fraction(struct.unpack('<d', struct.pack('<Q', pattern))[0])
    if energy <= 64:
        return 0
    q = 0
    while q < TOP[step] and attained(energy / 64, step, q + 1):
        q += 1
    return q


def edge(step, q):
    """The pattern of the least double above 64 that attains the value q; that of the double before it does not."""
    low, high = bits(64.0), INFINITY
    while high - low > 1:
        middle = (low + high) // 2
        if value(middle, step) >= q:
            high = middle
        else:
            low = middle
    return high


def case(step, energies, lent=None):
    """A case and its line; as many bytes are lent as there are energies where nothing else is said."""
    energies = [bits(e) for e in energies]
    lent = len(energies) if lent is None else lent
    assert lent <= SIZE
    data = bytes([step]) + struct.pack('<H', lent) + packed_samples(dict(enumerate(energies)), len(energies))
    fits = len(energies) <= lent
    values = [value(e, step) for e in energies] if fits else []
    after = bytes(values + [UNTOUCHED] * (SIZE - len(values)))
    return data, f'{"given" if fits else "refused 4"} bytes {after.hex()}'


def around(pattern, reach=2):
    return list(range(pattern - reach, pattern + reach + 1))


def cases():
    for step in (COARSE, FINE):
        # two doubles on each side of every edge, one of them next to it
        for q in range(1, TOP[step] + 1):
            at = edge(step, q)
            assert value(at - 1, step) == q - 1 and value(at, step) == q
            yield case(step, around(at)[:-1])
        # powers of 2 and what is next to them: 64, the lowest and the highest values, and where no value is left
        for e in list(range(-2, 12)) + [66, 67, 68, 69, 70, 71, 100, 1022, 1023]:
            yield case(step, around(bits(2.0 ** e)))
        yield case(step, [0.0, -0.0, 1, 2, (1 << 52) - 1, 1 << 52, 63.9, 64.0, 64.00000000000001, 65.0])
        yield case(step, [-64.0, -65.0, -1e300, -1.7976931348623157e308, NEGATIVE | INFINITY, NEGATIVE | 1, -4096.0])
        yield case(step, [1.7976931348623157e308, INFINITY, INFINITY - 1, INFINITY + 1, (1 << 63) - 1, INFINITY | 1 << 51, NEGATIVE | INFINITY | 1 << 51])
        # each value in its place, in both orders, with more room, with exactly enough, and without
        rising = [64.0 * 2 ** (k / 2) * 1.01 for k in range(SIZE)]
        for energies in (rising, rising[::-1], rising[:7], rising[:1], []):
            for lent in sorted({0, len(energies) - 1, len(energies), len(energies) + 1, SIZE}):
                if 0 <= lent <= SIZE:
                    yield case(step, energies, lent)
        for count in (SIZE + 1, 100):
            for lent in (0, SIZE):
                yield case(step, [1000.0] * count, lent)


def main():
    made = list(cases())
    data = b''.join(c for c, _ in made)
    lines = ''.join(line + '\n' for _, line in made)
    write('quantise_cases', data, lines.encode())
    ends = collections.Counter(('coarse' if c[0] == COARSE else 'fine', line.split()[0]) for c, line in made)
    print(len(made), 'cases,', len(data), 'bytes:', ', '.join(f'{step} {end} {count}' for (step, end), count in sorted(ends.items())))


main()
