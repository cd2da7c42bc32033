#!/usr/bin/env python3
"""Makes the runs that the program run_cases drives, and what they must print.

usage: tools/oracle/build && tools/run_cases.py

Writes crates/run_cases/stdin and crates/run_cases/stdout, which the oracle prints, and says how many lines there are of each kind.
Seeded, so that it makes the same files each time.

A run, its numbers low byte first:
  2 bytes  how many turns and readings it has
  4 bytes  first border, signed
  8 bytes  first bit position
  1 byte   length of the high table, and its bytes; the same for the low table
  1 byte   what fills the range of 2,000 bytes
A turn, a reading, or a byte that is changed between them:
  1 byte   1 for a turn, 2 for a reading, 3 for a change
  2 bytes  how many bytes of the range are lent; of a change, which byte it is, and then only 1 byte, its value
  8 bytes  slot count
  a turn:  1 byte switch; 2 bytes how many samples are handed in, at most 6,500; all are 0.0 but those listed; 2 bytes how many are
           listed; for each 2 bytes of index and 8 bytes, the bits of a double
A frame that is sent clears the rest of the byte in which its bits end.
Its line: the frame that is sent or read, how many numbers its rows hold, whether it begins on an attack, position, border and flag after it, and of a
frame that is read whether it is the one that was sent; or the refusal. A run ends with a line that has its counts and every byte of the range.
"""
import collections
import random
import struct

from cases import HIGH, LOW, needed, onsets, packed_samples, packed_table, place, store

RANDOM = random.Random(20261117)
SIZE = 2000
WHOLE = tuple(range(65))


def turn(slots, samples, lent=SIZE, switch=1, count=None):
    count = needed(slots) if count is None else count
    return struct.pack('<BHQB', 1, lent, slots, switch) + packed_samples(samples, count)


def reading(slots, lent=SIZE):
    return struct.pack('<BHQ', 2, lent, slots)


def change(at, value):
    return struct.pack('<BHB', 3, at, value)


def run(steps, border, position, high=HIGH, low=LOW, fill=0):
    head = struct.pack('<HiQ', len(steps), border, position) + packed_table(high) + packed_table(low) + bytes([fill])
    return head + b''.join(steps)


def sounds(slots):
    """Samples of a frame: silence, a few onsets, a step between its halves, or bands of differing strength."""
    kind = RANDOM.randrange(8)
    if kind == 0:
        return {}
    if kind == 1:
        return {place(s, 0, 11): 3.0 for s in range(RANDOM.randrange(3, slots))}
    if kind == 2:
        return {place(s, s % 2, 12 + s % 5): 20.0 + 90.0 * (s % 5 == 2) for s in range(slots + 4)}
    at = [RANDOM.randrange(4, slots)]
    while len(at) < RANDOM.choice((1, 2, 2, 3, 3)) and at[-1] + 4 < slots:
        at.append(RANDOM.randrange(at[-1] + 4, slots))
    samples = onsets(at, RANDOM.choice((10.0, 100.0, 1e4)))
    for _ in range(RANDOM.randrange(3)):
        samples[place(RANDOM.randrange(slots), 1, RANDOM.randrange(10, 20), 1)] = RANDOM.choice((0.5, -2.0, 9.0, float('nan'), 1e-310))
    return samples


def refused_turn(slots, position):
    """A turn that is refused: by its slot count, its samples, or room for the bits."""
    kind = RANDOM.randrange(3)
    if kind == 0:
        return turn(RANDOM.choice((0, 14, 17, 2 ** 32 + 16)), {}, count=6400)
    if kind == 1:
        return turn(slots, {}, count=RANDOM.choice((0, needed(slots) - 1)))
    return turn(slots, sounds(slots), lent=RANDOM.randrange(position // 8 + 1))


def mixed(slots, border, position, frames, **more):
    """Turns and readings of each kind; a reading before its frame is sent has too few bytes lent."""
    steps = []
    for _ in range(frames):
        if RANDOM.randrange(4) == 0:
            steps.append(refused_turn(slots, position))
        steps.append(turn(slots, sounds(slots), switch=RANDOM.randrange(6) > 0))
        if RANDOM.randrange(5) == 0:
            steps.append(RANDOM.choice((reading(31 - slots), reading(0), reading(slots, position // 8), reading(17))))
    # every frame, with refused readings among them
    for k in range(frames):
        if RANDOM.randrange(4) == 0:
            steps.append(RANDOM.choice((reading(14), reading(slots, position // 8))))
        steps.append(reading(slots))
    return run(steps, border, position, **more)


def main():
    runs = []
    for slots in (15, 16):
        runs.append(mixed(slots, slots, 0, 180))
        runs.append(mixed(slots, slots + 1, 5, 40, fill=255))
        runs.append(mixed(slots, slots + 2, 13, 40, high=WHOLE, low=(0, 9, 31, 64), fill=0xa5))
        runs.append(mixed(slots, slots + 3, 64, 40, high=(3, 64), low=(3, 64)))
        # tables that do not fit: every turn is refused by 3, and no bit is cleared
        runs.append(run([turn(slots, {}), turn(slots, {}), reading(slots, 0)], slots, 3, high=LOW, low=HIGH, fill=255))
        # positions past the range and at the largest number
        for position in (8 * SIZE - 3, 8 * SIZE, 8 * SIZE + 1, 2 ** 63, 2 ** 64 - 1):
            runs.append(run([turn(slots, onsets((6,))), turn(slots, {}, lent=0), reading(slots)], slots, position, fill=255))
    # frames whose bits are changed before they are read, and one after each that is as it was: another mark, another resolution, another count
    for border, sound, at, value in ((17, onsets((4,)), 1, 0x10), (16, {}, 0, 0x00), (16, {}, 0, 0x18)):
        runs.append(run([turn(16, sound), change(at, value), reading(16), turn(16, {}), reading(16)], border, 0))
    data = b''.join(runs)
    lines = store('run_cases', 'runs', data)
    kinds = collections.Counter()
    for line in lines.splitlines():
        words = line.split()
        kinds[' '.join(words[:3]) if 'refused' in words[:2] else ' '.join(words[:2]) if words[0] != 'run:' else 'run'] += 1
    print(len(runs), 'runs,', len(data), 'bytes,', len(lines), 'bytes of lines:')
    for kind, count in sorted(kinds.items()):
        print(f'  {kind}: {count}')


main()
