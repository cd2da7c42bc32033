#!/usr/bin/env python3
"""Makes the cases that the program election_cases replays, and what they must print.

usage: tools/oracle/build && tools/election_cases.py

Writes crates/election_cases/stdin and crates/election_cases/stdout, which the oracle prints, and says how many lines end in each
way. Seeded, so that it makes the same files each time.

A case, its numbers low byte first:
  1 byte   kind: 1 election, 2 energies
  8 bytes  slot count
  1 byte   length of the high table, and its bytes; the same for the low table
  2 bytes  how many samples are handed in, at most 6,500; all are 0.0 but those listed
  2 bytes  how many are listed; for each 2 bytes of index and 8 bytes, the bits of a double
  election: 4 bytes previous border, signed, and 1 byte switch
  energies: 1 byte class, 1 byte num_env, 1 byte num_noise, 5 bytes flags, 1 byte var_bord_0, 1 byte var_bord_1, 1 byte num_rel_0,
            4 bytes rel_bord_0, 1 byte num_rel_1, 4 bytes rel_bord_1, 1 byte pointer, 2 bytes room, at most 400
Its line, where it is answered: the grid and whether there is an onset; or how many numbers the rows hold and their bits, `nan` for a
NaN, and whether the numbers past them are kept. Where it is refused: the refusal, and for energies whether all numbers are kept.
"""
import collections
import random
import struct

from cases import FIXFIX, FIXVAR, HIGH, LOW, VARFIX, VARVAR, needed, onsets, packed_samples, packed_table, place, record, store

RANDOM = random.Random(20261116)
NAN, INF = float('nan'), float('inf')
SIGNALLING = struct.unpack('<d', struct.pack('<Q', 0xfff0000000000001))[0]


def frame(kind, slots, samples, high=HIGH, low=LOW, count=None):
    count = needed(slots) if count is None else count
    return struct.pack('<BQ', kind, slots) + packed_table(high) + packed_table(low) + packed_samples(samples, count)


def election(slots, samples, border=None, switch=1, **more):
    border = slots if border is None else border
    return frame(1, slots, samples, **more) + struct.pack('<iB', border, switch)


def length(rec, high=HIGH, low=LOW):
    return sum(len(high) - 1 if f else len(low) - 1 for f in rec[3:3 + rec[1]])


def energies(slots, samples, rec, room=None, **more):
    tables = {k: more[k] for k in ('high', 'low') if k in more}
    room = length(rec, **tables) if room is None else room
    return frame(2, slots, samples, **more) + rec + struct.pack('<H', room)


def slot(s, *values):
    """Samples of a slot, one value to a band from 10 on, in its first column."""
    return {place(s, 0, 10 + k): v for k, v in enumerate(values)}


def steady(first, last):
    """Slots of energy 100."""
    return {i: v for s in range(first, last) for i, v in slot(s, 10.0).items()}


def scattered(slots, count, low=0, high=64):
    out = {}
    for _ in range(count):
        i = place(RANDOM.randrange(slots + 8), RANDOM.randrange(2), RANDOM.randrange(low, high), RANDOM.randrange(2))
        out[i] = RANDOM.choice((1, -1)) * RANDOM.random() * 10 ** RANDOM.randrange(4)
    return out


def edges():
    for n in (15, 16):
        # 64 is no onset, a bit more is
        for s in (4, n - 1):
            yield election(n, slot(s, 8.0))
            yield election(n, slot(s, 8.000000000000002))
        # slots before the fifth and after the last have none
        for s in (0, 3, n, n + 7):
            yield election(n, slot(s, 100.0))
        # 8 times the mean is none, a bit more is, unless it is a tenth of the peak
        before = steady(0, 8)
        yield election(n, before | slot(8, 20.0, 20.0))
        yield election(n, before | slot(8, 24.0, 15.0))
        yield election(n, before | slot(8, 20.0, 20.000000000012))
        yield election(n, before | slot(8, 20.0, 20.0000125))
        for s in (n - 1, n, n + 7):
            yield election(n, before | slot(8, 24.0, 15.0) | slot(s, 89.0, 8.0, 5.0))
            yield election(n, before | slot(8, 24.0, 15.0) | slot(s, 89.0, 8.0, 4.0, 2.0, 2.0))
        # the mean of two counts where it is the smaller, and so does the mean of four
        yield election(n, steady(0, 6) | slot(8, 9.0))
        for s in (4, 5):
            yield election(n, steady(s - 2, s) | slot(s, 20.0, 10.0))
            yield election(n, steady(s - 2, s) | slot(s, 20.0))
        # columns, bands and numbers that are not looked at
        yield election(n, {place(-1, 0, 12): 1e9, place(-1, 1, 12): NAN} | slot(6, 100.0))
        yield election(n, {place(6, 0, 9): 1e9, place(7, 1, 20): NAN} | slot(6, 100.0))
        yield election(n, slot(6, 100.0) | {needed(n): 1e9, 6499: NAN}, count=6500)
        # too few numbers
        for count in (0, needed(n) - 1, needed(n) + 1):
            yield election(n, {}, count=count)


def spreads():
    """Resolutions about the limits: a mean of 64 in the floor, a quotient of 4, and one about 10 to the power 0.6."""
    even = {place(s, 0, 10): 32.0 for s in range(2, 16)}
    limit = (64.0 * 10 ** 0.6 * 56 - 13 * 1024) ** 0.5
    for value in (32.0, limit + 1e-9, limit - 1e-9, limit + 0.5, limit - 0.5):
        yield election(16, even | {place(9, 0, 10): value}, 18)
    # the quieter band above the floor
    for value in (16.0, 17.0):
        yield election(16, {place(s, 0, 10): 64.0 for s in range(2, 16)} | {place(s, 1, 12): value * 2 for s in range(2, 16)}, 18)


def plans():
    for n in (15, 16):
        # one onset: each slot, and each lead at the first and last slots
        for s in range(4, n):
            yield election(n, onsets((s,), RANDOM.choice((10.0, 100.0))), n + s % 4)
        for s in (4, 5, 6, n - 3, n - 2, n - 1):
            for lead in range(4):
                yield election(n, onsets((s,), 100.0), n + lead)
        # two, three and four onsets
        for at in ((4, 8), (4, n - 1), (5, 10), (n - 5, n - 1), (6, 13), (4, 8, 12), (4, 9, 13), (5, 9, n - 1), (6, 10, 14), (4, 8, 12, 16)):
            lead = RANDOM.randrange(3)
            for k in (lead, 3):
                yield election(n, onsets(at, RANDOM.choice((10.0, 300.0))), n + k)
        # no varying borders: an onset or none, from each lead
        for lead in range(4):
            yield election(n, onsets((7,)), n + lead, 0)
            yield election(n, onsets((7, 11), 500.0), n + lead, 0)
            yield election(n, {}, n + lead, lead % 2)
        # halves: a quotient of exactly 2 and 0.5, and past them
        half = n // 2
        for s in (half - 1, half):
            for value in (1.0, 1.0000000000000002):
                yield election(n, slot(s, value), n + RANDOM.choice((0, 0, 1, 3)), RANDOM.randrange(2))
        # the previous border
        for border in (-2 ** 31, -2 ** 31 + 15, -2 ** 31 + 16, -1, 0, n - 1, n + 4, 2 ** 31 - 1):
            yield election(n, onsets((9,)), border)
        # anything
        for _ in range(12):
            yield election(n, scattered(n, RANDOM.randrange(1, 16), 8, 22), n + RANDOM.randrange(4), RANDOM.randrange(2))


def odd_numbers():
    n = 16
    for value in (NAN, SIGNALLING, INF, -INF, 1e200, 5e-324, -0.0):
        # the energy of an onset's slot, in the mean of four only, in both means, in the lookahead, in the last slot
        for s in (8, 4, 7, 20, 23):
            yield election(n, slot(8, 24.0) | {place(s, 1, 11): value})
        # the halves
        yield election(n, {place(2, 0, 11): value})
        # a band of a resolution, with a louder band beside it
        yield election(n, {place(s, 0, 14): 1e3 for s in range(9)} | {place(4, 0, 17): value}, n + 2)
        # a band of the rows
        yield energies(n, {place(3, 1, 13, 1): value} | slot(9, 3.0), record(FIXFIX, (1, 0)))
    yield election(n, {place(2, 0, 11): INF, place(12, 0, 11): INF}, n + 1)
    yield election(n, {place(12, 0, 11): INF})
    # three bands and more in a low band, one of them a NaN's, with a louder one before, between and after
    for loud, odd in ((10, 17), (13, 10), (17, 13)):
        yield election(n, {place(s, 0, loud): 1e3 for s in range(9)} | {place(4, 0, odd): NAN}, n + 2, low=(10, 20))
    # every band a NaN's or silent
    yield election(n, {place(4, 0, k): NAN for k in range(10, 20)}, n + 1)
    yield energies(n, {place(5, 0, 12): 1e154, place(5, 1, 13): 1e154, place(6, 0, 11): 1e-170}, record(FIXFIX, (1,)))


def band_tables():
    whole = tuple(range(65))
    loud = {place(s, 0, 2 * s): 50.0 + s for s in range(16)} | {place(9, 1, 63, 1): 300.0}
    for high, low in ((whole, whole), (whole, (0, 64)), ((0, 64), (0, 64)), ((63, 64), (63, 64)), ((0, 1), (0, 1)), ((3, 30, 31, 64), (3, 31, 64))):
        yield election(16, loud, 18, high=high, low=low)
        yield energies(15, loud, record(VARFIX, (1, 0), b0=1, rel0=(2,)), high=high, low=low)
    yield energies(16, loud, record(FIXFIX, (1, 1, 1, 1, 1)), high=whole, low=whole)
    refused = (
        ((), ()), ((), LOW), ((10,), (10,)), ((10, 10), (10,)), ((10, 12, 12, 20), (10, 20)), ((10, 14, 12, 20), (10, 20)), ((20, 10), (20, 10)),
        ((10, 65), (10, 65)), ((10, 255), (10, 255)), (whole + (65,), (0, 65)), (tuple(range(255)), (0, 254)),
        (HIGH, ()), (HIGH, (10,)), (HIGH, (20,)), (HIGH, (10, 13, 20)), (HIGH, (12, 20)), (HIGH, (10, 16)), (HIGH, (10, 14, 14, 20)),
        (HIGH, (10, 16, 14, 20)), (HIGH, (20, 10)), (HIGH, (9, 10, 20)), (HIGH, (10, 20, 21)),
    )
    for k, (high, low) in enumerate(refused):
        if k % 2:
            yield election(15 + k % 4 // 2, {}, high=high, low=low)
        else:
            yield energies(15 + k % 4 // 2, {}, record(FIXFIX, (0,)), 9, high=high, low=low)


def orders():
    """Several reasons to refuse at once."""
    bad, short, no_room = {'high': HIGH, 'low': (10, 13, 20)}, {'count': 6143}, 1
    good_record, bad_record = record(FIXFIX, (1, 1)), record(FIXFIX, (1, 1), noise=1)
    for slots in (0, 1, 14, 17, 256 + 16, 2 ** 32 + 15, 2 ** 32 + 16, 2 ** 63, 2 ** 64 - 1):
        yield election(slots, {}, 16, count=6400)
        yield energies(slots, {}, bad_record, no_room, **bad, **short)
    yield election(14, {}, 16, **bad, **short)
    yield energies(17, {}, good_record, count=6500)
    for n in (15, 16):
        yield election(n, {}, **bad, **short)
        yield election(n, {}, **short)
        yield energies(n, {}, bad_record, no_room, **bad, **short)
        yield energies(n, {}, bad_record, no_room, **short)
        yield energies(n, {}, bad_record, no_room)
        yield energies(n, {}, good_record, no_room)
        yield energies(n, {}, good_record, count=needed(n) - 1)


def rows():
    for n in (15, 16):
        some = scattered(n, 14, 10, 20)
        records = [
            record(FIXFIX, (1,)),
            record(FIXFIX, (0, 1)),
            record(FIXFIX, (1, 1, 0)),
            record(FIXFIX, (0, 1, 1, 0)),
            record(FIXFIX, (1, 0, 1, 0, 1)),
            # what the class does not use is not looked at
            record(FIXFIX, (0,), 255, 4, (9, 9, 9, 9), (255,), 255),
            record(FIXVAR, (1,), b1=3),
            record(FIXVAR, (0, 1), b0=99, b1=1, rel1=(4,), pointer=1),
            record(FIXVAR, (1, 0, 1, 0, 1), b1=2, rel1=(0, 1, 0, 1), pointer=3),
            record(VARFIX, (0,), b0=3),
            record(VARFIX, (1, 0), b0=2, b1=77, rel0=(5,), pointer=2),
            record(VARFIX, (0, 1, 1), b0=0, rel0=(0, 1), pointer=1),
            record(VARVAR, (1,), b0=3, b1=3, pointer=200),
            record(VARVAR, (1, 1, 0), b0=1, b1=2, rel0=(0,), rel1=(3,), pointer=3),
            record(VARVAR, (0, 1, 0, 1, 0), b0=0, b1=1, rel0=(0, 0), rel1=(1, 0), pointer=4),
        ]
        for rec in records:
            exact = length(rec)
            yield energies(n, some, rec, exact + RANDOM.choice((0, 0, 1, 50)))
        for rec in (records[0], records[4], records[13]):
            exact = length(rec)
            for room in (0, exact - 1, exact, exact + 1, 400):
                yield energies(n, some, rec, room)
        # records with no time grid
        for rec in (
            record(FIXFIX, (), num_env=0),
            record(FIXFIX, (1, 0, 1, 0, 1), num_env=6),
            record(FIXFIX, (1, 0, 1, 0, 1), num_env=255),
            record(FIXFIX, (1,), noise=2),
            record(FIXFIX, (1, 1), noise=1),
            record(FIXFIX, (1, 1), noise=3),
            record(FIXFIX, (1,), num_rel_0=5),
            record(FIXFIX, (1,), num_rel_1=255),
            record(FIXVAR, (1, 0), rel1=(0, 0)),
            record(FIXVAR, (1,), b1=4),
            record(FIXVAR, (1, 0), rel1=(8,)),
            record(FIXVAR, (1, 0), rel1=(255,)),
            record(FIXVAR, (1, 0), rel1=(0,), pointer=3),
            record(VARFIX, (1,), b0=4),
            record(VARFIX, (1, 0), rel0=(7,), b0=3),
            record(VARFIX, (1, 0), rel0=(0,), pointer=3),
            record(VARFIX, (1, 0), rel1=(0,)),
            record(VARVAR, (1,), b0=4),
            record(VARVAR, (1,), b1=255),
            record(VARVAR, (1, 0, 1), rel0=(3,), rel1=(3,)),
            record(VARVAR, (1, 0), rel0=(0,), pointer=255),
            record(VARVAR, (1, 0, 1, 0, 1), rel0=(0, 0, 0, 0), num_rel_0=5),
        ):
            if n == 16 or RANDOM.randrange(2):
                yield energies(n, some, rec, 60)


def main():
    cases = [case for part in (edges, spreads, plans, odd_numbers, band_tables, orders, rows) for case in part()]
    data = b''.join(cases)
    lines = store('election_cases', 'elections', data)
    ends = collections.Counter()
    for case, line in zip(cases, lines.splitlines(), strict=True):
        words = line.split()
        kind = 'election' if case[0] == 1 else 'energies'
        ends[kind, 'refused ' + words[1] if words[0] == 'refused' else words[0] if case[0] == 1 else 'rows'] += 1
    print(len(cases), 'cases,', len(data), 'bytes:')
    for (kind, end), count in sorted(ends.items()):
        print(f'  {kind}: {end}: {count}')


main()
