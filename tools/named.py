"""A model of the grid for named borders: every record that can be written is tried, and the first in the order is taken.

Written from the order's words (docs/ORDER.md, R4) and from ISO/IEC 14496-3, 4.6.18.3.3 with Tables 4.69 and 4.176; it knows nothing of our program.
"""
import collections
import functools
import itertools

from cases import FIXFIX, FIXVAR, VARFIX, VARVAR, fixfix, sided, varvar

SLOT_COUNTS = (15, 16)

# What the reader gives of a record, but its resolutions: class, envelopes, border bytes, stored lengths, pointer.
Record = collections.namedtuple('Record', 'cls env b0 b1 rel0 rel1 pointer')


def lists(count):
    return itertools.product(range(4), repeat=count)


@functools.cache
def records():
    """Every record that the writer takes, as the reader gives it."""
    out = [Record(FIXFIX, env, 0, 0, (), (), 0) for env in (1, 2, 4)]
    for k, b in itertools.product(range(4), repeat=2):
        for rel, pointer in itertools.product(lists(k), range(k + 2)):
            out.append(Record(FIXVAR, k + 1, 0, b, (), rel, pointer))
            out.append(Record(VARFIX, k + 1, b, 0, rel, (), pointer))
    for j, k, b0, b1 in itertools.product(range(4), repeat=4):
        if j + k + 1 <= 5:
            for rel0, rel1, pointer in itertools.product(lists(j), lists(k), range(j + k + 2)):
                out.append(Record(VARVAR, j + k + 1, b0, b1, rel0, rel1, pointer))
    return out


def written(r, flags):
    """The bits of sbr_grid()."""
    flags = list(flags)
    if r.cls == FIXFIX:
        return fixfix({1: 0, 2: 1, 4: 2}[r.env], flags[0])
    if r.cls == FIXVAR:
        return sided(FIXVAR, r.b1, r.rel1, r.pointer, flags[::-1])
    if r.cls == VARFIX:
        return sided(VARFIX, r.b0, r.rel0, r.pointer, flags)
    return varvar(r.b0, r.b1, r.rel0, r.rel1, r.pointer, flags)


def borders(r, n):
    """Its borders at n slots, which may fail to rise."""
    if r.cls == FIXFIX:
        step = (2 * n + r.env) // (2 * r.env)
        return tuple(step * l for l in range(r.env)) + (n,)
    first = r.b0 if r.cls in (VARFIX, VARVAR) else 0
    last = n + r.b1 if r.cls in (FIXVAR, VARVAR) else n
    lead = [first]
    for length in r.rel0:
        lead.append(lead[-1] + 2 * length + 2)
    trail = [last]
    for length in r.rel1:
        trail.insert(0, trail[0] - 2 * length - 2)
    return tuple(lead + trail)


def mark(r):
    """The envelope that is marked; -1 for none."""
    if r.cls in (FIXVAR, VARVAR) and r.pointer > 0:
        return r.env + 1 - r.pointer
    return r.pointer - 1 if r.cls == VARFIX and r.pointer > 1 else -1


def middle(r):
    """The border at which the noise floors meet."""
    if r.cls == FIXFIX:
        return r.env // 2
    if r.cls == VARFIX:
        return 1 if r.pointer == 0 else r.env - 1 if r.pointer == 1 else r.pointer - 1
    return r.env - 1 if r.pointer <= 1 else r.env + 1 - r.pointer


def times(r, n):
    """Its borders and its mark, or None where it has no time grid."""
    t = borders(r, n)
    if any(a >= b for a, b in zip(t, t[1:])):
        return None
    return (t, mark(r)) if r.env == 1 or 1 <= middle(r) < r.env else None


def key(r):
    """What decides among several records."""
    return len(written(r, [0] * r.env)), r.cls, len(r.rel0), r.pointer


@functools.cache
def reached(n):
    """For all borders and marks that a record has at n slots: the first such record, and the first that is not FixFix."""
    first = {}
    for r in records():
        t = times(r, n)
        if t is not None:
            any_flags, unequal = first.get(t, (None, None))
            any_flags = min(filter(None, (any_flags, r)), key=key)
            if r.cls != FIXFIX:
                unequal = min(filter(None, (unequal, r)), key=key)
            first[t] = any_flags, unequal
    return first


def named(n, t, flags, l_a):
    """The record for these borders, resolutions and mark, or the number of a refusal."""
    if n not in SLOT_COUNTS:
        return 1
    t, flags = tuple(t), tuple(flags)
    found = reached(n).get((t, l_a)) if len(flags) + 1 == len(t) else None
    r = found and found[0 if len(set(flags)) == 1 else 1]
    return r or 10


def shown(r, flags):
    """A record, or a refusal, as the replays print it."""
    if isinstance(r, int):
        return f'refused {r}'
    name = ('FixFix', 'FixVar', 'VarFix', 'VarVar')[r.cls]
    letters = ''.join('LH'[f] for f in flags)
    lengths = [''.join(f' {x}' for x in rel) for rel in (r.rel0, r.rel1)]
    noise, amp = min(r.env, 2), int(r.cls == FIXFIX and r.env == 1)
    return f'{name} {letters} b0 {r.b0} b1 {r.b1} rel0{lengths[0]} rel1{lengths[1]} p {r.pointer} noise {noise} amp {amp}'
