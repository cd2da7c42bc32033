"""All borders and marks that a writable record reaches, with every list of resolutions, and their neighbours, held against the model of named.py.

usage: tools/named/run
"""
import collections
import itertools
import os
import subprocess
import sys
import threading

sys.path.insert(0, os.path.dirname(os.path.dirname(os.path.abspath(__file__))))
from cases import ROOT  # noqa: E402
from named import SLOT_COUNTS, reached  # noqa: E402
from named_cases import case, neighbours  # noqa: E402


def all_reached(n):
    for t, l_a in sorted(reached(n)):
        for flags in itertools.product((0, 1), repeat=len(t) - 1):
            yield case(n, t, flags, l_a)


def all_neighbours(n):
    """Each once, with all resolutions low and with the first high."""
    near = dict.fromkeys(x for pair in sorted(reached(n)) for x in neighbours(*pair))
    for t, l_a in near:
        if (t, l_a) not in reached(n):
            for first in (0, 1):
                yield case(n, t, [first] + [0] * (len(t) - 2), l_a)


def compare(name, cases):
    """Hands the cases to the host and compares its lines."""
    cases = list(cases)
    host = subprocess.Popen([os.path.join(ROOT, 'target', 'named_host')], stdin=subprocess.PIPE, stdout=subprocess.PIPE)

    def feed():
        try:
            with host.stdin as to:
                for data, _ in cases:
                    to.write(data)
        except BrokenPipeError:
            pass  # the host stopped, and its last line says why

    threading.Thread(target=feed).start()
    ends, differences, last = collections.Counter(), 0, None
    for (data, expected), line in itertools.zip_longest(cases, host.stdout, fillvalue=(None, None)):
        last = line and line.decode().rstrip('\n') if isinstance(line, bytes) else None
        ends[expected.split()[0] + (' ' + expected.split()[1] if expected.startswith('refused') else '')] += 1
        if last != expected:
            differences += 1
            if differences <= 5:
                print('differs:', data.hex(), 'is', last, 'and should be', expected)
    print(f'{name}: {len(cases)} cases, {differences} differences:', ', '.join(f'{end} {count}' for end, count in sorted(ends.items())), flush=True)
    return differences == 0 and host.wait() == 0


def main():
    good = True
    for n in SLOT_COUNTS:
        print(f'{n} slots: {len(reached(n))} pairs of borders and mark are reached')
        good &= compare(f'{n} slots, every pair with every list of resolutions', all_reached(n))
        good &= compare(f'{n} slots, neighbours that are not reached', all_neighbours(n))
    sys.exit(not good)


main()
