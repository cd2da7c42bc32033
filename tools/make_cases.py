#!/usr/bin/env python3
"""Makes the texts of which the program make_cases makes streams, and what it must print, which is worked out here from what the README says of a line and from
the model of named.py.

usage: tools/make_cases.py [PROGRAM]

Writes crates/make_cases/stdin and crates/make_cases/stdout, and says how many lines end in each way. Needs no Rust. Seeded, so that it makes the same files
each time. With the path of `gridmake` it writes nothing, but runs that on each text and compares what it writes on standard output and standard error.

A case, its numbers low byte first:
  4 bytes  length of the text
  the text
Its line: the stream, hexadecimal, or the number of the line that is refused, and the refusal.
"""
import collections
import random
import re
import struct
import subprocess
import sys

from cases import pack, write
from named import SLOT_COUNTS, middle, named, reached, written

RANDOM = random.Random(20261120)
NAMES = ('FixFix', 'FixVar', 'VarFix', 'VarVar')
MOST_TEXT, MOST_FRAMES = 65535, 255
TOKEN = re.compile(r'[ \t\r]*(?:(?P<number>-?[0-9]+)(?=[ \t\r/]|$)|(?P<stroke>/)|(?P<flag>[HL])|(?P<class>[FixVar]+))')


def tokens(line):
    """The kind and the text of each token, or None where something else stands in the line."""
    at, out = 0, []
    line = line.rstrip(' \t\r')
    while at < len(line):
        m = TOKEN.match(line, at)
        if not m:
            return None
        out.append((m.lastgroup, m[m.lastgroup]))
        at = m.end()
    return out


def fields(line):
    """The tokens between strokes."""
    found = tokens(line)
    if found is None:
        return None
    out = [[]]
    for kind, text in found:
        if kind == 'stroke':
            out.append([])
        else:
            out[-1].append((kind, text))
    return out


def only(kind, field):
    """The texts of a field that has one kind of token only, else None."""
    return [text for k, text in field if k == kind] if all(k == kind for k, _ in field) else None


def read(line):
    """None where the line is no such line, () for a blank one, a number for a slot count; borders, mark and resolutions of a frame."""
    parts = fields(line)
    if parts is None:
        return None
    if len(parts) == 1:
        numbers = only('number', parts[0])
        return None if numbers is None or len(numbers) > 1 else int(numbers[0]) if numbers else ()
    if len(parts) == 4:
        head = [k for k, _ in parts[0]]
        named_class = head.index('class') if 'class' in head else 0
        if named_class != 1 or head[0] != 'number' or only('number', parts[1]) is None:
            return None
        behind = parts[0][1:]
        while behind and behind[0][0] == 'class':
            behind = behind[1:]
        parts = [behind, *parts[2:]]
    if len(parts) != 3:
        return None
    borders, mark, flags = only('number', parts[0]), only('number', parts[1]), only('flag', parts[2])
    if None in (borders, mark, flags) or len(mark) != 1:
        return None
    return tuple(map(int, borders)), int(mark[0]), [int(f == 'H') for f in flags]


def made(text):
    """The stream of a text, or the line that is refused and the refusal."""
    slots, begin, following, count, bits, end = 16, 0, None, 0, [], -1
    for number, line in enumerate(text.split('\n'), 1):
        end += 1 + len(line)
        if end > MOST_TEXT:
            return number, 4
        said = read(line)
        if said is None:
            return number, 5
        if said == ():
            continue
        if isinstance(said, int):
            if count:
                return number, 5
            if said not in SLOT_COUNTS:
                return number, 1
            slots = said
            continue
        borders, mark, flags = said
        r = named(slots, borders, flags, mark)
        if isinstance(r, int):
            return number, r
        if count and borders[0] != following:
            return number, 9
        if count == MOST_FRAMES:
            return number, 4
        begin = borders[0] if not count else begin
        following, count = borders[-1] - slots, count + 1
        bits += written(r, flags)
    return bytes([slots, begin + slots, count]) + pack(bits)


def case(text):
    """A text, and the stream that it makes or what is said of the line that is refused."""
    answer = made(text)
    return text.encode('latin-1'), answer if isinstance(answer, bytes) else f'line {answer[0]} refused {answer[1]}'


def differs(program, text, answer):
    """Whether the program writes anything but the stream, or but what is said of the refused line on standard error."""
    done = subprocess.run([program], input=text, capture_output=True, check=False)
    expected = (answer, b'') if isinstance(answer, bytes) else (b'', answer.encode() + b'\n')
    return (done.stdout, done.stderr) != expected


def numbers(values):
    return ' '.join(map(str, values))


def letters(flags):
    return ''.join('LH'[f] for f in flags)


def short(t, l_a, flags):
    return f'{numbers(t)} / {l_a} / {letters(flags)}'


def long(i, n, t, l_a, flags):
    """The line that gridlist prints of what is chosen."""
    r = named(n, t, flags, l_a)
    noise = (t[0], t[-1]) if r.env == 1 else (t[0], t[middle(r)], t[-1])
    return f'{i} {NAMES[r.cls]} {numbers(t)} / {numbers(noise)} / {l_a} / {letters(flags)}'


def frames(n, count, start=None):
    """Frames that meet: borders, mark and resolutions of each."""
    by_first = collections.defaultdict(list)
    for t, l_a in sorted(reached(n)):
        by_first[t[0]].append((t, l_a))
    begin = RANDOM.randrange(4) if start is None else start
    for _ in range(count):
        t, l_a = RANDOM.choice(by_first[begin])
        yield t, l_a, [RANDOM.randrange(2) for _ in t[1:]]
        begin = t[-1] - n


def spread(line):
    """Further blanks where a line may have them."""
    return re.sub(r' |(?=/)|(?<=/)', lambda _: RANDOM.choice(('', ' ', '  ', '\t')) + ' ', line) + RANDOM.choice(('', ' ', '\r', '\t '))


TWO = '0 FixFix 0 16 / 0 16 / -1 / H\n1 FixVar 0 10 12 16 / 0 10 16 / 1 / LLL\n'
GOOD = '0 16 / -1 / H'

UNREADABLE = (
    'x', '0 16', '0 16 / -1', '0 16 / -1 / X', '0 16 / -1 / h', '0 16 // H', '0 16 / / H', '0 16 / -1 0 / H', '0 16 / -1 / H / H',
    '0 16 / - / H', '0 - 16 / -1 / H', '0 1-6 / -1 / H', '0 16- / -1 / H', '0 --16 / -1 / H', '0 16 / -1 / 1', '0 16 / -1 / H1', '0 16 / -1 / -', '+0 16 / -1 / H',
    '0.0 16 / -1 / H', '0,16 / -1 / H', 'FixFix 0 16 / 0 16 / -1 / H', '0 FixFix 0 16 / -1 / H', '0 FixFix', 'FixFix', '0 0 16 / 0 16 / -1 / H',
    '0 0 FixFix 0 16 / 0 16 / -1 / H', '0 FixFix 0 FixFix 16 / 0 16 / -1 / H', '0FixFix 0 16 / 0 16 / -1 / H', '0 fixfix 0 16 / 0 16 / -1 / H',
    '0 FixFix 0 16 / 0 16 / -1 / H / H', '0 FixFix 0 16 / H / -1 / H', '0 FixFix 0 16 / 0 16 / H / H', 'H 0 16 / -1 / H', '0 16 H / -1 / H', '0 16 / -1 H / H',
    '0 16 / FixFix / H', '0 16 / -1 / FixFix', '15 16', '- 15', '15 /', '/ 15', '0 refused 7', '0 16 / -1 / H\x00', '\x0b', '0 16 / -1 / H\x80', '\xff',
)

NO_GRID = (
    ' / -1 / ', '/ -1 /', '16 / -1 / ', '0 16 / -1 /', '0 16 / -1 / HH', '0 16 / -1 / HHHHHHHHHHHHHHHHHHHHHHHHH', '0 2 4 6 8 10 12 / -1 / HHHHHH', '0 2 4 6 8 10 12 14 16 / -1 / HHHHHHHH',
    '0 17 20 / -1 / HH', '-1 16 / -1 / H', '0 -16 / -1 / H', '0 1016 / -1 / H', '0 65552 / -1 / H', '0 4294967312 / -1 / H', '0 99999999999999999999999999 / -1 / H',
    '0 16 / 0 / H', '0 16 / 2 / H', '0 16 / -2 / H', '0 16 / -1000 / H', '0 16 / 4294967295 / H', '0 16 / 4294967297 / H', '0 8 8 16 / -1 / HHH', '0 9 8 16 / -1 / HHH',
    '4 16 / -1 / H', '0 20 / -1 / H', '0 15 / -1 / H', '0 3 16 / 0 / HL', '00 FixFix / / -1 /',
)

SAME = (
    '00 0016 / -01 / H', '0  16  /  -1  /  H', '0 16/-1/H', '\t0\t16\t/\t-1\t/\tH\t', '0 16 / -1 / H\r', '-0 16 / -1 / H', '7 VarVar 0 16 / 5 / -1 / H',
    '999999 xiFra 0 16 / / -1 / H', '3 Fix Var 0 16 / 0 16 / -1 / H', '0 FixFix0 16 / 0 16 / -1 / H',
)


def cases():
    yield case(TWO)
    yield case('0 16 / -1 / H\n0 10 12 16 / 1 / LLL\n')
    for text in ('', '\n', '\n\n', ' \t\r\n', '16', '15\n', '15\n16\n15', '\n\n15\n\n', '17', '14\n', '0', '-15\n', '1000016', '15\n14\n', '16\n' + TWO, '15\n' + TWO):
        yield case(text)
    for line in SAME:
        yield case(line)
        yield case(line + '\n\n' + line + '\n')
    for line in UNREADABLE + NO_GRID:
        yield case(line)
        yield case(GOOD + '\n' + line + '\n' + GOOD)
    # the chain, and what comes before it
    for second in ('0 16 / -1 / H', '1 16 / -1 / H', '2 16 / -1 / H', '3 16 / -1 / H', '1 16 / 0 / H', '1 x', '16', '15'):
        for first in ('0 16 / -1 / H', '0 17 / -1 / H', '2 19 / 1 / L', '3 5 7 16 / 2 / LLL'):
            yield case(f'{first}\n{second}\n')
            yield case(f'\n{first}\n\n \n{second}\nx')
    for n in SLOT_COUNTS:
        head = '' if n == 16 else '15\n'
        for start in range(4):
            yield case(head + f'{start} {n} / -1 / L\n')
        for count in (1, 2, 3, 5, 20, 100):
            listed = list(frames(n, count))
            texts = [long(i, n, *f) for i, f in enumerate(listed)], [short(*f) for f in listed]
            for text in texts:
                yield case(head + '\n'.join(text) + '\n')
            yield case(head + '\n'.join(spread(RANDOM.choice(pair)) for pair in zip(*texts)))
        for count in (254, 255, 256, 257):
            yield case(head + '\n'.join(short(*f) for f in frames(n, count, 0)))
    # the widest frames, and the longest texts
    yield case('0 2 4 6 8 16 / 5 / HLHLH\n' * 255)
    yield case('0 2 4 6 8 16 / 5 / HLHLH\n' * 256)
    yield case((GOOD + '\n').ljust(MOST_TEXT))
    yield case((GOOD + '\n').ljust(MOST_TEXT + 1))
    yield case('x'.rjust(MOST_TEXT + 1))
    yield case(GOOD.ljust(MOST_TEXT) + '\n')
    # a line that is cut, and one before it that can't be read
    yield case(('\n' * MOST_TEXT + GOOD)[8:MOST_TEXT + 9])
    yield case(('x' + '\n' * MOST_TEXT + GOOD)[:MOST_TEXT + 1])


def main():
    all_cases = list(dict.fromkeys(cases()))
    if len(sys.argv) > 1:
        wrong = [text for text, answer in all_cases if differs(sys.argv[1], text, answer)]
        print(len(all_cases), 'texts,', len(wrong), 'differ', *wrong[:3])
        sys.exit(bool(wrong))
    data = b''.join(struct.pack('<I', len(text)) + text for text, _ in all_cases)
    lines = [answer.hex() if isinstance(answer, bytes) else answer for _, answer in all_cases]
    write('make_cases', data, ''.join(line + '\n' for line in lines).encode())
    ends = collections.Counter('refused ' + line.split()[-1] if line.startswith('line') else 'streams' for line in lines)
    print(len(all_cases), 'cases,', len(data), 'bytes:', ', '.join(f'{end} {count}' for end, count in sorted(ends.items())))


if __name__ == '__main__':
    main()
