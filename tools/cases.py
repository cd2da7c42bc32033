"""What the makers of cases share: samples by slot, column and band, frames as bits, and the files that a program of the gate replays."""
import math
import os
import struct
import subprocess

ROOT = os.path.dirname(os.path.dirname(os.path.abspath(__file__)))
HIGH, LOW = (10, 12, 14, 16, 20), (10, 14, 20)
FIXFIX, FIXVAR, VARFIX, VARVAR = range(4)


def needed(slots):
    """How many numbers an election or energies ask for."""
    return (2 * (slots + 8) + 2) * 128


def bits(value):
    """The bits of a double; a pattern goes in as it is."""
    return value if isinstance(value, int) else struct.unpack('<Q', struct.pack('<d', value))[0]


def place(slot, column, band, im=0):
    """The index of a sample; slot -1 has the two columns in front of the first slot."""
    return ((2 * slot + 2 + column) * 64 + band) * 2 + im


def onsets(at, amplitude=10.0):
    """Single samples at slots, four or more apart: an onset at each."""
    return {place(s, s % 2, 10 + s % 10, s % 2): amplitude for s in at}


def packed_table(table):
    return bytes([len(table)]) + bytes(table)


def packed_samples(samples, count):
    """How many numbers are handed in, how many are listed, and each of those: its index and the bits of a double."""
    out = struct.pack('<HH', count, len(samples))
    for i, value in sorted(samples.items()):
        assert i < count
        out += struct.pack('<HQ', i, bits(value))
    return out


def record(cls, flags, b0=0, b1=0, rel0=(), rel1=(), pointer=0, noise=None, num_env=None, num_rel_0=None, num_rel_1=None):
    """A record: class, counts of envelopes and noise floors, 5 flags, border bytes, each list's count and 4 lengths, pointer."""
    num_env = len(flags) if num_env is None else num_env
    noise = (2 if num_env > 1 else 1) if noise is None else noise
    out = bytes([cls, num_env, noise]) + bytes(flags) + bytes(5 - len(flags)) + bytes([b0, b1])
    for rel, count in ((rel0, num_rel_0), (rel1, num_rel_1)):
        out += bytes([len(rel) if count is None else count]) + bytes(rel) + bytes(4 - len(rel))
    return out + bytes([pointer])


def ptr_bits(num_env):
    """The width of the pointer: Table 4.69, Note 2."""
    return math.ceil(math.log2(num_env + 1))


def field(value, width):
    return [value >> k & 1 for k in range(width - 1, -1, -1)]


def fixfix(code, flag):
    return field(0, 2) + field(code, 2) + [flag]


def sided(cls, bord, lengths, pointer, flags):
    n = len(lengths) + 1
    bits = field(cls, 2) + field(bord, 2) + field(len(lengths), 2)
    for r in lengths:
        bits += field(r, 2)
    return bits + field(pointer, ptr_bits(n)) + flags


def varvar(b0, b1, lead, trail, pointer, flags):
    n = len(lead) + len(trail) + 1
    bits = field(3, 2) + field(b0, 2) + field(b1, 2) + field(len(lead), 2) + field(len(trail), 2)
    for r in lead + trail:
        bits += field(r, 2)
    return bits + (field(pointer, ptr_bits(n)) + flags if n <= 5 else [])


def pack(bits):
    bits = bits + [0] * (-len(bits) % 8)
    return bytes(int(''.join(map(str, bits[i:i + 8])), 2) for i in range(0, len(bits), 8))


def write(program, data, lines):
    """Writes what the program reads and what it must print."""
    folder = os.path.join(ROOT, 'crates', program)
    for name, content in (('stdin', data), ('stdout', lines)):
        with open(os.path.join(folder, name), 'wb') as out:
            out.write(content)


def store(program, mode, data):
    """Writes what the program reads and what it must print, which the oracle says; answers the latter."""
    oracle = os.path.join(ROOT, 'target', 'oracle', 'oracle')
    lines = subprocess.run([oracle, mode], input=data, capture_output=True, check=True).stdout
    write(program, data, lines)
    return lines.decode()
