#!/usr/bin/env python3
"""Turns the stored answers (crates/vectors/data/*.bin) into inputs of the targets, in the layout of src/decode.h: seeds.py DATA OUT.
OUT/edges has inputs written here: what is just too large for a float, and what just is not; the grids of the costliest files; scratch at both
sizes that build may need."""
import hashlib
import pathlib
import struct
import sys

data, out = map(pathlib.Path, sys.argv[1:3])
counts = {}


def words(block, count):
    return struct.unpack_from(f"<{count}I", block)


def exact(length):
    """A length given outright."""
    return b"\x06" + struct.pack("<I", length)


def raw(part):
    """A point file or a mesh given outright."""
    return b"\x00" + struct.pack("<H", len(part)) + part


def number(part):
    return b"\xa0" + part


def whole(g):
    """A grid of the costliest files given outright."""
    return b"\x04" + struct.pack("<I", g)


def save(target, seed, root=out):
    folder = root / target
    folder.mkdir(parents=True, exist_ok=True)
    (folder / hashlib.sha1(seed).hexdigest()).write_bytes(seed)
    counts[target] = counts.get(target, 0) + 1


def edge(target, seed):
    save(target, seed, out / "edges")


def blocks(name, size):
    whole = (data / f"{name}.bin").read_bytes()
    return [whole[at : at + size] for at in range(0, len(whole), size)]


for case in blocks("narrow", 12):
    save("narrow", case[:8])

for place, block in enumerate(blocks("open", 4096)):
    file, scratch, room, journal, _ = words(block, 5)
    lengths = exact(scratch) + exact(room) + exact(journal) + bytes(3)
    save("open", bytes([2 | place & 1]) + lengths + raw(block[64 : 64 + file]))
    save("fold", bytes([2 | place & 1]) + exact(scratch) + exact(room) + bytes(2) + raw(block[64 : 64 + file]))

for place, block in enumerate(blocks("build", 8192)):
    file, scratch, room = words(block, 3)
    save("build", bytes([place & 1]) + exact(scratch) + exact(room) + bytes(2) + raw(block[64 : 64 + file]))

grids = [whole(*words(block, 1)) for block in blocks("cost", 16)]
for grid in grids:
    save("costliest", grid)

for place, block in enumerate(blocks("costliest", 8192)):
    g, room = words(block, 2)
    save("write_costliest", bytes([2 | place & 1]) + whole(g) + exact(room))

for place, block in enumerate(blocks("edit", 8192)):
    room, journal, count = words(block, 3)
    buffer, entries = block[64 : 64 + room], block[1088 : 1088 + 4 * journal]
    calls, first = b"", 1
    for call in range(count):
        kind, x, y, z, cauchy, elliptic = struct.unpack_from("<6I", block, 1344 + 24 * call)
        first = kind if call == 0 else first
        calls += bytes([{1: 0x10, 2: 0x14, 3: 0x06}[kind]])
        if kind != 3:
            calls += struct.pack("<3I", x, y, z)
        if kind == 1:
            calls += b"\x80" + struct.pack("<I", cauchy) + b"\x80" + struct.pack("<I", elliptic)
    target = {1: "put", 2: "remove", 3: "undo"}[first]
    save(target, bytes([place & 1]) + raw(buffer) + b"\x00" + bytes([journal]) + entries + calls)
    used = 64 + 16 * struct.unpack_from("<I", buffer, 12)[0] if room >= 64 else 0
    if 0 < used <= room and room - used < 256 and 0 < journal and not any(entries[:4]):
        save("history", bytes([place & 1, room - used, journal - 1]) + raw(buffer[:used]) + calls)

for place, block in enumerate(blocks("inside", 2048)):
    mesh, floats, _ = words(block, 3)
    point = b"".join(number(block[16 + 8 * axis : 24 + 8 * axis]) for axis in range(3))
    save("inside", bytes([place & 1]) + raw(block[64 : 64 + mesh]) + b"\x00" + exact(floats) + b"\x00" + point)

for place, block in enumerate(blocks("fill", 8192)):
    g, mesh, cauchy, elliptic, floats, room, _ = words(block, 7)
    seed = bytes([0x0A | place & 1]) + struct.pack("<I", g) + raw(block[64 : 64 + mesh])
    for at, length in ((1504, cauchy), (1904, elliptic)):
        seed += b"\x80" + struct.pack("<H", length) + block[at : at + length]
    seed += number(block[32:40]) + number(block[40:48]) + exact(floats) + exact(room)
    save("fill", seed)

MAX = 2.0**128 - 2.0**104
LARGE = 2.0**128 - 2.0**103  # too large from here up
AT_LARGE = [MAX, 2.0**103]  # masses that make it
BELOW_LARGE = [MAX, 2.0**103 - 2.0**79, 15 * 2.0**75]  # the binary64 just below it

bits = [struct.pack("<d", sign * x) for x in (MAX, LARGE, LARGE - 2.0**75, 2.0**128, float("inf")) for sign in (1, -1)]
bits += [struct.pack("<Q", nan) for nan in (0x7FF8 << 48, 0xFFF8 << 48, 0x7FF << 52 | 1)]
edge("narrow", b"".join(bits))


def row(masses, start=0):
    """Records along x from one cell on: a number is the Cauchy mass, a pair both."""
    pairs = [mass if isinstance(mass, tuple) else (mass, 0.0) for mass in masses]
    return [((start + x, 0, 0), pair) for x, pair in enumerate(pairs)]


def point_file(records, g, low=0.0, high=1.0, pad=0):
    file = struct.pack("<4I", 0x314D5952, 1, g, len(records)) + struct.pack("<12f", 1, 1, 1, 0, low, low, low, high, high, high, 0, 0)
    return file + b"".join(struct.pack("<4H2f", *cell, pad, *masses) for cell, masses in records)


def build_edge(records, g=4, room=0, scratch=0, **box):
    """With the tree's own length lent, and the scratch that it needs; 1: one less of it; 3: none."""
    edge("build", bytes([len(records) & 1, scratch, room]) + bytes(10) + raw(point_file(records, g, **box)))


TWO = row([MAX, MAX])
CHILD = row([MAX, MAX, -MAX, -MAX]) + [((x, 1, 1), (1.0, 1.0)) for x in range(4)] + [((0, 2, 2), (1.0, 1.0))]
TWICE = TWO + row([MAX], 1)
for room in (0, 1, 3):
    build_edge(TWO, room=room)
    build_edge(CHILD, room=room)
    build_edge(TWICE, room=room)
build_edge(TWO, scratch=1)
build_edge([(cell, (-elliptic, cauchy)) for cell, (cauchy, elliptic) in CHILD])
build_edge(row([-MAX, -MAX]))
for masses in ([MAX, MAX, -MAX], [MAX, -MAX, MAX], AT_LARGE, [-mass for mass in AT_LARGE], BELOW_LARGE, [MAX]):
    build_edge(row(masses))
    build_edge(row([(1.0, mass) for mass in masses]))
build_edge(row([1.0, 2.0**-24 - 1.0]), g=2, high=1e34)
build_edge(row([-MAX, MAX, 2e-30]))
build_edge(row([1.0, 2.0]), low=-MAX, high=MAX)
build_edge(row([(1.0, 1.0), (1.0, -0.5)]), low=-MAX, high=MAX)

for file in (TWO, TWICE):
    edge("open", b"\x02" + bytes(18) + raw(point_file(file, 4)))
    edge("fold", b"\x02" + bytes(12) + raw(point_file(file, 4)))


def points(g, *cells):
    """Records in these cells, each with masses of its own."""
    return [((cell % g, cell // g % g, cell // g // g), (1.0 + i, 2.0 + i)) for i, cell in enumerate(cells)]


def scratch_edge(g, cells, sizes, past=b"", first=0, **how):
    """With each of these sizes of scratch, the tree's own length and such bytes past the file."""
    for place, size in enumerate(sizes):
        edge("build", bytes([first | place & 1]) + exact(size) + bytes(7) + raw(point_file(points(g, *cells), g, **how) + past))


SEAMS, LARGER = (31, 32, 63, 64), 0xF0
scratch_edge(1, [0], (1, 2))
scratch_edge(1, [0], (0, 1), pad=1)
scratch_edge(1, [0, 0], (0, 1, 2))
scratch_edge(2, [], (1, 2))
scratch_edge(2, [7], (1, 2, 7, 8))
scratch_edge(4, [0, 63], (3, 4, 5, 63, 64))
scratch_edge(4, [0, 63], (4, 63, 64), pad=256)
for cells in ([63, 0], [16, 1], [0, 63, 63], [0, 0, 63]):  # not in working form, the second with x slowest
    scratch_edge(4, cells, (3, 4, 63, 64))
for past in (point_file(points(4, 0), 4)[64:], b"\xff" * 40):
    scratch_edge(4, [5, 40], (3, 4), past)
scratch_edge(5, SEAMS, (7, 8, 124, 125))
for cells in (range(31, 65), range(0, 125, 2), range(60, 125)):
    scratch_edge(5, cells, (8, 125))
scratch_edge(10, [0, 999], (63, 64))
for g, size in ((33, 2248), (40, 4000), (64, 16384)):
    scratch_edge(g, [*SEAMS, g**3 - 1], (size - 1, size), first=LARGER)
for size in (4, 64):  # open and fold need a word for each cell
    edge("open", b"\x02" + exact(size) + bytes(13) + raw(point_file(points(4, 0, 63), 4)))
    edge("fold", b"\x02" + exact(size) + bytes(7) + raw(point_file(points(4, 0, 63), 4)))


def edit(first, cell, *masses):
    """A call: the first byte, a cell, the masses of a put."""
    return bytes([first]) + struct.pack("<3I", *cell) + b"".join(b"\x80" + struct.pack("<f", mass) for mass in masses)


BUILT, UNDONE, PUT, REMOVE = 0x80, 0x40, 0x10, 0x14
ONE = point_file(row([MAX]), 2)
edge("put", b"\x00" + raw(ONE + bytes(32)) + b"\x00\x07" + bytes(28) + edit(PUT, (1, 1, 1), MAX, 0.0))
over = edit(BUILT | PUT, (1, 1, 1), MAX, 0.0)
edge("history", b"\x00\x40\x20" + raw(ONE) + over + edit(BUILT | PUT, (0, 1, 0), -MAX, 0.0) + edit(BUILT | REMOVE, (0, 1, 0)))
edge("history", b"\x01\x40\x20" + raw(ONE) + edit(PUT, (0, 1, 0), 1.0, 1.0) + over + edit(BUILT | UNDONE | PUT, (0, 0, 0), 1.0, 1.0))

CUBE = b"\x01\x00" + 3 * b"\xa4\x03\xa4\x02"  # -1e6 to 1e6
HEAVY = b"\x01" + 4 * b"\x50" + b"\xa4\x06"  # one kernel of sigma 0 and weight 1e30
for g in (1, 4):
    edge("fill", b"\x02" + struct.pack("<I", g) + CUBE + HEAVY + HEAVY + b"\x50\x54\x00\x00")

for first in range(0, len(grids), 8):
    edge("costliest", b"".join(grids[first : first + 8]))


def write_edge(first, g, room=0):
    """With so much lent: 0: what the file needs; 1: a byte less; 2: a byte more; 3: nothing; 15: 16 bytes more."""
    edge("write_costliest", bytes([first]) + whole(g) + bytes([room]))


AT_END, BUILT_TOO = 1, 2
for g in range(1, 17):
    write_edge(BUILT_TOO | g & AT_END, g)
for g in (0, 1, 8, 17, 256, 257):
    for room in (1, 2, 3):
        write_edge(room & AT_END, g, room)
write_edge(AT_END, 65537, 15)
write_edge(LARGER | BUILT_TOO, 25)
write_edge(LARGER | AT_END, 41)

print(", ".join(f"{target} {count}" for target, count in counts.items()))
