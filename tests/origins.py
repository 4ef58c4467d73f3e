"""Shells for tests/origins.test.sh, and whether the origins that shellfix writes lead from a mended shell back to its scan.

origins.py make FOLDER      writes shells FOLDER/*.ply and FOLDER/*.stl: small ones whose origins are known, and random ones with defects of every kind
origins.py follow SCAN..    whether SCAN.list has a line for each face of the PLY file SCAN.mended, in rising order, with the number of a face of SCAN that has
                            its corners in the same places, at most the last two exchanged; and in many of the shells another number than in SCAN.mended
"""
import os
import random
import struct
import sys

import ply
import stl

LEGS = [(0.0, 0.0, 0.0), (1.0, 0.0, 0.0), (0.0, 1.0, 0.0), (0.0, -1.0, 0.0), (0.0, 0.0, 1.0)]
SHELLS = {
    "two-passes": (LEGS, [(0, 0, 1), (0, 1, 2), (0, 1, 2), (0, 2, 1), (3, 4, 0)]),
    "three-on-an-edge": (LEGS, [(0, 1, 2), (0, 1, 3), (0, 1, 4)]),
    "nothing-left": (LEGS, [(0, 0, 1), (2, 2, 2)]),
    "minus-zero": (LEGS + [(-0.0, 0.0, 0.0)], [(5, 5, 1), (5, 1, 2), (0, 3, 4)]),
    "empty": ([], []),
}


def damaged(chance):
    """A wavy square with defects: faces turned over, written twice, left out, on a crowded edge, with a corner twice, or led to another place."""
    side = chance.randint(2, 12)
    places = [(i / 7, j / 3, chance.random()) for i in range(side + 1) for j in range(side + 1)]
    squares = [(side + 1) * i + j for i in range(side) for j in range(side)]
    faces = []
    for face in [f for v in squares for f in ((v, v + 1, v + side + 1), (v + 1, v + side + 2, v + side + 1))]:
        a, b, c = face
        other = chance.randrange(len(places))
        more = [(a, c, b)], [face, (b, c, a)], [], [face, (a, b, other)], [(a, b, b)], [(other, b, c)], [(a, a, b), face]
        faces += chance.choice(more) if chance.random() < 0.3 else [face]
    return places, faces


def make(name):
    """All shells, each as a PLY file; some as STL files too."""
    os.makedirs(name, exist_ok=True)
    put = lambda file, data: open(os.path.join(name, file), "wb").write(data)
    chance = random.Random(7)
    made = {"random-%d" % n: damaged(chance) for n in range(60)}
    for file, (places, faces) in (SHELLS | made).items():
        put(file + ".ply", ply.ply(places, faces))
        put(file + ".stl", stl.stl([stl.facet([stl.word(x) for v in face for x in places[v]]) for face in faces]))


def corners_of(name):
    """The places of the three corners of each face of a file. In an STL file equal corners have the bits that appear first."""
    data = open(name, "rb").read()
    if data[:4] == b"ply\n":
        refused, points, faces = ply.read(data)
        assert not refused, name
        return [[struct.pack("<3d", *points[v]) for v in face] for face in faces]
    first = {}
    # A tuple with -0.0 equals one with 0.0, and its hash too.
    return [[struct.pack("<3d", *first.setdefault(corner, corner)) for corner in (f[:3], f[3:6], f[6:])] for f in stl.corners(data)]


def follow(scan):
    """Says what is wrong with the origins of a shell, and how many of its faces moved and how many were turned over."""
    was, now = corners_of(scan), corners_of(scan + ".mended")
    text = open(scan + ".list", "rb").read().decode("ascii")
    listed = [int(line) for line in text.splitlines()]
    assert text == "".join("%d\n" % origin for origin in listed), scan + ": not a plain number on each line"
    assert len(listed) == len(now), scan + ": not a line for each face"
    assert all(x < y for x, y in zip(listed, listed[1:])), scan + ": they do not rise"
    turned = 0
    for face, origin in zip(now, listed):
        a, b, c = was[origin]
        assert face in ([a, b, c], [a, c, b]), "%s: face %d lies elsewhere" % (scan, origin)
        turned += face != [a, b, c]
    return sum(k != origin for k, origin in enumerate(listed)), turned


def follow_all(scans):
    """Whether many of the shells tell origins from places."""
    moved, turned = zip(*map(follow, scans))
    print("origins: %d shells followed back, %d faces in another place, %d turned over" % (len(scans), sum(moved), sum(turned)))
    return len([n for n in moved if n > 0]) > 50 and sum(turned) > 50


if __name__ == "__main__":
    if sys.argv[1] == "make" and len(sys.argv) == 3:
        make(sys.argv[2])
    elif sys.argv[1] == "follow":
        sys.exit(not follow_all(sys.argv[2:]))
    else:
        sys.exit(__doc__)
