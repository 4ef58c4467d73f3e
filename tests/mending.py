"""Shells and mending lists for tests/mending.test.sh.

mending.py make FOLDER      writes shells FOLDER/*.ply, and lists FOLDER/*.list for the shell legs.ply: ones that apply, and bad ones of every kind
mending.py large FOLDER     writes shells FOLDER/*.ply of many points and faces; for two of them long lists FOLDER/*.list and FOLDER/*.wanted, the shells that
                            these make
mending.py judged FILE      prints the lists that the rules judge by computing, in the tables of FILE (MendingExamples.antt of the crate rules), a line each:
                            points, faces and their corners, the bytes of the list in hexadecimal behind an x, and the number and place of its refusal
mending.py strike LIST..    writes each list without every third of its lines `d`, `o` and `u`, to LIST.struck
"""
import os
import re
import struct
import sys

import ply

LEGS = [(0.0, 0.0, 0.0), (1.0, 0.0, 0.0), (0.0, 1.0, 0.0), (0.0, -1.0, 0.0), (0.0, 0.0, 1.0)]
STRIP = [(3.0, 0.0, 0.0), (4.0, 0.0, 0.0), (3.0, 1.0, 0.0), (3.0, 0.0, 1.0), (4.0, 1.0, 1.0)]
SHELLS = {
    "legs": (LEGS, [(0, 1, 2), (0, 1, 3), (0, 1, 4)]),
    "every": (
        LEGS + [(-1.0, 0.0, 0.0), (0.0, 0.0, -1.0), (9.0, 9.0, 9.0)] + STRIP,
        [(0, 0, 1), (0, 1, 2), (2, 0, 1), (0, 2, 3), (0, 1, 3), (0, 1, 4), (0, 5, 6)]
        + [(8, 9, 10), (9, 10, 11), (10, 11, 12), (11, 12, 8), (12, 8, 9)],
    ),
    "repeating": (LEGS[:1], [(0, 0, 0)] * 1000),
    "no-faces": (LEGS, []),
    "empty": ([], []),
}
LISTS = {
    "whole": "d\t2\t3\tedge\no\t1\nu\t4\n",
    "struck": "d\t2\t3\tedge\nu\t4\n",
    "only-turned": "o\t0\n",
    "untrue": "d\t0\t1\tthin\nd\t1\t2\tduplicate\nu\t2\nu\t3\n",
    "split": "s\t0\t5\t0\t2\ns\t0\t6\ns\t1\t7\t1\nu\t6\n",
    "nothing": "",
    "no-newline": "d\t2\t3\tedge\no\t1",
    "carriage-returns": "d\t2\t3\tedge\r\no\t1\r\nu\t4\r\n",
    "letter": "d\t2\t3\tedge\nx\t1\n",
    "blank-line": "d\t2\t3\tedge\n\no\t1\n",
    "blanks": "d 2 3 edge\n",
    "strange": "\x00\\\x7f\n",
    "few-fields": "d\t2\t3\n",
    "many-fields": "o\t1\t2\n",
    "half-a-split": "s\t0\n",
    "leading-zero": "d\t2\t3\tedge\no\t01\n",
    "33-bits": "o\t4294967296\n",
    "no-number": "s\t0\t5\t\n",
    "signed": "u\t-1\n",
    "long": "u\t%s\n" % ("123" * 40),
    "other-pass": "d\t2\t1\tedge\n",
    "no-reason": "d\t2\t3\tcrowded\n",
    "falling-faces": "s\t0\t5\t2\t1\n",
    "face-twice": "s\t0\t5\t1\t1\n",
    "kinds-exchanged": "o\t1\nd\t2\t3\tedge\nu\t4\n",
    "lines-exchanged": "d\t2\t1\tthin\nd\t1\t1\trepeated\n",
    "line-twice": "d\t2\t3\tedge\no\t1\no\t1\nu\t4\n",
    "no-face": "d\t3\t3\tedge\n",
    "no-face-splits": "s\t0\t5\t0\t3\n",
    "dropped": "d\t2\t1\tthin\nd\t2\t3\tedge\n",
    "dropped-turned": "d\t1\t2\tduplicate\no\t1\n",
    "dropped-splits": "d\t1\t1\tthin\ns\t0\t5\t1\n",
    "old": "s\t5\t5\n",
    "new": "s\t0\t6\t1\n",
    "new-again": "s\t0\t5\t1\ns\t1\t5\t1\n",
    "without": "s\t4\t5\t0\n",
    "without-then": "s\t0\t5\t0\t1\ns\t0\t6\t1\n",
    "no-point": "d\t2\t3\tedge\nu\t5\n",
    "no-point-split": "s\t0\t5\nu\t5\nu\t6\n",
    "used": "u\t4\n",
    "used-by-the-second": "d\t0\t1\tthin\nu\t0\n",
    "many-splits": "".join("s\t0\t%d\n" % n for n in range(5, 15)),
}


def make(name):
    """All shells and lists."""
    os.makedirs(name, exist_ok=True)
    for file, (places, faces) in SHELLS.items():
        open(os.path.join(name, file + ".ply"), "wb").write(ply.ply(places, faces))
    for file, text in LISTS.items():
        open(os.path.join(name, file + ".list"), "wb").write(text.encode("latin-1"))


def put(name, points, faces):
    """A shell of so many points, all at the origin."""
    with open(name, "wb") as out:
        out.write(ply.header(points, len(faces)) + bytes(24 * points) + b"".join(struct.pack("<B3I", 3, *face) for face in faces))


def large(name):
    """Faces that have point 0 in common: all but one are dropped, and every point that is not its corner. And faces with three equal corners, for each of which
    three points are split off: the first goes to the face, and the others, and the old point, leave."""
    os.makedirs(name, exist_ok=True)
    at = lambda file: os.path.join(name, file)
    count = 1 << 18
    put(at("drops.ply"), 2 * count + 1, [(0, 2 * i + 1, 2 * i + 2) for i in range(count)])
    with open(at("drops.list"), "w") as out:
        out.writelines("d\t%d\t1\tthin\n" % i for i in range(1, count))
        out.writelines("u\t%d\n" % v for v in range(3, 2 * count + 1))
    put(at("drops.wanted"), 3, [(0, 1, 2)])
    count = 1 << 16
    put(at("splits.ply"), 1, [(0, 0, 0)] * count)
    with open(at("splits.list"), "w") as out:
        out.writelines("s\t0\t%d%s\n" % (n + 1, "\t%d" % (n // 3) if n % 3 == 0 else "") for n in range(3 * count))
        out.write("u\t0\n")
        out.writelines("u\t%d\n" % (n + 1) for n in range(3 * count) if n % 3)
    put(at("splits.wanted"), count, [(n, n, n) for n in range(count)])
    scan(at("scan.ply"))


def scan(name, side=256):
    """A grid with faces that are turned over, stand there twice, repeat a corner, or have a third one on an edge; some squares are left out, so that bowties are
    there, and a strip of one side stands apart."""
    row, faces = side + 1, []
    for v in (i // side * row + i % side for i in range(side * side)):
        faces += [] if v % 7 == 3 else [(v, v + 1, v + row), (v + 1, v + row + 1, v + row)]
    for k in range(50, len(faces), 50):
        a, b, c = faces[k]
        faces[k] = [(a, c, b), faces[k - 1], (a, b, a), faces[k]][k // 50 % 4]
        faces += [] if k // 50 % 4 < 3 else [(a, b, (b * 7919) % (row * row))]
    faces += [tuple(row * row + (i + k) % 5 for k in range(3)) for i in range(5)]
    places = [(float(v % row), float(v // row), 0.25 * (v % 3)) for v in range(row * row)]
    open(name, "wb").write(ply.ply(places + STRIP, faces))


ROW = re.compile(r'\b(fine|bad) (\d+) (one|two|\[\]) (\[\]|\(bytes "([^"]*)"( \+\+ \(13 ∷ 10 ∷ \[\]\))?\))(?: (\d+))?')


def judged(name):
    """The rows `fine` and `bad` of the tables. Every one must be of the form that is read here."""
    text = open(name, encoding="utf-8").read()
    faces = {"one": [0, 1, 2], "two": [0, 1, 2, 0, 2, 1], "[]": []}
    rows = [line for line in text.splitlines() if line.lstrip().startswith(("∷ ", "fine ", "bad "))]
    found = [ROW.match(row, at.start()) for row in rows for at in re.finditer(r"\b(fine|bad) \d", row)]
    assert all(found) and len(found) > 60, "a row of another form, or few rows"
    for verdict, points, which, _, listed, returns, place in (row.groups() for row in found):
        data = (listed or "").encode().decode("unicode_escape").encode() + (b"\r\n" if returns else b"")
        corners = faces[which]
        number = (0, 0) if verdict == "fine" else (15, int(place))
        print(points, len(corners) // 3, *corners, "x" + data.hex(), *number)


def strike(name):
    """A list with some lines struck. Points that faces have then are not isolated, so that not every list applies."""
    lines = open(name).readlines()
    kept = [line for n, line in enumerate(lines) if line[0] == "s" or n % 3]
    open(name + ".struck", "w").writelines(kept)


if __name__ == "__main__":
    if sys.argv[1] in ("make", "large"):
        {"make": make, "large": large}[sys.argv[1]](sys.argv[2])
    elif sys.argv[1] == "judged":
        judged(sys.argv[2])
    elif sys.argv[1] == "strike":
        for each in sys.argv[2:]:
            strike(each)
    else:
        sys.exit(__doc__)
