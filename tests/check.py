"""Shells for tests/check.test.sh, which shellfix checks as they are, and what it must say of them by a rule of its own.

check.py make FOLDER        writes shells FOLDER/*.ply and FOLDER/*.stl: sound ones, ones with each kind of fault, with several, and random ones
check.py large FOLDER       writes FOLDER/*.ply: so many faces as there may be, all at one point
check.py told FILE..        prints of each PLY file what `shellfix --check` must print, and its exit status
"""
import collections
import os
import random
import struct
import sys

import ply
import stl

BODY = [(0, 2, 1), (0, 1, 3), (1, 2, 3), (2, 0, 3)]
OTHER = [tuple(v + 3 if v else 0 for v in face) for face in BODY]
SHELLS = {
    "hourglass": (7, BODY + OTHER),
    "bowtie": (5, [(0, 1, 2), (0, 3, 4)]),
    "three-bowties": (9, [(8, 1, 2), (3, 8, 4), (5, 6, 8), (7, 5, 0)]),
    "one-patch": (5, [(0, 1, 2), (3, 4, 2), (3, 0, 4), (1, 0, 3)]),
    "repeated": (4, [(0, 1, 2), (1, 1, 3), (2, 0, 2)]),
    "one-corner": (3, [(0, 1, 2), (1, 1, 1)]),
    "same-way": (4, [(0, 1, 2), (0, 1, 3)]),
    "face-twice": (3, [(0, 1, 2), (1, 2, 0)]),
    "three-on-an-edge": (5, [(1, 0, 2), (0, 1, 3), (1, 0, 4)]),
    "moebius": (5, [(0, 1, 2), (1, 2, 3), (2, 3, 4), (3, 4, 0), (4, 0, 1)]),
    "all-kinds": (8, [(0, 1, 2), (0, 3, 4), (5, 6, 6), (1, 2, 7), (7, 7, 7), (2, 0, 6), (1, 2, 4)]),
    "body": (4, BODY),
    "two-bodies": (8, BODY + [tuple(v + 4 for v in face) for face in BODY]),
    "both-sides": (3, [(0, 1, 2), (0, 2, 1)]),
    "unused-points": (9, [(4, 6, 2), (1, 7, 5)]),
    "no-faces": (3, []),
    "empty": (0, []),
}


def places(count):
    """So many points, no two at one place, with fractions that single precision and nine digits cannot hold."""
    return [(i / 7, -0.0 if i % 2 else 1e-20 * i, (i * i % 11) * 1e6 / 3) for i in range(count)]


def as_stl(points, faces):
    """The STL file of a mesh."""
    return stl.stl([stl.facet([stl.word(x) for v in face for x in points[v]]) for face in faces])


def randomly():
    """Small meshes with faults of every kind, and sound ones."""
    chance = random.Random(6)
    for n in range(150):
        points = chance.randint(3, 9)
        face = lambda: tuple(chance.sample(range(points), 3) if chance.random() < 0.8 else chance.choices(range(points), k=3))
        yield "random-%d" % n, (points, [face() for _ in range(chance.choice([1, 2, 2, 3, 3, 4, 6, 9]))])


def make(name):
    """All shells, and files that are refused."""
    os.makedirs(name, exist_ok=True)
    put = lambda file, data: open(os.path.join(name, file), "wb").write(data)
    for file, (count, faces) in list(SHELLS.items()) + list(randomly()):
        put(file + ".ply", ply.ply(places(count), faces))
    put("hourglass.stl", as_stl(places(7), BODY + OTHER))
    put("body.stl", as_stl(places(4), BODY))
    body = ply.ply(places(4), BODY)
    put("bent-header.ply", body.replace(b"double y", b"float y"))
    put("not-a-number.ply", ply.ply(places(3) + [(0.0, float("nan"), 0.0)], BODY))
    put("no-such-corner.ply", ply.ply(places(3), BODY))


def large(name):
    """Faces that have point 0 in common and nothing else; and a fan around it, of which the last face is there twice."""
    os.makedirs(name, exist_ok=True)
    most = ply.MOST_FACES
    spread = [(0, 2 * i + 1, 2 * i + 2) for i in range(most)]
    fan = [(0, i + 1, i + 2) for i in range(most - 1)]
    for file, points, faces in (("apart", 2 * most + 1, spread), ("fan", most + 1, fan), ("fan-and-one", most + 1, fan + fan[-1:])):
        with open(os.path.join(name, file + ".ply"), "wb") as out:
            out.write(ply.header(points, len(faces)))
            out.truncate(out.tell() + 24 * points)
            out.seek(0, os.SEEK_END)
            out.write(b"".join(struct.pack("<B3I", 3, *face) for face in faces))


def groups(faces, v):
    """How many groups the corners equal to v form, where two are joined if their faces share another corner."""
    found = []
    for others in [set(face) - {v} for face in faces for corner in face if corner == v]:
        apart = [group for group in found if not group & others]
        found = apart + [others.union(*(group for group in found if group & others))]
    return len(found)


def told(name):
    """What is said of a shell as it is."""
    refused, points, faces = ply.read(open(name, "rb").read())
    assert not refused, name
    at = lambda v: "point %d at %.9g %.9g %.9g" % (v, *points[v])
    repeating = [i for i, face in enumerate(faces) if len(set(face)) < 3]
    users = collections.defaultdict(list)
    for i, (a, b, c) in enumerate(faces):
        for step in ((a, b), (b, c), (c, a)):
            users[step].append(i)
    walked = sorted(step for step in users if len(users[step]) > 1)
    tied = [v for v in range(len(points)) if groups(faces, v) > 1]
    wrong = repeating or walked or tied
    print("read: %d points, %d faces\nsound: %s" % (len(points), len(faces), "no" if wrong else "yes"))
    if repeating:
        corners = "%d %d %d" % faces[repeating[0]]
        print("%d faces that repeat a corner; the first is face %d, with corners %s" % (len(repeating), repeating[0], corners))
    if walked:
        one, other = users[walked[0]][:2]
        by = "face %d walks it more than once" % one if one == other else "faces %d and %d walk it" % (one, other)
        ends = "from %s to %s" % tuple(map(at, walked[0]))
        print("%d directed edges that are walked more than once; the first leads %s, and %s" % (len(walked), ends, by))
    if tied:
        print("%d points where several surfaces touch; the first is %s, whose faces form %d groups" % (len(tied), at(tied[0]), groups(faces, tied[0])))
    print("exit status %d" % (3 if wrong else 0))


if __name__ == "__main__":
    if sys.argv[1] in ("make", "large"):
        {"make": make, "large": large}[sys.argv[1]](sys.argv[2])
    else:
        for each in sys.argv[2:]:
            print(os.path.basename(each))
            told(each)
