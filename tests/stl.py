"""Binary STL files for tests/stl.test.sh, by a reader and a writer of its own.

stl.py make FOLDER          writes files at the limits, and random ones with many corners in common
stl.py expect FILE..        prints of each file what host/corners must print
stl.py ascii FILE           an ASCII STL file of a shell with holes, for other programs to turn into a binary one
stl.py same FILE FILE       whether a binary file has the facets of an ASCII one, corner by corner
"""
import math
import os
import random
import struct
import sys

MOST_FACES = 1 << 20
LIMIT = 2.0**100


def corners(data):
    """The nine numbers of each facet, as the f32 of the file."""
    count = struct.unpack_from("<I", data, 80)[0]
    return [struct.unpack_from("<9f", data, 84 + 50 * i + 12) for i in range(count)]


def bits(number):
    return "%016x" % struct.unpack("<Q", struct.pack("<d", number))[0]


def verdict(data):
    """The refusal of a file, number and place, or None."""
    if len(data) < 84:
        return 12, 0
    count = struct.unpack_from("<I", data, 80)[0]
    if len(data) != 84 + 50 * count:
        return 12, 0
    if count > MOST_FACES:
        return 2, 1
    for i, facet in enumerate(corners(data)):
        for k in range(3):
            if not all(abs(x) <= LIMIT for x in facet[3 * k : 3 * k + 3]):
                return 4, 3 * i + k
    return None


def expect(name):
    data = open(name, "rb").read()
    refused = verdict(data)
    if refused:
        print("file %s refused %d %d" % (name, *refused))
        return
    numbers, points, lines = {}, [], []
    for facet in corners(data):
        for k in range(3):
            corner = facet[3 * k : 3 * k + 3]
            # A tuple with -0.0 equals one with 0.0, and its hash too.
            if corner not in numbers:
                numbers[corner] = len(points)
                points.append(" ".join(bits(x) for x in corner))
            lines.append("%d %s" % (numbers[corner], points[numbers[corner]]))
    print("file %s points %d faces %d" % (name, len(points), len(lines) // 3))
    for line in lines:
        print(line)


def pattern(word):
    return struct.pack("<I", word)


def facet(words, normal=(0, 0, 0), attribute=0):
    return b"".join(map(pattern, normal)) + b"".join(map(pattern, words)) + struct.pack("<H", attribute)


def stl(facets, count=None, header=b""):
    return header.ljust(80, b"\0")[:80] + pattern(len(facets) if count is None else count) + b"".join(facets)


def word(number):
    return struct.unpack("<I", struct.pack("<f", number))[0]


def put(folder, name, data):
    with open(os.path.join(folder, name + ".stl"), "wb") as file:
        file.write(data)


def limits(folder):
    """Files at the limits: lengths, zeros of both signs, subnormals, 2^100 and the next f32, infinities, NaN payloads."""
    zero, minus, one, tiny, subnormal = 0, 0x80000000, word(1.0), 1, 0x007FFFFF
    top, above, infinite, payload = word(LIMIT), word(LIMIT) + 1, 0x7F800000, 0x7FA00001
    plain = facet([zero, zero, zero, one, zero, zero, zero, one, zero])
    put(folder, "empty", b"")
    put(folder, "header", stl([])[:83])
    put(folder, "none", stl([]))
    put(folder, "one-byte-more", stl([plain]) + b"\0")
    put(folder, "one-byte-less", stl([plain])[:-1])
    put(folder, "count-wraps", stl([plain], count=(1 << 32) - 1))
    put(folder, "count-wraps-to-length", stl([plain], count=(1 << 31) + 1))
    put(folder, "count-zero-with-facets", stl([plain], count=0))
    put(folder, "ascii", b"solid shell\n" + b"facet normal 0 0 0\n" * 20 + b"endsolid shell\n")
    put(folder, "solid-in-header", stl([plain], header=b"solid binary all the same"))
    put(folder, "zeros", stl([facet([minus, zero, minus, one, zero, zero, zero, one, minus]), facet([zero, minus, zero, minus, one, zero, one, minus, minus])]))
    put(folder, "subnormals", stl([facet([tiny, subnormal, minus | tiny, 0x00400000, 0x00800000, 3, minus | subnormal, 2, one])]))
    put(folder, "coincident", stl([facet([one] * 9)] * 5))
    put(folder, "skipped", stl([facet([one, zero, zero, zero, one, zero, zero, zero, one], normal=(payload, infinite, minus), attribute=0xFFFF)] * 2))
    put(folder, "top", stl([facet([top, zero, zero, minus | top, one, zero, zero, zero, top])]))
    put(folder, "one-facet-too-many", stl([], count=MOST_FACES + 1))
    os.truncate(os.path.join(folder, "one-facet-too-many.stl"), 84 + 50 * (MOST_FACES + 1))
    for k in range(9):
        for name, bad in (("above", above), ("infinite", minus | infinite), ("payload", payload)):
            words = [zero, one, zero] * 3
            words[k] = bad
            put(folder, "%s-%d" % (name, k), stl([plain, facet(words), facet([payload] * 9)]))


def kinds(folder):
    """A shell with faces of every kind: good ones, three that repeat a corner as numbers, one with its corners in a row, one whose sine is about a thousandth."""
    faces = [
        [(0, 0, 0), (1, 0, 0), (0, 1, 0)],
        [(1, 0, 0), (1, 1, 0), (0, 1, 0)],
        [(0, 0, 0), (-0.0, 0, 0), (1, 0, 0)],
        [(0, 1, 0), (1, 1, 0), (0, 1, 0)],
        [(5, 5, 5)] * 3,
        [(0, 0, 0), (0, 0, 1), (0, 0, 2)],
        [(1, 1, 0), (2, 1, 0), (2, 1.0009765625, 0)],
    ]
    put(folder, "kinds", stl([facet([word(x) for corner in face for x in corner]) for face in faces]))


def made(random_, folder, name, facets, kinds):
    """A file whose coordinates are drawn from few values, zeros of both signs among them."""
    values = [0, 0x80000000] + [random_.choice([random_.getrandbits(23), word(random_.uniform(-9, 9)), random_.getrandbits(32) & 0xBFFFFFFF]) for _ in range(kinds)]
    values = [v for v in values if abs(struct.unpack("<f", pattern(v))[0]) <= LIMIT]
    draw = lambda: random_.choice(values)
    put(folder, name, stl([facet([draw() for _ in range(9)], [random_.getrandbits(32) for _ in range(3)], random_.getrandbits(16)) for _ in range(facets)]))


def make(folder):
    os.makedirs(folder, exist_ok=True)
    limits(folder)
    kinds(folder)
    random_ = random.Random(5)
    for i in range(60):
        made(random_, folder, "random-%d" % i, random_.randrange(0, 40), random_.randrange(0, 6))
    for i in range(4):
        made(random_, folder, "longer-%d" % i, 3000, 1 + 12 * i)


def ascii_file(name):
    """A wavy square with two holes, every third facet turned over."""
    side, facets = 9, []
    height = lambda i, j: math.sin(i) / 3 + j / 7
    at = lambda i, j: (i * 0.1, j * 0.1, height(i, j))
    for i in range(side):
        for j in range(side):
            if (i, j) in ((2, 3), (6, 6)):
                continue
            a, b, c, d = at(i, j), at(i + 1, j), at(i + 1, j + 1), at(i, j + 1)
            facets += [(a, b, c), (a, c, d)]
    facets = [(a, c, b) if k % 3 == 0 else (a, b, c) for k, (a, b, c) in enumerate(facets)]
    with open(name, "w") as file:
        file.write("solid shell\n")
        for t in facets:
            file.write("facet normal 0 0 1\n outer loop\n")
            for corner in t:
                file.write("  vertex %.9g %.9g %.9g\n" % corner)
            file.write(" endloop\nendfacet\n")
        file.write("endsolid shell\n")


def same(text, name):
    """Corner by corner: the ASCII file's numbers, rounded to f32, are the binary file's."""
    told = [[float(x) for x in line.split()[1:4]] for line in open(text) if line.split()[:1] == ["vertex"]]
    found = [f[3 * k : 3 * k + 3] for f in corners(open(name, "rb").read()) for k in range(3)]
    rounded = [tuple(struct.unpack("<f", struct.pack("<f", x))[0] for x in c) for c in told]
    if rounded != found:
        sys.exit("stl: %s has other corners than %s" % (name, text))


if __name__ == "__main__":
    if sys.argv[1] == "make":
        make(sys.argv[2])
    elif sys.argv[1] == "expect":
        for each in sys.argv[2:]:
            expect(each)
    elif sys.argv[1] == "ascii":
        ascii_file(sys.argv[2])
    elif sys.argv[1] == "same":
        same(sys.argv[2], sys.argv[3])
