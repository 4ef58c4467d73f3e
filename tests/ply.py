"""PLY files for tests/ply.test.sh, by a reader and a writer of its own.

ply.py make FOLDER          writes files FOLDER/*.ply and meshes FOLDER/*.mesh: at the limits, hard, random, and refused ones of every kind
ply.py expect FILE..        prints of each file what `host/ply read` must print
ply.py written MESH..       prints of each mesh what `host/ply write` must print, and compares the file that it wrote, byte by byte
ply.py shell FOLDER         writes small shells for shellfix, and files that it must explain
ply.py meshio FILE..        reads each file by meshio and, if it has faces, writes it again by meshio: the same bits (it wants python3-meshio)
ply.py body FILE OTHER      whether another program's file OTHER has the lines of FILE's header besides comments, and the same bytes behind it
ply.py rounded FILE OTHER   whether another program's file OTHER has the points of FILE, rounded to single precision, and the same faces
"""
import os
import random
import re
import struct
import sys

MOST_POINTS, MOST_FACES = 1 << 22, 1 << 20
LIMIT = 2.0**100
LINES = [
    "ply",
    "format binary_little_endian 1.0",
    "element vertex %s",
    "property double x",
    "property double y",
    "property double z",
    "element face %s",
    "property list uchar int vertex_indices",
    "end_header",
]
FORM = re.compile("".join(line.replace(".", r"\.") + "\n" for line in LINES).replace("%s", "(0|[1-9][0-9]*)").encode())


def header(points, faces):
    """The header of so many points and faces, which may be any texts."""
    return "".join(line + "\n" for line in LINES).replace("%s", "{}").format(points, faces).encode()


def ply(points, faces, counts=None):
    """The file of a mesh: triples of floats and triples of numbers; another count of corners where `counts` says so."""
    vertices = b"".join(struct.pack("<3d", *p) for p in points)
    triples = b"".join(struct.pack("<B3I", 3 if counts is None else counts[i], *f) for i, f in enumerate(faces))
    return header(len(points), len(faces)) + vertices + triples


def bits(number):
    """The bits of a float, in hex."""
    return "%016x" % struct.unpack("<Q", struct.pack("<d", number))[0]


def outside(x):
    """Whether a coordinate is outside its domain."""
    return not abs(x) <= LIMIT


def counted(data):
    """The points and faces that a file tells, and where its body begins; or a refusal, number and place."""
    found = FORM.match(data)
    if not found:
        return 13, 0
    points, faces = int(found[1]), int(found[2])
    if len(data) != found.end() + 24 * points + 13 * faces:
        return 13, 0
    if points > MOST_POINTS:
        return 2, 0
    if faces > MOST_FACES:
        return 2, 1
    return points, faces, found.end()


def read(data):
    """The points and faces of a file, or a refusal, number and place."""
    head = counted(data)
    if len(head) == 2:
        return head, None, None
    points, faces, at = head
    places = list(struct.iter_unpack("<3d", data[at : at + 24 * points]))
    rows = list(struct.iter_unpack("<B3I", data[at + 24 * points :]))
    for i, row in enumerate(rows):
        if row[0] != 3:
            return (14, i), None, None
    for i, place in enumerate(places):
        if any(map(outside, place)):
            return (4, i), None, None
    for i, row in enumerate(rows):
        if max(row[1:]) >= points:
            return (5, i), None, None
    return None, places, [row[1:] for row in rows]


def expect(name):
    """What the calls must say of a file."""
    data = open(name, "rb").read()
    head = counted(data)
    print("file %s %s %d %d" % (name, "not counted" if len(head) == 2 else "counts", *head[:2]))
    refused, points, faces = read(data)
    if refused:
        print("file %s refused %d %d" % (name, *refused))
        return
    print("file %s points %d faces %d" % (name, len(points), len(faces)))
    for p in points:
        print(" ".join(map(bits, p)))
    for f in faces:
        print("%d %d %d" % f)


def mesh(points, faces):
    """A mesh in the form of `host/ply write`, from flat lists."""
    return struct.pack("<2Q%dd%dI" % (len(points), len(faces)), len(points), len(faces), *points, *faces)


def written(name):
    """What the call must say of a mesh, and whether it wrote the right file."""
    data = open(name, "rb").read()
    n, m = struct.unpack_from("<2Q", data)
    points, faces = struct.unpack_from("<%dd" % n, data, 16), struct.unpack_from("<%dI" % m, data, 16 + 8 * n)
    refused = None
    if n % 3 or m % 3:
        refused = 1, 0 if n % 3 else 1
    elif n // 3 > MOST_POINTS or m // 3 > MOST_FACES:
        refused = 2, 0 if n // 3 > MOST_POINTS else 1
    elif any(map(outside, points)):
        refused = 4, next(i for i, x in enumerate(points) if outside(x)) // 3
    elif any(v >= n // 3 for v in faces):
        refused = 5, next(i for i, v in enumerate(faces) if v >= n // 3) // 3
    if refused:
        print("mesh %s refused %d %d" % (name, *refused))
        return
    wanted = ply(list(zip(*[iter(points)] * 3)), list(zip(*[iter(faces)] * 3)))
    print("mesh %s bytes %d" % (name, len(wanted)))
    if open(name + ".ply", "rb").read() != wanted:
        sys.exit("ply: of %s another file is written" % name)


def float_of(pattern):
    """The float with these bits."""
    return struct.unpack("<d", struct.pack("<Q", pattern))[0]


# Both zeros, subnormals, the largest coordinate and the one before it, bytes 10 and 13 everywhere, and plain numbers.
HARD = [0.0, -0.0, float_of(1), -float_of(1), float_of((1 << 52) - 1), float_of(1 << 52), LIMIT, -LIMIT, float_of(struct.unpack("<Q", struct.pack("<d", LIMIT))[0] - 1)]
HARD += [float_of(0x0A0A0A0A0A0A0A0A), float_of(0x0D0D0D0D0D0D0D0D), float_of(0x0D0A0D0A0D0A0D0A), float_of(0x3FF00000000A0D0A), 1.0, -1.0, 0.1, 1 / 3, 1e-300, 123456789.0]
# The next float beyond the largest coordinate, infinities, and NaN, with a payload too.
BAD = [float_of(struct.unpack("<Q", struct.pack("<d", LIMIT))[0] + 1), float("inf"), float_of(0x7FF8000000000000), float_of(0x7FF00000DEADBEEF), float_of(0xFFF800000A0D0A0D)]
BAD += [-BAD[0], -BAD[1]]


class Folder:
    """Files and meshes by their names."""

    def __init__(self, name):
        self.name = name
        os.makedirs(name, exist_ok=True)

    def put(self, name, data):
        """A file of these bytes."""
        with open(os.path.join(self.name, name), "wb") as file:
            file.write(data)

    def both(self, name, points, faces):
        """A mesh, and its file by the writer here."""
        self.put(name + ".ply", ply(points, faces))
        self.put(name + ".mesh", mesh([x for p in points for x in p], [v for f in faces for v in f]))


def accepted(folder):
    """Meshes that are accepted: empty, without faces, hard coordinates and corners, counts of one to five digits."""
    folder.both("empty", [], [])
    folder.both("one-point", [(-0.0, 0.0, -0.0)], [])
    folder.both("repeated", [(0.0, -0.0, 1.0)], [(0, 0, 0)])
    folder.both("hard", [(x, y, -x) for x in HARD for y in HARD], [(i, 10, 13) for i in range(len(HARD) ** 2)])
    # The body begins with byte 10, and corners have the bytes 10 and 13.
    folder.both("newlines", [(HARD[9], HARD[10], HARD[11])] * 3400, [(10, 13, 0x0A0D), (0x0D0A, 0x0A0A, 10), (13, 13, 13)])
    folder.both("exchanged-13-0", [(1.0, 2.0, 3.0)] * 13, [])
    for n in (9, 10, 99, 100, 999, 1000, 10000):
        folder.both("points-%d" % n, [(float(i), 0.5, -0.0) for i in range(n)], [(0, 1, 2)])
        folder.both("faces-%d" % n, [(0.0, 1.0, 2.0)] * 3, [(i % 3, 1, 2) for i in range(n)])


def randomly(folder):
    """Random meshes with any bits in the coordinates."""
    draw = random.Random(5)

    def coordinate():
        x = float_of(draw.getrandbits(64)) if draw.random() < 0.5 else draw.choice(HARD)
        return 0.0 if outside(x) else x

    for i in range(60):
        points = [tuple(coordinate() for _ in range(3)) for _ in range(draw.choice([0, 1, 2, 5, 20, 100, 300]))]
        faces = [tuple(draw.randrange(len(points)) for _ in range(3)) for _ in range(draw.choice([0, 1, 3, 50, 400]))] if points else []
        folder.both("random-%d" % i, points, faces)


POINTS = [(0.0, -0.0, 1.0), (1.0, 0.0, 0.5), (0.0, 1.0, -2.0), (3.0, 1.0, 4.0)]
FACES = [(0, 1, 2), (2, 1, 3)]


def headers(folder):
    """Files whose header is not of the form: 13."""
    good = ply(POINTS, FACES)
    body = good[len(header(4, 2)) :]

    def put(name, old, new):
        assert good.count(old) == 1, name
        folder.put("head-%s.ply" % name, good.replace(old, new))

    folder.put("head-carriage-returns.ply", header(4, 2).replace(b"\n", b"\r\n") + body)
    folder.put("head-one-carriage-return.ply", header(4, 2).replace(b"end_header\n", b"end_header\r\n") + body)
    put("comment", b"element vertex", b"comment made by hand\nelement vertex")
    put("comment-last", b"end_header", b"comment made by hand\nend_header")
    put("obj-info", b"element vertex", b"obj_info 1\nelement vertex")
    put("float64", b"double x", b"float64 x")
    put("float", b"double y", b"float y")
    put("uint8", b"uchar int", b"uint8 int32")
    put("uint", b"uchar int", b"uchar uint")
    put("vertex-index", b"vertex_indices", b"vertex_index")
    put("order", b"double x\nproperty double y", b"double y\nproperty double x")
    put("further-property", b"element face", b"property uchar red\nelement face")
    put("further-element", b"end_header", b"element edge 0\nend_header")
    put("faces-first", b"element vertex 4\nproperty double x\nproperty double y\nproperty double z\nelement face 2\nproperty list uchar int vertex_indices", b"element face 2\nproperty list uchar int vertex_indices\nelement vertex 4\nproperty double x\nproperty double y\nproperty double z")
    put("big-endian", b"little", b"big")
    put("ascii", b"binary_little_endian", b"ascii")
    put("version", b"1.0", b"1.1")
    put("upper-case", b"ply\n", b"PLY\n")
    put("blank-at-end", b"double z", b"double z ")
    put("blank-twice", b"double x", b"double  x")
    put("tab", b"vertex 4", b"vertex\t4")
    put("empty-line", b"element face", b"\nelement face")
    for name, text in (("plus", b"+4"), ("zero-four", b"04"), ("zeros", b"0000000000000000000000004"), ("none", b""), ("blank", b" 4"), ("behind", b"4 "), ("minus", b"-4"), ("point", b"4.0"), ("hex", b"0x4"), ("letter", b"4a"), ("comma", b"4,"), ("octet", b"4\0")):
        put("vertices-" + name, b"vertex 4", b"vertex " + text)
        put("faces-" + name, b"face 2", b"face " + text.replace(b"4", b"2"))
    folder.put("head-zero-zero.ply", header("00", "0"))
    folder.put("head-minus-zero.ply", header("0", "-0"))
    # Counts of 19, 20 and 40 digits. In 64 bits some of them wrap to 4 or 2, or the bytes that they ask for wrap to the file's own.
    for name, count in (("19", "9" * 19), ("20", "9" * 20), ("40", "9" * 40), ("wraps", str((1 << 64) + 4)), ("wraps-32", str((1 << 32) + 4)), ("wraps-24", str((1 << 61) + 4)), ("wraps-24-more", str((1 << 64) // 24 + 4))):
        folder.put("head-vertices-of-%s.ply" % name, header(count, 2) + body)
    for name, count in (("19", "1" + "0" * 18), ("20", "1" + "0" * 19), ("40", "1" + "0" * 39), ("wraps", str((1 << 64) + 2)), ("wraps-13", str((1 << 64) // 13 + 3))):
        folder.put("head-faces-of-%s.ply" % name, header(4, count) + body)
    folder.put("head-wraps-together.ply", header((1 << 61) - 9, 26) + body)
    folder.put("head-without-newline.ply", header(0, 0)[:-1])
    folder.put("head-of-50-bytes.ply", good[:50])
    folder.put("head-nothing.ply", b"")
    folder.put("head-one-byte.ply", b"p")
    for n in range(4, len(header(4, 2)), 7):
        folder.put("head-cut-%03d.ply" % n, good[:n])
    # Every byte of the header lost, doubled, exchanged with the next and turned into others.
    for i in range(len(header(4, 2))):
        folder.put("byte-%03d-lost.ply" % i, good[:i] + good[i + 1 :])
        folder.put("byte-%03d-twice.ply" % i, good[: i + 1] + good[i:])
        folder.put("byte-%03d-swapped.ply" % i, good[:i] + good[i + 1 : i + 2] + good[i : i + 1] + good[i + 2 :])
        for other in (0, 10, 13, 32, ord("0"), ord("9"), good[i] ^ 1, good[i] ^ 32, good[i] ^ 128):
            folder.put("byte-%03d-%03d.ply" % (i, other), good[:i] + bytes([other]) + good[i + 1 :])


def bodies(folder):
    """Files whose header has the form and whose body is wrong: 13 for its length, then 2, 14, 4 and 5, each with faults that come after it."""
    good = ply(POINTS, FACES)
    folder.put("body-one-less.ply", good[:-1])
    folder.put("body-one-more.ply", good + b"\n")
    folder.put("body-none.ply", header(4, 2))
    folder.put("body-of-one-more.ply", header(4, 3) + good[len(header(4, 2)) :])
    folder.put("body-of-one-less.ply", header(4, 1) + good[len(header(4, 2)) :])
    # 13 vertices and no face have as many bytes as no vertex and 24 faces: with the counts exchanged every face is looked at.
    folder.put("exchanged-0-24.ply", header(0, 24) + struct.pack("<39d", *[1.0, 2.0, 3.0] * 13))
    folder.put("exchanged-0-24-threes.ply", header(0, 24) + struct.pack("<B3I", 3, 0, 0, 0) * 24)
    folder.put("exchanged-13-24.ply", header(13, 24) + struct.pack("<39d", *[1.0, 2.0, 3.0] * 13))
    folder.put("corners-of-no-point.ply", ply([], [(0, 0, 0)]))
    # Faces of two and four corners have as many bytes as two of three.
    folder.put("two-and-four.ply", header(4, 2) + good[len(header(4, 2)) : -26] + struct.pack("<B2IB4I", 2, 0, 1, 4, 0, 1, 2, 3))
    for i in range(4):
        for count in (0, 1, 2, 4, 131, 255):
            counts = [3] * 4
            counts[i] = count
            folder.put("count-%d-%d.ply" % (i, count), ply(POINTS, FACES + FACES, counts))
    folder.put("counts-4-2.ply", ply(POINTS, FACES, [4, 2]))
    folder.put("nan-and-four.ply", ply([(float("nan"), 0.0, 0.0)] + POINTS[1:], FACES, [3, 4]))
    folder.put("nan-and-far.ply", ply(POINTS[:3] + [(0.0, 0.0, float("nan"))], [(0, 1, 4), (0, 1, 2)]))
    folder.put("four-and-far.ply", ply(POINTS, [(9, 9, 9), (0, 1, 2)], [3, 2]))
    for i in range(12):
        for k, bad in enumerate(BAD):
            points = [list(p) for p in POINTS]
            points[i // 3][i % 3] = bad
            points[3][2] = bad
            folder.put("bad-%02d-%d.ply" % (i, k), ply(points, FACES))
            folder.put("bad-%02d-%d.mesh" % (i, k), mesh([x for p in points for x in p], [0, 1, 2, 9, 9, 9]))
    for i in range(6):
        for corner in (4, 5, 0x7FFFFFFF, 0x80000000, 0xFFFFFFFF, 0xFFFFFFFC):
            faces = [list(f) for f in FACES]
            faces[i // 3][i % 3] = corner
            folder.put("far-%d-%x.ply" % (i, corner), ply(POINTS, faces))
            folder.put("far-%d-%x.mesh" % (i, corner), mesh([x for p in POINTS for x in p], [v for f in faces for v in f]))
    for n, m in ((10, 6), (11, 6), (12, 5), (12, 7), (11, 7), (1, 0), (0, 1), (0, 2)):
        folder.put("lengths-%d-%d.mesh" % (n, m), mesh([float("nan")] * n, [9] * m))
    folder.put("corner-of-no-point.mesh", mesh([], [0, 0, 0]))


def too_many(folder):
    """One point and one face too many, of the right length and one byte short. Files of zeros hold no block of the disk."""
    for name, points, faces in (("points", MOST_POINTS + 1, 0), ("faces", 0, MOST_FACES + 1), ("both", MOST_POINTS + 1, MOST_FACES + 1)):
        for length, short in (("", 0), ("-but-short", 1)):
            folder.put("too-many-%s%s.ply" % (name, length), header(points, faces))
            os.truncate(os.path.join(folder.name, "too-many-%s%s.ply" % (name, length)), len(header(points, faces)) + 24 * points + 13 * faces - short)
    folder.put("too-many-faces.mesh", struct.pack("<2Q", 0, 3 * (MOST_FACES + 1)))
    os.truncate(os.path.join(folder.name, "too-many-faces.mesh"), 16 + 12 * (MOST_FACES + 1))


def make(name):
    """All files and meshes."""
    folder = Folder(name)
    accepted(folder)
    randomly(folder)
    headers(folder)
    bodies(folder)
    too_many(folder)


def shell(name):
    """Shells with defects, for shellfix, with coordinates that single precision cannot hold; and files that it must explain."""
    folder = Folder(name)
    tied = [(0.1, 0.0, 0.0), (1.0, 0.0, -0.0), (0.0, 1.0, 1 / 3), (-1.0, 0.0, 1e-300), (0.0, -1.0, 0.0), (5.0, 5.0, 5.0)]
    folder.put("bowtie.ply", ply(tied, [(0, 1, 2), (0, 3, 4), (0, 1, 1)]))
    folder.put("bowtie-mended.ply", ply(tied[:5] + tied[:1], [(0, 1, 2), (5, 3, 4)]))
    folder.put("good.ply", ply(POINTS, FACES))
    folder.put("empty.ply", ply([], []))
    side = 60
    grid = [(i / 7, j / 7, (i * j % 5) / 3) for i in range(side) for j in range(side)]
    squares = [side * i + j for i in range(side - 1) for j in range(side - 1)]
    folder.put("grid.ply", ply(grid, [f for v in squares for f in ((v, v + 1, v + side), (v + 1, v + side + 1, v + side))]))
    good = ply(POINTS, FACES)
    folder.put("carriage-returns.ply", good.replace(b"\n", b"\r\n"))
    folder.put("carriage-return.ply", good.replace(b" 1.0\n", b" 1.0\r\n"))
    folder.put("comment.ply", good.replace(b"element vertex", b"comment \\ made by hand, \xc3\xa9\x01\x7f\nelement vertex"))
    folder.put("long-comment.ply", good.replace(b"element vertex", b"comment " + b"long " * 100 + b"\nelement vertex"))
    folder.put("float.ply", good.replace(b"double y", b"float y"))
    folder.put("index.ply", good.replace(b"indices", b"index"))
    folder.put("leading-zero.ply", good.replace(b"vertex 4", b"vertex 04"))
    folder.put("no-count.ply", good.replace(b"face 2", b"face "))
    folder.put("forty-digits.ply", good.replace(b"vertex 4", b"vertex " + b"4" * 40))
    folder.put("one-less.ply", good[:-1])
    folder.put("one-more.ply", good + b"\0")
    folder.put("only-ply.ply", b"ply\n")
    folder.put("half-a-header.ply", good[:50])
    folder.put("without-newline.ply", header(0, 0)[:-1])
    folder.put("more-faces.ply", header(4, 3) + good[len(header(4, 2)) :])
    folder.put("four-corners.ply", ply(POINTS, FACES, [3, 4]))
    folder.put("nan.ply", ply(POINTS[:3] + [(0.0, 0.0, float("nan"))], FACES))
    folder.put("negative.ply", ply(POINTS, [(0, 1, 2), (0, 1, 0xFFFFFFFF)]))
    folder.put("too-many.ply", header(0, MOST_FACES + 1))
    os.truncate(os.path.join(name, "too-many.ply"), len(header(0, MOST_FACES + 1)) + 13 * (MOST_FACES + 1))


def parts(name):
    """The lines of any PLY file's header but comments, and what stands behind them."""
    data = open(name, "rb").read()
    end = data.index(b"end_header\n") + len(b"end_header\n")
    return [line for line in data[:end].split(b"\n") if not line.startswith(b"comment")], data[end:]


def body(name, other):
    """Another program's file against ours: the same lines but for comments and other names of the types, and the same body."""
    lines, behind = parts(name)
    its_lines, its_behind = parts(other)
    same_types = {b"property list uint8 int32 vertex_indices": b"property list uchar int vertex_indices"}
    if [same_types.get(line, line) for line in its_lines] != lines:
        sys.exit("ply: %s has another header than %s: %s" % (other, name, its_lines))
    if its_behind != behind:
        sys.exit("ply: %s has another body than %s" % (other, name))


def by_meshio(name):
    """meshio reads our bits, and writes them again."""
    import meshio

    refused, points, faces = read(open(name, "rb").read())
    assert not refused, name
    found = meshio.read(name)
    triples = [tuple(f) for cells in found.cells for f in cells.data.tolist()]
    if [bits(x) for p in found.points.tolist() for x in p] != [bits(x) for p in points for x in p] or triples != faces:
        sys.exit("ply: meshio reads other points or faces in %s" % name)
    if faces:
        meshio.write(name + ".meshio", found, "ply", binary=True)
        body(name, name + ".meshio")


def rounded(name, other):
    """Another program's file against ours: the same points in single precision, and the same faces."""
    refused, points, faces = read(open(name, "rb").read())
    assert not refused, name
    lines, behind = parts(other)
    if b"element vertex %d" % len(points) not in lines or b"element face %d" % len(faces) not in lines:
        sys.exit("ply: %s has other counts than %s: %s" % (other, name, lines))
    single = b"".join(struct.pack("<3f", *p) for p in points)
    triples = b"".join(struct.pack("<B3I", 3, *f) for f in faces)
    if behind != single + triples:
        sys.exit("ply: %s has other points or faces than %s" % (other, name))


if __name__ == "__main__":
    word, rest = sys.argv[1], sys.argv[2:]
    if word == "make":
        make(rest[0])
    elif word == "shell":
        shell(rest[0])
    elif word == "body":
        body(*rest)
    elif word == "rounded":
        rounded(*rest)
    else:
        for each in rest:
            {"expect": expect, "written": written, "meshio": by_meshio}[word](each)
