#!/usr/bin/env python3
"""Runs the rules on recorded answers of the Rust: writes a crate `recorded` of computed claims, one for each case.

    recorded.py CASES FOLDER EVERY PASSES

CASES has the recorded cases (texts NAME.txt with NAME.out, there or in text/, and lib.cases.bin with lib.answers.bin), FOLDER is where the crate is written,
every EVERY-th case that is small enough for antt is taken, and PASSES is fuzz/passes.c as a library.

The recorded reports are document 01's and have one count of degenerate faces, where the rules have two. Of these the first must be the number of input faces
that repeat a corner, as it is counted here, and their sum the recorded count; the report room is lent one entry longer. A line gets the count in two parts.

No origins were recorded. A room for them is lent with one entry more than is stated, and they must be the one list that rises strictly and names for each
recorded face an input face in the same place; where several lists do, the one of the passes in plain C. A recorded refusal of the work room, 6 at place 3, is
one at place 4.

A recorded answer of call 2 has edges and loops together, in six rooms, and is asked of both calls in one claim: rooms 0, 1, 2, 5 of the edge call, 3, 4, 5 of
the loop call. 6 is that of the call that has the room, 8 that of the loop call; what the other call must then give, the record does not say, and it is found
here by document 01's rule.

A recorded answer of call 3 may be document 01's, whose check does not ask for groups: a recorded yes is a yes only where the faces at each used point form one
group, as it is found here."""
import collections
import ctypes
import glob
import math
import os
import struct
import sys

DIRTY32 = 0x5A5A5A5A
DIRTY64 = 0x5A5A5A5A5A5A5A5A
DIRTY8 = 0x5A
MOST_TEXT = 900  # bytes of a program's text
MOST_WORDS = 120  # words of a library case
MOST_ENTRIES = 3000  # entries of an array or of all rooms
A_FILE = 20  # claims in a file

HEAD = """-- Recorded answers of the Rust.
use Rattle.std.specs.Prelude.{◌≡◌, refl, List, [], ◌∷◌, ◌++◌, map, ℕ, replicate, Float}
use Rattle.std.specs.Float.{binary64}
use Rattle.std.specs.Float.Ieee.{of_bits, to_bits}
use Rattle.rules.specs.Rooms.{Answer, accepted, refused, Outcome}
use Rattle.rules.specs.Patches.{Limit, absent, limit, Filter}
use Rattle.rules.specs.Line.{bytes}
use Rattle.rules.specs.Calls.{RepairRooms, repair, EdgesRooms, find_edges, LoopsRooms, find_loops, check, PatchesRooms, find_patches, write_line}
use Rattle.rules.specs.Text.{meshfix}
use Rattle.rules.specs.Open.{every_rule}

-- floats from their bits, and their bits again
floats : List ℕ → List Float
floats xs = map (of_bits binary64) xs

bits : List Float → List ℕ
bits xs = map (to_bits binary64) xs

-- what an answer holds
told : Answer → List ℕ
told (accepted entries) = 0 ∷ 0 ∷ entries
told (refused number place) = number ∷ place ∷ []

repairing : List Float → List ℕ → Float → ℕ → RepairRooms → List (List ℕ)
repairing points faces s options r =
    let o = repair points faces s options r in
    told o.answer ∷ bits (o.rooms.out_points) ∷ o.rooms.out_faces ∷ o.rooms.report ∷ o.rooms.origins ∷ o.rooms.work ∷ []

listing : List Float → List ℕ → EdgesRooms → LoopsRooms → List (List ℕ)
listing points faces r s =
    let o = find_edges points faces r in
    let l = find_loops points faces s in
    told o.answer ∷ o.rooms.edges ∷ bits (o.rooms.lengths) ∷ o.rooms.face_edges ∷ o.rooms.work
    ∷ told l.answer ∷ l.rooms.loop_vertices ∷ l.rooms.loop_ends ∷ l.rooms.work ∷ []

checking : ℕ → List ℕ → List ℕ → List (List ℕ)
checking P faces work = let o = check P faces work in told o.answer ∷ o.rooms ∷ []

patching : List Float → List ℕ → List ℕ → ℕ → Filter → PatchesRooms → List (List ℕ)
patching points faces labels C by r =
    let o = find_patches points faces labels C by r in
    told o.answer ∷ o.rooms.face_counts ∷ bits (o.rooms.numbers) ∷ o.rooms.flags ∷ o.rooms.work ∷ []

lining : List ℕ → List ℕ → List (List ℕ)
lining counts r = let o = write_line counts r in told o.answer ∷ o.rooms ∷ []

"""
CLAIM = """claim{n} : {found} ≡ {stated}
unfolding floats bits told repairing listing checking patching lining every_rule
claim{n} = refl

"""


def quoted(text):
    """The bytes of a text as an antt string."""
    special = {9: "\\t", 10: "\\n", 34: '\\"', 92: "\\\\"}
    return '"' + "".join(special.get(b) or (chr(b) if 32 <= b < 127 else "\\x%02x" % b) for b in text) + '"'


def listed(xs):
    return "(" + "".join("%d ∷ " % x for x in xs) + "[])"


def rows(xss):
    return "(" + "".join(listed(xs) + " ∷ " for xs in xss) + "[])"


def eleven(ten, options, faces):
    """The eleven counts for ten recorded ones: of the degenerate faces, those that repeat a corner and the others."""
    repeated = sum(len(set(faces[i : i + 3])) < 3 for i in range(0, len(faces), 3)) if options % 2 == 1 else 0
    return [repeated, ten[0] - repeated] + ten[1:]


def fitting(was, now):
    """For each of the faces in `now` the first place in `was` behind that of the face before it where the same corners stand, the last two exchanged or not."""
    origins = []
    for i, (a, b, c) in enumerate(was):
        if len(origins) < len(now) and now[len(origins)] in ((a, b, c), (a, c, b)):
            origins.append(i)
    return origins


def traced(passes, s, options, points, faces, mended, triples):
    """The origins of recorded faces: from the front and from behind the same list, or else that of the passes in plain C."""
    place = lambda row, v: tuple(row[3 * v : 3 * v + 3])
    corners = lambda row, list_: [tuple(place(row, v) for v in list_[i : i + 3]) for i in range(0, len(list_), 3)]
    was, now = corners(points, faces), corners(mended, triples)
    first = fitting(was, now)
    if first == [len(was) - 1 - i for i in fitting(was[::-1], now[::-1])][::-1]:
        return first
    given = (ctypes.c_uint64 * max(1, len(points)))(*points), (ctypes.c_uint32 * max(1, len(faces)))(*faces)
    origins, threshold = (ctypes.c_uint32 * max(1, len(was)))(), struct.unpack("<d", struct.pack("<Q", s))[0]
    passes.document_origins.restype = ctypes.c_size_t
    size = ctypes.c_size_t
    count = passes.document_origins(given[0], size(len(points) // 3), given[1], size(len(was)), ctypes.c_double(threshold), ctypes.c_uint32(options), origins)
    return list(origins[:count])


def in_parts(counts, turn):
    """Counts with the first of them, if there is one, in two parts: by turns none, a third, two thirds and all of it in the first part."""
    part = counts[0] * (turn % 4) // 3 if counts else 0
    return [part, counts[0] - part] + counts[1:] if counts else []


def counted(text, out):
    """What must be printed for a text, where its recorded answer has ten counts or eleven."""
    *lines, last = out.splitlines()
    name, *counts = last.split(b"\t")
    if name != b"r" or len(counts) != 10:
        return out
    fields = [line.split(b"\t") for line in text.splitlines()]
    faces = [int(corner) for kind, *corners in fields if kind == b"f" for corner in corners]
    counts = eleven([int(n) for n in counts], int(fields[0][1]), faces)
    return b"".join(line + b"\n" for line in lines) + b"r\t" + b"\t".join(b"%d" % n for n in counts) + b"\n"


def texts(cases):
    """The program's cases: what the rule gives for a text, and what was recorded."""
    for name in sorted(glob.glob(os.path.join(cases, "*.txt")) + glob.glob(os.path.join(cases, "text", "*.txt"))):
        text = open(name, "rb").read()
        if len(text) <= MOST_TEXT and all(b < 128 for b in text):
            out = open(name[:-4] + ".out", "rb").read()
            yield "meshfix (bytes %s)" % quoted(text), "bytes %s" % quoted(counted(text, out))


class Long(Exception):
    """An array of more entries than antt is given."""


class Words:
    """A row of words, read from the front."""

    def __init__(self, words):
        self.words, self.at = words, 0

    def one(self):
        self.at += 1
        return self.words[self.at - 1]

    def some(self, n):
        self.at += n
        return list(self.words[self.at - n : self.at])

    def array(self):
        n = self.one()
        if self.one() == 1:
            value = self.one()
            if n > MOST_ENTRIES:
                raise Long
            return [value] * n
        return self.some(n)

    def row(self):
        return self.some(self.one())


def records(name):
    data = open(name, "rb").read()
    assert data[:8] == b"MFIXCAS1"
    w = Words(struct.unpack("<%dQ" % (len(data) // 8), data))
    w.at = 1
    while w.at < len(w.words):
        call, n = w.one(), w.one()
        yield call, w.some(n)


def room(answer, stated, length, dirty):
    """What stands in a room of an accepted call: the answer, zero up to what is stated, and beyond what it held."""
    return list(answer) + [0] * (stated - len(answer)) + [dirty] * (length - stated)


def held(lengths, kinds):
    """What the rooms hold before a call, and still after a refusal."""
    return [[dirty] * n for n, dirty in zip(lengths, kinds)]


def outcome(number, place, answers, entries, stated, lengths, kinds):
    """What is given back and what the rooms then hold."""
    if number:
        return [[number, place]] + held(lengths, kinds)
    filled = [room(a, s, n, k) for a, s, n, k in zip(answers + [[]], stated, lengths, kinds)]
    return [[0, 0] + entries] + filled


def rooms(fields, lengths, kinds):
    parts = ["%s = %s" % (f, ("replicate %d (of_bits binary64 %d)" if k == DIRTY64 else "replicate %d %d") % (n, k)) for f, n, k in zip(fields, lengths, kinds)]
    return "(record { " + "; ".join(parts) + " })"


def limit(present, value, real):
    return ("(limit (of_bits binary64 %d))" if real else "(limit %d)") % value if present else "absent"


def turned(vertices, ends):
    """The loops as document 01 lists them: each with its lowest vertex last, by rising lowest vertex."""
    loops, start = [], 0
    for end in ends:
        loop = vertices[start:end]
        low = loop.index(min(loop)) + 1
        loops.append(loop[low:] + loop[:low])
        start = end
    loops.sort(key=lambda loop: loop[-1])
    totals, total = [], 0
    for loop in loops:
        total += len(loop)
        totals.append(total)
    return [v for loop in loops for v in loop], totals


def distance(points, low, high):
    """The bits of the length of an edge."""
    x, y, z = (struct.unpack("<d", struct.pack("<Q", points[3 * high + k]))[0] - struct.unpack("<d", struct.pack("<Q", points[3 * low + k]))[0] for k in range(3))
    return struct.unpack("<Q", struct.pack("<d", math.sqrt((x * x + y * y) + z * z)))[0]


def ruled(points, faces):
    """What document 01 says of good points and faces: number, place and rows of the edge call and of the loop call."""
    steps = [step for a, b, c in zip(*[iter(faces)] * 3) for step in ((b, c), (c, a), (a, b))]
    times = collections.Counter(tuple(sorted(step)) for step in steps)
    unique = sorted(times)
    crowded = [k for k, edge in enumerate(unique) if times[edge] > 2]
    if crowded:
        return [(7, crowded[0], [])] * 2
    position = {edge: k for k, edge in enumerate(unique)}
    edges = [[v for edge in unique for v in edge], [distance(points, *edge) for edge in unique], [position[tuple(sorted(step))] for step in steps]]
    boundary = [step for step in steps if times[tuple(sorted(step))] == 1]
    begun, ended = (collections.Counter(step[k] for step in boundary) for k in (0, 1))
    faults = [v for v in range(len(points) // 3) if begun[v] != ended[v] or begun[v] > 1]
    if faults:
        return [(0, 0, edges), (8, faults[0], [])]
    after, vertices, ends = dict(boundary), [], []
    for v in sorted(after):
        walk = []
        while v in after:
            walk.append(v)
            v = after.pop(v)
        vertices += walk[::-1]
        ends += [len(vertices)] if walk else []
    return [(0, 0, edges), (0, 0, [vertices, ends])]


def of_call(own, by_rule, number, place, answers, stated, lengths):
    """What a call with these of six rooms must give by a record of all six: what was recorded of it, or else its own refusal of a short room, or else the
    rule's answer."""
    if number == 0:
        return 0, 0, [answers[k] for k in own[:-1]]
    if number == 8 and 0 in own:
        return by_rule
    if number != 6:
        return number, place, []
    short = [i for i, k in enumerate(own) if k == place or lengths[k] < stated[k]]
    return (6, short[0], []) if short else by_rule


def both(points, faces, lengths, number, place, answers):
    """A record of six rooms asked of the edge call and of the loop call."""
    P, F = len(points) // 3, len(faces) // 3
    kinds = [DIRTY32, DIRTY64, DIRTY32, DIRTY32, DIRTY32, DIRTY32]
    stated = [6 * F, 3 * F, 3 * F, 3 * F, 3 * F, 16 * P + 64 * F + 64]
    fields = ["edges", "lengths", "face_edges", "loop_vertices", "loop_ends", "work"]
    if sum(lengths) > MOST_ENTRIES:
        raise Long
    if number == 0:
        answers[3:5] = turned(answers[3], answers[4])
    found, wanted = "listing (floats %s) %s" % (listed(points), listed(faces)), []
    for own, by_rule in zip(([0, 1, 2, 5], [3, 4, 5]), ruled(points, faces) if number in (6, 8) else (None, None)):
        part = lambda row: [row[k] for k in own]
        found += " " + rooms(part(fields), part(lengths), part(kinds))
        *told, given = of_call(own, by_rule, number, place, answers, stated, lengths)
        wanted += outcome(*told, given, [len(row) for row in given], part(stated), part(lengths), part(kinds))
    return found, rows(wanted)


def one_group_each(faces):
    """Whether the faces at each used point form one group: those that share another corner with one of it belong to it."""
    triples = list(zip(*[iter(faces)] * 3))
    for v in set(faces):
        left = [set(face) - {v} for face in triples if v in face]
        group, met = set(), [left.pop()]
        while met:
            group = group.union(*met)
            met, left = [others for others in left if group & others], [others for others in left if not group & others]
        if left:
            return False
    return True


def claim(call, case, answer, turn, passes):
    """One of the library's cases: the call's outcome by the rules, and what was recorded, with every room. The turn says how a line's count is parted."""
    w, a = Words(case), Words(answer)
    number, place = a.one(), a.one()
    answers = [a.row() for _ in range(a.one())]
    entries = [len(row) for row in answers]
    if call == 1:
        options, s, points, faces, lengths = w.one(), w.one(), w.array(), w.array(), w.array()
        P, F = len(points) // 3, len(faces) // 3
        kinds = [DIRTY64, DIRTY32, DIRTY32, DIRTY32, DIRTY32]
        stated = [3 * (P + 3 * F), 3 * F, 11, F, 16 * P + 64 * F + 64]
        lengths[2] += 1
        lengths.insert(3, F + 1)
        place += number == 6 and place == 3
        if number == 0:
            answers[2] = eleven(answers[2], options, faces)
            answers.append(traced(passes, s, options, points, faces, *answers[:2]))
            entries = [len(row) for row in answers]
        lent = rooms(["out_points", "out_faces", "report", "origins", "work"], lengths, kinds)
        found = "repairing (floats %s) %s (of_bits binary64 %d) %d %s" % (listed(points), listed(faces), s, options, lent)
    elif call == 2:
        return both(w.array(), w.array(), w.array(), number, place, answers)
    elif call == 3:
        P, faces, lengths = w.one(), w.array(), w.array()
        kinds, stated = [DIRTY32], [16 * P + 64 * (len(faces) // 3) + 64]
        found = "checking %d %s (replicate %d %d)" % (P, listed(faces), lengths[0], DIRTY32)
        if number == 0:
            entries, answers = [int(answers[0] == [1] and one_group_each(faces))], []
    elif call == 4:
        points, faces, labels, C = w.array(), w.array(), w.array(), w.one()
        pairs = [(w.one(), w.one()) for _ in range(5)]
        lengths = w.array()
        kinds = [DIRTY32, DIRTY64, DIRTY32, DIRTY32]
        stated = [C, 7 * C, C, 4 * C]
        names = ["min_faces", "min_area", "min_diagonal", "min_fraction", "keep_largest"]
        limits = "; ".join("%s = %s" % (f, limit(*p, real=f not in ("min_faces", "keep_largest"))) for f, p in zip(names, pairs))
        lent = rooms(["face_counts", "numbers", "flags", "work"], lengths, kinds)
        found = "patching (floats %s) %s %s %d (record { %s }) %s" % (listed(points), listed(faces), listed(labels), C, limits, lent)
    else:
        counts, lengths = in_parts(w.array(), turn), w.array()
        kinds, stated = [DIRTY8], [512]
        found = "lining %s (replicate %d %d)" % (listed(counts), lengths[0], DIRTY8)
        if number == 0:
            rest = room(answers[0], 512, lengths[0], DIRTY8)
            return found, rows([[0, 0, entries[0]], rest])
    if sum(lengths) > MOST_ENTRIES:
        raise Long
    return found, rows(outcome(number, place, answers, entries, stated, lengths, kinds))


def calls(cases, passes):
    """The library's cases that are small enough."""
    both = zip(records(cases + "/lib.cases.bin"), records(cases + "/lib.answers.bin"))
    for turn, ((call, case), (_, answer)) in enumerate(both):
        if len(case) <= MOST_WORDS:
            try:
                yield claim(call, case, answer, turn, passes)
            except Long:
                pass


def main():
    cases, folder, every, passes = sys.argv[1], sys.argv[2], int(sys.argv[3]), ctypes.CDLL(sys.argv[4])
    claims = (list(texts(cases)) + list(calls(cases, passes)))[::every]
    os.makedirs(folder + "/src")
    os.makedirs(folder + "/specs")
    open(folder + "/src/lib.rt", "w").write("// Recorded answers stand in specs/.\n")
    parts = range(0, len(claims), A_FILE)
    open(folder + "/specs/Lib.antt", "w").write("".join("pub mod Part%d\n" % p for p in parts))
    for p in parts:
        body = "".join(CLAIM.format(n=i, found=f, stated=s) for i, (f, s) in enumerate(claims[p : p + A_FILE]))
        open(folder + "/specs/Part%d.antt" % p, "w").write(HEAD + body)
    print("recorded: %d claims" % len(claims))


main()
