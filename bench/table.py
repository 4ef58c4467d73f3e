#!/usr/bin/env python3
"""Times the calls against the Rust and prints the tables in Markdown: table.py FOLDER [--short] [--only CALL,...] [--shapes SHAPE,...].

FOLDER is bench/run.sh's: the oracle, the leaves' times, and CGAL's programs where CGAL is. Each figure is the median of five runs in processor time, in a
process of its own; a pack and as many calls are timed by turns in one. What does not end within its limit is said to be over it. CALL is repair, packs (many
keys in one repair), edges, loops, both (edges and then loops), check, patches, line, ply or others."""
import os
import re
import resource
import shutil
import subprocess
import sys

LIMIT, SHORT_LIMIT = 60, 15  # seconds of processor time for one process; the second where the Rust is known to be slow
words = sys.argv[1:]
folder = os.path.abspath(words.pop(0))
oracle = os.path.join(folder, "oracle")
short = "--short" in words
CALLS = ["repair", "packs", "edges", "loops", "both", "check", "patches", "line", "ply", "others"]
only = words[words.index("--only") + 1].split(",") if "--only" in words else CALLS
sizes = [10_000, 100_000] if short else [10_000, 100_000, 1_000_000]
top = sizes[-1]
shapes = [line.split("\t") for line in subprocess.run([oracle, "--shapes"], capture_output=True, text=True, check=True).stdout.splitlines()]
if "--shapes" in words:
    shapes = [shape for shape in shapes if shape[0] in words[words.index("--shapes") + 1].split(",")]
plain = [shape for shape in shapes if shape[0] in ("grid", "scan", "numbered")]
crowded = [shape for shape in shapes if shape[0] in ("edge", "same", "equal")]
WAYS = ["reused", "fresh", "dirty"]
TITLES = {
    "edges": "Edges, against the Rust's one call for edges and loops",
    "loops": "Loops, against the same",
    "both": "Edges and then loops in the same work room, against the same",
}


def limit(call):
    return SHORT_LIMIT if call in ("repair8", "repair16") else LIMIT


def limited(seconds):
    return lambda: resource.setrlimit(resource.RLIMIT_CPU, (seconds, seconds))


figures = {}


def figure(call, shape, size, way):
    """One figure: milliseconds, runs, megabytes and number. Where there is no answer milliseconds are None; beyond the limit, 'over' and the limit."""
    if way == "rust" and call in TITLES:
        call = "edges"  # the Rust's one call is timed once
    key = (call, shape, size, way)
    if key in figures:
        return figures[key]
    smaller = [s for s in sizes if s < size]
    if way == "rust" and smaller and figure(call, shape, smaller[-1], way)[0] == "over":
        figures[key] = ("over", limit(call), None, 0)
        return figures[key]
    if sys.stderr.isatty():
        print(f"{call} {shape} {size} {way}", end="\033[K\r", file=sys.stderr, flush=True)
    run = subprocess.run([oracle, "--time", call, str(size), shape, way], capture_output=True, text=True, preexec_fn=limited(limit(call)))
    if run.returncode < 0:
        figures[key] = ("over", limit(call), None, 0)
        return figures[key]
    if run.returncode != 0:
        sys.exit(f"{call} {shape} {size} {way}: status {run.returncode}\n{run.stderr}")
    time, runs, memory, number = run.stdout.split()
    figures[key] = (None if time == "-" else float(time), int(runs), None if memory == "-" else float(memory), int(number))
    return figures[key]


def number(x):
    """Three digits that count."""
    if x is None:
        return "—"
    return f"{x:,.0f}" if x >= 100 else f"{x:.3g}" if x >= 0.001 else f"{x:.6f}"


def milliseconds(f):
    """A time, with the number of runs where they are fewer than five."""
    if f[0] == "over":
        return f"over {f[1]} s"
    return number(f[0]) + (f" ({f[1]} run{'s' if f[1] > 1 else ''})" if f[0] is not None and f[1] < 5 else "")


def ratio(ours, theirs):
    """Ours over the Rust's; where that is over its limit, ours over the limit."""
    if ours[0] in (None, "over") or theirs[0] is None:
        return None
    return ours[0] / (theirs[1] * 1000 if theirs[0] == "over" else theirs[0])


def shown(ours, theirs):
    r = ratio(ours, theirs)
    return "—" if r is None else ("under " if theirs[0] == "over" else "") + f"{r:.3g}"


def table(head, rows):
    print("| " + " | ".join(head) + " |")
    print("|" + "---|" * len(head))
    for row in rows:
        print("| " + " | ".join(row) + " |")
    print(flush=True)


def against(title, call, meshes, ways=WAYS):
    """The table of one call: the library by ways of lending, the Rust, ratios, memory."""
    if not meshes:
        return
    print(f"### {title}\n")
    rows = []
    for shape, what in meshes:
        for size in sizes:
            ours, rust = [figure(call, shape, size, way) for way in ways], figure(call, shape, size, "rust")
            name = what + (f", refused {ours[0][3]}" if ours[0][3] else "")
            times = [milliseconds(f) for f in ours] + [milliseconds(rust)]
            rows.append([name, f"{size:,}"] + times + [shown(f, rust) for f in ours] + [number(ours[0][2]), number(rust[2])])
    table(["mesh", "faces"] + [f"{way} ms" for way in ways] + ["Rust ms"] + [f"{way} / Rust" for way in ways] + ["MB", "Rust MB"], rows)


def grows(call, shape, way):
    """The time of a face at the largest size over that at 10,000 faces."""
    small, large = figure(call, shape, sizes[0], way)[0], figure(call, shape, top, way)[0]
    return None if None in (small, large) or "over" in (small, large) else large / top / (small / sizes[0])


def growth():
    without = (("loops", "rust"), ("check", "rust"))
    kinds = [(call, way) for call in ("repair", "edges", "loops", "check") for way in ("reused", "dirty", "rust") if call in only and (call, way) not in without]
    if not kinds:
        return
    print(f"### How time grows: time of a face at {top:,} faces over that at {sizes[0]:,}\n")
    shown = lambda call, shape, way: "—" if grows(call, shape, way) is None else f"{grows(call, shape, way):.2f}"
    table(["mesh"] + [f"{call}, {way}" for call, way in kinds], [[what] + [shown(call, shape, way) for call, way in kinds] for shape, what in shapes])


def target(rows, what, most, values):
    """A row: what is aimed at, the worst that was seen, and whether it is met; each mesh that misses it is named."""
    there = sorted(((value, name) for value, name in values if value is not None), reverse=True)
    if not there:
        return
    beyond = [f"{name} {value:.2f}" if name else "" for value, name in there if value > most]
    more = f" and {len(beyond) - 8} more" if len(beyond) > 8 else ""
    rows.append([what, f"{most:g}", f"{there[0][0]:.3f}", "**no**" + (": " + "; ".join(beyond[:8]) + more if beyond[0] else "") if beyond else "yes"])


def targets():
    """What is aimed at, and whether it is met."""
    print("### Targets\n")
    names = dict(map(tuple, shapes))
    rows = []
    share = lambda call, shape, size, way: ratio(figure(call, shape, size, way), figure(call, shape, size, "rust"))
    for call in [call for call in ("repair", "edges", "loops") if call in only]:
        for shape in [shape for shape in ("scan", "numbered") if shape in names]:
            for way in WAYS if call == "repair" else ["reused", "fresh"]:
                target(rows, f"{call}, {names[shape]}, {top:,} faces, rooms {way}: a tenth of the Rust's time", 0.1, [(share(call, shape, top, way), "")])
        for way in WAYS:
            every = [(share(call, shape, size, way), f"{what}, {size:,}") for shape, what in shapes for size in sizes]
            target(rows, f"{call}, rooms {way}, any mesh: half of the Rust's time", 0.5, every)
    for keys, faces in PACKS if "packs" in only else []:
        name, seen = f"{keys} keys of {faces // keys:,} faces in one call", lambda way, k: [(by_turns(keys, faces, shape, way)[k], what) for shape, what in plain]
        target(rows, f"{name}, rooms reused: times a call for each", 1, seen("reused", 3))
        for way, k, lent in (("same", 2, "reused: times a call for each, all in the same"), ("fresh", 2, "fresh: times a call for each"), ("reused", 4, "reused: part of the Rust's time")):
            rows.append([f"{name}, rooms {lent}", "—", f"{max(seen(way, k))[0]:.3f}", "reported"])
    for shape, way in [(shape, way) for shape in ("scan", "numbered") if shape in names for way in WAYS if "both" in only]:
        seen = share("both", shape, top, way)
        rows.append([f"edges and then loops, {names[shape]}, {top:,} faces, rooms {way}: part of the Rust's time", "—", "—" if seen is None else f"{seen:.3f}", "reported"])
    for call, way in [(call, way) for call in ("repair", "edges", "loops", "check") for way in ("reused", "dirty") if call in only]:
        grown = [(grows(call, shape, way), what) for shape, what in shapes]
        if call == "repair":
            grown += [(grows(alone, shape, way), f"{what}, {pass_name}") for alone, pass_name in (("repair8", "pass 5 alone"), ("repair16", "pass 4 alone")) for shape, what in crowded]
        target(rows, f"{call}, rooms {way}, any mesh: time of a face at {top:,} over that at {sizes[0]:,}", 3, grown)
    for shape in [shape for shape in ("grid", "fan", "apart") if shape in names and "check" in only]:
        seen = ratio(figure("check", shape, top, "reused"), figure("repair8", shape, top, "reused"))
        rows.append([f"check, {names[shape]}, {top:,} faces, rooms reused: times a repair with pass 5 alone", "—", "—" if seen is None else f"{seen:.3f}", "reported"])
    for call, way in [(call, way) for call in ("write_ply", "read_ply") for way in WAYS if "ply" in only]:
        base = "look" if way == "reused" else "copy"
        seen = ratio(figure(call, "grid", top, way), figure(call, "grid", top, base))
        if way == "reused":
            target(rows, f"{PLY[call]}, {top:,} faces, rooms reused: times memcpy of the file's bytes and a look through the work room", 3, [(seen, "")])
            target(rows, f"{PLY[call]}, rooms reused: time of a face at {top:,} over that at {sizes[0]:,}", 3, [(grows(call, "grid", way), "")])
        else:
            rows.append([f"{PLY[call]}, {top:,} faces, rooms {way}: times memcpy of the file's bytes", "—", "—" if seen is None else f"{seen:.3f}", "reported"])
    roots = [(float(value), name.strip()) for name, value in re.findall(r"^root +(.*?)  .*ratio ([0-9.]+)$", leaves(), re.M)]
    target(rows, "root: times the processor's own", 20, roots)
    table(["target", "at most", "worst seen", "met"], rows)


def leaves():
    """The leaves' table, as bench/leaves.sh printed it."""
    path = os.path.join(folder, "leaves.txt")
    return open(path, encoding="utf-8").read() if os.path.exists(path) else ""


def ended(command):
    """A program's processor time in milliseconds and its peak memory in megabytes; nothing if it fails."""
    child = subprocess.Popen(command, cwd=folder, stdout=subprocess.PIPE, stderr=subprocess.DEVNULL, text=True, preexec_fn=limited(LIMIT))
    out = child.stdout.read()
    _, status, used = os.wait4(child.pid, 0)
    return (None, None, "") if status != 0 else ((used.ru_utime + used.ru_stime) * 1000, used.ru_maxrss / 1024, out)


PACKS = [(40, 100_000), (256, 102_400)]  # keys, and faces of all together
turns = {}


def by_turns(keys, faces, shape, way):
    """One call for so many keys, a call for each and, in reused rooms, the Rust's for each, by turns in one process: their milliseconds, and then the ratios of
    the first to the others."""
    key = (keys, faces, shape, way)
    if key not in turns:
        run = subprocess.run([oracle, "--keys", str(keys), str(faces), shape, way], capture_output=True, text=True, check=True)
        turns[key] = [float(word) for word in run.stdout.split()]
    return turns[key]


def packs():
    """Many keys in one call, against a call for each and against a Rust call for each."""
    print("### Repair of many keys in one call, options 63\n")
    rows = []
    for shape, what in plain:
        for keys, faces in PACKS:
            one, each, rust, to_each, to_rust = by_turns(keys, faces, shape, "reused")
            (_, same, to_same), (new, new_each, to_new) = by_turns(keys, faces, shape, "same"), by_turns(keys, faces, shape, "fresh")
            ratios = [f"{x:.3g}" for x in (to_each, to_same, to_new, to_rust, new / rust)]
            rows.append([what, f"{keys}", f"{faces // keys:,}"] + [number(x) for x in (one, each, same, new, new_each, rust)] + ratios)
    head = ["reused ms", "a call each ms", "each in the same rooms ms", "fresh ms", "a call each, fresh ms", "Rust, a call each ms"]
    ratios = ["reused / each", "reused / each in the same rooms", "fresh / each, fresh", "reused / Rust", "fresh / Rust"]
    table(["mesh", "keys", "faces of a key"] + head + ratios, rows)
    print("Medians of 15 turns in one process, and of the ratios in a turn; only fresh / Rust is of two processes. A call each: with answer rooms of their own and")
    print("one work room; each in the same rooms: every answer takes the place of the one before; fresh: all rooms new for each call.\n")


PLY = {"write_ply": "writing a PLY file", "read_ply": "reading a PLY file"}


def median_of(command, place):
    """The median of five runs of a program that prints milliseconds, those at this place; nothing if it fails or is not there."""
    found = [ended(command)[2].split() for _ in range(5)] if command else []
    times = sorted(float(words[place]) for words in found if len(words) > place)
    return times[len(times) // 2] if times else None


def meshio():
    """The command that times meshio, where it is."""
    for python in (sys.executable, "/usr/bin/python3"):
        if os.path.exists(python) and subprocess.run([python, "-c", "import meshio"], capture_output=True).returncode == 0:
            return [python, os.path.join(os.path.dirname(os.path.abspath(__file__)), "meshio_ply.py"), "mesh.ply", "out.ply"]
    return None


def ply():
    """Reading and writing PLY files, against memcpy of the same bytes, and against CGAL and meshio where they are."""
    print("### PLY files of a clean grid\n")
    cgal = ["./cgal_ply", "mesh.ply", "out.ply"] if os.path.exists(os.path.join(folder, "cgal_ply")) else None
    bases = ["copy", "look"]
    rows = []
    for size in sizes:
        subprocess.run([oracle, "--write", "grid", str(size), os.path.join(folder, "mesh.ply")], check=True)
        megabytes = os.path.getsize(os.path.join(folder, "mesh.ply")) / 1e6
        for place, call in ((1, "write_ply"), (0, "read_ply")):
            ours, plain = [figure(call, "grid", size, way) for way in WAYS], [figure(call, "grid", size, way) for way in bases]
            ratios = [shown(f, plain[0]) for f in ours] + [shown(ours[0], plain[1])]
            row = [PLY[call], f"{size:,}", number(megabytes)] + [milliseconds(f) for f in ours + plain] + ratios + [number(ours[0][2])]
            rows.append(row + [number(median_of(command, place)) for command in (cgal, meshio())])
    head = [f"{way} ms" for way in WAYS] + ["memcpy ms", "memcpy and look ms"] + [f"{way} / memcpy" for way in WAYS] + ["reused / memcpy and look"]
    table(["", "faces", "MB of file"] + head + ["MB", "CGAL ms", "meshio ms"], rows)
    print("memcpy: the file's bytes, to memory that was used before. And look: the work room, which each call must leave zero, is looked through once besides.")
    print("CGAL: from and to a string in memory; meshio: from and to a file. Neither checks coordinates or corners.\n")


def others():
    """admesh and CGAL on the same meshes, where they are."""
    programs = [("cgal", ["./cgal", "mesh.off"]), ("admesh", ["admesh", "--exact", "--remove-unconnected", "--normal-directions", "--write-binary-stl=out.stl", "mesh.stl"])]
    there = [name for name, command in programs if shutil.which(os.path.join(folder, command[0]) if name == "cgal" else name)]
    if not there:
        print("admesh and CGAL are not here; --install gets them on Debian.\n")
        return
    print("### Other programs on the same meshes\n")
    rows = []
    for shape, what in plain:
        for size in sizes:
            for kind in ("off", "stl"):
                subprocess.run([oracle, "--write", shape, str(size), os.path.join(folder, f"mesh.{kind}")], check=True)
            row = [what, f"{size:,}", number(figure("repair", shape, size, "reused")[0])]
            for name, command in programs:
                found = [ended(command) for _ in range(5 if name in there else 0)]
                found = sorted((float(out.split()[-1]) if name == "cgal" else time, memory) for time, memory, out in found if time is not None)
                row += [number(found[len(found) // 2][0]), number(found[len(found) // 2][1])] if found else ["—", "—"]
            rows.append(row)
    table(["mesh", "faces", "repair, reused ms", "CGAL ms", "CGAL MB", "admesh ms", "admesh MB"], rows)
    print("CGAL: `repair_polygon_soup` and `orient_polygon_soup`, without reading and writing. admesh: the whole program, reading and writing binary STL; it joins")
    print("faces by places and not by numbers. Memory is the whole process's and not below 11 MB, the starter's. They mend by other rules, so the answers differ.\n")


if "repair" in only:
    against("Repair, options 63", "repair", shapes)
    against("Repair, options 16: pass 4 alone on crowded edges", "repair16", crowded)
    against("Repair, options 8: pass 5 alone on crowded points", "repair8", crowded)
    against("Repair, options 0", "repair0", plain)
if "packs" in only:
    packs()
for call, title in TITLES.items():
    if call in only:
        against(title, call, shapes)
if "check" in only:
    against("Edge check, which the Rust does not have", "check", shapes)
if "patches" in only:
    against("Patches, 64 labels", "patches", plain)
if "line" in only:
    against("Report line, eleven counts", "line", shapes[:1], ["reused"])
if "ply" in only:
    ply()
growth()
targets()
if "others" in only:
    others()
if leaves():
    print(f"### The leaves\n\n```\n{leaves().strip()}\n```")
