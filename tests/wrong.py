#!/usr/bin/env python3
"""Every must-fail edit of code is wrong by a run: applies each to a copy of the repository, runs the programs that stand on its crate with `rt try`, and
says which of them then writes something else, or goes wrong.

    wrong.py [CRATE[/EDIT] ..]

Without words it takes all. The last line is `N edits, M not shown wrong`; the exit status is 0 if M is 0. By hand: it takes some minutes."""
import glob
import os
import shutil
import subprocess
import sys
import tempfile

HERE = os.path.dirname(os.path.dirname(os.path.abspath(__file__)))


def crates():
    """Each crate and what it names, as crates.txt has it."""
    named = {}
    for line in open(os.path.join(HERE, "crates.txt")):
        line = line.split("#")[0]
        if ":" in line:
            name, rest = line.split(":")
            named[name.split()[0]] = rest.split()
    return named


def below(named, name):
    """All that a crate stands on."""
    found, left = set(), [name]
    while left:
        for c in named.get(left.pop(), []):
            if c not in found:
                found.add(c)
                left.append(c)
    return found


def parsed(path):
    """The file of code that an edit changes, and its pairs of old and new text there. None for an edit of definitions or proofs alone."""
    file, pairs, old = None, {}, None
    for line in open(path):
        line = line.rstrip("\n")
        if line.startswith("file: "):
            file = line[6:]
        elif line.startswith("old: "):
            old = line[5:]
        elif line.startswith("new:"):
            pairs.setdefault(file, []).append((old, line[5:]))
    return next(((f, p) for f, p in pairs.items() if f.startswith("src/")), (None, []))


def programs(named, crate):
    """The programs that stand on a crate, the one that is named after it first, then those that stand on least."""
    on = [p for p in named if os.path.exists(os.path.join(HERE, "crates", p, "src/main.rt")) and crate in below(named, p)]
    return sorted(on, key=lambda p: (p != crate + "_try", len(below(named, p))))


def tried(room, program):
    """Whether a program in this copy writes what its `stdout` has, on what it is given."""
    folder = os.path.join(room, "crates", program)

    def held(name):
        path = os.path.join(folder, name)
        return open(path, "rb").read() if os.path.exists(path) else b""

    words = ["rt", "try", "--", *held("args").decode().splitlines()]
    try:
        ran = subprocess.run(words, cwd=folder, input=held("stdin"), stdout=subprocess.PIPE, stderr=subprocess.DEVNULL, timeout=120)
    except subprocess.TimeoutExpired:
        return False
    return ran.returncode == int(held("status") or 0) and ran.stdout == held("stdout")


def main():
    named = crates()
    words = sys.argv[1:]
    count, unshown = 0, 0
    with tempfile.TemporaryDirectory() as room:
        shutil.copytree(os.path.join(HERE, "crates"), os.path.join(room, "crates"), ignore=shutil.ignore_patterns("out"))
        shutil.copy(os.path.join(HERE, "crates.txt"), room)
        for path in sorted(glob.glob(os.path.join(HERE, "crates/*/must-fail/*.edit"))):
            crate, edit = path.split("/")[-3], path.split("/")[-1][:-5]
            file, pairs = parsed(path)
            if words and crate not in words and crate + "/" + edit not in words or file is None:
                continue
            target = os.path.join(room, "crates", crate, file)
            text = open(target).read()
            changed = text
            for old, new in pairs:
                changed = changed.replace(old, new)
            open(target, "w").write(changed)
            by = next((p for p in programs(named, crate) if not tried(room, p)), None)
            open(target, "w").write(text)
            count += 1
            unshown += by is None
            print("%s/%s: %s" % (crate, edit, "wrong by " + by if by else "not shown wrong"), flush=True)
    print("%d edits, %d not shown wrong" % (count, unshown))
    return unshown > 0


if __name__ == "__main__":
    sys.exit(main())
