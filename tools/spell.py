#!/usr/bin/env python3
"""Spells this repository's own definitions, lemmas, fields and constructors as Rattle does: words in snake case, types in camel case.

usage: python3 tools/spell.py [--check] FOLDER

FOLDER is the top of a checkout. Only names that the files of specs/ and proofs/ declare are turned, where they are declared, cited or told: in .antt files,
in the clauses and `ghost use` lines of .rt files, and between the quotes ` of the pages. A name that a file brings from a library stays there.
Names that Rattle makes (behind `tie.`, `goal.`) stay. --check writes nothing. Names that would fall together are printed as `together:`, and nothing is written then.
"""

import os
import re
import sys

WORD = re.compile(r'[^\s(){}.;,@"«»`\[\]\\]+')
HEAD = re.compile(r"^(?:(?:abbrev|unfoldable|pub)\s+)*([^\s:(){}«»]+)\s+:(?!=)")
KIND = re.compile(r"^(?:pub\s+)?(?:data|record)\s+(\S+)")
MEMBER = re.compile(r"^\s+(?:pub )?([^\s:(){}λ|]+(?: [^\s:(){}λ|]+)*)(?:\s+:(?!=)|$)")
RULES = re.compile(r"^(?:pub\s+)?ruleset\s+(\S+)")
USE = re.compile(r"^\s*(?:ghost |pub |unfoldable )*use ([^\s{;]+?)\.?(?:\{([^{}]*)\})?(?: as ([^\s;]+))?;?\s*$")
# What Rattle makes or looks for by its name.
MADE = re.compile(r"^(invariant-|decreases-|ghost-|\+)|_spec$|-spec$")
# Chosen by hand: the new spelling would fall together with another name, or the library has another word.
CHOSEN = {
    "flat-faces": "flat_faces_back",
    "flat-points": "flat_points_back",
    "outcome-of": "outcome_by_check",
    "inGroup": "is_in_group",
    "points-of": "points_of_bytes",
    "faces-from": "faces_from_row",
    "job-of": "job_of_lines",
    "listText": "list_text_by_rows",
    "floor-root": "floor_root_is_floor",
    "near-root": "near_root_is_near",
    "root-of": "root_of_is_root",
    "bit-and": "bit_of_and",
    "bit-or": "bit_of_or",
    "is-nan": "is_nan_is_nan",
    "nan-bits": "nan_by_bits",
    "again-at": "again_at_is",
    "area-at": "area_at_is",
    "begins-at": "begins_at_is",
    "every-face": "every_face_is",
    "faces-in": "faces_in_is",
    "key-at": "key_at_is",
    "leader-of": "leader_of_is",
    "lost-line": "lost_line_is",
    "marked-line": "marked_line_is",
    "run-of": "run_of_is",
    "unused-line": "unused_line_is",
    "users-at": "users_at_is",
}


def own(names, path):
    return any(path.startswith(f"Rattle.{n}.") for n in names)


def snake(name):
    name = name.replace("getD", "get_or")
    name = re.sub(r"(?<=[a-z0-9₀-₉'])([A-Z])", lambda m: "-" + m[1].lower(), name)
    return name.replace("-", "_")


def camel(name):
    return "".join(p[:1].upper() + p[1:] for p in name.split("-"))


def spelled(name):
    if name in CHOSEN:
        return CHOSEN[name]
    if "◌" in name or MADE.search(name):
        return name
    if name[0].isupper():
        return camel(name) if "-" in name else name
    return snake(name)


def files(top):
    for folder, dirs, names in os.walk(os.path.join(top, "crates")):
        dirs[:] = sorted(d for d in dirs if d not in ("out", "target"))
        for n in sorted(names):
            if n.endswith((".antt", ".rt")):
                yield os.path.join(folder, n)


def code(line):
    """The line's text before a comment, and the comment."""
    m = re.search(r"(^|\s)--(\s|$)", line)
    return (line[: m.start()], line[m.start() :]) if m else (line, "")


def declared(text, proof):
    """The names that a file declares: at its head and as members, and those within proofs, which are its own."""
    heads, members, within = set(), set(), set()
    inside = False
    for line in text.splitlines():
        line = code(line)[0]
        m = KIND.match(line) or RULES.match(line)
        if m:
            heads.add(m[1])
            inside = True
            continue
        m = HEAD.match(line)
        if m:
            inside = False
            if not (proof and re.search(r":\s*(tie|goal)\.", line)):
                heads.add(m[1])
            continue
        if line and not line[0].isspace():
            inside = False
        m = MEMBER.match(line)
        if m and (inside or line.lstrip().startswith("pub ")):
            members.update(m[1].split())
        elif m and re.search(r"\s:\s", line) and " " not in m[1]:
            within.add(m[1])
    return heads, members, within


def brought(text, crates):
    """The names that a file brings from libraries, and those that it brings from this repository."""
    theirs, ours = set(), set()
    for line in text.splitlines():
        m = USE.match(line)
        if not m:
            continue
        to = ours if own(crates, m[1]) else theirs
        for it in (m[2] or "").split(","):
            part = it.split(" as ")
            to.update(p.strip() for p in part if p.strip())
    return theirs, ours


def turn_code(text, table, theirs):
    def one(m):
        word = m[0]
        before = text[: m.start()]
        if word not in table or (word in theirs and not before.endswith(".")):
            return word
        if re.search(r"(^|[\s(\[])(tie|goal)\.$", before[-12:]):
            return word
        return table[word]

    return WORD.sub(one, text)


def turn_comment(text, table):
    def quoted(m):
        return "`" + WORD.sub(lambda w: table.get(w[0], w[0]), m[1]) + "`"

    text = re.sub(r"`([^`]*)`", quoted, text)
    return WORD.sub(lambda w: table.get(w[0], w[0]) if re.match(r"[a-z]+[A-Z]", w[0]) else w[0], text)


def turn_antt(text, table, theirs):
    out = []
    for line in text.split("\n"):
        m = USE.match(line)
        if m:
            out.append(line if not own(CRATES, m[1]) else turn_code(line, table, set()))
            continue
        c, comment = code(line)
        out.append(turn_code(c, table, theirs) + turn_comment(comment, table))
    return "\n".join(out)


def turn_rt(text, table, theirs):
    """Turns `ghost use` lines and clauses, which begin at `requires`, `ensures` or `ghost` and end with their brace."""
    out, at = [], 0
    start = re.compile(r"^[ \t]*(?:(?:requires|ensures)\*?(?: \w+)? \{|ghost \w+: \{)", re.M)
    lines = text.split("\n")
    lines = [turn_code(l, table, set()) if l.lstrip().startswith("ghost use Rattle.") and own(CRATES, USE.match(l)[1] if USE.match(l) else "") else l for l in lines]
    text = "\n".join(lines)
    while True:
        m = start.search(text, at)
        if not m:
            break
        end, deep = m.end(), 1
        while deep:
            deep += {"{": 1, "}": -1}.get(text[end], 0)
            end += 1
        out.append(text[at : m.end()])
        out.append(turn_code(text[m.end() : end], table, theirs))
        at = end
    out.append(text[at:])
    text = "".join(out)
    return "\n".join(re.sub(r"//.*", lambda m: turn_comment(m[0], table), l) if '"' not in l else l for l in text.split("\n"))


def main():
    global CRATES
    check = "--check" in sys.argv[1:]
    (top,) = [a for a in sys.argv[1:] if not a.startswith("--")]
    CRATES = sorted(os.listdir(os.path.join(top, "crates")))
    texts = {}
    for p in files(top):
        with open(p, encoding="utf-8") as f:
            texts[p] = f.read()
    table, local, heads_of = {}, {}, {}
    for p, t in texts.items():
        if not p.endswith(".antt"):
            continue
        proof = p.endswith("/Proof.antt")
        heads, members, within = declared(t, proof)
        heads_of[p] = heads | members | within
        mine = {n: spelled(n) for n in heads | members if spelled(n) != n}
        local[p] = {n: spelled(n) for n in within if spelled(n) != n}
        if proof:
            local[p].update(mine)
        else:
            table.update(mine)
    bad = 0
    for p, t in texts.items():
        theirs, ours = brought(t, CRATES)
        tab = {**table, **local.get(p, {})}
        here = (heads_of.get(p, set()) | ours) - set()
        new = {}
        for n in sorted(here):
            new.setdefault(tab.get(n, n), []).append(n)
        # A function of the code may have the name of what it computes.
        if p.endswith(".rt"):
            continue
        words = {m[0] for line in t.splitlines() for m in WORD.finditer(code(line)[0]) if not line[: m.start()].endswith((".", ":")) and not USE.match(line)}
        for n, olds in new.items():
            if len(olds) > 1 or (olds[0] != n and n in words) or (olds[0] != n and n in theirs):
                bad += 1
                print(f"together: {os.path.relpath(p, top)}: {' '.join(olds)} -> {n}")
    print(f"spell: {len(table)} names, {bad} that fall together")
    if bad:
        raise SystemExit(1)
    if check:
        return
    for p, t in texts.items():
        theirs, _ = brought(t, CRATES)
        theirs -= heads_of.get(p, set())
        tab = {**table, **local.get(p, {})}
        turn = turn_antt if p.endswith(".antt") else turn_rt
        new = turn(t, tab, theirs)
        if new != t:
            with open(p, "w", encoding="utf-8") as f:
                f.write(new)
    pages = [os.path.join(top, "README.md")] + [os.path.join(top, "docs", n) for n in os.listdir(os.path.join(top, "docs")) if n.endswith(".md")]
    pages += [os.path.join(top, "docs", "landings", n) for n in sorted(os.listdir(os.path.join(top, "docs", "landings")))]
    for p in pages:
        with open(p, encoding="utf-8") as f:
            t = f.read()
        new = re.sub(r"`([^`\n]*)`", lambda m: "`" + WORD.sub(lambda w: table.get(w[0], w[0]), m[1]) + "`" if "crates/" in m[1] or not re.search(r"[ /]", m[1]) else m[0], t)
        if new != t:
            with open(p, "w", encoding="utf-8") as f:
                f.write(new)


main()
