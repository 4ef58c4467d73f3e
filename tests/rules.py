#!/usr/bin/env python3
"""Holds docs/RULES.md to the files: every `File.name` in it is a definition of that file, and every definition of specs/ stands in it."""
import glob
import os
import re
import sys

DEFINITION = re.compile(r"^\s*(?:unfoldable |abbrev )?pub (?:record |data )?(\S+)\s*[:({]")


def defined(folder):
    """The public names of each file of a folder, by the file's name; fields of records are not among them."""
    names = {}
    for path in glob.glob(folder + "/*.antt"):
        own = names.setdefault(os.path.basename(path)[:-5], set())
        inside = False
        for line in open(path, encoding="utf-8"):
            if re.match(r"^\S", line):
                inside = bool(re.match(r"^(pub )?(record|data)", line))
            found = DEFINITION.match(line)
            if found and (not inside or not line.startswith(" ")):
                own.add(found.group(1))
    return names


def main():
    root = sys.argv[1]
    specs = defined(root + "/crates/rules/specs")
    proofs = defined(root + "/crates/rule_laws/proofs")
    text = open(root + "/docs/RULES.md", encoding="utf-8").read()
    cited = set(re.findall(r"`([A-Z]\w*)\.([^`\s]+)`", text))
    faults = []
    for file, name in sorted(cited):
        if name not in specs.get(file, ()) and name not in proofs.get(file, ()):
            faults.append("docs/RULES.md names %s.%s, which is not there" % (file, name))
    for file, names in sorted(specs.items()):
        for name in sorted(names):
            if (file, name) not in cited:
                faults.append("crates/rules/specs/%s.antt defines %s, which docs/RULES.md does not name" % (file, name))
    for fault in faults:
        print("rules: " + fault)
    print("rules: %d names" % len(cited))
    return 1 if faults else 0


sys.exit(main())
