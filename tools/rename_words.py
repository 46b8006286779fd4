#!/usr/bin/env python3
"""Brings this repository's own definitions and lemmas to one spelling: facts and types in upper camel case, everything else in snake case.

usage: python3 tools/rename_words.py      at the top, once, after the toolchain's own script

A name is the repository's own where a file of specs/ or proofs/ declares it: in a signature, or as a record, a data type, a field or a constructor.
A dash before an operator stays, as in rule-++. Names of src/, of generated goals and of libraries stay; comments in .rt files, strings and docs/ too.
It stops, and writes nothing, where two names would fall together or a new name is one that a file imports.
"""

import collections
import os
import re
import sys

SIGNATURE = re.compile(r"^\s*(?:(?:abbrev|unfoldable|pub|opaque)\s+)*((?:[^\s(){}\[\],;:.=λ→]+\s+)*[^\s(){}\[\],;:.=λ→]+)\s+:(?:\s|$)(.*)")
RECORD = re.compile(r"^\s*(?:pub\s+)?(?:record|data)\s+([^\s(){}:]+)")
TACTICS = {"first_of": "first_value"}  # a name that would be a tactic's, and what stands for it
WORDS = {"pub", "abbrev", "unfoldable", "opaque", "let", "mutual", "open", "use", "in"}
TOKEN = re.compile(r"[^\s(){}\[\],;.\"=:λ→∷⌜⌝@]+")
IMPORT = re.compile(r"use\s+([^\s;{]+)\.\{([^}]*)\}")


def files(root, endings):
    for folder, dirs, names in os.walk(os.path.join(root, "crates")):
        dirs[:] = sorted(d for d in dirs if d != "out")
        for name in sorted(names):
            if name.endswith(endings):
                yield os.path.join(folder, name)


def declared(root):
    """The names that the files of specs/ and proofs/ declare, without goals, which Rattle names."""
    found = set()
    for path in files(root, ".antt"):
        for line in open(path, encoding="utf-8"):
            if line.lstrip().startswith("--"):
                continue
            record = RECORD.match(line)
            if record:
                found.add(record.group(1))
                continue
            signature = SIGNATURE.match(line)
            if signature and not signature.group(2).startswith(("goal.", "goal ")) and not re.search(r"\blet\b", signature.group(1)):
                found.update(n for n in signature.group(1).split() if n not in WORDS)
    return found


def renamed(name):
    if name[0].isupper():
        return "".join(p[0].upper() + p[1:] for p in name.split("-") if p)
    name = re.sub(r"-(?=[A-Za-z0-9])", "_", name).replace("′", "'")
    return TACTICS.get(name, name)


def imported(root, own):
    """The names that files import from libraries."""
    found = set()
    for path in files(root, (".antt", ".rt")):
        for module, names in IMPORT.findall(open(path, encoding="utf-8").read()):
            if module.split(".")[1:2] and module.split(".")[1] in own:
                continue
            found.update(n.strip().split(" as ")[-1].strip() for n in names.split(",") if n.strip())
    return found


def main():
    root = os.getcwd()
    own = set(os.listdir(os.path.join(root, "crates")))
    names = declared(root)
    table = {n: renamed(n) for n in names if renamed(n) != n}
    clashes = [n for n, count in collections.Counter(table.values()).items() if count > 1]
    clashes += [n for n in table.values() if n in names]
    taken = imported(root, own)
    clashes += [n for n in list(table) + list(table.values()) if n in taken]
    if clashes:
        sys.exit("names fall together: " + " ".join(sorted(set(clashes))))
    for path in files(root, (".antt", ".rt")):
        lines = open(path, encoding="utf-8").read().split("\n")
        for i, line in enumerate(lines):
            if path.endswith(".rt") and (line.lstrip().startswith("//") or '"' in line):
                continue
            lines[i] = TOKEN.sub(lambda m: table.get(m.group(0), m.group(0)), line)
        open(path, "w", encoding="utf-8").write("\n".join(lines))
    print(f"{len(table)} names")


main()
