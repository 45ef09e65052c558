#!/usr/bin/env python3
"""Compares the wrong bodies that are kept with those that docs/CLAIMS.md names.

Each has to be named there, and each name has to be one; the section "Tried by the gate" has to list those that lie in
crates/CRATE/must-fail/; and bench/results/wrong-bodies.txt has to say of each other one that it was refused.
"""
import glob
import os
import re
import sys

TOP = os.path.dirname(os.path.dirname(os.path.abspath(__file__)))
SECTION = "## Tried by the gate"


def read(name):
    with open(f"{TOP}/{name}", encoding="utf-8") as file:
        return file.read()


def edits(pattern, at):
    """The edits under a pattern, as CRATE/FAULT.edit; the crate is the part of the path with this number."""
    paths = [os.path.relpath(it, TOP).split("/") for it in glob.glob(f"{TOP}/{pattern}")]
    return {f"{it[at]}/{it[-1]}" for it in paths}


def base(names):
    return {it.partition("/")[2] for it in names}


def sides(what, kept, named):
    """What only one of two sets has."""
    return [f"{what}: not in the document: {it}" for it in sorted(kept - named)] + [f"{what}: not kept: {it}" for it in sorted(named - kept)]


def main():
    gate, apart = edits("crates/*/must-fail/*.edit", 1), edits("wrong-bodies/*/*.edit", 1)
    tables, _, section = read("docs/CLAIMS.md").partition(SECTION)
    section = section.partition("\n## ")[0]
    lines = sides("wrong body", base(gate | apart), set(re.findall(r"`(\w+\.edit)`", tables)))
    listed = {f"{crate}/{name}" for crate, names in re.findall(r"^\| `(\w+)` \| (.*) \|$", section, re.M) for name in re.findall(r"`(\w+\.edit)`", names)}
    lines += sides("tried by the gate", gate, listed)
    refused = {line.split()[0] for line in read("bench/results/wrong-bodies.txt").splitlines() if len(line.split()) > 1 and line.split()[1] == "refused"}
    lines += [f"not refused by bench/results/wrong-bodies.txt: {it}" for it in sorted(apart - refused)]
    print("\n".join([*lines, f"claims: {len(gate)} wrong bodies in the gate, {len(apart)} apart, {len(lines)} that differ"]))
    return 1 if lines else 0


if __name__ == "__main__":
    sys.exit(main())
