#!/usr/bin/env python3
"""Compares the sizes of functions and files with those that CONTRIBUTING.md sets.

    tools/check_sizes.py            what is too large must stand in tools/sizes.txt, with no less than it has
    tools/check_sizes.py --shrink   takes from that list what is no longer too large, and lowers what became smaller

What stands in tools/sizes.txt was too large when the rule came. The list only shrinks: nothing enters it, and no number rises.
"""
import glob
import os
import re
import sys

TOP = os.path.dirname(os.path.dirname(os.path.abspath(__file__)))
LIST = f"{TOP}/tools/sizes.txt"
MOST = {"lines of body": 40, "clauses": 10, "lines of source": 300, "lines of spec": 120, "lines of lemmas": 250, "lines of answers": 150, "lines over 200 characters": 0}
FUNCTION = re.compile(r"^(\s*)(?:pub(?:\(\w+\))? )?(?:const )?fn (\w+)")
CLAUSE = re.compile(r"^\s*(requires|ensures)\b")


def read(path):
    with open(path, encoding="utf-8") as file:
        return file.read().splitlines()


def functions(lines):
    """Each function's name with its count of clauses and of lines of its body."""
    at = 0
    while at < len(lines):
        found = FUNCTION.match(lines[at])
        at += 1
        if not found:
            continue
        indent, name = found.groups()
        clauses, opened = 0, lines[at - 1].endswith("{")
        while not opened and at < len(lines) and not lines[at].endswith(";"):
            clauses += bool(CLAUSE.match(lines[at]))
            if lines[at] == f"{indent}{{}}":
                break
            opened = lines[at] == f"{indent}{{" or lines[at].endswith(" {") and not CLAUSE.match(lines[at])
            at += 1
        begin = at
        while opened and at < len(lines) and lines[at] != f"{indent}}}":
            at += 1
        yield name, clauses, at - begin if opened else 0


def sizes():
    """What is measured of each file: (file and function, kind, number)."""
    for path in sorted(glob.glob(f"{TOP}/crates/*/src/**/*.rt", recursive=True)):
        name, lines = os.path.relpath(path, TOP), read(path)
        yield name, "lines of source", len(lines)
        for function, clauses, body in functions(lines):
            yield f"{name}:{function}", "clauses", clauses
            yield f"{name}:{function}", "lines of body", body
    for path in sorted(glob.glob(f"{TOP}/crates/*/specs/**/*.antt", recursive=True)):
        yield os.path.relpath(path, TOP), "lines of spec", len(read(path))
    for path in sorted(glob.glob(f"{TOP}/crates/*/proofs/**/*.antt", recursive=True)):
        name, lines = os.path.relpath(path, TOP), read(path)
        yield name, "lines of lemmas" if name.count("/") == 3 else "lines of answers", len(lines)
        yield name, "lines over 200 characters", sum(len(it) > 200 for it in lines)


def too_large():
    """What is over its size, by file, function and kind; of functions of one name in a file the largest."""
    found = {}
    for place, kind, number in sizes():
        if number > MOST[kind]:
            found[place, kind] = max(number, found.get((place, kind), 0))
    return found


def listed():
    """What stands in the list."""
    found = {}
    for line in read(LIST) if os.path.isfile(LIST) else []:
        if line and not line.startswith("#"):
            place, kind, number = line.split("\t")
            found[place, kind] = int(number)
    return found


def write(kept):
    lines = ["# What is over the sizes of CONTRIBUTING.md. tools/check_sizes.py --shrink shortens this list; nothing is added to it."]
    lines += [f"{place}\t{kind}\t{number}" for (place, kind), number in sorted(kept.items())]
    with open(LIST, "w", encoding="utf-8") as file:
        file.write("\n".join(lines) + "\n")


def main():
    found, stands = too_large(), listed()
    if "--shrink" in sys.argv[1:]:
        stands = {key: min(number, found[key]) for key, number in stands.items() if key in found}
        write(stands)
    wrong = 0
    for (place, kind), number in sorted(found.items()):
        if number > stands.get((place, kind), 0):
            wrong += 1
            print(f"{place}: {kind}: {number}, at most {stands.get((place, kind), MOST[kind])}")
    for key in sorted(set(stands) - set(found)):
        wrong += 1
        print(f"{key[0]}: {key[1]}: no longer too large; take it from the list by tools/check_sizes.py --shrink")
    print(f"sizes: {len(found)} over their size, {wrong} of them not in tools/sizes.txt or no longer so")
    return 1 if wrong else 0


if __name__ == "__main__":
    sys.exit(main())
