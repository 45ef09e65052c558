#!/usr/bin/env python3
"""Looks for answers "memory ran out" that stand for no refused memory.

Want of memory is the one answer that no contract pins: a body that gives up with it is proved. So `NoMemory` and `AllocError`
may be made only where an error of another call is converted: in an arm of a match on an error, behind `let Ok(..) = .. else`
or `if ...is_err()`, or in an `impl From` of an allocator's error. What only names them (a type, a variant, a clause, a
pattern) is passed over, and so are tests.
"""
import glob
import os
import re
import sys

TOP = os.path.dirname(os.path.dirname(os.path.abspath(__file__)))
MADE = re.compile(r"\b(\w+::NoMemory|AllocError)\b(?!\s*[,)]*\s*=>)")
NAMED = re.compile(r"^\s*(//|use |pub use |ghost |requires |ensures |impl\b|fn |pub fn |pub\(crate\) fn |\) ->)|->|: AllocError\b")
ARM = re.compile(r"\b(Err\(|\w+::NoMemory\b).*=>")
CONVERTS = re.compile(r"let Ok\(.*\belse \{$|\bis_err\(\) \{$")
OPENS = re.compile(r"\bErr\(.*=> \{$")
FROM = re.compile(r"^impl\b.*\bFrom<Alloc\w*(<\w+>)?> for\b")


def unconverted(lines):
    """The numbers of the lines that make want of memory of nothing."""
    inside, before, arms = False, "", []
    for number, line in enumerate(lines, 1):
        if line and not line[0].isspace() and line != "}":
            inside = bool(FROM.match(line))
        indent = len(line) - len(line.lstrip())
        arms = [it for it in arms if not line.strip() or it < indent]
        made = MADE.search(line.partition("//")[0])
        converts = inside or arms or ARM.search(line) or CONVERTS.search(before)
        if made and not NAMED.search(line) and not converts:
            yield number
        if OPENS.search(line):
            arms.append(indent)
        if line.strip() and not line.strip().startswith("//"):
            before = line.strip()


def main():
    wrong = 0
    for path in sorted(glob.glob(f"{TOP}/crates/*/src/**/*.rt", recursive=True)):
        if "/lnet_test_" in path:
            continue
        with open(path, encoding="utf-8") as file:
            lines = file.read().splitlines()
        for number in unconverted(lines):
            wrong += 1
            print(f"{os.path.relpath(path, TOP)}:{number}: want of memory that no call answered: {lines[number - 1].strip()}")
    print(f"memory: {wrong} answers of want of memory stand for no refused memory")
    return 1 if wrong else 0


if __name__ == "__main__":
    sys.exit(main())
