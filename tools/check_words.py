#!/usr/bin/env python3
"""Looks for lines that cite what a reader of this repository doesn't have: a numbered paper or demand, or the place
where it was written. Each rule stands where it is used or in docs/, under a plain name.
"""
import os
import re
import subprocess
import sys

TOP = os.path.dirname(os.path.dirname(os.path.abspath(__file__)))

# Words that cite in any text.
ANYWHERE = re.compile(
    r"\b(document 0[1-4]|0[1-4]-(scope|theorems|requests|formats)|T[1-5]\.[1-9]|rung T[1-5])\b"
    r"|/[w]ork/|\b[p]apers/|\b(START-HERE|READING|DESIGN|STYLE)[.]md\b"
)
# Numbers of demands, in documents and in comments.
NUMBERED = re.compile(r"\b(D[1-9][0-9]?|W[1-9][0-9]?|R1?[0-9]|R20|U1?[0-9])\b")
COMMENT = re.compile(r"(^|[^A-Za-z0-9_])(--|//)(.*)")


def remark(name, line):
    """The part of a line where a number would cite: all of it in a document, the comment in a source."""
    if name.endswith((".rt", ".antt")):
        comment = COMMENT.search(line)
        return comment.group(3) if comment else ""
    return line if name.endswith((".md", ".edit")) else ""


def files():
    """The files that git keeps or would keep."""
    listed = subprocess.run(
        ["git", "ls-files", "-z", "--cached", "--others", "--exclude-standard"], cwd=TOP, capture_output=True, check=True
    )
    return sorted(set(listed.stdout.decode().split("\0")) - {""})


def main():
    wrong = 0
    for name in files():
        try:
            with open(os.path.join(TOP, name), encoding="utf-8") as file:
                lines = file.read().splitlines()
        except (OSError, UnicodeDecodeError):
            continue
        for number, line in enumerate(lines, 1):
            if ANYWHERE.search(line) or NUMBERED.search(remark(name, line)):
                wrong += 1
                print(f"{name}:{number}: cites what the reader doesn't have: {line.strip()[:120]}")
    print(f"words: {wrong} lines cite a number or a place outside the repository")
    return 1 if wrong else 0


if __name__ == "__main__":
    sys.exit(main())
