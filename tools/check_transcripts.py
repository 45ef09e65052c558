#!/usr/bin/env python3
"""Reruns each transcript of the documents against the program, and compares what it prints.

    tools/check_transcripts.py [PROGRAM]     the built program; the launcher `lognet`, which builds it, where left out

A transcript is a fenced block ```console. A line `$ COMMAND` is given to bash, and the lines up to the next `$ ` are
what it must print on its standard output. A status other than 0 is shown by a last line `$ echo $?` with the number
below it; without such a line the status must be 0. The blocks of one document run one after another in a new folder
that holds a copy of examples/ and a link `lognet` to the program, as a reader at the top of a clone has them.
"""
import difflib
import os
import shutil
import subprocess
import sys
import tempfile

TOP = os.path.dirname(os.path.dirname(os.path.abspath(__file__)))
DOCUMENTS = ["README.md", "docs/MANUAL.md", "docs/FORMATS.md"]


def blocks(text):
    """The console blocks of a document, each as the number of its first line and its lines."""
    start, lines = 0, None
    for number, line in enumerate(text.splitlines(), 1):
        if lines is None:
            if line.rstrip() == "```console":
                start, lines = number + 1, []
        elif line.rstrip() == "```":
            yield start, lines
            lines = None
        else:
            lines.append(line)


def commands(lines):
    """The commands of a block, each as its text and the lines that it must print."""
    found = []
    for line in lines:
        if line.startswith("$ "):
            found.append((line[2:], []))
        elif found:
            found[-1][1].append(line)
    return found


def run_block(folder, lines):
    """What the block's commands print in this folder, laid out as in the document."""
    shown, status, told = [], 0, True
    for command, _ in commands(lines):
        asks = command == "echo $?"
        if not told and not asks:
            shown.append(f"(status {status})")
        done = subprocess.run(
            ["bash", "-c", f"(exit {status}); {command}"], cwd=folder, capture_output=True, text=True
        )
        shown.append(f"$ {command}")
        shown += done.stdout.splitlines()
        shown += [f"(on the standard error) {line}" for line in done.stderr.splitlines()]
        status = done.returncode
        told = status == 0 or asks
    if not told:
        shown.append(f"(status {status})")
    return shown


def check(document, program):
    """How many blocks of a document were compared, and how many differ."""
    with open(os.path.join(TOP, document), encoding="utf-8") as file:
        found = list(blocks(file.read()))
    wrong = 0
    with tempfile.TemporaryDirectory() as folder:
        shutil.copytree(os.path.join(TOP, "examples"), os.path.join(folder, "examples"))
        os.symlink(program, os.path.join(folder, "lognet"))
        for start, lines in found:
            shown = run_block(folder, lines)
            if shown != lines:
                wrong += 1
                print(f"{document}:{start}: the transcript differs")
                print("\n".join(difflib.unified_diff(lines, shown, "document", "program", lineterm="")))
    return len(found), wrong


def main():
    program = os.path.abspath(sys.argv[1]) if len(sys.argv) > 1 else os.path.join(TOP, "lognet")
    results = [check(document, program) for document in DOCUMENTS]
    total, wrong = (sum(column) for column in zip(*results))
    print(f"transcripts: {total} compared, {wrong} differ")
    return 1 if wrong or total == 0 else 0


if __name__ == "__main__":
    sys.exit(main())
