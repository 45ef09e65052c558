#!/usr/bin/env python3
"""Tries the wrong bodies that the gate leaves out, and writes what came of each to bench/results/wrong-bodies.txt.

    tools/try_wrong_bodies.py [CRATE ..]     those of these crates; where none is named, all

They lie in wrong-bodies/CRATE/FAULT.edit, in the form of must-fail edits. A clone of the last commit gets them in the place of
the crate's own edits, and `rt ci CRATE ..` tries them there: the check of the crate must fail with each. It proves the crates
and those below them first, where no gate on this machine has done so. Results of crates that are not tried stay in the file as
they are.
"""
import datetime
import glob
import os
import re
import shutil
import subprocess
import sys
import tempfile

TOP = os.path.dirname(os.path.dirname(os.path.abspath(__file__)))
RESULTS = f"{TOP}/bench/results/wrong-bodies.txt"
HEAD = "# Wrong bodies outside the gate: the edit, what came of it, the day and the commit. Made by tools/try_wrong_bodies.py"
TOLD = re.compile(r"^rt: must-fail (\w+/[\w.-]+\.edit): (.*)$")
REFUSED = "refused, as it must be"


def told(*words, **more):
    """What a command prints."""
    return subprocess.run(words, stdout=subprocess.PIPE, text=True, check=True, **more).stdout.strip()


def earlier():
    """The lines of the results, by edit."""
    if not os.path.isfile(RESULTS):
        return {}
    with open(RESULTS, encoding="utf-8") as file:
        lines = [line.rstrip("\n") for line in file if line.strip() and not line.startswith("#")]
    return {line.split("  ")[0].strip(): line for line in lines}


def put(clone, crate):
    """Puts a crate's wrong bodies in the place of its must-fail edits."""
    to = f"{clone}/crates/{crate}/must-fail"
    shutil.rmtree(to, ignore_errors=True)
    shutil.copytree(f"{clone}/wrong-bodies/{crate}", to)


def tried(clone, crates):
    """What came of each edit, as rt says it."""
    run = subprocess.run(["rt", "ci", *crates], cwd=clone, stdout=subprocess.PIPE, stderr=subprocess.STDOUT, text=True)
    found = {}
    for line in run.stdout.splitlines():
        said = TOLD.match(line)
        if said:
            found[said.group(1)] = said.group(2)
    if not found:
        print(run.stdout, file=sys.stderr)
    return found


def line_of(edit, said, day, commit):
    """A line of the results: refused, or what was said."""
    came = "refused" if said.startswith(REFUSED) else said
    if said.startswith(f"{REFUSED} (only"):
        came = said[len(REFUSED) + 2:].partition(")")[0].partition(",")[0].partition(", so")[0]
        came = f"refused ({came.rstrip(')')})"
    return f"{edit:<68}  {came}  {day}  {commit}"


def main():
    with tempfile.TemporaryDirectory(prefix="lognet-wrong-") as room:
        clone = f"{room}/clone"
        told("git", "clone", "-q", TOP, clone)
        commit = told("git", "rev-parse", "--short", "HEAD", cwd=clone)
        crates = sys.argv[1:] or sorted(os.path.basename(it) for it in glob.glob(f"{clone}/wrong-bodies/*"))
        for crate in crates:
            put(clone, crate)
        found = tried(clone, crates)
        wanted = {f"{crate}/{os.path.basename(it)}" for crate in crates for it in glob.glob(f"{clone}/wrong-bodies/{crate}/*.edit")}
    day = datetime.date.today().isoformat()
    kept = {edit: line for edit, line in earlier().items() if edit.split("/")[0] not in crates}
    kept.update({edit: line_of(edit, found.get(edit, "NOT TRIED"), day, commit) for edit in wanted})
    with open(RESULTS, "w", encoding="utf-8") as file:
        file.write("\n".join([HEAD, *[kept[it] for it in sorted(kept)]]) + "\n")
    missed = sorted(it for it in wanted if not found.get(it, "").startswith(REFUSED))
    print("\n".join([*[f"{it}: {found.get(it, 'NOT TRIED')}" for it in missed], f"wrong bodies: {len(wanted)} tried, {len(wanted) - len(missed)} refused"]))
    return 1 if missed else 0


if __name__ == "__main__":
    sys.exit(main())
