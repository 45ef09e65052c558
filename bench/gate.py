#!/usr/bin/env python3
"""Runs the gate from nothing in a clone of the last commit, and writes what it took to bench/results/gate.txt.

Processor time is read from /proc, from each process that the gate starts, and added up by part (the crates' own proofs, the
proofs of tests, the must-fail edits with the proof that they begin with) and by crate. A process's last half second may be
missed, so the parts add up to a little less than the whole, which the system counts.
"""
import os
import re
import resource
import subprocess
import sys
import tempfile
import time

TOP = os.path.dirname(os.path.dirname(os.path.abspath(__file__)))
RESULTS = f"{TOP}/bench/results/gate.txt"
TICKS = os.sysconf("SC_CLK_TCK")
STEP = 0.5
PARTS = ("proofs", "tests", "edits")


def told(*words, **more):
    """What a command prints."""
    return subprocess.run(words, stdout=subprocess.PIPE, text=True, check=True, **more).stdout.strip()


def processes(session):
    """The running provers of this session of processes: their numbers and start times, their words, and their processor seconds."""
    for name in os.listdir("/proc"):
        if not name.isdigit():
            continue
        try:
            with open(f"/proc/{name}/cmdline", "rb") as file:
                words = file.read().decode(errors="replace").split("\0")
            if not words[0].endswith("/rattle"):
                continue
            with open(f"/proc/{name}/stat", encoding="utf-8", errors="replace") as file:
                stat = file.read().rpartition(")")[2].split()
        except OSError:
            continue
        if int(stat[3]) != session:
            continue
        yield (name, stat[19]), words, sum(int(it) for it in stat[11:13]) / TICKS


def place_of(words):
    """The crate and the part of a prover with these words."""
    crate = words[words.index("--crate-name") + 1] if "--crate-name" in words else "?"
    to = words[words.index("-o") + 1] if "-o" in words else ""
    if to.endswith("_tests.o"):
        return crate, "tests"
    return crate, "proofs" if "/out/" in to or "rt-proved" in to or to.startswith("out/") else "edits"


def measured(run):
    """The seconds of each prover until the run ends, by crate and part."""
    seen = {}
    while run.poll() is None:
        for key, words, seconds in processes(run.pid):
            seen[key] = (place_of(words), seconds)
        time.sleep(STEP)
    found = {}
    for place, seconds in seen.values():
        found[place] = found.get(place, 0) + seconds
    return found


def table(found):
    """Minutes by part, and of the ten dearest crates, as lines."""
    crates = sorted({crate for crate, _ in found}, key=lambda it: -sum(found.get((it, part), 0) for part in PARTS))
    rows = [("crate", *PARTS, "sum")]
    for crate in crates[:10]:
        each = [found.get((crate, part), 0) / 60 for part in PARTS]
        rows.append((crate, *[f"{it:.1f}" for it in each], f"{sum(each):.1f}"))
    each = [sum(it for (_, part), it in found.items() if part == wanted) / 60 for wanted in PARTS]
    rows.append((f"all {len(crates)}", *[f"{it:.1f}" for it in each], f"{sum(each):.1f}"))
    return [f"{row[0]:<20}" + "".join(f"{it:>9}" for it in row[1:]) for row in rows]


def main():
    with tempfile.TemporaryDirectory(prefix="lognet-gate-") as room:
        told("git", "clone", "-q", TOP, f"{room}/clone")
        begin = time.time()
        with open(f"{room}/log", "w", encoding="utf-8") as log:
            run = subprocess.Popen(["rt", "ci", "--anew"], cwd=f"{room}/clone", stdout=log, stderr=log, stdin=subprocess.DEVNULL, start_new_session=True)
            found = measured(run)
        with open(f"{room}/log", encoding="utf-8", errors="replace") as log:
            lines = log.read().splitlines()
    used = resource.getrusage(resource.RUSAGE_CHILDREN)
    head = [
        "The gate from nothing, processor minutes by part",
        f"commit {told('git', 'rev-parse', '--short', 'HEAD', cwd=TOP)}, {told('rt', 'version').splitlines()[0]}, {os.cpu_count()} processors",
        f"wall clock {(time.time() - begin) / 60:.1f} minutes, processors {(used.ru_utime + used.ru_stime) / 60:.1f} minutes",
        f"last lines: {next((it for it in reversed(lines) if it.startswith('rt: ok')), 'not passed')}",
        f"            {lines[-1] if lines else ''}",
    ]
    text = "\n".join([*head, "", *table(found), ""])
    print(text, end="")
    if run.returncode:
        print("\n".join(it for it in lines if re.search(r"NOT |FAILED|error|passed, ", it)), file=sys.stderr)
        return run.returncode
    with open(RESULTS, "w", encoding="utf-8") as file:
        file.write(text)
    return 0


if __name__ == "__main__":
    sys.exit(main())
