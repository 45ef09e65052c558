#!/usr/bin/env python3
"""Times the calls of tables, recipes and gates, and prints each beside the cofactor of one plain word.

    bench/tables.py [RUNS [CALLS]]     RUNS of the program, 5 where it is left out, each with CALLS of each call

What runs is the built program crates/lnet_timing/out/lnet_timing, which `rt run` in its folder and the gate build. A figure
is the median of the runs in nanoseconds of a call; the ratio is to the cofactor of one word in plain arithmetic.
"""
import os
import statistics
import subprocess
import sys

TOP = os.path.dirname(os.path.dirname(os.path.abspath(__file__)))
PROGRAM = os.path.join(TOP, "crates", "lnet_timing", "out", "lnet_timing")


def lines(calls):
    """The program's lines: the headings as they are, the calls with their nanoseconds."""
    text = subprocess.run([PROGRAM, str(calls)], check=True, capture_output=True, text=True).stdout
    for line in text.splitlines():
        name, colon, time = line.partition(":")
        yield name, float(time.split()[0]) if colon else None


def main():
    runs = int(sys.argv[1]) if len(sys.argv) > 1 else 5
    calls = int(sys.argv[2]) if len(sys.argv) > 2 else 1_000_000
    tables = [list(lines(calls)) for _ in range(runs)]
    plain = None
    for row in zip(*tables):
        name = row[0][0]
        if row[0][1] is None:
            print(name)
            continue
        time = statistics.median(time for _, time in row)
        plain = plain or max(time, 0.1)
        print(f"{name}: {time:.1f} ns, {time / plain:.1f} times the plain word, {1e3 / max(time, 0.1):.1f} million a second")


main()
