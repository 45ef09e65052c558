#!/usr/bin/env python3
"""Times substitutions that merge many gates, and many that merge few, and writes the figures to bench/results/substituting.txt.

    bench/substituting.py [RUNS]     RUNS of each command, 5 where it is left out

A chain of N gates stands twice in a file, over two first gates: one `merge` of these merges the two chains gate by gate, all in one
substitution, with and without a live depth view. Beside it the file is read alone, and read and written. Then in a generated
network of 100,000 And gates over 6 inputs, of which some sixty thousand are left under hashing, a thousand random gates are merged, each
with a signal of its function, and the same with the signals complemented: these are compared, which looks at all that the two stand
on, and not made. The answer of one that is made counts the gates. Times are the processor time of the program, the median of the
runs. Where valgrind is installed, the instructions that the merges of the chains take are counted.
"""
import os
import random
import re
import subprocess
import sys
import tempfile

import run

CHAINS = [500, 5_000, 50_000]
MERGES, FEW_GATES, FEW_INPUTS = 1_000, 100_000, 6


def chain(gates):
    """Two chains of so many gates over two first gates that differ, in ASCII AIGER in ascending order."""
    top = 6 + 2 * gates
    lines = [f"aag {top} 4 0 2 {top - 4}", "2", "4", "6", "8", str(2 * (5 + gates)), str(2 * top)]
    for first, begin in ((5, "4 2"), (6 + gates, "10 2")):
        lines.append(f"{2 * first} {begin}")
        for i in range(1, gates + 1):
            other = 6 if i % 2 else 8
            a, b = 2 * (first + i - 1) + 1, other
            lines.append(f"{2 * (first + i)} {max(a, b)} {min(a, b)}")
    return "\n".join(lines) + "\n"


def answers(command, folder):
    """What the program prints; a command that is not met is no failure."""
    done = subprocess.run(command, cwd=folder, stdin=subprocess.DEVNULL, stdout=subprocess.PIPE, text=True, check=False)
    if done.returncode not in (0, 1):
        sys.exit(f"status {done.returncode}")
    return done.stdout


def counts(commands, folder):
    """The instructions of the merges alone."""
    counted = {key: run.instructions(command, folder) for key, command in commands.items() if key != "start" and "print" not in key[0] and "written" not in key[0]}
    own = [counted["read and merged", it] - counted["read", it] for it in CHAINS]
    viewed = [counted["read and merged, with a depth view", it] - counted["read, with a depth view", it] for it in CHAINS]
    return [
        "instructions of the merge alone, a gate: " + ", ".join(f"{it / gates:.0f}" for it, gates in zip(own, CHAINS)),
        "with a depth view: " + ", ".join(f"{it / gates:.0f}" for it, gates in zip(viewed, CHAINS)),
    ]


def chains(folder, runs):
    """Each chain read, read and written, merged, and merged with a live depth view."""
    with open(os.path.join(folder, "start.aag"), "w", encoding="ascii") as file:
        file.write("aag 0 0 0 0 0\n")
    commands = {"start": [run.PROGRAM, "read aiger start.aag aig"]}
    for gates in CHAINS:
        with open(os.path.join(folder, f"{gates}.aag"), "w", encoding="ascii") as file:
            file.write(chain(gates))
        read = f"read aiger {gates}.aag aig"
        merge = f"merge {gates + 6} 5"
        commands["read", gates] = [run.PROGRAM, read]
        commands["read and written", gates] = [run.PROGRAM, f"{read}; write aag out.aag"]
        commands["read, merged and printed", gates] = [run.PROGRAM, f"{read}; {merge}; print"]
        commands["read and merged", gates] = [run.PROGRAM, f"{read}; {merge}"]
        commands["read, with a depth view", gates] = [run.PROGRAM, f"{read}; view depth"]
        commands["read and merged, with a depth view", gates] = [run.PROGRAM, f"{read}; view depth; {merge}"]
        told = answers(commands["read and merged", gates], folder)
        if f"merged {gates + 6} gates {gates + 1}" not in told:
            sys.exit(f"chain of {gates}: {told}")
    taken = run.medians(commands, folder, runs)
    start = taken.pop("start")
    lines = [f"chains, milliseconds without the start ({start:.2f})", " | ".join(["what", *(f"{it:,} gates merged" for it in CHAINS)])]
    for what in dict.fromkeys(key[0] for key in taken):
        lines.append(" | ".join([what, *(f"{taken[what, gates] - start:.2f}" for gates in CHAINS)]))
    both = (taken["read, merged and printed", CHAINS[-1]] - start) / (taken["read and written", CHAINS[-1]] - start)
    if run.VALGRIND:
        lines += counts(commands, folder)
    lines.append(f"read, merged and printed over read and written, at {CHAINS[-1]:,}: {both:.2f}")
    return lines


def network_of(lines):
    """By node the fanins of each gate that a print shows, in its order; a fanin is a node's number and whether it is complemented."""
    gates = {}
    for line in lines:
        words = line.split()
        if words[0] == "node" and words[2:3] == ["and"]:
            gates[int(words[1])] = [(int(it.lstrip("!")), it.startswith("!")) for it in words[3:]]
    return gates


def values_of(gates):
    """By node the rows of its function of the inputs 1 to 6, as a number of 64 bits."""
    ones = 2**64 - 1
    values = {0: 0} | {n: sum(1 << row for row in range(64) if row >> (n - 1) & 1) for n in range(1, FEW_INPUTS + 1)}
    for n, ((a, a_turned), (b, b_turned)) in gates.items():
        values[n] = (values[a] ^ ones * a_turned) & (values[b] ^ ones * b_turned)
    return values


def pairs(gates):
    """Random gates, each with a node before it that has its function: node, node, whether complemented."""
    values, like = values_of(gates), {}
    for n, value in values.items():
        like.setdefault(min(value, value ^ (2**64 - 1)), []).append(n)
    draw, out = random.Random(1), []
    for n in draw.sample(sorted(gates), len(gates)):
        before = [m for m in like[min(values[n], values[n] ^ (2**64 - 1))][:64] if m < n]
        if before:
            m = draw.choice(before)
            out.append((n, m, values[n] != values[m]))
    return out[:MERGES]


def few(folder, runs):
    """Random merges, and the same with the signals complemented, which are compared and not met."""
    with open(os.path.join(folder, "net.aag"), "w", encoding="ascii") as file:
        file.write(run.circuit(FEW_GATES, FEW_INPUTS))
    read = "read aiger net.aag aig"
    gates = network_of(answers([run.PROGRAM, f"{read}; print"], folder).splitlines()[1:])
    chosen = pairs(gates)
    merges = "; ".join(f"merge {n} {'!' * turned}{m}" for n, m, turned in chosen)
    others = "; ".join(f"merge {n} {'!' * (not turned)}{m}" for n, m, turned in chosen)
    commands = {}
    for what, before in (("", read), (", with a depth view", f"{read}; view depth")):
        commands[f"read{what}"] = [run.PROGRAM, before]
        commands[f"compared{what}"] = [run.PROGRAM, f"{before}; {others}"]
        commands[f"merged{what}"] = [run.PROGRAM, f"{before}; {merges}"]
    told = re.findall(r"merged \d+ gates (\d+)", answers(commands["merged"], folder))
    taken = run.medians(commands, folder, runs, (0, 1))
    lines = [f"{len(told)} of {len(chosen):,} random merges met on {len(gates):,} gates, after which {int(told[-1]):,} are left; milliseconds"]
    return lines + [f"{what} | {time:.2f}" for what, time in taken.items()]


def main():
    runs = int(sys.argv[1]) if len(sys.argv) > 1 else 5
    with tempfile.TemporaryDirectory() as folder:
        run.written("substituting.txt", [f"median of {runs} runs, processor time", *chains(folder, runs), *few(folder, runs)])


if __name__ == "__main__":
    main()
