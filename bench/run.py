#!/usr/bin/env python3
"""Times the program on circuits of three sizes and on the examples, and writes the figures to bench/results/.

    bench/run.py [RUNS]     RUNS of each command, 7 where it is left out

The three sizes are made here, always the same: 64 inputs, 32 outputs, and 10,000, 100,000 or 1,000,000 And gates, each of
two signals before it, in ASCII AIGER; a first run of the program makes the same files in binary AIGER, BLIF and BENCH. What
is timed is the built program without its launcher: the processor time of the user and the system together, the median of the
runs, whose order goes round the commands so that a busy moment meets them all. The start of the program is the time of a
file without inputs and gates, and is taken off before the ratios of a size to the one before are made. A ratio is near 10
where the time goes up with the size alone, and near 100 where it goes up with its square. Where berkeley-abc is installed,
it reads, hashes and writes the same files. Where valgrind is installed, the instructions of one run of each of our commands
are counted, at the first two sizes: they don't depend on the memory beside the processor, nor on what else the machine does.
"""
import os
import re
import shutil
import statistics
import subprocess
import sys
import tempfile

TOP = os.path.dirname(os.path.dirname(os.path.abspath(__file__)))
PROGRAM = os.path.join(TOP, "crates", "lognet", "out", "lognet")
INPUTS, OUTPUTS = 64, 32
SIZES = [10_000, 100_000, 1_000_000]
ABC = shutil.which("berkeley-abc")
VALGRIND = shutil.which("valgrind")
# What is timed: a name, the word behind `read`, the word behind `write` and the file's ending, and ABC's words.
FORMATS = [
    ("ASCII AIGER", "aiger", "aag", None, None),
    ("binary AIGER", "aiger", "aig", "read_aiger", "write_aiger"),
    ("BLIF", "blif", "blif", "read_blif", "write_blif"),
    ("BENCH", "bench", "bench", "read_bench", "write_bench"),
]
EXAMPLES = ["one", "adder", "c17", "add64"]


def numbers(state):
    """Numbers below 2 ^ 31, always the same ones from one start: a linear congruence modulo 2 ^ 64 (Knuth's MMIX)."""
    while True:
        state = (6364136223846793005 * state + 1442695040888963407) % 2**64
        yield state >> 33


def circuit(gates, inputs=INPUTS):
    """An ASCII AIGER file in ascending order with so many And gates."""
    draw = numbers(gates)
    top = inputs + gates
    lines = [f"aag {top} {inputs} 0 {OUTPUTS} {gates}"]
    lines += [str(2 * wire) for wire in range(1, inputs + 1)]
    lines += [str(2 * top - next(draw) % (2 * OUTPUTS)) for _ in range(OUTPUTS)]
    for wire in range(inputs + 1, top + 1):
        near = 2 * wire - 1 - next(draw) % (2 * inputs)
        far = 2 + next(draw) % (2 * wire - 2)
        lines.append(f"{2 * wire} {near} {far}")
    return "\n".join(lines) + "\n"


def seconds(command, folder, statuses=(0,)):
    """The processor time of one run of the command, which must end with one of the statuses."""
    child = subprocess.Popen(command, cwd=folder, stdin=subprocess.DEVNULL, stdout=subprocess.DEVNULL)
    _, status, usage = os.wait4(child.pid, 0)
    child.returncode = os.waitstatus_to_exitcode(status)
    if child.returncode not in statuses:
        sys.exit(f"status {child.returncode}: {command}")
    return usage.ru_utime + usage.ru_stime


def instructions(command, folder, statuses=(0,)):
    """How many instructions one run of the command takes, which must end with one of the statuses."""
    counted = [VALGRIND, "--tool=callgrind", "--callgrind-out-file=/dev/null", *command]
    run = subprocess.run(counted, cwd=folder, stdin=subprocess.DEVNULL, stdout=subprocess.DEVNULL, stderr=subprocess.PIPE, text=True)
    found = re.search(r"Collected : (\d+)", run.stderr)
    if run.returncode not in statuses or not found:
        sys.exit(f"status {run.returncode}: {counted}")
    return int(found.group(1))


def medians(commands, folder, runs, statuses=(0,)):
    """The median time of each command, in milliseconds."""
    times = {name: [] for name in commands}
    for _ in range(runs):
        for name, command in commands.items():
            times[name].append(seconds(command, folder, statuses))
    return {name: 1000 * statistics.median(taken) for name, taken in times.items()}


def written(name, lines):
    """Prints the lines, and keeps them as a file of bench/results/."""
    text = "\n".join(lines) + "\n"
    print(text)
    with open(os.path.join(TOP, "bench", "results", name), "w", encoding="utf-8") as file:
        file.write(text)


def commands_of(gates):
    """The commands that are timed for a size."""
    commands = {("read ASCII AIGER", gates): [PROGRAM, f"read aiger {gates}.aag aig"]}
    for name, reader, writer, abc_reads, abc_writes in FORMATS:
        file, out = f"{gates}.{writer}", f"{gates}.out.{writer}"
        commands[(name, gates)] = [PROGRAM, f"read {reader} {file} aig; write {writer} {out}"]
        if ABC and abc_reads:
            script = f"{abc_reads} {file}; strash; {abc_writes} {out}"
            commands[(f"{name}, ABC", gates)] = [ABC, "-q", script]
    return commands


def sizes(folder, runs):
    """Each size, read alone, and read and written in each format."""
    with open(os.path.join(folder, "start.aag"), "w", encoding="ascii") as file:
        file.write("aag 0 0 0 0 0\n")
    commands = {"start": [PROGRAM, "read aiger start.aag aig"]}
    for gates in SIZES:
        with open(os.path.join(folder, f"{gates}.aag"), "w", encoding="ascii") as file:
            file.write(circuit(gates))
        writes = "; ".join(f"write {writer} {gates}.{writer}" for _, _, writer, _, _ in FORMATS[1:])
        seconds([PROGRAM, f"read aiger {gates}.aag aig; {writes}"], folder)
        commands |= commands_of(gates)
    taken = medians(commands, folder, runs)
    start = taken["start"]
    heads = [f"{gates:,} gates" for gates in SIZES]
    lines = [
        f"median of {runs} runs, processor time in milliseconds; the start alone {start:.2f}",
        " | ".join(["what", *heads, "ratios without the start"]),
    ]
    for what in [key[0] for key in commands if key[1:] == (SIZES[0],)]:
        own = 0 if what.endswith("ABC") else start
        times = [taken[(what, gates)] for gates in SIZES]
        ratios = [f"{(large - own) / (small - own):.1f}" for small, large in zip(times, times[1:])]
        lines.append(" | ".join([what, *(f"{time:.2f}" for time in times), ", ".join(ratios)]))
    written("sizes.txt", lines)
    if VALGRIND:
        counts(folder, commands)


def counts(folder, commands):
    """The instructions of our commands at the first two sizes."""
    small, large, _ = SIZES
    lines = [
        "instructions of one run, counted by valgrind",
        f"what | {small:,} gates | {large:,} gates | ratio",
    ]
    for what in [key[0] for key in commands if key[1:] == (small,) and not key[0].endswith("ABC")]:
        a, b = (instructions(commands[(what, gates)], folder) for gates in (small, large))
        lines.append(f"{what} | {a:,} | {b:,} | {b / a:.1f}")
    written("instructions.txt", lines)


def examples(runs):
    """The circuits of examples/, read and written, as ratios to the smallest."""
    scripts = {name: [PROGRAM, f"read aiger examples/{name}.aag aig; write aag {name}.out"] for name in EXAMPLES}
    with tempfile.TemporaryDirectory() as folder:
        shutil.copytree(os.path.join(TOP, "examples"), os.path.join(folder, "examples"))
        taken = medians(scripts, folder, runs)
    base = taken[EXAMPLES[0]]
    lines = [f"median of {runs} runs, read and written, processor time in milliseconds", "file | time | ratio to one.aag"]
    lines += [f"{name}.aag | {time:.2f} | {time / base:.2f}" for name, time in taken.items()]
    written("examples.txt", lines)


def main():
    runs = int(sys.argv[1]) if len(sys.argv) > 1 else 7
    built = subprocess.run(["./lognet", "read aiger examples/one.aag aig"], cwd=TOP, stdout=subprocess.DEVNULL)
    if built.returncode:
        sys.exit("the program isn't built")
    os.makedirs(os.path.join(TOP, "bench", "results"), exist_ok=True)
    with tempfile.TemporaryDirectory() as folder:
        sizes(folder, runs)
    examples(runs)
    return 0


if __name__ == "__main__":
    sys.exit(main())
