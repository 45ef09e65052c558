#!/usr/bin/env python3
"""Random merges on generated networks, each checked against a network that is built anew.

    bench/merges.py [PROGRAM] [NETWORKS] [FIRST]

Generates NETWORKS networks from the numbers FIRST on, of each kind in turn, and lets random pairs of a gate and a signal be
merged in a run of PROGRAM (`crates/lognet/out/lognet`). Most of the pairs have one function, the others are any. After each merge
the program prints the network, simulates it and asks the depth view for each level. Everything that it says is compared with what
this script computes from the network printed before: the answer and its cause, the functions of the outputs, the count of gates
of the network with the gate replaced and built anew under structural hashing, normal forms, levels, and that no gate is without a
reference. It stops at the first difference.
"""
import random
import subprocess
import sys

KINDS = ["aig", "xag", "mig", "klut"]


def table_of(op, arity):
    """The rows of an operation as a number; operand i is bit i of a row."""
    rows = {"and": lambda r: all(r), "xor": lambda r: sum(r) % 2 == 1, "maj": lambda r: sum(r) >= 2}[op]
    return sum(1 << row for row in range(2**arity) if rows([row >> i & 1 for i in range(arity)]))


def normal_lut(table, fanins):
    """A signal's code, or the key (table, nodes) and its phase; fanins are codes, twice the node and one where complemented."""
    nodes = sorted({code >> 1 for code in fanins if code > 1})

    def value(row):
        at = {node: row >> i & 1 for i, node in enumerate(nodes)}
        bits = [(at[code >> 1] if code > 1 else 0) ^ (code & 1) for code in fanins]
        return table >> sum(bit << i for i, bit in enumerate(bits)) & 1

    rows = [value(row) for row in range(2 ** len(nodes))]
    for i in reversed(range(len(nodes))):
        low = [row for row in range(len(rows)) if not row >> i & 1]
        if all(rows[row] == rows[row | 1 << i] for row in low):
            rows = [rows[row] for row in low]
            del nodes[i]
    if not nodes:
        return rows[0]
    if len(nodes) == 1:
        return 2 * nodes[0] + rows[0]
    phase = rows[0]
    return (("lut", sum((bit ^ phase) << row for row, bit in enumerate(rows)), tuple(2 * n for n in nodes)), phase)


def normal(kind, op, table, fanins):
    """The normal form of a gate without phase."""
    if kind == "klut":
        return normal_lut(table if op == "lut" else table_of(op, len(fanins)), fanins)
    if op == "and":
        a, b = sorted(fanins)
        if a == b:
            return a
        if a ^ b == 1 or a == 0:
            return 0
        return b if a == 1 else (("and", 0, (a, b)), 0)
    if op == "xor":
        phase = (fanins[0] ^ fanins[1]) & 1
        a, b = sorted(code & ~1 for code in fanins)
        if a == b:
            return phase
        return b ^ phase if a == 0 else (("xor", 0, (a, b)), phase)
    for i in range(3):
        x, y, z = fanins[i], fanins[(i + 1) % 3], fanins[(i + 2) % 3]
        if x == y:
            return x
        if x ^ y == 1:
            return z
    phase = int(sum(code & 1 for code in fanins) >= 2)
    return (("maj", 0, tuple(sorted(code ^ phase for code in fanins))), phase)


class Network:
    """A network as it is printed: gates by number, each (phase, operation, table, fanins), and outputs as codes."""

    def __init__(self, kind, lines):
        self.kind, self.inputs, self.gates, self.outputs = kind, {}, {}, []
        for line in lines:
            words = line.split()
            if words[0] == "output":
                self.outputs.append(code_of(words[2]))
            elif words[2] == "input":
                self.inputs[int(words[1])] = int(words[3])
            elif words[2] != "false":
                phase, op = words[2].startswith("!"), words[2].lstrip("!")
                table, fanins = (int(words[3], 16), words[4:]) if op == "lut" else (0, words[3:])
                self.gates[int(words[1])] = (int(phase), op, table, [code_of(word) for word in fanins])

    def order(self):
        """The gates after their fanins."""
        done, order = set(), []
        for root in self.gates:
            stack = [root]
            while stack:
                n = stack[-1]
                waits = [c >> 1 for c in self.gates[n][3] if c >> 1 in self.gates and c >> 1 not in done]
                if n in done or not waits:
                    if n not in done:
                        done.add(n)
                        order.append(n)
                    stack.pop()
                else:
                    assert len(stack) <= len(self.gates), "a cycle"
                    stack.append(waits[0])
        return order

    def values(self):
        """For each node its value under each assignment, a bit each."""
        count = 2 ** len(self.inputs)
        ones = (1 << count) - 1
        values = {0: 0}
        for n, k in self.inputs.items():
            values[n] = sum(1 << a for a in range(count) if a >> k & 1)
        for n in self.order():
            phase, op, table, fanins = self.gates[n]
            words = [values[c >> 1] ^ (ones if c & 1 else 0) for c in fanins]
            value = 0
            rows = table if op == "lut" else table_of(op, len(fanins))
            for row in range(2 ** len(words)):
                if rows >> row & 1:
                    term = ones
                    for i, word in enumerate(words):
                        term &= word if row >> i & 1 else ~word
                    value |= term & ones
            values[n] = value ^ (ones if phase else 0)
        return values

    def levels(self):
        levels = {n: 0 for n in [0, *self.inputs]}
        for n in self.order():
            levels[n] = 1 + max(levels[c >> 1] for c in self.gates[n][3])
        return levels

    def depends(self, top, n):
        seen, stack = set(), [top]
        while stack:
            m = stack.pop()
            if m == n:
                return True
            if m not in seen and m in self.gates:
                seen.add(m)
                stack += [c >> 1 for c in self.gates[m][3]]
        return False

    def rebuilt_count(self, n, code):
        """How many gates the outputs reach once `code` replaces `n` and all is built anew under hashing."""
        signals, keys, made = {m: 2 * m for m in [0, *self.inputs]}, {}, {}
        order = [m for m in self.order() if m != n]
        fresh = 1 + max([0, *self.inputs, *self.gates])
        # What stands above n is built after what the signal stands on.
        waiting, place = list(order), lambda c: (code ^ (c & 1)) if c >> 1 == n else c
        while waiting:
            later = []
            for m in waiting:
                phase, op, table, fanins = self.gates[m]
                codes = [place(c) for c in fanins]
                if any(c >> 1 not in signals for c in codes):
                    later.append(m)
                    continue
                form = normal(self.kind, op, table, [signals[c >> 1] ^ (c & 1) for c in codes])
                if isinstance(form, tuple):
                    key, turned = form
                    if key not in keys:
                        keys[key] = fresh + len(made)
                        made[keys[key]] = key
                    form = 2 * keys[key] + turned
                signals[m] = form ^ phase
            assert len(later) < len(waiting), "a cycle in the replaced network"
            waiting = later
        stack, reached = [(signals[place(c) >> 1] >> 1) for c in self.outputs], set()
        while stack:
            m = stack.pop()
            if m in made and m not in reached:
                reached.add(m)
                stack += [c >> 1 for c in made[m][2]]
        return len(reached)

    def check_shape(self):
        """Each gate in normal form, no two with one key, each gate with a reference."""
        keys = set()
        for n, (phase, op, table, fanins) in self.gates.items():
            form = normal(self.kind, op, table, fanins)
            key = (op, table, tuple(fanins))
            assert form == (key, 0), f"node {n} isn't in normal form"
            assert key not in keys, f"node {n} has a key that another has"
            keys.add(key)
        named = {c >> 1 for g in self.gates.values() for c in g[3]} | {c >> 1 for c in self.outputs}
        assert all(n in named for n in self.gates), "a gate without a reference"


def code_of(word):
    return 2 * int(word.lstrip("!")) + word.startswith("!")


def word_of(code):
    return ("!" if code & 1 else "") + str(code >> 1)


def run(program, script):
    done = subprocess.run([program, script], capture_output=True, text=True, check=False)
    assert done.returncode in (0, 1), f"status {done.returncode} of {script[:200]}"
    return done.stdout.splitlines()


def printed(lines):
    """The lines of a print, and those behind it."""
    end = 0
    while end < len(lines) and lines[end].split()[0] in ("node", "output"):
        end += 1
    return lines[:end], lines[end:]


def answer_of(net, n, code, values):
    """What the program has to answer to `merge n code`, without the index, and whether it is met."""
    if n not in net.gates or code >> 1 not in values:
        return "NoNode", False
    if net.depends(code >> 1, n):
        return "Cycle", False
    count = 2 ** len(net.inputs)
    differ = values[n] ^ values[code >> 1] ^ ((1 << count) - 1 if code & 1 else 0)
    if differ:
        least = (differ & -differ).bit_length() - 1
        return "Unequal " + "".join(str(least >> i & 1) for i in range(len(net.inputs))), False
    return f"merged {n} gates {net.rebuilt_count(n, code)}", True


def pairs(net, rng, count):
    """Pairs of a gate and a signal, most of them of one function."""
    values = net.values()
    ones = (1 << 2 ** len(net.inputs)) - 1
    like = {}
    for n, value in values.items():
        like.setdefault(min(value, value ^ ones), []).append(n)
    same = [(n, m) for group in like.values() for n in group if n in net.gates for m in group if not net.depends(m, n)]
    out = []
    for _ in range(count):
        if same and rng.random() < 0.75:
            n, m = rng.choice(same)
            out.append((n, 2 * m + (values[n] != values[m])))
        else:
            out.append((rng.choice(list(values)), 2 * rng.choice(list(values)) + rng.randrange(2)))
    return out


def check(program, kind, seed):
    """One network; how many merges were met, and how many not."""
    rng = random.Random(seed)
    inputs, gates, outputs = rng.randint(2, 6), rng.randint(5, 70), rng.randint(1, 6)
    make = f"gen {kind} {inputs} {gates} {outputs} {seed}"
    net = Network(kind, printed(run(program, make + "; print")[1:])[0])
    if not net.gates:
        return 0, 0
    levels_asked = sorted([0, *net.inputs, *net.gates])
    merges = pairs(net, rng, 12)
    script, bits = make + "; view depth", []
    for n, code in merges:
        bits.append("".join(rng.choice("01") for _ in range(inputs)))
        script += f"; merge {n} {word_of(code)}; print; simulate {bits[-1]}"
        script += "".join(f"; ask 1 level {m}" for m in levels_asked)
    lines = run(program, script)[2:]
    met = unmet = 0
    for (n, code), word in zip(merges, bits):
        values = net.values()
        expected, ends_met = answer_of(net, n, code, values)
        said, lines = lines[0], lines[1:]
        assert said == expected or (not ends_met and said.endswith(" " + expected) and said.startswith("unmet ")), f"{said}, not {expected}"
        shown, lines = printed(lines)
        after = Network(kind, shown)
        later = after.values()
        ones = (1 << 2**inputs) - 1
        read = lambda net, vs: [vs[c >> 1] ^ (ones if c & 1 else 0) for c in net.outputs]
        assert read(after, later) == read(net, values), "an output computes something else"
        after.check_shape()
        row = sum(int(bit) << i for i, bit in enumerate(word))
        assert lines[0] == "outputs " + "".join(str(value >> row & 1) for value in read(after, later)), "simulate"
        levels = after.levels()
        for m, line in zip(levels_asked, lines[1:]):
            wanted = f"level {m} {levels[m]}" if m in levels else "NoNode"
            assert line == wanted or (m not in levels and line.endswith(" NoNode")), f"{line}, not {wanted}"
        lines = lines[1 + len(levels_asked):]
        met, unmet, net = met + ends_met, unmet + (not ends_met), after
    return met, unmet


def main():
    program = sys.argv[1] if len(sys.argv) > 1 else "crates/lognet/out/lognet"
    networks = int(sys.argv[2]) if len(sys.argv) > 2 else 400
    first = int(sys.argv[3]) if len(sys.argv) > 3 else 1
    met = unmet = 0
    for seed in range(first, first + networks):
        kind = KINDS[seed % 4]
        try:
            a, b = check(program, kind, seed)
        except AssertionError as error:
            sys.exit(f"network {seed} of kind {kind}: {error}")
        met, unmet = met + a, unmet + b
    print(f"{networks} networks, {met} merges met, {unmet} not met, all as expected")


if __name__ == "__main__":
    main()
