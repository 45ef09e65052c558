#!/usr/bin/env python3
"""Makes the picture of the crates in docs/ARCHITECTURE.md from crates.txt.

    tools/layers.py           says where the document differs from crates.txt
    tools/layers.py --write   writes the picture into the document

A crate stands one layer above the highest crate that it names. The picture has the layers and the longest chain.
"""
import difflib
import os
import sys

TOP = os.path.dirname(os.path.dirname(os.path.abspath(__file__)))
DOCUMENT = f"{TOP}/docs/ARCHITECTURE.md"
BEGIN = "<!-- from here on made by tools/layers.py --write -->"
END = "<!-- up to here -->"
OUTSIDE = {"lnet_edge", "lnet_lines", "lnet_words", "lnet_wires"}


def crates():
    """The crates of crates.txt, each with the crates of the repository that it names."""
    with open(f"{TOP}/crates.txt", encoding="utf-8") as file:
        lines = [line.partition("#")[0] for line in file]
    named = {line.partition(":")[0].strip(): line.partition(":")[2].split() for line in lines if ":" in line}
    return {name: [it for it in below if it in named] for name, below in named.items()}


def below_of(name, named):
    """The crate and all that it stands on."""
    found = {name}
    for it in named[name]:
        found |= below_of(it, named)
    return found


def layers_of(named):
    """The layer of each crate."""
    found = {}

    def layer(name):
        if name not in found:
            found[name] = max((layer(it) + 1 for it in named[name]), default=0)
        return found[name]

    for name in named:
        layer(name)
    return found


def column(name, named):
    """0 for what knows no files, 1 for what knows no network, 2 for both."""
    below = below_of(name, named)
    return 0 if not below & OUTSIDE else 2 if "lnet_network" in below else 1


def chain(named, layers):
    """A longest chain, from the top down."""
    found = [max(layers, key=lambda it: (layers[it], it))]
    while named[found[-1]]:
        found.append(max(named[found[-1]], key=lambda it: (layers[it], it)))
    return found


def picture():
    """The lines of the picture."""
    named = crates()
    layers = layers_of(named)
    lines = ["| layer | tables and networks | files | both |", "|---|---|---|---|"]
    for at in range(max(layers.values()), -1, -1):
        cells = [[], [], []]
        for name in sorted(it for it in named if layers[it] == at):
            cells[column(name, named)].append(f"`{name}`")
        lines.append(f"| {at} | " + " | ".join(", ".join(it) for it in cells) + " |")
    longest = chain(named, layers)
    return [*lines, "", f"The longest chain has {len(longest)} of the {len(named)} crates: " + ", ".join(f"`{it}`" for it in longest) + "."]


def main():
    with open(DOCUMENT, encoding="utf-8") as file:
        lines = file.read().splitlines()
    begin, end = lines.index(BEGIN) + 1, lines.index(END)
    wanted = ["", *picture(), ""]
    if "--write" in sys.argv[1:]:
        with open(DOCUMENT, "w", encoding="utf-8") as file:
            file.write("\n".join([*lines[:begin], *wanted, *lines[end:]]) + "\n")
        return 0
    differ = list(difflib.unified_diff(lines[begin:end], wanted, "docs/ARCHITECTURE.md", "crates.txt", lineterm="", n=0))
    print("\n".join([*differ, f"layers: {'as crates.txt has them' if not differ else 'differ; tools/layers.py --write'}"]))
    return 1 if differ else 0


if __name__ == "__main__":
    sys.exit(main())
