#!/usr/bin/env python3
"""Looks for public calls that no test runs.

A test runs what it names, and what the functions that it names call, by name. So a call may be found by the name of another,
and is then taken for run; what is not found is run by no test. Laws have no body and nothing to run.

    tools/check_tests.py --list    also says of each public call whether a test names it or runs it through another
"""
import glob
import os
import re
import sys

TOP = os.path.dirname(os.path.dirname(os.path.abspath(__file__)))
FUNCTION = re.compile(r"^(\s*)(pub )?(?:pub\(\w+\) )?(?:const )?fn (\w+)")
OWNER = re.compile(r"^(?:pub )?(?:impl\b(?:<[^{]*?>)? (?:[\w:]+(?:<.*?>)? for )?(\w+)|trait (\w+))")
CALLED = re.compile(r"(?:\b(\w+)::(?:<[^>]*>::)?)?\b(\w+)(?:::<[^()]*?>)?\(")


def sources(pattern):
    for path in sorted(glob.glob(f"{TOP}/{pattern}", recursive=True)):
        with open(path, encoding="utf-8") as file:
            yield os.path.relpath(path, TOP), file.read().splitlines()


def functions(lines):
    """Each function: whether it is public, the type or trait that it belongs to, its name, and its body's code."""
    owner, at = "", 0
    while at < len(lines):
        line = lines[at]
        at += 1
        if line and not line[0].isspace():
            found = OWNER.match(line)
            owner = (found.group(1) or found.group(2)) if found else owner if line.startswith(("}", "where", "//", "#")) else ""
            owner = "" if line == "}" else owner
        found = FUNCTION.match(line)
        if not found:
            continue
        indent, opened = found.group(1), line.endswith("{")
        while not opened and at < len(lines) and not lines[at].endswith(";") and not lines[at].endswith("{}"):
            opened = lines[at] == f"{indent}{{" or lines[at].endswith(" {") and "nsures" not in lines[at] and "equires" not in lines[at]
            at += 1
        begin = at
        while opened and at < len(lines) and lines[at] != f"{indent}}}":
            at += 1
        body = [it.partition("//")[0] for it in lines[begin:at]] if opened else []
        yield bool(found.group(2)), owner, found.group(3), "\n".join(body)


def called(body, owner):
    """The names that a body calls, each with the type before it, or none."""
    for kind, name in CALLED.findall(body):
        # (a type parameter may stand for any type)
        yield owner if kind == "Self" else "" if re.fullmatch("[A-Z]", kind) else kind, name


def reached(begin, known):
    """What is called from these calls on, by name."""
    left, found = list(begin), set(begin)
    while left:
        kind, name = left.pop()
        for owner, body in known.get(name, ()):
            if kind and kind[0].isupper() and owner and owner != kind:
                continue
            for it in called(body, owner):
                if it not in found:
                    found.add(it)
                    left.append(it)
    return found


def names(calls, owner, name):
    """Whether one of the calls may be of this function."""
    return (owner, name) in calls or any((kind, name) in calls for kind in calls.kinds.get(name, ()) if not kind or not kind[0].isupper() or not owner)


class Calls(set):
    """Calls, and the types before each name."""

    def __init__(self, given):
        super().__init__(given)
        self.kinds = {}
        for kind, name in given:
            self.kinds.setdefault(name, set()).add(kind)


def main():
    known, public, begin = {}, [], set()
    for path, lines in sources("crates/*/src/**/*.rt"):
        crate = path.split("/")[1]
        for is_public, owner, name, body in functions(lines):
            known.setdefault(name, []).append((owner, body))
            if crate.startswith("lnet_test_"):
                begin.update(called(body, owner))
            elif crate not in ("lnet_timing", "lognet") and is_public and body.strip():
                public.append((crate, owner, name))
    named, run = Calls(begin), Calls(reached(begin, known))
    missing = 0
    for crate, owner, name in sorted(public):
        how = "named" if names(named, owner, name) else "through another" if names(run, owner, name) else "NOT RUN"
        missing += how == "NOT RUN"
        if how == "NOT RUN" or "--list" in sys.argv[1:]:
            print(f"{crate}: {owner + '::' if owner else ''}{name}: {how}")
    print(f"tests: {len(public)} public calls with something to run, {missing} of them run by no test")
    return 1 if missing else 0


if __name__ == "__main__":
    sys.exit(main())
