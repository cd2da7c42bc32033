#!/usr/bin/env python3
"""Prints items of a Rust file, unchanged, by name: functions, methods, constants, structs, impl blocks.
usage: cut.py FILE ITEM...     an ITEM is `fn NAME`, `const NAME`, `struct NAME` or `impl NAME`; says on standard error which lines it took."""
import re
import sys


def item(lines, kind, name):
    head = re.compile(r"^\s*(pub(\([a-z]+\))? )?" + kind + " " + re.escape(name) + r"\b")
    starts = [i for i, line in enumerate(lines) if head.match(line)]
    if len(starts) != 1:
        sys.exit(f"cut.py: {kind} {name}: found {len(starts)} times")
    first = last = starts[0]
    if kind == "const":
        while not lines[last].rstrip().endswith(";"):
            last += 1
    else:
        depth, opened = 0, False
        while True:
            code = lines[last].split("//")[0]
            depth += code.count("{") - code.count("}")
            opened = opened or "{" in code
            if opened and depth == 0:
                break
            last += 1
    while lines[first - 1].lstrip().startswith(("///", "#[")):
        first -= 1
    return first, last


def main():
    if len(sys.argv) < 3:
        sys.exit(__doc__)
    path = sys.argv[1]
    lines = open(path, encoding="utf-8").read().split("\n")
    for word in sys.argv[2:]:
        kind, name = word.split(" ", 1)
        first, last = item(lines, kind, name)
        print("\n".join(lines[first : last + 1]))
        print(f"oracle: {path.rsplit('/', 1)[-1]} {word}: lines {first + 1} to {last + 1}", file=sys.stderr)


main()
