#!/usr/bin/env python3
"""Brings the names of the repository's own definitions, record fields and lemmas to the spelling of today's Rattle: words in snake case, types and modules in camel case.

usage: tools/port_names.py [--list]     at the top of the repository, once, after the kit's port.py

Names are turned in specs/ and proofs/ (code and comments), in `ghost use` lines and clauses of src/, in must-fail edits, and between backticks in README.md and docs/.
Functions of src/, exported names, strings, inputs and outputs keep theirs. With --list it only prints what it would turn.
A dash stays in a lemma's name where it joins two words that are defined; elsewhere it becomes `_`. A lemma that would have a definition's name gets `_lem`,
and a definition that would have the name of something in a source file that cites it, or of a word of the library that a file imports, gets `_of`, or the name of the table below.
"""
import collections
import glob
import re
import sys

TOKEN = re.compile(r"[^\s(){}.;,\"`|\[\]\\]+")
HEAD = re.compile(r"^(?:(?:unfoldable|abbrev|pub)\s+)*([^\s:(){}.;,|=]+)\s*:\s(.*)$")
KIND = re.compile(r"^(?:(?:unfoldable|abbrev|pub)\s+)*(?:record|data)\s+(\S+)")
FIELD = re.compile(r"^  (?:pub\s+)?([^\s:(){}.;,|=]+)\s*:\s")
# names that the rules below would make the same as another's, or awkward
BY_HAND = {
    "slotCount": "is_slot_count", "sameMark": "is_same_mark", "takesField": "is_field_taken", "leadOf": "lead_for", "onsetsOf": "onsets_for", "peakOf": "peak_for", "inTerms": "reading_in_terms",
}
# names that files also import from the library
KEPT = {"and-false"}
# words of the library that lemmas are about
WORDS = set("length drop take append get_or set replicate map reverse sum add mul sub div mod pow le lt".split())


def antt():
    return sorted(glob.glob("crates/*/specs/**/*.antt", recursive=True) + glob.glob("crates/*/proofs/**/*.antt", recursive=True))


def of_function(path):
    """Whether a file stands in the folder of a function's proof."""
    parts = path.split("/")
    return "proofs" in parts and len(parts) > parts.index("proofs") + 2


def declared():
    """Definitions of specs/, lemmas of proofs/, and fields and constructors of records and data."""
    specs, lemmas, fields = set(), set(), set()
    for path in antt():
        inside = False
        for line in open(path, encoding="utf-8"):
            if line.startswith(("--", "use ")):
                continue
            if KIND.match(line):
                inside = True
                continue
            top = HEAD.match(line)
            if top:
                inside = False
                if not of_function(path):
                    (specs if "/specs/" in path else lemmas).add(top.group(1))
            elif line.strip() and not line.startswith(" "):
                inside = False
            if inside and FIELD.match(line):
                fields.add(FIELD.match(line).group(1))
    return specs, lemmas, fields


def snake(name):
    """A word or a part of a name in snake case."""
    name = re.sub(r"(?<=[a-z0-9])([A-Z])", lambda m: "_" + m.group(1).lower(), name)
    return re.sub(r"(?<=bord)([01])\b", r"_\1", name)


def lower(name):
    return name[:1].islower() or name[:1] == "◌"


def turned(specs, lemmas, fields):
    """The new name of each that changes."""
    words = WORDS | {snake(n) for n in specs}
    new = {}
    for n in sorted(specs | lemmas | fields):
        if not lower(n) or n in KEPT:
            continue
        if "-" in n and not n.startswith("-"):
            parts = [snake(p).replace("getd", "get_or").replace("get_d", "get_or") for p in n.split("-")]
            out = parts[0]
            for p in parts[1:]:
                known = n in lemmas and n not in fields and out in words and p in words
                out += ("-" if known else "_") + p
            new[n] = out
        else:
            new[n] = BY_HAND.get(n) or snake(n)
    return {a: b for a, b in new.items() if a != b}


def clause_lines(path):
    """Which lines of a source file are `ghost use` or belong to a clause."""
    lines = open(path, encoding="utf-8").read().split("\n")
    mine, depth = set(), 0
    for k, line in enumerate(lines):
        begins = depth == 0 and re.match(r"\s*(ensures|requires|ghost)\b", line)
        if begins and not line.lstrip().startswith("ghost use"):
            depth = 0
            mine.add(k)
            depth += line.count("{") - line.count("}")
        elif begins:
            mine.add(k)
        elif depth > 0:
            mine.add(k)
            depth += line.count("{") - line.count("}")
    return lines, mine


def settle(new, specs, lemmas, fields):
    """No two names fall together, in the whole or in a file."""
    taken = collections.defaultdict(set)
    for path in antt():
        text = re.sub(r"--.*", "", open(path, encoding="utf-8").read())
        for m in TOKEN.finditer(text):
            if text[m.start() - 1 : m.start()] != ".":
                taken[m.group(0)].add(path)
    sources = collections.defaultdict(set)
    for path in sorted(glob.glob("crates/*/src/**/*.rt", recursive=True)):
        text = re.sub(r"//.*", "", open(path, encoding="utf-8").read())
        for t in re.findall(r"\b(\w+)\s*:(?!:)", text):
            sources[t].add(path)
    imported = set()
    for path in antt():
        for m in re.finditer(r"^use (?:Rattle\.std|mathlib|native|lib|borrow|Prim|denote|core)\S*\.\{([^}]*)\}", open(path, encoding="utf-8").read(), re.M):
            imported |= {x.strip() for x in m.group(1).split(",")}
    cited = collections.defaultdict(set)
    for path in sorted(glob.glob("crates/*/src/**/*.rt", recursive=True)):
        lines, mine = clause_lines(path)
        for k in mine:
            for t in TOKEN.findall(lines[k]):
                cited[t].add(path)
    of_defs = {new.get(n, n) for n in specs}
    back = collections.defaultdict(list)
    for a, b in new.items():
        back[b].append(a)
    said = []
    for a in sorted(new):
        b = new[a]
        only_field = a in fields and a not in specs and a not in lemmas
        clash = []
        if b in imported and not only_field:
            clash.append("a word of the library")
        if not only_field and a not in BY_HAND and sources[b]:
            clash.append("a field, a parameter or a name in a source file")
        if len(back[b]) > 1 and "-" in a and a in lemmas and any("-" not in o for o in back[b]):
            clash.append("a definition")
        if a in lemmas and a not in specs and (b in specs):
            clash.append("a definition")
        if b in taken and taken[b] & taken[a] and not only_field and not clash:
            clash.append("a name in a file that has it")
        if clash:
            c = b + ("_lem" if a in lemmas and a not in specs else "_of")
            said.append(f"{a}: {c}, since {b} is {', '.join(clash)}")
            new[a] = c
    back = collections.defaultdict(list)
    for a, b in new.items():
        back[b].append(a)
    for b, many in back.items():
        if len(many) > 1 or b in (specs | lemmas):
            said.append(f"fall together: {many + [b] * (b in (specs | lemmas))} as {b}")
    return said


def turn(text, new, fields):
    def one(m):
        t = m.group(0)
        if t not in new:
            return t
        line = text[text.rfind("\n", 0, m.start()) + 1 : m.start()]
        behind = text[m.end() : m.end() + 3]
        named = re.fullmatch(r"  (pub )?", line) and behind.startswith(" :") or re.search(r"(^\s+|[{;] )$", line) and re.match(r" = ", behind)
        if t in fields and (line.endswith(".") or named):
            return snake(t).replace("-", "_")
        return t if line.endswith(".") else new[t]

    return TOKEN.sub(one, text)


def main():
    specs, lemmas, fields = declared()
    new = turned(specs, lemmas, fields)
    said = settle(new, specs, lemmas, fields)
    if "--list" in sys.argv:
        print("\n".join(f"{a} {b}" for a, b in sorted(new.items())))
        print("\n".join(said), file=sys.stderr)
        return
    for path in antt():
        text = open(path, encoding="utf-8").read()
        out = turn(text, new, fields)
        if out != text:
            open(path, "w", encoding="utf-8").write(out)
    for path in sorted(glob.glob("crates/*/src/**/*.rt", recursive=True)):
        lines, mine = clause_lines(path)
        out = [turn(l, new, fields) if k in mine else l for k, l in enumerate(lines)]
        if out != lines:
            open(path, "w", encoding="utf-8").write("\n".join(out))
    for path in sorted(glob.glob("crates/*/must-fail/*.edit")):
        lines = open(path, encoding="utf-8").read().split("\n")
        spec = any(l.startswith("file:") and "antt" in l for l in lines)
        out = [turn(l, new, fields) if l.startswith(("old:", "new:")) and (spec or re.search(r"ensures|requires", l)) else l for l in lines]
        if out != lines:
            open(path, "w", encoding="utf-8").write("\n".join(out))
    for path in ["README.md"] + sorted(glob.glob("docs/**/*.md", recursive=True)):
        text = open(path, encoding="utf-8").read()
        out = re.sub(r"`[^`\n]+`", lambda m: turn(m.group(0), new, fields), text)
        if out != text:
            open(path, "w", encoding="utf-8").write(out)


if __name__ == "__main__":
    main()
