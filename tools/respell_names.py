#!/usr/bin/env python3
"""Respells this repository's own definitions and lemmas as today's Rattle does.

usage: python3 tools/respell_names.py      at the top of the repository, once, right after /opt/rattle/port/port.py

Types and facts become upper camel case, everything else snake case. A dash stays where it joins the names of two
functions, as in `length-counted`, the length of `counted`. Names that Rattle makes (goals, invariants, steps) and
names of the library stay as they are. It prints each name and what became of it, and stops, with nothing written,
where two names of one file would fall together.
"""

import collections
import glob
import re
import sys

# a dash that joins the names of two functions: a lemma on the first one of the second
JOINED = {
    "abs-mul": "abs-mul",
    "length-cells": "length-cells",
    "length-counted": "length-counted",
    "length-dealt": "length-dealt",
    "length-lessen": "length-lessen",
    "length-shares": "length-shares",
    "length-written": "length-written",
    "nth-lessen": "nth-lessen",
    "nth-lessen-none": "nth-lessen_none",
    "nth-lessen-some": "nth-lessen_some",
    "nth-map": "nth-map",
    "nth-map-at": "nth-map_at",
    "nth-map-past": "nth-map_past",
    "total-append": "total-append",
    "total-shared-on": "total-shared_on",
    "written-append": "written-append",
    "written-set": "written-set",
}
# a name without a dash, and parameters of lemmas
OTHERS = {
    "sumZ": "sum_z",
    "as-many-below": "as_many_below",
    "r-is": "r_is",
    "rows-below": "rows_below",
    "t-is": "t_is",
    "x-is": "x_is",
}
# fields of two records: they may have one name
FIELDS = {"few-zones"}

LETTER = r"[A-Za-z0-9_'\-\u0370-\u03ff\u2080-\u2099\u2100-\u214f]"
TOKEN = re.compile(r"(?<![A-Za-z0-9_'\-])[A-Za-z]" + LETTER + "*")
DECLARED = re.compile(
    r"^( *)(?:(?:abbrev|unfoldable|pub|record|data|pattern)\s+)*([A-Za-z]" + LETTER + r"*)"
    r"\s*(?:\{[^}]*\}\s*|\([^)]*\)\s*)*:(?!:)(.*)$",
    re.M,
)
LOCAL = re.compile(r"\blet ([a-z]" + LETTER + r"*)(?: :| =)|; ([a-z]" + LETTER + r"*) =|^ +([a-z]" + LETTER + r"*) (?:: .* )?= |λ ([a-z]" + LETTER + r"*)", re.M)
IMPORT = re.compile(r"use (?:Rattle\.(?:std|core|logic)|native|mathlib|Prim|lib)\S*\{([^}]*)\}")


def read(path):
    with open(path, encoding="utf-8") as f:
        return f.read()


def spelled(name):
    if name in JOINED or name in JOINED.values():
        return JOINED.get(name, name)
    if name in OTHERS:
        return OTHERS[name]
    if name[0].isupper():
        return "".join(part[0].upper() + part[1:] for part in re.split("[-_]", name) if part)
    return name.replace("-", "_")


def made(path, text, rest):
    """Whether Rattle makes the name: a goal's answer, or what is chosen for a loop."""
    if not re.search(r"/(Answers|Invariants)\.antt$", path):
        return False
    return bool(re.match(r"\s*(?:goal|given|need)\.", rest))


def own_names(paths):
    made_names, names, library = set(), set(), set()
    for path in paths:
        text = read(path)
        for names_in in IMPORT.findall(text):
            library |= {n.strip().split(" as ")[-1].strip() for n in names_in.split(",")}
        for m in DECLARED.finditer(text):
            (made_names if made(path, text, m.group(3)) else names).add(m.group(2))
        for m in LOCAL.finditer(text):
            names |= {g for g in m.groups() if g}
    names = {n for n in names if "-" in n} | set(OTHERS)
    return {n: spelled(n) for n in names - made_names - library if spelled(n) != n}


def turned(text, names):
    return TOKEN.sub(lambda m: names.get(m.group(0), m.group(0)), text)


def turned_page(text, names):
    """In a page only what stands between backticks is a name."""
    return re.sub(r"`[^`\n]+`", lambda m: turned(m.group(0), names), text)


def main():
    proofs = sorted(glob.glob("crates/*/specs/**/*.antt", recursive=True) + glob.glob("crates/*/proofs/**/*.antt", recursive=True))
    sources = sorted(glob.glob("crates/*/src/**/*.rt", recursive=True))
    pages = sorted(glob.glob("docs/*.md")) + ["README.md"]
    names = own_names(proofs)
    together = []
    for path in proofs + sources:
        tokens = set(TOKEN.findall(read(path)))
        for name in sorted(tokens & set(names)):
            if names[name] in tokens and name not in FIELDS:
                together.append(f"{path}: {name} and {names[name]}")
    back = collections.defaultdict(list)
    for name in sorted(names):
        back[names[name]].append(name)
        print(f"{name} -> {names[name]}")
    together += [f"{a}: {', '.join(b)}" for a, b in sorted(back.items()) if len(b) > 1]
    if together:
        print("names that would fall together:\n" + "\n".join(together), file=sys.stderr)
        raise SystemExit(1)
    for path in proofs + sources + pages:
        text = read(path)
        new = (turned_page if path.endswith(".md") else turned)(text, names)
        if new != text:
            with open(path, "w", encoding="utf-8") as f:
                f.write(new)


main()
