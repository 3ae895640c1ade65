#!/usr/bin/env python3
"""Respells the repository's own names: words in snake case, types in camel case.

usage: python3 tools/respell.py    once, at the top, on the text that the toolchain's port.py leaves

A name that a file of specs/ or proofs/ declares with a dash gets an underscore for it; one with a capital, which names a
statement, is written in camel case. Names that the check generates and names of the library keep their spelling. Comments
and strings are left alone. Names that would fall together with another are listed in APART.
"""

import os
import re
import sys

# RunsDriven is the record beside it; costs_never_fall is the function that states the lemma.
APART = {"Runs-driven": "RunsAreDriven", "costs-never-fall": "costs_never_fall_lem"}

# Bound variables, and names that an import gives.
BOUND = """all-open apart-v begun-other begun-p blank-entry ended-other ended-p file-counts is-less item-at
p-in read-x read-y triggers-of""".split()

NAME = r"[A-Za-z_][A-Za-z0-9_'-]*"
DASHED = re.compile(r"(?<![A-Za-z0-9_'-])[A-Za-z_][A-Za-z0-9_']*(?:-[A-Za-z0-9_']+)+")
WORDS = r"\s*(?:(?:pub|abbrev|unfoldable|record|data|module|ruleset)\s+)*"
DECLARED = re.compile(WORDS + r"((?:" + NAME + r"\s+)*?)(" + NAME + r")(?:\s+[\{\(].*)?\s*:(?:\s|$)")
FROM_STD = re.compile(r"use (?:Rattle\.std|borrow|Prim)[^{;\n]*\{([^}]*)\}")
PLAIN = re.compile(r"//[^\n]*|--[^\n]*|\"(?:\\.|[^\"\\])*\"")


def files(top):
    for folder, dirs, names in os.walk(os.path.join(top, "crates")):
        dirs[:] = sorted(d for d in dirs if d not in ("out", "must-fail"))
        for name in sorted(names):
            if name.endswith((".antt", ".rt")):
                yield os.path.join(folder, name)


def declared(text):
    for line in text.split("\n"):
        m = DECLARED.match(line)
        if m and not re.search(r"(?:goal|Goals|Given)\." + re.escape(m.group(2)) + r"\s*$", line):
            yield from (m.group(1) + " " + m.group(2)).split()


def respelled(name):
    if name in APART:
        return APART[name]
    if name[0].isupper():
        return "".join(part[0].upper() + part[1:] for part in name.split("-"))
    return name.replace("-", "_")


def turn(text, names):
    def code(part):
        return DASHED.sub(lambda m: names.get(m.group(0), m.group(0)), part)

    out, at = [], 0
    for m in PLAIN.finditer(text):
        out += [code(text[at:m.start()]), m.group(0)]
        at = m.end()
    return "".join(out) + code(text[at:])


def main():
    own, std, texts = set(BOUND), set(), {}
    for path in files("."):
        with open(path, encoding="utf-8") as f:
            texts[path] = f.read()
        for m in FROM_STD.finditer(texts[path]):
            std |= {x.strip().split(" as ")[0] for x in m.group(1).split(",")}
        if path.endswith(".antt"):
            own |= {x for x in declared(texts[path]) if "-" in x}
    if own & std:
        sys.exit("names of the library too: " + " ".join(sorted(own & std)))
    names = {x: respelled(x) for x in own}
    for path, text in texts.items():
        new = turn(text, names)
        if new != text:
            with open(path, "w", encoding="utf-8") as f:
                f.write(new)
    print(f"respell: {len(names)} names")


main()
