#!/usr/bin/env python3
"""Gives the repository's own definitions and lemmas the spelling of today's Rattle.

usage: python3 tools/respell_names.py        at the top, once, right after port.py

Functions, lemmas and fields are in snake case; a dash stays only between two names of functions in a
lemma; facts and records are in upper camel case. Functions of src/, exported names, strings, comments,
inputs and outputs keep their text.
"""

import glob
import re
import sys

# The functions that a lemma's name may join by a dash.
FUNCTIONS = set("length sum sum_by sum_of sum_to take drop map append reverse get_or set add mul sub div mod le lt eq zero cons count max min heads parts row_wh front".split())


DECLARED = re.compile(r"^ *(?:(?:abbrev|unfoldable|pub|data|record|mutual) )*([^\s(){}:\[\];,.]+)(?: [^\n:]*?)? ?: (.*)$", re.M)
EDGE = r"[\w'◌ℤℕ⊎+*-]"


def files(kinds):
    found = []
    for kind in kinds:
        found += glob.glob("crates/*/specs/**/*." + kind, recursive=True)
        found += glob.glob("crates/*/proofs/**/*." + kind, recursive=True)
        found += glob.glob("crates/*/src/**/*." + kind, recursive=True)
    return sorted(found)


def declared():
    names = {}
    for path in files(["antt"]):
        text = open(path, encoding="utf-8").read()
        for name, sig in DECLARED.findall(text):
            if "-" in name and not sig.startswith("goal.") and not name.startswith("invariant-") and name[0].isalpha():
                names.setdefault(name, []).append((path, sig))
    return names


def respelled(name, lemma):
    name = name.replace("sumBy", "sum_by").replace("sum-to", "sum_to").replace("row-wh", "row_wh")
    parts = name.split("-")
    if name[0].isupper():
        return "".join(p[0].upper() + p[1:] for p in parts)
    out = parts[0]
    for a, b in zip(parts, parts[1:]):
        out += ("-" if lemma and a in FUNCTIONS and b in FUNCTIONS else "_") + b
    return out


def in_antt(text, turn):
    lines = []
    for line in text.split("\n"):
        m = re.match(r"^(.*?)((?:^|(?<=\s))--\s.*)?$", line)
        lines.append(turn(m.group(1)) + (m.group(2) or ""))
    return "\n".join(lines)


def in_source(text, turn):
    lines = []
    for line in text.split("\n"):
        at = line.find("//")
        code, rest = (line, "") if at < 0 else (line[:at], line[at:])
        pieces = re.split(r'("(?:[^"\\]|\\.)*")', code)
        lines.append("".join(p if i % 2 else turn(p) for i, p in enumerate(pieces)) + rest)
    return "\n".join(lines)


def main():
    names = declared()
    new = {}
    for name, places in names.items():
        lemma = not any("/specs/" in p and ("abbrev" in s or "Type 0" in s) for p, s in places)
        new[name] = respelled(name, lemma)
    new = {a: b for a, b in new.items() if a != b}
    if "--show" in sys.argv:
        for a, b in sorted(new.items()):
            print(a, b)
        return
    any_name = re.compile("(?<!" + EDGE + ")(?:" + "|".join(sorted(map(re.escape, new), key=len, reverse=True)) + ")(?!" + EDGE + ")")

    def turn(code):
        return any_name.sub(lambda m: new[m.group(0)], code)

    changed = 0
    for path in files(["antt", "rt"]):
        old = open(path, encoding="utf-8").read()
        text = in_antt(old, turn) if path.endswith(".antt") else in_source(old, turn)
        if text != old:
            open(path, "w", encoding="utf-8").write(text)
            changed += 1
    print(f"{len(new)} names, {changed} files")


main()
