#!/usr/bin/env python3
"""Brings the repository's own definitions and lemmas to today's spelling: types and facts in camel case, all else in snake case.

usage: python3 tools/respell.py [--list]     at the top of a repository that port.py has turned

The names are those that specs/ and proofs/ define, answers aside. A name that a file takes from elsewhere is left alone in that file.
With --list it only prints the names, old and new.
"""
import glob
import re
import sys

NAME = r"[^\s(){}\[\].;,:λ\"@|]+"
DEFINED = re.compile(r"^\s*(?:unfoldable )?(?:abbrev )?(?:pub )?(?:record |data |module )?(" + NAME + r")(?=\s*[:(])")
EDGE = r"[\s(){}\[\].;,:|]"
GIVEN = re.compile(r"/proofs/.+/(Answers|Choices|Invariants|Proof)\.antt$")
# lemmas whose first part is a type
TYPES = ("T-", "All-")
# names that would fall together with another
APART = {"By-rule": "AsksByRule", "bit-and": "bit-bit_and", "bit-or": "bit-bit_or", "bit-xor": "bit-bit_xor"}


def spelled(name):
    if name in APART:
        return APART[name]
    if name in APART.values():
        return name
    for t in TYPES:
        if name.startswith(t) and name not in ("All-born", "All-listed", "All-together-at-first"):
            return t + name[len(t):].replace("-", "_")
    if name[0].isupper():
        parts = name.split("-")
        return parts[0] + "".join(p[0].upper() + p[1:] for p in parts[1:])
    return name.replace("-", "_")


def texts():
    return sorted(p for e in ("rt", "antt") for p in glob.glob("crates/*/**/*." + e, recursive=True) if "/out/" not in p)


def own_names(paths):
    names = set()
    for p in paths:
        if p.endswith(".antt") and not GIVEN.search(p):
            for line in open(p, encoding="utf-8"):
                m = DEFINED.match(line)
                if m and "-" in m[1] and not m[1].startswith("-"):
                    names.add(m[1])
    return names


def taken_from_elsewhere(text, crates):
    found = set()
    for m in re.finditer(r"^\s*(?:pub )?(?:ghost )?use ([^\s{]+?)\.?\{([^}]*)\}", text, re.M):
        parts = m[1].split(".")
        if parts[0] != "Rattle" or parts[1] not in crates:
            found.update(x.split(" as ")[0].strip() for x in m[2].split(","))
    return found


def main():
    paths = texts()
    crates = {p.split("/")[1] for p in paths}
    turn = {n: spelled(n) for n in own_names(paths)}
    turn = {a: b for a, b in turn.items() if a != b}
    if sys.argv[1:] == ["--list"]:
        for a in sorted(turn):
            print(a, turn[a])
        return
    words = re.compile("(?:(?<=" + EDGE + ")|^)(" + "|".join(re.escape(a) for a in sorted(turn, key=len, reverse=True)) + ")(?=" + EDGE + "|$)", re.M)
    for p in paths:
        text = open(p, encoding="utf-8").read()
        skip = taken_from_elsewhere(text, crates)
        new = words.sub(lambda m: m[1] if m[1] in skip else turn[m[1]], text)
        if new != text:
            open(p, "w", encoding="utf-8").write(new)


main()
