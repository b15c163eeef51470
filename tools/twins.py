#!/usr/bin/env python3
"""Lists the pairs of functions of crates/*/src whose bodies have the same shape.

    python3 tools/twins.py [FOLDER]

Names, numbers and texts are made alike; bodies of fewer than 14 tokens are left out; a pair is listed from 88 % alike.
"""
import difflib
import glob
import re
import sys

KEPT = set("let mut if else for in while loop return match Some None Ok Err as true false self fn break continue".split())
HEAD = re.compile(r"^( *)(?:pub(?:\(crate\))? )?fn ([a-z_]+)", re.M)
TOKEN = re.compile(r'[A-Za-z_]+|\d+|"[^"]*"|[^\sA-Za-z_0-9]')


def shape(token):
    if token in KEPT or not re.match(r'[A-Za-z_0-9"]', token):
        return token
    return "text" if token[0] == '"' else "name"


def functions(root):
    for path in sorted(glob.glob(root + "/crates/*/src/*.rt")):
        source = open(path, encoding="utf-8").read()
        for head in HEAD.finditer(source):
            indent = head.group(1)
            text = source[head.start() : source.find("\n" + indent + "}\n", head.start())]
            start = text.find("\n" + indent + "{\n")
            body = text[start if start >= 0 else text.find("{") :]
            yield path.split("crates/")[1] + ":" + head.group(2), [shape(t) for t in TOKEN.findall(body)]


def main():
    found = list(functions(sys.argv[1] if len(sys.argv) > 1 else "."))
    pairs = 0
    for i, (one, a) in enumerate(found):
        for other, b in found[i + 1 :]:
            if min(len(a), len(b)) < 14:
                continue
            alike = difflib.SequenceMatcher(None, a, b, autojunk=False).ratio()
            if alike >= 0.88:
                pairs += 1
                print(f"{alike:.2f} {len(a)} {one} {other}")
    print(len(found), "functions,", pairs, "pairs")


main()
