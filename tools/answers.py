#!/usr/bin/env python3
"""Takes away each answer of a crate's proofs that the check finds alone, and says which went.

    python3 tools/answers.py crates/NAME

An answer goes if `rt check` and `rt check --margin` prove the crate without it. It works on the files in place, so run it in a clone.
"""
import glob
import os
import re
import subprocess
import sys

GOAL = r"^pub ([^\s:]+) : goal\.\1$"


def proves(*more):
    done = subprocess.run(["rt", "check", *more], capture_output=True, text=True)
    return "logic=proved" in done.stdout + done.stderr


def stands():
    return proves() and proves("--margin")


def without(text, name):
    name = re.escape(name)
    answer = re.compile(rf"^((?:-- .*\n)?pub {name} : goal\.{name}\n(?:.*\n)*?)(?=\n(?:-- |pub |[^\s])|\Z)", re.M)
    found = answer.search(text)
    if found is None:
        sys.exit(f"answers.py: found no end of {name}, expected a line that is not indented")
    return re.sub(r"\n{3,}", "\n\n", text[: found.start()] + text[found.end() :]).rstrip() + "\n"


def read(path):
    with open(path, encoding="utf-8") as file:
        return file.read()


def write(path, text):
    if not re.search(GOAL, text, re.M):
        os.remove(path)
        return
    with open(path, "w", encoding="utf-8") as file:
        file.write(text)


def main():
    if len(sys.argv) != 2 or not os.path.isdir(sys.argv[1]):
        sys.exit("usage: python3 tools/answers.py crates/NAME")
    os.chdir(sys.argv[1])
    if not stands():
        sys.exit("answers.py: the crate does not prove as it is")
    for path in sorted(glob.glob("proofs/**/Answers.antt", recursive=True)):
        for name in re.findall(GOAL, read(path), re.M):
            before = read(path)
            write(path, without(before, name))
            if stands():
                print("gone:", path, name, flush=True)
            else:
                write(path, before)


main()
