#!/usr/bin/env python3
"""Respells this repository's own definitions and lemmas: words in snake case, a dash only between two names.

usage: python3 tools/respell.py [FOLDER]    (the repository's top; this folder if none is given)

The table beside this script, respelling.txt, has a line for each name: old, then new. Only whole names are turned, in
.rt and .antt files and in the edits of must-fail; text after // or -- is left, but for names in camel case.
"""
import os
import re
import sys

TOP = sys.argv[1] if len(sys.argv) > 1 else "."
HERE = os.path.dirname(os.path.realpath(__file__))
with open(os.path.join(HERE, "respelling.txt"), encoding="utf-8") as lines:
    TABLE = dict(line.split() for line in lines)
# A name of one place that would fall together with another one there.
ALONE = {("contract/proofs/Accounts.antt", "amount-of"): "amount_of_lem"}
NAME = re.compile(r"(?<![\w'-])[A-Za-z][\w'≤+*ℤ-]*")


def turn(text, path, table):
    def new(match):
        word = match.group(0)
        for (end, alone), other in ALONE.items():
            if word == alone and path.endswith(end):
                return other
        return table.get(word, word)

    return NAME.sub(new, text)


def turn_line(line, path, mark):
    at = line.find(mark + " ") if mark else -1
    code, comment = (line, "") if at < 0 else (line[:at], line[at:])
    camel = {k: v for k, v in TABLE.items() if "-" not in k}
    return turn(code, path, TABLE) + turn(comment, path, camel)


changed = 0
for folder, dirs, files in os.walk(os.path.join(TOP, "crates")):
    dirs[:] = sorted(d for d in dirs if d not in ("out", ".git"))
    for name in sorted(files):
        mark = {".rt": "//", ".antt": "--", ".edit": ""}.get(os.path.splitext(name)[1])
        if mark is None:
            continue
        path = os.path.join(folder, name)
        with open(path, encoding="utf-8") as file:
            old = file.read()
        new = "\n".join(turn_line(line, path, mark) for line in old.split("\n"))
        if new != old:
            changed += 1
            with open(path, "w", encoding="utf-8") as file:
                file.write(new)
print("respell: %d files changed" % changed)
