#!/usr/bin/env python3
"""Brings this repository's own definitions, fields and lemmas to the spelling of the Rattle of docs/PORT.md: words in snake case, facts in camel case.

usage: python3 tools/spelling.py [FOLDER]     once, over a checkout that the toolchain's port.py has turned

spelling.txt beside it has a line for each name: the old one, the new one, and `field` where it is the field of a record. Functions of src/, strings and
exported names are not in it. A name is a whole word: one that stands inside another name, as in that of a goal, stays. In comments and pages only what
stands between backticks is turned. In a proof that walks the code a name behind a dot is Rattle's own, unless it is a field of ours.
"""

import os
import re
import sys

HERE = os.path.dirname(os.path.realpath(__file__))
LETTER = r"[^\s(){}\[\],;.:λ`\"←]"
QUOTED = re.compile(r"`[^`\n]*`")


def table():
    new, fields = {}, set()
    with open(os.path.join(HERE, "spelling.txt"), encoding="utf-8") as f:
        for line in f:
            words = line.split()
            new[words[0]] = words[1]
            if words[2:] == ["field"]:
                fields.add(words[0])
    return new, fields


def turner(new, fields, walks):
    word = re.compile(r"(?<!%s)(\.?)(%s+)" % (LETTER, LETTER))

    def one(m):
        dot, name = m.groups()
        if dot and walks and name not in fields:
            return m.group(0)
        return dot + new.get(name, name)

    return lambda text: word.sub(one, text)


def quoted(turn, text):
    return QUOTED.sub(lambda m: turn(m.group(0)), text)


def line_of(turn, line, mark):
    """The code of a line, and what is quoted in its comment."""
    at = re.search(r"(^|\s)%s(\s|$)" % re.escape(mark), line)
    if at is None:
        return turn(line)
    return turn(line[: at.start()]) + quoted(turn, line[at.start() :])


def texts(top):
    for folder, dirs, files in os.walk(top):
        dirs[:] = sorted(d for d in dirs if d not in (".git", "out", "target", "landings"))
        for f in sorted(files):
            if f.endswith((".antt", ".rt", ".md")):
                yield os.path.join(folder, f)


def main():
    top = sys.argv[1] if len(sys.argv) > 1 else os.path.dirname(HERE)
    new, fields = table()
    for path in texts(top):
        with open(path, encoding="utf-8") as f:
            old = f.read()
        turn = turner(new, fields, path.endswith("Proof.antt"))
        if path.endswith(".md"):
            text = quoted(turn, old)
        else:
            mark = "--" if path.endswith(".antt") else "//"
            text = "".join(line_of(turn, line, mark) for line in old.splitlines(keepends=True))
        if text != old:
            with open(path, "w", encoding="utf-8") as f:
                f.write(text)


main()
