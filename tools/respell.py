#!/usr/bin/env python3
"""Brings the names of this repository's definitions and lemmas to the kit's spelling: words in snake case.

usage: python3 tools/respell.py        at the top of a checkout, once, after the kit's own port.py

Each line of tools/respell.txt is an old name and its new one. A name is renamed wherever it stands as a whole in an .antt file, in an .rt
file and in an edit of must-fail/; in comments and in the pages, only between backticks. Strings stand.
"""

import os
import re
import sys

HERE = os.path.dirname(os.path.realpath(__file__))
TOKEN = re.compile(r"[^\s(){}\[\].;,:\"«»@⌜⌝`]+")
TICKED = re.compile(r"`[^`\n]*`")


def table():
    names = {}
    with open(os.path.join(HERE, "respell.txt"), encoding="utf-8") as f:
        for line in f:
            old, new = line.split()
            names[old] = new
    return names


def tokens(text, names):
    return TOKEN.sub(lambda m: names.get(m.group(0), m.group(0)), text)


def ticked(text, names):
    return TICKED.sub(lambda m: tokens(m.group(0), names), text)


def comment_at(line, mark):
    """Where the line's comment begins, or its length: a mark outside a string."""
    quoted = False
    for i, c in enumerate(line):
        if c == '"' and mark == "//" and (i == 0 or line[i - 1] != "\\"):
            quoted = not quoted
        if not quoted and line.startswith(mark, i) and (i == 0 or line[i - 1].isspace() or mark == "//"):
            return i
    return len(line)


def code(text, names, mark):
    out = []
    for line in text.split("\n"):
        at = comment_at(line, mark)
        parts = re.split(r'("(?:[^"\\]|\\.)*")', line[:at]) if mark == "//" else [line[:at]]
        turned = "".join(p if p.startswith('"') else tokens(p, names) for p in parts)
        out.append(turned + ticked(line[at:], names))
    return "\n".join(out)


def respell(path, names):
    with open(path, encoding="utf-8", newline="") as f:
        text = f.read()
    if path.endswith(".antt"):
        new = code(text, names, "--")
    elif path.endswith(".rt"):
        new = code(text, names, "//")
    elif path.endswith(".edit"):
        new = "\n".join(l if l.startswith("file:") else tokens(l, names) for l in text.split("\n"))
    else:
        new = ticked(text, names)
    if new != text:
        with open(path, "w", encoding="utf-8", newline="") as f:
            f.write(new)


def main():
    names = table()
    for folder, dirs, files in os.walk("."):
        dirs[:] = sorted(d for d in dirs if d not in ("out", ".git", "target"))
        for name in sorted(files):
            path = os.path.join(folder, name)
            if name.endswith((".antt", ".rt", ".edit", ".md")):
                respell(path, names)


if __name__ == "__main__":
    sys.exit(main())
