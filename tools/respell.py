#!/usr/bin/env python3
"""Brings this repository's own definitions and lemmas to the spelling of today's Rattle, by the table respell.tsv beside it.

usage: python3 tools/respell.py [FOLDER]     the repository's top, by default the one that this script lies in

Run once, after the toolchain's port.py. It changes whole names in .antt files and in the ghost text of .rt files; comments, strings and
the program's own functions keep theirs. A name that would fall together with another is mapped by hand in the table or below.
"""
import os
import re
import sys

HERE = os.path.dirname(os.path.abspath(__file__))
TOP = sys.argv[1] if len(sys.argv) > 1 else os.path.dirname(HERE)
TABLE = {}
with open(os.path.join(HERE, "respell.tsv"), encoding="utf-8") as f:
    for line in f:
        old, new = line.rstrip("\n").split("\t")
        TABLE[old] = new
NAME = re.compile(r"[^\s(){}\[\],;.:|@\"`&]+")
STRING = re.compile(r"\"(?:[^\"\\]|\\.)*\"")


def renamed(text):
    """A piece of text that is neither comment nor string."""
    return NAME.sub(lambda m: TABLE.get(m.group(0), m.group(0)), text)


def line_of(line, comment):
    """A line with its names respelled, up to a comment."""
    at, out = 0, []
    strings = [m.span() for m in STRING.finditer(line)]
    end = len(line)
    for m in re.finditer(r"(?:^|(?<=\s))" + re.escape(comment), line):
        if not any(a < m.start() < b for a, b in strings):
            end = m.start()
            break
    for a, b in strings:
        if a >= end:
            break
        out += [renamed(line[at:a]), line[a:b]]
        at = b
    if at < end:
        out.append(renamed(line[at:end]))
        at = end
    return "".join(out) + line[at:]


def turned(path, text):
    # the number of a refusal of a call, and that of a call's fault, stand in one file
    if "CallRefusals" in text or path.endswith("CallRefusals.antt"):
        text = re.sub(r"(?<![\w.-])number_of(?![\w-])", "refusal_number_of", text)
    comment = "--" if path.endswith(".antt") else "//"
    return "".join(line_of(l, comment) for l in text.splitlines(keepends=True))


for folder, dirs, files in os.walk(os.path.join(TOP, "crates")):
    dirs[:] = sorted(d for d in dirs if d != "out")
    for name in sorted(files):
        if name.endswith((".rt", ".antt")):
            path = os.path.join(folder, name)
            with open(path, encoding="utf-8") as f:
                text = f.read()
            new = turned(path, text)
            if new != text:
                with open(path, "w", encoding="utf-8") as f:
                    f.write(new)
