#!/usr/bin/env python3
"""Puts the work that lies ready in docs/unfinished over the tree that it was made for, commit bc9520c.

usage: python3 tools/take_up.py [FOLDER]     the repository's top, by default the one that this script lies in

Each file of docs/unfinished/tree goes to its place (without the .txt behind .rt, .antt and crates.txt), and each that removed.txt names goes away.
Commit first: files are overwritten. docs/unfinished/README.md says what the work is; delete that folder once it is taken up.
"""
import os
import shutil
import sys

TOP = sys.argv[1] if len(sys.argv) > 1 else os.path.dirname(os.path.dirname(os.path.abspath(__file__)))
PARKED = os.path.join(TOP, "docs", "unfinished")
TREE = os.path.join(PARKED, "tree")

with open(os.path.join(PARKED, "removed.txt"), encoding="utf-8") as f:
    for line in f:
        path = os.path.join(TOP, line.strip())
        if os.path.exists(path):
            os.remove(path)
        while not os.listdir(os.path.dirname(path)):
            path = os.path.dirname(path)
            os.rmdir(path)
for folder, _, files in os.walk(TREE):
    for name in files:
        path = os.path.join(folder, name)
        place = os.path.join(TOP, os.path.relpath(path, TREE))
        if place.endswith((".rt.txt", ".antt.txt", "crates.txt.txt")):
            place = place[: -len(".txt")]
        os.makedirs(os.path.dirname(place), exist_ok=True)
        shutil.copy(path, place)
