#!/usr/bin/env python3
"""Brings this repository's own definitions and lemmas to the spelling of today's Rattle: words in snake case.

usage: python3 tools/respell.py [FOLDER]      once, right after port.py

tools/respelled.tsv has a line for each name: the old one and the new one. Where a lemma and a definition (or a function) would fall
together, the lemma's name ends in _lem. Functions of src/, exported C names, strings, inputs and outputs keep their names.
"""
import os
import re
import sys

HERE = os.path.dirname(os.path.realpath(__file__))
TOKEN = re.compile(r"\"(?:[^\"\\]|\\.)*\"|[A-Za-z_][\w'₀-₉-]*")
# A lemma that port.py itself had let fall together with a definition's new name.
ALONE = {"crates/page/proofs/Printed.antt": {"in_cells": "in_cells_lem"}}


def table():
    with open(os.path.join(HERE, "respelled.tsv"), encoding="utf-8") as it:
        return dict(line.rstrip("\n").split("\t")[:2] for line in it)


def turned(text, names, own, walk, page):
    def name(m):
        word = m.group(0)
        new = own.get(word) or names.get(word)
        if not new or word[0] == '"':
            return word
        before = text[m.start() - 1 : m.start()]
        if "-" in word:
            # in a proof of a function a dotted word is a step, which has the function's own name
            if walk and before == ".":
                return word
            # in a page or a comment of a source a dashed word may be English
            if page and not (before == "`" and text[m.end() : m.end() + 1] == "`"):
                return word
        return new

    return TOKEN.sub(name, text)


def main(root):
    names = table()
    for folder, dirs, files in os.walk(root):
        dirs[:] = [d for d in dirs if d not in (".git", "out", "target")]
        for f in sorted(files):
            path = os.path.join(folder, f)
            rel = os.path.relpath(path, root).replace(os.sep, "/")
            inside = rel.startswith("crates/")
            if not (inside and f.endswith((".antt", ".rt", ".edit")) or f.endswith(".md") and not rel.startswith("docs/PORT")):
                continue
            with open(path, encoding="utf-8", newline="") as it:
                text = it.read()
            parts = rel.split("/")
            walk = inside and f.endswith(".antt") and parts[2] == "proofs" and len(parts) > 4
            new = turned(text, names, ALONE.get(rel, {}), walk, not f.endswith(".antt"))
            if new != text:
                with open(path, "w", encoding="utf-8", newline="") as it:
                    it.write(new)


if __name__ == "__main__":
    main(sys.argv[1] if len(sys.argv) > 1 else os.path.dirname(HERE))
