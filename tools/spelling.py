#!/usr/bin/env python3
"""Respells the names of this repository's definitions and lemmas by the table spelling.tsv beside this script (old, a tab, new).

usage: python3 tools/spelling.py      at the top of the repository, once, after the toolchain's own port.py

Whole words turn, in the code of .antt files, in .rt files, in must-fail edits, and in code spans of comments and of the pages.
The landing notes stay as they were written. A name that the toolchain makes (after `tie.`, or a file's own step) is not in the table.
"""
import os
import re

HERE = os.path.dirname(os.path.realpath(__file__))
TOP = os.path.dirname(HERE)
WORD = re.compile(r"[^\s(){}.;,@\"«»`/]+")
SPAN = re.compile(r"`[^`\n]*`")
PAGES = ["README.md", "docs/ARCHITECTURE.md", "docs/DECISIONS.md", "docs/PERFORMANCE.md", "docs/PROVED.md"]

with open(os.path.join(HERE, "spelling.tsv"), encoding="utf-8") as rows:
    TABLE = dict(row.rstrip("\n").split("\t") for row in rows)


def code(text):
    def turn(found):
        behind = text[max(0, found.start() - 4) : found.start()]
        return found.group() if behind == "tie." else TABLE.get(found.group(), found.group())

    return WORD.sub(turn, text)


def prose(text):
    return SPAN.sub(lambda span: code(span.group()), text)


def lines(text, comment):
    turned = []
    for line in text.split("\n"):
        at = line.find(comment)
        turned.append(code(line) if at < 0 else code(line[:at]) + prose(line[at:]))
    return "\n".join(turned)


def turned(path, text):
    if path.endswith(".antt"):
        return lines(text, "--")
    if path.endswith(".rt"):
        return lines(text, "//")
    return code(text) if path.endswith(".edit") else prose(text)


def main():
    paths = [os.path.join(TOP, page) for page in PAGES]
    for folder, folders, files in os.walk(os.path.join(TOP, "crates")):
        folders[:] = [f for f in folders if f != "out"]
        paths += [os.path.join(folder, f) for f in files if f.endswith((".antt", ".rt", ".edit"))]
    for path in sorted(paths):
        with open(path, encoding="utf-8") as file:
            text = file.read()
        new = turned(path, text)
        if new != text:
            with open(path, "w", encoding="utf-8") as file:
                file.write(new)


main()
