#!/usr/bin/env python3
"""Respells the repository's own definitions and lemmas by tools/respell.tsv: old name, a tab, new name.

usage: tools/respell.py [--check]     at the top of the checkout

Run once, after the toolchain's port.py. In .antt files each whole name turns, also in comments; in .rt files, edits and pages a name with a capital
turns everywhere, and one with a dash only where it cannot be prose: in a clause, in back quotes, or behind a colon or a dot. Names that the checker
makes for a proof (in proofs/F/) are not in the table. --check writes nothing and prints what would change.
"""
import glob
import os
import re
import sys

HERE = os.path.dirname(os.path.abspath(__file__))
NAME = re.compile(r"[^\s(){}.;,@\"«»:`|/\\\[\]]+")


def table():
    with open(os.path.join(HERE, "respell.tsv"), encoding="utf-8") as it:
        return dict(row.rstrip("\n").split("\t") for row in it)


def turned(text, names, dashes):
    return NAME.sub(lambda m: names[m[0]] if m[0] in names and (dashes or "-" not in m[0]) else m[0], text)


def antt(text, names):
    """Code turns whole; of a comment what is in back quotes, and names with a capital."""
    lines = []
    for line in text.split("\n"):
        code, mark, comment = line.partition("--") if re.match(r"^\s*--|.*\s--\s", line) else (line, "", "")
        lines.append(turned(code, names, True) + mark + prose(comment, names))
    return "\n".join(lines)


def prose(text, names):
    text = re.sub(r"`[^`\n]+`", lambda m: turned(m[0], names, True), text)
    text = re.sub(r"(?<=\.antt:)[\w'-]+|(?<=[a-z]\.)[a-z][\w'-]+", lambda m: names.get(m[0], m[0]), text)
    return turned(text, names, False)


def source(text, names):
    """Clauses of a .rt file are all between braces on one line; names with a dash stand nowhere else in code."""
    return "\n".join(prose(line, names) if line.lstrip().startswith("//") else turned(line, names, True) for line in text.split("\n"))


def main():
    names = table()
    kinds = [
        (antt, "crates/*/specs/**/*.antt"),
        (antt, "crates/*/proofs/**/*.antt"),
        (source, "crates/*/src/**/*.rt"),
        (source, "crates/*/must-fail/*.edit"),
        (source, "tests/clauses/**/*.edit"),
        (prose, "README.md"),
        (prose, "docs/**/*.md"),
    ]
    for turn, pattern in kinds:
        for path in sorted(glob.glob(pattern, recursive=True)):
            if "/out/" in path or path == "docs/PORT.md":
                continue
            with open(path, encoding="utf-8", newline="") as it:
                old = it.read()
            new = turn(old, names)
            if new != old:
                print(path)
                if "--check" not in sys.argv:
                    with open(path, "w", encoding="utf-8", newline="") as it:
                        it.write(new)


main()
