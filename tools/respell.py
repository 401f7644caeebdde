#!/usr/bin/env python3
"""Brings the names of this repository's definitions and lemmas to today's spelling: words in snake case, facts in camel case.

usage: python3 tools/respell.py, at the top of the repository, once, after the toolchain's own port script.
The names are those of respell.txt, a line for each: the old name and the new one. Whole words alone are turned, in specs, proofs,
sources and must-fail edits; strings, and what is not listed, stay as they are. What the port script calls All by another
library name gets that name.
"""

import pathlib
import re

HERE = pathlib.Path(__file__).resolve().parent
WORD = re.compile(r'"(?:\\.|[^"\\])*"|[A-Za-z_][\w\'-]*')
ALL = re.compile(r'(?:--|//).*|"(?:\\.|[^"\\])*"|(?<![\w.\'-])All(?![\w\'-])')


def respelled(text, names):
    text = WORD.sub(lambda m: names.get(m.group(0), m.group(0)), text)
    if "AllByRecursion as All" in text:
        text = text.replace("AllByRecursion as All", "AllByRecursion")
        text = ALL.sub(lambda m: "AllByRecursion" if m.group(0) == "All" else m.group(0), text)
    return text


def main():
    lines = (HERE / "respell.txt").read_text(encoding="utf-8").splitlines()
    names = dict(line.split() for line in lines)
    for kind in ("antt", "rt", "edit"):
        for path in sorted(pathlib.Path("crates").rglob("*." + kind)):
            if "out" in path.parts:
                continue
            old = path.read_text(encoding="utf-8")
            new = respelled(old, names)
            if new != old:
                path.write_text(new, encoding="utf-8")
                print(path)


main()
