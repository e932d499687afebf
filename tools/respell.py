#!/usr/bin/env python3
"""Gives the repository's own definitions and lemmas today's spelling: words in snake case, facts and types in camel case.

usage: python3 tools/respell.py      at the top of the repository, once, after the kit's script

The table in tools/respell.txt has a line for each name, the old and the new spelling. A dash stays where it joins a
word of the library to one of ours, as in length-shown. Rust names have no dash, so they keep theirs; a comment that
names a definition follows it.
"""

import os
import re

HERE = os.path.dirname(os.path.realpath(__file__))
TOKEN = re.compile(r"[^\s(){}\[\],;@\"`|]+")


def table():
    with open(os.path.join(HERE, "respell.txt"), encoding="utf-8") as lines:
        return dict(line.split() for line in lines if line.strip())


def respelled(text, names):
    def token(match):
        # a path or a projection: each part is a name of its own; a generated step (`c.`, `w.`, `goal.`) keeps its name
        parts = match.group(0).split(".")
        generated = parts[0] in ("c", "w", "goal")
        new = [names.get(p, p) if i != 1 or not generated else p for i, p in enumerate(parts)]
        return ".".join(new)

    return TOKEN.sub(token, text)


def main():
    names = table()
    for folder, folders, files in os.walk("crates"):
        folders[:] = sorted(f for f in folders if f not in ("out", "must-fail"))
        for name in sorted(files):
            if not name.endswith((".rt", ".antt")):
                continue
            path = os.path.join(folder, name)
            with open(path, encoding="utf-8") as file:
                old = file.read()
            new = respelled(old, names)
            if new != old:
                with open(path, "w", encoding="utf-8") as file:
                    file.write(new)
                print(path)


if __name__ == "__main__":
    main()
