#!/usr/bin/env python3
"""Brings the repository's own names to the spelling of today's library, once, after the toolchain's own script.

usage: tools/respell.py     at the top

respelled.txt, beside this file, has each name with what it is called now. Definitions, fields, constructors and lemmas are in snake case; a
dash stays where it joins the functions that a lemma's statement is about. Functions of src/ keep their names. What fell together with another
name got '_lem'. Of a comment only names between backticks are taken, and of a must-fail edit the facts that its comments name.
"""

import os
import re

TOKEN = re.compile(r"[A-Za-z_][\w'-]*")


def files(*ends):
    for folder, dirs, names in os.walk("crates"):
        dirs[:] = sorted(d for d in dirs if d != "out")
        for name in sorted(names):
            if name.endswith(ends):
                yield os.path.join(folder, name)


def read(path):
    with open(path, encoding="utf-8") as f:
        return f.read()


def main():
    spelled = dict(line.split() for line in read(os.path.join(os.path.dirname(__file__), "respelled.txt")).splitlines())

    def named(m):
        return spelled.get(m.group(0), m.group(0))

    def of_code(m):
        return re.sub(r"[A-Za-z_]\w*", named, m.group(0))

    for path in files(".antt", ".rt", ".edit"):
        kind = path.rsplit(".", 1)[1]
        name = of_code if kind == "rt" else named
        lines = []
        for line in read(path).split("\n"):
            if kind == "edit":
                lines.append(TOKEN.sub(name, line) if line.startswith("# refused by ") else line)
                continue
            text, mark, comment = line.partition("//" if kind == "rt" else "--")
            lines.append(TOKEN.sub(name, text) + mark + re.sub(r"`[^`]*`", lambda q: TOKEN.sub(name, q.group(0)), comment))
        with open(path, "w", encoding="utf-8") as f:
            f.write("\n".join(lines))


main()
