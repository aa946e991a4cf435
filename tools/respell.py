#!/usr/bin/env python3
"""Brings the names of our own definitions, fields and lemmas to today's spelling: words in snake case, types in upper camel case.

usage: python3 tools/respell.py        at the top of the repository, once, after the toolchain's own port script

tools/respelled_names.txt has a line for each name: the old one, then the new one. A name changes in .antt files, in the clauses and
imports of .rt files, and in must-fail edits. In .rt files only names that no Rust identifier can be are looked for (lower camel case
and dashes behind a capital), never inside a string. In comments of .antt files words joined by dashes stay, for they are prose there.
"""

import os
import re

HERE = os.path.dirname(os.path.realpath(__file__))
TOKEN = re.compile(r"[A-Za-z][A-Za-z0-9_'-]*")
STRING = re.compile(r'"(?:[^"\\]|\\.)*"')


def table():
    with open(os.path.join(HERE, "respelled_names.txt"), encoding="utf-8") as f:
        return dict(line.split() for line in f)


def swap(text, names):
    return TOKEN.sub(lambda m: names.get(m.group(0), m.group(0)), text)


def antt(text, names, prose):
    out = []
    for line in text.split("\n"):
        code, dash, comment = line.partition("-- ") if line.lstrip().startswith("-- ") or "  -- " in line else (line, "", "")
        out.append(swap(code, names) + dash + swap(comment, prose))
    return "\n".join(out)


def rust(text, names):
    out, at = [], 0
    for m in STRING.finditer(text):
        out += [swap(text[at : m.start()], names), m.group(0)]
        at = m.end()
    return "".join(out) + swap(text[at:], names)


def main():
    names = table()
    plain = {k: v for k, v in names.items() if "-" not in k or k[0].isupper()}
    prose = {k: v for k, v in names.items() if "-" not in k}
    changed = 0
    for folder, dirs, files in os.walk("crates"):
        dirs[:] = sorted(d for d in dirs if d not in ("out", "data"))
        for name in sorted(files):
            path = os.path.join(folder, name)
            if not name.endswith((".antt", ".rt", ".edit")):
                continue
            with open(path, encoding="utf-8") as f:
                old = f.read()
            new = antt(old, names, prose) if name.endswith(".antt") else rust(old, plain)
            if new != old:
                with open(path, "w", encoding="utf-8") as f:
                    f.write(new)
                changed += 1
    print(f"respell: {changed} files")


if __name__ == "__main__":
    main()
