#!/usr/bin/env python3
"""Brings the repository's own definitions and lemmas to one spelling: snake case, where a dash or a capital inside a word stood.

usage: python3 tools/respell.py        at the top of the repository, once, right after port.py

The table is tools/respell.txt: a line for each name, the old one and the new one. Where a lemma would have got its definition's name it ends in _lem,
and where the case of a relation would have got the name of a number, in _given. Names of Rattle source, of files, strings, inputs and outputs stay.
"""

import os
import re

TOP = os.path.dirname(os.path.dirname(os.path.abspath(__file__)))
# What may stand beside a name; a dot before or behind one is looked at on its own.
EDGE = r"[\s(){}\[\],;:.`\"⟦⟧«»|/=]"
WORD = re.compile(r"[^\s(){}\[\],;:.`\"⟦⟧«»|/=λ]+")
QUOTED = re.compile(r"`[^`\n]+`")
CODE = re.compile(r'b?"(?:[^"\\]|\\.)*"|//[^\n]*', re.S)
NOTE = re.compile(r"--[^\n]*")


def table():
    with open(os.path.join(TOP, "tools", "respell.txt"), encoding="utf-8") as f:
        return dict(line.split() for line in f if line.strip())


NAMES = table()
# Names that hold a capital stand nowhere but for the definition; the others may be words of prose, or of the source.
CAMEL = {old: new for old, new in NAMES.items() if re.search("[a-z0-9][A-Z]", old)}
SNAKE = {old for old in NAMES if "-" not in old and old not in CAMEL}


def turned(text, names):
    def one(m):
        old = m[0]
        if old not in names:
            return old
        if old in SNAKE and (m.start() and text[m.start() - 1] == "." or text[m.end() : m.end() + 1] == "."):
            return old
        return names[old]

    return WORD.sub(one, text)


def apart(text, rest, inside, outside):
    """The text with what `rest` finds turned by `inside`, and all between by `outside`."""
    out, at = [], 0
    for m in rest.finditer(text):
        out += [outside(text[at : m.start()]), inside(m[0])]
        at = m.end()
    return "".join(out + [outside(text[at:])])


def of_logic(text):
    return apart(text, NOTE, lambda t: turned(t, CAMEL), lambda t: turned(t, NAMES))


def of_source(text):
    """A comment has names of definitions, a string none."""
    return apart(text, CODE, lambda t: turned(t, CAMEL) if t.startswith("//") else t, lambda t: turned(t, CAMEL))


def of_edit(text):
    logic = re.search(r"^file: .*\.antt$", text, re.M)
    return turned(text, NAMES) if logic else turned(text, CAMEL)


def of_page(text):
    return QUOTED.sub(lambda m: turned(m[0], NAMES if re.fullmatch(r"`[\w.-]+`", m[0]) else CAMEL), text)


def kind(path):
    name = os.path.basename(path)
    if name.endswith(".antt"):
        return of_logic
    if name.endswith(".rt"):
        return of_source
    if name.endswith(".edit"):
        return of_edit
    if name.endswith(".md"):
        return of_page
    return None


def main():
    count = 0
    for top in ("crates", "docs", "README.md"):
        paths = [os.path.join(TOP, top)] if top.endswith(".md") else []
        for folder, below, files in os.walk(os.path.join(TOP, top)):
            below[:] = sorted(it for it in below if it != "out")
            paths += [os.path.join(folder, it) for it in sorted(files)]
        for path in paths:
            turn = kind(path)
            if not turn:
                continue
            with open(path, encoding="utf-8", newline="") as f:
                text = f.read()
            new = turn(text)
            if new != text:
                count += 1
                with open(path, "w", encoding="utf-8", newline="") as f:
                    f.write(new)
    print(f"respell: {len(NAMES)} names, {count} files")


if __name__ == "__main__":
    main()
