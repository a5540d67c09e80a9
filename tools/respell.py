#!/usr/bin/env python3
"""Respells the definitions and lemmas of this repository: words in snake case, types in camel case.

usage: python3 tools/respell.py        at the top of the repository, once, right after port.py of the kit

Each line of respelled_names.txt is an old name and its new one. Names are replaced as whole words, all at once, in every
.rt and .antt file of crates/ and in every must-fail edit; in comments only between backquotes. Functions of src/, strings,
inputs and outputs keep their names.
"""

import os
import re

HERE = os.path.dirname(os.path.realpath(__file__))
CRATES = os.path.join(os.path.dirname(HERE), "crates")

# Old names that the library has too: they are this repository's only in these crates.
ONLY_IN = {"not-not": {"design"}, "or-none": {"design", "judgement"}, "settled_at": {"design"}, "is-register": {"design"}}

WORD = re.compile(r"(?<![\w'-])[A-Za-z][\w'-]*")


def names():
    with open(os.path.join(HERE, "respelled_names.txt"), encoding="utf-8") as f:
        return dict(line.split() for line in f)


# Strings, and comments with the words between backquotes apart.
STRING = re.compile(r'("(?:[^"\\\n]|\\.)*")')
QUOTED = re.compile(r"(`[^`\n]*`)")


def respelled(text, table, crate, comment):
    def one(found):
        word = found.group(0)
        if word not in table or crate not in ONLY_IN.get(word, {crate}):
            return word
        return table[word]

    def code(part):
        return "".join(p if p.startswith('"') else WORD.sub(one, p) for p in STRING.split(part))

    def prose(part):
        return "".join(WORD.sub(one, p) if p.startswith("`") else p for p in QUOTED.split(part))

    def line(it):
        found = re.search(comment, it)
        at = found.start() if found else len(it)
        return code(it[:at]) + prose(it[at:])

    return "".join(line(it) for it in text.splitlines(keepends=True))


def main():
    table = names()
    for folder, dirs, files in os.walk(CRATES):
        dirs[:] = sorted(d for d in dirs if d != "out")
        crate = os.path.relpath(folder, CRATES).split(os.sep)[0]
        for name in sorted(files):
            if not name.endswith((".rt", ".antt", ".edit")):
                continue
            path = os.path.join(folder, name)
            with open(path, encoding="utf-8") as f:
                old = f.read()
            new = respelled(old, table, crate, r"(?<!\S)--(?!\S)" if name.endswith(".antt") else r"//")
            if new != old:
                with open(path, "w", encoding="utf-8") as f:
                    f.write(new)


if __name__ == "__main__":
    main()
