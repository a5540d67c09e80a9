#!/usr/bin/env python3
"""Writes the questions and answers of the program `questions`.

The answers are those of tools/lattices.py, which knows a lattice by its count and order alone and finds joins, meets,
lowest and highest levels by looking at every level, so that it shares no formula with the crates.

    tools/lattice_questions.py            writes crates/questions/stdin and stdout
    tools/lattice_questions.py --check    only compares
"""
import pathlib
import random
import re
import sys

import lattices

STRAYS = [65_535, 65_536, 4_294_967_295]
PENTAGON = "T5:1111101011001010001100001"

# Lattices by the names that the program knows; T5 is the pentagon.
NAMES = [
    "C0", "C1", "C2", "C5", "C65536", "C65537", "S0", "S3", "S16", "S17", "T5",
    "P(C2,S2)", "P(S8,S8)", "P(C300,C300)", "P(C65536,C65536)", "P(P(C2,C3),S1)", "P(C3,P(C2,S2))", "P(T5,C2)",
    "R(C5)", "R(S3)", "R(T5)", "R(P(C2,S2))", "R(P(C300,C300))", "R(R(S3))", "P(R(C5),S2)",
]  # fmt: skip

# Words for table texts, with `/` for a line end: lattices, and one or more of everything that is refused.
SIXTEEN = ["0" * a + "1" * (16 - a) for a in range(16)]
TEXTS = [
    "1", "1/", "1111/0101/0011/0001", "1111/0101/0011/0001/", "11111/01001/00101/00011/00001",
    "111/011/001", "100/110/111", "/".join(SIXTEEN), "/".join(SIXTEEN) + "/",
    # refused for their count
    "", "/".join(["1"] * 17), "/" * 17, "/".join(["1" * 17] * 17),
    # for their shape
    "/", "//", "11", "11/0", "11/01/0", "11/01//", "/11/01", "1/1", "111/011/01", "111/011/0011", "11/0/1",
    "12/01", "1a/01", "1./01", "-1/01", "+1/01", "é1/01",
    # for a law: reflexive, antisymmetric, transitive, no join, no meet, no lowest or highest level
    "0", "10/00", "11/11", "110/011/001", "1011/0111/0010/0001", "111111/010111/001111/000101/000011/000001",
    "100/010/001", "101/011/001", "111/010/001",
]  # fmt: skip


def lattice_named(name):
    """The lattice, or the refusal."""
    try:
        return lattices.named(re.sub(r"\bT5\b", PENTAGON, name))
    except lattices.NoLattice as refusal:
        return str(refusal)


def lattice_spelled(word):
    """The lattice whose table the text spells, or the refusal; from the text's lines."""
    text = word.replace("/", "\n")
    lines = text.removesuffix("\n").split("\n") if text else []
    even = all(len(line) == len(lines) and not set(line) - set("01") for line in lines)
    try:
        return lattices.table(len(lines), [int(digit) for line in lines for digit in line] if even else [])
    except lattices.NoLattice as refusal:
        return str(refusal)


def couples(count, rng):
    """Two numbers to ask about: levels, and some that are none."""
    if count > 12:
        ends = [(0, count - 1), (count - 1, 0), (count - 1, count - 1), (0, count), (count, 0)]
        return ends + [(rng.randrange(count), rng.randrange(count)) for _ in range(4)]
    levels = [(a, b) for a in range(count) for b in range(count)]
    numbers = list(range(count)) + [count] + STRAYS
    some = rng.sample(levels, min(len(levels), 12))
    return some + [(rng.choice(numbers), rng.choice(STRAYS)), (rng.choice(STRAYS), rng.choice(numbers)), (count, 0), (0, count)]


def questions(lattice, rng):
    yield from ("sign", "count", "lowest", "highest", "product")
    if not isinstance(lattice, str):
        for a, b in couples(lattice.count, rng):
            yield from (f"{name} {a} {b}" for name in ("below", "join", "meet"))


def product(name):
    """The product of a pair's counts, or the refusal; no other kind has one."""
    if not name.startswith("P("):
        return "unknown"
    depth, inside = 0, name[2:-1]
    for at, mark in enumerate(inside):
        depth += (mark == "(") - (mark == ")")
        if mark == "," and depth == 0:
            break
    try:
        return str(lattices.product(lattice_named(inside[:at]).count, lattice_named(inside[at + 1 :]).count))
    except lattices.NoLattice as refusal:
        return str(refusal)


def answer(name, lattice, question):
    if isinstance(lattice, str):
        return lattice
    word, *levels = question.split()
    if word == "product":
        return product(name)
    if word in ("sign", "count"):
        return str(getattr(lattice, word))
    found = getattr(lattice, word)(*map(int, levels))
    return {True: "yes", False: "no"}[found] if word == "below" else str(found)


def main():
    rng = random.Random(2)
    asked = [("nothing", None, "")]
    for name in NAMES:
        lattice = lattice_named(name)
        asked += [(name, lattice, question) for question in questions(lattice, rng)]
    for word in TEXTS:
        lattice = lattice_spelled(word)
        few = ["count"] if isinstance(lattice, str) else ["count", "lowest", "highest", "join 1 2", "meet 1 2"]
        asked += [(f"T:{word}", lattice, question) for question in few]
    lines = [f"{name} {question}".rstrip() for name, _, question in asked]
    answers = ["unknown"] + [answer(*question) for question in asked[1:]]
    texts = {"stdin": "".join(f"{line}\n" for line in lines), "stdout": "".join(f"{a} {b}\n" for a, b in zip(lines, answers))}
    folder = pathlib.Path(__file__).resolve().parent.parent / "crates" / "questions"
    if "--check" in sys.argv[1:]:
        bad = [name for name, text in texts.items() if (folder / name).read_text() != text]
        sys.exit(f"differs: {', '.join(bad)}" if bad else 0)
    for name, text in texts.items():
        (folder / name).write_text(text)
    print(f"{len(lines)} questions")


if __name__ == "__main__":
    main()
