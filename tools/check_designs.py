#!/usr/bin/env python3
"""Builds every design of designs/ again and compares bytes, verdicts and the table of designs/README.md.

A source says what it should get in comment lines such as

    // Verdict under C2: accepted.
    // Verdict under S2: refused 13 3 7, line 30.

where the line is that of the record named, in the source. Each design must also come out the same when it is
described as text and that text is built.

    tools/check_designs.py
"""
import pathlib
import re
import sys

import describing
import lattices
import model
from design_builder import Unclear, build

FOLDER = pathlib.Path(__file__).resolve().parent.parent / "designs"
VERDICT = re.compile(r"^// Verdict under (\S+): (accepted|refused \d+ (\d+) (\d+), line (\d+))\.$", re.MULTILINE)


def problems_of(source, listing):
    """All that is wrong with one design."""
    text = source.read_text()
    try:
        built = build(text)
    except Unclear as problem:
        return [str(problem)]
    problems = []
    committed = source.with_suffix(".bin")
    if not committed.exists() or committed.read_bytes() != built.data:
        problems.append("the bytes differ from the source")
    if build(describing.described(model.read_design(built.data))).data != built.data:
        problems.append("described and built again, it is another design")
    verdicts = list(VERDICT.finditer(text))
    if not verdicts:
        problems.append("it names no verdict")
    for verdict in verdicts:
        problems += wrong_verdict(built, verdict, f"| [{source.name}]({source.name}) | {verdict[1]} |", listing)
    return problems


def wrong_verdict(built, verdict, row, listing):
    """What is wrong with one verdict, as the source and the listing state it."""
    name, stated, section, record, line = verdict.groups()
    stated = stated.split(",")[0]
    found = model.verdict(built.data, lattices.named(name))
    if found != stated:
        return [f"{name}: {found}, not {stated}"]
    problems = []
    if section and built.lines[int(section)][int(record)] != int(line):
        problems.append(f"{name}: the record is at line {built.lines[int(section)][int(record)]}, not {line}")
    if f"{row} {stated} |" not in listing:
        problems.append(f"{name}: README.md does not list it as {stated}")
    return problems


def main():
    sources = sorted(FOLDER.glob("*.design"))
    listing = (FOLDER / "README.md").read_text()
    wrong = [f"{source.name}: {problem}" for source in sources for problem in problems_of(source, listing)]
    wrong += [f"{file.name}: no source" for file in FOLDER.glob("*.bin") if not file.with_suffix(".design").exists()]
    print("\n".join(wrong) or f"{len(sources)} designs are as they say")
    sys.exit(bool(wrong))


if __name__ == "__main__":
    main()
