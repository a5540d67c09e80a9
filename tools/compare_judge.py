#!/usr/bin/env python3
"""Judges random designs, and mutations of them, with the program `judge` and with tools/model.py, and tells every difference.

    (cd crates/judge && rt run < stdin > /dev/null); tools/compare_judge.py [--count N] [--seed N]
"""
import argparse
import pathlib
import subprocess
import tempfile

import lattices
import model
from random_designs import made

PROGRAM = pathlib.Path(__file__).resolve().parent.parent / "crates" / "judge" / "out" / "judge"
DIAMOND = "1111010100110001"

# Each lattice as tools/lattices.py names it, and as the program's arguments do; TABLE stands for a file with the diamond.
LATTICES = {
    "C2": [],
    "C3": ["chain", "3"],
    "S2": ["sets", "2"],
    f"T4:{DIAMOND}": ["table", "TABLE"],
    "P(C2,S1)": ["pair", "chain", "2", "sets", "1"],
    "R(C3)": ["reversed", "chain", "3"],
    "R(S2)": ["reversed", "sets", "2"],
}


def expected(data, name):
    """All lines that the program may print: for 13 any offending command."""
    lattice = lattices.named(name)
    try:
        model.judge(model.read_design(data[: model.MOST_BYTES]), lattice)
    except model.Refused as refusal:
        records = refusal.commands or (refusal.record,)
        return {f"{lattice.sign} refused {refusal.number} {refusal.section} {record}\n" for record in records}
    return {f"{lattice.sign} accepted\n"}


def printed(data, arguments):
    run = subprocess.run([PROGRAM, *arguments], input=data, capture_output=True, check=True)
    return run.stdout.decode()


def main():
    parser = argparse.ArgumentParser()
    parser.add_argument("--count", type=int, default=1000)
    parser.add_argument("--seed", type=int, default=1)
    options = parser.parse_args()
    differences, verdicts = 0, {}
    with tempfile.NamedTemporaryFile("w", suffix=".table") as table:
        table.write("".join(f"{DIAMOND[4 * a : 4 * a + 4]}\n" for a in range(4)))
        table.flush()
        for number in range(options.count):
            name = list(LATTICES)[number % len(LATTICES)]
            data = made(options.seed, number, lattices.named(name), 0.5)
            arguments = [table.name if word == "TABLE" else word for word in LATTICES[name]]
            line, allowed = printed(data, arguments), expected(data, name)
            verdicts[line.split()[1:3][-1]] = verdicts.get(line.split()[1:3][-1], 0) + 1
            if line not in allowed:
                differences += 1
                print(f"design {number} under {name}: {line.strip()}, where the model has {sorted(allowed)}")
    print(f"{options.count} designs, {differences} differences; verdicts: {dict(sorted(verdicts.items()))}")


if __name__ == "__main__":
    main()
