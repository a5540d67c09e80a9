#!/usr/bin/env python3
"""Times reading and judging on files of several sizes and depths, and prints milliseconds for one file.

Process start is left out: of reading, each file is read many times by one process and a run with few readings is taken away;
of judging, the time for the empty design is.

    for p in cases judge; do (cd crates/$p && rt run < stdin > /dev/null); done; tools/benchmark.py
"""
import pathlib
import subprocess
import time

import model
from reading_cases import largest, packed

ROOT = pathlib.Path(__file__).resolve().parent.parent
TIMES = 100
ASKED = (["sets", "2"], "S2")  # the lattice that designs are judged under


def seconds(program, text, arguments=(), runs=3):
    """The best of some runs."""
    best = float("inf")
    for _ in range(runs):
        start = time.perf_counter()
        subprocess.run([ROOT / "crates" / program / "out" / program, *arguments], input=text, capture_output=True, check=True)
        best = min(best, time.perf_counter() - start)
    return best


def reading_time(data):
    """Seconds for reading a file once, by the program `cases`."""
    few, many = (f"file {data.hex()}\n" + f"cut {len(data)}\n" * times for times in (1, TIMES + 1))
    return (seconds("cases", many.encode()) - seconds("cases", few.encode())) / TIMES


def judging_time(data):
    """Seconds for judging a file once."""
    return seconds("judge", data, ASKED[0], 20) - seconds("judge", packed([[]] * 5), ASKED[0], 20)


def deep_expression(depth):
    """One assignment of an expression that nests as deep as it is long."""
    variables = [[model.PORT, 1, model.FIXED, 0, 0, 0], [model.REGISTER, 1, model.FIXED, 0, 0, 0]]
    expressions = [[model.VARIABLE, 1, 0, 0, 0, 0]] + [[model.NOT, 1, 0, n, 0, 0] for n in range(depth - 1)]
    return packed([[], variables, [[model.CLOCKED, 0]], [[model.ASSIGN, 1, depth - 1, 0]], expressions])


def deep_command(depth):
    """Choices inside choices, with an idle command in each other branch."""
    variables = [[model.PORT, 1, model.FIXED, 0, 0, 0]]
    commands, expressions = [[model.NOTHING, 0, 0, 0]], []
    while len(commands) + 2 <= depth:
        expressions.append([model.VARIABLE, 1, 0, 0, 0, 0])
        commands.append([model.NOTHING, 0, 0, 0])
        commands.append([model.CHOICE, len(expressions) - 1, len(commands) - 2, len(commands) - 1])
    return packed([[], variables, [[model.CLOCKED, len(commands) - 1]], commands, expressions])


def long_sequence(length):
    """Sequences inside sequences."""
    commands = [[model.NOTHING, 0, 0, 0]]
    while len(commands) + 2 <= length:
        commands.append([model.NOTHING, 0, 0, 0])
        commands.append([model.SEQUENCE, len(commands) - 2, len(commands) - 1, 0])
    return packed([[], [], [[model.CLOCKED, len(commands) - 1]], commands, []])


def worst():
    """Every limit but the blocks': 60 selectors, 60 registers that they label, and choices by selectors around every assignment.

    Selector s labels register 60 + s. Each assignment stands under nested choices and reads several registers.
    """
    tables = [[0, 1, 2, 3] + [3] * 12 for _ in range(16)]
    variables = [[model.PORT, 2, model.FIXED, 0, 0, 0] for _ in range(60)]
    variables += [[model.REGISTER, 2, model.LOOKED_UP, s % 16, s, 0] for s in range(60)]
    variables += [[model.REGISTER, 2, model.FIXED, 0, 3, 0] for _ in range(8)]
    commands, expressions = [[model.NOTHING, 0, 0, 0]], []

    def add(section, *record):
        section.append(list(record))
        return len(section) - 1

    def reading(targets):
        tree = add(expressions, model.VARIABLE, 2, 0, targets[0], 0, 0)
        for v in targets[1:]:
            tree = add(expressions, model.XOR, 2, 0, tree, add(expressions, model.VARIABLE, 2, 0, v, 0, 0), 0)
        return tree

    top = 0
    for k in range(120):
        condition = add(
            expressions, model.EQUALS, 1, 0, add(expressions, model.VARIABLE, 2, 0, k % 60, 0, 0), add(expressions, model.CONSTANT, 2, 0, k % 4, 0, 0), 0
        )
        if k < 8:
            leaf = add(commands, model.ASSIGN, 120 + k, reading(range(60, 91)), 0)
        else:
            leaf = add(commands, model.NOTHING, 0, 0, 0)
        top = add(commands, model.CHOICE, condition, top, leaf)
    return packed([tables, variables, [[model.CLOCKED, top]], commands, expressions])


def main():
    designs = {name: (ROOT / "designs" / f"{name}.bin").read_bytes() for name in ("bus_arbiter", "cache_tags")}
    files = {"empty design": packed([[]] * 5)} | designs
    files |= {f"expression {n} deep": deep_expression(n) for n in (256, 512, 1024)}
    files |= {f"choices, {n} commands": deep_command(n) for n in (128, 256, 512)}
    files |= {"sequences, 511 commands": long_sequence(511), "60 selectors": worst(), "largest": packed(largest())}
    for name, data in files.items():
        print(f"reading  {name:26} {len(data):6} bytes  {1000 * reading_time(data):8.3f} ms")
    for name, data in files.items():
        print(f"judging  {name:26} {len(data):6} bytes  {1000 * judging_time(data):8.3f} ms")


if __name__ == "__main__":
    main()
