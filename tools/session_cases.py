"""Sessions to replay, for the program `cases`, and what each call answers.

    run HEX CALL ...    a design, then calls `drive:V:N`, `clock`, `reset` and `read:W:V`, under the chain of 2

The answers are those of tools/model.py, the designs the examples that the chain of 2 accepts and random ones.
"""
import pathlib
import random

import lattices
import model
from random_designs import random_design

ROOT = pathlib.Path(__file__).resolve().parent.parent
CHAIN = lattices.chain(2)
SESSIONS = 60  # on random designs
CALLS = 40
STRAYS = (128, 4_294_967_295)


def is_accepted(data):
    try:
        model.judge(model.read_design(data), CHAIN)
    except model.Refused:
        return False
    return True


def random_call(rng, design):
    """Mostly drives of ports, clocks and reads; now and then a reset, or a call that is refused."""
    variables = design.variables
    v = rng.randrange(len(variables)) if variables and rng.random() < 0.95 else rng.choice(STRAYS)
    kind = rng.choices(("drive", "clock", "read", "reset"), (5, 3, 6, 0.3))[0]
    if kind == "drive":
        width = variables[v].width if v < len(variables) else 1
        return f"drive:{v}:{rng.randrange(2**width) if rng.random() < 0.95 else 2**32 - 1}"
    return f"read:{rng.choice((0, 0, 1, 1, 2))}:{v}" if kind == "read" else kind


def answered(session, call):
    word, *numbers = call.split(":")
    try:
        if word == "read":
            watcher, v = map(int, numbers)
            return "{} {}".format(*session.read(CHAIN, watcher, v))
        getattr(session, word)(*map(int, numbers))
    except model.Refused as refusal:
        return str(refusal)
    return "done"


def replayed(rng, data):
    """A line, and the answers of its calls."""
    design = model.read_design(data)
    calls = [random_call(rng, design) for _ in range(CALLS)]
    session = model.Session(design)
    return f"run {data.hex()} {' '.join(calls)}", "\n".join(answered(session, call) for call in calls)


def cases():
    """Each line with its answers."""
    rng = random.Random(6)
    for file in sorted((ROOT / "designs").glob("*.bin")):
        if is_accepted(file.read_bytes()):
            yield replayed(rng, file.read_bytes())
        else:
            yield f"run {file.read_bytes().hex()} clock", refused(file.read_bytes())
    made = 0
    while made < SESSIONS:
        data = random_design(rng, CHAIN)
        if is_accepted(data):
            made += 1
            yield replayed(rng, data)


def refused(data):
    """The refusal of a design that is not accepted; for 13 that of the first assignment."""
    try:
        model.judge(model.read_design(data), CHAIN)
    except model.Refused as refusal:
        return str(refusal)
    raise AssertionError("accepted")
