"""Designs to judge, for the program `cases`, under a lattice of each kind, and the verdicts.

    judge LATTICE HEX

The example designs have the verdicts that their sources predict, which tools/check_designs.py holds to the model. On random
designs, some of each refusal of the judge under each lattice, the verdicts are those of tools/model.py; of designs that break
13, those with one offender.
"""
import pathlib
import random
import re

import lattices
import model
from mutations import mutated
from random_designs import random_design

ROOT = pathlib.Path(__file__).resolve().parent.parent
LATTICES = {"C2": "C2", "S2": "S2", "T4": "T4:1111010100110001", "P(C2,C2)": "P(C2,C2)", "R(C3)": "R(C3)"}
EACH = 2  # designs for each verdict and lattice
WANTED = ("accepted", 11, 12, 13, 14)


def verdict(data, lattice):
    """The verdict's kind, and its line; none where 13 may show several commands."""
    try:
        model.judge(model.read_design(data), lattice)
    except model.Refused as refusal:
        return refusal.number, None if len(refusal.commands) > 1 else str(refusal)
    return "accepted", "accepted"


def example_cases():
    for source in sorted((ROOT / "designs").glob("*.design")):
        data = source.with_suffix(".bin").read_bytes()
        for name, predicted in re.findall(r"Verdict under (\S+): (accepted|refused \d+ \d+ \d+)", source.read_text()):
            yield f"judge {name} {data.hex()}", predicted


def random_cases():
    rng = random.Random(11)
    for name, meaning in LATTICES.items():
        lattice = lattices.named(meaning)
        missing = {kind: EACH for kind in WANTED}
        while any(missing.values()):
            data = random_design(rng, lattice)
            data = mutated(rng, data) if rng.random() < 0.6 else data
            kind, line = verdict(data, lattice)
            if missing.get(kind) and line:
                missing[kind] -= 1
                yield f"judge {name} {data.hex()}", line


def cases():
    """Each line with its answer."""
    yield from example_cases()
    yield from random_cases()
