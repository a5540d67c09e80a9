#!/usr/bin/env python3
"""Runs sessions in Icarus Verilog: on random accepted designs beside tools/model.py, comparing every value after every call;
and those that are stored for the program `cases`, comparing every value that a read is answered with.

    apt-get install iverilog; tools/compare_icarus.py [--count N] [--seed N]
"""
import argparse
import pathlib
import random
import subprocess
import tempfile

import model
from random_designs import random_design
from session_cases import CALLS, CHAIN, ROOT, is_accepted, random_call
from verilog import bench


def icarus(text, folder):
    """The values that the bench prints, a list for each call."""
    source, program = pathlib.Path(folder) / "bench.v", pathlib.Path(folder) / "bench"
    source.write_text(text)
    subprocess.run(["iverilog", "-o", program, source], check=True)
    shown = subprocess.run(["vvp", "-n", program], check=True, capture_output=True, text=True).stdout
    return [[int(word) for word in line.split()] for line in shown.splitlines()]


def accepted_calls(rng, design):
    """Drives that are not refused, clocks and resets, and the values after each by the model."""
    session, calls, values = model.Session(design), [], []
    while len(calls) < CALLS:
        call = random_call(rng, design)
        word, *numbers = call.split(":")
        if word == "read":
            continue
        try:
            getattr(session, word)(*map(int, numbers))
        except model.Refused:
            continue
        calls.append(call)
        values.append(session.settled()[0])
    return calls, values


def random_sessions(options, folder):
    """Random sessions, beside the model."""
    rng, done, compared, differences = random.Random(options.seed), 0, 0, 0
    while done < options.count:
        data = random_design(rng, CHAIN)
        if not is_accepted(data):
            continue
        done += 1
        design = model.read_design(data)
        calls, values = accepted_calls(rng, design)
        compared += sum(map(len, values))
        if icarus(bench(design, calls), folder) != values:
            differences += 1
            print(f"design {done} differs: {data.hex()} {' '.join(calls)}")
    print(f"{done} random sessions, {compared} values compared, {differences} sessions differ")


def stored_sessions(folder):
    """The stored sessions, beside the answers that are stored with them."""
    stored = ROOT / "crates" / "cases"
    answers = (stored / "stdout").read_text().splitlines()
    lines = (stored / "stdin").read_text().splitlines()
    at, compared, differences = 0, 0, 0
    for line in lines:
        word, *rest = line.split()
        calls = rest[1:] if word == "run" and is_accepted(bytes.fromhex(rest[0])) else ["case"]
        answered = list(zip(calls, answers[at : at + len(calls)]))
        at += len(calls)
        if calls == ["case"]:
            continue
        made = [call for call, answer in answered if answer == "done"]
        values = icarus(bench(model.read_design(bytes.fromhex(rest[0])), ["reset", *made]), folder)
        step = 0
        for call, answer in answered:
            step += answer == "done"
            if call.startswith("read") and not answer.startswith("refused"):
                compared += 1
                differences += values[step][int(call.split(":")[2])] != int(answer.split()[0])
    print(f"stored sessions: {compared} values read, {differences} differ")


def main():
    parser = argparse.ArgumentParser()
    parser.add_argument("--count", type=int, default=300)
    parser.add_argument("--seed", type=int, default=1)
    options = parser.parse_args()
    with tempfile.TemporaryDirectory() as folder:
        stored_sessions(folder)
        random_sessions(options, folder)


if __name__ == "__main__":
    main()
