#!/usr/bin/env python3
"""Writes the stored input of the program `cases` and the answers that it has to print.

    tools/stored_cases.py            writes crates/cases/stdin and stdout
    tools/stored_cases.py --check    only compares
"""
import pathlib
import sys

import reading_cases
import session_cases
import verdict_cases

HERE = pathlib.Path(__file__).resolve().parent.parent / "crates" / "cases"


def main():
    made = [case for cases in (reading_cases, verdict_cases, session_cases) for case in cases.cases()]
    texts = {"stdin": "".join(f"{line}\n" for line, _ in made), "stdout": "".join(f"{answer}\n" for _, answer in made)}
    if "--check" in sys.argv[1:]:
        bad = [name for name, text in texts.items() if (HERE / name).read_text() != text]
        sys.exit(f"differs: {', '.join(bad)}" if bad else 0)
    for name, text in texts.items():
        (HERE / name).write_text(text)
    print(f"{len(made)} cases")


if __name__ == "__main__":
    main()
