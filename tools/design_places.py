#!/usr/bin/env python3
"""Counts the places in src/ that an older style shows in, point by point (docs/DESIGN-PASS.md).

    tools/design_places.py            the working tree
    tools/design_places.py REVISION   a commit
    tools/design_places.py --list ..  with each place
"""
import re
import subprocess
import sys

# A point, what is looked for, and the pattern. `m` patterns run over a whole file, the others line by line.
PLACES = [
    (1, "a variant that says that there is nothing", r"^\s+(Unknown|Nothing|Plain),$"),
    (1, "an enum or a struct told from a number", r"fn \w+\(\w+: (?:u8|u16|u32|u64|usize)\) -> (?!Option\b|Result\b|Self\b)[A-Z]\w*(?!<)"),
    (1, "a refusal in an Option", r"-> Option<Refusal>"),
    (1, "an Option in a Result", r"Result<Option<"),
    (1, "a switch on the number of a kind", r"match \w+\.(?:section|number)\(\)|_ => 2,$"),
    (1, "a flag beside a value", r"tried: \[bool"),
    (3, "a loop over numbers", r"^\s*for \w+ in 0\.\."),
    (3, "a loop on a condition", r"^\s*(?:while|loop)\b"),
    (4, "Debug written by hand", r"^impl.* fmt::Debug for"),
    (4, "a conversion that is no From or TryFrom", r"fn (?!try_)\w+_from\(code"),
    (4, "a widening cast", r"\bas (?:u32|u64|Level)\b"),
    (4, "a name told by a function", r"-> &'static str"),
    (5, "a file and its layout side by side", r"mfile: &(?:'a )?\[u8\],\s*l(?:ayout)?: Layout"),
    (5, "a fact of a value as a premise", r"\b(?:Surveyed|SurveyedIn|Counts|CountsIn|Knows) (?:\w+\.now l\b|f l\b)"),
    (5, "a part of the laws said again", r"^\s+ghost (?:levels|reflexive|transitive) ="),
    (6, "an array of a size in figures", r"\[[\w\s():,&]+; \d+\]"),
    (6, "a packed index", r"\d+ \* \w+ \+ \w+|\w+ \* self\.n \+ \w+|\w+ \* \(n \+ 1\) \+"),
    (6, "an array beside another that it goes with", r"^\s+(?:pub )?(?:tried|levels|offsets|counts|bytes|joins|meets): \["),
    (7, "a switch on which step to run", r"match (?:rule|question|facts|lattice|first|second)\b"),
]

# Names of which both stand for one thing: (what, name, crate), .. in a group.
TWINS = [
    ["number refusal", "index_of records"],
    ["byte_at clearance", "byte records", "byte_past records"],
    ["Operation vectors", "Pairing records"],
    ["either survey", "both survey", "either paths", "both paths"],
    ["VariableSet survey", "VariableSet paths"],
    ["union survey", "intersection survey"],
    ["has survey", "level_tried flows", "value_at flows", "at machine"],
    ["Values flows", "Held machine"],
    ["Label paths", "Label machine"],
    ["label_of paths", "label_at machine"],
    ["entry_of paths", "entry_at machine"],
    ["width_of paths", "variable_width rules"],
    ["fits_width paths", "fits machine"],
    ["MOST_VARIABLES survey", "MOST_VARIABLES machine"],
    ["ENTRIES listing", "ENTRIES machine"],
    ["check_pairs records", "check_limits records"],
    ["check_tables judgement", "check_labels judgement", "check_selectors judgement"],
    ["count_tops survey", "count_parts survey", "count_values survey", "count_operands survey"],
    ["breaks_use rules", "breaks_assignment rules", "breaks_reading rules", "breaks_selector rules"],
    ["pair_count lattice", "is_over lattice", "columns lattice"],
    ["least clearance", "greatest clearance"],
    ["section refusal", "record refusal"],
    ["judge_single judge", "judge_reversed judge", "judge_beside judge"],
    ["chain_of judge", "sets_of judge", "table_of judge"],
    ["mark_reads survey", "mark_reads paths"],
    ["Formed design", "Accepted judgement"],
    ["join lattice", "meet lattice"],
    ["lowest lattice", "highest lattice"],
]


def git(*arguments):
    return subprocess.run(["git", *arguments], capture_output=True, text=True, check=True).stdout


def sources(revision):
    """The text of each source file by its path."""
    if revision is None:
        names = git("ls-files", "--cached", "--others", "--exclude-standard", "crates").split()
    else:
        names = git("ls-tree", "-r", "--name-only", revision, "crates").split()
    wanted = [n for n in names if re.fullmatch(r"crates/\w+/src/\w+\.rt", n) and not n.endswith("tests.rt")]
    if revision is None:
        return {n: open(n, encoding="utf-8").read() for n in wanted}
    return {n: git("show", f"{revision}:{n}") for n in wanted}


def matches(pattern, text):
    """The lines at which a pattern stands."""
    if pattern.startswith("m"):
        return [text.count("\n", 0, m.start()) + 1 for m in re.finditer(pattern[1:], text)]
    return [i for i, line in enumerate(text.split("\n"), 1) for _ in re.finditer(pattern, line)]


def stands(name, texts):
    word, crate = name.split()
    declared = re.compile(rf"\b(?:fn|struct|enum|type|const) {word}\b")
    return any(declared.search(t) for p, t in texts.items() if p.split("/")[1] == crate)


def main():
    words = [w for w in sys.argv[1:] if w != "--list"]
    texts = sources(words[0] if words else None)
    totals = {}
    for point, what, pattern in PLACES:
        found = [(p, i) for p, t in sorted(texts.items()) for i in matches(pattern, t)]
        totals[point] = totals.get(point, 0) + len(found)
        print(f"{point}  {len(found):4}  {what}")
        if "--list" in sys.argv:
            for path, line in found:
                print(f"            {path}:{line}")
    groups = [g for g in TWINS if sum(stands(n, texts) for n in g) > 1]
    for group in groups:
        print("2        " + ", ".join(n for n in group if stands(n, texts)))
    totals[2] = len(groups)
    for point in sorted(totals):
        print(f"point {point}: {totals[point]}")


main()
