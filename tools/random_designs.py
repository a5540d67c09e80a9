#!/usr/bin/env python3
"""Writes random design files into a folder: formed designs, most of them accepted, and mutations of such designs.

    tools/random_designs.py FOLDER [--count N] [--seed N] [--lattice NAME] [--mutations SHARE]

The files are 0000.bin, 0001.bin, ...; verdicts.txt beside them has a line for each with the verdict of
tools/model.py, such as `0007 C2 refused 13 3 4|9`, where 13 shows all offending commands. A seed gives the same
files each time, and a file depends on its own number and the options only, not on the count.

A design is made as a source for tools/design_builder.py: variables with all sorts of labels, then blocks with
nested choices, in which the places that the form rules leave are filled at random. Most designs are then mended,
offender by offender, until the model accepts them, so that what is left of them lies close to the edge of the rules.
"""
import argparse
import pathlib
import random
from collections import Counter

import lattices
import model
from design_builder import Unclear, build
from mutations import mutated

MENDED = 0.85  # of the formed designs
MOST_ROUNDS = 30  # of mending
GUARDING_ROUNDS = 5  # the first ones, in which an offender may be kept under a guard
LARGE = 0.04  # of the designs
KEPT_14 = 0.6  # of the designs that come to be refused for 14, which 13 would hide otherwise


class Variable:
    """A variable of a design in the making; its label is a level or a pair of selector and table."""

    def __init__(self, kind, width, label, reset=0, block=0):
        self.kind, self.width, self.label, self.reset, self.block = kind, width, label, reset, block
        self.name = None

    def declared(self):
        label = f"level {self.label}" if isinstance(self.label, int) else f"by {self.label[0].name}: {self.label[1]}"
        reset = f" reset {self.reset}" if self.kind == "register" else ""
        return f"{self.kind} [{self.width - 1}:0] {self.name} {label}{reset};"


class Assign:
    def __init__(self, target, value, plain=False):
        self.target, self.value = target, value
        self.plain = plain  # mending made it a constant


class Choice:
    def __init__(self, condition, then, other):
        self.condition, self.then, self.other = condition, then, other


class Maker:
    """Makes one random design."""

    def __init__(self, rng, lattice):
        self.rng, self.lattice = rng, lattice
        self.scale = 4 if rng.random() < LARGE else 1
        self.tables = [self.table() for _ in range(rng.randint(1, 4))]
        self.variables, self.settled, self.clocked = [], [], []
        self.make_held()
        self.make_settled()
        self.make_clocked()
        rng.shuffle(self.variables)
        for number, variable in enumerate(self.variables):
            variable.name = f"{variable.kind[0]}{number}"

    # -- variables

    def level(self):
        """A level, the extreme ones more often."""
        ends = [0, 0, self.lattice.count - 1]
        return self.rng.choice(ends) if self.rng.random() < 0.4 else self.rng.randrange(self.lattice.count)

    def table(self):
        return [self.level() for _ in range(16)]

    def width(self):
        return self.rng.choice([1, 1, 1, 2, 2, 3, 4, 5, 8, 8, 16, 31, 32])

    def label(self, kind, block=0):
        """A label that form allows to a variable of this kind: fixed, or looked up by a selector that is there."""
        choosers = [v for v in self.variables if v.width <= 4 and isinstance(v.label, int)]
        if kind != "wire":
            choosers = [v for v in choosers if v.kind != "wire"]
        else:
            choosers = [v for v in choosers if v.kind != "wire" or v.block < block]
        if choosers and self.rng.random() < 0.5:
            return self.rng.choice(choosers), self.table_name()
        return self.level()

    def table_name(self):
        return f"t{self.rng.randrange(len(self.tables))}"

    def add(self, kind, width, label, block=0):
        reset = self.rng.randrange(2**width) if kind == "register" and self.rng.random() < 0.5 else 0
        variable = Variable(kind, width, label, reset, block)
        self.variables.append(variable)
        return variable

    def add_any(self, kind, block=0):
        """A variable that is, now and then, its own selector."""
        if kind != "port" and self.rng.random() < 0.3:
            variable = self.add(kind, self.rng.randint(1, 3), 0, block)
            variable.label = (variable, self.table_name())
            return variable
        return self.add(kind, self.width(), self.label(kind, block), block)

    def make_held(self):
        """Ports and registers: some narrow ones of the lowest level, which suit as selectors, and others."""
        lowest = self.lattice.lowest()
        for _ in range(self.rng.randint(1, 3)):
            self.add(self.rng.choice(["port", "register"]), self.rng.randint(1, 4), lowest)
        for _ in range(self.rng.randint(1, 5 * self.scale)):
            self.add_any("port")
        for _ in range(self.rng.randint(1, 6 * self.scale)):
            self.add_any("register")

    # -- blocks

    def make_settled(self):
        for block in range(1, self.rng.randint(0, 3) + 1):
            readable = list(self.variables)
            wires = [self.add_any("wire", block) for _ in range(self.rng.randint(1, 3))]
            self.settled.append(self.command(wires, [], readable, self.rng.randint(0, 3)))

    def make_clocked(self):
        registers = [v for v in self.variables if v.kind == "register" and self.rng.random() < 0.9]
        groups = [[] for _ in range(self.rng.randint(1, 3))]
        for register in registers:
            self.rng.choice(groups).append(register)
        for group in groups:
            always = [v for v in group if self.rng.random() < 0.4]
            sometimes = [v for v in group if v not in always]
            self.clocked.append(self.command(always, sometimes, self.variables, self.rng.randint(0, 4)))

    def command(self, always, sometimes, readable, depth):
        """A command, as a list in sequence, that assigns some variables on every path and others perhaps."""
        rng = self.rng
        if depth and rng.random() < 0.3:
            halves = zip(self.split(always), self.split(sometimes))
            return [self.command(*half, readable, depth - 1) for half in halves]
        if depth and rng.random() < 0.8:
            branches = [[v for v in sometimes if rng.random() < 0.7] for _ in range(2)]
            then, other = (self.command(always, branch, readable, depth - 1) for branch in branches)
            return [Choice(self.condition(readable, 2), then, other)]
        targets = always + [v for v in sometimes if rng.random() < 0.8]
        rng.shuffle(targets)
        return [Assign(v, self.assigned(v, readable)) for v in targets]

    def split(self, variables):
        first = [v for v in variables if self.rng.random() < 0.5]
        return first, [v for v in variables if v not in first]

    def assigned(self, target, readable):
        """What is assigned; to a variable that is its own selector often a constant or a single variable."""
        own = not isinstance(target.label, int) and target.label[0] is target
        return self.expression(target.width, readable, 0 if own and self.rng.random() < 0.7 else 2)

    # -- expressions, as functions of no arguments: the names come later

    def condition(self, readable, depth):
        rng = self.rng
        pick = rng.random()
        narrow = [v for v in readable if v.width <= 4]
        if narrow and pick < 0.5:
            chosen = rng.choice(narrow)
            constant = self.constant(chosen.width)
            if rng.random() < 0.2:
                return lambda: f"({constant()} == {chosen.name})"
            return lambda: f"({chosen.name} == {constant()})"
        if depth and pick < 0.75:
            a, b, mark = self.condition(readable, depth - 1), self.condition(readable, depth - 1), rng.choice("&&||^")
            return lambda: f"({a()} {mark} {b()})"
        if depth and pick < 0.85:
            a = self.condition(readable, depth - 1)
            return lambda: f"(~{a()})"
        return self.expression(1, readable, depth)

    def constant(self, width):
        value = self.rng.choice([0, 1, 2**width - 1, self.rng.randrange(2**width)])
        return lambda: f"{width}'d{value}"

    def expression(self, width, readable, depth):
        if depth == 0:
            return self.leaf(width, readable)
        makers = [self.leaf, self.two_parts, self.two_parts, self.complement, self.chosen, self.part]
        makers += [self.shifted] if width > 1 else [self.compared] * 3
        makers += [self.joined] if width > 1 else []
        return self.rng.choice(makers)(width, readable, depth)

    def leaf(self, width, readable, depth=0):
        fitting = [v for v in readable if v.width == width]
        if fitting and self.rng.random() < 0.75:
            chosen = self.rng.choice(fitting)
            return lambda: chosen.name
        return self.constant(width)

    def two_parts(self, width, readable, depth):
        mark = self.rng.choice("&|^+-")
        a, b = (self.expression(width, readable, depth - 1) for _ in range(2))
        return lambda: f"({a()} {mark} {b()})"

    def compared(self, width, readable, depth):
        inner = self.rng.choice(readable).width if readable else 1
        mark = self.rng.choice(["==", "<"])
        a, b = (self.expression(inner, readable, depth - 1) for _ in range(2))
        return lambda: f"({a()} {mark} {b()})"

    def complement(self, width, readable, depth):
        a = self.expression(width, readable, depth - 1)
        return lambda: f"(~{a()})"

    def chosen(self, width, readable, depth):
        c, a, b = (self.expression(w, readable, depth - 1) for w in (1, width, width))
        return lambda: f"({c()} ? {a()} : {b()})"

    def part(self, width, readable, depth):
        wide = self.rng.randint(width, 32)
        wider = [v.width for v in readable if v.width >= width]
        wide = self.rng.choice(wider) if wider and self.rng.random() < 0.8 else wide
        low = self.rng.randint(0, wide - width)
        a = self.expression(wide, readable, depth - 1)
        return lambda: f"{a()}[{low + width - 1}:{low}]"

    def shifted(self, width, readable, depth):
        a = self.expression(width, readable, depth - 1)
        mark, by = self.rng.choice(["<<", ">>"]), self.rng.randrange(width)
        return lambda: f"({a()} {mark} {by})"

    def joined(self, width, readable, depth):
        low = self.rng.randrange(1, width)
        a, b = (self.expression(w, readable, depth - 1) for w in (width - low, low))
        return lambda: f"{{{a()}, {b()}}}"

    # -- the source

    def source(self):
        """The text, and of each line the assignment or the variable in it."""
        lines = [f"table t{n} = {', '.join(map(str, levels))};" for n, levels in enumerate(self.tables)]
        owners = {}
        for variable in self.variables:
            lines.append(variable.declared())
            owners[len(lines)] = variable
        for word, mark, blocks in (("settled", "=", self.settled), ("clocked", "<=", self.clocked)):
            for block in blocks:
                lines.append(f"{word} begin")
                self.write(block, mark, lines, owners)
                lines.append("end")
        return "\n".join(lines), owners

    def write(self, commands, mark, lines, owners):
        for command in commands:
            if isinstance(command, Assign):
                lines.append(f"{command.target.name} {mark} {command.value()};")
                owners[len(lines)] = command
            elif isinstance(command, Choice):
                lines.append(f"if ({command.condition()}) begin")
                self.write(command.then, mark, lines, owners)
                lines.append("end else begin")
                self.write(command.other, mark, lines, owners)
                lines.append("end")
            else:
                lines.append("begin")
                self.write(command, mark, lines, owners)
                lines.append("end")

    # -- mending

    def mend(self):
        """Alters what the model refuses, until it refuses nothing or patience ends."""
        for turn in range(MOST_ROUNDS):
            text, owners = self.source()
            built = build(text)
            try:
                model.judge(model.read_design(built.data), self.lattice)
                return
            except model.Refused as refusal:
                if refusal.number == 14 and self.rng.random() < KEPT_14:
                    return
                for record in refusal.commands or [refusal.record]:
                    self.mend_one(owners[built.lines[refusal.section][record]], turn < GUARDING_ROUNDS)

    def mend_one(self, culprit, may_guard):
        pick = self.rng.random()
        if isinstance(culprit, Variable):
            culprit.label = self.level()
        elif may_guard and pick < 0.4:
            self.guard(culprit)
        elif not culprit.plain:
            culprit.value, culprit.plain = self.constant(culprit.target.width), True
        elif pick < 0.7:
            self.tame(culprit)
        elif not self.is_selector(culprit.target):
            culprit.target.label = self.lattice.highest()

    def guard(self, culprit):
        """Puts the culprit under a condition on selectors, with a constant assigned otherwise."""
        selectors = [v.label[0] for v in self.variables if not isinstance(v.label, int) and v.label[0].kind != "wire"]
        if selectors:
            moved = Assign(culprit.target, culprit.value, culprit.plain)
            other = Assign(culprit.target, self.constant(culprit.target.width), True)
            choice = Choice(self.selecting(selectors), [moved], [other])
            for block in self.settled + self.clocked:
                self.replace(block, culprit, choice)

    def selecting(self, selectors):
        """A condition that tests selectors against constants, once or twice."""
        rng, parts = self.rng, []
        for _ in range(rng.randint(1, 2)):
            selector = rng.choice(selectors)
            parts.append((selector, self.constant(selector.width)))
            if rng.random() < 0.6:
                selectors = [selector]
        mark, negation = rng.choice("&||"), "~" if rng.random() < 0.2 else ""
        return lambda: f"{negation}({f' {mark} '.join(f'({selector.name} == {value()})' for selector, value in parts)})"

    def replace(self, commands, old, new):
        for at, command in enumerate(commands):
            if command is old:
                commands[at] = new
            elif isinstance(command, list):
                self.replace(command, old, new)
            elif isinstance(command, Choice):
                self.replace(command.then, old, new)
                self.replace(command.other, old, new)

    def is_selector(self, variable):
        return any(not isinstance(v.label, int) and v.label[0] is variable for v in self.variables if v is not variable)

    def tame(self, culprit):
        """Gives a choice around the culprit a harmless condition: on a variable of the lowest level, or constant."""
        lowest = [v for v in self.variables if v.kind != "wire" and v.width <= 4 and v.label == self.lattice.lowest()]
        around = [choice for block in self.settled + self.clocked for choice in self.around(block, culprit)]
        if around:
            condition = self.condition(lowest, 0) if lowest and self.rng.random() < 0.8 else self.constant(1)
            self.rng.choice(around).condition = condition

    def around(self, commands, culprit):
        """The choices among and inside the commands that have the culprit in a branch."""
        found = []
        for command in commands:
            if isinstance(command, list):
                found += self.around(command, culprit)
            elif isinstance(command, Choice):
                inner = self.around(command.then + command.other, culprit)
                found += [command, *inner] if inner or self.holds(command.then + command.other, culprit) else []
        return found

    def holds(self, commands, culprit):
        """Is the culprit one of the commands, not inside a choice?"""
        return any(c is culprit or isinstance(c, list) and self.holds(c, culprit) for c in commands)


def random_design(rng, lattice):
    """The bytes of a random formed design."""
    while True:
        maker = Maker(rng, lattice)
        try:
            if rng.random() < MENDED:
                maker.mend()
            return build(maker.source()[0]).data
        except Unclear:  # over a limit
            continue


# ---- the command line


def made(seed, number, lattice, mutations):
    rng = random.Random(f"{seed} {number}")
    data = random_design(rng, lattice)
    return mutated(rng, data) if rng.random() < mutations else data


def shown_verdict(data, lattice):
    """The verdict, where 13 shows all offending commands."""
    try:
        model.judge(model.read_design(data), lattice)
    except model.Refused as refusal:
        records = refusal.commands or [refusal.record]
        return f"refused {refusal.number} {refusal.section} {'|'.join(map(str, records))}"
    return "accepted"


def main():
    parser = argparse.ArgumentParser(description="Writes random design files and the model's verdicts on them.")
    parser.add_argument("folder", type=pathlib.Path)
    parser.add_argument("--count", type=int, default=1000)
    parser.add_argument("--seed", default="1")
    parser.add_argument("--lattice", default="C2")
    parser.add_argument("--mutations", type=float, default=0.5, help="the share of mutations")
    options = parser.parse_args()
    lattice = lattices.named(options.lattice)
    options.folder.mkdir(parents=True, exist_ok=True)
    verdicts, tally = [], Counter()
    for number in range(options.count):
        data = made(options.seed, number, lattice, options.mutations)
        (options.folder / f"{number:04}.bin").write_bytes(data)
        verdict = shown_verdict(data, lattice)
        verdicts.append(f"{number:04} {options.lattice} {verdict}\n")
        tally[" ".join(verdict.split()[:2])] += 1
    (options.folder / "verdicts.txt").write_text("".join(verdicts))
    print(", ".join(f"{count} {verdict}" for verdict, count in tally.most_common()))


if __name__ == "__main__":
    main()
