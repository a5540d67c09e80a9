#!/usr/bin/env python3
"""A second implementation of the whole subject, in plain Python: reading, form, judge and session.

It is written from the rules alone and shares nothing with the crates, so that the two can be compared.
Each rule answers with the set of all places (section, record) that break it; the first refusal is the
smallest number with such a place, and the smallest place of that number.

    tools/model.py judge LATTICE FILE       prints the verdict; FILE is - for standard input
    tools/model.py describe FILE            prints a formed design as text that tools/design_builder.py builds
    tools/model.py run LATTICE FILE         opens a session, makes the calls of standard input, prints the answers

Lattices are named as in tools/lattices.py. Calls are lines `drive V N`, `clock`, `reset`, `read LATTICE WATCHER V`.
"""
import pathlib
import struct
import sys
from collections import Counter, namedtuple
from functools import cached_property

import lattices

sys.setrecursionlimit(10_000)  # expressions and commands nest as deep as their sections are long

EDITION = 1
HEAD = 44
SECTIONS = ((64, 16), (12, 128), (8, 32), (16, 512), (16, 1024))  # size of a record, most records
TABLES, VARIABLES, BLOCKS, COMMANDS, EXPRESSIONS = range(5)
MOST_BYTES = 27_437  # what the program `judge` takes of standard input

PORT, REGISTER, WIRE = range(3)
FIXED, LOOKED_UP = range(2)
SETTLED, CLOCKED = range(2)
NOTHING, SEQUENCE, CHOICE, ASSIGN = range(4)
(CONSTANT, VARIABLE, NOT, AND, OR, XOR, SUM, DIFFERENCE, EQUALS, LESS, LEFT, RIGHT, PART, JOINED, CHOOSE) = range(15)

NARROW = 4  # the judge follows the values of variables up to this width

Variable = namedtuple("Variable", "kind width form table label reset")
Block = namedtuple("Block", "kind top")
Command = namedtuple("Command", "op a b c")
Expression = namedtuple("Expression", "op width zero a b c")

SHAPES = ("<16I", "<4B2I", "<2I", "<4I", "<2BH3I")
RECORDS = (lambda *levels: levels, Variable, Block, Command, Expression)


class Refused(Exception):
    """A refusal: its number, section and record, and for 13 all offending commands."""

    def __init__(self, number, section=0, record=0, commands=()):
        super().__init__(f"refused {number} {section} {record}")
        self.number, self.section, self.record, self.commands = number, section, record, tuple(commands)


def refuse_first(number, places):
    """Refuses with the earliest of the places that break a rule, if there is any."""
    if places:
        section, record = min(places)
        raise Refused(number, section, record, sorted(r for _, r in places) if number == 13 else ())


# ---- reading: 1 to 5


def read_layout(data):
    """The start and the count of records of each section."""
    if len(data) < HEAD:
        raise Refused(1)
    edition, *fields = struct.unpack_from("<11I", data)
    if edition != EDITION:
        raise Refused(2)
    pairs = list(zip(fields[::2], fields[1::2]))
    refuse_first(3, broken_pairs(pairs, len(data)))
    refuse_first(4, {(s, 0) for s, (size, most) in enumerate(SECTIONS) if pairs[s][1] > size * most})
    return [(start, length // SECTIONS[s][0]) for s, (start, length) in enumerate(pairs)]


def broken_pairs(pairs, end_of_file):
    """The sections whose pair breaks the layout."""
    broken, expected = set(), HEAD
    for section, (start, length) in enumerate(pairs):
        end = start + length
        last = section == EXPRESSIONS
        if start != expected or length % SECTIONS[section][0] or end > end_of_file or (last and end != end_of_file):
            broken.add((section, 0))
        expected = end
    return broken


def read_records(data):
    """The records of each section, all of them in range."""
    sections = []
    for section, (start, count) in enumerate(read_layout(data)):
        size, make = SECTIONS[section][0], RECORDS[section]
        starts = range(start, start + size * count, size)
        sections.append([make(*struct.unpack_from(SHAPES[section], data, at)) for at in starts])
    refuse_first(5, out_of_range(sections))
    return sections


def out_of_range(sections):
    """The records with a field out of range, not 0 though unused, or naming no record."""
    counts = [len(records) for records in sections]
    checks = {VARIABLES: variable_fits, BLOCKS: block_fits, COMMANDS: command_fits, EXPRESSIONS: expression_fits}
    return {
        (section, number)
        for section, fits in checks.items()
        for number, record in enumerate(sections[section])
        if not fits(record, counts)
    }


def variable_fits(v, counts):
    if v.kind > WIRE or not 1 <= v.width <= 32 or v.form > LOOKED_UP:
        return False
    named = v.table == 0 if v.form == FIXED else v.table < counts[TABLES] and v.label < counts[VARIABLES]
    return named and (v.reset < 2**v.width if v.kind == REGISTER else v.reset == 0)


def block_fits(b, counts):
    return b.kind <= CLOCKED and b.top < counts[COMMANDS]


def command_fits(c, counts):
    variables, commands, expressions = counts[VARIABLES], counts[COMMANDS], counts[EXPRESSIONS]
    bounds = {
        NOTHING: (1, 1, 1),
        SEQUENCE: (commands, commands, 1),
        CHOICE: (expressions, commands, commands),
        ASSIGN: (variables, expressions, 1),
    }
    return c.op in bounds and all(field < bound for field, bound in zip(c[1:], bounds[c.op]))


def expression_fits(e, counts):
    if not 1 <= e.width <= 32 or e.zero or e.op > CHOOSE:
        return False
    some = counts[EXPRESSIONS]
    bounds = {
        CONSTANT: (2**e.width, 1, 1),
        VARIABLE: (counts[VARIABLES], 1, 1),
        NOT: (some, 1, 1),
        LEFT: (some, e.width, 1),
        RIGHT: (some, e.width, 1),
        PART: (some, 2**32, 1),
        CHOOSE: (some, some, some),
    }
    return all(field < bound for field, bound in zip(e[3:], bounds.get(e.op, (some, some, 1))))


def command_parts(c):
    """The commands and the expressions that a command is made of."""
    return {
        NOTHING: ((), ()),
        SEQUENCE: ((c.a, c.b), ()),
        CHOICE: ((c.b, c.c), (c.a,)),
        ASSIGN: ((), (c.b,)),
    }[c.op]


def expression_parts(e):
    if e.op in (CONSTANT, VARIABLE):
        return ()
    if e.op in (NOT, LEFT, RIGHT, PART):
        return (e.a,)
    return (e.a, e.b, e.c) if e.op == CHOOSE else (e.a, e.b)


# ---- form: 6 to 10


class Design:
    """The records of a design file, and what follows from them; made by `read_design`, it is formed."""

    def __init__(self, sections):
        self.tables, self.variables, self.blocks, self.commands, self.expressions = sections

    # -- what stands where; parts have lower numbers, so one pass up or down is enough

    @cached_property
    def places(self):
        """Of each command, its block and the path to it: conditions, each with whether it is 1."""
        places = {block.top: (number, ()) for number, block in enumerate(self.blocks)}
        for number in reversed(range(len(self.commands))):
            block, path = places[number]
            c = self.commands[number]
            if c.op == SEQUENCE:
                places[c.a] = places[c.b] = (block, path)
            elif c.op == CHOICE:
                places[c.b] = (block, path + ((c.a, True),))
                places[c.c] = (block, path + ((c.a, False),))
        return places

    @cached_property
    def block_of_expression(self):
        blocks = {}
        for number, c in enumerate(self.commands):
            for part in command_parts(c)[1]:
                blocks[part] = self.places[number][0]
        for number in reversed(range(len(self.expressions))):
            for part in expression_parts(self.expressions[number]):
                blocks[part] = blocks[number]
        return blocks

    @cached_property
    def reads(self):
        """Of each expression, the variables in it."""
        reads = []
        for e in self.expressions:
            reads.append({e.a} if e.op == VARIABLE else set().union(*(reads[part] for part in expression_parts(e))))
        return reads

    @cached_property
    def assigned(self):
        """Of each command, the variables it assigns, those it assigns on every path, and those it may assign twice."""
        known = []
        for c in self.commands:
            if c.op == ASSIGN:
                known.append(({c.a}, {c.a}, set()))
                continue
            parts = [known[part] for part in command_parts(c)[0]] or [(set(), set(), set())] * 2
            (some_a, all_a, twice_a), (some_b, all_b, twice_b) = parts
            if c.op == CHOICE:
                known.append((some_a | some_b, all_a & all_b, twice_a | twice_b))
            else:
                known.append((some_a | some_b, all_a | all_b, twice_a | twice_b | some_a & some_b))
        return known

    @cached_property
    def blocks_assigning(self):
        """Of each variable, the numbers of the blocks that assign it."""
        blocks = {v: [] for v in range(len(self.variables))}
        for number, block in enumerate(self.blocks):
            for v in self.assigned[block.top][0]:
                blocks[v].append(number)
        return blocks

    def assignments(self):
        """Each assignment as its number, target, expression and path."""
        for number, c in enumerate(self.commands):
            if c.op == ASSIGN:
                yield number, c.a, c.b, self.places[number][1]

    def selector(self, v):
        """The variable that looks up the label of v, or None."""
        return self.variables[v].label if self.variables[v].form == LOOKED_UP else None

    def level(self, v, values):
        """The level of v where the variables have these values."""
        variable = self.variables[v]
        return variable.label if variable.form == FIXED else self.tables[variable.table][values[variable.label]]

    def always_assigned(self, v):
        """Is v assigned on every path of some block?"""
        return any(v in self.assigned[block.top][1] for block in self.blocks)


def read_design(data):
    """The formed design in a file, or the first refusal of 1 to 10."""
    design = Design(read_records(data))
    for number, broken in ((6, misused), (7, ill_sized), (8, misassigned), (9, read_early), (10, ill_selected)):
        refuse_first(number, broken(design))
    return design


def misused(d):
    """6: records that are not used exactly once, or have a part that is not lower."""
    commands, expressions = Counter(block.top for block in d.blocks), Counter()
    broken = set()
    for number, c in enumerate(d.commands):
        parts, used = command_parts(c)
        commands.update(parts)
        expressions.update(used)
        if any(part >= number for part in parts):
            broken.add((COMMANDS, number))
    for number, e in enumerate(d.expressions):
        expressions.update(expression_parts(e))
        if any(part >= number for part in expression_parts(e)):
            broken.add((EXPRESSIONS, number))
    broken |= {(COMMANDS, n) for n in range(len(d.commands)) if commands[n] != 1}
    return broken | {(EXPRESSIONS, n) for n in range(len(d.expressions)) if expressions[n] != 1}


def ill_sized(d):
    """7: choices, assignments and expressions that break a width rule."""
    width = [e.width for e in d.expressions]
    broken = {(EXPRESSIONS, n) for n, e in enumerate(d.expressions) if not is_sized(d, e, width)}
    for number, c in enumerate(d.commands):
        if c.op == CHOICE and width[c.a] != 1 or c.op == ASSIGN and width[c.b] != d.variables[c.a].width:
            broken.add((COMMANDS, number))
    return broken


def is_sized(d, e, width):
    if e.op == CONSTANT:
        return True
    if e.op == VARIABLE:
        return e.width == d.variables[e.a].width
    if e.op in (NOT, LEFT, RIGHT):
        return e.width == width[e.a]
    if e.op == PART:
        return e.b + e.width <= width[e.a]
    if e.op == JOINED:
        return e.width == width[e.a] + width[e.b]
    if e.op == CHOOSE:
        return width[e.a] == 1 and e.width == width[e.b] == width[e.c]
    return width[e.a] == width[e.b] and e.width == (1 if e.op in (EQUALS, LESS) else width[e.a])


def misassigned(d):
    """8: variables assigned twice or too seldom, settled blocks after clocked ones, assignments of a wrong kind."""
    broken = {(VARIABLES, v) for v in range(len(d.variables)) if not assigned_well(d, v)}
    kinds = [block.kind for block in d.blocks]
    broken |= {(BLOCKS, n) for n, kind in enumerate(kinds) if kind == SETTLED and CLOCKED in kinds[:n]}
    for number, target, _, _ in d.assignments():
        allowed = WIRE if kinds[d.places[number][0]] == SETTLED else REGISTER
        if d.variables[target].kind != allowed:
            broken.add((COMMANDS, number))
    return broken


def assigned_well(d, v):
    """In one block at most, and there only in opposite branches; a wire in one block, and there on every path."""
    tops = [d.blocks[number].top for number in d.blocks_assigning[v]]
    if len(tops) > 1 or any(v in d.assigned[top][2] for top in tops):
        return False
    return d.variables[v].kind != WIRE or len(tops) == 1 and v in d.assigned[tops[0]][1]


def read_early(d):
    """9: expressions that read a wire in its own block or before."""
    return {
        (EXPRESSIONS, number)
        for number, e in enumerate(d.expressions)
        if e.op == VARIABLE
        and d.variables[e.a].kind == WIRE
        and d.block_of_expression[number] <= d.blocks_assigning[e.a][0]
    }


def ill_selected(d):
    """10: variables whose selector does not suit them."""
    looked_up = [n for n, v in enumerate(d.variables) if v.form == LOOKED_UP]
    return {(VARIABLES, v) for v in looked_up if not suits(d, v, d.selector(v))}


def suits(d, v, s):
    if d.variables[s].width > NARROW:
        return False
    if s == v:
        return d.variables[v].kind != PORT
    if d.variables[s].form != FIXED:
        return False
    if d.variables[s].kind != WIRE:
        return True
    return d.variables[v].kind == WIRE and d.blocks_assigning[s][0] < d.blocks_assigning[v][0]


# ---- the judge: 11 to 14


def judge(design, lattice):
    """Nothing, or the first refusal of 11 to 14."""
    for number, broken in ((11, no_levels), (12, unreachable), (13, leaking), (14, skipped)):
        refuse_first(number, broken(design, lattice))


def no_levels(d, lattice):
    """11: tables with an entry, and variables with a fixed label, that is no level."""
    broken = {(TABLES, n) for n, levels in enumerate(d.tables) if max(levels) >= lattice.count}
    return broken | {(VARIABLES, n) for n, v in enumerate(d.variables) if v.form == FIXED and v.label >= lattice.count}


def unreachable(d, lattice):
    """12: variables whose selector has a fixed level not at or below an entry that it reaches."""
    broken = set()
    for number, v in enumerate(d.variables):
        selector = d.variables[v.label] if v.form == LOOKED_UP else None
        if selector and selector.form == FIXED:
            reached = d.tables[v.table][: 2**selector.width]
            if not all(lattice.below(selector.label, level) for level in reached):
                broken.add((VARIABLES, number))
    return broken


# Where a level comes from: the variable whose value chooses it (None for a fixed one), the values that it may have,
# and the levels by value.
Source = namedtuple("Source", "chooser values levels")
ANY = -1  # chooses like a variable that is no other's selector


def leaking(d, lattice):
    """13: assignments with a flow not at or below their target.

    A join is at or below a level exactly when all that it joins are, so variables are looked at one by one.
    """
    broken = set()
    for number, target, expression, path in d.assignments():
        allowed = allowed_values(d, path)
        if allowed is None:
            continue
        flow = set().union(d.reads[expression], *(d.reads[condition] for condition, _ in path))
        to = coming_source(d, target, expression, allowed)
        if any(exceeds(lattice, present_source(d, v, allowed), to) for v in flow):
            broken.add((COMMANDS, number))
    return broken


def skipped(d, lattice):
    """14: assignments of a register that is its own selector and may be skipped, under a condition above its level."""
    broken = set()
    for number, target, _, path in d.assignments():
        own = d.selector(target) == target and d.variables[target].kind == REGISTER
        allowed = allowed_values(d, path)
        if not own or d.always_assigned(target) or allowed is None:
            continue
        around = set().union(*(d.reads[condition] for condition, _ in path))
        present = present_source(d, target, allowed)
        if any(exceeds(lattice, present_source(d, v, allowed), present) for v in around):
            broken.add((COMMANDS, number))
    return broken


def exceeds(lattice, source, target):
    """Is a level of the source not at or below one of the target, at values that go together?"""
    same = source.chooser is not None and source.chooser == target.chooser
    return any(
        not lattice.below(source.levels[x], target.levels[y])
        for y in target.values
        for x in ((y,) if same else source.values)
    )


def present_source(d, v, allowed):
    """Where the level of v comes from, as it stands."""
    variable = d.variables[v]
    if variable.form == FIXED:
        return Source(None, (0,), (variable.label,))
    return Source(variable.label, allowed[variable.label], d.tables[variable.table])


def coming_source(d, v, expression, allowed):
    """Where the level of v comes from, once the expression is assigned to it."""
    if d.selector(v) != v:
        return present_source(d, v, allowed)
    e, levels = d.expressions[expression], d.tables[d.variables[v].table]
    if e.op == CONSTANT:
        return Source(None, (e.a,), levels)
    if e.op == VARIABLE:
        return Source(e.a, allowed[e.a], levels)
    return Source(ANY, range(2**e.width), levels)


def allowed_values(d, path):
    """The values that a path allows each narrow variable; None where one of them has none left."""
    allowed = {n: set(range(2**v.width)) for n, v in enumerate(d.variables) if v.width <= NARROW}
    for condition, way in path:
        for v, values in left_values(d, condition, way).items():
            allowed[v] &= values
    return allowed if all(allowed.values()) else None


def left_values(d, condition, way):
    """The values that a condition leaves where it is 1 (way is true) or 0; a variable left out keeps all."""
    e = d.expressions[condition]
    if e.op == VARIABLE:
        return {e.a: {int(way)}}
    if e.op == NOT:
        return left_values(d, e.a, not way)
    if e.op in (AND, OR):
        first, second = left_values(d, e.a, way), left_values(d, e.b, way)
        return both(first, second) if (e.op == AND) == way else either(first, second)
    if e.op == EQUALS:
        return equal_values(d, d.expressions[e.a], d.expressions[e.b], way)
    return {}


def both(first, second):
    shared = {v: first[v] & second[v] for v in first.keys() & second.keys()}
    return {**first, **second, **shared}


def either(first, second):
    return {v: first[v] | second[v] for v in first.keys() & second.keys()}


def equal_values(d, left, right, way):
    """What "variable equals constant", either way round, leaves."""
    if left.op == CONSTANT:
        left, right = right, left
    if left.op != VARIABLE or right.op != CONSTANT or left.width > NARROW:
        return {}
    one = {right.a}
    return {left.a: one if way else set(range(2**left.width)) - one}


# ---- sessions: 15 to 20


class Session:
    """An accepted design and a value for each of its ports and registers; a wire's number holds 0."""

    def __init__(self, design):
        self.design = design
        self.reset()

    def reset(self):
        self.held = [v.reset for v in self.design.variables]

    def drive(self, v, value):
        variables = self.design.variables
        if v >= len(variables) or variables[v].kind != PORT:
            raise Refused(15, VARIABLES, v)
        if value >= 2 ** variables[v].width:
            raise Refused(16, VARIABLES, v)
        self._change({v: value})

    def clock(self):
        values, _ = self.settled()
        self._change(self._written(CLOCKED, values))

    def read(self, lattice, watcher, v):
        """The value and the level of v, for a watcher."""
        if v >= len(self.design.variables):
            raise Refused(17, VARIABLES, v)
        if watcher >= lattice.count:
            raise Refused(18, VARIABLES, v)
        values, given = self.settled()
        if self.design.variables[v].kind == WIRE and v not in given:
            raise Refused(19, VARIABLES, v)
        level = self.design.level(v, values)
        if not lattice.below(level, watcher):
            raise Refused(20, VARIABLES, v)
        return values[v], level

    def settled(self):
        """The values with the wires settled, and the wires that were given a value."""
        values, given = list(self.held), set()
        for block in self.design.blocks:
            if block.kind == SETTLED:
                for v, value in self._run(block.top, values).items():
                    values[v] = value
                    given.add(v)
        return values, given

    def _change(self, written):
        """Changes values together, and clears what is looked up by a selector that changed."""
        before = self.held
        self.held = [written.get(v, value) for v, value in enumerate(before)]
        moved = {v for v, value in enumerate(before) if self.held[v] != value}
        for v, variable in enumerate(self.design.variables):
            if variable.kind != WIRE and self.design.selector(v) in moved - {v}:
                self.held[v] = 0

    def _written(self, kind, values):
        written = {}
        for block in self.design.blocks:
            if block.kind == kind:
                written.update(self._run(block.top, values))
        return written

    def _run(self, number, values):
        """What a command writes, with all that it reads read from the values given."""
        c = self.design.commands[number]
        if c.op == SEQUENCE:
            return {**self._run(c.a, values), **self._run(c.b, values)}
        if c.op == CHOICE:
            return self._run(c.b if evaluate(self.design, c.a, values) == 1 else c.c, values)
        return {c.a: evaluate(self.design, c.b, values)} if c.op == ASSIGN else {}


def evaluate(d, number, values):
    """The value of an expression."""
    e = d.expressions[number]
    if e.op == CONSTANT:
        return e.a
    if e.op == VARIABLE:
        return values[e.a]
    if e.op == CHOOSE:
        return evaluate(d, e.b if evaluate(d, e.a, values) == 1 else e.c, values)
    first, *second = (evaluate(d, part, values) for part in expression_parts(e))
    if second:
        return operate(e.op, first, second[0], e.width, d.expressions[e.b].width)
    return {
        NOT: ~first % 2**e.width,
        LEFT: (first << e.b) % 2**e.width,
        RIGHT: first >> e.b,
        PART: (first >> e.b) % 2**e.width,
    }[e.op]


def operate(op, x, y, width, low):
    """An operation of two parts; `low` is the width of the second."""
    return {
        AND: x & y,
        OR: x | y,
        XOR: x ^ y,
        SUM: (x + y) % 2**width,
        DIFFERENCE: (x - y) % 2**width,
        EQUALS: int(x == y),
        LESS: int(x < y),
        JOINED: x << low | y,
    }[op]


# ---- the command line


def verdict(data, lattice):
    """`accepted` or `refused N S R`."""
    try:
        judge(read_design(data), lattice)
    except Refused as refusal:
        return str(refusal)
    return "accepted"


def answer(session, call):
    """The answer to one call, given as a line of text."""
    word, *rest = call.split()
    try:
        if word == "read":
            value, level = session.read(lattices.named(rest[0]), int(rest[1]), int(rest[2]))
            return f"{value} {level}"
        {"drive": session.drive, "clock": session.clock, "reset": session.reset}[word](*map(int, rest))
    except Refused as refusal:
        return str(refusal)
    return "done"


def contents(file):
    return sys.stdin.buffer.read(MOST_BYTES) if file == "-" else pathlib.Path(file).read_bytes()


def main(arguments):
    match arguments:
        case ["judge", name, file]:
            lattice = lattices.named(name)
            print(lattice.sign, verdict(contents(file), lattice))
        case ["describe", file]:
            from describing import described  # it imports this module

            print(described(read_design(contents(file))), end="")
        case ["run", name, file]:
            design = read_design(pathlib.Path(file).read_bytes())
            judge(design, lattices.named(name))
            session = Session(design)
            for call in sys.stdin:
                print(answer(session, call))
        case _:
            sys.exit(__doc__)


if __name__ == "__main__":
    try:
        main(sys.argv[1:])
    except (Refused, lattices.NoLattice, ValueError, OSError) as problem:
        sys.exit(str(problem))
