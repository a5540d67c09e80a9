"""Formed designs as text, in the format of tools/design_builder.py, with names made of kind and number."""
from model import AND, CHOOSE, CONSTANT, DIFFERENCE, EQUALS, JOINED, LEFT, LESS, NOT, OR, PART, RIGHT, SUM
from model import VARIABLE, XOR
from model import ASSIGN, CHOICE, CLOCKED, FIXED, NOTHING, REGISTER, SEQUENCE

KINDS = ("port", "register", "wire")
MARKS = {AND: "&", OR: "|", XOR: "^", SUM: "+", DIFFERENCE: "-", EQUALS: "==", LESS: "<", LEFT: "<<", RIGHT: ">>"}


def described(design):
    """The whole text."""
    lines = [f"table t{n} = {', '.join(map(str, levels))};" for n, levels in enumerate(design.tables)]
    lines += [variable_line(design, n) for n in range(len(design.variables))]
    for block in design.blocks:
        lines.append(("clocked" if block.kind == CLOCKED else "settled") + " begin")
        lines += inside(design, block.top, "<=" if block.kind == CLOCKED else "=")
        lines.append("end")
    return "".join(f"{line}\n" for line in lines)


def name(design, v):
    return f"{KINDS[design.variables[v].kind][0]}{v}"


def variable_line(design, n):
    v = design.variables[n]
    label = f"level {v.label}" if v.form == FIXED else f"by {name(design, v.label)}: t{v.table}"
    reset = f" reset {v.reset}" if v.kind == REGISTER else ""
    return f"{KINDS[v.kind]} [{v.width - 1}:0] {name(design, n)} {label}{reset};"


def inside(design, number, mark):
    """The lines of a command between `begin` and `end`."""
    lines = []
    while design.commands[number].op == SEQUENCE:
        lines += command_lines(design, design.commands[number].a, mark)
        number = design.commands[number].b
    if lines or design.commands[number].op != NOTHING:
        lines += command_lines(design, number, mark)
    return [f"  {line}" for line in lines]


def command_lines(design, number, mark):
    c = design.commands[number]
    if c.op == ASSIGN:
        return [f"{name(design, c.a)} {mark} {expression(design, c.b)};"]
    if c.op == CHOICE:
        other = ["end else begin", *inside(design, c.c, mark)] if design.commands[c.c].op != NOTHING else []
        return [f"if ({expression(design, c.a)}) begin", *inside(design, c.b, mark), *other, "end"]
    return ["begin", *inside(design, number, mark), "end"]


def expression(design, number):
    """An expression, in brackets where it has two parts or more."""
    e = design.expressions[number]
    part = lambda n: expression(design, n)
    if e.op == CONSTANT:
        return f"{e.width}'d{e.a}"
    if e.op == VARIABLE:
        return name(design, e.a)
    if e.op == NOT:
        return f"(~{part(e.a)})"
    if e.op == PART:
        return f"{part(e.a)}[{e.b + e.width - 1}:{e.b}]"
    if e.op == JOINED:
        return f"{{{part(e.a)}, {part(e.b)}}}"
    if e.op == CHOOSE:
        return f"({part(e.a)} ? {part(e.b)} : {part(e.c)})"
    return f"({part(e.a)} {MARKS[e.op]} {e.b if e.op in (LEFT, RIGHT) else part(e.b)})"
