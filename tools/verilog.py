#!/usr/bin/env python3
"""A formed design as Verilog, with clearing written out, and a bench that makes the calls of a session.

    tools/verilog.py FILE [CALL ...]    prints the module; calls are `drive:V:N`, `clock` and `reset`

Each expression record is a variable of its own width, so that no operation is widened by what stands around it. After each
call the bench prints the values of all variables, wires settled.
"""
import pathlib
import sys

import model

MARKS = {
    model.AND: "&", model.OR: "|", model.XOR: "^", model.SUM: "+", model.DIFFERENCE: "-", model.EQUALS: "==", model.LESS: "<",
}  # fmt: skip


def expression_text(e):
    """The right side of an expression record's assignment."""
    a, b, c = (f"e{n}" for n in (e.a, e.b, e.c))
    if e.op in MARKS:
        return f"{a} {MARKS[e.op]} {b}"
    return {
        model.CONSTANT: f"{e.width}'d{e.a}",
        model.VARIABLE: f"v{e.a}",
        model.NOT: f"~{a}",
        model.LEFT: f"{a} << {e.b}",
        model.RIGHT: f"{a} >> {e.b}",
        model.PART: f"{a} >> {e.b}",
        model.JOINED: f"{{{a}, {b}}}",
        model.CHOOSE: f"{a} ? {b} : {c}",
    }[e.op]


def parts(design, number):
    """The expression records under a command, lowest first."""
    found, commands, expressions = set(), [number], []
    while commands:
        c = design.commands[commands.pop()]
        commands += [c.a, c.b] if c.op == model.SEQUENCE else [c.b, c.c] if c.op == model.CHOICE else []
        expressions += [c.a] if c.op == model.CHOICE else [c.b] if c.op == model.ASSIGN else []
    while expressions:
        number = expressions.pop()
        found.add(number)
        expressions += model.expression_parts(design.expressions[number])
    return sorted(found)


def command_lines(design, number, prefix):
    """A command that assigns variables with this prefix."""
    c = design.commands[number]
    if c.op == model.SEQUENCE:
        return command_lines(design, c.a, prefix) + command_lines(design, c.b, prefix)
    if c.op == model.CHOICE:
        yes, no = command_lines(design, c.b, prefix), command_lines(design, c.c, prefix)
        return [f"if (e{c.a}) begin", *yes, "end else begin", *no, "end"]
    return [f"{prefix}{c.a} = e{c.b};"] if c.op == model.ASSIGN else []


def block_lines(design, block, prefix):
    values = [f"e{n} = {expression_text(design.expressions[n])};" for n in parts(design, block.top)]
    return values + command_lines(design, block.top, prefix)


def clear_lines(design):
    """What a change of selectors clears: n is the value that comes, v the value before."""
    held = [v for v, x in enumerate(design.variables) if x.kind != model.WIRE]
    looked_up = [(v, design.selector(v)) for v in held if design.selector(v) not in (None, v)]
    lines = [f"c{v} = n{s} != v{s};" for v, s in looked_up]
    lines += [f"if (c{v}) n{v} = 0;" for v, _ in looked_up]
    return lines + [f"v{v} = n{v};" for v in held]


def task(name, lines):
    return [f"task {name};", "begin", *lines, "end", "endtask"]


def tasks(design):
    held = [v for v, x in enumerate(design.variables) if x.kind != model.WIRE]
    keep = [f"n{v} = v{v};" for v in held]
    settled = [line for b in design.blocks if b.kind == model.SETTLED for line in block_lines(design, b, "v")]
    clocked = [line for b in design.blocks if b.kind == model.CLOCKED for line in block_lines(design, b, "n")]
    opening = [f"v{v} = 32'd{design.variables[v].reset};" for v in held]
    places = ['"%0d"' if len(design.variables) == 1 else '"' + " ".join(["%0d"] * len(design.variables)) + '"']
    shown = ", ".join(places + [f"v{v}" for v in range(len(design.variables))])
    return (
        task("settle", settled)
        + task("change", clear_lines(design))
        + task("keep", keep)
        + task("clock", ["settle;", "keep;", *clocked, "change;"])
        + task("reset", opening)
        + task("show", ["settle;", f"$display({shown});"])
    )


def bench(design, calls):
    """The module, and the calls one after the other."""
    lines = ["module controller;"]
    for v, x in enumerate(design.variables):
        lines += [f"reg [{x.width - 1}:0] v{v} = 0, n{v} = 0;", f"reg c{v};"]
    lines += [f"reg [{e.width - 1}:0] e{n};" for n, e in enumerate(design.expressions)]
    lines += tasks(design) + ["initial begin", "reset;"]
    for call in calls:
        word, *numbers = call.split(":")
        if word == "drive":
            lines.append(f"keep; n{numbers[0]} = 32'd{numbers[1]}; change;")
        else:
            lines.append(f"{word};")
        lines.append("show;")
    return "\n".join(lines + ["end", "endmodule", ""])


def main(arguments):
    design = model.read_design(pathlib.Path(arguments[0]).read_bytes())
    print(bench(design, arguments[1:]), end="")


if __name__ == "__main__":
    main(sys.argv[1:])
