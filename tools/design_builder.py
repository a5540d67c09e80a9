#!/usr/bin/env python3
"""Builds design files from readable sources.

    tools/design_builder.py FILE.design ...            writes FILE.bin beside each source
    tools/design_builder.py --check FILE.design ...    only compares

A source reads like a tiny Verilog:

    // to the end of the line
    level secret = 1;                              a name for a level
    constant IDLE = 2'd0;                          a name for a constant
    table worlds = 0, secret;                      levels by selector value; entries not written hold 0

    port           world   level 0;                width 1, fixed level
    port     [7:0] data    by world: worlds;       width 8, level looked up
    register [1:0] state   level 0 reset 2;        reset is 0 where not written
    wire           ready   level 0;

    settled ready = state == IDLE;                 a block that settles wires
    clocked begin                                  a block that runs at the clock
      if (ready) state <= state + 2'd1;
      else begin state <= IDLE; end
    end

A block is one command: an assignment (`=` to wires, `<=` to registers), `if (e) command else command`, or
`begin command ... end`. A missing `else` and an empty `begin end` do nothing.

Expressions, from the tightest: names, constants as 8'd200, 4'hf or 2'b10, (e), {a, b}; x[7:4] and x[3]; ~; + -;
<< >> by a number; <; ==; &; ^; |; c ? a : b. Widths must fit: nothing is widened or cut silently.

Records are written in the order in which the text ends them, so parts have lower numbers, and each is used once.
"""
import pathlib
import re
import struct
import sys
from collections import namedtuple

from model import AND, CHOOSE, CONSTANT, DIFFERENCE, EQUALS, JOINED, LEFT, LESS, NOT, OR, PART, RIGHT, SUM
from model import ASSIGN, CHOICE, CLOCKED, FIXED, LOOKED_UP, NOTHING, PORT, REGISTER, SEQUENCE, SETTLED, WIRE
from model import VARIABLE, XOR
from model import BLOCKS, COMMANDS, EDITION, EXPRESSIONS, HEAD, SECTIONS, SHAPES, TABLES, VARIABLES

KINDS = {"port": PORT, "register": REGISTER, "wire": WIRE}
BLOCK_KINDS = {"settled": SETTLED, "clocked": CLOCKED}
WORDS = {*KINDS, *BLOCK_KINDS, "level", "constant", "table", "by", "reset", "if", "else", "begin", "end"}
LOOSEST_FIRST = (
    {"|": OR},
    {"^": XOR},
    {"&": AND},
    {"==": EQUALS},
    {"<": LESS},
    {"<<": LEFT, ">>": RIGHT},
    {"+": SUM, "-": DIFFERENCE},
)
SECTION_NAMES = ("tables", "variables", "blocks", "commands", "expressions")
BASES = {"b": 2, "d": 10, "h": 16}
ENTRIES = 16
WIDEST = 32
LARGEST = 2**32 - 1

TOKENS = re.compile(
    r"(?P<space>\s+|//[^\n]*)"
    r"|(?P<constant>\d+'[bdh][0-9a-zA-Z]+)"
    r"|(?P<number>\d+)"
    r"|(?P<name>[A-Za-z_]\w*)"
    r"|(?P<mark><<|>>|<=|==|[-~&|^+<?:;,(){}\[\]=])"
)

Token = namedtuple("Token", "kind text line")
Term = namedtuple("Term", "record width")  # an expression that is written
Built = namedtuple("Built", "data lines names")  # the file, by section the line of each record, the variables' names


class Unclear(Exception):
    """A source that is not understood, with the line."""

    def __init__(self, line, what):
        super().__init__(f"line {line}: {what}")


def tokens_of(text):
    """The tokens of a source, and one that ends it."""
    tokens, at, line = [], 0, 1
    while at < len(text):
        match = TOKENS.match(text, at)
        if not match:
            raise Unclear(line, f"unknown character {text[at]!r}")
        if match.lastgroup != "space":
            tokens.append(Token(match.lastgroup, match[0], line))
        line += match[0].count("\n")
        at = match.end()
    return tokens + [Token("end", "the end of the text", line)]


class Builder:
    """Reads tokens and writes records on the way."""

    def __init__(self, text):
        self.tokens, self.at = tokens_of(text), 0
        self.sections = [[] for _ in SECTIONS]
        self.lines = [[] for _ in SECTIONS]
        self.names = {}  # name -> (what it names, its value or record number)
        self.labels = []  # of each variable, its label as it is written, and its reset value
        self.written_entries = []  # of each table, how many entries are written

    # -- tokens

    @property
    def token(self):
        return self.tokens[self.at]

    def take(self, *texts):
        """The next token, which has one of the texts given."""
        if self.token.text not in texts:
            raise Unclear(self.token.line, f"{' or '.join(texts)} expected, found {self.token.text}")
        return self.take_any()

    def take_any(self):
        token = self.token
        if token.kind == "end":
            raise Unclear(token.line, "the text ends too early")
        self.at += 1
        return token

    def follows(self, *texts):
        return self.token.text in texts

    def skip(self, text):
        """Takes the text if it comes next."""
        if found := self.follows(text):
            self.at += 1
        return found

    def new_name(self):
        token = self.take_any()
        if token.kind != "name" or token.text in WORDS:
            raise Unclear(token.line, f"name expected, found {token.text}")
        if token.text in self.names:
            raise Unclear(token.line, f"{token.text} is named twice")
        return token.text

    def known_name(self, what):
        return self.named(self.take_any(), what)

    def named(self, token, what):
        """What a name stands for, which is of the sort asked for."""
        sort, value = self.names.get(token.text, (None, None))
        if sort != what:
            raise Unclear(token.line, f"{token.text} names no {what}")
        return value

    def number(self, most=LARGEST):
        token = self.take_any()
        if token.kind != "number":
            raise Unclear(token.line, f"number expected, found {token.text}")
        if int(token.text) > most:
            raise Unclear(token.line, f"{token.text} is over {most}")
        return int(token.text)

    def level(self):
        return self.number() if self.token.kind == "number" else self.known_name("level")

    # -- records

    def write(self, section, line, *fields):
        """Writes a record and answers its number."""
        number, most = len(self.sections[section]), SECTIONS[section][1]
        if number == most:
            raise Unclear(line, f"over {most} {SECTION_NAMES[section]}")
        self.sections[section].append(fields)
        self.lines[section].append(line)
        return number

    def term(self, line, op, width, a, b=0, c=0):
        if width > WIDEST:
            raise Unclear(line, f"{width} wide, at most {WIDEST} can be")
        return Term(self.write(EXPRESSIONS, line, op, width, 0, a, b, c), width)

    def command(self, line, op, a=0, b=0, c=0):
        return self.write(COMMANDS, line, op, a, b, c)

    # -- declarations

    def build(self):
        while self.token.kind != "end":
            self.item()
        self.resolve_labels()
        names = [name for name, (sort, _) in self.names.items() if sort == "variable"]
        packed = [[struct.pack(SHAPES[s], *record) for record in records] for s, records in enumerate(self.sections)]
        return Built(file_of(packed), self.lines, names)

    def item(self):
        token = self.take_any()
        if token.text in KINDS:
            self.variables(token)
        elif token.text in BLOCK_KINDS:
            mark = "=" if token.text == "settled" else "<="
            self.write(BLOCKS, token.line, BLOCK_KINDS[token.text], self.statement(mark))
        elif token.text in ("level", "constant", "table"):
            name = self.new_name()
            self.take("=")
            self.names[name] = (token.text, getattr(self, f"{token.text}_value")(token.line))
            self.take(";")
        else:
            raise Unclear(token.line, f"declaration or block expected, found {token.text}")

    def level_value(self, line):
        return self.level()

    def constant_value(self, line):
        token = self.take_any()
        if token.kind != "constant":
            raise Unclear(token.line, f"constant with a width expected, found {token.text}")
        return token

    def table_value(self, line):
        levels = [self.level()]
        while self.skip(","):
            levels.append(self.level())
        if len(levels) > ENTRIES:
            raise Unclear(line, f"over {ENTRIES} entries")
        self.written_entries.append(len(levels))
        return self.write(TABLES, line, *levels, *[0] * (ENTRIES - len(levels)))

    def variables(self, kind):
        """A declaration of one or more variables, which share all but their names."""
        high, low = self.bounds() if self.follows("[") else (0, 0)
        width = high + 1
        if low or width > WIDEST:
            raise Unclear(kind.line, f"[{high}:{low}] does not count from at most {WIDEST - 1} down to 0")
        before = len(self.labels)
        self.variable(kind, width)
        while self.skip(","):
            self.variable(kind, width)
        label = self.label()
        reset = self.number(2**width - 1) if kind.text == "register" and self.skip("reset") else 0
        self.take(";")
        self.labels += [(label, reset)] * (len(self.sections[VARIABLES]) - before)

    def variable(self, kind, width):
        name = self.new_name()
        self.names[name] = ("variable", self.write(VARIABLES, kind.line, KINDS[kind.text], width))

    def bounds(self):
        """The two numbers of [7:4], or of [3], which says the same as [3:3]."""
        line = self.take("[").line
        high = low = self.number()
        if self.skip(":"):
            low = self.number()
        self.take("]")
        if low > high:
            raise Unclear(line, f"[{high}:{low}] counts upwards")
        return high, low

    def label(self):
        """A label as it is written: a level, or the tokens of a selector and a table, which may come later."""
        if self.take("level", "by").text == "level":
            return self.level()
        selector = self.take_any()
        self.take(":")
        return selector, self.take_any()

    def resolve_labels(self):
        """Puts labels and reset values into the variables, now that all names are known."""
        for v, (label, reset) in enumerate(self.labels):
            kind, width = self.sections[VARIABLES][v][:2]
            form, table, field = (FIXED, 0, label) if isinstance(label, int) else (LOOKED_UP, *self.looked_up(*label))
            self.sections[VARIABLES][v] = (kind, width, form, table, field, reset)

    def looked_up(self, selector, table):
        number, chooser = self.named(table, "table"), self.named(selector, "variable")
        reached = min(2 ** self.sections[VARIABLES][chooser][1], ENTRIES)
        if reached > self.written_entries[number]:
            raise Unclear(table.line, f"{selector.text} reaches {reached} entries of {table.text}")
        return number, chooser

    # -- commands

    def statement(self, mark):
        if self.follows("if"):
            return self.choice(mark)
        if self.follows("begin"):
            return self.sequence(mark)
        return self.assignment(mark)

    def choice(self, mark):
        line = self.take("if").line
        self.take("(")
        condition = self.expression()
        self.fit(line, condition.width, 1, "the condition")
        self.take(")")
        then = self.statement(mark)
        other = self.statement(mark) if self.skip("else") else self.command(line, NOTHING)
        return self.command(line, CHOICE, condition.record, then, other)

    def sequence(self, mark):
        line, parts = self.take("begin").line, []
        while not self.skip("end"):
            parts.append(self.statement(mark))
        whole = parts.pop() if parts else self.command(line, NOTHING)
        while parts:
            whole = self.command(line, SEQUENCE, parts.pop(), whole)
        return whole

    def assignment(self, mark):
        line = self.token.line
        target = self.known_name("variable")
        self.take(mark)
        value = self.expression()
        self.fit(line, value.width, self.sections[VARIABLES][target][1], "the expression")
        self.take(";")
        return self.command(line, ASSIGN, target, value.record)

    @staticmethod
    def fit(line, width, wanted, what):
        if width != wanted:
            raise Unclear(line, f"{what} is {width} wide, not {wanted}")

    # -- expressions

    def expression(self):
        first = self.binary(0)
        if not self.follows("?"):
            return first
        line = self.take("?").line
        self.fit(line, first.width, 1, "the condition")
        second = self.expression()
        self.take(":")
        third = self.expression()
        self.fit(line, third.width, second.width, "the third part")
        return self.term(line, CHOOSE, second.width, first.record, second.record, third.record)

    def binary(self, tightness):
        """An expression of operations at least as tight as this."""
        if tightness == len(LOOSEST_FIRST):
            return self.unary()
        operations = LOOSEST_FIRST[tightness]
        left = self.binary(tightness + 1)
        while self.follows(*operations):
            mark = self.take_any()
            if mark.text in ("<<", ">>"):
                left = self.term(mark.line, operations[mark.text], left.width, left.record, self.number(left.width - 1))
                continue
            right = self.binary(tightness + 1)
            self.fit(mark.line, right.width, left.width, f"the right of {mark.text}")
            width = 1 if mark.text in ("==", "<") else left.width
            left = self.term(mark.line, operations[mark.text], width, left.record, right.record)
        return left

    def unary(self):
        if not self.follows("~"):
            return self.selected()
        line = self.take("~").line
        part = self.unary()
        return self.term(line, NOT, part.width, part.record)

    def selected(self):
        whole = self.primary()
        while self.follows("["):
            line = self.token.line
            high, low = self.bounds()
            if high >= whole.width:
                raise Unclear(line, f"bit {high} of {whole.width}")
            whole = self.term(line, PART, high - low + 1, whole.record, low)
        return whole

    def primary(self):
        token = self.token
        if self.skip("("):
            inner = self.expression()
            self.take(")")
            return inner
        if self.skip("{"):
            return self.joined()
        sort, value = self.names.get(token.text, (None, None))
        if token.kind == "constant" or sort == "constant":
            self.take_any()
            return self.constant(token if token.kind == "constant" else value, token.line)
        variable = self.known_name("variable")
        return self.term(token.line, VARIABLE, self.sections[VARIABLES][variable][1], variable)

    def joined(self):
        whole = self.expression()
        while not self.skip("}"):
            line = self.take(",").line
            low = self.expression()
            whole = self.term(line, JOINED, whole.width + low.width, whole.record, low.record)
        return whole

    def constant(self, token, line):
        size, digits = token.text.split("'")
        try:
            width, value = int(size), int(digits[1:], BASES[digits[0]])
        except ValueError:
            raise Unclear(line, f"{token.text} has a wrong digit") from None
        if not 1 <= width <= WIDEST or value >= 2**width:
            raise Unclear(line, f"{token.text} does not fit")
        return self.term(line, CONSTANT, width, value)


def file_of(sections):
    """A design file of the records of each section, given as bytes."""
    head, body = [EDITION], b""
    for records in sections:
        part = b"".join(records)
        head += [HEAD + len(body), len(part)]
        body += part
    return struct.pack("<11I", *head) + body


def build(text):
    """The design file of a source."""
    return Builder(text).build()


def main(arguments):
    check = "--check" in arguments
    differing = []
    for file in (pathlib.Path(argument) for argument in arguments if argument != "--check"):
        try:
            data = build(file.read_text()).data
        except Unclear as problem:
            sys.exit(f"{file}: {problem}")
        target = file.with_suffix(".bin")
        if not check:
            target.write_bytes(data)
        elif not target.exists() or target.read_bytes() != data:
            differing.append(str(target))
    sys.exit(f"differs: {', '.join(differing)}" if differing else 0)


if __name__ == "__main__":
    main(sys.argv[1:])
