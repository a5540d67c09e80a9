"""Lattices of levels, each given by a count and an order; every other answer is searched for in these two.

A lattice is named by a text:

    C5                  chain of 5 levels
    S3                  sets of 3 owners
    T4:1111010100110001 table of 4 levels, row by row
    P(C2,S1)            pair
    R(C3)               reversed
"""
import re

MOST_LEVELS = 65_536
MOST_OWNERS = 16
MOST_ROWS = 16


class NoLattice(Exception):
    """A lattice that cannot be made, with the number of the refusal."""

    def __init__(self, number):
        super().__init__(f"refused {number} 0 0")
        self.number = number


class Lattice:
    """The levels are the numbers below `count`; `order` is asked about levels only."""

    def __init__(self, sign, count, order):
        self.sign, self.count, self.order = sign, count, order

    def below(self, a, b):
        """Is a at or below b? Of a number that is no level the answer is no."""
        return a < self.count and b < self.count and self.order(a, b)

    def lowest(self):
        return self._first(range(self.count), self.order)

    def highest(self):
        return self._first(range(self.count), lambda a, b: self.order(b, a))

    def join(self, a, b):
        """The least level at or above both; the lowest level where one of them is no level."""
        if a >= self.count or b >= self.count:
            return self.lowest()
        return self._first([c for c in range(self.count) if self.order(a, c) and self.order(b, c)], self.order)

    def meet(self, a, b):
        """The greatest level at or below both; the lowest level where one of them is no level."""
        if a >= self.count or b >= self.count:
            return self.lowest()
        lower = [c for c in range(self.count) if self.order(c, a) and self.order(c, b)]
        return self._first(lower, lambda c, d: self.order(d, c))

    @staticmethod
    def _first(levels, before):
        """The level that comes before all the others, or None."""
        best = None
        for level in levels:
            if best is None or before(level, best):
                best = level
        return best if best is not None and all(before(best, level) for level in levels) else None


def chain(count):
    if not 1 <= count <= MOST_LEVELS:
        raise NoLattice(21)
    return Lattice("C", count, lambda a, b: a <= b)


def sets(owners):
    if not 0 <= owners <= MOST_OWNERS:
        raise NoLattice(21)
    return Lattice("S", 2**owners, lambda a, b: a & ~b == 0)


def table(count, cells):
    """The lattice of a table; `cells` are its bytes, row by row."""
    if not 1 <= count <= MOST_ROWS:
        raise NoLattice(21)
    if len(cells) != count * count or any(cell > 1 for cell in cells):
        raise NoLattice(22)
    made = Lattice("T", count, lambda a, b: cells[a * count + b] == 1)
    if not is_lawful(made):
        raise NoLattice(22)
    return made


def is_lawful(lattice):
    """Is it an order, and has it all joins and meets? Tried on every three levels."""
    levels = range(lattice.count)
    order = lattice.order
    return (
        all(order(a, a) for a in levels)
        and not any(order(a, b) and order(b, a) for a in levels for b in levels if a != b)
        and all(order(a, c) for a in levels for b in levels if order(a, b) for c in levels if order(b, c))
        and all(lattice.join(a, b) is not None and lattice.meet(a, b) is not None for a in levels for b in levels)
    )


def product(p, q):
    """The count of a pair, asked for before it is made."""
    if p * q > MOST_LEVELS:
        raise NoLattice(21)
    return p * q


def pair(first, second):
    """Level a × q + b stands for the levels a and b; a pair that is too large has the one level 0."""
    q = second.count
    if first.count * q > MOST_LEVELS:
        return Lattice("P", 1, lambda a, b: True)
    return Lattice("P", first.count * q, lambda a, b: first.order(a // q, b // q) and second.order(a % q, b % q))


def turned(lattice):
    return Lattice("R", lattice.count, lambda a, b: lattice.order(b, a))


def named(text):
    """The lattice with this name; ValueError where the text is no name."""
    made, rest = _named(text)
    if rest:
        raise ValueError(f"no lattice: {text}")
    return made


def _named(text):
    """The lattice at the front of a text, and the text after it."""
    if text.startswith("P("):
        first, rest = _named(text[2:])
        second, rest = _named(_after(",", rest))
        return pair(first, second), _after(")", rest)
    if text.startswith("R("):
        inner, rest = _named(text[2:])
        return turned(inner), _after(")", rest)
    if match := re.match(r"T(\d+):(\d*)", text):
        return table(int(match[1]), [int(cell) for cell in match[2]]), text[match.end():]
    if match := re.match(r"([CS])(\d+)", text):
        make = {"C": chain, "S": sets}[match[1]]
        return make(int(match[2])), text[match.end():]
    raise ValueError(f"no lattice: {text}")


def _after(mark, text):
    if not text.startswith(mark):
        raise ValueError(f"{mark} is missing before: {text}")
    return text[1:]
