"""Mutations of design files: each takes a source of random numbers and the file of a formed design.

Gentle ones alter what a design means, and often leave it formed; rough ones aim at the reader and at the form rules.
"""
import struct

import model
from design_builder import file_of
from model import BLOCKS, COMMANDS, EXPRESSIONS, HEAD, SECTIONS, TABLES, VARIABLES

FIELDS = {
    TABLES: [(4 * n, 4) for n in range(16)],
    VARIABLES: [(0, 1), (1, 1), (2, 1), (3, 1), (4, 4), (8, 4)],
    BLOCKS: [(0, 4), (4, 4)],
    COMMANDS: [(4 * n, 4) for n in range(4)],
    EXPRESSIONS: [(0, 1), (1, 1), (2, 1), (4, 4), (8, 4), (12, 4)],
}  # where the fields of a record start, and their sizes


def sections_of(data):
    """The records of each section of a file, as bytes."""
    fields = struct.unpack_from("<11I", data)
    sections = []
    for section, (size, _) in enumerate(SECTIONS):
        start, length = fields[1 + 2 * section : 3 + 2 * section]
        sections.append([data[at : at + size] for at in range(start, start + length, size)])
    return sections


def put(data, at, value, size=4):
    """Bytes with a number written over some of them."""
    return data[:at] + (value % 2 ** (8 * size)).to_bytes(size, "little") + data[at + size :]


def number_at(data, at, size=4):
    return int.from_bytes(data[at : at + size], "little")


def pick_record(rng, sections, fits=lambda section, record: True):
    """The place of a record that fits, or None."""
    places = [(s, n) for s, records in enumerate(sections) for n, record in enumerate(records) if fits(s, record)]
    return rng.choice(places) if places else None


def changed_byte(rng, data):
    at = rng.randrange(len(data))
    return put(data, at, rng.choice([data[at] ^ 1 << rng.randrange(8), rng.randrange(256)]), 1)


def changed_head(rng, data):
    at = 4 * rng.randrange(HEAD // 4)
    return put(data, at, number_at(data, at) + rng.choice([-64, -16, -12, -8, -1, 1, 8, 12, 16, 64]))


def changed_length(rng, data):
    if rng.random() < 0.7:
        return data[: rng.choice([rng.randrange(HEAD), rng.randrange(len(data)), len(data) - 1, len(data) - 16])]
    return data + bytes(rng.choice([1, 4, 16]))


def changed_field(rng, data):
    """A field becomes another number: a near one, an extreme one, or that of the same field of another record."""
    sections = sections_of(data)
    section, number = pick_record(rng, sections)
    at, size = rng.choice(FIELDS[section])
    value = number_at(sections[section][number], at, size)
    other = number_at(rng.choice(sections[section]), at, size)
    value = rng.choice([value + 1, value - 1, 0, 1, other, other, 2 ** (8 * size) - 1, rng.randrange(20)])
    sections[section][number] = put(sections[section][number], at, value, size)
    return file_of(sections)


def changed_level(rng, data):
    """An entry of a table, one of those that are looked up most, or a fixed label becomes another level."""
    sections = sections_of(data)
    place = pick_record(rng, sections, lambda s, record: s == TABLES or s == VARIABLES and record[2] == model.FIXED)
    if place:
        section, number = place
        at = 4 * rng.randrange(4) if section == TABLES else 4
        sections[section][number] = put(sections[section][number], at, rng.choice([0, 1, 1, 2, 3]))
    return file_of(sections)


def other_variable(rng, data):
    """An assignment or a reading gets another variable of the same width, a wire more often."""
    sections = sections_of(data)
    operations = {COMMANDS: model.ASSIGN, EXPRESSIONS: model.VARIABLE}
    place = pick_record(rng, sections, lambda s, record: record[0] == operations.get(s))
    if place:
        section, number = place
        record, variables = sections[section][number], sections[VARIABLES]
        same = [n for n, variable in enumerate(variables) if variable[1] == variables[number_at(record, 4)][1]]
        same += 2 * [n for n in same if variables[n][0] == model.WIRE]
        sections[section][number] = put(record, 4, rng.choice(same))
    return file_of(sections)


def other_selector(rng, data):
    """A variable's label is looked up by another variable, or by itself."""
    sections = sections_of(data)
    place = pick_record(rng, sections, lambda s, record: s == VARIABLES and sections[TABLES])
    if place:
        _, number = place
        narrow = [n for n, variable in enumerate(sections[VARIABLES]) if variable[1] <= 5 or n == number]
        record = put(sections[VARIABLES][number], 4, rng.choice(narrow))
        record = put(record, 2, model.LOOKED_UP, 1)
        sections[VARIABLES][number] = put(record, 3, rng.randrange(len(sections[TABLES])), 1)
    return file_of(sections)


def other_kind(rng, data):
    """A port becomes a register, a settled block a clocked one, or the like."""
    sections = sections_of(data)
    section, number = pick_record(rng, sections, lambda s, record: s in (VARIABLES, BLOCKS))
    kind = rng.randrange(3 if section == VARIABLES else 2)
    sections[section][number] = put(sections[section][number], 0, kind, 1)
    return file_of(sections)


def other_operation(rng, data):
    """An expression of two parts gets another operation."""
    sections = sections_of(data)
    place = pick_record(rng, sections, lambda s, record: s == EXPRESSIONS and model.AND <= record[0] <= model.LESS)
    if place:
        record = sections[EXPRESSIONS][place[1]]
        sections[EXPRESSIONS][place[1]] = put(record, 0, rng.randint(model.AND, model.LESS), 1)
    return file_of(sections)


def exchanged_branches(rng, data):
    sections = sections_of(data)
    place = pick_record(rng, sections, lambda s, record: s == COMMANDS and record[0] == model.CHOICE)
    if place:
        record = sections[COMMANDS][place[1]]
        sections[COMMANDS][place[1]] = record[:8] + record[12:] + record[8:12]
    return file_of(sections)


def exchanged_parts(rng, data):
    """Two commands, or two expressions, exchange the number of a part, so that each part is used as often as before."""
    sections = sections_of(data)
    section = rng.choice([COMMANDS, EXPRESSIONS])
    if len(sections[section]) > 1:
        first, second = rng.sample(range(len(sections[section])), 2)
        at = 8 if section == COMMANDS else rng.choice([4, 8])
        a, b = sections[section][first], sections[section][second]
        sections[section][first], sections[section][second] = put(a, at, number_at(b, at)), put(b, at, number_at(a, at))
    return file_of(sections)


def exchanged_records(rng, data, section=None):
    sections = sections_of(data)
    records = sections[pick_record(rng, sections)[0] if section is None else section]
    first, second = (rng.randrange(len(records)) for _ in range(2))
    records[first], records[second] = records[second], records[first]
    return file_of(sections)


def exchanged_blocks(rng, data):
    return exchanged_records(rng, data, BLOCKS)


def more_or_fewer(rng, data):
    """A section loses its last record, or gets another one, or as many as its limit and perhaps one over."""
    sections = sections_of(data)
    section, _ = pick_record(rng, sections)
    records, (_, most) = sections[section], SECTIONS[section]
    pick = rng.random()
    if pick < 0.5:
        records.pop()
    else:
        more = 1 if pick < 0.75 else most + rng.randint(0, 1) - len(records)
        records += [rng.choice(records)] * more
    return file_of(sections)


GENTLE = [changed_level, other_variable, other_variable, other_selector, other_kind, other_operation]
GENTLE += [exchanged_branches, exchanged_parts, exchanged_blocks]
ROUGH = [changed_byte, changed_head, changed_length, changed_field, changed_field, exchanged_records, more_or_fewer]


def mutated(rng, data):
    """A design with a rough mutation, or with one or two gentle ones."""
    if rng.random() < 0.35:
        return rng.choice(ROUGH)(rng, data)
    for _ in range(rng.randint(1, 2)):
        data = rng.choice(GENTLE)(rng, data)
    return data
