"""Files to read, for the program `cases`, and what reading each answers.

    file HEX                  a design file
    put AT HEX [AT HEX ...]   the last such file with other bytes at some places
    cut LENGTH                its first bytes

The answers are those of tools/model.py. The cases are the empty design, the example designs, a small file cut at every
byte, a file of the largest size, and changes to it that break each rule at its first and its last possible record.
"""
import pathlib
import struct

import model

ROOT = pathlib.Path(__file__).resolve().parent.parent

PER_BLOCK = 2  # variables that a block of the largest file assigns
CHAIN = 16  # expressions of each of its assignments


def packed(sections):
    """The file of some records, each a list of fields as model.SHAPES has them."""
    bodies = [b"".join(struct.pack(model.SHAPES[s], *r) for r in records) for s, records in enumerate(sections)]
    head, at = [model.EDITION], model.HEAD
    for body in bodies:
        head += [at, len(body)]
        at += len(body)
    return struct.pack("<11I", *head) + b"".join(bodies)


def largest():
    """A formed design with every section full: ports 0 to 63, wires 64 to 95 and registers 96 to 127."""
    kinds = [model.PORT] * 64 + [model.WIRE] * 32 + [model.REGISTER] * 32
    variables = [[kind, 1, model.FIXED, 0, 0, 0] for kind in kinds]
    variables[1] = [model.PORT, 1, model.LOOKED_UP, 15, 0, 0]
    variables[127] = [model.REGISTER, 1, model.LOOKED_UP, 0, 127, 1]
    blocks, commands, expressions = [], [], []
    for block in range(32):
        first = 64 + PER_BLOCK * block
        tops = []
        for target in range(first, first + PER_BLOCK):
            expressions.append([model.VARIABLE, 1, 0, target - 64, 0, 0])
            for _ in range(CHAIN - 1):
                expressions.append([model.NOT, 1, 0, len(expressions) - 1, 0, 0])
            tops.append(len(commands))
            commands.append([model.ASSIGN, target, len(expressions) - 1, 0])
        # Idle commands, and sequences that bind all into one: 15 commands or 17.
        for _ in range(6 + block % 2):
            tops.append(len(commands))
            commands.append([model.NOTHING, 0, 0, 0])
        while len(tops) > 1:
            left, right = tops.pop(0), tops.pop(0)
            tops.append(len(commands))
            commands.append([model.SEQUENCE, left, right, 0])
        blocks.append([model.SETTLED if block < 16 else model.CLOCKED, tops[0]])
    tables = [[t] * 16 for t in range(16)]
    return [tables, variables, blocks, commands, expressions]


def changed(sections, section, record, field, value):
    """The file with one field of one record changed."""
    copy = [[list(r) for r in records] for records in sections]
    copy[section][record][field] = value
    return packed(copy)


def one_more(section):
    """A file with one record too many in a section."""
    record = [0] * len(struct.unpack(model.SHAPES[section], bytes(model.SECTIONS[section][0])))
    return packed([[record] * (model.SECTIONS[s][1] + 1) if s == section else [] for s in range(5)])


def of_records():
    """Each record of the first and the last places with a field that no rule allows, and with one that only form refuses."""
    full = largest()
    ends = {s: (0, len(full[s]) - 1) for s in range(1, 5)}
    for record in ends[model.VARIABLES]:
        for field, value in ((0, 3), (1, 0), (1, 33), (2, 2), (3, 16), (5, 2), (4, 128), (1, 2), (0, 2), (2, 1)):
            yield changed(full, model.VARIABLES, record, field, value)
    for record in ends[model.BLOCKS]:
        for field, value in ((0, 2), (1, 512), (1, 0), (0, 0), (0, 1)):
            yield changed(full, model.BLOCKS, record, field, value)
    for record in ends[model.COMMANDS] + (1, 2):
        for field, value in ((0, 4), (1, 128), (2, 1024), (3, 1), (2, 1023), (1, 0), (1, 63), (2, 511), (0, 0)):
            yield changed(full, model.COMMANDS, record, field, value)
    for record in ends[model.EXPRESSIONS] + (1, 1008):
        for field, value in ((0, 15), (1, 0), (1, 33), (2, 1), (3, 1024), (4, 1), (5, 1), (1, 2), (3, 1023), (3, 127), (3, 64)):
            yield changed(full, model.EXPRESSIONS, record, field, value)


def of_selectors():
    """Looked-up labels whose selector is too wide, is labelled by another, or is of the wrong kind."""
    full = largest()
    for labelled, selector in ((1, 1), (1, 2), (1, 64), (0, 1), (127, 126), (127, 95), (127, 1), (127, 127), (64, 65), (64, 66), (95, 64), (66, 64), (64, 64)):
        copy = [[list(r) for r in records] for records in full]
        copy[model.VARIABLES][labelled][2:5] = [model.LOOKED_UP, 15, selector]
        yield packed(copy)
        copy[model.VARIABLES][selector][1] = 5
        yield packed(copy)


def small():
    return packed([[[0] * 16], [[0, 1, 0, 0, 0, 0]], [[1, 0]], [[0, 0, 0, 0]], []])


def of_heads():
    """Heads that break the layout at each pair, in each way."""
    for pair in range(5):
        for field, value in ((4, 0), (4, 43), (4, 2**32 - 1), (8, 1), (8, 2**32 - 1), (8, 2**32 - 16)):
            data = bytearray(small())
            struct.pack_into("<I", data, 8 * pair + field, value)
            yield bytes(data)
    yield b"\2" + small()[1:]


def put_line(base, data):
    """The line that makes a file from another of its length."""
    places = [at for at in range(len(base)) if base[at] != data[at]]
    return "put " + " ".join(f"{at} {data[at]:02x}" for at in places)


def cases_of_files():
    """Each line with the file that it stands for."""
    for data in [packed([[], [], [], [], []])] + [f.read_bytes() for f in sorted((ROOT / "designs").glob("*.bin"))]:
        yield f"file {data.hex()}", data
    for data in [one_more(section) for section in range(5)] + [small() + b"\0", small()]:
        yield f"file {data.hex()}", data
    for data in of_heads():
        yield put_line(small(), data), data
    for length in range(len(small())):
        yield f"cut {length}", small()[:length]
    full = packed(largest())
    yield f"file {full.hex()}", full
    for data in list(of_records()) + list(of_selectors()):
        yield put_line(full, data), data


def reading(data):
    try:
        model.read_design(data)
    except model.Refused as refusal:
        return str(refusal)
    return "formed"


def cases():
    """Each line with its answer."""
    for line, data in cases_of_files():
        yield line, reading(data)
