#!/usr/bin/env python3
"""Reading cases for the program reading_cases, with the answers of a second reader.

Run it at the root of the repository, with no arguments and nothing but Python 3:

    python3 compare/reading_cases.py

It writes crates/reading_cases/stdin, one case a line, and crates/reading_cases/stdout, what the program must print on them. It makes the same two
files at every run. crates/reading_cases/README.md says what the cases are.

The reader below follows the text of document 01 ("The stored model", "A field is at fault when .."), and takes over nothing of the code or the
definitions of the crate stored. For each file that is made by hand the answer stands beside it, and the script stops if its own reader says
otherwise.
"""
import os
import sys

MODEL = "model"
TYPES, ROOTS, RELATION, END = 1, 2, 3, 0
LIMITS = {"types": 16, "elements": 64, "relations": 16, "arity": 8, "cells": 2048}


# ---- the reader

class Broken(Exception):
    """The field that is being read breaks a rule."""


def demand(rule):
    if not rule:
        raise Broken


class Reader:
    """What is known of a model as its fields go by."""

    def __init__(self):
        self.type_of = None  # of each element, its type
        self.type_count = 0
        self.relations = 0
        self.cells = 0

    def types(self, value):
        demand(len(value) <= LIMITS["types"])
        demand(sum(value) <= LIMITS["elements"])
        self.type_count = len(value)
        self.type_of = [t for t, size in enumerate(value) for _ in range(size)]

    def roots(self, value):
        n = len(self.type_of)
        demand(len(value) == n)
        for element, root in enumerate(value):
            demand(root in range(n))
            demand(self.type_of[root] == self.type_of[element])
            demand(value[root] == root)

    def relation(self, value):
        self.relations += 1
        demand(self.relations <= LIMITS["relations"])
        demand(len(value) >= 1)
        arity = value[0]
        demand(arity <= LIMITS["arity"])
        demand(len(value) >= 3 + arity)
        columns, rest = value[1:1 + arity], value[1 + arity:]
        count = int.from_bytes(rest[:2], "big")
        demand(len(value) == 3 + arity + count * arity)
        self.cells += count * arity
        demand(self.cells <= LIMITS["cells"])
        demand(all(column < self.type_count for column in columns))
        if arity == 0:
            demand(count in (0, 1))
            return
        body = rest[2:]
        rows = [tuple(body[i:i + arity]) for i in range(0, len(body), arity)]
        for row in rows:
            for column, entry in zip(columns, row):
                demand(entry < len(self.type_of))
                demand(self.type_of[entry] == column)
        demand(rows == sorted(set(rows)))

    def end(self, value):
        demand(value == b"")


def answer(data):
    """MODEL, or the offset of the first field at fault."""
    reader = Reader()
    reads = {TYPES: reader.types, ROOTS: reader.roots, RELATION: reader.relation, END: reader.end}
    due = {TYPES}
    after = {TYPES: {ROOTS}, ROOTS: {RELATION, END}, RELATION: {RELATION, END}, END: set()}
    at = 0
    while due:
        try:
            demand(len(data) - at >= 3)
            tag, length = data[at], int.from_bytes(data[at + 1:at + 3], "big")
            demand(len(data) - at - 3 >= length)
            demand(tag in due)
            reads[tag](data[at + 3:at + 3 + length])
        except Broken:
            return at
        due = after[tag]
        at += 3 + length
    return MODEL if at == len(data) else at


# ---- files

def field(tag, value, length=None):
    """A field; with another length than its value's where one is given."""
    return bytes([tag]) + (len(value) if length is None else length).to_bytes(2, "big") + bytes(value)


def types(*sizes):
    return field(TYPES, sizes)


def roots(*values):
    return field(ROOTS, values)


def relation(columns, rows, count=None):
    """A Relation with these rows; with another row count than there are rows where one is given."""
    count = len(rows) if count is None else count
    return field(RELATION, bytes([len(columns)]) + bytes(columns) + count.to_bytes(2, "big") + b"".join(bytes(row) for row in rows))


def end():
    return field(END, b"")


def own(n):
    """Roots of n elements, each its own representative."""
    return roots(*range(n))


def first_rows(count, columns, sizes):
    """The first rows, in ascending order, over columns of types of these sizes."""
    starts = [sum(sizes[:t]) for t in range(len(sizes))]
    rows = []
    for number in range(count):
        row = []
        for column in reversed(columns):
            number, digit = divmod(number, sizes[column])
            row.insert(0, starts[column] + digit)
        assert number == 0, "too few elements for so many rows"
        rows.append(row)
    return rows


def filled(count, columns, sizes):
    """A Relation with so many rows."""
    return relation(columns, first_rows(count, columns, sizes))


# ---- the cases that are read as they are

CASES = []


def good(*fields):
    case(MODEL, *fields)


def case(expected, *fields):
    data = b"".join(fields)
    said = answer(data)
    if said != expected:
        sys.exit(f"{data.hex()}: the table says {expected}, the reader {said}")
    CASES.append("=" + data.hex())


def at(*fields):
    """The offset just after these fields."""
    return len(b"".join(fields))


def few_bytes_cases():
    """Fewer than three bytes where a field is to start."""
    case(0)
    for start in (b"\x01", b"\x01\x00", b"\x00", b"\x00\x00", b"\x02", b"\xff\xff"):
        case(0, start)
    head = types(1) + own(1)
    for front in (types(1), head, head + relation([0], [[0]])):
        case(at(front), front)
        case(at(front), front, b"\x00")
        case(at(front), front, b"\x00\x00")
        case(at(front), front, b"\x02\x00")
        case(at(front), front, b"\x03\x00")


def length_cases():
    """Lengths past the end, by one and by many, of each kind of field."""
    head = types(2) + own(2)
    for length in (2, 3, 256, 257, 512, 65535):
        case(0, field(TYPES, [2], length))
    case(0, field(TYPES, [], 1))
    for length in (3, 256, 258, 65535):
        case(at(types(2)), types(2), field(ROOTS, [0, 1], length))
    value = bytes([1, 0, 0, 1, 0])
    for length in (6, 256, 261, 65535):
        case(at(head), head, field(RELATION, value, length))
    for length in (1, 256, 65535):
        case(at(head), head, field(END, [], length))
    # a length that takes in the fields after it: nine types, and then nothing
    case(12, field(TYPES, [2], 1 + at(own(2), end())), own(2), end())
    case(at(types(2)), types(2), field(ROOTS, [0, 1], 2 + at(end())), end())
    case(at(head), head, field(RELATION, value, 5 + at(end())), end())
    # one that is too short: what is left of the value is taken for the next field
    case(3, field(TYPES, [2], 0), own(2), end())
    case(at(types(2)), types(2), field(ROOTS, [0, 1], 1), end())
    case(at(head), head, field(RELATION, value, 4), end())


def order_cases():
    """Fields out of order, missing or doubled, and tags of none."""
    case(0, own(0), end())
    case(0, end())
    case(0, relation([], []), end())
    case(0, own(0), types(), end())
    case(3, types(), end())
    case(3, types(), relation([], []), own(0), end())
    case(3, types(), types(), own(0), end())
    case(4, types(2), types(2), own(2), end())
    case(6, types(), own(0), types(), end())
    case(6, types(), own(0), own(0), end())
    case(9, types(2), own(2), types(2), end())
    case(9, types(2), own(2), own(2), end())
    head = types(2) + own(2)
    one = relation([0], [[0]])
    case(at(head, one), head, one, own(2), end())
    case(at(head, one), head, one, types(2), end())
    # tags that no field has
    for tag in (0, 2, 3, 4, 16, 128, 254, 255):
        case(0, field(tag, [2]), own(2), end())
    for tag in (0, 1, 3, 4, 16, 130, 255):
        case(4, types(2), field(tag, [0, 1]), end())
    for tag in (1, 2, 4, 5, 16, 19, 128, 131, 255):
        case(at(head), head, field(tag, []), end())
        case(at(head), head, field(tag, one[3:]), end())
        case(at(head, one), head, one, field(tag, []), end())


def end_cases():
    """No End, End with a value, bytes after End."""
    head = types(2) + own(2)
    one = relation([0], [[0]])
    for front in (head, head + one):
        case(at(front), front)
        good(front, end())
        case(at(front), front, field(END, [0]))
        case(at(front), front, field(END, [0, 0, 0]))
        case(at(front), front, field(END, end()))
        case(at(front), front, field(END, [0], 0x100), bytes(255))
        for more in (b"\x00", b"\xff", b"\x00\x00", end(), one, one + end(), head + end(), bytes(300)):
            case(at(front, end()), front, end(), more)


def types_cases():
    """The number of types, and the number of elements, which may not be summed in a byte."""
    good(types(), own(0), end())
    good(types(0), own(0), end())
    good(types(0, 0, 0), own(0), end())
    good(types(1), own(1), end())
    good(types(0, 3, 0, 2), own(5), end())
    good(types(*[0] * 16), own(0), end())
    case(0, types(*[0] * 17), own(0), end())
    good(types(*[4] * 16), own(64), end())
    good(types(*[1] * 16), own(16), end())
    case(0, types(*[1] * 17), own(17), end())
    case(0, types(*[0] * 255), own(0), end())
    case(0, types(*[0] * 256), own(0), end())
    case(0, types(*[0] * 272), own(0), end())
    good(types(64), own(64), end())
    case(0, types(65), own(65), end())
    good(types(63, 1), own(64), end())
    good(types(0, 64), own(64), end())
    good(types(64, 0), own(64), end())
    case(0, types(64, 1), own(65), end())
    case(0, types(1, 64), own(65), end())
    case(0, types(*[4] * 15, 5), own(65), end())
    case(0, types(255), own(255), end())
    # sums that are 64, 0 or 1 in a byte
    case(0, types(128, 128, 64), own(64), end())
    case(0, types(128, 128), own(0), end())
    case(0, types(255, 1), own(0), end())
    case(0, types(255, 2), own(1), end())
    case(0, types(*[16] * 16), own(0), end())
    case(0, types(*[20] * 16), own(64), end())
    case(0, types(*[255] * 16), own(240), end())


def roots_cases():
    """Representatives: how many, of which elements, of which types, their own."""
    bad = lambda sizes, *values: case(at(types(*sizes)), types(*sizes), roots(*values), end())
    fine = lambda sizes, *values: good(types(*sizes), roots(*values), end())
    # length
    bad([2], 0)
    bad([2])
    bad([2], 0, 1, 1)
    bad([2], 0, 1, 2)
    bad([], 0)
    bad([0, 0], 0)
    bad([1, 1], 0)
    bad([64], *range(63))
    bad([64], *range(64), 0)
    bad([64], *range(64), *[0] * 256)
    bad([], *[0] * 256)
    # out of range
    bad([2], 0, 2)
    bad([2], 2, 1)
    bad([2], 0, 3)
    bad([2], 255, 1)
    bad([2], 0, 255)
    bad([1], 1)
    bad([64], *range(63), 64)
    bad([64], *range(63), 128)
    # of another type
    bad([1, 1], 0, 0)
    bad([1, 1], 1, 1)
    bad([1, 1], 1, 0)
    bad([2, 2], 0, 0, 1, 3)
    bad([2, 2], 0, 2, 2, 2)
    bad([2, 0, 2], 0, 1, 1, 3)
    bad([2, 0, 2], 0, 2, 2, 3)
    # not its own representative
    bad([3], 1, 2, 2)
    bad([3], 0, 0, 1)
    bad([2], 1, 0)
    bad([3], 1, 2, 0)
    bad([3], 0, 2, 1)
    bad([4], 0, 1, 3, 1)
    # aliases
    fine([2], 0, 0)
    fine([2], 1, 1)
    fine([3], 1, 1, 1)
    fine([3], 2, 1, 2)
    fine([4], 0, 1, 1, 0)
    fine([2, 2], 1, 1, 2, 2)
    fine([0, 2, 0, 3, 0], 0, 0, 4, 4, 4)
    fine([64], *[63] * 64)
    fine([64], *[0] * 64)
    fine([32, 32], *[31] * 32, *[32] * 32)


def arity_cases():
    """The length of a Relation's value, arity 0, and the limit of arity."""
    head = types(2, 1) + own(3)
    bad = lambda value, *more: case(at(head, *more), head, *more, field(RELATION, value), end())
    fine = lambda value: good(head, field(RELATION, value), end())
    # under three bytes, or fewer than arity asks for
    bad([])
    bad([0])
    bad([0, 0])
    bad([1])
    bad([1, 0])
    bad([1, 0, 0])
    bad([2, 0, 0, 0])
    bad([8])
    bad([8, 0, 0, 0, 0, 0, 0, 0, 0, 0])
    bad([9])
    bad([255])
    # arity 0
    fine([0, 0, 0])
    fine([0, 0, 1])
    bad([0, 0, 2])
    bad([0, 0, 255])
    bad([0, 1, 0])
    bad([0, 1, 1])
    bad([0, 255, 255])
    bad([0, 0, 0, 0])
    bad([0, 0, 1, 0])
    good(head, relation([], [[]]), relation([], []), relation([], [[]]), end())
    bad([0, 0, 2], relation([], [[]]))
    # no rows
    fine([1, 0, 0, 0])
    fine([1, 1, 0, 0])
    fine([2, 1, 0, 0, 0])
    # a row count that the length does not fit
    fine([1, 0, 0, 1, 0])
    bad([1, 0, 0, 0, 0])
    bad([1, 0, 0, 1])
    bad([1, 0, 0, 1, 0, 1])
    bad([1, 0, 0, 2, 0])
    bad([1, 0, 0, 3, 0, 1])
    bad([1, 0, 1, 0, 0])
    bad([1, 0, 1, 1, 0])
    bad([1, 0, 255, 255, 0])
    fine([2, 0, 0, 0, 1, 0, 0])
    bad([2, 0, 0, 0, 1, 0])
    bad([2, 0, 0, 0, 1, 0, 0, 0])
    bad([2, 0, 0, 0, 1, 0, 0, 0, 1])
    bad([2, 0, 0, 0, 2, 0, 0, 0])
    bad([2, 0, 0, 128, 0])
    bad([4, 0, 0, 0, 0, 64, 0])
    bad([8, 0, 0, 0, 0, 0, 0, 0, 0, 32, 0])
    bad([8, 0, 0, 0, 0, 0, 0, 0, 0, 255, 255])
    # a row count with a high byte
    sizes = [32]
    wide = types(*sizes) + own(32)
    good(wide, filled(255, [0, 0], sizes), end())
    good(wide, filled(256, [0, 0], sizes), end())
    good(wide, filled(257, [0, 0], sizes), end())
    case(at(wide), wide, relation([0, 0], first_rows(256, [0, 0], sizes), count=1), end())
    case(at(wide), wide, relation([0, 0], first_rows(1, [0, 0], sizes), count=256), end())
    # arity
    for arity in range(1, 9):
        good(head, filled(1, [0] * arity, [2, 1]), end())
        good(head, filled(2, [1] * (arity - 1) + [0], [2, 1]), end())
    for arity in (9, 10, 16, 255):
        case(at(head), head, relation([0] * arity, []), end())
        case(at(head), head, relation([0] * arity, [[0] * arity]), end())


def column_cases():
    """Columns with the number of no type, and entries that are not of their column's type."""
    for sizes, column in (([], 0), ([], 255), ([2], 1), ([2], 255), ([2, 1], 2), ([2, 1], 3), ([0] * 16, 16), ([4] * 16, 16)):
        head = types(*sizes) + own(sum(sizes))
        case(at(head), head, relation([column], []), end())
        case(at(head), head, relation([column], [[0]]), end())
        if sizes:
            good(head, relation([len(sizes) - 1], []), end())
            case(at(head), head, relation([0, column], []), end())
            case(at(head), head, relation([column, 0], []), end())
    # types 0, 1, 2, 3 have the elements 0 1, none, 2 3 4, 5
    sizes = [2, 0, 3, 1]
    head = types(*sizes) + roots(0, 0, 2, 3, 3, 5)
    for column, elements in ((0, [0, 1]), (1, []), (2, [2, 3, 4]), (3, [5])):
        for entry in list(range(9)) + [64, 128, 255]:
            case(MODEL if entry in elements else at(head), head, relation([column], [[entry]]), end())
    bad = lambda columns, *rows: case(at(head), head, relation(columns, rows), end())
    fine = lambda columns, *rows: good(head, relation(columns, rows), end())
    fine([0, 2], [0, 2])
    bad([0, 2], [2, 0])
    bad([0, 2], [0, 0])
    bad([0, 2], [2, 2])
    fine([3, 2, 0], [5, 4, 1])
    bad([3, 2, 0], [5, 4, 2])
    bad([3, 2, 0], [5, 5, 1])
    bad([3, 2, 0], [4, 4, 1])
    # in a later row
    fine([0, 2], [0, 2], [0, 4], [1, 3])
    bad([0, 2], [0, 2], [0, 4], [1, 5])
    bad([0, 2], [0, 2], [0, 4], [2, 3])
    bad([0, 2], [0, 2], [0, 1], [1, 3])
    bad([0, 2], [0, 2], [0, 4], [1, 255])
    # an empty type has no entry
    fine([1])
    fine([1, 0])
    bad([1, 0], [2, 0])
    bad([0, 1], [0, 2])
    # no elements at all
    nothing = types(0, 0) + own(0)
    good(nothing, relation([0, 1], []), end())
    case(at(nothing), nothing, relation([0, 1], [[0, 0]]), end())


def row_order_cases():
    """Equal rows, and rows out of order."""
    head = types(4) + roots(0, 0, 2, 3)
    bad = lambda columns, *rows: case(at(head), head, relation(columns, rows), end())
    fine = lambda columns, *rows: good(head, relation(columns, rows), end())
    fine([0], [0], [1], [2], [3])
    fine([0], [0], [3])
    bad([0], [0], [0])
    bad([0], [1], [0])
    bad([0], [0], [1], [1])
    bad([0], [0], [2], [1])
    bad([0], [1], [0], [2])
    bad([0], [3], [2], [1], [0])
    # ascending by a later column
    fine([0, 0], [0, 0], [0, 1])
    fine([0, 0], [0, 1], [1, 0])
    fine([0, 0], [0, 3], [1, 3], [2, 0])
    bad([0, 0], [0, 1], [0, 0])
    bad([0, 0], [1, 0], [0, 1])
    bad([0, 0], [1, 0], [0, 0])
    bad([0, 0], [0, 1], [0, 1])
    bad([0, 0], [0, 0], [1, 1], [1, 0])
    bad([0, 0], [0, 0], [1, 1], [1, 1])
    fine([0, 0, 0], [1, 1, 0], [1, 1, 1], [1, 2, 0], [2, 0, 0])
    bad([0, 0, 0], [1, 1, 0], [1, 1, 1], [1, 1, 1], [2, 0, 0])
    bad([0, 0, 0], [1, 1, 0], [1, 2, 0], [1, 1, 1], [2, 0, 0])
    fine([0] * 8, [0] * 8, [0] * 7 + [1])
    bad([0] * 8, [0] * 7 + [1], [0] * 8)
    bad([0] * 8, [0] * 8, [0] * 8)
    # rows that are equal only after taking entries to representatives
    fine([0, 0], [0, 0], [0, 1], [1, 0], [1, 1])
    # every relation has its order of rows alone
    good(head, relation([0], [[3]]), relation([0], [[0]]), end())
    good(head, relation([0], [[1]]), relation([0], [[1]]), end())


def limit_cases():
    """The number of relations, the number of cells, and the largest file."""
    head = types(2) + own(2)
    one = relation([0], [[0]])
    for kind in (one, relation([], []), relation([], [[]]), relation([0] * 8, [])):
        good(head, kind * 16, end())
        case(at(head, kind * 16), head, kind * 17, end())
        case(at(head, kind * 16), head, kind * 16)
    case(at(head, one * 16), head, one * 18, end())
    # a fault in the sixteenth, and in the field after it
    bad = relation([0], [[2]])
    case(at(head, one * 15), head, one * 15, bad, end())
    case(at(head, one * 16), head, one * 16, bad, end())
    case(at(head, one * 16), head, one * 16, field(END, [0]))
    case(at(head, one * 16, end()), head, one * 16, end(), b"\x00")
    # cells in one relation
    sizes = [64]
    head = types(64) + own(64)
    good(head, filled(1024, [0, 0], sizes), end())
    case(at(head), head, filled(1025, [0, 0], sizes), end())
    good(head, filled(682, [0, 0, 0], sizes), end())
    case(at(head), head, filled(683, [0, 0, 0], sizes), end())
    good(head, filled(256, [0] * 8, sizes), end())
    case(at(head), head, filled(257, [0] * 8, sizes), end())
    # over several: the last one has the fault, whatever its own number of cells
    full = filled(1024, [0, 0], sizes)
    half = filled(512, [0, 0], sizes)
    case(at(head, full), head, full, filled(1, [0], sizes), end())
    good(head, full, relation([0, 0], []), relation([], [[]]), end())
    good(head, half, half, end())
    case(at(head, half), head, half, filled(513, [0, 0], sizes), end())
    case(at(head, half, half), head, half, half, filled(1, [0], sizes), end())
    case(at(head, half, half, relation([], [[]])), head, half, half, relation([], [[]]), filled(1, [0], sizes), end())
    three = filled(682, [0, 0, 0], sizes)
    good(head, three, filled(2, [0], sizes), end())
    case(at(head, three), head, three, filled(3, [0], sizes), end())
    good(head, three, filled(1, [0], sizes), filled(1, [0], sizes), end())
    case(at(head, three, filled(1, [0], sizes)), head, three, filled(1, [0], sizes), filled(1, [0, 0], sizes), end())
    # the largest good file, and one row or one relation more
    sizes = [4] * 16
    head = types(*sizes) + own(64)
    largest = [filled(16, [t, t, t, 0, 0, 15 - t, 15 - t, 15 - t], sizes) for t in range(16)]
    good(head, *largest, end())
    assert at(head, *largest, end()) == 2361
    case(at(head, *largest[:15]), head, *largest[:15], filled(17, [0] * 8, sizes), end())
    case(at(head, *largest), head, *largest, relation([], []), end())
    case(at(head, *largest, end()), head, *largest, end(), b"\x00")
    case(at(head, *largest), head, *largest)


def first_fault_cases():
    """Two fields at fault: the first one is told."""
    bad_types, bad_roots, bad_relation = types(65), roots(0, 2), relation([0], [[2]])
    head = types(2) + own(2)
    case(0, bad_types, bad_roots, end())
    case(0, bad_types, roots(0), bad_relation, end())
    case(4, types(2), bad_roots, bad_relation, end())
    case(4, types(2), bad_roots, end(), b"\x00")
    case(9, head, bad_relation, bad_relation, end())
    case(9, head, bad_relation, field(END, [0]))
    case(9, head, field(END, [0]), b"\x00")
    case(9, head, bad_relation)
    case(17, head, relation([0], [[0]]), bad_relation, field(4, []), end())


# ---- the cases that are cut, and that are changed byte by byte

def cut_files():
    """Two good files of 40 to 60 bytes, with two relations and aliases."""
    return [
        types(3, 2) + roots(0, 0, 2, 3, 3) + relation([0, 0], [[0, 1], [0, 2], [2, 0]]) + relation([0, 1], [[1, 3], [2, 3], [2, 4]]) + end(),
        types(2, 0, 3) + roots(1, 1, 2, 2, 4) + relation([], [[]]) + relation([2, 0, 2], [[2, 0, 2], [2, 0, 4], [3, 1, 2], [4, 1, 4]]) + end(),
    ]


def changed_files():
    """Two good files of 20 to 30 bytes."""
    return [
        types(2) + roots(0, 1) + relation([0, 0], [[0, 1]]) + end(),
        types(2, 1) + roots(1, 1, 2) + relation([0, 1], [[0, 2], [1, 2]]) + end(),
    ]


def letter(said):
    return "m" if said == MODEL else str(said)


def cuts(data):
    """The answers of each cut, in a line."""
    return " ".join(letter(answer(data[:length])) for length in range(len(data)))


def changes(data):
    """A line for each byte: the answers with each other value in its place, equal ones in a row as one with their number."""
    lines = []
    for i, old in enumerate(data):
        runs = []
        for value in range(256):
            if value == old:
                continue
            said = letter(answer(data[:i] + bytes([value]) + data[i + 1:]))
            if runs and runs[-1][0] == said:
                runs[-1][1] += 1
            else:
                runs.append([said, 1])
        lines.append(" ".join(f"{said}x{count}" for said, count in runs))
    return lines


# ---- both files

def main():
    for made in (few_bytes_cases, length_cases, order_cases, end_cases, types_cases, roots_cases, arity_cases, column_cases, row_order_cases, limit_cases, first_fault_cases):
        made()
    lines = [(line, [str(answer(bytes.fromhex(line[1:])))]) for line in dict.fromkeys(CASES)]
    for data in cut_files():
        assert answer(data) == MODEL and 40 <= len(data) <= 60
        lines.append(("<" + data.hex(), [cuts(data)]))
    for data in changed_files():
        assert answer(data) == MODEL and 20 <= len(data) <= 30
        lines.append(("~" + data.hex(), changes(data)))
    # lines that are no case: no kind, another kind, an odd number of digits, a digit that is none
    for line in ("", "=0", "=01000", "=0g", "=0 ", "01", "?01", "<0", "~0", "=" + "00" * 4097):
        lines.append((line, ["?"]))
    folder = os.path.join("crates", "reading_cases")
    with open(os.path.join(folder, "stdin"), "w", newline="\n") as out:
        out.writelines(line + "\n" for line, _ in lines)
    with open(os.path.join(folder, "stdout"), "w", newline="\n") as out:
        out.writelines(line + "\n" for _, told in lines for line in told)
    print(f"{len(lines)} cases")


if __name__ == "__main__":
    main()
