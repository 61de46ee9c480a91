"""The stored model of document 01: a model as lists, its bytes, and back."""
from typing import NamedTuple

TYPES, ROOTS, RELATION, END = 0x01, 0x02, 0x03, 0x00
MOST_TYPES, MOST_ELEMENTS, MOST_RELATIONS, MOST_COLUMNS, MOST_CELLS = 16, 64, 16, 8, 2048


class Relation(NamedTuple):
    columns: tuple  # type numbers
    rows: tuple  # tuples of element numbers, ascending


class Model(NamedTuple):
    sizes: tuple  # of each type, its number of elements
    roots: tuple  # of each element, its representative
    relations: tuple

    def types(self):
        """The type of each element."""
        return [number for number, size in enumerate(self.sizes) for _ in range(size)]

    def representatives(self):
        return [element for element, root in enumerate(self.roots) if element == root]

    def signature(self):
        return len(self.sizes), [relation.columns for relation in self.relations]

    def rows_with_alias(self):
        """Each row that holds an alias, with its relation's number. A canonical model has none."""
        return [(number, row) for number, relation in enumerate(self.relations) for row in relation.rows
                if any(self.roots[entry] != entry for entry in row)]


class Fault(Exception):
    """A field is at fault: where it starts, and what is wrong with it."""

    def __init__(self, offset, what):
        super().__init__(f"field at offset {offset}: {what}")
        self.offset = offset


# ---- a model's bytes

def field(tag, value):
    return bytes([tag]) + len(value).to_bytes(2, "big") + value


def relation_value(relation):
    head = bytes([len(relation.columns), *relation.columns]) + len(relation.rows).to_bytes(2, "big")
    return head + b"".join(map(bytes, relation.rows))


def to_bytes(model):
    relations = b"".join(field(RELATION, relation_value(relation)) for relation in model.relations)
    return field(TYPES, bytes(model.sizes)) + field(ROOTS, bytes(model.roots)) + relations + field(END, b"")


# ---- and back

class Broken(Exception):
    """A rule that the field being read breaks."""


def demand(holds, rule):
    if not holds:
        raise Broken(rule)


def field_at(data, start):
    """Tag and value of the field at start, and where it ends."""
    demand(len(data) - start >= 3, "fewer than three bytes remain")
    end = start + 3 + int.from_bytes(data[start + 1:start + 3], "big")
    demand(end <= len(data), "its length passes the end")
    return data[start], data[start + 3:end], end


def sizes_of(tag, value):
    demand(tag == TYPES, "Types is due")
    demand(len(value) <= MOST_TYPES, f"more than {MOST_TYPES} types")
    demand(sum(value) <= MOST_ELEMENTS, f"more than {MOST_ELEMENTS} elements")
    return tuple(value)


def roots_of(tag, value, types):
    demand(tag == ROOTS, "Roots is due")
    demand(len(value) == len(types), "not one representative for each element")
    for element, root in enumerate(value):
        demand(root < len(types), f"the representative of {element} is no element")
        demand(types[root] == types[element], f"the representative of {element} has another type")
        demand(value[root] == root, f"the representative of {element} is an alias")
    return tuple(value)


def relation_of(value, type_count, types):
    arity = value[0] if value else 0
    count = int.from_bytes(value[1 + arity:3 + arity], "big")
    demand(arity <= MOST_COLUMNS, f"more than {MOST_COLUMNS} columns")
    demand(len(value) == 3 + arity + count * arity, "its length is not 3 + a + c·a")
    demand(arity > 0 or count <= 1, "more than one row of no columns")
    columns, cells = tuple(value[1:1 + arity]), value[3 + arity:]
    demand(all(column < type_count for column in columns), "a column of no type")
    rows = tuple(tuple(cells[place * arity:(place + 1) * arity]) for place in range(count))
    for row in rows:
        demand(all(entry < len(types) and types[entry] == column for entry, column in zip(row, columns)),
               "an entry that is not of its column's type")
    demand(all(one < next_one for one, next_one in zip(rows, rows[1:])), "rows that do not ascend")
    return Relation(columns, rows)


def add_relation(relations, relation):
    demand(len(relations) < MOST_RELATIONS, f"more than {MOST_RELATIONS} relations")
    relations.append(relation)
    cells = sum(len(each.rows) * len(each.columns) for each in relations)
    demand(cells <= MOST_CELLS, f"more than {MOST_CELLS} cells")


def from_bytes(data):
    """The model that the bytes hold, or Fault with the field at fault."""
    sizes, roots, relations, start, ended = None, None, [], 0, False
    try:
        while not ended:
            tag, value, end = field_at(data, start)
            if sizes is None:
                sizes = sizes_of(tag, value)
                types = Model(sizes, (), ()).types()
            elif roots is None:
                roots = roots_of(tag, value, types)
            elif tag == RELATION:
                add_relation(relations, relation_of(value, len(sizes), types))
            else:
                demand(tag == END, "Relation or End is due")
                demand(not value, "End has a value")
                ended = True
            start = end
        demand(start == len(data), "bytes after End")
    except Broken as rule:
        raise Fault(start, str(rule)) from None
    return Model(sizes, roots, tuple(relations))
