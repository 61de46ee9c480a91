"""A model in a readable text, and back.

    type ear: left right                 a type and its elements, by name
    same: street = phone car             phone and car are merged into street, their representative
    relation program_of: ear program     a relation and the types of its columns
        left street                      a row
    relation locked:                     a relation of no columns
        holds                            its one row

A line with a colon starts something; a line without one is a row of the relation above it. What stands after # is a comment. Names are words with no
blank, colon, = or #; a name is made known by its line before it is used. Elements are numbered type by type, in the order of the text. Rows may
stand in any order.
"""
from typing import NamedTuple

from stored import MOST_CELLS, MOST_COLUMNS, MOST_ELEMENTS, MOST_RELATIONS, MOST_TYPES, Model, Relation

HOLDS = "holds"


class Wrong(Exception):
    """What is wrong in the line that is being read."""


class TextError(Exception):
    """What is wrong in a text, with its line (from 1), or with no line if it is wrong as a whole."""

    def __init__(self, source, line, what):
        super().__init__(f"{source}:{line}: {what}" if line else f"{source}: {what}")


class Names(NamedTuple):
    """The names in a model's text, each list in the order of the numbers."""
    types: list
    elements: list
    relations: list


def made_names(model):
    """Names for a model that has none: t0, t1, .., e0, e1, .., r0, r1, .."""
    return Names(*([f"{letter}{number}" for number in range(count)] for letter, count in
                   (("t", len(model.sizes)), ("e", len(model.roots)), ("r", len(model.relations)))))


def lines_of(text):
    """Line number and words of each line that holds more than a comment."""
    for number, line in enumerate(text.split("\n"), 1):
        words = line.split("#")[0].strip()
        if words:
            yield number, words


def times(count, thing):
    return f"{count} {thing}" if count == 1 else f"{count} {thing}s"


# ---- text to model

class Builder:
    """What the lines so far have made known. Every method raises Wrong."""

    def __init__(self):
        self.types, self.elements, self.relations = {}, {}, {}  # name to number
        self.type_of, self.root = [], []  # of each element
        self.merged_into = set()
        self.columns, self.rows = [], []  # of each relation
        self.cells = 0

    def line(self, words):
        head, colon, rest = words.partition(":")
        if not colon:
            return self.row(words.split())
        if ":" in rest:
            raise Wrong("a second colon")
        start = head.split()
        if start == ["same"]:
            return self.same(rest)
        if len(start) != 2 or start[0] not in ("type", "relation"):
            raise Wrong(f"'{head.strip()}:' starts nothing: 'type NAME:', 'same:' or 'relation NAME:' does")
        return self.type(start[1], rest.split()) if start[0] == "type" else self.relation(start[1], rest.split())

    def new(self, kind, known, name, most):
        if "=" in name:
            raise Wrong(f"= in the name '{name}'")
        if name in known:
            raise Wrong(f"{kind} '{name}' twice")
        if len(known) == most:
            raise Wrong(f"{kind} '{name}' is one too many: at most {most} {kind}s")
        known[name] = len(known)

    def known(self, kind, known, name):
        if name not in known:
            raise Wrong(f"{kind} '{name}' is unknown")
        return known[name]

    def type(self, name, elements):
        self.new("type", self.types, name, MOST_TYPES)
        for element in elements:
            self.new("element", self.elements, element, MOST_ELEMENTS)
            self.type_of.append(self.types[name])
            self.root.append(self.elements[element])

    def same(self, rest):
        root, equals, aliases = rest.partition("=")
        if not equals or len(root.split()) != 1 or not aliases.split() or "=" in aliases:
            raise Wrong("write 'same: NAME = NAME ..', the representative first")
        root = self.unmerged(root.strip())
        for name in aliases.split():
            alias = self.unmerged(name)
            if alias == root or alias in self.merged_into:
                raise Wrong(f"'{name}' is a representative and can't be merged itself")
            if self.type_of[alias] != self.type_of[root]:
                raise Wrong(f"'{name}' is {self.kind(alias)}, not {self.kind(root)}")
            self.root[alias] = root
            self.merged_into.add(root)

    def unmerged(self, name):
        element = self.known("element", self.elements, name)
        if self.root[element] != element:
            raise Wrong(f"'{name}' is merged already")
        return element

    def kind(self, element):
        return f"of type '{list(self.types)[self.type_of[element]]}'"

    def relation(self, name, columns):
        self.new("relation", self.relations, name, MOST_RELATIONS)
        if len(columns) > MOST_COLUMNS:
            raise Wrong(f"{len(columns)} columns: at most {MOST_COLUMNS}")
        self.columns.append(tuple(self.known("type", self.types, column) for column in columns))
        self.rows.append(set())

    def row(self, names):
        if not self.rows:
            raise Wrong("a row above the first relation")
        columns, rows = self.columns[-1], self.rows[-1]
        if not columns and names == [HOLDS]:
            names = []
        elif not columns:
            raise Wrong(f"a relation of no columns has the one row '{HOLDS}'")
        if len(names) != len(columns):
            raise Wrong(f"the row has {times(len(names), 'name')}, the relation {times(len(columns), 'column')}")
        row = tuple(self.known("element", self.elements, name) for name in names)
        for name, entry, column in zip(names, row, columns):
            if self.type_of[entry] != column:
                raise Wrong(f"'{name}' is {self.kind(entry)}, its column '{list(self.types)[column]}'")
        if row in rows:
            raise Wrong("the row twice")
        self.cells += len(row)
        if self.cells > MOST_CELLS:
            raise Wrong(f"the row is one too many: at most {MOST_CELLS} cells (rows times columns, summed)")
        rows.add(row)

    def model(self):
        sizes = tuple(self.type_of.count(number) for number in range(len(self.types)))
        relations = tuple(Relation(columns, tuple(sorted(rows))) for columns, rows in zip(self.columns, self.rows))
        return Model(sizes, tuple(self.root), relations)

    def names(self):
        return Names(list(self.types), list(self.elements), list(self.relations))


def read_text(text, source):
    """The model that a text holds and its names, or TextError."""
    builder = Builder()
    for number, words in lines_of(text):
        try:
            builder.line(words)
        except Wrong as wrong:
            raise TextError(source, number, str(wrong)) from None
    return builder.model(), builder.names()


# ---- model to text

def type_lines(model, names):
    for number, name in enumerate(names.types):
        elements = [names.elements[element] for element, kind in enumerate(model.types()) if kind == number]
        yield " ".join([f"type {name}:", *elements])


def same_lines(model, names):
    for root in model.representatives():
        aliases = [names.elements[element] for element in range(len(model.roots)) if model.roots[element] == root != element]
        if aliases:
            yield " ".join([f"same: {names.elements[root]} =", *aliases])


def relation_lines(relation, name, names):
    yield " ".join([f"relation {name}:", *(names.types[column] for column in relation.columns)])
    for row in relation.rows:
        yield "    " + (" ".join(names.elements[entry] for entry in row) or HOLDS)


def write_text(model, names):
    """The normal text of a model: types, merged elements, relations with ascending rows, a blank line between."""
    blocks = [list(type_lines(model, names)), list(same_lines(model, names))]
    blocks += [list(relation_lines(relation, name, names)) for relation, name in zip(model.relations, names.relations)]
    return "\n".join("".join(line + "\n" for line in block) for block in blocks if block)
