"""A find job in a readable text, and its bytes.

    left: save.txt               the left model's text, beside this file
    right: report.txt            the right model's text
    pair: left-ear = unit-1      a left element and its image; as many such lines as wanted
    budget: 1000                 units

left and right stand above the pairs. What stands after # is a comment.
"""
import os
from typing import NamedTuple

from model_text import Names, TextError, Wrong, lines_of, read_text
from stored import Model, field, to_bytes

LONGEST_JOB = 8192


class Side(NamedTuple):
    source: str  # the text's file, as the job names it
    model: Model
    names: Names

    def kind(self, element):
        number = self.model.types()[element]
        return f"'{self.names.elements[element]}' is of type {number}, '{self.names.types[number]}'"


class Job(NamedTuple):
    left: Side
    right: Side
    pairs: list  # of element numbers
    budget: int


def text_in(path):
    """What a text file holds, or TextError."""
    try:
        with open(path, encoding="utf-8-sig") as file:
            return file.read()
    except OSError as wrong:
        raise TextError(path, None, f"can't be read: {wrong.strerror}") from None
    except UnicodeDecodeError:
        raise TextError(path, None, "is not text in UTF-8") from None


def read_side(folder, name):
    path = os.path.join(folder, name)
    if not os.path.isfile(path):
        raise Wrong(f"no file '{name}' beside the job's text")
    return Side(name, *read_text(text_in(path), path))


def read_pair(sides, words):
    names = words.split("=")
    if len(names) != 2:
        raise Wrong("write 'pair: LEFT = RIGHT'")
    pair = []
    for name, side in zip(names, sides):
        if name.strip() not in side.names.elements:
            raise Wrong(f"element '{name.strip()}' is unknown in {side.source}")
        pair.append(side.names.elements.index(name.strip()))
    types = [side.model.types()[element] for element, side in zip(pair, sides)]
    if types[0] != types[1]:
        raise Wrong("types differ: " + "; ".join(side.kind(element) for element, side in zip(pair, sides)))
    return tuple(pair)


def read_budget(words):
    if not (words.isascii() and words.isdigit() and int(words) < 2 ** 64):
        raise Wrong("the budget is a whole number from 0 to 18446744073709551615")
    return int(words)


def read_line(parts, folder, words):
    """Adds what one line says to the parts of a job."""
    key, _, rest = (word.strip() for word in words.partition(":"))
    if key not in ("left", "right", "pair", "budget"):
        raise Wrong("a line starts with 'left:', 'right:', 'pair:' or 'budget:'")
    if key in parts:
        raise Wrong(f"'{key}:' twice")
    if key == "pair":
        if "left" not in parts or "right" not in parts:
            raise Wrong("a pair above 'left:' and 'right:'")
        parts["pairs"].append(read_pair((parts["left"], parts["right"]), rest))
    else:
        parts[key] = read_budget(rest) if key == "budget" else read_side(folder, rest)


def read_job(path):
    """The job that a text file holds, or TextError with its line."""
    parts = {"pairs": []}
    for number, words in lines_of(text_in(path)):
        try:
            read_line(parts, os.path.dirname(path), words)
        except Wrong as wrong:
            raise TextError(path, number, str(wrong)) from None
    for key in ("left", "right", "budget"):
        if key not in parts:
            raise TextError(path, None, f"no line '{key}:'")
    return Job(**parts)


def job_bytes(left, right, pairs, budget):
    """A job of these bytes and this number."""
    fields = (0x10, left), (0x11, right), (0x12, pairs), (0x13, budget.to_bytes(8, "big")), (0x00, b"")
    return b"".join(field(tag, value) for tag, value in fields)


def to_job_bytes(job, path):
    pairs = bytes(element for pair in job.pairs for element in pair)
    data = job_bytes(to_bytes(job.left.model), to_bytes(job.right.model), pairs, job.budget)
    if len(data) > LONGEST_JOB:
        raise TextError(path, None, f"the job has {len(data)} bytes: at most {LONGEST_JOB}")
    return data
