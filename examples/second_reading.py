"""What document 01 says that the program prints on a job, read a second time.

For the tests alone: it takes over nothing of the crates' code or definitions, so that the lines in expected.txt can be held against the document
with no toolchain at hand. It is written for reading beside the document's search rules, not for speed.
"""
from collections import Counter

from job_text import LONGEST_JOB
from stored import Broken, Fault, demand, field_at, from_bytes


class Exhausted(Exception):
    """A unit is needed and all are used."""


class Units:
    def __init__(self, budget):
        self.budget, self.used = budget, 0

    def spend(self):
        if self.used == self.budget:
            raise Exhausted
        self.used += 1


# ---- "Search rules"

def one_round(models, colours):
    """Rule 2: the new colours of both sides."""
    palette, after = {}, []
    for model, colour in zip(models, colours):
        places = {element: Counter() for element in colour}
        for number, relation in enumerate(model.relations):
            for row in relation.rows:
                along = tuple(colour[entry] for entry in row)
                for column, entry in enumerate(row):
                    places[entry][number, column, along] += 1
        keys = {element: (colour[element], frozenset(places[element].items())) for element in sorted(colour)}
        after.append({element: palette.setdefault(key, len(palette)) for element, key in keys.items()})
    return after


def stable_colours(models, colours, units):
    """Rule 3: rounds until the colours are stable, or None at a dead end."""
    while True:
        units.spend()
        after = one_round(models, colours)
        if Counter(after[0].values()) != Counter(after[1].values()):
            return None
        if len(set(after[0].values())) == len(set(colours[0].values())):
            return after
        colours = after


def closes(models, image):
    left, right = ([set(relation.rows) for relation in model.relations] for model in models)
    return [{tuple(image[entry] for entry in row) for row in rows} for rows in left] == right


def search(models, colours, units):
    """Rules 2 to 5 from these colours: the image of each left representative, or None."""
    colours = stable_colours(models, colours, units)
    if colours is None:
        return None
    left, right = colours
    members = Counter(left.values())
    if all(count == 1 for count in members.values()):
        units.spend()
        of_colour = {colour: element for element, colour in right.items()}
        image = {element: of_colour[colour] for element, colour in left.items()}
        return image if closes(models, image) else None
    _, smallest = min((count, colour) for colour, count in members.items() if count > 1)
    chosen = min(element for element in left if left[element] == smallest)
    for candidate in sorted(right):
        units.spend()
        if right[candidate] == smallest:
            image = search(models, [{**left, chosen: len(members)}, {**right, candidate: len(members)}], units)
            if image is not None:
                return image
    return None


def find(models, pairs, units):
    left, right = models
    fixed = sorted({(left.roots[element], right.roots[image]) for element, image in pairs})
    row_counts = [[len(relation.rows) for relation in model.relations] for model in models]
    if len(left.representatives()) != len(right.representatives()) or row_counts[0] != row_counts[1]:
        return None
    if any(len({pair[side] for pair in fixed}) < len(fixed) for side in (0, 1)):
        return None
    colours = [{element: model.types()[element] for element in model.representatives()} for model in models]
    for place, pair in enumerate(fixed):
        for side in (0, 1):
            colours[side][pair[side]] = len(left.sizes) + place
    return search(models, colours, units)


def find_line(models, pairs, budget):
    units = Units(budget)
    try:
        image = find(models, pairs, units)
    except Exhausted:
        return f"2 {units.used}"
    if image is None:
        return f"1 {units.used}"
    return " ".join(["0", str(units.used)] + [str(image.get(element, "-")) for element in range(len(models[0].roots))])


# ---- "Numbers answered" and example 14

def fields_of(job):
    """The four values of a job."""
    demand(len(job) <= LONGEST_JOB, "too long")
    values, start = [], 0
    for due in (0x10, 0x11, 0x12, 0x13, 0x00):
        tag, value, start = field_at(job, start)
        demand(tag == due, "another tag is due")
        values.append(value)
    demand(start == len(job) and not values[4] and len(values[3]) == 8, "End or budget")
    return values[:4]


def pair_refusal(models, pairs):
    types = [model.types() for model in models]
    for place, pair in enumerate(pairs):
        for side in (0, 1):
            if pair[side] >= len(types[side]):
                return f"14 {place} {side + 1}"
        if types[0][pair[0]] != types[1][pair[1]]:
            return f"15 {place}"
    return None


def answer_line(job):
    try:
        left, right, pairs, budget = fields_of(job)
    except Broken:
        return "21"
    models = []
    for number, data in ((1, left), (2, right)):
        try:
            models.append(from_bytes(data))
        except Fault as fault:
            return f"10 {number} {fault.offset}"
    for number, model in enumerate(models, 1):
        if model.rows_with_alias():
            return f"12 {number}"
    if models[0].signature() != models[1].signature():
        return "13"
    if len(pairs) % 2:
        return "20"
    pairs = list(zip(pairs[::2], pairs[1::2]))
    return pair_refusal(models, pairs) or find_line(models, pairs, int.from_bytes(budget, "big"))
