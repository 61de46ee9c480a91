"""The line that the program prints, said in words, and in names where the job's text is at hand."""
from model_text import times

SIDES = {1: "left", 2: "right"}


class NotAnAnswer(ValueError):
    """The line is none that the program prints on the job."""


# ---- parts of a sentence

def counted(units):
    return times(units, "unit")


def model_words(number, job):
    side = SIDES[number]
    return f"the {side} model ({getattr(job, side).source})" if job else f"the {side} model"


def pair_words(place, job):
    if not job:
        return f"pair {place} (the first is 0)"
    element, image = job.pairs[place]
    return f"pair {place} ({job.left.names.elements[element]} = {job.right.names.elements[image]})"


def names_of(side, elements):
    return " ".join(side.names.elements[element] for element in elements)


# ---- the answers 0, 1 and 2

def image_words(element, image, job):
    if not job:
        return f"{element} merged" if image is None else f"{element} -> {image}"
    names, root = job.left.names.elements, job.left.model.roots[element]
    if (image is None) != (root != element):
        raise NotAnAnswer
    return f"{names[element]} merged into {names[root]}" if image is None else f"{names[element]} -> {job.right.names.elements[image]}"


def found(units, images, job):
    """Images type by type, or all in one list if no names are known."""
    words = [image_words(element, image, job) for element, image in enumerate(images)]
    if not job:
        return "; ".join([f"found, {counted(units)}", *filter(None, [", ".join(words)])])
    groups = [f"found, {counted(units)}"]
    for number, name in enumerate(job.left.names.types):
        members = [word for word, kind in zip(words, job.left.model.types()) if kind == number]
        groups += [f"{name}: " + ", ".join(members)] if members else []
    return "; ".join(groups)


def none(units, job):
    return f"no match, {counted(units)}"


def exhausted(units, job):
    return f"out of budget after {counted(units)}: not an answer about the models"


# ---- the refusals

def malformed(model, offset, job):
    return f"{model_words(model, job)} is malformed: the field at offset {offset}"


def not_canonical(model, job):
    words = f"{model_words(model, job)} is not canonical: a row holds a merged element"
    if job:
        side = getattr(job, SIDES[model])
        relation, row = side.model.rows_with_alias()[0]
        words += f", '{names_of(side, row)}' of {side.names.relations[relation]}"
    return words


def signatures_differ(job):
    words = "the signatures differ"
    if not job:
        return words
    (left_types, left), (right_types, right) = job.left.model.signature(), job.right.model.signature()
    if left_types != right_types:
        return f"{words}: {times(left_types, 'type')} on the left, {right_types} on the right"
    if len(left) != len(right):
        return f"{words}: {times(len(left), 'relation')} on the left, {len(right)} on the right"
    place = [one == other for one, other in zip(left, right)].index(False)
    return f"{words}: relation {job.left.names.relations[place]} has other columns on the right"


def unknown_element(place, side, job):
    return f"{pair_words(place, job)} names no element on the {SIDES[side]}"


def types_differ(place, job):
    return f"{pair_words(place, job)} is of two types"


def element_words(element, job):
    return job.left.names.elements[element] if job else f"element {element}"


def image_missing(element, job):
    return f"{element_words(element, job)} has no image"


def conflicting(element, job):
    return f"{element_words(element, job)} has two images"


def not_kept(relation, job):
    return f"relation {job.left.names.relations[relation] if job else relation} is not kept"


# Of each number but 0: how many values it carries, and its words. The program answers 0, 1, 2, 10, 12 to 15, 20 and 21, the library the others too.
ANSWERS = {
    1: (1, none),
    2: (1, exhausted),
    10: (2, malformed),
    11: (0, lambda job: "no room: the output map or the work is too short"),
    12: (1, not_canonical),
    13: (0, signatures_differ),
    14: (2, unknown_element),
    15: (1, types_differ),
    16: (1, image_missing),
    17: (1, conflicting),
    18: (1, not_kept),
    19: (1, lambda number, job: f"map {number} is not a map"),
    20: (0, lambda job: "the pair list has an odd length"),
    21: (0, lambda job: "the job file is broken"),
}


def numbers_in(words):
    """The words' numbers, None for -."""
    if not all(word == "-" or (word.isascii() and word.isdigit()) for word in words):
        raise NotAnAnswer
    return [None if word == "-" else int(word) for word in words]


def explain_numbers(number, carried, job):
    if number == 0 and carried and carried[0] is not None and (not job or len(carried) == 1 + len(job.left.model.roots)):
        return found(carried[0], carried[1:], job)
    count, words = ANSWERS.get(number, (None, None))
    if count != len(carried) or None in carried:
        raise NotAnAnswer
    return words(*carried, job)


def explain(line, job=None):
    """The answer line in words; NotAnAnswer if it is no answer, or none to this job."""
    try:
        number, *carried = numbers_in(line.split())
        return explain_numbers(number, carried, job)
    except (ValueError, LookupError):
        raise NotAnAnswer(f"no answer line{' to this job' if job else ''}: '{line}'") from None
