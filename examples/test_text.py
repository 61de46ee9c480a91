"""The text of a model: what is wrong is told with its line, and text and bytes go round."""
import unittest

from job_pieces import JOBS
from model_text import TextError, made_names, read_text, write_text
from second_reading import fields_of
from stored import Broken, Fault, from_bytes, to_bytes

HEAD = "type ear: left right\ntype program: quiet street phone\nrelation program_of: ear program\n"


class Wrong(unittest.TestCase):
    """Each text and the message it gets; the file is called f."""

    def wrong(self, text, message):
        with self.assertRaises(TextError) as caught:
            read_text(text, "f")
        self.assertEqual(str(caught.exception), message)

    def test_names(self):
        self.wrong(HEAD + "left loud", "f:4: element 'loud' is unknown")
        self.wrong("type a: x y\n\n# z\ntype b: z x", "f:4: element 'x' twice")
        self.wrong("type a: x x", "f:1: element 'x' twice")
        self.wrong("type a:\ntype a:", "f:2: type 'a' twice")
        self.wrong("relation r:\nrelation r:", "f:2: relation 'r' twice")
        self.wrong("relation r: a", "f:1: type 'a' is unknown")
        self.wrong("type a: x=y", "f:1: = in the name 'x=y'")

    def test_rows(self):
        self.wrong(HEAD + "left", "f:4: the row has 1 name, the relation 2 columns")
        self.wrong(HEAD + "left quiet street", "f:4: the row has 3 names, the relation 2 columns")
        self.wrong(HEAD + "quiet left", "f:4: 'quiet' is of type 'program', its column 'ear'")
        self.wrong(HEAD + "left quiet\nleft street\nleft quiet", "f:6: the row twice")
        self.wrong("type ear: left\nleft", "f:2: a row above the first relation")
        self.wrong("relation r:\nyes", "f:2: a relation of no columns has the one row 'holds'")
        self.wrong("relation r:\nholds\nholds", "f:3: the row twice")

    def test_same(self):
        form = "write 'same: NAME = NAME ..', the representative first"
        for line in ("same:", "same: quiet", "same: quiet =", "same: = quiet", "same: left right = quiet", "same: quiet = street = phone"):
            self.wrong(HEAD + line, f"f:4: {form}")
        self.wrong(HEAD + "same: quiet = loud", "f:4: element 'loud' is unknown")
        self.wrong(HEAD + "same: quiet = left", "f:4: 'left' is of type 'ear', not of type 'program'")
        self.wrong(HEAD + "same: quiet = quiet", "f:4: 'quiet' is a representative and can't be merged itself")
        self.wrong(HEAD + "same: quiet = street\nsame: phone = quiet", "f:5: 'quiet' is a representative and can't be merged itself")
        self.wrong(HEAD + "same: quiet = street\nsame: phone = street", "f:5: 'street' is merged already")
        self.wrong(HEAD + "same: quiet = street\nsame: street = phone", "f:5: 'street' is merged already")

    def test_lines(self):
        self.wrong("kind a: x", "f:1: 'kind a:' starts nothing: 'type NAME:', 'same:' or 'relation NAME:' does")
        self.wrong("type : x", "f:1: 'type:' starts nothing: 'type NAME:', 'same:' or 'relation NAME:' does")
        self.wrong(": x", "f:1: ':' starts nothing: 'type NAME:', 'same:' or 'relation NAME:' does")
        self.wrong("type a: b: c", "f:1: a second colon")

    def test_limits(self):
        types = "".join(f"type t{number}:\n" for number in range(16))
        elements = "type a: " + " ".join(f"e{number}" for number in range(64))
        relations = "".join(f"relation r{number}:\n" for number in range(16))
        cells = elements + "\nrelation r: a a\n" + "".join(f"e{x} e{y}\n" for x in range(64) for y in range(16))
        for text in (types, elements, relations, cells, "type a:\nrelation r:" + " a" * 8):
            read_text(text, "f")
        self.wrong(types + "type t16:", "f:17: type 't16' is one too many: at most 16 types")
        self.wrong(elements + " e64", "f:1: element 'e64' is one too many: at most 64 elements")
        self.wrong(relations + "relation r16:", "f:17: relation 'r16' is one too many: at most 16 relations")
        self.wrong("type a:\nrelation r:" + " a" * 9, "f:2: 9 columns: at most 8")
        self.wrong(cells + "e0 e16", "f:1027: the row is one too many: at most 2048 cells (rows times columns, summed)")


class Round(unittest.TestCase):
    def test_normal_text(self):
        text = "type b: x\ntype a: y z # comment\nrelation r: a b\n z x\n\ny x\nrelation s:\nholds\nrelation t:\nsame: z = y"
        model, names = read_text(text, "f")
        normal = "type b: x\ntype a: y z\n\nsame: z = y\n\nrelation r: a b\n    y x\n    z x\n\nrelation s:\n    holds\n\nrelation t:\n"
        self.assertEqual(write_text(model, names), normal)
        self.assertEqual(read_text(normal, "f"), (model, names))

    def test_empty(self):
        model, names = read_text("# nothing\n", "f")
        self.assertEqual(to_bytes(model).hex(), "010000020000000000")
        self.assertEqual(write_text(model, names), "")

    def test_made_names(self):
        """Bytes to text with made names and back, on every well-formed model in jobs/."""
        count = 0
        for job in JOBS.values():
            for data in models_in(job):
                text = write_text(from_bytes(data), made_names(from_bytes(data)))
                model, names = read_text(text, "f")
                self.assertEqual(to_bytes(model), data)
                self.assertEqual(names, made_names(model))
                self.assertEqual(write_text(model, names), text)
                count += 1
        self.assertGreater(count, 50)


def models_in(job):
    """The well-formed models of a job that is not broken."""
    try:
        files = fields_of(job)[:2]
    except Broken:
        return
    for data in files:
        try:
            from_bytes(data)
        except Fault:
            continue
        yield data


if __name__ == "__main__":
    unittest.main()
