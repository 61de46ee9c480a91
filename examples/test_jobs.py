"""The text of a job: its bytes, and what is wrong with its line."""
import os
import tempfile
import unittest

from job_pieces import E01, E10
from job_text import job_bytes, read_job, to_job_bytes
from model_text import TextError

HEAD = "left: l\nright: r\n"


class JobText(unittest.TestCase):
    def setUp(self):
        folder = tempfile.TemporaryDirectory()
        self.addCleanup(folder.cleanup)
        self.folder = folder.name
        self.file("l", "type t: x y\nrelation e: t t\n  x y")
        self.file("r", "type t: u v\nrelation e: t t\n  v u")
        self.file("other", "type s: w\ntype t: u v")
        self.file("bad", "type t: x x")

    def file(self, name, text):
        path = os.path.join(self.folder, name)
        with open(path, "w", encoding="utf-8") as file:
            file.write(text)
        return path

    def job(self, text):
        path = self.file("j", text)
        return to_job_bytes(read_job(path), path)

    def wrong(self, text, message):
        with self.assertRaises(TextError) as caught:
            self.job(text)
        self.assertEqual(str(caught.exception), os.path.join(self.folder, message))

    def test_bytes(self):
        self.assertEqual(self.job(HEAD + "budget: 3"), job_bytes(E01, E10, b"", 3))
        self.assertEqual(self.job(HEAD + "pair: x = v\npair: y=u # twice\npair: y = u\nbudget: 3"), job_bytes(E01, E10, bytes([0, 1, 1, 0, 1, 0]), 3))

    def test_example_14(self):
        stated = "10 0016 01 0001 02 02 0002 00 01 03 0007 02 00 00 0001 00 01 00 0000" \
                 "11 0016 01 0001 02 02 0002 00 01 03 0007 02 00 00 0001 01 00 00 0000 12 0000 13 0008 0000000000000003 00 0000"
        self.assertEqual(self.job(HEAD + "budget: 3"), bytes.fromhex(stated))

    def test_pairs(self):
        self.wrong(HEAD + "pair: x u", "j:3: write 'pair: LEFT = RIGHT'")
        self.wrong(HEAD + "pair: x = u = v", "j:3: write 'pair: LEFT = RIGHT'")
        self.wrong(HEAD + "pair: u = u", "j:3: element 'u' is unknown in l")
        self.wrong(HEAD + "pair: x = x", "j:3: element 'x' is unknown in r")
        self.wrong("left: l\nright: other\npair: y = u", "j:3: types differ: 'y' is of type 0, 't'; 'u' is of type 1, 't'")
        self.wrong("left: l\npair: x = u\nright: r", "j:2: a pair above 'left:' and 'right:'")

    def test_lines(self):
        self.wrong(HEAD, "j: no line 'budget:'")
        self.wrong("left: l\nbudget: 1", "j: no line 'right:'")
        self.wrong(HEAD + "left: l", "j:3: 'left:' twice")
        self.wrong(HEAD + "pairs: x = u", "j:3: a line starts with 'left:', 'right:', 'pair:' or 'budget:'")
        self.wrong("left: nowhere", "j:1: no file 'nowhere' beside the job's text")
        self.wrong("left: bad", "bad:1: element 'x' twice")

    def test_budget(self):
        self.job(HEAD + "budget: 18446744073709551615")
        for words in ("18446744073709551616", "-1", "many", ""):
            self.wrong(HEAD + "budget: " + words, "j:3: the budget is a whole number from 0 to 18446744073709551615")

    def test_too_long(self):
        self.wrong(HEAD + "budget: 3\n" + "pair: x = v\n" * 4063, "j: the job has 8193 bytes: at most 8192")


if __name__ == "__main__":
    unittest.main()
