"""Answer lines in words."""
import os
import unittest

from job_text import Job, Side, read_job
from make import PRESCRIPTION
from model_text import read_text
from words import NotAnAnswer, explain


def side(name, text):
    return Side(name, *read_text(text, name))


EAR = "type ear: left right\ntype program: quiet phone\nsame: quiet = phone\nrelation of: ear program\n"
JOB = Job(side("save", EAR + "left quiet"), side("report", EAR + "left phone"), [(0, 1), (1, 2)], 9)


class Words(unittest.TestCase):
    def test_found(self):
        self.assertEqual(explain("0 36 1 0 2 -", JOB),
                         "found, 36 units; ear: left -> right, right -> left; program: quiet -> quiet, phone merged into quiet")
        self.assertEqual(explain("0 1 1 0 -"), "found, 1 unit; 0 -> 1, 1 -> 0, 2 merged")
        self.assertEqual(explain("0 2"), "found, 2 units")

    def test_not_found(self):
        self.assertEqual(explain("1 0", JOB), "no match, 0 units")
        self.assertEqual(explain("2 18"), "out of budget after 18 units: not an answer about the models")

    def test_models(self):
        self.assertEqual(explain("10 2 6", JOB), "the right model (report) is malformed: the field at offset 6")
        self.assertEqual(explain("10 1 0"), "the left model is malformed: the field at offset 0")
        self.assertEqual(explain("12 1"), "the left model is not canonical: a row holds a merged element")
        self.assertEqual(explain("12 2", JOB), "the right model (report) is not canonical: a row holds a merged element, 'left phone' of of")

    def test_signatures(self):
        self.assertEqual(explain("13"), "the signatures differ")
        for text, words in (("type t:", "2 types on the left, 1 on the right"), ("type t:\ntype u:", "1 relation on the left, 0 on the right"),
                            ("type t:\ntype u:\nrelation r: u t", "relation of has other columns on the right")):
            self.assertEqual(explain("13", JOB._replace(right=side("report", text))), f"the signatures differ: {words}")

    def test_pairs(self):
        self.assertEqual(explain("14 0 1"), "pair 0 (the first is 0) names no element on the left")
        self.assertEqual(explain("14 1 2", JOB), "pair 1 (right = quiet) names no element on the right")
        self.assertEqual(explain("15 1", JOB), "pair 1 (right = quiet) is of two types")
        self.assertEqual(explain("20"), "the pair list has an odd length")

    def test_of_the_library(self):
        self.assertEqual(explain("11"), "no room: the output map or the work is too short")
        self.assertEqual(explain("16 1", JOB), "right has no image")
        self.assertEqual(explain("17 3"), "element 3 has two images")
        self.assertEqual(explain("18 0", JOB), "relation of is not kept")
        self.assertEqual(explain("19 2"), "map 2 is not a map")
        self.assertEqual(explain("21"), "the job file is broken")

    def test_no_answers(self):
        for line in ("", "0", "0 -", "1", "1 2 3", "3", "10 1", "10 3 0", "13 1", "2 -", "2 x", "2 -1", "22", "²"):
            with self.assertRaises(NotAnAnswer, msg=line):
                explain(line)
        for line in ("0 3 1 0 2", "0 3 1 0 2 - -", "0 3 1 0 9 -", "0 3 1 0 2 3", "0 3 1 - 2 -", "15 2", "12 1", "13"):
            with self.assertRaises(NotAnAnswer, msg=line):
                explain(line, JOB)

    def test_prescription(self):
        job = read_job(os.path.join(PRESCRIPTION, "first-save.job.txt"))
        self.assertIn("ear: left -> unit-2, right -> unit-1;", explain("0 7 1 0 5 3 7 - 6 2 4 8 11 9 10", job))


if __name__ == "__main__":
    unittest.main()
