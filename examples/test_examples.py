"""The files in this folder: made bytes, expected lines, texts that go round, and the tool from the command line."""
import os
import subprocess
import sys
import tempfile
import unittest

from answer import JOBS, answer_words
from expected import expected, job_in
from make import PRESCRIPTION, job_texts, made, model_texts
from model_text import made_names, read_text, write_text
from program import HERE, ROOT
from second_reading import answer_line
from stored import from_bytes

BYTES = ".model", ".job"


def text_of(name):
    with open(os.path.join(PRESCRIPTION, name), encoding="utf-8") as file:
        return file.read()


def without_comments(text):
    """The text without its comment lines and without the blank lines at its start."""
    return "".join(line for line in text.splitlines(True) if not line.startswith("#")).lstrip("\n")


class Files(unittest.TestCase):
    def test_bytes_are_made(self):
        files = made()
        for name, data in files.items():
            self.assertEqual(job_in(name), data, name)
        stored = {f"{folder}/{name}" for folder in ("jobs", "prescription")
                  for name in os.listdir(os.path.join(HERE, folder)) if name.endswith(BYTES)}
        self.assertEqual(stored, set(files))

    def test_expected_lines(self):
        """Each line of the table is what a second reading of document 01 gives."""
        for name, line in expected():
            self.assertEqual(answer_line(job_in(name)), line, name)

    def test_every_job_is_expected(self):
        names = [name for name, _ in expected()]
        self.assertEqual(sorted(names), sorted(name for name in made() if name.endswith(".job")))

    def test_every_number(self):
        answers = [line.split() for _, line in expected()]
        numbers = [int(answer[0]) for answer in answers]
        self.assertEqual(set(numbers), {0, 1, 2, 10, 12, 13, 14, 15, 20, 21})
        self.assertGreaterEqual(numbers.count(21), 8)
        self.assertEqual({answer[1] for answer in answers if answer[0] == "10"}, {"1", "2"})
        self.assertEqual({answer[1] for answer in answers if answer[0] == "12"}, {"1", "2"})
        self.assertEqual({answer[2] for answer in answers if answer[0] == "14"}, {"1", "2"})

    def test_answer_in_the_readme(self):
        lines = dict(expected())
        output = "".join(answer_words(name, lines[f"prescription/{name}.job"]) for name in JOBS)
        self.assertEqual(sorted(f"{name}.job.txt" for name in JOBS), job_texts())
        with open(os.path.join(ROOT, "README.md"), encoding="utf-8") as file:
            shown = "".join(f"    {line}" for line in output.splitlines(True)) in file.read()
        self.assertTrue(shown, f"README.md does not show this:\n{output}")


class RoundTrip(unittest.TestCase):
    def test_text_to_bytes_to_text(self):
        """With a text's own names its bytes give back the text, comments apart."""
        for name in model_texts():
            _, names = read_text(text_of(name), name)
            model = from_bytes(job_in(f"prescription/{name[:-4]}.model"))
            self.assertEqual(write_text(model, names), without_comments(text_of(name)))

    def test_bytes_to_text_to_bytes(self):
        """With made names the text gives back the bytes, and itself."""
        for name in model_texts():
            model = from_bytes(job_in(f"prescription/{name[:-4]}.model"))
            text = write_text(model, made_names(model))
            self.assertEqual(read_text(text, name), (model, made_names(model)))


class Tool(unittest.TestCase):
    """desk.py as a person runs it, in a folder of its own."""

    def run_tool(self, *arguments, given=b""):
        with tempfile.TemporaryDirectory() as folder:
            command = [sys.executable, os.path.join(HERE, "desk.py"), *arguments]
            return subprocess.run(command, cwd=folder, input=given, capture_output=True, check=False)

    def prints(self, output, *arguments, given=b""):
        run = self.run_tool(*arguments, given=given)
        self.assertEqual((run.stdout, run.stderr, run.returncode), (output, b"", 0))

    def fails(self, message, *arguments, given=b""):
        run = self.run_tool(*arguments, given=given)
        self.assertEqual((run.stdout, run.stderr.decode(), run.returncode), (b"", message + "\n", 1))

    def test_commands(self):
        save, data = os.path.join(PRESCRIPTION, "save-1.txt"), os.path.join(PRESCRIPTION, "save-1.model")
        job = os.path.join(PRESCRIPTION, "second-save.job.txt")
        self.prints(job_in("prescription/save-1.model"), "model", save)
        self.prints(without_comments(text_of("save-1.txt")).encode(), "text", data, "--names", save)
        model = from_bytes(job_in("prescription/save-1.model"))
        self.prints(write_text(model, made_names(model)).encode(), "text", data)
        self.prints(job_in("prescription/second-save.job"), "job", job)
        self.prints(b"no match, 1 unit\nthe job file is broken\n", "explain", job, given=b"1 1\n21\n")
        self.prints(b"found, 3 units; 0 -> 1, 1 -> 0\n", "explain", given=b"0 3 1 0\n")

    def test_errors(self):
        save, data = os.path.join(PRESCRIPTION, "save-1.txt"), os.path.join(PRESCRIPTION, "save-1.model")
        report, broken = os.path.join(PRESCRIPTION, "report.txt"), os.path.join(HERE, "jobs", "found.job")
        self.fails("nowhere: can't be read: No such file or directory", "model", "nowhere")
        self.fails("nowhere: can't be read: No such file or directory", "text", "nowhere")
        largest = os.path.join(HERE, "jobs", "found-largest-budget.job")
        self.fails(f"{largest}: is not text in UTF-8", "model", largest)
        self.fails(f"{broken}: field at offset 0: Types is due", "text", broken)
        self.fails(f"{report}: names another number of elements in a type, or other relations, than the bytes hold", "text", data, "--names", report)
        self.fails(f"{save}:3: a line starts with 'left:', 'right:', 'pair:' or 'budget:'", "job", save)
        self.fails("standard input:1: no answer line: 'hello'", "explain", given=b"hello\n")


if __name__ == "__main__":
    unittest.main()
