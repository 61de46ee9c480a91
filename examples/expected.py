"""expected.txt as a list: of each job, its file in this folder and the line that the program must print."""
import os

from program import HERE


def expected():
    with open(os.path.join(HERE, "expected.txt"), encoding="utf-8") as file:
        rows = [line.split("|") for line in file if line.strip() and not line.startswith("#")]
    return [(name.strip(), answer.strip()) for name, answer, _ in rows]


def job_in(name):
    with open(os.path.join(HERE, name), "rb") as file:
        return file.read()
