#!/usr/bin/env python3
"""Answers the prescription's question: did the wearer get the first save or the second?

    python3 examples/answer.py [PROGRAM]

For each job in prescription/ it prints the line of the program and what it says in words. Without PROGRAM it takes crates/job/out/job, and
builds it if it is not there.
"""
import os
import sys

from expected import job_in
from job_text import read_job
from program import HERE, built, printed
from words import NotAnAnswer, explain

JOBS = "first-save", "second-save", "small-budget", "no-pairs"


def answer_words(name, line):
    """A job of the prescription, its line, and the line in words, a type on each line."""
    words = explain(line, read_job(os.path.join(HERE, "prescription", f"{name}.job.txt")))
    return f"{name}: {line}\n" + "".join(f"    {part}\n" for part in words.split("; "))


def main():
    program = sys.argv[1] if len(sys.argv) > 1 else built()
    try:
        for name in JOBS:
            print(answer_words(name, printed(program, job_in(f"prescription/{name}.job")).rstrip("\n")), end="")
    except NotAnAnswer as wrong:
        sys.exit(f"{name}: {wrong}")


if __name__ == "__main__":
    main()
