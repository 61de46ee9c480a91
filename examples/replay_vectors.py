#!/usr/bin/env python3
"""Runs the program on the job lines of a file of vectors and compares the lines.

    python3 examples/replay_vectors.py VECTORS [PROGRAM]

A job line is `job INPUT => LINE`, the input in hex, `_` where it is empty; lines of other calls are passed over. Without PROGRAM it takes
crates/job/out/job, and builds it if it is not there. Exit status 0 if every line is as stated.
"""
import sys

from program import built, compare


def job_lines(path):
    with open(path, encoding="ascii") as file:
        for number, text in enumerate(file, 1):
            if text.startswith("job "):
                given, line = text.rstrip("\n").split(" => ")
                data = given.split()[1]
                yield f"{path}:{number}", b"" if data == "_" else bytes.fromhex(data), line


def main():
    if len(sys.argv) not in (2, 3):
        sys.exit(__doc__)
    program = sys.argv[2] if len(sys.argv) > 2 else built()
    sys.exit(0 if compare(program, job_lines(sys.argv[1])) else 1)


if __name__ == "__main__":
    main()
