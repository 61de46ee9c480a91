#!/usr/bin/env python3
"""Runs the program on every job of expected.txt and compares the lines.

    python3 examples/run_jobs.py [PROGRAM]

Without PROGRAM it takes crates/job/out/job, and builds it if it is not there. Exit status 0 if every line is as expected.
"""
import sys

from expected import expected, job_in
from program import built, compare


def main():
    program = sys.argv[1] if len(sys.argv) > 1 else built()
    sys.exit(0 if compare(program, [(name, job_in(name), line) for name, line in expected()]) else 1)


if __name__ == "__main__":
    main()
