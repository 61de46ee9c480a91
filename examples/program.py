"""The program job: where it is built, how it is asked."""
import os
import subprocess
import sys

HERE = os.path.dirname(os.path.abspath(__file__))
ROOT = os.path.dirname(HERE)
CRATE = os.path.join(ROOT, "crates", "job")
BUILT = os.path.join(CRATE, "out", "job")


def built():
    """The path of the program, which is built if it is not there."""
    if not os.path.exists(BUILT):
        print("building the program: rt run in crates/job", file=sys.stderr)
        try:
            # It is also run, on an empty input; its line says nothing here.
            subprocess.run(["rt", "run"], cwd=CRATE, stdin=subprocess.DEVNULL, stdout=subprocess.DEVNULL, check=True)
        except FileNotFoundError:
            sys.exit("rt, the toolchain's command, is not there")
        except subprocess.CalledProcessError:
            sys.exit("rt run failed in crates/job")
        if not os.path.exists(BUILT):
            sys.exit("rt run left no crates/job/out/job: remove crates/job/out and try again")
    return BUILT


def printed(program, job):
    """What the program prints on a job's bytes, with its exit status after it if that is not 0."""
    run = subprocess.run([program], input=job, stdout=subprocess.PIPE, check=False)
    return run.stdout.decode("ascii", "replace") + (f"exit status {run.returncode}" if run.returncode else "")


def compare(program, cases):
    """Runs the program on (name, job, line) and prints where it answers another line. True if it never does."""
    passed = failed = 0
    for name, job, line in cases:
        output = printed(program, job)
        if output == line + "\n":
            passed += 1
        else:
            failed += 1
            print(f"{name}: expected {line!r}, printed {output!r}")
    print(f"{passed} passed, {failed} failed")
    return passed > 0 and failed == 0
