#!/usr/bin/env python3
"""Refuses memory to calls of the libraries, one growth in each run: `tests/growths_of_calls.py PROGRAM..`, where each PROGRAM
is what `rt test` or `rt ci` built of a crate of tests.

It runs the tests in modules of the name `growths`, each once for every growth that it asks for. Such a test goes on where
a call that it tests is refused memory, and looks at what the call left. It may end in want of memory where a value of its
own is refused, and never in another way. The run in which nothing is left to be refused has to pass.
"""

import os
import subprocess
import sys
import tempfile
from concurrent.futures import ThreadPoolExecutor
from functools import partial
from pathlib import Path

from support.harness import HANGS, LONGEST, shown
from support.place import compiled

MOST_GROWTHS = 20_000
"""More than any of the tests asks for."""

PASSED = "\ntest result: ok\n"

REFUSED = ("error: AllocError\n", "error: AllocFailed ", "error: Memory\n")
"""How a test begins to say that it was refused a value of its own."""


def main():
    """Runs all tests of the programs, and gives the status."""
    runs, failed = 0, 0
    with tempfile.TemporaryDirectory() as folder:
        refuser = compiled("refuse", folder)
        tests = [(program, name) for program in map(Path, sys.argv[1:]) for name in tests_of(program)]
        with ThreadPoolExecutor(len(os.sched_getaffinity(0))) as workers:
            for name, count, difference in workers.map(partial(refused, refuser), tests):
                runs += count
                failed += difference is not None
                if difference is not None:
                    print(f"FAILED {name}: growth {count}: {difference}")
    print(f"{len(tests)} tests in {runs} runs, {failed} failed")
    return 1 if failed or not tests else 0


def tests_of(program):
    """The names of the program's tests of growths."""
    listed = subprocess.run([program, "--list"], capture_output=True, text=True, check=True, timeout=LONGEST).stdout
    names = [line.removesuffix(": test") for line in listed.splitlines() if line.endswith(": test")]
    return [name for name in names if "growths" in name.split("::")]


def refused(refuser, test):
    """Refuses a test each growth in turn, and gives its name, the number of runs, and what was wrong in the last, if anything."""
    program, name = test
    for growth in range(1, MOST_GROWTHS):
        try:
            was_refused, status, out, err = run(refuser, program, name, growth)
        except subprocess.TimeoutExpired:
            return name, growth, HANGS
        has_passed = status == 0 and out == PASSED
        if not has_passed and not (was_refused and status > 0 and err.startswith(REFUSED)):
            return name, growth, f"status {status}, {shown(out)}, {shown(err)}"
        if not was_refused:
            return name, growth, None
    return name, MOST_GROWTHS, "it asks for more"


def run(refuser, program, name, growth):
    """Runs a test that is refused one growth. Whether it came to that, the status, and what was printed."""
    reader, writer = os.pipe()
    env = {**os.environ, "LD_PRELOAD": str(refuser), "REFUSE": str(growth), "TELL": str(writer)}
    with os.fdopen(reader, "rb") as told:
        process = subprocess.Popen(
            [program.resolve(), name], env=env, pass_fds=[writer], stdout=subprocess.PIPE, stderr=subprocess.PIPE, text=True
        )
        os.close(writer)
        try:
            out, err = process.communicate(timeout=LONGEST)
        finally:
            # One that hangs is not left behind. Of one that is done nothing is left to end.
            process.kill()
        return told.read() != b"", process.returncode, out, err


if __name__ == "__main__":
    sys.exit(main())
