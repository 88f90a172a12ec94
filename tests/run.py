#!/usr/bin/env python3
"""Tests the program as a user runs it: `tests/run.py PROGRAM`, or some parts of it, such as those of cases/diffs.py,
`tests/run.py PROGRAM diffs dumps`, or over more random files than the gate has `tests/run.py PROGRAM --random SEED COUNT`,
or to look for builds that hang `tests/run.py PROGRAM --links COUNT`, or to sort two gigabytes of lines, which the gate does not,
`tests/run.py PROGRAM sorts_large`.

The tests stand in cases/, what they use in support/. Each case is a run with its words, input, output, error, status and
files. What is wanted comes from docs/format.md, from the second implementations in oracle/ that were written after it, or,
for texts of help, from texts/. Beside the cases there are runs in which files may be lost, in which calls of the system fail, or
in which standard streams are not as usual, runs whose workers wait for one another, runs in which each growth of memory
is refused in turn, the reader in Python beside the program, the examples of the README, what is installed, a sort on a
cluster, tables of several columns, the demonstration, code that must not compile, and random command lines over random
files. As many parts run beside one another as there are processors that may be used, but for those that look at times.

What can't be tested on a machine is told by a line of SKIPPED. A test that takes an hour hangs. It is ended, and what stands behind
it in its part is not run.
"""

import os
import sys
import tempfile
from concurrent.futures import ProcessPoolExecutor
from functools import partial
from pathlib import Path

from cases import (
    applies,
    as_text,
    build,
    by_root,
    by_root_words,
    checked_by_root,
    chunk_bytes,
    command_line,
    damaged,
    demo,
    diffs,
    diffs_by_root,
    dumps,
    examples,
    explained_lines,
    files,
    growths,
    installed,
    key_proofs,
    kept,
    library,
    links,
    loads,
    look_ups,
    misuse,
    named_root,
    pack,
    progress,
    proofs,
    python_package,
    random_runs,
    range_proofs,
    readers,
    scale,
    scratch,
    several_files,
    sorts,
    sorts_large,
    streams,
    surveys,
)
from oracle.trees import chunk_file
from support.harness import HANGS, broken_off, run, tested
from support.watch import Hung, at_most


def name_of(part):
    """The name of a part, which is that of its file."""
    return part.__name__.removeprefix("cases.")


KNOWN_SIZES = [(0, 1, 45), (1, 1, 53), (2, 1, 127), (3, 1, 234), (1, 2, 53), (2, 2, 143), (3, 2, 274)]
"""Numbers of pairs, versions and sizes of chunk files, as docs/format.md gives them."""


WITH_RUNS = (by_root, sorts, diffs_by_root, applies, growths, kept, files, links, as_text, dumps, diffs, proofs, range_proofs, key_proofs, readers, progress, examples, installed, streams, scale, loads, library, python_package, demo, misuse, checked_by_root, named_root)
"""The parts that have runs of their own, those first that take long."""

WITH_CASES = (damaged, applies, build, random_runs, as_text, diffs, diffs_by_root, scratch, pack, sorts, command_line, look_ups, dumps, proofs, range_proofs, key_proofs, by_root_words, surveys, explained_lines, checked_by_root, named_root, several_files, chunk_bytes)
"""The parts that have cases."""

BY_NAME = (sorts_large,)
"""The parts that have runs which take so long, or so much of the disk, that only who names them has them."""

PARTS = [(name_of(part), "all_runs") for part in WITH_RUNS] + [(name_of(part), "cases") for part in WITH_CASES]

NAMED = [(name_of(part), "all_runs") for part in BY_NAME]

ALONE = ("links", "progress")
"""The parts that look at times, so that they run by themselves once all others are done."""


LONGEST_TEST = 3_600.0
"""Seconds after which a test hangs. The longest one takes some ten on an idle machine."""


def main():
    """Runs all cases, and gives the status."""
    if len(sys.argv) < 2:
        raise SystemExit(__doc__)
    program = str(Path(sys.argv[1]).resolve())
    if not Path(program).is_file() or not os.access(program, os.X_OK):
        raise SystemExit(f"{sys.argv[1]} is not there or does not run: make prolly makes the program")
    for count, version, size in KNOWN_SIZES:
        assert len(chunk_file(scratch.ABC[:count], 0, version)) == size
    assert chunk_file([], 0) == scratch.EMPTY_FILE
    passed, failed = 0, 0
    for count, differing in outcomes(program, sys.argv[2:]):
        passed += count
        failed += len(differing)
        for name, differences in differing:
            for difference in differences:
                print(f"FAILED {name}: {difference}", flush=True)
    print(f"{passed} passed, {failed} failed")
    return 1 if failed or not passed else 0


def outcomes(program, words):
    """What comes of all runs, or of those that the words name, part by part."""
    if words[:1] == ["--random"]:
        yield outcome(runs_of(program, random_runs.by_hand(words[1:])))
        return
    if words[:1] == ["--links"]:
        yield outcome(links.by_hand(program, int(words[1])))
        return
    unknown = [word for word in words if word not in {name for name, _ in PARTS + NAMED}]
    if unknown:
        raise SystemExit(f"no part of the tests: {' '.join(unknown)}")
    wanted = [part for part in PARTS + NAMED if part[0] in words] if words else PARTS
    with ProcessPoolExecutor(len(os.sched_getaffinity(0))) as workers:
        yield from workers.map(partial(outcome_of, program), [part for part in wanted if part[0] not in ALONE])
    yield from (outcome_of(program, part) for part in wanted if part[0] in ALONE)


def outcome_of(program, part):
    """What comes of the runs of a part."""
    name, kind = part
    with tempfile.TemporaryDirectory() as folder:
        if kind == "cases":
            return outcome(runs_of(program, globals()[name].cases(Path(folder))), name)
        return outcome(globals()[name].all_runs(program, Path(folder)), name)


def runs_of(program, cases):
    """The runs of cases: for each its name and its differences."""
    for case in cases:
        yield from tested(case.name, partial(run, program, case))


def outcome(runs, part="these"):
    """How many of these runs passed, and the other ones with their differences."""
    passed, differing = 0, []
    for name, differences in guarded(runs, part):
        passed += not differences
        if differences:
            differing.append((name, differences))
    return passed, differing


def guarded(runs, part):
    """Runs, of which none takes for good. One that hangs is the last, since the others may hang as long. So is one that breaks off
    by an error which nothing caught before."""
    runs, at = iter(runs), f"the first test of {part}"
    while True:
        try:
            with at_most(LONGEST_TEST):
                found = next(runs, None)
        except (Exception, Hung) as error:
            yield at, [broken_off(error)]
            return
        if found is None:
            return
        yield found
        name, differences = found
        at = f"what comes behind {name}"
        if HANGS in differences:
            yield at, ["it is not run"]
            return


if __name__ == "__main__":
    sys.exit(main())
