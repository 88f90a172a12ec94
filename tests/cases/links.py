"""How the workers of a build wait for one another: each wakes the other in time, so that no sleep of its own has to end
it; nobody waits for ever; waiting takes next to no time of the processor; and what waits takes a bounded memory."""

import os
import select
import tempfile
from functools import partial
from pathlib import Path

from cases.scratch import numbered
from oracle.trees import begun_file, chunk_file, record, records, report
from support.harness import HANGS, LONGEST, file_differences, lay_out, shown, tested
from support.measured import HUNG, Measured, run, run_over_pipe

LEAST_LINKS = ["--capacity", "1", "--batch", "1"]
"""The words of a build whose links hold one item each, so that its workers wait for one another at each item."""

FILES = 16

WAITING_PAIRS = 512
"""Pairs of a build whose sleeps end late: enough for thousands of waits."""

LATE = 1.0
"""By how many seconds such sleeps may end late."""

LONGEST_LATE = 100.0
"""Seconds that such a build may take. It takes less than a tenth of one on an idle machine. Workers that only slept, and did not wake
one another, took more than 200."""

BUILDS = 100
"""How often the gate looks for a build that hangs."""

SMALL_PAIRS = 160
"""Pairs of such a build."""

PACE = 1.0
"""Seconds between the records of a slow file."""

SLOW_PAIRS = 3

WAITING_SWITCHES = 600
"""How often the threads of a build may give the processor away while they wait for a slow file. There are 15 of them, of
which each wakes eight times; if they looked each millisecond, it were 45,000 times."""

WAITING_BUSY = 1.0
"""Seconds of processor time that it may take in all: a third of what a thread takes that does not sleep. An idle machine
takes a hundredth of a second for it, one whose cores are lent to others a millisecond for each switch."""

LONG_VALUE = 65_536
"""The greatest length of a value."""

LONG_PAIRS = 1_024
"""Pairs of long values, 67 MB in all."""

MORE_LONG_PAIRS = 2 * LONG_PAIRS
"""More of them than a build has room for."""

MOST_MEMORY = 80_000_000
"""What such a build may take. Measured is half to two thirds of it."""

FEW_LARGE = ["--capacity", "4", "--batch", "1024"]
"""The words of a build whose links have room for more items than there are, but for little of long ones."""

EMPTY_KEY = (b"", b"")

FLAWED = {
    "cut": (b"\0", [], b"record 0 is cut"),
    "out of order": (records([EMPTY_KEY, EMPTY_KEY]), [EMPTY_KEY], b"record 1: key out of order"),
}
"""Files that are at fault: their content, the pairs before the fault, and the line of it."""


def dealt(pairs, files):
    """Record files, with their names, to which pairs are dealt in turn."""
    return {f"{place}.rec": records(pairs[place::files]) for place in range(files)}


def long_pairs(count=LONG_PAIRS):
    """Pairs whose values are long."""
    return [(number.to_bytes(16, "big"), bytes([number % 251]) * LONG_VALUE) for number in range(count)]


def two_cores():
    """Two of the cores that there are, or the only one."""
    return sorted(os.sched_getaffinity(0))[:2]


def answer_differences(done, out, err=b"", status=0):
    """How a run's answer differs from what is wanted."""
    if done.status == HUNG:
        return [HANGS]
    if (done.status, done.out, done.err) == (status, out, err):
        return []
    return [f"status {done.status}, output {shown(done.out)}, error {shown(done.err)}"]


# ---- each worker wakes the other


def is_woken(program, folder, pairs, bits, longest, **how):
    """A build over the smallest links gives the chunk file in time."""
    files = dealt(pairs, FILES)
    lay_out(folder, files)
    done = run([program, "build", "--bits", str(bits), *LEAST_LINKS, "out.prl", *files], longest, folder=folder, **how)
    wanted = {**files, "out.prl": chunk_file(pairs, bits)}
    return answer_differences(done, report(pairs, bits)) or file_differences(folder, wanted)


def small_builds(count):
    """Builds of small files on two cores; in each second one a sleep that nobody ends takes a second."""
    pairs = numbered(SMALL_PAIRS)
    for number in range(count):
        late = LATE * (number % 2)
        how = {"pairs": pairs, "bits": 1, "longest": LONGEST, "cores": two_cores(), "late": late}
        yield f"build {number} of small files, sleeps {late:.0f} s late", partial(is_woken, **how)


# ---- waiting takes next to no time of the processor


def waits_cheaply(program, folder):
    """A build over a pipe that gives a record a second takes little more of the processor than one over a file."""
    pairs = numbered(SLOW_PAIRS)
    lay_out(folder, {"0.rec": records(pairs)})
    build = [program, "build", "--bits", "0", "out.prl"]
    at_once = run([*build, "0.rec"], LONGEST, folder=folder)
    spelled = [record(*pair) for pair in pairs]
    slowly = run_over_pipe([*build, "slow"], folder / "slow", spelled, PACE, LONGEST, folder=folder)
    differences = answer_differences(at_once, report(pairs, 0)) + answer_differences(slowly, report(pairs, 0))
    if slowly.given - at_once.given > WAITING_SWITCHES or slowly.busy - at_once.busy > WAITING_BUSY:
        differences.append(f"{slowly.given} switches, {slowly.busy:.3f} s of processor time;")
        differences.append(f"from a file {at_once.given} switches, {at_once.busy:.3f} s")
    return differences


# ---- what waits takes a bounded memory


def is_bounded(program, folder, files, options):
    """A build of long values, into a pipe that stands still for a while, takes less memory than they have."""
    pairs = long_pairs(MORE_LONG_PAIRS)
    inputs = dealt(pairs, files)
    lay_out(folder, inputs)
    os.mkfifo(folder / "out")
    # At once, while nobody writes it yet.
    reader = os.open(folder / "out", os.O_RDONLY | os.O_NONBLOCK)
    begun = Measured([program, "build", "--bits", "4", *options, "out", *inputs], folder=folder)
    # Its links are full once it has begun to write, and no thread of it goes on.
    has_begun = select.select([reader], [], [], LONGEST)[0] != []
    stands_still = has_begun and begun.wait_until_still(LONGEST)
    os.set_blocking(reader, True)
    with open(reader, "rb") as pipe:
        built = pipe.read()
    done = begun.finish(LONGEST)
    differences = answer_differences(done, report(pairs, 4))
    if not stands_still:
        differences.append("it never stood still" if has_begun else "it never wrote")
    if built != chunk_file(pairs, 4):
        differences.append(f"another file of {len(built)} bytes")
    if done.peak > MOST_MEMORY:
        differences.append(f"peak memory {done.peak / 1e6:.0f} MB")
    return differences


def lets_go(program, folder, flaw, options):
    """A file of long values, of which the merger needs none: the file beside it is at fault before their first key."""
    content, pairs, line = FLAWED[flaw]
    files = {"0.rec": records(long_pairs()), "1.rec": content}
    lay_out(folder, files)
    done = run([program, "build", "--bits", "0", *options, "out.prl", *files], LONGEST, folder=folder)
    differences = answer_differences(done, b"", b"prolly: file 1: " + line + b"\n", 3)
    return differences or file_differences(folder, {**files, "out.prl": begun_file(pairs, 0)})


def cannot_write(program, folder, options):
    """A full device, behind which the writer lets all chunks go."""
    lay_out(folder, {"0.rec": records(long_pairs())})
    done = run([program, "build", "--bits", "4", *options, "/dev/full", "0.rec"], LONGEST, folder=folder)
    return answer_differences(done, b"", b"prolly: write failed\n", 5)


# ---- all


def tests():
    """All tests: for each a name and what it does."""
    late = {"pairs": numbered(WAITING_PAIRS), "bits": 2, "longest": LONGEST_LATE, "late": LATE}
    yield f"each sleep {LATE:.0f} s late", partial(is_woken, **late)
    yield "a record a second", waits_cheaply
    yield "long values in one file", partial(is_bounded, files=1, options=[])
    yield f"long values in {FILES} files", partial(is_bounded, files=FILES, options=FEW_LARGE)
    for options in ([], LEAST_LINKS, FEW_LARGE):
        words = " ".join(["long values", *options])
        for flaw in FLAWED:
            yield f"{words}, beside a file that is {flaw}", partial(lets_go, flaw=flaw, options=options)
        yield f"{words}, a full device", partial(cannot_write, options=options)


def all_runs(program, folder):
    """Runs all tests, each in a folder of its own, and gives for each its name and its differences."""
    yield from run_all(program, tests())
    yield from by_hand(program, BUILDS)


def by_hand(program, count):
    """Runs so many builds, to find one that hangs."""
    yield from run_all(program, small_builds(count))


def run_all(program, tests):
    """Runs tests, each in a folder of its own."""
    for name, test in tests:
        with tempfile.TemporaryDirectory() as inside:
            yield from tested(f"links: {name}", partial(test, program, Path(inside)))
