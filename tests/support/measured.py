"""Runs of the program whose time, processor time and memory are measured."""

import os
import signal
import subprocess
import sys
import time
from contextlib import suppress
from dataclasses import dataclass
from pathlib import Path

from support.place import opened_for_writing, wait_until_read
from support.watch import descendants

USAGE = Path(__file__).with_name("usage.py")

HUNG = "hung"
"""Stands for the status of a run that was ended because it took too long."""


@dataclass
class Run:
    """What a run answered, and what it used."""

    status: object
    out: bytes = b""
    err: bytes = b""
    seconds: float = 0.0
    busy: float = 0.0
    """Seconds of processor time."""
    given: int = 0
    """How often its threads gave the processor away."""
    lost: int = 0
    """How often it was taken from them."""
    peak: int = 0
    """The most memory that it had, in bytes."""


class Measured:
    """A run that was started."""

    def __init__(self, command, folder=None, late=0, cores=(), stdin=subprocess.DEVNULL):
        """Starts a command. Each of its sleeps may end so many seconds late, and it runs on these cores, or on all."""
        self.told, writer = os.pipe()
        words = [str(writer), str(round(late * 1e9)), ",".join(map(str, cores)), *map(str, command)]
        self.process = subprocess.Popen(
            # Without what a site adds it is a smaller process.
            [sys.executable, "-I", "-S", USAGE, *words],
            cwd=folder,
            stdin=stdin,
            stdout=subprocess.PIPE,
            stderr=subprocess.PIPE,
            pass_fds=[writer],
            # A group of its own, which a run that hangs is ended by.
            start_new_session=True,
        )
        os.close(writer)

    def wait_until_still(self, longest):
        """Waits until all its threads wait for what others do, for so many seconds at most. Gives whether they do."""
        deadline = time.monotonic() + longest
        looks = []
        while time.monotonic() < deadline and self.process.poll() is None:
            looks = [*looks[1 - LOOKS :], look_at(descendants(self.process.pid))]
            if len(looks) == LOOKS and is_still(looks):
                return True
            time.sleep(STANDSTILL / LOOKS)
        return False

    def finish(self, longest=None):
        """Waits for its end, or for so many seconds and then ends it. Gives the run."""
        with os.fdopen(self.told, "rb") as told:
            try:
                out, err = self.process.communicate(timeout=longest)
            except subprocess.TimeoutExpired:
                os.killpg(self.process.pid, signal.SIGKILL)
                self.process.communicate()
                return Run(HUNG)
            status, seconds, busy, given, lost, peak = told.read().split()
        return Run(int(status), out, err, float(seconds), float(busy), int(given), int(lost), int(peak))


STANDSTILL = 0.5
"""Seconds in which a run that stands still does next to nothing."""

LOOKS = 10
"""How often it is looked at meanwhile."""

NEXT_TO_NOTHING = 2
"""Ticks of the system's clock, of which a second has a hundred. Threads wake now and then to look around."""


def look_at(processes):
    """The processor time that processes have had, in ticks, and whether all their threads sleep."""
    threads = [status_of(path) for process in processes for path in Path(f"/proc/{process}/task").glob("*/stat")]
    return sum(ticks for ticks, _ in threads), all(is_asleep for _, is_asleep in threads)


def status_of(path):
    """The processor time that a thread has had, in ticks, and whether it sleeps. One that ended meanwhile has none, and does not."""
    try:
        status = path.read_bytes()
    except OSError:
        return 0, False
    # Behind the name, which may have any bytes, come the state, and then the times in the program and in the system.
    state, *numbers = status.rpartition(b")")[2].split()
    return int(numbers[10]) + int(numbers[11]), state == b"S"


def is_still(looks):
    """Whether a run stood still while it was looked at. A thread that only waits for the processor is not asleep at any look."""
    (before, _), (after, _) = looks[0], looks[-1]
    return after - before <= NEXT_TO_NOTHING and any(is_asleep for _, is_asleep in looks)


def run(command, longest=None, **how):
    """Runs a command to its end, or for so many seconds and then ends it. Gives the run."""
    return Measured(command, **how).finish(longest)


def run_over_pipe(command, pipe, parts, pace, longest=None, **how):
    """Runs a command that reads a pipe, a path, which gives it these parts, each so many seconds after it has read the last. Gives
    the run."""
    os.mkfifo(pipe)
    begun = Measured(command, **how)
    # What it answers tells where it ended before, or hangs.
    with suppress(AssertionError, BrokenPipeError), opened_for_writing(Path(pipe), begun.process) as opened:
        for part in parts:
            time.sleep(pace)
            opened.write(part)
            wait_until_read(opened, begun.process)
    return begun.finish(longest)
