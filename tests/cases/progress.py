"""Progress: what a build shows of itself where standard error is a terminal, and where it shows nothing."""

import os
import pty
import re
import subprocess
import tempfile
import threading
import time
from functools import partial
from pathlib import Path

from cases.scratch import numbered
from oracle.trees import records, report
from support.harness import LONGEST, Skipped, differs, tested
from support.place import opened_for_writing

CLEARED = b"\r\x1b[K"
"""What takes the line away: back to its beginning, and blank to its end."""

LINE = re.compile(rb"read (?P<records>\d+) records, (?P<read>\d+)(?: of (?P<total>\d+))? MB, wrote (?P<written>\d+) MB, \d+ MB/s(?:, \d+ s left)?")

QUIET_TIME = 1.0
"""Seconds in which nothing is shown of a build."""

TRIES = 20
"""How often a short build is tried on a machine that is too slow for it."""

PAIRS = numbered(40_000)

OUT_OF_ORDER = b"prolly: file 0: record 40000: key out of order\r\n"


def all_runs(program, _):
    """All runs: for each its name and its differences."""
    for name, shows in (
        ("a slow input", slow_input),
        ("two inputs with sizes", slow_output),
        ("a fault behind a slow input", slow_fault),
        ("--quiet", quiet),
        ("a short build", short),
        ("no terminal", no_terminal),
    ):
        with tempfile.TemporaryDirectory() as folder:
            yield from tested(f"progress: {name}", partial(shows, program, Path(folder)))


# ---- builds that are slow


def slow_input(program, folder):
    """A pipe that stands still until two lines are shown: how long it is nobody knows."""
    answer, screen = shown_build(program, folder, PAIRS)
    told = [int(line["records"]) for line in screen.lines()]
    return [
        *answered(answer, (0, report(PAIRS))),
        *differs("what is left on the screen", screen.rest(), b""),
        *differs("the number of lines is at least 2", len(told) >= 2, True),
        *differs("the totals", {line["total"] for line in screen.lines()}, {None}),
        *differs("records are told before the end", any(0 < count < len(PAIRS) for count in told), True),
        *differs("the records that are told never fall", told, sorted(told)),
        *differs("no more records are told than there are", all(count <= len(PAIRS) for count in told), True),
    ]


def slow_output(program, folder):
    """An output that nobody reads until two lines are shown, of inputs whose sizes are known."""
    content = records(PAIRS)
    (folder / "in.rec").write_bytes(content)
    (folder / "no.rec").write_bytes(b"")
    screen = Screen()
    drain = drained(folder / "out.prl", screen.wait_for_lines)
    answer = on_terminal(program, folder, screen, drain, "build", "out.prl", "in.rec", "no.rec")
    return [
        *answered(answer, (0, report(PAIRS))),
        *differs("what is left on the screen", screen.rest(), b""),
        *differs("the number of lines is at least 2", len(screen.lines()) >= 2, True),
        *differs("the totals", {line["total"] for line in screen.lines()}, {b"%d" % (len(content) // 1_000_000)}),
    ]


def slow_fault(program, folder):
    """A fault is told below a line that was taken away."""
    answer, screen = shown_build(program, folder, [*PAIRS, PAIRS[0]])
    return [
        *answered(answer, (3, b"")),
        *differs("the end of the screen", screen.rest(), OUT_OF_ORDER),
        *differs("there are lines", screen.lines() != [], True),
    ]


def shown_build(program, folder, pairs):
    """A build of a pipe that stands still in the middle until two lines are shown: its answer and its screen."""
    screen = Screen()
    feed = fed(folder / "in.rec", records(pairs), screen.wait_for_lines)
    return on_terminal(program, folder, screen, feed, "build", "out.prl", "in.rec"), screen


# ---- builds that show nothing


def quiet(program, folder):
    """A slow build is asked to show nothing."""
    screen = Screen()
    feed = fed(folder / "in.rec", records(PAIRS), partial(stand_still, program))
    answer = on_terminal(program, folder, screen, feed, "build", "--quiet", "out.prl", "in.rec")
    return answered((*answer, screen.found), (0, report(PAIRS), b""))


def short(program, folder):
    """A build that is done before a second is over. One that takes longer may show a line, and is tried again."""
    (folder / "in.rec").write_bytes(records(PAIRS[:10]))
    for _ in range(TRIES):
        screen = Screen()
        began = time.monotonic()
        answer = on_terminal(program, folder, screen, None, "build", "out.prl", "in.rec")
        if time.monotonic() - began < QUIET_TIME or screen.found == b"":
            return answered((*answer, screen.found), (0, report(PAIRS[:10]), b""))
    raise Skipped(f"no build of {TRIES} took less than a second")


def no_terminal(program, folder):
    """A slow build whose standard error is a pipe."""
    feed = fed(folder / "in.rec", records(PAIRS), partial(stand_still, program))
    process = subprocess.Popen([program, "build", "out.prl", "in.rec"], cwd=folder, stdout=subprocess.PIPE, stderr=subprocess.PIPE)
    out, err = finished(process, feed)
    return answered((process.returncode, out, err), (0, report(PAIRS), b""))


def stand_still(program):
    """Waits until a build beside it, which shows lines, has shown two: so long that the build which waits would have shown some."""
    with tempfile.TemporaryDirectory() as folder:
        _, screen = shown_build(program, Path(folder), PAIRS)
    assert len(screen.lines()) >= 2, "the build beside it shows no lines"


# ---- the parts of a run


class Screen:
    """The screen of a terminal: what came on it so far."""

    def __init__(self):
        """Nothing came yet."""
        self.found = b""
        self.is_closed = False
        self.changed = threading.Condition()

    def follow(self, terminal):
        """Reads all that comes on a terminal until nobody has it open."""
        with open(terminal, "rb", buffering=0) as it:
            while part := part_of(it):
                with self.changed:
                    self.found += part
                    self.changed.notify_all()
        with self.changed:
            self.is_closed = True
            self.changed.notify_all()

    def wait_for_lines(self):
        """Waits until two lines were shown, the last of which tells of records."""
        with self.changed:
            self.changed.wait_for(lambda: self.is_closed or self.has_lines(), LONGEST)

    def has_lines(self):
        """Whether two lines were shown so far, the last of which tells of records."""
        shown_so_far = [line for part in self.found.split(CLEARED) if (line := LINE.fullmatch(part))]
        return len(shown_so_far) >= 2 and int(shown_so_far[-1]["records"]) > 0

    def lines(self):
        """The lines that were shown one after another in one place. A screen that shows anything else gives none."""
        return self.parts()[0]

    def rest(self):
        """What stands behind the last line, once that is taken away. Where there are no lines, all."""
        return self.parts()[1]

    def parts(self):
        """The lines, and what stands behind them."""
        first, *parts = self.found.split(CLEARED)
        found = [LINE.fullmatch(part) for part in parts[:-1]]
        return (found, parts[-1]) if parts and first == b"" and all(found) else ([], self.found)


def part_of(terminal):
    """The next bytes of a terminal, or none where nobody has it open any more."""
    try:
        return terminal.read(4_096)
    except OSError:
        return b""


def on_terminal(program, folder, screen, beside, *words):
    """Runs the program with a terminal for standard error, whose screen it is, and something beside it that is given its process.
    Gives its status and its output."""
    above, below = pty.openpty()
    process = subprocess.Popen([program, *words], cwd=folder, stdin=subprocess.DEVNULL, stdout=subprocess.PIPE, stderr=below)
    os.close(below)
    follower = threading.Thread(target=screen.follow, args=[above], daemon=True)
    follower.start()
    out, _ = finished(process, beside)
    follower.join(LONGEST)
    return process.returncode, out


def finished(process, beside):
    """What a process prints, and something runs beside it that is given it. Both are ended where they hang."""
    # A thread that waits for good, as an open may, must not keep these tests.
    broken = []
    thread = threading.Thread(target=noting, args=[broken, beside, process], daemon=True)
    thread.start()
    try:
        printed = process.communicate(timeout=2 * LONGEST)
    finally:
        process.kill()
    thread.join(LONGEST)
    assert not broken and not thread.is_alive(), f"what runs beside the build: {broken or 'it hangs'}"
    return printed


def noting(broken, beside, process):
    """Does what is to be done beside a process, if anything, and notes by what it was broken off."""
    try:
        if beside is not None:
            beside(process)
    except Exception as error:
        broken.append(error)


def fed(path, content, wait):
    """A named pipe, and what writes bytes into it, the second half of them after a wait."""
    os.mkfifo(path)

    def feed(process):
        half = len(content) // 2
        with opened_for_writing(path, process) as pipe:
            write_all(pipe, content[:half])
            wait()
            write_all(pipe, content[half:])

    return feed


def write_all(pipe, content):
    """Writes bytes into a pipe, which takes a part of them at a time."""
    while content:
        content = content[pipe.write(content) :]


def drained(path, wait):
    """A named pipe that is open for reading, and what reads it after a wait."""
    os.mkfifo(path)
    # At once, while nobody writes it yet.
    reader = os.open(path, os.O_RDONLY | os.O_NONBLOCK)

    def drain(_):
        with os.fdopen(reader, "rb") as pipe:
            wait()
            os.set_blocking(reader, True)
            pipe.read()

    return drain


def answered(found, wanted):
    """How an answer differs from the one that is wanted."""
    return differs("the answer", found, wanted)
