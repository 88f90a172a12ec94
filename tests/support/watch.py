"""What ends a test that hangs, whatever it waits for: a process, a pipe that nobody opens, or a thread."""

import os
import signal
from contextlib import contextmanager
from pathlib import Path


class Hung(BaseException):
    """Raised where a test waits when its time is over. It is no Exception, which a test may expect and pass over."""


@contextmanager
def at_most(seconds):
    """Ends what it is around after so many seconds: the processes that were started meanwhile, and then the wait for them. This
    is for the main thread of a process."""
    signal.signal(signal.SIGALRM, end_all)
    signal.setitimer(signal.ITIMER_REAL, seconds)
    try:
        yield
    finally:
        signal.setitimer(signal.ITIMER_REAL, 0)


def end_all(*_):
    """Ends all processes that this one started."""
    for process in descendants(os.getpid()):
        try:
            os.kill(process, signal.SIGKILL)
        except ProcessLookupError:
            # It ended meanwhile.
            pass
    raise Hung


def descendants(process):
    """The numbers of the processes that a process started, and of those that these did."""
    parents = dict(map(parent_of, filter(str.isdigit, os.listdir("/proc"))))
    found = [process]
    for one in found:
        found += [child for child, parent in parents.items() if parent == one]
    return found[1:]


def parent_of(process):
    """The number of a process, and that of the one which started it. One that ended meanwhile has none."""
    try:
        status = Path("/proc", process, "stat").read_bytes()
    except OSError:
        return int(process), None
    # Behind the name of its program, which may have any bytes.
    return int(process), int(status.rpartition(b")")[2].split()[1])
