#!/usr/bin/env python3
"""Runs a command, and tells what it used: `usage.py TOLD LATE CORES COMMAND [WORDS..]`.

Its sleeps may end LATE nanoseconds late, and it runs on the CORES, numbers with commas between them, or where that is
empty on all. To the descriptor TOLD goes a line: the command's status, its seconds, its seconds of processor time, how
often its threads gave the processor away and lost it, and its peak memory in bytes.

The system tells of a process no less memory than the one that started it has. So this small program starts it, and not
a large one. What it has itself, some 9 MB, is the least that is told.
"""

import os
import sys
import time

PR_SET_TIMERSLACK = 29
"""The number of `prctl` that sets how much later than asked for the kernel may end a thread's sleep."""


def main():
    """Runs the command, and tells."""
    told, late, cores, *command = sys.argv[1:]
    os.set_inheritable(int(told), False)
    if late != "0":
        allow_late_wakes(int(late))
    if cores:
        os.sched_setaffinity(0, [int(core) for core in cores.split(",")])
    start = time.monotonic()
    child = os.posix_spawn(command[0], command, os.environ)
    _, status, usage = os.wait4(child, 0)
    seconds = time.monotonic() - start
    busy = usage.ru_utime + usage.ru_stime
    numbers = (os.waitstatus_to_exitcode(status), seconds, busy, usage.ru_nvcsw, usage.ru_nivcsw, usage.ru_maxrss * 1024)
    os.write(int(told), " ".join(map(str, numbers)).encode())


def allow_late_wakes(nanoseconds):
    """Lets each sleep of this process, and of those that it starts, end so much late."""
    # Only where it is asked for: the module is large beside the rest.
    import ctypes

    ctypes.CDLL(None).prctl(PR_SET_TIMERSLACK, ctypes.c_ulong(nanoseconds))


if __name__ == "__main__":
    main()
