#!/usr/bin/env python3
"""Proves and builds the program with the libraries that it stands on, and says a line a crate: `tools/prove.py [JOBS]`.

A crate is proved once all that it stands on are. Of those that could be next the one comes first above which most is left to be
proved, since the program waits for it longest. JOBS jobs of the prover run at a time, by default as many as there are processors,
and fewer where memory is short. A crate gets more than one where there are fewer crates than jobs: each further one loads all that
the crate stands on once more.

The first time a library is cut to its statements, which the crates above load sooner. One that is built again, or that `rt check`
looked at, keeps its proofs, so that the next time only what changed is proved. What the prover notes goes to a log, which is named
where a proof fails.
"""

import os
import shutil
import subprocess
import sys
import tempfile
import time
from concurrent.futures import FIRST_COMPLETED, ThreadPoolExecutor, wait
from contextlib import contextmanager
from functools import cache
from pathlib import Path

from toolchain import toolchain

TOP = Path(__file__).resolve().parents[1]
CRATES = TOP / "crates"
PROGRAM = "prolly"
OUT = CRATES / PROGRAM / "out"
LOG = OUT / "proofs.log"

JOB_BYTES = 2_500_000_000
"""What a job takes of memory at most, but for the last ones, which run alone."""

MOST_JOBS = 4
"""By how many jobs a crate is proved at most."""

LINES_A_JOB = 500
"""How many lines of code a crate has for each job beyond the first: a small one is proved before a second job has loaded."""


def main():
    """Proves all, builds, and runs the program once: over the empty map."""
    jobs = int(sys.argv[1]) if len(sys.argv) > 1 else most_jobs()
    OUT.mkdir(parents=True, exist_ok=True)
    with open(LOG, "w", encoding="utf-8") as log:
        proving = Proving(jobs, log)
        root = proving.libraries() and proving.program()
    if not root:
        sys.exit(f"what the prover says stands in {LOG.relative_to(TOP)}")
    print(f"crates/{PROGRAM}/out/{PROGRAM} is built; the root of the empty map is {root}")


def most_jobs():
    """How many jobs the processors allow, and the memory that the system can give: what it keeps of files counts as such."""
    told = Path("/proc/meminfo").read_text(encoding="ascii").splitlines()
    available = next(int(line.split()[1]) for line in told if line.startswith("MemAvailable:")) * 1024
    return max(1, min(len(os.sched_getaffinity(0)), available // JOB_BYTES))


class Proving:
    """The proofs of the program's crates."""

    def __init__(self, jobs, log):
        self.jobs, self.log, self.start = jobs, log, time.monotonic()
        self.crates, self.done = {PROGRAM, *crates_below(PROGRAM)}, set()

    def libraries(self):
        """Proves all libraries. Gives whether none has failed: with the first one that has, no further one begins."""
        free, under_way, failed = self.jobs, {}, False
        known = {crate.name: crate for crate in toolchain().crates_below(str(TOP))}
        with held([known[crate] for crate in self.crates]), ThreadPoolExecutor(self.jobs) as pool:
            while True:
                ready = [] if failed else self.ready(under_way.values())
                while free and ready:
                    crate = ready.pop(0)
                    jobs = min(jobs_for(crate), max(1, free // (len(ready) + 1)))
                    under_way[pool.submit(proved, known[crate], jobs)] = crate, jobs
                    free -= jobs
                if not under_way:
                    return not failed
                for run in wait(under_way, return_when=FIRST_COMPLETED).done:
                    crate, jobs = under_way.pop(run)
                    free += jobs
                    failed = not self.noted(crate, run.result()) or failed

    def ready(self, under_way):
        """The libraries that could be next, those first above which most is left."""
        begun = self.done | {crate for crate, _ in under_way}
        ready = [crate for crate in self.crates - begun - {PROGRAM} if set(crates_below(crate)) <= self.done]
        return sorted(ready, key=self.work_from, reverse=True)

    @cache
    def work_from(self, crate):
        """How many lines of code are proved one after another from a crate on, up to the program."""
        above = [other for other in self.crates if crate in crates_below(other)]
        return lines_of(crate) + max(map(self.work_from, above), default=0)

    def noted(self, crate, outcome):
        """Says of a crate that it is done, or is not proved. Gives whether it is."""
        is_proved, said = outcome
        self.log.write(f"== {crate}\n{said}")
        self.log.flush()
        if not is_proved:
            print(f"{crate} is not proved", flush=True)
            return False
        self.done.add(crate)
        minutes, seconds = divmod(int(time.monotonic() - self.start), 60)
        print(f"[{len(self.done):2} of {len(self.crates)}] {crate:16} done after {minutes} min {seconds:02} s", flush=True)
        return True

    def program(self):
        """Proves and builds the program, and runs it. Gives the last word that it prints, or None."""
        words = ["rt", "run", "--jobs", str(min(jobs_for(PROGRAM), self.jobs)), "--", "scratch", "--bits", "0"]
        with open(CRATES / PROGRAM / "stdin", "rb") as empty:
            how = {"stdin": empty, "stdout": subprocess.PIPE, "stderr": subprocess.PIPE, "text": True}
            done = subprocess.run(words, cwd=CRATES / PROGRAM, check=False, **how)
        is_proved = self.noted(PROGRAM, (done.returncode == 0, done.stderr))
        return done.stdout.split()[-1] if is_proved else None


@contextmanager
def held(crates):
    """Keeps other runs of `rt` out of the crates' folders meanwhile."""
    folders = toolchain().lock(crates)
    try:
        yield
    finally:
        for folder in folders:
            os.close(folder)


def proved(crate, jobs):
    """Proves and builds a library, if it was not built from the sources as they stand. Gives whether it is, and what the prover said."""
    build = library_with_proofs if crate.has_kept() or Path(crate.rlib).exists() else cut_library
    with tempfile.TemporaryFile("w+", encoding="utf-8", errors="replace") as crate.out:
        is_proved = is_built(crate) or build(crate, ["--jobs", str(jobs)]) == 0
        crate.out.seek(0)
        return is_proved, crate.out.read()


def is_built(crate):
    """Whether a library was built from the sources as they stand, over those below as they stand: a cut one fits no others."""
    return crate.is_built() and all(built_at(lower) <= built_at(crate) for lower in crate.below())


def built_at(crate):
    """When a library was built."""
    return os.stat(crate.rlib).st_mtime_ns


def library_with_proofs(crate, flags):
    """Proves and builds a library over the proofs that were kept of it, and keeps those of now. Gives the prover's status."""
    Path(crate.rlib).with_name("stamp").unlink(missing_ok=True)
    return crate.build_rlib(flags, anew=False)


def cut_library(crate, flags):
    """Proves a library from nothing and builds it with its statements alone. Gives the prover's status."""
    stamp, folder = crate.stamp(), Path(crate.rlib).parent
    shutil.rmtree(folder, ignore_errors=True)
    folder.mkdir(parents=True)
    status = crate.call(toolchain().RATTLE, "build", *crate.words(flags, keeps=False), "--statements", "-o", crate.rlib)
    if not status and stamp == crate.stamp():
        (folder / "stamp").write_text(stamp, encoding="utf-8")
    return status


def lines_of(crate):
    """How many lines of code a crate has."""
    return sum(file.read_bytes().count(b"\n") for file in (CRATES / crate / "src").rglob("*.rt"))


def jobs_for(crate):
    """By how many jobs a crate is proved, where there are as many processors."""
    return min(MOST_JOBS, 1 + lines_of(crate) // LINES_A_JOB)


@cache
def crates_below(name):
    """The crates of the repository on which a crate stands."""
    lines = (TOP / "crates.txt").read_text(encoding="utf-8").splitlines()
    uses = {line.split(":")[0].split()[0]: line.split(":")[1].split() for line in lines if ":" in line and line[0] != "#"}
    found, left = set(), list(uses[name])
    while left:
        crate = left.pop()
        if crate in uses and crate not in found:
            found.add(crate)
            left += uses[crate]
    return found


if __name__ == "__main__":
    main()
