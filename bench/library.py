#!/usr/bin/env python3
"""How long a load, a get and a scan of all take from Python and from C, beside those of sqlite3 and LMDB: `bench/library.py [PAIRS]`.

The library has to be there (`make lib`). LMDB is that of the Python which runs this, and of the compiler; where it is not installed
that is said. Times are of the processor. Stores are asked in turn, and what is shown of gets and scans are medians of some turns.
"""

import os
import random
import sqlite3
import subprocess
import sys
import tempfile
import time
from pathlib import Path
from statistics import median

TOP = Path(__file__).resolve().parents[1]

LIBRARY = TOP / "library" / "out"

PAIRS = int(sys.argv[1]) if len(sys.argv) > 1 else 1_000_000

PROBES = 100_000
"""How many keys are looked up at a time."""

TURNS = 5

MAPPED_BYTES = 1 << 30
"""How much of a file sqlite3 and LMDB may map."""


def main():
    """All times, a line each."""
    with tempfile.TemporaryDirectory() as folder:
        os.chdir(folder)
        sys.path.insert(0, built(Path(folder)))
        numbers = random.Random(1)
        keys = sorted({numbers.randbytes(16) for _ in range(PAIRS)})
        pairs = [(key, numbers.randbytes(16)) for key in keys]
        probes = numbers.sample(keys, min(PROBES, len(keys)))
        print(f"{len(pairs)} pairs: a load; a check, or an opening; a get; a scan of all")
        in_python([prolly_store(6), prolly_store(12), sqlite_store(), *lmdb_store()], pairs, probes)
        in_c(Path(folder))


def in_python(stores, pairs, probes):
    """The times of Python. The stores are asked in turn."""
    loads = [timed(lambda load=load: load(pairs)) for _, load, _ in stores]
    opened = [timed_with(opening) for _, _, opening in stores]
    gets, scans = [[] for _ in stores], [[] for _ in stores]
    for _ in range(TURNS):
        for (_, (get, scan)), some_gets, some_scans in zip(opened, gets, scans, strict=True):
            some_gets.append(timed(lambda get=get: [get(key) for key in probes]) / len(probes))
            some_scans.append(timed(lambda scan=scan: sum(1 for _ in scan())))
    for (name, _, _), load, (opening, _), get, scan in zip(stores, loads, opened, gets, scans, strict=True):
        print(f"{name:26} {load:6.2f} s {opening:6.2f} s {median(get) * 1e6:6.2f} us {median(scan):7.3f} s", flush=True)


def built(folder):
    """Builds the package, and gives the folder that it is in."""
    names = {**os.environ, "PROLLY_LIB": str(LIBRARY), "PROLLY_INCLUDE": str(TOP / "include")}
    words = [sys.executable, "setup.py", "--quiet", "build", "--build-base", folder / "base", "--build-lib", folder / "site"]
    subprocess.run(words, cwd=TOP / "python", env=names, check=True, stderr=subprocess.DEVNULL)
    return str(folder / "site")


def prolly_store(bits):
    """A chunk file."""
    import prolly

    def opened():
        tree = prolly.open(f"{bits}.prl")
        return tree.__getitem__, tree.items

    return f"from Python, prolly, {bits} bits", lambda pairs: prolly.build(f"{bits}.prl", pairs, bits=bits), opened


def sqlite_store():
    """A table of sqlite3, mapped."""

    def load(pairs):
        base = sqlite3.connect("pairs.db")
        base.execute("create table pairs (key blob primary key, value blob) without rowid")
        base.executemany("insert into pairs values (?, ?)", pairs)
        base.commit()
        base.close()

    def opened():
        base = sqlite3.connect("pairs.db")
        base.execute(f"pragma mmap_size = {MAPPED_BYTES}")
        ask = base.cursor()
        return (
            lambda key: ask.execute("select value from pairs where key = ?", (key,)).fetchone()[0],
            lambda: base.execute("select key, value from pairs order by key"),
        )

    return "from Python, sqlite3", load, opened


def lmdb_store():
    """A base of LMDB, where Python has it."""
    try:
        import lmdb
    except ImportError:
        print("from Python, lmdb: not installed")
        return

    def load(pairs):
        with lmdb.open("pairs.lmdb", map_size=MAPPED_BYTES) as base, base.begin(write=True) as change:
            change.cursor().putmulti(pairs, append=True)

    def opened():
        view = lmdb.open("pairs.lmdb", map_size=MAPPED_BYTES, readonly=True).begin()
        return view.get, view.cursor

    yield "from Python, lmdb", load, opened


def timed(act):
    """The processor time of a call."""
    return timed_with(act)[0]


def timed_with(act):
    """The same, and what it gives."""
    begun = time.process_time()
    given = act()
    return time.process_time() - begun, given


def in_c(folder):
    """The times of C, beside those of what else is installed."""
    program = folder / "library"
    words = ["cc", "-O2", "-I", TOP / "include", "-o", program, TOP / "bench" / "library.c", LIBRARY / "libprolly.a"]
    for more in (["-DWITH_SQLITE", "-lsqlite3"], ["-DWITH_LMDB", "-llmdb"]):
        if subprocess.run([*words, *more], check=False, stderr=subprocess.DEVNULL).returncode == 0:
            words += more
    subprocess.run(words, check=True)
    subprocess.run([program, "6.prl", str(PROBES), folder], check=True)
    subprocess.run([program, "12.prl", str(PROBES)], check=True)


if __name__ == "__main__":
    main()
