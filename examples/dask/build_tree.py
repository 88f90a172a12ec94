#!/usr/bin/env python3
"""Sorts tables on a Dask cluster, and builds the prolly tree of their rows.

    build_tree.py [--workers N | --scheduler ADDRESS] [--folder FOLDER] [--prolly PROGRAM] OUT TABLES...

A table has a row a line: a key, a tab, a value. Of rows with one key the last counts, in the order of the tables and of
their lines. The workers cut the keys into ranges, sort each range, and write it as a record file into FOLDER, which all
of them and this program have to reach; then `prolly build` merges the record files into OUT, and prints its line.

A task holds a block of a table, or one range; together the workers hold the tables. See docs/scale.md.
"""

import argparse
import subprocess
import tempfile
from bisect import bisect_right
from pathlib import Path

import dask
from dask.bytes import read_bytes
from distributed import Client, LocalCluster

MOST_FILES = 16
"""How many record files a build takes."""

MOST_RECORDS = 16_777_216
"""How many records one of them may have."""

LONGEST_KEY, LONGEST_VALUE = 1_024, 65_536

BLOCK_BYTES = 2**24
"""About how much of a table is one task."""

SAMPLED_ROWS = 1_000
"""About how many rows of a block the ranges are chosen by."""


def main():
    """Sorts, writes, and builds."""
    asked = arguments()
    with tempfile.TemporaryDirectory(dir=asked.folder) as folder, cluster(asked) as client:
        files = write_ranges(client, asked.tables, folder)
        subprocess.run([asked.prolly, "build", asked.out, *files], check=True)


def arguments():
    """The words of the command line."""
    parser = argparse.ArgumentParser(description="Sorts tables on a Dask cluster, and builds the tree of their rows.")
    parser.add_argument("--workers", type=int, default=2, help="processes of a cluster on this machine")
    parser.add_argument("--scheduler", help="the address of the scheduler of another cluster")
    parser.add_argument("--folder", default=".", help="where record files may lie for a while")
    parser.add_argument("--prolly", default="prolly", help="the program that builds")
    parser.add_argument("out", help="the chunk file to make")
    parser.add_argument("tables", nargs="+", help="lines of a key, a tab and a value")
    return parser.parse_args()


def cluster(asked):
    """The client of the cluster that is asked for."""
    if asked.scheduler:
        return Client(asked.scheduler)
    return Client(LocalCluster(n_workers=asked.workers, threads_per_worker=1, dashboard_address=None))


def write_ranges(client, tables, folder):
    """Writes the rows into record files, a range of keys each, and gives the names of the files."""
    paths = [str(Path(table).resolve()) for table in tables]
    _, blocks = read_bytes(paths, delimiter=b"\n", blocksize=BLOCK_BYTES, sample=False)
    blocks = [block for table in blocks for block in table]
    bounds = bounds_of(client.gather(client.compute([sample(block) for block in blocks])))
    parts = [divided(block, bounds) for block in blocks]
    written = [
        write_range([part[place] for part in parts], str(Path(folder).resolve() / f"{place}.rec"))
        for place in range(len(bounds) + 1)
    ]
    return client.gather(client.compute(written))


def bounds_of(samples):
    """The keys at which ranges begin, but for the first one: fewer than a build takes files."""
    keys = sorted(set().union(*samples))
    places = {len(keys) * place // MOST_FILES for place in range(1, MOST_FILES)}
    return [keys[place] for place in sorted(places) if 0 < place < len(keys)]


def rows_of(block):
    """The rows of a block: keys and values, in order."""
    lines = block.split(b"\n")
    if not lines[-1]:
        lines.pop()
    for line in lines:
        key, tab, value = line.partition(b"\t")
        if not tab or len(key) > LONGEST_KEY or len(value) > LONGEST_VALUE:
            raise ValueError(f"not a row of a key, a tab and a value: {line[:80]!r}")
        yield key, value


@dask.delayed
def sample(block):
    """Keys of some of the rows."""
    keys = [key for key, _ in rows_of(block)]
    return keys[:: max(1, len(keys) // SAMPLED_ROWS)]


@dask.delayed
def divided(block, bounds):
    """The lines of a block, by ranges."""
    ranges = [[] for _ in range(len(bounds) + 1)]
    for key, value in rows_of(block):
        ranges[bisect_right(bounds, key)] += [key, b"\t", value, b"\n"]
    return [b"".join(lines) for lines in ranges]


@dask.delayed
def write_range(parts, name):
    """Writes the rows of one range, of all blocks in order, as a record file, and gives its name."""
    rows = {key: value for part in parts for key, value in rows_of(part)}
    if len(rows) > MOST_RECORDS:
        raise ValueError(f"a range has {len(rows)} rows, more than a record file may: the keys are too alike, or too many")
    with open(name, "wb") as file:
        for key in sorted(rows):
            file.write(record(key, rows[key]))
    return name


def record(key, value):
    """The spelling of a record (docs/format.md)."""
    return len(key).to_bytes(2, "big") + key + len(value).to_bytes(4, "big") + value


if __name__ == "__main__":
    main()
