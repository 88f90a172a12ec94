"""`pack --sort` of lines that are several times its memory. It takes minutes, and some 7 GB of the disk, so the gate has it in a
smaller form: `tests/run.py PROGRAM sorts_large`."""

from functools import partial

from cases.sorts import held
from support.harness import tested


def all_runs(program, folder):
    """Two gigabytes by the memory that is used where none is told."""
    yield from tested("pack --sort: 2 GiB with --memory 256", partial(held, program, folder, 11_000_000, 256, 300_000_000))
