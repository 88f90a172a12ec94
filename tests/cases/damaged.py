"""Chunk files of which one bit is turned, or the end is missing, beside the second checker."""

from cases.scratch import ABC
from oracle.checker import lawful_or_fault
from oracle.trees import chunk_file
from support.harness import Case


def cases(_):
    """Each bit of a file of three pairs turned, and each of its first parts, in both formats."""
    return [case for version in (1, 2) for case in turned(version) + cut(version)]


def turned(version):
    """A file in which one bit is turned."""
    good = chunk_file(ABC, 0, version)
    found = []
    for place in range(len(good)):
        for bit in range(8):
            bad = good[:place] + bytes([good[place] ^ 1 << bit]) + good[place + 1 :]
            found.append(checked(f"format {version}, byte {place}, bit {bit} turned", bad))
    return found


def cut(version):
    """A file of which only the first bytes are there."""
    good = chunk_file(ABC, 0, version)
    return [checked(f"format {version}, {size} bytes", good[:size]) for size in range(len(good))]


def checked(name, content):
    """A file that is to be refused."""
    return Case(f"check: {name}", ["check", "in.prl"], status=4, err=b"prolly: chunk file: " + fault_of(content) + b"\n", before={"in.prl": content})


def fault_of(content):
    """The first fault of a file that has one."""
    fault = lawful_or_fault(content)
    assert fault is not None, "a lawful file"
    return fault
