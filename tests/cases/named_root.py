"""`root`: the root that a chunk file names, of which nothing is checked."""

import tempfile
from pathlib import Path

from cases.by_root_words import GAP, READ_FAILED
from cases.look_ups import LONG
from cases.scratch import ABC, numbered
from oracle.checker import HEADER_SIZE, Fault, read_header
from oracle.trees import END_SIZE, chunk_file, header, records, reference_text, tree
from support.by_root import turned
from support.harness import FOLDER, Case
from support.place import Place


def named(content):
    """The root that a file names, or a `Fault`: of the header, or that there is no room for the records, or no end record."""
    read_header(content)
    if len(content) < HEADER_SIZE + END_SIZE:
        raise Fault("truncated")
    end = content[-END_SIZE:]
    if end[:1] != b"E":
        raise Fault("bad end record")
    return end[1:21]


def asked(name, content):
    """A file whose root is asked for."""
    words, before = ["root", "in.prl"], {"in.prl": content}
    try:
        return Case(f"root: {name}", words, out=f"{reference_text(named(content))}\n".encode(), before=before)
    except Fault as fault:
        return Case(f"root: {name}", words, status=4, err=f"prolly: chunk file: {fault}\n".encode(), before=before)


def cases(_):
    """All cases of one run."""
    return lawful() + damaged() + others()


def lawful():
    """Files of many shapes, each with its own root."""
    found = []
    for name, pairs, bits in (("no pair", [], 0), ("three pairs", ABC, 0), ("a long pair", LONG, 0), ("3,000 pairs", numbered(3_000), 4)):
        for version in (1, 2):
            content, root = chunk_file(pairs, bits, version), tree(pairs, bits, version).reference
            assert named(content) == root
            found.append(asked(f"{name}, format {version}", content))
    return found


def damaged():
    """A file of which a bit of each byte is turned, and each of its first parts."""
    found = []
    for version in (1, 2):
        good = chunk_file(ABC, 0, version)
        for place in range(len(good)):
            found.append(asked(f"format {version}, byte {place} turned", turned(good, place, 1 if place % 2 else 128)))
            found.append(asked(f"format {version}, {place} bytes", good[:place]))
        found.append(asked(f"format {version}, a byte more", good + b"E"))
    return found


def others():
    """Files that are no chunk files, and none."""
    least = header(0, 1) + b"E" + bytes(range(28))
    return [
        asked("header and end alone", least),
        asked("a byte less than both", least[:-1]),
        asked("an end that begins in the header", header(0, 1)[:5] + b"\x18" + b"E" * 28),
        asked("another letter", header(24, 2) + b"e" + bytes(28)),
        asked("a record file", records(ABC)),
        asked("no bytes", b""),
        Case("root: a folder", ["root", "in.prl"], status=5, err=READ_FAILED, before={"in.prl": FOLDER}),
        Case("root: no file", ["root", "none"], status=5, err=b"prolly: cannot open none\n"),
        Case("root: standard output is full", ["root", "in.prl"], status=5, err=b"prolly: write failed\n", before={"in.prl": chunk_file(ABC, 0)}, stdout="full"),
    ]


def all_runs(program, _):
    """A file of any size, and one that is no file."""
    with tempfile.TemporaryDirectory() as folder:
        place = Place(program, None, Path(folder))
        with open(place.path("in.prl"), "wb") as file:
            file.write(header(0, 1))
            file.seek(GAP)
            file.write(b"E" + bytes(28))
        place.answers(place.run("root", "in.prl"), (0, b"0" * 32 + b"\n", b""))
        place.answers(place.run("root", "/dev/stdin", stdin=chunk_file(ABC, 0)), (5, b"", READ_FAILED))
        yield "root: a file of five billion bytes, and a pipe", place.differences
