"""`scratch`: the chunk file of one record file."""

from pathlib import Path

from oracle.trees import REMOVED, chunk_file, record, records, root_text
from support.harness import FOLDER, Case

EMPTY_FILE = bytes.fromhex(
    "50524C590100"
    "43000000000000000100"
    "45b8244d028981d693af7b456af8efa4cad63d282e0000000000000001"
)
"""The chunk file of the empty map, cut by 0 bits, as docs/format.md prints it."""

EMPTY_ROOT = b"n0i4q0k9g7b97brr8llfhrt4pbb3qa1e\n"
"""The text of its root's reference, likewise."""

ABC = [(b"a", b"1"), (b"b", b"1"), (b"c", b"1")]


def done(name, pairs, bits=12, version=1, changes=None, words=None):
    """A record file that becomes a tree, written to a file."""
    words = ["--bits", str(bits), "--format", str(version)] if words is None else words
    return Case(
        f"scratch: {name}",
        ["scratch", *words, "--out", "out.prl"],
        records(pairs if changes is None else changes),
        out=root_text(pairs, bits, version),
        after={"out.prl": chunk_file(pairs, bits, version)},
    )


def refused(name, content, line, status=3, **more):
    """A record file that is refused, after which there is no file for the tree."""
    return Case(
        f"scratch: {name}",
        ["scratch", "--bits", "0", "--out", "out.prl"],
        content,
        status=status,
        err=b"prolly: " + line + b"\n",
        **more,
    )


def numbered(count):
    """Pairs of 38 bytes whose keys rise."""
    return [(number.to_bytes(16, "big"), b"\x5a" * 16) for number in range(count)]


def many_removals(path, further=b""):
    """A file of 16,777,216 records, which remove all keys of three bytes, and a further record."""
    low = b"".join(record(number.to_bytes(3, "big"), REMOVED) for number in range(65_536))
    with open(path, "wb") as file:
        for high in range(256):
            block = bytearray(low)
            block[2::9] = bytes([high]) * 65_536
            file.write(block)
        file.write(further)
    return path


def million(path):
    """A file of a million records of 38 bytes."""
    path.write_bytes(records(numbered(1_000_000)))
    return path


def twins(path):
    """A file of 1,073,741,824 zero bytes, which begins with the empty key twice."""
    with open(path, "wb") as file:
        file.truncate(1_073_741_824)
    return path


def too_long(path):
    """A file of a byte more."""
    with open(path, "wb") as file:
        file.truncate(1_073_741_825)
    return path


def cases(scratch_folder):
    """All cases; files too large for a case's text are made in the folder."""
    return small_cases() + device_cases() + large_cases(scratch_folder)


def small_cases():
    """Trees and record files of a few records."""
    greatest = [(b"k" * 1024, b"v" * 65536)]
    numbers = numbered(3_000)
    return [
        Case("scratch: the empty map", ["scratch", "--bits", "0"], out=EMPTY_ROOT),
        Case(
            "scratch: the empty map, as printed in the format",
            ["scratch", "--bits", "0", "--out", "out.prl"],
            out=EMPTY_ROOT,
            after={"out.prl": EMPTY_FILE},
        ),
        done("the empty map in format 2", [], 0, 2),
        done("one pair, of 53 bytes", ABC[:1], 0),
        done("two pairs, of 127 bytes", ABC[:2], 0),
        done("three pairs, of 234 bytes", ABC, 0),
        done("three pairs in format 2, of 274 bytes", ABC, 0, 2),
        done("the defaults", ABC, words=[]),
        done("24 bits", ABC, 24),
        done("a level of chunks of two sizes", numbers, 4),
        done("a tree of several levels", numbers, 2),
        done("a tree of several levels in format 2", numbers, 2, 2),
        done("the empty key with an empty value", [(b"", b"")], 0),
        done("a key and a value of the greatest length", greatest, 0),
        done("keys of which one begins the next", [(b"a", b"1"), (b"a\0", b"1"), (b"ab", b"1")], 0),
        done("bytes above 127", [(b"\x7f", b"1"), (b"\x80", b"1"), (b"\xff", b"1")], 0),
        done("a removal leaves no pair", [], 0, changes=[(b"a", REMOVED)]),
        done("pairs among removals", ABC[1:2], 0, changes=[(b"a", REMOVED), ABC[1], (b"c", REMOVED)]),
        refused("one byte", b"\0", b"file 0: record 0 is cut"),
        refused("a key that is cut", b"\0\1", b"file 0: record 0 is cut"),
        refused("a value's length that is cut", b"\0\1a\0\0", b"file 0: record 0 is cut"),
        refused("a value that is cut", b"\0\1a\0\0\0\x021", b"file 0: record 0 is cut"),
        refused("the second record is cut", records(ABC[:1]) + b"\0", b"file 0: record 1 is cut"),
        refused("a key of 1,025 bytes", b"\x04\x01", b"file 0: record 0: key too long"),
        refused("a value of 65,537 bytes", b"\0\0\0\1\0\1", b"file 0: record 0: value too long"),
        refused("a length next to that of a removal", b"\0\1a\xff\xff\xff\xfe", b"file 0: record 0: value too long"),
        refused("an equal key", records([(b"a", b"1"), (b"a", b"2")]), b"file 0: record 1: key out of order"),
        refused("a smaller key", records([*ABC, (b"b", b"2")]), b"file 0: record 3: key out of order"),
        refused("a removal and then its key", records([(b"a", REMOVED), (b"a", b"1")]), b"file 0: record 1: key out of order"),
        refused("lines of text", b"61 31\n", b"file 0: record 0: key too long"),
        Case(
            "scratch: a file that is there is replaced",
            ["scratch", "--bits", "0", "--out", "out.prl"],
            out=EMPTY_ROOT,
            before={"out.prl": chunk_file(ABC, 0)},
            after={"out.prl": EMPTY_FILE},
        ),
    ]


def device_cases():
    """Inputs and outputs that fail."""
    no_write = b"prolly: write failed\n"
    return [
        refused("an input that can't be read", Path("."), b"file 0: read failed", status=5),
        refused("a closed input", None, b"file 0: read failed", status=5),
        refused("not enough memory", records(numbered(100_000)), b"out of memory", status=6, memory=12_000_000),
        Case("scratch: standard output is full", ["scratch"], status=5, err=no_write, stdout="full"),
        Case("scratch: standard output is closed", ["scratch"], status=5, err=no_write, stdout="closed"),
        Case("scratch: nobody reads standard output", ["scratch"], status=5, err=no_write, stdout="unread"),
        Case(
            "scratch: a closed standard output is no file to write to",
            ["scratch", "--bits", "0", "--out", "out.prl"],
            status=5,
            err=no_write,
            after={"out.prl": EMPTY_FILE},
            stdout="closed",
        ),
        Case(
            "scratch: a fault is no matter of standard output",
            ["scratch"],
            b"\0",
            status=3,
            err=b"prolly: file 0: record 0 is cut\n",
            stdout="full",
        ),
        Case(
            "scratch: a full device for the tree",
            ["scratch", "--out", "/dev/full"],
            status=5,
            err=no_write,
        ),
        Case(
            "scratch: a folder for the tree",
            ["scratch", "--out", "folder"],
            status=5,
            err=b"prolly: cannot open folder\n",
            before={"folder": FOLDER},
        ),
        Case(
            "scratch: the tree in a folder that is not there",
            ["scratch", "--out", "none/out.prl"],
            b"\0",
            status=5,
            err=b"prolly: cannot open none/out.prl\n",
        ),
    ]


def large_cases(folder):
    """Inputs at the limits, and a million records."""
    pairs = numbered(1_000_000)
    over = record(b"\xff\xff\xff\0", REMOVED)
    return [
        Case(
            "scratch: a million records",
            ["scratch", "--out", "out.prl"],
            million(folder / "million"),
            out=root_text(pairs),
            after={"out.prl": chunk_file(pairs)},
        ),
        Case(
            "scratch: 16,777,216 records",
            ["scratch", "--bits", "0"],
            many_removals(folder / "removals"),
            out=EMPTY_ROOT,
        ),
        refused("16,777,217 records", many_removals(folder / "more", over), b"file 0: too many records"),
        Case(
            "explain: 16,777,217 records",
            ["explain", str(folder / "more")],
            status=1,
            out=b"record 16777216 at byte 150994944: too many records\nthe key before: ffffff\n",
        ),
        Case("stat: 16,777,217 records", ["stat", str(folder / "more")], status=3, err=b"prolly: file 0: too many records\n"),
        refused("1,073,741,824 bytes are read", twins(folder / "twins"), b"file 0: record 1: key out of order"),
        refused("1,073,741,825 bytes", too_long(folder / "longer"), b"input too long", status=5),
    ]
