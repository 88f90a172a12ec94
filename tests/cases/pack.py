"""`pack`: lines of text to a record file."""

from pathlib import Path

from oracle.trees import REMOVED, record, records
from support.harness import FOLDER, Case


def done(name, text, changes):
    """A text that is packed."""
    return Case(
        f"pack: {name}",
        ["pack", "out.rec"],
        text,
        out=b"%d\n" % len(changes),
        after={"out.rec": records(changes)},
    )


def refused(name, text, line, status=3, **more):
    """A text that is not, after which no OUT is there."""
    return Case(
        f"pack: {name}",
        ["pack", "out.rec"],
        text,
        status=status,
        err=b"prolly: " + line + b"\n",
        **more,
    )


BAD = b"line 0: not a pair in hexadecimal"


def cases(scratch_folder):
    """All cases; files too large for a case's text are made in the folder."""
    long_key, long_value = b"k" * 1024, b"v" * 65536
    sparse = scratch_folder / "too_long"
    with open(sparse, "wb") as file:
        file.truncate(1_073_741_825)
    return [
        done("no line", b"", []),
        done("two pairs", b"61 31\n62 32\n", [(b"a", b"1"), (b"b", b"2")]),
        done("a last line without a newline", b"61 31\n62 32", [(b"a", b"1"), (b"b", b"2")]),
        done("an empty key and an empty value", b" \n", [(b"", b"")]),
        done("an empty value", b"61 \n", [(b"a", b"")]),
        done("a removal", b"61 -\n", [(b"a", REMOVED)]),
        done("a removal of the empty key", b" -\n", [(b"", REMOVED)]),
        done("both cases of digits", b"6aFF 6A\n", [(b"j\xff", b"j")]),
        done("keys that do not rise", b"62 31\n61 31\n61 31\n", [(b"b", b"1"), (b"a", b"1"), (b"a", b"1")]),
        done("a key and a value of the greatest length", long_key.hex().encode() + b" " + long_value.hex().encode(), [(long_key, long_value)]),
        refused("a line without a space", b"61\n", BAD),
        refused("a blank line", b"\n", BAD),
        refused("a carriage return", b"61 31\r\n", BAD),
        refused("two spaces", b"61  31\n", BAD),
        refused("a space at the end", b"61 31 \n", BAD),
        refused("an odd number of digits", b"61 313\n", BAD),
        refused("a letter that is no digit", b"6g 31\n", BAD),
        refused("a dash for a key", b"- 31\n", BAD),
        refused("two dashes", b"61 --\n", BAD),
        refused("a byte that is no text", b"\xff 31\n", BAD),
        refused("a blank line behind good ones", b"61 31\n62 32\n\n", b"line 2: not a pair in hexadecimal"),
        refused("the first of two bad lines", b"61 31\n62\n63\n", b"line 1: not a pair in hexadecimal"),
        refused("a key of 1,025 bytes", b"61" * 1025 + b" 31\n", b"line 0: key too long"),
        refused("a removal of a key of 1,025 bytes", b"61 31\n" + b"61" * 1025 + b" -\n", b"line 1: key too long"),
        refused("a value of 65,537 bytes", b"61 " + b"31" * 65537, b"line 0: value too long"),
        refused("a key that is too long, and a value that is none", b"61" * 1025 + b" zz\n", BAD),
        refused("a key that is too long, in a line before a bad one", b"61" * 1025 + b" 31\nzz\n", b"line 0: key too long"),
        refused("both too long", b"61" * 1025 + b" " + b"31" * 65537, b"line 0: key too long"),
        refused("an input that can't be read", Path("."), b"file 0: read failed", status=5),
        refused("a closed input", None, b"file 0: read failed", status=5),
        refused("an input that is too long", sparse, b"input too long", status=5),
        refused("not enough memory", b"61 31\n" * 4_000_000, b"out of memory", status=6, memory=24_000_000),
        Case(
            "pack: a file that is there is replaced",
            ["pack", "out.rec"],
            b"61 31\n",
            out=b"1\n",
            before={"out.rec": record(b"before", b"1")},
            after={"out.rec": record(b"a", b"1")},
        ),
        Case(
            "pack: OUT is as it was after a fault",
            ["pack", "out.rec"],
            b"61\n",
            status=3,
            err=b"prolly: " + BAD + b"\n",
            before={"out.rec": record(b"before", b"1")},
        ),
        Case(
            "pack: OUT in a folder that is not there",
            ["pack", "none/out.rec"],
            b"61 31\n",
            status=5,
            err=b"prolly: cannot open none/out.rec\n",
        ),
        Case(
            "pack: OUT is a folder",
            ["pack", "folder"],
            b"61 31\n",
            status=5,
            err=b"prolly: cannot open folder\n",
            before={"folder": FOLDER},
        ),
        Case(
            "pack: OUT has no name",
            ["pack", ""],
            b"61 31\n",
            status=5,
            err=b"prolly: cannot open \n",
        ),
        Case(
            "pack: OUT is a full device",
            ["pack", "/dev/full"],
            b"61 31\n",
            status=5,
            err=b"prolly: write failed\n",
        ),
        Case(
            "pack: standard output is full",
            ["pack", "out.rec"],
            b"61 31\n",
            status=5,
            err=b"prolly: write failed\n",
            after={"out.rec": record(b"a", b"1")},
            stdout="full",
        ),
        Case(
            "pack: a closed standard error is no file to write to",
            ["pack", "out.rec"],
            b"61\n",
            status=3,
            stderr="closed",
        ),
    ]
