"""`stat` and `explain`: what a chunk file and a record file hold, in numbers, and where a record file is not good."""

import json
import random

from cases.dumps import kinds
from cases.look_ups import LONG
from cases.scratch import ABC, EMPTY_FILE, numbered
from oracle.escapes import escaped
from oracle.readings import read
from oracle.trees import REMOVED, chunk_file, record, records, reference_text, tree
from support.harness import FOLDER, Case, hexed

WIDTHS = (5, 12, 12, 14, 12, 12, 12)
"""How wide the columns of a table are."""

HEADING = ("level", "chunks", "entries", "bytes", "least", "middle", "greatest")

SHOWN_BYTES = 64
"""How many bytes of a key are shown where a record is explained."""

MIXED = [(b"\t\xff", b"1"), (b"New York", REMOVED), ("é".encode(), b"")]
"""Records whose keys are written otherwise in either notation."""

FLAWED = {
    "cut in the first length": b"\0",
    "cut behind the first length": b"\0\1",
    "cut in the key": record(b"abc", b"")[:4],
    "cut in the second length": record(b"abc", b"")[:7],
    "cut in the value": record(b"abc", b"12")[:-1],
    "a key that is too long": record(b"k" * 1_025, b""),
    "the beginning of a chunk file": EMPTY_FILE,
    "a value that is too long": record(b"zebra", b"v" * 65_537),
    "a value that is too long, of a long key": record(b"z" * 65, b"v" * 65_537),
    "the length of a value that is too long, and no value": b"\0\1z\0\1\0\1",
    "the key before once more": record(b"c", b"2"),
    "a key out of order": record(b"b", b"2"),
    "a removal out of order": record(b"", REMOVED),
    "a long key out of order": record(b"a" * 1_024, b"2"),
    "a key of 64 bytes out of order": record(b"a" * 64, b"2"),
    "a key of 65 bytes out of order": record(b"a" * 65, b"2"),
    "a key out of order that is no text": record(b"a\xff\t\\\n", b"2"),
    "a character that is parted": record(b"a" * 63 + "é".encode(), b"2"),
}
"""What stands behind the good records of a file, and is none."""


# ---- a second writer of what is shown


def sizes_of(chunks):
    """The number of chunks, their bytes, and the sizes of the least, the middle and the greatest."""
    sizes = sorted(map(len, chunks))
    return len(sizes), sum(sizes), sizes[0], sizes[len(sizes) // 2], sizes[-1]


def levels_of(pairs, bits, version):
    """For each level, from the leaves on: its numbers, as the table has them."""
    top = tree(pairs, bits, version)
    by_level = [[part.chunk for part in top.trees() if part.level == level] for level in range(top.level + 1)]
    entries = [len(pairs), *map(len, by_level)]
    told = []
    for level, chunks in enumerate(by_level):
        count, size, least, middle, greatest = sizes_of(chunks)
        told.append((level, count, entries[level], size, least, middle, greatest))
    return told


def head_of(pairs, bits, version):
    """What stands above the table: names and what they are."""
    levels = levels_of(pairs, bits, version)
    return {
        "root": reference_text(tree(pairs, bits, version).reference),
        "format": version,
        "bits": bits,
        "pairs": len(pairs),
        "chunks": sum(level[1] for level in levels),
        "bytes": sum(level[3] for level in levels),
    }


def row(cells):
    """A row of a table."""
    return "".join(str(cell).rjust(width) for cell, width in zip(cells, WIDTHS, strict=True))


def table(pairs, bits, version):
    """What `stat` prints of a chunk file: a bar grows by one where the number of chunks doubles."""
    rows = [f"{row(level)}  {'#' * level[1].bit_length()}" for level in reversed(levels_of(pairs, bits, version))]
    head = [f"{name} {value}" for name, value in head_of(pairs, bits, version).items()]
    return "".join(f"{line}\n" for line in [*head, row(HEADING), *rows]).encode()


def as_json(told):
    """A line of JSON."""
    return json.dumps(told, separators=(",", ":")).encode() + b"\n"


def tree_json(pairs, bits, version):
    """What `stat --json` prints of a chunk file."""
    levels = [dict(zip(HEADING, level, strict=True)) for level in levels_of(pairs, bits, version)]
    return as_json(head_of(pairs, bits, version) | {"levels": levels})


def record_numbers(changes, notation):
    """What `stat` prints of a record file: names and what they are."""
    told = {"records": len(changes), "removals": sum(value is REMOVED for _, value in changes), "bytes": len(records(changes))}
    if changes:
        told |= {"first": notation(changes[0][0]).decode(), "last": notation(changes[-1][0]).decode()}
    return told


def record_lines(changes, notation):
    """The same as lines."""
    return "".join(f"{name} {value}\n" for name, value in record_numbers(changes, notation).items()).encode()


def explained(content, notation):
    """What `explain` prints of a record file."""
    reading = read(content)
    if reading.flaw is None:
        return b"ok %d\n" % len(reading.changes)
    offset = len(records(reading.changes))
    told = "is cut" if reading.flaw == "cut" else f": {reading.flaw}"
    lines = [f"record {len(reading.changes)} at byte {offset}{' ' if reading.flaw == 'cut' else ''}{told}".encode()]
    if reading.flaw in ("value too long", "key out of order"):
        rest = content[offset:]
        lines.append(b"its key: " + shortened(rest[2 : 2 + int.from_bytes(rest[:2], "big")], notation))
    if reading.changes:
        lines.append(b"the key before: " + shortened(reading.changes[-1][0], notation))
    return b"".join(line + b"\n" for line in lines)


def shortened(key, notation):
    """A key as it is shown: its first bytes, and how long it is where there are more."""
    more = b"... (%d bytes)" % len(key) if len(key) > SHOWN_BYTES else b""
    return notation(key[:SHOWN_BYTES]) + more


# ---- the cases


def cases(_):
    """All cases of one run."""
    return [
        *(case for kind in kinds() for case in tree_told(*kind)),
        *(case for name, changes in record_files().items() for case in records_told(name, changes)),
        *(case for name, content in flawed_files() for case in flaw_told(name, content)),
        *refused(),
        *short_files(),
    ]


def tree_told(name, pairs, bits, version):
    """A chunk file in numbers."""
    before = {"in.prl": chunk_file(pairs, bits, version)}
    return [
        Case(f"stat: {name}", ["stat", "in.prl"], out=table(pairs, bits, version), before=before),
        Case(f"stat --text: {name}", ["stat", "--text", "in.prl"], out=table(pairs, bits, version), before=before),
        Case(f"stat --json: {name}", ["stat", "--json", "in.prl"], out=tree_json(pairs, bits, version), before=before),
    ]


def record_files():
    """Record files that are good."""
    chance = random.Random(5)
    return {
        "no records": [],
        "the empty key": [(b"", b"")],
        "a removal": [(b"gone", REMOVED)],
        "three puts": ABC,
        "keys of many kinds": MIXED,
        "the longest key and value": LONG,
        "3,000 records, a third of them removals": [(key, REMOVED if chance.random() < 1 / 3 else value) for key, value in numbered(3_000)],
        "more than one read has": [(b"%06d" % number, bytes(chance.randrange(3_000))) for number in range(300)],
    }


def records_told(name, changes):
    """A good record file in numbers, and that there is nothing to explain."""
    before = {"in.rec": records(changes)}
    return [
        Case(f"stat: {name}", ["stat", "in.rec"], out=record_lines(changes, hexed), before=before),
        Case(f"stat --text: {name}", ["stat", "--text", "in.rec"], out=record_lines(changes, escaped), before=before),
        Case(f"stat --json: {name}", ["stat", "--json", "in.rec"], out=as_json(record_numbers(changes, hexed)), before=before),
        Case(f"explain: {name}", ["explain", "in.rec"], out=b"ok %d\n" % len(changes), before=before),
        Case(f"explain --text: {name}", ["explain", "--text", "in.rec"], out=b"ok %d\n" % len(changes), before=before),
    ]


def flawed_files():
    """Record files that are not good, behind no records, where that is a flaw, and behind some."""
    files = [(name, records(good) + flaw) for name, flaw in FLAWED.items() for good in ([], ABC)]
    return [(name, content) for name, content in files if read(content).flaw is not None]


def flaw_told(name, content):
    """A record file that is not good: it is explained, and has no numbers. One that begins as a chunk file does is none for
    `stat`."""
    name = f"{name}, behind {len(read(content).changes)} records"
    before, line = {"in.rec": content}, read(content).line(0)
    told = [
        Case(f"explain: {name}", ["explain", "in.rec"], status=1, out=explained(content, hexed), before=before),
        Case(f"explain --text: {name}", ["explain", "--text", "in.rec"], status=1, out=explained(content, escaped), before=before),
    ]
    if not content.startswith(b"PRLY"):
        told += [Case(f"{' '.join(words)}: {name}", [*words, "in.rec"], status=3, err=b"prolly: " + line + b"\n", before=before) for words in (["stat"], ["stat", "--json"])]
    return told


def refused():
    """Files that cannot be read, chunk files with a fault, and answers that cannot be printed."""
    whole, good = chunk_file(ABC, 0), {"in.rec": records(ABC)}
    truncated, unread = b"prolly: chunk file: truncated\n", b"prolly: file 0: read failed\n"
    no_write = b"prolly: write failed\n"
    return [
        Case("stat: a chunk file that is cut", ["stat", "in.prl"], status=4, err=truncated, before={"in.prl": whole[:-1]}),
        Case("stat --json: a chunk file that is cut", ["stat", "--json", "in.prl"], status=4, err=truncated, before={"in.prl": whole[:-1]}),
        Case("stat: four letters", ["stat", "in.prl"], status=4, err=truncated, before={"in.prl": b"PRLY"}),
        Case("stat: a bad header", ["stat", "in.prl"], status=4, err=b"prolly: chunk file: bad header\n", before={"in.prl": b"PRLY\0"}),
        Case("explain: a chunk file", ["explain", "in.prl"], status=1, out=b"record 0 at byte 0: key too long\n", before={"in.prl": whole}),
        *(Case(f"{word}: no file", [word, "in"], status=5, err=b"prolly: cannot open in\n") for word in ("stat", "explain")),
        *(Case(f"{word}: a folder", [word, "in"], status=5, err=unread, before={"in": FOLDER}) for word in ("stat", "explain")),
        *(Case(f"{word}: standard output is {kind}", [word, "in.rec"], status=5, err=no_write, before=good, stdout=kind) for word in ("stat", "explain") for kind in ("full", "closed")),
    ]


def short_files():
    """Files of fewer bytes than tell which kind they are."""
    return [
        Case(f"stat: {content!r}", ["stat", "in"], status=3, err=b"prolly: " + read(content).line(0) + b"\n", before={"in": content})
        for content in (b"P", b"PR", b"PRL", b"\0", b"\0\0\0")
    ]
