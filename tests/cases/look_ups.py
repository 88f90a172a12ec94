"""`check`, `get`, `scan` and `nth`: reading a chunk file."""

from cases.scratch import ABC, EMPTY_FILE, numbered
from oracle.trees import chunk_file, frame, header, record, reference, reference_text, tree
from support.harness import FOLDER, Case, hexed, line

NUMBERS = numbered(3_000)

LONG = [(b"k" * 1024, b"v" * 65536)]


def accepted(name, pairs, bits=0, version=1):
    """A file that is lawful."""
    top = tree(pairs, bits, version)
    out = f"ok {reference_text(top.reference)} {bits} {len(list(top.trees()))}\n"
    return Case(
        f"check: {name}",
        ["check", "in.prl"],
        out=out.encode(),
        before={"in.prl": chunk_file(pairs, bits, version)},
    )


def refused(name, content, why, status=4, words=("check", "in.prl")):
    """A file that is refused, by any command."""
    return Case(f"{words[0]}: {name}", list(words), status=status, err=b"prolly: " + why + b"\n", before={"in.prl": content})


def found(name, words, pairs, out, bits=0, version=1, status=0):
    """A look-up in a lawful file."""
    return Case(
        f"{words[0]}: {name}",
        [words[0], "in.prl", *words[1:]],
        status=status,
        out=out,
        before={"in.prl": chunk_file(pairs, bits, version)},
    )


def assembled(chunks, root, bits=0, version=1, count=None):
    """Chunks put into a file, with an end record that names any root and any number."""
    number = len(chunks) if count is None else count
    return header(bits, version) + b"".join(frame(chunk) for chunk in chunks) + b"E" + root + number.to_bytes(8, "big")


def leaf(*pairs):
    """A chunk of pairs, whether or not they are to be cut there."""
    return b"\0" + b"".join(record(key, value) for key, value in pairs)


def cases(folder):
    """All cases; files too large for a case's text are made in the folder."""
    return lawful() + damaged() + unread() + gets() + raws() + scans() + places() + large(folder)


def lawful():
    """Files that `check` accepts."""
    return [
        accepted("the empty map", []),
        accepted("the empty map in format 2", [], 0, 2),
        accepted("one pair", ABC[:1]),
        accepted("two pairs", ABC[:2]),
        accepted("three pairs", ABC),
        accepted("three pairs in format 2", ABC, 0, 2),
        accepted("24 bits", ABC, 24),
        accepted("3,000 pairs", NUMBERS, 4),
        accepted("3,000 pairs in format 2", NUMBERS, 2, 2),
        accepted("a key and a value of the greatest length", LONG),
        accepted("the empty key", [(b"", b"")]),
        Case("check: the printed file", ["check", "in.prl"], out=b"ok n0i4q0k9g7b97brr8llfhrt4pbb3qa1e 0 1\n", before={"in.prl": EMPTY_FILE}),
    ]


def damaged():
    """Files that `check` refuses, by each of its faults."""
    good = chunk_file(ABC, 0)
    parts = [part.chunk for part in tree(ABC, 0, 1).trees()]
    root = reference(parts[-1])
    two = leaf(*ABC[:2])
    turned = leaf(ABC[1], ABC[0])
    swapped = [parts[0], parts[2], parts[1], *parts[3:]]
    changed = good[:-1] + bytes([good[-1] ^ 1])
    return [
        refused("no bytes", b"", b"chunk file: truncated"),
        refused("a header that is cut", b"PRL", b"chunk file: truncated"),
        refused("another letter", b"PQ", b"chunk file: bad header"),
        refused("format 3", b"PRLY\3\0", b"chunk file: bad header"),
        refused("format 0", b"PRLY\0\0", b"chunk file: bad header"),
        refused("25 bits", b"PRLY\1\x19", b"chunk file: bad header"),
        refused("a header alone", header(0, 1), b"chunk file: truncated"),
        refused("a header of format 2 alone", header(0, 2), b"chunk file: truncated"),
        refused("a record file", b"\0\1a\0\0\0\0011", b"chunk file: bad header"),
        refused("another frame", header(0, 1) + b"D", b"chunk file: bad frame 0"),
        refused("another frame behind the first", header(0, 1) + frame(parts[0]) + b"D", b"chunk file: bad frame 1"),
        refused("a length that is cut", header(0, 1) + b"C\0\0", b"chunk file: truncated"),
        refused("the greatest length", header(0, 1) + b"C" + b"\xff" * 8, b"chunk file: truncated"),
        refused("a chunk that is cut", good[:20], b"chunk file: truncated"),
        refused("an end record that is cut", good[:-1], b"chunk file: truncated"),
        refused("a byte more", good + b"\0", b"chunk file: bytes after the end"),
        refused("a file twice", good + good, b"chunk file: bytes after the end"),
        refused("a chunk without bytes", assembled([b""], root), b"chunk file: bad chunk 0"),
        refused("a level byte and half an entry", assembled([b"\0\0"], root), b"chunk file: bad chunk 0"),
        refused("an entry that is cut", assembled([parts[0][:-1]], root), b"chunk file: bad chunk 0"),
        refused("a removal in a leaf", assembled([b"\0\0\1a\xff\xff\xff\xff"], root), b"chunk file: bad chunk 0"),
        refused("a key that is too long", assembled([b"\0\x04\x01" + b"k" * 1025 + b"\0\0\0\0"], root), b"chunk file: bad chunk 0"),
        refused("format 2 made of format 1", header(0, 2) + good[6:], b"chunk file: bad chunk 2"),
        refused("keys in another order", assembled([turned], reference(turned)), b"chunk file: keys out of order in chunk 0"),
        refused("an equal key", assembled([leaf(ABC[0], ABC[0])], root), b"chunk file: keys out of order in chunk 0"),
        refused(
            "a key of the chunk before",
            assembled([parts[0], parts[0]], root),
            b"chunk file: keys out of order in chunk 1",
        ),
        refused("a leaf that is not cut", assembled([two], reference(two)), b"chunk file: chunk 0 is not canonical"),
        refused("chunks in another order", assembled(swapped, root), b"chunk file: chunk 1 is not canonical"),
        refused("an empty leaf among others", assembled([parts[0], b"\0", *parts[1:]], root), b"chunk file: chunk 1 is not canonical"),
        refused("no chunk", assembled([], root), b"chunk file: chunk 0 is not canonical"),
        refused("the root is missing", assembled(parts[:-1], root), b"chunk file: chunk 5 is not canonical"),
        refused("a chunk more", assembled([*parts, parts[-1]], root), b"chunk file: chunk 6 is not canonical"),
        refused("another value below", good.replace(b"b\0\0\0\0011", b"b\0\0\0\0012"), b"chunk file: chunk 2 is not canonical"),
        refused("other bits", header(24, 1) + good[6:], b"chunk file: chunk 0 is not canonical"),
        refused("another root", assembled(parts, reference(b"")), b"chunk file: bad end record"),
        refused("another number of chunks", assembled(parts, root, count=7), b"chunk file: bad end record"),
        refused("the last bit turned", changed, b"chunk file: bad end record"),
    ]


def unread():
    """Files that can't be opened or read, for each command."""
    words = [["check", "in"], ["get", "in", "61"], ["scan", "in", "", "1"], ["nth", "in", "0"], ["dump", "in"]]
    cut = chunk_file(ABC, 0)[:-1]
    return (
        [Case(f"{w[0]}: a file that is not there", w, status=5, err=b"prolly: cannot open in\n") for w in words]
        + [Case(f"{w[0]}: a folder", w, status=5, err=b"prolly: chunk file: read failed\n", before={"in": FOLDER}) for w in words]
        + [Case(f"{w[0]}: a file that is cut", w, status=4, err=b"prolly: chunk file: truncated\n", before={"in": cut}) for w in words]
        + [
            Case(
                f"{w[0]}: standard output is full",
                w,
                status=5,
                err=b"prolly: write failed\n",
                before={"in": chunk_file(ABC, 0, 2)},
                stdout="full",
            )
            for w in words
        ]
        + [
            Case(
                f"{w[0]}: too little memory",
                w,
                status=6,
                err=b"prolly: out of memory\n",
                before={"in": chunk_file(numbered(100_000), 12, 2)},
                memory=6_000_000,
            )
            for w in words
        ]
    )


def gets():
    """Values of keys."""
    return [
        found("the first key", ["get", "61"], ABC, b"31\n"),
        found("the last key", ["get", "63"], ABC, b"31\n"),
        found("upper case", ["get", "6B" * 1024], LONG, b"76" * 65536 + b"\n"),
        found("a key that begins another", ["get", ""], ABC, b"", status=1),
        found("a key between", ["get", "6200"], ABC, b"", status=1),
        found("a key behind all", ["get", "7a"], ABC, b"", status=1),
        found("any key of the empty map", ["get", "61"], [], b"", status=1),
        found("the empty key", ["get", ""], [(b"", b"x"), *ABC], b"78\n"),
        found("an empty value", ["get", "61"], [(b"a", b"")], b"\n"),
        found("a key through several levels", ["get", NUMBERS[1234][0].hex()], NUMBERS, b"5a" * 16 + b"\n", bits=2),
        found("the same in format 2", ["get", NUMBERS[2999][0].hex()], NUMBERS, b"5a" * 16 + b"\n", bits=2, version=2),
        found("a key of the greatest length that is not there", ["get", "61" * 1024], ABC, b"", status=1),
    ]


EVERY_BYTE = bytes(range(256))
"""A value of each byte."""


def raws():
    """Values as they are, of a checked file and by its root."""
    pairs = [(b"a", EVERY_BYTE), (b"b", b""), (b"c", b"\n"), (b"d", b"v" * 65_536)]
    wanted = [("61", EVERY_BYTE, 0), ("62", b"", 0), ("63", b"\n", 0), ("64", b"v" * 65_536, 0), ("65", b"", 1), ("", b"", 1)]
    cases = []
    for version in (1, 2):
        root = ["--root", reference_text(tree(pairs, 0, version).reference), "--format", str(version)]
        for key, value, status in wanted:
            for words in ([], root):
                cases.append(found(f"{' '.join(words[:1])} --raw, {key!r} in format {version}", ["get", key, "--raw", *words], pairs, value, version=version, status=status))
    cases += [
        found("--raw --text", ["get", "a", "--raw", "--text"], pairs, EVERY_BYTE),
        found("--raw --text, an escape", ["get", "\\x61", "--text", "--raw"], pairs, EVERY_BYTE),
        refused("--raw, a file that is cut", chunk_file(ABC, 0)[:-1], b"chunk file: truncated", words=("get", "--raw", "in.prl", "61")),
        refused("--raw, another root", chunk_file(ABC, 0), b"chunk file: chunk 5 is not the one referred to", words=("get", "--raw", "--root", "0" * 32, "in.prl", "61")),
    ]
    return cases


def scans():
    """Pairs from a key on."""
    lines = [line(pair) for pair in NUMBERS]
    first = NUMBERS[1000][0].hex()
    return [
        found("all pairs", ["scan", "", "10"], ABC, b"".join(map(line, ABC))),
        found("one pair", ["scan", "62", "1"], ABC, line(ABC[1])),
        found("from a key on", ["scan", "62", "5"], ABC, line(ABC[1]) + line(ABC[2])),
        found("from between two keys", ["scan", "6100", "5"], ABC, line(ABC[1]) + line(ABC[2])),
        found("from behind all keys", ["scan", "64", "5"], ABC, b""),
        found("no pair", ["scan", "", "0"], ABC, b""),
        found("the empty map", ["scan", "", "1000000"], [], b""),
        found("1,000 pairs from the middle", ["scan", first, "1000"], NUMBERS, b"".join(lines[1000:2000]), bits=2),
        found("to the end", ["scan", first, "1000000"], NUMBERS, b"".join(lines[1000:]), bits=3),
        found("in format 2", ["scan", first, "7"], NUMBERS, b"".join(lines[1000:1007]), bits=2, version=2),
        found("a pair of the greatest length", ["scan", "", "1"], LONG, line(LONG[0])),
        found("from the greatest key", ["scan", "ff" * 1024, "1"], ABC, b""),
    ]


def places():
    """Pairs by their numbers."""
    last = line(NUMBERS[2999])
    return [
        found("the first pair", ["nth", "0"], ABC, line(ABC[0]), version=2),
        found("the last pair", ["nth", "2"], ABC, line(ABC[2]), version=2),
        found("past the last pair", ["nth", "3"], ABC, b"", version=2, status=1),
        found("far past the last pair", ["nth", "4294967295"], ABC, b"", version=2, status=1),
        found("of the empty map", ["nth", "0"], [], b"", version=2, status=1),
        found("through several levels", ["nth", "1234"], NUMBERS, line(NUMBERS[1234]), bits=2, version=2),
        found("the last of 3,000", ["nth", "2999"], NUMBERS, last, bits=1, version=2),
        refused("format 1", chunk_file(ABC, 0), b"chunk file: no counts", words=("nth", "in.prl", "0")),
        refused("the empty map in format 1", chunk_file([], 0), b"chunk file: no counts", words=("nth", "in.prl", "7")),
    ]


def large(folder):
    """A file of more than 100 MB, and a file of more bytes than are read."""
    pairs = [(number.to_bytes(8, "big"), bytes(1_000)) for number in range(100_000)]
    big = folder / "big.prl"
    big.write_bytes(chunk_file(pairs, 12, 2))
    top = tree(pairs, 12, 2)
    longer = folder / "longer.prl"
    with open(longer, "wb") as file:
        file.truncate(1_073_741_825)
    root = reference_text(top.reference)
    return [
        Case("check: a file of 100 MB", ["check", str(big)], out=f"ok {root} 12 {len(list(top.trees()))}\n".encode()),
        Case("get: in 100 MB", ["get", str(big), pairs[77_777][0].hex()], out=hexed(bytes(1_000)) + b"\n"),
        Case("scan: in 100 MB", ["scan", str(big), pairs[99_998][0].hex(), "9"], out=line(pairs[99_998]) + line(pairs[99_999])),
        Case("nth: in 100 MB", ["nth", str(big), "50000"], out=line(pairs[50_000])),
        Case("check: 1,073,741,825 bytes", ["check", str(longer)], status=4, err=b"prolly: chunk file: too long\n"),
    ]
