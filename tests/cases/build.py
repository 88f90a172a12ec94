"""`build`: the chunk file of record files, by threads."""

from cases.scratch import ABC, many_removals, numbered
from oracle.trees import END_SIZE, REMOVED, begun_file, chunk_file, header, overlay, record, records, report, tall_file
from support.harness import FOLDER, Case

NO_FILE = header(12, 1)
"""What lies in OUT where a fault came before the first chunk."""

FIVE = [(bytes([key]), b"1") for key in b"abcde"]

ONE = [(b"a", b"1")]

EDGES = [(1, 1), (1, 1_024), (2, 3), (64, 16), (4_096, 1), (4_096, 1_024)]
"""Capacities and batches."""


def named(files):
    """Names for files, each with its content."""
    return {f"{number}.rec": content for number, content in enumerate(files)}


def options(**numbers):
    """The words of options."""
    return [word for name, number in numbers.items() for word in (f"--{name.replace('_', '-')}", str(number))]


def done(name, files, bits=0, version=1, **numbers):
    """Lists of changes that become a tree."""
    pairs = overlay(files)
    contents = named([records(file) for file in files])
    return Case(
        f"build: {name}",
        ["build", *options(bits=bits, format=version, **numbers), "out.prl", *contents],
        out=report(pairs, bits, version),
        before=contents,
        after={"out.prl": chunk_file(pairs, bits, version)},
    )


def refused(name, contents, line, left, status=3, bits=0, **numbers):
    """Record files that are refused, and what is then left in OUT."""
    contents = named(contents)
    return Case(
        f"build: {name}",
        ["build", *options(bits=bits, **numbers), "out.prl", *contents],
        status=status,
        err=b"prolly: " + line + b"\n",
        before=contents,
        after={"out.prl": left},
    )


def cases(folder):
    """All cases; files too large for a case's text are made in the folder."""
    return trees() + faults() + named_faults() + limits() + names(folder) + devices() + scarce() + large(folder)


def trees():
    """Files that become a tree."""
    numbers = numbered(3_000)
    halves = [numbers[0::2], numbers[1::2]]
    sixteen = [numbers[place::16] for place in range(16)]
    removals = [(key, REMOVED) for key, _ in numbers[1::3]]
    return [
        done("no file", []),
        done("an empty file", [[]]),
        done("16 empty files", [[]] * 16),
        done("one pair", [ONE]),
        done("two pairs", [ABC[:2]]),
        done("three pairs", [ABC]),
        done("three pairs in format 2", [ABC], version=2),
        done("the defaults", [ABC], bits=12),
        done("five pairs in one file", [FIVE]),
        done("five pairs in three files", [[FIVE[0], FIVE[3]], [FIVE[1]], [FIVE[2], FIVE[4]]]),
        done("a later file wins a key", [[(b"a", b"0"), (b"c", b"0"), (b"e", b"0")], FIVE]),
        done("the last of three files wins a key", [[(b"a", b"1"), (b"c", b"1")], [(b"b", b"2")], [(b"a", b"3")]]),
        done("a removal takes a key away", [FIVE, [(b"c", REMOVED)]]),
        done("a key that is removed and put again", [ONE, [(b"a", REMOVED)], [(b"a", b"2")]]),
        done("a removal of a key that is not there", [FIVE, [(b"bb", REMOVED)]]),
        done("all keys removed", [FIVE, [(key, REMOVED) for key, _ in FIVE]]),
        done("a removal in a lower merger wins over the first file", [ONE, [], [(b"a", REMOVED)], []]),
        done("a key and a value of the greatest length", [[(b"k" * 1024, b"")], [(b"k", b"v" * 65536)]]),
        done("keys of which one begins the next", [[(b"a", b"1"), (b"a\0", b"1")], [(b"", b""), (b"ab", b"1")]]),
        done("two halves", halves, bits=4),
        done("16 files", sixteen, bits=2),
        done("15 files", sixteen[:15], bits=2),
        done("pairs and removals of 16 files", [*sixteen[:15], removals], bits=3),
        done("24 bits", [ABC], bits=24),
        *(done(f"a link of {c} messages of {b} items", sixteen[:5], bits=1, capacity=c, batch=b) for c, b in EDGES),
        *(done(f"{c} messages of {b} items, one file", [numbers], bits=2, capacity=c, batch=b) for c, b in EDGES),
        done("the options' greatest numbers", [ABC], 24, 2, stages=12, capacity=4_096, max_records=16_777_216, batch=1_024),
        done("one stage, where one level is enough", [ONE], stages=1),
        done("two stages, where two levels are", [ABC[:2]], stages=2),
        done("three stages, where three levels are", [ABC], stages=3),
        done("as many records as are allowed", [ABC, ABC], max_records=3),
        Case(
            "build: a file given twice",
            ["build", "--bits", "0", "out.prl", "0.rec", "0.rec"],
            out=report(ABC, 0),
            before=named([records(ABC)]),
            after={"out.prl": chunk_file(ABC, 0)},
        ),
        Case(
            "build: a file that is there is replaced",
            ["build", "--bits", "0", "out.prl", "0.rec"],
            out=report([], 0),
            before={"out.prl": chunk_file(FIVE, 0), "0.rec": b""},
            after={"out.prl": chunk_file([], 0)},
        ),
    ]


def faults():
    """Each fault of a record file, alone."""
    start = header(0, 1)
    out_of_order = records([(b"a", b"1"), (b"a", b"2")])
    return [
        refused("one byte", [b"\0"], b"file 0: record 0 is cut", start),
        refused("a key that is cut", [b"\0\1"], b"file 0: record 0 is cut", start),
        refused("a value's length that is cut", [b"\0\1a\0\0"], b"file 0: record 0 is cut", start),
        refused("a value that is cut", [b"\0\1a\0\0\0\x021"], b"file 0: record 0 is cut", start),
        refused("a key of 1,025 bytes", [b"\x04\x01"], b"file 0: record 0: key too long", start),
        refused("a value of 65,537 bytes", [b"\0\0\0\1\0\1"], b"file 0: record 0: value too long", start),
        refused("a length next to that of a removal", [b"\0\1a\xff\xff\xff\xfe"], b"file 0: record 0: value too long", start),
        refused("an equal key", [out_of_order], b"file 0: record 1: key out of order", begun_file(ONE, 0)),
        refused("a smaller key", [records([*ABC, (b"b", b"2")])], b"file 0: record 3: key out of order", begun_file(ABC, 0)),
        refused(
            "too many records",
            [records(ABC)],
            b"file 0: too many records",
            begun_file(ABC[:2], 0),
            max_records=2,
        ),
        refused(
            "too many records, though the next one is cut",
            [records(ABC[:2]) + b"\0"],
            b"file 0: too many records",
            begun_file(ABC[:2], 0),
            max_records=2,
        ),
        refused("lines of text", [b"61 31\n"], b"file 0: record 0: key too long", start),
        refused(
            "a fault behind more chunks than stages have room for",
            [records([*FIVE[:4], FIVE[3]])],
            b"file 0: record 4: key out of order",
            begun_file(FIVE[:4], 0, stages=2),
            stages=2,
        ),
        refused("a chunk that is not closed is left out", [records(ABC) + b"\0"], b"file 0: record 3 is cut", header(24, 1), bits=24),
    ]


def cut_behind(*keys):
    """A record file of these keys, in which a further record is cut."""
    return records([(key, b"1") for key in keys]) + b"\0"


def named_faults():
    """Which fault is named where several files have one."""
    good = records([(b"1", b"1"), (b"2", b"1"), (b"7", b"1")])
    out_of_order = records([(b"5", b"1"), (b"3", b"1")])
    return [
        refused(
            "smaller keys of another file come first",
            [out_of_order, good],
            b"file 0: record 1: key out of order",
            begun_file([(b"1", b"1"), (b"2", b"1"), (b"5", b"1")], 0),
        ),
        refused(
            "of two faults behind one key the first file's",
            [out_of_order, out_of_order],
            b"file 0: record 1: key out of order",
            begun_file([(b"5", b"1")], 0),
        ),
        refused(
            "of two faults that behind the lesser key",
            [cut_behind(b"c"), cut_behind(b"a", b"b")],
            b"file 1: record 2 is cut",
            begun_file([(b"a", b"1"), (b"b", b"1")], 0),
        ),
        refused(
            "a fault before all keys",
            [records(FIVE), b"\0"],
            b"file 1: record 0 is cut",
            header(0, 1),
        ),
        refused(
            "the fault of the last of 16 files",
            [records(FIVE)] * 15 + [cut_behind(b"b")],
            b"file 15: record 1 is cut",
            begun_file(FIVE[:2], 0),
        ),
        refused(
            "a removal before a fault takes its key away",
            [records(FIVE), records([(b"b", REMOVED)]) + b"\0"],
            b"file 1: record 1 is cut",
            begun_file(FIVE[:1], 0),
        ),
        refused(
            "a fault through lower mergers",
            [records(FIVE[:1]), records(FIVE[1:2]), cut_behind(b"c"), records(FIVE[3:])],
            b"file 2: record 1 is cut",
            begun_file([(b"a", b"1"), (b"b", b"1"), (b"c", b"1")], 0),
        ),
    ]


def limits():
    """Trees that are too tall, and more files than are read."""
    tall = b"tree too tall"
    return [
        refused("three levels and two stages", [records(ABC)], tall, tall_file(ABC, 0, stages=2), status=7, stages=2),
        refused("two levels and one stage", [records(ABC[:2])], tall, tall_file(ABC[:2], 0, stages=1), status=7, stages=1),
        refused("a tall tree of two files", [records(FIVE), records(ABC)], tall, tall_file(FIVE, 0, stages=3), status=7, stages=3),
        *(
            Case(
                f"build: 17 files {kind}",
                ["build", "out.prl", *named([content] * 17)],
                status=3,
                err=b"prolly: too many files\n",
                before={**named([content] * 17), "out.prl": b"before"},
            )
            for kind, content in (("of a pair", records(ONE)), ("with faults", b"\0"))
        ),
    ]


def names(folder):
    """Files by other names, and numbers in other forms."""
    content = records(ABC)
    on_disk = folder / "abc.rec"
    on_disk.write_bytes(content)
    whole, told = chunk_file(ABC, 0), report(ABC, 0)
    strange = ["a b.rec", "ü 漢.rec", "quo'te\".rec"]
    return [
        Case("build: OUT is the null device", ["build", "--bits", "0", "/dev/null", "0.rec"], out=told, before={"0.rec": content}),
        Case(
            "build: a record file on a pipe",
            ["build", "--bits", "0", "out.prl", "/dev/stdin"],
            content,
            out=told,
            after={"out.prl": whole},
        ),
        Case(
            "build: a record file on standard input",
            ["build", "--bits", "0", "out.prl", "/dev/stdin"],
            on_disk,
            out=told,
            after={"out.prl": whole},
        ),
        *(
            Case(f"build: the name {name}", ["build", "--bits", "0", f"{name}.prl", name], out=told, before={name: content}, after={f"{name}.prl": whole})
            for name in strange
        ),
        Case(
            "build: names that begin with a dash",
            ["build", "--bits", "0", "--", "-out.prl", "-0.rec", "--bits"],
            out=told,
            before={"-0.rec": content, "--bits": content},
            after={"-out.prl": whole},
        ),
        *(
            Case(f"build: {' '.join(words)}", ["build", *words, "out.prl", "0.rec"], out=report(ABC, 4), before={"0.rec": content}, after={"out.prl": chunk_file(ABC, 4)})
            for words in (["--bits=4"], ["--bits", "04"], ["--bits", "+4"])
        ),
    ]


def devices():
    """Files that can't be opened or made, and outputs that fail."""
    no_write = b"prolly: write failed\n"
    three = named([records(ABC)])
    return [
        Case(
            "build: a file that is not there",
            ["build", "out.prl", "0.rec", "none.rec"],
            status=5,
            err=b"prolly: cannot open none.rec\n",
            before=three,
        ),
        Case(
            "build: of two files that are not there the first",
            ["build", "none/out.prl", "first.rec", "second.rec"],
            status=5,
            err=b"prolly: cannot open first.rec\n",
        ),
        Case(
            "build: OUT stays as it was where a file can't be opened",
            ["build", "out.prl", "none.rec"],
            status=5,
            err=b"prolly: cannot open none.rec\n",
            before={"out.prl": b"before"},
        ),
        Case(
            "build: OUT in a folder that is not there",
            ["build", "none/out.prl", "0.rec"],
            status=5,
            err=b"prolly: cannot open none/out.prl\n",
            before=three,
        ),
        Case(
            "build: OUT is a folder",
            ["build", "folder", "0.rec"],
            status=5,
            err=b"prolly: cannot open folder\n",
            before={**three, "folder": FOLDER},
        ),
        Case(
            "build: a folder for a record file",
            ["build", "out.prl", "folder"],
            status=5,
            err=b"prolly: file 0: read failed\n",
            before={"folder": FOLDER},
            after={"out.prl": NO_FILE},
        ),
        Case(
            "build: a folder for the second of two",
            ["build", "--bits", "0", "out.prl", "0.rec", "folder"],
            status=5,
            err=b"prolly: file 1: read failed\n",
            before={**three, "folder": FOLDER},
            after={"out.prl": header(0, 1)},
        ),
        Case("build: a full device for the tree", ["build", "/dev/full", "0.rec"], status=5, err=no_write, before=three),
        Case(
            "build: a full device before a tree that is too tall",
            ["build", "--bits", "0", "--stages", "1", "/dev/full", "0.rec"],
            status=5,
            err=no_write,
            before=three,
        ),
        Case(
            "build: a fault of a file before that of a full device",
            ["build", "/dev/full", "0.rec"],
            status=3,
            err=b"prolly: file 0: record 0 is cut\n",
            before=named([b"\0"]),
        ),
        Case(
            "build: standard output is full",
            ["build", "--bits", "0", "out.prl", "0.rec"],
            status=5,
            err=no_write,
            before=three,
            after={"out.prl": chunk_file(ABC, 0)},
            stdout="full",
        ),
        Case(
            "build: a closed standard input is no matter",
            ["build", "--bits", "0", "out.prl", "0.rec"],
            None,
            out=report(ABC, 0),
            before=three,
            after={"out.prl": chunk_file(ABC, 0)},
        ),
        Case(
            "build: too little memory for a thread",
            ["build", "out.prl", "0.rec"],
            status=6,
            err=b"prolly: a thread could not be started\n",
            before=three,
            memory=6_000_000,
        ),
        Case(
            "build: too little memory for the links",
            ["build", "--capacity", "4096", "out.prl", *named([b""] * 16)],
            status=6,
            err=b"prolly: out of memory\n",
            before=named([b""] * 16),
            memory=8_000_000,
        ),
    ]


def scarce():
    """Builds in so little memory that a thread can't be had, or, here or there, a worker is refused what it needs."""
    pairs = [(number.to_bytes(2, "big"), bytes([number % 251]) * 60_000) for number in range(600)]
    before = named([records(pairs[0::2]), records(pairs[1::2])])
    whole = chunk_file(pairs, 4)
    return [
        Case(
            f"build: {megabytes} megabytes of memory",
            ["build", "--bits", "4", "out.prl", *before],
            out=report(pairs, 4),
            before=before,
            after={"out.prl": whole},
            memory=megabytes * 1_000_000,
            unfinished={"out.prl": whole[:-END_SIZE]},
        )
        for megabytes in range(10, 310, 20)
    ]


def large(folder):
    """A million records in three files, and as many records as a file may have."""
    pairs = numbered(1_000_000)
    files = [pairs[0::2], pairs[1::2], [(key, b"later") for key, _ in pairs[0::1_000]]]
    one_more = many_removals(folder / "removals of a build", record(b"\xff\xff\xff\0", REMOVED))
    return [
        done("a million records in three files", files, bits=12),
        refused(
            "16,777,217 records",
            [one_more.read_bytes()],
            b"file 0: too many records",
            header(0, 1),
        ),
    ]
