"""`--chunk-bytes` of `scratch` and `build`: the bits that are taken, and the line that says which."""

from cases.scratch import ABC, numbered
from oracle.readings import read
from oracle.trees import REMOVED, chunk_file, overlay, record, records, reference_text, report, tree
from support.harness import FOLDER, Case

SAMPLE_BYTES = 1_000_000
"""How many bytes of record files are looked at, at most."""

WANTED = (1, 20, 100, 4_096, 65_536, 1_073_741_824)
"""Bytes that a chunk is to have."""

MIXED = [(b"a", b"1"), (b"b", REMOVED), (b"c", b"2" * 300), (b"d", REMOVED), (b"e", b"")]


def chosen(contents, wanted):
    """The bits for these record files, and the line that says which: of the sizes 2^Q times the mean, Q from 2 on, the first
    one that is at least wanted / 1.4."""
    left, sizes = SAMPLE_BYTES, []
    for content in contents:
        front = content[:left]
        left -= len(front)
        sizes += [len(record(key, value)) for key, value in read(front).changes if value is not REMOVED]
    if not sizes:
        return 12, b"prolly: --bits 12, since no record was seen\n"
    mean = sum(sizes) // len(sizes)
    bits = next((bits for bits in range(2, 24) if wanted * 10 <= mean * 2**bits * 14), 24)
    return bits, f"prolly: --bits {bits}, since a record has {mean} bytes on average\n".encode()


def cases(_):
    """All cases."""
    return [case for wanted in WANTED for case in (*scratched(wanted), *built(wanted))] + [*sampled(), *faults(), *outputs()]


def scratched(wanted):
    """Trees of one record file."""
    kinds = {"no record": [], "three records": ABC, "records and removals": MIXED, "removals": [(b"a", REMOVED), (b"b", REMOVED)], "3,000 records": numbered(3_000)}
    for name, changes in kinds.items():
        pairs, (bits, line) = overlay([changes]), chosen([records(changes)], wanted)
        yield Case(
            f"scratch --chunk-bytes {wanted}: {name}",
            ["scratch", "--chunk-bytes", str(wanted), "--out", "out.prl"],
            input=records(changes),
            out=reference_text(tree(pairs, bits, 1).reference).encode() + b"\n",
            err=line,
            after={"out.prl": chunk_file(pairs, bits)},
        )


def made(name, files, wanted, words=(), pipe=False):
    """Lists of changes that become a tree, the first of them from standard input if it is to be a pipe."""
    contents = [records(file) for file in files]
    pairs, (bits, line) = overlay(files), chosen(contents, wanted)
    named = {f"{number}.rec": content for number, content in enumerate(contents)}
    names = ["/dev/stdin", *list(named)[1:]] if pipe else list(named)
    return Case(
        f"build --chunk-bytes {wanted}: {name}",
        ["build", "--chunk-bytes", str(wanted), *words, "out.prl", *names],
        input=contents[0] if pipe else b"",
        out=report(pairs, bits),
        err=line,
        before=named,
        after={"out.prl": chunk_file(pairs, bits)},
    )


def built(wanted):
    """Trees of several record files, none of which is opened twice."""
    numbers = numbered(2_000)
    halves = [numbers[0::2], [(key, b"longer" * 9) for key, _ in numbers[1::2]]]
    yield made("no file", [], wanted, ["--quiet"])
    yield made("an empty file and one of three records", [[], ABC], wanted)
    yield made("two files", halves, wanted)
    yield made("two files, the first from a pipe", halves, wanted, pipe=True)
    yield made("two files with --atomic", halves, wanted, ["--atomic"])


def sampled():
    """Files of which no more than the first megabyte counts."""
    short = [(f"{number:08}".encode(), b"v" * 16) for number in range(33_000)]
    long = [(f"9{number:08}".encode(), b"v" * 60_000) for number in range(20)]
    yield made("records that are longer behind a megabyte", [[*short, *long]], 4_096)
    yield made("a second file that is longer than the first", [short, long], 4_096)
    yield made("a second file of which nothing is seen", [[*short, (b"9", b"v" * 30_000)], long], 4_096)
    yield made("a long record over the end of a megabyte", [long, short], 1_048_576)


def faults():
    """A record file that is at fault behind some good records: the line comes first, and then the fault."""
    good = records(ABC)
    for name, content, fault in (
        ("cut", good[:-1], b"record 2 is cut"),
        ("out of order", good + record(b"a", b"1"), b"record 3: key out of order"),
        ("at fault from the start", b"\xff\xff", b"record 0: key too long"),
    ):
        _, line = chosen([content], 4_096)
        err = line + b"prolly: file 0: " + fault + b"\n"
        yield Case(f"scratch --chunk-bytes: {name}", ["scratch", "--chunk-bytes", "4096"], input=content, status=3, err=err)
    yield Case("scratch --chunk-bytes: standard input is closed", ["scratch", "--chunk-bytes", "4096"], input=None, status=5, err=b"prolly: file 0: read failed\n")
    yield Case(
        "build --chunk-bytes: no second file",
        ["build", "--chunk-bytes", "4096", "out.prl", "in.rec", "none.rec"],
        status=5,
        err=b"prolly: cannot open none.rec\n",
        before={"in.rec": good},
    )
    yield Case(
        "build --chunk-bytes: a folder for the second of two, and OUT is as it was",
        ["build", "--chunk-bytes", "4096", "out.prl", "in.rec", "folder"],
        status=5,
        err=b"prolly: file 1: read failed\n",
        before={"in.rec": good, "folder": FOLDER, "out.prl": chunk_file(ABC, 0)},
    )


def outputs():
    """Where standard error is closed the line is lost, and the tree is made."""
    bits, _ = chosen([records(ABC)], 20)
    yield Case(
        "scratch --chunk-bytes: standard error is closed",
        ["scratch", "--chunk-bytes", "20"],
        input=records(ABC),
        out=reference_text(tree(ABC, bits, 1).reference).encode() + b"\n",
        stderr="closed",
    )
