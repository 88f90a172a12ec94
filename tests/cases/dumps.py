"""`dump`: the pairs of a chunk file as a record file or as lines, and back."""

import tempfile
from pathlib import Path

from cases.look_ups import LONG, NUMBERS
from cases.scratch import ABC
from oracle.escapes import text_lines
from oracle.trees import REMOVED, chunk_file, overlay, record, records, report, root_text, tree
from support.by_root import words_of
from support.harness import FOLDER, Case, hexed
from support.place import Place

BEFORE = record(b"before", b"1")
"""A record file that was there before."""

LINES_BEFORE = b"what was there before\n"
"""Lines that were there before."""

FILES = {
    "the empty map": ([], 0),
    "the empty key": ([(b"", b""), *ABC], 0),
    "one pair": (ABC[:1], 0),
    "three pairs": (ABC, 0),
    "24 bits": (ABC, 24),
    "3,000 pairs": (NUMBERS, 12),
    "3,000 pairs, cut small": (NUMBERS, 1),
    "a key and a value of the greatest length": (LONG, 0),
}
"""Maps, and the bits by which their files are cut."""


def kinds():
    """Each map and its bits in both formats, with a name."""
    return [(f"{name} in format {version}", pairs, bits, version) for name, (pairs, bits) in FILES.items() for version in (1, 2)]


def cases(_):
    """All cases of one run."""
    return [case for kind in kinds() for case in written(*kind) + told(*kind)] + refused() + refused_lines("--hex", lines(ABC)) + refused_lines("--text", text_lines(ABC))


def written(name, pairs, bits, version):
    """A file whose record file is printed, and written; and both by the root."""
    before = {"in.prl": chunk_file(pairs, bits, version)}
    by_root = words_of("dump", tree(pairs, bits, version).reference, version, "in.prl")
    return [
        Case(f"dump --root: {name}", by_root, out=records(pairs), before=before),
        Case(f"dump --root: {name}, to a file", [*by_root, "out.rec"], before=before, after={"out.rec": records(pairs)}),
        Case(f"dump --root: {name}, to lines", [*by_root, "--hex"], out=lines(pairs), before=before),
        Case(f"dump --root: {name}, to lines of text", [*by_root, "--text"], out=text_lines(pairs), before=before),
        Case(f"dump: {name}", ["dump", "in.prl"], out=records(pairs), before=before),
        Case(f"dump: {name}, to a file", ["dump", "in.prl", "out.rec"], before=before, after={"out.rec": records(pairs)}),
    ]


def told(name, pairs, bits, version):
    """A file whose pairs are printed as lines, in hexadecimal and as text, and written."""
    before = {"in.prl": chunk_file(pairs, bits, version)}
    told_lines = [("--hex", lines(pairs)), ("--text", text_lines(pairs))]
    return [
        case
        for flag, text in told_lines
        for case in (
            Case(f"dump {flag}: {name}", ["dump", flag, "in.prl"], out=text, before=before),
            Case(f"dump {flag}: {name}, to a file", ["dump", "in.prl", "out.txt", flag], before=before, after={"out.txt": text}),
        )
    ]


def lines(changes):
    """Records as lines in hexadecimal, which `pack` reads."""
    return b"".join(hexed(key) + b" " + (b"-" if value is REMOVED else hexed(value)) + b"\n" for key, value in changes)


def refused():
    """Runs that have a fault."""
    good, cut = {"in.prl": chunk_file(ABC, 0)}, {"in.prl": chunk_file(ABC, 0)[:-1]}
    words = ["dump", "in.prl", "out.rec"]
    truncated = b"prolly: chunk file: truncated\n"
    no_write = b"prolly: write failed\n"
    return [
        Case("dump: OUT is as it was after a fault", words, status=4, err=truncated, before=cut | {"out.rec": BEFORE}),
        Case("dump: a record file", words, status=4, err=b"prolly: chunk file: bad header\n", before={"in.prl": records(ABC)}),
        Case("dump: no FILE, and OUT is as it was", words, status=5, err=b"prolly: cannot open in.prl\n", before={"out.rec": BEFORE}),
        Case("dump: OUT is a folder", ["dump", "in.prl", "out"], status=5, err=b"prolly: cannot open out\n", before=good | {"out": FOLDER}),
        Case("dump: OUT in a folder that is not there", ["dump", "in.prl", "none/out"], status=5, err=b"prolly: cannot open none/out\n", before=good),
        Case("dump: a folder, and OUT is as it was", words, status=5, err=b"prolly: chunk file: read failed\n", before={"in.prl": FOLDER, "out.rec": BEFORE}),
        Case("dump: OUT is a full device", ["dump", "in.prl", "/dev/full"], status=5, err=no_write, before=good),
        Case("dump: nobody reads", ["dump", "in.prl"], status=5, err=no_write, before=good, stdout="unread"),
        Case("dump: standard output is closed", ["dump", "in.prl"], status=5, err=no_write, before=good, stdout="closed"),
        Case("dump: nothing is printed", words, before=good, after={"out.rec": records(ABC)}, stdout="full"),
        Case("dump: flags without OUT", ["dump", "--atomic", "--sync", "in.prl"], out=records(ABC), before=good),
    ]


def refused_lines(flag, text):
    """Runs that print lines and have a fault, or whose flags say nothing. The lines are those of three pairs."""
    good, cut = {"in.prl": chunk_file(ABC, 0)}, {"in.prl": chunk_file(ABC, 0)[:-1]}
    words, name = ["dump", flag, "in.prl"], f"dump {flag}"
    truncated = b"prolly: chunk file: truncated\n"
    no_write = b"prolly: write failed\n"
    return [
        Case(f"{name}: a file that is cut", words, status=4, err=truncated, before=cut),
        Case(f"{name}: OUT is as it was after a fault", [*words, "out.txt"], status=4, err=truncated, before=cut | {"out.txt": LINES_BEFORE}),
        Case(f"{name}: OUT is as it was", [*words, "--atomic", "out.txt"], status=4, err=truncated, before=cut | {"out.txt": LINES_BEFORE}),
        Case(f"{name}: OUT is a full device", [*words, "/dev/full"], status=5, err=no_write, before=good),
        Case(f"{name}: nobody reads", words, status=5, err=no_write, before=good, stdout="unread"),
        Case(f"{name}: standard output is full", words, status=5, err=no_write, before=good, stdout="full"),
        Case(f"{name}: standard output is closed", words, status=5, err=no_write, before=good, stdout="closed"),
        Case(f"{name}: flags without OUT", [*words, "--atomic", "--sync"], out=text, before=good),
    ]


# ---- a dump is an input again


def makes_the_file(place, pairs, bits, version):
    """What was dumped makes the chunk file again, by `build` and by `scratch`."""
    whole = chunk_file(pairs, bits, version)
    place.lay(old_prl=whole)
    options = ["--bits", str(bits), "--format", str(version)]
    place.answers(place.run("dump", "old.prl", "old.rec"), (0, b"", b""))
    place.answers(place.run("build", *options, "new.prl", "old.rec"), (0, report(pairs, bits, version), b""))
    dumped = place.run("dump", "old.prl")[1]
    scratched = place.run("scratch", *options, "--out", "again.prl", stdin=dumped)
    place.answers(scratched, (0, root_text(pairs, bits, version), b""))
    place.holds(old_prl=whole, old_rec=records(pairs), new_prl=whole, again_prl=whole)


def takes_changes(place):
    """A tree, dumped, with the changes of a day."""
    today = [(b"a", None), (b"b", b"2"), (b"d", b"1")]
    changes = b"".join(record(*change) for change in today)
    place.lay(old_prl=chunk_file(ABC, 0), today_rec=changes)
    place.answers(place.run("dump", "old.prl", "old.rec"), (0, b"", b""))
    pairs = overlay([ABC, today])
    place.answers(place.run("build", "--bits", "0", "new.prl", "old.rec", "today.rec"), (0, report(pairs, 0), b""))
    place.holds(old_prl=None, old_rec=records(ABC), today_rec=changes, new_prl=chunk_file(pairs, 0))


def packs_to_the_record_file(place, pairs, bits, version):
    """The lines are those of `scan`, and packed they are the record file; so it is in both notations."""
    place.lay(in_prl=chunk_file(pairs, bits, version))
    for flag, notation in (("--hex", []), ("--text", ["--text"])):
        text = place.run("dump", flag, "in.prl")[1]
        place.answers(place.run("scan", *notation, "in.prl", "", "1000000"), (0, text, b""))
        place.answers(place.run("pack", *notation, "packed.rec", stdin=text), (0, b"%d\n" % len(pairs), b""))
        place.holds(in_prl=None, packed_rec=records(pairs))


def has_no_limit(place):
    """More lines than `scan` prints."""
    pairs = [(number.to_bytes(3, "big"), b"") for number in range(1_000_001)]
    place.lay(in_rec=records(pairs))
    place.answers(place.run("build", "in.prl", "in.rec"), (0, None, b""))
    place.answers(place.run("dump", "--hex", "in.prl"), (0, lines(pairs), b""))
    place.answers(place.run("dump", "--text", "in.prl"), (0, text_lines(pairs), b""))


def all_runs(program, _):
    """Runs the chains, each in a folder of its own, and gives for each its name and its differences."""
    for name, *kind in kinds():
        yield f"dump, and again: {name}", chained(program, lambda place, kind=kind: makes_the_file(place, *kind))
        yield f"dump to lines, and pack: {name}", chained(program, lambda place, kind=kind: packs_to_the_record_file(place, *kind))
    yield "dump, and changes", chained(program, takes_changes)
    yield "dump to lines, 1,000,001 pairs", chained(program, has_no_limit)


def chained(program, test):
    """The differences of a chain."""
    with tempfile.TemporaryDirectory() as folder:
        place = Place(program, None, Path(folder))
        test(place)
        return place.differences
