"""`apply`: the next chunk file from the last one and record files of changes, and what it says of files that are at fault."""

import random

from cases.build import named
from cases.by_root_words import READ_FAILED
from cases.diffs_by_root import of_old, with_byte_turned, with_frames_moved
from cases.dumps import chained
from cases.random_runs import changes, record_file
from cases.scratch import ABC, numbered
from oracle.checker import HEADER_SIZE
from oracle.proof import TRUNCATED
from oracle.trees import REMOVED, chunk_file, header, overlay, records, reference_text, report, root_text
from support.applied import applied
from support.by_root import Kind, random_pairs
from support.harness import FOLDER, Case

WRONG_BITS = b"prolly: the bits are not those of the tree\n"

OTHER_HEADER = b"prolly: OLD has other --bits or another --format\n"

CHANGES_LIMIT = 15

RANDOM_RUNS = 2_000

SPOILED = 80
"""Old files in which a byte of a chunk is turned, and as many in which frames stand in another order."""

TESTED_LEAVES = 40
"""Of so many leaves of the old tree each pair is tested for a boundary."""


def cases(_):
    """All cases of one run."""
    return shaped() + of_any_kind(random.Random(53)) + words() + refused()


# ---- trees and changes


def shaped():
    """Changes of each kind over trees of several bits, in both formats."""
    found = []
    for bits, version, count in ((0, 1, 7), (1, 2, 60), (2, 1, 200), (4, 2, 900), (12, 1, 50), (24, 2, 3), (0, 2, 0), (12, 1, 0)):
        kind = Kind(numbered(count), bits, version)
        for name, files in changes_of(kind):
            found.append(applied(f"{name}, {count} pairs, --bits {bits}, format {version}", kind, [records(file) for file in files]))
    return found


def changes_of(kind):
    """Lists of changes to a tree, with a name."""
    keys = [key for key, _ in kind.pairs]
    yield "no file", []
    yield "an empty file", [[]]
    yield "fifteen empty files", [[]] * CHANGES_LIMIT
    yield "a key before the first", [[(b"", b"first")]]
    yield "a key behind the last", [[(b"\xff" * 9, b"last")]]
    yield "a removal of a key that is not there", [[(b"\xff", REMOVED)]]
    yield "all keys removed", [[(key, REMOVED) for key in keys]]
    yield "all keys removed, and one put", [[(key, REMOVED) for key in keys], [(b"one", b"1")]]
    yield "all values changed", [[(key, b"new") for key in keys]]
    yield "all pairs put again", [kind.pairs]
    yield "a pair of the greatest length", [[(b"n" * 1_024, b"v" * 65_536)]]
    if not keys:
        return
    middle = keys[len(keys) // 2]
    yield "one value changed", [[(middle, b"new")]]
    yield "one key removed", [[(middle, REMOVED)]]
    yield "one key put behind another", [[(middle + b"\0", b"new")]]
    yield "the first key removed", [[(keys[0], REMOVED)]]
    yield "the last key removed", [[(keys[-1], REMOVED)]]
    yield "a later file wins", [[(middle, b"1")], [(middle, REMOVED)], [(middle, b"3")]]
    yield "a later removal wins", [[(middle, b"1"), (keys[-1], b"2")], [], [(middle, REMOVED)]]
    leaves = leaves_of(kind)
    for place in {0, len(leaves) // 2, len(leaves) - 1}:
        last = leaves[place][-1]
        yield f"the boundary of leaf {place} removed", [[(last, REMOVED)]]
        yield f"the boundary of leaf {place} changed", [[(last, b"another value")]]
        yield f"leaf {place} removed", [[(key, REMOVED) for key in leaves[place]]]


def leaves_of(kind):
    """The keys of each leaf."""
    found, at = [], 0
    for part in kind.top.trees():
        if part.level == 0:
            found.append([key for key, _ in kind.pairs[at : at + part.count]])
            at += part.count
    return found


def of_any_kind(chance):
    """Random trees and random files, of which some are at fault."""
    found = []
    for number in range(RANDOM_RUNS):
        count = chance.choice([0, 1, 2, 5, 30, 120])
        pairs = overlay([changes(chance)]) if chance.random() < 0.5 else random_pairs(chance, count)
        kind = Kind(pairs, chance.choice([0, 0, 1, 1, 2, 3, 5, 12]), chance.choice([1, 2]))
        contents = [some_file(chance, kind) for _ in range(chance.choice([0, 1, 1, 1, 2, 3, 5, CHANGES_LIMIT]))]
        flags = [flag for flag in ("--quiet", "--sync") if chance.random() < 0.1]
        found.append(applied(f"random, number {number}", kind, contents, *flags))
    return found


def some_file(chance, kind):
    """A record file: of random changes, or of changes to the keys that are there."""
    if chance.random() < 0.5 or not kind.pairs:
        return record_file(chance)
    asked = chance.sample(kind.pairs, chance.randrange(1, min(len(kind.pairs), 20) + 1))
    return records(sorted((key, chance.choice([REMOVED, value, b"new", value + b"!"])) for key, value in asked))


# ---- words, and what is refused


def words():
    """Words that are given, or at fault."""
    kind = Kind(ABC, 1, 2)
    contents = [records([(b"b", b"2")])]
    laid = named(contents) | {"old.prl": kind.content}
    root = reference_text(kind.root)
    files = ["old.prl", "out.prl", "0.rec"]
    found = [
        applied("the bits and the format that OLD says", kind, contents, "--bits", "1", "--format", "2"),
        Case("apply: other bits", ["apply", "--root", root, "--bits", "2", *files], status=3, err=OTHER_HEADER, before=laid),
        Case("apply: the default bits are not assumed", ["apply", "--root", root, "--bits", "12", *files], status=3, err=OTHER_HEADER, before=laid),
        Case("apply: another format", ["apply", "--root", root, "--format", "1", *files], status=3, err=OTHER_HEADER, before=laid),
        Case("apply: a root that is none", ["apply", "--root", "0", "none", "nor", "any"], status=2, err=b"prolly: not the text of a root\n"),
        Case("apply: sixteen files", ["apply", "--root", root, "old.prl", "out.prl", *["0.rec"] * 16], status=3, err=b"prolly: too many files\n", before=laid),
        Case("apply: no OLD", ["apply", "--root", root, "none", "out.prl"], status=5, err=b"prolly: cannot open none\n"),
        Case("apply: no file of changes", ["apply", "--root", root, "old.prl", "out.prl", "none"], status=5, err=b"prolly: cannot open none\n", before=laid),
        Case("apply: OUT is OLD", ["apply", "--root", root, "old.prl", "old.prl", "0.rec"], status=5, err=b"prolly: OUT is also an input: old.prl\n", before=laid),
        Case("apply: OUT is among the changes", ["apply", "--root", root, "old.prl", "0.rec", "0.rec"], status=5, err=b"prolly: OUT is also an input: 0.rec\n", before=laid),
        Case("apply: OUT is left out", ["apply", "--root", root, "old.prl", "0.rec"], status=5, err=b"prolly: OUT is not a chunk file: 0.rec\n", before=laid),
        Case("apply: no changes, and OUT has bytes", ["apply", "--root", root, "old.prl", "out.prl"], status=5, err=b"prolly: OUT is not empty, and no files are named after it: out.prl\n", before=laid | {"out.prl": kind.content}),
        Case("apply: to a full device", ["apply", "--root", root, "old.prl", "/dev/full", "0.rec"], status=5, err=b"prolly: write failed\n", before=laid),
    ]
    pairs = overlay([kind.pairs, [(b"b", b"2")]])
    new = {"out.prl": chunk_file(pairs, 1, 2)}
    replaced = laid | {"out.prl": chunk_file(ABC, 0, 1)}
    found.append(Case("apply: OUT is replaced", ["apply", "--root", root, *files], out=report(pairs, 1, 2), before=replaced, after=new))
    found.append(Case("apply: OUT is replaced at once", ["apply", "--atomic", "--sync", "--root", root, *files], out=report(pairs, 1, 2), before=replaced, after=new))
    return found


def refused():
    """Old files that are at fault, or of another tree."""
    kind = Kind(ABC, 0, 1)
    changed = records([(b"b", b"2")])
    root = reference_text(kind.root)
    start = {"out.prl": header(0, 1)}

    def of(name, content, line, status=4, after=start, asked=root):
        laid = {"old.prl": content, "0.rec": changed}
        return Case(f"apply: {name}", ["apply", "--root", asked, "old.prl", "out.prl", "0.rec"], status=status, err=line, before=laid, after=after)

    other, last = root_text([], 0).decode().strip(), f"chunk {len(kind.chunks) - 1} is not the one referred to"
    return [
        of("OLD is a record file", records(ABC), of_old("bad header"), after={}),
        of("OLD is empty", b"", of_old(TRUNCATED), after={}),
        of("OLD is a header", kind.content[:HEADER_SIZE], of_old(TRUNCATED)),
        of("OLD is cut", kind.content[:-1], of_old(TRUNCATED)),
        of("OLD is a folder", FOLDER, b"prolly: old " + READ_FAILED.removeprefix(b"prolly: "), status=5, after={}),
        of("OLD is of another root", kind.content, of_old(last), asked=other),
        of("OLD is of the other format", chunk_file(ABC, 0, 2), of_old(last), after={"out.prl": header(0, 2)}),
    ]


# ---- old files that were changed


def all_runs(program, _):
    """Runs over old files of which a part was changed: they are refused, or what was changed does not count."""
    yield "apply: old files that were changed", chained(program, spoiled)
    yield "apply: headers that lie", chained(program, lying)
    yield "apply: back and forth", chained(program, goes_back)


def spoiled(place):
    """Each byte behind the header counts, or is never read; nothing wrong is ever made."""
    chance = random.Random(55)
    for number in range(SPOILED):
        kind = Kind(numbered(chance.choice((3, 40, 200))), chance.choice((0, 1, 2)), chance.choice((1, 2)))
        contents = [records([(b"\xff", b"!")])]
        right = applied("", kind, contents)
        for spoil in (with_byte_turned, with_frames_moved):
            place.lay(old_prl=spoil(kind, chance), **{"0_rec": contents[0]})
            status, out, err = place.run(*right.words)
            made = place.path("out.prl").read_bytes()
            if status == 0 and (out, made) != (right.out, right.after["out.prl"]):
                place.note(f"number {number}: a wrong tree was made")
            if status == 4 and not (out == b"" and err.startswith(b"prolly: old chunk file: ")):
                place.note(f"number {number}: {out!r} {err!r}")
            if status not in (0, 4):
                place.note(f"number {number}: status {status}, {err!r}")
            if status and place.run("check", "out.prl")[0] != 4:
                place.note(f"number {number}: what was left looks whole")
            place.path("out.prl").unlink()


def lying(place):
    """Headers that say other bits than the tree was cut by: they are refused where the leaves are not cut by these, too."""
    chance = random.Random(54)
    for number in range(60):
        kind = Kind(numbered(chance.choice([2, 9, 30, 60])), chance.choice([0, 1, 2, 3]), 1)
        bits = chance.choice([bits for bits in range(6) if bits != kind.bits])
        leaves = leaves_of(kind)
        if len(leaves) > TESTED_LEAVES or leaves == leaves_of(Kind(kind.pairs, bits, 1)):
            continue
        place.lay(old_prl=kind.content[: HEADER_SIZE - 1] + bytes([bits]) + kind.content[HEADER_SIZE:], a_rec=records([(b"\xff", b"!")]))
        place.answers(place.run("apply", "--root", reference_text(kind.root), "old.prl", "out.prl", "a.rec"), (3, b"", WRONG_BITS))
        if place.run("check", "out.prl")[0] != 4:
            place.note(f"number {number}: what was left looks whole")
        place.path("out.prl").unlink()


def goes_back(place):
    """A difference is applied, and the other way round it leads back."""
    chance = random.Random(56)
    for bits, version in ((0, 1), (2, 2), (4, 1)):
        old = numbered(300)
        new = overlay([old, changes(chance), [(key, b"new") for key, _ in chance.sample(old, 5)]])
        kinds = [Kind(pairs, bits, version) for pairs in (old, sorted(new))]
        place.lay(old_prl=kinds[0].content, new_prl=kinds[1].content)
        for names, before, after in ((("old", "new"), *kinds), (("new", "old"), *reversed(kinds))):
            place.run("diff", f"{names[0]}.prl", f"{names[1]}.prl", "--out", "d.rec", "--force")
            place.answers(place.run("apply", "--root", reference_text(before.root), f"{names[0]}.prl", "made.prl", "d.rec"), (0, report(after.pairs, bits, version), b""))
            if place.path("made.prl").read_bytes() != after.content:
                place.note(f"{names} at --bits {bits}: another file")
