"""`diff` by the roots: what it prints, how much that is, what it reads, and what it says of files that are not those of the roots."""

import random

from cases.by_root_words import FAR, READ_FAILED
from cases.diffs import DIFFERENT, changed, counted, difference, pairs_of_maps, stat_line, told
from cases.dumps import BEFORE, chained, lines
from cases.proofs import BAD_ROOT
from cases.scratch import ABC, numbered
from oracle.checker import HEADER_SIZE, Fault
from oracle.escapes import text_lines
from oracle.proof import FRAME_SIZE, TRUNCATED, WRONG_VERSION
from oracle.reader import frames_of
from oracle.trees import chunk_file, records, reference, reference_text, tree
from oracle.walker import Walk
from support.by_root import Kind, turned
from support.harness import FOLDER, Case

LONE_ROOT = b"prolly: one of --old-root and --new-root is missing\n"

SPOILED = 90
"""Pairs of files in which a byte of a chunk is turned, and as many in which frames stand in another order."""

MANY_PAIRS = ((6, 1_000_000, 30), (4, 30_000, 40))
"""Bits, numbers of pairs, and how many chunks of each file ten changed values are to cost at most."""


def by_roots(old_root, new_root, version):
    """The options that name the roots."""
    return ["--old-root", reference_text(old_root), "--new-root", reference_text(new_root), *(["--format", "2"] if version == 2 else [])]


def kinds():
    """The bits of two files, and the format of both."""
    return [(2, 2, 1), (0, 0, 2), (12, 3, 1), (0, 4, 2), (1, 1, 1)]


def cases(_):
    """All cases of one run."""
    return found() + words() + refused() + spoiled(random.Random(52))


def found():
    """What is printed, written and counted of pairs of maps."""
    all_cases = []
    for name, old, new in pairs_of_maps():
        for old_bits, new_bits, version in kinds():
            before, after = Kind(old, old_bits, version), Kind(new, new_bits, version)
            options = by_roots(before.root, after.root, version)
            kind = f"{name}, --bits {old_bits} and {new_bits}, format {version}, by the roots"
            laid = {"old.prl": before.content, "new.prl": after.content}
            changes = difference(old, new)
            assert list(Walk(before.content, after.content, before.root, after.root, version).changes()) == changes, kind
            line = stat_line(old, new, (old_bits, version), (new_bits, version))
            all_cases += told(kind, laid, changes, options) + counted(kind, laid, changes, line, options)
    return all_cases


def words():
    """Words that are refused, or ignored, and where they stand."""
    old, new = Kind(ABC, 0, 1), Kind(ABC[1:], 0, 1)
    both = {"old.prl": old.content, "new.prl": new.content}
    old_root, new_root = reference_text(old.root), reference_text(new.root)
    changes = lines(difference(ABC, ABC[1:]))
    files = ["old.prl", "new.prl"]
    twos = {name: chunk_file(pairs, 0, 2) for name, pairs in (("old.prl", ABC), ("new.prl", ABC[1:]))}
    two_roots = by_roots(tree(ABC, 0, 2).reference, tree(ABC[1:], 0, 2).reference, 1)
    all_cases = [
        Case("diff: behind the files", ["diff", *files, "--new-root", new_root, "--old-root", old_root], status=1, out=changes, before=both),
        Case("diff: with equals signs", ["diff", f"--old-root={old_root}", *files, f"--new-root={new_root}", "--format=1"], status=1, out=changes, before=both),
        Case("diff: --format is ignored without roots", ["diff", "--format", "2", *files], status=1, out=changes, before=both),
        Case("diff: the default is format 1", ["diff", *two_roots, *files], status=4, err=of_old(WRONG_VERSION), before=twos),
        Case("diff: the old root alone", ["diff", "--old-root", old_root, *files], status=2, err=LONE_ROOT, before=both),
        Case("diff: the new root alone", ["diff", "--new-root", new_root, *files], status=2, err=LONE_ROOT, before=both),
        Case("diff: a bad root alone", ["diff", "--new-root", "0", "none", "none"], status=2, err=LONE_ROOT),
        Case("diff: no files to the roots", ["diff", *by_roots(old.root, new.root, 1), "none", "nor"], status=5, err=b"prolly: cannot open none\n"),
    ]
    for bad in ("", "0", old_root[:-1], old_root + "0", old_root.upper()):
        for given in ([bad, new_root], [old_root, bad], [bad, bad]):
            options = ["--old-root", given[0], "--new-root", given[1]]
            all_cases.append(Case(f"diff: the roots {given}", ["diff", *options, "none", "nor"], status=2, err=BAD_ROOT))
    return all_cases


def refused():
    """Files and outputs that are at fault."""
    old, new = Kind(ABC, 0, 1), Kind(ABC[1:], 0, 1)
    both = {"old.prl": old.content, "new.prl": new.content}
    files = ["diff", *by_roots(old.root, new.root, 1), "old.prl", "new.prl"]
    out = [*files, "--out", "d.rec"]
    changes, no_write = difference(ABC, ABC[1:]), b"prolly: write failed\n"
    read_failed = READ_FAILED.removeprefix(b"prolly: ")
    return [
        Case("diff by the roots: OLD is cut", files, status=4, err=of_old(TRUNCATED), before=both | {"old.prl": old.content[:-1]}),
        Case("diff by the roots: NEW is cut", files, status=4, err=of_new(TRUNCATED), before=both | {"new.prl": new.content[:-1]}),
        Case("diff by the roots: both are cut", files, status=4, err=of_old(TRUNCATED), before={"old.prl": old.content[:-1], "new.prl": new.content[:-1]}),
        Case("diff by the roots: NEW is a record file", files, status=4, err=of_new("bad header"), before=both | {"new.prl": records(ABC)}),
        Case("diff by the roots: OLD is a folder", files, status=5, err=b"prolly: old " + read_failed, before=both | {"old.prl": FOLDER}),
        Case("diff by the roots: NEW is a folder", files, status=5, err=b"prolly: new " + read_failed, before=both | {"new.prl": FOLDER}),
        Case("diff by the roots: OUT is OLD", [*files, "--out", "old.prl"], status=5, err=b"prolly: OUT is also an input: old.prl\n", before=both),
        Case("diff by the roots: OUT is NEW", [*files, "--out", "new.prl"], status=5, err=b"prolly: OUT is also an input: new.prl\n", before=both),
        Case("diff by the roots: OUT is a full device", [*files, "--out", "/dev/full"], status=5, err=no_write, before=both),
        Case("diff by the roots: nobody reads", files, status=5, err=no_write, before=both, stdout="unread"),
        Case("diff by the roots: standard output is full", files, status=5, err=no_write, before=both, stdout="full"),
        Case("diff by the roots: nothing is printed to a file", out, status=1, before=both, after={"d.rec": records(changes)}, stdout="full"),
        Case("diff by the roots: OUT is replaced", [*out, "--atomic", "--sync"], status=1, before=both | {"d.rec": BEFORE}, after={"d.rec": records(changes)}),
        Case("diff by the roots: OUT is as it was", out, status=4, err=of_new(TRUNCATED), before=both | {"new.prl": new.content[:-1], "d.rec": BEFORE}),
        Case("diff by the roots: a file beside itself", ["diff", *by_roots(old.root, old.root, 1), "old.prl", "old.prl"], before=both),
        Case("diff by the roots: flags without OUT", [*files, "--atomic", "--sync"], status=1, out=lines(changes), before=both),
        Case("diff --stat by the roots: NEW is cut", [*files, "--stat"], status=4, err=of_new(TRUNCATED), before=both | {"new.prl": new.content[:-1]}),
        Case("diff --stat by the roots: standard output is full, and OUT is whole", [*out, "--stat"], status=5, err=no_write, before=both, after={"d.rec": records(changes)}, stdout="full"),
    ]


def of_old(fault):
    """The line of a fault of OLD."""
    return f"prolly: old chunk file: {fault}\n".encode()


def of_new(fault):
    """The line of a fault of NEW."""
    return f"prolly: new chunk file: {fault}\n".encode()


# ---- files that are not those of the roots


def spoiled(chance):
    """Files of which one was changed: what was printed before the fault is right, and both are as the second walk says."""
    all_cases = []
    for number in range(SPOILED):
        version = chance.choice((1, 2))
        old = numbered(chance.choice((3, 40, 200)))
        before, after = (Kind(pairs, chance.choice((0, 1, 2)), version) for pairs in (old, changed(old, chance.choice((1, 4)), chance)))
        for kind, spoil in (("a byte turned", with_byte_turned), ("frames moved", with_frames_moved)):
            old_file, new_file = before.content, after.content
            if chance.random() < 0.5:
                old_file = spoil(before, chance)
            else:
                new_file = spoil(after, chance)
            all_cases += walked(f"{kind}, number {number}", old_file, new_file, before, after)
    return all_cases


def with_byte_turned(kind, chance):
    """A file with a byte turned behind its header."""
    return turned(kind.content, chance.randrange(HEADER_SIZE, len(kind.content)), chance.choice((1, 4, 128)))


def with_frames_moved(kind, chance):
    """A file of which two frames have changed places."""
    found = list(frames_of(kind.content))
    frames = [kind.content[frame.start - FRAME_SIZE : frame.end] for frame in found]
    one, other = chance.randrange(len(frames)), chance.randrange(len(frames))
    frames[one], frames[other] = frames[other], frames[one]
    return kind.content[:HEADER_SIZE] + b"".join(frames) + kind.content[found[-1].end :]


def walked(name, old_file, new_file, before, after):
    """What is printed, and written, of two files beside the second walk."""
    walk, changes, fault = Walk(old_file, new_file, before.root, after.root, before.version), [], b""
    right = difference(before.pairs, after.pairs)
    try:
        changes.extend(walk.changes())
        assert changes == right, name
    except Fault as told_fault:
        fault = f"prolly: {told_fault}\n".encode()
        assert changes == right[: len(changes)], name
    status = 4 if fault else DIFFERENT if changes else 0
    laid = {"old.prl": old_file, "new.prl": new_file, "d.rec": BEFORE}
    words = ["diff", *by_roots(before.root, after.root, before.version), "old.prl", "new.prl"]
    after_run = {} if fault else {"d.rec": records(changes)}
    return [
        Case(f"diff by the roots: {name}", words, status=status, out=lines(changes), err=fault, before=laid),
        Case(f"diff --text by the roots: {name}", [*words, "--text"], status=status, out=text_lines(changes), err=fault, before=laid),
        Case(f"diff by the roots: {name}, to a file", [*words, "--out", "d.rec"], status=status, err=fault, before=laid, after=after_run),
    ]


# ---- what is read


def all_runs(program, folder):
    """Runs over files of which chunks that both have are spoiled, and over files whose chunks stand far apart."""
    for kind in MANY_PAIRS:
        yield f"diff by the roots: what is read at --bits {kind[0]}", chained(program, lambda place, kind=kind: reads_the_change_alone(place, *kind))
    yield "diff by the roots: frames far apart", chained(program, compares_far_chunks)


def reads_the_change_alone(place, bits, count, most):
    """Of the chunks that both files have none is believed, and none is read: each may be anything behind its level."""
    chance = random.Random(bits)
    old = numbered(count)
    new = dict(old)
    for key, _ in chance.sample(old, 10):
        new[key] = b"changed"
    place.lay(old_rec=records(old), new_rec=records(sorted(new.items())))
    roots = [place.run("build", "--bits", str(bits), f"{name}.prl", f"{name}.rec")[1].split()[0].decode() for name in ("old", "new")]
    files = [place.path(f"{name}.prl").read_bytes() for name in ("old", "new")]
    chunks = [[content[found.start : found.end] for found in frames_of(content)] for content in files]
    references = [[reference(chunk) for chunk in part] for part in chunks]
    for name, content, own, other in (("old", files[0], references[0], set(references[1])), ("new", files[1], references[1], set(references[0]))):
        lacking = sum(found not in other for found in own)
        if lacking > most:
            place.note(f"{lacking} chunks of {name} are its own, wanted at most {most}")
        place.path(f"{name}.prl").write_bytes(with_shared_spoiled(content, own, other))
    options = ["--old-root", roots[0], "--new-root", roots[1]]
    changes = difference(old, new.items())
    place.answers(place.run("diff", *options, "old.prl", "new.prl"), (1, lines(changes), b""))
    lacking = [chunk for chunk, found in zip(chunks[1], references[1], strict=True) if found not in set(references[0])]
    line = f"added 0 changed 10 removed 0 chunks {len(lacking)} bytes {sum(map(len, lacking))}\n".encode()
    place.answers(place.run("diff", "--stat", *options, "old.prl", "new.prl"), (1, line, b""))


def with_shared_spoiled(content, references, other):
    """A file whose chunks that another file has, too, are zeros behind their level."""
    found = bytearray(content)
    for frame, own in zip(frames_of(content), references, strict=True):
        if own in other:
            found[frame.start + 1 : frame.end] = bytes(frame.end - frame.start - 1)
    return bytes(found)


def compares_far_chunks(place):
    """Chunks that stand so far from each other that no block of a file has the starts of two frames."""
    old, new = Kind(FAR, 0, 1), Kind([*FAR[:1], (FAR[1][0], b"w"), *FAR[2:]], 0, 1)
    place.lay(old_prl=old.content, new_prl=new.content)
    words = ["diff", *by_roots(old.root, new.root, 1), "old.prl", "new.prl"]
    place.answers(place.run(*words), (1, lines(difference(old.pairs, new.pairs)), b""))
    place.answers(place.run(*words[:-2], "new.prl", "old.prl"), (4, b"", None))
