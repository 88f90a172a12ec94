"""`diff`: what turns one chunk file's map into another's, how much that is, and what becomes of it."""

import random

from cases.dumps import BEFORE, chained, lines
from cases.look_ups import LONG, NUMBERS
from cases.scratch import ABC, numbered
from oracle.escapes import text_lines
from oracle.trees import REMOVED, chunk_file, overlay, records, report, tree
from support.harness import FOLDER, Case

ALIKE, DIFFERENT = 0, 1
"""The status where the maps are equal, and where they are not."""


def difference(old, new):
    """What turns one map into the other, as records in the order of keys."""
    before, after = dict(old), dict(new)
    keys = sorted(before.keys() | after.keys())
    return [(key, after.get(key, REMOVED)) for key in keys if before.get(key, REMOVED) != after.get(key, REMOVED)]


def stat_line(old, new, old_kind, new_kind):
    """The line of `--stat`: keys that only NEW has, that both have with another value, and that only OLD has; and the chunks
    of NEW's tree whose reference OLD's lacks, and their bytes. The kinds are the trees' bits and versions."""
    before, after = dict(old), dict(new)
    added, removed = len(after.keys() - before.keys()), len(before.keys() - after.keys())
    changed_keys = sum(before[key] != after[key] for key in before.keys() & after.keys())
    has = {part.reference for part in tree(old, *old_kind).trees()}
    lacking = [part.chunk for part in tree(new, *new_kind).trees() if part.reference not in has]
    size = sum(map(len, lacking))
    return f"added {added} changed {changed_keys} removed {removed} chunks {len(lacking)} bytes {size}\n".encode()


# ---- pairs of maps


def changed(pairs, count, chance):
    """A map that differs in so many keys: a third of them new, a third removed, a third with another value."""
    found = dict(pairs)
    for place, key in enumerate(chance.sample(sorted(found), min(count, len(found)))):
        kind = place % 3
        if kind == 0:
            found[key] += b"!"
        elif kind == 1:
            del found[key]
        else:
            found[key + b"\0"] = b"new"
    return sorted(found.items())


def some_map(chance, count):
    """A map of random pairs."""
    return sorted({chance.randbytes(chance.randint(0, 6)): chance.randbytes(chance.randint(0, 9)) for _ in range(count)}.items())


def pairs_of_maps():
    """Maps beside maps, with a name."""
    chance = random.Random(27)
    yield "equal maps", ABC, ABC
    yield "the empty map beside itself", [], []
    yield "from nothing", [], ABC
    yield "to nothing", ABC, []
    yield "one value changed", ABC, [(b"a", b"1"), (b"b", b"2"), (b"c", b"1")]
    yield "a value of the same beginning", [(b"a", b"1")], [(b"a", b"12")]
    yield "the first key removed", ABC, ABC[1:]
    yield "the last key removed", ABC, ABC[:-1]
    yield "the empty key is new", ABC, [(b"", b""), *ABC]
    yield "no key is the same", [(b"a", b"1"), (b"c", b"1")], [(b"b", b"1"), (b"d", b"1")]
    yield "the greatest pair", LONG, ABC
    for count in (0, 1, 10, 1_000, len(NUMBERS)):
        yield f"3,000 pairs, {count} changed", NUMBERS, changed(NUMBERS, count, chance)
    for number in range(12):
        old = some_map(chance, chance.choice([1, 10, 200, 1_000]))
        new = chance.choice([changed(old, chance.choice([0, 1, 10]), chance), some_map(chance, 50)])
        yield f"random maps, number {number}", old, new


def kinds():
    """The bits and the formats of two files."""
    return [((2, 1), (2, 1)), ((0, 2), (0, 2)), ((12, 1), (3, 2))]


def kinds_of_stats():
    """The same, and leaves that both formats cut alike."""
    return [*kinds(), ((2, 1), (2, 2))]


def cases(_):
    """All cases of one run."""
    return differences() + refused() + unread() + stats() + stats_refused()


def differences():
    """Differences of pairs of maps."""
    found = []
    for name, old, new in pairs_of_maps():
        for (old_bits, old_version), (new_bits, new_version) in kinds():
            before = {"old.prl": chunk_file(old, old_bits, old_version), "new.prl": chunk_file(new, new_bits, new_version)}
            found += told(f"{name}, --bits {old_bits} and {new_bits}", before, difference(old, new))
    return found


def told(name, before, changes, options=()):
    """A difference that is printed, and written."""
    status = DIFFERENT if changes else ALIKE
    words = ["diff", *options, "old.prl", "new.prl"]
    return [
        Case(f"diff: {name}", words, status=status, out=lines(changes), before=before),
        Case(f"diff --text: {name}", [*words, "--text"], status=status, out=text_lines(changes), before=before),
        Case(f"diff: {name}, to a file", [*words, "--out", "d.rec"], status=status, before=before, after={"d.rec": records(changes)}),
    ]


def refused():
    """Runs that have a fault."""
    good, cut = chunk_file(ABC, 0), chunk_file(ABC, 0)[:-1]
    both = {"old.prl": good, "new.prl": chunk_file([], 0)}
    words = ["diff", "old.prl", "new.prl"]
    out = [*words, "--out", "d.rec"]
    no_write = b"prolly: write failed\n"
    return [
        Case("diff: OLD is cut", words, status=4, err=b"prolly: old chunk file: truncated\n", before=both | {"old.prl": cut}),
        Case("diff: NEW is cut", words, status=4, err=b"prolly: new chunk file: truncated\n", before=both | {"new.prl": cut}),
        Case("diff: both are cut", words, status=4, err=b"prolly: old chunk file: truncated\n", before={"old.prl": cut, "new.prl": cut}),
        Case("diff: a record file", words, status=4, err=b"prolly: new chunk file: bad header\n", before=both | {"new.prl": records(ABC)}),
        Case("diff: no OLD", words, status=5, err=b"prolly: cannot open old.prl\n", before={"new.prl": good}),
        Case("diff: no NEW", words, status=5, err=b"prolly: cannot open new.prl\n", before={"old.prl": good}),
        Case("diff: neither file", words, status=5, err=b"prolly: cannot open old.prl\n"),
        Case("diff: no NEW, and OUT is as it was", out, status=5, err=b"prolly: cannot open new.prl\n", before={"old.prl": good, "d.rec": BEFORE}),
        Case("diff: OUT is a folder", [*words, "--out", "out"], status=5, err=b"prolly: cannot open out\n", before=both | {"out": FOLDER}),
        Case("diff: OUT in a folder that is not there", [*words, "--out", "none/out"], status=5, err=b"prolly: cannot open none/out\n", before=both),
        Case("diff: OUT is OLD", [*words, "--out", "old.prl"], status=5, err=b"prolly: OUT is also an input: old.prl\n", before=both),
        Case("diff: OUT is NEW", [*words, "--out", "new.prl"], status=5, err=b"prolly: OUT is also an input: new.prl\n", before=both),
        Case("diff: OUT is a full device", [*words, "--out", "/dev/full"], status=5, err=no_write, before=both),
        Case("diff: nobody reads", words, status=5, err=no_write, before=both, stdout="unread"),
        Case("diff: standard output is full", words, status=5, err=no_write, before=both, stdout="full"),
        Case("diff: standard output is closed", words, status=5, err=no_write, before=both, stdout="closed"),
        Case("diff: nothing is printed to a file", out, status=1, before=both, after={"d.rec": records(difference(ABC, []))}, stdout="full"),
        Case("diff: nothing changed, for a full device", ["diff", "old.prl", "old.prl"], before=both, stdout="full"),
        Case("diff: flags without OUT", ["diff", "--atomic", "--sync", "old.prl", "new.prl"], status=1, out=lines(difference(ABC, [])), before=both),
        Case("diff: OUT is as it was", out, status=4, err=b"prolly: old chunk file: truncated\n", before=both | {"old.prl": cut, "d.rec": BEFORE}),
        Case("diff: OUT is replaced", [*out, "--atomic", "--sync"], status=1, before=both | {"d.rec": BEFORE}, after={"d.rec": records(difference(ABC, []))}),
        Case("diff: a file beside itself", ["diff", "old.prl", "old.prl"], before=both),
    ]


def unread():
    """Files that can't be read, and too little memory for either."""
    good, large = chunk_file(ABC, 0), chunk_file(numbered(100_000), 12)
    words = ["diff", "old.prl", "new.prl"]
    failed = b"chunk file: read failed\n"
    scarce = {"status": 6, "err": b"prolly: out of memory\n", "memory": 6_000_000}
    return [
        Case("diff: OLD is a folder", words, status=5, err=b"prolly: old " + failed, before={"old.prl": FOLDER, "new.prl": good}),
        Case("diff: NEW is a folder", words, status=5, err=b"prolly: new " + failed, before={"old.prl": good, "new.prl": FOLDER}),
        Case("diff: both are folders", words, status=5, err=b"prolly: old " + failed, before={"old.prl": FOLDER, "new.prl": FOLDER}),
        Case("diff: a fault of OLD before that of NEW", words, status=4, err=b"prolly: old chunk file: truncated\n", before={"old.prl": good[:-1], "new.prl": FOLDER}),
        Case("diff: too little memory for OLD", words, before={"old.prl": large, "new.prl": good}, **scarce),
        Case("diff: too little memory for NEW", words, before={"old.prl": good, "new.prl": large}, **scarce),
        Case("diff: too little memory, to a file", [*words, "--out", "d.rec"], before={"old.prl": good, "new.prl": large}, **scarce),
    ]


def stats():
    """What `--stat` tells of pairs of maps."""
    found = []
    for name, old, new in pairs_of_maps():
        for old_kind, new_kind in kinds_of_stats():
            before = {"old.prl": chunk_file(old, *old_kind), "new.prl": chunk_file(new, *new_kind)}
            kind = f"{name}, --bits and --format {old_kind} and {new_kind}"
            found += counted(kind, before, difference(old, new), stat_line(old, new, old_kind, new_kind))
    return found


def counted(name, before, changes, line, options=()):
    """A difference that is counted, and counted and written."""
    status = DIFFERENT if changes else ALIKE
    words = ["diff", "--stat", *options, "old.prl", "new.prl"]
    return [
        Case(f"diff --stat: {name}", words, status=status, out=line, before=before),
        Case(f"diff --stat: {name}, to a file", [*words, "--out", "d.rec"], status=status, out=line, before=before, after={"d.rec": records(changes)}),
    ]


def stats_refused():
    """Runs with `--stat` that have a fault."""
    good = chunk_file(ABC, 0)
    both = {"old.prl": good, "new.prl": chunk_file([], 0)}
    words = ["diff", "--stat", "old.prl", "new.prl"]
    out = [*words, "--out", "d.rec"]
    changes = records(difference(ABC, []))
    truncated, no_write = b"chunk file: truncated\n", b"prolly: write failed\n"
    return [
        Case("diff --stat: OLD is cut", words, status=4, err=b"prolly: old " + truncated, before=both | {"old.prl": good[:-1]}),
        Case("diff --stat: NEW is cut", words, status=4, err=b"prolly: new " + truncated, before=both | {"new.prl": good[:-1]}),
        Case("diff --stat: OUT is as it was", out, status=4, err=b"prolly: old " + truncated, before=both | {"old.prl": good[:-1], "d.rec": BEFORE}),
        Case("diff --stat: nobody reads", words, status=5, err=no_write, before=both, stdout="unread"),
        Case("diff --stat: standard output is full", words, status=5, err=no_write, before=both, stdout="full"),
        Case("diff --stat: nothing changed, for a full device", ["diff", "--stat", "old.prl", "old.prl"], status=5, err=no_write, before=both, stdout="full"),
        Case("diff --stat: standard output is full, and OUT is whole", out, status=5, err=no_write, before=both, after={"d.rec": changes}, stdout="full"),
        Case("diff --stat: OUT is a full device", [*words, "--out", "/dev/full"], status=5, err=no_write, before=both),
        Case("diff --stat: OUT is OLD", [*words, "--out", "old.prl"], status=5, err=b"prolly: OUT is also an input: old.prl\n", before=both),
        Case("diff --stat: flags without OUT", [*words, "--atomic", "--sync"], status=1, out=stat_line(ABC, [], (0, 1), (0, 1)), before=both),
    ]


# ---- a difference is an input


def makes_the_new_tree(place, old, new):
    """OLD's pairs and the difference make NEW's tree; its lines, packed, are the difference, in both notations."""
    changes = difference(old, new)
    whole = chunk_file(new, 3)
    status = DIFFERENT if changes else ALIKE
    place.lay(old_prl=chunk_file(old, 3), new_prl=whole)
    place.answers(place.run("diff", "old.prl", "new.prl", "--out", "d.rec"), (status, b"", b""))
    place.answers(place.run("dump", "old.prl", "old.rec"), (0, b"", b""))
    place.answers(place.run("build", "--bits", "3", "again.prl", "old.rec", "d.rec"), (0, report(new, 3), b""))
    for name, flags in (("packed.rec", []), ("text.rec", ["--text"])):
        told_lines = place.run("diff", *flags, "old.prl", "new.prl")[1]
        place.answers(place.run("pack", *flags, "--removals", name, stdin=told_lines), (0, b"%d\n" % len(changes), b""))
    made = records(changes)
    place.holds(old_prl=None, new_prl=whole, again_prl=whole, old_rec=records(old), d_rec=made, packed_rec=made, text_rec=made)


def all_runs(program, _):
    """Runs the chains, each in a folder of its own, and gives for each its name and its differences."""
    assert overlay([ABC, difference(ABC, LONG)]) == LONG
    for name, old, new in pairs_of_maps():
        yield f"diff, and build: {name}", chained(program, lambda place, old=old, new=new: makes_the_new_tree(place, old, new))
