"""Random command lines over random files, compared with the second builder, reader and checker. A seed decides them all."""

import random
import sys
from dataclasses import dataclass
from functools import partial

from cases.diffs import difference, stat_line
from cases.diffs_by_root import by_roots
from cases.dumps import lines
from cases.files import WRITE_BYTES
from cases.named_root import asked as asked_root
from cases.proofs import verdict
from cases.surveys import as_json, explained, record_lines, record_numbers, table, tree_json
from oracle.checker import Fault, lawful_or_fault
from oracle.escapes import as_text, escaped, respelled, text_lines
from oracle.proof import proof_of
from oracle.readings import merged, packed, read, stop_of
from oracle.trees import REMOVED, begun_file, chunk_file, overlay, record, records, reference_text, report, root_text, tall_file, tree
from oracle.walker import Walk
from support.applied import applied
from support.by_root import ALL, Dump, Get, Kind, Nth, Prove, Scan
from support.harness import Case, hexed

SEED, COUNT = 20_240_601, 800
"""What the gate runs."""

FILES_LIMIT = 16

DEFAULTS = {"bits": 12, "format": 1}


def cases(_):
    """The runs of the gate."""
    return runs(SEED, COUNT)


def runs(seed, count):
    """So many runs; a difference is named with the seed that brings it back."""
    kinds = [build, build, build, apply, apply, scratch, pack, look_up, look_up, dump, diff, diff_by_root, prove, verify, by_root, named_root, in_numbers]
    for number in range(count):
        chance = random.Random(f"{seed} {number}")
        case = chance.choice(kinds)(chance)
        case.name = f"random {seed}, run {number}, {case.words[0]}"
        yield case


# ---- what is random


def key(chance):
    """A key: mostly of few letters, so that files share keys."""
    kind = chance.random()
    if kind < 0.02:
        return bytes([chance.randrange(256)]) * chance.choice([1_023, 1_024])
    if kind < 0.1:
        return chance.randbytes(chance.randrange(40))
    return bytes(chance.choice(b"ab!") for _ in range(chance.randrange(6)))


def value(chance):
    """A value, or a removal."""
    kind = chance.random()
    if kind < 0.15:
        return REMOVED
    if kind < 0.16:
        return chance.randbytes(chance.choice([65_535, 65_536]))
    return chance.randbytes(chance.randrange(30))


def changes(chance, most=60):
    """Changes in the order of their keys."""
    count = chance.choice([0, 1, 2, 3, chance.randrange(most)])
    return sorted({key(chance): value(chance) for _ in range(count)}.items())


def record_file(chance):
    """A record file, which may be at fault."""
    spelled = [record(*change) for change in changes(chance)]
    kind = chance.random()
    if kind < 0.05 and spelled:
        spelled.insert(chance.randrange(len(spelled) + 1), chance.choice(spelled))
    if kind < 0.1:
        chance.shuffle(spelled)
    content = b"".join(spelled)
    if 0.1 < kind < 0.15:
        content = content[: chance.randrange(len(content) + 1)]
    if 0.15 < kind < 0.2:
        content += chance.randbytes(chance.randrange(9))
    if 0.2 < kind < 0.25 and content:
        content = turned(chance, content)
    return content


def turned(chance, content):
    """Bytes of which one bit is another."""
    place = chance.randrange(len(content))
    return content[:place] + bytes([content[place] ^ 1 << chance.randrange(8)]) + content[place + 1 :]


def options(chance, names):
    """Options and their numbers; those that are left out have their defaults."""
    numbers = {
        "bits": lambda: chance.choice([0, 0, 1, 1, 2, 3, 12, 24]),
        "format": lambda: chance.choice([1, 2]),
        "stages": lambda: chance.choice([1, 2, 3, 4, 6, 12]),
        "capacity": lambda: chance.choice([1, 2, 64, 4_096]),
        "batch": lambda: chance.choice([1, 2, 3, 16, 1_024]),
        "max-records": lambda: chance.choice([1, 2, 10, 16_777_216]),
    }
    given = {name: numbers[name]() for name in names if chance.random() < (0.8 if name == "bits" else 0.3)}
    return given, [word for name, number in given.items() for word in (f"--{name}", str(number))]


# ---- hexadecimal and text


@dataclass
class Notation:
    """How a run is told keys, and what it prints."""

    flags: list
    word: object
    """The word for a key."""
    told: object
    """What is printed, out of what is printed in hexadecimal."""


def notation(chance):
    """Hexadecimal or text."""
    if chance.random() < 0.6:
        return Notation([], bytes.hex, lambda out: out)
    return Notation(["--text"], partial(word_of_text, chance), as_text)


def word_of_text(chance, data):
    """A word of text for a key, which no command takes for a flag."""
    text = respelled(chance, data, chance.choice([0, 0.2, 1]))
    return b"\\x2d" + text[1:] if text.startswith(b"-") else text


# ---- the commands


def build(chance):
    """A build of up to 16 files, now and then of one more."""
    count = chance.choice([0, 1, 1, 2, 2, 3, 4, 7, 16]) if chance.random() < 0.97 else FILES_LIMIT + 1
    given, words = options(chance, ["bits", "format", "stages", "capacity", "batch", "max-records"])
    files = {f"{number}.rec": record_file(chance) for number in range(count)}
    out, status, error, left = built(list(files.values()), given)
    before, after, flags = written(chance, "out.prl", left, status, is_begun=True)
    return Case(
        "",
        ["build", *words, *flags, "out.prl", *files],
        status=status,
        out=out,
        err=error,
        before=files | before,
        after=after,
    )


def apply(chance):
    """Changes to a tree, by up to 15 files."""
    kind = Kind(overlay([changes(chance), changes(chance)]), chance.choice([0, 0, 1, 2, 3, 12]), chance.choice([1, 2]))
    contents = [record_file(chance) for _ in range(chance.choice([0, 1, 1, 2, 3, 7, 15]))]
    given = [("--bits", kind.bits), ("--format", kind.version), ("--quiet", None), ("--sync", None)]
    flags = [str(word) for pair in given if chance.random() < 0.2 for word in pair if word is not None]
    return applied("", kind, contents, *flags)


def written(chance, name, left, status, is_begun=False):
    """What a file holds before a run that writes it, if it is there, and after it, and flags. After a fault it is as it was,
    unless it held nothing, and the run had begun to write and no flag had it write a file beside this one."""
    flags = [flag for flag in ("--atomic", "--sync") if chance.random() < 0.2]
    before = {name: chance.randbytes(20)} if chance.random() < 0.3 else {}
    if is_begun and status and left and len(left) > WRITE_BYTES:
        before = {}  # It would hold those of the bytes that were written before the fault was found.
    # What it holds is of no kind, so it has to be given up by a word.
    if before or chance.random() < 0.2:
        flags.append("--force")
    is_changed = left is not None and (not status or (is_begun and not before and "--atomic" not in flags))
    return before, {name: left} if is_changed else {}, flags


def built(files, given):
    """What a build prints, its status, the line of its fault, and what is then in OUT, unless it is as it was."""
    given = DEFAULTS | {"stages": 12, "max-records": 16_777_216} | given
    bits, version, stages = given["bits"], given["format"], given["stages"]
    if len(files) > FILES_LIMIT:
        return b"", 3, b"prolly: too many files\n", None
    readings = [read(content, given["max-records"]) for content in files]
    pairs, stop = merged(readings), stop_of(readings)
    if stop is not None:
        return b"", 3, b"prolly: " + readings[stop].line(stop) + b"\n", begun_file(pairs, bits, version, stages)
    if tree(pairs, bits, version).level >= stages:
        return b"", 7, b"prolly: tree too tall\n", tall_file(pairs, bits, version, stages)
    return report(pairs, bits, version), 0, b"", chunk_file(pairs, bits, version)


def scratch(chance):
    """The tree of one file, written or not."""
    given, words = options(chance, ["bits", "format"])
    content = record_file(chance)
    reading = read(content)
    bits, version = (DEFAULTS | given)["bits"], (DEFAULTS | given)["format"]
    pairs = merged([reading])
    is_good = reading.flaw is None
    is_written = chance.random() < 0.8
    whole = chunk_file(pairs, bits, version) if is_good else b""
    status = 0 if is_good else 3
    before, after, flags = written(chance, "out.prl", whole if is_written else None, status)
    return Case(
        "",
        ["scratch", *words, *flags, *(["--out", "out.prl"] if is_written else [])],
        content,
        status=status,
        out=root_text(pairs, bits, version) if is_good else b"",
        err=b"" if is_good else b"prolly: " + reading.line(0) + b"\n",
        before=before,
        after=after,
    )


def pack(chance):
    """Lines in hexadecimal or of text, some of them at fault."""
    is_text, has_removals = chance.random() < 0.5, chance.random() < 0.5
    line_of = partial(text_line, has_removals=has_removals) if is_text else hex_line
    text = b"\n".join(line_of(chance) for _ in range(chance.randrange(12))) + chance.choice([b"", b"\n"])
    found, fault = packed(text, is_text, has_removals)
    words = [*(["--text"] if is_text else []), *(["--removals"] if has_removals else [])]
    status = 0 if fault is None else 3
    whole = b"".join(record(*change) for change in found) if fault is None else b""
    before, after, flags = written(chance, "out.rec", whole, status)
    return Case(
        "",
        ["pack", *words, *flags, "out.rec"],
        text,
        status=status,
        out=b"%d\n" % len(found) if fault is None else b"",
        err=b"" if fault is None else b"prolly: " + fault + b"\n",
        before=before,
        after=after,
    )


def hex_line(chance):
    """A line in hexadecimal for `pack`."""
    found, put = key(chance), value(chance)
    line = found.hex().encode() + b" " + (b"-" if put is REMOVED else put.hex().encode())
    kind = chance.random()
    if kind < 0.03:
        return chance.choice([b"", b" ", b"61", b"61  31", b"6 31", b"61 3", b"61 31\r", b"g1 31", b"61 31 ", b"- 31"])
    if kind < 0.04:
        return b"61" * 1_025 + b" 31"
    if kind < 0.05:
        return b"61 " + b"31" * 65_537
    return line.upper() if kind < 0.1 else line


def text_line(chance, has_removals):
    """A line of text for `pack`."""
    found, put = key(chance), value(chance)
    kind = chance.random()
    if kind < 0.03:
        return chance.choice([b"", b"\t", b"a", b"a\tb\tc", b"a\tb\r", b"a\\\tb", b"a\t\\", b"\\x4\tb", b"\\101\tb", b"a\t\\N", b"61 31", b"\xff\t\xff"])
    if kind < 0.04:
        return respelled(chance, b"a" * 1_025) + b"\t1"
    if kind < 0.05:
        return b"a\t" + escaped(chance.choice([b"1", b"\0", b"\\"]) * 65_537)
    if put is REMOVED and not has_removals and chance.random() < 0.95:
        put = b"-"
    text = respelled(chance, found, chance.choice([0, 0.2, 1]))
    return text if put is REMOVED else text + b"\t" + respelled(chance, put, chance.choice([0, 0.2]))


def look_up(chance):
    """A command over a chunk file, which may be damaged."""
    pairs = some_pairs(chance)
    content, fault = a_chunk_file(chance, pairs)
    # A bit that is turned in the header may leave a lawful file, of other bits.
    version, bits = content[4:6] if fault is None else (1, 0)
    words, status, out, error = asked(chance, pairs, bits, version)
    if fault is not None:
        status, out, error = 4, b"", b"chunk file: " + fault
    return Case(
        "",
        words,
        status=status,
        out=out,
        err=b"prolly: " + error + b"\n" if error else b"",
        before={"in.prl": content},
    )


def some_pairs(chance):
    """Pairs in the order of their keys."""
    return [change for change in changes(chance) if change[1] is not REMOVED]


def a_chunk_file(chance, pairs):
    """A chunk file of the pairs, which may be damaged, and its fault, if it has one."""
    content = chunk_file(pairs, chance.choice([0, 1, 2, 12, 24]), chance.choice([1, 2]))
    kind = chance.random()
    if kind < 0.15:
        content = turned(chance, content)
    if 0.15 < kind < 0.2:
        content = content[: chance.randrange(len(content))]
    return content, lawful_or_fault(content)


def dump(chance):
    """A chunk file, which may be damaged, to a record file or to lines."""
    pairs = some_pairs(chance)
    content, fault = a_chunk_file(chance, pairs)
    status = 0 if fault is None else 4
    words, form = chance.choice([([], records), (["--hex"], lines), (["--text"], text_lines), (["--hex", "--text"], text_lines)])
    before, after, flags = written(chance, "out", b"" if fault else form(pairs), status)
    return Case(
        "",
        ["dump", *words, *flags, "in.prl", "out"],
        status=status,
        err=b"prolly: chunk file: " + fault + b"\n" if fault else b"",
        before={"in.prl": content} | before,
        after=after,
    )


def diff(chance):
    """Two chunk files that share pairs, of which each may be damaged, and the difference printed, written or counted."""
    old = some_pairs(chance)
    new = overlay([old, changes(chance, 6)]) if chance.random() < 0.7 else some_pairs(chance)
    (old_content, old_fault), (new_content, new_fault) = a_chunk_file(chance, old), a_chunk_file(chance, new)
    found = difference(old, new)
    status, error = (1 if found else 0), b""
    for which, fault in ((b"new", new_fault), (b"old", old_fault)):
        if fault is not None:
            status, error, found = 4, b"prolly: " + which + b" chunk file: " + fault + b"\n", []
    is_written, is_counted = chance.random() < 0.5, chance.random() < 0.3
    written_in = notation(chance)
    printed = b"" if is_written else written_in.told(lines(found))
    if is_counted:
        printed = b"" if error else stat_line(old, new, kind_of(old_content), kind_of(new_content))
    words = [*(["--stat"] if is_counted else []), *(["--out", "out.rec"] if is_written else [])]
    # `written` takes each status for a fault but 0.
    before, after, flags = written(chance, "out.rec", records(found) if is_written else None, status if error else 0)
    return Case(
        "",
        ["diff", *written_in.flags, *words, *flags, "old.prl", "new.prl"],
        status=status,
        out=printed,
        err=error,
        before={"old.prl": old_content, "new.prl": new_content} | before,
        after=after,
    )


def diff_by_root(chance):
    """Two chunk files of one format that share pairs, of which each may be damaged, compared by roots, mostly their own."""
    version = chance.choice([1, 2])
    old = some_pairs(chance)
    new = overlay([old, changes(chance, 6)]) if chance.random() < 0.7 else some_pairs(chance)
    kinds = [(pairs, chance.choice([0, 0, 1, 2, 12]), version) for pairs in (old, new)]
    files = [chunk_file(*kind) for kind in kinds]
    files = [turned(chance, content) if chance.random() < 0.15 else content for content in files]
    own_roots = [tree(*kind).reference for kind in kinds]
    roots = [root if chance.random() < 0.9 else tree(some_pairs(chance), 0, version).reference for root in own_roots]
    found, error = walked(Walk(*files, *roots, version))
    status = 4 if error else 1 if found else 0
    is_written, is_counted = chance.random() < 0.5, chance.random() < 0.3 and roots == own_roots
    written_in = notation(chance)
    printed = b"" if is_written else written_in.told(lines(found))
    if is_counted:
        # Of what was found before a fault no numbers are told.
        printed = b"" if error else stat_line(old, new, *((bits, version) for _, bits, _ in kinds))
    words = [*(["--stat"] if is_counted else []), *(["--out", "out.rec"] if is_written else [])]
    before, after, flags = written(chance, "out.rec", records(found) if is_written and not error else None, status if error else 0)
    return Case(
        "",
        ["diff", *written_in.flags, *words, *flags, *by_roots(*roots, version), "old.prl", "new.prl"],
        status=status,
        out=printed,
        err=error,
        before={"old.prl": files[0], "new.prl": files[1]} | before,
        after=after,
    )


def walked(walk):
    """What a walk finds, and the line of what stops it, if anything does."""
    found = []
    try:
        found.extend(walk.changes())
    except Fault as fault:
        return found, f"prolly: {fault}\n".encode()
    return found, b""


def named_root(chance):
    """The root that a chunk file names, which may be damaged."""
    content = chunk_file(some_pairs(chance), chance.choice([0, 1, 12]), chance.choice([1, 2]))
    kind = chance.random()
    if kind < 0.4:
        content = turned(chance, content)
    if 0.4 < kind < 0.5:
        content = content[: chance.randrange(len(content))]
    return asked_root("", content)


def kind_of(content):
    """The bits and the version of a lawful chunk file."""
    return content[5], content[4]


def in_numbers(chance):
    """A record file, which may be at fault, explained or in numbers, or a chunk file in numbers, which may be damaged."""
    notation_flags, told = chance.choice([([], hexed), (["--text"], escaped)])
    flags, is_json = chance.choice([(notation_flags, False), ([*notation_flags, "--json"], True)])
    kind = chance.choice(["explain", "record file", "chunk file"])
    if kind == "chunk file":
        pairs = some_pairs(chance)
        content, fault = a_chunk_file(chance, pairs)
        if content.startswith(b"PRLY"):
            status, out, error = tree_told(pairs, content, fault, is_json)
            return Case("", ["stat", *flags, "in"], status=status, out=out, err=error, before={"in": content})
    else:
        content = record_file(chance)
    reading = read(content)
    if kind == "explain":
        status = 0 if reading.flaw is None else 1
        return Case("", ["explain", *notation_flags, "in"], status=status, out=explained(content, told), before={"in": content})
    if reading.flaw is not None:
        return Case("", ["stat", *flags, "in"], status=3, err=b"prolly: " + reading.line(0) + b"\n", before={"in": content})
    out = as_json(record_numbers(reading.changes, hexed)) if is_json else record_lines(reading.changes, told)
    return Case("", ["stat", *flags, "in"], out=out, before={"in": content})


def tree_told(pairs, content, fault, is_json):
    """What `stat` answers of a chunk file of these pairs, which may have a fault."""
    if fault is not None:
        return 4, b"", b"prolly: chunk file: " + fault + b"\n"
    return 0, (tree_json if is_json else table)(pairs, *kind_of(content)), b""


def prove(chance):
    """A chunk file, which may be damaged, and a proof of a key that it has or has not."""
    pairs = some_pairs(chance)
    content, fault = a_chunk_file(chance, pairs)
    wanted = some_key(chance, pairs)
    proof = b"" if fault else proof_of(tree(pairs, *kind_of(content)), wanted, content[4])
    status = 4 if fault else 0
    before, after, flags = written(chance, "out", proof, status)
    given_in = notation(chance)
    return Case(
        "",
        ["prove", *given_in.flags, *flags, "in.prl", given_in.word(wanted), "out"],
        status=status,
        err=b"prolly: chunk file: " + fault + b"\n" if fault else b"",
        before={"in.prl": content} | before,
        after=after,
    )


def verify(chance):
    """A proof, which may be changed, or of another key or tree than is asked for, on standard input or in a file."""
    pairs, bits, version = some_pairs(chance), chance.choice([0, 0, 1, 2, 12]), chance.choice([1, 2])
    top, wanted = tree(pairs, bits, version), some_key(chance, pairs)
    proof = proof_of(top, wanted if chance.random() < 0.8 else some_key(chance, pairs), version)
    kind = chance.random()
    if kind < 0.2:
        proof = turned(chance, proof)
    if 0.2 < kind < 0.3:
        proof = proof[: chance.randrange(len(proof))]
    if 0.3 < kind < 0.35:
        proof += chance.randbytes(chance.randrange(1, 20))
    root = top.reference if chance.random() < 0.9 else tree(some_pairs(chance), bits, version).reference
    believed = version if chance.random() < 0.9 else 3 - version
    status, out, err = verdict(proof, root, wanted, believed)
    words = ["--format", str(believed)] if believed == 2 or chance.random() < 0.5 else []
    is_file, written_in = chance.random() < 0.5, notation(chance)
    return Case(
        "",
        ["verify", *written_in.flags, *words, reference_text(root), written_in.word(wanted), *(["p"] if is_file else [])],
        b"" if is_file else proof,
        status=status,
        out=written_in.told(out),
        err=err,
        before={"p": proof} if is_file else {},
    )


def by_root(chance):
    """A key, a number, or the pairs from a key on, looked up by a root, mostly that of the file's tree, in a chunk file which
    may be damaged."""
    pairs, bits, version = some_pairs(chance), chance.choice([0, 0, 1, 2, 12]), chance.choice([1, 2])
    content, wanted = chunk_file(pairs, bits, version), some_key(chance, pairs)
    kind = chance.random()
    if kind < 0.4:
        content = turned(chance, content)
    if 0.4 < kind < 0.45:
        content = content[: chance.randrange(len(content))]
    if 0.45 < kind < 0.5:
        content += chance.randbytes(chance.randrange(1, 40))
    root = tree(pairs if chance.random() < 0.9 else some_pairs(chance), bits, version).reference
    believed = version if chance.random() < 0.9 else 3 - version
    words, (status, out, err) = sought_by_root(chance, content, root, wanted, believed, len(pairs))
    return Case("", words, status=status, out=out, err=err, before={"in.prl": content})


def sought_by_root(chance, content, root, wanted, believed, count):
    """The words of a look-up by a root, and what the second reader answers."""
    command, written_in = chance.choice(["get", "nth", "scan", "prove", "dump"]), notation(chance)
    words = [command, *written_in.flags, "--root", reference_text(root), *(["--format", "2"] if believed == 2 else []), "in.prl"]
    if command == "get":
        words.append(written_in.word(wanted))
        status, out, err = Get(wanted).verdict(content, root, believed)
    elif command == "nth":
        number = chance.randrange(count + 2)
        words.append(str(number))
        status, out, err = Nth(number).verdict(content, root, believed)
    elif command == "prove":
        words += [written_in.word(wanted), "/dev/stdout"]
        return words, Prove(wanted).verdict(content, root, believed)
    elif command == "dump":
        return words, Dump(written_in.flags[0] if written_in.flags else "").verdict(content, root, believed)
    else:
        # A scan of no pair need not look at the file.
        limit = chance.choice([1, 2, 5, ALL])
        words += [written_in.word(wanted), str(limit)]
        status, out, err = Scan(wanted, limit).verdict(content, root, believed)
    return words, (status, written_in.told(out), err)


def some_key(chance, pairs):
    """A key of the pairs, or another one."""
    return chance.choice([key(chance), *(found for found, _ in pairs[:20])])


def asked(chance, pairs, bits, version):
    """A question, and what a lawful file of these pairs answers: the words, the status, the output and the fault."""
    kind = chance.choice(["check", "get", "scan", "nth", "dump"])
    if kind == "check":
        top = tree(pairs, bits, version)
        text = f"ok {reference_text(top.reference)} {bits} {len(list(top.trees()))}\n"
        return ["check", "in.prl"], 0, text.encode(), b""
    if kind == "dump":
        return ["dump", "in.prl"], 0, b"".join(record(*pair) for pair in pairs), b""
    written_in = notation(chance)
    words, status, out, error = {"get": value_asked, "scan": pairs_asked, "nth": pair_asked}[kind](chance, pairs, version, written_in)
    return [kind, *written_in.flags, "in.prl", *words], status, written_in.told(out), error


def value_asked(chance, pairs, _, written_in):
    """A key, and its value in hexadecimal."""
    wanted = some_key(chance, pairs)
    put = dict(pairs).get(wanted)
    return [written_in.word(wanted)], *((1, b"", b"") if put is None else (0, put.hex().encode() + b"\n", b""))


def pairs_asked(chance, pairs, _, written_in):
    """A key, and the pairs from there on."""
    wanted, limit = some_key(chance, pairs), chance.choice([0, 1, 5, 1_000_000])
    found = [pair for pair in pairs if pair[0] >= wanted][:limit]
    return [written_in.word(wanted), str(limit)], 0, lines(found), b""


def pair_asked(chance, pairs, version, _):
    """A number, and its pair, which a file of format 1 can't tell."""
    number = chance.randrange(len(pairs) + 2)
    if version == 1:
        return [str(number)], 4, b"", b"chunk file: no counts"
    return [str(number)], *((0, lines(pairs[number:][:1]), b"") if number < len(pairs) else (1, b"", b""))


def by_hand(words):
    """The runs of a seed and a count, as given on the command line of the tests."""
    if len(words) != 2 or not words[1].isdigit():
        sys.exit("usage: tests/run.py PROGRAM [--random SEED COUNT]")
    return runs(words[0], int(words[1]))
