"""`get`, `nth`, `scan`, `prove` and `dump` with `--root`: each fault, the words, what may be read, and what becomes of the answer."""

import os

from cases.look_ups import LONG, NUMBERS, assembled, leaf
from cases.proofs import BAD_ROOT, node
from cases.scratch import ABC, numbered
from oracle.checker import HEADER_SIZE
from oracle.escapes import text_lines
from oracle.proof import HEADER, MORE, TRUNCATED, WRONG_VERSION, another, bad_chunk, bad_frame, out_of_order, proof_of
from oracle.reader import MISSING
from oracle.trees import END_SIZE, chunk_file, frame, header, record, records, reference, reference_text, tree
from support.by_root import ALL, NO_COUNTS, NO_VALUE, Dump, Get, Kind, Nth, Prove, Scan, chunks_of, lines_of, refusal, turned
from support.harness import BAD_KEY, FOLDER, Case, hexed, line

READ_FAILED = b"prolly: chunk file: read failed\n"

WRITE_FAILED = b"prolly: write failed\n"

LAST_NUMBER = 2**32 - 1
"""The greatest number that can be asked for."""

SMALL_MEMORY = 8_000_000
"""Bytes of memory with which a look-up does in a file of any size whose chunks are small. The program alone has 4 MB."""

GAP = 5_000_000_000
"""Bytes of a chunk of zeros, which a file has without taking room on the disk."""

FAR = [(key, b"v" * 65_536) for key, _ in ABC]
"""Pairs whose chunks stand so far from each other that no block of a file has the starts of two frames."""


# ---- each fault, by roots of trees that are none


def chains():
    """Files whose root is the last chunk, whatever it is: a name, the chunks, a key, and what is wrong, or the answer."""
    a, b, c = (leaf(pair) for pair in ABC)
    two = node(1, (b"a", a), (b"b", b))
    last = node(1, (b"c", c))
    top = node(2, (b"b", two), (b"c", last))
    turned_leaf, twice = leaf(ABC[1], ABC[0]), leaf(ABC[0], ABC[0])
    one = (0, b"31\n", b"")
    yield "no chunk", [], b"a", MISSING
    yield "a leaf", [a], b"a", one
    yield "leaves that no node names", [b, c, a], b"a", one
    yield "a node without children", [node(1)], b"a", NO_VALUE
    yield "a root of level 255", [node(255)], b"a", NO_VALUE
    yield "no leaf below a node", [two], b"a", MISSING
    yield "no leaf below a node, and a key above all", [two], b"z", NO_VALUE
    yield "no second leaf", [a, two], b"b", MISSING
    yield "no second leaf, and a key of the first", [a, two], b"a", one
    yield "no second leaf, and a key above all", [a, two], b"z", NO_VALUE
    yield "no first leaf", [b, two], b"a", another(0)
    yield "no first leaf, and a key of the second", [b, two], b"b", MISSING
    yield "leaves exchanged", [b, a, two], b"a", another(0)
    yield "leaves exchanged, and a key of the second", [b, a, two], b"b", another(1)
    yield "leaves exchanged, and a key above all", [b, a, two], b"z", NO_VALUE
    yield "a leaf more before", [c, a, b, two], b"a", another(0)
    yield "a leaf more between", [a, c, b, two], b"b", another(1)
    yield "a leaf more behind", [a, b, c, two], b"b", one
    yield "a node more between", [a, last, node(9), b, two], b"b", one
    yield "the nodes exchanged", [c, last, a, b, two, top], b"a", another(1)
    yield "the nodes exchanged, and a key of the second", [c, last, a, b, two, top], b"c", another(4)
    yield "nodes before their leaves", [two, last, a, b, c, top], b"b", one
    yield "nodes before their leaves, and a key of the second", [two, last, a, b, c, top], b"c", another(2)
    yield "no node", [a, b, c, top], b"a", MISSING
    yield "no second node", [a, b, two, c, top], b"c", MISSING
    yield "no second node, and a key of the first", [a, b, two, c, top], b"b", one
    yield "no leaf below a node, but one of another", [two, c, last, top], b"a", another(1)
    yield "no leaf below any node", [two, last, top], b"a", MISSING
    low = node(2, (b"a", a))
    yield "a leaf two levels below", [a, low], b"a", MISSING
    yield "a leaf two levels below, and a node that is not named", [a, node(1, (b"a", a)), low], b"a", another(1)
    high = node(1, (b"b", two))
    yield "a node on its own level", [two, high], b"b", MISSING
    yield "a node on its own level, and leaves", [a, b, two, high], b"b", another(0)
    above = node(1, (b"b", top))
    yield "a node above its own level", [top, above], b"b", MISSING
    yield "a node above its own level, and all below it", [a, b, two, c, last, top, above], b"b", another(0)
    long_key, removal = b"\0" + record(b"k" * 1_025, b""), b"\0" + record(b"a", None)
    for name, bad in (("an entry that is cut", a[:-1]), ("a removal", removal), ("a long key", long_key)):
        yield f"{name} at the root", [bad], b"a", bad_chunk(0)
        yield f"{name} below", [bad, node(1, (b"a", bad))], b"a", bad_chunk(0)
    yield "a child that is cut", [a, b, two[:-1]], b"a", bad_chunk(2)
    yield "a node of the other format", [a, node(1, (b"a", a), version=2)], b"a", bad_chunk(1)
    for name, bad in (("another order", turned_leaf), ("a key twice", twice)):
        yield f"{name} at the root", [bad], b"a", out_of_order(0)
        yield f"{name} below", [b"\x05", bad, node(1, (b"b", bad))], b"a", out_of_order(1)
    yield "children in another order", [b, a, node(1, (b"b", b), (b"a", a))], b"a", out_of_order(2)
    yield "an order before missing chunks", [node(1, (b"b", b), (b"a", a))], b"a", out_of_order(0)
    yield "another chunk before a bad one", [a, a[:-1], two], b"b", another(1)


def spoiled():
    """Files for the root of three pairs: a name, the file, and what is wrong with it."""
    good = chunk_file(ABC, 0)
    chunks = [part.chunk for part in tree(ABC, 0, 1).trees()]
    yield "the root is not last", assembled([*chunks, chunks[0]], bytes(20)), another(6)
    yield "the root is missing", assembled(chunks[:-1], bytes(20)), another(4)
    yield "the root twice", assembled([*chunks, chunks[-1]], bytes(20)), (0, b"31\n", b"")
    yield "no bytes", b"", TRUNCATED
    yield "a record file", b"\0\1a\0\0\0\0011", "bad header"
    yield "a proof", b"PRLP\1", "bad header"
    yield "another letter", b"PQ", "bad header"
    yield "format 3", b"PRLY\3\0", "bad header"
    yield "25 bits", b"PRLY\1\x19", "bad header"
    yield "25 bits of the other format", b"PRLY\2\x19", "bad header"
    yield "a header of the other format that is cut", b"PRLY\2", TRUNCATED
    yield "the other format, and nothing else", b"PRLY\2\0", WRONG_VERSION
    yield "a header alone", header(0, 1), TRUNCATED
    yield "no chunk and no end", header(24, 1) + b"E", TRUNCATED
    yield "a frame that is cut, of no chunk", header(0, 1) + b"C" + bytes(8), TRUNCATED
    yield "a chunk without bytes, and nothing else", assembled([b""], bytes(20)), bad_chunk(0)
    yield "a chunk without bytes among others", header(0, 1) + frame(b"\7") + frame(b"") + good[HEADER_SIZE:], bad_chunk(1)
    yield "a frame before the root", good[:HEADER_SIZE] + b"D" + good[HEADER_SIZE + 1 :], bad_frame(0)
    yield "a frame before bytes behind the end", header(0, 1) + b"D" + good + good, bad_frame(0)
    yield "an end before frames", header(0, 1) + good[-END_SIZE:] + good[HEADER_SIZE:], MORE


def counted_node(level, *children):
    """A chunk of child entries of format 2: keys, the chunks that they name, and counts."""
    entries = [len(key).to_bytes(2, "big") + key + reference(chunk) + count.to_bytes(8, "big") for key, chunk, count in children]
    return bytes([level]) + b"".join(entries)


def counted():
    """Files of format 2 whose root is the last chunk, whatever it is: a name, the chunks, a number, and what is wrong, or
    the answer."""
    a, b, c = (leaf(pair) for pair in ABC)
    two = counted_node(1, (b"a", a, 1), (b"b", b, 1))
    one, other = (0, line(ABC[0]), b""), (0, line(ABC[1]), b"")
    yield "a leaf", [leaf(*ABC)], 1, other
    yield "no pair", [leaf()], 0, NO_VALUE
    yield "a leaf, and its end", [leaf(*ABC)], 3, NO_VALUE
    yield "a node", [a, b, two], 1, other
    yield "a node, and its end", [a, b, two], 2, NO_VALUE
    yield "a node without children", [counted_node(1)], 0, NO_VALUE
    yield "no chunk", [], 0, MISSING
    yield "no leaf", [two], 0, MISSING
    yield "no second leaf", [a, two], 1, MISSING
    yield "no second leaf, and a pair of the first", [a, two], 0, one
    yield "no second leaf, and a number behind all", [a, two], 9, NO_VALUE
    yield "leaves exchanged", [b, a, two], 0, another(0)
    yield "leaves exchanged, and the second number", [b, a, two], 1, another(1)
    yield "leaves exchanged, and a number behind all", [b, a, two], 2, NO_VALUE
    yield "a leaf more behind", [a, b, c, two], 1, other
    yield "a count too great", [a, b, counted_node(1, (b"a", a, 9), (b"b", b, 1))], 1, NO_VALUE
    yield "a count too small", [a, b, counted_node(1, (b"a", a, 0), (b"b", b, 1))], 0, other
    yield "counts of none", [a, b, counted_node(1, (b"a", a, 0), (b"b", b, 0))], 0, NO_VALUE
    yield "the greatest count", [a, b, counted_node(1, (b"a", a, 2**64 - 1), (b"b", b, 2**64 - 1))], 0, one
    yield "the greatest number", [a, b, counted_node(1, (b"a", a, LAST_NUMBER), (b"b", b, 1))], LAST_NUMBER, other
    yield "an entry that is cut", [a[:-1]], 0, bad_chunk(0)
    yield "a child entry that is cut", [a, b, two[:-1]], 0, bad_chunk(2)
    yield "an order", [leaf(ABC[1], ABC[0])], 0, out_of_order(0)
    yield "an order of children", [b, a, counted_node(1, (b"b", b, 1), (b"a", a, 1))], 0, out_of_order(2)
    yield "a node on its own level", [a, b, two, counted_node(1, (b"b", two, 2))], 0, another(0)


def chained():
    """Files of format 1 whose root is the last chunk, whatever it is: a name, the chunks, a key, a limit, how many of the
    three pairs are printed, and what is wrong, if anything is."""
    a, b, c = (leaf(pair) for pair in ABC)
    two = node(1, (b"a", a), (b"b", b))
    last = node(1, (b"c", c))
    top = node(2, (b"b", two), (b"c", last))
    whole = [a, b, two, c, last, top]
    yield "all", whole, b"", ALL, 3, None
    yield "a leaf", [a], b"", ALL, 1, None
    yield "no chunk", [], b"", 1, 0, MISSING
    yield "a node without children", [node(1)], b"", 1, 0, None
    yield "no second leaf, and the first pair", [a, two], b"", 1, 1, None
    yield "no second leaf, and both pairs", [a, two], b"", 2, 1, MISSING
    yield "no second leaf, and what is behind it", [a, two], b"bb", ALL, 0, None
    yield "leaves exchanged", [b, a, two], b"", ALL, 0, another(0)
    yield "leaves exchanged, and the second pair", [b, a, two], b"b", ALL, 0, another(1)
    yield "leaves exchanged, and what is behind them", [b, a, two], b"bb", ALL, 0, None
    yield "another second leaf", [a, c, two], b"", ALL, 1, another(1)
    yield "no second node", [a, b, two, c, top], b"", 2, 2, None
    yield "no second node, and its pair", [a, b, two, c, top], b"", 3, 2, MISSING
    yield "the last leaf is another", [a, b, two, a, last, top], b"", ALL, 2, another(3)
    yield "the last node is another", [a, b, two, c, node(1, (b"c", a)), top], b"", ALL, 2, another(4)
    yield "a bad leaf behind a good one", [a, b[:-1], node(1, (b"a", a), (b"b", b[:-1]))], b"", ALL, 1, bad_chunk(1)
    turned_leaf = leaf(ABC[2], ABC[1])
    yield "an order behind a good leaf", [a, turned_leaf, node(1, (b"a", a), (b"c", turned_leaf))], b"", ALL, 1, out_of_order(1)
    # No lawful tree has a leaf with no pair up to its key, and none with a pair that is greater: a scan ends there.
    yield "a leaf without a pair of its key", [a, b, c, node(1, (b"aa", a), (b"b", b), (b"c", c))], b"", ALL, 1, None
    yield "a leaf of greater pairs", [leaf(ABC[0], ABC[1]), c, node(1, (b"a", leaf(ABC[0], ABC[1])), (b"c", c))], b"", ALL, 3, None


def fault_cases():
    """Each line of a fault, and files that have none, as the second reader takes them, too."""
    found = []
    for name, chunks, key, wanted in chains():
        root = root_of(chunks)
        found.append(case_of(name, assembled(chunks, root), root, 1, Get(key), refusal(wanted) if isinstance(wanted, str) else wanted))
        if isinstance(wanted, str):
            found.append(case_of(name, assembled(chunks, root), root, 1, Prove(key), refusal(wanted)))
    root = tree(ABC, 0, 1).reference
    for name, content, wanted in spoiled():
        found.append(case_of(name, content, root, 1, Get(b"a"), refusal(wanted) if isinstance(wanted, str) else wanted))
    for name, chunks, number, wanted in counted():
        root = root_of(chunks)
        found.append(case_of(name, assembled(chunks, root, 0, 2), root, 2, Nth(number), refusal(wanted) if isinstance(wanted, str) else wanted))
    for name, chunks, key, limit, printed, fault in chained():
        root = root_of(chunks)
        first = ABC.index(next(pair for pair in ABC if pair[0] >= key)) if printed else 0
        out = lines_of(ABC[first : first + printed])
        found.append(case_of(name, assembled(chunks, root), root, 1, Scan(key, limit), (4, out, refusal(fault)[2]) if fault else (0, out, b"")))
        if (key, limit) == (b"", ALL):
            out = records(ABC[:printed])
            found.append(case_of(name, assembled(chunks, root), root, 1, Dump(), (4, out, refusal(fault)[2]) if fault else (0, out, b"")))
    return found


def root_of(chunks):
    """The reference of the last chunk."""
    return reference(chunks[-1]) if chunks else bytes(20)


def case_of(name, content, root, version, look_up, wanted):
    """A look-up in a file that the second reader takes for what its maker wants it to be."""
    answer = look_up.verdict(content, root, version)
    assert answer == wanted, (name, answer)
    status, out, err = answer
    words = look_up.words(root, version)
    return Case(f"{words[0]} --root: {name}", words, status=status, out=out, err=err, before={"in.prl": content})


# ---- words


def cases(folder):
    """All cases of one run; files that are too large for a case's text are made in the folder."""
    return fault_cases() + word_cases() + get_cases() + scan_cases() + nth_cases() + prove_cases() + dump_cases() + device_cases() + large_cases(folder)


def word_cases():
    """Words that are refused. A bad root is told before a bad key, and both before what the file or the format is."""
    good = reference_text(tree(ABC, 0, 1).reference)
    bad = ["", good[:-1], good + "0", good[:-1] + "w", good.upper(), good[:-1] + " ", "0x" + good[2:], "é" * 16, good * 2]
    given = {"in.prl": chunk_file(ABC, 0)}
    asked = [
        ["get", "in.prl", "61"],
        ["get", "in.prl", "6"],
        ["get", "none", "61"],
        ["nth", "in.prl", "0"],
        ["nth", "--format", "2", "none", "0"],
        ["scan", "in.prl", "61", "1"],
        ["scan", "none", "6", "1"],
        ["prove", "in.prl", "61", "p"],
        ["prove", "none", "6", "in.prl"],
        ["dump", "in.prl"],
        ["dump", "--hex", "none", "in.prl"],
    ]
    found = [
        Case(f"{words[0]} --root: the root {word}, {' '.join(words[1:])}", [words[0], "--root", word, *words[1:]], status=2, err=BAD_ROOT, before=given)
        for word in bad
        for words in asked
    ]
    for command, *behind in (["get", "61"], ["nth", "1"], ["scan", "61", "1"], ["prove", "61", "p"], ["dump"]):
        found += [
            Case(f"{command} --root: a dash for a root", [command, f"--root={'-' * 32}", "in.prl", *behind], status=2, err=BAD_ROOT, before=given),
            Case(
                f"{command} --root: a word for a root that is no text",
                [command.encode(), b"--root", b"\xff", b"in.prl", *(word.encode() for word in behind)],
                status=2,
                err=b"prolly: a word is not UTF-8\n",
                before=given,
            ),
        ]
    for command, *behind in (["get"], ["scan", "1"], ["prove", "p"]):
        found += [
            Case(f"{command} --root: a key that is none", [command, "--root", good, "in.prl", "6g", *behind], status=2, err=BAD_KEY, before=given),
            Case(f"{command} --root: a key that is too long", [command, "--root", good, "in.prl", "61" * 1_025, *behind], status=2, err=BAD_KEY, before=given),
            Case(f"{command} --root: a key that is none, and no file", [command, "--root", good, "none", "6", *behind], status=2, err=BAD_KEY),
        ]
    return found + [
        Case("scan --root: no pair, of a file that is no chunk file", ["scan", "--root", good, "none.prl", "61", "0"], before={"none.prl": b"none"}),
        Case("scan --root: no pair, and no file", ["scan", "--root", good, "none", "61", "0"], status=5, err=b"prolly: cannot open none\n"),
    ]


def small_files():
    """A file of each format, with the text of its root."""
    first, second = Kind(ABC, 0, 1), Kind(ABC, 0, 2)
    return reference_text(first.root), {"in.prl": first.content}, reference_text(second.root), {"in.prl": second.content}


def get_cases():
    """Where the words of a `get` stand, and what they say."""
    text, given, of_two, counted_file = small_files()
    one = b"31\n"
    return [
        Case("get --root: behind the key", ["get", "in.prl", "62", "--root", text], out=one, before=given),
        Case("get --root: between the words", ["get", "in.prl", "--root", text, "62"], out=one, before=given),
        Case("get --root: with an equals sign", ["get", f"--root={text}", "in.prl", "62"], out=one, before=given),
        Case("get --root: format 1 told", ["get", "--format", "1", "--root", text, "in.prl", "62"], out=one, before=given),
        Case("get --root: format 2", ["get", "in.prl", "62", "--root", of_two, "--format", "2"], out=one, before=counted_file),
        Case("get --root: the default is format 1", ["get", "--root", of_two, "in.prl", "62"], status=4, err=refusal(WRONG_VERSION)[2], before=counted_file),
        Case("get: --format says nothing without a root", ["get", "--format", "2", "in.prl", "62"], out=one, before=given),
        Case("get: --format 1 says nothing without a root", ["get", "--format", "1", "in.prl", "62"], out=one, before=counted_file),
        Case("get --root: upper case", ["get", "--root", text, "in.prl", "6B"], status=1, before=given),
    ]


def scan_cases():
    """Where the words of a `scan` stand, and what they say."""
    text, given, of_two, counted_file = small_files()
    one, from_b = line(ABC[1]), lines_of(ABC[1:])
    return [
        Case("scan --root: behind the key", ["scan", "in.prl", "62", "--root", text, "5"], out=from_b, before=given),
        Case("scan --root: behind all", ["scan", "in.prl", "62", "5", "--root", text], out=from_b, before=given),
        Case("scan --root: with an equals sign", ["scan", f"--root={text}", "in.prl", "62", "1"], out=one, before=given),
        Case("scan --root: format 1 told", ["scan", "--format", "1", "--root", text, "in.prl", "62", "1"], out=one, before=given),
        Case("scan --root: format 2", ["scan", "in.prl", "62", "1", "--root", of_two, "--format", "2"], out=one, before=counted_file),
        Case("scan --root: the default is format 1", ["scan", "--root", of_two, "in.prl", "62", "1"], status=4, err=refusal(WRONG_VERSION)[2], before=counted_file),
        Case("scan --root: upper case", ["scan", "--root", text, "in.prl", "6B", "1"], before=given),
        Case("scan: --format says nothing without a root", ["scan", "--format", "2", "in.prl", "62", "1"], out=one, before=given),
        Case("scan: --format 1 says nothing without a root", ["scan", "--format", "1", "in.prl", "62", "1"], out=one, before=counted_file),
    ]


def nth_cases():
    """Where the words of an `nth` stand, and what they say."""
    text, given, of_two, counted_file = small_files()
    one = line(ABC[1])
    return [
        Case("nth --root: behind the file", ["nth", "in.prl", "--root", of_two, "--format", "2", "1"], out=one, before=counted_file),
        Case("nth --root: behind all", ["nth", "in.prl", "1", "--format", "2", "--root", of_two], out=one, before=counted_file),
        Case("nth --root: with equals signs", ["nth", f"--root={of_two}", "--format=2", "in.prl", "1"], out=one, before=counted_file),
        Case("nth --root: the default is format 1", ["nth", "--root", of_two, "in.prl", "1"], status=4, err=NO_COUNTS[2], before=counted_file),
        Case("nth --root: format 2 of a file of format 1", ["nth", "--root", text, "--format", "2", "in.prl", "1"], status=4, err=refusal(WRONG_VERSION)[2], before=given),
        Case("nth: --format says nothing without a root", ["nth", "--format", "1", "in.prl", "1"], out=one, before=counted_file),
        Case("nth: --format 2 says nothing without a root", ["nth", "--format", "2", "in.prl", "1"], status=4, err=NO_COUNTS[2], before=given),
    ]


def prove_cases():
    """Where the words of a `prove` stand, what they say, and what becomes of OUT."""
    text, given, of_two, counted_file = small_files()
    proof, counted_proof = (proof_of(tree(ABC, 0, version), b"b", version) for version in (1, 2))
    words, old = ["prove", "--root", text, "in.prl", "62", "p"], proof_of(tree(ABC, 0, 1), b"a", 1)
    kind = Kind(ABC, 0, 1)
    turned_file = {"in.prl": kind.with_byte(kind.way(b"b")[-1], 2, 1), "p": old}
    fault = refusal(another(kind.way(b"b")[-1]))[2]
    return [
        Case("prove --root: a new OUT", words, before=given, after={"p": proof}),
        Case("prove --root: OUT is replaced", [*words, "--atomic", "--sync"], before=given | {"p": old}, after={"p": proof}),
        Case("prove --root: behind all", ["prove", "in.prl", "62", "p", "--root", text], before=given, after={"p": proof}),
        Case("prove --root: format 1 told", ["prove", f"--root={text}", "--format=1", "in.prl", "62", "p"], before=given, after={"p": proof}),
        Case("prove --root: format 2", ["prove", "in.prl", "62", "p", "--root", of_two, "--format", "2"], before=counted_file, after={"p": counted_proof}),
        Case("prove --root: the default is format 1", ["prove", "--root", of_two, "in.prl", "62", "p"], status=4, err=refusal(WRONG_VERSION)[2], before=counted_file),
        Case("prove: --format says nothing without a root", ["prove", "--format", "2", "in.prl", "62", "p"], before=given, after={"p": proof}),
        Case("prove: --format 1 says nothing without a root", ["prove", "--format", "1", "in.prl", "62", "p"], before=counted_file, after={"p": counted_proof}),
        Case("prove --root --text", [*words[:4], "b", "p", "--text"], before=given, after={"p": proof}),
        Case("prove --root: a chunk on the way is another, and OUT is as it was", words, status=4, err=fault, before=turned_file),
        Case("prove --root: a chunk elsewhere is another", [*words[:4], "63", "p", "--force"], before=turned_file | {"p": b"something"}, after={"p": proof_of(kind.top, b"c", 1)}),
        Case("prove --root: no file, and OUT is as it was", words, status=5, err=b"prolly: cannot open in.prl\n", before={"p": old}),
        Case("prove --root: a folder", words, status=5, err=READ_FAILED, before={"in.prl": FOLDER}),
        Case("prove --root: OUT is FILE", [*words[:5], "in.prl"], status=5, err=b"prolly: OUT is also an input: in.prl\n", before=given),
        Case("prove --root: OUT is a full device", [*words[:5], "/dev/full"], status=5, err=WRITE_FAILED, before=given),
        Case("prove --root: OUT is of another kind", words, status=5, err=b"prolly: OUT is not a proof: p\n", before=given | {"p": HEADER[:3] + b"!"}),
        Case("prove --root: nothing is printed", words, before=given, after={"p": proof}, stdout="full"),
    ]


def dump_cases():
    """Where the words of a `dump` stand, what they say, and what becomes of OUT."""
    text, given, of_two, counted_file = small_files()
    whole, words, before = records(ABC), ["dump", "--root", text, "in.prl"], {"out.rec": records(ABC[:1])}
    kind = Kind(ABC, 0, 1)
    last = kind.way(b"c")[-1]
    turned_file = {"in.prl": kind.with_byte(last, 2, 1)}
    first, fault = records(ABC[:2]), refusal(another(last))[2]
    return [
        Case("dump --root: to standard output", words, out=whole, before=given),
        Case("dump --root: to a file", [*words, "out.rec"], before=given, after={"out.rec": whole}),
        Case("dump --root: OUT is replaced", [*words, "--atomic", "--sync", "out.rec"], before=given | before, after={"out.rec": whole}),
        Case("dump --root: lines", [*words, "--hex"], out=lines_of(ABC), before=given),
        Case("dump --root: lines of text to a file", [*words, "--text", "out.txt"], before=given, after={"out.txt": text_lines(ABC)}),
        Case("dump --root: behind all", ["dump", "in.prl", "out.rec", "--root", text], before=given, after={"out.rec": whole}),
        Case("dump --root: format 1 told", ["dump", f"--root={text}", "--format=1", "in.prl"], out=whole, before=given),
        Case("dump --root: format 2", ["dump", "in.prl", "--root", of_two, "--format", "2"], out=whole, before=counted_file),
        Case("dump --root: the default is format 1", ["dump", "--root", of_two, "in.prl"], status=4, err=refusal(WRONG_VERSION)[2], before=counted_file),
        Case("dump: --format says nothing without a root", ["dump", "--format", "2", "in.prl"], out=whole, before=given),
        Case("dump: --format 1 says nothing without a root", ["dump", "--format", "1", "in.prl"], out=whole, before=counted_file),
        Case("dump --root: the last leaf is another", words, status=4, out=first, err=fault, before=turned_file),
        Case("dump --root: the last leaf is another, and OUT is as it was", [*words, "out.rec"], status=4, err=fault, before=turned_file | before),
        Case("dump --root: the last leaf is another, and there was no OUT", [*words, "out.rec"], status=4, err=fault, before=turned_file),
        Case("dump --root --hex: the last leaf is another, and OUT is as it was", [*words, "--hex", "out.txt"], status=4, err=fault, before=turned_file | {"out.txt": b"before\n"}),
        Case("dump --root: no file, and OUT is as it was", [*words, "out.rec"], status=5, err=b"prolly: cannot open in.prl\n", before=before),
        Case("dump --root: a folder, and OUT is as it was", [*words, "out.rec"], status=5, err=READ_FAILED, before={"in.prl": FOLDER} | before),
        Case("dump --root: OUT is FILE", [*words, "in.prl"], status=5, err=b"prolly: OUT is also an input: in.prl\n", before=given),
        Case("dump --root: OUT is a full device", [*words, "/dev/full"], status=5, err=WRITE_FAILED, before=given),
        Case("dump --root: OUT is of another kind", [*words, "out.txt"], status=5, err=b"prolly: OUT is not a record file: out.txt\n", before=given | {"out.txt": b"lines\n"}),
        Case("dump --root: nothing is printed", [*words, "out.rec"], before=given, after={"out.rec": whole}, stdout="full"),
    ]


# ---- files and devices


def device_cases():
    """What may be read, and what becomes of the answer."""
    found = []
    for look_up, absent in ((Get(b"b"), Get(b"bb")), (Nth(1), Nth(3)), (Scan(b"b", 1), Scan(b"d", 1)), (Dump(), None), (Dump("--hex"), None)):
        for version in (1, 2) if isinstance(look_up, Get) else (2,):
            kind = Kind(ABC, 0, version)
            words, given, (status, out, _) = look_up.words(kind.root, version), {"in.prl": kind.content}, look_up.right(kind)
            named = f"{words[0]} --root in format {version}"
            found += [
                Case(f"{named}: no file", words, status=5, err=b"prolly: cannot open in.prl\n"),
                Case(f"{named}: a folder", words, status=5, err=READ_FAILED, before={"in.prl": FOLDER}),
                Case(f"{named}: a device of no bytes", look_up.words(kind.root, version, "/dev/null"), status=4, err=refusal(TRUNCATED)[2]),
                Case(f"{named}: a device of zeros", look_up.words(kind.root, version, "/dev/zero"), status=4, err=refusal("bad header")[2]),
                Case(f"{named}: a pipe", look_up.words(kind.root, version, "/dev/stdin"), kind.content, status=5, err=READ_FAILED),
                Case(f"{named}: standard input is closed", words, None, status=status, out=out, before=given),
                Case(f"{named}: standard output is full", words, status=5, err=WRITE_FAILED, before=given, stdout="full"),
                Case(f"{named}: nobody reads", words, status=5, err=WRITE_FAILED, before=given, stdout="unread"),
                Case(f"{named}: standard output is closed", words, status=5, err=WRITE_FAILED, before=given, stdout="closed"),
            ]
            if absent is not None:
                found.append(Case(f"{named}: nothing for a full device", absent.words(kind.root, version), status=absent.right(kind)[0], before=given, stdout="full"))
    top, long_file = tree(LONG, 0, 2).reference, {"in.prl": chunk_file(LONG, 0, 2)}
    return [
        *found,
        Case("get --root: the greatest pair", Get(LONG[0][0]).words(top, 2), out=b"76" * 65_536 + b"\n", before=long_file),
        Case("nth --root: the greatest pair", Nth(0).words(top, 2), out=line(LONG[0]), before=long_file),
        Case("scan --root: the greatest pair", Scan(LONG[0][0]).words(top, 2), out=line(LONG[0]), before=long_file),
    ]


def large_cases(folder):
    """Files of more bytes than `check` reads, and of more than there is memory for: what is not on the way takes none."""
    kind, many = Kind(NUMBERS, 4, 1), Kind(numbered(100_000), 12, 2)
    first, second = Kind(NUMBERS[:600], 4, 1), Kind(NUMBERS[:600], 4, 2)
    behind, bad, within, plain = folder / "behind a gap", folder / "bad behind a gap", folder / "gap", folder / "100,000 pairs"
    few_behind, counted_behind, few_bad = folder / "few behind a gap", folder / "counted behind a gap", folder / "few bad behind a gap"
    proof = folder / "proof of a gap"
    key, from_key, last = NUMBERS[1_234][0], Scan(NUMBERS[300][0]), first.way(NUMBERS[599][0])[-1]
    write_gap(behind, b"\xff", kind.content[HEADER_SIZE:])
    write_gap(within, b"\0", assembled([], bytes(20))[HEADER_SIZE:])
    write_gap(proof, b"\0", b"\0", front=HEADER + b"\x11")
    write_gap(bad, b"\xff", turned(kind.content, kind.place(kind.way(key)[-1]) + 9, 1)[HEADER_SIZE:])
    write_gap(few_behind, b"\xff", first.content[HEADER_SIZE:])
    write_gap(counted_behind, b"\xff", second.content[HEADER_SIZE:], 2)
    write_gap(few_bad, b"\xff", turned(first.content, first.place(last) + 9, 1)[HEADER_SIZE:])
    plain.write_bytes(many.content)
    printed = lines_of(NUMBERS[300:600][: chunks_of(first, from_key)[last]])
    out = hexed(kind.map[key]) + b"\n"
    return [
        Case("get --root: behind 5 GB", Get(key).words(kind.root, 1, str(behind)), out=out, memory=SMALL_MEMORY),
        Case("get --root: no value behind 5 GB", Get(key + b"\0").words(kind.root, 1, str(behind)), status=1, memory=SMALL_MEMORY),
        Case("get --root: a bad chunk behind 5 GB", Get(key).words(kind.root, 1, str(bad)), status=4, err=refusal(another(kind.way(key)[-1] + 1))[2], memory=SMALL_MEMORY),
        Case("get --root: a root of 5 GB", Get(key).words(kind.root, 1, str(within)), status=6, err=b"prolly: out of memory\n", memory=100_000_000),
        Case("get --root: a root of 5 GB, where there is memory", Get(key).words(kind.root, 1, str(within)), status=6, err=b"prolly: out of memory\n"),
        Case("check --root: a chunk of 5 GB", ["check", "--root", reference_text(kind.root), str(within)], status=6, err=b"prolly: out of memory\n"),
        Case("verify --from: a chunk of 5 GB", ["verify", "--from", "", reference_text(kind.root), str(proof)], status=6, err=b"prolly: out of memory\n"),
        Case("get --root: in little memory", Get(many.pairs[77_777][0]).words(many.root, 2, str(plain)), out=hexed(many.pairs[77_777][1]) + b"\n", memory=SMALL_MEMORY),
        Case("prove --root: behind 5 GB", Prove(key).words(kind.root, 1, str(behind)), out=proof_of(kind.top, key, 1), memory=SMALL_MEMORY),
        Case("prove --root: a bad chunk behind 5 GB", Prove(key).words(kind.root, 1, str(bad)), status=4, err=refusal(another(kind.way(key)[-1] + 1))[2], memory=SMALL_MEMORY),
        Case("scan --root: behind 5 GB", from_key.words(first.root, 1, str(few_behind)), out=lines_of(NUMBERS[300:600]), memory=SMALL_MEMORY),
        Case("scan --root: behind 5 GB in format 2", Scan(from_key.key, 50).words(second.root, 2, str(counted_behind)), out=lines_of(NUMBERS[300:350]), memory=SMALL_MEMORY),
        Case("scan --root: no pair behind 5 GB", Scan(NUMBERS[599][0] + b"\0", 9).words(first.root, 1, str(few_behind)), memory=SMALL_MEMORY),
        Case("scan --root: a bad leaf behind 5 GB", from_key.words(first.root, 1, str(few_bad)), status=4, out=printed, err=refusal(another(last + 1))[2], memory=SMALL_MEMORY),
        Case("dump --root: behind 5 GB", Dump().words(first.root, 1, str(few_behind)), out=records(NUMBERS[:600]), memory=SMALL_MEMORY),
        Case("dump --root --hex: behind 5 GB in format 2", Dump("--hex").words(second.root, 2, str(counted_behind)), out=lines_of(NUMBERS[:600]), memory=SMALL_MEMORY),
        Case("dump --root: a bad leaf behind 5 GB", Dump().words(first.root, 1, str(few_bad)), status=4, out=records(first.pairs[: chunks_of(first, Dump())[last]]), err=refusal(another(last + 1))[2], memory=SMALL_MEMORY),
        Case("nth --root: behind 5 GB", Nth(599).words(second.root, 2, str(counted_behind)), out=line(NUMBERS[599]), memory=SMALL_MEMORY),
        Case("nth --root: no pair behind 5 GB", Nth(600).words(second.root, 2, str(counted_behind)), status=1, memory=SMALL_MEMORY),
    ]


def write_gap(path, level, rest, version=1, front=None):
    """A file, or a proof that begins with `front`, whose first chunk is of zeros behind its level, of which no more than that lies
    on the disk."""
    with open(path, "wb") as file:
        file.write((front or header(0, version)) + b"C" + GAP.to_bytes(8, "big") + level)
        file.seek(GAP - 1, os.SEEK_CUR)
        file.write(rest)
