"""`prove` and `verify` of ranges: all pairs between two keys, shown to a client that knows only the root. They are compared
with a second maker and a second reader of such proofs, and with `scan`."""

import random
import shlex
import subprocess
import tempfile
from functools import partial
from pathlib import Path

from cases.look_ups import LONG, NUMBERS, assembled, leaf
from cases.proofs import BAD_ROOT, Asked, cut, node, random_key, some_pairs, turned_bits
from cases.scratch import ABC
from oracle.proof import BAD_HEADER, FRAME_SIZE, HEADER, HEADER_SIZE, MORE, TRUNCATED, WRONG_VERSION, another, bad_chunk, bad_frame, out_of_order, proof_of, wrong_level
from oracle.range_proof import chunks_met, range_proof_of, range_proof_of_chunks, read_range_proof, within
from oracle.reader import MISSING
from oracle.trees import chunk_file, reference, reference_text, tree
from support.by_root import lines_of
from support.harness import BAD_KEY, BAD_TEXT_KEY, FOLDER, Case

RANGES_OF_A_KIND = 100
"""How many random ranges are asked for of each tree. There are twenty trees."""


def words_of(first, end):
    """The words that name a range."""
    return ["--from", first.hex()] + ([] if end is None else ["--to", end.hex()])


def verdict(proof, root, first, end, version):
    """What `verify` answers: its status, and what it prints to both streams."""
    pairs, fault = read_range_proof(proof, root, first, end, version)
    told = b"" if fault is None else f"prolly: proof: {fault}\n".encode()
    return (0 if fault is None else 4), lines_of(pairs), told


class AskedRanges(Asked):
    """A folder with a chunk file, and what the program answers there of ranges."""

    def run_in_shell(self, words):
        """Runs the program by a shell, so that its streams go where these words say."""
        done = subprocess.run(["sh", "-c", f"{shlex.quote(self.program)} {words}"], cwd=self.folder, capture_output=True, check=False)
        return done.returncode, done.stdout, done.stderr

    def proves_range(self, first, end, by_root):
        """Asks for the proof of a range: it is the second maker's."""
        root = ["--root", self.root, "--format", str(self.version)] if by_root else []
        words = ["prove", *root, *words_of(first, end), "in.prl", "p"]
        self.wants(" ".join(words), self.run(*words), (0, b"", b""))
        proof = (self.folder / "p").read_bytes()
        self.wants(f"the proof of {words_of(first, end)}", proof, range_proof_of(self.top, first, end, self.version))
        return proof

    def verifies_range(self, about, proof, first, end, root=None):
        """Has the program read a proof as the second reader does. Gives what both are to answer."""
        known = self.top.reference if root is None else root
        wanted = verdict(proof, known, first, end, self.version)
        words = ["verify", "--format", str(self.version), *words_of(first, end), reference_text(known)]
        self.wants(about, self.run(*words, given=proof), wanted)
        return wanted


# ---- trees, and ranges of their keys


def kinds():
    """The maps, the bits and the versions of the trees of which ranges are asked for, with a name."""
    chance = random.Random(54)
    for count, bits in ((200, 0), (200, 1), (200, 2), (300, 3), (300, 4), (200, 12)):
        for version in (1, 2):
            yield f"{count} pairs, --bits {bits}, format {version}", some_pairs(chance, count), bits, version
    for version in (1, 2):
        yield f"the empty map, format {version}", [], 0, version
        yield f"the empty key, format {version}", [(b"", b""), *ABC], 0, version
        yield f"the greatest pair, format {version}", LONG, 0, version
        yield f"3,000 pairs, format {version}", NUMBERS, 4, version


def some_ranges(chance, pairs):
    """Random ranges: of keys that are there and of others, with an end or without one, empty ones among them."""
    keys = [key for key, _ in pairs] or [b"a"]
    for number in range(RANGES_OF_A_KIND):
        first, end = (chance.choice([chance.choice(keys), chance.choice(keys) + b"\0", random_key(chance)]) for _ in range(2))
        if chance.random() < 0.8:
            first, end = sorted((first[:1_024], end[:1_024]))
        yield first[:1_024], (None if number % 10 == 9 else end[:1_024])
    yield b"", None
    yield b"\xff" * 1_024, None
    yield keys[0], (keys[0] + b"\0")[:1_024]


def are_proved(asked, pairs, seed):
    """The proofs of ranges are those of the second maker, and show both readers what the map, and `scan`, have there."""
    for number, (first, end) in enumerate(some_ranges(random.Random(seed), pairs)):
        proof = asked.proves_range(first, end, by_root=number % 4 == 0)
        answer = asked.verifies_range(f"verify {words_of(first, end)}", proof, first, end)
        there = within(pairs, first, end)
        asked.wants(f"what is proved of {words_of(first, end)}", answer, (0, lines_of(there), b""))
        if number % 5 == 0:
            scanned = asked.run("scan", "in.prl", first.hex(), str(len(there)))
            asked.wants(f"scan {first.hex()} {len(there)}", scanned, (0, lines_of(there), b""))


# ---- proofs that were changed


def are_refused(asked, pairs, first, end, changes):
    """A proof that was changed is refused, and what is printed before that is the first part of what it showed."""
    proof = range_proof_of(asked.top, first, end, asked.version)
    right = lines_of(within(pairs, first, end))
    for about, changed in changes(proof):
        status, out, _ = asked.verifies_range(about, changed, first, end)
        if changed != proof and (status != 4 or not right.startswith(out)):
            asked.differences.append(f"{about}: status {status}, shows {out!r}")


def moved_chunks(asked, first, end):
    """A proof with a chunk left out, doubled, exchanged with another, or taken from another tree."""
    chunks = chunks_met(asked.top, first, end)
    there = set(chunks)
    foreign = [part.chunk for part in tree([*ABC, (b"\xfe", b"1")], 0, asked.version).trees() if part.chunk not in there]
    for place, chunk in enumerate(chunks):
        yield f"chunk {place} left out", chunks[:place] + chunks[place + 1 :]
        yield f"chunk {place} doubled", chunks[:place] + [chunk] + chunks[place:]
        yield f"chunk {place} taken from another tree", chunks[:place] + [foreign[place % len(foreign)]] + chunks[place + 1 :]
        for other in range(place + 1, len(chunks)):
            exchanged = list(chunks)
            exchanged[place], exchanged[other] = exchanged[other], exchanged[place]
            yield f"chunks {place} and {other} exchanged", exchanged
    yield "a chunk more", [*chunks, chunks[-1]]
    yield "all chunks of the tree", [part.chunk for part in asked.top.trees()]


def are_moved(asked, pairs, first, end):
    """Such proofs are refused."""
    changed = [(about, range_proof_of_chunks(chunks, asked.version)) for about, chunks in moved_chunks(asked, first, end)]
    are_refused(asked, pairs, first, end, lambda proof: changed)


def is_of_another(asked, pairs):
    """Proofs beside the roots of other maps, and for other ranges: those of wider ones, of narrower ones and of one key."""
    others = [[*pairs, (b"\xff" * 9, b"1")], pairs[1:], [(pairs[0][0], pairs[0][1] + b"!"), *pairs[1:]]]
    keys = [pairs[0][0], pairs[len(pairs) // 3][0], pairs[2 * len(pairs) // 3][0], pairs[-1][0], None]
    ranges = [(first, end) for first in keys[:-1] for end in keys if end is None or end > first]
    for first, end in ranges:
        proof = range_proof_of(asked.top, first, end, asked.version)
        for number, other in enumerate(others):
            root = tree(other, 1, asked.version).reference
            asked.wants(f"map {number}", asked.verifies_range(f"map {number}", proof, first, end, root)[0], 4)
        for asked_first, asked_end in ranges:
            answer = asked.verifies_range(f"{words_of(first, end)} for {words_of(asked_first, asked_end)}", proof, asked_first, asked_end)
            right = lines_of(within(pairs, asked_first, asked_end))
            if not right.startswith(answer[1]) or (answer[0] == 0 and answer[1] != right):
                asked.differences.append(f"{words_of(first, end)} for {words_of(asked_first, asked_end)}: {answer}")
    single = proof_of(asked.top, pairs[0][0], asked.version)
    asked.wants("the proof of a key", asked.verifies_range("the proof of a key", single, pairs[0][0], None)[2], f"prolly: proof: {BAD_HEADER}\n".encode())
    of_range = range_proof_of(asked.top, pairs[0][0], None, asked.version)
    told = asked.run("verify", "--format", str(asked.version), asked.root, pairs[0][0].hex(), given=of_range)
    asked.wants("the proof of a range, for a key", told, (4, b"", f"prolly: proof: {BAD_HEADER}\n".encode()))


# ---- each fault


def chains():
    """Proofs whose root is the first chunk, whatever it is: a name, the chunks, and what is wrong."""
    a, b = leaf(ABC[0]), leaf(ABC[1])
    above = node(1, (b"a", a), (b"b", b))
    turned, twice = leaf(ABC[1], ABC[0]), leaf(ABC[0], ABC[0])
    yield "a leaf", [a], None
    yield "a node and its leaves", [above, a, b], None
    yield "a node without children", [node(1)], None
    yield "no chunk", [], TRUNCATED
    yield "no leaf", [above], TRUNCATED
    yield "no second leaf", [above, a], TRUNCATED
    yield "the second leaf alone", [above, b], another(1)
    yield "the leaves exchanged", [above, b, a], another(1)
    yield "the first leaf twice", [above, a, a, b], another(2)
    yield "a second leaf that was changed", [above, a, leaf((b"b", b"2"))], another(2)
    yield "a leaf more", [above, a, b, b], MORE
    yield "a chunk behind a node without children", [node(1), a], MORE
    yield "no bytes below", [node(1, (b"a", b"")), b""], bad_chunk(1)
    yield "a child that is cut", [above[:-1]], bad_chunk(0)
    yield "a node of the other format", [node(1, (b"a", a), version=2)], bad_chunk(0)
    for name, bad in (("other order", turned), ("a key twice", twice)):
        yield f"{name} at the root", [bad], out_of_order(0)
        yield f"{name} below", [node(1, (b"b", bad)), bad], out_of_order(1)
    yield "a leaf two levels below", [node(2, (b"a", a)), a], wrong_level(1)
    yield "a second leaf in the place of a node", [node(2, (b"a", node(1, (b"a", a))), (b"b", b)), node(1, (b"a", a)), a, b], wrong_level(3)


def spoiled():
    """Proofs of all keys from `a` on that no chain of chunks makes: a name, the proof, and what is wrong."""
    good = range_proof_of(tree(ABC, 0, 1), b"a", None, 1)
    first = HEADER_SIZE + FRAME_SIZE + len(tree(ABC, 0, 1).chunk)
    yield "no bytes", b"", TRUNCATED
    yield "a header alone", good[:HEADER_SIZE], TRUNCATED
    yield "a header that is cut", good[:4], TRUNCATED
    yield "a chunk file", chunk_file(ABC, 0), BAD_HEADER
    yield "another letter", b"PRLQ", BAD_HEADER
    yield "the proof of a key", proof_of(tree(ABC, 0, 1), b"a", 1), BAD_HEADER
    yield "version 3", HEADER + b"\x13" + good[HEADER_SIZE:], BAD_HEADER
    yield "version 2", HEADER + b"\x12" + good[HEADER_SIZE:], WRONG_VERSION
    yield "another frame", good[:HEADER_SIZE] + b"D" + good[HEADER_SIZE + 1 :], bad_frame(0)
    yield "another frame, whose length is cut", good[:HEADER_SIZE] + b"D\0", bad_frame(0)
    yield "another second frame", good[:first] + b"D" + good[first + 1 :], bad_frame(1)
    yield "a great length", good[:HEADER_SIZE] + b"C" + b"\x7f" * 8 + good[HEADER_SIZE + FRAME_SIZE :], TRUNCATED
    yield "a byte more", good + b"\0", MORE
    yield "a letter more", good + b"C", MORE
    yield "a proof twice", good + good, MORE


def fault_cases():
    """Each line of a fault, and chains that have none, for all keys from `a` on."""
    found = []
    for name, chunks, fault in chains():
        root = reference(chunks[0]) if chunks else reference(b"\0")
        found.append(verified(name, range_proof_of_chunks(chunks, 1), root, fault))
    return found + [verified(name, proof, tree(ABC, 0, 1).reference, fault) for name, proof, fault in spoiled()]


def verified(name, proof, root, fault):
    """A proof that the second reader takes for what its maker wants it to be."""
    status, out, err = verdict(proof, root, b"a", None, 1)
    assert err == (f"prolly: proof: {fault}\n".encode() if fault else b""), (name, err)
    return Case(f"verify --from: {name}", ["verify", "--from", "61", reference_text(root), "p"], status=status, out=out, err=err, before={"p": proof})


# ---- words, files and devices


def cases(_):
    """All cases of one run."""
    return fault_cases() + word_cases() + prove_cases() + verify_cases()


def word_cases():
    """Words of a range that are no keys, or stand beside a word for a root that is none. (What does not fit is told as by clap.)"""
    good = reference_text(tree(ABC, 0, 1).reference)
    before = {"in.prl": chunk_file(ABC, 0), "p": range_proof_of(tree(ABC, 0, 1), b"a", None, 1)}
    no_key, no_text, no_root = ({"status": 2, "err": err, "before": before} for err in (BAD_KEY, BAD_TEXT_KEY, BAD_ROOT))
    return [
        Case("prove --from: no key", ["prove", "--from", "6", "in.prl", "p"], **no_key),
        Case("prove --to: no key", ["prove", "--from", "61", "--to", "6g", "in.prl", "p"], **no_key),
        Case("prove --to: a long key", ["prove", "--from", "61", "--to", "61" * 1_025, "in.prl", "p"], **no_key),
        Case("prove --from --text: no key", ["prove", "--text", "--from", "\\q", "in.prl", "p"], **no_text),
        Case("prove --from: a bad root before a bad key", ["prove", "--from", "6", "--root", "r", "in.prl", "p"], **no_root),
        Case("verify --from: no key", ["verify", "--from", "6", good, "p"], **no_key),
        Case("verify --to --text: no key", ["verify", "--text", "--from", "a", "--to", "a\tb", good, "p"], **no_text),
        Case("verify --from: a bad root before a bad key", ["verify", "--from", "6", "r", "p"], **no_root),
    ]


def prove_cases():
    """What `prove` of a range takes for a file, and what becomes of OUT."""
    good, top = {"in.prl": chunk_file(ABC, 0)}, tree(ABC, 0, 1)
    words = ["prove", "--from", "61", "--to", "63", "in.prl", "p"]
    proof, old = range_proof_of(top, b"a", b"c", 1), proof_of(top, b"a", 1)
    by_root = ["prove", "--root", reference_text(top.reference), *words[1:]]
    turned = chunk_file(ABC, 0).replace(leaf(ABC[1]), leaf((b"b", b"2")))
    number = [part.chunk for part in top.trees()].index(leaf(ABC[1]))
    two = node(1, (b"a", leaf(ABC[0])), (b"b", leaf(ABC[1])))
    lacking = {"in.prl": assembled([leaf((b"a", b"2")), two], bytes(20)), "p": old}
    of_two = ["prove", "--root", reference_text(reference(two)), "in.prl", "p", "--from", "61"]
    return [
        Case("prove --from: a range", words, before=good, after={"p": proof}),
        Case("prove --from: without an end", ["prove", "in.prl", "p", "--from", "61"], before=good, after={"p": range_proof_of(top, b"a", None, 1)}),
        Case("prove --from: the empty key", ["prove", "--from", "", "in.prl", "p"], before=good, after={"p": range_proof_of(top, b"", None, 1)}),
        Case("prove --from --text", ["prove", "--text", "--from", "a", "--to=c", "in.prl", "p"], before=good, after={"p": proof}),
        Case("prove --from: nothing is printed", words, before=good, after={"p": proof}, stdout="full"),
        Case("prove --from: the proof of a key is replaced", [*words, "--atomic", "--sync"], before=good | {"p": old}, after={"p": proof}),
        Case("prove --from: a cut file, and OUT is as it was", words, status=4, err=b"prolly: chunk file: truncated\n", before={"in.prl": good["in.prl"][:-1], "p": old}),
        Case("prove --from: OUT is of another kind", words, status=5, err=b"prolly: OUT is not a proof: p\n", before=good | {"p": b"something"}),
        Case("prove --from: OUT is of another kind, with --force", [*words, "--force"], before=good | {"p": b"something"}, after={"p": proof}),
        Case("prove --from: OUT is FILE", [*words[:-1], "in.prl"], status=5, err=b"prolly: OUT is also an input: in.prl\n", before=good),
        Case("prove --from: OUT is standard output", [*words[:-1], "/dev/stdout"], out=proof, before=good),
        Case("prove --from: OUT is a full device", [*words[:-1], "/dev/full"], status=5, err=b"prolly: write failed\n", before=good),
        Case("prove --from: no FILE, and OUT is as it was", words, status=5, err=b"prolly: cannot open in.prl\n", before={"p": old}),
        Case("prove --from --root", by_root, before=good, after={"p": proof}),
        Case("prove --from --root: a chunk is another, and OUT is as it was", by_root, status=4, err=f"prolly: chunk file: {another(number)}\n".encode(), before={"in.prl": turned, "p": old}),
        Case("prove --from --root: a chunk elsewhere is another", [*by_root[:3], "--from", "61", "--to", "62", "in.prl", "p"], before={"in.prl": chunk_file(ABC, 0).replace(leaf(ABC[2]), leaf((b"c", b"2")))}, after={"p": range_proof_of(top, b"a", b"b", 1)}),
        Case("prove --from --root: a child is missing, and the one before it is another", of_two, status=4, err=f"prolly: chunk file: {MISSING}\n".encode(), before=lacking),
        Case("prove --from --root: no key is sought in the child that is missing", [*of_two, "--to", "61"], status=4, err=f"prolly: chunk file: {another(0)}\n".encode(), before=lacking),
    ]


def verify_cases():
    """Where `verify` of a range reads a proof, and what becomes of its answer."""
    top = tree(ABC, 0, 2)
    root = reference_text(top.reference)
    words = ["verify", "--format", "2", "--from", "61", "--to", "63", root]
    proof, none = range_proof_of(top, b"a", b"c", 2), range_proof_of(top, b"aa", b"b", 2)
    lines = lines_of(ABC[:2])
    return [
        Case("verify --from: a file", [*words, "p"], out=lines, before={"p": proof}),
        Case("verify --from: standard input", words, proof, out=lines),
        Case("verify --from --text", ["verify", "--text", root, "--from", "a", "--to", "c", "--format", "2"], proof, out=b"".join(key + b"\t" + value + b"\n" for key, value in ABC[:2])),
        Case("verify --from: no pair", ["verify", "--format", "2", "--from", "6161", "--to", "62", root, "p"], before={"p": none}),
        Case("verify --from: an empty range", ["verify", "--format", "2", "--from", "63", "--to", "61", root], range_proof_of(top, b"c", b"a", 2)),
        Case("verify --from: the default is format 1", ["verify", "--from", "61", "--to", "63", root, "p"], status=4, err=f"prolly: proof: {WRONG_VERSION}\n".encode(), before={"p": proof}),
        Case("verify --from: a cut proof shows its first pairs", [*words, "p"], status=4, out=lines, err=f"prolly: proof: {TRUNCATED}\n".encode(), before={"p": proof[:-1]}),
        Case("verify --from: no file", [*words, "p"], status=5, err=b"prolly: cannot open p\n"),
        Case("verify --from: a folder", [*words, "p"], status=5, err=b"prolly: file 0: read failed\n", before={"p": FOLDER}),
        Case("verify --from: a closed input", words, None, status=5, err=b"prolly: file 0: read failed\n"),
        Case("verify --from: standard output is full", [*words, "p"], status=5, err=b"prolly: write failed\n", before={"p": proof}, stdout="full"),
        Case("verify --from: nobody reads", [*words, "p"], status=5, err=b"prolly: write failed\n", before={"p": proof}, stdout="unread"),
        Case("verify --from: no pair for a full device", ["verify", "--format", "2", "--from", "6161", "--to", "62", root, "p"], before={"p": none}, stdout="full"),
    ]


def is_no_input(asked):
    """Standard output that is PROOF, or the file behind standard input, is refused, and the file stays as it is."""
    proof = range_proof_of(asked.top, b"a", None, asked.version)
    path = asked.folder / "p"
    path.write_bytes(proof)
    words = f"verify --format {asked.version} --from 61 {asked.root}"
    for redirected, name in ((f"{words} p >> p", "p"), (f"{words} < p >> p", "standard input")):
        told = asked.run_in_shell(redirected)
        asked.wants(redirected, told, (5, b"", f"prolly: standard output is also an input: {name}\n".encode()))
        asked.wants(f"p behind {redirected}", path.read_bytes(), proof)


# ---- all


def turned_ranges():
    """Ten short proofs: the pairs, the bits and the version of the tree, and the range."""
    for version in (1, 2):
        yield [], 0, version, b"a", None
        yield ABC[:1], 0, version, b"", None
        yield ABC, 12, version, b"b", b"c"
    yield ABC, 0, 1, b"a", b"b"
    yield ABC, 0, 1, b"b", b"bb"
    yield ABC, 0, 2, b"c", None
    yield ABC, 0, 1, b"d", None


def tests():
    """All tests of many runs: for each a name, the tree, and what is done."""
    for seed, (name, pairs, bits, version) in enumerate(kinds()):
        yield f"proofs of ranges: {name}", (pairs, bits, version), partial(are_proved, pairs=pairs, seed=seed)
    for pairs, bits, version, first, end in turned_ranges():
        about = f"{len(pairs)} pairs, --bits {bits}, format {version}, {words_of(first, end)}"
        refused = partial(are_refused, pairs=pairs, first=first, end=end)
        yield f"each bit of a proof turned: {about}", (pairs, bits, version), partial(refused, changes=turned_bits)
        yield f"a proof cut: {about}", (pairs, bits, version), partial(refused, changes=cut)
    for version in (1, 2):
        pairs = some_pairs(random.Random(version), 40)
        yield f"chunks of a proof moved, format {version}", (pairs, 1, version), partial(are_moved, pairs=pairs, first=pairs[10][0], end=pairs[25][0])
        yield f"proofs of other trees and ranges, format {version}", (pairs, 1, version), partial(is_of_another, pairs=pairs)
        yield f"a proof that is standard output, format {version}", (ABC, 0, version), is_no_input


def all_runs(program, _):
    """Runs all tests, each in a folder of its own, and gives for each its name and its differences."""
    for name, kind, test in tests():
        with tempfile.TemporaryDirectory() as inside:
            asked = AskedRanges(program, Path(inside), *kind)
            test(asked)
            yield name, asked.differences
