"""`prove` and `verify`: what a map has at a key, shown to a client that knows only the root. They are compared with a
second maker and a second reader of proofs."""

import random
import subprocess
import tempfile
from functools import partial
from pathlib import Path

from cases.look_ups import LONG, NUMBERS, leaf
from cases.scratch import ABC
from oracle.checker import Fault
from oracle.proof import ABSENT, BAD_HEADER, FRAME_SIZE, HEADER, HEADER_SIZE, MORE, TRUNCATED, WRONG_VERSION, another, bad_chunk, bad_frame, out_of_order, proof_of, proof_of_chunks, read_proof, way, wrong_level
from oracle.trees import chunk_file, record, reference, reference_text, tree
from support.harness import BAD_KEY, FOLDER, Case, hexed, lay_out, shown

BAD_ROOT = b"prolly: not the text of a root\n"


def verdict(proof, root, key, version):
    """What `verify` answers: its status, and what it prints to both streams."""
    try:
        value = read_proof(proof, root, key, version)
    except Fault as fault:
        return 4, b"", f"prolly: proof: {fault}\n".encode()
    return (1, b"", b"") if value is ABSENT else (0, hexed(value) + b"\n", b"")


# ---- trees, and keys that they have and have not


def some_pairs(chance, count):
    """A map of random pairs, whose keys are of few letters."""
    return sorted({random_key(chance): chance.randbytes(chance.randrange(12)) for _ in range(count)}.items())


def random_key(chance):
    """A key: one of a few thousand, so that a map has many of those that are asked for."""
    return bytes(chance.choice(b"abcd\0\xff") for _ in range(chance.randrange(7)))


def kinds():
    """The maps, the bits and the versions of the trees of which proofs are made, with a name and keys to ask for."""
    chance = random.Random(48)
    for bits in (0, 1, 2, 4, 12):
        for version in (1, 2):
            pairs = some_pairs(chance, 200)
            keys = [chance.choice(pairs)[0] for _ in range(100)]
            keys += [random_key(chance) for _ in range(96)] + [b"", b"\xff" * 7, b"\xff" * 1_024, pairs[-1][0] + b"\0"]
            yield f"{len(pairs)} pairs, --bits {bits}, format {version}", pairs, bits, version, keys
    for version in (1, 2):
        yield f"the empty map, format {version}", [], 0, version, [b"", b"a", b"\xff" * 1_024]
        yield f"the empty key, format {version}", [(b"", b""), *ABC], 0, version, [b"", b"\0", b"a", b"b", b"c", b"d"]
        yield f"the greatest pair, format {version}", LONG, 0, version, [LONG[0][0], b"", b"\xff"]
        yield f"3,000 pairs, format {version}", NUMBERS, 2, version, [NUMBERS[1_234][0], NUMBERS[0][0], b"", b"\xff"]


class Asked:
    """A folder with a chunk file, and what the program answers there."""

    def __init__(self, program, folder, pairs, bits, version):
        self.program = program
        self.folder = folder
        self.version = version
        self.top = tree(pairs, bits, version)
        self.root = reference_text(self.top.reference)
        self.whole = chunk_file(pairs, bits, version)
        self.differences = []
        lay_out(folder, {"in.prl": self.whole})

    def run(self, *words, given=b""):
        """Runs the program, and gives its status and what it printed."""
        done = subprocess.run([self.program, *words], cwd=self.folder, input=given, capture_output=True, check=False)
        return done.returncode, done.stdout, done.stderr

    def wants(self, about, found, wanted):
        """Notes where an answer, or a file, is another one than is wanted."""
        if found != wanted:
            texts = [shown(what) if isinstance(what, bytes) else f"{what!r:.300}" for what in (found, wanted)]
            self.differences.append(f"{about}: {texts[0]}, wanted {texts[1]}")

    def proves(self, key):
        """Asks for the proof of a key: it is the second maker's."""
        self.wants(f"prove {key[:40].hex()}", self.run("prove", "in.prl", key.hex(), "p"), (0, b"", b""))
        proof = (self.folder / "p").read_bytes()
        self.wants(f"the proof of {key[:40].hex()}", proof, proof_of(self.top, key, self.version))
        return proof

    def verifies(self, about, proof, key, root=None):
        """Has the program read a proof as the second reader does. Gives what both are to answer."""
        known = self.top.reference if root is None else root
        wanted = verdict(proof, known, key, self.version)
        words = ["verify", "--format", str(self.version), reference_text(known), key.hex()]
        self.wants(about, self.run(*words, given=proof), wanted)
        return wanted


def are_proved(asked, pairs, keys):
    """The proofs of keys are those of the second maker, and show both readers what the map has."""
    has = dict(pairs)
    for key in keys:
        proof = asked.proves(key)
        answer = asked.verifies(f"verify {key[:40].hex()}", proof, key)
        value = has.get(key, ABSENT)
        asked.wants(f"what is proved of {key[:40].hex()}", answer, (1, b"", b"") if value is ABSENT else (0, hexed(value) + b"\n", b""))


# ---- proofs that were changed


def turned_bits(proof):
    """The proof with each of its bits turned, one at a time."""
    for place in range(len(proof)):
        for bit in range(8):
            yield f"byte {place}, bit {bit}", proof[:place] + bytes([proof[place] ^ 1 << bit]) + proof[place + 1 :]


def cut(proof):
    """The first parts of a proof."""
    for size in range(len(proof)):
        yield f"{size} bytes", proof[:size]


def are_refused(asked, key, changes):
    """A proof that was changed is refused, or shows what it showed."""
    proof = proof_of(asked.top, key, asked.version)
    right = verdict(proof, asked.top.reference, key, asked.version)
    for about, changed in changes(proof):
        answer = asked.verifies(about, changed, key)
        if answer[0] != 4 and answer != right:
            asked.differences.append(f"{about}: shows {answer}, and not {right}")


def is_of_another_tree(asked, pairs):
    """Proofs beside the root of a map with one pair more, one less, or another value; and proofs of another key."""
    others = [[*pairs, (b"\xff" * 9, b"1")], pairs[1:], [(pairs[0][0], pairs[0][1] + b"!"), *pairs[1:]]]
    for key in (pairs[0][0], pairs[-1][0], b"\xff" * 8):
        proof = proof_of(asked.top, key, asked.version)
        for number, other in enumerate(others):
            root = tree(other, 1, asked.version).reference
            asked.wants(f"map {number}", asked.verifies(f"map {number}", proof, key, root)[0], 4)
        for other_key in (pairs[0][0], pairs[len(pairs) // 2][0], pairs[-1][0]):
            asked.verifies(f"the proof of {key.hex()} for {other_key.hex()}", proof, other_key)


# ---- each fault


def node(level, *children, version=1):
    """A chunk of child entries: keys and the chunks that they name."""
    count = bytes(8) if version == 2 else b""
    entries = [len(key).to_bytes(2, "big") + key + reference(chunk) + count for key, chunk in children]
    return bytes([level]) + b"".join(entries)


def chains():
    """Proofs whose root is the first chunk, whatever it is: a name, the chunks, and what is wrong."""
    a, b = leaf(ABC[0]), leaf(ABC[1])
    above = node(1, (b"a", a), (b"b", b))
    turned, twice = leaf(ABC[1], ABC[0]), leaf(ABC[0], ABC[0])
    cut_leaf, removal = a[:-1], b"\0" + record(b"a", None)
    long_key = b"\0" + record(b"k" * 1_025, b"")
    yield "a leaf", [a], None
    yield "a node and a leaf", [above, a], None
    yield "a node without children", [node(1)], None
    yield "a root of level 255", [node(255)], None
    yield "another leaf", [above, b], another(1)
    yield "a leaf that was changed", [above, leaf((b"a", b"2"))], another(1)
    yield "no chunk", [], TRUNCATED
    yield "no leaf", [above], TRUNCATED
    yield "a leaf more", [above, a, a], MORE
    yield "a chunk behind a node without children", [node(1), a], MORE
    for name, bad in (("no bytes", b""), ("an entry that is cut", cut_leaf), ("a removal", removal), ("a long key", long_key)):
        yield f"{name} at the root", [bad], bad_chunk(0)
        yield f"{name} below", [node(1, (b"a", bad)), bad], bad_chunk(1)
    yield "a child that is cut", [above[:-1]], bad_chunk(0)
    yield "a node of the other format", [node(1, (b"a", a), version=2)], bad_chunk(0)
    for name, bad in (("other order", turned), ("a key twice", twice)):
        yield f"{name} at the root", [bad], out_of_order(0)
        yield f"{name} below", [node(1, (b"b", bad)), bad], out_of_order(1)
    yield "children in another order", [node(1, (b"b", b), (b"a", a)), b], out_of_order(0)
    yield "a leaf two levels below", [node(2, (b"a", a)), a], wrong_level(1)
    yield "a node on its own level", [node(1, (b"b", above)), above, a], wrong_level(1)
    yield "a node above its own level", [node(1, (b"b", node(2, (b"a", a)))), node(2, (b"a", a)), a], wrong_level(1)
    yield "a leaf of the wrong level behind two nodes", [node(3, (b"a", node(2, (b"a", a)))), node(2, (b"a", a)), a], wrong_level(2)
    yield "an order before a level", [node(2, (b"b", turned)), turned], out_of_order(1)
    yield "a fault before bytes after the end", [turned, a], out_of_order(0)


def spoiled():
    """Proofs of the key `a` that no chain of chunks makes: a name, the proof, and what is wrong."""
    good = proof_of(tree(ABC, 0, 1), b"a", 1)
    chunks = way(tree(ABC, 0, 1), b"a")
    first = HEADER_SIZE + FRAME_SIZE + len(chunks[0])
    yield "no bytes", b"", TRUNCATED
    yield "a header alone", good[:HEADER_SIZE], TRUNCATED
    yield "a header that is cut", good[:4], TRUNCATED
    yield "a chunk file", chunk_file(ABC, 0), BAD_HEADER
    yield "another letter", b"PRLQ", BAD_HEADER
    yield "version 3", HEADER + b"\3" + good[HEADER_SIZE:], BAD_HEADER
    yield "version 2", HEADER + b"\2" + good[HEADER_SIZE:], WRONG_VERSION
    yield "another frame", good[:HEADER_SIZE] + b"D" + good[HEADER_SIZE + 1 :], bad_frame(0)
    yield "an end record", good[:HEADER_SIZE] + b"E" + good[HEADER_SIZE + 1 :], bad_frame(0)
    yield "another frame, whose length is cut", good[:HEADER_SIZE] + b"D\0", bad_frame(0)
    yield "another frame, whose chunk is cut", good[:HEADER_SIZE] + b"D" + b"\xff" * 8, bad_frame(0)
    yield "another second frame", good[:first] + b"D" + good[first + 1 :], bad_frame(1)
    yield "the greatest length", good[:HEADER_SIZE] + b"C" + b"\xff" * 8 + good[HEADER_SIZE + FRAME_SIZE :], TRUNCATED
    yield "a first chunk that was changed", good[: first - 1] + bytes([good[first - 1] ^ 1]) + good[first:], another(0)
    yield "a byte more", good + b"\0", MORE
    yield "a letter more", good + b"C", MORE
    yield "a proof twice", good + good, MORE
    yield "the chunks upside down", proof_of_chunks(reversed(chunks), 1), another(0)


def fault_cases():
    """Each line of a fault, and chains that have none, for the key `a`."""
    found = []
    for name, chunks, fault in chains():
        root = reference(chunks[0]) if chunks else reference(b"\0")
        found.append(verified(name, proof_of_chunks(chunks, 1), root, fault))
    return found + [verified(name, proof, tree(ABC, 0, 1).reference, fault) for name, proof, fault in spoiled()]


def verified(name, proof, root, fault, version=1):
    """A proof of the key `a` that the second reader takes for what its maker wants it to be."""
    status, out, err = verdict(proof, root, b"a", version)
    assert err == (f"prolly: proof: {fault}\n".encode() if fault else b""), (name, err)
    words = ["verify", "--format", str(version), reference_text(root), "61", "p"]
    return Case(f"verify: {name}", words, status=status, out=out, err=err, before={"p": proof})


# ---- words, files and devices


def cases(_):
    """All cases of one run."""
    return fault_cases() + root_cases() + prove_cases() + verify_cases()


def root_cases():
    """Words for the root that are the text of no reference. They are told before a bad key."""
    good = reference_text(tree(ABC, 0, 1).reference)
    bad = ["", good[:-1], good + "0", good[:-1] + "w", good.upper(), good[:-1] + " ", "0x" + good[2:], "-" * 32, "é" * 16, good * 2]
    return [
        Case(f"verify: the root {word}", ["verify", "--", word, key, "p"], status=2, err=BAD_ROOT, before={"p": proof_of(tree(ABC, 0, 1), b"a", 1)})
        for word in bad
        for key in ("61", "6")
    ] + [Case("verify: a key that is none", ["verify", good, "6g", "p"], status=2, err=BAD_KEY)]


def prove_cases():
    """What `prove` takes for a file and a key, and what becomes of OUT."""
    good, cut_file = {"in.prl": chunk_file(ABC, 0)}, {"in.prl": chunk_file(ABC, 0)[:-1]}
    words = ["prove", "in.prl", "62", "p"]
    proof = proof_of(tree(ABC, 0, 1), b"b", 1)
    truncated = b"prolly: chunk file: truncated\n"
    before = proof_of(tree(ABC, 0, 1), b"a", 1)
    return [
        Case("prove: a key", words, before=good, after={"p": proof}),
        Case("prove: upper case", ["prove", "in.prl", "6B", "p"], before=good, after={"p": proof_of(tree(ABC, 0, 1), b"k", 1)}),
        Case("prove: nothing is printed", words, before=good, after={"p": proof}, stdout="full"),
        Case("prove: OUT is replaced", ["prove", "--atomic", "--sync", *words[1:]], before=good | {"p": before}, after={"p": proof}),
        Case("prove: OUT is as it was", words, status=4, err=truncated, before=cut_file | {"p": before}),
        Case("prove: no FILE", words, status=5, err=b"prolly: cannot open in.prl\n", before={"p": before}),
        Case("prove: a folder", words, status=5, err=b"prolly: chunk file: read failed\n", before={"in.prl": FOLDER}),
        Case("prove: OUT is a folder", ["prove", "in.prl", "62", "out"], status=5, err=b"prolly: cannot open out\n", before=good | {"out": FOLDER}),
        Case("prove: OUT is FILE", ["prove", "in.prl", "62", "in.prl"], status=5, err=b"prolly: OUT is also an input: in.prl\n", before=good),
        Case("prove: OUT is a full device", ["prove", "in.prl", "62", "/dev/full"], status=5, err=b"prolly: write failed\n", before=good),
        Case("prove: OUT is standard output", ["prove", "in.prl", "62", "/dev/stdout"], out=proof, before=good),
        Case("prove: a key that is none", ["prove", "in.prl", "6", "p"], status=2, err=BAD_KEY, before=good),
    ]


def verify_cases():
    """Where `verify` reads a proof, and what becomes of its answer."""
    top = tree(ABC, 0, 2)
    words = ["verify", "--format", "2", reference_text(top.reference)]
    proof, absent = proof_of(top, b"b", 2), proof_of(top, b"bb", 2)
    return [
        Case("verify: a file", [*words, "62", "p"], out=b"31\n", before={"p": proof}),
        Case("verify: standard input", [*words, "62"], proof, out=b"31\n"),
        Case("verify: no value", [*words, "6262", "p"], status=1, before={"p": absent}),
        Case("verify: no value, on standard input", [*words, "6262"], absent, status=1),
        Case("verify: the default is format 1", ["verify", words[3], "62", "p"], status=4, err=f"prolly: proof: {WRONG_VERSION}\n".encode(), before={"p": proof}),
        Case("verify: no file", [*words, "62", "p"], status=5, err=b"prolly: cannot open p\n"),
        Case("verify: a folder", [*words, "62", "p"], status=5, err=b"prolly: file 0: read failed\n", before={"p": FOLDER}),
        Case("verify: a closed input", [*words, "62"], None, status=5, err=b"prolly: file 0: read failed\n"),
        Case("verify: standard output is full", [*words, "62", "p"], status=5, err=b"prolly: write failed\n", before={"p": proof}, stdout="full"),
        Case("verify: nobody reads", [*words, "62", "p"], status=5, err=b"prolly: write failed\n", before={"p": proof}, stdout="unread"),
        Case("verify: no value for a full device", [*words, "6262", "p"], status=1, before={"p": absent}, stdout="full"),
    ]


# ---- all


def tests():
    """All tests of many runs: for each a name, the tree, and what is done."""
    for name, pairs, bits, version, keys in kinds():
        yield f"proofs: {name}", (pairs, bits, version), partial(are_proved, pairs=pairs, keys=keys)
    for version in (1, 2):
        for key in (b"a", b"bb"):
            change = partial(are_refused, key=key)
            yield f"each bit of the proof of {key.decode()} turned, format {version}", (ABC, 0, version), partial(change, changes=turned_bits)
        for key in (b"", b"a", b"b", b"c", b"d"):
            yield f"the proof of {key.decode()} cut, format {version}", (ABC, 0, version), partial(are_refused, key=key, changes=cut)
        pairs = some_pairs(random.Random(version), 60)
        yield f"proofs of other trees and keys, format {version}", (pairs, 1, version), partial(is_of_another_tree, pairs=pairs)


def all_runs(program, _):
    """Runs all tests, each in a folder of its own, and gives for each its name and its differences."""
    for name, kind, test in tests():
        with tempfile.TemporaryDirectory() as inside:
            asked = Asked(program, Path(inside), *kind)
            test(asked)
            yield name, asked.differences
