"""`get`, `prove` and `verify` of many keys, which the lines of a file stand for. They are compared with a second maker and a second
reader of such proofs, and with what the map has at each key."""

import random
import tempfile
from functools import partial
from pathlib import Path

from cases.look_ups import LONG, NUMBERS, leaf
from cases.proofs import BAD_ROOT, cut, node, random_key, some_pairs, turned_bits
from cases.range_proofs import AskedRanges
from cases.scratch import ABC
from oracle.key_proof import chunks_of_keys, found_at, key_proof_of, read_key_proof
from oracle.proof import BAD_HEADER, FRAME_SIZE, HEADER_SIZE, MORE, TRUNCATED, WRONG_VERSION, another, proof_of, wrong_level
from oracle.range_proof import range_proof_of, range_proof_of_chunks
from oracle.trees import chunk_file, reference, reference_text, tree
from support.harness import FOLDER, Case, hexed

LISTS_OF_A_KIND = 50
"""How many random lists are asked for of each tree. There are twenty trees."""


def file_of(keys):
    """A file of these keys, in hexadecimal."""
    return b"".join(hexed(key) + b"\n" for key in keys)


def lines_found(found):
    """The lines of keys and of what was found there."""
    return b"".join(hexed(key) + (b"" if value is None else b" " + hexed(value)) + b"\n" for key, value in found)


def verdict(proof, root, keys, version):
    """What `verify` answers: its status, and what it prints to both streams."""
    found, fault = read_key_proof(proof, root, keys, version)
    told = b"" if fault is None else f"prolly: proof: {fault}\n".encode()
    return (0 if fault is None else 4), lines_found(found), told


class AskedKeys(AskedRanges):
    """A folder with a chunk file, and what the program answers there of many keys."""

    def keeps(self, keys):
        """Writes a file of these keys."""
        (self.folder / "keys").write_bytes(file_of(keys))

    def by_root(self):
        """The words that name the root."""
        return ["--root", self.root, "--format", str(self.version)]

    def gets_keys(self, keys, pairs):
        """Asks for what there is, with the file and by its root."""
        for words in ([], self.by_root()):
            answer = self.run("get", *words, "--keys", "keys", "in.prl")
            self.wants(f"get {words} of {len(keys)} keys", answer, (0, lines_found(found_at(pairs, keys)), b""))

    def proves_keys(self, keys, by_root):
        """Asks for the proof of keys: it is the second maker's."""
        words = ["prove", *(self.by_root() if by_root else []), "--keys", "keys", "in.prl", "p"]
        self.wants(" ".join(words), self.run(*words), (0, b"", b""))
        proof = (self.folder / "p").read_bytes()
        self.wants(f"the proof of {len(keys)} keys", proof, key_proof_of(self.top, keys, self.version))
        return proof

    def verifies_keys(self, about, proof, keys, root=None):
        """Has the program read a proof as the second reader does. Gives what both are to answer."""
        known = self.top.reference if root is None else root
        wanted = verdict(proof, known, keys, self.version)
        words = ["verify", "--format", str(self.version), "--keys", "keys", reference_text(known)]
        self.wants(about, self.run(*words, given=proof), wanted)
        return wanted


# ---- trees, and lists of their keys


def kinds():
    """The maps, the bits and the versions of the trees of which keys are asked for, with a name."""
    chance = random.Random(540)
    for count, bits in ((200, 0), (200, 1), (200, 2), (300, 3), (300, 4), (200, 12)):
        for version in (1, 2):
            yield f"{count} pairs, --bits {bits}, format {version}", some_pairs(chance, count), bits, version
    for version in (1, 2):
        yield f"the empty map, format {version}", [], 0, version
        yield f"the empty key, format {version}", [(b"", b""), *ABC], 0, version
        yield f"the greatest pair, format {version}", LONG, 0, version
        yield f"3,000 pairs, format {version}", NUMBERS, 4, version


def some_lists(chance, pairs):
    """Random lists: of keys that are there and of others, long ones and short ones."""
    keys = [key for key, _ in pairs] or [b"a"]
    for _ in range(LISTS_OF_A_KIND):
        count = chance.choice([1, 2, 3, 10, 40, len(keys)])
        there = [chance.choice(keys) for _ in range(chance.randrange(count + 1))]
        others = [chance.choice([chance.choice(keys) + b"\0", random_key(chance)])[:1_024] for _ in range(count - len(there))]
        yield sorted({*there, *others})
    yield []
    yield [b""]
    yield [b"\xff" * 1_024]
    yield sorted({b"", *keys, b"\xff" * 1_024})


def are_proved(asked, pairs, seed):
    """The proofs of keys are those of the second maker, and show both readers what the map, and `get`, have there."""
    for number, keys in enumerate(some_lists(random.Random(seed), pairs)):
        asked.keeps(keys)
        proof = asked.proves_keys(keys, by_root=number % 4 == 0)
        answer = asked.verifies_keys(f"verify {len(keys)} keys", proof, keys)
        asked.wants(f"what is proved of {keys!r}", answer, (0, lines_found(found_at(pairs, keys)), b""))
        if number % 5 == 0:
            asked.gets_keys(keys, pairs)


# ---- proofs that were changed


def are_refused(asked, pairs, keys, changes):
    """A proof that was changed is refused, and what is printed before that is the first part of what it showed."""
    asked.keeps(keys)
    proof = key_proof_of(asked.top, keys, asked.version)
    right = lines_found(found_at(pairs, keys))
    for about, changed in changes(proof):
        status, out, _ = asked.verifies_keys(about, changed, keys)
        if changed != proof and (status != 4 or not right.startswith(out)):
            asked.differences.append(f"{about}: status {status}, shows {out!r}")


def moved_chunks(asked, keys):
    """A proof with a chunk left out, doubled, exchanged with another, or taken from another tree."""
    chunks = chunks_of_keys(asked.top, keys)
    there = set(chunks)
    foreign = [part.chunk for part in tree([*ABC, (b"\xfe", b"1")], 0, asked.version).trees() if part.chunk not in there]
    for place, chunk in enumerate(chunks):
        yield f"chunk {place} left out", chunks[:place] + chunks[place + 1 :]
        yield f"chunk {place} doubled", chunks[:place] + [chunk] + chunks[place:]
        yield f"chunk {place} taken from another tree", chunks[:place] + [foreign[place % len(foreign)]] + chunks[place + 1 :]
        for other in range(place + 1, len(chunks)):
            exchanged = list(chunks)
            exchanged[place], exchanged[other] = exchanged[other], exchanged[place]
            yield f"chunks {place} and {other} exchanged", exchanged
    yield "a chunk more", [*chunks, chunks[-1]]
    yield "all chunks of the tree", [part.chunk for part in asked.top.trees()]


def are_moved(asked, pairs, keys):
    """Such proofs are refused."""
    changed = [(about, range_proof_of_chunks(chunks, asked.version)) for about, chunks in moved_chunks(asked, keys)]
    are_refused(asked, pairs, keys, lambda proof: changed)


def is_of_another(asked, pairs):
    """Proofs beside the roots of other maps, and for other keys: for more of them, for fewer, and for one."""
    others = [[*pairs, (b"\xff" * 9, b"1")], pairs[1:], [(pairs[0][0], pairs[0][1] + b"!"), *pairs[1:]]]
    here = [key for key, _ in pairs]
    lists = [here[::7], here[1::7], here[:3], [pairs[-1][0] + b"\0"], [here[0] + b"\0", here[5], here[20] + b"\0"], []]
    for keys in lists:
        proof = key_proof_of(asked.top, keys, asked.version)
        asked.keeps(keys)
        for number, other in enumerate(others):
            root = tree(other, 1, asked.version).reference
            asked.wants(f"map {number}", asked.verifies_keys(f"map {number}", proof, keys, root)[0], 4)
        for wanted in lists:
            asked.keeps(wanted)
            answer = asked.verifies_keys(f"the proof of {keys!r} for {wanted!r}", proof, wanted)
            right = lines_found(found_at(pairs, wanted))
            if not right.startswith(answer[1]) or (answer[0] == 0 and answer[1] != right):
                asked.differences.append(f"the proof of {keys!r} for {wanted!r}: {answer}")
    asked.keeps(here[:1])
    single = proof_of(asked.top, here[0], asked.version)
    asked.wants("the proof of a key", asked.verifies_keys("the proof of a key", single, here[:1])[2], f"prolly: proof: {BAD_HEADER}\n".encode())


# ---- each fault


def chains():
    """Proofs of `a` and `b` whose root is the first chunk, whatever it is: a name, the chunks, and what is wrong."""
    a, b, c = leaf(ABC[0]), leaf(ABC[1]), leaf(ABC[2])
    above = node(1, (b"a", a), (b"b", b), (b"c", c))
    yield "a leaf", [a], None
    yield "a leaf of another key", [c], None
    yield "a node and its leaves", [above, a, b], None
    yield "a leaf that is not asked for", [above, a, b, c], MORE
    yield "a neighbour's leaf", [above, a, c], another(2)
    yield "no second leaf", [above, a], TRUNCATED
    yield "the leaves exchanged", [above, b, a], another(1)
    yield "a leaf two levels below", [node(2, (b"b", a)), a], wrong_level(1)
    yield "a child whose keys end before its own", [node(1, (b"b", a)), a], None
    yield "keys above all children", [node(1, (b"`", a))], None


def spoiled():
    """Proofs of `a` and `b` that no chain of chunks makes: a name, the proof, and what is wrong."""
    top = tree(ABC, 0, 1)
    good = key_proof_of(top, [b"a", b"b"], 1)
    yield "no bytes", b"", TRUNCATED
    yield "a chunk file", chunk_file(ABC, 0), BAD_HEADER
    yield "the proof of a key", proof_of(top, b"a", 1), BAD_HEADER
    yield "the other format", key_proof_of(tree(ABC, 0, 2), [b"a", b"b"], 2), WRONG_VERSION
    yield "the proof of a range of the same leaves", range_proof_of(top, b"a", b"c", 1), None if good == range_proof_of(top, b"a", b"c", 1) else MORE
    yield "a byte more", good + b"\0", MORE
    for length in (2**64 - 1, 2**64 - 9, 2**63):
        yield f"a frame of {length} bytes", good[:HEADER_SIZE] + b"C" + length.to_bytes(8, "big") + good[HEADER_SIZE + FRAME_SIZE :], TRUNCATED


def fault_cases():
    """Each line of a fault, and chains that have none, for the keys `a` and `b`."""
    found = []
    for name, chunks, fault in chains():
        found.append(verified(name, range_proof_of_chunks(chunks, 1), reference(chunks[0]), fault))
    return found + [verified(name, proof, tree(ABC, 0, 1).reference, fault) for name, proof, fault in spoiled()]


def verified(name, proof, root, fault):
    """A proof that the second reader takes for what its maker wants it to be."""
    keys = [b"a", b"b"]
    status, out, err = verdict(proof, root, keys, 1)
    assert err == (f"prolly: proof: {fault}\n".encode() if fault else b""), (name, err)
    words = ["verify", "--keys", "keys", reference_text(root), "p"]
    return Case(f"verify --keys: {name}", words, status=status, out=out, err=err, before={"p": proof, "keys": file_of(keys)})


# ---- words, files and devices

GOOD_ROOT = reference_text(tree(ABC, 0, 1).reference)

MARKED = b"prolly: line 0: begins with a byte order mark\n"
"""What is said of a file of keys of text that begins with a byte order mark."""

BAD_LISTS = [
    ("no hexadecimal", [], b"61\n6g\n", b"prolly: line 1: not a key in hexadecimal\n"),
    ("a key and a value", [], b"61 31\n", b"prolly: line 0: not a key in hexadecimal\n"),
    ("no text", ["--text"], b"a\n\\q\n", b"prolly: line 1: not a key of text\n"),
    ("a key twice", [], b"61\n61\n", b"prolly: line 1: key not greater than the one before\n"),
    ("keys that fall", [], b"61\n63\n62\n", b"prolly: line 2: key not greater than the one before\n"),
    ("the empty key behind another", [], b"61\n\n62\n", b"prolly: line 1: key not greater than the one before\n"),
    ("a long key", [], b"61\n" + b"62" * 1_025 + b"\n", b"prolly: line 1: key too long\n"),
    ("a byte order mark before keys that rise without it", ["--text"], b"\xef\xbb\xbfapple\nbanana\n", MARKED),
    ("a byte order mark before one key", ["--text"], b"\xef\xbb\xbfa\n", MARKED),
    ("a byte order mark and nothing else", ["--text"], b"\xef\xbb\xbf", MARKED),
    ("a byte order mark before a line that is no text", ["--text"], b"\xef\xbb\xbf\\q\n", MARKED),
    ("a byte order mark before hexadecimal, which it is not", [], b"\xef\xbb\xbf61\n", b"prolly: line 0: not a key in hexadecimal\n"),
]
"""Files of keys that are refused: what is wrong, the words that say how they are written, the file, and the line."""


def cases(_):
    """All cases of one run."""
    return fault_cases() + word_cases() + list_cases() + get_cases() + prove_cases() + verify_cases()


def word_cases():
    """Words beside a root that is none. (What does not fit is told as by clap.)"""
    before = {"in.prl": chunk_file(ABC, 0), "keys": b"6\n"}
    return [
        Case(f"{words[0]} --keys: a bad root before a bad key", words, status=2, err=BAD_ROOT, before=before)
        for words in (["get", "--root", "r", "--keys", "keys", "in.prl"], ["prove", "--root", "r", "--keys", "keys", "in.prl", "p"], ["verify", "--keys", "keys", "r", "p"])
    ]


def list_cases():
    """Files of keys that are refused, by each of the commands, and OUT is as it was."""
    found = []
    old = proof_of(tree(ABC, 0, 1), b"a", 1)
    for name, form, content, err in BAD_LISTS:
        before = {"in.prl": chunk_file(ABC, 0), "keys": content, "p": old}
        for words in (["get", "--keys", "keys", "in.prl"], ["prove", "--keys", "keys", "in.prl", "p"], ["verify", "--keys", "keys", GOOD_ROOT, "p"]):
            found.append(Case(f"{words[0]} --keys: {name}", [words[0], *form, *words[1:]], status=3, err=err, before=before))
    return found


def get_cases():
    """Where `get` of many keys reads, and what becomes of its answer."""
    good = {"in.prl": chunk_file(ABC, 0), "keys": b"\n61\n6161\n63\n7a"}
    lines = b"\n61 31\n6161\n63 31\n7a\n"
    words = ["get", "--keys", "keys", "in.prl"]
    by_root = ["get", "--root", GOOD_ROOT, *words[1:]]
    turned = good | {"in.prl": chunk_file(ABC, 0).replace(leaf(ABC[2]), leaf((b"c", b"2")))}
    number = [part.chunk for part in tree(ABC, 0, 1).trees()].index(leaf(ABC[2]))
    text = good | {"keys": b"\na\naa\nc\nz\n"}
    return [
        Case("get --keys", words, out=lines, before=good),
        Case("get --keys: the words in another order", ["get", "in.prl", "--keys=keys"], out=lines, before=good),
        Case("get --keys --text", ["get", "--text", *words[1:]], out=b"\na\t1\naa\nc\t1\nz\n", before=text),
        Case("get --keys --text: byte order marks in a later line", ["get", "--text", *words[1:]], out=b"a\t1\n\\xef\\xbb\\xbfa\n", before=text | {"keys": b"a\n\xef\xbb\xbfa\n"}),
        Case("get --keys --text: a byte order mark with an escape", ["get", "--text", *words[1:]], out=b"\\xef\\xbb\\xbfa\n", before=text | {"keys": b"\\xef\xbb\xbfa\n"}),
        Case("get --keys --root", by_root, out=lines, before=good),
        Case("get --keys: no key", words, before=good | {"keys": b""}),
        Case("get --keys: no file of keys", words, status=5, err=b"prolly: cannot open keys\n", before={"in.prl": good["in.prl"]}),
        Case("get --keys: a folder", words, status=5, err=b"prolly: file 0: read failed\n", before=good | {"keys": FOLDER}),
        Case("get --keys: no chunk file", words, status=5, err=b"prolly: cannot open in.prl\n", before={"keys": good["keys"]}),
        Case("get --keys: a cut file", words, status=4, err=b"prolly: chunk file: truncated\n", before=good | {"in.prl": good["in.prl"][:-1]}),
        Case("get --keys --root: a chunk is another, and what was found is printed", by_root, status=4, out=b"\n61 31\n6161\n", err=f"prolly: chunk file: {another(number)}\n".encode(), before=turned),
        Case("get --keys: standard output is full", words, status=5, err=b"prolly: write failed\n", before=good, stdout="full"),
        Case("get --keys --root: nobody reads", by_root, status=5, err=b"prolly: write failed\n", before=good, stdout="unread"),
    ]


def prove_cases():
    """What `prove` of many keys takes, and what becomes of OUT."""
    top = tree(ABC, 0, 1)
    good = {"in.prl": chunk_file(ABC, 0), "keys": b"61\n6161\n63\n"}
    words = ["prove", "--keys", "keys", "in.prl", "p"]
    proof, old = key_proof_of(top, [b"a", b"aa", b"c"], 1), proof_of(top, b"a", 1)
    by_root = ["prove", "--root", GOOD_ROOT, *words[1:]]
    return [
        Case("prove --keys", words, before=good, after={"p": proof}),
        Case("prove --keys --text", ["prove", "--text", *words[1:]], before=good | {"keys": b"a\naa\nc\n"}, after={"p": proof}),
        Case("prove --keys --root", by_root, before=good, after={"p": proof}),
        Case("prove --keys: no key", words, before=good | {"keys": b""}, after={"p": key_proof_of(top, [], 1)}),
        Case("prove --keys: the proof of a key is replaced", [*words, "--sync"], before=good | {"p": old}, after={"p": proof}),
        Case("prove --keys: no file of keys, and OUT is as it was", words, status=5, err=b"prolly: cannot open keys\n", before={"in.prl": good["in.prl"], "p": old}),
        Case("prove --keys: OUT is the file of keys", ["prove", "--force", "--keys", "keys", "in.prl", "keys"], status=5, err=b"prolly: OUT is also an input: keys\n", before=good),
        Case("prove --keys: OUT is of another kind", words, status=5, err=b"prolly: OUT is not a proof: p\n", before=good | {"p": b"something"}),
        Case("prove --keys: OUT is a full device", [*words[:-1], "/dev/full"], status=5, err=b"prolly: write failed\n", before=good),
    ]


def verify_cases():
    """Where `verify` of many keys reads a proof, and what becomes of its answer."""
    top = tree(ABC, 0, 2)
    keys = [b"a", b"aa", b"b", b"z"]
    words = ["verify", "--format", "2", "--keys", "keys", reference_text(top.reference)]
    proof = key_proof_of(top, keys, 2)
    before = {"p": proof, "keys": file_of(keys)}
    lines = lines_found(found_at(ABC, keys))
    return [
        Case("verify --keys: a file", [*words, "p"], out=lines, before=before),
        Case("verify --keys: standard input", words, proof, out=lines, before=before),
        Case("verify --keys --text", ["verify", "--text", *words[1:], "p"], out=b"a\t1\naa\nb\t1\nz\n", before=before | {"keys": b"a\naa\nb\nz\n"}),
        Case("verify --keys: a cut proof shows what is known", [*words, "p"], status=4, out=lines_found(found_at(ABC, keys[:1])), err=f"prolly: proof: {TRUNCATED}\n".encode(), before=before | {"p": proof[:-1]}),
        Case("verify --keys: no proof", [*words, "p"], status=5, err=b"prolly: cannot open p\n", before={"keys": file_of(keys)}),
        Case("verify --keys: no file of keys", [*words, "p"], status=5, err=b"prolly: cannot open keys\n", before={"p": proof}),
        Case("verify --keys: standard output is full", [*words, "p"], status=5, err=b"prolly: write failed\n", before=before, stdout="full"),
    ]


# ---- all


def turned_lists():
    """Ten short proofs: the pairs, the bits and the version of the tree, and the keys."""
    for version in (1, 2):
        yield [], 0, version, [b"a"]
        yield ABC[:1], 0, version, [b"", b"a", b"b"]
        yield ABC, 12, version, [b"b"]
    yield ABC, 0, 1, [b"a", b"c"]
    yield ABC, 0, 1, [b"bb"]
    yield ABC, 0, 2, [b"a", b"b"]
    yield ABC, 0, 1, [b"d"]


def tests():
    """All tests of many runs: for each a name, the tree, and what is done."""
    for seed, (name, pairs, bits, version) in enumerate(kinds()):
        yield f"proofs of keys: {name}", (pairs, bits, version), partial(are_proved, pairs=pairs, seed=seed)
    for pairs, bits, version, keys in turned_lists():
        about = f"{len(pairs)} pairs, --bits {bits}, format {version}, {keys!r}"
        refused = partial(are_refused, pairs=pairs, keys=keys)
        yield f"each bit of a proof of keys turned: {about}", (pairs, bits, version), partial(refused, changes=turned_bits)
        yield f"a proof of keys cut: {about}", (pairs, bits, version), partial(refused, changes=cut)
    for version in (1, 2):
        pairs = some_pairs(random.Random(version), 40)
        yield f"chunks of a proof of keys moved, format {version}", (pairs, 1, version), partial(are_moved, pairs=pairs, keys=[key for key, _ in pairs[3:30:4]])
        yield f"proofs of other trees and keys, format {version}", (pairs, 1, version), partial(is_of_another, pairs=pairs)


def all_runs(program, _):
    """Runs all tests, each in a folder of its own, and gives for each its name and its differences."""
    for name, kind, test in tests():
        with tempfile.TemporaryDirectory() as inside:
            asked = AskedKeys(program, Path(inside), *kind)
            test(asked)
            yield name, asked.differences
