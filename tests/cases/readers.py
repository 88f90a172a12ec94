"""The reader in plain Python (examples/python) beside the program: both are asked the same, of the same files and proofs."""

import random
import subprocess
import sys
import tempfile
from functools import partial
from pathlib import Path

EXAMPLE = Path(__file__).parent.parent.parent / "examples" / "python"

sys.path.insert(0, str(EXAMPLE))

from prolly_read import Malformed, Tree, reference_from, verify, verify_keys, verify_range  # noqa: E402
from cases.scratch import ABC  # noqa: E402
from oracle.trees import chunk_file, reference_text, tree  # noqa: E402
from support.harness import differs  # noqa: E402

MOST_LINES = 260
"""The reader is to be one that is read at a sitting."""


def some_pairs(seed, count):
    """So many pairs, with keys and values of no and of some bytes."""
    numbers = random.Random(seed)
    keys = {numbers.randbytes(numbers.randrange(4)) for _ in range(count)}
    return [(key, numbers.randbytes(numbers.randrange(6))) for key in sorted(keys)]


KINDS = [
    (f"{name}, --bits {bits}, format {version}", pairs, bits, version)
    for name, pairs in [("no pair", []), ("three pairs", ABC), ("some pairs", some_pairs(1, 200))]
    for bits in (0, 2, 12)
    for version in (1, 2)
]


def all_runs(program, _):
    """All comparisons: for each its name and its differences."""
    yield "the reader's length", [] if lines_of_the_reader() < MOST_LINES else [f"{lines_of_the_reader()} lines"]
    for name, pairs, bits, version in KINDS:
        with tempfile.TemporaryDirectory() as folder:
            path = Path(folder) / "tree"
            path.write_bytes(chunk_file(pairs, bits, version))
            for test in (look_ups, scans, places, proofs, range_proofs, key_proofs):
                yield f"the reader: {test.__name__}, {name}", list(test(partial(ask, program, folder), path, pairs, bits, version))
    yield "the reader: files that are none", list(refusals())


def lines_of_the_reader():
    """How many lines it has."""
    return len((EXAMPLE / "prolly_read.py").read_text().splitlines())


def ask(program, folder, *words):
    """What the program answers: its status, and what it prints."""
    done = subprocess.run([program, *words], cwd=folder, capture_output=True, check=False)
    return done.returncode, done.stdout


def some_keys(pairs):
    """Keys that are there, and keys around them."""
    keys = [key for key, _ in pairs[:: max(1, len(pairs) // 6)]]
    return sorted({b"", b"\xff" * 5, *keys, *(key + b"\0" for key in keys)})


def as_value(found):
    """How the program answers with a value, or with none."""
    return (1, b"") if found is None else (0, found.hex().encode() + b"\n")


def as_lines(pairs):
    """How it answers with pairs."""
    return b"".join(f"{pair.key.hex()} {pair.value.hex()}\n".encode() for pair in pairs)


def look_ups(asked, path, pairs, bits, version):
    """Values of keys, with the file and by its root."""
    reader = Tree.open(path)
    root = reference_text(tree(pairs, bits, version).reference)
    for key in some_keys(pairs):
        wanted = as_value(reader.get(key))
        yield from differs(f"get {key.hex()}", asked("get", "tree", key.hex()), wanted)
        words = ["get", "--root", root, "--format", str(version), "tree", key.hex()]
        yield from differs(f"get --root {key.hex()}", asked(*words), wanted)
        yield from differs(f"the map at {key.hex()}", dict(pairs).get(key), reader.get(key))


def scans(asked, path, pairs, bits, version):
    """Pairs from keys on, with the file and by its root."""
    reader = Tree.open(path)
    by_root = ["--root", reference_text(tree(pairs, bits, version).reference), "--format", str(version)]
    for key in some_keys(pairs)[::3]:
        wanted = (0, as_lines(reader.scan(key, 9)))
        yield from differs(f"scan {key.hex()}", asked("scan", "tree", key.hex(), "9"), wanted)
        yield from differs(f"scan --root {key.hex()}", asked("scan", *by_root, "tree", key.hex(), "9"), wanted)
    yield from differs("all pairs", [tuple(pair) for pair in reader.scan(b"")], list(pairs))


def places(asked, path, pairs, bits, version):
    """Pairs by their numbers, with the file and by its root."""
    if version == 1:
        return
    reader = Tree.open(path)
    by_root = ["--root", reference_text(tree(pairs, bits, version).reference), "--format", str(version)]
    for number in sorted({0, 1, len(pairs) // 2, max(0, len(pairs) - 1), len(pairs), 2**32 - 1}):
        pair = reader.nth(number)
        wanted = (1, b"") if pair is None else (0, as_lines([pair]))
        yield from differs(f"nth {number}", asked("nth", "tree", str(number)), wanted)
        yield from differs(f"nth --root {number}", asked("nth", *by_root, "tree", str(number)), wanted)


def proofs(asked, path, pairs, bits, version):
    """What proofs of the program show, and what the reader says of changed ones."""
    root = tree(pairs, bits, version).reference
    yield from differs("the root's text", reference_from(reference_text(root)), root)
    for key in some_keys(pairs)[::2]:
        yield from differs("prove", asked("prove", "tree", key.hex(), "proof"), (0, b""))
        proof = (path.parent / "proof").read_bytes()
        yield from differs(f"the proof of {key.hex()}", verify(root, key, proof, version), dict(pairs).get(key))
        for change in (proof[:-1], proof + b"\0", b"p" + proof[1:], proof[:-1] + bytes([proof[-1] ^ 1])):
            if not is_refused(partial(verify, root, key, change, version)):
                yield f"a changed proof of {key.hex()} is taken"


def range_proofs(asked, path, pairs, bits, version):
    """What proofs of ranges show, and what the reader says of changed ones."""
    root = tree(pairs, bits, version).reference
    keys = some_keys(pairs)
    for first, end in [*zip(keys, keys[2:], strict=False), (keys[-1], keys[0]), (b"", None)]:
        words = ["--from", first.hex()] + ([] if end is None else ["--to", end.hex()])
        yield from differs(f"prove {words}", asked("prove", *words, "tree", "proof"), (0, b""))
        proof = (path.parent / "proof").read_bytes()
        found = list(verify_range(root, first, end, proof, version))
        yield from differs(f"the proof of {words}", asked("verify", "--format", str(version), *words, reference_text(root), "proof"), (0, as_lines(found)))
        there = [pair for pair in pairs if first <= pair[0] and (end is None or pair[0] < end)]
        yield from differs(f"the map in {words}", [tuple(pair) for pair in found], there)
        for change in (proof[:-1], proof + b"\0", b"p" + proof[1:], proof[:-1] + bytes([proof[-1] ^ 1])):
            if not is_refused(lambda: list(verify_range(root, first, end, change, version))):
                yield f"a changed proof of {words} is taken"


def key_proofs(asked, path, pairs, bits, version):
    """What proofs of many keys show, and what the reader says of changed ones."""
    root = tree(pairs, bits, version).reference
    keys = some_keys(pairs)
    for some in (keys, keys[::3], keys[:1], []):
        (path.parent / "keys").write_text("".join(f"{key.hex()}\n" for key in some))
        yield from differs(f"prove {len(some)} keys", asked("prove", "--keys", "keys", "tree", "proof"), (0, b""))
        proof = (path.parent / "proof").read_bytes()
        found = verify_keys(root, some, proof, version)
        lines = b"".join((key.hex() if value is None else f"{key.hex()} {value.hex()}").encode() + b"\n" for key, value in zip(some, found, strict=True))
        yield from differs(f"the proof of {len(some)} keys", asked("verify", "--format", str(version), "--keys", "keys", reference_text(root), "proof"), (0, lines))
        yield from differs(f"the map at {len(some)} keys", found, [dict(pairs).get(key) for key in some])
        for change in (proof[:-1], proof + b"\0", b"p" + proof[1:], proof[:-1] + bytes([proof[-1] ^ 1])):
            if not is_refused(lambda: verify_keys(root, some, change, version)):
                yield f"a changed proof of {len(some)} keys is taken"


def is_refused(read):
    """Whether the bytes are told to be malformed."""
    try:
        read()
    except Malformed:
        return True
    return False


def refusals():
    """Files that are no chunk files."""
    good = chunk_file(ABC, 0)
    for length in range(len(good)):
        if not is_refused(partial(Tree, good[:length])):
            yield f"the first {length} bytes are taken"
    if not is_refused(partial(Tree, good + b"\0")):
        yield "a byte behind the end is taken"
