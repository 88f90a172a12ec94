"""`check --root`: a file of any size that is read once, beside the second checker of the order of its bytes."""

import random
import subprocess
import tempfile
from pathlib import Path

from cases.look_ups import LONG, assembled, leaf
from cases.proofs import BAD_ROOT, node
from cases.scratch import ABC, numbered
from oracle.checker import flaw_by_root
from oracle.trees import chunk_file, records, reference, reference_text, tree
from support.harness import Case
from support.place import Place

NO_ROOT = bytes(20)

WINDOW = 16 * 1_024 * 1_024
"""How many bytes are held at a time, where no chunk is larger."""

RANDOM_FILES = 300
"""Files of chunks that were taken from lawful files, put in another order, or left out."""


def cases(_):
    """All cases of small files."""
    return lawful() + damaged() + words() + shuffled(random.Random(51))


def checked(name, content, version, root):
    """A file that is accepted or refused as the second checker says."""
    words = ["check", "--root", reference_text(root), "--format", str(version), "in.prl"]
    flaw = flaw_by_root(content, version, root)
    if flaw is None:
        chunks = int.from_bytes(content[-8:], "big")
        out = f"ok {reference_text(root)} {content[5]} {chunks}\n".encode()
        return Case(f"check --root: {name}", words, out=out, before={"in.prl": content})
    return Case(f"check --root: {name}", words, status=4, err=b"prolly: chunk file: " + flaw + b"\n", before={"in.prl": content})


def lawful():
    """Files of many shapes, each with its own root, with another one, and as one of the other format."""
    found = []
    for name, pairs, bits in (("no pair", [], 0), ("three pairs", ABC, 0), ("a long pair", LONG, 0), ("3000 pairs", numbered(3_000), 4)):
        for version in (1, 2):
            content, root = chunk_file(pairs, bits, version), tree(pairs, bits, version).reference
            found.append(checked(f"{name}, format {version}", content, version, root))
            found.append(checked(f"{name}, format {version}, another root", content, version, NO_ROOT))
            found.append(checked(f"{name}, format {version} as the other", content, 3 - version, root))
            found.append(checked(f"{name}, format {version}, a byte more", content + b"E", version, root))
    return found


def damaged():
    """A file in which the lowest or the highest bit of a byte is turned, and each of its first parts."""
    found = []
    for version in (1, 2):
        good, root = chunk_file(ABC, 0, version), tree(ABC, 0, version).reference
        for place, byte in enumerate(good):
            for bit in (1, 128):
                bad = good[:place] + bytes([byte ^ bit]) + good[place + 1 :]
                found.append(checked(f"format {version}, byte {place}, {bit} turned", bad, version, root))
            found.append(checked(f"format {version}, {place} bytes", good[:place], version, root))
    return found


def words():
    """Words that are no root, and files that are not there."""
    root = reference_text(NO_ROOT)
    refusals = [
        ("no root", ["--root", "0"], 2, BAD_ROOT),
        ("no root, and no file", ["--root", "0", "--format", "2"], 2, BAD_ROOT),
    ]
    found = [Case(f"check --root: {name}", ["check", *given, "in.prl"], status=status, err=err) for name, given, status, err in refusals]
    ignored = Case(
        "check: --format without --root",
        ["check", "--format", "2", "in.prl"],
        out=f"ok {reference_text(tree(ABC, 0, 1).reference)} 0 6\n".encode(),
        before={"in.prl": chunk_file(ABC, 0)},
    )
    missing = Case("check --root: no file", ["check", "--root", root, "in.prl"], status=5, err=b"prolly: cannot open in.prl\n")
    return [*found, ignored, missing]


def shuffled(chance):
    """Chunks of lawful files and others, in any order, for the root of the last one."""
    return [checked(f"random chunks {number}", *random_file(chance)) for number in range(RANDOM_FILES)]


def random_file(chance):
    """A file of chunks most of which follow one another as in a lawful one, its version, and its root."""
    version, bits = chance.choice((1, 2)), chance.choice((0, 1, 2))
    pairs = numbered(chance.randrange(12))
    chunks = [part.chunk for part in tree(pairs, bits, version).trees()]
    others = [leaf(), leaf(*ABC), leaf(ABC[1], ABC[0]), node(1, (b"a", leaf(ABC[0])), version=version), b"\0\0", b"", b"\xff", *chunks]
    for _ in range(chance.randrange(3)):
        place = chance.randrange(len(chunks) + 1)
        if chance.random() < 0.5:
            chunks.insert(place, chance.choice(others))
        else:
            chunks[place : place + 1] = []
    root = reference(chunks[-1]) if chunks else NO_ROOT
    return assembled(chunks, root, bits, version), version, root


# ---- files that are larger than what is held of them


def all_runs(program, _):
    """Runs over a file that is longer than the window, and over one that comes by a pipe."""
    with tempfile.TemporaryDirectory() as folder:
        place = Place(program, None, Path(folder))
        for name, differences in ((run.__name__, run(place)) for run in (passes_the_window, reads_a_pipe)):
            yield f"check --root: {name}", differences


def large(place):
    """Makes a file of values of 65,536 bytes, longer than two windows, and gives its root and its chunks."""
    chance = random.Random(16)
    pairs = [(number.to_bytes(4, "big"), chance.randbytes(65_536)) for number in range(2 * WINDOW // 65_536 + 9)]
    place.lay(in_rec=records(pairs))
    status, out, _ = place.run("build", "--bits", "2", "in.prl", "in.rec")
    assert status == 0, "the build failed"
    root, chunks = out.split()[:2]
    return root.decode(), int(chunks)


def passes_the_window(place):
    """A file of more than two windows is accepted, and refused with a byte of its last leaf turned."""
    root, chunks = large(place)
    accepted = (0, f"ok {root} 2 {chunks}\n".encode(), b"")
    place.answers(place.run("check", "--root", root, "in.prl"), accepted)
    place.answers(place.run("check", "in.prl"), accepted)
    with place.path("in.prl").open("r+b") as file:
        file.seek(2 * WINDOW + 65_536)
        byte = file.read(1)[0]
        file.seek(2 * WINDOW + 65_536)
        file.write(bytes([byte ^ 1]))
    status, out, err = place.run("check", "--root", root, "in.prl")
    place.answers((status, out, err), (4, b"", None))
    if not err.endswith(b" is not canonical\n"):
        place.note(f"{err!r} tells of no chunk")
    return place.differences


def reads_a_pipe(place):
    """A file that comes by a pipe, which can be read once only."""
    place.differences = []
    place.lay(in_prl=chunk_file(ABC, 0))
    root = reference_text(tree(ABC, 0, 1).reference)
    with subprocess.Popen(["cat", place.path("in.prl")], stdout=subprocess.PIPE) as cat:
        answer = place.run("check", "--root", root, "/dev/stdin", stdin=cat.stdout)
    place.answers(answer, (0, f"ok {root} 0 6\n".encode(), b""))
    return place.differences
