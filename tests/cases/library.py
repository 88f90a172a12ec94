"""The library for C (include/prolly.h): the programs of tests/c, over worked trees, damaged files and wrong indexes, by
threads at a time, and beneath valgrind."""

import os
import random
import shutil
import subprocess
from pathlib import Path

from cases.scratch import ABC
from oracle.proof import proof_of
from oracle.range_proof import range_proof_of, within
from oracle.trees import chunk_file, record, tree
from support.harness import Skipped, hexed, tested

TOP = Path(__file__).parent.parent.parent

LIBRARY = TOP / "library" / "out"

SOURCES = TOP / "tests" / "c"

STRICT = ["-std=c11", "-Wall", "-Wextra", "-Werror", "-pedantic", "-O1", "-g", "-pthread"]

WRAPPED = {"memory": ["-Wl,--wrap=malloc,--wrap=realloc"]}
"""The programs that stand between the library and the C library."""

VALGRIND = ["valgrind", "--quiet", "--error-exitcode=9", "--leak-check=full", "--errors-for-leak-kinds=all"]


def some_pairs(seed, count, longest=9):
    """So many pairs, or a few less, with keys and values of no and of some bytes."""
    numbers = random.Random(seed)
    keys = {numbers.randbytes(numbers.randrange(longest)) for _ in range(count)}
    return [(key, numbers.randbytes(numbers.randrange(40))) for key in sorted(keys)]


LONG = [(b"k" * 1024, b"v" * 65536), (b"l", b""), (b"l" * 1024, b"v" * 65535)]
"""Keys and values as long as may be."""

TREES = [
    (f"{name}, --bits {bits}, format {version}", pairs, bits, version)
    for name, pairs in [("no pair", []), ("one pair", ABC[:1]), ("three pairs", ABC), ("long pairs", LONG), ("pairs", some_pairs(1, 900))]
    for bits in (0, 2, 12)
    for version in (1, 2)
]


def all_runs(_, folder):
    """All of it: for each run its name and its differences."""
    if not (LIBRARY / "libprolly.a").exists():
        print("SKIPPED the library: `make lib` makes it")
        return
    programs = {name: folder / name for name in ("look_ups", "damaged", "threads", "building", "proofs", "ranges", "diffs", "memory")}
    programs["shared"] = folder / "shared"
    for name, program in programs.items():
        kind = ("look_ups", "libprolly.so") if name == "shared" else (name, "libprolly.a")
        yield f"{kind[0]}.c is built with {kind[1]}", built(kind[0], program, LIBRARY / kind[1])
    if not all(program.exists() for program in programs.values()):
        return
    yield from tested("the header, as C++ reads it", as_cpp)
    yield "the names that are seen", names_seen()
    yield "the examples of docs/c.md", examples_compile(folder)
    for number, (name, pairs, bits, version) in enumerate(TREES):
        chunks, records = laid_out(folder, str(number), pairs, bits, version)
        yield f"look-ups, {name}", looked_up([programs["look_ups"]], chunks, records, pairs, bits, version)
        yield f"building, {name}", builds([programs["building"]], chunks, records, pairs, bits, version)
    for name, key, version, proof, told in some_proofs():
        yield f"the proof of {name}", proves([programs["proofs"]], folder, key, version, proof, told)
    for name, first, end, version, proof, told in some_range_proofs():
        yield f"the proof of {name}", proves_range([programs["ranges"]], folder, first, end, version, proof, told)
    for name, old, new in DIFFERING:
        yield f"the difference of {name}", tells_changes([programs["diffs"]], folder, old, new)
    chunks, records = laid_out(folder, "some", some_pairs(2, 300), 3, 2)
    pairs = some_pairs(2, 300)
    shared = {**os.environ, "LD_LIBRARY_PATH": str(LIBRARY)}
    yield "look-ups by the shared library", looked_up([programs["shared"]], chunks, records, pairs, 3, 2, shared)
    yield "four threads at a time", silent([programs["threads"], chunks, records])
    yield "memory refused, each growth in turn", silent([programs["memory"], chunks, records, "k"])
    small, _ = laid_out(folder, "small", some_pairs(3, 12, 4), 1, 2)
    yield "damaged files, and wrong indexes", silent([programs["damaged"], small])
    if shutil.which("valgrind") is None:
        print("SKIPPED the library beneath valgrind, which is not there")
        return
    yield "look-ups beneath valgrind", looked_up([*VALGRIND, programs["look_ups"]], chunks, records, pairs, 3, 2)
    tiny, _ = laid_out(folder, "tiny", ABC, 0, 2)
    yield "damaged files beneath valgrind", silent([*VALGRIND, programs["damaged"], tiny])
    for name, first, end, version, proof, told in list(some_range_proofs())[:: 9]:
        words = [*VALGRIND, programs["ranges"]]
        yield f"the proof of {name}, beneath valgrind", proves_range(words, folder, first, end, version, proof, told)


PROVED = some_pairs(4, 60, 3)

PROVED_BITS = 1


def some_proofs():
    """Keys, versions, proofs of them, and what they say: a status, a chunk and a value."""
    keys = [key for key, _ in PROVED][::9] + [b"", b"\xff\xff\xff\xff", PROVED[5][0] + b"\0"]
    values = dict(PROVED)
    for version in (1, 2):
        top = tree(PROVED, PROVED_BITS, version)
        for key in keys:
            proof = proof_of(top, key, version)
            told = b"0 0 " + hexed(values[key]) if key in values else b"1 0 "
            yield f"{key}, format {version}", key, version, proof, told
        proof = proof_of(top, keys[0], version)
        yield f"another key, format {version}", keys[3], version, proof, None
        yield f"the other version, format {version}", keys[0], version, proof_of(top, keys[0], 3 - version), b"49 0 "
        yield f"a byte more, format {version}", keys[0], version, proof + b"C", b"56 0 "


def some_range_proofs():
    """Ranges, versions, proofs of them, and what they show: a status, a chunk and lines of pairs; any fault where that is None."""
    keys = [b"", *(key for key, _ in PROVED[7::17]), PROVED[5][0] + b"\0", b"\xff\xff\xff\xff"]
    for version in (1, 2):
        top = tree(PROVED, PROVED_BITS, version)
        for first, end in [(first, end) for first in keys for end in [None, *keys]]:
            lines = [b"%s %s\n" % (hexed(key), hexed(value)) for key, value in within(PROVED, first, end)]
            proof = range_proof_of(top, first, end, version)
            yield f"{first} to {end}, format {version}", first, end, version, proof, b"0 0\n" + b"".join(lines)
        first, end = keys[1:3]
        proof = range_proof_of(top, first, end, version)
        yield f"a narrower range, format {version}", first, None, version, proof, None
        yield f"a range of the other version, format {version}", first, end, version, range_proof_of(top, first, end, 3 - version), b"49 0\n"
        yield f"a range and a byte more, format {version}", first, end, version, proof + b"C", b"56 0\n"
        yield f"a key and no range, format {version}", first, end, version, proof_of(top, first, version), b"48 0\n"


DIFFERING = [
    (name, (old, 2, 1), (new, bits, 2))
    for bits in (0, 6)
    for name, old, new in [
        ("nothing", [], []),
        ("a map and nothing", ABC, []),
        ("nothing and a map", [], ABC),
        ("a map and itself", some_pairs(5, 300), some_pairs(5, 300)),
        ("a map and every third pair", some_pairs(5, 300), some_pairs(5, 300)[::3]),
        ("a map and other values", some_pairs(5, 200), [(key, value + b"!") for key, value in some_pairs(5, 200)]),
        ("two maps", some_pairs(6, 400, 3), some_pairs(7, 400, 3)),
    ]
]
"""Names, and two maps with the bits and the version of their trees."""


def tells_changes(words, folder, old, new):
    """What differs between the changes that the library tells and the right ones."""
    places = [laid_out(folder, name, *side)[0] for name, side in (("old", old), ("new", new))]
    done = subprocess.run([*words, *places], capture_output=True, check=False)
    before, after = dict(old[0]), dict(new[0])
    told = b""
    for key in sorted({*before, *after}):
        if before.get(key) != after.get(key):
            sides = (key in before) + 2 * (key in after)
            told += b"%d %s %s %s\n" % (sides, hexed(key), hexed(before.get(key, b"")), hexed(after.get(key, b"")))
    if (done.returncode, done.stdout, done.stderr) == (0, told, b""):
        return []
    return [f"status {done.returncode}, {done.stdout[:300]!r}, wanted {told[:300]!r}, {done.stderr[-400:]!r}"]


def builds(words, chunks, records, pairs, bits, version):
    """What differs between the chunk file that the library builds and the right one."""
    built = records.with_suffix(".built")
    done = subprocess.run([*words, records, str(version), str(bits), built], capture_output=True, check=False)
    told = hexed(tree(pairs, bits, version).reference) + b"\n"
    if (done.returncode, done.stdout, done.stderr) != (0, told, b""):
        return [f"status {done.returncode}, {done.stdout!r}, wanted {told!r}, {done.stderr[-400:]!r}"]
    return [] if built.read_bytes() == chunks.read_bytes() else ["the files differ"]


def proves(words, folder, key, version, proof, told):
    """What differs between what the library says of a proof and what is right; where it is told to be none, any fault will do."""
    (folder / "key").write_bytes(key)
    (folder / "proof").write_bytes(proof)
    root = tree(PROVED, PROVED_BITS, version).reference.hex()
    done = subprocess.run(
        [*words, root, str(version), folder / "key", folder / "proof"], capture_output=True, check=False
    )
    is_right = done.stdout == told + b"\n" if told is not None else int(done.stdout.split()[0]) >= 48
    if is_right and (done.returncode, done.stderr) == (0, b""):
        return []
    return [f"status {done.returncode}, {done.stdout!r}, wanted {told!r}, {done.stderr[-400:]!r}"]


def proves_range(words, folder, first, end, version, proof, told):
    """What differs between what the library says of a proof of a range and what is right."""
    chunks, _ = laid_out(folder, "proved", PROVED, PROVED_BITS, version)
    (folder / "proof").write_bytes(proof)
    root = tree(PROVED, PROVED_BITS, version).reference.hex()
    asked = [chunks, root, str(version), first.hex(), "-" if end is None else end.hex(), folder / "proof"]
    done = subprocess.run([*words, *asked], capture_output=True, check=False)
    is_right = done.stdout == told if told is not None else int(done.stdout.split()[0]) >= 48
    if is_right and (done.returncode, done.stderr) == (0, b""):
        return []
    return [f"status {done.returncode}, {done.stdout[:300]!r}, wanted {told and told[:300]!r}, {done.stderr[-400:]!r}"]


def laid_out(folder, name, pairs, bits, version):
    """The chunk file and the record file of pairs."""
    chunks, records = folder / f"{name}.prl", folder / f"{name}.rec"
    chunks.write_bytes(chunk_file(pairs, bits, version))
    records.write_bytes(b"".join(record(key, value) for key, value in pairs))
    return chunks, records


def built(name, program, library):
    """What the compiler says."""
    place = SOURCES / f"{name}.c"
    return silent(["cc", *STRICT, *WRAPPED.get(name, []), "-I", TOP / "include", "-o", program, place, library])


def as_cpp():
    """What a compiler of C++ says of the header."""
    if shutil.which("c++") is None:
        raise Skipped("c++ is not there")
    words = ["c++", "-Wall", "-Wextra", "-Werror", "-fsyntax-only", "-x", "c++", TOP / "include" / "prolly.h"]
    return silent(words)


def examples_compile(folder):
    """What the compiler says of the examples, which have the bytes of a file or of a proof, each put into a function."""
    parts = (TOP / "docs" / "c.md").read_text().split("```c\n")[1:]
    lines = [f"#include <{name}>" for name in ("stdio.h", "stdlib.h", "prolly.h")]
    for number, part in enumerate(parts):
        bytes_name = "proof" if "proof, len" in part else "bytes"
        head = f"int example{number}(const uint8_t *{bytes_name}, size_t len, const uint8_t *root)"
        lines += [f"{head};", f"{head} {{", "(void)root;", part.split("```")[0], "return 0;", "}"]
    place = folder / "examples.c"
    place.write_text("\n".join(lines) + "\n")
    return silent(["cc", *STRICT, "-fsyntax-only", "-I", TOP / "include", place])


def names_seen():
    """Whether each library shows the functions of the header, and nothing else."""
    told = sorted(set(functions_of((TOP / "include" / "prolly.h").read_text())))
    differing = []
    for words in (["nm", "-D", "--defined-only", LIBRARY / "libprolly.so"], ["nm", "-g", "--defined-only", LIBRARY / "libprolly.a"]):
        lines = subprocess.run(words, capture_output=True, text=True, check=True).stdout.splitlines()
        found = sorted(line.split()[2] for line in lines if len(line.split()) == 3)
        if found != told:
            differing.append(f"{words[-1].name} has {found}, and the header {told}")
    return differing


def functions_of(header):
    """The functions that a header declares, but for those that it defines."""
    for line in header.splitlines():
        if line.startswith("uint32_t prolly_"):
            yield line.removeprefix("uint32_t ").split("(")[0]


def looked_up(words, chunks, records, pairs, bits, version, environment=None):
    """What goes wrong with all look-ups in a file, and with what its check tells."""
    done = subprocess.run([*words, chunks, records], capture_output=True, check=False, env=environment)
    top = tree(pairs, bits, version)
    told = b"%s %d %d %d\n" % (hexed(top.reference), version, bits, len(list(top.trees())))
    if (done.returncode, done.stdout, done.stderr) == (0, told, b""):
        return []
    return [f"status {done.returncode}, {done.stdout!r}, wanted {told!r}, {done.stderr[-400:]!r}"]


def silent(words):
    """What goes wrong with a run that is to print nothing."""
    done = subprocess.run(words, capture_output=True, check=False)
    if (done.returncode, done.stdout, done.stderr) == (0, b"", b""):
        return []
    return [f"status {done.returncode}: {(done.stdout + done.stderr)[-600:]!r}"]
