#!/usr/bin/env python3
"""How long the program takes: `bench/run.py PROGRAM PARTS [TURNS]`.

PARTS is the program that times hashes, links and the walk over two trees. Machines are noisy, so what is compared runs in turn, TURNS times (nine, if it
is not said), and a ratio is taken within a turn. What is shown are medians; in brackets the least and the most. A ratio
`of hashes` is beside the hashes alone that the tree takes, in one thread. Switches of threads are those that they asked
for, by waiting, and those that they did not.
"""

import os
import random
import re
import subprocess
import sys
import tempfile
from dataclasses import dataclass
from pathlib import Path
from statistics import median

# The tests measure runs, too.
sys.path.append(str(Path(__file__).resolve().parents[1] / "tests"))
from support.measured import run, run_over_pipe  # noqa: E402

RECORDS = 1_000_000
SHORT_VALUE = 16

MORE_RECORDS = 16_000_000

CHANGES = 10
"""In how many keys two trees differ."""

CHANGED_VALUE = SHORT_VALUE + 1

PROOF_BITS = (12, 6)
"""By which cuts the trees are made of which keys are proved."""

PROVED_KEYS = 25
"""Of how many keys proofs are made."""

LISTED_KEYS = (1, 100, 200, 10_000)
"""How many keys are asked for in one run."""

ROOTED_KEYS = 25
"""How many keys are looked up by the root."""

COMPARED_TREES = ((RECORDS, 12), (RECORDS, 6), (MORE_RECORDS, 12), (MORE_RECORDS, 6))
"""How many pairs trees have, and by which cuts they are made, that are compared by their roots."""

COMPARED_FILES = 8
"""Of how many record files they are built."""

APPLIED = ((MORE_RECORDS, 12, CHANGES), (MORE_RECORDS, 6, CHANGES), (MORE_RECORDS, 6, MORE_RECORDS // 100), (RECORDS, 6, RECORDS // 10))
"""How many pairs trees have, by which cuts they are made, and how many changes are applied to them."""

APPLIED_TURNS = 3
"""How often that is done, and the tree built from all records."""

ROOTED_TURNS = 9
"""How often a command is run whose time is some milliseconds."""

CHOSEN_BITS = (4, 6, 8, 12)
"""The cuts that a user chooses from."""

LARGE_FILES, LARGE_RECORDS = 4, 60_000_000
"""Of how many files, and records in all, a chunk file is made that is larger than what is read whole."""

SCANNED_BITS = (12, 4)
"""By which cuts the trees are made that are scanned."""

SCANNED_PAIRS = (1_000, 100_000, RECORDS)
"""How many pairs are scanned."""

LEAST_MEMORY = 1_000
"""Kilobytes of addresses with which no command is done."""

MEMORY_STEP = 100
"""By how many of them the least is told with which one is."""

LONG_RECORDS = 200_000
LONG_VALUE = 1_024

LONGEST_RECORDS = 16_384
LONGEST_VALUE = 65_536

LATE_MILLISECONDS = (0, 2, 8)
"""By how much the kernel may end a thread's sleep late, as on a guest whose idle cores the host lends to others."""

SECONDS_OF_WAITING = 3
"""How long a build waits for a pipe that gives a record a second."""

WRITTEN_AT_ONCE = 256
"""Records that are written with one call."""


def main():
    """Shows all."""
    program, parts = (str(Path(name).resolve()) for name in sys.argv[1:3])
    turns = int(sys.argv[3]) if len(sys.argv) > 3 else 9
    print(f"{turns} turns; the least peak memory that can be told is {run(['/bin/true']).peak / 1e6:.0f} MB")
    with tempfile.TemporaryDirectory() as folder:
        os.chdir(folder)
        show_commands(program, parts, turns)
        show_checks(program, parts, turns)
        show_sorts(program, turns)
        show_diff(program, parts, turns)
        show_diffs_by_root(program)
        show_applies(program)
        show_bits(program)
        show_proofs(program)
        show_rooted(program)
        show_dumps_by_root(program, turns)
        show_scans(program, turns)
        show_large_check(program)
        show_builds(program, parts, turns)
        show_long_builds(program, parts, turns)
        show_growth(program, parts, turns)
        show_longest_values(program)
        show_waiting(program)
        show_links(parts)


# ---- record files


def write_records(name, numbers, value_bytes=SHORT_VALUE):
    """A record file whose keys are these numbers, with values of so many bytes."""
    value = value_bytes.to_bytes(4, "big") + b"\x5a" * value_bytes
    with open(name, "wb", buffering=WRITTEN_AT_ONCE * (len(value) + 18)) as file:
        for number in numbers:
            file.write(spelled(number, value))


def spelled(number, value):
    """The record of a number, with a value behind its length."""
    return b"\0\x10" + number.to_bytes(16, "big") + value


def write_parts(files, count, value_bytes=SHORT_VALUE):
    """So many records in so many files, each with every so manieth record. Gives the files' names."""
    names = [f"{place} of {files} of {count} of {value_bytes}" for place in range(files)]
    for place, name in enumerate(names):
        write_records(name, range(place, count, files), value_bytes)
    return names


def remove(names):
    """Removes files."""
    for name in names:
        os.remove(name)


# ---- runs in turn


@dataclass
class Command:
    """A command that is measured."""

    words: list
    stdin: str = os.devnull
    """The file that it reads."""
    makes: str = ""
    """The file that it makes, if any. It is removed before: to give back what a large one has takes time."""
    late: float = 0
    """By how many seconds its sleeps may end late."""
    cores: tuple = ()
    """The cores that it runs on; none stand for all."""

    def run(self):
        """Runs it."""
        if self.makes:
            Path(self.makes).unlink(missing_ok=True)
        with open(self.stdin, "rb") as stdin:
            done = run(self.words, stdin=stdin, late=self.late, cores=self.cores)
        if done.status != 0:
            sys.exit(f"{self.words} failed: {done.err.decode()}")
        return done


@dataclass
class Figures:
    """The runs of some commands in turn, and the seconds of the hashes alone in each turn."""

    hashing: list
    runs: dict

    def show(self, name, *beside):
        """A line for a command, with its times beside those of others."""
        runs = self.runs[name]
        seconds = [done.seconds for done in runs]
        ratios = [f"{ratio(seconds, self.hashing)} of hashes"]
        ratios += [f"{ratio(seconds, [done.seconds for done in self.runs[other]])} of {other}" for other in beside]
        busy = [done.busy for done in runs]
        print(
            f"  {name:28} {spread(seconds)}, {', '.join(ratios)};"
            f" processor {median(busy):.2f} s, {ratio(busy, self.hashing)} of hashes;"
            f" switches {median(done.given for done in runs):.0f} + {median(done.lost for done in runs):.0f};"
            f" peak {max(done.peak for done in runs) / 1e6:.0f} MB"
        )

    def show_hashes(self, title):
        """A line for what is compared, and for the hashes alone."""
        print(f"{title}:")
        print(f"  {'hashes alone':28} {spread(self.hashing)}")


def in_turn(parts, commands, turns, *hashed):
    """Runs commands in turn, each turn behind the hashes alone of so many pairs."""
    figures = Figures([], {name: [] for name in commands})
    for _ in range(turns):
        told = output(parts, "hash", *map(str, hashed))
        figures.hashing.append(int(re.search(r"(\d+) ms", told)[1]) / 1000)
        for name, command in commands.items():
            figures.runs[name].append(command.run())
    return figures


def ratio(seconds, others):
    """How times are beside others of the same turns."""
    return f"{median(one / other for one, other in zip(seconds, others, strict=True)):.2f}"


def spread(seconds):
    """A median with the least and the most."""
    return f"{median(seconds):.2f} s ({min(seconds):.2f} to {max(seconds):.2f})"


def output(*command):
    """What a program prints."""
    return subprocess.run(command, check=True, capture_output=True, text=True).stdout.strip()


def build(program, names, out="tree"):
    """The words of a build."""
    return [program, "build", out, *names]


def building(program, names, **how):
    """A build that makes a new file."""
    return Command(build(program, names), makes="tree", **how)


def late_builds(program, kinds):
    """A build of each kind, by each lateness of sleeps."""
    return {
        f"{kind}, sleeps {late} ms late": building(program, names, late=late / 1000)
        for late in LATE_MILLISECONDS
        for kind, names in kinds.items()
    }


# ---- what is shown


def show_commands(program, parts, turns):
    """`scratch`, `build`, `check`, `get` and `dump`."""
    write_records("records", range(RECORDS))
    key = (RECORDS // 2).to_bytes(16, "big").hex()
    commands = {
        "scratch": Command([program, "scratch", "--out", "tree"], stdin="records", makes="tree"),
        "build": building(program, ["records"]),
        "check": Command([program, "check", "tree"]),
        "get": Command([program, "get", "tree", key]),
        "dump": Command([program, "dump", "tree", "again"], makes="again"),
    }
    figures = in_turn(parts, commands, turns, RECORDS)
    figures.show_hashes(f"{RECORDS} records of 38 bytes")
    figures.show("scratch")
    for name in ("build", "check", "get"):
        figures.show(name, "scratch")
    figures.show("dump", "check")
    print(f"  the records have {os.path.getsize('records') / 1e6:.0f} MB, the tree {os.path.getsize('tree') / 1e6:.0f} MB")
    remove(["records", "tree", "again"])


def show_checks(program, parts, turns):
    """`check` on all cores and on one, of small chunks and of long values, by the root, and of two files."""
    one_core = tuple(sorted(os.sched_getaffinity(0))[:1])
    for count, value_bytes, bits in ((RECORDS, SHORT_VALUE, 12), (RECORDS, SHORT_VALUE, 0), (LONG_RECORDS, LONG_VALUE, 12)):
        write_records("records", range(count), value_bytes)
        # At 0 bits a build would need more stages than there are.
        making = Command([program, "scratch", "--bits", str(bits), "--out", "tree"], stdin="records")
        root = making.run().out.decode().strip()
        commands = {
            "check": Command([program, "check", "tree"]),
            "check --root": Command([program, "check", "--root", root, "tree"]),
            "check, one core": Command([program, "check", "tree"], cores=one_core),
            "diff of a file and itself": Command([program, "diff", "tree", "tree"]),
        }
        figures = in_turn(parts, commands, turns, count, value_bytes)
        figures.show_hashes(f"{count} pairs with values of {value_bytes} bytes, --bits {bits}")
        figures.show("check")
        for name in list(commands)[1:]:
            figures.show(name, "check")
        remove(["records", "tree"])


def show_sorts(program, turns):
    """Lines in no order to a tree, by `pack --sort` and by `sort`, in turn: in memory, and in several runs."""
    numbers = list(range(RECORDS))
    random.Random(RECORDS).shuffle(numbers)
    value = "v" * SHORT_VALUE
    with open("lines", "w") as file:
        file.writelines(f"{number:016x}\t{value}\n" for number in numbers)
    ways = {
        "sort | pack": 'LC_ALL=C sort | "$0" pack --text records',
        "pack --sort": '"$0" pack --sort --text records',
        "pack --sort --memory 16": '"$0" pack --sort --memory 16 --text records',
    }
    commands = {name: Command(["/bin/sh", "-c", f'{way} && "$0" build tree records', program], stdin="lines") for name, way in ways.items()}
    runs = {name: [] for name in commands}
    for _ in range(turns):
        for name, command in commands.items():
            runs[name].append(command.run())
    if len({done.out for way in runs.values() for done in way}) != 1:
        sys.exit("a sort made another tree")
    print(f"{RECORDS} lines in no order, {os.path.getsize('lines') / 1e6:.0f} MB, packed and built:")
    plain = runs["sort | pack"]
    for name, done in runs.items():
        print(
            f"  {name:28} {spread(seconds_of(done))}, {ratio(seconds_of(done), seconds_of(plain))} of sort | pack;"
            f" processor {ratio([one.busy for one in done], [one.busy for one in plain])} of it;"
            f" peak {max(one.peak for one in done) / 1e6:.0f} MB"
        )
    remove(["lines", "records", "tree"])


def show_large_check(program):
    """A check by the root of a file that no command reads whole."""
    names = write_parts(LARGE_FILES, LARGE_RECORDS)
    root, chunks = Command(build(program, names)).run().out.decode().split()[:2]
    remove(names)
    done = Command([program, "check", "--root", root, "tree"]).run()
    print(
        f"check --root of {LARGE_RECORDS} pairs, {chunks} chunks, {os.path.getsize('tree') / 1e6:.0f} MB:"
        f" {done.seconds:.1f} s, processor {done.busy:.1f} s, peak {done.peak / 1e6:.0f} MB"
    )
    remove(["tree"])


def make_two(program, count, bits):
    """Two trees that differ in a few keys, `old` and `new`. Gives the options that name their roots."""
    names = write_parts(COMPARED_FILES, count)
    write_records("changes", range(0, count, count // CHANGES), CHANGED_VALUE)
    old, new = (
        Command([*build(program, files, tree), "--bits", str(bits)]).run().out.decode().split()[0]
        for tree, files in (("old", names), ("new", [*names, "changes"]))
    )
    remove([*names, "changes"])
    return ["--old-root", old, "--new-root", new]


def show_diffs_by_root(program):
    """Two trees that differ in a few keys, compared by their roots."""
    for count, bits in COMPARED_TREES:
        roots = make_two(program, count, bits)
        words = [program, "diff", *roots, "old", "new"]
        printing, counting = (many_runs([*words, *flags]) for flags in ((), ("--stat",)))
        print(
            f"diff by the roots of {CHANGES} changes of {count} pairs, --bits {bits}:"
            f" {spread(seconds_of(printing))}, peak {max(done.peak for done in printing) / 1e6:.0f} MB;"
            f" --stat {spread(seconds_of(counting))}: {counting[0].out.decode().strip()}"
        )
        remove(["old", "new"])


def show_applies(program):
    """The next tree from the last one, beside a build from all records, in turn."""
    for count, bits, changes in APPLIED:
        write_records("records", range(count))
        write_records("changes", range(0, count, count // changes), CHANGED_VALUE)
        root = Command([*build(program, ["records"], "old"), "--bits", str(bits)]).run().out.decode().split()[0]
        building = Command([*build(program, ["records", "changes"], "built"), "--bits", str(bits)], makes="built")
        applying = Command([program, "apply", "--root", root, "old", "applied", "changes"], makes="applied")
        built, applied = [], []
        for _ in range(APPLIED_TURNS):
            built.append(building.run())
            applied.append(applying.run())
        if built[0].out != applied[0].out:
            sys.exit(f"apply of {changes} changes made another tree")
        print(
            f"apply of {changes} changes to {count} pairs, --bits {bits}: {spread(seconds_of(applied))},"
            f" {ratio(seconds_of(applied), seconds_of(built))} of a build from all records,"
            f" {ratio([done.busy for done in applied], [done.busy for done in built])} of its processor time,"
            f" peak {max(done.peak for done in applied) / 1e6:.0f} MB"
        )
        remove(["records", "changes", "old", "built", "applied"])


def many_runs(words, found=1):
    """Some runs of a command that ends with this status."""
    runs = [run(words) for _ in range(ROOTED_TURNS)]
    if any(done.status != found for done in runs):
        sys.exit(f"{words} failed: {runs[0].err.decode()}")
    return runs


def seconds_of(runs):
    """What each of some runs took."""
    return [done.seconds for done in runs]


def show_bits(program):
    """What the bits decide: the chunks, what a few changes make new, a proof, a look-up, the file."""
    key = (RECORDS // 2).to_bytes(16, "big").hex()
    for bits in CHOSEN_BITS:
        roots = make_two(program, RECORDS, bits)
        counts = run([program, "diff", "--stat", *roots, "old", "new"]).out.decode().split()
        asking = many_runs([program, "get", "--root", roots[1], "old", key], 0)
        proving = many_runs([program, "prove", "--root", roots[1], "old", key, "proof"], 0)
        chunks = int(run([program, "check", "old"]).out.decode().split()[3])
        size, records = os.path.getsize("old"), RECORDS * (SHORT_VALUE + 22)
        print(
            f"--bits {bits} of {RECORDS} pairs: {chunks} chunks of {size / chunks / 1e3:.2f} kB,"
            f" a file of {size / records:.2f} times the records; {CHANGES} changes make {counts[7]} chunks and"
            f" {int(counts[9]) / 1e3:.1f} kB new; a proof has {os.path.getsize('proof') / 1e3:.1f} kB;"
            f" get --root {median(seconds_of(asking)) * 1000:.1f} ms, prove --root {median(seconds_of(proving)) * 1000:.1f} ms"
        )
        remove(["old", "new", "proof"])


def show_diff(program, parts, turns):
    """The walk over two trees that differ in a few keys, beside the check of both."""
    write_records("records", range(RECORDS))
    write_records("changes", range(0, RECORDS, RECORDS // CHANGES), CHANGED_VALUE)
    Command(build(program, ["records"], "old")).run()
    Command(build(program, ["records", "changes"], "new")).run()
    lines = [output(parts, "diff", str(CHANGES), "old", "new") for _ in range(turns)]
    checking, walking = ([int(re.search(rf"{what} (\d+) us", line)[1]) / 1e6 for line in lines] for what in ("check", "walk"))
    print(
        f"{CHANGES} changes of {RECORDS} pairs: walk {median(walking) * 1000:.1f} ms"
        f" ({min(walking) * 1000:.1f} to {max(walking) * 1000:.1f}), check of both files {spread(checking)},"
        f" {median(one / other for one, other in zip(walking, checking, strict=True)):.4f} of it"
    )
    remove(["records", "changes", "old", "new"])


def show_proofs(program):
    """How long proofs of some keys are, and how long it takes to make and to verify them."""
    write_records("records", range(RECORDS))
    keys = [number.to_bytes(16, "big").hex() for number in range(0, RECORDS, RECORDS // PROVED_KEYS)]
    for bits in PROOF_BITS:
        root = Command([*build(program, ["records"]), "--bits", str(bits)]).run().out.decode().split()[0]
        making, verifying, sizes = [], [], []
        for key in keys:
            making.append(Command([program, "prove", "tree", key, "proof"]).run())
            verifying.append(Command([program, "verify", root, key, "proof"]).run())
            sizes.append(os.path.getsize("proof"))
        print(
            f"proofs of {PROVED_KEYS} keys of {RECORDS}, --bits {bits}: {median(sizes) / 1e3:.1f} kB"
            f" ({min(sizes) / 1e3:.1f} to {max(sizes) / 1e3:.1f}); prove {spread([done.seconds for done in making])};"
            f" verify {median(done.seconds for done in verifying) * 1000:.1f} ms,"
            f" peak {max(done.peak for done in verifying) / 1e6:.1f} MB"
        )
        show_key_lists(program, root, bits)
    remove(["records", "tree", "proof"])


def show_key_lists(program, root, bits):
    """How large proofs of many keys are, of neighbours and of keys from all over the tree, and how long `get` of them takes."""
    for count in LISTED_KEYS:
        for name, numbers in (("neighbours", range(RECORDS // 2, RECORDS // 2 + count)), ("scattered", range(0, RECORDS, RECORDS // count))):
            Path("keys").write_text("".join(f"{number.to_bytes(16, 'big').hex()}\n" for number in numbers))
            making = Command([program, "prove", "--root", root, "--keys", "keys", "tree", "proof"]).run()
            verifying = Command([program, "verify", "--keys", "keys", root, "proof"]).run()
            getting = Command([program, "get", "--root", root, "--keys", "keys", "tree"]).run()
            print(
                f"{count} {name} keys of {RECORDS}, --bits {bits}: proof {os.path.getsize('proof') / 1e3:.1f} kB;"
                f" prove --root {making.seconds:.3f} s, verify {verifying.seconds:.3f} s, get --root {getting.seconds:.3f} s,"
                f" peak {verifying.peak / 1e6:.1f} MB"
            )
    remove(["keys"])


def show_rooted(program):
    """Keys looked up by the root in files of more and more pairs, beside a look-up and the check that read them whole."""
    for count, bits in ((RECORDS, 12), (RECORDS, 2), (MORE_RECORDS, 12)):
        names = write_parts(16, count)
        root, chunks = Command([*build(program, names), "--bits", str(bits)]).run().out.decode().split()[:2]
        remove(names)
        keys = [number.to_bytes(16, "big").hex() for number in range(0, count, count // ROOTED_KEYS)]
        asking = [Command([program, "get", "--root", root, "tree", key]) for key in keys]
        seconds = [command.run().seconds for command in asking]
        checking = Command([program, "check", "tree"]).run()
        memory = LEAST_MEMORY
        for command in asking:
            memory = least_memory(command, memory)
        print(
            f"get --root of {len(keys)} keys of {count}, --bits {bits}, {chunks} chunks, {os.path.getsize('tree') / 1e6:.0f} MB:"
            f" {median(seconds) * 1000:.1f} ms ({min(seconds) * 1000:.1f} to {max(seconds) * 1000:.1f}),"
            f" {memory / 1e3:.1f} MB of addresses;"
            f" check {checking.seconds:.2f} s, peak {checking.peak / 1e6:.0f} MB"
        )
    remove(["tree"])


def show_dumps_by_root(program, turns):
    """All pairs by the root, beside a dump that checks the file first."""
    write_records("records", range(RECORDS))
    for bits in SCANNED_BITS:
        root = Command([*build(program, ["records"]), "--bits", str(bits)]).run().out.decode().split()[0]
        by_root, whole = [], []
        for _ in range(turns):
            by_root.append(Command([program, "dump", "--root", root, "tree", "again"], makes="again").run().seconds)
            whole.append(Command([program, "dump", "tree", "again"], makes="again").run().seconds)
        print(
            f"dump of {RECORDS} pairs, --bits {bits}: --root {spread(by_root)}, without it {spread(whole)},"
            f" {ratio(by_root, whole)} of it"
        )
    remove(["records", "tree", "again"])


def show_scans(program, turns):
    """Pairs from the first key on by the root, beside a scan that checks the file first."""
    write_records("records", range(RECORDS))
    for bits in SCANNED_BITS:
        root, chunks = Command([*build(program, ["records"]), "--bits", str(bits)]).run().out.decode().split()[:2]
        print(f"scans of {RECORDS} pairs, --bits {bits}, {chunks} chunks:")
        for pairs in SCANNED_PAIRS:
            by_root, whole = [], []
            for _ in range(turns):
                by_root.append(Command([program, "scan", "--root", root, "tree", "", str(pairs)]).run())
                whole.append(Command([program, "scan", "tree", "", str(pairs)]).run())
            assert all(one.out == other.out for one, other in zip(by_root, whole, strict=True))
            print(
                f"  {pairs} pairs: --root {spread([done.seconds for done in by_root])},"
                f" peak {max(done.peak for done in by_root) / 1e6:.0f} MB;"
                f" without it {spread([done.seconds for done in whole])}"
            )
    remove(["records", "tree"])


def least_memory(command, size):
    """The least kilobytes of addresses, from these on, with which a command is done. They are more than the memory that it
    has, of which less than this process has can't be told."""
    while run(["/bin/sh", "-c", f'ulimit -v {size}; exec "$0" "$@"', *command.words]).status != 0:
        size += MEMORY_STEP
    return size


def show_builds(program, parts, turns):
    """Builds of the same records in more and more files, with timers that are late, and on two cores."""
    kinds = {kind: write_parts(files, RECORDS) for kind, files in (("1 file", 1), ("4 files", 4), ("16 files", 16))}
    cores = tuple(sorted(os.sched_getaffinity(0))[:2])
    commands = {"1 file, two cores": building(program, kinds["1 file"], cores=cores), **late_builds(program, kinds)}
    figures = in_turn(parts, commands, turns, RECORDS)
    figures.show_hashes(f"builds of {RECORDS} records of 38 bytes")
    for name in commands:
        figures.show(name)
    remove(["tree", *(name for names in kinds.values() for name in names)])


def show_long_builds(program, parts, turns):
    """Builds of longer values."""
    kinds = {"4 files": write_parts(4, LONG_RECORDS, LONG_VALUE)}
    commands = late_builds(program, kinds)
    figures = in_turn(parts, commands, turns, LONG_RECORDS, LONG_VALUE)
    figures.show_hashes(f"builds of {LONG_RECORDS} records with values of {LONG_VALUE} bytes")
    for name in commands:
        figures.show(name)
    remove(["tree", *kinds["4 files"]])


def show_growth(program, parts, turns):
    """A build of many more records beside one of fewer."""
    counts = (RECORDS, MORE_RECORDS)
    kinds = {f"{count} records": write_parts(16, count) for count in counts}
    few, many = kinds
    figures = in_turn(parts, {kind: building(program, names) for kind, names in kinds.items()}, turns, RECORDS)
    figures.show_hashes(f"builds of 16 files, beside the hashes of {RECORDS} records")
    figures.show(few)
    figures.show(many, few)
    remove(["tree", *kinds[few], *kinds[many]])


def show_longest_values(program):
    """The memory of builds of the longest values."""
    print(f"builds of {LONGEST_RECORDS} records with values of {LONGEST_VALUE} bytes at --bits 4, one run each:")
    for files in (1, 16):
        names = write_parts(files, LONGEST_RECORDS, LONGEST_VALUE)
        done = Command([program, "build", "--bits", "4", os.devnull, *names]).run()
        print(f"  in {files}: peak {done.peak / 1e6:.0f} MB, {done.seconds:.2f} s, processor {done.busy:.2f} s")
        remove(names)


def show_waiting(program):
    """The processor time of a build that waits for a pipe."""
    value = SHORT_VALUE.to_bytes(4, "big") + b"\x5a" * SHORT_VALUE
    records = [spelled(number, value) for number in range(SECONDS_OF_WAITING)]
    Path("at once").write_bytes(b"".join(records))
    at_once = Command(build(program, ["at once"])).run()
    slowly = run_over_pipe(build(program, ["pipe"]), "pipe", records, 1)
    print(
        f"a build of {SECONDS_OF_WAITING} records, one a second: processor {slowly.busy:.3f} s,"
        f" switches {slowly.given} + {slowly.lost}; from a file {at_once.busy:.3f} s, {at_once.given} + {at_once.lost}"
    )


def show_links(parts):
    """What an item costs that goes over a link."""
    for kind in ("link", "batches-of-16", "batches-of-64"):
        print(output(parts, kind, "1000000"))


if __name__ == "__main__":
    main()
