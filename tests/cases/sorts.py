"""`pack --sort`: lines in any order, beside Python's `sorted`, and what becomes of the runs that are written beside OUT."""

import errno
import hashlib
import os
import random
import resource
import signal
import subprocess
import tempfile
import time
from dataclasses import dataclass
from functools import partial
from math import gcd
from pathlib import Path

from cases.files import NO_WRITE
from cases.random_runs import hex_line as random_hex_line
from cases.random_runs import key as random_key
from cases.random_runs import text_line as random_text_line
from oracle.escapes import respelled, text_lines
from oracle.sorting import BYTE_ORDER_MARK, LONGEST_LINE, latest, packed_in_order
from oracle.trees import REMOVED, record, records
from support.harness import FOLDER, Case, tested
from support.measured import Measured
from support.place import all_of, begin, compiled
from support.refused import Command, refuse

SEED, TABLES = 20_261_128, 300
"""The random tables of the gate."""

BEFORE = records([(b"before", b"1")])
"""What OUT holds before a run, where it is there."""

WORDS = ["pack", "--sort", "--memory", "16"]
"""The words of most runs: the least memory, so that little makes several runs."""


def cases(_):
    """All cases."""
    return [*orders(), *limits(), *refusals(), *doubled(), *outputs(), *random_tables(SEED, TABLES)]


def in_order(name, text, *flags, **more):
    """Lines that are packed in the order of their keys, or a refusal."""
    found, fault = packed_in_order(text, "--text" in flags, "--removals" in flags)
    words = ["pack", "--sort", *flags, "out.rec"]
    if fault is not None:
        return Case(f"pack --sort: {name}", words, text, status=3, err=b"prolly: " + fault + b"\n", **more)
    return Case(f"pack --sort: {name}", words, text, out=b"%d\n" % len(found), after={"out.rec": records(found)}, **more)


# ---- the order, and the last line of a key


def orders():
    """Small tables."""
    above = [bytes([byte]) for byte in (0x80, 0x7F, 0, 0xFF, 0x61)]
    prefixes = [b"aa", b"a", b"", b"aaa", b"a\0", b"a\xff"]
    swapped = b"b\t1\na\t2\n"
    return [
        in_order("no line", b""),
        in_order("no line of text", b"", "--text"),
        in_order("one line", b"61 31\n"),
        in_order("one line without a newline", b"61 31"),
        in_order("two lines", b"62 31\n61 32\n"),
        in_order("two lines of text", swapped, "--text"),
        in_order("the last line without a newline", b"b\t1\na\t2", "--text"),
        in_order("lines in order", b"a\t1\nb\t2\n", "--text"),
        in_order("keys are compared as bytes, unsigned", text_lines([(key, key) for key in above]), "--text"),
        in_order("a key comes before those that it begins", text_lines([(key, b"") for key in prefixes]), "--text"),
        in_order("a key comes before those that it begins, whatever its text is", b"a\t1\na\\x09\t2\na\\x08\t3\na!\t4\n", "--text"),
        in_order("an empty key and an empty value", b"a\t\n\t1\n", "--text"),
        in_order("the last line of a key counts", b"a\t1\nb\t1\na\t2\na\t3\n", "--text"),
        in_order("the last line of a key counts, whatever its text is", b"a\t1\n\\x61\t2\n", "--text"),
        in_order("a removal is the last one", b"b\t1\na\t1\nb\n", "--text", "--removals"),
        in_order("a removal is not the last one", b"b\nb\t1\na\t1\n", "--text", "--removals"),
        in_order("a removal alone", b"62 31\n61 -\n"),
        in_order("two removals of the empty key", b"\n\n", "--text", "--removals"),
        in_order("the same key a thousand times", b"".join(b"a\t%d\n" % number for number in range(1_000)), "--text"),
        in_order("the least memory", swapped, "--text", "--memory", "16"),
        in_order("the most memory", swapped, "--text", "--memory", "4000"),
        in_order("a mark of the order of bytes in the second line", b"b\t1\n" + BYTE_ORDER_MARK + b"a\t1\n", "--text"),
    ]


def limits():
    """Keys, values and lines at their limits, and past them."""
    key, value = b"\\x01" * 1_024, b"\\xff" * 65_536
    longest = key + b"\t" + value
    assert len(longest) == LONGEST_LINE
    return [
        in_order("the longest line", longest + b"\n", "--text"),
        in_order("the longest line, without a newline, behind another", b"a\t1\n" + longest, "--text"),
        in_order("a line of a byte more", longest + b"f\n", "--text"),
        in_order("a line of a byte more, without a newline, behind another", b"a\t1\n" + longest + b"f", "--text"),
        in_order("a line that does not end", b"a\t1\n" + b"a" * 5_000_000, "--text"),
        in_order("a line that does not end, in hexadecimal", b"61 31\n" + b"61" * 500_000),
        in_order("a line that is too long behind a bad one", b"a\n" + longest + b"f\n", "--text"),
        in_order("a line that is too long before a bad one", longest + b"f\na\n", "--text"),
        in_order("a key of 1,025 bytes", b"b\t1\n" + b"k" * 1_025 + b"\t1\n", "--text"),
        in_order("a removal of a key of 1,025 bytes", b"6b" * 1_025 + b" -\n"),
        in_order("a value of 65,537 bytes", b"b\t1\na\t" + b"v" * 65_537, "--text"),
        in_order("a value of 65,537 bytes, in hexadecimal", b"61 " + b"31" * 65_537),
    ]


# ---- what is refused


def refusals():
    """Lines of which one is refused. OUT stays as it was, or is not there, and nothing stands beside it."""
    texts = [
        ("a blank line", b"b\t1\n\n"),
        ("no tab", b"b\t1\na\n"),
        ("two tabs", b"b\t1\na\t1\t2\n"),
        ("a carriage return", b"b\t1\r\na\t1\r\n"),
        ("a bad escape", b"b\t1\na\t\\q\n"),
        ("the first of two bad lines", b"b\t1\na\na\t1\nc\n"),
        ("a bad line behind a key that came twice", b"b\t1\nb\t1\nb\n"),
        ("a mark of the order of bytes", BYTE_ORDER_MARK + b"b\t1\na\t1\n"),
        ("a mark of the order of bytes, and a bad line", BYTE_ORDER_MARK + b"b\n"),
    ]
    found = []
    for name, text in texts:
        found.append(in_order(name, text, "--text"))
        found.append(in_order(f"{name}, and OUT is there", text, "--text", before={"out.rec": BEFORE}))
    return [
        *found,
        in_order("a mark of the order of bytes before hexadecimal", BYTE_ORDER_MARK + b"61 31\n"),
        in_order("text for hexadecimal", b"a\t1\n"),
        in_order("a line that has lost its tab", b"b\t1\na\n", "--text", before={"out.rec": BEFORE}),
    ]


def doubled():
    """`--unique`."""
    many = [b"%05d\t%d\n" % (number * 7_919 % 10_007, number) for number in range(10_000)]
    return [
        in_order("--unique, and each key is", b"b\t1\na\t1\n", "--text", "--unique"),
        in_order("--unique of no line", b"", "--unique"),
        in_order("--unique, many lines", b"".join(many), "--text", "--unique"),
        twice("two lines", b"a\t1\na\t2\n", 1, 0, "--text"),
        twice("two lines in hexadecimal, the same", b"61 31\n61 31\n", 1, 0),
        twice("a removal and a put", b"61 -\n62 31\n61 31\n", 2, 0),
        twice("two removals", b"b\na\nb\n", 2, 0, "--text", "--removals"),
        twice("the empty key", b"\t1\na\t1\n\t1\n", 2, 0, "--text"),
        twice("one key in two spellings", b"b\t1\na\t1\n\\x61\t1\n", 2, 1, "--text"),
        twice("one in a line of many", b"".join([*many, many[4_321]]), 10_000, 4_321, "--text"),
        twice("the last line of many, without a newline", b"".join([*many[:5_000], many[0].rstrip()]), 5_000, 0, "--text"),
    ]


def twice(name, text, second, first, *flags):
    """Lines of which two have one key, with `--unique`."""
    words = ["pack", "--sort", "--unique", *flags, "out.rec"]
    line = b"prolly: line %d: has the key of line %d\n" % (second, first)
    return Case(f"pack --sort --unique: {name}", words, text, status=3, err=line, before={"out.rec": BEFORE})


# ---- what OUT may be


def outputs():
    """OUT where it is no file, and inputs and standard outputs that fail."""
    words, text, made = ["pack", "--sort", "out.rec"], b"62 31\n61 32\n", records([(b"a", b"2"), (b"b", b"1")])
    unread = {"status": 5, "err": b"prolly: file 0: read failed\n"}

    def cannot(verb, name, **more):
        return Case(f"pack --sort: OUT is {name}", ["pack", "--sort", name], text, status=5, err=f"prolly: cannot {verb} {name}\n".encode(), **more)

    return [
        cannot("replace", "/dev/full"),
        cannot("replace", "/dev/null"),
        cannot("replace", "folder", before={"folder": FOLDER}),
        cannot("replace", "none/out.rec"),
        Case("pack --sort: an input that can't be read", words, Path("."), before={"out.rec": BEFORE}, **unread),
        Case("pack --sort: a closed input", words, None, before={"out.rec": BEFORE}, **unread),
        Case("pack --sort: standard output is full", words, text, stdout="full", status=5, err=b"prolly: write failed\n", after={"out.rec": made}),
        Case("pack --sort: nobody reads standard output", words, text, stdout="unread", status=5, err=b"prolly: write failed\n", after={"out.rec": made}),
        Case("pack --sort: a closed standard error is no file to write to", words, b"61\n", status=3, stderr="closed"),
        Case("pack --sort: OUT is a file of another kind", words, text, status=5, err=b"prolly: OUT is not a record file: out.rec\n", before={"out.rec": b"\xff\xff a table"}),
        Case("pack --sort --force: OUT is a file of another kind", [*words, "--force"], text, out=b"2\n", before={"out.rec": b"\xff\xff a table"}, after={"out.rec": made}),
        Case("pack --sort --atomic --sync", [*words, "--atomic", "--sync"], text, out=b"2\n", before={"out.rec": BEFORE}, after={"out.rec": made}),
    ]


# ---- random tables


def random_tables(seed, count):
    """So many tables; a difference is named with the seed and the number that bring it back."""
    for number in range(count):
        chance = random.Random(f"{seed} {number}")
        case = random_unique(chance) if chance.random() < 0.2 else random_table(chance)
        case.name = f"pack --sort: random {seed}, table {number}"
        yield case


def random_table(chance):
    """Lines in hexadecimal or of text, in one of many orders, which may be at fault."""
    is_text, has_removals = chance.random() < 0.6, chance.random() < 0.5
    changes = arranged(chance, random_changes(chance, has_removals or not is_text))
    found = [spelled(chance, change, is_text) for change in changes]
    for _ in range(chance.choice([0, 0, 0, 0, 0, 1, 2])):
        bad = random_text_line(chance, has_removals) if is_text else random_hex_line(chance)
        found.insert(chance.randrange(len(found) + 1), bad)
    text = b"\n".join(found) + (b"\n" if found and chance.random() < 0.7 else b"")
    flags = [*(["--text"] if is_text else []), *(["--removals"] if has_removals else []), *random_flags(chance)]
    return in_order("", text, *flags, before=chance.choice([{}, {"out.rec": BEFORE}]))


def random_unique(chance):
    """Lines of which none have one key, or two."""
    changes = list(dict(arranged(chance, random_changes(chance, True))).items())
    flags = [*random_flags(chance), "--text", "--removals"]
    if not changes or chance.random() < 0.5:
        return in_order("", text_lines(changes), *flags, "--unique", before={"out.rec": BEFORE})
    first = chance.randrange(len(changes))
    second = chance.randrange(first + 1, len(changes) + 1)
    changes.insert(second, (changes[first][0], b"again"))
    return twice("", text_lines(changes), second, first, *flags)


def random_flags(chance):
    """Flags that do not change what is made."""
    return [*chance.choice([[], ["--memory", "16"], ["--memory", "17"], ["--memory", "3999"]]), *chance.choice([[], [], ["--atomic"], ["--sync"]])]


def random_changes(chance, has_removals):
    """Changes, of some keys or of as many as there are changes."""
    count = chance.choice([0, 1, 2, chance.randrange(40), chance.randrange(400)])
    keys = [chance.choice(KINDS_OF_KEYS)(chance) for _ in range(max(1, chance.choice([count, count, count // 10])))]
    return [(chance.choice(keys), random_value(chance, has_removals)) for _ in range(count)]


KINDS_OF_KEYS = [
    random_key,
    random_key,
    lambda chance: b"%d" % chance.randrange(10_000),
    lambda chance: b"a" * chance.randrange(60),
    lambda chance: bytes([chance.choice(b"\0\x7f\x80\xff"), chance.choice(b"\0\x7f\x80\xff")]),
]


def random_value(chance, has_removals):
    """A value, or a removal where there may be one."""
    kind = chance.random()
    if kind < 0.2:
        return REMOVED if has_removals else b""
    if kind > 0.9995:
        return chance.randbytes(65_536)
    return chance.randbytes(chance.choice([0, 1, 8, chance.randrange(200)]))


def arranged(chance, changes):
    """Changes in one of many orders."""
    rising = sorted(changes, key=lambda change: change[0])
    kind = chance.randrange(7)
    if kind == 0:
        return rising
    if kind == 1:
        return rising[::-1]
    if kind == 2:
        return latest(changes)
    if kind == 3 and rising:
        # In order, but for one.
        rising.insert(chance.randrange(len(rising) + 1), rising.pop(chance.randrange(len(rising))))
        return rising
    if kind == 4:
        # Each key again, far from where it first came.
        return rising + [(key, chance.randbytes(3)) for key, _ in rising]
    return changes


def spelled(chance, change, is_text):
    """The line of a change, in one of its spellings."""
    key, value = change
    if not is_text:
        line = key.hex().encode() + b" " + (b"-" if value is REMOVED else value.hex().encode())
        return line.upper() if chance.random() < 0.2 else line
    chance_of_digits = chance.choice([0, 0, 0.2, 1])
    # A mark of the order of bytes may not begin a table.
    key = b"\\xef" + respelled(chance, key[1:], chance_of_digits) if key[:1] == b"\xef" else respelled(chance, key, chance_of_digits)
    return key if value is REMOVED else key + b"\t" + respelled(chance, value, chance_of_digits)


# ---- tables that one run does not hold


LARGE = 60_000_000
"""About how many bytes of lines such a table has."""

SHORT_LINES = 180_000
"""How many lines of middling values are as many bytes. They make 17 runs of the least memory, more than are merged at a time."""

LONG_VALUE = 60_000
"""The bytes of values of which some sixty fill a run of the least memory."""


@dataclass
class Large:
    """A table by the numbers of its keys, in the order of its lines. A number says with its sign whether the line puts a value
    or takes the key away; the value tells in which of its lines the key stands."""

    numbers: list
    value_bytes: int = 330

    def changes(self):
        """Its changes."""
        for place, number in enumerate(self.numbers):
            yield self.change(number, place)

    def change(self, number, place):
        """The change of a line."""
        key, told = b"key %08d" % abs(number), b"%d %d, " % (place, number)
        return key, REMOVED if number < 0 else (told * (self.value_bytes // len(told) + 1))[: self.value_bytes]

    def lines(self):
        """Its lines, in which nothing has to be escaped."""
        for key, value in self.changes():
            yield key + b"\n" if value is REMOVED else key + b"\t" + value + b"\n"

    def write(self, path):
        """Writes its lines."""
        with open(path, "wb", buffering=2**20) as file:
            file.writelines(self.lines())

    def told(self):
        """The number of records that it comes to, and the hash of their file."""
        last = {abs(number): (number, place) for place, number in enumerate(self.numbers)}
        digest = hashlib.sha256()
        for number in sorted(last):
            digest.update(record(*self.change(*last[number])))
        return len(last), digest.hexdigest()


def large_tables():
    """Tables of several runs, but for the one that is in order."""
    chance = random.Random(SEED)
    numbers = list(range(1, SHORT_LINES + 1))
    shuffled = chance.sample(numbers, len(numbers))
    nearly = list(numbers)
    for _ in range(200):
        one, other = chance.randrange(len(nearly)), chance.randrange(len(nearly))
        nearly[one], nearly[other] = nearly[other], nearly[one]
    half, long = numbers[: SHORT_LINES // 2], list(range(1, LARGE // LONG_VALUE + 1))
    return {
        "in no order": Large(shuffled),
        "nearly in order": Large(nearly),
        "from the last key down": Large(numbers[::-1]),
        "each key twice, far apart": Large(half + half),
        "each key put, and each second one taken away": Large(shuffled[: SHORT_LINES // 2] + [-number for number in half[::2]] + half[1::4]),
        "few keys, many times": Large([number % 1_000 + 1 for number in shuffled]),
        "long values": Large(chance.sample(long, len(long)), LONG_VALUE),
        "long values, of few keys": Large([number % 7 + 1 for number in long], LONG_VALUE),
    }


def comes_to(place, table, is_one_run=False):
    """A table of several runs, or of one, is packed in the order of its keys."""
    given = place.folder.parent / "lines"
    table.write(given)
    count, digest = table.told()
    with open(given, "rb") as stdin:
        answer, calls = place.meddled(*WORDS, "--text", "--removals", "out", stdin=stdin)
    place.answers(answer, (0, b"%d\n" % count, b""))
    place.holds(out=None)
    if sha256_of(place.path("out")) != digest:
        place.note("OUT is not what the lines come to")
    made = sum(line.startswith("open ") for line in calls)
    if (made == 1) != is_one_run:
        place.note(f"{made} files were made")


def is_as_packed(place):
    """Lines in order, which are more than a run holds, make one file, which is what `pack` makes of them."""
    table = Large(list(range(SHORT_LINES)))
    comes_to(place, table, is_one_run=True)
    with open(place.folder.parent / "lines", "rb") as stdin:
        place.answers(place.run("pack", "--text", "packed", stdin=stdin), (0, b"%d\n" % SHORT_LINES, b""))
    if sha256_of(place.path("packed")) != sha256_of(place.path("out")):
        place.note("`pack` makes another file")


def sha256_of(path):
    """The hash of a file."""
    digest = hashlib.sha256()
    with open(path, "rb") as file:
        while block := file.read(2**20):
            digest.update(block)
    return digest.hexdigest()


def several_runs():
    """A table of few lines that makes several runs."""
    chance = random.Random(SEED)
    numbers = list(range(1, 201))
    return Large(chance.sample(numbers, len(numbers)), LONG_VALUE)


def is_refused(place, changed, wanted, flags):
    """A fault that comes behind several runs: OUT is as it was, and nothing stands beside it."""
    lines = list(several_runs().lines())
    changed(lines)
    place.lay(out=BEFORE)
    place.answers(place.run(*WORDS, "--text", *flags, "out", stdin=b"".join(lines)), (3, b"", wanted))
    place.holds(out=BEFORE)


def bad_lines():
    """Faults behind several runs: for each its name, what is done to the lines, the line that tells of it, and flags."""
    count = len(several_runs().numbers)
    return [
        ("a bad line", lambda lines: lines.append(b"a\n"), b"prolly: line %d: not a pair of text\n" % count),
        ("a bad line in the middle", lambda lines: lines.insert(150, b"a\n"), b"prolly: line 150: not a pair of text\n"),
        ("a line that is too long", lambda lines: lines.append(b"a" * (LONGEST_LINE + 1)), b"prolly: line %d: line too long\n" % count),
        ("a key of two runs", lambda lines: lines.append(lines[3]), b"prolly: line %d: has the key of line 3\n" % count, "--unique"),
        ("a key twice in one run", lambda lines: lines.insert(4, lines[3]), b"prolly: line 4: has the key of line 3\n", "--unique"),
        ("a key twice in the last run", lambda lines: lines.append(lines[-1]), b"prolly: line %d: has the key of line %d\n" % (count, count - 1), "--unique"),
    ]


def is_unique(place):
    """Lines of several runs, of which none have one key."""
    table = several_runs()
    count, digest = table.told()
    given = b"".join(table.lines())
    place.answers(place.run(*WORDS, "--text", "--unique", "out", stdin=given), (0, b"%d\n" % count, b""))
    if sha256_of(place.path("out")) != digest:
        place.note("OUT is not what the lines come to")
    place.holds(out=None)


# ---- OUT


def is_the_input(place):
    """OUT is the file behind standard input, under its name or another."""
    text = b"62 31\n61 32\n"
    place.lay(table=text)
    os.link(place.path("table"), place.path("hard"))
    place.path("soft").symlink_to("table")
    for name in ("table", "hard", "soft"):
        for flags in ([], ["--force"]):
            with open(place.path("table"), "rb") as stdin:
                answer = place.run(*WORDS, *flags, name, stdin=stdin)
            place.answers(answer, (5, b"", b"prolly: OUT is also an input: standard input\n"))
    place.holds(table=text, hard=text, soft=text)


def is_a_pipe(place):
    """OUT is a pipe, which can't be replaced, and of which nothing is opened."""
    os.mkfifo(place.path("out"))
    place.answers(place.run(*WORDS, "out", stdin=b"61 31\n"), (5, b"", b"prolly: cannot replace out\n"))
    if not place.path("out").is_fifo():
        place.note("the pipe is gone")


def needs_its_folder(place):
    """A folder in which no file can be made."""
    place.lay(out=BEFORE)
    place.path("out").chmod(0o666)
    place.folder.chmod(0o555)
    place.answers(place.run(*WORDS, "out", stdin=b"61 31\n", is_nobody=True), (5, b"", b"prolly: cannot replace out\n"))
    place.folder.chmod(0o755)
    place.holds(out=BEFORE)


def passes_names(place):
    """Names beside OUT that are taken stay as they are, also where several runs are written."""
    given = b"".join(several_runs().lines())
    place.lay(out_0_tmp=b"0", out_1_tmp=b"1")
    count, digest = several_runs().told()
    place.path("out.0.tmp").write_bytes(b"0")
    place.answers(place.run(*WORDS, "--text", "out", stdin=given), (0, b"%d\n" % count, b""))
    if sha256_of(place.path("out")) != digest:
        place.note("OUT is not what the lines come to")
    place.holds(out=None, out_0_tmp=b"0", out_1_tmp=b"1")


def is_moved_away(place):
    """OUT is moved away while a sort of several runs goes on: further files are made all the same, and the last one becomes OUT."""
    place.lay(out=BEFORE)
    process = place.start([*WORDS, "--text", "out"], stdin=subprocess.PIPE)
    rest = begin(process, b"".join(several_runs().lines()), place.path("out.0.tmp"))
    place.path("out").rename(place.path("old"))
    count, digest = several_runs().told()
    place.answers(place.finish(process, rest), (0, b"%d\n" % count, b""))
    if sha256_of(place.path("out")) != digest:
        place.note("OUT is not what the lines come to")
    place.holds(out=None, old=BEFORE)


def is_not_its_own(place):
    """The file of a run whose name another file took: that stays, also where the run is to be read back."""
    place.lay(out=BEFORE)
    process = place.start([*WORDS, "--text", "out"], stdin=subprocess.PIPE)
    rest = begin(process, b"".join(several_runs().lines()), place.path("out.0.tmp"))
    place.path("out.0.tmp").unlink()
    place.path("out.0.tmp").write_bytes(b"another's")
    place.answers(place.finish(process, rest), (5, b"", b"prolly: the file of a run can't be read\n"))
    place.holds(out=BEFORE, out_0_tmp=b"another's")


# ---- devices at fault


def is_full(place, most):
    """No file may be larger than so many bytes, as on a device that is full: nothing is left beside OUT, which is as it was."""
    given = b"".join(several_runs().lines())
    place.lay(out=BEFORE)
    # As behind `trap '' XFSZ`, so that the write fails and the program goes on.
    answer = place.run(*WORDS, "--text", "out", stdin=given, limits={resource.RLIMIT_FSIZE: most}, restore_signals=False)
    place.answers(answer, NO_WRITE)
    place.holds(out=BEFORE)


CALLS = ("read", "write", "open", "pread", "lseek", "fchmod", "fsync", "rename", "unlink", "ftruncate", "statx", "realpath", "readlink", "flock")
"""The calls of the system that are made to fail."""

FAULTS = [
    b"write failed",
    b"file 0: read failed",
    b"cannot open out",
    b"cannot open standard input",
    b"cannot open standard output",
    b"cannot replace out",
    b"a file for a run can't be made",
    b"the file of a run can't be read",
]
"""What may be told of a device."""


def each_fails(place, call, given, made, numbers=range(1, 200)):
    """The call of each of these numbers fails, as long as there is one. At least two of those that each run makes do."""
    place.lay(given=given)
    failed = 0
    for number in numbers:
        place.lay(out=BEFORE)
        with open(place.path("given"), "rb") as stdin:
            answer, calls = place.meddled(*WORDS, "--text", "--sync", "out", stdin=stdin, meddle={"fail": f"{call} {number} {errno.ENOSPC}"})
        if sum(line.split()[0] == call for line in calls) < number:
            break
        failed += 1
        content = place.path("out").read_bytes()
        if not ends_well(call, answer, content, made):
            place.note(f"{call} {number}: status {answer[0]}, {answer[2]}, {len(content)} bytes in OUT")
        place.holds(out=None, given=None)
    if call in ("read", "write", "open") and failed < min(2, len(numbers)):
        place.note(f"{failed} calls of {call}")


def ends_well(call, answer, content, made):
    """Whether a run in which a call failed tells a fault, with OUT as it was; or OUT is whole, and only the answer could not be
    printed, or the folder not be brought to the disk; or the run is done all the same, which it is not where bytes were lost."""
    status, out, err = answer
    if status == 0:
        return content == made and call not in ("read", "write", "pread", "fsync")
    if content == made:
        return answer == NO_WRITE and call in ("write", "fsync")
    return content == BEFORE and status == 5 and out == b"" and err in [b"prolly: " + fault + b"\n" for fault in FAULTS]


def each_fails_of_one_run(place, call):
    """Each call of a small table."""
    changes = [(b"%d" % (number * 7 % 100), b"%d" % number) for number in range(100)]
    each_fails(place, call, text_lines(changes), records(latest(changes)))


def some_fail_of_several_runs(place, call):
    """Some calls of a table of several runs: the first ones and the last ones, and between them every so manieth."""
    table = several_runs()
    given, made = b"".join(table.lines()), records(latest(table.changes()))
    place.lay(given=given)
    with open(place.path("given"), "rb") as stdin:
        answer, calls = place.meddled(*WORDS, "--text", "--sync", "out", stdin=stdin)
    place.answers(answer, (0, b"%d\n" % len(table.numbers), b""))
    count = sum(line.split()[0] == call for line in calls)
    numbers = sorted({*range(1, 4), *range(1, count + 1, max(1, count // 12)), *range(max(1, count - 3), count + 1)})
    each_fails(place, call, given, made, numbers)


def is_interrupted(place, how):
    """Calls that are interrupted are made again, and what a call did not move is moved by others."""
    changes = [(b"%d" % (number * 7 % 100), b"%d" % number) for number in range(200)]
    place.lay(given=text_lines(changes))
    with open(place.path("given"), "rb") as stdin:
        answer, _ = place.meddled(*WORDS, "--text", "out", stdin=stdin, meddle=how)
    place.answers(answer, (0, b"100\n", b""))
    place.holds(out=records(latest(changes)), given=None)


def is_ended(place, name):
    """A signal ends a run at some moment, and before some write that is neither its first nor its last."""
    table, number = several_runs(), getattr(signal, name)
    given, made = b"".join(table.lines()), records(latest(table.changes()))
    place.lay(given=given)
    words = [*WORDS, "--text", "out"]
    began = time.monotonic()
    with open(place.path("given"), "rb") as stdin:
        answer, calls = place.meddled(*words, stdin=stdin)
    duration = time.monotonic() - began
    place.answers(answer, (0, None, b""))
    chance = random.Random(name)
    for _ in range(5):
        place.lay(out=BEFORE)
        with open(place.path("given"), "rb") as stdin:
            place.end_at(number, duration * chance.random(), *words, stdin=stdin)
        judge_ended(place, (BEFORE, made))
    writes = sum(line.startswith("write ") for line in calls)
    for write in chance.sample(range(2, writes), 5):
        place.lay(out=BEFORE)
        with open(place.path("given"), "rb") as stdin:
            place.end_before_write(number, write, *words, stdin=stdin)
        judge_ended(place, (BEFORE,))
    place.holds(out=None, given=None)


def judge_ended(place, may_be):
    """Notes where OUT holds anything else than it may after a run that was ended. One file may stand beside it, no more."""
    beside = list(place.folder.glob("out.*.tmp"))
    if place.path("out").read_bytes() not in may_be or len(beside) > 1:
        place.note(f"{len(beside)} files beside OUT, or OUT is neither")
    for path in beside:
        path.unlink()


# ---- memory


MOST_GROWTHS = 100_000


def is_refused_memory(program, folder):
    """Some growths of memory are refused to a sort of several runs: for each its name and its differences."""
    allocator = compiled("refuse", folder)
    table = several_runs()
    made = records(latest(table.changes()))
    given = b"".join(table.lines())
    words = [*WORDS, "--text", "out.rec"]
    command = Command("pack --sort of several runs", words, given, out=b"%d\n" % len(table.numbers), before={"out.rec": BEFORE}, made="out.rec", whole=made, parts=[])
    number = 1
    while number < MOST_GROWTHS:
        was_refused, differences = refuse(program, allocator, command, number)
        if was_refused and differences == [f"out.rec holds {BEFORE!r} of {len(BEFORE)} bytes"]:
            differences = []
        yield f"{command.name}, growth {number} refused", differences
        if not was_refused:
            break
        number += 1 + number // 4


def held(program, folder, count, memory, most):
    """What is wrong with a sort of so many lines, half of whose keys come twice: its answer, what it makes, and its memory. The
    lines come through a pipe. They are some 130 bytes each, and half as many again."""
    order, second = prime_to(count, 0.618), prime_to(count, 0.382)
    words = [program, "pack", "--sort", "--memory", str(memory), "--text", "out"]
    reader, writer = os.pipe()
    begun = Measured(words, folder, stdin=reader)
    os.close(reader)
    with open(writer, "wb", buffering=2**20) as lines:
        for place in range(count):
            lines.write(b"%012d\t%s\n" % held_pair(place * order % count, 0))
        for place in range(count):
            number = place * second % count
            if number % 2:
                lines.write(b"%012d\t%s\n" % held_pair(number, 1))
    done = begun.finish()
    found = [] if (done.status, done.out, done.err) == (0, b"%d\n" % count, b"") else [f"status {done.status}, {done.out!r}, {done.err!r}"]
    wanted = hashlib.sha256()
    for number in range(count):
        key, value = held_pair(number, number % 2)
        wanted.update(record(b"%012d" % key, value))
    if not found and sha256_of(folder / "out") != wanted.hexdigest():
        found.append("OUT is not what the lines come to")
    if done.peak > most:
        found.append(f"a peak of {done.peak / 1e6:.0f} MB, wanted at most {most / 1e6:.0f}")
    return found


def held_pair(number, version):
    """The number of a key, and its value in its first line or its second."""
    return number, b"%09d %d, " % (number, version) * 9


def prime_to(count, part):
    """A number that is about this part of a count, and has no divisor with it, so that its multiples go over all numbers."""
    return next(number for number in range(int(count * part), 2 * count) if gcd(number, count) == 1)


# ---- all


def tests():
    """All tests in a folder: for each a name and what it does."""
    for name, table in large_tables().items():
        yield f"several runs: {name}", partial(comes_to, table=table)
    yield "lines in order make one file, as `pack` makes it", is_as_packed
    for name, changed, wanted, *flags in bad_lines():
        yield f"several runs: {name}", partial(is_refused, changed=changed, wanted=wanted, flags=flags)
    for test in (is_unique, is_the_input, is_a_pipe, needs_its_folder, passes_names, is_moved_away, is_not_its_own):
        yield test.__name__.replace("_", " "), test
    for most in (0, 1_000_000, 8_000_000):
        yield f"no file of more than {most} bytes", partial(is_full, most=most)
    for call in CALLS:
        yield f"each {call} fails, one run", partial(each_fails_of_one_run, call=call)
        yield f"some {call} fails, several runs", partial(some_fail_of_several_runs, call=call)
    for number in ("2", "3", "7"):
        yield f"interrupted, but each {number}th", partial(is_interrupted, how={"interrupt": number})
    for number in ("1", "3", "7"):
        yield f"at most {number} bytes a call", partial(is_interrupted, how={"short": number})
    for name in ("SIGTERM", "SIGINT", "SIGKILL"):
        yield f"ended by {name}", partial(is_ended, name=name)


def all_runs(program, folder):
    """Runs all tests, and gives for each its name and its differences."""
    yield from all_of("pack --sort", program, folder, tests())
    yield from is_refused_memory(program, folder)
    with tempfile.TemporaryDirectory() as above:
        yield from tested("pack --sort: 300 MB with --memory 64", partial(held, program, Path(above), 1_530_000, 64, 100_000_000))
