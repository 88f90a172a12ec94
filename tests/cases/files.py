"""What becomes of files: outputs that are inputs, runs that fail or are ended at any moment, and limits of the system."""

import errno
import os
import random
import resource
import shutil
import signal
import stat
import subprocess
import time
from functools import partial
from pathlib import Path

from cases.diffs import difference, stat_line
from cases.dumps import lines
from cases.scratch import ABC, numbered
from oracle.escapes import text_lines
from oracle.proof import another, proof_of
from oracle.trees import END_SIZE, chunk_file, records, reference_text, report, root_text, tree
from support.by_root import Kind
from support.place import DONE, NOBODY, all_of, opened_for_writing

A = records(ABC[:2])
B = records(ABC[2:])
TREE = chunk_file(ABC, 0)
TOLD = report(ABC, 0)
OLD = [(b"a", b"0"), (b"b", b"1"), (b"d", b"1")]
OLD_TREE = chunk_file(OLD, 0)
CHANGES = difference(OLD, ABC)
COUNTED = stat_line(OLD, ABC, (0, 1), (0, 1))
PROOF = proof_of(tree(ABC, 0, 1), b"b", 1)
COUNTED_ACROSS = stat_line(OLD, ABC, (0, 1), (0, 2))
ROOTED = Kind(ABC, 0, 1)
ROOT = ["--root", reference_text(ROOTED.root)]
OLD_ROOT = reference_text(Kind(OLD, 0, 1).root)
ROOTS = ["--old-root", OLD_ROOT, "--new-root", reference_text(ROOTED.root)]
LAST = ROOTED.way(b"c")[-1]
TURNED = ROOTED.with_byte(LAST, 2, 1)
NOT_LAST = f"prolly: chunk file: {another(LAST)}\n".encode()
"""What a command says that goes by the root, where the last leaf was changed."""
NEW_NOT_LAST = f"prolly: new chunk file: {another(LAST)}\n".encode()
"""What a `diff` says of it."""

BEFORE = b"what was there before"
"""What a file holds that is written to beside the program."""

BEFORES = {
    "build": OLD_TREE,
    "apply": OLD_TREE,
    "scratch": OLD_TREE,
    "pack": B,
    "pack --sort": B,
    "dump": B,
    "dump --hex": b"what was there before\n",
    "dump --root": B,
    "diff": B,
    "diff --stat": B,
    "diff by the roots": B,
    "diff --stat by the roots": B,
    "prove": proof_of(tree(ABC, 0, 1), b"a", 1),
    "prove --root": proof_of(tree(ABC, 0, 1), b"a", 1),
}
"""What OUT held before: a file of the kind that each command writes."""

LONG = "ö" * 127 + "o"
"""A name as long as file systems take. A cut behind an odd number of bytes would be inside a letter."""

IN_PLACE = ("build", "apply", "scratch")
"""The commands that write OUT itself where they are not told to write a file beside it."""

TEXT = b"61 31\n62 31\n"

WRITERS = {
    "build": (["build", "--bits", "0", "out", "a.rec", "b.rec"], None, TREE, (0, TOLD, b"")),
    "apply": (["apply", "--root", OLD_ROOT, "old.prl", "out", "changes.rec"], None, TREE, (0, TOLD, b"")),
    "scratch": (["scratch", "--bits", "0", "--out", "out"], records(ABC), TREE, (0, root_text(ABC, 0), b"")),
    "pack": (["pack", "out"], TEXT, A, (0, b"2\n", b"")),
    "pack --sort": (["pack", "--sort", "out"], b"62 31\n61 31\n", A, (0, b"2\n", b"")),
    "dump": (["dump", "abc.prl", "out"], None, records(ABC), (0, b"", b"")),
    "dump --hex": (["dump", "--hex", "abc.prl", "out"], None, lines(ABC), (0, b"", b"")),
    "dump --root": (["dump", *ROOT, "abc.prl", "out"], None, records(ABC), (0, b"", b"")),
    "diff": (["diff", "old.prl", "abc.prl", "--out", "out"], None, records(CHANGES), (1, b"", b"")),
    "diff --stat": (["diff", "--stat", "old.prl", "abc.prl", "--out", "out"], None, records(CHANGES), (1, COUNTED, b"")),
    "diff by the roots": (["diff", *ROOTS, "old.prl", "abc.prl", "--out", "out"], None, records(CHANGES), (1, b"", b"")),
    "diff --stat by the roots": (["diff", "--stat", *ROOTS, "old.prl", "abc.prl", "--out", "out"], None, records(CHANGES), (1, COUNTED, b"")),
    "prove": (["prove", "abc.prl", "62", "out"], None, PROOF, (0, b"", b"")),
    "prove --root": (["prove", *ROOT, "abc.prl", "62", "out"], None, PROOF, (0, b"", b"")),
}
"""The commands that write OUT: their words, their standard input, what they make, and their answer."""

FAULTS = {
    "build": (["build", "--bits", "0", "out", "a.rec", "cut.rec"], None, 3, b"prolly: file 1: record 0 is cut\n"),
    "apply": (["apply", "--root", OLD_ROOT, "old.prl", "out", "changes.rec", "cut.rec"], None, 3, b"prolly: file 1: record 0 is cut\n"),
    "scratch": (["scratch", "--bits", "0", "--out", "out"], b"\0", 3, b"prolly: file 0: record 0 is cut\n"),
    "pack": (["pack", "out"], b"6\n", 3, b"prolly: line 0: not a pair in hexadecimal\n"),
    "pack --sort": (["pack", "--sort", "out"], b"62 31\n6\n", 3, b"prolly: line 1: not a pair in hexadecimal\n"),
    "dump": (["dump", "cut.prl", "out"], None, 4, b"prolly: chunk file: truncated\n"),
    "dump --hex": (["dump", "--hex", "cut.prl", "out"], None, 4, b"prolly: chunk file: truncated\n"),
    "dump --root": (["dump", *ROOT, "turned.prl", "out"], None, 4, NOT_LAST),
    "diff": (["diff", "old.prl", "cut.prl", "--out", "out"], None, 4, b"prolly: new chunk file: truncated\n"),
    "diff --stat": (["diff", "--stat", "old.prl", "cut.prl", "--out", "out"], None, 4, b"prolly: new chunk file: truncated\n"),
    "diff by the roots": (["diff", *ROOTS, "old.prl", "turned.prl", "--out", "out"], None, 4, NEW_NOT_LAST),
    "diff --stat by the roots": (["diff", "--stat", *ROOTS, "old.prl", "turned.prl", "--out", "out"], None, 4, NEW_NOT_LAST),
    "prove": (["prove", "cut.prl", "62", "out"], None, 4, b"prolly: chunk file: truncated\n"),
    "prove --root": (["prove", *ROOT, "turned.prl", "63", "out"], None, 4, NOT_LAST),
}
"""The same over inputs that are at fault: their words, their standard input, and the status and line of the fault."""

NO_WRITE = (5, b"", b"prolly: write failed\n")

MANY = 4_000
"""Pairs whose files take several writes."""

WRITE_BYTES = 65_536
"""How many bytes a build holds back before it writes."""


SHORT = (1, 3, 7)
"""How many bytes each read and write moves at most."""


def refusal(line):
    """The answer of a command that has a device's fault."""
    return 5, b"", b"prolly: " + line + b"\n"


def laid(place):
    """Lays the files that the commands read."""
    files = {"a_rec": A, "b_rec": B, "cut_rec": b"\0", "changes_rec": records(CHANGES), "abc_prl": TREE, "old_prl": OLD_TREE, "cut_prl": TREE[:-1], "turned_prl": TURNED}
    place.lay(**files)
    return files


# ---- an output that is an input


def is_an_input(place, words, name):
    """`build` over a file that it is to read: under its name, another path, a hard link or a symbolic link."""
    place.lay(a_rec=A, b_rec=B)
    os.link(place.path("a.rec"), place.path("hard"))
    place.path("soft").symlink_to("a.rec")
    place.answers(place.run("build", *words), refusal(b"OUT is also an input: " + name))
    place.holds(a_rec=A, b_rec=B, hard=A, soft=A)


def is_a_chunk_file(place, words, name):
    """OUT is a chunk file that is to be read, under its name or another."""
    place.lay(in_prl=TREE, old_prl=OLD_TREE)
    os.link(place.path("in.prl"), place.path("hard"))
    place.path("soft").symlink_to("in.prl")
    place.answers(place.run(*words), refusal(b"OUT is also an input: " + name))
    place.holds(in_prl=TREE, hard=TREE, soft=TREE, old_prl=OLD_TREE)


def is_printed_to_itself(place, words):
    """A standard output that is the chunk file which is to be read."""
    place.lay(in_prl=TREE, old_prl=OLD_TREE)
    with open(place.path("in.prl"), "ab") as stdout:
        answer = place.run(*words, stdout=stdout)
    place.answers(answer, refusal(b"standard output is also an input: in.prl"))
    place.holds(in_prl=TREE, old_prl=OLD_TREE)


def is_printed_to_its_input(place, words):
    """A standard output that is the file behind standard input."""
    place.lay(table=TEXT)
    with open(place.path("table"), "rb") as stdin, open(place.path("table"), "ab") as stdout:
        answer = place.run(*words, stdin=stdin, stdout=stdout)
    place.answers(answer, refusal(b"standard output is also an input: standard input"))
    place.holds(table=TEXT)


def keys_are_printed_to(place, words):
    """A standard output that is the file of the keys which are sought."""
    keys = b"61\n62\n"
    place.lay(in_prl=TREE, keys=keys, proof=PROOF)
    with open(place.path("keys"), "ab") as stdout:
        answer = place.run(*words, stdout=stdout)
    place.answers(answer, refusal(b"standard output is also an input: keys"))
    place.holds(in_prl=TREE, keys=keys, proof=PROOF)


def is_standard_input(place, words):
    """OUT is the file behind standard input."""
    place.lay(in_rec=A)
    with open(place.path("in.rec"), "rb") as stdin:
        answer = place.run(*words, stdin=stdin)
    name = b"/dev/stdin" if words[0] == "build" else b"standard input"
    place.answers(answer, refusal(b"OUT is also an input: " + name))
    place.holds(in_rec=A)


def is_standard_output(place, words, mode):
    """OUT is the file behind standard output, which the shell has emptied, or to the end of which it writes."""
    files = laid(place)
    place.lay(log=BEFORE)
    with open(place.path("log"), mode) as stdout:
        answer = place.run(*words, stdin=A, stdout=stdout)
    place.answers(answer, refusal(b"OUT is also standard output"))
    place.holds(log=BEFORE if mode == "ab" else b"", **files)


def is_the_pipe_of_input(place, words, name):
    """OUT is the pipe behind standard input, whether that is read or not."""
    files = laid(place)
    place.answers(place.run(*words, stdin=A), refusal(b"OUT is also an input: " + name))
    place.holds(**files)


def is_a_named_pipe(place, words):
    """OUT is a pipe of the file system that is to be read: it is not opened, which would wait for a writer."""
    files = laid(place)
    os.mkfifo(place.path("pipe"))
    place.answers(place.run(*words), refusal(b"OUT is also an input: pipe"))
    place.path("pipe").unlink()
    place.holds(**files)


def is_read_twice(place, words, name):
    """A pipe that two words name, of which each would get a part."""
    place.lay(in_prl=TREE, old_prl=OLD_TREE)
    place.answers(place.run(*words, stdin=b"61\n"), refusal(b"one pipe is two inputs: " + name))
    place.holds(in_prl=TREE, old_prl=OLD_TREE)


def is_a_named_pipe_read_twice(place, words):
    """The same of a pipe of the file system: it is not opened again, which would wait for another writer."""
    files = laid(place)
    os.mkfifo(place.path("pipe"))
    process = place.start(words)
    opened_for_writing(place.path("pipe"), process).close()
    place.answers(place.finish(process), refusal(b"one pipe is two inputs: pipe"))
    place.path("pipe").unlink()
    place.holds(**files)


def is_no_open_file(place):
    """A name of a number that nobody has opened for the program leads to none of the files that it opens itself."""
    files = laid(place)
    files["keys"] = b"61\n"
    place.lay(keys=files["keys"])
    place.path("link").symlink_to("/dev/fd/3")
    for name in ("/dev/fd/3", "/proc/self/fd/3", "link"):
        wanted = refusal(b"cannot open " + name.encode())
        for words, given, _, _ in WRITERS.values():
            for flags in ([], ["--atomic"], ["--atomic", "--force"]):
                place.answers(place.run(*in_place_of_out(words, name), *flags, stdin=given or b""), wanted)
        readers = [["build", "new", "a.rec", name], ["apply", "--root", OLD_ROOT, "old.prl", "new", name]]
        readers += [["diff", "old.prl", name], ["diff", name, "old.prl"], ["get", "--keys", "keys", name]]
        for words in readers:
            place.answers(place.run(*words), wanted)
    place.path("link").unlink()
    place.holds(**files)


def is_a_device(place):
    """A device may be both."""
    place.answers(place.run("build", "--bits", "0", "/dev/null", "/dev/null"), (0, report([], 0), b""))
    with open("/dev/null", "r+b") as null:
        place.answers(place.run("scratch", "--out", "/dev/null", stdin=null, stdout=null), DONE)


# ---- what is told early


def is_told_early(place):
    """17 files are told before OUT, or any of them, is opened."""
    place.lay(out=BEFORE)
    place.answers(place.run("build", "out", *(["none"] * 17)), (3, b"", b"prolly: too many files\n"))
    place.holds(out=BEFORE)


# ---- --atomic


def is_replaced(place, command, flags):
    """OUT is replaced by a whole file, or made."""
    words, given, made, answer = WRITERS[command]
    files = laid(place)
    for before in (None, BEFORES[command]):
        if before is not None:
            place.lay(out=before)
        place.answers(place.run(*words, *flags, stdin=given or b""), answer)
        place.holds(out=made, **files)


def stays(place, command, flags, before):
    """After a fault OUT is as it was, and nothing stands beside it."""
    words, given, status, line = FAULTS[command]
    files = laid(place)
    if before is not None:
        place.lay(out=before)
        files["out"] = before
    place.answers(place.run(*words, *flags, stdin=given or b""), (status, b"", line))
    place.holds(**files)


def keeps_its_mode(place, command):
    """The file that replaces OUT has its permissions."""
    words, given, made, answer = WRITERS[command]
    files = laid(place)
    place.lay(out=BEFORES[command])
    place.path("out").chmod(0o640)
    place.answers(place.run(*words, "--atomic", stdin=given or b""), answer)
    mode = stat.S_IMODE(place.path("out").stat().st_mode)
    if mode != 0o640:
        place.note(f"mode {mode:o}")
    place.holds(out=made, **files)


def follows_links(place, command):
    """A symbolic link stays, and the file behind it is replaced; another name of that keeps what it held."""
    words, given, made, answer = WRITERS[command]
    files = laid(place)
    place.lay(real=BEFORES[command])
    os.link(place.path("real"), place.path("other"))
    place.path("out").symlink_to("real")
    place.answers(place.run(*words, "--atomic", stdin=given or b""), answer)
    if not place.path("out").is_symlink():
        place.note("the link is gone")
    place.holds(out=made, real=made, other=BEFORES[command], **files)


def passes_names(place, command):
    """Names beside OUT that are taken stay as they are."""
    words, given, made, answer = WRITERS[command]
    files = laid(place)
    place.path("out.0.tmp").write_bytes(b"0")
    place.path("out.1.tmp").write_bytes(b"1")
    place.answers(place.run(*words, "--atomic", stdin=given or b""), answer)
    place.holds(out=made, out_0_tmp=b"0", out_1_tmp=b"1", **files)


def has_a_long_name(place, command):
    """An OUT behind whose name nothing fits is replaced as any other."""
    words, given, made, answer = WRITERS[command]
    files = laid(place)
    place.lay(**{LONG: BEFORES[command]})
    place.answers(place.run(*in_place_of_out(words, LONG), "--atomic", stdin=given or b""), answer)
    place.holds(**{LONG: made}, **files)


def is_not_replaced(place, name):
    """A folder, a pipe or a device can't be replaced, and stays."""
    laid(place)
    place.path("folder").mkdir()
    os.mkfifo(place.path("pipe"))
    for words, given, _, _ in WRITERS.values():
        there = in_place_of_out(words, name)
        place.answers(place.run(*there, "--atomic", stdin=given or b""), refusal(b"cannot replace " + name.encode()))
    if not Path(place.folder, name).exists() or Path(place.folder, name).is_file():
        place.note(f"{name} was replaced")


def needs_its_folder(place):
    """A folder in which no file can be made, and a file that may not be written."""
    files = laid(place)
    place.lay(out=BEFORES["build"])
    place.path("out").chmod(0o444)
    words = WRITERS["build"][0]
    for flags in ([], ["--atomic"]):
        place.answers(place.run(*words, *flags, is_nobody=True), refusal(b"cannot open out"))
    place.path("out").chmod(0o666)
    place.folder.chmod(0o555)
    place.answers(place.run(*words, "--atomic", is_nobody=True), refusal(b"cannot replace out"))
    place.folder.chmod(0o755)
    place.holds(out=BEFORES["build"], **files)


def one_of_two(place):
    """Of two builds to one OUT at a time, each into a file beside it, one is whole."""
    first, second = numbered(20_000), numbered(30_000)
    place.lay(first_rec=records(first), second_rec=records(second))
    wholes = {chunk_file(pairs, 4) for pairs in (first, second)}
    for _ in range(5):
        runs = [place.start(["build", "--atomic", "--bits", "4", "out", name]) for name in ("first.rec", "second.rec")]
        for run in runs:
            place.answers(place.finish(run), DONE)
        if place.path("out").read_bytes() not in wholes:
            place.note("OUT is neither")
        place.holds(out=None, first_rec=None, second_rec=None)


# ---- calls of the system that fail


def fails(place, command, flags, call, number, wanted):
    """A call fails with `no space left`: after that no byte is written to OUT, which holds a first part, or what it held. Of a
    new OUT no byte of which could be written nothing stays."""
    words, given, made, _ = WRITERS[command]
    files = laid(place)
    is_beside = "--atomic" in flags or command not in IN_PLACE
    before = BEFORES[command]
    if is_beside:
        place.lay(out=before)
    stdin = open(place.path("in"), "w+b") if given is not None else subprocess.DEVNULL
    if given is not None:
        stdin.write(given)
        stdin.seek(0)
        files["in"] = given
    answer, calls = place.meddled(*words, *flags, stdin=stdin, meddle={"fail": f"{call} {number} {errno.ENOSPC}"})
    place.answers(answer, wanted)
    if not is_beside and call == "write" and number == 1:
        place.holds(**files)
        return
    left = place.path("out").read_bytes()
    if is_beside and left != before:
        place.note("OUT was changed")
    if not is_beside and not made.startswith(left):
        place.note("OUT holds no first part")
    if is_beside and call == "write" and sum(line.startswith("write ") for line in calls) != number + 1:
        place.note(f"calls {calls}")
    place.holds(out=None, **files)


def no_write_after_a_failed_one(place, words, begun, whole):
    """Each write of a command fails in turn, and none follows it but that of the line: OUT is a first part of what may be
    begun, or whole where only what was to be printed failed. Where nothing may be or was begun, there is no OUT."""
    pairs = numbered(MANY)
    files = {"a_rec": records(pairs), "a_prl": chunk_file(pairs, 2), "none_prl": chunk_file([], 2)}
    place.lay(**files)
    for number in range(1, 100):
        meddle = {"fail": f"write {number} {errno.ENOSPC}"}
        answer, calls = place.meddled(*words, meddle=meddle)
        writes = [line for line in calls if line.startswith("write ")]
        if len(writes) < number:
            place.answers(answer, (None, None, b""))
            place.holds(out=whole, **files)
            break
        place.answers(answer, NO_WRITE)
        left = place.path("out").read_bytes() if place.path("out").exists() else None
        if writes[number - 1] == "write 1":
            is_right = left == whole
        else:
            is_right = left is None if begun is None or number == 1 else begun.startswith(left)
        if len(writes) != number + 1 or not is_right:
            place.note(f"write {number}: {len(writes)} writes, {left and len(left)} bytes left")
        place.path("out").unlink(missing_ok=True)
    if number < 4:
        place.note("too few writes to tell")


def is_interrupted(place, command, how):
    """Calls that are interrupted are made again, and what a call did not move is moved by others: into a new OUT, and over one that
    held bytes."""
    words, given, made, wanted = WRITERS[command]
    files = laid(place)
    place.lay(given=given or b"")
    for before in (None, BEFORES[command]):
        if before is not None:
            place.lay(out=before)
        with open(place.path("given"), "rb") as stdin:
            answer, _ = place.meddled(*words, stdin=stdin, meddle=how)
        place.answers(answer, wanted)
        place.holds(out=made, given=None, **files)


def look_up_is_interrupted(place, words, how, wanted):
    """The same, for commands that read chunk files and write no file."""
    place.lay(abc_prl=chunk_file(ABC, 0, 2), old_prl=OLD_TREE, b_prf=PROOF)
    answer, _ = place.meddled(*words, meddle=how)
    place.answers(answer, wanted)


# ---- --sync


def is_on_the_disk(place, command, flags):
    """What is printed is printed after the file, and then its folder, were brought to the disk."""
    words, given, made, wanted_answer = WRITERS[command]
    files = laid(place)
    place.lay(given=given or b"")
    with open(place.path("given"), "rb") as stdin:
        answer, calls = place.meddled(*words, *flags, "--sync", stdin=stdin)
    place.answers(answer, wanted_answer)
    told = wanted_answer[1]
    kinds = [line.split()[0] for line in calls if line.split()[0] in ("write", "fsync", "rename")]
    order = [kind for at, kind in enumerate(kinds) if at == 0 or kinds[at - 1] != kind or kind == "fsync"]
    is_beside = "--atomic" in flags or command not in IN_PLACE
    wanted = ["write", "fsync", *(["rename"] if is_beside else []), "fsync", *(["write"] if told else [])]
    if order != wanted or (told and calls[-1] != "write 1"):
        place.note(f"calls {calls}")
    place.holds(out=made, given=None, **files)


def is_not_on_the_disk(place):
    """What is no file can't be brought to the disk, which is told before anything is written. What is always replaced can't be a
    device in the first place."""
    laid(place)
    for command, (words, given, _, _) in WRITERS.items():
        there = in_place_of_out(words, "/dev/null")
        wanted = refusal(b"cannot replace /dev/null") if command == "pack --sort" else NO_WRITE
        place.lay(given=given or b"")
        with open(place.path("given"), "rb") as stdin:
            answer, calls = place.meddled(*there, "--sync", stdin=stdin)
        place.answers(answer, wanted)
        if any(line.startswith("write ") and line != "write 2" for line in calls):
            place.note(f"{command}: calls {calls}")
    for words in (["dump", "abc.prl", "/dev/stdout"], ["prove", "abc.prl", "62", "/dev/stdout"]):
        place.answers(place.run(*words, "--sync"), NO_WRITE)


# ---- runs that are ended, and limits


def is_ended(place, name, flags):
    """A signal ends a build at some moment, and before some write that is neither its first nor its last."""
    pairs = numbered(300_000)
    place.lay(in_rec=records(pairs))
    words, number = ["build", *flags, "--bits", "3", "out", "in.rec"], getattr(signal, name)
    began = time.monotonic()
    answer, calls = place.meddled(*words)
    duration = time.monotonic() - began
    place.answers(answer, DONE)
    whole = place.path("out").read_bytes()
    chance = random.Random(name)
    for _ in range(4):
        place.lay(out=OLD_TREE)
        place.end_at(number, duration * chance.random(), *words)
        judge_ended(place, flags, whole)
    writes = sum(line.startswith("write ") for line in calls)
    for write in chance.sample(range(2, writes), 4):
        place.lay(out=OLD_TREE)
        place.end_before_write(number, write, *words)
        judge_ended(place, flags, whole)
    place.holds(out=None, in_rec=None)


def judge_ended(place, flags, whole):
    """Notes where OUT is not right after a build that was ended: it is a first part, which `check` says, or with --atomic as it was."""
    left = place.path("out").read_bytes()
    if left not in (OLD_TREE, whole):
        if flags:
            place.note(f"OUT holds {len(left)} bytes")
            return
        place.answers(place.run("check", "out"), (4, b"", b"prolly: chunk file: truncated\n"))
        if not whole.startswith(left):
            place.note("OUT is no first part")
    for beside in place.folder.glob("out.*.tmp"):
        beside.unlink()


def is_limited_in_size(place, is_told):
    """A limit on the size of files ends the program by a signal, or where that is ignored by a line; OUT is a first part."""
    pairs = numbered(20_000)
    place.lay(in_rec=records(pairs))
    limits = {resource.RLIMIT_FSIZE: 100_000}
    answer = place.run("build", "--bits", "4", "out", "in.rec", limits=limits, restore_signals=not is_told)
    place.answers(answer, NO_WRITE if is_told else (-signal.SIGXFSZ, b"", b""))
    left = place.path("out").read_bytes()
    if len(left) > 100_000 or not chunk_file(pairs, 4).startswith(left):
        place.note(f"OUT holds {len(left)} bytes")


def has_few_files(place):
    """A limit on open files is told with the name of the file that can't be opened, before OUT is made."""
    names = [f"{number}.rec" for number in range(16)]
    for name in names:
        place.path(name).write_bytes(A)
    answer = place.run("build", "out", *names, limits={resource.RLIMIT_NOFILE: 10})
    place.answers(answer, (5, b"", None))
    if not answer[2].startswith(b"prolly: cannot open ") or place.path("out").exists():
        place.note(f"standard error {answer[2]}")


def has_few_threads(place):
    """A limit on threads is told, and nothing is written."""
    place.lay(in_rec=A)
    place.answers(place.run_without_threads("build", "out", "in.rec"), (6, b"", b"prolly: a thread could not be started\n"))
    place.holds(in_rec=A)


def is_checked_without_threads(place):
    """Where no thread can be had, a file is checked all the same, and refused by the same fault."""
    place.lay(abc_prl=TREE, cut_prl=TREE[:-1])
    told = b"ok " + root_text(ABC, 0).strip() + b" 0 6\n"
    place.answers(place.run_without_threads("check", "abc.prl"), (0, told, b""))
    place.answers(place.run_without_threads("check", "cut.prl"), (4, b"", b"prolly: chunk file: truncated\n"))


def has_little_room(place):
    """A build of two files asks for less than 100 megabytes of addresses."""
    pairs = numbered(100_000)
    place.lay(a_rec=records(pairs[0::2]), b_rec=records(pairs[1::2]))
    limits = {resource.RLIMIT_AS: 100_000_000}
    place.answers(place.run("build", "out", "a.rec", "b.rec", limits=limits), (0, report(pairs, 12), b""))


# ---- other files


def is_a_pipe(place):
    """OUT and a record file are pipes of the file system."""
    place.lay(a_rec=A)
    for name in ("in", "out"):
        os.mkfifo(place.path(name))
    # At once, while nobody writes it yet.
    reader = os.open(place.path("out"), os.O_RDONLY | os.O_NONBLOCK)
    process = place.start(["build", "--bits", "0", "out", "a.rec", "in"])
    with opened_for_writing(place.path("in"), process) as pipe:
        pipe.write(B)
    # The pipe has room for all of the small tree.
    place.answers(place.finish(process), (0, TOLD, b""))
    with os.fdopen(reader, "rb") as pipe:
        taken = pipe.read()
    if taken != TREE:
        place.note(f"the pipe gave {taken}")


def comes_meanwhile(place):
    """A file that takes OUT's name before a build has made OUT stays."""
    for name in ("one", "two"):
        os.mkfifo(place.path(name))
    process = place.start(["build", "out", "one", "two"])
    with opened_for_writing(place.path("one"), process):
        # It has looked at OUT, and waits for who writes the second pipe.
        place.lay(out=OLD_TREE)
        opened_for_writing(place.path("two"), process).close()
    place.answers(place.finish(process), refusal(b"another run writes OUT: out"))
    place.holds(out=OLD_TREE, one=None, two=None)


def is_in_an_odd_folder(place):
    """A folder whose name is no UTF-8: files in it are made, and replaced."""
    folder = os.path.join(os.fsencode(place.folder), b"\xff")
    os.mkdir(folder)
    for words, made, answer in ((["pack", "out"], A, b"2\n"), (["build", "--bits", "0", "tree", "out"], chunk_file(ABC[:2], 0), report(ABC[:2], 0))):
        for flags in ([], [], ["--sync"], ["--atomic"], ["--atomic", "--sync"]):
            done = subprocess.run([place.program, *words, *flags], cwd=folder, input=TEXT, capture_output=True, check=False)
            place.answers((done.returncode, done.stdout, done.stderr), (0, answer, b""))
            if Path(os.fsdecode(folder), "out" if made == A else "tree").read_bytes() != made:
                place.note(f"{words} {flags}: another file")
    if len(os.listdir(folder)) != 2:
        place.note(f"{os.listdir(folder)}")
    shutil.rmtree(folder)


def needs_to_read_its_folder(place):
    """A folder that can't be read can't be brought to the disk, which is told before anything is written."""
    files = laid(place)
    for words, given, _, _ in WRITERS.values():
        for flags in (["--sync"], ["--sync", "--atomic"]):
            place.program_of(NOBODY)
            place.folder.chmod(0o300)
            answer = place.run(*words, *flags, stdin=given or b"", is_nobody=True)
            place.folder.chmod(0o755)
            place.answers(answer, refusal(b"cannot open out"))
    place.holds(**files)


def is_a_link(place):
    """OUT is a symbolic link: the file behind it is written, or made."""
    files = laid(place)
    place.path("out").symlink_to("real")
    for _ in range(2):
        place.answers(place.run(*WRITERS["build"][0]), (0, TOLD, b""))
        place.holds(out=TREE, real=TREE, **files)


def is_told_behind_the_inputs(place):
    """An output whose name can't be looked at is refused when it would be opened: behind an input that can't be opened."""
    place.lay(a_rec=A)
    place.path("loop").symlink_to("loop")
    for name in ("", "a.rec/out", "o" * 256, "loop"):
        for flags in ([], ["--atomic"], ["--force"]):
            place.answers(place.run("build", *flags, name, "none.rec"), refusal(b"cannot open none.rec"))
            place.answers(place.run("dump", *flags, "none.prl", name), refusal(b"cannot open none.prl"))
            place.answers(place.run("build", *flags, name, "a.rec"), refusal(b"cannot open " + name.encode()))
    place.path("loop").unlink()
    place.holds(a_rec=A)


def is_read_only(place):
    """A file that may not be written, and one that may not be read."""
    place.lay(a_rec=A, out=OLD_TREE)
    place.path("out").chmod(0o444)
    place.answers(place.run("build", "out", "a.rec", is_nobody=True), refusal(b"cannot open out"))
    place.path("a.rec").chmod(0)
    for words in (["build", "new", "a.rec"], ["dump", "a.rec", "new"], ["diff", "out", "a.rec", "--out", "new"]):
        place.answers(place.run(*words, is_nobody=True), refusal(b"cannot open a.rec"))
    place.path("a.rec").chmod(0o644)
    place.holds(out=OLD_TREE, a_rec=A)


def is_shown_escaped(place):
    """A fault is one line, whatever bytes the name has."""
    for name, shown in (("a\nb", b"a\\x0ab"), ("\x1b[31m\x7f", b"\\x1b[31m\\x7f"), ("a\\nb", b"a\\\\nb"), ("\x85\x9b31m", b"\\xc2\\x85\\xc2\\x9b31m"), ("a\ufeffb", b"a\\xef\\xbb\\xbfb"), ("ü\xa0漢", "ü\xa0漢".encode())):
        place.answers(place.run("check", name), refusal(b"cannot open " + shown))
    place.path("in\n.rec").write_bytes(A)
    place.answers(place.run("build", "in\n.rec", "in\n.rec"), refusal(b"OUT is also an input: in\\x0a.rec"))


def is_process_substitution(place):
    """Record files and a chunk file that a shell gives as pipes."""
    place.lay(a_rec=A, b_rec=B)
    line = f"'{place.program}' build --bits 0 /dev/fd/3 <(cat a.rec) <(cat b.rec) 3>&1 > /dev/null | head -c {len(TREE)} > out"
    subprocess.run(["bash", "-c", line], cwd=place.folder, check=True)
    place.holds(a_rec=A, b_rec=B, out=TREE)
    place.lay(old_prl=OLD_TREE)
    line = f"'{place.program}' diff <(cat old.prl) <(cat out) --out changes.rec; '{place.program}' dump <(cat out) abc.rec"
    subprocess.run(["bash", "-c", line], cwd=place.folder, check=True)
    place.holds(a_rec=A, b_rec=B, out=TREE, old_prl=OLD_TREE, changes_rec=records(CHANGES), abc_rec=records(ABC))


def grows(place):
    """A file grows while it is read: what is built is that of some moment."""
    place.lay(a_rec=A)
    os.mkfifo(place.path("wait"))
    process = place.start(["build", "--bits", "0", "out", "a.rec", "wait"])
    with opened_for_writing(place.path("wait"), process), open(place.path("a.rec"), "ab") as more:
        more.write(B)
    status, out, err = place.finish(process)
    if (status, err) != (0, b"") or out not in (report(ABC[:2], 0), TOLD):
        place.note(f"status {status}, {out} {err}")


def is_read_in_part(place, words, reader, taken):
    """Nobody reads on behind the first line, or the first byte."""
    place.lay(big_prl=chunk_file(numbered(20_000), 4), none_prl=chunk_file([], 4))
    line = f"set -o pipefail; '{place.program}' {words} | {reader}"
    done = subprocess.run(["bash", "-c", line], cwd=place.folder, capture_output=True, check=False)
    place.answers((done.returncode, done.stdout, done.stderr), (5, taken, b"prolly: write failed\n"))


def is_full(place, words):
    """A full device, for a file of several megabytes."""
    pairs = numbered(100_000)
    place.lay(in_rec=records(pairs), in_prl=chunk_file(pairs, 12), none_prl=chunk_file([], 12))
    with open(place.path("in.rec"), "rb") as given:
        place.answers(place.run(*words, stdin=given), NO_WRITE)


# ---- all


def tests():
    """All tests: for each a name and what it does."""
    yield from inputs_written()
    for command in WRITERS:
        yield from written(command)
    yield from interrupted()
    yield from ended()
    yield from in_part()
    alone = [is_a_device, is_told_early, needs_its_folder, one_of_two, is_not_on_the_disk, has_few_files, has_few_threads]
    alone += [is_checked_without_threads, has_little_room, is_a_pipe, comes_meanwhile, is_in_an_odd_folder, needs_to_read_its_folder]
    alone += [is_no_open_file, is_told_behind_the_inputs, is_a_link, is_read_only, is_shown_escaped, is_process_substitution, grows]
    for test in alone:
        yield test.__name__.replace("_", " "), test
    for name in ("folder", "pipe", "/dev/null"):
        yield f"not replaced: {name}", partial(is_not_replaced, name=name)


def inputs_written():
    """Outputs that are inputs, or standard output; and a pipe that is two inputs."""
    stdin = "/dev/stdin"
    root = reference_text(ROOTED.root)
    twice = [["build", "new.prl", stdin, stdin], ["build", "new.prl", stdin, "/dev/null", "/proc/self/fd/0"], ["apply", *ROOT, "in.prl", "new.prl", stdin, stdin]]
    twice += [["diff", stdin, stdin], ["get", "--keys", stdin, stdin], ["prove", "--keys", stdin, stdin, "new.prf"], ["verify", "--keys", stdin, root, stdin]]
    for words in twice:
        yield f"one pipe is two inputs: {' '.join(words)}", partial(is_read_twice, words=words, name=next(word for word in reversed(words) if word.startswith(("/dev/stdin", "/proc"))).encode())
    named = [["build", "new", "pipe", "a.rec", "pipe"], ["apply", "--root", OLD_ROOT, "old.prl", "new", "pipe", "pipe"], ["diff", "pipe", "pipe"]]
    named += [["get", "--keys", "pipe", "pipe"], ["prove", "--keys", "pipe", "pipe", "new"], ["verify", "--keys", "pipe", root, "pipe"]]
    for words in named:
        yield f"one pipe of the file system is two inputs: {' '.join(words)}", partial(is_a_named_pipe_read_twice, words=words)
    yield "one pipe is two inputs: verify without PROOF", partial(is_read_twice, words=["verify", "--keys", stdin, root], name=b"standard input")
    rec = ["a.rec", "b.rec"]
    same = [["a.rec", *rec], ["b.rec", *rec], ["./a.rec", *rec], ["hard", *rec], ["soft", *rec], ["a.rec", "b.rec", "soft"]]
    names = [b"a.rec", b"b.rec", b"a.rec", b"a.rec", b"a.rec", b"soft"]
    for words, name in zip(same, names, strict=True):
        yield f"OUT is an input: {' '.join(words)}", partial(is_an_input, words=words, name=name)
        yield f"OUT is an input, atomic: {' '.join(words)}", partial(is_an_input, words=["--atomic", *words], name=name)
    files = [("in.prl", out, []) for out in ("in.prl", "./in.prl", "hard", "soft")]
    for file, out, flags in [*files, ("soft", "in.prl", []), ("in.prl", "in.prl", ["--atomic"])]:
        pairs_of_files = [[file, "old.prl"], ["old.prl", file]]
        for words in (["dump", *flags, file, out], ["prove", *flags, file, "61", out], *(["diff", *flags, *two, "--out", out] for two in pairs_of_files)):
            yield f"OUT is a chunk file: {' '.join(words)}", partial(is_a_chunk_file, words=words, name=file.encode())
    readers = [["dump", "in.prl"], ["diff", "in.prl", "old.prl"], ["diff", "old.prl", "in.prl"], ["dump", "--hex", "in.prl"], ["diff", "--stat", "in.prl", "old.prl"]]
    readers += [[*words, *flags, "in.prl", "61"] for words in (["get"], ["get", "--raw"]) for flags in ([], ROOT)]
    readers += [["scan", "in.prl", "61", "1"], ["scan", *ROOT, "in.prl", "61", "1"], ["nth", "in.prl", "0"], ["nth", "--format", "2", *ROOT, "in.prl", "0"]]
    readers += [["check", "in.prl"], ["check", *ROOT, "in.prl"], ["check", "--quiet", "old.prl", "in.prl"], ["root", "in.prl"], ["stat", "in.prl"], ["explain", "in.prl"], ["verify", root, "61", "in.prl"]]
    readers += [["build", "new.prl", "/dev/null", "in.prl"], ["apply", *ROOT, "in.prl", "new.prl"], ["apply", "--root", OLD_ROOT, "old.prl", "new.prl", "in.prl"]]
    for words in readers:
        yield f"standard output is a chunk file: {' '.join(words)}", partial(is_printed_to_itself, words=words)
    for words in (["pack", "new"], ["pack", "--sort", "new"], ["scratch"], ["scratch", "--out", "new"], ["explain", "--lines"], ["verify", root, "61"]):
        yield f"standard output is standard input: {' '.join(words)}", partial(is_printed_to_its_input, words=words)
    for words in (["get", "--keys", "keys", "in.prl"], ["get", "--keys", "keys", *ROOT, "in.prl"], ["verify", "--keys", "keys", ROOT[1], "proof"]):
        yield f"standard output is the file of keys: {' '.join(words)}", partial(keys_are_printed_to, words=words)
    for words in (["pack", "in.rec"], ["pack", "--sort", "in.rec"], ["scratch", "--out", "in.rec"], ["scratch", "--atomic", "--out", "in.rec"], ["build", "in.rec", "/dev/stdin"]):
        yield f"OUT is standard input: {' '.join(words)}", partial(is_standard_input, words=words)
    for words in (["build", stdin], ["build", stdin, "a.rec"], *(in_place_of_out(words, stdin) for words, *_ in WRITERS.values())):
        yield f"OUT is the pipe of standard input: {' '.join(words)}", partial(is_the_pipe_of_input, words=words, name=b"standard input")
    yield "OUT is a pipe that is an input", partial(is_the_pipe_of_input, words=["build", stdin, stdin], name=b"/dev/stdin")
    for words in (["build", "pipe", "a.rec", "pipe"], ["apply", "--root", OLD_ROOT, "old.prl", "pipe", "pipe"], ["dump", "pipe", "pipe"], ["diff", "old.prl", "pipe", "--out", "pipe"], ["prove", "pipe", "61", "pipe"], ["prove", "--keys", "pipe", "abc.prl", "pipe"]):
        yield f"OUT is a pipe of the file system that is an input: {' '.join(words)}", partial(is_a_named_pipe, words=words)
    for words in (["build", "/dev/stdout", "a.rec"], ["pack", "--atomic", "log"], *(in_place_of_out(words, "log") for words, *_ in WRITERS.values())):
        for mode in ("wb", "ab"):
            yield f"OUT is standard output, {mode}: {' '.join(words)}", partial(is_standard_output, words=words, mode=mode)


def in_place_of_out(words, name):
    """The words of a command that is to write this file."""
    return [name if word == "out" else word for word in words]


def written(command):
    """What becomes of the file that a command writes."""
    for flags in (["--atomic"], ["--sync"], ["--atomic", "--sync"]):
        yield f"{command} {' '.join(flags)}: replaced", partial(is_replaced, command=command, flags=flags)
    for flags in (["--atomic"], ["--atomic", "--sync"]):
        for before in (None, BEFORES[command]):
            yield f"{command} {' '.join(flags)}: stays after a fault", partial(stays, command=command, flags=flags, before=before)
    for test in (keeps_its_mode, follows_links, passes_names, has_a_long_name):
        yield f"{command} --atomic {test.__name__.replace('_', ' ')}", partial(test, command=command)
    for number in (2, 3, 7):
        yield f"{command}: interrupted, but each {number}th", partial(is_interrupted, command=command, how={"interrupt": str(number)})
    for number in SHORT:
        yield f"{command}: at most {number} bytes a call", partial(is_interrupted, command=command, how={"short": str(number)})
    for flags in ([], ["--atomic"]):
        yield f"{command} {' '.join(flags)} --sync: the order", partial(is_on_the_disk, command=command, flags=flags)
        yield f"{command} {' '.join(flags)}: a write fails", partial(fails, command=command, flags=flags, call="write", number=1, wanted=NO_WRITE)
        for number in (1, 2):
            flags_of = [*flags, "--sync"]
            if number == 1 or (not flags and command in IN_PLACE):
                yield f"{command} {' '.join(flags_of)}: sync {number} fails", partial(fails, command=command, flags=flags_of, call="fsync", number=number, wanted=NO_WRITE)
    for call in ("rename", "fchmod"):
        yield f"{command}: {call} fails", partial(fails, command=command, flags=["--atomic"], call=call, number=1, wanted=refusal(b"cannot replace out"))


def interrupted():
    """Commands that write no file, whose calls are interrupted, or move only some bytes each."""
    read = [
        (["check", "abc.prl"], None, 0),
        (["get", "abc.prl", "61"], b"31\n", 0),
        (["get", "--format", "2", "--root", reference_text(tree(ABC, 0, 2).reference), "abc.prl", "62"], b"31\n", 0),
        (["scan", "abc.prl", "62", "1"], b"62 31\n", 0),
        (["scan", "--format", "2", "--root", reference_text(tree(ABC, 0, 2).reference), "abc.prl", "62", "5"], lines(ABC[1:]), 0),
        (["nth", "abc.prl", "0"], b"61 31\n", 0),
        (["nth", "--format", "2", "--root", reference_text(tree(ABC, 0, 2).reference), "abc.prl", "2"], lines(ABC[2:]), 0),
        (["dump", "abc.prl"], records(ABC), 0),
        (["dump", "--hex", "abc.prl"], lines(ABC), 0),
        (["dump", "--text", "abc.prl"], text_lines(ABC), 0),
        (["diff", "old.prl", "abc.prl"], lines(CHANGES), 1),
        (["diff", "--text", "old.prl", "abc.prl"], text_lines(CHANGES), 1),
        (["diff", "--stat", "old.prl", "abc.prl"], COUNTED_ACROSS, 1),
        (["verify", root_text(ABC, 0).decode().strip(), "62", "b.prf"], b"31\n", 0),
    ]
    for words, out, status in read:
        yield f"interrupted: {' '.join(words)}", partial(look_up_is_interrupted, words=words, how={"interrupt": "3"}, wanted=(status, out, b""))
        for number in SHORT:
            yield f"at most {number} bytes a call: {' '.join(words)}", partial(look_up_is_interrupted, words=words, how={"short": str(number)}, wanted=(status, out, b""))


def ended():
    """Runs that are ended, by a signal or by a limit."""
    for name in ("SIGTERM", "SIGINT", "SIGKILL"):
        for flags in ([], ["--atomic"]):
            yield f"ended by {name} {' '.join(flags)}", partial(is_ended, name=name, flags=flags)
    for is_told in (False, True):
        yield f"limited in size, the signal {'ignored' if is_told else 'as it is'}", partial(is_limited_in_size, is_told=is_told)


def in_part():
    """Outputs that take only a part."""
    pairs = numbered(MANY)
    made, rec = chunk_file(pairs, 2), records(pairs)
    yield "no write of a build after a failed one", partial(no_write_after_a_failed_one, words=["build", "--bits", "2", "out", "a.rec"], begun=made[:-END_SIZE], whole=made)
    text = lines(pairs)
    for words, whole in ((["dump", "a.prl", "out"], rec), (["dump", "--hex", "a.prl", "out"], text), (["diff", "none.prl", "a.prl", "--out", "out"], rec)):
        yield f"no write after a failed one: {' '.join(words)}", partial(no_write_after_a_failed_one, words=words, begun=None, whole=whole)
    first = lines(pairs[:1])
    for words, reader, taken in (("scan big.prl '' 1000000", "head -1", first), ("diff none.prl big.prl", "head -1", first), ("dump --hex big.prl", "head -1", first), ("dump big.prl", "head -c 1", rec[:1])):
        yield f"nobody reads on: {words} | {reader}", partial(is_read_in_part, words=words, reader=reader, taken=taken)
    for words in (["build", "/dev/full", "in.rec"], ["scratch", "--out", "/dev/full"], ["dump", "in.prl", "/dev/full"], ["dump", "--hex", "in.prl", "/dev/full"], ["diff", "none.prl", "in.prl", "--out", "/dev/full"]):
        yield f"a full device: {' '.join(words)}", partial(is_full, words=words)


def all_runs(program, folder):
    """Runs all tests, and gives for each its name and its differences."""
    return all_of("files", program, folder, tests())
