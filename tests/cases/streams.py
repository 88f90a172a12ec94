"""Standard streams that are closed, that are one with OUT, that are a terminal, or that do not wait."""

import errno
import os
import pty
import select
import subprocess

from cases.dumps import lines
from cases.files import WRITERS, in_place_of_out, laid, refusal
from cases.scratch import ABC, numbered
from oracle.trees import chunk_file, records, reference_text, root_text, tree
from support.harness import LONGEST
from support.place import all_of, held_by


def is_the_same_pipe(place):
    """The pipe behind standard output is no OUT of a command that prints an answer."""
    files = laid(place)
    for command, (words, given, made, _) in WRITERS.items():
        reader, writer = os.pipe()
        answer = place.run(*in_place_of_out(words, "/dev/stdout"), stdin=given or b"", stdout=writer)
        os.close(writer)
        with os.fdopen(reader, "rb") as pipe:
            came = pipe.read()
        if command in ("build", "apply", "scratch", "pack", "pack --sort") or "--stat" in command:
            place.answers(answer, refusal(b"OUT is also standard output"))
            wanted = b""
        else:
            place.answers(answer, (None, b"", b""))
            wanted = made
        if came != wanted:
            place.note(f"{command}: {len(came)} bytes came through")
    place.holds(**files)


def has_closed_streams(place):
    """A file that is opened never takes the place of a standard stream that is closed."""
    files = laid(place)
    for command, (words, given, made, answer) in WRITERS.items():
        line = " ".join(f"'{word}'" for word in words)
        for closed, wanted in ((">&-", (5, b"", b"prolly: write failed\n") if answer[1] else answer), (">&- 2>&-", None)):
            place.path("given").write_bytes(given or b"")
            done = subprocess.run(["bash", "-c", f"'{place.program}' {line} < given {closed}"], cwd=place.folder, capture_output=True, check=False)
            if wanted is not None:
                place.answers((done.returncode, done.stdout, done.stderr), wanted)
            if place.path("out").read_bytes() != made:
                place.note(f"{command} {closed}: OUT holds something else")
            place.path("out").unlink()
        place.path("given").unlink()
    place.holds(**files)
    place.lay(in_prl=chunk_file(ABC, 0))
    done = subprocess.run(["bash", "-c", f"'{place.program}' pack in.txt <&-"], cwd=place.folder, capture_output=True, check=False)
    place.answers((done.returncode, done.stdout, done.stderr), refusal(b"file 0: read failed"))
    place.holds(in_prl=chunk_file(ABC, 0), **files)


def has_no_root_folder(place):
    """The same where the root folder, which is to hold the numbers of closed streams, can't be opened, here for the first one."""
    place.lay(given=lines(ABC), in_prl=chunk_file(ABC, 0))
    for closed, words, line in (("<&-", "pack in.prl --force", b"file 0: read failed"), (">&-", "pack out < given", b"write failed"), (">&-", "get in.prl 61", b"write failed")):
        program = f"LD_PRELOAD='{place.meddler}' FAIL='open 1 {errno.EACCES}' '{place.program}'"
        done = subprocess.run(["bash", "-c", f"{program} {words} {closed}"], cwd=place.folder, capture_output=True, check=False)
        place.answers((done.returncode, done.stdout, done.stderr), refusal(line))
    place.holds(given=lines(ABC), in_prl=chunk_file(ABC, 0), out=records(ABC))


def tells_a_terminal(place):
    """`pack` at a terminal says what it waits for, once, on standard error."""
    master, slave = pty.openpty()
    process = place.start(["pack", "out"], stdin=slave)
    os.close(slave)
    os.write(master, b"61 31\n\x04")
    answer = place.finish(process)
    os.close(master)
    wanted = b"prolly: reading lines from the terminal; Control-D ends them\n"
    place.answers(answer, (0, b"1\n", wanted))
    place.holds(out=records(ABC[:1]))


def waits_for_input(place):
    """A non-blocking standard input that has nothing, each time until the program has looked for more in vain."""
    for words, given, wanted in ((["scratch", "--bits", "0"], records(ABC), root_text(ABC, 0)), (["pack", "out"], lines(ABC), b"3\n")):
        reader, writer = os.pipe()
        os.set_blocking(reader, False)
        process, told = place.start_meddled(words, stdin=reader)
        os.close(reader)
        for at in range(0, len(given), 10):
            wait_until_in_vain(writer, told, b"read 0\n")
            os.write(writer, given[at : at + 10])
        os.close(writer)
        answer, _ = place.finish_meddled(process, told)
        place.answers(answer, (0, wanted, b""))
    place.holds(out=records(ABC))


def waits_for_output(place):
    """A non-blocking standard output that nobody reads until it is full, and the program has tried to write more in vain."""
    pairs = numbered(20_000)
    place.lay(in_prl=chunk_file(pairs, 4), none_prl=chunk_file([], 4))
    text = lines(pairs)
    runs = [
        (["dump", "in.prl"], 0, records(pairs)),
        (["dump", "--hex", "in.prl"], 0, text),
        (["diff", "none.prl", "in.prl"], 1, text),
        (["diff", "--old-root", reference_text(tree([], 4, 1).reference), "--new-root", reference_text(tree(pairs, 4, 1).reference), "none.prl", "in.prl"], 1, text),
        (["scan", "in.prl", "", "20000"], 0, text),
        (["scan", "--root", reference_text(tree(pairs, 4, 1).reference), "in.prl", "", "20000"], 0, text),
    ]
    for words, status, made in runs:
        reader, writer = os.pipe()
        os.set_blocking(writer, False)
        process, told = place.start_meddled(words, stdout=writer)
        os.close(writer)
        wait_until_in_vain(reader, told, b"write 1\n")
        # From now on it is read as if the process had been started with a pipe of its own.
        process.stdout = os.fdopen(reader, "rb")
        answer, _ = place.finish_meddled(process, told)
        place.answers(answer, (status, made, b""))
    place.holds(in_prl=None, none_prl=None)


def wait_until_in_vain(pipe, told, call):
    """Waits until a call that is told by this line, on the other end of a pipe, moves nothing: the pipe holds as much as before."""
    while True:
        held = held_by(pipe)
        while is_readable(told, 0):
            next_of(told)
        # A call is told before it is made. So once the second is, the first, which was told since the pipe was looked at, is done.
        for _ in range(2):
            while next_of(told) != call:
                pass
        if held_by(pipe) == held:
            return


def next_of(told):
    """The next line of a pipe that tells calls."""
    assert is_readable(told, LONGEST), "no call is told"
    line = told.readline()
    assert line, "the program ended before a call moved nothing"
    return line


def is_readable(pipe, seconds):
    """Whether a pipe has anything within so many seconds, or has ended."""
    return select.select([pipe], [], [], seconds)[0] != []


def tests():
    """All tests: for each a name and what it does."""
    for test in (is_the_same_pipe, has_closed_streams, has_no_root_folder, tells_a_terminal, waits_for_input, waits_for_output):
        yield test.__name__.replace("_", " "), test


def all_runs(program, folder):
    """Runs all tests, and gives for each its name and its differences."""
    return all_of("streams", program, folder, tests())
