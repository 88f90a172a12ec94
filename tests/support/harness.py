"""Runs the program as a user does, and compares all that it leaves behind."""

import os
import resource
import subprocess
import tempfile
import traceback
from dataclasses import dataclass, field
from pathlib import Path

from support.watch import Hung

LONGEST = 300.0
"""Seconds after which a run hangs, or nobody waits any more for what a run is to do. On an idle machine that takes some milliseconds,
and now and then a second: so this tells a hang from an answer, and no slow machine from a fast one."""

HANGS = "it hangs"
"""The difference of what took longer."""

FOLDER = object()
"""Stands among a case's files for a folder without files."""

NO_THREAD = b"prolly: a thread could not be started\n"

SCARCE = [b"prolly: out of memory\n", NO_THREAD]
"""How the program says that memory, or a thread, was not there."""

BAD_KEY = b"prolly: not a key in hexadecimal\n"
"""What it says of a word that is to be a key in hexadecimal, and is none."""

BAD_TEXT_KEY = b"prolly: not a key of text\n"
"""The same of a word that is to be text."""


def hexed(data):
    """Bytes as the program prints them."""
    return data.hex().encode()


def line(pair):
    """The line of a pair."""
    return hexed(pair[0]) + b" " + hexed(pair[1]) + b"\n"


@dataclass
class Case:
    """One run: its words, what it reads, and all that is wanted of it."""

    name: str
    words: list
    input: object = b""
    """Bytes for standard input, a path to read them from, or None where it is closed."""
    status: int = 0
    out: bytes = b""
    err: bytes = b""
    before: dict = field(default_factory=dict)
    """The files that lie in the folder before the run."""
    after: dict = field(default_factory=dict)
    """The files that it makes or changes. All others are as before."""
    stdout: str = "read"
    """`read`, `closed`, `full` (a full device) or `unread` (a pipe that nobody reads)."""
    stderr: str = "read"
    """`read` or `closed`."""
    memory: int = None
    """How many bytes of memory the program may have."""
    unfinished: dict = None
    """The files of which it may leave a first part, and no more, where it says that memory was not there. Where it says
    that of a thread, nothing is written. Without them neither is an answer."""


class Skipped(Exception):
    """Raised by a test of what this machine has not, or can't do. It says what that is."""


def tested(name, test):
    """A test's name and its differences, in a list. Where this machine can't do the test, that is printed, and the list is empty."""
    try:
        return [(name, test())]
    except Skipped as why:
        print(f"SKIPPED {name}: {why}", flush=True)
        return []
    except (Exception, Hung) as error:
        return [(name, [broken_off(error)])]


def broken_off(error):
    """The difference of a test that an error broke off: what it is, and the line of the test where it came up."""
    if isinstance(error, (subprocess.TimeoutExpired, Hung)):
        return HANGS
    frames = traceback.extract_tb(error.__traceback__)
    at = [frame for frame in frames if Path(frame.filename).parent.name == "cases"] or frames
    return f"it breaks off at {Path(at[-1].filename).name}, line {at[-1].lineno}: {error!r:.300}"


def differs(what, found, wanted):
    """One difference, or none."""
    return [] if found == wanted else [f"{what}: {brief(found)}, wanted {brief(wanted)}"]


def brief(value):
    """A value, or its start, for a line of a report."""
    return shown(value) if isinstance(value, bytes) else f"{value!r:.300}"


def run(program, case):
    """Runs a case in a folder of its own, and gives the differences, a line each."""
    with tempfile.TemporaryDirectory() as name:
        folder = Path(name)
        lay_out(folder, case.before)
        status, out, err = start(program, case, folder)
        if case.unfinished is not None and (status, out) == (6, b"") and err in SCARCE:
            return file_differences(folder, case.before) if err == NO_THREAD else part_differences(folder, case)
        differences = []
        if status != case.status:
            differences.append(f"status {status}, wanted {case.status}")
        if out != case.out:
            differences.append(f"standard output {shown(out)}, wanted {shown(case.out)}")
        if err != case.err:
            differences.append(f"standard error {shown(err)}, wanted {shown(case.err)}")
        differences += file_differences(folder, {**case.before, **case.after})
        return differences


def start(program, case, folder):
    """Runs the program, and gives its status and what it printed."""
    stdin = open_input(case.input)
    stdout, finish = open_output(case.stdout)
    try:
        done = subprocess.run(
            [program, *case.words],
            cwd=folder,
            stdin=stdin,
            stdout=stdout,
            stderr=subprocess.PIPE,
            input=case.input if stdin is None and case.input is not None else None,
            preexec_fn=(lambda: limit(case)) if is_limited(case) else None,
            timeout=LONGEST,
            check=False,
        )
    finally:
        finish()
        if stdin is not None:
            os.close(stdin)
    return done.returncode, done.stdout or b"", done.stderr or b""


def open_input(source):
    """A file, or a folder, to read from; none where bytes are given, or where the input is closed."""
    return os.open(source, os.O_RDONLY) if isinstance(source, Path) else None


def open_output(kind):
    """What standard output goes to, and what is to be done after the run."""
    if kind == "full":
        file = open("/dev/full", "wb")
        return file, file.close
    if kind == "unread":
        reader, writer = os.pipe()
        os.close(reader)
        return writer, lambda: os.close(writer)
    return subprocess.PIPE, lambda: None


def is_limited(case):
    """Whether anything is to be closed, or taken, before the program starts. Where nothing is, it starts sooner: the
    system need not copy this process, which may be large."""
    return case.input is None or "closed" in (case.stdout, case.stderr) or case.memory is not None


def limit(case):
    """Closes what the program is to find closed, and takes the memory that it is not to have."""
    if case.input is None:
        os.close(0)
    if case.stdout == "closed":
        os.close(1)
    if case.stderr == "closed":
        os.close(2)
    if case.memory is not None:
        resource.setrlimit(resource.RLIMIT_AS, (case.memory, case.memory))


def lay_out(folder, files):
    """Writes the files that a run finds."""
    for name, content in files.items():
        if content is FOLDER:
            (folder / name).mkdir()
        else:
            (folder / name).write_bytes(content)


def file_differences(folder, wanted):
    """How the files differ from those that are wanted."""
    differences = []
    found = {path.name for path in folder.iterdir()}
    for name in sorted(found - wanted.keys()):
        differences.append(f"{name} was left behind")
    for name in sorted(wanted.keys() - found):
        differences.append(f"{name} is not there")
    for name in sorted(found & wanted.keys()):
        if wanted[name] is FOLDER:
            continue
        content = (folder / name).read_bytes()
        if content != wanted[name]:
            differences.append(f"{name} holds {shown(content)}, wanted {shown(wanted[name])}")
    return differences


def part_differences(folder, case):
    """How the files differ from those that were there, and from first parts of those that were begun. A new file that
    nothing was written to is taken away again."""
    parts = {name: (folder / name).read_bytes() for name in case.unfinished if (folder / name).is_file()}
    begun = {name: part for name, part in parts.items() if case.unfinished[name].startswith(part)}
    wanted = {**case.before, **case.unfinished, **begun}
    unmade = case.unfinished.keys() - parts.keys() - case.before.keys()
    return file_differences(folder, {name: content for name, content in wanted.items() if name not in unmade})


def shown(content):
    """The start of some bytes, for a line of a report."""
    return f"{content[:300]!r} of {len(content)} bytes"
