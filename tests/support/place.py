"""A folder in which the program is run, for the tests of what becomes of files."""

import errno
import fcntl
import os
import resource
import shutil
import signal
import subprocess
import tempfile
import termios
import time
from array import array
from concurrent.futures import ThreadPoolExecutor
from functools import partial
from pathlib import Path

from support.harness import LONGEST, Skipped, broken_off, shown, tested

NOBODY = 65_534
"""A user who may do only what the folder's permissions say, which do not bind the system's own user."""

UNUSED_USERS = range(60_706, 61_184)
"""Numbers that no system gives to a user, and every container has."""

DONE = (0, None, b"")
"""An answer that the command is done, whatever it printed."""


class Place:
    """A folder in which the program is run, and the differences from what was wanted."""

    def __init__(self, program, meddler, folder):
        self.program = program
        self.meddler = meddler
        self.folder = folder
        self.differences = []
        self.started = []

    def lay(self, **files):
        """Writes files; a dot of a name is an underscore here."""
        for name, content in files.items():
            self.path(name.replace("_", ".")).write_bytes(content)

    def path(self, name):
        """The path of a file of the folder."""
        return self.folder / name

    def start(self, words, **how):
        """Starts the program, and gives the process."""
        given = how.pop("stdin", subprocess.DEVNULL)
        limits, heeded = how.pop("limits", {}), how.pop("heeded", None)
        user = how.pop("user", NOBODY if how.pop("is_nobody", False) else None)
        process = subprocess.Popen(
            [self.program if user is None else self.program_of(user), *words],
            cwd=self.folder,
            stdin=subprocess.PIPE if isinstance(given, bytes) else given,
            stdout=how.pop("stdout", subprocess.PIPE),
            stderr=subprocess.PIPE,
            # Without it the program starts sooner: the system need not copy this process.
            preexec_fn=partial(prepare, limits, user, heeded) if limits or user or heeded else None,
            **how,
        )
        self.started.append(process)
        return process

    def finish(self, process, given=None):
        """The status of a process that was started, and what it printed. One that hangs is ended."""
        try:
            out, err = process.communicate(given, timeout=LONGEST)
        except subprocess.TimeoutExpired:
            process.kill()
            raise
        return process.returncode, out or b"", err

    def run(self, *words, **how):
        """Runs the program, and gives its status and what it printed."""
        given = how.get("stdin")
        return self.finish(self.start(words, **how), given if isinstance(given, bytes) else None)

    def run_without_threads(self, *words):
        """Runs the program where it can start no thread. Gives its answer."""
        # A limit counts all threads of a user, in other containers, too. So it is that of a user who has no other ones.
        for user in beginning_anywhere(UNUSED_USERS):
            try:
                return self.run(*words, limits={resource.RLIMIT_NPROC: 1}, user=user)
            except BlockingIOError:
                # There is somebody of this number.
                pass
        raise Skipped("all numbers of users that should be free are taken")

    def start_meddled(self, words, **how):
        """Starts the program while calls of its fail, as the variables say. Gives the process, and a pipe that tells the calls."""
        reader, writer = os.pipe()
        variables = {name.upper(): value for name, value in how.pop("meddle", {}).items()}
        env = {"LD_PRELOAD": str(self.meddler), "TELL": str(writer), **variables}
        try:
            return self.start(words, env=env, pass_fds=[writer], **how), os.fdopen(reader, "rb", buffering=0)
        finally:
            os.close(writer)

    def finish_meddled(self, process, told, given=None):
        """The answer of such a process, and the lines of the calls that it told since."""
        # Both are read at once, since the program may write much to either.
        with told, ThreadPoolExecutor(1) as beside:
            calls = beside.submit(told.read)
            return self.finish(process, given), calls.result().decode().splitlines()

    def meddled(self, *words, **how):
        """Runs the program while calls of its fail, as the variables say. Gives its answer, and the calls that were told."""
        return self.finish_meddled(*self.start_meddled(words, **how))

    def end_at(self, number, seconds, *words, **how):
        """Runs the program, and ends it by a signal after so many seconds, where it is not done by then."""
        process = self.start(words, heeded=number, **how)
        time.sleep(seconds)
        process.send_signal(number)
        self.finish(process)

    def end_before_write(self, number, write, *words, **how):
        """Runs the program, and ends it by a signal before its write of this number. Unlike a time that meets it on each machine."""
        meddle = {"before": f"write {write} kill -{number} $PPID"}
        (status, _, _), _ = self.meddled(*words, heeded=number, meddle=meddle, **how)
        if status != -number:
            self.note(f"write {write}: status {status}")

    def program_of(self, user):
        """The program where a user may run it, in a folder that is this user's."""
        if os.geteuid() == 0:
            os.chown(self.folder, user, user)
        copy = self.folder.parent / "prolly"
        if not copy.exists():
            shutil.copy(self.program, copy)
        return copy

    def end(self):
        """Ends the processes that a test which broke off left."""
        for process in self.started:
            with process:
                process.kill()

    def answers(self, answer, wanted):
        """Notes where an answer is not the one that is wanted; what is wanted as None may be anything."""
        for name, found, want in zip(("status", "standard output", "standard error"), answer, wanted, strict=True):
            if want is not None and found != want:
                self.note(f"{name} {shown(found) if isinstance(found, bytes) else found}, wanted {want!r:.300}")

    def holds(self, **files):
        """Notes where the folder does not hold just these files; a content of None may be anything."""
        wanted = {name.replace("_", "."): content for name, content in files.items()}
        found = {path.name for path in self.folder.iterdir()}
        for name in sorted(found ^ wanted.keys()):
            self.note(f"{name} was left behind" if name in found else f"{name} is not there")
        for name in sorted(found & wanted.keys()):
            content = wanted[name]
            if content is not None and self.path(name).read_bytes() != content:
                self.note(f"{name} holds {shown(self.path(name).read_bytes())}, wanted {shown(content)}")

    def note(self, difference):
        """Notes a difference."""
        self.differences.append(difference)


def prepare(limits, user, heeded):
    """Sets limits, lets a signal be heeded, and takes away what only the system's own user may do."""
    for kind, limit in limits.items():
        resource.setrlimit(kind, (limit, limit))
    if heeded not in (None, signal.SIGKILL):
        # Who runs the tests may ignore it, as what runs behind a shell ignores SIGINT.
        signal.signal(heeded, signal.SIG_DFL)
    if user is not None and os.geteuid() == 0:
        os.setgroups([])
        os.setgid(user)
        os.setuid(user)


def beginning_anywhere(numbers):
    """These numbers, from one on that is another in each process and at each call."""
    start = time.monotonic_ns() % len(numbers)
    return [*numbers[start:], *numbers[:start]]


# ---- waiting for what is seen


def wait_until(what, is_there, process=None):
    """Waits until something is there, which is named for a report. A wait that is too long breaks the test off, and so does the
    end of the process that is to bring it."""
    deadline = time.monotonic() + LONGEST
    while not is_there():
        # What came just before the end counts.
        is_over = process is not None and process.poll() is not None
        if is_over and not is_there():
            raise AssertionError(f"{what}: the program ended before, with status {process.returncode}")
        if time.monotonic() > deadline:
            raise AssertionError(f"{what}: not within {LONGEST:.0f} seconds")
        time.sleep(0.001)


def wait_until_there(path, process=None):
    """Waits until a file is there."""
    wait_until(f"{path.name} is there", path.exists, process)


def opened_for_writing(path, process):
    """A named pipe that a process is to read, once it has it open. To open it in the usual way waits for good where it never does."""
    found = []

    def is_read():
        try:
            found.append(os.open(path, os.O_WRONLY | os.O_NONBLOCK))
        except OSError as error:
            if error.errno != errno.ENXIO:
                raise
        return found != []

    wait_until(f"{path.name} is opened", is_read, process)
    os.set_blocking(found[0], True)
    return os.fdopen(found[0], "wb", buffering=0)


def held_by(pipe):
    """How many bytes a pipe holds."""
    count = array("i", [0])
    fcntl.ioctl(pipe, termios.FIONREAD, count)
    return count[0]


def wait_until_read(pipe, process):
    """Waits until a process has read all that a pipe holds."""
    wait_until("the pipe is read", lambda: held_by(pipe) == 0, process)


def begin(process, given, path):
    """Gives a process the first byte of its standard input, and waits until it has read it. What comes before, such as that it makes
    the file of this path, is done then. Gives what is left of the input."""
    process.stdin.write(given[:1])
    process.stdin.flush()
    wait_until_read(process.stdin, process)
    wait_until_there(path, process)
    return given[1:]


# ---- all tests of a part


def all_of(part, program, folder, tests):
    """Runs tests of a part, each in a folder of its own, and gives for each its name and its differences."""
    meddler = compiled("meddle", folder)
    for name, test in tests:
        yield from tested(f"{part}: {name}", partial(differences_in_place, program, meddler, test))


def differences_in_place(program, meddler, test):
    """What a test notes in a folder of its own, which every user may enter, and what it breaks off with."""
    with tempfile.TemporaryDirectory() as above:
        os.chmod(above, 0o755)
        inside = Path(above) / "place"
        inside.mkdir()
        place = Place(program, meddler, inside)
        try:
            test(place)
        except Skipped:
            raise
        except Exception as error:
            place.note(broken_off(error))
        finally:
            place.end()
        return place.differences


def compiled(name, folder):
    """A library of C that stands between the program and the system."""
    library = Path(folder) / f"{name}.so"
    source = Path(__file__).with_name(f"{name}.c")
    subprocess.run(["cc", "-O2", "-shared", "-fPIC", "-o", library, source], check=True)
    return library
