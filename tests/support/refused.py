"""Runs of the program in which the system refuses it one growth of memory, and what it may then answer and leave behind."""

import os
import subprocess
import tempfile
from dataclasses import dataclass, field
from pathlib import Path

from cases.scratch import ABC
from oracle.trees import records
from support.harness import HANGS, LONGEST, NO_THREAD, SCARCE, file_differences, lay_out, shown


@dataclass
class Command:
    """A command, what it answers where nothing is refused, and what it may leave behind where something is."""

    name: str
    words: list
    input: bytes = b""
    status: int = 0
    out: bytes = b""
    err: bytes = b""
    before: dict = field(default_factory=dict)
    made: str = None
    """The file that it makes."""
    whole: bytes = b""
    """What this file holds where nothing is refused."""
    parts: list = field(default_factory=list)
    """Where a growth is refused, it holds a first part of one of these, or nothing."""
    is_printed_early: bool = False
    """It prints as it goes, so where a growth is refused the first lines, or the first records, may be there."""
    is_made_first: bool = False
    """The file is made before the line that tells of it, for which there may be no memory."""
    notice: bytes = b""
    """The line that it writes to standard error while it goes on, before any other."""
    files: dict = field(default_factory=dict)
    """The files that it goes over one by one, each with what it prints of it. Where a growth is refused at one of them, it tells
    that of this file, and goes on to the next."""


def refuse(program, allocator, command, number):
    """Runs a command and refuses it the growth of this number. Gives whether there was one, and the differences."""
    with tempfile.TemporaryDirectory() as name:
        folder = Path(name)
        lay_out(folder, command.before)
        try:
            was_refused, answer = answer_of(program, allocator, command, number, folder)
        except subprocess.TimeoutExpired:
            return True, [HANGS]
        if answer == (command.status, command.out, command.err):
            return was_refused, file_differences(folder, command.before | whole_of(command))
        status, out, err = answer
        if was_refused and status == 6 and is_told(command, out, err):
            return True, part_differences(folder, command, err.endswith(NO_THREAD))
        return was_refused, [f"status {status}, output {shown(out)}, error {shown(err)}"]


def answer_of(program, allocator, command, number, folder):
    """Whether the growth of this number was refused, and what the command answered."""
    reader, writer = os.pipe()
    with os.fdopen(reader, "rb") as told:
        with os.fdopen(writer, "wb"):
            done = subprocess.run(
                [program, *command.words],
                cwd=folder,
                input=command.input,
                capture_output=True,
                env={"LD_PRELOAD": str(allocator), "REFUSE": str(number), "TELL": str(writer)},
                pass_fds=[writer],
                timeout=LONGEST,
                check=False,
            )
        return told.read() != b"", (done.returncode, done.stdout, done.stderr)


def is_told(command, out, err):
    """Whether this tells that memory, or a thread, was not there: of the command, or of one of its files."""
    if err.removeprefix(command.notice) in SCARCE:
        return is_printed_in_part(command, out)
    return any(out == of_others(command.files, name) and err in lines_with(name) for name in command.files)


def of_others(files, name):
    """What is printed of the other ones of some files."""
    return b"".join(out for other, out in files.items() if other != name)


def lines_with(name):
    """The lines that tell of a file for which memory, or a thread, was not there."""
    return [line.replace(b"prolly: ", f"prolly: {name}: ".encode()) for line in SCARCE]


def is_printed_in_part(command, out):
    """Whether this is nothing, or the first lines where a command prints as it goes."""
    firsts = [records(ABC[:count]) for count in range(len(ABC) + 1)]
    return out == b"" or command.is_printed_early and command.out.startswith(out) and (out.endswith(b"\n") or out in firsts)


def whole_of(command):
    """The file that a command makes, if it makes one."""
    return {command.made: command.whole} if command.made else {}


def part_differences(folder, command, is_unstarted):
    """How the files differ from those that were there, and from a first part of what was to be made: none of it, where a
    thread could not be started, and all of it, where there was no memory for the line that tells of it."""
    made = folder / command.made if command.made else None
    if made is None or not made.is_file():
        return file_differences(folder, command.before)
    left = made.read_bytes()
    differences = file_differences(folder, command.before | {command.made: left})
    is_first_part = any(part.startswith(left) for part in command.parts)
    is_untold = command.is_made_first and left == command.whole
    if left and (is_unstarted or not (is_first_part or is_untold)):
        differences.append(f"{command.made} holds {shown(left)}")
    return differences
