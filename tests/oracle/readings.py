"""A second reader of record files and of the lines of `pack`, written after docs/format.md and nothing else."""

from dataclasses import dataclass

from oracle.escapes import unescaped
from oracle.trees import REMOVED, overlay

KEY_LIMIT, VALUE_LIMIT = 1_024, 65_536

RECORDS_LIMIT = 16_777_216

REMOVAL_MARK = 0xFFFF_FFFF


@dataclass
class Reading:
    """The good records of a file, as changes, and what is wrong behind them, if anything is."""

    changes: list
    flaw: str = None

    def line(self, file):
        """The line that tells of the flaw."""
        place = f"file {file}"
        if self.flaw == "too many records":
            return f"{place}: {self.flaw}".encode()
        told = "is cut" if self.flaw == "cut" else f": {self.flaw}"
        return f"{place}: record {len(self.changes)}{' ' if self.flaw == 'cut' else ''}{told}".encode()


def read(content, limit=RECORDS_LIMIT):
    """The reading of a record file."""
    changes, place = [], 0
    while place < len(content):
        if len(changes) == limit:
            return Reading(changes, "too many records")
        record, flaw = next_record(content[place:])
        if flaw is None and changes and record[0] <= changes[-1][0]:
            flaw = "key out of order"
        if flaw is not None:
            return Reading(changes, flaw)
        key, value, size = record
        changes.append((key, value))
        place += size
    return Reading(changes)


def next_record(rest):
    """The record that bytes begin with, with its size, and what is wrong with it."""
    length = int.from_bytes(rest[:2], "big")
    if len(rest) < 2:
        return None, "cut"
    if length > KEY_LIMIT:
        return None, "key too long"
    if len(rest) < 6 + length:
        return None, "cut"
    key, size = rest[2 : 2 + length], int.from_bytes(rest[2 + length : 6 + length], "big")
    if size == REMOVAL_MARK:
        return (key, REMOVED, 6 + length), None
    if size > VALUE_LIMIT:
        return None, "value too long"
    if len(rest) < 6 + length + size:
        return None, "cut"
    return (key, rest[6 + length : 6 + length + size], 6 + length + size), None


def stop_of(readings):
    """Of several files the number of the one whose fault is named, or none."""
    faulty = [file for file, reading in enumerate(readings) if reading.flaw is not None]
    return min(faulty, key=lambda file: (position(readings[file]), file), default=None)


def position(reading):
    """Where a file's fault stands: behind its last good key, or before all keys."""
    return (1, reading.changes[-1][0]) if reading.changes else (0, b"")


def merged(readings):
    """The pairs of several files up to, and with, the position of the fault that is named."""
    stop = stop_of(readings)
    if stop is None:
        return overlay([reading.changes for reading in readings])
    last = position(readings[stop])
    return overlay([[change for change in reading.changes if (1, change[0]) <= last] for reading in readings])


def packed(text, is_text=False, has_removals=False):
    """The changes of a text's lines, or the line that tells of the first faulty one. The lines are in hexadecimal or, with
    `--text`, text, and `--removals` may be given."""
    if is_text and text.startswith(b"\xef\xbb\xbf"):
        return None, b"line 0: begins with a byte order mark"
    lines = text.split(b"\n")
    if lines[-1] == b"":
        lines.pop()
    changes = []
    for number, line in enumerate(lines):
        change = change_of_text(line, has_removals) if is_text else change_of(line)
        if change is None:
            return None, f"line {number}: not a pair {'of text' if is_text else 'in hexadecimal'}".encode()
        key, value = change
        if len(key) > KEY_LIMIT:
            return None, f"line {number}: key too long".encode()
        if value is not REMOVED and len(value) > VALUE_LIMIT:
            return None, f"line {number}: value too long".encode()
        changes.append(change)
    return changes, None


def change_of(line):
    """The change that a line stands for, or none."""
    parts = line.split(b" ")
    if len(parts) != 2:
        return None
    key = unhex(parts[0])
    value = REMOVED if parts[1] == b"-" else unhex(parts[1])
    return None if key is None or (value is None and parts[1] != b"-") else (key, value)


def change_of_text(line, has_removals):
    """The change that a line of text stands for, or none."""
    parts = [unescaped(part) for part in line.split(b"\t")]
    if None in parts or len(parts) > 2 or (len(parts) == 1 and not has_removals):
        return None
    return parts[0], parts[1] if len(parts) == 2 else REMOVED


def unhex(text):
    """The bytes that hexadecimal text stands for, or none."""
    if len(text) % 2 or any(letter not in b"0123456789abcdefABCDEF" for letter in text):
        return None
    return bytes.fromhex(text.decode())
