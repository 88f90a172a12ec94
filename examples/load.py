#!/usr/bin/env python3
"""Loads a table of several columns, in any order and of any size, into a prolly tree; and gives it back.

    load.py [--csv | --tsv | --json-lines] [--header] --key COLUMN [--unique] TABLE OUT
    prolly dump --text OUT | load.py --back [--csv | --tsv | --json-lines] [--header] --key COLUMN > TABLE

One column is the key. The others are the value, as JSON text: an object where the columns have names, which a header or
JSON lines give them, else a list. COLUMN is a name or, but for JSON lines, a number counted from 1. Of rows with one key the
last one counts.

Rows are read one after another and go through a pipe to `prolly pack --sort`. Its record file lies in a folder beside OUT
until `prolly build` has made OUT, and prints its line: the root, and the numbers of chunks, rows and levels. After a fault
OUT is as it was, and nothing lies beside it. So it is after a signal, but that a build which one ends leaves OUT.N.tmp. A
fault of the table has status 3, one of a file 5, and one of the program's its own.
"""

import argparse
import csv
import json
import os
import re
import signal
import stat
import subprocess
import sys
import tempfile
from contextlib import suppress
from decimal import Decimal
from itertools import chain, islice
from pathlib import Path

MOST_RECORDS = 16_777_216
"""How many records a record file may have that is built."""

LONGEST_KEY, LONGEST_VALUE = 1_024, 65_536

PIPE_BYTES = 65_536

BYTE_ORDER_MARK = b"\xef\xbb\xbf"

CHUNK_FILE = b"PRLY"
"""What a chunk file begins with (docs/format.md)."""

TAB_SEPARATED = {"delimiter": "\t", "quoting": csv.QUOTE_NONE, "quotechar": None}
"""Tab-separated values have no quotes, so no tab and no newline in them."""

AS_JSON = json.JSONEncoder(ensure_ascii=False, separators=(",", ":"))

BACKSLASH, UNIT = "\\", "\\u"

ESCAPES = str.maketrans({BACKSLASH: 2 * BACKSLASH, "\t": r"\t", "\n": r"\n", "\r": r"\r", "\ufeff": r"\xef\xbb\xbf"})
"""What stands in a line of text for characters that may not, or may not begin the first one (docs/format.md)."""

ESCAPE = re.compile(rb"\\(?:x(?P<digits>[0-9a-fA-F]{2})|(?P<letter>.?))")

NAMED = {b"b": b"\b", b"t": b"\t", b"n": b"\n", b"v": b"\v", b"f": b"\f", b"r": b"\r", b"\\": b"\\"}
"""The bytes that have a letter behind a backslash."""


class Fault(Exception):
    """A table, or lines, that are at fault. The text says where."""


def main():
    """Loads a table, or gives one back, and gives the status."""
    for number in (signal.SIGTERM, signal.SIGHUP):
        if signal.getsignal(number) is not signal.SIG_IGN:
            signal.signal(number, lambda number, _: sys.exit(128 + number))
    asked = arguments()
    try:
        if asked.back:
            give_back(asked)
        else:
            load(asked)
    except Fault as fault:
        tell(fault)
        return 3
    except OSError as fault:
        tell(f"{fault.filename or 'a file'}: {fault.strerror}")
        return 5
    except KeyboardInterrupt:
        return 128 + signal.SIGINT
    return 0


def tell(fault):
    """Prints a fault, which may have a part of a table in it. No character of that does anything to a terminal."""
    line = "".join(c if c.isprintable() else c.encode("unicode_escape", "surrogatepass").decode() for c in str(fault))
    with suppress(OSError):  # Where standard error fails there is no one to tell; the status tells.
        os.write(2, f"load.py: {line}\n".encode())


def arguments():
    """The words of the command line."""
    parser = argparse.ArgumentParser(description="Loads a table of several columns into a prolly tree, and gives it back.")
    forms = parser.add_mutually_exclusive_group()
    forms.add_argument("--csv", dest="form", action="store_const", const="csv", help="comma-separated values with quotes [default]")
    forms.add_argument("--tsv", dest="form", action="store_const", const="tsv", help="tab-separated values without quotes")
    forms.add_argument("--json-lines", dest="form", action="store_const", const="json", help="a JSON object a line")
    parser.add_argument("--header", action="store_true", help="the first row names the columns")
    parser.add_argument("--key", required=True, metavar="COLUMN", help="the column that is the key: its name, or its number from 1, but for JSON lines")
    parser.add_argument("--unique", action="store_true", help="refuse a key that stands in two rows")
    parser.add_argument("--memory", metavar="MB", help="how many megabytes the sort uses")
    cuts = parser.add_mutually_exclusive_group()
    cuts.add_argument("--bits", metavar="Q", help="cut about every 2^Q-th row")
    cuts.add_argument("--chunk-bytes", metavar="N", help="cut chunks of about N bytes")
    parser.add_argument("--prolly", default=program_beside(), metavar="PROGRAM", help="the program that sorts and builds")
    parser.add_argument("--back", action="store_true", help="write the table of the lines of `prolly dump --text`, from standard input")
    parser.add_argument("table", nargs="?", metavar="TABLE", help="the table, in UTF-8")
    parser.add_argument("out", nargs="?", metavar="OUT", help="the chunk file to make")
    parser.set_defaults(form="csv")
    # Options may stand among the names, but where these may begin with a dash: Python's parser can't do both.
    asked = parser.parse_args() if "--" in sys.argv else parser.parse_intermixed_args()
    if asked.back != (asked.table is None) or asked.back != (asked.out is None):
        parser.error("TABLE and OUT are needed, and with --back neither may be there")
    asked.has_names = asked.header or asked.form == "json"
    if not (asked.has_names or number_of(asked.key)):
        parser.error("without --header COLUMN is a number, counted from 1")
    if not is_text(asked.key):
        parser.error("COLUMN is not UTF-8")
    return asked


def is_text(text):
    """Whether a text can be written. One with a half of a pair of code units, as JSON and words that are no UTF-8 may have, can't."""
    try:
        text.encode()
    except UnicodeEncodeError:
        return False
    return True


def program_beside():
    """The program that was installed beside this one, or else the one that the shell finds."""
    beside = Path(__file__).resolve().with_name("prolly")
    return str(beside) if beside.is_file() else "prolly"


def number_of(column):
    """The number that a column is named by, or none."""
    return int(column) if re.fullmatch("0*[1-9][0-9]{0,8}", column) else None


# ---- from a table to a tree


def load(asked):
    """Packs the rows, sorted by their keys, and builds the tree of them."""
    out = Path(asked.out)
    refuse_printed(asked.table, asked.table)
    refuse_other(out, asked.table)
    with open(asked.table, "rb") as file, folder_beside(out) as folder:
        files = []
        for part in parts_of(lines_of(asked, file)):
            if files and asked.unique:
                raise Fault(f"--unique takes at most {MOST_RECORDS} rows")
            files.append(str(Path(folder) / f"{len(files)}.rec"))
            pack(asked, part, files[-1])
        cut = [*given("--bits", asked.bits), *given("--chunk-bytes", asked.chunk_bytes)]
        ends_well(subprocess.run([asked.prolly, "build", "--atomic", *cut, "--", asked.out, *files], check=False).returncode)


def refuse_printed(file, name):
    """Refuses the file to which is printed: what is printed would stand in it, and might be read as a part of it."""
    try:
        read, printed = os.stat(file), os.fstat(1)
    except OSError:
        return  # Who opens it is told.
    if stat.S_ISREG(read.st_mode) and os.path.samestat(read, printed):
        raise OSError(0, "it is also standard output", name)


def refuse_other(out, table):
    """Refuses what the program would not write over, before anything is read."""
    if not out.exists():
        return
    if Path(table).exists() and out.samefile(table):
        raise OSError(0, "OUT is also TABLE", str(out))
    if not out.is_file():
        raise OSError(0, "OUT is no file", str(out))
    with open(out, "rb") as file:
        start = file.read(len(CHUNK_FILE))
    if start and start != CHUNK_FILE:
        raise OSError(0, "OUT is not a chunk file", str(out))


def folder_beside(out):
    """A folder beside OUT that is gone in the end."""
    try:
        return tempfile.TemporaryDirectory(prefix=f"{out.name}.", dir=out.parent)
    except OSError as error:
        raise OSError(error.errno, error.strerror, str(out)) from error


def parts_of(lines):
    """The lines in parts, each of as many as a record file may have records. The first part may have none."""
    yield islice(lines, MOST_RECORDS)
    for line in lines:
        yield chain([line], islice(lines, MOST_RECORDS - 1))


def pack(asked, lines, file):
    """Packs lines, and ends with the status of the packer where that is at fault."""
    flags = ["--unique"] if asked.unique else []
    words = [asked.prolly, "pack", "--sort", "--text", *flags, *given("--memory", asked.memory), "--", file]
    packer = subprocess.Popen(words, stdin=subprocess.PIPE, stdout=subprocess.DEVNULL, bufsize=PIPE_BYTES)
    try:
        with suppress(BrokenPipeError):  # It has told a fault, and reads no more.
            packer.stdin.writelines(lines)
        with suppress(BrokenPipeError):
            packer.stdin.close()
        packer.wait()
    except BaseException:
        packer.kill()
        packer.wait()
        raise
    ends_well(packer.returncode)


def given(option, value):
    """The words of an option, if it is given."""
    return [] if value is None else [option, value]


def ends_well(status):
    """Ends with the status of the program where that is at fault, which it has told."""
    if status != 0:
        sys.exit(status if status > 0 else 128 - status)


def lines_of(asked, file):
    """The lines of text that `pack --text` reads, one for each row."""
    table = Numbered(file)
    try:
        for key, others in json_rows(asked, table) if asked.form == "json" else rows(asked, table):
            yield line_of(key, others)
    except ValueError as error:
        raise Fault(f"{asked.table}: line {table.count}: {error}") from error


class Numbered:
    """The lines of a file as text, and how many of them were read."""

    def __init__(self, file):
        self.file, self.count = file, 0

    def __iter__(self):
        for line in self.file:
            if self.count == 0 and line.startswith(BYTE_ORDER_MARK):
                line = line[len(BYTE_ORDER_MARK) :]
            self.count += 1
            yield line.decode()


def rows(asked, table):
    """The key and the other columns of each row of separated values."""
    found = columns(table, TAB_SEPARATED if asked.form == "tsv" else {"strict": True})
    names = next(found, [asked.key]) if asked.header else None
    if names and len(set(names)) < len(names):
        raise ValueError("two columns have one name")
    place = place_of(asked.key, names)
    for row in found:
        if names is None and place >= len(row):
            raise ValueError(f"there is no column {asked.key}")
        if names and len(row) != len(names):
            raise ValueError(f"it has {len(row)} columns, and the header names {len(names)}")
        key = row.pop(place)
        yield key, dict(zip(names[:place] + names[place + 1 :], row)) if names else row


def columns(table, form):
    """The columns of each row of separated values. An empty line is no row."""
    begin = 1
    try:
        for row in csv.reader(table, **form):
            begin = table.count + 1
            if row:
                yield row
    except csv.Error as error:
        # A quote that does not end may stand many lines above the one in which that shows.
        where = f", in the row that begins in line {begin}" if begin < table.count else ""
        raise ValueError(f"{error}{where}") from error


def place_of(column, names):
    """The place of a column, by its name if columns have names, or by its number."""
    if names and column in names:
        return names.index(column)
    number = number_of(column)
    if number is None or (names and number > len(names)):
        raise ValueError(f"there is no column {column}")
    return number - 1


def json_rows(asked, table):
    """The key and the other columns of each object, one a line. A whole number is a key by its digits."""
    for line in table:
        try:
            row = read_json(line)
        except json.JSONDecodeError as error:
            raise ValueError(f"it is no JSON: {error.msg} at column {error.colno}") from error
        if not isinstance(row, dict) or asked.key not in row:
            raise ValueError(f"there is no column {asked.key}")
        key = row.pop(asked.key)
        if isinstance(key, bool) or not isinstance(key, (str, int)):
            raise ValueError("the key is neither a text nor a whole number")
        yield str(key), row


def read_json(text):
    """What a JSON text says. Refused is what would not come back as it is written."""
    try:
        return json.loads(text, parse_float=exact, parse_constant=refuse_constant, object_pairs_hook=once_each)
    except RecursionError as error:
        raise ValueError("it is nested too deep") from error


def exact(digits):
    """A number that is no whole one, where a float has just its value."""
    number = float(digits)
    if not is_written(number, digits):
        raise ValueError(f"the number {digits} would become {number}: make it a text")
    return number


def is_written(number, digits):
    """Whether a float has just the value of these digits. Of an exponent that is too large to compare it is said to have another."""
    try:
        return repr(number) == digits or Decimal(repr(number)) == Decimal(digits)
    except ArithmeticError:
        return False


def refuse_constant(name):
    """Refuses NaN and the infinities, which Python reads, and which are no JSON."""
    raise ValueError(f"it is no JSON: {name}")


def once_each(members):
    """An object, where no two of its members have one name."""
    found = dict(members)
    if len(found) < len(members):
        raise ValueError("two columns have one name")
    return found


def line_of(key, others):
    """The line of text of a key and the other columns."""
    value = AS_JSON.encode(others)
    if len(key.encode()) > LONGEST_KEY:
        raise ValueError("the key is too long")
    if len(value.encode()) > LONGEST_VALUE:
        raise ValueError("the other columns are too long")
    # JSON text has no tab and no end of a line as it stands.
    return f"{key.translate(ESCAPES)}\t{value.replace(BACKSLASH, 2 * BACKSLASH)}\n".encode()


# ---- from lines to a table


def give_back(asked):
    """Writes the table whose rows the lines of standard input are."""
    refuse_printed(0, "standard input")
    with open(0, "rb", closefd=False) as lines, open(1, "w", encoding="utf-8", newline="", closefd=False) as out:
        if asked.form == "json":
            for key, others in rows_back(asked, lines):
                out.write(json.dumps({asked.key: key, **others}, ensure_ascii=False) + "\n")
            return
        writer = csv.writer(ByNewlines(out), **(TAB_SEPARATED if asked.form == "tsv" else {}))
        try:
            writer.writerows(whole_rows(asked, rows_back(asked, lines)))
        except csv.Error as error:
            raise Fault(f"no tab-separated values: {error}") from error


class ByNewlines:
    """Takes rows that end with a carriage return and a newline, and writes them with a newline alone. Where the writer takes
    both for the end of a row, it quotes cells that have one of them. A table whose first cell begins with a byte order mark
    begins with two, since a reader takes one away."""

    def __init__(self, file):
        self.file, self.has_begun = file, False

    def write(self, row):
        """Writes a row."""
        mark = "" if self.has_begun or not row.startswith("\ufeff") else "\ufeff"
        self.file.write(mark + row[: -len("\r\n")] + "\n")
        self.has_begun = True


def whole_rows(asked, found):
    """The rows with their keys, behind the names of the columns, if they have names. The key comes first then."""
    if not asked.has_names:
        for key, others in found:
            others.insert(number_of(asked.key) - 1, key)
            yield map(as_cell, others)
        return
    names = None
    for number, (key, others) in enumerate(found, 1):
        if names is None:
            names = list(others)
            yield [asked.key, *names]
        if list(others) != names:
            raise Fault(f"line {number}: it has other columns than the first one")
        yield map(as_cell, [key, *others.values()])


def as_cell(column):
    """The text of a column: what is no text is JSON text."""
    return column if isinstance(column, str) else json.dumps(column, ensure_ascii=False)


def rows_back(asked, lines):
    """The key and the other columns of each line."""
    kind = dict if asked.has_names else list
    for number, line in enumerate(lines, 1):
        key, _, value = line.rstrip(b"\n").partition(b"\t")
        try:
            key, value = unescaped(key).decode(), unescaped(value).decode()
            others = read_json(value)
            if UNIT in value and not is_text(AS_JSON.encode(others)):
                raise ValueError("it has a half of a pair of code units")
        except (KeyError, ValueError) as error:
            raise Fault(f"line {number}: it has no value as load.py makes them") from error
        if not isinstance(others, kind):
            raise Fault(f"line {number}: its columns have {'no ' if kind is dict else ''}names")
        if asked.has_names and asked.key in others:
            raise Fault(f"line {number}: another column has the name {asked.key}")
        if not asked.has_names and number_of(asked.key) > len(others) + 1:
            raise Fault(f"line {number}: there is no column {asked.key}")
        yield key, others


def unescaped(text):
    """The bytes that a text stands for."""
    return ESCAPE.sub(lambda found: bytes.fromhex(found["digits"].decode()) if found["digits"] else NAMED[found["letter"]], text)


if __name__ == "__main__":
    sys.exit(main())
