"""`examples/load.py`: tables of several columns to a tree and back, beside trees that the second builder makes."""

import csv
import io
import json
import random
import signal
import subprocess
import sys
import tempfile
from functools import partial
from pathlib import Path

from oracle.trees import chunk_file, report
from support.harness import LONGEST, Case, differs, run, tested
from support.measured import run as measured
from support.place import wait_until

EXAMPLES = Path(__file__).parent.parent.parent / "examples"

LOAD = str(EXAMPLES / "load.py")

SEED, TABLES = 20_261_128, 60
"""The random tables of the gate."""

BEFORE = chunk_file([(b"before", b"1")])
"""What OUT holds before a run, where it is there."""

PEOPLE = [["id", "name", "town"], ["7", "Ada", "London"], ["12", 'Grace "Amazing" Hopper', "New\nYork"], ["7", "Ada\\Lovelace", ""]]

LONG_ROWS = 300_000
"""How many rows a table has that is larger than the memory it is loaded in."""

IN_PARTS = "import sys; import load; load.MOST_RECORDS = 3; sys.exit(load.main())"
"""Runs load.py as if a record file had at most three records."""


def all_runs(program, folder):
    """All of it: for each run its name and its differences."""
    for case in [*loads(program), *faults(program), *backs(program)]:
        yield from tested(case.name, partial(run, LOAD, case))
    for number in range(TABLES):
        yield from tested(f"load.py: random {SEED}, table {number}", partial(there_and_back, program, random.Random(f"{SEED} {number}")))
    for name, test in (("parts", in_parts), ("printed to its table", printed_to), ("ended by a signal", ended), ("more rows than memory", streamed)):
        yield from tested(f"load.py: {name}", partial(test, program))


# ---- what tables come to


def csv_text(rows, **form):
    """Rows as text."""
    text = io.StringIO(newline="")
    csv.writer(text, **form).writerows(rows)
    return text.getvalue().encode()


def tsv_text(rows):
    """The same with tabs, and without quotes."""
    return "".join("\t".join(row) + "\n" for row in rows).encode()


def pair(key, others):
    """The pair of a row: the other columns are JSON text."""
    return key.encode(), json.dumps(others, ensure_ascii=False, separators=(",", ":")).encode()


def named(rows, place):
    """The pairs of rows whose first one names the columns, of which the one of this place is the key."""
    names, *rows = rows
    return latest(pair(row[place], {name: cell for name, cell in zip(names, row) if name != names[place]}) for row in rows)


def unnamed(rows, place):
    """The pairs of rows whose columns have no names."""
    return latest(pair(row[place], [*row[:place], *row[place + 1 :]]) for row in rows)


def latest(pairs):
    """Of each key the last pair, in the order of keys."""
    return sorted(dict(pairs).items())


def loaded(program, name, words, table, pairs, bits=12, out="out.prl", **more):
    """A table that is loaded."""
    made = {out: chunk_file(pairs, bits)}
    words = ["--prolly", program, *words, "table", out]
    return Case(f"load.py: {name}", words, out=report(pairs, bits), before={"table": table, **more.pop("before", {})}, after=made, **more)


def loads(program):
    """Small tables."""
    text, rest = csv_text(PEOPLE), PEOPLE[1:]
    plain = [["b7", "Bolt\\n", 'a "quoted" one'], ["a3", "", "40"], ["b7", "ä", "11"]]
    objects = [{"id": 7, "name": "Ada", "tags": ["a", 1.5, None]}, {"name": {"first": "Grace"}, "id": "12"}, {"id": "7"}]
    lines = "".join(json.dumps(row) + "\n" for row in objects).encode()
    of_objects = latest(pair(str(row["id"]), {name: value for name, value in row.items() if name != "id"}) for row in objects)
    header = ["--csv", "--header", "--key"]
    return [
        loaded(program, "CSV, by the name of the key", [*header, "id"], text, named(PEOPLE, 0)),
        loaded(program, "CSV where it is not told", ["--header", "--key", "id"], text, named(PEOPLE, 0)),
        loaded(program, "CSV, by the number of the key", [*header, "2"], text, named(PEOPLE, 1)),
        loaded(program, "a name that is a number", [*header, "2"], csv_text([["1", "2"], ["a", "b"]]), named([["1", "2"], ["a", "b"]], 1)),
        loaded(program, "CSV without names", ["--csv", "--key", "3"], csv_text(rest), unnamed(rest, 2)),
        loaded(program, "CSV of one column", ["--key", "1"], b"b\na\n", unnamed([["b"], ["a"]], 0)),
        loaded(program, "CSV whose lines end as on other systems", [*header, "id"], csv_text(PEOPLE, lineterminator="\r\n"), named(PEOPLE, 0)),
        loaded(program, "CSV without a newline at its end", [*header, "id"], text.rstrip(), named(PEOPLE, 0)),
        loaded(program, "CSV with empty lines", ["--key", "1"], b"\nb,1\n\na,2\n\n", unnamed([["b", "1"], ["a", "2"]], 0)),
        loaded(program, "rows of several lengths, without names", ["--key", "1"], b"b\na,2,3\n", unnamed([["b"], ["a", "2", "3"]], 0)),
        loaded(program, "a mark of the order of bytes", [*header, "id"], b"\xef\xbb\xbf" + text, named(PEOPLE, 0)),
        loaded(program, "a key that begins with such a mark", ["--key", "2"], "v,\ufeffk\n".encode(), unnamed([["v", "\ufeffk"]], 1)),
        loaded(program, "a header and no row", [*header, "id"], b"id,name\n", []),
        loaded(program, "an empty table", [*header, "id"], b"", []),
        loaded(program, "an empty table in the place of a tree", [*header, "id"], b"", [], before={"out.prl": BEFORE}),
        loaded(program, "TSV, of which quotes are a part", ["--tsv", "--key", "1"], tsv_text(plain), unnamed(plain, 0)),
        loaded(program, "TSV with names", ["--tsv", "--header", "--key", "k"], tsv_text([["v", "k"], *[row[:2] for row in plain]]), named([["v", "k"], *[row[:2] for row in plain]], 1)),
        loaded(program, "JSON lines", ["--json-lines", "--key", "id"], lines, of_objects),
        loaded(program, "bits", [*header, "id", "--bits", "1"], text, named(PEOPLE, 0), bits=1),
        loaded(program, "memory, and each key once", [*header, "name", "--memory", "16", "--unique"], text, named(PEOPLE, 1)),
        loaded(program, "the longest key and the longest columns", ["--key", "1"], b"k" * 1_024 + b"," + b"v" * 65_532 + b"\n", unnamed([["k" * 1_024, "v" * 65_532]], 0)),
        loaded(program, "a tree whose name begins with a dash", ["--key", "1", "--"], b"a,1\n", unnamed([["a", "1"]], 0), out="-out.prl"),
        Case("load.py: options among the names", ["--prolly", program, "table", "--key", "1", "out.prl"], out=report([(b"a", b"[]")], 12), before={"table": b"a\n"}, after={"out.prl": chunk_file([(b"a", b"[]")], 12)}),
        loaded(program, "a tree is replaced", [*header, "id"], text, named(PEOPLE, 0), before={"out.prl": BEFORE}),
    ]


# ---- faults, after which OUT is as it was, and nothing stands beside it


def refused(program, name, words, table, line, status=3, out="out.prl", more=None):
    """A table, or words, that are refused."""
    words = ["--prolly", program, *words, "table", out]
    before = {"table": table, "out.prl": BEFORE, **(more or {})}
    return Case(f"load.py: {name}", words, status=status, err=line.encode() + b"\n", before=before)


def faults(program):
    """All faults of small tables."""
    header, objects = ["--header", "--key"], ["--json-lines", "--key", "id"]
    unlike = "load.py: table: line 3: it has 1 columns, and the header names 2"
    missing = str(Path(program).with_name("no program"))
    return [
        refused(program, "no such name", [*header, "town"], b"id,name\n1,Ada\n", "load.py: table: line 1: there is no column town"),
        refused(program, "no such number", ["--key", "3"], b"1,2,3\n1,2\n", "load.py: table: line 2: there is no column 3"),
        refused(program, "no such number beside names", [*header, "3"], b"id,name\n", "load.py: table: line 1: there is no column 3"),
        refused(program, "a number that is too long", [*header, 5_000 * "1"], b"id,name\n", f"load.py: table: line 1: there is no column {5_000 * '1'}"),
        refused(program, "two columns of one name", [*header, "id"], b"id,a,a\n", "load.py: table: line 1: two columns have one name"),
        refused(program, "a row that is too short", [*header, "id"], b"id,name\n1,Ada\n2\n", unlike),
        refused(program, "a row that is too long, over two lines", [*header, "id"], b'id,name\n1,"A\nda",3\n', "load.py: table: line 3: it has 3 columns, and the header names 2"),
        refused(program, "a quote that does not end", ["--key", "1"], b'1,"Ada\n2,Grace\n', "load.py: table: line 2: unexpected end of data, in the row that begins in line 1"),
        refused(program, "a quote that does not end, of the last line", ["--key", "1"], b'1,Ada\n2,"Grace\n', "load.py: table: line 2: unexpected end of data"),
        refused(program, "a quote that does not end, above many lines", ["--key", "1"], b'1,Ada\n2,"Grace\n' + 20_000 * b"3,Alan\n", "load.py: table: line 18726: field larger than field limit (131072), in the row that begins in line 2"),
        refused(program, "a sign behind a quote", ["--key", "1"], b'1,Ada\n2,"Grace"x\n', "load.py: table: line 2: ',' expected after '\"'"),
        refused(program, "a byte that is no UTF-8", ["--key", "1"], b"1,Ada\n2,Andr\xe9\n", "load.py: table: line 2: 'utf-8' codec can't decode byte 0xe9 in position 6: invalid continuation byte"),
        refused(program, "a line that is no JSON", objects, b'{"id": "1"}\nid,name\n', "load.py: table: line 2: it is no JSON: Expecting value at column 1"),
        refused(program, "a line that is no object", objects, b'["id"]\n', "load.py: table: line 1: there is no column id"),
        refused(program, "an object without the key", objects, b'{"id": "1"}\n{"name": "1"}\n', "load.py: table: line 2: there is no column id"),
        *(refused(program, f"a key that is {key}", objects, b'{"id": %s}\n' % key.encode(), "load.py: table: line 1: the key is neither a text nor a whole number") for key in ("null", "true", "1.5", "[]")),
        refused(program, "a key that is too long", ["--key", "1"], b"1,2\n" + b"k" * 1_025 + b",2\n", "load.py: table: line 2: the key is too long"),
        refused(program, "columns that are too long", ["--key", "1"], b"1," + b"v" * 65_533 + b"\n", "load.py: table: line 1: the other columns are too long"),
        refused(program, "a key of two rows", ["--key", "1", "--unique"], b"7,a\n8,b\n7,c\n", "prolly: line 2: has the key of line 0"),
        refused(program, "a number that a float does not hold", objects, b'{"id": "1", "x": [1.50, 1e2, -0.0]}\n{"id": "2", "x": 12345678901234567890.5}\n', "load.py: table: line 2: the number 12345678901234567890.5 would become 1.2345678901234567e+19: make it a text"),
        *(refused(program, f"the exponent of {number}", objects, b'{"id": "1", "x": %s}\n' % number.encode(), f"load.py: table: line 1: the number {number} would become {float(number)}: make it a text") for number in ("1e2000000000000000000", "1e-2000000000000000000")),
        refused(program, "a name that a terminal would heed", ["--header", "--key", "a\x1b[2J\u202e"], b"id\n", "load.py: table: line 1: there is no column a\\x1b[2J\\u202e"),
        refused(program, "a number that is too large", objects, b'{"id": "1", "x": 1e400}\n', "load.py: table: line 1: the number 1e400 would become inf: make it a text"),
        *(refused(program, f"the number {name}", objects, b'{"id": "1", "x": %s}\n' % name.encode(), f"load.py: table: line 1: it is no JSON: {name}") for name in ("NaN", "-Infinity")),
        refused(program, "a name that stands twice", objects, b'{"id": "1", "x": {"a": 1, "a": 2}}\n', "load.py: table: line 1: two columns have one name"),
        refused(program, "a row that is nested too deep", objects, b'{"id": "1", "x": ' + 5_000 * b"[" + 5_000 * b"]" + b"}\n", "load.py: table: line 1: it is nested too deep"),
        refused(program, "OUT is the table", ["--key", "1"], b"1,2\n", "load.py: table: OUT is also TABLE", status=5, out="table"),
        refused(program, "OUT is of another kind", ["--key", "1"], b"1,2\n", "load.py: notes: OUT is not a chunk file", status=5, out="notes", more={"notes": b"of mine"}),
        refused(program, "OUT is a folder", ["--key", "1"], b"1,2\n", "load.py: .: OUT is no file", status=5, out="."),
        refused(program, "OUT in a folder that is not there", ["--key", "1"], b"1,2\n", "load.py: none/out.prl: No such file or directory", status=5, out="none/out.prl"),
        refused(program, "bits that are too many", ["--key", "1", "--bits", "25"], b"1,2\n", "error: invalid value '25' for '--bits <Q>': 25 is not in 0..=24\n\nFor more information, try '--help'.", status=2),
        refused(missing, "no program", ["--key", "1"], b"1,2\n", f"load.py: {missing}: No such file or directory", status=5),
        Case("load.py: no table", ["--prolly", program, "--key", "1", "table", "out.prl"], status=5, err=b"load.py: table: No such file or directory\n"),
    ]


# ---- back


def back(program, name, words, lines, out, line=b"", status=0):
    """Lines of which a table is made again."""
    return Case(f"load.py --back: {name}", ["--back", *words], lines, status=status, out=out, err=line)


def backs(program):
    """Lines that are no rows."""
    none = b"load.py: line %d: it has no value as load.py makes them\n"
    return [
        back(program, "no line", ["--key", "1"], b"", b""),
        back(program, "a name for the key, in order", ["--header", "--key", "k"], b'1\t{"a":"x,y","b":"2"}\n2\t{"a":"","b":"\xc3\xa4"}\n', 'k,a,b\n1,"x,y",2\n2,,ä\n'.encode()),
        back(program, "a number for the key", ["--key", "2"], b'1\t["a","b"]\n', b"a,1,b\n"),
        back(program, "columns that are no text", ["--header", "--key", "k"], b'1\t{"a":1.5,"b":null,"c":[true]}\n', b"k,a,b,c\n1,1.5,null,[true]\n"),
        back(program, "escapes", ["--json-lines", "--key", "k"], b'\\t\\x41\t{"a":"\\\\n\\x7f\\xc2\\x85"}\n', '{"k": "\\tA", "a": "\\n\x7f\x85"}\n'.encode()),
        back(program, "a line without a value", ["--key", "1"], b'1\t["a"]\n2\n', b"1,a\n", none % 2, 3),
        back(program, "a value that is no JSON", ["--key", "1"], b"1\ta\n", b"", none % 1, 3),
        back(program, "an escape that is none", ["--key", "1"], b'1\t["\\q"]\n', b"", none % 1, 3),
        back(program, "names where none are told", ["--key", "1"], b'1\t{"a":"1"}\n', b"", b"load.py: line 1: its columns have names\n", 3),
        back(program, "no names where they are told", ["--header", "--key", "k"], b'1\t["a"]\n', b"", b"load.py: line 1: its columns have no names\n", 3),
        back(program, "other columns", ["--header", "--key", "k"], b'1\t{"a":"1"}\n2\t{"b":"1"}\n', b"k,a\n1,1\n", b"load.py: line 2: it has other columns than the first one\n", 3),
        back(program, "another column of the key's name", ["--header", "--key", "a"], b'1\t{"a":"1"}\n', b"", b"load.py: line 1: another column has the name a\n", 3),
        back(program, "the same of JSON lines", ["--json-lines", "--key", "a"], b'1\t{"b":"1"}\n2\t{"a":"1"}\n', b'{"a": "1", "b": "1"}\n', b"load.py: line 2: another column has the name a\n", 3),
        back(program, "a number behind all columns", ["--key", "3"], b'1\t["a","b"]\n2\t["a"]\n', b"a,b,1\n", b"load.py: line 2: there is no column 3\n", 3),
        back(program, "a pair of code units", ["--json-lines", "--key", "k"], b'1\t{"a":"\\\\ud83d\\\\ude00"}\n', '{"k": "1", "a": "\U0001f600"}\n'.encode()),
        *(back(program, f"a half of one, {form}", [form, "--header", "--key", "k"], b'1\t{"a":{"b":"\\\\ud83d"}}\n', b"", none % 1, 3) for form in ("--csv", "--tsv", "--json-lines")),
        back(program, "no standard input", ["--key", "1"], None, b"", b"load.py: a file: Bad file descriptor\n", 5),
        back(program, "a backslash at the end", ["--key", "1"], b'1\\\t["a"]\n', b"", none % 1, 3),
        *(back(program, f"a key that begins with a byte order mark, {form}", [form, "--key", "1"], b'\\xef\\xbb\\xbfk\t["a"]\n\xef\xbb\xbfl\t["b"]\n', f"\ufeff\ufeffk{between}a\n\ufeffl{between}b\n".encode()) for form, between in (("--csv", ","), ("--tsv", "\t"))),
        back(program, "a tab in a cell of TSV", ["--tsv", "--key", "1"], b'1\t["a\\\\tb"]\n', b"", b"load.py: no tab-separated values: need to escape, but no escapechar set\n", 3),
    ]


# ---- random tables


def there_and_back(program, chance):
    """What is wrong with a random table that is loaded, given back, and loaded again."""
    form, has_header = chance.choice(["--csv", "--tsv", "--json-lines"]), chance.random() < 0.5
    names = chance.sample(["id", "name", "größe", "a b", '"', "x,y", "0"], chance.randrange(1, 6))
    place = chance.randrange(len(names))
    rows = [[cell(chance, form == "--tsv") for _ in names] for _ in range(chance.choice([0, 1, 2, 50]))]
    for row in rows:
        row[place] = chance.choice([row[place], str(chance.randrange(20))])
        # An empty line is no row.
        row[0] = row[0] if len(names) > 1 or row[0] else "-"
    is_named = has_header or form == "--json-lines"
    pairs = named([names, *rows], place) if is_named else unnamed(rows, place)
    words = [form, *(["--header"] if has_header else []), "--key", names[place] if is_named else str(place + 1)]
    given = table_text(form, [names, *rows] if has_header else rows, names)
    with tempfile.TemporaryDirectory() as name:
        folder = Path(name)
        (folder / "table").write_bytes(given)
        found = list(differs("loaded", ran(folder, program, words, "table", "out.prl"), report(pairs)))
        lines = subprocess.run([program, "dump", "--text", "out.prl"], cwd=folder, capture_output=True, check=False).stdout
        (folder / "again").write_bytes(ran(folder, program, ["--back", *words], given=lines))
        # The key comes first, so it has another number where it had one.
        found += differs("loaded again", ran(folder, program, words, "again", "again.prl"), report(pairs))
        found += differs("OUT", (folder / "out.prl").read_bytes(), chunk_file(pairs))
        return found + list(differs("files", sorted(path.name for path in folder.iterdir()), ["again", "again.prl", "out.prl", "table"]))


def cell(chance, is_plain):
    """The text of a column, which may have all that has to be escaped."""
    letters = 'ab\\"é\U0001f600\x01\x7f\x85 ,;' if is_plain else 'ab\\"é\U0001f600\x01\x7f\x85 ,;\t\n\r'
    return "".join(chance.choice(letters) for _ in range(chance.choice([0, 1, 3, 20])))


def table_text(form, rows, names):
    """A table in one of its forms."""
    if form == "--csv":
        return csv_text(rows)
    if form == "--tsv":
        return tsv_text(rows)
    return b"".join(json.dumps(dict(zip(names, row))).encode() + b"\n" for row in rows if row is not names)


def ran(folder, program, words, *files, given=b""):
    """What load.py prints, on either output."""
    done = subprocess.run([LOAD, "--prolly", program, *words, *files], cwd=folder, input=given, capture_output=True, check=False)
    return done.stdout + done.stderr


# ---- more rows


def in_parts(program):
    """What is wrong with a table that takes several record files, and with one of which that can't be."""
    rows = [[str(number * 3 % 7), str(number)] for number in range(10)]
    with tempfile.TemporaryDirectory() as name:
        folder = Path(name)
        (folder / "table").write_bytes(csv_text(rows))
        words = [sys.executable, "-c", IN_PARTS, "--prolly", program, "--key", "1"]
        how = {"cwd": folder, "capture_output": True, "check": False, "env": {"PYTHONPATH": str(EXAMPLES), "PYTHONDONTWRITEBYTECODE": "1"}}
        done = subprocess.run([*words, "table", "out.prl"], **how)
        found = list(differs("ten rows", (done.returncode, done.stdout, done.stderr), (0, report(unnamed(rows, 0)), b"")))
        done = subprocess.run([*words, "--unique", "table", "other.prl"], **how)
        found += differs("--unique", (done.returncode, done.stdout, done.stderr), (3, b"", b"load.py: --unique takes at most 3 rows\n"))
        return found + list(differs("files", sorted(path.name for path in folder.iterdir()), ["out.prl", "table"]))


def printed_to(program):
    """What becomes of a table to which the answer is printed, and of lines to which the table is."""
    found = []
    for words, name in ((["table", "out.prl"], "table"), (["--back"], "standard input")):
        with tempfile.TemporaryDirectory() as folder_name:
            table = Path(folder_name) / "table"
            table.write_bytes(b"1,2\n")
            with open(table, "rb") as lines, open(table, "ab") as out:
                done = subprocess.run([LOAD, "--prolly", program, "--key", "1", *words], cwd=folder_name, stdin=lines, stdout=out, stderr=subprocess.PIPE, check=False)
            found += differs(name, (done.returncode, done.stderr), (5, f"load.py: {name}: it is also standard output\n".encode()))
            found += differs("the table", table.read_bytes(), b"1,2\n")
            found += differs("files", [path.name for path in table.parent.iterdir()], ["table"])
    return found


def ended(program):
    """What is left of a run that a signal ends while it waits for more rows."""
    found = []
    for number in (signal.SIGTERM, signal.SIGHUP, signal.SIGINT):
        with tempfile.TemporaryDirectory() as name:
            folder = Path(name)
            (folder / "out.prl").write_bytes(BEFORE)
            words = [LOAD, "--prolly", program, "--key", "1", "/dev/stdin", "out.prl"]
            pipes = {"stdin": subprocess.PIPE, "stdout": subprocess.PIPE, "stderr": subprocess.PIPE}
            process = subprocess.Popen(words, cwd=folder, preexec_fn=heeded(number), **pipes)
            process.stdin.write(b"1,2\n" * 100_000)
            process.stdin.flush()
            wait_until("a file stands beside OUT", lambda: len(list(folder.iterdir())) > 1, process)
            process.send_signal(number)
            out, err = process.communicate(timeout=LONGEST)
            found += differs(number.name, (process.returncode, out, err), (128 + number, b"", b""))
            found += differs("files", [path.name for path in folder.iterdir()], ["out.prl"])
            found += differs("OUT", (folder / "out.prl").read_bytes(), BEFORE)
    return found


def heeded(number):
    """Lets a process heed a signal that who runs these tests may ignore."""
    return lambda: signal.signal(number, signal.SIG_DFL)


def streamed(program):
    """What is wrong with a table of 60 MB that is loaded in 16 MB for the sort, and little for the rows."""
    with tempfile.TemporaryDirectory() as name:
        folder = Path(name)
        with open(folder / "table.csv", "wb") as file:
            file.write(b"id,value\n")
            for number in range(LONG_ROWS):
                file.write(b'%d,"%s"\n' % (number * 7_919 % LONG_ROWS, b"v, " * 65))
        done = measured([LOAD, "--prolly", program, "--header", "--key", "id", "--memory", "16", "table.csv", "out.prl"], folder=folder)
        found = list(differs("answer", (done.status, done.out.split()[2:3], done.err), (0, [b"%d" % LONG_ROWS], b"")))
        if done.peak > 64_000_000:
            found.append(f"a peak of {done.peak / 1e6:.0f} MB")
        return found + list(differs("files", sorted(path.name for path in folder.iterdir()), ["out.prl", "table.csv"]))
