"""`--text`: keys and values as text, with the backslash escapes of PostgreSQL's COPY."""

import os
import random
import re
import subprocess
from functools import partial
from pathlib import Path

from cases.diffs import DIFFERENT, difference, stat_line
from cases.dumps import BEFORE, chained, lines
from cases.look_ups import LONG
from cases.proofs import BAD_ROOT
from cases.scratch import ABC
from oracle.escapes import as_word, escaped, respelled, text_line, text_lines
from oracle.proof import another, proof_of
from oracle.trees import REMOVED, chunk_file, record, records, reference_text, root_text, tree
from support.by_root import ALL, NO_COUNTS, Kind, refusal, turned
from support.harness import BAD_KEY, BAD_TEXT_KEY, FOLDER, Case

COPY = {rb"\b": 8, rb"\f": 12, rb"\n": 10, rb"\r": 13, rb"\t": 9, rb"\v": 11}
"""The sequences of the documentation of COPY, each with the code of the character that it stands for: backspace, form feed,
newline, carriage return, tab, vertical tab. Beside them there are `\\xdigits`, for the byte of this number, and two
backslashes for one."""

APART = b"\t\n\r\\"
"""The bytes that do not stand for themselves."""

EVERY_BYTE = [(bytes([byte]), bytes([byte])) for byte in range(256)]
"""A map with each key of one byte, whose value is that byte."""

MIXED = sorted([
    (b"", b"the empty key"),
    (b"\0", b""),
    (b"\t", b"\n"),
    (b" ", b" "),
    (b"-", b"-"),
    (b"--text", b"--"),
    (b"New York", "Größe".encode()),
    (b"\\", rb"\x41"),
    (b"\x7f", b"\x1b[0m"),
    (b"\xc3", b"caf\xe9"),
    ("é".encode(), b"\xff\xfe"),
    ("\N{GRINNING FACE}".encode(), b"\xf0\x9f\x98"),
])
"""A map of keys and values of many kinds."""


def cases(_):
    """All cases of one run."""
    return [
        *packs(),
        *copied(),
        *single_bytes(),
        *characters(),
        *bad_lines(),
        *removals(),
        *limits(),
        *outputs(),
        *key_words(),
        *bad_key_words(),
        *look_ups(),
        *look_ups_by_root(),
        *faults_of_files(),
        *dumps(),
        *diffs(),
        *proofs(),
    ]


# ---- lines that are packed


def packed(name, text, changes, *flags):
    """Lines that are packed."""
    words = ["pack", "--text", *flags, "out.rec"]
    return Case(f"pack --text: {name}", words, text, out=b"%d\n" % len(changes), after={"out.rec": records(changes)})


def refused(name, text, number, *flags, why=b"not a pair of text"):
    """Lines of which one is refused, after which OUT is empty."""
    err = b"prolly: line %d: %s\n" % (number, why)
    return Case(f"pack --text: {name}", ["pack", "--text", *flags, "out.rec"], text, status=3, err=err)


def packs():
    """Lines without escapes."""
    two = [(b"a", b"1"), (b"b", b"2")]
    return [
        packed("no line", b"", []),
        packed("two pairs", b"a\t1\nb\t2\n", two),
        packed("a last line without a newline", b"a\t1\nb\t2", two),
        packed("an empty key and an empty value", b"\t\n", [(b"", b"")]),
        packed("the same without a newline", b"\t", [(b"", b"")]),
        packed("an empty value", b"a\t\n", [(b"a", b"")]),
        packed("an empty key", b"\ta\n", [(b"", b"a")]),
        packed("spaces", b" a b \t  \n", [(b" a b ", b"  ")]),
        packed("a dash for a value", b"a\t-\n", [(b"a", b"-")]),
        packed("dashes for a key", b"--\t1\n", [(b"--", b"1")]),
        packed("digits in hexadecimal", b"61\t31\n", [(b"61", b"31")]),
        packed("keys that do not rise", b"b\t1\na\t1\na\t1\n", [(b"b", b"1"), (b"a", b"1"), (b"a", b"1")]),
        packed("quotes", b"\"a\"\t'b'\n", [(b'"a"', b"'b'")]),
        packed("a byte order mark in a later line, where it is a character", b"a\t1\n\xef\xbb\xbfa\t1\n", [(b"a", b"1"), (b"\xef\xbb\xbfa", b"1")]),
        packed("a byte order mark with an escape", b"\\xef\xbb\xbfa\t1\n", [(b"\xef\xbb\xbfa", b"1")]),
        refused("a byte order mark", b"\xef\xbb\xbfa\t1\n", 0, why=b"begins with a byte order mark"),
        refused("a byte order mark and nothing else", b"\xef\xbb\xbf", 0, "--removals", why=b"begins with a byte order mark"),
        packed("bytes that are no UTF-8", b"caf\xe9\t\xff\xc3\n", [(b"caf\xe9", b"\xff\xc3")]),
        packed("zero bytes", b"\0\0\t\0\n", [(b"\0\0", b"\0")]),
    ]


def copied():
    """The sequences of COPY, in the first column and in the second."""
    found = [packed(f"COPY's {name.decode()}", b"%s\ta%sb\n" % (name, name), [(bytes([code]), b"a%cb" % code)]) for name, code in COPY.items()]
    everything = b"".join(COPY)
    codes = bytes(COPY.values())
    return [
        *found,
        packed("all of COPY's letters", everything + b"\t" + everything, [(codes, codes)]),
        packed("COPY's two backslashes", b"\\\\\t\\\\\\\\\n", [(b"\\", b"\\\\")]),
        packed("COPY's digits", b"\\x41\t\\x0a\\xfF\n", [(b"A", b"\n\xff")]),
        packed("digits behind two digits", b"\\x411\t\\x0a0\n", [(b"A1", b"\n0")]),
        packed("letters of escapes behind two backslashes", b"\\\\t\t\\\\x41\n", [(b"\\t", b"\\x41")]),
        packed("three backslashes", b"\\\\\\t\t\\\\\\x41\n", [(b"\\\t", b"\\A")]),
        packed("a tab and a newline by their digits", b"\\x09\t\\x0A\n", [(b"\t", b"\n")]),
        packed("letters of escapes without a backslash", b"btnvfrx41\tx41\n", [(b"btnvfrx41", b"x41")]),
        *(asked(f"COPY's {name.decode()}", ["scan", b"", "1"], name + b"\t" + name + b"\n", [(bytes([code]), bytes([code]))]) for name, code in COPY.items()),
    ]


def single_bytes():
    """Each byte for a key and for a value: as it stands, by its digits, and asked for."""
    found = []
    for byte in range(256):
        own = bytes([byte])
        plain = b"%c\t%c\n" % (byte, byte)
        name = f"byte {byte:02x}"
        found.append(refused(f"{name} as it stands", plain, 0) if own in APART else packed(f"{name} as it stands", plain, [(own, own)]))
        found.append(packed(f"{name} by its digits", b"\\x%02x\t\\x%02X\n" % (byte, byte), [(own, own)]))
        found.append(asked(name, ["get", escaped(own)], escaped(own) + b"\n", EVERY_BYTE))
    return found


# ---- characters, and bytes that are none


CHARACTERS = {
    "of two bytes": "é",
    "the least of two bytes that shows": "\xa0",
    "the greatest of two bytes": "\u07ff",
    "the least of three bytes": "\u0800",
    "of three bytes": "€",
    "a separator of lines of Unicode": "\u2028",
    "the last before the surrogates": "\ud7ff",
    "the first behind the surrogates": "\ue000",
    "the character before the byte order mark": "\ufefe",
    "the mark of a replacement": "\ufffd",
    "no character, but lawful": "\uffff",
    "the least of four bytes": "\U00010000",
    "of four bytes": "\U0001f600",
    "the greatest": "\U0010ffff",
    "an accent by itself": "e\u0301",
    "of both directions": "a\u05d0\u202eb",
}
"""Characters that are printed as they stand."""

NO_CHARACTERS = {
    "a byte that goes on, and nothing before it": (b"\x80", rb"\x80"),
    "the greatest such byte": (b"\xbf", rb"\xbf"),
    "such a byte behind a character": (b"\xc3\xa9\xa9", b"\xc3\xa9" + rb"\xa9"),
    "a slash in two bytes": (b"\xc0\xaf", rb"\xc0\xaf"),
    "the greatest byte of ASCII in two": (b"\xc1\xbf", rb"\xc1\xbf"),
    "a zero byte in two": (b"\xc0\x80", rb"\xc0\x80"),
    "the least of three bytes that two have": (b"\xe0\x80\x80", rb"\xe0\x80\x80"),
    "the greatest of three bytes that two have": (b"\xe0\x9f\xbf", rb"\xe0\x9f\xbf"),
    "the least of four bytes that three have": (b"\xf0\x80\x80\x80", rb"\xf0\x80\x80\x80"),
    "the greatest of four bytes that three have": (b"\xf0\x8f\xbf\xbf", rb"\xf0\x8f\xbf\xbf"),
    "the first surrogate": (b"\xed\xa0\x80", rb"\xed\xa0\x80"),
    "the last surrogate": (b"\xed\xbf\xbf", rb"\xed\xbf\xbf"),
    "two surrogates for one character": (b"\xed\xa0\xbd\xed\xb8\x80", rb"\xed\xa0\xbd\xed\xb8\x80"),
    "one above the greatest": (b"\xf4\x90\x80\x80", rb"\xf4\x90\x80\x80"),
    "a first byte above all": (b"\xf5\x80\x80\x80", rb"\xf5\x80\x80\x80"),
    "five bytes": (b"\xf8\x88\x80\x80\x80", rb"\xf8\x88\x80\x80\x80"),
    "bytes that UTF-8 never has": (b"\xfe\xff", rb"\xfe\xff"),
    "one of two bytes": (b"\xc3", rb"\xc3"),
    "one of three bytes": (b"\xe2", rb"\xe2"),
    "two of three bytes": (b"\xe2\x82", rb"\xe2\x82"),
    "one of four bytes": (b"\xf0", rb"\xf0"),
    "two of four bytes": (b"\xf0\x9f", rb"\xf0\x9f"),
    "three of four bytes": (b"\xf0\x9f\x98", rb"\xf0\x9f\x98"),
    "a cut character, and a letter": (b"\xe2\x82A", rb"\xe2\x82A"),
    "a cut character, and another one": (b"\xe2\x82\xc3\xa9", rb"\xe2\x82" + b"\xc3\xa9"),
    "a cut character, and the whole one": (b"\xe2\x82\xe2\x82\xac", rb"\xe2\x82" + b"\xe2\x82\xac"),
    "two cut characters": (b"\xf0\x9f\x98\xe2\x82", rb"\xf0\x9f\x98\xe2\x82"),
    "a cut character, and a backslash": (b"\xc3\\", rb"\xc3\\"),
    "a cut character, and a tab": (b"\xf0\x9f\t", rb"\xf0\x9f\t"),
    "a cut character, and a zero byte": (b"\xe2\0", rb"\xe2\x00"),
    "a cut character, and digits": (b"\xc3x41", rb"\xc3x41"),
    "another third byte": (b"\xe2\x82\xc0", rb"\xe2\x82\xc0"),
    "another second byte": (b"\xe0\xc3\xa9", rb"\xe0" + b"\xc3\xa9"),
    "a word of Latin-1": (b"caf\xe9 noir", rb"caf\xe9 noir"),
    "two bytes a letter": (b"\xff\xfea\0", rb"\xff\xfea\x00"),
}
"""Bytes that are not all characters, with their text."""

CONTROLS = {
    "each that has a letter": (b"\b\t\n\v\f\r", rb"\b\t\n\v\f\r"),
    "the least, and the greatest that is less than a space": (b"\0\x1f ", rb"\x00\x1f "),
    "the bell, and the one that deletes": (b"\a\x7f", rb"\x07\x7f"),
    "a sequence of a terminal": (b"\x1b[31mred", rb"\x1b[31mred"),
    "the least of two bytes": (b"\xc2\x80", rb"\xc2\x80"),
    "a newline of Unicode": (b"\xc2\x85", rb"\xc2\x85"),
    "the same of a terminal, in one character": (b"\xc2\x9b31mred", rb"\xc2\x9b31mred"),
    "the greatest control character, and the character behind it": (b"\xc2\x9f\xc2\xa0", rb"\xc2\x9f" + b"\xc2\xa0"),
    "the bytes of one in a character of three": (b"\xe2\x9b\x85\xc2\x9b", b"\xe2\x9b\x85" + rb"\xc2\x9b"),
    "a cut character, and a control character": (b"\xe2\x82\xc2\x9b", rb"\xe2\x82\xc2\x9b"),
    "a first byte, and a control character": (b"\xc2\xc2\x85", rb"\xc2\xc2\x85"),
    "a byte order mark": (b"\xef\xbb\xbf", rb"\xef\xbb\xbf"),
    "a byte order mark in the middle": (b"a\xef\xbb\xbfb", rb"a\xef\xbb\xbfb"),
    "a cut character, and a byte order mark": (b"\xef\xbb\xef\xbb\xbf", rb"\xef\xbb\xef\xbb\xbf"),
    "two line ends": (b"a\r\nb\r\n", rb"a\r\nb\r\n"),
    "a backslash, and one behind it": (b"\\\\n", rb"\\\\n"),
    "what looks like an escape": (rb"\x41\t", rb"\\x41\\t"),
}
"""Control characters, byte order marks and backslashes, with their text."""


def characters():
    """Characters and bytes that are none, written and read; not in the first line, where a byte order mark is refused."""
    table = {name: (text.encode(), text.encode()) for name, text in CHARACTERS.items()} | NO_CHARACTERS | CONTROLS
    found = []
    for name, (data, text) in table.items():
        # The second writer is compared with what stands here.
        assert escaped(data) == text, name
        found += [
            asked(f"{name}, as a key", ["get", text], b"1\n", [(data, b"1")]),
            asked(f"{name}, as a value", ["get", "a"], text + b"\n", [(b"a", data)]),
            packed(f"{name}, as it is printed", b"a\t\n" + text + b"\t" + text + b"\n", [(b"a", b""), (data, data)]),
        ]
        if not any(byte in APART for byte in data):
            found.append(packed(f"{name}, as it stands", b"a\t\n" + data + b"\t" + data + b"\n", [(b"a", b""), (data, data)]))
    return found


# ---- lines that are bad


BAD_ESCAPES = [
    b"\\",
    *(b"\\" + letter for letter in (b"a", b"e", b"0", b"N", b".", b" ", b'"', b"'", b"/", b"B", b"T", b"X41", b"-", b"\0", b"\x7f", "é".encode(), b"\xff")),
    *(b"\\" + digits for digits in (b"101", b"11", b"u0041", b"U00000041", b"{41}")),
    *(b"\\x" + digits for digits in (b"", b"4", b"g1", b"4g", b" 41", b"+4", b"4 ", b"0x41", b"{41}", b"-1", b"\\x41", b"\xff1")),
    b"\\\\\\",
]
"""Texts with a backslash that begins no escape."""


def bad_lines():
    """Lines that are no pair, with the number of the first of them."""
    pairs = [
        ("no tab", b"a\n"),
        ("no tab and no newline", b"a"),
        ("an empty line", b"\n"),
        ("an empty line behind the last", b"\n\n"),
        ("a pair in hexadecimal", b"61 31\n"),
        ("spaces for a tab", b"a    1\n"),
        ("a second tab", b"a\tb\tc\n"),
        ("a tab at the end", b"a\tb\t\n"),
        ("a tab at the begin", b"\ta\tb\n"),
        ("two tabs and nothing else", b"\t\t\n"),
        ("a carriage return before the newline", b"a\tb\r\n"),
        ("a carriage return at the end", b"a\tb\r"),
        ("a carriage return in a key", b"a\rb\tc\n"),
        ("carriage returns for newlines", b"a\tb\rc\td\r"),
        ("a backslash before the newline", b"a\tb\\\nc\td\n"),
        ("a backslash before the tab", b"a\\\tb\n"),
        ("digits with a tab between", b"\\x4\t1\n"),
    ]
    found = [refused(name, text, 0) for name, text in pairs]
    for escape in BAD_ESCAPES:
        found.append(refused(f"{escape!r} in a value", b"a\t" + escape + b"\n", 0))
        found.append(refused(f"{escape!r} in a key, and removals", b"c" + escape + b"\td\n", 0, "--removals"))
        found.append(refused(f"{escape!r} at the end", b"a\tb\nc\td" + escape, 1))
    good = b"a\t1\nb\t2\n"
    return found + [
        refused("a blank line behind good ones", good + b"\n", 2),
        refused("the first of two bad lines", b"a\t1\nb\nc\n", 1),
        refused("a bad line before a long key", b"a\n" + b"k" * 1025 + b"\t1\n", 0),
        refused("a long key before a bad line", b"k" * 1025 + b"\t1\na\n", 0, why=b"key too long"),
        refused("a line of 1,000", b"a\tb\n" * 999 + b"a\n" + b"a\tb\n", 999),
        Case("pack: text that was not told", ["pack", "out.rec"], good, status=3, err=b"prolly: line 0: not a pair in hexadecimal\n"),
    ]


# ---- removals


def removals():
    """Lines that are a key alone."""
    everything = [(b"a", b"1"), (b"b", REMOVED), (b"c", b""), (b"d", REMOVED)]
    text = b"a\t1\nb\nc\t\nd\n"
    return [
        packed("a removal", b"a\n", [(b"a", REMOVED)], "--removals"),
        packed("a removal without a newline", b"a", [(b"a", REMOVED)], "--removals"),
        packed("a removal of the empty key", b"\n", [(b"", REMOVED)], "--removals"),
        packed("no removal", b"", [], "--removals"),
        packed("removals and pairs", text, everything, "--removals"),
        packed("a removal of a key with escapes", b"\\t\\x00\n", [(b"\t\0", REMOVED)], "--removals"),
        packed("a removal of a dash", b"-\n", [(b"-", REMOVED)], "--removals"),
        packed("pairs where removals may be", b"a\t-\nb\t\n", [(b"a", b"-"), (b"b", b"")], "--removals"),
        packed("removals of each byte", b"".join(escaped(key) + b"\n" for key, _ in EVERY_BYTE), [(key, REMOVED) for key, _ in EVERY_BYTE], "--removals"),
        refused("a removal that was not told", text, 1),
        refused("a removal of the empty key that was not told", b"\n", 0),
        refused("two tabs where removals may be", b"a\nb\tc\td\n", 1, "--removals"),
        refused("a carriage return where removals may be", b"a\r\n", 0, "--removals"),
        refused("a removal of a bad key", b"a\n\\q\n", 1, "--removals"),
        Case("pack --removals: a removal in hexadecimal", ["pack", "--removals", "out.rec"], b"61 -\n62 31\n", out=b"2\n", after={"out.rec": records([(b"a", REMOVED), (b"b", b"1")])}),
        Case("pack --removals: a key alone in hexadecimal", ["pack", "--removals", "out.rec"], b"61\n", status=3, err=b"prolly: line 0: not a pair in hexadecimal\n"),
        Case("pack --text --removals behind OUT", ["pack", "out.rec", "--removals", "--text"], b"a\n", out=b"1\n", after={"out.rec": record(b"a", REMOVED)}),
    ]


# ---- limits, which count bytes and not their text


def limits():
    """Keys and values at their limits, and past them."""
    key, value = b"k" * 1_024, b"v" * 65_536
    accents = "é".encode()
    long_key, long_value = {"why": b"key too long"}, {"why": b"value too long"}
    return [
        packed("the greatest pair", key + b"\t" + value + b"\n", [(key, value)]),
        packed("the greatest pair by its digits", b"\\x00" * 1_024 + b"\t" + b"\\xff" * 65_536 + b"\n", [(bytes(1_024), b"\xff" * 65_536)]),
        packed("the greatest pair of escapes", b"\\t" * 1_024 + b"\t" + b"\\\\" * 65_536, [(b"\t" * 1_024, b"\\" * 65_536)]),
        packed("the greatest pair of characters", accents * 512 + b"\t" + accents * 32_768 + b"\n", [(accents * 512, accents * 32_768)]),
        packed("the greatest removal", b"\\xaa" * 1_024 + b"\n", [(b"\xaa" * 1_024, REMOVED)], "--removals"),
        refused("a key of 1,025 bytes", key + b"k\t1\n", 0, **long_key),
        refused("a key of 1,025 bytes by their digits", b"a\tb\n" + b"\\x00" * 1_025 + b"\t1\n", 1, **long_key),
        refused("a key of 513 characters of two bytes", accents * 513 + b"\t1\n", 0, **long_key),
        refused("a removal of 1,025 bytes", b"a\n" + key + b"k\n", 1, "--removals", **long_key),
        refused("a value of 65,537 bytes", b"a\t" + value + b"v\n", 0, **long_value),
        refused("a value of 65,537 bytes by their digits", b"a\t" + b"\\x00" * 65_537, 0, **long_value),
        refused("a value of 65,537 backslashes", b"a\t" + b"\\\\" * 65_537, 0, **long_value),
        refused("a value of 32,769 characters of two bytes", b"a\t" + accents * 32_769 + b"\n", 0, **long_value),
        refused("both too long", key + b"k\t" + value + b"v\n", 0, **long_key),
        refused("a long key, and a bad value", key + b"k\t\\q\n", 0),
        refused("a long value with a bad end", b"a\t" + value + b"v\\\n", 0),
        asked("the greatest pair", ["get", LONG[0][0]], LONG[0][1] + b"\n", LONG),
        asked("the greatest pair of escapes", ["scan", b"", "1"], b"\\x00" * 1_024 + b"\t" + b"\\xff" * 65_536 + b"\n", [(bytes(1_024), b"\xff" * 65_536)]),
        asked("the greatest key by its digits", ["get", b"\\x00" * 1_024], b"1\n", [(bytes(1_024), b"1")]),
    ]


# ---- what becomes of OUT


def outputs():
    """OUT where it can't be written, and after a fault."""
    words, good, bad = ["pack", "--text", "out.rec"], b"a\t1\n", b"a\t1\nb\n"
    is_bad = {"status": 3, "err": b"prolly: line 1: not a pair of text\n"}
    no_write = {"status": 5, "err": b"prolly: write failed\n"}
    unread = {"status": 5, "err": b"prolly: file 0: read failed\n"}
    before = {"out.rec": BEFORE}
    made = {"out.rec": record(b"a", b"1")}
    return [
        Case("pack --text: a file that is there is replaced", words, good, out=b"1\n", before=before, after=made),
        Case("pack --text: the same by a file beside it", [*words, "--atomic", "--sync"], good, out=b"1\n", before=before, after=made),
        Case("pack --text: OUT is as it was after a fault", words, bad, before=before, **is_bad),
        Case("pack --text --atomic: OUT is as it was", [*words, "--atomic"], bad, before=before, **is_bad),
        Case("pack --text: no OUT, and none is left", words, bad, **is_bad),
        Case("pack --text: OUT is a full device", ["pack", "--text", "/dev/full"], good, **no_write),
        Case("pack --text: standard output is full", words, good, after=made, stdout="full", **no_write),
        Case("pack --text: OUT is a folder", ["pack", "--text", "out"], good, status=5, err=b"prolly: cannot open out\n", before={"out": FOLDER}),
        Case("pack --text: an input that can't be read", words, Path("."), **unread),
        Case("pack --text: a closed input", words, None, **unread),
        Case("pack --text: not enough memory", words, b"a\t1\n" * 6_000_000, status=6, err=b"prolly: out of memory\n", memory=24_000_000),
    ]


# ---- words for keys, and what is printed


def asked(name, words, out, pairs=MIXED, version=1, status=0):
    """A look-up by text in a lawful file. The words are those behind the file's name."""
    command, *rest = words
    return Case(f"{command} --text: {name}", [command, "--text", "in.prl", *rest], status=status, out=out, before={"in.prl": chunk_file(pairs, 0, version)})


def key_words():
    """Words for keys: with escapes, and without where they need none."""
    city, dash = b"Gr\xc3\xb6\xc3\x9fe\n", {"in.prl": chunk_file(MIXED, 0)}
    return [
        asked("a space", ["get", "New York"], city),
        asked("digits for letters", ["get", "\\x4eew\\x20York"], city),
        asked("upper case of digits", ["get", "\\x4E\\x65w York"], city),
        asked("a character by its digits", ["get", "\\xc3\\xa9"], b"\\xff\\xfe\n"),
        asked("a character as it stands", ["get", "é"], b"\\xff\\xfe\n"),
        asked("a byte that is none", ["get", "\\xc3"], b"caf\\xe9\n"),
        asked("a tab by its letter", ["get", "\\t"], b"\\n\n"),
        asked("a tab by its digits", ["get", "\\x09"], b"\\n\n"),
        asked("two backslashes", ["get", "\\\\"], b"\\\\x41\n"),
        asked("a zero byte", ["get", "\\x00"], b"\n"),
        asked("a control character as it stands", ["get", "\x7f"], b"\\x1b[0m\n"),
        asked("the empty key", ["get", ""], b"the empty key\n"),
        asked("a key in hexadecimal is another one", ["get", "2d"], b"", status=1),
        Case("get --text: a dash by its digits", ["get", "--text", "in.prl", "\\x2d"], out=b"-\n", before=dash),
        Case("get --text: a dash behind two", ["get", "--text", "--", "in.prl", "-"], out=b"-\n", before=dash),
        Case("get --text: a flag for a key", ["get", "--text", "--", "in.prl", "--text"], out=b"--\n", before=dash),
        Case("get --text: the flag behind all", ["get", "in.prl", "-", "--text"], out=b"-\n", before=dash),
        Case("get: a key of text that was not told", ["get", "in.prl", "New York"], status=2, err=BAD_KEY, before=dash),
    ]


BAD_KEYS = {
    "a tab": b"a\tb",
    "a newline": b"a\n",
    "a carriage return": b"\r",
    "a backslash": b"\\",
    "a backslash at the end": b"a\\",
    "another letter": b"\\q",
    "one digit": b"\\x4",
    "no digit": b"a\\xg0",
    "digits in base eight": b"\\101",
    "1,025 bytes": b"k" * 1_025,
    "1,025 bytes by their digits": b"\\x00" * 1_025,
    "513 characters of two bytes": "é".encode() * 513,
    "a long key with a bad end": b"k" * 2_000 + b"\\",
}


def bad_key_words():
    """Words that are no text of a key. They are told before a file that is not there, and a bad root before them."""
    root = reference_text(tree(ABC, 0, 1).reference)
    before = {"in.prl": chunk_file(ABC, 0), "p": proof_of(tree(ABC, 0, 1), b"a", 1)}
    wrong = {"status": 2, "err": BAD_TEXT_KEY, "before": before}
    found = []
    for name, word in BAD_KEYS.items():
        found += [
            Case(f"get --text: {name}", ["get", "--text", "in.prl", word], **wrong),
            Case(f"get --text --root: {name}", ["get", "--text", "--root", root, "in.prl", word], **wrong),
            Case(f"scan --text: {name}", ["scan", "--text", "in.prl", word, "1"], **wrong),
            Case(f"scan --text --root: {name}", ["scan", "--text", "--root", root, "in.prl", word, "1"], **wrong),
            Case(f"prove --text: {name}", ["prove", "--text", "in.prl", word, "out"], **wrong),
            Case(f"verify --text: {name}", ["verify", "--text", root, word, "p"], **wrong),
        ]
    no_text = {"status": 2, "err": b"prolly: a word is not UTF-8\n", "before": before}
    return [
        *found,
        Case("get --text: a bad key, and no file", ["get", "--text", "none", "\\"], status=2, err=BAD_TEXT_KEY),
        Case("get --text: a bad root and a bad key", ["get", "--text", "--root", "r", "in.prl", "\\"], status=2, err=BAD_ROOT, before=before),
        Case("verify --text: a bad root and a bad key", ["verify", "--text", "r", "\\", "p"], status=2, err=BAD_ROOT, before=before),
        Case("get --text: a key that is no UTF-8", ["get", "--text", "in.prl", b"\xff"], **no_text),
        Case("verify --text: a key that is no UTF-8", ["verify", "--text", root, b"caf\xe9", "p"], **no_text),
    ]


def look_ups():
    """What `get`, `scan` and `nth` print of a file."""
    last = len(MIXED) - 1
    found = [asked(f"{key!r}", ["get", as_word(key)], escaped(value) + b"\n") for key, value in MIXED]
    found += [asked(f"number {number}", ["nth", str(number)], text_line(pair), version=2) for number, pair in enumerate(MIXED)]
    return found + [
        asked("an empty value", ["get", "a"], b"\n", [(b"a", b"")]),
        asked("no value", ["get", "a"], b"", status=1),
        asked("no value in the empty map", ["get", "\\t"], b"", [], status=1),
        asked("all pairs", ["scan", "", "100"], text_lines(MIXED)),
        asked("all pairs in format 2", ["scan", "", "100"], text_lines(MIXED), version=2),
        asked("no pair", ["scan", "", "0"], b""),
        asked("from a key with an escape on", ["scan", "\\\\", "2"], text_lines([pair for pair in MIXED if pair[0] >= b"\\"][:2])),
        asked("from between two keys", ["scan", "\\x09\\x00", "1"], b" \t \n"),
        asked("from behind all keys", ["scan", "\\xff", "9"], b""),
        asked("an empty key and an empty value", ["scan", "", "9"], b"\t\n", [(b"", b"")]),
        asked("each byte", ["scan", "", "1000"], text_lines(EVERY_BYTE), EVERY_BYTE),
        asked("past the last pair", ["nth", str(last + 1)], b"", version=2, status=1),
        Case("nth --text: format 1", ["nth", "--text", "in.prl", "0"], status=4, err=NO_COUNTS[2], before={"in.prl": chunk_file(MIXED, 0)}),
        Case("get --text: with all flags", ["get", "--text", "--format", "2", "in.prl", " "], out=b" \n", before={"in.prl": chunk_file(MIXED, 0)}),
    ]


def look_ups_by_root():
    """What they print by the root."""
    found = []
    for version in (1, 2):
        kind = Kind(MIXED, 0, version)
        flags = ["--text", "--root", reference_text(kind.root), "--format", str(version), "--", "in.prl"]
        before = {"in.prl": kind.content}
        for number, (key, value) in enumerate(MIXED):
            name = f"--text --root: {key!r}, format {version}"
            found.append(Case(f"get {name}", ["get", *flags, escaped(key)], out=escaped(value) + b"\n", before=before))
            found.append(Case(f"scan {name}", ["scan", *flags, escaped(key), "3"], out=text_lines(MIXED[number : number + 3]), before=before))
            if version == 2:
                found.append(Case(f"nth {name}", ["nth", *flags, str(number)], out=text_line((key, value)), before=before))
        found += [
            Case(f"get --text --root: no value, format {version}", ["get", *flags, "a"], status=1, before=before),
            Case(f"scan --text --root: all pairs, format {version}", ["scan", *flags, "", str(ALL)], out=text_lines(MIXED), before=before),
            Case(f"scan --text --root: from a key that is not there, format {version}", ["scan", *flags, "\\x7f\\x7f", "1"], out=text_line((b"\xc3", b"caf\xe9")), before=before),
        ]
    return found


def faults_of_files():
    """Files that are refused, and lines that can't be printed: what stands before a fault by the root is right, and stays."""
    kind = Kind(MIXED, 0, 1)
    last = kind.way(MIXED[-1][0])[-1]
    spoiled = turned(kind.content, kind.place(last) + 9, 1)
    by_root = ["--text", "--root", reference_text(kind.root), "in.prl"]
    not_one = refusal(another(last))[2]
    cut = {"status": 4, "err": b"prolly: chunk file: truncated\n", "before": {"in.prl": kind.content[:-1]}}
    full = {"status": 5, "err": b"prolly: write failed\n", "before": {"in.prl": kind.content}, "stdout": "full"}
    return [
        Case("scan --text --root: a bad leaf behind good ones", ["scan", *by_root, "", str(ALL)], status=4, out=text_lines(MIXED[:-1]), err=not_one, before={"in.prl": spoiled}),
        Case("get --text --root: a bad leaf", ["get", *by_root, escaped(MIXED[-1][0])], status=4, err=not_one, before={"in.prl": spoiled}),
        Case("nth --text --root: no counts", ["nth", *by_root, "0"], status=4, err=NO_COUNTS[2], before={"in.prl": kind.content}),
        *(Case(f"{words[0]} --text: a file that is cut", words, **cut) for words in printing()),
        *(Case(f"{words[0]} --text: standard output is full", words, **full) for words in printing()),
    ]


def printing():
    """Words that print text of a file."""
    return [["get", "--text", "in.prl", "New York"], ["scan", "--text", "in.prl", "", "9"], ["dump", "--text", "in.prl"]]


# ---- dumps, differences and proofs


MARKED = rb"\xef\xbb\xbfa" + b"\t1\n"
"""The line of a key that begins with a byte order mark."""


def dumps():
    """A chunk file as lines. With both flags these are text."""
    before = {"in.prl": chunk_file(MIXED, 0)}
    told = text_lines(MIXED)
    both = [["dump", "--text", "--hex", "in.prl"], ["dump", "--hex", "--text", "in.prl"], ["dump", "in.prl", "--text", "--hex"]]
    return [
        *(Case(f"dump: {' '.join(words[1:])}", words, out=told, before=before) for words in both),
        Case("dump --text: many kinds of pairs", ["dump", "--text", "in.prl"], out=told, before=before),
        Case("dump --text: a first key that begins with a byte order mark", ["dump", "--text", "in.prl"], out=MARKED, before={"in.prl": chunk_file([(b"\xef\xbb\xbfa", b"1")], 3)}),
        packed("such a key, as it is printed", MARKED, [(b"\xef\xbb\xbfa", b"1")]),
        Case("dump --text: each byte", ["dump", "--text", "in.prl"], out=text_lines(EVERY_BYTE), before={"in.prl": chunk_file(EVERY_BYTE, 3, 2)}),
        Case("dump --hex: many kinds of pairs", ["dump", "--hex", "in.prl"], out=lines(MIXED), before=before),
        Case("dump --text: to a file, with both flags", ["dump", "--hex", "--text", "--atomic", "--sync", "in.prl", "out"], before=before, after={"out": told}),
        Case("dump: a record file", ["dump", "in.prl"], out=records(MIXED), before=before),
    ]


def diffs():
    """What changed, as text. With `--out` or `--stat` the flag says nothing."""
    old = [*MIXED[::2], (b"\xff\t", b"gone")]
    changes = difference(old, MIXED)
    before = {"old.prl": chunk_file(old, 0), "new.prl": chunk_file(MIXED, 0)}
    words = ["diff", "--text", "old.prl", "new.prl"]
    told = {"status": DIFFERENT, "before": before}
    counted = stat_line(old, MIXED, (0, 1), (0, 1))
    return [
        Case("diff --text: many kinds of changes", words, out=text_lines(changes), **told),
        Case("diff --text: all the other way", ["diff", "new.prl", "old.prl", "--text"], out=text_lines(difference(MIXED, old)), **told),
        Case("diff --text: to a file", [*words, "--out", "d.rec"], after={"d.rec": records(changes)}, **told),
        Case("diff --text: counted", [*words, "--stat"], out=counted, **told),
        Case("diff --text: counted, and to a file", [*words, "--stat", "--out", "d.rec"], out=counted, after={"d.rec": records(changes)}, **told),
        Case("diff --text: equal maps", ["diff", "--text", "new.prl", "new.prl"], before=before),
        Case("diff --text: the empty key is taken away", ["diff", "--text", "a.prl", "b.prl"], status=DIFFERENT, out=b"\n", before={"a.prl": chunk_file([(b"", b"1"), *ABC]), "b.prl": chunk_file(ABC)}),
        Case("diff --text: an empty value is put", ["diff", "--text", "b.prl", "a.prl"], status=DIFFERENT, out=b"\t\n", before={"a.prl": chunk_file([(b"", b""), *ABC]), "b.prl": chunk_file(ABC)}),
        Case("diff --text: each byte is taken away", ["diff", "--text", "a.prl", "b.prl"], status=DIFFERENT, out=b"".join(escaped(key) + b"\n" for key, _ in EVERY_BYTE), before={"a.prl": chunk_file(EVERY_BYTE), "b.prl": chunk_file([])}),
    ]


def proofs():
    """Proofs of keys that are text, and what they show as text. A proof is the same, however its key was given."""
    found = []
    for version in (1, 2):
        top = tree(MIXED, 0, version)
        before = {"in.prl": chunk_file(MIXED, 0, version)}
        root = ["--format", str(version), "--", reference_text(top.reference)]
        for key, value in MIXED:
            proof, name = proof_of(top, key, version), f"{key!r}, format {version}"
            found += [
                Case(f"prove --text: {name}", ["prove", "--text", "--", "in.prl", escaped(key), "p"], before=before, after={"p": proof}),
                Case(f"verify --text: {name}", ["verify", "--text", *root, escaped(key), "p"], out=escaped(value) + b"\n", before={"p": proof}),
                Case(f"verify: {name}, in hexadecimal", ["verify", *root, key.hex(), "p"], out=value.hex().encode() + b"\n", before={"p": proof}),
            ]
        none = proof_of(top, b"a\t", version)
        found += [
            Case(f"prove --text: no value, format {version}", ["prove", "--text", "in.prl", "a\\t", "p"], before=before, after={"p": none}),
            Case(f"verify --text: no value, format {version}", ["verify", "--text", *root, "a\\t"], none, status=1),
            Case(f"verify --text: the proof of another key, format {version}", ["verify", "--text", *root, "\\t"], proof_of(top, MIXED[-1][0], version), status=4, err=b"prolly: proof: " + another(1).encode() + b"\n"),
        ]
    return found


# ---- there and back


EDGES = bytes.fromhex("00 08 09 0a 0d 1f 20 41 5c 7e 7f 80 8f 90 9f a0 bf c0 c1 c2 c3 df e0 e1 ec ed ee ef f0 f1 f3 f4 f5 ff")
"""Bytes at which what UTF-8 and text allow begins or ends."""


def some_bytes(chance):
    """Bytes of one of many mixes."""
    size = chance.randrange(chance.choice([2, 5, 40]))
    kind = chance.randrange(5)
    if kind == 0:
        return chance.randbytes(size)
    if kind == 1:
        return bytes(chance.choice(EDGES) for _ in range(size))
    if kind == 2:
        return bytes(chance.choice(b"\\\\xx0419btnvfr\t\n\r -") for _ in range(size))
    text = "".join(chr(chance.choice([chance.randrange(0x80), chance.randrange(0x80, 0xD800), chance.randrange(0xE000, 0x110000)])) for _ in range(size)).encode()
    if kind == 3 or not text:
        return text
    # A byte of a character is missing.
    place = chance.randrange(len(text))
    return text[:place] + text[place + 1 :]


def some_map(chance):
    """A map of such keys and values."""
    return sorted({some_bytes(chance): some_bytes(chance) for _ in range(chance.choice([1, 5, 40, 200]))}.items())


def as_it_stands(data):
    """A text for bytes in which no more is escaped than has to be."""
    return re.sub(rb"[\\\t\n\r]", lambda found: escaped(found[0]), data)


def is_read_as_written(place, pairs, chance):
    """Lines of text are those of the map, and are read as its pairs, however they are written."""
    told, made = text_lines(pairs), records(pairs)
    place.lay(in_prl=chunk_file(pairs, chance.choice([0, 2, 12]), chance.choice([1, 2])))
    place.answers(place.run("dump", "--text", "in.prl"), (0, told, b""))
    place.answers(place.run("scan", "--text", "in.prl", "", str(ALL)), (0, told, b""))
    spellings = [
        told,
        b"".join(respelled(chance, key) + b"\t" + respelled(chance, value) + b"\n" for key, value in pairs),
        b"".join(as_it_stands(key) + b"\t" + as_it_stands(value) + b"\n" for key, value in pairs),
    ]
    for text in spellings:
        flags = chance.choice([[], ["--removals"]])
        place.answers(place.run("pack", "--text", *flags, "out.rec", stdin=text), (0, b"%d\n" % len(pairs), b""))
        place.holds(in_prl=None, out_rec=made)
    for key, value in chance.sample(pairs, min(8, len(pairs))):
        place.answers(place.run("get", "--text", "--", "in.prl", respelled(chance, key)), (0, escaped(value) + b"\n", b""))


def is_changed_as_written(place, old, new):
    """The changes from a map to another, as lines of text, are packed to the record file of the changes; and the pairs, as
    lines of text, to that of the pairs."""
    changes, status = difference(old, new), DIFFERENT if old != new else 0
    place.lay(a_prl=chunk_file(old, 2), b_prl=chunk_file(new, 1, 2))
    told = place.run("diff", "--text", "a.prl", "b.prl")
    place.answers(told, (status, text_lines(changes), b""))
    place.answers(place.run("pack", "--text", "--removals", "told.rec", stdin=told[1]), (0, b"%d\n" % len(changes), b""))
    place.answers(place.run("diff", "a.prl", "b.prl", "--out", "d.rec"), (status, b"", b""))
    pairs = place.run("dump", "--text", "a.prl")[1]
    place.answers(place.run("pack", "--text", "a.rec", stdin=pairs), (0, b"%d\n" % len(old), b""))
    place.answers(place.run("dump", "a.prl", "dumped.rec"), (0, b"", b""))
    place.holds(a_prl=None, b_prl=None, told_rec=records(changes), d_rec=records(changes), a_rec=records(old), dumped_rec=records(old))


def some_changes(chance, pairs):
    """A map that differs from another one in some keys."""
    found = {key: value for key, value in pairs if chance.random() < 0.8}
    return sorted((found | dict(some_map(chance)[:10])).items())


# ---- the order of `sort`


def is_sorted_as(place, keys, command, is_right):
    """Whether lines of text, sorted so, come in the order of their keys. `scratch` refuses them where they do not."""
    pairs = [(key, b"%d" % number) for number, key in enumerate(keys)]
    text = b"".join(as_it_stands(key) + b"\t" + as_it_stands(value) + b"\n" for key, value in pairs)
    done = subprocess.run(command, input=text, env={**os.environ, "LC_ALL": "C"}, capture_output=True, check=True)
    place.answers(place.run("pack", "--text", "out.rec", stdin=done.stdout), (0, b"%d\n" % len(pairs), b""))
    answer = place.run("scratch", stdin=place.path("out.rec").read_bytes())
    if is_right:
        place.answers(answer, (0, root_text(sorted(pairs)), b""))
    elif answer[0] != 3 or not answer[2].endswith(b": key out of order\n"):
        place.note(f"status {answer[0]}, standard error {answer[2]!r}")


def orders():
    """Keys, what sorts their lines, and whether that is the order of the keys."""
    chance = random.Random(44)
    plain = list({bytes(chance.choice(range(0x20, 0x100)) for _ in range(chance.randrange(6))).replace(b"\\", b"") for _ in range(2_000)})
    low = [b"a", b"a\1", b"a\1b", b"ab", b"a b", b"a\0", b"b", b""]
    by_line, by_key = ["sort"], ["sort", "-t", "\t", "-k1,1"]
    yield "keys without escapes, by lines", plain, by_line, True
    yield "keys without escapes, by keys", plain, by_key, True
    yield "keys with bytes below the tab, by lines", low, by_line, False
    yield "keys with bytes below the tab, by keys", low, by_key, True
    yield "keys with escapes, by lines", [b"a\tb", b"aB", b"a"], by_line, False
    yield "keys with escapes, by keys", [b"a\tb", b"aB", b"a"], by_key, False


def all_runs(program, _):
    """Runs the chains, each in a folder of its own, and gives for each its name and its differences."""
    for number in range(40):
        chance = random.Random(f"text {number}")
        pairs = some_map(chance)
        changed = some_changes(chance, pairs)
        yield f"--text, and back: map {number}", chained(program, partial(is_read_as_written, pairs=pairs, chance=chance))
        yield f"diff --text, and back: map {number}", chained(program, partial(is_changed_as_written, old=pairs, new=changed))
    for name, old, new in (("to nothing", MIXED, []), ("from nothing", [], MIXED), ("each byte", EVERY_BYTE, MIXED), ("nothing", MIXED, MIXED), ("the greatest pair", LONG, ABC)):
        yield f"diff --text, and back: {name}", chained(program, partial(is_changed_as_written, old=old, new=new))
    for name, *order in orders():
        yield f"sorted: {name}", chained(program, lambda place, order=order: is_sorted_as(place, *order))
