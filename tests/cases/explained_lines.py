"""`explain --lines`: where and why lines would not be packed."""

import random
import re

from oracle.escapes import escaped
from oracle.readings import KEY_LIMIT, VALUE_LIMIT, packed
from support.harness import Case

MARK = b"\xef\xbb\xbf"
"""A byte order mark."""

MOST = 100
"""How many faulty lines are explained at most."""

SHOWN_BYTES = 64
"""How many bytes of a line are shown."""

LINE_LIMIT = 4 * (KEY_LIMIT + VALUE_LIMIT) + 1
"""How many bytes the longest line has that stands for a record."""

PIECE = re.compile(rb"[^\\\t\r]|\\[bfnrtv\\]|\\x[0-9a-fA-F]{2}", re.DOTALL)
"""A character of text or an escape."""

RIGHT = {
    "mark": "no mark; a key that begins with it is written \\xEF\\xBB\\xBF",
    "return": "a newline alone ends a line",
    "return of text": "a newline alone ends a line; a carriage return within a key or a value is written \\r",
    "no space": "a key, a space, and a value or a dash",
    "no tab": "a key, a tab and a value; with --removals a key alone is its removal",
    "second space": "one space, between the key and the value",
    "second tab": "a tab within a key or a value is written \\t",
    "escape": "\\\\ for a backslash, \\b \\t \\n \\v \\f \\r, or \\x and two hexadecimal digits",
    "digit": "the digits 0 to 9 and a to f; a dash alone for a removal",
    "odd": "two digits a byte",
    "key": "at most 1,024 bytes",
    "value": "at most 65,536 bytes",
    "line": "a key of at most 1,024 bytes, a value of at most 65,536",
}


def told(number, offset, line, what, right):
    """The lines that explain a line."""
    shown = escaped(line[:SHOWN_BYTES]) + (b"..." if len(line) > SHOWN_BYTES else b"")
    return b"line %d at byte %d: %s\nthe line: %s\nright: %s\n" % (number + 1, offset, what.encode(), shown, RIGHT[right].encode())


def read_as_far(part):
    """The bytes of a part of text, or the place where neither a character nor an escape begins."""
    place, length = 0, 0
    while place < len(part):
        piece = PIECE.match(part, place)
        if piece is None:
            return None, place
        place, length = piece.end(), length + 1
    return length, None


def wrong_part(part, start, is_text):
    """How many bytes a part of a line stands for, or what is wrong with it."""
    if is_text:
        length, place = read_as_far(part)
        return length, None if place is None else (f"bad escape at byte {start + place}", "escape")
    digits = re.match(rb"[0-9a-fA-F]*", part).end()
    if digits < len(part):
        return None, (f"no hexadecimal digit at byte {start + digits}", "digit")
    if digits % 2 == 1:
        return None, (f"odd number of digits from byte {start}", "odd")
    return digits // 2, None


def wrong(number, offset, line, is_text, has_removals):
    """What is wrong with a line, and what would be right; nothing where it stands for a record."""
    separator, name, kind = (b"\t", "tab", " of text") if is_text else (b" ", "space", "")
    if len(line) > LINE_LIMIT:
        return "line too long", "line"
    if number == 0 and is_text and line.startswith(MARK):
        return "begins with a byte order mark", "mark"
    key, found, change = line.partition(separator)
    is_bare = not found and is_text and has_removals
    parts = [(key, 0)] if is_bare or (not is_text and change == b"-") else [(key, 0), (change, len(key) + 1)]
    if found or is_bare:
        lengths = [wrong_part(part, offset + start, is_text) for part, start in parts]
        if all(flaw is None for _, flaw in lengths):
            for (length, _), limit, part in zip(lengths, (KEY_LIMIT, VALUE_LIMIT), ("key", "value")):
                if length > limit:
                    return f"{part} too long: {length} bytes", part
            return None
    if b"\r" in line:
        return f"carriage return at byte {offset + line.index(13)}", "return" + kind
    if not found and not is_bare:
        return f"no {name}", f"no {name}"
    if separator in change:
        return f"second {name} at byte {offset + len(key) + 1 + change.index(separator)}", f"second {name}"
    return next(flaw for _, flaw in lengths if flaw is not None)


def explained(text, is_text, has_removals, limit):
    """The status of `explain --lines` and what it prints."""
    lines = text.split(b"\n")
    if lines[-1] == b"":
        lines.pop()
    out, offset = [], 0
    for number, line in enumerate(lines):
        flaw = wrong(number, offset, line, is_text, has_removals)
        if flaw is not None:
            out.append(told(number, offset, line, *flaw))
            if len(out) == limit:
                break
        offset += len(line) + 1
    if not out:
        return 0, b"ok %d\n" % len(lines)
    return 1, b"".join(out) + (b"there may be more\n" if len(out) == MOST else b"")


def runs(name, text):
    """A text, explained in each way. Where `pack` takes it, nothing is found."""
    for is_text in (False, True):
        for has_removals in (False, True) if is_text else (False,):
            for is_all in (False, True):
                flags = [flag for flag, given in (("--text", is_text), ("--removals", has_removals), ("--all", is_all)) if given]
                status, out = explained(text, is_text, has_removals, MOST if is_all else 1)
                assert (status == 0) == (packed(text, is_text, has_removals)[1] is None), name
                yield Case(f"explain --lines {' '.join(flags)}: {name}", ["explain", "--lines", *flags], text, status=status, out=out)


TEXTS = {
    "no line": b"",
    "a blank line": b"\n",
    "a pair of text": b"a\t1\n",
    "a pair in hexadecimal": b"61 31\n",
    "removals": b"61 -\n62 -",
    "keys alone": b"a\nb\n",
    "carriage returns": b"61 31\r\na\t1\r\n",
    "second separators": b"a\tb\tc\n61 62 63\n",
    "no separators": b"a\n61\n",
    "bad escapes": b"a\\q\t1\nb\t\\\n\\x4\t1\nab\t\\\\\\101\n",
    "odd digits": b"616 31\n61 3\n61 --\n",
    "no digits": b"6g 31\n61 3g\n",
    "a mark": MARK + b"a\t1\n" + MARK + b"\t1\n",
    "a mark alone": MARK,
    "a long line": b"k" * 70 + b"\t\r\n",
    "a part of a character": b"k" * 63 + "é".encode() + b"\n",
    "long keys": b"k" * 1024 + b"\t\n" + b"k" * 1025 + b"\t\n" + b"61" * 1025 + b" 31\n",
    "long values": b"k\t" + b"v" * 65536 + b"\nk\t" + b"v" * 65537 + b"\n61 " + b"31" * 65537 + b"\n",
    "the longest lines": b"\\x61" * 1024 + b"\t" + b"\\x62" * 65536 + b"\nz\t1\n",
    "lines that are too long": b"a\t" + b"v" * LINE_LIMIT + b"\nb\t1\nc\n" + b"w" * (LINE_LIMIT + 1),
    "a line that is too long, with more that is wrong": MARK + b"\r\\q" + b"v" * LINE_LIMIT + b"\n\r",
    "a mark, and a carriage return": MARK + b"a\r\t\r\nb\r\t\r\n",
    "a hundred faulty lines": b"\n" * 100,
    "more than a hundred": b"61 31\n" + b"\n" * 150,
    "99 faulty lines": b"\n" * 99,
}
"""Texts of many kinds, in either notation."""


def random_text(chance):
    """A text of a few lines, most of which are nearly right."""
    parts = [b"a", b"61", b"\t", b" ", b"\\", b"\\t", b"\\x4", b"\\x41", b"-", b"\r", b"g", MARK, "é".encode(), b"\xff", b"3"]
    return b"".join(b"".join(chance.choices(parts, k=chance.randrange(6))) + b"\n" for _ in range(chance.randrange(8)))


def cases(_):
    """All cases of one run."""
    chance = random.Random(56)
    unread = b"prolly: file 0: read failed\n"
    return [
        *(case for name, text in TEXTS.items() for case in runs(name, text)),
        *(case for number in range(60) for case in runs(f"random text {number}", random_text(chance))),
        Case("explain --lines: closed standard input", ["explain", "--lines"], None, status=5, err=unread),
        Case("explain --lines: standard output is full", ["explain", "--lines"], b"a", status=5, err=b"prolly: write failed\n", stdout="full"),
    ]
