"""Keys and values as text: a second writer and a second reader of it, written after docs/format.md and nothing else."""

import re

from oracle.trees import REMOVED

LETTERS = {0x08: b"b", 0x09: b"t", 0x0A: b"n", 0x0B: b"v", 0x0C: b"f", 0x0D: b"r", 0x5C: b"\\"}
"""The bytes that have a letter, which stands behind a backslash for them."""

NAMED = {letter: bytes([byte]) for byte, letter in LETTERS.items()}

PIECE = re.compile(rb"\\(?P<letter>[btnvfr\\])|\\x(?P<digits>[0-9A-Fa-f]{2})|(?P<plain>[^\\\t\n\r])")
"""What stands for one byte."""


def escaped(data):
    """The text that is printed for bytes."""
    return b"".join(map(shown_character, data.decode("utf-8", "surrogateescape")))


def shown_character(character):
    """A character as it is printed. A byte that is of none comes as a surrogate, which no bytes of UTF-8 give."""
    code = ord(character)
    if 0xDC80 <= code <= 0xDCFF:
        return by_digits(code - 0xDC00)
    if code in LETTERS:
        return b"\\" + LETTERS[code]
    own = character.encode()
    hidden = code < 0x20 or 0x7F <= code <= 0x9F or code == 0xFEFF
    return b"".join(map(by_digits, own)) if hidden else own


def by_digits(byte):
    """A byte as its two digits."""
    return b"\\x%02x" % byte


def unescaped(text):
    """The bytes that a text stands for, or none where it stands for none."""
    data, place = bytearray(), 0
    while place < len(text):
        piece = PIECE.match(text, place)
        if piece is None:
            return None
        data += byte_of(piece)
        place = piece.end()
    return bytes(data)


def byte_of(piece):
    """The byte for which a piece of a text stands."""
    if piece["letter"]:
        return NAMED[piece["letter"]]
    return bytes.fromhex(piece["digits"].decode()) if piece["digits"] else piece["plain"]


def text_line(change):
    """A pair, or a removal, as the program prints it as text."""
    key, value = change
    return escaped(key) + (b"" if value is REMOVED else b"\t" + escaped(value)) + b"\n"


def text_lines(changes):
    """Records as lines that `pack --text --removals` reads."""
    return b"".join(map(text_line, changes))


def as_word(data):
    """A text for bytes that no command takes for a flag."""
    text = escaped(data)
    return by_digits(text[0]) + text[1:] if text.startswith(b"-") else text


def as_text(told):
    """Lines in hexadecimal, of values, of pairs or of changes, as the same lines of text."""
    return b"".join(map(as_text_line, told.split(b"\n")[:-1]))


def as_text_line(line):
    """A value, a pair or, with a dash behind the key, a removal in hexadecimal as a line of text."""
    return b"\t".join(escaped(bytes.fromhex(part.decode())) for part in line.split(b" ") if part != b"-") + b"\n"


def respelled(chance, data, chance_of_digits=0.2):
    """A text for bytes in which some are digits that need not be, in both cases, and which is UTF-8 throughout."""
    found = b""
    for character in data.decode("utf-8", "surrogateescape"):
        own = character.encode("utf-8", "surrogateescape")
        digits = b"".join(chance.choice([b"\\x%02x", b"\\x%02X"]) % byte for byte in own)
        found += digits if chance.random() < chance_of_digits else shown_character(character)
    return found
