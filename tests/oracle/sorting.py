"""What lines in any order come to: a second sorter, by Python's own, written after docs/commands.md and nothing else."""

from oracle.readings import packed

LONGEST_LINE = 266_241
"""How many bytes a line may have: a key and a value of the greatest length, each byte by its digits, and a tab."""

BYTE_ORDER_MARK = b"\xef\xbb\xbf"


def latest(changes):
    """Changes that come one after another as what they come to: of each key the last one, in the order of the keys. A removal
    stays one."""
    return sorted(dict(changes).items(), key=lambda change: change[0])


def packed_in_order(text, is_text=False, has_removals=False):
    """What the lines of a text come to, or the line that tells of the first faulty one."""
    if is_text and text.startswith(BYTE_ORDER_MARK):
        return None, b"line 0: begins with a byte order mark"
    lines = text.split(b"\n")
    long = next((number for number, line in enumerate(lines) if len(line) > LONGEST_LINE), None)
    before = text if long is None else b"".join(line + b"\n" for line in lines[:long])
    changes, fault = packed(before, is_text, has_removals)
    if fault is None and long is not None:
        fault = b"line %d: line too long" % long
    return (latest(changes), None) if fault is None else (None, fault)
