"""A second builder of prolly trees, written after docs/format.md and nothing else.

It takes whole lists, level by level, and is what the program's answers are compared with.
"""

import hashlib

DIGITS = "0123456789abcdefghijklmnopqrstuv"

REMOVED = None
"""Stands for a value in a record that removes its key."""

END_SIZE = 29
"""How many bytes an end record has."""


def record(key, value):
    """The spelling of a record, or of a pair."""
    length = b"\xff\xff\xff\xff" if value is REMOVED else len(value).to_bytes(4, "big")
    return len(key).to_bytes(2, "big") + key + length + (value or b"")


def records(changes):
    """A record file."""
    return b"".join(record(key, value) for key, value in changes)


def reference(chunk):
    """The reference of a chunk."""
    return hashlib.sha512(chunk).digest()[:20]


def reference_text(reference):
    """The text of a reference: 160 bits, five a character, the highest first."""
    number = int.from_bytes(reference, "big")
    return "".join(DIGITS[number >> (155 - 5 * place) & 31] for place in range(32))


def is_boundary(entry, bits):
    """Whether an entry ends a chunk."""
    number = int.from_bytes(hashlib.sha512(entry).digest()[20:24], "big")
    return number % 2**bits == 0


def cut(entries, bits, least):
    """The groups of a level: lists of the places of their entries."""
    groups, group = [], []
    for place, entry in enumerate(entries):
        group.append(place)
        if len(group) >= least and is_boundary(entry, bits):
            groups.append(group)
            group = []
    return groups + ([group] if group else [])


class Tree:
    """A chunk, with the trees below it."""

    def __init__(self, level, entries, key, count, children, is_closed):
        self.level = level
        self.chunk = bytes([level]) + b"".join(entries)
        self.key = key
        self.count = count
        self.children = children
        self.is_closed = is_closed and all(child.is_closed for child in children)
        self.reference = reference(self.chunk)

    def child_entry(self, version):
        """The entry of the node above."""
        count = self.count.to_bytes(8, "big") if version == 2 else b""
        return len(self.key).to_bytes(2, "big") + self.key + self.reference + count

    def trees(self):
        """The trees of which this one is made, each after those below it, itself the last one."""
        for child in self.children:
            yield from child.trees()
        yield self


def is_closed(entries, group, bits, least):
    """Whether a group of entries ends with a boundary, and not for want of entries."""
    return len(group) >= least and is_boundary(entries[group[-1]], bits)


def tree(pairs, bits, version):
    """The tree of a sorted list of pairs."""
    pairs = list(pairs)
    entries = [record(key, value) for key, value in pairs]
    level = [
        Tree(
            0,
            [entries[place] for place in group],
            pairs[group[-1]][0],
            len(group),
            [],
            is_closed(entries, group, bits, 1),
        )
        for group in cut(entries, bits, 1)
    ] or [Tree(0, [], b"", 0, [], False)]
    height = 0
    while len(level) > 1:
        height += 1
        entries = [child.child_entry(version) for child in level]
        level = [
            Tree(
                height,
                [entries[place] for place in group],
                level[group[-1]].key,
                sum(level[place].count for place in group),
                [level[place] for place in group],
                is_closed(entries, group, bits, 2),
            )
            for group in cut(entries, bits, 2)
        ]
    return level[0]


def root_text(pairs, bits=12, version=1):
    """The text of the root's reference, as the program prints it."""
    return reference_text(tree(pairs, bits, version).reference).encode() + b"\n"


def header(bits, version):
    """What a chunk file begins with."""
    return b"PRLY" + bytes([version, bits])


def frame(chunk):
    """A chunk in its file."""
    return b"C" + len(chunk).to_bytes(8, "big") + chunk


def chunk_file(pairs, bits=12, version=1):
    """The chunk file of a sorted list of pairs."""
    top = tree(pairs, bits, version)
    frames = [frame(part.chunk) for part in top.trees()]
    end = b"E" + top.reference + len(frames).to_bytes(8, "big")
    return header(bits, version) + b"".join(frames) + end


def within_stages(trees, stages):
    """The trees before the second one of the last stage's level."""
    taken, tops = [], 0
    for part in trees:
        tops += part.level == stages - 1
        if tops == 2:
            break
        taken.append(part)
    return taken


def begun_file(pairs, bits=12, version=1, stages=12):
    """What a build leaves behind that met a fault after these pairs: the chunks that they close."""
    closed = [part for part in tree(pairs, bits, version).trees() if part.is_closed]
    return header(bits, version) + b"".join(frame(part.chunk) for part in within_stages(closed, stages))


def tall_file(pairs, bits=12, version=1, stages=12):
    """What a build leaves behind whose tree has more levels than stages."""
    parts = within_stages(tree(pairs, bits, version).trees(), stages)
    return header(bits, version) + b"".join(frame(part.chunk) for part in parts)


def report(pairs, bits=12, version=1):
    """What a build prints: the root, and the numbers of chunks, pairs and levels."""
    pairs = list(pairs)
    top = tree(pairs, bits, version)
    root = reference_text(top.reference)
    return f"{root} {len(list(top.trees()))} {len(pairs)} {top.level + 1}\n".encode()


def overlay(files):
    """The pairs that lists of changes come to, where a later list wins a key."""
    changes = {}
    for file in files:
        changes.update(file)
    return sorted((key, value) for key, value in changes.items() if value is not REMOVED)
