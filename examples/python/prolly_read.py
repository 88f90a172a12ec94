#!/usr/bin/env python3
"""Reads chunk files, and proofs, of prolly trees in plain Python, after docs/format.md.

    tree = Tree.open("days.prl")
    tree.get(b"mon")               # its value, or None
    list(tree.scan(b"m", 3))       # the first three pairs whose keys are not less
    tree.nth(4)                    # the fifth pair, or None; in files of format 2
    verify(root, b"mon", proof)    # what a proof shows to who knows the root alone
    list(verify_range(root, b"a", b"c", proof))  # all pairs between two keys, by a proof of that
    verify_keys(root, [b"a", b"b"], proof)  # the values of many keys, or None, by a proof of that

As a program, `prolly_read.py FILE HEXKEY`, it prints the value of a key in hexadecimal.

`Tree.open` reads the file whole and finds each chunk by the hash of its bytes, so what is answered is what the root in the
end record vouches for. It does not ask whether the file is the one lawful file of its pairs: `prolly check` does.
"""

import hashlib
import itertools
import sys
from collections import namedtuple

DIGITS = "0123456789abcdefghijklmnopqrstuv"
"""The digits of a reference's text, five bits each."""

REFERENCE_SIZE, END_SIZE = 20, 29

LONGEST_KEY, LONGEST_VALUE, MOST_BITS = 1024, 65536, 24

Pair = namedtuple("Pair", "key value")

Child = namedtuple("Child", "key reference count")


class Malformed(Exception):
    """Bytes that are not what the format says. The text says where."""


class Bytes:
    """Bytes that are read from the left."""

    def __init__(self, content, what):
        self.content, self.place, self.what = content, 0, what

    def take(self, count):
        """The next bytes."""
        part = self.content[self.place : self.place + count]
        if len(part) < count:
            raise Malformed(f"{self.what}: truncated")
        self.place += count
        return part

    def number(self, size, most=2**64):
        """The next number, in so many bytes."""
        number = int.from_bytes(self.take(size), "big")
        if number > most:
            raise Malformed(f"{self.what}: {number} is too great")
        return number

    def chunk(self):
        """The chunk of the next frame."""
        if self.take(1) != b"C":
            raise Malformed(f"{self.what}: bad frame")
        return self.take(self.number(8))

    def is_at_end(self):
        """Whether nothing is left."""
        return self.place == len(self.content)


def reference(chunk):
    """The reference of a chunk."""
    return hashlib.sha512(chunk).digest()[:REFERENCE_SIZE]


def reference_from(text):
    """The reference of this text."""
    if len(text) != 32 or not set(text) <= set(DIGITS):
        raise Malformed("not the text of a root")
    number = 0
    for digit in text:
        number = number << 5 | DIGITS.index(digit)
    return number.to_bytes(REFERENCE_SIZE, "big")


def entries_of(chunk, version):
    """The entries of a chunk, in order: pairs of a leaf, children of a node."""
    if not chunk:
        raise Malformed("a chunk without a level")
    rest, last = Bytes(chunk[1:], "a chunk"), None
    while not rest.is_at_end():
        key = rest.take(rest.number(2, LONGEST_KEY))
        if last is not None and key <= last:
            raise Malformed("a chunk: keys out of order")
        last = key
        if chunk[0] == 0:
            yield Pair(key, rest.take(rest.number(4, LONGEST_VALUE)))
        else:
            yield Child(key, rest.take(REFERENCE_SIZE), rest.number(8) if version == 2 else None)


def linked_entries(chunk, due, above, version):
    """The entries of a chunk that is to have this reference, below a chunk of this level or, where that is None, at the root."""
    if reference(chunk) != due:
        raise Malformed("a chunk is not the one referred to")
    entries = list(entries_of(chunk, version))
    if above is not None and chunk[0] != above - 1:
        raise Malformed("a chunk: wrong level")
    return entries


def look_up(next_chunk, root, key, version):
    """What the tree with this root has at the key, or None. `next_chunk` gives the chunk of a reference."""
    due, above = root, None
    while True:
        chunk = next_chunk(due)
        entries = linked_entries(chunk, due, above, version)
        if chunk[0] == 0:
            return dict(entries).get(key)
        child = next((child for child in entries if child.key >= key), None)
        if child is None:
            return None
        due, above = child.reference, chunk[0]


def verify(root, key, proof, version=1):
    """What the proof shows of the key in the tree with this root: its value, or None where it has none."""
    rest = Bytes(proof, "a proof")
    if rest.take(5) != b"PRLP" + bytes([version]):
        raise Malformed("a proof: bad header, or wrong version")
    value = look_up(lambda _: rest.chunk(), root, key, version)
    if not rest.is_at_end():
        raise Malformed("a proof: bytes after the end")
    return value


def verify_range(root, first, end, proof, version=1):
    """The pairs of the tree with this root whose keys are not less than `first`, and less than `end` if that is not None.

    Each is right once it is given. That they are all, the end of the proof shows: where it is at fault, `Malformed` comes last.
    """
    def met(children, sought):
        """The children in which such keys may stand."""
        for child in children:
            if child.key >= first:
                yield child, sought
            if end is not None and child.key >= end:
                return

    return shown_by(root, None, met, lambda key: first <= key and (end is None or key < end), proof, version)


def verify_keys(root, keys, proof, version=1):
    """What the proof shows of each of these keys, which rise, in the tree with this root: its value, or None."""
    def met(children, sought):
        """The children in which keys are sought, each with those keys."""
        for child in children:
            own, sought = [key for key in sought if key <= child.key], [key for key in sought if key > child.key]
            if own:
                yield child, own

    found = dict(shown_by(root, keys, met, set(keys).__contains__, proof, version))
    return [found.get(key) for key in keys]


def shown_by(root, sought, met, wants, proof, version):
    """The pairs with wanted keys that a proof shows. Of a node's children `met` gives those to go on with, and what is sought there."""
    rest = Bytes(proof, "a proof")
    if rest.take(5) != b"PRLP" + bytes([16 + version]):
        raise Malformed("a proof: bad header, or wrong version")
    due = [(root, None, sought)]
    while due:
        (wanted, above, sought), *due = due
        chunk = rest.chunk()
        entries = linked_entries(chunk, wanted, above, version)
        if chunk[0] == 0:
            yield from (pair for pair in entries if wants(pair.key))
        else:
            due = [(child.reference, chunk[0], own) for child, own in met(entries, sought)] + due
    if not rest.is_at_end():
        raise Malformed("a proof: bytes after the end")


class Tree:
    """The tree of a chunk file, in memory."""

    def __init__(self, content):
        file = Bytes(content, "a chunk file")
        magic, self.version, self.bits = file.take(4), file.number(1), file.number(1, MOST_BITS)
        if magic != b"PRLY" or self.version not in (1, 2):
            raise Malformed("a chunk file: bad header")
        self.chunks = {}
        while file.content[file.place : file.place + 1] != b"E":
            chunk = file.chunk()
            self.chunks[reference(chunk)] = chunk
        end = file.take(END_SIZE)
        self.root, count = end[1:21], int.from_bytes(end[21:], "big")
        if not file.is_at_end():
            raise Malformed("a chunk file: bytes after the end")
        if count != len(self.chunks):
            raise Malformed("a chunk file: bad end record")

    @classmethod
    def open(cls, path):
        """The tree of the file of this name."""
        with open(path, "rb") as file:
            return cls(file.read())

    def chunk(self, due):
        """The chunk with this reference."""
        if due not in self.chunks:
            raise Malformed("a chunk file: a chunk is missing")
        return self.chunks[due]

    def get(self, key):
        """The value of the key, or None."""
        return look_up(self.chunk, self.root, key, self.version)

    def scan(self, key, limit=None):
        """The pairs from the key on, in order, at most so many."""
        return itertools.islice(self.pairs_from(self.root, key), limit)

    def pairs_from(self, due, key):
        """The pairs from the key on below the chunk with this reference."""
        for entry in entries_of(self.chunk(due), self.version):
            if entry.key >= key:
                yield from [entry] if isinstance(entry, Pair) else self.pairs_from(entry.reference, key)

    def nth(self, number):
        """The pair of this number, counted from 0, or None. Found by the counts, which format 1 has not."""
        if self.version == 1:
            raise Malformed("a chunk file: no counts")
        due = self.root
        while due is not None:
            entries, due = entries_of(self.chunk(due), self.version), None
            for entry in entries:
                count = 1 if isinstance(entry, Pair) else entry.count
                if number < count:
                    if isinstance(entry, Pair):
                        return entry
                    due = entry.reference
                    break
                number -= count
        return None


if __name__ == "__main__":
    try:
        found = Tree.open(sys.argv[1]).get(bytes.fromhex(sys.argv[2]))
    except (Malformed, OSError) as fault:
        sys.exit(f"prolly_read: {fault}")
    if found is None:
        sys.exit(1)
    print(found.hex())
