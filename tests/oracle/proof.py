"""A second maker and a second reader of proofs, written after docs/format.md and nothing else."""

from oracle.checker import Fault, read_entries
from oracle.trees import frame, reference

HEADER = b"PRLP"

HEADER_SIZE, FRAME_SIZE, REFERENCE_SIZE = 5, 9, 20

BAD_HEADER, WRONG_VERSION, TRUNCATED, MORE = "bad header", "wrong version", "truncated", "bytes after the end"


def bad_frame(number):
    """A letter that begins no frame."""
    return f"bad frame {number}"


def another(number):
    """A chunk that has another reference than the one by which the chunk above, or the root's text, names it."""
    return f"chunk {number} is not the one referred to"


def bad_chunk(number):
    """A chunk that is not a level and whole lawful entries."""
    return f"bad chunk {number}"


def out_of_order(number):
    """A chunk whose keys do not rise."""
    return f"keys out of order in chunk {number}"


def wrong_level(number):
    """A chunk that does not stand one level below the one above it."""
    return f"wrong level in chunk {number}"


ABSENT = None
"""Stands for the value of a key that has none."""


def proof_of_chunks(chunks, version):
    """A proof of these chunks, whatever they are."""
    return HEADER + bytes([version]) + b"".join(frame(chunk) for chunk in chunks)


def way(top, key):
    """The chunks that a look-up of the key meets, from the root of a tree on."""
    chunks, part = [top.chunk], top
    while part.children:
        not_below = [child for child in part.children if child.key >= key]
        if not not_below:
            break
        part = not_below[0]
        chunks.append(part.chunk)
    return chunks


def proof_of(top, key, version):
    """The proof of what the map of a tree has at the key."""
    return proof_of_chunks(way(top, key), version)


def read_proof(proof, root, key, version):
    """The value that a proof shows to who knows the root's reference, or none; a `Fault` where it is refused."""
    read_header(proof, version)
    place, wanted, level, number = HEADER_SIZE, root, None, 0
    while wanted is not None:
        chunk, place = read_frame(proof, place, number)
        entries = read_linked(chunk, wanted, level, number, version)
        level = chunk[0]
        value, wanted = step(entries, level, key)
        number += 1
    if place < len(proof):
        raise Fault(MORE)
    return value


def read_header(proof, version):
    """Tests the first bytes."""
    for byte, allowed in zip(proof, [b"P", b"R", b"L", b"P", b"\1\2"], strict=False):
        if byte not in allowed:
            raise Fault(BAD_HEADER)
    if len(proof) < HEADER_SIZE:
        raise Fault(TRUNCATED)
    if proof[4] != version:
        raise Fault(WRONG_VERSION)


def read_frame(proof, place, number):
    """The chunk of the frame at a place, and the place behind it."""
    start = place + FRAME_SIZE
    if proof[place : place + 1] not in (b"", b"C"):
        raise Fault(bad_frame(number))
    end = start + int.from_bytes(proof[place + 1 : start], "big")
    if len(proof) < start or len(proof) < end:
        raise Fault(TRUNCATED)
    return proof[start:end], end


def read_linked(chunk, wanted, above, number, version):
    """The entries of a chunk that is to have a reference, below a chunk of this level or at the root."""
    if reference(chunk) != wanted:
        raise Fault(another(number))
    entries = read_entries(chunk, number, version)
    keys = [key for key, _ in entries]
    if any(key <= before for before, key in zip(keys, keys[1:], strict=False)):
        raise Fault(out_of_order(number))
    if above is not None and chunk[0] != above - 1:
        raise Fault(wrong_level(number))
    return entries


def step(entries, level, key):
    """What the entries of a chunk have at the key: a value or none, and the reference at which to go on, or none."""
    if level == 0:
        return dict(entries).get(key, ABSENT), None
    not_below = [behind for last, behind in entries if last >= key]
    return ABSENT, not_below[0][:REFERENCE_SIZE] if not_below else None
