"""A second maker and a second reader of proofs of ranges, written after docs/format.md and nothing else.

A range is a key `first`, and a key `end` or none: the keys that are not less than the one, and less than the other."""

from oracle.checker import Fault
from oracle.proof import BAD_HEADER, HEADER, HEADER_SIZE, MORE, REFERENCE_SIZE, TRUNCATED, WRONG_VERSION, read_frame, read_linked
from oracle.trees import frame

MARK = 16
"""How much more than the version the last byte of the header is."""


def within(pairs, first, end):
    """The pairs of a map that are in a range."""
    return [(key, value) for key, value in pairs if first <= key and (end is None or key < end)]


def met(greatest, first, end):
    """The places, among children with these greatest keys, of those that a range meets."""
    for place, key in enumerate(greatest):
        if key >= first:
            yield place
        if end is not None and key >= end:
            return


def chunks_met(top, first, end):
    """The chunks of a tree that a range meets, each before those below it."""
    chunks = [top.chunk]
    for place in met([child.key for child in top.children], first, end):
        chunks += chunks_met(top.children[place], first, end)
    return chunks


def range_proof_of_chunks(chunks, version):
    """A proof of these chunks, whatever they are."""
    return HEADER + bytes([MARK + version]) + b"".join(frame(chunk) for chunk in chunks)


def range_proof_of(top, first, end, version):
    """The proof of what the map of a tree has in a range."""
    return range_proof_of_chunks(chunks_met(top, first, end), version)


def read_range_proof(proof, root, first, end, version):
    """The pairs that a proof shows to who knows the root's reference, and the fault behind them, or none."""
    pairs = []
    try:
        for more in shown_by(proof, root, first, end, version):
            pairs += more
    except Fault as fault:
        return pairs, str(fault)
    return pairs, None


def shown_by(proof, root, first, end, version):
    """The pairs that each chunk shows, one after another; a `Fault` where the proof is refused."""
    read_header(proof, version)
    place, due, number = HEADER_SIZE, [(root, None)], 0
    while due:
        (wanted, above), *due = due
        chunk, place = read_frame(proof, place, number)
        entries = read_linked(chunk, wanted, above, number, version)
        if chunk[0] == 0:
            yield within(entries, first, end)
        else:
            places = met([key for key, _ in entries], first, end)
            due = [(entries[place][1][:REFERENCE_SIZE], chunk[0]) for place in places] + due
        number += 1
    if place < len(proof):
        raise Fault(MORE)


def read_header(proof, version):
    """Tests the first bytes."""
    for byte, allowed in zip(proof, [b"P", b"R", b"L", b"P", bytes([MARK + 1, MARK + 2])], strict=False):
        if byte not in allowed:
            raise Fault(BAD_HEADER)
    if len(proof) < HEADER_SIZE:
        raise Fault(TRUNCATED)
    if proof[4] != MARK + version:
        raise Fault(WRONG_VERSION)
