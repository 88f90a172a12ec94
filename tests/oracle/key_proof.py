"""A second maker and a second reader of proofs of many keys, written after docs/format.md and nothing else.

What is asked for is a list of keys that rise."""

from oracle.checker import Fault
from oracle.proof import HEADER_SIZE, MORE, REFERENCE_SIZE, read_frame, read_linked
from oracle.range_proof import range_proof_of_chunks, read_header


def parts_met(greatest, keys):
    """The places, among children with these greatest keys, in which keys are sought, each with those keys."""
    for place, key in enumerate(greatest):
        own, keys = [k for k in keys if k <= key], [k for k in keys if k > key]
        if own:
            yield place, own


def chunks_of_keys(top, keys):
    """The chunks of a tree that these keys meet, each before those below it."""
    chunks = [top.chunk]
    for place, own in parts_met([child.key for child in top.children], keys):
        chunks += chunks_of_keys(top.children[place], own)
    return chunks


def key_proof_of(top, keys, version):
    """The proof of what the map of a tree has at these keys."""
    return range_proof_of_chunks(chunks_of_keys(top, keys), version)


def found_at(pairs, keys):
    """The keys, each with what is there: a value, or none."""
    there = dict(pairs)
    return [(key, there.get(key)) for key in keys]


def read_key_proof(proof, root, keys, version):
    """What a proof shows at the keys to who knows the root's reference, and the fault behind that, or none. Before a fault those
    keys are told that are not greater than one with a value."""
    pairs = []
    try:
        for more in shown_by(proof, root, keys, version):
            pairs += more
    except Fault as fault:
        return found_at(pairs, [key for key in keys if pairs and key <= pairs[-1][0]]), str(fault)
    return found_at(pairs, keys), None


def shown_by(proof, root, keys, version):
    """The pairs that each chunk shows, one after another; a `Fault` where the proof is refused."""
    read_header(proof, version)
    place, due, number = HEADER_SIZE, [(root, None, keys)], 0
    while due:
        (wanted, above, sought), *due = due
        chunk, place = read_frame(proof, place, number)
        entries = read_linked(chunk, wanted, above, number, version)
        if chunk[0] == 0:
            yield [(key, value) for key, value in entries if key in sought]
        else:
            met = parts_met([key for key, _ in entries], sought)
            due = [(entries[place][1][:REFERENCE_SIZE], chunk[0], own) for place, own in met] + due
        number += 1
    if place < len(proof):
        raise Fault(MORE)
