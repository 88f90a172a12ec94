"""A second checker of chunk files, written after docs/format.md and nothing else."""

from oracle.trees import END_SIZE, chunk_file, reference, tree

HEADER_SIZE, KEY_LIMIT, VALUE_LIMIT, BITS_LIMIT = 6, 1_024, 65_536, 24


class Fault(Exception):
    """What is wrong with a file, as the program says it."""


def lawful_or_fault(content):
    """The first fault of a file, or none."""
    try:
        version, bits = read_header(content)
        chunks, end = read_frames(content[HEADER_SIZE:])
        pairs = pairs_in_order([read_chunk(chunk, number, version) for number, chunk in enumerate(chunks)])
        compare(chunks, end, pairs, bits, version)
    except Fault as fault:
        return str(fault).encode()
    return None


def read_header(content):
    """The version and the bits."""
    lawful = [b"P", b"R", b"L", b"Y", b"\1\2", bytes(range(BITS_LIMIT + 1))]
    for byte, allowed in zip(content, lawful, strict=False):
        if byte not in allowed:
            raise Fault("bad header")
    if len(content) < HEADER_SIZE:
        raise Fault("truncated")
    return content[4], content[5]


def read_frames(content):
    """The chunks, and the end record."""
    chunks, place = [], 0
    while content[place : place + 1] == b"C":
        length = int.from_bytes(content[place + 1 : place + 9], "big")
        if len(content) < place + 9 or len(content) < place + 9 + length:
            raise Fault("truncated")
        chunks.append(content[place + 9 : place + 9 + length])
        place += 9 + length
    rest = content[place:]
    if rest and rest[:1] != b"E":
        raise Fault(f"bad frame {len(chunks)}")
    if len(rest) < END_SIZE:
        raise Fault("truncated")
    if len(rest) > END_SIZE:
        raise Fault("bytes after the end")
    return chunks, rest


def read_chunk(chunk, number, version):
    """The pairs of a leaf; none of a node."""
    entries = read_entries(chunk, number, version)
    return [(number, key, value) for key, value in entries] if chunk[0] == 0 else []


def read_entries(chunk, number, version):
    """The keys of a chunk's entries, each with the value of its pair, or with what its child entry has behind the key."""
    if not chunk:
        raise Fault(f"bad chunk {number}")
    entries, place = [], 1
    while place < len(chunk):
        length = int.from_bytes(chunk[place : place + 2], "big")
        key = chunk[place + 2 : place + 2 + length]
        behind = place + 2 + length
        size = 20 if version == 1 else 28
        if chunk[0] == 0:
            size = int.from_bytes(chunk[behind : behind + 4], "big")
            behind += 4
        place = behind + size
        if length > KEY_LIMIT or size > VALUE_LIMIT or place > len(chunk):
            raise Fault(f"bad chunk {number}")
        entries.append((key, chunk[behind:place]))
    return entries


def pairs_in_order(leaves):
    """The pairs of all leaves, whose keys are to rise."""
    pairs = [pair for leaf in leaves for pair in leaf]
    for (_, before, _), (number, key, _) in zip(pairs, pairs[1:], strict=False):
        if key <= before:
            raise Fault(f"keys out of order in chunk {number}")
    return [(key, value) for _, key, value in pairs]


def compare(chunks, end, pairs, bits, version):
    """The chunks and the end record beside those that the pairs make."""
    lawful = [part.chunk for part in tree(pairs, bits, version).trees()]
    for number in range(max(len(chunks), len(lawful))):
        if chunks[number : number + 1] != lawful[number : number + 1]:
            raise Fault(f"chunk {number} is not canonical")
    if end != chunk_file(pairs, bits, version)[-END_SIZE:]:
        raise Fault("bad end record")


# ---- in the order of the bytes, where the root is known


def flaw_by_root(content, version, root):
    """The first fault of a file that is read once and compared with a root, or none."""
    try:
        found, bits = read_header(content)
        if found != version:
            raise Fault("wrong version")
        chunks, pairs, rest = chunks_in_order(content[HEADER_SIZE:], bits, version)
        end_in_order(chunks, pairs, rest, bits, version)
        if reference(chunks[-1]) != root:
            raise Fault("has another root")
    except Fault as fault:
        return str(fault).encode()
    return None


def chunks_in_order(content, bits, version):
    """The chunks, the pairs that they hold, and what is left where no whole frame begins."""
    chunks, held, place = [], [], 0
    while content[place : place + 1] == b"C":
        end = place + 9 + int.from_bytes(content[place + 1 : place + 9], "big")
        if len(content) < place + 9 or len(content) < end:
            break
        chunks.append(content[place + 9 : end])
        held.append(read_chunk(chunks[-1], len(chunks) - 1, version))
        begin_as_lawful(chunks, pairs_in_order(held), bits, version)
        place = end
    return chunks, pairs_in_order(held), content[place:]


def begin_as_lawful(chunks, pairs, bits, version):
    """The chunks beside those that the pairs in them make, of which there may be more."""
    lawful = [part.chunk for part in tree(pairs, bits, version).trees()]
    for number, chunk in enumerate(chunks):
        if lawful[number : number + 1] != [chunk]:
            raise Fault(f"chunk {number} is not canonical")


def end_in_order(chunks, pairs, rest, bits, version):
    """What stands behind the last whole frame beside the end record."""
    if rest[:1] in (b"", b"C"):
        raise Fault("truncated")
    if rest[:1] != b"E":
        raise Fault(f"bad frame {len(chunks)}")
    if len(list(tree(pairs, bits, version).trees())) != len(chunks):
        raise Fault(f"chunk {len(chunks)} is not canonical")
    if len(rest) < END_SIZE:
        raise Fault("truncated")
    if rest[:END_SIZE] != chunk_file(pairs, bits, version)[-END_SIZE:]:
        raise Fault("bad end record")
    if len(rest) > END_SIZE:
        raise Fault("bytes after the end")
