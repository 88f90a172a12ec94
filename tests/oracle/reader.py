"""A second reader of a chunk file by the root, written after docs/format.md and nothing else."""

from dataclasses import dataclass

from oracle.checker import HEADER_SIZE, Fault, read_header
from oracle.proof import ABSENT, FRAME_SIZE, MORE, REFERENCE_SIZE, TRUNCATED, WRONG_VERSION, bad_chunk, bad_frame, read_linked
from oracle.trees import END_SIZE

START_SIZE = FRAME_SIZE + 1
"""How many bytes of a frame are read to go over it: its letter, its chunk's length, and the chunk's level."""

MISSING = "chunks are missing"


@dataclass
class Frame:
    """A chunk of a file: its number, where its bytes begin and end, and its level."""

    number: int
    start: int
    end: int
    level: int


def frames_of(content):
    """The frames up to the end record, behind which nothing may stand."""
    place, number = HEADER_SIZE, 0
    while content[place : place + 1] != b"E":
        found = frame_at(content, place, number)
        yield found
        place, number = found.end, number + 1
    left = len(content) - place
    if left != END_SIZE:
        raise Fault(TRUNCATED if left < END_SIZE else MORE)


def frame_at(content, place, number):
    """The frame at a place."""
    start = content[place : place + START_SIZE]
    if start[:1] not in (b"", b"C"):
        raise Fault(bad_frame(number))
    if len(start) < START_SIZE:
        raise Fault(TRUNCATED)
    length = int.from_bytes(start[1:FRAME_SIZE], "big")
    if length == 0:
        raise Fault(bad_chunk(number))
    end = place + FRAME_SIZE + length
    if end > len(content):
        raise Fault(TRUNCATED)
    return Frame(number, place + FRAME_SIZE, end, start[FRAME_SIZE])


class SoughtKey:
    """A key, which is looked for in the first child whose greatest key is not below it."""

    def __init__(self, key):
        self.key = key

    def passes(self, last, _):
        """Whether it is behind this child."""
        return last < self.key


class SoughtNumber:
    """A pair's number, which is looked for in the first child that has so many pairs below it, those passed left out."""

    def __init__(self, number):
        self.number = number

    def passes(self, _, behind):
        """Whether it is behind this child. Then the child's pairs are passed."""
        count = int.from_bytes(behind[REFERENCE_SIZE:], "big")
        if self.number < count:
            return False
        self.number -= count
        return True


class Reader:
    """A file, of which nothing is believed, beside the reference of a root. Each call raises a `Fault` where the file does
    not show what is asked for."""

    def __init__(self, content, root, version):
        self.content = content
        self.root = root
        self.version = version
        self.frames = None

    def get(self, key):
        """The value of a key, or none."""
        return dict(self.last_pairs(SoughtKey(key))).get(key, ABSENT)

    def nth(self, number):
        """The pair of a number, or none."""
        sought = SoughtNumber(number)
        pairs = self.last_pairs(sought)
        return pairs[sought.number] if sought.number < len(pairs) else None

    def way(self, key):
        """The chunks that a look-up of a key meets."""
        chunks = []
        self.last_pairs(SoughtKey(key), chunks)
        return chunks

    def pairs_from(self, key):
        """The first pairs from a key on: those of one leaf."""
        return [pair for pair in self.last_pairs(SoughtKey(key)) if pair[0] >= key]

    def last_pairs(self, sought, met=None):
        """The pairs of the leaf at which a look-up ends; none where it ends at a node. The chunks go behind those that were
        met, if these are asked for."""
        frames = self.opened()
        found, first, wanted, above = frames[-1], 0, self.root, None
        while True:
            chunk = self.content[found.start : found.end]
            entries = read_linked(chunk, wanted, above, found.number, self.version)
            if met is not None:
                met.append(chunk)
            above = found.level
            if above == 0:
                return entries
            below = child_of(frames[first:], above, entries, sought)
            if below is None:
                return []
            found, first, wanted = below

    def opened(self):
        """The frames of the file, of which there is one at least."""
        if self.frames is None:
            if read_header(self.content)[0] != self.version:
                raise Fault(WRONG_VERSION)
            self.frames = list(frames_of(self.content))
        if not self.frames:
            raise Fault(MISSING)
        return self.frames


def child_of(frames, level, entries, sought):
    """The child of a node at which a look-up goes on, the number of the first frame of what is below it, and its reference;
    none where there is no such child. The children are the next chunks one level below the node."""
    below = [found for found in frames if found.level == level - 1]
    for place, (last, behind) in enumerate(entries):
        if not sought.passes(last, behind):
            if place >= len(below):
                raise Fault(MISSING)
            first = below[place - 1].number + 1 if place else frames[0].number
            return below[place], first, behind[:REFERENCE_SIZE]
    return None
