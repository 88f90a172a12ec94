"""A second walk over two chunk files by the roots of their trees, written after docs/format.md and nothing else."""

from dataclasses import dataclass

from oracle.checker import Fault, read_header
from oracle.proof import REFERENCE_SIZE, WRONG_VERSION, read_linked
from oracle.reader import MISSING, frames_of
from oracle.trees import REMOVED

ROOT_BOUND = 256
"""A number that the root's level is below."""


@dataclass
class Due:
    """A subtree that is due: its reference, the number of its node's first frame, its node's level, and which child it is.
    The root stands below no node."""

    reference: bytes
    first: int = 0
    above: int = None
    child: int = 0

    def bound(self):
        """A number that the level of its chunk is below."""
        return ROOT_BOUND if self.above is None else self.above


class Side:
    """What is left of one tree: the pairs in hand, and behind them the subtrees that are due."""

    def __init__(self, name, content, root, version):
        self.name = name
        self.content = content
        self.version = version
        self.frames = None
        self.pairs = []
        self.due = [Due(root)]
        self.opened = {}

    def is_ready(self):
        """Whether a pair is in hand, or nothing is left."""
        return bool(self.pairs) or not self.due

    def first(self):
        """The first pair, or none."""
        return self.pairs[0] if self.pairs else None

    def open_first(self):
        """Reads the chunk of the first subtree that is due."""
        try:
            self.take(self.due.pop(0))
        except Fault as fault:
            raise Fault(f"{self.name} chunk file: {fault}") from fault

    def take(self, due):
        """Reads a chunk: of a leaf the pairs are in hand then, and of a node the children are due before the others."""
        found, first = self.find(due)
        chunk = self.content[found.start : found.end]
        entries = read_linked(chunk, due.reference, due.above, found.number, self.version)
        self.opened[due.reference] = len(chunk)
        if found.level == 0:
            self.pairs = list(entries)
        else:
            references = [behind[:REFERENCE_SIZE] for _, behind in entries]
            self.due = [Due(reference, first, found.level, child) for child, reference in enumerate(references)] + self.due

    def find(self, due):
        """The frame of a subtree's chunk, and the number of the first frame of what is below it."""
        if self.frames is None:
            if read_header(self.content)[0] != self.version:
                raise Fault(WRONG_VERSION)
            self.frames = list(frames_of(self.content))
        if due.above is None:
            if not self.frames:
                raise Fault(MISSING)
            return self.frames[-1], 0
        below = [found for found in self.frames[due.first :] if found.level == due.above - 1]
        if due.child >= len(below):
            raise Fault(MISSING)
        return below[due.child], below[due.child - 1].number + 1 if due.child else due.first


class Walk:
    """A walk over two trees of one version. It gives what turns the map of the one root into that of the other, and raises a
    `Fault` where a file does not show it."""

    def __init__(self, old, new, old_root, new_root, version):
        self.old = Side("old", old, old_root, version)
        self.new = Side("new", new, new_root, version)

    def changes(self):
        """The changes, each once it is found."""
        while self.old.due or self.new.due or self.old.pairs or self.new.pairs:
            if self.old.is_ready() and self.new.is_ready():
                yield from self.change()
            elif self.old.is_ready():
                self.new.open_first()
            elif self.new.is_ready():
                self.old.open_first()
            else:
                self.go_on()

    def go_on(self):
        """Goes behind subtrees that both begin with, or reads the one that may be higher."""
        before, after = self.old.due[0], self.new.due[0]
        if before.reference == after.reference:
            self.old.due.pop(0)
            self.new.due.pop(0)
        elif before.bound() < after.bound():
            self.new.open_first()
        else:
            self.old.open_first()

    def change(self):
        """The change that the first pairs in hand are, if they are one."""
        before, after = self.old.first(), self.new.first()
        if after is None or (before is not None and before[0] < after[0]):
            self.old.pairs.pop(0)
            yield before[0], REMOVED
        elif before is None or after[0] < before[0]:
            self.new.pairs.pop(0)
            yield after
        else:
            self.old.pairs.pop(0)
            self.new.pairs.pop(0)
            if before[1] != after[1]:
                yield after
