"""Prolly trees: sorted maps of byte strings in a file, whose root is a hash of all they hold.

>>> import prolly
>>> root = prolly.build("days.prl", [(b"mon", b"1"), (b"tue", b"2")])
>>> with prolly.open("days.prl") as tree:
...     tree[b"mon"], tree.root == root
(b'1', True)
"""

import builtins
import mmap

from prolly._files import Place as _Place
from prolly._files import hold as _hold
from prolly._prolly import ProllyError, Tree
from prolly._prolly import chunk_file as _chunk_file
from prolly._prolly import diff as _diff
from prolly._prolly import prove as _prove
from prolly._prolly import prove_range as _prove_range
from prolly._prolly import verify as _verify
from prolly._prolly import verify_range as _verify_range

__all__ = ["ProllyError", "RootTree", "Tree", "build", "check", "diff", "open", "verify", "verify_range"]


MOST_BITS = 24
"""By how many bits entries are cut at most."""


def open(path, check=True, root=None, version=None):
    """The tree of a chunk file, which is mapped and checked once. A file that is none raises ProllyError.

    With check=False nothing is read yet, and each look-up verifies what it finds by the root: see RootTree. The root, and the
    version of the tree, which is 2 where none is given, have to come from who is trusted.

    The file may not change while the tree is open: where it is cut short, a look-up may end the process by SIGBUS. The
    program does not write over it meanwhile, where the file system has locks. A with statement closes the tree. A path that
    is no regular file, or that the program is writing, raises OSError.
    """
    if check and version is not None:
        raise ValueError("a version is given where a file is not checked")
    if check == (root is not None):
        raise ValueError("a root is given where a file is not checked")
    with builtins.open(path, "rb") as file:
        is_empty = _hold(file) == 0
        # The map keeps the lock until it goes.
        data = b"" if is_empty else mmap.mmap(file.fileno(), 0, access=mmap.ACCESS_READ)
    return Tree(data) if check else RootTree(data, root, 2 if version is None else version)


ROOT_SIZE = 20
"""How many bytes a root has."""


def _lawful(version):
    """The version, where there is such a one."""
    if version not in (1, 2):
        raise ValueError("the version is 1 or 2")
    return version


class RootTree:
    """Look-ups in a chunk file of which the root alone is trusted.

    Each goes by a proof out of the file, which is verified: the chunks on its way are hashed, and the frames of the file are
    gone over. So it takes longer than one in a tree that was checked, and opening takes no time.
    """

    def __init__(self, data, root, version=2):
        self._data, self.root, self.version = data, bytes(memoryview(root)), _lawful(version)
        if len(self.root) != ROOT_SIZE:
            raise ValueError(f"a root has {ROOT_SIZE} bytes")

    def prove(self, key):
        """The proof of what the tree has at a key, for who knows the root alone."""
        if self._data is None:
            raise ValueError("the tree is closed")
        return _prove(self._data, self.root, key, self.version)

    def prove_range(self, start=None, stop=None):
        """The proof of all pairs from start on and before stop, for who knows the root alone."""
        if self._data is None:
            raise ValueError("the tree is closed")
        return _prove_range(self._data, self.root, start, stop, self.version)

    def items(self, start=None, stop=None):
        """The pairs in the order of their keys, from start on and before stop. They are verified before the first one is
        given, and so are in memory, as a proof."""
        return _verify_range(self.root, start, stop, self.prove_range(start, stop), self.version)

    def get(self, key, default=None):
        """The value of a key, or the other one where it has none."""
        value = _verify(self.root, key, self.prove(key), self.version)
        return default if value is None else value

    def __getitem__(self, key):
        value = self.get(key)
        if value is None:
            raise KeyError(key)
        return value

    def __contains__(self, key):
        return self.get(key) is not None

    def close(self):
        """Lets the bytes go."""
        self._data = None

    def __enter__(self):
        return self

    def __exit__(self, *_):
        self.close()


def check(data):
    """The tree of a chunk file in memory, as of bytes. It is checked, and not copied."""
    return Tree(data)


def build(path, pairs, bits=6, version=2, force=False):
    """Writes the chunk file of pairs whose keys rise, and returns its root.

    `bits` says how large chunks are: they have some 2^bits pairs. The file is written beside the path first, under a name
    of its own, and then renamed. So what was there stays until the new file is whole. A symbolic link stays, too: the file
    that it names is replaced. The new file keeps the mode of the old one, its access list, and its owner and its group, as
    far as the user may give them. A path that can't be written, or that is no regular file, raises OSError before a pair is
    taken. So does a file that has bytes and is no chunk file, unless `force` is true.
    """
    if bits not in range(MOST_BITS + 1):
        raise ValueError(f"the bits are 0 to {MOST_BITS}")
    place = _Place(path, force)
    content, root = _chunk_file(pairs, bits, _lawful(version))
    place.put(content)
    return root


def verify(root, key, proof, version=2):
    """The value that a proof shows for a key in the tree with this root, or None where it shows that it has none.

    The root and the version have to come from who is trusted. A proof that proves nothing raises ProllyError.
    """
    return _verify(root, key, proof, version)


def verify_range(root, start, stop, proof, version=2):
    """The pairs that a proof shows, in the order of their keys: all that the tree with this root has from start on and before
    stop, and no other. None as start or as stop is no end.

    The whole proof is verified before the first pair is given. The root and the version have to come from who is trusted. A
    proof that proves nothing raises ProllyError.
    """
    return _verify_range(root, start, stop, proof, version)


def diff(old, new):
    """What turns one tree into another: for each key in which they differ the key, what the old tree has and what the new one
    has, where None is nothing. They are told one after another, in the order of their keys."""
    return _diff(old, new)
