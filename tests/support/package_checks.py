"""Compares the package for Python with the second builder: what it builds, and what it finds. Run beside both of them."""

import fcntl
import gc
import os
import random
import stat
import struct
import sys
import tempfile
import threading
import traceback
from pathlib import Path
from unittest import mock

import prolly
from prolly import Tree, _prolly
from oracle.proof import proof_of
from oracle.range_proof import range_proof_of
from oracle.trees import END_SIZE, chunk_file, tree


BITS_PLACE = 5
"""Where a file says by how many bits it was cut."""

MOST_GROWTHS = 60
"""No call of a small tree takes memory so often."""

NOBODY = 65_534
"""A user, and a group, without rights of their own."""

ACCESS_LIST = "system.posix_acl_access"
"""The attribute of a file in which Linux keeps its access list."""

NO_ONE = 0xFFFF_FFFF
"""Whom an entry of an access list names that names nobody."""

OF_NOBODY = struct.pack("<I" + 5 * "HHI", 2, 1, 6, NO_ONE, 2, 6, NOBODY, 4, 0, NO_ONE, 16, 6, NO_ONE, 32, 0, NO_ONE)
"""The access list of a file that its owner and NOBODY may use, and its group may not: of each entry whom it is for, what it
gives, and the number. The mode is 0o660, since the group's part of it says what the list gives at most."""


def main():
    """All comparisons."""
    numbers = random.Random(7)
    for count in (0, 1, 2, 40, 700):
        keys = sorted({numbers.randbytes(numbers.randrange(9)) for _ in range(count)})
        pairs = [(key, numbers.randbytes(numbers.randrange(30))) for key in keys]
        for bits, version in ((0, 1), (1, 2), (6, 2), (12, 1)):
            compare(pairs, bits, version, numbers)
    long_proofs()
    refusals()
    wrong_words()
    mutable_proofs()
    keys_let_go()
    memory_refused()
    by_threads()
    with tempfile.TemporaryDirectory() as folder:
        replaced(Path(folder))
    with tempfile.TemporaryDirectory() as folder:
        kept_links(Path(folder))
    with tempfile.TemporaryDirectory() as folder:
        kept_access(Path(folder))
    with tempfile.TemporaryDirectory() as folder:
        kept_lists(Path(folder))
    with tempfile.TemporaryDirectory() as folder:
        other_kinds(Path(folder))
    with tempfile.TemporaryDirectory() as folder:
        held(Path(folder))


def compare(pairs, bits, version, numbers):
    """What is built, found and shown of one map."""
    root = prolly.build("some.prl", iter(pairs), bits=bits, version=version)
    with open("some.prl", "rb") as file:
        content = file.read()
    top = tree(pairs, bits, version)
    assert content == chunk_file(pairs, bits, version)
    assert root == top.reference
    with prolly.open("some.prl") as some:
        assert (some.root, some.bits, some.version, len(some)) == (root, bits, version, len(pairs))
        assert list(some) == [key for key, _ in pairs]
        assert list(some.items()) == pairs
        held = dict(pairs)
        assert list(some.keys()) == list(held)
        assert dict(some) == {**some} == held
        for number, (key, value) in enumerate(pairs):
            assert some[key] == some.get(bytearray(key)) == value
            assert memoryview(key) in some
            assert some.nth(number) == (key, value)
            assert (key + b"\0" in some) == (key + b"\0" in held)
        for _ in range(20):
            start, stop = sorted(numbers.randbytes(numbers.randrange(3)) for _ in range(2))
            assert list(some.items(start, stop)) == [pair for pair in pairs if start <= pair[0] < stop]
            assert list(some.items(start=start)) == [pair for pair in pairs if start <= pair[0]]
            assert list(some.keys(start, stop)) == [key for key in held if start <= key < stop]
            assert list(some.keys(stop=stop)) == [key for key in held if key < stop]
            assert some.get(start, 7) == some.get(start, default=7) == held.get(start, 7)
            proof = some.prove(start)
            assert proof == proof_of(top, start, version)
            assert prolly.verify(root, start, proof, version) == held.get(start)
            for first, end in ((start, stop), (start, None), (None, stop), (stop, start)):
                range_proof = some.prove_range(first, end)
                assert range_proof == range_proof_of(top, first or b"", end, version)
                held_there = list(some.items(first, end))
                assert list(prolly.verify_range(root, first, end, range_proof, version)) == held_there
            with prolly.open("some.prl", check=False, root=root, version=version) as rooted:
                assert list(rooted.items(start, stop)) == list(some.items(start, stop))
                assert rooted.get(start, 7) == held.get(start, 7)
                assert (start in rooted) == (start in held)
        for number in (len(pairs), -1, -(2**70), 2**63, 2**64, 2**70):
            raised(IndexError, some.nth, number)
        raised(TypeError, some.nth, "0")
        raised(TypeError, some.get)
        raised(TypeError, some.get, default=7)
        raised(TypeError, some.get, b"", 7, default=7)
        raised(TypeError, some.get, b"", other=7)
        raised(KeyError, some.__getitem__, b"no such key")
        less = prolly.check(chunk_file(pairs[::2], bits, version))
        assert list(prolly.diff(some, less)) == [(key, value, None) for key, value in pairs[1::2]]
        assert list(prolly.diff(less, some)) == [(key, None, value) for key, value in pairs[1::2]]
        left = some.items()
    raised(ValueError, some.get, b"")
    raised(ValueError, some.nth, -1)
    raised(ValueError, some.keys)
    raised(ValueError, next, left)


def long_proofs():
    """Proofs for which there is less room at first than they need."""
    pairs = [(b"%03d" % number, bytes(65_536)) for number in range(80)]
    content, top = chunk_file(pairs, 6, 2), tree(pairs, 6, 2)
    long = prolly.check(content)
    assert long.prove(b"040") == proof_of(top, b"040", 2)
    for first, end in ((None, None), (b"040", None), (b"040", b"041")):
        assert long.prove_range(first, end) == range_proof_of(top, first or b"", end, 2)


def refusals():
    """What is refused, and what was there stays."""
    prolly.build("kept.prl", [(b"a", b"b")])
    for bad, kind in (
        ([(b"b", b""), (b"a", b"")], prolly.ProllyError),
        ([(b"a", b""), (b"a", b"")], prolly.ProllyError),
        ([(b"a" * 1025, b"")], ValueError),
        ([(b"a", b"v" * 65537)], ValueError),
        ([(b"a",)], ValueError),
        ([("a", b"")], TypeError),
        ([3], TypeError),
    ):
        raised(kind, prolly.build, "kept.prl", bad)
    raised(ValueError, prolly.build, "kept.prl", [], bits=25)
    raised(ValueError, prolly.build, "kept.prl", [], version=3)
    with prolly.open("kept.prl") as kept:
        assert list(kept.items()) == [(b"a", b"b")]
        raised(TypeError, kept.get, "a")
        raised(ValueError, prolly.verify, b"short", b"a", b"")
        raised(ValueError, prolly.verify_range, b"short", b"a", None, b"")
        raised(TypeError, prolly.verify_range, kept.root, "a", None, b"")
        raised(TypeError, prolly.verify_range, kept.root, b"a", 3, b"")
        raised(TypeError, kept.prove_range, b"a", "b")
        for proof in damaged(kept.prove_range()):
            raised(prolly.ProllyError, prolly.verify_range, kept.root, None, None, proof)
        for proof in damaged(kept.prove(b"a")):
            raised(prolly.ProllyError, prolly.verify, kept.root, b"a", proof)
    content = chunk_file([(b"a", b"b")], 6, 2)
    for place in range(len(content)):
        raised(prolly.ProllyError, prolly.check, content[:place])
        other = content[:place] + bytes([content[place] ^ 1]) + content[place + 1 :]
        # A map of one pair has one leaf, by whatever number of bits.
        if place != BITS_PLACE:
            raised(prolly.ProllyError, prolly.check, other)
    raised(prolly.ProllyError, prolly.check, b"")
    raised(ValueError, prolly.open, "kept.prl", check=False)
    raised(ValueError, prolly.open, "kept.prl", root=bytes(20))
    raised(prolly.ProllyError, prolly.open("kept.prl", check=False, root=bytes(20)).get, b"a")
    places()
    gc.collect()


def never():
    """Pairs that may not be asked for."""
    raise AssertionError("a pair was taken")
    yield


def wrong_words():
    """Words that are refused before anything is read, or a pair is taken."""
    for bits in (-1, 25, 256):
        raised(ValueError, prolly.build, "some.prl", never(), bits=bits)
    for version in (0, 3, 256):
        raised(ValueError, prolly.build, "some.prl", never(), version=version)
        raised(ValueError, prolly.open, "kept.prl", check=False, root=bytes(20), version=version)
    raised(FileNotFoundError, prolly.build, "none/some.prl", never())
    raised(ValueError, prolly.open, "kept.prl", version=2)
    raised(ValueError, prolly.open, "kept.prl", check=False, root=b"short")
    for root in (20, "a" * 20, [0] * 20):
        raised(TypeError, prolly.open, "kept.prl", check=False, root=root)


def mutable_proofs():
    """Of a proof that may change behind the call those pairs are given that were verified."""
    content, root = _prolly.chunk_file([(b"key", b"value")], 6, 2)
    proof = bytearray(prolly.check(content).prove_range())
    shown = prolly.verify_range(root, None, None, proof)
    proof[-1] ^= 1
    proof.append(0)
    assert list(shown) == [(b"key", b"value")]
    raised(prolly.ProllyError, prolly.verify_range, root, None, None, proof)
    start = bytearray(b"key")
    shown = prolly.verify_range(root, start, None, prolly.check(content).prove_range(start))
    start[:] = b"zoo"
    assert list(shown) == [(b"key", b"value")]


def places():
    """The chunk or the record that a fault names, where it names one."""
    content = chunk_file([(b"a", b"b")], 6, 2)
    kept = prolly.check(content)
    proof = kept.prove(b"a")
    for text, place, call, *args in (
        ("chunk file: truncated", None, prolly.check, content[:-1]),
        ("chunk file: bad frame", 0, prolly.check, content[:6] + b"?"),
        ("chunk file: bad frame", 1, prolly.check, content[:-END_SIZE] + b"?"),
        ("key out of order", 1, _prolly.chunk_file, [(b"b", b""), (b"a", b"")], 6, 2),
        ("proof: truncated", None, prolly.verify, kept.root, b"a", proof[:-1]),
        ("proof: a chunk is not the one referred to", 0, prolly.verify, bytes(20), b"a", proof),
        ("proof: bytes after the end", None, prolly.verify, kept.root, b"a", proof + b"C"),
    ):
        error = raised(prolly.ProllyError, call, *args)
        assert (error.fault, error.place) == (text, place)
        assert str(error) == (text if place is None else f"{text} ({place})")
        assert error.args == (text, error.status, place)


def keys_let_go():
    """A key is borrowed for a call, and let go also where the call fails: a bytearray can then grow again."""
    key, short = bytearray(b"a"), prolly.check(chunk_file([(b"a", b"b")], 6, 2))

    def closing():
        short.close()
        yield from b"z"

    raised(ValueError, short.items, key, closing())
    raised(ValueError, short.__getitem__, key)
    raised(ValueError, short.prove, key)
    raised(TypeError, _prolly.prove_range, b"", bytes(20), key, "z", 2)
    raised(ValueError, _prolly.prove, b"", b"short", key, 2)
    raised(TypeError, _prolly.chunk_file, [(key, "b")], 6, 2)
    raised(ValueError, _prolly.chunk_file, [(key, b"b", b"c")], 6, 2)
    raised(ValueError, _prolly.chunk_file, [(key, b"v" * 65537)], 6, 2)
    key.append(0)
    if sys.version_info >= (3, 12):
        keys_that_call()


class Key:
    """A key that makes a call as it is borrowed, and one as it is let go. Python knows such since 3.12."""

    def __init__(self, borrowed=int, let_go=int):
        self.borrowed, self.let_go = borrowed, let_go

    def __buffer__(self, _):
        self.borrowed()
        return memoryview(b"key")

    def __release_buffer__(self, view):
        view.release()
        self.let_go()


def keys_that_call():
    """Keys that close the tree which is asked, and one that empties its pair."""
    prolly.build("closed.prl", [(b"key", b"value")])
    for ask in (Tree.__getitem__, Tree.get):
        closed = prolly.open("closed.prl")
        assert ask(closed, Key(let_go=closed.close)) == b"value"
        raised(ValueError, ask, closed, b"key")
    for ask in (Tree.__getitem__, Tree.get, Tree.keys, Tree.prove, Tree.prove_range):
        closed = prolly.open("closed.prl")
        raised(ValueError, ask, closed, Key(borrowed=closed.close))
    pair = [Key(borrowed=lambda: pair.clear()), b"value" * 100]
    content, _ = _prolly.chunk_file([pair], 6, 2)
    assert list(prolly.check(content).items()) == [(b"key", b"value" * 100)]


def memory_refused():
    """Calls to which each growth of memory is refused in turn. They raise MemoryError, or do without, and let their keys go.
    Python can refuse it where it has the module for its own tests."""
    try:
        from _testcapi import remove_mem_hooks, set_nomemory
    except ImportError:
        print("SKIPPED the package for Python, to which memory is refused: Python has no _testcapi")
        return
    content, root = _prolly.chunk_file([(b"key", b"value")], 6, 2)
    key, small = bytearray(b"key"), prolly.check(content)
    other = prolly.check(chunk_file([(b"key", b"other")], 6, 2))
    proof, range_proof = small.prove(key), small.prove_range()
    for wanted, call in (
        ((content, root), lambda: _prolly.chunk_file([(key, b"value")], 6, 2)),
        (1, lambda: len(prolly.check(content))),
        (b"value", lambda: small[key]),
        (b"value", lambda: small.get(key, default=7)),
        ((b"key", b"value"), lambda: small.nth(0)),
        ([b"key"], lambda: list(small.keys(key, b"l"))),
        ([(b"key", b"value")], lambda: list(small.items(key))),
        ([(b"key", b"value", b"other")], lambda: list(prolly.diff(small, other))),
        (proof, lambda: small.prove(key)),
        (range_proof, lambda: small.prove_range(key)),
        (b"value", lambda: prolly.verify(root, key, proof)),
        ([(b"key", b"value")], lambda: list(prolly.verify_range(root, key, None, range_proof))),
    ):
        refusals_met = 0
        for number in range(MOST_GROWTHS):
            set_nomemory(number, number + 1)
            try:
                answer = call()
            except MemoryError:
                refusals_met += 1
            else:
                assert answer == wanted
            finally:
                remove_mem_hooks()
            key.append(0)
            key.pop()
        assert refusals_met > 0
        assert call() == wanted


def damaged(proof):
    """Each prefix of a proof, the proof with each bit flipped, and with a byte more."""
    for place in range(len(proof)):
        yield proof[:place]
        for bit in range(8):
            yield proof[:place] + bytes([proof[place] ^ 1 << bit]) + proof[place + 1 :]
    yield proof + b"C"


def by_threads():
    """Threads that ask one tree at a time."""
    pairs = [(b"%06d" % number, b"%d" % number) for number in range(5000)]
    prolly.build("threads.prl", pairs)
    with prolly.open("threads.prl") as shared:
        done = []

        def look():
            assert all(shared[key] == value for key, value in pairs)
            done.append(list(shared.items()) == pairs)

        threads = [threading.Thread(target=look) for _ in range(4)]
        for thread in threads:
            thread.start()
        for thread in threads:
            thread.join()
        assert done == [True] * 4


def replaced(folder):
    """Files that builds put in the place of others, in a folder of their own."""
    path = folder / "some.prl"
    by_threads_to(path)
    assert names(folder) == ["some.prl"]
    prolly.build(os.fsencode(path), [(b"a", b"1")])
    # What a process that was killed left, of the same number as this one.
    left = folder / f"some.prl.{os.getpid()}.tmp"
    left.write_bytes(b"left")
    prolly.build(path, [(b"a", b"2")])
    assert left.read_bytes() == b"left"
    left.unlink()
    # A name that another call has is left to it.
    with mock.patch("secrets.token_hex", return_value="0"):
        others = folder / "some.prl.0.tmp"
        others.write_bytes(b"another's")
        raised(FileExistsError, prolly.build, path, [(b"a", b"3")])
        assert others.read_bytes() == b"another's"
        others.unlink()
    with mock.patch("os.replace", side_effect=KeyboardInterrupt):
        raised(KeyboardInterrupt, prolly.build, path, [(b"a", b"4")])
    assert pairs_at(path) == [(b"a", b"2")]
    assert names(folder) == ["some.prl"]


def kept_links(folder):
    """Builds to symbolic links, which stay: what they name is replaced, or made."""
    path, link, chain = folder / "some.prl", folder / "link", folder / "chain"
    link.symlink_to("some.prl")
    chain.symlink_to(link)
    for number, name in enumerate((link, chain, path)):
        prolly.build(name, [(b"a", b"%d" % number)])
        assert pairs_at(path) == [(b"a", b"%d" % number)]
    assert os.readlink(link) == "some.prl"
    assert os.readlink(chain) == str(link)
    loop = folder / "loop"
    loop.symlink_to("loop")
    raised(OSError, prolly.build, loop, [])
    assert loop.is_symlink()
    pipe = folder / "pipe"
    os.mkfifo(pipe)
    for no_file in (pipe, folder):
        raised(OSError, prolly.build, no_file, [])
    assert stat.S_ISFIFO(pipe.stat().st_mode)
    assert names(folder) == ["chain", "link", "loop", "pipe", "some.prl"]
    # Nothing fits behind a name as long as this one.
    long = folder / ("\u00f6" * 127 + "o")
    for number in range(2):
        prolly.build(long, [(b"a", b"%d" % number)])
        assert pairs_at(long) == [(b"a", b"%d" % number)]
    assert len(names(folder)) == 6


def kept_access(folder):
    """Who may use a file that a build makes, or puts in the place of another one."""
    path = folder / "some.prl"
    mask = os.umask(0o027)
    try:
        prolly.build(path, [])
        assert access(path)[2] == 0o640
        for mode in (0o600, 0o644, 0o666):
            path.chmod(mode)
            prolly.build(path, [(b"a", b"%d" % mode)])
            assert access(path)[2] == mode
    finally:
        os.umask(mask)
    if os.geteuid() != 0:
        print("SKIPPED the package for Python, over the file of another user: this user can give no file away")
        return
    os.chown(path, NOBODY, NOBODY)
    prolly.build(path, [(b"b", b"")])
    assert access(path) == (NOBODY, NOBODY, 0o666)
    # Nobody may not give a file away, and so not to the group of this one.
    folder.chmod(0o777)
    os.chown(path, 0, 0)
    as_nobody(prolly.build, path, [(b"c", b"")])
    assert pairs_at(path) == [(b"c", b"")]
    assert access(path) == (NOBODY, NOBODY, 0o606)
    # A group of nobody's can be given, and the owner can't.
    os.chown(path, 0, NOBODY)
    path.chmod(0o664)
    as_nobody(prolly.build, path, [(b"d", b"")])
    assert access(path) == (NOBODY, NOBODY, 0o664)
    # A file that nobody may write is not replaced.
    path.chmod(0o444)
    as_nobody(raised, PermissionError, prolly.build, path, [(b"e", b"")])
    assert pairs_at(path) == [(b"d", b"")]
    assert names(folder) == ["some.prl"]


def kept_lists(folder):
    """Access lists, which a new file has as the old one has them. Where the file system has none, there is nothing to see."""
    path = folder / "some.prl"
    prolly.build(path, [])
    try:
        os.setxattr(path, ACCESS_LIST, OF_NOBODY)
    except OSError:
        print("SKIPPED the package for Python, over a file with an access list: the file system has none")
        return
    prolly.build(path, [(b"a", b"1")])
    assert os.getxattr(path, ACCESS_LIST) == OF_NOBODY
    assert access(path)[2] == 0o660
    # Where the list can't be given, the group gets no right that the list kept from it.
    with mock.patch("os.setxattr", side_effect=PermissionError):
        prolly.build(path, [(b"a", b"2")])
    assert access(path)[2] == 0o600
    # The list that a folder gives to new files is not for one that had none.
    os.removexattr(path, ACCESS_LIST)
    path.chmod(0o640)
    os.setxattr(folder, "system.posix_acl_default", OF_NOBODY)
    prolly.build(path, [(b"a", b"3")])
    raised(OSError, os.getxattr, path, ACCESS_LIST)
    assert access(path)[2] == 0o640


def other_kinds(folder):
    """Files that are no chunk files, which stay where it is not said that they may go."""
    path = folder / "notes"
    path.write_bytes(b"of mine")
    raised(FileExistsError, prolly.build, path, never())
    assert path.read_bytes() == b"of mine"
    prolly.build(path, [(b"a", b"1")], force=True)
    prolly.build(path, [(b"a", b"2")])
    path.write_bytes(b"")
    prolly.build(path, [(b"a", b"3")])
    assert pairs_at(path) == [(b"a", b"3")]
    for no_file in ("/dev/null", folder):
        raised(OSError, prolly.open, no_file)
        raised(OSError, prolly.open, no_file, check=False, root=bytes(20))


def held(folder):
    """A file that is open as a tree is not written in its place meanwhile, where the file system has locks."""
    path = folder / "some.prl"
    prolly.build(path, [(b"a", b"1")])
    with open(path, "r+b") as other:
        with prolly.open(path):
            raised(BlockingIOError, fcntl.flock, other, fcntl.LOCK_EX | fcntl.LOCK_NB)
            # A build puts another file in its place.
            prolly.build(path, [(b"a", b"2")])
        fcntl.flock(other, fcntl.LOCK_EX | fcntl.LOCK_NB)
        prolly.open(path).close()
    with open(path, "r+b") as other:
        fcntl.flock(other, fcntl.LOCK_EX | fcntl.LOCK_NB)
        raised(BlockingIOError, prolly.open, path)


def access(path):
    """The owner, the group and the mode of a file."""
    status = os.stat(path)
    return status.st_uid, status.st_gid, stat.S_IMODE(status.st_mode)


def as_nobody(call, *args):
    """Makes a call in a process that has no rights of the system's own user."""
    child = os.fork()
    if child == 0:
        try:
            os.setgroups([])
            os.setgid(NOBODY)
            os.setuid(NOBODY)
            call(*args)
        except BaseException:
            traceback.print_exc()
            os._exit(1)
        os._exit(0)
    assert os.waitstatus_to_exitcode(os.waitpid(child, 0)[1]) == 0


def by_threads_to(path):
    """Threads that build to one path at a time: each succeeds, and what is there is always one of their files."""
    files = [[(b"%06d" % number, b"%d" % seed) for number in range(500)] for seed in range(6)]
    prolly.build(path, files[0])
    done = []

    def build(pairs):
        for _ in range(8):
            prolly.build(path, pairs)
            assert pairs_at(path) in files
        done.append(pairs)

    threads = [threading.Thread(target=build, args=[pairs]) for pairs in files]
    for thread in threads:
        thread.start()
    for thread in threads:
        thread.join()
    assert len(done) == len(files)


def pairs_at(path):
    """The pairs of a file."""
    with prolly.open(path) as tree_there:
        return list(tree_there.items())


def names(folder):
    """What a folder has."""
    return sorted(os.listdir(folder))


def raised(kind, call, *args, **words):
    """The error of a call, which has to be of this kind."""
    try:
        call(*args, **words)
    except kind as error:
        return error
    raise AssertionError(f"{call} of {args!r:.80} did not raise {kind.__name__}")


if __name__ == "__main__":
    main()
