"""Look-ups by the root: their words, what a map has, and what the second reader answers. And a folder in which the program
is asked, and compared with both."""

import random
import re
import subprocess
from dataclasses import dataclass

from oracle.checker import HEADER_SIZE, Fault
from oracle.escapes import text_lines
from oracle.proof import ABSENT, FRAME_SIZE, proof_of, proof_of_chunks, way
from oracle.reader import Reader
from oracle.trees import chunk_file, records, reference_text, tree
from support.harness import LONGEST, hexed, line, shown
from support.measured import HUNG

NO_VALUE = (1, b"", b"")

ALL = 1_000_000
"""The greatest limit of a scan."""

ABOVE_ALL = b"\xff" * 1_025
"""A key that is above all that a map can have."""

LINES = re.compile(rb"(?:[0-9a-f]* [0-9a-f]*\n)*")

FAULT_LINE = re.compile(rb"prolly: chunk file: [^\n]+\n")


def refusal(fault):
    """The answer where a file is refused."""
    return 4, b"", f"prolly: chunk file: {fault}\n".encode()


NO_COUNTS = refusal("no counts")
"""The answer to who asks for a number in a tree whose nodes have no counts."""


def lines_of(pairs):
    """The lines of pairs."""
    return b"".join(map(line, pairs))


# ---- maps


class Kind:
    """A map with its tree and its chunk file."""

    def __init__(self, pairs, bits, version):
        self.pairs = pairs
        self.map = dict(pairs)
        self.version = version
        self.bits = bits
        self.top = tree(pairs, bits, version)
        self.root = self.top.reference
        self.chunks = [part.chunk for part in self.top.trees()]
        self.content = chunk_file(pairs, bits, version)

    def way(self, key):
        """The numbers of the chunks that a look-up meets."""
        return [self.chunks.index(chunk) for chunk in way(self.top, key)]

    def place(self, number):
        """The place of a chunk in the file, behind the frame's start."""
        return HEADER_SIZE + sum(FRAME_SIZE + len(chunk) for chunk in self.chunks[:number]) + FRAME_SIZE

    def with_byte(self, number, place, bits_turned):
        """The file with some bits turned in a byte of a chunk."""
        return turned(self.content, self.place(number) + place, bits_turned)

    def leaf_from(self, key):
        """The first pairs from a key on that stand in one leaf."""
        for part in self.top.trees():
            if part.level == 0 and part.key >= key:
                return [pair for pair in self.pairs if key <= pair[0] <= part.key]
        return []


def turned(content, place, bits_turned):
    """Bytes with some bits turned in one of them."""
    return content[:place] + bytes([content[place] ^ bits_turned]) + content[place + 1 :]


def random_pairs(chance, count):
    """A map of so many pairs, whose keys are of any bytes and some lengths."""
    pairs = {}
    while len(pairs) < count:
        key = chance.randbytes(chance.choice([1, 2, 3, 4, 8, 20])) if pairs else chance.choice([b"", b"k"])
        pairs[key] = chance.randbytes(chance.choice([0, 1, 5, 20, 60]))
    return sorted(pairs.items())


# ---- the look-ups


def words_of(command, root, version, *words):
    """The words of a look-up."""
    return [command, "--root", reference_text(root), *(["--format", "2"] if version == 2 else []), *words]


@dataclass(frozen=True)
class Get:
    """The value of a key."""

    key: bytes

    def words(self, root, version, name="in.prl"):
        """The words that ask for it."""
        return words_of("get", root, version, name, self.key.hex())

    def right(self, kind):
        """The answer for a map."""
        return answer_of(kind.map.get(self.key, ABSENT))

    def verdict(self, content, root, version):
        """What the second reader answers: the status, and what is printed to both streams."""
        try:
            return answer_of(Reader(content, root, version).get(self.key))
        except Fault as fault:
            return refusal(fault)

    def steps(self, _):
        """The look-ups that it takes: for each how many pairs are printed before it, and its key."""
        yield 0, self.key

    def is_begun(self, answer, _):
        """Whether an answer is a fault, and nothing of what is right was printed before it that is wrong."""
        return is_fault(answer) and answer[1] == b""


@dataclass(frozen=True)
class Prove:
    """The proof of a key, written to standard output."""

    key: bytes

    def words(self, root, version, name="in.prl"):
        """The words that ask for it."""
        return words_of("prove", root, version, name, self.key.hex(), "/dev/stdout")

    def right(self, kind):
        """The answer for a map: what the second maker makes."""
        return 0, proof_of(kind.top, self.key, kind.version), b""

    def verdict(self, content, root, version):
        """What the second reader answers."""
        try:
            return 0, proof_of_chunks(Reader(content, root, version).way(self.key), version), b""
        except Fault as fault:
            return refusal(fault)

    def steps(self, _):
        """The look-up that it takes."""
        yield 0, self.key

    def is_begun(self, answer, _):
        """Whether an answer is a fault, before which nothing was written."""
        return is_fault(answer) and answer[1] == b""


@dataclass(frozen=True)
class Nth:
    """The pair of a number."""

    number: int

    def words(self, root, version, name="in.prl"):
        """The words that ask for it."""
        return words_of("nth", root, version, name, str(self.number))

    def right(self, kind):
        """The answer for a map."""
        if kind.version == 1:
            return NO_COUNTS
        return (0, line(kind.pairs[self.number]), b"") if self.number < len(kind.pairs) else NO_VALUE

    def verdict(self, content, root, version):
        """What the second reader answers."""
        if version == 1:
            return NO_COUNTS
        try:
            pair = Reader(content, root, version).nth(self.number)
        except Fault as fault:
            return refusal(fault)
        return NO_VALUE if pair is None else (0, line(pair), b"")

    def steps(self, kind):
        """The look-up of a key that goes the same way; none in format 1."""
        if kind.version == 2:
            yield 0, kind.pairs[self.number][0] if self.number < len(kind.pairs) else ABOVE_ALL

    def is_begun(self, answer, _):
        """Whether an answer is a fault."""
        return is_fault(answer) and answer[1] == b""


@dataclass(frozen=True)
class Scan:
    """Pairs from a key on, at most so many."""

    key: bytes
    limit: int = ALL

    def words(self, root, version, name="in.prl"):
        """The words that ask for them."""
        return words_of("scan", root, version, name, self.key.hex(), str(self.limit))

    def right(self, kind):
        """The answer for a map."""
        return 0, lines_of([pair for pair in kind.pairs if pair[0] >= self.key][: self.limit]), b""

    def verdict(self, content, root, version):
        """What the second reader answers. What was printed before a fault stays."""
        reader, printed, key = Reader(content, root, version), [], self.key
        try:
            while len(printed) < self.limit:
                found = reader.pairs_from(key)
                printed += found
                if not found:
                    break
                key = found[-1][0] + b"\0"
        except Fault as fault:
            return 4, lines_of(printed), refusal(fault)[2]
        return 0, lines_of(printed[: self.limit]), b""

    def first(self, kind, count):
        """What is printed of so many pairs."""
        return Scan(self.key, count).right(kind)[1]

    def steps(self, kind):
        """A look-up for each leaf, and one that finds none."""
        printed, key = 0, self.key
        while printed < self.limit:
            yield printed, key
            found = kind.leaf_from(key)
            if not found:
                break
            printed += len(found)
            key = found[-1][0] + b"\0"

    def is_begun(self, answer, right):
        """Whether an answer is a fault behind the first lines of what is right."""
        return is_fault(answer) and right[1].startswith(answer[1]) and bool(LINES.fullmatch(answer[1]))


@dataclass(frozen=True)
class Dump:
    """All pairs: as a record file, or as lines where a flag says so."""

    flag: str = ""

    def words(self, root, version, name="in.prl"):
        """The words that ask for them."""
        return words_of("dump", root, version, *([self.flag] if self.flag else []), name)

    def written(self, pairs):
        """What is written of pairs."""
        return {"": records, "--hex": lines_of, "--text": text_lines}[self.flag](pairs)

    def right(self, kind):
        """The answer for a map."""
        return 0, self.written(kind.pairs), b""

    def verdict(self, content, root, version):
        """What the second reader answers. What was written before a fault stays."""
        status, found, fault = every_pair(content, root, version)
        return status, self.written(found), fault

    def first(self, kind, count):
        """What is written of so many pairs."""
        return self.written(kind.pairs[:count])

    def steps(self, kind):
        """A look-up for each leaf, and one that finds none."""
        yield from Scan(b"").steps(kind)

    def is_begun(self, answer, right):
        """Whether an answer is a fault behind what is right."""
        return is_fault(answer) and right[1].startswith(answer[1])


def every_pair(content, root, version):
    """The pairs that the second reader finds, leaf by leaf: the status, the pairs, and the line of what stops it."""
    reader, found, key = Reader(content, root, version), [], b""
    try:
        while leaf := reader.pairs_from(key):
            found += leaf
            key = found[-1][0] + b"\0"
    except Fault as fault:
        status, _, line = refusal(fault)
        return status, found, line
    return 0, found, b""


def answer_of(value):
    """The answer that says what a key has."""
    return NO_VALUE if value is ABSENT else (0, hexed(value) + b"\n", b"")


def is_fault(answer):
    """Whether an answer is the line of a fault of a chunk file, with its status."""
    return answer[0] == 4 and bool(FAULT_LINE.fullmatch(answer[2]))


def chunks_of(kind, look_up):
    """The numbers of the chunks that a look-up needs, each with how many pairs are printed before it is read."""
    met = {}
    for printed, key in look_up.steps(kind):
        for number in kind.way(key):
            met.setdefault(number, printed)
    return met


# ---- a folder in which the program is asked


class Asked:
    """A folder with a chunk file, and what the program answers there, which is to be what the second reader does."""

    def __init__(self, program, folder):
        self.program = program
        self.folder = folder
        self.content = None
        self.differences = []

    def run(self, words):
        """Runs the program, and gives its status and what it printed."""
        try:
            done = subprocess.run([self.program, *words], cwd=self.folder, capture_output=True, check=False, timeout=LONGEST)
        except subprocess.TimeoutExpired:
            return HUNG, b"", b""
        return done.returncode, done.stdout, done.stderr

    def lay(self, content):
        """Makes this the chunk file."""
        if content != self.content:
            (self.folder / "in.prl").write_bytes(content)
            self.content = content

    def asks(self, about, content, root, version, look_up):
        """Looks up. Gives what is to be answered."""
        self.lay(content)
        wanted = look_up.verdict(content, root, version)
        self.wants(f"{about}, {shown_look_up(look_up)}", self.run(look_up.words(root, version)), wanted)
        return wanted

    def finds(self, about, content, kind, look_up, right=None):
        """Looks up below the root of a map, where the second reader is to answer this, or what the map has."""
        answer = self.asks(about, content, kind.root, kind.version, look_up)
        self.wants(f"the second reader, {about}, {shown_look_up(look_up)}", answer, look_up.right(kind) if right is None else right)

    def is_never_wrong(self, about, content, kind, look_up):
        """A file that was changed in any way is refused, or answers rightly; and what is printed before a fault is right."""
        answer, right = self.asks(about, content, kind.root, kind.version, look_up), look_up.right(kind)
        if answer != right and not look_up.is_begun(answer, right):
            self.note(f"{about}: the second reader answers {shown_answer(answer)}")

    def is_refused_by_check(self, content):
        """`check` does not take the file."""
        self.lay(content)
        if self.run(["check", "in.prl"])[0] != 4:
            self.note("`check` takes the file")

    def wants(self, about, found, wanted):
        """Notes where an answer is another one than is wanted."""
        if found != wanted:
            self.note(f"{about}: {shown_answer(found)}, wanted {shown_answer(wanted)}")

    def note(self, difference):
        """Notes a difference."""
        self.differences.append(difference)


def shown_answer(answer):
    """An answer for a line of a report."""
    status, out, err = answer
    return f"status {status}, {shown(out)}, {shown(err)}"


def shown_look_up(look_up):
    """A look-up for a line of a report."""
    return repr(look_up)[:120]


def chance_of(*seeds):
    """Random numbers that are the same in each run."""
    return random.Random(" ".join(map(str, seeds)))
