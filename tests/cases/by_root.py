"""`get`, `nth`, `scan`, `prove` and `dump` with `--root`: looked up by the root, in a file of which little is read and nothing believed. Each
look-up is compared with the map, and where a file was changed with the second reader."""

import errno
import os
import re
import resource
import subprocess
import tempfile
from functools import partial
from pathlib import Path

from cases.by_root_words import FAR, MISSING, READ_FAILED, counted_node
from cases.look_ups import LONG, assembled, leaf
from cases.proofs import node
from cases.scratch import ABC, numbered
from oracle.checker import HEADER_SIZE, KEY_LIMIT
from oracle.proof import FRAME_SIZE, MORE, TRUNCATED, WRONG_VERSION, another, bad_chunk, bad_frame, wrong_level
from oracle.trees import chunk_file, reference, reference_text
from support.by_root import (
    ABOVE_ALL,
    ALL,
    NO_COUNTS,
    Asked,
    Dump,
    Get,
    Kind,
    Nth,
    Prove,
    Scan,
    chance_of,
    chunks_of,
    lines_of,
    random_pairs,
    refusal,
    shown_answer,
    turned,
)
from support.harness import tested
from support.place import all_of

KEYS_OF_A_TREE = 24

LAST_NUMBER = 2**32 - 1
"""The greatest number that can be asked for."""

FORMS = ("", "--hex", "--text")
"""The flags of a dump."""

MOST_LOOK_UPS = 30
"""Of a scan or a dump in a large tree, which goes over all starts of frames for each."""


# ---- what is asked for


def keys_of(chance, pairs):
    """Keys that the map has and has not: below and above all, between, and beside those that it has."""
    keys = [b"", b"\0", b"\xff" * 21, b"\xff" * 1_024, *(chance.randbytes(4) for _ in range(4))]
    if pairs:
        some = [chance.choice(pairs)[0] for _ in range(5)]
        keys += [pairs[0][0], pairs[-1][0], pairs[-1][0] + b"\0", *some]
        keys += [key + b"\0" for key in some] + [key[:-1] for key in some]
    keys = [*keys, *(chance.randbytes(2) for _ in range(KEYS_OF_A_TREE))][:KEYS_OF_A_TREE]
    return [key for key in keys if len(key) <= KEY_LIMIT]


def numbers_of(chance, pairs):
    """Numbers at the edges, and between."""
    count = len(pairs)
    return [0, 1, max(0, count - 2), max(0, count - 1), count, count + 1, LAST_NUMBER, *(chance.randrange(count + 1) for _ in range(12))]


def scans_of(chance, kind):
    """Scans from keys below and above all, and between, of no pair, one, those of a leaf, one more, and more than all; of
    fewer where these are in many leaves."""
    keys = [b"", b"\xff" * 1_024, chance.randbytes(2)]
    if kind.pairs:
        some = chance.choice(kind.pairs)[0]
        keys += [kind.pairs[0][0], kind.pairs[-1][0], kind.pairs[-1][0] + b"\0", kind.pairs[-2:][0][0], some, some + b"\0", some[:-1]]
    for key in keys:
        if len(key) <= KEY_LIMIT:
            one_leaf = len(kind.leaf_from(key))
            leaves = sum(part.level == 0 and part.key >= key for part in kind.top.trees())
            for limit in sorted({0, 1, one_leaf, one_leaf + 1, one_leaf + 10, ALL if leaves < MOST_LOOK_UPS else one_leaf + 1}):
                yield Scan(key, limit)


def look_ups_of(chance, kind):
    """Look-ups of each kind in a map."""
    yield from map(Get, keys_of(chance, kind.pairs))
    yield from map(Prove, keys_of(chance, kind.pairs)[::3])
    yield from map(Nth, numbers_of(chance, kind.pairs))
    yield from scans_of(chance, kind)
    if sum(part.level == 0 for part in kind.top.trees()) < MOST_LOOK_UPS:
        yield from map(Dump, FORMS)


def some_look_ups(kind, chance):
    """A few look-ups of each kind, in a map of some tens of pairs."""
    keys = [kind.pairs[0][0], kind.pairs[40][0], kind.pairs[40][0] + b"\0", b"\xff" * 30]
    yield from map(Get, keys)
    yield from map(Prove, keys[1:])
    if kind.version == 2:
        yield from map(Nth, numbers_of(chance, kind.pairs)[:10])
    for key in (b"", kind.pairs[20][0], kind.pairs[-9][0] + b"\0", ABOVE_ALL[:-1]):
        yield from (Scan(key, limit) for limit in (1, 7, ALL))
    yield from map(Dump, FORMS)


def first_look_ups(kind):
    """A look-up of each kind, for a file that is refused at once."""
    return [Get(b"b"), Prove(b"b"), *([Nth(0)] if kind.version == 2 else []), Scan(b""), Dump()]


# ---- the map's own answers


def kinds():
    """Maps, bits and versions, with a name."""
    chance = chance_of("kinds")
    for bits in (0, 1, 4, 8, 12):
        for version in (1, 2):
            for count in (0, 1, 2, 3, 60, 1_500, 4_000):
                yield f"{count} pairs, --bits {bits}, format {version}", random_pairs(chance, count), bits, version
    for version in (1, 2):
        yield f"the greatest pair, format {version}", LONG, 0, version


def are_the_maps(asked, pairs, bits, version):
    """The answers are the map's."""
    kind, chance = Kind(pairs, bits, version), chance_of(bits, version, len(pairs))
    look_ups = map(Get, keys_of(chance, pairs)) if len(pairs) == 4_000 else look_ups_of(chance, kind)
    for look_up in look_ups:
        asked.finds("the map's", kind.content, kind, look_up)


def every_pair(asked, pairs, bits):
    """Each pair is found by its key, by its number, and by a scan of one pair from its key on."""
    kind = Kind(pairs, bits, 2)
    for number, (key, _) in enumerate(pairs):
        for look_up in (Get(key), Nth(number), Scan(key, 1)):
            asked.finds("each", kind.content, kind, look_up)


# ---- other roots, other versions


def are_of_another_tree(asked, version):
    """The root of another map, and this root with that map's file: the file's root is not the one referred to."""
    pairs = random_pairs(chance_of(version), 60)
    kind = Kind(pairs, 1, version)
    others = [[], pairs[1:], [*pairs, (b"\xff" * 30, b"1")], [(pairs[0][0], pairs[0][1] + b"!"), *pairs[1:]]]
    look_ups = [*map(Get, (pairs[0][0], pairs[30][0], b"\xff" * 31)), *first_look_ups(kind)]
    for number, other in enumerate([*(Kind(changed, 1, version) for changed in others), Kind(pairs, 0, version)]):
        for look_up in look_ups:
            for file, asked_of in ((kind, other), (other, kind)):
                asked.finds(f"tree {number}", file.content, asked_of, look_up, refusal(another(len(file.chunks) - 1)))
    for word in (bytes(20), b"\xff" * 20, kind.root[:-1] + bytes([kind.root[-1] ^ 1])):
        for look_up in look_ups:
            asked.asks(f"the root {word.hex()}", kind.content, word, version, look_up)


def are_of_the_other_version(asked, version):
    """A file of the other version than is told; and one whose header lies: what is told counts. A number in format 1 is
    refused for its version first, whatever the file is."""
    told = 3 - version
    for pairs in ([], ABC[:1], ABC, numbered(60)):
        kind = Kind(pairs, 0, version)
        for look_up in (Get(b"a"), Prove(b"a"), Nth(0), Scan(b"", 1), Scan(b""), Dump()):
            wanted = NO_COUNTS if told == 1 and isinstance(look_up, Nth) else refusal(WRONG_VERSION)
            answer = asked.asks("the other version", kind.content, kind.root, told, look_up)
            asked.wants(f"the second reader, {look_up}", answer, wanted)
        if len(pairs) > len(ABC):
            continue
        answer = asked.asks("a header that lies", turned(kind.content, 4, 3), kind.root, told, Get(b"a"))
        # Leaves are alike in both versions.
        wanted = Get(b"a").right(kind) if len(pairs) < 2 else refusal(bad_chunk(len(kind.chunks) - 1))
        asked.wants("the second reader, a header that lies", answer, wanted)


def have_no_counts(asked):
    """A number in format 1 is refused before the file is opened: so it is where there is none."""
    kind = Kind(ABC, 0, 1)
    for content in (kind.content, kind.content[:-1], chunk_file(ABC, 0, 2), b""):
        asked.lay(content)
        for words in (Nth(1).words(kind.root, 1), ["nth", "--format", "1", "--root", reference_text(kind.root), "in.prl", "1"]):
            asked.wants("no counts", asked.run(words), NO_COUNTS)
    for name in ("none", "."):
        asked.wants(f"no counts, and the file {name}", asked.run(Nth(1).words(kind.root, 1, name)), NO_COUNTS)


# ---- what is not on the way is not believed


def way_kinds():
    """A few trees of several levels."""
    for version, bits in ((1, 0), (2, 0), (2, 1), (1, 4), (2, 4)):
        yield version, bits, random_pairs(chance_of(bits), 60)


def changed_in(kind, chance, number):
    """The file with a bit turned in a byte of a chunk, not in its level; or, if it has no more than that, with another one."""
    length = len(kind.chunks[number])
    return kind.with_byte(number, chance.randrange(1, length) if length > 1 else 0, 1 << chance.randrange(8))


def are_changed_elsewhere(asked, pairs, bits, version):
    """One byte is another in a chunk that is on no way: the answer is as it was, while `check` refuses the file."""
    kind, chance = Kind(pairs, bits, version), chance_of(1)
    for look_up in some_look_ups(kind, chance):
        met = chunks_of(kind, look_up)
        others = [number for number in range(len(kind.chunks)) if number not in met]
        for number in chance.sample(others, min(12, len(others))):
            changed = changed_in(kind, chance, number)
            asked.finds(f"chunk {number} changed", changed, kind, look_up)
            if isinstance(look_up, Get):
                asked.is_refused_by_check(changed)


def are_changed_on_the_way(asked, pairs, bits, version):
    """One byte is another in a chunk of a way: that chunk is named, behind the pairs of the leaves before it."""
    kind, chance = Kind(pairs, bits, version), chance_of(2)
    for look_up in some_look_ups(kind, chance):
        met = chunks_of(kind, look_up)
        for number in sorted(met) if len(met) < 8 else chance.sample(sorted(met), 8):
            wanted = 4, look_up.first(kind, met[number]) if met[number] else b"", refusal(another(number))[2]
            for _ in range(4 if isinstance(look_up, Get) else 1):
                asked.finds(f"chunk {number} changed", changed_in(kind, chance, number), kind, look_up, wanted)


def are_on_other_levels(asked, pairs, bits, version):
    """The level of a chunk is another: refused, or what is printed is right."""
    kind, chance = Kind(pairs, bits, version), chance_of(3)
    for look_up in [*map(Get, (pairs[0][0], pairs[40][0], b"\xff" * 30)), *([Nth(40)] if version == 2 else []), Scan(pairs[25][0]), Dump()]:
        numbers = {*list(chunks_of(kind, look_up))[:8], *chance.sample(range(len(kind.chunks)), min(12, len(kind.chunks)))}
        for number in sorted(numbers):
            for bits_turned in (1, 2, 3, 0xFF):
                asked.is_never_wrong(f"the level of chunk {number}", kind.with_byte(number, 0, bits_turned), kind, look_up)


def are_among_more_chunks(asked, pairs, bits, version):
    """Chunks between the others, of levels that no child has, are passed over; and what the header says of bits, and the
    end record, is not read."""
    kind = Kind(pairs, bits, version)
    between = [b"\xff", bytes([kind.top.level]) + b"any bytes", bytes([kind.top.level + 1])]
    many = [chunk for number, found in enumerate(kind.chunks) for chunk in (between[number % len(between)], found)]
    spoiled = {
        "chunks between": assembled(many, kind.root, bits, version),
        "another end record": assembled(kind.chunks, bytes(20), bits, version, 7),
        "other bits": assembled(kind.chunks, kind.root, bits + 1, version),
    }
    for about, content in spoiled.items():
        for look_up in [*some_look_ups(kind, chance_of(4)), *(map(Nth, (0, 30, 59, 60)) if version == 2 else [])]:
            asked.finds(about, content, kind, look_up)
        asked.is_refused_by_check(content)


def are_among_other_trees(asked, pairs, bits, version):
    """A file has chunks of other trees, too: before its own, among them, or in place of some of them."""
    kind, chance = Kind(pairs, bits, version), chance_of(4)
    other = Kind([*pairs[:20], *random_pairs(chance, 40)[20:], *pairs[20:50]][:50], bits, version)
    late = Kind([(b"\xff" + key, value) for key, value in pairs], bits, version)
    files = {"behind others": [*other.chunks, *kind.chunks], "behind later ones": [*late.chunks, *kind.chunks]}
    for turn in range(12):
        mixed = list(kind.chunks)
        for _ in range(chance.choice([1, 1, 2, 5])):
            place, chunk = chance.randrange(len(mixed)), chance.choice([*other.chunks, *late.chunks])
            mixed[place : place + chance.randrange(2)] = [chunk]
        files[f"among others, {turn}"] = mixed
    for about, chunks in files.items():
        content = assembled(chunks, kind.root, bits, version)
        for look_up in (Get(pairs[40][0]), Prove(pairs[40][0]), *map(Nth, (0, 45) if version == 2 else ()), Scan(b""), Scan(pairs[40][0]), Dump()):
            asked.is_never_wrong(about, content, kind, look_up)
        for look_up in first_look_ups(other):
            asked.is_never_wrong(f"{about}, the other's root", content, other, look_up)


# ---- small files, all of whose parts are changed


SMALL = [(ABC, 1), (ABC, 2), ([(b"", b"1"), (b"bb", b"")], 1), ([(b"", b"1"), (b"bb", b"")], 2)]


def bits_are_turned(asked, pairs, version):
    """A bit is turned in each byte."""
    kind, chance = Kind(pairs, 0, version), chance_of(4)
    for place in range(len(kind.content)):
        for bit in chance.sample(range(8), 2):
            changed = turned(kind.content, place, 1 << bit)
            numbers = [Nth(chance.randrange(4))] if version == 2 else []
            for look_up in (Get(b"b"), Get(b"bb"), Prove(chance.choice([b"b", b"bb"])), *numbers, Scan(chance.choice([b"", b"b"])), Dump(chance.choice(FORMS))):
                asked.is_never_wrong(f"byte {place}, bit {bit}", changed, kind, look_up)


def are_refused(asked, about, content, kind, fault):
    """Each look-up is refused by this fault."""
    for look_up in first_look_ups(kind):
        asked.finds(about, content, kind, look_up, refusal(fault))


def are_cut(asked, pairs, version):
    """Each first part is refused as one."""
    kind = Kind(pairs, 0, version)
    for size in range(len(kind.content)):
        are_refused(asked, f"{size} bytes", kind.content[:size], kind, TRUNCATED)


def are_long(asked, pairs, version):
    """Bytes behind the end are refused, whatever they are."""
    kind = Kind(pairs, 0, version)
    for more in (b"\0", b"C", b"E", kind.content[HEADER_SIZE:], kind.content, bytes(10_000)):
        are_refused(asked, f"{len(more)} bytes more", kind.content + more, kind, MORE)


def frames_are_others(asked, pairs, version):
    """In each frame another letter, and lengths that no chunk has."""
    kind = Kind(pairs, 0, version)
    for number, chunk in enumerate(kind.chunks):
        start = kind.place(number) - FRAME_SIZE
        for letter in b"DBc\0\xff":
            changed = kind.content[:start] + bytes([letter]) + kind.content[start + 1 :]
            are_refused(asked, f"letter {letter}", changed, kind, bad_frame(number))
        # Some of these come to the same place, or to one before it, if the sum is taken modulo 2^64.
        for length in (0, 2**63, 2**64 - 1, 2**64 - 9, 2**64 - start - 9, 2**64 - start, 2**32 + len(chunk), len(kind.content)):
            changed = kind.content[: start + 1] + length.to_bytes(8, "big") + kind.content[start + FRAME_SIZE :]
            are_refused(asked, f"length {length}", changed, kind, bad_chunk(number) if length == 0 else TRUNCATED)


# ---- a file that gives other bytes from read to read, and reads that fail


def placed_look_ups(kind):
    """A look-up of each kind that ends at the last pair, and of an absent key."""
    numbers = [Nth(len(kind.pairs) - 1)] if kind.version == 2 else []
    return [Get(b"b"), Get(b"bb"), Prove(b"b"), Prove(b"bb"), *numbers, Scan(b""), *map(Dump, FORMS)]


def give_other_bytes(place, version):
    """In each read a bit of some byte is turned: the file is refused, or the answer is right; and what is printed is."""
    kind, chance = Kind(ABC, 0, version), chance_of(version)
    place.lay(in_prl=kind.content)
    for look_up in placed_look_ups(kind):
        words, right = look_up.words(kind.root, version), look_up.right(kind)
        _, calls = place.meddled(*words)
        for number in range(1, reads_in(calls) + 1):
            for at in range(12) if isinstance(look_up, Get) else chance.sample(range(12), 4):
                turn = f"{number} {at} {1 << chance.randrange(8)}"
                answer, _ = place.meddled(*words, meddle={"turn": turn})
                if answer != right and not look_up.is_begun(answer, right):
                    place.note(f"{words[0]}, turned {turn}: {shown_answer(answer)}")


def reads_in(calls):
    """How many of the calls are reads."""
    return sum(call.startswith("pread ") for call in calls)


def are_of_another_level(place):
    """A child that stands two levels below its node, of which the start of its frame told another level before."""
    a = leaf(FAR[0])
    for version, root, look_ups in ((1, node(2, (b"a", a)), [Get(b"a")]), (2, counted_node(2, (b"a", a, 1)), [Nth(0), Scan(b""), Dump()])):
        place.lay(in_prl=assembled([a, root], bytes(20), 0, version))
        for look_up in look_ups:
            words = look_up.words(reference(root), version)
            place.answers(place.meddled(*words)[0], refusal(MISSING))
            # The header, the starts of the two frames and of the end record, the root, and then the start of the first frame.
            answer, _ = place.meddled(*words, meddle={"turn": f"6 {FRAME_SIZE} 1"})
            place.answers(answer, refusal(wrong_level(0)))


def stand_twice(place):
    """One chunk stands in two places, and was changed in one of them: who looks up there is told so, whatever was looked up
    before."""
    a, changed = leaf(ABC[0]), leaf(ABC[1])
    root = node(1, (b"a", a), (b"c", a))
    place.lay(in_prl=assembled([a, changed, root], bytes(20)), first=b"61\n", both=b"61\n63\n")
    asked = ["get", "--root", reference_text(reference(root)), "in.prl"]
    found = place.run(*asked, "--keys", "first")
    place.answers(found, (0, b"61 31\n", b""))
    status, _, why = refusal(another(1))
    place.answers(place.run(*asked, "63"), (status, b"", why))
    place.answers(place.run(*asked, "--keys", "both"), (status, b"61 31\n", why))


def fail_to_read(place, call, version):
    """Each call of a kind fails in turn: that is told behind the pairs of the leaves that were read before."""
    kind = Kind(FAR, 0, version)
    place.lay(in_prl=kind.content)
    for look_up in placed_look_ups(kind):
        words, printed = look_up.words(kind.root, version), []
        for number in range(1, 1_000):
            answer, calls = place.meddled(*words, meddle={"fail": f"{call} {number} {errno.EIO}"})
            if sum(told.startswith(f"{call} ") for told in calls) < number:
                place.answers(answer, look_up.right(kind))
                break
            place.answers(answer, (5, None, READ_FAILED))
            printed.append(answer[1])
        if number < 10:
            place.note("too few calls to tell")
        # The last look-up of a scan or a dump ends at the root, which was read before: nothing is read once all is printed.
        firsts = [look_up.first(kind, count) for count in range(len(FAR))] if isinstance(look_up, (Scan, Dump)) else [b""]
        if [out for number, out in enumerate(printed) if out not in printed[:number]] != firsts:
            place.note(f"{words[0]}, {call} fails: printed {printed}")


def are_interrupted(place, version):
    """Reads that are interrupted are made again."""
    kind = Kind(ABC, 0, version)
    place.lay(in_prl=kind.content)
    for look_up in placed_look_ups(kind):
        answer, _ = place.meddled(*look_up.words(kind.root, version), meddle={"interrupt": "3"})
        place.answers(answer, look_up.right(kind))


def read_little(place, bits, version):
    """A look-up reads no more than the header, the starts of the frames, once for the root and once for each level among
    those below one chunk, and a chunk a level; and a scan reads no chunk twice, and no start among those below one."""
    for count, keys in ((2_000, (0, 1_111, 1_999)), (400, (0, 200, 396))):
        kind = Kind(numbered(count), bits, version)
        place.lay(in_prl=kind.content)
        look_ups = [*(Get(kind.pairs[number][0]) for number in keys), Get(b"\xff" * 9), Prove(kind.pairs[keys[1]][0])]
        if count == 400:
            look_ups += [Scan(b"", 1), Scan(kind.pairs[200][0], 9), Scan(kind.pairs[-4][0]), Scan(ABOVE_ALL[:-1], 1)]
            look_ups += map(Nth, (0, 200, 399, 400) if version == 2 else ())
            look_ups.append(Dump())
        for look_up in look_ups:
            answer, calls = place.meddled(*look_up.words(kind.root, version))
            place.answers(answer, look_up.right(kind))
            most = most_reads(kind, look_up)
            if reads_in(calls) > most:
                place.note(f"{look_up}: {reads_in(calls)} reads, wanted {most}")


def most_reads(kind, look_up):
    """How many reads a look-up makes at most."""
    passed = dict(step for _, key in look_up.steps(kind) for step in gone_over(kind, key))
    return 1 + len(kind.chunks) + 1 + sum(passed.values()) + len(chunks_of(kind, look_up))


def gone_over(kind, key):
    """The nodes from which a look-up goes on, and how many frames it goes over below each: those of the child that it goes
    on at, and of those before it."""
    part = kind.top
    while part.children and part.key >= key:
        first = [child.key >= key for child in part.children].index(True)
        yield part.chunk, sum(len(list(child.trees())) for child in part.children[: first + 1])
        part = part.children[first]


TURNS = 3
"""How often scans are timed."""


def take_no_longer_for_many_children(place):
    """The time of a scan is in line with the leaves, also where one node has all of them: one of eight times the leaves does
    not take three times as long as eight scans. Where each look-up read the node from its first entry on, it was some eight
    times. (One short scan is too short to be timed.) Times are of the processor, and of some turns the least: what runs beside them
    makes any of them longer."""
    times = []
    for count, scans in ((10_000, 8), (80_000, 1)):
        pairs = [(b"%08d" % number, b"") for number in range(count)]
        leaves = [leaf(pair) for pair in pairs]
        top = node(1, *((key, chunk) for (key, _), chunk in zip(pairs, leaves, strict=True)))
        place.lay(in_prl=assembled([*leaves, top], reference(top)))
        turns = []
        for _ in range(TURNS):
            before = resource.getrusage(resource.RUSAGE_CHILDREN).ru_utime
            for _ in range(scans):
                place.answers(place.run(*Scan(b"").words(reference(top), 1)), (0, lines_of(pairs), b""))
            turns.append(resource.getrusage(resource.RUSAGE_CHILDREN).ru_utime - before)
        times.append(min(turns))
    if times[1] > 3 * times[0]:
        place.note(f"{times[0]:.3f} s for eight scans, and {times[1]:.3f} s for one of eight times the leaves")


def print_as_they_go(place):
    """The lines of some leaves are printed before other leaves are read, and stay there where the last one is at fault."""
    pairs = [(b"%06d" % number, b"v" * 5_000) for number in range(60)]
    kind = Kind(pairs, 0, 1)
    last = kind.way(pairs[-1][0])[-1]
    place.lay(in_prl=turned(kind.content, kind.place(last) + 9, 1))
    answer, calls = place.meddled(*Scan(b"").words(kind.root, 1), stdout=place.path("out").open("wb"))
    place.answers(answer, (4, None, refusal(another(last))[2]))
    if place.path("out").read_bytes() != lines_of(pairs[:-1]):
        place.note("other lines were printed")
    reads = [number for number, call in enumerate(calls) if call.startswith("pread ")]
    if "write 1" not in calls or calls.index("write 1") > reads[-1]:
        place.note("nothing was printed before the last read")


# ---- what is no plain file


def small_place(place, name="in_prl"):
    """A small file of format 2, and what is asked of it."""
    kind = Kind(ABC, 0, 2)
    place.lay(**{name: kind.content})
    return kind, [(look_up.words(kind.root, 2), look_up.right(kind)) for look_up in placed_look_ups(kind)]


def are_fifos(place):
    """A pipe of the file system can't be read from any place."""
    kind, asked = small_place(place, "real")
    os.mkfifo(place.path("in.prl"))
    # Open for both, so that the program need not wait for who writes.
    both = os.open(place.path("in.prl"), os.O_RDWR)
    os.write(both, kind.content)
    for words, _ in asked:
        place.answers(place.run(*words), (5, b"", READ_FAILED))
    os.close(both)


def are_pipes_of_a_shell(place):
    """Nor can one that a shell gives; a file on standard input can."""
    kind, asked = small_place(place)
    line = f"'{place.program}' get --root {reference_text(kind.root)} --format 2 <(cat in.prl) 62"
    done = subprocess.run(["bash", "-c", line], cwd=place.folder, capture_output=True, check=False)
    place.answers((done.returncode, done.stdout, done.stderr), (5, b"", READ_FAILED))
    for words, right in asked:
        with open(place.path("in.prl"), "rb") as given:
            place.answers(place.run(*("/dev/stdin" if word == "in.prl" else word for word in words), stdin=given), right)


def are_not_readable(place):
    """A file that may not be read, and one whose name is shown in one line."""
    _, asked = small_place(place)
    place.path("in.prl").chmod(0)
    for words, _ in asked:
        place.answers(place.run(*words, is_nobody=True), (5, b"", b"prolly: cannot open in.prl\n"))
        named = ["a\nb\\" if word == "in.prl" else word for word in words]
        place.answers(place.run(*named), (5, b"", b"prolly: cannot open a\\x0ab\\\\\n"))


def are_links(place):
    """A symbolic link to a file, and to none."""
    _, asked = small_place(place, "real")
    place.path("in.prl").symlink_to("real")
    for words, right in asked:
        place.answers(place.run(*words), right)
    place.path("real").unlink()
    for words, _ in asked:
        place.answers(place.run(*words), (5, b"", b"prolly: cannot open in.prl\n"))


# ---- all


def asked_tests():
    """All tests of many runs over chunk files: for each a name and what it does."""
    for name, pairs, bits, version in kinds():
        yield name, partial(are_the_maps, pairs=pairs, bits=bits, version=version)
    for bits in (0, 2):
        yield f"every pair, --bits {bits}", partial(every_pair, pairs=random_pairs(chance_of(bits), 50), bits=bits)
    for version in (1, 2):
        yield f"another tree, format {version}", partial(are_of_another_tree, version=version)
        yield f"the other version than {version}", partial(are_of_the_other_version, version=version)
    yield "no counts", have_no_counts
    for version, bits, pairs in way_kinds():
        for test in (are_changed_elsewhere, are_changed_on_the_way, are_on_other_levels, are_among_more_chunks, are_among_other_trees):
            yield f"{told(test)}, --bits {bits}, format {version}", partial(test, pairs=pairs, bits=bits, version=version)
    for pairs, version in SMALL:
        for test in (bits_are_turned, are_cut, are_long, frames_are_others):
            yield f"{told(test)}, {len(pairs)} pairs, format {version}", partial(test, pairs=pairs, version=version)


def placed_tests():
    """All tests in which calls fail, or files are no plain files."""
    for version in (1, 2):
        yield f"other bytes from read to read, format {version}", partial(give_other_bytes, version=version)
        yield f"are interrupted, format {version}", partial(are_interrupted, version=version)
        for call in ("pread",):
            yield f"each {call} fails, format {version}", partial(fail_to_read, call=call, version=version)
        for bits in (0, 2, 12):
            yield f"read little, --bits {bits}, format {version}", partial(read_little, bits=bits, version=version)
    for test in (
        are_of_another_level,
        stand_twice,
        take_no_longer_for_many_children,
        print_as_they_go,
        are_fifos,
        are_pipes_of_a_shell,
        are_not_readable,
        are_links,
    ):
        yield told(test), test


def told(test):
    """The name of a test in words."""
    return re.sub("_", " ", test.__name__)


def all_runs(program, folder):
    """Runs all tests, and gives for each its name and its differences."""
    for name, test in asked_tests():
        yield from tested(f"by the root: {name}", partial(differences_asked, program, test))
    yield from all_of("by the root", program, folder, placed_tests())


def differences_asked(program, test):
    """What differs from what the second reader answers, in a folder of its own."""
    with tempfile.TemporaryDirectory() as inside:
        asked = Asked(program, Path(inside))
        test(asked)
        return asked.differences
