"""Runs in which the system refuses the program one growth of memory: each growth in turn, from the first to the one
after the last."""

from cases.chunk_bytes import chosen
from cases.diffs import difference, stat_line
from cases.diffs_by_root import by_roots
from cases.dumps import lines
from cases.explained_lines import MOST
from cases.explained_lines import explained as explained_lines
from cases.key_proofs import file_of, lines_found
from cases.key_proofs import verdict as keys_verdict
from cases.proofs import verdict
from cases.range_proofs import words_of
from cases.scratch import ABC
from cases.surveys import as_json, explained, record_lines, record_numbers, table, tree_json
from oracle.escapes import escaped, text_lines
from oracle.key_proof import found_at, key_proof_of
from oracle.proof import WRONG_VERSION, proof_of
from oracle.range_proof import range_proof_of
from oracle.trees import END_SIZE, REMOVED, begun_file, chunk_file, header, overlay, record, records, reference_text, report, root_text, tree
from support.by_root import ALL, NO_COUNTS, Dump, Get, Nth, Prove, Scan, refusal
from support.harness import BAD_TEXT_KEY, hexed
from support.place import compiled
from support.refused import Command, refuse

FIVE_IN_THREE = [[(b"a", b"1"), (b"d", b"1")], [(b"b", b"1")], [(b"c", b"1"), (b"e", b"1")]]

OUT_OF_ORDER = [(b"5", b"1"), (b"3", b"1")]

OLD = [(b"a", b"0"), (b"b", b"1"), (b"d", b"1")]
"""Pairs of which one has another value, and one is taken away."""

CHANGES = difference(OLD, ABC)

COUNTED = stat_line(OLD, ABC, (0, 1), (0, 1))

COUNTED_TREE = tree(ABC, 0, 2)

ROOT = reference_text(COUNTED_TREE.reference)

PROOF = proof_of(COUNTED_TREE, b"b", 2)

REFERENCE = tree(ABC, 0, 1).reference
OLD_AND_NEW = by_roots(tree(OLD, 0, 1).reference, REFERENCE, 1)

MIXED = [(b"\t", b"\xff\\"), ("é".encode(), b"")]
"""Pairs whose text has escapes, and a character that has none."""

KEYS = [b"", b"b", b"bb", b"c", b"z"]
"""Keys in their order, of which the tree has two."""

MOST_GROWTHS = 2_000
"""More than any of the commands asks for."""


def commands():
    """The commands, each over little data, so that each growth can be refused."""
    chunks, counted = chunk_file(ABC, 0), chunk_file(ABC, 0, 2)
    reads = {"abc.prl": chunks, "counted.prl": counted}
    both = {"old.prl": chunk_file(OLD, 0), "abc.prl": chunks}
    return [
        Command("pack", ["pack", "out.rec"], b"61 31\n62 -\n", out=b"2\n", made="out.rec", whole=record(b"a", b"1") + record(b"b", None)),
        *sorted_lines(),
        Command(
            "scratch",
            ["scratch", "--bits", "0", "--out", "out.prl"],
            records(ABC),
            out=root_text(ABC, 0),
            made="out.prl",
            whole=chunks,
        ),
        built("build of three pairs", [ABC]),
        built("build of three pairs in format 2", [ABC], version=2),
        built("build of three files", FIVE_IN_THREE),
        kept("atomic build of three files", FIVE_IN_THREE),
        *with_chosen_bits(),
        *applied(),
        stopped(),
        Command("check", ["check", "abc.prl"], out=b"ok " + root_text(ABC, 0).strip() + b" 0 6\n", before=reads),
        Command("check --root", ["check", "--root", reference_text(REFERENCE), "abc.prl"], out=b"ok " + root_text(ABC, 0).strip() + b" 0 6\n", before=reads),
        Command("check --root of another root", ["check", "--root", reference_text(REFERENCE), "old.prl"], status=4, err=refusal("has another root")[2], before=both),
        *checked(),
        Command("root", ["root", "abc.prl"], out=root_text(ABC, 0), before=reads),
        Command("root of no file", ["root", "out"], status=4, err=refusal("bad end record")[2], before={"out": chunks + b"E"}),
        *surveyed(),
        Command("stat", ["stat", "counted.prl"], out=table(ABC, 0, 2), before=reads),
        Command("stat --json", ["stat", "--json", "abc.prl"], out=tree_json(ABC, 0, 1), before=reads),
        Command("get", ["get", "abc.prl", "62"], out=b"31\n", before=reads),
        Command("get of no pair", ["get", "abc.prl", "7a"], status=1, before=reads),
        Command("get --root", Get(b"b").words(REFERENCE, 1, "abc.prl"), out=b"31\n", before=reads),
        Command("get --root in format 2", Get(b"c").words(COUNTED_TREE.reference, 2, "counted.prl"), out=b"31\n", before=reads),
        Command("get --raw", ["get", "--raw", "abc.prl", "62"], out=b"1", before=reads),
        Command("get --raw --root", ["get", "--raw", *Get(b"b").words(REFERENCE, 1, "abc.prl")[1:]], out=b"1", before=reads),
        Command("get --root of no pair", Get(b"bb").words(REFERENCE, 1, "abc.prl"), status=1, before=reads),
        Command("get --root of a key above all", Get(b"z").words(REFERENCE, 1, "abc.prl"), status=1, before=reads),
        Command("get --root of the other format", Get(b"b").words(REFERENCE, 1, "counted.prl"), status=4, err=refusal(WRONG_VERSION)[2], before=reads),
        Command("scan", ["scan", "abc.prl", "62", "5"], out=b"62 31\n63 31\n", before=reads),
        scanned("scan --root", REFERENCE, 1, "abc.prl", b"b", reads),
        scanned("scan --root in format 2", COUNTED_TREE.reference, 2, "counted.prl", b"", reads),
        Command("scan --root of no pair", Scan(b"z", ALL).words(REFERENCE, 1, "abc.prl"), before=reads),
        Command("scan --root of the other format", Scan(b"b", 1).words(REFERENCE, 1, "counted.prl"), status=4, err=refusal(WRONG_VERSION)[2], before=reads),
        Command("nth", ["nth", "counted.prl", "2"], out=b"63 31\n", before=reads),
        Command("nth --root", Nth(2).words(COUNTED_TREE.reference, 2, "counted.prl"), out=b"63 31\n", before=reads),
        Command("nth --root of no pair", Nth(3).words(COUNTED_TREE.reference, 2, "counted.prl"), status=1, before=reads),
        Command("nth --root without counts", Nth(2).words(REFERENCE, 1, "abc.prl"), status=4, err=NO_COUNTS[2], before=reads),
        Command("nth --root of the other format", Nth(2).words(COUNTED_TREE.reference, 2, "abc.prl"), status=4, err=refusal(WRONG_VERSION)[2], before=reads),
        Command("dump", ["dump", "abc.prl"], out=records(ABC), before=reads),
        Command("dump --hex", ["dump", "--hex", "abc.prl"], out=lines(ABC), before=reads),
        Command("dump --hex to a file", ["dump", "--hex", "abc.prl", "out.txt"], before=reads, made="out.txt", whole=lines(ABC)),
        Command("dump --root", Dump().words(REFERENCE, 1, "abc.prl"), out=records(ABC), before=reads, is_printed_early=True),
        Command("dump --root --hex", Dump("--hex").words(COUNTED_TREE.reference, 2, "counted.prl"), out=lines(ABC), before=reads, is_printed_early=True),
        Command("dump --root to a file", [*Dump().words(REFERENCE, 1, "abc.prl"), "out.rec"], before=reads, made="out.rec", whole=records(ABC)),
        Command("prove", ["prove", "counted.prl", "62", "p"], before=reads, made="p", whole=PROOF),
        Command("prove --root", ["prove", "--root", ROOT, "--format", "2", "counted.prl", "62", "p"], before=reads, made="p", whole=PROOF),
        Command("prove --root of the other format", Prove(b"b").words(REFERENCE, 1, "counted.prl"), status=4, err=refusal(WRONG_VERSION)[2], before=reads),
        Command("atomic prove", ["prove", "--atomic", "--sync", "counted.prl", "62", "p"], before=reads, made="p", whole=PROOF),
        Command("verify", ["verify", "--format", "2", ROOT, "62", "p"], out=b"31\n", before={"p": PROOF}),
        Command("verify of standard input", ["verify", "--format", "2", ROOT, "62"], PROOF, out=b"31\n"),
        Command("verify of no value", ["verify", "--format", "2", ROOT, "6262", "p"], status=1, before={"p": proof_of(COUNTED_TREE, b"bb", 2)}),
        Command("verify of another key", ["verify", "--format", "2", ROOT, "6262", "p"], status=4, err=verdict(PROOF, COUNTED_TREE.reference, b"bb", 2)[2], before={"p": PROOF}),
        Command("dump to a file", ["dump", "abc.prl", "out.rec"], before=reads, made="out.rec", whole=records(ABC)),
        Command("diff", ["diff", "old.prl", "abc.prl"], status=1, out=lines(CHANGES), before=both),
        Command("diff --stat", ["diff", "--stat", "old.prl", "abc.prl"], status=1, out=COUNTED, before=both),
        Command(
            "diff --stat to a file",
            ["diff", "--stat", "old.prl", "abc.prl", "--out", "out.rec"],
            status=1,
            out=COUNTED,
            before=both,
            made="out.rec",
            whole=records(CHANGES),
            is_made_first=True,
        ),
        Command("diff by the roots", ["diff", *OLD_AND_NEW, "old.prl", "abc.prl"], status=1, out=lines(CHANGES), before=both, is_printed_early=True),
        Command("diff --stat by the roots", ["diff", "--stat", *OLD_AND_NEW, "old.prl", "abc.prl"], status=1, out=COUNTED, before=both),
        Command(
            "diff --stat by the roots to a file",
            ["diff", "--stat", *OLD_AND_NEW, "old.prl", "abc.prl", "--out", "out.rec"],
            status=1,
            out=COUNTED,
            before=both,
            made="out.rec",
            whole=records(CHANGES),
            is_made_first=True,
        ),
        Command("diff by the roots to a file", ["diff", *OLD_AND_NEW, "old.prl", "abc.prl", "--out", "out.rec"], status=1, before=both, made="out.rec", whole=records(CHANGES)),
        Command("diff of equal maps", ["diff", "counted.prl", "abc.prl"], before=reads),
        Command("diff to a file", ["diff", "old.prl", "abc.prl", "--out", "out.rec"], status=1, before=both, made="out.rec", whole=records(CHANGES)),
        Command("atomic diff", ["diff", "--atomic", "--sync", "old.prl", "abc.prl", "--out", "out.rec"], status=1, before=both, made="out.rec", whole=records(CHANGES)),
        Command("atomic dump", ["dump", "--atomic", "--sync", "abc.prl", "out.rec"], before=reads, made="out.rec", whole=records(ABC)),
        *of_many_keys(),
        *text_commands(),
    ]


def checked():
    """`check` of several files, which goes on behind one for which memory was not there."""
    before = {"abc.prl": chunk_file(ABC, 0), "old.prl": chunk_file(OLD, 0)}
    told = {name: f"ok {reference_text(tree(pairs, 0, 1).reference)} 0 6  {name}\n".encode() for name, pairs in (("abc.prl", ABC), ("old.prl", OLD))}
    return [
        Command("check of two files", ["check", *before], out=b"".join(told.values()), before=before, is_printed_early=True, files=told),
        Command("check --quiet", ["check", "--quiet", *before], before=before, files=dict.fromkeys(before, b"")),
    ]


def of_many_keys():
    """Look-ups and proofs of a list of keys or of a range."""
    before = {"abc.prl": chunk_file(ABC, 0), "counted.prl": chunk_file(ABC, 0, 2), "keys": file_of(KEYS)}
    by_root, by_keys, ranged = ["--root", ROOT, "--format", "2"], ["--keys", "keys"], words_of(b"b", b"c")
    found, in_range = lines_found(found_at(ABC, KEYS)), lines(ABC[1:2])
    of_keys, of_range = key_proof_of(COUNTED_TREE, KEYS, 2), range_proof_of(COUNTED_TREE, b"b", b"c", 2)
    verify, proofs = ["verify", "--format", "2"], {"keys": file_of(KEYS), "k": of_keys, "r": of_range, "cut": of_keys[:-1]}
    status, first_found, line = keys_verdict(of_keys[:-1], COUNTED_TREE.reference, KEYS, 2)
    return [
        Command("get --keys", ["get", *by_keys, "abc.prl"], out=found, before=before, is_printed_early=True),
        Command("get --keys --root", ["get", *by_keys, *by_root, "counted.prl"], out=found, before=before, is_printed_early=True),
        Command("prove --from", ["prove", *ranged, "counted.prl", "p"], before=before, made="p", whole=of_range),
        Command("prove --from --root", ["prove", *ranged, *by_root, "counted.prl", "p"], before=before, made="p", whole=of_range),
        Command("prove --keys", ["prove", *by_keys, "counted.prl", "p"], before=before, made="p", whole=of_keys),
        Command("prove --keys --root", ["prove", *by_keys, *by_root, "counted.prl", "p"], before=before, made="p", whole=of_keys),
        Command("verify --from", [*verify, *ranged, ROOT, "r"], out=in_range, before=proofs, is_printed_early=True),
        Command("verify --keys", [*verify, *by_keys, ROOT, "k"], out=found, before=proofs, is_printed_early=True),
        Command("verify --keys of a proof that is cut", [*verify, *by_keys, ROOT, "cut"], status=status, out=first_found, err=line, before=proofs, is_printed_early=True),
    ]


def surveyed():
    """The commands over a record file or over lines, which are good or not."""
    good, flawed = {"in.rec": records(ABC)}, {"in.rec": records(OUT_OF_ORDER)}
    faulty = b"a\\q\t1\na\t\xff\nb\n"
    return [
        Command("explain", ["explain", "in.rec"], out=b"ok 3\n", before=good),
        Command("explain of a file out of order", ["explain", "--text", "in.rec"], status=1, out=explained(records(OUT_OF_ORDER), escaped), before=flawed),
        Command("explain --lines", ["explain", "--lines"], lines(CHANGES), out=b"ok %d\n" % len(CHANGES)),
        Command("explain --lines of two faulty lines", ["explain", "--lines", "--all", "--text"], faulty, status=1, out=explained_lines(faulty, True, False, MOST)[1]),
        Command("stat of a record file", ["stat", "--text", "in.rec"], out=record_lines(ABC, escaped), before=good),
        Command("stat --json of a record file", ["stat", "--json", "in.rec"], out=as_json(record_numbers(ABC, hexed)), before=good),
        Command("stat of a file out of order", ["stat", "in.rec"], status=3, err=b"prolly: file 0: record 1: key out of order\n", before=flawed),
    ]


def text_commands():
    """The commands with `--text`."""
    top = tree(MIXED, 0, 2)
    before, root, told = {"in.prl": chunk_file(MIXED, 0, 2)}, reference_text(top.reference), text_lines(MIXED)
    by_root = ["--root", root, "--format", "2", "in.prl"]
    proof = proof_of(top, b"\t", 2)
    both = before | {"old.prl": chunk_file(ABC, 0)}
    changes = difference(ABC, MIXED)
    given = text_lines(changes)
    return [
        Command("pack --text", ["pack", "--text", "--removals", "out.rec"], given, out=b"%d\n" % len(changes), made="out.rec", whole=records(changes)),
        Command("pack --text of a bad line", ["pack", "--text", "out.rec"], b"a\tb\na\\q\tb\n", status=3, err=b"prolly: line 1: not a pair of text\n"),
        Command("get --text", ["get", "--text", "in.prl", "\\t"], out=b"\\xff\\\\\n", before=before),
        Command("get --text of a bad key", ["get", "--text", "in.prl", "\\q"], status=2, err=BAD_TEXT_KEY, before=before),
        Command("get --text --root", ["get", "--text", *by_root, "é"], out=b"\n", before=before),
        Command("scan --text", ["scan", "--text", "in.prl", "", "5"], out=told, before=before),
        Command("scan --text --root", ["scan", "--text", *by_root, "", "5"], out=told, before=before, is_printed_early=True),
        Command("nth --text", ["nth", "--text", "in.prl", "0"], out=text_lines(MIXED[:1]), before=before),
        Command("nth --text --root", ["nth", "--text", *by_root, "1"], out=text_lines(MIXED[1:]), before=before),
        Command("dump --text", ["dump", "--text", "in.prl"], out=told, before=before),
        Command("dump --text to a file", ["dump", "--text", "in.prl", "out.txt"], before=before, made="out.txt", whole=told),
        Command("diff --text", ["diff", "--text", "old.prl", "in.prl"], status=1, out=given, before=both),
        Command("prove --text", ["prove", "--text", "in.prl", "\\t", "p"], before=before, made="p", whole=proof),
        Command("verify --text", ["verify", "--text", "--format", "2", root, "\\t", "p"], out=b"\\xff\\\\\n", before={"p": proof}),
    ]


def sorted_lines():
    """Lines in any order, and those that are refused."""
    words, lines_in = ["pack", "--sort", "--text", "--removals"], b"b\na\t1\nc\t2\nb\t3\na\n"
    whole = records([(b"a", REMOVED), (b"b", b"3"), (b"c", b"2")])
    doubled = b"prolly: line 4: has the key of line 1\n"
    return [
        Command("pack --sort", [*words, "out.rec"], lines_in, out=b"3\n", made="out.rec", whole=whole),
        Command("pack --sort by the least memory, to the disk", [*words, "--memory", "16", "--sync", "out.rec"], lines_in, out=b"3\n", made="out.rec", whole=whole),
        Command("pack --sort of a bad line", [*words, "out.rec"], b"b\t1\na\t1\t\n", status=3, err=b"prolly: line 1: not a pair of text\n"),
        Command("pack --sort --unique", [*words, "--unique", "out.rec"], b"b\na\t1\n", out=b"2\n", made="out.rec", whole=records([(b"a", b"1"), (b"b", REMOVED)])),
        Command("pack --sort --unique of a key twice", [*words, "--unique", "out.rec"], b"b\na\t1\nc\t2\nd\na\n", status=3, err=doubled),
    ]


def scanned(name, root, version, file, key, before):
    """A scan by the root to the end, which prints leaf by leaf."""
    out = lines([pair for pair in ABC if pair[0] >= key])
    return Command(name, Scan(key).words(root, version, file), out=out, before=before, is_printed_early=True)


def built(name, files, version=1, bits=0):
    """A build that is whole where nothing is refused, and else holds a first part of the file of some first pairs, without
    its end record."""
    pairs = overlay(files)
    before = {f"{number}.rec": records(file) for number, file in enumerate(files)}
    return Command(
        name,
        ["build", "--bits", str(bits), "--format", str(version), "out.prl", *before],
        out=report(pairs, bits, version),
        before=before,
        made="out.prl",
        whole=chunk_file(pairs, bits, version),
        parts=first_parts(pairs, version, bits),
        is_made_first=True,
    )


def with_chosen_bits():
    """Trees whose bits are chosen by the records that are read first, of which a line tells."""
    files, choice = FIVE_IN_THREE[:2], ["--chunk-bytes", "20"]
    bits, line = chosen([records(ABC)], 20)
    scratch = Command("scratch --chunk-bytes", ["scratch", *choice, "--out", "out.prl"], records(ABC), out=root_text(ABC, bits), made="out.prl", whole=chunk_file(ABC, bits))
    scratch.err = scratch.notice = line
    bits, line = chosen([records(file) for file in files], 20)
    build = built("build --chunk-bytes", files, bits=bits)
    build.words[1:3] = choice
    build.err = build.notice = line
    return [scratch, build]


def kept(name, files):
    """The same with `--atomic` and `--sync`: what is not whole is not there."""
    command = built(name, files)
    command.words[1:1] = ["--atomic", "--sync"]
    command.parts, command.is_made_first = [], False
    return command


def applied():
    """Trees to which changes are applied: whole, with `--atomic`, and of another root."""
    old, changes = tree(OLD, 0, 1), {"old.prl": chunk_file(OLD, 0), "d.rec": records(CHANGES)}
    words = ["apply", "--root", reference_text(old.reference), "old.prl", "out.prl", "d.rec"]
    parts = first_parts(overlay([OLD, CHANGES]), 1)
    whole = Command("apply", words, out=report(ABC, 0), before=changes, made="out.prl", whole=chunk_file(ABC, 0), parts=parts, is_made_first=True)
    atomic = Command("atomic apply", ["apply", "--atomic", "--sync", *words[1:]], out=report(ABC, 0), before=changes, made="out.prl", whole=chunk_file(ABC, 0))
    other = ["apply", "--root", ROOT, "old.prl", "out.prl"]
    return [whole, atomic, Command("apply of another root", other, status=4, err=b"prolly: old chunk file: chunk 5 is not the one referred to\n", before=changes, made="out.prl", whole=header(0, 1), parts=[header(0, 1)])]


def stopped():
    """A build of two files, of which one has a key out of order behind its first."""
    good = [(b"1", b"1"), (b"2", b"1"), (b"7", b"1")]
    before = {"0.rec": records(OUT_OF_ORDER), "1.rec": records(good)}
    return Command(
        "build of a file out of order",
        ["build", "--bits", "0", "out.prl", *before],
        status=3,
        err=b"prolly: file 0: record 1: key out of order\n",
        before=before,
        made="out.prl",
        whole=begun_file(overlay([OUT_OF_ORDER[:1], good])[:3], 0),
        parts=first_parts(overlay([OUT_OF_ORDER[:1], good]), 1),
    )


def first_parts(pairs, version, bits=0):
    """The files of the first pairs, each without its end record."""
    return [chunk_file(pairs[:count], bits, version)[:-END_SIZE] for count in range(len(pairs) + 1)]


def all_runs(program, folder):
    """Refuses each command each of its growths, and gives for each run its name and its differences."""
    allocator = compiled("refuse", folder)
    for command in commands():
        for number in range(1, MOST_GROWTHS):
            was_refused, differences = refuse(program, allocator, command, number)
            yield f"{command.name}, growth {number} refused", differences
            if not was_refused:
                break
        else:
            yield f"{command.name}, its growths", [f"more than {MOST_GROWTHS}"]
