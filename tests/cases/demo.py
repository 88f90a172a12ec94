"""The demonstration, compared line by line with what the second builder makes of its words."""

import subprocess
from pathlib import Path

from cases.diffs import difference, stat_line
from oracle.escapes import text_line
from oracle.proof import another, proof_of
from oracle.trees import begun_file, chunk_file, records, report, root_text, tree
from support.harness import shown

FOLDER = Path(__file__).parent.parent.parent / "demo"

BITS = 2


def all_runs(program, _):
    """Runs the demonstration, and gives its name and its differences."""
    done = subprocess.run([FOLDER / "run", program], capture_output=True, text=True, check=False)
    differences = []
    if done.returncode != 0 or done.stderr:
        differences.append(f"status {done.returncode}, standard error {shown(done.stderr)}")
    found = [line.strip() for line in done.stdout.splitlines() if line.startswith("    ")]
    for line, wanted in zip(found, printed(), strict=False):
        if line != wanted:
            differences.append(f"printed {line}, wanted {wanted}")
    if len(found) != len(printed()):
        differences.append(f"{len(found)} lines, wanted {len(printed())}")
    yield "demo/run", differences


def printed():
    """What the commands of the demonstration print, a line each."""
    lines = (FOLDER / "words.txt").read_text().splitlines()
    words = sorted(tuple(line.encode().split()) for line in lines)
    changed = changed_words(words, {b"week": b"571"})
    both = [(word, count) for word, count in changed if word != b"year"]
    whole = chunk_file(words, BITS)
    from_p = [pair for pair in both if pair[0] >= b"p"][:2]
    cut = len(records(words)[:40])
    return [
        *lines[:3],
        *(line.replace(" ", "\t") for line in lines[:3]),
        str(len(words)),
        root(words),
        f"{len(records(words))} words.rec",
        f"{len(whole)} words.prl",
        str(len(words)),
        root(words),
        str(len(words)),
        root(changed),
        "2",
        report(both, BITS).decode().strip(),
        root(both),
        "the two chunk files are the same",
        f"ok {root(both)} {BITS} {len(list(tree(both, BITS, 1).trees()))}",
        "571",
        b"571".hex(),
        *map(told, from_p),
        report(both, BITS, 2).decode().strip(),
        told(both[0]),
        report(both, BITS).decode().strip(),
        "the two chunk files are the same",
        str(len(both)),
        "the two record files are the same",
        *map(told, difference(words, both)),
        stat_line(words, both, (BITS, 1), (BITS, 1)).decode().strip(),
        f"{len(proof_of(tree(both, BITS, 1), b'week', 1))} week.prf",
        "571",
        "571",
        *map(told, from_p),
        "week\t571",
        "year",
        f"prolly: proof: {another(0)}",
        *cut_short(words, cut),
    ]


def told(change):
    """The line of a word and its count, or of a word alone that is taken away."""
    return text_line(change).decode().rstrip("\n")


def changed_words(words, counts):
    """The words, some of which have another count."""
    return [(word, counts.get(word, count)) for word, count in words]


def root(words):
    """The text of their tree's root."""
    return root_text(words, BITS).decode().strip()


def cut_short(words, size):
    """What is printed of a record file that is cut to so many bytes, and of the chunk file that is left of it."""
    good = 0
    while len(records(words[: good + 1])) <= size:
        good += 1
    left = begun_file(words[:good], BITS)
    return [f"prolly: file 0: record {good} is cut", f"{len(left)} part.prl", "prolly: chunk file: truncated"]
