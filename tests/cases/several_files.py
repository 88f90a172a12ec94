"""`check` of several files, and `check --quiet`."""

from cases.scratch import ABC, numbered
from oracle.trees import chunk_file, reference_text, tree
from support.harness import FOLDER, Case

GOOD = {"a.prl": (ABC, 0, 1), "b.prl": (numbered(3_000), 4, 2), "c.prl": ([], 12, 1)}
"""Files that are lawful: their pairs, their bits and their formats."""

FILES = {
    **{name: chunk_file(*shape) for name, shape in GOOD.items()},
    "cut.prl": chunk_file(ABC, 0)[:-1],
    "more.prl": chunk_file(ABC, 0) + b"E",
    "text.prl": b"apple\t3\n",
    "folder": FOLDER,
    "a\nb\\.prl": chunk_file(ABC, 0),
}

FAULTS = {
    "cut.prl": (4, b"prolly: cut.prl: chunk file: truncated\n"),
    "more.prl": (4, b"prolly: more.prl: chunk file: bytes after the end\n"),
    "text.prl": (4, b"prolly: text.prl: chunk file: bad header\n"),
    "folder": (5, b"prolly: folder: chunk file: read failed\n"),
    "none.prl": (5, b"prolly: cannot open none.prl\n"),
}


def line_of(name, shown=None):
    """The line of a file that is lawful."""
    pairs, bits, version = GOOD[name]
    top = tree(pairs, bits, version)
    return f"ok {reference_text(top.reference)} {bits} {len(list(top.trees()))}  {shown or name}\n".encode()


def checked(*names, words=()):
    """These files, one after another."""
    refusals = [FAULTS[name] for name in names if name in FAULTS]
    is_quiet = "--quiet" in words
    return Case(
        f"check: {' '.join([*words, *names])}",
        ["check", *words, *names],
        status=refusals[0][0] if refusals else 0,
        out=b"" if is_quiet else b"".join(line_of(name) for name in names if name in GOOD),
        err=b"".join(err for _, err in refusals),
        before=FILES,
    )


def cases(_):
    """All cases."""
    return [*mixtures(), *roots(), *names(), *outputs()]


def mixtures():
    """Lawful files and others, in any order."""
    for files in (
        ("a.prl", "b.prl"),
        ("a.prl", "a.prl"),
        ("c.prl", "b.prl", "a.prl"),
        ("a.prl", "cut.prl", "b.prl"),
        ("none.prl", "cut.prl", "a.prl"),
        ("cut.prl", "none.prl", "a.prl"),
        ("folder", "more.prl", "text.prl", "b.prl", "none.prl"),
    ):
        yield checked(*files)
        yield checked(*files, words=["--quiet"])
    for name in ("a.prl", "cut.prl", "none.prl"):
        yield checked(name, words=["--quiet"])


def roots():
    """Files of which one has the root that is asked for."""
    root = reference_text(tree(ABC, 0, 1).reference)
    another = b"prolly: c.prl: chunk file: has another root\n"
    for quiet in ([], ["--quiet"]):
        yield Case(
            f"check --root {' '.join(quiet)}: several files",
            ["check", "--root", root, *quiet, "a.prl", "c.prl", "cut.prl"],
            status=4,
            out=b"" if quiet else line_of("a.prl"),
            err=another + FAULTS["cut.prl"][1],
            before=FILES,
        )


def names():
    """A name of which a part is escaped, in a line and in a fault."""
    strange = "a\nb\\.prl"
    yield Case(
        "check: a name with a newline and a backslash",
        ["check", strange, "x\ty"],
        status=5,
        out=line_of("a.prl", "a\\x0ab\\\\.prl"),
        err=b"prolly: cannot open x\\x09y\n",
        before=FILES,
    )
    yield Case(
        "check: a folder whose name has a newline",
        ["check", "--quiet", "a.prl", "in\nside"],
        status=5,
        err=b"prolly: in\\x0aside: chunk file: read failed\n",
        before={**FILES, "in\nside": FOLDER},
    )


def outputs():
    """Standard output that takes nothing: it ends there. Where nothing is to be printed nothing fails."""
    for kind in ("full", "closed"):
        yield Case(f"check: several files, and standard output is {kind}", ["check", "a.prl", "b.prl"], status=5, err=b"prolly: write failed\n", before=FILES, stdout=kind)
        yield Case(f"check --quiet: standard output is {kind}", ["check", "--quiet", "a.prl", "b.prl"], before=FILES, stdout=kind)
