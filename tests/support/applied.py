"""What `apply` makes of an old tree and files of changes, by the second builder and the second reader of record files."""

from cases.build import named
from oracle.readings import merged, read, stop_of
from oracle.trees import begun_file, chunk_file, records, reference_text, report
from support.harness import Case

UNLIMITED = 2**40
"""More records than an old tree has pairs."""


def applied(name, kind, contents, *flags):
    """A run over an old file and record files, which may be at fault: the old map comes before the first of them."""
    readings = [read(records(kind.pairs), UNLIMITED), *map(read, contents)]
    pairs, stop = merged(readings), stop_of(readings)
    files = named(contents)
    words = ["apply", "--root", reference_text(kind.root), *flags, "old.prl", "out.prl", *files]
    before = files | {"old.prl": kind.content}
    if stop is None:
        left = {"out.prl": chunk_file(pairs, kind.bits, kind.version)}
        return Case(f"apply: {name}", words, out=report(pairs, kind.bits, kind.version), before=before, after=left)
    line = b"prolly: " + readings[stop].line(stop - 1) + b"\n"
    left = {"out.prl": begun_file(pairs, kind.bits, kind.version)}
    return Case(f"apply: {name}", words, status=3, err=line, before=before, after=left)
