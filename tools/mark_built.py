#!/usr/bin/env python3
"""Lets what `rt ci` has built of the libraries serve the steps of the gate behind it: `tools/mark_built.py`, right behind it.

`rt ci` proves each library from nothing and builds it, but leaves no mark of what it was built from, and so any other command
would prove and build it once more. All of them were built in one run, each over the others and from the sources as they stand.
This writes the marks: the toolchain's own sum of what a library is built from, by its own function. A library that has a mark
keeps it. One that is older than a file of its sources, or that stands on such a one, gets none.
"""

from prove import CRATES, TOP, crates_below
from toolchain import toolchain


def main():
    """Marks the libraries, and says how many."""
    fresh = {folder.name for folder in CRATES.iterdir() if is_fresh(folder)}
    marked = 0
    for crate in toolchain().crates_below(str(TOP)):
        mark = CRATES / crate.name / "out" / "rlib" / "stamp"
        if {crate.name, *crates_below(crate.name)} <= fresh and not mark.exists():
            mark.write_text(crate.stamp(), encoding="utf-8")
            marked += 1
    print(f"{marked} libraries are marked as built")


def is_fresh(folder):
    """Whether a crate's library is there, and none of its sources is younger."""
    built = folder / "out" / "rlib" / f"{folder.name}.rlib"
    if not built.is_dir():
        return False
    sources = [file for part in ("src", "specs", "proofs") for file in (folder / part).rglob("*") if file.is_file()]
    return all(file.stat().st_mtime < built.stat().st_mtime for file in sources)


if __name__ == "__main__":
    main()
