#!/usr/bin/env python3
"""Says where the time of proving went: `tools/proof_times.py [--top N] [CRATE..]`, by default of all crates that were proved here.

It reads when the files of crates/NAME/out/incremental were written: each is counted for what passed since the one before. So
it is right after a check from nothing by one job (`rt check --jobs 1`); where several jobs write side by side it tells shares
alone, and files that a later check wrote again count there. Shown are the dearest functions, and then for each crate the
seconds and which parts of a proof they went to: the model of a function (Lts), its proof, and what ties the two.
"""

import argparse
import re
from collections import Counter
from pathlib import Path

CRATES = Path(__file__).resolve().parents[1] / "crates"

PARTS = frozenset(
    "Code Mir Key Kinds Named Layout Lts Reads Tie Proof Met TheLink Carried Goals Symbol Statement Given Answers Invariants View"
    " TheLaws TheImpl TheReach".split()
)
"""The parts of a function's proof, as its files are named."""

SHOWN_PARTS = 8


def main():
    """Shows the dearest functions, and each crate with its parts."""
    parser = argparse.ArgumentParser(description=__doc__, formatter_class=argparse.RawDescriptionHelpFormatter)
    parser.add_argument("--top", type=int, default=40, metavar="N", help="how many functions are shown")
    parser.add_argument("crates", nargs="*", metavar="CRATE")
    given = parser.parse_args()
    crates = given.crates or sorted(folder.parent.parent.name for folder in CRATES.glob("*/out/incremental"))
    spent = {crate: Counter(spending(crate)) for crate in crates}
    functions, parts = Counter(), {crate: Counter() for crate in crates}
    for crate, counts in spent.items():
        for (function, part), seconds in counts.items():
            functions[crate, function] += seconds
            parts[crate][part] += seconds
    for (crate, function), seconds in functions.most_common(given.top):
        print(f"{seconds:7.1f}  {crate:16} {function}")
    show_parts(parts)


def spending(crate):
    """The seconds of each part of each function of a crate."""
    spent = Counter()
    for folder in (CRATES / crate / "out" / "incremental").iterdir():
        written = sorted((file.stat().st_mtime_ns / 1e9, file.name) for file in folder.glob("*.oantt"))
        for (before, _), (after, name) in zip(written, written[1:]):
            spent[of_file(crate, name)] += after - before
    return spent


def of_file(crate, name):
    """The function of which a file tells a part, and the part."""
    path = name.removesuffix(".oantt").removeprefix(f"Rattle-{crate}").removeprefix("-")
    side, _, rest = path.partition(".")
    if not rest:
        return "(the crate)", "other"
    if side == "specs":
        return "(definitions and contracts)", "specs"
    words = rest.split(".")
    part = "other"
    while len(words) > 1 and (found := re.match(r"[A-Za-z]+", words[-1])) and found[0] in PARTS:
        part = found[0]
        words.pop()
    return ".".join(words), part


def show_parts(parts):
    """A table of the crates."""
    shown = [part for part, _ in sum(parts.values(), Counter()).most_common(SHOWN_PARTS)]
    print("\n" + "crate".ljust(22) + "".join(name.rjust(9) for name in ["seconds", *shown]))
    for crate, counts in parts.items():
        whole = counts.total()
        shares = "".join(f"{100 * counts[part] / whole:8.0f}%" for part in shown if whole)
        print(f"{crate:22}{whole:9.0f}{shares}")


if __name__ == "__main__":
    main()
