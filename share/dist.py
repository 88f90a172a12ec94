#!/usr/bin/env python3
"""Packs an archive for machines without the Rattle kit: `share/dist.py PROGRAM [FOLDER]`.

The archive `prolly-VERSION-x86_64-linux.tar.gz` has the program, load.py, the manual page, the shells' completions, the
library for C if it was made, the README, the license, docs/ and examples/, which these name. It is made in FOLDER, or else beside PROGRAM, and its name is
printed. One that was there stays until the new one is whole. Equal contents give equal bytes, on whatever day: the manual page has the
day on which PROGRAM was last changed, or that of SOURCE_DATE_EPOCH.
"""

import gzip
import os
import subprocess
import sys
import tarfile
import tempfile
from pathlib import Path

TOP = Path(__file__).resolve().parents[1]


def main():
    """Makes the archive."""
    program = Path(sys.argv[1]).resolve()
    folder = Path(sys.argv[2]) if len(sys.argv) > 2 else program.parent
    version = subprocess.run([program, "--version"], capture_output=True, text=True, check=True).stdout.split(",")[0].split()[1]
    name = f"prolly-{version}-x86_64-linux"
    archive = folder / f"{name}.tar.gz"
    with tempfile.TemporaryDirectory(dir=folder) as place:
        root, begun = Path(place) / name, Path(place) / "begun"
        install(program, root, Path(place) / "made")
        with open(begun, "wb") as file, gzip.GzipFile("", "wb", fileobj=file, mtime=0) as packed:
            with tarfile.open(fileobj=packed, mode="w") as tar:
                for path in contents(root):
                    add(tar, path)
        os.replace(begun, archive)
    print(archive)


def install(program, root, made):
    """Puts the program and what belongs to it below a folder."""
    words = [f"PROGRAM={program}", "DESTDIR=", f"PREFIX={root}", f"MADE={made}"]
    changed = {"SOURCE_DATE_EPOCH": str(int(program.stat().st_mtime))}
    subprocess.run(["make", "-s", "-C", TOP, "install", *words], check=True, env=changed | os.environ)


def contents(root):
    """The files of the archive, by their names in it."""
    installed = [(f"{root.name}/{path.relative_to(root)}", path) for path in root.rglob("*") if path.is_file()]
    documents = [TOP / "README.md", TOP / "LICENSE", *TOP.glob("docs/*.md"), *TOP.glob("examples/*.py"), *TOP.glob("examples/*/*.*")]
    return sorted(installed + [(f"{root.name}/{path.relative_to(TOP)}", path) for path in documents])


def add(tar, named):
    """Adds a file, without what changes from machine to machine."""
    name, path = named
    entry = tar.gettarinfo(path, name)
    entry.uid = entry.gid = entry.mtime = 0
    entry.uname = entry.gname = ""
    entry.mode = 0o755 if path.stat().st_mode & 0o100 else 0o644
    with open(path, "rb") as file:
        tar.addfile(entry, file)


if __name__ == "__main__":
    main()
