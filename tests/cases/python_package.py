"""The package for Python (python/): it is built into a folder of its own, as pip builds it, the examples of docs/python.md are
run, and its trees are compared with those of the second builder."""

import os
import subprocess
import sys
from pathlib import Path

TOP = Path(__file__).parent.parent.parent

CHECKS = Path(__file__).parent.parent / "support" / "package_checks.py"

NEEDED = "import setuptools, sysconfig, os; assert os.path.exists(sysconfig.get_paths()['include'] + '/Python.h')"


def all_runs(_, folder):
    """All of it: for each run its name and its differences."""
    if not (TOP / "library" / "out" / "libprolly.a").exists():
        print("SKIPPED the package for Python: `make lib` makes its library")
        return
    if subprocess.run([sys.executable, "-c", NEEDED], capture_output=True, check=False).returncode != 0:
        print(f"SKIPPED the package for Python: {sys.executable} has no setuptools, or no headers")
        return
    place = folder / "site"
    source = folder / "python"
    yield "the package is copied", ran(["cp", "-r", TOP / "python", source])
    words = [sys.executable, "setup.py", "--quiet", "build", "--build-lib", place]
    yield "the package is built", ran(words, source, PROLLY_LIB=TOP / "library" / "out", PROLLY_INCLUDE=TOP / "include", CFLAGS="-Werror")
    if not place.exists():
        return
    examples = "import doctest, sys; sys.exit(doctest.testfile(sys.argv[1], module_relative=False, optionflags=doctest.IGNORE_EXCEPTION_DETAIL).failed)"
    yield "the examples of docs/python.md", ran([sys.executable, "-c", examples, TOP / "docs" / "python.md"], folder, PYTHONPATH=place)
    yield "the example of the package", ran([sys.executable, "-m", "doctest", place / "prolly" / "__init__.py"], folder, PYTHONPATH=place)
    search = f"{place}{os.pathsep}{TOP / 'tests'}"
    yield "the package beside the second builder", ran([sys.executable, CHECKS], folder, PYTHONPATH=search)


def ran(words, folder=None, **environment):
    """What goes wrong with a run."""
    names = {**os.environ, **{name: str(value) for name, value in environment.items()}}
    done = subprocess.run(words, capture_output=True, text=True, check=False, cwd=folder, env=names)
    for line in done.stdout.splitlines():
        if line.startswith("SKIPPED "):
            print(line, flush=True)
    return [] if done.returncode == 0 else [f"status {done.returncode}: {(done.stdout + done.stderr)[-900:]!r}"]
