"""The examples of the README, and of the pages that go on from there, run in their order in one folder. The program and load.py
are found by their names, as where they are installed."""

import os
import subprocess
import tempfile
from pathlib import Path

from support.harness import shown

PAGES = ["README.md", "docs/commands.md", "docs/versions.md"]


def all_runs(program, _):
    """Runs the examples, and gives for each command its name and its differences."""
    with tempfile.TemporaryDirectory() as folder:
        top = Path(__file__).parent.parent.parent
        path = os.pathsep.join([str(Path(program).parent), str(top / "examples"), os.environ["PATH"]])
        pages = "".join((top / page).read_text() for page in PAGES)
        for command, wanted in commands_of(pages):
            done = subprocess.run(
                ["bash", "-o", "pipefail", "-c", command],
                cwd=folder,
                env={**os.environ, "PATH": path},
                capture_output=True,
                text=True,
                check=False,
            )
            differences = []
            if done.returncode != 0 or done.stderr:
                differences.append(f"status {done.returncode}, standard error {shown(done.stderr)}")
            if done.stdout != wanted:
                differences.append(f"standard output {shown(done.stdout)}, wanted {shown(wanted)}")
            yield f"example: {command[:60]}", differences


def commands_of(text):
    """The commands in the text's blocks of a console, each with what it is to print."""
    found, within = [], False
    for line in text.splitlines():
        if line.startswith("```"):
            within = line == "```console"
        elif within and line.startswith("$ "):
            found.append((line[2:], ""))
        elif within:
            command, wanted = found.pop()
            found.append((command, f"{wanted}{line}\n"))
    return found
