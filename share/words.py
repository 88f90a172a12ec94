#!/usr/bin/env python3
"""Makes the manual page and the shells' completions from the helps of the program: `share/words.py PROGRAM FOLDER`.

The helps are made of the words that the program parses by, so neither can drift. FOLDER gets man1/prolly.1, prolly.bash,
_prolly (for zsh) and prolly.fish.
"""

import sys
from pathlib import Path

from completions import bash, fish, zsh
from helps import all_helps, printed
from manual import manual


def main():
    """Writes all files."""
    program, folder = sys.argv[1], Path(sys.argv[2])
    top, commands = all_helps(program)
    (folder / "man1").mkdir(parents=True, exist_ok=True)
    (folder / "man1" / "prolly.1").write_text(manual(printed(program, "--version").strip(), top, commands))
    (folder / "prolly.bash").write_text(bash(top, commands))
    (folder / "_prolly").write_text(zsh(top, commands))
    (folder / "prolly.fish").write_text(fish(top, commands))


if __name__ == "__main__":
    main()
