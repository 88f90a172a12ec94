"""What `make install` puts on a machine, and takes away again: the program, its manual, and the shells' completions. And
what the archive for other machines has."""

import os
import re
import shutil
import subprocess
import tempfile
from functools import partial
from pathlib import Path

from support.completed import differences
from support.harness import Skipped, differs, tested

TOP = Path(__file__).parent.parent.parent

MANUAL = "share/man/man1/prolly.1"

COMPLETIONS = {
    "bash": "share/bash-completion/completions/prolly",
    "fish": "share/fish/vendor_completions.d/prolly.fish",
    "zsh": "share/zsh/site-functions/_prolly",
}

INSTALLED = sorted(["bin/load.py", "bin/prolly", MANUAL, *COMPLETIONS.values()])

LIBRARY = ["include/prolly.h", "lib/libprolly.a", "lib/libprolly.so", "lib/libprolly.so.0", "lib/pkgconfig/prolly.pc"]
"""What else there is once `make lib` has made the library."""

SECTIONS = ["NAME", "SYNOPSIS", "DESCRIPTION", "OPTIONS", "COMMANDS", "EXIT STATUS", "FILES", "EXAMPLES", "SEE ALSO"]
"""The sections of the manual."""

CHARACTERS = {"\\-": "-", "\\(aq": "'", "\\(ga": "`", "\\(ha": "^", "\\(ti": "~", "\\|": "", "\\&": "", "\\e": "\\"}
"""How the manual's source spells characters."""

LINTS = [
    ["mandoc", "-Tlint", "-Wall"],
    ["groff", "-man", "-ww", "-Tutf8", "-z"],
    ["man", "--warnings", "-E", "UTF-8", "-Tutf8", "-Z", "-l"],
]
"""What looks for faults in a page's source."""


OLD_DAY = 1_000_000_000
"""A second of 2001-09-09, by the clock of the system."""


def all_runs(program, _):
    """Installs, looks, and takes away: for each step its name and its differences."""
    with tempfile.TemporaryDirectory() as folder:
        place = Path(folder) / "usr"
        made = Path(folder) / "made"
        yield "make install", make("install", program, place, made)
        yield "what is installed", differs("files", files_below(place), sorted(INSTALLED + library()))
        if library():
            name = "a program over the library, as pkg-config finds it"
            yield from tested(name, lambda: list(linked(place, Path(folder) / "linked")))
        page, told = (place / MANUAL).read_text(), helps(program)
        yield "the manual has all words of the helps", list(missing(told, page))
        yield "the manual's lists are lists", list(run_together(told, page))
        yield "the manual's sections", differs("sections", re.findall(r'(?m)^\.SH "?([^"\n]*)', page), SECTIONS)
        yield "the manual's statuses", differs("statuses", statuses(page), told_statuses())
        yield "the manual has no usage's brackets", re.findall(r"<[A-Z]+>", page)
        for lint in LINTS:
            yield from tested(f"the manual, as {lint[0]} reads it", partial(linted, [*lint, str(place / MANUAL)]))
        for shell, script in COMPLETIONS.items():
            yield from tested(f"what {shell} reads", partial(read_by, shell, place / script))
            yield from tested(f"completions of {shell}", partial(completed_by, shell, place / script, told[1], Path(folder) / shell))
        yield "make uninstall", make("uninstall", program, place, made)
        yield "what is left", differs("files", files_below(place), [])
        yield "the archive", list(unpacked(program, Path(folder) / "archive"))


def library():
    """What is installed of the library."""
    return LIBRARY if (TOP / "library" / "out" / "libprolly.a").exists() else []


def linked(place, program):
    """What goes wrong with a program that is built and run by what pkg-config tells."""
    needs("pkg-config")
    source = program.with_suffix(".c")
    source.write_text('#include <prolly.h>\nint main(void) { prolly_report r; return prolly_check((const uint8_t *)"", 0, &r) != 16; }\n')
    names = {**os.environ, "PKG_CONFIG_PATH": str(place / "lib" / "pkgconfig"), "LD_LIBRARY_PATH": str(place / "lib")}
    command = 'cc -o "$0" "$1" $(pkg-config --cflags --libs prolly) && "$0"'
    done = subprocess.run(["sh", "-c", command, program, source], capture_output=True, text=True, check=False, env=names)
    if (done.returncode, done.stdout, done.stderr) != (0, "", ""):
        yield f"status {done.returncode}: {(done.stdout + done.stderr)[-300:]!r}"


def make(target, program, place, made):
    """Makes a target, with the program that is there."""
    words = [f"PROGRAM={program}", f"PREFIX={place}", f"MADE={made}"]
    return silent(["make", "-s", "-C", str(TOP), target, *words])


def unpacked(program, folder):
    """How an archive differs from one that has all that is installed, the documents, and the program as it is, of whose day it is."""
    folder.mkdir()
    old = folder / "prolly"
    shutil.copy(program, old)
    os.utime(old, (OLD_DAY, OLD_DAY))
    archive = packed(old, folder)
    first = archive.read_bytes()
    yield from differs("packed again, the archive is the same", packed(old, folder).read_bytes() == first, True)
    subprocess.run(["tar", "-xzf", archive, "-C", folder], check=True)
    root = Path(str(archive).removesuffix(".tar.gz"))
    wanted = [*INSTALLED, *library(), "README.md", "LICENSE", "docs/commands.md", "docs/format.md", "examples/load.py", "examples/python/prolly_read.py"]
    yield from (f"{name} is missing" for name in wanted if not (root / name).is_file())
    yield from differs("the program is as it was", (root / "bin" / "prolly").read_bytes() == Path(program).read_bytes(), True)
    yield from differs("the manual's day", (root / MANUAL).read_text().split()[3], "2001-09-09")
    told = subprocess.run([root / "bin" / "prolly", "--version"], capture_output=True, text=True, check=False).stdout
    yield from differs("the version", told.split(",")[0], root.name.removesuffix("-x86_64-linux").replace("-", " "))


def packed(program, folder):
    """Makes the archive in a folder."""
    words = [str(TOP / "share" / "dist.py"), program, str(folder)]
    names = {name: value for name, value in os.environ.items() if name != "SOURCE_DATE_EPOCH"}
    return Path(subprocess.run(words, capture_output=True, text=True, check=True, env=names).stdout.strip())


def silent(words):
    """How a command differs from one that is done and says nothing."""
    done = subprocess.run(words, capture_output=True, text=True, check=False)
    said = done.stdout + done.stderr
    return [] if (done.returncode, said) == (0, "") else [f"status {done.returncode}: {said[-300:]!r}"]


def needs(command):
    """Skips a test of what a command makes that is not there."""
    if shutil.which(command) is None:
        raise Skipped(f"{command} is not there")


def read_by(shell, script):
    """What a shell says of its completions."""
    needs(shell)
    return silent([shell, "-n", str(script)])


def completed_by(shell, script, helps, folder):
    """What is wrong with what it makes of begun words."""
    needs(shell)
    return list(differences(shell, script, helps, folder))


def linted(words):
    """What a reader of manuals warns of."""
    needs(words[0])
    done = subprocess.run(words, capture_output=True, text=True, check=False)
    said = (done.stdout if "-Tlint" in words else "") + done.stderr
    return [said[-300:]] if said or done.returncode else []


def files_below(place):
    """The files below a folder."""
    return sorted(str(path.relative_to(place)) for path in place.rglob("*") if path.is_file())


def helps(program):
    """The help of the program, and those of its commands by their names."""
    show = partial(subprocess.run, capture_output=True, text=True, check=True)
    top = show([program, "--help"]).stdout
    commands = re.findall(r"(?m)^  ([a-z]+)  ", top.split("Commands:")[1].split("Options:")[0])
    return top, {name: show([program, name, "--help"]).stdout for name in commands if name != "help"}


def plain(page):
    """A manual's source without its fonts, with its characters as they are read."""
    page = re.sub(r"\\f[A-Z]", "", page)
    for spelling, character in CHARACTERS.items():
        page = page.replace(spelling, character)
    return page


def missing(told, page):
    """Words of the helps that the manual has not."""
    found = set(plain(page).replace("`", "").replace('"', "").split())
    top, commands = told
    for text in [top, *commands.values()]:
        words = text.replace("Usage:", "").replace("Arguments:", "").replace("Options:", "").replace("Commands:", "")
        words = re.sub(r"<([A-Z]+)>", r"\1", words).replace("`", "").replace('"', "")
        yield from (f"{word!r} is missing" for word in sorted(set(words.split()) - found))


def run_together(told, page):
    """Lines of the helps that stand by themselves, as those of a list do, and that the manual runs into others."""
    found = set(plain(page).splitlines())
    top, commands = told
    for text in [top, *commands.values()]:
        for line in re.findall(r"(?m)^  (\S.*)", text.split("\nUsage:")[0]):
            begin = re.split("  +", line)[0]
            if begin not in found:
                yield f"{begin!r} has no line of its own"


def statuses(page):
    """The exit statuses that the manual tells."""
    part = plain(page).split(".SH EXIT STATUS")[1].split(".SH ")[0]
    return sorted(set(re.findall(r"(?m)^\.TP\n(\d)$", part)))


def told_statuses():
    """Those that the commands' documents tell: 0, 1, and those of faults."""
    faults = (TOP / "docs" / "faults.md").read_text()
    return sorted({"0", "1", *re.findall(r"(?m)^\| [`.].*? \| (\d) \|", faults)})
