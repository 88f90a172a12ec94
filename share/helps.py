"""The helps of the program, in their parts."""

import re
import subprocess
from dataclasses import dataclass, field

TITLES = ("Commands:", "Arguments:", "Options:")

TEXT_INDENT = " " * 10
"""How deep the lines stand that say something of a term."""

OPTION = re.compile(r"(?:-(?P<short>[hV]), )?--(?P<name>[a-z-]+)(?: <(?P<value>[A-Z_]+)>)?")

CHOICES = re.compile(r"\((\d+) or (\d+)\)")
"""How an option of two values names them."""

FILES = {"FILE", "FILES", "KEYS", "OUT", "OLD", "NEW", "PROOF"}
"""The words of a usage that stand for names of files."""


@dataclass
class Term:
    """A command, an argument or an option, with what is said of it."""

    name: str
    text: str
    short: str = None
    """An option's letter, if it has one."""
    value: str = None
    """What an option's value is called, if it takes one."""

    @property
    def choices(self):
        """The values that an option takes, where it says that there are two."""
        found = CHOICES.search(self.text)
        return list(found.groups()) if found else []

    @property
    def takes_file(self):
        """Whether an option's value, or an argument, is the name of a file."""
        return (self.value or self.name.strip("<>[].")) in FILES


@dataclass
class Help:
    """A help, in its parts."""

    about: list = field(default_factory=list)
    """The paragraphs before the usage."""
    usages: list = field(default_factory=list)
    """The ways in which it is used, a line each."""
    terms: dict = field(default_factory=dict)
    """The terms under each title."""
    rest: list = field(default_factory=list)
    """The paragraphs behind: an example, and what else is said."""

    @property
    def arguments(self):
        """The arguments of a command."""
        return self.terms.get("Arguments:", [])

    @property
    def options(self):
        """The options of a command."""
        return self.terms.get("Options:", [])


def all_helps(program):
    """The help of the program, and those of its commands by their names."""
    top = help_of(program)
    names = [term.name for term in top.terms["Commands:"] if term.name != "help"]
    return top, {name: help_of(program, name) for name in names}


def help_of(program, *words):
    """The help of the program, or of one of its commands."""
    before, behind = printed(program, *words, "--help").split("\nUsage: ", 1)
    found = Help(about=before.strip().split("\n\n"))
    usages, behind = behind.split("\n\n", 1)
    found.usages = [line.strip() for line in usages.splitlines()]
    title, block = None, []
    for line in [*behind.splitlines(), "end"]:
        if line and not line.startswith(" "):
            close(found, title, block)
            title, block = (line, []) if line in TITLES else (None, [line])
        else:
            block.append(line)
    return found


def printed(program, *words):
    """What the program prints."""
    return subprocess.run([program, *words], capture_output=True, text=True, check=True).stdout


def close(found, title, block):
    """Puts what was read under a title, or behind all titles, where it belongs."""
    if title:
        found.terms[title] = terms_of(block)
    elif any(block):
        found.rest.append("\n".join(block).strip())


def terms_of(block):
    """The terms of the lines under a title. What is said of a term stands behind it, or deeper on lines of its own."""
    terms = []
    for line in filter(str.strip, block):
        if line.startswith(TEXT_INDENT):
            terms[-1].text = f"{terms[-1].text} {line.strip()}".strip()
        else:
            name, _, text = line.strip().partition("  ")
            terms.append(term_of(name, text.strip()))
    return terms


def term_of(name, text):
    """A term by the word that names it."""
    option = OPTION.fullmatch(name)
    if option is None:
        return Term(name, text)
    return Term(f"--{option['name']}", text, option["short"] and f"-{option['short']}", option["value"])
