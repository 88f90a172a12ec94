"""The manual page, in the macros of man."""

import os
import re
import textwrap
from datetime import datetime, timezone
from itertools import groupby

STATUS = "The exit status is\n"
"""What the paragraph of the help begins with that lists the exit statuses."""

BESIDE = """Stands beside OUT while a command writes what is to take its place, or `pack --sort` lines that do not fit into memory.
Where such a file is there already, it has the next number that is free. It is left behind only by a run that was killed."""

SEE_ALSO = """`pack --sort` puts lines into the order that records have. `LC_ALL=C sort` does so where no key has an escape or a
byte below the tab, and hexadecimal digits are in one case. Text has the escapes of PostgreSQL's COPY."""

INLINE = re.compile(r"`(?P<code>[^`]+)`|(?P<option>(?<![\w-])--[a-z][a-z-]*)|(?P<word>\b[A-Z]+\b)")
"""What stands out in running text: code, an option, and what may be the name of an argument."""

LISTED = re.compile(r"  (?P<term>\S+(?: \S+)*) {2,}(?P<text>\S.*)")
"""A line of a list in a paragraph: what it is of, and what is said of it."""

WIDTH = 78
"""How long the lines of the page may be."""


def manual(version, top, commands):
    """The whole page."""
    lines = [f'.TH PROLLY 1 {day()} "{version.split(",")[0]}" "User Commands"']
    lines += [".SH NAME", f"prolly \\- {escaped(top.about[0]).rstrip('.').lower()}"]
    lines += [".SH SYNOPSIS", *(line for help_ in commands.values() for line in synopsis(help_.usages))]
    lines += [".SH DESCRIPTION", *paragraphs([text for text in top.about if not text.startswith(STATUS)], names_of(top))]
    lines += [".SH OPTIONS", *tagged(top.options, top)]
    lines += [".SH COMMANDS", *tagged(top.terms["Commands:"], top)]
    for name, help_ in commands.items():
        lines += [f".SS prolly {name}", *synopsis(help_.usages), *paragraphs(help_.about, names_of(help_))]
        lines += [*tagged(help_.arguments, help_), *tagged(help_.options, help_), *examples(help_.rest, help_)]
    statuses = [text.removeprefix(STATUS) for text in top.about if text.startswith(STATUS)]
    lines += [".SH EXIT STATUS", *paragraphs(statuses, names_of(top))]
    lines += [".SH FILES", *entry(italic("OUT") + bold(".0.tmp"), running(BESIDE, {"OUT"}))]
    lines += [".SH EXAMPLES", *examples(top.rest, top)]
    lines += [".SH SEE ALSO", ".BR sort (1),", ".BR cmp (1)", ".PP", *filled(running(SEE_ALSO, set()))]
    return "\n".join(without_empty(lines)) + "\n"


def day():
    """The day on which the page is made, or that of SOURCE_DATE_EPOCH."""
    seconds = os.environ.get("SOURCE_DATE_EPOCH")
    made = datetime.fromtimestamp(int(seconds), timezone.utc) if seconds else datetime.now(timezone.utc)
    return made.strftime("%Y-%m-%d")


def names_of(help_):
    """The names that a command's arguments and the values of its options have."""
    return {term.name.strip("<>[].") for term in help_.arguments} | {term.value for term in help_.options if term.value}


def without_empty(lines):
    """The lines without the begins of paragraphs that a section begins with: it begins one itself."""
    return [line for before, line in zip(["", *lines], lines) if line != ".PP" or not before.startswith(".SH")]


# ---- parts of a section


def synopsis(usages):
    """Usages: the command in bold, what stands for a word of the user in italics."""
    lines = []
    for usage in usages:
        program, name, *words = usage.split()
        lines += [f'.SY "{program} {name}"', *map(argument, words), ".YS"]
    return lines


def argument(word):
    """What stands for a word of the user, in italics."""
    return re.sub(r"[A-Z]+", lambda found: italic(found[0]), re.sub("[<>]", "", word)).replace("...", "\\|.\\|.\\|.")


def paragraphs(texts, names):
    """Paragraphs of running text, with the lists and the lines within them."""
    return [line for text in texts for line in paragraph(text, names)]


def paragraph(text, names):
    """A paragraph. Its lines that are indented are a list, or are shown as they are."""
    lines = []
    for kind, group in groupby(whole_lines(text), kind_of):
        if kind == "text":
            lines += [".PP", *filled(running(" ".join(group), names))]
        elif kind == "list":
            listed = [LISTED.fullmatch(line) for line in group]
            lines += [line for found in listed for line in entry(bold(escaped_code(found["term"])), running(found["text"], names))]
        else:
            lines += shown(group)
    return lines


def whole_lines(text):
    """The lines of a paragraph. One that goes on deeper below a line of a list belongs to it."""
    lines = []
    for line in text.splitlines():
        if line.startswith("    ") and lines and kind_of(lines[-1]) == "list":
            lines[-1] += f" {line.strip()}"
        else:
            lines.append(line)
    return lines


def kind_of(line):
    """What a line of a paragraph is."""
    if not line.startswith(" "):
        return "text"
    return "list" if LISTED.fullmatch(line) else "code"


def entry(term, text):
    """A term, and what is said of it below it."""
    return [".TP", term, *filled(text)]


def tagged(terms, help_):
    """Terms and their texts."""
    return [line for term in terms for line in entry(heading(term), running(term.text, names_of(help_)))]


def heading(term):
    """How a term is shown: options and commands in bold, arguments and values in italics."""
    if term.name[0] in "<[":
        return argument(term.name)
    names = [bold(escaped_code(name)) for name in (term.short, term.name) if name]
    return ", ".join(names) + (f" {italic(term.value)}" if term.value else "")


def examples(texts, help_):
    """What stands behind the options: a line that says what it is, and lines that are shown as they are."""
    lines = []
    for text in texts:
        said, *code = text.splitlines()
        lines += [".PP", *filled(running(said, names_of(help_))), *(shown(code) if code else [])]
    return lines


def shown(lines):
    """Lines that are shown as they are, deeper than the text."""
    return [".PP", ".RS 4", ".nf", *(escaped_code(line.strip()) for line in lines), ".fi", ".RE"]


# ---- characters


def bold(text):
    """Text in bold."""
    return f"\\fB{text}\\fR"


def italic(text):
    """Text in italics."""
    return f"\\fI{text}\\fR"


def running(text, names):
    """Running text: code and options in bold, and these names in italics."""
    parts, place = [], 0
    for found in INLINE.finditer(text):
        parts += [escaped(text[place : found.start()]), marked(found, names)]
        place = found.end()
    return "".join([*parts, escaped(text[place:])])


def marked(found, names):
    """What stands out in running text, if it does."""
    if found["word"]:
        return italic(found[0]) if found[0] in names else found[0]
    return bold(escaped_code(found["code"] or found["option"]))


def filled(text):
    """Text in lines that are not too long, none of which begins as a request does."""
    lines = textwrap.wrap(text, WIDTH, break_long_words=False, break_on_hyphens=False)
    return [re.sub(r"^([.'])", r"\\&\1", line) for line in lines]


def escaped(text):
    """Text whose characters stand for themselves."""
    return text.replace("\\", "\\e").replace("^", "\\(ha").replace("~", "\\(ti")


def escaped_code(text):
    """The same of what is typed: hyphens and quotes are those of ASCII."""
    return re.sub(r"^\.", r"\\&.", escaped(text).replace("-", "\\-").replace("'", "\\(aq").replace("`", "\\(ga"))
