"""The words of the command line: help, usage, and what becomes of each subcommand."""

import re
from pathlib import Path

from support.harness import BAD_KEY, BAD_TEXT_KEY, Case

TEXTS = Path(__file__).parent.parent / "texts"

COMMANDS = [
    "pack", "scratch", "build", "apply", "explain", "check", "root", "stat", "get", "scan", "nth", "dump", "diff", "prove", "verify",
]


BESIDE_RANGE = "the argument '--from <KEY>' cannot be used with '<KEY>'"

NO_FROM = "the following required arguments were not provided:\n  --from <KEY>"

BESIDE_KEYS = "the argument '--keys <KEYS>' cannot be used with '{}'"

NO_SORT = "the following required arguments were not provided:\n  --sort"

NO_LINES = "the following required arguments were not provided:\n  --lines"

BESIDE_BITS = "the argument '--bits <Q>' cannot be used with '--chunk-bytes <N>'"

EXPLAIN_USAGE = "explain [OPTIONS] <FILE>\n       prolly explain [OPTIONS] --lines"

GET_USAGE = "get [OPTIONS] <FILE> <KEY>\n       prolly get [OPTIONS] --keys <KEYS> <FILE>"

PROVE_USAGE = (
    "prove [OPTIONS] <FILE> <KEY> <OUT>\n       prolly prove [OPTIONS] --from <KEY> [--to <KEY>] <FILE> <OUT>"
    "\n       prolly prove [OPTIONS] --keys <KEYS> <FILE> <OUT>"
)

VERIFY_USAGE = (
    "verify [OPTIONS] <ROOT> <KEY> [PROOF]\n       prolly verify [OPTIONS] --from <KEY> [--to <KEY>] <ROOT> [PROOF]"
    "\n       prolly verify [OPTIONS] --keys <KEYS> <ROOT> [PROOF]"
)


def helped(words, text):
    """A run that prints a text of help."""
    return Case(f"help: {' '.join(words)}", words, out=(TEXTS / text).read_bytes())


def misused(words, text):
    """A run that prints what is wrong with its words."""
    shown = " ".join(word if len(word) < 40 else "LONG" for word in words)
    return Case(f"usage: {shown}", words, status=2, err=text.encode())


def wrong(words, text, usage=None):
    """The same, in the form of most of these texts."""
    usage = f"Usage: prolly {usage}\n\n" if usage else ""
    return misused(words, f"error: {text}\n\n{usage}For more information, try '--help'.\n")


def bad_number(words, word, option, why):
    """The same, for a number."""
    return wrong(words, f"invalid value '{word}' for '{option}': {why}")


def unknown(words, word, usage):
    """The same, for an option that a command with further words does not have."""
    return wrong(words, f"unexpected argument '{word}' found\n\n  tip: to pass '{word}' as a value, use '-- {word}'", usage)


def missing(words, names, usage):
    """The same, for words that are missing, of which the last one may be of any number."""
    lines = "".join(f"\n  <{name.rstrip('.')}>{'...' if name.endswith('...') else ''}" for name in names)
    return wrong(words, f"the following required arguments were not provided:{lines}", usage)


def bad_key(*words):
    """A word for a key that is none."""
    err = BAD_TEXT_KEY if "--text" in words else BAD_KEY
    return Case(f"key: {' '.join(words)[:60]!r}", list(words), status=2, err=err)


def cases(_):
    """All cases."""
    return help_cases() + version_cases() + usage_cases() + number_cases() + key_cases()


def help_cases():
    """Help is printed to standard output, and is no fault."""
    return (
        [helped(["--help"], "prolly.txt"), helped(["-h"], "prolly-short.txt"), helped(["help"], "prolly.txt")]
        + [helped([command, "--help"], f"{command}.txt") for command in COMMANDS]
        + [helped([command, "-h"], f"{command}-short.txt") for command in COMMANDS]
        + [helped(["help", "scratch"], "scratch.txt")]
        + [Case("help: nobody reads it", ["--help"], status=5, err=b"prolly: write failed\n", stdout="unread")]
    )


def version_cases():
    """The program's version, and what has proved it, as the README names it."""
    readme = (Path(__file__).parent.parent.parent / "README.md").read_text()
    proved = re.search(r"Proved with `([^`]+)`", readme)[1]
    told = f"prolly 1.0.0, proved with {proved}\n".encode()
    return [Case(f"version: {word}", [word], out=told) for word in ("--version", "-V")]


def usage_cases():
    """Words that are missing, unknown or too many."""
    none = (
        "error: 'prolly' requires a subcommand but one was not provided\n"
        f"  [subcommands: {', '.join(COMMANDS)}, help]\n\n"
        "Usage: prolly <COMMAND>\n\nFor more information, try '--help'.\n"
    )
    return [
        misused([], none),
        wrong(["plant"], "unrecognized subcommand 'plant'", "<COMMAND>"),
        wrong(["--deep"], "unexpected argument '--deep' found", "<COMMAND>"),
        wrong(["scratch", "--version"], "unexpected argument '--version' found", "scratch [OPTIONS]"),
        wrong(["scratch", "--deep"], "unexpected argument '--deep' found", "scratch [OPTIONS]"),
        wrong(["scratch", "file"], "unexpected argument 'file' found", "scratch [OPTIONS]"),
        wrong(["scratch", "--bits"], "a value is required for '--bits <Q>' but none was supplied"),
        wrong(["scratch", "--bits", "1", "--bits", "2"], "the argument '--bits <Q>' cannot be used multiple times", "scratch [OPTIONS]"),
        missing(["pack"], ["OUT"], "pack <OUT>"),
        wrong(["pack", "a", "b"], "unexpected argument 'b' found", "pack [OPTIONS] <OUT>"),
        missing(["build"], ["OUT"], "build <OUT> [FILES]..."),
        wrong(["build", "--quiet", "o", "--quiet"], "the argument '--quiet' cannot be used multiple times", "build [OPTIONS] <OUT> [FILES]..."),
        wrong(["scratch", "--quiet"], "unexpected argument '--quiet' found", "scratch [OPTIONS]"),
        wrong(["pack", "--unique", "o"], NO_SORT, "pack [OPTIONS] <OUT>"),
        wrong(["pack", "--memory", "256", "o"], NO_SORT, "pack [OPTIONS] <OUT>"),
        wrong(["pack", "--sort", "--sort", "o"], "the argument '--sort' cannot be used multiple times", "pack [OPTIONS] <OUT>"),
        wrong(["scratch", "--chunk-bytes", "9", "--bits", "1"], BESIDE_BITS, "scratch [OPTIONS]"),
        wrong(["build", "--bits", "1", "--chunk-bytes", "9", "o", "f"], BESIDE_BITS, "build [OPTIONS] <OUT> [FILES]..."),
        unknown(["apply", "--root", "r", "f", "o", "--chunk-bytes", "9"], "--chunk-bytes", "apply --root <ROOT> <OLD> <OUT> [CHANGES]..."),
        missing(["explain"], ["FILE"], EXPLAIN_USAGE),
        missing(["explain", "--text"], ["FILE"], EXPLAIN_USAGE),
        missing(["explain", "--all"], ["FILE"], EXPLAIN_USAGE),
        wrong(["explain", "f", "x"], "unexpected argument 'x' found", EXPLAIN_USAGE),
        wrong(["explain", "f", "--max-records", "1"], "unexpected argument '--max-records' found\n\n  tip: to pass '--max-records' as a value, use '-- --max-records'", EXPLAIN_USAGE),
        wrong(["explain", "--text", "--text", "f"], "the argument '--text' cannot be used multiple times", EXPLAIN_USAGE),
        wrong(["explain", "--lines", "f"], "the argument '--lines' cannot be used with '<FILE>'", EXPLAIN_USAGE),
        wrong(["explain", "--removals", "f"], NO_LINES, EXPLAIN_USAGE),
        wrong(["explain", "--all", "f"], NO_LINES, EXPLAIN_USAGE),
        missing(["check"], ["FILE..."], "check <FILE>..."),
        missing(["check", "--quiet"], ["FILE..."], "check --quiet <FILE>..."),
        missing(["root"], ["FILE"], "root <FILE>"),
        wrong(["root", "f", "x"], "unexpected argument 'x' found", "root <FILE>"),
        missing(["stat"], ["FILE"], "stat <FILE>"),
        missing(["stat", "--json"], ["FILE"], "stat --json <FILE>"),
        wrong(["stat", "f", "x"], "unexpected argument 'x' found", "stat [OPTIONS] <FILE>"),
        unknown(["stat", "f", "--bits", "1"], "--bits", "stat <FILE>"),
        wrong(["stat", "--json", "--json", "f"], "the argument '--json' cannot be used multiple times", "stat [OPTIONS] <FILE>"),
        missing(["get"], ["FILE"], GET_USAGE),
        missing(["get", "f"], ["KEY"], GET_USAGE),
        wrong(["get", "f", "61", "x"], "unexpected argument 'x' found", GET_USAGE),
        wrong(["get", "f", "61", "--root"], "a value is required for '--root <ROOT>' but none was supplied"),
        wrong(["get", "--root", "r", "--root", "r", "f", "61"], "the argument '--root <ROOT>' cannot be used multiple times", GET_USAGE),
        missing(["get", "--root", "r", "f"], ["KEY"], GET_USAGE),
        missing(["scan"], ["FILE", "KEY", "LIMIT"], "scan <FILE> <KEY> <LIMIT>"),
        missing(["scan", "f", "61"], ["LIMIT"], "scan <FILE> <KEY> <LIMIT>"),
        wrong(["scan", "f", "61", "1", "x"], "unexpected argument 'x' found", "scan [OPTIONS] <FILE> <KEY> <LIMIT>"),
        wrong(["scan", "f", "61", "1", "--root"], "a value is required for '--root <ROOT>' but none was supplied"),
        wrong(["scan", "f", "61", "1", "--format"], "a value is required for '--format <V>' but none was supplied"),
        wrong(["scan", "--root", "r", "--root", "r", "f", "61", "1"], "the argument '--root <ROOT>' cannot be used multiple times", "scan [OPTIONS] <FILE> <KEY> <LIMIT>"),
        missing(["scan", "--root", "r", "f", "61"], ["LIMIT"], "scan --root <ROOT> <FILE> <KEY> <LIMIT>"),
        missing(["nth"], ["FILE", "N"], "nth <FILE> <N>"),
        missing(["nth", "f"], ["N"], "nth <FILE> <N>"),
        wrong(["nth", "f", "1", "x"], "unexpected argument 'x' found", "nth [OPTIONS] <FILE> <N>"),
        wrong(["nth", "f", "1", "--root"], "a value is required for '--root <ROOT>' but none was supplied"),
        wrong(["nth", "f", "1", "--format"], "a value is required for '--format <V>' but none was supplied"),
        wrong(["nth", "--root", "r", "--root", "r", "f", "1"], "the argument '--root <ROOT>' cannot be used multiple times", "nth [OPTIONS] <FILE> <N>"),
        wrong(["nth", "--format", "2", "--format", "2", "f", "1"], "the argument '--format <V>' cannot be used multiple times", "nth [OPTIONS] <FILE> <N>"),
        missing(["nth", "--root", "r", "f"], ["N"], "nth --root <ROOT> <FILE> <N>"),
        missing(["dump"], ["FILE"], "dump <FILE> [OUT]"),
        wrong(["dump", "f", "o", "x"], "unexpected argument 'x' found", "dump [OPTIONS] <FILE> [OUT]"),
        missing(["diff"], ["OLD", "NEW"], "diff <OLD> <NEW>"),
        missing(["diff", "f"], ["NEW"], "diff <OLD> <NEW>"),
        wrong(["diff", "f", "g", "x"], "unexpected argument 'x' found", "diff [OPTIONS] <OLD> <NEW>"),
        wrong(["diff", "--old-root"], "a value is required for '--old-root <ROOT>' but none was supplied"),
        wrong(["diff", "--new-root", "r", "--new-root", "r", "f", "g"], "the argument '--new-root <ROOT>' cannot be used multiple times", "diff [OPTIONS] <OLD> <NEW>"),
        unknown(["check", "f", "--text"], "--text", "check <FILE>..."),
        unknown(["diff", "f", "g", "--removals"], "--removals", "diff <OLD> <NEW>"),
        unknown(["dump", "f", "--stat"], "--stat", "dump <FILE> [OUT]"),
        wrong(["dump", "f", "--text", "--text"], "the argument '--text' cannot be used multiple times", "dump [OPTIONS] <FILE> [OUT]"),
        wrong(["dump", "f", "--hex", "--hex"], "the argument '--hex' cannot be used multiple times", "dump [OPTIONS] <FILE> [OUT]"),
        wrong(["pack", "--removals", "o", "--removals"], "the argument '--removals' cannot be used multiple times", "pack [OPTIONS] <OUT>"),
        wrong(["get", "--text", "--text", "f", "a"], "the argument '--text' cannot be used multiple times", GET_USAGE),
        missing(["get", "--text", "f"], ["KEY"], GET_USAGE),
        missing(["get", "--keys", "k"], ["FILE"], GET_USAGE),
        wrong(["get", "--keys", "k", "f", "61"], BESIDE_KEYS.format("<KEY>"), GET_USAGE),
        wrong(["get", "f", "6", "--keys", "k", "--root", "r"], BESIDE_KEYS.format("<KEY>"), GET_USAGE),
        wrong(["get", "--raw", "--keys", "k", "f"], BESIDE_KEYS.format("--raw"), GET_USAGE),
        missing(["get", "--raw", "f"], ["KEY"], GET_USAGE),
        wrong(["get", "f", "--keys"], "a value is required for '--keys <KEYS>' but none was supplied"),
        wrong(["get", "--keys", "k", "--keys", "k", "f"], "the argument '--keys <KEYS>' cannot be used multiple times", GET_USAGE),
        missing(["prove"], ["FILE"], PROVE_USAGE),
        missing(["prove", "f"], ["KEY"], PROVE_USAGE),
        missing(["prove", "f", "61"], ["OUT"], PROVE_USAGE),
        missing(["prove", "--root", "r", "f", "6"], ["OUT"], PROVE_USAGE),
        missing(["prove", "--from", "61", "f"], ["OUT"], PROVE_USAGE),
        wrong(["prove", "f", "61", "o", "x"], "unexpected argument 'x' found", PROVE_USAGE),
        wrong(["prove", "--from", "61", "f", "61", "o"], BESIDE_RANGE, PROVE_USAGE),
        wrong(["prove", "f", "61", "o", "--from", "6", "--root", "r"], BESIDE_RANGE, PROVE_USAGE),
        wrong(["prove", "--to", "61", "f", "o"], NO_FROM, PROVE_USAGE),
        wrong(["prove", "--to", "61", "f", "61", "o"], NO_FROM, PROVE_USAGE),
        wrong(["prove", "f", "o", "--from"], "a value is required for '--from <KEY>' but none was supplied"),
        wrong(["prove", "--from", "61", "--from", "61", "f", "o"], "the argument '--from <KEY>' cannot be used multiple times", PROVE_USAGE),
        missing(["prove", "--keys", "k", "f"], ["OUT"], PROVE_USAGE),
        wrong(["prove", "--keys", "k", "f", "61", "o"], BESIDE_KEYS.format("<KEY>"), PROVE_USAGE),
        wrong(["prove", "--keys", "k", "--from", "61", "f", "o"], BESIDE_KEYS.format("--from <KEY>"), PROVE_USAGE),
        wrong(["prove", "--keys", "k", "--to", "61", "f", "o"], BESIDE_KEYS.format("--to <KEY>"), PROVE_USAGE),
        missing(["verify"], ["ROOT"], VERIFY_USAGE),
        wrong(["verify", "--keys", "k", "r", "61", "p"], BESIDE_KEYS.format("<KEY>"), VERIFY_USAGE),
        wrong(["verify", "--from", "61", "--keys", "k", "r"], BESIDE_KEYS.format("--from <KEY>"), VERIFY_USAGE),
        wrong(["verify", "--to", "61", "--keys", "k", "r"], BESIDE_KEYS.format("--to <KEY>"), VERIFY_USAGE),
        missing(["verify", "r"], ["KEY"], VERIFY_USAGE),
        wrong(["verify", "r", "61", "p", "x"], "unexpected argument 'x' found", VERIFY_USAGE),
        wrong(["verify", "--from", "61", "r", "61", "p"], BESIDE_RANGE, VERIFY_USAGE),
        wrong(["verify", "--to", "61", "r"], NO_FROM, VERIFY_USAGE),
        wrong(["verify", "--to", "61", "r", "61", "p"], NO_FROM, VERIFY_USAGE),
        wrong(["verify", "r", "61", "--atomic"], "unexpected argument '--atomic' found\n\n  tip: a similar argument exists: '--to'", VERIFY_USAGE),
        wrong(["check", "f", "--force"], "unexpected argument '--force' found\n\n  tip: a similar argument exists: '--format'", "check --format <V> <FILE>..."),
        wrong(["build", "--force", "--force", "o"], "the argument '--force' cannot be used multiple times", "build [OPTIONS] <OUT> [FILES]..."),
        wrong(["prove", "--force", "f", "61", "o", "x"], "unexpected argument 'x' found", PROVE_USAGE),
        missing(["dump", "--force"], ["FILE"], "dump --force <FILE> [OUT]"),
        missing(["pack", "--sort"], ["OUT"], "pack --sort <OUT>"),
        wrong(["diff", "f", "g", "--out"], "a value is required for '--out <FILE>' but none was supplied"),
        Case("usage: a word that is no text", [b"check", b"\xff"], status=2, err=b"prolly: a word is not UTF-8\n"),
    ]


def number_cases():
    """Numbers outside their ranges."""
    return [
        bad_number(["scratch", "--bits", "25"], "25", "--bits <Q>", "25 is not in 0..=24"),
        bad_number(["scratch", "--bits", "x"], "x", "--bits <Q>", "invalid digit found in string"),
        bad_number(["scratch", "--bits", "4.0"], "4.0", "--bits <Q>", "invalid digit found in string"),
        bad_number(["scratch", "--bits=-1"], "-1", "--bits <Q>", "-1 is not in 0..=24"),
        bad_number(["scratch", "--bits", "18446744073709551617"], "18446744073709551617", "--bits <Q>", "number too large to fit in target type"),
        bad_number(["scratch", "--bits", ""], "", "--bits <Q>", "cannot parse integer from empty string"),
        bad_number(["scratch", "--format", "0"], "0", "--format <V>", "0 is not in 1..=2"),
        bad_number(["scratch", "--format", "3"], "3", "--format <V>", "3 is not in 1..=2"),
        bad_number(["diff", "--format", "3", "--old-root", "r", "f", "g"], "3", "--format <V>", "3 is not in 1..=2"),
        bad_number(["verify", "--format", "0", "r", "61"], "0", "--format <V>", "0 is not in 1..=2"),
        bad_number(["verify", "--format", "3", "r", "61"], "3", "--format <V>", "3 is not in 1..=2"),
        bad_number(["get", "--root", "r", "--format", "0", "f", "61"], "0", "--format <V>", "0 is not in 1..=2"),
        bad_number(["get", "--root", "r", "--format", "3", "f", "6"], "3", "--format <V>", "3 is not in 1..=2"),
        bad_number(["scan", "--root", "r", "--format", "0", "f", "61", "1"], "0", "--format <V>", "0 is not in 1..=2"),
        bad_number(["scan", "--root", "r", "--format", "3", "f", "6", "1"], "3", "--format <V>", "3 is not in 1..=2"),
        bad_number(["nth", "--root", "r", "--format", "0", "f", "1"], "0", "--format <V>", "0 is not in 1..=2"),
        bad_number(["nth", "--root", "r", "--format", "3", "f", "1"], "3", "--format <V>", "3 is not in 1..=2"),
        bad_number(["scratch", "--chunk-bytes", "0"], "0", "--chunk-bytes <N>", "0 is not in 1..=1073741824"),
        bad_number(["build", "--chunk-bytes", "1073741825", "o"], "1073741825", "--chunk-bytes <N>", "1073741825 is not in 1..=1073741824"),
        bad_number(["pack", "--sort", "--memory", "15", "o"], "15", "--memory <MB>", "15 is not in 16..=4000"),
        bad_number(["pack", "--sort", "--memory", "4001", "o"], "4001", "--memory <MB>", "4001 is not in 16..=4000"),
        bad_number(["build", "--stages", "0", "o"], "0", "--stages <S>", "0 is not in 1..=12"),
        bad_number(["build", "--stages", "13", "o"], "13", "--stages <S>", "13 is not in 1..=12"),
        bad_number(["build", "--capacity", "0", "o"], "0", "--capacity <C>", "0 is not in 1..=4096"),
        bad_number(["build", "--capacity", "4097", "o"], "4097", "--capacity <C>", "4097 is not in 1..=4096"),
        bad_number(["build", "--max-records", "16777217", "o"], "16777217", "--max-records <M>", "16777217 is not in 1..=16777216"),
        bad_number(["build", "--batch", "1025", "o"], "1025", "--batch <B>", "1025 is not in 1..=1024"),
        bad_number(["scan", "f", "61", "1000001"], "1000001", "<LIMIT>", "1000001 is not in 0..=1000000"),
        bad_number(["scan", "--root", "r", "f", "6", "1000001"], "1000001", "<LIMIT>", "1000001 is not in 0..=1000000"),
        bad_number(["nth", "f", "4294967296"], "4294967296", "<N>", "4294967296 is not in 0..=4294967295"),
        bad_number(["nth", "--root", "r", "f", "4294967296"], "4294967296", "<N>", "4294967296 is not in 0..=4294967295"),
        bad_number(["nth", "--root", "r", "f", "x"], "x", "<N>", "invalid digit found in string"),
        # Of two bad words the first is told, but a word that is not known before a bad value right ahead of it.
        bad_number(["scratch", "--bits", "25", "--format", "3"], "25", "--bits <Q>", "25 is not in 0..=24"),
        bad_number(["scratch", "--format", "3", "--bits", "25"], "3", "--format <V>", "3 is not in 1..=2"),
        wrong(["scratch", "--bits", "25", "--deep"], "unexpected argument '--deep' found", "scratch --bits <Q>"),
        wrong(["scan", "f", "61", "1000001", "x"], "unexpected argument 'x' found", "scan [OPTIONS] <FILE> <KEY> <LIMIT>"),
        bad_number(["build", "--bits", "25"], "25", "--bits <Q>", "25 is not in 0..=24"),
    ]


def key_cases():
    """Words for keys."""
    return [
        bad_key("get", "f", "6"),
        bad_key("get", "f", "6g"),
        bad_key("get", "f", "61" * 1025),
        bad_key("scan", "f", "6", "1"),
        bad_key("prove", "f", "6", "o"),
        bad_key("prove", "f", "61" * 1025, "o"),
        bad_key("get", "--text", "f", "\\q"),
        bad_key("scan", "--text", "f", "a\tb", "1"),
        bad_key("prove", "--text", "f", "a" * 1025, "o"),
        # What else is wrong with the words is told first.
        bad_number(["scan", "f", "6", "x"], "x", "<LIMIT>", "invalid digit found in string"),
        bad_number(["scan", "--text", "f", "\\", "x"], "x", "<LIMIT>", "invalid digit found in string"),
    ]
