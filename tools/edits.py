#!/usr/bin/env python3
"""Tries the wrong bodies of crates, many in one copy, and says of each whether the prover refuses it:
`tools/edits.py [--gate] [--jobs N] [CRATE..]`, by default those of all crates.

A wrong body is a file NAME.edit in a crate's must-fail/, gate-edits/ or more-edits/: a line `file: PATH`, and pairs of lines
`old: TEXT` and `new: TEXT`. Each `old:` text stands once in the file, as the pairs before left it.

A round is one check of a copy of the crate with many edits in it, no two of them in one function. An edit is refused there
if the prover holds a reason of its own against the function, as a goal that it did not prove; that another function is not
proved is no such reason. Contracts stay as they are, so what is to be proved of a function is the same whatever the bodies of
the others are. A round that gives no verdict, or that blames a function which was not edited, is tried again by halves. An
edit for whose function no such reason is told, or that lies in no function's body, is tried alone, and is refused if the prover
then ends with the verdict that the crate is not proved.

With --gate only the edits in gate-edits/ are tried, behind a run that has proved all crates and built the libraries. So the
crate is not checked as it stands, and a round checks no more than the edited functions and those that they call. An edit of
which that says nothing is tried so once more, alone. It is refused if the prover then does not prove its function, and else
tried as above.

N crates are tried side by side, by default as many as processors, and fewer where memory is short. The status is 0 if all
edits are refused.
"""

import argparse
import os
import re
import shutil
import signal
import subprocess
import sys
import tempfile
import time
from collections import Counter
from concurrent.futures import ThreadPoolExecutor
from dataclasses import dataclass
from pathlib import Path

from prove import TOP, crates_below, most_jobs

CRATES = TOP / "crates"

GATE = "gate-edits"
"""Where those stand that the gate tries by this tool. Those in must-fail/ it tries without it."""

FOLDERS = ("must-fail", GATE, "more-edits")
"""Where the edits of a crate stand."""

REFUSED, MISSED, BAD = "refused", "NOT REFUSED", "BAD EDIT"
"""What an edit comes to."""

REASON_LENGTH = 100
"""How much of a reason is shown."""

HEAD = re.compile(r'( *)(?:pub(?:\([a-z]+\))? )?(const )?(?:unsafe )?(?:extern "C" )?fn (\w+)')
"""How a function begins."""

IMPORTS = re.compile(r"use [^;]+;(?: use [^;]+;)*(?: (?:pub )?fn (?P<added>\w+)\([^()]*\) -> [^{]*\{.*\})?")
"""Lines that import names, which lie in no function and change none, and behind them perhaps a function that an edit adds."""

UNREAD = r"is not in scope|has no field|is no name|operand is missing|expected the end|cannot continue"
"""What the prover says of a text that it can't read."""

STALE = "Run the lower steps again"
"""What it says where a library's kept work does not serve, which tells nothing of an edit."""

JUDGED = re.compile(r"fn (\S+): (.*)")
"""What the prover says of a function."""

UNPROVED = re.compile(r"`search` did not prove `[^`]+`(?:, `[^`]+`)*")
"""What it says where its own searches left a goal open."""

STANDS_ON = re.compile(r"it stands on `[^`]+`(?:, `[^`]+`)*, which antt refuses")
"""What it says where answers in proofs/ are refused, which may be those of other functions."""

NOT_A_PROOF = re.compile(
    r"`\w+`: no proof of |`\w+` stopped at its own limit |[a-z ]+, the two types (?:first differ|differ|are) |expected type `"
)
"""Why it refuses an answer that does not prove its goal."""


class BadEdit(Exception):
    """Why an edit can't be tried."""


@dataclass(frozen=True)
class Edit:
    """A wrong body: its name, its changes, each a path with an old and a new text, and the functions in whose bodies these
    lie, or that they add, or none where one lies elsewhere."""

    name: str
    changes: tuple
    functions: frozenset


@dataclass
class Said:
    """What a check ended with, what the prover printed, and how long it took."""

    status: int
    lines: list
    seconds: float

    def last(self):
        """The last line, which is the verdict where there is one."""
        return self.lines[-1] if self.lines else ""


def main():
    """Tries the edits of crates, and says how many came to what."""
    parser = argparse.ArgumentParser(description=__doc__, formatter_class=argparse.RawDescriptionHelpFormatter)
    parser.add_argument("--jobs", type=int, default=most_jobs(), metavar="N", help="how many crates are tried side by side")
    parser.add_argument("--gate", action="store_true", help="try those in gate-edits/ alone, of crates that are proved")
    parser.add_argument("crates", nargs="*", metavar="CRATE")
    given = parser.parse_args()
    folders = (GATE,) if given.gate else FOLDERS
    having = {folder.name: len(files_of(folder, folders)) for folder in CRATES.iterdir() if files_of(folder, folders)}
    lacking = sorted(set(given.crates) - having.keys())
    if lacking:
        sys.exit(f"there are no edits of {', '.join(lacking)}")
    longest_first = sorted(set(given.crates) or having, key=having.get, reverse=True)
    with ThreadPoolExecutor(max(1, given.jobs)) as pool:
        trials = [GateTrial if given.gate else Trial] * len(longest_first)
        found = sum(pool.map(tried, trials, longest_first), Counter())
    print(f"{found[REFUSED]} refused, {found[MISSED]} not refused, {found[BAD]} bad")
    sys.exit(0 if found.total() == found[REFUSED] else 1)


def files_of(folder, folders):
    """The files of a crate's edits in these folders, with whatever else stands beside them but notes."""
    return [file for name in folders for file in sorted((folder / name).glob("*")) if file.suffix != ".md"]


def tried(kind, crate):
    """Tries edits of a crate, and gives how many came to what."""
    with tempfile.TemporaryDirectory(prefix="edits-") as room:
        trial = kind(crate, Path(room))
        trial.run()
    return trial.found


def linked(source, target):
    """Links a file, or copies it where that can't be."""
    try:
        os.link(source, target)
    except OSError:
        shutil.copy2(source, target)


class Trial:
    """The edits of one crate, tried in a copy of it among copies of the crates that it stands on."""

    folders = FOLDERS

    def __init__(self, crate, room):
        self.crate, self.room, self.found = crate, room, Counter()
        self.copy, self.kept = room / "crates" / crate, room / "kept"

    def lay_out(self):
        """Copies the crates. Of those below this one what was built serves where it is up to date."""
        below = crates_below(self.crate)
        for name in [folder.name for folder in CRATES.iterdir()]:
            shutil.copytree(CRATES / name, self.room / "crates" / name, ignore=shutil.ignore_patterns("out", *FOLDERS))
        for built in [CRATES / name / "out" / "rlib" for name in below]:
            if built.is_dir():
                shutil.copytree(built, self.room / built.relative_to(TOP), copy_function=linked)
        for name in ("crates.txt", "HANDLES"):
            shutil.copy(TOP / name, self.room)

    def run(self):
        """Tries those that lie in no body, and then the others, many together."""
        self.lay_out()
        edits = self.readable()
        if not self.is_proved():
            for edit in edits:
                self.tell(edit.name, MISSED, "not tried, since the crate as it stands is not proved")
            return
        for edit in edits:
            if not edit.functions:
                self.try_alone(edit)
        rounds = rounds_of([edit for edit in edits if edit.functions], self.kept)
        for number, those in enumerate(rounds, 1):
            self.try_round(f"round {number} of {len(rounds)}", those)

    def readable(self):
        """The edits that can be applied. Says which can't."""
        edits = []
        for file in files_of(CRATES / self.crate, self.folders):
            try:
                edits.append(edit_of(file, self.copy))
            except (BadEdit, OSError, UnicodeDecodeError) as why:
                self.tell(file.stem, BAD, why)
        return edits

    def is_proved(self):
        """Whether the crate is proved as it stands, over what earlier checks of it kept. Sets the copy aside with what the
        check left, where the edits begin."""
        kept = CRATES / self.crate / "out" / "incremental"
        if kept.is_dir():
            shutil.copytree(kept, self.copy / "out" / "incremental")
        said = self.check()
        self.say("as it stands", said)
        self.copy.rename(self.kept)
        return said.status == 0 and said.last().startswith("logic=proved ")

    def try_round(self, label, edits):
        """Tries edits together, and alone those of which that says nothing. Where it gives no verdict, tries each half."""
        if len(edits) == 1:
            self.try_alone(edits[0])
            return
        texts = texts_with(edits, self.kept)
        said = self.check_with(texts, "--allow-holes", *self.scope(edits))
        self.say(f"{label}, {len(edits)} edits", said)
        reasons = own_reasons(self.crate, said.lines)
        edited = {name for edit in edits for name in edit.functions}
        if not is_telling(said, texts) or not reasons.keys() <= edited:
            middle, part = len(edits) // 2, label.removesuffix(", a part") + ", a part"
            self.try_round(part, edits[:middle])
            self.try_round(part, edits[middle:])
            return
        for edit in edits:
            held = sorted(edit.functions & reasons.keys())
            if held:
                self.tell(edit.name, REFUSED, f"{held[0]}: {reasons[held[0]][:REASON_LENGTH]}")
            else:
                self.try_alone(edit)

    def scope(self, _):
        """The flags that say what a round checks: all of the crate."""
        return ()

    def try_alone(self, edit):
        """Tries an edit without others, and judges it by the verdict on the crate."""
        texts = texts_with([edit], self.kept)
        said = self.check_with(texts)
        self.say(f"{edit.name} alone", said)
        self.tell(edit.name, *outcome(said, texts))

    def check_with(self, texts, *flags):
        """Checks the crate with these texts in it, over what the check of the crate as it stands left."""
        shutil.rmtree(self.copy, ignore_errors=True)
        shutil.copytree(self.kept, self.copy)
        for path, text in texts.items():
            (self.copy / path).write_text(text, encoding="utf-8")
        return self.check(*flags)

    def check(self, *flags):
        """Checks the copy. What rt says, and not the prover, is left out."""
        start, words = time.monotonic(), ["rt", "check", "--jobs", "1", *flags]
        how = {"stdin": subprocess.DEVNULL, "stdout": subprocess.PIPE, "stderr": subprocess.STDOUT, "errors": "replace"}
        done = subprocess.run(words, cwd=self.copy, check=False, **how)
        if done.returncode == -signal.SIGINT:
            raise KeyboardInterrupt
        lines = [line for line in done.stdout.splitlines() if line and not line.startswith("rt: ")]
        return Said(done.returncode, lines, time.monotonic() - start)

    def tell(self, name, outcome, why):
        """Says what an edit came to, and counts it."""
        self.found[outcome] += 1
        print(f"{self.crate}/{name}: {outcome} ({why})", flush=True)

    def say(self, what, said):
        """Says what a check came to."""
        print(f"{self.crate}: {what}: {said.seconds:.0f} s, {said.last()[:60]}", flush=True)


class GateTrial(Trial):
    """The edits of one crate that the gate tries, where it has proved the crate as it stands."""

    folders = (GATE,)

    def is_proved(self):
        """It was proved before. Sets the copy aside."""
        self.copy.rename(self.kept)
        return True

    def scope(self, edits):
        """The edited functions, and with them those that they call."""
        functions = sorted({name for edit in edits for name in edit.functions})
        return [word for name in functions for word in ("--only", name)]

    def try_round(self, label, edits):
        """Tries edits together, and by itself one of which that says nothing. What is not told then either is judged by the
        verdict on the crate."""
        texts = texts_with(edits, self.kept)
        said = self.check_with(texts, "--allow-holes", *self.scope(edits))
        self.say(f"{label}, {len(edits)} edits", said)
        reasons = self.reasons(edits, said.lines) if is_telling(said, texts) else {}
        for edit in edits:
            held = sorted(edit.functions & reasons.keys())
            if held:
                self.tell(edit.name, REFUSED, f"{held[0]}: {reasons[held[0]][:REASON_LENGTH]}")
            elif len(edits) > 1:
                self.try_round(f"{edit.name} alone", [edit])
            else:
                self.try_alone(edit)

    def reasons(self, edits, lines):
        """Why functions are not proved, by their paths in the crate. Where one edit was made, nothing else can be why, since the
        crate is proved as it stands."""
        own = own_reasons(self.crate, lines)
        return own if len(edits) > 1 else unproved_functions(self.crate, lines) | own


def edit_of(file, folder):
    """Reads an edit of the crate in a folder, and finds the functions in whose bodies it lies, or that it adds."""
    if file.suffix != ".edit":
        raise BadEdit("an edit's name ends in .edit")
    changes, texts, functions = changes_of(file.read_text(encoding="utf-8")), {}, set()
    for path, old, new in changes:
        was = apply((path, old, new), texts, folder)
        imports = IMPORTS.fullmatch(new) if IMPORTS.fullmatch(old) else None
        if not imports:
            functions.add(function_at(path, was, was.index(old)))
        elif imports["added"]:
            functions.add("::".join([*modules_of(path), imports["added"]]))
    if all(text == (folder / path).read_text(encoding="utf-8") for path, text in texts.items()):
        raise BadEdit("it changes nothing")
    return Edit(file.stem, tuple(changes), frozenset() if None in functions else frozenset(functions))


def changes_of(text):
    """What an edit changes: each time a path, an old and a new text."""
    changes, path, old = [], "", ""
    for line in text.split("\n"):
        if line.startswith("file: "):
            path = line.removeprefix("file: ").strip()
        elif line.startswith("old: "):
            old = line.removeprefix("old: ")
        elif line.startswith("new:"):
            if not old or not re.fullmatch(r"(src|specs|proofs)(/[\w+-]+)*/[\w+-]+\.\w+", path):
                raise BadEdit("a 'new:' line has no 'old:' line, or no file of src/, specs/ or proofs/")
            changes.append((path, old, line.removeprefix("new:").removeprefix(" ")))
            old = ""
    if not changes:
        raise BadEdit("it has no 'old:' and 'new:' pair")
    return changes


def apply(change, texts, folder):
    """Makes a change in the texts, to which it adds that of its file in the folder, and gives the text as it was."""
    path, old, new = change
    if path not in texts and not (folder / path).is_file():
        raise BadEdit(f"there is no file {path}")
    was = texts[path] if path in texts else (folder / path).read_text(encoding="utf-8")
    if was.count(old) != 1:
        raise BadEdit(f"an 'old:' text stands in {path} {was.count(old)} times, and not once")
    texts[path] = was.replace(old, new)
    return was


def texts_with(edits, folder):
    """The texts of the files that these edits change, with all of them made."""
    texts = {}
    for edit in edits:
        for change in edit.changes:
            apply(change, texts, folder)
    return texts


def rounds_of(edits, folder):
    """Puts edits into as few rounds as serve, the largest first: no two in one function, and none that changes what another
    one looks for."""
    often, rounds = Counter(name for edit in edits for name in edit.functions), []
    for edit in sorted(edits, key=lambda edit: -max(often[name] for name in edit.functions)):
        fitting = next((those for those in rounds if fits(edit, those, folder)), None)
        if fitting is None:
            rounds.append([edit])
        else:
            fitting.append(edit)
    return sorted(rounds, key=len, reverse=True)


def fits(edit, those, folder):
    """Whether an edit can be tried together with these."""
    if any(edit.functions & other.functions for other in those):
        return False
    try:
        texts_with([*those, edit], folder)
    except BadEdit:
        return False
    return True


def function_at(path, text, place):
    """The function in whose body a place of a file lies, by its path in the crate as the prover spells it, or None where that
    isn't sure. It goes by the layout, in which a body begins and ends in the column of its function."""
    lines, row = text.split("\n"), text.count("\n", 0, place)
    head = next((at for at in range(row - 1, -1, -1) if HEAD.match(lines[at])), None)
    if head is None or not path.startswith("src/") or "#[cycle(" in text:
        return None
    margin, is_const, name = HEAD.match(lines[head]).groups()
    begin = next((at for at in range(head, row) if lines[at].endswith("{") and column(lines[at]) == len(margin)), None)
    ended = any(lines[at] and column(lines[at]) <= len(margin) for at in range((begin or row) + 1, row + 1))
    owner = owner_above(lines, head) if margin else ""
    if begin is None or ended or is_const or owner is None:
        return None
    return "::".join(part for part in (*modules_of(path), owner, name) if part)


def modules_of(path):
    """The modules in which what stands in a file lies."""
    return [part for part in re.sub(r"^src/(?:(?:lib|main)\.rt$)?|\.rt$", "", path).split("/") if part]


def column(line):
    """How far a line is indented."""
    return len(line) - len(line.lstrip(" "))


def owner_above(lines, head):
    """What the prover calls the block of a method: the type, and with it the trait that it implements and the types that this is
    given, but for the block's own ones, which have one letter. None where the block is of another form, as a trait's own."""
    header = next(line for line in reversed(lines[:head]) if line and column(line) == 0).replace("->", "")
    given = re.search(r"\w<([A-Z]\w+(?:, [A-Z]\w+)*)> for ", header)
    while re.search(r"<[^<>]*>", header):
        header = re.sub(r"<[^<>]*>", "", header)
    found = re.fullmatch(r"impl (?:(?:\w+::)*(\w+) for )?(?:\w+::)*([A-Z]\w+) \{", header)
    return found and found[2] + (found[1] or "") + (given[1].replace(", ", "") if given else "")


def is_telling(said, texts):
    """Whether a check with many edits came to its end, and read all."""
    is_ended = said.status == 1 and re.match(r"(only=\d+ )?holes=", said.last())
    return is_ended and not unread(said.lines, texts) and not any(STALE in line for line in said.lines)


def unproved_functions(crate, lines):
    """What the prover says of the functions that it does not prove, by their paths in the crate."""
    judged = filter(None, map(JUDGED.fullmatch, lines))
    return {at[1].removeprefix(f"{crate}::"): at[2] for at in judged if at[2].startswith(("no proof", "not proved"))}


def own_reasons(crate, lines):
    """What the prover holds against functions themselves, by their paths in the crate. Only words that are known to say so
    count."""
    reasons = {}
    for judged in filter(None, map(JUDGED.fullmatch, lines)):
        function, parts = judged[1].removeprefix(f"{crate}::"), judged[2].split("; ")
        *modules, name = function.split("::")
        for folder in ("/".join([*modules, mark + name]) for mark in ("", "+")):
            reason = unproved_goal(folder, parts) or refused_answer(crate, folder, parts, lines)
            if reason:
                reasons[function] = reason
    return reasons


def unproved_goal(folder, parts):
    """What is said if the prover's own searches did not prove a goal of the function whose proof would stand in this folder."""
    if parts[0] != f"no proof: expected answers in ./proofs/{folder}/Answers.antt":
        return None
    return next((part for part in parts if UNPROVED.fullmatch(part)), None)


def refused_answer(crate, folder, parts, lines):
    """Why an answer in this folder of a function's proof, on which the function stands, does not prove its goal."""
    stands = next((part for part in parts if STANDS_ON.fullmatch(part)), "")
    module = f"Rattle.{crate}.proofs.{folder.replace('/', '.')}.Answers."
    for goal in [name.removeprefix(module) for name in re.findall(r"`([^`]+)`", stands) if name.startswith(module)]:
        error = re.compile(rf"\./proofs/{re.escape(folder)}/Answers\.antt:\d+:\d+: error: (`{re.escape(goal)}`: (.*))")
        for found in filter(None, map(error.fullmatch, lines)):
            if NOT_A_PROOF.match(found[2]):
                return found[1]
    return None


def unread(lines, texts):
    """The line that tells that a text can't be read, by the words by which `rt must-fail` knows it, or None."""
    for line in lines:
        at = re.match(r"(?:\./)?(\S+?):\d+:\d+: error: (?:(`[^`]*`): )?(.*)", line)
        if at and (at[1] in texts or at[1].startswith(("src/", "specs/"))):
            said = re.sub(r"`[^`]*`", "", at[3])
            if not at[2] or re.search(UNREAD, said):
                return line
    return None


def outcome(said, texts):
    """What a check with one edit came to, and why. Only the verdict that the crate is not proved refuses it."""
    first = next((line for line in said.lines if re.search(r": error\b|\berror\[[\w-]+\]|^fn \S+: no", line)), said.last())
    bad = unread(said.lines, texts)
    if said.status == 1 and bad:
        return BAD, bad[:REASON_LENGTH]
    if said.status == 1 and any(STALE in line for line in said.lines):
        return MISSED, "no verdict: what was kept of a library does not serve"
    if said.status == 1 and said.last().startswith("logic=not-proved"):
        return REFUSED, first[:REASON_LENGTH]
    if said.status == 1 and any(re.search(r"\berror\[[\w-]+\]", line) for line in said.lines):
        return BAD, first[:REASON_LENGTH]
    if said.status == 0:
        return MISSED, "the crate is still proved"
    return MISSED, f"no verdict: the check ended with status {said.status}: {said.last()[:REASON_LENGTH]}"


if __name__ == "__main__":
    main()
