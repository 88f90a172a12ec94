"""What bash, zsh and fish make of begun words, by the completions that `make install` puts there."""

import re
import subprocess
from pathlib import Path

from support.harness import LONGEST

FILES = ["changes.rec", "other.prl"]
"""The files of the folder in which the shells run."""

BASH = """
source "$1"; cd "$2"; shift 2
COMP_WORDS=(prolly "$@"); COMP_CWORD=$#
_prolly
[ ${#COMPREPLY[@]} -eq 0 ] || printf '%s\\n' "${COMPREPLY[@]}"
"""

FISH = 'source $argv[1]; cd $argv[2]; complete -C "$argv[3]"'

ZSH = """
zmodload zsh/zpty
zpty z zsh -f -i
zpty -w z "cd ${(q)2}; source ${(q)4} ${(q)1}"
zpty -m -r z found '*ready*'
zpty -w -n z "${3}"$'\\t'
zpty -r z found '*'$'\\0''*'$'\\0'
print -rn -- "${${found#*$'\\0'}%$'\\0'*}"
"""
"""Runs zsh at a terminal, presses the tab key behind a line, and prints what stands between two zero bytes."""

ZSH_SHOWN = """
PROMPT= RPROMPT=
unset zle_bracketed_paste
fpath=("$1" $fpath)
autoload -Uz compinit
compinit -u -D
bindkey '^I' complete-word
mark() { print -n '\\0' }
compprefuncs=(mark)
comppostfuncs=(mark exit)
compadd() {
    if [[ ${@[1,(i)(-|--)]} == *-(O|A|D)\\ * ]]; then
        builtin compadd "$@"
        return
    fi
    typeset -a hits
    builtin compadd -A hits "$@"
    (( $#hits )) || return
    print -rl -- $hits
    builtin compadd "$@"
}
print ready
"""
"""In that zsh: each match is printed, between zero bytes."""


def rows(helps):
    """Words that are begun, and what is to come of the last of them."""
    commands = list(helps)
    found = [(["help", ""], commands)]
    for name, text in helps.items():
        options = re.findall(r"(?m)^ +(?:-\w, )?(--[a-z-]+)", text.split("\nOptions:")[1])
        found.append(([name, "--"], options))
        found += [([name, option, ""], FILES) for option in re.findall(r"(--[a-z-]+) <(?:FILE|KEYS)>", text)]
        found += [([name, option, ""], ["1", "2"]) for option in re.findall(r"(--format) <V>", text)]
    return [
        *found,
        (["b"], ["build"]),
        (["p"], ["pack", "prove"]),
        (["--v"], ["--version"]),
        (["build", "--ba"], ["--batch"]),
        (["build", "--bits", ""], []),
        (["get", "--root", ""], []),
        (["get", "--format", "2"], ["2"]),
        (["help", "st"], ["stat"]),
        (["check", "ch"], ["changes.rec"]),
        (["diff", "old.prl", "o"], ["other.prl"]),
    ]


def differences(shell, script, helps, folder):
    """What is wrong with what a shell makes of begun words."""
    place = Path(folder)
    place.mkdir()
    for name in FILES:
        (place / name).touch()
    for words, wanted in rows(helps):
        done = completed(shell, script, place, words)
        found = sorted(done.stdout.replace("\r", "").split("\n")[:-1])
        # For names of files bash is asked to do what it does by default.
        if shell == "bash" and set(wanted) <= set(FILES):
            wanted = []
        if (found, done.stderr) != (sorted(wanted), ""):
            yield f"{shell}: {words}: {found}, wanted {wanted}; {done.stderr!r}"


def completed(shell, script, place, words):
    """A shell that prints what it makes of the last word. The descriptions of fish are taken off."""
    line = " ".join(["prolly", *words])
    how = {"capture_output": True, "text": True, "check": False, "timeout": LONGEST}
    if shell == "bash":
        return subprocess.run(["bash", "-c", BASH, "bash", str(script), str(place), *words], **how)
    if shell == "fish":
        done = subprocess.run(["fish", "--no-config", "-c", FISH, str(script), str(place), line], **how)
        done.stdout = re.sub(r"(?m)\t.*$", "", done.stdout)
        return done
    shown = place.parent / "shown.zsh"
    shown.write_text(ZSH_SHOWN)
    return subprocess.run(["zsh", "-f", "-c", ZSH, "zsh", str(script.parent), str(place), line, str(shown)], **how)
