"""What bash, zsh and fish complete the program's words by."""

import re


def bash(top, commands):
    """The completions of bash: commands, or the program's own options, then options and their values, and else the names of files."""
    cases = "\n".join(f"        {name}) words='{' '.join(words_of(help_))}' ;;" for name, help_ in commands.items())
    others = [term for help_ in commands.values() for term in help_.options if term.value and not term.takes_file]
    values = "\n".join(f"        {name}) words='{' '.join(choices)}' own=1 ;;" for name, choices in values_of(others).items())
    return f"""# Completions of prolly for bash.
_prolly() {{
    local word=${{COMP_WORDS[COMP_CWORD]}} before=${{COMP_WORDS[COMP_CWORD - 1]}} words= own=
    if [ "$word" = = ]; then
        word=
    elif [ "$before" = = ]; then
        before=${{COMP_WORDS[COMP_CWORD - 2]}}
    fi
    if [ "$COMP_CWORD" -eq 1 ]; then
        words='{' '.join([*commands, 'help', *words_of(top)])}'
    elif [ "${{word#-}}" != "$word" ]; then
        case ${{COMP_WORDS[1]}} in
{cases}
        esac
    elif [ "${{COMP_WORDS[1]}}" = help ]; then
        words='{' '.join(commands)}' own=1
    else
        case $before in
{values}
        esac
    fi
    [ -z "$own" ] || compopt +o default 2> /dev/null
    COMPREPLY=($(compgen -W "$words" -- "$word"))
}}
complete -o default -F _prolly prolly
"""


def words_of(help_):
    """The words by which a command's options are given."""
    return [term.name for term in help_.options]


def values_of(terms):
    """The values of each of these options that are known."""
    return {term.name: term.choices for term in terms}


def zsh(top, commands):
    """The completions of zsh."""
    named = "\n".join(f"        {quoted(term.name + ':' + term.text)}" for term in top.terms["Commands:"])
    cases = "\n".join(f"        {name}) _arguments {' '.join(zsh_words(help_))} ;;" for name, help_ in commands.items())
    return f"""#compdef prolly
# Completions of prolly for zsh.
_prolly() {{
    local -a commands=(
{named}
    )
    if (( CURRENT == 2 )); then
        _describe command commands
        _arguments {' '.join(zsh_option(term) for term in top.options)}
        return
    fi
    shift words
    (( CURRENT-- ))
    case $words[1] in
{cases}
        help) _arguments '1:command:({' '.join(commands)})' ;;
    esac
}}
_prolly "$@"
"""


def zsh_words(help_):
    """A command's options and arguments, as `_arguments` takes them."""
    return [*map(zsh_option, help_.options), *map(zsh_argument, help_.arguments)]


def zsh_option(term):
    """An option, as `_arguments` takes it."""
    text = re.sub(r"([\[\]:\\])", r"\\\1", term.text)
    return quoted(f"{term.name}[{text}]" + (f":{term.value}:{zsh_values(term)}" if term.value else ""))


def zsh_argument(term):
    """An argument: one that need not be there has two colons, and many have a star."""
    begin = "*:" if term.name.endswith("...") else "::" if term.name.startswith("[") else ":"
    return quoted(f"{begin}{term.name.strip('<>[].')}:{zsh_values(term)}")


def zsh_values(term):
    """What may stand for a value or an argument."""
    if term.takes_file:
        return "_files"
    return f"({' '.join(term.choices)})" if term.choices else " "


def fish(top, commands):
    """The completions of fish."""
    lines = ["# Completions of prolly for fish."]
    for term in top.terms["Commands:"]:
        lines.append(f"complete -c prolly -n __fish_use_subcommand -f -a {term.name} -d {quoted(term.text)}")
    for term in top.options:
        lines.append(f"complete -c prolly -n __fish_use_subcommand -l {term.name[2:]} -d {quoted(term.text)}")
    for name, help_ in commands.items():
        given = f"complete -c prolly -n '__fish_seen_subcommand_from {name}'"
        for term in help_.options:
            lines.append(f"{given} -l {term.name[2:]}{fish_values(term)} -d {quoted(term.text)}")
    lines.append(f"complete -c prolly -n '__fish_seen_subcommand_from help' -f -a {quoted(' '.join(commands))}")
    return "\n".join(lines) + "\n"


def fish_values(term):
    """How fish is told what stands for an option's value, if it takes one."""
    if not term.value:
        return ""
    if term.takes_file:
        return " -r -F"
    return f" -x -a {quoted(' '.join(term.choices))}" if term.choices else " -x"


def quoted(text):
    """A word in quotes, for a shell."""
    return "'" + text.replace("'", "'\\''") + "'"
