"""Completions for bash, zsh and fish, of the words of a command."""

from __future__ import annotations

import shlex

from words import Command, Option, Value, flat

MADE = "Made by packaging/derived write: change that, or the words themselves."


def function_of(command: Command) -> str:
    """Return the name of the shell function that completes a command."""
    return "_" + command.word.replace("-", "_")


def quoted(text: str) -> str:
    """Return a text between single quotes."""
    return "'" + text.replace("'", "'\\''") + "'"


def longs(options: tuple[Option, ...]) -> list[str]:
    """Return the names of options, long and short."""
    return [name for option in options for name in option.names]


# bash


def bash_value(value: Value) -> str:
    """Return the statement that completes a value."""
    if value.kind == "words":
        return f"_plantbal_words {shlex.quote(' '.join(value.choices))}"
    return {"folder": "_plantbal_files -d", "file": "_plantbal_files -f", "typed": ":"}[value.kind]


def bash_cases(command: Command) -> list[str]:
    """Return the cases of the values of a command's options, by its word and the option before."""
    cases = []
    for option in command.options:
        if option.value is not None:
            patterns = "|".join(f"{command.word}:{name}" for name in option.names)
            cases.append(f"        {patterns}) {bash_value(option.value)}; return ;;")
    return cases


def bash(command: Command) -> str:
    """Return the completion of a command for bash."""
    name = function_of(command)
    first = [inner.word for inner in command.inner]
    at_start = first + longs(command.options)
    lines = [
        f"# Completion of {command.word} for bash. {MADE}",
        "",
        "_plantbal_words() { # WORDS: those of them that begin as the word at hand",
        '    mapfile -t COMPREPLY < <(compgen -W "$1" -- "$here")',
        "}",
        "",
        "_plantbal_files() { # -f or -d: files, or folders, that begin so",
        "    compopt -o filenames 2>/dev/null",
        '    mapfile -t COMPREPLY < <(compgen "$1" -- "$here")',
        "}",
        "",
        f"{name}() {{",
        "    local here=${COMP_WORDS[COMP_CWORD]} before=${COMP_WORDS[COMP_CWORD - 1]} word= at",
        "    COMPREPLY=()",
        "    # An equals sign is a word of its own here.",
        "    if [[ $here == = ]]; then",
        "        here=",
        "    elif [[ $before == = ]]; then",
        "        before=${COMP_WORDS[COMP_CWORD - 2]}",
        "    fi",
        "    for ((at = 1; at < COMP_CWORD; at++)); do",
        "        case ${COMP_WORDS[at]} in",
        f"        {'|'.join(first) or '-'}) word=${{COMP_WORDS[at]}}; break ;;",
        "        esac",
        "    done",
        "    case $word:$before in",
    ]
    lines += [case for inner in command.inner for case in bash_cases(inner)]
    lines += ["    esac", "    case $word in"]
    for inner in command.inner:
        choices = [word for value in inner.values for word in value.choices]
        flags = {"file": "-f", "folder": "-d"}
        files = [flags[value.kind] for value in inner.values if value.kind in flags]
        lines.append(f"    {inner.word})")
        if files or choices:
            lines.append("        if [[ $here != -* ]]; then")
            if choices:  # they come first, and what stands after them may be a file
                typed = '" ${COMP_WORDS[*]:at + 1:COMP_CWORD - at - 1} "'
                lines.append(f"            if [[ ! {typed} =~ ' '({'|'.join(choices)})' ' ]]; then")
                lines.append(f"                _plantbal_words {quoted(' '.join(choices))}")
                lines += ["                return", "            fi"]
            lines += [f"            _plantbal_files {files[0]}"] if files else []
            lines += ["            return", "        fi"]
        lines.append(f"        _plantbal_words {quoted(' '.join(longs(inner.options)))} ;;")
    # A mode may come after its options.
    others = (
        list(dict.fromkeys(name for inner in command.inner for name in longs(inner.options)))
        if not command.options
        else []
    )
    lines += [
        f"    *) _plantbal_words {quoted(' '.join(at_start + others))} ;;",
        "    esac",
        "}",
        "",
        f"complete -F {name} {command.word}",
        "",
    ]
    return "\n".join(lines)


# zsh


def zsh_text(text: str) -> str:
    """Return a text as it stands in a specification of zsh."""
    return text.replace("\\", "\\\\").replace("[", "\\[").replace("]", "\\]").replace(":", "\\:")


def zsh_value(value: Value) -> str:
    """Return what completes a value."""
    action = {
        "words": f"({' '.join(value.choices)})",
        "folder": "_files -/",
        "file": "_files",
        "typed": "",
    }[value.kind]
    return f":{value.name}:{action}"


def zsh_option(option: Option) -> list[str]:
    """Return the specifications of an option, one for each of its names."""
    specifications = []
    for name in option.names:
        equals = ("=" if name.startswith("--") else "+") if option.value else ""
        value = zsh_value(option.value) if option.value else ""
        specifications.append(quoted(f"{name}{equals}[{zsh_text(option.about)}]{value}"))
    return specifications


def zsh(command: Command) -> str:
    """Return the completion of a command for zsh."""
    name = function_of(command)
    words = [inner.word for inner in command.inner]
    described = " ".join(
        f"{inner.word}\\:{quoted(zsh_text(inner.about))}" for inner in command.inner
    )
    lines = [
        f"#compdef {command.word}",
        f"# Completion of {command.word} for zsh. {MADE}",
        "",
        f"{name}() {{",
        "    local -a specifications",
        "    local word at",
        "    for ((at = 2; at < CURRENT; at++)); do",
        f"        case $words[at] in {'|'.join(words) or '-'}) word=$words[at]; break ;; esac",
        "    done",
        "    case $word in",
    ]
    for inner in command.inner:
        lines.append(f"    {inner.word})")
        lines.append("        specifications=(")
        lines += [
            f"            {specification}"
            for option in inner.options
            for specification in zsh_option(option)
        ]
        lines.append(f"            '1:word:({inner.word})'")
        for at, value in enumerate(inner.values, 2):
            place = "*" if at == len(inner.values) + 1 else str(at)
            lines.append(f"            {quoted(place + zsh_value(value))}")
        lines.append("        ) ;;")
    lines += ["    *)", "        specifications=("]
    shown = command.options or tuple(
        {option.names: option for inner in command.inner for option in inner.options}.values()
    )
    lines += [
        f"            {specification}" for option in shown for specification in zsh_option(option)
    ]
    if described:
        lines.append(f'            "1:word:(({described}))"')
    lines += [
        "        ) ;;",
        "    esac",
        "    _arguments -s : $specifications",
        "}",
        "",
        f'{name} "$@"',
        "",
    ]
    return "\n".join(lines)


# fish


def fish_option(option: Option) -> str:
    """Return how fish names an option and what stands after it."""
    parts = []
    for name in option.names:
        parts.append(f"-l {name[2:]}" if name.startswith("--") else f"-s {name[1:]}")
    if option.value is not None:
        parts.append(
            {
                "words": f"-x -a {quoted(' '.join(option.value.choices))}",
                "folder": "-x -a '(__fish_complete_directories)'",
                "file": "-r -F",
                "typed": "-x",
            }[option.value.kind]
        )
    parts.append(f"-d {fish_text(option.about)}")
    return " ".join(parts)


def fish_text(text: str) -> str:
    """Return a text between quotes of fish."""
    return "'" + text.replace("\\", "\\\\").replace("'", "\\'") + "'"


def fish(command: Command) -> str:
    """Return the completion of a command for fish."""
    words = " ".join(inner.word for inner in command.inner)
    none = f"-n 'not __fish_seen_subcommand_from {words}'" if words else ""
    lines = [
        f"# Completion of {command.word} for fish. {MADE}",
        "",
        f"complete -c {command.word} -f",
    ]
    lines += [
        f"complete -c {command.word} {none} {fish_option(option)}".replace("  ", " ")
        for option in command.options
    ]
    for inner in command.inner:
        lines.append(
            f"complete -c {command.word} {none} -a {inner.word} -d {fish_text(inner.about)}"
        )
    for inner in command.inner:
        seen = f"-n '__fish_seen_subcommand_from {inner.word}'"
        lines += [
            f"complete -c {command.word} {seen} {fish_option(option)}" for option in inner.options
        ]
        for value in inner.values:
            what = {
                "words": f"-a {quoted(' '.join(value.choices))}",
                "folder": "-a '(__fish_complete_directories)'",
                "file": "-F",
                "typed": "",
            }[value.kind]
            if what:
                lines.append(f"complete -c {command.word} {seen} {what}")
    return "\n".join(lines) + "\n"


def files(command: Command) -> dict[str, str]:
    """Return the text of each completion of a command, by the file's name."""
    offered = flat(command)
    return {f"{command.word}.{shell.__name__}": shell(offered) for shell in (bash, zsh, fish)}
