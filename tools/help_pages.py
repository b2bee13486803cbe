"""Manual pages, and completions for bash, zsh and fish, of a command as tools/help_texts.py reads it."""
from __future__ import annotations

import re
from typing import List

from help_texts import Command, Entry


def escaped(text: str) -> str:
    """The text as roff takes it."""
    return re.sub(r"(?m)^(?=[.'])", r"\\&", text.replace("\\", r"\e").replace("-", r"\-"))


def bold(text: str) -> str:
    return rf"\fB{escaped(text)}\fR"


def manual_entry(entry: Entry) -> List[str]:
    value = rf"\fI{escaped(entry.called or '')}\fR" if entry.value else ""
    shown = ", ".join(map(bold, entry.names))
    return [".TP", f"{shown} {value}".strip() if shown else value, escaped(entry.text)]


def manual_notes(title: str, lines: List[str]) -> List[str]:
    """A further part of the help text: a list of words with what they mean."""
    found = [f".SH {title.upper()}"]
    for line in lines:
        if listed := re.fullmatch(r"  (\S+)  (.*)", line):
            found += [".TP", bold(listed[1]), escaped(listed[2])]
        else:
            found.append(escaped(line.strip()))
    return found


def manual_command(command: Command) -> List[str]:
    about = escaped(command.about)
    found = [f".SS {escaped(command.usage)}", about[:1].upper() + about[1:].rstrip(".") + "."]
    for it in [*command.arguments, *command.options]:
        found += manual_entry(it)
    return found


def manual(command: Command, version: str, see: List[str]) -> str:
    """The manual page of the command."""
    about = escaped(command.about)
    found = [f'.TH {escaped(command.name.upper())} 1 "" "rtosim {version}" "rtosim"', ".SH NAME", rf"{escaped(command.name)} \- {about}"]
    found += [".SH SYNOPSIS", *(f"{escaped(it.usage)}\n.br" for it in command.commands or [command])]
    found += [".SH DESCRIPTION", about.rstrip(".") + "."]
    if command.commands:
        found += [".SH COMMANDS"]
        for below in command.commands:
            found += manual_command(below)
    found += [".SH OPTIONS"]
    for it in [*command.arguments, *command.options]:
        found += manual_entry(it)
    for title, lines in command.notes.items():
        found += manual_notes(title, lines)
    found += [".SH SEE ALSO", ",\n".join(f".BR {escaped(it)} (1)".replace(".BR ", r"\fB").replace(" (1)", r"\fR(1)") for it in see)]
    return "\n".join(found) + "\n"


def function_name(command: Command) -> str:
    return f"_{command.name.replace('-', '_')}"


def names_of(command: Command) -> List[str]:
    return [name for it in command.options for name in it.names]


def bash_value(command: Command, entry: Entry) -> str:
    """The case of a value that follows an option."""
    case = "|".join(f"{command.name}:{it}" for it in entry.names)
    if entry.words:
        return f"""        {case}) COMPREPLY=($(compgen -W "{' '.join(entry.words)}" -- "$current")); return ;;"""
    return f"        {case}) {'_rtosim_files' if entry.is_file else 'COMPREPLY=()'}; return ;;"


def bash(command: Command) -> str:
    """The completion for bash. Words that are no options are files, if the command takes any."""
    name, lines, files = function_name(command), "", ""
    all_of = [command, *command.commands]
    values = [bash_value(it, entry) for it in all_of for entry in it.options if entry.value]
    offered = [f'        {it.name}) offered="{" ".join(names_of(it))}" ;;' for it in all_of]
    below = "|".join(it.name for it in command.commands)
    if below:
        lines = f"""    for word in "${{COMP_WORDS[@]:1:COMP_CWORD-1}}"; do
        case $word in {below}) command=$word; break ;; esac
    done
"""
        files = f"""    if [[ $command == {command.name} ]]; then
        COMPREPLY=($(compgen -W "{' '.join(it.name for it in command.commands)}" -- "$current"))
        return
    fi
"""
    lines += "\n".join(['    case "$command:$previous" in', *values, "    esac", "    case $command in", *offered, "    esac"])
    return f"""# Completes the words of {command.name} in bash.
_rtosim_files() {{
    compopt -o filenames 2>/dev/null
    mapfile -t COMPREPLY < <(compgen -f -- "$current")
}}

{name}() {{
    local current=${{COMP_WORDS[COMP_CWORD]}} previous=${{COMP_WORDS[COMP_CWORD-1]}} command={command.name} word offered
{lines}
    if [[ $current == -* ]]; then
        COMPREPLY=($(compgen -W "$offered" -- "$current"))
        return
    fi
{files}    _rtosim_files
}}
complete -F {name} {command.name}
"""


def quoted(text: str) -> str:
    """The text between single quotes, as zsh takes it; fish does too, if it has no backslash."""
    return "'" + text.replace("'", r"'\''") + "'"


def zsh_text(text: str) -> str:
    """The text as a part of an argument of _arguments."""
    return re.sub(r"([\[\]:\\])", r"\\\1", text).replace("'", r"'\''")


def zsh_action(entry: Entry) -> str:
    if entry.words:
        return f"({' '.join(entry.words)})"
    return "_files" if entry.is_file else " "


def zsh_option(entry: Entry) -> str:
    value = f":{zsh_text(entry.called or '')}:{zsh_action(entry)}" if entry.value else ""
    text = f"'[{zsh_text(entry.text)}]{value}'"
    if len(entry.names) == 1:
        return f"'({entry.names[0]})'{entry.names[0]}{text}"
    return f"'({' '.join(entry.names)})'{{{','.join(entry.names)}}}{text}"


def zsh_arguments(command: Command) -> str:
    found = [zsh_option(it) for it in command.options]
    for at, it in enumerate(command.arguments, start=1):
        takes_many = f"[{it.value} ...]" in command.usage
        found.append(f"'{'*' if takes_many else at}:{zsh_text(it.value or '')}:{zsh_action(it)}'")
    return " \\\n".join(f"                {it}" for it in found)


def zsh(command: Command) -> str:
    """The completion for zsh."""
    if not command.commands:
        return f"#compdef {command.name}\n_arguments -s \\\n{zsh_arguments(command)}\n"
    commands = "\n".join(f"            {quoted(f'{it.name}:{it.about}')}" for it in command.commands)
    cases = "\n".join(f"            {it.name})\n                _arguments -s \\\n{zsh_arguments(it)} ;;" for it in command.commands)
    own = " \\\n".join(f"    {zsh_option(it)}" for it in command.options)
    return f"""#compdef {command.name}
local curcontext="$curcontext" state line
local -a commands
_arguments -s -C \\
{own} \\
    '1: :->command' \\
    '*:: :->words'
case $state in
    command)
        commands=(
{commands}
        )
        _describe -t commands command commands ;;
    words)
        curcontext="${{curcontext%:*}}-$line[1]:"
        case $line[1] in
{cases}
        esac ;;
esac
"""


def fish_option(command: Command, entry: Entry, when: str) -> str:
    words = [f"complete -c {command.name}{when}"]
    words += [f"-l {it[2:]}" if it.startswith("--") else f"-s {it[1:]}" for it in entry.names]
    if entry.value:
        words.append("-r -F" if entry.is_file else "-x")
    if entry.words:
        words.append(f"-a {quoted(' '.join(entry.words))}")
    return " ".join([*words, f"-d {quoted(entry.text)}"])


def fish(command: Command) -> str:
    """The completion for fish."""
    found = [f"# Completes the words of {command.name} in fish."]
    own = " -n __fish_use_subcommand" if command.commands else ""
    found += [fish_option(command, it, own) for it in command.options]
    if command.commands:
        found.insert(1, f"complete -c {command.name} -f{own}")
    for it in command.commands:
        found.append(f"complete -c {command.name}{own} -a {it.name} -d {quoted(it.about)}")
        when = f" -n '__fish_seen_subcommand_from {it.name}'"
        found += [fish_option(command, entry, when) for entry in it.options]
    return "\n".join(found) + "\n"
