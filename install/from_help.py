"""Makes what is installed beside the program from what the program says of itself: its man page, and completions for bash.

    python3 install/from_help.py man ./edihub > edihub.1
    python3 install/from_help.py bash ./edihub > edihub.bash"""
import os
import re
import subprocess
import sys
from dataclasses import dataclass


@dataclass(frozen=True)
class Help:
    """A help text by its parts."""

    about: str
    usage: str
    # each with its words and what it is for
    commands: list
    options: list
    more: str


def printed(program, *words):
    return subprocess.run([program, *words], stdout=subprocess.PIPE, check=True, text=True).stdout


def rows(lines):
    """The words and the text of each row of a list: a row whose words are long has its text on the next line."""
    found = []
    for line in lines:
        row = re.fullmatch(r"  (\S.*?)(?:  +(.*))?", line) if not line.startswith("   ") or line.lstrip().startswith("-") else None
        row = row or re.fullmatch(r" {2,6}(-.*?)(?:  +(.*))?", line)
        if row:
            found.append((row[1], row[2] or ""))
        elif found and line.strip():
            words, text = found.pop()
            found.append((words, f"{text} {line.strip()}".strip()))
    return found


def help_of(program, *command):
    """The help of the program, or of one of its commands."""
    about, _, rest = printed(program, *command, "--help").partition("\n\nUsage: ")
    usage, _, rest = rest.partition("\n")
    parts = re.split(r"^(Commands|Options):\n", rest, flags=re.MULTILINE)
    lists = dict(zip(parts[1::2], parts[2::2]))
    options, _, more = lists.get("Options", "").partition("\n\n")
    return Help(about, usage, rows(lists.get("Commands", "").splitlines()), rows(options.splitlines()), more.rstrip("\n"))


def commands(program):
    """The help of each command, by its name."""
    return {name: help_of(program, name) for name, _ in help_of(program).commands if name != "help"}


def escaped(text):
    """The text for a man page: no line of it begins a request."""
    return re.sub(r"^(['.])", r"\\&\1", text.replace("\\", "\\e").replace("-", "\\-"), flags=re.MULTILINE)


def options_of(its):
    return [line for words, text in its for line in (".TP", f".B {escaped(words)}", escaped(text))]


def man(program):
    """The man page."""
    name, whole = os.path.basename(program), help_of(program)
    version = printed(program, "--version").split()[1]
    lines = [f'.TH {name.upper()} 1 "" "{name} {version}" "User commands"', ".SH NAME", f"{name} \\- {escaped(whole.about)}"]
    lines += [".SH SYNOPSIS", f".B {escaped(whole.usage)}"]
    for command, its in commands(program).items():
        lines += [f".SH {command.upper()}", escaped(its.about) + ".", ".PP", f".B {escaped(its.usage)}", *options_of(its.options)]
        lines += [".PP", ".nf", escaped(its.more), ".fi"]
    return "\n".join(lines) + "\n"


def completed(options):
    """The options that are proposed. One whose value can be in a file instead, such as a key, is not, because nobody should type it."""
    return [it for it in options if f"{it}-file" not in options]


def bash(program):
    """Completions of commands and their options; behind an option, the names of files."""
    name, known = os.path.basename(program), commands(program)
    options = {it: " ".join(completed(re.findall(r"--[a-z-]+", " ".join(words for words, _ in its.options)))) for it, its in known.items()}
    cases = "\n".join(f"        {it}) words={words!r} ;;" for it, words in options.items())
    return f"""# Completions of {name} for bash.
_{name}() {{
    local word=${{COMP_WORDS[COMP_CWORD]}} words=
    case ${{COMP_WORDS[1]}} in
{cases}
    esac
    if [ "$COMP_CWORD" -eq 1 ]; then
        COMPREPLY=($(compgen -W {" ".join(known)!r} -- "$word"))
    elif [ "${{word#-}}" != "$word" ]; then
        COMPREPLY=($(compgen -W "$words" -- "$word"))
    else
        COMPREPLY=($(compgen -f -- "$word"))
    fi
}}
complete -o filenames -F _{name} {name}
"""


if __name__ == "__main__":
    print({"man": man, "bash": bash}[sys.argv[1]](sys.argv[2]), end="")
