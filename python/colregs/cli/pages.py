"""Writes the manual pages and the completions (bash, zsh, fish) of all commands from their parsers.

    python3 -m colregs.cli.pages FOLDER [PROGRAM]

FOLDER gets man1/, bash/, zsh/ and fish/. The package's build and `.ci/release` put these where each shell looks for
them. With PROGRAM, the program `colregs` gets completions for zsh and fish too, from its own `--help`; its manual page
and its completion for bash are written by hand.
"""
import argparse
import importlib
import os
import re
import subprocess
import sys
from collections.abc import Iterator
from dataclasses import dataclass

import colregs
from colregs.errors import DONE, USAGE

FOLDER = os.path.dirname(os.path.abspath(__file__))
# metavars that name a file
FILES = {"FILE", "LOG", "SCENARIO", "REPORT", "JOBS", "PROGRAM", "POINTS", "AUDIT", "PLAN", "FILE.geojson"}
# and a folder
FOLDERS = {"DIR", "CASE", "OUT"}
EXIT = "Exit status:"
BOLD, ITALIC = "\\fB%s\\fR", "\\fI%s\\fR"


@dataclass(frozen=True)
class Option:
    """An option or an argument as a page and a shell need it."""

    names: tuple[str, ...]          # none for an argument
    value: str                      # what follows it, or nothing
    words: str                      # its line of help
    choices: tuple[str, ...]

    @property
    def takes(self) -> str:
        """Returns what a shell completes after it: `file`, `folder`, `other` or nothing."""
        kinds = set(self.value.replace("[", " ").replace("]", " ").split())
        return "file" if kinds & FILES else "folder" if kinds & FOLDERS else "other" if self.value else ""


@dataclass(frozen=True)
class Command:
    """A command, or a part of one, with what its parser says."""

    name: str
    line: str                       # one line of what it does
    text: str                       # the rest of its help page
    usage: str
    options: tuple[Option, ...]
    parts: tuple["Command", ...]


def names() -> list[str]:
    """Returns the names of all commands: the modules of this folder that have a parser and a command."""
    modules = sorted(name[:-3] for name in os.listdir(FOLDER) if name.endswith(".py") and name != "__init__.py")
    return [name for name in modules if hasattr(importlib.import_module(f"colregs.cli.{name}"), "command")]


def option_of(action: argparse.Action) -> Option:
    """Returns an option of a parser."""
    metavar = action.metavar or action.dest.upper()
    value = "" if action.nargs == 0 else " ".join(metavar) if isinstance(metavar, tuple) else str(metavar)
    value = {"?": f"[{value}]", "*": f"[{value} ..]", "+": f"{value} [{value} ..]",
             2: f"{value} {value}"}.get(action.nargs or "", value)
    return Option(tuple(action.option_strings), value, action.help or "", tuple(map(str, action.choices or ())))


def command_of(name: str, parser: argparse.ArgumentParser, line: str = "") -> Command:
    """Returns what a parser says."""
    first, _, text = (parser.description or line).partition("\n")
    actions, parts = [], []
    for action in parser._actions:
        if isinstance(action, argparse._SubParsersAction):
            lines = {choice.dest: choice.help or "" for choice in action._choices_actions}
            parts = [command_of(kind, part, lines.get(kind, "")) for kind, part in action.choices.items()]
        else:
            actions.append(option_of(action))
    usage = re.sub(r"\s+", " ", parser.format_usage()).removeprefix("usage: ").strip()
    return Command(name, first.rstrip(".:"), text.strip(), usage, tuple(actions), tuple(parts))


def commands() -> list[Command]:
    """Returns all commands."""
    return [command_of(f"colregs-{name}", importlib.import_module(f"colregs.cli.{name}").parser()) for name in names()]


def program_of(text: str) -> Command:
    """Returns what the program `colregs` says of its modes and options in the text of its `--help`."""
    modes = tuple(Command(name, line, "", "", (), ()) for name, line in re.findall(r"(?m)^ +- (\w+): +(.+)$", text))
    options = tuple(Option(tuple(re.findall(r"-[\w-]+", flags)), value or "", words, ())
                    for flags, value, words in re.findall(r"(?m)^ +((?:-\w, )? *--\w+)(?: <(\w+)>)?\n +(.+)$", text))
    return Command("colregs", text.partition("\n")[0], "", "", options, modes)


def roff(text: str) -> str:
    """Returns a text with what roff would read as its own escaped."""
    text = text.replace("\\", "\\e").replace("-", "\\-")
    return "\n".join("\\&" + line if line[:1] in (".", "'") else line for line in text.split("\n"))


def roff_paragraphs(text: str) -> Iterator[str]:
    """Yields the paragraphs of a help page; indented ones stay as they are."""
    for paragraph in re.split(r"\n\s*\n", text):
        indented = paragraph.startswith("    ")
        yield f".PP\n.nf\n{roff(paragraph)}\n.fi\n" if indented else f".PP\n{roff(paragraph)}\n"


def roff_options(options: tuple[Option, ...]) -> Iterator[str]:
    """Yields the options of a command."""
    for option in options:
        title = ", ".join(BOLD % roff(name) for name in option.names)
        value = ITALIC % roff(option.value) if option.value else ""
        yield f".TP\n{' '.join(word for word in (title, value) if word)}\n{roff(option.words)}\n"


def manual(command: Command, others: list[str]) -> str:
    """Returns the manual page of a command."""
    text, _, status = command.text.partition(EXIT)
    body = [
        f'.TH {command.name.upper()} 1 "" "colregs {colregs.VERSION}" "colregs"\n.ad l\n',
        f".SH NAME\n{command.name} \\- {roff(command.line)}\n", f".SH SYNOPSIS\n{roff(command.usage)}\n",
        ".SH DESCRIPTION\n", *roff_paragraphs(text.strip()), ".SH OPTIONS\n", *roff_options(command.options)
    ]
    for part in command.parts:
        body += [f".SS {command.name} {part.name}\n{roff(part.line)}\n", *roff_options(part.options)]
    if status:
        body += [".SH EXIT STATUS\n", roff(status.partition("\n\n")[0].strip().partition("\nIt needs")[0]) + "\n"]
    body += [
        ".SH SEE ALSO\n",
        ", ".join(f".BR {name} (1)" if not k else f"{name}(1)" for k, name in enumerate(others)) + "\n"
    ]
    return "".join(body)


def all_options(command: Command) -> list[Option]:
    """Returns the options of a command and of its parts, each once."""
    found = {option.names: option for part in (command, *command.parts) for option in part.options if option.names}
    return list(found.values())


def bash(command: Command) -> str:
    """Returns the completion of a command for bash."""
    options = all_options(command)
    function = "_" + command.name.replace("-", "_")
    words = " ".join([*(part.name for part in command.parts), *(name for option in options for name in option.names)])
    cases = "".join(f"    {'|'.join(option.names)}) {reply} ;;\n" for option in options if (reply := {
        "file": 'mapfile -t COMPREPLY < <(compgen -f -- "$word"); return',
        "folder": 'mapfile -t COMPREPLY < <(compgen -d -- "$word"); return', "other": "return"}.get(option.takes)))
    parts = ' '.join(part.name for part in command.parts)
    return f'''# Completion of {command.name} in bash, made from its parser.
{function}() {{
  local word=${{COMP_WORDS[COMP_CWORD]}}
  COMPREPLY=()
  compopt -o filenames 2>/dev/null
  case ${{COMP_WORDS[COMP_CWORD - 1]}} in
{cases}  esac
  if [[ $word == -* ]]; then
    mapfile -t COMPREPLY < <(compgen -W "{words}" -- "$word")
  else
    mapfile -t COMPREPLY < <(compgen -W "{parts}" -- "$word"; compgen -f -- "$word")
  fi
}}
complete -F {function} {command.name}
'''


def zsh(command: Command) -> str:
    """Returns the completion of a command for zsh."""
    def quoted(words: str) -> str:
        return re.sub(r"[\[\]:'`]", "", words)

    specs = [
        f"'{name}[{quoted(option.words)}]{follows}'" for option in all_options(command) for name in option.names
        for follows in [{"file": ":file:_files", "folder": ":folder:_files -/", "other": f":{quoted(option.value)}: "
                         }.get(option.takes, "")]
    ]
    first = f"'1:command:({' '.join(part.name for part in command.parts)})' " if command.parts else ""
    return (
        f"#compdef {command.name}\n# Completion of {command.name} in zsh, made from its parser.\n_arguments {first}"
        + " \\\n  ".join(["", *specs, "'*:file:_files'"]).strip()
        + "\n"
    )


def fish(command: Command) -> str:
    """Returns the completion of a command for fish."""
    def quoted(words: str) -> str:
        return words.replace("\\", "").replace("'", "")

    lines = [f"# Completion of {command.name} in fish, made from its parser."]
    for part in command.parts:
        lines.append(f"complete -c {command.name} -n __fish_use_subcommand -a {part.name} -d '{quoted(part.line)}'")
    for option in all_options(command):
        flags = " ".join(f"-l {name[2:]}" if name.startswith("--") else f"-s {name[1:]}" for name in option.names)
        more = {"file": " -r -F", "folder": " -x -a '(__fish_complete_directories)'",
                "other": " -x"}.get(option.takes, "")
        lines.append(f"complete -c {command.name} {flags}{more} -d '{quoted(option.words)}'")
    return "\n".join(lines) + "\n"


def pages() -> dict[str, str]:
    """Returns the text of each page and completion, by its path in the folder."""
    every = commands()
    found: dict[str, str] = {}
    for command in every:
        others = ["colregs", *(other.name for other in every if other is not command)]
        found |= {
            f"man1/{command.name}.1": manual(command, others), f"bash/{command.name}": bash(command),
            f"zsh/_{command.name}": zsh(command), f"fish/{command.name}.fish": fish(command)
        }
    return found


def main(folder: str, program: str | None = None) -> int:
    """Writes all pages into a folder."""
    made = pages()
    if program:
        colregs_itself = program_of(
            subprocess.run([program, "--help"], capture_output=True, text=True, check=True).stdout)
        made |= {"zsh/_colregs": zsh(colregs_itself), "fish/colregs.fish": fish(colregs_itself)}
    for path, text in made.items():
        os.makedirs(os.path.join(folder, os.path.dirname(path)), exist_ok=True)
        with open(os.path.join(folder, path), "w", encoding="utf-8") as out:
            out.write(text)
    return DONE


if __name__ == "__main__":
    if len(sys.argv) not in (2, 3):
        print(__doc__, file=sys.stderr)
        sys.exit(USAGE)
    sys.exit(main(*sys.argv[1:]))
