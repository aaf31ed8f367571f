#!/usr/bin/env python3
"""Makes the pages of the manual and the completions of shells of what programs say with --help, and the page of the
library of what its headers say.

    manual.py OUT HEADERS PROGRAM..     below OUT, as below a prefix: share/man, share/bash-completion, share/zsh

HEADERS is the folder of the headers. Each PROGRAM is run with --help, and with COMMAND --help for each of its commands.
"""

from __future__ import annotations

import dataclasses
import pathlib
import re
import subprocess
import sys
from collections.abc import Iterable, Iterator, Sequence

sys.dont_write_bytecode = True
sys.path.insert(0, str(pathlib.Path(__file__).resolve().parent))
import symbols

ROOT = pathlib.Path(__file__).resolve().parent.parent
VERSION = (ROOT / "VERSION").read_text().strip()
SECONDS = 60
HEAD = re.compile(r"^(Usage|Command|Argument|Option|Example)s?:(.*)$")
OPTION = re.compile(r"(?:(-\w), )?(--[\w-]+)(?: <([^>]+)>)?")
POSSIBLE = re.compile(r"\[possible values: (.*)\]")
# What a value is called that is a file or a folder.
FILES = ("FILE", "OUT", "OLD", "LIST", "BASE", "DEAD", "SCRIPT", "SCHEDULE", "FOLDER")
LIBRARY = "povundiri"
# What only inline functions of the headers call.
INNER = re.compile(r"_(proved_\w+|add_usual|add_other|is_array|is_room|address)$")
ABOUT_LIBRARY = "histograms that many threads record into, and that outlive the process"


@dataclasses.dataclass
class Item:
    """An option or an argument: how it is written, and the paragraphs of what it does."""

    written: str
    paragraphs: list[list[str]]

    @property
    def about(self) -> str:
        """The first paragraph in one line."""
        return " ".join(" ".join(self.paragraphs[0]).split()) if self.paragraphs else ""

    @property
    def names(self) -> list[str]:
        """The short and the long name of an option."""
        found = OPTION.match(self.written)
        return [name for name in found.groups()[:2] if name] if found else []

    @property
    def value(self) -> str:
        """What the value of an option is called, if it has one."""
        found = OPTION.match(self.written)
        return (found[3] or "") if found else ""

    @property
    def values(self) -> list[str]:
        """The values that it may have, if they are known."""
        found = POSSIBLE.search(" ".join(" ".join(lines) for lines in self.paragraphs))
        return found[1].split(", ") if found else []


@dataclasses.dataclass
class Help:
    """What a program or a command says with --help."""

    title: str
    about: list[str]
    usage: list[str]
    commands: dict[str, str]
    arguments: list[Item]
    options: list[Item]
    examples: list[str]
    more: list[str]


def paragraphs(lines: Iterable[str]) -> list[list[str]]:
    """Lines in groups, which empty lines part."""
    found: list[list[str]] = [[]]
    for line in lines:
        if line.strip():
            found[-1].append(line)
        elif found[-1]:
            found.append([])
    return [group for group in found if group]


def items(lines: Sequence[str]) -> list[Item]:
    """The options or the arguments of a list."""
    found: list[tuple[str, list[str]]] = []
    for line in lines:
        indent = len(line) - len(line.lstrip())
        if line.strip() and indent < 10:
            found.append((line.strip(), []))
        elif found:
            found[-1][1].append(line[10:])
    return [Item(written, paragraphs(text)) for written, text in found]


def parted(text: str) -> dict[str, list[str]]:
    """The lines below each head of a help; those before all, and those after the examples, by names of their own."""
    found: dict[str, list[str]] = {"About": [], "More": []}
    part = "About"
    for line in text.splitlines():
        head = HEAD.match(line)
        if head is not None:
            part = head[1]
            found[part] = [head[2].strip()] if head[2].strip() else []
            continue
        if part == "Example" and line and not line.startswith("  "):
            part = "More"
        found[part].append(line)
    return found


def help_of(title: str, words: Sequence[str]) -> Help:
    """What these words say with --help."""
    line = [*words, "--help"]
    text = subprocess.run(line, capture_output=True, text=True, timeout=SECONDS, check=True).stdout
    found = parted(text)
    commands = [re.split(r" {2,}", line.strip(), maxsplit=1) for line in found.get("Command", []) if line.strip()]
    return Help(
        title, found["About"], [line for line in found.get("Usage", []) if line.strip()],
        {name: about for name, about in commands if name != "help"}, items(found.get("Argument", [])),
        items(found.get("Option", [])), [line for line in found.get("Example", []) if line.strip()], found["More"],
    )


# ---- Pages of the manual ----


def escaped(text: str) -> str:
    """A line of text in the language of pages."""
    text = text.replace("\\", "\\e").replace("-", "\\-")
    return f"\\&{text}" if text[:1] in (".", "'") else text


def filled(groups: Iterable[Sequence[str]]) -> Iterator[str]:
    """Paragraphs: those in columns keep their lines."""
    for number, group in enumerate(groups):
        yield from [".sp"] * (number > 0)
        is_table = any(re.search(r"\S {2,}\S", line) for line in group)
        yield from [".nf"] * is_table
        yield from map(escaped, group)
        yield from [".fi"] * is_table


def listed(found: Iterable[Item]) -> Iterator[str]:
    for item in found:
        yield from (".TP", f".B {escaped(item.written)}", *filled(item.paragraphs))


def shown(lines: Sequence[str]) -> Iterator[str]:
    """Commands as they are typed."""
    if lines:
        yield from (".PP", ".nf", ".RS", *(escaped(line.removeprefix("  ")) for line in lines), ".RE", ".fi")


def head(name: str, section: int, about: str) -> list[str]:
    return [
        f'.TH {name.upper()} {section} "" "povundiri {VERSION}" "Povundiri"', ".nh", ".SH NAME",
        f"{escaped(name)} \\- {escaped(about)}",
    ]


def synopsis(usage: Iterable[str]) -> Iterator[str]:
    for line in usage:
        yield from (f".B {escaped(line)}", ".br")


def command_section(command: Help) -> Iterator[str]:
    """The section of a command: all that its help says."""
    yield f".SH {escaped(command.title).upper()}"
    yield from synopsis(command.usage)
    yield from (".PP", *filled(paragraphs(command.about)), *listed([*command.arguments, *command.options]))
    yield from shown(command.examples)
    yield from (".PP", *filled(paragraphs(command.more)))


def page(program: Help, commands: Iterable[Help]) -> str:
    """The page of a program, with a section for each command."""
    about = " ".join(" ".join(program.about).split())
    first = re.split(r"[.;] ", about)[0].rstrip(".")
    lines = [*head(program.title, 1, first[0].lower() + first[1:]), ".SH SYNOPSIS", *synopsis(program.usage)]
    lines += [".SH DESCRIPTION", *filled(paragraphs(program.about)), ".PP", *filled(paragraphs(program.more))]
    for name, text in program.commands.items():
        lines += [".TP", f".B {escaped(name)}", escaped(text)]
    lines += [".SH OPTIONS", *listed([*program.arguments, *program.options])]
    for command in commands:
        lines += command_section(command)
    lines += [".SH EXAMPLES", *shown(program.examples), ".SH SEE ALSO"]
    others = [f"\\fB{escaped(name)}\\fR(1)" for name in ("persist_report", "stepped") if name != program.title]
    return "\n".join([*lines, ", ".join([*others, f"\\fB{LIBRARY}\\fR(3)"]), ""])


def comment_of(header: pathlib.Path) -> list[str]:
    """The lines of the comment at the head of a header."""
    text = header.read_text().split("*/", 1)[0].removeprefix("/* ")
    return [re.sub(r"^ \*(?: |$)", "", line).rstrip() for line in text.splitlines()]


def described(lines: Iterable[str]) -> Iterator[str]:
    """A comment as text of a page: what is indented keeps its lines, and what begins in capitals begins a part."""
    for group in paragraphs(lines):
        if all(line.startswith("    ") for line in group):
            yield from (".PP", ".nf", *(escaped(line) for line in group), ".fi")
            continue
        title = re.match(r"([A-Z][A-Z ]+[A-Z])(?=[ .,])", group[0])
        yield from (f".SS {title[1].capitalize()}",) if title else (".PP",)
        yield from map(escaped, group)


def library_page(folder: pathlib.Path) -> str:
    """The page of the library: what the header of recordings says, and which calls each header has."""
    headers = [folder / f"{LIBRARY}{part}.h" for part in ("_recording", "_folder", "", "_merge", "_file", "_shared")]
    lines = [*head(LIBRARY, 3, ABOUT_LIBRARY), ".SH SYNOPSIS", ".nf"]
    lines += [f".B #include <{escaped(header.name)}>" for header in headers]
    lines += [escaped(f"cc -std=c99 program.c $(pkg-config --cflags --libs {LIBRARY}-static) -o program"), ".fi"]
    lines += [escaped(f"For C++17: {LIBRARY}_recording.hpp, {LIBRARY}.hpp and {LIBRARY}_shared.hpp.")]
    lines += [".SH DESCRIPTION", *described(comment_of(headers[0])), ".SH CALLS"]
    for header in headers:
        calls = [name for name in symbols.names([header]) if not INNER.search(name)]
        lines += [".TP", f".B {escaped(header.name)}", escaped(", ".join(calls))]
    lines += [".PP", "The headers say of each call what it returns, and what its caller has to keep.", ".SH SEE ALSO"]
    return "\n".join([*lines, "\\fBpersist_report\\fR(1), \\fBstepped\\fR(1)", ""])


# ---- Completions ----

BASH = """# Completes the words of @NAME@ in bash.
_@NAME@() {
    local word=${COMP_WORDS[COMP_CWORD]} previous=${COMP_WORDS[COMP_CWORD-1]}
    local commands=@COMMANDS@ command='' options='' values='' each
    if [ -n "$commands" ]; then
        for each in "${COMP_WORDS[@]:1:COMP_CWORD-1}"; do
            case $each in -*) ;; *) command=$each; break ;; esac
        done
    fi
    case $command in
@CASES@
    esac
    COMPREPLY=()
    if [ "$values" = none ]; then
        return
    elif [ -n "$values" ] && [ "$values" != files ]; then
        mapfile -t COMPREPLY < <(compgen -W "$values" -- "$word")
    elif [ -z "$values" ] && [[ $word = -* ]]; then
        mapfile -t COMPREPLY < <(compgen -W "$options" -- "$word")
    elif [ -n "$commands" ] && [ -z "$values" ] && [[ -z $command || $command = help ]]; then
        mapfile -t COMPREPLY < <(compgen -W "$commands" -- "$word")
    else
        compopt -o filenames 2> /dev/null
        mapfile -t COMPREPLY < <(compgen -f -- "$word")
    fi
}
complete -F _@NAME@ @NAME@
"""
ZSH = """#compdef @NAME@
# Completes the words of @NAME@ in zsh.
_@NAME@() {
    _arguments \\
@WORDS@
}
_@NAME@ "$@"
"""
ZSH_WITH_COMMANDS = """#compdef @NAME@
# Completes the words of @NAME@ in zsh.
_@NAME@() {
    local context state line
    local -a commands
    commands=(
@COMMANDS@
    )
    _arguments -C \\
@WORDS@ \\
        '1: :->command' '*:: :->rest' && return
    case $state in
        command) _describe command commands ;;
        rest)
            case $words[1] in
                help) _describe command commands ;;
@CASES@
            esac
            ;;
    esac
}
_@NAME@ "$@"
"""
HELP = {"help": "Print the help of a command"}


def quoted(text: str) -> str:
    """A word of a shell."""
    return "'" + text.replace("'", "'\\''") + "'"


def bash_case(command: Help) -> str:
    """The options of a command, and what comes after each that has a value."""
    options = " ".join(name for item in command.options for name in item.names)
    lines = [f"        {quoted(command.title)})", f"            options={quoted(options)}"]
    valued = [item for item in command.options if item.value]
    if valued:
        lines.append("            case $previous in")
        for item in valued:
            values = " ".join(item.values) or ("files" if item.value in FILES else "none")
            lines.append(f"                {'|'.join(item.names)}) values={quoted(values)} ;;")
        lines.append("            esac")
    return "\n".join([*lines, "            ;;"])


def bash(program: Help, commands: Sequence[Help]) -> str:
    """The completion for bash."""
    cases = "\n".join(bash_case(each) for each in [dataclasses.replace(program, title=""), *commands])
    words = quoted(" ".join([*program.commands, *(HELP if commands else ())]))
    return BASH.replace("@COMMANDS@", words).replace("@CASES@", cases).replace("@NAME@", program.title)


def zsh_text(text: str) -> str:
    """What an option does, where zsh wants it."""
    return re.sub(r"([\[\]:\\])", r"\\\1", text)


def zsh_words(command: Help, indent: str) -> str:
    """The words of _arguments for a command, a line each."""
    words = []
    for item in command.options:
        known = f"({' '.join(item.values)})" if item.values else ("_files" if item.value in FILES else " ")
        value = f":{zsh_text(item.value)}:{known}" if item.value else ""
        words += [f"{name}[{zsh_text(item.about)}]{value}" for name in item.names]
    words += [] if command.commands else ["*:FILE:_files"]
    return " \\\n".join(f"{indent}{quoted(word)}" for word in words)


def zsh_case(command: Help) -> str:
    words = zsh_words(command, " " * 24)
    return f"                {command.title})\n                    _arguments \\\n{words}\n                    ;;"


def zsh(program: Help, commands: Sequence[Help]) -> str:
    """The completion for zsh."""
    words = zsh_words(program, " " * 8)
    listed_commands = {**program.commands, **HELP}.items()
    named = "\n".join(" " * 8 + quoted(f"{name}:{zsh_text(about)}") for name, about in listed_commands)
    text = (ZSH_WITH_COMMANDS if commands else ZSH).replace("@COMMANDS@", named).replace("@WORDS@", words)
    return text.replace("@CASES@", "\n".join(map(zsh_case, commands))).replace("@NAME@", program.title)


def files(program: pathlib.Path) -> dict[str, str]:
    """The files of a program, by their paths below a prefix."""
    name = program.name
    whole = help_of(name, [str(program)])
    commands = [help_of(command, [str(program), command]) for command in whole.commands]
    return {
        f"share/man/man1/{name}.1": page(whole, commands),
        f"share/bash-completion/completions/{name}": bash(whole, commands),
        f"share/zsh/site-functions/_{name}": zsh(whole, commands),
    }


def main(words: Sequence[str]) -> int:
    if len(words) < 2:
        print((__doc__ or "").rstrip(), file=sys.stderr)
        return 2
    found = {f"share/man/man3/{LIBRARY}.3": library_page(pathlib.Path(words[1]))}
    for program in words[2:]:
        found.update(files(pathlib.Path(program)))
    for name, text in found.items():
        path = pathlib.Path(words[0]) / name
        path.parent.mkdir(parents=True, exist_ok=True)
        path.write_text(text)
        path.chmod(0o644)
    return 0


if __name__ == "__main__":
    sys.exit(main(sys.argv[1:]))
