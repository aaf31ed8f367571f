"""The pages of the manual and the completions that are installed, beside what the programs say with --help: each has
every command, and of each command every option, and no other one."""

from __future__ import annotations

import pathlib
import re
from collections.abc import Iterator, Mapping, Sequence

from parts import helps
from support import native, packaged
from support.program import Case

# The help of a program or, by its name, of a command.
Helps = Mapping[str, str]
# A word of a page in which hyphens and the like are marked.
MARKED = re.compile(r"\\(.)")
SCRIPT = r"""
source "$1"
for command in "${@:3}"; do
    words=("$2" $command --)
    COMP_WORDS=("${words[@]}") COMP_CWORD=$((${#words[@]} - 1))
    COMPREPLY=()
    "_$2"
    echo "$command:" "${COMPREPLY[@]}"
done
COMP_WORDS=("$2" "") COMP_CWORD=1
"_$2"
echo "commands:" "${COMPREPLY[@]}"
"""


def helps_of(program: pathlib.Path) -> dict[str, str]:
    """What a program says of itself, by an empty name, and of each of its commands."""
    whole = helps.asked(program, ["--help"])
    names = helps.commands_in(whole) if "\nCommands:\n" in whole else []
    return {"": whole, **{name: helps.asked(program, [name, "--help"]) for name in names}}


def options_of(texts: Helps) -> dict[str, list[str]]:
    """The options of each, as its help lists them."""
    return {name: sorted(helps.options_in(text)) for name, text in texts.items()}


def sections(page: str) -> dict[str, str]:
    """The sections of a page by their titles."""
    parts = re.split(r"^\.SH ", page, flags=re.MULTILINE)[1:]
    return {title.strip(): text for title, _, text in (part.partition("\n") for part in parts)}


def of_page(page: str, names: Sequence[str]) -> dict[str, list[str]]:
    """The options that each section of a page lists."""
    found = sections(page)
    texts = {name: found.get(name.upper() or "OPTIONS", "") for name in names}
    lists = {name: re.findall(r"^\.TP\n\.B (.*)$", text, re.MULTILINE) for name, text in texts.items()}
    plain = {name: MARKED.sub(r"\1", " ".join(items)) for name, items in lists.items()}
    return {name: sorted(re.findall(r"(?<![\w-])--[\w-]+", text)) for name, text in plain.items()}


def of_zsh(text: str, names: Sequence[str]) -> dict[str, list[str]]:
    """The options that the completion for zsh gives for each command."""
    parts = dict(re.findall(r"^ {16}(\w+)\)\n(.*?)^ {20};;$", text, re.MULTILINE | re.DOTALL))
    parts[""] = text.partition("case $state in")[0]
    return {name: sorted(re.findall(r"^ *'(--[\w-]+)\[", parts.get(name, ""), re.MULTILINE)) for name in names}


def of_bash(path: pathlib.Path, names: Sequence[str]) -> tuple[dict[str, list[str]], list[str]]:
    """What bash completes after `--` of each command, and where a command may stand."""
    said = native.run(["bash", "-c", SCRIPT, "bash", path, path.name, *names], env=packaged.bare(path.parent))
    found = {name: words.split() for name, words in re.findall(r"^(\w*):(.*)$", said, re.MULTILINE)}
    commands = found.pop("commands")
    return {name: sorted(words) for name, words in found.items()}, commands


def differing(wanted: Mapping[str, list[str]], found: Mapping[str, list[str]]) -> str | None:
    """Of which commands the options are not those that the help lists, or None."""
    other = [name for name in wanted if wanted[name] != found.get(name)]
    return "; ".join(f"{name or 'itself'}: {found.get(name)}" for name in other) or None


def files_of(stage: pathlib.Path, name: str) -> tuple[pathlib.Path, pathlib.Path, pathlib.Path]:
    """The page and both completions of a program."""
    share = stage / "share"
    return (
        share / "man" / "man1" / f"{name}.1", share / "bash-completion" / "completions" / name,
        share / "zsh" / "site-functions" / f"_{name}",
    )


def of_program(stage: pathlib.Path, program: pathlib.Path) -> Iterator[Case]:
    """The page and the completions of a program."""
    texts = helps_of(program)
    wanted, names = options_of(texts), [*texts]
    page, bash, zsh = files_of(stage, program.name)
    yield f"options of {program.name}", None if all(wanted.values()) else f"none are found: {wanted}"
    yield f"{page.name}: its options", differing(wanted, of_page(page.read_text(), names))
    completed, commands = of_bash(bash, names)
    yield f"{program.name} in bash: its options", differing(wanted, completed)
    if len(names) > 1:
        right = sorted(commands) == sorted([*names[1:], "help"])
        yield f"{program.name} in bash: its commands", None if right else f"they are {commands}"
    yield f"{program.name} in zsh: its options", differing(wanted, of_zsh(zsh.read_text(), names))
    lacking_names = [name for name in names[1:] if f"\n.B {name}\n" not in page.read_text()]
    yield f"{page.name}: the commands", f"it lacks {lacking_names}" if lacking_names else None
    lacking = {**wanted, names[-1]: wanted[names[-1]][1:]}
    found = differing(lacking, of_page(page.read_text(), names)), differing(lacking, completed)
    yield f"that an option is found that {program.name} lacks", None if all(found) else f"{found}"


def of_library(stage: pathlib.Path, declared: set[str]) -> str | None:
    """Which calls the page of the library does not name, or None."""
    page = MARKED.sub(r"\1", (stage / "share" / "man" / "man3" / "povundiri.3").read_text())
    inner = re.compile(r"povundiri_(proved_\w+|recording_add_(usual|other)|is_array|is_room|address)")
    missing = {name for name in declared if not inner.fullmatch(name)} - set(re.findall(r"\bpovundiri_\w+", page))
    return f"it lacks {sorted(missing)}" if missing or not declared else None


def wrong_syntax(stage: pathlib.Path) -> str | None:
    """What `man` and the shells find wrong in these files, where they are installed, or None."""
    share, wrong = stage / "share", []
    for path in sorted([*share.glob("man/man?/*"), *share.glob("bash-completion/*/*"), *share.glob("zsh/*/*")]):
        words = {"zsh": ["zsh", "-n"], "bash-completion": ["bash", "-n"]}.get(path.relative_to(share).parts[0])
        line = words or ["man", "--warnings", "-E", "UTF-8", "-l", "-Tutf8", "-Z"]
        said = packaged.complaint(*line, path)
        if said is not None:
            wrong.append(f"{path.name}: {said}")
    return "\n".join(wrong) or None


def cases(stage: pathlib.Path, declared: set[str]) -> Iterator[Case]:
    for program in sorted((stage / "bin").iterdir()):
        yield from of_program(stage, program)
    yield "povundiri.3: the calls", of_library(stage, declared)
    yield "pages and completions have no mistake", wrong_syntax(stage)
