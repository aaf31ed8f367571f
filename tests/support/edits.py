"""The edits of crates/NAME/wrong/: what tests/edits has tried, and where that is no longer true.

`wrong/tried.txt` has a line for each edit of its folder: the name, the sum of its text, and the function and the goal
that refused it. Its head has the sum of the crate when they were tried (tests/support/sources.py).
"""

from __future__ import annotations

import pathlib
import re
from collections.abc import Iterator
from typing import NamedTuple

from support import sources
from support.made import ROOT

FOLDER, TRIED = "wrong", "tried.txt"
HEAD = """\
# The edits of this folder, each with the sum of its text, and the function and the goal of it that refused the edit.
# Made by: tests/edits {crate}. The sum of the crate, and of what those below it state: {sum}
"""
FUNCTION = re.compile(r'\s*(?:\w+(?:\([a-z]+\))? |"C" )*fn (\w+)')
IMPL = re.compile(r"impl(?:<.*?>)? (?:(?P<trait>\w+)(?:<(?P<of>\w+).*>)? for )?(?P<type>\w+)")
FIRST = re.compile(r"# .*\n# .*: (\w{16})\n")
LINE = re.compile(r"(\S+\.edit) (\w{16}) (\S+) (\S+)\n")


class Tried(NamedTuple):
    """An edit that was refused: the sum of its text, the function and the goal."""

    sum: str
    function: str
    goal: str


class Record(NamedTuple):
    """What a tried.txt says: the sum of the crate, and its edits by their names."""

    sum: str
    edits: dict[str, Tried]


def crates(root: pathlib.Path = ROOT) -> list[str]:
    """The crates that have such edits, or had some."""
    return sorted(folder.parent.name for folder in root.glob(f"crates/*/{FOLDER}"))


def edits_of(crate: str, root: pathlib.Path = ROOT) -> list[pathlib.Path]:
    return sorted((root / "crates" / crate / FOLDER).glob("*.edit"))


def sum_of(edit: pathlib.Path) -> str:
    return sources.digest(edit.read_text(encoding="utf-8"))


def function_of(crate: str, edit: pathlib.Path, root: pathlib.Path = ROOT) -> str:
    """The path of the function that an edit changes first: the last one that begins before the text that it takes."""
    text = edit.read_text(encoding="utf-8")
    file, old = (re.search(rf"^{word}: ?(.*)$", text, re.MULTILINE) for word in ("file", "old"))
    if file is None or old is None:
        raise ValueError(f"{edit} names no file, or no text of it")
    before = (root / "crates" / crate / file[1]).read_text(encoding="utf-8").split(old[1])[0].splitlines() + [old[1]]
    parts = pathlib.PurePath(file[1]).with_suffix("").parts[1:]
    modules = [part for part in parts if part not in ("lib", "main", "mod")]
    owner: list[str] = []
    function = ""
    for line in before:
        if line == "}":
            owner = []
        elif begun := IMPL.match(line):
            owner = ["".join(word or "" for word in begun.group("type", "trait", "of"))]
        elif begun := FUNCTION.match(line):
            function = "::".join([crate, *modules, *owner, begun[1]])
    return function


def recorded(crate: str, root: pathlib.Path = ROOT) -> Record:
    """What the crate's tried.txt says; a sum of '' and no edits if it cannot be read as such."""
    file = root / "crates" / crate / FOLDER / TRIED
    text = file.read_text(encoding="utf-8") if file.is_file() else ""
    first = FIRST.match(text)
    lines = text[first.end() :].splitlines(keepends=True) if first else []
    matches = [LINE.fullmatch(line) for line in lines]
    if first is None or None in matches:
        return Record("", {})
    return Record(first[1], {match[1]: Tried(*match.groups()[1:]) for match in matches if match})


def write(crate: str, record: Record, root: pathlib.Path = ROOT) -> None:
    lines = [f"{name} {' '.join(tried)}\n" for name, tried in sorted(record.edits.items())]
    file = root / "crates" / crate / FOLDER / TRIED
    file.write_text(HEAD.format(crate=crate, sum=record.sum) + "".join(lines), encoding="utf-8")


def changed(crate: str, now: str, root: pathlib.Path = ROOT) -> list[pathlib.Path]:
    """The edits that are to be tried: all if the crate's sum is not `now`, and else those that are new or changed."""
    record = recorded(crate, root)
    were = {name: tried.sum for name, tried in record.edits.items()} if record.sum == now else {}
    return [edit for edit in edits_of(crate, root) if were.get(edit.name) != sum_of(edit)]


def faults(crate: str, root: pathlib.Path = ROOT) -> Iterator[str]:
    """Where a crate's tried.txt is not what is there."""
    record, here = recorded(crate, root), {edit.name: sum_of(edit) for edit in edits_of(crate, root)}
    place = f"crates/{crate}/{FOLDER}/{TRIED}"
    if record.sum != sources.sum_of(crate, root):
        yield f"{place} is of another text of the crate, or of what those below it state"
    for name in sorted(here.keys() - record.edits.keys()):
        yield f"{place} does not have {name}"
    for name in sorted(record.edits.keys() - here.keys()):
        yield f"{place} has {name}, which is not there"
    for name in sorted(here.keys() & record.edits.keys()):
        if record.edits[name].sum != here[name]:
            yield f"{place} is of another text of {name}"
    for path in sorted((root / "crates" / crate / FOLDER).iterdir()):
        if path.suffix != ".edit" and path.name != TRIED:
            yield f"{path.relative_to(root)} is no edit"


def difference() -> str | None:
    """Where a tried.txt is not what is there, or None. Then `tests/edits --changed` tries what changed."""
    return "\n".join(fault for crate in crates() for fault in faults(crate)) or None
