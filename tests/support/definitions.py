#!/usr/bin/env python3
"""Makes the end of docs/DEFINITIONS.md, which lists the crates that have definitions, and of the comments in specs/ a
page of docs/definitions for each of them. The pages are not kept in git.

    tests/support/definitions.py [--write]

With --write it writes the files. Without, it says where docs/DEFINITIONS.md differs, and the status is 1 if it does.
"""

from __future__ import annotations

import pathlib
import re
import sys
import textwrap
from collections.abc import Collection, Iterable, Iterator, Sequence

sys.path.insert(0, str(pathlib.Path(__file__).resolve().parents[1]))
from support import made
from support.made import ROOT

DOCUMENT = ROOT / "docs" / "DEFINITIONS.md"
PAGES = ROOT / "docs" / "definitions"
WIDTH = 140
MOST_SIGNS = 110
# What is above this line of the document is written by hand.
MADE_FROM = "These crates have a page, in the order of `ARCHITECTURE.md`:\n\n"

# The head of a definition that others may name.
PUBLIC = re.compile(
    r"^(?:(?:abbrev|unfoldable|plain|opaque) )*pub (?:(?:abbrev|unfoldable|plain|opaque|record|data) )*([^\W\d][\w']*)"
)
# What names definitions: in antt and in contracts.
IMPORT = re.compile(
    r"^(pub |ghost |pub ghost )?use (?:Rattle\.)?(?:(\w+)\.)?specs\.([\w.]+)\.\{([^}]*)\}", re.MULTILINE
)


def crates() -> list[str]:
    """The crates that have definitions, in the order of docs/ARCHITECTURE.md, and then those that it does not have."""
    listed = re.findall(r"^\| `(\w+)` \|", (ROOT / "docs" / "ARCHITECTURE.md").read_text(), re.MULTILINE)
    every = sorted(folder.parent.name for folder in (ROOT / "crates").glob("*/specs"))
    return sorted(every, key=lambda name: (listed.index(name) if name in listed else len(listed), name))


def names_in(text: str, with_public: bool) -> Iterator[tuple[str | None, str, str]]:
    """Which definitions a file imports to name them, and if wanted also those that it imports for others: the crate, or
    None for its own, the module and the name."""
    for kind, crate, module, names in IMPORT.findall(text):
        if with_public or not kind.startswith("pub"):
            for name in names.split(","):
                yield crate or None, module, name.split(" as ")[0].strip()


def named() -> set[tuple[str, str, str]]:
    """The definitions that a contract names, or a definition of another crate: crate, module and name."""
    found: set[tuple[str, str, str]] = set()
    for folder in (ROOT / "crates").iterdir():
        for file in [*folder.glob("src/**/*.rt"), *folder.glob("specs/**/*.antt")]:
            prelude = file.name == "Prelude.antt"  # the words that the contracts of a folder name
            for crate, module, name in names_in(file.read_text(), prelude):
                if file.suffix == ".rt" or prelude or crate not in (None, folder.name):
                    found.add((crate or folder.name, module, name))
    return found


def comment_above(lines: Sequence[str], place: int) -> str:
    """The comment that ends above a line: one paragraph."""
    start = place
    while start > 0 and lines[start - 1].startswith("--") and not lines[start - 1].startswith("-- --"):
        start -= 1
    return " ".join(line[2:].strip() for line in lines[start:place])


def in_short(comment: str) -> str:
    """The first sentence, or the whole if it is short, without a sign at the end."""
    whole = comment.replace("`", "").strip()
    if len(whole) > MOST_SIGNS:
        whole = re.split(r"(?<=[^.])\. (?=[A-Z])", whole)[0]
    return whole.rstrip(".:;")


def definitions(text: str) -> Iterator[tuple[str, str]]:
    """The name and the comment of each definition of a module that others may name. Those without a line between them,
    and with no comment of their own, share the comment of the first."""
    lines, shared = text.split("\n"), ""
    for place, line in enumerate(lines):
        found = PUBLIC.match(line)
        if line.startswith("pub use") or line.startswith("pub mod") or not found:
            continue
        comment = comment_above(lines, place)
        shared = comment or (shared if place and lines[place - 1].strip() else "")
        yield found[1], shared


def grouped(listed: Iterable[tuple[str, str]]) -> list[tuple[list[str], str]]:
    """Definitions that share a comment are in one entry."""
    groups: list[tuple[list[str], str]] = []
    for name, comment in listed:
        if groups and groups[-1][1] == comment:
            groups[-1][0].append(name)
        else:
            groups.append(([name], comment))
    return groups


def wrapped(entry: str) -> list[str]:
    """The lines of an entry of a list."""
    lines, line = [], "-"
    for word in entry.split():
        if len(line) + 1 + len(word) > WIDTH:
            lines.append(line)
            line = " "
        line += " " + word
    return [*lines, line]


def module_lines(crate: str, file: pathlib.Path, used: Collection[tuple[str, str, str]]) -> list[str]:
    """The lines of a module, or none if nothing of it is listed. One in a room has the room's name before its own."""
    text = file.read_text()
    module = ".".join(file.relative_to(ROOT / "crates" / crate / "specs").with_suffix("").parts)
    begin = re.match(r"(?:--.*\n)*", text)
    about = in_short(" ".join(line[2:].strip() for line in (begin[0] if begin else "").splitlines()))
    listed = [one for one in definitions(text) if (crate, module, one[0]) in used]
    if not listed:
        return []
    lines = ["", f"**`{module}`**: {about}" if about else f"**`{module}`**"]
    for names, comment in grouped(listed):
        entry = ", ".join(f"`{name}`" for name in names)
        lines += wrapped(f"{entry}: {in_short(comment)}" if comment else entry)
    return lines


def pages() -> Iterator[tuple[str, str]]:
    """The page of each crate of which anything is listed, by the name of the crate."""
    used = named()
    for crate in crates():
        modules = [
            module_lines(crate, file, used) for file in sorted((ROOT / "crates" / crate / "specs").glob("**/*.antt"))
        ]
        if any(modules):
            lines = [f"# The definitions of `{crate}`", *(line for module in modules for line in module)]
            yield crate, "\n".join(lines) + "\n"


def index() -> made.Documents:
    """The document that says how the pages are made, with the crates that have one at its end, by its path."""
    crates_in_a_row = " ".join(f"`{crate}`" for crate, _ in pages())
    by_hand = DOCUMENT.read_text().partition(MADE_FROM)[0]
    return {DOCUMENT: by_hand + MADE_FROM + "\n".join(textwrap.wrap(crates_in_a_row, WIDTH)) + "\n"}


def difference() -> str | None:
    """Where that document differs, or None. To say which crates have a page, all pages are made."""
    return made.difference(index(), "specs/")


if __name__ == "__main__":
    if sys.argv[1:] == ["--write"]:
        made.write({PAGES / f"{crate}.md": text for crate, text in pages()})
    sys.exit(made.run(sys.argv[1:], __doc__, index(), "specs/"))
