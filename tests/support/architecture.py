#!/usr/bin/env python3
"""Makes the part of docs/ARCHITECTURE.md that shows the crates: a picture of the shelves of crates.txt, and a table of
each, with the first sentence of each crate's src/lib.rt or src/main.rt.

    tests/support/architecture.py [--write]

With --write it writes the file. Without, it says where the file differs, and the status is 1 if it does. It refuses a
list in which a crate stands on a shelf on which its own does not stand, or on a crate that comes after it.
"""

from __future__ import annotations

import pathlib
import re
import sys
import textwrap
from collections.abc import Iterator, Sequence
from typing import Optional

sys.path.insert(0, str(pathlib.Path(__file__).resolve().parents[1]))
from support import layers, made
from support.made import ROOT

DOCUMENT = ROOT / "docs" / "ARCHITECTURE.md"
# What is outside these lines of the document is written by hand.
BEGIN = "<!-- The shelves, made by tests/support/architecture.py --write of crates.txt and of the crates: -->\n"
END = "<!-- The end of the shelves. -->\n"

# Each shelf, and those that it stands on.
STANDS: dict[str, list[str]] = {
    "format": [],
    "machine": ["format"],
    "recorders": ["format", "machine"],
    "readings": ["format"],
    "programs": ["format", "machine", "recorders", "readings"],
}
HEADING = re.compile(r"# (\w+): (.*)")
# How many signs are between the sides of the picture, and between those of each half of it.
WHOLE = 109
HALF = (WHOLE - 1) // 2

# What a shelf is about, and its crates.
Shelf = tuple[str, list[str]]
# A line of the picture; None is where one box ends and the next begins.
Row = Optional[str]


def shelves(text: str) -> dict[str, Shelf]:
    """The shelves of a list in their order; '' has the crates above the first."""
    found: dict[str, Shelf] = {"": ("", [])}
    crates = found[""][1]
    for line in text.splitlines():
        if heading := HEADING.fullmatch(line):
            crates = []
            found[heading[1]] = heading[2], crates
        elif name := re.match(r"\w+", line):
            crates.append(name[0])
    return found


def misplaced(text: str) -> str | None:
    """Which crates of a list stand where they may not, or None."""
    found, needs = shelves(text), layers.parsed(text)
    if found.pop("")[1] or list(found) != list(STANDS):
        return f"the shelves are not {', '.join(STANDS)}, in this order, or crates are on none"
    shelf_of = {crate: shelf for shelf, (_, crates) in found.items() for crate in crates}
    came, before = [], set()
    for crate, shelf in shelf_of.items():
        before.add(crate)
        came += [f"{crate} stands on {need}, which comes after it" for need in needs[crate] if need not in before]
        for need in needs[crate]:
            if shelf_of[need] not in (shelf, *STANDS[shelf]):
                came.append(f"{crate} stands on {need}, and the shelf {shelf} does not stand on {shelf_of[need]}")
    return "\n".join(came) or None


def let_through() -> str | None:
    """How many lists that have to be refused are not, or None. In them a crate of a shelf stands on one of a shelf on
    which it may not; or a crate on one after it; or a shelf has no heading."""
    text = layers.LIST.read_text()
    last = {shelf: crates[-1] for shelf, (_, crates) in shelves(text).items() if shelf}
    pairs = [(last[shelf], last[other]) for shelf in STANDS for other in STANDS if other not in (shelf, *STANDS[shelf])]
    pairs += [(crates[0], crates[-1]) for shelf, (_, crates) in shelves(text).items() if shelf]
    wrong = [re.sub(rf"(?m)^({crate}(?: [^:\n]*)?):", rf"\1: {need}", text) for crate, need in pairs]
    wrong += [text.replace(f"\n# {shelf}:", f"\n# {shelf}.") for shelf in STANDS]
    came = [text for text in wrong if not misplaced(text)]
    return f"{len(came)} of {len(wrong)} wrong lists are let through" if came else None


def root_of(crate: str) -> pathlib.Path:
    """The file that a crate begins with."""
    source = ROOT / "crates" / crate / "src"
    return next(path for path in (source / "lib.rt", source / "main.rt") if path.is_file())


def first_sentence(crate: str) -> str:
    """The first sentence of a crate's comment, without the full stop. It begins on the first line."""
    lines = root_of(crate).read_text().splitlines()
    comment = re.match(r"(?://! .*\n)*", "\n".join(lines) + "\n")
    whole = " ".join(line.removeprefix("//! ") for line in (comment[0] if comment else "").splitlines())
    return re.split(r"\. (?=[A-Z`\[])", whole)[0].removesuffix(".").replace("|", "\\|")


def direct(needs: layers.Needs, crate: str) -> list[str]:
    """What a crate depends on, without what is below another of these."""
    deeper = {name for need in needs[crate] for name in layers.below(needs, need)}
    return [need for need in needs[crate] if need not in deeper]


def table(shelf: str, about: str, crates: Sequence[str], needs: layers.Needs) -> Iterator[str]:
    """The lines of a shelf's table."""
    yield from ("", f"**{shelf.capitalize()}**: {about}", "")
    yield from ("| Crate | What it is or does | Stands on |", "|---|---|---|")
    for crate in crates:
        below = ", ".join(f"`{need}`" for need in direct(needs, crate))
        yield f"| `{crate}` | {first_sentence(crate)} | {below} |".replace("|  |", "| |")


def box(shelf: str, crates: Sequence[str], width: int) -> list[Row]:
    """The lines of a shelf in the picture."""
    return [f" {shelf}", *(f"   {line}" for line in textwrap.wrap(" ".join(crates), width - 4, break_long_words=False))]


def picture(found: dict[str, Shelf]) -> Iterator[str]:
    """Each shelf above those that it stands on."""
    boxes = {shelf: box(shelf, found[shelf][1], HALF if shelf in ("machine", "recorders", "readings") else WHOLE)
             for shelf in STANDS}
    left, right = [*boxes["recorders"], None, *boxes["machine"]], boxes["readings"]
    height = max(len(left), len(right))
    left, right = ([*rows, *[""] * (height - len(rows))] for rows in (left, right))
    side = "-" * HALF
    yield f"+{'-' * WHOLE}+"
    yield from (f"|{row:{WHOLE}}|" for row in boxes["programs"])
    yield f"+{side}+{side}+"
    for one, other in zip(left, right):
        yield f"+{side}+{other:{HALF}}|" if one is None else f"|{one:{HALF}}|{other:{HALF}}|"
    yield f"+{side}+{side}+"
    yield from (f"|{row:{WHOLE}}|" for row in boxes["format"])
    yield f"+{'-' * WHOLE}+"


def part() -> str:
    """The part of the document that is made."""
    text = layers.LIST.read_text()
    found, needs = shelves(text), layers.parsed(text)
    lines = ["", *(f"    {line}" for line in picture(found))]
    for shelf in STANDS:
        lines += table(shelf, *found[shelf], needs)
    return "\n".join([*lines, "", ""])


def documents() -> made.Documents:
    """The document, by its path."""
    above, begin, rest = DOCUMENT.read_text().partition(BEGIN)
    _, end, below = rest.partition(END)
    assert begin and end, f"{DOCUMENT} lacks the lines between which the shelves are"
    return {DOCUMENT: above + begin + part() + end + below}


def difference() -> str | None:
    """What is wrong with the list, or where the document differs from it, or None."""
    return misplaced(layers.LIST.read_text()) or made.difference(documents(), layers.LIST.name)


if __name__ == "__main__":
    if wrong := misplaced(layers.LIST.read_text()) or let_through():
        sys.exit(wrong)
    sys.exit(made.run(sys.argv[1:], __doc__, documents(), layers.LIST.name))
