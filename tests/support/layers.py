#!/usr/bin/env python3
"""Checks by crates.txt that the crates that read do not depend on the machine.

    tests/support/layers.py

It prints each crate with its depth: 1 for one that depends on no other crate of the workspace, and one more for each on
the longest way down. If a crate that reads depends on the machine, it says by which way, and the status is 1.
"""

from __future__ import annotations

import functools
import pathlib
import re
import sys

sys.path.insert(0, str(pathlib.Path(__file__).resolve().parents[1]))
from support.made import ROOT

LIST = ROOT / "crates.txt"
# A change of the machine must not require that these crates are proved again: nothing in them says what actors do.
READING = [
    "image_reader", "image_adoption", "reading_texts", "reading_sums", "sum_texts", "reading_overviews", "text_styles",
    "reading_shows", "text_forms", "recording_folders", "sum_commands", "persist_report_core", "segment_search",
    "segment_looks", "segment_sizes", "size_texts", "fault_texts", "report_asks", "report_requests", "report_streams",
    "report_sources", "schedule",
]
MACHINE = ["segment_machine", "segment_invariant", "segment_promises"]

# The crates of a list, each with those of the list that it depends on.
Needs = dict[str, list[str]]


def parsed(text: str) -> Needs:
    """What a list says of crates."""
    lines = [line.split("#")[0] for line in text.splitlines()]
    pairs = [line.split(":", 1) for line in lines if line.strip()]
    needs = {head.split()[0]: rest.split() for head, rest in pairs}
    return {name: [need for need in found if need in needs] for name, found in needs.items()}


def way(needs: Needs, crate: str, below: str) -> list[str] | None:
    """The crates from one down to another, or None if it does not depend on that."""
    if crate == below:
        return [crate]
    down = (way(needs, need, below) for need in needs[crate])
    return next(([crate, *rest] for rest in down if rest), None)


def below(needs: Needs, crate: str) -> set[str]:
    """All crates that one stands on."""
    return {name for need in needs[crate] for name in (need, *below(needs, need))}


def depths(needs: Needs) -> dict[str, int]:
    """The depth of each crate."""
    @functools.cache
    def depth(crate: str) -> int:
        return 1 + max(map(depth, needs[crate]), default=0)

    return {crate: depth(crate) for crate in needs}


def difference(text: str | None = None) -> str | None:
    """Which crates that read depend on the machine, each with the way down, or which crates are missing; or None."""
    needs = parsed(LIST.read_text() if text is None else text)
    came = [f"{LIST.name} has no crate {crate}" for crate in READING + MACHINE if crate not in needs]
    ways = [] if came else [way(needs, crate, below) for crate in READING for below in MACHINE]
    came += [" stands on ".join(found) for found in ways if found]
    return "\n".join(came) or None


def let_through() -> str | None:
    """How many lists that have to be refused are not, or None. In them each crate that reads depends on the machine,
    itself or by a crate below it; or the list lacks a crate."""
    text = LIST.read_text()
    # A line may have words between the crate and what it depends on.
    wrong = [re.sub(rf"(?m)^({crate}(?: [^:\n]*)?):", rf"\1: {by}", f"{text}between: {below}\n")
             for crate in READING for below in MACHINE for by in (below, "between")]
    wrong += [text.replace(f"\n{crate}", f"\nno_{crate}") for crate in READING + MACHINE]
    came = [text for text in wrong if not difference(text)]
    return f"{len(came)} of {len(wrong)} wrong lists are let through" if came else None


def main() -> int:
    deep = depths(parsed(LIST.read_text()))
    for crate in sorted(deep, key=lambda crate: (deep[crate], crate)):
        print(deep[crate], crate)
    wrong = difference() or let_through()
    print(wrong or "no crate that reads stands on the machine")
    return 1 if wrong else 0


if __name__ == "__main__":
    sys.exit(main())
