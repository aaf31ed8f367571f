#!/usr/bin/env python3
"""Says in one line which Rattle kit is on the PATH, and whether it is one of those that proved this repository.

    tests/support/kits.py

LOGIC is the logic in which everything was proved, and KITS are the kits that proved it. README.md and docs/PROVED.md
name both, and `documents` compares them. `.ci/run` and `tests/quick` begin with this line. The status is 0 whatever it
says: another kit is no fault, and what it makes of the proofs is for the gate to find.
"""

from __future__ import annotations

import pathlib
import re
import subprocess
import sys
from collections.abc import Iterator, Mapping

sys.path.insert(0, str(pathlib.Path(__file__).resolve().parents[1]))
from support.made import ROOT

LOGIC = "dac8208d650f15bf"
KITS = ("rattle-kit-13b", "rattle-kit-13f")
PAGES = ("README.md", "docs/PROVED.md")
# What `rt version` prints, and how pages name a kit and a logic.
VERSION = re.compile(r"(\S+) logic (\S+)\n")
KIT = re.compile(r"rattle-kit-\w+")
HASH = re.compile(r"\b[0-9a-f]{16}\b")


def judged(version: str) -> str:
    """What a kit is, by what its `rt version` prints."""
    known = VERSION.fullmatch(version)
    if known is None:
        return f"kit: rt version says {version.strip()!r}, and not a kit and its logic"
    kit, logic = known[1], known[2]
    if kit in KITS and logic == LOGIC:
        return f"kit: {kit} logic {logic}, one of those that proved this"
    like = "of the same logic" if logic == LOGIC else f"of another logic, {logic} and not {LOGIC}"
    return f"kit: {kit}, NOT one of those that proved this ({', '.join(KITS)}), {like}"


def found() -> str:
    """What the kit on the PATH is."""
    try:
        return judged(subprocess.run(["rt", "version"], capture_output=True, text=True, check=True).stdout)
    except (OSError, subprocess.CalledProcessError) as why:
        return f"kit: none was found: {why}"


def misnamed(pages: Mapping[str, str]) -> Iterator[str]:
    """Which pages name other kits than these or another logic, by their texts."""
    for page, text in pages.items():
        if (named := sorted(set(KIT.findall(text)))) != sorted(KITS):
            yield f"{page} names {named}, and not {sorted(KITS)}"
        if (hashes := sorted(set(HASH.findall(text)))) != [LOGIC]:
            yield f"{page} names the logics {hashes}, and not {LOGIC}"


def texts() -> dict[str, str]:
    return {page: (ROOT / page).read_text() for page in PAGES}


def difference() -> str | None:
    """Which pages name others, or None."""
    return "\n".join(misnamed(texts())) or None


def let_through() -> str | None:
    """Which changes are let through that have to be found, or None: a page that names a kit or the logic no longer, or
    another one; a kit that did not prove this, or of another logic, that is said to be one that did."""
    changes = [(name, another) for name in KITS for another in ("", "rattle-kit-99")] + [(LOGIC, ""), (LOGIC, "0" * 16)]
    pages = texts()
    came = [
        f"{page}, {name} as {another!r}"
        for page in pages
        for name, another in changes
        if not list(misnamed({**pages, page: pages[page].replace(name, another)}))
    ]
    for version, is_one in (
        *((f"{kit} logic {LOGIC}\n", True) for kit in KITS),
        (f"{KITS[0]} logic {'0' * 16}\n", False), (f"rattle-kit-99 logic {LOGIC}\n", False), ("", False),
    ):
        if judged(version).endswith(", one of those that proved this") != is_one:
            came.append(f"{version!r} is said to be: {judged(version)}")
    return "\n".join(came) or None


if __name__ == "__main__":
    print(found())
