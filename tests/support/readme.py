"""The blocks of code of README.md, each of which a test runs as it is printed."""

from __future__ import annotations

import re

from support.made import ROOT

README = ROOT / "README.md"
INDENT = "    "
PROMPT = "$ "
ANY_LINES = "[..]"

DEMO, TRIED, PROGRAM, INSTALLED = "make -C examples demo", "tests/quick", "#include", "make -C c install"
SERVICE, SHOWN, RACE = "persist_report show metrics --live", "persist_report show examples/", "stepped examples/"
RELEASE = "tar xf "
# What each block has and no other, and which part of tests/run runs it.
RUN_BY = {
    DEMO: "demo", TRIED: "demo", PROGRAM: "c", INSTALLED: "c", SERVICE: "c", SHOWN: "cookbook", RACE: "shown_steps",
    RELEASE: "packages",
}


def blocks(text: str) -> list[list[str]]:
    """The blocks of code of a page, each with its lines."""
    found = re.findall(rf"(?:^{INDENT}.*\n)+", text, re.MULTILINE)
    return [[line[len(INDENT):] for line in block.splitlines()] for block in found]


def marks_in(block: list[str]) -> list[str]:
    """Which marks of RUN_BY a block has."""
    return [mark for mark in RUN_BY if any(mark in line for line in block)]


def block(mark: str) -> list[str]:
    """The lines of the block that has this mark."""
    return next(found for found in blocks(README.read_text()) if mark in marks_in(found))


def fault_of(text: str) -> str | None:
    """Which blocks of such a page no test runs, or which are not there; or None."""
    marks = [marks_in(found) for found in blocks(text)]
    wrong = [f"a block has the marks {found} of RUN_BY, and not one" for found in marks if len(found) != 1]
    counts = {mark: sum(mark in found for found in marks) for mark in RUN_BY}
    wrong += [f"{mark} is in {count} blocks" for mark, count in counts.items() if count != 1]
    return "\n".join(wrong) or None


def another_example() -> str | None:
    """Where examples/latency.cpp is not the program of README.md, or None."""
    shown, kept = block(PROGRAM), (ROOT / "examples" / "latency.cpp").read_text().splitlines()
    return None if kept == shown else f"it is {kept}, and README.md shows {shown}"


def difference() -> str | None:
    """Which blocks of README.md no test runs, or None."""
    return fault_of(README.read_text())


def let_through() -> str | None:
    """Which changes are let through that have to be found, or None: a block that nobody runs, and one less."""
    text = README.read_text()
    wrong = [f"{text}\n{INDENT}persist_report info examples/crash.img\n"]
    wrong += ["\n".join(line for line in text.split("\n") if mark not in line) for mark in RUN_BY]
    came = [number for number, changed in enumerate(wrong) if fault_of(changed) is None]
    return f"{came} of {len(wrong)} wrong pages are let through" if came else None
