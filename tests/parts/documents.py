"""Documents that are made of the sources are what these say now, links lead to files that are there, README.md is
short, a part runs each of its blocks and its numbers are right, the kits that proved this have one list, the version is
one wherever it stands, each crate stands on shelves on which it may and those that read do not depend on the machine, a
name of a definition means one thing, each edit of wrong/ was tried over the text that its crate has now, and the Python
of tests/ and bench/ is clean. No program of the crates is run."""

from __future__ import annotations

import argparse
from collections.abc import Iterator

from support import (
    architecture,
    cited,
    definitions,
    edits,
    faults,
    kits,
    laid,
    layers,
    linted,
    links,
    names,
    proved,
    readme,
    versions,
    wrong_records,
)
from support.program import ROOT, Case

PROGRAM = None
MOST_LINES = 150


def too_long() -> str | None:
    """How long README.md is, if it is longer than a user reads, or None."""
    lines = len((ROOT / "README.md").read_text().splitlines())
    return None if lines <= MOST_LINES else f"{lines} lines, and at most {MOST_LINES} are wanted"


def miscounted() -> str | None:
    """Which number of README.md is another one than it says, or None."""
    text = " ".join((ROOT / "README.md").read_text().split())
    library = laid.needed(laid.lines_of(ROOT / "crates.txt"), ["povundiri_c"])
    said = {
        f"Each gate tries {len([*ROOT.glob('crates/*/must-fail/*.edit')])} wrong bodies": "edits in must-fail/",
        f"and a campaign {len([*ROOT.glob('crates/*/wrong/*.edit')])} more": "edits in wrong/",
        f"its {len(library)} crates": "crates of the library",
    }
    wrong = [f"{what}: README.md does not say '{words}'" for words, what in said.items() if words not in text]
    return "\n".join(wrong) or None


def cases(_program: None, _options: argparse.Namespace) -> Iterator[Case]:
    yield "docs/DEFINITIONS.md, which tests/support/definitions.py --write makes anew", definitions.difference()
    yield "docs/FAULTS.md, which tests/support/faults.py --write makes anew", faults.difference()
    yield "each fault of the crates and each status of the header has an entry in docs/FAULTS.md", faults.unexplained()
    yield "each fault of the crates is shown by its name", faults.misnamed()
    yield "what tests/support/proved.py refuses of a made-up file", proved.self_check()
    yield "docs/proved, which tests/support/proved.py --write makes anew", proved.difference()
    yield "which clauses that README.md cites are exact (tests/support/cited.py)", cited.difference()
    yield "that this is found where another is", cited.let_through()
    yield "wrong/tried.txt of the crates, which tests/edits --changed makes anew", edits.difference()
    yield "that this is found where something has changed", wrong_records.let_through()
    yield "the links of documents", links.broken()
    yield "the length of README.md", too_long()
    yield "docs/ARCHITECTURE.md, which tests/support/architecture.py --write makes anew", architecture.difference()
    yield "that a crate on a wrong shelf of crates.txt is found", architecture.let_through()
    yield "the numbers of README.md", miscounted()
    yield "which part runs each block of README.md (tests/support/readme.py)", readme.difference()
    yield "that this is found where none does", readme.let_through()
    yield "examples/latency.cpp, which README.md shows", readme.another_example()
    yield "the kits that README.md and docs/PROVED.md name (tests/support/kits.py)", kits.difference()
    yield "that this is found where they name others", kits.let_through()
    yield "the version, which the file VERSION has (tests/support/versions.py)", versions.difference()
    yield "that this is found where another one stands", versions.let_through()
    yield "crates.txt: no crate that reads depends on the machine (tests/support/layers.py)", layers.difference()
    yield "that this is found where one does", layers.let_through()
    yield "specs/: a name is defined by one file, but for a table of some (tests/support/names.py)", names.difference()
    yield "that this is found where one is not", names.let_through()
    yield from linted.cases()
