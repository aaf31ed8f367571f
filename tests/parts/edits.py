"""One of the wrong bodies that the gate does not try each time, over what this gate has proved: the edits of
crates/NAME/wrong/. The commit's hash says which. Only the function that refused it is checked, and those that it calls,
so the same goal has to stay open; `tests/edits` tries each edit by a check of its whole crate."""

from __future__ import annotations

import argparse
import hashlib
import pathlib
import subprocess
from collections.abc import Iterator

from support import edits, lanes, toolchain, trying
from support.program import ROOT, Case

PROGRAM = None


def number() -> int:
    """The number that chooses: the commit's hash, or in a tree without git the sum of what was tried."""
    done = subprocess.run(["git", "rev-parse", "HEAD"], cwd=ROOT, capture_output=True, text=True)
    if done.returncode == 0:
        return int(done.stdout, 16)
    sums = "".join(edits.recorded(crate).sum for crate in edits.crates())
    return int(hashlib.sha256(sums.encode()).hexdigest(), 16)


def chosen() -> tuple[str, pathlib.Path]:
    """The crate and its edit."""
    listed = [(crate, edit) for crate in edits.crates() for edit in edits.edits_of(crate)]
    return listed[number() % len(listed)]


def wrong(name: str, edit: pathlib.Path) -> str | None:
    """What is wrong with the edit, if the goal that refused it does not stay open."""
    tried = edits.recorded(name).edits.get(edit.name)
    if tried is None:
        return f"tests/edits --changed {name} has to try it first"
    kit = trying.Kit()
    crate = next(crate for crate in toolchain.crates(str(ROOT / "crates" / name)) if crate.name == name)
    for library in crate.below():
        if not library.is_built() and (said := trying.built(library)) is not None:
            return f"{said}{library.name} is not proved"
    came = kit.tried_alone(crate, edit, tried.function, lanes.lanes())
    if came.tried is None or came.tried.function != tried.function:
        return f"{tried.function} {tried.goal} refused it, and now: {came.tried}\n{kit.said[name][-3000:]}"
    return None


def cases(_program: None, _options: argparse.Namespace) -> Iterator[Case]:
    crate, edit = chosen()
    yield f"crates/{crate}/wrong/{edit.name}", wrong(crate, edit)
