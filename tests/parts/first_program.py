"""The program of docs/USING.md, in a repository of its own: it is proved there, and prints what it has to.

All of it is taken from the page: the commands that copy the libraries, and each file, which is a block after a line
that names it. `rt run` proves the program and builds it. The libraries are copied with the proofs that the gate has
made, and are proved first if there are none. Then the program is run twice in one folder: the first run prints what
`stdout` has, and the second continues in the image of the first.

The calls that the page begins with and those in the README of live_segment are run too, as functions of a program, by
`rt try`.
"""

from __future__ import annotations

import argparse
import os
import pathlib
import re
import subprocess
import tempfile
from collections.abc import Iterator, Mapping

from support.program import ROOT, Answer, Case, answer, difference

PROGRAM = None
NAME = "first_program"
PAGE = ROOT / "docs" / "USING.md"
# The folder of this repository, as the page names it, and the folder of the program there.
CLONE = "povundiri"
HOME = pathlib.Path("crates") / NAME
CRATES = "crates.txt"
# The pages that show calls, each in its first block that has this one, and the crate that is made of them.
FIRST_CALL = "Segment::create("
SHOWING = {"of_page": PAGE, "of_crate": ROOT / "crates" / "live_segment" / "README.md"}
SHOWN = "shown_lines"
INDENT = "    "
# A paragraph, and the block after it.
BLOCK = re.compile(rf"((?:^(?!{INDENT}).+\n)+)\n((?:^{INDENT}.*\n(?:\n(?={INDENT}))*)+)", re.MULTILINE)
FILE = re.compile(rf"`({HOME}/[\w./]+)`")
MOST_SHOWN = 3000


def blocks(page: pathlib.Path) -> Iterator[tuple[str, str]]:
    """Each block of a page, after its paragraph."""
    for before, block in BLOCK.findall(page.read_text()):
        yield before, "".join(f"{line.removeprefix(INDENT)}\n" for line in block.splitlines())


def files() -> dict[pathlib.Path, str]:
    """What the page has of each file, by its path in the repository."""
    named = ((FILE.match(before), block) for before, block in blocks(PAGE))
    return {pathlib.Path(found[1]): block for found, block in named if found is not None}


def commands() -> str | None:
    """The commands of the page that copy the libraries."""
    return next((block for _, block in blocks(PAGE) if f">> {CRATES}" in block), None)


def second_run() -> str:
    """The lines that the page says are in what the second run prints."""
    return next((block for before, block in blocks(PAGE) if before.startswith("Run it twice")), "")


def wrong_counts(found: Mapping[pathlib.Path, str]) -> str | None:
    """What is wrong with the numbers that the page gives of the program, or None."""
    source = found.get(HOME / "src" / "main.rt", "")
    clauses = len(re.findall(r"^ *(?:requires|ensures) ", source, re.MULTILINE))
    proof = sum(len(text.splitlines()) for path, text in found.items() if "proofs" in path.parts)
    numbers = f"{len(source.splitlines())} lines, {clauses} clauses and {proof} lines of proof"
    return None if numbers in " ".join(PAGE.read_text().split()) else f"it has {numbers}"


def make_repository(folder: pathlib.Path, found: Mapping[pathlib.Path, str]) -> str | None:
    """A repository with the program and the libraries: what is wrong with the commands, or None."""
    (folder / CLONE).symlink_to(ROOT)
    repository = folder / "repository"
    repository.mkdir()
    setting = {**os.environ, "HOME": str(folder)}
    words = ["bash", "-e", "-c", commands() or ""]
    done = subprocess.run(words, cwd=repository, env=setting, capture_output=True, text=True)
    if done.returncode != 0 or done.stderr:
        return f"status {done.returncode}: {done.stderr}"
    for path, text in found.items():
        (repository / path).parent.mkdir(parents=True, exist_ok=True)
        (repository / path).write_text(text)
    return None


def wrong_proof(home: pathlib.Path) -> str | None:
    """What is wrong when the program is proved and built, or None."""
    came = subprocess.run(["rt", "run"], cwd=home, capture_output=True, text=True)
    if came.returncode != 0:
        return f"status {came.returncode}\n{(came.stdout + came.stderr)[-MOST_SHOWN:]}"
    return None


def wrong_runs(program: pathlib.Path, folder: pathlib.Path, first: str) -> str | None:
    """What is wrong with two runs in one folder, or None: the second counts as much again, whatever the order of its
    threads."""
    folder.mkdir()
    if wrong := difference(Answer(first.encode()), answer(program, [], cwd=folder)):
        return wrong
    came = answer(program, [], cwd=folder)
    wanted = [doubled(line) for line in first.splitlines()]
    missing = [line for line in second_run().splitlines() if line not in wanted]
    if missing or not second_run():
        return f"the page says of the second run: {missing}"
    return difference(Answer("".join(f"{line}\n" for line in wanted).encode()), came)


def doubled(line: str) -> str:
    """A line of a report of twice as many samples."""
    name, kind, *numbers = line.split(",")
    bounds = [] if kind == "total" else numbers[:2]
    counts = [str(2 * int(number)) for number in numbers[len(bounds):]]
    return ",".join([name, kind, *bounds, *counts])


def shown_lines() -> str:
    """The lines in Rattle that pages show, each page's as a function of a program."""
    uses, functions = ["use anyhow::Result;", "use std::alloc::Global;"], ""
    for name, page in SHOWING.items():
        lines = next(block for _, block in blocks(page) if FIRST_CALL in block).splitlines()
        uses += [line for line in lines if line.startswith("use ") and line not in uses]
        body = "".join(f"    {line}\n" for line in lines if line and not line.startswith("use "))
        functions += f"fn {name}(alloc: Global) -> Result<()> {{\n{body}    Ok(())\n}}\n\n"
    calls = "".join(f"    {name}(rt.alloc())?;\n" for name in SHOWING)
    head = "\n".join(["#![tactic(auto)]", "", *uses])
    return f"{head}\n\n{functions}fn main(rt: HostRuntime) -> Result<()> {{\n{calls}    Ok(())\n}}\n"


def wrong_lines(repository: pathlib.Path) -> str | None:
    """What is wrong with these lines, or None."""
    home = repository / "crates" / SHOWN
    (home / "src").mkdir(parents=True)
    (home / "src" / "main.rt").write_text(shown_lines())
    with (repository / CRATES).open("a") as lines:
        lines.write(f"{SHOWN}: live_segment anyhow\n")
    came = subprocess.run(["rt", "try"], cwd=home, capture_output=True, text=True)
    return None if came.returncode == 0 else f"status {came.returncode}\n{(came.stdout + came.stderr)[-MOST_SHOWN:]}"


def cases(_program: None, _options: argparse.Namespace) -> Iterator[Case]:
    found = files()
    has_all = HOME / "src" / "main.rt" in found and HOME / "stdout" in found
    yield "the files on the page", None if has_all else f"it has {sorted(found)}"
    yield "the commands on the page", None if commands() is not None else f"none writes {CRATES}"
    yield "the numbers on the page", wrong_counts(found)
    with tempfile.TemporaryDirectory() as scratch:
        folder = pathlib.Path(scratch).resolve()
        yield "the libraries are copied", make_repository(folder, found)
        repository = folder / "repository"
        yield "proved and built", wrong_proof(repository / HOME)
        yield "run twice", wrong_runs(repository / HOME / "out" / NAME, folder / "twice", found[HOME / "stdout"])
        yield "the calls of pages", wrong_lines(repository)
