"""The tasks of docs/COOKBOOK.md: each command there is run, and prints what is below it. And the example of README.md.

A block of the page is code, and the text before it names the file that has it, or commands, each after a `$`. They run
one after the other in a new folder, which has the examples, and c/ as it is; Python finds `python/povundiri`. What they
print, on both streams, is compared line by line; `[..]` stands for any lines. If there is no `sqlite3`, the commands
that need it are left out, and a line says so.

The command of README.md that shows an example prints the lines below it, among others. Which part runs each other
command of that page, tests/support/readme.py says.
"""

from __future__ import annotations

import argparse
import os
import pathlib
import re
import shutil
import subprocess
import tempfile
from collections.abc import Iterable, Iterator, Mapping, Sequence

from support import readme
from support.program import ROOT, Case, built
from support.readme import ANY_LINES, INDENT, PROMPT

PROGRAM = "persist_report"
STEPPED = "stepped"
PAGE = ROOT / "docs" / "COOKBOOK.md"
ENGINE = "sqlite3"
SECONDS = 120
# With fewer the page was not read as it should be.
LEAST_TASKS = 12


def blocks() -> Iterator[tuple[str, str, list[str]]]:
    """Each task's title, and the text before a block of it with the lines of the block."""
    for task in re.split(r"^## ", PAGE.read_text(), flags=re.MULTILINE)[1:]:
        title, _, rest = task.partition("\n")
        parts = re.split(rf"((?:^{INDENT}.*\n(?:\n(?={INDENT}))*)+)", rest, flags=re.MULTILINE)
        for before, block in zip(parts[::2], parts[1::2]):
            yield title, before, [line[len(INDENT):] for line in block.splitlines()]


def commands(block: Iterable[str]) -> list[tuple[str, list[str]]]:
    """Each command of a block, with the lines that it has to print."""
    found: list[tuple[str, list[str]]] = []
    for line in block:
        if line.startswith(PROMPT):
            found.append((line[len(PROMPT):], []))
        elif found[-1][0].endswith("\\"):
            found[-1] = (f"{found[-1][0]}\n{line}", [])
        else:
            found[-1][1].append(line)
    return found


def pattern(lines: Iterable[str]) -> str:
    """The pattern of these lines, of which some stand for any lines."""
    return "".join(r"(?:.*\n)*" if line == ANY_LINES else f"{re.escape(line)}\n" for line in lines)


def wrong_command(command: str, wanted: Sequence[str], folder: pathlib.Path, setting: Mapping[str, str]) -> str | None:
    """What is wrong with what a command prints, or with its status; or None."""
    came = subprocess.run(
        ["bash", "-c", command], cwd=folder, env=setting, stdout=subprocess.PIPE, stderr=subprocess.STDOUT,
        timeout=SECONDS,
    )
    text = came.stdout.decode()
    # One that shows a fault has failed, unless it says what comes then.
    fails = "||" not in command and any(line.startswith(f"{PROGRAM}: ") for line in wanted)
    if (came.returncode != 0) != fails:
        return f"status {came.returncode}: {text[:1000]!r}"
    return None if re.fullmatch(pattern(wanted), text) else f"wanted {wanted}, came {text[:1000]!r}"


def wrong_code(before: str, block: Iterable[str]) -> str | None:
    """What is wrong with a block of code that is taken from a file, or None."""
    named = re.search(r"From\s`([^`]+)`", before)
    if named is None:
        return "no file is named that has this code"
    lines = [line.strip() for line in (ROOT / named[1]).read_text().splitlines()]
    wanted = [line.strip() for line in block]
    if not any(lines[at:at + len(wanted)] == wanted for at in range(len(lines))):
        return f"{named[1]} does not have these lines"
    return None


def wrong_in_readme(folder: pathlib.Path, setting: Mapping[str, str]) -> str | None:
    """What is wrong with the command of README.md that shows an example, or None."""
    command, *shown = readme.block(readme.SHOWN)
    came = subprocess.run(["bash", "-c", command], cwd=folder, env=setting, capture_output=True, timeout=SECONDS)
    if came.returncode != 0:
        return f"status {came.returncode}: {came.stderr[:1000]!r}"
    lines = iter([line.strip() for line in came.stdout.decode().splitlines()])
    missing = [line for line in shown if line.strip() not in lines]
    return f"not printed, or not in this order: {missing}" if missing or not shown else None


def cases(program: pathlib.Path, _options: argparse.Namespace) -> Iterator[Case]:
    folders = [str(path.parent) for path in (program, built(STEPPED))]
    setting = {**os.environ, "PATH": os.pathsep.join([*folders, os.environ["PATH"]]), "LC_ALL": "C.UTF-8"}
    setting.update(PYTHONPATH=str(ROOT / "python"), PYTHONDONTWRITEBYTECODE="1")
    has_engine = shutil.which(ENGINE) is not None
    if not has_engine:
        print(f"cookbook: no {ENGINE} here, so what asks for it was left out")
    titles = set()
    with tempfile.TemporaryDirectory() as scratch:
        folder = pathlib.Path(scratch)
        shutil.copytree(ROOT / "examples", folder / "examples", ignore=shutil.ignore_patterns("out"))
        (folder / "c").symlink_to(ROOT / "c")
        for title, before, block in blocks():
            titles.add(title)
            if not block[0].startswith(PROMPT):
                yield title, wrong_code(before, block)
                continue
            for command, wanted in commands(block):
                if has_engine or not command.startswith(ENGINE):
                    yield f"{title}: {command}", wrong_command(command, wanted, folder, setting)
    yield "the tasks", None if len(titles) >= LEAST_TASKS else f"only {len(titles)}"
    with tempfile.TemporaryDirectory() as scratch:
        folder = pathlib.Path(scratch)
        shutil.copytree(ROOT / "examples", folder / "examples")
        yield "README.md", wrong_in_readme(folder, setting)
