"""Memory that is refused: the program under ever larger limits of its data, until it needs no more.

For small images the C library is set to ask the system for each allocation by itself. So each limit refuses the first
allocation with which the program would have more than that, and each page more lets it come further.
"""

from __future__ import annotations

import argparse
import os
import pathlib
import random
import resource
import tempfile
from collections.abc import Iterator, Mapping, Sequence
from typing import Any

from parts import known, largest
from support.program import EXAMPLE, Answer, Case, Path, Word, answer, difference, fault

PROGRAM = "persist_report"
PAGE = resource.getpagesize()
MOST_TO_LOAD = 200
MOST_PAGES = 100_000
STEP = 100
THREAD_STEP = 40
NO_MEMORY, NO_THREAD = fault("NoMemory", 5), fault("NoThread", 5)
NOT_LOADED = 127
# What is in OUT before each command.
STOOD = b"what stood there before"
SCRIPT = b"segment,256,64,7\nhist,A,boolean\nhist,S,sparse\nadd,A,1,2\nadd,S,-5,1\nadd,A,0,1\ndelta,A\nadd,S,7,70000\n"
EACH_BY_ITSELF = {"MALLOC_MMAP_THRESHOLD_": "0", "MALLOC_TOP_PAD_": "0"}
COMMAND_LINES: list[list[Word]] = [
    ["report"],
    ["report", EXAMPLE],
    ["report", "no/such/file"],
    ["report", 5_000 * "a-long-path/"],
    ["report", 60_000 * b"\xff"],
    ["--help"],
    ["--version"],
    ["help", "report"],
    [],
    ["reports"],
    ["report", "one", "two"],
]


def answer_within(
    program: Path, pages: int, words: Sequence[Word], data: bytes = b"", setting: Mapping[str, str] = EACH_BY_ITSELF
) -> Answer:
    """What the program returns with at most this many pages of data."""
    limits = (PAGE * pages, PAGE * pages)
    limited: dict[str, Any] = {"preexec_fn": lambda: resource.setrlimit(resource.RLIMIT_DATA, limits)}
    return answer(program, words, data, env={**os.environ, **setting}, **limited)


def least_pages(program: Path) -> int:
    """The fewest pages with which the program is loaded and runs."""
    statuses = [answer_within(program, pages, ["--version"]).status for pages in range(MOST_TO_LOAD)]
    return max((pages + 1 for pages, status in enumerate(statuses) if status == NOT_LOADED), default=0)


def wrong_of(
    program: Path,
    words: Sequence[Word],
    data: bytes,
    pages: int,
    step: int,
    setting: Mapping[str, str],
    out: pathlib.Path | None = None,
) -> str | None:
    """What is wrong with the answers under limits that grow by `step` from these pages on, or None.

    Each has to be NoMemory until it is the one that the program gives with ample memory; and NoMemory has to come. If
    there is no memory to start a worker, it is NoThread. Before, `out` is unchanged, and nothing else is made beside
    it.
    """
    ample = answer(program, words, data)
    refused = 0
    if out is not None:
        out.write_bytes(STOOD)
        beside = set(out.parent.iterdir())
    came = answer_within(program, pages, words, data, setting)
    while came in (NO_MEMORY, NO_THREAD) and pages < MOST_PAGES:
        refused += came == NO_MEMORY
        if out is not None and (out.read_bytes() != STOOD or set(out.parent.iterdir()) != beside):
            return f"under {pages} pages of data, OUT is not as it was, or a file was left beside it"
        pages += step
        came = answer_within(program, pages, words, data, setting)
    if came != ample:
        return f"under {pages} pages of data, wanted NoMemory or the whole answer: {difference(ample, came)}"
    return None if refused else "wanted NoMemory under some limit, came none"


def longest_report() -> pathlib.Path:
    """The known image that has the longest report."""
    return max(known.FOLDER.glob("*.out"), key=lambda path: path.stat().st_size).with_suffix(".img")


def files(program: pathlib.Path, least: int) -> Iterator[Case]:
    """Commands that write a file."""
    with tempfile.TemporaryDirectory() as scratch:
        script, base, out = (pathlib.Path(scratch) / name for name in ("script", "base", "out"))
        script.write_bytes(SCRIPT)
        answer(program, ["run", script, base])
        commands: dict[str, list[Word]] = {
            "run": [script, out, "--workers", "3"],
            "resume": [base, script, out, "--workers", "3"],
            "merge": [EXAMPLE, EXAMPLE, out],
        }
        for name, words in commands.items():
            yield name, wrong_of(program, [name, *words], b"", least, THREAD_STEP, EACH_BY_ITSELF, out)


def cases(program: pathlib.Path, _options: argparse.Namespace) -> Iterator[Case]:
    least = least_pages(program)
    longest: list[Word] = ["report", longest_report()]
    for words in [*COMMAND_LINES, longest]:
        yield str(words)[:60], wrong_of(program, words, EXAMPLE.read_bytes(), least, 1, EACH_BY_ITSELF)
    for make in largest.IMAGES:
        image, _ = make(random.Random(5))
        yield f"the largest image of {make.__name__}", wrong_of(program, ["report"], image, least, STEP, {})
    yield from files(program, least)
