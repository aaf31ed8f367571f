"""Compares what two programs do with command lines, and judges the whole."""

from __future__ import annotations

import collections
import concurrent.futures
import contextlib
import dataclasses
import difflib
import pathlib
import re
import shutil
import tempfile
from collections.abc import Collection, Iterator, Sequence
from typing import Optional

from by_hand import lines, rooms, runs
from by_hand.lines import Class, Line
from by_hand.runs import File, Outcome

Programs = tuple[pathlib.Path, pathlib.Path]
MOST_SHOWN = 20
# Lines with rounds wait most of the time.
WAITING = 4
# Where a fault is named: in a line of the error stream before what it is of, and in a report.
REPORTED = re.compile(rb"^persist_report: ([^:\n]*)", re.MULTILINE)
IN_TEXT = re.compile(rb"^!(?:bad,\d+|stopped),(\w+)$", re.MULTILINE)


@dataclasses.dataclass
class Result:
    """What the runs of a line had: the status of OLD, whether it wrote to each stream and changed the folder, the
    faults that it named, and how NEW differs, or None."""

    line: Line
    status: Optional[int]
    wrote: tuple[bool, bool, bool]
    faults: frozenset[str]
    difference: Optional[str]


def lines_of(text: bytes) -> list[str]:
    """The lines of some bytes, with what is not printable written by its number."""
    return [line.decode(errors="backslashreplace") for line in text.split(b"\n")]


def differs(name: str, old: bytes, new: bytes) -> Iterator[str]:
    """How two texts differ, in lines."""
    if old != new:
        yield from difflib.unified_diff(lines_of(old), lines_of(new), f"OLD, {name}", f"NEW, {name}", lineterm="", n=1)
        yield f"({name}: {len(old)} bytes of OLD, {len(new)} of NEW)"


def differing_files(old: dict[str, File], new: dict[str, File]) -> Iterator[str]:
    """How two folders differ, in lines."""
    for path in sorted({*old, *new}):
        one, other = old.get(path), new.get(path)
        if one is None or other is None:
            yield f"{path!r} is there after {'NEW' if one is None else 'OLD'} alone"
        elif one != other:
            said = [f"{file.kind}, {file.mode:o}, {'old' if file.is_old else 'new'}" for file in (one, other)]
            yield f"{path!r}: {said[0]} after OLD, {said[1]} after NEW"
            yield from differs(repr(path), one.content, other.content)


def difference(old: Outcome, new: Outcome) -> Optional[str]:
    """How two outcomes differ, or None. What did not end differs from everything."""
    found = [f"status {old.status} of OLD, {new.status} of NEW"] if old.status != new.status else []
    found += [f"{name} did not end" for name, one in (("OLD", old), ("NEW", new)) if one.status is None]
    found += differs("standard output", old.output, new.output)
    found += differs("error stream", old.error, new.error)
    found += differing_files(old.files, new.files)
    return "\n".join(found) or None


def faults_in(outcome: Outcome, names: Collection[str]) -> frozenset[str]:
    """Which of these faults an outcome names."""
    words = [word for found in REPORTED.findall(outcome.error) for word in found.split(b" ")]
    said = {word.decode(errors="replace") for word in [*words, *IN_TEXT.findall(outcome.output)]}
    return frozenset(said & {*names})


def compared(programs: Programs, line: Line, folder: pathlib.Path, contents: rooms.Contents) -> Result:
    """Runs a line by both programs, one after the other, in a folder of this path."""
    old, new = (runs.run(program, line, folder, contents) for program in programs)
    shutil.rmtree(folder)
    has_changed = any(not file.is_old for file in old.files.values())
    wrote = (old.output != b"", old.error != b"", has_changed)
    return Result(line, old.status, wrote, faults_in(old, lines.fault_names()), difference(old, new))


def run_all(programs: Programs, chosen: Sequence[Line], jobs: int) -> list[Result]:
    """Runs lines by both programs, side by side: what came of each, in their order."""
    contents = rooms.contents(programs[0])
    with contextlib.ExitStack() as held:
        scratch = pathlib.Path(held.enter_context(tempfile.TemporaryDirectory()))
        pool, waiting = (
            held.enter_context(concurrent.futures.ThreadPoolExecutor(count)) for count in (jobs, WAITING * jobs)
        )
        begun = [
            (waiting if line.has_rounds else pool).submit(compared, programs, line, scratch / f"{place:05}", contents)
            for place, line in enumerate(chosen)
        ]
    return [one.result() for one in begun]


def occurred(results: Sequence[Result]) -> set[Class]:
    """The classes of which a line ended with their status."""
    return {
        one
        for result in results
        for one in result.line.classes
        if one.status is None or one.status == result.status
    }


def missing(results: Sequence[Result]) -> list[str]:
    """The classes that did not occur."""
    classes = [one for one in sorted(lines.classes(), key=str) if one not in occurred(results)]
    named = {fault for result in results for fault in result.faults}
    return [
        *(f"{one.kind} {one.name}" + ("" if one.status is None else f" with status {one.status}") for one in classes),
        *(f"fault {name}" for name in sorted(lines.fault_names() - named)),
    ]


def summary(results: Sequence[Result]) -> Iterator[str]:
    """What was run, in lines."""
    kinds = collections.Counter(one.name for result in results for one in result.line.classes if one.kind == "group")
    yield f"{len(results)} lines: {', '.join(f'{number} of {name}' for name, number in kinds.items())}"
    statuses = collections.Counter(str(result.status) for result in results)
    yield f"{', '.join(f'{number} with status {name}' for name, number in sorted(statuses.items()))}"
    output, error, folder = (sum(result.wrote[place] for result in results) for place in range(3))
    yield f"{output} wrote to standard output, {error} to the error stream, {folder} made or replaced a file"
    yield f"{len({fault for result in results for fault in result.faults})} faults were named"


def shown_differences(results: Sequence[Result]) -> Iterator[str]:
    """Each difference, the first of them whole."""
    different = [result for result in results if result.difference is not None]
    for result in different[:MOST_SHOWN]:
        yield f"\n== {result.line.name}\n{result.difference}"
    yield from (f"differs too: {result.line.name}" for result in different[MOST_SHOWN:])


def judged(results: Sequence[Result], meant: Collection[str], is_whole: bool) -> list[str]:
    """What is wrong with a comparison, in lines."""
    different = {result.line.name for result in results if result.difference is not None}
    wrong = [f"lines differ that are not meant to: {len(different - {*meant})}"] if different - {*meant} else []
    run_lines = {result.line.name for result in results}
    wrong += [f"it is meant to differ, and does not: {name}" for name in sorted(run_lines & {*meant} - different)]
    return wrong + ([f"did not occur: {name}" for name in missing(results)] if is_whole else [])
