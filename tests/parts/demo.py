"""The first screen of README.md, as it is printed: the demo, and the commands that need nothing that was built before.

The demo is run in a copy of examples/ and c/, beside the crates. It prints what README.md shows, but for the numbers.
Those of its last start are the numbers in the file that the service leaves, what a plain reader counts in the folder,
and what `persist_report` reports of it. Then the service is started over a folder and a file that were changed: it
refuses one in which a confirmed sample is missing, one with a sample that was not begun, and one in which nothing was
counted since, and so does the line by which the Makefile starts and kills it.

Of the three commands after the demo the first, which needs no proof, is run by the second, `tests/quick`: its part
`first_look` takes it from README.md. The third is the gate.
"""

from __future__ import annotations

import argparse
import collections
import pathlib
import re
import shutil
import struct
import subprocess
import tempfile
from collections.abc import Iterator, Sequence

from support import native, plain_folders, plain_reader, readme
from support.program import ROOT, Answer, Case, answer

PROGRAM = "persist_report"
SOURCE = ROOT / "examples" / "cpp" / "demo.cpp"
MOST_LINES = 40
THREADS = 4
HISTOGRAM = b"gap_ns{service=demo}"
# How a shell says that a process was killed, maybe with more words, or not at all if it sees that too late; and what
# make says when it is passed a folder.
KILLED = "Killed"
FOLDERS = re.compile(r"^make(?:\[\d+\])?: (?:Entering|Leaving) directory .*\n", re.MULTILINE)
START = re.compile(r"^start (\d+): (\d+) samples confirmed <= (\d+) in the folder <= (\d+) begun$", re.MULTILINE)
# The same as README.md shows it, with numbers of some run, or with a letter for any number.
SHOWN_START = re.compile(r"start \d+: (?:\d+|N) samples confirmed <= (?:\d+|N) in the folder <= (?:\d+|N) begun")
# What the service keeps of itself: how often it called, how much was confirmed, its starts, and what was there at the
# last of them.
NOTES = struct.Struct("<4Q")
LOOKED = "first_look"
GATE = "bash .ci/run"
# A build without proofs and a run of it.
MOST_SECONDS = 1800


def pattern(lines: Sequence[str]) -> str:
    """The pattern of what README.md shows, of which some lines stand for any lines, and each number of a start for any
    number."""
    found = ""
    for line in lines:
        if line == readme.ANY_LINES:
            found += r"(?:.*\n)*"
        elif line == KILLED:
            found += rf"(?:.*{KILLED}.*\n)?"
        else:
            escaped = re.escape(line)
            found += (re.sub(r"\b(?:\d+|N)\b", r"\\d+", escaped) if SHOWN_START.fullmatch(line) else escaped) + r"\n"
    return found


def wrong_figures(text: str) -> str | None:
    """What is wrong between the numbers of the three starts in a text, or None."""
    starts = [tuple(map(int, numbers)) for numbers in START.findall(text)]
    if [number for number, *_ in starts] != [1, 2, 3]:
        return f"it has the starts {starts}"
    for number, confirmed, there, begun in starts:
        # A kill cuts off one call of each thread at most.
        if not confirmed <= there <= begun <= confirmed + THREADS * (number - 1):
            return f"start {number}: {confirmed}, {there}, {begun}"
    risen = starts[0][2] == 0 < starts[1][2] < starts[2][2]
    return None if risen else f"it did not count on: {starts}"


def counted(folder: pathlib.Path) -> int:
    """How many samples a plain reader counts in the segments of a recording's folder."""
    units = 0
    for file in folder.glob("*.seg"):
        image = plain_folders.looked(file.read_bytes())
        histograms = plain_reader.reading_of(image, collections.Counter())[0] if image is not None else {}
        if HISTOGRAM in histograms:
            units += sum(count for _, count in histograms[HISTOGRAM]["buckets"].values())
    return units


class Demo:
    """The demo, in a copy of what it is made of."""

    def __init__(self, folder: pathlib.Path) -> None:
        self.root = folder / "copy"
        self.root.mkdir()
        for path in ROOT.iterdir():
            if path.name not in ("c", "examples", ".git"):
                (self.root / path.name).symlink_to(path)
        native.run(["make", "-s", "-C", native.LIBRARY], seconds=native.MOST_SECONDS_TO_BUILD)
        shutil.copytree(ROOT / "c", self.root / "c")
        shutil.copytree(ROOT / "examples", self.root / "examples", ignore=shutil.ignore_patterns("out"))
        self.home = self.root / "examples" / "out"

    def run(self, command: str, folder: pathlib.Path | None = None) -> tuple[int, str]:
        """The status of a command in the copy, and what it prints on both streams."""
        done = subprocess.run(
            ["bash", "-c", command], cwd=folder or self.root, stdout=subprocess.PIPE, stderr=subprocess.STDOUT,
            text=True, timeout=native.MOST_SECONDS,
        )
        return done.returncode, done.stdout

    def show(self) -> Answer:
        return answer(self.home / "demo", ["show"], cwd=self.home)

    def notes(self) -> list[int]:
        return list(NOTES.unpack((self.home / "notes").read_bytes()))

    def write_notes(self, numbers: Sequence[int]) -> None:
        (self.home / "notes").write_bytes(NOTES.pack(*numbers))


def wrong_demo(demo: Demo) -> str | None:
    """What is wrong with the demo, or None."""
    first, *shown = readme.block(readme.DEMO)
    if not first.startswith(readme.PROMPT):
        return "README.md has no prompt before it"
    status, text = demo.run(first.removeprefix(readme.PROMPT))
    if status != 0:
        return f"status {status}: {text[-1500:]}"
    if re.fullmatch(pattern(shown), FOLDERS.sub("", text)) is None:
        return f"README.md shows something else than {text}"
    return wrong_figures(text)


def wrong_state(demo: Demo, program: pathlib.Path) -> str | None:
    """What is wrong with what the demo left, by other programs than itself, or None."""
    begun, confirmed, _, _ = demo.notes()
    there = counted(demo.home / "metrics")
    shown = START.match(demo.show().output.decode())
    if shown is None or [int(number) for number in shown.groups()] != [3, confirmed, there, begun]:
        return f"{confirmed} <= {there} <= {begun}, and the service says {shown and shown[0]}"
    report = answer(program, ["report", demo.home / "metrics"])
    units = re.search(rb"^%b,total,(\d+)," % re.escape(HISTOGRAM), report.output, re.MULTILINE)
    return None if units is not None and int(units[1]) == there else f"{there}, and not {report}"


def refused(demo: Demo) -> Iterator[Case]:
    """What the service has to refuse, each of which it takes as it was."""
    begun, confirmed, starts, before = as_it_was = demo.notes()
    there = counted(demo.home / "metrics")
    changed = {
        "a confirmed sample is missing": (begun + 1, there + 1, starts, before),
        "a sample was not begun": (there - 1, confirmed, starts, before),
        "nothing was counted since": (begun, confirmed, starts, there),
    }
    life = next(line for line in readme.block(readme.DEMO) if "kill -9" in line)
    for name, numbers in changed.items():
        demo.write_notes(numbers)
        came = demo.show()
        is_refused = came.status == 1 and b"\nWRONG: " in came.output
        yield f"refused: {name}", None if is_refused else f"it came {came}"
        status, text = demo.run(life, demo.root / "examples")
        yield f"refused by the Makefile's line: {name}", None if status != 0 else f"status 0: {text}"
    demo.write_notes(as_it_was)
    came = demo.show()
    yield "taken as it was", None if came.status == 0 else f"it came {came}"
    shutil.rmtree(demo.home / "metrics")
    came = demo.show()
    is_refused = came.status == 1 and b" <= 0 in the folder <= " in came.output and b"\nWRONG: " in came.output
    yield "refused: the folder is gone", None if is_refused else f"it came {came}"


def wrong_quick() -> str | None:
    """What is wrong with the commands after the demo, or None."""
    commands = [line.split(" # ")[0].strip() for line in readme.block(readme.TRIED)]
    if commands[1:] != [readme.TRIED, GATE] or not (ROOT / ".ci" / "run").is_file():
        return f"README.md has {commands}"
    done = subprocess.run(
        ["bash", "-c", f"{commands[1]} {LOOKED}"], cwd=ROOT, capture_output=True, text=True, timeout=MOST_SECONDS
    )
    lines = done.stdout.splitlines()
    is_right = done.returncode == 0 and lines[0].startswith("kit: ") and lines[-1] == "1 passed, 0 failed"
    return None if is_right else f"status {done.returncode}: {done.stdout[-2000:]}{done.stderr[-1000:]}"


def cases(program: pathlib.Path, _options: argparse.Namespace) -> Iterator[Case]:
    lines = len(SOURCE.read_text().splitlines())
    yield "the service is short", None if lines <= MOST_LINES else f"{lines} lines"
    with tempfile.TemporaryDirectory() as scratch:
        try:
            demo = Demo(pathlib.Path(scratch))
        except native.Failed as why:
            yield "the library", str(why)
            return
        wrong = wrong_demo(demo)
        yield "the demo of README.md", wrong
        if wrong is None:
            yield "what it left", wrong_state(demo, program)
            yield from refused(demo)
    yield "the commands after it", wrong_quick()
