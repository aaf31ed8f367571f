"""A program under test: what it returns, and how that differs from what was wanted."""

from __future__ import annotations

import argparse
import dataclasses
import pathlib
import subprocess
from collections.abc import Iterable
from typing import Any, Optional, Union

from support import faults

ROOT = pathlib.Path(__file__).resolve().parents[2]
EXAMPLE = ROOT / "examples" / "three_samples.img"
SCRIPT = ROOT / "examples" / "three_samples.csv"
# Other parts run beside one, on a machine of whatever speed.
MOST_SECONDS = 300
UNTRIED = "what can't be tried here"

Path = Union[str, pathlib.Path]
# A word of a command line.
Word = Union[str, bytes, pathlib.Path]
# The name of a case, and what is wrong with it or None.
Case = tuple[str, Optional[str]]


@dataclasses.dataclass
class Answer:
    """What a program wrote to its two streams, and its status (of a signal, the number with a minus)."""

    output: bytes = b""
    error: bytes = b""
    status: int = 0


def built(name: str) -> pathlib.Path:
    """Where 'rt ci' leaves the program of this name, or 'rt run' in its crate."""
    return ROOT / "crates" / name / "out" / name


def fault(text: str, status: int) -> Answer:
    """The answer that reports a fault: one line on the error stream and nothing else."""
    return Answer(error=f"persist_report: {text}\n".encode(), status=status)


def explained(text: str, status: int, lines: Iterable[str]) -> Answer:
    """The answer that reports a fault, then these lines, and then what it means and what to do."""
    meant = {name: (meaning, remedy) for name, meaning, remedy in faults.texts()}
    name = next(word for word in reversed(text.split()) if word in meant)
    return Answer(
        error="".join(
            f"{line}\n" for line in (f"persist_report: {text}", *(f"  {more}" for more in (*lines, *meant[name])))
        ).encode(),
        status=status,
    )


def answer(program: Path, words: Iterable[Word], data: bytes = b"", **settings: Any) -> Answer:
    """What the program returns to these words; `data` is its standard input, unless the settings name another."""
    given: dict[str, Any] = {"input": data} if "stdin" not in settings else {}
    streams: dict[str, Any] = {"stdout": subprocess.PIPE, "stderr": subprocess.PIPE, **given, **settings}
    try:
        done = subprocess.run([program, *words], timeout=MOST_SECONDS, **streams)
    except subprocess.TimeoutExpired:
        return Answer(error=f"(no end within {MOST_SECONDS} seconds)".encode(), status=-1)
    return Answer(done.stdout or b"", done.stderr or b"", done.returncode)


def untried(why: str, options: argparse.Namespace) -> Case:
    """The case of what can't be tried on this machine: it fails, unless the options allow that."""
    print(f"NOT TRIED: {why}", flush=True)
    return UNTRIED, None if options.allow_untried else f"{why}; --allow-untried leaves it out"


def content(path: pathlib.Path) -> bytes | None:
    """The bytes of a file; None if there is none."""
    return path.read_bytes() if path.is_file() else None


def difference(wanted: Answer, came: Answer) -> str | None:
    """What was wanted and what came, where two answers differ first; None if they are the same."""
    if came.status != wanted.status:
        return f"wanted status {wanted.status}, came {came.status} with {came.error[:200]!r} on the error stream"
    for stream in ("error", "output"):
        right, given = getattr(wanted, stream).splitlines(True), getattr(came, stream).splitlines(True)
        for number in range(max(len(right), len(given))):
            lines = [repr(one[number]) if number < len(one) else "no more" for one in (right, given)]
            if lines[0] != lines[1]:
                return f"line {number + 1} of the {stream}: wanted {lines[0]}, came {lines[1]}"
    return None
