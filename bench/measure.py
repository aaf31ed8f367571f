"""Runs of a program over an image: what it returns, what memory it takes, and how long it needs."""

from __future__ import annotations

import dataclasses
import pathlib
import subprocess
import sys
import threading
import time
import zlib
from collections.abc import Iterable, Sequence

from images import Image

HERE = pathlib.Path(__file__).resolve().parent
PIECE = 2**20
LEAST_TURNS = 3


@dataclasses.dataclass
class Answer:
    """How many bytes a program wrote and their checksum, its error stream, its status and its most memory in MiB."""

    length: int
    checksum: int
    error: str
    status: int
    peak: float

    def is_report(self, image: Image) -> bool:
        """Whether this is the report of the image and nothing else."""
        return (self.length, self.checksum, self.error, self.status) == (*summary(image.report()), "", 0)

    def is_refused(self) -> bool:
        """Whether this says that there was no memory, and nothing else."""
        return (self.length, self.error, self.status) == (0, "persist_report: NoMemory\n", 5)


def summary(pieces: Iterable[bytes]) -> tuple[int, int]:
    """The length and the checksum of bytes that come in pieces."""
    length = checksum = 0
    for piece in pieces:
        length += len(piece)
        checksum = zlib.crc32(piece, checksum)
    return length, checksum


def answered(program: pathlib.Path, path: pathlib.Path, gibibytes: float) -> Answer:
    """What the program returns to 'report PATH' with at most this much memory."""
    command: list[str | pathlib.Path] = [sys.executable, HERE / "peak.py", str(gibibytes), program, "report", path]
    with subprocess.Popen(command, stdout=subprocess.PIPE, stderr=subprocess.PIPE) as running:
        assert running.stdout is not None and running.stderr is not None
        output, error = running.stdout, running.stderr
        errors: list[bytes] = []
        taking = threading.Thread(target=lambda: errors.append(error.read()))
        taking.start()
        length, checksum = summary(iter(lambda: output.read(PIECE), b""))
        taking.join()
    *before, last = errors[0].decode(errors="replace").splitlines(keepends=True)
    status, kibibytes = map(int, last.split())
    return Answer(length, checksum, "".join(before), status, kibibytes / 1024)


def seconds_of(program: pathlib.Path, path: pathlib.Path) -> float:
    start = time.perf_counter()
    subprocess.run([program, "report", path], stdout=subprocess.DEVNULL, check=True)
    return time.perf_counter() - start


def best_by_turns(runs: Sequence[tuple[pathlib.Path, pathlib.Path]], most_seconds: float) -> list[float]:
    """The best time of each of some runs, which are pairs of program and image, by turns: three of them at least."""
    best = [float("inf")] * len(runs)
    turns, end = 0, time.perf_counter() + most_seconds
    while turns < LEAST_TURNS or time.perf_counter() < end:
        best = [min(before, seconds_of(*run)) for before, run in zip(best, runs)]
        turns += 1
    return best
