"""What a killed program may have left: of each bucket at least the units that it had ended, and at most those that it
had begun.

The program is `tests/c/killed.cpp`, and the file into which it writes both is that of `tests/c/tally.hpp`.
"""

from __future__ import annotations

import collections
import pathlib
import random
import struct
import time

from support.layout import MOST_PACKED

THREADS = 4
LINEAR_LOWS = (0, 1, 126, 251, 376, 501, 625, 750, 875, 1000)
CELLS = [
    *(("boolean", low) for low in (0, 1, 2)),
    *(("linear", low) for low in LINEAR_LOWS),
    *(("custom", low) for low in (0, 10, 100, 1000)),
    *(("sparse", low) for low in range(-64, 64)),
    *((f"made_{number}", 1) for number in range(111)),
    *((f"own_{thread}", low) for thread in range(THREADS) for low in (0, 1, 2)),
]
# A histogram and the least value of a bucket, and how many units each has.
Cell = tuple[str, int]
Units = collections.Counter[Cell]
BYTES = THREADS * len(CELLS) * 16
# The shapes of its segments, and how long it lives at most, in seconds.
SHAPES = ((65_536, 4096), (8192, 1024), (4096, 512), (2048, 512))
LIVES = (0.001, 0.005, 0.02, 0.06)


class Runs:
    """Runs of the program, each of which continues with what the one before left: `before` has the units of that."""

    def __init__(self, killed: pathlib.Path, program: pathlib.Path, chance: random.Random, version: int) -> None:
        self.killed, self.program, self.chance, self.version = killed, program, chance, version
        self.shape = chance.choice(SHAPES)
        self.before: Units = collections.Counter()

    def words(self, where: str, file: pathlib.Path, tally: pathlib.Path) -> list[str]:
        """The words of a run, which begins with an empty tally."""
        tally.write_bytes(bytes(BYTES))
        words = [self.killed, where, file, tally, self.chance.getrandbits(31), self.version, *self.shape]
        return [str(word) for word in words]

    def live(self) -> None:
        """Lets it live for a moment."""
        time.sleep(self.chance.uniform(0, self.chance.choice(LIVES)))


def numbers(data: bytes) -> tuple[Units, Units]:
    """Of each cell what all threads began, and what they ended."""
    begun: Units = collections.Counter()
    ended: Units = collections.Counter()
    for place, (more, fewer) in enumerate(struct.iter_unpack("<QQ", data)):
        cell = CELLS[place % len(CELLS)]
        begun[cell] += more
        ended[cell] += fewer
    return begun, ended


def units_of(report: bytes) -> tuple[Units, list[str]]:
    """The units of each bucket that a report has, and its lines of faults."""
    units: Units = collections.Counter()
    faults: list[str] = []
    for line in report.decode().splitlines():
        fields = line.split(",")
        if fields[0] in ("!bad", "!stopped") or line == "!flag,corrupt":
            faults.append(line)
        elif fields[0][0] != "!" and fields[1] != "total":
            units[(fields[0], int(fields[2]))] = int(fields[4])
    return units, faults


def short_of(units: Units, least: Units, version: int) -> list[Cell]:
    """The buckets that have too few units. In version 1 one of each histogram with buckets may lack those that were
    being moved."""
    short = [cell for cell in least if units[cell] < least[cell]]
    if version == 2:
        return short
    names = collections.Counter(name for name, _ in short)
    return [
        cell for cell in short if cell[0] == "sparse" or names[cell[0]] > 1 or least[cell] - units[cell] > MOST_PACKED
    ]


def wrong_of(units: Units, faults: list[str], before: Units, data: bytes, version: int) -> str | None:
    """What is wrong with the units of a report, by those that were there before and what the threads wrote into the
    tally; or None."""
    return wrong_between(units, faults, before, data, data, version)


def wrong_between(
    units: Units, faults: list[str], before: Units, first: bytes, last: bytes, version: int
) -> str | None:
    """The same of words that were read between two moments, with the tally at the first and at the last."""
    if faults:
        return f"the report has {faults[:3]}"
    begun, ended = numbers(last)[0], numbers(first)[1]
    for cell in units:
        if units[cell] > before[cell] + begun[cell]:
            return f"{cell} has {units[cell]} units, and {before[cell]} + {begun[cell]} were begun"
    for cell in short_of(units, before + ended, version):
        return f"{cell} has {units[cell]} units, and {before[cell]} + {ended[cell]} had ended"
    return None
