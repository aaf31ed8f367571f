"""Segments in memory that a parent makes and children record into.

`tests/c/shared.c` is a parent with children that are executed: what is made, opened and refused, also when any of its
calls to the system or its allocations fails, and when it is killed there. `shared.cpp` is the same from C++, with
several memories that are counted in one after the other. In `sandboxed.cpp` children record under a filter of system
calls.

Then a parent (`keeper.cpp`) keeps memory for children (`killed.cpp`) of four threads, which note in a second shared
file what they have begun and ended, and looks at them until each is killed, at a random moment. By a plain reader, each
look and what is left in the memory have of each bucket at most what was begun and at least what had ended, and no less
than the look before. The next child continues in the same memory.
"""

from __future__ import annotations

import argparse
import collections
import pathlib
import random
import subprocess
import tempfile
from collections.abc import Callable, Iterator

from support import bounds, native, plain_reader
from support.program import Case

PROGRAM = None
# The sources of `c/` that are compiled for shared.c, and the calls to the system that come to it.
LAYERS = ("povundiri.c", "povundiri_file.c", "povundiri_look.c", "povundiri_shared.c")
REPLACED = (
    "memfd_create", "getrandom", "fcntl", "open", "fstat", "fstatat", "flock", "posix_fallocate", "mmap", "madvise",
    "malloc", "calloc",
)
NO_EXCEPTIONS = "-fno-exceptions"
SETTING = {"ASAN_OPTIONS": "detect_leaks=1"}
VERSION, CURSORS = 2, 1
# How many children have one memory, one after the other, and how many looks each has at most.
CHAIN, LOOKS = 10, 3
# Of so many kills some have to be amid a call, and some to leave units that no look had.
ENOUGH = 50


class Kept(bounds.Runs):
    """Children in one memory, each of which is killed."""

    def __init__(
        self, killed: pathlib.Path, keeper: pathlib.Path, folder: pathlib.Path, chance: random.Random
    ) -> None:
        super().__init__(killed, killed, chance, VERSION)
        self.keeper, self.tally, self.image = keeper, folder / "tally", folder / "image"
        self.met: collections.Counter[str] = collections.Counter()
        # The units of the last look.
        self.last: bounds.Units = collections.Counter()

    def read(self) -> tuple[bounds.Units, list[str]]:
        """What the image reads as, by the plain reader."""
        output, error, status = plain_reader.answer(self.image.read_bytes())
        if status != 0:
            raise native.Failed(f"the image reads as {error!r}")
        self.met["full"] += b"!flag,full\n" in output
        return bounds.units_of(output)

    def wrong(self, command: str, tell: Callable[[str], None]) -> str | None:
        """What is wrong with a look, or with the words as they are; or None."""
        first = self.tally.read_bytes()
        tell(f"{command} {self.image}")
        last = self.tally.read_bytes()
        units, faults = self.read()
        wrong = bounds.wrong_between(units, faults, self.before, first, last, VERSION)
        fallen = [cell for cell in self.last if units[cell] < self.last[cell]]
        if wrong is None and fallen:
            wrong = f"{fallen[0]} has {units[fallen[0]]} units, and {self.last[fallen[0]]} in the look before"
        self.met[command] += 1
        self.met["unseen"] += command == "words" and units != self.last
        self.last = units
        return f"{command}: {wrong}" if wrong else None

    def life(self, tell: Callable[[str], None]) -> str | None:
        """A child, from its start to its end: what is wrong with the looks at it and what it left, or None."""
        tell(" ".join(["run", *self.words("shared", pathlib.Path("@"), self.tally)]))
        wrongs = []
        for _ in range(self.chance.randint(0, LOOKS)):
            self.live()
            wrongs.append(self.wrong("look", tell))
        self.live()
        tell("kill")
        begun, ended = bounds.numbers(self.tally.read_bytes())
        self.met["amid a call"] += begun != ended
        self.met["before it counted"] += not begun
        # The words as they are, in which each unit is; and what the parent's last look has of them.
        wrongs += [self.wrong("words", tell), self.same_look(tell)]
        self.met["units"] += sum(self.last.values()) - sum(self.before.values())
        self.before = self.last
        return next((wrong for wrong in wrongs if wrong is not None), None)

    def same_look(self, tell: Callable[[str], None]) -> str | None:
        """What is wrong with a look at what was left, which has to read as the words as they are; or None."""
        tell(f"look {self.image}")
        return None if self.read() == (self.last, []) else "the last look has other units than the words have"

    def run(self, kills: int) -> str | None:
        """What is wrong after one of a number of kills in one memory, or None."""
        words = [str(word) for word in (self.keeper, *self.shape, CURSORS)]
        with subprocess.Popen(
            words, stdin=subprocess.PIPE, stdout=subprocess.PIPE, stderr=subprocess.PIPE, text=True
        ) as running:
            wrong = self.told(running, kills)
            _, said = running.communicate()
        if wrong is None and (said or running.returncode != 0):
            wrong = f"status {running.returncode}"
        return f"{wrong}; {said}" if wrong is not None else None

    def told(self, running: subprocess.Popen[str], kills: int) -> str | None:
        """What is wrong after one of the kills that the keeper is told, or None."""

        def tell(line: str) -> None:
            assert running.stdin is not None and running.stdout is not None
            print(line, file=running.stdin, flush=True)
            said = running.stdout.readline()
            if said != "done\n":
                raise native.Failed(f"{line}: {said!r}")

        for number in range(kills):
            try:
                wrong = self.life(tell)
            except (OSError, native.Failed) as why:
                wrong = str(why)
            if wrong is not None:
                return f"kill {number + 1} of {kills}, {self.shape[0]} words: {wrong}"
        return None


def killed_often(
    installed: native.Installed, folder: pathlib.Path, options: argparse.Namespace
) -> Iterator[Case]:
    killed, keeper = (installed.program(native.PROGRAMS / name) for name in ("killed.cpp", "keeper.cpp"))
    met: collections.Counter[str] = collections.Counter()
    left, number, kills = options.kills // 2, 0, options.kills // 2
    while left > 0:
        kept = Kept(killed, keeper, folder, random.Random(f"{options.seed} shared {number}"))
        yield f"memory {number} of seed {options.seed}, {kept.shape[0]} words", kept.run(min(left, CHAIN))
        met += kept.met
        left, number = left - CHAIN, number + 1
    print(
        f"shared: {kills} kills, {met['amid a call']} amid a call, {met['full']} readings of a full segment, "
        f"{met['before it counted']} before it counted, {met['unseen']} with units that no look had; "
        f"{met['look']} looks; {met['units']} units",
        flush=True,
    )
    if kills >= ENOUGH:
        kinds = ("amid a call", "unseen", "look", "full")
        yield "each kind of kill", None if all(met[kind] for kind in kinds) else f"seen were {dict(met)}"


def checked(installed: native.Installed, folder: pathlib.Path) -> Iterator[Case]:
    """The programs that check something."""
    source = native.PROGRAMS / "shared.c"
    program = installed.with_layers(source, LAYERS, native.compiler(".c"), native.SANITIZED, REPLACED)
    yield from native.checks_of("shared.c", [program, folder], SETTING)
    for flags in ((), (NO_EXCEPTIONS,)):
        program = installed.program(native.PROGRAMS / "shared.cpp", *native.SANITIZED, *flags)
        yield from native.checks_of(" ".join(["shared.cpp", *flags]), [program], SETTING)
    program = installed.program(native.PROGRAMS / "sandboxed.cpp")
    yield from native.checks_of("sandboxed.cpp", [program], {})


def cases(program: None, options: argparse.Namespace) -> Iterator[Case]:
    with tempfile.TemporaryDirectory() as scratch, tempfile.TemporaryDirectory() as work:
        folder = pathlib.Path(work)
        try:
            installed = native.Installed(pathlib.Path(scratch))
            yield from checked(installed, folder)
            yield from killed_often(installed, folder, options)
        except native.Failed as why:
            yield "the programs", str(why)
