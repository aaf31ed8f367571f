"""Children that are followed into the parent's own recording, and are killed.

A parent (`tests/c/following.cpp`) keeps memory for four children (`killed.cpp`) of four threads, looks at it at random
moments, and kills the children, each at a random moment. The next child goes on in the same memory, or has fresh
memory. By a plain reader, the words that a dead child left have of each bucket at least what its threads had ended and
at most what they had begun; some buckets are of one thread alone. When all have died, the parent has of each bucket
exactly what the last words of all memories have together, and the same sums. Meanwhile it fills and spends its own
segments.

In `hostile.cpp` a child writes what it likes into its memory while the parent looks at it and follows it. In
`followed.c` each allocation of each call of a follower is refused, and its recorder's segment is full at each place.
"""

from __future__ import annotations

import argparse
import collections
import pathlib
import random
import subprocess
import tempfile
from collections.abc import Iterator, Mapping
from typing import TypeVar

from support import bounds, native, plain_reader
from support.program import ROOT, Case

PROGRAM = None
VERSION, CHILDREN, LOOKS = 2, 4, 3
# Bytes of a segment of the parent's recording: small ones are filled by what children counted.
BYTES = (16_384, 32_768, 65_536)
# One in so many kills has to be amid a call, and to leave units that no look before it had.
ONE_IN = 5
# How many kills one parent sees.
CHAIN = 20
# How often the parent tries to add what a dead child left: where it has just begun a segment, it has to wait.
MOST_TRIES = 1000
OWN = "parent"
SETTING = {"ASAN_OPTIONS": "detect_leaks=1"}
EXAMPLE, MOST_LINES = ROOT / "examples" / "cpp" / "children.cpp", 150

Sums = collections.Counter[str]
Key = TypeVar("Key")


def sums_of(report: bytes) -> Sums:
    """The sum of each histogram that a report has."""
    lines = (line.split(",") for line in report.decode().splitlines())
    return collections.Counter({name: int(rest[2]) for name, *rest in lines if rest[:1] == ["total"]})


class Parent:
    """The program that keeps the children."""

    def __init__(self, running: subprocess.Popen[str]) -> None:
        self.running = running

    def tell(self, *words: object) -> list[int]:
        """Says a line, and returns the numbers of the answer."""
        assert self.running.stdin is not None and self.running.stdout is not None
        line = " ".join(map(str, words))
        print(line, file=self.running.stdin, flush=True)
        said, *numbers = self.running.stdout.readline().split()[:3] or ["no answer"]
        if said != "done":
            raise native.Failed(f"{line}: {' '.join([said, *numbers])}")
        return [int(number) for number in numbers]


class Child(bounds.Runs):
    """One of the children, and its memory: who has it, one after the other, and what it had when the last one died."""

    def __init__(
        self, number: int, killed: pathlib.Path, folder: pathlib.Path, chance: random.Random, parent: Parent
    ) -> None:
        super().__init__(killed, killed, chance, VERSION)
        self.number, self.parent = number, parent
        self.tally, self.image = folder / f"tally_{number}", folder / f"image_{number}"
        self.sums: Sums = collections.Counter()
        self.met: collections.Counter[str] = collections.Counter()
        self.has_memory = False
        # Whether all that the last look had was added.
        self.is_level = True

    def take_memory(self) -> None:
        """Fresh memory, or the same as before."""
        stays = self.has_memory and self.chance.random() < 0.5
        self.met["in the same memory" if stays else "in fresh memory"] += 1
        if stays:
            return
        self.shape = self.chance.choice(bounds.SHAPES)
        self.parent.tell("fresh", self.number, *self.shape)
        self.before, self.sums = collections.Counter(), collections.Counter()
        self.has_memory = self.is_level = True

    def begin(self) -> None:
        self.parent.tell("run", self.number, *self.words("shared", pathlib.Path("@"), self.tally))

    def follow(self) -> int:
        """Looks, and adds what came: how many units are left."""
        added, left = self.parent.tell("follow", self.number)
        self.met["units"] += added
        self.met["looks with units left"] += left > 0
        self.is_level = left == 0
        return left

    def end(self) -> str | None:
        """Kills it: what is wrong with what it left, or None."""
        self.parent.tell("kill", self.number)
        data = self.tally.read_bytes()
        begun, ended = bounds.numbers(data)
        self.met["kills"] += 1
        self.met["amid a call"] += begun != ended
        self.met["before it counted"] += not any(data)
        was_level, units = self.is_level, self.met["units"]
        if all(self.follow() for _ in range(MOST_TRIES)):
            return "units are left"
        # What came then was not left by the look before, if that left nothing.
        self.met["unseen"] += was_level and self.met["units"] > units
        return self.wrong(data)

    def wrong(self, data: bytes) -> str | None:
        """What is wrong with the words that are left, by what the threads wrote into the tally; or None."""
        self.parent.tell("words", self.number, self.image)
        output, error, status = plain_reader.answer(self.image.read_bytes())
        if status != 0:
            return f"the words read as {error!r}"
        self.met["full"] += b"!flag,full\n" in output
        units, faults = bounds.units_of(output)
        wrong = bounds.wrong_of(units, faults, self.before, data, VERSION)
        self.before, self.sums = units, sums_of(output)
        return wrong


class Family:
    """The parent, and its children of one run."""

    def __init__(
        self, killed: pathlib.Path, following: pathlib.Path, folder: pathlib.Path, chance: random.Random
    ) -> None:
        self.killed, self.following, self.folder, self.chance = killed, following, folder, chance
        self.met: collections.Counter[str] = collections.Counter()
        # How many segments the parent's recording has begun.
        self.segments = 0
        # What those had whose memory is gone.
        self.units: bounds.Units = collections.Counter()
        self.sums: Sums = collections.Counter()

    def run(self, kills: int) -> Iterator[Case]:
        """Each of the rounds, in which all children are killed once."""
        size = self.chance.choice(BYTES)
        words = [str(word) for word in (self.following, self.folder / "metrics", size, CHILDREN)]
        with subprocess.Popen(
            words, stdin=subprocess.PIPE, stdout=subprocess.PIPE, stderr=subprocess.PIPE, text=True
        ) as running:
            parent = Parent(running)
            children = [Child(at, self.killed, self.folder, self.chance, parent) for at in range(CHILDREN)]
            try:
                for number in range(kills // CHILDREN):
                    yield f"round {number + 1}, segments of {size} bytes", self.wrong_round(parent, children)
            finally:
                _, said = running.communicate()
            yield "the parent's end", None if not said and running.returncode == 0 else f"{running.returncode}: {said}"
        yield "segments that the parent has filled or spent", None if self.segments > 1 else "none"
        self.met["segments"] = self.segments
        for child in children:
            self.met += child.met

    def wrong_round(self, parent: Parent, children: list[Child]) -> str | None:
        """What is wrong with what the children of a round left, or with what the parent has then; or None."""
        try:
            for child in children:
                self.replace(child)
            wrongs = [self.life(child, children) for child in self.chance.sample(children, len(children))]
            wrongs.append(self.wrong_parent(parent, children))
        except (OSError, native.Failed) as why:
            return str(why)
        return next((wrong for wrong in wrongs if wrong is not None), None)

    def replace(self, child: Child) -> None:
        """Starts the next child. What the memory had is kept, if that is given up."""
        had, sums = child.before, child.sums
        child.take_memory()
        if child.before is not had:
            self.units += had
            self.sums.update(sums)
        child.begin()

    def life(self, child: Child, children: list[Child]) -> str | None:
        """Looks at all that live, now and then, and kills one: what is wrong with what that left, or None."""
        for _ in range(self.chance.randint(0, LOOKS)):
            child.live()
            self.chance.choice(children).follow()
        child.live()
        return child.end()

    def wrong_parent(self, parent: Parent, children: list[Child]) -> str | None:
        """What is wrong with what the parent has when all children are dead, or None."""
        report = self.folder / "report"
        counted, begun = parent.tell("report", report)
        numbers = [int(path.stem) for path in (self.folder / "metrics").glob("*.seg")]
        self.segments = max([self.segments, *numbers])
        output = report.read_bytes()
        units, _ = bounds.units_of(output)
        sums = sums_of(output)
        own = units.pop((OWN, 1), 0)
        sums.pop(OWN, 0)
        if not counted <= own <= begun:
            return f"the parent has {own} units of its own, and {counted} were counted, {begun} begun"
        wanted = sum((child.before for child in children), self.units)
        wanted_sums = collections.Counter(self.sums)
        for child in children:
            wanted_sums.update(child.sums)
        return difference(+wanted, +units) or difference(without_zeros(wanted_sums), without_zeros(sums))


def without_zeros(sums: Sums) -> dict[str, int]:
    return {name: amount for name, amount in sums.items() if amount != 0}


def difference(wanted: Mapping[Key, int], came: Mapping[Key, int]) -> str | None:
    """Of which key there is another number than is wanted, or None."""
    other = [key for key in {**wanted, **came} if wanted.get(key, 0) != came.get(key, 0)]
    if not other:
        return None
    key = other[0]
    return f"{len(other)} differ: the parent has {came.get(key, 0)} of {key}, and the dead left {wanted.get(key, 0)}"


def killed_often(
    installed: native.Installed, folder: pathlib.Path, options: argparse.Namespace
) -> Iterator[Case]:
    killed = installed.program(native.PROGRAMS / "killed.cpp")
    following = installed.program(native.PROGRAMS / "following.cpp", *native.SANITIZED)
    met: collections.Counter[str] = collections.Counter()
    kills = options.kills // 2
    for number, done in enumerate(range(0, kills, CHAIN)):
        with tempfile.TemporaryDirectory(dir=folder) as home:
            chance = random.Random(f"{options.seed} children {number}")
            family = Family(killed, following, pathlib.Path(home), chance)
            for name, wrong in family.run(min(CHAIN, kills - done)):
                yield f"family {number} of seed {options.seed}, {name}", wrong
            met += family.met
    print(
        f"children: {met['kills']} kills, {met['amid a call']} amid a call, {met['unseen']} with units that no look "
        f"had; {met['in the same memory']} successors in the same memory, {met['in fresh memory']} in fresh memory, "
        f"{met['full']} left a full segment, {met['before it counted']} had counted nothing; "
        f"{met['looks with units left']} looks with units left; {met['units']} units, {met['segments']} segments",
        flush=True,
    )
    few = [kind for kind in ("amid a call", "unseen") if met[kind] * ONE_IN < met["kills"]]
    none = [kind for kind in ("in the same memory", "in fresh memory", "full") if not met[kind]]
    yield "each kind of kill", f"seen were {dict(met)}" if few or none else None


def checked(installed: native.Installed) -> Iterator[Case]:
    """The programs that check something."""
    program = installed.program(native.PROGRAMS / "followed.c", *native.SANITIZED)
    yield from native.checks_of("followed.c", [program], SETTING)
    program = installed.program(native.PROGRAMS / "hostile.cpp", *native.SANITIZED)
    with tempfile.TemporaryDirectory() as home:
        yield from native.checks_of("hostile.cpp", [program, home], SETTING)


def cases(_program: None, options: argparse.Namespace) -> Iterator[Case]:
    lines = len(EXAMPLE.read_text().splitlines())
    yield "the example is short", None if lines <= MOST_LINES else f"{lines} lines"
    with tempfile.TemporaryDirectory() as scratch, tempfile.TemporaryDirectory() as work:
        try:
            installed = native.Installed(pathlib.Path(scratch))
            yield from checked(installed)
            yield from killed_often(installed, pathlib.Path(work), options)
        except native.Failed as why:
            yield "the programs", str(why)
