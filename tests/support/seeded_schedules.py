"""Schedules of the stepped world that are generated from a seed, and what the lines of one say of its calls.

A schedule is made a round at a time, in which each actor begins a call or continues by a few events; then it is
replayed, to know which calls have ended. So no record of it is a fault.
"""

from __future__ import annotations

import collections
import random
from collections.abc import Callable, Collection, Iterable, Mapping, Sequence
from typing import Any

from support.layout import GREATEST, LEAST, TOP, Words
from support.plain_tally import Histogram, Spec
from support.program import Answer

SHAPES = [(64, 64), (128, 64), (128, 128), (192, 64), (256, 128), (512, 64)]
SPECS: list[Spec] = [
    ("linear", 1, 10, 5), ("linear", 1, 4, 4), ("boolean",), ("custom", 7), ("custom", 3, 100), ("sparse",),
    ("sparse",),
]
NAMES = ["A", "B", "S", "a-long-name"]
VALUES = [LEAST, -5, -1, 0, 1, 1, 2, 3, 5, 7, 10, 100, GREATEST]
COUNTS = [0, 1, 1, 1, 1, 2, 3, 65_534, 65_535, 65_536, 2**31]
SUMS = [0, 0, -7, 5, 2**31, -(2**63), 2**63 - 1]
TIMES = [1, 1, 1, 2, 3, 5, 10]
ROUNDS = 24
COUNTING = ("add", "batch")

# A record of a schedule; a histogram by its name with the key of a count.
Record = tuple[Any, ...]
Key = tuple[str, int]


class Schedule:
    """A schedule: the shape, the id and the version of its segment, how many actors there are, and the later
    records."""

    def __init__(self, size: int, page: int, segment_id: int, actors: int, version: int) -> None:
        self.size = size
        self.page = page
        self.id = segment_id
        self.actors = actors
        self.version = version
        self.records: list[Record] = []

    def text(self) -> str:
        first = ("world", self.size, self.page, self.id, self.actors, self.version)
        return "".join(",".join(map(str, record)) + "\n" for record in [first, *self.records])

    def words(self) -> list[int]:
        """The words of a new segment."""
        return list(Words(self.size, self.page, self.version, segment_id=self.id).words)


class Running:
    """A call of an actor, and how many of its events have happened."""

    def __init__(self, record: Record) -> None:
        self.record = record
        self.events = 0


class Done:
    """What the lines of a schedule say was done up to an event: the words, and the calls that run and that were
    accepted.

    `lines` are those up to the answer after the event; with -1 events they are all.
    """

    def __init__(self, schedule: Schedule, lines: Iterable[bytes], events: int) -> None:
        self.schedule = schedule
        self.words = schedule.words()
        self.lines: list[bytes] = []
        self.running: dict[int, Running] = {}
        self.known: dict[int, dict[str, Histogram]] = collections.defaultdict(dict)
        self.counted: collections.Counter[Key] = collections.Counter()
        # By actor, the word that its last event disabled, and what it was before.
        self.disabled: dict[int, tuple[int, int]] = {}
        last: tuple[str, str, str] | None = None
        for line in lines:
            number, actor, what, *rest = line.decode().rstrip("\n").split(",")
            ends_last = what == "answer" and last == (number, actor, "step")
            if events == 0 and not ends_last:
                break
            events -= what == "step"
            last = number, actor, what
            self.lines.append(line)
            {"begin": self.begin, "step": self.step, "answer": self.answer}[what](int(number), int(actor), rest)

    def begin(self, number: int, actor: int, _: list[str]) -> None:
        self.running[actor] = Running(self.schedule.records[number - 2])

    def step(self, _: int, actor: int, change: list[str]) -> None:
        self.running[actor].events += 1
        self.disabled.pop(actor, None)
        if change:
            at, old, new = map(int, change)
            assert self.words[at] == old != new, f"word {at} is {self.words[at]}, and {change} changes it"
            self.words[at] = new
            if old < TOP <= new:
                self.disabled[actor] = at, old

    def answer(self, number: int, actor: int, said: list[str]) -> None:
        # A call that needs no event returns at once.
        ended = self.running.pop(actor, None)
        record = ended.record if ended else self.schedule.records[number - 2]
        if said[0] == "hist":
            self.known[actor][record[2]] = Histogram.of(record[3:])
        elif said[0] == "added":
            self.counted.update(self.entries(actor, record))
        elif said[0] == "batch_refused":
            self.counted.update(self.entries(actor, record, int(said[1])))

    def entries(self, actor: int, record: Record, most: int | None = None) -> Mapping[Key, int]:
        """The units of each key that a call counts, or of its first items."""
        if record[0] not in COUNTING:
            return {}
        kind, _, name, *rest = record
        numbers = rest if kind == "add" else rest[1:]
        histogram = self.known[actor][name]
        units: collections.Counter[Key] = collections.Counter()
        for value, count in list(zip(numbers[::2], numbers[1::2]))[:most]:
            units[name, histogram.key(value)] += count
        return units

    def ended(self) -> collections.Counter[Key]:
        """The units of each key that calls which ended have counted."""
        return self.counted

    def begun(self) -> collections.Counter[Key]:
        """These, and those of the calls of which an event has happened."""
        units = collections.Counter(self.counted)
        for actor, call in self.running.items():
            if call.events:
                units.update(self.entries(actor, call.record))
        return units


def item_of(chance: random.Random) -> tuple[int, int]:
    return chance.choice(VALUES), chance.choice(COUNTS)


def call_of(chance: random.Random, actor: int, specs: Mapping[str, Spec], known: Collection[str]) -> Record:
    """The record of a call that an actor begins."""
    if not known or chance.random() < 0.2:
        name = chance.choice(NAMES)
        spec = specs[name] if chance.random() < 0.9 else chance.choice(SPECS)
        return "hist", actor, name, *spec
    name = chance.choice(list(known))
    kind = chance.choice(["add", "add", "add", "batch", "delta", "snapshot"])
    if kind == "add":
        return kind, actor, name, *item_of(chance)
    if kind == "batch":
        items = [item_of(chance) for _ in range(chance.choice([0, 1, 2, 3]))]
        return kind, actor, name, chance.choice(SUMS), *(number for item in items for number in item)
    return kind, actor, name


def schedule_of(
    chance: random.Random, replay: Callable[[str], Answer], versions: Sequence[int] = (1, 2)
) -> tuple[Schedule, Answer]:
    """A schedule without a fault of one of some versions, and the answer to it. `replay` gives the answer to the text
    of one."""
    size, page = chance.choice(SHAPES)
    schedule = Schedule(size, page, chance.choice([0, 7, 2**64 - 1]), chance.randrange(1, 6), chance.choice(versions))
    specs = {name: chance.choice(SPECS) for name in NAMES}
    running: dict[int, Any] = {}
    known: dict[int, dict[str, Any]] = collections.defaultdict(dict)
    for number in range(ROUNDS + 1):
        last = number == ROUNDS
        for actor in chance.sample(range(schedule.actors), schedule.actors):
            if actor not in running and not last:
                corrupts = chance.random() < 0.003
                call: Record = ("set_corrupt", actor) if corrupts else call_of(chance, actor, specs, known[actor])
                schedule.records.append(call)
            elif actor in running:
                schedule.records.append(("step", actor, 10**6 if last else chance.choice(TIMES)))
        came = replay(schedule.text())
        if came.status != 0:
            break
        done = Done(schedule, came.output.splitlines(True), -1)
        running, known = done.running, done.known
    return schedule, came
