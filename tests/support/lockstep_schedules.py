"""Schedules for tests/c/lockstep.c that are made from a seed: two or three actors with calls of all kinds, on few
histograms of a small segment.

An actor takes its turns up to before a change, up to after one, or up to the end of its call. A call that does not walk
along the list is also stopped after any other event. A delta or a snapshot of a sparse histogram is done in one turn,
unless the recorder's indexes have no entry: with an index, the library is at the end of the list before it visits the
samples, and does not see those that are published meanwhile. A recorder has its own share of the units, so an actor
begins no call that would need more, unless no segment has as many.
"""

from __future__ import annotations

import collections
import dataclasses
import random
from collections.abc import Callable, Mapping

from support.layout import MOST_UNITS
from support.lockstep_plans import MOST_ENTRIES, Plan, lines_of, units_of
from support.plain_tally import Spec
from support.program import Answer
from support.seeded_schedules import NAMES, SHAPES, SPECS, SUMS, TIMES, VALUES, Record, Schedule

TURNS = 60
ALL = 10**6
COUNTS = [0, 1, 1, 1, 1, 2, 3, 65_534, 65_535, 65_536, 2**30]
# Names and specs that are refused.
BAD_NAMES = ["!A", "x" * 129]
BAD_SPECS: list[Spec] = [
    ("linear", 0, 10, 5), ("linear", 1, 10, 12), ("linear", 9, 9, 3), ("custom", 0), ("linear", 1, 100, 40),
]
# How many entries the indexes of the recorders may have.
ENTRIES = [MOST_ENTRIES, MOST_ENTRIES, 0, 1, 3]
KINDS = ["add", "add", "add", "batch", "delta", "snapshot"]


@dataclasses.dataclass
class Ahead:
    """What an actor's call will do if no other actor does anything: of each event whether it changes a word, and its
    answer."""

    changes: list[bool]
    answer: list[str]


class Maker:
    """A schedule that is being made. `replay` gives the answer of `stepped` to the text of one."""

    def __init__(self, chance: random.Random, replay: Callable[[str], Answer]) -> None:
        self.chance = chance
        self.replay = replay
        size, page = chance.choice(SHAPES)
        version, segment_id = chance.choice([1, 2]), chance.choice([0, 7, 2**64 - 1])
        self.schedule = Schedule(size, page, segment_id, chance.choice([2, 2, 3]), version)
        self.entries = chance.choice(ENTRIES)
        names = chance.sample(NAMES, chance.choice([1, 1, 2, 2, 3, 4]))
        # With few values, units are packed into the single word for long.
        self.values = chance.sample(VALUES, chance.choice([1, 1, 2, 3, len(VALUES)]))
        self.specs: Mapping[str, Spec] = {name: chance.choice(SPECS) for name in names}
        self.known: dict[int, dict[str, Spec]] = collections.defaultdict(dict)
        self.running: dict[int, Record] = {}
        # What is ahead of actors, of which no other one has changed a word since.
        self.ahead: dict[int, Ahead] = {}
        self.spent: collections.Counter[int] = collections.Counter()

    def item(self) -> tuple[int, int]:
        return self.chance.choice(self.values), self.chance.choice(COUNTS)

    def hist(self, actor: int) -> Record:
        name = self.chance.choice(list(self.specs))
        spec = self.specs[name] if self.chance.random() < 0.9 else self.chance.choice([*SPECS, *BAD_SPECS])
        return "hist", actor, name if self.chance.random() < 0.98 else self.chance.choice(BAD_NAMES), *spec

    def call(self, actor: int) -> Record:
        """The record of a call that an actor begins."""
        if not self.known[actor] or self.chance.random() < 0.2:
            return self.hist(actor)
        if self.chance.random() < 0.003:
            return "set_corrupt", actor
        name, kind = self.chance.choice(list(self.known[actor])), self.chance.choice(KINDS)
        if kind == "add":
            return kind, actor, name, *self.item()
        if kind == "batch":
            items = [self.item() for _ in range(self.chance.choice([0, 1, 2, 3]))]
            return kind, actor, name, self.chance.choice(SUMS), *(number for item in items for number in item)
        return kind, actor, name

    def has_units(self, record: Record) -> bool:
        """Whether an actor's share is enough for a call, or no share would be; it is spent then."""
        units = cost(record)
        if units > MOST_UNITS:
            return True
        is_enough = self.spent[record[1]] + units <= units_of(self.schedule)
        self.spent[record[1]] += units if is_enough else 0
        return is_enough

    def look_ahead(self, actor: int) -> bool:
        """Finds what is ahead of an actor with a call. False if the call needs no event."""
        if actor in self.ahead:
            return True
        records = self.schedule.records
        records.append(("step", actor, ALL))
        came = self.replay(self.schedule.text())
        number = len(records) + 1
        records.pop()
        if came.error == f"stepped: World {number} Idle\n".encode():
            return False
        assert came.status == 0, f"{came.error!r}\n{self.schedule.text()}"
        lines = [line for line in lines_of(came.output) if line.number == number]
        self.ahead[actor] = Ahead([bool(line.rest) for line in lines if line.what == "step"], lines[-1].rest)
        return True

    def is_sparse(self, record: Record) -> bool:
        return record[0] not in ("hist", "set_corrupt") and self.known[record[1]][record[2]] == ("sparse",)

    def times(self, actor: int, changes: list[bool]) -> int:
        """How many events an actor does in its turn, which may be none."""
        record = self.running[actor]
        is_sparse = self.is_sparse(record)
        if is_sparse and record[0] in ("delta", "snapshot") and self.entries > 0:
            return len(changes)
        if not is_sparse and record[0] != "hist" and self.chance.random() < 0.3:
            return min(self.chance.choice(TIMES), len(changes))
        at = [place for place, is_change in enumerate(changes) if is_change]
        way = self.chance.choice(["before", "before", "after", "after", "whole"])
        if way == "whole" or not at:
            return len(changes)
        place = self.chance.choice([at[0], self.chance.choice(at)])
        return place + (way == "after")

    def take_turn(self, actor: int, is_last: bool = False) -> None:
        """Lets an actor begin a call, if none is running, and go on with it."""
        if actor not in self.running:
            record = self.call(actor)
            if not self.has_units(record):
                return
            self.schedule.records.append(record)
            self.running[actor] = record
        if not self.look_ahead(actor):
            self.running.pop(actor)
            return
        changes = self.ahead[actor].changes
        self.step(actor, len(changes) if is_last else self.times(actor, changes))

    def step(self, actor: int, times: int) -> None:
        """Lets an actor do as many events, or none."""
        ahead = self.ahead.pop(actor)
        if times:
            self.schedule.records.append(("step", actor, times))
        if any(ahead.changes[:times]):
            self.ahead.clear()
        if times < len(ahead.changes):
            self.ahead[actor] = Ahead(ahead.changes[times:], ahead.answer)
            return
        record = self.running.pop(actor)
        if ahead.answer[0] == "hist":
            self.known[actor][record[2]] = record[3:]

    def made(self) -> Plan:
        """The plan of the whole schedule, whose calls have all ended."""
        for _ in range(TURNS):
            self.take_turn(self.chance.randrange(self.schedule.actors))
        for actor in self.chance.sample(list(self.running), len(self.running)):
            self.take_turn(actor, is_last=True)
        output = self.replay(self.schedule.text()).output
        return Plan(self.schedule, output, self.entries)


def cost(record: Record) -> int:
    """The units that a call takes from its recorder."""
    kind, _, *rest = record
    if kind == "add":
        return int(rest[2])
    if kind == "batch":
        return max(sum(rest[3::2]), -(-abs(rest[1]) // 2**31))
    return 0


def plan_of(seed: str, replay: Callable[[str], Answer]) -> Plan:
    """The plan of the schedule of a seed."""
    return Maker(random.Random(seed), replay).made()
