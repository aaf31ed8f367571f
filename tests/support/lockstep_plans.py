"""Plans for tests/c/lockstep.c: recorders of the compiled library, each in a child that a tracer stops before each
instruction that touches the segment, take the turns that the actors of a schedule took by the lines of `stepped`.

What the children do has to be what the lines say: each change of a word, in their order, and each answer; and the words
are the same at the end. Of calls that count in buckets or read them each load is compared too. The other ones walk
along the list. There the library has indexes: it skips loads of the stepped world, and loads the end of the list once
more. So such a call is stopped only before and after a change.
"""

from __future__ import annotations

import collections
import dataclasses
import itertools
from collections.abc import Iterator, Sequence

from support.layout import FLAGS, MOST_UNITS
from support.plain_calls import Calls, Event
from support.plain_steps import meaning
from support.program import Answer
from support.seeded_schedules import Schedule

# A change, with its actor, its word, and what that was and is; or an actor's answer.
Shown = tuple[str, ...]
# An event that the machine may do by a load and then an exchange.
IN_TWO = ("set", "raise")
MOST_ENTRIES = 2**32
# Where an answer has the reason of a refusal, after its first word.
REASONS = {"refused": 0, "batch_refused": 1}


@dataclasses.dataclass
class Line:
    """A line of `stepped`: the number of its record, the actor, what happened, and what that changed or answered."""

    number: int
    actor: int
    what: str
    rest: list[str]


def lines_of(output: bytes) -> Iterator[Line]:
    for line in output.decode().splitlines():
        number, actor, what, *rest = line.split(",")
        yield Line(int(number), int(actor), what, rest)


def units_of(schedule: Schedule) -> int:
    """How many units each recorder has."""
    return MOST_UNITS // schedule.actors


@dataclasses.dataclass
class Ended:
    """A call that has ended: its record, and the events that it did if its loads are compared."""

    record: str
    events: list[Event] | None


class Plan:
    """What the children are to do, and what they have to show then. `entries` is how many their indexes may have, and
    `is_exact` says that calls that walk along the list are stopped after as many loads as those of the schedule,
    although these need not be the same."""

    def __init__(self, schedule: Schedule, output: bytes, entries: int = MOST_ENTRIES, is_exact: bool = False) -> None:
        first = ("world", schedule.size, schedule.page, schedule.id, schedule.actors, schedule.version)
        self.is_exact = is_exact
        self.records = [",".join(map(str, record)) for record in [first, *schedule.records]]
        self.turns = [f"{self.records[0]},{units_of(schedule)},{entries}"]
        self.shown: list[Shown] = []
        self.ended: dict[int, list[Ended]] = collections.defaultdict(list)
        self.words = schedule.words()
        # What came into play: answers, and the words at which exchanges failed, by what they mean.
        self.met: collections.Counter[str] = collections.Counter()
        self.calls = Calls(schedule, [record.split(",") for record in self.records])
        self.running: dict[int, Ended] = {}
        for actor, lines in itertools.groupby(lines_of(output), lambda line: line.actor):
            self.take_turn(actor, lines)

    def text(self) -> str:
        return "".join(f"{turn}\n" for turn in self.turns)

    def take_turn(self, actor: int, lines: Iterator[Line]) -> None:
        """Adds the events of an actor between those of others."""
        quiet = 0
        for line in lines:
            if line.what == "step":
                quiet = 0 if self.step(line) else quiet + 1
            elif line.what == "begin":
                self.begin(line)
            else:
                quiet = 0
                self.answer(line)
        if quiet:
            is_counted = self.is_exact or self.running[actor].events is not None
            self.turns.append(f"quiet,{actor},{quiet}" if is_counted else f"hold,{actor}")

    def begin(self, line: Line) -> None:
        self.announce(line)
        self.calls.begin(line.number, line.actor)

    def announce(self, line: Line) -> None:
        """Adds the begin of a call, which may need no event."""
        record = self.records[line.number - 1]
        self.turns.append(record)
        self.running[line.actor] = Ended(record, None if self.is_walk(line.actor, record.split(",")) else [])

    def is_walk(self, actor: int, fields: Sequence[str]) -> bool:
        """Whether a call walks along the list."""
        kind = fields[0]
        return kind == "hist" or (kind != "set_corrupt" and self.calls.known[actor][fields[2]][1][0] == "sparse")

    def step(self, line: Line) -> bool:
        """Adds an event. Whether it changed a word."""
        change = [int(number) for number in line.rest]
        event = self.calls.step(line.actor, self.words, change) or ("set", FLAGS, None, None)
        call = self.running[line.actor]
        if call.events is not None:
            call.events.append(event)
        if event[0] == "exchange" and not change:
            self.met[f"late at {meaning(self.words, event[1]).rpartition('.')[2]}"] += 1
        if change:
            self.words[change[0]] = change[2]
            self.turns.append(f"change,{line.actor}")
            self.shown.append(("step", str(line.actor), *line.rest))
            self.met["changes"] += 1
        return bool(change)

    def answer(self, line: Line) -> None:
        needs_event = line.actor in self.running
        if not needs_event:
            self.announce(line)
        self.turns.append(f"end,{line.actor}")
        self.shown.append(("answer", str(line.actor), *line.rest))
        self.ended[line.actor].append(self.running.pop(line.actor))
        self.calls.answer(line.number, line.actor, line.rest)
        what, *more = line.rest
        self.met[f"{what} {more[REASONS[what]]}" if what in REASONS else what] += 1


class Came:
    """What the children did: the lines that changed a word or answered, the words that each call touched, and the words
    at the end."""

    def __init__(self, output: bytes) -> None:
        self.shown: list[Shown] = []
        self.ended: dict[int, list[list[int]]] = collections.defaultdict(list)
        self.words: list[int] = []
        running: dict[int, list[int]] = collections.defaultdict(list)
        for line in output.decode().splitlines():
            what, *rest = line.split(",")
            if what == "words":
                self.words = [int(word) for word in rest]
                continue
            actor = int(rest[0])
            if what != "same":
                self.shown.append((what, *rest))
            if what == "answer":
                self.ended[actor].append(running.pop(actor, []))
            else:
                running[actor].append(int(rest[1]))


class Numbers:
    """The numbers that a recorder has for histograms, beside the references of their records: each has one."""

    def __init__(self) -> None:
        self.of: dict[str, str] = {}
        self.back: dict[str, str] = {}

    def fit(self, number: str, reference: str) -> bool:
        return self.of.setdefault(number, reference) == reference and self.back.setdefault(reference, number) == number


def wrong_shown(wanted: Sequence[Shown], came: Sequence[Shown]) -> str | None:
    """What is wrong with the changes and the answers that came, or None."""
    numbers: dict[str, Numbers] = collections.defaultdict(Numbers)
    for place, (right, given) in enumerate(itertools.zip_longest(wanted, came)):
        if right is not None and given is not None and right[:3:2] == given[:3:2] == ("answer", "hist"):
            fits = right[1] == given[1] and numbers[right[1]].fit(given[3], right[3])
        else:
            fits = right == given
        if not fits:
            before = list(came[max(0, place - 5) : place])
            return f"line {place + 1}: wanted {right}, came {given}; before it came {before}"
    return None


def is_touched(events: Sequence[Event], words: Sequence[int]) -> bool:
    """Whether these words are those of the events, of which some may touch a word twice."""
    groups = [(word, len(list(group))) for word, group in itertools.groupby(words)]
    wanted = [(at, [event[0] for event in group]) for at, group in itertools.groupby(events, lambda event: event[1])]
    return len(groups) == len(wanted) and all(
        word == at and (times == len(kinds) or (times > len(kinds) and any(kind in IN_TWO for kind in kinds)))
        for (word, times), (at, kinds) in zip(groups, wanted)
    )


def wrong_touched(wanted: Sequence[Ended], came: Sequence[Sequence[int]]) -> str | None:
    """What is wrong with the words that an actor's calls touched, or None."""
    for call, words in zip(wanted, came):
        if call.events is not None and not is_touched(call.events, words):
            return f"{call.record}: wanted events {call.events}, came the words {words}"
    return None


def wrong(plan: Plan, answer: Answer) -> str | None:
    """What is wrong with what the children did, or None."""
    if answer.status != 0 or answer.error:
        return f"status {answer.status}, {answer.error[:500]!r}"
    came = Came(answer.output)
    said = wrong_shown(plan.shown, came.shown)
    touched = (wrong_touched(calls, came.ended[actor]) for actor, calls in plan.ended.items())
    said = said or next(filter(None, touched), None)
    is_end = came.words[: len(plan.words)] == plan.words
    return said or (None if is_end else f"the words at the end are {came.words}, wanted {plan.words}")
