"""The calls of the stepped world in plain Python, an event at a time, to know which events are loads, which are
exchanges, and what those want.

It is written after docs/FORMAT.md and shares nothing with the program. A call is a generator of what its events do. It
is sent what each event found.
"""

from __future__ import annotations

from collections.abc import Generator, Iterable, Mapping, Sequence
from typing import Any, Optional

from support.layout import BLOCK_COOKIE as CLAIMED, LENGTH, NAME, REDUNDANT, SINGLE, SINGLE_MARK, SUM, SUM_MARK
from support.layout import BLOCK_HEADER as HEADER
from support.layout import (
    COOKIE, CORRUPT, FLAGS, FREE, FULL, HISTOGRAM, NEXT, QUEUE, SAMPLE, SIZE, TAIL, TOP, TYPE, WASTED, WORD,
)
from support.layout import COUNTS as OF_COUNTS
from support.layout import HIST_COUNTS as COUNTS
from support.plain_tally import Histogram, Spec, boundaries_of
from support.seeded_schedules import Schedule

KINDS = {"linear": 1, "boolean": 2, "custom": 3, "sparse": 4}

# An event: its kind, its word, what an exchange wants, and the operand. A call, which is sent what each event found.
Event = tuple[str, int, Optional[int], Optional[int]]
Call = Generator[Event, int, None]
# A histogram that an actor knows: its reference and its spec.
Known = tuple[int, Spec]


def load(at: int) -> Event:
    return "load", at, None, None


def store(at: int, value: int) -> Event:
    return "store", at, None, value


def exchange(at: int, wanted: int, new: int) -> Event:
    return "exchange", at, wanted, new


def add(at: int, amount: int) -> Event:
    return "add", at, None, amount


def made_of(event: Event, found: int) -> int:
    """What an event makes of the word that it found."""
    kind, _, wanted, value = event
    new = value or 0
    if kind == "exchange":
        return new if found == wanted else found
    made = {"load": found, "store": new, "add": (found + new) % WORD, "set": found | new, "raise": max(found, new)}
    return made[kind]


def allocate(world: Schedule, payload: int, tag: int) -> Generator[Event, int, int | None]:
    """Claims a block, and gives its reference, or None if it is refused."""
    size = payload + HEADER
    while True:
        if (yield load(FLAGS)) & CORRUPT:
            return None
        free = yield load(FREE)
        room = world.page - free % world.page
        if free + size > world.size:
            yield "set", FLAGS, None, FULL
            return None
        waste = size > room
        taken = room if waste or room - size < HEADER + 1 else size
        if (yield exchange(FREE, free, free + taken)) != free:
            continue
        yield store(free + SIZE, taken)
        yield store(free + COOKIE, WASTED if waste else CLAIMED)
        if not waste:
            yield store(free + TYPE, tag)
            return free


def publish(reference: int) -> Generator[Event, int, None]:
    yield store(reference + NEXT, QUEUE)
    while True:
        tail = yield load(TAIL)
        behind = yield exchange(tail + NEXT, QUEUE, reference)
        yield exchange(TAIL, tail, reference if behind == QUEUE else behind)
        if behind == QUEUE:
            return


def make(world: Schedule, payload: Sequence[int], tag: int) -> Generator[Event, int, int | None]:
    """Makes a record, and gives its reference, or None if it is refused."""
    reference = yield from allocate(world, len(payload), tag)
    if reference is not None:
        for index, word in enumerate(payload):
            if word:
                yield store(reference + HEADER + index, word)
        yield from publish(reference)
    return reference


def letters_of(name: str) -> list[int]:
    data = name.encode("latin-1")
    return [int.from_bytes(data[at : at + 8], "little") for at in range(0, len(data), 8)]


def spec_words(spec: Spec) -> tuple[list[int], list[int]]:
    """The kind, the least value, the greatest, the number of buckets, and the ranges of a custom histogram."""
    kind, *numbers = spec
    buckets = max(len(boundaries_of(spec)) - 1, 0)
    ends = {"linear": numbers[:2], "boolean": [1, 2], "sparse": [0, 0]}.get(kind)
    low, high = ends or [min(n for n in numbers if n), max(numbers)]
    ranges = boundaries_of(spec)[1:-1] if kind == "custom" else []
    return [KINDS[kind], low, high, buckets], ranges


def hist(world: Schedule, name: str, spec: Spec) -> Generator[Event, int, None]:
    (numbers, ranges), letters = spec_words(spec), letters_of(name)
    payload = numbers + [0] * 6 + [len(name)] + letters + ranges
    named = [(TYPE, HISTOGRAM), (LENGTH, len(name)), *((NAME + at, word) for at, word in enumerate(letters))]
    shaped = [(HEADER + at, word) for at, word in enumerate(numbers)]
    shaped += [(NAME + len(letters) + at, word) for at, word in enumerate(ranges)]
    at = QUEUE
    while True:
        reference = yield load(at + NEXT)
        if reference == QUEUE:
            if (yield from make(world, payload, HISTOGRAM)) is None:
                return
            continue
        at = reference
        if (yield from are(at, named)):
            yield from are(at, shaped)
            return


def are(block: int, words: Iterable[tuple[int, int]]) -> Generator[Event, int, bool]:
    """Loads words of a block up to the first that is another."""
    for place, word in words:
        if (yield load(block + place)) != word:
            return False
    return True


def sample(world: Schedule, histogram: int, value: int) -> Generator[Event, int, int | None]:
    """The first sample of a value, or None if it is refused."""
    at, word = histogram, value % WORD
    while True:
        reference = yield load(at + NEXT)
        if reference == QUEUE:
            if (yield from make(world, [histogram, word, 0, 0], SAMPLE)) is None:
                return None
            continue
        at = reference
        if (yield load(at + TYPE)) != SAMPLE:
            continue
        of = yield load(at + HEADER)
        if (yield load(at + HEADER + 1)) == word and of == histogram:
            return at


def packed(word: int, bucket: int, count: int) -> int | None:
    """The single word with `count` more units of a bucket, or None."""
    if word == 0 and count <= 65_535:
        return bucket * 2**32 + count
    if word and word >> 32 == bucket and word % 2**32 + count <= 65_535:
        return word + count
    return None


def mount(world: Schedule, histogram: int, buckets: int) -> Generator[Event, int, int | None]:
    """The reference of the counts of a histogram, or None if they are refused."""
    counts = yield load(histogram + COUNTS)
    if counts:
        return counts
    mine = yield from allocate(world, 2 * buckets, OF_COUNTS)
    if mine is None:
        return None
    counts = yield exchange(histogram + COUNTS, 0, mine)
    if counts:
        yield store(mine + TYPE, 0)
    return counts or mine


def disable(world: Schedule, histogram: int, counts: int) -> Generator[Event, int, None]:
    while True:
        word = yield load(histogram + SINGLE)
        if word >= TOP:
            return
        off = TOP + word if world.version == 2 else TOP + (word >> 32 if word else 65_535)
        if (yield exchange(histogram + SINGLE, word, off)) == word:
            if world.version == 1 and word:
                yield add(counts + HEADER + (word >> 32), word % 2**32)
            return


def count_bucket(
    world: Schedule, histogram: int, buckets: int, bucket: int, count: int
) -> Generator[Event, int, bool]:
    """Counts units of a bucket. Whether they are counted."""
    counts: int | None
    while True:
        word = yield load(histogram + SINGLE)
        if word >= TOP:
            counts = yield load(histogram + COUNTS)
            break
        new = packed(word, bucket, count)
        if new is None:
            counts = yield from mount(world, histogram, buckets)
            if counts is None:
                return False
            yield from disable(world, histogram, counts)
            break
        if (yield exchange(histogram + SINGLE, word, new)) == word:
            return True
    yield add(counts + HEADER + bucket, count)
    return True


def count(world: Schedule, known: Known, value: int, units: int) -> Generator[Event, int, bool]:
    """Counts units of a value. Whether they are counted."""
    reference, spec = known
    if spec[0] == "sparse":
        at = yield from sample(world, reference, value)
        if at is not None:
            yield add(at + 6, units)
        return at is not None
    tally, buckets = Histogram.of(spec), len(boundaries_of(spec)) - 1
    bucket = tally.boundaries.index(tally.key(value))
    return (yield from count_bucket(world, reference, buckets, bucket, units))


def batch(world: Schedule, known: Known, items: Iterable[tuple[int, int]], amount: int, note_last: bool) -> Call:
    """Counts items, each with what it adds to the sum if that is reported, and then an amount."""
    for value, units in items:
        if not (yield from count(world, known, value, units)):
            return
        if note_last and amount:
            yield add(known[0] + SUM, amount % WORD)
        yield add(known[0] + REDUNDANT, units)
    if amount and not note_last:
        yield add(known[0] + SUM, amount % WORD)


def walked(histogram: int, takes: bool) -> Generator[Event, int, None]:
    """Walks along the samples of a sparse histogram, and loads the count of each. It raises their marks if it is to
    take them."""
    at = histogram
    while (at := (yield load(at + NEXT))) != QUEUE:
        if (yield load(at + TYPE)) != SAMPLE:
            continue
        of = yield load(at + HEADER)
        yield load(at + HEADER + 1)
        if of == histogram:
            units = yield load(at + HEADER + 2)
            if takes and units:
                yield "raise", at + HEADER + 3, None, units


def packed_in(world: Schedule, word: int) -> tuple[int | None, int]:
    """The bucket whose units a single word has or had, and the units that it has."""
    low = word % TOP
    if word >= TOP and world.version == 1:
        return (None if low == 65_535 else low), 0
    return (low >> 32, low % 2**32) if low else (None, 0)


def counted(world: Schedule, known: Known, takes: bool) -> Generator[Event, int, None]:
    """Loads the counts of a histogram with buckets, and raises their marks if it is to take them."""
    histogram, buckets = known[0], len(boundaries_of(known[1])) - 1
    word = yield load(histogram + SINGLE)
    bucket, units = packed_in(world, word)
    if word < TOP:
        if takes and units:
            yield "raise", histogram + SINGLE_MARK, None, units
        return
    counts = yield load(histogram + COUNTS)
    for index in range(buckets):
        total = (yield load(counts + HEADER + index)) + (units if index == bucket else 0)
        if takes and total:
            mark = histogram + SINGLE_MARK if index == bucket else counts + HEADER + buckets + index
            yield "raise", mark, None, total


def looked_at(world: Schedule, known: Known, takes: bool) -> Call:
    """A delta, which takes, or a snapshot."""
    histogram, spec = known
    if spec[0] == "sparse":
        yield from walked(histogram, takes)
    else:
        yield from counted(world, known, takes)
    total = yield load(histogram + SUM)
    if takes:
        yield store(histogram + SUM_MARK, total)
    else:
        yield load(histogram + REDUNDANT)


def call(world: Schedule, known: Mapping[str, Known], record: Sequence[str]) -> Call | None:
    """The events of the call of a record, whose actor knows these histograms, or None if it has one event alone."""
    kind, _, *rest = record
    if kind == "hist":
        return hist(world, rest[0], spec_of(rest[1:]))
    if kind in ("add", "batch"):
        name, numbers = rest[0], [int(field) for field in rest[1:]]
        if kind == "batch":
            return batch(world, known[name], list(zip(numbers[1::2], numbers[2::2])), numbers[0], False)
        amount = Histogram.of(known[name][1]).clamped(numbers[0]) * numbers[1]
        return batch(world, known[name], [(numbers[0], numbers[1])], amount, True)
    if kind in ("delta", "snapshot"):
        return looked_at(world, known[rest[0]], kind == "delta")
    return None


def spec_of(fields: Sequence[str]) -> Spec:
    return fields[0], *map(int, fields[1:])


def has_ended(events: Call, found: Any) -> bool:
    """Whether no event comes after one that found this."""
    try:
        events.send(found)
    except StopIteration:
        return True
    return False


class Calls:
    """The calls that run in a world, beside its lines."""

    def __init__(self, world: Schedule, records: Sequence[Sequence[str]]) -> None:
        self.world, self.records = world, records
        self.known: dict[int, dict[str, Known]] = {}
        # By actor, its call and what the last event found, None before the first.
        self.running: dict[int, tuple[Call | None, Any]] = {}
        self.number: dict[int, int] = {}

    def begin(self, number: int, actor: int) -> None:
        self.number[actor] = number
        self.running[actor] = call(self.world, self.known.get(actor, {}), self.records[number - 1]), None

    def step(self, actor: int, words: Sequence[int], change: list[int]) -> Event | None:
        """The next event of an actor's call, or None if the call has one event alone. `change` is what the event
        changed, and has to be all that it changes."""
        events, found = self.running[actor]
        if events is None:
            return None
        event = events.send(found)
        at, found = event[1], words[event[1]]
        new = made_of(event, found)
        assert change == ([at, found, new] if new != found else []), f"{event} found {found} and changed {change}"
        self.running[actor] = events, found
        return event

    def answer(self, number: int, actor: int, said: Sequence[str]) -> None:
        record = self.records[number - 1]
        if actor in self.running:
            record = self.records[self.number[actor] - 1]
            events, found = self.running.pop(actor)
            assert events is None or has_ended(events, found), f"the call of record {number} has not ended"
        if said[0] == "hist":
            self.known.setdefault(actor, {})[record[2]] = int(said[1]), spec_of(record[3:])
