"""Images of version 2 that are generated from a seed and may be adopted, and then mostly one or two reasons why they
may not.

`image_of(chance)` gives the bytes of one; the same random numbers give the same bytes.
"""

from __future__ import annotations

import random

from support import forge, layout

MOST_COUNT = 70_000
SMALLER = 2**28


class Forge(forge.Forge):
    """Words of a segment of version 2 that may be adopted."""

    def __init__(self, chance: random.Random) -> None:
        super().__init__(chance)
        self.version = 2
        self.store(1, 2)
        self.store(6, chance.choice([0, 0, 0, 2, 4]))
        # Of each sparse histogram the values that have a sample.
        self.valued: set[tuple[int, int]] = set()

    def histogram(self) -> forge.Record | None:
        record = super().histogram()
        if record is not None:
            last, used = record.at + layout.NAME + (len(record.name) - 1) // 8, len(record.name) % 8
            self.store(last, self.words[last] % 2 ** (8 * used) if used else self.words[last])
        return record

    def samples_of(self, record: forge.Record) -> int:
        """Each has counts of its own, which are 0 until the single word is frozen."""
        super().samples_of(record)
        at, n, counts = record.at, record.n, record.counts
        if any(other.counts == counts for other in self.histograms):
            record.counts, single = 0, self.words[at + 9] % layout.TOP
            self.store(at + 8, 0, single, min(self.words[at + 10], single % 2**32))
        elif counts:
            self.settle(record)
        counts, single = record.counts, self.words[at + 9]
        kept = single % 2**32
        return kept + (sum(self.words[counts + 4 : counts + 4 + n]) if counts else 0)

    def settle(self, record: forge.Record) -> None:
        """Makes the counts small, or 0 if they are not in use, and the marks fit to them."""
        at, n, counts = record.at, record.n, record.counts
        single = self.words[at + 9]
        for bucket in range(n):
            place = counts + 4 + bucket
            count = min(self.words[place], MOST_COUNT) if single >= layout.TOP else 0
            named = single not in (0, layout.TOP) and single % layout.TOP // 2**32 == bucket
            self.store(place, count)
            self.store(place + n, 0 if named else min(self.words[place + n], count))
            if named:
                self.store(at + 10, min(self.words[at + 10], count + single % 2**32))

    def sums(self, record: forge.Record, units: int) -> None:
        super().sums(record, units)
        at = record.at
        total, mark = (self.signed(word) // SMALLER for word in self.words[at + 11 : at + 13])
        self.store(at + 11, total, mark, min(self.words[at + 13], units + 1))

    def signed(self, word: int) -> int:
        return word - 2**64 if word >= layout.TOP else word

    def sample(self) -> None:
        """A later sample of a value counts nothing."""
        before = len(self.samples)
        super().sample()
        for record in self.samples[before:]:
            at = record.at
            key = self.words[at + 4], self.words[at + 5]
            count, mark = (min(word, MOST_COUNT) for word in self.words[at + 6 : at + 8])
            self.store(at + 6, *((0, 0) if key in self.valued else (count, min(mark, count))))
            self.valued.add(key)


def longer_block(made: Forge) -> None:
    """A block that continues into the one after it, mostly."""
    at = made.chance.choice([record.at for record in made.histograms + made.samples])
    room = min(made.page - at % made.page, made.free - at)
    size = made.words[at]
    made.store(at, made.chance.choice([min(size + 1, room), min(size + 5, room), room]))


def longer_counts(made: Forge) -> None:
    at = made.chance.choice([record.counts for record in made.histograms])
    if at:
        room = min(made.page - at % made.page, made.free - at)
        made.store(at, min(made.words[at] + made.chance.choice([1, 2, 9]), room))


def counts_of_another(made: Forge) -> None:
    record = made.chance.choice(made.histograms)
    same = [other.counts for other in made.histograms if other.n == record.n and other.counts]
    if same:
        made.store(record.at + 8, made.chance.choice(same))


def word_behind(made: Forge) -> None:
    if made.free < len(made.words):
        made.store(
            made.chance.choice([made.free, len(made.words) - 1, made.chance.randrange(made.free, len(made.words))]),
            made.chance.choice([1, 2**63]),
        )


def too_little_room(made: Forge) -> None:
    """The free pointer leaves from 1 to 5 words of its page; 5 are enough."""
    end = made.free + -made.free % made.page
    left = end - made.chance.choice([1, 2, 3, 4, 5])
    made.free = max(left, made.free)


def another_tail(made: Forge) -> None:
    """No record, or one that is not the last, as a stop may leave it."""
    listed = [record.at for record in made.histograms + made.samples]
    made.tail = made.chance.choice(
        [0, 13, made.tail + 1, 2**64 - 1, made.free, layout.QUEUE, made.chance.choice(listed)]
    )


def later_sample(made: Forge) -> None:
    """One more sample of a value, with a count, with a mark, or with neither."""
    if made.samples:
        first = made.chance.choice(made.samples).at
        at = made.block(8, layout.SAMPLE)
        if at is not None:
            count, mark = made.chance.choice([(0, 0), (1, 0), (1, 1), (7, 7)])
            made.store(at + 4, *made.words[first + 4 : first + 6], count, mark)
            made.publish(at)


def unpadded_name(made: Forge) -> None:
    record = made.chance.choice(made.histograms)
    if len(record.name) % 8:
        last = record.at + layout.NAME + len(record.name) // 8
        byte = made.chance.randrange(len(record.name) % 8, 8)
        made.store(last, made.words[last] | 1 << 8 * byte)


def unused_counts(made: Forge) -> None:
    """A count, or a count and its mark, although the single word is not frozen."""
    record = made.chance.choice(made.histograms)
    if record.counts and made.words[record.at + 9] < layout.TOP:
        bucket = made.chance.randrange(record.n)
        made.store(record.counts + 4 + bucket, 1)
        made.store(record.counts + 4 + record.n + bucket, made.chance.choice([0, 1]))


def mark_on_counts(made: Forge) -> None:
    record = made.chance.choice(made.histograms)
    if record.counts and record.named is not None:
        made.store(record.counts + 4 + record.n + record.named, made.chance.choice([0, 1, 2**64 - 1]))


def much_used(made: Forge) -> None:
    """The most units that there are, or one more: by the redundant count, or by sums."""
    at = made.chance.choice(made.histograms).at
    other = made.chance.choice(made.histograms).at
    ways = {
        13: [layout.MOST_UNITS, layout.MOST_UNITS + 1, 2**64 - 1],
        11: [layout.MOST_SUM, 2**31 * 2**30, -layout.MOST_SUM],
        12: [layout.MOST_SUM, -(2**31) * 2**30],
    }
    for record in (at, other):
        place = made.chance.choice(list(ways))
        made.store(record + place, made.chance.choice(ways[place]))


def other_header(made: Forge) -> None:
    place, word = made.chance.choice([(6, 1), (6, 3), (1, 1), (5, 2), (14, 1)])
    made.store(place, word)


def bad_record(made: Forge) -> None:
    made.chance.choice(forge.HISTOGRAM_FAULTS)(made, made.chance.choice(made.histograms))


REASONS = [
    longer_block,
    longer_counts,
    counts_of_another,
    counts_of_another,
    word_behind,
    too_little_room,
    another_tail,
    later_sample,
    later_sample,
    unpadded_name,
    unused_counts,
    unused_counts,
    mark_on_counts,
    mark_on_counts,
    much_used,
    other_header,
    bad_record,
    forge.break_list,
]


def image_of(chance: random.Random) -> bytes:
    """The bytes of an image that may be adopted, or that may not be for a reason or two."""
    made = Forge(chance)
    for _ in range(chance.randint(0, 14)):
        part = chance.choices([made.histogram, made.sample, made.other], [6, 5, 1])[0]
        part()
    if made.histograms:
        for _ in range(chance.choice([0, 0, 1, 1, 1, 2])):
            chance.choice(REASONS)(made)
    return made.bytes()
