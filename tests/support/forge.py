"""Forged images of both versions: valid ones with histograms of all kinds, and then faults in them.

`image_of(chance)` gives the bytes of one; the same random numbers give the same bytes.
"""

from __future__ import annotations

import dataclasses
import random
import struct

from support.layout import (
    BLOCK_COOKIE,
    BOOLEAN,
    COUNTS,
    CUSTOM,
    GREATEST,
    HISTOGRAM,
    LEAST,
    LINEAR,
    MOST_BYTES,
    MOST_SUM,
    MOST_UNITS,
    NAME,
    NOTHING_PACKED,
    QUEUE,
    SAMPLE,
    SEGMENT_COOKIE,
    SPARSE,
    TOP,
    Words,
)

NAMES = [b"A", b"B", b"abcdefgh", b"a-longer-name", b"n" * 128, b"Z.1", b"A!", b"~"]
VALUES = [LEAST, -5, -1, 0, 3, 77, GREATEST]


@dataclasses.dataclass
class Record:
    """A record on the list. `named` is the bucket that the single word names, or None."""

    at: int
    kind: int
    name: bytes = b""
    n: int = 0
    counts: int = 0
    named: int | None = None

    @property
    def first_range(self) -> int:
        return self.at + NAME + -(-len(self.name) // 8)


class Forge(Words):
    """Words of a segment, filled from the front, and the records on its list."""

    def __init__(self, chance: random.Random) -> None:
        self.chance = chance
        page = chance.choice([64, 64, 64, 96, 128, 256, 4096])
        size = page * (1 if page == 4096 else chance.randint(1, 8))
        flags = chance.choice([0, 0, 0, 0, 1, 2, 3, 4])
        self.version = chance.choice([1, 2])
        super().__init__(size, page, self.version, flags)
        self.histograms: list[Record] = []
        self.samples: list[Record] = []

    def spec(self, kind: int) -> tuple[list[int], list[int]]:
        """The three numbers of a spec, and a custom one's ranges."""
        chance = self.chance
        most_buckets = min(1000, (self.page - 40) // 2)
        wide = [1000, 1001] if most_buckets == 1000 else []
        if kind == LINEAR:
            n = chance.choice([3, 4, 5, 6, chance.randint(3, most_buckets), *wide])
            least = chance.choice([1, 2, 9, 1000])
            most = chance.choice([least + max(1, n - 2), least + n + 50, GREATEST - 1])
            return [least, most, n], []
        if kind == BOOLEAN:
            return [1, 2, 3], []
        if kind == CUSTOM:
            count = chance.choice([1, 2, 3, 4, chance.randint(1, most_buckets - 1), *[n - 1 for n in wide]])
            ranges = sorted(chance.sample(range(1, 2000), count))
            ranges[-1] = GREATEST - 1 if chance.random() < 0.2 else ranges[-1]
            return [ranges[0], ranges[-1], count + 1], ranges
        return [0, 0, 0], []

    def histogram(self) -> Record | None:
        """A histogram if there is room for it, valid but for a name of 129 bytes or 1,001 buckets now and then."""
        chance = self.chance
        kind = chance.choice([LINEAR, BOOLEAN, CUSTOM, SPARSE])
        name = chance.choice(NAMES) if chance.random() < 0.97 else b"m" * 129
        spec, ranges = self.spec(kind)
        padding = bytes(-len(name) % 8) if chance.random() < 0.8 else b"\xff" * (-len(name) % 8)
        name_words = struct.unpack(f"<{(len(name) + 7) // 8}Q", name + padding)
        at = self.block(15 + len(name_words) + len(ranges), HISTOGRAM)
        if at is None:
            return None
        record = Record(at, kind, name, spec[2])
        self.store(at + 4, kind, *spec)
        self.store(at + 14, len(name), *name_words, *ranges)
        units = self.samples_of(record) if kind != SPARSE else 0
        self.sums(record, units)
        self.publish(at)
        self.histograms.append(record)
        return record

    def single_words(self, bucket: int, units: int) -> tuple[int, int, int]:
        """The words that are packed with these units, disabled after that (in version 2: frozen), and before any were
        packed."""
        packed = bucket * 2**32 + units
        return (packed, TOP + bucket, NOTHING_PACKED) if self.version == 1 else (packed, TOP + packed, TOP)

    def samples_of(self, record: Record) -> int:
        """A valid single word, counts and marks of a histogram that is not sparse; gives its units."""
        chance, at, n = self.chance, record.at, record.n
        shared = [other.counts for other in self.histograms if other.counts and other.n == n]
        if shared and chance.random() < 0.3:
            record.counts = chance.choice(shared)
        elif chance.random() < 0.7:
            record.counts = self.block(4 + 2 * n, COUNTS) or 0
        bucket, units = chance.randrange(n), chance.choice([1, 7, 65_535])
        packed, disabled, nothing_packed = self.single_words(bucket, units)
        single = chance.choice([0, packed, disabled, disabled, nothing_packed])
        single = single if single < TOP or record.counts else 0
        kept = units if single == packed or (single == disabled and self.version == 2) else 0
        counts = self.words[record.counts + 4 : record.counts + 4 + n] if record.counts else [0] * n
        if record.counts and (single >= TOP or chance.random() < 0.3):
            counts = [chance.choice([0, 0, 1, 5, 70_000, MOST_UNITS - 65_535]) for _ in range(n)]
            self.store(record.counts + 4, *counts)
            self.store(record.counts + 4 + n, *[chance.choice([0, count, count // 2]) for count in counts])
        if single not in (0, nothing_packed):
            record.named = bucket
            total = counts[bucket] + kept
            self.store(
                at + 10, chance.choice([0, 0, total, total // 2, max(total, 65_535) if self.version == 1 else total])
            )
            if record.counts:
                self.store(record.counts + 4 + n + bucket, chance.choice([0, 0, 0, 2**64 - 1]))
        self.store(at + 8, record.counts, single)
        return sum(counts) + kept

    def sums(self, record: Record, units: int) -> None:
        chance = self.chance
        total = chance.choice([0, 1, 77, -5, -MOST_SUM, MOST_SUM, MOST_SUM // 2])
        mark = chance.choice([0, total, total // 2])
        redundant = units if chance.random() < 0.7 else chance.choice([0, 1, 2**64 - 1])
        self.store(record.at + 11, total, mark, redundant)

    def sample(self) -> None:
        """A sample of a sparse histogram, if there is one and room."""
        chance = self.chance
        owners = [record.at for record in self.histograms if record.kind == SPARSE]
        at = self.block(8, SAMPLE) if owners else None
        if at is not None:
            count = chance.choice([0, 1, 4, MOST_UNITS])
            mark = chance.choice([0, 0, count, count // 2])
            self.store(at + 4, chance.choice(owners), chance.choice(VALUES), count, mark)
            self.publish(at)
            self.samples.append(Record(at, SPARSE))

    def other(self) -> None:
        """A block of a type that readers pass over."""
        at = self.block(5, self.chance.choice([0, 2, 4, 2**64 - 1]))
        if at is not None:
            self.publish(at)


def small_block(forge: Forge, record: Record) -> None:
    forge.store(record.at, forge.chance.choice([15, 15, 8, 5]))


def shortened_block(forge: Forge, record: Record) -> None:
    """The block ends right after the name or the ranges, or one word before."""
    ranges = record.n - 1 if record.kind == CUSTOM else 0
    forge.store(record.at, record.first_range + ranges - record.at - forge.chance.choice([0, 1, 1]))


def no_kind(forge: Forge, record: Record) -> None:
    forge.store(record.at + 4, forge.chance.choice([0, 5, 2**32 + 1, 2**64 - 1]))


def another_kind(forge: Forge, record: Record) -> None:
    forge.store(record.at + 4, forge.chance.choice([LINEAR, BOOLEAN, CUSTOM, SPARSE]))


def name_length(forge: Forge, record: Record) -> None:
    size = forge.words[record.at]
    forge.store(record.at + 14, forge.chance.choice([0, 129, 2**64 - 1, 2**32 + 1, min(128, 8 * (size - 15) + 1)]))


def name_byte(forge: Forge, record: Record) -> None:
    byte = forge.chance.choice([0x00, 0x20, 0x7F, 0x80, 0xFF, *b',"!'])
    place = forge.chance.choice([0, len(record.name) - 1, forge.chance.randrange(len(record.name))])
    at = record.at + NAME + place // 8
    kept = forge.words[at] & ~(0xFF << 8 * (place % 8))
    forge.store(at, kept | byte << 8 * (place % 8))


def name_start(forge: Forge, record: Record) -> None:
    forge.store(record.at + NAME, forge.words[record.at + NAME] & ~0xFF | ord("!"))


def spec_number(forge: Forge, record: Record) -> None:
    chance = forge.chance
    place = chance.choice([5, 6, 7])
    word = forge.words[record.at + place]
    edges = [0, 1, 2, 3, 4, 1000, 1001, GREATEST - 1, GREATEST, 2**32 + word, word - 1, word + 1]
    forge.store(record.at + place, chance.choice(edges))


def linear_numbers(forge: Forge, record: Record) -> None:
    """The numbers of a linear spec at a limit, or one past it."""
    most = GREATEST - 1
    valid = [(1, most, 5), (5, 6, 3), (1, 4, 5), (1, 2, 3), (1, most, 1000)]
    wrong = [(1, GREATEST, 5), (5, 5, 3), (5, 5, 2), (5, 4, 3), (1, 4, 6), (1, 10, 2), (0, 10, 5), (1, most, 1001)]
    if record.kind == LINEAR:
        forge.store(record.at + 5, *forge.chance.choice(forge.chance.choice([valid, wrong, wrong])))


def spec_past_page(forge: Forge, record: Record) -> None:
    buckets = (forge.page - 4) // 2 + forge.chance.choice([0, 1, 1, 1])
    if record.kind == LINEAR:
        forge.store(record.at + 5, 1, GREATEST - 1, buckets)


def custom_count(forge: Forge, record: Record) -> None:
    if record.kind == CUSTOM:
        size = forge.words[record.at]
        most = record.at + size - record.first_range + 1
        forge.store(record.at + 7, forge.chance.choice([0, 1, 1001, 2**64 - 1, record.n + 1, record.n - 1, most + 1]))


def custom_range(forge: Forge, record: Record) -> None:
    """A range at the one before it, or at a limit; the record's minimum and maximum mostly follow it."""
    chance = forge.chance
    if record.kind == CUSTOM:
        last = record.n - 2
        place = chance.choice([0, last, last, chance.randint(0, last), chance.randint(0, last)])
        at = record.first_range + place
        before = forge.words[at - 1] if place > 0 else 0
        word = chance.choice([before, before, before + 1, 0, GREATEST - 1, GREATEST, GREATEST, 2**32 + 1])
        forge.store(at, word)
        if chance.random() < 0.8:
            forge.store(record.at + 5, *[word] * (place == 0))
            forge.store(record.at + 6, *[word] * (place == last))


def counts_reference(forge: Forge, record: Record) -> None:
    records = [other.at for other in forge.histograms]
    edges = [0, 12, 13, 15, 16, forge.free - 5, forge.free - 4, forge.free, 2**64 - 3, record.counts + 1, *records]
    forge.store(record.at + 8, forge.chance.choice(edges))


def counts_size(forge: Forge, record: Record) -> None:
    if record.counts:
        needed = 4 + 2 * record.n
        rest = forge.free - record.counts
        room = forge.page - record.counts % forge.page
        forge.store(
            record.counts, forge.chance.choice([needed - 1, needed - 1, needed, 4, 0, rest, rest + 1, room, room + 1])
        )


def counts_header(forge: Forge, record: Record) -> None:
    if record.counts:
        place, word = forge.chance.choice([(1, 0), (1, 2**64 - 1), (2, 0), (2, 1), (2, 3)])
        forge.store(record.counts + place, word)


def count(forge: Forge, record: Record) -> None:
    chance = forge.chance
    if record.counts:
        bucket = chance.choice([0, record.n - 1, chance.randrange(record.n)])
        forge.store(record.counts + 4 + bucket, chance.choice([MOST_UNITS, MOST_UNITS + 1, 2**64 - 1]))


def count_and_packed(forge: Forge, record: Record) -> None:
    """The sum of the two is at the limit, or one above it; in version 2 the word may be frozen."""
    chance = forge.chance
    if record.counts:
        units = chance.choice([1, 65_535])
        bucket = chance.randrange(record.n)
        forge.store(record.at + 9, chance.choice(forge.single_words(bucket, units)[:2]))
        forge.store(record.counts + 4 + bucket, MOST_UNITS - units + chance.choice([0, 1, 1]))


def sparse_words(forge: Forge, record: Record) -> None:
    if record.kind == SPARSE:
        forge.store(record.at + forge.chance.choice([8, 9, 10]), forge.chance.choice([1, 16, 2**32 + 1]))


def single_word(forge: Forge, record: Record) -> None:
    """Words of either version, in an image of any."""
    chance, n = forge.chance, record.n
    last = max(0, n - 1)
    packed_past = [65_536, 2**32, last * 2**32 + 65_536, TOP - 1, n * 2**32 + 1, 2**47 + 1]
    disabled_past = [TOP + 65_534, TOP + 65_536, TOP + n, 2**64 - 1]
    frozen_past = [TOP + word for word in packed_past[:3]] + [TOP + n * 2**32 + 1]
    forms = [0, 1, last * 2**32 + 65_535, TOP, TOP + last, NOTHING_PACKED, TOP + 1, TOP + last * 2**32 + 65_535]
    forge.store(record.at + 9, chance.choice(chance.choice([packed_past, disabled_past, frozen_past, forms])))


def single_without_counts(forge: Forge, record: Record) -> None:
    if record.kind != SPARSE:
        forge.store(record.at + 8, 0, TOP + forge.chance.choice([0, record.n - 1, 65_535, 2**32 + 1]))


def single_mark(forge: Forge, record: Record) -> None:
    forge.store(record.at + 10, forge.chance.choice([1, 65_535, 65_536, 2**32, 2**64 - 1]))


def single_mark_at_total(forge: Forge, record: Record) -> None:
    """A mark at the packed bucket's total, or one above it."""
    if record.counts and record.named is not None:
        total = forge.chance.choice([65_534, 65_535, 65_536, MOST_UNITS])
        kept = 7 if forge.version == 2 else 0
        forge.store(record.at + 9, forge.single_words(record.named, 7)[1])
        forge.store(record.counts + 4 + record.named, total - kept)
        forge.store(record.at + 10, total + forge.chance.choice([0, 1, 1]))


def other_mark(forge: Forge, record: Record) -> None:
    if record.counts:
        bucket = forge.chance.randrange(record.n)
        total = forge.words[record.counts + 4 + bucket]
        forge.store(record.counts + 4 + record.n + bucket, total + forge.chance.choice([0, 1, 2**63]))


def sum_limit(forge: Forge, record: Record) -> None:
    forge.store(record.at + 11 + forge.chance.choice([0, 1]), forge.chance.choice([-1, 1]) * (MOST_SUM + 1))


def sum_difference(forge: Forge, record: Record) -> None:
    """The difference is at its limit, or one beyond it."""
    side = forge.chance.choice([-1, 1])
    near = forge.chance.choice([0, MOST_SUM // 2, MOST_SUM])
    forge.store(record.at + 11, side * near, side * (near - MOST_SUM - forge.chance.choice([0, 1, 1])))


def name_of_another(forge: Forge, record: Record) -> None:
    """The name of an earlier record of the same kind of name words."""
    same = [other for other in forge.histograms if len(other.name) == len(record.name)]
    chosen = forge.chance.choice(same)
    words = forge.words[chosen.at + NAME : chosen.first_range]
    forge.store(record.at + NAME, *words)


HISTOGRAM_FAULTS = [
    small_block,
    shortened_block,
    no_kind,
    another_kind,
    name_length,
    name_byte,
    name_start,
    spec_number,
    linear_numbers,
    linear_numbers,
    spec_past_page,
    spec_past_page,
    spec_past_page,
    custom_count,
    custom_range,
    custom_range,
    custom_range,
    custom_range,
    counts_reference,
    counts_reference,
    counts_size,
    counts_size,
    counts_size,
    counts_header,
    count,
    count,
    count_and_packed,
    count_and_packed,
    count_and_packed,
    sparse_words,
    single_word,
    single_word,
    single_without_counts,
    single_mark,
    single_mark_at_total,
    other_mark,
    sum_limit,
    sum_difference,
    name_of_another,
]


IN_ORDER = [
    [small_block, no_kind],
    [name_length, name_byte, name_start],
    [spec_number, linear_numbers, custom_range],
    [counts_reference, counts_size, counts_header, count, sparse_words],
    [single_word, single_without_counts],
    [single_mark, other_mark],
    [sum_limit, sum_difference],
]


def neighbouring_faults(forge: Forge, record: Record) -> None:
    """A fault of one check and one of the next, of which the first has to be reported."""
    chance = forge.chance
    first = chance.randrange(len(IN_ORDER) - 1)
    for faults in IN_ORDER[first : first + 2]:
        chance.choice(faults)(forge, record)


def sample_fault(forge: Forge, record: Record) -> None:
    chance = forge.chance
    at = record.at
    owners = [other.at for other in forge.histograms] + [at, 0, 16, 2**64 - 1]
    faults = {
        0: [5, 7, 8],
        4: owners,
        5: [2**31 - 1, 2**31, -(2**31), -(2**31) - 1, 2**32 + 5, 2**63],
        6: [0, MOST_UNITS, MOST_UNITS + 1, 2**64 - 1],
        7: [forge.words[at + 6], forge.words[at + 6] + 1, 2**64 - 1],
    }
    place = chance.choice([0, 4, 4, 4, 5, 6, 7])
    forge.store(at + place, chance.choice(faults[place]))


def near(forge: Forge) -> int:
    """A value near some limit."""
    edges = [
        0, 1, 2, 3, 5, 12, 15, 16, 64, 128, 1000, 65_535, 65_536, 2**31 - 1, 2**31, MOST_UNITS, 2**32, TOP, 2**64 - 1,
    ]
    edges += [
        forge.free, len(forge.words), forge.page, BLOCK_COOKIE, NOTHING_PACKED, 2**32 + 1, 2**33 + 65_536, MOST_SUM,
    ]
    edges += [record.at for record in forge.histograms]
    return forge.chance.choice(edges) + forge.chance.choice([-5, -4, -1, 0, 0, 0, 1, 2])


def overwrite(forge: Forge) -> None:
    """Stores anything anywhere, mostly into a record."""
    chance = forge.chance
    if forge.histograms and chance.random() < 0.7:
        at = chance.choice(forge.histograms).at + chance.randrange(17)
    else:
        at = chance.randrange(16, max(17, forge.free))
    forge.store(at, near(forge))


def break_list(forge: Forge) -> None:
    """A next that leads elsewhere, or the header of a block on the list that is no more valid."""
    chance = forge.chance
    records = [record.at for record in forge.histograms + forge.samples]
    at = chance.choice(records)
    room = forge.page - at % forge.page
    ways = {
        3: [
            at, chance.choice(records), 0, 13, 15, 2**64 - 4, forge.free - 5, forge.free - 4, forge.free, at + 1, QUEUE,
        ],
        1: [0, 2**64 - 1, BLOCK_COOKIE + 1],
        0: [0, 4, forge.free - at, forge.free - at + 1, room, room + 1, room + 1],
    }
    place = chance.choice([3, 3, 3, 1, 0, 0, 0])
    forge.store(at + place, chance.choice(ways[place]))


def break_header(forge: Forge) -> None:
    """Something else in one word of the header."""
    chance = forge.chance
    size, page = len(forge.words), forge.page
    if chance.random() < 0.12:
        forge.free = chance.choice([0, 15, 17, size, size + 1, 2**64 - 1])
        return
    edges = {
        0: [0, SEGMENT_COOKIE + 2**32],
        1: [0, 1, 2, 3],
        2: [size + page, size - page, 0, 2**20 + 2**16, 2**32 + size],
        3: [0, 48, 60, 65, 65_552, 2**63 + 64],
        5: [0, 2, 2, 2, 3, 2**32 + 1],
        12: [0, 5],
        13: [0, 2],
        14: [1, 2],
    }
    place = chance.choice(list(edges))
    forge.store(place, chance.choice(edges[place]))


def resize(data: bytes, chance: random.Random) -> bytes:
    """The image in another length."""
    ways = [
        data[: chance.randrange(len(data))],
        data[: chance.randrange(16) * 8],
        data[: len(data) - 8],
        data + bytes(8),
        data + bytes(MOST_BYTES + 1 - len(data)),
        data[:16] + struct.pack("<Q", len(data) // 8 - 16) + data[24:-128],
    ]
    return chance.choice(ways)


def image_of(chance: random.Random) -> bytes:
    """The bytes of a forged image."""
    forge = Forge(chance)
    for _ in range(chance.randint(0, 20)):
        part = chance.choices([forge.histogram, forge.sample, forge.other], [6, 5, 1])[0]
        part()
    if chance.random() < 0.85 and forge.histograms:
        for record in chance.sample(forge.histograms, min(len(forge.histograms), chance.choice([1, 2, 3, 4, 5, 6]))):
            if chance.random() < 0.3:
                neighbouring_faults(forge, record)
            else:
                chance.choice(HISTOGRAM_FAULTS)(forge, record)
        for _ in range(chance.choice([0, 1, 2, 3]) if forge.samples else 0):
            sample_fault(forge, chance.choice(forge.samples))
        if chance.random() < 0.25:
            break_list(forge)
        if chance.random() < 0.2:
            overwrite(forge)
    if chance.random() < 0.2:
        for _ in range(chance.choice([1, 1, 2, 3])):
            break_header(forge)
    data = forge.bytes()
    return resize(data, chance) if chance.random() < 0.08 else data
