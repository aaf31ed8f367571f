"""A plain picture of a schedule, made of its records and of the lines that its replay has to write, to compare `stepped
--show` with.

It is written after docs/STEPPED.md, "The picture of a replayed schedule", and shares nothing with the program.
"""

from __future__ import annotations

import csv
from collections.abc import Sequence

from support.layout import COUNTS, HISTOGRAM, NAME, SAMPLE, SINGLE, SUM, SUM_MARK, TOP
from support.plain_calls import Calls, Event
from support.plain_reader import signed
from support.seeded_schedules import Schedule

COLUMN = 32
HEADER = {6: "flags", 7: "free", 8: "tail", 15: "queue.next"}
COMMON = ["size", "cookie", "type", "next"]
# The words of a histogram's record that hold a sum.
SUMS = (SUM, SUM_MARK)
FIELDS = {
    HISTOGRAM: [
        *COMMON, "kind", "min", "max", "buckets", "counts", "single", "single_mark", "sum", "sum_mark", "redundant",
        "name_length",
    ],
    SAMPLE: [*COMMON, "histogram", "value", "count", "mark"],
}


def blocks_of(words: Sequence[int]) -> list[int]:
    """Where the blocks begin: words without a size are passed one by one."""
    at, blocks = 16, []
    while at < len(words):
        if words[at]:
            blocks.append(at)
        at += words[at] or 1
    return blocks


def name_at(words: Sequence[int], block: int) -> str:
    length = min(words[block + 14], 128)
    data = b"".join(word.to_bytes(8, "little") for word in words[block + 15 : block + 31])
    return data[:length].decode("latin-1")


def in_counts(words: Sequence[int], histogram: int, block: int, place: int) -> str:
    """The name of a word after the header of a block of counts."""
    buckets, index = words[histogram + 7], place - len(COMMON)
    part = f"count[{index}]" if index < buckets else f"mark[{index - buckets}]"
    return f"{name_at(words, histogram)}.{part}"


def meaning(words: Sequence[int], at: int) -> str:
    """What a word means, with the words as they are."""
    blocks = blocks_of(words)
    block = next((block for block in blocks if block <= at < block + words[block]), None)
    if block is None:
        return HEADER.get(at, f"word[{at}]")
    tag, place, made = words[block + 2], at - block, words[block + 3] != 0
    owner = f"@{block}"
    if tag == COUNTS:
        users = [one for one in blocks if words[one + 2] == HISTOGRAM and words[one + 8] == block]
        if users and place >= len(COMMON):
            return in_counts(words, users[0], block, place)
        owner = name_at(words, users[0]) if users else owner
    elif made and tag == HISTOGRAM:
        owner = name_at(words, block)
    elif made and tag == SAMPLE:
        owner = f"{name_at(words, words[block + 4])}.sample({signed(words[block + 5])})"
    fields = FIELDS.get(tag, COMMON)
    other = "name" if tag == HISTOGRAM else f"word[{place}]"
    return f"{owner}.{fields[place] if place < len(fields) else other}"


def quantity(number: int | str, one: str) -> str:
    return f"{number} {one}" if int(number) == 1 else f"{number} {one}s"


def packed(word: int) -> str:
    return f"(bucket {word >> 32}, {quantity(word % 2**32, 'unit')})"


def single(version: int, buckets: int, word: int) -> str:
    """A single word in words, or its number if docs/FORMAT.md has no such word."""
    is_packed = word % TOP >> 32 < buckets and 1 <= word % 2**32 <= 65_535
    if word < TOP:
        return packed(word) if is_packed else str(word) if word else "empty"
    low = word - TOP
    if version == 2:
        return f"frozen {packed(low)}" if is_packed else str(word) if low else "frozen"
    return f"disabled (bucket {low})" if low < buckets else "disabled" if low == 65_535 else str(word)


def letters(word: int) -> str:
    """Eight bytes of a name; those that are 0 belong to none."""
    signs = [chr(byte) if 32 <= byte < 127 and chr(byte) not in '"\\' else f"\\x{byte:02x}" for byte in
             word.to_bytes(8, "little") if byte]
    return '"' + "".join(signs) + '"'


def value(words: Sequence[int], at: int, number: int) -> str:
    """What a number says in a word, with the words as they are."""
    block = next((block for block in blocks_of(words) if block <= at < block + words[block]), None)
    if block is None:
        return str(number)
    tag, place = words[block + 2], at - block
    if tag == HISTOGRAM and place == SINGLE:
        return single(words[1], words[block + 7], number)
    if tag == HISTOGRAM and NAME <= place < NAME + -(-min(words[block + 14], 128) // 8):
        return letters(number)
    if tag == HISTOGRAM and place in SUMS or tag == SAMPLE and place == 5:
        return str(signed(number))
    return str(number)


def said(fields: Sequence[str]) -> str:
    """An answer in words, of its fields in a line."""
    kind, *rest = fields
    if kind == "hist":
        return f"histogram at {rest[0]}"
    if kind == "delta":
        return f"took a sum of {rest[0]}" + keys(rest[1:])
    if kind == "snapshot":
        return f"saw a sum of {rest[0]}, redundant {rest[1]}" + keys(rest[2:])
    if kind == "refused":
        return "refused, " + " ".join(rest)
    if kind == "batch_refused":
        return "refused, " + " ".join(rest[1:]) + f", after {quantity(rest[0], 'item')}"
    return {"added": "added", "flagged": "corrupt flag set"}[kind]


def keys(fields: Sequence[str]) -> str:
    """Keys and their units, without those that have none."""
    pairs = zip(fields[::2], fields[1::2])
    return "".join(f", {quantity(units, 'unit')} at {key}" for key, units in pairs if units != "0")


def asked(record: Sequence[str]) -> str:
    """What the record of a call asks for."""
    kind, _, *rest = record
    shown = {"add": 3, "set_corrupt": 0}.get(kind, 1)
    return " ".join([kind, *rest[:shown]])


def effect(words: list[int], event: Event | None, change: Sequence[int]) -> str:
    """What an event did that made this change; `words` are those before it, and are then changed."""
    if change:
        at, old, new = change
        words[at] = new
        return f"{meaning(words, at)} {value(words, at, old)} -> {value(words, at, new)}"
    if event and event[0] == "exchange" and words[event[1]] != event[2]:
        at, wanted, found = event[1], event[2] or 0, words[event[1]]
        return f"{meaning(words, at)}: wanted {value(words, at, wanted)}, found {value(words, at, found)}"
    if event and event[0] == "load":
        return f"{meaning(words, event[1])}: loaded {value(words, event[1], words[event[1]])}"
    return "-"


def row(number: int | str, actor: int, cell: str) -> str:
    return f"{number}\t{' ' * (COLUMN * actor)}{cell}\n"


def picture(schedule: str, lines: str, most: int | None = None) -> str:
    """The picture of a schedule, whose replay writes these lines, up to `most` events."""
    records = list(csv.reader(schedule.splitlines()))
    size, page, segment_id, actors, version = map(int, records[0][1:])
    world = Schedule(size, page, segment_id, actors, version)
    words, calls = world.words(), Calls(world, records)
    rows: list[str] = []
    running: set[int] = set()
    events = 0
    for line in lines.splitlines():
        number, who, what, *rest = line.split(",")
        actor, record = int(who), records[int(number) - 1]
        if what != "answer" or actor not in running:
            if most is not None and events == most:
                break
        if what == "look":
            at, found = map(int, rest)
            rows.append(row("", 0, f"copy {who}: {meaning(words, at)}: loaded {value(words, at, found)}"))
            continue
        if what == "step":
            events += 1
            change = [int(number) for number in rest]
            rows.append(row(events, actor, effect(words, calls.step(actor, words, change), change)))
            continue
        if actor not in running:
            rows.append(row("", actor, f"actor {actor}: {asked(record)}"))
            running.add(actor)
        if what == "begin":
            calls.begin(int(number), actor)
        if what == "answer":
            calls.answer(int(number), actor, rest)
            rows.append(row("", actor, f"answer: {said(rest)}"))
            running.discard(actor)
    return "".join(rows)
