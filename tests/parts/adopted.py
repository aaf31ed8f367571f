"""Images are adopted, recorded into and read again, by a program in Rattle that is built with checks (laid.py).

For each image a plain calculation (plain_adoption.py) says whether it may be adopted, or by which fault it may not. A
segment that continues with one reads as the plain reader reads the image, and in addition what was recorded: in each of
its histograms and in new ones of all kinds. So no record is bad then. The first delta of a histogram takes what no
delta had taken yet, and the units that are left are those that the image had not used, but for what was recorded.

The images are those that schedules of version 2 have where they are stopped: known ones, worked examples at every
event, and others that are generated from a seed. Each of them is adopted, but for those that were found corrupt. Then
come forged images: those of forge.py in version 2, and those of forge_adoption.py, which may be adopted but for a
reason or two. Each fault and each reason has to come into play.
"""

from __future__ import annotations

import argparse
import collections
import concurrent.futures
import pathlib
import random
import tempfile
from collections.abc import Callable, Iterable, Iterator, Sequence
from typing import Optional

from parts.schedules import FOLDER, replayed
from parts.threads import RECORDED, Pairs, pairs
from parts.threads import SPECS as NEW
from support import forge, forge_adoption, laid, plain_adoption, plain_tally, seeded_schedules, tries, worked_schedules
from support.lanes import processors
from support.layout import FULL, MOST_BYTES, MOST_UNITS
from support.plain_reader import KINDS, ReadHistogram, Words, words_of
from support.program import Answer, Case, answer

PROGRAM = "stepped"
VERSION = 2
# How many images one process adopts: an answer of `rt try` has less than 1 MiB.
TOGETHER = 100
# Of each of the two kinds of forged images there is one for each 6 of --images. With at least this many of each kind,
# each fault and each reason has to come into play.
ENOUGH_IMAGES = 1000
FAULTS = ("OldVersion", "Corrupt", "Damaged", "NoUnits", "Image Deleted", None)
# What is done with segments that were adopted; each of these has to come, and each new histogram be made.
DONE = ("delta", "sample", "batch", "refused", *(f"hist,{name}" for name in NEW))

Seen = collections.Counter[Optional[str]]
# The name of an image, and its bytes.
Image = tuple[str, bytes]


class Histogram(plain_tally.Histogram):
    """What a histogram's samples add up to, what was counted a second time, and what deltas have taken."""

    def __init__(self, kind: str, boundaries: list[int]) -> None:
        super().__init__(kind, boundaries)
        self.redundant = 0
        self.taken: collections.Counter[int] = collections.Counter()
        self.taken_sum = 0

    @classmethod
    def read(cls, found: ReadHistogram) -> Histogram:
        """What the plain reader found."""
        one = cls(KINDS[found["kind"]], found["boundaries"])
        one.counts.update({low: count for low, (_, count) in found["buckets"].items()})
        one.sum, one.redundant = found["sum"], found["redundant"]
        one.taken.update(found["marks"])
        one.taken_sum = found["sum mark"]
        return one

    def count(self, items: Pairs) -> None:
        for value, count in items:
            self.counts[self.key(value)] += count
            self.redundant += count

    def delta(self) -> tuple[int, Pairs]:
        """What a delta takes: an amount, and units by their keys in order."""
        units = [
            (key, self.counts[key] - self.taken[key])
            for key in sorted(self.counts)
            if self.counts[key] > self.taken[key]
        ]
        amount = self.sum - self.taken_sum
        self.taken.update(dict(units))
        self.taken_sum = self.sum
        return amount, units


class Going:
    """A segment that continues with the words of an image, as the lines of the program say it does."""

    def __init__(self, words: Words) -> None:
        read = plain_adoption.Read(words)
        self.histograms = {name.decode(): Histogram.read(found) for name, found in read.histograms.items()}
        self.order = [*self.histograms, *NEW]
        self.met: list[str] = []
        self.left = MOST_UNITS - plain_adoption.used_of(read)
        self.is_full = bool(words[6] & FULL)
        self.wrong: str | None = None

    def require(self, holds: bool, what: str) -> None:
        if not holds and self.wrong is None:
            self.wrong = what

    def meet(self, line: str) -> None:
        what, *fields = line.split(",")
        kinds: dict[str, Callable[..., None]] = {
            "units": self.units, "left": self.units, "hist": self.hist, "delta": self.delta, "sample": self.sample,
            "batch": self.batch, "refused": self.refused,
        }
        kinds[what](*fields)

    def units(self, number: str) -> None:
        self.require(int(number) == self.left, f"{number} units are left, wanted {self.left}")

    def hist(self, name: str) -> None:
        self.met.append(name)
        if name not in self.histograms:
            self.histograms[name] = Histogram.of(NEW[name])

    def delta(self, name: str, amount: str, *units: str) -> None:
        wanted = self.histograms[name].delta()
        came = int(amount), pairs(units)
        self.require(came == wanted, f"a delta of {name} took {came}, wanted {wanted}")

    def sample(self, name: str, value: str, count: str) -> None:
        self.histograms[name].count([(int(value), int(count))])
        self.histograms[name].sum += self.histograms[name].clamped(int(value)) * int(count)
        self.left -= int(count)

    def batch(self, name: str, amount: str, *items: str) -> None:
        counted = pairs(items)
        self.histograms[name].count(counted)
        self.histograms[name].sum += int(amount)
        self.left -= sum(count for _, count in counted)

    def refused(self, name: str, call: str, why: str, *more: str) -> None:
        """A call was refused; of a batch the first items may be counted. What it asks for is more than there is."""
        self.require(why in ("Full", "NoUnits"), f"{call} of {name} is refused by {why}")
        if call == "hist":
            self.require(name in NEW and why == "Full", f"hist of {name} is refused by {why}")
            self.met.append(name)
        if call == "batch":
            items, counted = pairs(more[1:]), int(more[0])
            self.histograms[name].count(items[:counted])
            self.left -= sum(count for _, count in items[:counted])
            asked = sum(count for _, count in items)
        else:
            asked = int(more[0]) if more else 0
        self.require(
            (why == "NoUnits") <= (asked > self.left), f"{call} of {name} has no units, and there are {self.left}"
        )
        self.is_full = self.is_full or why == "Full"

    def report(self) -> bytes:
        flags = b"!flag,full\n" * self.is_full
        differing = [
            (name, one.redundant)
            for name, one in sorted(self.histograms.items())
            if one.redundant != sum(one.counts.values())
        ]
        return (
            plain_tally.report(self.histograms)
            + flags
            + "".join(f"!redundant,{name},{number}\n" for name, number in differing).encode()
        )


def wrong_going(words: Words, lines: Sequence[str]) -> str | None:
    """What is wrong with the lines of an image that was adopted, or None."""
    if "report" not in lines or lines[-1] != "end":
        return f"came {lines}"
    place = lines.index("report")
    going = Going(words)
    for line in lines[:place]:
        going.meet(line)
    if going.wrong is None and going.met != going.order:
        return f"recorded into {going.met}, wanted {going.order}"
    came, wanted = lines[place + 1 : -1], going.report().decode().splitlines()
    return going.wrong or (None if came == wanted else f"the report is {came}, wanted {wanted}")


def wrong_image(data: bytes, lines: Sequence[str], seen: Seen) -> str | None:
    """What is wrong with the lines that came for an image, or None."""
    words = words_of(data, collections.Counter())
    fault = plain_adoption.fault_of(words, 0, seen)
    if fault is not None:
        return None if lines == [f"fault,{fault}"] else f"wanted {fault}, came {lines}"
    seen.update(line if line in DONE else line.split(",")[0] for line in lines)
    return wrong_going(words, lines)


def lots_of(came: Answer, count: int) -> list[list[str]]:
    """The lines of each image of an answer, which has this many."""
    lines = came.output.decode().splitlines()
    every: list[list[str]] = []
    for line in lines:
        if line.startswith("image,"):
            every.append([])
        else:
            every[-1].append(line)
    if came.status != 0 or came.error or len(every) != count:
        raise ValueError(
            f"status {came.status}, {came.error[-500:]!r}, {len(every)} images of {count}, the last lines {lines[-3:]}"
        )
    return every


def adopted(images: Sequence[Image]) -> list[list[str]]:
    """The lines of each image, by its place."""
    with laid.repository([RECORDED]) as root, tempfile.TemporaryDirectory() as scratch:
        folder = pathlib.Path(scratch).resolve()
        paths = [folder / f"{place}.img" for place in range(len(images))]
        for path, (_, data) in zip(paths, images):
            path.write_bytes(data)
        lots = [paths[first : first + TOGETHER] for first in range(0, len(paths), TOGETHER)]
        commands = [["adopt", *map(str, lot)] for lot in lots]
        came = tries.answers(RECORDED, commands, folder / "cases", root)
    return [lines for lot, one in zip(lots, came) for lines in lots_of(one, len(lot))]


def wrongs_of(images: Iterable[Image], every: Iterable[Sequence[str]], seen: Seen) -> Iterator[Case]:
    """What is wrong with the lines of each image, or None."""
    for (name, data), lines in zip(images, every):
        wrong = wrong_image(data, lines, seen)
        if wrong is not None:
            kept = pathlib.Path("adopted.img").resolve()
            kept.write_bytes(data)
            wrong += f"; the image is kept as {kept}"
        yield name, wrong


def stops(stepped: pathlib.Path, path: pathlib.Path, name: str, events: Iterable[int]) -> list[Image]:
    """The images of the schedule in a file, if it stops after these numbers of events."""
    return [
        (f"{name} after {event} events", answer(stepped, [path, "--stop", str(event), "--image"]).output)
        for event in events
    ]


def worked_stops(
    stepped: pathlib.Path, folder: pathlib.Path, number: int, name: str, schedule: seeded_schedules.Schedule
) -> list[Image]:
    """The images of a worked example at every event."""
    path = folder / f"worked-{number}.csv"
    came = replayed(stepped, path, schedule.text())
    return stops(stepped, path, name, range(came.output.count(b",step") + 1))


def seeded_stops(stepped: pathlib.Path, folder: pathlib.Path, seed: str, number_of_stops: int) -> list[Image]:
    """The images of the schedule of a seed at its end and at some events, or at each if their number is 0."""
    chance = random.Random(f"{seed} adopted")
    path = folder / f"{seed}.csv"
    _, came = seeded_schedules.schedule_of(chance, lambda text: replayed(stepped, path, text), [VERSION])
    last = came.output.count(b",step")
    events = (
        range(last + 1) if number_of_stops == 0 else [last, *chance.choices(range(last + 1), k=number_of_stops - 1)]
    )
    return stops(stepped, path, f"schedule {seed}", events)


def is_frozen(data: bytes) -> bool:
    return data[8:16] == VERSION.to_bytes(8, "little")


def known_stops() -> list[Image]:
    """The images of the known schedules of version 2 where they stop."""
    images = [(f"known {path.stem}", path.read_bytes()) for path in sorted(FOLDER.glob("*.words"))]
    return [(name, data) for name, data in images if is_frozen(data)]


def stopped_images(stepped: pathlib.Path, options: argparse.Namespace) -> list[Image]:
    """The images of schedules of version 2 where they stop, each with a name."""
    with tempfile.TemporaryDirectory() as scratch, concurrent.futures.ThreadPoolExecutor(processors()) as pool:
        folder = pathlib.Path(scratch)
        worked = [(one.name, one.schedule) for one in worked_schedules.examples() if one.schedule.version == VERSION]
        every = [pool.submit(worked_stops, stepped, folder, number, *one) for number, one in enumerate(worked)]
        seeds = [f"{options.seed}-{number}" for number in range(options.schedules)]
        every += [pool.submit(seeded_stops, stepped, folder, seed, options.stops) for seed in seeds]
        return known_stops() + [image for images in every for image in images.result()]


def wrong_stopped(data: bytes, wrong: str | None) -> str | None:
    """What is wrong with an image of a stop, or None: it is adopted, unless the segment was found corrupt."""
    words = words_of(data, collections.Counter())
    fault = plain_adoption.fault_of(words, 0, collections.Counter())
    wanted = "Corrupt" if words[6] & 1 else None
    return wrong if fault == wanted else f"wanted {wanted}, and {fault} is reckoned"


def forged_images(seed: str, count: int) -> list[Image]:
    """Forged images of version 2 that are words, each with a name."""
    found: list[Image] = []
    number = 0
    while len(found) < count:
        data = forge.image_of(random.Random(f"{seed} {number}"))
        if len(data) % 8 == 0 and len(data) <= MOST_BYTES and is_frozen(data):
            found.append((f"forged image {number} of seed {seed}", data))
        number += 1
    return found


def adoptable_images(seed: str, count: int) -> list[Image]:
    """Forged images that may be adopted but for a reason or two, each with a name."""
    return [
        (f"adoptable image {number} of seed {seed}", forge_adoption.image_of(random.Random(f"{seed} {number}")))
        for number in range(count)
    ]


def never_seen(seen: Seen) -> str | None:
    never = [str(one) for one in (*FAULTS, *plain_adoption.DAMAGES, *DONE) if not seen[one]]
    return f"wanted each fault, each reason and each call, came none of: {'; '.join(never)}" if never else None


def cases(stepped: pathlib.Path, options: argparse.Namespace) -> Iterator[Case]:
    count = -(-options.images // 6)
    stopped = stopped_images(stepped, options)
    others = [*forged_images(options.seed, count), *adoptable_images(options.seed, count)]
    every = adopted([*stopped, *others])
    for (_, data), (name, wrong) in zip(stopped, wrongs_of(stopped, every, collections.Counter())):
        yield name, wrong_stopped(data, wrong)
    seen: Seen = collections.Counter()
    yield from wrongs_of(others, every[len(stopped) :], seen)
    print(f"adopted: {len(stopped)} images of stops; of forged ones {seen[None]} were adopted")
    if count >= ENOUGH_IMAGES:
        yield "faults and reasons in play", never_seen(seen)
