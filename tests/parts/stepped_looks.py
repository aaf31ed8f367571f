"""Looks that schedules of the stepped world take, beside a plain composition, plain_look.py.

Schedules are generated from a seed, and cut into single events. Between these the words of three copies are loaded, in
any order within a copy and at any moments. Each line of a load has the word as the lines before lead to it; the others
are those without looks. The look is what a plain composition makes of the copies. Its list ends, no record of it is
bad, and each bucket has no fewer units than calls that had ended before the first load have counted, and no more than
were begun by the last one.

Loads that are none of a look are refused before anything is done.
"""

from __future__ import annotations

import argparse
import collections
import concurrent.futures
import pathlib
import random
import struct
import tempfile
from collections.abc import Iterator, Sequence

from support import plain_look, plain_reader, plain_steps, seeded_schedules
from support.lanes import processors
from support.program import Answer, Case, answer, difference

PROGRAM = "stepped"
LOOKS = 200
COPIES = (1, 2, 3)
WORLD = "world,64,64,7,1,2\n"

# A load: its copy and its word.
Load = tuple[int, int]


def moves_of(schedule: seeded_schedules.Schedule, lines: Sequence[bytes]) -> list[seeded_schedules.Record]:
    """What was done by these lines, an event at a time."""
    moves: list[seeded_schedules.Record] = []
    running: set[int] = set()
    for line in lines:
        number, who, what, *_ = line.decode().rstrip("\n").split(",")
        actor = int(who)
        if what == "step":
            moves.append(("step", actor, 1))
        elif what == "begin":
            moves.append(schedule.records[int(number) - 2])
            running.add(actor)
        elif actor in running:
            running.remove(actor)
        else:
            moves.append(schedule.records[int(number) - 2])
    return moves


def loads_of(chance: random.Random, size: int) -> list[Load]:
    """The loads of a look, in the order of its copies. Of some copies all words are loaded, of others a few or none."""
    loads: list[Load] = []
    for copy in COPIES:
        words = list(range(size))
        order = chance.choice(["up", "down", "any", "some", "none"])
        if order in ("any", "some"):
            chance.shuffle(words)
        if order == "some":
            words = words[: chance.randrange(1, 20)] * chance.choice([1, 2])
        loads += [(copy, word) for word in {"down": reversed(words), "none": []}.get(order, words)]
    return loads


def among(
    chance: random.Random, moves: Sequence[seeded_schedules.Record], loads: Sequence[Load]
) -> list[seeded_schedules.Record]:
    """The moves with loads between them, in a part of the schedule."""
    ends = sorted(chance.choices(range(len(moves) + 1), k=2))
    moments = sorted(chance.choices(range(ends[0], ends[1] + 1), k=len(loads)))
    records: list[seeded_schedules.Record] = []
    left = collections.deque(zip(moments, loads))
    for number in range(len(moves) + 1):
        while left and left[0][0] == number:
            records.append(("look", *left.popleft()[1]))
        records += moves[number : number + 1]
    return records


class Copies:
    """Three copies of words, which are loaded one after the other. At its first load a copy gets all words as they are
    then, and so does each copy before it that had no load."""

    def __init__(self) -> None:
        self.words: list[list[int]] = []

    def begin(self, copy: int, words: Sequence[int]) -> None:
        while len(self.words) < copy:
            self.words.append(list(words))

    def load(self, copy: int, at: int, words: Sequence[int]) -> None:
        self.begin(copy, words)
        self.words[copy - 1][at] = words[at]


def units_of(words: Sequence[int]) -> collections.Counter[seeded_schedules.Key]:
    """The units of each key of an image, whose list ends and of which no record is bad."""
    seen: plain_reader.Seen = collections.Counter()
    references, stopped = plain_reader.walk(tuple(words), seen)
    histograms, bad = plain_reader.read_records(tuple(words), references, seen)
    assert not stopped and not bad, f"the list is stopped by {stopped}, and bad are {bad}"
    return collections.Counter(
        {
            (name.decode(), low): units
            for name, one in histograms.items()
            for low, (_, units) in one["buckets"].items()
        }
    )


def wrong_units(look: Sequence[int], first: seeded_schedules.Done, last: seeded_schedules.Done) -> str | None:
    """What is wrong with the units of a look, or None: `first` is what was done before its first load, and `last`
    before its last one."""
    units, least, most = units_of(look), first.ended(), last.begun()
    few = {key: (units[key], number) for key, number in least.items() if units[key] < number}
    many = {key: (number, most[key]) for key, number in units.items() if number > most[key]}
    return f"too few of {few}, too many of {many}" if few or many else None


def wrong_look(
    program: pathlib.Path, path: pathlib.Path, schedule: seeded_schedules.Schedule, lines: Sequence[bytes]
) -> str | None:
    """What is wrong with a schedule that takes a look, which is in a file, or None. `lines` are those of the schedule
    without loads."""
    came = answer(program, [path])
    if came.status != 0 or came.error:
        return f"status {came.status}, {came.error[:200]!r}"
    words, copies, others = schedule.words(), Copies(), []
    # How many other lines there are before the first load, and before the last.
    first = last = 0
    for line in came.output.splitlines(True):
        number, who, what, *rest = line.decode().rstrip("\n").split(",")
        if what != "look":
            others.append((who, what, *rest))
            if what == "step" and rest:
                words[int(rest[0])] = int(rest[2])
            continue
        at, value = map(int, rest)
        if words[at] != value:
            return f"word {at} is {words[at]}, and loaded was {value}"
        first = first if copies.words else len(others)
        last = len(others)
        copies.load(int(who), at, words)
    if others != [tuple(line.decode().rstrip("\n").split(",")[1:]) for line in lines]:
        return "other lines differ"
    # A copy that no record loads is taken at the end, and so is the last of them.
    ends = [first if copies.words else len(lines), last if len(copies.words) == len(COPIES) else len(lines)]
    copies.begin(len(COPIES), words)
    look = plain_look.look_of(*copies.words)
    wrong = difference(Answer(struct.pack(f"<{len(look)}Q", *look)), answer(program, [path, "--look"]))
    if wrong is None:
        wrong = wrong_units(look, *(seeded_schedules.Done(schedule, lines[:number], -1) for number in ends))
    if wrong is None:
        picture = plain_steps.picture(path.read_text(), came.output.decode())
        wrong = difference(Answer(picture.encode()), answer(program, [path, "--show"]))
    return wrong


def wrong_seeded(program: pathlib.Path, seed: str, folder: pathlib.Path) -> str | None:
    """What is wrong with the looks of the schedule of a seed, or None."""
    chance = random.Random(seed)
    path = folder / f"{seed}.csv"

    def replayed(text: str) -> Answer:
        path.write_text(text)
        return answer(program, [path])

    schedule, came = seeded_schedules.schedule_of(chance, replayed, (2,))
    if came.status != 0 or came.error:
        return f"status {came.status}, {came.error[:200]!r}"
    lines = came.output.splitlines(True)
    moves = moves_of(schedule, lines)
    looked = seeded_schedules.Schedule(schedule.size, schedule.page, schedule.id, schedule.actors, schedule.version)
    looked.records = among(chance, moves, loads_of(chance, schedule.size))
    path.write_text(looked.text())
    wrong = wrong_look(program, path, schedule, lines)
    if wrong is None:
        path.unlink()
    return wrong


def fault(text: str) -> Answer:
    return Answer(error=f"stepped: {text}\n".encode(), status=3)


# Loads that are none of a look, and the number of the first record that is refused.
REFUSED = {
    "no copy": ("look,0,1\n", 2),
    "a fourth copy": ("look,1,0\nlook,4,1\n", 3),
    "an earlier copy": ("look,1,0\nlook,2,5\nlook,2,4\nlook,1,9\n", 5),
    "a word past the end": ("look,1,63\nlook,1,64\n", 3),
    "no word": ("look,1\n", 2),
    "two words": ("look,1,2,3\n", 2),
    "a negative word": ("look,1,-1\n", 2),
}


def cases(program: pathlib.Path, options: argparse.Namespace) -> Iterator[Case]:
    with tempfile.TemporaryDirectory() as scratch, concurrent.futures.ThreadPoolExecutor(processors()) as pool:
        folder = pathlib.Path(scratch)
        path = folder / "look.csv"
        for name, (text, number) in REFUSED.items():
            path.write_text(WORLD + text)
            yield name, difference(fault(f"BadLine {number}"), answer(program, [path, "--look"]))
        path.write_text(WORLD)
        yield "no loads", difference(answer(program, [path, "--image"]), answer(program, [path, "--look"]))
        path.write_text(WORLD.replace(",2\n", ",1\n"))
        yield "version 1", difference(fault("World 1 Adopt OldVersion"), answer(program, [path, "--look"]))
        seeds = [f"{options.seed}-{number}" for number in range(LOOKS)]
        yield from zip(seeds, pool.map(lambda seed: wrong_seeded(program, seed, folder), seeds))
