"""Schedules of the stepped world, replayed by the program `stepped`.

Those in the folder cases/schedules have known answers: NNN.csv is a schedule, and NNN.out, NNN.err and NNN.status are
its result; NNN.report and NNN.words are what it shows after the events of NNN.stop. The answers are those of an
independent implementation.

Worked examples end with words and answers that the format gives. They are stopped at every event. Others are generated
from a seed and are stopped at events of the seed. Then the words are those that the lines lead to, the report is that
of a plain reader and has no fault, and each bucket has no more units than were begun, and no fewer than calls that
ended have counted. In version 1, units are added that are on their way from the single word to the counts.

A known schedule in version 2 is stopped every few events, and another continues with the image: its lines lead from the
words of the image to its own, and its report is a plain tally of what the image counted and of the samples since.
Images that nothing continues with have their faults.
"""

from __future__ import annotations

import argparse
import collections
import concurrent.futures
import pathlib
import random
import struct
import tempfile
from collections.abc import Collection, Iterable, Iterator, Sequence

from support import plain_reader, plain_tally, seeded_schedules, worked_schedules
from support.lanes import processors
from support.program import ROOT, Answer, Case, Word, answer, difference

PROGRAM = "stepped"
FOLDER = ROOT / "tests" / "cases" / "schedules"
FULL = "/dev/full"
# Words of a command line that ends the program when it is read, and the status.
USAGES: list[tuple[list[str], int]] = [
    ([], 2), (["a", "--report", "--image"], 2), (["a", "--stop", "x"], 2), (["--help"], 0),
]

# A known schedule, and what continues with its images.
STOPPED = FOLDER / "054.csv"
EVENTS_APART = 5
GOES_ON = """adopt,{image},2
hist,0,A,linear,1,10,5
hist,1,C,sparse
step,0,3
step,1,1000
step,0,1000
add,0,A,3,4
add,1,C,-7,2
step,0,2
step,1,1000
step,0,1000
"""


def shown_of(case: pathlib.Path) -> Iterator[tuple[str, list[str], Answer]]:
    """What a known schedule shows: a name, the words of the command line after its path, and what has to come."""

    def kept(kind: str) -> bytes:
        return case.with_suffix(kind).read_bytes()

    status = int(kept(".status"))
    yield "lines", [], Answer(kept(".out"), kept(".err"), status)
    if status != 0:
        yield "fault", ["--report"], Answer(b"", kept(".err"), status)
    else:
        stop = ["--stop", kept(".stop").decode().strip()]
        yield "report", [*stop, "--report"], Answer(kept(".report"))
        yield "words", [*stop, "--image"], Answer(kept(".words"))


def wrong_known(program: pathlib.Path, case: pathlib.Path) -> str | None:
    """What is wrong with the answers to a known schedule, or None."""
    wrongs = (difference(wanted, answer(program, [case, *words])) for _, words, wanted in shown_of(case))
    return next(filter(None, wrongs), None)


def units_on_their_way(
    words: plain_reader.Words, references: Collection[int], done: seeded_schedules.Done
) -> collections.Counter[seeded_schedules.Key]:
    """The units of each bucket that are on their way from the single word to the counts, in version 1 alone: from the
    event that disables the word to the next of the same actor."""
    moving: collections.Counter[seeded_schedules.Key] = collections.Counter()
    if done.schedule.version == 2:
        return moving
    for single, old in done.disabled.values():
        at = single - 9
        if at in references and words[at + 2] == 1:
            name = plain_reader.name_of(words, at, collections.Counter())
            boundaries = plain_reader.boundaries_of(words, at, name)
            bucket = plain_reader.disabled_bucket(words[single], len(boundaries) - 1)
            if bucket is not None:
                moving[name.decode(), boundaries[bucket]] += old % 2**32
    return moving


def wrong_units(words: plain_reader.Words, done: seeded_schedules.Done) -> str | None:
    """What is wrong with the units that the words of a segment have, or None."""
    seen: plain_reader.Seen = collections.Counter()
    references, stopped = plain_reader.walk(words, seen)
    histograms, bad = plain_reader.read_records(words, references, seen)
    if stopped or bad:
        return f"the list is stopped by {stopped}, and bad are {bad}"
    read = {
        (name.decode(), low): units for name, one in histograms.items() for low, (_, units) in one["buckets"].items()
    }
    begun, ended, moving = done.begun(), done.ended(), units_on_their_way(words, references, done)
    for key in {*read, *begun, *ended, *moving}:
        units = read.get(key, 0) + moving[key]
        if units > begun[key]:
            return f"{key} has {units} units, and begun are {begun[key]}"
        if units < ended[key]:
            return f"{key} has {units} units, and ended are {ended[key]}"
    return None


def wrong_stop(
    program: pathlib.Path, schedule: seeded_schedules.Schedule, path: pathlib.Path, lines: Sequence[bytes], events: int
) -> str | None:
    """What is wrong if a schedule stops after a number of events, or None."""
    done = seeded_schedules.Done(schedule, lines, events)
    came = answer(program, [path, "--stop", str(events)])
    wrong = difference(Answer(b"".join(done.lines)), came)
    image = answer(program, [path, "--stop", str(events), "--image"])
    wrong = wrong or difference(Answer(struct.pack(f"<{schedule.size}Q", *done.words)), image)
    if wrong is None:
        report = plain_reader.report_of(image.output, collections.Counter())
        came = answer(program, [path, "--stop", str(events), "--report"])
        wrong = difference(Answer(report), came) or wrong_units(tuple(done.words), done)
    return wrong and f"after {events} events: {wrong}"


def wrong_seeded(program: pathlib.Path, seed: str, stops: int, folder: pathlib.Path) -> str | None:
    """What is wrong with the schedule of a seed, or None. It is stopped at `stops` of its events, or at each if `stops`
    is 0."""
    chance = random.Random(seed)
    path = folder / f"{seed}.csv"
    schedule, came = seeded_schedules.schedule_of(chance, lambda text: replayed(program, path, text))
    if came.status != 0 or came.error:
        return f"status {came.status}, {came.error[:200]!r}\n{path.read_text()}"
    lines = came.output.splitlines(True)
    last = sum(b",step" in line for line in lines)
    events = range(last + 1) if stops == 0 else [last, *chance.choices(range(last + 1), k=stops - 1)]
    wrong = next(filter(None, (wrong_stop(program, schedule, path, lines, event) for event in events)), None)
    if wrong is not None:
        return f"{wrong}\n{path.read_text()}"
    path.unlink()
    return None


def answers_of(lines: Iterable[bytes]) -> list[str]:
    """The answers of calls in these lines, each after its actor."""
    fields = (line.decode().rstrip("\n").split(",", 3) for line in lines)
    return [f"{actor},{said[0]}" for _, actor, what, *said in fields if what == "answer"]


def wrong_end(example: worked_schedules.Example, lines: Sequence[bytes]) -> str | None:
    """What is wrong with the end of a worked example by its lines, or None."""
    last = seeded_schedules.Done(example.schedule, lines, -1).words
    others = {at: (last[at], word) for at, word in example.words.items() if last[at] != word}
    if others:
        return f"other words at the end, each as it came and as it is known: {others}"
    answers = answers_of(lines)
    if answers[len(answers) - len(example.answers) :] != example.answers:
        return f"the answers are {answers}, and the last are known: {example.answers}"
    return None


def wrong_worked(
    program: pathlib.Path, number: int, example: worked_schedules.Example, folder: pathlib.Path
) -> str | None:
    """What is wrong with a worked example, which is stopped at every event, or None."""
    path = folder / f"worked-{number}.csv"
    came = replayed(program, path, example.schedule.text())
    if came.status != 0 or came.error:
        return f"status {came.status}, {came.error[:200]!r}"
    lines = came.output.splitlines(True)
    wrong = wrong_end(example, lines)
    if wrong is not None:
        return wrong
    events = range(sum(b",step" in line for line in lines) + 1)
    return next(filter(None, (wrong_stop(program, example.schedule, path, lines, event) for event in events)), None)


def first_records(words: plain_reader.Words) -> dict[bytes, int]:
    """The reference of the first record of each name."""
    references, _ = plain_reader.walk(words, collections.Counter())
    named = (
        (plain_reader.name_of(words, at, collections.Counter()), at)
        for at in reversed(references)
        if words[at + 2] == 1
    )
    return dict(named)


def told_of(image: bytes) -> tuple[dict[str, plain_tally.Histogram], dict[str, int]]:
    """What an image counts by a plain tally, by names, and by how much each redundant count differs from the units."""
    words = plain_reader.words_of(image, collections.Counter())
    references, _ = plain_reader.walk(words, collections.Counter())
    histograms, _ = plain_reader.read_records(words, references, collections.Counter())
    tally, differs = {}, {}
    for name, one in histograms.items():
        kind = plain_reader.KINDS[one["kind"]]
        known = tally[name.decode()] = plain_tally.Histogram(kind, list(one["boundaries"]))
        known.take({low: units for low, (_, units) in one["buckets"].items()}, one["sum"])
        differs[name.decode()] = one["redundant"] - sum(known.counts.values())
    return tally, differs


def report_behind(image: bytes) -> bytes:
    """The report of an image that GOES_ON has continued."""
    tally, differs = told_of(image)
    tally.setdefault("A", plain_tally.Histogram.of(("linear", 1, 10, 5))).add(3, 4)
    tally.setdefault("C", plain_tally.Histogram.of(("sparse",))).add(-7, 2)
    redundant = ((name, sum(tally[name].counts.values()) + more) for name, more in sorted(differs.items()) if more)
    return plain_tally.report(tally) + "".join(f"!redundant,{name},{units}\n" for name, units in redundant).encode()


def wrong_lines(lines: bytes, image: bytes, last: bytes) -> str | None:
    """What is wrong with the lines that lead from the words of an image to the last ones, or None."""
    words = list(plain_reader.words_of(image, collections.Counter()))
    answers = []
    for line in lines.decode().splitlines():
        _, actor, what, *rest = line.split(",")
        if what == "answer":
            answers.append((int(actor), *rest))
        elif what == "step" and rest:
            at, old, new = map(int, rest)
            if words[at] != old:
                return f"word {at} is {words[at]}: {line}"
            words[at] = new
    if struct.pack(f"<{len(words)}Q", *words) != last:
        return "the lines lead to other words"
    first = first_records(words)
    wanted = [(0, "added"), (0, "hist", str(first[b"A"])), (1, "added"), (1, "hist", str(first[b"C"]))]
    return None if sorted(answers) == wanted else f"the answers are {answers}, and not {wanted}"


def wrong_gone_on(program: pathlib.Path, events: int, folder: pathlib.Path) -> str | None:
    """What is wrong if the known schedule stops after a number of events, and another continues with its image, or
    None."""
    image = folder / f"stopped-{events}.img"
    path = folder / f"goes-on-{events}.csv"
    stopped = answer(program, [STOPPED, "--stop", str(events), "--image"]).output
    image.write_bytes(stopped)
    lines = replayed(program, path, GOES_ON.format(image=image))
    last = answer(program, [path, "--image"])
    report = difference(Answer(report_behind(stopped)), answer(program, [path, "--report"]))
    error = lines.error or last.error
    wrong = repr(error) if error else report or wrong_lines(lines.output, stopped, last.output)
    return wrong and f"after {events} events: {wrong}"


def wrong_stops(program: pathlib.Path, pool: concurrent.futures.Executor, folder: pathlib.Path) -> str | None:
    last = answer(program, [STOPPED]).output.count(b",step")
    wrongs = pool.map(lambda events: wrong_gone_on(program, events, folder), range(0, last + 1, EVENTS_APART))
    return next(filter(None, wrongs), None)


def not_gone_on(program: pathlib.Path, folder: pathlib.Path) -> Iterator[tuple[str, str, Answer]]:
    """Images that nothing continues with: a name, the first record, and what comes."""
    image = folder / "image.img"

    def of(name: str, data: bytes, record: str, wanted: Answer) -> tuple[str, str, Answer]:
        image.write_bytes(data)
        return name, record.format(image=image), wanted

    stopped = answer(program, [STOPPED, "--image"]).output
    spoiled = folder / "spoiled.csv"
    spoiled.write_text("world,64,64,7,1,2\nset_corrupt,0\nstep,0,1\n")
    corrupt = answer(program, [spoiled, "--image"]).output
    adopt = "adopt,{image},1"
    yield of("no image", b"", f"adopt,{folder / 'none.img'},1", fault("Read", 4))
    yield of("no whole words", stopped[:-1], adopt, fault("NotWords", 3))
    yield of("too many words", bytes(8 * plain_reader.MOST_WORDS + 1), adopt, fault("TooLong", 3))
    yield of("no actor", stopped, "adopt,{image},0", fault("World 1 BadShape", 3))
    yield of("65 actors", stopped, "adopt,{image},65", fault("World 1 BadShape", 3))
    yield of("no number of actors", stopped, "adopt,{image},x", fault("BadLine 1", 3))
    yield of("no actors", stopped, "adopt,{image}", fault("BadLine 1", 3))
    yield of("a field more", stopped, "adopt,{image},1,2", fault("BadLine 1", 3))
    yield of("zeros", bytes(1024), adopt, fault("World 1 Adopt Image BadCookie", 3))
    yield of("version 1", stopped[:8] + b"\1" + stopped[9:], adopt, fault("World 1 Adopt OldVersion", 3))
    yield of("a corrupt one", corrupt, adopt, fault("World 1 Adopt Corrupt", 3))
    yield of("a word after the free pointer", stopped[:-1] + b"\1", adopt, fault("World 1 Adopt Damaged", 3))
    yield of("a valid one", stopped, adopt, Answer())


def replayed(program: pathlib.Path, path: pathlib.Path, text: str) -> Answer:
    path.write_text(text)
    return answer(program, [path])


def fault(text: str, status: int) -> Answer:
    return Answer(error=f"stepped: {text}\n".encode(), status=status)


def valid(folder: pathlib.Path) -> Iterator[tuple[list[Word], str | None, Answer]]:
    """Command lines and devices beside a schedule without a fault: words, the stream that is written, and what
    comes."""
    path = folder / "valid.csv"
    path.write_text("world,64,64,7,1,1\nset_corrupt,0\nstep,0,1\n")
    lines = b"2,0,begin\n3,0,step,6,0,1\n3,0,answer,flagged\n"
    yield [path], None, Answer(lines)
    yield [path, "--stop", "1"], None, Answer(lines)
    yield [path, "--stop", "0"], None, Answer()
    yield [path, "--report"], None, Answer(b"!flag,corrupt\n")
    yield [path, "--stop", "0", "--report"], None, Answer()
    yield [folder / "none.csv"], None, fault("Read", 4)
    shows: list[list[Word]] = [[], ["--report"], ["--image"]]
    for shown in shows:
        yield [path, *shown], FULL, fault("Write", 4)


def wrong_valid(program: pathlib.Path, words: Sequence[Word], device: str | None, wanted: Answer) -> str | None:
    if device is None:
        return difference(wanted, answer(program, words))
    with open(device, "wb") as stream:
        return difference(wanted, answer(program, words, stdout=stream))


def wrong_usage(program: pathlib.Path, words: Sequence[Word], status: int) -> str | None:
    came = answer(program, words)
    told = bool(came.error) if status else bool(came.output)
    return None if came.status == status and told else f"came {came}"


def cases(program: pathlib.Path, options: argparse.Namespace) -> Iterator[Case]:
    for case in sorted(FOLDER.glob("*.csv")):
        yield f"known {case.stem}", wrong_known(program, case)
    with tempfile.TemporaryDirectory() as scratch, concurrent.futures.ThreadPoolExecutor(processors()) as pool:
        folder = pathlib.Path(scratch)
        for words, device, wanted in valid(folder):
            yield f"{' '.join(map(str, words))} to {device}", wrong_valid(program, words, device, wanted)
        for usage, status in USAGES:
            yield f"usage {' '.join(usage)}", wrong_usage(program, usage, status)
        yield "stops that are gone on from", wrong_stops(program, pool, folder)
        for name, record, wanted in not_gone_on(program, folder):
            yield f"adopt {name}", difference(wanted, replayed(program, folder / "adopt.csv", f"{record}\n"))
        worked = list(worked_schedules.examples())
        wrongs = pool.map(lambda number: wrong_worked(program, number, worked[number], folder), range(len(worked)))
        yield from zip((example.name for example in worked), wrongs)
        seeds = [f"{options.seed}-{number}" for number in range(options.schedules)]
        wrongs = pool.map(lambda seed: wrong_seeded(program, seed, options.stops, folder), seeds)
        yield from zip((f"schedule {seed}" for seed in seeds), wrongs)
