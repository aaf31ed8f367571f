"""The folders of recordings, beside a plain model of them (plain_folders.py): what `report`, `show` and `export` say of
one, and what `fold` makes of it.

Folders of forged segments, whole ones and damaged ones, with totals that name some that are still there, or others of
the same number, while some are locked. A fold is killed at each of its calls to the system, or each of them fails: the
sum is what it was, and a later fold ends it. A reader that runs beside folds and beside a process that begins segments
never sees a number fall. The recordings of the library are folded by the program, and the folders of the program by the
library.
"""

from __future__ import annotations

import argparse
import collections
import contextlib
import dataclasses
import errno
import fcntl
import os
import pathlib
import random
import shutil
import signal
import tempfile
import threading
import time
from collections.abc import Callable, Collection, Iterator, Sequence

from parts import failing, recordings, summed_pages, sums
from support import forge, marks_of, native, plain_folders, plain_sums, tracer
from support.plain_folders import LOCK, MARK, NEW_TOTALS, TOTALS, Folder, mapped, name_of, with_id
from support.program import ROOT, Answer, Case, answer, content, difference, explained, fault, untried

PROGRAM = "persist_report"
FOLDERS = 60
MOST_SEGMENTS = 9
CRASH = ROOT / "examples" / "crash.img"
BUSY = fault("Busy", 4)
MISSING = f"{os.strerror(errno.ENOENT)} (os error {errno.ENOENT})"
# Names that no segment in use has.
OTHERS = (
    "spare-77-0123456789abcdef",
    "0000000004.damaged",
    "5.seg",
    "00000000005.seg",
    "0000000000.seg",
    "+000000005.seg",
    "0000000005.seg~",
    "0000000005.SEG",
    ".seg",
    "1000000000000000000.seg",
    "18446744073709551615.seg",
    "18446744073709551615.damaged",
    "18446744073709551616.seg",
)
# The example of totals in FORMAT: what its first and its second image have, as scripts, and the report of both. The
# second has its names in no order.
EXAMPLE_SCRIPTS = (
    "segment,128,128,1\nhist,Load,linear,1,10,3\nadd,Load,0,4\nadd,Load,20,1\n",
    "segment,128,128,2\nhist,Load,linear,1,10,3\nhist,Code,sparse\n"
    "add,Load,0,1\nadd,Load,2,1\nadd,Load,3,1\nadd,Code,7,1\n",
)
EXAMPLE_REPORT = b"""Code,sparse,7,8,1
Code,total,1,7
Load,linear,0,1,5
Load,linear,1,10,2
Load,linear,10,2147483647,1
Load,total,8,25
!images,2
"""
# The numbers of all calls to the system.
ALL_CALLS = tuple(range(512))
# Those that may fail in a fold, and with what.
FAILING = {
    "opening": ((tracer.OPEN_AT,), errno.EACCES),
    "reading": ((tracer.READ,), errno.EIO),
    "writing": ((tracer.WRITE,), errno.ENOSPC),
    "syncing": ((tracer.SYNC,), errno.EIO),
    "locking": ((tracer.LOCK,), errno.ENOLCK),
    "renaming": (tracer.RENAMES, errno.EACCES),
    "removing": ((87, 263), errno.EACCES),
    "allocating": (tracer.GROWTHS, errno.ENOMEM),
}
# A reader reads beside folds until there were this many of both, for at most this many seconds.
LEAST_READINGS = 100
MOST_SECONDS = 300
# No segment is begun while this many files are in the folder.
MOST_FILES = 20
# How often a reading begins at most, and the call that lists a folder.
MOST_TIMES = 16
LISTING = 217


# ---- folders


def valid_of(chance: random.Random) -> bytes:
    """A forged image of version 2 of which a look is the image itself, and no total is near its limit."""
    while True:
        data = sums.valid_of(chance)
        if plain_folders.looked(data) == data:
            return data


def segment_of(chance: random.Random, number: int, is_valid: bool) -> bytes:
    """The file of a segment, with an id of its own: whole, or maybe damaged."""
    data = valid_of(chance) if is_valid or chance.random() < 0.6 else forge.image_of(chance)
    data = with_id(data, chance.randrange(2**64)) if len(data) > 40 else data
    if not is_valid and chance.random() < 0.1:
        data = chance.choice([b"", data[: len(data) // 2], data[:-3], b"no segment at all, and not even words"])
    return mapped(data)


def made(path: pathlib.Path) -> pathlib.Path:
    path.mkdir()
    (path / MARK).touch()
    return path


def put(folder: pathlib.Path, number: int, data: bytes) -> None:
    (folder / name_of(number)).write_bytes(data)


def totals_of(chance: random.Random, segments: dict[int, bytes]) -> bytes:
    """Totals of a fold that name some segments: some that are still there and were not removed, some whose number
    another segment has, and some that are gone."""
    whole, names = plain_sums.Sum(), []
    for number in sorted(chance.sample(range(1, 12), chance.randint(1, 5))):
        data = segments.get(number)
        if data is None or chance.random() < 0.3:
            data = segment_of(chance, number, is_valid=True)
        own = plain_folders.id_of(data)
        with contextlib.suppress(plain_sums.Wrong):
            whole = plain_folders.with_segment(whole, number, data)
            assert own is not None
            names.append((number, own))
    before = Folder(pathlib.Path(), None, {})
    text = before.next_totals(whole, [], names)
    return text.replace(b"\nfold,1\n", f"\nfold,{chance.choice([1, 7, 2**63])}\n".encode())


def filled(path: pathlib.Path, chance: random.Random, is_valid: bool) -> None:
    """Segments in a recording's folder that is made, maybe totals, and other files."""
    made(path)
    numbers = chance.sample(range(1, 12), chance.randint(0, MOST_SEGMENTS))
    segments = {number: segment_of(chance, number, is_valid) for number in numbers}
    if segments and chance.random() < 0.2:
        segments[10_000_000_000 + chance.randrange(5)] = segments.pop(max(segments))
    for number, data in segments.items():
        put(path, number, data)
    if chance.random() < 0.7:
        (path / TOTALS).write_bytes(totals_of(chance, segments))
    crash = CRASH.read_bytes()
    for name in (*OTHERS, "x.img"):
        (path / name).write_bytes(mapped(crash))
    (path / "0000000020.seg").symlink_to(path / "x.img")
    (path / "0000000021.seg").mkdir()
    if chance.random() < 0.3:
        (path / NEW_TOTALS).write_bytes(b"totals,1\nimages")


@contextlib.contextmanager
def all_locked(folder: pathlib.Path, numbers: Collection[int]) -> Iterator[None]:
    """While segments are locked."""
    with contextlib.ExitStack() as stack:
        for number in numbers:
            file = stack.enter_context(open(folder / name_of(number), "rb"))
            fcntl.flock(file, fcntl.LOCK_EX)
        yield


def texts(program: pathlib.Path, folder: Folder, title: str) -> Iterator[Case]:
    """Each text of a folder."""
    whole, left = folder.reading()
    for words, text in sums.texts_of(whole, len(left)):
        came = answer(program, [words[0], folder.path, *words[1:]])
        yield f"{title}, {' '.join(words)}", difference(sums.wanted_of(text, left), came)


def wrong_files(path: pathlib.Path, wanted: Folder) -> str | None:
    """What is wrong with the files of a folder, or None."""
    there = Folder.at(path)
    if sorted(there.segments) != sorted(wanted.segments):
        return f"segments {sorted(wanted.segments)} are wanted, and there are {sorted(there.segments)}"
    if there != wanted:
        return f"wanted are totals {wanted.totals!r}, and there are {there.totals!r}"
    return None


def others_in(path: pathlib.Path) -> set[str]:
    """The names in a folder that are none of its segments', its totals' or its lock's."""
    own = {TOTALS, NEW_TOTALS, LOCK, *map(name_of, Folder.at(path).segments)}
    return {file.name for file in path.iterdir()} - own


def folded(program: pathlib.Path, path: pathlib.Path, locked: Collection[int], title: str) -> Iterator[Case]:
    """A fold while some segments are locked, and the texts after it. Other files stay."""
    before, others = Folder.at(path), others_in(path)
    wanted, left = before.folded(locked)
    with all_locked(path, locked):
        came = answer(program, ["fold", path])
    yield f"{title}, a fold", difference(sums.wanted_of(b"", left), came)
    is_left = wanted.totals != before.totals and (path / NEW_TOTALS).exists()
    yield f"{title}, what is there then", f"{NEW_TOTALS} is left" if is_left else wrong_files(path, wanted)
    changed = sorted(others ^ others_in(path))
    yield f"{title}, what else is there then", f"made or removed were {changed}" if changed else None
    yield from texts(program, wanted, f"{title}, folded")


def generated(program: pathlib.Path, top: pathlib.Path, seed: int | str) -> Iterator[Case]:
    """Folders of forged segments: their texts, and folds."""
    for number in range(FOLDERS):
        chance = random.Random(f"folders {seed} {number}")
        path, title = top / f"folder {number}", f"folder {number} of seed {seed}"
        is_valid = chance.random() < 0.5
        filled(path, chance, is_valid)
        folder = Folder.at(path)
        yield from texts(program, folder, title)
        before = answer(program, ["report", "--totals", path])
        locked = {one for one in folder.segments if chance.random() < 0.25}
        yield from folded(program, path, locked, title)
        yield from folded(program, path, (), f"{title}, again")
        if is_valid:
            after = answer(program, ["report", "--totals", path])
            yield f"{title}, the sum before and after", difference(before, after)
        at_rest = Folder.at(path)
        came = answer(program, ["fold", path])
        wrong = difference(sums.wanted_of(b"", at_rest.folded()[1]), came)
        yield f"{title}, a fold of nothing", wrong or wrong_files(path, at_rest)


def many(program: pathlib.Path, top: pathlib.Path) -> Iterator[Case]:
    """More segments than a fold takes at once, and so many that nobody could have all open."""
    path, crash = made(top / "many"), CRASH.read_bytes()
    for number in range(1, 1300):
        put(path, number, mapped(with_id(crash, 5 * number)))
    put(path, 300, b"none")
    wanted, left = Folder.at(path).folded({700})
    with all_locked(path, {700}):
        came = answer(program, ["fold", path])
    yield "1,300 segments, a fold", difference(sums.wanted_of(b"", left), came)
    yield "1,300 segments, what is there then", wrong_files(path, wanted)
    yield from texts(program, wanted, "1,300 segments")


def example_of_totals() -> bytes:
    """The totals that FORMAT has as an example."""
    text = (ROOT / "docs" / "FORMAT.md").read_text()
    lines = text.split("Their totals are\n\n", 1)[1].split("\n\n", 1)[0].splitlines()
    return "".join(f"{line.strip()}\n" for line in lines).encode()


def example(program: pathlib.Path, top: pathlib.Path) -> Iterator[Case]:
    """The two images of the example of totals in FORMAT, as segments 1 and 2: their totals and their report."""
    path, script, out = made(top / "example"), top / "script", top / "out"
    for number, text in enumerate(EXAMPLE_SCRIPTS, 1):
        script.write_text(text)
        came = answer(program, ["run", script, out])
        yield f"image {number} of the example", None if came.status == 0 else str(came)
        put(path, number, mapped(content(out) or b""))
    wanted = Answer(example_of_totals())
    yield "the example of totals", difference(wanted, answer(program, ["report", path, "--totals"]))
    yield "its report", difference(Answer(EXAMPLE_REPORT), answer(program, ["report", path]))
    came = answer(program, ["report", "--totals"], wanted.output)
    yield "the example of totals, read again", difference(wanted, came)
    yield "its report, read again", difference(Answer(EXAMPLE_REPORT), answer(program, ["report"], wanted.output))


def great_numbers(program: pathlib.Path, top: pathlib.Path) -> Iterator[Case]:
    """Segments with great numbers, also the greatest, are folded; with the greatest serial there is no fold."""
    path, crash = made(top / "great"), CRASH.read_bytes()
    for number in (2**32, 10**18 - 1):
        put(path, number, mapped(with_id(crash, number)))
    for name in OTHERS:
        (path / name).write_bytes(mapped(crash))
    before = Folder.at(path)
    wanted = before.folded()[0]
    yield "great numbers", None if sorted(before.segments) == [2**32, 10**18 - 1] else f"{sorted(before.segments)}"
    yield "great numbers, a fold", difference(Answer(), answer(program, ["fold", path]))
    yield "great numbers, what is there then", wrong_files(path, wanted)
    put(path, 3, mapped(with_id(crash, 3)))
    assert wanted.totals is not None
    (path / TOTALS).write_bytes(wanted.totals.replace(b"\nfold,1\n", b"\nfold,18446744073709551615\n"))
    before = Folder.at(path)
    refused = fault(f'TooMany: "{path / TOTALS}"', 3)
    yield "the greatest serial, a fold", difference(refused, answer(program, ["fold", path]))
    yield "the greatest serial, what is there then", wrong_files(path, before)


def among_others(program: pathlib.Path, top: pathlib.Path) -> Iterator[Case]:
    """Folders of recordings among other inputs, as OLD, in a list; and what cannot be read of them."""
    crash = CRASH.read_bytes()
    first, second, plain = made(top / "first"), made(top / "second"), top / "plain"
    plain.mkdir()
    (plain / "a.img").write_bytes(crash)
    for number in (3, 5):
        put(first, number, mapped(with_id(crash, number)))
    put(second, 2, mapped(with_id(crash, 9)))
    one = Folder.at(first).reading()[0]
    two = plain_sums.added(plain_sums.added(one, plain_sums.of_image(crash)), Folder.at(second).reading()[0])
    wanted = Answer(plain_sums.report_of(two, 0))
    yield "several inputs", difference(wanted, answer(program, ["report", first, CRASH, second]))
    yield "a plain folder", difference(wanted, answer(program, ["report", first, plain, second]))
    lines = f"{first}\n{plain}\n{second}\n".encode()
    yield "a list", difference(wanted, answer(program, ["report", "--files-from", "-"], lines))
    text = plain_sums.text_by(two, sums.plain_show.text_of)
    came = answer(program, ["show", first, "--also", CRASH, "--also", second])
    yield "--also", difference(Answer(text), came)
    yield "a slash after it", difference(wanted, answer(program, ["report", f"{first}/", CRASH, second]))
    since = plain_sums.since(two, one)
    came = answer(program, ["report", first, CRASH, second, "--minus", first])
    yield "--minus", difference(Answer(plain_sums.report_of(since, 0)), came)
    put(first, 4, mapped(b"no segment, but words ..")[:32])
    (damaged,) = Folder.at(first).reading()[1]
    text = plain_sums.report_of(two, 1)
    came = answer(program, ["report", first, CRASH, second])
    yield "a damaged segment", difference(sums.wanted_of(text, [damaged]), came)
    refused = fault(f'{damaged[1]}: "{damaged[0]}"', 3)
    yield "--strict", difference(refused, answer(program, ["report", first, CRASH, second, "--strict"]))
    yield "OLD with a damaged segment", difference(refused, answer(program, ["report", second, "--minus", first]))
    whole, left = Folder.at(first).reading()
    came = answer(program, ["show", first, "--html"])
    yield "a page", summed_pages.beside(came, first, whole, left)
    came = answer(program, ["report", first])
    (first / MARK).unlink()
    yield "without its mark", difference(came, answer(program, ["report", first]))


def twice_there(path: pathlib.Path) -> pathlib.Path:
    """A folder in which two segments are also in the totals: they count once in a recording's folder, and twice among
    the images of another."""
    path.mkdir()
    for number in (3, 5):
        put(path, number, mapped(with_id(CRASH.read_bytes(), number)))
    folded, _ = Folder.at(path).folded()
    assert folded.totals is not None
    (path / TOTALS).write_bytes(folded.totals)
    return path


def report_wanted(path: pathlib.Path, is_recording: bool) -> Answer:
    """The report of what was recorded in a folder, or of the images and totals in it."""
    if is_recording:
        whole, left = Folder.at(path).reading()
        return sums.wanted_of(plain_sums.report_of(whole, len(left)), left)
    files = ((file, file.read_bytes()) for file in sorted(path.iterdir()) if file.is_file() and not file.is_symlink())
    whole, refused = plain_sums.sum_of((file, data) for file, data in files if plain_sums.is_taken(data))
    return sums.wanted_of(plain_sums.report_of(whole, len(refused)), refused)


def marks(program: pathlib.Path, top: pathlib.Path) -> Iterator[Case]:
    """Which folders are a recording's: by what `recording` is, and, where that is missing, by the names in it."""
    (top / "whole").write_bytes(plain_folders.mark(7))
    for number, (name, (content_of, is_mark)) in enumerate(marks_of.MARKS.items()):
        path = twice_there(top / f"mark {number}")
        marks_of.put(path / MARK, content_of)
        yield f"recording is {name}", difference(report_wanted(path, is_mark), answer(program, ["report", path]))
        before, came = Folder.at(path), answer(program, ["fold", path, "--explain"])
        is_told = came.status == 4 and came.error.startswith(f'persist_report: Read\n  "{path / MARK}": '.encode())
        wrong = difference(Answer(), came) if is_mark else None if is_told else str(came)
        yield f"recording is {name}, a fold", wrong
        if not is_mark:
            yield f"recording is {name}, what is there then", wrong_files(path, before)
    for number, (names, is_recording) in enumerate(marks_of.BESIDE.items()):
        path = twice_there(top / f"beside {number}")
        marks_of.put_empty(path, names)
        wanted = report_wanted(path, is_recording)
        yield f"without a mark, {', '.join(names)}", difference(wanted, answer(program, ["report", path]))
    path = top / "spare alone"
    path.mkdir()
    (path / "spare-1-0123456789abcdef").write_bytes(mapped(CRASH.read_bytes()))
    yield "without a mark, a spare", difference(report_wanted(path, False), answer(program, ["report", path]))


def refusals(program: pathlib.Path, top: pathlib.Path) -> Iterator[Case]:
    """Folders that are not folded: none of a recording, and one that is folded now."""
    path = made(top / "refused")
    put(path, 1, mapped(CRASH.read_bytes()))
    before = Folder.at(path)
    for other in (top, top / "missing", path / name_of(1)):
        mark = f'"{other / MARK}": '
        came = answer(program, ["fold", other, "--explain"])
        is_told = came.error.startswith(f"persist_report: Read\n  {mark}".encode())
        yield f"fold {other.name}", None if (came.output, came.status, is_told) == (b"", 4, True) else str(came)
    (path / LOCK).touch()
    with open(path / LOCK, "rb") as file:
        fcntl.flock(file, fcntl.LOCK_EX)
        yield "beside another fold", difference(BUSY, answer(program, ["fold", path]))
        came = answer(program, ["fold", path, "--explain"])
        yield "beside another fold, explained", difference(explained("Busy", 4, [f'"{path / LOCK}"']), came)
        yield from texts(program, before, "beside another fold")
    yield "beside another fold, what is there then", wrong_files(path, before)


def damaged_totals(program: pathlib.Path, top: pathlib.Path) -> Iterator[Case]:
    """Folders that are not folded or read: a line of their totals is another one, or there is none."""
    path = made(top / "refused")
    put(path, 1, mapped(CRASH.read_bytes()))
    before = Folder.at(path)
    totals = before.folded()[0].totals
    assert totals is not None
    for line, text in enumerate(totals.splitlines(True), 1):
        data = totals.replace(text, b"nothing\n", 1)
        (path / TOTALS).write_bytes(data)
        wanted = fault(f'BadTotals {line}: "{path / TOTALS}"', 3)
        if line == 1:
            for words in (["fold"], ["report"], ["show"], ["export"]):
                yield f"{words[0]} of damaged totals", difference(wanted, answer(program, [*words, path]))
        yield f"fold of totals with line {line} changed", difference(wanted, answer(program, ["fold", path]))
        there = Folder.at(path)
        is_same = there.totals == data and there.segments == before.segments
        yield f"totals with line {line} changed, what is there then", None if is_same else "it is not as it was"
    (path / TOTALS).write_bytes(b"")
    wanted = fault(f'BadTotals 1: "{path / TOTALS}"', 3)
    yield "totals without bytes", difference(wanted, answer(program, ["report", path]))
    yield "a fold of totals without bytes", difference(wanted, answer(program, ["fold", path]))
    (path / TOTALS).unlink()
    yield "no totals again", difference(Answer(), answer(program, ["fold", path]))


def nothing(program: pathlib.Path, top: pathlib.Path) -> Iterator[Case]:
    """A folder of a recording in which nothing is yet."""
    none = made(top / "nothing")
    yield "nothing in it", difference(Answer(), answer(program, ["report", none]))
    yield "a fold of nothing in it", difference(Answer(), answer(program, ["fold", none]))
    left = sorted(file.name for file in none.iterdir())
    yield "what is in it then", None if left == [LOCK, MARK] else f"{left}"


# ---- kills and failures


def to_be_folded(path: pathlib.Path) -> Folder:
    """A folder with four segments, and totals that name two: one that is still there, and one whose number another of
    the four has."""
    crash, made_of = CRASH.read_bytes(), made(path)
    for number in (1, 2):
        put(made_of, number, mapped(with_id(crash, 100 + number)))
    wanted = Folder.at(made_of).folded()[0]
    assert wanted.totals is not None
    (made_of / TOTALS).write_bytes(wanted.totals)
    put(made_of, 2, mapped(with_id(crash, 200)))
    for number in (3, 4):
        put(made_of, number, mapped(with_id(crash, 100 + number)))
    return Folder.at(made_of)


def wrong_after(program: pathlib.Path, path: pathlib.Path, text: bytes, whole: bytes) -> str | None:
    """What is wrong with a folder that was left amid a fold, or None: the sum is the same, and a later fold ends it."""
    for when in ("then", "after a later fold"):
        came = answer(program, ["report", "--totals", path])
        if wrong := difference(Answer(text), came):
            return f"the sum {when}: {wrong}"
        if wrong := difference(Answer(), answer(program, ["fold", path])):
            return f"a later fold: {wrong}"
    left = Folder.at(path).segments
    if left or (path / NEW_TOTALS).exists():
        return f"segments {sorted(left)} are left, or {NEW_TOTALS}"
    return difference(Answer(whole), answer(program, ["report", path]))


def kills(program: pathlib.Path, top: pathlib.Path) -> Iterator[Case]:
    """A fold is killed at each of its calls to the system."""
    folder = to_be_folded(top / "kills")
    whole = folder.reading()[0]
    text, report = plain_sums.totals_text(whole), plain_sums.report_of(whole, 0)
    copy, kept = top / "copy", set()
    for place in range(10_000):
        shutil.copytree(folder.path, copy)
        came = tracer.answer(program, ["fold", copy], tracer.Fault(ALL_CALLS, at=place, kills=True))
        kept.add((content(copy / TOTALS) == folder.totals, len(Folder.at(copy).segments)))
        wrong = wrong_after(program, copy, text, report)
        shutil.rmtree(copy)
        yield f"killed at call {place + 1}", wrong
        if came.status == 0:
            break
        yield f"killed at call {place + 1}, its status", None if came.status == -signal.SIGKILL else str(came)
    # Before anything, with the named one removed, with the new totals, with each one of the segments removed.
    wanted = {(True, 4), (True, 3), (False, 3), (False, 2), (False, 1), (False, 0)}
    yield "what was there after a kill", None if kept == wanted else f"{sorted(kept)}"


def failures(program: pathlib.Path, top: pathlib.Path) -> Iterator[Case]:
    """Each call of a kind fails in turn in a fold; an allocation with all that come after it."""
    folder = to_be_folded(top / "failures")
    whole = folder.reading()[0]
    text, report = plain_sums.totals_text(whole), plain_sums.report_of(whole, 0)
    copy = top / "copy"
    settings = {"env": {**os.environ, **tracer.EACH_BY_ITSELF}}
    for title, (numbers, error) in FAILING.items():
        statuses: set[int] = set()
        for place in range(10_000):
            shutil.copytree(folder.path, copy)
            made_to_fail = tracer.Fault(numbers, at=place, error=error, lasting=title == "allocating")
            came = tracer.answer(program, ["fold", copy], made_to_fail, **settings)
            wrong = wrong_after(program, copy, text, report)
            shutil.rmtree(copy)
            if made_to_fail.met <= place:
                break
            if came.status in failing.NOT_LOADED and statuses <= {0}:
                continue
            statuses.add(came.status)
            is_told = came.status == 0 or came.error.startswith(b"persist_report: ")
            yield f"{title} fails at {place + 1}", wrong or (None if is_told else str(came))
        yield f"{title} fails: a fold says so", None if statuses - {0} else f"its statuses are {statuses}"


# ---- beside others


class Beginner:
    """Begins segments in a folder as a recording does, each of one image, and has the lock of the newest."""

    def __init__(self, folder: pathlib.Path) -> None:
        self.folder, self.data = folder, CRASH.read_bytes()
        self.begun = self.ended = 0
        self.last: contextlib.ExitStack | None = None

    def begin(self) -> None:
        number = self.begun + 1
        spare = self.folder / f"spare-{os.getpid()}-{number:016x}"
        spare.write_bytes(mapped(with_id(self.data, number)))
        held = contextlib.ExitStack()
        file = held.enter_context(open(spare, "rb"))
        fcntl.flock(file, fcntl.LOCK_EX)
        self.begun = number
        os.link(spare, self.folder / name_of(number))
        self.ended = number
        spare.unlink()
        self.end()
        self.last = held

    def end(self) -> None:
        if self.last is not None:
            self.last.close()


def images_in(report: bytes) -> int:
    """How many images a report is of: none if it is empty, and one if it does not say."""
    lines = [line for line in report.splitlines() if line.startswith(b"!images,")]
    return int(lines[0].split(b",")[1]) if lines else int(bool(report))


def serial_of(folder: pathlib.Path) -> int:
    """The serial of the totals of a folder, in which others are at work."""
    return Folder(folder, content(folder / TOTALS), {}).serial()


@contextlib.contextmanager
def at_work(*works: Callable[[], None]) -> Iterator[None]:
    """While threads do things again and again."""
    is_over = threading.Event()

    def go_on(work: Callable[[], None]) -> None:
        while not is_over.is_set():
            work()

    threads = [threading.Thread(target=go_on, args=(work,)) for work in works]
    for thread in threads:
        thread.start()
    try:
        yield
    finally:
        is_over.set()
        for thread in threads:
            thread.join()


@dataclasses.dataclass
class Readings:
    """What a reader found beside others: how often it read, how often it was Busy, how many images there were last, and
    what was wrong or None."""

    read: int = 0
    busy: int = 0
    images: int = 0
    wrong: str | None = None

    def read_again(self, program: pathlib.Path, beginner: Beginner) -> None:
        """Reads once more: each image that was begun has to be there, none twice, and the number may not fall."""
        least = max(self.images, beginner.ended)
        came = answer(program, ["report", beginner.folder])
        if came == BUSY:
            self.busy += 1
            return
        found, most = images_in(came.output), beginner.begun
        if came.status != 0 or not least <= found <= most:
            self.wrong = f"between {least} and {most} images were wanted, came {found}: {came.error!r}"
        self.images, self.read = found, self.read + 1


def beside(program: pathlib.Path, top: pathlib.Path) -> Iterator[Case]:
    """A reader while segments are begun and folded all the time: each is counted once, and no number falls."""
    beginner, wrong_folds = Beginner(made(top / "beside")), []
    folder = beginner.folder

    def begin() -> None:
        if len(os.listdir(folder)) < MOST_FILES:
            beginner.begin()
        time.sleep(0.002)

    def fold() -> None:
        came = answer(program, ["fold", folder])
        if came != Answer():
            wrong_folds.append(str(came))

    readings, end = Readings(), time.monotonic() + MOST_SECONDS
    with at_work(begin, fold):
        while (
            readings.wrong is None
            and min(readings.read, serial_of(folder)) < LEAST_READINGS
            and time.monotonic() < end
        ):
            readings.read_again(program, beginner)
    beginner.end()
    serial = serial_of(folder)
    print(f"beside {serial} folds: {readings.read} readings, {readings.busy} of them Busy", flush=True)
    yield "a reader beside folds", readings.wrong
    yield "folds beside a reader", wrong_folds[0] if wrong_folds else None
    enough = min(readings.read, serial) >= LEAST_READINGS and readings.busy <= readings.read // 10
    yield "enough of both", None if enough else f"{readings} beside {serial} folds"
    yield "a last fold", difference(Answer(), answer(program, ["fold", folder]))
    wanted = plain_sums.report_of(Folder.at(folder).reading()[0], 0)
    came = answer(program, ["report", folder])
    there = images_in(came.output)
    is_whole = None if there == beginner.begun else f"{there} of {beginner.begun} images are there"
    yield "all that was begun", difference(Answer(wanted), came) or is_whole


@dataclasses.dataclass
class AtListings(tracer.Fault):
    """Does something before a folder is listed, the first `times` times. No call fails."""

    folder: str = ""
    times: int = 0
    work: Callable[[], None] = lambda: None
    listed: set[int] = dataclasses.field(default_factory=set)

    def is_meant(self, thread: int, call: tracer.Call) -> bool:
        file = call.arguments[0]
        if call.number == tracer.CLOSE:
            self.listed.discard(file)
        if call.number == LISTING and file not in self.listed and tracer.file_of(thread, file) == self.folder:
            self.listed.add(file)
            if self.times > 0:
                self.times -= 1
                self.work()
        return False


def amid_readings(program: pathlib.Path, top: pathlib.Path) -> Iterator[Case]:
    """Each time after a reader has read the totals, a segment is begun and a fold ends: the reader begins again,
    sixteen times at most, and in the end it has each segment once, or is Busy."""
    for folds in (0, 1, 2, 7, MOST_TIMES - 1, MOST_TIMES):
        beginner, folding = Beginner(made(top / f"{folds} folds")), []
        beginner.begin()

        def work() -> None:
            beginner.begin()
            folding.append(answer(program, ["fold", beginner.folder]))

        beside_it = AtListings((), folder=str(beginner.folder), times=folds, work=work)
        came = tracer.answer(program, ["report", beginner.folder, "--explain"], beside_it)
        beginner.end()
        whole, _ = Folder.at(beginner.folder).reading()
        wanted = Answer(plain_sums.report_of(whole, 0))
        if folds == MOST_TIMES:
            wanted = explained("Busy", 4, [f'"{beginner.folder}"'])
        there = f"{whole.images} of {folds + 1} images are there, after {len(folding)} folds"
        is_done = (whole.images, folding) == (folds + 1, folds * [Answer()])
        yield f"{folds} folds amid a reading, and they are done", None if is_done else there
        yield f"{folds} folds amid a reading", difference(wanted, came)


# ---- the library


def wrong_between(library: pathlib.Path, program: pathlib.Path, folder: pathlib.Path) -> str | None:
    """Where the readers of a folder differ, or None."""
    came = answer(program, ["report", folder])
    return difference(answer(library, ["report", folder]), came) or (None if came.output else "nothing is there")


def recorded(program: pathlib.Path, top: pathlib.Path, chance: random.Random) -> Iterator[Case]:
    """Recordings of the library, killed, read and folded by the program, and by the library in turn."""
    try:
        programs = recordings.Programs(top)
    except native.Failed as why:
        yield "the library", str(why)
        return
    library = programs.reader

    def home(name: str) -> pathlib.Path:
        (top / name).mkdir()
        return top / name

    runs = recordings.Folder(programs.recording, program, home("killed"), chance)
    yield "recordings that are killed", recordings.killed(runs, 30, "-")
    yield "both readers", wrong_between(library, program, runs.folder)
    for number in range(6):
        for _ in range(3):
            with runs.running(0, recordings.SIZES[0]):
                time.sleep(0.02)
        folding = (program, library)[number % 2]
        text = answer(program, ["report", runs.folder]).output
        came = answer(folding, ["fold", runs.folder])
        yield f"fold {number + 1}, by {folding.name}", None if came.status == 0 else str(came)
        yield f"fold {number + 1}, both readers", wrong_between(library, program, runs.folder)
        after = answer(program, ["report", runs.folder]).output
        yield f"fold {number + 1}, the sum", None if text == after else "it is another one"
        yield f"fold {number + 1}, what is left", None if not runs.numbers() else f"{runs.numbers()}"
    yield "what was counted", runs.wrong()
    beside_runs = recordings.Folder(programs.recording, program, home("beside"), chance)
    yield "beside a recording that runs", wrong_beside(beside_runs)


def wrong_beside(runs: recordings.Folder) -> str | None:
    """Reads and folds while a recording runs: no number falls, and the segment in use stays. What is wrong, or None."""
    units: recordings.Counts = collections.Counter()
    with runs.running(0, recordings.SIZES[0]):
        for _ in range(40):
            folding = answer(runs.reader, ["fold", runs.folder])
            if folding != Answer():
                return f"fold: {folding}"
            ended = runs.counts()[1]
            came = runs.report()
            if came == BUSY:
                continue
            if came.status != 0:
                return f"report: {came}"
            found, begun = recordings.units_of(came.output), runs.counts()[0]
            for name in recordings.NAMES:
                if not max(units[name], ended[name]) <= found[name] <= begun[name]:
                    return f"{name!r}: {units[name]} were there, {ended[name]} had ended, {found[name]} are there"
            units = found
            time.sleep(0.01)
    return runs.wrong() if sum(units.values()) else "the reader found nothing"


def cases(program: pathlib.Path, options: argparse.Namespace) -> Iterator[Case]:
    Part = Callable[[pathlib.Path, pathlib.Path], Iterator[Case]]
    plain = (many, great_numbers, example, among_others, marks, refusals, damaged_totals, nothing, beside)
    parts: Sequence[Part] = plain
    traced: Sequence[Part] = (amid_readings, kills, failures)
    if not tracer.can_trace():
        yield untried(tracer.NOT_ALLOWED, options)
        traced = ()
    with tempfile.TemporaryDirectory() as name:
        yield from generated(program, pathlib.Path(name).resolve(), options.seed)
    for part in (*parts, *traced):
        with tempfile.TemporaryDirectory() as name:
            yield from part(program, pathlib.Path(name).resolve())
    with tempfile.TemporaryDirectory() as name:
        top = pathlib.Path(name).resolve()
        # Another user passes through it (`recordings`).
        top.chmod(0o711)
        yield from recorded(program, top, random.Random(options.seed))
