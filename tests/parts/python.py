"""The package of Python, python/povundiri, beside known answers, the plain readers and the program.

What it reads of the known images, of forged ones, of totals, of sums and of recordings' folders is written as the
program writes it (support/python_texts.py), and compared. A file changes between the three copies of its looks, and a
folder is folded amid its readings. A program records into a file and into a folder while it looks at them: no look has
less than had ended before it, more than was begun by its end, or less than the look before.

Each of the edits of `WRONG`, a mistake in a copy of the package, has to be refused by a case that needs no program.
"""

from __future__ import annotations

import argparse
import collections
import contextlib
import dataclasses
import fractions
import os
import pathlib
import random
import subprocess
import sys
import tempfile
import time
import types
from collections.abc import Callable, Iterator, Sequence
from unittest import mock

from parts import folders, known, looks, recordings, sums
from support import bounds, forge, layout, marks_of, native, plain_folders, plain_reader, plain_sums, python_texts
from support.plain_folders import MARK, TOTALS, Folder, mapped, name_of, with_id
from support.program import ROOT, Answer, Case, answer, difference
from support.python_texts import PACKAGE, Package

PROGRAM = "persist_report"
CRASH = ROOT / "examples" / "crash.img"
EXAMPLE = ROOT / "examples" / "three_samples.img"
# How many lists of inputs, folders and triples of copies there are.
LISTS, FOLDERS, COPIES = 40, 25, 150
# Of the forged images of the command line, one in so many.
IMAGES_EACH = 20
SHARES = [fractions.Fraction(*pair) for pair in ((1, 2), (9, 10), (99, 100), (999, 1000), (1, 1), (1, 3), (1, 10**9))]
MOST_TIMES = 16
# A segment of the greatest size has so many records of 16 words, and is read within so many seconds of this process.
MOST_HISTOGRAMS, MOST_SECONDS = 65_535, 20
# How long a program is looked at, and with what a folder's segments are filled.
LOOKS_A_RUN, READINGS_A_RUN, RUNS = 60, 4, 3
# How many words of a file another process stores, and how many copies of them are taken amid that, in how many seconds.
TORN_WORDS, TORN_ENOUGH, TORN_SECONDS = 2048, 1500, 60
STORING = f"""
import mmap, sys
with open(sys.argv[1], "r+b") as file, mmap.mmap(file.fileno(), 0) as mapped:
    words = memoryview(mapped).cast("Q")
    while True:
        for word in (2**64 - 1, 0):
            for at in range({TORN_WORDS}):
                words[at] = word
"""
VERSION = 2
# Mistakes in the package: what is wrong, and of which file which words are which others.
WRONG = [
    ("the shift of a single word", "_images.py", "divmod(rest, 2**32)", "divmod(rest, 2**31)"),
    ("packed units are not counted", "_images.py", "totals[packed.bucket] += packed.units", "pass"),
    ("packed units are not laid out", "_images.py", "    counts[packed.bucket] += packed.units", "    pass"),
    ("a sum has no sign", "_images.py", "sums = signed(words[at + SUM]),", "sums = words[at + SUM],"),
    ("a frozen word keeps nothing", "_images.py", "if single >= IN_USE and self.version == 1:", "if single >= IN_USE:"),
    ("units on their way are a fault", "_images.py", "max(most, MOST_PACKED) if self.version == 1 else most", "most"),
    ("the packed bucket's other mark counts", "_images.py", "marks[packed.bucket] = 0", "pass"),
    ("the second sample of a value counts", "_images.py", "].setdefault(signed(value), (count, mark))",
     "].__setitem__(signed(value), (count, mark))"),
    ("a skipped record has samples", "_images.py", "            if spec is SPARSE:\n                self.values[at]",
     "        if spec is SPARSE:\n                self.values[at]"),
    ("a loop is no stop", "_images.py", '("Loop" if at in visited else None)', '("BadRef" if at in visited else None)'),
    ("a block in two pages", "_images.py", "(reference + size - 1) // self.page", "reference // self.page"),
    ("a quantile is off by one", "_readings.py", "if units >= wanted", "if units > wanted"),
    ("a quantile is rounded down", "_readings.py", "-(-numerator * self.units // denominator)",
     "max(1, numerator * self.units // denominator)"),
    ("the spec of the last image is shown", "_readings.py", "one.first_image < shown", "one.first_image > shown"),
    ("the boundaries of a linear spec", "_readings.py", "+ (n - 2)) // (2 * (n - 2))", ") // (2 * (n - 2))"),
    ("marks of the second copy", "_looks.py", "words[behind:end] = one[behind:end]",
     "words[behind:end] = two[behind:end]"),
    ("counts that were not in use", "_looks.py", 'if is_in_use else array("Q", bytes(8 * n))', ""),
    ("the reference of the third copy", "_looks.py", "(three[at + COUNTS] if is_in_use else 0)", "0"),
    ("the list of the third copy", "_looks.py", "list(followed(two, free))", "list(followed(three, free))"),
    ("copies of several segments", "_looks.py", "        raise Changed", "        pass"),
    ("all copies at once", "_looks.py", "one, two, three = copies_of(file)",
     "one, two, three = [next(copies_of(file))] * 3"),
    ("a named segment is counted", "_folders.py", "if named in self.totals.segments:", "if False:"),
    ("a segment is named by its number", "_folders.py", "if named in self.totals.segments:",
     "if named[0] in dict(self.totals.segments):"),
    ("a damaged segment is passed over", "_folders.py", "            self.others.append(segment)\n        else:",
     "            pass\n        else:"),
    ("a link is a segment", "_folders.py", "or stat.S_ISREG(status.st_mode))", "or True)"),
    ("a fold that ended is not seen", "_folders.py", ".serial != totals.serial:", ".serial < totals.serial:"),
    ("a segment that is gone is left out", "_folders.py", "except FileNotFoundError:\n            raise",
     "except ZeroDivisionError:\n            raise"),
    ("images are numbered from 0 again", "_sums.py", "number: number + self.whole.images", "number: number"),
    ("sums of 128 bits", "_sums.py", "-(2**127) <= number < 2**127", "-(2**127) < number < 2**127"),
    ("a key of one sparse histogram is lost", "_sums.py", "sorted({*keys, *other.layout[0]})", "sorted({*keys})"),
    ("totals have any names", "_totals.py", 'NAME = rb"((?!!)[!#-+\\--~]{1,128})"', 'NAME = rb"([^,]*)"'),
    ("totals end anywhere", "_totals.py", "if lines.lines[lines.number :] != [b\"\"]:", "if False:"),
    ("totals have any keys", "_totals.py", "return spec.is_valid and tuple(keys) == spec.ranges[:-1]", "return True"),
]


# ---- without the program


def faulted(read: Callable[[], Package], package: Package) -> Package | str:
    """A reading, or the fault in its place."""
    try:
        return read()
    except package.Fault as fault:
        return str(fault.fault)


def unlike(wanted: bytes, came: bytes) -> str | None:
    """Where two texts differ first, or None."""
    return difference(Answer(wanted), Answer(came))


def answered(package: Package, data: bytes) -> Answer:
    """The report of an image, or its fault, as the program has them."""
    reading = faulted(lambda: package.decode_image(data), package)
    if isinstance(reading, str):
        return Answer(error=f"persist_report: {reading}\n".encode(), status=3)
    return Answer(python_texts.report_of(reading))


def known_images(package: Package) -> Iterator[Case]:
    """The known images, closed and in mapped files."""
    for image in sorted(known.FOLDER.glob("*.img")):
        wanted, data = known.wanted_of(image), image.read_bytes()
        yield f"{image.name}", difference(wanted, answered(package, data))
        if data.startswith(layout.COOKIE_BYTES) and len(data) % 8 == 0 and len(data) > 24:
            wanted = Answer(*plain_reader.answer(mapped(data)))
            yield f"{image.name} in a mapped file", difference(wanted, answered(package, mapped(data)))


def wrong_quantile(package: Package, data: bytes) -> str | None:
    """Which quantile of an image is another one than the first bucket up to which there is the share, or None."""
    by_name = plain_reader.reading_of(data, collections.Counter())[0]
    for name, one in package.decode_image(data).histograms.items():
        rows = sorted(by_name[name.encode()]["buckets"].items())
        total = sum(units for _, (_, units) in rows)
        for share in SHARES:
            up_to, wanted = 0, None
            for low, (high, units) in rows:
                up_to += units
                if wanted is None and total and fractions.Fraction(up_to, total) >= share:
                    wanted = (low, high)
            came = one.quantile(share.numerator, share.denominator)
            if (came and came[:2]) != wanted or came != one.quantile(share):
                return f"{name}, {share}: wanted {wanted}, came {came}"
    return None


def all_of_images(package: Package, seed: int | str, images: int) -> Iterator[Case]:
    """The quantiles and the totals of known images, and of forged ones all."""
    for image in sorted(known.FOLDER.glob("*.img")):
        if known.wanted_of(image).status == 0:
            data = image.read_bytes()
            yield f"{image.name}, quantiles", wrong_quantile(package, data)
            text = plain_sums.totals_text(plain_sums.of_image(data))
            yield f"{image.name}, totals", unlike(text, python_texts.totals_of(package.decode_image(data)))
    for number in range(images):
        data = forge.image_of(random.Random(f"python {seed} {number}"))
        wanted = Answer(*plain_reader.answer(data, collections.Counter()))
        yield f"forged image {number} of seed {seed}", difference(wanted, answered(package, data))


def inputs_of(chance: random.Random, is_small: bool) -> list[bytes]:
    """Images, and totals near the limits."""
    images = [sums.image_of(chance) for _ in range(chance.randint(0, 6))]
    near = [sums.near_limits(chance, is_small) for _ in range(chance.randint(0, 4))]
    inputs = [*images, *map(plain_sums.totals_text, near)]
    chance.shuffle(inputs)
    return inputs


def summed(package: Package, seed: int | str) -> Iterator[Case]:
    """Sums of inputs, of which some do not fit beside those before them."""
    for number in range(LISTS):
        title, whole = f"sum {number} of seed {seed}", plain_sums.Sum()
        accepted: list[Package] = []
        for data in inputs_of(random.Random(f"python sums {seed} {number}"), number % 2 == 0):
            wanted: str | None = None
            try:
                whole = plain_sums.added(whole, plain_sums.of_input(data))
            except plain_sums.Wrong as why:
                wanted = str(why)
            decode = package.decode_totals if data.startswith(plain_sums.TOTALS) else package.decode_image
            came = faulted(lambda: package.sum_of([*accepted, decode(data)]), package)
            is_right = came == wanted if isinstance(came, str) else wanted is None
            yield f"{title}, whether an input fits", None if is_right else f"wanted {wanted}, came {came}"
            accepted += [decode(data)] if wanted is None else []
        reading = package.sum_of(accepted)
        yield f"{title}, totals", unlike(plain_sums.totals_text(whole), python_texts.totals_of(reading))
        yield f"{title}, report", unlike(plain_sums.report_of(whole, 0), python_texts.report_of(reading))


def totals_by_hand(package: Package) -> Iterator[Case]:
    """Totals at the ends of numbers, the example of FORMAT, and texts that are none, as with a name that no segment can
    have."""
    ends = package.decode_totals(sums.ENDS + b"of,3,77\nof,4,18446744073709551615\nfold,4\nend,3\n")
    yield "totals at the ends of numbers", unlike(sums.ENDS + b"end,3\n", python_texts.totals_of(ends))
    yield "their report", unlike(sums.REPORT_OF_ENDS, python_texts.report_of(ends))
    example = folders.example_of_totals()
    yield "the example of FORMAT", unlike(example, python_texts.totals_of(package.decode_totals(example)))
    for none, line in sums.no_totals():
        came = faulted(lambda: package.decode_totals(plain_sums.TOTALS + none), package)
        yield f"no totals, {none!r}", None if came == f"BadTotals {line}" else f"wanted line {line}, came {came}"
    lines = plain_sums.totals_text(plain_sums.of_image(CRASH.read_bytes())).splitlines(True)
    for number in range(1, len(lines) + 1):
        for changed in (lines[:number], [*lines[: number - 1], b"hist\n", *lines[number:]], [*lines[:number], b"\n"]):
            data = b"".join(changed)
            wanted, came = fault_of_totals(data), faulted(lambda: package.decode_totals(data), package)
            is_right = came == wanted if isinstance(came, str) else wanted is None
            yield f"totals with line {number} changed", None if is_right else f"wanted {wanted}, came {came}"


def ends_of_sums(package: Package) -> Iterator[Case]:
    """Two totals whose amounts together just fit 128 bits, or just not."""
    front = plain_sums.TOTALS + b"images,1,0,0,0,0\nhist,A,1,0,"
    for one, other in ((-(2**126), -(2**126)), (-(2**126), -(2**126) - 1), (2**126, 2**126 - 1), (2**126, 2**126)):
        both = [package.decode_totals(front + f"{sum},0,0,sparse\nend,1\n".encode()) for sum in (one, other)]
        came = faulted(lambda: package.sum_of(both).histograms["A"].sum, package)
        wanted = one + other if -(2**127) <= one + other < 2**127 else "TooMany"
        yield f"amounts of {one} and {other}", None if came == wanted else f"wanted {wanted}, came {came}"


def fault_of_totals(data: bytes) -> str | None:
    """The fault of totals by the plain reader, or None."""
    if not data.startswith(plain_sums.TOTALS):
        return "BadTotals 1"
    try:
        plain_sums.of_totals(data)
    except plain_sums.Wrong as why:
        return str(why)
    return None


def others_in(path: pathlib.Path) -> list[str]:
    """The paths of what is in a folder and neither a segment nor the folder's own."""
    own = {MARK, TOTALS, plain_folders.NEW_TOTALS, plain_folders.LOCK, *map(name_of, Folder.at(path).segments)}
    return sorted(str(file) for file in path.iterdir() if file.name not in own)


def wrong_folder(package: Package, path: pathlib.Path) -> str | None:
    """What is wrong with the reading of a folder, or None."""
    whole, left = Folder.at(path).reading()
    reading = package.read_recording(path)
    wrong = unlike(plain_sums.totals_text(whole), python_texts.totals_of(reading))
    wrong = wrong or unlike(plain_sums.report_of(whole, len(left)), python_texts.report_of(reading))
    wrong = wrong or unlike(sums.told(left), python_texts.left_lines(reading))
    if wrong is None and list(reading.passed_over) != others_in(path):
        wrong = f"passed over are {reading.passed_over}"
    if wrong is None and reading.is_whole == bool(left or whole.bad or whole.stopped):
        wrong = f"whole is {reading.is_whole}"
    return wrong


def recording_folders(package: Package, top: pathlib.Path, seed: int | str) -> Iterator[Case]:
    """Folders of forged segments, whole and damaged, with totals and without."""
    for number in range(FOLDERS):
        chance = random.Random(f"folders {seed} {number}")
        path = top / f"folder {number}"
        folders.filled(path, chance, is_valid=number % 2 == 0)
        yield f"folder {number} of seed {seed}", wrong_folder(package, path)


def refused_folders(package: Package, top: pathlib.Path) -> Iterator[Case]:
    """Folders that cannot be read: damaged totals, no recording's, none at all; one with nothing in it; and the
    greatest number of a segment, and one of a digit more."""
    path = folders.made(top / "a folder")
    yield "nothing in it", wrong_folder(package, path)
    folders.put(path, 1, mapped(CRASH.read_bytes()))
    (path / TOTALS).write_bytes(b"totals,1\nimages,1\n")
    for wanted, where in ((package.BadTotals, path / TOTALS), (package.NoRecording, top), (OSError, top / "missing")):
        try:
            came: object = package.read(where.parent if where.name == TOTALS else where)
        except (package.Fault, OSError) as fault:
            came = fault
        is_right = isinstance(came, wanted) and str(where) in str(came)
        yield f"a folder that raises {wanted.__name__}", None if is_right else repr(came)
    (path / TOTALS).unlink()
    (path / name_of(1)).unlink()
    for number in (10**18 - 1, 10**18):
        folders.put(path, number, mapped(with_id(CRASH.read_bytes(), number)))
        yield f"the number {number}", wrong_folder(package, path)


def wrong_kind(package: Package, path: pathlib.Path, is_recording: bool) -> str | None:
    """What is wrong with the reading of a folder that is a recording's, or is refused since it is none; or None."""
    if is_recording:
        return wrong_folder(package, path)
    came = faulted(lambda: package.read(path), package)
    return None if came == "NoRecording" else str(came)


def marked_folders(package: Package, top: pathlib.Path) -> Iterator[Case]:
    """Which folders are a recording's: by what `recording` is, and, where that is missing, by the names in it."""
    (top / "whole").write_bytes(plain_folders.mark(7))
    for number, (name, (content, is_mark)) in enumerate(marks_of.MARKS.items()):
        path = folders.twice_there(top / f"mark {number}")
        marks_of.put(path / MARK, content)
        yield f"recording is {name}", wrong_kind(package, path, is_mark)
    for number, (names, is_recording) in enumerate(marks_of.BESIDE.items()):
        path = folders.twice_there(top / f"beside {number}")
        marks_of.put_empty(path, names)
        yield f"without a mark, {', '.join(names)}", wrong_kind(package, path, is_recording)


@contextlib.contextmanager
def before_each_look(package: Package, work: Callable[[], None]) -> Iterator[None]:
    """While something is done before each listing of a folder."""
    listed = package._folders.listed_in

    def listing(folder: str) -> object:
        work()
        return listed(folder)

    with mock.patch.object(package._folders, "listed_in", listing):
        yield


def folded_once(path: pathlib.Path, number: int) -> None:
    """Begins a segment in a folder, and folds by the model: first the totals are there, and then the segments go."""
    folders.put(path, number, mapped(with_id(CRASH.read_bytes(), number)))
    after, _ = Folder.at(path).folded()
    assert after.totals is not None
    (path / TOTALS).write_bytes(after.totals)
    for one in {*Folder.at(path).segments} - {*after.segments}:
        (path / name_of(one)).unlink()


def amid_readings(package: Package, top: pathlib.Path) -> Iterator[Case]:
    """Each time after the totals were read a segment is begun and a fold ends: the reading begins again, sixteen times
    at most. And a segment of the listing that goes away before it is looked at."""
    for folds in (0, 1, 2, MOST_TIMES - 1, MOST_TIMES):
        path, numbers = folders.made(top / f"{folds} folds"), iter(range(2, folds + 2))
        folders.put(path, 1, mapped(with_id(CRASH.read_bytes(), 1)))

        def work() -> None:
            for number in numbers:
                return folded_once(path, number)

        with before_each_look(package, work):
            came = faulted(lambda: package.read(path), package)
        if folds == MOST_TIMES or isinstance(came, str):
            yield f"{folds} folds amid readings", None if (came == "Busy") == (folds == MOST_TIMES) else str(came)
        else:
            wanted = plain_sums.totals_text(Folder.at(path).reading()[0])
            yield f"{folds} folds amid readings", unlike(wanted, python_texts.totals_of(came))
    path = folders.made(top / "gone")
    for number in (1, 2):
        folders.put(path, number, mapped(with_id(CRASH.read_bytes(), number)))
    looked_at = package._folders.look

    def look(segment: str) -> object:
        if pathlib.Path(segment).name == name_of(1) and not (path / TOTALS).exists():
            folded_once(path, 3)
        return looked_at(segment)

    with mock.patch.object(package._folders, "look", look):
        came = package.read(path)
    wanted = plain_sums.totals_text(Folder.at(path).reading()[0])
    yield "segments that go away", unlike(wanted, python_texts.totals_of(came))
    folders.put(path, 4, mapped(CRASH.read_bytes()))

    def removed(segment: str) -> object:
        pathlib.Path(segment).unlink()
        return looked_at(segment)

    with mock.patch.object(package._folders, "look", removed):
        came = package.read(path)
    yield "a segment that somebody removes", None if came.is_whole and not Folder.at(path).segments else f"{came}"


# ---- looks


@contextlib.contextmanager
def changing(package: Package, path: pathlib.Path, copies: Sequence[bytes]) -> Iterator[None]:
    """While a file has these bytes one after the other: at first the first of them, and before a look takes its second
    and its third copy the others."""
    path.write_bytes(copies[0])
    contents, status_of = iter(copies[1:]), os.fstat
    asked = 0

    def fstat(file: int) -> os.stat_result:
        nonlocal asked
        asked += 1
        # The first time it is asked for the length, and then before each copy.
        for data in contents if asked > 2 else ():
            with open(path, "r+b") as changed:
                changed.write(data)
                changed.truncate()
            break
        return status_of(file)

    with mock.patch.object(package._looks.os, "fstat", fstat):
        yield


def looks_at_copies(package: Package, top: pathlib.Path, seed: int | str) -> Iterator[Case]:
    """Looks at a file that changes between the copies, beside the plain composition."""
    kinds: collections.Counter[str] = collections.Counter()
    path = top / "copies"
    for number in range(COPIES):
        chance = random.Random(f"python looks {seed} {number}")
        copies = [layout.data_of(words) for words in looks.copies_of(chance)]
        contents = [mapped(data) for data in copies] if chance.random() < 0.5 else copies
        wanted, image = looks.looked(contents)
        if len({*map(len, contents)}) > 1:
            wanted = Answer(error=b"persist_report: Image BadSize\n", status=3)
        with changing(package, path, contents):
            came = faulted(lambda: package.look(path), package)
        kinds[wanted.error.decode().rpartition(" ")[2]] += 1
        if isinstance(came, str):
            come = Answer(error=f"persist_report: {came}\n".encode(), status=3)
            yield f"copies {number} of seed {seed}", difference(wanted, come)
        elif image is None:
            yield f"copies {number} of seed {seed}", f"wanted {wanted}, came a reading"
        else:
            plain = plain_reader.answer(image)[0]
            totals = plain_sums.totals_text(plain_sums.of_image(image))
            yield f"copies {number} of seed {seed}", unlike(plain, python_texts.report_of(came))
            yield f"copies {number} of seed {seed}, totals", unlike(totals, python_texts.totals_of(came))
    missing = {"", "BadSize\n", "OldVersion\n", "Changed\n"} - {*kinds}
    yield "copies of each kind", f"none came of {missing}: {kinds}" if missing else None


def worked_looks(package: Package, top: pathlib.Path) -> Iterator[Case]:
    """A file without bytes, one that is too long, and a segment that a program left."""
    path = top / "file"
    for data, wanted in ((b"", "Image TooShort"), (bytes(layout.MOST_BYTES + 8), "TooLong"), (b"1234567", "NotWords")):
        path.write_bytes(data)
        for read in (package.look, package.read_image, package.read):
            came = faulted(lambda: read(path), package)
            yield f"{read.__name__} of {len(data)} bytes", None if came == wanted else f"wanted {wanted}, came {came}"
    path.write_bytes(mapped(CRASH.read_bytes()))
    wanted_text = plain_reader.answer(CRASH.read_bytes())[0]
    for reading in (package.look(path), package.read(path), package.read(path, live=True), package.read(CRASH)):
        yield "one segment, read in each way", unlike(wanted_text, python_texts.report_of(reading))


# ---- what a user does wrong, and pandas


def raised(work: Callable[[], object]) -> type[BaseException] | None:
    """What is raised, or None."""
    try:
        work()
    except Exception as fault:
        return type(fault)
    return None


def uses(package: Package) -> Iterator[Case]:
    """Shares that are none, names that are not there; and what has no units."""
    one = package.decode_image(CRASH.read_bytes()).histograms["request.ms"]
    wanted = {
        "a float": (lambda: one.quantile(0.99), TypeError),
        "a float below": (lambda: one.quantile(99, 100.0), TypeError),
        "no number": (lambda: one.quantile("most"), ValueError),
        "0": (lambda: one.quantile(0), ValueError),
        "above 1": (lambda: one.quantile(101, 100), ValueError),
        "below 0": (lambda: one.quantile("-0.5"), ValueError),
        "a name": (lambda: package.read(CRASH).histograms["request"], KeyError),
        "no file": (lambda: package.read(CRASH.with_suffix(".none")), FileNotFoundError),
    }
    for title, (work, fault) in wanted.items():
        came = raised(work)
        yield f"{title} is refused", None if came is fault else f"wanted {fault}, came {came}"
    text = plain_sums.TOTALS + b"images,1,0,0,0,0\nhist,A,1,0,0,0,0,boolean\nkey,0,0,0\nkey,1,0,0\nkey,2,0,0\nend,1\n"
    none = package.decode_totals(text).histograms["A"]
    yield "without units", None if none.quantile(1) is none.mean is None else f"{none.quantile(1)}, {none.mean}"


class Frame:
    """What stands in for pandas.DataFrame where pandas is not installed."""

    def __init__(self, data: list[tuple[object, ...]], columns: list[str]) -> None:
        self.columns, self.values = columns, data


def framed(package: Package) -> Iterator[Case]:
    """The rows as a frame, of pandas if it is installed."""
    reading = package.read(CRASH)
    try:
        frame = reading.to_pandas()
    except ImportError:
        print("python: no pandas here, so a stand-in took the rows", flush=True)
        with mock.patch.dict(sys.modules, {"pandas": types.SimpleNamespace(DataFrame=Frame)}):
            frame = reading.to_pandas()
    rows = b"".join(line.rpartition(b"\n")[0] + b"\n" for line in plain_reader.answer(CRASH.read_bytes())[:1])
    lines = [",".join(map(str, row)) for row in ([*frame.columns], *map(list, frame.values))]
    wanted = ["name,kind,low,high,count", *(line for line in rows.decode().splitlines() if line.count(",") == 4)]
    yield "the rows as a frame", None if lines == wanted else f"wanted {wanted}, came {lines}"


def without_program(package: Package, top: pathlib.Path, seed: int | str, images: int) -> Iterator[Case]:
    """All cases in which the package is beside known answers and the plain readers."""
    yield from totals_by_hand(package)
    yield from ends_of_sums(package)
    yield from worked_looks(package, top)
    yield from refused_folders(package, top)
    yield from marked_folders(package, top)
    yield from amid_readings(package, top)
    yield from known_images(package)
    yield from recording_folders(package, top, seed)
    yield from looks_at_copies(package, top, seed)
    yield from summed(package, seed)
    yield from all_of_images(package, seed, images)
    yield from uses(package)
    yield from framed(package)


def refused_by(wrong: Sequence[str], number: int) -> str | None:
    """The case that refuses an edit of the package, or None."""
    with tempfile.TemporaryDirectory() as name:
        top = pathlib.Path(name).resolve()
        package = python_texts.edited(f"povundiri_wrong_{number}", top / "wrong", *wrong)
        try:
            for title, fault in without_program(package, top, 1, 0):
                if fault is not None:
                    return title
        except Exception as fault:
            return f"it ended with {fault!r}"
        finally:
            for module in [module for module in sys.modules if module.startswith(f"povundiri_wrong_{number}")]:
                del sys.modules[module]
    return None


def let_through() -> Iterator[Case]:
    """Each mistake in a copy of the package is refused by some case."""
    for number, (title, *wrong) in enumerate(WRONG):
        case = refused_by(wrong, number)
        print(f"python: {title}: refused by {case}", flush=True)
        yield f"{title}, which has to be refused", None if case is not None else "no case refuses it"


# ---- beside the program


def wrong_texts(package: Package, program: pathlib.Path, path: pathlib.Path) -> str | None:
    """Which text of the program differs from what the package reads of an image, or None."""
    reading = package.read(path)
    texts = {"--rows": python_texts.rows_of(reading), "--totals": python_texts.totals_of(reading)}
    for word, text in texts.items():
        if wrong := difference(Answer(text), answer(program, ["report", path, word])):
            return f"{word}: {wrong}"
    if wrong := difference(Answer(python_texts.info_of(reading)), answer(program, ["info", path])):
        return f"info: {wrong}"
    came = answer(program, ["show", path, "--width", "40"])
    lines = [line.decode() for line in python_texts.SHOWN.findall(came.output)]
    wanted = python_texts.shown_of(reading)
    return None if lines == wanted else f"show: wanted {wanted}, came {lines}"


def damaged_of(data: bytes, chance: random.Random) -> bytes:
    """Bytes of an image of which some are others."""
    changed = bytearray(data)
    for _ in range(chance.choice([1, 1, 2, 8])):
        changed[chance.randrange(len(changed))] = chance.choice([0, 1, 255, chance.randrange(256)])
    return bytes(changed)


def images_beside(
    package: Package, program: pathlib.Path, top: pathlib.Path, options: argparse.Namespace
) -> Iterator[Case]:
    """The known images, forged ones, and the example with other bytes: the report, and the other texts of each that can
    be read."""
    path, crash = top / "image", CRASH.read_bytes()
    images = {image.name: image.read_bytes() for image in sorted(known.FOLDER.glob("*.img"))}
    for number in range(options.images // IMAGES_EACH):
        chance = random.Random(f"python beside {options.seed} {number}")
        images[f"forged image {number} of seed {options.seed}"] = sums.image_of(chance)
        images[f"damaged image {number} of seed {options.seed}"] = damaged_of(crash, chance)
    for title, data in images.items():
        path.write_bytes(data)
        came = answered(package, data)
        wrong = difference(answer(program, ["report", path]), came)
        yield title, wrong or (wrong_texts(package, program, path) if came.status == 0 else None)


def sums_beside(package: Package, program: pathlib.Path, top: pathlib.Path, seed: int | str) -> Iterator[Case]:
    """Sums, folders of recordings, before and after folds, and totals: each as the program has them."""
    for number in range(FOLDERS):
        chance = random.Random(f"folders {seed} {number}")
        path = top / f"folder {number}"
        folders.filled(path, chance, is_valid=number % 2 == 1)
        for when in ("", ", folded"):
            reading = package.read(path)
            left = python_texts.left_lines(reading)
            wanted = Answer(python_texts.totals_of(reading), left, 3 if left else 0)
            yield f"folder {number}{when}, totals", difference(wanted, answer(program, ["report", "--totals", path]))
            wanted = dataclasses.replace(wanted, output=python_texts.report_of(reading))
            yield f"folder {number}{when}, report", difference(wanted, answer(program, ["report", path]))
            answer(program, ["fold", path])
        files = []
        for place, data in enumerate(inputs_of(chance, is_small=True)):
            files.append(top / f"{number} {place}")
            files[-1].write_bytes(data)
        with contextlib.suppress(package.Fault):
            text = python_texts.totals_of(package.sum_of(map(package.read, files)))
            yield f"sum {number}, totals", difference(Answer(text), answer(program, ["report", "--totals", *files]))


# ---- beside programs that record


@contextlib.contextmanager
def stored_into(path: pathlib.Path) -> Iterator[None]:
    """While a process stores all zeros and all ones by turns into each word of a file that is made."""
    path.write_bytes(bytes(8 * TORN_WORDS))
    with subprocess.Popen([sys.executable, "-c", STORING, str(path)]) as storing:
        try:
            yield
        finally:
            storing.kill()


def torn(package: Package, top: pathlib.Path) -> Iterator[Case]:
    """Copies of words that another process stores: no word has a part of one store and a part of another."""
    path, end, amid, others, count = top / "torn", time.monotonic() + TORN_SECONDS, 0, 0, 0
    with stored_into(path):
        while time.monotonic() < end and amid < TORN_ENOUGH:
            with open(path, "rb") as file:
                for copy in package._looks.copies_of(file):
                    zeros, ones = copy.count(0), copy.count(2**64 - 1)
                    others, amid, count = others + TORN_WORDS - zeros - ones, amid + (zeros > 0 < ones), count + 1
    print(f"python: {count} copies of {TORN_WORDS} words, {amid} amid stores", flush=True)
    yield "words that are torn", f"{others}, in {count} copies" if others else None
    yield "copies amid stores", None if amid else "none"


def units_in(reading: Package) -> bounds.Units:
    """The units of each bucket that has some."""
    return collections.Counter({(name, low): units for name, _, low, _, units in reading.rows()})


class Watched(bounds.Runs):
    """Runs of a program of four threads in one file, at which the package looks."""

    def __init__(self, package: Package, recording: pathlib.Path, folder: pathlib.Path, chance: random.Random) -> None:
        super().__init__(recording, folder, chance, VERSION)
        self.package, self.file, self.tally = package, folder / "file", folder / "tally"
        self.file.unlink(missing_ok=True)
        self.last: bounds.Units = collections.Counter()
        self.amid = self.looks = 0

    def wrong_look(self) -> str | None:
        """What is wrong with a look, or None. There is none until the segment is made."""
        ended = self.tally.read_bytes()
        try:
            reading = self.package.look(self.file)
        except (self.package.Fault, OSError) as fault:
            return None if not self.last and not any(ended) else f"look: {fault}"
        begun, units = self.tally.read_bytes(), units_in(reading)
        faults = [*map(str, reading.damage), *(["corrupt"] if reading.corrupt else [])]
        fallen = [cell for cell in self.last if units[cell] < self.last[cell]]
        self.amid += bounds.numbers(begun)[0] != bounds.numbers(ended)[1]
        self.looks, self.last = self.looks + 1, units
        wrong = bounds.wrong_between(units, faults, self.before, ended, begun, self.version)
        return wrong or (f"{fallen[0]} has fewer units than in the look before" if fallen else None)

    def run(self) -> str | None:
        """What is wrong with one of the looks at a run, which is killed after them, or None."""
        words = self.words("file", self.file, self.tally)
        with subprocess.Popen(words, stdout=subprocess.PIPE, stderr=subprocess.PIPE) as running:
            assert running.stderr is not None
            try:
                wrong = next(filter(None, (self.wrong_look() for _ in range(LOOKS_A_RUN))), None)
            finally:
                running.kill()
            said = running.stderr.read().decode()
        wrong = wrong or self.wrong_look()
        self.before = self.last
        return f"it said {said}" if said else wrong


def looked_at(package: Package, recording: pathlib.Path, top: pathlib.Path, seed: int | str) -> Iterator[Case]:
    """Looks at a program that records into a file, each between what had ended and what was begun."""
    watched = Watched(package, recording, top, random.Random(f"python looked {seed}"))
    for number in range(RUNS):
        yield f"run {number} that is looked at", watched.run()
    print(f"python: {watched.looks} looks, {watched.amid} amid a call; {sum(watched.last.values())} units", flush=True)
    yield "looks amid a call", None if watched.amid and sum(watched.last.values()) else "none"


class Read:
    """A folder that is read while programs record there, one after the other."""

    def __init__(self, package: Package, runs: recordings.Folder) -> None:
        self.package, self.runs = package, runs
        self.units: recordings.Counts = collections.Counter()
        self.met: collections.Counter[str] = collections.Counter()

    def wrong(self) -> str | None:
        """What is wrong with a reading, or None: each histogram has at least what had ended, at most what was begun,
        and no less than in the reading before."""
        ended = self.runs.counts()[1]
        try:
            reading = self.package.read(self.runs.folder)
        except self.package.Busy:
            self.met["busy"] += 1
            return None
        found = collections.Counter({name.encode(): one.units for name, one in reading.histograms.items()})
        begun, before = self.runs.counts()[0], self.units
        self.units, self.met["read"] = found, self.met["read"] + 1
        if reading.damage or reading.left_out:
            return f"{reading.damage}, {reading.left_out}"
        for name in recordings.NAMES:
            if not max(before[name], ended[name]) <= found[name] <= begun[name]:
                return f"{name!r}: {before[name]} were there, {ended[name]} had ended, {found[name]} are there"
        return None

    def run(self, program: pathlib.Path, mode: str) -> str | None:
        """What is wrong with the readings beside a run, or after it was killed; or None. Then the folder is folded."""
        with self.runs.running(0, recordings.SIZES[0], mode):
            wrong = next(filter(None, (self.wrong() for _ in range(READINGS_A_RUN))), None)
        wrong = wrong or self.wrong()
        wanted = answer(program, ["report", "--totals", self.runs.folder])
        came = Answer(python_texts.totals_of(self.package.read(self.runs.folder)))
        wrong = wrong or difference(wanted, came) or difference(Answer(), answer(program, ["fold", self.runs.folder]))
        return wrong or self.wrong()


def recorded(
    package: Package, program: pathlib.Path, top: pathlib.Path, options: argparse.Namespace
) -> Iterator[Case]:
    """Programs of the library that record, in a file and in a folder; in one mode they fold too."""
    try:
        programs = recordings.Programs(top)
        killed = programs.installed.program(native.PROGRAMS / "killed.cpp")
    except native.Failed as why:
        yield "the library", str(why)
        return
    yield from looked_at(package, killed, top, options.seed)
    for mode in ("-", "f"):
        home = top / f"mode {mode}"
        home.mkdir()
        chance = random.Random(f"python {options.seed} {mode}")
        read = Read(package, recordings.Folder(programs.recording, program, home, chance))
        for number in range(RUNS):
            yield f"mode {mode}, run {number}", read.run(program, mode)
        there = f"{read.met['read']} readings, {read.met['busy']} of them Busy; {sum(read.units.values())} units"
        print(f"python: mode {mode}: {there}", flush=True)
        is_enough = read.met["read"] > read.met["busy"] and min(read.units[name] for name in recordings.NAMES) > 0
        yield f"mode {mode}, enough readings", None if is_enough else there


def full_segment() -> bytes:
    """The bytes of a segment of the greatest size, full of histograms of which each has packed units."""
    words = layout.Words(layout.MOST_WORDS, layout.PAGE, VERSION)
    for number in range(MOST_HISTOGRAMS):
        at, name = words.block(layout.LEAST_HISTOGRAM, layout.HISTOGRAM), f"h{number:06}".encode()
        assert at is not None
        units = number % layout.MOST_PACKED + 1
        front = (layout.LINEAR, 1, 1000, 50, 0, 3 * 2**32 + units, 0, 60, 0, units, len(name))
        words.store(at + 4, *front, int.from_bytes(name, "little"))
        words.publish(at)
    return words.bytes()


def largest(package: Package, top: pathlib.Path) -> Iterator[Case]:
    """A segment of the greatest size that is full of histograms."""
    path = top / "largest"
    path.write_bytes(full_segment())
    wanted = sum(number % layout.MOST_PACKED + 1 for number in range(MOST_HISTOGRAMS))
    for read in (package.read, package.look):
        start = time.process_time()
        reading = read(path)
        spent = time.process_time() - start
        print(f"python: {read.__name__} of {len(reading.histograms)} histograms: {spent:.1f} s", flush=True)
        there = sum(one.units for one in reading.histograms.values())
        is_right = (len(reading.histograms), there, reading.is_whole) == (MOST_HISTOGRAMS, wanted, True)
        yield f"{read.__name__} of the largest segment", None if is_right and spent < MOST_SECONDS else f"{spent} s"


def cases(program: pathlib.Path, options: argparse.Namespace) -> Iterator[Case]:
    package = python_texts.loaded("povundiri", PACKAGE)
    images = options.images // IMAGES_EACH
    with tempfile.TemporaryDirectory() as name:
        yield from without_program(package, pathlib.Path(name).resolve(), options.seed, images)
    for part in (images_beside, recorded):
        with tempfile.TemporaryDirectory() as name:
            top = pathlib.Path(name).resolve()
            # Another user passes through it (`recordings`).
            top.chmod(0o711)
            yield from part(package, program, top, options)
    with tempfile.TemporaryDirectory() as name:
        yield from torn(package, pathlib.Path(name).resolve())
        yield from sums_beside(package, program, pathlib.Path(name).resolve(), options.seed)
        yield from largest(package, pathlib.Path(name).resolve())
    yield from let_through()
