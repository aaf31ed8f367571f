"""Sums of many inputs, beside a plain sum (plain_sums.py): folders of forged images, lists of files, totals that are
read again, and what came since an earlier sum; each text, by any number of workers. On a terminal a line shows how far
a sum is."""

from __future__ import annotations

import argparse
import collections
import itertools
import os
import pathlib
import random
import re
import resource
import shutil
import tempfile
import threading
import time
from collections.abc import Iterator, Sequence
from typing import Any

from parts import explained as explaining
from support import forge, layout, plain_damage, plain_export, plain_reader, plain_show, plain_sums
from support.program import EXAMPLE, ROOT, Answer, Case, Word, answer, content, difference, explained, fault

PROGRAM = "persist_report"
FOLDERS = 100
MOST_IMAGES = 12
WORKERS = (1, 2, 3, 7, 16)
# More files than are open at once, and as few as a program may open.
MANY, FEW_OPEN = 900, 24
# What goes to the start of a line and erases it, and after how many seconds a line shows how far a sum is.
ERASE, PATIENCE = b"\r\x1b[K", 2
CRASH = ROOT / "examples" / "crash.img"
STOOD = b"what stood there before"
MAPPED = 0.1
# The reason that is reported for what cannot be read.
UNREAD = "Read"
# How files begin, and whether they are then inputs of a folder: the cookie, maybe after a word of zeros, or the first
# line of totals, each whole.
FRONTS = [
    (layout.COOKIE_BYTES, True),
    (bytes(8) + layout.COOKIE_BYTES, True),
    (plain_sums.TOTALS, True),
    (layout.COOKIE_BYTES[:7], False),
    (bytes(8) + layout.COOKIE_BYTES[:7], False),
    (bytes(7) + layout.COOKIE_BYTES, False),
    (bytes(9) + layout.COOKIE_BYTES, False),
    (plain_sums.TOTALS[:-1], False),
    (b"totals,2\n", False),
    (b"", False),
]
# Totals of three names and specs at the ends of what numbers may be, as a fold writes them; and their report.
ENDS = b"""totals,1
images,3,1,0,0,2
hist,Load,2,12,-7,-2,15,linear,1,10,3
key,0,4,1
key,1,0,0
key,10,18446744073709551611,3
hist,Load,1,5,0,0,1,boolean
key,0,1,0
key,1,0,0
key,2,0,0
hist,Value,1,12,-170141183460469231731687303715884105728,170141183460469231731687303715884105727,15,sparse
key,-2147483648,8,8
key,9,1,18446744073709551615
"""
REPORT_OF_ENDS = b"""Load,boolean,0,1,1
Load,total,1,0
Value,sparse,-2147483648,-2147483647,8
Value,sparse,9,10,1
Value,total,9,-170141183460469231731687303715884105728
!flag,full
!redundant,Value,15
!images,3
!other,Load,2,18446744073709551615
"""
# Lines after the first one of texts that are no totals, each with the number of the line that is reported.
NO_TOTALS = [
    ("", 2),
    ("images,0,0,0,0,0\nend,0", 4),
    ("images,0,0,0,0,0\nend,1\n", 3),
    ("images,0,0,0,0,00\nend,0\n", 2),
    ("images,1,0,0,0,0\nhist,B,1,0,0,0,0,sparse\nkey,1,2\nend,1\n", 4),
    # Names, specs and keys in no order, and each of these twice.
    ("images,1,0,0,0,0\nhist,B,1,0,0,0,0,sparse\nhist,A,1,0,0,0,0,sparse\nend,2\n", 4),
    ("images,1,0,0,0,0\nhist,A,1,0,0,0,0,sparse\nhist,A,1,0,0,0,0,sparse\nend,2\n", 4),
    (
        "images,1,0,0,0,0\nhist,A,1,0,0,0,0,sparse\nkey,-7,1,0\n"
        "hist,A,1,0,0,0,0,boolean\nkey,0,4,0\nkey,1,5,0\nkey,2,6,0\nend,2\n",
        5,
    ),
    ("images,1,0,0,0,0\nhist,A,1,0,0,0,0,sparse\nkey,3,2,0\nkey,-7,1,0\nend,1\n", 3),
    ("images,1,0,0,0,0\nhist,A,1,0,0,0,0,sparse\nkey,3,2,0\nkey,3,1,0\nend,1\n", 3),
    # Units that pass 64 bits together, a spec that is not valid, and keys that are not those of the spec.
    ("images,1,0,0,0,0\nhist,A,1,0,0,0,0,sparse\nkey,-7,18446744073709551615,0\nkey,3,1,0\nend,1\n", 3),
    (
        "images,1,0,0,0,0\nhist,A,1,0,0,0,0,sparse\nkey,1,2,0\nkey,2,1,0\nhist,B,1,0,0,0,0,sparse\nkey,7,1,0\n"
        "hist,C,1,0,0,0,0,linear,1,0,3\nhist,D,1,0,0,0,0,sparse\nend,4\n",
        8,
    ),
    ("images,1,0,0,0,0\nhist,B,1,0,0,0,0,boolean\nkey,0,2,0\nend,1\n", 3),
    ("images,1,0,0,0,0\nhist,B,1,0,0,0,0,boolean\nkey,-7,1,0\nkey,3,2,0\nend,1\n", 3),
]
# Names that a segment can have, and some that none can.
NAMES = (b"A", b"~" * 128, b"a!b", b"#;|\\'`")
NO_NAMES = (
    b"", b"!A", b'A"', b'"', b"A B", b"A\0", b"\0", b"\x1b[31mA", b"A\x7f", b"\t", b"A\r", b"\xff", b"\xf0\x9f\x98\x80",
    b"~" * 129,
)


def of_name(name: bytes) -> bytes:
    """Lines after the first one of totals with one histogram, of this name."""
    return b"images,1,0,0,0,0\nhist," + name + b",1,0,0,0,0,sparse\nkey,3,2,0\nend,1\n"


def no_totals() -> Iterator[tuple[bytes, int]]:
    """Lines after the first one of texts that are no totals, each with the number of the line that is reported."""
    for text, line in NO_TOTALS:
        yield text.encode(), line
    for name in NO_NAMES:
        yield of_name(name), 3


def text_of(data: bytes, **options: object) -> bytes:
    """The export of an image, or of the sum that the plain reader reads."""
    return plain_export.text_of(plain_export.families_of(data))


# Each text of a sum: the words that ask for it, and what it is, if `left` inputs were left out.
def texts_of(whole: plain_sums.Sum, left: int) -> list[tuple[list[str], bytes]]:
    return [
        (["report"], plain_sums.report_of(whole, left)),
        (["report", "--rows"], plain_sums.text_by(whole, plain_damage.rows_of)),
        (["report", "--totals"], plain_sums.totals_text(whole)),
        (["show"], plain_sums.text_by(whole, plain_show.text_of)),
        (["show", "--all", "--width", "60"], plain_sums.text_by(whole, plain_show.text_of, shows_all=True, width=60)),
        (["export"], plain_sums.text_by(whole, text_of)),
    ]


def told(left: Sequence[tuple[object, str]]) -> bytes:
    """The lines of inputs that are left out."""
    lines = (f"{why}: " + ("standard input" if name == "-" else f'"{name}"') for name, why in left)
    return "".join(f"persist_report: {line}\n" for line in lines).encode()


def wanted_of(output: bytes, left: Sequence[tuple[object, str]]) -> Answer:
    return Answer(output, told(left), 3 if left else 0)


def image_of(chance: random.Random) -> bytes:
    """A forged image, or a mapped file of one."""
    data = forge.image_of(chance)
    return bytes(8) + data if chance.random() < MAPPED and data[:8] == layout.COOKIE_BYTES else data


def filled(folder: pathlib.Path, chance: random.Random) -> list[tuple[pathlib.Path, bytes]]:
    """Files in a folder that is made, in the order of their names: images, totals of some, and others."""
    folder.mkdir()
    files = []
    for number in sorted(chance.sample(range(1000), chance.randint(0, MOST_IMAGES))):
        data = image_of(chance)
        if chance.random() < 0.2:
            images = [(None, image_of(chance)) for _ in range(chance.randint(0, 4))]
            data = plain_sums.totals_text(plain_sums.sum_of(images)[0])
        if chance.random() < 0.1:
            data = chance.choice([b"", b"totals,1", b"no image at all\n", data[:-1], data[: len(data) // 2]])
        files.append((folder / f"{number:03}.{chance.choice(['img', 'seg', 'tot'])}", data))
        files[-1][0].write_bytes(data)
    (folder / "in it").mkdir()
    (folder / "in it" / "more.img").write_bytes(CRASH.read_bytes())
    (folder / "link.img").symlink_to(CRASH)
    (folder / ".persist_report-0123456789abcdef").write_bytes(CRASH.read_bytes())
    return files


def folders(program: pathlib.Path, top: pathlib.Path, seed: int | str) -> Iterator[Case]:
    """Folders of forged images and totals: each text, by any number of workers."""
    for number in range(FOLDERS):
        chance = random.Random(f"sums {seed} {number}")
        folder = top / f"folder {number}"
        files = filled(folder, chance)
        whole, left = plain_sums.sum_of((path, data) for path, data in files if plain_sums.is_taken(data))
        for words, text in texts_of(whole, len(left)):
            title = f"folder {number} of seed {seed}, {' '.join(words)}"
            wanted = wanted_of(text, left)
            yield title, difference(wanted, answer(program, [words[0], folder, *words[1:]]))
            workers = str(chance.choice(WORKERS))
            came = answer(program, [words[0], folder, *words[1:], "--workers", workers])
            yield f"{title}, {workers} workers", difference(wanted, came)
        yield from listed(program, folder, files, f"folder {number} of seed {seed}")


def listed(
    program: pathlib.Path, folder: pathlib.Path, files: Sequence[tuple[pathlib.Path, bytes]], title: str
) -> Iterator[Case]:
    """The same files by their names: as arguments, as a list and as a list on standard input. None is passed over."""
    if len(files) < 2:
        return
    whole, left = plain_sums.sum_of(files)
    wanted = wanted_of(plain_sums.report_of(whole, len(left)), left)
    paths = [path for path, _ in files]
    lines = "".join(f"{path}\n" for path in paths).encode()
    names = folder / "in it" / "names"
    names.write_bytes(lines)
    yield f"{title}, files", difference(wanted, answer(program, ["report", *paths]))
    for workers in WORKERS:
        came = answer(program, ["report", *paths, "--workers", str(workers)])
        yield f"{title}, files, {workers} workers", difference(wanted, came)
    yield f"{title}, a list", difference(wanted, answer(program, ["report", "--files-from", names]))
    came = answer(program, ["report", "--files-from", "-"], lines)
    yield f"{title}, a list of standard input", difference(wanted, came)
    came = answer(program, ["report", paths[0], "--files-from", "-"], lines.split(b"\n", 1)[1])
    yield f"{title}, a file and a list", difference(wanted, came)
    text = plain_sums.text_by(whole, plain_show.text_of)
    shown: list[Word] = ["show", paths[0]]
    for path in paths[1:]:
        shown += ["--also", path]
    yield f"{title}, show --also", difference(wanted_of(text, left), answer(program, shown))
    strict = fault(f'{left[0][1]}: "{left[0][0]}"', 3) if left else wanted
    yield f"{title}, --strict", difference(strict, answer(program, ["report", *paths, "--strict"]))
    for workers in WORKERS:
        came = answer(program, ["report", *paths, "--strict", "--workers", str(workers)])
        yield f"{title}, --strict, {workers} workers", difference(strict, came)


def trees(program: pathlib.Path, top: pathlib.Path, seed: int | str) -> Iterator[Case]:
    """Totals of totals are those of all images at once, in any grouping; and they are read back."""
    for number in range(FOLDERS // 4):
        chance = random.Random(f"trees {seed} {number}")
        images = [valid_of(chance) for _ in range(chance.randint(2, 9))]
        flat, left = plain_sums.sum_of(enumerate(images))
        assert not left
        level = []
        for place, data in enumerate(images):
            path = top / f"{number}-{place}"
            path.write_bytes(data)
            level.append(path)
        while len(level) > 1:
            size = chance.randint(2, 4)
            groups = [level[at : at + size] for at in range(0, len(level), size)]
            level = []
            for place, group in enumerate(groups):
                path = top / f"{number}-{chance.random()}-{place}"
                came = answer(program, ["report", "--totals", "--to", path, *group])
                assert (came.error, came.status) == (b"", 0), f"{came}"
                level.append(path)
        title = f"tree {number} of seed {seed}"
        yield title, None if content(level[0]) == plain_sums.totals_text(flat) else "its root is not the flat sum"
        for words, text in texts_of(flat, 0):
            yield f"{title}, {' '.join(words)}", difference(Answer(text), answer(program, [*words, level[0]]))
        came = answer(program, ["report"], plain_sums.totals_text(flat))
        yield f"{title}, standard input", difference(Answer(plain_sums.report_of(flat, 0)), came)


def valid_of(chance: random.Random) -> bytes:
    """A forged image that can be read, and of which no total comes near its limit."""
    while True:
        data = forge.image_of(chance)
        try:
            read = plain_sums.of_image(data)
        except plain_reader.ImageFault:
            continue
        if all(part.redundant < 2**60 for part in read.parts.values()):
            return data


def grown(data: bytes, chance: random.Random) -> bytes:
    """An image some of whose words are others: mostly it has more."""
    words = list(layout.words_of(data))
    for _ in range(chance.choice([0, 1, 3])):
        words[chance.randrange(layout.FIRST, len(words))] += chance.choice([1, 1, 5])
    return layout.data_of([word % layout.WORD for word in words])


def earlier(program: pathlib.Path, top: pathlib.Path, seed: int | str) -> Iterator[Case]:
    """`--minus`: what came since an earlier image or folder, or what fell."""
    tried = set()
    for number in range(FOLDERS):
        chance = random.Random(f"earlier {seed} {number}")
        by = ["--workers", str(WORKERS[number % len(WORKERS)])]
        old = [valid_of(chance) for _ in range(chance.randint(1, 3))]
        new = [grown(data, chance) if chance.random() < 0.8 else valid_of(chance) for data in old]
        folder, before = top / f"new {number}", top / f"old {number}"
        for place, images in ((folder, new), (before, old)):
            place.mkdir()
            for at, data in enumerate(images):
                (place / f"{at}.img").write_bytes(data)
        now, left = plain_sums.sum_of((folder / f"{at}.img", data) for at, data in enumerate(new))
        then, _ = plain_sums.sum_of(enumerate(old))
        totals = top / f"old totals {number}"
        totals.write_bytes(plain_sums.totals_text(then))
        try:
            since = plain_sums.since(now, then)
        except plain_sums.Less as less:
            tried.add(str(less).split()[0])
            refused = Answer(b"", told(left) + fault(str(less), 3).error, 3)
            for other in (before, totals):
                came = answer(program, ["report", folder, "--minus", other, *by])
                yield f"{number} of seed {seed}, {less}, {by}", difference(refused, came)
            continue
        tried.add("since")
        for words, text in texts_of(since, len(left)):
            for other in (before, totals):
                came = answer(program, [words[0], folder, *words[1:], "--minus", other, *by])
                title = f"{number} of seed {seed}, {' '.join(words)} --minus, {by}"
                yield title, difference(wanted_of(text, left), came)
    yield "each answer of --minus", None if tried >= {"since", "Fell", "OtherSpec"} else f"tried were {tried}"
    gone = top / "gone"
    came = answer(program, ["report", CRASH, "--minus", gone])
    yield "--minus of no file", difference(fault(f'Read: "{gone}"', 4), came)


def few_open() -> None:
    """Lets a program open few files alone."""
    resource.setrlimit(resource.RLIMIT_NOFILE, (FEW_OPEN, FEW_OPEN))


def sum_of_named(inputs: Sequence[tuple[object, bytes | None]]) -> tuple[Answer, Answer]:
    """The report of the sum of inputs, of which those without bytes are missing; and what comes with `--strict`."""
    whole, left = plain_sums.Sum(), []
    for name, data in inputs:
        try:
            if data is None:
                raise plain_sums.Wrong(UNREAD)
            whole = plain_sums.added(whole, plain_sums.of_input(data))
        except plain_sums.Wrong as wrong:
            left.append((name, str(wrong)))
    report = wanted_of(plain_sums.report_of(whole, len(left)), left)
    if not left:
        return report, report
    name, why = left[0]
    return report, Answer(b"", told([(name, why)]), 4 if why == UNREAD else 3)


def many(program: pathlib.Path, top: pathlib.Path, seed: int | str) -> Iterator[Case]:
    """More files than are open at once, some forged and some missing, by any number of workers."""
    chance = random.Random(f"many {seed}")
    valid = [valid_of(chance) for _ in range(40)]
    totals = plain_sums.totals_text(plain_sums.sum_of(enumerate(valid[:2]))[0])
    pool = [*valid, *(image_of(chance) for _ in range(4)), b"no image at all\n", totals]
    inputs: list[tuple[object, bytes | None]] = []
    for number in range(MANY):
        path, data = top / f"{number:04}", chance.choice(pool)
        is_there = number in (0, MANY - 1) or chance.random() < 0.97
        inputs.append((path, data if is_there else None))
        if is_there:
            path.write_bytes(data)
    names = top / "names"
    for place in (None, 0, chance.randrange(MANY), MANY - 1):
        named, data = list(inputs), b""
        if place is not None:
            data = valid[0]
            named[place] = ("-", data)
        report, strict = sum_of_named(named)
        names.write_bytes("".join(f"{name}\n" for name, _ in named).encode())
        for workers in WORKERS:
            words: list[Word] = ["report", "--files-from", names, "--workers", str(workers)]
            title = f"{MANY} files of seed {seed}, standard input at {place}, {workers} workers"
            yield title, difference(report, answer(program, words, data))
            yield f"{title}, --strict", difference(strict, answer(program, [*words, "--strict"], data))
            came = answer(program, words, data, preexec_fn=few_open)
            yield f"{title}, few files open", difference(report, came)


def near_limits(chance: random.Random, is_small: bool) -> plain_sums.Sum:
    """A sum as totals may say it: numbers and amounts that fit alone, and mostly not beside others. A small one has
    small amounts and few images, so that a worker's sum is appended."""
    part = plain_sums.Part({}, {}, 0, 0, 0, 1, 0)
    for key in chance.sample(range(4), 2):
        part.units[key] = chance.choice([0, 1, 2**62, 2**63 - 1])
        part.marks[key] = chance.choice([0, 1, 2**63, 2**64 - 1])
    part.redundant, part.images = (chance.choice([0, 1, 2, 2**62, 2**63, 2**64 - 1]) for _ in range(2))
    images = chance.choice([1, 2])
    if not is_small:
        part.amounts, part.taken = (
            chance.choice([1, -1]) * chance.choice([0, 1, 2**126 - 1, 2**126, 2**127 - 1]) for _ in range(2)
        )
        part.least = chance.choice([0, 0, 1, 2**62 - 1, 2**62, 2**64 - 1])
        images = chance.choice([1, 1, 2, 2**62 - 1, 2**62, 2**64 - 2])
    notes = (images, *(chance.choice([0, 1, 2**63]) for _ in range(4)))
    name = chance.choice([b"a", b"b", b"c", b"d"])
    return plain_sums.Sum({(name, (layout.SPARSE,)): part}, *notes)


def limits(program: pathlib.Path, top: pathlib.Path, seed: int | str) -> Iterator[Case]:
    """Totals that do not fit beside others: which are left out does not depend on the workers."""
    tried: collections.Counter[str] = collections.Counter()
    for number in range(4 * FOLDERS):
        chance = random.Random(f"limits {seed} {number}")
        is_small = number % 2 == 0
        inputs = []
        for place in range(chance.randint(3, 12)):
            is_image = chance.random() < (0.6 if is_small else 0.3)
            data = valid_of(chance) if is_image else plain_sums.totals_text(near_limits(chance, is_small))
            path = top / f"limits {number} {place}"
            path.write_bytes(data)
            inputs.append((path, data))
        whole, left = plain_sums.sum_of(inputs)
        far = {path for path, data in inputs if has_far_number(data)}
        tried["far"] += any(path in far for path, _ in left)
        tried["small" if is_small else "large"] += any(path not in far for path, _ in left)
        wanted = wanted_of(plain_sums.report_of(whole, len(left)), left)
        totals_wanted = wanted_of(plain_sums.totals_text(whole), left)
        for workers in WORKERS:
            words: list[Word] = ["report", *(path for path, _ in inputs), "--workers", str(workers)]
            title = f"limits {number} of seed {seed}, {workers} workers"
            yield title, difference(wanted, answer(program, words))
            yield f"{title}, totals", difference(totals_wanted, answer(program, [*words, "--totals"]))
    is_tried = min(tried["far"], tried["small"], tried["large"]) > FOLDERS // 2
    yield "inputs that do not fit", None if is_tried else f"tried were {tried}"


def has_far_number(data: bytes) -> bool:
    """Whether an input has a least number that is refused by itself."""
    return any(part.least >= plain_sums.NUMBER_LIMIT for part in plain_sums.of_input(data).parts.values())


def several(program: pathlib.Path, _top: pathlib.Path) -> Iterator[Case]:
    """A file that is named twice, and standard input as one of two."""
    crash, example = CRASH.read_bytes(), EXAMPLE.read_bytes()
    twice, _ = plain_sums.sum_of([(CRASH, crash), (CRASH, crash)])
    yield "a file twice", difference(Answer(plain_sums.report_of(twice, 0)), answer(program, ["report", CRASH, CRASH]))
    two, _ = plain_sums.sum_of([(CRASH, crash), (EXAMPLE, example)])
    wanted = Answer(plain_sums.report_of(two, 0))
    yield "standard input after a file", difference(wanted, answer(program, ["report", CRASH, "-"], example))
    yield "standard input first", difference(wanted, answer(program, ["report", "-", EXAMPLE], crash))
    for workers in WORKERS:
        came = answer(program, ["report", "-", EXAMPLE, "--workers", str(workers)], crash)
        yield f"standard input first, {workers} workers", difference(wanted, came)


def one_image(program: pathlib.Path, top: pathlib.Path) -> Iterator[Case]:
    """One image, by any number of workers or alone in a folder: all is as without a sum."""
    for workers, command in itertools.product(WORKERS, ("report", "show", "export")):
        came = answer(program, [command, CRASH, "--workers", str(workers)])
        yield f"{command} of one image, {workers} workers", difference(answer(program, [command, CRASH]), came)
    (top / "crash.img").write_bytes(CRASH.read_bytes())
    for words in (["report"], ["show"], ["export"], ["report", "--rows"]):
        alone = answer(program, [*words, CRASH])
        yield f"a folder of one image, {words}", difference(alone, answer(program, [words[0], top, *words[1:]]))


def nothing(program: pathlib.Path, top: pathlib.Path) -> Iterator[Case]:
    """An empty folder."""
    for words, text in texts_of(plain_sums.Sum(), 0):
        yield f"an empty folder, {words}", difference(Answer(text), answer(program, [words[0], top, *words[1:]]))


def missing(program: pathlib.Path, top: pathlib.Path) -> Iterator[Case]:
    """A file that is missing, beside another one and alone, and a list."""
    gone = top / "none"
    one, _ = plain_sums.sum_of([(CRASH, CRASH.read_bytes())])
    wanted = Answer(plain_sums.report_of(one, 1), told([(gone, UNREAD)]), 3)
    yield "a missing file", difference(wanted, answer(program, ["report", CRASH, gone]))
    yield "a missing file, --strict", difference(
        fault(f'{UNREAD}: "{gone}"', 4), answer(program, ["report", CRASH, gone, "--strict"])
    )
    yield "a missing file alone", difference(fault("Read", 4), answer(program, ["report", gone]))
    yield "a missing list", difference(fault("Read", 4), answer(program, ["report", "--files-from", gone]))
    wanted = Answer(plain_sums.totals_text(plain_sums.Sum()), told([(gone, UNREAD)]), 3)
    yield "a missing file alone, of a sum", difference(wanted, answer(program, ["report", gone, "--totals"]))


def outputs(program: pathlib.Path, top: pathlib.Path) -> Iterator[Case]:
    """OUT of a sum, and of one that is refused."""
    gone, out = top / "none", top / "out"
    out.write_bytes(STOOD)
    came = answer(program, ["report", CRASH, gone, "--strict", "--to", out])
    yield "OUT of --strict", difference(fault(f'{UNREAD}: "{gone}"', 4), came) or (
        None if content(out) == STOOD else "OUT is another"
    )
    two, _ = plain_sums.sum_of((path, path.read_bytes()) for path in (CRASH, EXAMPLE))
    came = answer(program, ["report", CRASH, EXAMPLE, "--to", out])
    yield "OUT", difference(Answer(), came) or (
        None if content(out) == plain_sums.report_of(two, 0) else "OUT has another text"
    )


def looked(program: pathlib.Path, top: pathlib.Path) -> Iterator[Case]:
    """With `--live` each image is looked at, and totals are read as always."""
    crash = CRASH.read_bytes()
    two, _ = plain_sums.sum_of([(1, crash), (2, crash)])
    written = top / "crash.tot"
    written.write_bytes(plain_sums.totals_text(plain_sums.sum_of([(1, crash)])[0]))
    for workers in ("1", "4"):
        came = answer(program, ["report", CRASH, written, "--live", "--workers", workers])
        title = f"an image and totals, --live, {workers} workers"
        yield title, difference(Answer(plain_sums.report_of(two, 0)), came)
    old = answer(program, ["report", CRASH, EXAMPLE, "--live"])
    one, _ = plain_sums.sum_of([(1, crash)])
    wanted = Answer(plain_sums.report_of(one, 1), told([(EXAMPLE, "Adopt OldVersion")]), 3)
    yield "an image of version 1, --live", difference(wanted, old)


def damaged(program: pathlib.Path, top: pathlib.Path) -> Iterator[Case]:
    """`--whole` comes after the text, and so does a name that is missing."""
    words = list(layout.words_of(EXAMPLE.read_bytes()))
    words[20] = 5
    bad = top / "bad.img"
    bad.write_bytes(layout.data_of(words))
    two, _ = plain_sums.sum_of([(1, EXAMPLE.read_bytes()), (2, bad.read_bytes())])
    text = plain_sums.report_of(two, 0)
    yield "a damaged image", difference(Answer(text), answer(program, ["report", EXAMPLE, bad]))
    came = answer(program, ["report", EXAMPLE, bad, "--whole"])
    yield "--whole", difference(Answer(text, fault("NotWhole", 3).error, 3), came)
    came = answer(program, ["report", EXAMPLE, EXAMPLE, "--whole"])
    yield "--whole of whole ones", None if came.status == 0 else str(came)
    came = answer(program, ["report", EXAMPLE, bad, "--whole", "--explain"])
    yield "--whole, explained", difference(Answer(text, explained("NotWhole", 3, []).error, 3), came)
    shown = plain_sums.text_by(two, plain_show.text_of, names=("A", "B"))
    came = answer(program, ["show", EXAMPLE, "A", "B", "--also", bad])
    yield "a name that is missing", difference(Answer(shown, fault("NoHistogram B", 3).error, 3), came)


def totals(program: pathlib.Path, top: pathlib.Path) -> Iterator[Case]:
    """Totals that are none: each fault with its line."""
    crash = CRASH.read_bytes()
    lines = plain_sums.totals_text(plain_sums.sum_of([(1, crash)])[0]).splitlines(True)
    wrong = top / "wrong.tot"
    for number in range(1, len(lines) + 1):
        for changed in (lines[:number], [*lines[: number - 1], b"hist\n", *lines[number:]], [*lines[:number], b"\n"]):
            data = b"".join(changed)
            try:
                plain_sums.of_input(data)
            except plain_sums.Wrong as why:
                if not data.startswith(plain_sums.TOTALS):
                    continue
                wrong.write_bytes(data)
                came = answer(program, ["report", wrong])
                yield f"totals with line {number} changed", difference(fault(f'{why}: "{wrong}"', 3), came)
    several = b"".join(lines).replace(b"linear,1,1000,10", b"linear,1,1000,11")
    wrong.write_bytes(several)
    came = answer(program, ["report", CRASH, wrong])
    one, _ = plain_sums.sum_of([(1, crash)])
    line = next(number for number, text in enumerate(lines, 1) if b"linear,1,1000,10" in text)
    wanted = Answer(plain_sums.report_of(one, 1), told([(wrong, f"BadTotals {line}")]), 3)
    yield "totals that are no sum", difference(wanted, came)


def by_hand(program: pathlib.Path, top: pathlib.Path) -> Iterator[Case]:
    """Totals by hand: the text and the report of some, and the line that is reported of others."""
    written = top / "ends.tot"
    written.write_bytes(ENDS + b"of,3,77\nof,4,18446744073709551615\nfold,4\nend,3\n")
    came = answer(program, ["report", written, "--totals"])
    yield "totals at the ends of numbers", difference(Answer(ENDS + b"end,3\n"), came)
    yield "their report", difference(Answer(REPORT_OF_ENDS), answer(program, ["report", written]))
    wrong = top / "none.tot"
    for text, line in no_totals():
        wrong.write_bytes(plain_sums.TOTALS + text)
        came = answer(program, ["report", wrong])
        yield f"totals by hand, {text!r}", difference(fault(f'BadTotals {line}: "{wrong}"', 3), came)
    for name in NAMES:
        written.write_bytes(plain_sums.TOTALS + of_name(name))
        came = answer(program, ["report", written, "--totals"])
        yield f"totals with the name {name!r}", difference(Answer(written.read_bytes()), came)


def since_by_hand(program: pathlib.Path, top: pathlib.Path) -> Iterator[Case]:
    """`--minus` by hand: what came to some values and not to others, and amounts that are too far apart, since what
    came between them has to have 128 bits."""
    old, new = top / "old.tot", top / "new.tot"
    front, end = b"totals,1\nimages,1,0,0,0,0\nhist,A,1,5,", b"\nend,1\n"
    old.write_bytes(front + b"7,2,3,sparse\nkey,-7,8,1\nkey,3,16,1" + end)
    new.write_bytes(front + b"9,1,4,sparse\nkey,-7,9,1\nkey,0,4,3\nkey,3,16,2" + end)
    wanted = Answer(front + b"2,-1,1,sparse\nkey,-7,1,0\nkey,0,4,3\nkey,3,0,1" + end)
    came = answer(program, ["report", new, "--minus", old, "--totals"])
    yield "--minus, by hand", difference(wanted, came)
    yield "--minus of more", difference(fault("Fell A", 3), answer(program, ["report", old, "--minus", new]))
    most, least = 2**127 - 1, -(2**127)
    for before, now in ((1, least), (-1, most), (least, 0), (most, -2), (most, -1), (least, -1)):
        for path, amount in ((old, before), (new, now)):
            path.write_text(f"totals,1\nimages,1,0,0,0,0\nhist,A,1,0,{amount},0,0,sparse\nkey,1,1,0\nend,1\n")
        fits = least <= now - before <= most
        wanted = Answer(f"A,total,0,{now - before}\n".encode()) if fits else fault("TooMany", 3)
        yield f"{now} --minus {before}", difference(wanted, answer(program, ["report", new, "--minus", old]))


def fronts(program: pathlib.Path, top: pathlib.Path) -> Iterator[Case]:
    """Which files of a folder are inputs, by how they begin; of these none is whole."""
    folder = top / "fronts"
    folder.mkdir()
    inputs = []
    for number, (data, is_input) in enumerate(FRONTS):
        path = folder / f"{number:02}"
        path.write_bytes(data)
        if is_input:
            inputs.append((path, data))
    whole, left = plain_sums.sum_of(inputs)
    wanted = wanted_of(plain_sums.report_of(whole, len(left)), left)
    yield "which files of a folder are inputs", difference(wanted, answer(program, ["report", folder]))
    yield "none of these is whole", None if len(left) == len(inputs) else f"{left} are left out of {inputs}"


def unreadable(program: pathlib.Path, top: pathlib.Path) -> Iterator[Case]:
    """What may not be read, where a user who may read anything becomes another first; and folders in a list."""
    crash = CRASH.read_bytes()
    one, _ = plain_sums.sum_of([(1, crash)])
    folder, own = top / "with unreadable", top / "program"
    folder.mkdir()
    shutil.copy(program, own)
    for path, mode in ((top, 0o755), (folder, 0o755), (folder / "a.img", 0o644), (folder / "b.img", 0)):
        if not path.exists():
            path.write_bytes(crash)
        path.chmod(mode)
    closed = folder / "b.img"
    wanted = Answer(plain_sums.report_of(one, 1), told([(closed, UNREAD)]), 3)
    another: dict[str, Any] = {"preexec_fn": lambda: os.setuid(65534)} if os.geteuid() == 0 else {}
    came = answer(own, ["report", folder], cwd="/", **another)
    yield "a file that may not be read", difference(wanted, came)
    closed.unlink()
    came = answer(program, ["report", "--files-from", "-"], f"{folder}\n\n{folder}\n".encode())
    two, _ = plain_sums.sum_of([(1, crash), (2, crash)])
    yield "folders in a list", difference(Answer(plain_sums.report_of(two, 0)), came)


def fed(pipes: Sequence[tuple[pathlib.Path, bytes]], seconds: float) -> threading.Thread:
    """A thread that writes into named pipes, into the first after some seconds."""

    def feed() -> None:
        for number, (path, data) in enumerate(pipes):
            with open(path, "wb") as pipe:
                if number == 0:
                    time.sleep(seconds)
                pipe.write(data)

    thread = threading.Thread(target=feed)
    thread.start()
    return thread


def far(place: bytes, units: bytes) -> bytes:
    """The pattern of the line that shows how far a sum of four inputs is."""
    return re.escape(ERASE) + b"persist_report: %s of 4 files, %s units so far" % (place, units)


def told_meanwhile(program: pathlib.Path, top: pathlib.Path) -> Iterator[Case]:
    """A line shows how far a sum is, on a terminal, if it takes long. It is erased before anything else is written."""
    crash, empty = CRASH.read_bytes(), top / "empty"
    empty.write_bytes(b"")
    three, left = plain_sums.sum_of([(1, crash), (2, crash), (empty, b""), (3, crash)])
    wanted = wanted_of(plain_sums.report_of(three, len(left)), left)
    units = sum(sum(part.units.values()) for part in plain_sums.of_image(crash).parts.values())
    late = far(b"1", b"%d" % units) + b"(?:%s)*" % far(rb"\d", rb"\d+") + re.escape(ERASE)
    pipes = [(top / "first", crash), (top / "second", crash)]
    for path, _ in pipes:
        os.mkfifo(path)
    for workers in (1, 4):
        words: list[Word] = ["report", *(path for path, _ in pipes), empty, CRASH, "--workers", str(workers)]
        for seconds, lines in ((0, b""), (PATIENCE + 0.3, late)):
            title = f"a sum that takes {seconds} seconds, {workers} workers"
            feeding = fed(pipes, seconds)
            came = explaining.on_terminal(program, words)
            feeding.join()
            is_told = re.fullmatch(lines + re.escape(wanted.error), came.error) is not None
            is_right = is_told and (came.output, came.status) == (wanted.output, wanted.status)
            yield f"{title}, on a terminal", None if is_right else f"came {came}"
            feeding = fed(pipes, seconds)
            came = answer(program, words)
            feeding.join()
            yield title, difference(wanted, came)


def usage(program: pathlib.Path, top: pathlib.Path) -> Iterator[Case]:
    """What cannot go together is a usage fault, and nothing is written."""
    two: list[Word] = ["report", CRASH, CRASH]
    commands: list[list[Word]] = [
        ["report", "-", "-"],
        ["report", "-", "--files-from", "-"],
        ["report", CRASH, "--files-from", "-", "--minus", "-"],
        ["report", "-", "--minus", "-"],
        ["report", "--totals", "--rows", CRASH],
        *[[*two, "--workers", count] for count in ("0", "17", "-1", "", "two", "4294967297")],
        ["report", CRASH, "--workers"],
        ["show", CRASH, "--workers", "1", "--workers", "2"],
        ["info", CRASH, "--workers", "1"],
        ["export", "--totals", CRASH],
        ["show", "--totals", CRASH],
        ["show", CRASH, "--also", EXAMPLE, "--html", "--log"],
        ["info", CRASH, EXAMPLE],
        ["report", CRASH, "--strict", "--strict"],
        ["report", CRASH, "--files-from", "a", "--files-from", "b"],
    ]
    for words in commands:
        came = answer(program, words, CRASH.read_bytes())
        is_right = (came.output, came.status) == (b"", 2) and came.error.startswith(b"error: ")
        yield f"{words}", None if is_right else f"wanted a usage fault, came {came}"


def cases(program: pathlib.Path, options: argparse.Namespace) -> Iterator[Case]:
    for part in (folders, trees, earlier, many, limits):
        with tempfile.TemporaryDirectory() as name:
            yield from part(program, pathlib.Path(name).resolve(), options.seed)
    for more in (
        several, one_image, nothing, missing, outputs, looked, damaged, totals, by_hand, since_by_hand, fronts,
        unreadable, told_meanwhile, usage,
    ):
        with tempfile.TemporaryDirectory() as name:
            yield from more(program, pathlib.Path(name).resolve())
