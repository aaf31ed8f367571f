"""`show --html` of sums: the pages of folders, files and totals say what a plain sum (plain_sums.py) and the plain
renderers say, and name where the sum comes from. `info` is of one image alone."""

from __future__ import annotations

import argparse
import pathlib
import random
import tempfile
from collections.abc import Iterator, Sequence
from typing import Any

from parts import pages, sums
from support import layout, plain_overview, plain_show, plain_sums
from support.program import EXAMPLE, Answer, Case, Word, answer, content, difference, fault

PROGRAM = "persist_report"
FOLDERS = 60
CRASH = sums.CRASH
# Words after the inputs, and how the plain renderers are asked for the same.
CHOICES: list[tuple[list[Word], dict[str, Any]]] = [
    ([], {}),
    (["--all"], {"shows_all": True}),
    (["--match", "a"], {"part": "a"}),
    (["--match", "no.such.part"], {"part": "no.such.part"}),
    (["--human"], {}),
]
# A name with signs that HTML gives a meaning, and a letter beyond ASCII.
STRANGE = "a<b>&'\"\u00e4.img"


def beside(
    came: Answer,
    source: object,
    whole: plain_sums.Sum,
    left: Sequence[tuple[object, str]] = (),
    wrong: Answer | None = None,
    **options: Any,
) -> str | None:
    """Where what came is not the page of a sum that comes from `source`, without the inputs that are left out; what
    else is wrong is reported after these."""
    told = sums.told(left)
    status = wrong.status if wrong is not None else 3 if left else 0
    wanted = Answer(came.output, told + (wrong.error if wrong is not None else b""), status)
    overview = list(plain_sums.overview_of(whole, len(left)))
    with plain_sums.read_as(whole):
        return difference(wanted, came) or pages.complaint(
            b"", came.output, source=str(source), overview=overview, **options
        )


def folders(program: pathlib.Path, top: pathlib.Path, seed: int | str) -> Iterator[Case]:
    """Folders of forged images and totals, the same files by their names, and what is written as totals."""
    for number in range(FOLDERS):
        chance = random.Random(f"summed pages {seed} {number}")
        folder = top / f"folder {number}"
        files = sums.filled(folder, chance)
        title = f"folder {number} of seed {seed}"
        by = ["--workers", str(chance.choice(sums.WORKERS))]
        whole, left = plain_sums.sum_of((path, data) for path, data in files if plain_sums.is_taken(data))
        for words, options in CHOICES:
            came = answer(program, ["show", folder, "--html", *words, *by])
            yield f"{title}, {words} {by}", beside(came, folder, whole, left, **options)
        written = folder / "in it" / "all.tot"
        written.write_bytes(plain_sums.totals_text(whole))
        came = answer(program, ["show", written, "--html"])
        yield f"{title}, as totals", beside(came, written, whole)
        came = answer(program, ["show", "--html"], written.read_bytes())
        yield f"{title}, as totals on standard input", beside(came, "standard input", whole)
        if len(files) > 1:
            yield from listed(program, folder / "in it" / "names", files, title)


def listed(
    program: pathlib.Path, names: pathlib.Path, files: Sequence[tuple[pathlib.Path, bytes]], title: str
) -> Iterator[Case]:
    """Files by their names: the page names the first and how many more there are."""
    whole, left = plain_sums.sum_of(files)
    first, *others = (path for path, _ in files)
    source = f"{first} and {len(others)} more"
    words: list[Word] = ["show", first, "--html"]
    for path in others:
        words += ["--also", path]
    yield f"{title}, --also", beside(answer(program, words), source, whole, left)
    names.write_bytes("".join(f"{path}\n" for path, _ in files).encode())
    came = answer(program, ["show", "--files-from", names, "--html"])
    yield f"{title}, a list", beside(came, source, whole, left)


def sources(program: pathlib.Path, top: pathlib.Path) -> Iterator[Case]:
    """Where a sum comes from: standard input, an empty folder or list, a list of one, many files, names that need
    escapes."""
    crash, example = CRASH.read_bytes(), EXAMPLE.read_bytes()
    none, one = plain_sums.Sum(), plain_sums.sum_of([(1, crash)])[0]
    two, _ = plain_sums.sum_of([(1, crash), (2, example)])
    came = answer(program, ["show", "-", "--also", EXAMPLE, "--html"], crash)
    yield "standard input and a file", beside(came, "standard input and 1 more", two)
    came = answer(program, ["show", CRASH, "--also", "-", "--html"], example)
    yield "a file and standard input", beside(came, f"{CRASH} and 1 more", two)
    empty, names = top / "empty", top / "names"
    empty.mkdir()
    yield "an empty folder", beside(answer(program, ["show", empty, "--html"]), empty, none)
    came = answer(program, ["show", empty, "--also", empty, "--html"])
    yield "two empty folders", beside(came, empty, none)
    listing: list[Word] = ["show", "--files-from", names, "--html"]
    for text, source, whole in (
        ("\n", names, none),
        (f"{CRASH}\n", CRASH, one),
        (f"{empty}\n{CRASH}\n{empty}\n", CRASH, one),
        (f"{CRASH}\n" * 1001, f"{CRASH} and 1,000 more", plain_sums.sum_of([(1, crash)] * 1001)[0]),
    ):
        names.write_text(text)
        yield f"a list of {len(text)} bytes", beside(answer(program, listing), source, whole)
    strange = top / STRANGE
    strange.write_bytes(crash)
    came = answer(program, ["show", strange, "--also", EXAMPLE, "--html"])
    yield "a file whose name needs escapes", beside(came, f"{strange} and 1 more", two)
    folder = top / f"of {STRANGE}"
    folder.mkdir()
    (folder / "crash.img").write_bytes(crash)
    yield "a folder whose name needs escapes", beside(answer(program, ["show", folder, "--html"]), folder, one)


def wrong(program: pathlib.Path, top: pathlib.Path) -> Iterator[Case]:
    """What is wrong with the inputs is reported after the page. With `--strict`, or if a number fell, there is no
    page."""
    crash = CRASH.read_bytes()
    words = list(layout.words_of(EXAMPLE.read_bytes()))
    words[20] = 5
    bad, gone, out = top / "bad.img", top / "gone", top / "out"
    bad.write_bytes(layout.data_of(words))
    two, _ = plain_sums.sum_of([(1, crash), (2, bad.read_bytes())])
    asked: list[Word] = ["show", CRASH, "--also", bad, "--html"]
    source = f"{CRASH} and 1 more"
    yield "a bad record", beside(answer(program, asked), source, two)
    came = answer(program, [*asked, "--whole"])
    yield "--whole", beside(came, source, two, wrong=fault("NotWhole", 3))
    came = answer(program, ["show", CRASH, "cache.hit", "none", "--also", bad, "--html"])
    missing = fault("NoHistogram none", 3)
    yield "a name that is missing", beside(came, source, two, wrong=missing, names=["cache.hit", "none"])
    one, _ = plain_sums.sum_of([(1, crash)])
    asked = ["show", CRASH, "--also", gone, "--html"]
    yield "a file that is missing", beside(answer(program, asked), source, one, [(gone, sums.UNREAD)])
    came = answer(program, [*asked, "--strict"])
    yield "--strict", difference(Answer(b"", sums.told([(gone, sums.UNREAD)]), 4), came)
    came = answer(program, ["show", CRASH, "--html", "--minus", CRASH])
    yield "--minus", beside(came, CRASH, plain_sums.since(one, one))
    came = answer(program, ["show", EXAMPLE, "--html", "--minus", CRASH])
    yield "--minus of another", None if (came.output, came.status) == (b"", 3) else f"came {came}"
    page = answer(program, ["show", CRASH, "--also", bad, "--html"]).output
    came = answer(program, ["show", CRASH, "--also", bad, "--html", "--to", out])
    yield "--to", difference(Answer(), came) or (None if content(out) == page else "OUT has another text")


def overviews(program: pathlib.Path, top: pathlib.Path) -> Iterator[Case]:
    """`info` has no text of a sum: two files are a mistake, and totals and folders are no image."""
    came = answer(program, ["info", CRASH, EXAMPLE])
    is_right = (came.output, came.status) == (b"", 2) and came.error.startswith(b"error: ")
    yield "info of two files", None if is_right else f"came {came}"
    totals = plain_sums.totals_text(plain_sums.sum_of([(1, CRASH.read_bytes())])[0])
    wanted = Answer(*plain_overview.answer(plain_overview.info_lines, totals, is_human=False))
    yield "info of totals", difference(wanted, answer(program, ["info"], totals))
    yield "info of a folder", difference(fault("Read", 4), answer(program, ["info", top]))


def same_as_text(program: pathlib.Path, top: pathlib.Path) -> Iterator[Case]:
    """The page of one image in a folder has the histograms that the page of the image has, after another overview."""
    crash = CRASH.read_bytes()
    (top / "crash.img").write_bytes(crash)
    page = answer(program, ["show", CRASH, "--html"]).output
    summed = answer(program, ["show", top, "--html"]).output
    start = b"<main>"
    same = page[page.index(start) :] == summed[summed.index(start) :] if start in page and start in summed else False
    yield "one image in a folder", None if same else "its histograms are others"
    text = plain_show.text_of(crash).decode()
    names = [line for line in text.split("\n") if line and not line.startswith(" ")]
    lacking = [name for name in names if f">{name}</h2>".encode() not in summed]
    yield "each histogram has a title", f"{lacking} have none" if lacking or not names else None


def cases(program: pathlib.Path, options: argparse.Namespace) -> Iterator[Case]:
    with tempfile.TemporaryDirectory() as name:
        yield from folders(program, pathlib.Path(name).resolve(), options.seed)
    for part in (sources, wrong, overviews, same_as_text):
        with tempfile.TemporaryDirectory() as name:
            yield from part(program, pathlib.Path(name).resolve())
