"""`show --html`: the pages of known and forged images say what the plain renderers of `info`, `show --list` and `show`
say, and are well formed; names that need escapes; the file that a page names."""

from __future__ import annotations

import argparse
import fractions
import html
import math
import pathlib
import random
import tempfile
from collections.abc import Iterable, Iterator, Sequence
from typing import Any

from parts import known, shows
from support import command_faults, forge, page_text, plain_overview, plain_show
from support.program import EXAMPLE, Answer, Case, Word, answer, difference

PROGRAM = "persist_report"
MOST_IMAGES = 1000
WIDEST = 1000
# The heads of the columns of a text; those of a page are no lines of the page.
HEADS = ["values", "units", "percent", "up", "to"]
# Names with all signs that HTML gives a meaning, and some that look like parts of a page.
NAMES = [
    "a<b>&'c'", "&amp;", "&#39;&lt", "</h2>", "<script>alert(1)</script>", "]]>", "<!--", "-->", "%41", "#h0", "\\",
    "a;b`c=d",
]
HISTS = "".join(f"hist,{name},boolean\n" for name in NAMES)
ADDS = "".join(f"add,{name},{at % 2},{at + 1}\n" for at, name in enumerate(NAMES))
SCRIPT = f"segment,4096,64,7\n{HISTS}{ADDS}".encode()
# What a page takes no part in: how a text is drawn.
DRAWN = {"--ascii", "--log", "--human"}
CHOICES: list[shows.Choice] = [
    ([], {}),
    *(choice for choice in shows.CHOICES if "--width" not in choice[0][0] and not DRAWN & set(choice[0])),
]
USAGES = [
    ["--html", "--width", "40"], ["--html", "--ascii"], ["--html", "--log"], ["--ascii", "--html"], ["--html=x"],
    ["--html", "--match", "a", "A"],
]


def complaint(
    data: bytes, page: bytes, source: str = "standard input", overview: Iterable[str] | None = None, **options: Any
) -> str | None:
    """Where a page is not well formed, or does not say where the image comes from and what the plain renderers say of
    it, in its order; None if all is well. These are the lines of its overview, or else those of `info`."""
    read, wrong = page_text.read(page)
    if wrong is not None:
        return wrong
    assert read is not None
    text = plain_show.text_of(data, width=0, is_ascii=True, is_human=True, **options).decode()
    shown = [words for words in page_text.words_of(text.split("\n")) if words != HEADS]
    listed = {name: option for name, option in options.items() if name != "shows_all"}
    rows = plain_overview.list_rows(data, listed.get("names", ()), listed.get("part"), True)
    lines = plain_overview.info_lines(data, is_human=True) if overview is None else overview
    wanted = page_text.words_of([source, *lines, *map(" ".join, rows), *map(" ".join, shown)])
    for number, words in enumerate(wanted):
        came = read.lines[number] if number < len(read.lines) else "no more"
        if came != words:
            return f"line {number + 1}: wanted {words}, came {came}"
    if len(read.lines) > len(wanted):
        return f"there is more after it: {read.lines[len(wanted)]}"
    return contents_complaint(read, shown) or widths_complaint(read, plain_show.bars_of(data, **options))


def contents_complaint(read: page_text.Page, wanted: Sequence[Sequence[str]]) -> str | None:
    """Where the list does not lead to each histogram, by its name."""
    places = [f"h{number}" for number in range(len(read.places))]
    names = [words[0] for words, below in zip(wanted, wanted[1:]) if len(words) == 1 and below[1:2] == ["units"]]
    if read.places != places:
        return f"the places are {read.places}"
    if len(names) != len(places) or read.links != [(f"#{place}", name) for place, name in zip(places, names)]:
        return f"the list is {read.links}, and the names are {names}"
    return None


def widths_complaint(read: page_text.Page, bars: Iterable[tuple[int, int]]) -> str | None:
    """Where a bar is not as long as its units want, in thousandths of the longest one, rounded up."""
    wanted = [math.ceil(fractions.Fraction(units * WIDEST, most)) if units else 0 for units, most in bars]
    return None if read.widths == wanted else f"wanted bars of {wanted[:9]}, came {read.widths[:9]}"


def beside(program: pathlib.Path, data: bytes, words: Sequence[Word] = (), **options: Any) -> str | None:
    """Where the page of an image is not what the plain renderer wants; of what is no image the fault is wanted, and a
    name that no histogram has is a fault after the page."""
    output, error, status = plain_show.answer(data, **options)
    came = answer(program, ["show", "-", *words, "--html"], data)
    if output == b"" or came.output == b"":
        return difference(Answer(output, error, status), came)
    wrong = difference(Answer(came.output, error, status), came)
    return wrong or complaint(data, came.output, **options)


def escaped(name: str) -> str:
    """A name as a page has it: in an apostrophe's place the decimal number of the sign."""
    return html.escape(name).replace("&#x27;", "&#39;")


def worked(program: pathlib.Path, folder: pathlib.Path) -> Iterator[Case]:
    """The example as a file and on standard input; names that need escapes; each choice of a script's histograms."""
    wanted = answer(program, ["show", "--html", EXAMPLE])
    yield "the example", complaint(EXAMPLE.read_bytes(), wanted.output, source=str(EXAMPLE))
    came = answer(program, ["show", "--also", EXAMPLE, "--html"])
    yield "the example, by --also alone", difference(wanted, came)
    wanted = answer(program, ["show", "--html"], EXAMPLE.read_bytes())
    yield "the example, on standard input", complaint(EXAMPLE.read_bytes(), wanted.output)
    yield "the example, --human", difference(
        wanted, answer(program, ["show", "--html", "--human"], EXAMPLE.read_bytes())
    )
    strange = folder / "a<b>&'\"\u00e4.img"
    strange.write_bytes(EXAMPLE.read_bytes())
    came = answer(program, ["show", "--html", strange])
    yield "a file whose name needs escapes", complaint(EXAMPLE.read_bytes(), came.output, source=str(strange))
    inputs: list[list[Word]] = [["-"], []]
    for words in inputs:
        yield f"the example, {words}", difference(
            wanted, answer(program, ["show", "--html", *words], EXAMPLE.read_bytes())
        )
    script, image = folder / "script", folder / "image"
    for name, text in [("escapes", SCRIPT), ("many values", shows.MANY_SCRIPT.encode()), ("kinds", shows.SCRIPT)]:
        script.write_bytes(text)
        ran = answer(program, ["run", script, image])
        yield f"{name}, run", None if ran.status == 0 else f"came {ran}"
        for choice, options in CHOICES:
            yield f"{name}, {choice}", beside(program, image.read_bytes(), choice, **options)
        if name == "escapes":
            page = answer(program, ["show", "--html", image]).output.decode()
            missing = [one for one in NAMES if page.count(f">{escaped(one)}</") != 2]
            yield "escapes, twice each", f"{missing} do not stand twice in the page" if missing else None
    for usage in USAGES:
        came = answer(program, ["show", EXAMPLE, *usage])
        yield f"{usage}", None if came.status == 2 and came.output == b"" else f"wanted a usage fault, came {came}"


def cases(program: pathlib.Path, options: argparse.Namespace) -> Iterator[Case]:
    """Worked examples; the known images; and forged ones, a thousand at most."""
    with tempfile.TemporaryDirectory() as folder:
        yield from worked(program, pathlib.Path(folder))
    yield from command_faults.cases(program, ["show", "--html"])
    for image in sorted(known.FOLDER.glob("*.img")):
        yield image.name, beside(program, image.read_bytes())
    for number in range(min(options.images, MOST_IMAGES)):
        data = forge.image_of(random.Random(f"{options.seed} {number}"))
        words, settings = (["--all"], {"shows_all": True}) if number % 2 else ([], {})
        yield f"image {number} of seed {options.seed}", beside(program, data, words, **settings)
