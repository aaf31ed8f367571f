"""How large a segment has to be: what `size` prints, beside a plain model of allocation.

For sets of up to seven blocks every order is tried: none needs more pages than the program says, and how many sets
have an order that needs as many is counted. A script with that size is run with its first uses in random orders, and
none is refused.
"""

from __future__ import annotations

import argparse
import pathlib
import random
import re
import tempfile
from collections.abc import Iterator, Sequence

from support import layout, plain_sizes
from support.program import Answer, Case, answer, difference

PROGRAM = "persist_report"
SETS = 300
ORDERS = 4
MOST_TRIED = 7
# At least this many of a hundred sets of which all orders are tried have one that needs as many pages as are printed.
LEAST_TIGHT = 80
RACES = (
    "First uses at the same moment may take more: for each further thread a record of the histogram or of the value,"
    " and a block of counts.\n"
)
# A histogram: its name, and its spec as in a script.
Hist = tuple[str, Sequence[str]]

BOOLEAN_AND_SPARSE = (
    "A: record 16, counts 10, fits the page\n"
    "S: record 16, 2 values of 8, fits the page\n"
    "Page: 64 words\n"
    "Words: 74, in 5 blocks and the header, without rests of pages\n"
    "Smallest size: 128 words (1024 bytes), 2 x 64\n" + RACES
)
BOTH = "segment,64,64,7\nhist,A,boolean\nhist,S,sparse\n"
WORKED: dict[str, tuple[str, list[str], str]] = {
    "a script": (f"{BOTH}add,S,5,1\nadd,S,6,1\nadd,S,5,1\n", [], BOOLEAN_AND_SPARSE),
    "a script, with values": (BOTH, ["--values", "2"], BOOLEAN_AND_SPARSE),
    "a name twice": (f"{BOTH}hist,A,boolean\n", ["--values", "2"], BOOLEAN_AND_SPARSE),
    "another page": (
        "segment,64,64,7\nhist,A,boolean\n",
        ["--page", "4096"],
        "A: record 16, counts 10, fits the page\nPage: 4096 words\n"
        "Words: 42, in 2 blocks and the header, without rests of pages\n"
        "Smallest size: 4096 words (32768 bytes), 1 x 4096\n" + RACES,
    ),
    "no histogram": (
        "segment,64,64,7\n",
        [],
        "Page: 64 words\nWords: 16, in 0 blocks and the header, without rests of pages\n"
        "Smallest size: 64 words (512 bytes), 1 x 64\n" + RACES,
    ),
}
OPTIONS: dict[str, tuple[list[str], Answer]] = {
    "options": (
        ["--hist", "A,boolean", "--hist", "S,sparse", "--values", "2", "--page", "64"],
        Answer(BOOLEAN_AND_SPARSE.encode()),
    ),
    "too large": (
        ["--hist", "L,linear,1,100,31", "--page", "64"],
        Answer(
            b"L: record 16, counts 66, does not fit the page\nPage: 64 words\n"
            b"Words: 98, in 2 blocks and the header, without rests of pages\n"
            b"Smallest size: none, a block has more words than a page\n",
            b"persist_report: Refused 2 TooLarge\n",
            3,
        ),
    ),
    "too many": (
        ["--hist", "S,sparse", "--values", "200000"],
        Answer(
            b"S: record 16, 200000 values of 8, fits the page\nPage: 4096 words\n"
            b"Words: 1600032, in 200001 blocks and the header, without rests of pages\n"
            b"Smallest size: none, a segment has at most 1048576 words\n",
            b"persist_report: Refused 2 Full\n",
            3,
        ),
    ),
    "a bad spec": (["--hist", "L,linear,1,10,2"], Answer(b"", b"persist_report: Refused 2 BadSpec TooFew\n", 3)),
    "a bad name": (["--hist", "!L,boolean"], Answer(b"", b"persist_report: Refused 2 BadName\n", 3)),
}
MISTAKES: list[list[str]] = [
    [], ["--hist", "A"], ["--hist", "A,round"], ["--hist", "A,boolean", "--page", "65"],
    ["x.csv", "--hist", "A,boolean"],
]


def script(size: int, page: int, hists: Sequence[Hist], adds: Sequence[tuple[str, int]]) -> bytes:
    lines = [f"segment,{size},{page},7", *(f"hist,{name},{','.join(spec)}" for name, spec in hists)]
    return "".join(f"{line}\n" for line in [*lines, *(f"add,{name},{value},1" for name, value in adds)]).encode()


def some_hists(chance: random.Random, page: int) -> list[Hist]:
    """Up to four histograms that fit in a page."""
    most = min(1000, (page - 4) // 2)
    hists: list[Hist] = []
    for number in range(chance.randint(1, 4)):
        name = f"{number}{'x' * chance.choice([0, 0, 0, 7, 15])}"
        kind = chance.choice(["linear", "linear", "boolean", "custom", "sparse"])
        if kind == "linear":
            hists.append((name, [kind, "1", "5000", str(chance.randint(3, most))]))
        elif kind == "custom":
            few = min(most, page - 20) - 1
            last = chance.randint(2, max(2, min(few, 40)))
            hists.append((name, [kind, *(str(value) for value in range(1, last))]))
        else:
            hists.append((name, [kind]))
    return hists


def first_uses(hists: Sequence[Hist], values: int) -> list[tuple[str, int]]:
    """Values of each histogram, so that each has its counts or its records: two buckets, or `values` values."""
    adds: list[tuple[str, int]] = []
    for name, spec in hists:
        adds.extend((name, value) for value in (range(1, values + 1) if spec[0] == "sparse" else (0, 1)))
    return adds


def blocks_of(hists: Sequence[Hist], values: int) -> list[int]:
    blocks: list[int] = []
    for name, spec in hists:
        counts = plain_sizes.counts_words(spec)
        blocks.append(plain_sizes.record_words(name, spec))
        blocks.extend([counts] if counts else [layout.LEAST_SAMPLE] * values)
    return blocks


def wrong_run(
    program: pathlib.Path, folder: pathlib.Path, chance: random.Random, shape: tuple[int, int], hists: Sequence[Hist],
    values: int,
) -> str | None:
    """What is wrong with a run of a script with a size and a page, whose histograms and first uses come in a random
    order, or None."""
    hists, adds = list(hists), first_uses(hists, values)
    chance.shuffle(hists)
    chance.shuffle(adds)
    path = folder / "run.csv"
    path.write_bytes(script(*shape, hists, adds))
    came = answer(program, ["run", path, folder / "run.img"])
    return None if came.status == 0 else f"run of {path.read_text()} returned {came}"


def wrong_set(program: pathlib.Path, folder: pathlib.Path, chance: random.Random) -> tuple[str | None, bool | None]:
    """What is wrong with the size of a set of histograms, or None; and whether an order needs that many pages, or None
    if not all are tried."""
    page = chance.choice([64, 64, 80, 128, 256, 1024])
    hists, values = some_hists(chance, page), chance.randint(0, 3)
    blocks = blocks_of(hists, values)
    path = folder / "set.csv"
    path.write_bytes(script(page, page, hists, first_uses(hists, values)))
    came = answer(program, ["size", path])
    found = re.search(rb"^Smallest size: (\d+) words \(\d+ bytes\), (\d+) x (\d+)$", came.output, re.MULTILINE)
    pages = plain_sizes.bound(blocks, page)
    if came.status or found is None or pages is None:
        return f"{hists} in {page}: came {came}", None
    size = int(found[1])
    if (size, int(found[2]), int(found[3])) != (pages * page, pages, page):
        return f"{blocks} in {page}: wanted {pages} pages, came {came.output!r}", None
    for _ in range(ORDERS):
        wrong = wrong_run(program, folder, chance, (size, page), hists, values)
        if wrong:
            return wrong, None
    if len(blocks) > MOST_TRIED:
        return None, None
    worst = plain_sizes.worst_pages(blocks, page)
    wrong = f"{blocks} in {page}: an order needs {worst} pages, not {pages}" if worst > pages else None
    return wrong, worst == pages


def cases(program: pathlib.Path, options: argparse.Namespace) -> Iterator[Case]:
    chance = random.Random(options.seed)
    with tempfile.TemporaryDirectory() as scratch:
        folder = pathlib.Path(scratch)
        for name, (text, words, wanted) in WORKED.items():
            path = folder / "worked.csv"
            path.write_text(text)
            yield name, difference(Answer(wanted.encode()), answer(program, ["size", path, *words]))
        for name, (asked, right) in OPTIONS.items():
            yield name, difference(right, answer(program, ["size", *asked]))
        for mistake in MISTAKES:
            came = answer(program, ["size", *mistake])
            yield f"mistake {mistake}", None if came.status == 2 and came.error and not came.output else f"came {came}"
        tried: list[bool] = []
        for number in range(SETS):
            wrong, is_tight = wrong_set(program, folder, chance)
            tried += [] if is_tight is None else [is_tight]
            yield f"set {number}", wrong
        is_right = tried and 100 * sum(tried) >= LEAST_TIGHT * len(tried)
        yield "tight", None if is_right else f"only {sum(tried)} of {len(tried)} sets need as many pages"
