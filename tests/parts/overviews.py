"""`info` and `show --list`: known and forged images beside a plain renderer; an image of version 1, names that are
wider than a line leaves, and separators."""

from __future__ import annotations

import argparse
import pathlib
import random
import tempfile
from collections.abc import Iterator, Sequence
from typing import Any

from parts import known, shows
from support import command_faults, forge, plain_overview
from support.program import EXAMPLE, Answer, Case, Word, answer, difference

PROGRAM = "persist_report"
MOST_IMAGES = 1000

# The overview of the example, by hand: the header takes 16 words, the record of A 16, and the counts of 3 buckets 10.
EXAMPLE_INFO = b"""\
version      1
id           7
size         128 words, 1024 bytes
page         64 words
used         42 words
free         86 words
units used   3
units left   4294967292
histograms   0 linear, 1 boolean, 0 custom, 0 sparse
flags        none
bad records  0
list         whole
"""
EXAMPLE_LIST = b"""\
name  kind     units   mean   50%   99%  greatest
A     boolean      3  0.666  true  true      true
"""
# The longest name is wider than what 60 columns leave to it, so it has a line of its own.
LONG_NAME = "a.name.that.is.wider.than.a.line.of.sixty.columns.leaves.to.it"
WIDE_SCRIPT = f"""\
segment,1024,64,7
hist,{LONG_NAME},custom,10,1000
hist,b,sparse
add,{LONG_NAME},5000,1234567
add,b,-7,2
"""
WIDE_LIST = f"""\
name    kind        units   mean      50%      99%  greatest
{LONG_NAME}
        custom  1,234,567  5,000  >= 1000  >= 1000   >= 1000
b       sparse          2  -7.00       -7       -7        -7
"""
LIST_CHOICES: list[shows.Choice] = [
    ([], {}),
    (["page.load"], {"names": ["page.load"]}),
    (["no.such.name"], {"names": ["no.such.name"]}),
    (["--match", "page"], {"part": "page"}),
    (["--width", "40"], {"width": 40}),
    (["--width", "200", "--human"], {"width": 200, "is_human": True}),
    (["--sort", "units"], {"is_by_units": True}),
    (["--sort=name"], {}),
]
USAGES = [
    ["info", "--width", "60"], ["info", "--list"], ["show", "--list", "--html"], ["show", "--list", "--ascii"],
    ["show", "--list", "--log"], ["show", "--all", "--list"], ["show", "--list=x"], ["show", "--human=x"],
    ["show", "--sort", "units"], ["show", "--list", "--sort", "size"], ["show", "--html", "--sort", "units"],
]


def beside_info(program: pathlib.Path, data: bytes, is_human: bool = False) -> str | None:
    """Where the overview of an image is not what the plain renderer says."""
    wanted = Answer(*plain_overview.answer(plain_overview.info_lines, data, is_human=is_human))
    return difference(wanted, answer(program, ["info", *(["--human"] if is_human else [])], data))


def beside_list(program: pathlib.Path, data: bytes, words: Sequence[Word] = (), **options: Any) -> str | None:
    """Where the list of an image is not what the plain renderer says."""
    wanted = Answer(*plain_overview.answer(plain_overview.list_lines, data, **options))
    return difference(wanted, answer(program, ["show", "-", "--list", *words], data))


def worked(program: pathlib.Path, folder: pathlib.Path) -> Iterator[Case]:
    """The example as a file and on standard input; a name that is wider than its column; each choice of a script's
    histograms."""
    data = EXAMPLE.read_bytes()
    inputs: list[list[Word]] = [[EXAMPLE], ["-"], []]
    for words in inputs:
        given = b"" if words == [EXAMPLE] else data
        yield f"the example, info {words}", difference(Answer(EXAMPLE_INFO), answer(program, ["info", *words], given))
        came = answer(program, ["show", "--list", *words], given)
        yield f"the example, list {words}", difference(Answer(EXAMPLE_LIST), came)
    script, image = folder / "script", folder / "image"
    script.write_text(WIDE_SCRIPT)
    answer(program, ["run", script, image])
    came = answer(program, ["show", image, "--list", "--width", "60", "--human"])
    yield "a wide name", difference(Answer(WIDE_LIST.encode()), came)
    script.write_bytes(shows.SCRIPT)
    ran = answer(program, ["run", script, image])
    yield "the script", None if ran.status == 0 else f"came {ran}"
    for choice, options in LIST_CHOICES:
        yield f"the script, {choice}", beside_list(program, image.read_bytes(), choice, **options)
    for usage in USAGES:
        came = answer(program, [usage[0], EXAMPLE, *usage[1:]])
        yield f"{usage}", None if came.status == 2 and came.output == b"" else f"wanted a usage fault, came {came}"
    came = answer(program, ["info", "--help"])
    yield "--help", None if came.status == 0 and b"Example:\n  persist_report info" in came.output else f"came {came}"


def cases(program: pathlib.Path, options: argparse.Namespace) -> Iterator[Case]:
    """Worked examples; the known images; and forged ones, a thousand at most."""
    with tempfile.TemporaryDirectory() as folder:
        yield from worked(program, pathlib.Path(folder))
    yield from command_faults.cases(program, ["info"])
    yield from command_faults.cases(program, ["show", "--list"])
    for image in sorted(known.FOLDER.glob("*.img")):
        yield f"{image.name}, info", beside_info(program, image.read_bytes())
        yield f"{image.name}, list", beside_list(program, image.read_bytes())
    for number in range(min(options.images, MOST_IMAGES)):
        chance = random.Random(f"{options.seed} {number}")
        data = forge.image_of(chance)
        width, is_human = chance.randint(40, 200), chance.random() < 0.5
        is_by_units = chance.random() < 0.5
        words = ["--width", str(width), *(["--human"] if is_human else []), *(["--sort=units"] if is_by_units else [])]
        settings = {"width": width, "is_human": is_human, "is_by_units": is_by_units}
        name = f"image {number} of seed {options.seed}"
        yield f"{name}, info", beside_info(program, data, is_human)
        yield f"{name}, list {words}", beside_list(program, data, words, **settings)
