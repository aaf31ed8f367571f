"""`show`: known and forged images beside a plain renderer; names, parts of names, widths, signs and separators; many
sparse values; redundant counts."""

from __future__ import annotations

import argparse
import pathlib
import random
import tempfile
from collections.abc import Iterator, Sequence
from typing import Any, Optional

from parts import known
from support import command_faults, forge, plain_show
from support.layout import HISTOGRAM, REDUNDANT, SAMPLE, data_of, words_of
from support.program import EXAMPLE, Answer, Case, Word, answer, difference

PROGRAM = "persist_report"
MOST_IMAGES = 1000
MOST_SPARSE_IMAGES = 12
MOST_COUNT = b"18,446,744,073,709,551,615"

# The text of the example, by hand: two of the three units are true. Of the 80 cells of a line 31 are not the bar's.
EXAMPLE_TEXT = (
    "A\n"
    "  boolean, units 3, sum 2, mean 0.666\n"
    "  values  " + " " * 49 + "units percent   up to\n"
    "   false " + "\u2588" * 24 + "\u258c" + " " * 24 + "     1   33.3%   33.3%\n"
    "    true " + "\u2588" * 49 + "     2   66.7%  100.0%\n"
    "\n"
).encode()
# One unit of 100,000, and the others in the last bucket.
RARE_SCRIPT = b"segment,1024,64,7\nhist,rare,custom,10,1000\nadd,rare,5,1\nadd,rare,5000,99999\n"
# Its text, by hand.
RARE_TEXT = b"""\
rare
  custom, units 100000, sum 499995005, mean 4999
  50%: >= 1000, 90%: >= 1000, 99%: >= 1000, 99.9%: >= 1000
  least: [0, 10), greatest: >= 1000
   values          units percent   up to
  [0, 10) #            1   <0.1%   <0.1%
      ...
  >= 1000 ######## 99999  >99.9%  100.0%

"""
# The same with separators, two columns wider.
RARE_HUMAN_TEXT = b"""\
rare
  custom, units 100,000, sum 499,995,005, mean 4,999
  50%: >= 1000, 90%: >= 1000, 99%: >= 1000, 99.9%: >= 1000
  least: [0, 10), greatest: >= 1000
   values            units percent   up to
  [0, 10) #              1   <0.1%   <0.1%
      ...
  >= 1000 ######### 99,999  >99.9%  100.0%

"""
# A script of each kind, with gaps between buckets, with and without a sign, and with one that nothing was recorded in.
SCRIPT = b"""\
segment,1024,64,7
hist,page.load,linear,1,100,12
hist,page.size,custom,10,20,400
hist,~s,sparse
hist,none,boolean
hist,empty,linear,1,100,5
add,page.load,0,3
add,page.load,55,160
add,page.load,99,1
add,page.load,100,7
add,page.size,12,4294900000
add,~s,-2147483648,1
add,~s,2147483647,2
add,~s,-5,7
delta,page.load
add,page.load,20,2
"""
# A sparse histogram with 23 values: 1 and 2 have two units, and those from 3 to 23 have three, so that 1, 2 and 23 are
# left out.
MANY_SCRIPT = "segment,1024,64,7\nhist,many,sparse\n" + "".join(
    f"add,many,{value},{2 if value < 3 else 3}\n" for value in range(1, 24)
)
# Its text, by hand.
MANY_PERCENTS = [
    10.4, 14.9, 19.4, 23.9, 28.4, 32.8, 37.3, 41.8, 46.3, 50.7, 55.2, 59.7, 64.2, 68.7, 73.1, 77.6, 82.1, 86.6, 91.0,
    95.5,
]
MANY_TEXT = (
    "many\n"
    "  sparse, units 67, sum 825, mean 12.3\n"
    "  50%: 12, 90%: 21, 99%: 23, 99.9%: 23\n"
    "  least: 1, greatest: 23\n"
    "  values           units percent   up to\n"
    + "".join(f"  {value:>6} {'#' * 9}     3    4.5%{percent:>7}%\n" for value, percent in enumerate(MANY_PERCENTS, 3))
    + "  3 more values, with 7 units in all (--all shows them)\n"
    "\n"
).encode()
# Words of a command line, and how the plain renderer is asked for the same.
Choice = tuple[list[str], dict[str, Any]]
CHOICES: list[Choice] = [
    (["page.load"], {"names": ["page.load"]}),
    (["~s", "page.load"], {"names": ["~s", "page.load"]}),
    (["~s", "page.load", "no.such.name"], {"names": ["~s", "page.load", "no.such.name"]}),
    (["no.such.name", "page.load", "nor.this"], {"names": ["no.such.name", "page.load", "nor.this"]}),
    (["no.such.name"], {"names": ["no.such.name"]}),
    (["page"], {"names": ["page"]}),
    (["--match", "page"], {"part": "page"}),
    (["--match", "e"], {"part": "e"}),
    (["--match=.s"], {"part": ".s"}),
    (["--match", "no.such.part"], {"part": "no.such.part"}),
    (["--width", "40"], {"width": 40}),
    (["--width=200", "--ascii"], {"width": 200, "is_ascii": True}),
    (["--ascii", "page.size"], {"names": ["page.size"], "is_ascii": True}),
    (["--all"], {"shows_all": True}),
    (["--log"], {"is_log": True}),
    (["--human"], {"is_human": True}),
    (["--human", "--width", "60", "--all"], {"is_human": True, "width": 60, "shows_all": True}),
    (["--log", "--ascii", "--width", "60"], {"width": 60, "is_ascii": True, "is_log": True}),
]
# A value of COLUMNS or None, further words, and the width that they ask for.
Columns = tuple[Optional[str], list[str], int]
COLUMNS: list[Columns] = [
    (None, [], 80), ("60", [], 60), ("10", [], 40), ("300", [], 200), ("x", [], 80), ("", [], 80),
    ("60", ["--width", "50"], 50),
]
USAGES = [
    ["--width", "39"], ["--width", "201"], ["--width", "x"], ["--match", "a", "A"], ["--all=x"], ["--no-such-option"],
]


def beside(program: pathlib.Path, data: bytes, words: Sequence[Word] = (), **options: Any) -> str | None:
    """Where what is shown of an image is not what the plain renderer says."""
    return difference(Answer(*plain_show.answer(data, **options)), answer(program, ["show", "-", *words], data))


def explained_beside(program: pathlib.Path, data: bytes, words: Sequence[Word] = (), **options: Any) -> str | None:
    """The same with `--explain`; of a fault the first line, since what follows it is tried elsewhere."""
    came = answer(program, ["show", "-", *words, "--explain"], data)
    came.error = b"".join(came.error.splitlines(True)[:1])
    return difference(Answer(*plain_show.answer(data, explains=True, **options)), came)


def columns(program: pathlib.Path, data: bytes) -> Iterator[Case]:
    """The width that `COLUMNS` asks for, from 40 to 200; `--width` comes before it, and what is no number says
    nothing."""
    for value, words, width in COLUMNS:
        came = answer(program, ["show", *words], data, env={} if value is None else {"COLUMNS": value})
        yield f"COLUMNS={value}, {words}", difference(Answer(plain_show.text_of(data, width=width)), came)


def worked(program: pathlib.Path, folder: pathlib.Path) -> Iterator[Case]:
    """The example as a file and on standard input; each choice and each way to draw of a script's image."""
    wanted = Answer(EXAMPLE_TEXT)
    yield from columns(program, EXAMPLE.read_bytes())
    inputs: list[list[Word]] = [[EXAMPLE], ["-"], []]
    for words in inputs:
        data = b"" if words == [EXAMPLE] else EXAMPLE.read_bytes()
        yield f"the example, {words}", difference(wanted, answer(program, ["show", *words], data))
    script, image = folder / "script", folder / "image"
    script.write_bytes(RARE_SCRIPT)
    answer(program, ["run", script, image])
    came = answer(program, ["show", image, "--ascii", "--width", "40"])
    yield "one unit of many", difference(Answer(RARE_TEXT), came)
    came = answer(program, ["show", image, "--ascii", "--width", "42", "--human"])
    yield "one unit of many, with separators", difference(Answer(RARE_HUMAN_TEXT), came)
    script.write_bytes(SCRIPT)
    ran = answer(program, ["run", script, image])
    yield "the script", None if ran.status == 0 else f"came {ran}"
    everything: Choice = ([], {})
    for choice, options in [everything, *CHOICES]:
        yield f"the script, {choice}", beside(program, image.read_bytes(), choice, **options)
    for usage in USAGES:
        came = answer(program, ["show", EXAMPLE, *usage])
        yield f"{usage}", None if came.status == 2 and came.output == b"" else f"wanted a usage fault, came {came}"
    came = answer(program, ["show", "--help"])
    yield "--help", None if came.status == 0 and b"Example:\n  persist_report show" in came.output else f"came {came}"


def many_values(program: pathlib.Path, folder: pathlib.Path, chance: random.Random) -> bytes:
    """The bytes of an image with a sparse histogram of up to 60 values, of which many have as many units, and some have
    none."""
    values = chance.sample(range(-99, 100), chance.randint(15, 60))
    adds = "".join(f"add,many,{value},{chance.choice([1, 2, 2, 3, 70_000])}\n" for value in values)
    script, image = folder / "script", folder / "image"
    script.write_text(f"segment,1024,64,7\nhist,many,sparse\n{adds}")
    answer(program, ["run", script, image])
    data = image.read_bytes()
    words = list(words_of(data))
    for at in range(len(words) - 7):
        if words[at + 1 : at + 3] == [forge.BLOCK_COOKIE, SAMPLE] and chance.random() < 0.2:
            words[at + 6 : at + 8] = [0, 0]
    return data_of(words)


def sparse(program: pathlib.Path, folder: pathlib.Path, options: argparse.Namespace) -> Iterator[Case]:
    """The worked example of many values, and others with more and with fewer than have lines; each also with all
    values."""
    script, image = folder / "script", folder / "image"
    script.write_text(MANY_SCRIPT)
    ran = answer(program, ["run", script, image])
    yield "many values, run", None if ran.status == 0 else f"came {ran}"
    data = image.read_bytes()
    yield "many values", difference(Answer(MANY_TEXT), answer(program, ["show", image, "--ascii", "--width", "40"]))
    yield "many values, all", beside(program, data, ["--all"], shows_all=True)
    choices: list[Choice] = [([], {}), (["--all"], {"shows_all": True})]
    for number in range(min(options.images, MOST_SPARSE_IMAGES)):
        data = many_values(program, folder, random.Random(f"{options.seed} sparse {number}"))
        for words, settings in choices:
            yield f"sparse image {number} of seed {options.seed}, {words}", beside(program, data, words, **settings)


def redundant(program: pathlib.Path, folder: pathlib.Path) -> Iterator[Case]:
    """The example with a redundant count of its own: with `--explain`, before the command or after it, one more line
    shows it, if it differs from the units. No variable of the environment asks for that line."""
    words = list(words_of(EXAMPLE.read_bytes()))
    record = next(at for at in range(len(words)) if words[at + 1 : at + 3] == [forge.BLOCK_COOKIE, HISTOGRAM])
    text = EXAMPLE_TEXT
    counted: list[tuple[int, list[str], bytes]] = [
        (3, [], b""), (2, [], b"2"), (0, [], b"0"), (2**64 - 1, ["--human"], MOST_COUNT)
    ]
    for count, human, line in counted:
        words[record + REDUNDANT] = count
        image = folder / "counted"
        image.write_bytes(data_of(words))
        told = text[:-1] + b"  counted once more: " + line + b"\n\n" if line else text
        ways: list[tuple[str, list[str], list[str], dict[str, str], bytes]] = [
            ("alone", [], [], {}, text),
            ("explained", [], ["--explain"], {}, told),
            ("explained in front", ["--explain"], [], {}, told),
            ("explained by the environment", [], [], {"PERSIST_REPORT_EXPLAIN": "1"}, text),
        ]
        for title, before, after, setting, wanted in ways:
            came = answer(program, [*before, "show", image, *human, *after], env=setting)
            yield f"{count} counted once more, {title}", difference(Answer(wanted), came)


def cases(program: pathlib.Path, options: argparse.Namespace) -> Iterator[Case]:
    """Worked examples; the known images; and forged ones, a thousand at most, each drawn in one way or the other."""
    with tempfile.TemporaryDirectory() as folder:
        yield from worked(program, pathlib.Path(folder))
        yield from sparse(program, pathlib.Path(folder), options)
        yield from redundant(program, pathlib.Path(folder))
    yield from command_faults.cases(program, ["show"])
    for image in sorted(known.FOLDER.glob("*.img")):
        yield image.name, beside(program, image.read_bytes())
        yield f"{image.name}, explained", explained_beside(program, image.read_bytes())
    for number in range(min(options.images, MOST_IMAGES)):
        chance = random.Random(f"{options.seed} {number}")
        data = forge.image_of(chance)
        width, is_ascii, is_log = chance.randint(40, 200), chance.random() < 0.5, chance.random() < 0.5
        is_human = chance.random() < 0.5
        words = ["--width", str(width), *(["--ascii"] if is_ascii else []), *(["--log"] if is_log else [])]
        words += ["--human"] if is_human else []
        settings = {"width": width, "is_ascii": is_ascii, "is_log": is_log, "is_human": is_human}
        yield f"image {number} of seed {options.seed}", beside(program, data, words, **settings)
        if number % 4 == 0:
            wrong = explained_beside(program, data, words, **settings)
            yield f"image {number} of seed {options.seed}, explained", wrong
