"""`--whole` of `report`, `show` and `export`, and `report --rows`: known and forged images beside plain calculations;
images that are damaged in both ways; names that no histogram has."""

from __future__ import annotations

import argparse
import collections
import csv
import io
import pathlib
import random
import tempfile
from collections.abc import Callable, Iterator

from parts import known
from support import command_faults, forge, plain_damage, plain_export, plain_reader, plain_show
from support.layout import with_words
from support.program import EXAMPLE, Answer, Case, Word, answer, difference, explained, fault

PROGRAM = "persist_report"
MOST_IMAGES = 1000
# The table of the example, by hand.
EXAMPLE_ROWS = b"name,kind,low,high,count\nA,boolean,0,1,1\nA,boolean,1,2,2\n"
# A script of which one histogram has no units, and its table, by hand.
SCRIPT = b"""\
segment,1024,64,7
hist,b,linear,1,100,5
hist,a\\b,sparse
hist,none,boolean
hist,B,custom,10
add,b,100,2
add,b,0,1
add,a\\b,-5,3
add,B,10,4294967200
"""
SCRIPT_ROWS = rb"""
name,kind,low,high,count
B,custom,10,2147483647,4294967200
a\b,sparse,-5,-4,3
b,linear,0,1,1
b,linear,100,2147483647,2
"""[1:]
# What is stored at words of the example's image, the fault with `--whole`, and what is said of it.
DAMAGES: list[tuple[dict[int, int], str, str]] = [
    ({20: 5}, "Bad 16 BadKind", "the record at word 16 is BadKind"),
    ({15: 32}, "Stopped BadRef", "the list of records stops: BadRef"),
    ({19: 16}, "Stopped Loop", "the list of records stops: Loop"),
    # Where both are there, the record comes first.
    ({19: 16, 30: 0}, "Bad 16 BadName", "the record at word 16 is BadName"),
]
# Flags say nothing of damage.
FLAGS = 3
NAMES = ["request.ms", "request.mb", "request.m2", "requests", "response.ms", "http", "h", "ab", "Full"]
# A name that is missing, and those that are near: at most a third of its letters are to be changed, and a swap of
# neighbours is one change. The nearest come first, and among equals the lesser; there are three at most.
NEAR: list[tuple[str, list[str]]] = [
    ("request.m", ["request.m2", "request.mb", "request.ms"]),
    ("requets.ms", ["request.ms", "request.m2", "request.mb"]),
    ("htpt", ["http"]),
    ("ht", []),
    ("x", []),
    ("hhhhhh", []),
    ("BadSum", []),
    ("Fulls", ["Full"]),
    ("NoUnits", []),
    ("two words", []),
]


def commands() -> list[tuple[str, list[Word], Callable[[bytes], plain_damage.Wanted]]]:
    """Each command that has `--whole`, and what it writes without it."""
    return [
        ("report", ["report"], plain_reader.answer),
        ("rows", ["report", "--rows"], plain_damage.rows),
        ("export", ["export"], plain_export.answer),
        ("show", ["show"], plain_show.answer),
    ]


def changed(words: dict[int, int]) -> bytes:
    """The bytes of the example's image, with other words."""
    return with_words(EXAMPLE.read_bytes(), words)


def damaged(program: pathlib.Path, folder: pathlib.Path) -> Iterator[Case]:
    """Each kind of damage, with and without `--whole`, and what `--explain` says of it."""
    image = folder / "image"
    for words, text, said in DAMAGES:
        image.write_bytes(changed(words))
        for name, command, plain in commands():
            output, _, _ = plain(image.read_bytes())
            yield f"{text}, {name}", difference(Answer(output), answer(program, [*command, image]))
            wanted = Answer(output, fault(text, 3).error, 3)
            yield f"{text}, {name} --whole", difference(wanted, answer(program, [*command, "--whole", image]))
            wanted = Answer(output, explained(text, 3, [f'"{image}", {said}']).error, 3)
            came = answer(program, [*command, image, "--whole", "--explain"])
            yield f"{text}, {name} --whole --explain", difference(wanted, came)
        came = answer(program, ["show", "--html", "--whole", image])
        page = answer(program, ["show", "--html", image]).output
        yield f"{text}, show --html", difference(Answer(page, fault(text, 3).error, 3), came)
        came = answer(program, ["show", "--whole", image, "typo"])
        yield f"{text}, and a name that is not there", difference(fault(text, 3), Answer(b"", came.error, came.status))
    image.write_bytes(changed({6: FLAGS}))
    for name, command, plain in commands():
        came = answer(program, [*command, "--whole", image])
        yield f"flags, {name} --whole", difference(Answer(*plain(image.read_bytes())), came)


def names(program: pathlib.Path, folder: pathlib.Path) -> Iterator[Case]:
    """Names that no histogram has: which are near, also as a page; and names with signs of all kinds."""
    script, image = folder / "script", folder / "image"
    script.write_text("segment,1024,64,7\n" + "".join(f"hist,{name},boolean\n" for name in NAMES))
    answer(program, ["run", script, image])
    for name, near in NEAR:
        text = plain_show.text_of(image.read_bytes(), names=["http", name])
        said = f"names near it: {', '.join(f'`{one}`' for one in near)}" if near else "no name is near it"
        told = explained("NoHistogram", 3, [f'"{image}" has no histogram `{name}`; {said}']).error
        wanted = Answer(text, told.replace(b"NoHistogram\n", f"NoHistogram {name}\n".encode(), 1), 3)
        yield f"near {name}", difference(wanted, answer(program, ["show", image, "http", name, "--explain"]))
        came = answer(program, ["show", "--html", image, "http", name])
        page = answer(program, ["show", "--html", image, "http"]).output
        yield f"{name} in no page", difference(Answer(page, fault(f"NoHistogram {name}", 3).error, 3), came)
    signs = {"": "", "a\nb": "a\\x0ab", "\x1b[m": "\\x1b[m", "\u00e9": "\\xc3\\xa9", "a\\b": "a\\b"}
    for name, shown in signs.items():
        wanted = Answer(b"No histogram is shown.\n", fault(f"NoHistogram {shown}", 3).error, 3)
        yield f"the name {name!r}", difference(wanted, answer(program, ["show", image, name]))
    came = answer(program, ["show", image, "--match", "typo"])
    yield "a part that no name has", difference(Answer(b"No histogram is shown.\n"), came)


def tables(program: pathlib.Path, folder: pathlib.Path) -> Iterator[Case]:
    """The tables of the example and of a script's image, by hand, and read back by a reader of CSV."""
    inputs: list[list[Word]] = [[EXAMPLE], ["-"], []]
    for words in inputs:
        data = b"" if words == [EXAMPLE] else EXAMPLE.read_bytes()
        came = answer(program, ["report", "--rows", *words], data)
        yield f"the rows of the example, {words}", difference(Answer(EXAMPLE_ROWS), came)
    script, image = folder / "script", folder / "image"
    script.write_bytes(SCRIPT)
    answer(program, ["run", script, image])
    came = answer(program, ["report", image, "--rows"])
    yield "the rows of a script", difference(Answer(SCRIPT_ROWS), came)
    counted = collections.Counter(
        {row["name"]: int(row["count"]) for row in csv.DictReader(io.StringIO(came.output.decode()))}
    )
    wanted = {"B": 4294967200, "a\\b": 3, "b": 2}
    yield "the rows, read back", None if counted == wanted else f"wanted {wanted}, came {counted}"
    came = answer(program, ["report", "--rows=x", image])
    yield "--rows=x", None if came.status == 2 else f"wanted a usage fault, came {came}"


def cases(program: pathlib.Path, options: argparse.Namespace) -> Iterator[Case]:
    """Worked examples; the known images; and forged ones, a thousand at most, each by one of the commands."""
    with tempfile.TemporaryDirectory() as scratch:
        folder = pathlib.Path(scratch).resolve()
        for part in (damaged, names, tables):
            yield from part(program, folder)
    yield from command_faults.cases(program, ["report", "--rows"])
    yield from command_faults.cases(program, ["show", "--whole"])
    images = [(image.name, image.read_bytes()) for image in sorted(known.FOLDER.glob("*.img"))]
    for number in range(min(options.images, MOST_IMAGES)):
        data = forge.image_of(random.Random(f"{options.seed} {number}"))
        images.append((f"image {number} of seed {options.seed}", data))
    seen: collections.Counter[str] = collections.Counter()
    for at, (image_name, data) in enumerate(images):
        name, command, plain = commands()[at % 4]
        wanted = Answer(*plain_damage.whole(data, plain(data)))
        yield f"{image_name}, {name} --whole", difference(wanted, answer(program, [*command, "--whole"], data))
        yield f"{image_name}, rows", difference(
            Answer(*plain_damage.rows(data)), answer(program, ["report", "--rows"], data)
        )
        seen[wanted.error.split()[1].decode() if wanted.error else "whole"] += 1
    never = {"whole", "Bad", "Stopped", "Image"} - set(seen)
    yield "damage of each kind", f"came none of {never}" if never else None
