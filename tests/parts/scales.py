"""`scale`: what it prints for many bounds and bits, beside a plain calculation; names that need quotes; faults; and a
script that has such a record.
"""

from __future__ import annotations

import argparse
import csv
import io
import pathlib
import random
import tempfile
from collections.abc import Iterator

from support import plain_scale
from support.program import Answer, Case, answer, difference, explained, fault

PROGRAM = "persist_report"
MOST_SCALES = 1000
# Names, and the field that the record has for each.
FIELDS = (
    ("latency.us", "latency.us"),
    ("", ""),
    ("a b;c#d", "a b;c#d"),
    ("a,b", '"a,b"'),
    ('"', '""""'),
    ('a"b', '"a""b"'),
    ("a\nb", '"a\nb"'),
    ("a\rb", '"a\rb"'),
    ("größe", "größe"),
)
# How many values reach from 1 to just below 2^31, and how many to the greatest value.
LENGTHS = ((3, 2_013_265_920, 231), (4, 2_080_374_784, 447), (5, 2_113_929_216, 863), (3, plain_scale.GREATEST, 232))
# Words after `scale`, and what is printed and the status for them.
FAULTS = (
    (("0", "0", "0"), "BadMin"),
    (("5", "5", "0"), "BadMax"),
    (("1", "2147483647", "3"), "BadMax"),
    (("1", "4294967295", "3"), "BadMax"),
    (("1", "10", "0"), "TooFew"),
    (("1", "10", "9"), "TooMany"),
    (("1", "1949", "8"), "TooMany"),
)
USAGES: tuple[tuple[str, ...], ...] = (
    ("1", "10"),
    ("1", "10", "x"),
    ("-1", "10", "3"),
    ("1", "4294967296", "3"),
    ("1", "10", "3", "4"),
)
SCRIPT = "segment,65536,4096,7\n{record}add,latency,17,2\nadd,latency,1000,1\n"
# 3 bits have the values 16, 18, 20 .. 30, 32, 36 .. 60, 64, 72 .. 960, 1024: 17 is below 18, and 1000 below 1024.
REPORT = b"latency,custom,16,18,2\nlatency,custom,960,1024,1\nlatency,total,3,1034\n"


def record(field: str, numbers: list[int]) -> bytes:
    return f"hist,{field},custom,{','.join(map(str, numbers))}\n".encode()


def bounds(chance: random.Random) -> Iterator[tuple[int, int, int]]:
    """Bounds and bits: every one of the small ones, and then some of any size."""
    yield from ((least, most, bits) for bits in (1, 2, 3) for most in range(20) for least in range(most + 2))
    for _ in range(MOST_SCALES - 500):
        top = chance.choice((40, 3000, 100_000, plain_scale.GREATEST))
        most = chance.randint(1, top)
        yield chance.randint(0, most), most, chance.randint(0, 9)


def wanted_of(least: int, most: int, bits: int) -> Answer:
    why = plain_scale.fault_of(least, most, bits)
    if why is not None:
        return fault(why, 3)
    return Answer(output=record("a", plain_scale.values(least, most, bits)))


def lengths(program: pathlib.Path) -> Iterator[Case]:
    for bits, most, length in LENGTHS:
        came = answer(program, ["scale", "a", "1", str(most), str(bits)])
        fields = came.output.decode().rstrip("\n").split(",")
        wrong = None if len(fields) == length + 3 else f"{len(fields) - 3} values in place of {length}"
        yield f"{bits} bits up to {most}", wrong


def names(program: pathlib.Path) -> Iterator[Case]:
    for name, field in FIELDS:
        came = answer(program, ["scale", name, "1", "4", "1"])
        wrong = difference(Answer(output=record(field, [1, 2, 3, 4])), came)
        read = list(csv.reader(io.StringIO(came.output.decode(), newline="")))
        if wrong is None and read != [["hist", name, "custom", "1", "2", "3", "4"]]:
            wrong = f"it is read as {read}"
        yield f"the name {name!r}", wrong


def faults(program: pathlib.Path) -> Iterator[Case]:
    for words, why in FAULTS:
        yield " ".join(words), difference(fault(why, 3), answer(program, ["scale", "a", *words]))
    came = answer(program, ["scale", "a", "0", "1", "1", "--explain"])
    yield "a fault explained", difference(explained("BadMin", 3, []), came)
    for mistaken in USAGES:
        came = answer(program, ["scale", "a", *mistaken])
        wrong = None if came.status == 2 and came.output == b"" and came.error else f"{came}"
        yield f"usage: {' '.join(mistaken)}", wrong


def in_script(program: pathlib.Path) -> Iterator[Case]:
    """The record is one of a script."""
    with tempfile.TemporaryDirectory() as scratch:
        folder = pathlib.Path(scratch)
        asked = answer(program, ["scale", "latency", "1", "1000", "3"]).output.decode()
        script = folder / "script.csv"
        script.write_text(SCRIPT.format(record=asked))
        yield "in a script", difference(Answer(output=REPORT), answer(program, ["run", script, folder / "out.img"]))


def cases(program: pathlib.Path, options: argparse.Namespace) -> Iterator[Case]:
    chance = random.Random(f"scales {options.seed}")
    for least, most, bits in bounds(chance):
        came = answer(program, ["scale", "a", str(least), str(most), str(bits)])
        yield f"{least} {most} {bits}", difference(wanted_of(least, most, bits), came)
    yield from lengths(program)
    yield from names(program)
    yield from faults(program)
    yield from in_script(program)
