"""Images that are made to cost much: each is adopted, or refused, in at most ten times its bytes, and refused a bounded
report in as much, by a C program that counts what the library has from its heap. And `report`, which costs as much as
it says, under a limit of memory, as README.md has it.
"""

from __future__ import annotations

import argparse
import pathlib
import resource
import subprocess
import tempfile
from collections.abc import Collection, Iterator
from typing import Any

from parts.explained import both
from support import layout, native
from support.layout import COUNTS, FIRST, HISTOGRAM, LINEAR, PAGE, SAMPLE, SPARSE
from support.program import Case, answer, difference, fault

PROGRAM = "persist_report"
VERSION = 2
SIZE = layout.MOST_WORDS
BUCKETS = layout.MOST_BUCKETS
COUNTS_WORDS = 4 + 2 * BUCKETS
RECORD_WORDS = 16
# A record that overlaps the next one: its fields from the tenth on are that one's first.
OVERLAPPING_WORDS = 10
MOST_TIMES = 10
MOST_SECONDS = 300
# Where a command is limited: 400 MiB, of which a program that runs takes a few.
MOST_KILOBYTES = 400 * 1024
SCRIPT = f"segment,{SIZE},{PAGE},7\n".encode()


def linear(at: int, counts: int, name: bytes, size: int = RECORD_WORDS) -> layout.Listed:
    """A linear histogram of 1,000 buckets that nobody counted in, with a name of eight bytes."""
    return (
        at, size, HISTOGRAM,
        [LINEAR, 65, 65 + BUCKETS, BUCKETS, counts, 0, 0, 0, 0, 0, len(name), int.from_bytes(name, "little")],
    )


def names(references: Collection[int]) -> list[bytes]:
    return [f"h{number:07x}".encode() for number in range(len(references))]


def unused() -> bytes:
    """As many histograms as fit, none of which has a block of counts: 65,535."""
    references = range(FIRST, SIZE, RECORD_WORDS)
    return layout.image_of(SIZE, VERSION, [linear(at, 0, name) for at, name in zip(references, names(references))])


def one_block() -> bytes:
    """As many histograms as fit, all of which name one block of counts."""
    references = range(PAGE, SIZE, RECORD_WORDS)
    counts: layout.Listed = (FIRST, COUNTS_WORDS, COUNTS, [])
    return layout.image_of(
        SIZE, VERSION, [linear(at, FIRST, name) for at, name in zip(references, names(references))], [counts]
    )


def overlapping() -> bytes:
    """More than 98,000 records, each of which shares six words with the next one, and all of which name one block of
    counts."""
    references = [
        at for page in range(PAGE, SIZE, PAGE) for at in range(page, page + PAGE - RECORD_WORDS, OVERLAPPING_WORDS)
    ]
    counts: layout.Listed = (FIRST, COUNTS_WORDS, COUNTS, [])
    assert len(references) > 98_000
    return layout.image_of(SIZE, VERSION, [linear(at, FIRST, b"A") for at in references], [counts])


def values() -> bytes:
    """A sparse histogram and as many samples as fit, each of a value of its own."""
    references = range(FIRST + RECORD_WORDS, SIZE, 8)
    record: layout.Listed = (FIRST, RECORD_WORDS, HISTOGRAM, [SPARSE, 0, 0, 0, 0, 0, 0, 0, 0, 0, 1, ord("S")])
    return layout.image_of(
        SIZE, VERSION, [record, *((at, 8, SAMPLE, [FIRST, number, 1, 0]) for number, at in enumerate(references))]
    )


# Each image, and what is returned when it is adopted.
IMAGES = ((unused, "Done"), (one_block, "Damaged"), (overlapping, "Damaged"), (values, "Done"))


def within(program: pathlib.Path, path: pathlib.Path, wanted: list[str]) -> str | None:
    """What is wrong with what the calls of the C program answer and take of an image, or None."""
    try:
        done = subprocess.run([program, path], capture_output=True, text=True, timeout=MOST_SECONDS)
    except subprocess.TimeoutExpired:
        return f"no end within {MOST_SECONDS} seconds"
    if done.returncode != 0:
        return f"status {done.returncode}"
    came = [line.split() for line in done.stdout.splitlines()]
    if [status for status, _ in came] != wanted:
        return f"wanted {wanted}, came {came}"
    allowed = MOST_TIMES * path.stat().st_size
    taken = max(int(most) for _, most in came)
    return None if 0 < taken <= allowed else f"wanted some memory, at most {allowed:,} bytes, came {taken:,}"


def calls(program: pathlib.Path, folder: pathlib.Path) -> Iterator[Case]:
    for make, wanted in IMAGES:
        path = folder / f"{make.__name__}.img"
        path.write_bytes(make())
        yield f"{make.__name__} is adopted, and its keys are counted", within(program, path, [wanted, "TooManyKeys"])
        path.unlink()


def limited(kilobytes: int) -> dict[str, Any]:
    """The setting under which a program has at most this many kilobytes of addresses, as with `ulimit -v`."""
    return {"preexec_fn": lambda: resource.setrlimit(resource.RLIMIT_AS, (1024 * kilobytes, 1024 * kilobytes))}


def commands(program: pathlib.Path, folder: pathlib.Path) -> Iterator[Case]:
    """Commands of the program under a limit of memory."""
    base, script, out = (folder / name for name in ("base.img", "script.csv", "out.img"))
    script.write_bytes(SCRIPT)
    base.write_bytes(unused())
    line = f'ulimit -v {MOST_KILOBYTES}; exec "$0" report "$1"'
    yield "report under `ulimit -v`", difference(fault("NoMemory", 5), answer("sh", ["-c", line, program, base]))
    base.write_bytes(one_block())
    said = f'"{base}", all records are read; other words are none that a segment can have'
    wrong = both(program, ["resume", base, script, out], "Adopt Damaged", 3, [said], **limited(MOST_KILOBYTES))
    yield "resume of an image whose blocks overlap", wrong or (None if not out.exists() else "OUT was written")


def cases(program: pathlib.Path, _options: argparse.Namespace) -> Iterator[Case]:
    yield from native.cases_of("adopt_within.c", calls)
    with tempfile.TemporaryDirectory() as scratch:
        yield from commands(program, pathlib.Path(scratch))
