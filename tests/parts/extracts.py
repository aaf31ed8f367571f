"""Segments in files of any bytes: `extract` beside a plain search, for every number from 1 on and one more.

A segment is found at each multiple of eight bytes where there is a valid header, with all its words before the end of
the file; also inside the words of another segment.
"""

from __future__ import annotations

import argparse
import pathlib
import random
import struct
import tempfile
from collections.abc import Iterator

from parts import refused
from support import forge
from support.layout import (
    BLOCK_HEADER, COOKIE_BYTES, FIRST, FREE, MOST_WORDS, PAGE, PAGES, QUEUE, SEGMENT_COOKIE, STATE, Words, data_of,
)
from support.program import EXAMPLE, Answer, Case, Word, answer, content, difference, fault

PROGRAM = "persist_report"
NO_SEGMENT = fault("NoSegment", 3)
READ_FAULT, WRITE_FAULT = fault("Read", 4), fault("Write", 4)
MIB = 2**20
BLOCK = 65_536
STOOD = b"what stood there before"
# The name of an image, and its bytes.
Image = tuple[str, bytes]
# What is stored at a word of a header so that it is not valid.
FAULTS = [
    (1, 0), (1, 3), (2, 0), (2, 63), (2, 65), (2, 2**63), (3, 0), (3, 48), (3, 72), (3, 131_072), (5, 0), (5, 2),
    (7, 15), (7, 65), (12, 5), (13, 2), (14, 1),
]


def size_at(data: bytes, at: int) -> int | None:
    """How many words the segment at a place has, or None if there is none."""
    if len(data) < at + 8 * FIRST:
        return None
    words = struct.unpack_from(f"<{FIRST}Q", data, at)
    cookie, version, size, page = words[:4]
    valid = (
        cookie == SEGMENT_COOKIE
        and version in (1, 2)
        and page in PAGES
        and page <= size <= MOST_WORDS
        and size % page == 0
        and words[STATE] == 1
        and FIRST <= words[FREE] <= size
        and words[QUEUE : QUEUE + 3] == (BLOCK_HEADER, 1, 0)
    )
    return size if valid and at + 8 * size <= len(data) else None


def segments(data: bytes) -> list[tuple[int, bytes]]:
    """The place of each segment in a file and the bytes of its words, in the order of the places."""
    found: list[tuple[int, bytes]] = []
    at = data.find(COOKIE_BYTES)
    while at >= 0:
        size = size_at(data, at) if at % 8 == 0 else None
        if size:
            found.append((at, data[at : at + 8 * size]))
        at = data.find(COOKIE_BYTES, at + 1)
    return found


def wrong_of(program: pathlib.Path, folder: pathlib.Path, data: bytes) -> str | None:
    """What is wrong with what is extracted from a file for each number, or None."""
    file, out = folder / "file", folder / "out"
    file.write_bytes(data)
    wanted = [(Answer(error=f"{place}\n".encode()), image) for place, image in segments(data)]
    for nth, (right, image) in enumerate([*wanted, (NO_SEGMENT, STOOD)], 1):
        out.write_bytes(STOOD)
        number = ["--nth", str(nth)] if nth > 1 else []
        wrong = difference(right, answer(program, ["extract", file, out, *number]))
        if wrong is None and content(out) != image:
            wrong = "OUT is not the image, or not as it was"
        if wrong is not None:
            return f"of {len(wanted)} segments, number {nth}: {wrong}"
    return None


def noise(chance: random.Random, size: int) -> bytes:
    """Bytes in which there are cookies now and then, and runs of zeros."""
    parts: list[bytes] = []
    while sum(map(len, parts)) < size:
        parts.append(
            chance.choice(
                [
                    chance.randbytes(chance.randrange(1, 300_000)), bytes(8 * chance.randrange(1, 20_000)),
                    COOKIE_BYTES, COOKIE_BYTES + chance.randbytes(120),
                ]
            )
        )
    return b"".join(parts)


def blank(size: int, page: int = 64, fault_at: tuple[int, int] | None = None) -> bytes:
    """The bytes of a segment without blocks, with one word of its header changed if this is asked for."""
    image = Words(size, page, 2)
    if fault_at is not None:
        image.store(*fault_at)
    return data_of(image.words)


def nested(sizes: tuple[int, int, int]) -> bytes:
    """Three segments, of which each begins four words after the one before, inside its header."""
    places = (0, 4, 8)
    image = Words(max(at + size for at, size in zip(places, sizes)), 64)
    for at, size in zip(places, sizes):
        image.store(at, SEGMENT_COOKIE, 1, size, 64)
        image.store(at + QUEUE, BLOCK_HEADER, 1, 0, QUEUE)
    # For the two before it, the page of the next one is the free pointer.
    image.store(places[-1] + FREE, FIRST)
    return data_of(image.words)


def made(chance: random.Random) -> bytes:
    """A file of several MiB with images at random places, some of them cut short, and one at the end or cut there."""
    parts = []
    for _ in range(chance.randrange(2, 7)):
        parts.append(noise(chance, chance.randrange(1, MIB)))
        parts.append(bytes(chance.choice([-sum(map(len, parts)) % 8] * 3 + [chance.randrange(8)])))
        image = forge.image_of(chance)
        parts.append(image[: chance.choice([len(image)] * 3 + [len(image) - 8, chance.randrange(len(image))])])
    return b"".join(parts) + chance.choice([b"", bytes(chance.randrange(1, 8)), noise(chance, 9_000)])


def small() -> Iterator[Image]:
    """Small files by what is in them."""
    image = blank(64)
    yield "nothing", b""
    yield "an example", EXAMPLE.read_bytes()
    for less in (0, 1, 7, 8, 9, len(image) - 129, len(image) - 128, len(image) - 8, len(image)):
        yield f"a segment without {less} bytes", image[: len(image) - less]
    for before in (1, 4, 7, 8, 9, 16):
        yield f"a segment after {before} bytes", bytes(before) + image
    for more in (1, 7, 8):
        yield f"a segment before {more} bytes", image + bytes(more)
    for changed in FAULTS:
        yield f"word {changed[0]} is {changed[1]}", blank(64, fault_at=changed) + image
    yield "one after the other", b"".join(blank(64 * (i % 3 + 1)) for i in range(40))
    for sizes in ((64, 64, 64), (128, 64, 64), (64, 128, 192), (192, 64, 128)):
        whole = nested(sizes)
        for cut in (0, 8, 16, 256, 264, 512):
            yield f"segments of {sizes} words in one another without {cut} bytes", whole[: len(whole) - cut]


def at_blocks(chance: random.Random) -> Iterator[Image]:
    """Images about the ends of the blocks in which a file may be read, and of the greatest size."""
    for before in (BLOCK - 128, BLOCK - 64, BLOCK - 8, BLOCK, 8_192 - 8):
        yield f"a segment after {before} bytes", chance.randbytes(before) + blank(64)
    whole = blank(MOST_WORDS, PAGE)
    for before, less in ((0, 0), (BLOCK - 8, 0), (8, 8), (3 * MIB, 1)):
        yield f"the greatest without {less} bytes, after {before}", chance.randbytes(before) + whole[
            : len(whole) - less
        ]
    yield "the greatest, cut, with a small one in its words", whole[: 4 * MIB] + blank(128) + whole[5 * MIB : 6 * MIB]


def devices(program: pathlib.Path, folder: pathlib.Path) -> Iterator[Case]:
    """Files and devices that fail, and words that ask for nothing."""
    file, out = folder / "file", folder / "out"
    file.write_bytes(bytes(8) + blank(64))
    failing: list[tuple[str, list[Word], Answer]] = [
        ("no FILE", [folder / "none", out], READ_FAULT),
        ("FILE is a folder", [folder, out], READ_FAULT),
        ("OUT in no folder", [file, folder / "none" / "out"], WRITE_FAULT),
        ("OUT is a folder", [file, folder], WRITE_FAULT),
        ("OUT has no room", [file, "/dev/full"], WRITE_FAULT),
    ]
    for name, words, wanted in failing:
        yield name, difference(wanted, answer(program, ["extract", *words]))
    yield "a pipe", difference(
        Answer(error=b"8\n"), answer(program, ["extract", "/dev/stdin", out], file.read_bytes())
    )
    out.write_bytes(STOOD)
    with open("/dev/full", "wb") as full:
        wrong = difference(Answer(status=4), answer(program, ["extract", file, out], stderr=full))
    yield "the error stream has no room", wrong if wrong or content(out) == STOOD else "OUT is not as it was"
    both: list[Word] = [file, out]
    mistakes: list[list[Word]] = [
        [], [file], [*both, "more"],
        *([*both, "--nth", number] for number in ("0", "-1", "", "two", str(2**64))),
    ]
    for words in mistakes:
        came = answer(program, ["extract", *words])
        wrong = None if came.status == 2 and not came.output else f"wanted status 2, came {came.status}"
        yield f"extract {words[1:]}", wrong


def memory(program: pathlib.Path, folder: pathlib.Path) -> Iterator[Case]:
    """A long file is searched in the memory of an image and a block; and memory that is refused."""
    least = refused.least_pages(program)
    file, out = folder / "file", folder / "out"
    for name, before, image, pages in (
        ("a short image", 128 * MIB, blank(64), 256),
        ("the greatest", 32 * MIB, blank(MOST_WORDS, PAGE), 2_048 + 512),
    ):
        with open(file, "wb") as long:
            long.seek(before)
            long.write(image)
        came = refused.answer_within(program, least + pages, ["extract", file, out], b"", {})
        wrong = difference(Answer(error=f"{before}\n".encode()), came)
        yield f"{name} after {before} bytes", wrong if wrong or content(out) == image else "OUT is not the image"
    file.write_bytes(bytes(8) + blank(64))
    yield "memory that is refused", refused.wrong_of(
        program, ["extract", file, out], b"", least, 1, refused.EACH_BY_ITSELF, out
    )
    file.write_bytes(bytes(8) + blank(MOST_WORDS, PAGE))
    yield "memory that is refused for the greatest", refused.wrong_of(
        program, ["extract", file, out], b"", least, refused.STEP, {}, out
    )


def cases(program: pathlib.Path, options: argparse.Namespace) -> Iterator[Case]:
    with tempfile.TemporaryDirectory() as scratch:
        folder = pathlib.Path(scratch)
        for name, data in small():
            yield name, wrong_of(program, folder, data)
        for name, data in at_blocks(random.Random(options.seed)):
            yield name, wrong_of(program, folder, data)
        for number in range(30):
            yield f"file {number} of seed {options.seed}", wrong_of(
                program, folder, made(random.Random(f"{options.seed} extract {number}"))
            )
        (folder / "beside").mkdir()
        yield from devices(program, folder / "beside")
        yield from memory(program, folder / "beside")
