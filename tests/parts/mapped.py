"""Mapped files in place of images: `report`, `show` and `export` beside plain readers, and what `merge` and `resume`
make of one beside what they make of the closed image.

A mapped file is a word of zeros, the image, shared cursors, and zeros to a multiple of sixteen bytes.
"""

from __future__ import annotations

import argparse
import pathlib
import random
import struct
import tempfile
from collections.abc import Callable, Iterator

from support import forge, forge_adoption, layout, plain_export, plain_reader, plain_show
from support.program import Answer, Case, Word, answer, content, difference, fault

PROGRAM = "persist_report"
# What each command writes to its two streams of an image, and its status.
COMMANDS: dict[str, Callable[[bytes], tuple[bytes, bytes, int]]] = {
    "report": plain_reader.answer,
    "show": plain_show.answer,
    "export": plain_export.answer,
}
MOST_CURSORS = 8
MOST_IMAGES = 200
SCRIPT = "segment,{},{},{}\nhist,mapped.only,boolean\nadd,mapped.only,1,5\n"


def mapped(image: bytes, cursors: int, chance: random.Random) -> bytes:
    """The mapped file of an image, with a number of shared cursors."""
    file = bytes(8) + image + chance.randbytes(8 * cursors)
    return file + bytes(-len(file) % 16)


def damaged(file: bytes, chance: random.Random) -> bytes:
    """A mapped file with a fault: it is cut, in a word or after one, or has another first word or size."""
    kind = chance.randrange(4)
    if kind == 0:
        return file[: chance.randrange(len(file) + 1)]
    if kind == 1:
        return file[: 8 * chance.randrange(len(file) // 8 + 1)]
    if kind == 2:
        return struct.pack("<Q", 1 << chance.randrange(64)) + file[8:]
    size = chance.choice([0, 1, 15, 16, 64, len(file) // 8 - 1, len(file) // 8, 2**20, 2**20 + 16, 2**63, 2**64 - 1])
    return file[:24] + struct.pack("<Q", size) + file[32:]


def texts(program: pathlib.Path, name: str, data: bytes) -> Iterator[Case]:
    """What each command writes of a file."""
    for command, plain in COMMANDS.items():
        yield f"{command} of {name}", difference(Answer(*plain(data)), answer(program, [command], data))


def forged(program: pathlib.Path, options: argparse.Namespace) -> Iterator[Case]:
    """Forged images as mapped files, whole and damaged."""
    for number in range(min(options.images, MOST_IMAGES)):
        chance = random.Random(f"mapped {options.seed} {number}")
        file = mapped(forge.image_of(chance), chance.randrange(MOST_CURSORS + 1), chance)
        yield from texts(program, f"file {number} of seed {options.seed}", file)
        yield from texts(program, f"damaged file {number} of seed {options.seed}", damaged(file, chance))


def limits(program: pathlib.Path) -> Iterator[Case]:
    """The longest files, and such as are too long."""
    image = layout.image_of(layout.MOST_WORDS, 1, [])
    whole = mapped(image, MOST_CURSORS, random.Random("cursors"))
    assert len(whole) == layout.MOST_BYTES + 80
    long: list[tuple[str, bytes, Answer]] = [
        ("the longest mapped file", whole, Answer()),
        ("eight bytes more", whole + bytes(8), fault("TooLong", 3)),
        ("a byte more", whole + bytes(1), fault("TooLong", 3)),
        ("four bytes less", whole[:-4], fault("NotWords", 3)),
        ("without its last words", whole[: layout.MOST_BYTES], fault("Image BadSize", 3)),
        ("the longest image", image, Answer()),
        ("an image and eight bytes", image + bytes(8), fault("TooLong", 3)),
        ("an image and four bytes", image + bytes(4), fault("TooLong", 3)),
        ("an image less four bytes", image[:-4], fault("NotWords", 3)),
        ("zeros of that length", bytes(len(whole)), fault("TooLong", 3)),
        ("a word of zeros alone", bytes(8), fault("Image TooShort", 3)),
        ("a file whose header is not there yet", bytes(8 * 65), fault("Image BadCookie", 3)),
    ]
    for name, data, wanted in long:
        yield name, difference(wanted, answer(program, ["report"], data))


def outputs(
    program: pathlib.Path, folder: pathlib.Path, data: bytes, other: bytes
) -> list[tuple[Answer, bytes | None]]:
    """What `merge` and `resume` return of two inputs, and what they write."""
    first, second, script, out = (folder / name for name in ("first", "second", "script", "out"))
    first.write_bytes(data)
    second.write_bytes(other)
    words = plain_reader.words_of(data, plain_reader.Seen())
    script.write_text(SCRIPT.format(words[2], words[3], words[4]))
    came = []
    commands: list[list[Word]] = [["merge", first, second], ["merge", second, first], ["resume", first, script]]
    for command in commands:
        out.unlink(missing_ok=True)
        given = answer(program, [*command, out])
        came.append((given, content(out)))
    return came


def written(program: pathlib.Path, options: argparse.Namespace) -> Iterator[Case]:
    """Mapped files as inputs of commands that write an image: the same as of the closed images."""
    went = 0
    with tempfile.TemporaryDirectory() as name:
        for number in range(min(options.images, MOST_IMAGES) // 4):
            chance = random.Random(f"mapped outputs {options.seed} {number}")
            images = [forge_adoption.image_of(chance) for _ in range(2)]
            files = [mapped(image, chance.randrange(MOST_CURSORS + 1), chance) for image in images]
            wanted = outputs(program, pathlib.Path(name), images[0], images[1])
            came = outputs(program, pathlib.Path(name), files[0], files[1])
            wrong = [
                difference(one[0], other[0]) or ("OUT differs" if one[1] != other[1] else None)
                for one, other in zip(wanted, came)
            ]
            went += sum(given.status == 0 for given, _ in came)
            yield f"outputs {number} of seed {options.seed}", next((one for one in wrong if one is not None), None)
    yield "some outputs were written", None if went else "each was refused"


def cases(program: pathlib.Path, options: argparse.Namespace) -> Iterator[Case]:
    yield from forged(program, options)
    yield from limits(program)
    yield from written(program, options)
