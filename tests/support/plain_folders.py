"""A recording's folder in plain Python, over the plain sum (plain_sums.py) and the plain look (plain_look.py): what a
reading of it has, and what a fold makes of it. It shares nothing with the program.

Nobody else is at work in the folder. Files whose names are none of its are passed over, and so is what is no regular
file.
"""

from __future__ import annotations

import collections
import dataclasses
import pathlib
import struct
from collections.abc import Collection

from support import plain_look, plain_reader, plain_sums
from support.layout import ID, SEGMENT_COOKIE, data_of
from support.plain_sums import Part, Sum, Wrong

MARK, TOTALS, NEW_TOTALS, LOCK = "recording", "totals", "totals.new", "fold.lock"
# How many files a fold takes at once.
AT_ONCE = 256
# The bytes that an id is read from.
FRONT = 48
# A segment: its number and its id.
Named = tuple[int, int]
Left = list[tuple[pathlib.Path, str]]


def name_of(number: int) -> str:
    return f"{number:010}.seg"


def number_of(name: str) -> int | None:
    """The number of a segment whose file has this name, or None."""
    digits, _, ending = name.rpartition(".")
    if ending != "seg" or not digits.isascii() or not digits.isdigit() or not 0 < int(digits) < 10**18:
        return None
    return int(digits) if name_of(int(digits)) == name else None


def mark(identity: int, cookie: int = 0x6B72614D, form: int = 1) -> bytes:
    """The bytes of a mark with words, or of one that differs from it."""
    return struct.pack("<3Q", cookie, form, identity).ljust(4096, b"\0")


def with_id(data: bytes, number: int) -> bytes:
    """An image with this id."""
    return data[: 8 * ID] + struct.pack("<Q", number) + data[8 * ID + 8 :]


def mapped(data: bytes) -> bytes:
    """The mapped file of an image."""
    return bytes(8) + data


def id_of(data: bytes) -> int | None:
    """The id of the segment in a file; None if it is too short to have one."""
    if len(data) < FRONT:
        return None
    words: tuple[int, ...] = struct.unpack(f"<{FRONT // 8}Q", data[:FRONT])
    if words[:2] == (0, SEGMENT_COOKIE):
        words = words[1:]
        words = words[: min(len(words), words[2])]
    return words[ID] if len(words) > ID else None


def looked(data: bytes) -> bytes | None:
    """The image of the look at a file; None if there is no look."""
    seen: collections.Counter[str] = collections.Counter()
    try:
        words = plain_reader.words_of(data, seen)
        plain_reader.check_header(words, seen)
    except plain_reader.ImageFault:
        return None
    return data_of(plain_look.look_of(words, words, words)) if words[1] > 1 else None


def with_segment(whole: Sum, number: int, data: bytes) -> Sum:
    """The sum with an image that has a number; raises why there is none."""
    try:
        other = plain_sums.of_image(data)
    except plain_reader.ImageFault as fault:
        raise Wrong(str(fault)) from None
    parts = dict(whole.parts)
    for key, part in other.parts.items():
        part.least = number
        parts[key] = plain_sums.both(parts.get(key, Part({}, {}, 0, 0, 0, 0, number)), part, 0)
        if not plain_sums.fits(parts[key]):
            raise Wrong("TooMany")
    names = ("images", "full", "corrupt", "stopped", "bad")
    return Sum(parts, *(getattr(whole, name) + getattr(other, name) for name in names))


@dataclasses.dataclass
class Folder:
    """What is in a recording's folder."""

    path: pathlib.Path
    totals: bytes | None
    segments: dict[int, bytes]

    @classmethod
    def at(cls, path: pathlib.Path) -> Folder:
        totals = path / TOTALS
        files = ((number_of(file.name), file) for file in path.iterdir() if file.is_file() and not file.is_symlink())
        segments = {number: file.read_bytes() for number, file in files if number is not None}
        return cls(path, totals.read_bytes() if totals.exists() else None, segments)

    def file(self, number: int) -> pathlib.Path:
        return self.path / name_of(number)

    def summed(self) -> Sum:
        """The sum in the totals."""
        return Sum() if self.totals is None else plain_sums.of_totals(self.totals)

    def lines(self, word: str) -> list[list[int]]:
        """The numbers on the lines of the totals that begin with a word."""
        lines = [line.split(",") for line in (self.totals or b"").decode().splitlines()]
        return [[int(text) for text in rest] for first, *rest in lines if first == word]

    def named(self) -> list[Named]:
        return [(number, own) for number, own in self.lines("of")]

    def serial(self) -> int:
        return sum(serial for (serial,) in self.lines("fold"))

    def unnamed(self) -> list[tuple[int, bytes]]:
        """The segments that the totals do not name, by their numbers."""
        named: Collection[tuple[int, int | None]] = {*self.named()}
        return [(number, data) for number, data in sorted(self.segments.items()) if (number, id_of(data)) not in named]

    def reading(self) -> tuple[Sum, Left]:
        """The sum of the folder, and which segments are left out, with the reasons. Those that cannot be looked at are
        read after the others, as they are."""
        whole, others, left = self.summed(), [], []
        for number, data in self.unnamed():
            look = looked(data)
            try:
                if look is None:
                    raise Wrong
                whole = with_segment(whole, number, look)
            except Wrong:
                others.append((number, data))
        for number, data in others:
            try:
                whole = plain_sums.added(whole, plain_sums.of_input(data))
            except Wrong as why:
                left.append((self.file(number), str(why)))
        return whole, left

    def folded(self, locked: Collection[int] = ()) -> tuple[Folder, Left]:
        """What a fold makes of the folder while the segments of some numbers are locked, and which cannot be added,
        with the reasons."""
        whole, left = self.summed(), []
        present = Folder(self.path, self.totals, dict(self.segments))
        standing = [(number, own) for number, own in self.named() if number in locked and number in self.segments]
        for number, own in self.named():
            if number not in locked and number in self.segments and id_of(self.segments[number]) == own:
                del present.segments[number]
        numbers = sorted(self.segments)
        for at in range(0, len(numbers), AT_ONCE):
            finals: list[Named] = []
            for number, data in present.unnamed():
                if number in locked or number not in numbers[at : at + AT_ONCE]:
                    continue
                try:
                    whole = with_segment(whole, number, data)
                    id_there = id_of(data)
                    assert id_there is not None
                    finals.append((number, id_there))
                except Wrong as why:
                    left.append((self.file(number), str(why)))
            if finals:
                present.totals = present.next_totals(whole, standing, finals)
                for number, _ in finals:
                    del present.segments[number]
        return present, left

    def next_totals(self, whole: Sum, standing: Collection[Named], finals: Collection[Named]) -> bytes:
        """The text of the totals of a fold that has added segments."""
        named = self.named()
        greatest = max([number for number, _ in named], default=0)
        kept = [name for name in named if name in standing or name[0] == greatest]
        text, end = plain_sums.totals_text(whole), f"end,{len(whole.parts)}\n".encode()
        assert text.endswith(end)
        lines = [f"of,{number},{own}\n" for number, own in (*kept, *finals)]
        return text[: -len(end)] + "".join([*lines, f"fold,{self.serial() + 1}\n"]).encode() + end
