"""What a file `recording` may be, and what may be in a folder without one: which folders are a recording's, from
docs/FORMAT.md."""

from __future__ import annotations

import pathlib
from collections.abc import Iterable

from support import plain_folders
from support.program import ROOT

# What a file `recording` may be, and whether it is a mark: bytes; where a link leads to; or nothing, for a folder.
MARKS: dict[str, tuple[bytes | str | None, bool]] = {
    "no bytes": (b"", True),
    "zeros": (bytes(4096), True),
    "a mark": (plain_folders.mark(7), True),
    "the greatest id": (plain_folders.mark(2**64 - 1), True),
    "an id of 0": (plain_folders.mark(0), False),
    "another cookie": (plain_folders.mark(7, cookie=0x6B72614C), False),
    "form 2": (plain_folders.mark(7, form=2), False),
    "a byte too few": (plain_folders.mark(7)[:-1], False),
    "a byte too many": (plain_folders.mark(7) + b"\0", False),
    "zeros, one too few": (bytes(4095), False),
    "zeros, one too many": (bytes(4097), False),
    "a word": (bytes(8), False),
    "the last bit of 4,096": (bytes(4095) + b"\x80", False),
    "a text": (b"we keep the images of all hosts here\n", False),
    "an image": ((ROOT / "examples" / "crash.img").read_bytes(), False),
    "a link that leads nowhere": ("nowhere", False),
    "a link to a mark": ("../whole", False),
    "a folder": (None, False),
}
# Names of further files in a folder of segments and totals without a mark, and whether all may be there.
BESIDE: dict[tuple[str, ...], bool] = {
    (): True,
    ("totals.new", "fold.lock", "0000000009.damaged", "history", "history.new"): True,
    ("history.lock", "history.damaged"): True,
    ("spare-1-0123456789abcdef", "spare-999999999999999999-ffffffffffffffff", "recording-0000000000000000"): True,
    ("notes.txt",): False,
    (".hidden",): False,
    ("spare-0-0123456789abcdef",): False,
    ("spare-01-0123456789abcdef",): False,
    ("spare--0123456789abcdef",): False,
    ("spare-1-0123456789abcdeF",): False,
    ("spare-1-0123456789abcde",): False,
    ("spare-1-0123456789abcdef0",): False,
    ("spare-1x0123456789abcdef",): False,
    ("spare-1234567890123456789-0123456789abcdef",): False,
    ("spare-",): False,
    ("recording-",): False,
    ("recording-0123456789abcdeg",): False,
    ("recording-0123456789abcdef~",): False,
    ("recording_0123456789abcdef",): False,
    ("history.old",): False,
    ("totals.old",): False,
    ("0000000000.seg",): False,
    ("5.seg",): False,
    ("0000000005.SEG",): False,
    ("0000000000.damaged",): False,
    ("1000000000000000000.seg",): False,
    ("fold.lock", "history", "a.img"): False,
}


def put(path: pathlib.Path, content: bytes | str | None) -> None:
    """Puts one of `MARKS` there."""
    if content is None:
        path.mkdir()
    elif isinstance(content, str):
        path.symlink_to(content)
    else:
        path.write_bytes(content)


def put_empty(folder: pathlib.Path, names: Iterable[str]) -> None:
    """Puts files without bytes into a folder."""
    for name in names:
        (folder / name).write_bytes(b"")
