"""What differs between two archives: in which members, and there in which sections."""

from __future__ import annotations

import pathlib
import re
import subprocess
import tempfile
from collections.abc import Iterator

from support import native

MAGIC, HEAD = b"!<arch>\n", 60
# A line of `readelf -SW`: its name, and where it lies in the file.
SECTION = re.compile(r"^ *\[ *\d+\] (\S*) +[A-Z]\w* +[0-9a-f]+ ([0-9a-f]+) ([0-9a-f]+) ", re.MULTILINE)


def members(archive: pathlib.Path) -> Iterator[tuple[bytes, bytes]]:
    """The head and the bytes of each member, one after the other."""
    data = archive.read_bytes()
    if not data.startswith(MAGIC):
        raise native.Failed(f"{archive} is no archive")
    at = len(MAGIC)
    while at < len(data):
        head = data[at : at + HEAD]
        size = int(head[48:58])
        yield head, data[at + HEAD : at + HEAD + size]
        at += HEAD + size + size % 2


def sections(member: bytes) -> list[tuple[str, int, int]]:
    """The sections of a member that is an object: the name of each, where it begins and where it ends."""
    with tempfile.NamedTemporaryFile() as file:
        file.write(member)
        file.flush()
        done = subprocess.run(["readelf", "-SW", file.name], capture_output=True, text=True)
    found = SECTION.findall(done.stdout)
    return [(name, int(start, 16), int(start, 16) + int(size, 16)) for name, start, size in found if name != ".bss"]


def places(one: bytes, two: bytes) -> str:
    """Where two members differ."""
    if len(one) != len(two):
        return f"{len(one)} and {len(two)} bytes"
    differing = [at for at, pair in enumerate(zip(one, two)) if pair[0] != pair[1]]
    known = sections(one)
    names = {next((name for name, start, end in known if start <= at < end), "its tables") for at in differing}
    return f"{len(differing)} of {len(one)} bytes, in {', '.join(sorted(names))}"


def difference(one: pathlib.Path, two: pathlib.Path) -> str | None:
    """Which members of two archives differ, and where, or None if they are the same bytes."""
    first, second = list(members(one)), list(members(two))
    if len(first) != len(second):
        return f"{len(first)} and {len(second)} members"
    found = []
    for (head, data), (other_head, other) in zip(first, second):
        name = head[:16].decode(errors="replace").strip()
        if head != other_head:
            found.append(f"{name}: its head, {head!r} and {other_head!r}")
        if data != other:
            found.append(f"{name}: {places(data, other)}")
    return "; ".join(found) or None
