"""How structs are laid out and what enumerators are, as a compiler writes it down for debuggers: an independent reader
of what packaging/layouts.py says."""

from __future__ import annotations

import pathlib
import re
from collections.abc import Iterable, Iterator

from support import native

ENTRY = re.compile(r"^ <(\d+)><[0-9a-f]+>: Abbrev Number: \d+ \((DW_TAG_\w+)\)$")
ATTRIBUTE = re.compile(r"^ +<[0-9a-f]+> +DW_AT_(\w+) *: (?:\([^)]*\):? *)*(.*)$")
STRUCT, MEMBER, ENUMERATOR = "DW_TAG_structure_type", "DW_TAG_member", "DW_TAG_enumerator"
# A name, such as `struct povundiri_room`, `struct povundiri_room.at` or `POVUNDIRI_DONE`, and what a list says of it.
Facts = dict[str, str]


def entries(text: str) -> Iterator[tuple[int, str, dict[str, str]]]:
    """Each entry with its depth, its tag and its attributes."""
    depth, tag = 0, ""
    found: dict[str, str] = {}
    for line in text.splitlines():
        entry = ENTRY.match(line)
        if entry is not None:
            if tag:
                yield depth, tag, found
            depth, tag, found = int(entry[1]), entry[2], {}
        elif attribute := ATTRIBUTE.match(line):
            found[attribute[1]] = attribute[2].strip()
    if tag:
        yield depth, tag, found


def facts(headers: Iterable[pathlib.Path], folder: pathlib.Path) -> Facts:
    """The sizes of structs, the places of their members, and the values of enumerators."""
    source, built = folder / "debugged.c", folder / "debugged.o"
    source.write_text("".join(f'#include "{header}"\n' for header in headers))
    native.run(["gcc", "-std=c99", "-g", "-fno-eliminate-unused-debug-types", "-c", "-o", built, source])
    found: Facts = {}
    struct = ""
    for depth, tag, has in entries(native.run(["readelf", "-W", "--debug-dump=info", built])):
        if depth == 1:
            struct = has.get("name", "") if tag == STRUCT and "byte_size" in has else ""
            if struct:
                found[f"struct {struct}"] = has["byte_size"]
        elif depth == 2 and tag == MEMBER and struct:
            found[f"struct {struct}.{has['name']}"] = has["data_member_location"]
        elif tag == ENUMERATOR:
            found[has["name"]] = has["const_value"]
    return {name: value for name, value in found.items() if re.match(r"struct povundiri_|POVUNDIRI_", name)}


def listed(text: str) -> Facts:
    """The same of a list of packaging/layouts.py."""
    found: Facts = {}
    head = ""
    for line in text.splitlines():
        name, _, value = line.partition(": ")
        if line.startswith("struct "):
            head = name
            found[name] = value.removesuffix(" bytes")
        elif line.startswith("    POVUNDIRI_"):
            found[name.strip()] = value
        elif line.startswith("    "):
            found[f"{head}.{name.strip()}"] = value.removeprefix("at ").split(",")[0]
    return found


def difference(found: Facts, text: str, internal: Iterable[str]) -> str | None:
    """Where a list is not what a compiler says of the same headers, but for these structs; or None."""
    skipped = tuple(f"struct {name}" for name in internal)
    wanted = {name: value for name, value in found.items() if name.split(".")[0] not in skipped}
    names = sorted(name for name in {*wanted, *listed(text)} if wanted.get(name) != listed(text).get(name))
    lines = [f"{name}: the list has {listed(text).get(name)}, and gcc {wanted.get(name)}" for name in names]
    return "\n".join(lines) or (None if wanted else "gcc says nothing")
