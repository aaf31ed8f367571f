#!/usr/bin/env python3
"""Writes which symbols the shared library has: the functions and objects of its headers that a program may call, or
that the inline functions there call.

    symbols.py HEADER..            a version script for the linker
    symbols.py --list HEADER..     the names alone, one on each line
    symbols.py --since FILE HEADER..
                                   FILE, a list of Debian's with the version since which each is there, with those that
                                   are new: of the version that the file VERSION has

What a header has for another file of the library is left out: all that comes after a line 'For NAME.c alone'. What is
'For NAME alone' and no file's is called by an inline function, and stays.
"""

from __future__ import annotations

import pathlib
import re
import sys
from collections.abc import Iterable, Sequence

ROOT = pathlib.Path(__file__).resolve().parent.parent
NODE = "POVUNDIRI_1"
INTERNAL = re.compile(r"^/\* -+ For \w+\.c alone -+ \*/$", re.MULTILINE)
COMMENT = re.compile(r"/\*.*?\*/", re.DOTALL)
FUNCTION = re.compile(r"^(?:inline )?[a-z][\w ]*[ *](povundiri_\w+)\(", re.MULTILINE)
SINCE = re.compile(rf"^ (\w+)@{NODE} (\S+)$", re.MULTILINE)
OBJECT = re.compile(r"^extern [a-z][\w ]*[ *](povundiri_\w+)(?:\[\w*\])?;", re.MULTILINE)


def public(text: str) -> str:
    """A header without comments and without what it has for other files of the library."""
    return COMMENT.sub("", INTERNAL.split(text, maxsplit=1)[0])


def names(headers: Iterable[pathlib.Path]) -> list[str]:
    """The symbols of these headers, in order."""
    texts = [public(header.read_text()) for header in headers]
    return sorted({name for text in texts for pattern in (FUNCTION, OBJECT) for name in pattern.findall(text)})


def version_script(found: Iterable[str]) -> str:
    """The version script that lets these symbols out, and no others."""
    listed = "".join(f"        {name};\n" for name in found)
    return f"{NODE} {{\n    global:\n{listed}    local:\n        *;\n}};\n"


def since(path: pathlib.Path, found: Iterable[str]) -> str:
    """The list of Debian's with these symbols. No symbol leaves it."""
    text = path.read_text()
    old = dict(SINCE.findall(text))
    version = (ROOT / "VERSION").read_text().strip()
    now = {name: old.get(name, version) for name in [NODE, *found]}
    if gone := sorted(old.keys() - now.keys()):
        sys.exit(f"symbols.py: no header has {', '.join(gone)}, and no symbol may leave")
    head = "".join(line for line in text.splitlines(True) if not line.startswith(" "))
    return head + "".join(f" {name}@{NODE} {version}\n" for name, version in sorted(now.items()))


def main(words: Sequence[str]) -> int:
    flags = {"--list": 1, "--since": 2}
    flag = words[0] if words and words[0] in flags else ""
    headers = [pathlib.Path(word) for word in words[flags.get(flag, 0) :]]
    if not headers:
        print((__doc__ or "").rstrip(), file=sys.stderr)
        return 2
    found = names(headers)
    if flag == "--list":
        text = "".join(f"{name}\n" for name in found)
    else:
        text = since(pathlib.Path(words[1]), found) if flag == "--since" else version_script(found)
    print(text, end="")
    return 0


if __name__ == "__main__":
    sys.exit(main(sys.argv[1:]))
