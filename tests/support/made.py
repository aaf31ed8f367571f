"""Documents that are made of the sources: where they differ from what these say, and how they are made again."""

from __future__ import annotations

import difflib
import pathlib
import sys
from collections.abc import Mapping, Sequence

ROOT = pathlib.Path(__file__).resolve().parents[2]

# The text of each document by its path.
Documents = Mapping[pathlib.Path, str]


def difference(documents: Documents, source: str, folder: pathlib.Path | None = None) -> str | None:
    """Where the files differ from these documents, by their paths, or a file of the folder is none of them; or None.
    `source` names what they are made of."""
    there = sorted(folder.glob("*")) if folder else []
    came = [f"{path.relative_to(ROOT)} is made of nothing" for path in there if path not in documents]
    for path, text in documents.items():
        found = path.read_text() if path.is_file() else ""
        came += difflib.unified_diff(
            found.splitlines(), text.splitlines(), str(path.relative_to(ROOT)), source, "", "", 0, ""
        )
    return "\n".join(came) or None


def write(documents: Documents) -> None:
    for path, text in documents.items():
        path.parent.mkdir(exist_ok=True)
        path.write_text(text)


def run(
    arguments: Sequence[str],
    usage: str | None,
    documents: Documents,
    source: str,
    folder: pathlib.Path | None = None,
) -> int:
    """The program of a script: with --write it writes the files; without, it says what differs, and the status is 1 if
    anything does."""
    if arguments == ["--write"]:
        write(documents)
        return 0
    if arguments:
        sys.exit(usage)
    wrong = difference(documents, source, folder)
    print(wrong or f"the documents are what {source} says")
    return 1 if wrong else 0
