"""The links of the documents lead to files of the repository."""

from __future__ import annotations

import pathlib
import re

from support import definitions
from support.made import ROOT

LINK = re.compile(r"\]\(([^)#\s]+)[^)]*\)")


def documents() -> list[pathlib.Path]:
    places = (
        "*.md", "docs/**/*.md", "crates/*/*.md", "c/**/*.md", "bench/**/*.md", "examples/**/*.md", "python/**/*.md",
        "tests/**/*.md",
    )
    return sorted(file for place in places for file in ROOT.glob(place) if definitions.PAGES not in file.parents)


def broken() -> str | None:
    """The links that lead to a file that is not there, or that is made and not kept; or None."""
    found, links = [], 0
    for file in documents():
        for target in LINK.findall(file.read_text()):
            links += 1
            path = (file.parent / target).resolve()
            if ":" not in target and (not path.exists() or definitions.PAGES in (path, *path.parents)):
                found.append(f"{file.relative_to(ROOT)} leads to {target}")
    return "\n".join(found) or (None if links else "there are no links")
