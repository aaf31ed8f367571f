#!/usr/bin/env python3
"""Checks which of the clauses that README.md cites are exact.

    tests/support/cited.py

'What is proved' of README.md cites laws, functions and clauses in parentheses, each with a link to its heading on a
page of docs/proved. CITED says which each is, and EXACT has those whose clauses are equations (`proved.is_equation`).
If README.md cites another, if one is not there or the link leads elsewhere, if one has become exact or one is no
longer, it says so, and the status is 1.
"""

from __future__ import annotations

import pathlib
import re
import sys
from collections.abc import Collection, Iterator, Mapping

sys.path.insert(0, str(pathlib.Path(__file__).resolve().parents[1]))
from support import proved
from support.made import ROOT

README = ROOT / "README.md"
# What README.md cites: the crate and the function, and the clause, or None for each that the function has.
CITED: dict[str, tuple[str, str, str | None]] = {
    "stopped_reads": ("segment_promises", "stopped_reads", None),
    "joined": ("live_segment", "Segment::close", "joined"),
    "stopped": ("live_segment", "Segment::close", "stopped"),
    "looks_read": ("look_promises", "looks_read", None),
    "kept_are_adoptable": ("segment_promises", "kept_are_adoptable", None),
    "final_deltas_take_all": ("segment_promises", "final_deltas_take_all", None),
    "image_reader::read": ("image_reader", "read", None),
    "write_text": ("text_forms", "write_text", None),
    "sum_of_inputs": ("sum_commands", "sum_of_inputs", None),
}
# Those of which each clause is an equation.
EXACT: frozenset[str] = frozenset()

SECTION = re.compile(r"\n## What is proved\n(.*?)\n## ", re.DOTALL)
CITATION = re.compile(r"\(\[`([\w:]+)`\]\(docs/proved/([\w.]+)\.md#([\w-]+)\)\)")


def cited_by(readme: str) -> dict[str, tuple[str, str]]:
    """What a README cites in parentheses where it says what is proved: the page and the heading of each link."""
    section = SECTION.search(readme)
    return {name: (page, heading) for name, page, heading in CITATION.findall(section[1] if section else "")}


def heading_of(function: str) -> str:
    """What a link to the heading of a function ends with."""
    return function.lower().replace(":", "")


def clauses() -> dict[str, list[str]]:
    """The texts of the clauses that each name of CITED stands for."""
    found: dict[str, list[str]] = {name: [] for name in CITED}
    for name, (crate, wanted, clause) in CITED.items():
        functions = (one for file in proved.sources(crate) for one in proved.functions(file.read_text()))
        promises = [one for function in functions if function.name == wanted for one in function.promises()]
        found[name] = [one.text for one in promises if clause in (None, one.name)]
    return found


def faults(readme: str, texts: Mapping[str, Collection[str]]) -> Iterator[str]:
    """What differs, by a README and the clauses that each name stands for."""
    links = cited_by(readme)
    for name in sorted(links.keys() ^ texts.keys()):
        yield f"{name} is cited by README.md, or is in CITED of tests/support/cited.py, and not both"
    for name, link in links.items():
        if name in CITED and link != (CITED[name][0], heading_of(CITED[name][1])):
            yield f"{name}: the link leads to {'#'.join(link)}"
    for name, found in texts.items():
        is_exact = bool(found) and all(map(proved.is_equation, found))
        if not found:
            yield f"{name}: there is no such clause"
        elif is_exact != (name in EXACT):
            yield f"{name} is {'exact' if is_exact else 'not exact any more'}: EXACT of tests/support/cited.py differs"


def difference() -> str | None:
    """What differs, or None."""
    return "\n".join(faults(README.read_text(), clauses())) or None


def let_through() -> str | None:
    """Which changes are let through that have to be found, or None: a name that is cited no longer, or is another, or
    whose link leads elsewhere, a clause that is not there, and one that has become exact or is so no longer."""
    readme, texts = README.read_text(), clauses()
    wrong: list[tuple[str, Mapping[str, Collection[str]]]] = []
    for name in CITED:
        wrong.append((readme.replace(f"`{name}`", "`another`"), texts))
        wrong.append((readme.replace(f"[`{name}`](docs/proved/", f"[`{name}`](docs/proved/x"), texts))
        wrong.append((re.sub(rf"(\[`{name}`\]\([^)#]*#)", r"\1x", readme), texts))
        wrong.append((readme, {**texts, name: []}))
        wrong.append((readme, {**texts, name: ["IsRight result"] if name in EXACT else ["result ≡ right x.now"]}))
    came = [one for one in wrong if not list(faults(*one))]
    return f"{len(came)} of {len(wrong)} wrong states are let through" if came else None


if __name__ == "__main__":
    said = difference() or let_through()
    print(said or f"README.md cites {len(CITED)} functions and clauses, of which {len(EXACT)} are exact")
    sys.exit(1 if said else 0)
