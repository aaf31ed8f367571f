"""What a check that refuses a crate says: which goals stay open, of which functions.

    note: src/transfer.rt:26:1: it is not proved that what the function ensures holds when it returns (`returns`)
    fn segment_image::transfer::fill: no proof: expected answers in ..; `search` did not prove `returns`

A goal of a contract is that of a clause. It begins with `returns`: `returns-clause-end` is that of the clause `end`,
and `returns` that of the only clause; where the function can end in several ways, the goal has the way in it. What
follows from a contract is an invariant, of a loop or of a type. Other goals, of what a called function requires, of an
index, of a sum that fits or of a loop that ends, say nothing of the contract.

A goal with a written answer stays open if the answer is no proof of it any more, or rests on a lemma of its file that
is none any more. An answer that only names what the edit took away says nothing.
"""

from __future__ import annotations

import re
from collections.abc import Iterator
from typing import NamedTuple

FUNCTION = re.compile(r"fn (\w+)::(\S+): (.*)")
NOTE = re.compile(r"note: \S+:\d+:\d+: it is not proved that (.*?) \(`([^`]+)`\)")
SEARCHED = re.compile(r"`search` did not prove (`[^`]+`(?:(?:, | and )`[^`]+`)*)")
# An answer that is no proof, by the folder of its file; and those that rest on one.
WRITTEN = re.compile(r"(?:\./)?proofs/(\S+)/\w+\.antt:\d+:\d+: error: `([^`]+)`: (.*)")
RESTING = re.compile(
    r"(?:\./)?proofs/(\S+)/\w+\.antt:\d+:\d+: error: \d+ declarations? that depends? on `([^`]+)`, which was rejected, "
    r"(?:was|were) not checked: (.*)"
)
# As in `must_fail` of the script `rt`.
TAKEN_AWAY = re.compile(r"has no field|is not in scope|has no `|was not admitted")
# Of a type; or that it holds before a loop, or after one more turn of it.
INVARIANT = re.compile(r"invariant_of|(?!\S*-requires)\S+-(?:init|preserved)(?:-|$)")


class Goal(NamedTuple):
    function: str
    name: str

    def rank(self) -> int:
        """0 for a goal of a contract, 1 for one of an invariant, 2 for another."""
        return 0 if self.name.startswith("returns") else 1 if INVARIANT.match(self.name) else 2

    def is_of_contract(self) -> bool:
        return self.rank() < 2


def written(said: str) -> Iterator[tuple[str, str]]:
    """The answers that are no proofs any more, each with the folder of its function."""
    taken: set[tuple[str, str]] = set()
    for line in said.splitlines():
        if (match := RESTING.match(line)) is not None:
            names = [] if (match[1], match[2]) in taken else re.split(r", | and ", match[3])
            yield from ((match[1], name) for name in names if not re.fullmatch(r"\d+ more", name))
        elif (match := WRITTEN.match(line)) is not None and TAKEN_AWAY.search(match[3]):
            taken.add((match[1], match[2]))
        elif match is not None:
            yield match[1], match[2]


def goals(said: str) -> Iterator[Goal]:
    """The goals that stay open, function by function: those that were searched for, and then those with answers."""
    answers, noted = list(written(said)), list[str]()
    for line in said.splitlines():
        if (match := NOTE.match(line)) is not None:
            noted.append(match[2])
        elif (match := FUNCTION.match(line)) is not None:
            crate, name, state = match.groups()
            searched = [goal for goals in SEARCHED.findall(state) for goal in re.findall(r"`([^`]+)`", goals)]
            refused = [*noted, *searched, *(goal for folder, goal in answers if folder == name.replace("::", "/"))]
            if state.startswith(("no proof", "not proved")):
                yield from (Goal(f"{crate}::{name}", goal) for goal in dict.fromkeys(refused))
            noted = []


def refused_by(said: str) -> Goal | None:
    """The first open goal of a contract; if there is none, the first of an invariant, or the first of any kind."""
    found = list(goals(said))
    return min(found, key=Goal.rank) if found else None
