"""The sum of what a crate says: of its own src/, specs/ and proofs/, and of what the crates below it state. Comments
and layout do not count.

Of a crate below, its specs/ count, and of its src/ what a caller sees: types, constants, `ghost use` lines, and the
heads and clauses of functions that are public or belong to a trait. Bodies, private functions, private modules, and
`use` lines that bring names to a file alone, do not.
"""

from __future__ import annotations

import functools
import hashlib
import pathlib
import re
from collections.abc import Sequence

from support import layers
from support.made import ROOT

# A word, a sign, a number or a text in quotes.
Token = str

# What files are made of, by their endings. Comments and white space are blank.
TOKENS = {
    ".rt": re.compile(
        r"""(?P<blank>\s+|//[^\n]*|/\*.*?\*/)|b?"(?:\\.|[^"\\])*"|b?'(?:\\'|\\[^']+|[^'\\])'|'?\w+|.""", re.DOTALL
    ),
    ".antt": re.compile(r"""(?P<blank>\s+|(?<!\S)--[^\n]*)|"(?:\\.|[^"\\])*"|[^\s(){};"]+|.""", re.DOTALL),
}
NAME = re.compile(r"[A-Za-z_]\w*")
OPENING, CLOSING = ("(", "["), (")", "]")
BLOCK, BLOCK_END, ITEM_END = "{", "}", ";"
CLAUSES = ("ensures", "requires")


def digest(text: str) -> str:
    """The first 16 digits of the sum of a text."""
    return hashlib.sha256(text.encode()).hexdigest()[:16]


def tokens_of(text: str, ending: str) -> list[Token]:
    """The tokens of a file's text, without comments."""
    return [match[0] for match in TOKENS[ending].finditer(text) if match.lastgroup != "blank"]


def tokens(folder: pathlib.Path, *parts: str) -> dict[str, list[Token]]:
    """The tokens of each file in these parts of a crate, by its path there."""
    paths = [path for part in parts for path in sorted((folder / part).glob("**/*")) if path.suffix in TOKENS]
    return {
        str(path.relative_to(folder)): tokens_of(path.read_text(encoding="utf-8"), path.suffix) for path in paths
    }


def end_of_block(code: Sequence[Token], place: int) -> int:
    """The place behind the block that begins at a brace."""
    depth = 0
    while True:
        depth += (code[place] == BLOCK) - (code[place] == BLOCK_END)
        place += 1
        if depth == 0:
            return place


def ends_of_function(code: Sequence[Token], place: int) -> tuple[int, int]:
    """Where the head of the function at a `fn` ends, with its clauses, and the place behind the function."""
    depth = 0
    while depth or code[place] not in (BLOCK, ITEM_END):
        depth += (code[place] in OPENING) - (code[place] in CLOSING)
        is_clause = depth == 0 and code[place] in CLAUSES
        place = end_of_block(code, code.index(BLOCK, place)) if is_clause else place + 1
    return place, place + 1 if code[place] == ITEM_END else end_of_block(code, place)


class Seen:
    """What a caller sees of a source."""

    def __init__(self, code: Sequence[Token]) -> None:
        self.code = code
        self.found: list[Token] = []
        # Where the item begins that is being read, in what was found, and how many parentheses are open in it.
        self.start, self.depth = 0, 0
        # Of each block that is open, whether what is in it is public by itself, as in a trait.
        self.blocks: list[bool] = []

    def is_public(self) -> bool:
        head = self.found[self.start :]
        place = head.index("pub") + 1 if "pub" in head else 0
        return bool(place) and head[place : place + 1] != [OPENING[0]] or self.blocks[-1:] == [True]

    def passed(self, place: int) -> int:
        """Takes or leaves the token at a place, or the whole function or line that begins with it; the place behind."""
        token, behind = self.code[place], self.code[place + 1 : place + 3]
        if token == "fn" and behind and NAME.fullmatch(behind[0]):
            head, end = ends_of_function(self.code, place)
            self.ends_with(self.code[place:head] if self.is_public() else None)
            return end
        if token == "use" or token == "mod" and behind[1:] == [ITEM_END]:
            end = self.code.index(ITEM_END, place) + 1
            self.ends_with(self.code[place:end] if self.is_public() or "ghost" in self.found[self.start :] else None)
            return end
        self.take(token)
        return place + 1

    def ends_with(self, rest: Sequence[Token] | None) -> None:
        """Ends the item that is being read: with these tokens, or it is left out."""
        if rest is None:
            del self.found[self.start :]
        self.found += rest or ()
        self.start = len(self.found)

    def take(self, token: Token) -> None:
        """Takes a token that is none of a body."""
        if token == BLOCK:
            head = self.found[self.start :]
            self.blocks.append("trait" in head or "impl" in head and "for" in head)
        elif token == BLOCK_END:
            self.blocks.pop()
        self.depth += (token in OPENING) - (token in CLOSING)
        self.found.append(token)
        if self.depth == 0 and token in (BLOCK, BLOCK_END, ITEM_END):
            self.start = len(self.found)


def seen(code: Sequence[Token]) -> list[Token]:
    """The tokens of a source that a caller sees."""
    reader, place = Seen(code), 0
    while place < len(code):
        place = reader.passed(place)
    return reader.found


@functools.cache
def stated(folder: pathlib.Path) -> str:
    """The sum of what a crate states for those above it."""
    found = {name: seen(code) for name, code in tokens(folder, "src").items()}
    return digest(repr({**found, **tokens(folder, "specs")}))


def sum_of(crate: str, root: pathlib.Path = ROOT) -> str:
    """The sum of a crate and of what those below it state."""
    folder = root / "crates"
    needs = layers.parsed((root / layers.LIST.name).read_text())
    below = sorted(layers.below(needs, crate))
    own = tokens(folder / crate, "src", "specs", "proofs")
    return digest(repr((own, [(name, stated(folder / name)) for name in below])))
