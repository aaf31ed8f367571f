#!/usr/bin/env python3
"""Makes docs/proved, a page for each crate and each large module, of the doc comments of the public functions that have
clauses.

    tests/support/proved.py [--write]

A doc comment names the clauses of its function in brackets, each after the sentence that says what it promises:
'Returns the bucket of the value [bucket].' A function's only clause needs no name, and then the whole comment is its
sentence. A clause without a bracket is refused, and so is a bracket without a clause, and a clause that names a
definition without a comment.

With --write it writes the pages. Without, it says what differs in the pages that are there, and what was refused; the
status is 1 if anything was.
"""

from __future__ import annotations

import itertools
import pathlib
import re
import sys
from collections.abc import Callable, Iterable, Iterator, Sequence
from typing import NamedTuple

sys.path.insert(0, str(pathlib.Path(__file__).resolve().parents[1]))
from support import definitions, made
from support.made import ROOT

PAGES = ROOT / "docs" / "proved"
INDEX = ROOT / "docs" / "PROVED.md"
WIDTH = 140
# How many signs a clause may have that is shown as it is.
SHORT = 80
# A crate with more than MOST_LINES lines has a page for each module with more than LARGE.
MOST_LINES, LARGE = 700, 200
# Programs of the tests, which promise nothing.
PROGRAMS_OF_TESTS = ("trials",)

FUNCTION = re.compile(r"^\s*(pub )?(?:const )?(?:unsafe )?(?:extern \"C\" )?fn (\w+)")
ITEM = re.compile(r"^(?:unsafe )?(?:impl|pub trait)\b(?:<.*?>)? ?(?:(.*?) for )?(.*?)(?:<.*)? \{$")
CLAUSE = re.compile(r"^\s*(ensures|requires)\*? (?:(\w+) )?(\{.*)$")
# What a comment has in brackets: names of clauses. A name in signs of code is a link to an item.
BRACKET = re.compile(r"\[(\w+(?:, \w+)*)\]")
LINK = re.compile(r"\[(`[^`]*`)\](?:\([^)]*\))?")
CODE = re.compile(r"`[^`]*`")
NAME = re.compile(r"[^\W\d][\w']*")
# An equation for what a function returns, or for what an argument is after it; what it says of neither; and what joins
# two statements.
EQUATION = re.compile(r"(?:result|\w+\.new) ≡ (.*)")
AFTERWARDS = re.compile(r"\bresult\b|\.new\b")
JOINS = re.compile(r"[≡≢×⊎→↔≤<]")

# A definition: the crate, the module and the name there; and which one each name is.
Definition = tuple[str, str, str]
Names = dict[str, Definition]


class Clause(NamedTuple):
    kind: str
    name: str | None
    text: str


class Function(NamedTuple):
    name: str
    signature: str
    comment: list[str]
    clauses: list[Clause]
    # Those of its clauses.
    names: Names

    def promises(self) -> list[Clause]:
        return [clause for clause in self.clauses if clause.kind == "ensures"]

    def is_exact(self) -> bool:
        return all(is_equation(clause.text) for clause in self.promises())


def is_equation(text: str) -> bool:
    """Whether a clause says what is returned, or what an argument is afterwards, by what was passed alone."""
    match = EQUATION.fullmatch(text)
    return match is not None and not AFTERWARDS.search(match[1]) and not JOINS.search(outermost(match[1]))


def outermost(text: str) -> str:
    """What stands of a text outside of all parentheses and braces."""
    while (fewer := re.sub(r"\([^()]*\)|\{[^{}]*\}", "", text)) != text:
        text = fewer
    return text


def imported(lines: Iterable[str]) -> Names:
    """What names mean by the `ghost use` lines among these: the crate, the module and the name there."""
    found = {}
    for _, crate, module, names in definitions.IMPORT.findall("\n".join(line.strip() for line in lines)):
        for name in names.split(","):
            there, _, here = name.strip().partition(" as ")
            found[here or there] = (crate, module, there)
    return found


def clauses_from(lines: Sequence[str], place: int) -> tuple[list[Clause], int]:
    """The clauses that begin at a line, and the line after them."""
    found = []
    while (match := CLAUSE.match(lines[place])) is not None:
        text = match[3]
        while text.count("{") > text.count("}"):
            place += 1
            text += " " + lines[place].strip()
        found.append(Clause(match[1], match[2], text.removesuffix(";")[1:-1].strip()))
        place += 1
    return found, place


def comment_above(lines: Sequence[str], place: int) -> list[str]:
    """The doc comment that ends above a line; attributes and comments may come between."""
    while place > 0 and lines[place - 1].strip().startswith(("#[", "// ")):
        place -= 1
    start = place
    while start > 0 and lines[start - 1].strip().startswith("///"):
        start -= 1
    return [line.strip()[3:].removeprefix(" ") for line in lines[start:place]]


def head_from(lines: Sequence[str], place: int) -> tuple[str, int]:
    """The head of the function that begins on a line, on one line and without its type parameters, and the line after
    it."""
    head = lines[place].strip()
    while (
        not re.search(r"[{;]$|\{\}$", head)
        and CLAUSE.match(lines[place + 1]) is None
        and lines[place + 1].strip() not in ("{", "{}")
    ):
        place += 1
        head += " " + lines[place].strip()
    head = re.sub(r"^(?:pub |const |unsafe |extern \"C\" )*fn (\w+)(?:<.*?>)?\(", r"\1(", head.rstrip("{; "))
    return head.replace("( ", "(").replace(", )", ")").replace(",)", ")"), place + 1


def functions(text: str) -> Iterator[Function]:
    """The public functions of a file that have clauses; those of a trait, or of its `impl`, are public too."""
    lines = text.split("\n")
    whole = imported(line for line in lines if line.startswith("ghost use"))
    owner: str | None = None
    is_open, inside = False, imported([])
    for place, line in enumerate(lines):
        if (item := ITEM.match(line)) is not None:
            owner, is_open, inside = item[2], item[1] is not None or line.startswith("pub trait"), {}
        elif line.startswith("}"):
            owner, is_open, inside = None, False, {}
        elif owner and line.strip().startswith("ghost use"):
            inside |= imported([line])
        match = FUNCTION.match(line)
        if match is None or not (match[1] or is_open):
            continue
        signature, behind = head_from(lines, place)
        clauses, _ = clauses_from(lines, behind)
        if any(clause.kind == "ensures" for clause in clauses):
            name = f"{owner}::{match[2]}" if owner else match[2]
            yield Function(name, signature, comment_above(lines, place), clauses, whole | inside)


def bracketed(comment: Iterable[str]) -> list[str]:
    """The clauses that a comment names, each as often as it does."""
    return [name for names in BRACKET.findall(CODE.sub("", " ".join(comment))) for name in names.split(", ")]


def faults(function: Function, said: Callable[[Definition], str | None]) -> Iterator[str]:
    """What is wrong between the comment of a function and its clauses, by what is said of a definition."""
    named, promised = bracketed(function.comment), [clause.name for clause in function.promises()]
    if not any(function.comment):
        yield f"{function.name} has clauses, and no doc comment"
    if len(promised) > 1 and None in promised:
        yield f"{function.name} has a clause without a name beside others"
    for name in promised:
        if name is not None and name not in named:
            yield f"{function.name}: no sentence carries the clause [{name}]"
    for name in dict.fromkeys(named):
        if name not in promised:
            yield f"{function.name}: there is no clause [{name}]"
    for name in dict.fromkeys(name for clause in function.clauses for name in NAME.findall(clause.text)):
        if name in function.names and said(function.names[name]) == "":
            yield f"{function.name}: the definition {name} has no comment"


def sources(crate: str) -> list[pathlib.Path]:
    return sorted((ROOT / "crates" / crate / "src").glob("**/*.rt"))


def promising(crate: str) -> bool:
    """Whether the crate has a public function that has clauses."""
    return any(True for file in sources(crate) for _ in functions(file.read_text()))


def done() -> list[str]:
    """The crates that have a page, in the order of docs/ARCHITECTURE.md."""
    return [crate for crate in definitions.crates() if crate not in PROGRAMS_OF_TESTS and promising(crate)]


def refused() -> Iterator[str]:
    """What is wrong in the doc comments of the crates that have a page, or of docs/PROVED.md, which leads to each."""
    index = INDEX.read_text()
    for crate in done():
        for file in sources(crate):
            for function in functions(file.read_text()):
                yield from (f"{file.relative_to(ROOT)}: {fault}" for fault in faults(function, said_of))
        if f"(proved/{crate}.md)" not in index:
            yield f"docs/PROVED.md does not lead to proved/{crate}.md"


def said_of(definition: Definition) -> str | None:
    """The first sentence of the comment of a definition, '' if it has none, or None if it is of no crate here."""
    crate, module, name = definition
    file = ROOT / "crates" / crate / "specs" / f"{module.replace('.', '/')}.antt"
    if not file.is_file():
        return None
    text = file.read_text()
    for found, comment in definitions.definitions(text):
        if found == name:
            return definitions.in_short(comment)
    for kind, other, where, names in definitions.IMPORT.findall(text):
        if kind.startswith("pub") and name in (one.strip() for one in names.split(",")):
            return said_of((other or crate, where, name))
    return None


def clause_entry(clause: Clause, function: Function, told: dict[str, str]) -> str:
    """A clause as it is, if it is short, and what the definitions that it names say, if that is not on the page yet."""
    cited = {}
    for name in dict.fromkeys(NAME.findall(clause.text)):
        if name in function.names and (said := said_of(function.names[name])) is not None:
            cited[name] = said
    head = "requires" if clause.kind == "requires" else ""
    if clause.name:
        head += f" `{clause.name}`"
    stands = not cited or len(clause.text) <= SHORT and clause.text not in cited
    parts = [f"`{clause.text}`"] if stands else []
    for name, said in cited.items():
        if said and name not in told:
            parts.append(f"`{name}`: {said}")
        elif not stands:
            parts.append(f"`{name}`")
    told.update(cited)
    return (f"{head.strip()}: " if head else "") + ". ".join(parts) + ("." if len(parts) > 1 or not stands else "")


def wrapped(text: str, first: str = "", later: str = "") -> list[str]:
    """The lines of a paragraph; a name in signs of code is not parted."""
    lines: list[str] = []
    line = first
    for word in re.findall(r"(?:`[^`]*`|\S)+", text):
        if len(line) + 1 + len(word) > WIDTH and line.strip():
            lines.append(line.rstrip())
            line = later
        line += word + " "
    return [*lines, line.rstrip()]


def comment_lines(comment: Iterable[str]) -> list[str]:
    """A doc comment as a page has it: its paragraphs and its lists."""
    shown = LINK.sub(r"\1", "\n".join(comment))
    shown = BRACKET.sub(lambda names: "[" + ", ".join(f"`{name}`" for name in names[1].split(", ")) + "]", shown)
    lines = []
    for part in re.split(r"\n(?=\s*- |\n)", shown):
        text = part.lstrip("\n")
        indent = " " * (len(text) - len(text.lstrip(" ")))
        if part.startswith("\n"):
            lines.append("")
        lines += wrapped(text, indent, indent + ("  " if text.lstrip().startswith("- ") else ""))
    return lines


def function_lines(function: Function) -> list[str]:
    told: dict[str, str] = {}
    is_law = re.search(r"\(\)$", function.signature) is not None
    lines = ["", f"### `{function.name}`{' (exact)' if function.is_exact() else ''}", ""]
    if not is_law:
        lines += [f"`{function.signature}`", ""]
    lines += [*comment_lines(function.comment), ""]
    for clause in [*function.promises(), *(clause for clause in function.clauses if clause.kind == "requires")]:
        lines += wrapped(clause_entry(clause, function, told), "- ", "  ")
    return lines


def about(text: str) -> str:
    """What a file says that it is about, in its first paragraph."""
    head = list(itertools.takewhile(lambda line: line.startswith("//! "), text.splitlines()))
    return LINK.sub(r"\1", " ".join(line[3:].strip() for line in head))


def root_of(crate: str) -> pathlib.Path:
    """The root file of a crate, which says what the crate is about."""
    return next(file for file in sources(crate) if file.name in ("lib.rt", "main.rt"))


def made_by(title: str, said: str) -> list[str]:
    """How a page begins."""
    made_of = "This page is made by `tests/support/proved.py` of the doc comments; `../PROVED.md` says how to read it."
    return [f"# What is proved of {title}", "", *wrapped(said), "", made_of]


def sections(crate: str) -> Iterator[tuple[str, str, list[str]]]:
    """The modules of a crate with their functions: the name, what it is about, and the lines."""
    for file in sources(crate):
        text = file.read_text()
        entries = [line for function in functions(text) for line in function_lines(function)]
        if entries:
            name = ".".join(file.relative_to(ROOT / "crates" / crate / "src").with_suffix("").parts)
            yield name, definitions.in_short(about(text)) if file != root_of(crate) else "", entries


def pages(crate: str) -> Iterator[tuple[str, list[str]]]:
    """The pages of a crate: one, and if that is longer than a reader likes, others for its largest modules."""
    found = list(sections(crate))
    is_long = sum(len(entries) for _, _, entries in found) > MOST_LINES
    lines = made_by(f"`{crate}`", about(root_of(crate).read_text()))
    for name, said, entries in found:
        lines += ["", f"## `{name}`" + (f": {said}" if said else "")]
        if is_long and len(entries) > LARGE:
            yield f"{crate}.{name}", [*made_by(f"`{crate}`: `{name}`", said), *entries]
            entries = ["", f"[A page of its own]({crate}.{name}.md)."]
        lines += entries
    yield crate, lines


def documents() -> made.Documents:
    """The pages by their paths."""
    return {PAGES / f"{name}.md": "\n".join(lines) + "\n" for crate in done() for name, lines in pages(crate)}


def difference() -> str | None:
    """What was refused, or where the pages differ from the comments, or a page has no crate; or None."""
    return "\n".join(refused()) or made.difference(documents(), "src/", PAGES)


# A made-up file: its functions, and what is to be found wrong in each.
MADE_UP = """
ghost use Rattle.bucket_ranges.specs.Ranges.{clamped, untold};

/// Returns the number [value], which is small [small].
pub fn right(x: i32) -> u32
    ensures value { result ≡ x }
    ensures small { result ≤
        7 }
{
}

/// Returns the number [value].
pub fn lacks_a_sentence(
    x: i32,
) -> u32
    ensures value { result ≡ x }
    ensures small { result ≤ 7 }
{
}

/// Returns the number [value], which is small [small].
#[inline]
pub fn lacks_a_clause(x: i32) -> u32
    ensures value { result ≡ x }
{
}

pub fn lacks_a_comment()
    ensures { clamped 0 }
{}

/// Returns a number, as `[value]` or [`right`] has it.
pub fn lacks_a_name() -> u32
    ensures { result ≡ 0 }
    ensures value { result ≡ 0 }
{
}

/// Returns a number.
pub fn cites_what_nobody_told() -> u32
    ensures { untold (clamped result) }
{
}

// Nobody else calls it.
fn private() -> u32
    ensures value { result ≡ 0 }
{
}

impl Read for Reader {
    fn read(&self) -> u32
        ensures value { result ≡ 0 }
    {
    }
}
"""
FOUND_WRONG = [
    "lacks_a_sentence: no sentence carries the clause [small]",
    "lacks_a_clause: there is no clause [small]",
    "lacks_a_comment has clauses, and no doc comment",
    "lacks_a_name has a clause without a name beside others",
    "lacks_a_name: no sentence carries the clause [value]",
    "cites_what_nobody_told: the definition untold has no comment",
    "Reader::read has clauses, and no doc comment",
    "Reader::read: no sentence carries the clause [value]",
]


# Clauses that are equations for what is returned or left, and clauses that are none.
EQUATIONS = ["result ≡ x", "self.new ≡ self.old ++ (text_of (λ x. x ≡ 1) x.now)", "to.new ≡ record {at = x → y}"]
NO_EQUATIONS = [
    "result ≡ next_of result",
    "self.new ≡ self.old ++ other.new",
    "result ≡ true ↔ x ≡ 1",
    "result ≡ x × y",
    "result.left ≡ x",
    "(result ≡ x) × (self.new ≡ y)",
    "x ≡ 1 → result ≡ x",
    "IfOk result (λ number. number ≡ x)",
    "IsRight x result",
]


def self_check() -> str | None:
    """What is found wrong in a made-up file, if it is not what is wrong there, or which clause is taken for an equation
    or for none; or None."""
    told = {"clamped": "a number within bounds", "untold": ""}
    found = [
        fault for function in functions(MADE_UP) for fault in faults(function, lambda definition: told[definition[2]])
    ]
    if found != FOUND_WRONG:
        return "\n".join(["of a made-up file was found:", *found])
    mistaken = [text for text in EQUATIONS + NO_EQUATIONS if is_equation(text) != (text in EQUATIONS)]
    return "\n".join(["these are taken for equations, or for none:", *mistaken]) if mistaken else None


if __name__ == "__main__":
    if wrong := self_check() or "\n".join(refused()):
        sys.exit(wrong)
    sys.exit(made.run(sys.argv[1:], __doc__, documents(), "src/", PAGES))
