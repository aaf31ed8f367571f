"""What a page of `show --html` says, read by Python's own readers of HTML and XML, and what is wrong with its form."""

from __future__ import annotations

import dataclasses
import html.parser
import re
import xml.etree.ElementTree
from collections.abc import Iterable
from typing import Optional

Attributes = list[tuple[str, Optional[str]]]
VOID = {"meta"}
# What would bring something in from elsewhere, or run.
FOREIGN_TAGS = {"script", "link", "img", "iframe", "object", "embed", "base", "use", "image"}
FOREIGN_STYLE = re.compile(r"url\(|@import|@font-face", re.IGNORECASE)


class Reader(html.parser.HTMLParser):
    """Gathers the lines of a page: of its head, of each title, paragraph, row and footer; and the links, the places and
    the widths of bars."""

    LINES = {"h1", "h2", "p", "tr", "footer"}

    def __init__(self) -> None:
        super().__init__(convert_charrefs=True)
        self.open: list[str] = []
        self.wrong: str | None = None
        self.lines: list[str] = []
        self.text: str | None = None
        self.is_heading = False
        self.links: list[list[str | None]] = []
        self.places: list[str | None] = []
        self.widths: list[int] = []

    def fail(self, why: str) -> None:
        self.wrong = self.wrong or why

    def handle_starttag(self, tag: str, attributes: Attributes) -> None:
        given = dict(attributes)
        if len(given) != len(attributes):
            self.fail(f"an attribute stands twice in <{tag}>")
        for name, value in attributes:
            if name.startswith("on") or name == "src" or (name == "href" and not (value or "").startswith("#")):
                self.fail(f"<{tag}> has {name}={value}")
        if tag in FOREIGN_TAGS:
            self.fail(f"there is a <{tag}>")
        if tag in self.LINES:
            self.text, self.is_heading = "", False
        self.is_heading = self.is_heading or tag == "th"
        if tag == "a":
            self.links.append([given.get("href"), ""])
        if tag == "section":
            self.places.append(given.get("id"))
        if tag == "rect":
            self.widths.append(int(given["width"] or 0))
        if tag not in VOID:
            self.open.append(tag)

    def handle_startendtag(self, tag: str, attributes: Attributes) -> None:
        self.handle_starttag(tag, attributes)
        if tag not in VOID:
            self.handle_endtag(tag)

    def handle_endtag(self, tag: str) -> None:
        if not self.open or self.open.pop() != tag:
            self.fail(f"</{tag}> ends nothing that is open")
        if tag == "td" and self.text is not None:
            self.text += " "
        if tag in self.LINES and self.text is not None:
            if not self.is_heading:
                self.lines += self.text.split("\n")
            self.text = None

    def handle_data(self, data: str) -> None:
        if self.text is not None:
            self.text += data
        if self.open and self.open[-1] == "a":
            self.links[-1][1] = (self.links[-1][1] or "") + data
        if self.open and self.open[-1] == "style" and FOREIGN_STYLE.search(data):
            self.fail("the style brings something in")

    def unknown_decl(self, data: str) -> None:
        self.fail(f"there is a declaration {data[:40]!r}")

    def handle_comment(self, data: str) -> None:
        self.fail(f"there is a comment {data[:40]!r}")


@dataclasses.dataclass
class Page:
    """What a page says: its lines, the names and places that its list leads to, its places, and the widths
    of its bars."""

    lines: list[list[str]]
    links: list[tuple[str | None, ...]]
    places: list[str | None]
    widths: list[int]


def words_of(lines: Iterable[str]) -> list[list[str]]:
    """Lines as their words; those without any count for nothing."""
    return [words for words in (line.split() for line in lines) if words]


def read(data: bytes) -> tuple[Page | None, str | None]:
    """The page, and what is wrong with its form or None."""
    reader = Reader()
    try:
        text = data.decode("utf-8")
        reader.feed(text)
        reader.close()
        xml.etree.ElementTree.fromstring(text)
    except (UnicodeDecodeError, xml.etree.ElementTree.ParseError) as error:
        return None, f"it is not well formed: {error}"
    if reader.open:
        reader.fail(f"<{reader.open[-1]}> is left open")
    if not text.startswith("<!DOCTYPE html>\n"):
        reader.fail("it does not begin as HTML")
    return (
        Page(words_of(reader.lines), [tuple(link) for link in reader.links], reader.places, reader.widths),
        reader.wrong,
    )
