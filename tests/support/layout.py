"""The layout of a segment, as docs/FORMAT.md has it, and words of a segment that are filled from the front."""

from __future__ import annotations

import array
import builtins
import sys
from collections.abc import Collection, Iterable, Mapping

SEGMENT_COOKIE = 0x408305DC
# Its bytes, with which an image begins.
COOKIE_BYTES = SEGMENT_COOKIE.to_bytes(8, "little")
MOST_WORDS = 1_048_576
MOST_BYTES = 8 * MOST_WORDS
# The largest page, and how large pages may be.
PAGE = 65_536
PAGES = range(64, PAGE + 1, 16)
# The words of the header that stay, those that recorders change, and where the first block may begin.
VERSION, ID, STATE = 1, 4, 5
FLAGS, FREE, TAIL, QUEUE, FIRST = 6, 7, 8, 12, 16
CORRUPT, FULL = 1, 2
VERSION_MOVING, VERSION_FROZEN = 1, 2

# A block: its size, its cookie, its type and the next on the list; after these its payload.
SIZE, COOKIE, TYPE, NEXT, BLOCK_HEADER = 0, 1, 2, 3, 4
BLOCK_LEAST = 5
BLOCK_COOKIE, WASTED = 0xC8799269, 2**64 - 1
PURGED, HISTOGRAM, COUNTS, SAMPLE = 0, 1, 2, 3

# Words of a histogram's record, from its number of buckets on, and the fewest that it has; and those of a sample's.
HIST_BUCKETS, HIST_COUNTS, SINGLE, SINGLE_MARK, SUM, SUM_MARK, REDUNDANT, LENGTH, NAME = 7, 8, 9, 10, 11, 12, 13, 14, 15
LEAST_HISTOGRAM = 16
SAMPLE_COUNT, SAMPLE_MARK, LEAST_SAMPLE = 6, 7, 8

# A histogram's kinds, and the ends of what its words may hold.
LINEAR, BOOLEAN, CUSTOM, SPARSE = 1, 2, 3, 4
TOP = 2**63
# The most units of a single word, and what stands there for its bucket if it has none.
MOST_PACKED = NO_BUCKET = 65_535
NOTHING_PACKED, FROZEN = TOP + NO_BUCKET, TOP
LEAST, GREATEST = -(2**31), 2**31 - 1
MOST_UNITS = 2**32 - 1
MOST_SUM = 2**31 * MOST_UNITS
MOST_BUCKETS = 1000
WORD = 2**64

# A block: its reference, size, type and payload.
Listed = tuple[int, int, int, Iterable[int]]


class Words:
    """The words of a segment, claimed from the front, and its list."""

    def __init__(self, size: int, page: int, version: int = 1, flags: int = 0, segment_id: int = 7) -> None:
        self.page = page
        self.words = array.array("Q", bytes(8 * size))
        self.free = FIRST
        self.tail = QUEUE
        self.store(0, SEGMENT_COOKIE, version, size, page, segment_id, 1, flags, FIRST, QUEUE)
        self.store(QUEUE, BLOCK_HEADER, 1, 0, QUEUE)

    def store(self, at: int, *words: int) -> None:
        """Stores those of the words that lie in the segment."""
        kept = words[: max(0, len(self.words) - at)]
        self.words[at : at + len(kept)] = array.array("Q", [word % WORD for word in kept])

    def room(self) -> int:
        """The words from the free pointer to the end of its page."""
        return self.page - self.free % self.page

    def block(self, size: int, tag: int) -> int | None:
        """A new block of `size` words or up to four more, or None if it does not fit."""
        if self.free + size > len(self.words) or size > self.page:
            return None
        if size > self.room():
            self.store(self.free, self.room(), WASTED)
            self.free += self.room()
            return self.block(size, tag)
        claimed = self.room() if self.room() - size < BLOCK_LEAST else size
        at = self.free
        self.store(at, claimed, BLOCK_COOKIE, tag)
        self.free += claimed
        return at

    def publish(self, at: int) -> None:
        """Links a block after the last one of the list."""
        self.store(self.tail + NEXT, at)
        self.store(at + NEXT, QUEUE)
        self.tail = at

    def bytes(self) -> builtins.bytes:
        """The bytes of the image."""
        self.store(FREE, self.free, self.tail)
        return data_of(self.words)


def image_of(size: int, version: int, listed: Collection[Listed], others: Iterable[Listed] = ()) -> bytes:
    """The bytes of a full image whose list has these blocks, each its reference, size, type and payload, and which has
    others."""
    image = Words(size, PAGE, version)
    for at, words, tag, payload in [*listed, *others]:
        image.store(at, words, BLOCK_COOKIE, tag, 0, *payload)
    for at, *_ in listed:
        image.publish(at)
    image.free = size
    return image.bytes()


def data_of(words: Iterable[int]) -> bytes:
    """The bytes of words, the least of each first."""
    stored = array.array("Q", words)
    if sys.byteorder == "big":
        stored.byteswap()
    return stored.tobytes()


def with_words(data: bytes, *changes: Mapping[int, int]) -> bytes:
    """An image with other words at these places."""
    words = words_of(data)
    for stored in changes:
        for at, word in stored.items():
            words[at] = word % WORD
    return data_of(words)


def words_of(data: bytes) -> array.array[int]:
    """The words whose bytes these are."""
    words = array.array("Q", data)
    if sys.byteorder == "big":
        words.byteswap()
    return words
