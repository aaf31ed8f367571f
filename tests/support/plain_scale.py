"""The values of a scale: a plain calculation over a set, independent of the program."""

from __future__ import annotations

GREATEST = 2_147_483_646
MOST_VALUES = 999
MOST_BITS = 8


def numbers(bits: int) -> list[int]:
    """All numbers m * 2^e of 32 bits with m below 2^(bits + 1), ascending."""
    return sorted({m << e for e in range(32) for m in range(1 << (bits + 1)) if m << e < 1 << 32})


def fault_of(least: int, most: int, bits: int) -> str | None:
    """The first fault of a scale, or None."""
    if least == 0:
        return "BadMin"
    if most <= least or most > GREATEST:
        return "BadMax"
    if bits == 0:
        return "TooFew"
    if bits > MOST_BITS or len(values(least, most, bits)) > MOST_VALUES:
        return "TooMany"
    return None


def values(least: int, most: int, bits: int) -> list[int]:
    """The values of a scale: the numbers from the least on, up to the first at or above the most, or up to that."""
    known = numbers(bits)
    last = next(number for number in known if number >= most)
    if last > GREATEST:
        last = most
    return sorted({number for number in known if least <= number <= last} | {last})
