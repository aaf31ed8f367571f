"""What the program of README.md records: the times of a thread that sleeps a hundred times for a millisecond. A sleep
may take longer, and takes no less; and all of them together take no longer than the runs of the program."""

from __future__ import annotations

import re

NAME = "request_us{route=/cart}"
# How many times are in one run, and of how many microseconds each is at least.
UNITS, LEAST = 100, 1000
ROW = re.compile(rf"^{re.escape(NAME)},custom,(\d+),(\d+),(\d+)$", re.MULTILINE)
TOTAL = re.compile(rf"^{re.escape(NAME)},total,(\d+),(\d+)$", re.MULTILINE)


def wrong(report: str, runs: int, most_seconds: float) -> str | None:
    """What is wrong with the report of a folder after so many runs, which took at most so many seconds together; or
    None."""
    rows = [tuple(map(int, row)) for row in ROW.findall(report)]
    totals = TOTAL.findall(report)
    if len(totals) != 1 or report.count("\n") != len(rows) + 1:
        return f"it has other lines: {report[-1000:]}"
    units, total = map(int, totals[0])
    if units != runs * UNITS or sum(count for _, _, count in rows) != units:
        return f"{units} units, and {runs * UNITS} are wanted: {report[-1000:]}"
    if not runs * UNITS * LEAST <= total <= 1e6 * most_seconds:
        return f"the sum is {total}, of {runs} runs that took {most_seconds} seconds"
    short = [row for row in rows if row[1] <= LEAST]
    return f"they are too short: {short}" if short else None


def let_through() -> str | None:
    """Which wrong reports are taken, or None: of other times, of another number of them, or of another name."""
    right = f"{NAME},custom,992,1008,1\n{NAME},custom,1024,1056,99\n{NAME},total,100,103000\n"
    changed = {
        "nothing is changed": (right, 1, 1.0),
        "a unit less": (right.replace(",1056,99", ",1056,98"), 1, 1.0),
        "a sum that is too small": (right.replace(",103000", ",99999"), 1, 1.0),
        "a time that is too short": (right.replace(",992,1008,1", ",976,992,1"), 1, 1.0),
        "another label": (right.replace("/cart", "/item"), 1, 1.0),
        "another histogram": (f"{right}a,total,0,0\n", 1, 1.0),
        "another run": (right, 2, 1.0),
        "shorter runs": (right, 1, 0.1),
    }
    taken = [name for name, (report, runs, seconds) in changed.items() if wrong(report, runs, seconds) is None]
    return None if taken == ["nothing is changed"] else f"taken are {taken}"
