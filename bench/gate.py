#!/usr/bin/env python3
"""Runs the merge gate and reports what it takes, crate by crate: for proofs, for tests and for edits.

    bench/gate.py
    bench/gate.py --proofs FILE

The steps are those of .ci/run: 'rt ci', and then tests/run. It prints what they print, and then what docs/TESTING.md
has at its end: the date and the machine, minutes of processor time (user and system), and a table with a line for each
crate, in which the last column is the most memory that its checks had at a time. The first edit of a crate pays for a
check of all of it.

The processes of 'rt ci' are looked at twice a second; what ended between two looks is reported as being in no line of
the table. The status is 1 if a step failed. Run it on a clean clone, on a machine that does nothing else.

The same proof takes up to four times as much at one hour as at another, so 'rt ci' is also compared with what the
proofs of a few crates, the yardstick, took in the same run: that ratio is the figure to compare from day to day.

With --proofs it runs 'rt ci' alone, and writes what that took to FILE. This is how each run of .ci/run reports what it
takes.
"""

from __future__ import annotations

import collections
import contextlib
import datetime
import os
import pathlib
import platform
import resource
import subprocess
import sys
import tempfile
import textwrap
import time
from collections.abc import Iterator, Sequence

ROOT = pathlib.Path(__file__).resolve().parent.parent
PARTS = ["proofs", "tests", "edits"]
SECONDS_BETWEEN = 0.5
TICKS = 100
GIBIBYTE = 2**30

MARKS = ROOT / "tests" / "support" / "marks.py"
LANES = ROOT / "tests" / "support" / "lanes.py"
WIDTH = 120
MOST_EDITS = 10
# The crates whose proofs are the yardstick.
YARDSTICK = ("segment_image", "bucket_ranges", "image_reader", "hist_core", "live_segment")

# A crate and a part of the gate; the number of a process, and when it began; a check: its crate, part and folder.
Task = tuple[str, str]
Process = tuple[int, int]
Check = tuple[str, str, pathlib.Path]


class Costs:
    """What the processes of the gate have taken so far: seconds by process, and the most bytes at one look."""

    def __init__(self) -> None:
        self.seconds: dict[Task, dict[Process, float]] = collections.defaultdict(dict)
        self.rooms: dict[Task, dict[pathlib.Path, dict[Process, float]]] = collections.defaultdict(dict)
        self.most: collections.Counter[Task] = collections.Counter()
        self.most_together = 0

    def look(self, gate: int) -> None:
        """Looks once at all processes that the gate has started."""
        tasks = {pid: task for pid, task in tasks_below(gate) if task is not None}
        held: collections.Counter[Task] = collections.Counter()
        for pid, task in tasks.items():
            try:
                seconds, size, started = taken_by(pid)
            except OSError:
                continue
            crate, part, room = task
            self.seconds[crate, part][pid, started] = seconds
            self.rooms[crate, part].setdefault(room, {})[pid, started] = seconds
            held[crate, part] += size
        for one, size in held.items():
            self.most[one] = max(self.most[one], size)
        self.most_together = max(self.most_together, sum(held.values()))

    def minutes(self, task: Task) -> float:
        return sum(self.seconds[task].values()) / 60

    def yardsticks(self, minutes: float) -> str:
        """How many times what the proofs of the yardstick took these minutes are, as a sentence says it. Where a kit
        keeps what passed, their proofs need not be in this run."""
        yardstick = sum(self.minutes((crate, "proofs")) for crate in YARDSTICK)
        if not yardstick:
            return "the yardstick was not proved in this run"
        return f"that is {minutes / yardstick:.1f} times the yardstick of {yardstick:.1f} minutes"

    def edits(self) -> Iterator[tuple[float, str]]:
        """The seconds of each edit by its crate and name: a crate's edits are tried in the order of their names, each
        in a room of its own."""
        for crate, part in list(self.rooms):
            names = sorted(path.stem for path in ROOT.glob(f"crates/{crate}/must-fail/*.edit"))
            if part == "edits":
                for name, room in zip(names, self.rooms[crate, part].values()):
                    yield sum(room.values()), f"{crate}/{name}"


def children() -> dict[int, list[int]]:
    """The processes of the system by the one that started them."""
    found: dict[int, list[int]] = collections.defaultdict(list)
    for path in pathlib.Path("/proc").glob("[0-9]*/stat"):
        try:
            fields = path.read_text().rpartition(")")[2].split()
        except OSError:
            continue
        found[int(fields[1])].append(int(path.parent.name))
    return found


def tasks_below(gate: int) -> Iterator[tuple[int, Check | None]]:
    """Each process below the gate, with its crate and its part of the gate, or None if it is no check."""
    below = children()
    left: list[tuple[int, Check | None]] = [(gate, None)]
    while left:
        pid, task = left.pop()
        task = task_of(pid) or task
        yield pid, task
        left += [(child, task) for child in below[pid]]


def task_of(pid: int) -> Check | None:
    """The crate that a process checks, for which part, and in which folder: an edit is checked on a copy, outside the
    repository."""
    process = pathlib.Path("/proc") / str(pid)
    try:
        words = process.joinpath("cmdline").read_bytes().decode(errors="replace").split("\0")
        folder = process.joinpath("cwd").resolve()
    except OSError:
        return None
    if "--crate-name" not in words:
        return None
    part = "edits" if not folder.is_relative_to(ROOT) else "tests" if "--test" in words else "proofs"
    return words[words.index("--crate-name") + 1], part, folder


def taken_by(pid: int) -> tuple[float, int, int]:
    """A process's seconds of processor time, its bytes, and when it was started."""
    fields = pathlib.Path(f"/proc/{pid}/stat").read_text().rpartition(")")[2].split()
    user, system, started, pages = (int(fields[at]) for at in (11, 12, 19, 21))
    return (user + system) / TICKS, pages * resource.getpagesize(), started


def machine() -> str:
    """The processor, how many of them there are, and the memory."""
    about = pathlib.Path("/proc/cpuinfo").read_text().splitlines()
    models = (line.partition(": ")[2] for line in about if line.startswith("model name"))
    memory = os.sysconf("SC_PHYS_PAGES") * resource.getpagesize() / GIBIBYTE
    return f"{next(models, platform.machine())}, {os.cpu_count()} processors, {memory:.0f} GiB"


def table(costs: Costs) -> Iterator[str]:
    """A line for each crate, the dearest first."""
    crates: dict[str, float] = collections.defaultdict(float)
    for crate, part in list(costs.seconds):
        crates[crate] += costs.minutes((crate, part))
    yield f"| Crate | {' | '.join(PARTS)} | all, min | most GiB |"
    yield "|---|" + "--:|" * (len(PARTS) + 2)
    for crate, minutes in sorted(crates.items(), key=lambda one: -one[1]):
        parts = " | ".join(f"{costs.minutes((crate, part)):.1f}" for part in PARTS)
        most = max(costs.most[crate, part] for part in PARTS) / GIBIBYTE
        yield f"| `{crate}` | {parts} | {minutes:.1f} | {most:.1f} |"
    sums = " | ".join(f"{sum(costs.minutes((crate, part)) for crate in crates):.1f}" for part in PARTS)
    yield f"| all | {sums} | {sum(crates.values()):.1f} | {costs.most_together / GIBIBYTE:.1f} |"


def processor_minutes() -> float:
    """What the processes that have ended have taken."""
    whole = resource.getrusage(resource.RUSAGE_CHILDREN)
    return (whole.ru_utime + whole.ru_stime) / 60


def watched(words: Sequence[str], costs: Costs) -> int:
    """The status of a command whose processes are looked at."""
    running = subprocess.Popen(words, cwd=ROOT, stdin=subprocess.DEVNULL)
    while running.poll() is None:
        # A process that ends meanwhile is not there any more.
        with contextlib.suppress(OSError, ValueError, IndexError):
            costs.look(running.pid)
        time.sleep(SECONDS_BETWEEN)
    return running.returncode


def taken(start: float, before: float) -> str:
    """What was taken since the moment `start`, when processes had taken `before` minutes."""
    by_clock = (time.monotonic() - start) / 60
    return f"{processor_minutes() - before:.1f} minutes of processor time, {by_clock:.1f} by the clock"


def prove() -> tuple[int, Costs, str]:
    """Runs 'rt ci': its status, what it took by crate, and a sentence of what it took in all."""
    costs, start, before = Costs(), time.monotonic(), processor_minutes()
    os.environ.setdefault("RT_JOBS", subprocess.check_output([sys.executable, LANES], text=True).strip())
    failed = watched(["rt", "ci"], costs)
    in_lines = sum(sum(ones.values()) for ones in costs.seconds.values()) / 60
    rest = processor_minutes() - before - in_lines
    all_in_all = f"`rt ci` took {taken(start, before)}, {os.environ['RT_JOBS']} checks at a time"
    ratio = costs.yardsticks(processor_minutes() - before)
    return failed, costs, f"{all_in_all}; {ratio}; {rest:.1f} minutes are in no line"


def report(costs: Costs, *sentences: str) -> str:
    """The date, the machine, the sentences, and what each crate took."""
    today = datetime.date.today()
    head = f"{today.day} {today:%B %Y}, {machine()}: {'. '.join(sentences)}."
    dearest = ", ".join(f"`{edit}` {seconds:.0f}" for seconds, edit in sorted(costs.edits(), reverse=True)[:MOST_EDITS])
    end = textwrap.fill(f"The dearest edits, in seconds: {dearest or 'none'}.", WIDTH, break_on_hyphens=False)
    return "\n".join([*textwrap.wrap(head, WIDTH, break_on_hyphens=False), "", *table(costs), "", end])


def main(words: Sequence[str]) -> int:
    if len(words) == 2 and words[0] == "--proofs":
        failed, costs, proofs = prove()
        pathlib.Path(words[1]).write_text(report(costs, proofs) + "\n", encoding="utf-8")
        return 1 if failed else 0
    if words:
        sys.exit(__doc__)
    with tempfile.NamedTemporaryFile() as sums:
        subprocess.run([sys.executable, MARKS, "note", sums.name], check=True)
        failed, costs, proofs = prove()
        tests = "tests/run was not begun"
        if not failed:
            subprocess.run([sys.executable, MARKS, "keep", sums.name], check=True)
            start, before = time.monotonic(), processor_minutes()
            failed = subprocess.run(["tests/run"], cwd=ROOT).returncode
            tests = f"`tests/run` took {taken(start, before)}"
    print("\n" + report(costs, proofs, tests))
    return 1 if failed else 0


if __name__ == "__main__":
    sys.exit(main(sys.argv[1:]))
