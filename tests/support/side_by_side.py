"""Runs commands side by side, and prints what each said when it has ended.

Some take the machine for themselves, some much memory, and some wait for another one: `Rules` says which.
"""

from __future__ import annotations

import dataclasses
import subprocess
import tempfile
import time
from collections.abc import Collection, Iterator, Mapping, Sequence
from typing import IO

SECONDS_BETWEEN = 0.05


@dataclasses.dataclass(frozen=True)
class Rules:
    """Which commands may run beside which, by their names."""

    # While one of these runs, no other command does.
    alone: Collection[str] = ()
    # Of these, so many run at a time.
    large: Collection[str] = ()
    large_at_once: int = 1
    # These wait until the command `first` has ended.
    after: Collection[str] = ()
    first: str = ""

    def may_begin(self, name: str, running: Collection[str], waiting: Collection[str]) -> bool:
        """Whether a command may begin beside those that run, while these have not begun."""
        if running and (name in self.alone or any(one in self.alone for one in running)):
            return False
        if name in self.large and sum(one in self.large for one in running) >= self.large_at_once:
            return False
        return name not in self.after or self.first not in {*running, *waiting}


@dataclasses.dataclass
class Ended:
    """A command that has ended: what it said to both streams, its status, and how long it took."""

    name: str
    said: str
    status: int
    seconds: float


@dataclasses.dataclass
class Running:
    """A command that runs, and the file that it writes to."""

    process: subprocess.Popen[bytes]
    said: IO[bytes]
    began: float

    @classmethod
    def begun(cls, words: Sequence[str]) -> Running:
        said = tempfile.TemporaryFile()
        process = subprocess.Popen(words, stdin=subprocess.DEVNULL, stdout=said, stderr=subprocess.STDOUT)
        return cls(process, said, time.monotonic())

    def ended(self, name: str) -> Ended:
        """What came of it."""
        with self.said:
            self.said.seek(0)
            text = self.said.read().decode(errors="replace")
        return Ended(name, text, self.process.returncode, time.monotonic() - self.began)


def ended(commands: Mapping[str, Sequence[str]], jobs: int, rules: Rules) -> Iterator[Ended]:
    """Runs all of these commands, `jobs` at a time, each begun in their order as soon as the rules let it: each as it
    ends. Those that run alone come last. What still runs when the caller stops is terminated."""
    waiting = sorted(commands, key=lambda name: name in rules.alone)
    running: dict[str, Running] = {}
    try:
        while waiting or running:
            for name in [name for name in running if running[name].process.poll() is not None]:
                yield running.pop(name).ended(name)
            able = [name for name in waiting if rules.may_begin(name, running, waiting)]
            if able and len(running) < jobs:
                waiting.remove(able[0])
                running[able[0]] = Running.begun(commands[able[0]])
            else:
                time.sleep(SECONDS_BETWEEN)
    finally:
        for one in running.values():
            one.process.terminate()
            one.process.wait()
