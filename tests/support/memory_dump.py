"""The memory of a process that is stopped, as a file of its pages one after the other (Linux)."""

from __future__ import annotations

import os
import pathlib
import signal
import subprocess
import sys
from collections.abc import Iterator
from typing import Any

Process = subprocess.Popen[Any]


NOT_ALLOWED = "no program may read another's memory here"


def can_read() -> bool:
    """Whether the memory of a child may be read here."""
    with subprocess.Popen([sys.executable, "-c", "import time; time.sleep(60)"]) as running:
        try:
            stop(running)
            write(running, os.devnull)
            return True
        except (OSError, ValueError):
            return False
        finally:
            running.kill()


def stop(process: Process) -> None:
    """Stops all threads of a child; returns when they have stopped."""
    os.kill(process.pid, signal.SIGSTOP)
    _, status = os.waitpid(process.pid, os.WUNTRACED)
    if not os.WIFSTOPPED(status):
        raise ChildProcessError(f"it ended, with status {status}")


def go_on(process: Process) -> None:
    os.kill(process.pid, signal.SIGCONT)


def writable(process: Process) -> Iterator[tuple[int, int]]:
    """The ranges of a process's own memory that it may write, but for what is mapped from files."""
    with open(f"/proc/{process.pid}/maps", encoding="ascii", errors="replace") as lines:
        for line in lines:
            ends, rights, _, _, file, *_ = line.split()
            if rights.startswith("rw") and file == "0":
                start, end = ends.split("-")
                yield int(start, 16), int(end, 16)


def write(process: Process, path: str | pathlib.Path) -> None:
    """Writes the memory of a stopped process to a file; each range begins at a multiple of a page there too."""
    with open(f"/proc/{process.pid}/mem", "rb", buffering=0) as memory, open(path, "wb") as dump:
        for start, end in writable(process):
            memory.seek(start)
            dump.write(memory.read(end - start))
