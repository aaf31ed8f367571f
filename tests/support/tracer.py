"""Runs a program so that chosen calls of it to the system fail, or so that it is killed at one (Linux on x86-64).

The program is traced (ptrace): each call to the system stops it when the call begins and when it ends. A call that is
to fail is not made, and the program is given an error in its place. Nor is one made at which the program is killed.
"""

from __future__ import annotations

import ctypes
import dataclasses
import errno
import os
import platform
import signal
import subprocess
import sys
import tempfile
import typing
from collections.abc import Iterable

from support.program import Answer, Path, Word

LIBC = ctypes.CDLL(None, use_errno=True)
LIBC.ptrace.restype = ctypes.c_long
LIBC.ptrace.argtypes = [ctypes.c_long, ctypes.c_long, ctypes.c_void_p, ctypes.c_void_p]
TRACE_ME, POKE_USER, GO_ON, SET_OPTIONS, CALL_INFO = 0, 6, 24, 0x4200, 0x420E
STOP_AT_CALLS, FOLLOW_THREADS, END_WITH_US = 1, 8, 0x100000
AT_CALL = signal.SIGTRAP | 0x80
ALL_CHILDREN = 0x40000000
BEGINS = 1

# Where a thread's registers lie: the result of a call, its third and first argument, its number.
RESULT, THIRD, FIRST, NUMBER = 8 * 10, 8 * 12, 8 * 14, 8 * 15
NO_CALL = 2**64 - 1

READ, WRITE, CLOSE, MAP, BREAK, REMAP, CLONE, CLONE_3, EXIT = 0, 1, 3, 9, 12, 25, 56, 435, 231
GROWTHS = (MAP, BREAK, REMAP)
# The C library asks the system for each allocation by itself, and keeps none for threads.
EACH_BY_ITSELF = {"MALLOC_MMAP_THRESHOLD_": "0", "MALLOC_TOP_PAD_": "0", "MALLOC_ARENA_MAX": "1"}
LOCK, SYNC, CHANGE_MODE, OPEN_AT, RANDOM = 73, 74, 91, 257, 318
RENAMES = (82, 264, 316)
OUTPUT = "standard output"
NOT_ALLOWED = "no program may be traced here"
# Registers, each with its value.
Registers = list[tuple[int, int]]


class Call(ctypes.Structure):
    """What the system reports of a call when it begins."""

    _fields_ = [
        ("kind", ctypes.c_uint8),
        ("machine", ctypes.c_uint32),
        ("instruction", ctypes.c_uint64),
        ("stack", ctypes.c_uint64),
        ("number", ctypes.c_uint64),
        ("arguments", ctypes.c_uint64 * 6),
    ]


@dataclasses.dataclass
class Fault:
    """Which calls fail: of those with these numbers, on these files and those in these folders alone if any are named,
    the one at `at`, from 0; and all after it, if it is `lasting`; or those after it up to the thread's next call of
    another number, if it is one `growth`, for which the C library asks more than once. With `kills` the program is
    killed there instead. With `most`, each read and write of them moves at most that many bytes instead.
    """

    numbers: tuple[int, ...]
    files: tuple[str, ...] = ()
    at: int = -1
    lasting: bool = False
    growth: bool = False
    error: int = errno.EIO
    most: int = 0
    kills: bool = False
    met: int = 0
    refused: typing.Optional[int] = None

    def is_meant(self, thread: int, call: Call) -> bool:
        if call.number not in self.numbers or not self.files:
            return call.number in self.numbers
        path = file_of(thread, call.arguments[0])
        return path is not None and (path in self.files or os.path.dirname(path) in self.files)

    def pass_by(self, thread: int) -> None:
        """Handles a thread's call that is not meant."""
        if thread == self.refused:
            self.refused = None

    def fails_next(self, thread: int) -> bool:
        """Counts a call of a thread; whether it fails."""
        if thread == self.refused:
            return True
        self.met += 1
        place = self.met - 1
        fails = self.at >= 0 and (place >= self.at if self.lasting else place == self.at)
        if fails and self.growth:
            self.refused = thread
        return fails


def file_of(thread: int, descriptor: int) -> str | None:
    """The path of an open file, or None."""
    if descriptor == 1:
        return OUTPUT
    try:
        return os.readlink(f"/proc/{thread}/fd/{descriptor}")
    except OSError:
        return None


def ptrace(request: int, thread: int, address: int = 0, data: int = 0) -> None:
    if LIBC.ptrace(request, thread, address, data) < 0:
        raise OSError(ctypes.get_errno(), f"ptrace {request}")


def begin(thread: int, call: Call, fault: Fault) -> Registers:
    """Handles a call that begins; returns the registers that are to be set when it ends, each with its value."""
    if not fault.is_meant(thread, call):
        fault.pass_by(thread)
        return []
    if fault.most:
        ptrace(POKE_USER, thread, THIRD, min(fault.most, call.arguments[2]))
        return [(THIRD, call.arguments[2])]
    if not fault.fails_next(thread):
        return []
    if fault.kills:
        os.kill(thread, signal.SIGKILL)
        return []
    if call.number == BREAK:
        # It has no error: if it can't move the end of the data it says where that is, as it does when asked for 0.
        ptrace(POKE_USER, thread, FIRST, 0)
        return [(FIRST, call.arguments[0])]
    ptrace(POKE_USER, thread, NUMBER, NO_CALL)
    return [(RESULT, 2**64 - fault.error)]


def meet(thread: int, fault: Fault, to_set: dict[int, Registers]) -> None:
    """Handles a thread that was stopped at a call, when that begins or ends. `to_set` has what is to be set at its end,
    by thread."""
    call = Call()
    ptrace(CALL_INFO, thread, ctypes.sizeof(call), ctypes.addressof(call))
    if call.kind == BEGINS:
        to_set[thread] = begin(thread, call, fault)
    else:
        for register, value in to_set.pop(thread, []):
            ptrace(POKE_USER, thread, register, value)


def next_stop(first: int) -> tuple[int | None, int]:
    """The next thread that stops and why, or None and the program's status if it has ended."""
    while True:
        thread, status = os.waitpid(-1, ALL_CHILDREN)
        if os.WIFSTOPPED(status):
            return thread, status
        if thread == first:
            return None, os.waitstatus_to_exitcode(status)


def follow(first: int, fault: Fault) -> int:
    """Follows a program from its beginning to its end; its status, of a signal the number with a minus."""
    to_set: dict[int, Registers] = {}
    stopped, signal_given = first, 0
    while True:
        try:
            ptrace(GO_ON, stopped, 0, signal_given)
        except ProcessLookupError:
            pass  # another thread has ended the program
        thread, status = next_stop(first)
        if thread is None:
            return status
        stopped, reason = thread, status >> 8
        if reason == AT_CALL:
            meet(stopped, fault, to_set)
        signal_given = (
            reason if reason not in (AT_CALL, signal.SIGSTOP) and reason < 0x80 and reason != signal.SIGTRAP else 0
        )


def answer(program: Path, words: Iterable[Word], fault: Fault, **settings: typing.Any) -> Answer:
    """What the program returns if calls fail."""
    with tempfile.TemporaryFile() as output, tempfile.TemporaryFile() as error:
        streams: dict[str, typing.Any] = {"stdin": subprocess.DEVNULL, "stdout": output, "stderr": error}
        running = subprocess.Popen([program, *words], preexec_fn=lambda: ptrace(TRACE_ME, 0), **streams, **settings)
        os.waitpid(running.pid, 0)
        ptrace(SET_OPTIONS, running.pid, 0, STOP_AT_CALLS | FOLLOW_THREADS | END_WITH_US)
        running.returncode = follow(running.pid, fault)
        output.seek(0)
        error.seek(0)
        return Answer(output.read(), error.read(), running.returncode)


def can_trace() -> bool:
    """Whether programs may be traced here."""
    if platform.system() != "Linux" or platform.machine() != "x86_64":
        return False
    try:
        return answer(sys.executable, ["-c", ""], Fault(())).status == 0
    except (OSError, subprocess.SubprocessError):
        return False
