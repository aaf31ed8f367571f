"""Runs one command line in a folder that is laid out anew, and says what came: the bytes of its two streams, its
status, and all that the folder then has.

What may differ between two runs of one program is masked: the line of the time before a text that is written again
(`--every` without `--to`), the sixteen digits in the name of a new file that a command leaves, and where the blocks of
an image are that several workers recorded: of that the sum is compared that a plain reader reads, and the header.
"""

from __future__ import annotations

import contextlib
import dataclasses
import fcntl
import os
import pathlib
import pty
import re
import signal
import stat
import subprocess
import threading
import time
from collections.abc import Iterator
from typing import IO, Any, NamedTuple, Optional, Union

from by_hand import rooms
from by_hand.lines import CLOSED, FULL, NO_READER, TERMINAL, Change, Line
from support import layout, plain_sums

# The environment of each line, which has nothing else but what the line sets.
ENVIRONMENT = {"COLUMNS": "80", "TERM": "dumb", "TZ": "UTC", "LC_ALL": "C", "PATH": os.environ.get("PATH", "")}
# How long a line may take, how often rounds are looked at, how far apart they are, and how often a line is run again
# whose changes came too late.
MOST_SECONDS, BETWEEN_LOOKS, BETWEEN_ROUNDS, MOST_TRIES = 120, 0.005, 1, 10
END_OF_INPUT = b"\x04"
TIME = re.compile(rb"\d{4}-\d\d-\d\dT\d\d:\d\d:\d\dZ\n")
NEW_FILE = re.compile(rb"\.persist_report-(?!0123456789abcdef)[0-9a-f]{16}")
MASKED_TIME, MASKED_FILE = b"(the time)\n", b".persist_report-(digits)"
CLOSING = {0: "<&-", 1: ">&-", 2: "2>&-"}


class File(NamedTuple):
    """What is at a path: its kind, its permissions, its bytes or where it leads to, and whether it is the file that was
    laid there, and not a new one in its place."""

    kind: str
    mode: int
    content: bytes
    is_old: bool


@dataclasses.dataclass
class Outcome:
    """What came of a line. The status is that of the program, of a signal with a minus; None if it did not end in time.
    What was written to a terminal counts as output."""

    output: bytes
    error: bytes
    status: Optional[int]
    files: dict[str, File]


@dataclasses.dataclass
class Place:
    """The folder of a line, as it was laid out, and the number of each file."""

    folder: pathlib.Path
    line: Line
    numbers: dict[str, int] = dataclasses.field(default_factory=dict)

    @classmethod
    def laid(cls, folder: pathlib.Path, line: Line, contents: rooms.Contents) -> Place:
        rooms.lay(folder, rooms.needed(line.named, contents), contents)
        for path in line.locked:
            (folder / path).parent.mkdir(exist_ok=True)
            (folder / path).touch()
        place = cls(folder, line)
        place.numbers = {path: (folder / path).lstat().st_ino for path in place.paths()}
        return place

    def paths(self) -> list[str]:
        return sorted(str(path.relative_to(self.folder)) for path in self.folder.rglob("*"))

    def files(self) -> dict[str, File]:
        """All that is there now."""
        return {masked(os.fsencode(path)).decode(errors="surrogateescape"): self.file(path) for path in self.paths()}

    def file(self, path: str) -> File:
        place = self.folder / path
        found = place.lstat()
        if stat.S_ISLNK(found.st_mode):
            kind, content = "a link", os.fsencode(os.readlink(place))
        elif stat.S_ISREG(found.st_mode):
            data = place.read_bytes()
            kind, content = "a file", reading_of(data) if self.line.has_workers else data
        else:
            kind, content = "a folder" if stat.S_ISDIR(found.st_mode) else "another thing", b""
        return File(kind, stat.S_IMODE(found.st_mode), content, self.numbers.get(path) == found.st_ino)

    def change(self, change: Change, contents: rooms.Contents) -> None:
        """Puts a content at a path, into the file that is there, or removes that."""
        place = self.folder / change.path
        if not change.content:
            place.unlink()
            return
        entry = contents[change.content]
        assert isinstance(entry, bytes), change.content
        place.write_bytes(entry)

    @contextlib.contextmanager
    def locked(self) -> Iterator[None]:
        """Has the locks of the files that another process is said to have."""
        with contextlib.ExitStack() as held:
            for path in self.line.locked:
                file = held.enter_context(open(self.folder / path, "r+b"))
                fcntl.flock(file, fcntl.LOCK_EX)
            yield


def masked(text: bytes, has_times: bool = False) -> bytes:
    """A text without what differs between two runs of one program."""
    text = NEW_FILE.sub(MASKED_FILE, text)
    return TIME.sub(MASKED_TIME, text) if has_times else text


def reading_of(data: bytes) -> bytes:
    """What an image has, wherever its blocks are: the words of its header that stay, and its sum as totals. Other bytes
    are as they are."""
    whole, left = plain_sums.sum_of([("", data)])
    if left or not data.startswith(layout.COOKIE_BYTES):
        return data
    return data[: 8 * layout.FLAGS] + plain_sums.totals_text(whole)


class Streams:
    """The streams of a running program: what it is given for each, and what comes out of them."""

    def __init__(self, place: Place, held: contextlib.ExitStack) -> None:
        line = place.line
        self.held, self.given = held, b""
        self.terminal: Optional[tuple[int, int]] = None
        if TERMINAL in (line.stdin, line.output, line.error):
            self.terminal = pty.openpty()
            held.callback(os.close, self.terminal[0])
        self.stdin: Union[int, IO[bytes]] = self.input_of(place)
        self.output, self.error = self.output_of(line.output), self.output_of(line.error)

    def opened(self, path: Union[str, pathlib.Path], flags: int) -> int:
        file = os.open(path, flags)
        self.held.callback(os.close, file)
        return file

    def input_of(self, place: Place) -> int:
        """What standard input is: a pipe with the bytes of a file, a folder, a device, or a terminal."""
        name = place.line.stdin
        if name == TERMINAL and self.terminal is not None:
            os.write(self.terminal[0], END_OF_INPUT)
            return self.terminal[1]
        if name in ("", CLOSED):
            return subprocess.PIPE
        path = place.folder / name
        if path.is_file():
            self.given = path.read_bytes()
            return subprocess.PIPE
        return self.opened(path, os.O_RDONLY)

    def output_of(self, name: str) -> int:
        if name == TERMINAL and self.terminal is not None:
            return self.terminal[1]
        if name == NO_READER:
            reading, writing = os.pipe()
            os.close(reading)
            self.held.callback(os.close, writing)
            return writing
        return self.opened(FULL, os.O_WRONLY) if name == FULL else subprocess.PIPE

    def read_terminal(self, found: list[bytes]) -> None:
        """Reads what comes to the terminal until nobody has its other end."""
        assert self.terminal is not None
        with contextlib.suppress(OSError):
            while piece := os.read(self.terminal[0], 65_536):
                found.append(piece)

    @contextlib.contextmanager
    def terminal_read(self, found: list[bytes]) -> Iterator[None]:
        """Reads the terminal, if there is one, while a program runs that has its other end."""
        if self.terminal is None:
            yield
            return
        os.close(self.terminal[1])
        reader = threading.Thread(target=self.read_terminal, args=(found,))
        reader.start()
        try:
            yield
        finally:
            reader.join()


def command_of(program: pathlib.Path, line: Line) -> dict[str, Any]:
    """The words that start a program under its usual name, by a shell if a stream is to be closed."""
    streams = (line.stdin, line.output, line.error)
    closing = " ".join(CLOSING[place] for place, stream in enumerate(streams) if stream == CLOSED)
    if not closing:
        return {"args": ["persist_report", *line.words], "executable": program}
    return {"args": ["bash", "-c", f'exec -a persist_report "$0" "$@" {closing}', program, *line.words]}


@dataclasses.dataclass
class Rounds:
    """A program that writes a text again and again: after each text comes the next change. A change is late if it ended
    when the next round may have begun: that is so long after the last look at which the text had not come yet."""

    place: Place
    contents: rooms.Contents
    output: bytearray = dataclasses.field(default_factory=bytearray)
    made: int = 0
    replaced: int = 0
    seen: Optional[tuple[int, int]] = None
    is_late: bool = False

    def __post_init__(self) -> None:
        self.seen = self.signature()

    @property
    def writes_file(self) -> bool:
        return "--to" in self.place.line.words

    def signature(self) -> Optional[tuple[int, int]]:
        """What changes when OUT is replaced."""
        with contextlib.suppress(FileNotFoundError):
            found = (self.place.folder / "out.txt").stat()
            return found.st_ino, found.st_mtime_ns
        return None

    def texts(self) -> int:
        """How many texts have begun to come; the line of a time alone begins none."""
        if not self.writes_file:
            parts = TIME.split(bytes(self.output))
            return len(parts) - (parts[-1] == b"")
        if self.signature() != self.seen:
            self.seen, self.replaced = self.signature(), self.replaced + 1
        return self.replaced

    def look(self, before: float) -> None:
        """Makes the next change if a text has come; before the time `before` it had not."""
        changes = self.place.line.changes
        if self.made < len(changes) and self.texts() > self.made:
            self.place.change(changes[self.made], self.contents)
            self.made += 1
            self.is_late |= time.monotonic() >= before + BETWEEN_ROUNDS


def taken(stream: IO[bytes]) -> bytes:
    """What has come through a pipe that does not block, and was not read yet."""
    with contextlib.suppress(BlockingIOError):
        return os.read(stream.fileno(), 1_000_000)
    return b""


def follow(running: subprocess.Popen[bytes], rounds: Rounds) -> bytes:
    """Reads what a program writes until it ends, and changes what it reads in between; the bytes of its error stream.
    What a pipe has at the end is less than is read at a time."""
    assert running.stdin and running.stdout and running.stderr
    running.stdin.close()
    running.stdin = None
    error, before, end = bytearray(), time.monotonic(), time.monotonic() + MOST_SECONDS
    os.set_blocking(running.stdout.fileno(), False)
    os.set_blocking(running.stderr.fileno(), False)
    has_ended = False
    while not has_ended:
        now, has_ended = time.monotonic(), running.poll() is not None
        rounds.output += taken(running.stdout)
        error += taken(running.stderr)
        rounds.look(before)
        before = now
        if now > end:
            raise subprocess.TimeoutExpired(running.args, MOST_SECONDS)
        time.sleep(BETWEEN_LOOKS)
    return bytes(error)


def ended(
    running: subprocess.Popen[bytes], streams: Streams, rounds: Optional[Rounds]
) -> tuple[bytes, bytes, Optional[int]]:
    """What a program wrote to its streams, and its status; it is killed if it does not end in time."""
    try:
        if rounds is None:
            output, error = running.communicate(streams.given, MOST_SECONDS)
            return output or b"", error or b"", running.returncode
        error = follow(running, rounds)
        return bytes(rounds.output), error, running.returncode
    except subprocess.TimeoutExpired:
        os.killpg(running.pid, signal.SIGKILL)
        running.communicate()
        return b"", f"(no end within {MOST_SECONDS} seconds)".encode(), None


def run_once(program: pathlib.Path, place: Place, contents: rooms.Contents) -> tuple[Outcome, bool]:
    """What comes of a line in a folder that was laid out, and whether a change came too late."""
    line = place.line
    rounds = Rounds(place, contents) if line.changes else None
    on_terminal: list[bytes] = []
    with contextlib.ExitStack() as held, place.locked():
        streams = Streams(place, held)
        with subprocess.Popen(
            **command_of(program, line), cwd=place.folder, env={**ENVIRONMENT, **dict(line.settings)},
            stdin=streams.stdin, stdout=streams.output, stderr=streams.error, start_new_session=True,
        ) as running:
            with streams.terminal_read(on_terminal):
                output, error, status = ended(running, streams, rounds)
    output += b"".join(on_terminal)
    has_times = line.has_rounds and "--to" not in line.words
    outcome = Outcome(masked(output, has_times), masked(error), status, place.files())
    return outcome, rounds is not None and rounds.is_late


def run(program: pathlib.Path, line: Line, folder: pathlib.Path, contents: rooms.Contents) -> Outcome:
    """What comes of a line in this folder, which is laid out anew. A line whose changes came too late is run again."""
    for _ in range(MOST_TRIES):
        outcome, is_late = run_once(program, Place.laid(folder, line, contents), contents)
        if not is_late:
            return outcome
    return Outcome(b"", b"(each time a change came after the next round had begun)", None, {})
