"""What killed runs left in a folder: the next run that writes there removes it, and nothing else."""

from __future__ import annotations

import argparse
import collections
import concurrent.futures
import fcntl
import os
import pathlib
import random
import signal
import socket
import subprocess
import tempfile
import time
from collections.abc import Callable, Iterator

from parts.locked import NEW, Waiting, commands, is_locked
from support.program import EXAMPLE, MOST_SECONDS, SCRIPT, Answer, Case, Word, answer, difference

PROGRAM = "persist_report"
DIGITS = "0123456789abcdef"
# A name as a new file has it.
LEFT = NEW + DIGITS
STOOD = b"what a killed run left"
# Names that no new file has.
OTHER_NAMES = [
    NEW, NEW + DIGITS[:15], NEW + DIGITS + "0", NEW + DIGITS[:15] + "F", NEW + DIGITS[:15] + "g", LEFT[1:], LEFT + "~",
    NEW + "-" + DIGITS[:15], ".persist_report_" + DIGITS, "x" + LEFT,
]
NO_TEXT = os.fsencode(NEW) + b"0123456789abcd\xff\xfe"
# How many runs each loop has, one after the other, and how many loops write into one folder at once.
RUNS, LOOPS = 60, 4


def merge_into(out: pathlib.Path) -> list[Word]:
    return ["merge", EXAMPLE, EXAMPLE, out]


def removed(program: pathlib.Path, folder: pathlib.Path) -> Iterator[Case]:
    """Each command that writes a file removes what was left beside it, also if OUT is there."""
    base = folder / "base"
    answer(program, ["run", SCRIPT, base])
    for name, words in commands(base, "out"):
        for stood in (True, False):
            room = folder / f"{name} {stood}"
            room.mkdir()
            out = room / "out"
            if stood:
                out.write_bytes(STOOD)
            for number in range(3):
                (room / f"{NEW}{number:016x}").write_bytes(STOOD)
            came = answer(program, [name, *words[:-1], out])
            left = sorted(path.name for path in room.iterdir())
            yield f"{name}, OUT is there: {stood}", None if (came.status, left) == (0, ["out"]) else f"{came}, {left}"
    (folder / LEFT).write_bytes(STOOD)
    came = answer(program, merge_into(pathlib.Path("out")), cwd=folder)
    is_gone = not (folder / LEFT).exists()
    yield "OUT without a folder", None if came.status == 0 and is_gone else f"{came}"
    (folder / LEFT).write_bytes(STOOD)
    came = answer(program, merge_into(pathlib.Path("/dev/null")), cwd=folder)
    is_there = (folder / LEFT).exists()
    yield "OUT in another folder", None if came.status == 0 and is_there else f"{came}"


def kept(program: pathlib.Path, folder: pathlib.Path) -> Iterator[Case]:
    """Other names, what is no regular file, what is locked, and what is another user's, stays."""
    room = folder / "kept"
    room.mkdir()
    makers: dict[str, Callable[[pathlib.Path], object]] = {
        "a folder": lambda path: path.mkdir(),
        "a link to a file": lambda path: path.symlink_to(EXAMPLE),
        "a link to nothing": lambda path: path.symlink_to("nothing"),
        "a pipe": lambda path: os.mkfifo(path),
        "a socket": lambda path: socket.socket(socket.AF_UNIX).bind(str(path)),
        **{f"the name {name}": lambda path: path.write_bytes(STOOD) for name in OTHER_NAMES},
    }
    for name, make in makers.items():
        path = room / (name.removeprefix("the name ") if name.startswith("the name ") else LEFT)
        make(path)
        came = answer(program, merge_into(room / "out"))
        is_there = os.path.lexists(path)
        yield name, None if came.status == 0 and is_there else f"{came}, and it is {'there' if is_there else 'gone'}"
        path.rmdir() if path.is_dir() and not path.is_symlink() else path.unlink(missing_ok=True)
    no_text = os.path.join(os.fsencode(room), NO_TEXT)
    with open(no_text, "wb"):
        came = answer(program, merge_into(room / "out"))
    yield "a name that is no text", None if came.status == 0 and os.path.exists(no_text) else f"{came}"
    for how in (fcntl.LOCK_EX, fcntl.LOCK_SH):
        (room / LEFT).write_bytes(STOOD)
        with open(room / LEFT, "rb") as file:
            fcntl.flock(file, how)
            came = answer(program, merge_into(room / "out"))
        is_there = (room / LEFT).exists()
        yield f"a file with the lock {how}", None if came.status == 0 and is_there else f"{came}"
    if os.geteuid() == 0:
        os.chown(room / LEFT, 65534, 65534)
        came = answer(program, merge_into(room / "out"))
        yield "a file of another user", None if came.status == 0 and (room / LEFT).exists() else f"{came}"
    else:
        print("left out: leftovers, a file of another user: only root can give a file away", flush=True)


def untidied(program: pathlib.Path, folder: pathlib.Path) -> Iterator[Case]:
    """A folder that cannot be listed, and a file that cannot be opened: the run continues. A user who may read anything
    becomes another first."""
    room, own = folder / "untidied", folder / "program"
    own.write_bytes(program.read_bytes())
    own.chmod(0o755)
    for path in (folder, folder.parent):
        path.chmod(0o755)
    room.mkdir()
    image = room / "image"
    image.write_bytes(EXAMPLE.read_bytes())
    (room / LEFT).write_bytes(STOOD)
    user = 65534 if os.geteuid() == 0 else os.geteuid()
    if os.geteuid() == 0:
        os.chown(room / LEFT, user, user)
    (room / LEFT).chmod(0)
    for mode in (0o777, 0o333):
        room.chmod(mode)
        words: list[Word] = ["merge", image, image, room / "out"]
        came = answer(own, words, cwd="/", preexec_fn=lambda: os.setuid(user))
        room.chmod(0o777)
        is_there = (room / LEFT).exists() and (room / "out").exists()
        wrong = difference(Answer(), came)
        yield f"a folder of mode {mode:o}", wrong or (None if is_there else "other files are there")
        (room / "out").unlink()


def gets_locked(path: pathlib.Path) -> bool:
    """Whether a new file is locked, now or soon."""
    end = time.monotonic() + MOST_SECONDS
    while not is_locked(path):
        if time.monotonic() > end or not path.exists():
            return False
        time.sleep(0.001)
    return True


def killed(program: pathlib.Path, folder: pathlib.Path) -> Iterator[Case]:
    """A run that waits for its script has locked its new file, and no other run removes that; when the run was killed
    or interrupted, the next one does."""
    for how in (signal.SIGKILL, signal.SIGINT, signal.SIGTERM):
        room = folder / how.name
        room.mkdir()
        waiting = Waiting(program, room)
        new = [path for path in room.iterdir() if path.name.startswith(NEW)]
        has_lock = len(new) == 1 and gets_locked(new[0])
        came = answer(program, merge_into(room / "other"))
        is_there = len(new) == 1 and new[0].exists()
        waiting.command.send_signal(how)
        waiting.command.communicate()
        waiting.script.close()
        stays = len(new) == 1 and new[0].exists()
        after = answer(program, merge_into(room / "other"))
        left = sorted(path.name for path in room.iterdir())
        is_right = has_lock and is_there and stays and left == ["other", "script"]
        yield f"{how.name}", None if is_right and came.status == after.status == 0 else (
            f"locked: {has_lock}, there beside another run: {is_there}, and after the kill: {stays}; then {left}"
        )
        (room / "script").unlink()
    room = folder / "unharmed"
    room.mkdir()
    waiting = Waiting(program, room)
    others = [answer(program, merge_into(room / "other")).status for _ in range(20)]
    came = waiting.answer()
    is_right = others == [0] * 20 and came.status == 0 and (room / "out").exists()
    yield "a run beside others", None if is_right else f"{came}"


def loop(program: pathlib.Path, folder: pathlib.Path, chance: random.Random, number: int) -> str | None:
    """What is wrong with one of the runs that write into a folder, one after the other, or None. In every second loop
    each run is killed at a random moment, sooner after runs that were done by then, and later after others; of these
    some have to be killed, and some done."""
    longest = 0.02
    ends: collections.Counter[int] = collections.Counter()
    for turn in range(RUNS):
        words = merge_into(folder / f"out {number} {turn % 3}")
        running = subprocess.Popen([program, *words], stdout=subprocess.PIPE, stderr=subprocess.PIPE)
        if number % 2:
            time.sleep(chance.uniform(0, longest))
            running.kill()
        output, error = running.communicate()
        came = Answer(output, error, running.returncode)
        ends[came.status] += 1
        longest *= 0.9 if came.status == 0 else 1.1
        if number % 2 == 0 and came != Answer():
            return f"run {turn} of loop {number}: {came}"
    if number % 2 and (set(ends) != {0, -signal.SIGKILL} or min(ends.values()) < RUNS // 10):
        return f"runs by their status: {dict(ends)}"
    return None


def at_once(program: pathlib.Path, folder: pathlib.Path, seed: int) -> Iterator[Case]:
    """Loops of runs that write into one folder at once, some of which are killed: the others are right, and none takes
    another's new file for one that was left. After one more run nothing is left."""
    room = folder / "at once"
    room.mkdir()
    with concurrent.futures.ThreadPoolExecutor(LOOPS) as pool:
        chances = [random.Random(f"{seed} {number}") for number in range(LOOPS)]
        wrongs = list(pool.map(lambda number: loop(program, room, chances[number], number), range(LOOPS)))
    for number, wrong in enumerate(wrongs):
        yield f"loop {number} of {RUNS} runs", wrong
    came = answer(program, merge_into(room / "last"))
    left = [path.name for path in room.iterdir() if path.name.startswith(NEW)]
    yield "nothing is left", difference(Answer(), came) or (f"{left}" if left else None)
    images = {path.read_bytes() for path in room.iterdir()}
    yield "each OUT is whole", None if images == {(room / "last").read_bytes()} else f"{sorted(map(len, images))} bytes"


def cases(program: pathlib.Path, options: argparse.Namespace) -> Iterator[Case]:
    with tempfile.TemporaryDirectory() as scratch:
        folder = pathlib.Path(scratch).resolve()
        for part in (removed, kept, untidied, killed):
            room = folder / part.__name__
            room.mkdir()
            yield from part(program, room)
        yield from at_once(program, folder, options.seed)
