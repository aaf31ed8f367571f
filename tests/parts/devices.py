"""Files, streams and devices that fail, each fault with its line and its status, and the words of a command line."""

from __future__ import annotations

import argparse
import fcntl
import itertools
import os
import pathlib
import resource
import shutil
import signal
import stat
import struct
import subprocess
import tempfile
import termios
import time
from collections.abc import Iterator, Sequence
from typing import Any

from parts import explained
from support import versions
from support.layout import MOST_BYTES
from support.program import (
    EXAMPLE, MOST_SECONDS, SCRIPT, Answer, Case, Path, Word, answer, content, difference, fault,
)

PROGRAM = "persist_report"
REPORT = Answer(b"A,boolean,0,1,1\nA,boolean,1,2,2\nA,total,3,2\n")
# What comes if the script is run once more on its own image.
RESUMED = Answer(b"A,boolean,0,1,2\nA,boolean,1,2,4\nA,total,6,4\n")
READ_FAULT, WRITE_FAULT = fault("Read", 4), fault("Write", 4)
# What is in OUT before a command.
STOOD = b"what stood there before"
# The words of commands, and the answer to each, by the name of the case.
Asked = dict[str, tuple[list[Word], Answer]]

# What is stored at a word of a valid header, and the fault that the image then has.
HEADER_FAULTS = [
    (0, 0, "Image BadCookie"),
    (1, 3, "Image BadVersion"),
    (2, 0, "Image BadSize"),
    (3, 0, "Image BadPage"),
    (5, 0, "Image NotReady"),
    (5, 2, "Image Deleted"),
    (7, 15, "Image BadFree"),
    (13, 2, "Image BadQueue"),
]

NOT_TEXT = b"""\
error: invalid UTF-8 was detected in one or more arguments

Usage: persist_report [OPTIONS] <COMMAND>

For more information, try '--help'.
"""
RUN: list[Word] = ["run", SCRIPT, "out"]
RESUME: list[Word] = ["resume", EXAMPLE, SCRIPT, "out"]
MISTAKES: list[list[Word]] = [
    [],
    [""],
    ["reports"],
    ["--workers"],
    ["info", EXAMPLE, EXAMPLE],
    ["report", "--workers", "0"],
    ["export", "--totals"],
    ["export", "--prefix"],
    ["export", "--prefix", "a", "--prefix", "b"],
    ["run"],
    ["run", SCRIPT],
    [*RUN, "more"],
    *[[*RUN, "--workers", count] for count in ("0", "17", "-1", "", "two", "4294967297")],
    [*RUN, "--workers"],
    [*RUN, "--workers", "1", "--workers", "2"],
    ["resume"],
    ["resume", EXAMPLE],
    ["resume", EXAMPLE, SCRIPT],
    [*RESUME, "more"],
    *[[*RESUME, "--workers", count] for count in ("0", "17", "two")],
    ["merge"],
    ["merge", EXAMPLE],
    ["merge", EXAMPLE, EXAMPLE],
    ["merge", EXAMPLE, EXAMPLE, "out", "more"],
    ["merge", EXAMPLE, EXAMPLE, "out", "--workers", "2"],
    ["report", "--explain", "--explain"],
    ["explain", "Read", "Write"],
    ["explain", "--explain"],
    ["--explain"],
    ["--explain", "--explain", "report"],
]


def images(program: pathlib.Path) -> Iterator[Case]:
    """Bytes on standard input that are no image."""
    example = EXAMPLE.read_bytes()
    faults = {
        "Image TooShort": b"",
        "NotWords": example[:-1],
        "Image BadCookie": bytes(MOST_BYTES),
        "TooLong": bytes(MOST_BYTES + 1),
    }
    stored = [
        (text, example[: 8 * at] + struct.pack("<Q", word) + example[8 * at + 8 :]) for at, word, text in HEADER_FAULTS
    ]
    for text, data in [*faults.items(), *stored]:
        yield text, difference(fault(text, 3), answer(program, ["report"], data))


def files(program: pathlib.Path, folder: pathlib.Path) -> Iterator[Case]:
    """Files that can be read, and others."""
    (folder / "-image").write_bytes(EXAMPLE.read_bytes())
    wanted: Asked = {
        "an image": ([EXAMPLE], REPORT),
        "a name with a hyphen": (["--", "-image"], REPORT),
        "a file without bytes": (["/dev/null"], fault("Image TooShort", 3)),
        "a device without an end": (["/dev/zero"], fault("TooLong", 3)),
        "a missing file": (["missing.img"], READ_FAULT),
        "an empty name": ([""], READ_FAULT),
        "a file that opens and cannot be read": (["/proc/self/mem"], READ_FAULT),
    }
    for name, (words, right) in wanted.items():
        yield name, difference(right, answer(program, ["report", *words], cwd=folder))
    # A text of a directory is that of the images in it (part `sums`).
    yield "a directory", difference(READ_FAULT, answer(program, ["info", folder], cwd=folder))


def answer_to_pieces(program: pathlib.Path, data: bytes) -> Answer:
    """The answer to an image that comes through a pipe in two pieces, of which the first ends within a word. The second
    comes when the first was read."""
    running = subprocess.Popen(
        [program, "report"], stdin=subprocess.PIPE, stdout=subprocess.PIPE, stderr=subprocess.PIPE
    )
    assert running.stdin is not None
    running.stdin.write(data[:7])
    running.stdin.flush()
    end = time.monotonic() + MOST_SECONDS
    while unread_in(running.stdin.fileno()) and running.poll() is None and time.monotonic() < end:
        time.sleep(0.001)
    output, error = running.communicate(data[7:])
    return Answer(output, error, running.returncode)


def unread_in(pipe: int) -> int:
    """How many bytes nobody has read yet that were written into a pipe."""
    (unread,) = struct.unpack("i", fcntl.ioctl(pipe, termios.FIONREAD, bytes(4)))
    return int(unread)


def inputs(program: pathlib.Path, folder: pathlib.Path) -> Iterator[Case]:
    """Standard inputs that can be read, and others."""
    example = EXAMPLE.read_bytes()
    yield "an image on standard input", difference(REPORT, answer(program, ["report"], example))
    yield "an image in pieces", difference(REPORT, answer_to_pieces(program, example))
    closed = answer(program, ["report"], stdin=subprocess.DEVNULL, preexec_fn=lambda: os.close(0))
    yield "a closed standard input", difference(READ_FAULT, closed)
    directory = os.open(folder, os.O_RDONLY)
    yield "a directory on standard input", difference(READ_FAULT, answer(program, ["report"], stdin=directory))
    os.close(directory)


def pipe_without_reader() -> int:
    reading, writing = os.pipe()
    os.close(reading)
    return writing


def answer_to_short_file(program: pathlib.Path, path: pathlib.Path, most: int) -> Answer:
    """The answer if standard output is a file that may have at most `most` bytes; its output is what the file then
    has."""

    def limited() -> None:
        signal.signal(signal.SIGXFSZ, signal.SIG_IGN)
        resource.setrlimit(resource.RLIMIT_FSIZE, (most, most))

    with open(path, "wb") as file:
        came = answer(program, ["report", EXAMPLE], stdout=file, preexec_fn=limited)
    return Answer(path.read_bytes(), came.error, came.status)


def outputs(program: pathlib.Path, folder: pathlib.Path) -> Iterator[Case]:
    """Outputs that cannot be written: what is asked for, and each is a fault of the device."""
    example = EXAMPLE.read_bytes()
    asked: list[list[Word]] = [
        ["report"], ["report", EXAMPLE], ["--help"], ["report", "--help"], ["run", "--help"], ["--version"],
    ]
    faulty: list[tuple[list[Word], int]] = [(["info", folder], 4), ([], 2)]
    for name, output in (
        ("a full device", os.open("/dev/full", os.O_WRONLY)),
        ("a closed pipe", pipe_without_reader()),
    ):
        for words in asked:
            came = answer(program, words, example, stdout=output)
            yield f"{words} on {name}", difference(WRITE_FAULT, came)
        os.close(output)
    closed = answer(program, ["report"], example, preexec_fn=lambda: os.close(1))
    yield "a closed standard output", difference(WRITE_FAULT, closed)
    wanted = Answer(REPORT.output[:20], WRITE_FAULT.error, WRITE_FAULT.status)
    yield "a file that ends in the middle", difference(wanted, answer_to_short_file(program, folder / "short", 20))
    with open("/dev/full", "wb") as full:
        for words, status in faulty:
            yield f"{words} with a full error stream", difference(
                Answer(status=status), answer(program, words, stderr=full)
            )


def inputs_of_run(folder: pathlib.Path, out: pathlib.Path, no_words: pathlib.Path) -> Asked:
    """Inputs of `run`, and names of OUT."""
    return {
        "no script": (["run", "missing", out], READ_FAULT),
        "no script and no folder": (["run", "missing", folder / "missing" / "out"], READ_FAULT),
        "no folder": (["run", SCRIPT, folder / "missing" / "out"], WRITE_FAULT),
        "no name": (["run", SCRIPT, ""], WRITE_FAULT),
        "a folder": (["run", SCRIPT, folder], WRITE_FAULT),
        "a missing folder as OUT": (["run", "/proc/self/mem", f"{folder}/missing/"], WRITE_FAULT),
        "a missing folder and a dot": (["run", "/proc/self/mem", f"{folder}/missing/."], WRITE_FAULT),
        "a folder without new files": (["run", "/proc/self/mem", "/proc/out"], WRITE_FAULT),
        "a file as a folder": (["run", "/proc/self/mem", f"{out}/out"], WRITE_FAULT),
        "a script that cannot be read": (["run", "/proc/self/mem", out], READ_FAULT),
        "a folder as a script": (["run", folder, out], READ_FAULT),
        "a script without an end": (["run", "/dev/zero", out], fault("TooLong", 3)),
        "a script that is no script": (["run", no_words, out], fault("BadLine 1", 3)),
    }


def inputs_of_merge(folder: pathlib.Path, out: pathlib.Path, no_words: pathlib.Path) -> Asked:
    return {
        "no base": (["merge", "missing", EXAMPLE, out], READ_FAULT),
        "no dead": (["merge", no_words, "missing", out], READ_FAULT),
        "no folder for the merge": (["merge", no_words, EXAMPLE, folder / "missing" / "out"], WRITE_FAULT),
        "a base that cannot be read": (["merge", "/proc/self/mem", no_words, out], READ_FAULT),
        "a base that is no image": (["merge", no_words, "/proc/self/mem", out], fault("NotWords", 3)),
        "a dead that cannot be read": (["merge", EXAMPLE, "/proc/self/mem", out], READ_FAULT),
        "a dead without an end": (["merge", EXAMPLE, "/dev/zero", out], fault("TooLong", 3)),
        "a base without an end": (["merge", "/dev/zero", no_words, out], fault("TooLong", 3)),
    }


def inputs_of_resume(folder: pathlib.Path, out: pathlib.Path, no_words: pathlib.Path, base: pathlib.Path) -> Asked:
    return {
        "no base to continue with": (["resume", "missing", SCRIPT, out], READ_FAULT),
        "no script to continue with": (["resume", no_words, "missing", out], READ_FAULT),
        "no folder to continue in": (["resume", no_words, SCRIPT, folder / "missing" / "out"], WRITE_FAULT),
        "a base to continue with that cannot be read": (["resume", "/proc/self/mem", no_words, out], READ_FAULT),
        "a base to continue with that is no image": (["resume", no_words, "/proc/self/mem", out], fault("NotWords", 3)),
        "a base to continue with that is no segment's": (
            ["resume", EXAMPLE, "/proc/self/mem", out],
            fault("Adopt OldVersion", 3),
        ),
        "a base to continue with without an end": (["resume", "/dev/zero", no_words, out], fault("TooLong", 3)),
        "a script to continue with that cannot be read": (["resume", base, "/proc/self/mem", out], READ_FAULT),
        "a script to continue with without an end": (["resume", base, "/dev/zero", out], fault("TooLong", 3)),
        "a script to continue with that is no script": (["resume", base, no_words, out], fault("BadLine 1", 3)),
    }


def inputs_of_commands(program: pathlib.Path, folder: pathlib.Path) -> Iterator[Case]:
    """Inputs of `run`, `merge` and `resume`: all files are opened in the order of the arguments, and last OUT, which
    stays unchanged."""
    out, base = folder / "out", base_of(program, folder)
    no_words = folder / "no-words"
    no_words.write_bytes(b"1234567")
    cases_of = {
        **inputs_of_run(folder, out, no_words),
        **inputs_of_merge(folder, out, no_words),
        **inputs_of_resume(folder, out, no_words, base),
    }
    for name, (words, wanted) in cases_of.items():
        out.write_bytes(STOOD)
        beside = set(folder.iterdir())
        wrong = difference(wanted, answer(program, words, cwd=folder))
        yield name, wrong or wrong_folder(folder, beside, out, STOOD)
    out.unlink()


def wrong_folder(
    folder: pathlib.Path, beside: set[pathlib.Path], out: pathlib.Path, wanted: bytes | None
) -> str | None:
    """What is wrong if OUT is wanted with these bytes, and these files in its folder; or None."""
    if content(out) != wanted:
        return f"{(content(out) or b'')[:50]!r} stands in OUT"
    strays = set(folder.iterdir()) ^ beside
    return f"files were made or removed: {sorted(map(str, strays))}" if strays else None


def base_of(program: pathlib.Path, folder: pathlib.Path) -> pathlib.Path:
    """The image of the script, with which `resume` continues."""
    path = folder / "base"
    if not path.exists():
        answer(program, ["run", SCRIPT, path])
    return path


def images_of(program: pathlib.Path, folder: pathlib.Path) -> Iterator[bytes]:
    """The images that `run`, `merge` and `resume` make of the examples."""
    paths = [folder / name for name in ("run-image", "merge-image", "resume-image")]
    commands: list[list[Word]] = [
        ["run", SCRIPT], ["merge", EXAMPLE, EXAMPLE], ["resume", base_of(program, folder), SCRIPT],
    ]
    for path, words in zip(paths, commands):
        answer(program, [*words, path])
        yield path.read_bytes()
        path.unlink()


def inputs_as_outputs(program: pathlib.Path, folder: pathlib.Path) -> Iterator[Case]:
    """OUT is an input too: it is read whole before OUT is replaced, and stays if the command has a fault."""
    run_image, merged, resumed = images_of(program, folder)
    script, example, bad = SCRIPT.read_bytes(), EXAMPLE.read_bytes(), b"no script and no image"
    cases_of = {
        "run x x": (["run", "x", "x"], script, None, Answer(REPORT.output), run_image),
        "run x ./x": (["run", "x", "./x"], script, None, Answer(REPORT.output), run_image),
        "run x x, no script": (["run", "x", "x"], bad, None, fault("BadLine 1", 3), bad),
        "merge x y x": (["merge", "x", "y", "x"], example, example, Answer(), merged),
        "merge y x x": (["merge", "y", "x", "x"], example, example, Answer(), merged),
        "merge x x x": (["merge", "x", "x", "x"], example, None, Answer(), merged),
        "merge x y x, no image in x": (["merge", "x", "y", "x"], bad, example, fault("NotWords", 3), bad),
        "merge y x x, no image in x": (["merge", "y", "x", "x"], bad, example, fault("NotWords", 3), bad),
        "merge x y x, no image in y": (["merge", "x", "y", "x"], example, bad, fault("NotWords", 3), example),
        "merge y x x, no image in y": (["merge", "y", "x", "x"], example, bad, fault("NotWords", 3), example),
        "resume x y x": (["resume", "x", "y", "x"], run_image, script, RESUMED, resumed),
        "resume y x x": (["resume", "y", "x", "x"], script, run_image, RESUMED, resumed),
        "resume x x x": (["resume", "x", "x", "x"], run_image, None, fault("BadLine 1", 3), run_image),
        "resume x y x, no image in x": (["resume", "x", "y", "x"], bad, script, fault("NotWords", 3), bad),
        "resume x y x, no script in y": (["resume", "x", "y", "x"], run_image, bad, fault("BadLine 1", 3), run_image),
        "resume y x x, an old image in y": (
            ["resume", "y", "x", "x"], script, example, fault("Adopt OldVersion", 3), script,
        ),
    }
    for name, (words, x, y, wanted, left) in cases_of.items():
        room = folder / "room"
        room.mkdir()
        for path, data in ((room / "x", x), (room / "y", y)):
            if data is not None:
                path.write_bytes(data)
        beside = set(room.iterdir())
        wrong = difference(wanted, answer(program, words, cwd=room)) or wrong_folder(room, beside, room / "x", left)
        yield name, wrong or (None if content(room / "y") == y else "the other input was changed")
        shutil.rmtree(room)


def links(program: pathlib.Path, folder: pathlib.Path) -> Iterator[Case]:
    """OUT is a link: it stays one, and the file that it leads to is replaced, or made if there is none."""
    run_image, *_ = images_of(program, folder)
    room = folder / "links"
    (room / "other").mkdir(parents=True)
    leads_to: dict[str, Path] = {
        "near": "file", "far": "other/file", "there": room / "other" / "file", "twice": "other/back",
    }
    for name, target in leads_to.items():
        (room / name).symlink_to(target)
    (room / "other" / "back").symlink_to("../file")
    for name in leads_to:
        for stood in (STOOD, None):
            place = (room / name).resolve()
            place.unlink(missing_ok=True)
            if stood is not None:
                place.write_bytes(stood)
            wrong = difference(REPORT, answer(program, ["run", SCRIPT, name], cwd=room))
            wrong = wrong or (None if (room / name).is_symlink() else "the link is gone")
            wrong = wrong or (None if content(place) == run_image else "no image behind the link")
            yield f"a link {name} to {stood!r}", wrong
    (room / "round").symlink_to("round")
    yield "a link to itself", difference(WRITE_FAULT, answer(program, ["run", SCRIPT, room / "round"]))
    (room / "null").symlink_to("/dev/null")
    wrong = difference(REPORT, answer(program, ["run", SCRIPT, room / "null"]))
    yield "a link to a device", wrong or (None if (room / "null").is_char_device() else "the device is gone")


def permissions(program: pathlib.Path, folder: pathlib.Path) -> Iterator[Case]:
    """A new file has the permissions of the old one; without an old one, those that the user grants to any new file."""
    out = folder / "out"
    for mode in (0o600, 0o640, 0o666, 0o755, 0o700):
        out.write_bytes(STOOD)
        out.chmod(mode)
        wrong = difference(REPORT, answer(program, ["run", SCRIPT, out]))
        yield f"permissions {mode:o}", wrong or wrong_mode(out, mode)
        out.unlink()
    for umask in (0o022, 0o077):
        answer(program, ["run", SCRIPT, out], preexec_fn=lambda: os.umask(umask))
        yield f"permissions without {umask:o}", wrong_mode(out, 0o666 & ~umask)
        out.unlink()


def wrong_mode(path: pathlib.Path, mode: int) -> str | None:
    came = stat.S_IMODE(path.stat().st_mode)
    return None if came == mode else f"wanted the permissions {mode:o}, came {came:o}"


def guarded(program: pathlib.Path, folder: pathlib.Path) -> Iterator[Case]:
    """A folder and a file that may not be written: no input is read. A user who may write anything becomes another
    first."""
    room, own = folder / "guarded", folder / "program"
    shutil.copy(program, own)
    room.mkdir()
    (room / "out").write_bytes(STOOD)
    folder.chmod(0o755)
    another: dict[str, Any] = {"preexec_fn": lambda: os.setuid(65534)} if os.geteuid() == 0 else {}
    for name, mode_of_folder, mode_of_out in (("a folder", 0o555, 0o666), ("a file", 0o777, 0o444)):
        (room / "out").chmod(mode_of_out)
        room.chmod(mode_of_folder)
        came = answer(own, ["run", "/", room / "out"], cwd="/", **another)
        room.chmod(0o777)
        wrong = difference(WRITE_FAULT, came) or wrong_folder(room, {room / "out"}, room / "out", STOOD)
        yield f"{name} that may not be written", wrong


def open_files(program: pathlib.Path, folder: pathlib.Path) -> Iterator[Case]:
    """OUT is an open file of the program, by the name that the system gives it: that file is written itself."""
    run_image, merged, resumed = images_of(program, folder)
    merge: list[Word] = ["merge", EXAMPLE, EXAMPLE]
    resume: list[Word] = ["resume", base_of(program, folder), SCRIPT]
    yield "a pipe as standard output", difference(Answer(merged), answer(program, [*merge, "/dev/stdout"]))
    yield "the image and the report on a pipe", difference(
        Answer(run_image + REPORT.output), answer(program, ["run", SCRIPT, "/dev/stdout"])
    )
    yield "the new image and the report on a pipe", difference(
        Answer(resumed + RESUMED.output), answer(program, [*resume, "/dev/stdout"])
    )
    lent: list[tuple[list[Word], bytes]] = [
        (["resume", "/dev/stdin", SCRIPT], run_image),
        (["resume", base_of(program, folder), "/dev/stdin"], SCRIPT.read_bytes()),
    ]
    for words, data in lent:
        yield f"{words} with standard input", difference(RESUMED, answer(program, [*words, folder / "lent"], data))
    for name in ("/dev/stdout", "/dev/fd/1", "/proc/self/fd/1"):
        for file in (open(folder / "lent", "w+b"), tempfile.TemporaryFile()):
            with file:
                wrong = difference(Answer(), answer(program, [*merge, name], stdout=file))
                file.seek(0)
                yield f"{file.name} as {name}", wrong or (None if file.read() == merged else "another image")
    (folder / "lent").unlink()


def answer_behind_closed_pipe(program: pathlib.Path, folder: pathlib.Path) -> Answer:
    """The answer of a `run` whose OUT is a pipe that is closed before the script comes."""
    script, out = folder / "script-pipe", folder / "out-pipe"
    os.mkfifo(script)
    os.mkfifo(out)
    running = subprocess.Popen([program, "run", script, out], stdout=subprocess.PIPE, stderr=subprocess.PIPE)
    with open(script, "wb") as sending:
        open(out, "rb").close()
        sending.write(SCRIPT.read_bytes())
    output, error = running.communicate()
    return Answer(output, error, running.returncode)


def answer_to_short_out(program: pathlib.Path, words: Sequence[Word], most: int) -> Answer:
    """The answer if files may have at most `most` bytes."""

    def limited() -> None:
        signal.signal(signal.SIGXFSZ, signal.SIG_IGN)
        resource.setrlimit(resource.RLIMIT_FSIZE, (most, most))

    return answer(program, words, preexec_fn=limited)


def outputs_of_commands(program: pathlib.Path, folder: pathlib.Path) -> Iterator[Case]:
    """Outputs of `run`, `merge` and `resume` that cannot be written: OUT stays unchanged, and no report is begun after
    a fault of the image."""
    out = folder / "out"
    commands: dict[str, list[Word]] = {
        "run": ["run", SCRIPT],
        "merge": ["merge", EXAMPLE, EXAMPLE],
        "resume": ["resume", base_of(program, folder), SCRIPT],
    }
    rights = (REPORT, Answer(), RESUMED)
    for (command, words), image, right in zip(commands.items(), images_of(program, folder), rights):
        yield f"{command} into a full device", difference(WRITE_FAULT, answer(program, [*words, "/dev/full"]))
        for most in (0, 1, 8, 511, 1023):
            for stood in (STOOD, None):
                wrong = wrong_short_out(program, words, out, most, stood, WRITE_FAULT, stood)
                yield f"{command} into a file of {most} bytes", wrong
        wrong = wrong_short_out(program, words, out, 1024, STOOD, right, image)
        yield f"{command} into a file of 1024 bytes", wrong
    yield "run into a closed pipe", difference(WRITE_FAULT, answer_behind_closed_pipe(program, folder))
    for name, output in (
        ("a full device", os.open("/dev/full", os.O_WRONLY)),
        ("a closed pipe", pipe_without_reader()),
    ):
        for command, stood in itertools.product(("run", "resume"), (STOOD, None)):
            beside = prepared(out, stood)
            wrong = difference(WRITE_FAULT, answer(program, [*commands[command], out], stdout=output))
            yield f"the report of {command} on {name}", wrong or wrong_folder(folder, beside, out, stood)
        yield f"merge beside {name}", difference(Answer(), answer(program, [*commands["merge"], out], stdout=output))
        os.close(output)
    out.unlink()


def prepared(out: pathlib.Path, stood: bytes | None) -> set[pathlib.Path]:
    """Puts these bytes into OUT, or removes it; the files that its folder then has."""
    out.unlink(missing_ok=True)
    if stood is not None:
        out.write_bytes(stood)
    return set(out.parent.iterdir())


def wrong_short_out(
    program: pathlib.Path,
    words: Sequence[Word],
    out: pathlib.Path,
    most: int,
    stood: bytes | None,
    wanted: Answer,
    left: bytes | None,
) -> str | None:
    """What is wrong if files may have at most `most` bytes, or None. OUT is the word after these."""
    beside = prepared(out, stood)
    wrong = difference(wanted, answer_to_short_out(program, [*words, out], most))
    return wrong or wrong_folder(out.parent, beside, out, left)


def words(program: pathlib.Path) -> Iterator[Case]:
    """The version, and command lines that ask for nothing that the program does."""
    asked: Sequence[Word]
    wanted = f"persist_report {versions.version()}\n".encode()
    yield "['--version']", difference(Answer(wanted), answer(program, ["--version"]))
    no_text: list[list[Word]] = [[b"\xc3", "report"], ["report", b"\xff\xfe"]]
    for asked in no_text:
        yield f"{asked}, which is not text", difference(Answer(error=NOT_TEXT, status=2), answer(program, asked))
    for asked in MISTAKES:
        came = answer(program, asked, EXAMPLE.read_bytes())
        is_told = came.error.startswith(b"error: ") and came.error.endswith(b"\nFor more information, try '--help'.\n")
        is_right = (came.output, is_told, came.status) == (b"", True, 2)
        yield f"{asked}", None if is_right else f"wanted 'error: ' and where to find more, with status 2, came {came}"


def cases(program: pathlib.Path, options: argparse.Namespace) -> Iterator[Case]:
    with tempfile.TemporaryDirectory() as scratch:
        folder = pathlib.Path(scratch)
        yield from images(program)
        yield from files(program, folder)
        yield from inputs(program, folder)
        yield from outputs(program, folder)
        for part in (
            inputs_of_commands, inputs_as_outputs, outputs_of_commands, links, permissions, guarded, open_files,
        ):
            yield from part(program, folder)
        yield from words(program)
        room = folder / "explained"
        room.mkdir()
        yield from explained.cases(program, room, options)
