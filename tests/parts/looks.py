"""Looks at a file that changes between the reads of `look`, beside a plain composition, plain_look.py.

Each look gets three copies: those of worked looks (worked_looks.py), and forged ones of both versions and any length,
and mapped files too. For this the program is traced: before it reads an open file for the first time, the next copy is
put into it. So are the looks of `show --live --every`, of which each text but the first says what came since the text
before, beside a plain renderer, plain_show.py, and those of sums (plain_sums.py).
"""

from __future__ import annotations

import argparse
import collections
import contextlib
import dataclasses
import os
import pathlib
import pty
import random
import re
import shutil
import subprocess
import tempfile
from collections.abc import Iterator, Sequence
from typing import Any

from parts import known
from support import forge, layout, plain_look, plain_reader, plain_show, plain_sums, tracer, worked_looks
from support.layout import HISTOGRAM, ID, REDUNDANT
from support.program import EXAMPLE, ROOT, Answer, Case, Word, answer, content, difference, fault, untried

PROGRAM = "persist_report"
LOOKS = 100
STOOD = b"what stood there before"
# The first histogram of the example, and its units, which are also its redundant count.
FIRST_NAME, FIRST_UNITS = b"request.ms", 70
# How often the last copy is cut, the version may be another one, and the id of one copy is another one.
DAMAGED = 0.1
# How often a file is shown again and again while it changes, and how many looks there are at it then.
CHAINS, LOOKS_OF_CHAIN = 60, 4
SLEEPS = (35, 230)
TIME = rb"\d{4}-\d\d-\d\dT\d\d:\d\d:\d\dZ\n"
# What a file has at first, and then: a histogram is new, and one has another spec.
BEFORE_SCRIPT = b"""\
segment,1024,64,7
hist,load,custom,10,1000
hist,many,sparse
hist,moved,boolean
add,load,5,1
add,load,5000,90
add,many,3,2
add,moved,1,3
"""
AFTER_SCRIPT = b"""\
segment,1024,64,7
hist,load,custom,10,1000
hist,many,sparse
hist,moved,sparse
hist,fresh,boolean
add,load,5,1
add,load,5000,1290
add,many,3,2
add,many,4,7
add,moved,1,4
add,fresh,1,3
"""
# The second text, by hand: with `--ascii --width 50` the bars of `load` have 12 cells, and the others 15.
SINCE_TEXT = b"""\
fresh
  boolean, units 3 +3, sum 3, mean 1.00
  values                 units new percent   up to
   false                     0        0.0%    0.0%
    true ###############     3  +3  100.0%  100.0%

load
  custom, units 1291 +1200, sum 6450005, mean 4996
  50%: >= 1000, 90%: >= 1000, 99%: >= 1000, 99.9%: >= 1000
  least: [0, 10), greatest: >= 1000
   values              units   new percent   up to
  [0, 10) #                1          0.1%    0.1%
      ...
  >= 1000 ############  1290 +1200   99.9%  100.0%

many
  sparse, units 9 +7, sum 34, mean 3.77
  50%: 4, 90%: 4, 99%: 4, 99.9%: 4
  least: 3, greatest: 4
  values                 units new percent   up to
       3 #####               2       22.2%   22.2%
       4 ###############     7  +7   77.8%  100.0%

moved
  sparse, units 4 +4, sum 4, mean 1.00
  50%: 1, 90%: 1, 99%: 1, 99.9%: 1
  least: 1, greatest: 1
  values                 units new percent   up to
       1 ###############     4  +4  100.0%  100.0%

"""


@dataclasses.dataclass
class Changing(tracer.Fault):
    """Puts the next copy into a file, before an open file of it is read for the first time. No call fails."""

    path: pathlib.Path = pathlib.Path()
    copies: Sequence[bytes] = ()
    seen: list[int] = dataclasses.field(default_factory=list)

    def is_meant(self, thread: int, call: tracer.Call) -> bool:
        read = call.arguments[0]
        if call.number == tracer.READ and read not in self.seen and tracer.file_of(thread, read) == str(self.path):
            self.path.write_bytes(self.copies[len(self.seen)])
            self.seen.append(read)
        return False


@dataclasses.dataclass
class Following(tracer.Fault):
    """The same for looks that follow one another, at each of which the file is opened again; and no wait takes time."""

    path: pathlib.Path = pathlib.Path()
    copies: Sequence[bytes] = ()
    given: int = 0
    read: set[int] = dataclasses.field(default_factory=set)

    def is_meant(self, thread: int, call: tracer.Call) -> bool:
        file = call.arguments[0]
        if call.number == tracer.CLOSE:
            self.read.discard(file)
        if call.number == tracer.READ and file not in self.read and tracer.file_of(thread, file) == str(self.path):
            self.path.write_bytes(self.copies[self.given])
            self.given += 1
            self.read.add(file)
        return call.number in SLEEPS


def changed(words: Sequence[int], chance: random.Random) -> list[int]:
    """The words of another copy: some after the header have other values, such as a segment may have."""
    copy = list(words)
    for _ in range(chance.choice([0, 1, 5, 50])):
        place = chance.randrange(layout.QUEUE + layout.NEXT, len(copy))
        copy[place] = chance.choice([chance.choice(copy), 0, layout.QUEUE, layout.TOP, layout.TOP + 7, copy[place] + 1])
        copy[place] %= layout.WORD
    return copy


def copies_of(chance: random.Random) -> list[list[int]]:
    """Three copies of the words of a segment, mostly of version 2."""
    data = forge.image_of(chance)
    words = list(layout.words_of(data[: len(data) // 8 * 8]))
    if len(words) <= layout.FIRST or chance.random() < DAMAGED:
        return [words] * 2 + [words[: chance.randrange(len(words) + 1)]]
    words[1] = 2 if chance.random() > DAMAGED else words[1]
    copies = [changed(words, chance) for _ in range(3)]
    if chance.random() < DAMAGED:
        copies[chance.randrange(3)][ID] += 1
    copies[0][layout.FREE] = chance.choice([words[layout.FREE], layout.FIRST])
    return copies


def looked(copies: Sequence[bytes]) -> tuple[Answer, bytes | None]:
    """What the program returns for these contents of the file, and the bytes of the look, if there is one."""
    seen: plain_reader.Seen = collections.Counter()
    try:
        one, two, three = (plain_reader.words_of(data, seen) for data in copies)
        plain_reader.check_header(three, seen)
    except plain_reader.ImageFault as wrong:
        return fault(str(wrong), 3), None
    if len({len(one), len(two), len(three)}) > 1:
        return fault("Image BadSize", 3), None
    if three[1] != 2:
        return fault("Adopt OldVersion", 3), None
    if not one[: ID + 1] == two[: ID + 1] == three[: ID + 1]:
        return fault("Changed", 3), None
    return Answer(), layout.data_of(plain_look.look_of(one, two, three))


def wrong_look(
    program: pathlib.Path, folder: pathlib.Path, contents: Sequence[bytes], wanted: Answer, image: bytes | None
) -> str | None:
    """What is wrong with a look at a file that has these contents one after the other, or None. `image` has the bytes
    of the look, if there is one."""
    file, out = folder / "file", folder / "out"
    file.write_bytes(b"")
    out.write_bytes(STOOD)
    change = Changing((), path=file, copies=contents)
    wrong = difference(wanted, tracer.answer(program, ["look", file, out], change))
    if wrong is None and content(out) != (STOOD if image is None else image):
        wrong = "OUT is not the look, or not as it was"
    return wrong


def by_hand(program: pathlib.Path, folder: pathlib.Path) -> Iterator[Case]:
    """Worked looks, and copies that give none."""
    for name, copies, look in worked_looks.looks():
        contents = [layout.data_of(copy) for copy in copies]
        yield f"worked look, {name}", wrong_look(program, folder, contents, Answer(), layout.data_of(look))
    for title, place, copy, text in worked_looks.faults():
        contents = [layout.data_of(whole) for whole in worked_looks.copies()]
        contents[place] = layout.data_of(copy)
        yield f"worked look, {title}", wrong_look(program, folder, contents, fault(text, 3), None)


def forged(program: pathlib.Path, folder: pathlib.Path, seed: int | str) -> Iterator[Case]:
    """Looks at forged copies, as images and as mapped files."""
    for number in range(LOOKS):
        chance = random.Random(f"looks {seed} {number}")
        copies = copies_of(chance)
        front = chance.choice([b"", bytes(8)]) if all(copy[:1] == [layout.SEGMENT_COOKIE] for copy in copies) else b""
        contents = [front + layout.data_of(copy) for copy in copies]
        yield f"look {number} of seed {seed}", wrong_look(program, folder, contents, *looked(contents))


def live(program: pathlib.Path, closed: pathlib.Path, look: bytes, folder: pathlib.Path) -> Iterator[Case]:
    """With `--live` a text is that of the look, and standard input cannot be looked at."""
    far = folder / "far"
    far.write_bytes(bytes(24) + closed.read_bytes() + b"more")
    for words in (["report"], ["show"], ["export"], ["info"], ["report", "--rows"], ["show", "--list"]):
        title = " ".join(words)
        wanted = answer(program, words, look)
        assert wanted.output and (wanted.error, wanted.status) == (b"", 0), f"{title}: {wanted}"
        yield f"{title} --live", difference(wanted, answer(program, [*words, "--live", str(closed)]))
        for refused in (answer(program, [*words, "--live"], look), answer(program, [*words, "--live", "-"], look)):
            yield f"{title} --live of standard input", None if refused.status == 2 else str(refused)
        yield f"{title} --live --at", difference(wanted, answer(program, [*words, "--live", "--at", "24", far]))
        alone = answer(program, [*words, "--at", "24", far])
        yield f"{title} --at without --live", None if alone.status == 2 else str(alone)
    old = answer(program, ["report", "--live", EXAMPLE])
    yield "version 1, --live", difference(fault("Adopt OldVersion", 3), old)


def on_screen(words: Sequence[Word]) -> bytes:
    """What a program writes to a terminal."""
    mine, its = pty.openpty()
    written = b""
    with subprocess.Popen(words, stdin=subprocess.DEVNULL, stdout=its, stderr=subprocess.DEVNULL) as running:
        os.close(its)
        # A read fails once nobody has the terminal's other end.
        with contextlib.suppress(OSError):
            while piece := os.read(mine, 65_536):
                written += piece
        running.wait()
    os.close(mine)
    return written.replace(b"\r\n", b"\n")


def repeated(program: pathlib.Path, closed: pathlib.Path, look: bytes, folder: pathlib.Path) -> Iterator[Case]:
    """With `--every` a text comes again: below a line of the time, or in the file, which has the last."""
    again = ["--live", "--every", "1", "--count", "2"]
    second = plain_show.text_of(look, since=look)
    forms: list[tuple[list[str], list[str], bytes]] = [
        (["show"], [], b""),
        (["show"], ["--also"], b""),
        (["show", "--list"], [], b""),
        (["export"], [], b"# "),
    ]
    for words, by, mark in forms:
        text = answer(program, words, look).output
        came = answer(program, [*words, *by, str(closed), *again])
        form = re.escape(text) + mark + TIME + re.escape(second if words == ["show"] else text)
        right = (came.error, came.status) == (b"", 0) and re.fullmatch(form, came.output)
        yield f"{' '.join([*words, *by])} --every", None if right else str(came)
    out = folder / "metrics"
    wanted = answer(program, ["export"], look).output
    came = answer(program, ["export", str(closed), *again, "--to", str(out)])
    yield "export --every --to", difference(Answer(), came) or (None if content(out) == wanted else "another text")
    for words in (["--every", "1"], ["--live", "--count", "2"], ["--live", "--every", "0"], ["--live", "--every", "x"]):
        refused = answer(program, ["show", str(closed), *words])
        yield f"show {' '.join(words)}", None if refused.status == 2 and not refused.output else str(refused)
    gone = answer(program, ["show", str(folder / "none"), *again])
    yield "no file, --every", difference(fault("Read", 4), gone)
    clear, screen = b"\x1b[H\x1b[2J", on_screen([program, "show", closed, *again])
    text = answer(program, ["show"], look).output
    yield "show --every on a terminal", None if screen == clear + text + clear + second else f"it came {screen!r}"
    came = answer(program, ["show", str(closed), *again, "--to", str(out)])
    yield "show --every --to", difference(Answer(), came) or difference(Answer(second), Answer(content(out) or b""))


def shown_again(
    program: pathlib.Path,
    folder: pathlib.Path,
    copies: Sequence[bytes],
    words: Sequence[Word],
    named: Sequence[Word] = (),
) -> tuple[list[bytes], Answer]:
    """The texts of looks at a file that has one copy after the other, without the lines of the time, and the answer. If
    files or folders are named, they are shown, and the file is one of them: then its first bytes are read before."""
    file = folder / "changing"
    file.write_bytes(b"")
    reads = 4 if named else 3
    change = Following(
        SLEEPS, at=0, lasting=True, error=0, path=file, copies=[copy for copy in copies for _ in range(reads)]
    )
    again = ["--live", "--every", "60", "--count", str(len(copies))]
    came = tracer.answer(program, ["show", *(named or [file]), *again, *words], change)
    return re.split(TIME, came.output), came


def look_at(copy: bytes) -> bytes | None:
    """The look at a file that has this copy all the time; None if there is none, or it is no image."""
    image = looked([copy] * 3)[1]
    try:
        if image is not None:
            plain_reader.reading_of(image, collections.Counter())
    except plain_reader.ImageFault:
        return None
    return image


def related(data: bytes, chance: random.Random) -> bytes:
    """An image in which some words of another image are changed, many of them counts."""
    words = list(layout.words_of(data))
    places = [place for place in range(layout.QUEUE + layout.NEXT, len(words)) if 0 < words[place] < 1000]
    for place in chance.sample(places, min(len(places), chance.choice([1, 5, 50]))):
        words[place] += chance.choice([-1, 1, 1, 2, 9, 1000])
    return layout.data_of(words)


def scripted(program: pathlib.Path, folder: pathlib.Path, chance: random.Random) -> list[bytes]:
    """Images of a script that gets longer, in which a sparse histogram has many values."""
    script, image, copies = folder / "script", folder / "image", []
    lines = ["segment,4096,64,7", "hist,many,sparse", "hist,load,linear,1,1000,20", "hist,yes,boolean"]
    for _ in range(LOOKS_OF_CHAIN):
        for _ in range(chance.choice([0, 3, 30])):
            name, value = chance.choice(["many", "many", "load", "yes"]), chance.randint(-40, 60)
            lines.append(f"add,{name},{value},{chance.choice([1, 2, 3, 70_000])}")
        script.write_text("".join(f"{line}\n" for line in lines))
        ran = answer(program, ["run", script, image])
        assert ran.status == 0, str(ran)
        copies.append(image.read_bytes())
    return copies


def copies_of_chain(
    program: pathlib.Path, folder: pathlib.Path, number: int, images: Sequence[bytes], chance: random.Random
) -> list[bytes]:
    """What a file has at looks that follow one another: images of a script that gets longer, known images in any order,
    or a forged one that changes."""
    if number % 3 == 0:
        return scripted(program, folder, chance)
    if number % 3 == 1:
        return [chance.choice(images) for _ in range(LOOKS_OF_CHAIN)]
    copies: list[bytes] = []
    while len(copies) < LOOKS_OF_CHAIN:
        data = related(copies[-1], chance) if copies else forge.image_of(chance)
        if not copies and len(data) % 8 == 0 and len(data) > 16:
            data = data[:8] + (2).to_bytes(8, "little") + data[16:]
        if look_at(data) is not None:
            copies.append(data)
    return copies


def chains(program: pathlib.Path, folder: pathlib.Path, seed: int | str) -> Iterator[Case]:
    """What came since the look before: the worked example, and chains of looks, drawn in one way or the other."""
    script, image = folder / "script", folder / "image"
    copies = []
    for text in (BEFORE_SCRIPT, AFTER_SCRIPT):
        script.write_bytes(text)
        answer(program, ["run", script, image])
        copies.append(image.read_bytes())
    texts, came = shown_again(program, folder, copies, ["--ascii", "--width", "50"])
    wrong = difference(Answer(b"", b"", 0), dataclasses.replace(came, output=b""))
    yield "what came since", wrong or difference(Answer(SINCE_TEXT), Answer(texts[-1]))
    images = [data for data in (path.read_bytes() for path in sorted(known.FOLDER.glob("*.img"))) if look_at(data)]
    for number in range(CHAINS):
        chance = random.Random(f"chain {seed} {number}")
        copies = copies_of_chain(program, folder, number, images, chance)
        settings: dict[str, Any] = {
            "width": chance.randint(40, 200), "is_ascii": chance.random() < 0.5, "is_log": chance.random() < 0.5,
            "is_human": chance.random() < 0.5, "shows_all": chance.random() < 0.5,
            "part": chance.choice([None, None, "a", "A"]),
        }
        flags = {"is_ascii": "--ascii", "is_log": "--log", "is_human": "--human", "shows_all": "--all"}
        words: list[Word] = ["--width", str(settings["width"]), *(flags[name] for name in flags if settings[name])]
        words += ["--match", settings["part"]] if settings["part"] else []
        texts, came = shown_again(program, folder, copies, words)
        wrong = difference(Answer(), dataclasses.replace(came, output=b""))
        before = None
        for place, copy in enumerate(copies):
            look = look_at(copy)
            assert look is not None
            wanted = Answer(plain_show.text_of(look, since=before, is_live=True, **settings))
            wrong = wrong or difference(wanted, Answer(texts[place] if place < len(texts) else b""))
            before = look
        yield f"chain {number} of seed {seed}, {words}", wrong


def sums_again(program: pathlib.Path, top: pathlib.Path, closed: pathlib.Path, seed: int | str) -> Iterator[Case]:
    """What came since the text before, of sums: of two files and of a folder, of which one file changes. Where a bucket
    has fewer units than before, nothing came, and no round ends the command."""
    folder = top / "folder"
    folder.mkdir()
    still = folder / "still"
    shutil.copy(closed, still)
    file = folder / "changing"
    copies = scripted(program, top, random.Random(f"sums {seed}"))
    chosen = [copies[at] for at in (1, 2, 3, 0, 3)]
    inputs: list[list[Word]] = [[file, "--also", still], [folder]]
    for named in inputs:
        texts, came = shown_again(program, folder, chosen, [], named)
        wrong = difference(Answer(), dataclasses.replace(came, output=b""))
        before = None
        for place, copy in enumerate(chosen):
            whole, _ = plain_sums.sum_of([(1, look_at(copy) or b""), (2, look_at(still.read_bytes()) or b"")])
            wanted = Answer(plain_sums.text_since(whole, before, plain_show.text_of, is_live=True))
            wrong = wrong or difference(wanted, Answer(texts[place] if place < len(texts) else b""))
            before = whole
        yield f"what came to {'a folder' if len(named) == 1 else 'two files'}", wrong


def meanwhile(program: pathlib.Path, folder: pathlib.Path, closed: pathlib.Path) -> Iterator[Case]:
    """`show --live` marks the histogram whose units are not its redundant count; no other text does, and no look."""
    words = list(layout.words_of(closed.read_bytes()))
    record = next(at for at in range(len(words)) if words[at + 1 : at + 3] == [forge.BLOCK_COOKIE, HISTOGRAM])
    for count in (FIRST_UNITS - 1, FIRST_UNITS + 1):
        words[record + REDUNDANT] = count
        file = folder / "meanwhile"
        file.write_bytes(layout.data_of(words))
        text = plain_show.text_of(file.read_bytes())
        assert text.count(FIRST_NAME + b"\n") == 1
        marked = text.replace(FIRST_NAME + b"\n", FIRST_NAME + b"\n  counted meanwhile\n")
        choices: list[tuple[list[str], bytes]] = [([], text), (["--live"], marked)]
        for options, wanted in choices:
            came = answer(program, ["show", file, *options])
            yield f"{count} counted once more, {options}", difference(Answer(wanted), came)
        for form in ("--list", "--html"):
            came = answer(program, ["show", file, form, "--live"])
            yield f"{count} counted once more, {form}", difference(answer(program, ["show", file, form]), came)


def cases(program: pathlib.Path, options: argparse.Namespace) -> Iterator[Case]:
    closed = ROOT / "examples" / "crash.img"
    look = layout.data_of(plain_look.look_of(*[layout.words_of(closed.read_bytes())] * 3))
    with tempfile.TemporaryDirectory() as name:
        folder = pathlib.Path(name)
        yield "standard output", difference(Answer(look), answer(program, ["look", closed]))
        yield from live(program, closed, look, folder)
        yield from repeated(program, closed, look, folder)
        yield from meanwhile(program, folder, closed)
        yield "version 1", difference(fault("Adopt OldVersion", 3), answer(program, ["look", EXAMPLE]))
        refused = dataclasses.replace(answer(program, ["look", "-"]), error=b"")
        yield "standard input", difference(Answer(status=2), refused)
        yield "no file", difference(fault("Read", 4), answer(program, ["look", folder / "none"]))
        if not tracer.can_trace():
            yield untried(tracer.NOT_ALLOWED, options)
            return
        yield from by_hand(program, folder.resolve())
        yield from forged(program, folder.resolve(), options.seed)
        yield from chains(program, folder.resolve(), options.seed)
        yield from sums_again(program, folder.resolve(), closed, options.seed)
