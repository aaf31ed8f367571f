"""Faults with `--explain`: the line of a fault is unchanged, and lines follow it. `devices` runs these cases."""

from __future__ import annotations

import argparse
import errno
import itertools
import os
import pathlib
import pty
import random
import subprocess
from collections.abc import Iterator, Sequence
from typing import Any

from support import faults, tracer
from support.layout import with_words
from support.program import EXAMPLE, SCRIPT, Answer, Case, Word, answer, difference, explained, fault, untried

SEGMENT = "segment,256,64,7\n"
# How the system names its errors.
MISSING = "No such file or directory (os error 2)"
IS_FOLDER = "Is a directory (os error 21)"
NO_SPACE = "No space left on device (os error 28)"
# A record after a segment and a histogram, and what is said of it.
BAD_RECORDS = {
    "hist,B,liner": "field 2 after `hist` is `liner`; kinds are boolean, linear, custom, sparse",
    "hits,B,boolean": "the record begins with `hits`; records begin with segment, hist, add, delta",
    "hist,B,linear,1,x,3": "field 4 after `hist` is `x`; it has to be a number from 0 to 4294967295",
    "hist,B,linear,1,4294967296,3": "field 4 after `hist` is `4294967296`; "
    "it has to be a number from 0 to 4294967295",
    "hist,B,custom,1,2,-3": "field 5 after `hist` is `-3`; it has to be a number from 0 to 4294967295",
    "hist,B,custom": "fields after `hist`: 2; its form is hist,NAME,custom,VALUE,.. with one value or more",
    "hist,B,linear,1,2": "fields after `hist`: 4; its form is hist,NAME,linear,MIN,MAX,BUCKETS",
    "hist,B,boolean,1": "fields after `hist`: 3; its form is hist,NAME,boolean or hist,NAME,sparse",
    "hist,B": "fields after `hist`: 1; its form is hist,NAME,KIND and what the kind needs",
    "add,A,1": "fields after `add`: 2; its form is add,NAME,VALUE,COUNT",
    "add,A,2147483648,1": "field 2 after `add` is `2147483648`; "
    "it has to be a number from -2147483648 to 2147483647",
    "add,A,1,": "field 3 after `add` is ``; it has to be a number from 0 to 4294967295",
    "add,B,1,1": "field 1 after `add` is `B`; no `hist` record before it has this name",
    "delta,B": "field 1 after `delta` is `B`; no `hist` record before it has this name",
    "delta": "fields after `delta`: 0; its form is delta,NAME",
    "segment,256,64,7": "only the first record may be a `segment` record",
    "add,A,1,1\nhist,B,boolean": "a `hist` record comes after an `add` or a `delta` record; all of these come last",
    'hist,B,"\x1b[31m`\\"': "field 2 after `hist` is `\\x1b[31m\\x60\\x5c`; kinds are boolean, linear, custom, sparse",
    f"hist,B,{'x' * 65}": f"field 2 after `hist` is `{'x' * 64}...`; kinds are boolean, linear, custom, sparse",
}
SHAPES = "PAGE is a multiple of 16 from 64 to 65536, and SIZE whole pages, at most 1048576"
# A whole script whose first record is bad, and what is said of it.
BAD_STARTS = {
    "": (1, "the script ends before this record"),
    "\n\n": (3, "the script ends before this record"),
    "\r\nhist,A,boolean": (2, "the record begins with `hist`; the first record is segment,SIZE,PAGE,ID"),
    "segment,1000,64,7": (1, f"SIZE is 1000 and PAGE is 64; {SHAPES}"),
    "segment,256,64,x": (1, "field 3 after `segment` is `x`; it has to be a number from 0 to 18446744073709551615"),
    "segment,256,64": (1, "fields after `segment`: 2; its form is segment,SIZE,PAGE,ID"),
    "\ufeff\nsegment,1": (2, "fields after `segment`: 1; its form is segment,SIZE,PAGE,ID"),
}
# Records that are refused, and why.
REFUSED = {
    "hist,B,linear,1,9,2": "BadSpec TooFew",
    "hist,B,linear,0,9,3": "BadSpec BadMin",
    "hist,B,linear,9,9,3": "BadSpec BadMax",
    "hist,B,linear,1,9,99": "BadSpec TooMany",
    "hist,B,custom,0": "BadSpec Empty",
    "hist,B,custom,2147483647": "BadSpec BadRange",
    "hist,!,boolean": "BadName",
    "add,A,1,0": "ZeroCount",
    "add,A,1,4294967295\nadd,A,1,1": "NoUnits",
}
# Records that are too large for a page of 64 words, and how many words they have: a record 15, one for each 8 bytes of
# its name and one for each value of a custom one; counts 4, and 2 for each bucket.
TOO_LARGE = {
    "hist,B,linear,1,900,90": "the counts have 184 words",
    "hist,B,linear,1,900,31": "the counts have 66 words",
    f"hist,B,custom,{','.join(map(str, range(1, 50)))}": "the record has 65 words",
    f"hist,{'B' * 9},custom,{','.join(map(str, range(1, 50)))}": "the record has 66 words",
}
# Those that have just room.
FITTING = ["hist,B,linear,1,900,30", f"hist,B,custom,{','.join(map(str, range(1, 30)))}"]
# Names that are not those of faults, and the name that is meant.
NEAREST = {
    "badlne": "BadLine", "BadLine 1": "BadLine", "toolage": "TooLarge", "NoUnit": "NoUnits", "rea": "Read",
    "reed": "Read", "world1": "World", "othrsegment": "OtherSegment", "": None, "Re": None, "xyz": None,
    "wxyzwxyz": None,
}
# What is stored at a word of a valid header, the fault, and what is said of it.
WORDS = [
    (0, 0x21, "BadCookie", "word 0 is 0x21; it has to be 0x408305dc; is this a Povundiri image?"),
    (1, 3, "BadVersion", "word 1 is 3; it has to be 1 or 2"),
    (
        2, 0, "BadSize",
        "word 2 is 0; it has to be the number of the words that there are, in whole pages and at most 1048576",
    ),
    (3, 2**64 - 1, "BadPage", "word 3 is 18446744073709551615; it has to be a multiple of 16 from 64 to 65536"),
    (5, 0, "NotReady", "word 5 is 0; it has to be 1"),
    (5, 2, "Deleted", "word 5 is 2; it has to be 1; the segment was deleted"),
    (7, 15, "BadFree", "word 7 is 15; it has to be from 16 to the number of words"),
    (12, 5, "BadQueue", "word 12 is 5; it has to be 4, and the two after it 1 and 0"),
]
# What is stored at words of the image of the example's script, why it may not be recorded into again, and what is said
# of it.
DAMAGES = [
    ({1: 1}, "OldVersion", ", word 1 is 1; it has to be 2"),
    ({6: 1}, "Corrupt", ", word 6 is 1; it has to be even"),
    ({6: 3, 20: 5}, "Corrupt", ", word 6 is 3; it has to be even"),
    ({20: 5}, "Damaged", ", the record at word 16 is BadKind"),
    ({15: 32}, "Damaged", ", the list of records stops: BadRef"),
    ({19: 16}, "Damaged", ", the list of records stops: Loop"),
    ({19: 16, 30: 0}, "Damaged", ", the record at word 16 is BadName"),
    ({42: 1}, "Damaged", ", all records are read; other words are none that a segment can have"),
    ({36: 2**32 - 1, 38: 2**32 - 1}, "NoUnits", ""),
]
# Records of a script after the one of BASE's segment, why the last of them is refused, and what is said of BASE. It has
# used 42 of its 128 words, in pages of 64: there is room for one record of 16 words in the first page, and for four in
# the other.
REFUSED_ON = [
    (["hist,A,linear,1,2,3"], "OtherSpec", " has `A` as boolean"),
    (["hist,B,boolean", "hist,B,sparse"], "OtherSpec", None),
    (["hist,A,boolean", "add,A,1,4294967293"], "NoUnits", " has used 3 units"),
    (["hist,A,boolean", "add,A,1,4294967292", "add,A,1,1"], "NoUnits", " has used 3 units"),
    (["hist,A,boolean", "add,A,1,0"], "ZeroCount", None),
    ([f"hist,{name},boolean" for name in "BCDEFG"], "Full", None),
]
# Whole scripts for BASE whose first record is bad, and what is said of them.
BAD_STARTS_ON = {
    "segment,128,64,8\nhits": (1, "SIZE, PAGE and ID have to be those of BASE"),
    "\nsegment,192,64,7": (2, "SIZE, PAGE and ID have to be those of BASE"),
    "segment,128,128,7\nadd,A,1,0": (1, "SIZE, PAGE and ID have to be those of BASE"),
    "segment,96,64,7": (1, f"SIZE is 96 and PAGE is 64; {SHAPES}"),
    "hist,A,boolean": (1, "the record begins with `hist`; the first record is segment,SIZE,PAGE,ID"),
    "": (1, "the script ends before this record"),
}


def both(
    program: pathlib.Path, words: Sequence[Word], text: str, status: int, lines: Sequence[str], **settings: Any
) -> str | None:
    """What is wrong with the answer without `--explain` and then with it, or None."""
    without = difference(fault(text, status), answer(program, words, **settings))
    return without or difference(explained(text, status, lines), answer(program, [*words, "--explain"], **settings))


def scripts(program: pathlib.Path, folder: pathlib.Path) -> Iterator[Case]:
    script, out = folder / "script.csv", folder / "out"
    words: list[Word] = ["run", script, out]
    for bad, said in BAD_RECORDS.items():
        # Before it: an empty line, a name with a line end in it, and a line that ends in both signs.
        script.write_bytes(f'{SEGMENT}\nhist,"A\nA",sparse\r\nhist,A,sparse\n{bad}\n'.encode())
        later = bad.count("\n")
        lines = [f'"{script}", line {6 + later}: {said}']
        yield f"{bad!r}", both(program, words, f"BadLine {4 + later}", 3, lines)
    for start, (line, said) in BAD_STARTS.items():
        script.write_bytes(start.encode())
        yield f"{start!r}", both(program, words, "BadLine 1", 3, [f'"{script}", line {line}: {said}'])
    for bad, why in REFUSED.items():
        script.write_bytes(f"{SEGMENT}\nhist,A,sparse\n{bad}\n".encode())
        later = bad.count("\n")
        yield f"{bad!r}", both(program, words, f"Refused {3 + later} {why}", 3, [f'"{script}", line {4 + later}'])
    for bad, said in TOO_LARGE.items():
        script.write_bytes(f"{SEGMENT}\nhist,A,sparse\n{bad}\n".encode())
        lines = [f'"{script}", line 4: {said}, a page has 64']
        yield f"{bad!r}", both(program, words, "Refused 3 TooLarge", 3, lines)
    for fitting in FITTING:
        script.write_bytes(f"{SEGMENT}\n{fitting}\n".encode())
        came = answer(program, [*words, "--explain"])
        yield f"{fitting!r}, which has room", None if (came.error, came.status) == (b"", 0) else f"{came}"
    yield "a script without an end", both(
        program, ["run", "/dev/zero", out], "TooLong", 3, ['"/dev/zero": 16777217 bytes were read']
    )
    yield "a script that is valid", difference(
        answer(program, ["run", SCRIPT, out]), answer(program, ["run", SCRIPT, out, "--explain"])
    )


def lines_of_random_scripts(program: pathlib.Path, folder: pathlib.Path) -> Iterator[Case]:
    """Scripts with empty lines, fields in quotes and ends of lines of all sorts: the line of the record is that of a
    plain count."""
    chance, script = random.Random(7), folder / "script.csv"
    for number in range(40):
        text, records = SEGMENT, 1
        for _ in range(chance.randrange(1, 30)):
            text += chance.choice(["\n", "\r\n", "\n\n\r", ""])
            text += chance.choice(
                ['hist,"A\nB\n",sparse', "hist,C,boolean", '"hist",D,sparse', 'hist,"""\r\n",boolean']
            )
            text, records = text + chance.choice(["\n", "\r\n", "\r\n\n"]), records + 1
        line = text.count("\n") + 1
        script.write_bytes(f"{text}hits".encode())
        said = f'"{script}", line {line}: the record begins with `hits`; records begin with segment, hist, add, delta'
        yield f"random script {number}", both(
            program, ["run", script, folder / "out"], f"BadLine {records + 1}", 3, [said]
        )


def images(program: pathlib.Path, folder: pathlib.Path) -> Iterator[Case]:
    image, example = folder / "bad.img", EXAMPLE.read_bytes()
    both_inputs: dict[str, list[Word]] = {"BASE": ["merge", image, EXAMPLE], "DEAD": ["merge", EXAMPLE, image]}
    for at, word, name, said in WORDS:
        image.write_bytes(with_words(example, {at: word}))
        yield f"{name} of a file", both(program, ["report", image], f"Image {name}", 3, [f'"{image}", {said}'])
        for role, words in both_inputs.items():
            yield f"{name} of {role}", both(
                program, [*words, folder / "out"], f"Image {name}", 3, [f'"{image}", {said}']
            )
        yield f"{name} of standard input", both(
            program, ["report"], f"Image {name}", 3, [f"standard input, {said}"], data=image.read_bytes()
        )
    image.write_bytes(example[:64])
    yield "an image that is cut short", both(
        program, ["report", image], "Image TooShort", 3, [f'"{image}" has 64 bytes; an image has 128 or more']
    )
    image.write_bytes(b"")
    for words in both_inputs.values():
        wrong = both(
            program, [*words, folder / "out"], "Image TooShort", 3, [f'"{image}" has 0 bytes; an image has 128 or more']
        )
        yield "an image without bytes", wrong
    image.write_bytes(example[:-1])
    yield "no words", both(
        program, ["report", image], "NotWords", 3, [f'"{image}": {len(example) - 1} bytes were read']
    )
    yield "an image without an end", both(
        program, ["report", "/dev/zero"], "TooLong", 3, ['"/dev/zero": 8388609 bytes were read']
    )


def merges(program: pathlib.Path, folder: pathlib.Path) -> Iterator[Case]:
    """Two images that give one name two specs, and one that has no room."""
    images: list[pathlib.Path] = []
    specs = ["linear,1,100,10", f"custom,{','.join(map(str, range(1, 21)))}"]
    for number, spec in enumerate(specs):
        script, image = folder / "script.csv", folder / f"{number}.img"
        script.write_bytes(
            f"segment,512,128,7\nhist,load,{spec}\nhist,N{number},sparse\n"
            f"add,load,5,1\nadd,load,50,1\nadd,N{number},1,1\n".encode()
        )
        answer(program, ["run", script, image])
        images.append(image)
    words: list[Word] = ["merge", *images, folder / "out"]
    said = [
        f'BASE "{images[0]}" has `load` as linear,1,100,10',
        f'DEAD "{images[1]}" has `load` as custom,{",".join(map(str, range(1, 17)))},...',
    ]
    yield "two specs", both(program, words, "Merge load OtherSpec", 3, said)
    samples = "".join(f"add,S,{value},1\n" for value in range(20))
    (folder / "script.csv").write_bytes(f"segment,1024,64,7\nhist,S,sparse\n{samples}".encode())
    answer(program, ["run", folder / "script.csv", folder / "large.img"])
    (folder / "script.csv").write_bytes(b"segment,64,64,7\nhist,A,boolean\n")
    answer(program, ["run", folder / "script.csv", folder / "small.img"])
    words = ["merge", folder / "small.img", folder / "large.img", folder / "out"]
    yield "no room", both(program, words, "Merge S Full", 3, [f'DEAD "{folder / "large.img"}" has `S` as sparse'])
    words = ["merge", folder / "small.img", images[1], folder / "out"]
    many = f"custom,{','.join(map(str, range(1, 50)))}"
    (folder / "script.csv").write_bytes(f"segment,512,128,7\nhist,M,{many}\nadd,M,1,1\n".encode())
    answer(program, ["run", folder / "script.csv", images[1]])
    said = [
        f'DEAD "{images[1]}" has `M` as custom,{",".join(map(str, range(1, 17)))},...',
        f'BASE "{folder / "small.img"}": the record has 65 words, a page has 64',
    ]
    yield "larger than a page of BASE", both(program, words, "Merge M TooLarge", 3, said)


def bases(program: pathlib.Path, folder: pathlib.Path) -> Iterator[Case]:
    """Images that may not be recorded into again."""
    image, out = folder / "base.img", folder / "out"
    answer(program, ["run", SCRIPT, image])
    right = image.read_bytes()
    words: list[Word] = ["resume", image, SCRIPT, out]
    for stored, name, said in DAMAGES:
        image.write_bytes(with_words(right, stored))
        yield f"{name} of {stored}", both(program, words, f"Adopt {name}", 3, [f'"{image}"{said}'])
    for at, word, name, said in WORDS:
        image.write_bytes(with_words(right, {at: word}))
        yield f"{name} of an image that is recorded into", both(
            program, words, f"Adopt Image {name}", 3, [f'"{image}", {said}']
        )
    image.write_bytes(right[:64])
    wrong = both(program, words, "Adopt Image TooShort", 3, [f'"{image}" has 64 bytes; an image has 128 or more'])
    yield "an image that is recorded into and cut short", wrong
    image.write_bytes(right[:-1])
    yield "no words to record into", both(
        program, words, "NotWords", 3, [f'"{image}": {len(right) - 1} bytes were read']
    )
    words[1] = "/dev/zero"
    yield "no end to record into", both(program, words, "TooLong", 3, ['"/dev/zero": 8388609 bytes were read'])


def scripts_on(program: pathlib.Path, folder: pathlib.Path) -> Iterator[Case]:
    """Scripts that cannot be recorded into an image."""
    base, script, out = folder / "base.img", folder / "script.csv", folder / "out"
    answer(program, ["run", SCRIPT, base])
    words: list[Word] = ["resume", base, script, out]
    for records, why, said in REFUSED_ON:
        script.write_bytes("\n".join(["segment,128,64,7", *records]).encode())
        last = 1 + len(records)
        lines = [f'"{script}", line {last}', *([] if said is None else [f'BASE "{base}"{said}'])]
        yield f"{records} on an image", both(program, words, f"Refused {last} {why}", 3, lines)
    for start, (line, said) in BAD_STARTS_ON.items():
        script.write_bytes(start.encode())
        lines = [f'"{script}", line {line}: {said}', f'BASE "{base}" is of segment,128,64,7']
        yield f"{start!r} on an image", both(program, words, "BadLine 1", 3, lines)
    script.write_bytes(b"segment,128,64,7\nhits")
    said = f'"{script}", line 2: the record begins with `hits`; records begin with segment, hist, add, delta'
    yield "a bad record on an image", both(program, words, "BadLine 2", 3, [said])
    words[2] = "/dev/zero"
    yield "a script without an end on an image", both(
        program, words, "TooLong", 3, ['"/dev/zero": 16777217 bytes were read']
    )
    words[2] = SCRIPT
    yield "a script on an image", difference(answer(program, words), answer(program, [*words, "--explain"]))


def unreadable(program: pathlib.Path, folder: pathlib.Path) -> Iterator[Case]:
    """Inputs that are missing, and folders in place of inputs."""
    out, base = folder / "out", folder / "base.img"
    answer(program, ["run", SCRIPT, base])
    missing, is_folder = f'"missing": {MISSING}', f'"{folder}": {IS_FOLDER}'
    reads: dict[str, tuple[list[Word], str]] = {
        "a missing image": (["report", "no\nfile"], f'"no\\nfile": {MISSING}'),
        "a folder as an image": (["info", folder], is_folder),
        "a missing script": (["run", "missing", out], missing),
        "a missing base": (["merge", "missing", EXAMPLE, out], missing),
        "a missing dead": (["merge", EXAMPLE, "missing", out], missing),
        "a base that cannot be read": (["merge", folder, EXAMPLE, out], is_folder),
        "a dead that cannot be read": (["merge", EXAMPLE, folder, out], is_folder),
        "a missing base to continue with": (["resume", "missing", SCRIPT, out], missing),
        "a missing script to continue with": (["resume", EXAMPLE, "missing", out], missing),
        "a base to continue with that cannot be read": (["resume", folder, SCRIPT, out], is_folder),
        "a script to continue with that cannot be read": (["resume", base, folder, out], is_folder),
    }
    for name, (words, said) in reads.items():
        yield name, both(program, words, "Read", 4, [said], cwd=folder)


def unwritable(program: pathlib.Path, folder: pathlib.Path) -> Iterator[Case]:
    """OUT that cannot be written, and reports on a full device."""
    out, base, nowhere = folder / "out", folder / "base.img", folder / "missing" / "out"
    answer(program, ["run", SCRIPT, base])
    writes: dict[str, list[Word]] = {
        "run": ["run", SCRIPT], "merge": ["merge", EXAMPLE, EXAMPLE], "resume": ["resume", base, SCRIPT],
    }
    for name, words in writes.items():
        yield f"{name} into no folder", both(program, [*words, nowhere], "Write", 4, [f'"{nowhere}": {MISSING}'])
        yield f"{name} into a folder", both(program, [*words, folder], "Write", 4, [f'"{folder}": {IS_FOLDER}'])
        yield f"{name} into a full device", both(
            program, [*words, "/dev/full"], "Write", 4, [f'"/dev/full": {NO_SPACE}']
        )
    full = os.open("/dev/full", os.O_WRONLY)
    reports: dict[str, list[Word]] = {
        "report": ["report", EXAMPLE], "run": ["run", SCRIPT, out], "resume": ["resume", base, SCRIPT, out],
    }
    for name, words in reports.items():
        lines = [f"standard output: {NO_SPACE}"]
        yield f"the report of {name} on a full device", both(program, words, "Write", 4, lines, stdout=full)
    os.close(full)


def wants(program: pathlib.Path, folder: pathlib.Path, options: argparse.Namespace) -> Iterator[Case]:
    """A worker that cannot be started, and memory that is refused from some allocation on."""
    if not tracer.can_trace():
        yield untried(tracer.NOT_ALLOWED, options)
        return
    words: list[Word] = ["run", SCRIPT, folder / "out", "--explain"]
    came = tracer.answer(program, words, tracer.Fault((tracer.CLONE, tracer.CLONE_3), at=0, error=errno.EAGAIN))
    yield "no thread", difference(explained("NoThread", 5, []), came)
    wanted = (fault("NoMemory", 5), explained("NoMemory", 5, []))
    growths = (tracer.MAP, tracer.BREAK, tracer.REMAP)
    for place in itertools.count():
        made = tracer.Fault(growths, at=place, lasting=True, error=errno.ENOMEM)
        came = tracer.answer(
            program, words, made, env={**os.environ, "MALLOC_MMAP_THRESHOLD_": "0", "MALLOC_TOP_PAD_": "0"}
        )
        if came in wanted or made.met <= place:
            break
    # If there is no memory for these lines either, the line of the fault comes alone.
    yield "no memory", None if came in wanted else difference(wanted[0], came)


def on_terminal(program: pathlib.Path, words: Sequence[Word], **settings: Any) -> Answer:
    """What a program writes to an error stream that is a terminal."""
    mine, its = pty.openpty()
    streams: dict[str, Any] = {"stdout": subprocess.PIPE, **settings}
    done = subprocess.run([program, *words], stdin=subprocess.DEVNULL, stderr=its, **streams)
    os.close(its)
    text = b""
    try:
        while more := os.read(mine, 65536):
            text += more
    except OSError:
        pass
    os.close(mine)
    return Answer(done.stdout or b"", text.replace(b"\r\n", b"\n"), done.returncode)


def told(program: pathlib.Path, folder: pathlib.Path) -> Iterator[Case]:
    """A terminal, and the command `explain`."""
    wanted = explained("Read", 4, [f'"/missing": {MISSING}'])
    yield "a terminal", difference(wanted, on_terminal(program, ["report", "/missing"]))
    yield "a terminal that has nothing to tell", difference(
        answer(program, ["report", EXAMPLE]), on_terminal(program, ["report", EXAMPLE])
    )
    every = b""
    texts: dict[str, bytes] = {}
    for name, meaning, remedy in faults.all_texts():
        text = f"{name}: {meaning}\n  {remedy}\n".encode()
        texts[name] = texts.get(name, b"") + text
        every += text
    for name, text in texts.items():
        for asked in (name, name.lower(), name.upper()):
            yield f"explain {asked}", difference(Answer(text), answer(program, ["explain", asked]))
    yield "explain", difference(Answer(every), answer(program, ["explain"]))
    for status, name in faults.fault_names().items():
        for asked in (f"POVUNDIRI_{status}", f"povundiri_{status.lower()}"):
            yield f"explain {asked}", difference(Answer(texts[name]), answer(program, ["explain", asked]))
    advised = [name for name, meaning, remedy in faults.all_texts() if "--explain" in meaning + remedy]
    yield "no explanation advises --explain", f"{advised} do" if advised else None
    for name, nearest in NEAREST.items():
        came = answer(program, ["explain", name])
        said = "error: no fault has this name" + (f"; did you mean {nearest}?\n" if nearest else "\n")
        is_right = came.error.decode().startswith(said) and (came.output, came.status) == (b"", 2)
        yield f"explain {name!r}", None if is_right else f"wanted {said!r}, came {came}"


def cases(program: pathlib.Path, folder: pathlib.Path, options: argparse.Namespace) -> Iterator[Case]:
    for part in (scripts, lines_of_random_scripts, images, merges, bases, scripts_on, unreadable, unwritable, told):
        yield from part(program, folder)
    yield from wants(program, folder, options)
