"""Worked examples of `run`, `merge` and `resume`: scripts, and what is stored in the words of images, and what then has
to be answered and written."""

from __future__ import annotations

import argparse
import pathlib
import tempfile
from collections.abc import Iterator, Mapping, Sequence

from parts import worked
from parts.worked import COUNTS_REFERENCE, REDUNDANT, SINGLE, SINGLE_MARK, SUM, SUM_MARK
from support.layout import (
    BLOCK_COOKIE, FREE, FROZEN, MOST_SUM, MOST_UNITS, TAIL, TOP, VERSION, Words, with_words,
)
from support.program import EXAMPLE, Answer, Case, Word, answer, difference, fault

PROGRAM = "persist_report"
# Words of an image, by their indices.
Stored = Mapping[int, int]

FIRST_COUNT, SECOND_COUNT = 36, 37

SEGMENT = b"segment,128,64,7\n"
THREE_SAMPLES = SEGMENT + b"hist,A,boolean\nadd,A,1,1\nadd,A,1,1\nadd,A,0,1\n"
THREE_REPORT = b"A,boolean,0,1,1\nA,boolean,1,2,2\nA,total,3,2\n"

SCRIPTS = {
    "three samples": (THREE_SAMPLES, Answer(THREE_REPORT)),
    "three samples and a delta": (THREE_SAMPLES + b"delta,A\n", Answer(THREE_REPORT)),
    "no histogram": (SEGMENT, Answer()),
    "no bytes": (b"", fault("BadLine 1", 3)),
    "an invalid page": (b"segment,128,60,7\n", fault("BadLine 1", 3)),
    "an unknown name": (SEGMENT + b"hist,A,boolean\nadd,B,1,1\n", fault("BadLine 3", 3)),
    "a count of 0": (SEGMENT + b"hist,A,boolean\nadd,A,1,0\n", fault("Refused 3 ZeroCount", 3)),
    "one unit too many": (SEGMENT + b"hist,A,boolean\nadd,A,1,4294967295\nadd,A,1,1\n", fault("Refused 4 NoUnits", 3)),
    "all units": (
        SEGMENT + b"hist,A,boolean\nadd,A,1,4294967295\n",
        Answer(b"A,boolean,1,2,4294967295\nA,total,4294967295,4294967295\n"),
    ),
    "too few buckets": (SEGMENT + b"hist,a!,linear,1,10,2\n", fault("Refused 2 BadSpec TooFew", 3)),
    "a custom value that is too great": (
        SEGMENT + b"hist,A,custom,2147483647\n",
        fault("Refused 2 BadSpec BadRange", 3),
    ),
    "the custom value 0 alone": (SEGMENT + b"hist,A,custom,0\n", fault("Refused 2 BadSpec Empty", 3)),
    "values of a boolean": (
        SEGMENT + b"hist,A,boolean\nadd,A,-3,1\nadd,A,0,1\nadd,A,1,1\nadd,A,5,1\nadd,A,2147483647,1\n",
        Answer(b"A,boolean,0,1,2\nA,boolean,1,2,1\nA,boolean,2,2147483647,2\nA,total,5,2147483652\n"),
    ),
    "values of a linear histogram": (
        SEGMENT + b"hist,L,linear,1,10,5\nadd,L,-3,1\nadd,L,5,2\nadd,L,2147483647,4\n",
        Answer(b"L,linear,0,1,1\nL,linear,4,7,2\nL,linear,10,2147483647,4\nL,total,7,8589934594\n"),
    ),
    "values of a sparse histogram": (
        SEGMENT + b"hist,S,sparse\nadd,S,-3,1\nadd,S,5,2\nadd,S,2147483647,4\n",
        Answer(b"S,sparse,-3,-2,1\nS,sparse,5,6,2\nS,sparse,2147483647,2147483648,4\nS,total,7,8589934595\n"),
    ),
    "an invalid name": (SEGMENT + b"hist,!x,boolean\n", fault("Refused 2 BadName", 3)),
    "no name": (SEGMENT + b"hist,,boolean\n", fault("Refused 2 BadName", 3)),
    "a name with a comma": (SEGMENT + b'hist,"a,b",boolean\n', fault("Refused 2 BadName", 3)),
    "a name of 129 bytes": (SEGMENT + b"hist,%b,boolean\n" % (129 * b"n"), fault("Refused 2 BadName", 3)),
    "a name of 128 bytes": (SEGMENT + b"hist,%b,boolean\n" % (128 * b"n"), Answer(128 * b"n" + b",total,0,0\n")),
    "another spec": (SEGMENT + b"hist,A,boolean\nhist,A,linear,1,2,3\n", fault("Refused 3 OtherSpec", 3)),
    "counts longer than a page": (SEGMENT + b"hist,A,linear,1,100,31\n", fault("Refused 2 TooLarge", 3)),
    "counts as long as a page": (SEGMENT + b"hist,A,linear,1,100,30\n", Answer(b"A,total,0,0\n")),
    "no room": (
        b"segment,64,64,7\nhist,A,boolean\nhist,B,boolean\nhist,C,boolean\nhist,D,boolean\n",
        fault("Refused 5 Full", 3),
    ),
    # The records of three histograms fill the segment. Each sample of S is refused, whichever worker adds it: the first
    # one is reported.
    "two samples without room": (
        b"segment,64,64,7\nhist,A,boolean\nhist,B,boolean\nhist,S,sparse\nadd,A,1,1\nadd,S,1,1\nadd,S,2,1\n",
        fault("Refused 6 Full", 3),
    ),
}

# With one worker, whose second sample needs counts for which there is no room.
NO_ROOM_FOR_COUNTS = (
    b"segment,64,64,7\nhist,A,boolean\nhist,B,boolean\nhist,C,boolean\nadd,A,1,1\nadd,A,0,1\nadd,A,1,1\n"
)


def image(stored: Stored) -> bytes:
    """The example's image, the boolean histogram A with the samples 1, 1 and 0 in version 1, with these words in it."""
    return with_words(EXAMPLE.read_bytes(), stored)


def blank(version: int = 1) -> bytes:
    """An image without histograms."""
    return Words(128, 64, version).bytes()


def packed(stored: Stored) -> bytes:
    """An image in which A has no block of counts, with these words in it."""
    none = {COUNTS_REFERENCE: 0, FREE: 32, SINGLE: 0, SUM: 0, REDUNDANT: 0}
    return image({**none, **stored})[: 8 * 32] + bytes(8 * 96)


def frozen(bucket: int, units: int) -> int:
    return FROZEN + bucket * 2**32 + units


# Of the image in version 2: bucket 1 is frozen with two units, and bucket 0 has one.
IN_VERSION_2 = {VERSION: 2, SINGLE: frozen(1, 2), FIRST_COUNT: 1, SECOND_COUNT: 0}
# What the image of some scripts has, run by one worker: in version 2, too, single words pack up to 65,535 units.
WRITTEN: dict[str, tuple[bytes, bytes]] = {
    "three samples": (THREE_SAMPLES, image(IN_VERSION_2)),
    "two samples": (
        SEGMENT + b"hist,A,boolean\nadd,A,1,1\nadd,A,1,1\n",
        packed({VERSION: 2, SINGLE: 2**32 + 2, SUM: 2, REDUNDANT: 2}),
    ),
    "as much as is packed": (
        SEGMENT + b"hist,A,boolean\nadd,A,1,65535\n",
        packed({VERSION: 2, SINGLE: 2**32 + 65_535, SUM: 65_535, REDUNDANT: 65_535}),
    ),
    "one more than is packed": (
        SEGMENT + b"hist,A,boolean\nadd,A,1,65535\nadd,A,1,1\n",
        image({VERSION: 2, SINGLE: frozen(1, 65_535), FIRST_COUNT: 0, SECOND_COUNT: 1, SUM: 65_536, REDUNDANT: 65_536}),
    ),
    "more than is packed": (
        SEGMENT + b"hist,A,boolean\nadd,A,1,70000\n",
        image({VERSION: 2, SINGLE: FROZEN, FIRST_COUNT: 0, SECOND_COUNT: 70_000, SUM: 70_000, REDUNDANT: 70_000}),
    ),
    "sparse marks": (
        SEGMENT + b"hist,S,sparse\nadd,S,-5,2\nadd,S,7,1\ndelta,S\n",
        worked.stored_in(worked.BLANK, worked.SPARSE, {VERSION: 2, SUM_MARK: -3, 39: 2, 47: 1}),
    ),
}
# A delta took the two samples 1.
TAKEN = {SINGLE_MARK: 2, SUM_MARK: 2}
MOST_COUNTS = {FIRST_COUNT: MOST_UNITS, SECOND_COUNT: MOST_UNITS}
REMAINDERS = image({VERSION: 2, SINGLE: frozen(0, 2), FIRST_COUNT: 0, SECOND_COUNT: 2, REDUNDANT: 4})
REMAINDERS_REPORT = b"A,boolean,0,1,2\nA,boolean,1,2,2\nA,total,4,2\n"
NO_UNITS = fault("Merge A NoUnits", 3)

# BASE and DEAD, and the image that has to be written, by its bytes or by its report; or the fault.
MERGES: dict[str, tuple[bytes, bytes, Answer | bytes | None, bytes | None]] = {
    "remainders": (image(TAKEN), image({}), REMAINDERS, REMAINDERS_REPORT),
    "remainders, DEAD of version 2": (image(TAKEN), image(IN_VERSION_2), REMAINDERS, REMAINDERS_REPORT),
    "remainders, BASE of version 2": (image({**IN_VERSION_2, **TAKEN}), image({}), REMAINDERS, REMAINDERS_REPORT),
    "a remainder alone": (
        blank(),
        image(TAKEN),
        packed({VERSION: 2, SINGLE: 1, REDUNDANT: 1}),
        b"A,boolean,0,1,1\nA,total,1,0\n",
    ),
    "no histograms": (blank(), blank(2), blank(2), b""),
    "no remainder": (
        blank(2), packed({SINGLE: 2**32 + 2, SUM: 2, REDUNDANT: 2, **TAKEN}), packed({VERSION: 2}), b"A,total,0,0\n",
    ),
    "a mark above its total": (
        blank(),
        image({SINGLE_MARK: 65_535}),
        packed({VERSION: 2, SINGLE: 1, SUM: 2, REDUNDANT: 1}),
        b"A,boolean,0,1,1\nA,total,1,2\n",
    ),
    "two items": (
        blank(),
        image({FIRST_COUNT: 2, SECOND_COUNT: 3, SUM: 3}),
        None,
        b"A,boolean,0,1,2\nA,boolean,1,2,3\nA,total,5,3\n",
    ),
    "the greatest sum": (
        blank(),
        packed({SUM: MOST_SUM}),
        packed({VERSION: 2, SUM: MOST_SUM}),
        b"A,total,0,9223372034707292160\n",
    ),
    "the least sum": (
        packed({SUM: -MOST_SUM}),
        blank(),
        packed({VERSION: 2, SUM: -MOST_SUM}),
        b"A,total,0,-9223372034707292160\n",
    ),
    "the least sum below its mark": (
        packed({SUM_MARK: MOST_SUM}),
        blank(),
        packed({VERSION: 2, SUM: -MOST_SUM}),
        b"A,total,0,-9223372034707292160\n",
    ),
    "a sum for the units that are left": (
        image({FIRST_COUNT: MOST_UNITS - 4, SECOND_COUNT: 0, SUM: 0}),
        packed({SUM: 4 * 2**31}),
        None,
        b"A,boolean,0,1,4294967291\nA,total,4294967291,8589934592\n",
    ),
    "a sum that is one too great": (
        image({FIRST_COUNT: MOST_UNITS - 4, SECOND_COUNT: 0, SUM: 0}),
        packed({SUM: 4 * 2**31 + 1}),
        NO_UNITS,
        None,
    ),
    "two greatest sums": (packed({SUM: MOST_SUM}), packed({SUM: MOST_SUM}), NO_UNITS, None),
    "past the units in DEAD": (blank(), image(MOST_COUNTS), NO_UNITS, None),
    "past the units in BASE": (image(MOST_COUNTS), blank(), NO_UNITS, None),
    "past the units of both": (image({FIRST_COUNT: MOST_UNITS - 2}), packed({SINGLE: 1}), NO_UNITS, None),
    "another spec": (image({}), image({20: 1}), fault("Merge A OtherSpec", 3), None),
    "faults of both": (image({0: 0}), b"no words", fault("Image BadCookie", 3), None),
    "a fault of DEAD": (image({}), image({5: 2}), fault("Image Deleted", 3), None),
    "no words in BASE": (image({})[:-1], image({}), fault("NotWords", 3), None),
    "a word too few in DEAD": (image({}), image({})[:-8], fault("Image BadSize", 3), None),
}

ONE_MORE = SEGMENT + b"hist,A,boolean\nadd,A,0,1\n"
ONE_MORE_REPORT = b"A,boolean,0,1,2\nA,boolean,1,2,2\nA,total,4,2\n"
THREE_MORE = {FIRST_COUNT: 2, SECOND_COUNT: 2, SUM: 4, REDUNDANT: 6}
# What a stop has left between the exchange that freezes two units of bucket 1 and the addition to another bucket.
STOPPED = {VERSION: 2, SINGLE: frozen(1, 2), FIRST_COUNT: 0, SECOND_COUNT: 0, SUM: 2, REDUNDANT: 2}
# A delta took a sum that samples took back later.
TAKEN_BACK = packed({VERSION: 2, SUM: 2**31, SUM_MARK: 2**62})


def adding(count: int) -> bytes:
    return SEGMENT + b"hist,A,boolean\nadd,A,1,%d\n" % count


# The sparse histogram S with three samples -5: two recorders made a block for the value at once, and that at 40 is the
# first on the list.
RACED = worked.stored_in(
    worked.BLANK, worked.SPARSE,
    {VERSION: 2, TAIL: 32, 19: 40, 35: 12, 38: 0, 43: 32, 45: -5, 46: 3, SUM: -15, REDUNDANT: 3},
)

# BASE, the script, and what comes; and the words of the image that are others than those of BASE, if they are known.
RESUMES: dict[str, tuple[bytes, bytes, Answer, Stored | None]] = {
    "one sample more": (image(IN_VERSION_2), ONE_MORE, Answer(ONE_MORE_REPORT), {FIRST_COUNT: 2, REDUNDANT: 4}),
    "three samples more": (
        image(IN_VERSION_2),
        THREE_SAMPLES,
        Answer(b"A,boolean,0,1,2\nA,boolean,1,2,4\nA,total,6,4\n"),
        THREE_MORE,
    ),
    "nothing more": (image(IN_VERSION_2), SEGMENT, Answer(THREE_REPORT), {}),
    "a delta of all": (
        image(IN_VERSION_2),
        SEGMENT + b"hist,A,boolean\ndelta,A\n",
        Answer(THREE_REPORT),
        {SINGLE_MARK: 2, SUM_MARK: 2, 39: 1},
    ),
    "a tail left behind": (image({**IN_VERSION_2, 8: 12}), ONE_MORE, Answer(ONE_MORE_REPORT), None),
    "a full flag": (
        image({**IN_VERSION_2, 6: 2}), ONE_MORE, Answer(ONE_MORE_REPORT + b"!flag,full\n"),
        {FIRST_COUNT: 2, REDUNDANT: 4},
    ),
    "a stop": (image(STOPPED), ONE_MORE, Answer(THREE_REPORT), {FIRST_COUNT: 1, REDUNDANT: 3}),
    "all units that are left": (
        image(IN_VERSION_2),
        adding(MOST_UNITS - 3),
        Answer(b"A,boolean,0,1,1\nA,boolean,1,2,4294967294\nA,total,4294967295,4294967294\n"),
        {SECOND_COUNT: MOST_UNITS - 3, SUM: MOST_UNITS - 1, REDUNDANT: MOST_UNITS},
    ),
    "one unit more than are left": (image(IN_VERSION_2), adding(MOST_UNITS - 2), fault("Refused 3 NoUnits", 3), None),
    "all units that a sum has left": (
        TAKEN_BACK, adding(2**31 - 1), Answer(b"A,boolean,1,2,2147483647\nA,total,2147483647,4294967295\n"), None,
    ),
    "one unit more than a sum has left": (TAKEN_BACK, adding(2**31), fault("Refused 3 NoUnits", 3), None),
    "a value of two blocks": (
        RACED,
        SEGMENT + b"hist,S,sparse\nadd,S,-5,1\n",
        Answer(b"S,sparse,-5,-4,4\nS,total,4,-20\n"),
        {46: 4, SUM: -20, REDUNDANT: 4},
    ),
    "another id": (image(IN_VERSION_2), b"segment,128,64,8\n", fault("BadLine 1", 3), None),
    "another page, and a later fault": (image(IN_VERSION_2), b"segment,128,128,7\nhits\n", fault("BadLine 1", 3), None),
    "another size, and units that are too many": (
        image(IN_VERSION_2),
        b"segment,192,64,7\n" + adding(MOST_UNITS)[17:],
        fault("BadLine 1", 3),
        None,
    ),
    "another spec": (image(IN_VERSION_2), SEGMENT + b"hist,A,linear,1,2,3\n", fault("Refused 2 OtherSpec", 3), None),
}


def shared_counts() -> bytes:
    """Two histograms that name one block of counts."""
    record = {0: 16, 1: BLOCK_COOKIE, 2: 1, 4: 2, 5: 1, 6: 2, 7: 3, 8: 48, 9: FROZEN, 14: 1}
    records = {start + at: word for start in (16, 32) for at, word in record.items()}
    counts = {48: 10, 49: BLOCK_COOKIE, 50: 2, 52: 1}
    return with_words(
        blank(2), {**records, **counts, 15: 16, 19: 32, 35: 12, 31: ord("A"), 47: ord("B"), FREE: 58, 8: 32}
    )


# What is stored in the words of an image in version 2, and why it may then not be recorded into again.
NOT_ADOPTED = {
    "Image Deleted": [{5: 2}, {5: 2, 6: 1}],
    "OldVersion": [{VERSION: 1, SINGLE: TOP + 1, FIRST_COUNT: 1, SECOND_COUNT: 2}, {VERSION: 1, 6: 1}],
    "Corrupt": [{6: 1}, {6: 3}, {6: 1, 42: 1}],
    "Damaged": [
        {42: 1}, {FREE: 60}, {8: 13}, {SINGLE: 0}, {31: 321}, {40: 1}, {42: 1, FIRST_COUNT: MOST_UNITS, 38: MOST_UNITS},
    ],
    "NoUnits": [{FIRST_COUNT: MOST_UNITS, 38: MOST_UNITS}],
}


def wrong_fault(program: pathlib.Path, words: Sequence[Word], wanted: Answer, out: pathlib.Path) -> str | None:
    """What is wrong with the fault of a command that has no OUT before it, or None."""
    out.unlink(missing_ok=True)
    return difference(wanted, answer(program, words)) or ("OUT was made" if out.exists() else None)


def runs(program: pathlib.Path, folder: pathlib.Path) -> Iterator[Case]:
    script, out = folder / "script", folder / "out"
    for name, (text, wanted) in SCRIPTS.items():
        script.write_bytes(text)
        for workers in (1, 2, 16):
            words: list[Word] = ["run", script, out, "--workers", str(workers)]
            if wanted.status == 0:
                yield f"run, {name}, {workers} workers", difference(wanted, answer(program, words))
            else:
                yield f"run, {name}, {workers} workers", wrong_fault(program, words, wanted, out)
    script.write_bytes(NO_ROOM_FOR_COUNTS)
    yield "run, no room for counts", wrong_fault(program, ["run", script, out], fault("Refused 6 Full", 3), out)


def written(program: pathlib.Path, folder: pathlib.Path) -> Iterator[Case]:
    script, out = folder / "script", folder / "out"
    for name, (text, wanted) in WRITTEN.items():
        script.write_bytes(text)
        answer(program, ["run", script, out])
        yield f"run, {name}, the image", None if out.read_bytes() == wanted else "other words were written"


def wrong_merge(
    program: pathlib.Path, folder: pathlib.Path, wanted: Answer | bytes | None, report: bytes | None
) -> str | None:
    """What is wrong with the merge of the images in a folder, or None."""
    out = folder / "out"
    words: list[Word] = ["merge", folder / "base", folder / "dead", out]
    if report is None:
        assert isinstance(wanted, Answer)
        return wrong_fault(program, words, wanted, out)
    wrong = difference(Answer(), answer(program, words)) or difference(Answer(report), answer(program, ["report", out]))
    if wrong is None and wanted is not None and out.read_bytes() != wanted:
        wrong = "other words were written"
    return wrong


def merges(program: pathlib.Path, folder: pathlib.Path) -> Iterator[Case]:
    for name, (base, dead, wanted, report) in MERGES.items():
        (folder / "base").write_bytes(base)
        (folder / "dead").write_bytes(dead)
        yield f"merge, {name}", wrong_merge(program, folder, wanted, report)
    (folder / "base").write_bytes(image({}))
    (folder / "script").write_bytes(b"segment,512,256,7\nhist,L,linear,1,100,31\n")
    answer(program, ["run", folder / "script", folder / "dead"])
    yield "merge, too large for the page of BASE", wrong_merge(program, folder, fault("Merge L TooLarge", 3), None)


def wrong_resume(
    program: pathlib.Path,
    words: Sequence[Word],
    out: pathlib.Path,
    base: bytes,
    wanted: Answer,
    stored: Stored | None,
) -> str | None:
    """What is wrong with the image that is continued, or None."""
    if wanted.status:
        return wrong_fault(program, words, wanted, out)
    wrong = difference(wanted, answer(program, words)) or difference(
        Answer(wanted.output), answer(program, ["report", out])
    )
    if wrong is None and stored is not None and out.read_bytes() != with_words(base, stored):
        wrong = "other words were written"
    return wrong


def resumes(program: pathlib.Path, folder: pathlib.Path) -> Iterator[Case]:
    paths = [folder / name for name in ("base", "script", "out")]
    for name, (base, script, wanted, stored) in RESUMES.items():
        paths[0].write_bytes(base)
        paths[1].write_bytes(script)
        for workers in ("1", "2", "16"):
            yield f"resume, {name}, {workers} workers", wrong_resume(
                program, ["resume", "--workers", workers, *paths], paths[-1], base, wanted, stored
            )
    paths[1].write_bytes(ONE_MORE)
    damaged = [("Damaged", shared_counts()), ("Damaged", with_words(RACED, {38: 1}))]
    for why, base in [
        *((why, image({**IN_VERSION_2, **stored})) for why, all_stored in NOT_ADOPTED.items() for stored in all_stored),
        *damaged,
    ]:
        paths[0].write_bytes(base)
        yield f"resume, {why}", wrong_fault(program, ["resume", *paths], fault(f"Adopt {why}", 3), paths[-1])
    paths[0].write_bytes(blank(2))
    paths[1].write_bytes(THREE_SAMPLES)
    yield "resume, no histograms", difference(Answer(THREE_REPORT), answer(program, ["resume", *paths]))
    wrong = None if paths[-1].read_bytes() == image(IN_VERSION_2) else "other words were written"
    yield "resume, no histograms, the image", wrong


def cases(program: pathlib.Path, _options: argparse.Namespace) -> Iterator[Case]:
    with tempfile.TemporaryDirectory() as scratch:
        folder = pathlib.Path(scratch)
        yield from runs(program, folder)
        yield from written(program, folder)
        yield from merges(program, folder)
        yield from resumes(program, folder)
