"""What may lie in the folder in which a command line is run: files, links and folders by their paths there, of which
those are laid out that a line needs.

Images are those of examples/ and tests/cases, the same with other words, and images that one of the programs makes of
the scripts below. They are inputs, so it does not matter that a program made them: both programs get the same.
"""

from __future__ import annotations

import dataclasses
import pathlib
import shutil
import struct
import tempfile
from collections.abc import Iterable, Mapping
from typing import Union

from parts import explained, known, sums
from support import layout, plain_folders, plain_sums
from support.program import EXAMPLE, ROOT, SCRIPT, answer


@dataclasses.dataclass(frozen=True)
class Link:
    """A symbolic link that leads there."""

    target: str


# The bytes of a file, a link, or None: a folder that has nothing else.
Entry = Union[bytes, Link, None]
Contents = Mapping[str, Entry]

CRASH = ROOT / "examples" / "crash.img"
STOOD = b"what stood there before"
# The new file of a command that was killed; nobody has its lock.
LEFTOVER = ".persist_report-0123456789abcdef"
VERSIONS = (1, 2)
# What a list or a record may have that is damaged. Of each the first known image of either version is taken.
IN_REPORTS = [
    "!bad BadCounts", "!bad BadKind", "!bad BadMark", "!bad BadName", "!bad BadSample", "!bad BadSingle",
    "!bad BadSpec", "!bad BadSum", "!stopped BadBlock", "!stopped BadRef", "!stopped Loop", "!flag corrupt",
    "!flag full", "!redundant",
]
# The same for images that are refused.
IN_ERRORS = [
    "Image BadFree", "Image BadQueue", "Image BadSize", "Image Deleted", "Image NotReady", "Image TooShort", "NotWords",
]
# Names of files that are no images, and of what is not there.
TEXT, MISSING = "text.txt", "missing.img"

# A script with each kind of histogram, more values than are shown, deltas, labels and signs in names, and numbers that
# have separators.
RICH = b"""\
segment,4096,1024,7
hist,request.ms,linear,1,1000,20
hist,cache.hit,boolean
hist,page.kib,custom,4,16,64,256,1024
hist,http.latency{code=200;method=GET},linear,1,100,5
hist,http.latency{code=500;method=GET},linear,1,100,5
hist,tag<b>&amp',sparse
hist,unused,boolean
hist,many.values,sparse
add,request.ms,3,4000000
add,request.ms,130,25
add,cache.hit,1,1234567
delta,cache.hit
add,cache.hit,0,18
add,page.kib,3,11
add,page.kib,900,8
delta,page.kib
add,page.kib,70000,3
add,http.latency{code=200;method=GET},42,7
add,http.latency{code=500;method=GET},99,1
add,tag<b>&amp',-2147483648,1
add,tag<b>&amp',5,2
delta,many.values
""" + b"".join(b"add,many.values,%d,%d\n" % (3 * place - 40, place % 7 + 1) for place in range(30))
# What is recorded after it, by two steps: a histogram is new in each.
LATER = RICH + b"add,request.ms,990,1000\nadd,many.values,-40,9\nadd,many.values,77,1\n"
LATER = LATER.replace(b"hist,many", b"hist,fresh,boolean\nhist,many") + b"add,fresh,1,3\n"
LAST = LATER.replace(b"hist,many", b"hist,last,sparse\nhist,many") + b"add,fresh,1,1\nadd,last,-1,1\n"
# Names of it under other specs, names that are of one family, a segment that has no room, and one without histograms.
OTHER = b"segment,1024,256,8\nhist,request.ms,sparse\nhist,page.kib,boolean\nadd,request.ms,3,2\nadd,page.kib,1,1\n"
CLASH = b"segment,1024,256,9\nhist,a.b,boolean\nhist,a_b,sparse\nadd,a.b,1,1\nadd,a_b,1,1\n"
SMALL = b"segment,64,64,7\nhist,request.ms,linear,1,1000,3\n"
NONE = b"segment,64,64,7\n"
# Images that are made of scripts.
IMAGES = {
    "rich.img": RICH, "later.img": LATER, "last.img": LAST, "other.img": OTHER, "clash.img": CLASH,
    "small.img": SMALL, "none.img": NONE, "base.img": SCRIPT.read_bytes(), "live.img": RICH,
}
# A script that continues the first of them.
MORE = b"segment,4096,1024,7\nhist,request.ms,linear,1,1000,20\nhist,more,sparse\nadd,request.ms,5,1\nadd,more,-5,2\n"
# Totals of the greatest numbers, totals that fit with no others, and names of files.
GREAT = sums.ENDS + b"end,3\n"
FAR = b"totals,1\nimages,1,0,0,0,0\nhist,A,1,4611686018427387904,0,0,0,sparse\nend,1\n"
LISTS: dict[str, list[str]] = {
    "names.list": ["crash.img", "rich.img", "", "sum.totals"],
    "wrong.list": ["rich.img", MISSING, TEXT, "hosts"],
    "dash.list": ["crash.img", "-"],
    "empty.list": [],
    "deep.list": ["recording", "names.list"],
}


def scripts() -> dict[str, bytes]:
    """Scripts with a mistake or a record that is refused, each by its name; and those that are right."""
    texts = [f"{explained.SEGMENT}hist,A,sparse\n{bad}\n" for bad in explained.BAD_RECORDS]
    texts += [*explained.BAD_STARTS]
    for bad in [*explained.REFUSED, *explained.TOO_LARGE, *explained.FITTING]:
        texts.append(f"{explained.SEGMENT}hist,A,sparse\n{bad}\n")
    return {f"script-{number:02}.csv": text.encode() for number, text in enumerate(texts)}


def scripts_on_base() -> dict[str, bytes]:
    """Scripts that cannot continue the example, each by its name."""
    texts = ["\n".join(["segment,128,64,7", *records]) for records, _, _ in explained.REFUSED_ON]
    texts += [*explained.BAD_STARTS_ON, "segment,128,64,7\nhits"]
    return {f"on-base-{number:02}.csv": text.encode() for number, text in enumerate(texts)}


def file_of(version: int, fault: str) -> str:
    """The name of an image of a version with a fault."""
    return f"v{version}-{fault.strip('!').replace(' ', '-')}.img"


def has_fault(path: pathlib.Path, fault: str) -> bool:
    """Whether the known answer to an image has a fault."""
    if fault in IN_ERRORS:
        return path.with_suffix(".err").read_text() == f"persist_report: {fault}\n"
    mark, _, name = fault.partition(" ")
    lines = [line.split(b",") for line in path.with_suffix(".out").read_bytes().splitlines()]
    return any(line[0] == mark.encode() and name.encode() in (line[-1], b"") for line in lines)


def damaged_files() -> dict[str, bytes]:
    """An image of each fault in either version."""
    images = [(path, path.read_bytes()) for path in sorted(known.FOLDER.glob("*.img"))]
    found = {}
    for version in VERSIONS:
        stored = struct.pack("<Q", version)
        for fault in [*IN_REPORTS, *IN_ERRORS]:
            of_both = [data for path, data in images if data[8:16] == stored and has_fault(path, fault)]
            found[file_of(version, fault)] = of_both[0]
    return found


def of_version(version: int) -> bytes:
    """An image of an example that has this version."""
    return EXAMPLE.read_bytes() if version == layout.VERSION_MOVING else CRASH.read_bytes()


def header_files() -> dict[str, bytes]:
    """An image of either version with each fault of the header."""
    return {
        f"v{version}-header-{place}-{name}.img": layout.with_words(of_version(version), {at: word})
        for version in VERSIONS
        for place, (at, word, name, _) in enumerate(explained.WORDS)
    }


def bases(base: bytes) -> dict[str, bytes]:
    """Images that cannot be continued, each made of one that can, by their names."""
    return {
        f"base-{place}-{name}.img": layout.with_words(base, stored)
        for place, (stored, name, _) in enumerate(explained.DAMAGES)
    }


def made_images(program: pathlib.Path) -> dict[str, bytes]:
    """The images that a program makes of the scripts."""
    made = {}
    with tempfile.TemporaryDirectory() as scratch:
        script, image = pathlib.Path(scratch) / "script", pathlib.Path(scratch) / "image"
        for name, text in IMAGES.items():
            script.write_bytes(text)
            ran = answer(program, ["run", script, image])
            if ran.status != 0:
                raise ValueError(f"{program} does not run the script of {name}: {ran}")
            made[name] = image.read_bytes()
    return made


def totals_of(images: Iterable[bytes]) -> bytes:
    """The totals of images."""
    return plain_sums.totals_text(plain_sums.sum_of(enumerate(images))[0])


def recording(name: str, images: Mapping[str, bytes]) -> dict[str, Entry]:
    """The folder of a recording: two segments that were folded, and two that were not."""
    rich, later = (
        [plain_folders.mapped(plain_folders.with_id(images[image], number)) for number in range(5)]
        for image in ("rich.img", "later.img")
    )
    before = plain_folders.Folder(pathlib.Path(name), None, {1: rich[1], 2: later[2]})
    totals = before.folded()[0].totals
    return {
        f"{name}/{plain_folders.MARK}": b"",
        f"{name}/{plain_folders.TOTALS}": totals,
        f"{name}/{plain_folders.name_of(3)}": rich[3],
        f"{name}/{plain_folders.name_of(4)}": later[4],
        f"{name}/passed-over.img": images["other.img"],
    }


def recordings(images: Mapping[str, bytes]) -> dict[str, Entry]:
    """Folders of recordings: a whole one, one with a segment that cannot be read, one whose totals are none, and one
    without segments."""
    whole, worse, wrong = (recording(name, images) for name in ("recording", "worse", "wrong"))
    worse[f"worse/{plain_folders.name_of(4)}"] = images["later.img"][:-1]
    wrong[f"wrong/{plain_folders.TOTALS}"] = b"totals,1\nimages,0\n"
    return {**whole, **worse, **wrong, f"begun/{plain_folders.MARK}": b""}


def folders(images: Mapping[str, bytes]) -> dict[str, Entry]:
    """Folders that are no recordings: of images and other files, of folders, of totals, and an empty one."""
    crash = CRASH.read_bytes()
    return {
        "hosts/1.img": crash, "hosts/2.img": images["rich.img"], "hosts/3.seg": bytes(8) + images["later.img"],
        "hosts/4.totals": GREAT, "hosts/5.txt": b"no image at all\n", "hosts/6.img": crash[:-1],
        "hosts/in/more.img": crash, "hosts/link.img": Link("../crash.img"), f"hosts/{LEFTOVER}": crash,
        "nested/one/1.img": crash, "nested/two/2.img": images["rich.img"], "nested/recording/recording": b"",
        "well/1.img": crash, "well/2.img": images["other.img"], "well/3.totals": totals_of([crash]),
        "empty": None, **recordings(images),
    }


def plain_files(images: Mapping[str, bytes]) -> dict[str, Entry]:
    """Single files and links."""
    crash, old = CRASH.read_bytes(), EXAMPLE.read_bytes()
    return {
        "crash.img": crash, "three_samples.img": old, "mapped.img": bytes(8) + images["rich.img"],
        "core": bytes(24) + crash + b"between" + bytes(9) + old + b"after", "-": crash, "-image": crash,
        "crash.csv": (ROOT / "examples" / "crash.csv").read_bytes(), "three_samples.csv": SCRIPT.read_bytes(),
        "more.csv": MORE, "rich.csv": RICH, TEXT: b"no image at all\n", "no.bytes": b"", "short.img": crash[:64],
        "odd.img": crash[:-1], "link.img": Link("crash.img"), "round.img": Link("round.img"),
        "dangling.img": Link("nothing.img"), "out.txt": STOOD, "out.link": Link("out.txt"),
        "new.link": Link("new.txt"), "sum.totals": totals_of([crash, images["rich.img"], old]),
        "earlier.totals": totals_of([images["rich.img"]]), "ends.totals": GREAT, "far.totals": FAR,
        "bad.totals": b"totals,1\nimages,1,0,0,0,0\nend,1\n", LEFTOVER: crash,
        **{name: "".join(f"{line}\n" for line in lines).encode() for name, lines in LISTS.items()},
    }


def contents(program: pathlib.Path) -> Contents:
    """All that may lie in a folder, where this program makes the images of scripts."""
    images = made_images(program)
    return {
        **images, **plain_files(images), **folders(images), **damaged_files(), **header_files(),
        **bases(images["base.img"]), **scripts(), **scripts_on_base(),
    }


def needed(words: Iterable[str], all_contents: Contents) -> set[str]:
    """The paths that lie where a command line with these words is run: of each word what it names, of a list also what
    that names, of a link what it leads to."""
    tops: dict[str, list[str]] = {}
    for path in all_contents:
        tops.setdefault(path.partition("/")[0], []).append(path)
    waiting = [word.removeprefix("./").partition("/")[0] for word in words]
    found: set[str] = set()
    while waiting:
        top = waiting.pop()
        new = [path for path in tops.get(top, []) if path not in found]
        found.update(new)
        waiting += LISTS.get(top, []) if new else []
        waiting += [entry.target.rpartition("/")[2] for entry in map(all_contents.get, new) if isinstance(entry, Link)]
    return found


def lay(folder: pathlib.Path, paths: Iterable[str], all_contents: Contents) -> None:
    """Lays these paths out in a folder that is made anew."""
    if folder.exists():
        shutil.rmtree(folder)
    folder.mkdir()
    for path in sorted(paths):
        place, entry = folder / path, all_contents[path]
        place.parent.mkdir(parents=True, exist_ok=True)
        if isinstance(entry, Link):
            place.symlink_to(entry.target)
        elif entry is None:
            place.mkdir()
        else:
            place.write_bytes(entry)
