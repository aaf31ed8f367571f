"""What the command lines are made of: commands with their options, sources, forms, outputs and streams."""

from __future__ import annotations

import dataclasses

Words = tuple[str, ...]
TOO_LARGE_32, TOO_LARGE_64 = "4294967296", "18446744073709551616"
# An option that may follow any other one, and what is no number in each.
NO_NUMBERS = ("", "x", "-1", "+1", "1.5", "1 ")


@dataclasses.dataclass(frozen=True)
class Option:
    """An option: the values with which it is tried, none for one that has no value, and values that are mistakes; and
    the words without which it is one."""

    name: str
    values: Words = ()
    wrong: Words = ()
    with_it: Words = ()
    repeats: bool = False

    def words(self, value: str | None = None) -> Words:
        """The words that ask for it, with this value or its first one."""
        chosen = value if value is not None else self.values[0] if self.values else None
        return (*self.with_it, self.name, *(() if chosen is None else (chosen,)))


@dataclasses.dataclass(frozen=True)
class Command:
    """A command: words that ask for something, the same with a word too few and one too many, and its options."""

    name: str
    words: Words
    few: tuple[Words, ...]
    many: Words
    options: tuple[Option, ...]


def flag(name: str) -> Option:
    return Option(name)


EXPLAIN = flag("--explain")
TO = Option("--to", ("out.txt", "new.txt"))
WHOLE = flag("--whole")
LIVE = flag("--live")
AT = Option("--at", ("0",), (*NO_NUMBERS, TOO_LARGE_64), ("--live",))
# Looks are bounded in each line, or it would not end.
EVERY = Option("--every", ("1",), ("0", "86401", TOO_LARGE_32, *NO_NUMBERS), ("--live", "--count", "2"))
COUNT = Option("--count", ("1", "2"), ("0", TOO_LARGE_32, *NO_NUMBERS), ("--live", "--every", "1"))
FILES_FROM = Option("--files-from", ("names.list", "empty.list"))
MINUS = Option("--minus", ("rich.img", "earlier.totals"))
WORKERS = Option("--workers", ("2", "1", "16"), ("0", "17", "4294967297", *NO_NUMBERS))
STRICT = flag("--strict")
SUM = (FILES_FROM, MINUS, WORKERS, STRICT)
PREFIX = Option("--prefix", ("my", "_a9", "Z"), ("9a", "a-b", "", "a.b", "\u00e4"))
LABEL = Option(
    "--label", ("zone=eu", 'quoted=a"b\\c', "signs=\u00e4"),
    (
        "zone", "=eu", "zone=", "", "9a=1", "a__b=1", "a-b=1", "le=1", "name=1", "value=1", "kind=1", "histogram=1",
        "flag=1",
    ),
    repeats=True,
)
WIDTH = Option("--width", ("60", "40", "200"), ("39", "201", "0", "65536", "65596", *NO_NUMBERS))
SORT = Option("--sort", ("units", "name"), ("", "size", "Name"), ("--list",))
MATCH = Option("--match", ("s", "cache", "zzz", ""))
ALSO = Option("--also", ("crash.img", "hosts", "missing.img"), repeats=True)
NTH = Option("--nth", ("1", "2", "3"), ("0", TOO_LARGE_64, *NO_NUMBERS))
PAGE = Option("--page", ("64", "4096", "65536"), ("63", "65537", "0", "100", "80001", TOO_LARGE_64, *NO_NUMBERS))
VALUES = Option("--values", ("0", "100", "1048576"), ("1048577", TOO_LARGE_64, *NO_NUMBERS))
HIST = Option(
    "--hist", ("ms,linear,1,1000,50", "hits,sparse", "b,boolean", "c,custom,1,2,3", '"a,b",sparse'),
    ("ms", "ms,liner", "ms,linear,1,x,3", "ms,linear,1,9", "a,boolean,1", "a,custom", ""), repeats=True,
)

# What `show` draws, and what it shows.
DRAWN = (
    WIDTH, flag("--ascii"), flag("--log"), flag("--all"), flag("--human"), flag("--list"), SORT, flag("--html"), MATCH,
)
COMMANDS = (
    Command(
        "show", ("show", "later.img"), (), (),
        (*DRAWN, WHOLE, TO, ALSO, LIVE, AT, EVERY, COUNT, *SUM, EXPLAIN),
    ),
    Command(
        "report", ("report", "later.img"), (), (),
        (flag("--rows"), flag("--totals"), TO, LIVE, AT, *SUM, WHOLE, EXPLAIN),
    ),
    Command("info", ("info", "later.img"), (), ("more.img",), (flag("--human"), LIVE, AT, EXPLAIN)),
    Command(
        "export", ("export", "later.img"), (), (),
        (PREFIX, LABEL, flag("--families"), TO, LIVE, AT, EVERY, COUNT, *SUM, WHOLE, EXPLAIN),
    ),
    Command(
        "merge", ("merge", "rich.img", "later.img", "out.txt"), ((), ("rich.img",), ("rich.img", "later.img")),
        ("more.img",), (EXPLAIN,),
    ),
    Command("run", ("run", "crash.csv", "out.txt"), ((), ("crash.csv",)), ("more.img",), (WORKERS, EXPLAIN)),
    Command(
        "resume", ("resume", "rich.img", "more.csv", "out.txt"), ((), ("rich.img",), ("rich.img", "more.csv")),
        ("more.img",), (WORKERS, EXPLAIN),
    ),
    Command(
        "look", ("look", "later.img", "out.txt"), ((),), ("more.img",),
        (Option("--at", ("0",), (*NO_NUMBERS, TOO_LARGE_64)), EXPLAIN),
    ),
    Command("fold", ("fold", "recording"), ((),), ("more.img",), (EXPLAIN,)),
    Command("extract", ("extract", "core", "out.txt"), ((), ("core",)), ("more.img",), (NTH, EXPLAIN)),
    Command("size", ("size", "rich.csv"), ((),), ("more.csv",), (PAGE, VALUES, EXPLAIN)),
    Command(
        "scale", ("scale", "latency.us", "1", "1000", "3"), ((), ("a",), ("a", "1"), ("a", "1", "9")), ("9",),
        (EXPLAIN,),
    ),
    Command("explain", ("explain", "BadLine"), (), ("Read",), ()),
)
# A command with its options where it has other words.
SIZE_OF_HISTS = Command("size", ("size",), (), (), (HIST, PAGE, VALUES, EXPLAIN))


@dataclasses.dataclass(frozen=True)
class Form:
    """A form of a text: the command and its words. `for_one` says that it is of one image alone."""

    name: str
    words: Words
    for_one: bool = False


# The texts, each with options of its own; names and parts of names are those of the images of scripts.
FORMS = (
    Form("report", ("report",)),
    Form("rows", ("report", "--rows")),
    Form("totals", ("report", "--totals")),
    Form("info", ("info",), for_one=True),
    Form("export", ("export",)),
    Form("families", ("export", "--families")),
    Form("show", ("show",)),
    Form("list", ("show", "--list")),
    Form("page", ("show", "--html")),
)
MORE_FORMS = (
    Form("whole report", ("report", "--whole")),
    Form("whole rows", ("report", "--rows", "--whole")),
    Form("info for people", ("info", "--human"), for_one=True),
    Form("labelled export", ("export", "--prefix", "my", "--label", "zone=eu", "--label", "host=a")),
    Form("labelled families", ("export", "--families", "--prefix", "my", "--label", "zone=eu")),
    Form("whole export", ("export", "--whole")),
    Form("plain bars", ("show", "--ascii", "--log", "--width", "60")),
    Form("all for people", ("show", "--all", "--human", "--width", "120")),
    Form("some", ("show", "--match", "a")),
    Form("none", ("show", "--match", "zzz")),
    Form("list by units", ("show", "--list", "--sort", "units", "--human")),
    Form("narrow list", ("show", "--list", "--width", "40")),
    Form("page of all", ("show", "--html", "--all")),
    Form("page of some", ("show", "--html", "--match", "a")),
    Form("explained", ("show", "--explain")),
    Form("whole", ("show", "--whole")),
)
# Names that follow the FILE of `show`.
NAMES = (("request.ms",), ("requst.ms",), ("many.values", "A", "cache.hit"), ("", "a\nb"))


@dataclasses.dataclass(frozen=True)
class Source:
    """What a text is of: the files, a list of more, standard input; and the status with which `report` ends, or with
    `--strict`, if that is another one."""

    name: str
    files: Words
    status: int = 0
    stdin: str = ""
    list: str = ""

    def words(self, form: Form) -> Words:
        """The words after those of a form: `show` takes more files by an option."""
        first, rest = self.files[:1], self.files[1:]
        if form.words[0] == "show":
            rest = tuple(word for name in rest for word in ("--also", name))
        return (*first, *rest, *(("--files-from", self.list) if self.list else ()))


SOURCES = (
    Source("an image", ("rich.img",)),
    Source("an image of version 1", ("three_samples.img",)),
    Source("an image without histograms", ("none.img",)),
    Source("a mapped file", ("mapped.img",)),
    Source("standard input", ("-",), stdin="rich.img"),
    Source("no FILE", (), stdin="mapped.img"),
    Source("no FILE, and nothing there", (), 3),
    Source("totals", ("sum.totals",)),
    Source("totals of great numbers", ("ends.totals",)),
    Source("totals on standard input", ("-",), stdin="sum.totals"),
    Source("several", ("crash.img", "rich.img", "three_samples.img")),
    Source("several with two specs", ("rich.img", "other.img", "crash.img")),
    Source("one twice", ("later.img", "later.img")),
    Source("several and standard input", ("rich.img", "-", "sum.totals"), stdin="crash.img"),
    Source("several, some of which are none", ("rich.img", "missing.img", "text.txt", "odd.img", "crash.img"), 3),
    Source("several that do not fit", ("rich.img", "far.totals", "crash.img"), 3),
    Source("damaged ones", ("rich.img", "v1-bad-BadCounts.img", "v2-stopped-Loop.img")),
    Source("a folder", ("well",)),
    Source("a folder with what is no image", ("hosts",), 3),
    Source("a folder of folders", ("nested",)),
    Source("an empty folder", ("empty",)),
    Source("the folder of a recording", ("recording",)),
    Source("a recording without segments", ("begun",)),
    Source("a recording that is damaged", ("worse",), 3),
    Source("a recording whose totals are none", ("wrong",), 3),
    Source("a recording and others", ("crash.img", "recording", "well", "sum.totals")),
    Source("a list", (), list="names.list"),
    Source("a file and a list", ("later.img",), list="names.list"),
    Source("a list on standard input", (), stdin="names.list", list="-"),
    Source("a list with what is none", (), 3, list="wrong.list"),
    Source("a list with standard input", (), stdin="rich.img", list="dash.list"),
    Source("a list without names", (), list="empty.list"),
    Source("a list of folders", (), 3, list="deep.list"),
    Source("a missing list", (), 4, list="missing.list"),
    Source("a missing file", ("missing.img",), 4),
    Source("a text", ("text.txt",), 3),
    Source("no bytes", ("no.bytes",), 3),
    Source("a file that is cut short", ("short.img",), 3),
    Source("a file that is cut in a word", ("odd.img",), 3),
    Source("totals that are none", ("bad.totals",), 3),
    Source("an empty name", ("",), 4),
    Source("a name with a hyphen", ("--", "-image")),
    Source("a file named -", ("./-",)),
    Source("a link", ("link.img",)),
    Source("a link to nothing", ("dangling.img",), 4),
    Source("a link to itself", ("round.img",), 4),
    Source("a file in a file", ("rich.img/in",), 4),
    Source("an empty device", ("/dev/null",), 3),
    Source("a device without an end", ("/dev/zero",), 3),
    Source("what opens and cannot be read", ("/proc/self/mem",), 4),
    Source("a folder of images on standard input", ("/dev/stdin",), 4, stdin="hosts"),
    Source("an image by its device", ("/dev/stdin",), stdin="rich.img"),
    Source("standard input twice", ("-", "-"), 2, stdin="rich.img"),
    Source("standard input as a file and a list", ("-",), 2, stdin="names.list", list="-"),
)

# Where a text or an image goes, and with which status a command that succeeds then ends.
OUTS = (
    ("a new file", "new.txt", 0),
    ("an old file", "out.txt", 0),
    ("a link to a file", "out.link", 0),
    ("a link to nothing", "new.link", 0),
    ("a file in the folder of others", "well/0.txt", 0),
    ("a missing folder", "nowhere/out.txt", 4),
    ("a folder", "empty", 4),
    ("a folder with a slash", "nowhere/", 4),
    ("a file as a folder", "out.txt/out", 4),
    ("an empty name", "", 4),
    ("a folder of the system", "/proc/out", 4),
    ("a full device", "/dev/full", 4),
    ("an empty device", "/dev/null", 0),
    ("an open file", "/dev/stdout", 0),
    ("a file named -", "./-", 0),
    ("a link to itself", "round.img", 4),
)
# Commands that write a file, without OUT; each has a name.
WRITERS = {
    "run": ("run", "crash.csv"),
    "resume": ("resume", "rich.img", "more.csv"),
    "merge": ("merge", "rich.img", "later.img"),
    "extract": ("extract", "core"),
    "look": ("look", "rich.img"),
    "report --to": ("report", "rich.img", "--to"),
    "rows --to": ("report", "rich.img", "--rows", "--to"),
    "totals --to": ("report", "rich.img", "--totals", "--to"),
    "export --to": ("export", "rich.img", "--to"),
    "families --to": ("export", "rich.img", "--families", "--to"),
    "show --to": ("show", "rich.img", "--to"),
    "list --to": ("show", "rich.img", "--list", "--to"),
    "page --to": ("show", "rich.img", "--html", "--to"),
    "sum --to": ("report", "rich.img", "well", "--to"),
    "what is none --to": ("report", "hosts", "--to"),
    "look --live --to": ("report", "rich.img", "--live", "--to"),
    "an image that is none --to": ("report", "text.txt", "--to"),
}
# Where the status above is another one: what those commands end with if OUT can be written.
STATUS_OF_WRITER = {"what is none --to": 3, "an image that is none --to": 3}

# The names of faults that no line can show in the same way each time, and why.
UNTRIED = {
    "Gate": "only programs that pass a gate see it", "BadCursors": "only programs that open a segment see it",
    "NoThread": "the limits of the machine decide", "NoMemory": "a program that needs less memory is no other one",
    "Changed": "it needs a write between the reads of one look", "TooSmall": "only callers of segment_sizes see it",
    "NoSize": "only callers of segment_sizes see it",
}
