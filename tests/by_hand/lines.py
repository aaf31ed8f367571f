"""The command lines, made of the tables, always the same ones in the same order."""

from __future__ import annotations

import dataclasses
import itertools
import shlex
from collections.abc import Iterable, Iterator
from typing import NamedTuple, Optional

from by_hand import rooms, tables
from by_hand.tables import COMMANDS, FORMS, MORE_FORMS, SOURCES, Command, Form, Option, Source, Words
from support import faults

PIPE, FULL, CLOSED, NO_READER, TERMINAL = "a pipe", "/dev/full", "closed", "a pipe without a reader", "a terminal"
EXPLAINED = (("PERSIST_REPORT_EXPLAIN", "1"),)
USAGE = 2


class Class(NamedTuple):
    """A class of lines; it occurs if one of them ends with this status, or with any if that is None."""

    kind: str
    name: str
    status: Optional[int]


class Change(NamedTuple):
    """What is put at a path between two rounds: the content of this name, or nothing if that is empty."""

    path: str
    content: str


@dataclasses.dataclass(frozen=True)
class Line:
    """A command line: its words, what its three streams are, what its environment has beside the fixed one, which files
    another process has locked, and the changes after each text that is written again."""

    words: Words
    stdin: str = ""
    output: str = PIPE
    error: str = PIPE
    settings: tuple[tuple[str, str], ...] = ()
    locked: Words = ()
    changes: tuple[Change, ...] = ()
    classes: tuple[Class, ...] = dataclasses.field(default=(), compare=False)

    @property
    def name(self) -> str:
        """The line as a shell would have it, and the rest after it; no two lines have one name."""
        parts = [*(f"{name}={shown(value)}" for name, value in self.settings), *map(shown, self.words)]
        parts += [f"< {self.stdin}"] if self.stdin else []
        parts += [f"> {self.output}"] if self.output != PIPE else []
        parts += [f"2> {self.error}"] if self.error != PIPE else []
        parts += [f"(locked: {path})" for path in self.locked]
        parts += [f"(then {change.path} is {change.content or 'removed'})" for change in self.changes]
        return " ".join(parts)

    @property
    def has_rounds(self) -> bool:
        return "--every" in self.words

    @property
    def has_workers(self) -> bool:
        """Whether several threads may record."""
        values = [value for word, value in zip(self.words, self.words[1:]) if word == "--workers"]
        return self.words[:1] in [("run",), ("resume",)] and values not in ([], ["1"])

    @property
    def named(self) -> Iterator[str]:
        """All words that may name what has to lie in the folder."""
        yield from (*self.words, self.stdin, *self.locked, *(change.path for change in self.changes))


def shown(word: str) -> str:
    """A word as a shell takes it, in one line of ASCII."""
    quoted = shlex.quote(word)
    return quoted if quoted.isprintable() and quoted.isascii() else f"$'{word.encode('unicode_escape').decode()}'"


def classed(kind: str, name: str, status: int | None = 0) -> tuple[Class, ...]:
    return (Class(kind, name, status),)


def helps() -> Iterator[Line]:
    """Each help, as a command and as an option, and the version."""
    names = [command.name for command in COMMANDS]
    for name, word in itertools.product(["", *names], ["-h", "--help"]):
        yield Line((*([name] if name else []), word), classes=classed("help", f"{name} {word}".strip()))
    for words in [("help",), *(("help", name) for name in names), ("--version",), ("-V",), ("help", "none")]:
        yield Line(words)
    for name, word in itertools.product(names, ["-h", "--help"]):
        yield Line((name, "--wrong", word))
        yield Line((name, "--explain", word))


def grouped(words: Words) -> Iterator[Words]:
    """Words by options, each with its value."""
    places = [place for place, word in enumerate(words) if word.startswith("--") and word != "--"]
    for place, end in zip(places, [*places[1:], len(words)]):
        yield words[place:end]


def joined(words: Words, options: Iterable[Words]) -> Words:
    """The words of a command with those of options, of which what is there already comes once."""
    groups: list[Words] = []
    for group in itertools.chain.from_iterable(map(grouped, options)):
        groups += [group] if all(group[0] != other[0] for other in groups) else []
    return (*words, *itertools.chain.from_iterable(groups))


def mistakes_of(command: Command, option: Option) -> Iterator[Words]:
    """Command lines with a mistake in an option."""
    base = command.words
    yield from ((*base, *option.words(value)) for value in option.wrong)
    if option.values:
        yield (*base, *option.with_it, option.name)
        yield (*base, f"{option.name}={option.values[0]}x")
    else:
        yield (*base, *option.with_it, f"{option.name}=x")
    if not option.repeats:
        yield (*base, *option.words(), *option.words()[len(option.with_it) :])
    if option.with_it:
        yield (*base, *option.words()[len(option.with_it) :])
    yield (*base, *option.with_it, option.name[:-1])


def mistakes() -> Iterator[Line]:
    """Mistakes in each option, in the number of words and in the words."""
    for command in [*COMMANDS, tables.SIZE_OF_HISTS]:
        for option in command.options:
            for words in mistakes_of(command, option):
                yield Line(words, classes=classed("mistake", f"{command.name} {option.name}", USAGE))
        for few in command.few:
            yield Line((command.name, *few), classes=classed("mistake", f"{command.name}: too few", USAGE))
        if command.many:
            yield Line((*command.words, *command.many), classes=classed("mistake", f"{command.name}: more", USAGE))
        for words in [("--wrong",), ("-x",), ("--whole=1",), ("--", "--explain"), ("\udcff\udcfe",)]:
            yield Line((*command.words, *words), stdin="crash.img")
    for words in [(), ("",), ("reports",), ("--workers",), ("--explain",), ("--explain", "--explain", "report")]:
        yield Line(words)
    yield Line(("\udcc3", "report"))


def options() -> Iterator[Line]:
    """Each command without an option, each option with each value, and each two options."""
    for command in COMMANDS:
        yield Line(command.words, classes=classed("command", command.name))
    for command in [*COMMANDS, tables.SIZE_OF_HISTS]:
        for option in command.options:
            tried = classed("option", f"{command.name} {option.name}")
            for value in option.values or (None,):
                yield Line(joined(command.words, [option.words(value)]), classes=tried)
            repeated = [word for value in option.values for word in option.words(value)] if option.repeats else []
            yield Line((*command.words, *repeated))
        for pair in itertools.combinations(command.options, 2):
            words = joined(command.words, [option.words() for option in pair])
            names = f"{command.name} {pair[0].name} {pair[1].name}"
            yield Line(words, classes=classed("pair", names, None))


def named_pairs() -> Iterator[Line]:
    """Each option of `show` with names of histograms."""
    for names, option in itertools.product(tables.NAMES[:2], COMMANDS[0].options):
        yield Line(joined((*COMMANDS[0].words, *names), [option.words()]))


def line_of(form: Form, source: Source, *more: str) -> Line:
    """The line that asks for a form of a source, with more words."""
    return Line((*form.words, *more, *source.words(form)), source.stdin)


# Ways in which a sum is made: of each source, and of some.
WAYS: list[Words] = [
    ("--workers", "3"), ("--strict", "--workers", "16"), ("--minus", "rich.img"), ("--explain",),
    ("--live", "--at", "8"),
]
MORE_WAYS: list[Words] = [
    ("--minus", "recording"), ("--minus", "-"), ("--minus", "missing.img"), ("--whole",), ("--live", "--workers", "2"),
    ("--totals", "--minus", "earlier.totals"),
]
# Sources of which the forms with more words are written, and with more ways.
FEW_SOURCES = ("an image", "an image of version 1", "standard input", "damaged ones", "a folder", "totals", "a list")


def by_sources() -> Iterator[Line]:
    """Each form of each source, once and by looks; and reports of sums in each way."""
    for source, form in itertools.product(SOURCES, FORMS):
        classes = classed("form", form.name) + (
            classed("source", source.name, source.status) if form.name == "report" else ()
        )
        yield dataclasses.replace(line_of(form, source), classes=classes)
        yield line_of(form, source, "--live")
    for source, way in itertools.product(SOURCES, WAYS):
        yield line_of(FORMS[0], source, *way)
    few = [source for source in SOURCES if source.name in FEW_SOURCES]
    for source, way, form in itertools.product(few, [*WAYS, *MORE_WAYS], [FORMS[0], FORMS[-1]]):
        yield line_of(form, source, *way) if "--totals" not in way else line_of(FORMS[0], source, *way)


def by_forms() -> Iterator[Line]:
    """Forms with more words, and names of histograms, of some sources."""
    few = [source for source in SOURCES if source.name in FEW_SOURCES]
    for source, form in itertools.product(few, MORE_FORMS):
        yield dataclasses.replace(line_of(form, source), classes=classed("form", form.name))
    for source, form in itertools.product(few[:1] + few[4:5], MORE_FORMS):
        yield line_of(form, source, "--live")
    words: list[Words] = [(), ("--html",), ("--list",), ("--whole",), ("--explain",), ("--live",)]
    for names, more, image in itertools.product(tables.NAMES, words, ["rich.img", "three_samples.img", "well"]):
        yield Line(("show", image, *names, *more))


def damaged_names() -> list[str]:
    """The files of images that can be read, and are damaged."""
    return [rooms.file_of(version, fault) for version in rooms.VERSIONS for fault in rooms.IN_REPORTS]


def refused_names() -> list[str]:
    """The files of images that cannot be read."""
    headers = [rooms.file_of(version, fault) for version in rooms.VERSIONS for fault in rooms.IN_ERRORS]
    return [*headers, *rooms.header_files()]


# Commands that are given a damaged image, and forms that are written of one that can be read.
OF_DAMAGED: list[Words] = [
    ("report", "IMAGE"), ("show", "IMAGE", "--live"), ("show", "IMAGE", "--whole", "--explain"),
    ("info", "IMAGE", "--explain"), ("report", "IMAGE", "--totals", "--whole"),
    ("report", "IMAGE", "crash.img", "--whole"), ("report", "crash.img", "IMAGE", "--strict", "--explain"),
    ("report", "IMAGE", "--minus", "IMAGE"), ("report", "IMAGE", "--to", "out.txt", "--explain"),
    ("merge", "IMAGE", "crash.img", "out.txt", "--explain"), ("merge", "crash.img", "IMAGE", "out.txt"),
    ("resume", "IMAGE", "more.csv", "out.txt", "--explain"), ("resume", "IMAGE", "more.csv", "new.txt"),
    ("extract", "IMAGE", "out.txt"), ("look", "IMAGE", "out.txt"), ("look", "IMAGE", "--explain"),
    ("--explain", "export", "IMAGE", "--families"),
]


def damages() -> Iterator[Line]:
    """Damaged images, in each form and each command."""
    forms = [*FORMS, *(form for form in MORE_FORMS if "whole" in form.name)]
    of_readable: list[Words] = [*((*form.words, "IMAGE") for form in forms), ("info", "IMAGE", "--live")]
    for image in [*damaged_names(), *refused_names()]:
        classes = classed("damage", image, None)
        for words in [*OF_DAMAGED, *(of_readable if image in damaged_names() else [])]:
            yield Line(tuple(image if word == "IMAGE" else word for word in words), classes=classes)
        yield Line(("report",), image)


def outs() -> Iterator[Line]:
    """Each command that writes a file, and each OUT, alone and with the reasons."""
    for (name, words), (out, path, status) in itertools.product(tables.WRITERS.items(), tables.OUTS):
        ended = tables.STATUS_OF_WRITER.get(name, 0) or status
        classes = classed("OUT", out, status) + classed("writer", name, ended)
        yield Line((*words, path), classes=classes)
        yield Line((*words, path, "--explain"))
    for name, path in itertools.product(("run", "resume"), ("new.txt", "out.txt", "out.link", "/dev/stdout", "empty")):
        yield Line((*tables.WRITERS[name], path), settings=EXPLAINED, output=FULL)
    for name, words in tables.WRITERS.items():
        yield Line((*words, "-"))
        yield Line((*words, words[1]))
        yield Line((*words, rooms.LEFTOVER))
        yield Line((*words, "out.txt"), locked=("out.txt",), classes=classed("writer", f"{name}, locked", None))
        yield Line((*words, "out.link", "--explain"), locked=("out.txt",))
        yield Line((*words, "new.txt"), locked=(rooms.LEFTOVER,))


# What is given to a command that is no text, in the place of each of its inputs.
INPUTS = (
    "missing.img", "text.txt", "empty", "no.bytes", "odd.img", "-", "", "/dev/zero", "/dev/null", "/proc/self/mem",
    "mapped.img", "small.img", "none.img", "other.img", "three_samples.img", "crash.csv", "rich.csv", "link.img",
    "round.img", "core", "sum.totals", "recording", "wrong", "worse", "begun", "hosts", "last.img",
)
# It searches 2^64 bytes.
ENDLESS = ("extract", "/dev/zero")


def inputs() -> Iterator[Line]:
    """Inputs of the commands that write no text of an image."""
    for name in ("run", "resume", "merge", "look", "extract", "fold", "size"):
        words = next(command.words for command in COMMANDS if command.name == name)
        places = {"resume": (1, 2), "merge": (1, 2)}.get(name, (1,))
        for place, given in itertools.product(places, INPUTS):
            changed = (*words[:place], given, *words[place + 1 :])
            if changed[:2] == ENDLESS:
                continue
            yield Line(changed, stdin="later.img" if "img" in words[place] else "rich.csv")
            yield Line((*changed, "--explain"), stdin="crash.img")
    for words in [("merge", "-", "-", "out.txt"), ("resume", "-", "-", "out.txt"), ("run", "-", "-")]:
        yield Line(words, stdin="rich.img")
    for out in ("rich.img", "./rich.img", "later.img"):
        yield Line(("merge", "rich.img", "later.img", out))
        yield Line(("resume", "rich.img", "more.csv", out))
    for segment in ("recording/0000000003.seg", "recording/0000000004.seg", "recording/fold.lock"):
        yield Line(("fold", "recording"), locked=(segment,))
        yield Line(("report", "recording", "--explain"), locked=(segment,))


def scripts() -> Iterator[Line]:
    """Scripts with each mistake, and images that cannot be continued."""
    for name in rooms.scripts():
        yield Line(("run", name, "out.txt", "--explain"))
        yield Line(("run", name, "new.txt", "--workers", "3"))
        yield Line(("size", name, "--explain"))
    for name in rooms.scripts_on_base():
        yield Line(("resume", "base.img", name, "out.txt", "--explain"))
        yield Line(("resume", "base.img", name, "base.img"))
    for name in rooms.bases(b"".ljust(1024, b"\0")):
        yield Line(("resume", name, "three_samples.csv", "out.txt", "--explain"))
        yield Line(("resume", name, "three_samples.csv", "out.txt", "--workers", "2"))


SCALES = [
    ("1", "20", "1"), ("1", "1000000", "3"), ("0", "9", "1"), ("9", "9", "1"), ("9", "8", "1"), ("1", "9", "0"),
    ("1", "9", "9"), ("1", "2147483647", "8"), ("1", "2147483646", "8"), ("1", "2147483646", "1"), ("007", "9", "1"),
    ("", "9", "1"), ("x", "9", "1"), ("1", "x", "1"), ("1", "9", "x"), ("4294967296", "9", "1"),
    ("1", "4294967295", "1"), ("-1", "9", "1"), ("+1", "9", "1"),
]


def scales() -> Iterator[Line]:
    """Scales, sizes and explanations."""
    for numbers in SCALES:
        yield Line(("scale", "latency.us", *numbers))
        yield Line(("scale", 'a,"b', *numbers, "--explain"))
    for name in [name for name, _, _ in faults.texts()]:
        yield Line(("explain", name), classes=classed("explain", name))
        yield Line(("explain", name.upper()))
        yield Line(("explain", name[:-1]))
    for words in [(), ("POVUNDIRI_REFUSED_NO_UNITS",), ("POVUNDIRI_NONE",), ("",), ("wxyzwxyz",), ("Busy", "Read")]:
        yield Line(("explain", *words))
    for hists in itertools.combinations(tables.HIST.values, 2):
        yield Line(("size", *(word for hist in hists for word in ("--hist", hist)), "--values", "30"))


def streams() -> Iterator[Line]:
    """Each command with outputs that cannot be written, and terminals."""
    for command in COMMANDS:
        for output in (FULL, NO_READER, CLOSED, TERMINAL):
            yield Line(command.words, output=output)
            yield Line((*command.words, "--explain"), output=output)
        yield Line((command.name, "--help"), output=FULL)
        yield Line((*command.words, "--wrong"), error=FULL)
        yield Line((*command.words, "--wrong"), error=TERMINAL)


# Commands that end with a fault, most after a text.
FAULTY: list[Words] = [
    ("report", "missing.img"), ("report", "hosts"), ("show", "rich.img", "requst.ms"), ("fold", "worse"),
    ("run", "script-00.csv", "out.txt"), ("merge", "rich.img", "other.img", "out.txt"),
    ("export", "clash.img", "--families"), ("report", "rich.img", "--minus", "later.img"),
    ("report", "v2-bad-BadSum.img", "--whole"), ("look", "three_samples.img"), ("explain", "Rea"),
    ("report", "rich.img", "v2-bad-BadSum.img", "--whole"), ("extract", "text.txt", "out.txt"),
]


def told_faults() -> Iterator[Line]:
    """Faults that are explained since the environment or a terminal asks for it, or not, or that cannot be told."""
    for words in FAULTY:
        yield from (Line(words, settings=((EXPLAINED[0][0], value),)) for value in ("", "0", "1", "yes"))
        yield from (Line(words, error=error) for error in (TERMINAL, FULL, CLOSED))
        yield Line(("--explain", *words))
        yield Line(words, output=FULL, settings=EXPLAINED)


def environments() -> Iterator[Line]:
    """Standard input that is no pipe, and the columns of the environment."""
    for stdin, form in itertools.product((CLOSED, TERMINAL, "/dev/null"), FORMS):
        yield Line(form.words, stdin)
        yield Line((*form.words, "--explain"), stdin, error=TERMINAL)
    for columns in ("", "20", "40", "100", "200", "300", "x", "-1", "99999999999"):
        yield Line(("show", "rich.img"), settings=(("COLUMNS", columns),))
        yield Line(("show", "well", "--list"), settings=(("COLUMNS", columns),))


def rounds_of(words: Words, *contents: str, path: str = "live.img") -> Iterator[Line]:
    """A text that is written again and again, while what it is of changes after each: on standard output, and in a
    file."""
    changes = tuple(Change(path, content) for content in contents)
    again = ("--live", "--every", "1", "--count", str(len(changes) + 1))
    for to in ((), ("--to", "out.txt")):
        yield Line((*words, *again, *to), changes=changes, classes=classed("rounds", path, None))


# Changes of a file that is looked at, each a list of what comes after each text; of the last one nothing can be read.
CHANGES = [
    ("other.img", "rich.img"), ("none.img", "later.img"), ("mapped.img",), ("v2-bad-BadSum.img", "rich.img"),
    ("v2-stopped-Loop.img",), ("v2-flag-corrupt.img",), ("later.img", ""), ("text.txt",), ("three_samples.img",),
    ("odd.img",), ("no.bytes",), ("sum.totals",), ("clash.img",),
]


# What changes while it is looked at: a file, one of a folder and one that is new there, and the same of a recording.
CHANGED = ("live.img", "well/1.img", "well/9.img", "recording/0000000009.seg", "recording/0000000004.seg")


def rounds() -> Iterator[Line]:
    """Texts that are written again: in each form, of names, and to what cannot be written or is a terminal."""
    repeated = [form for form in (*FORMS, *MORE_FORMS) if form.words[0] in ("show", "export")]
    for form in repeated:
        yield from rounds_of((*form.words, "live.img"), "later.img", "last.img")
    for words in [("request.ms",), ("fresh", "last"), ("--match", "last")]:
        yield from rounds_of(("show", "live.img", *words), "later.img", "last.img")
    yield from rounds_of(("export", "live.img", "--families"), "clash.img")
    for output in (TERMINAL, FULL):
        yield dataclasses.replace(next(rounds_of(("show", "live.img"), "later.img")), output=output, changes=())


def rounds_of_sources(words: Words) -> Iterator[Line]:
    """A text that is written again of several, of folders and recordings, of what came since an earlier image, and of a
    file that becomes another one."""
    for source in (("live.img", "crash.img"), ("live.img", "live.img"), ("live.img", "sum.totals", "missing.img")):
        rest = source[1:] if words[0] == "export" else [word for name in source[1:] for word in ("--also", name)]
        yield from rounds_of((*words, source[0], *rest), "later.img", "last.img")
    yield from rounds_of((*words, "well"), "later.img", "last.img", path="well/1.img")
    yield from rounds_of((*words, "well"), "rich.img", "", path="well/9.img")
    yield from rounds_of((*words, "recording"), "rich.img", "later.img", path="recording/0000000009.seg")
    yield from rounds_of((*words, "recording"), "last.img", path="recording/0000000004.seg")
    yield from rounds_of((*words, "live.img", "--minus", "rich.img"), "later.img", "rich.img")
    yield from rounds_of((*words, "live.img", "--workers", "3", "--strict"), "later.img", "text.txt")
    for contents in CHANGES:
        yield from rounds_of((*words, "live.img"), *contents)


def other_rounds() -> Iterator[Line]:
    """Some texts that are written again, of each source."""
    for words in [("show",), ("show", "--list"), ("export",), ("show", "--whole", "--explain")]:
        yield from rounds_of_sources(words)


GROUPS = (
    helps, mistakes, options, named_pairs, by_sources, by_forms, damages, outs, inputs, scripts, scales, streams,
    told_faults, environments, rounds, other_rounds,
)


def all_lines() -> list[Line]:
    """All lines, each once, with all classes that it is of."""
    found: dict[Line, tuple[Class, ...]] = {}
    for group in GROUPS:
        for line in group():
            more = (*found.get(line, ()), *line.classes, Class("group", group.__name__, None))
            found[line] = tuple(dict.fromkeys(more))
    return [dataclasses.replace(line, classes=classes) for line, classes in found.items()]


def classes() -> set[Class]:
    """The classes that have to occur, by the tables."""
    wanted = {*classed("help", "-h"), *classed("help", "--help")}
    for command in COMMANDS:
        wanted |= {*classed("command", command.name)}
        wanted |= {Class("help", f"{command.name} {word}", 0) for word in ("-h", "--help")}
    for command in [*COMMANDS, tables.SIZE_OF_HISTS]:
        for option in command.options:
            wanted |= {*classed("option", f"{command.name} {option.name}")}
            wanted |= {*classed("mistake", f"{command.name} {option.name}", USAGE)}
    wanted |= {Class("form", form.name, 0) for form in (*FORMS, *MORE_FORMS)}
    wanted |= {Class("source", source.name, source.status) for source in SOURCES}
    wanted |= {Class("damage", name, None) for name in [*damaged_names(), *refused_names()]}
    wanted |= {Class("OUT", name, status) for name, _, status in tables.OUTS}
    wanted |= {Class("writer", name, tables.STATUS_OF_WRITER.get(name, 0)) for name in tables.WRITERS}
    wanted |= {Class("rounds", path, None) for path in CHANGED}
    wanted |= {Class("group", group.__name__, None) for group in GROUPS}
    return wanted | {Class("explain", name, 0) for name, _, _ in faults.texts()}


def fault_names() -> set[str]:
    """The faults that have to be reported by some line."""
    return {name for name, _, _ in faults.texts()} - {*tables.UNTRIED}
