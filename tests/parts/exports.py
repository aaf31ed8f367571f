"""`export`: known and forged images beside a plain renderer; each text is read back by the parser of Python's
Prometheus client.

The parser is that of Debian's python3-prometheus-client. Where it is not installed nothing is read back, and the part
says so.
"""

from __future__ import annotations

import argparse
import pathlib
import random
import sys
import tempfile
from collections.abc import Callable, Iterable, Iterator, Sequence
from typing import Any

from parts import known
from support import command_faults, forge, plain_export
from support.program import EXAMPLE, Answer, Case, Word, answer, difference

PROGRAM = "persist_report"
DEBIAN = "/usr/lib/python3/dist-packages"
MOST_IMAGES = 1000

# The text of the example in the format's own words.
EXAMPLE_TEXT = b"""\
# HELP povundiri_units Units of a histogram up to the greatest value of each bucket.
# TYPE povundiri_units histogram
povundiri_units_bucket{histogram="A",le="0"} 1
povundiri_units_bucket{histogram="A",le="1"} 3
povundiri_units_bucket{histogram="A",le="2147483646"} 3
povundiri_units_bucket{histogram="A",le="+Inf"} 3
povundiri_units_sum{histogram="A"} 2
povundiri_units_count{histogram="A"} 3
# HELP povundiri_sparse_total Units of each value of a sparse histogram.
# TYPE povundiri_sparse_total counter
# HELP povundiri_bad_records Records that could not be read, and one more where their list stops early.
# TYPE povundiri_bad_records gauge
povundiri_bad_records 0
# HELP povundiri_segment_flag Whether a flag of the segment is set.
# TYPE povundiri_segment_flag gauge
povundiri_segment_flag{flag="corrupt"} 0
povundiri_segment_flag{flag="full"} 0
"""
# A script whose names and values ask for escapes and signs, and lines that its export has.
SCRIPT = b"""\
segment,1024,64,7
hist,a\\b{c=d},boolean
hist,~s,sparse
add,a\\b{c=d},1,4294967290
add,~s,-2147483648,1
add,~s,2147483647,2
"""
SCRIPT_LINES = rb"""
x_units_bucket{histogram="a\\b",c="d",le="0"} 0
x_units_bucket{histogram="a\\b",c="d",le="+Inf"} 4294967290
x_units_sum{histogram="a\\b",c="d"} 4294967290
x_sparse_total{histogram="~s",value="-2147483648"} 1
x_sparse_total{histogram="~s",value="2147483647"} 2
""".split(b"\n")[1:-1]
# The parser of a text, which gives its families.
Parse = Callable[[str], Iterable[Any]]

PREFIXES = ["x", "_", "Zz_09"]
NO_PREFIXES = ["", "9a", "a-b", "a b", "a.b", "\u00e9", "a{", "a:b", ":"]

# Names that have labels, and what their lines say of them.
LABELED_NAMES = {
    "http.latency{code=200;method=GET}": '{histogram="http.latency",code="200",method="GET"}',
    "a{A=1;B_9=2;_=3;a=4}": '{histogram="a",A="1",B_9="2",_="3",a="4"}',
    "a{flag=1;job=shop}": '{histogram="a",flag="1",job="shop"}',
    "a{b=c=d}": '{histogram="a",b="c=d"}',
    "a{b={c}}": '{histogram="a",b="{c}"}',
}
# Names that go out whole.
WHOLE_NAMES = [
    "a{method=GET;code=200}",
    "a{code=200;code=201}",
    "a{code=200;code=200}",
    "a{9=x}",
    "a{b-c=x}",
    "a{b:c=x}",
    "a{=x}",
    "a{a__b=1}",
    "a{__=1}",
    "a{le=1}",
    "a{name=1}",
    "a{value=1}",
    "a{kind=1}",
    "a{histogram=1}",
    "a{code=}",
    "a{code}",
    "a{}",
    "a{",
    "a}",
    "{code=1}",
    "a{code=1}b",
    "a{code=1",
    "a{code=1;}",
    "a{;code=1}",
    "a{code=1;le=2}",
]
# Labels that all lines get, and what their lines then say.
LINE_LABELS = {
    ("job=shop",): ',job="shop"',
    ("job=shop", "zone=a=b"): ',job="shop",zone="a=b"',
    ("zone=b", "job=shop"): ',zone="b",job="shop"',
    ('city=Z\u00fcrich "x" \\',): ',city="Z\u00fcrich \\"x\\" \\\\"',
    ("_=1", "a_b=2"): ',_="1",a_b="2"',
}
NO_LINE_LABELS = [
    ["job"],
    ["=x"],
    ["job="],
    ["9a=x"],
    ["a-b=x"],
    ["a:b=x"],
    ["a__b=x"],
    ["__name__=x"],
    ["le=1"],
    ["name=1"],
    ["value=1"],
    ["kind=1"],
    ["histogram=1"],
    ["flag=1"],
    ["job=a", "job=b"],
    ["job=a", "zone=b", "job=a"],
]

# Histograms of families side by side, what is counted in them, and lines of their export.
FAMILY_HISTS = [
    "http.latency{code=200},linear,1,100,5",
    "http.latency{code=500},linear,1,100,5",
    "http/latency{code=404},linear,1,100,5",
    "9lives,boolean",
    "a:b,custom,3,9",
    "delta{zone=a},sparse",
    "delta{zone=b},sparse",
    "delta,sparse",
    "load_ms,boolean",
]
FAMILY_COUNTS = "add,http.latency{code=200},7,3\nadd,delta{zone=a},-5,2\nadd,delta,4,1\nadd,a:b,3,1\n"
FAMILY_LINES = [
    "# TYPE povundiri_http_latency histogram",
    'povundiri_http_latency_bucket{code="200",le="+Inf"} 3',
    'povundiri_http_latency_sum{code="200"} 21',
    'povundiri_http_latency_count{code="404"} 0',
    "povundiri_9lives_count 0",
    'povundiri_a_b_bucket{le="+Inf"} 1',
    "# TYPE povundiri_delta untyped",
    'povundiri_delta{zone="a",value="-5"} 2',
    'povundiri_delta{value="4"} 1',
    "# TYPE povundiri_delta_sum untyped",
    'povundiri_delta_sum{zone="a"} -10',
    "povundiri_delta_sum 4",
    "povundiri_load_ms_sum 0",
    "povundiri_bad_records 0",
    'povundiri_segment_flag{flag="full"} 0',
]
# Labels of all lines; a name with a key of them goes out whole.
FAMILY_LABELS: list[dict[str, str]] = [{}, {"job": "shop"}, {"code": "9", "zone": "a"}]
# Histograms that clash, by the bytes of their names.
CLASHES = [
    ("x.y,boolean", "x_y,boolean"),
    ("x.y,boolean", "x_y{a=1},linear,1,9,4"),
    ("x.y{a=1},boolean", "x_y{a=1},boolean"),
    ("x,sparse", "x{a=1},boolean"),
    ("x,boolean", "x_bucket,boolean"),
    ("x,boolean", "x_count{a=1},sparse"),
    ("x,sparse", "x_sum,boolean"),
    ("x.sum,sparse", "x{a=1},sparse"),
]
# Histograms that clash with a family of the segment, and which.
OF_SEGMENT = {"bad.records": "bad_records", "segment_flag": "segment_flag", "bad_records{a=1}": "bad_records"}


def parser() -> Parse | None:
    """The parser, or None if it is not installed."""
    try:
        from prometheus_client.parser import text_string_to_metric_families  # type: ignore[import]
    except ImportError:
        if DEBIAN in sys.path or not pathlib.Path(DEBIAN, "prometheus_client").is_dir():
            return None
        sys.path.append(DEBIAN)
        return parser()
    return text_string_to_metric_families


def complaint(
    parse: Parse, text: bytes, families: plain_export.Families, prefix: str = plain_export.PREFIX
) -> str | None:
    """What the parser says of a text, or where it reads other samples than were meant; None if all is well."""
    wanted = {}
    for family, samples in families.items():
        kind = plain_export.FAMILIES[family][0]
        wanted.update(
            {(kind, f"{prefix}_{name}", *sorted(labels.items())): float(value) for name, labels, value in samples}
        )
    came = {}
    try:
        for read in parse(text.decode()):
            came.update(
                {(read.type, sample.name, *sorted(sample.labels.items())): sample.value for sample in read.samples}
            )
    except ValueError as error:
        return f"the parser refuses it: {error}"
    wrong = sorted(wanted.items() ^ came.items(), key=str)
    return f"the parser reads other samples: {wrong[:2]}" if wrong else None


def beside(program: pathlib.Path, parse: Parse | None, data: bytes, words: Sequence[Word] = ()) -> str | None:
    """Where the export of an image is not what the plain renderer says, or is not read back."""
    wanted = Answer(*plain_export.answer(data))
    wrong = difference(wanted, answer(program, ["export", *words], data))
    if wrong is None:
        named = Answer(*plain_export.named_answer(data))
        wrong = difference(named, answer(program, ["export", "--families", *words], data))
    if wrong is None and parse is not None and wanted.status == 0:
        wrong = complaint(parse, wanted.output, plain_export.families_of(data))
    return wrong


def worked(program: pathlib.Path, parse: Parse | None, folder: pathlib.Path) -> Iterator[Case]:
    """The example as a file and on standard input, prefixes, and names that are escaped."""
    wanted = Answer(EXAMPLE_TEXT)
    inputs: list[list[Word]] = [[EXAMPLE], ["-"], []]
    for words in inputs:
        data = b"" if words == [EXAMPLE] else EXAMPLE.read_bytes()
        yield f"the example, {words}", difference(wanted, answer(program, ["export", *words], data))
    for prefix in PREFIXES:
        named = Answer(EXAMPLE_TEXT.replace(b"povundiri_", f"{prefix}_".encode()))
        yield f"the prefix {prefix}", difference(named, answer(program, ["export", "--prefix", prefix, EXAMPLE]))
    for prefix in NO_PREFIXES:
        came = answer(program, ["export", f"--prefix={prefix}", EXAMPLE])
        right = came.status == 2 and came.output == b"" and b"prefix" in came.error
        yield f"the prefix {prefix!r}", None if right else f"wanted a usage fault, came {came}"
    script, image = folder / "script", folder / "image"
    script.write_bytes(SCRIPT)
    answer(program, ["run", script, image])
    came = answer(program, ["export", "--prefix", "x", image])
    missing = [line for line in SCRIPT_LINES if line not in came.output.split(b"\n")]
    wrong = f"wanted {missing} among the lines, came {came}" if missing else beside(program, parse, image.read_bytes())
    yield "escapes and signs", wrong


def named(program: pathlib.Path, parse: Parse | None, folder: pathlib.Path) -> Iterator[Case]:
    """Names with labels, and names that only look so."""
    script, image = folder / "names", folder / "names.img"
    names = [*LABELED_NAMES, *WHOLE_NAMES]
    script.write_text("segment,8192,1024,7\n" + "".join(f"hist,{name},boolean\n" for name in names))
    answer(program, ["run", script, image])
    lines = answer(program, ["export", image]).output.decode().splitlines()
    wanted = {**LABELED_NAMES, **{name: f'{{histogram="{name}"}}' for name in WHOLE_NAMES}}
    for name, labels in wanted.items():
        line = f"povundiri_units_count{labels} 0"
        yield f"the name {name}", None if line in lines else f"no line {line}"
    yield "all names", beside(program, parse, image.read_bytes())
    taken = answer(program, ["export", "--label", "code=9", image]).output.decode().splitlines()
    line = 'povundiri_units_count{histogram="http.latency{code=200;method=GET}",code="9"} 0'
    yield "a name with a key of all lines", None if line in taken else f"no line {line}"


def labeled(program: pathlib.Path, parse: Parse | None) -> Iterator[Case]:
    """Labels on all lines, and labels that none may have."""
    for given, text in LINE_LABELS.items():
        words = [word for label in given for word in ("--label", label)]
        labels = {key: value for key, _, value in (label.partition("=") for label in given)}
        came = answer(program, ["export", *words, EXAMPLE])
        wanted = Answer(*plain_export.answer(EXAMPLE.read_bytes(), line_labels=labels))
        wrong = difference(wanted, came)
        lines = [line for line in came.output.decode().splitlines() if not line.startswith("#")]
        if wrong is None and not all(text in line or f"{{{text[1:]}}}" in line for line in lines):
            wrong = f"not all lines have {text}"
        if wrong is None and parse is not None:
            wrong = complaint(parse, came.output, plain_export.families_of(EXAMPLE.read_bytes(), labels))
        yield f"the labels {given}", wrong
    for refused in NO_LINE_LABELS:
        came = answer(program, ["export", *(f"--label={label}" for label in refused), EXAMPLE])
        right = came.status == 2 and came.output == b"" and b"label" in came.error
        yield f"no labels {refused}", None if right else f"wanted a usage fault, came {came}"


def by_name(program: pathlib.Path, parse: Parse | None, folder: pathlib.Path) -> Iterator[Case]:
    """`--families`: names that are made valid, labels, and names that clash."""
    script, image = folder / "families", folder / "families.img"

    def made(hists: Iterable[str], counts: str = FAMILY_COUNTS) -> bytes:
        """The image of histograms, each as its fields in a script, and what is counted in them."""
        script.write_text("segment,8192,1024,7\n" + "".join(f"hist,{hist}\n" for hist in hists) + counts)
        answer(program, ["run", script, image])
        return image.read_bytes()

    lines = answer(program, ["export", "--families", "-"], made(FAMILY_HISTS)).output.decode().splitlines()
    missing = [line for line in FAMILY_LINES if line not in lines]
    yield "families, lines", f"no lines {missing}" if missing else None
    heads = [line.split()[2:] for line in lines if line.startswith("# TYPE")]
    names = [name for name, _ in heads]
    yield "families, one head each", None if len(names) == len(set(names)) else f"heads {heads}"
    data = made(FAMILY_HISTS)
    for labels in FAMILY_LABELS:
        words = [word for key, value in labels.items() for word in ("--label", f"{key}={value}")]
        wanted = Answer(*plain_export.named_answer(data, "x", labels))
        came = answer(program, ["export", "--families", "--prefix", "x", *words], data)
        wrong = difference(wanted, came)
        if wrong is None and parse is not None and len(list(parse(came.output.decode()))) == 0:
            wrong = "the parser reads nothing"
        yield f"families with the labels {labels}", wrong
    for first, second in CLASHES:
        data, fault = made([*FAMILY_HISTS, first, second]), f"Clash {first.split(',')[0]} {second.split(',')[0]}"
        came = answer(program, ["export", "--families"], data)
        yield fault, difference(Answer(b"", f"persist_report: {fault}\n".encode(), 3), came)
        yield f"{fault}, plain", difference(Answer(*plain_export.named_answer(data)), came)
        out = folder / "families.out"
        out.write_bytes(b"old\n")
        came = answer(program, ["export", "--families", "--to", out, image])
        left = sorted(path.name for path in folder.iterdir() if path.name.startswith("."))
        right = came.status == 3 and out.read_bytes() == b"old\n" and not left
        yield f"{fault}, --to", None if right else f"came {came}, left {left}"
    for name, other in OF_SEGMENT.items():
        came = answer(program, ["export", "--families"], made([f"{name},boolean"], ""))
        yield f"Clash {name}", difference(Answer(b"", f"persist_report: Clash {name} {other}\n".encode(), 3), came)


def replaced(program: pathlib.Path, folder: pathlib.Path) -> Iterator[Case]:
    """`--to` of each command that writes a text: the same bytes, in a file that is replaced at the end or not."""
    out, damaged = folder / "out", folder / "damaged"
    damaged.write_bytes(EXAMPLE.read_bytes()[:100])
    inputs: list[tuple[str, Word, bytes]] = [("a file", EXAMPLE, b""), ("standard input", "-", EXAMPLE.read_bytes())]
    for words in (["report"], ["export"], ["show"], ["show", "--html"]):
        for name, given, data in inputs:
            # A page names where its image comes from.
            written = answer(program, [*words, given], data)
            for old in (None, b"old\n"):
                out.unlink(missing_ok=True)
                if old is not None:
                    out.write_bytes(old)
                came = answer(program, [*words, given, "--to", out], data)
                wrong = difference(Answer(), came)
                if wrong is None and out.read_bytes() != written.output:
                    wrong = "the file has another text"
                yield f"{words} --to, {name}, {'new' if old is None else 'old'}", wrong
        out.write_bytes(b"old\n")
        came = answer(program, [*words, damaged, "--to", out])
        left = sorted(path.name for path in folder.iterdir() if path.name.startswith("."))
        right = came.status == 3 and came.output == b"" and out.read_bytes() == b"old\n" and not left
        yield f"{words} --to, a damaged image", None if right else f"came {came}, left {left}"
        came = answer(program, [*words, EXAMPLE, "--to", folder / "none" / "out"])
        right = came.status != 0 and came.output == b"" and b"Write" in came.error
        yield f"{words} --to, no folder", None if right else f"came {came}"


def cases(program: pathlib.Path, options: argparse.Namespace) -> Iterator[Case]:
    """Worked examples; the known images; and forged ones, a thousand at most."""
    parse = parser()
    if parse is None:
        print("exports: nothing is read back, since python3-prometheus-client is not installed", flush=True)
    with tempfile.TemporaryDirectory() as folder:
        yield from worked(program, parse, pathlib.Path(folder))
        yield from named(program, parse, pathlib.Path(folder))
        yield from by_name(program, parse, pathlib.Path(folder))
        yield from replaced(program, pathlib.Path(folder))
    yield from labeled(program, parse)
    yield from command_faults.cases(program, ["export"])
    for image in sorted(known.FOLDER.glob("*.img")):
        yield image.name, beside(program, parse, image.read_bytes())
    for number in range(min(options.images, MOST_IMAGES)):
        data = forge.image_of(random.Random(f"{options.seed} {number}"))
        yield f"image {number} of seed {options.seed}", beside(program, parse, data)
