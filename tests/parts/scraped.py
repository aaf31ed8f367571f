"""`export` read by what people run: promtool, the textfile collector of the node exporter, and a Prometheus that
scrapes it and is asked for its buckets and quantiles.

The programs are those of Debian's packages `prometheus` and `prometheus-node-exporter`: installed, or fetched by
apt-get and unpacked into a folder of the part. All serve on the loopback alone.
"""

from __future__ import annotations

import argparse
import concurrent.futures
import csv
import functools
import math
import pathlib
import re
import subprocess
import tempfile
from collections.abc import Iterator, Sequence

from parts import known
from support import monitoring, plain_export
from support.program import ROOT, Case, Word, answer, untried

PROGRAM = "persist_report"
CRASH = ROOT / "examples" / "crash.img"
MOST_SIDE_BY_SIDE = 4
# The status of promtool if all can be read, and something is to be said of a name.
OF_NAMES = 3
QUANTILES = [0.1, 0.5, 0.9, 0.99]
# A line of a sample: the name, the labels and the number.
SAMPLE = re.compile(r"(\w+)(?:\{(.*)\})? (\S+)")
LABEL = re.compile(r'(\w+)="((?:[^"\\]|\\.)*)"')
# What two services are labeled with.
SERVICES = ["shop", "search"]
# A script with histograms whose names have labels, and of each name and method the units above 10.
SCRIPT = b"""\
segment,1024,64,7
hist,http.latency{code=200;method=GET},linear,1,100,5
hist,http.latency{code=500;method=GET},linear,1,100,5
add,http.latency{code=200;method=GET},7,3
add,http.latency{code=500;method=GET},7,2
add,http.latency{code=500;method=GET},90,4
"""

Series = dict[tuple[str, frozenset[tuple[str, str]]], float]


def exported(program: pathlib.Path, *words: Word) -> bytes:
    """What an export writes."""
    return answer(program, ["export", *words]).output


def series_of(text: str) -> Series:
    """The series of a text and their numbers; each has to come once. The end of a bucket may be written in two ways."""
    found: Series = {}
    for line in text.splitlines():
        sample = SAMPLE.fullmatch(line)
        if sample is None or line.startswith("#"):
            continue
        labels = LABEL.findall(sample[2] or "")
        key = (sample[1], frozenset((name, str(float(value)) if name == "le" else value) for name, value in labels))
        assert key not in found, f"twice: {line}"
        found[key] = float(sample[3])
    return found


def lint(program: pathlib.Path, tools: monitoring.Tools, image: pathlib.Path, has_families: bool) -> str | None:
    """What `promtool check metrics` says of the export of an image; an image has none exactly if the plain renderer has
    none of it.

    With a family for each histogram, status 3 is about names, which are the histograms' own, such as one with `_ms`.
    """
    words: list[Word] = ["--families", image] if has_families else [image]
    came = answer(program, ["export", *words])
    plain = plain_export.named_answer if has_families else plain_export.answer
    if came.status != plain(image.read_bytes())[2]:
        return f"the status is {came.status}"
    if came.status == 3:
        return None
    said = subprocess.run([tools["promtool"], "check", "metrics"], input=came.output, capture_output=True, timeout=60)
    if has_families:
        right = came.status == 0 and said.returncode in (0, OF_NAMES)
    else:
        right = came.status == said.returncode == 0 and not said.stdout + said.stderr
    return None if right else f"promtool says {said.stderr[-500:]!r}"


def linted(program: pathlib.Path, tools: monitoring.Tools) -> Iterator[Case]:
    """`promtool check metrics` of both exports of every known image, several at a time."""
    images = [*sorted(known.FOLDER.glob("*.img")), CRASH]
    with concurrent.futures.ThreadPoolExecutor(MOST_SIDE_BY_SIDE) as pool:
        for has_families in (False, True):
            tried = functools.partial(lint, program, tools, has_families=has_families)
            said = pool.map(tried, images)
            for image, wrong in zip(images, said):
                yield f"promtool, {image.name}{', --families' if has_families else ''}", wrong


def collected(tools: monitoring.Tools, texts: Sequence[bytes], folder: pathlib.Path) -> tuple[str, str]:
    """What the textfile collector makes of files with these texts, and what it says of errors."""
    files = folder / "files"
    files.mkdir()
    for number, text in enumerate(texts):
        (files / f"service_{number}.prom").write_bytes(text)
    words = [tools["prometheus-node-exporter"], "--collector.disable-defaults", "--collector.textfile"]
    words += [f"--collector.textfile.directory={files}", "--web.listen-address="]
    log = folder / "node_exporter.log"
    with monitoring.served(words, "/", log) as address:
        said = monitoring.fetch(f"{address}/metrics") or ""
    return said, "\n".join(line for line in log.read_text().splitlines() if "level=error" in line)


def beside_one_another(program: pathlib.Path, tools: monitoring.Tools, folder: pathlib.Path) -> Iterator[Case]:
    """Two services' files in one folder: with a label all series of both are there, without one not."""
    texts = [exported(program, "--label", f"job={service}", CRASH) for service in SERVICES]
    wanted: Series = {}
    for text in texts:
        wanted.update(series_of(text.decode()))
    came, errors = collected(tools, texts, folder)
    series = series_of(came)
    missing = [key for key, value in wanted.items() if series.get(key) != value]
    wrong = None
    if errors or 'node_textfile_scrape_error 0' not in came:
        wrong = f"the collector says {errors or came[-500:]}"
    elif len(wanted) != sum(len(series_of(text.decode())) for text in texts) or missing:
        wrong = f"of {len(wanted)} series {len(missing)} are missing, such as {missing[:1]}"
    yield "two services in one folder", wrong
    bare = folder / "bare"
    bare.mkdir()
    came, errors = collected(tools, [exported(program, CRASH)] * 2, bare)
    yield "the same without a label", None if errors else "two files with the same series are no error"


def rows_of(program: pathlib.Path, image: pathlib.Path) -> dict[str, list[tuple[int, int, int]]]:
    """The rows of the histograms that have buckets, by the report: the lowest value, the end, and the units."""
    rows: dict[str, list[tuple[int, int, int]]] = {}
    for row in csv.reader(answer(program, ["report", image]).output.decode().splitlines()):
        if len(row) == 5 and row[1] != "sparse":
            rows.setdefault(row[0], []).append((int(row[2]), int(row[3]), int(row[4])))
    return rows


def quantile_of(rows: list[tuple[int, int, int]], quantile: float) -> float:
    """The quantile that straight lines through the buckets give. In the last bucket it is the end of the one before."""
    rank, before = quantile * sum(count for _, _, count in rows), 0
    for low, high, count in rows:
        if before + count >= rank:
            start, end = max(low - 1, 0), high - 1
            return float(end) if end <= 0 else start + (end - start) * ((rank - before) / count)
        before += count
    raise AssertionError("no units")


def wrong_buckets(address: str, rows: dict[str, list[tuple[int, int, int]]]) -> str | None:
    """Where a bucket of Prometheus is not as in the report, to the unit."""
    of_all = monitoring.asked(address, "povundiri_units_bucket")
    if not of_all:
        return "there are no buckets"
    for labels, value in of_all:
        if labels["histogram"] not in rows:
            return f"{labels['histogram']} is not in the report"
        up_to = math.inf if labels["le"] == "+Inf" else int(labels["le"])
        wanted = sum(count for _, high, count in rows[labels["histogram"]] if high - 1 <= up_to)
        if value != str(wanted):
            return f"{labels}: wanted {wanted}, came {value}"
    return None


def asked(program: pathlib.Path, tools: monitoring.Tools, folder: pathlib.Path) -> Iterator[Case]:
    """A Prometheus that scraped an export: each bucket as in the report, and the quantiles between its buckets."""
    rows = rows_of(program, CRASH)
    with monitoring.scraped(tools, exported(program, CRASH), folder) as address:
        yield "Prometheus, each bucket", wrong_buckets(address, rows)
        for quantile in QUANTILES:
            came = monitoring.asked(address, f"histogram_quantile({quantile}, povundiri_units_bucket)")
            values = {labels["histogram"]: float(value) for labels, value in came}
            wanted = {name: quantile_of(of_one, quantile) for name, of_one in rows.items()}
            right = values.keys() == wanted.keys() and all(
                math.isclose(values[name], wanted[name], rel_tol=1e-12) for name in wanted
            )
            yield f"Prometheus, the quantile {quantile}", None if right else f"wanted {wanted}, came {values}"


def labeled(program: pathlib.Path, tools: monitoring.Tools, folder: pathlib.Path) -> Iterator[Case]:
    """Labels in names: a query adds up series that differ only in a label."""
    script, image = folder / "script", folder / "image"
    script.write_bytes(SCRIPT)
    answer(program, ["run", script, image])
    with monitoring.scraped(tools, exported(program, "--label", "job=shop", image), folder) as address:
        came = monitoring.asked(address, 'sum by (method, job) (povundiri_units_count{histogram="http.latency"})')
        wanted = [({"method": "GET", "job": "shop"}, "9")]
        yield "Prometheus, all codes of a method", None if came == wanted else f"wanted {wanted}, came {came}"
        came = monitoring.asked(address, 'povundiri_units_count{code="500"}')
        yield "Prometheus, one code", None if [value for _, value in came] == ["6"] else f"wanted 6, came {came}"


def cases(program: pathlib.Path, options: argparse.Namespace) -> Iterator[Case]:
    """The known images, two services in one folder, and queries; untried if the programs cannot be had."""
    with tempfile.TemporaryDirectory() as name:
        folder = pathlib.Path(name)
        packages = folder / "packages"
        packages.mkdir()
        try:
            tools = monitoring.tools(packages)
        except monitoring.Unmonitored as why:
            yield untried(str(why), options)
            return
        yield from linted(program, tools)
        for tried in (beside_one_another, asked, labeled):
            (folder / tried.__name__).mkdir()
            yield from tried(program, tools, folder / tried.__name__)
