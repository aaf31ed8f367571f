#!/usr/bin/env python3
"""Merges files of the multiprocess mode of Python's prometheus_client, and prints the seconds that this takes.

    client_merge.py FOLDER FILES HISTOGRAMS BUCKETS

It first fills FOLDER/client with FILES files of HISTOGRAMS histograms each, as that many processes would leave them.
"""

from __future__ import annotations

import pathlib
import sys
import time
from collections.abc import Sequence

from prometheus_client.mmap_dict import MmapedDict, mmap_key  # type: ignore[import]
from prometheus_client.multiprocess import MultiProcessCollector  # type: ignore[import]
from prometheus_client.registry import CollectorRegistry  # type: ignore[import]


def keys_of(histogram: str, buckets: int) -> list[str]:
    """The keys that the client has for a histogram: its sum, and a count for each bucket."""
    bounds = [*(f"{number}.0" for number in range(1, buckets)), "+Inf"]
    counts = [mmap_key(histogram, f"{histogram}_bucket", ["le"], [bound], "h") for bound in bounds]
    return [mmap_key(histogram, f"{histogram}_sum", [], [], "h"), *counts]


def fill(path: pathlib.Path, keys: Sequence[str], seed: int) -> None:
    values = MmapedDict(str(path))
    for number, key in enumerate(keys):
        values.write_value(key, float((number * 7 + seed) % 60), *[0.0] * extra_values())
    values.close()


def extra_values() -> int:
    """How many numbers this version of the client writes beside a value."""
    return MmapedDict.write_value.__code__.co_argcount - 3


def main(arguments: Sequence[str]) -> int:
    folder = pathlib.Path(arguments[0]) / "client"
    files, histograms, buckets = map(int, arguments[1:])
    folder.mkdir()
    keys = [key for number in range(histograms) for key in keys_of(f"h{number}", buckets)]
    for number in range(files):
        fill(folder / f"histogram_{number}.db", keys, number)
    start = time.perf_counter()
    collector = MultiProcessCollector(CollectorRegistry(), str(folder))
    count = sum(len(metric.samples) for metric in collector.collect())
    seconds = time.perf_counter() - start
    assert count == histograms * (buckets + 2), count
    print(seconds)
    return 0


if __name__ == "__main__":
    sys.exit(main(sys.argv[1:]))
