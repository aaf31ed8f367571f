"""What is read: histograms, and what is not in them."""

from __future__ import annotations

import dataclasses
import functools
import importlib
import itertools
import operator
from collections.abc import Iterable, Iterator, Mapping, Sequence
from fractions import Fraction
from typing import Any, Callable, NamedTuple, Optional, Tuple, Union

from ._faults import Fault

# The kinds, by their numbers in a record.
KINDS = ("", "linear", "boolean", "custom", "sparse")
# What comes after the greatest value.
END = 2**31 - 1
MOST_BUCKETS = 1000

# Of a histogram: the least value of each bucket, or each value of a sparse one; the units of each; their marks.
Layout = Tuple[Sequence[int], Sequence[int], Sequence[int]]
# A share of the units. A float is none: 0.99 is not 99/100.
Share = Union[int, str, Fraction]


class Bucket(NamedTuple):
    """A bucket of a histogram, or a value of a sparse one.

    `low` is the least value in it, and `high` the one after its greatest; `units` is how many units it has, and `mark`
    how many of them deltas have taken.
    """

    low: int
    high: int
    units: int
    mark: int


class Spec(NamedTuple):
    """How a histogram splits the values. Equal specs split them equally.

    `kind` is `linear`, `boolean`, `custom` or `sparse`; a scale is a custom spec. `numbers` are, of a linear spec, the
    minimum, the maximum and the number of buckets, of a custom one its values, and else none.
    """

    kind: str
    numbers: tuple[int, ...]

    @property
    def ranges(self) -> tuple[int, ...]:
        """The boundaries: bucket i has the values from boundary i to below boundary i + 1. A sparse spec has none."""
        return _ranges_of(self)

    @property
    def is_valid(self) -> bool:
        """Whether a segment can have it."""
        if self.kind == "linear":
            low, high, n = self.numbers
            return 0 < low < high < END and 3 <= n <= min(MOST_BUCKETS, high - low + 2)
        values = (0, *self.numbers, END)
        is_rising = all(map(operator.lt, values, values[1:]))
        return self.kind != "custom" or (0 < len(self.numbers) < MOST_BUCKETS and is_rising)


BOOLEAN, SPARSE = Spec("boolean", ()), Spec("sparse", ())


@functools.lru_cache(maxsize=4096)
def _ranges_of(spec: Spec) -> tuple[int, ...]:
    if spec.kind == "sparse":
        return ()
    if spec.kind == "custom":
        return (0, *spec.numbers, END)
    low, high, n = spec.numbers or (1, 2, 3)
    inner = ((2 * (low * (n - 1 - i) + high * (i - 1)) + (n - 2)) // (2 * (n - 2)) for i in range(1, n))
    return (0, *inner, END)


class Histogram:
    """What was counted under one name with one spec.

    - `name`: its name. Bytes of totals that are no UTF-8 are surrogates, as in Python's names of files.
    - `spec`: its kind and its ranges.
    - `units`: how many units all buckets have together.
    - `sum` and `sum_mark`: the sum of the samples, and the part of it that deltas have taken.
    - `redundant`: the redundant count, that is the units counted once more at the end of each call. It differs from
      `units` while a call is on its way, and for good once a kill has cut one off. That is no damage.
    - `images`: how many images have the name with this spec.
    - `first_image`: the number of the first of them. Of a folder it is that of the segment, else images are numbered
      from 0 in the order in which they were added up.
    """

    __slots__ = (
        "name", "spec", "units", "sum", "sum_mark", "redundant", "images", "first_image", "_lay_out", "_laid_out"
    )

    def __init__(
        self, name: str, spec: Spec, units: int, sums: tuple[int, int], redundant: int, images: int, first_image: int,
        lay_out: Callable[[], Layout],
    ) -> None:
        self.name, self.spec, self.units, self.redundant = name, spec, units, redundant
        self.sum, self.sum_mark = sums
        self.images, self.first_image = images, first_image
        self._lay_out = lay_out
        self._laid_out: Optional[Layout] = None

    @property
    def layout(self) -> Layout:
        """The least value of each bucket, or each value of a sparse histogram; the units of each; and their marks."""
        # The counts of an image stay in its words until somebody asks for them.
        if self._laid_out is None:
            self._laid_out = self._lay_out()
        return self._laid_out

    @property
    def buckets(self) -> tuple[Bucket, ...]:
        """All buckets by their values, also those without units. Of a sparse histogram each value that has a record."""
        keys, units, marks = self.layout
        ends: Iterable[int] = (key + 1 for key in keys) if self.spec.kind == "sparse" else (*keys[1:], END)
        return tuple(map(Bucket, keys, ends, units, marks))

    @property
    def counts(self) -> tuple[int, ...]:
        """The units of each bucket, in the order of `buckets`."""
        return tuple(self.layout[1])

    @property
    def mean(self) -> Optional[float]:
        """The sum over the units, as the nearest float; None without units. `Fraction(sum, units)` is exact."""
        return self.sum / self.units if self.units else None

    def quantile(self, share: Share, of: int = 1) -> Optional[Bucket]:
        """Returns the bucket that holds a quantile: the first one up to which there are at least this share of the
        units. Nothing is interpolated. None without units.

        The share is exact: `quantile(99, 100)`, `quantile("0.99")`, `quantile(Fraction(99, 100))`. Of 1 it is the last
        bucket that has units. A float is a `TypeError`. A share that is not above 0 and at most 1 is a `ValueError`,
        and so is a text that is no number.
        """
        if isinstance(share, float) or not isinstance(of, int):
            raise TypeError(f"a float is not exact: use quantile('{share}') or quantile(numerator, denominator)")
        numerator, denominator = Fraction(share).as_integer_ratio()
        denominator *= of
        if not 0 < numerator <= denominator:
            raise ValueError(f"a quantile is above 0 and at most 1, and {numerator}/{denominator} is not")
        if self.units == 0:
            return None
        # The least number of units that is at least the share.
        wanted = -(-numerator * self.units // denominator)
        up_to = itertools.accumulate(self.layout[1])
        return self.buckets[next(place for place, units in enumerate(up_to) if units >= wanted)]

    def __repr__(self) -> str:
        return f"<Histogram {self.name!r}: {self.spec.kind}, {self.units} units, sum {self.sum}>"


class Damage(NamedTuple):
    """What is wrong inside of an image. All that is valid in it was read.

    `path` is the file, or None if the image came from bytes. `reference` is the index of the first word of a bad
    record, and `fault` that record's fault, such as `BadCounts`. Where the list of records stops before its end, the
    reference is None, and `fault` says why: `BadRef`, `BadBlock` or `Loop`.
    """

    path: Optional[str]
    reference: Optional[int]
    fault: str


class LeftOut(NamedTuple):
    """A file whose counts are in no histogram of a reading: its path, and why, a `Fault` or the system's `OSError`."""

    path: str
    error: Exception

    @property
    def fault(self) -> str:
        """The fault as `persist_report` writes it; `Read` is an `OSError`."""
        return self.error.fault if isinstance(self.error, Fault) else "Read"


class Segment(NamedTuple):
    """What an image says of its segment.

    `size` and `page` are the words of the segment and of its pages. `free` is the free pointer, so how many words are
    in use, with the header and the rests of pages. `units_used` are those of its 4,294,967,295 units that are used: of
    each histogram the greatest of its units, its redundant count, and what its sum, its sum mark and the difference of
    these cost, a unit for each 2^31; in version 1 the units.
    """

    version: int
    id: int
    size: int
    page: int
    free: int
    units_used: int


@dataclasses.dataclass(frozen=True)
class Reading:
    """What an image, totals or a recording's folder has, or what several of these have together.

    - `all_histograms`: in the order of totals, by the bytes of the names, and those of one name by their specs.
    - `images`: how many images it is of, with those that totals are of. `full`, `corrupt` and `stopped`: of how many
      of them an allocation did not fit, some thread found them corrupt, and the list of records stops before its end.
      `bad`: how many bad records they have. Of one image the first four are 0 or 1.
    - `damage`: each bad record and each stop, in the order of the lists. Of images in totals the numbers are all that
      is known.
    - `added`: the files that are in it.
    - `left_out`: the files that could not be read or added, and are not in it.
    - `passed_over`: what else is in a recording's folder, and is not read: `0000000004.damaged`, which was set aside
      for a fault in its header, spares, and what others put there.
    - `segment`: what the one image says of its segment; None of all else.
    """

    all_histograms: tuple[Histogram, ...]
    images: int = 0
    full: int = 0
    corrupt: int = 0
    stopped: int = 0
    bad: int = 0
    damage: tuple[Damage, ...] = ()
    added: tuple[str, ...] = ()
    left_out: tuple[LeftOut, ...] = ()
    passed_over: tuple[str, ...] = ()
    segment: Optional[Segment] = None

    @functools.cached_property
    def histograms(self) -> Mapping[str, Histogram]:
        """The histograms by their names, in the order of the bytes of these. If a name has several specs, it is what
        was counted with that of the first image; `other_specs` has the others."""
        shown: dict[str, Histogram] = {}
        for one in self.all_histograms:
            if one.name not in shown or one.first_image < shown[one.name].first_image:
                shown[one.name] = one
        return shown

    @property
    def other_specs(self) -> tuple[Histogram, ...]:
        """What names have with another spec than that in `histograms`."""
        return tuple(one for one in self.all_histograms if one is not self.histograms[one.name])

    @property
    def is_whole(self) -> bool:
        """Whether nothing is missing: no record is bad, no list stops before its end, and no file is left out."""
        return not (self.bad or self.stopped or self.left_out)

    def rows(self) -> Iterator[tuple[str, str, int, int, int]]:
        """Yields name, kind, low, high and units of each bucket that has units, as `persist_report report --rows`."""
        for one in self.histograms.values():
            for low, high, units, _ in one.buckets:
                if units:
                    yield one.name, one.spec.kind, low, high, units

    def to_pandas(self) -> Any:
        """Returns the rows as a `pandas.DataFrame` with the columns `name`, `kind`, `low`, `high` and `count`. Without
        pandas it is an `ImportError`."""
        columns = ["name", "kind", "low", "high", "count"]
        return importlib.import_module("pandas").DataFrame(list(self.rows()), columns=columns)
