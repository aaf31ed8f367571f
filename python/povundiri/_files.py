"""Files of any kind."""

from __future__ import annotations

import dataclasses
import os

from ._faults import fault_at
from ._images import MAPPED_FRONT, Path, image_from
from ._looks import look
from ._readings import Reading
from ._totals import TOTALS_FRONT, decode_totals


def read_file(path: Path, live: bool = False) -> Reading:
    """What an image, a mapped file or totals in a file say; of a mapped file or an image by a look if it is live."""
    name = os.fspath(path)
    with fault_at(name), open(name, "rb") as file:
        front = file.read(len(MAPPED_FRONT))
        if front.startswith(TOTALS_FRONT):
            return dataclasses.replace(decode_totals(front + file.read()), added=(name,))
        return look(name) if live else image_from(file, front, name)
