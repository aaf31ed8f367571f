"""`show --html` in headless Chromium, at the widths of a phone, a tablet and a desk: no element is wider than its
window, and no number is clipped. Where Chromium is not installed this is left out, and a line says so."""

from __future__ import annotations

import argparse
import pathlib
import random
import tempfile
from collections.abc import Iterator

from parts import known, shows
from support import forge, screens
from support.program import ROOT, Case, answer

PROGRAM = "persist_report"
WIDTHS = [390, 800, 1600]
MOST_KNOWN = 20
MOST_IMAGES = 40
# Bounds, units and sums with as many digits as they can have, in names as long as they can be.
LONG = "n" * 128
WIDE_SCRIPT = f"""\
segment,4096,256,18446744073709551615
hist,{LONG},custom,2000000000,2147483646
hist,many,sparse
hist,page.load,linear,1000000000,2000000000,50
add,{LONG},1999999999,1
add,{LONG},2147483646,2000000000
add,many,-2147483648,1000000000
add,page.load,1500000000,1234567
delta,page.load
"""
# A page whose numbers do not fit, which has to be found.
CUT_PAGE = b"""\
<!DOCTYPE html>
<h1>x</h1>
<div style='width: 60px; overflow: hidden; white-space: nowrap'>[2000000000, 2147483646)</div>
"""


def pages(program: pathlib.Path, folder: pathlib.Path, options: argparse.Namespace) -> Iterator[tuple[str, bytes]]:
    """The pages of examples, known and forged images, and of one with the widest names and numbers."""
    script, wide = folder / "script", folder / "wide.img"
    script.write_text(WIDE_SCRIPT)
    answer(program, ["run", script, wide])
    images = [wide, *sorted((ROOT / "examples").glob("*.img")), *sorted(known.FOLDER.glob("*.img"))[:MOST_KNOWN]]
    for image in images:
        came = answer(program, ["show", "--html", image])
        if came.status == 0:
            yield image.name, came.output
    script.write_bytes(shows.SCRIPT)
    answer(program, ["run", script, wide])
    yield "each kind", answer(program, ["show", "--html", "--all", wide]).output
    for number in range(min(options.images, MOST_IMAGES)):
        page = answer(program, ["show", "--html"], forge.image_of(random.Random(f"{options.seed} {number}"))).output
        if page:
            yield f"image {number} of seed {options.seed}", page


def cases(program: pathlib.Path, options: argparse.Namespace) -> Iterator[Case]:
    """Each page at each width; and that a page which is cut is found."""
    with tempfile.TemporaryDirectory() as name:
        folder = pathlib.Path(name)
        shown = list(pages(program, folder, options))
        missing = [page for page, text in shown if not text]
        yield "the pages", f"{missing} are empty" if missing else None
        browser = screens.browser()
        if browser is None:
            print("left out: chromium is not installed", flush=True)
            return
        found = screens.complaints(browser, [("cut", CUT_PAGE), *shown], WIDTHS, folder)
    for width in WIDTHS:
        cut = [why for page, at, why in found if (page, at) == ("cut", width)]
        yield f"a page that is cut, at {width}", None if cut else "it is not found"
        for page, _ in shown:
            wrong = [why for other, at, why in found if other == page and at in (width, 0)]
            yield f"{page}, at {width}", "; ".join(wrong[:3]) or None
