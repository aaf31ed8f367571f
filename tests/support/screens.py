"""How a page looks in Chromium at some width: it is loaded in an iframe of that width, and a script measures what is in
it."""

from __future__ import annotations

import html
import json
import pathlib
import re
import shutil
import subprocess
from collections.abc import Sequence

NAMES = ["chromium", "chromium-browser", "google-chrome"]
MOST_SECONDS = 120
# Loads each page at each width, one after the other. An element is too wide if it ends beyond its window or has more
# inside than it is wide; a number is clipped if an element around it shows less than there is.
SCRIPT = """
const result = [];
const short = element => element.tagName + ' ' + element.textContent.slice(0, 40);
function measure(name, width, frame) {
  const page = frame.contentDocument, root = page.documentElement;
  if (page.querySelectorAll('h1').length !== 1) result.push([name, width, 'the page is not there']);
  if (root.scrollWidth > width) result.push([name, width, 'the page is ' + root.scrollWidth + ' wide']);
  let numbers = 0;
  for (const element of page.querySelectorAll('body, body *')) {
    const box = element.getBoundingClientRect();
    if (box.right > width + 0.5 || box.left < -0.5 || box.width > width + 0.5)
      result.push([name, width, 'beyond the window: ' + short(element)]);
    const style = frame.contentWindow.getComputedStyle(element);
    if (element.scrollWidth > element.clientWidth + 1 && style.display !== 'inline' && element.clientWidth > 0)
      result.push([name, width, 'more inside than it is wide: ' + short(element)]);
    if (style.textOverflow !== 'clip' || style.overflowX !== 'visible' && element.tagName !== 'svg')
      result.push([name, width, 'cut: ' + short(element)]);
  }
  const range = page.createRange(), walker = page.createTreeWalker(page.body, NodeFilter.SHOW_TEXT);
  while (walker.nextNode()) {
    const text = walker.currentNode;
    if (!/[0-9]/.test(text.data)) continue;
    range.selectNodeContents(text);
    for (const box of range.getClientRects()) {
      numbers += 1;
      if (box.right > width + 0.5 || box.left < -0.5)
        result.push([name, width, 'a number is clipped: ' + text.data.slice(0, 40)]);
    }
    if (range.getClientRects().length === 0 && text.parentElement.tagName !== 'TH')
      result.push([name, width, 'a number is not shown: ' + text.data.slice(0, 40)]);
  }
  if (numbers === 0) result.push([name, width, 'there is no number']);
}
async function all() {
  for (const [name, text] of pages) for (const width of widths) {
    const frame = document.createElement('iframe');
    frame.style.cssText = 'border: 0; width: ' + width + 'px; height: 900px';
    const loaded = new Promise(resolve => frame.onload = resolve);
    frame.srcdoc = text;
    document.body.append(frame);
    await loaded;
    measure(name, width, frame);
    frame.remove();
  }
  document.body.textContent = 'MEASURED ' + JSON.stringify(result) + ' END';
}
all();
"""


def browser() -> str | None:
    """The browser that is installed, or None."""
    for name in NAMES:
        found = shutil.which(name)
        if found is not None:
            return found
    return None


def words_of(program: str, folder: pathlib.Path) -> list[str]:
    """A command line that runs the browser without a window, with its files in a folder."""
    return [
        program, "--headless", "--no-sandbox", "--disable-gpu", "--hide-scrollbars", "--disable-dev-shm-usage",
        f"--user-data-dir={folder}",
    ]


def complaints(
    program: str, pages: Sequence[tuple[str, bytes]], widths: Sequence[int], folder: pathlib.Path
) -> list[tuple[str, int, str]]:
    """What is wrong with pages, each by its name, at some widths: an element that is wider than its window, or a number
    that is clipped."""
    given = json.dumps([[name, page.decode()] for name, page in pages]).replace("<", "\\u003c")
    outer = folder / "outer.html"
    outer.write_text(
        '<!DOCTYPE html><meta charset="utf-8"><body><script>'
        f"const widths = {json.dumps(list(widths))}, pages = {given};{SCRIPT}</script>"
    )
    done = subprocess.run(
        [*words_of(program, folder / "profile"), "--virtual-time-budget=60000", "--dump-dom", outer.as_uri()],
        capture_output=True, text=True, timeout=MOST_SECONDS, cwd=folder,
    )
    found = re.search(r"MEASURED (.*) END", done.stdout, re.DOTALL)
    if found is None:
        return [("the browser", 0, f"it measured nothing: {done.stdout[-300:]} {done.stderr[-300:]}")]
    return [(page, width, why) for page, width, why in json.loads(html.unescape(found.group(1)))]
