"""Shows that what edits.faults compares is found where it differs, and only there: in a made-up repository of two
crates, one of which stands on the other and has two edits."""

from __future__ import annotations

import pathlib
import tempfile

from support import edits, sources

UPPER = pathlib.Path("crates") / "upper"
LOWER = pathlib.Path("crates") / "lower"
WRONG = UPPER / edits.FOLDER
FILES = {
    pathlib.Path("crates.txt"): "# The crates.\nupper: lower\nlower:\n",
    LOWER / "src" / "lib.rt": """//! The lower crate.
mod helper;
pub mod seen;
use std::alloc::Global;
ghost use Rattle.lower.specs.Small.{small};

/// A pair.
pub struct Pair {
    left: u32,
}

pub const MOST: u32 = 7;

pub fn least(pair: &Pair) -> u32
    ensures least { small result }
{
    if pair.left < MOST { pair.left } else { 0 }
}

fn hidden(x: u32) -> u32
    ensures { result ≡ x }
{
    x
}

impl Clone for Pair {
    fn clone(&self) -> Pair
        ensures { result ≡ self.now }
    {
        Pair { left: self.left }
    }
}
""",
    LOWER / "specs" / "Small.antt": "-- What is small.\npub small : ℕ → Type 0\nsmall n = n < 7\n",
    LOWER / "proofs" / "Lib.antt": "pub lemma : small 6\nlemma = tt\n",
    UPPER / "src" / "lib.rt": """// The upper crate.
pub fn word() -> &'static str {
    "word"
}
""",
    UPPER / "specs" / "Lib.antt": "pub seven : ℕ\nseven = 7\n",
    UPPER / "proofs" / "Lib.antt": "pub eight : ℕ\neight = 8\n",
    WRONG / "one.edit": "file: src/lib.rt\nold: word()\nnew: other()\n",
    WRONG / "two.edit": 'file: src/lib.rt\nold: "word"\nnew: "wor"\n',
}

# A file, a text in it, and another that takes its place.
Change = tuple[pathlib.Path, str, str]
CRATE = "is of another text of the crate, or of what those below it state"
# What is found after a change.
FOUND: list[tuple[Change, str]] = [
    ((UPPER / "src" / "lib.rt", '"word"', '"wordy"'), CRATE),
    ((UPPER / "specs" / "Lib.antt", "= 7", "= 8"), CRATE),
    ((UPPER / "proofs" / "Lib.antt", "= 8", "= 9"), CRATE),
    ((pathlib.Path("crates.txt"), "upper: lower", "upper:"), CRATE),
    ((LOWER / "specs" / "Small.antt", "n < 7", "n < 6"), CRATE),
    ((LOWER / "src" / "lib.rt", "ensures least { small result }", "ensures least { small (result) }"), CRATE),
    ((LOWER / "src" / "lib.rt", "result ≡ self.now", "self.now ≡ result"), CRATE),
    ((LOWER / "src" / "lib.rt", "left: u32", "left: u64"), CRATE),
    ((LOWER / "src" / "lib.rt", "MOST: u32 = 7", "MOST: u32 = 8"), CRATE),
    ((LOWER / "src" / "lib.rt", "fn least(pair: &Pair)", "fn least(it: &Pair)"), CRATE),
    ((LOWER / "src" / "lib.rt", "specs.Small.{small}", "specs.Other.{small}"), CRATE),
    ((LOWER / "src" / "lib.rt", "fn hidden", "pub fn hidden"), CRATE),
    ((LOWER / "src" / "lib.rt", "use std::alloc", "pub use std::alloc"), CRATE),
    ((WRONG / "one.edit", "other()", "another()"), "is of another text of one.edit"),
    ((WRONG / edits.TRIED, "one.edit", "three.edit"), "does not have one.edit"),
    ((WRONG / edits.TRIED, "one.edit", "three.edit"), "has three.edit, which is not there"),
    ((WRONG / edits.TRIED, "upper::word returns", "upper::word"), "does not have two.edit"),
    ((WRONG / edits.TRIED, "# The edits", "The edits"), CRATE),
]
# After these changes nothing is.
LEFT: list[Change] = [
    (UPPER / "src" / "lib.rt", "// The upper", "// Another"),
    (UPPER / "src" / "lib.rt", "{\n    ", "{\n\n  "),
    (LOWER / "specs" / "Small.antt", "-- What is small.\n", ""),
    (LOWER / "proofs" / "Lib.antt", "lemma = tt", "lemma = search"),
    (LOWER / "src" / "lib.rt", "else { 0 }", "else { 1 }"),
    (LOWER / "src" / "lib.rt", "/// A pair.", "/// Two."),
    (LOWER / "src" / "lib.rt", "fn hidden(x: u32)", "fn hidden(x: u64)"),
    (LOWER / "src" / "lib.rt", "ensures { result ≡ x }", "ensures { x ≡ result }"),
    (LOWER / "src" / "lib.rt", "mod helper;\n", ""),
    (LOWER / "src" / "lib.rt", "use std::alloc::Global", "use std::alloc::Heap"),
    (LOWER / "src" / "lib.rt", "Pair { left: self.left }", "Pair { left: 0 + self.left }"),
]


def tried(root: pathlib.Path) -> None:
    """Writes the repository into a folder, and what tests/edits would write where both edits are refused."""
    for path, text in FILES.items():
        (root / path).parent.mkdir(parents=True, exist_ok=True)
        (root / path).write_text(text, encoding="utf-8")
    here = edits.edits_of("upper", root)
    sums = {edit.name: edits.Tried(edits.sum_of(edit), "upper::word", "returns") for edit in here}
    edits.write("upper", edits.Record(sources.sum_of("upper", root), sums), root)
    sources.stated.cache_clear()


def found_after(change: Change | None) -> str:
    """What is found after a change, or where nothing has changed."""
    with tempfile.TemporaryDirectory() as folder:
        root = pathlib.Path(folder)
        tried(root)
        if change is not None:
            text = (root / change[0]).read_text(encoding="utf-8")
            assert change[1] in text, change
            (root / change[0]).write_text(text.replace(change[1], change[2], 1), encoding="utf-8")
        return "\n".join(edits.faults("upper", root))


def let_through() -> str | None:
    """The changes that have to be found and are not, and those that are found and need not be; or None."""
    wrong = [f"nothing has changed, and {found} is found" for found in [found_after(None)] if found]
    wrong += [f"{change} is let through" for change, fault in FOUND if fault not in found_after(change)]
    wrong += [f"{change} is found" for change in LEFT if found_after(change)]
    return "\n".join(wrong) or None
