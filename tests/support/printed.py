"""The C and C++ of pages compiles as it is printed there: a whole program by itself, and a fragment in a function that
has what the text around it speaks of."""

from __future__ import annotations

import pathlib
import re
import subprocess
from collections.abc import Iterator

from support import native
from support.program import ROOT, Case

PAGES = ("README.md", "docs/C.md", "docs/COOKBOOK.md")
BLOCK = re.compile(r"(?:^(?: {4}.*)?\n)+", re.MULTILINE)
# What code has and nothing else that is printed: calls of the library. That of Rattle has `?;` at the end of a line.
IN_CPP = re.compile(r"\bpovundiri::\w|\brecording\.\w+(?:<[\w:]+>)?\([^`]*\);|\bClock::now\(", re.MULTILINE)
IN_C = re.compile(r"\bpovundiri_\w+\(.*\);", re.MULTILINE)
IN_RATTLE = re.compile(r"\?;$", re.MULTILINE)
# Lines of this program, which is compiled as a whole, are shown too.
EXAMPLE = ROOT / "examples" / "cpp" / "children.cpp"
# What is printed has to be found: so many programs and fragments at least.
LEAST_BLOCKS = 8
HEAD_OF_CPP = """\
#include <povundiri_recording.hpp>
#include <povundiri_shared.hpp>
#include <unistd.h>
#include <random>
using povundiri::Status;
using namespace std::chrono_literals;
using Words = std::vector<std::uint64_t>;
using Clock = std::chrono::steady_clock;
using Latency = povundiri::Family<povundiri::Timed<std::chrono::microseconds>>;
constexpr std::array<const char*, 3> kRoutes{"/", "/cart", "/item"};
std::atomic<std::uint64_t> missed;
std::mt19937 chance;
void answer_request(std::mt19937& chance);
[[maybe_unused]] Latency shown(povundiri::Recording& recording, povundiri::Segment& segment,
    povundiri::Recorder& recorder, povundiri::Follower& follower, povundiri::SharedMemory& memory, Words& words,
    povundiri::MergeReport& report, Status status, Clock::time_point start, const char* path, char** arguments,
    const char* route, const Latency& latency) {
    {
"""
TAIL_OF_CPP = """\
    }
    return latency;
}
"""
HEAD_OF_C = """\
#include <pthread.h>
#include <povundiri_recording.h>
#include <povundiri_shared.h>
void shown(struct povundiri_handle segment, struct povundiri_handle recorder, size_t latency, int32_t value,
    pthread_mutex_t turn);
void shown(struct povundiri_handle segment, struct povundiri_handle recorder, size_t latency, int32_t value,
    pthread_mutex_t turn) {
    uint32_t status;
    {
"""
TAIL_OF_C = """\
    }
    (void)status;
}
"""


def suffix_of(block: str) -> str | None:
    """In which language a block is: that of the suffix of its file, or None if it is no code of C or C++."""
    if IN_RATTLE.search(block) or "\n    $ " in block:
        return None
    if block.lstrip("\n").startswith("    #include"):
        return ".cpp" if ".hpp>" in block else ".c"
    return ".cpp" if IN_CPP.search(block) else ".c" if IN_C.search(block) else None


def printed() -> Iterator[tuple[str, str, str]]:
    """Each block of code: its page and first line, the suffix of its language, and its text."""
    example = {line.strip() for line in EXAMPLE.read_text().splitlines()}
    for page in PAGES:
        for block in BLOCK.findall((ROOT / page).read_text()):
            suffix = suffix_of(block)
            lines = [line[4:] for line in block.strip("\n").splitlines()]
            if suffix is not None and not example.issuperset(line.strip() for line in lines):
                yield f"{page}, {lines[0].strip().split('  ')[0]}", suffix, "".join(f"{line}\n" for line in lines)


def framed(text: str, suffix: str) -> str:
    """A file of a block."""
    if text.startswith("#include"):
        return text
    head, tail = (HEAD_OF_CPP, TAIL_OF_CPP) if suffix == ".cpp" else (HEAD_OF_C, TAIL_OF_C)
    return f"{head}{text}{tail}"


def said_of(folder: pathlib.Path, text: str, suffix: str) -> str | None:
    """What a compiler says of a block that it refuses, or None."""
    source = folder / f"printed{suffix}"
    source.write_text(framed(text, suffix))
    words = [*native.compiler(suffix), f"-I{native.LIBRARY}", "-fsyntax-only", str(source)]
    done = subprocess.run(words, capture_output=True, text=True, timeout=native.MOST_SECONDS)
    return None if done.returncode == 0 else done.stderr[-1500:]


def cases(folder: pathlib.Path) -> Iterator[Case]:
    blocks = [*printed()]
    yield "code is printed", None if len(blocks) >= LEAST_BLOCKS else f"only {blocks}"
    for name, suffix, text in blocks:
        yield f"compiles as printed: {name}", said_of(folder, text, suffix)
    changed = {suffix: text.replace(";", "; no_such_name;", 1) for _, suffix, text in blocks}
    wrong = [suffix for suffix, text in changed.items() if said_of(folder, text, suffix) is None]
    yield "what does not compile is found", f"taken are {wrong}" if wrong or len(changed) != 2 else None
