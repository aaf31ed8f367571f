"""Prometheus and what belongs to it: the programs of Debian's packages, and servers of them on the loopback.

What is not installed is fetched by apt-get and unpacked into a folder, without being installed.
"""

from __future__ import annotations

import contextlib
import http.server
import json
import pathlib
import shutil
import socket
import subprocess
import threading
import time
import urllib.error
import urllib.parse
import urllib.request
from collections.abc import Iterator, Mapping, Sequence
from typing import Any, Optional

# Each program, and the package that has it.
PACKAGES = {
    "promtool": "prometheus",
    "prometheus": "prometheus",
    "prometheus-node-exporter": "prometheus-node-exporter",
}
LOOPBACK = "127.0.0.1"
MOST_SECONDS_OF_FETCH = 180
MOST_SECONDS = 180
MOST_STARTS = 3

Tools = Mapping[str, str]


class Unmonitored(Exception):
    """Why a program is not there, or does not serve."""


def run(words: Sequence[str], folder: pathlib.Path, end: float) -> bool:
    """Whether a command ended well before that time."""
    try:
        left = max(1.0, end - time.monotonic())
        return subprocess.run(words, cwd=folder, capture_output=True, timeout=left).returncode == 0
    except (OSError, subprocess.TimeoutExpired):
        return False


def fetched(packages: Sequence[str], folder: pathlib.Path) -> pathlib.Path:
    """The folder that the packages are unpacked into; the lists of packages are fetched first if they are missing."""
    end = time.monotonic() + MOST_SECONDS_OF_FETCH
    download = ["apt-get", "-q", "download", *packages]
    update = ["apt-get", "-q", "update"]
    if not run(download, folder, end) and not (run(update, folder, end) and run(download, folder, end)):
        raise Unmonitored(f"{', '.join(packages)}: not installed, and apt-get does not fetch it")
    unpacked = folder / "unpacked"
    for package in sorted(folder.glob("*.deb")):
        if not run(["dpkg-deb", "-x", str(package), str(unpacked)], folder, end):
            raise Unmonitored(f"{package.name}: dpkg-deb does not unpack it")
    return unpacked


def tools(folder: pathlib.Path) -> Tools:
    """Where each program is: installed, or unpacked into the folder."""
    found = {name: shutil.which(name) for name in PACKAGES}
    missing = [name for name, path in found.items() if path is None]
    if missing:
        unpacked = fetched(sorted({PACKAGES[name] for name in missing}), folder) / "usr" / "bin"
        found.update({name: shutil.which(name, path=str(unpacked)) for name in missing})
    lost = [name for name, path in found.items() if path is None]
    if lost:
        raise Unmonitored(f"{', '.join(lost)}: not among the files of the packages")
    return {name: str(path) for name, path in found.items()}


def free_port() -> int:
    """A port that was free a moment ago."""
    with socket.socket() as one:
        one.bind((LOOPBACK, 0))
        return int(one.getsockname()[1])


def fetch(url: str) -> Optional[str]:
    """What a server on the loopback returns; None if it does not, or not yet."""
    opener = urllib.request.build_opener(urllib.request.ProxyHandler({}))
    try:
        with opener.open(url, timeout=5) as response:
            return str(response.read().decode())
    except (OSError, urllib.error.URLError):
        return None


def ended(process: subprocess.Popen[bytes]) -> None:
    """Ends a process that was started here."""
    process.terminate()
    try:
        process.wait(10)
    except subprocess.TimeoutExpired:
        process.kill()
        process.wait()


@contextlib.contextmanager
def served(words: Sequence[str], ready: str, log: pathlib.Path) -> Iterator[str]:
    """The address of a program that serves on the loopback; its last word gets the address. It is ready when it answers
    to this path, and is ended at the end."""
    for _ in range(MOST_STARTS):
        address = f"{LOOPBACK}:{free_port()}"
        with log.open("wb") as said:
            process = subprocess.Popen([*words[:-1], words[-1] + address], stdout=said, stderr=said)
        try:
            end = time.monotonic() + MOST_SECONDS
            while process.poll() is None and time.monotonic() < end:
                if fetch(f"http://{address}{ready}") is not None:
                    yield f"http://{address}"
                    return
                time.sleep(0.1)
        finally:
            ended(process)
    raise Unmonitored(f"{words[0]} does not serve: {log.read_text(errors='replace')[-500:]}")


class Page(http.server.BaseHTTPRequestHandler):
    """Gives the same text to every client."""

    text = b""

    def do_GET(self) -> None:
        self.send_response(200)
        self.send_header("Content-Type", "text/plain; version=0.0.4; charset=utf-8")
        self.send_header("Content-Length", str(len(self.text)))
        self.end_headers()
        self.wfile.write(self.text)

    def log_message(self, format: str, *arguments: Any) -> None:
        pass


@contextlib.contextmanager
def offered(text: bytes) -> Iterator[str]:
    """The host and the port of a server that gives this text."""
    page = type("OnePage", (Page,), {"text": text})
    with http.server.ThreadingHTTPServer((LOOPBACK, 0), page) as server:
        thread = threading.Thread(target=server.serve_forever, daemon=True)
        thread.start()
        try:
            yield f"{LOOPBACK}:{server.server_address[1]}"
        finally:
            server.shutdown()
            thread.join()


@contextlib.contextmanager
def scraped(known: Tools, text: bytes, folder: pathlib.Path) -> Iterator[str]:
    """The address of a Prometheus that has scraped this text."""
    with offered(text) as target:
        config = folder / "prometheus.yml"
        config.write_text(
            "global: {scrape_interval: 1s}\n"
            "scrape_configs: [{job_name: tried, honor_labels: true, static_configs: [{targets: ['" + target + "']}]}]\n"
        )
        words = [known["prometheus"], f"--config.file={config}", f"--storage.tsdb.path={folder / 'tsdb'}"]
        with served([*words, "--web.listen-address="], "/-/ready", folder / "prometheus.log") as address:
            end = time.monotonic() + MOST_SECONDS
            while not asked(address, "up == 1"):
                if time.monotonic() > end:
                    raise Unmonitored("prometheus scrapes nothing")
                time.sleep(0.2)
            yield address


def asked(address: str, query: str) -> list[tuple[dict[str, str], str]]:
    """The labels and the value of each series that Prometheus returns to a query."""
    said = fetch(f"{address}/api/v1/query?{urllib.parse.urlencode({'query': query})}")
    if said is None:
        return []
    return [(one["metric"], one["value"][1]) for one in json.loads(said)["data"]["result"]]
