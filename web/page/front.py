"""A server between page and gateway that the page's test can make misbehave. Nobody trusts this file."""

from __future__ import annotations

import http.server
import pathlib
import sys
import threading
import urllib.error
import urllib.request
from typing import Any, Callable

sys.path.append(str(pathlib.Path(__file__).resolve().parents[2] / "reference"))

from gogbetiku_reference import layout  # noqa: E402

Headers = list[tuple[str, str]]
Told = tuple[int, Headers, bytes]


class Stay(urllib.request.HTTPRedirectHandler):
    """Passes redirects on to the client instead of following them."""

    def redirect_request(self, *_: Any) -> None:
        return None


class Front(http.server.ThreadingHTTPServer):
    """Passes on the answers of a gateway. `wrong` may answer instead. `seen` lists each path with its Cache-Control."""

    daemon_threads = True

    def __init__(self, gateway: str) -> None:
        self.gateway = gateway
        self.wrong: Callable[..., Told | None] | None = None
        self.seen: list[tuple[str, str]] = []
        super().__init__(("127.0.0.1", 0), Passed)
        self.origin = f"http://127.0.0.1:{self.server_address[1]}"
        threading.Thread(target=self.serve_forever, daemon=True).start()

    def answer(self, path: str, headers: Any) -> Told:
        """Status, headers and octets."""
        self.seen.append((path, headers.get("Cache-Control", "")))
        try:
            found = urllib.request.build_opener(Stay).open(self.gateway + path, timeout=60)
        except urllib.error.HTTPError as error:
            found = error
        kept = [
            (name, value)
            for name, value in found.headers.items()
            if name.lower() not in ("content-length", "connection", "date", "server")
        ]
        told = found.status, kept, found.read()
        return (self.wrong and self.wrong(path, headers, *told)) or told


class Passed(http.server.BaseHTTPRequestHandler):
    server: Front
    protocol_version = "HTTP/1.1"

    def do_GET(self) -> None:
        status, headers, octets = self.server.answer(self.path, self.headers)
        self.send_response(status)
        for name, value in [*headers, ("Content-Length", str(len(octets)))]:
            self.send_header(name, value)
        self.end_headers()
        self.wfile.write(octets)

    def log_message(self, *_: Any) -> None:
        pass


def nodes_at(octets: bytes) -> int:
    """The offset of a publication's nodes, after their count."""
    return layout.behind(octets, layout.IN_PUBLICATION) + layout.SETTINGS + 4


def far_away(octets: bytes) -> bytes:
    """The publication with its first node moved to the end of the plane."""
    at = nodes_at(octets)
    return octets[: at + 4] + (2**31 - 1).to_bytes(4, "big") * 2 + octets[at + 12 :]


def turned_about(octets: bytes) -> bytes:
    """The publication with the places of its nodes in reverse order."""
    at = nodes_at(octets)
    count = int.from_bytes(octets[at - 4 : at], "big")
    rows = [octets[at + 12 * row : at + 12 * row + 12] for row in range(count)]
    return (
        octets[:at] + b"".join(row[:4] + other[4:] for row, other in zip(rows, rows[::-1])) + octets[at + 12 * count :]
    )


def with_shorter_road(octets: bytes, node: int) -> bytes:
    """The publication with the first road of a node shorter by 1."""
    at = nodes_at(octets)
    at += 12 * int.from_bytes(octets[at - 4 : at], "big") + 4
    while node not in (int.from_bytes(octets[at : at + 4], "big"), int.from_bytes(octets[at + 4 : at + 8], "big")):
        at += 12
    length = int.from_bytes(octets[at + 8 : at + 12], "big") - 1
    return octets[: at + 8] + length.to_bytes(4, "big") + octets[at + 12 :]
