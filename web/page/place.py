#!/usr/bin/env python3
"""Serves the folder from web/page/build like an owner's site: web/page/place.py FOLDER [--listen HOST:PORT]

It sends each file in gzip, with the headers of FOLDER/headers. It is for trials and demonstrations on one machine; an
owner's own web server must send the same headers. The users of the page trust whoever serves it, but not the gateway.
"""
import argparse
import gzip
import http.server
import pathlib
import sys

TYPES = {
    ".html": "text/html; charset=utf-8",
    ".css": "text/css; charset=utf-8",
    ".mjs": "text/javascript; charset=utf-8",
    ".wasm": "application/wasm",
    ".tsv": "text/tab-separated-values; charset=utf-8",
    ".json": "application/json",
    ".key": "text/plain; charset=utf-8",
}


def files_of(folder: pathlib.Path | str) -> dict[str, tuple[str, bytes, bytes]]:
    """The files by their paths, each with its type, its octets, and the octets in gzip."""
    found = {
        f"/{file.name}": (TYPES[file.suffix], file.read_bytes())
        for file in pathlib.Path(folder).iterdir()
        if file.suffix in TYPES
    }
    return {
        path: (kind, octets, gzip.compress(octets, 9, mtime=0))
        for path, (kind, octets) in {**found, "/": found["/index.html"]}.items()
    }


class Place(http.server.ThreadingHTTPServer):
    """The owner's site."""

    daemon_threads = True

    def __init__(self, folder: pathlib.Path | str, host: str = "127.0.0.1", port: int = 0) -> None:
        self.files = files_of(folder)
        self.policy = [
            line.partition(": ")[::2] for line in (pathlib.Path(folder) / "headers").read_text().splitlines()
        ]
        super().__init__((host, port), Answer)


class Answer(http.server.BaseHTTPRequestHandler):
    server: Place
    protocol_version = "HTTP/1.1"
    timeout = 60

    def do_GET(self) -> None:
        kind, octets, packed = self.server.files.get(self.path.partition("?")[0], ("", b"", b""))
        is_packed = "gzip" in self.headers.get("Accept-Encoding", "")
        body = packed if is_packed and kind else octets
        self.send_response(200 if kind else 404)
        for name, value in self.server.policy:
            self.send_header(name, value)
        for name, value in (
            ("Content-Type", kind or "text/plain"),
            ("Content-Length", str(len(body))),
            ("Vary", "Accept-Encoding"),
        ):
            self.send_header(name, value)
        if body is packed and kind:
            self.send_header("Content-Encoding", "gzip")
        self.end_headers()
        if self.command == "GET":
            self.wfile.write(body)

    do_HEAD = do_GET

    def log_message(self, *_: object) -> None:
        pass


def main(words: list[str]) -> None:
    parser = argparse.ArgumentParser(description=(__doc__ or "").splitlines()[0])
    parser.add_argument("folder", metavar="FOLDER")
    parser.add_argument("--listen", default="127.0.0.1:8000", metavar="HOST:PORT")
    given = parser.parse_args(words)
    host, _, port = given.listen.rpartition(":")
    with Place(given.folder, host, int(port)) as place:
        place.serve_forever()


if __name__ == "__main__":
    try:
        main(sys.argv[1:])
    except KeyboardInterrupt:
        pass
