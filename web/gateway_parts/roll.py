"""Rolls a publication over replicas in two steps: all replicas install it, and only then it is announced. No client
trusts this."""

import dataclasses
import http.client
import json
import os
import pathlib
import re
import time
from collections.abc import Callable

from .publications import Publication


class Failed(Exception):
    """The roll has stopped. If nothing was announced, each replica continues as before."""


@dataclasses.dataclass
class Replica:
    """A gateway: the file that it serves, and the address where it listens."""

    file: pathlib.Path
    host: str
    port: int

    def ask(self, path: str, method: str = "GET") -> tuple[int, bytes]:
        """The status and the octets of an answer. The status is 0 if the gateway does not answer."""
        connection = http.client.HTTPConnection(self.host, self.port, timeout=5)
        try:
            connection.request(method, path)
            found = connection.getresponse()
            return found.status, found.read()
        except (OSError, http.client.HTTPException):
            return 0, b""
        finally:
            connection.close()

    def has(self, name: str) -> bool:
        return self.ask(f"/v1/p/{name}/publication", "HEAD")[0] == 200

    def announces(self, name: str) -> bool:
        status, page = self.ask("/v1/info")
        return status == 200 and any(it["id"] == name for it in json.loads(page)["publications"])

    def refused(self) -> int:
        found = re.search(rb"^road_gateway_refused_publications_total (\d+)$", self.ask("/metrics")[1], re.MULTILINE)
        return int(found[1]) if found else 0

    def next(self) -> pathlib.Path:
        return self.file.with_name(f"{self.file.name}.next")


def put(file: pathlib.Path, octets: bytes) -> None:
    """Replaces a file atomically by one with these octets."""
    fresh = file.with_name(f"{file.name}.fresh")
    with open(fresh, "wb") as it:
        it.write(octets)
        it.flush()
        os.fsync(it.fileno())
    fresh.rename(file)


def roll(
    octets: bytes, replicas: list[Replica], seconds: float, tell: Callable[[str], None] = lambda line: None
) -> str:
    """Lets all replicas install a publication, and then announce it. Returns its id."""
    name = Publication(octets).id
    before = {it.port: it.refused() for it in replicas}
    until = time.monotonic() + seconds
    for it in replicas:
        put(it.next(), octets)
    for it in replicas:
        while not it.has(name):
            refuses = it.refused() > before[it.port]
            if refuses or time.monotonic() > until:
                for other in replicas:
                    other.next().unlink(missing_ok=True)
                why = "does not take it, as its log says" if refuses else "did not take it in time"
                raise Failed(f"{it.host}:{it.port} {why}; nothing was announced")
            time.sleep(0.1)
        tell(f"{it.host}:{it.port} has taken it in")
    for it in replicas:
        it.next().rename(it.file)
    for it in replicas:
        while not it.announces(name):
            if time.monotonic() > until:
                raise Failed(f"{it.host}:{it.port} did not announce it in time; the others do")
            time.sleep(0.1)
        tell(f"{it.host}:{it.port} announces it")
    return name
