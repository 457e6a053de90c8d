"""Makes the answer to a request. Only this file and children.py write frames: no octets of a client become a frame."""

import asyncio
import concurrent.futures
import dataclasses
import hashlib
import json
import pathlib
import re
import struct
import time
from collections.abc import Callable
from typing import Protocol

from .counts import Counts
from .keeper import NO_MAP, Keeper, Missing
from .limits import Buckets, Limited, Octets, Shares, Spare, asker_of
from .log import tell
from .publications import Publication, pack

Headers = list[tuple[str, str]]
TYPES = {
    ".html": "text/html; charset=utf-8",
    ".css": "text/css; charset=utf-8",
    ".mjs": "text/javascript; charset=utf-8",
    ".wasm": "application/wasm",
    ".svg": "image/svg+xml",
    ".key": "text/plain; charset=utf-8",
}
OCTETS, TEXT = "application/octet-stream", "text/plain; charset=utf-8"
TITLES = {
    400: "Bad Request",
    404: "Not Found",
    405: "Method Not Allowed",
    410: "Gone",
    429: "Too Many Requests",
    431: "Request Header Fields Too Large",
    500: "Internal Server Error",
    501: "Not Implemented",
    503: "Service Unavailable",
}
REASONS = {200: "OK", 204: "No Content", 304: "Not Modified", 307: "Temporary Redirect", **TITLES}
FOR_EVER, A_MOMENT, A_MINUTE, NEVER = (
    "public, max-age=31536000, immutable",
    "public, max-age=5",
    "public, max-age=60",
    "no-store",
)
ALLOWED = "GET, HEAD, OPTIONS"
NO_NODE = "The server says, without proof, that an end of the query is no node of this publication."
NUMBER = "(0|[1-9][0-9]{0,19})"
QUERIES: dict[str, tuple[str, tuple[int, ...]]] = {
    "route": (f"from={NUMBER}&to={NUMBER}", (2**32, 2**32)),
    "reach": (f"from={NUMBER}&radius={NUMBER}", (2**32, 2**64)),
    "publication": ("", ()),
}
ASKED = re.compile("/v1/(?:p/([^/]*)/)?(route|reach|publication)")
# requests of a monitor or a balancer are answered whatever the load
UNLIMITED = ("/v1/health", "/v1/ready", "/metrics")
# another thread compresses larger answers; for smaller ones the handover would cost more
AT_ONCE = 65_536
# the share of a processor that compression may take; when it is used up, answers are sent uncompressed
PACKING = 0.1


class Settings(Protocol):
    """The command's settings for answers."""

    page: str | None
    name: str
    unit: str
    attribution: str
    proxies: frozenset[str]
    asks_per_second: float
    burst: float
    octets_per_second: int
    burst_octets: int
    asks: int
    asks_by_address: int
    log_requests: bool
    log_asks: bool
    retry: int


class Problem(Exception):
    """Raised for a request that gets an error."""

    def __init__(self, status: int, detail: str, retry: int | None = None, kind: str = "about:blank") -> None:
        super().__init__(detail)
        self.status, self.retry, self.kind = status, retry, kind


@dataclasses.dataclass(slots=True)
class Request:
    """A client's request."""

    method: str
    target: str
    peer: str
    headers: dict[bytes, bytes]

    def header(self, name: bytes) -> str:
        return self.headers.get(name, b"").decode("latin-1")


@dataclasses.dataclass(slots=True)
class Answer:
    """The answer to a client. `packed` has the octets in gzip, if that makes them shorter; `tag` names them."""

    octets: bytes = b""
    kind: str = OCTETS
    cache: str = NEVER
    status: int = 200
    more: Headers = dataclasses.field(default_factory=list)
    tag: str = ""
    packed: bytes | None = None


def problem(why: Problem) -> Answer:
    """A page that says why a request has no answer."""
    page = {"type": why.kind, "title": TITLES[why.status], "status": why.status, "detail": str(why)}
    more = [("Retry-After", str(why.retry))] if why.retry else []
    more += [("Allow", ALLOWED)] * (why.status == 405)
    return Answer(json.dumps(page).encode() + b"\n", "application/problem+json", NEVER, why.status, more)


def numbers(kind: str, query: str, more: str = "") -> list[int]:
    """The numbers of a query, which must be in their only allowed spelling."""
    form, bounds = QUERIES[kind]
    found = re.fullmatch(form + more, query, re.ASCII)
    if not found:
        raise Problem(
            400, f"The query must be {form.replace(NUMBER, 'N') or 'empty'}, with numbers without leading zeros."
        )
    given = [int(word) for word in found.groups() if word]
    if any(number >= bound for number, bound in zip(given, (*bounds, 2**64))):
        raise Problem(400, "A number is too large.")
    return given


def takes_gzip(accepted: str) -> bool:
    """Whether a client accepts gzip."""
    for word in accepted.lower().split(","):
        name, _, quality = word.partition(";")
        if name.strip() in ("gzip", "*"):
            return not re.fullmatch(r"\s*q\s*=\s*0(\.0*)?\s*", quality)
    return False


def is_known(given: str, tag: str) -> bool:
    """Whether a client already has the answer."""
    return given.strip() == "*" or f'"{tag}"' in [word.strip().removeprefix("W/") for word in given.split(",")]


def made(octets: bytes, is_packed: bool) -> tuple[str, bytes | None, float]:
    """Returns the name of octets, the octets in gzip if that is wanted and makes them shorter, and the seconds that
    compression took.

    BLAKE2b takes a third of SHA-256's time."""
    began = time.thread_time()
    packed = pack(octets) if is_packed else None
    return hashlib.blake2b(octets, digest_size=16).hexdigest(), packed, time.thread_time() - began if is_packed else 0


def page_files(folder: str | None) -> dict[str, Answer]:
    """The files of a page, for trials. In use, a page and its key come from the owner and not from a server."""
    files = {}
    for file in sorted(pathlib.Path(folder).iterdir()) if folder else []:
        if file.is_file() and file.suffix in TYPES:
            files["/" + file.name] = Answer(file.read_bytes(), TYPES[file.suffix], "no-cache")
    if "/index.html" in files:
        files["/"] = files["/index.html"]
    return files


def described(publication: Publication) -> dict[str, object]:
    """The entry of a publication in /v1/info."""
    sizes = {"nodes": publication.nodes, "octets": len(publication.octets)}
    return {
        "id": publication.id,
        "version": str(publication.version),
        "age": publication.age(),
        "method": publication.method,
        **sizes,
    }


class Answers:
    """Answers requests. A request that costs no time is answered at once, whatever the load."""

    def __init__(self, options: Settings, keeper: Keeper, counts: Counts) -> None:
        self.options, self.keeper, self.counts = options, keeper, counts
        self.buckets, self.shares = Buckets(options.asks_per_second, options.burst), Shares(
            options.asks_by_address, options.asks
        )
        self.octets = Octets(options.octets_per_second, options.burst_octets)
        self.files = page_files(options.page)
        self.packers, self.spare = concurrent.futures.ThreadPoolExecutor(2, "pack"), Spare(PACKING)
        self.gauges: Callable[[], dict[str, int]] = dict
        self.pages: dict[str, Callable[[], Answer]] = {
            "/v1/info": self.info,
            "/v1/chain": self.chain,
            "/v1/health": self.health,
            "/v1/ready": self.ready,
            "/metrics": self.metrics,
        }

    # ---- routing

    def name(self, path: str) -> str:
        """The name of a path, for the counts and the log."""
        found = ASKED.fullmatch(path)
        if found:
            return path if found[1] is None else f"/v1/p/ID/{found[2]}"
        return path if path in self.pages else "page" if path in self.files else "other"

    def at_once(self, request: Request, path: str, query: str) -> Answer | None:
        """The answer to a request that needs no child, or None if the answer may take time."""
        try:
            return self._at_once(request, path, query)
        except Problem as why:
            return problem(why)
        except Limited as limited:
            return self._limited(limited)

    def _at_once(self, request: Request, path: str, query: str) -> Answer | None:
        found = ASKED.fullmatch(path)
        if not found and path not in self.pages and path not in self.files:
            if request.method == "OPTIONS" and path == "*":
                return self.options_of()
            raise Problem(404, "There is no such page.")
        if request.method == "OPTIONS":
            return self.options_of()
        if request.method not in ("GET", "HEAD"):
            raise Problem(405, "Only GET, HEAD and OPTIONS are answered.")
        if path not in UNLIMITED:
            self.buckets.take(self.asker(request))
        if found:
            return None
        if path in self.files:
            return self.files[path]
        numbers("publication", query)
        return self.pages[path]()

    def asker(self, request: Request) -> str:
        return asker_of(request.peer, request.header(b"x-forwarded-for"), self.options.proxies)

    def _limited(self, limited: Limited) -> Answer:
        self.counts.add("road_gateway_limited_total")
        if limited.of_all:
            return problem(Problem(503, "Too many requests are in progress.", max(1, round(limited.wait))))
        return problem(Problem(429, f"This address {limited.what}.", max(1, round(limited.wait + 0.5))))

    async def later(self, request: Request, path: str, query: str) -> Answer:
        """The answer to a request that may need a child."""
        try:
            found = ASKED.fullmatch(path)
            assert found
            if found[1] is None:
                return await self.of_newest(found[2], query)
            return await self.of_publication(request, found[1], found[2], query)
        except Problem as why:
            return problem(why)
        except Limited as limited:
            return self._limited(limited)
        except Missing as missing:
            self.counts.add("road_gateway_none_as_new_total", count=missing.kind == NO_MAP)
            return problem(
                Problem(410, str(missing))
                if missing.for_good
                else Problem(503, str(missing), self.options.retry, missing.kind)
            )
        except Exception as error:  # an error of this program: it is logged, and the next request is answered
            tell(f"{type(error).__name__}: {error}")
            return problem(Problem(500, "The gateway has an internal error."))

    # ---- requests

    async def of_publication(self, request: Request, name: str, kind: str, query: str) -> Answer:
        if not re.fullmatch("[0-9a-f]{16}", name):
            raise Problem(400, "A publication is named by 16 lower-case hex digits.")
        given, asker = numbers(kind, query), self.asker(request)
        self.octets.take(asker)
        if kind == "publication":
            found = await self.keeper.held(name)
            self.octets.spend(asker, len(found.octets))
            return Answer(found.octets, cache=FOR_EVER, tag=found.tag, packed=found.packed)
        code, words = (2, struct.pack(">II", *given)) if kind == "route" else (5, struct.pack(">IQ", *given))
        self.shares.enter(asker)
        try:
            octets = await self.keeper.ask(name, code, words, asker)
            self.octets.spend(asker, len(octets))
            if octets == b"\1":
                raise Problem(404, NO_NODE)
            is_packed = takes_gzip(request.header(b"accept-encoding")) and self.spare.is_left()
            if is_packed and len(octets) > AT_ONCE:
                tag, packed, took = await asyncio.get_running_loop().run_in_executor(self.packers, made, octets, True)
            else:
                tag, packed, took = made(octets, is_packed)
            self.spare.spend(took)
        finally:
            self.shares.leave(asker)
        return Answer(octets, cache=FOR_EVER, tag=tag, packed=packed)

    async def of_newest(self, kind: str, query: str) -> Answer:
        first = "&" if QUERIES[kind][0] else ""
        given = numbers(kind, query, f"(?:{first}least={NUMBER})?")
        words, least = query, None
        if len(given) > len(QUERIES[kind][1]):
            words, least = query.rpartition("least=")[0].rstrip("&"), given[-1]
        name = await self.keeper.newest(least or 0)
        where = f"/v1/p/{name}/{kind}" + (f"?{words}" if words else "")
        return Answer(cache=A_MOMENT if least is None else NEVER, status=307, more=[("Location", where)])

    def options_of(self) -> Answer:
        allowed = [
            ("Access-Control-Allow-Methods", ALLOWED),
            ("Access-Control-Allow-Headers", "Cache-Control, If-None-Match"),
            ("Access-Control-Max-Age", "86400"),
        ]
        return Answer(status=204, more=[("Allow", ALLOWED), *allowed])

    def info(self) -> Answer:
        newest = self.keeper.announced.version if self.keeper.announced else 0
        held = list(reversed(self.keeper.publications))
        page = {
            "note": "Nothing here is signed. A publication and each reply are.",
            "publications": [described(it) for it in held if it.version <= newest],
            "coming": [described(it) for it in held if it.version > newest],
            "unit": self.options.unit,
            "attribution": self.options.attribution,
        }
        return Answer(json.dumps(page, indent=1).encode() + b"\n", "application/json", A_MOMENT)

    def chain(self) -> Answer:
        return Answer(self.keeper.chain, cache=A_MINUTE)

    def health(self) -> Answer:
        return Answer(b"alive\n", TEXT)

    def ready(self) -> Answer:
        if not self.keeper.is_ready():
            raise Problem(503, "Requests are not answered now.", self.options.retry)
        return Answer(b"ready\n", TEXT)

    def metrics(self) -> Answer:
        keeper, crew = self.keeper, self.keeper.crew
        gauges = {
            "road_gateway_serves": len(crew.children) if crew else 0,
            "road_gateway_serve_frames": max((it.frames for it in crew.children), default=0) if crew else 0,
            "road_gateway_asks": self.shares.total,
            "road_gateway_publications": len(keeper.publications),
            "road_gateway_newest_version": keeper.announced.version if keeper.announced else 0,
            "road_gateway_ready": int(keeper.is_ready()),
            **self.gauges(),
        }
        age = keeper.announced.age() if keeper.announced else None
        if age is not None:
            gauges["road_gateway_newest_age_seconds"] = age
        return Answer(self.counts.page(gauges).encode(), "text/plain; version=0.0.4; charset=utf-8")

    # ---- the answer's headers

    def finished(self, request: Request, answer: Answer) -> tuple[int, Headers, bytes]:
        """The status, the headers and the body."""
        octets, status = answer.octets, answer.status
        headers = [
            ("Access-Control-Allow-Origin", "*"),
            ("X-Content-Type-Options", "nosniff"),
            ("Cache-Control", answer.cache),
        ]
        headers += [("Access-Control-Expose-Headers", "ETag, Location, Retry-After"), *answer.more]
        if self.options.name:
            headers.append(("X-Replica", self.options.name))
        if answer.tag:
            headers.append(("Vary", "Accept-Encoding"))
            tag = answer.tag
            if answer.packed is not None and takes_gzip(request.header(b"accept-encoding")):
                octets, tag = answer.packed, tag + "-gzip"
                headers.append(("Content-Encoding", "gzip"))
            headers.append(("ETag", f'"{tag}"'))
            if status == 200 and is_known(request.header(b"if-none-match"), tag):
                return 304, headers, b""
        if status != 204:
            headers += [("Content-Type", answer.kind), ("Content-Length", str(len(octets)))]
        return status, headers, octets

    def told(self, request: Request, path: str, answer: Answer, status: int, seconds: float) -> None:
        """Counts a request, and writes its log line if that is wanted."""
        name = self.name(path)
        self.counts.add("road_gateway_requests_total", f'{{path="{name}",status="{status}"}}')
        self.counts.add("road_gateway_reply_octets_total", f'{{path="{name}"}}', len(answer.octets))
        self.counts.time(name, seconds)
        if self.options.log_requests:
            what = request.target if self.options.log_asks else name
            tell(f"{request.method} {what} {status} {len(answer.octets)} octets {seconds * 1000:.1f} ms")
