"""Makes the content of /metrics. It contains no query."""

import collections
from collections.abc import Iterator

BOUNDS = (0.005, 0.01, 0.025, 0.05, 0.1, 0.25, 0.5, 1, 2.5, 5, 10)
HELP = {
    "road_gateway_requests_total": ("counter", "Requests by path and status."),
    "road_gateway_request_seconds": ("histogram", "Time from a request to its answer."),
    "road_gateway_reply_octets_total": ("counter", "Octets of answers, before compression."),
    "road_gateway_limited_total": ("counter", "Requests from addresses that ask too often."),
    "road_gateway_none_as_new_total": (
        "counter",
        "Asks for a newer publication than is here, which says nothing of this gateway.",
    ),
    "road_gateway_closed_total": (
        "counter",
        "Connections closed for taking too long, or to make room for others, by cause.",
    ),
    "road_gateway_refused_publications_total": ("counter", "Publications and chains that were refused."),
    "road_gateway_serve_starts_total": ("counter", "Starts of serve."),
    "road_gateway_serves": ("gauge", "Children that answer."),
    "road_gateway_serve_frames": (
        "gauge",
        "Frames that the child with the most has taken; it is replaced before 1000000.",
    ),
    "road_gateway_asks": ("gauge", "Requests in progress."),
    "road_gateway_waiting_octets": ("gauge", "Octets of answers that wait for their readers."),
    "road_gateway_publications": ("gauge", "Publications that are served."),
    "road_gateway_newest_version": ("gauge", "The version of the newest announced publication."),
    "road_gateway_newest_age_seconds": ("gauge", "How long ago it was signed, if its version is a date."),
    "road_gateway_connections": ("gauge", "Open connections."),
    "road_gateway_ready": ("gauge", "Whether asks are answered."),
}


class Counts:
    """The counters and times."""

    def __init__(self) -> None:
        self.values: collections.Counter[tuple[str, str]] = collections.Counter()
        self.times: dict[str, list[int]] = {}
        self.sums: collections.defaultdict[str, float] = collections.defaultdict(float)

    def add(self, name: str, labels: str = "", count: int = 1) -> None:
        self.values[name, labels] += count

    def time(self, path: str, seconds: float) -> None:
        row = self.times.setdefault(path, [0] * (len(BOUNDS) + 1))
        row[next((place for place, bound in enumerate(BOUNDS) if seconds <= bound), len(BOUNDS))] += 1
        self.sums[path] += seconds

    def page(self, gauges: dict[str, int]) -> str:
        """The page in the text format of Prometheus."""
        values = {**self.values, **{(name, ""): value for name, value in gauges.items()}}
        lines = []
        for name, (kind, text) in HELP.items():
            lines += [f"# HELP {name} {text}", f"# TYPE {name} {kind}"]
            lines += [f"{of}{labels} {value}" for (of, labels), value in sorted(values.items()) if of == name]
            if kind == "histogram":
                lines += [line for path in sorted(self.times) for line in self._histogram(name, path)]
        return "\n".join(lines) + "\n"

    def _histogram(self, name: str, path: str) -> Iterator[str]:
        total = 0
        for bound, count in zip((*BOUNDS, "+Inf"), self.times[path]):
            total += count
            yield f'{name}_bucket{{path="{path}",le="{bound}"}} {total}'
        yield f'{name}_sum{{path="{path}"}} {self.sums[path]:.6f}'
        yield f'{name}_count{{path="{path}"}} {total}'
