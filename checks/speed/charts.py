"""Charts as SVG: panels with axes, units, a legend and a caption, readable in dark and in light. Nobody trusts it."""
import math
from typing import NamedTuple, Sequence
from xml.sax.saxutils import escape

WIDTH, PANEL, EDGE, LEFT, TOP, BOTTOM = 760, 150, 12, 46, 40, 44
# the distance of the first and last place along x from the ends of the axis, and the width of a letter
INSET, LETTER = 14, 6.2
# colour in light, colour in dark, shape of the points
METHODS = ["DIJ", "LDM", "HYP", "FULL"]
LOOKS = [
    ("#c2571a", "#f0a060", "circle"),
    ("#2a6fb0", "#7ab8f0", "square"),
    ("#7a3fa0", "#c79be8", "diamond"),
    ("#2f7d32", "#86cf8a", "triangle"),
]
STYLE = """text{font:11px sans-serif;fill:#222}.paper{fill:#fff}.axis{stroke:#666;fill:none}.grid{stroke:#ddd}.title{font-weight:bold}
%s
@media(prefers-color-scheme:dark){text{fill:#ddd}.paper{fill:#16181d}.axis{stroke:#999}.grid{stroke:#333}
%s}"""


class Panel(NamedTuple):
    """The title of a panel, the names of its axes with their units, its lines by name, and whether an axis is logarithmic.

    The places along x are numbers, or words side by side.
    """

    title: str
    across: str
    up: str
    lines: dict[str, list[tuple[float | str, float]]]
    log_across: bool = True
    log_up: bool = True


def short(value: float) -> str:
    """A number at an axis."""
    if value >= 1_000_000:
        return f"{value / 1_000_000:g}M"
    return f"{value / 1000:.3g}k" if value >= 10_000 else f"{value:g}"


class Axis:
    """The positions of values between two ends of a panel."""

    def __init__(self, values: Sequence[float], is_log: bool, start: float, end: float):
        self.is_log, self.start, self.end = is_log, start, end
        low, high = min(values), max(values)
        if is_log:
            low, high = 10 ** math.floor(math.log10(low) + 1e-9), max(high, low * 1.5)
            decades = range(round(math.log10(low)), math.ceil(math.log10(high) - 1e-9) + 1)
            self.ticks = (
                [10.0**power for power in decades]
                if len(decades) > 2
                else [
                    base * 10.0**power
                    for power in decades
                    for base in (1, 2, 5)
                    if base * 10.0**power <= high * 1.5
                ]
            )
            high = max([high, *self.ticks[:-1]]) if len(decades) <= 2 else self.ticks[-1]
            self.ticks = [tick for tick in self.ticks if low <= tick <= high * 1.01]
        else:
            step = next(
                size
                for size in (base * 10.0**power for power in range(-4, 12) for base in (1, 2, 5))
                if high / size <= 5
            )
            low, high = 0.0, step * math.ceil(high / step - 1e-9)
            self.ticks = [step * at for at in range(round(high / step) + 1)]
        self.low, self.high = low, high

    def at(self, value: float) -> float:
        place, low, high = (math.log(number) if self.is_log else number for number in (value, self.low, self.high))
        return self.start + (self.end - self.start) * (place - low) / (high - low)


class Given:
    """The positions of the measured values, each with its own tick: numbers on a logarithmic or linear axis, or words."""

    def __init__(self, values: Sequence[float | str], is_log: bool, start: float, end: float):
        self.ticks, self.start, self.end = list(dict.fromkeys(values)), start + INSET, end - INSET
        if all(isinstance(value, (int, float)) for value in self.ticks):
            self.ticks.sort()
        self.scale = math.log if is_log and self.ticks[0] and not isinstance(self.ticks[0], str) else None

    def at(self, value: float | str) -> float:
        if self.scale and len(self.ticks) > 1:
            first, last = (self.scale(float(tick)) for tick in (self.ticks[0], self.ticks[-1]))
            share = (self.scale(float(value)) - first) / (last - first)
        else:
            share = self.ticks.index(value) / max(1, len(self.ticks) - 1)
        return self.start + (self.end - self.start) * share


def point(look: int, x: float, y: float) -> str:
    shape = LOOKS[look][2]
    if shape == "circle":
        return f'<circle class="p{look}" cx="{x:.1f}" cy="{y:.1f}" r="3"/>'
    path = {"square": "m-3-3h6v6h-6z", "diamond": "m0-4l4 4-4 4-4-4z", "triangle": "m0-4l4 7h-8z"}[shape]
    return f'<path class="p{look}" d="M{x:.1f} {y:.1f}{path}"/>'


def ticks_of(panel: Panel, across: Given, up: Axis) -> list[str]:
    left, right, foot, top = across.start - INSET, across.end + INSET, up.start, up.end
    drawn = [
        f'<path class="grid" d="{" ".join(f"M{left:.0f} {up.at(tick):.1f}H{right:.0f}" for tick in up.ticks)}"/>',
        f'<path class="axis" d="M{left:.0f} {top:.0f}V{foot:.0f}H{right:.0f}"/>',
    ]
    drawn += [
        f'<text x="{left - 4:.0f}" y="{up.at(tick) + 4:.1f}" text-anchor="end">{short(tick)}</text>'
        for tick in up.ticks
    ]
    for tick in across.ticks:
        drawn.append(
            f'<text x="{across.at(tick):.1f}" y="{foot + 14:.0f}" text-anchor="middle">{escape(tick if isinstance(tick, str) else short(tick))}</text>'
        )
    return drawn + [
        f'<text x="{(left + right) / 2:.0f}" y="{foot + 36:.0f}" text-anchor="middle">{escape(panel.across)}</text>',
        f'<text class="title" x="{left - LEFT + 4:.0f}" y="{top - 22:.0f}">{escape(panel.title)}</text>',
        f'<text x="{left - LEFT + 4:.0f}" y="{top - 8:.0f}">{escape(panel.up)}</text>',
    ]


def drawn(panel: Panel, names: list[str], left: float, top: float, width: float) -> list[str]:
    """A panel within a frame."""
    points = [spot for line in panel.lines.values() for spot in line]
    across = Given([x for x, _ in points], panel.log_across, left + LEFT, left + width - EDGE)
    up = Axis([y for _, y in points], panel.log_up, top + TOP + PANEL, top + TOP)
    lines = ticks_of(panel, across, up)
    for name, line in panel.lines.items():
        look, places = names.index(name) % len(LOOKS), [(across.at(x), up.at(y)) for x, y in line]
        if not isinstance(line[0][0], str):
            lines.append(f'<path class="l{look}" d="M{"L".join(f"{x:.1f} {y:.1f}" for x, y in places)}"/>')
        lines += [point(look, x, y) for x, y in places]
    return lines


def wrapped(text: str, most: int) -> list[str]:
    lines = [""]
    for word in text.split():
        if len(lines[-1]) + len(word) >= most:
            lines.append("")
        lines[-1] = f"{lines[-1]} {word}".strip()
    return lines


def chart(caption: str, panels: list[Panel], columns: int) -> str:
    """A picture of panels in this many columns, with a legend above and a caption below."""
    named = {name for panel in panels for name in panel.lines}
    names = METHODS if named <= set(METHODS) else list(dict.fromkeys(name for panel in panels for name in panel.lines))
    width, rows, told = WIDTH / columns, math.ceil(len(panels) / columns), wrapped(caption, 130)
    row = TOP + PANEL + BOTTOM
    height = 24 + rows * row + 15 * len(told) + EDGE
    body = [f'<rect class="paper" width="{WIDTH}" height="{height}"/>']
    left = EDGE + 6.0
    for at, name in enumerate(names):
        if name in named:
            body += [point(at % len(LOOKS), left, 14), f'<text x="{left + 10:.0f}" y="18">{escape(name)}</text>']
            left += 40 + LETTER * len(name)
    for at, panel in enumerate(panels):
        body += drawn(panel, names, width * (at % columns), 24 + row * (at // columns), width)
    body += [
        f'<text x="{EDGE}" y="{24 + rows * row + 15 * (at + 1)}">{escape(line)}</text>' for at, line in enumerate(told)
    ]
    looks = [
        "".join(
            f".p{at}{{fill:{look[shade]}}}.l{at}{{stroke:{look[shade]};stroke-width:1.5;fill:none}}"
            for at, look in enumerate(LOOKS)
        )
        for shade in (0, 1)
    ]
    return (
        f'<svg xmlns="http://www.w3.org/2000/svg" width="{WIDTH}" height="{height}" viewBox="0 0 {WIDTH} {height}">\n'
        f"<title>{escape(caption)}</title>\n<style>{STYLE % tuple(looks)}</style>\n" + "\n".join(body) + "\n</svg>\n"
    )
