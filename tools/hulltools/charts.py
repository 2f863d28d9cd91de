"""Pictures of lines and bars as SVG, which a page holds in itself."""
import html
import math
from collections.abc import Iterable, Sequence
from typing import Optional

from .telling import one_line

WIDTH, HEIGHT, LEFT, RIGHT, TOP, BOTTOM = 720, 280, 104, 14, 14, 52


def ticks(low: float, high: float, most: int = 5) -> list[float]:
    """Round numbers from low to high, at most so many steps apart."""
    step = 10.0 ** math.floor(math.log10((high - low) / most))
    while (high - low) / step > most:
        step *= 2.5 if f"{step:e}".startswith("2") else 2
    first = math.ceil(low / step)
    count = int(math.floor((high - first * step) / step + 1e-9)) + 1
    return [(first + i) * step for i in range(min(max(count, 0), most + 2))]


class Chart:
    """A picture over a number axis."""

    def __init__(self, title: str, low: float, high: float, first: float, last: float) -> None:
        room = max((high - low) * 0.05, max(abs(low), abs(high)) * 1e-6, 1e-3)
        self.low, self.high = low - room * (low != 0), high + room
        self.first, self.last = first, max(last, first + 1)
        self.parts = [f'<svg viewBox="0 0 {WIDTH} {HEIGHT}" role="img" aria-label="{html.escape(one_line(title))}">']
        levels = ticks(self.low, self.high)
        # (as few digits as tell the levels apart, which may be near each other and far from 0)
        self.digits = next((it for it in range(6, 16) if len({f"{at:.{it}g}" for at in levels}) == len(levels)), 16)
        for at in levels:
            y = self.y(at)
            self.parts.append(
                f'<line class="grid" x1="{LEFT}" x2="{WIDTH - RIGHT}" y1="{y:.1f}" y2="{y:.1f}"/>'
                f'<text x="{LEFT - 6}" y="{y + 4:.1f}" text-anchor="end">{self.told(at)}</text>'
            )

    def x(self, at: float) -> float:
        return LEFT + (at - self.first) / (self.last - self.first) * (WIDTH - LEFT - RIGHT)

    def y(self, at: float) -> float:
        return TOP + (self.high - at) / (self.high - self.low) * (HEIGHT - TOP - BOTTOM)

    def told(self, number: float) -> str:
        most = max(abs(self.low), abs(self.high))
        sizes = ((1e9, " bn"), (1e6, " M"), (1e3, " k"))
        unit, name = next((it for it in sizes if most >= 10 * it[0] or most >= it[0] >= 1e6), (1, ""))
        return f"{number / unit:.{self.digits}g}{name if number else ''}"

    def label_x(self, text: object, at: float) -> None:
        self.parts.append(f'<text x="{self.x(at):.1f}" y="{HEIGHT - 30}" text-anchor="middle">{text}</text>')

    def name_x(self, text: str) -> None:
        middle = (LEFT + WIDTH - RIGHT) / 2
        self.parts.append(
            f'<text x="{middle}" y="{HEIGHT - 6}" text-anchor="middle">{html.escape(one_line(text))}</text>'
        )

    def polyline(self, points: Iterable[tuple[float, float]], style: str) -> None:
        told = " ".join(f"{self.x(at):.1f},{self.y(it):.1f}" for at, it in points)
        self.parts.append(f'<polyline class="{style}" points="{told}"/>')

    def steps(self, numbers: Iterable[float], style: str) -> None:
        """One level number for each place from `first` on."""
        self.polyline([(self.first + i + more, it) for i, it in enumerate(numbers) for more in (0, 1)], style)

    def line(self, numbers: Iterable[float], style: str) -> None:
        self.polyline([(self.first + i, it) for i, it in enumerate(numbers)], style)

    def level(self, at: float, style: str) -> None:
        y = self.y(at)
        self.parts.append(f'<line class="{style}" x1="{LEFT}" x2="{WIDTH - RIGHT}" y1="{y:.1f}" y2="{y:.1f}"/>')

    def dot(self, at: float, number: float, style: str) -> None:
        self.parts.append(f'<circle class="{style}" cx="{self.x(at):.1f}" cy="{self.y(number):.1f}" r="4"/>')

    def svg(self) -> str:
        return "".join([*self.parts, "</svg>"])


def steps_chart(
    title: str,
    series: Sequence[tuple[str, Sequence[float]]],
    periods: int,
    name_x: str = "period",
    labels: Optional[Sequence[str]] = None,
) -> str:
    """Level numbers by period; `series` are (style, numbers). The periods are numbered where they have no labels."""
    numbers = [it for _, row in series for it in row]
    chart = Chart(title, min(0, *numbers, 0), max(0, *numbers), 1, periods + 1)
    for style, row in series:
        chart.steps(row, style)
    # (times are longer than numbers, and have to fit on a narrow page too)
    for t in range(1, periods + 1, max(1, periods // (6 if labels and labels[0] != "1" else 12))):
        chart.label_x(html.escape(one_line(labels[t - 1])) if labels else t, t + 0.5)
    chart.name_x(name_x)
    return chart.svg()
