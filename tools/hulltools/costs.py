"""What a schedule costs, by the definitions of docs/DEFINITIONS.md, in millionths."""
from __future__ import annotations

from collections.abc import Iterable

from .cases import Block, Thermal
from .numbers import Kilowatts, Millionths
from .schedules import Plan


def lower_hull(points: Iterable[tuple[int, int]]) -> list[tuple[int, int]]:
    """The corners of the lower convex envelope of (power, cost) points in order of power."""
    corners: list[tuple[int, int]] = []
    for at, cost in points:
        if corners and corners[-1][0] == at:
            if corners[-1][1] <= cost:
                continue
            corners.pop()
        while len(corners) > 1 and is_above(corners[-2], corners[-1], (at, cost)):
            corners.pop()
        corners.append((at, cost))
    return corners


def is_above(first: tuple[int, int], middle: tuple[int, int], last: tuple[int, int]) -> bool:
    """Whether the middle point isn't below the line between the others."""
    return (middle[1] - first[1]) * (last[0] - first[0]) >= (last[1] - first[1]) * (middle[0] - first[0])


def envelope(points: Iterable[tuple[int, int]], power: int) -> Millionths:
    """The greatest, over whole prices k, of the least over the points of cost + k * (power - power of the point).

    What the greatest is taken of is concave in k, and greatest at the slope of the envelope, so a whole k beside that reaches it.
    """
    corners = lower_hull(points)
    slopes = [
        (after[1] - before[1], after[0] - before[0])
        for before, after in zip(corners, corners[1:])
        if before[0] <= power <= after[0]
    ] or [(0, 1)]
    beside = {rise // run + more for rise, run in slopes for more in (0, 1)}
    return Millionths(max(min(cost + k * (power - at) for at, cost in corners) for k in beside))


def most_below_lines(points: Iterable[tuple[int, int]]) -> float:
    """By how much the envelope can be below the straight lines between the points at most.

    A slope between two whole prices k and k + 1, over w kilowatts, is told by lines of slope k and k + 1 from the two ends of these. What
    that takes from the straight line is greatest where both take the same, and then at most a quarter for each kilowatt.
    """
    widths: dict[int, int] = {}
    corners = lower_hull(points)
    for (a, cost_a), (b, cost_b) in zip(corners, corners[1:]):
        price, rest = divmod(cost_b - cost_a, b - a)
        if rest:
            widths[price] = widths.get(price, 0) + b - a
    return max(widths.values(), default=0) / 4


def start_cost(unit: Thermal, down: int) -> Millionths:
    """What a start costs after so many periods down."""
    reached = [cost for lag, cost in unit.lags if lag <= down]
    return reached[-1] if reached else unit.lags[0][1] if unit.lags else Millionths(0)


class Costs:
    """The cost of schedules of thermal units; what a power costs is worked out once."""

    def __init__(self) -> None:
        self.known: dict[tuple[str, Kilowatts], Millionths] = {}

    def of_power(self, unit: Thermal, power: Kilowatts) -> Millionths:
        key = unit.name, power
        if key not in self.known:
            self.known[key] = envelope(unit.points, power)
        return self.known[key]

    def of_plan(self, unit: Thermal, plan: Plan) -> Millionths:
        total, was_on, down = 0, unit.on0, unit.down0
        for on, power in zip(plan.on, plan.power):
            if on:
                total += self.of_power(unit, power) + (0 if was_on else start_cost(unit, down))
            down = 0 if on else 1 if was_on else down + 1
            was_on = on
        return Millionths(total)


def worth(blocks: Iterable[Block], power: int) -> Millionths:
    """What the first so many kilowatts of a bid's blocks are worth."""
    total = 0
    for width, price in blocks:
        total += min(width, power) * price
        power -= min(width, power)
    return Millionths(total)
