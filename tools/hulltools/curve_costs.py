"""What a schedule costs by three readings of its units' cost points: straight lines, lower convex envelope, whole-price envelope."""
from __future__ import annotations

from dataclasses import dataclass
from fractions import Fraction
from typing import List, Sequence, Tuple

from .cases import Case, Thermal
from .costs import Costs, lower_hull, start_cost
from .numbers import Millionths
from .schedules import Plan, Schedule

Points = Sequence[Tuple[int, int]]  # kilowatts and millionths


@dataclass(frozen=True)
class CurveCosts:
    """Costs in millionths: by straight lines between the points, by their lower convex envelope, and as `hull` has it."""

    straight: Fraction
    convex: Fraction
    whole: Millionths

    def __add__(self, other: CurveCosts) -> CurveCosts:
        return CurveCosts(
            self.straight + other.straight, self.convex + other.convex, Millionths(self.whole + other.whole)
        )


def line_cost(points: Points, power: int) -> Fraction:
    """The cost of a power by straight lines between points in order of power; of several at one power the least counts."""
    at_power = [cost for at, cost in points if at == power]
    if at_power:
        return Fraction(min(at_power))
    before = [it for it in points if it[0] < power][-1]
    after = next(it for it in points if it[0] > power)
    return before[1] + Fraction(after[1] - before[1], after[0] - before[0]) * (power - before[0])


def slopes(points: Points) -> List[Tuple[int, int, Fraction]]:
    """From power, to power, and millionths per kilowatt between them, of the points that differ in power."""
    pairs = zip(points, points[1:])
    return [(a, b, Fraction(cost_b - cost_a, b - a)) for (a, cost_a), (b, cost_b) in pairs if b > a]


def falls(unit: Thermal) -> bool:
    """Whether the cost curve of a unit has a slope below the one before it."""
    found = [slope for _, _, slope in slopes(unit.points)]
    return any(after < before for before, after in zip(found, found[1:]))


def unit_cost(unit: Thermal, plan: Plan, costs: Costs) -> CurveCosts:
    """The cost of a unit's plan by the three readings, starts included."""
    corners = lower_hull(unit.points)
    total, was_on, down = CurveCosts(Fraction(0), Fraction(0), Millionths(0)), unit.on0, unit.down0
    for on, power in zip(plan.on, plan.power):
        if on:
            start = 0 if was_on else start_cost(unit, down)
            straight, convex = line_cost(unit.points, power), line_cost(corners, power)
            total += CurveCosts(straight + start, convex + start, Millionths(costs.of_power(unit, power) + start))
        down = 0 if on else 1 if was_on else down + 1
        was_on = on
    return total


def costs_by_unit(case: Case, schedule: Schedule) -> List[Tuple[Thermal, CurveCosts]]:
    """The costs of each thermal unit in a schedule."""
    costs = Costs()
    return [(unit, unit_cost(unit, schedule.plan("thermal", unit.name), costs)) for unit in case.thermal]


def cost_of_schedule(case: Case, schedule: Schedule) -> CurveCosts:
    """The costs of all thermal units, without what bids are worth."""
    return sum((cost for _, cost in costs_by_unit(case, schedule)), CurveCosts(Fraction(0), Fraction(0), Millionths(0)))
