"""What is odd in the cost points of thermal units: falling slopes, costs below 0 or very high, and costs per MWh in place of totals."""
from __future__ import annotations

from dataclasses import dataclass
from fractions import Fraction
from typing import Dict, Iterator, List, Optional, Sequence, Tuple

from .cases import Thermal
from .costs import envelope
from .curve_costs import CurveCosts, falls, slopes
from .lint_findings import megawatts, per_mwh
from .lint_units import Oddity
from .numbers import money

FLAT = 0.35  # slopes of less than this share of the average cost are those of costs per MWh, which hardly rise
FLATTEST = 0.2  # so are these whatever the average is: four fifths of the cost at full power would be without any power
LOW = 30_000  # an average in millionths per kilowatt that a small unit may have with such slopes
CHEAP = 0.1  # so is an average cost of less than this share of the other units'
KEY = "piecewise_production"


def average(unit: Thermal) -> Optional[Fraction]:
    """Millionths per kilowatt at the last point; None at no power."""
    at, cost = unit.points[-1]
    return Fraction(cost, at) if at else None


def middle(numbers: List[Fraction]) -> Optional[Fraction]:
    return sorted(numbers)[len(numbers) // 2] if numbers else None


@dataclass
class CostCheck:
    """What costs are held against: the highest marginal cost in the currency per MWh, how long a period is, and the middle of the units' average costs."""

    highest: float
    hours: float
    usual: Optional[Fraction]

    @staticmethod
    def of(units: List[Thermal], highest: float, hours: float) -> CostCheck:
        return CostCheck(highest, hours, middle([it for it in map(average, units) if it is not None and it > 0]))

    def oddities(self, unit: Thermal) -> Iterator[Oddity]:
        yield from two_costs(unit)
        found = self.per_mwh_shape(unit)
        if found:
            yield found
            return
        yield from self.out_of_range(unit)

    def per_mwh_shape(self, unit: Thermal) -> Optional[Oddity]:
        """Costs that look like costs per MWh: all within what a MWh may cost, and far too little for that power, or hardly rising with it."""
        costs, mean = [cost for _, cost in unit.points], average(unit)
        (at, cost), last = unit.points[0], unit.points[-1]
        if mean is None or not all(0 < it <= self.highest * 1e6 for it in costs) or last[0] <= 1000:
            return None
        share = Fraction(FLAT if mean < LOW * self.hours else FLATTEST)
        is_flat = at < last[0] and Fraction(last[1] - cost, last[0] - at) < mean * share
        is_cheap = self.usual is not None and mean < self.usual * Fraction(CHEAP)
        if not is_cheap and not is_flat:
            return None
        per = money(last[1])
        return Oddity(
            "cost-per-mwh",
            KEY,
            f"its cost at {megawatts(last[0])} is {per}, {per_mwh(float(mean), self.hours)} per MWh: are its costs per MWh? `cost` is what a whole "
            f"period at that power costs: {megawatts(last[0])} at {per} per MWh cost {money(last[1] * last[0] // 1000)} an hour",
        )

    def out_of_range(self, unit: Thermal) -> Iterator[Oddity]:
        found = slopes(unit.points)
        low = min(found, key=lambda row: row[2], default=None)
        high = max(found, key=lambda row: row[2], default=None)
        if low and low[2] < 0:
            yield Oddity(
                "negative-cost",
                KEY,
                f"from {megawatts(low[0])} to {megawatts(low[1])} a further MWh costs {per_mwh(float(low[2]), self.hours)}, below 0. "
                "`cost` is what a whole period at that power costs, and rises with power",
            )
        mean, bound = average(unit), self.highest * 1e3 * self.hours
        is_high = bool(high and high[2] > bound)
        if is_high or not found and mean is not None and mean > bound:
            where = f"from {megawatts(high[0])} to {megawatts(high[1])} a further MWh" if high and is_high else "a MWh"
            slope = high[2] if high and is_high else mean
            yield Oddity(
                "high-cost",
                KEY,
                f"{where} costs {per_mwh(float(slope or 0), self.hours)}, above {self.highest:,g} (--highest-cost). Are its costs in cents, or its "
                "powers in gigawatts? Costs are in the currency, powers in megawatts",
            )


def first_twice(rows: Sequence[Tuple[int, int]]) -> Optional[Tuple[int, int, int]]:
    """The first power or lag that has two costs, and both."""
    pairs = zip(rows, rows[1:])
    return next(((at, cost, more) for (at, cost), (other, more) in pairs if at == other and cost != more), None)


def two_costs(unit: Thermal) -> Iterator[Oddity]:
    """A power or a lag that has two costs, as where rows of two versions of a table stand below each other."""
    point, start = first_twice(unit.points), first_twice(unit.lags)
    if point:
        told = f"{megawatts(point[0])}, {money(point[1])} and {money(point[2])}, of which the least counts"
        yield Oddity("two-costs", KEY, f"it has two costs at {told}: leave one")
    if start:
        told = f"a lag of {start[0]}, {money(start[1])} and {money(start[2])}, of which the last counts"
        yield Oddity("two-costs", "startup", f"it has two costs of a start at {told}: leave one")


def steepest_fall(unit: Thermal) -> Tuple[int, Fraction, Fraction]:
    """The power where the slope falls most, and the slopes before and behind it."""
    found = slopes(unit.points)
    pairs = [(before[1], before[2], after[2]) for before, after in zip(found, found[1:])]
    return max(pairs, key=lambda row: row[1] - row[2])


def farthest_point(unit: Thermal) -> Tuple[int, int, int]:
    """The point whose cost is farthest above the envelope: its power, its cost, and that of the envelope."""
    rows = [(at, cost, int(envelope(unit.points, at))) for at, cost in unit.points]
    return max(rows, key=lambda row: int(row[1] - row[2]))


@dataclass(frozen=True)
class Fall:
    """A unit whose slopes fall, and its costs in a schedule where that is given."""

    unit: Thermal
    cost: Optional[CurveCosts]
    hours: float

    @property
    def effect(self) -> float:
        """By how much the envelope is below the points: in the schedule, or else where it is farthest."""
        if self.cost is not None:
            return float(self.cost.straight - self.cost.whole)
        _, given, taken = farthest_point(self.unit)
        return float(given - taken)

    @property
    def oddity(self) -> Oddity:
        at, before, after = steepest_fall(self.unit)
        power, given, taken = farthest_point(self.unit)
        scheduled = ""
        if self.cost is not None and not round(self.effect):
            scheduled = ". In this schedule that changes nothing"
        elif self.cost is not None:
            convex, rest = (money(round(it)) for it in steps(self.cost))
            scheduled = f". In this schedule it costs {convex} less by the convex envelope, and {rest} less still by whole prices"
        return Oddity(
            "falling-slopes",
            KEY,
            f"at {megawatts(at)} the cost of a further MWh falls from {per_mwh(float(before), self.hours)} to {per_mwh(float(after), self.hours)}. "
            f"hull takes the envelope of the points: {money(taken)} at {megawatts(power)} in place of {money(given)}{scheduled}",
        )


def steps(cost: CurveCosts) -> Tuple[Fraction, Fraction]:
    """What the convex envelope takes off the straight lines, and what whole prices take off that."""
    return cost.straight - cost.convex, cost.convex - cost.whole


def falls_of(units: List[Thermal], costs: Dict[str, CurveCosts], hours: float) -> List[Fall]:
    """The units whose slopes fall, those on which the envelope takes off most first."""
    return sorted((Fall(it, costs.get(it.name), hours) for it in units if falls(it)), key=lambda it: -it.effect)


def falling_in_sum(count: int, cost: Optional[CurveCosts]) -> str:
    """What falling slopes change in the cost of a whole schedule."""
    text = f"{count} unit{' has' if count == 1 else 's have'} falling slopes: give points whose slopes rise, or take the envelope"
    if cost is None:
        return text
    convex, rest = (money(round(it)) for it in steps(cost))
    return (
        f"{text}. The units' cost in this schedule is {money(round(cost.straight))} by straight lines between the points, "
        f"{money(round(cost.convex))} by lower convex envelopes ({convex} less), and {money(cost.whole)} as hull has it, by envelopes in whole "
        f"prices ({rest} less still)"
    )
