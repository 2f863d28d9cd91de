"""What is odd in a whole case, schedule or prices though `hull` takes it: periods, demand against what can run, units of measure."""
from __future__ import annotations

from dataclasses import dataclass
from fractions import Fraction
from typing import Callable, Iterator, List, Optional, Tuple

from .cases import Case
from .day_lengths import changed_day, is_usual, length_on_change
from .json_places import Node, number_at
from .lint_findings import megawatts, per_mwh, ranges
from .lint_costs import CostCheck
from .prices import Prices

THOUSAND = (300, 3000)  # a factor within these is most likely a unit of measure


@dataclass(frozen=True)
class SystemOddity:
    """What is odd of a case as a whole: the rule, the key whose line is told, a sentence, and the periods."""

    rule: str
    key: str
    text: str
    periods: Tuple[int, ...] = ()


def period_oddities(periods: int, hours: float) -> Iterator[SystemOddity]:
    """A number of periods that are no whole days, or days on which clocks change; `hours` is 1 where nobody says how long one is."""
    named, length = changed_day(periods), Fraction(hours).limit_denominator(3600)
    told = f"{periods} {'period is' if periods == 1 else 'periods are'}"
    if named and length in (1, length_on_change(periods)):
        yield SystemOddity("changed-day", "time_periods", f"{told} {named}: is that meant?")
    elif length == 1 and not is_usual(periods):
        usual = "a day has 24 hours, 48 half hours or 96 quarter hours"
        yield SystemOddity("odd-periods", "time_periods", f"{told} no whole day: {usual}")
    elif length != 1 and periods * length % 24:
        yield SystemOddity("odd-periods", "time_periods", f"{told} {float(periods * length):g} hours, and no whole day")


class Bounds:
    """What all units together can give and keep in each period."""

    def __init__(self, case: Case):
        self.case = case
        every, flags = range(case.periods), [it.on_bounds() for it in case.thermal]
        thermal = list(zip(case.thermal, flags))
        self.most = [sum(it.most * high[t] for it, (_, high) in thermal) for t in every]
        self.least = [sum(it.least * low[t] for it, (low, _) in thermal) for t in every]
        self.room = [sum((it.most - it.least) * high[t] for it, (_, high) in thermal) for t in every]
        self.wind = [sum(it.most[t] for it in case.renewable) for t in every]
        self.wind_least = [sum(it.least[t] for it in case.renewable) for t in every]
        self.buys = [sum(width for it in case.bids for width, _ in it.blocks[t]) for t in every]

    def short(self, lacks: Callable[[int], int]) -> List[int]:
        """The periods, from 0, where something is lacking, the worst first."""
        return sorted((t for t in range(self.case.periods) if lacks(t) > 0), key=lambda t: -lacks(t))


def where(found: List[int]) -> str:
    more = f", the worst of periods {ranges(t + 1 for t in found)}" if len(found) > 1 else ""
    return f"in period {found[0] + 1}{more}"


def numbered(found: List[int]) -> Tuple[int, ...]:
    return tuple(sorted(t + 1 for t in found))


def capacity_oddities(case: Case) -> Iterator[SystemOddity]:
    """Demand and required reserve against what can run."""
    bounds = Bounds(case)
    most = [a + b for a, b in zip(bounds.most, bounds.wind)]
    found = bounds.short(lambda t: int(case.demand[t] - most[t]))
    if found:
        t = found[0]
        yield SystemOddity(
            "demand-too-high",
            "demand",
            f"demand is {megawatts(case.demand[t])} {where(found)}; all units that may run give at most {megawatts(most[t])} then"
            f"{factor_hint(case.demand[t], most[t])}. No schedule can meet it",
            numbered(found),
        )
    least = [a + b for a, b in zip(bounds.least, bounds.wind_least)]
    high = bounds.short(lambda t: int(least[t] - case.demand[t] - bounds.buys[t]))
    if high:
        t = high[0]
        yield SystemOddity(
            "demand-too-low",
            "demand",
            f"demand is {megawatts(case.demand[t])} {where(high)}; units that have to be on give at least {megawatts(least[t])} then, and "
            f"bids buy at most {megawatts(bounds.buys[t])}. No schedule can meet it",
            numbered(high),
        )
    yield from reserve_oddities(case, bounds, found)
    yield from small_demand(case, most)


def factor_hint(large: float, small: float) -> str:
    """A question, where one is about a thousand times the other."""
    if small and THOUSAND[0] <= large / small <= THOUSAND[1]:
        return ". Is demand in kilowatts, or are the units in gigawatts? Both are in megawatts"
    return ""


def small_demand(case: Case, most: List[int]) -> Iterator[SystemOddity]:
    peak = max(case.demand)
    if 0 < peak * THOUSAND[0] < max(most):
        yield SystemOddity(
            "demand-small",
            "demand",
            f"the highest demand is {megawatts(peak)}, and the units give up to {megawatts(max(most))}: is demand in gigawatts, or are units in "
            "kilowatts? Both are in megawatts",
        )


def reserve_oddities(case: Case, bounds: Bounds, short: List[int]) -> Iterator[SystemOddity]:
    def lack(t: int) -> int:
        needed = max(0, case.demand[t] - bounds.wind[t])
        return int(case.reserves[t] - min(bounds.room[t], max(0, bounds.most[t] - needed)))

    found = [t for t in bounds.short(lack) if t not in short]
    if found:
        t = found[0]
        kept = case.reserves[t] - lack(t)
        yield SystemOddity(
            "reserve-too-high",
            "reserves",
            f"{megawatts(case.reserves[t])} of reserve are required {where(found)}; the units can keep at most {megawatts(kept)} beside "
            "the demand then. No schedule can meet it: only thermal units keep reserve",
            numbered(found),
        )
    if 0 < max(case.reserves) <= 1000 and max(case.demand) > 20_000:
        yield SystemOddity(
            "reserve-as-share",
            "reserves",
            f"the highest required reserve is {megawatts(max(case.reserves))}, at a demand of up to {megawatts(max(case.demand))}: are these "
            "shares of demand? Reserves are in megawatts",
        )


def price_oddities(prices: Prices, case: Case, hours: float) -> Iterator[SystemOddity]:
    """Prices of another unit of measure, and reserve prices that aren't there though reserve is required."""
    usual, highest = CostCheck.of(case.thermal, 0, hours).usual, max(prices.energy)
    if usual is None:
        return
    cost = f"a MWh of the median unit costs {per_mwh(float(usual), hours)} at full load"
    per = "per MWh" if hours == 1 else "per MW and period"
    if 0 < highest < usual / 50:
        yield SystemOddity(
            "prices-per-kwh",
            "energy",
            f"the highest energy price is {highest / 1e3:g}, and {cost}: are these prices per kWh? Prices are {per}, so {highest / 1e3:g} per "
            f"kWh is {highest * hours:g}",
        )
    middle = sorted(prices.energy)[len(prices.energy) // 2]
    if middle > 50 * usual:
        yield SystemOddity(
            "prices-too-high",
            "energy",
            f"half of the energy prices are at least {middle / 1e3:,g}, and {cost}: are these in cents or thousandths? Prices are in the case's currency "
            f"{per}",
        )


def numbers_below(node: Node, *path: str) -> Iterator[float]:
    """The numbers in a value, or in these members of each of its members."""
    number = number_at(node)
    if number is not None:
        yield abs(float(number))
    for item in node.items:
        yield from numbers_below(item)
    for key, value in node.members.items():
        if not path or key in path:
            yield from numbers_below(value)


def in_megawatts(case: Node, schedule: Node) -> Optional[str]:
    """What a schedule in megawatts shows: its powers against demand and against what the units can give, which are read in kilowatts."""
    demand = case.members.get("demand")
    due = sum(numbers_below(demand)) if demand else 0.0
    groups = [schedule.members[it] for it in ("thermal", "renewable") if it in schedule.members]
    given = sum(
        number for group in groups for unit in group.members.values() for number in numbers_below(unit, "power")
    )
    units = [case.members[it] for it in ("thermal_generators", "renewable_generators") if it in case.members]
    most = sum(
        max(numbers_below(unit, "power_output_maximum"), default=0.0)
        for group in units
        for unit in group.members.values()
    )
    periods = len(demand.items) if demand else 0
    if (
        not due
        or not given
        or not THOUSAND[0] <= 1e3 * due / given <= THOUSAND[1]
        or 300 * given > 1e3 * most * periods
    ):
        return None
    return (
        f"the powers sum to {given:,.0f} over all periods, and demand sums to {due:,.0f} MW: this schedule is in megawatts. Whole kilowatts "
        "are due, 340000 for 340 MW: tools/make_schedule.py --follow makes them of it"
    )
