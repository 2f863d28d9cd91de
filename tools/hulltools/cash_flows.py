"""What a unit earns and spends in each period at prices, in millionths. The sums are held against those of `hull settle`."""
from collections.abc import Callable
from dataclasses import dataclass
from typing import Dict, List

from .cases import Case, Renewable, Thermal, Unit
from .costs import Costs, start_cost, worth
from .errors import HullError, one_line
from .numbers import Millionths
from .outputs import Owed, Settlement
from .prices import Prices
from .schedules import Plan, Schedule


@dataclass(frozen=True)
class Flow:
    """Revenue and cost of one or more periods. What a bid buys has a revenue below 0, and its worth is a cost below 0."""

    energy: Millionths = Millionths(0)
    reserve: Millionths = Millionths(0)
    production: Millionths = Millionths(0)
    start: Millionths = Millionths(0)

    @property
    def profit(self) -> Millionths:
        return Millionths(self.energy + self.reserve - self.production - self.start)

    def __add__(self, other: "Flow") -> "Flow":
        return flow(
            self.energy + other.energy,
            self.reserve + other.reserve,
            self.production + other.production,
            self.start + other.start,
        )


def flow(energy: int, reserve: int = 0, production: int = 0, start: int = 0) -> Flow:
    """The flow of these sums."""
    return Flow(Millionths(energy), Millionths(reserve), Millionths(production), Millionths(start))


def total(flows: List[Flow]) -> Flow:
    return sum(flows, Flow())


def thermal_flows(unit: Thermal, plan: Plan, prices: Prices, costs: Costs) -> List[Flow]:
    found, was_on, down = [], unit.on0, unit.down0
    for t, (on, power, reserve) in enumerate(zip(plan.on, plan.power, plan.reserve)):
        production = costs.of_power(unit, power) if on else 0
        start = start_cost(unit, down) if on and not was_on else 0
        found.append(flow(prices.energy[t] * power, prices.reserve[t] * reserve, production, start))
        down = 0 if on else 1 if was_on else down + 1
        was_on = on
    return found


def flows_of(unit: Unit, plan: Plan, prices: Prices, costs: Costs) -> List[Flow]:
    """What the plan of a unit or bid earns and spends, by period."""
    if isinstance(unit, Thermal):
        return thermal_flows(unit, plan, prices, costs)
    sold = zip(prices.energy, plan.power)
    if isinstance(unit, Renewable):
        return [flow(price * power) for price, power in sold]
    return [flow(-price * power, 0, -worth(unit.blocks[t], power)) for t, (price, power) in enumerate(sold)]


@dataclass(repr=False)
class UnitFlows:
    """A unit's line of a settlement, and by period what its schedule and its best response earn and spend."""

    owed: Owed
    scheduled: List[Flow]
    response: List[Flow]

    def __repr__(self) -> str:
        return f"<UnitFlows {self.owed.kind} {self.owed.name!r}: periods={len(self.scheduled)}>"

    @property
    def payment_by_period(self) -> List[Millionths]:
        """The response's profit less the schedule's; these sum to the payment."""
        return [Millionths(best.profit - given.profit) for best, given in zip(self.response, self.scheduled)]


def flows_of_line(owed: Owed, unit: Unit, schedule: Schedule, settlement: Settlement, costs: Costs) -> UnitFlows:
    """The flows of one unit, whose sums are those of its line in a settlement."""
    lists = (schedule.plan(owed.kind, unit.name), Plan(owed.on, owed.power, owed.reserve))
    scheduled, response = (flows_of(unit, plan, settlement.prices, costs) for plan in lists)
    if (total(scheduled).profit, total(response).profit) != (owed.scheduled, owed.earned):
        raise HullError(
            f'{settlement.name}: unit "{one_line(unit.name)}" earns something else in this case and schedule'
        )
    return UnitFlows(owed, scheduled, response)


def unit_flows(case: Case, schedule: Schedule, settlement: Settlement, costs: Costs) -> List[UnitFlows]:
    """The flows of every unit, whose sums are those that `hull settle` prints."""
    lines = zip(settlement.units, case.units)
    return [flows_of_line(owed, unit, schedule, settlement, costs) for owed, (_, unit) in lines]


def uplift_by_period(
    case: Case, schedule: Schedule, settlement: Settlement, flows: List[UnitFlows]
) -> List[Millionths]:
    """Payments and the worth of surplus reserve, by period; these sum to the gap."""
    plans = [schedule.plan("thermal", unit.name) for unit in case.thermal]
    found = [
        price * (sum(plan.reserve[t] for plan in plans) - case.reserves[t])
        for t, price in enumerate(settlement.best.reserve)
    ]
    for unit in flows:
        for t, amount in enumerate(unit.payment_by_period):
            found[t] += amount
    return [Millionths(amount) for amount in found]


KINDS = {"thermal": "Thermal", "renewable": "Renewable", "bid": "Buyers"}


def by_kind(units: List[Owed], amount: Callable[[Owed], Millionths]) -> Dict[str, Millionths]:
    """The sum of an amount of the units of each kind."""
    return {kind: Millionths(sum(amount(unit) for unit in units if unit.kind == kind)) for kind in KINDS}
