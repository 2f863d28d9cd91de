"""The case and the schedule that are to stand beside a text: those of another text are refused."""
from __future__ import annotations

from typing import Optional, Union

from .cases import Bid, Case, Renewable, Unit
from .cash_flows import flows_of, total
from .costs import Costs
from .errors import HullError, one_line
from .options import counted
from .outputs import Convex, Fixed, Owed, Report, Settlement
from .schedules import Plan, Schedule

WithBest = Union[Report, Settlement, Convex]
WithUnits = Union[WithBest, Fixed]


def units_of(text: WithUnits) -> list[tuple[str, str]]:
    """Kind and name of each unit and bid."""
    if isinstance(text, Fixed):
        return [(kind, name) for kind, name, *_ in text.units]
    return [(unit.kind, unit.name) for unit in text.units]


def periods_of(text: WithUnits) -> int:
    return len(text.hull.prices.energy) if isinstance(text, Fixed) else text.periods


def told(kind: str, name: str) -> str:
    return f'the {kind} unit "{one_line(name)}"'


def best_of(unit: Unit, text: WithBest) -> Optional[int]:
    """What a renewable unit or a bid earns at best at the prices of the text; a thermal unit's best isn't looked for."""
    rows = enumerate(text.best.energy)
    if isinstance(unit, Renewable):
        return sum(max(price * unit.least[t], price * unit.most[t]) for t, price in rows)
    if isinstance(unit, Bid):
        return sum(width * max(0, most - price) for t, price in rows for width, most in unit.blocks[t])
    return None


def why_not_case(text: WithUnits, case: Case, costs: Costs) -> Optional[str]:
    """In what a case is another one than that of the text, or None."""
    if case.periods != periods_of(text):
        return f"it has {counted(case.periods, 'period')}, and the text has {periods_of(text)}"
    units, known = units_of(text), [(kind, unit.name) for kind, unit in case.units]
    for one, others, where in ((known, units, "the text"), (units, known, "the case")):
        there = set(others)
        missing = next((it for it in one if it not in there), None)
        if missing:
            return f"{told(*missing)} isn't in {where}"
    if isinstance(text, Fixed):
        return None
    # (what the prices of demand and reserve sum to, less what units earn at best, is the dual value)
    rows = zip(text.best.energy, case.demand, text.best.reserve, case.reserves)
    due = sum(energy * demand + reserve * kept for energy, demand, reserve, kept in rows)
    if due - sum(unit.earned for unit in text.units) != text.value:
        return "with its demand and reserve the dual value would be another one"
    by_name = {(kind, unit.name): unit for kind, unit in case.units}
    for owed in text.units:
        unit = by_name[owed.kind, owed.name]
        earned = total(flows_of(unit, Plan(owed.on, owed.power, owed.reserve), text.prices, costs)).profit
        if owed.earned != earned or best_of(unit, text) not in (None, earned):
            return f"{told(owed.kind, owed.name)} would earn something else at best"
    return None


def why_not_plans(text: WithUnits, schedule: Schedule) -> Optional[str]:
    """Which unit or period of the text a schedule hasn't, or None."""
    for unit in units_of(text):
        if unit not in schedule.plans:
            return f"{told(*unit)} isn't in it"
        plan = schedule.plans[unit]
        for length in (len(plan.power), len(plan.on), len(plan.reserve)):
            if length != periods_of(text):
                return f"it has {counted(length, 'period')}, and the text has {periods_of(text)}"
    return None


def revenue_of(owed: Owed, plan: Plan, text: WithBest) -> int:
    """What a plan is paid at the prices of the text; what a bid pays is below 0."""
    rows = zip(text.best.energy, plan.power, text.best.reserve, plan.reserve)
    found = sum(energy * power + reserve * kept for energy, power, reserve, kept in rows)
    return -found if owed.kind == "bid" else found


def why_not_paid(text: WithBest, schedule: Schedule) -> Optional[str]:
    """Why the text isn't of a schedule, as far as what units are paid says it, or None."""
    paid = 0
    for owed in text.units:
        revenue = revenue_of(owed, schedule.plans[owed.kind, owed.name], text)
        if owed.kind == "renewable" and revenue != owed.scheduled:
            return f"{told(owed.kind, owed.name)} would earn something else in it"
        paid += revenue
    if paid - text.cost != sum(owed.scheduled for owed in text.units):
        return "the units would earn something else in it"
    return None


def why_not_both(text: WithUnits, schedule: Schedule, case: Case, costs: Costs) -> Optional[str]:
    """Why the text isn't of a schedule of a case: what a unit earns in it would be something else, or what it costs. Or None."""
    prices = text.hull.prices if isinstance(text, Fixed) else text.prices
    due = {} if isinstance(text, Fixed) else {(it.kind, it.name): it.scheduled for it in text.units}
    cost = 0
    for kind, unit in case.units:
        flow = total(flows_of(unit, schedule.plans[kind, unit.name], prices, costs))
        if due.get((kind, unit.name), flow.profit) != flow.profit:
            return f"{told(kind, unit.name)} would earn something else in it"
        cost += flow.production + flow.start
    return None if cost == text.cost else "its cost would be another one"


def need_beside(text: WithUnits, case: Optional[Case], schedule: Optional[Schedule], costs: Costs) -> None:
    """Refuses a case or a schedule that isn't that of the text, as far as the numbers of the text can tell."""

    def refuse(what: str, why: Optional[str]) -> None:
        if why:
            raise HullError(f"{one_line(text.name)} is of another {what} given: {why}")

    try:
        if case:
            refuse("case than the one", why_not_case(text, case, costs))
        if schedule:
            refuse("schedule than the one", why_not_plans(text, schedule))
        if schedule and case:
            refuse("schedule or case than the ones", why_not_both(text, schedule, case, costs))
        elif schedule and not isinstance(text, Fixed):
            refuse("schedule than the one", why_not_paid(text, schedule))
    except (IndexError, TypeError, ValueError):
        raise HullError(f"what is given beside {one_line(text.name)} is out of form: a list is too short") from None
