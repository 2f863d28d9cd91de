"""A mixture: weighted schedules of each thermal unit, and the bound that they prove."""
from __future__ import annotations

from collections.abc import Iterable, Sequence
from dataclasses import dataclass
from typing import TYPE_CHECKING, Any

from .cases import Case
from .json_texts import is_number, json_text, read_json, refused_as
from .numbers import is_whole, Millionths, PRICE_LIMIT
from .options import FieldsAlone
from .schedules import Fault, Plan, teller_of, thermal_plan
from .errors import HullError, Name, one_line, write_whole
from .prices import Prices

if TYPE_CHECKING:
    from .inputs import GivenCase

MOST_WEIGHT = 10**12


@dataclass
class Entry(FieldsAlone):
    """A schedule of a thermal unit, and its weight."""

    weight: int
    plan: Plan

    def as_json(self) -> dict[str, Any]:
        return {"weight": self.weight, "on": self.plan.on, "power": self.plan.power, "reserve": self.plan.reserve}


@dataclass(repr=False)
class Mixture(FieldsAlone):
    """For each thermal unit, by name, entries whose weights sum to `weight`."""

    weight: int
    thermal: dict[str, list[Entry]]

    def __repr__(self) -> str:
        entries = sum(map(len, self.thermal.values()))
        return f"<Mixture: weight={self.weight}, thermal={len(self.thermal)}, entries={entries}>"

    def text(self) -> str:
        """The file that `hull certify` reads."""
        thermal = {name: [entry.as_json() for entry in entries] for name, entries in self.thermal.items()}
        return json_text({"weight": self.weight, "thermal": thermal}) + "\n"

    def write(self, name: Name, inputs: Sequence[str] = ()) -> None:
        """Writes the file that `hull certify` reads."""
        write_whole(name, self.text(), inputs)

    def bound(self, case: Case, costs: Iterable[int], prices: Prices, radius: int = 2 * PRICE_LIMIT) -> Millionths:
        """No prices within the radius of these have a greater dual value, where each entry is a schedule that its unit can run.

        `costs` has the cost of each entry, in the units' order. The sum for each price is the greatest over the places where its
        slope changes.
        """
        total = sum(it.weight * cost for it, cost in zip(self.entries(case), costs))
        for t in range(case.periods):
            lack = self.weight * case.demand[t] - sum(it.weight * it.plan.power[t] for it in self.entries(case))
            short = self.weight * case.reserves[t] - sum(it.weight * it.plan.reserve[t] for it in self.entries(case))
            low, high = max(-PRICE_LIMIT, prices.energy[t] - radius), min(PRICE_LIMIT, prices.energy[t] + radius)
            total += max(at * lack - self.weight * flat_best(case, t, at) for at in turns(case, t, low, high))
            low, high = max(0, prices.reserve[t] - radius), min(PRICE_LIMIT, prices.reserve[t] + radius)
            total += max(low * short, high * short)
        return Millionths(total // self.weight)

    def entries(self, case: Case) -> list[Entry]:
        return [entry for it in case.thermal for entry in self.thermal[it.name]]


def flat_best(case: Case, t: int, at: int) -> int:
    """What renewable units and bids earn at best in a period at an energy price."""
    sold = sum(max(at * it.least[t], at * it.most[t]) for it in case.renewable)
    return sold + sum(width * max(0, price - at) for it in case.bids for width, price in it.blocks[t])


def turns(case: Case, t: int, low: int, high: int) -> set[int]:
    """The ends of the interval, and where within it what is earned changes its slope."""
    places = {0, *(price for it in case.bids for _, price in it.blocks[t])}
    return {low, high, *(it for it in places if low < it < high)}


def weight_of(value: Any, least: int, most: int, told: Fault) -> int:
    if not is_number(value) or not is_whole(value) or not least <= value <= most:
        raise told(f"weight is no whole number from {least} to {most:,}")
    return int(value)


def read_mixture(name: Name, case: GivenCase) -> Mixture:
    """The mixture of a file for a case: schedules of each thermal unit, in whole kilowatts, with weights that sum to the whole weight.

    The case is an object, a dict, or a file's name. Raises `HullError` where docs/FORMATS.md refuses its form. Whether a unit can run an entry is for `certify` to say.
    """
    from .inputs import as_case

    return mixture_of(name, read_json(name, "a mixture"), as_case(case))


@refused_as("mixture")
def mixture_of(name: Name, value: Any, case: Case) -> Mixture:
    """The mixture of a JSON value for a case."""
    if not isinstance(value, dict) or not isinstance(value.get("thermal"), dict):
        raise HullError(f"{name}: no mixture: it isn't an object with `weight` and the object `thermal`")
    weight = weight_of(value.get("weight"), 1, MOST_WEIGHT, lambda why: HullError(f"{name}: {why}"))
    names = {it.name for it in case.thermal}
    for unit_name in value["thermal"]:
        if unit_name not in names:
            raise HullError(f'{name}: the case has no thermal unit "{one_line(unit_name)}"')
    thermal = {}
    for unit in case.thermal:
        told = teller_of(name, "thermal unit", unit)
        rows = value["thermal"].get(unit.name)
        if not isinstance(rows, list) or not rows or not all(isinstance(row, dict) for row in rows):
            raise told("has no list of entries")
        entries = []
        for row in rows:
            plan = thermal_plan(row, case.periods, told)
            entries.append(Entry(weight_of(row.get("weight"), 0, weight, told), plan))
        if sum(entry.weight for entry in entries) != weight:
            raise told(f"the weights don't sum to {weight}")
        thermal[unit.name] = entries
    return Mixture(weight, thermal)
