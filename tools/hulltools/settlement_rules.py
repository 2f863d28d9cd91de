"""What a market pays of what each unit is owed, what consumers pay for it, and which losses nobody makes good."""
from dataclasses import dataclass
from typing import Dict, List

from .cases import Case, Thermal, Unit
from .cash_flows import UnitFlows, by_kind, total
from .numbers import Millionths
from .outputs import Owed, Settlement

RULES = {  # by name: what units are paid beside energy and reserve
    "make-whole": "make-whole alone",
    "full": "make-whole and lost opportunity",
}


def paid(owed: Owed, rule: str) -> Millionths:
    """What a unit is paid under a rule."""
    return owed.make_whole if rule == "make-whole" else owed.payment


def paid_by_kind(units: List[Owed], rule: str) -> Dict[str, Millionths]:
    return by_kind(units, lambda unit: paid(unit, rule))


@dataclass(frozen=True)
class Bill:
    """What consumers pay: demand at the energy prices, the required reserve, and uplift, which is payments and surplus.

    `received` is what units get, less what buyers pay for their energy. What is left over is 0: with surplus reserve charged as uplift,
    the money that comes in is the money that goes out.
    """

    energy: Millionths
    reserve: Millionths
    payments: Millionths
    surplus: Millionths
    received: Millionths

    @property
    def uplift(self) -> Millionths:
        return Millionths(self.payments + self.surplus)

    @property
    def total(self) -> Millionths:
        return Millionths(self.energy + self.reserve + self.uplift)

    @property
    def left(self) -> Millionths:
        return Millionths(self.total - self.received)


def bill(case: Case, settlement: Settlement, flows: List[UnitFlows], rule: str) -> Bill:
    """The consumers' bill for the schedule at a list's prices."""
    row, payments = settlement.best, Millionths(sum(paid(unit, rule) for unit in settlement.units))
    revenue = total([flow for unit in flows for flow in unit.scheduled])
    return Bill(
        Millionths(sum(price * demand for price, demand in zip(row.energy, case.demand))),
        Millionths(sum(price * due for price, due in zip(row.reserve, case.reserves))),
        payments,
        settlement.surplus,
        Millionths(revenue.energy + revenue.reserve + payments),
    )


def forced_loss(owed: Owed) -> Millionths:
    """The loss that a unit can't avoid at the prices, whatever it does within its rules. It is no part of the payment."""
    return Millionths(max(0, -owed.earned))


def is_held_on(unit: Thermal) -> bool:
    """Whether the state before period 1 leaves a unit no choice but to be on in period 1."""
    return bool(unit.on0) and unit.min_up > unit.up0 or unit.is_too_high_to_stop


def reason_of_loss(unit: Unit) -> str:
    """Which rules leave the unit no choice but the loss."""
    if not isinstance(unit, Thermal):
        return "least power"
    reasons = ["must_run"] * bool(unit.must_run) + ["commitment"] * any(mark == 1 for mark in unit.marks)
    # (a unit that must run is on in any case; one that is committed may lose before that, by its state)
    if not reasons or (not unit.must_run and is_held_on(unit)):
        reasons.append("state before period 1")
    return " and ".join(reasons)


@dataclass(frozen=True)
class ForcedLoss:
    """A unit's loss in the schedule: the forced part, and the part that its make-whole payment makes good."""

    kind: str
    name: str
    reason: str
    forced: Millionths
    made_whole: Millionths


def forced_losses(case: Case, units: List[Owed]) -> List[ForcedLoss]:
    return [
        ForcedLoss(kind, unit.name, reason_of_loss(unit), forced_loss(owed), owed.make_whole)
        for owed, (kind, unit) in zip(units, case.units)
        if forced_loss(owed)
    ]
