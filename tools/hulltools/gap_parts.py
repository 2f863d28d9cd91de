"""The gap of a price list in three parts: what a better schedule, nothing, and better prices would save."""
from dataclasses import dataclass
from typing import Optional

from .errors import HullError
from .numbers import Millionths, money


@dataclass(frozen=True)
class GapParts:
    """A schedule's cost less a list's dual value, in millionths.

    `schedule` is the cost less that of the best schedule known, None where only this one is. `duality` is the latter cost less the upper
    bound on the dual value: no whole prices within the limits of prices save it. `prices` is that bound less the list's value: no better prices save more. Without such a
    bound `duality` is None, and `prices` is all the rest.
    """

    schedule: Optional[Millionths]
    duality: Optional[Millionths]
    prices: Millionths

    @property
    def gap(self) -> Millionths:
        return Millionths((self.schedule or 0) + self.without_schedule)

    @property
    def without_schedule(self) -> Millionths:
        """What is left of the gap at the best schedule known."""
        return Millionths((self.duality or 0) + self.prices)

    def sentence(self, where: str, is_near: bool = True) -> str:
        """The three in one sentence; where the bound isn't near the best, the duality gap is at least what it says."""
        least, part = ("", "") if is_near else ("at least ", "a part of ")
        if self.duality is None:
            own = "" if self.schedule is None else f"{money(self.schedule)} is the schedule's part, and "
            return (
                f"{where} the gap is {money(self.gap)}: {own}no bound on the dual value says how much of the "
                f"{'rest' if own else 'gap'}{f', {money(self.prices)},' if own else ''} better prices might save."
            )
        if self.schedule is None:
            return (
                f"{where} the gap is {money(self.gap)}: no whole prices within the limits of prices save {money(self.duality)}, "
                f"{part}the schedule's part and the duality gap together, and at most {money(self.prices)} is the prices' part."
            )
        return (
            f"{where} the gap is {money(self.gap)}: {money(self.schedule)} is the schedule's part, {least}{money(self.duality)} is the duality gap, "
            f"which no whole prices within the limits of prices save, and at most {money(self.prices)} is the prices' part."
        )


def gap_parts(cost: int, value: int, bound: Optional[int], best_cost: Optional[int]) -> GapParts:
    """The parts of cost less value, by the upper bound on the dual value and the cost of the best schedule known.

    The cost of a feasible schedule is itself such a bound, so the lesser of the two is taken. No value is above its bound.
    """
    if bound is not None and bound < value:
        raise HullError(f"the dual value {money(value)} is above its bound {money(bound)}: they are of two cases")
    best = cost if best_cost is None else min(cost, best_cost)
    schedule = None if best_cost is None else Millionths(cost - best)
    if bound is None:
        return GapParts(schedule, None, Millionths(best - value))
    upper = min(bound, best)
    return GapParts(schedule, Millionths(best - upper), Millionths(upper - value))
