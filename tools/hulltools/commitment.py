"""The unit commitment problem of a case as a mixed integer program: powers in megawatts, money in the currency.

It is the three-variable form that pglib-uc has: on, start and stop of each unit and period, power above the least one, reserve.
Between cost points it takes straight lines, where `hull` takes the whole-price envelope, which may be lower by a trifle.
"""
from __future__ import annotations

from typing import List, Optional, Sequence, Tuple

from .cases import Case, Thermal
from .costs import lower_hull
from .linear import INFINITY, Program, Term

Flags = List[List[int]]  # of each thermal unit in the case's order, by period


def cost_blocks(unit: Thermal) -> Tuple[float, List[Tuple[int, float]]]:
    """The cost at the least power, and (kilowatts, cost of one) from there to the greatest."""
    corners = lower_hull(unit.points)
    blocks: List[Tuple[int, float]] = []
    least_cost = float(corners[0][1])
    for (a, cost_a), (b, cost_b) in zip(corners, corners[1:]):
        slope = (cost_b - cost_a) / (b - a)
        least_cost += slope * max(0, min(b, unit.least) - a)
        if min(b, unit.most) > max(a, unit.least):
            blocks.append((min(b, unit.most) - max(a, unit.least), slope))
    return least_cost, blocks


class Unit:
    """A thermal unit's variables: on, start, stop, power above the least one, reserve."""

    def __init__(self, program: Program, unit: Thermal, periods: int, with_reserve: bool) -> None:
        self.unit, self.program, self.periods = unit, program, periods
        low, high = unit.on_bounds()
        least_cost, self.blocks = cost_blocks(unit)
        every, room = range(periods), (unit.most - unit.least) / 1e3
        self.on = [program.variable(low[t], high[t], least_cost / 1e6, True) for t in every]
        # (these are 0 or 1 where the on flags are; a limit below the least power bars the start or stop)
        self.start = [program.variable(0, int(unit.start_cap >= unit.least)) for _ in every]
        self.stop = [program.variable(0, int(unit.stop_cap >= unit.least or t == 0)) for t in every]
        self.power = [program.variable(0, room) for _ in every]
        self.reserve = [program.variable(0, room if with_reserve else 0) for _ in every]
        self.commitment()
        self.start_costs()
        self.dispatch(room)

    def commitment(self) -> None:
        row, unit = self.program.row, self.unit
        for t in range(self.periods):
            before: List[Term] = [(self.on[t - 1], -1)] if t else []
            same = 0 if t else unit.on0
            row([(self.on[t], 1), *before, (self.start[t], -1), (self.stop[t], 1)], same, same)
            started = ((self.start[i], 1) for i in range(max(0, t - unit.min_up + 1), t + 1))
            row([*started, (self.on[t], -1)], -INFINITY, 0)
            stopped = ((self.stop[i], 1) for i in range(max(0, t - unit.min_down + 1), t + 1))
            row([*stopped, (self.on[t], 1)], -INFINITY, 1)

    def start_costs(self) -> None:
        """A start takes one lag of the list, and only one that goes with how long the unit was off, where another would be cheaper."""
        lags = self.unit.lags
        for t in range(self.periods if lags else 0):
            kinds = [self.program.variable(0, 1, cost / 1e6) for _, cost in lags]
            self.program.row([(self.start[t], 1), *((it, -1) for it in kinds)], 0, 0)
            for i, kind in enumerate(kinds):
                if i + 1 < len(kinds):
                    self.bar_early_lag(t, i, kind)
                if any(cost > lags[i][1] for _, cost in lags[:i]):
                    self.bar_late_lag(t, lags[i][0], kind)

    def bar_early_lag(self, t: int, i: int, kind: int) -> None:
        """It needs a stop, or a time off before period 1, from its lag up to the next one before the start."""
        unit = self.unit
        first, after = (0 if i == 0 else unit.lags[i][0]), unit.lags[i + 1][0]
        stops = [(self.stop[t - down], -1) for down in range(max(first, 1), min(after, t + 1))]
        self.program.at_most([(kind, 1), *stops], int(not unit.on0 and first <= unit.down0 + t < after))

    def bar_late_lag(self, t: int, lag: int, kind: int) -> None:
        """It needs the unit off for all of its lag before the start."""
        unit = self.unit
        if lag > t and (unit.on0 or unit.down0 + t < lag):
            self.program.high[kind] = 0
            return
        for before in range(max(0, t - lag), t):
            self.program.at_most([(kind, 1), (self.on[before], 1)], 1)

    def dispatch(self, room: float) -> None:
        unit, at_most = self.unit, self.program.at_most
        for t in range(self.periods):
            both: List[Term] = [(self.power[t], 1), (self.reserve[t], 1)]
            for more in self.caps(t):
                at_most([*both, (self.on[t], -room), *more], 0)
            before: List[Term] = [(self.power[t - 1], 1)] if t else []
            at0 = 0.0 if t else unit.above0 / 1e3
            at_most([*both, *((it, -one) for it, one in before)], unit.ramp_up / 1e3 + at0)
            at_most([(self.power[t], -1), *before], unit.ramp_down / 1e3 - at0)
            self.produce(t)

    def caps(self, t: int) -> List[List[Term]]:
        """What a start in period t and a stop behind it take of the room, in one row or in two."""
        unit = self.unit
        starts: Term = (self.start[t], (unit.most - max(unit.start_cap, unit.least)) / 1e3)
        if t + 1 == self.periods:
            return [[starts]]
        stops: Term = (self.stop[t + 1], (unit.most - max(unit.stop_cap, unit.least)) / 1e3)
        # (where it has to stay on for longer, a period can't be the first and the last one)
        return [[starts, stops]] if unit.min_up > 1 else [[starts], [stops]]

    def produce(self, t: int) -> None:
        """Power is the sum of blocks, each with its cost."""
        blocks = [self.program.variable(0, width / 1e3, slope / 1e3) for width, slope in self.blocks]
        self.program.row([(self.power[t], 1), *((it, -1) for it in blocks)], 0, 0)
        for block, (width, _) in zip(blocks, self.blocks):
            self.program.at_most([(block, 1), (self.on[t], -width / 1e3)], 0)


class Commitment:
    """The whole program of a case. `balance` and `reserve` are the numbers of these rows, the latter None where none is required."""

    def __init__(self, case: Case) -> None:
        self.case, self.program = case, Program()
        variable, periods = self.program.variable, range(case.periods)
        self.units = [Unit(self.program, it, case.periods, any(case.reserves)) for it in case.thermal]
        self.renewable = [[variable(it.least[t] / 1e3, it.most[t] / 1e3) for t in periods] for it in case.renewable]
        self.bids = [
            [[variable(0, width / 1e3, -price / 1e3) for width, price in bid.blocks[t]] for t in periods]
            for bid in case.bids
        ]
        self.balance = [self.balance_in(t) for t in periods]
        self.reserve = [self.reserve_in(t) for t in periods]

    def balance_in(self, t: int) -> int:
        gives: List[Term] = [term for it in self.units for term in ((it.on[t], it.unit.least / 1e3), (it.power[t], 1))]
        buys: List[Term] = [(block, -1) for bid in self.bids for block in bid[t]]
        demand = self.case.demand[t] / 1e3
        return self.program.row([*gives, *((it[t], 1) for it in self.renewable), *buys], demand, demand)

    def reserve_in(self, t: int) -> Optional[int]:
        if not self.case.reserves[t]:
            return None
        return self.program.row([(it.reserve[t], 1) for it in self.units], self.case.reserves[t] / 1e3, INFINITY)

    def flags(self, found: Sequence[float]) -> Flags:
        """The on flags that the solver found."""
        return [[round(found[column]) for column in it.on] for it in self.units]

    def fix(self, flags: Flags, held: Optional[List[bool]] = None) -> None:
        """Holds units on or off by these flags: each, or those for which `held` says so."""
        for unit, on, is_held in zip(self.units, flags, held or [True] * len(flags)):
            if is_held:
                self.fix_unit(unit, on)

    def fix_unit(self, unit: Unit, on: List[int]) -> None:
        before = unit.unit.on0
        for t, now in enumerate(on):
            ones = ((unit.on[t], now), (unit.start[t], now > before), (unit.stop[t], now < before))
            for column, is_one in ones:
                self.program.low[column] = self.program.high[column] = int(is_one)
            before = now

    def prices(self, duals: Sequence[float]) -> Tuple[List[float], List[float]]:
        """Energy and reserve prices, in currency per MW and period, that the duals of the rows are."""
        return (
            [duals[it] for it in self.balance],
            [0.0 if it is None else max(0.0, duals[it]) for it in self.reserve],
        )
