"""Whole kilowatts near a solver's megawatts that keep every rule of the case and balance exactly."""
from __future__ import annotations

from dataclasses import dataclass
from typing import Any, Dict, List, Optional, Sequence, Tuple

from .cases import Case, Thermal
from .commitment import Flags, cost_blocks
from .errors import HullError
from .linear import INFINITY, Program, Term, was_cut_by_the_clock
from .progress import turn_to

NEAR = (3, 30, 3000)  # how many kilowatts the whole numbers may be from the solver's: tried in this order
NODES, SECONDS = 1000, 600.0  # after how many nodes what was found is taken, and after which time nothing is

Powers = Dict[Tuple[str, int], List[float]]  # in megawatts by period, by kind and place of the unit
Lists = List[List[List[int]]]  # in kilowatts by period: of thermal units, of renewable units and of bids
SLACK = 1e-3  # by how many kilowatts, in sum, a nearest solution may be farther than the nearest: what the solver doesn't tell apart


@dataclass
class Whole:
    """A whole number near one of the solver's: where the search begins, how far it goes from there, and its limit."""

    at: int
    column: int
    most: int


class Rounding:
    """The search for whole numbers of least cost; where `wanted` is given, of those that are nearest to it.

    `wanted` and the solver's powers are in megawatts: lists over the periods by (kind, place of the unit).
    """

    def __init__(self, case: Case, flags: Flags, found: Powers, near: int, wanted: Optional[Powers] = None) -> None:
        self.case, self.near, self.wanted, self.program = case, near, wanted or {}, Program()
        self.distances: List[int] = []  # columns, in kilowatts
        self.sums: List[List[Term]] = [[] for _ in range(case.periods)]
        self.totals = [0] * case.periods
        self.spare: List[List[Term]] = [[] for _ in range(case.periods)]
        self.powers = [self.unit_powers(i, unit, flags[i], found) for i, unit in enumerate(case.thermal)]
        every = range(case.periods)
        self.renewable = [
            [self.whole(("renewable", i), found, unit.least[t], unit.most[t], t) for t in every]
            for i, unit in enumerate(case.renewable)
        ]
        self.bids = [
            [self.whole(("bid", i), found, 0, sum(w for w, _ in bid.blocks[t]), t, -1) for t in every]
            for i, bid in enumerate(case.bids)
        ]
        for unit, row in zip(case.thermal, self.powers):
            for t in every:
                self.ramps(unit, row, t)
        self.balance()

    def balance(self) -> None:
        for t, demand in enumerate(self.case.demand):
            self.program.row(self.sums[t], demand - self.totals[t], demand - self.totals[t])
            if self.case.reserves[t]:
                self.program.row(self.spare[t], self.case.reserves[t], INFINITY)

    def whole(self, key: Tuple[str, int], found: Powers, low: int, high: int, t: int, sign: int = 1) -> Whole:
        """A number of period t from low to high, which counts in the balance."""
        at = min(max(round(found[key][t] * 1e3), low), high)
        column = self.program.variable(max(low - at, -self.near), min(high - at, self.near), 0.0, True)
        self.sums[t].append((column, sign))
        self.totals[t] += sign * at
        self.cost_lines(column, self.lines_of(key, at, t))
        if key in self.wanted:
            off = at - self.wanted[key][t] * 1e3
            self.distances.append(self.greatest(column, [(1.0, off), (-1.0, -off)], 0.0))
        return Whole(at, column, high)

    def lines_of(self, key: Tuple[str, int], at: int, t: int) -> List[Tuple[float, float]]:
        """Lines (slope, cost at 0) whose greatest is the cost of so many kilowatts more, in the currency."""
        kind, place = key
        if kind == "renewable":
            return []
        if kind == "bid":
            slopes: Sequence[Tuple[int, float]] = [(width, -slope) for width, slope in self.case.bids[place].blocks[t]]
            start = 0
        else:
            unit = self.case.thermal[place]
            slopes, start = cost_blocks(unit)[1], unit.least
        lines: List[Tuple[float, float]] = []
        cost = 0.0
        for width, slope in slopes:
            if start + width >= at - self.near and start <= at + self.near:
                lines.append((slope / 1e6, (cost + slope * (at - start)) / 1e6))
            cost, start = cost + slope * width, start + width
        base = max((it[1] for it in lines), default=0.0)
        return [(slope, more - base) for slope, more in lines]

    def cost_lines(self, column: int, lines: List[Tuple[float, float]]) -> None:
        """Adds the greatest of the lines at the column's value to the cost."""
        if len(lines) == 1:
            self.program.cost[column] += lines[0][0]
        elif lines:
            self.greatest(column, lines, 1.0)

    def greatest(self, column: int, lines: List[Tuple[float, float]], cost: float) -> int:
        """A variable of this cost that is at least each of the lines at the column's value."""
        found = self.program.variable(-INFINITY, INFINITY, cost)
        for slope, at in lines:
            self.program.row([(found, 1), (column, -slope)], at, INFINITY)
        return found

    def unit_powers(self, place: int, unit: Thermal, on: List[int], found: Powers) -> List[Optional[Whole]]:
        """A number for each on period of a unit, and None for the others."""
        row: List[Optional[Whole]] = []
        for t, now in enumerate(on):
            starts = now and not (on[t - 1] if t else unit.on0)
            stops = now and t + 1 < len(on) and not on[t + 1]
            most = min(unit.most, unit.start_cap if starts else unit.most, unit.stop_cap if stops else unit.most)
            row.append(self.whole(("thermal", place), found, unit.least, most, t) if now else None)
        return row

    def ramps(self, unit: Thermal, row: List[Optional[Whole]], t: int) -> None:
        """The ramps into period t, and what reserve they and the unit's limits leave there."""
        now, before = row[t], row[t - 1] if t else None
        above = now.at - unit.least if now else 0
        was = (before.at - unit.least if before else 0) if t else unit.above0
        rise: List[Term] = [(now.column, 1)] if now else []
        if before:
            rise.append((before.column, -1))
        if rise:
            self.program.at_most(rise, unit.ramp_up - above + was)
            self.program.at_most([(column, -sign) for column, sign in rise], unit.ramp_down - was + above)
        if now and self.case.reserves[t]:
            reserve = self.program.variable(0, unit.most)
            self.program.at_most([(reserve, 1), (now.column, 1)], now.most - now.at)
            self.program.at_most([(reserve, 1), *rise], unit.ramp_up - above + was)
            self.spare[t].append((reserve, 1))

    def solved(self) -> Any:
        """The solver's answer, which doesn't depend on the clock, or else is refused."""
        found = self.program.solve(node_limit=NODES, time_limit=SECONDS, mip_rel_gap=1e-8)
        if was_cut_by_the_clock(found):
            raise HullError(f"no whole kilowatts were found in {SECONDS:g} s")
        return found

    def hold_near(self) -> Any:
        """Bars what isn't nearest to the wanted powers; a nearest solution, or None where none was found."""
        cost, near = self.program.cost, set(self.distances)
        self.program.cost = [float(it in near) for it in range(len(cost))]
        found = self.solved()
        self.program.cost = cost
        if found.x is not None:
            self.program.at_most([(it, 1) for it in near], found.fun + SLACK)
        return found.x

    def solve(self, base: float) -> Optional[Lists]:
        """The powers of thermal units, renewable units and bids, or None where none were found. `base` is what all costs by itself."""
        self.program.variable(1, 1, max(abs(base), 1.0))  # (so that a gap is a share of the whole cost)
        nearest = self.hold_near() if self.distances else None
        solved = self.solved().x
        solved = nearest if solved is None else solved
        if solved is None:
            return None
        groups: Tuple[Sequence[Sequence[Optional[Whole]]], ...] = (self.powers, self.renewable, self.bids)
        return [[[number_of(it, solved) for it in row] for row in rows] for rows in groups]


def number_of(whole: Optional[Whole], solved: Sequence[float]) -> int:
    return whole.at + int(round(solved[whole.column])) if whole else 0


def whole_powers(
    case: Case, flags: Flags, found: Powers, base: float, wanted: Optional[Powers] = None
) -> Optional[Lists]:
    """Whole kilowatts near the solver's powers: as near as can be had."""
    turn_to("looking for whole kilowatts")
    for near in NEAR:
        lists = Rounding(case, flags, found, near, wanted).solve(base)
        if lists is not None:
            return lists
    return None


def can_keep(case: Case, unit: Thermal, on: List[int], row: List[int], t: int) -> int:
    """The most that a unit can keep in reserve in a period."""
    was_on = on[t - 1] if t else unit.on0
    before = (row[t - 1] - unit.least * on[t - 1]) if t else unit.above0
    cap = unit.most if was_on else unit.start_cap
    cap = min(cap, unit.stop_cap) if t + 1 < case.periods and not on[t + 1] else cap
    return max(0, min(cap - row[t], unit.ramp_up + before - (row[t] - unit.least))) if on[t] else 0


def reserves_of(
    case: Case, flags: Flags, powers: List[List[int]], wanted: Optional[Dict[int, List[float]]] = None
) -> List[List[int]]:
    """The reserve of each unit: what is wanted of it as far as it can, and then the requirement from the first unit on."""
    left: List[int] = list(case.reserves)
    lists: List[List[int]] = []
    for place, (unit, on, row) in enumerate(zip(case.thermal, flags, powers)):
        due = (wanted or {}).get(place, [0.0] * case.periods)
        can = [can_keep(case, unit, on, row, t) for t in range(case.periods)]
        lists.append([min(can[t], int(due[t] * 1e3 + 0.5)) for t in range(case.periods)])
        left = [it - kept for it, kept in zip(left, lists[-1])]
    for place, (unit, on, row) in enumerate(zip(case.thermal, flags, powers)):
        for t in range(case.periods):
            more = max(0, min(can_keep(case, unit, on, row, t) - lists[place][t], left[t]))
            lists[place][t] += more
            left[t] -= more
    return lists
