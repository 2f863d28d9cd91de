"""A plain program for tiny cases: it lists every schedule of a unit and says what each earns.

It shares nothing with the program but the rules of docs/FORMATS.md and docs/DEFINITIONS.md. Powers are whole kilowatts, money
is in millionths, a price in millionths per kilowatt and period. A schedule is a tuple of (on, power, reserve), one a period.
"""
from __future__ import annotations

import itertools
import json
from collections.abc import Iterable, Iterator, Sequence
from random import Random
from typing import Any, Union

LARGEST_PRICE = 10_000_000
Period = tuple[bool, int, int]  # on, power, reserve
Schedule = tuple[Period, ...]


class Thermal:
    kind = "thermal"
    least: int
    most: int
    must_run: bool
    ramp_up: int
    ramp_down: int
    start_limit: int
    stop_limit: int
    min_up: int
    min_down: int
    on0: bool
    power0: int
    up0: int
    down0: int
    lags: list[tuple[int, int]]
    points: list[tuple[int, int]]
    window: list[int | None]

    def __init__(self, numbers: dict[str, Any], periods: int) -> None:
        self.__dict__.update(numbers)
        self.periods = periods
        self.cost_at = {x: self.envelope(x) for x in range(self.least, self.most + 1)}
        self.schedules = [(it, self.cost(it)) for it in self.all_schedules() if self.is_feasible(it)]

    def envelope(self, power: int) -> int:
        """The greatest over whole prices of the least over the points; costs are small, so few prices have to be tried."""
        return max(min(cost + price * (power - at) for at, cost in self.points) for price in range(-200, 201))

    def all_schedules(self) -> Iterator[Schedule]:
        room = self.most - self.least
        choices: list[Period] = [(False, 0, 0)] + [
            (True, self.least + above, reserve) for above in range(room + 1) for reserve in range(room + 1 - above)
        ]
        return itertools.product(choices, repeat=self.periods)

    def is_feasible(self, schedule: Schedule) -> bool:
        return self.commitment_is_right([it[0] for it in schedule]) and self.dispatch_is_right(schedule)

    def commitment_is_right(self, on: list[bool]) -> bool:
        last = self.periods
        before = [self.on0] + on
        if self.must_run and not all(on):
            return False
        held = max(0, min((self.min_up - self.up0) if self.on0 else (self.min_down - self.down0), last))
        if any(it != self.on0 for it in on[:held]):
            return False
        for at in range(1, last + 1):
            if before[at] != before[at - 1]:
                stays = self.min_up if before[at] else self.min_down
                if any(before[t] != before[at] for t in range(at, min(at + stays - 1, last) + 1)):
                    return False
        return all(mark is None or on[at] == bool(mark) for at, mark in enumerate(self.window))

    def dispatch_is_right(self, schedule: Schedule) -> bool:
        level = self.power0 - self.least if self.on0 else 0
        was_on = self.on0
        for at, (on, power, reserve) in enumerate(schedule):
            above = power - self.least if on else 0
            if on and not was_on and above + reserve > min(self.start_limit, self.most) - self.least:
                return False
            stops = at + 1 < self.periods and on and not schedule[at + 1][0]
            if stops and above + reserve > min(self.stop_limit, self.most) - self.least:
                return False
            if at == 0 and was_on and not on and self.power0 > min(self.stop_limit, self.most):
                return False
            if above + reserve - level > self.ramp_up or level - above > self.ramp_down:
                return False
            level, was_on = above, on
        return True

    def cost(self, schedule: Schedule) -> int:
        total, was_on, down = 0, self.on0, self.down0
        for on, power, _ in schedule:
            if on:
                total += self.cost_at[power]
                if not was_on and self.lags:
                    total += ([self.lags[0][1]] + [cost for lag, cost in self.lags if lag <= down])[-1]
            down = 0 if on else (down + 1 if not was_on or down else 1)
            was_on = on
        return total

    def as_json(self) -> dict[str, Any]:
        return {
            "must_run": int(self.must_run),
            "power_output_minimum": megawatts(self.least),
            "power_output_maximum": megawatts(self.most),
            "ramp_up_limit": megawatts(self.ramp_up),
            "ramp_down_limit": megawatts(self.ramp_down),
            "ramp_startup_limit": megawatts(self.start_limit),
            "ramp_shutdown_limit": megawatts(self.stop_limit),
            "time_up_minimum": self.min_up,
            "time_down_minimum": self.min_down,
            "power_output_t0": megawatts(self.power0),
            "unit_on_t0": int(self.on0),
            "time_up_t0": self.up0,
            "time_down_t0": self.down0,
            "startup": [{"lag": lag, "cost": money(cost)} for lag, cost in self.lags],
            "piecewise_production": [{"mw": megawatts(at), "cost": money(cost)} for at, cost in self.points],
            "commitment": self.window,
        }


class Renewable:
    kind = "renewable"

    def __init__(self, least: list[int], most: list[int]) -> None:
        self.least, self.most = least, most
        ranges = [range(low, high + 1) for low, high in zip(least, most)]
        self.schedules: list[tuple[Schedule, int]] = [
            (tuple((True, x, 0) for x in powers), 0) for powers in itertools.product(*ranges)
        ]

    def as_json(self) -> dict[str, Any]:
        return {
            "power_output_minimum": [megawatts(it) for it in self.least],
            "power_output_maximum": [megawatts(it) for it in self.most],
        }


class Bid:
    kind = "bid"

    def __init__(self, blocks: list[list[tuple[int, int]]]) -> None:
        self.blocks = blocks
        kilowatts = [[price for width, price in period for _ in range(width)] for period in blocks]
        ranges = [range(len(it) + 1) for it in kilowatts]
        self.schedules: list[tuple[Schedule, int]] = [
            (
                tuple((True, x, 0) for x in powers),
                -sum(sum(prices[:x]) for prices, x in zip(kilowatts, powers)),
            )
            for powers in itertools.product(*ranges)
        ]

    def as_json(self) -> dict[str, Any]:
        return {
            "blocks": [
                [{"mw": megawatts(width), "price": megawatts(price)} for width, price in period]
                for period in self.blocks
            ]
        }


Unit = Union[Thermal, Renewable, Bid]


class Case:
    """Units in the report's order, demand and reserves of each period, and a feasible schedule for each unit."""

    def __init__(self, units: list[Unit], draw: Random) -> None:
        self.units = units
        self.plan: list[tuple[Schedule, int]] = [draw.choice(unit.schedules) for unit in units]
        self.periods = len(self.plan[0][0])
        self.demand, reserve = self.totals([schedule for schedule, _ in self.plan])
        self.reserves = [draw.randint(0, it) for it in reserve]
        self.cost = sum(cost for _, cost in self.plan)

    def totals(self, schedules: Iterable[Schedule]) -> tuple[list[int], list[int]]:
        supply, reserve = [0] * self.periods, [0] * self.periods
        for unit, schedule in zip(self.units, schedules):
            for at, (_, power, spare) in enumerate(schedule):
                supply[at] += -power if unit.kind == "bid" else power
                reserve[at] += spare
        return supply, reserve

    def names(self, kind: str) -> list[tuple[str, Any]]:
        return [(f"{kind}{at}", it) for at, it in enumerate(self.units) if it.kind == kind]

    def is_meetable(self) -> bool:
        return all(it >= 0 for it in self.demand)

    def dual_value(self, energy: Sequence[int], reserve: Sequence[int]) -> int:
        paid = sum(price * due for price, due in zip(energy, self.demand))
        paid += sum(price * due for price, due in zip(reserve, self.reserves))
        return paid - sum(top(unit, energy, reserve) for unit in self.units)

    def write(self, folder: str) -> None:
        case = {
            "time_periods": self.periods,
            "demand": [megawatts(it) for it in self.demand],
            "reserves": [megawatts(it) for it in self.reserves],
            "thermal_generators": {name: it.as_json() for name, it in self.names("thermal")},
            "renewable_generators": {name: it.as_json() for name, it in self.names("renewable")},
        }
        if self.names("bid"):
            case["demand_bids"] = {name: it.as_json() for name, it in self.names("bid")}
        plan: dict[str, dict[str, Any]] = {"thermal": {}, "renewable": {}}
        if self.names("bid"):
            plan["bids"] = {}
        for at, (unit, (schedule, _)) in enumerate(zip(self.units, self.plan)):
            powers = [power for _, power, _ in schedule]
            lists = {"on": [int(on) for on, _, _ in schedule], "power": powers, "reserve": [it[2] for it in schedule]}
            part = plan["bids" if unit.kind == "bid" else unit.kind]
            part[f"{unit.kind}{at}"] = lists if unit.kind == "thermal" else powers
        for name, content in (("case", case), ("schedule", plan)):
            with open(f"{folder}/{name}.json", "w", encoding="utf-8") as file:
                json.dump(content, file)


def megawatts(kilowatts: int) -> float:
    return kilowatts / 1000


def money(millionths: int) -> float:
    return millionths / 1_000_000


def earnings(unit: Unit, schedule: Schedule, cost: int, energy: Sequence[int], reserve: Sequence[int]) -> int:
    sign = -1 if unit.kind == "bid" else 1
    sold = sum(sign * price * it[1] for price, it in zip(energy, schedule))
    return sold + sum(price * it[2] for price, it in zip(reserve, schedule)) - cost


def top(unit: Unit, energy: Sequence[int], reserve: Sequence[int]) -> int:
    return max(earnings(unit, schedule, cost, energy, reserve) for schedule, cost in unit.schedules)


def least_best(unit: Unit, energy: Sequence[int], reserve: Sequence[int]) -> Schedule:
    """The first of the best schedules: on flags are compared first, then powers, then reserves, from the last period back."""
    best = top(unit, energy, reserve)
    ties = [it for it, cost in unit.schedules if earnings(unit, it, cost, energy, reserve) == best]
    return min(ties, key=lambda it: [[period[which] for period in reversed(it)] for which in range(3)])


def draw_thermal(draw: Random, periods: int) -> Thermal:
    while True:
        least = draw.randint(0, 3)
        most = least + draw.randint(0, 3)
        middle = sorted(draw.sample(range(least + 1, most), draw.randint(0, min(1, max(0, most - least - 1)))))
        at = [least] + middle + ([most] if most > least else [])
        costs = sorted(draw.randint(0, 90) for _ in at)
        on0 = draw.random() < 0.5
        lags = sorted(draw.sample(range(1, 5), draw.randint(0, 2)))
        unit = Thermal(
            {
                "least": least,
                "most": most,
                "must_run": draw.random() < 0.1,
                "ramp_up": draw.randint(1, 4),
                "ramp_down": draw.randint(1, 4),
                "start_limit": draw.randint(least, most + 1),
                "stop_limit": draw.randint(least, most + 1),
                "min_up": draw.randint(1, 2),
                "min_down": draw.randint(1, 2),
                "on0": on0,
                "power0": draw.randint(least, most) if on0 else 0,
                "up0": draw.randint(1, 3) if on0 else 0,
                "down0": 0 if on0 else draw.randint(1, 3),
                "lags": [(lag, draw.randint(0, 60)) for lag in lags],
                "points": list(zip(at, costs)),
                "window": [draw.choice([None, None, None, None, 0, 1]) for _ in range(periods)],
            },
            periods,
        )
        if unit.schedules:
            return unit


def draw_case(draw: Random) -> Case:
    while True:
        periods = draw.choice([1, 2, 2, 3])
        units: list[Unit] = [draw_thermal(draw, periods) for _ in range(draw.randint(1, 3))]
        if draw.random() < 0.5:
            least = [draw.randint(0, 2) for _ in range(periods)]
            units.append(Renewable(least, [it + draw.randint(0, 3) for it in least]))
        if draw.random() < 0.5:
            blocks = [sorted(((draw.randint(0, 2), draw.randint(0, 50)) for _ in range(2)), key=lambda it: -it[1])]
            units.append(Bid(blocks * periods))
        case = Case(units, draw)
        if case.is_meetable():
            return case
