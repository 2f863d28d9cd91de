"""The least cost of tiny cases by a search over all on flags, with a rule for start costs of its own; powers are whole megawatts.

Ramps and limits don't bind in these cases, so each period is dispatched by itself: the cheapest megawatt first.
"""
from __future__ import annotations

import itertools
import random
from typing import Any

PERIODS = 5
Flags = tuple[int, ...]


def draw_unit(draw: random.Random) -> dict[str, Any]:
    """A unit whose starts cost less after a longer time off, or now and then more. Each other one is a block: all of its power, or none."""
    least, on0 = draw.randint(0, 4), draw.randint(0, 1)
    most = max(1, least + draw.choice([0, draw.randint(1, 6)]))
    slope, idle = draw.randint(1, 30), draw.randint(0, 60)
    lags = sorted(draw.choices(range(7), k=draw.randint(1, 3)))
    costs = sorted((draw.choice([0, 5, 50, 400, 3000]) for _ in lags), reverse=draw.random() < 0.8)
    return {
        "must_run": int(draw.random() < 0.05),
        "power_output_minimum": least,
        "power_output_maximum": most,
        **{f"ramp_{it}_limit": 1000 for it in ("up", "down", "startup", "shutdown")},
        "time_up_minimum": draw.randint(1, 2),
        "time_down_minimum": draw.randint(1, 2),
        "power_output_t0": least * on0,
        "unit_on_t0": on0,
        "time_up_t0": draw.randint(1, 3) * on0,
        "time_down_t0": draw.randint(0, 4) * (1 - on0),
        "startup": [{"lag": lag, "cost": cost} for lag, cost in zip(lags, costs)],
        "piecewise_production": [{"mw": at, "cost": idle + slope * at} for at in sorted({least, most})],
    }


def draw_case(draw: random.Random) -> dict[str, Any]:
    units = {f"G{i}": draw_unit(draw) for i in range(draw.randint(1, 2))}
    most = sum(it["power_output_maximum"] for it in units.values())
    wind = {"power_output_minimum": [0] * PERIODS, "power_output_maximum": [draw.randint(0, 3)] * PERIODS}
    return {
        "time_periods": PERIODS,
        "demand": [draw.choice([0, 1, draw.randint(0, most)]) for _ in range(PERIODS)],
        "reserves": [0] * PERIODS,
        "thermal_generators": units,
        "renewable_generators": {"W1": wind},
    }


def start_cost(unit: dict[str, Any], down: int) -> int:
    costs = [it["cost"] for it in unit["startup"]]
    return costs[max(0, sum(it["lag"] <= down for it in unit["startup"]) - 1)]


def commitment_cost(unit: dict[str, Any], flags: Flags) -> int | None:
    """What the starts of these flags cost; None where a rule bars the flags."""
    if unit["must_run"] and not all(flags):
        return None
    on, cost = unit["unit_on_t0"], 0
    length = unit["time_up_t0"] if on else unit["time_down_t0"]
    for flag in flags:
        if flag == on:
            length += 1
            continue
        if length < unit["time_up_minimum" if on else "time_down_minimum"]:
            return None
        if flag:
            cost += start_cost(unit, length)
        on, length = flag, 1
    return cost


def dispatch_cost(case: dict[str, Any], period: int, on: Flags) -> float:
    """The least cost of a period with the units that are on; infinite where they can't meet it."""
    demand, blocks, cost = (
        case["demand"][period],
        [(0, case["renewable_generators"]["W1"]["power_output_maximum"][period])],
        0,
    )
    for unit, flag in zip(case["thermal_generators"].values(), on):
        if flag:
            low, *above = unit["piecewise_production"]
            demand, cost = demand - low["mw"], cost + low["cost"]
            for high in above:
                width = high["mw"] - low["mw"]
                blocks.append(((high["cost"] - low["cost"]) // width, width))
    if not 0 <= demand <= sum(width for _, width in blocks):
        return float("inf")
    for slope, width in sorted(blocks):
        cost += slope * min(width, demand)
        demand -= min(width, demand)
    return cost


def least_cost(case: dict[str, Any]) -> float:
    """The least cost of a schedule; infinite where there is none."""
    every = range(PERIODS)
    rows = []
    for unit in case["thermal_generators"].values():
        costs = {it: commitment_cost(unit, it) for it in itertools.product((0, 1), repeat=PERIODS)}
        rows.append([(flags, cost) for flags, cost in costs.items() if cost is not None])
    sets = itertools.product((0, 1), repeat=len(rows))
    dispatched = {on: [dispatch_cost(case, t, on) for t in every] for on in sets}
    return min(
        (
            sum(cost for _, cost in chosen) + sum(dispatched[tuple(flags[t] for flags, _ in chosen)][t] for t in every)
            for chosen in itertools.product(*rows)
        ),
        default=float("inf"),
    )
