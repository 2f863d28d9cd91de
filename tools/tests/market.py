"""A hand-made market of a day for the tests: coal, gas, peakers, wind, a buyer, and a schedule from which demand follows."""
from __future__ import annotations

import copy
import json
from typing import Any, Dict, List

HOURS = 24
Json = Dict[str, Any]


def unit(least: float, most: float, ramp: float, times: int, cost: float, on: int, power: float) -> Json:
    """A thermal unit whose cost per MWh rises by a tenth in its upper half; on or off for a day before period 1."""
    middle = (least + most) / 2
    first, second = cost * least * 1.2, cost * least * 1.2 + cost * (middle - least)
    points = [(least, first), (middle, second), (most, second + 1.1 * cost * (most - middle))]
    return {
        "must_run": 0,
        "power_output_minimum": least,
        "power_output_maximum": most,
        "ramp_up_limit": ramp,
        "ramp_down_limit": ramp,
        "ramp_startup_limit": least + ramp / 2,
        "ramp_shutdown_limit": least + ramp / 2,
        "time_up_minimum": times,
        "time_down_minimum": times,
        "power_output_t0": power,
        "unit_on_t0": on,
        "time_up_t0": HOURS if on else 0,
        "time_down_t0": 0 if on else HOURS,
        "startup": [{"lag": times, "cost": 900}, {"lag": 12, "cost": 1800}],
        "piecewise_production": [{"mw": mw, "cost": round(cost, 2)} for mw, cost in points],
    }


UNITS = {
    "COAL1": unit(150, 400, 90, 8, 22.5, 1, 300),
    "COAL2": unit(120, 350, 90, 8, 23.0, 1, 250),
    "CCGT3": unit(120, 300, 120, 4, 34.0, 0, 0),
    "CCGT4": unit(100, 250, 120, 4, 36.0, 0, 0),
    "GT5": unit(20, 80, 80, 1, 88.0, 0, 0),
    "GT6": unit(20, 80, 80, 1, 92.0, 0, 0),
}
ON = {"CCGT3": range(6, 22), "CCGT4": range(15, 21), "GT5": range(17, 20)}
WIND = {"WIND1": [60.5 - it for it in range(HOURS)], "WIND2": [20 + 1.5 * it for it in range(HOURS)]}


def schedule() -> Json:
    """A feasible schedule of the case, in whole kilowatts."""
    thermal: Json = {}
    for name in UNITS:
        on = [int(name.startswith("COAL") or hour in ON.get(name, ())) for hour in range(HOURS)]
        power = {"COAL1": 300_000, "COAL2": 250_000, "CCGT3": 150_000, "CCGT4": 120_000, "GT5": 40_000}.get(name, 0)
        reserve = [20_000 if name == "COAL1" else 0] * HOURS
        thermal[name] = {"on": on, "power": [it * power for it in on], "reserve": reserve}
    wind = {name: [round(1000 * it) for it in row] for name, row in WIND.items()}
    return {"thermal": thermal, "renewable": wind, "bids": {"STEEL": [70_000] * HOURS}}


def case() -> Json:
    """The case whose demand the schedule meets."""
    plan = schedule()
    rows = [*(it["power"] for it in plan["thermal"].values()), *plan["renewable"].values()]
    demand = [(sum(it) - 70_000) / 1000 for it in zip(*rows)]
    wind = {name: {"power_output_minimum": [0] * HOURS, "power_output_maximum": row} for name, row in WIND.items()}
    blocks = [{"mw": 40, "price": 120}, {"mw": 30, "price": 55}, {"mw": 20, "price": 30}]
    return copy.deepcopy(
        {
            "time_periods": HOURS,
            "demand": demand,
            "reserves": [20] * HOURS,
            "thermal_generators": UNITS,
            "renewable_generators": wind,
            "demand_bids": {"STEEL": {"blocks": [blocks] * HOURS}},
        }
    )


def prices() -> Json:
    energy: List[float] = [25.5] * 6 + [36.0] * 11 + [95.0] * 3 + [37.5] * 4
    return {"energy": energy, "reserve": [2.0] * HOURS}


def text(value: Json) -> str:
    """A file with a line for each unit."""
    parts = []
    for key, member in value.items():
        inner = isinstance(member, dict) and bool(member)
        rows = [f"{json.dumps(name)}: {json.dumps(row)}" for name, row in member.items()] if inner else []
        parts.append(f"{json.dumps(key)}: " + ("{\n" + ",\n".join(rows) + "}" if inner else json.dumps(member)))
    return "{" + ",\n".join(parts) + "}\n"
