#!/usr/bin/env python3
"""Holds schedule.json against the rules of case.json and adds up its cost, sharing nothing with `hull`.

usage: work_out.py > check.output

Costs are read off the straight lines between the points of a curve; powers are in kW and money in millionths, all whole.
"""
import json
import os
from decimal import Decimal
from fractions import Fraction

HERE = os.path.dirname(os.path.abspath(__file__))


def read(name):
    with open(f"{HERE}/{name}", encoding="utf-8") as file:
        return json.load(file, parse_float=Decimal)


def kilowatts(number):
    return int(Decimal(number) * 1000)


def millionths(number):
    return int(Decimal(number) * 1_000_000)


def line_cost(points, power):
    """The cost of a power by the line between the points beside it."""
    for (low, cost), (high, dearer) in zip(points, points[1:]):
        if low <= power <= high:
            return cost + Fraction(dearer - cost, high - low) * (power - low)
    assert len(points) == 1 and points[0][0] == power
    return points[0][1]


def state_before(unit):
    """The on flag of each period before the horizon that the unit's times say, the latest last."""
    if unit["unit_on_t0"]:
        return [0] + [1] * unit["time_up_t0"]
    return [1] + [0] * unit["time_down_t0"]


def keeps_times(unit, on):
    """Every run of equal flags that begins and ends within sight is long enough."""
    flags, least = state_before(unit) + on, (unit["time_down_minimum"], unit["time_up_minimum"])
    length, is_first = 1, True
    for before, after in zip(flags, flags[1:]):
        if before == after:
            length += 1
            continue
        if not is_first and length < least[before]:
            return False
        length, is_first = 1, False
    return True


def keeps_dispatch(unit, plan):
    """Ranges, ramps, and the limits of starts and stops."""
    least, most = kilowatts(unit["power_output_minimum"]), kilowatts(unit["power_output_maximum"])
    up, down, start, stop = (kilowatts(unit[f"ramp_{it}_limit"]) for it in ("up", "down", "startup", "shutdown"))
    before_on, above = unit["unit_on_t0"], kilowatts(unit["power_output_t0"]) - least if unit["unit_on_t0"] else 0
    for t, (on, power, reserve) in enumerate(zip(plan["on"], plan["power"], plan["reserve"])):
        stops = t + 1 < len(plan["on"]) and on and not plan["on"][t + 1]
        if not on and (power or reserve) or on and not least <= power <= power + reserve <= most:
            return False
        if on and not before_on and power + reserve > start or stops and power + reserve > stop:
            return False
        now = power - least if on else 0
        if now + reserve - above > up or above - now > down:
            return False
        before_on, above = on, now
    return not (unit["unit_on_t0"] and not plan["on"][0] and kilowatts(unit["power_output_t0"]) > stop)


def cost_of(unit, plan):
    points = [(kilowatts(it["mw"]), millionths(it["cost"])) for it in unit["piecewise_production"]]
    flags, cost = state_before(unit), Fraction(0)
    for on, power in zip(plan["on"], plan["power"]):
        if on:
            cost += line_cost(points, power)
        if on and not flags[-1]:
            off = flags[::-1].index(1)
            reached = [it for it in unit["startup"] if it["lag"] <= off] or unit["startup"][:1]
            cost += millionths(reached[-1]["cost"])
        flags.append(on)
    return cost


def main():
    case, schedule = read("case.json"), read("schedule.json")
    thermal, renewable = case["thermal_generators"], case["renewable_generators"]
    for name, unit in thermal.items():
        plan = schedule["thermal"][name]
        assert keeps_times(unit, plan["on"]) and keeps_dispatch(unit, plan), name
        assert all(plan["on"]) or not unit["must_run"], name
    for t in range(case["time_periods"]):
        for name, unit in renewable.items():
            low, high = (kilowatts(unit[f"power_output_{it}"][t]) for it in ("minimum", "maximum"))
            assert low <= schedule["renewable"][name][t] <= high, name
        supply = sum(it["power"][t] for it in schedule["thermal"].values())
        assert supply + sum(it[t] for it in schedule["renewable"].values()) == kilowatts(case["demand"][t])
        assert sum(it["reserve"][t] for it in schedule["thermal"].values()) >= kilowatts(case["reserves"][t])
    cost = sum(cost_of(unit, schedule["thermal"][name]) for name, unit in thermal.items())
    assert cost.denominator == 1
    print(f"hull-check 1\nperiods {case['time_periods']} thermal {len(thermal)} renewable {len(renewable)}")
    print(f"cost {cost}\nfeasible")


main()
