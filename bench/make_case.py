#!/usr/bin/env python3
"""Generates a realistic case of any size with a feasible schedule, from a seed.

usage: make_case.py FOLDER [--thermal N] [--renewable N] [--periods T] [--reserve PERCENT] [--bids N] [--windows] [--must-run] [--seed S]

Writes FOLDER/case.json, in pglib-uc's format, and FOLDER/schedule.json. Units come on in the order of their cost as a daily load
rises, within minimum times, ramps, start and stop limits; demand is what they give, and the reserve requirement is a share of it.
Demand bids buy nothing in the schedule. With --windows every third unit is held on, or off, where the schedule has it so, for some
periods; with --must-run every fourth of the units that are always on has to run. The same words give the same files.
"""
import argparse
import json
import math
import os
import random


def daily_load(t):
    """Between 0 and 1, with a peak in the morning and one in the evening."""
    hour = t % 24
    return max(
        0.05,
        0.42
        + 0.28 * math.sin((hour - 7) / 24 * 2 * math.pi)
        + 0.25 * math.exp(-((hour - 19) ** 2) / 8)
        + 0.12 * math.exp(-((hour - 9) ** 2) / 6),
    )


def runs_of(flags):
    """The runs of equal flags as (flag, first, after)."""
    first = 0
    for t in range(1, len(flags) + 1):
        if t == len(flags) or flags[t] != flags[first]:
            yield flags[first], first, t
            first = t


class Unit:
    """A thermal unit, its commitment and its dispatch, in kilowatts."""

    def __init__(self, draw, rank, units, periods):
        self.most = 1000 * draw.choice((40, 75, 120, 155, 200, 250, 350, 400))
        self.least = self.most * draw.randint(25, 50) // 100
        self.ramp = max(1000, self.most * draw.randint(15, 60) // 100)
        self.cap = min(self.most, self.least + self.ramp)
        self.min_up, self.min_down = draw.choice(((1, 1), (2, 2), (4, 3), (6, 6), (8, 8)))
        self.price = 12 + 40 * rank / units + draw.random() * 4
        self.steps = sorted(draw.uniform(0.85, 1.2) for _ in range(3))
        self.start = round(self.most / 1000 * draw.uniform(5, 60), 2)
        self.jitter = [draw.uniform(-0.04, 0.04) for _ in range(periods)]
        self.on = self.commitment([daily_load(t) > rank / units for t in range(periods)])
        self.power0, self.power = self.dispatch(rank / units)

    def commitment(self, wanted):
        """The wanted flags, with runs that are too short for the minimum times filled in."""
        flags = list(wanted)
        for flag, first, after in list(runs_of(flags)):
            if not flag and first and after < len(flags) and after - first < self.min_down:
                flags[first:after] = [True] * (after - first)
        for flag, first, after in list(runs_of(flags)):
            if flag and first and after < len(flags) and after - first < self.min_up:
                flags[first : first + self.min_up] = [True] * len(flags[first : first + self.min_up])
        # (runs that were made longer may have left another time off too short)
        for flag, first, after in list(runs_of(flags)):
            if not flag and first and after < len(flags) and after - first < self.min_down:
                flags[first:after] = [True] * (after - first)
        return flags

    def dispatch(self, level):
        """Powers near the load, within ramps and the limits of starts and stops; and the power before the horizon."""
        powers, power0 = [0] * len(self.on), 0
        for flag, first, after in runs_of(self.on):
            if not flag:
                continue
            down = [self.most] * (after - first)
            if after < len(self.on):
                for i in range(after - first):
                    down[-1 - i] = min(self.most, self.cap + i * self.ramp)
            before = None
            for t in range(first, after):
                want = self.least + int(
                    (self.most - self.least) * min(1, max(0, (daily_load(t) - level) * 2.5 + self.jitter[t]))
                )
                high = min(
                    down[t - first],
                    self.cap if before is None and first else self.most,
                    self.most if before is None else before + self.ramp,
                )
                low = self.least if before is None else max(self.least, before - self.ramp)
                before = powers[t] = min(max(want, low), high)
            if first == 0:
                power0 = powers[0]
        return power0, powers

    def room(self, t):
        """The most reserve beside the power of a period."""
        starts = t > 0 and not self.on[t - 1]
        stops = t + 1 < len(self.on) and not self.on[t + 1]
        before = (self.power[t - 1] - self.least if not starts else 0) if t else self.power0 - self.least
        return (
            max(
                0,
                min(
                    (self.cap if starts or stops else self.most) - self.power[t],
                    self.ramp + before - (self.power[t] - self.least),
                ),
            )
            if self.on[t]
            else 0
        )

    def case(self):
        points, cost = [], self.least / 1000 * self.price
        for i in range(4):
            at = self.least + (self.most - self.least) * i // 3
            if i:
                cost += (at - points[-1][0]) / 1000 * self.price * self.steps[i - 1]
            points.append((at, round(cost, 3)))
        limits = {
            "ramp_up_limit": self.ramp,
            "ramp_down_limit": self.ramp,
            "ramp_startup_limit": self.cap,
            "ramp_shutdown_limit": self.cap,
        }
        return {
            "must_run": 0,
            "power_output_minimum": self.least / 1000,
            "power_output_maximum": self.most / 1000,
            **{key: it / 1000 for key, it in limits.items()},
            "time_up_minimum": self.min_up,
            "time_down_minimum": self.min_down,
            "power_output_t0": self.power0 / 1000,
            "unit_on_t0": int(self.on[0]),
            "time_up_t0": 24 * self.on[0],
            "time_down_t0": 24 * (not self.on[0]),
            "startup": [
                {"lag": self.min_down, "cost": self.start},
                {"lag": self.min_down + 4, "cost": 2 * self.start},
                {"lag": self.min_down + 12, "cost": 3 * self.start},
            ],
            "piecewise_production": [{"mw": at / 1000, "cost": it} for at, it in points],
        }


def renewable(draw, periods):
    """The most that a wind or solar unit can give in each period, in kilowatts."""
    size, is_sun, wind = 1000 * draw.randint(5, 90), draw.random() < 0.5, draw.random()
    most = []
    for t in range(periods):
        wind = min(1, max(0, wind + draw.uniform(-0.15, 0.15)))
        most.append(
            int(size * (max(0, math.sin((t % 24 - 6) / 12 * math.pi)) * (0.6 + 0.4 * wind) if is_sun else wind))
        )
    return most


def bid(draw, periods):
    """A demand bid: in each period up to three blocks, the dearest first."""
    blocks = []
    for _ in range(periods):
        prices = sorted((round(draw.uniform(5, 90), 3) for _ in range(draw.randint(0, 3))), reverse=True)
        blocks.append([{"mw": draw.randint(1, 20), "price": price} for price in prices])
    return {"blocks": blocks}


def hold(draw, unit, fields):
    """Holds a unit for some periods to what its schedule has there."""
    periods = len(unit.on)
    first = draw.randrange(periods)
    after = min(periods, first + draw.randint(1, 8))
    fields["commitment"] = [int(unit.on[t]) if first <= t < after else None for t in range(periods)]


def oblige(draw, units, fields, windows, must_run):
    """Adds commitment windows and must-run flags that the schedules of the units keep."""
    for i, unit in enumerate(units):
        if windows and i % 3 == 0:
            hold(draw, unit, fields[i])
        if must_run and i % 4 == 0 and all(unit.on):
            fields[i]["must_run"] = 1


def make(thermal, renewables, periods, reserve, seed, bids=0, windows=False, must_run=False):
    """The case and the schedule, as what JSON holds."""
    draw = random.Random(seed)
    units = [Unit(draw, i, thermal, periods) for i in range(thermal)]
    others = [renewable(draw, periods) for _ in range(renewables)]
    demand = [sum(it.power[t] for it in units) + sum(it[t] for it in others) for t in range(periods)]
    reserves = [[0] * periods for _ in units]
    required = []
    for t in range(periods):
        left = demand[t] * reserve // 100
        for unit, kept in zip(units, reserves):
            kept[t] = min(left, unit.room(t))
            left -= kept[t]
        required.append(sum(it[t] for it in reserves))
    fields = [unit.case() for unit in units]
    bought = [bid(draw, periods) for _ in range(bids)]
    oblige(draw, units, fields, windows, must_run)
    case = {
        "time_periods": periods,
        "demand": [it / 1000 for it in demand],
        "reserves": [it / 1000 for it in required],
        "thermal_generators": {f"T{i:04}": it for i, it in enumerate(fields, 1)},
        "renewable_generators": {
            f"R{i:04}": {
                "power_output_minimum": [0] * periods,
                "power_output_maximum": [x / 1000 for x in powers],
            }
            for i, powers in enumerate(others, 1)
        },
    }
    schedule = {
        "thermal": {
            f"T{i:04}": {"on": [int(x) for x in unit.on], "power": unit.power, "reserve": kept}
            for i, (unit, kept) in enumerate(zip(units, reserves), 1)
        },
        "renewable": {f"R{i:04}": it for i, it in enumerate(others, 1)},
    }
    if bids:
        case["demand_bids"] = {f"B{i:04}": it for i, it in enumerate(bought, 1)}
        schedule["bids"] = {f"B{i:04}": [0] * periods for i in range(1, bids + 1)}
    return case, schedule


def write(folder, **size):
    os.makedirs(folder, exist_ok=True)
    for name, value in zip(("case", "schedule"), make(**size)):
        with open(f"{folder}/{name}.json", "w", encoding="utf-8") as to:
            json.dump(value, to)
            to.write("\n")


def main():
    ask = argparse.ArgumentParser(description="Generates a realistic case of any size with a feasible schedule.")
    ask.add_argument("folder")
    for word, usual in (("thermal", 73), ("renewable", 81), ("periods", 48), ("reserve", 3), ("bids", 0), ("seed", 1)):
        ask.add_argument(f"--{word}", type=int, default=usual)
    ask.add_argument("--windows", action="store_true")
    ask.add_argument("--must-run", action="store_true")
    given = ask.parse_args()
    write(
        given.folder,
        thermal=given.thermal,
        renewables=given.renewable,
        periods=given.periods,
        reserve=given.reserve,
        bids=given.bids,
        windows=given.windows,
        must_run=given.must_run,
        seed=given.seed,
    )


if __name__ == "__main__":
    main()
