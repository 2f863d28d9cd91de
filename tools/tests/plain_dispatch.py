"""A dispatch with commitments held, as a linear program of its own: it reads the JSON itself and shares nothing with the package.

What it says of LMPs: the cost of a little more demand is at least the price, and what a little less saves is at most the price.
"""
import json

import numpy as np
from scipy.optimize import linprog
from scipy.sparse import csr_matrix


def read(name):
    with open(name, encoding="utf-8") as file:
        return json.load(file)


def lines_below(points):
    """The lines (slope, cost at 0) through two of the points that no point lies below."""
    found = []
    for i, (x, a) in enumerate(points):
        for y, b in points[i + 1 :]:
            slope = (b - a) / (y - x)
            if all(cost >= a + slope * (at - x) - 1e-9 for at, cost in points):
                found.append((slope, a - slope * x))
    return found or [(0.0, points[0][1])]


class Dispatch:
    """Powers, reserves and costs of the units that are on, renewable powers, and what bids take."""

    def __init__(self, case, schedule):
        self.case, self.periods = case, case["time_periods"]
        self.low, self.high, self.cost, self.rows, self.limits = [], [], [], [], []
        self.supply = [{} for _ in range(self.periods)]
        self.kept = [{} for _ in range(self.periods)]
        self.tables = None
        for name, unit in case["thermal_generators"].items():
            self.add_thermal(unit, schedule["thermal"][name]["on"])
        for unit in case["renewable_generators"].values():
            ranges = zip(unit["power_output_minimum"], unit["power_output_maximum"])
            for t, (low, high) in enumerate(ranges):
                self.supply[t][self.variable(low, high)] = 1
        for bid in case.get("demand_bids", {}).values():
            for t, blocks in enumerate(bid["blocks"]):
                for block in blocks:
                    self.supply[t][self.variable(0, block["mw"], -block["price"])] = -1

    def variable(self, low, high, cost=0.0):
        self.low.append(low)
        self.high.append(high)
        self.cost.append(cost)
        return len(self.cost) - 1

    def at_most(self, row, limit):
        self.rows.append(row)
        self.limits.append(limit)

    def add_thermal(self, unit, on):
        least, most = unit["power_output_minimum"], unit["power_output_maximum"]
        lines = lines_below([(it["mw"], it["cost"]) for it in unit["piecewise_production"]])
        was_on = unit["unit_on_t0"]
        before, level = None, (unit["power_output_t0"] - least) if was_on else 0.0
        for t, now in enumerate(on):
            power = self.variable(least * now, most * now)
            reserve = self.variable(0, (most - least) * now)
            cap = most
            if now and not was_on:
                cap = min(cap, unit["ramp_startup_limit"])
            if now and t + 1 < self.periods and not on[t + 1]:
                cap = min(cap, unit["ramp_shutdown_limit"])
            self.at_most({power: 1, reserve: 1}, cap * now)
            # (power above the least: `power - least` where the unit is on, and 0 where it is off)
            own, past = least * now, {} if before is None else {before: -1}
            start = level if before is None else -least * was_on
            self.at_most({power: 1, reserve: 1, **past}, unit["ramp_up_limit"] + own + start)
            self.at_most({power: -1, **{it: 1 for it in past}}, unit["ramp_down_limit"] - own - start)
            if now:
                cost = self.variable(-np.inf, np.inf, 1.0)
                for slope, base in lines:
                    self.at_most({power: slope, cost: -1}, -base)
            self.supply[t][power], self.kept[t][reserve] = 1, 1
            before, was_on = power, now

    def table(self, rows):
        """The rows as a matrix."""
        terms = [(i, column, one) for i, row in enumerate(rows) for column, one in row.items()]
        at, columns, ones = zip(*terms)
        return csr_matrix((ones, (at, columns)), shape=(len(rows), len(self.cost)))

    def value(self, demand, required):
        """The least cost, without that of starts; None where the demand can't be met."""
        if self.tables is None:
            rows = self.rows + [{it: -one for it, one in row.items()} for row in self.kept]
            self.tables = self.table(rows), self.table(self.supply)
        at_most, equal = self.tables
        limits = self.limits + [-it for it in required]
        bounds = np.column_stack([self.low, self.high])
        given = dict(A_ub=at_most, b_ub=limits, A_eq=equal, b_eq=demand, bounds=bounds, method="highs")
        found = linprog(self.cost, **given)
        return found.fun if found.status == 0 else None


def brackets(case_name, schedule_name, step=1.0):
    """For each period what a step more or less costs or saves per MW: of demand, and of the requirement."""
    case = read(case_name)
    dispatch = Dispatch(case, read(schedule_name))
    lists = {"energy": case["demand"], "reserve": case["reserves"]}
    least = dispatch.value(*lists.values())
    found = {key: [] for key in lists}
    for key, numbers in lists.items():
        for t in range(case["time_periods"]):
            sides = []
            for sign in (-1, 1):
                moved = [it + sign * step * (at == t) for at, it in enumerate(numbers)]
                value = dispatch.value(*{**lists, key: moved}.values())
                sides.append(sign * np.inf if value is None else sign * (value - least) / step)
            found[key].append(tuple(sides))
    return found
