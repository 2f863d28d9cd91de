"""docs/MODEL.md: its constraints let the same schedules of a unit through as the rules of hull do, and its examples are right."""
from __future__ import annotations

import random
import re
import unittest
from dataclasses import fields
from typing import Any, List

from tool import ROOT

from hulltools.cases import Thermal
from hulltools.costs import start_cost
from hulltools.lint_keys import THERMAL
from hulltools.lint_schedules import thermal_breaches
from hulltools.schedules import Plan


def keeps(unit: Thermal, plan: Plan) -> bool:
    """The constraints of the page, as they stand there."""
    T, least, most = len(plan.on), unit.least, unit.most
    u = [unit.on0, *plan.on]
    p = [unit.on0 * (unit.power0 - least), *(power - least * on for on, power in zip(plan.on, plan.power))]
    r = [0, *plan.reserve]
    v = [0, *(int(u[t] > u[t - 1]) for t in range(1, T + 1))]
    w = [0, *(int(u[t] < u[t - 1]) for t in range(1, T + 1)), 0]
    held = min(unit.min_up - unit.up0 if unit.on0 else unit.min_down - unit.down0, T)
    rules = [u[t] == unit.on0 for t in range(1, held + 1)]
    for t in range(1, T + 1):
        rules.append(sum(v[max(1, t - unit.min_up + 1) : t + 1]) <= u[t])
        rules.append(sum(w[max(1, t - unit.min_down + 1) : t + 1]) <= 1 - u[t])
        rules.append(u[t] >= unit.must_run)
        rules.append(unit.marks[t - 1] in (None, u[t]))
        rules.append(p[t] + r[t] <= (most - least) * u[t] - max(most - unit.start_limit, 0) * v[t])
        rules.append(t == T or p[t] + r[t] <= (most - least) * u[t] - max(most - unit.stop_limit, 0) * w[t + 1])
        rules.append(p[t] + r[t] - p[t - 1] <= unit.ramp_up)
        rules.append(p[t - 1] - p[t] <= unit.ramp_down)
        rules.append(p[t] >= 0 and r[t] >= 0)
    rules.append(not w[1] or unit.power0 <= min(unit.stop_limit, most))
    return all(rules)


def thermal(*members: Any) -> Thermal:
    """A thermal unit of these members, in their order."""
    return Thermal(**dict(zip((it.name for it in fields(Thermal)), ("G", *members))))


def random_unit(draw: random.Random, periods: int) -> Thermal:
    least = draw.randint(0, 3)
    most, on = least + draw.randint(0, 4), draw.randint(0, 1)
    limits = [draw.randint(1, 6) for _ in range(4)]
    times = [draw.randint(1, 3) for _ in range(2)]
    spent = draw.randint(1, 3)
    before = [draw.randint(least, most + 1) * on, on, spent * on, spent * (1 - on)]
    marks = [draw.choice([None, None, None, 0, 1]) for _ in range(periods)]
    numbers: Any = (int(draw.random() < 0.1), least, most, *limits, *times, *before, [], [(0, 0), (9, 9)], marks)
    return thermal(*numbers)


def random_plan(draw: random.Random, unit: Thermal, periods: int) -> Plan:
    """A plan of long spells, whose powers and reserves are mostly within the range."""
    on: List[int] = []
    while len(on) < periods:
        on += [draw.randint(0, 1)] * draw.randint(1, 4)
    on = on[:periods]
    power = [now * draw.randint(unit.least, unit.most + draw.choice([0, 0, 0, 1])) for now in on]
    return Plan(on, power, [now * draw.choice([0, 0, 0, 1]) for now in on])


class Model(unittest.TestCase):
    def test_the_constraints_are_those_of_hull(self) -> None:
        draw, kept = random.Random(20), 0
        for _ in range(20_000):
            periods = draw.randint(1, 5)
            unit = random_unit(draw, periods)
            plan = random_plan(draw, unit, periods)
            found = next(thermal_breaches(unit, plan), None)
            self.assertEqual(keeps(unit, plan), found is None, (unit, plan, found))
            kept += found is None
        self.assertGreater(kept, 500)

    def page(self) -> str:
        with open(f"{ROOT}/docs/MODEL.md", encoding="utf-8") as file:
            return file.read()

    def test_each_field_has_its_symbol(self) -> None:
        page = self.page()
        for field in (*THERMAL, "demand", "reserves", "blocks"):
            if field != "name":
                self.assertIn(f"`{field}`", page)

    def test_its_examples(self) -> None:
        """The points of an offer with no-load cost, and the category of a start after 8 periods."""
        found = re.findall(r"\((\d+), [^()]*\) = \((\d+), (\d+)\)", self.page())
        points = [(int(at), int(cost)) for _, at, cost in found]
        self.assertEqual(points, [(50, 400 + 20 * 50), (80, 1400 + 20 * 30), (100, 2000 + 25 * 20)])
        lags = [
            int(lag) for lag in re.findall(r"With lags (\d+), (\d+) and (\d+), a start after 8 periods", self.page())[0]
        ]
        unit = thermal(*[0] * 13, [(lag, i) for i, lag in enumerate(lags, 1)], [(0, 0)], [None])
        self.assertEqual(start_cost(unit, 8), 2)


if __name__ == "__main__":
    unittest.main()
