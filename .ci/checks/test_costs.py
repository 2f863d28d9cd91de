"""The costs of examples/day's schedule that docs/REPORT.md compares: by straight lines, by the lower convex envelope, and by `hull`."""
import json
import re
import unittest
from fractions import Fraction
from typing import Any, Callable

from built import EXAMPLES, ROOT

Points = list[tuple[Fraction, Fraction]]
Json = Any


def read_json(name: str) -> Json:
    """A JSON text whose numbers with a point are exact."""
    with open(f"{EXAMPLES}/day/{name}.json", encoding="utf-8") as text:
        return json.load(text, parse_float=Fraction)


def points_of(unit: Json) -> Points:
    return [(Fraction(it["mw"]) * 1000, Fraction(it["cost"])) for it in unit["piecewise_production"]]


def slopes_fall(points: Points) -> bool:
    slopes = [(d - c) / (q - p) for (p, c), (q, d) in zip(points, points[1:])]
    return any(left > right for left, right in zip(slopes, slopes[1:]))


def on_lines(points: Points, power: int) -> Fraction:
    """The cost on the straight lines between neighbours."""
    costs = (c + (d - c) * (power - p) / (q - p) for (p, c), (q, d) in zip(points, points[1:]) if p <= power <= q)
    return next(costs, points[0][1])


def on_envelope(points: Points, power: int) -> Fraction:
    """The least cost on a straight line between any two points around the power."""
    lines = ([(p, c), (q, d)] for p, c in points for q, d in points if p < q and p <= power <= q)
    return min((on_lines(line, power) for line in lines), default=points[0][1])


def start_cost(unit: Json, off: int) -> Fraction:
    reached = [it["cost"] for it in unit["startup"] if it["lag"] <= off]
    return Fraction(reached[-1] if reached else unit["startup"][0]["cost"])


def cost_of(unit: Json, plan: Json, cost_of_power: Callable[[Points, int], Fraction]) -> Fraction:
    off = 0 if unit["unit_on_t0"] else unit["time_down_t0"]
    total = Fraction(0)
    for on, power in zip(plan["on"], plan["power"]):
        if on:
            total += cost_of_power(points_of(unit), power) + (start_cost(unit, off) if off else 0)
        off = 0 if on else off + 1
    return total


class Costs(unittest.TestCase):
    def test_costs_of_the_day_are_those_of_the_page(self) -> None:
        units, plans = read_json("case")["thermal_generators"], read_json("schedule")["thermal"]
        with open(f"{EXAMPLES}/day/check.output", encoding="utf-8") as output:
            by_hull = Fraction(int(re.findall(r"^cost (-?\d+)$", output.read(), re.M)[0]), 1_000_000)
        due = [sum(cost_of(units[it], plans[it], way) for it in units) for way in (on_lines, on_envelope)] + [by_hull]
        falling = sum(slopes_fall(points_of(unit)) for unit in units.values())
        with open(f"{ROOT}/docs/REPORT.md", encoding="utf-8") as page:
            text = page.read()
        said = re.findall(r"^\| (?:straight lines|lower convex envelope|`hull`)[^|]*\| ([\d,.]+) \|$", text, re.M)
        self.assertEqual(said, [f"{float(it):,.6f}" for it in due])
        self.assertIn(f"{falling} of its {len(units)} thermal units", text)


if __name__ == "__main__":
    unittest.main()
