"""What examples/day's schedule costs by three readings of the cost points, as docs/REPORT.md says it."""
from __future__ import annotations

import re
import subprocess
import unittest
from decimal import Decimal
from fractions import Fraction
from typing import Dict

from tool import EXAMPLES, PROGRAM, ROOT

from hulltools.cases import read_case
from hulltools.curve_costs import CurveCosts, cost_of_schedule, falls, line_cost, slopes
from hulltools.schedules import read_schedule

# How a row of the page's table begins, by the reading of the points.
ROWS = {"straight": "straight lines", "convex": "lower convex envelope", "whole": "`hull`"}
DAY = {"straight": "9920660.501577", "convex": "9920569.756691", "whole": "9920566.288596"}
FALLING = 10


def rounded(number: object) -> str:
    """Millionths as the currency with six digits."""
    return f"{Decimal(round(number)) / 10**6:.6f}"  # type: ignore[call-overload]


class Day(unittest.TestCase):
    def costs(self) -> CurveCosts:
        self.case = read_case(f"{EXAMPLES}/day/case.json")
        return cost_of_schedule(self.case, read_schedule(f"{EXAMPLES}/day/schedule.json", self.case))

    def test_the_three_costs(self) -> None:
        """By straight lines and by the lower convex envelope they were worked out by a program that shares nothing with this one."""
        costs = self.costs()
        self.assertEqual({key: rounded(getattr(costs, key)) for key in DAY}, DAY)
        self.assertEqual(sum(falls(it) for it in self.case.thermal), FALLING)

    def test_the_program_has_the_third(self) -> None:
        words = [it for what in ("case", "schedule") for it in (f"--{what}", f"{EXAMPLES}/day/{what}.json")]
        ran = subprocess.run([PROGRAM, "check", *words], capture_output=True, text=True)
        self.assertIn(f"\ncost {self.costs().whole}\n", ran.stdout)

    def test_the_page_has_them(self) -> None:
        """The rows of a table of docs/REPORT.md, and each such number of its text."""
        with open(f"{ROOT}/docs/REPORT.md", encoding="utf-8") as page:
            text = page.read()
        due = {key: f"{Decimal(it):,}" for key, it in DAY.items()}
        found: Dict[str, str] = {}
        for key, begin in ROWS.items():
            row = re.search(rf"^\| {begin}[^|]*\| `?([\d,]+\.\d+)`? *\|", text, re.M)
            if row:
                found[key] = row.group(1)
        self.assertEqual(found, due, "the rows of 'The cost of a power'")
        numbers = set(re.findall(r"9,920,\d{3}\.\d{6}", text))
        self.assertEqual(numbers - set(due.values()), set())


class Lines(unittest.TestCase):
    """Worked by hand."""

    def test_straight_lines(self) -> None:
        points = [(10, 100), (20, 250), (20, 240), (40, 500)]
        self.assertEqual([line_cost(points, it) for it in (10, 15, 20, 25, 40)], [100, 175, 240, 305, 500])
        self.assertEqual(slopes([(0, 0), (3, 10), (3, 11), (5, 12)]), [(0, 3, Fraction(10, 3)), (3, 5, Fraction(1, 2))])


if __name__ == "__main__":
    unittest.main()
