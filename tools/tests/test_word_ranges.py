"""Words of the tools, each within its range: one that isn't is refused with status 2, before anything is done."""
import os
import unittest
from datetime import datetime
from fractions import Fraction
from unittest import mock

from tool import EXAMPLES, run

from hulltools.apart import run_apart
from hulltools.cases import read_case
from hulltools.clock import Clock
from hulltools.commands.words import hours, seconds, time
from hulltools.errors import HullError
from hulltools.program import Hull
from hulltools.provenance import date_of_run
from hulltools.zones import zones_of

FILES = {
    "lmp.py": "cso",
    "elmp.py": "cso",
    "make_schedule.py": "co",
    "convex_prices.py": "csoo",
    "settle_zones.py": "csz",
}
CASE = f"{EXAMPLES}/usual/case.json"


class Ranges(unittest.TestCase):
    def refused(self, due: str, *words: str) -> None:
        status, text, said = run(*words)
        self.assertEqual((status, text), (2, ""), words)
        self.assertIn(due, said.splitlines()[-1])

    def test_seconds_of_each_tool(self) -> None:
        for tool, files in {**FILES, "study.py": "co"}.items():
            for given in ("2000001", "1e10", "-1"):
                self.refused("argument --seconds: 0 to 2,000,000 is due", tool, *files, f"--seconds={given}")
            self.refused("argument --seconds: ", tool, *files, "--seconds", "nan")
            self.assertIn("2000000", run(tool, "--help")[1])
        self.assertEqual(seconds("2e6"), 2_000_000)

    def test_seconds_of_calls(self) -> None:
        for given in (2_000_001, -1.0, float("nan"), float("inf")):
            with self.assertRaisesRegex(HullError, "at most 2,000,000 is due"):
                Hull("true", seconds=given)
            with self.assertRaisesRegex(HullError, "at most 2,000,000 is due"):
                run_apart(len, ("",), "counting", given)

    def test_nodes(self) -> None:
        for given in ("99999999999", "0", "-1"):
            self.refused(
                "argument --nodes: 1 to 2,147,483,647 is due", "make_schedule.py", "c", "o", f"--nodes={given}"
            )
        self.refused("argument --nodes: ", "make_schedule.py", "c", "o", f"--nodes={'9' * 5000}")

    def test_the_length_of_a_period_and_the_beginning(self) -> None:
        for given in ("1/0", "1e-300", "1e12", "1e99999999", "", "/", "0.5.5", "-1"):
            self.refused("argument --hours-per-period: invalid", "study.py", "c", "o", f"--hours-per-period={given}")
            self.refused("argument --hours: invalid", "lint.py", "c", f"--hours={given}")
        for given in ("0", "1/3601", "8785", "9" * 40):
            self.refused(": 1/3600 to 8784 is due", "study.py", "c", "o", f"--hours-per-period={given}")
        self.refused("argument --start: 1 to 9,000 is due", "study.py", "c", "o", "--start=9001-01-01")
        self.assertEqual([hours(it) for it in ("0.25", "1/12", "8784")], [Fraction(1, 4), Fraction(1, 12), 8784])

    def test_at_the_ends_of_the_ranges_times_and_prices_are_told(self) -> None:
        for length in ("1/3600", "8784"):
            clock = Clock(hours(length), time("9000-12-31T23:59"))
            self.assertEqual(len(set(clock.times(168)[::60])), 3)
            self.assertTrue(clock.price_number(9_999_999).is_finite())
        self.assertEqual(Clock(hours("0.25"), datetime(2026, 7, 1)).times(2)[1], "2026-07-01T00:15")

    def test_an_empty_name_is_no_option_that_is_left_out(self) -> None:
        """As of a variable of a shell that isn't set; of what is no name it may be meant."""
        due = "a name is due, and an empty text is given\n"
        options = {"make_schedule.py": ["--follow", "--hull"], "study.py": ["--schedule", "--zones", "--best-schedule"]}
        for tool, names in {**options, "settle_zones.py": ["--to"]}.items():
            for name in names:
                files = FILES.get(tool, "co")
                self.assertEqual(run(tool, *files, name, "")[::2], (1, f"{tool}: {name}: {due}"))
        self.assertNotIn(due, run("study.py", CASE, "", "--currency", "")[2])

    def test_the_date_that_a_build_sets(self) -> None:
        for given in ("x", "-1", "1.5", "9" * 12, "9" * 5000):
            with mock.patch.dict(os.environ, SOURCE_DATE_EPOCH=given), self.assertRaisesRegex(HullError, "SOURCE_DATE"):
                date_of_run()
        with mock.patch.dict(os.environ, SOURCE_DATE_EPOCH="99999999999"):
            self.assertEqual(date_of_run(), "5138-11-16T09:46:39Z")

    def test_a_default_zone_that_is_no_name(self) -> None:
        case = read_case(CASE)
        for default in (["A"], {}, 1, True):
            value = {"zones": {"A": {"energy": [98]}}, "default": default}
            with self.assertRaisesRegex(HullError, "the default zone has no prices"):
                zones_of("zones", value, case)


if __name__ == "__main__":
    unittest.main()
