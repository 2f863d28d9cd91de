"""make_schedule.py beside a plain search over all on flags; test_package.py runs this in a Python that has SciPy."""
import json
import os
import random
import tempfile
import unittest
from dataclasses import replace
from types import SimpleNamespace
from unittest import mock

import numpy
import plain_commitment
from tool import EXAMPLES, PROGRAM, run

from hulltools import linear
from hulltools.commands.study import Schedules, with_dearer_told
from hulltools.errors import HullError
from hulltools.json_texts import parse
from hulltools.cases import case_of, read_case
from hulltools.program import Hull, as_file
from hulltools.provenance import Source
from hulltools.schedules import Schedule
from hulltools.numbers import Millionths
from hulltools.scheduling import Made, make_schedule, search
from hulltools.search_limits import SearchLimits

LIMITS = SearchLimits(0.0, 100_000, 60.0)
CASES = int(os.environ.get("HULL_SCHEDULE_CASES", "100"))


def unit(points: list, ramp: int, limits: tuple, least_time: int, power: int, starts: list) -> dict:
    """A unit, which before period 1 was on for an hour at this power, or off for four."""
    return {
        **{"must_run": 0, "power_output_minimum": points[0][0], "power_output_maximum": points[-1][0]},
        **{"ramp_up_limit": ramp, "ramp_down_limit": ramp, "ramp_startup_limit": limits[0]},
        **{"ramp_shutdown_limit": limits[1], "time_up_minimum": least_time, "time_down_minimum": least_time},
        **{"power_output_t0": power, "unit_on_t0": int(power > 0), "time_up_t0": int(power > 0)},
        **{"time_down_t0": 0 if power else 4, "startup": [{"lag": lag, "cost": cost} for lag, cost in starts]},
        "piecewise_production": [{"mw": mw, "cost": cost} for mw, cost in points],
    }


class StartCosts(unittest.TestCase):
    """Start costs that fall with the time off, and others."""

    def setUp(self) -> None:
        folder = tempfile.TemporaryDirectory(prefix="hull-starts-")
        self.addCleanup(folder.cleanup)
        self.case = f"{folder.name}/case.json"
        self.room = folder.name

    def write(self, case: dict) -> bytes:
        data = json.dumps(case).encode()
        with open(self.case, "wb") as file:
            file.write(data)
        return data

    def test_schedules_cost_the_least(self) -> None:
        hull, made = Hull(PROGRAM), 0
        for number in range(CASES):
            drawn = plain_commitment.draw_case(random.Random(number))
            least = plain_commitment.least_cost(drawn)
            case = case_of("case", parse(self.write(drawn)))
            with self.subTest(number=number):
                if least == float("inf"):
                    self.assertRaisesRegex(HullError, "can't be met|can be neither", make_schedule, case, LIMITS)
                    continue
                found = make_schedule(case, LIMITS)
                with as_file(found.schedule, "schedule") as name:
                    cost = hull.check(self.case, name)
                self.assertEqual(cost, least * 10**6)
                self.assertRegex(found.told(cost), r"^within 0\.0000 % of the solver's bound")
                made += 1
        self.assertGreater(made, CASES // 3)

    def test_the_gap_is_that_of_the_cost_that_hull_says(self) -> None:
        """The cheap start of A needs five periods off, so B alone is the best, at 150.00."""
        unit: dict = {
            "must_run": 0,
            "power_output_minimum": 10,
            "power_output_maximum": 10,
            **{f"ramp_{it}_limit": 1000 for it in ("up", "down", "startup", "shutdown")},
            **{"time_up_minimum": 1, "time_down_minimum": 1, "power_output_t0": 0, "unit_on_t0": 0},
            **{"time_up_t0": 0, "time_down_t0": 2},
        }
        starts = [{"lag": 1, "cost": 100_000}, {"lag": 5, "cost": 1}]
        units: dict = {
            "A": {**unit, "startup": starts, "piecewise_production": [{"mw": 10, "cost": 100}]},
            "B": {**unit, "startup": [], "piecewise_production": [{"mw": 10, "cost": 150}]},
        }
        case = {"time_periods": 1, "demand": [10], "reserves": [0], "thermal_generators": units}
        self.write({**case, "renewable_generators": {}})
        schedule = f"{self.room}/schedule.json"
        status, _, said = run("make_schedule.py", self.case, schedule, "--hull", PROGRAM)
        self.assertEqual(status, 0, said)
        self.assertIn("cost 150.00; within 0.0000 % of the solver's bound, 150.00, after", said)

    def test_the_gap_of_a_poor_schedule_is_told(self) -> None:
        made = Made(Schedule({}), 101.0, 101.0, 2)
        self.assertEqual(made.told(100_100_000_000), "within 99.8991 % of the solver's bound, 101.00, after 2 nodes")
        made = Made(Schedule({}), 102.0, 101.0, 1, 0.0005)
        self.assertEqual(
            made.told(101_000_000), "the gap of 0.05 % is missed: 0.0000 % of the solver's bound, 101.00, after 1 node"
        )

    def test_the_bound_holds_where_costs_are_below_straight_lines(self) -> None:
        made = Made(Schedule({}), 101.0, 101.0, 1, 0.0005, 1.0)
        self.assertTrue(made.is_near)
        self.assertEqual(made.bound, 100_000_000)
        self.assertEqual(made.told(101_000_000), "within 0.9901 % of the solver's bound, 100.00, after 1 node")

    def test_what_the_clock_cut_is_refused(self) -> None:
        case = read_case(f"{EXAMPLES}/evening/case.json")
        due = r"the outer limit of 0 s is over: no schedule was found, and 0\.05 % are to be reached"
        with self.assertRaisesRegex(HullError, due):
            search(case, SearchLimits(seconds=0.0))

    def test_the_cost_of_a_schedule_that_was_not_checked_is_refused(self) -> None:
        made = Made(Schedule({}), 101.0, 100.0)
        with self.assertRaisesRegex(
            HullError, "^the schedule wasn't checked, so its cost isn't known: `check` says it$"
        ):
            made.cost_in_currency
        made.checked_cost = Millionths(101_500_000)
        self.assertEqual((made.cost, str(made.cost_in_currency)), (101_500_000, "101.5"))
        due = "<Made: schedule=<Schedule: periods=0, units=0>, cost=101500000, gap=0.00990099, is_near=False, nodes=0>"
        self.assertEqual(repr(made), due)

    def least(self, demand: list, reserves: list, units: dict) -> tuple:
        """What the search says is the least cost, and its bound."""
        case = {"time_periods": len(demand), "demand": demand, "reserves": reserves, "thermal_generators": units}
        self.write({**case, "renewable_generators": {}})
        made = search(read_case(self.case), LIMITS)
        return made.solver_cost, made.solver_bound

    def test_the_best_schedule_is_not_missed(self) -> None:
        """HiGHS 1.2 (SciPy 1.10) says 11,200.00 of this by its first simplifications: G1 alone costs 9,200.00."""
        g0 = unit([(100, 5050)], 100, (100, 100), 1, 0, [(1, 1000)])
        g1 = {**unit([(200, 2600), (300, 5150), (500, 13250)], 100, (500, 300), 1, 400, []), "ramp_up_limit": 0}
        self.assertEqual(self.least([400], [0], {"G0": g0, "G1": g1}), (9200, 9200))

    def test_a_solution_keeps_the_rows(self) -> None:
        """HiGHS 1.2 says by its first simplifications that another one costs less, which breaks a row by 50 MW."""
        starts, block = [(1, 500), (4, 2500)], [(150, 5500)]
        units = {
            "G0": {**unit([(50, 2000), (200, 5750)], 200, (50, 50), 1, 200, [(1, 2500)]), "time_up_t0": 5},
            "G1": unit(block, 150, (150, 150), 4, 150, starts),
            "G2": unit(block, 150, (150, 150), 2, 150, starts),
        }
        cost, bound = self.least([400, 450, 500, 250], [0, 50, 0, 0], units)
        self.assertAlmostEqual(cost, 55250)
        self.assertAlmostEqual(bound, 55250)

    def test_a_choice_that_cannot_be_met_exactly_is_not_the_last(self) -> None:
        """HiGHS takes a flag of 0.0000009 for 0, and with that a unit of 1,200 MW gives the kilowatt that is short."""
        units = {
            "A": unit([(300, 6000), (1000, 20000)], 1000, (1000, 1000), 1, 900, []),
            "B": unit([(100, 2500), (500, 12500)], 500, (500, 500), 1, 400, []),
            "PEAK": unit([(0, 200), (100, 8200)], 100, (100, 100), 1, 0, [(1, 1000)]),
            "D": unit([(600, 15000), (1200, 28200)], 1200, (1200, 1200), 1, 0, [(1, 20000)]),
        }
        self.assertEqual(self.least([1500], [0], units)[0], 32500)
        for megawatts, cost in ((1500.001, 33700.08), (1500.002, 33700.16)):
            found, bound = self.least([megawatts], [0], units)
            self.assertAlmostEqual(found, cost, delta=0.2)
            self.assertLessEqual(bound, cost + 0.001)

    def test_a_solution_that_is_none_is_refused(self) -> None:
        program = linear.Program()
        program.at_most([(program.variable(0, 100, -1.0, True), 1), (program.variable(0, 100), 1)], 100)
        for x, is_kept in (([100.0, 0.0], True), ([100.0005, 0.0], True), ([50, 51], False), ([-1, 0], False)):
            answer = SimpleNamespace(status=0, x=numpy.array(x), message="")
            with mock.patch.object(linear, "milp", return_value=answer) as solver:
                if is_kept:
                    self.assertIs(program.solve(), answer)
                else:
                    self.assertRaisesRegex(HullError, "answer isn't a solution of its program", program.solve)
            self.assertIs(solver.call_args.kwargs["options"]["presolve"], False)

    def test_a_bound_that_a_schedule_refutes_is_told(self) -> None:
        """What another solver says is the least cost isn't, where the schedule that is given costs less."""
        given, made = Source("given.json", "", "given"), Source("made.json", "", "made", 0.0, True, 112.0)
        cost, dearer = Millionths(92_000_000), Millionths(112_000_000)
        found = with_dearer_told(Schedules(given, cost, made, dearer))
        due = "made; it costs 20.00 more than the schedule, which is the best one known"
        self.assertEqual(found.best, replace(made, made=f"{due}, so the solver's bound is wrong", is_near=False))
        self.assertEqual(found.best_cost, cost)
        for bound in (None, 92.0, 92.00005):
            best = replace(made, bound=bound)
            self.assertEqual(with_dearer_told(Schedules(given, cost, best, dearer)).best, replace(best, made=due))

    def test_a_solver_without_a_bound_is_told(self) -> None:
        made = Made(Schedule({}), 101.0, -float("inf"), 200, 0.0005)
        self.assertFalse(made.is_near)
        self.assertIsNone(made.bound)
        self.assertEqual(made.told(101_000_000), "the gap of 0.05 % is missed: the solver has no bound after 200 nodes")


if __name__ == "__main__":
    unittest.main()
