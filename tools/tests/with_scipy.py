"""What of the package needs SciPy; test_package.py runs these in a Python that has it. Cases are those of examples/."""
import argparse
import copy
import base64
import concurrent.futures
import contextlib
import csv
import hashlib
import html
import io
import json
import os
import pathlib
import random
import re
import shutil
import sys
import tempfile
import threading
import unittest
import zoneinfo
from datetime import datetime
from unittest import mock
from decimal import Decimal

from tool import EXAMPLES, PROGRAM, ROOT, run

import hulltools
from hulltools.numbers import money
from hulltools.price_lists import LISTS

SMALL = ("usual", "evening", "windows")


def files(example):
    return f"{EXAMPLES}/{example}/case.json", f"{EXAMPLES}/{example}/schedule.json"


class Rounding(unittest.TestCase):
    def test_the_last_step_costs_no_more_than_any_neighbour(self):
        """On examples/evening with its commitments held: every balanced pair of moves by a kilowatt costs at least as much."""
        from hulltools.cases import read_case
        from hulltools.costs import Costs, worth
        from hulltools.schedules import read_schedule
        from hulltools.scheduling import dispatch

        case = read_case(files("evening")[0])
        given = read_schedule(files("evening")[1], case)
        flags = [given.plan("thermal", it.name).on for it in case.thermal]
        made, costs = dispatch(case, flags), Costs()

        def cost_of(schedule):
            bought = [(bid.blocks, schedule.plan("bid", bid.name).power) for bid in case.bids]
            spent = sum(costs.of_plan(unit, schedule.plan("thermal", unit.name)) for unit in case.thermal)
            return spent - sum(worth(blocks[t], power[t]) for blocks, power in bought for t in range(case.periods))

        self.assertLessEqual(cost_of(made), cost_of(given))


class MissedGap(unittest.TestCase):
    def test_a_schedule_that_misses_the_gap_is_told_by_status_and_line(self):
        """A schedule of cost 8,900.00, worked by hand, with a bound of 8,811.00 that the solver is made to have: 1 % below."""
        from hulltools.scheduling import Made

        case, schedule = files("evening")
        made = Made(hulltools.read_schedule(schedule, hulltools.read_case(case)), 8900.0, 8811.0, 1000, 0.0005)
        with tempfile.TemporaryDirectory() as room, mock.patch(
            "hulltools.commands.make_schedule.make_schedule", return_value=made
        ):
            status, _, said = run("make_schedule.py", case, f"{room}/schedule.json", "--hull", PROGRAM)
            self.assertEqual(status, 3, said)
            hulltools.check(case, f"{room}/schedule.json", PROGRAM)
        due = "cost 8,900.00; the gap of 0.05 % is missed: 1.0000 % of the solver's bound, 8,811.00, after 1000 nodes"
        self.assertIn(due, said)


class Settled(unittest.TestCase):
    """What is settled and certified by the program."""

    def setUp(self):
        folder = tempfile.TemporaryDirectory(prefix="hull-package-")
        self.addCleanup(folder.cleanup)
        self.room = folder.name

    def settle(self, example, prices):
        return hulltools.settle(*files(example), prices, hull=PROGRAM)

    def test_marginal_prices_leave_nothing_to_gain_with_commitments_held(self):
        """Examples/usual: wind is marginal, so the price is 0 (docs/REPORT.md's case, worked by hand)."""
        status, _, said = run("lmp.py", *files("usual"), f"{self.room}/prices.json", "--hull", PROGRAM)
        self.assertEqual((status, said), (0, ""))
        with open(f"{self.room}/prices.json", encoding="utf-8") as file:
            self.assertEqual(json.load(file), {"energy": [0], "reserve": [0]})
        self.assertEqual(self.settle("usual", f"{self.room}/prices.json").payments, 850_000_000)

    def dear_files(self):
        """Examples/usual without wind, and G1 at 20,000.00 per MW: it gives 10 MW with no other price that would have it do so."""
        case = hulltools.read_case(files("usual")[0]).without("W1")
        case.reserves = [hulltools.Kilowatts(0)]
        unit = case.thermal[0]
        unit.points = [(power, hulltools.Millionths(power * 20_000_000)) for power, _ in unit.points]
        plan = {"thermal": {"G1": {"on": [1], "power": [10_000], "reserve": [0]}}, "renewable": {}, "bids": {}}
        for name, text in (("case", case.text()), ("schedule", json.dumps(plan))):
            with open(f"{self.room}/{name}.json", "w", encoding="utf-8") as file:
                file.write(text)
        return f"{self.room}/case.json", f"{self.room}/schedule.json"

    def test_prices_that_are_cut_are_told_by_line_and_status(self):
        cut = "prices of 1 period were cut at the limits, per MW and period: energy of period 1 from 2000"
        for tool in ("lmp.py", "elmp.py"):
            status, _, said = run(tool, *self.dear_files(), f"{self.room}/prices.json", "--hull", PROGRAM)
            self.assertEqual(status, 3, said)
            self.assertRegex(said, f"(?m)^{tool}: {cut}[0-9.]+ to 10000$")
            with open(f"{self.room}/prices.json", encoding="utf-8") as file:
                self.assertEqual(json.load(file)["energy"], [10_000])

    def test_a_search_that_ends_at_a_limit_says_so(self):
        words = [f"{self.room}/prices.json", f"{self.room}/mixture.json", "--hull", PROGRAM]
        status, _, said = run("convex_prices.py", *self.dear_files(), *words)
        self.assertEqual(status, 0, said)
        due = "prices stand at the limits, per MW and period: energy of period 1 at 10000"
        self.assertIn(f"convex_prices.py: {due}\n", said)

    def test_a_page_says_which_lists_were_cut(self):
        case, schedule = self.dear_files()
        words = ["--schedule", schedule, "--no-schedule", "--skip", "relaxation,elmp", "--hull", PROGRAM]
        status, _, said = run("study.py", case, f"{self.room}/study", *words)
        self.assertEqual(status, 3, said)
        with open(f"{self.room}/study/study.html", encoding="utf-8") as file:
            page = file.read()
        self.assertIn("commitments held; prices of 1 period were cut at the limits</dd>", page)
        self.assertIn(
            "LMP: prices of 1 period were cut at the limits, per MW and period: energy of period 1 from", page
        )

    def test_marginal_prices_are_what_more_or_less_demand_costs(self):
        """By a linear program of the tests' own, which shares nothing with the package."""
        from plain_dispatch import brackets

        for example in ("evening", "windows"):
            status, _, said = run("lmp.py", *files(example), f"{self.room}/prices.json", "--hull", PROGRAM)
            self.assertEqual((status, said), (0, ""))
            with open(f"{self.room}/prices.json", encoding="utf-8") as file:
                prices = json.load(file)
            for key, rows in brackets(*files(example)).items():
                for t, (price, (saved, cost)) in enumerate(zip(prices[key], rows), 1):
                    # (a requirement of 0 can't be less)
                    low = min(saved, 0) if key == "reserve" else saved
                    self.assertTrue(low - 0.01 <= price <= cost + 0.01, (example, key, t, saved, price, cost))

    def test_extended_lmps_spread_the_start_of_a_fast_unit(self):
        """Examples/dear_schedule: PEAKER's 50.00 and 200.00 for a start over 40 MW (worked by hand there)."""
        words = [*files("dear_schedule"), f"{self.room}/prices.json", "--hull", PROGRAM]
        status, _, said = run("elmp.py", *words)
        self.assertEqual((status, said), (0, "elmp.py: fast-start: COAL, PEAKER, NUCLEAR\n"))
        with open(f"{self.room}/prices.json", encoding="utf-8") as file:
            self.assertEqual(json.load(file), {"energy": [55], "reserve": [0]})
        status, _, said = run("elmp.py", *words, "--fast-start", "PEAKER,BLOCK")
        self.assertEqual((status, said), (0, "elmp.py: fast-start: BLOCK, PEAKER\n"))
        status, _, said = run(
            "elmp.py", *files("usual"), f"{self.room}/other.json", "--fast-start-cost", "0", "--hull", PROGRAM
        )
        self.assertEqual(status, 1)
        self.assertIn("no unit is fast-start by the rule given", said)

    def convex(self, example, *more):
        prices, mixture = f"{self.room}/prices.json", f"{self.room}/mixture.json"
        status, _, said = run("convex_prices.py", *files(example), prices, mixture, "--hull", PROGRAM, *more)
        self.assertEqual(status, 0, said)
        return self.settle(example, prices)

    def test_a_mixture_bounds_every_dual_value(self):
        from hulltools.cases import read_case
        from hulltools.costs import Costs
        from hulltools.mixtures import read_mixture
        from hulltools.prices import prices_near

        for example in ("evening", "windows"):
            found, case = self.convex(example, "--within", "1"), read_case(files(example)[0])
            mixture, costs, draw = read_mixture(f"{self.room}/mixture.json", case), Costs(), random.Random(1)
            rows = [costs.of_plan(it, entry.plan) for it in case.thermal for entry in mixture.thermal[it.name]]
            bound = mixture.bound(case, rows, found.prices)
            self.assertLessEqual(bound - found.best.value, 1_000_000)
            for _ in range(5):
                near = [
                    [it + draw.randint(-3000, 3000) for it in row] for row in (found.best.energy, found.best.reserve)
                ]
                self.assertLessEqual(self.settle(example, prices_near(*near)).best.value, bound)

    def test_a_program_without_convex_is_refused(self):
        older = f"{self.room}/older"
        with open(older, "w", encoding="utf-8") as file:
            file.write("#!/bin/sh\nprintf 'fault 1 words 2 1\\n'\nexit 1\n")
        os.chmod(older, 0o755)
        status, _, said = run("study.py", files("usual")[0], f"{self.room}/study", "--hull", older)
        self.assertEqual((status, said), (1, f"study.py: {older} has no command `convex`: a newer program is needed\n"))

    def test_the_certificate_is_what_a_plain_reckoning_finds(self):
        from hulltools.cases import read_case
        from hulltools.costs import Costs

        for example in SMALL:
            found, case, costs = self.convex(example), read_case(files(example)[0]), Costs()
            mixture = hulltools.read_mixture(f"{self.room}/mixture.json", case)
            rows = [costs.of_plan(it, entry.plan) for it in case.thermal for entry in mixture.thermal[it.name]]
            told = hulltools.certify(*files(example), found.prices, mixture, hull=PROGRAM)
            self.assertEqual(told.bound, mixture.bound(case, rows, found.prices))


class Study(unittest.TestCase):
    """Studies of examples/dear_schedule, whose numbers its README works by hand."""

    FOLDER = f"{EXAMPLES}/dear_schedule"
    LISTS = ("Convex hull (certified)", "LMP", "ELMP", "Integer relaxation")

    def setUp(self):
        folder = tempfile.TemporaryDirectory(prefix="hull-study-")
        self.addCleanup(folder.cleanup)
        self.room = folder.name

    def study(self, *words, case=None, status=0):
        """Runs the study of the dear schedule; what it said."""
        given = [case or f"{self.FOLDER}/case.json", self.room, "--schedule", f"{self.FOLDER}/schedule.json"]
        ended, _, said = run("study.py", *given, "--hull", PROGRAM, "--within", "0.01", *words)
        self.assertEqual(ended, status, said)
        return said

    def read(self, name):
        with open(f"{self.room}/{name}", encoding="utf-8", newline="") as file:
            return file.read()

    def rows(self, name):
        return list(csv.DictReader(self.read(name).splitlines()))

    def assert_column(self, name, due):
        """The column of table.csv, by list, to the cent: a list's prices may be a thousandth off the best."""
        rows = {row["list"]: row for row in self.rows("table.csv")}
        for key, number in zip(self.LISTS, due):
            self.assertAlmostEqual(float(rows[key][f"{name}_currency"]), number, delta=0.01, msg=f"{name} of {key}")

    def test_the_gap_in_three_parts(self):
        said = self.study("--best-schedule", f"{self.FOLDER}/best.schedule.json")
        self.assertEqual([row["list"] for row in self.rows("table.csv")], list(self.LISTS))
        self.assert_column("gap", (650, 1200, 1375, 650))
        self.assert_column("gap_schedule", (400, 400, 400, 400))
        self.assert_column("gap_duality", (250, 250, 250, 250))
        self.assert_column("gap_prices", (0, 550, 725, 0))
        due = "onvex hull prices the gap is 650.00: 400.00 is the schedule's part, 250.00 is the duality gap, which no whole prices within the limits of prices save, and at most 0.00 is the prices' part."
        self.assertIn(due, said)
        self.assertIn(html.escape(due), self.read("study.html"))
        self.assertIn("A schedule is known that costs 400.00 less than this one.", self.read("study.html"))

    def test_the_best_schedule_is_made_where_none_is_given(self):
        self.study()
        self.assert_column("gap_schedule", (400, 400, 400, 400))
        self.assertEqual(
            hulltools.check(f"{self.FOLDER}/case.json", f"{self.room}/best.schedule.json", PROGRAM), 3_150_000_000
        )

    def test_a_best_schedule_that_costs_more_is_told(self):
        dear, best = (f"{self.FOLDER}/{name}schedule.json" for name in ("", "best."))
        words = ["--best-schedule", dear, "--skip", "convex_hull,elmp,relaxation", "--hull", PROGRAM]
        self.assertEqual(run("study.py", f"{self.FOLDER}/case.json", self.room, "--schedule", best, *words)[0], 0)
        (row,) = self.rows("table.csv")
        due = "given; it costs 400.00 more than the schedule, which is the best one known"
        self.assertEqual((row["gap_schedule_currency"], row["best_schedule_made"]), ("0", due))
        self.assertIn(due, self.read("study.html"))

    def test_without_a_second_schedule_the_parts_are_not_told_apart(self):
        said = self.study("--no-schedule")
        self.assertEqual({row["gap_schedule_currency"] for row in self.rows("table.csv")}, {""})
        self.assert_column("gap_duality", (650, 650, 650, 650))
        self.assertIn(
            "no whole prices within the limits of prices save 650.00, the schedule's part and the duality gap together",
            said,
        )
        self.assertFalse(os.path.exists(f"{self.room}/best.schedule.json"))

    def test_payments_and_consumers_by_rule(self):
        self.study("--no-schedule")
        self.assert_column("make_whole", (500, 200, 125, 500))
        self.assert_column("make_whole_thermal", (500, 200, 125, 500))
        self.assert_column("full_thermal", (500, 1200, 1375, 500))
        self.assert_column("full_bid", (150, 0, 0, 150))
        self.assert_column("forced_loss", (300, 100, 50, 300))
        self.assert_column("consumers_energy", (3750, 6250, 6875, 3750))
        self.assert_column("consumers_pay_make_whole", (4250, 6450, 7000, 4250))
        self.assert_column("consumers_pay_full", (4400, 7450, 8250, 4400))
        self.assert_column("left_over", (0, 0, 0, 0))
        page = self.read("study.html")
        for due in (
            "Payments: make-whole alone",
            "Payments: make-whole and lost opportunity",
            "Forced losses",
            "must_run",
        ):
            self.assertIn(due, page)
        self.assertIn(
            "A better schedule may save some of the first part, and no whole prices within the limits of prices do;",
            page,
        )
        self.study("--no-schedule", "--rule", "make-whole")
        self.assertNotIn("Payments: make-whole and lost opportunity", self.read("study.html"))

    def test_units_and_hours(self):
        self.study("--no-schedule", "--start", "2026-07-01T00:00", "--hours-per-period", "0.25", "--currency", "EUR")
        rows = {(row["list"], row["unit"]): row for row in self.rows("units.csv")}
        row = rows["LMP", "PEAKER"]
        due = {
            "energy_revenue": 750,
            "production_cost": 750,
            "start_cost": 200,
            "profit": -200,
            "payment": 200,
            "make_whole": 200,
        }
        self.assertEqual({key: float(row[f"{key}_eur"]) for key in due}, due)
        hours = {row["list"]: row for row in self.rows("hours.csv")}
        row = hours["LMP"]
        self.assertEqual(
            (row["begins"], row["energy_price_eur_per_mwh"], row["demand_mw"]), ("2026-07-01T00:00", "200", "125")
        )
        self.assertEqual((row["response_supply_mw"], row["uplift_eur"]), ("160", "1200"))
        self.assertIn("EUR per MWh", self.read("study.html"))
        self.assertIn("Money is in EUR, rounded to the cent, bounds and parts too;", self.read("study.html"))

    def test_fast_start_units_by_name_and_by_rule(self):
        """With BLOCK and PEAKER both relaxed the price is 30.00; with neither ELMP is LMP, 50.00."""
        for words, price in (
            (("--fast-start", "BLOCK,PEAKER"), 30),
            (("--fast-start-up", "4"), 30),
            (("--fast-start-cost", "199"), 50),
            (("--fast-start", "PEAKER", "--online-only"), 55),
        ):
            self.study("--no-schedule", *words)
            self.assertEqual(json.loads(self.read("elmp.prices.json")), {"energy": [price], "reserve": [0]}, words)
        about = {row["list"]: row["about"] for row in self.rows("table.csv")}
        self.assertTrue(about["ELMP"].endswith(" Fast-start: PEAKER"))
        self.assertIn(about["ELMP"], self.read("study.html"))
        self.assertIn('no thermal unit "NONE"', self.study("--no-schedule", "--fast-start", "NONE", status=1))
        for words, due in (
            (["--fast-start", "NONE"], 'no thermal unit "NONE"'),
            (["--best-schedule", "none.json"], "none"),
        ):
            status, _, said = run("study.py", f"{self.FOLDER}/case.json", f"{self.room}/new", "--hull", PROGRAM, *words)
            self.assertEqual((status, due in said, "a schedule is made" in said), (1, True, False), said)

    def killed(self, command):
        """A program that the system ends in a command that is given files."""
        name = f"{self.room}/killed.sh"
        with open(name, "w", encoding="utf-8") as file:
            file.write(f'#!/bin/sh\n[ "$1 $2" != "{command} --case" ] || kill -9 $$\nexec {PROGRAM} "$@"\n')
        os.chmod(name, 0o755)
        return name

    def test_what_was_found_is_kept_where_it_cannot_be_written(self):
        given = [f"{self.FOLDER}/{name}.json" for name in ("case", "schedule")]
        due, rest = "/dev/full: No space left on device; what was found is in ", ["--hull", PROGRAM]
        for tool, words in (
            ("lmp.py", [*given, "/dev/full"]),
            ("elmp.py", [*given, "/dev/full"]),
            ("convex_prices.py", [*given, "/dev/full", f"{self.room}/mixture.json"]),
            ("make_schedule.py", [given[0], "/dev/full"]),
        ):
            status, _, said = run(tool, *words, *rest)
            self.assertEqual((status, due in said), (1, True), said)
            place = said.splitlines()[-1].split(due)[1]
            self.addCleanup(shutil.rmtree, place)
            with open(f"{place}/full", encoding="utf-8") as file:
                self.assertTrue(json.load(file))
        self.assertEqual(sorted(os.listdir(self.room)), [])

    def test_a_list_that_cannot_be_made_is_left_out(self):
        given = (f"{self.FOLDER}/case.json", f"{self.room}/st", "--schedule", f"{self.FOLDER}/schedule.json")
        status, _, said = run("study.py", *given, "--no-schedule", "--hull", self.killed("convex"))
        due = "Convex hull (certified) is left out: hull convex ended with status -9"
        self.assertEqual((status, due in said), (3, True), said)
        with open(f"{self.room}/st/study.html", encoding="utf-8") as page:
            self.assertIn(due, page.read())
        names = os.listdir(f"{self.room}/st")
        self.assertEqual(("lmp.prices.json" in names, "convex_hull.prices.json" in names), (True, False))
        status, _, said = run("study.py", *given[:1], f"{self.room}/none", *given[2:], "--hull", self.killed("settle"))
        self.assertEqual(status, 1)
        kept = re.fullmatch(
            "study.py: hull settle ended with status -9; what was made is in (.*)", said.splitlines()[-1]
        )
        self.assertIn("best.schedule.json", os.listdir(kept[1]))

    def test_lists_of_files_and_of_the_search(self):
        posted = f"{self.room}/posted.json"
        with open(posted, "w", encoding="utf-8") as file:
            file.write('{"energy": [40]}')
        self.study("--no-schedule", "--prices", f"The market's={posted}", "--search")
        names = [row["list"] for row in self.rows("table.csv")]
        self.assertEqual(names, [*self.LISTS, "Subgradient 100", "Subgradient 1,000", "The market's"])
        rows = {row["list"]: row for row in self.rows("table.csv")}
        # (COAL 2,000, BLOCK 500, NUCLEAR -200 and STEEL 50 of 5,000)
        self.assertEqual(rows["The market's"]["value_currency"], "2650")
        self.assertTrue(os.path.exists(f"{self.room}/The_market_s.settlement.txt"))
        self.assertIn("can't be the name of a list", self.study("--no-schedule", "--prices", f"lmp={posted}", status=1))
        with open(posted, "w", encoding="utf-8") as file:
            file.write('{"energy": [40], "reserves": [5]}')
        said = self.study("--no-schedule", "--prices", f"posted={posted}", status=1)
        due = f"study.py: {posted}: `reserves` is no key of it: is `reserve` meant?"
        self.assertEqual(said.splitlines()[-1], due)

    def test_zonal_prices_stand_beside_the_lists(self):
        zones = f"{self.room}/zones.json"
        with open(zones, "w", encoding="utf-8") as file:
            file.write(
                '{"zones": {"N": {"energy": [50]}, "S": {"energy": [30]}}, "units": {"BLOCK": "S"}, "default": "N"}'
            )
        self.study("--no-schedule", "--zones", zones)
        due = {"COAL": 0, "BLOCK": 0, "PEAKER": 200, "NUCLEAR": 0, "STEEL": 0}
        rows = [row for row in self.rows("units.csv") if row["list"] == "Zonal prices"]
        self.assertEqual({row["unit"]: float(row["payment_currency"]) for row in rows}, due)
        self.assertEqual([row["list"] for row in self.rows("table.csv")], list(self.LISTS))
        self.assertIn("Zonal prices have payments by unit alone.", self.read("study.html"))
        self.study("--best-schedule", f"{self.FOLDER}/best.schedule.json", "--zones", zones)
        due = "under each list but zonal prices, which have no such part, 400.00 is the schedule's part."
        self.assertIn(due, self.read("study.html"))

    def test_where_it_came_from(self):
        with mock.patch.dict(os.environ, SOURCE_DATE_EPOCH="1782864000"):
            self.study("--best-schedule", f"{self.FOLDER}/best.schedule.json", "--title", "Title <1>")
        row, page = self.rows("table.csv")[0], self.read("study.html")
        with open(f"{self.FOLDER}/case.json", "rb") as file:
            self.assertEqual(row["case_sha256"], hashlib.sha256(file.read()).hexdigest())
        self.assertEqual((row["schedule_made"], row["date"]), ("given", "2026-07-01T00:00:00Z"))
        self.assertEqual(row["python"], sys.version.split()[0])
        for key in ("hull", "scipy", "highs", "command", "schedule_sha256", "best_schedule_sha256"):
            self.assertIn(html.escape(row[key]), page)
            self.assertTrue(row[key])
        self.assertIn("<h1>Title &lt;1&gt;</h1>", page)
        self.assertNotIn("http", page)

    def test_files_in_the_page_are_those_beside_it(self):
        self.study("--no-schedule")
        held = re.findall(r'download="([^"]+)" href="data:[a-z/]+;base64,([^"]*)"', self.read("study.html"))
        self.assertEqual(len(held), 7)
        for name, data in held:
            self.assertEqual(base64.b64decode(data).decode(), self.read(name))

    def test_a_schedule_that_misses_the_gap_is_told(self):
        from hulltools.scheduling import Made

        case = hulltools.read_case(f"{self.FOLDER}/case.json")
        made = Made(hulltools.read_schedule(f"{self.FOLDER}/best.schedule.json", case), 3150.0, 3087.0, 1000, 0.0005)
        with mock.patch("hulltools.commands.make_schedule.make_schedule", return_value=made):
            self.study(status=3)
        due = (
            "A search for a schedule missed its gap: made by make_schedule.py, the gap of 0.05 % is missed: 2.0000 % of"
        )
        self.assertIn(due, self.read("study.html"))

    def test_a_best_schedule_that_takes_too_long_is_told(self):
        over = hulltools.HullError("the outer limit of 0 s is over: no schedule was found")
        with mock.patch("hulltools.commands.make_schedule.make_schedule", side_effect=over):
            said = self.study(status=3)
        due = "No schedule was made beside this one: the outer limit of 0 s is over: no schedule was found"
        self.assertIn(due, said)
        self.assertIn(due, self.read("study.html"))
        self.assertEqual({row["gap_schedule_currency"] for row in self.rows("table.csv")}, {""})

    def test_convex_hull_prices_that_miss_their_distance_are_told(self):
        """After one round the prices of the linear relaxation have a greater dual value: the headline names these."""
        words = (
            *files("evening")[:1],
            self.room,
            "--schedule",
            files("evening")[1],
            "--hull",
            PROGRAM,
            "--rounds",
            "1",
        )
        status, _, said = run("study.py", *words, "--no-schedule", "--skip", "lmp,elmp")
        page = self.read("study.html")
        due = "The search for convex hull prices missed its distance of 1.00: it came within 380.00 of the greatest dual value"
        for told in (
            due,
            "The list Integer relaxation has a dual value 244.2",
            "t the prices of the list Integer relaxation",
        ):
            self.assertIn(told, said)
            self.assertIn(told, page)
        self.assertEqual(status, 3)
        self.assertNotIn("onvex hull prices the gap is", page + said)
        self.assertIn("The prices of the list Integer relaxation come within 135.7", page)
        self.assertIn(", at least</button>", page)

    def test_a_name_that_turns_text_around_stays_out_of_the_page(self):
        os.makedirs(f"{self.room}/in")
        case = f"{self.room}/in/a\u202e\x1b[31m.json"
        shutil.copy(f"{self.FOLDER}/case.json", case)
        room, self.room = self.room, f"{self.room}/out"
        self.study("--no-schedule", "--title", "a\u202eb", "--skip", "lmp,elmp,relaxation", case=case)
        page = self.read("study.html")
        self.assertEqual([it for it in page if it in "\u202e\x1b"], [])
        self.assertIn("a??[31m.json, sha256", page)
        self.room = room

    def test_a_larger_case(self):
        files = f"{EXAMPLES}/windows/case.json", f"{EXAMPLES}/windows/schedule.json"
        status, _, said = run(
            "study.py", files[0], self.room, "--schedule", files[1], "--no-schedule", "--hull", PROGRAM
        )
        self.assertEqual(status, 0, said)
        told = hulltools.read_output(f"{self.room}/certificate.txt")
        for row in self.rows("table.csv"):
            above = Decimal(row["gap_currency"]) - Decimal(told.least) / 10**6
            self.assertEqual(Decimal(row["gap_prices_currency"]), above)
        by_list = {}
        for row in self.rows("hours.csv"):
            by_list[row["list"]] = by_list.get(row["list"], 0) + Decimal(row["uplift_currency"])
        self.assertEqual(by_list, {row["list"]: Decimal(row["gap_currency"]) for row in self.rows("table.csv")})
        words = [
            f"{self.room}/convex_hull.settlement.txt",
            f"{self.room}/page.html",
            "--certificate",
            f"{self.room}/certificate.txt",
        ]
        self.assertEqual(run("report.py", "page", *words), (0, "", ""))
        self.assertIn(f"is within {money(told.distance)} of the greatest", self.read("page.html"))


class Calls(unittest.TestCase):
    """The tools as calls, over examples/dear_schedule and its numbers."""

    FOLDER = f"{EXAMPLES}/dear_schedule"

    def setUp(self):
        self.case = hulltools.read_case(f"{self.FOLDER}/case.json")
        with open(f"{self.FOLDER}/schedule.json", encoding="utf-8") as file:
            self.schedule = json.load(file)

    def test_prices_from_objects_and_dicts(self):
        given = (self.case, self.schedule)
        self.assertEqual(hulltools.lmp(*given, hull=PROGRAM).energy, [50_000])
        self.assertEqual(hulltools.elmp(*given, hull=PROGRAM).energy, [55_000])
        self.assertEqual(hulltools.elmp(*given, fast_start=["BLOCK", "PEAKER"], hull=PROGRAM).energy, [30_000])
        self.assertEqual(hulltools.integer_relaxation(self.case).energy, [30_000])
        found = hulltools.convex_prices(*given, within=0.01, hull=PROGRAM)
        self.assertLessEqual(found.distance, 10_000)
        told = hulltools.certify(*given, found.prices, found.mixture, hull=PROGRAM)
        self.assertEqual((told.value, told.bound), (found.value, found.bound))

    def test_a_schedule_of_a_changed_case(self):
        """At 2 % more demand COAL gives 77.5 MW: 1,550 + 1,500 + 600 - 450."""
        case = self.case.scaled(demand=1.02)
        made = hulltools.make_schedule(case, hull=PROGRAM)
        self.assertEqual((hulltools.check(case, made.schedule, PROGRAM), made.is_near), (3_200_000_000, True))
        self.assertEqual((made.cost, made.cost_in_currency), (3_200_000_000, 3200))
        self.assertIsInstance(made.bound, int)
        self.assertTrue(3_190_000_000 < made.bound <= made.cost)
        self.assertAlmostEqual(made.solver_cost, 3200.0)

    def test_a_program_that_is_not_there_is_told_before_the_search(self):
        told = []
        for call in (
            lambda: hulltools.make_schedule(self.case, hull="/none/hull", tell=told.append),
            lambda: hulltools.follow_schedule(self.case, self.schedule, hull="/none/hull", tell=told.append),
        ):
            with self.assertRaisesRegex(hulltools.HullError, "^/none/hull: No such file or directory"):
                call()
        self.assertEqual(told, [])

    def test_steps_without_a_limit_of_time(self):
        given = self.case, self.schedule
        made = hulltools.make_schedule(self.case, hull=PROGRAM, seconds=None)
        self.assertEqual(made.schedule, hulltools.make_schedule(self.case, hull=PROGRAM).schedule)
        self.assertEqual(hulltools.lmp(*given, hull=PROGRAM, seconds=None).energy, [50_000])
        self.assertEqual(hulltools.integer_relaxation(self.case, seconds=None).energy, [30_000])

    def test_options_out_of_range_are_told(self):
        given = self.case, self.schedule
        for call, due in (
            (lambda: hulltools.make_schedule(self.case, gap=-1), "gap is -1: a number of at least 0 is due"),
            (lambda: hulltools.make_schedule(self.case, nodes=0), "nodes is 0: a whole number from 1 to"),
            (lambda: hulltools.lmp(*given, seconds="x"), "seconds is x: a number of at least 0 and at most"),
            (lambda: hulltools.elmp(*given, most_up=1.5), "most_up is 1.5: a whole number from 0 to 1,000,000 is due"),
            (lambda: hulltools.elmp(*given, fast_start="GT"), r"fast_start is GT: .* as \['GT'\]"),
            (lambda: hulltools.elmp(*given, online_only="no"), "online_only is no: True or False is due"),
            (lambda: hulltools.elmp(*given, fast_start=["GT"], most_up=2), "fast_start is given, and most_up or most_"),
            (lambda: hulltools.study(*given, titel="x"), "`study` has no option `titel`: is `title` meant"),
            (lambda: hulltools.study(*given, rounds="x"), "an option of `study` is refused: argument `rounds`: .*'x'"),
            (lambda: hulltools.study(*given, skip="foo"), "`skip` foo: there is no such list: these are convex_hull, "),
            (lambda: hulltools.study(*given, skip=["a,b"]), "skip has a,b: a name in this list has no comma"),
            (lambda: hulltools.make_schedule(self.case, seconds=0), ".*: give `seconds` or `gap` more$"),
        ):
            said = io.StringIO()
            with contextlib.redirect_stderr(said), self.assertRaisesRegex(hulltools.HullError, f"^{due}"):
                call()
            self.assertEqual(said.getvalue(), "")

    def test_a_settlement_with_a_name_and_times(self):
        settled = hulltools.settle(self.case, self.schedule, {"energy": [50]}, PROGRAM, name="LMP")
        self.assertEqual((settled.name, settled.payments), ("LMP", 1_200_000_000))
        frames = settled.frames(self.case, start="2026-07-01T06:00", hours_per_period=0.25)
        self.assertEqual(set(frames["units"]["report"]), {"LMP"})
        self.assertEqual(str(frames["prices"].index[0]), "2026-07-01 06:00:00")

    def test_zones(self):
        zones = {"zones": {"N": {"energy": [50]}, "S": {"energy": [30]}}, "units": {"BLOCK": "S"}, "default": "N"}
        found = hulltools.settle_zones(self.case, self.schedule, zones, PROGRAM)
        self.assertEqual([unit.payment for unit in found.units], [0, 0, 200_000_000, 0, 0])
        self.assertEqual(list(found.frame()["zone"]), ["N", "S", "N", "N", "N"])

    def test_a_study(self):
        best = hulltools.read_schedule(f"{self.FOLDER}/best.schedule.json", self.case)
        words = dict(
            best_schedule=best, start="2026-07-01T00:00", currency="EUR", prices={"Posted": {"energy": [40.5]}}
        )
        found = hulltools.study(self.case, self.schedule, hull=PROGRAM, **words)
        self.assertRegex(repr(found), r"^<Study '': cost=\d+, lists=Convex hull \(certified\), LMP, .*Posted>$")
        frames = found.frames()
        lists = frames["lists"].set_index("list")
        self.assertEqual(list(lists["gap_schedule_eur"]), [400.0] * 5)
        self.assertEqual(dict(lists["key"])["Convex hull (certified)"], "convex_hull")
        self.assertEqual(found.parts("Convex hull (certified)"), found.parts("convex_hull"))
        with self.assertRaisesRegex(hulltools.HullError, "^the study has no list convex hull: is `convex_hull` meant"):
            found.parts("convex hull")
        self.assertEqual(lists.loc["LMP", "consumers_pay_full_eur"], 7450)
        self.assertEqual(str(frames["hours"].index[0]), "2026-07-01 00:00:00")
        self.assertIn("Posted", set(frames["units"]["list"]))
        self.assertEqual(set(frames["hours"]["key"]), set(found.lists))
        texts = hulltools.frames(found.lists)["units"]
        with open(f"{ROOT}/docs/PYTHON.md", encoding="utf-8") as page:
            renamed = re.search(r"`frame(\.rename\(columns=.*?\))`", page.read())[1]
        both = eval(f"frame{renamed}", {"frame": frames["units"]}).merge(texts, on=["report", "kind", "name"])
        self.assertEqual(len(both), len(texts))
        self.assertEqual(both["payment_eur"].tolist(), both["payment_currency"].tolist())
        again = hulltools.settle(self.case, self.schedule, found.lists["LMP"], PROGRAM)
        self.assertEqual(again.units, found.lists["lmp"].settlement.units)
        with self.assertRaisesRegex(hulltools.HullError, "`study` has no option `colour`"):
            hulltools.study(self.case, self.schedule, hull=PROGRAM, colour="red")

    def test_the_study_of_the_page_runs(self):
        """The study of docs/PYTHON.md, behind its session."""
        program = self.program("hulltools.study(")
        known = {"hulltools": hulltools, "case": self.case.scaled(demand=1.02)}
        here = os.getcwd()
        with tempfile.TemporaryDirectory() as room, mock.patch.dict(os.environ, HULL=PROGRAM):
            os.chdir(room)
            try:
                exec(program, known)
                self.assertIn("study.html", os.listdir("study"))
            finally:
                os.chdir(here)
        self.assertEqual(known["posted"].name, "Posted")
        self.assertEqual(
            sum(known["found"].parts("convex_hull").__dict__.values()), known["found"].parts("convex_hull").gap
        )

    def test_the_sweep_of_the_page_runs(self):
        """The sweep of docs/PYTHON.md: COAL's 20.00 per MWh are 50.00 for each 2.5 MW of demand."""
        program = self.program("swept = {}")
        known = {"hulltools": hulltools, "case": self.case}
        with mock.patch.dict(os.environ, HULL=PROGRAM):
            exec(program, known)
        costs = dict(zip(known["runs"].index, known["runs"]["cost_currency"]))
        self.assertEqual(costs, {0.98: 3100.0, 1.0: 3150.0, 1.02: 3200.0})

    def test_the_sweep_of_two_parameters_runs(self):
        """The sweep of docs/PYTHON.md with pairs: COAL gives 72.5 or 75 MW, and 20.00 per MWh become 22.00."""
        known = {"hulltools": hulltools, "case": self.case}
        with mock.patch.dict(os.environ, HULL=PROGRAM):
            exec(self.program("pandas.concat("), known)
        runs = known["runs"]
        self.assertEqual(list(runs.index.names[:2]), ["demand", "coal"])
        costs = {pair: runs.loc[pair, "cost_currency"].item() for pair in known["cases"]}
        self.assertEqual(costs, {(0.98, 1): 3100.0, (0.98, 1.1): 3245.0, (1, 1): 3150.0, (1, 1.1): 3300.0})

    def test_what_a_sweep_leaves_out_is_told_apart(self):
        """The longer sweep of docs/PYTHON.md: the units give less than five times the demand."""
        known = {"hulltools": hulltools, "case": self.case}
        with mock.patch.dict(os.environ, HULL=PROGRAM):
            exec(self.program("left_out"), known)
        self.assertEqual(list(known["schedules"]), [1])
        self.assertEqual(known["left_out"], {5: "can't be met, period 1"})
        with self.assertRaises(hulltools.OverTime) as caught:
            hulltools.make_schedule(self.case, seconds=0)
        self.assertIn("give `seconds` or `gap` more", caught.exception.sentence)
        no_unit = copy.deepcopy(self.case)
        no_unit.thermal[0].must_run, no_unit.thermal[0].marks = 1, [0]
        with self.assertRaises(hulltools.CannotBeMet) as caught:
            hulltools.make_schedule(no_unit)
        self.assertEqual((caught.exception.unit, caught.exception.period), (no_unit.thermal[0].name, 1))
        with self.assertRaises(hulltools.CannotBeMet):
            hulltools.integer_relaxation(self.case.scaled(demand=5))

    def test_a_frame_in_megawatts_is_followed(self):
        """The two programs of docs/PYTHON.md that follow."""
        try:
            import pandas
        except ImportError:
            self.skipTest("pandas isn't there")
        known = {"hulltools": hulltools, "case": self.case.scaled(demand=1.02)}
        with mock.patch.dict(os.environ, HULL=PROGRAM):
            exec(self.program("rows = ["), known)
        followed, powers = known["followed"], known["powers"]
        self.assertEqual([followed.schedule.plan(it).power for it in ("COAL", "PEAKER")], [[100_000], [17_500]])
        self.assertEqual((followed.bound, followed.gap, followed.is_near), (None, None, None))
        self.assertEqual((followed.farthest_mw, followed.deviations), (0, []))
        self.assertRegex(repr(followed), r"^<Made: schedule=<Schedule: .*>, cost=\d+, farthest_mw=0.0>$")
        said = io.StringIO()
        with mock.patch.dict(os.environ, HULL=PROGRAM), contextlib.redirect_stdout(said):
            exec(self.program("again.deviations"), known)
        self.assertEqual(said.getvalue(), "PEAKER in period 1: power 17 MW there, 17.5 MW here\n")
        self.assertEqual(known["again"].farthest_mw, 0.5)
        for given in (followed, followed.schedule, followed.schedule.frame()):
            same = hulltools.follow_schedule(known["case"], given, hull=PROGRAM)
            self.assertEqual((same.schedule, same.deviations), (followed.schedule, []))
        powers = powers.copy()
        as_dict = {
            "thermal": {
                "COAL": {"on": [1], "power": [100]},
                "PEAKER": {"on": [1], "power": pandas.Series([17.5])},
                "NUCLEAR": {"on": [1], "power": [10]},
                "BLOCK": {"on": [0], "power": [0]},
            }
        }
        again = hulltools.follow_schedule(known["case"], as_dict, hull=PROGRAM)
        self.assertEqual(again.schedule, followed.schedule)
        said = []
        near = powers.assign(power=[10.0, 100.0, 17.0, 0.0], spin=0)
        hulltools.follow_schedule(known["case"], near, hull=PROGRAM, tell=said.append)
        self.assertIn("the powers given: spin are skipped", said)
        self.assertRegex(
            said[-1], "^1 of its powers differs from the powers given by up to 0.5 MW: PEAKER in period 1: "
        )
        for changed, due in (
            (powers.drop(columns="power"), "has no column `power`"),
            (powers.rename(columns={"power": "power_mw"}), r"`power_mw` is no column of it: is `power` meant\?"),
            (powers.assign(reserves=0), r"`reserves` is no column of it: is `reserve` meant\?"),
            ({**as_dict, "renewables": {}}, r"`renewables` is no key of it: is `renewable` meant\?"),
            ({"thermal": {"COAL": {"pwoer": [1]}}}, r"thermal: COAL: `pwoer` is no key of it: is `power` meant\?"),
            (powers.assign(period=1.5), "row 1: no row of unit, period from 1 to 1, and numbers"),
            (powers.assign(period=[1, 2, 1, 1]), "row 2: period 2 isn't one of 1 to 1"),
            (powers.assign(unit="COAL"), 'row 2: a second row of unit "COAL" and period 1'),
            (powers.replace("COAL", "COAl"), r"the case has no unit COAl: is `COAL` meant\?"),
            (powers[:3], 'it has no rows of thermal unit "BLOCK"'),
            (powers[["unit", "period", "on", "on", "power"]], "the column 'on' stands twice"),
            (powers.replace(17.5, "17,5"), "row 3: no row of .*, and numbers: `power` is 17,5$"),
            (
                powers.assign(power=powers["power"] * 1e3),
                r"power 100000 MW of COAL in period 1, and it gives at most .*\?",
            ),
            (hulltools.Schedule({}), 'it has no rows of thermal unit "'),
            ({"thermal": {"COAL": {"power": [float("nan")]}}}, "thermal, COAL, power, item 1 is nan"),
            (3, "no `int` can be taken: a data frame, a schedule, a dict or a file's name is due"),
        ):
            with self.assertRaisesRegex(hulltools.HullError, f"^the powers given.*({due})"):
                hulltools.follow_schedule(known["case"], changed, hull=PROGRAM)
        with self.assertRaisesRegex(hulltools.CannotBeMet, "its commitments can't be met in this case"):
            hulltools.follow_schedule(known["case"], powers.assign(on=0), hull=PROGRAM)

    def test_hours_have_the_offset_of_a_start_in_a_zone(self):
        start = datetime(2026, 7, 1, tzinfo=zoneinfo.ZoneInfo("Europe/Berlin"))
        lists = [it.key for it in LISTS if it.key != "lmp"]
        hours = hulltools.study(self.case, self.schedule, hull=PROGRAM, start=start, skip=lists, no_schedule=True)
        hours = hours.frames()["hours"]
        self.assertEqual(str(hours.index.tz), "UTC+02:00")
        self.assertEqual(hours.tz_convert("Europe/Berlin").index[0], start)

    def test_a_case_that_hull_refuses_is_refused_before_a_solver_sees_it(self):
        """Its cost points end below its most power; less demand than its least power can't be met either, and that isn't what is told."""
        case = self.case.scaled(demand=1)
        case.unit("COAL").most += 1
        case.demand = [0]
        for call in (
            lambda: hulltools.integer_relaxation(case),
            lambda: hulltools.make_schedule(case, hull=PROGRAM),
            lambda: hulltools.follow_schedule(case, self.schedule, hull=PROGRAM),
        ):
            with self.assertRaises(hulltools.HullError) as found:
                call()
            self.assertNotIsInstance(found.exception, hulltools.CannotBeMet)
            self.assertEqual(found.exception.status, 3)
            self.assertIn(
                "piecewise_production doesn't reach from the least to the greatest power", str(found.exception)
            )

    def test_a_folder_that_goes_meanwhile_is_told(self):
        with tempfile.TemporaryDirectory(prefix="hull-study-") as room:
            words = {"hull": PROGRAM, "no_schedule": True, "skip": ["elmp", "relaxation", "convex_hull"]}

            def gone(study):
                shutil.rmtree(f"{room}/st")
                return {}

            with mock.patch("hulltools.study_tables.tables_of_study", gone):
                with self.assertRaisesRegex(hulltools.HullError, "No such file or directory"):
                    hulltools.study(self.case, self.schedule, f"{room}/st", **words)

    def test_what_a_call_made_stays_where_it_is_interrupted(self):
        said = []
        with tempfile.TemporaryDirectory(prefix="hull-study-") as room:
            words = {"hull": PROGRAM, "no_schedule": True, "skip": ["elmp", "relaxation", "convex_hull"]}
            with mock.patch("hulltools.study_page.study_page", side_effect=KeyboardInterrupt):
                with self.assertRaises(KeyboardInterrupt):
                    hulltools.study(self.case, self.schedule, f"{room}/st", tell=said.append, **words)
            due, place = said[-1].split("; what was made is in ")
            self.assertEqual(due, "interrupted before the study was written")
            self.assertIn("lmp.settlement.txt", os.listdir(place))

    def test_calls_say_what_they_do(self):
        said = []
        with mock.patch.dict(os.environ, HULL_PROGRESS="1"), mock.patch("hulltools.progress.FIRST", 0.0):
            made = hulltools.make_schedule(self.case, hull=PROGRAM, tell=said.append)
        self.assertRegex("\n".join(said), "^searching for a schedule: 0 s")
        said.clear()
        hulltools.study(self.case, made, hull=PROGRAM, tell=said.append, skip=["elmp"])
        self.assertTrue([line for line in said if line.startswith("LMP: gap ")], said)
        self.assertTrue(all(isinstance(line, str) and "--" not in line for line in said), said)

    def test_a_folder_that_is_hardly_meant_is_refused(self):
        home = "`~` is your home in a shell alone, and os.path.expanduser names it here"
        for folder, due in (
            ("~/study", f"folder is ~/study: {home}"),
            (pathlib.Path("~"), f"folder is ~: {home}"),
            (b"study", "folder is b'study': a folder's name is due"),
            ("", "a study needs a folder's name: write . for this one"),
        ):
            with self.assertRaises(hulltools.HullError) as found:
                hulltools.study(self.case, self.schedule, folder, hull=PROGRAM, no_schedule=True)
            self.assertEqual(found.exception.sentence, due)

    def test_a_study_without_room_for_temporary_files(self):
        full = OSError(28, "No space left on device")
        for name, why, due in (
            ("open", full, "^the schedule given, in .*schedule.json: No space left on device$"),
            ("tempfile.TemporaryDirectory", full, "^a temporary folder: No space left on device$"),
        ):
            with mock.patch(f"hulltools.calls.{name}", side_effect=why, create=True):
                with self.assertRaisesRegex(hulltools.HullError, due):
                    hulltools.study(self.case, self.schedule, hull=PROGRAM)

    def test_studies_of_several_threads_leave_standard_output_as_it_is(self):
        """Their words are read at one time, and nothing that another thread prints meanwhile may be lost."""
        printed, begun = io.StringIO(), threading.Barrier(2)

        def words_read(self, words):
            begun.wait(30)  # (each reads its words while the other does)
            print("read")
            begun.wait(30)
            return argparse.ArgumentParser.parse_args(self, words)

        def study(title):
            lists = [it.key for it in LISTS if it.key != "lmp"]
            return hulltools.study(self.case, self.schedule, hull=PROGRAM, skip=lists, no_schedule=True, title=title)

        asker = mock.patch("hulltools.commands.words.Asker.parse_args", words_read, create=True)
        with contextlib.redirect_stdout(printed), asker, concurrent.futures.ThreadPoolExecutor(2) as pool:
            found = list(pool.map(study, ("one", "other")))
            self.assertIs(sys.stdout, printed)
        self.assertEqual([it.wanted.title for it in found], ["one", "other"])
        self.assertEqual(printed.getvalue(), "read\n" * 2)

    def program(self, part):
        """The first program of docs/PYTHON.md that has a part."""
        with open(f"{ROOT}/docs/PYTHON.md", encoding="utf-8") as page:
            return next(it for it in re.findall(r"```python\n(.*?)```", page.read(), re.S) if part in it)

    def test_refusals_carry_their_parts(self):
        self.schedule["thermal"]["PEAKER"]["power"] = [41_000]
        with self.assertRaises(hulltools.HullError) as caught:
            hulltools.check(self.case, self.schedule, PROGRAM)
        error = caught.exception
        self.assertEqual((error.status, error.unit, error.period), (4, "PEAKER", 1))
        self.assertIn('thermal unit "PEAKER"', error.sentence)
        with self.assertRaisesRegex(hulltools.HullError, "the energy price of period 2 is None: a number is due"):
            hulltools.per_mwh([1, None])
        with self.assertRaisesRegex(hulltools.HullError, "the reserve price of period 1 is nan: a number is due"):
            hulltools.per_mwh([1], [float("nan")])


class Sweep(unittest.TestCase):
    """Examples/dear_schedule under changes, by hand: at 30.00 each MWh more costs 20.00 in the schedule and 30.00 in the dual value."""

    def setUp(self):
        folder = tempfile.TemporaryDirectory(prefix="hull-sweep-")
        self.addCleanup(folder.cleanup)
        self.room = f"{folder.name}/sweep"
        state = mock.patch.dict(os.environ, XDG_STATE_HOME=f"{folder.name}/state")
        self.addCleanup(state.stop)
        state.start()

    def sweep(self, *words):
        status, _, said = run("sweep.py", *files("dear_schedule")[:1], self.room, "--hull", PROGRAM, *words)
        return status, said

    def gaps(self):
        with open(f"{self.room}/sweep.csv", encoding="utf-8") as file:
            rows = list(csv.DictReader(file))
        return {
            row["scenario"]: round(float(row["gap_currency"]), 1) for row in rows if row["list"].startswith("Convex")
        }

    def test_each_change_by_itself(self):
        words = ["--demand=-2%,+2%", "--offer", "COAL=+10%", "--outage", "BLOCK", "--", "--within", "0.01"]
        status, said = self.sweep(*words)
        self.assertEqual(status, 0, said)
        due = {"base": 250, "demand -2%": 275, "demand +2%": 225, "offer COAL +10%": 200, "outage BLOCK": 125}
        self.assertEqual(self.gaps(), due)
        with open(f"{self.room}/sweep.svg", encoding="utf-8") as file:
            picture = file.read()
        self.assertEqual(picture.count("<title>LMP: "), len(due))

    def test_it_goes_on_with_what_is_left(self):
        self.assertEqual(self.sweep("--demand=+2%")[0], 0)
        with open(f"{self.room}/base/table.csv", "rb") as file:
            before = file.read()
        os.unlink(f"{self.room}/demand_+2/done.json")
        status, said = self.sweep("--demand=+2%")
        self.assertEqual((status, said.count("it is done")), (0, 1), said)
        with open(f"{self.room}/base/table.csv", "rb") as file:
            self.assertEqual(file.read(), before)
        for name in ("base", "demand_+2"):  # (what somebody has changed or cut isn't taken)
            with open(f"{self.room}/{name}/table.csv", "wb") as file:
                file.write(before[:-9].replace(b"250", b"1") if name == "base" else b"")
        status, said = self.sweep("--demand=+2%")
        self.assertEqual(
            (status, said.count("it is done"), self.gaps()), (0, 0, {"base": 250, "demand +2%": 225}), said
        )
        self.assertIn(f"{self.room}/base/table.csv.changed is what somebody has made", said)
        with open(f"{self.room}/base/table.csv.changed", "rb") as file:
            self.assertEqual(file.read(), before[:-9].replace(b"250", b"1"))
        self.assertNotIn("it is done", self.sweep("--demand=+2%", "--", "--within", "0.5")[1])

    def test_a_program_behind_the_other_words_is_that_of_the_whole_sweep(self):
        log, name = f"{os.path.dirname(self.room)}/log", f"{os.path.dirname(self.room)}/noted.sh"
        with open(name, "w", encoding="utf-8") as file:
            file.write(f'#!/bin/sh\necho $1 >> {log}\nexec {PROGRAM} "$@"\n')
        os.chmod(name, 0o755)
        words = ["--", "--skip", "elmp,relaxation", "--hull", name]
        status, _, said = run("sweep.py", *files("dear_schedule")[:1], self.room, *words)
        self.assertEqual(status, 0, said)
        with open(log, encoding="utf-8") as file:
            self.assertLessEqual({"check", "settle", "convex", "certify"}, set(file.read().split()))

    def test_without_a_place_for_a_key_all_is_made_anew_and_told(self):
        place = f"{os.path.dirname(self.room)}/none"
        with open(place, "w", encoding="utf-8"):
            pass
        due = f"sweep.py: {place}/hull/key: no key of yours alone can be kept there, so a later run makes all anew"
        with mock.patch.dict(os.environ, XDG_STATE_HOME=place):
            status, said = self.sweep("--", "--skip", "elmp,convex_hull")
        self.assertEqual((status, due in said), (0, True), said)
        for done in (0, 1):
            status, said = self.sweep("--", "--skip", "elmp,convex_hull")
            self.assertEqual((status, "no key" in said, said.count("it is done")), (0, False, done), said)

    def program_of(self, note):
        """A program of other bytes than any other one."""
        place = f"{os.path.dirname(self.room)}/hull"
        with open(place, "w", encoding="utf-8") as file:
            file.write(f'#!/bin/sh\n# {note}\nexec "{PROGRAM}" "$@"\n')
        os.chmod(place, 0o755)
        return place

    def test_what_another_program_made_is_made_anew(self):
        for note, done in (("one", 0), ("one", 1), ("another", 0)):
            words = (*files("dear_schedule")[:1], self.room, "--hull", self.program_of(note), "--", "--skip", "elmp")
            status, _, said = run("sweep.py", *words)
            self.assertEqual((status, said.count("it is done")), (0, done), said)

    def test_what_another_version_of_scipy_made_is_made_anew(self):
        words = ("--", "--skip", "elmp,convex_hull")
        self.assertEqual(self.sweep(*words)[0], 0)
        with mock.patch("hulltools.commands.sweep.scipy_version", return_value="0.1"):
            for done in (0, 1):
                status, said = self.sweep(*words)
                self.assertEqual((status, said.count("it is done")), (0, done), said)

    def test_no_table_of_the_sweep_before_stays(self):
        self.assertEqual(self.sweep("--", "--skip", "elmp")[0], 0)
        self.assertIn("sweep.svg", os.listdir(self.room))
        with mock.patch("hulltools.commands.sweep.table_of", side_effect=hulltools.HullError("none")):
            self.assertEqual(self.sweep("--", "--skip", "elmp")[0], 1)
        self.assertEqual([it for it in os.listdir(self.room) if it.startswith("sweep.")], [])
        with open(f"{self.room}/UNFINISHED.txt", encoding="utf-8") as file:
            self.assertIn("The table and the picture of this sweep aren't there", file.read())
        self.assertEqual(self.sweep("--", "--skip", "elmp")[0], 0)
        names = os.listdir(self.room)
        self.assertEqual(("sweep.csv" in names, "UNFINISHED.txt" in names), (True, False))

    def test_what_another_sweep_makes_meanwhile_is_in_no_table(self):
        made = hulltools.commands.sweep.table_of

        def made_beside(folder, *more):
            table = made(folder, *more)
            if folder.named.endswith("demand_+2"):  # (by then another sweep has made the base by other words)
                with mock.patch("hulltools.commands.sweep.table_of", made):
                    self.assertEqual(self.sweep("--", "--skip", "elmp")[0], 0)
            return table

        with mock.patch("hulltools.commands.sweep.table_of", made_beside):
            status, said = self.sweep("--demand=+2%", "--", "--skip", "relaxation")
        due = (
            f"{os.path.realpath(self.room)}/base: this was changed meanwhile, so there is no table of all: sweep again"
        )
        self.assertEqual((status, due in said), (1, True), said)
        self.assertEqual([it for it in os.listdir(self.room) if it.startswith("sweep.")], [])
        self.assertEqual(self.sweep("--demand=+2%", "--", "--skip", "relaxation")[0], 0)

    def test_a_case_that_cannot_be_met_is_left_out(self):
        status, said = self.sweep("--outage", "COAL")
        self.assertEqual((status, list(self.gaps())), (1, ["base"]))
        self.assertIn("outage COAL is left out: the case can't be met: in period 1 the units give at most 100 MW", said)
        with open(f"{self.room}/UNFINISHED.txt", encoding="utf-8") as file:
            due = "Left out: 1 of 2 scenarios are done. A folder of another one may be of a sweep before.\n"
            self.assertEqual(file.read(), due)

    def test_a_scenario_of_which_a_list_failed_is_made_anew(self):
        name = f"{self.room}.sh"
        self.addCleanup(os.unlink, name)
        with open(name, "w", encoding="utf-8") as file:
            file.write(f'#!/bin/sh\n[ "$1 $2" != "convex --case" ] || kill -9 $$\nexec {PROGRAM} "$@"\n')
        os.chmod(name, 0o755)
        words = ["sweep.py", *files("dear_schedule")[:1], self.room, "--hull", name]
        for _ in range(2):
            status, _, said = run(*words)
            self.assertEqual((status, "base isn't done: the same words make it anew" in said), (1, True), said)
        self.assertTrue(os.path.exists(f"{self.room}/base/lmp.prices.json"))

    def test_a_list_that_took_too_long_is_told_until_other_seconds_make_it(self):
        """The second scenario's search for convex hull prices takes a minute the first time."""
        program, flag, lacks = f"{self.room}.sh", f"{self.room}.flag", f"{self.room}/demand_+2/lacks.txt"
        slow = f"[ -e {flag} ] || [ ! -e {self.room}/base/done.json ] || {{ : >{flag}; exec sleep 60; }}"
        with open(program, "w", encoding="utf-8") as file:
            file.write(f'#!/bin/sh\nif [ "$1 $2" = "convex --case" ]; then {slow}; fi\nexec {PROGRAM} "$@"\n')
        os.chmod(program, 0o755)
        words = ["sweep.py", *files("dear_schedule")[:1], self.room, "--hull", program, "--demand=+2%", "--"]
        told = "Convex hull (certified) is left out: the outer limit of 20 s is over: hull convex"
        for seconds, due in (("20", (3, 0, 1)), ("20", (3, 2, 1)), ("200", (0, 1, 0)), ("300", (0, 2, 0))):
            status, _, said = run(*words, "--skip", "elmp", "--seconds", seconds)
            self.assertEqual((status, said.count("it is done"), said.count(told)), due, said)
            self.assertEqual(os.path.exists(lacks), status == 3)
        self.assertEqual(self.gaps(), {"base": 250, "demand +2%": 225})

    def test_a_table_that_somebody_has_changed_gets_another_name(self):
        words = ["--", "--skip", "elmp,relaxation,convex_hull"]
        self.assertEqual(self.sweep(*words)[0], 0)
        with open(f"{self.room}/sweep.csv", "a", encoding="utf-8") as file:
            file.write("mine\n")
        status, said = self.sweep(*words)
        self.assertEqual((status, f"{self.room}/sweep.csv.changed is what somebody has made" in said), (0, True), said)
        with open(f"{self.room}/sweep.csv.changed", encoding="utf-8") as file:
            self.assertTrue(file.read().endswith("mine\n"))
        self.assertEqual(self.sweep(*words)[0], 0)

    def test_a_search_that_missed_its_distance_is_told_by_each_run(self):
        rest = ["--skip", "elmp,relaxation", "--within", "0", "--rounds", "1"]
        told = "The search for convex hull prices missed its distance of 0.00"
        for done in (0, 1):
            status, said = self.sweep("--", *rest)
            self.assertEqual((status, said.count("it is done"), told in said), (3, done, True), said)

    def test_a_file_of_the_words_that_is_changed_meanwhile(self):
        prices, program = f"{self.room}.p.json", f"{self.room}.sh"
        for name in (prices, program):
            self.addCleanup(os.unlink, name)
        with open(prices, "w", encoding="utf-8") as file:
            file.write('{"energy": [100]}')
        with open(program, "w", encoding="utf-8") as file:  # (the second scenario finds other prices)
            change = f"""[ ! -e {self.room}/base/table.csv ] || echo '{{"energy": [5]}}' >{prices}"""
            file.write(f'#!/bin/sh\n{change}\nexec {PROGRAM} "$@"\n')
        os.chmod(program, 0o755)
        rest = ["--", "--prices", f"P={prices}", "--skip", "convex_hull,relaxation,elmp"]
        words = ["sweep.py", *files("dear_schedule")[:1], self.room, "--hull", program, "--demand=+1%,+2%", *rest]
        status, _, said = run(*words)
        self.assertEqual((status, "so there is no table of all: sweep again" in said), (1, True), said)
        self.assertFalse(os.path.exists(f"{self.room}/sweep.csv"))
        self.assertEqual(run(*words)[0], 0)

    def test_a_fast_start_unit_may_be_out(self):
        words = ["--outage", "PEAKER", "--", "--fast-start", "PEAKER,BLOCK", "--skip", "convex_hull"]
        status, said = self.sweep(*words)
        self.assertEqual(status, 0, said)
        with open(f"{self.room}/sweep.csv", encoding="utf-8") as file:
            about = {row["scenario"]: row["about"] for row in csv.DictReader(file) if row["list"] == "ELMP"}
        self.assertEqual([it.split("Fast-start: ")[1] for it in about.values()], ["BLOCK, PEAKER", "BLOCK"])
        self.assertIn("PEAKER of --fast-start is out\n", said)
        status, said = self.sweep("--outage", "PEAKER", "--", "--fast-start", "PEAKER", "--skip", "convex_hull")
        self.assertEqual(status, 0, said)
        self.assertIn("PEAKER of --fast-start is out, and no other unit is named: there is no list ELMP\n", said)
        status, said = self.sweep("--", "--fast-start", "NONE")
        self.assertEqual((status, said), (1, 'sweep.py: the case has no thermal unit "NONE"\n'))

    def test_zones_are_refused_since_no_table_has_them(self):
        status, said = self.sweep("--", "--zones", "zones.json")
        self.assertEqual((status, os.path.exists(self.room)), (1, False))
        self.assertIn("--zones: the tables of a sweep have no payments by zone", said)

    def test_changes_that_are_none(self):
        for words, due in (
            (["--demand=much"], "'much' is no change in per cent"),
            (["--offer", "COAL"], "'COAL' is no change of an offer"),
            (["--outage", "GAS"], 'the case has no unit "GAS"'),
        ):
            status, said = self.sweep(*words)
            self.assertEqual(status, 1)
            self.assertIn(due, said)


if __name__ == "__main__":
    sys.dont_write_bytecode = True
    unittest.main()
