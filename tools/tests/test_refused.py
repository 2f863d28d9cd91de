"""What the package refuses by itself, before the program is started: with a sentence that names the value and what is due."""
import copy
import hashlib
import json
import os
import pickle
import subprocess
import sys
import tempfile
import unittest
import warnings
from decimal import Decimal
from unittest import mock

from tool import EXAMPLES, PROGRAM, ROOT, python_with, run

import hulltools
import hulltools.inputs
from hulltools import HullError, calls
from hulltools.price_lists import LMP
from hulltools.studies import Settled

USUAL = f"{EXAMPLES}/usual/case.json", f"{EXAMPLES}/usual/schedule.json"
WINDOWS = f"{EXAMPLES}/windows/case.json", f"{EXAMPLES}/windows/schedule.json"
MIXTURE = f"{EXAMPLES}/certified/mixture.json"
FAULT = "fault 4 schedule 40 kind thermal unit 2 item 0"
NO_UNIT = f'{EXAMPLES}/evening/schedule.json: thermal unit "G2" (number 2): the case has no unit of that name and kind.'


def usual():
    """The case, and as a dict."""
    with open(USUAL[0], encoding="utf-8") as file:
        return hulltools.read_case(USUAL[0]), json.load(file)


class Refusals(unittest.TestCase):
    def refused(self, due, call, *given, **how):
        """The error, whose sentence is due, where no program is started."""
        with mock.patch.object(subprocess, "run", side_effect=AssertionError("the program was started")):
            with self.assertRaises(HullError) as found:
                call(*given, **how)
        self.assertEqual((found.exception.sentence, str(found.exception)), (due, due))
        return found.exception

    def check_rows(self, rows):
        for call, due in rows:
            with self.subTest(due):
                self.refused(due, call)


class Prices(Refusals):
    def test_prices_out_of_the_limits(self):
        least = "from 0 to 10,000 per MW and period is due"
        either = "from -10,000 to 10,000 per MW and period is due"
        for given, period, due in (
            ((35, -1), None, f"the reserve price is -1: {least}"),
            (([35, 35], [1, -1]), 2, f"the reserve price of period 2 is -1: {least}"),
            ((20000,), None, f"the energy price is 20000: {either}"),
            (([1, -10001],), 2, f"the energy price of period 2 is -10001: {either}"),
            ((1e300,), None, f"the energy price is 1e+300: {either}"),
            (("1_5",), None, "the energy price is 1_5: a number is due"),
            ((b"5",), None, "the energy price is b'5': a number is due"),
            (([1, "\u0663"],), 2, "the energy price of period 2 is \u0663: a number is due"),
        ):
            self.assertEqual(self.refused(due, hulltools.per_mwh, *given).period, period)
        self.assertEqual(hulltools.per_mwh(10000, 0).energy, 10_000_000)
        self.assertEqual(hulltools.per_mwh("-10000.0004", "-0.0004"), hulltools.FlatPrices(-10_000_000, 0))

    def test_what_is_no_price_of_a_period(self):
        lists = "a list of one number for each period is due, and not"
        self.check_rows(
            (
                (lambda: hulltools.per_mwh(True), "the energy price is True: a number is due"),
                (lambda: hulltools.per_mwh([3, False]), "the energy price of period 2 is False: a number is due"),
                (lambda: hulltools.per_mwh([[3]]), "the energy price of period 1 is [3]: a number is due"),
                (lambda: hulltools.per_mwh({30: 1}), f"the energy prices: {lists} {{30: 1}}"),
                (
                    lambda: hulltools.per_mwh([]),
                    "the energy prices: the list is empty, and a number for each period is due",
                ),
                (
                    lambda: hulltools.per_mwh([98, 99], [1]),
                    "there are not as many reserve prices as energy prices: 1 and 2",
                ),
                (
                    lambda: hulltools.prices_near([1, 2], [0]),
                    "there are not as many reserve prices as energy prices: 1 and 2",
                ),
                (
                    lambda: hulltools.prices_near([float("nan")], [0]),
                    "the energy price of period 1 is nan: a number is due",
                ),
                (lambda: hulltools.prices_near(98000.4, 0), f"the energy prices: {lists} 98000.4"),
            )
        )

    def test_arrays_of_two_dimensions(self):
        python = python_with("numpy")
        if not python:
            self.skipTest("no Python here has NumPy")
        code = (
            f"import sys; sys.path.insert(0, {ROOT + '/tools'!r}); import hulltools, numpy\n"
            "for it in (numpy.full((2, 1), 3.0), numpy.full((1, 2), 3.0), numpy.array([True])):\n"
            "    try:\n        print(hulltools.per_mwh(it))\n"
            "    except hulltools.HullError as why:\n        print(why.sentence.partition(':')[0])\n"
            "print(hulltools.Prices(numpy.array([98000]), numpy.array([0])).text().strip())\n"
        )
        ran = subprocess.run([python, "-B", "-c", code], capture_output=True, text=True, timeout=120)
        due = ["the energy prices"] * 2 + ["the energy price of period 1 is True"]
        self.assertEqual((ran.stdout.splitlines(), ran.stderr), ([*due, '{"energy": [98], "reserve": [0]}'], ""))

    def test_a_dict_with_what_is_no_number(self):
        """NaN is told of a dict as it is of `per_mwh`, with its period, and with its unit in a case or a schedule."""
        nan = float("nan")
        per_price = "the energy price of period 2 is nan: a number is due"
        with mock.patch.object(hulltools.Hull, "need"):
            for call in (
                lambda: hulltools.per_mwh([98, nan]),
                lambda: hulltools.settle(*USUAL, {"energy": [98, nan]}, hull=PROGRAM),
                lambda: hulltools.settle(*USUAL, {"energy": (98.0, nan)}, hull=PROGRAM),
            ):
                self.assertEqual(self.refused(per_price, call).period, 2)
        given = (
            (("demand",), [nan], "demand, item 1", None, 1),
            (
                ("thermal_generators", "G1"),
                {"startup": [{"lag": 1, "cost": nan}]},
                "thermal_generators, G1, startup, item 1, cost",
                "G1",
                None,
            ),
            (
                ("renewable_generators", "W1"),
                {"power_output_maximum": [Decimal("NaN")]},
                "renewable_generators, W1, power_output_maximum, item 1",
                "W1",
                1,
            ),
        )
        for path, value, where, unit, period in given:
            _, case = usual()
            if len(path) > 1:
                case[path[0]][path[1]].update(value)
            else:
                case[path[0]] = value
            for call in (hulltools.inputs.as_case, lambda one: hulltools.check(one, USUAL[1], PROGRAM)):
                with self.assertRaisesRegex(
                    HullError, f"^the case given: {where} is (?i:nan): a number is due$"
                ) as found:
                    call(case)
                self.assertEqual((found.exception.unit, found.exception.period), (unit, period))

    def test_prices_in_millionths_are_whole_and_within_the_limits(self):
        case, _ = usual()
        due = "a whole number from -10,000,000 to 10,000,000 is due"
        named = "the energy price of period 1, in millionths per kilowatt, is"
        for energy, told in ((98000.5, "98000.5"), (20_000_000, "20000000"), (True, "True")):
            prices = hulltools.Prices([energy], [0])
            for call in (prices.text, lambda: hulltools.settle(case, USUAL[1], prices, hull=PROGRAM)):
                with self.assertRaises(HullError) as found:
                    call()
                self.assertEqual((str(found.exception), found.exception.period), (f"{named} {told}: {due}", 1))

    def test_prices_show_themselves_per_mw(self):
        long = hulltools.per_mwh([98.5] * 24)
        self.assertEqual(repr(hulltools.per_mwh([98])), "<Prices per MW and period: energy=[98], reserve=[0]>")
        self.assertEqual(repr(hulltools.Prices([98], [0])), "<Prices per MW and period: energy=[0.098], reserve=[0]>")
        self.assertEqual(repr(hulltools.per_mwh(98, 2)), "<FlatPrices per MW and period: energy=98, reserve=2>")
        self.assertIn("energy=[98.5, 98.5, 98.5, 98.5, ..]", repr(long))
        self.assertEqual(repr(hulltools.Prices(98, None)), "<Prices per MW and period: energy=[0.098], reserve=[None]>")
        self.assertEqual(long.in_currency_per_mw(), {"energy": [Decimal("98.5")] * 24, "reserve": [Decimal(0)] * 24})

    def test_prices_of_shorter_periods(self):
        self.assertEqual(
            hulltools.per_mwh(30, [2, 4], hours_per_period=0.5), hulltools.Prices([15000] * 2, [1000, 2000])
        )
        for hours in (0, -1, "x", None, float("inf")):
            with self.assertRaisesRegex(HullError, "^hours_per_period is .*: a number above 0 is due$"):
                hulltools.per_mwh(30, hours_per_period=hours)

    def test_a_length_that_is_known_starts_no_program(self):
        case, as_dict = usual()
        due = "the prices given: energy has 2 prices, and the case 1 period"
        for given in (hulltools.per_mwh([98, 99]), {"energy": [98, 99]}, {"energy": (98, 99)}):
            for one in (case, as_dict):
                with mock.patch.object(hulltools.Hull, "need"):
                    self.refused(due, hulltools.settle, one, USUAL[1], given, hull=PROGRAM)


class Keys(Refusals):
    def test_a_key_that_means_nothing_is_refused(self):
        schedule = {"thermal": {"G1": {"on": [1], "pwr": [8000], "reserve": [0]}}, "renewable": {"W1": [0]}}
        zones = {"zones": {"all": {"energy": [98], "reserves": [0]}}, "default": "all"}
        with mock.patch.object(hulltools.Hull, "need"):
            self.check_rows(
                (
                    (
                        lambda: hulltools.settle(*USUAL, {"energy": [98], "reserves": [0]}, hull=PROGRAM),
                        "the prices given: `reserves` is no key of it: is `reserve` meant?",
                    ),
                    (
                        lambda: hulltools.settle(*USUAL, {"energy": [98], "Reserve": [0]}, hull=PROGRAM),
                        "the prices given: `Reserve` is no key of it: is `reserve` meant?",
                    ),
                    (
                        lambda: hulltools.settle(*USUAL, {"foo": 1}, hull=PROGRAM),
                        "the prices given: `foo` is no key of it: known: `energy`, `reserve`",
                    ),
                    (
                        lambda: hulltools.check(USUAL[0], schedule, PROGRAM),
                        "the schedule given: thermal: G1: `pwr` is no key of it: is `power` meant?",
                    ),
                    (
                        lambda: hulltools.certify(
                            *USUAL, {"energy": [98]}, {"weight": 1, "thermals": {}}, hull=PROGRAM
                        ),
                        "the mixture given: `thermals` is no key of it: is `thermal` meant?",
                    ),
                )
            )
        with self.assertRaisesRegex(
            HullError, "^the zones given: zones: all: `reserves` is no key of it: is `reserve`"
        ):
            hulltools.settle_zones(*USUAL, zones, PROGRAM)

    def test_what_is_refused_of_an_object_has_the_status_of_its_file(self):
        case, _ = usual()
        schedule = hulltools.read_schedule(USUAL[1], case)
        case.demand = [8000, 8000]
        schedule.plan("G1").power = [0.5]
        for status, call, due in (
            (
                3,
                lambda: hulltools.check(case, USUAL[1], PROGRAM),
                "the case given: demand has 2 items, and the case 1 period",
            ),
            (
                4,
                lambda: hulltools.check(USUAL[0], schedule, PROGRAM),
                'the schedule given: thermal "G1": power of period 1 is 0.5: a whole number of kilowatts is due',
            ),
            (
                9,
                lambda: hulltools.settle(*USUAL, hulltools.Prices([98000.5], [0]), PROGRAM),
                "the energy price of period 1, in millionths per kilowatt, is 98000.5: "
                "a whole number from -10,000,000 to 10,000,000 is due",
            ),
        ):
            self.assertEqual(self.refused(due, call).status, status)

    def test_a_schedule_in_place_of_its_case_is_told(self):
        case, _ = usual()
        schedule = hulltools.read_schedule(USUAL[1], case)
        told = "this is a schedule. Are the two swapped? The schedule comes first here, and then its case"
        for given, name in ((USUAL[1], USUAL[1]), (schedule, "the case given")):
            self.refused(f"{name}: {told}", hulltools.read_schedule, USUAL[0], given)
        self.refused("the case: thermal is a kind: give a name too", case.unit, kind="thermal")

    def test_a_prices_file_with_a_misspelt_reserve_is_refused(self):
        with tempfile.TemporaryDirectory(prefix="hull-refused-") as room:
            name = f"{room}/prices.json"
            for rest, misspelt in (
                ('"reserves": [5]', "reserves"),
                ('"Reserve": [5]', "Reserve"),
                ('"source": 1, "resrve": [5]', "resrve"),
                ('"spinning_reserve": [5]', "spinning_reserve"),
                ('"reserve_eur_per_mw": [5]', "reserve_eur_per_mw"),
                ('"source": 1', None),
                ('"reserve": [5], "reserves": 1', None),
            ):
                with open(name, "w", encoding="utf-8") as file:
                    file.write(f'{{"energy": [98], {rest}}}')
                if not misspelt:
                    self.assertEqual(hulltools.read_prices(name).energy, [98_000])
                    continue
                due = f"{name}: `{misspelt}` is no key of it: is `reserve` meant?"
                self.assertEqual(self.refused(due, hulltools.read_prices, name).status, 9)
                self.assertEqual(self.refused(due, hulltools.settle, *USUAL, name, PROGRAM).status, 9)

    def test_of_a_case_it_is_warned(self):
        _, case = usual()
        with warnings.catch_warnings():
            warnings.simplefilter("error")
            hulltools.check(case, USUAL[1], PROGRAM)
        case["demnd_bids"] = {}
        with self.assertWarnsRegex(
            UserWarning, "the case given: `demnd_bids` is no key of it: is `demand_bids`"
        ) as told:
            cost = hulltools.check(case, USUAL[1], PROGRAM)
        self.assertEqual((told.filename, cost), (__file__, hulltools.check(*USUAL, PROGRAM)))


class Options(Refusals):
    def test_numbers_beside_files(self):
        program, prices = hulltools.Hull(PROGRAM), hulltools.per_mwh(98)
        radius = (
            "a whole number from 0 to 20,000,000 is due, in millionths per kilowatt: 1000 is 1.00 per MW and period"
        )

        def certify(**how):
            return lambda: hulltools.certify(*USUAL, prices, MIXTURE, hull=PROGRAM, **how)

        def price(**how):
            return lambda: hulltools.price(*USUAL, hull=PROGRAM, **how)

        def convex(**how):
            return lambda: hulltools.convex_prices(*USUAL, hull=PROGRAM, **how)

        self.check_rows(
            (
                (certify(radius=1.0), f"radius is 1.0: {radius}"),
                (certify(radius=-1), f"radius is -1: {radius}"),
                (certify(radius=True), f"radius is True: {radius}"),
                (lambda: program.certify(*USUAL, prices, MIXTURE, radius=0.5), f"radius is 0.5: {radius}"),
                (lambda: program.price(*USUAL, proposals=0), "proposals is 0: a whole number from 1 to 10,000 is due"),
                (lambda: program.price(*USUAL, ahead=17), "ahead is 17: a whole number from 1 to 16 is due"),
                (price(proposals=0), "proposals is 0: a whole number from 1 to 10,000 is due"),
                (price(ahead=20), "ahead is 20: a whole number from 1 to 16 is due"),
                (convex(rounds=0), "rounds is 0: a whole number from 1 to 1,000 is due"),
                (convex(rounds=2000), "rounds is 2000: a whole number from 1 to 1,000 is due"),
                (convex(rounds=1.5), "rounds is 1.5: a whole number from 1 to 1,000 is due"),
                (convex(within=-1), "within is -1: a number of at least 0 and at most 1,000,000 is due"),
                (convex(seconds="x"), "seconds is x: a number of at least 0 and at most 2,000,000 is due"),
            )
        )

    def test_factors_and_names_of_a_changed_case(self):
        case, _ = usual()
        factor = "a number of at least 0 is due"
        curve = "has no cost curve that `offers` could scale: a thermal unit is due"
        bids = hulltools.read_case(f"{EXAMPLES}/evening/case.json")
        bids = bids if bids.bids else hulltools.read_case(f"{EXAMPLES}/bids/case.json")
        self.check_rows(
            (
                (lambda: case.scaled(demand=float("nan")), f"the factor of demand is nan: {factor}"),
                (lambda: case.scaled(demand=[1]), f"the factor of demand is [1]: {factor}"),
                (lambda: case.scaled(renewable=-1), f"the factor of renewable is -1: {factor}"),
                (
                    lambda: case.scaled(offers=1.1),
                    'offers is 1.1: factors by the names of thermal units are due, as {"G1": 1.05}',
                ),
                (lambda: case.scaled(offers={"W1": 1.1}), f'"W1" {curve}'),
                (lambda: bids.scaled(offers={bids.bids[0].name: 1.1}), f'"{bids.bids[0].name}" {curve}'),
                (lambda: case.without("GEN01"), 'the case has no unit "GEN01": known: `G1`, `W1`'),
                (
                    lambda: case.without(["A", "B"]),
                    "['A', 'B'] is no name of a unit: give names one by one, as without(*names)",
                ),
            )
        )

    def test_a_changed_case_has_units_and_lists_of_its_own(self):
        """What a script sets in one of them isn't set in the other."""
        for change in (lambda case: case.scaled(), lambda case: case.without()):
            case = hulltools.read_case(f"{EXAMPLES}/evening/case.json")
            due = case.text()
            found = change(case)
            self.assertEqual(found.text(), due)
            for numbers in (found.demand, found.reserves, found.renewable[0].most):
                numbers[0] += 1000
            found.unit("G1").must_run, found.unit("G1").marks[0] = 1, 1
            found.unit("G1").lags.append((99, 10**9))
            found.bids[0].blocks[0].clear()
            self.assertNotEqual(found.text(), due)
            self.assertEqual(case.text(), due)

    def test_a_factor_of_many_digits(self):
        for factor in ("1e-99999999", Decimal("1e-9999999"), "1E+1000"):
            self.refused(
                f"the factor of demand is {factor}: a number of at least 0 is due", usual()[0].scaled, demand=factor
            )

    def test_a_case_of_fractions(self):
        """A number that a script has put into a case is told with its unit and its period."""
        due = "a whole number of kilowatts is due"
        calls = (
            lambda case: case.write("nowhere.json"),
            lambda case: hulltools.check(case, USUAL[1], PROGRAM),
            lambda case: hulltools.frames([], case),
            hulltools.inputs.as_case,
            lambda case: case.scaled(),
            lambda case: case.without(),
        )
        for owner, member, value, where, unit, period in (
            ((), "demand", [8000.5], f"demand of period 1 is 8000.5: {due}", None, 1),
            ((), "reserves", [float("nan")], f"reserves of period 1 is nan: {due}", None, 1),
            ((), "demand", 8000, "demand is 8000: a list is due", None, None),
            (("thermal",), "power0", 1.5, f'thermal "G1": power0 is 1.5: {due}', "G1", None),
            (("thermal",), "on0", 0.5, 'thermal "G1": on0 is 0.5: a whole number is due', "G1", None),
            (
                ("thermal",),
                "points",
                [(0, 0), (9000, 0.5)],
                'thermal "G1": points, item 2, is 0.5: a whole number of millionths is due',
                "G1",
                None,
            ),
            (("renewable",), "most", [Decimal("0.5")], f'renewable "W1": most of period 1 is 0.5: {due}', "W1", 1),
        ):
            for call in calls:
                case, _ = usual()
                setattr(getattr(case, owner[0])[0] if owner else case, member, value)
                found = self.refused(f"the case given: {where}", call, case)
                self.assertEqual((found.unit, found.period), (unit, period))
        case, _ = usual()
        case.demand = [8500.0]
        self.assertIn('"demand": [8.5]', case.text())

    def test_a_name_that_is_no_member_is_not_set(self):
        case, _ = usual()
        schedule = hulltools.read_schedule(USUAL[1], case)
        bid = hulltools.Bid("B", [[]])
        for holder, name, meant in (
            (case, "reserve", "reserves"),
            (case.thermal[0], "mustrun", "must_run"),
            (case.renewable[0], "mots", "most"),
            (bid, "block", "blocks"),
            (hulltools.per_mwh([30]), "enrgy", "energy"),
            (hulltools.per_mwh(30), "enrgy", "energy"),
            (hulltools.Mixture(1, {}), "wieght", "weight"),
            (schedule, "plan", "plans"),
            (schedule.plan("G1"), "powers", "power"),
        ):
            kind = type(holder).__name__
            due = f"`{kind}` has no member `{name}` to set: is `{meant}` meant?"
            self.refused(due, setattr, holder, name, [8000])
            self.assertNotIn(name, vars(holder))
        self.assertEqual(pickle.loads(pickle.dumps(case)), case)
        self.assertEqual(copy.deepcopy(schedule), schedule)

    def test_a_unit_is_found_by_keywords(self):
        case, _ = usual()
        report = hulltools.read_output(f"{EXAMPLES}/usual/price.output", hulltools.Report)
        schedule = hulltools.read_schedule(USUAL[1], case)
        for find in (case.unit, report.unit, schedule.plan):
            self.assertIs(find(name="G1"), find("thermal", "G1"))
            self.assertIs(find(kind="thermal", name="G1"), find("G1"))
            with self.assertRaisesRegex(HullError, ": the name of a unit or bid is due$"):
                find()

    def test_the_program_is_told_from_a_name(self):
        with self.assertRaises(HullError) as found:
            hulltools.settle(*USUAL, hulltools.per_mwh([98]), "Posted")
        due = "Posted: No such file or directory: `hull` is the place of the program, and `name` names a settlement"
        self.assertEqual((str(found.exception), found.exception.line), (due, "Posted: No such file or directory"))
        self.assertEqual(hulltools.Hull(PROGRAM).settle(*USUAL, hulltools.per_mwh(98), name="Posted").name, "Posted")

    def test_what_cannot_be_told_anything_is_refused_before_the_work(self):
        due = "tell is True: a function that gets each line is due, as print"
        self.refused(due, hulltools.Hull, PROGRAM, tell=True)


class OfAProgram(unittest.TestCase):
    """A `Hull` takes what the functions take, and words of the program besides."""

    def test_numbers_go_as_they_do_to_the_functions(self):
        program, given = hulltools.Hull(PROGRAM), (*USUAL, hulltools.per_mwh(98), MIXTURE)
        due = hulltools.certify(*given, radius=1000, hull=PROGRAM)
        self.assertEqual((due.radius, program.certify(*given, radius=1000)), (1000, due))
        self.assertEqual(program.certify(*given, "--radius", 1000), due)
        self.assertEqual(program.certify(*given), hulltools.certify(*given, hull=PROGRAM))
        report = hulltools.price(*USUAL, proposals=3, ahead=2, hull=PROGRAM)
        self.assertEqual((report.budget, report.ahead), (3, 2))
        self.assertEqual(program.price(*USUAL, proposals=3, ahead=2), report)
        self.assertEqual(program.price(*USUAL, "--proposals", "3", ahead=2), report)

    def test_another_program_behind_a_launcher_has_other_sums(self):
        with tempfile.TemporaryDirectory(prefix="hull-program-") as room:
            for behind in ("bin/hull", "dist/linux-x86_64/hull"):
                place = os.path.realpath(f"{room}/{behind}")
                os.makedirs(os.path.dirname(place))
                found = []
                for text in ("one", "another"):
                    for name, script in ((f"{room}/hull", "#!/bin/sh\necho hull 1\n"), (place, text)):
                        with open(name, "w", encoding="utf-8") as file:
                            file.write(script)
                    os.chmod(f"{room}/hull", 0o755)
                    program = hulltools.Hull(f"{room}/hull")
                    self.assertEqual(program.files()[-1], place)
                    found.append(program.sums())
                    self.assertEqual(found[-1][0], "1")
                self.assertEqual((len(found[0]), found[0] == found[1]), (3, False))
                os.remove(place)

    def test_the_mark_of_an_audit_has_the_sum_of_what_a_launcher_runs(self):
        script = f"""import os, sys
from types import SimpleNamespace
sys.path.insert(0, {f"{ROOT}/workflow/scripts"!r})
import step
step.mark_audit(SimpleNamespace(name="d", settings=SimpleNamespace(audits="marks", program=os.path.realpath("hull"))),
                dict.fromkeys(step.STEPS["audit"].takes, "0"))
"""
        with tempfile.TemporaryDirectory(prefix="hull-program-") as room:
            os.mkdir(f"{room}/bin")
            for name in ("hull", "bin/hull"):
                with open(f"{room}/{name}", "w", encoding="utf-8") as file:
                    file.write(name)
            os.chmod(f"{room}/hull", 0o755)
            subprocess.run([sys.executable, "-B", "-c", script], cwd=room, check=True)
            (mark,) = os.listdir(f"{room}/marks")
            with open(f"{room}/marks/{mark}", encoding="utf-8") as file:
                lines = file.read().splitlines()
        for name in ("hull", "bin/hull"):
            place, due = os.path.realpath(f"{room}/{name}"), hashlib.sha256(name.encode()).hexdigest()
            self.assertIn(f"sum of {place}: {due}", lines)

    def test_it_can_be_sent_to_another_process(self):
        program = pickle.loads(pickle.dumps(hulltools.Hull(PROGRAM, seconds=60)))
        self.assertEqual((program.check(*USUAL), program.seconds), (hulltools.check(*USUAL, PROGRAM), 60))

    def test_convex_has_the_name_of_the_function_too(self):
        program = hulltools.Hull(PROGRAM)
        self.assertEqual(program.convex_prices(*USUAL, rounds=5), program.convex(*USUAL, rounds=5))


class Words(Refusals):
    """What a tool says by its words, and a call by its parameters."""

    def test_options_are_told_as_parameters(self):
        for told, due in (
            ("give --seconds or --gap more", "give `seconds` or `gap` more"),
            ("--skip foo: no such list (--fast-start-up)", "`skip` foo: no such list (`fast_start_up`)"),
            ("a--b, x --, --1", "a--b, x --, --1"),
        ):
            self.assertEqual(calls.in_a_call(told), due)

    def test_lists_are_words(self):
        options = {"skip": ["elmp", "relaxation"], "fast_start": ("G1",), "search": True, "title": None, "zones": []}
        self.assertEqual(calls.words_of(options), ["--skip=elmp,relaxation", "--fast-start=G1", "--search"])
        self.assertEqual(calls.words_of({"fast_start": [], "skip": []}), ["--fast-start="])
        found = calls.words_of({"skip": iter(["elmp", "lmp"]), "fast_start": {"G1": 1}.keys()})
        self.assertEqual(found, ["--skip=elmp,lmp", "--fast-start=G1"])
        with self.assertRaisesRegex(HullError, "^the prices a=b given: a name of a list has no `=`$"):
            calls.named_prices({"a=b": hulltools.per_mwh(30)}, usual()[0])
        names = calls.words_of({"fast_start": ["A", "B, old", '"C"']})
        self.assertEqual(names, ['--fast-start=A,"B, old","""C"""'])
        due = "skip has a,b: a name in this list has no comma"
        self.refused(due, calls.words_of, {"skip": ["a,b"]})


class Sentences(unittest.TestCase):
    def test_an_error_is_its_sentence_with_the_line(self):
        with self.assertRaises(HullError) as found:
            hulltools.check(USUAL[0], f"{EXAMPLES}/evening/schedule.json", PROGRAM)
        error, line = found.exception, f"hull check ended with status 4: {FAULT}"
        self.assertEqual((error.sentence, error.line, str(error)), (NO_UNIT, line, f"{NO_UNIT} ({line})"))
        self.assertEqual(vars(HullError("x"))["sentence"], "x")

    def test_a_tool_tells_the_line_alone(self):
        with tempfile.TemporaryDirectory(prefix="hull-refused-") as room:
            words = [USUAL[0], f"{EXAMPLES}/evening/schedule.json", f"{room}/prices", f"{room}/mixture"]
            status, _, said = run("convex_prices.py", *words, "--hull", PROGRAM)
        self.assertEqual((status, said), (1, f"convex_prices.py: hull convex ended with status 4: {FAULT}\n"))

    def test_a_file_that_is_not_there_has_one_status(self):
        for call in (
            lambda: hulltools.read_prices("nope.json"),
            lambda: hulltools.read_case("nope.json"),
            lambda: hulltools.settle(*USUAL, "nope.json", hull=PROGRAM),
        ):
            with self.assertRaises(HullError) as found:
                call()
            self.assertEqual(found.exception.status, 2)
            self.assertIn("nope.json", found.exception.sentence)

    def test_an_item_by_period_is_of_its_period(self):
        from hulltools.refusals import period_of

        for line, period in (
            ("fault 9 prices 23 field reserve item 4", 4),
            ("fault 9 prices 25 field energy item 0", None),
            ("fault 3 case 23 field reserves kind case unit 0 item 3", 3),
            ("fault 3 case 30 field power_output_minimum kind renewable unit 1 item 2", 2),
            ("fault 3 case 26 field piecewise_production kind thermal unit 2 item 2", None),
            ("fault 4 schedule 43 kind thermal unit 1 item 2", 2),
            ("fault 4 schedule 44 kind thermal unit 1 period 6 left 0 right 1", 6),
        ):
            self.assertEqual(period_of(line), period, line)

    def test_advice_that_fits(self):
        for prices, due in (
            (
                {"energy": [98], "reserve": [-1]},
                "reserve, item 1: it is below 0. Found: -1. A price of reserve is 0 or more.",
            ),
            (
                hulltools.per_mwh([98] * 24),
                "energy: it hasn't an item for the one period. Found: [98, ..]; it has 24 items.",
            ),
        ):
            with self.assertRaises(HullError) as found:
                hulltools.settle(*USUAL, prices, hull=PROGRAM)
            self.assertEqual(found.exception.sentence, f"the prices given: {due}")
        with tempfile.TemporaryDirectory(prefix="hull-refused-") as room:
            with open(f"{room}/prices.json", "w", encoding="utf-8") as file:
                file.write('{"energy":[98500,98500]}')
            with self.assertRaises(HullError) as found:
                hulltools.settle(*USUAL, f"{room}/prices.json", hull=PROGRAM)
        self.assertNotIn("decimal comma", found.exception.sentence)

    def test_a_line_is_told_of_a_dict_of_files(self):
        files = {"case": USUAL[0], "schedule": f"{EXAMPLES}/evening/schedule.json"}
        self.assertEqual(hulltools.sentence(FAULT, files), NO_UNIT)
        self.assertEqual(hulltools.sentence(FAULT, hulltools.Files(files)), NO_UNIT)


class Readers(Refusals):
    def test_a_case_is_taken_by_its_name(self):
        case = hulltools.read_case(USUAL[0])
        self.assertEqual(hulltools.read_schedule(USUAL[1], USUAL[0]), hulltools.read_schedule(USUAL[1], case))
        self.assertEqual(hulltools.read_mixture(MIXTURE, USUAL[0]), hulltools.read_mixture(MIXTURE, case))

    def test_a_plan_that_is_not_there(self):
        schedule = hulltools.read_schedule(*reversed(USUAL))
        self.check_rows(
            (
                (lambda: schedule.plan("thermal", "G7"), 'the schedule has no thermal unit "G7": known: `G1`'),
                (lambda: schedule.plan("therm", "G1"), "the schedule has no kind therm: is `thermal` meant?"),
            )
        )

    def test_a_plan_has_what_its_kind_can_have(self):
        """Its file would be without the flag or the reserve, which were dropped without a word."""
        for key, number, due in (
            ("on", 0, "on of period 1 is 0, which a thermal unit alone can have: a power of 0 is off"),
            ("reserve", 1000, "reserve of period 1 is 1000, and a thermal unit alone keeps reserve"),
        ):
            schedule = hulltools.read_schedule(*reversed(USUAL))
            setattr(schedule.plan("W1"), key, [number])
            self.check_rows(((schedule.text, f'the schedule given: renewable "W1": {due}'),))

    def test_numbers_by_key_are_no_list(self):
        """Its keys would be taken for the numbers, as those of a dict by period, and of a set the order isn't sure."""
        for numbers in ({1: 2000}, {2000}):
            case, schedule = hulltools.read_case(USUAL[0]), hulltools.read_schedule(*reversed(USUAL))
            case.reserves = schedule.plan("G1").power = numbers
            self.check_rows(
                (
                    (lambda: hulltools.inputs.as_case(case), f"the case given: reserves is {numbers}: a list is due"),
                    (
                        schedule.text,
                        f'the schedule given: thermal "G1": power is {numbers}: a list of a number for each period is due',
                    ),
                )
            )

    def test_what_is_no_name(self):
        place = "`hull` is the place of the program, and no `int` can be that"
        files = "files is a dict of files' names, by `case`, `schedule`, `prices`, `mixture` and `report`"
        self.check_rows(
            (
                (lambda: hulltools.read_case(None), "a file's name is due, of a case, and no `NoneType`"),
                (lambda: hulltools.read_prices(5), "a file's name is due, of prices, and no `int`"),
                (lambda: hulltools.read_output(5), "a file's name is due, of a text of hull, and no `int`"),
                (lambda: hulltools.Hull(5), place),
                (lambda: hulltools.sentence(FAULT, {"case": 5}), files),
                (lambda: hulltools.sentence(FAULT, 5), files),
            )
        )

    def test_a_text_of_one_type(self):
        name = f"{EXAMPLES}/usual/price.output"
        with open(name, encoding="utf-8") as file:
            printed = file.read()
        report = hulltools.read_output(name, hulltools.Report)
        self.assertEqual((report.chosen, report.units), (1, hulltools.read_output(name).units))
        self.assertEqual(hulltools.read_output(printed).units, report.units)
        self.assertEqual(hulltools.read_output(name, ("hull-report 1",)).units, report.units)
        some = "one of `hull` `price`, `settle`, `convex`, `bound`, `fixed` or `certify` is due"
        check = f"{EXAMPLES}/windows/check.output"
        self.check_rows(
            (
                (
                    lambda: hulltools.read_output(name, hulltools.Settlement),
                    f"{name}: this is a report of `hull price`, where a text of `hull settle` is due",
                ),
                (lambda: hulltools.read_output(check), f"{check}: this is a text of `hull check`: {some}"),
                (lambda: hulltools.read_output(USUAL[0]), f"{USUAL[0]}: this is no text of hull: {some}"),
                (
                    lambda: hulltools.read_output(name, int),
                    "due is <class 'int'>: a type of texts is due, as `Report`, or a first line of one",
                ),
            )
        )
        with self.assertRaises(HullError) as found:
            hulltools.read_output("x\n" * 5000)
        self.assertLess(len(str(found.exception)), 400)

    def test_a_text_is_told_from_a_name(self):
        empty = "a file's name or a text of hull is due, and what is given is empty"
        none = "hull-settle 1: No such file or directory: this is taken for a file's name, since a text of hull has several lines"
        self.check_rows(
            (
                (lambda: hulltools.read_output(""), empty),
                (lambda: hulltools.read_output("\n"), empty),
                (lambda: hulltools.read_output("hull-settle 1"), none),
                (lambda: hulltools.read_output("nope"), "nope: No such file or directory"),
            )
        )

    def test_numbers_of_a_list_are_said_each(self):
        self.assertEqual(hulltools.in_currency([164000000, 5]), [Decimal(164), Decimal("0.000005")])
        self.assertEqual(hulltools.in_currency_per_mw([98500]), [Decimal("98.5")])
        self.assertEqual(hulltools.in_megawatts((8500,)), [Decimal("8.5")])
        self.refused("1.5 is no whole number, as an amount in millionths is", hulltools.in_currency, 1.5)


class NoJson(unittest.TestCase):
    """A reader refuses a text with the code, the place and the words that the program has."""

    def setUp(self):
        folder = tempfile.TemporaryDirectory(prefix="hull-refused-")
        self.addCleanup(folder.cleanup)
        self.name = f"{folder.name}/file.json"

    def error_of(self, call):
        with self.assertRaises(HullError) as found:
            call()
        return found.exception

    def parts(self, error):
        return error.status, error.code, error.at_byte, error.at_line, error.sentence

    def check_texts(self, what, read, ask, texts):
        for text in texts:
            with self.subTest(what, text=text[:40], size=len(text)):
                with open(self.name, "wb") as file:
                    file.write(text)
                by_reader, by_program = self.error_of(read), self.error_of(ask)
                self.assertEqual(self.parts(by_reader), self.parts(by_program))
                self.assertIsNotNone(by_reader.code)
                self.assertTrue(by_reader.line.endswith(by_program.line.partition(": ")[2]), by_reader.line)

    def test_readers_refuse_as_the_program_does(self):
        case = hulltools.read_case(USUAL[0])
        rows = (
            ("case", USUAL[0], lambda: hulltools.read_case(self.name), lambda: self.check(self.name, USUAL[1])),
            (
                "schedule",
                USUAL[1],
                lambda: hulltools.read_schedule(self.name, case),
                lambda: self.check(USUAL[0], self.name),
            ),
            ("prices", f"{EXAMPLES}/certified/prices.json", lambda: hulltools.read_prices(self.name), self.settle),
            ("mixture", MIXTURE, lambda: hulltools.read_mixture(self.name, case), self.certify),
        )
        for what, whole, read, ask in rows:
            with open(whole, "rb") as file:
                data = file.read()
            half = len(data) // 2
            first, rest = data[:half], data[half:]
            texts = [
                b"",
                b"\n\n",
                first,
                data[:-3],
                first + b"\xff" + rest,
                b"\xef\xbb\xbf" + data,
                b"[" * 40,
                b"# A page",
            ]
            texts += [
                b'{"a": 1, "a": 2}',
                b'{"a": ' + b"9" * 31 + b"}",
                b'{"a": 1e401}',
                b'{"a": "\\ud800"}',
                b'{\n"a": 1,5}',
            ]
            self.check_texts(what, read, ask, texts)

    def check(self, case, schedule):
        return hulltools.check(case, schedule, hull=PROGRAM)

    def settle(self):
        return hulltools.settle(*USUAL, self.name, hull=PROGRAM)

    def certify(self):
        return hulltools.certify(*USUAL, hulltools.per_mwh(98), self.name, hull=PROGRAM)

    def test_zones_have_a_code_and_a_place_too(self):
        with open(self.name, "w", encoding="utf-8") as file:
            file.write('{"zones":\n {]')
        error = self.error_of(lambda: hulltools.settle_zones(*USUAL, self.name, hull=PROGRAM))
        self.assertEqual(self.parts(error)[:4], (None, 10, 12, 2))
        self.assertIn(": byte 12, line 2, column 3", error.sentence)

    def test_a_line_of_a_report_is_told(self):
        with open(self.name, "w", encoding="utf-8") as file:
            file.write("hull-report 1\n")
        words = ("audit", "--case", USUAL[0], "--schedule", USUAL[1], "--report", self.name)
        error = self.error_of(lambda: hulltools.Hull(PROGRAM).text(*words))
        self.assertEqual((error.status, error.code, error.at_byte, error.at_line), (8, 60, None, 2))

    def test_too_much_work_has_no_code(self) -> None:
        """Behind the word stands how much work it is."""
        day = f"{EXAMPLES}/day/case.json", f"{EXAMPLES}/day/schedule.json"
        error = self.error_of(lambda: hulltools.price(*day, proposals=10_000, hull=PROGRAM))
        self.assertEqual((error.status, error.code), (5, None))

    def test_a_file_that_is_too_large_has_its_code(self):
        with open(self.name, "wb") as file:
            file.truncate(67_108_865)
        self.assertEqual(self.error_of(lambda: hulltools.read_case(self.name)).code, 32)
        self.assertEqual(self.error_of(lambda: self.check(self.name, USUAL[1])).code, 32)


class Texts(Refusals):
    def test_a_settlement_is_written_as_it_was_printed(self):
        settled = hulltools.settle(*USUAL, hulltools.per_mwh(98), hull=PROGRAM)
        with tempfile.TemporaryDirectory(prefix="hull-refused-") as room:
            settled.write(f"{room}/settled")
            found = hulltools.read_output(f"{room}/settled", hulltools.Settlement)
        self.assertEqual((found.units, found.printed), (settled.units, settled.printed))
        self.assertNotEqual(found.name, settled.name)
        self.assertEqual(found, settled)
        self.assertNotEqual(found, hulltools.settle(*USUAL, hulltools.per_mwh(97), hull=PROGRAM))
        made = hulltools.Certificate("x", *[0] * 11)
        self.refused("x wasn't read from a text of hull, so there is none to write", made.write, "nowhere")

    def test_units_by_name_and_counts(self):
        settled = hulltools.settle(*USUAL, hulltools.per_mwh(98), hull=PROGRAM)
        self.assertEqual((settled.make_whole, settled.lost_opportunity), (66_000_000, 98_000_000))
        self.assertEqual(settled.unit("thermal", "G1").payment, 66_000_000)
        self.refused('hull settle has no thermal unit "G7": known: `G1`', lambda: settled.unit("thermal", "G7"))
        told = hulltools.certify(*USUAL, settled, MIXTURE, hull=PROGRAM)
        self.assertEqual((told.units, told.unit_count), (2, 2))
        bound = hulltools.read_output(f"{EXAMPLES}/two_units/bound.output", hulltools.Bound)
        self.assertEqual(bound.proposal_count, bound.proposals)


class Array(list):
    """A list of a kind of its own, as a series is one."""


class Members(Refusals):
    """What a script sets or asks of a case, and what readers say of units and periods."""

    def test_lists_of_another_length(self):
        for name in ("demand", "reserves"):
            case = usual()[0]
            setattr(case, name, [8000, 8000])
            self.refused(
                f"the case given: {name} has 2 items, and the case 1 period", hulltools.integer_relaxation, case
            )
        case = usual()[0]
        case.renewable[0].least = []
        due = 'the case given: renewable "W1": least has 0 items, and the case 1 period'
        self.assertEqual(self.refused(due, hulltools.integer_relaxation, case).unit, "W1")

    def test_two_units_of_one_name(self):
        for kind in ("thermal", "renewable"):
            case = usual()[0]
            units = getattr(case, kind)
            units.append(copy.deepcopy(units[0]))
            due = f'the case given: {kind} "{units[0].name}" stands twice'
            self.assertEqual(self.refused(due, case.text).unit, units[0].name)
        due = "the factor of demand is 1_01: a number of at least 0 is due"
        self.refused(due, usual()[0].scaled, demand="1_01")
        case.renewable[1].name = 7
        self.refused("the case given: a renewable has the name 7: a text is due", case.text)
        case.bids = None
        self.refused("the case given: bids is None: a list is due", case.text)

    def test_units_of_a_case(self):
        case, given = usual()
        self.assertIs(case.unit("thermal", "G1"), case.thermal[0])
        self.assertIs(case.unit("renewable", "W1"), case.renewable[0])
        self.refused('the case has no thermal unit "G2": known: `G1`', case.unit, "thermal", "G2")
        self.refused("the case has no kind wind: known: `thermal`, `renewable`", case.unit, "wind", "W1")
        self.assertEqual(hulltools.read_case(given), case)

    def test_a_name_of_one_kind_needs_no_kind(self):
        case, given = usual()
        schedule = hulltools.read_schedule(USUAL[1], case)
        self.assertIs(case.unit("G1"), case.thermal[0])
        self.assertIs(schedule.plan("W1"), schedule.plan("renewable", "W1"))
        self.assertEqual(hulltools.settle(*USUAL, hulltools.per_mwh(98), hull=PROGRAM).unit("G1").payment, 66_000_000)
        self.refused('the case has no unit "G2": known: `G1`, `W1`', case.unit, "G2")
        case.renewable[0].name = "G1"
        due = 'the case has a thermal and a renewable "G1": give the kind before the name'
        self.refused(due, case.unit, "G1")

    def test_a_schedule_of_a_dict_and_one_that_was_set(self):
        case, _ = usual()
        due = hulltools.read_schedule(USUAL[1], case)
        given = due.as_json()
        self.assertEqual(hulltools.read_schedule(given, case), due)
        given["thermal"]["G1"]["power"] = Array([8000.0])
        self.assertEqual(hulltools.read_schedule(given, USUAL[0]), due)
        cost = hulltools.check(*USUAL, hull=PROGRAM)
        for power in (Array([8000]), Array([8000.0]), (8000,)):
            schedule = hulltools.read_schedule(USUAL[1], case)
            schedule.plan("G1").power = power
            self.assertEqual(hulltools.check(case, schedule, hull=PROGRAM), cost)
        told = 'the schedule given: thermal "G1": power'
        for power, why, period in (
            ([8000.5], f"{told} of period 1 is 8000.5: a whole number of kilowatts is due", 1),
            (["x"], f"{told} of period 1 is x: a whole number of kilowatts is due", 1),
            (8000, f"{told} is 8000: a list of a number for each period is due", None),
        ):
            schedule.plan("G1").power = power
            error = self.refused(why, hulltools.check, case, schedule, PROGRAM)
            self.assertEqual((error.unit, error.period), ("G1", period))

    def test_what_readers_refuse_has_a_status(self):
        case, given = usual()
        no_units = {"thermal": {}, "renewable": {}}
        without_demand = {key: it for key, it in given.items() if key != "demand"}
        for call, status in (
            (lambda: hulltools.read_case(without_demand), 3),
            (lambda: hulltools.read_case({**given, "demand": [float("nan")]}), 3),
            (lambda: hulltools.read_case(f"{EXAMPLES}/usual/schedule.json"), 3),
            (lambda: hulltools.read_schedule(no_units, case), 4),
            (lambda: hulltools.read_schedule(USUAL[0], case), 4),
            (lambda: hulltools.read_prices(USUAL[0]), 9),
            (lambda: hulltools.settle(case, USUAL[1], {"energy": [1, 2]}, hull=PROGRAM), 9),
            (lambda: hulltools.settle(case, USUAL[1], {"energie": [1]}, hull=PROGRAM), 9),
            (lambda: hulltools.read_mixture(USUAL[0], case), 10),
            (lambda: hulltools.read_case("none.json"), 2),
            (lambda: hulltools.per_mwh("x"), None),
            (lambda: hulltools.settle_zones(*USUAL, {"zones": {"A": {"energy": []}}, "default": "A"}, PROGRAM), None),
        ):
            with self.assertRaises(HullError) as found:
                call()
            self.assertEqual((found.exception.status, found.exception.code), (status, None), found.exception)

    def test_flat_prices_have_a_file_of_given_periods(self):
        flat = hulltools.per_mwh(98, 1)
        for call, what in ((lambda: flat.write("nowhere"), "a file"), (flat.frame, "a frame")):
            due = f"{what} has prices of each period, and these hold in any: give `periods=`, as case.periods"
            self.refused(due, call)
        with tempfile.TemporaryDirectory(prefix="hull-refused-") as room:
            flat.write(f"{room}/prices.json", periods=3)
            self.assertEqual(hulltools.read_prices(f"{room}/prices.json", 3), flat.over(3))

    def test_a_radius_in_the_currency(self):
        def radius(given, **more):
            prices = hulltools.per_mwh(98)
            return hulltools.certify(*USUAL, prices, MIXTURE, hull=PROGRAM, radius_per_mw=given, **more).radius

        due = {1: 1000, 0: 0, "0.0005": 1, Decimal("1.2344"): 1234, 20_000: 20_000_000}
        self.assertEqual({given: radius(given) for given in due}, due)
        for given in (-1, "x", 20_000.1, float("nan")):
            due = f"radius_per_mw is {given}: a number of at least 0 and at most 20,000 is due"
            self.refused(due, radius, given)
        both = "radius and radius_per_mw are both given, and one of them is due"
        self.refused(both, lambda: radius(1, radius=1000))

    def test_a_search_says_whether_it_is_near(self):
        found = hulltools.convex_prices(*USUAL, hull=PROGRAM)
        self.assertTrue(found.is_near)
        found.distance = found.within + 1
        self.assertFalse(found.is_near)

    def test_units_and_periods_of_readers(self):
        case = usual()[0]
        for schedule, due in (
            ({"thermal": {"G2": {}}, "renewable": {}}, "G2"),
            ({"thermal": {}, "renewable": {}}, "G1"),
            ({"thermal": {"G1": {"on": [2], "power": [0], "reserve": [0]}}, "renewable": {}}, "G1"),
        ):
            with self.assertRaises(HullError) as found:
                hulltools.inputs.as_schedule(schedule, case)
            self.assertEqual(found.exception.unit, due)
        with self.assertRaises(HullError) as found:
            hulltools.inputs.as_prices({"energy": [20000]}, case)
        self.assertEqual(found.exception.period, 1)

    def test_prices_of_another_length_or_kind(self):
        certified = f"{EXAMPLES}/certified/prices.json"
        due = f"{certified}: energy has 1 price: one for each of 3 periods is due"
        self.refused(due, hulltools.read_prices, certified, 3)
        for periods in ("x", 0, 169):
            due = f"periods is {periods}: a whole number from 1 to 168 is due"
            self.refused(due, hulltools.per_mwh(30).over, periods)
        by_name, case = calls.named_prices, usual()[0]
        self.assertEqual(by_name(None, case), {})
        self.assertEqual(by_name({"a": hulltools.per_mwh(98)}, case), {"a": hulltools.per_mwh([98])})
        for given in (hulltools.per_mwh(30), [hulltools.per_mwh(30)]):
            due = f"prices is a dict of price lists by name, and no `{type(given).__name__}` can be that"
            self.refused(due, by_name, given, case)
        with self.assertRaisesRegex(HullError, "^the prices Posted given: no `int` can be taken: "):
            by_name({"Posted": 30}, case)

    def test_zones_with_objects(self):
        dicts = {"zones": {"A": {"energy": [98], "reserve": [1]}}, "default": "A"}
        objects = {"zones": {"A": hulltools.per_mwh(98, 1)}, "default": "A"}
        whole = hulltools.Zones({"A": hulltools.per_mwh([98], 1)}, {"G1": "A"}, "A")
        text = hulltools.settle(*USUAL, hulltools.per_mwh(98, 1), hull=PROGRAM)
        texts = [{"zones": {"A": it}, "default": "A"} for it in (text, Settled(LMP, text, []))]
        found = [hulltools.settle_zones(*USUAL, zones, hull=PROGRAM).units for zones in (dicts, objects, whole, *texts)]
        self.assertEqual(found, [found[0]] * 5)

    def test_zones_that_a_script_has_set_are_looked_at_as_those_of_a_file(self):
        """A misspelt unit would be settled at the default zone, and what was settled keeps its zones."""
        prices = {"A": hulltools.per_mwh([98]), "B": hulltools.per_mwh([50])}
        for units, default, due in (
            ({"G 1": "B"}, "A", 'the case has no unit "G 1"'),
            ({"G1": "C"}, "A", 'the zone of unit "G1" has no prices'),
            ({"G1": "B"}, None, 'unit "W1" has no zone, and there is no default'),
        ):
            zones = hulltools.Zones(prices, units, default)
            self.refused(f"the zones given: {due}", hulltools.settle_zones, *USUAL, zones, hull=PROGRAM)
        zones = hulltools.Zones({"A": hulltools.per_mwh([98, 99])}, {}, "A")
        due = "the zones given, zone A: energy has 2 prices, and the case 1 period"
        self.refused(due, hulltools.settle_zones, *USUAL, zones, hull=PROGRAM)
        zones = hulltools.Zones(prices, {"G1": "B"}, "A")
        found = hulltools.settle_zones(*USUAL, zones, hull=PROGRAM)
        zones.units["G1"] = "A"
        self.assertEqual(found.zones.zone_of("thermal", "G1"), "B")

    def test_the_line_of_an_error_is_said_in_words(self):
        files = {"case": USUAL[0], "schedule": f"{EXAMPLES}/evening/schedule.json"}
        with self.assertRaises(HullError) as found:
            hulltools.check(*files.values(), hull=PROGRAM)
        self.assertEqual(hulltools.sentence(found.exception.line, files), found.exception.sentence)

    def test_lines_of_texts(self):
        with open(f"{EXAMPLES}/usual/price.output", encoding="utf-8") as file:
            text = file.read()
        for given, at in (
            (text[:60], 6),
            (text.replace("chosen 1", "chosen 3"), 18),
            (f"{text}x\n", text.count("\n") + 1),
        ):
            with self.assertRaises(HullError) as found:
                hulltools.read_output(given)
            self.assertEqual((found.exception.at_line, found.exception.code), (at, None), found.exception)


class Names(unittest.TestCase):
    def test_the_names_of_the_package(self):
        for name in (
            "GivenZones",
            "GivenTexts",
            "PerMwh",
            "Factor",
            "Made",
            "Study",
            "Zonal",
            "Entry",
            "Table",
            "GapParts",
        ):
            self.assertIn(name, dir(hulltools))
            self.assertIsNotNone(getattr(hulltools, name))
        self.assertEqual(set(dir(hulltools)) - set(hulltools.__all__), {"__version__"})
        self.assertEqual([name for name in hulltools.__all__ if not hasattr(hulltools, name)], [])

    def test_no_module_of_scipy_is_loaded_for_them(self):
        code = (
            f"import sys; sys.path.insert(0, {ROOT + '/tools'!r}); import hulltools\n"
            "hulltools.Zonal, hulltools.GivenTexts, hulltools.Table\nprint('scipy' in sys.modules)"
        )
        ran = subprocess.run([sys.executable, "-B", "-c", code], capture_output=True, text=True, timeout=60)
        self.assertEqual((ran.stdout, ran.stderr), ("False\n", ""))


class Beside(unittest.TestCase):
    """A case and a schedule that are those of another text are refused, with what tells them apart."""

    def test_the_case_of_another_text(self):
        text = hulltools.settle(*USUAL, hulltools.per_mwh(98), hull=PROGRAM)
        case, _ = usual()
        for other, why in (
            (f"{EXAMPLES}/evening/case.json", "it has 6 periods, and the text has 1"),
            (case.without("W1"), 'the renewable unit "W1" isn\'t in the case'),
            (case.scaled(demand=2), "with its demand and reserve the dual value would be another one"),
        ):
            with self.assertRaises(HullError) as found:
                text.tables(other)
            due = f"hull settle is of another case than the one given: {why}"
            self.assertEqual(str(found.exception), due)
        self.assertEqual(sorted(text.tables(case)), ["prices", "responses", "runs", "units"])

    def test_the_schedule_of_another_text(self):
        text = hulltools.settle(*USUAL, hulltools.per_mwh(98), hull=PROGRAM)
        other = hulltools.read_schedule(f"{EXAMPLES}/evening/schedule.json", f"{EXAMPLES}/evening/case.json")
        with self.assertRaisesRegex(
            HullError, "^hull settle is of another schedule than the one given: it has 6 periods"
        ):
            text.tables(None, other)
        with self.assertRaisesRegex(HullError, "isn't in it$"):
            text.tables(None, hulltools.Schedule({}))

    def test_all_texts_of_the_examples_are_of_their_cases(self):
        checked = 0
        for example in ("first", "day", "dear_schedule", "two_units", "usual", "windows"):
            folder = f"{EXAMPLES}/{example}"
            case = hulltools.read_case(f"{folder}/case.json")
            for name in sorted(os.listdir(folder)):
                if name.startswith(("price", "settle", "fixed")) and name.endswith(".output"):
                    hulltools.read_output(f"{folder}/{name}").tables(case, f"{folder}/schedule.json")
                    checked += 1
        self.assertGreater(checked, 8)


if __name__ == "__main__":
    sys.exit(unittest.main())
