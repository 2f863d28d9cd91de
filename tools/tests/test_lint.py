"""tools/lint.py: all that hull refuses, by its own lines, and what is odd though it is taken, in words that say how to mend it."""
from __future__ import annotations

import json
import math
import random
import re
import shutil
import subprocess
import tempfile
import time
import tracemalloc
import unittest
from decimal import Decimal
from typing import Any, Callable, Dict, Iterator, List, Optional, Tuple

import market
from tool import EXAMPLES, PROGRAM, ROOT, run

from hulltools.errors import HullError
from hulltools.json_places import located, plain
from hulltools.lint import Limits, first_look, look
from hulltools.lint_findings import Level, ranges
from hulltools.lint_system import period_oddities

Change = Callable[[Dict[str, Any]], Any]
FILES = ("case", "schedule", "prices")
ROW = re.compile(r"\| `(\w+)/(case|schedule|prices|mixture)\.json`: `(.+)` becomes `(.+)` \| `(fault [^`]+)` \|")


def in_megawatts(plan: Dict[str, Any], more: float = 0) -> None:
    """Turns a schedule into megawatts, with this much more in each thermal on period."""
    for unit in plan["thermal"].values():
        unit["power"] = [power / 1000 + more if power and more else power // 1000 for power in unit["power"]]
        unit["reserve"] = [it // 1000 for it in unit["reserve"]]
    for group in ("renewable", "bids"):
        plan[group] = {name: [it // 1000 for it in row] for name, row in plan[group].items()}


def unit_change(name: str, **fields: Any) -> Change:
    return lambda files: files["case"]["thermal_generators"][name].update(fields)


def points(*pairs: Tuple[float, float]) -> List[Dict[str, float]]:
    return [{"mw": mw, "cost": cost} for mw, cost in pairs]


def scaled(what: str, key: str, factor: float) -> Change:
    def change(files: Dict[str, Any]) -> None:
        files[what][key] = [it * factor for it in files[what][key]]

    return change


def swap(files: Dict[str, Any]) -> None:
    files["case"], files["schedule"] = files["schedule"], files["case"]


def replaced(what: str, old: str, new: str) -> Change:
    """A change of the file's text."""

    def change(files: Dict[str, Any]) -> None:
        text = files[what] if isinstance(files[what], str) else market.text(files[what])
        assert old in text, old
        files[what] = text.replace(old, new, 1)

    return change


def longer_schedule(files: Dict[str, Any]) -> None:
    """Gives each list of the schedule an hour more."""
    plan = files["schedule"]
    groups = [*plan["thermal"].values(), plan["renewable"], plan["bids"]]
    for row in (it for group in groups for it in group.values()):
        row.append(row[-1])


def too_much(files: Dict[str, Any]) -> None:
    """Must-run units that give more than demand and bids take."""
    for name in ("COAL1", "COAL2"):
        files["case"]["thermal_generators"][name]["must_run"] = 1
    files["case"]["demand"] = [100] * 24


def dropped(files: Dict[str, Any]) -> None:
    del files["case"]["thermal_generators"]["CCGT4"]["power_output_t0"]


# Mistakes that people make: what is changed, the words of lint.py, and those of explain.py where hull refuses the run.
MISTAKES: Dict[str, Tuple[Change, str, Optional[str]]] = {
    "a capacity in kilowatts": (
        unit_change("COAL1", power_output_maximum=400000),
        'line 5: thermal unit "COAL1" (number 1), power_output_maximum: it is above the limit, 10,000 MW. Found: 400000. '
        "A case is in megawatts: are these kilowatts?",
        "are these kilowatts?",
    ),
    "demand in kilowatts": (
        scaled("case", "demand", 1000),
        "Demand is 880,000 MW in period 20, the worst of periods 1 to 24; all units that may run give at most 1,550 MW then. Is demand in "
        "kilowatts, or are the units in gigawatts?",
        "all units together give 1540.5 MW: is demand in kilowatts?",
    ),
    "a field that isn't there": (
        dropped,
        'thermal unit "CCGT4" (number 4), power_output_t0: it isn\'t there, and it has to be. Due: its power in the period before period 1, in '
        "MW; 0 where it is off.",
        "0 where it is off",
    ),
    "demand of 23 values": (
        lambda files: files["case"]["demand"].pop(),
        "23 periods are a day of 23 hours, on which clocks go forward, and the case has 24",
        "on which clocks go forward",
    ),
    "files that are swapped": (swap, "Are the files swapped?", "Are the files swapped?"),
    "a decimal comma in prices": (
        replaced("prices", "25.5", "25,5"),
        "items 1 and 2, 25 and 5, are most likely 25.5. Numbers have a point.",
        "items 1 and 2, 25 and 5, are most likely 25.5",
    ),
    "NaN in a forecast": (
        replaced("case", "56.5", "NaN"),
        "in renewable unit \"WIND1\", power_output_maximum, item 5: this isn't JSON, or can't stand there (no number of JSON: give the value; "
        "0 is no power or money, and not a value that is missing)",
        'in renewable unit "WIND1", power_output_maximum, item 5',
    ),
    "two units of one name": (
        replaced("case", '"GT6"', '"GT5"'),
        "in thermal_generators: this key stands twice in one object: rename or drop one of the two",
        "rename or drop one of the two",
    ),
    "a start limit below the least power": (
        unit_change("CCGT3", ramp_startup_limit=60),
        'thermal unit "CCGT3": it can never start: its ramp_startup_limit of 60 MW is below its least power of 120 MW.',
        "this unit can never start: the case is to be mended",
    ),
    "a schedule in megawatts": (
        lambda files: in_megawatts(files["schedule"], 0.5),
        "this schedule is in megawatts. Whole kilowatts are due, 340000 for 340 MW: tools/make_schedule.py --follow makes them of it",
        "are these megawatts?",
    ),
    "a schedule in whole megawatts": (
        lambda files: in_megawatts(files["schedule"]),
        "this schedule is in megawatts. Whole kilowatts are due",
        "its least power is 150000 kW (schedules are in kilowatts: are these megawatts?)",
    ),
    "a name with a dash": (
        replaced("schedule", '"GT5"', '"GT-5"'),
        'thermal unit "GT-5" (number 5): the case has no unit of that name and kind. Is "GT5" meant?',
        'Is "GT5" meant?',
    ),
    "prices of a day of 25 hours": (
        lambda files: files["prices"]["energy"].append(30),
        "25 periods are a day of 25 hours, on which clocks go back, and the case has 24",
        "on which clocks go back",
    ),
    "a schedule of a day of 25 hours": (
        longer_schedule,
        'thermal unit "COAL1" (number 1) hasn\'t the lists that are due, with an item for each of the 24 periods. Found: on with 25 items, power '
        "with 25 items, reserve with 25 items. 25 periods are a day of 25 hours, on which clocks go back, and the case has 24",
        "25 periods are a day of 25 hours, on which clocks go back",
    ),
    "prices per kWh": (
        scaled("prices", "energy", 0.001),
        "The highest energy price is 0.095, and a MWh of the median unit costs 39.96 at full load: are these prices per kWh? Prices are per MWh, so "
        "0.095 per kWh is 95.",
        None,
    ),
    "on before period 1 without power": (
        unit_change("COAL1", power_output_t0=0),
        "it is on before period 1 (unit_on_t0 1) with power_output_t0 0 MW, below its least power of 150 MW. Its upward ramp of 90 MW doesn't take "
        "it there in period 1, so it can't stay on: give the power that it had, or unit_on_t0 0.",
        "give the power that it had, or unit_on_t0 0",
    ),
    "costs per MWh": (
        unit_change("GT5", piecewise_production=points((20, 95), (80, 88))),
        'thermal unit "GT5": its cost at 80 MW is 88.00, 1.10 per MWh: are its costs per MWh? `cost` is what a whole period at that power costs: '
        "80 MW at 88.00 per MWh cost 7,040.00 an hour.",
        None,
    ),
    "costs per MWh of a small unit": (
        unit_change(
            "GT6", power_output_minimum=8, power_output_maximum=20, piecewise_production=points((8, 90), (20, 100))
        ),
        'thermal unit "GT6": its cost at 20 MW is 100.00, 5.00 per MWh: are its costs per MWh? `cost` is what a whole period at that power costs: '
        "20 MW at 100.00 per MWh cost 2,000.00 an hour.",
        None,
    ),
    "falling slopes": (
        unit_change("GT5", piecewise_production=points((20, 2000), (50, 5000), (80, 7000))),
        "at 50 MW the cost of a further MWh falls from 100.00 to 66.67. hull takes the envelope of the points: 4,499.99 at 50 MW in place of "
        "5,000.00. In this schedule it costs 1,000.00 less by the convex envelope, and 0.02 less still by whole prices.",
        None,
    ),
    "falling slopes of a unit that is off": (
        unit_change("GT6", piecewise_production=points((20, 2000), (50, 5000), (80, 7000))),
        "4,499.99 at 50 MW in place of 5,000.00. In this schedule that changes nothing.",
        None,
    ),
    "times that contradict": (
        unit_change("CCGT3", unit_on_t0=1, power_output_t0=120, time_up_t0=0, time_down_t0=5),
        "it is on before period 1 (unit_on_t0 1), but time_up_t0 is 0 and time_down_t0 is 5, as if it were off: mend unit_on_t0 or the two times.",
        "as if it were off: mend unit_on_t0 or the two times",
    ),
    "a misspelt key": (
        unit_change("CCGT3", commitement=[0] * 24),
        'the key "commitement" is skipped: hull doesn\'t read it there. Is "commitment" meant?',
        None,
    ),
    "ramps in MW per minute": (
        unit_change("COAL1", ramp_up_limit=1.5),
        "its ramp_up_limit of 1.5 MW a period is 0.4 % of its greatest power an hour. Is it in MW per minute? 1.5 MW a minute are 90 MW a period.",
        "1.5 MW a minute are 90 MW a period",
    ),
    "costs in cents": (
        unit_change("GT6", piecewise_production=points((20, 184000), (80, 736000))),
        "from 20 MW to 80 MW a further MWh costs 9,200.00, above 1,000 (--highest-cost). Are its costs in cents",
        None,
    ),
    "costs that fall": (
        unit_change("CCGT3", piecewise_production=points((120, 5000), (300, 4000))),
        "from 120 MW to 300 MW a further MWh costs -5.56, below 0.",
        None,
    ),
    "power of a unit that is off": (
        unit_change("GT5", power_output_t0=40),
        "it is off before period 1 (unit_on_t0 0), so its power_output_t0 of 40 MW is skipped: give unit_on_t0 1 if it was on, or a power of 0.",
        None,
    ),
    "a power before period 1 above the greatest": (
        unit_change("COAL2", power_output_t0=500),
        "power_output_t0 500 MW, above its greatest power of 350 MW. Its downward ramp of 90 MW doesn't bring it down in period 1",
        "doesn't bring it down in period 1",
    ),
    "a power before period 1 above what ramps allow": (
        unit_change("COAL2", time_up_t0=2, time_up_minimum=1, ramp_up_limit=40),
        "it is on for 2 periods before period 1 (time_up_t0) with power_output_t0 250 MW. With a start limit of 165 MW and an upward ramp of "
        "40 MW it has reached at most 205 MW by then: mend power_output_t0 or time_up_t0.",
        None,
    ),
    "demand in gigawatts": (
        scaled("case", "demand", 0.001),
        "The highest demand is 0.88 MW, and the units give up to 1,552 MW: is demand in gigawatts, or are units in kilowatts?",
        "is demand in gigawatts? A case is in megawatts.",
    ),
    "units that must give too much": (
        too_much,
        "Demand is 100 MW in period 1, the worst of periods 1 to 24; units that have to be on give at least 270 MW then, and bids buy at most 90 MW. "
        "No schedule can meet it.",
        "too much",
    ),
    "a stop limit below the least power": (
        unit_change("CCGT3", ramp_shutdown_limit=60),
        'thermal unit "CCGT3": it can never stop: its ramp_shutdown_limit of 60 MW is below its least power of 120 MW.',
        "this unit can never stop: the case is to be mended",
    ),
    "a time that is missing": (
        unit_change("GT5", time_down_t0=0),
        "it is off before period 1 (unit_on_t0 0), but time_down_t0 is 0: give for how many periods it has been off, at least 1.",
        None,
    ),
    "a time of the other state": (
        unit_change("GT5", time_up_t0=3),
        "it is off before period 1 (unit_on_t0 0) for 24 periods (time_down_t0), but time_up_t0 is 3: a unit that is off has time_up_t0 0.",
        None,
    ),
    "prices in thousandths": (
        scaled("prices", "energy", 100),
        "Half of the energy prices are at least 3,600, and a MWh of the median unit costs 39.96 at full load: are these in cents or thousandths?",
        None,
    ),
    "rules that leave no flag": (
        unit_change("COAL1", must_run=1, commitment=[None, 0] + [None] * 22),
        "in period 2 it can be neither on nor off: it is must-run, and its window says off.",
        "its window says off",
    ),
    "a ramp that leaves no stop": (
        unit_change("COAL1", ramp_down_limit=1, ramp_shutdown_limit=600, commitment=[0] + [None] * 23),
        "in period 1 it can be neither on nor off: its initial output is above its least power by more than its downward ramp, so it can't stop in period 1, and its window says off.",
        "its window says off",
    ),
    "reserve as a share": (
        lambda files: files["case"].update(reserves=[0.05] * 24),
        "The highest required reserve is 0.05 MW, at a demand of up to 880 MW: are these shares of demand?",
        None,
    ),
    "reserve that can't be kept": (
        lambda files: files["case"].update(reserves=[1000] * 24),
        "of reserve are required in period 18, the worst of periods 1 to 24; the units can keep at most",
        "are lacking",
    ),
    "no reserve prices": (
        lambda files: files["prices"].pop("reserve"),
        "The case requires reserve, and there is no list `reserve`: all reserve prices are 0 then.",
        None,
    ),
}


class WithFiles(unittest.TestCase):
    def setUp(self) -> None:
        self.room = tempfile.mkdtemp(prefix="hull-lint-")
        self.addCleanup(shutil.rmtree, self.room)
        self.files: Dict[str, Any] = {"case": market.case(), "schedule": market.schedule(), "prices": market.prices()}

    def write(self) -> None:
        for what, value in self.files.items():
            with open(f"{self.room}/{what}.json", "w", encoding="utf-8") as file:
                file.write(value if isinstance(value, str) else market.text(value))

    def words(self, *more: str) -> List[str]:
        case, schedule, prices = (f"{self.room}/{it}.json" for it in FILES)
        return [case, schedule, "--prices", prices, *more]

    def lint(self, *more: str) -> Tuple[int, str]:
        self.write()
        status, text, said = run("lint.py", *self.words(*more))
        self.assertEqual(said, "")
        return status, text.replace(f"{self.room}/", "")

    def refusal(self, command: str = "settle", *more: str) -> str:
        """What hull prints first."""
        case, schedule, prices = (f"{self.room}/{it}.json" for it in FILES)
        words = [command, "--case", case, "--schedule", schedule, "--prices", prices, *more]
        return subprocess.run([PROGRAM, *words], capture_output=True, text=True).stdout.split("\n")[0]


class Large(unittest.TestCase):
    def test_a_long_string_or_list_takes_a_few_times_its_bytes(self) -> None:
        """A text of 5 MB each, of one string, of its escapes, and a list of 200 kB, whose numbers have a place each."""
        texts = (b'{"a": "%s"}' % (b"x" * 5_000_000), b'{"%s": 1}' % (b"\\n" * 2_500_000), b"[%s1]" % (b"1," * 100_000))
        for text, most in zip(texts, (8, 8, 100)):
            tracemalloc.start()
            found = located("case", text)
            peak = tracemalloc.get_traced_memory()[1]
            tracemalloc.stop()
            self.assertEqual((found.root is None, found.faults), (False, []))
            self.assertLess(peak, most * len(text))

    def test_what_stands_in_lists_and_strings_is_found(self) -> None:
        faults = {
            b"[1,2,]": (10, 5),
            b"[1,02,3]": (10, 3),
            b'["a\tb"]': (10, 1),
            b'["\\u12g4"]': (10, 1),
            b'["\xff"]': (10, 1),
            b'["\\ud800"]': (10, 1),
            b'["a': (10, 1),
            b"[1 , 2 , 1234567890123456789012345678901, 3]": (11, 9),
        }
        for text, due in faults.items():
            self.assertEqual([(it.code, it.at) for it in located("case", text).faults], [due], text)
        root = located("case", b'[ 1 ,2.5, "a\\"" ,[], [3], 4 ]').root
        self.assertIsNotNone(root)
        self.assertEqual(plain(root), [1, Decimal("2.5"), 'a"', [], [3], 4])


class Mistakes(WithFiles):
    def test_a_market_without_mistakes_is_clean(self) -> None:
        self.assertEqual(self.lint(), (0, "nothing is odd\n"))
        self.assertEqual(self.refusal(), "hull-settlement 1")

    def told(self, mistake: str) -> None:
        change, lint, explained = MISTAKES[mistake]
        change(self.files)
        status, text = self.lint()
        self.assertIn(lint, text)
        line = self.refusal()
        self.assertEqual(status, 2 if line.startswith("fault") else 1, line)
        if explained is None:
            self.assertEqual(line, "hull-settlement 1")
        else:
            self.assertIn(explained, run("explain.py", *self.words(), input=f"{line}\n")[1])


def told_test(mistake: str) -> Callable[[Mistakes], None]:
    return lambda self: self.told(mistake)


for mistake in MISTAKES:
    setattr(Mistakes, f"test_{mistake.replace(' ', '_')}", told_test(mistake))


class TwoCosts(unittest.TestCase):
    def test_a_power_or_a_lag_with_two_costs(self) -> None:
        """Rows of two versions of a table are read as one curve, of which a part doesn't count."""
        with open(f"{EXAMPLES}/evening/case.json", encoding="utf-8") as file:
            case = json.load(file)
        unit = case["thermal_generators"]["G2"]
        points, starts = unit["piecewise_production"], unit["startup"]
        for last, first, due in (
            (points[-1]["cost"], starts[0]["cost"], []),
            (
                points[-1]["cost"] + 1,
                90,
                [
                    "it has two costs at 50 MW, 1,800.00 and 1,801.00, of which the least counts: leave one",
                    "it has two costs of a start at a lag of 2, 90.00 and 100.00, of which the last counts: leave one",
                ],
            ),
        ):
            unit["piecewise_production"] = [*points, {**points[-1], "cost": last}]
            unit["startup"] = [{**starts[0], "cost": first}, *starts]
            with tempfile.TemporaryDirectory(prefix="hull-lint-") as room:
                with open(f"{room}/case.json", "w", encoding="utf-8") as file:
                    json.dump(case, file)
                found = [it for it in look({"case": f"{room}/case.json"}).findings if it.rule == "two-costs"]
            self.assertEqual(len(found), len(due), found)
            for finding, text in zip(found, due):
                self.assertIn(text, finding.text)


class Quarters(unittest.TestCase):
    """A period of a quarter of an hour: costs are told per MWh, four times those of a period."""

    def look(self, hours: float) -> List[Tuple[str, str]]:
        with tempfile.TemporaryDirectory(prefix="hull-lint-") as room:
            case = market.case()
            case["thermal_generators"]["GT6"]["piecewise_production"] = points((20, 8000), (80, 32000))
            with open(f"{room}/case.json", "w", encoding="utf-8") as file:
                json.dump(case, file)
            with open(f"{room}/prices.json", "w", encoding="utf-8") as file:
                json.dump({"energy": [0.1] * 24, "reserve": [0] * 24}, file)
            review = look({it: f"{room}/{it}.json" for it in ("case", "prices")}, Limits(hours=hours))
        return [(it.rule, it.text) for it in review.findings if it.rule in ("high-cost", "prices-per-kwh")]

    def test_costs_are_told_per_mwh(self) -> None:
        (rule, told), (_, of_prices) = self.look(0.25)
        self.assertEqual(rule, "high-cost")
        self.assertIn("from 20 MW to 80 MW a further MWh costs 1,600.00, above 1,000", told)
        self.assertIn("Prices are per MW and period, so 0.1 per kWh is 25", of_prices)
        (rule, of_prices), *others = self.look(1)
        self.assertEqual((rule, others), ("prices-per-kwh", []))
        self.assertIn("Prices are per MWh, so 0.1 per kWh is 100", of_prices)

    def test_a_study_looks_by_the_length_that_it_is_given(self) -> None:
        """Ramps of 14 MW a period are 4 % of 350 MW, which is odd of an hour; of a quarter they are 16 % an hour."""
        case = market.case()
        case["thermal_generators"]["COAL2"].update(ramp_up_limit=14, ramp_down_limit=14)
        with tempfile.TemporaryDirectory(prefix="hull-lint-") as room:
            with open(f"{room}/case.json", "w", encoding="utf-8") as file:
                json.dump(case, file)
            counts = []
            for hours in (1, 0.25):
                found = first_look({"case": f"{room}/case.json"}, lambda told: None, hours)
                counts.append(sum("ramp_up_limit" in line for line in found))
        self.assertEqual(counts, [1, 0])

    def test_days_have_as_many_periods_as_their_length_says(self) -> None:
        for periods, hours, due in (
            (6, 4, ""),
            (24, 0.5, "24 periods are 12 hours, and no whole day"),
            (92, 0.25, "92 periods are a day of 23 hours in quarter hours, on which clocks go forward: is that meant?"),
            (92, 0.5, "92 periods are 46 hours, and no whole day"),
            (288, 1 / 12, ""),
        ):
            self.assertEqual([odd.text for odd in period_oddities(periods, hours)], [due] * bool(due))

    def test_empty_names_are_refused(self) -> None:
        """As of a variable of a shell that isn't set."""
        for words in ([""], [f"{EXAMPLES}/usual/case.json", ""], [f"{EXAMPLES}/usual/case.json", "--prices", ""]):
            status, _, said = run("lint.py", *words)
            self.assertEqual(
                (status, said.strip().endswith("a name is due, and an empty text is given")), (2, True), said
            )


class Lines(WithFiles):
    """The first error has the line that hull prints."""

    def first_error(self, mixture: bool = False) -> str:
        names = {it: f"{self.room}/{it}.json" for it in (*FILES, *(("mixture",) if mixture else ()))}
        errors = look(names).of(Level.ERROR)
        return str(errors[0].fault) if errors else "none"

    def rows(self) -> Iterator[Tuple[str, ...]]:
        with open(f"{ROOT}/docs/FAULTS.md", encoding="utf-8") as page:
            for line in page:
                found = ROW.search(line)
                if found:
                    yield found.groups()

    def test_each_line_of_the_page(self) -> None:
        count = 0
        for folder, what, old, new, line in self.rows():
            beside = {"prices": "evening", "mixture": "usual"}.get(what, folder)
            for name in ("case", "schedule"):
                shutil.copyfile(f"{EXAMPLES}/{beside}/{name}.json", f"{self.room}/{name}.json")
            prices = "posted" if beside == "evening" else "certified"
            shutil.copyfile(f"{EXAMPLES}/{prices}/prices.json", f"{self.room}/prices.json")
            if what == "mixture":
                shutil.copyfile(f"{EXAMPLES}/certified/mixture.json", f"{self.room}/mixture.json")
            with open(f"{self.room}/{what}.json", encoding="utf-8") as file:
                text = file.read()
            with open(f"{self.room}/{what}.json", "w", encoding="utf-8") as file:
                file.write(text.replace(old, new))
            self.assertEqual(self.first_error(what == "mixture"), line)
            count += 1
        self.assertGreater(count, 50)

    def test_random_changes(self) -> None:
        draw, tokens = random.Random(59), re.compile(r'"[^"]*"|-?[0-9.]+|[\[\]{},:]|null')
        values = [
            "-1",
            "0",
            "2",
            "1.5",
            "1e9",
            "1e401",
            "0.0004",
            '"x"',
            "null",
            "true",
            "[]",
            "{}",
            "NaN",
            "12,5",
            "9" * 31,
            "01",
            "",
        ]
        for number in range(100):
            self.files = {"case": market.case(), "schedule": market.schedule(), "prices": market.prices()}
            what = draw.choice(FILES)
            text = market.text(self.files[what])
            place = draw.choice(list(tokens.finditer(text)))
            self.files[what] = text[: place.start()] + draw.choice(values) + text[place.end() :]
            self.write()
            line = self.refusal()
            found = self.first_error()
            self.assertEqual(found if found != "none" else "hull-settlement 1", line, (number, what, place))


class Told(WithFiles):
    def test_all_errors_are_told_at_once(self) -> None:
        for name, power in (("COAL1", 400000), ("GT5", -1)):
            self.files["case"]["thermal_generators"][name]["power_output_maximum"] = power
        self.files["case"]["reserves"][3:6] = ["5"] * 3
        self.files["schedule"]["thermal"]["GT-6"] = self.files["schedule"]["thermal"].pop("GT6")
        self.files["prices"]["reserve"][0] = -1
        status, text = self.lint()
        self.assertEqual(status, 2)
        for words in (
            'case.json, line 3: reserves, item 4: it is of the wrong kind: a number is due. Found: "5". Numbers stand without quotes',
            "So in 2 more items: 5, 6.",
            'line 5: thermal unit "COAL1"',
            'line 9: thermal unit "GT5"',
            'Is "GT6" meant?',
            "prices.json, line 2: reserve, item 1: it is below 0. Found: -1.",
            "6 errors, 0 warnings",
        ):
            self.assertIn(words, text)

    def test_a_day_on_which_clocks_change_is_named(self) -> None:
        for hours, told in (
            (25, "25 periods are a day of 25 hours, on which clocks go back: is that meant?"),
            (30, "30 periods are no whole day"),
        ):
            case = {"time_periods": hours, "demand": [5] * hours, "reserves": [0] * hours, "thermal_generators": {}}
            wind = {"power_output_minimum": [0] * hours, "power_output_maximum": [9] * hours}
            self.files["case"] = {**case, "renewable_generators": {"W": wind}}
            self.write()
            status, text, _ = run("lint.py", f"{self.room}/case.json")
            self.assertEqual(status, 1)
            self.assertIn(told, text)

    def test_few_of_many_are_told(self) -> None:
        for unit in self.files["case"]["thermal_generators"].values():
            unit["owner"] = "me"
        text = self.lint()[1]
        self.assertEqual(text.count('the key "owner" is skipped'), 5)
        self.assertIn("warning: 1 more like that: GT6 (--all tells them)", text)
        self.assertEqual(self.lint("--all")[1].count('the key "owner" is skipped'), 6)

    def test_of_very_many_faults_so_many_are_told_as_are_asked_for(self) -> None:
        units = self.files["case"]["renewable_generators"]
        units.update({f"W{i}": {**units["WIND1"], "power_output_maximum": [math.nan] * 24} for i in range(200)})
        began = time.process_time()
        errors = [it["text"] for it in json.loads(self.lint("--json")[1])["findings"]]
        self.assertLess(time.process_time() - began, 10)  # (each fault was sought anew, which took minutes)
        for place, text in enumerate(errors[:1000]):
            unit, item = divmod(place, 24)
            self.assertIn(f', in renewable unit "W{unit}", power_output_maximum, item {item + 1}: this isn', text)
        self.assertEqual(errors[1000], "3,800 more faults are there. Mend these first; --most of lint.py tells more.")
        self.assertIn(": 4,799 more faults are there. ", self.lint("--most", "1")[1])

    def test_of_faults_of_form_so_many_are_told_as_are_asked_for(self) -> None:
        for unit in ("GT5", "GT6"):
            self.files["case"]["thermal_generators"][unit]["must_run"] = 7
        self.assertIn(": 1 more fault is there. ", self.lint("--most", "1")[1])
        self.assertNotIn(" more fault", self.lint("--most", "2")[1])

    def test_json(self) -> None:
        self.files["case"]["thermal_generators"]["GT5"]["ramp_up_limt"] = self.files["case"]["thermal_generators"][
            "GT5"
        ].pop("ramp_up_limit")
        status, text = self.lint("--json")
        found = json.loads(text)
        self.assertEqual((status, found["status"], len(found["findings"])), (2, 2, 2))
        error, warning = found["findings"]
        self.assertEqual((error["level"], error["unit"], error["line"]), ("error", "GT5", 9))
        self.assertEqual(error["fault"], "fault 3 case 20 field ramp_up_limit kind thermal unit 5 item 0")
        self.assertEqual((warning["rule"], warning["kind"]), ("unknown-key", "thermal"))
        self.assertIn('Is "ramp_up_limit" meant?', warning["text"])

    def test_files_that_can_not_be_read(self) -> None:
        status, text, _ = run("lint.py", f"{self.room}/none.json")
        self.assertEqual(
            (status, text), (2, f"error: {self.room}/none.json: No such file or directory\n1 error, 0 warnings\n")
        )
        _, text, _ = run("lint.py", self.room)
        self.assertIn("this is a folder: tools/convert.py makes a case of a folder of CSV files", text)
        for data in (
            b"",
            b"\xef\xbb\xbf{}",
            b"\x1f\x8b\x08\x00",
            b"[" * 40,
            b'{"a":"\xff"}',
            b"5",
            b'{"time_periods":',
        ):
            with open(f"{self.room}/odd.json", "wb") as file:
                file.write(data)
            self.assertEqual(run("lint.py", f"{self.room}/odd.json")[0], 2, data)

    def test_falling_slopes_of_the_day(self) -> None:
        """The numbers were worked out by a program that shares nothing with this one."""
        review = look({it: f"{EXAMPLES}/day/{it}.json" for it in ("case", "schedule")})
        names = [str(it.unit) for it in review.findings if it.rule == "falling-slopes"]
        self.assertEqual(names[:4], ["GEN070", "GEN051", "GEN009", "GEN062"])
        self.assertEqual(
            sorted(names), [f"GEN0{it}" for it in ("09", "13", "15", "17", "20", "35", "51", "62", "68", "70")]
        )
        costs = review.costs
        assert costs is not None
        self.assertEqual(
            [f"{float(getattr(costs, it)) / 1e6:.6f}" for it in ("straight", "convex", "whole")],
            ["9920660.501577", "9920569.756691", "9920566.288596"],
        )
        self.assertEqual({it.level for it in review.findings}, {Level.WARNING})

    def test_a_first_look_of_another_tool(self) -> None:
        """It tells warnings, and refuses files with errors."""
        self.files["case"]["thermal_generators"]["GT5"]["owner"] = "me"
        self.write()
        told: List[str] = []
        names = {it: f"{self.room}/{it}.json" for it in ("case", "schedule")}
        self.assertEqual(first_look(names, told.append), told)
        self.assertEqual(len(told), 1)
        self.files["case"]["reserves"][0] = -1
        self.write()
        with self.assertRaisesRegex(HullError, r"case\.json, line 3: reserves, item 1: it is below 0"):
            first_look(names, told.append)

    def test_ranges(self) -> None:
        self.assertEqual(ranges([9, 1, 2, 5, 6, 7]), "1, 2, 5 to 7, 9")


if __name__ == "__main__":
    unittest.main()
