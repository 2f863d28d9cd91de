"""tools/make_schedule.py --follow: solutions of other programs, and how far a schedule is from them."""
from __future__ import annotations

import copy
import csv
import json
import os
import shutil
import subprocess
import tempfile
import unittest
from typing import Any, Callable, Dict, List, Tuple

import market
import other_forms
from tool import PROGRAM, python_with, run

from hulltools.deviations import Deviation, table_text
from hulltools.errors import HullError
from hulltools.cases import case_of
from hulltools.external_schedules import Followed, followed_csv, followed_schedule, most_of, numbers, with_flags
from hulltools.impossible import why_flags
from hulltools.json_texts import parse
from hulltools.numbers import Kilowatts
from hulltools.schedules import Plan, Schedule


class Follow(unittest.TestCase):
    def setUp(self) -> None:
        self.python = python_with("scipy.optimize._milp")
        if not self.python:
            self.skipTest("no Python here has SciPy with milp")
        self.room = tempfile.mkdtemp(prefix="hull-follow-")
        self.addCleanup(shutil.rmtree, self.room)
        with open(f"{self.room}/case.json", "w", encoding="utf-8") as file:
            file.write(market.text(market.case()))
        self.plan = market.schedule()

    def megawatts(self, change: Callable[[Dict[str, Any]], None] = lambda it: None) -> Dict[str, Any]:
        """The schedule in megawatts, changed."""
        plan = copy.deepcopy(self.plan)
        for unit in plan["thermal"].values():
            unit.update({key: [it / 1000 for it in unit[key]] for key in ("power", "reserve")})
        for group in ("renewable", "bids"):
            plan[group] = {name: [it / 1000 for it in row] for name, row in plan[group].items()}
        change(plan)
        return plan

    def follow(self, name: str, *words: str, case: str = "case.json") -> Tuple[int, str]:
        files = [f"{self.room}/{it}" for it in (case, "made.json")]
        status, _, said = run(
            "make_schedule.py", *files, "--hull", PROGRAM, "--follow", f"{self.room}/{name}", *words, python=self.python
        )
        return status, said.replace(f"{self.room}/", "")

    def made(self) -> Dict[str, Any]:
        with open(f"{self.room}/made.json", encoding="utf-8") as file:
            return dict(json.load(file))

    def test_the_same_powers_are_told_so(self) -> None:
        other_forms.write_json(f"{self.room}/plan.json", self.megawatts())
        status, said = self.follow("plan.json", "--deviations", f"{self.room}/table.csv", "--tolerance", "0")
        self.assertEqual((status, said.split("; ")[1:]), (0, ["its powers are those of plan.json\n"]), said)
        self.assertEqual(self.made(), self.plan)
        self.assertEqual(self.table(), [])

    def table(self) -> List[Dict[str, str]]:
        with open(f"{self.room}/table.csv", encoding="utf-8") as file:
            return list(csv.DictReader(file))

    @staticmethod
    def thirty_off(plan: Dict[str, Any]) -> None:
        """A power that is 30 MW too low, so that the plan doesn't balance."""
        plan["thermal"]["COAL1"]["power"][3] -= 30

    def test_schedule_and_deviations_are_two_files(self) -> None:
        other_forms.write_json(f"{self.room}/plan.json", self.megawatts())
        status, said = self.follow(
            "plan.json", "--deviations", f"{self.room}/../{os.path.basename(self.room)}/made.json"
        )
        self.assertEqual(status, 1)
        self.assertIn("made.json: this is to be two of the files that are written\n", said)
        self.assertFalse(os.path.exists(f"{self.room}/made.json"))

    def listed(self, *keys: str) -> List[float]:
        """The places of the keys in the order of time."""
        value = parse(json.dumps({key: place for place, key in enumerate(keys)}).encode())
        return numbers(value, len(keys), "f", "x")

    def test_times_as_keys_stand_in_the_order_of_time(self) -> None:
        """Whatever their order in the file is: summer ends, a year ends, and offsets differ."""
        for keys, order in (
            (("2026-10-25T02:00+01:00", "2026-10-25T02:00+02:00", "2026-10-25T03:00+01:00"), [1, 0, 2]),
            (("2026-10-25 02:00:00Z", "2026-10-25 02:30:00.000+0200"), [1, 0]),
            (("2026-10-25T02:00+01:00[Europe/Paris]", "2026-10-25T02:00+02:00[Europe/Paris]"), [1, 0]),
            (("2027-01-01T00:00-05", "2027-01-01T01:00+00"), [1, 0]),
            (("2026-10-25 10:00", "2026-10-25 09:00"), [1, 0]),
            (("20261025T1000", "20261025T0900"), [1, 0]),
            (("t9", "t10"), [0, 1]),
            (("t10", "t9"), None),
            (("2026/10/25 10:00", "2026/10/25 09:00"), [1, 0]),
            (("01:00", "02:00"), [0, 1]),
            (("01.11.2026 00:00", "31.10.2026 00:00"), None),
            (("2026-Feb-01", "2026-Jan-31"), None),
            (("Nov 01", "Oct 31"), None),
            (("20261025T020000+0100", "20261025T020000+0200"), None),
            (("2026-10-25T02:00:00.5+01:00", "2026-10-25T02:00:00.5+02:00"), None),
            (("2026-10-25 2:00+01:00", "2026-10-25 2:00+02:00"), None),
            (("2026-10-25T02:00 UTC+1", "2026-10-25T02:00 UTC+2"), None),
            (("2026 01.11. 00:00", "2026 25.10. 23:00"), None),
            (("25.10.2026 23:00", "26.10.2026 00:00"), None),
            (("31.12. 22:00", "31.12. 23:00"), None),
            (("1:00:00", "10:00:00", "2:00:00"), None),
            (("31-Dec-26 22:00", "31-Dec-26 23:00", "01-Jan-27 00:00", "01-Jan-27 01:00"), None),
            (("22:00", "23:00", "00:00", "01:00"), None),
            (("Mon 23:00", "Tue 00:00"), None),
            (("31.12. 23:00", "01.01. 00:00"), None),
            (("-3", "-2", "-1", "0"), None),
            (("31/10/2026", "01/11/2026"), None),
            (("31.10.26", "01.11.26"), None),
            (("31 Oct 2026", "1 Nov 2026"), None),
            (("10/25/2026 1:00", "10/25/2026 0:00"), None),
            (("12:00 PM", "1:00 PM"), None),
            (("11 a.m.", "12 p.m."), None),
            (("11am", "12pm"), None),
            (("2026-10-25T02:00+02:00", "2026-10-25T03:00"), None),
            (("2026-10-25T02:00+02:00", "2026-10-25T01:00+01:00"), None),
            (("2026-13-25T02:00+02:00", "2026-12-25T01:00+01:00"), None),
            (("1", "01"), None),
            (("one", "two"), None),
        ):
            with self.subTest(keys=keys):
                if order is not None:
                    self.assertEqual(self.listed(*keys), order)
                else:
                    with self.assertRaises(HullError) as found:
                        self.listed(*keys)
                    self.assertTrue(str(found.exception).startswith("f: x: "), found.exception)

    def test_periods_as_keys_count_by_their_numbers(self) -> None:
        keys = [str(period) for period in range(1, 13)]
        value = parse(json.dumps({key: keys.index(key) for key in sorted(keys)}).encode())
        self.assertEqual(numbers(value, len(keys), "f", "x"), [float(place) for place in range(len(keys))])
        with self.assertRaises(HullError):
            numbers(parse(b'{"a": 1}'), 1, "f", "x")

    def test_a_unit_that_the_case_has_not_is_told(self) -> None:
        plan = self.megawatts()
        plan["renewable"]["WINDY"] = plan["renewable"]["WIND1"]
        other_forms.write_json(f"{self.room}/plan.json", plan)
        status, said = self.follow("plan.json")
        self.assertEqual((status, "the case has no WINDY, which it names" in said), (0, True), said)

    def test_tables_that_a_reader_would_cut(self) -> None:
        for text, due in (
            ("unit,period,on,power\nG1,1,1,60,5\n", "line 2: it has more cells than the first line names columns."),
            ("unit,period,power,power\nG1,1,1,2\n", "the column 'power' stands twice"),
            ("unit,period,on,power,Reserve\nG1,1,1,60,5\n", "`Reserve` is no column of it: is `reserve` meant?"),
            (
                '{"thermal": {"G1": {"on": [1], "power": [6], "reserves": [5]}}}',
                "G1: `reserves` is no key of it: is `r",
            ),
            ('{"Is on": {}, "Spinning Reserve (MW)": {}}', "`Spinning Reserve (MW)` is no key of it: is `Spinning r"),
            ('{"elements": {"generator": {"G1": {"Commitment": []}}}}', "G1: `Commitment` is no key of it: is `comm"),
            ("unit,period,on,power,reserve \nG1,1,1,60,5\n", "`reserve ` is no column of it: is `reserve` meant?"),
            ('{"thermal": {"G1": {"reserve": 5}}}', "plan.csv: G1, reserve: a list of 24 numbers is due"),
            ('{"thermal": {"G1": {"on": null}}}', "plan.csv: G1, on: a list of 24 numbers is due"),
            ('{"elements": {"generator": {"G1": {"rg": 20.0}}}}', "plan.csv: G1, rg: a list of 24 numbers is due"),
            ("unit,period,power\nG1,1,1\nG1,1,2\n", 'line 3: a second row of unit "G1" and period 1'),
            ("unit,period,power\nG1,1,1\nG1,01,2\n", 'line 3: a second row of unit "G1" and period 1'),
            (
                "unit,period,power\nG1,1,1\nG1,2,1\nG1,4,1\n",
                'plan.csv: unit "G1" has no row in period 3, and it has one',
            ),
            ("unit,period,on,power\nG1,1,,1\nG1,2,1,1\n", 'plan.csv: unit "G1" has no on in period 1, and it has one'),
        ):
            with open(f"{self.room}/plan.csv", "w", encoding="utf-8") as file:
                file.write(text)
            status, said = self.follow("plan.csv")
            self.assertEqual((status, due in said), (1, True), said)

    def test_flags_are_taken_as_pandas_writes_them(self) -> None:
        found = followed_csv(b"unit,period,on,power\nG1,1,True,5\nG1,2,False,\n", "rows", 2)
        self.assertEqual((found.on, found.power), ({"G1": [1.0, 0.0]}, {"G1": [5.0, 0.0]}))

    def test_a_bad_cell_is_told_with_its_column(self) -> None:
        for row, due in (
            ("G1,one,1,5", "`period` is one"),
            ("G1,1,yes,5", "`on` is yes"),
            ("G1,1,1,True", "`power` is True"),
        ):
            with self.assertRaisesRegex(HullError, f"^rows, line 2: no row of .*, and numbers: {due}$"):
                followed_csv(f"unit,period,on,power\n{row}\n".encode(), "rows", 2)

    def test_powers_in_kilowatts_are_refused(self) -> None:
        """Of each kind; a power of ten times the most isn't."""
        case = case_of("case", parse(market.text(market.case()).encode()))
        for kind, verb in (("thermal", "gives"), ("renewable", "gives"), ("bid", "buys")):
            unit = next(unit for known, unit in case.units if known == kind)
            on = {unit.name: [1.0] * case.periods for unit in case.thermal}
            most = most_of(unit) / 1e3
            with_flags(Followed(on, {unit.name: [10 * most] * case.periods}), case, "rows")
            with self.assertRaises(HullError) as caught:
                with_flags(Followed(on, {unit.name: [most, 1000 * most]}), case, "rows")
            power = f"power {1000 * most:.10g} MW of {unit.name} in period 2"
            due = f"rows: {power}, and it {verb} at most {most:g} MW: is it in kilowatts?"
            self.assertEqual(caught.exception.sentence, due)
            self.assertEqual((caught.exception.unit, caught.exception.period), (unit.name, 2))

    def test_a_schedule_of_two_kinds_or_of_other_periods_is_refused(self) -> None:
        both = Schedule({(kind, "G"): Plan([1], [Kilowatts(1)], [Kilowatts(0)]) for kind in ("thermal", "bid")})
        with self.assertRaisesRegex(HullError, '^rows: "G" is both a thermal and a bid, '):
            followed_schedule(both, "rows", 1)
        with self.assertRaisesRegex(HullError, "^rows: G: lists of 2 numbers are due$"):
            followed_schedule(both, "rows", 2)

    def test_the_unit_that_breaks_a_rule_is_named(self) -> None:
        case = case_of("case", parse(market.text(market.case()).encode()))
        flags = [[int(hour in (7, 8)) for hour in range(24)] for _ in case.thermal]
        why = why_flags(case, flags)
        self.assertIn(f'"{why.unit}"', why.sentence)
        self.assertIn(f"period {why.period}", why.sentence)

    def test_columns_and_keys_that_are_skipped_are_told(self) -> None:
        text = b",unit,period,status,power,spin\n0,G1,1,1,5,2\n"
        self.assertEqual(followed_csv(text, "rows", 1).skipped, ["status", "spin"])

        def other(plan: Dict[str, Any]) -> None:
            for row in plan["thermal"].values():
                row["status"] = row.pop("on")

        other_forms.write_json(f"{self.room}/plan.json", self.megawatts(other))
        status, said = self.follow("plan.json")
        due = "make_schedule.py: plan.json has status, which nothing reads\n"
        self.assertEqual((status, said[: len(due)]), (0, due), said)

    def test_an_empty_cell_is_0_where_the_unit_is_off(self) -> None:
        found = followed_csv(b"unit,period,on,power,reserve\nG1,1,0,,\nG1,2,1,5,\n", "rows", 2)
        self.assertEqual((found.on, found.power, found.reserve), ({"G1": [0.0, 1.0]}, {"G1": [0.0, 5.0]}, {}))
        found = followed_csv(b"unit,period,on,power\nG1,1,0,\nG1,2,0,\nG2,1,0,\nG2,2,1,\n", "rows", 2)
        self.assertEqual(found.power, {"G1": [0.0, 0.0]})

    def test_units_without_powers_are_told(self) -> None:
        other_forms.write_json(f"{self.room}/plan.json", self.megawatts(lambda plan: plan["renewable"].clear()))
        status, said = self.follow("plan.json")
        self.assertEqual(status, 0, said)
        due = "make_schedule.py: plan.json has no powers of WIND1, WIND2, which are free"
        self.assertEqual(said.splitlines()[0], due)

    def test_a_file_without_powers_is_told(self) -> None:
        """Its commitments are kept, and nothing says that its powers are."""

        def bare(plan: Dict[str, Any]) -> None:
            plan["renewable"], plan["bids"] = {}, {}
            plan["thermal"] = {name: {"on": row["on"]} for name, row in plan["thermal"].items()}

        other_forms.write_json(f"{self.room}/plan.json", self.megawatts(bare))
        status, said = self.follow("plan.json")
        due = "; its commitments are those of plan.json, which has no powers of the case's units\n"
        self.assertEqual((status, said[-len(due) :]), (0, due), said)
        flags = {name: row["on"] for name, row in self.plan["thermal"].items()}
        self.assertEqual({name: row["on"] for name, row in self.made()["thermal"].items()}, flags)

    def test_a_name_of_two_kinds_is_refused(self) -> None:
        def both(plan: Dict[str, Any]) -> None:
            plan["renewable"]["COAL1"] = plan["renewable"].pop("WIND1")

        def other(plan: Dict[str, Any]) -> None:
            plan["renewable"]["STEEL"] = plan["bids"].pop("STEEL")

        due = "and units of a schedule to follow are told by their names alone\n"
        for change, told in (
            (both, '"COAL1" is both a thermal and a renewable'),
            (other, '"STEEL" is both a renewable and a bid'),
        ):
            other_forms.write_json(f"{self.room}/plan.json", self.megawatts(change))
            self.assertEqual(self.follow("plan.json"), (1, f"make_schedule.py: plan.json: {told}, {due}"))
        case = market.case()
        case["renewable_generators"]["COAL1"] = case["renewable_generators"].pop("WIND1")
        with open(f"{self.room}/case.json", "w", encoding="utf-8") as file:
            file.write(market.text(case))
        with open(f"{self.room}/plan.csv", "w", encoding="utf-8") as file:
            file.write("unit,period,power\n" + "".join(f"COAL1,{t},300\n" for t in range(1, 25)))
        told = f'plan.csv: "COAL1" is both a thermal and a renewable, {due}'
        self.assertEqual(self.follow("plan.csv"), (1, f"make_schedule.py: {told}"))

    def test_names_of_tables_are_marked_for_spreadsheets(self) -> None:
        text = table_text([Deviation("thermal", "=1+1", 1, "power", 2.0, Kilowatts(1))])
        self.assertIn("\nthermal,'=1+1,1,power,", text)
        rows = b"unit,period,power\n'=1+1,1,5\n'G1,1,6\n"
        self.assertEqual(followed_csv(rows, "rows", 1).power, {"=1+1": [5.0], "'G1": [6.0]})

    def test_deviations_are_told_and_listed(self) -> None:
        other_forms.write_json(f"{self.room}/plan.json.gz", self.megawatts(self.thirty_off))
        status, said = self.follow("plan.json.gz", "--deviations", f"{self.room}/table.csv")
        self.assertEqual(status, 0, said)
        self.assertIn("of its powers differ", said)
        rows = self.table()
        off = [abs(float(row["difference_mw"])) for row in rows if row["what"] == "power"]
        self.assertAlmostEqual(sum(off), 30)
        self.assertEqual(off, sorted(off, reverse=True))
        self.assertEqual({row["period"] for row in rows}, {"4"})

    def test_a_tolerance_is_kept(self) -> None:
        other_forms.write_json(f"{self.room}/plan.json", self.megawatts(self.thirty_off))
        status, said = self.follow("plan.json", "--tolerance", "1", "--deviations", f"{self.room}/table.csv")
        self.assertEqual((status, said.count("\n")), (1, 1), said)
        self.assertTrue(said.startswith("make_schedule.py: no schedule is written, since "), said)
        self.assertTrue(said.endswith("--tolerance 1 MW was asked for\n"), said)
        self.assertFalse(os.path.exists(f"{self.room}/made.json"))
        self.assertTrue(self.table())
        self.assertEqual(self.follow("plan.json", "--tolerance", "30")[0], 0)

    def test_both_words_go_with_follow(self) -> None:
        for words in (["--tolerance", "1"], ["--deviations", f"{self.room}/table.csv"]):
            status, _, said = run(
                "make_schedule.py", f"{self.room}/case.json", f"{self.room}/made.json", *words, python=self.python
            )
            self.assertEqual((status, said), (1, "make_schedule.py: --tolerance and --deviations go with --follow\n"))

    def test_empty_names_are_refused_before_anything_is_made(self) -> None:
        """As of a variable of a shell that isn't set; no search takes the place of what is to be followed."""
        other_forms.write_json(f"{self.room}/plan.json", self.megawatts())
        plan, case, made = (f"{self.room}/{it}.json" for it in ("plan", "case", "made"))
        due_name = "a name is due, and an empty text is given\n"
        for words, due in (
            ([case, made, "--follow", ""], f"--follow: {due_name}"),
            ([case, made, "--follow", plan, "--deviations="], f"--deviations: {due_name}"),
            ([case, ""], "Is a directory\n"),
        ):
            status, _, said = run("make_schedule.py", *words, "--hull", PROGRAM, python=self.python)
            self.assertEqual((status, said.count("\n"), said[-len(due) :]), (1, 1, due), said)
        self.assertFalse(os.path.exists(made))

    def test_a_solution_of_unit_commitment_jl(self) -> None:
        """Of the converted instance, whose buyer is three loads; the spinning reserve stands under its product."""
        other_forms.write_json(f"{self.room}/instance.json", other_forms.unit_commitment_jl())
        self.assertEqual(run("convert.py", f"{self.room}/instance.json", f"{self.room}/julia.json")[0], 0)
        plan = self.megawatts()
        solution = {
            "Is on": {name: [float(now) for now in it["on"]] for name, it in plan["thermal"].items()},
            "Thermal production (MW)": {name: it["power"] for name, it in plan["thermal"].items()},
            "Profiled production (MW)": plan["renewable"],
            "Spinning reserve (MW)": {"r1": {name: it["reserve"] for name, it in plan["thermal"].items()}},
        }
        other_forms.write_json(f"{self.room}/solution.json.gz", solution)
        status, said = self.follow("solution.json.gz", case="julia.json")
        self.assertEqual(status, 0, said)
        self.assertTrue(said.endswith("its powers are those of solution.json.gz\n"), said)
        made = self.made()
        self.assertEqual((made["thermal"], made["renewable"]), (self.plan["thermal"], self.plan["renewable"]))
        self.assertEqual([made["bids"][f"STEEL{i}"][0] for i in (1, 2, 3)], [40000, 30000, 0])
        self.assertIn("STEEL1, STEEL2, STEEL3", said)
        loads = {name: [power / 1e3 for power in powers] for name, powers in made["bids"].items()}
        other_forms.write_json(f"{self.room}/whole.json", {**solution, "Price-sensitive loads (MW)": loads})
        status, said = self.follow("whole.json", case="julia.json")
        self.assertEqual((status, "STEEL" in said, self.made()), (0, False, made), said)

    def test_a_solution_of_egret(self) -> None:
        """Of the converted model, where the buyer's power is a load."""
        model, plan = other_forms.egret(), self.megawatts()
        other_forms.write_json(f"{self.room}/model.json", model)
        self.assertEqual(run("convert.py", f"{self.room}/model.json", f"{self.room}/egret.json")[0], 0)
        over_time, units = other_forms.over_time, model["elements"]["generator"]
        for name, unit in plan["thermal"].items():
            units[name].update(
                commitment=over_time(unit["on"]), pg=over_time(unit["power"]), rg=over_time(unit["reserve"])
            )
        for name, row in plan["renewable"].items():
            units[name].update(pg=over_time(row))
        other_forms.write_json(f"{self.room}/solved.json", model)
        status, said = self.follow("solved.json", "--tolerance", "0", case="egret.json")
        self.assertEqual(status, 0, said)
        made = self.made()
        self.assertEqual((made["thermal"], made["renewable"]), (self.plan["thermal"], self.plan["renewable"]))
        for name, unit in plan[
            "thermal"
        ].items():  # (headroom is no reserve, and the spinning reserve is that of the case)
            reserve = over_time([0.9 * it for it in unit["reserve"]])
            units[name].update(headroom=over_time([0] * 24), spinning_supplied=units[name].pop("rg"), rg=reserve)
        other_forms.write_json(f"{self.room}/spinning.json", model)
        self.assertEqual(self.follow("spinning.json", "--tolerance", "0", case="egret.json")[0], 0)
        self.assertEqual(self.made(), made)
        for name in plan["thermal"]:
            del units[name]["spinning_supplied"], units[name]["rg"]
        other_forms.write_json(f"{self.room}/bare.json", model)
        status, said = self.follow("bare.json", "--tolerance", "0", case="egret.json")
        self.assertEqual((status, "reserves differ" in said), (0, False), said)

    def test_a_solved_network_of_pypsa(self) -> None:
        folder, plan = f"{self.room}/network", self.megawatts()
        other_forms.pypsa(folder)
        self.assertEqual(run("convert.py", folder, f"{self.room}/pypsa.json")[0], 0)
        powers = {**{name: it["power"] for name, it in plan["thermal"].items()}, **plan["renewable"]}
        hours = [f"2026-11-30 {it:02}:00:00" for it in range(24)]
        rows = [[hour, *(row[t] for row in powers.values())] for t, hour in enumerate(hours)]
        other_forms.write_table(f"{folder}/generators-p.csv", [["snapshot", *powers], *rows])
        states = {name: it["on"] for name, it in plan["thermal"].items()}
        for written in (float, bool):
            rows = [[hour, *(written(row[t]) for row in states.values())] for t, hour in enumerate(hours)]
            other_forms.write_table(f"{folder}/generators-status.csv", [["snapshot", *states], *rows])
            status, said = self.follow("network", case="pypsa.json")
            self.assertEqual(status, 0, said)
            self.assertTrue(said.endswith("its powers are those of network\n"), said)
        self.assertEqual({name: it["on"] for name, it in self.made()["thermal"].items()}, states)
        ran = subprocess.run(
            [PROGRAM, "check", "--case", f"{self.room}/pypsa.json", "--schedule", f"{self.room}/made.json"],
            capture_output=True,
        )
        self.assertEqual(ran.returncode, 0, ran.stdout)

    def test_columns_that_pypsa_leaves_out_have_its_defaults(self) -> None:
        """A unit that stays on at 0, to save a start, and one that never gives anything."""
        folder = f"{self.room}/network"
        os.makedirs(folder)
        head = "name p_nom committable p_min_pu marginal_cost start_up_cost active".split()
        units = [
            ["A", 100, True, 0.3, 20, "", ""],
            ["B", 50, True, "", 50, 1000, ""],
            ["SHED", 500, "", "", 3000, "", ""],
        ]
        units.append(["OLD", 10, True, "", 1, "", False])
        rows = [[*unit, 0.001 if unit[0] == "B" else ""] for unit in units]
        rows[1][1] *= 1000  # (in kW)
        other_forms.write_table(f"{folder}/generators.csv", [[*head, "sign"], *rows])
        demand, powers = [120, 90, 90, 120], [[100, 20e3], [90, 0], [90, 0], [100, 20e3]]
        for name, columns, rows in (
            ("snapshots", ["objective"], [[1.0]] * 4),
            ("loads-p_set", ["L"], [[it] for it in demand]),
            ("generators-p", ["A", "B"], powers),
        ):
            table = [[f"h{t}", *row] for t, row in enumerate(rows)]
            other_forms.write_table(f"{folder}/{name}.csv", [["snapshot", *columns], *table])
        other_forms.write_table(f"{folder}/loads.csv", [["name", "bus"], ["L", "b"]])
        self.assertEqual(run("convert.py", folder, f"{self.room}/pypsa.json")[0], 0)
        status, said = self.follow("network", case="pypsa.json")
        self.assertEqual((status, "powers are those of network\n" in said, "OLD" in said), (0, True, False), said)
        self.assertEqual(
            {name: it["on"] for name, it in self.made()["thermal"].items()}, dict.fromkeys(["A", "B", "SHED"], [1] * 4)
        )

    def test_flags_that_are_guessed_are_told(self) -> None:
        def bare(plan: Dict[str, Any]) -> None:
            for row in plan["thermal"].values():
                del row["on"]

        case = market.case()
        off = next(name for name, row in self.plan["thermal"].items() if 0 in row["on"])
        for least, is_told in ((None, False), (0, True)):
            if least is not None:
                unit = case["thermal_generators"][off]
                unit["power_output_minimum"] = unit["piecewise_production"][0]["mw"] = least
            with open(f"{self.room}/{least}.json", "w", encoding="utf-8") as file:
                file.write(market.text(case))
            other_forms.write_json(f"{self.room}/plan.json", self.megawatts(bare))
            status, said = self.follow("plan.json", case=f"{least}.json")
            due = f"make_schedule.py: plan.json has no on flags of {off}: off is taken where the power is 0\n"
            self.assertEqual((status, due in said), (0, is_told), said)

    def test_commitments_that_no_unit_can_keep(self) -> None:
        """The rule and the unit are named, whatever the powers are."""

        def short(plan: Dict[str, Any]) -> None:
            plan["thermal"]["CCGT3"]["on"] = [int(hour in (7, 8)) for hour in range(24)]

        other_forms.write_json(f"{self.room}/plan.json", self.megawatts(short))
        status, said = self.follow("plan.json")
        told = 'plan.json: its commitments can\'t be met in this case: thermal unit "CCGT3" stops in period 10 after 2 periods on, and 4 are due'
        self.assertEqual((status, said), (1, f"make_schedule.py: {told}\n"))

    def test_commitments_that_the_state_before_bars(self) -> None:
        """The powers can be kept with CCGT3 on, but it has been off for an hour, and four are due."""
        case = market.case()
        case["thermal_generators"]["CCGT3"]["time_down_t0"] = 1
        with open(f"{self.room}/case.json", "w", encoding="utf-8") as file:
            file.write(market.text(case))

        def early(plan: Dict[str, Any]) -> None:
            plan["thermal"]["CCGT3"]["on"] = [1] * 24

        other_forms.write_json(f"{self.room}/plan.json", self.megawatts(early))
        status, said = self.follow("plan.json")
        told = 'its commitments can\'t be met in this case: thermal unit "CCGT3" is on in period 1, and has to stay off'
        self.assertEqual((status, told in said), (1, True), said)

    def test_an_impossible_case_names_the_unit(self) -> None:
        """CCGT3 is needed in the evening, and its start limit bars it."""
        case = market.case()
        case["thermal_generators"]["CCGT3"]["ramp_startup_limit"] = 60
        case["demand"] = [it * 1.45 for it in case["demand"]]
        with open(f"{self.room}/case.json", "w", encoding="utf-8") as file:
            file.write(market.text(case))
        files = [f"{self.room}/{it}.json" for it in ("case", "made")]
        status, _, said = run("make_schedule.py", *files, "--hull", PROGRAM, python=self.python)
        self.assertEqual(status, 1)
        self.assertIn("there would be a schedule without the start and stop limits", said)
        self.assertIn(
            'Look at thermal unit "CCGT3": it can never start: its ramp_startup_limit of 60 MW is below its least power of 120 MW.',
            said,
        )

    def test_tables_of_a_network_are_not_replaced(self) -> None:
        network = f"{self.room}/network"
        other_forms.pypsa(network)
        with open(f"{network}/loads.csv", "rb") as file:
            before = file.read()
        plain = [f"{self.room}/{it}" for it in ("case.json", "made.json")]
        for files, more in (
            ([plain[0], f"{network}/loads.csv"], []),
            (plain, ["--deviations", f"{network}/loads.csv"]),
        ):
            words = [*files, "--follow", network, *more, "--hull", PROGRAM]
            status, _, said = run("make_schedule.py", *words, python=self.python)
            due = f"make_schedule.py: {network}/loads.csv: this is a file to read, and it would be replaced\n"
            self.assertEqual((status, said), (1, due))
        with open(f"{network}/loads.csv", "rb") as file:
            self.assertEqual(file.read(), before)

    def test_an_unsolved_network(self) -> None:
        other_forms.pypsa(f"{self.room}/network")
        status, said = self.follow("network")
        self.assertEqual(status, 1)
        self.assertIn("was the network solved?", said)

    def test_a_network_whose_powers_are_no_numbers(self) -> None:
        other_forms.pypsa(f"{self.room}/network")
        for damaged in ("x", "nan", "1e399", "1000001"):
            rows = [["snapshot", "CCGT3"], *([f"2026-11-30 {hour:02}:00:00", damaged] for hour in range(24))]
            other_forms.write_table(f"{self.room}/network/generators-p.csv", rows)
            status, said = self.follow("network")
            due = "make_schedule.py: network: CCGT3: a number of at most 1,000,000 is due\n"
            self.assertEqual((status, said), (1, due), damaged)


if __name__ == "__main__":
    unittest.main()
