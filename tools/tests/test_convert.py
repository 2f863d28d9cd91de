"""tools/convert.py: CSV folders in and out, and other programs' instances in, whose files here were made by hand."""
from __future__ import annotations

import gzip
import json
import os
import random
import re
import shutil
import subprocess
import sys
import tempfile
import time
import unittest
from typing import Any, Dict, List, Tuple
from unittest import mock

import market
import other_forms
from tool import EXAMPLES, PROGRAM, ROOT, run

from hulltools.cases import read_case
from hulltools.converters.csv_folder import write_csv
from hulltools.study_folder import SUMS
from hulltools.tables import as_it_was, told_apart


class WithRoom(unittest.TestCase):
    def setUp(self) -> None:
        self.room = tempfile.mkdtemp(prefix="hull-convert-")
        self.addCleanup(shutil.rmtree, self.room)

    def convert(self, source: str, to: str, *words: str, status: int = 0) -> Tuple[str, str]:
        """What is left out, and what is told."""
        ended, text, said = run("convert.py", source, to, *words)
        self.assertEqual(ended, status, said)
        return text, said.replace(f"{self.room}/", "")

    def write(self, name: str, text: str) -> str:
        with open(f"{self.room}/{name}", "w", encoding="utf-8", newline="") as file:
            file.write(text)
        return f"{self.room}/{name}"

    def read(self, name: str) -> str:
        with open(name, encoding="utf-8", newline="") as file:
            return file.read()

    def cost(self, case: str, schedule: str) -> str:
        ran = subprocess.run([PROGRAM, "check", "--case", case, "--schedule", schedule], capture_output=True, text=True)
        return ran.stdout.split("\n")[-3 if ran.returncode == 0 else 0]


class Csv(WithRoom):
    def folder(self, name: str = "csv") -> str:
        """The market as a folder."""
        self.write("case.json", market.text(market.case()))
        self.convert(f"{self.room}/case.json", f"{self.room}/{name}")
        return f"{self.room}/{name}"

    def test_there_and_back_are_the_same_bytes(self) -> None:
        for example in ("usual", "evening", "windows", "day", "two_units"):
            names = [f"{self.room}/{example}.{it}" for it in ("csv", "json", "again", "again.json")]
            case = f"{EXAMPLES}/{example}/case.json"
            self.assertEqual(self.convert(case, names[0])[0], "")
            for source, to in zip(names, names[1:]):
                self.assertEqual(self.convert(source, to)[0], "")
            self.assertEqual(sorted(os.listdir(names[0])), sorted(os.listdir(names[2])))
            for file in os.listdir(names[0]):
                self.assertEqual(self.read(f"{names[0]}/{file}"), self.read(f"{names[2]}/{file}"))
            self.assertEqual(self.read(names[1]), self.read(names[3]))
            schedule = f"{EXAMPLES}/{example}/schedule.json"
            self.assertEqual(self.cost(case, schedule), self.cost(names[1], schedule))
            self.assertEqual(read_case(case), read_case(names[1]))

    def test_the_example_folder_is_the_evening(self) -> None:
        self.convert(f"{EXAMPLES}/csv", f"{self.room}/case.json")
        self.assertEqual(read_case(f"{self.room}/case.json"), read_case(f"{EXAMPLES}/evening/case.json"))
        self.convert(f"{EXAMPLES}/evening/case.json", f"{self.room}/csv")
        for file in set(os.listdir(f"{self.room}/csv")) - {SUMS}:
            self.assertEqual(self.read(f"{self.room}/csv/{file}"), self.read(f"{EXAMPLES}/csv/{file}"))

    def test_names_and_numbers_stay_as_they_are(self) -> None:
        case = market.case()
        case["thermal_generators"]['a, "b" ü'] = case["thermal_generators"].pop("GT6")
        text = market.text(case).replace('"demand": [560.5', '"demand": [560.50')
        self.write("odd.json", text)
        self.convert(f"{self.room}/odd.json", f"{self.room}/odd")
        self.convert(f"{self.room}/odd", f"{self.room}/back.json")
        back = self.read(f"{self.room}/back.json")
        self.assertIn('"demand": [560.50, ', back)
        self.assertIn('"a, \\"b\\" ü": {', back)
        self.assertEqual(read_case(f"{self.room}/odd.json"), read_case(f"{self.room}/back.json"))

    def test_what_a_spreadsheet_writes_is_read(self) -> None:
        """A byte order mark, carriage returns, empty rows and columns; semicolons with decimal commas."""
        folder = self.folder()
        for file in set(os.listdir(folder)) - {SUMS}:
            text = self.read(f"{folder}/{file}").replace(",", ";").replace(".", ",").replace("\n", ";\r\n") + ";;;\r\n"
            with open(f"{folder}/{file}", "w", encoding="utf-8-sig", newline="") as table:
                table.write(text)
        self.convert(folder, f"{self.room}/back.json")
        self.assertEqual(read_case(f"{self.room}/back.json"), read_case(f"{self.room}/case.json"))

    def test_fields_of_points_that_are_not_read_are_told(self) -> None:
        case = market.case()
        for unit in case["thermal_generators"].values():
            unit["piecewise_production"][0]["co2"] = unit["startup"][0]["fuel"] = 4
        bid = next(iter(case["demand_bids"].values()))
        bid["blocks"][0][0]["buyer"] = bid["blocks"][1][0]["buyer"] = "x"
        self.write("more.json", market.text(case))
        for to in ("back.json", "folder"):
            told = self.convert(f"{self.room}/more.json", f"{self.room}/{to}")[0]
            for field in ("piecewise_production: the field `co2`", "startup: the field `fuel`"):
                self.assertIn(f"left out: thermal_generators, {field} ({len(case['thermal_generators'])}: ", told)
            self.assertIn("left out: demand_bids, blocks: the field `buyer` (1: ", told)
        self.convert(f"{self.room}/folder", f"{self.room}/again.json")
        self.assertEqual(self.read(f"{self.room}/again.json"), self.read(f"{self.room}/back.json"))

    def test_flags_may_be_true_and_false(self) -> None:
        folder = self.folder()
        head, *rows = (row.split(",") for row in self.read(f"{folder}/units.csv").splitlines())
        due = read_case(f"{self.room}/case.json")
        for texts in (("False", "True"), ("FALSE", "TRUE")):
            for row in rows:
                for place in map(head.index, ("must_run", "unit_on_t0")):
                    row[place] = texts[row[place] in ("1", "True")]
            self.write("csv/units.csv", "\n".join(",".join(row) for row in (head, *rows)))
            self.convert(folder, f"{self.room}/back.json")
            self.assertEqual(read_case(f"{self.room}/back.json"), due)
        self.write("csv/windows.csv", "unit,period,commitment\nGT5,2,True\n")
        self.convert(folder, f"{self.room}/back.json")
        made = json.loads(self.read(f"{self.room}/back.json"))["thermal_generators"]
        self.assertEqual(made["GT5"]["commitment"][1], 1)

    def test_a_block_that_stands_twice_is_told(self) -> None:
        folder = self.folder()
        bids = self.read(f"{folder}/bids.csv")
        name = bids.splitlines()[1].split(",")[0]
        self.write("csv/bids.csv", bids.replace("\n", "\n" + bids.splitlines()[1] + "\n", 1))
        told = self.convert(folder, f"{self.room}/back.json")[0]
        what = "rows of bids.csv that are alike are blocks of their own, and none stands there twice"
        self.assertEqual(told, f"assumed: {what} (1: {name})\n")

    def test_columns_without_a_name(self) -> None:
        """A spreadsheet writes empty columns behind a table, and pandas an index in front of it; any other cell is refused."""
        folder = self.folder()
        hours, due = self.read(f"{folder}/hours.csv"), read_case(f"{self.room}/case.json")
        rows = hours.splitlines()
        counted = [f"{'' if not t else t - 1},{row}\n" for t, row in enumerate(rows)]
        index = "left out: hours.csv: the first column, which has no name\n"
        for text, told in ((hours.replace("\n", ",, \n"), ""), ("".join(counted), index)):
            self.write("csv/hours.csv", text)
            self.assertEqual(self.convert(folder, f"{self.room}/back.json")[0], told)
            self.assertEqual(read_case(f"{self.room}/back.json"), due)
        cells = rows[1].split(",")
        self.write("csv/hours.csv", "\n".join([f"{rows[0]},", f"{cells[0]},{cells[1]},5,{cells[2]}", *rows[2:]]))
        told = self.convert(folder, f"{self.room}/back.json", status=1)[1]
        why = f"{cells[2]!r} stands in a column without a name. Is a decimal comma in the row?"
        self.assertEqual(told, f"convert.py: csv/hours.csv, line 2: {why}\n")

    def refused(self, file: str, old: str, new: str) -> str:
        folder = self.folder("of_" + str(len(os.listdir(self.room))))
        text = self.read(f"{folder}/{file}")
        self.assertIn(old, text)
        self.write(f"{os.path.basename(folder)}/{file}", text.replace(old, new, 1))
        told = self.convert(folder, f"{self.room}/none.json", status=1)[1]
        self.assertFalse(os.path.exists(f"{self.room}/none.json"))
        return told.split(": ", 1)[1].split("/", 1)[-1]

    def test_mistakes_are_told_with_their_place(self) -> None:
        for file, old, new, told in (
            ("units.csv", "GT5,0,20", "GT5,0,", "units.csv, line 6: power_output_minimum is empty"),
            ("units.csv", "GT6,", "GT5,", 'units.csv, line 7: the unit "GT5" stands twice'),
            ("offers.csv", "GT5,20,", "GT-5,20,", 'offers.csv, line 14: units.csv has no unit "GT-5"'),
            (
                "offers.csv",
                "unit,mw,cost",
                "unit,mw,price",
                "offers.csv: the first line has no column cost. Due: unit, mw, cost",
            ),
            ("offers.csv", "2112.0", '"2,112"', "offers.csv, line 14: cost is '2,112', and a number is due"),
            (
                "offers.csv",
                "2112.0",
                "2112,0",
                "offers.csv, line 14: it has 4 cells, and the first line names 3 columns. Is a decimal comma in it?",
            ),
            ("hours.csv", "\n3,", "\n4,", "hours.csv, line 4: period is 4, and 3 is due"),
            ("renewables.csv", "WIND1,5,0,56.5\n", "", 'the unit "WIND1" has no row of period 5'),
            ("bids.csv", "STEEL,24,20", "STEEL,25,20", "bids.csv, line 73: period is '25', and 1 to 24 is due"),
            (
                "units.csv",
                "GT5,0,20,80",
                "GT5,0,20,10",
                'thermal unit "GT5" (number 5), power_output_minimum: it is above the greatest power',
            ),
        ):
            self.assertIn(told, self.refused(file, old, new))

    def test_what_is_not_read_is_told(self) -> None:
        folder = self.folder()
        text = self.read(f"{folder}/hours.csv").replace("period,demand", "period,hour,demand").split("\n")
        self.write("csv/hours.csv", "\n".join([text[0], *(it.replace(",", ",x,", 1) for it in text[1:])]))
        self.assertEqual(self.convert(folder, f"{self.room}/back.json")[0], "left out: hours.csv: the column hour\n")
        case = market.case()
        case["thermal_generators"]["GT5"]["owner"] = "me"
        case["note"] = "of the year"
        self.write("noted.json", market.text(case))
        told = self.convert(f"{self.room}/noted.json", f"{self.room}/noted")[0]
        self.assertEqual(
            told, "left out: thermal_generators: the field `owner` (1: GT5)\nleft out: the case: the field `note`\n"
        )

    def test_groups_that_are_not_there_are_no_empty_ones(self) -> None:
        """What hull would refuse isn't mended without a word."""
        with open(f"{EXAMPLES}/evening/case.json", encoding="utf-8") as file:
            case = json.load(file)
        renewable = case.pop("renewable_generators")
        for change in ({}, {"renewables_generators": renewable}, {"renewable_generators": None}):
            other_forms.write_json(f"{self.room}/case.json", {**case, **change})
            told = self.convert(f"{self.room}/case.json", f"{self.room}/back.json", status=1)[1]
            self.assertIn("hull would refuse this case", told)
            self.assertIn("renewable_generators", told)
        other_forms.write_json(
            f"{self.room}/case.json", {**case, "renewable_generators": renewable, "demand_bids": None}
        )
        self.assertIn("demand_bids", self.convert(f"{self.room}/case.json", f"{self.room}/back.json", status=1)[1])

    def test_buyers_of_nearly_one_name_are_told(self) -> None:
        folder = self.folder()
        text = self.read(f"{folder}/bids.csv")
        name = text.splitlines()[1].split(",")[0]
        due = "assumed: buyers whose names differ by spaces or the case of letters alone are buyers of their own"
        for other in (f"{name} ", name.swapcase(), f"{name}\u00a0"):
            self.write("csv/bids.csv", f"{text}{other},1,1,5\n")
            told = self.convert(folder, f"{self.room}/back.json")[0]
            self.assertIn(f"{due} (2: {name}", told)
        self.write("csv/bids.csv", f"{text}other,1,1,5\n")
        self.assertNotIn("assumed", self.convert(folder, f"{self.room}/back.json")[0])

    def test_files_of_other_names_are_refused_or_told(self) -> None:
        folder = self.folder()
        for name, due in (("Bids.csv", "bids.csv"), ("start.csv", "starts.csv"), ("windows.CSV", "windows.csv")):
            self.write(f"csv/{name}", "")
            told = self.convert(folder, f"{self.room}/back.json", status=1)[1]
            self.assertEqual(told, f"convert.py: csv/{name}: is it {due}? Name it so, or move it away\n")
            os.remove(f"{folder}/{name}")
        for name in ("plants.csv", "._units.csv", "notes.txt"):
            self.write(f"csv/{name}", "")
        told = self.convert(folder, f"{self.room}/back.json")[0]
        self.assertEqual(told, "left out: the file ._units.csv\nleft out: the file plants.csv\n")
        due = "which isn't there? Save it as CSV of that name, or move it away"
        os.rename(f"{folder}/starts.csv", f"{self.room}/starts.csv")
        for name in ("starts.csv.txt", "Starts.xlsx", "starts.tsv"):
            self.write(f"csv/{name}", "")
            told = self.convert(folder, f"{self.room}/back.json", status=1)[1]
            self.assertEqual(told, f"convert.py: csv/{name}: is it starts.csv, {due}\n")
            os.remove(f"{folder}/{name}")
        os.rename(f"{self.room}/starts.csv", f"{folder}/starts.csv")
        self.write("csv/Starts.xlsx", "")  # (of which the file was made)
        self.convert(folder, f"{self.room}/back.json")

    def test_files_that_may_be_of_two_cases_are_refused(self) -> None:
        folder = self.folder()
        self.write("csv/UNFINISHED.txt", "The files in this folder are those of a run of convert.py that didn't end.\n")
        told = self.convert(folder, f"{self.room}/back.json", status=1)[1]
        due = "the files here may be of two cases: write them anew, or take UNFINISHED.txt away"
        self.assertEqual(told, f"convert.py: csv/UNFINISHED.txt: {due}\n")

    def test_no_file_that_is_read_is_replaced(self) -> None:
        folder = self.folder()
        before = self.read(f"{folder}/units.csv")
        self.assertIn("would be replaced", self.convert(folder, folder, status=1)[1])
        self.assertEqual(self.read(f"{folder}/units.csv"), before)

    def test_a_link_in_the_folder_is_refused_and_what_it_leads_to_stays(self) -> None:
        precious, folder = self.write("precious", "mine\n"), f"{self.room}/linked"
        os.makedirs(folder)
        os.symlink("linked", f"{self.room}/link")
        for name, to in (("offers.csv", "../precious"), ("bids.csv", "nowhere")):
            os.symlink(to, f"{folder}/{name}")
            told = self.convert(f"{EXAMPLES}/usual/case.json", f"{self.room}/link", status=2)[1]
            self.assertEqual((told.count("\n"), os.listdir(folder)), (1, [name]))
            self.assertIn(f"linked/{name}: no convert.py here made this, so it stays", told)
            os.remove(f"{folder}/{name}")
        self.assertEqual(self.read(precious), "mine\n")
        self.convert(f"{EXAMPLES}/usual/case.json", f"{self.room}/link")
        os.remove(f"{folder}/offers.csv")
        os.symlink("../precious", f"{folder}/offers.csv")  # (in place of its own file)
        self.convert(f"{EXAMPLES}/usual/case.json", folder)
        self.assertIn("G1,8.0,800.0", self.read(f"{folder}/offers.csv"))
        self.assertEqual(self.read(precious), "mine\n")

    def test_what_is_left_out_is_written_with_the_case_or_not_at_all(self) -> None:
        case, left = self.write("case.json", market.text(market.case())), f"{self.room}/left.json"
        self.write("file", "")
        for to in ("nodir/x.json", "file/csv"):
            self.convert(case, f"{self.room}/{to}", "--left-out", left, status=1)
            self.assertFalse(os.path.exists(left), to)
        for to in ("x.json", "csv"):
            for name in (f"{self.room}/nodir/left.json", "/dev/full"):
                self.convert(case, f"{self.room}/{to}", "--left-out", name, status=1)
                self.assertFalse(os.path.exists(f"{self.room}/{to}"))
            self.convert(case, f"{self.room}/{to}", "--left-out", left)
            self.assertTrue(os.path.exists(left) and os.path.exists(f"{self.room}/{to}"))
            os.remove(left)

    def test_what_is_left_out_may_lie_in_the_new_folder(self) -> None:
        case, folder = self.write("case.json", market.text(market.case())), f"{self.room}/of/day"
        self.convert(case, folder, "--left-out", f"{folder}/none/left.json", status=1)
        self.assertFalse(os.path.exists(folder))
        for _ in range(2):
            self.convert(case, folder, "--left-out", f"{folder}/left.json")
            self.assertTrue({"left.json", "units.csv"} <= set(os.listdir(folder)))

    def test_no_empty_folder_is_left_where_nothing_can_be_written(self) -> None:
        folder = mock.patch("hulltools.study_folder.write_together", side_effect=OSError(28, "No space left on device"))
        case = market.case()
        with folder, self.assertRaises(OSError):
            write_csv(f"{self.room}/csv", case, [])
        self.assertFalse(os.path.exists(f"{self.room}/csv"))

    def test_the_case_and_what_is_left_out_need_a_file_each(self) -> None:
        case = f"{EXAMPLES}/usual/case.json"
        os.symlink(self.room, f"{self.room}/here")
        for to, left in (("one.json", "here/one.json"), ("folder", "folder/../folder/units.csv")):
            told = self.convert(case, f"{self.room}/{to}", "--left-out", f"{self.room}/{left}", status=1)[1]
            self.assertIn(f"{os.path.basename(left)}: this is to be two of the files that are written", told)
        self.assertEqual(os.listdir(self.room), ["here"])

    def test_a_name_that_a_spreadsheet_evaluates_comes_back(self) -> None:
        draw = random.Random(1)
        names = ["=1+1", "'=1+1", "''x", "'x", "@a", "-5", "x;=1", "a\rb", "\ta", '"=1', "\n=1", " \n=1", "\uff1d1"]
        names += ["".join(draw.choices("=+-@';\t\r\n \",a", k=6)) for _ in range(500)]
        case = market.case()
        unit = case["thermal_generators"].pop("GT6")
        case["thermal_generators"].update({name: unit for name in names if not name.isspace()})
        case["thermal_generators"]["=HYPERLINK(1)"] = unit
        self.write("case.json", market.text(case))
        self.assertIn(
            " names that a spreadsheet would take", self.convert(f"{self.room}/case.json", f"{self.room}/1")[1]
        )
        for source, to in (("1", "1.json"), ("1.json", "2"), ("2", "2.json")):
            self.convert(f"{self.room}/{source}", f"{self.room}/{to}")
        self.assertIn("\n'=HYPERLINK(1),", self.read(f"{self.room}/1/units.csv"))
        for file in os.listdir(f"{self.room}/1"):
            self.assertEqual(self.read(f"{self.room}/1/{file}"), self.read(f"{self.room}/2/{file}"))
        self.assertEqual(self.read(f"{self.room}/1.json"), self.read(f"{self.room}/2.json"))
        self.assertEqual(read_case(f"{self.room}/1.json"), read_case(f"{self.room}/case.json"))

    def test_a_file_that_may_not_grow_is_named(self) -> None:
        case = self.write("case.json", market.text(market.case()))
        small = f"ulimit -f 1; exec {sys.executable} -B {ROOT}/tools/convert.py {case} {self.room}/to"
        ran = subprocess.run(
            ["bash", "-c", small], env={**os.environ, "TMPDIR": self.room}, capture_output=True, text=True
        )
        self.assertEqual((ran.returncode, ran.stdout), (1, ""))
        self.assertRegex(ran.stderr, rf"\Aconvert\.py: {self.room}/hull-convert-[^/]*/case\.json: File too large\n\Z")
        self.assertEqual(os.listdir(self.room), ["case.json"])

    def test_a_long_name_is_looked_through_once(self) -> None:
        began = time.process_time()
        for text in (" \t" * 100_000, "; " * 100_000, " " * 200_000, "'\t" * 100_000, " \t'" * 100_000):
            self.assertEqual(as_it_was(str(told_apart(text))), text)
        self.assertLess(time.process_time() - began, 10)

    def test_a_cell_without_an_end_is_refused(self) -> None:
        folder = self.folder()
        self.write("csv/offers.csv", self.read(f"{folder}/offers.csv") + '"' + "GT5,20,1\n" * 20_000)
        told = self.convert(folder, f"{self.room}/back.json", status=1)[1]
        self.assertIn("convert.py: csv/offers.csv, line 20: no row of comma separated values: field larger", told)

    def test_a_quote_too_many_swallows_no_rows(self) -> None:
        end, several = "no row of comma separated values: a quote is without an end", "a line's end stands in a cell."
        for file, old, new, told in (
            ("offers.csv", "GT5,20,", '"GT5,20,', f"offers.csv, line 14: {end}"),
            ("units.csv", "unit,", '"unit,', f"units.csv, line 1: {end}"),
            (
                "offers.csv",
                "\nGT5,20,",
                '\n"GT5,"20,',
                "offers.csv, line 14: no row of comma separated values: ',' expected",
            ),
            ("offers.csv", "2112.0", '"2112.0\n"', f"offers.csv, line 14: {several}"),
            ("hours.csv", "\n3,", '\n"3\r",', f"hours.csv, line 4: {several}"),
        ):
            self.assertIn(told, self.refused(file, old, new))

    def test_a_period_stands_once(self) -> None:
        folder = self.folder()
        for second in ("1,0", "1.0,1", "1,"):
            self.write("csv/windows.csv", f"unit,period,commitment\nGT5,1,1\nGT6,1,1\nGT5,{second}\n")
            told = self.convert(folder, f"{self.room}/back.json", status=1)[1]
            self.assertEqual(told, 'convert.py: csv/windows.csv, line 4: the unit "GT5" has period 1 twice\n')

    def test_points_and_commas_in_files_with_semicolons(self) -> None:
        folder = self.folder()
        for file in set(os.listdir(folder)) - {SUMS}:
            text = self.read(f"{folder}/{file}").replace(",", ";").replace(".", ",")
            self.write(f"csv/{file}", text.replace("\n3;", "\n3;1.") if file == "hours.csv" else text)
        told = self.convert(folder, f"{self.room}/back.json", status=1)[1]
        self.assertIn("convert.py: csv/hours.csv, line 4: demand is '1.", told)
        self.assertIn("not both are taken", told)
        self.assertEqual(told.count("\n"), 1)

    def test_points_that_may_part_thousands(self) -> None:
        """A spreadsheet of a tongue with decimal commas writes 1300 as 1.300 and parts cells by semicolons."""
        folder = self.folder()
        for file in set(os.listdir(folder)) - {SUMS}:
            self.write(f"csv/{file}", re.sub(r"\.[0-9]+", "", self.read(f"{folder}/{file}")).replace(",", ";"))
        hours = self.read(f"{folder}/hours.csv")
        self.write("csv/hours.csv", re.sub(r"\n3;[^;]*;", "\n3;1.300;", hours))
        told = self.convert(folder, f"{self.room}/back.json", status=1)[1]
        why = "each point of this folder may be one of decimals or of thousands: part its cells by commas"
        self.assertEqual(told, f"convert.py: csv/hours.csv, line 4: {why}\n")
        for sure in ("0.500", "12.5", "1234.500"):
            self.write("csv/hours.csv", re.sub(r"\n3;[^;]*;", f"\n3;{sure};", hours))
            self.convert(folder, f"{self.room}/back.json")
            self.assertEqual(json.loads(self.read(f"{self.room}/back.json"))["demand"][2], float(sure))

    def test_commas_that_may_part_thousands(self) -> None:
        folder = self.folder()
        for file in set(os.listdir(folder)) - {SUMS}:
            text = re.sub(r"\.[0-9]+", "", self.read(f"{folder}/{file}")).replace(",", ";")
            self.write(f"csv/{file}", text.replace(";20;2112\n", ";20;2,112\n"))
        told = self.convert(folder, f"{self.room}/back.json", status=1)[1]
        why = "each comma of this folder may be one of decimals or of thousands: write numbers with points"
        self.assertEqual(told, f"convert.py: csv/offers.csv, line 14: {why}\n")
        hours = self.read(f"{folder}/hours.csv")
        for sure in ("0,500", "12,5", "1234,500"):
            self.write("csv/hours.csv", re.sub(r"\n3;[^;]*;", f"\n3;{sure};", hours))
            self.convert(folder, f"{self.room}/back.json")
            self.assertEqual(
                json.loads(self.read(f"{self.room}/back.json"))["demand"][2], float(sure.replace(",", "."))
            )

    def test_all_files_of_a_folder_are_written_or_none(self) -> None:
        folder = self.folder()
        files = {name: self.read(f"{folder}/{name}") for name in os.listdir(folder)}
        os.remove(f"{folder}/bids.csv")
        os.mkdir(f"{folder}/bids.csv")
        text = market.text(market.case()).replace("GT5", "GT55")
        said = self.convert(self.write("other.json", text), folder, status=1)[1]
        self.assertIn("csv/bids.csv: Is a directory", said)
        del files["bids.csv"]
        self.assertEqual({name: self.read(f"{folder}/{name}") for name in files}, files)


MAY_BE_LEFT_OUT = (
    *("Initial status (h)", "Initial power (MW)", "Ramp down limit (MW)"),
    *("Minimum uptime (h)", "Startup costs ($)", "Startup delays (h)"),
)


def changed_model() -> Dict[str, Any]:
    """The market as EGRET has it, in half hours, with other ways to say costs and commitments."""
    value = other_forms.egret()
    units = value["elements"]["generator"]
    units["COAL1"]["fixed_commitment"] = 1
    units["COAL2"]["fixed_commitment"] = other_forms.over_time([1] * 12 + [None] * 12)
    units["CCGT3"]["p_cost"] = {**other_forms.SQUARE}
    fuel = {"data_type": "fuel_curve", "values": [[100, 800], [250, 1900]]}
    units["CCGT4"].update(p_cost=None, p_fuel=fuel, fuel_cost=4)
    units["GT5"].update(startup_cost=500, shutdown_cost=20)
    units["GT6"]["in_service"] = False
    value["system"]["time_period_length_minutes"] = 30
    return value


class Others(WithRoom):
    """Each instance is the tests' market; its schedule keeps its cost where the form has all that the case has."""

    def same(self, found: str, but: Dict[str, Any]) -> None:
        """That the case is the market's, but for some members."""
        case = json.loads(json.dumps(market.case()))
        case.update(but)
        with open(found, encoding="utf-8") as file:
            made = json.load(file)
        for unit in made["thermal_generators"]:
            self.assertEqual(made["thermal_generators"][unit], case["thermal_generators"][unit], unit)
        self.assertEqual(
            {key: it for key, it in made.items() if it != {}}, {key: it for key, it in case.items() if it is not None}
        )

    def left_out(self) -> List[Dict[str, Any]]:
        with open(f"{self.room}/left.json", encoding="utf-8") as file:
            return list(json.load(file))

    def test_unit_commitment_jl(self) -> None:
        blocks = {
            f"STEEL{i}": {"blocks": [[{"mw": mw, "price": price}]] * 24}
            for i, (mw, price) in enumerate(((40, 120), (30, 55), (20, 30)), 1)
        }
        for name in ("instance.json", "instance.json.gz"):
            other_forms.write_json(f"{self.room}/{name}", other_forms.unit_commitment_jl())
            told, _ = self.convert(
                f"{self.room}/{name}", f"{self.room}/case.json", "--left-out", f"{self.room}/left.json"
            )
            self.same(f"{self.room}/case.json", {"demand_bids": blocks})
        self.assertEqual(
            told.split("\n"),
            [
                "left out: penalties for what isn't met: demand and reserve have to be met (1: r1)",
                "left out: further reserve products: flexiramp (1: r2)",
                "left out: transmission lines: the network: all units and loads stand at one place (1: l1)",
                "left out: storage units (1: su1)",
                "left out: contingencies (1: c1)",
                "left out: the network: all units and loads stand at one place",
                "",
            ],
        )
        self.assertIn({"kind": "left out", "what": "storage units", "names": ["su1"]}, self.left_out())

    def changed_instance(self, change: Any) -> Tuple[Dict[str, Any], str]:
        value = other_forms.unit_commitment_jl()
        change(value)
        other_forms.write_json(f"{self.room}/instance.json", value)
        told, _ = self.convert(f"{self.room}/instance.json", f"{self.room}/case.json")
        with open(f"{self.room}/case.json", encoding="utf-8") as file:
            return dict(json.load(file)), told

    def test_parts_of_unit_commitment_jl(self) -> None:
        def change(value: Dict[str, Any]) -> None:
            coal, gas, peak = (value["Generators"][it] for it in ("COAL1", "CCGT3", "GT5"))
            coal["Must run?"] = True
            gas["Commitment status"] = [None] * 23 + [False]
            gas["Ramp up limit (MW)"] = [120] * 12 + [110] * 12
            gas["Emissions"] = 5
            for key in MAY_BE_LEFT_OUT:
                del peak[key]
            peak["Reserve eligibility"] = []
            value["Generators"]["WIND1"]["Cost ($/MW)"] = 2

        case, told = self.changed_instance(change)
        units = case["thermal_generators"]
        self.assertEqual((units["COAL1"]["must_run"], units["CCGT3"]["commitment"]), (1, [None] * 23 + [0]))
        self.assertEqual(units["CCGT3"]["ramp_up_limit"], 110)
        due = dict(unit_on_t0=0, time_down_t0=1, power_output_t0=0, ramp_down_limit=80, time_up_minimum=1, startup=[])
        self.assertEqual({key: units["GT5"][key] for key in due}, due)
        for line in (
            "left out: Ramp up limit (MW) that changes over time: its least is taken (1: CCGT3)",
            "left out: Generators: the field `Emissions` (1: CCGT3)",
            "left out: that a thermal unit isn't eligible for reserve: in hull each may keep reserve (1: GT5)",
            "left out: costs of profiled generators: a renewable unit has none (1: WIND1)",
            "assumed: no initial status: the unit is off before period 1, for long enough to be free (1: GT5)",
        ):
            self.assertIn(line, told)

    def test_flags_of_unit_commitment_jl(self) -> None:
        def change(value: Dict[str, Any]) -> None:
            units = value["Generators"]
            units["COAL1"].update({"Must run?": 1, "Type": "Hydro"})
            units["COAL2"].update({"Must run?": None, "Commitment status": [0, 1, True, False] + [None] * 20})
            units["GT5"]["Must run?"] = [True] * 2 + [None] * 22

        case, told = self.changed_instance(change)
        units = case["thermal_generators"]
        self.assertEqual([units[it]["must_run"] for it in ("COAL1", "COAL2", "GT5")], [1, 0, 0])
        self.assertEqual(units["COAL2"]["commitment"][:5], [0, 1, 1, 0, None])
        self.assertEqual(units["GT5"]["commitment"][:3], [1, 1, None])
        due = "changed: generators that are neither thermal nor profiled are taken as thermal units (1: COAL1)\n"
        self.assertIn(due, told)

    def refused_value(self, value: Dict[str, Any]) -> str:
        other_forms.write_json(f"{self.room}/odd.json", value)
        return self.convert(f"{self.room}/odd.json", f"{self.room}/none.json", status=1)[1]

    def test_what_is_no_flag_is_refused(self) -> None:
        for form, group, key, item in (
            (other_forms.unit_commitment_jl, "Generators", "Commitment status", ["0"] * 24),
            (other_forms.unit_commitment_jl, "Generators", "Commitment status", [0.5] * 24),
            (other_forms.unit_commitment_jl, "Generators", "Must run?", "true"),
            (other_forms.unit_commitment_jl, "Generators", "Must run?", 2),
            (other_forms.unit_commitment_jl, "Generators", "Must run?", ["false"] * 24),
            (other_forms.unit_commitment_jl, "Generators", "Provides spinning reserves?", "no"),
            (other_forms.egret, "generator", "in_service", "false"),
            (other_forms.egret, "generator", "in_service", [True]),
            (other_forms.egret, "generator", "in_service", other_forms.over_time([1] * 24)),
            (other_forms.egret, "generator", "in_service", 2),
            (other_forms.egret, "load", "in_service", "0"),
            (other_forms.egret, "generator", "fixed_commitment", 0.5),
            (other_forms.egret, "generator", "fixed_commitment", ["1"] * 24),
        ):
            value = form()
            units = value.get(group) or value["elements"][group]
            units["L1" if group == "load" else "GT5"][key] = item
            told = self.refused_value(value)
            self.assertRegex(told, rf'\Aconvert\.py: .*"(L1|GT5)", {key[:8]}.*: true, false, 0 or 1 is due, and .*\n\Z')
        value = other_forms.unit_commitment_jl()
        value["Generators"]["GT5"]["Must run?"] = [True] * 23
        self.assertIn('"GT5", Must run? isn\'t a list of 24 items', self.refused_value(value))
        value["Generators"]["GT5"].update({"Must run?": [True] * 24, "Commitment status": [1, 0] * 12})
        self.assertIn('"GT5": it must run in period 2, and its status is 0 there', self.refused_value(value))

    def test_what_is_in_service(self) -> None:
        for item, is_there in ((0, False), (False, False), (1, True), (1.0, True), (True, True), (None, True)):
            value = other_forms.egret()
            value["elements"]["generator"]["GT5"]["in_service"] = item
            value["elements"]["load"]["L2"] = {"in_service": item, "p_load": 1}
            other_forms.write_json(f"{self.room}/model.json", value)
            told, _ = self.convert(f"{self.room}/model.json", f"{self.room}/case.json")
            case = json.loads(self.read(f"{self.room}/case.json"))
            self.assertEqual("GT5" in case["thermal_generators"], is_there)
            self.assertEqual(case["demand"][0], market.case()["demand"][0] + 70 + is_there)
            self.assertEqual("left out: generators that aren't in service (1: GT5)\n" in told, not is_there)

    def test_what_has_no_demand_is_told(self) -> None:
        egret, julia = other_forms.egret(), other_forms.unit_commitment_jl()
        egret["elements"]["load"] = {"L1": {"bus": "b1"}}
        julia["Buses"]["b2"] = {}
        del julia["Reserves"]["r1"]["Amount (MW)"]
        without = other_forms.egret(), other_forms.unit_commitment_jl()
        del without[0]["elements"]["load"], without[1]["Buses"]
        for value, dues in (
            (egret, ["a load without p_load takes nothing (1: L1)"]),
            (julia, ["a bus without Load (MW) takes nothing (1: b2)", "a reserve without Amount (MW) is 0 (1: r1)"]),
            (without[0], ["no load: demand is 0 in all periods"]),
            (without[1], ["no bus: demand is 0 in all periods"]),
        ):
            other_forms.write_json(f"{self.room}/bare.json", value)
            told, _ = self.convert(f"{self.room}/bare.json", f"{self.room}/case.json")
            for due in dues:
                self.assertIn(f"assumed: {due}\n", told)

    def test_lists_that_are_not_over_the_periods(self) -> None:
        for form, key, item in (
            (other_forms.unit_commitment_jl, "Production cost curve ($)", [[100] * 23, 200]),
            (other_forms.unit_commitment_jl, "Ramp up limit (MW)", [50] * 25),
            (other_forms.egret, "p_max", other_forms.over_time([])),
        ):
            value = form()
            units = value["Generators"] if "Generators" in value else value["elements"]["generator"]
            units["GT5"][key] = item
            self.assertRegex(self.refused_value(value), r"GT5, .*: 24 numbers are due, and (23|25|0) are found\n\Z")

    def test_a_unit_is_named_once_for_each_thing(self) -> None:
        def change(value: Dict[str, Any]) -> None:
            unit = value["Generators"]["COAL1"]
            key = "Production cost curve ($)"
            unit[key] = [[cost + t for t in range(24)] for cost in unit[key]]

        told = self.changed_instance(change)[1]
        self.assertIn("Production cost curve ($) that changes over time: its first is taken (1: COAL1)\n", told)

    def test_a_time_step_of_nothing(self) -> None:
        value = other_forms.unit_commitment_jl()
        value["Parameters"]["Time step (min)"] = 0
        self.assertIn("Parameters: a time step is to be above 0", self.refused_value(value))

    def test_times_of_unit_commitment_jl(self) -> None:
        value = other_forms.unit_commitment_jl()
        value["Parameters"]["Time horizon (min)"] = 1440
        due = "convert.py: Parameters: the time horizon stands twice, in hours and in minutes\n"
        self.assertEqual(self.refused_value(value), due)
        for key, time_in_hours, why in (
            ("Minimum uptime (h)", -3, "a time is at least 0, and -3 is found"),
            ("Startup delays (h)", [-0.5, 8], "a time is at least 0, and -0.5 is found"),
            ("Initial status (h)", 0, "it is above 0 of a unit that is on, and below 0 of one that is off"),
        ):
            value = other_forms.unit_commitment_jl()
            value["Generators"]["COAL1"].update({"Startup costs ($)": [1, 2], "Startup delays (h)": [1, 8]})
            value["Generators"]["COAL1"][key] = time_in_hours
            self.assertEqual(self.refused_value(value), f"convert.py: COAL1, {key}: {why}\n")

    def test_half_hours_of_unit_commitment_jl(self) -> None:
        def change(value: Dict[str, Any]) -> None:
            value["Parameters"].update({"Time horizon (h)": 12, "Time step (min)": 30})

        case, told = self.changed_instance(change)
        unit = case["thermal_generators"]["CCGT3"]
        self.assertEqual(
            (case["time_periods"], unit["time_up_minimum"], unit["time_down_t0"], unit["startup"][1]["lag"]),
            (24, 8, 48, 24),
        )
        self.assertIn("assumed: time steps of 30 minutes: ramps and costs are taken per time step, as they stand", told)

    def test_the_second_format_of_unit_commitment_jl(self) -> None:
        def change(value: Dict[str, Any]) -> None:
            value["Reserves"] = {"Spinning (MW)": 20}
            value["Parameters"] = {"Version": "0.2", "Time (h)": 24}
            for unit in value["Generators"].values():
                if unit.pop("Reserve eligibility", None):
                    unit["Provides spinning reserves?"] = True

        case, told = self.changed_instance(change)
        self.assertEqual(case["reserves"], [20] * 24)
        self.assertNotIn("reserve", told)
        self.assertNotIn("format", told)

    def test_other_formats_of_unit_commitment_jl_are_told(self) -> None:
        told = self.changed_instance(lambda value: value["Parameters"].update({"Version": "0.9"}))[1]
        self.assertIn("assumed: format 0.9, which isn't known, is read as 0.4", told)

    def test_egret(self) -> None:
        other_forms.write_json(f"{self.room}/model.json", other_forms.egret())
        told, _ = self.convert(
            f"{self.room}/model.json", f"{self.room}/case.json", "--left-out", f"{self.room}/left.json"
        )
        self.same(
            f"{self.room}/case.json", {"demand": [it + 70 for it in market.case()["demand"]], "demand_bids": None}
        )
        for line in (
            "left out: branch: the network: all units and loads stand at one place (1: l1)",
            "left out: storage (1: s1)",
            "left out: system: the field `regulation_up_requirement`",
            "left out: penalties for what isn't met: demand and reserve have to be met",
        ):
            self.assertIn(f"{line}\n", told)

    def test_parts_of_egret(self) -> None:
        other_forms.write_json(f"{self.room}/model.json", changed_model())
        told, _ = self.convert(f"{self.room}/model.json", f"{self.room}/case.json")
        with open(f"{self.room}/case.json", encoding="utf-8") as file:
            made = json.load(file)["thermal_generators"]
        self.assertEqual((made["COAL1"]["must_run"], made["COAL2"]["commitment"]), (1, [1] * 12 + [None] * 12))
        points = made["CCGT3"]["piecewise_production"]
        self.assertEqual(
            (len(points), points[0], points[-1]), (11, {"mw": 120, "cost": 1922}, {"mw": 300, "cost": 5000})
        )
        self.assertEqual(made["CCGT4"]["piecewise_production"], [{"mw": 100, "cost": 1600}, {"mw": 250, "cost": 3800}])
        self.assertEqual(made["GT5"]["startup"], [{"lag": 2, "cost": 500}])
        self.assertNotIn("GT6", made)
        self.assertEqual(
            (made["COAL1"]["ramp_up_limit"], made["COAL1"]["time_up_minimum"], made["COAL1"]["time_up_t0"]),
            (45, 16, 48),
        )
        # (of 45 MW above the least power, 150 MW, a half)
        self.assertEqual((made["COAL1"]["ramp_startup_limit"], made["COAL1"]["ramp_shutdown_limit"]), (172.5, 172.5))
        for line in (
            "changed: periods of 30 minutes: ramps, costs and the power above the least of starts and stops, which the file has per hour, "
            "are scaled to a period",
            "changed: polynomial costs are cut into 10 straight pieces (1: CCGT3)",
            "left out: shutdown costs (1: GT5)",
            "left out: generators that aren't in service (1: GT6)",
        ):
            self.assertIn(f"{line}\n", told)

    def test_reserves_of_areas_of_egret_are_told(self) -> None:
        """The case has the system's alone, and an area is left out by its name otherwise."""
        model = other_forms.egret()
        model["elements"]["area"] = {
            "A1": {"spinning_reserve_requirement": other_forms.over_time([5] * 24)},
            "A2": {"reserve_requirement": None},
        }
        other_forms.write_json(f"{self.room}/areas.json", model)
        told, _ = self.convert(f"{self.room}/areas.json", f"{self.room}/case.json")
        for line in ("left out: area: its reserves (1: A1)", "left out: area (1: A2)"):
            self.assertIn(f"{line}\n", told)

    def test_costs_of_egret_over_time(self) -> None:
        """A curve or a fuel cost of each period: the first is taken, which is told where another differs."""
        curves = [{"data_type": "cost_curve", "values": [[50, 1], [100, at]]} for at in (9, 9, 8)]
        over_time, fuel = other_forms.over_time, {"data_type": "fuel_curve", "values": [[50, 2], [100, 5]]}
        for fields, last, told in (
            ({"p_cost": over_time(curves[:2])}, 9, ""),
            ({"p_cost": over_time(curves[1:])}, 9, "p_cost"),
            ({"p_fuel": fuel, "fuel_cost": over_time([3, 3])}, 15, ""),
            ({"p_fuel": over_time([fuel] * 2), "fuel_cost": over_time([3, 4])}, 15, "fuel_cost"),
        ):
            value = {"elements": {}, "system": {"time_keys": ["1", "2"]}}
            unit = {"generator_type": "thermal", "p_min": 50, "p_max": 100, **fields}
            value["elements"] = {"generator": {"g": unit}, "load": {"l": {"p_load": 0}}}
            other_forms.write_json(f"{self.room}/model.json", value)
            lines = self.convert(f"{self.room}/model.json", f"{self.room}/case.json")[0]
            made = json.loads(self.read(f"{self.room}/case.json"))["thermal_generators"]["g"]
            self.assertEqual(made["piecewise_production"][-1], {"mw": 100, "cost": last})
            due = f"left out: {told} that changes over time: its first is taken (1: g)\n"
            self.assertEqual((due in lines, "over time" in lines), (told != "", told != ""))
            for key in ("startup_capacity", "shutdown_capacity"):
                self.assertIn(f"assumed: no {key}: there is no such limit but the ramp (1: g)\n", lines)

    def test_a_generator_of_egret_has_a_cost(self) -> None:
        value = other_forms.egret()
        unit = value["elements"]["generator"]["GT5"]
        unit.update(p_cost=0, fuel_cost=4)
        other_forms.write_json(f"{self.room}/model.json", value)
        told, _ = self.convert(f"{self.room}/model.json", f"{self.room}/case.json")
        self.assertIn("left out: fuel_cost of generators whose costs are in money (1: GT5)\n", told)
        due = 'convert.py: generator "GT5": it has neither p_cost nor p_fuel; a p_cost of 0 is taken\n'
        for cost in ({"p_cost": None}, {"p_cost": None, "p_fuel": None, "fuel_cost": 4}):
            unit.update(cost)
            self.assertEqual(self.refused_value(value), due)

    def test_output_of_a_unit_of_egret_that_is_off(self) -> None:
        for status in (-3, None):
            value = other_forms.egret()
            value["elements"]["generator"]["GT5"].update(initial_status=status, initial_p_output=20)
            other_forms.write_json(f"{self.room}/model.json", value)
            told, _ = self.convert(f"{self.room}/model.json", f"{self.room}/case.json")
            due = "changed: initial_p_output of a unit that is off before period 1 is taken as 0 (1: GT5)\n"
            self.assertIn(due, told)

    def test_pypsa(self) -> None:
        other_forms.pypsa(f"{self.room}/network")
        told, _ = self.convert(f"{self.room}/network", f"{self.room}/case.json", "--left-out", f"{self.room}/left.json")
        made, due = read_case(f"{self.room}/case.json"), market.case()
        self.assertEqual(made.demand, [round(1000 * it) + 70_000 for it in due["demand"]])
        self.assertEqual([it.name for it in made.renewable], list(market.WIND))
        self.assertEqual(made.renewable[1].most, [round(1000 * it) for it in market.WIND["WIND2"]])
        for unit in made.thermal:
            row = due["thermal_generators"][unit.name]
            self.assertEqual(
                (unit.least, unit.most), (1000 * row["power_output_minimum"], 1000 * row["power_output_maximum"])
            )
            self.assertEqual((unit.ramp_up, unit.ramp_down), (1000 * row["ramp_up_limit"], unit.most))
            self.assertEqual((unit.start_limit, unit.stop_limit), (1000 * row["ramp_startup_limit"], unit.most))
            self.assertEqual(
                (unit.on0, unit.up0 > 0, unit.min_up),
                (row["unit_on_t0"], row["unit_on_t0"] == 1, row["time_up_minimum"]),
            )
            for (at, cost), point in zip((unit.points[0], unit.points[-1]), row["piecewise_production"][::2]):
                self.assertEqual(at, 1000 * point["mw"])
                self.assertAlmostEqual(cost / 1e6, point["cost"], places=5)
        for line in (
            "assumed: PyPSA has no power before the first snapshot: of a unit that is on it is halfway from the least to the greatest (2: COAL1, COAL2)",
            "left out: generators.csv: the column p_set (1: GT5)",
            "left out: lines: the network: all units and loads stand at one place (1: l1)",
            "left out: storage units (1: battery)",
        ):
            self.assertIn(f"{line}\n", told)

    def network(self, file: str, *changes: Tuple[str, str], status: int = 0) -> Tuple[str, str]:
        """The network with changes of one file: what is left out, and what is told."""
        folder = tempfile.mkdtemp(dir=self.room)
        other_forms.pypsa(f"{folder}/net")
        text = self.read(f"{folder}/net/{file}")
        for old, new in changes:
            self.assertIn(old, text)
            text = text.replace(old, new, 1)
        self.write(f"{os.path.basename(folder)}/net/{file}", text)
        return self.convert(f"{folder}/net", f"{self.room}/case.json", status=status)

    def test_parts_of_pypsa(self) -> None:
        told, _ = self.network("generators.csv", ("p_set", "p_init"), ("0.4,\r\nCOAL2", "0.4,310\r\nCOAL2"))
        self.assertIn("(1: COAL2)", told)
        self.assertEqual(read_case(f"{self.room}/case.json").thermal[0].power0, 310_000)
        told, _ = self.network(
            "loads.csv", ("p_set", "p_set,active"), ("L1,b1,0", "L1,b1,0,True"), ("b2,70", "b2,70,False")
        )
        self.assertIn("left out: loads that aren't active (1: L2)\n", told)
        self.assertEqual(read_case(f"{self.room}/case.json").demand[0], round(1000 * market.case()["demand"][0]))
        for file, old, new, due in (
            ("snapshots.csv", "snapshot,", "period,", "a network of several investment periods isn't read"),
            ("generators.csv", "COAL2,", "COAL1,", "a name of the first column stands twice"),
            (
                "generators.csv",
                "CCGT3,b1,300",
                "CCGT3,b1,much",
                "generator \"CCGT3\", p_nom: a number is due, and 'much' is found",
            ),
            ("generators-p_max_pu.csv", "30 05:", "30 04:", "a name of the first column stands twice"),
            ("generators-p_max_pu.csv", "WIND1", "WIND2", "the column 'WIND2' stands twice"),
            ("generators.csv", "COAL2,b1", 'COAL2,"b1', "line 3: no row of comma separated values: a quote is without"),
            ("generators.csv", "COAL2,b1", 'COAL2,"b\n1"', "line 3: a line's end stands in a cell."),
            (
                "loads-p_set.csv",
                "2026-11-30 23:",
                "x,2026-11-30 23:",
                "a row has more cells than the first line has columns",
            ),
        ):
            self.assertIn(due, self.network(file, (old, new), status=1)[1])

    def test_what_pypsa_has_no_power_of_is_told(self) -> None:
        for file, old, new, due in (
            ("loads.csv", "b2,70", "b2,", "assumed: a load without p_set takes nothing (1: L2)"),
            (
                "generators.csv",
                "WIND1,b2,100",
                "WIND1,b2,",
                "assumed: a generator without p_nom gives nothing (1: WIND1)",
            ),
            (
                "loads-p_set.csv",
                ",L1",
                ",L9",
                "left out: columns of loads-p_set.csv that have no row in loads.csv (1: L9)",
            ),
            (
                "generators-p_max_pu.csv",
                "WIND1",
                "WIND9",
                "left out: columns of generators-p_max_pu.csv that have no row in generators.csv (1: WIND9)",
            ),
        ):
            self.assertIn(f"{due}\n", self.network(file, (old, new))[0])

    def test_cells_of_pypsa_that_are_no_number_to_work_with(self) -> None:
        head = "name,bus,p_nom,marginal_cost,committable,min_up_time,ramp_limit_up\n"
        os.mkdir(f"{self.room}/net")
        self.write("net/snapshots.csv", "snapshot,objective\n0,1\n1,1\n")
        self.write("net/loads.csv", "name,bus,p_set\nl,b,5\n")
        for cell, due in (
            ("1e99999999", "a number has an exponent above 400"),
            (f"1e{'0' * 5000}401", "a number has an exponent above 400"),
            ("9" * 31, "a number has more than 30 digits"),
            ("infinity", "a number is due, and 'infinity' is found"),
            ("sNaN", "a number is due, and 'sNaN' is found"),
            ("1_0", "a number is due, and '1_0' is found"),
        ):
            for place, key in ((2, "p_nom"), (3, "marginal_cost"), (5, "min_up_time"), (6, "ramp_limit_up")):
                row = ["g1", "b", "10", "5", "True", "1", "inf"]
                row[place] = cell
                self.write("net/generators.csv", f"{head}{','.join(row)}\n")
                if (cell, key) != ("infinity", "ramp_limit_up"):  # (that has no limit)
                    told = self.convert(f"{self.room}/net", f"{self.room}/case.json", status=1)[1]
                    self.assertEqual(told, f'convert.py: generator "g1", {key}: {due}\n')

    def test_cells_of_pypsa_over_time_that_have_no_number(self) -> None:
        hour = "2026-11-30 05:00:00"
        for file, column in (("loads-p_set.csv", "L1"), ("generators-p_max_pu.csv", "WIND1")):
            for cell, due in (("", "nothing"), ("nan", "nan"), (" None ", "None")):
                folder = tempfile.mkdtemp(dir=self.room)
                other_forms.pypsa(f"{folder}/net")
                rows = [it.split(",") for it in self.read(f"{folder}/net/{file}").splitlines()]
                rows[6][1] = cell
                self.write(f"{os.path.basename(folder)}/net/{file}", "\n".join(map(",".join, rows)))
                told = self.convert(f"{folder}/net", f"{self.room}/case.json", status=1)[1]
                self.assertIn(f"/{file}, row {hour}, column {column}: {due} is there, and a number is due\n", told)

    def test_tables_of_pypsa_over_time_are_matched_by_snapshot(self) -> None:
        self.network("loads-p_set.csv")
        due = self.read(f"{self.room}/case.json")
        rows = sorted(f"2026-11-30 {t:02}:00:00,{power}\r\n" for t, power in enumerate(market.case()["demand"]))
        self.network("loads-p_set.csv", ("".join(rows), "".join(reversed(rows))))
        self.assertEqual(self.read(f"{self.room}/case.json"), due)
        for old, new, why in (
            ("2026-11-30 05", "1999-11-30 05", "snapshots.csv has no snapshot 1999-11-30 05:00:00"),
            (rows[5], "", "it has no row of the snapshot 2026-11-30 05:00:00"),
            ("".join(rows), "", "it has no row of the snapshot 2026-11-30 00:00:00"),
        ):
            told = self.network("loads-p_set.csv", (old, new), status=1)[1]
            self.assertIn(f"loads-p_set.csv: {why}\n", told)

    def test_snapshots_as_pypsa_writes_them(self) -> None:
        """A count stands in front of each snapshot; a network of several levels has a column more."""
        self.network("snapshots.csv")
        due = self.read(f"{self.room}/case.json")
        rows = [f"2026-11-30 {t:02}:00:00,1.0,1.0,1.0\r\n" for t in range(24)]
        head, counted = "snapshot,objective,stores,generators\r\n", [f"{t},{row}" for t, row in enumerate(rows)]
        self.network("snapshots.csv", (head + "".join(rows), f",{head}{''.join(counted)}"))
        self.assertEqual(self.read(f"{self.room}/case.json"), due)
        for text, why in (
            (f",{head}{counted[0]}{counted[0].replace('0', '1', 1)}", "a snapshot stands twice"),
            (",period,timestep,objective\n0,2030,2026-11-30,1\n", "a network of several investment periods isn't read"),
        ):
            told, _ = self.small_network("name,bus,p_nom\ng,b,10\n", text, status=1)
            self.assertIn(f"net/snapshots.csv: {why}", told)
        os.remove(f"{self.room}/net/loads.csv")
        self.write("net/investment_periods.csv", "period,objective,years\n")
        told, _ = self.small_network("name,bus,p_nom\ng,b,10\n", ",snapshot,objective\n0,now,1.0\n")
        self.assertEqual(told, "")
        told, _ = self.small_network("scenario,name,bus,p_nom\nlow,g,b,10\n", status=1)
        self.assertIn("a network of several scenarios isn't read", told)

    def test_times_of_pypsa_that_are_not_whole_are_told(self) -> None:
        os.mkdir(f"{self.room}/net")
        self.write("net/snapshots.csv", "snapshot,objective\n0,1\n1,1\n")
        self.write("net/loads.csv", "name,bus,p_set\nl,b,5\n")
        head = "name,bus,p_nom,committable,min_up_time,min_down_time\n"
        self.write("net/generators.csv", f"{head}g,b,10,True,2.7,1.5\nh,b,10,True,2.0,1\n")
        told = self.convert(f"{self.room}/net", f"{self.room}/case.json")[0]
        for key in ("min_up_time", "min_down_time"):
            self.assertIn(f"changed: {key} that isn't whole is cut to a whole number of snapshots (1: g)\n", told)

    def small_network(self, generators: str, snapshots: str = "snapshot,objective\n0,1\n1,1\n", status: int = 0) -> Any:
        """What is told of a network of a load and these generators, and its case."""
        os.makedirs(f"{self.room}/net", exist_ok=True)
        self.write("net/snapshots.csv", snapshots)
        self.write("net/loads.csv", "name,bus,p_set\nl,b,5\n")
        self.write("net/generators.csv", generators)
        told = self.convert(f"{self.room}/net", f"{self.room}/case.json", status=status)
        return told[status], json.loads(self.read(f"{self.room}/case.json")) if status == 0 else None

    def test_units_of_pypsa_before_the_first_snapshot(self) -> None:
        """PyPSA holds a unit off for as long as min_down_time is above down_time_before, where that is above 0."""
        head = "name,bus,p_nom,committable,min_down_time,up_time_before,down_time_before\n"
        both = "changed: up_time_before and down_time_before that are both above 0: the unit is taken as"
        for times, state, due in (
            ("4,0,0", (0, 0, 4), "assumed: down_time_before of 0 of a unit that is off: it may start at once"),
            ("0,0,0", (0, 0, 1), ""),
            ("4,0,3", (0, 0, 3), ""),
            ("4,2,0", (1, 2, 0), ""),
            ("2,1,1", (0, 0, 1), f"{both} off, since min_down_time holds it off (1: g)"),
            ("2,1,2", (1, 1, 0), f"{both} on, since PyPSA has no start cost then (1: g)"),
        ):
            told, case = self.small_network(f"{head}g,b,10,True,{times}\n")
            unit = case["thermal_generators"]["g"]
            self.assertEqual((unit["unit_on_t0"], unit["time_up_t0"], unit["time_down_t0"]), state)
            self.assertIn(due, told)
            self.assertEqual(bool(due), "_time_before" in told)

    def test_power_of_a_unit_of_pypsa_that_is_off(self) -> None:
        head = "name,bus,p_nom,committable,up_time_before,p_init\n"
        told, case = self.small_network(f"{head}g,b,10,True,0,4\nh,b,10,True,2,4\ni,b,10,True,0,0\n")
        self.assertEqual([it["power_output_t0"] for it in case["thermal_generators"].values()], [0, 4, 0])
        self.assertEqual(told, "changed: p_init of a unit that is off before the first snapshot is taken as 0 (1: g)\n")

    def test_ramps_in_the_first_snapshot_of_pypsa_are_told(self) -> None:
        head = "name,bus,p_nom,committable,marginal_cost,p_init,ramp_limit_up,ramp_limit_down,ramp_limit_shut_down\n"
        rows = "a,True,1,5,,,\nb,True,1,5,0.4,,\nc,True,1,5,,0.4,\nd,True,1,5,,,0.4\ne,False,1,5,,,0.4\nf,True,1,,0.5,0.5,\n"
        told, _ = self.small_network(head + re.sub("(?m)^(.),", r"\1,b,10,", rows))
        line = next(it for it in told.splitlines() if it.startswith("changed: the first snapshot"))
        self.assertEqual(line.split(";")[1], " the column p_init of generators.csv gives that power (3: b, c, d)")

    def test_signs_of_pypsa(self) -> None:
        """A sign of 0.001 has p_nom in kW and costs per kWh, as load shedding often has, and one of -1 takes power."""
        head = "name,bus,p_nom,committable,p_min_pu,marginal_cost,marginal_cost_quadratic,stand_by_cost,ramp_limit_up,sign,p_init\n"
        told, case = self.small_network(f"{head}g,b,8000,True,0.25,0.03,0.000002,5,0.5,0.001,4000\n")
        self.assertIn(
            "changed: sign that isn't 1 is a factor: of p_nom and p_init, and 1 over it of marginal costs (1: g)\n",
            told,
        )
        due = self.small_network(f"{head}g,b,8,True,0.25,30,2,5,0.5,,4\n")[1]
        self.assertEqual(case, due)
        points = case["thermal_generators"]["g"]["piecewise_production"]
        self.assertEqual((points[0], points[-1]), ({"mw": 2, "cost": 73}, {"mw": 8, "cost": 373}))
        for sign in ("-1.0", "0"):
            told, _ = self.small_network(f"name,bus,p_nom,sign\ng,b,10,{sign}\n", status=1)
            what = f"sign: a number above 0 is due, and {sign} is found"
            self.assertEqual(told, f'convert.py: generator "g", {what}\n')

    def test_what_floating_sums_leave_of_no_demand(self) -> None:
        """It is 0 in whole kilowatts, as hull reads it; a demand below that is refused."""
        for power, status in (("-1e-13", 0), ("-0.0005", 0), ("-0.0006", 1)):
            self.small_network("name,bus,p_nom\ng,b,10\n")
            self.write("net/loads.csv", f"name,bus,p_set\nl,b,{power}\n")
            self.convert(f"{self.room}/net", f"{self.room}/case.json", status=status)

    def test_carriers_of_pypsa(self) -> None:
        """A load of heat is none of power."""
        generators = "name,bus,p_nom,sign\ng,ac,10,1.0\nh,dc,10,\n"
        for carriers, count in ((("", "AC", "DC"), 0), (("heat", "AC", "DC"), 3)):
            buses = [f"{name},{carrier}\n" for name, carrier in zip(("b", "ac", "dc"), carriers)]
            self.small_network(generators)
            self.write("net/buses.csv", "name,carrier\n" + "".join(buses))
            told = self.small_network(generators)[0]
            due = "left out: carriers of the buses: loads and generators of all of them are taken as of power (3: AC, DC, heat)\n"
            self.assertEqual(due in told, count > 0)

    def test_empty_rows_of_pypsa_are_passed_over(self) -> None:
        """An empty row of snapshots.csv was a period more, and one of generators.csv a unit."""
        generators, snapshots = "name,bus,p_nom\ng,b,10\n", ",snapshot,objective\n0,a,1\n1,b,1\n"
        due = self.small_network(generators, snapshots)
        self.assertEqual(self.small_network(f"{generators},,\n\n", f"{snapshots},,\n , ,\n"), due)

    def test_cells_of_pypsa_that_semicolons_part(self) -> None:
        for sign in ";\t":
            told, _ = self.small_network("name,bus,p_nom\ng,b,10\n".replace(",", sign), status=1)
            what = "commas are due between its cells, as PyPSA writes them, and semicolons or tabs are found"
            self.assertEqual(told, f"convert.py: net/generators.csv: {what}\n")

    def test_flags_of_pypsa(self) -> None:
        for key, text in (("committable", "yes"), ("committable", "T"), ("active", "on"), ("p_nom_extendable", "2")):
            told, _ = self.small_network(f"name,bus,p_nom,{key}\ng,b,10,{text}\n", status=1)
            due = f"convert.py: generator \"g\", {key}: True or False is due, and '{text}' is found\n"
            self.assertEqual(told, due)
        for text, kind in (("TRUE", "thermal"), ("1.0", "thermal"), ("False", "renewable"), ("", "renewable")):
            _, case = self.small_network(f"name,bus,p_nom,committable\ng,b,10,{text}\n")
            self.assertIn("g", case[f"{kind}_generators"])

    def test_a_network_of_pypsa_without_loads_is_told(self) -> None:
        self.small_network("name,bus,p_nom\ng,b,10\n")
        os.remove(f"{self.room}/net/loads.csv")
        told = self.convert(f"{self.room}/net", f"{self.room}/case.json")[0]
        self.assertEqual(told, "assumed: no load in loads.csv: demand is 0 in all periods\n")

    def test_a_cost_is_that_of_its_power_in_kilowatts(self) -> None:
        """Powers between kilowatts had costs of their own beside those that hull rounds them to, and slopes beside the offer."""
        head = "name,bus,p_nom,committable,p_min_pu,marginal_cost,marginal_cost_quadratic\n"
        self.small_network(f"{head}g,b,100.0009,True,0.333333,20,\nh,b,100.0009,True,0.333333,20,0.01\n")
        cost = {"data_type": "cost_curve", "cost_curve_type": "polynomial", "values": {"1": 20, "2": 0.01}}
        pairs = [read_case(f"{self.room}/case.json").thermal]
        model: Dict[str, Any] = {"elements": {"generator": {}}, "system": {"time_keys": ["1", "2"]}}
        square = {"data_type": "cost_curve", "cost_curve_type": "polynomial", "values": {"1": 20, "2": 0.01}}
        for name, cost in (("g", 20), ("h", square)):
            unit = {"generator_type": "thermal", "p_min": 33.33333, "p_max": 100.0009, "p_cost": cost}
            model["elements"]["generator"][name] = unit
        other_forms.write_json(f"{self.room}/model.json", model)
        self.convert(f"{self.room}/model.json", f"{self.room}/case.json")
        for line, curve in (*pairs, read_case(f"{self.room}/case.json").thermal):
            self.assertEqual([cost for _, cost in line.points], [at * 20_000 for at, _ in line.points])
            due = [at * 20_000 + (at * at + 50) // 100 for at, _ in curve.points]
            self.assertEqual([cost for _, cost in curve.points], due)

    def test_a_quadratic_cost_alone_is_a_cost(self) -> None:
        head = "name,bus,p_nom,committable,marginal_cost_quadratic,ramp_limit_up,p_init\n"
        told, case = self.small_network(f"{head}g,b,10,False,0.5,0.3,4\nh,b,10,False,0,,\n")
        unit = case["thermal_generators"]["g"]
        self.assertEqual(list(case["renewable_generators"]), ["h"])
        self.assertEqual(unit["piecewise_production"][-1], {"mw": 10, "cost": 50})
        self.assertEqual((unit["must_run"], unit["ramp_up_limit"], unit["power_output_t0"]), (1, 3, 4))
        self.assertIn("changed: quadratic costs are cut into 10 straight pieces (1: g)\n", told)

    def test_what_a_renewable_unit_has_not_is_told(self) -> None:
        self.small_network("name,bus,p_nom\ng,b,10\n")
        self.write("net/generators-p_max_pu.csv", "snapshot,g\n0,0.5\n1,1\n")
        told, case = self.small_network(
            "name,bus,p_nom,marginal_cost_quadratic,ramp_limit_up,ramp_limit_down,p_init\ng,b,10,0.5,0.3,1,4\nh,b,9,0,inf,0.2,\n"
        )
        self.assertEqual(list(case["renewable_generators"]), ["g", "h"])
        what = "of generators that become renewable units: such a unit has none"
        for line in (
            "costs of generators whose p_max_pu changes over time: a renewable unit has none (1: g)",
            f"ramp_limit_up {what} (1: g)",
            f"ramp_limit_down {what} (1: h)",
            f"p_init {what} (1: g)",
        ):
            self.assertIn(f"left out: {line}\n", told)
        self.assertEqual(told.count("\n"), 4)

    def test_stand_by_costs_of_units_that_always_run(self) -> None:
        head = "name,bus,p_nom,committable,marginal_cost,stand_by_cost,p_init\n"
        told, case = self.small_network(f"{head}g,b,10,False,2,100,4\nh,b,10,True,2,100,4\n")
        first = {name: it["piecewise_production"][0]["cost"] for name, it in case["thermal_generators"].items()}
        self.assertEqual(first, {"g": 0, "h": 100})
        what = "stand_by_cost of generators that aren't committable: PyPSA charges it to committable ones alone"
        self.assertIn(f"left out: {what} (1: g)\n", told)

    def test_ramps_that_bind_at_starts_and_stops_are_told(self) -> None:
        head = "name,bus,p_nom,committable,p_min_pu,ramp_limit_up,ramp_limit_down,ramp_limit_start_up,ramp_limit_shut_down\n"
        told, _ = self.small_network(f"{head}g,b,10,True,0.2,0.3,0.4,1,1\nh,b,10,True,0.2,0.3,,0.5,1\n")
        for line in (
            "changed: starts: power above the least is held by ramp_up_limit there too (1: g)\n",
            "changed: stops: power above the least is held by ramp_down_limit there too (1: g)\n",
        ):
            self.assertIn(line, told)

    def test_a_share_of_pypsa_that_is_nan_is_told(self) -> None:
        told, _ = self.small_network("name,bus,p_nom,p_max_pu\ng,b,10,nan\nh,b,10,\ni,b,10,0\n")
        self.assertEqual(told, "assumed: p_max_pu that is nan: 1 is taken (1: g)\n")
        self.assertEqual(
            [it.most for it in read_case(f"{self.room}/case.json").renewable], [[10000] * 2] * 2 + [[0] * 2]
        )

    def test_defaults_of_pypsa_are_not_told(self) -> None:
        head = "name,bus,p_nom,e_sum_min,e_sum_max\n"
        self.assertEqual(self.small_network(f"{head}g,b,10,-inf,inf\n")[0], "")
        told, _ = self.small_network(f"{head}g,b,10,0,0\n")
        self.assertEqual(told.count("left out: generators.csv: the column e_sum_m"), 2)

    def test_a_snapshot_without_a_weight(self) -> None:
        for weight in ("0", "-1", "0.0"):
            told, _ = self.small_network("name,bus,p_nom\ng,b,10\n", f"snapshot,objective\n0,1\n1,{weight}\n", status=1)
            due = "convert.py: net/snapshots.csv, row 1: the weight of a snapshot in the costs is to be above 0\n"
            self.assertEqual(told, due)

    def test_weights_of_snapshots_that_differ_are_refused(self) -> None:
        """The first was taken for all, so costs of power stood in another proportion to those of starts."""
        snapshots = "snapshot,objective\n0,3\n1,1\n"
        told, _ = self.small_network("name,bus,p_nom\ng,b,10\n", snapshots, status=1)
        what = "weights of snapshots in the costs differ, 3 of 0 and 1 of 1: periods of hull have one length"
        self.assertEqual(told, f"convert.py: net/snapshots.csv: {what}\n")
        self.small_network("name,bus,p_nom\ng,b,10\n", snapshots.replace(",1\n", ",3.0\n"))

    def test_a_network_without_snapshots(self) -> None:
        told, _ = self.small_network("name,bus,p_nom\ng,b,10\n", "snapshot,objective\n", status=1)
        self.assertEqual(told, "convert.py: net/snapshots.csv: it has no row of a snapshot\n")

    def test_all_members_of_a_file_of_gzip_are_read(self) -> None:
        for form in (other_forms.unit_commitment_jl, other_forms.egret):
            data = json.dumps(form()).encode()
            self.write("plain.json", data.decode())
            with open(f"{self.room}/parts.json.gz", "wb") as file:
                file.write(b"".join(gzip.compress(it) for it in (data[:1000], b"", data[1000:])) + bytes(5))
            for name in ("plain.json", "parts.json.gz"):
                self.convert(f"{self.room}/{name}", f"{self.room}/of_{name[:5]}.json")
            self.assertEqual(self.read(f"{self.room}/of_plain.json"), self.read(f"{self.room}/of_parts.json"))
        with open(f"{self.room}/parts.json.gz", "ab") as file:
            file.write(b"more")
        self.assertIn(
            "no whole file of gzip", self.convert(f"{self.room}/parts.json.gz", f"{self.room}/none.json", status=1)[1]
        )

    def test_a_byte_order_mark_of_an_instance_is_passed_over(self) -> None:
        """Editors of some systems write it; the program refuses it, and takes the case that is made."""
        with open(os.path.join(EXAMPLES, "evening", "case.json"), encoding="utf-8") as file:
            forms = [file.read(), *(json.dumps(it()) for it in (other_forms.unit_commitment_jl, other_forms.egret))]
        for text in forms:
            self.write("plain.json", text)
            self.write("marked.json", f"\ufeff{text}")
            with open(f"{self.room}/packed.json.gz", "wb") as file:
                file.write(gzip.compress(f"\ufeff{text}".encode()))
            for name in ("plain.json", "marked.json", "packed.json.gz"):
                self.convert(f"{self.room}/{name}", f"{self.room}/of_{name[:5]}.json")
                self.assertEqual(self.read(f"{self.room}/of_{name[:5]}.json"), self.read(f"{self.room}/of_plain.json"))

    def test_a_file_in_place_of_a_folder(self) -> None:
        """A file of PyPSA was told to have no snapshot."""
        for form in ("csv", "pypsa"):
            for name in (self.write("one.csv", "unit\n"), f"{self.room}/none"):
                said = self.convert(name, f"{self.room}/none.json", "--from", form, status=1)[1]
                due = f"convert.py: {os.path.basename(name)}: --from {form} takes a folder, and this is none\n"
                self.assertEqual(said, due)

    def test_a_pipe_is_read_once(self) -> None:
        for text in (market.text(market.case()), json.dumps(other_forms.egret())):
            case = self.write("case.json", text)
            self.convert(case, f"{self.room}/due.json")
            for source in (f"cat {case} | %s -", f"%s <(cat {case})", f"%s /dev/stdin < {case}"):
                tool = f"{sys.executable} -B {ROOT}/tools/convert.py"
                line = f"set -o pipefail; {source % tool} {self.room}/made.json"
                ran = subprocess.run(["bash", "-c", line], capture_output=True, text=True)
                self.assertEqual((ran.returncode, ran.stderr), (0, ""), source)
                self.assertEqual(self.read(f"{self.room}/made.json"), self.read(f"{self.room}/due.json"))
                os.remove(f"{self.room}/made.json")

    def test_standard_input_that_is_no_case_is_named(self) -> None:
        tool = [sys.executable, "-B", f"{ROOT}/tools/convert.py", "-", f"{self.room}/made.json"]
        for text, due in (
            ("{", "no JSON text"),
            ("{}", "it is no case of hull"),
            ('{"time_periods": 1}', "hull would"),
        ):
            ran = subprocess.run(tool, input=text, capture_output=True, text=True)
            self.assertEqual((ran.returncode, ran.stderr.count("\n")), (1, 1))
            self.assertIn(f"convert.py: standard input: {due}", ran.stderr)

    def test_a_polynomial_from_no_power_on(self) -> None:
        model = changed_model()
        unit = model["elements"]["generator"]["GT6"]
        unit.update(in_service=True, p_min=0, p_cost={**other_forms.SQUARE, "values": {"0": 1, "1": 20}})
        model["system"]["time_period_length_minutes"] = 60
        other_forms.write_json(f"{self.room}/model.json", model)
        self.convert(f"{self.room}/model.json", f"{self.room}/case.json")
        curve = json.loads(self.read(f"{self.room}/case.json"))["thermal_generators"]["GT6"]["piecewise_production"]
        self.assertEqual(curve[0], {"mw": 0, "cost": 1})

    def test_times_that_are_too_long(self) -> None:
        for form, group, key, due in (
            (other_forms.unit_commitment_jl, "Parameters", "Time horizon (h)", "the time horizon: it isn't a whole"),
            (other_forms.unit_commitment_jl, "Parameters", "Time step (min)", "the time horizon: it isn't a whole"),
            (other_forms.egret, "system", "time_period_length_minutes", "would refuse this case"),
        ):
            value = form()
            value[group][key] = "long"
            self.write("long.json", json.dumps(value).replace('"long"', "1e400"))
            self.assertIn(due, self.convert(f"{self.room}/long.json", f"{self.room}/case.json", status=1)[1])

    def test_random_changes_end_in_a_case_or_in_one_line(self) -> None:
        draw = random.Random(3)
        values: List[Any] = [None, -1, 0, "x", [], {}, [1], True, 1e30, 0.5, [[1, 2]]]
        for _ in range(120):
            value = draw.choice([other_forms.unit_commitment_jl, other_forms.egret])()
            at: Any = value
            while draw.random() < 0.85 and isinstance(at, dict) and any(isinstance(it, dict) for it in at.values()):
                at = draw.choice([it for it in at.values() if isinstance(it, dict)] or [at])
            at[draw.choice(list(at) or ["x"])] = draw.choice(values)
            other_forms.write_json(f"{self.room}/odd.json", value)
            status, _, said = run("convert.py", f"{self.room}/odd.json", f"{self.room}/case.json")
            self.assertIn((status, said.count("\n")), ((0, 0), (0, 1), (1, 1)), said)

    def test_what_is_no_instance(self) -> None:
        for data in (
            "{}",
            "[]",
            '{"Parameters": {}, "Generators": {}}',
            '{"elements": {}, "system": {}}',
            "{",
            '{"Buses": 5, "Parameters": 5}',
        ):
            name = self.write("odd.json", data)
            for form in ((), ("--from", "egret"), ("--from", "unit-commitment-jl"), ("--from", "hull")):
                said = self.convert(name, f"{self.room}/none.json", *form, status=1)[1]
                self.assertEqual(said.count("\n"), 1, said)
        for name, data, told in (
            ("book.xlsx", "PK\3\4", "save each of its sheets as CSV"),
            ("units.csv", "unit", "name the folder"),
            ("network.nc", "CDF\1", "export_to_csv_folder"),
        ):
            self.assertIn(told, self.convert(self.write(name, data), f"{self.room}/none.json", status=1)[1])
        os.mkdir(f"{self.room}/empty")
        self.convert(f"{self.room}/empty", f"{self.room}/none.json", status=1)
        with open(f"{self.room}/cut.json.gz", "wb") as file:
            file.write(b"\x1f\x8b\x08\x00")
        self.assertIn(
            "no whole file of gzip", self.convert(f"{self.room}/cut.json.gz", f"{self.room}/none.json", status=1)[1]
        )


if __name__ == "__main__":
    unittest.main()
