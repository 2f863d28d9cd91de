"""tools/explain.py: fault lines in words, with the unit's name, what was found and what is due."""
import contextlib
import glob
import io
import os
import runpy
import shutil
import subprocess
import sys
import tempfile
import time
import unittest
from unittest import mock

from tool import EXAMPLES, ROOT, run

EVENING = f"{EXAMPLES}/evening"


class NoMemory:
    """A finder of modules for one of which there is no memory."""

    def __init__(self, name):
        self.name = name

    def find_spec(self, name, path=None, target=None):
        if name == self.name:
            raise MemoryError


class Explain(unittest.TestCase):
    def setUp(self):
        self.room = tempfile.mkdtemp(prefix="hull-explain-")
        self.addCleanup(shutil.rmtree, self.room)

    def told(self, line, name=None, old="", new=""):
        """The sentence for a line, with a change of one file of examples/evening."""
        self.change(EVENING, name, old, new)
        return self.sentence(line)

    def told_of_mixture(self, line, old, new):
        """The sentence for a line, with a change of the mixture of examples/certified."""
        shutil.copyfile(f"{EXAMPLES}/certified/mixture.json", f"{self.room}/mixture.json")
        self.change(f"{EXAMPLES}/usual", "mixture.json", old, new)
        return self.sentence(line, "--mixture", f"{self.room}/mixture.json")

    def change(self, folder, name, old, new):
        for copied in ("case.json", "schedule.json"):
            shutil.copyfile(f"{folder}/{copied}", f"{self.room}/{copied}")
        if name:
            with open(f"{self.room}/{name}", encoding="utf-8") as file:
                text = file.read()
            self.assertIn(old, text)
            with open(f"{self.room}/{name}", "w", encoding="utf-8") as file:
                file.write(text.replace(old, new, 1))

    def sentence(self, line, *more):
        status, text, said = run(
            "explain.py", f"{self.room}/case.json", f"{self.room}/schedule.json", *more, input=f"{line}\n"
        )
        self.assertEqual((status, said, text.count("\n")), (0, "", 1))
        return text.strip().replace(f"{self.room}/", "")

    def test_a_rule_of_the_schedule(self):
        self.assertEqual(
            self.told("fault 4 schedule 49 kind thermal unit 2 period 2 left 31000 right 30000"),
            'schedule.json: thermal unit "G2" (number 2) starts in period 2 with 31000 kW of power and reserve, '
            "and its start limit is 30000 kW.",
        )

    def test_a_field_of_the_case(self):
        self.assertEqual(
            self.told(
                "fault 3 case 23 field ramp_up_limit kind thermal unit 1 item 0",
                "case.json",
                '"ramp_up_limit":20',
                '"ramp_up_limit":-20.50',
            ),
            'case.json: thermal unit "G1" (number 1), ramp_up_limit: it is below 0. Found: -20.50. Give it as a positive number.',
        )

    def test_a_name_that_the_case_has_not(self):
        line = "fault 4 schedule 40 kind thermal unit 2 item 0"
        self.assertIn('"G\\u2028"', self.told(line, "schedule.json", '"G2"', '"G\\u2028"').replace("?", "\\u2028"))

        line = "fault 4 schedule 40 kind thermal unit 1 item 0"
        self.assertTrue(self.told(line, "schedule.json", '"G1"', '"g1"').endswith(' Is "G1" meant?'))

    def test_which_range_is_left(self):
        line = "fault 4 schedule 48 kind thermal unit 2 period 2 left 10000 right 9000"
        told = self.told(line, "schedule.json", '"power":[0,10000', '"power":[0,9000')
        self.assertTrue(told.endswith("gives 9000 kW in period 2, and its least power is 10000 kW."), told)
        line = "fault 4 schedule 48 kind thermal unit 1 period 3 left 105000 right 100000"
        told = self.told(line, "schedule.json", "75000,90000", "75000,100000")
        self.assertTrue(
            told.endswith(
                "gives 100000 kW and keeps 5000 kW in reserve, 105000 kW together, in period 3, and its greatest power is 100000 kW."
            ),
            told,
        )
        line = "fault 4 schedule 48 kind thermal unit 1 period 4 left 100001 right 100000"
        told = self.told(line, "schedule.json", "90000,80000", "90000,100001")
        self.assertTrue(told.endswith("gives 100001 kW, in period 4, and its greatest power is 100000 kW."), told)
        line = "fault 10 mixture 48 kind thermal unit 1 entry 1 period 1 left 20001 right 20000"
        told = self.told_of_mixture(line, '[10000],"reserve":[0]', '[20000],"reserve":[1]')
        self.assertTrue(
            told.endswith(
                "gives 20000 kW and keeps 1 kW in reserve, 20001 kW together, in period 1, and its greatest power is 20000 kW."
            ),
            told,
        )

    def test_a_limit_below_the_least_power(self):
        line = "fault 4 schedule 49 kind thermal unit 2 period 2 left 10000 right 9000"
        told = self.told(line, "case.json", '"ramp_startup_limit":30', '"ramp_startup_limit":9')
        self.assertTrue(
            told.endswith(
                "its start limit is 9000 kW. Its least power is 10000 kW, so this unit can never start: the case is to be mended."
            ),
            told,
        )
        line = "fault 4 schedule 50 kind thermal unit 2 period 3 left 30000 right 9000"
        told = self.told(line, "case.json", '"ramp_shutdown_limit":30', '"ramp_shutdown_limit":9')
        self.assertTrue(told.endswith("so this unit can never stop: the case is to be mended."), told)

    def test_a_weight(self):
        line = "fault 10 mixture 62 kind thermal unit 1 entry 0 item 0"
        self.assertEqual(
            self.told_of_mixture(line, '"weight":3', '"weight":4'),
            'mixture.json: thermal unit "G1" (number 1): its weights sum to 11, and the outermost one is 10. Found: 7 + 4.',
        )
        line = "fault 10 mixture 62 kind thermal unit 1 entry 2 item 0"
        self.assertEqual(
            self.told_of_mixture(line, '"weight":3', '"weight":0.33'),
            'mixture.json: thermal unit "G1" (number 1), entry 2: its weight isn\'t a whole number. Found: 0.33. '
            "Weights are whole, and no shares of 1: a share of 0.33 is 33 where the outermost weight is 100.",
        )
        told = self.told_of_mixture(line, '"weight":3', '"weight":11')
        self.assertTrue(
            told.endswith("its weight isn't within its range, from 0 to the outermost weight, 10. Found: 11."), told
        )
        told = self.told_of_mixture(line, '"weight":3', '"weight":"3"')
        self.assertTrue(told.endswith('entry 2: its weight isn\'t a number. Found: "3".'), told)
        told = self.told_of_mixture("fault 10 mixture 62 kind case unit 0 entry 0 item 0", '"weight":10', '"weight":0')
        self.assertEqual(
            told, "mixture.json: the outermost weight isn't within its range, from 1 to 1,000,000,000,000. Found: 0."
        )

    def test_a_unit_that_is_not_there_or_not_thermal(self):
        line = "fault 4 schedule 41 kind bid unit 1 item 0"
        told = self.told(line, "schedule.json", '"B1":[5000,5000,5000,5000,5000,5000]', "")
        self.assertEqual(
            told,
            'schedule.json: bid "B1" (number 1) isn\'t in schedule.json: a buyer that buys nothing is listed with zeros.',
        )
        told = self.told_of_mixture(
            "fault 10 mixture 41 kind thermal unit 1 entry 0 item 0", '"thermal":{"G1"', '"thermal":{},"x":{"G1"'
        )
        self.assertTrue(
            told.endswith("isn't in mixture.json: each thermal unit needs an entry, if only one that is off."), told
        )
        told = self.told_of_mixture("fault 10 mixture 40 kind thermal unit 1 entry 0 item 0", '"G1"', '"W1"')
        self.assertEqual(
            told,
            'mixture.json: thermal unit "W1" (number 1): the case has no unit of that name and kind. '
            "It has a renewable unit of that name: only thermal units have entries in a mixture.",
        )
        told = self.told("fault 4 schedule 40 kind thermal unit 1 item 0", "schedule.json", '"G1"', '"B1"')
        self.assertTrue(told.endswith("It has a bid of that name: `bids` is where it is listed."), told)

    def test_lists_that_are_not_there(self):
        line = "fault 4 schedule 42 kind case unit 0 item 0"
        told = self.told(line, "schedule.json", '"bids"', '"bid"')
        self.assertEqual(told, "schedule.json: `bids` isn't there, and the case has bids.")
        told = self.told(
            line, "schedule.json", '"renewable":{"W1":[10000,20000,15000,5000,5000,5000]}', '"renewable":[]'
        )
        self.assertEqual(told, "schedule.json: `renewable` isn't an object by the names of units.")
        told = self.told_of_mixture("fault 10 mixture 42 kind case unit 0 entry 0 item 0", '"weight":10,', "")
        self.assertEqual(told, "mixture.json: `weight` isn't there.")
        line = "fault 4 schedule 42 kind renewable unit 1 item 0"
        told = self.told(
            line, "schedule.json", "[10000,20000,15000,5000,5000,5000]", '{"power":[10000,20000,15000,5000,5000,5000]}'
        )
        self.assertEqual(
            told,
            'schedule.json: renewable unit "W1" (number 1): a plain list with an item for each of the 6 periods is due, and no object. '
            "Found: power with 6 items.",
        )
        line = "fault 4 schedule 42 kind thermal unit 2 item 0"
        self.assertIn(
            ": `on` isn't there. Found: off with 6 items", self.told(line, "schedule.json", '"G2":{"on"', '"G2":{"off"')
        )

    def test_a_text_that_is_no_json(self):
        told = self.told("fault 3 case 10 at 0", "case.json", "{", "\ufeff{")
        self.assertIn("byte order mark", told)
        told = self.told("fault 3 case 10 at 21", "case.json", "[65,100", "[65.5,100")
        self.assertNotIn("(", told)
        told = self.told("fault 3 case 10 at 18", "case.json", '"time_periods":6,', '"time_periods":6,5,')
        self.assertIn("(a decimal comma? Numbers have a point)", told)
        for data, line, hint in (
            (b"", "fault 3 case 10 at 0", "the file is empty"),
            (b"\xff\xfe{\0", "fault 3 case 10 at 0", "UTF-16: save the file as UTF-8"),
            (b"\x1f\x8b\x08", "fault 3 case 10 at 0", "a compressed file: unpack it first"),
            (b'{"time_per', "fault 3 case 10 at 1", "the file ends there"),
            (b'{"time_periods":', "fault 3 case 10 at 16", "the file ends there"),
            (b'{"demand":[1,2,]}', "fault 3 case 10 at 15", "a comma too many"),
            (b"hour,price\n", "fault 3 case 10 at 0", "a JSON text begins with {"),
        ):
            with open(f"{self.room}/odd.json", "wb") as file:
                file.write(data)
            ran = run("explain.py", f"{self.room}/odd.json", f"{self.room}/odd.json", input=f"{line}\n")
            self.assertIn(f"({hint})", ran[1])

    def test_megawatts_and_swapped_files(self):
        self.assertIn("megawatts?", self.told("fault 4 schedule 54 kind case unit 0 period 1 left 65 right 65000"))
        line = "fault 4 schedule 48 kind thermal unit 2 period 2 left 10000 right 10"
        self.assertIn(
            "kilowatts: are these megawatts?", self.told(line, "schedule.json", '"power":[0,10000', '"power":[0,10')
        )
        line = "fault 4 schedule 43 kind thermal unit 1 item 3"
        self.assertIn("are these megawatts?", self.told(line, "schedule.json", "90000", "90.5"))
        self.assertNotIn("megawatts", self.told(line, "schedule.json", '"on":[1,1,1', '"on":[1,1,true'))
        line = "fault 3 case 24 field power_output_maximum kind thermal unit 1 item 0"
        told = self.told(line, "case.json", '"power_output_maximum":100', '"power_output_maximum":100000')
        self.assertIn("above the limit, 10,000 MW. Found: 100000. A case is in megawatts: are these kilowatts?", told)
        line = "fault 3 case 25 field demand kind case unit 0 item 0"
        told = self.told(line, "case.json", "[65,100,130,80,70,70]", "[65,100,130,5,80,70,70]")
        self.assertIn(
            "it has 7 items. A decimal comma makes two items of one: items 3 and 4, 130 and 5, are most likely 130.5.",
            told,
        )
        shutil.copy(f"{EVENING}/case.json", f"{self.room}/both.json")
        ran = run(
            "explain.py",
            f"{self.room}/both.json",
            f"{self.room}/both.json",
            input="fault 4 schedule 42 kind case unit 0 item 0\n",
        )
        self.assertIn("Are the files swapped?", ran[1])

    def test_a_whole_number_in_megawatts(self):
        line = "fault 4 schedule 48 kind thermal unit 2 period 2 left 10000 right 45"
        told = self.told(line, "schedule.json", '"power":[0,10000', '"power":[0,45')
        self.assertTrue(
            told.endswith("its least power is 10000 kW (schedules are in kilowatts: are these megawatts?)."), told
        )
        line = "fault 4 schedule 48 kind thermal unit 2 period 2 left 10000 right 51"
        self.assertNotIn("megawatts", self.told(line, "schedule.json", '"power":[0,10000', '"power":[0,51'))

    def test_where_decimal_commas_are(self):
        line = "fault 9 prices 25 field energy item 0"
        for energy, due in (
            ("[20,5,20,60,20,20,20]", "items 1 and 2, 20 and 5, are most likely 20.5. Numbers have a point."),
            ("[20,25,60,5,20,20,20.5]", "items 3 and 4, 60 and 5, are most likely 60.5. Numbers have a point."),
            ("[20,1,20,1,60,1,20,1,20,1,20,1]", "are most likely 20.1, and so with 4 more. Numbers have a point."),
        ):
            with open(f"{self.room}/prices.json", "w", encoding="utf-8") as file:
                file.write(f'{{"energy": {energy}}}')
            self.change(EVENING, None, "", "")
            told = self.sentence(line, "--prices", f"{self.room}/prices.json")
            self.assertTrue(told.endswith(due), told)
            self.assertIn("A decimal comma makes two items of one: ", told)
        with open(f"{self.room}/prices.json", "w", encoding="utf-8") as file:
            file.write('{"energy": [20.5,20.5,60,20,20,20.5,20]}')
        told = self.sentence(line, "--prices", f"{self.room}/prices.json")
        self.assertTrue(told.endswith("it has 7 items."), told)

    def test_what_is_due_at_a_field(self):
        for line, name, old, new, due in (
            (
                "fault 3 case 20 field unit_on_t0 kind thermal unit 2 item 0",
                *("case.json", '"unit_on_t0":0,', ""),
                "it isn't there, and it has to be. Due: 1 where it is on before period 1, otherwise 0.",
            ),
            (
                "fault 3 case 21 field ramp_up_limit kind thermal unit 1 item 0",
                *("case.json", '"ramp_up_limit":20', '"ramp_up_limit":"1,020"'),
                'Found: "1,020". Numbers stand without quotes, with a point, and without separators of thousands.',
            ),
            (
                "fault 3 case 27 field piecewise_production kind thermal unit 2 item 0",
                *("case.json", '{"mw":50,"cost":1800}', '{"mw":45,"cost":1800}'),
                "Add the point at the least or at the greatest power.",
            ),
            (
                "fault 3 case 21 field demand kind case unit 0 item 2",
                *("case.json", "[65,100,", "[65,null,"),
                "demand, item 2: it is of the wrong kind: a number is due. Found: null. Give a number for each period.",
            ),
            (
                "fault 3 case 21 field piecewise_production kind thermal unit 2 item 1",
                *("case.json", '"cost":400}', '"cost":"400.00"}'),
                "Numbers stand without quotes, with a point, and without separators of thousands.",
            ),
            (
                "fault 3 case 25 field demand kind case unit 0 item 0",
                *("case.json", '"time_periods":6', '"time_periods":8'),
                "it has 6 items. Demand and reserves have 6 items each: is time_periods to be mended?",
            ),
        ):
            told = self.told(line, name, old, new)
            self.assertTrue(told.endswith(due), told)

    def test_the_state_before_period_1_is_told(self):
        line = "fault 4 schedule 51 kind thermal unit 1 period 1 left 60000 right 20000"
        told = self.told(line, "case.json", '"power_output_t0":60', '"power_output_t0":0')
        self.assertTrue(
            told.endswith(
                "In the case it is on before period 1 (unit_on_t0 1) with power_output_t0 0 MW, below its least power of 40 MW. Its "
                "upward ramp of 20 MW doesn't take it there in period 1, so it can't stay on: give the power that it had, or unit_on_t0 0."
            ),
            told,
        )
        line = "fault 4 schedule 51 kind thermal unit 1 period 2 left 21000 right 20000"
        self.assertNotIn("In the case", self.told(line, "case.json", '"power_output_t0":60', '"power_output_t0":0'))

    def test_where_a_text_is_no_json(self):
        line = "fault 3 case 10 at 1043"
        self.change(EVENING, "case.json", '"power_output_maximum":[10,20', '"power_output_maximum":[10,NaN')
        with open(f"{self.room}/case.json", "rb") as file:
            place = file.read().index(b"NaN")
        told = self.sentence(line.replace("1043", str(place)))
        self.assertIn('in renewable unit "W1", power_output_maximum, item 2: this isn\'t JSON', told)
        self.assertIn(
            "(no number of JSON: give the value; 0 is no power or money, and not a value that is missing)", told
        )

    def test_a_report_of_other_files(self):
        with open(f"{EXAMPLES}/two_units/price.output", encoding="utf-8") as file:
            report = file.read().split("\n")
        others = " The report is of another case or schedule, or of an older one."
        for line, more in ((6, others), (8, others), (14, "")):
            self.change(f"{EXAMPLES}/two_units", None, "", "")
            with open(f"{self.room}/report", "w", encoding="utf-8") as file:
                file.write("\n".join([*report[: line - 1], report[line - 1] + "1", *report[line:]]))
            told = self.sentence(f"fault 8 report 61 at {line}", "--report", f"{self.room}/report")
            self.assertEqual(
                told,
                f"report: line {line} is the first that isn't that of the right report. Found: '{report[line - 1]}1'.{more}",
            )

    def test_an_option_that_is_missing(self):
        told = self.told("fault 1 words 7 3")
        self.assertEqual(
            told,
            "a required option, or the number of `try`, is missing after word 3: every other command needs --case and --schedule, "
            "`audit` --report too, `settle` --prices, and `certify` --prices and --mixture.",
        )

    def test_a_file_that_is_not_there(self):
        case, none = f"{EVENING}/case.json", f"{self.room}/none.json"
        for line, words in (
            ("fault 4 schedule 49 kind thermal unit 2 period 2 left 31000 right 30000", [case, none]),
            ("fault 3 case 20 field must_run kind thermal unit 1 item 0", [none, case]),
            ("fault 8 report 61 at 6", [case, case, "--report", none]),
            ("fault 9 prices 10 at 13", [case, case, "--prices", none]),
            ("fault 10 mixture 10 at 12", [case, case, "--mixture", none]),
        ):
            ran = run("explain.py", *words, input=f"{line}\n")
            self.assertEqual(ran, (1, "", f"explain.py: {none}: No such file or directory\n"))
        told = run("explain.py", case, none, input="fault 2 read schedule\n")
        self.assertEqual(told, (0, f"{none} can't be read: No such file or directory.\n", ""))
        self.assertEqual(run("explain.py", case, none, input="fault 1 words 1 0\n")[0], 0)

    def test_the_files_are_those_that_the_words_of_the_run_name(self):
        line = "fault 4 schedule 49 kind thermal unit 2 period 2 left 31000 right 30000\n"
        case, schedule = f"{EVENING}/case.json", f"{EVENING}/schedule.json"
        due = run("explain.py", case, schedule, input=line)
        self.assertEqual((due[0], due[2]), (0, ""))
        for words in (
            ["--case", case, "--schedule", schedule],
            [f"--case={case}", f"--schedule={schedule}", "--workers", "2"],
        ):
            self.assertEqual(run("explain.py", "--run", "price", *words, input=line), due)
        told = run("explain.py", "--run", "price", "--case", case, "--ahead", "99", input="fault 1 words 6 4\n")
        self.assertRegex(told[1], r"\Aword 4 is .*\. There stands '--ahead 99'\.\n\Z")
        told = run("explain.py", "--run", "prise", input="fault 1 words 2 1\n")
        self.assertEqual(told[1], "the first word is no command: `hull help` lists them. There stands 'prise'.\n")

    def test_a_line_that_needs_no_file_or_one_that_is_not_given(self):
        self.assertEqual(
            run("explain.py", input="fault 7 memory\n"), (0, "the machine gave no memory when it was asked.\n", "")
        )
        told = run("explain.py", input="fault 3 case 10 at 3\n")
        self.assertEqual(told, (1, "", "explain.py: this line is told of the case, whose file has to be given\n"))

    def test_a_run_that_was_not_refused(self):
        with open(f"{EVENING}/check.output", encoding="utf-8") as file:
            self.assertEqual(self.told(file.read()), "The run wasn't refused: its text begins with 'hull-check 1'.")

    def test_what_is_no_fault_line(self):
        for line in ("right", "fault 3 case 99 at 0", "fault x"):
            status, text, said = run("explain.py", os.devnull, os.devnull, input=f"{line}\n")
            self.assertEqual((status, text, said.count("\n")), (1, "", 1))


class Harmful(unittest.TestCase):
    """Lines and files that were made to harm: a sentence or a line at once."""

    def setUp(self):
        self.room = tempfile.mkdtemp(prefix="hull-explain-")
        self.addCleanup(shutil.rmtree, self.room)

    def explained(self, line, text=b"{}", what="case"):
        names = {"case": f"{EVENING}/case.json", "schedule": f"{EVENING}/schedule.json", what: f"{self.room}/file"}
        with open(names[what], "wb") as file:
            file.write(text)
        more = ["--mixture", names["mixture"]] if what == "mixture" else []
        began = time.monotonic()
        status, told, said = run("explain.py", names["case"], names["schedule"], *more, input=f"{line}\n")
        self.assertLess(time.monotonic() - began, 5)
        self.assertEqual((status, said.count("\n"), told.count("\n")), (1, 1, 0) if status else (0, 0, 1), said)
        return told or said

    def test_a_line_with_a_number_of_thousands_of_digits(self):
        for line in (f"fault 1 words 2 {'9' * 5000}", f"fault 3 case 10 at {'1' * 5000}"):
            self.assertIn("this is no fault line of hull", self.explained(line))

    def test_a_unit_or_place_of_twenty_digits(self):
        many, words = "9" * 20, [f"{EVENING}/case.json", f"{EVENING}/schedule.json"]
        for line in (f"fault 4 schedule 40 kind thermal unit {many} item 0", f"fault 3 case 10 at {many}"):
            status, text, said = run("explain.py", *words, input=f"{line}\n")
            self.assertEqual((status, text.count("\n"), said), (0, 1, ""), line)

    def test_a_file_of_hundreds_of_levels(self):
        for levels in (100, 500, 900, 5000):
            deep = b'{"time_periods":' + b"[" * levels + b"]" * levels + b"}"
            self.explained("fault 3 case 21 field time_periods kind case unit 0 item 0", deep)

    def test_numbers_that_hull_refuses_by_their_size(self):
        line = "fault 10 mixture 62 kind thermal unit 1 entry 0 item 0"
        for weight in (b"1e99999999", b"-1e-99999999", b"1e" + b"9" * 30, b"9" * 100_000, b"NaN", b"Infinity"):
            self.explained(line, b'{"weight":2,"thermal":{"G1":[{"weight":%s},{"weight":1}]}}' % weight, "mixture")

    def test_a_large_file_that_ends_within_a_string(self):
        line = "fault 3 case 10 at 5"
        for inner in (b"a", b"\\n", b'\\"', b"\\"):
            text = b'{"x":"' + inner * (20_000_000 // len(inner))
            self.explained(line, text)
        self.assertIn("(the file ends there)", self.explained(line, b'{"x":"' + b"a" * 20_000_000))
        self.assertIn("(the file ends there)", self.explained(line, b'{"x":"a\\"b\\\\\\"'))
        self.assertNotIn("(the file ends there)", self.explained(line, b'{"x":"a\\\\"'))

    def test_an_output_that_is_closed_or_full(self):
        tool = f'"{sys.executable}" -B "{ROOT}/tools/explain.py"'
        for to, why in (
            (">&-", "standard output is closed"),
            (">/dev/full", "standard output: No space left on device"),
        ):
            command = f"echo fault 7 memory | {tool} {to}"
            self.assertEqual(self.shell(command), (1, f"explain.py: {why}\n"))
        self.assertEqual(self.shell(f"{tool} --help >/dev/full"), (1, f"explain.py: {why}\n"))
        for name, words, status in (("lint", "none", 6), ("convert", "none none.json", 1), ("compare", "none none", 1)):
            command = f"{tool.replace('explain', name)} {words} >&-"
            self.assertEqual(self.shell(command), (status, f"{name}.py: standard output is closed\n"))
        lint = f"{tool.replace('explain', 'lint')} {EXAMPLES}/usual/case.json >/dev/full"
        self.assertEqual(self.shell(lint), (6, "lint.py: standard output: No space left on device\n"))

    def test_no_memory(self):
        """Neither for the package nor for the work; lint.py has another status for it than for its answers."""
        with mock.patch("hulltools.commands.lint.look", side_effect=MemoryError):
            self.assertEqual(run("lint.py", "case.json"), (7, "", "lint.py: no memory\n"))
        names = sorted(os.path.basename(it) for it in glob.glob(f"{ROOT}/tools/*.py"))
        self.assertGreater(len(names), 10)
        for name in names:
            said, loaded = io.StringIO(), f"hulltools.commands.{name[:-3]}"
            with contextlib.redirect_stderr(said), mock.patch.dict(sys.modules), mock.patch.object(
                sys, "meta_path", [NoMemory(loaded), *sys.meta_path]
            ):
                sys.modules.pop(loaded, None)
                with self.assertRaises(SystemExit) as ended:
                    runpy.run_path(f"{ROOT}/tools/{name}", run_name="__main__")
            self.assertEqual(
                (ended.exception.code, said.getvalue()), (7 if name == "lint.py" else 1, f"{name}: no memory\n")
            )

    @staticmethod
    def shell(command):
        """Status and standard error of a command whose output is kept back until there is more of it, or the end."""
        where = {key: it for key, it in os.environ.items() if key != "PYTHONUNBUFFERED"}
        how = {"stderr": subprocess.PIPE, "text": True, "timeout": 60, "check": False, "env": where}
        ended = subprocess.run(["bash", "-c", command], **how)
        return ended.returncode, ended.stderr


if __name__ == "__main__":
    unittest.main()
