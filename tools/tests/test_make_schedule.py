"""tools/make_schedule.py: schedules that `hull check` accepts, and what is said where there is none."""
import json
import os
import shutil
import signal
import subprocess
import tempfile
import time
import unittest

from tool import EXAMPLES, PROGRAM, ROOT, python_with, run


class MakeSchedule(unittest.TestCase):
    def setUp(self):
        self.python = python_with("scipy.optimize._milp")
        if not self.python:
            self.skipTest("no Python here has SciPy with milp")
        self.room = tempfile.mkdtemp(prefix="hull-make-")
        self.addCleanup(shutil.rmtree, self.room)

    def make(self, case, *words):
        return run(
            "make_schedule.py",
            case,
            f"{self.room}/schedule.json",
            "--hull",
            PROGRAM,
            *words,
            python=self.python,
        )

    def cost(self, case, schedule):
        ran = subprocess.run([PROGRAM, "check", "--case", case, "--schedule", schedule], capture_output=True, text=True)
        self.assertEqual(ran.returncode, 0, ran.stdout)
        return int(ran.stdout.split("\n")[2].split()[1])

    def changed(self, example, old, new):
        with open(f"{EXAMPLES}/{example}/case.json", encoding="utf-8") as file:
            text = file.read()
        self.assertEqual(text.count(old), 1)
        with open(f"{self.room}/case.json", "w", encoding="utf-8") as file:
            file.write(text.replace(old, new))
        return f"{self.room}/case.json"

    def test_examples_get_a_schedule_that_costs_no_more_than_theirs(self):
        for example in ("first", "usual", "evening", "windows"):
            case = f"{EXAMPLES}/{example}/case.json"
            status, _, said = self.make(case, "--gap", "0.001", "--seconds", "60")
            self.assertEqual(status, 0, said)
            self.assertLessEqual(
                self.cost(case, f"{self.room}/schedule.json"),
                self.cost(case, f"{EXAMPLES}/{example}/schedule.json"),
            )

    def test_a_case_that_is_changed_meanwhile_is_refused(self):
        case, program = f"{self.room}/case.json", f"{self.room}/hull"
        shutil.copyfile(f"{EXAMPLES}/usual/case.json", case)
        with open(program, "w", encoding="utf-8") as file:
            file.write(f'#!/bin/sh\necho >>"{case}"\nexec "{PROGRAM}" "$@"\n')
        os.chmod(program, 0o755)
        words = (case, f"{self.room}/schedule.json", "--hull", program)
        due = f"{case} was changed meanwhile, so search and check are of more than one file: "
        status, _, said = run("make_schedule.py", *words, python=self.python)
        self.assertEqual((status, said.splitlines()[-1]), (1, f"make_schedule.py: {due}no schedule is written"))
        self.assertFalse(os.path.exists(f"{self.room}/schedule.json"))
        call = f"import hulltools\nhulltools.make_schedule({case!r}, hull={program!r})"
        here = {**os.environ, "PYTHONPATH": f"{ROOT}/tools"}
        ran = subprocess.run([self.python, "-B", "-c", call], capture_output=True, text=True, env=here)
        self.assertIn(f"{due}there is no schedule", ran.stderr)

    def test_least_costs_of_the_scarf_example(self):
        for demand, least in ((20, 129), (100, 634), (150, 959)):
            case = f"{EXAMPLES}/scarf/{demand}.case.json"
            self.assertEqual(self.make(case, "--gap", "0")[0], 0)
            self.assertEqual(self.cost(case, f"{self.room}/schedule.json"), least * 1_000_000)

    def test_case_that_cannot_be_met(self):
        status, _, said = self.make(self.changed("evening", '"demand":[65,100,130', '"demand":[65,100,230'))
        self.assertEqual(status, 1)
        self.assertIn("can't be met: in period 3 the units give at most 165 MW, and demand is 230 MW", said)
        self.assertFalse(os.path.exists(f"{self.room}/schedule.json"))
        self.assertIn(
            "can't be met: in period 2 the units can keep at most 100 MW in reserve, and 195 MW are required",
            self.make(self.changed("evening", '"reserves":[0,5,5', '"reserves":[0,195,5'))[2],
        )
        self.assertIn(
            "can't be met: in period 2 the units give at most 170 MW, and demand and the required reserve are 195 MW",
            self.make(self.changed("evening", '"reserves":[0,5,5', '"reserves":[0,95,5'))[2],
        )
        self.assertIn(
            "can't be met: no period's sums show why; there would be a schedule without the required reserve",
            self.make(self.changed("evening", '"reserves":[0,5,5', '"reserves":[0,65,5'))[2],
        )

    def test_rules_that_contradict_are_told(self):
        window = '"must_run":1,"commitment":[null,null,0,null,null,null]'
        self.assertIn(
            'in period 3 unit "G1" can be neither on nor off: it is must-run, and its window says off',
            self.make(self.changed("evening", '"must_run":1', window))[2],
        )

    def test_thirty_digits_are_read_as_hull_reads_them(self):
        demand = '"demand":[65.000499999999999999999999999,100,130'
        status, _, said = self.make(self.changed("evening", '"demand":[65,100,130', demand))
        self.assertEqual(status, 0, said)

    def test_the_case_is_not_replaced(self):
        case = self.changed("evening", '"must_run":1', '"must_run": 1')
        status, _, said = run("make_schedule.py", case, case, "--hull", PROGRAM, python=self.python)
        self.assertEqual((status, said.count("\n")), (1, 1))
        with open(case, encoding="utf-8") as file:
            self.assertTrue(file.read().startswith('{"time_periods"'))

    def test_numbers_that_are_none_are_refused(self):
        for words in (["--gap", "nan"], ["--gap", "-1"], ["--seconds", "nan"], ["--seconds", "-1"], ["--nodes", "0"]):
            self.assertEqual(self.make(f"{EXAMPLES}/evening/case.json", *words)[0], 2)

    def test_the_clock_chooses_no_schedule(self):
        status, _, said = self.make(f"{EXAMPLES}/evening/case.json", "--seconds", "0")
        self.assertEqual((status, os.listdir(self.room)), (1, []))
        self.assertIn("the outer limit of 0 s is over: ", said)

    def test_the_same_schedule_is_made_twice(self):
        texts = []
        for _ in range(2):
            status, _, said = self.make(f"{EXAMPLES}/windows/case.json")
            self.assertEqual(status, 0, said)
            self.assertRegex(
                said, r"cost [0-9,.]+; within 0\.0[0-4][0-9]* % of the solver's bound, [0-9,.]+, after \d+ node"
            )
            with open(f"{self.room}/schedule.json", "rb") as file:
                texts.append(file.read())
        self.assertEqual(*texts)

    def test_a_schedule_in_megawatts_is_followed(self):
        case, followed = f"{EXAMPLES}/evening/case.json", f"{self.room}/followed"
        with open(f"{EXAMPLES}/evening/schedule.json", encoding="utf-8") as file:
            schedule = json.load(file)
        for write in (self.write_csv, self.write_julia):
            write(followed, schedule)
            status, _, said = self.make(case, "--follow", followed)
            self.assertEqual(status, 0, said)
            self.assertIn("within 0.400 kW", said)
            with open(f"{self.room}/schedule.json", encoding="utf-8") as file:
                made = json.load(file)
            for name, unit in schedule["thermal"].items():
                self.assertEqual(made["thermal"][name]["on"], unit["on"])
                self.assertEqual(made["thermal"][name]["power"], unit["power"])
            self.assertEqual(made["bids"], schedule["bids"])

    def test_what_is_not_followed_costs_as_little_as_can_be(self):
        """Thermal units alone are followed; the rest then costs no more than in the example's schedule."""
        for example in ("evening", "windows"):
            case, followed = f"{EXAMPLES}/{example}/case.json", f"{self.room}/followed.csv"
            with open(f"{EXAMPLES}/{example}/schedule.json", encoding="utf-8") as file:
                schedule = json.load(file)
            self.write_csv(followed, {"thermal": schedule["thermal"], "renewable": {}, "bids": {}})
            status, _, said = self.make(case, "--follow", followed)
            self.assertEqual(status, 0, said)
            self.assertLessEqual(
                self.cost(case, f"{self.room}/schedule.json"), self.cost(case, f"{EXAMPLES}/{example}/schedule.json")
            )
            with open(f"{self.room}/schedule.json", encoding="utf-8") as file:
                made = json.load(file)["thermal"]
            self.assertEqual(
                {name: it["power"] for name, it in made.items()},
                {name: it["power"] for name, it in schedule["thermal"].items()},
            )

    @staticmethod
    def write_csv(name, schedule):
        """The schedule in megawatts, each power off by less than half a kilowatt."""
        rows = [("unit", "period", "on", "power", "reserve")]
        for unit, plan in schedule["thermal"].items():
            for t, (on, power, reserve) in enumerate(zip(plan["on"], plan["power"], plan["reserve"]), 1):
                rows.append((unit, t, on, (power + 0.4 * on) / 1e3, reserve / 1e3))
        for unit, powers in {**schedule["renewable"], **schedule["bids"]}.items():
            rows += [(unit, t, "", power / 1e3, "") for t, power in enumerate(powers, 1)]
        with open(name, "w", encoding="utf-8") as file:
            file.writelines(",".join(map(str, row)) + "\n" for row in rows)

    @staticmethod
    def write_julia(name, schedule):
        on = {unit: it["on"] for unit, it in schedule["thermal"].items()}
        power = {
            unit: [(x + 0.4 * now) / 1e3 for x, now in zip(plan["power"], plan["on"])]
            for unit, plan in schedule["thermal"].items()
        }
        power.update(
            {unit: [x / 1e3 for x in row] for unit, row in {**schedule["renewable"], **schedule["bids"]}.items()}
        )
        with open(name, "w", encoding="utf-8") as file:
            json.dump({"Is on": on, "Production (MW)": power}, file)

    def test_an_interrupt_ends_the_search_at_once_and_writes_nothing(self):
        words = [f"{EXAMPLES}/day/case.json", f"{self.room}/schedule.json", "--gap", "0", "--hull", PROGRAM]
        tool = [self.python, "-B", f"{ROOT}/tools/make_schedule.py", *words]
        with subprocess.Popen(tool, stdout=subprocess.DEVNULL, stderr=subprocess.PIPE, text=True) as ran:
            self.assertIn("searching for at most", ran.stderr.readline())
            time.sleep(1)
            ran.send_signal(signal.SIGINT)
            self.assertEqual(ran.stderr.read(), "")
        self.assertEqual((ran.returncode, os.listdir(self.room)), (-signal.SIGINT, []))

    def test_a_window_is_kept(self):
        status, _, said = self.make(
            self.changed("evening", '"must_run":0', '"must_run":0,"commitment":[null,null,null,null,1,0]'),
            "--gap",
            "0",
        )
        self.assertEqual(status, 0, said)
        with open(f"{self.room}/schedule.json", encoding="utf-8") as file:
            self.assertEqual(json.load(file)["thermal"]["G2"]["on"][3:], [1, 1, 0])

    def test_case_that_hull_refuses(self):
        status, _, said = self.make(self.changed("evening", '"must_run":1', '"must_run":2'))
        self.assertEqual(
            (status, said),
            (
                1,
                "make_schedule.py: hull refuses the case: fault 3 case 29 field must_run kind thermal unit 1 item 0 (docs/FAULTS.md)\n",
            ),
        )

    def test_a_name_that_is_not_utf8_is_told(self):
        """The program would end with status 7 and say nothing."""
        name = os.fsdecode(os.fsencode(self.room) + b"/\xff.json")
        shutil.copyfile(f"{EXAMPLES}/evening/case.json", name)
        due = f"make_schedule.py: {self.room}/?.json: this isn't UTF-8, and the program takes no other words\n"
        self.assertEqual(self.make(name), (1, "", due))

    def test_other_troubles_are_told_in_one_line(self):
        for words in ([f"{self.room}/none.json"], [f"{EXAMPLES}/first/case.json", "--hull", "/nowhere/hull"]):
            status, _, said = self.make(*words)
            self.assertEqual((status, said.count("\n")), (1, 1), said)


class WithoutSciPy(unittest.TestCase):
    def test_it_says_what_is_missing(self):
        status, _, said = run("make_schedule.py", "a", "b", flags=("-S", "-E"))
        self.assertEqual(status, 1)
        self.assertTrue(said.startswith("make_schedule.py: this needs SciPy"), said)

    def test_each_tool_tells_its_words_all_the_same(self):
        for tool in (
            "make_schedule.py",
            "convex_prices.py",
            "lmp.py",
            "elmp.py",
            "study.py",
            "sweep.py",
            "settle_zones.py",
        ):
            status, text, said = run(tool, "--help", flags=("-S", "-E"))
            self.assertEqual((status, said), (0, ""))
            self.assertTrue(text.startswith(f"usage: {tool} CASE"), text)


if __name__ == "__main__":
    unittest.main()
