"""The package hulltools: readers, costs, the mixture's bound; what needs SciPy runs in a Python that has it (with_scipy.py)."""
import doctest
import os
import random
import re
import signal
import subprocess
import sys
import tempfile
import unittest
from fractions import Fraction
from unittest import mock

from tool import EXAMPLES, PROGRAM, ROOT, python_with, run

import hulltools
from hulltools.costs import envelope, most_below_lines
from hulltools.json_texts import Refused, parse
from hulltools.mixtures import Entry, Mixture
from hulltools.numbers import decimal_text, kilowatts, money
from hulltools.outputs import Owed
from hulltools.schedules import Plan


SMALL = ("usual", "evening", "windows")


class Numbers(unittest.TestCase):
    def test_readings_worked_by_hand(self):
        value = parse(
            b"[65.0004999999999999999999999999, -0.0005, -0.0006, 1e-400, 2.0e0, 12345678901234567890123.0005]"
        )
        self.assertEqual([kilowatts(it) for it in value], [65000, 0, -1, 0, 2000, 12345678901234567890123001])

    def test_texts_that_are_refused(self):
        texts = [
            b"\xef\xbb\xbf1",
            b"[1,]",
            b"NaN",
            b'{"a":1,"a":2}',
            b'"\\ud800"',
            b'"\t"',
            b"01",
            b"1e401",
            b"[" * 33 + b"]" * 33,
        ]
        for text in [*texts, b"1" * 31, b"\xff", b"", b"1 2", b"Infinity", b"-", b"[" * 100_000, b"9" * 5000]:
            with self.assertRaises(Refused, msg=text[:40]):
                parse(text)
        self.assertEqual(parse(b"[" * 32 + b"]" * 32 + b"\n").__len__(), 1)

    def test_numbers_are_told_exactly(self):
        self.assertEqual([decimal_text(it, 3) for it in (98000, -5, 0, 1500)], ["98", "-0.005", "0", "1.5"])
        self.assertEqual(
            [money(it) for it in (850_000_000, -66_000_000, 4_999, -4_999)], ["850.00", "-66.00", "0.00", "0.00"]
        )


class Parts(unittest.TestCase):
    def test_the_parts_of_a_payment_are_those_of_the_page(self):
        """The table of docs/REPORT.md, 'How a payment is parted'."""
        with open(f"{ROOT}/docs/REPORT.md", encoding="utf-8") as page:
            rows = [
                [int(it.replace(",", "")) for it in row.split("|")[1:6]]
                for row in page
                if re.fullmatch(r"(\| -?[\d,]+ ){5}\|\n", row)
            ]
        self.assertEqual(len(rows), 5)
        for earned, scheduled, payment, *parts in rows:
            owed = Owed("thermal", "G1", earned, scheduled, payment)
            self.assertEqual((earned - scheduled, [owed.make_whole, owed.lost_opportunity]), (payment, parts))


class Costs(unittest.TestCase):
    def test_the_envelope_is_its_definition(self):
        """Beside all whole prices of a range, as docs/DEFINITIONS.md has it."""
        for points in ([(0, 0), (3, 10), (7, 11)], [(2, 50), (5, 20), (9, 90)], [(1, 5)], [(0, 3), (0, 1), (4, 4)]):
            for power in range(points[0][0], points[-1][0] + 1):
                due = max(min(cost + k * (power - at) for at, cost in points) for k in range(-100, 101))
                self.assertEqual(envelope(points, power), due, (points, power))

    def test_how_far_the_envelope_is_below_straight_lines(self):
        for seed in range(200):
            draw = random.Random(seed)
            at = sorted(draw.sample(range(25), draw.randint(1, 5)))
            points = [(power, draw.randint(0, 90)) for power in at]
            below = [straight(points, power) - envelope(points, power) for power in range(at[0], at[-1] + 1)]
            self.assertGreaterEqual(min(below), 0)
            self.assertLessEqual(max(below), most_below_lines(points), points)
        self.assertEqual([most_below_lines(it) for it in ([(0, 0), (4, 2)], [(0, 0), (4, 8)], [(3, 7)])], [1.0, 0, 0])


def straight(points, power):
    """The cost at a power by the straight lines of the lower convex envelope: the least of all lines between two points."""
    lines = [(a, b) for a in points for b in points if a[0] <= power <= b[0] and a[0] < b[0]]
    on_lines = [Fraction((b[1] - a[1]) * (power - a[0]), b[0] - a[0]) + a[1] for a, b in lines]
    return min([*on_lines, *(cost for at, cost in points if at == power)])


class Bounds(unittest.TestCase):
    """The bounds of a mixture that were worked by hand for the case of examples/usual at an energy price of 98.00."""

    def bound(self, weight, entries, costs, radius):
        case = hulltools.read_case(f"{EXAMPLES}/usual/case.json")
        mixture = Mixture(
            weight, {"G1": [Entry(it, Plan([int(power > 0)], [power], [reserve])) for it, power, reserve in entries]}
        )
        return mixture.bound(case, costs, hulltools.per_mwh([98]), radius)

    def test_bounds_worked_by_hand(self):
        self.assertEqual(self.bound(1, [(1, 8000, 2000)], [850_000_000], 20_000_000), 850_000_000)
        two = (10, [(7, 10000, 0), (3, 0, 0)], [1_030_000_000, 0])
        self.assertEqual(self.bound(*two, 20_000_000), 20_721_000_000)
        self.assertEqual(self.bound(*two, 1000), 723_000_000)


class Readers(unittest.TestCase):
    def test_the_examples_are_read(self):
        for example in ("first", "usual", "evening", "windows", "day", "two_units"):
            case = hulltools.read_case(f"{EXAMPLES}/{example}/case.json")
            schedule = hulltools.read_schedule(f"{EXAMPLES}/{example}/schedule.json", case)
            self.assertEqual(len(schedule.plans), len(case.units))

    def test_the_cost_of_a_schedule_is_that_of_hull_check(self):
        from hulltools.costs import Costs as Known
        from hulltools.costs import worth

        for example in ("usual", "evening", "windows", "day"):
            case = hulltools.read_case(f"{EXAMPLES}/{example}/case.json")
            schedule = hulltools.read_schedule(f"{EXAMPLES}/{example}/schedule.json", case)
            known = Known()
            cost = sum(known.of_plan(it, schedule.plan("thermal", it.name)) for it in case.thermal)
            bought = [(it, schedule.plan("bid", it.name).power) for it in case.bids]
            cost -= sum(worth(it.blocks[t], power[t]) for it, power in bought for t in range(case.periods))
            self.assertEqual(
                cost, hulltools.check(f"{EXAMPLES}/{example}/case.json", f"{EXAMPLES}/{example}/schedule.json", PROGRAM)
            )

    def test_what_hull_refuses_of_a_case_is_refused(self):
        """Each change of docs/FAULTS.md to a case of examples/."""
        change = re.compile(r"\| `(\w+)/case\.json`: `(.+)` becomes `(.+)` \| `fault 3 ")
        with open(f"{ROOT}/docs/FAULTS.md", encoding="utf-8") as page:
            rows = [it.groups() for it in map(change.search, page) if it]
        self.assertGreater(len(rows), 15)
        with tempfile.TemporaryDirectory() as room:
            for example, old, new in rows:
                with open(f"{EXAMPLES}/{example}/case.json", encoding="utf-8") as file:
                    text = file.read()
                with open(f"{room}/case.json", "w", encoding="utf-8") as file:
                    file.write(text.replace(old, new))
                with self.assertRaises(hulltools.HullError, msg=new) as found:
                    hulltools.read_case(f"{room}/case.json")
                self.assertNotIn("\n", str(found.exception))


class Replaced(unittest.TestCase):
    """convex_prices.py writes two files, and neither over one that it reads nor over the other."""

    def setUp(self):
        folder = tempfile.TemporaryDirectory(prefix="hull-replaced-")
        self.addCleanup(folder.cleanup)
        self.room = folder.name
        self.best = f"{self.room}/best.json"
        with open(self.best, "w", encoding="utf-8") as file:
            file.write("{}")

    def refused(self, prices, mixture):
        words = [*files("usual"), prices, mixture, "--best-schedule", self.best, "--hull", PROGRAM]
        status, text, said = run("convex_prices.py", *words)
        self.assertEqual((status, text, said.count("\n"), os.listdir(self.room)), (1, "", 1, ["best.json"]))
        return said.replace(f"{self.room}/", "").removeprefix("convex_prices.py: ")

    def test_a_file_that_is_read_is_not_replaced(self):
        for name in (*files("usual"), self.best):
            for given in ((name, f"{self.room}/new"), (f"{self.room}/new", name)):
                self.assertTrue(self.refused(*given).endswith("this is a file to read, and it would be replaced\n"))
        with open(self.best, encoding="utf-8") as file:
            self.assertEqual(file.read(), "{}")

    def test_prices_and_mixture_are_two_files(self):
        for other in ("new", "./new", f"../{os.path.basename(self.room)}/new"):
            self.assertTrue(
                self.refused(f"{self.room}/new", f"{self.room}/{other}").endswith(
                    "new: prices and mixture need a file each\n"
                )
            )


def files(example):
    return f"{EXAMPLES}/{example}/case.json", f"{EXAMPLES}/{example}/schedule.json"


class Settled(unittest.TestCase):
    """The prices of a text of hull, settled, owe each unit the same to the millionth."""

    def setUp(self):
        folder = tempfile.TemporaryDirectory(prefix="hull-package-")
        self.addCleanup(folder.cleanup)
        self.room = folder.name

    def settle(self, example, prices):
        return hulltools.settle(*files(example), prices, hull=PROGRAM)

    def test_the_prices_of_a_report_settle_to_the_same_payments(self):
        for example in SMALL:
            for more in ((), ("--ahead", "1", "--proposals", "40")):
                report = hulltools.Hull(PROGRAM).price(*files(example), *more)
                settled = self.settle(example, report.prices)
                self.assertEqual(settled.units, report.units)
                self.assertEqual([settled.surplus, settled.gap], [report.surplus, report.gap])

    def test_the_prices_file_of_a_text_settles_to_the_same(self):
        for example in SMALL:
            text, prices = f"{self.room}/text", f"{self.room}/prices.json"
            words = [PROGRAM, "price", "--case", files(example)[0], "--schedule", files(example)[1]]
            for words in (words, [PROGRAM, "settle", *words[2:], "--prices", prices]):
                with open(text, "wb") as file:
                    subprocess.run(words, stdout=file, check=True)
                self.assertEqual(run("report.py", "prices", text, prices), (0, "", ""))
                self.assertEqual(self.settle(example, prices).units, hulltools.read_output(text).units)


class Programs(unittest.TestCase):
    """What is called as `hull` and isn't, or is ended."""

    def setUp(self):
        folder = tempfile.TemporaryDirectory(prefix="hull-programs-")
        self.addCleanup(folder.cleanup)
        self.room = folder.name

    def program(self, body):
        name = f"{self.room}/hull"
        with open(name, "w", encoding="utf-8") as file:
            file.write(f"#!/bin/sh\n{body}\n")
        os.chmod(name, 0o755)
        return hulltools.Hull(name)

    def test_the_launcher_explains_nothing_to_a_tool(self):
        hull = self.program("printenv HULL_EXPLAIN; exit 0")
        for given in ("0", "1", ""):
            with mock.patch.dict(os.environ, HULL_EXPLAIN=given):
                self.assertEqual(hull.run("check"), (0, b"0\n"))

    def test_a_program_that_is_killed_refuses_nothing(self):
        hull = self.program("kill -9 $$")
        self.assertRaisesRegex(hulltools.HullError, "status -9", hull.refusal_of_case, files("usual")[0])
        self.assertRaisesRegex(hulltools.HullError, "status -9", hull.check, *files("usual"))

    def test_a_program_that_lies_is_told(self):
        for body in ("true", "echo hull-check 1", "printf 'hull-check 1\\nperiods 1\\ncost x\\nfeasible\\n'"):
            hull = self.program(body)
            self.assertRaisesRegex(hulltools.HullError, "no text of hull check", hull.check, *files("usual"))
            self.assertRaises(hulltools.HullError, hull.price, *files("usual"))
            self.assertRaises(hulltools.HullError, hull.settle, *files("usual"), hulltools.per_mwh([98]))
        self.assertRaises(hulltools.HullError, self.program("exit 5").refusal_of_case, files("usual")[0])
        self.assertEqual(hulltools.Hull(PROGRAM).refusal_of_case(files("usual")[0]), None)
        self.assertEqual(hulltools.Hull(PROGRAM).refusal_of_case(f"{self.room}/none"), "fault 2 read case")


class Temporary(unittest.TestCase):
    """The files that the program is given of what stands in memory."""

    def setUp(self):
        folder = tempfile.TemporaryDirectory(prefix="hull-temporary-")
        self.addCleanup(folder.cleanup)
        self.room = folder.name

    def settled(self):
        return hulltools.settle(*files("usual"), hulltools.per_mwh([98]), hull=PROGRAM).payments

    def test_a_tool_that_is_killed_leaves_no_file(self):
        code = (
            f"import os, sys; sys.path.insert(0, {ROOT + '/tools'!r}); import hulltools\n"
            "from hulltools.program import as_file\n"
            "with as_file(hulltools.per_mwh([98]), 'prices') as name:\n"
            "    os.system(f'cat {name}; kill -9 {os.getpid()}')\n"
        )
        where = {**os.environ, "TMPDIR": self.room}
        ran = subprocess.run([sys.executable, "-B", "-c", code], capture_output=True, text=True, env=where, timeout=60)
        self.assertEqual((ran.returncode, ran.stdout), (-signal.SIGKILL, hulltools.per_mwh([98]).text()))
        if hasattr(os, "memfd_create"):
            self.assertEqual(os.listdir(self.room), [])

    def test_without_nameless_files_a_folder_is_made_and_goes(self):
        due = self.settled()
        with mock.patch.object(os, "memfd_create", side_effect=OSError, create=True), mock.patch.object(
            tempfile, "tempdir", self.room
        ):
            self.assertEqual(self.settled(), due)
        self.assertEqual(os.listdir(self.room), [])


class Pages(unittest.TestCase):
    def test_the_session_of_the_page_runs(self):
        """docs/PYTHON.md, in the folder of the examples."""
        here, known = os.getcwd(), os.environ.get("HULL")
        os.chdir(EXAMPLES)
        os.environ["HULL"] = PROGRAM
        try:
            failed, tried = doctest.testfile(f"{ROOT}/docs/PYTHON.md", module_relative=False)
        finally:
            os.chdir(here)
            os.environ.pop("HULL") if known is None else os.environ.update(HULL=known)
        self.assertEqual(failed, 0)
        self.assertGreater(tried, 5)

    def test_data_frames(self):
        python = python_with("pandas")
        if not python:
            self.skipTest("no Python here has pandas")
        code = (
            f"import sys; sys.path.insert(0, {ROOT + '/tools'!r}); import hulltools\n"
            f"frames = hulltools.read_output({EXAMPLES + '/usual/price.output'!r}).frames()\n"
            "print(frames['units']['payment_currency'].sum(), frames['prices'].shape)"
        )
        ran = subprocess.run([python, "-B", "-c", code], capture_output=True, text=True)
        self.assertEqual((ran.stdout, ran.stderr), ("164.0 (2, 11)\n", ""))


class WithSciPy(unittest.TestCase):
    def test_all_that_needs_scipy(self):
        python = python_with("scipy.optimize._milp")
        if not python:
            self.skipTest("no Python here has SciPy with milp")
        ran = subprocess.run(
            [python, "-B", "-m", "unittest", "-v", "with_scipy", "with_scipy_schedules"],
            cwd=os.path.dirname(__file__),
            capture_output=True,
            text=True,
        )
        self.assertEqual(ran.returncode, 0, ran.stderr[-3000:])
        passed_over = re.findall(r"^(\w+) .*skipped (['\"])(.*)\2$", ran.stderr, re.M)
        if passed_over:
            self.skipTest("; ".join(f"{name}: {why}" for name, _, why in passed_over))


if __name__ == "__main__":
    unittest.main()
