"""The number of workers changes no byte, over and over, of each command that takes workers.

It is asked with 1 to 4, 8 and 32; of the last two, as many work as there are processors, but at least four.
"""
import os
import shutil
import tempfile
import unittest

from built import EXAMPLES, run

FEW = (1, 2, 3, 4, 8, 32)


class Workers(unittest.TestCase):
    def same(self, words, workers, times):
        due = run([*words, "--workers", "1"])
        self.assertEqual(due[0], 0)
        for number in workers:
            for _ in range(times):
                self.assertEqual(run([*words, "--workers", str(number)]), due, number)
        return due[1]

    def files(self, example):
        return [word for it in ("case", "schedule") for word in (f"--{it}", f"{EXAMPLES}/{example}/{it}.json")]

    def test_price_of_a_day_twenty_times_with_each_number(self):
        self.same(["price", *self.files("day")], FEW, 20)

    def test_price_with_each_number_ahead(self):
        for ahead in (1, 2, 16):
            self.same(["price", *self.files("day"), "--proposals", "30", "--ahead", str(ahead)], FEW, 3)

    def test_small_cases(self):
        for example in ("two_units", "windows", "usual"):
            for command in ("price", "bound", "fixed"):
                self.same([command, *self.files(example), "--proposals", "10"], FEW, 3)

    def test_bound_and_fixed_of_a_day(self):
        for command in ("bound", "fixed"):
            self.same([command, *self.files("day"), "--proposals", "20"], FEW, 2)

    def test_try(self):
        for number in ("0", "7", "18446744073709551615"):
            self.same(["try", number, "--proposals", "20"], FEW, 3)

    def test_audit(self):
        room = tempfile.mkdtemp(prefix="hull-workers-")
        self.addCleanup(shutil.rmtree, room)
        report = os.path.join(room, "report")
        with open(report, "wb") as file:
            file.write(run(["price", *self.files("day"), "--proposals", "20"])[1])
        self.same(["audit", *self.files("day"), "--report", report], FEW, 3)
