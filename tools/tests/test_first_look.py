"""tools/study.py looks at its files first: warnings stand on the page, and files that hull would refuse end it."""
from __future__ import annotations

import json
import os
import shutil
import tempfile
import unittest

from tool import EXAMPLES, PROGRAM, python_with, run


class FirstLook(unittest.TestCase):
    def setUp(self) -> None:
        self.python = python_with("scipy.optimize._milp")
        if not self.python:
            self.skipTest("no Python here has SciPy with milp")
        self.room = tempfile.mkdtemp(prefix="hull-look-")
        self.addCleanup(shutil.rmtree, self.room)

    def test_warnings_stand_on_the_page(self) -> None:
        files = [f"{EXAMPLES}/windows/{it}.json" for it in ("case", "schedule")]
        words = [
            files[0],
            f"{self.room}/study",
            "--schedule",
            files[1],
            "--no-schedule",
            "--rounds",
            "5",
            "--hull",
            PROGRAM,
        ]
        status, _, said = run("study.py", *words, python=self.python)
        self.assertEqual(status, 3, said)  # (five rounds miss the distance)
        with open(f"{self.room}/study/study.html", encoding="utf-8") as file:
            page = file.read()
        for told in (said, page):
            self.assertIn("3 units have falling slopes", told)

    def test_errors_end_it(self) -> None:
        with open(f"{EXAMPLES}/windows/case.json", encoding="utf-8") as file:
            case = json.load(file)
        case["reserves"][2] = -1
        with open(f"{self.room}/case.json", "w", encoding="utf-8") as file:
            json.dump(case, file)
        status, _, said = run(
            "study.py", f"{self.room}/case.json", f"{self.room}/study", "--hull", PROGRAM, python=self.python
        )
        self.assertEqual(status, 1)
        self.assertIn("reserves, item 3: it is below 0. Found: -1.", said)
        self.assertFalse(os.path.exists(f"{self.room}/study/study.html"))


if __name__ == "__main__":
    unittest.main()
