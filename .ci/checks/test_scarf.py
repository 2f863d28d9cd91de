"""The files of examples/scarf are what its own script works out."""
import os
import subprocess
import sys
import tempfile
import unittest

from built import EXAMPLES


class Scarf(unittest.TestCase):
    def test_files_are_those_of_the_script(self):
        with tempfile.TemporaryDirectory() as room:
            subprocess.run(
                [sys.executable, f"{EXAMPLES}/scarf/work_out.py", room], check=True, stdout=subprocess.DEVNULL
            )
            names = sorted(os.listdir(room))
            self.assertEqual(len(names), 40)
            for name in names:
                with open(f"{room}/{name}", "rb") as made, open(f"{EXAMPLES}/scarf/{name}", "rb") as kept:
                    self.assertEqual(made.read(), kept.read(), name)
