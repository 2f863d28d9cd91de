"""Each run of examples/: NAME.words has the words after `hull`, NAME.output what is printed, to the byte.

The words are run in the folder that they stand in. The status is that of the fault line, or 0 where there is none.
"""
import glob
import os
import shlex
import unittest

from built import EXAMPLES, PROGRAM, run, status_of


class Examples(unittest.TestCase):
    maxDiff = 2000


def check_of(words_file):
    def check(self):
        with open(words_file, encoding="utf-8") as file:
            words = shlex.split(file.read())
        with open(words_file.removesuffix(".words") + ".output", "rb") as file:
            due = file.read()
        status, output, said = run(words, program=PROGRAM, folder=os.path.dirname(words_file))
        self.assertEqual(output.decode(errors="replace"), due.decode())
        self.assertEqual((status, said), (status_of(due), b""))

    return check


for at in sorted(glob.glob(f"{EXAMPLES}/**/*.words", recursive=True)):
    name = os.path.relpath(at, EXAMPLES).removesuffix(".words").replace("/", "_").replace("-", "_")
    setattr(Examples, f"test_{name}", check_of(at))


class Readme(unittest.TestCase):
    def test_the_report_that_the_readme_reads_is_an_example(self):
        with open(f"{EXAMPLES}/../README.md", encoding="utf-8") as page, open(
            f"{EXAMPLES}/usual/price-1.output", encoding="utf-8"
        ) as report:
            self.assertIn(f"```text\n{report.read()}```", page.read())
