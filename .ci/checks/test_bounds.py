"""A bound of ten digits or more stands in one file of the program, under a name, but for those that a list names with their reason."""
import collections
import glob
import os
import re
import unittest

import calls
from built import ROOT

LIST = f"{ROOT}/.ci/checks/bounds.txt"
NUMERAL = re.compile(r"(?<![\w.])\d[\d_]*\b")
COMMENT = {".rt": re.compile(r"//.*"), ".antt": re.compile(r"(^|\s)--.*")}


def allowed():
    """The numbers that may stand in several files, each with its reason."""
    with open(LIST, encoding="utf-8") as lines:
        return dict(it.rstrip("\n").split(": ", 1) for it in lines if it.strip() and not it.startswith("#"))


def files_of_numbers():
    """Each number of ten digits or more, with the files of the program's src and specs that it stands in."""
    found = collections.defaultdict(set)
    for crate in calls.groups()["program"]:
        for part in ("src/**/*.rt", "specs/**/*.antt"):
            for name in glob.glob(f"{ROOT}/crates/{crate}/{part}", recursive=True):
                comment = COMMENT[os.path.splitext(name)[1]]
                with open(name, encoding="utf-8") as lines:
                    for line in lines:
                        for numeral in NUMERAL.findall(comment.sub("", line)):
                            digits = numeral.replace("_", "")
                            if len(digits) >= 10 and "/src/tests" not in name:
                                found[digits].add(os.path.relpath(name, ROOT))
    return found


class Bounds(unittest.TestCase):
    def test_a_bound_stands_in_one_file(self):
        twice = {
            number: sorted(files)
            for number, files in files_of_numbers().items()
            if len(files) > 1 and number not in allowed()
        }
        self.assertEqual(twice, {}, "give each of these a name, or a line of bounds.txt")

    def test_the_list_names_nothing_else(self):
        found = files_of_numbers()
        self.assertEqual([it for it in allowed() if len(found[it]) < 2], [], "these stand in one file alone")
        self.assertTrue(all(len(reason) > 10 for reason in allowed().values()))
