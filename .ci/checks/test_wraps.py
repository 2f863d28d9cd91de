"""No source of the program has a sum, a difference or a product that wraps: what is out of range is refused by a proof, or saturates."""
import glob
import os
import re
import unittest

import calls
from built import ROOT

WRAPS = re.compile(r"\b(?:wrapping|overflowing|unchecked)_\w+|\bWrapping\b")


def wraps_in(text):
    """The words of a source that let a sum wrap, each with the number of its line."""
    return [(number, word) for number, line in enumerate(text.split("\n"), 1) for word in WRAPS.findall(line)]


class Wraps(unittest.TestCase):
    def test_no_sum_of_the_program_wraps(self):
        said, read = [], 0
        for crate in calls.groups()["program"]:
            for path in sorted(glob.glob(f"{ROOT}/crates/{crate}/src/**/*.rt", recursive=True)):
                read += 1
                with open(path, encoding="utf-8") as text:
                    for number, word in wraps_in(text.read()):
                        said.append(f"{os.path.relpath(path, ROOT)}, line {number}: {word}")
        self.assertGreater(read, 100, "most sources weren't read")
        self.assertEqual(said, [], "a sum in a source of the program may wrap")

    def test_words_are_found(self):
        text = "let a = b.wrapping_mul(c);\nlet d = b.saturating_mul(c);\nlet e = b.overflowing_sub(c).0;\n"
        self.assertEqual(wraps_in(text), [(1, "wrapping_mul"), (3, "overflowing_sub")])
        self.assertEqual(wraps_in("use std::num::Wrapping;"), [(1, "Wrapping")])


if __name__ == "__main__":
    unittest.main()
