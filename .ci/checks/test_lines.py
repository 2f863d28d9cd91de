"""No line of a source, a definition or a proof has more than 120 columns."""
import glob
import os
import unittest

from built import ROOT

MOST_COLUMNS = 120


def long_lines(text):
    """The numbers of the lines that are too long, each with its columns: a character is one, however many bytes it has."""
    lengths = enumerate(map(len, text.split("\n")), 1)
    return [(number, columns) for number, columns in lengths if columns > MOST_COLUMNS]


class Lines(unittest.TestCase):
    def test_lines_are_short(self):
        files = [
            path
            for part in ("src/**/*.rt", "specs/**/*.antt", "proofs/**/*.antt")
            for path in sorted(glob.glob(f"{ROOT}/crates/*/{part}", recursive=True))
        ]
        self.assertGreater(len(files), 1000, "most files weren't read")
        said = []
        for path in files:
            with open(path, encoding="utf-8") as text:
                for number, columns in long_lines(text.read()):
                    said.append(f"{os.path.relpath(path, ROOT)}, line {number}: {columns} columns")
        self.assertEqual(said, [], f"these lines have more than {MOST_COLUMNS} columns: break them, then rt fmt")

    def test_columns_are_counted(self):
        self.assertEqual(long_lines("\n" + "≤" * 120 + "\n" + " " * 121 + "\n"), [(3, 121)])


if __name__ == "__main__":
    unittest.main()
