"""Each example of docs/FAULTS.md prints the line that stands beside it, and every code has one."""
import os
import re
import shutil
import tempfile
import unittest

from built import EXAMPLES, ROOT, run

CHANGE = re.compile(
    r"`(\w+)/(case\.json|schedule\.json|price\.output|prices\.json|mixture\.json)`: `(.+)` becomes `(.+)`"
)
TEXTS, CASES, PLANS, PRICES = range(10, 14), {*range(20, 35), 37} - {32}, range(40, 58), (20, 21, 23, 24, 25)
SHARES = (*range(40, 44), 62)
FILES = ["--case", "case.json", "--schedule", "schedule.json"]


def rows():
    """Rows of the page's tables as (example, line); a line is the first cell that has one alone."""
    with open(f"{ROOT}/docs/FAULTS.md", encoding="utf-8") as page:
        for text in page:
            cells = [it.strip() for it in text.strip().strip("|").split(" | ")]
            line = next((i for i, it in enumerate(cells) if re.fullmatch(r"`fault [^`]+`", it)), None)
            if line:
                yield cells[line - 1], cells[line].strip("`")


class Faults(unittest.TestCase):
    def test_each_code_has_an_example(self):
        lines = [line.split() for _, line in rows()]
        told = {
            (words[1], next(w for w in words[3:] if w.isdigit()))
            for words in lines
            if words[1] in ("1", "3", "4", "8", "9", "10")
        }
        due = (
            {("1", str(it)) for it in range(1, 9)}
            | {("3", str(it)) for it in {*TEXTS, *CASES}}
            | {("4", str(it)) for it in {10, *PLANS} - {58}}
            | {("8", str(it)) for it in (32, 60, 61)}
            | {("9", str(it)) for it in {*TEXTS, *PRICES}}
            | {("10", str(it)) for it in {*TEXTS, *SHARES}}
        )
        self.assertEqual(due - told, set())
        self.assertTrue({"2", "5"} <= {it[1] for it in lines})


def check_of(example, line):
    def check(self):
        due = (int(line.split()[1]), f"{line}\n".encode(), b"")
        change = CHANGE.fullmatch(example)
        if not change:
            self.assertEqual(run(example.strip("`").split()[1:], folder=EXAMPLES), due)
            return
        folder, name, old, new = change.groups()
        # Prices are settled with the evening's case and schedule, a mixture goes with the usual ones.
        beside = {"prices.json": "evening", "mixture.json": "usual"}.get(name, folder)
        words = ["check", *FILES]
        if name == "price.output":
            words = ["audit", *FILES, "--report", name]
        elif name == "prices.json":
            words = ["settle", *FILES, "--prices", name]
        elif name == "mixture.json":
            words = ["certify", *FILES, "--prices", f"{EXAMPLES}/certified/prices.json", "--mixture", name]
        with tempfile.TemporaryDirectory() as room:
            for copied in ("case.json", "schedule.json"):
                shutil.copy(f"{EXAMPLES}/{beside}/{copied}", room)
            if not os.path.exists(f"{room}/{name}"):
                shutil.copy(f"{EXAMPLES}/{folder}/{name}", room)
            with open(f"{room}/{name}", encoding="utf-8") as file:
                text = file.read()
            self.assertEqual(text.count(old), 1, f"{old} stands once in {folder}/{name}")
            with open(f"{room}/{name}", "w", encoding="utf-8") as file:
                file.write(text.replace(old, new))
            self.assertEqual(run(words, folder=room), due)

    return check


for number, (example, line) in enumerate(rows(), 1):
    code = re.sub(r"\W+", "_", " ".join(line.split()[1:4]))
    setattr(Faults, f"test_{number:02}_{code}", check_of(example, line))
