"""`hull audit`: the reports of the examples are right, and one that was changed is refused at the first line that differs, or is right.

What is due for a changed report is worked out here: the form by form.py, a reader of its own; and what is right for the report's
budget and number ahead is what `hull price` prints for them, which test_plain.py holds against a plain program.
"""
import glob
import os
import random
import shlex
import tempfile
import unittest
from concurrent.futures import ThreadPoolExecutor
from functools import lru_cache

import plain
from built import EXAMPLES, run
from form import OutOfForm, first_difference, read_form

# How many other digits are tried at each place of the larger report: 9 tries them all.
DIGITS = int(os.environ.get("HULL_AUDIT_DIGITS", "3"))


def files(folder):
    case, schedule = (os.path.join(EXAMPLES, folder, f"{it}.json") for it in ("case", "schedule"))
    return ["--case", case, "--schedule", schedule]


@lru_cache(None)
def right_report(folder, budget, ahead):
    status, output, _ = run(["price", *files(folder), "--proposals", str(budget), "--ahead", str(ahead)])
    assert status == 0, output
    return output


def due(folder, text):
    """The status and output that an audit of this text is to have."""
    try:
        form = read_form(text)
    except OutOfForm as fault:
        return 8, b"fault 8 report 60 at %d\n" % fault.line
    line = first_difference(text, right_report(folder, form.budget, form.ahead))
    if line:
        return 8, b"fault 8 report 61 at %d\n" % line
    return 0, b"hull-audit 1\nproposals %d\nright\n" % form.proposals


def with_other_digits(text, draw, count):
    for at, byte in enumerate(text):
        if chr(byte).isdigit():
            others = [it for it in b"0123456789" if it != byte]
            for digit in draw.sample(others, count):
                yield text[:at] + bytes([digit]) + text[at + 1 :]


def with_other_lines(text, draw):
    """Each line dropped, doubled, and swapped with the next one and with one that is drawn."""
    lines = text.splitlines(keepends=True)
    for at, line in enumerate(lines):
        yield b"".join(lines[:at] + lines[at + 1 :])
        yield b"".join(lines[: at + 1] + lines[at:])
        for other in (min(at + 1, len(lines) - 1), draw.randrange(len(lines))):
            swapped = list(lines)
            swapped[at], swapped[other] = lines[other], line
            yield b"".join(swapped)


class Audit(unittest.TestCase):
    def setUp(self):
        room = tempfile.TemporaryDirectory(prefix="hull-audit-")
        self.addCleanup(room.cleanup)
        self.room = room.name

    def audit(self, folder, text, *words):
        with tempfile.NamedTemporaryFile(dir=self.room) as report:
            report.write(text)
            report.flush()
            status, output, said = run(["audit", *files(folder), "--report", report.name, *words])
        self.assertEqual(said, b"")
        return status, output

    def check_all(self, folder, changed):
        """Every changed report has what is due; which is printed of each status is told back."""
        with ThreadPoolExecutor(os.cpu_count()) as pool:
            answers = list(pool.map(lambda it: (due(folder, it), self.audit(folder, it)), changed))
        for text, (expected, got) in zip(changed, answers):
            self.assertEqual(got, expected, text.decode(errors="replace"))
        return {output.rsplit(b" at ", 1)[0] for _, (_, output) in answers}

    def check_report(self, folder, budget, ahead, digits):
        report = right_report(folder, budget, ahead)
        self.assertEqual(self.audit(folder, report)[0], 0)
        draw = random.Random(f"{folder} {budget}")
        changed = [*with_other_digits(report, draw, digits), *with_other_lines(report, draw)]
        told = self.check_all(folder, changed)
        self.assertTrue({b"fault 8 report 60", b"fault 8 report 61"} <= told)

    def test_digits_and_lines_of_two_units(self):
        self.check_report("two_units", 1, 1, 9)
        self.check_report("two_units", 2, 1, 9)

    def test_digits_and_lines_of_an_evening(self):
        # two thermal units, a renewable one and a bid over six periods
        self.check_report("evening", 3, 2, DIGITS)

    def test_ends_that_are_cut_or_longer(self):
        report = right_report("two_units", 1, 1)
        changed = [report[:length] for length in range(len(report))]
        changed += [report + it for it in (b"\n", b" ", b"end\n", b"\0", report)]
        self.assertEqual(self.check_all("two_units", changed), {b"fault 8 report 60"})

    def test_forms_that_no_report_has(self):
        report = right_report("two_units", 1, 1)
        pairs = [
            (b"energy 30", b"energy 030"),
            (b"energy 30", b"energy +30"),
            (b"energy 30", b"energy 30 "),
            (b"energy 30", b"energy  30"),
            (b"energy 30", b"energy 30 30"),
            (b"energy 30", b"energy"),
            (b"energy 30", b"energy 10000001"),
            (b"energy 30", b"energy 30\r"),
            (b"reserve 0\nsupplied", b"reserve -0\nsupplied"),
            (b"reserve 0\nsupplied", b"reserve -1\nsupplied"),
            (b"cost 3500", b"cost " + b"9" * 60),
            (b"on 1", b"on 2"),
            (b"power 100", b"power 4294967296"),
            (b'"A"', b'"\\u0041"'),
            (b'"A"', b'"\xff"'),
            (b'"A"', b'"A'),
            (b"thermal", b"bid"),
            (b"ahead 1", b"ahead 17"),
            (b"periods 1", b"periods 169"),
            (b"units 2", b"units 12289"),
            (b"proposals 1", b"proposals 4294967296"),
        ]
        changed = [report.replace(old, new, 1) for old, new in pairs]
        self.assertNotIn(report, changed)
        self.assertEqual(self.check_all("two_units", changed), {b"fault 8 report 60"})

    def test_values_at_the_ends_of_their_types(self):
        report = right_report("two_units", 1, 1)
        pairs = [
            (b"energy 30", b"energy -10000000"),
            (b"cost 3500", b"cost %d" % -(2**127)),
            (b"cost 3500", b"cost %d" % (2**127 - 1)),
            (b"earned 2000", b"earned %d" % -(2**63)),
            (b"power 100", b"power 4294967295"),
            (b"chosen 1", b"chosen 4294967295"),
            (b'"A"', b'"\\u0001\\u001f\\"\\\\\xc3\xa9"'),
            (b'"A"', b'""'),
        ]
        changed = [report.replace(old, new, 1) for old, new in pairs]
        self.assertNotIn(report, changed)
        self.assertEqual(self.check_all("two_units", changed), {b"fault 8 report 61"})

    def test_reports_of_tiny_cases(self):
        for number in range(12):
            draw = random.Random(number)
            with tempfile.TemporaryDirectory(prefix="hull-audit-") as folder, self.subTest(number=number):
                plain.draw_case(draw).write(folder)
                right = right_report(folder, draw.randint(1, 12), draw.randint(1, 4))
                self.assertEqual(due(folder, right)[0], 0)
                changed = list(with_other_digits(right, draw, 1))
                self.check_all(folder, [right, *draw.sample(changed, min(20, len(changed)))])

    def test_any_number_of_workers_prints_the_same(self):
        for folder, right in (("evening", right_report("evening", 3, 2)), ("day", right_report("day", 100, 4))):
            for old, new in ((b"", b""), (b"payments ", b"payments 1"), (b"energy", b"Energy")):
                report = right.replace(old, new, 1)
                for workers in ("1", "2", "4", "32"):
                    self.assertEqual(self.audit(folder, report, "--workers", workers), due(folder, report))
        right = right_report("evening", 3, 2)
        self.assertEqual(self.audit("evening", right, "--workers", "33"), (1, b"fault 1 words 6 8\n"))

    def test_a_report_of_another_case_differs_at_once(self):
        self.assertEqual(self.audit("evening", right_report("two_units", 1, 1)), (8, b"fault 8 report 61 at 2\n"))

    def test_the_work_is_that_of_the_reports_budget(self):
        with open(f"{EXAMPLES}/day/price.output", "rb") as file:
            report = file.read()
        larger = report.replace(b"\nbudget 100\n", b"\nbudget 10000\n")
        self.assertNotEqual(report, larger)
        self.assertEqual(self.audit("day", larger), (5, b"fault 5 work 10000 154 48\n"))

    def test_every_report_of_the_examples_is_right(self):
        tried = 0
        for words_file in glob.glob(f"{EXAMPLES}/**/*.words", recursive=True):
            with open(words_file, encoding="utf-8") as file:
                command, *words = shlex.split(file.read().replace("=", " "))
            if command != "price":
                continue
            report = words_file.removesuffix(".words") + ".output"
            given = dict(zip(words[::2], words[1::2]))
            asked = ["audit", "--case", given["--case"], "--schedule", given["--schedule"], "--report", report]
            status, output, said = run(asked, folder=os.path.dirname(words_file))
            self.assertEqual((status, said), (0, b""), f"{words_file}: {output}")
            self.assertRegex(output, rb"\Ahull-audit 1\nproposals \d+\nright\n\Z")
            tried += 1
        self.assertGreater(tried, 8)


if __name__ == "__main__":
    unittest.main()
