"""Tables of texts: names that are told apart, and the unit of numbers. What needs pandas is in with_pandas.py."""
import copy
import glob
import os
import re
import subprocess
import sys
import unittest
import warnings

from tool import EXAMPLES, PROGRAM, python_with

import hulltools
from hulltools.named_texts import texts_of, told_apart

USUAL = f"{EXAMPLES}/usual/case.json", f"{EXAMPLES}/usual/schedule.json"


class Names(unittest.TestCase):
    def test_no_two_are_the_same(self):
        for names, due in (
            (["a", "b"], ["a", "b"]),
            (["a", "a", "a"], ["a", "a 2", "a 3"]),
            (["a", "a", "a 2"], ["a", "a 3", "a 2"]),
            (["a 2", "a", "a", "a 2"], ["a 2", "a", "a 3", "a 2 2"]),
        ):
            self.assertEqual(told_apart(names), due)
        many = told_apart(["hull settle"] * 5000)
        self.assertEqual((len(set(many)), many[-1]), (5000, "hull settle 5000"))

    def test_the_texts_keep_their_own_names(self):
        text = hulltools.read_output(f"{EXAMPLES}/usual/price.output")
        given = {97: text, "97": text, "other": text}
        self.assertEqual([it.name for it in texts_of(given)], ["97", "97 2", "other"])
        self.assertEqual(text.name, f"{EXAMPLES}/usual/price.output")
        self.assertEqual([it.name for it in texts_of(text)], ["price.output"])
        text.name = "day 1"
        self.assertIs(texts_of(text)[0], text)

    def test_a_text_of_a_file_has_its_name_without_folders(self):
        usual, windows = (f"{EXAMPLES}/{it}/price.output" for it in ("usual", "windows"))
        bound = f"{EXAMPLES}/two_units/bound.output"
        for given, due in (
            (usual, ["price.output"]),
            ([usual, bound], ["price.output", "bound.output"]),
            ([usual, windows, bound], [usual, windows, "bound.output"]),
            ([usual, usual], ["price.output", "price.output 2"]),
            ({usual: usual}, [usual]),
        ):
            self.assertEqual([it.name for it in texts_of(given)], due)
        table = hulltools.read_output(usual).tables()["runs"]
        self.assertEqual(table.rows[0][table.heads.index("report")], "price.output")

    def test_what_is_no_text_is_told(self):
        for given in (3, None, [{}], {"a": 1}):
            with self.assertRaisesRegex(hulltools.HullError, "^no `.*` can be taken for a text of hull: "):
                texts_of(given)


class Tables(unittest.TestCase):
    def test_the_unit_of_numbers(self):
        text = hulltools.settle(*USUAL, hulltools.per_mwh(98), hull=PROGRAM)
        exact = text.tables(money="millionths")["runs"]
        with self.assertWarns(DeprecationWarning) as warned:
            self.assertEqual(vars(text.tables(currency=False)["runs"]), vars(exact))
        self.assertEqual(warned.filename, __file__)
        self.assertEqual(dict(zip(exact.heads, exact.rows[0]))["payments_millionths"], 164000000)
        for how, due in (
            ({"currency": False}, 'currency=False is called money="millionths" now'),
            ({"currency": True}, 'currency=True is called money="currency" now'),
            ({"money": True}, 'money=True is called money="currency" now'),
            ({"money": False}, 'money=False is called money="millionths" now'),
        ):
            with self.assertWarns(DeprecationWarning) as warned:
                text.tables(**how)
            self.assertEqual((str(warned.warning), warned.filename), (due, __file__))
        with warnings.catch_warnings():
            warnings.simplefilter("error")
            for given in ("EUR", 1):
                with self.assertRaisesRegex(hulltools.HullError, f"^currency is {given}: True or False is due; "):
                    text.tables(currency=given)
            told = text.tables()["runs"]
        self.assertEqual(dict(zip(told.heads, told.rows[0]))["payments_currency"], 164)


class Beside(unittest.TestCase):
    """A case or a schedule that isn't the text's is refused, as far as the numbers of the text tell."""

    def setUp(self):
        self.files = f"{EXAMPLES}/windows/case.json", f"{EXAMPLES}/windows/schedule.json"
        self.case = hulltools.read_case(self.files[0])
        self.schedule = hulltools.read_schedule(self.files[1], self.case)
        self.settled = hulltools.settle(*self.files, hulltools.per_mwh(30, 1.5), hull=PROGRAM)
        self.texts = self.settled, *map(hulltools.read_output, glob.glob(f"{EXAMPLES}/windows/[pf]*.output"))

    def refused(self, due, text, *given):
        with self.assertRaisesRegex(hulltools.HullError, due):
            text.tables(*given)

    def other(self, kind):
        """The schedule with another power of a unit of the kind that is on."""
        found = copy.deepcopy(self.schedule)
        plan = next(it for (of, _), it in found.plans.items() if of == kind and it.power[0])
        plan.power[0] -= 1
        return found

    def test_their_own_are_taken(self):
        self.assertGreater(len(self.texts), 2)
        for text in self.texts:
            for given in (self.files, (self.case, self.schedule), (None, self.schedule), (self.case,)):
                self.assertIn("units", text.tables(*given))

    def test_a_changed_case(self):
        unit = next(it.name for it in self.settled.units if it.kind == "thermal" and sum(it.power))
        bids = copy.deepcopy(self.case)
        for bid in bids.bids:
            bid.blocks = [[(width, hulltools.MillionthsPerKilowatt(9_000_000)) for width, _ in it] for it in bid.blocks]
        earn = "would earn something else at best$"
        for case, why in (
            (self.case.scaled(demand=1.01), "with its demand and reserve the dual value would be another one$"),
            (self.case.scaled(renewable=0.5), f'the renewable unit "REN001" {earn}'),
            (self.case.scaled(renewable=2), f'the renewable unit "REN001" {earn}'),
            (self.case.scaled(offers={unit: 1.5}), f'the thermal unit "{unit}" {earn}'),
            (bids, f'the bid unit "BID001" {earn}'),
        ):
            for given in ((case,), (case, self.schedule)):
                self.refused(f"^hull settle is of another case than the one given: {why}", self.settled, *given)

    def test_another_schedule(self):
        both = "is of another schedule or case than the ones given"
        for kind in ("thermal", "renewable", "bid"):
            other = self.other(kind)
            self.refused(
                f"^hull settle {both}: the {kind} unit .* something else in it$", self.settled, self.case, other
            )
            self.refused("^hull settle is of another schedule than the one given: ", self.settled, None, other)
        for text in self.texts[1:]:
            self.refused(both, text, self.case, self.other("thermal"))

    def test_what_is_out_of_form(self):
        short = "^what is given beside hull settle is out of form: a list is too short$"
        empty = '^the case given: renewable "REN001": most has 0 items, and the case 24 periods$'
        for kind, member, due in (("renewable", "most", empty), ("thermal", "points", short)):
            case = copy.deepcopy(self.case)
            for unit in getattr(case, kind):
                setattr(unit, member, [])
            self.refused(due, self.settled, case)
        other = copy.deepcopy(self.schedule)
        next(iter(other.plans.values())).on.pop()
        self.refused("it has 23 periods, and the text has 24$", self.settled, None, other)


class WithPandas(unittest.TestCase):
    def test_all_that_needs_pandas(self):
        python = python_with("pandas")
        if not python:
            self.skipTest("no Python here has pandas")
        words = [python, "-B", "-m", "unittest", "-v", "with_pandas"]
        ran = subprocess.run(words, cwd=os.path.dirname(__file__), capture_output=True, text=True, check=False)
        self.assertEqual(ran.returncode, 0, ran.stderr[-3000:])
        self.assertRegex(ran.stderr, re.compile(r"^Ran [1-9]\d* tests", re.M))


if __name__ == "__main__":
    sys.exit(unittest.main())
