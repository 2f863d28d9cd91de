"""What calls take: whole texts for their prices, one number for all periods, dicts with any numbers, and paths."""
import json
import os
import pathlib
import subprocess
import sys
import tempfile
import unittest
from decimal import Decimal
from fractions import Fraction

from tool import EXAMPLES, PROGRAM, ROOT, python_with

import hulltools
from hulltools.json_texts import json_text, read_json
from hulltools.named_texts import texts_of
from hulltools.price_lists import PriceList
from hulltools.refusals import Held
from hulltools.studies import Lists, Settled

USUAL = f"{EXAMPLES}/usual/case.json", f"{EXAMPLES}/usual/schedule.json"


def settled(prices, files=USUAL, **how):
    return hulltools.settle(*files, prices, hull=PROGRAM, **how)


class Texts(unittest.TestCase):
    """An object that has prices, a schedule or a mixture is taken for it."""

    def test_a_whole_text_is_taken_for_its_prices(self):
        convex = hulltools.convex_prices(*USUAL, hull=PROGRAM)
        report = hulltools.price(*USUAL, hull=PROGRAM)
        for text in (convex, report, settled(convex)):
            self.assertEqual(settled(text).units, settled(text.prices).units, type(text))
        whole = hulltools.certify(*USUAL, convex, convex, hull=PROGRAM)
        self.assertEqual(whole, hulltools.certify(*USUAL, convex.prices, convex.mixture, hull=PROGRAM))
        self.assertEqual((whole.bound, whole.distance), (convex.bound, convex.distance))

    def test_prices_that_are_changed_leave_their_text_as_it_is(self):
        for text in (settled(hulltools.per_mwh(98)), hulltools.price(*USUAL, hull=PROGRAM)):
            due = text.prices
            for step in (1, 2):
                prices = text.prices
                prices.energy[0] += 1000
                self.assertEqual(prices.energy[0] - due.energy[0], 1000, step)
            self.assertEqual(text, hulltools.read_output(text.printed.decode()))

    def test_a_file_of_a_text_is_taken_for_its_prices(self):
        due = settled(hulltools.read_output(f"{EXAMPLES}/usual/price.output").prices)
        for name in (f"{EXAMPLES}/usual/price.output", pathlib.Path(EXAMPLES, "usual", "price.output")):
            self.assertEqual(settled(name).units, due.units)
        with self.assertRaisesRegex(hulltools.HullError, "this is a text of `hull bound`, where"):
            settled(f"{EXAMPLES}/two_units/bound.output")

    def test_a_list_of_a_study_is_taken_for_its_settlement_and_its_prices(self):
        price_list = PriceList("My_prices", "My prices", "prices of a file")
        settlement = settled(hulltools.per_mwh(98), name="My prices")
        lists = Lists(My_prices=Settled(price_list, settlement, []))
        self.assertEqual(settled(lists["My_prices"]).units, settlement.units)
        self.assertIs(lists["My prices"], lists["My_prices"])
        self.assertIs(lists.get("My prices"), lists["My_prices"])
        self.assertEqual(("My prices" in lists, "My price" in lists, lists.get("My price", 5)), (True, False, 5))
        self.assertLess(len(repr(lists)), 200)
        with self.assertRaisesRegex(KeyError, "the study has no list My price: is `My_prices` meant"):
            lists["My price"]
        self.assertEqual([text.name for text in texts_of(lists)], ["My_prices"])
        self.assertEqual([text.name for text in texts_of(lists["My prices"])], ["My prices"])
        self.assertEqual(texts_of(list(lists.values())), [settlement])

    def test_a_reader_of_prices_takes_a_text(self):
        name = f"{EXAMPLES}/day/price.output"
        due = hulltools.read_output(name).prices
        self.assertEqual((hulltools.read_prices(name), hulltools.read_prices(pathlib.Path(name), 48)), (due, due))
        with self.assertRaisesRegex(
            hulltools.HullError, "price.output: the text has 48 periods, and a price for each of 24 is due$"
        ):
            hulltools.read_prices(name, 24)
        with self.assertRaisesRegex(hulltools.HullError, "this is a text of `hull bound`, where"):
            hulltools.read_prices(f"{EXAMPLES}/two_units/bound.output")

    def test_a_pipe_is_read_once(self):
        """A pipe's writer hears of a reader who looks into it and goes."""
        with tempfile.TemporaryDirectory(prefix="hull-pipe-") as room:
            os.mkfifo(f"{room}/prices")
            words = ["cat", f"{EXAMPLES}/certified/prices.json"]
            with subprocess.Popen(["sh", "-c", f"exec {' '.join(words)} >{room}/prices"]) as writer:
                found = settled(f"{room}/prices")
                self.assertEqual((found.units, writer.wait()), (settled(words[1]).units, 0))

    def test_what_the_program_cannot_open_is_read_for_it(self):
        """A pipe, or what this process alone has open, as `<(cat prices.json)` or a file as standard input."""
        prices = read_json(f"{EXAMPLES}/certified/prices.json", "prices")
        with tempfile.TemporaryFile() as file:
            for reserve in ("reserve", "reserves"):
                file.seek(0)
                file.truncate()
                file.write(json_text({"energy": prices["energy"], reserve: [0] * len(prices["energy"])}).encode())
                file.seek(0)
                name = f"/dev/fd/{file.fileno()}"
                if reserve == "reserve":
                    self.assertEqual(settled(name).prices.in_currency_per_mw()["energy"], prices["energy"])
                else:
                    with self.assertRaisesRegex(hulltools.HullError, f"^{name}: `reserves` is no key of it"):
                        settled(name)

    def test_an_object_with_a_schedule_is_taken_for_it(self):
        class Found:
            schedule = hulltools.read_schedule(USUAL[1], hulltools.read_case(USUAL[0]))

        self.assertEqual(hulltools.check(USUAL[0], Found(), PROGRAM), hulltools.check(*USUAL, PROGRAM))

    def test_what_cannot_be_taken_is_told(self):
        for prices in ([98], 98, None, hulltools.HullError("x")):
            with self.assertRaisesRegex(hulltools.HullError, "the prices given: no `.*` can be taken: .* `per_mwh`"):
                settled(prices)
        with self.assertRaisesRegex(hulltools.HullError, "the case given: no `int` can be taken: .* `Case` is due$"):
            hulltools.check(3, USUAL[1], PROGRAM)


class Numbers(unittest.TestCase):
    def test_one_number_holds_in_each_period(self):
        for example, periods in (("usual", 1), ("evening", 6)):
            files = f"{EXAMPLES}/{example}/case.json", f"{EXAMPLES}/{example}/schedule.json"
            due = settled(hulltools.per_mwh([30] * periods, [2] * periods), files)
            for given in (30, 30.0, "30", Decimal(30), Fraction(30)):
                self.assertEqual(settled(hulltools.per_mwh(given, 2), files), due)
            case = hulltools.read_case(files[0])
            self.assertEqual(settled(hulltools.per_mwh(30, 2), (case, files[1])), due)
            self.assertEqual(hulltools.per_mwh(30, 2).over(periods), due.prices)
            self.assertEqual(hulltools.per_mwh(30, [2] * periods), due.prices)
            self.assertEqual(hulltools.per_mwh([30] * periods, 2), due.prices)

    def test_numbers_are_rounded_as_in_a_file(self):
        for given, due in (
            (30.0005, 30001),
            (30.0015, 30002),
            (30.0025, 30003),
            (Decimal("30.0004999"), 30000),
            (-30.0005, -30000),
            (-30.0015, -30001),
            ("1.0005", 1001),
            (Fraction(1, 3), 333),
            (Fraction(2, 3), 667),
            (1e-300, 0),
            (Decimal("1e-400000000"), 0),
        ):
            self.assertEqual(hulltools.per_mwh(given).energy, due)
            if isinstance(given, float):
                self.assertEqual(settled({"energy": [given]}).prices.energy, [due])
        self.assertEqual(hulltools.per_mwh(30.001, hours_per_period=0.5).energy, 15001)
        self.assertEqual(hulltools.per_mwh(30, hours_per_period=Fraction(1, 3)).energy, 10000)

    def test_flat_prices_over_periods_have_a_dict(self):
        self.assertEqual(hulltools.per_mwh(30).over(2).in_currency_per_mw(), {"energy": [30, 30], "reserve": [0, 0]})

    def test_flat_prices_have_a_dict_of_one_number_each(self):
        found = hulltools.per_mwh("30.25", 2).in_currency_per_mw()
        self.assertEqual(found, {"energy": Decimal("30.25"), "reserve": 2})

    def test_a_case_out_of_form_is_refused_by_the_program(self):
        with self.assertRaises(hulltools.HullError) as found:
            settled(hulltools.per_mwh(30), ({"time_periods": 0}, USUAL[1]))
        self.assertEqual((found.exception.status, found.exception.code), (3, 34))
        for name, line in (
            ("no.json", "hull settle ended with status 2: "),
            (USUAL[1], "hull settle ended with status 3: "),
        ):
            with self.assertRaises(hulltools.HullError) as found:
                settled(hulltools.per_mwh(30), (name, USUAL[1]))
            self.assertEqual(found.exception.line[: len(line)], line)
            self.assertTrue(found.exception.sentence.startswith(name), found.exception.sentence)

    def test_what_is_no_number_is_told(self):
        for given, told in (
            ("x", "the energy price is x: a number is due"),
            ([30, None], "the energy price of period 2 is None: a number is due"),
            (float("nan"), "the energy price is nan: a number is due"),
            ([10**400], "the energy price of period 1 is 1000"),
        ):
            with self.assertRaisesRegex(hulltools.HullError, told):
                hulltools.per_mwh(given)
        with self.assertRaisesRegex(hulltools.HullError, "not as many reserve prices as energy prices"):
            hulltools.per_mwh([30, 30], [1])

    def test_dicts_are_written_exactly(self):
        class Array:
            def tolist(self):
                return [1, 2.5]

        given = {"energy": (Decimal("98.001"), 7, 0.1), 3: Array(), "é": [None, True, "\ud800"]}
        self.assertEqual(json_text(given), '{"energy": [98.001, 7, 0.1], "3": [1, 2.5], "é": [null, true, "\\ud800"]}')
        self.assertEqual(settled({"energy": [Decimal("98.001")]}).prices.energy, [98001])
        with self.assertRaisesRegex(hulltools.HullError, "the prices given can't be a file: Object of type object"):
            settled({"energy": [object()]})

    def test_arrays_and_series_are_taken(self):
        python = python_with("numpy, pandas")
        if not python:
            self.skipTest("no Python here has NumPy and pandas")
        code = (
            f"import sys; sys.path.insert(0, {ROOT + '/tools'!r}); import hulltools, numpy, pandas\n"
            f"files = {USUAL!r}\n"
            "for it in (numpy.array([98]), pandas.Series([98.0], index=['a']), numpy.float64(98), numpy.array(98)):\n"
            "    given = [hulltools.per_mwh(it)] + [{'energy': it}] * (it.ndim == 1)\n"
            f"    print(*(hulltools.settle(*files, prices, hull={PROGRAM!r}).payments for prices in given))\n"
        )
        ran = subprocess.run([python, "-B", "-c", code], capture_output=True, text=True, timeout=120)
        self.assertEqual((ran.stdout.split(), ran.stderr), (["164000000"] * 6, ""))


class Sentences(unittest.TestCase):
    """A fault of what was given without a file names what it is, and no file that was there for a moment."""

    def sentence(self, call, *given):
        with self.assertRaises(hulltools.HullError) as found:
            call(*given, hull=PROGRAM)
        examples = os.path.dirname(os.path.dirname(USUAL[0]))  # (which may be there, too)
        for place in ("/proc/", "/dev/", tempfile.gettempdir()):
            self.assertNotIn(place, f"{found.exception} {found.exception.sentence}".replace(examples, ""))
        return found.exception.sentence

    def test_the_sentence_names_what_was_given(self):
        with open(USUAL[0], encoding="utf-8") as file:
            case = json.load(file)
        mixture = {"weight": 2, "thermal": {"G1": [{"weight": 1, "on": [0], "power": [0], "reserve": [0]}]}}
        for call, given, due in (
            (hulltools.settle, (*USUAL, {"energy": [98, 99]}), "the prices given: energy: "),
            (hulltools.settle, (*USUAL, hulltools.per_mwh([98, 99])), "the prices given: energy: "),
            (hulltools.check, (USUAL[0], {"thermal": {}}), "the schedule given: "),
            (hulltools.check, ({**case, "demand": [-1]}, USUAL[1]), "the case given: demand, item 1: it is below 0"),
            (hulltools.certify, (*USUAL, {"energy": [98]}, mixture), "the mixture given: "),
        ):
            self.assertEqual(self.sentence(call, *given)[: len(due)], due)
        text = f"{EXAMPLES}/day/price.output"
        self.assertTrue(self.sentence(hulltools.settle, *USUAL, text).startswith(f"the prices in {text}: energy: "))

    def test_no_decimal_comma_is_guessed_of_a_list(self):
        sentence = self.sentence(hulltools.settle, *USUAL, hulltools.per_mwh([98, 99]))
        self.assertTrue(sentence.endswith("Found: [98, 99]; it has 2 items."), sentence)

    def test_a_file_that_was_named_is_named(self):
        name = f"{EXAMPLES}/evening/schedule.json"
        self.assertTrue(self.sentence(hulltools.check, USUAL[0], name).startswith(f"{name}: "))
        files = hulltools.Files({"case": pathlib.Path(USUAL[0]), "schedule": pathlib.Path(name)})
        line = "fault 4 schedule 40 kind thermal unit 2 item 0"
        self.assertTrue(hulltools.sentence(line, files).startswith(f"{name}: "))
        self.assertEqual(hulltools.Files({"prices": Held("x")}, shown={"prices": "these"}).told("prices"), "these")

    def test_readers_name_what_was_given(self):
        from hulltools.inputs import as_case, as_prices, as_schedule, as_zones

        case = hulltools.read_case(USUAL[0])
        for read, given, what in (
            (lambda given: as_case(given), {}, "case"),
            (lambda given: as_schedule(given, case), {}, "schedule"),
            (lambda given: as_prices(given, case), {}, "prices"),
            (lambda given: as_zones(given, case), {}, "zones"),
        ):
            with self.assertRaisesRegex(hulltools.HullError, f"^the {what} given: "):
                read(given)


class Shown(unittest.TestCase):
    def test_an_object_is_shown_in_a_short_line(self):
        day = [f"{EXAMPLES}/day/{name}" for name in ("case.json", "schedule.json", "price.output", "fixed.output")]
        case = hulltools.read_case(day[0])
        found = [case, hulltools.read_schedule(day[1], case), *map(hulltools.read_output, day[2:])]
        convex = hulltools.convex_prices(*USUAL, hull=PROGRAM)
        zonal = hulltools.settle_zones(*USUAL, {"zones": {"all": {"energy": [98]}}, "default": "all"}, hull=PROGRAM)
        for shown in map(repr, [*found, convex, convex.mixture, settled(convex), zonal]):
            self.assertTrue(len(shown) < 160 + len(EXAMPLES) and "\n" not in shown, shown)
        self.assertEqual(repr(case), "<Case: periods=48, thermal=73, renewable=81, bids=0>")
        sums = "payments=164000000, gap=164000000, cost=850000000"
        text = settled(hulltools.per_mwh(98))
        self.assertEqual(repr(text), f"<Settlement 'hull settle': periods=1, units=2, {sums}>")


class Paths(unittest.TestCase):
    def test_a_path_is_taken_wherever_a_name_is(self):
        with tempfile.TemporaryDirectory(prefix="hull-paths-") as room:
            files = [pathlib.Path(room, name) for name in ("case.json", "schedule.json", "prices.json")]
            case = hulltools.read_case(pathlib.Path(USUAL[0]))
            case.write(files[0])
            hulltools.read_schedule(pathlib.Path(USUAL[1]), case).write(files[1])
            hulltools.per_mwh([98]).write(files[2])
            found = hulltools.settle(*files, hull=pathlib.Path(PROGRAM))
            self.assertEqual(found.units, settled(hulltools.per_mwh([98])).units)
            self.assertEqual(sorted(os.listdir(room)), sorted(file.name for file in files))


if __name__ == "__main__":
    sys.exit(unittest.main())
