"""What of the package needs pandas: the data frames of texts; test_frames.py runs these in a Python that has it."""
import copy
import importlib.util
import math
import os
import re
import tempfile
import unittest
import warnings
import zoneinfo
from dataclasses import replace
from datetime import date, datetime
from unittest import mock

import numpy
import pandas

from tool import EXAMPLES, PROGRAM, ROOT

import hulltools
import hulltools.calls
import hulltools.inputs
from hulltools.external_schedules import as_followed

USUAL = f"{EXAMPLES}/usual/case.json", f"{EXAMPLES}/usual/schedule.json"
PRINTED = f"{EXAMPLES}/usual/price.output"


def settled(price, **how):
    return hulltools.settle(*USUAL, hulltools.per_mwh(price), hull=PROGRAM, **how)


class Frames(unittest.TestCase):
    def test_one_text_is_taken_as_a_list_of_one(self):
        text = settled(98)
        due = text.frames(*USUAL)
        for given in (text, [text], (text,), iter([text]), {"hull settle": text}):
            found = hulltools.frames(given, *USUAL)
            self.assertEqual(list(found), list(due))
            self.assertTrue(all(found[name].equals(due[name]) for name in due))
        printed = hulltools.read_output(PRINTED).frames()["units"]
        self.assertTrue(hulltools.frames(PRINTED)["units"].equals(printed))
        self.assertTrue(hulltools.frames([PRINTED])["units"].equals(printed))

    def test_the_schedule_of_an_object_stands_beside(self):
        class Found:
            schedule = hulltools.read_schedule(USUAL[1], hulltools.read_case(USUAL[0]))

        due = settled(98).frames(*USUAL)["responses"]
        self.assertTrue(settled(98).frames(USUAL[0], Found())["responses"].equals(due))
        self.assertTrue(settled(98).frames(None, Found.schedule)["responses"].equals(due))

    def test_texts_without_a_name_are_told_apart(self):
        units = hulltools.frames([settled(97), settled(98), settled(99, name="dear")])["units"]
        paid = units.pivot(index="name", columns="report", values="payment_currency")
        self.assertEqual(list(paid.columns), ["dear", "hull settle", "hull settle 2"])
        self.assertEqual(paid.sum().tolist(), [157.0, 171.0, 164.0])

    def test_texts_are_named_by_a_dict(self):
        texts = {"97": settled(97), 98: settled(98)}
        runs = hulltools.frames(texts)["runs"]
        self.assertEqual(dict(zip(runs["report"], runs["payments_currency"])), {"97": 171.0, "98": 164.0})
        self.assertEqual(texts["97"].name, "hull settle")

    def test_the_unit_of_numbers(self):
        text = settled(98)
        with warnings.catch_warnings():
            warnings.simplefilter("error")
            for call in (hulltools.frames, hulltools.Settlement.frames):
                self.assertEqual(call(text, money="currency")["runs"]["payments_currency"].tolist(), [164.0])
                self.assertEqual(call(text, money="millionths")["runs"]["payments_millionths"].tolist(), [164000000])
                with self.assertRaisesRegex(hulltools.HullError, 'money is EUR: "currency" or "millionths" is due'):
                    call(text, money="EUR")
                with self.assertRaisesRegex(hulltools.HullError, "currency is EUR: True or False is due"):
                    call(text, currency="EUR")

    def test_the_flag_of_before_is_taken_still(self):
        text = settled(98)
        for call in (hulltools.frames, hulltools.Settlement.frames):
            for found, head, named in (
                (lambda: call(text, currency=False), "payments_millionths", "currency=False"),
                (lambda: call(text, None, None, False), "payments_millionths", "money=False"),
                (lambda: call(text, currency=True), "payments_currency", "currency=True"),
            ):
                with self.assertWarnsRegex(DeprecationWarning, f"^{named} is called money=") as warned:
                    self.assertIn(head, found()["runs"])
                self.assertEqual(warned.filename, __file__)


class Columns(unittest.TestCase):
    """What isn't there is missing, and a column of numbers is one all the same."""

    def test_missing_numbers_are_numbers(self):
        frames = settled(98).frames()
        for frame, names in (
            ("runs", ["budget", "proposals", "radius_currency_per_mw", "bound_currency"]),
            ("prices", ["proposal", "demand_mw", "requirement_mw"]),
            ("responses", ["scheduled_on", "scheduled_power_mw"]),
        ):
            for name in names:
                self.assertEqual((str(frames[frame][name].dtype), frames[frame][name].isna().all()), ("float64", True))
        self.assertTrue(frames["runs"]["side"].isna().all())
        both = hulltools.frames([settled(98), f"{EXAMPLES}/two_units/bound.output"], money="millionths")["runs"]
        self.assertEqual(str(both["payments_millionths"].dtype), "Int64")
        self.assertEqual(both["payments_millionths"].dropna().tolist(), [164000000])
        due = [None if math.isnan(it) else it for it in both["payments_millionths"].astype("float64")]
        self.assertEqual(due, [164000000, None])

    def test_shorter_periods_have_prices_per_mwh_beside(self):
        prices = settled(98).frames(hours_per_period=0.5)["prices"]
        self.assertEqual(prices["energy_currency_per_mw"].tolist(), [98.0])
        self.assertEqual(prices["energy_currency_per_mwh"].tolist(), [196.0])
        self.assertNotIn("energy_currency_per_mwh", settled(98).frames()["prices"])

    def test_times_that_are_none(self):
        odd = ("tomorrow", "now", "12:00", "July 2026", "Wed 01/07/2026", "01/07/2026", "1.7.2026 00:00", "29.03.2026")
        zones = "2026-07-01 00:00 UTC+2", "2026-07-01T00:00UTC+02:00", "2026-07-01 00:00 CET", "2026-07-01T00:00+26:00"
        for start in (*odd, *zones, "", 5, "5", float("nan"), "2026", "20:26", "99999-01-01"):
            with warnings.catch_warnings(), self.assertRaisesRegex(
                hulltools.HullError, "^start is .*: a time is due, as 2026-07-01T00:00$"
            ):
                warnings.simplefilter("error")
                settled(98).frames(start=start)
        for hours in (0, -1, "x"):
            with self.assertRaisesRegex(hulltools.HullError, "^hours_per_period is .*: a number above 0"):
                settled(98).frames(hours_per_period=hours)

    def test_times_with_an_offset(self):
        for start in ("2026-07-01T00:00+02:00", "2026-06-30 22:00Z", " 2026-06-30T22:00:00+00:00 "):
            time = settled(98).frames(start=start)["prices"].index[0]
            self.assertEqual(time.tz_convert("UTC").isoformat(), "2026-06-30T22:00:00+00:00")
        for start in ("2026-07-01+02:00", "2026-07-01-05:00"):  # (which Python would take for two and for five o'clock)
            with self.assertRaisesRegex(hulltools.HullError, "a time is due, as 2026-07-01T00:00$"):
                settled(98).frames(start=start)
        with self.assertRaisesRegex(hulltools.HullError, "the periods end behind the last time that pandas has$"):
            hulltools.per_mwh([30] * 9).frame("2262-04-11T23:00")

    def test_times_where_clocks_change(self):
        """On a day of 25 hours a start without an offset would be an hour off behind the change."""
        zone, day = zoneinfo.ZoneInfo("Europe/Berlin"), "2026-10-25T00:00"
        for periods, hours, what in (
            (25, None, "a day of 25 hours, on which clocks go back"),
            (23, 1, "a day of 23 hours, on which clocks go forward"),
            (100, 0.25, "a day of 25 hours in quarter hours, on which clocks go back"),
        ):
            prices = hulltools.per_mwh(30).over(periods)
            offset = "+01:00" if periods == 23 else "+02:00"
            due = f"start is 2026-10-25 00:00:00: {periods} periods are {what}: its offset from UTC is due, as {day}{offset}"
            for start in (day, datetime(2026, 10, 25), numpy.datetime64(day, "ns")):
                with self.assertRaises(hulltools.HullError) as found:
                    prices.frame(start, hours)
                self.assertEqual(found.exception.sentence, due)
            self.assertEqual(len(prices.frame(f"{day}+02:00", hours)), periods)
        times = hulltools.per_mwh(30).over(25).frame(datetime(2026, 10, 25, tzinfo=zone)).index
        self.assertEqual((str(times.tz), times.hour[:5].tolist()), ("Europe/Berlin", [0, 1, 2, 2, 3]))
        self.assertEqual([it.isoformat()[19:] for it in times[1:5]], ["+02:00", "+02:00", "+01:00", "+01:00"])

    def test_a_start_that_clocks_skip_is_refused(self):
        """02:30 isn't there where clocks go from 2 to 3; behind it an index would begin an hour later or earlier."""
        zone, prices = zoneinfo.ZoneInfo("Europe/Berlin"), hulltools.per_mwh(30).over(4)
        with self.assertRaises(hulltools.HullError) as found:
            prices.frame(datetime(2026, 3, 29, 2, 30, tzinfo=zone))
        self.assertEqual(found.exception.sentence, "start is 2026-03-29 02:30:00+01:00: clocks skip this time")
        for hour in (1, 3):
            self.assertEqual(prices.frame(datetime(2026, 3, 29, hour, 30, tzinfo=zone)).index[0].hour, hour)
        for fold in (0, 1):  # (where summer ends both are there)
            begins = prices.frame(datetime(2026, 10, 25, 2, 30, tzinfo=zone, fold=fold)).index[0]
            self.assertEqual((begins.hour, begins.utcoffset().seconds), (2, 7200 - 3600 * fold))

    def test_periods_that_may_be_quarter_hours_have_a_length(self):
        prices = hulltools.per_mwh(30).over(96)
        with self.assertRaises(hulltools.HullError) as found:
            prices.frame("2026-07-01T00:00")
        due = "start needs hours_per_period here: 96 periods may be a day of quarter hours"
        self.assertEqual(found.exception.sentence, due)
        for hours, last in ((1, "2026-07-04 23:00:00"), (0.25, "2026-07-01 23:45:00")):
            self.assertEqual(str(prices.frame("2026-07-01T00:00", hours).index[-1]), last)
        self.assertEqual(len(prices.frame()), 96)

    def test_prices_of_one_number_have_a_frame_of_given_periods(self):
        frame = hulltools.per_mwh(30, 2).frame(periods=3)
        self.assertTrue(frame.equals(hulltools.per_mwh([30] * 3, 2).frame()))

    def test_prices_have_a_frame(self):
        frame = hulltools.per_mwh([30, 40.5], 2).frame("2026-07-01T00:00", 0.5)
        self.assertEqual(frame["energy_currency_per_mw"].mean(), 35.25)
        self.assertEqual(frame["reserve_currency_per_mwh"].tolist(), [4.0, 4.0])
        self.assertEqual([str(time) for time in frame.index], ["2026-07-01 00:00:00", "2026-07-01 00:30:00"])


class Set(unittest.TestCase):
    """What a script sets to a series is taken by the places of its items, whatever its index is, but for times that go back."""

    def setUp(self):
        self.case = hulltools.read_case(f"{EXAMPLES}/evening/case.json")
        self.schedule = hulltools.read_schedule(f"{EXAMPLES}/evening/schedule.json", self.case)

    def series(self, numbers):
        return pandas.Series(numbers, index=range(1, len(numbers) + 1), dtype=float)

    def test_members_of_a_case_and_of_plans(self):
        case, schedule = copy.deepcopy(self.case), copy.deepcopy(self.schedule)
        case.demand, case.reserves = self.series(case.demand), self.series(case.reserves)
        for unit in case.renewable:
            unit.least, unit.most = self.series(unit.least), self.series(unit.most)
        for plan in schedule.plans.values():
            plan.on, plan.power, plan.reserve = map(self.series, (plan.on, plan.power, plan.reserve))
        self.assertEqual(hulltools.inputs.as_case(case), self.case)
        self.assertEqual(hulltools.inputs.as_schedule(schedule, case), self.schedule)
        self.assertIs(hulltools.inputs.as_case(self.case), self.case)
        self.assertIs(hulltools.inputs.as_schedule(self.schedule, case), self.schedule)
        due = hulltools.settle(self.case, self.schedule, hulltools.per_mwh(30), hull=PROGRAM)
        found = hulltools.settle(case, schedule, hulltools.per_mwh(30), hull=PROGRAM)
        self.assertEqual(found, due)
        frames = found.frames(case, schedule), due.frames(self.case, self.schedule)
        self.assertTrue(all(frames[0][name].equals(frames[1][name]) for name in frames[1]))

    def test_times_that_go_back_are_refused(self):
        """Numbers are taken by their places: of a series with the last hour first, each would stand at another period."""
        hours = pandas.date_range("2026-07-01", periods=6, freq="h", tz="Europe/Berlin")
        for times in (hours, hours.tz_localize(None), hours.tz_localize(None).to_period("h"), hours.astype(str)):
            series = pandas.Series(range(6), index=times)
            self.assertEqual(hulltools.per_mwh(series).energy, [it * 1000 for it in range(6)])
            case, schedule, back = copy.deepcopy(self.case), copy.deepcopy(self.schedule), series[::-1]
            case.demand = schedule.plan("thermal", "G1").power = back
            for call, name in (
                (lambda back=back: hulltools.per_mwh(back), "the energy prices"),
                (lambda back=back: hulltools.inputs.as_prices({"energy": back}, self.case), "energy"),
                (lambda case=case: hulltools.inputs.as_case(case), "the case given: demand"),
                (lambda it=schedule: hulltools.inputs.as_schedule(it, self.case), 'thermal "G1": power'),
            ):
                with self.assertRaisesRegex(
                    hulltools.HullError, f"{name}: its times go back from 2026-.* the order of time is due$"
                ):
                    call()
        zoned = [("N", it) for it in hours[::-1]]
        gap = [*hours[3:0:-1], pandas.NaT]
        days, clock = [date(2026, 7, 2), date(2026, 7, 1)], ["02:00", "01:00", "00:00"]
        joined, texts = pandas.MultiIndex.from_tuples(zoned), ["2026-07-01T01:00Z", "2026-07-01T00:00Z"]
        for times in (pandas.to_timedelta([2, 1, 0], "h"), texts, joined, gap, days, clock):
            with self.assertRaisesRegex(hulltools.HullError, "the energy prices: its times go back from "):
                hulltools.per_mwh(pandas.Series(range(len(times)), index=times))

    def test_half_hours_that_stand_the_wrong_way_round_are_refused(self):
        """Where summer ends local times go back by half an hour too, and the steps around it are half hours."""
        for clocks in (("00:00", "01:00", "00:30", "01:30"), ("00:30", "00:00", "01:00"), ("01:00", "01:30", "01:15")):
            series = pandas.Series(range(len(clocks)), index=[f"2026-10-25T{it}" for it in clocks])
            with self.assertRaisesRegex(hulltools.HullError, "the energy prices: its times go back from "):
                hulltools.per_mwh(series)

    def test_prices_of_two_days_are_refused(self):
        """They would be paired by their places."""
        hours = pandas.date_range("2026-07-01", periods=6, freq="h")
        energy, reserve = pandas.Series(range(6), index=hours), pandas.Series(range(6), index=hours)
        self.assertEqual(hulltools.per_mwh(energy, reserve).reserve, [it * 1000 for it in range(6)])
        reserve.index = [*hours[:2], *(hours[2:] + pandas.Timedelta(days=1))]
        prices = hulltools.per_mwh(list(range(6)))
        prices.energy, prices.reserve = energy, reserve
        times = "period 3 is 2026-07-01 02:00:00 and 2026-07-02 02:00:00"
        due = f"the energy prices and the reserve prices are of different times: {times}"
        for call in (
            lambda: hulltools.per_mwh(energy, reserve),
            lambda: hulltools.inputs.as_prices({"energy": energy, "reserve": reserve}, self.case),
            lambda: hulltools.inputs.as_prices(prices, self.case),
            lambda: hulltools.settle(self.case, self.schedule, {"energy": energy, "reserve": reserve}, hull=PROGRAM),
            lambda: hulltools.certify(
                self.case, self.schedule, {"energy": energy, "reserve": reserve}, {"units": {}}, hull=PROGRAM
            ),
            lambda: hulltools.prices_near(energy, reserve),
        ):
            with self.assertRaises(hulltools.HullError) as found:
                call()
            self.assertTrue(found.exception.sentence.endswith(due), found.exception.sentence)
        reserve.index = hours.tz_localize("Europe/Berlin")
        for zone, shift in ((None, 0), ("UTC", 0), ("UTC", 1)):
            with_no_zone = reserve.index.tz_convert(zone).tz_localize(None) if zone else hours
            energy.index = with_no_zone + pandas.Timedelta(hours=shift)
            if not shift:
                self.assertEqual(len(hulltools.per_mwh(energy, reserve).energy), 6)
        self.assertRaisesRegex(hulltools.HullError, "are of different times", hulltools.per_mwh, energy, reserve)
        energy.index, reserve.index = hours, [*hours[:2], *(hours[2:] + pandas.Timedelta(days=1))]
        zones = {"zones": {"A": {"energy": energy, "reserve": reserve}}, "default": "A"}
        with self.assertRaisesRegex(
            hulltools.HullError, f"energy prices of zone A and the reserve prices are .*{times}"
        ):
            hulltools.settle_zones(self.case, self.schedule, zones, hull=PROGRAM)

    def test_series_whose_order_is_sure_are_taken(self):
        """Whole numbers come of sorted and of joined frames; a clock without an offset goes back once, in autumn."""
        quarters = pandas.date_range("2026-10-25T00:15", periods=6, freq="15min", tz="UTC").tz_convert("Europe/Berlin")
        quarters = quarters.tz_localize(None)
        night = ["21:00", "22:00", "23:00", "00:00", "01:00", "02:00"]
        for index in ([2, 1, 0, 5, 4, 3], [0, 1, 2] * 2, list("fedcba"), quarters, quarters.astype(str), night):
            found = hulltools.per_mwh(pandas.Series(range(6), index=index))
            self.assertEqual(found.energy, [it * 1000 for it in range(6)])

    def numbers(self, value):
        """The same numbers as NumPy has them, in lists and pairs."""
        if isinstance(value, list):
            return [self.numbers(it) for it in value]
        return (
            tuple(map(numpy.int64, value))
            if isinstance(value, tuple)
            else value
            if value is None
            else numpy.int64(value)
        )

    def test_numbers_of_numpy_and_whole_floats_are_taken_as_plain_ones(self):
        case, schedule = copy.deepcopy(self.case), copy.deepcopy(self.schedule)
        case.demand, case.reserves = self.numbers(case.demand), [float(it) for it in case.reserves]
        for unit in case.thermal:
            unit.lags, unit.marks, unit.must_run = map(self.numbers, (unit.lags, unit.marks, unit.must_run))
            unit.points, unit.least = numpy.array(unit.points, dtype=float), float(unit.least)
        for bid in case.bids:
            bid.blocks = self.numbers(bid.blocks)
        for plan in schedule.plans.values():
            plan.on, plan.power = numpy.array(plan.on) > 0, self.numbers(plan.power)
        self.assertEqual((hulltools.inputs.as_case(case), case), (self.case, self.case))
        self.assertEqual(hulltools.inputs.as_schedule(schedule, case), self.schedule)
        self.assertEqual(case.text(), self.case.text())
        prices = hulltools.Prices(numpy.array([30_000] * 6), [numpy.int64(500)] * 6)
        flat = hulltools.per_mwh(30, 0.5)
        self.assertTrue(prices.frame().equals(flat.frame(periods=6)))
        self.assertEqual(prices, flat.over(6))
        given, plain = (case, schedule), (self.case, self.schedule)
        settled = hulltools.settle(*given, prices, hull=PROGRAM), hulltools.settle(*plain, flat, hull=PROGRAM)
        self.assertEqual(*settled)
        frames = settled[0].frames(*given), settled[1].frames(*plain)
        self.assertTrue(all(frames[0][name].equals(frames[1][name]) for name in frames[1]))
        tables = settled[0].tables(*given), settled[1].tables(*plain)
        self.assertEqual(*({name: it.rows for name, it in table.items()} for table in tables))
        one = {"zones": {"all": prices}, "default": "all"}
        zonal = [hulltools.settle_zones(*both, one, hull=PROGRAM) for both in (given, plain)]
        self.assertTrue(zonal[0].frame().equals(zonal[1].frame()))

    def test_plans_of_a_mixture_may_be_arrays(self):
        found = hulltools.convex_prices(self.case, self.schedule, hull=PROGRAM)
        due = hulltools.certify(self.case, self.schedule, found, found, hull=PROGRAM)
        changed = copy.deepcopy(found.mixture)
        for entry in (entry for entries in changed.thermal.values() for entry in entries):
            entry.weight, entry.plan.on = numpy.int64(entry.weight), pandas.Series(entry.plan.on)
            entry.plan.power = numpy.array(entry.plan.power)
        self.assertEqual(hulltools.certify(self.case, self.schedule, found, changed, hull=PROGRAM), due)
        self.assertEqual((changed.text(), changed), (found.mixture.text(), found.mixture))

    def test_a_missing_number_of_pandas_is_told_as_nan_is(self):
        """NA of a column of whole numbers, with its unit and its period."""
        missing = pandas.Series([65, pandas.NA], dtype="Int64")
        for given, where, unit in (
            ({"demand": missing}, "demand", None),
            (
                {"renewable_generators": {"W1": {"power_output_maximum": missing}}},
                "renewable_generators, W1, power_output_maximum",
                "W1",
            ),
        ):
            with self.assertRaises(hulltools.HullError) as found:
                hulltools.check(given, {}, hull=PROGRAM)
            due = f"the case given: {where}, item 2 is <NA>: a number is due"
            self.assertEqual((found.exception.sentence, found.exception.unit, found.exception.period), (due, unit, 2))

    def test_what_is_refused_of_powers_has_its_unit_and_its_period(self):
        frame = self.schedule.frame()
        for given, due, period in (
            (frame.assign(power="1,5"), "`power` is 1,5$", 1),
            (frame.assign(period=pandas.Timestamp("2026-07-01")), "`period` is 2026-07-01 00:00:00$", None),
            (frame.assign(period=frame["period"] - 1), "period 0 isn't one of 1 to 6$", None),
            ({"thermal": {"G1": {"power": [1, None] * 3}}}, "G1, power: a number of at most 1,000,000 is due$", 2),
            ({"thermal": {"G1": {"reserve": [0] * 6}}}, 'it has no on flags of thermal unit "G1"$', None),
        ):
            with self.assertRaisesRegex(hulltools.HullError, f"^the powers given.*{due}") as found:
                as_followed(given, self.case)
            self.assertEqual((found.exception.unit, found.exception.period), ("G1", period))

    def test_a_column_that_a_merge_has_renamed_is_not_skipped(self):
        """Without its flags a unit would be off where its power is 0."""
        frame = self.schedule.frame()
        for name in ("on_x", "on_y", "power_x", "reserve_y"):
            changed = frame.rename(columns={name[:-2]: name})
            due = f"^the powers given: `{name}` is no column of it: is `{name[:-2]}` meant\\?$"
            with self.assertRaisesRegex(hulltools.HullError, due):
                as_followed(changed, self.case)
        both = frame.merge(frame[["unit", "period", "on"]], on=["unit", "period"], suffixes=("", "_y"))
        merged, name = as_followed(both, self.case)
        self.assertEqual(merged.skipped, ["on_y"])
        self.assertEqual((replace(merged, skipped=[]), name), as_followed(frame, self.case))

    def test_options_of_a_study_may_be_arrays_and_flags_of_numpy(self):
        options = {"skip": numpy.array(["elmp", "lmp"]), "fast_start": pandas.Index(["G1"])}
        flags = {"search": numpy.bool_(True), "no_schedule": numpy.bool_(False)}
        found = hulltools.calls.words_of({**options, **flags})
        self.assertEqual(found, ["--skip=elmp,lmp", "--fast-start=G1", "--search"])

    def test_cases_and_prices_with_other_numbers_are_not_equal(self):
        case = copy.deepcopy(self.case)
        case.demand = numpy.array(case.demand)
        self.assertEqual(case, self.case)
        for other in (numpy.array(case.demand) + 1, case.demand[:-1], None, 5):
            case.demand = other
            self.assertNotEqual(case, self.case)

    def test_a_thermal_unit_without_powers_is_no_part_of_a_frame(self):
        powers = self.schedule.frame()
        powers.loc[powers["unit"] == "G1", "power"] = numpy.nan
        with self.assertRaisesRegex(hulltools.HullError, 'it has no power of thermal unit "G1"$') as found:
            as_followed(powers, self.case)
        self.assertEqual(found.exception.unit, "G1")


class Page(unittest.TestCase):
    def test_several_price_lists_run_as_the_page_has_them(self):
        """The first program of docs/PYTHON.md; its picture is drawn where matplotlib is."""
        with open(f"{ROOT}/docs/PYTHON.md", encoding="utf-8") as page:
            program, by_kind = re.findall(r"```python\n(.*?)```", page.read(), re.S)[:2]
        if importlib.util.find_spec("matplotlib") is None:
            program = "".join(line for line in program.splitlines(True) if ".plot." not in line)
        known = {"hulltools": hulltools, "files": USUAL}
        here = os.getcwd()
        with tempfile.TemporaryDirectory() as room, mock.patch.dict(os.environ, HULL=PROGRAM, MPLBACKEND="agg"):
            os.chdir(room)
            try:
                exec(program, known)
            finally:
                os.chdir(here)
        self.assertEqual(list(known["payments"].columns), ["97", "98", "99", "hull"])
        self.assertEqual(list(known["payments"]["97"].items()), [("G1", 74.0), ("W1", 97.0)])
        exec(by_kind, known)
        self.assertEqual(list(known["payments"].columns), ["97", "98", "99", "hull"])
        due = [(("thermal", "G1"), 74.0), (("renewable", "W1"), 97.0)]
        self.assertEqual(list(known["payments"]["97"].items()), due)

    def program(self, part):
        """The first program of docs/PYTHON.md that has a part."""
        with open(f"{ROOT}/docs/PYTHON.md", encoding="utf-8") as page:
            return next(it for it in re.findall(r"```python\n(.*?)```", page.read(), re.S) if part in it)

    def test_the_result_of_a_report_as_the_page_has_it(self):
        report = hulltools.read_output(f"{EXAMPLES}/usual/price.output", hulltools.Report)
        known = {"report": report}
        exec(self.program("report.frames()"), known)
        self.assertEqual((len(known["prices"]), len(known["result"])), (len(report.proposals), 1))
        first = self.program("report.frames()").rpartition("result = ")[0]
        exec(first, known)
        self.assertEqual(known["result"]["energy_currency_per_mw"].tolist(), [98.0])

    def test_revenue_and_cost_of_units_as_the_page_has_them(self):
        """G1 sells 8 MW at 98.00 for 784.00; they cost 800.00, and the start 50.00."""
        *lines, last = self.program("zonal = ").splitlines()
        known = {"hulltools": hulltools, "files": USUAL}
        with mock.patch.dict(os.environ, HULL=PROGRAM):
            exec("\n".join(lines), known)
        found = eval(last, known).set_index("unit").loc["G1"]
        self.assertEqual(found.tolist(), [784.0, 800.0, 50.0, -66.0])

    def test_price_lists_beside_each_other_as_the_page_has_them(self):
        own, found = hulltools.per_mwh([98]), hulltools.convex_prices(*USUAL, hull=PROGRAM)
        with open(f"{ROOT}/docs/PYTHON.md", encoding="utf-8") as page:
            merged = re.search(r"`(found\.prices\.frame\(\)\.merge\(.*?)` has", page.read())[1]
        frame = eval(merged, {"own": own, "found": found})
        ends = ("", "_own")
        due = ["period", *(f"{what}_currency_per_mw{end}" for end in ends for what in ("energy", "reserve"))]
        self.assertEqual(list(frame.columns), due)

    def test_a_schedule_has_a_frame_in_megawatts(self):
        frame = hulltools.read_schedule(USUAL[1], USUAL[0]).frame()
        self.assertEqual(list(frame.columns), ["unit", "period", "on", "power", "reserve"])
        self.assertEqual(frame.values.tolist(), [["G1", 1, 1, 8.0, 2.0], ["W1", 1, 1, 2.0, 0.0]])


if __name__ == "__main__":
    unittest.main()
