"""What a study works out of a settlement, by the numbers that examples/dear_schedule works by hand; none of it needs SciPy."""
import argparse
import csv
import json
import os
import re
import tempfile
import unittest
from dataclasses import replace
from datetime import datetime
from decimal import Decimal
from fractions import Fraction
from types import SimpleNamespace
from unittest import mock

from tool import EXAMPLES, PROGRAM, run

import hulltools
from hulltools.cases import Renewable
from hulltools.cash_flows import total, unit_flows, uplift_by_period
from hulltools.clock import Clock
from hulltools.commands.words import add_fast_start, fast_start
from hulltools.comparing import differences, statement_of
from hulltools.day_lengths import changed_day, clock_change
from hulltools.costs import Costs
from hulltools.fast_start import names_told
from hulltools.gap_parts import gap_parts
from hulltools.price_lists import LMP
from hulltools.settlement_rules import bill, forced_losses, paid_by_kind, reason_of_loss
from hulltools.studies import Paid
from hulltools.study_page import forced_part, unit_lists
from hulltools.sweeping import without_unit
from hulltools.outputs import Owed
from hulltools.tables import Table
from hulltools.zones import zones_of

FOLDER = f"{EXAMPLES}/dear_schedule"
MILLION = 10**6


def money_of(*amounts):
    return tuple(amount * MILLION for amount in amounts)


class Parts(unittest.TestCase):
    def of(self, *numbers):
        found = gap_parts(*numbers)
        return found.schedule, found.duality, found.prices

    def test_parts_worked_by_hand(self):
        self.assertEqual(self.of(3550, 2350, 2900, 3150), (400, 250, 550))
        self.assertEqual(gap_parts(3550, 2350, 2900, 3150).without_schedule, 800)

    def test_the_best_schedule_is_the_cheaper_of_the_two(self):
        self.assertEqual(self.of(3150, 2900, 2900, 3550), (0, 250, 0))

    def test_the_cost_of_the_best_schedule_is_a_bound_too(self):
        self.assertEqual(self.of(100, 90, 99, 95), (5, 0, 5))

    def test_a_value_above_its_bound_is_refused(self):
        with self.assertRaisesRegex(hulltools.HullError, "^the dual value 2,900.00 is above its bound 2,899.00: they"):
            self.of(*money_of(3550, 2900, 2899, 3150))

    def test_without_a_second_schedule_two_parts_are_one(self):
        found = gap_parts(*money_of(3550, 2350, 2900), None)
        self.assertEqual((found.schedule, found.duality, found.prices, found.gap), (None, *money_of(650, 550, 1200)))
        self.assertIn(
            "no whole prices within the limits of prices save 650.00, the schedule's part and the duality gap together",
            found.sentence("Here"),
        )

    def test_where_the_bound_is_not_near_the_duality_gap_is_at_least_that(self):
        far = gap_parts(*money_of(3550, 2350, 2900, 3150)).sentence("Here", False)
        self.assertIn("at least 250.00 is the duality gap", far)
        far = gap_parts(*money_of(3550, 2350, 2900), None).sentence("Here", False)
        self.assertIn(
            "no whole prices within the limits of prices save 650.00, a part of the schedule's part and the duality gap together",
            far,
        )

    def test_the_sentence_has_all_three(self):
        due = "At LMP the gap is 1,200.00: 400.00 is the schedule's part, 250.00 is the duality gap, which no whole prices within the limits of prices save, and at most 550.00 is the prices' part."
        self.assertEqual(gap_parts(*money_of(3550, 2350, 2900, 3150)).sentence("At LMP"), due)


class Clocks(unittest.TestCase):
    def test_a_quarter_of_an_hour(self):
        """7.50 per MW and quarter of an hour are 30.00 per MWh."""
        clock = Clock(Fraction("0.25"), datetime(2026, 7, 1, 23, 30))
        self.assertEqual((clock.price_text(7500), clock.price_number(7500)), ("30.000", Decimal(30)))
        # (a mean is of all digits: rounded before, it would be 30.000 or 30.004)
        self.assertEqual(clock.price_number(Fraction(15_001, 2)), Decimal("30.002"))
        self.assertEqual(clock.times(3), ["2026-07-01T23:30", "2026-07-01T23:45", "2026-07-02T00:00"])
        self.assertEqual(clock.labels(3), ["23:30", "23:45", "00:00"])
        clock = Clock(Fraction(1, 120), datetime.fromisoformat("2026-07-01T23:59:30+02:00"))
        self.assertEqual(clock.times(2), ["2026-07-01T23:59:30+02:00", "2026-07-02T00:00:00+02:00"])
        self.assertEqual(clock.labels(2), ["23:59:30", "00:00:00"])
        self.assertEqual(Clock(Fraction(1, 7), datetime(2026, 7, 1)).times(2)[1], "2026-07-01T00:08:34.285")

    def test_where_clocks_change_no_hour_is_guessed(self):
        day = datetime(2026, 10, 25)
        for hours, periods in ((1, 25), (None, 23), (Fraction(1, 4), 100), (1, 73), (Fraction(1, 2), 94), (1, 167)):
            clock = Clock(hours and Fraction(hours), day)
            self.assertEqual((set(clock.times(periods)), clock.labels(periods)[-1]), ({""}, str(periods)))
            self.assertEqual(clock.axis(periods), "period")
            offset = "+01:00" if periods in (23, 94, 167) else "+02:00"
            self.assertIn(f"A start with its offset from UTC, as 2026-10-25T00:00{offset}", clock.why_unknown(periods))
        for hours, periods in ((Fraction(1, 4), 25), (None, 24)):
            self.assertEqual(Clock(hours, day).why_unknown(periods), "")
        known = Clock(Fraction(1), datetime.fromisoformat("2026-10-25T00:00+02:00"))
        self.assertEqual((known.why_unknown(25), known.times(25)[-1]), ("", "2026-10-26T00:00+02:00"))
        self.assertEqual(known.axis(25), "beginning of the period, UTC+02:00")

    def test_a_start_needs_the_length_of_what_may_be_no_hours(self):
        day = datetime(2026, 7, 1)
        for periods, what in ((96, "a day of quarter hours"), (46, "a day of 23 hours in half hours, on which clocks")):
            due = f"^--start needs --hours-per-period here: {periods} periods may be {what}"
            with self.assertRaisesRegex(hulltools.HullError, due):
                Clock(None, day).need_length(periods)
            Clock(Fraction(1), day).need_length(periods)
            Clock().need_length(periods)
        Clock(None, day).need_length(48)

    def test_each_number_of_periods_is_of_one_stretch_of_days(self):
        """Against a list of all days: 1 to 7 of them, in hours and their halves and quarters, an hour longer or shorter."""
        due = {
            (24 * days + hour) * parts: (days, parts, hour > 0)
            for days in range(1, 8)
            for parts in (1, 2, 4)
            for hour in (1, -1)
        }
        self.assertEqual(len(due), 7 * 3 * 2)
        for periods in range(1, 170):
            found = clock_change(periods)
            self.assertEqual(found and (found.days, found.parts, found.is_longer), due.get(periods))
        told = {
            25: "a day of 25 hours, on which clocks go back",
            92: "a day of 23 hours in quarter hours, on which clocks go forward",
            98: "two days of half hours, on one of which clocks go back",
            71: "three days of hours, on one of which clocks go forward",
            167: "a week of hours, in which clocks go forward",
        }
        for periods, text in told.items():
            self.assertEqual(changed_day(periods), text)

    def test_nothing_is_known(self):
        clock = Clock()
        self.assertEqual((clock.price_text(7500), clock.price_unit), ("7.500", "per MW and period"))
        self.assertEqual((clock.times(2), clock.labels(2)), (["", ""], ["1", "2"]))


class Heads(unittest.TestCase):
    def test_a_currency_is_any_text(self):
        for currency in ("a:b", "x:money", ":", "a:kw"):
            table = Table([f"price_{currency}_per_mwh", "cost:money"], True, currency)
            table.add(5, 7_000_000)
            self.assertEqual(table.heads, [f"price_{currency}_per_mwh", f"cost_{currency}"])
            self.assertEqual(table.rows, [[5, Decimal(7)]])
        self.assertIn("price_;'=1+1_per_mw", Table(["price_;=1+1_per_mw"], True).text())


class FastUnits(unittest.TestCase):
    def test_an_empty_text_names_no_unit(self):
        for words, names in (
            (["--fast-start", ""], ()),
            (["--fast-start", "A,B"], ("A", "B")),
            (["--fast-start", 'A,"B, old","""C"""'], ("A", "B, old", '"C"')),
            (["--fast-start", "A", "--fast-start=B,C"], ("A", "B", "C")),
            ([], None),
        ):
            ask = argparse.ArgumentParser()
            add_fast_start(ask)
            self.assertEqual(fast_start(ask.parse_args(words)).names, names)
        self.assertEqual(fast_start(ask.parse_args(["--fast-start-up", "3"])).most_up, 3)
        with self.assertRaisesRegex(hulltools.HullError, "^--fast-start is given, and --fast-start-up"):
            fast_start(ask.parse_args(["--fast-start", "A", "--fast-start-up", "3"]))

    def test_fast_start_units_are_told_as_they_are_named(self):
        """A name with a comma isn't taken for two."""
        first = hulltools.read_case(f"{FOLDER}/case.json").thermal[0]
        units = [replace(first, name=it) for it in ("A", "B, old", '"C"')]
        self.assertEqual(names_told(units), 'A, "B, old", """C"""')


class Money(unittest.TestCase):
    def setUp(self):
        self.case = hulltools.read_case(f"{FOLDER}/case.json")
        self.schedule = hulltools.read_schedule(f"{FOLDER}/schedule.json", self.case)
        self.settled = hulltools.read_output(f"{FOLDER}/settle.output")
        self.flows = unit_flows(self.case, self.schedule, self.settled, Costs())

    def test_revenue_and_cost_by_unit(self):
        rows = {}
        for unit in self.flows:
            flow = total(unit.scheduled)
            rows[unit.owed.name] = (flow.energy, flow.reserve, flow.production, flow.start, flow.profit)
        self.assertEqual(rows["COAL"], money_of(3000, 0, 2000, 0, 1000))
        self.assertEqual(rows["PEAKER"], money_of(450, 0, 750, 200, -500))
        self.assertEqual(rows["NUCLEAR"], money_of(300, 0, 600, 0, -300))
        self.assertEqual(total(self.flows[-1].response).energy, -300 * MILLION)
        self.assertEqual(total(self.flows[-1].response).production, -450 * MILLION)

    def test_uplift_by_period_sums_to_the_gap(self):
        self.assertEqual(uplift_by_period(self.case, self.schedule, self.settled, self.flows), [650 * MILLION])

    def test_a_settlement_of_another_schedule_is_refused(self):
        best = hulltools.read_schedule(f"{FOLDER}/best.schedule.json", self.case)
        with self.assertRaisesRegex(hulltools.HullError, 'unit "COAL" earns something else'):
            unit_flows(self.case, best, self.settled, Costs())

    def test_payments_by_kind_under_each_rule(self):
        due = {"thermal": 500 * MILLION, "renewable": 0, "bid": 0}
        self.assertEqual(paid_by_kind(self.settled.units, "make-whole"), due)
        self.assertEqual(paid_by_kind(self.settled.units, "full"), {**due, "bid": 150 * MILLION})

    def test_what_consumers_pay(self):
        for rule, payments in (("make-whole", 500), ("full", 650)):
            found = bill(self.case, self.settled, self.flows, rule)
            self.assertEqual((found.energy, found.reserve, found.uplift), money_of(3750, 0, payments))
            self.assertEqual((found.total, found.left), money_of(3750 + payments, 0))

    def test_a_forced_loss_stands_by_itself(self):
        (found,) = forced_losses(self.case, self.settled.units)
        self.assertEqual(
            (found.name, found.reason, found.forced, found.made_whole), ("NUCLEAR", "must_run", *money_of(300, 0))
        )


class ForcedLosses(unittest.TestCase):
    def test_units_of_one_name_have_a_row_each(self):
        """A thermal unit that must run and a renewable unit that must give, at a price below 0."""
        case = hulltools.read_case(f"{FOLDER}/case.json")
        case.renewable, case.bids = [Renewable("NUCLEAR", [1000], [1000])], []
        losses = {("thermal", "NUCLEAR"): -300 * MILLION, ("renewable", "NUCLEAR"): -20 * MILLION}
        units = [
            Owed(kind, unit.name, *[losses.get((kind, unit.name), 0)] * 2, 0, [1], [1000], [0])
            for kind, unit in case.units
        ]
        study = SimpleNamespace(case=case, paid=lambda: [Paid(LMP, units, [])])
        page = re.sub("<[^>]*>", "|", forced_part(study))
        self.assertRegex(page, r"NUCLEAR\|+thermal\|+must_run\|+300\.00\|")
        self.assertRegex(page, r"NUCLEAR\|+renewable\|+least power\|+20\.00\|")

    def test_the_state_before_period_1_is_told_beside_a_commitment(self):
        unit = hulltools.read_case(f"{FOLDER}/case.json").unit("thermal", "NUCLEAR")
        unit.stop_limit, unit.power0, state = unit.most, unit.least, "state before period 1"
        for must_run, on, up, mark, due in (
            (1, 1, 0, None, "must_run"),
            (1, 1, 0, 1, "must_run and commitment"),
            (0, 1, 5, 1, "commitment"),
            (0, 0, 0, 1, "commitment"),
            (0, 1, 4, 1, f"commitment and {state}"),
            (0, 1, 4, 0, state),
        ):
            unit.must_run, unit.on0, unit.up0, unit.marks, unit.min_up = must_run, on, up, [mark], 5
            self.assertEqual(reason_of_loss(unit), due)
        unit.up0, unit.marks, unit.power0, unit.stop_limit = 9, [1], unit.most, unit.most - 1
        self.assertEqual(reason_of_loss(unit), f"commitment and {state}")
        for above, due in ((1, f"commitment and {state}"), (0, "commitment")):
            unit.most, unit.stop_limit, unit.ramp_down, unit.power0 = 90_000, 90_000, 50, unit.least + 50 + above
            self.assertEqual(reason_of_loss(unit), due)


class UnitLists(unittest.TestCase):
    def test_a_page_with_room_for_few_units_holds_those_of_the_largest_payments(self):
        """PEAKER, the third, is owed 500.00, and STEEL, the fifth, 150.00; a thermal unit takes four numbers, and a buyer two."""
        case = hulltools.read_case(f"{FOLDER}/case.json")
        schedule = hulltools.read_schedule(f"{FOLDER}/schedule.json", case)
        units = hulltools.read_output(f"{FOLDER}/settle.output").units
        study = SimpleNamespace(case=case, schedule=schedule, paid=lambda: [Paid(LMP, units, [])])
        for room, due in ((4, [2]), (6, [2, 4]), (100, [0, 1, 2, 3, 4])):
            with mock.patch("hulltools.study_page.MOST_NUMBERS", room):
                self.assertEqual(sorted(unit_lists(study)), due)


class Reserve(unittest.TestCase):
    def test_consumers_pay_for_surplus_reserve_as_uplift(self):
        """At the prices of examples/posted, which has reserve prices, the money that comes in goes out."""
        case = hulltools.read_case(f"{EXAMPLES}/evening/case.json")
        schedule = hulltools.read_schedule(f"{EXAMPLES}/evening/schedule.json", case)
        settled = hulltools.read_output(f"{EXAMPLES}/posted/settle.output")
        flows = unit_flows(case, schedule, settled, Costs())
        for rule in ("make-whole", "full"):
            self.assertEqual(bill(case, settled, flows, rule).left, 0)
        self.assertEqual(sum(uplift_by_period(case, schedule, settled, flows)), settled.gap)


class SettleZones(unittest.TestCase):
    """Examples/dear_schedule with COAL and NUCLEAR at 50.00 and the others at 30.00: the rows of the README's table."""

    ZONES = {
        "zones": {"NORTH, up": {"energy": [50]}, "SOUTH": {"energy": [30], "reserve": [0]}},
        "units": {"COAL": "NORTH, up", "NUCLEAR": "NORTH, up"},
        "default": "SOUTH",
    }

    def setUp(self):
        folder = tempfile.TemporaryDirectory(prefix="hull-zones-")
        self.addCleanup(folder.cleanup)
        self.room = folder.name

    def settle(self, zones, *words):
        with open(f"{self.room}/zones.json", "w", encoding="utf-8") as file:
            json.dump(zones, file)
        names = [f"{FOLDER}/case.json", f"{FOLDER}/schedule.json", f"{self.room}/zones.json"]
        return run("settle_zones.py", *names, "--hull", PROGRAM, *words)

    def test_each_unit_has_the_line_of_its_zone(self):
        status, text, said = self.settle(self.ZONES, "--currency", "EUR")
        self.assertEqual((status, said), (0, ""))
        rows = {row["unit"]: row for row in csv.DictReader(text.splitlines())}
        told = {name: (row["profit_eur"], row["payment_eur"], row["make_whole_eur"]) for name, row in rows.items()}
        due = {"COAL": ("3000", "0", "0"), "BLOCK": ("0", "0", "0"), "PEAKER": ("-500", "500", "500")}
        self.assertEqual(told, {**due, "NUCLEAR": ("-100", "0", "0"), "STEEL": ("0", "150", "0")})
        self.assertEqual((rows["COAL"]["zone"], rows["NUCLEAR"]["forced_loss_eur"]), ("NORTH, up", "100"))

    def test_files_are_written(self):
        self.assertEqual(self.settle(self.ZONES, "--to", f"{self.room}/to"), (0, "", ""))
        names = ["1.NORTH__up.settlement.txt", "2.SOUTH.settlement.txt", "files.sha256", "units.csv"]
        self.assertEqual(sorted(os.listdir(f"{self.room}/to")), names)
        with open(f"{self.room}/to/{names[1]}", "rb") as file, open(f"{FOLDER}/settle.output", "rb") as due:
            self.assertEqual(file.read(), due.read())

    def test_zones_that_are_wrong_are_told_in_one_line(self):
        for change, due in (
            ({"default": None}, 'unit "BLOCK" has no zone, and there is no default'),
            ({"default": "EAST"}, "the default zone has no prices"),
            ({"units": {"COAL": "EAST"}}, 'the zone of unit "COAL" has no prices'),
            ({"units": {"GAS": "SOUTH"}}, 'the case has no unit "GAS"'),
            (
                {"units": {"COAL": "SOUTH", "thermal:COAL": "SOUTH"}},
                '`units` has unit "COAL" twice, also as thermal:COAL',
            ),
            ({"zones": {}}, "no zones"),
            (
                {"zones": {"SOUTH": {"energy": [30, 30]}}},
                "zone SOUTH: energy has 2 prices: one for each of 1 period is due",
            ),
            ({"zones": {"SOUTH": {"energy": 30}}}, "zone SOUTH: energy isn't a list"),
            ({"unit": {"COAL": "SOUTH"}}, "zones.json: `unit` is no key of it: is `units` meant?\n"),
            (
                {"zones": {"SOUTH": {"energy": [30], "reserves": [1]}}},
                "zones.json: zones: SOUTH: `reserves` is no key of it: is `reserve` meant?\n",
            ),
        ):
            status, text, said = self.settle({**self.ZONES, **change})
            self.assertEqual((status, text, said.count("\n")), (1, "", 1))
            self.assertIn(due, said)

    def test_a_name_of_two_kinds_is_told_apart(self):
        case = hulltools.read_case(f"{FOLDER}/case.json")
        case.bids[0].name = "COAL"
        zones = {"zones": {"A": {"energy": [50]}, "B": {"energy": [30]}}, "default": "B"}
        with self.assertRaisesRegex(
            hulltools.HullError, '^z: the case has a thermal and a bid "COAL": say which, as th'
        ):
            zones_of("z", {**zones, "units": {"COAL": "A"}}, case)
        found = zones_of("z", {**zones, "units": {"bid:COAL": "A"}}, case)
        self.assertEqual([found.zone_of(kind, "COAL") for kind in ("thermal", "bid")], ["B", "A"])
        with self.assertRaisesRegex(hulltools.HullError, '^z: unit "COAL" has no zone, and there is no default$'):
            zones_of("z", {"zones": zones["zones"], "units": {"bid:COAL": "A"}}, case)


class Compare(unittest.TestCase):
    """Statements beside examples/dear_schedule/settle.output: PEAKER 500.00 make-whole, STEEL 150.00 lost opportunity."""

    def compare(self, text, *words):
        with tempfile.TemporaryDirectory() as room:
            with open(f"{room}/statement.csv", "w", encoding="utf-8") as file:
                file.write(text)
            return run("compare.py", f"{FOLDER}/settle.output", f"{room}/statement.csv", *words)

    def test_equal_amounts(self):
        status, text, said = self.compare("unit,amount\nPEAKER,500.004\nSTEEL,150\n")
        self.assertEqual((status, said), (0, "compare.py: 0 of 5 units differ, by 0.00 in sum\n"))
        self.assertEqual(
            text.splitlines()[:2],
            ["unit,statement_currency,settlement_currency,difference_currency", "PEAKER,500.004,500,0.004"],
        )

    def test_our_own_tables_are_taken_back(self):
        """Names that a spreadsheet would evaluate have a mark in our tables, which is no part of them."""
        names = ["-G1", "'-G1", "=A1", "G-1", "'", " +1"]
        table = Table(["unit", "amount:money"], True)
        for number, name in enumerate(names, 1):
            table.add(name, number * MILLION)
        due = {name.strip(): number * MILLION for number, name in enumerate(names, 1)}
        found = statement_of("units.csv", table.text(), amount="amount_currency")
        self.assertEqual({name.strip(): amount for name, amount in found.items()}, due)

    def test_our_own_tables_of_several_lists_or_in_millionths_are_refused(self):
        """Amounts of several lists would be added up, and those in millionths be taken as of the currency."""
        rows = "".join(f"{it},{it.lower()},thermal,PEAKER,500\n" for it in ("LMP", "ELMP"))
        head = "list,key,kind,unit,payment_currency\n"
        words = ("--amount", "payment_currency")
        due = "it has rows of LMP and of ELMP, and those of one alone are a statement\n"
        self.assertIn(due, self.compare(head + rows, *words)[2])
        one = self.compare(head + rows.splitlines()[0] + "\nLMP,lmp,bid,STEEL,150\n", *words)
        self.assertEqual((one[0], one[2]), (0, "compare.py: 0 of 5 units differ, by 0.00 in sum\n"))
        head = "report,side,kind,name,payment_currency\n"
        rows = "".join(f"a.txt,{it},thermal,PEAKER,500\n" for it in ("hull", "fixed"))
        due = "it has rows of a.txt hull and of a.txt fixed, and those of one alone are a statement\n"
        self.assertIn(due, self.compare(head + rows, "--unit", "name", *words)[2])
        status, _, said = self.compare("unit,payment_millionths\nPEAKER,500000000\n", "--amount", "payment_millionths")
        due = "`payment_millionths` is in millionths: `report.py csv --currency` writes the currency\n"
        self.assertEqual((status, said[-len(due) :]), (1, due), said)

    def test_the_table_of_many_days_is_taken_by_the_units_of_one_day_and_list(self):
        """Days would be added up, and the sums of a day and list be those of a unit without a name."""
        head, words = "day,list,kind,unit,payments_currency\n", ("--amount", "payments_currency")
        sums, row = "1 July,lmp,day,,650\n", "{0},lmp,thermal,PEAKER,500\n{0},lmp,bid,STEEL,150\n"
        due = "it has rows of 1 July lmp and of 2 July lmp, and those of one alone are a statement\n"
        self.assertIn(due, self.compare(head + row.format("1 July") + row.format("2 July"), *words)[2])
        status, _, said = self.compare(head + sums + row.format("1 July"), *words)
        due = "line 2: no unit stands in it: a statement has rows of units, and none of sums\n"
        self.assertEqual((status, said[-len(due) :]), (1, due), said)
        self.assertEqual(self.compare(head + row.format("1 July"), *words)[0], 0)

    def test_differences_are_sorted(self):
        status, text, said = self.compare(
            'name,paid\nPEAKER,"1,000"\nPEAKER,-400\nGAS,20\n', "--unit", "name", "--amount", "paid"
        )
        self.assertEqual(text.splitlines()[1:4], ["STEEL,,150,-150", "PEAKER,600,500,100", "GAS,20,,20"])
        self.assertEqual(status, 3)
        due = ["the statement hasn't STEEL", "the settlement hasn't GAS", "3 of 6 units differ, by -30.00 in sum"]
        self.assertEqual(said.splitlines(), [f"compare.py: {it}" for it in due])

    def test_a_name_of_two_kinds_has_its_kind(self):
        units = [Owed("thermal", "A", 5, 0, 5), Owed("bid", "A", 7, 0, 7), Owed("bid", "B", 9, 0, 9)]
        due = {"thermal:A": 5 * MILLION, "bid:A": 7 * MILLION}
        for text in ("unit,amount\nthermal:A,5\nbid:A,7\n", "kind,unit,amount\nthermal,A,5\nbid,A,7\n"):
            self.assertEqual(statement_of("s", text, units), due)
        for row, key in (("bid:B", "B"), ("thermal:B", "thermal:B"), ("bid:C", "bid:C")):
            self.assertEqual(statement_of("s", f"unit,amount\n{row},9\n", units), {key: 9 * MILLION})
        with self.assertRaisesRegex(
            hulltools.HullError, "^s, line 2: several kinds have a unit 'A': write it as therm"
        ):
            statement_of("s", "unit,amount\nA,5\n", units)
        rows = [(it.unit, it.amount) for it in differences({"thermal:A": 5}, units, "full")]
        self.assertEqual(rows, [("B", -9), ("bid:A", -7), ("thermal:A", 0)])
        with self.assertRaisesRegex(hulltools.HullError, "two units that a statement can't tell apart"):
            differences({}, [*units, Owed("bid", "thermal:A", 3, 0, 3)], "full")

    def test_spaces_around_a_name_are_left_out_where_no_unit_has_them(self):
        units = [Owed("thermal", "A", 5, 0, 5), Owed("thermal", "A ", 7, 0, 7), Owed("thermal", "B", 9, 0, 9)]
        found = statement_of("s", "unit,amount\nA,5\nA ,7\n B ,9\n", units)
        self.assertEqual(found, {"A": 5 * MILLION, "A ": 7 * MILLION, "B": 9 * MILLION})

    def test_a_row_of_another_kind_is_of_another_unit(self):
        units = [Owed("thermal", "A", 5, 0, 5)]
        for kind, key in (("renewable", "renewable:A"), ("thermal", "A"), ("", "A"), ("generator", "A")):
            self.assertEqual(statement_of("s", f"unit,amount,kind\nA,5,{kind}\n", units), {key: 5 * MILLION})

    def test_make_whole_alone(self):
        status, _, said = self.compare("unit,amount\nPEAKER,500\n", "--rule", "make-whole")
        self.assertEqual((status, said), (0, "compare.py: 0 of 5 units differ, by 0.00 in sum\n"))

    def test_statements_that_are_none(self):
        for text, due in (
            ("unit,sum\n", "there is no column 'amount'"),
            ("unit,amount\nPEAKER,five\n", "line 2: 'five' is no amount"),
            ("unit,amount\nSTEEL,150\nPEAKER,500,00\n", "line 3: it has more cells than the first line names columns."),
            ("unit,amount,amount\nPEAKER,9,500\n", "the column 'amount' stands twice"),
            ("unit,amount\nPEAKER,nan\n", "line 2: 'nan' is no amount"),
            ('unit,amount\nPEAKER,"5,00"\n', "line 2: '5,00' is no amount"),
            ('unit,amount\nPEAKER,"0,125"\n', "line 2: '0,125' is no amount"),
            ('unit,amount\nPEAKER,"-0,000"\n', "line 2: '-0,000' is no amount"),
            ("unit,amount\nPEAKER,5_00\n", "line 2: '5_00' is no amount"),
            ('unit,amount\n"PEAKER,500\nSTEEL,150\n', "line 2: no row of comma separated values: a quote is without"),
            ('unit,amount\n\nPEAKER,"500\n"\n', "line 3: a line's end stands in a cell."),
            (
                f"unit,amount\nPEAKER,{'5' * 200_000}\n",
                "statement.csv, line 2: no row of comma separated values: field larger",
            ),
        ):
            status, table, said = self.compare(text)
            self.assertEqual((status, table, said.count("\n")), (1, "", 1))
            self.assertIn(due, said)


class ChangedCases(unittest.TestCase):
    def test_a_written_case_reads_as_the_same(self):
        for example in ("usual", "evening", "windows", "day", "dear_schedule"):
            case = hulltools.read_case(f"{EXAMPLES}/{example}/case.json")
            with tempfile.TemporaryDirectory() as room:
                case.write(f"{room}/case.json")
                self.assertEqual(hulltools.read_case(f"{room}/case.json"), case)
                schedule = f"{EXAMPLES}/{example}/schedule.json"
                cost = hulltools.check(f"{EXAMPLES}/{example}/case.json", schedule, PROGRAM)
                self.assertEqual(hulltools.check(f"{room}/case.json", schedule, PROGRAM), cost)

    def test_scaled_by_hand(self):
        case = hulltools.read_case(f"{FOLDER}/case.json").scaled(demand=1.01, offers={"COAL": "0.9"})
        self.assertEqual(case.demand, [126250])
        self.assertEqual(
            [unit.points for unit in case.thermal][:2], [[(0, 0), (100000, 1800 * MILLION)], [(50000, 1500 * MILLION)]]
        )
        evening = hulltools.read_case(f"{EXAMPLES}/evening/case.json")
        winds = [[power * 9 / 10 for power in unit.most] for unit in evening.renewable]
        self.assertEqual([unit.most for unit in evening.scaled(renewable=0.9).renewable], winds)

    def test_a_unit_is_left_out(self):
        case = hulltools.read_case(f"{FOLDER}/case.json")
        self.assertEqual([unit.name for _, unit in case.without("BLOCK", "STEEL").units], ["COAL", "PEAKER", "NUCLEAR"])
        for change in (lambda: case.without("GAS"), lambda: case.scaled(offers={"GAS": 2})):
            with self.assertRaisesRegex(hulltools.HullError, 'the case has no unit "GAS"'):
                change()

    def test_a_name_of_two_kinds_needs_its_kind(self):
        """COAL is a buyer too: without a kind neither is left out, and with it one of the two."""
        case = hulltools.read_case(f"{FOLDER}/case.json")
        case.bids[0].name = "COAL"
        with self.assertRaisesRegex(
            hulltools.HullError, r'a thermal and a bid "COAL": .* without\("COAL", kind="thermal"'
        ):
            case.without("COAL")
        names = [(kind, unit.name) for kind, unit in case.units]
        for kind in ("thermal", "bid"):
            due = [it for it in names if it != (kind, "COAL")]
            for found in (case.without("COAL", kind=kind), without_unit(f"{kind}:COAL")(case)):
                self.assertEqual([(known, unit.name) for known, unit in found.units], due)
        case.bids[0].name = "bid:COAL"
        self.assertEqual(without_unit("bid:COAL")(case).bids, [])
        with self.assertRaisesRegex(hulltools.HullError, 'no bid unit "COAL"'):
            case.without("COAL", kind="bid")


if __name__ == "__main__":
    unittest.main()
