"""The program beside a plain one (plain.py) that lists every schedule: random tiny cases, the same for every run.

`price`: the proposals are those of the price rule (plain_price.py), with their values and totals; the chosen one is the first with the
greatest value, each response is the least best one, and the payments add up. `bound`: the text is due to the byte, and no prices within the
radius have a greater dual value than the bound; the corners of the box, random prices in it and the other proposals are tried. `fixed`:
both sides' prices are those of the price rule, and their payments those of the case.
"""
import os
import random
import tempfile
import unittest

import plain
import plain_price
from built import PROGRAM, run

CASES = int(os.environ.get("HULL_PLAIN_CASES", "24"))
PRICES = 40
BUDGETS = (*range(1, 13), 30, 45, 60)  # (a step is halved once no proposal of ten was better)


def numbers(line, skip):
    return [int(it) for it in line.split()[skip:]]


class Report:
    """The text of `hull price`: the row of each proposal, and one (earned, scheduled, payment, schedule) per unit."""

    def __init__(self, text):
        lines = text.decode().splitlines()
        field = dict(it.split()[:2] for it in lines if " " in it)
        self.surplus, self.payments, self.gap = (int(field[it]) for it in ("surplus", "payments", "gap"))
        self.cost = int(field["cost"])
        starts = [at for at, it in enumerate(lines) if it.startswith("proposal ")]
        self.rows = [self.row(lines, at) for at in starts]
        self.proposals = int(field["proposals"])
        at = next(at for at, it in enumerate(lines) if it.startswith("chosen "))
        self.chosen, self.value = int(lines[at].split()[1]), int(lines[at].split()[3])
        self.units = [self.unit(lines, at) for at, it in enumerate(lines) if it.startswith("unit ")]

    @staticmethod
    def row(lines, at):
        words = [it.split()[0] for it in lines[at + 1 : at + 5]]
        assert words == ["energy", "reserve", "supplied", "reserved"], words
        return plain_price.Row(int(lines[at].split()[3]), *(numbers(it, 1) for it in lines[at + 1 : at + 5]))

    @staticmethod
    def unit(lines, at):
        words = lines[at].split()
        earned, scheduled, payment = int(words[4]), int(words[6]), int(words[8])
        if words[1] == "thermal":
            on, power, reserve = (numbers(lines[at + more], 1) for more in (1, 2, 3))
        else:
            power = numbers(lines[at + 1], 1)
            on, reserve = [1] * len(power), [0] * len(power)
        return earned, scheduled, payment, tuple(zip(map(bool, on), power, reserve))


class Plain(unittest.TestCase):
    def run_of(self, *words):
        status, output, said = run(words, program=PROGRAM, folder=self.folder)
        self.assertEqual((status, said), (0, b""), f"{words}: {output}")
        return output

    FILES = ("--case", "case.json", "--schedule", "schedule.json")

    def check_each(self, check):
        for number in range(CASES):
            draw = random.Random(number)
            case = plain.draw_case(draw)
            with tempfile.TemporaryDirectory(prefix="hull-plain-") as self.folder, self.subTest(number=number):
                case.write(self.folder)
                check(draw, case)

    def test_price(self):
        self.check_each(self.check_price)

    def check_price(self, draw, case):
        budget, ahead = str(draw.choice(BUDGETS)), str(draw.randint(1, 4))
        report = Report(self.run_of("price", *self.FILES, "--proposals", budget, "--ahead", ahead))
        self.assertEqual(report.rows, plain_price.proposals(case, int(budget), int(ahead)))
        self.assertEqual(report.proposals, len(report.rows))
        self.assertEqual(report.chosen, plain_price.chosen_of(report.rows))
        best = report.rows[report.chosen - 1]
        self.assertEqual((report.value, report.cost), (best.value, case.cost))
        self.assertEqual(len(report.units), len(case.units))
        prices = best.energy, best.reserve
        for unit, (schedule, cost), (earned, scheduled, payment, response) in zip(case.units, case.plan, report.units):
            self.assertEqual(response, plain.least_best(unit, *prices))
            self.assertEqual(earned, plain.top(unit, *prices))
            self.assertEqual(scheduled, plain.earnings(unit, schedule, cost, *prices))
            self.assertEqual(payment, earned - scheduled)
        self.assertEqual(report.payments, sum(it[2] for it in report.units))
        self.assertEqual(report.payments + report.surplus, case.cost - report.value)
        self.assertEqual(report.gap, case.cost - report.value)

    def test_bound(self):
        self.check_each(self.check_bound)

    def check_bound(self, draw, case):
        budget, radius = draw.choice(BUDGETS), draw.choice([0, 1, 3, 10, 40, 20_000_000])
        words = (*self.FILES, "--proposals", str(budget), "--radius", str(radius))
        told, rows = self.run_of("bound", *words).decode(), plain_price.proposals(case, budget, 4)
        self.assertEqual(told, plain_price.bound_text(case, rows, radius))
        bound = int(told.split("\nbound ")[1].split()[0])
        centre = rows[plain_price.chosen_of(rows) - 1]
        for prices in self.prices_within(draw, [centre.energy, centre.reserve], radius, rows):
            self.assertLessEqual(case.dual_value(*prices), bound)

    def test_fixed(self):
        self.check_each(self.check_fixed)

    def check_fixed(self, draw, case):
        budget, ahead = draw.choice(BUDGETS), draw.randint(1, 4)
        words = (*self.FILES, "--proposals", str(budget), "--ahead", str(ahead))
        lines = [it.split() for it in self.run_of("fixed", *words).decode().splitlines()]
        for side, priced in (("hull", case), ("fixed", plain_price.held(case))):
            self.check_side(case, side, plain_price.proposals(priced, budget, ahead), lines)
        self.assertEqual(lines[-2], ["cost", str(case.cost)])

    def check_side(self, case, side, rows, lines):
        chosen = plain_price.chosen_of(rows)
        best = rows[chosen - 1]
        head = [side, "proposals", len(rows), "chosen", chosen, "value", best.value]
        due = [list(map(str, it)) for it in (head, [side, "energy", *best.energy], [side, "reserve", *best.reserve])]
        self.assertEqual([it for it in lines if it[0] == side], due)
        told = {it[0]: int(it[it.index(side) + 1]) for it in lines if it[0] in ("payments", "surplus")}
        payments = [int(it[it.index(side) + 1]) for it in lines if it[0] == "unit"]
        prices = best.energy, best.reserve
        self.assertEqual(
            payments,
            [
                plain.top(unit, *prices) - plain.earnings(unit, schedule, cost, *prices)
                for unit, (schedule, cost) in zip(case.units, case.plan)
            ],
        )
        self.assertEqual(told["payments"], sum(payments))
        self.assertEqual(told["payments"] + told["surplus"], case.cost - case.dual_value(*prices))

    @staticmethod
    def prices_within(draw, centre, radius, rows):
        limits = (-plain.LARGEST_PRICE, 0)
        low = [[max(limit, it - radius) for it in list_] for limit, list_ in zip(limits, centre)]
        high = [[min(plain.LARGEST_PRICE, it + radius) for it in list_] for list_ in centre]
        yield low
        yield high
        for _ in range(PRICES):
            near = [
                [draw.randint(max(a, c - 30), min(b, c + 30)) for a, b, c in zip(*ends)]
                for ends in zip(low, high, centre)
            ]
            yield draw.choice([near, [[draw.randint(a, b) for a, b in zip(*it)] for it in zip(low, high)]])
        for prices in ([it.energy, it.reserve] for it in rows):
            if all(a <= x <= b for three in zip(low, prices, high) for a, x, b in zip(*three)):
                yield prices


if __name__ == "__main__":
    unittest.main()
