"""Largest values and limits, over the built program; what is due was worked by hand, or by the script of examples/scarf."""
import json
import os
import shutil
import sys
import tempfile
import unittest

from built import EXAMPLES, run

sys.path.insert(0, f"{EXAMPLES}/scarf")
import work_out  # noqa: E402


def row(number, value, energy, supplied, periods):
    lists = (("energy", energy), ("reserve", 0), ("supplied", supplied), ("reserved", 0))
    return [
        f"proposal {number} value {value}",
        *(" ".join([word, *[str(it)] * periods]) for word, it in lists),
    ]


class Largest(unittest.TestCase):
    def setUp(self):
        self.room = tempfile.mkdtemp(prefix="hull-largest-")
        self.addCleanup(shutil.rmtree, self.room)

    def price(self, case, schedule, *words):
        for name, value in (("case", case), ("schedule", schedule)):
            with open(f"{self.room}/{name}.json", "w", encoding="utf-8") as to:
                to.write(value if isinstance(value, str) else json.dumps(value))
        status, output, said = run(
            ["price", "--case", "case.json", "--schedule", "schedule.json", *words], folder=self.room
        )
        self.assertEqual(said, b"")
        return status, output.decode()

    def unit_of_ten_gigawatts(self, cost):
        limits = {f"{it}_limit": 1_000_000 for it in ("ramp_up", "ramp_down", "ramp_startup", "ramp_shutdown")}
        before = {
            "time_up_minimum": 1,
            "time_down_minimum": 1,
            "power_output_t0": 0,
            "unit_on_t0": 0,
            "time_up_t0": 0,
            "time_down_t0": 1,
        }
        points = [{"mw": 0, "cost": 0}, {"mw": 10_000, "cost": cost}]
        unit = {
            "must_run": 0,
            "power_output_minimum": 0,
            "power_output_maximum": 10_000,
            **limits,
            **before,
            "startup": [],
            "piecewise_production": points,
        }
        return {
            "time_periods": 168,
            "demand": [10_000] * 168,
            "reserves": [0] * 168,
            "thermal_generators": {"G": unit},
            "renewable_generators": {},
        }

    def test_one_unit_at_the_greatest_price_of_its_cost(self):
        schedule = {
            "thermal": {"G": {"on": [1] * 168, "power": [10_000_000] * 168, "reserve": [0] * 168}},
            "renewable": {},
        }
        cost = 10_000_000 * 1_000_000 * 168
        zeros = " ".join(["0"] * 168)
        lines = [
            "hull-report 1",
            "periods 168",
            "units 1",
            "budget 5",
            "ahead 1",
            f"cost {cost}",
            "proposals 1",
            *row(1, cost, 1_000_000, 0, 168),
            f"chosen 1 value {cost}",
        ]
        lines += [
            'unit thermal "G" earned 0 scheduled 0 payment 0',
            f"on {zeros}",
            f"power {zeros}",
            f"reserve {zeros}",
            "surplus 0",
            "payments 0",
            "gap 0",
            "end",
            "",
        ]
        self.assertEqual(
            self.price(self.unit_of_ten_gigawatts(10_000_000), schedule, "--proposals", "5", "--ahead", "1"),
            (0, "\n".join(lines)),
        )
        case = json.dumps(self.unit_of_ten_gigawatts(10_000_000)).replace(
            '"cost": 10000000}', '"cost": 10000000.000001}'
        )
        self.assertEqual(
            self.price(case, schedule),
            (3, "fault 3 case 24 field piecewise_production kind thermal unit 1 item 2\n"),
        )

    def test_work_at_its_limit_and_above(self):
        def market(units):
            none = [0] * 48
            case = {"time_periods": 48, "demand": none, "reserves": none, "thermal_generators": {}}
            case["renewable_generators"] = {
                f"R{i}": {"power_output_minimum": none, "power_output_maximum": none} for i in range(units)
            }
            return case, {"thermal": {}, "renewable": {f"R{i}": none for i in range(units)}}

        status, output = self.price(*market(104), "--proposals", "10000", "--ahead", "1")
        self.assertEqual(
            (status, output.split("\n")[2:12]),
            (0, ["units 104", "budget 10000", "ahead 1", "cost 0", "proposals 1", *row(1, 0, 0, 0, 48)]),
        )
        self.assertEqual(
            self.price(*market(105), "--proposals", "10000", "--ahead", "1"),
            (5, "fault 5 work 10000 105 48\n"),
        )

    def test_ten_thousand_proposals(self):
        usual = work_out.BUDGET, work_out.AHEAD
        try:
            for ahead in (1, 16):
                work_out.BUDGET, work_out.AHEAD = 10_000, ahead
                cost, power = work_out.cheapest(100_000)
                rows = work_out.rows_of(100_000, cost)
                text = work_out.report(100_000, cost, power, rows)[3]
                self.assertEqual(len(rows), 10_000)
                case, schedule = (os.path.join(EXAMPLES, "scarf", f"100.{it}.json") for it in ("case", "schedule"))
                files = ["--case", case, "--schedule", schedule]
                ran = run(["price", *files, "--proposals", "10000", "--ahead", str(ahead)])
                self.assertEqual((ran[0], ran[1] == text.encode()), (0, True))
                with open(f"{self.room}/report.txt", "w", encoding="utf-8") as file:
                    file.write(text)
                self.assertEqual(
                    run(["audit", *files, "--report", f"{self.room}/report.txt", "--workers", "1"]),
                    (0, b"hull-audit 1\nproposals 10000\nright\n", b""),
                )
        finally:
            work_out.BUDGET, work_out.AHEAD = usual
