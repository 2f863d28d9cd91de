#!/usr/bin/env python3
"""Cases at the limits of all numbers at once, over the built program.

Each run ends in 0, with sums that agree, or in the refusal that is due. Costs of schedules are worked out here, from the
numbers that the cases are made of.

usage: hostile_largest.py [--program PROGRAM]

By itself it runs the largest cases, which takes minutes and gigabytes, and prints what each run took.
"""
import argparse
import json
import os
import shutil
import subprocess
import sys
import tempfile
import unittest

from built import PROGRAM

POWER = 1_000_000_000  # kilowatts: of a renewable, a bid's period, a demand, a reserve, a ramp
OUTPUT = 10_000_000  # kilowatts, of a thermal unit
PRICE = 10_000_000  # millionths for a kilowatt and period
MONEY = 10**13  # millionths
TIME = 1_000_000
KIND = 4_096
WORK = 50_000_000
FILE = 67_108_864


def points(*pairs):
    """The points of a cost, from kilowatts and millionths."""
    return [{"mw": at / 1000, "cost": cost // 10**6} for at, cost in pairs]


def thermal(number, periods):
    """A unit, its schedule's flag, power and reserve in each period, and what the schedule costs in all.

    It stands at a corner of its cost, so the cost is that of a point. It never starts nor stops.
    """
    unit = {
        "must_run": 0,
        "power_output_minimum": 0,
        "power_output_maximum": OUTPUT // 1000,
        "ramp_up_limit": POWER // 1000,
        "ramp_down_limit": POWER // 1000,
        "ramp_startup_limit": POWER // 1000,
        "ramp_shutdown_limit": POWER // 1000,
        "time_up_minimum": TIME,
        "time_down_minimum": TIME,
        "power_output_t0": OUTPUT // 1000,
        "unit_on_t0": 1,
        "time_up_t0": TIME,
        "time_down_t0": 0,
        "startup": [{"lag": TIME - 31 + i, "cost": MONEY // 10**6} for i in range(32)],
        "piecewise_production": points((0, 0), (OUTPUT, MONEY)),
    }
    off = {
        "power_output_t0": 0,
        "unit_on_t0": 0,
        "time_up_t0": 0,
        "time_down_t0": TIME,
        "time_up_minimum": 1,
        "time_down_minimum": 1,
    }
    flag, power, reserve, cost = 1, OUTPUT, 0, MONEY
    kind = number % 8
    if kind == 1:  # paid to run
        unit["piecewise_production"] = points((0, MONEY), (OUTPUT, -MONEY))
        cost = -MONEY
    elif kind == 2:  # one power, and it must run
        unit.update(
            must_run=1,
            power_output_minimum=OUTPUT // 1000,
            piecewise_production=points((OUTPUT, MONEY)),
            commitment=[1] * periods,
        )
    elif kind == 3:  # off, at the greatest price of its cost
        unit.update(off, power_output_maximum=1000, piecewise_production=points((0, 0), (1_000_000, MONEY)))
        flag, power, cost = 0, 0, 0
    elif kind == 4:  # as many points as there may be, and no ramp
        most = OUTPUT // 31 * 31
        unit.update(
            power_output_maximum=most / 1000,
            power_output_t0=most / 1000,
            ramp_up_limit=0.001,
            ramp_down_limit=0.001,
            ramp_startup_limit=0.001,
            ramp_shutdown_limit=0.001,
            piecewise_production=points(*[(most // 31 * i, 10**6 * 10**4 * i * i) for i in range(32)]),
            commitment=[None] * periods,
        )
        power, cost = most, 10**10 * 31 * 31
    elif kind == 5:  # off by its window
        unit.update(off, commitment=[0] * periods)
        flag, power, cost = 0, 0, 0
    elif kind == 6:  # reserve alone
        power, reserve, cost = 0, OUTPUT, 0
    elif kind == 7:  # off, free to start, with points that turn back and forth
        wild = [(OUTPUT // 31 * i, MONEY if i % 2 else -MONEY) for i in range(31)]
        unit.update(off, startup=[], piecewise_production=points(*wild, (OUTPUT, MONEY)))
        flag, power, cost = 0, 0, 0
    return unit, (flag, power, reserve), cost * periods


def blocks(number):
    """The blocks of a bid in each period: width and price."""
    half = POWER // 2
    return [(half, PRICE), (POWER - half, PRICE if number % 2 else 0)]


def worth(number, power):
    left, total = power, 0
    for width, price in blocks(number):
        total += min(left, width) * price
        left -= min(left, width)
    return total


def shares(total, count):
    """The total in shares of at most POWER each."""
    given = [min(POWER, max(0, total - POWER * i)) for i in range(count)]
    assert sum(given) == total, (total, count)
    return given


def market(thermals, renewables, bids, periods):
    """A case, a feasible schedule and what it costs. The demand and the reserve are the greatest that can be met."""
    units = [thermal(i, periods) for i in range(thermals)]
    level = sum(power for _, (_, power, _), _ in units)
    demand = min(POWER, level + POWER * renewables)
    bought = min(POWER * bids, level + POWER * renewables - demand)
    given, taken = shares(demand + bought - level, renewables), shares(bought, bids)
    kept = min(POWER, sum(reserve for _, (_, _, reserve), _ in units))
    case = {
        "time_periods": periods,
        "demand": [demand // 1000] * periods,
        "reserves": [kept // 1000] * periods,
        "thermal_generators": {f"T{i}": unit for i, (unit, _, _) in enumerate(units)},
        "renewable_generators": {
            f"R{i}": {
                "power_output_minimum": [0] * periods,
                "power_output_maximum": [POWER // 1000] * periods,
            }
            for i in range(renewables)
        },
        "demand_bids": {
            f"B{i}": {
                "blocks": [[{"mw": width / 1000, "price": price // 1000} for width, price in blocks(i)]] * periods
            }
            for i in range(bids)
        },
    }
    schedule = {
        "thermal": {
            f"T{i}": {key: [it] * periods for key, it in zip(("on", "power", "reserve"), state)}
            for i, (_, state, _) in enumerate(units)
        },
        "renewable": {f"R{i}": [it] * periods for i, it in enumerate(given)},
        "bids": {f"B{i}": [it] * periods for i, it in enumerate(taken)},
    }
    cost = sum(it for _, _, it in units) - periods * sum(worth(i, it) for i, it in enumerate(taken))
    return case, schedule, cost


# Runs the words, and tells the status (negative: a signal), the seconds by the clock and of the processor, and the peak
# of memory. (In a process of its own, since the system counts the memory of who starts a program as the program's too.)
MEASURE = """
import json, os, sys, time
began = time.monotonic()
child = os.posix_spawn(sys.argv[1], ["hull", *sys.argv[2:]], os.environ)
_, ended, took = os.wait4(child, 0)
told = [os.waitstatus_to_exitcode(ended), time.monotonic() - began, took.ru_utime + took.ru_stime, took.ru_maxrss]
print(json.dumps(told), file=sys.stderr)
"""


class Ran:
    """A run of the program to its end, its output in a file, and what it took."""

    def __init__(self, program, words, output):
        with open(output, "wb") as out:
            ended = subprocess.run(
                [sys.executable, "-S", "-E", "-c", MEASURE, program, *words],
                stdin=subprocess.DEVNULL,
                stdout=out,
                stderr=subprocess.PIPE,
                check=True,
            )
        self.status, self.clock, self.processor, kilobytes = json.loads(ended.stderr)
        self.megabytes = kilobytes / 1024
        self.output = output

    def text(self):
        with open(self.output, encoding="utf-8") as file:
            return file.read()


def sums_of(path):
    """The sums of a report, and whether its lines agree."""
    seen, payments, earned = {}, 0, 0
    values, largest = [], 0
    supplied = {}
    with open(path, encoding="utf-8") as lines:
        for line in lines:
            words = line.split()
            if words[0] == "unit":
                kind, numbers = words[1], list(map(int, words[-5::2]))
                assert numbers[2] == numbers[0] - numbers[1] >= 0, line
                payments += numbers[2]
                earned += numbers[0]
            elif words[0] == "proposal":
                values.append(int(words[3]))
            elif words[0] in ("energy", "reserve") and "chosen" not in seen:
                largest = max(largest, *(abs(int(it)) for it in words[1:]))
            elif words[0] == "supplied":
                supplied[len(values)] = list(map(int, words[1:]))
            elif words[0] == "chosen":
                seen["chosen"] = int(words[1]), int(words[3])
                net = [0] * len(supplied[1])
            elif words[0] == "power":
                sign = -1 if kind == "bid" else 1
                net = [it + sign * int(word) for it, word in zip(net, words[1:])]
            elif len(words) == 2:
                seen[words[0]] = int(words[1]) if words[1].lstrip("-").isdigit() else words[1]
            last = line
    number, value = seen["chosen"]
    assert last == "end\n", last
    assert len(values) == seen["proposals"] and value == max(values) == values[number - 1]
    assert value <= seen["cost"] and largest <= PRICE
    assert payments == seen["payments"] and seen["gap"] == seen["cost"] - value
    assert payments + seen["surplus"] == seen["gap"]
    assert net == supplied[number]
    return seen


SUMS = ("cost", "value", "surplus", "payments", "gap", "made", "weight", "bound", "distance", "least")


def settled_of(path):
    """The sums of a settlement or a search, and whether its lines agree."""
    seen, payments, shares_of = {}, 0, []
    with open(path, encoding="utf-8") as lines:
        for line in lines:
            words = line.split()
            if words[0] == "unit":
                earned, scheduled, payment = map(int, words[-5::2])
                assert payment == earned - scheduled >= 0, line
                payments += payment
            elif words[0] == "mixture":
                shares_of.append([])
            elif words[0] == "share":
                shares_of[-1].append(int(words[1]))
            elif len(words) == 2 and words[0] in SUMS:
                seen[words[0]] = int(words[1])
            last = line
    assert last == "end\n", last
    assert payments == seen["payments"] and seen["surplus"] >= 0
    assert payments + seen["surplus"] == seen["gap"] == seen["cost"] - seen["value"]
    assert all(min(it) > 0 and sum(it) == seen["weight"] for it in shares_of)
    return seen


class Crowd:
    """The files of a market in a folder."""

    def __init__(self, folder, program, size):
        self.folder, self.program = folder, program
        case, schedule, self.cost = market(*size)
        self.units, self.periods = sum(size[:3]), size[3]
        for name, value in (("case", case), ("schedule", schedule)):
            with open(f"{folder}/{name}", "w", encoding="utf-8") as to:
                json.dump(value, to, separators=(",", ":"))

    def run(self, command, *words, output="output"):
        files = [f"--case={self.folder}/case", f"--schedule={self.folder}/schedule"]
        return Ran(self.program, [command, *files, *words], f"{self.folder}/{output}")

    def check(self):
        ran = self.run("check")
        assert ran.status == 0, ran.text()
        assert f"\ncost {self.cost}\nfeasible\n" in ran.text(), ran.text()
        return ran

    def price(self, proposals, *words):
        """A report whose sums agree, or the refusal of its work."""
        work = proposals * self.units * self.periods
        ran = self.run("price", f"--proposals={proposals}", *words, output="report")
        if work > WORK:
            line = f"fault 5 work {proposals} {self.units} {self.periods}\n"
            assert (ran.status, ran.text()) == (5, line), ran.text()[:200]
        else:
            assert ran.status == 0, ran.text()[:200]
            seen = sums_of(ran.output)
            assert seen["cost"] == self.cost
            self.priced = seen["proposals"]
        return ran

    def audit(self, *words):
        """An audit of the report that was priced last, which is right, or too large to be read."""
        ran = self.run("audit", f"--report={self.folder}/report", *words)
        due = 0, f"hull-audit 1\nproposals {self.priced}\nright\n"
        if os.path.getsize(f"{self.folder}/report") > FILE:
            due = 8, "fault 8 report 32\n"
        assert (ran.status, ran.text()) == due, ran.text()
        return ran

    def settle(self, energy, reserve):
        """A settlement at the same prices in each period, whose sums agree."""
        with open(f"{self.folder}/prices", "w", encoding="utf-8") as file:
            json.dump({"energy": [energy] * self.periods, "reserve": [reserve] * self.periods}, file)
        ran = self.run("settle", f"--prices={self.folder}/prices", output="settlement")
        assert ran.status == 0, ran.text()[:200]
        assert settled_of(ran.output)["cost"] == self.cost
        return ran

    def certify(self, energy, reserve):
        """A certificate by the schedule alone, at the greatest weight: it can't bound by less than the schedule's cost where nothing is lacking."""
        self.settle(energy, reserve)
        with open(f"{self.folder}/schedule", encoding="utf-8") as file:
            units = json.load(file)["thermal"]
        mixed = {name: [{"weight": 10**12, **lists}] for name, lists in units.items()}
        with open(f"{self.folder}/mixture", "w", encoding="utf-8") as file:
            json.dump({"weight": 10**12, "thermal": mixed}, file, separators=(",", ":"))
        ran = self.run(
            "certify", f"--prices={self.folder}/prices", f"--mixture={self.folder}/mixture", output="certificate"
        )
        assert ran.status == 0, ran.text()[:200]
        told = dict(line.split() for line in ran.text().split("\n")[1:-2])
        cost, value, bound = (int(told[it]) for it in ("cost", "value", "bound"))
        assert (cost, int(told["distance"]), int(told["least"])) == (
            self.cost,
            bound - value,
            max(0, cost - bound),
        ) and bound >= value
        return ran

    def convex(self, rounds, *words):
        """A search whose sums agree, or the refusal of its work."""
        ran = self.run("convex", f"--rounds={rounds}", *words, output="search")
        if rounds * self.units * self.periods > WORK:
            line = f"fault 5 work {rounds} {self.units} {self.periods}\n"
            assert (ran.status, ran.text()) == (5, line), ran.text()[:200]
            return ran
        assert ran.status == 0, ran.text()[:200]
        seen = settled_of(ran.output)
        assert seen["cost"] == self.cost >= seen["bound"] >= seen["value"] and seen["made"] <= rounds
        assert (seen["distance"], seen["least"]) == (seen["bound"] - seen["value"], self.cost - seen["bound"])
        return ran

    def bound(self, proposals, *words):
        ran = self.run("bound", f"--proposals={proposals}", *words)
        assert ran.status == 0, ran.text()[:200]
        assert ran.text().endswith("\nend\n")
        assert 0 <= int(ran.text().split()[-2])
        return ran

    def fixed(self, proposals, *words):
        ran = self.run("fixed", f"--proposals={proposals}", *words)
        assert ran.status == 0, ran.text()[:200]
        text = ran.text().split("\n")
        assert text[-3:] == [f"cost {self.cost}", "end", ""], text[-3:]
        gaps = [self.cost - int(line.split()[-1]) for line in text[1:3]]
        paid = [sum(it) for it in zip(*(map(int, line.split()[2::2]) for line in text[-5:-3]))]
        # (a value of the fixed case is at least that of the case at the same prices)
        assert paid[0] == gaps[0] >= 0 and paid[1] >= gaps[1] >= 0, (paid, gaps)
        return ran


class Largest(unittest.TestCase):
    def in_turn(self, size, proposals, *words):
        room = tempfile.mkdtemp(prefix="hull-hostile-")
        self.addCleanup(shutil.rmtree, room)
        crowd = Crowd(room, PROGRAM, size)
        crowd.check()
        for command in (crowd.price, crowd.bound, crowd.fixed):
            command(proposals, *words)
        crowd.audit()
        for energy in (PRICE // 1000, -PRICE // 1000):
            for reserve in (0, PRICE // 1000):
                crowd.settle(energy, reserve)
        crowd.certify(PRICE // 1000, 0)
        crowd.convex(2)
        return crowd

    def test_as_many_units_as_there_may_be(self):
        crowd = self.in_turn((KIND, KIND, KIND, 1), 2)
        crowd.price(4_070)

    def test_all_values_at_their_limits(self):
        self.in_turn((17, 6, 6, 168), 100, "--ahead=16")


def main():
    ask = argparse.ArgumentParser(description="Runs the largest cases, and prints what each run took.")
    ask.add_argument("--program", default=PROGRAM)
    program = os.path.abspath(ask.parse_args().program)
    print(f"{'thermal renewable bid periods':30} {'run':22} status  clock s  processor s  memory MB", flush=True)
    for size, proposals, rounds in (
        ((KIND, KIND, KIND, 168), (24, 25), (2, 25)),
        ((17, 6, 6, 168), (10_000,), (20,)),
        ((8, 8, 8, 1), (10_000,), (1_000,)),
    ):
        room = tempfile.mkdtemp(prefix="hull-hostile-")
        try:
            crowd = Crowd(room, program, size)
            for run in (
                (crowd.check,),
                (crowd.price, proposals[0]),
                (crowd.audit, "--workers=1"),
                (crowd.audit, "--workers=4"),
                *((crowd.price, it) for it in proposals[1:]),
                (crowd.bound, proposals[0]),
                (crowd.fixed, proposals[0]),
                (crowd.settle, PRICE // 1000, PRICE // 1000),
                (crowd.settle, -PRICE // 1000, 0),
                (crowd.certify, PRICE // 1000, PRICE // 1000),
                *((crowd.convex, it) for it in rounds),
            ):
                ran = run[0](*run[1:])
                what = " ".join([run[0].__name__, *map(str, run[1:])])
                print(
                    f"{' '.join(map(str, size)):30} {what:22} {ran.status:6}  {ran.clock:7.1f}"
                    f"  {ran.processor:11.1f}  {ran.megabytes:9.0f}",
                    flush=True,
                )
        finally:
            shutil.rmtree(room)


if __name__ == "__main__":
    sys.dont_write_bytecode = True
    main()
