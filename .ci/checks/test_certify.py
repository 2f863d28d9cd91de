"""`hull certify` beside a plain program (plain_certify.py): random tiny cases with random mixtures, and the same files spoiled.

The text is due to the byte, and so is the fault line of a file that is refused: also of each rule that an entry can break. No prices that
are drawn from within the radius have a dual value above the bound.
"""
import itertools
import json
import os
import random
import tempfile
import unittest

import plain
import plain_certify
from built import PROGRAM, run
from plain_rules import ORDER, Schedule, first_broken
from test_settle import spoil

CASES = int(os.environ.get("HULL_PLAIN_CASES", "24"))
SPOILED = 8
TRIED = 12
RADIUSES = (0, 1, 20, 1000, 20_000_000)


def lists_of(schedule):
    return {
        "on": [int(on) for on, _, _ in schedule],
        "power": [power for _, power, _ in schedule],
        "reserve": [reserve for _, _, reserve in schedule],
    }


def draw_entries(draw, unit, whole):
    """Feasible schedules whose weights sum to the whole, one of them perhaps 0."""
    cuts = sorted(draw.randint(0, whole) for _ in range(draw.randint(0, 3)))
    weights = [high - low for low, high in zip([0, *cuts], [*cuts, whole])]
    return [{"weight": weight, **lists_of(draw.choice(unit.schedules)[0])} for weight in weights]


def draw_mixture(draw, case):
    whole = draw.choice([1, 2, 10, 1000, 10**12])
    units = case.names("thermal")
    draw.shuffle(units)
    return {"weight": whole, "thermal": {name: draw_entries(draw, unit, whole) for name, unit in units}}


def draw_fault(draw, mixture):
    """A change to a right mixture that may be refused."""
    entries = draw.choice(list(mixture["thermal"].values()))
    entry = draw.choice(entries)
    key = draw.choice(["weight", "on", "power", "reserve"])
    if draw.random() < 0.2:
        mixture["weight"] = draw.choice([0, 1.5, -1, 10**12 + 1, None, mixture["weight"] + 1])
    elif draw.random() < 0.1:
        mixture["thermal"]["nobody"] = []
    elif draw.random() < 0.2:
        del entry[key]
    elif key == "weight":
        entry["weight"] += draw.choice([-1, 1, 0.5, 10**12])
    else:
        entry[key][-1] += draw.choice([-1, 1, 1, 0.5, 10**9])


def draw_schedule(draw: random.Random, unit: plain.Thermal) -> Schedule:
    """Flags, powers and reserves that may break any rule."""
    rows = []
    for _ in range(unit.periods):
        on = draw.random() < 0.7
        most = unit.most + int(draw.random() < 0.2) if on else int(draw.random() < 0.05)
        power = draw.randint(max(0, unit.least - int(draw.random() < 0.1)), most) if on else draw.randint(0, most)
        rows.append((on, power, draw.choice([0, 0, draw.randint(0, most - power)])))
    return tuple(rows)


class PlainRules(unittest.TestCase):
    """The rules by spells beside those by periods of plain.py."""

    def test_a_schedule_without_a_broken_rule_is_a_feasible_one(self):
        for number in range(CASES):
            draw = random.Random(f"rules {number}")
            unit = plain.draw_thermal(draw, draw.randint(1, 4))
            feasible = {it for it, _ in unit.schedules}
            for _ in range(TRIED * TRIED):
                schedule = draw_schedule(draw, unit)
                self.assertEqual(first_broken(unit, schedule) is None, schedule in feasible, (number, schedule))


class PlainCertify(unittest.TestCase):
    """The plain program itself: with best responses as the mixture and radius 0 the bound is the value."""

    def test_best_responses_bound_by_the_value(self):
        for number in range(CASES):
            draw = random.Random(f"best {number}")
            case = plain.draw_case(draw)
            energy = [draw.randint(-20, 60) for _ in range(case.periods)]
            reserve = [draw.randint(0, 30) for _ in range(case.periods)]
            best = [[(1, plain.least_best(unit, energy, reserve))] for _, unit in case.names("thermal")]
            with self.subTest(number=number):
                self.assertEqual(
                    plain_certify.bound(case, energy, reserve, (1, best), 0), case.dual_value(energy, reserve)
                )


class Certify(unittest.TestCase):
    def certified(self, folder, data, radius):
        with open(f"{folder}/mixture.json", "wb") as file:
            file.write(data)
        words = ["certify", "--case", "case.json", "--schedule", "schedule.json", "--prices", "prices.json"]
        words += ["--mixture", "mixture.json", "--radius", str(radius)]
        status, output, said = run(words, program=PROGRAM, folder=folder)
        self.assertEqual(said, b"")
        return status, output.decode(errors="replace")

    def check_file(self, case, folder, prices, data, radius):
        found = self.certified(folder, data, radius)
        try:
            mixture = plain_certify.read_mixture(data, case)
        except plain_certify.MixtureFault as fault:
            self.assertEqual(found, (10, f"fault 10 mixture {fault}\n"), data)
            return
        self.assertEqual(found, (0, plain_certify.certificate(case, *prices, mixture, radius)), data)
        self.check_box(case, prices, radius, int(found[1].split("bound ")[1].split()[0]))

    def test_each_rule_that_an_entry_can_break(self):
        seen = dict.fromkeys(ORDER, 0)
        for number in itertools.count():
            draw = random.Random(f"entry {number}")
            case = plain.draw_case(draw)
            with tempfile.TemporaryDirectory(prefix="hull-certify-") as folder, self.subTest(number=number):
                case.write(folder)
                with open(f"{folder}/prices.json", "w", encoding="utf-8") as file:
                    json.dump({"energy": [0] * case.periods}, file)
                for _ in range(SPOILED):
                    data = self.broken(draw, case)
                    self.check_file(case, folder, [[0] * case.periods] * 2, data, 0)
                    code = self.rule_of(case, data)
                    if code:
                        seen[code] += 1
            if number >= CASES and min(seen.values()) >= 3:
                break
            self.assertLess(number, 50 + 10 * CASES, seen)

    @staticmethod
    def rule_of(case, data):
        """The code of the fault line that is due, or None."""
        try:
            plain_certify.read_mixture(data, case)
        except plain_certify.MixtureFault as fault:
            return int(str(fault).split()[0])
        return None

    @staticmethod
    def broken(draw, case):
        """A mixture with an entry that may break a rule, or two; at times one that is of no weight."""
        mixture = draw_mixture(draw, case)
        for _ in range(draw.choice([1, 1, 2])):
            name, unit = draw.choice(case.names("thermal"))
            schedule, entries = lists_of(draw_schedule(draw, unit)), mixture["thermal"][name]
            if draw.random() < 0.3:
                entries.append({"weight": 0, **schedule})
            else:
                draw.choice(entries).update(schedule)
        return json.dumps(mixture).encode()

    def check_box(self, case, prices, radius, bound):
        draw = random.Random(bound)

        def near(price, least):
            return draw.randint(max(least, price - radius), min(plain.LARGEST_PRICE, price + radius))

        for _ in range(TRIED):
            energy = [near(it, -plain.LARGEST_PRICE) for it in prices[0]]
            reserve = [near(it, 0) for it in prices[1]]
            self.assertLessEqual(case.dual_value(energy, reserve), bound, (energy, reserve))

    def test_random_cases_and_spoiled_files(self):
        for number in range(CASES):
            draw = random.Random(f"certify {number}")
            case = plain.draw_case(draw)
            prices = [draw.randint(-20, 60) for _ in range(case.periods)], [
                draw.randint(0, 30) for _ in range(case.periods)
            ]
            with tempfile.TemporaryDirectory(prefix="hull-certify-") as folder, self.subTest(number=number):
                case.write(folder)
                with open(f"{folder}/prices.json", "w", encoding="utf-8") as file:
                    json.dump({key: [x / 1000 for x in xs] for key, xs in zip(("energy", "reserve"), prices)}, file)
                mixture = draw_mixture(draw, case)
                data = json.dumps(mixture).encode()
                for radius in RADIUSES:
                    self.check_file(case, folder, prices, data, radius)
                for _ in range(SPOILED):
                    self.check_file(case, folder, prices, spoil(draw, data), 1000)
                    changed = json.loads(data)
                    draw_fault(draw, changed)
                    self.check_file(case, folder, prices, json.dumps(changed).encode(), 1000)


if __name__ == "__main__":
    unittest.main()
