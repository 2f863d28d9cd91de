"""A plain check of a text of `hull convex`, over cases of any size. It shares nothing with the program, nor with plain.py.

It was written from docs/REPORT.md, docs/FORMATS.md and docs/MODEL.md alone. What a unit earns at best is worked out spell by spell: from each
period in which the unit may start, the best earnings up to each period behind which it may stop, by the power there. Such a function is
concave, and is kept as its first power, its value there, and its runs of one slope. Powers are whole kilowatts above the least power, money
is in millionths, a price in millionths for a kilowatt and period; periods count from 0, and -1 is the state before them.
"""
from __future__ import annotations

import json
from decimal import Decimal
from fractions import Fraction
from itertools import combinations
from math import floor
from typing import Any, Iterator, Optional, Sequence, Union

LARGEST_PRICE = 10_000_000
LISTS = ("on", "power", "reserve")
Runs = list[tuple[int, int]]  # the length and slope of each
Rows = list[tuple[int, ...]]  # on, power and reserve of each period
Mixture = dict[str, list[tuple[int, Rows]]]  # by unit the share and the schedule of each entry
Number = Union[int, Decimal]


def kilowatts(number: Number) -> int:
    return floor(Fraction(number) * 1000 + Fraction(1, 2))


def millionths(number: Number) -> int:
    return floor(Fraction(number) * 10**6 + Fraction(1, 2))


class Concave:
    """A concave function from `low` on: its value there, and (length, slope) of each run, slopes falling."""

    def __init__(self, low: int, value: int, runs: Runs) -> None:
        self.low, self.value, self.runs = low, value, [it for it in runs if it[0]]
        self.high = low + sum(length for length, _ in runs)

    def __add__(self, other: Concave) -> Concave:
        """The sum of two over the same powers."""
        runs: Runs = []
        both = (list(self.runs), list(other.runs))
        while all(both):
            length = min(it[0][0] for it in both)
            runs.append((length, sum(it[0][1] for it in both)))
            for pieces in both:
                left, slope = pieces[0][0] - length, pieces[0][1]
                pieces[:1] = [(left, slope)] if left else []
        return Concave(self.low, self.value + other.value, runs)

    def within(self, low: int, high: int) -> Optional[Concave]:
        """The part from `low` to `high`, or None where that is empty."""
        low, high = max(low, self.low), min(high, self.high)
        if low > high:
            return None
        value, runs, at = self.value, [], self.low
        for length, slope in self.runs:
            before = max(0, min(length, low - at))
            value += before * slope
            runs.append((max(0, min(length, high - at) - before), slope))
            at += length
        return Concave(low, value, runs)

    def within_reach(self, up: int, down: int) -> Concave:
        """At each power the greatest value at the powers from which it is reached by a rise of at most `up` or a fall of at most `down`."""
        rises = [it for it in self.runs if it[1] > 0]
        falls = [it for it in self.runs if it[1] <= 0]
        return Concave(self.low - down, self.value, [*rises, (up + down, 0), *falls])

    def top(self) -> tuple[int, int]:
        """The least power at which it is greatest, and its value there."""
        rises = [it for it in self.runs if it[1] > 0]
        return self.low + sum(length for length, _ in rises), self.value + sum(a * b for a, b in rises)


def envelope(points: Runs, power: int) -> int:
    """The cost of a power, as docs/REPORT.md has it."""
    pairs = [(one, two) for one, two in combinations(points, 2) if one[0] != two[0]]
    ends = {it for (p, c), (q, d) in pairs for it in ((d - c) // (q - p), -((c - d) // (q - p)))}
    return max(min(c + k * (power - p) for p, c in points) for k in ends or {0})


class Thermal:
    """A thermal unit of a case file."""

    def __init__(self, of: dict[str, Any], periods: int) -> None:
        self.least, most = kilowatts(of["power_output_minimum"]), kilowatts(of["power_output_maximum"])
        self.room = most - self.least
        self.up, self.down = kilowatts(of["ramp_up_limit"]), kilowatts(of["ramp_down_limit"])
        self.start_room = min(self.room, kilowatts(of["ramp_startup_limit"]) - self.least)
        self.stop_room = min(self.room, kilowatts(of["ramp_shutdown_limit"]) - self.least)
        self.min_up, self.min_down = (max(1, int(of[f"time_{it}_minimum"])) for it in ("up", "down"))
        self.on0, self.level0 = bool(of["unit_on_t0"]), kilowatts(of["power_output_t0"]) - self.least
        self.up0, self.down0 = int(of["time_up_t0"]), int(of["time_down_t0"])
        self.lags = [(int(it["lag"]), millionths(it["cost"])) for it in of["startup"]]
        self.points = [(kilowatts(it["mw"]), millionths(it["cost"])) for it in of["piecewise_production"]]
        self.marks: list[Optional[int]] = of.get("commitment") or [None] * periods
        self.must_run = bool(of["must_run"])
        self.known: dict[int, int] = {}
        self.steps = self.steps_between(0, self.room)

    def cost(self, above: int) -> int:
        """Of a power above the least."""
        if above not in self.known:
            self.known[above] = envelope(self.points, self.least + above)
        return self.known[above]

    def steps_between(self, low: int, high: int) -> Runs:
        """(length, slope) of the cost's runs: it is convex, so it is straight where its first step is as its last."""
        if low == high:
            return []
        first, last = self.cost(low + 1) - self.cost(low), self.cost(high) - self.cost(high - 1)
        if first == last:
            return [(high - low, first)]
        middle = (low + high) // 2
        return self.steps_between(low, middle) + self.steps_between(middle, high)

    def start_cost(self, off: int) -> int:
        """After so many periods off."""
        return ([self.lags[0][1]] + [cost for lag, cost in self.lags if lag <= off])[-1] if self.lags else 0

    def may_be(self, flag: int, first: int, last: int) -> bool:
        """Whether it may be on, or off, from a period to another."""
        return all(it in (None, flag) for it in self.marks[max(0, first) : last + 1]) and (
            flag == 1 or not self.must_run or last < max(0, first)
        )

    def room_in(self, period: int, first: int, last: Optional[int]) -> int:
        """Room for power and reserve in a period of a spell, where `last` is None unless the unit stops behind it."""
        return min(self.start_room if period == first else self.room, self.stop_room if period == last else self.room)

    def is_feasible(self, rows: Rows) -> bool:
        """The rules of docs/MODEL.md, one by one; `rows` has (on, power, reserve) of each period."""
        on = [int(self.on0), *(it[0] for it in rows)]
        level = [self.level0 * self.on0, *(power - self.least * flag for flag, power, _ in rows)]
        held = (self.min_up - self.up0) if self.on0 else (self.min_down - self.down0)
        starts = [0, *(int(now > past) for past, now in zip(on, on[1:])), 0]
        stops = [0, *(int(now < past) for past, now in zip(on, on[1:])), 0]
        if any(it != on[0] for it in on[1 : max(0, held) + 1]) or (self.must_run and not all(on[1:])):
            return False
        if stops[1] and (self.level0 > self.stop_room):
            return False
        for t, (flag, power, kept) in enumerate(rows, 1):
            most = min(
                self.room * flag - (self.room - self.start_room) * starts[t],
                self.room * flag - (self.room - self.stop_room) * stops[t + 1],
            )
            if (
                sum(starts[max(1, t - self.min_up + 1) : t + 1]) > flag
                or sum(stops[max(1, t - self.min_down + 1) : t + 1]) > 1 - flag
                or self.marks[t - 1] not in (None, flag)
                or min(level[t], kept, most - level[t] - kept) < 0
                or level[t] + kept - level[t - 1] > self.up
                or level[t - 1] - level[t] > self.down
            ):
                return False
        return True

    def cost_of(self, rows: Rows) -> int:
        """What a schedule costs: its powers and its starts."""
        total, was_on, off = 0, self.on0, self.down0
        for on, power, _ in rows:
            if on:
                total += self.cost(power - self.least) + (0 if was_on else self.start_cost(off))
            off = 0 if on else (1 if was_on else off + 1)
            was_on = bool(on)
        return total

    def earned(self, rows: Rows, energy: Sequence[int], reserve: Sequence[int]) -> int:
        sold = sum(p * power + r * kept for p, r, (_, power, kept) in zip(energy, reserve, rows))
        return sold - self.cost_of(rows)


Ends = dict[int, tuple[int, int, Concave]]  # by last period the power, the earnings, and what that power came from
Spell = tuple[int, Optional[int], int]  # what is earned at best, and the first and last period of the last spell


class Answer:
    """What a thermal unit earns at best, and the least of its best schedules.

    `starts[a]` is the most that is earned before period a where the unit starts there, and since when it was off; `stops[s]` the most that is
    earned before period s where it is off from s on, and in which period its last spell began. Of equal ones the least is kept: off
    before on, from the last period back.
    """

    def __init__(self, unit: Thermal, energy: Sequence[int], reserve: Sequence[int]) -> None:
        self.unit, self.energy, self.reserve, self.last = unit, energy, reserve, len(energy) - 1
        self.starts: dict[int, tuple[int, Optional[int]]] = {}
        self.stops: dict[int, tuple[int, Optional[int]]] = {}
        self.ends: dict[int, Ends] = {}
        self.trails: dict[int, list[Concave]] = {}
        if unit.on0:
            self.starts[-1] = (0, None)
            self.add_spell(-1)
            if unit.up0 >= unit.min_up and unit.level0 <= min(unit.stop_room, unit.down):
                self.stops[0] = (0, None)
        else:
            self.stops[-unit.down0] = (0, None)
        for period in range(self.last + 1):
            self.add_start(period)

    def add_start(self, period: int) -> None:
        """The unit starts in a period, after the longest of the best times off."""
        unit = self.unit
        found: Optional[tuple[int, int]] = None
        for off, (value, _) in sorted(self.stops.items()):
            time = period - off
            if time >= unit.min_down and time > 0 and unit.may_be(0, off, period - 1):
                value -= unit.start_cost(time)
                found = (value, off) if found is None or value > found[0] else found
        if found:
            self.starts[period] = found
            self.add_spell(period)

    def add_spell(self, first: int) -> None:
        """A spell that begins in a period is the last one before each stop that it is best for."""
        unit, value = self.unit, self.starts[first][0]
        self.ends[first], self.trails[first] = self.spell(first)
        for last, (level, earned, _) in self.ends[first].items():
            on = last + 1 - max(0, first) + (unit.up0 if first < 0 else 0)
            total = value + earned
            if last < self.last and on >= unit.min_up and total >= self.stops.get(last + 1, (total,))[0]:
                self.stops[last + 1] = (total, first)

    def spell(self, first: int) -> tuple[Ends, list[Concave]]:
        """For each last period: the power there, the earnings, and what that power came from. And what the powers before came from."""
        unit = self.unit
        ends: Ends = {}
        trail: list[Concave] = []
        past: Optional[Concave] = Concave(unit.level0 if first < 0 else 0, 0, [])
        for period in range(max(0, first), self.last + 1):
            if unit.marks[period] == 0 or past is None:
                break
            if period < self.last:
                now, source = self.go_on(past, unit.room_in(period, first, period), period)
                now = now and now.within(0, unit.down)
                if now:
                    ends[period] = (*now.top(), source)
            past, source = self.go_on(past, unit.room_in(period, first, None), period)
            trail.append(source)
            if period == self.last and past:
                ends[period] = (*past.top(), source)
        return ends, trail

    def go_on(self, past: Concave, room: int, period: int) -> tuple[Optional[Concave], Concave]:
        """The best up to a period by the power there, or None where there is no power; and what it comes from, by the power before.

        With the power x before it, and y in it, a unit keeps the lesser of room - y and up + x - y in reserve, where that earns.
        """
        unit, kept = self.unit, self.reserve[period]
        bend = max(past.low, min(room - unit.up, past.high))
        spare = Concave(
            past.low, kept * min(room, unit.up + past.low), [(bend - past.low, kept), (past.high - bend, 0)]
        )
        source = past + spare
        now = source.within_reach(unit.up, unit.down).within(0, room)
        if now is None:
            return None, source
        price = self.energy[period]
        worth = Concave(0, price * unit.least - unit.cost(0), [(n, price - kept - slope) for n, slope in unit.steps])
        here = worth.within(now.low, now.high)
        assert here is not None
        return now + here, source

    def best(self) -> Spell:
        """What is earned at best, and the last spell as (first, last) where there is one."""
        unit = self.unit
        found: Optional[Spell] = None
        for off, (value, first) in sorted(self.stops.items()):
            if unit.may_be(0, off, self.last) and (found is None or value > found[0]):
                found = (value, first, off - 1)
        for first in sorted(self.ends, reverse=True):
            if self.last in self.ends[first]:
                value = self.starts[first][0] + self.ends[first][self.last][1]
                if found is None or value > found[0]:
                    found = (value, first, self.last)
        assert found is not None
        return found

    def rows(self) -> Rows:
        """Flags, powers and reserves, one triple a period."""
        rows: Rows = [(0, 0, 0)] * (self.last + 1)
        _, first, last = self.best()
        while first is not None:
            rows[max(0, first) : last + 1] = self.rows_of(first, last)
            off = self.starts[first][1]
            first, last = (None, -1) if off is None else (self.stops[off][1], off - 1)
        return rows

    def rows_of(self, first: int, last: int) -> Rows:
        unit, begin = self.unit, max(0, first)
        level, _, source = self.ends[first][last]
        levels = [level]
        for source in [source, *reversed(self.trails[first][: last - begin])]:
            reached = source.within(levels[0] - unit.up, levels[0] + unit.down)
            assert reached is not None
            levels.insert(0, reached.top()[0])
        stop = last if last < self.last else None
        rooms = [unit.room_in(it, first, stop) for it in range(begin, last + 1)]
        prices = self.reserve[begin : last + 1]
        kept = [min(room, unit.up + x) - y for room, x, y in zip(rooms, levels, levels[1:])]
        return [(1, unit.least + y, it if price else 0) for y, it, price in zip(levels[1:], kept, prices)]


def worth(blocks: Runs, power: int) -> int:
    """Of what a bid buys in a period: its blocks in order."""
    total = 0
    for width, price in blocks:
        taken = min(width, power)
        total, power = total + taken * price, power - taken
    return total


Response = tuple[str, str, list[Sequence[int]], int, int]


class Case:
    """A case and a schedule as they are read."""

    def __init__(self, case: dict[str, Any], schedule: dict[str, Any]) -> None:
        self.periods = int(case["time_periods"])
        self.demand, self.required = ([kilowatts(it) for it in case[word]] for word in ("demand", "reserves"))
        self.thermal = {name: Thermal(it, self.periods) for name, it in case["thermal_generators"].items()}
        self.renewable: dict[str, list[tuple[int, ...]]] = {
            name: list(zip(*([kilowatts(x) for x in unit[f"power_output_{end}imum"]] for end in ("min", "max"))))
            for name, unit in case["renewable_generators"].items()
        }
        self.bids = {
            name: [[(kilowatts(one["mw"]), kilowatts(one["price"])) for one in period] for period in bid["blocks"]]
            for name, bid in case.get("demand_bids", {}).items()
        }
        self.plan = {name: list(zip(*(it[word] for word in LISTS))) for name, it in schedule["thermal"].items()}
        self.given, self.bought = schedule["renewable"], schedule.get("bids", {})
        produced = sum(unit.cost_of(self.plan[name]) for name, unit in self.thermal.items())
        self.cost = produced - sum(
            worth(blocks, power) for name, all_ in self.bids.items() for blocks, power in zip(all_, self.bought[name])
        )

    def flat(self, period: int, price: int) -> int:
        """What renewable units and bids earn at best in a period."""
        sold = sum(max(price * least, price * most) for least, most in (it[period] for it in self.renewable.values()))
        return sold + sum(width * max(0, of - price) for it in self.bids.values() for width, of in it[period])

    def bound(self, whole: int, mixture: Mixture) -> int:
        """On the dual value of all prices within the limits. All that the price adds is straight between the prices that are tried."""
        entries = [(share, rows) for it in mixture.values() for share, rows in it]
        total = sum(share * self.thermal[name].cost_of(rows) for name, it in mixture.items() for share, rows in it)
        for t in range(self.periods):
            lack = whole * self.demand[t] - sum(share * rows[t][1] for share, rows in entries)
            short = whole * self.required[t] - sum(share * rows[t][2] for share, rows in entries)
            tried = {0, -LARGEST_PRICE, LARGEST_PRICE} | {of for it in self.bids.values() for _, of in it[t]}
            total += max(it * lack - whole * self.flat(t, it) for it in tried) + max(0, LARGEST_PRICE * short)
        return total // whole

    def responses(self, energy: list[int], reserve: list[int]) -> Iterator[Response]:
        """For each unit: its kind, name and lists, and what its best response and its schedule earn."""
        for name, unit in self.thermal.items():
            answer = Answer(unit, energy, reserve)
            rows, earned = answer.rows(), answer.best()[0]
            assert unit.is_feasible(rows) and unit.earned(rows, energy, reserve) == earned, name
            yield "thermal", name, list(zip(*rows)), earned, unit.earned(self.plan[name], energy, reserve)
        for name, ranges in self.renewable.items():
            powers = [most if price > 0 else least for price, (least, most) in zip(energy, ranges)]
            earned, scheduled = (sum(a * b for a, b in zip(energy, it)) for it in (powers, self.given[name]))
            yield "renewable", name, [powers], earned, scheduled
        for name, blocks in self.bids.items():
            powers = [sum(width for width, of in them if of > price) for price, them in zip(energy, blocks)]
            earned, scheduled = (
                sum(worth(them, x) - price * x for price, them, x in zip(energy, blocks, bought))
                for bought in (powers, self.bought[name])
            )
            yield "bid", name, [powers], earned, scheduled

    def settlement(self, energy: list[int], reserve: list[int]) -> list[str]:
        """The lines from `value` to `gap`."""
        lines, supplied, reserved, value, paid = [], [0] * self.periods, [0] * self.periods, 0, 0
        for kind, name, lists, earned, scheduled in self.responses(energy, reserve):
            words = LISTS if kind == "thermal" else ("power",)
            powers = lists[words.index("power")]
            supplied = [a + (-b if kind == "bid" else b) for a, b in zip(supplied, powers)]
            reserved = [a + b for a, b in zip(reserved, lists[2])] if kind == "thermal" else reserved
            value, paid = value - earned, paid + earned - scheduled
            of = f"earned {earned} scheduled {scheduled} payment {earned - scheduled}"
            lines += [f"unit {kind} {quoted(name)} {of}", *(told(word, it) for word, it in zip(words, lists))]
        value += sum(p * d + r * q for p, d, r, q in zip(energy, self.demand, reserve, self.required))
        kept = [sum(rows[t][2] for rows in self.plan.values()) for t in range(self.periods)]
        surplus = sum(price * (it - due) for price, it, due in zip(reserve, kept, self.required))
        sums = [told("supplied", supplied), told("reserved", reserved)]
        front = [f"value {value}", told("energy", energy), told("reserve", reserve), *sums]
        return [*front, *lines, f"surplus {surplus}", f"payments {paid}", f"gap {self.cost - value}"]


def told(word: str, numbers: Sequence[int]) -> str:
    return " ".join([word, *map(str, numbers)])


def quoted(name: str) -> str:
    text = name.replace("\\", "\\\\").replace('"', '\\"')
    return '"' + "".join(f"\\u{ord(it):04x}" if it < " " else it for it in text) + '"'


def read(name: str) -> Any:
    """A JSON file, its decimals as they stand there."""
    with open(name, encoding="utf-8") as file:
        return json.load(file, parse_float=Decimal)


def numbers(line: str, word: str) -> list[int]:
    """What stands behind the word of a line."""
    first, *rest = line.split(" ")
    assert first == word, line
    return [int(it) for it in rest]


def read_mixture(case: Case, lines: list[str]) -> tuple[Mixture, int]:
    """The mixture of a text, from the line behind `weight` on, and how many lines it takes."""
    mixture: Mixture = {}
    at = 0
    for name in case.thermal:
        head = f"mixture thermal {quoted(name)} entries "
        assert lines[at].startswith(head), lines[at]
        count = int(lines[at][len(head) :])
        heads = range(at + 1, at + 1 + 4 * count, 4)
        mixture[name] = [
            (numbers(lines[i], "share")[0], list(zip(*(numbers(lines[i + 1 + k], LISTS[k]) for k in range(3)))))
            for i in heads
        ]
        at += 1 + 4 * count
    return mixture, at


def check_mixture(case: Case, whole: int, mixture: Mixture) -> None:
    """Each unit's shares sum to the whole, and each entry is a feasible schedule of the unit."""
    for name, entries in mixture.items():
        assert sum(share for share, _ in entries) == whole and all(share > 0 for share, _ in entries), name
        assert all(len(rows) == case.periods and case.thermal[name].is_feasible(rows) for _, rows in entries), name


def due(case: Case, text: str) -> str:
    """The text that is due for the prices and the mixture of a text, for what it says of the search, and for nothing else of it."""
    lines = text.split("\n")
    of = {line.split(" ")[0]: line for line in reversed(lines)}
    energy, reserve = numbers(of["energy"], "energy"), numbers(of["reserve"], "reserve")
    assert all(abs(it) <= LARGEST_PRICE for it in energy) and all(0 <= it <= LARGEST_PRICE for it in reserve)
    whole, behind = numbers(of["weight"], "weight")[0], lines.index(of["weight"]) + 1
    mixture, count = read_mixture(case, lines[behind:])
    check_mixture(case, whole, mixture)
    units = len(case.thermal) + len(case.renewable) + len(case.bids)
    head = ["hull-convex 1", f"periods {case.periods}", f"units {units}", f"cost {case.cost}"]
    settled, bound = case.settlement(energy, reserve), case.bound(whole, mixture)
    value = numbers(settled[0], "value")[0]
    end = [f"bound {bound}", f"distance {bound - value}", f"least {max(0, case.cost - bound)}", "end", ""]
    searched = [told(word, numbers(of[word], word)) for word in ("within", "rounds", "made")]
    return "\n".join([*head, *searched, *settled, f"weight {whole}", *lines[behind : behind + count], *end])
