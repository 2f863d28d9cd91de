"""Which rules a thermal unit's schedule breaks, by the table of status 4 in docs/FAULTS.md, for the tiny units of plain.py.

It shares nothing with the program, and looks at spells where plain.py looks at periods. A broken rule is (period, left, right); period 0 is
the state before the horizon.
"""
from __future__ import annotations

import itertools
from collections.abc import Callable, Iterator
from dataclasses import dataclass

import plain

Broken = Iterator[tuple[int, int, int]]
Schedule = tuple[tuple[bool, int, int], ...]


@dataclass
class Spell:
    """Periods in a row that a unit is on, or off."""

    on: bool
    first: int
    last: int

    @property
    def length(self) -> int:
        return self.last - self.first + 1


class Rules:
    """A unit and a schedule of it: flags from period 0 on, power and reserve together, and powers above the least one."""

    def __init__(self, unit: plain.Thermal, schedule: Schedule) -> None:
        self.unit, self.schedule, self.periods = unit, schedule, len(schedule)
        self.on = [bool(unit.on0), *(on for on, _, _ in schedule)]
        self.both = [unit.power0, *(power + reserve for _, power, reserve in schedule)]
        powers = [unit.power0, *(power for _, power, _ in schedule)]
        self.above = [power - unit.least if on else 0 for on, power in zip(self.on, powers)]
        self.spells = []
        for on, places in itertools.groupby(range(self.periods + 1), self.on.__getitem__):
            found = list(places)
            self.spells.append(Spell(on, found[0], found[-1]))

    def must_run(self) -> Broken:
        return ((t, 0, 1) for t in self.each_period() if self.unit.must_run and not self.on[t])

    def initial(self) -> Broken:
        unit = self.unit
        due = unit.min_up - unit.up0 if unit.on0 else unit.min_down - unit.down0
        return ((t, self.on[t], self.on[0]) for t in self.each_period() if t <= due and self.on[t] != self.on[0])

    def each_period(self) -> range:
        return range(1, self.periods + 1)

    def too_short(self, on: bool, due: int) -> Broken:
        """The spells that begin and end within the horizon."""
        within = (it for it in self.spells if it.on == on and it.first > 0 and it.last < self.periods)
        return ((it.last + 1, it.length, due) for it in within if it.length < due)

    def ranges(self) -> Broken:
        unit = self.unit
        for t, (on, power, reserve) in enumerate(self.schedule, 1):
            if not on and power + reserve:
                yield t, power or reserve, 0
            elif on and power < unit.least:
                yield t, unit.least, power
            elif on and power + reserve > unit.most:
                yield t, power + reserve, unit.most

    def above_cap(self, periods: list[int], limit: int) -> Broken:
        cap = min(limit, self.unit.most)
        return ((t, self.both[t], cap) for t in periods if self.both[t] > cap)

    def starts(self) -> Broken:
        return self.above_cap([it.first for it in self.spells if it.on and it.first], self.unit.start_limit)

    def stops(self) -> Broken:
        return self.above_cap([it.last for it in self.spells if it.on and it.last < self.periods], self.unit.stop_limit)

    def rises(self) -> Broken:
        for t, (_, _, reserve) in enumerate(self.schedule, 1):
            rise = self.above[t] + reserve - self.above[t - 1]
            if rise > self.unit.ramp_up:
                yield t, rise, self.unit.ramp_up

    def falls(self) -> Broken:
        for t, (before, after) in enumerate(zip(self.above, self.above[1:]), 1):
            if before - after > self.unit.ramp_down:
                yield t, before - after, self.unit.ramp_down

    def windows(self) -> Broken:
        for t, mark in enumerate(self.unit.window, 1):
            if mark is not None and self.on[t] != bool(mark):
                yield t, self.on[t], mark


# By code, in the order in which they are told.
ORDER: dict[int, Callable[[Rules], Broken]] = {
    44: Rules.must_run,
    45: Rules.initial,
    46: lambda it: it.too_short(True, it.unit.min_up),
    47: lambda it: it.too_short(False, it.unit.min_down),
    48: Rules.ranges,
    49: Rules.starts,
    50: Rules.stops,
    51: Rules.rises,
    52: Rules.falls,
    56: Rules.windows,
}


def first_broken(unit: plain.Thermal, schedule: Schedule) -> tuple[int, int, int, int] | None:
    """Code, period, left and right of the first rule that the schedule breaks; None where it is feasible."""
    rules = Rules(unit, schedule)
    for code, broken in ORDER.items():
        found = next(broken(rules), None)
        if found:
            period, left, right = found
            return code, period, int(left), int(right)
    return None
