"""What is odd in a thermal unit though `hull` takes it: its state before period 1, limits, ramps, times and windows."""
from __future__ import annotations

from dataclasses import dataclass
from typing import Iterator, Optional, Tuple

from .cases import Thermal
from .lint_findings import megawatts

SLOW_RAMP = 0.05  # a ramp below this share of the greatest power an hour is odd


@dataclass(frozen=True)
class Oddity:
    """What is odd of a unit: the rule, the field whose line is told, a sentence without the unit's name, and a period where there is one."""

    rule: str
    field: str
    text: str
    period: Optional[int] = None


def oddities(unit: Thermal, hours: float) -> Iterator[Oddity]:
    """All that is odd of a unit in periods of so many hours, but for its costs."""
    yield from state_oddities(unit)
    yield from time_oddities(unit)
    yield from limit_oddities(unit)
    slow = list(ramp_oddities(unit, hours))
    yield from slow
    if not slow:  # (a wrong ramp would make a right power odd)
        yield from start_oddities(unit)
    found = contradiction(unit)
    if found:
        yield found


def state_oddities(unit: Thermal) -> Iterator[Oddity]:
    """The power before period 1 against the flag, the range and the ramps."""
    key, power = "power_output_t0", megawatts(unit.power0)
    if not unit.on0:
        if unit.power0:
            what = f"it is off before period 1 (unit_on_t0 0), so its {key} of {power} is skipped"
            yield Oddity("off-with-power", key, f"{what}: give unit_on_t0 1 if it was on, or a power of 0")
        return
    if unit.power0 < unit.least:
        reach = unit.power0 + unit.ramp_up
        barred = (
            f". Its upward ramp of {megawatts(unit.ramp_up)} doesn't take it there in period 1, so it can't stay on"
        )
        yield Oddity(
            "on-below-least",
            key,
            f"it is on before period 1 (unit_on_t0 1) with {key} {power}, below its least power of {megawatts(unit.least)}"
            f"{barred if reach < unit.least else ''}: give the power that it had, or unit_on_t0 0",
        )
    elif unit.power0 > unit.most:
        low = unit.power0 - unit.ramp_down
        barred = (
            f". Its downward ramp of {megawatts(unit.ramp_down)} doesn't bring it down in period 1, so it can't stay on"
        )
        yield Oddity(
            "on-above-greatest",
            key,
            f"it is on before period 1 with {key} {power}, above its greatest power of {megawatts(unit.most)}"
            f"{barred if low > unit.most else ''}: mend {key}",
        )


def start_oddities(unit: Thermal) -> Iterator[Oddity]:
    """A power before period 1 that no start so many periods before could have reached."""
    key, power = "power_output_t0", megawatts(unit.power0)
    if unit.on0 and unit.up0 and highest_before(unit) < unit.power0 <= unit.most:
        yield Oddity(
            "on-above-ramps",
            key,
            f"it is on for {unit.up0} {'period' if unit.up0 == 1 else 'periods'} before period 1 (time_up_t0) with {key} {power}. With a "
            f"start limit of {megawatts(unit.start_limit)} and an upward ramp of {megawatts(unit.ramp_up)} it has reached at most "
            f"{megawatts(highest_before(unit))} by then: mend {key} or time_up_t0",
        )


def highest_before(unit: Thermal) -> int:
    """The most that a unit can give in period 0, when it started as its limits have it."""
    return max(unit.start_limit, unit.least) + (unit.up0 - 1) * unit.ramp_up


def time_oddities(unit: Thermal) -> Iterator[Oddity]:
    """The times before period 1 against the flag, and against each other."""
    state, other = ("on", "off") if unit.on0 else ("off", "on")
    spent, key = (unit.up0, "time_up_t0") if unit.on0 else (unit.down0, "time_down_t0")
    against, other_key = (unit.down0, "time_down_t0") if unit.on0 else (unit.up0, "time_up_t0")
    begins = f"it is {state} before period 1 (unit_on_t0 {unit.on0})"
    if not spent and against:
        yield Oddity(
            "times-contradict",
            key,
            f"{begins}, but {key} is 0 and {other_key} is {against}, as if it were {other}: mend unit_on_t0 or the two times",
        )
    elif not spent:
        yield Oddity(
            "time-missing", key, f"{begins}, but {key} is 0: give for how many periods it has been {state}, at least 1"
        )
    elif against:
        yield Oddity(
            "times-contradict",
            other_key,
            f"{begins} for {spent} periods ({key}), but {other_key} is {against}: a unit that is {state} has {other_key} 0",
        )


def limit_oddities(unit: Thermal) -> Iterator[Oddity]:
    """Limits that bar each start, or each stop."""
    least = megawatts(unit.least)
    rows = (
        ("start", "ramp_startup_limit", unit.start_limit, unit.must_run and unit.on0),
        ("stop", "ramp_shutdown_limit", unit.stop_limit, unit.must_run),
    )
    for verb, key, limit, never in rows:
        if limit < unit.least and not never:
            yield Oddity(
                f"never-{verb}s",
                key,
                f"it can never {verb}: its {key} of {megawatts(limit)} is below its least power of {least}. "
                f"A {verb} needs a limit of at least the least power",
            )


def ramp_oddities(unit: Thermal, hours: float) -> Iterator[Oddity]:
    """Ramps that are very slow, as megawatts a minute are."""
    for key, ramp in (("ramp_up_limit", unit.ramp_up), ("ramp_down_limit", unit.ramp_down)):
        if ramp < min(SLOW_RAMP * hours * unit.most, unit.most - unit.least):
            share = 100 * ramp / hours / unit.most
            yield Oddity(
                "slow-ramp",
                key,
                f"its {key} of {megawatts(ramp)} a period is {share:.1f} % of its greatest power an hour. Is it in MW per minute? "
                f"{megawatts(ramp)} a minute are {megawatts(60 * hours * ramp)} a period",
            )


def clash(unit: Thermal) -> Optional[Tuple[int, str, str]]:
    """The first period in which two rules leave the unit no flag, the rules in words, and the field of the first."""
    low, high = unit.on_bounds()
    t = next((t for t in range(len(low)) if low[t] > high[t]), None)
    if t is None:
        return None
    on, key = ("it is must-run", "must_run") if unit.must_run else ("", "")
    if unit.on0 and t < unit.min_up - unit.up0:
        on, key = "its minimum time up isn't over", "time_up_t0"
    elif t == 0 and unit.is_too_high_to_stop:
        limit = "stop limit" if unit.power0 > unit.stop_cap else "least power by more than its downward ramp"
        on, key = on or f"its initial output is above its {limit}, so it can't stop in period 1", "power_output_t0"
    off = "its window says off" if unit.marks[t] == 0 else "its minimum time down isn't over"
    return t + 1, f"{on or 'its window says on'}, and {off}", key or "commitment"


def contradiction(unit: Thermal) -> Optional[Oddity]:
    found = clash(unit)
    if found is None:
        return None
    period, why, key = found
    return Oddity("neither-on-nor-off", key, f"in period {period} it can be neither on nor off: {why}", period)
