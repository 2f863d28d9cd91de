"""Numbers of other programs' files: decimals, lists over time, times in periods, and the parts that all converters share."""
from __future__ import annotations

import re
from decimal import Decimal
from fractions import Fraction
from typing import Any, Callable, List, Optional, Sequence, Tuple

from ..errors import HullError, one_line
from ..json_texts import Refused, counted, is_number
from ..numbers import kilowatts
from .notes import Notes, Object

NO_LIMIT = Decimal(10) ** 6  # what other programs write where there is no limit, or more
MOST_PERIODS = 100_000  # (hull takes far fewer, and says so)
CELL = re.compile(r"[+-]?([0-9]+\.?[0-9]*|\.[0-9]+)([eE][+-]?[0-9]+)?")


def cell_number(text: str, what: str) -> Decimal:
    """The number of a cell: finite, with no more digits and no larger exponent than a number of a JSON text has."""
    if not CELL.fullmatch(text):
        raise HullError(one_line(f"{what}: a number is due, and {text[:60]!r} is found"))
    try:
        return Decimal(counted(text.lstrip("+")))
    except Refused as why:
        raise HullError(one_line(f"{what}: {why}")) from None


def length_in_words(minutes: Fraction) -> str:
    """A length of time in minutes, for people."""
    return f"{Decimal(minutes.numerator) / minutes.denominator:.6g} minutes"


def periods_of(number: Fraction, what: str) -> int:
    """How many periods there are."""
    if number.denominator != 1 or not 1 <= number <= MOST_PERIODS:
        raise HullError(f"{what}: it isn't a whole number of time steps from 1 to {MOST_PERIODS:,}")
    return int(number)


def decimal(value: Any, what: str) -> Decimal:
    """A number of a file."""
    if isinstance(value, bool) or not is_number(value):
        raise HullError(f"{one_line(what)}: a number is due, and {value!r} is found")
    return Decimal(value)


def flag(value: Any, what: str) -> bool:
    """What is true or false, or 1 or 0; a text such as "0" isn't taken, since it is told apart from no other text."""
    if isinstance(value, bool) or is_number(value) and value in (0, 1):
        return bool(value)
    raise HullError(f"{one_line(what)}: true, false, 0 or 1 is due, and {one_line(repr(value)[:60])} is found")


def series(value: Any, periods: int, what: str) -> List[Decimal]:
    """A number for each period: a list of them, or one for all."""
    if isinstance(value, list):
        if len(value) != periods:
            raise HullError(f"{one_line(what)}: {periods} numbers are due, and {len(value)} are found")
        return [decimal(it, what) for it in value]
    return [decimal(value, what)] * periods


def constant(
    value: Any, periods: int, pick: Callable[[Sequence[Decimal]], Decimal], what: str, notes: Notes, name: str
) -> Decimal:
    """One number for all periods; of a list over them that varies the one that is picked, which is noted."""
    found = series(value, periods, f"{name}, {what}")
    if len(set(found)) > 1:
        notes.left_out(
            f"{what} that changes over time: its {'least' if pick is min else 'greatest' if pick is max else 'first'} is taken",
            name,
        )
    return pick(found)


def pairs(value: Any, what: str) -> List[Tuple[Any, Any]]:
    """A list of pairs."""
    if not isinstance(value, list) or not all(isinstance(it, list) and len(it) == 2 for it in value):
        raise HullError(f"{one_line(what)}: a list of pairs is due")
    return [(one, other) for one, other in value]


def first(found: Sequence[Decimal]) -> Decimal:
    return found[0]


def in_periods(hours: Any, per_hour: Fraction, what: str, notes: Notes, name: str) -> int:
    """A time in hours as periods, rounded up where it is no whole number of them, which is noted."""
    time = Fraction(decimal(hours, f"{name}, {what}")) * per_hour
    if time < 0:
        raise HullError(one_line(f"{name}, {what}: a time is at least 0, and {hours} is found"))
    whole = -(-time.numerator // time.denominator)
    if whole != time:
        notes.changed(f"{what} that is no whole number of periods is rounded up", name)
    return whole


def status_of(hours: Any, per_hour: Fraction, what: str, notes: Notes, name: str) -> int:
    """A signed time in hours before period 1 as periods: on for so long, or off where it is below 0."""
    number = decimal(hours, f"{name}, {what}")
    if not number:
        raise HullError(one_line(f"{name}, {what}: it is above 0 of a unit that is on, and below 0 of one that is off"))
    periods = in_periods(abs(number), per_hour, what, notes, name)
    return periods if number > 0 else -periods


def scaled(number: Decimal, factor: Fraction) -> Decimal:
    """The number times a factor, exactly where that has few digits."""
    return number * factor.numerator / factor.denominator


def in_pieces(least: Decimal, most: Decimal, pieces: int) -> List[Decimal]:
    """The powers where the pieces of a cost begin and end, in whole kilowatts, as hull reads them: so each cost is that of its power."""
    powers = [*(least + (most - least) * i / pieces for i in range(pieces)), most]
    return [Decimal(kilowatts(it)) / 1000 for it in powers]


def limit(value: Optional[Decimal], most: Decimal) -> Decimal:
    """A limit on power or ramps; the greatest power where there is none."""
    return most if value is None or value >= NO_LIMIT else value


def sum_of(rows: List[List[Decimal]], periods: int) -> List[Decimal]:
    """The sum of lists in each period."""
    return [sum((row[t] for row in rows), Decimal(0)) for t in range(periods)]


def lists_out_negative(demand: List[Decimal], what: str) -> None:
    """Refuses a demand below 0, but for what sums of floating numbers leave of 0 in whole kilowatts."""
    t = next((t for t, it in enumerate(demand) if kilowatts(it) < 0), None)
    if t is not None:
        raise HullError(f"{what}: demand sums to {demand[t]} MW in period {t + 1}, and hull has none below 0")


def state_before(status: Optional[int], free: int, notes: Notes, name: str) -> Object:
    """The fields of the state before period 1 of a signed number of periods: on for so many, or off; None where the file doesn't say."""
    if status is None:
        notes.assumed("no initial status: the unit is off before period 1, for long enough to be free", name)
        status = -max(1, free)
    on = int(status > 0)
    return {"unit_on_t0": on, "time_up_t0": status if on else 0, "time_down_t0": 0 if on else max(1, -status)}


def points_of(powers: List[Decimal], costs: List[Decimal], what: str) -> List[Object]:
    if not powers or len(powers) != len(costs):
        raise HullError(f"{one_line(what)}: {len(powers)} powers and {len(costs)} costs")
    return [{"mw": mw, "cost": cost} for mw, cost in zip(powers, costs)]
