"""How many periods days have, also where clocks change within them."""
from __future__ import annotations

from dataclasses import dataclass
from datetime import datetime
from fractions import Fraction
from typing import Optional

PARTS = {1: "hours", 2: "half hours", 4: "quarter hours"}  # by how many periods an hour has
COUNTS = ("", "a day", "two days", "three days", "four days", "five days", "six days")

# Periods of days that are most likely in half hours or quarter hours.
IN_PARTS = (46, 50, 92, 94, 96, 98, 100, 142, 146)


@dataclass(frozen=True)
class ClockChange:
    """Days that are an hour longer or shorter than others, since clocks change on one of them."""

    days: int
    parts: int  # how many periods an hour has
    is_longer: bool

    @property
    def usual(self) -> int:
        """How many periods so many days have where no clock changes."""
        return 24 * self.parts * self.days

    @property
    def in_words(self) -> str:
        go = "clocks go back" if self.is_longer else "clocks go forward"
        if self.days == 1:
            parts = "" if self.parts == 1 else f" in {PARTS[self.parts]}"
            return f"a day of {25 if self.is_longer else 23} hours{parts}, on which {go}"
        if self.days == 7:
            return f"a week of {PARTS[self.parts]}, in which {go}"
        count = COUNTS[self.days] if self.days < len(COUNTS) else f"{self.days} days"
        return f"{count} of {PARTS[self.parts]}, on one of which {go}"


def clock_change(periods: int) -> Optional[ClockChange]:
    """The days that so many periods are, where these are days of a clock change; no number is so in two ways."""
    for parts in PARTS:
        days = (periods + 12 * parts) // (24 * parts)
        if days and abs(periods - 24 * parts * days) == parts:
            return ClockChange(days, parts, periods > 24 * parts * days)
    return None


def example_with_offset(start: datetime, periods: int) -> str:
    """A start with the offset that Central Europe has before such a change, as an example: one that is copied there is right."""
    change = clock_change(periods)
    return f"{start.isoformat(timespec='minutes')}{'+02:00' if change and change.is_longer else '+01:00'}"


def is_usual(periods: int) -> bool:
    """Whether so many periods are whole days of hours, half hours or quarter hours."""
    return periods > 0 and periods % 24 == 0


def length_on_change(periods: int) -> Optional[Fraction]:
    """How long a period is in hours, where so many are days of a clock change; None where they are none."""
    change = clock_change(periods)
    return Fraction(1, change.parts) if change else None


def changed_day(periods: int) -> Optional[str]:
    """What a number of periods is on which clocks change; None where it is none."""
    change = clock_change(periods)
    return change.in_words if change else None


def in_parts(periods: int) -> Optional[str]:
    """What so many periods may be, where they are most likely no hours; None elsewhere."""
    return (changed_day(periods) or "a day of quarter hours") if periods in IN_PARTS else None


def hint_of_length(found: int, periods: int) -> Optional[str]:
    """Which of two numbers of periods has a clock change, where they otherwise are the same stretch of time."""
    listed, due = clock_change(found), clock_change(periods)
    if listed and listed.usual == periods:
        what = "an hour too many" if listed.is_longer else "an hour too few"
        return f"{found} periods are {listed.in_words}, and the case has {periods}: the list has {what}, or it is of another day"
    if due and due.usual == found:
        return f"the case's {periods} periods are {due.in_words}, and the list has {found}: it is of another day, or without that change"
    return None
