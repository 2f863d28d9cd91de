"""Periods as people name them, and prices per MWh where the length of a period is known."""
import re
from dataclasses import dataclass
from datetime import datetime, timedelta
from decimal import Decimal
from fractions import Fraction
from typing import List, Optional, Union

from .day_lengths import changed_day, example_with_offset, in_parts, length_on_change
from .errors import HullError

THOUSANDTHS = 1000


@dataclass(frozen=True)
class Clock:
    """The length of a period in hours and the start of the first one, as far as they are known."""

    hours: Optional[Fraction] = None
    start: Optional[datetime] = None

    @property
    def price_unit(self) -> str:
        return "per MWh" if self.hours else "per MW and period"

    @property
    def price_suffix(self) -> str:
        """The end of a head of prices in a table."""
        return "per_mwh" if self.hours else "per_mw"

    def price(self, millionths: Union[int, Fraction]) -> Fraction:
        """A price in millionths per kilowatt and period as the currency per MWh, or per MW and period."""
        return Fraction(millionths) / THOUSANDTHS / (self.hours or 1)

    def price_text(self, millionths: int) -> str:
        """The price for people."""
        return f"{float(self.price(millionths)):,.3f}"

    def price_number(self, millionths: Union[int, Fraction]) -> Decimal:
        """The price for a table: exact, or to a billionth where a mean or a price per MWh has more digits."""
        exact = self.price(millionths)
        return (Decimal(exact.numerator) / exact.denominator).quantize(Decimal("1e-9")).normalize() + Decimal(0)

    def need_length(self, periods: int) -> None:
        """Refuses a start without the length of a period where so many are most likely no hours."""
        what = in_parts(periods)
        if self.start is not None and self.hours is None and what:
            raise HullError(f"--start needs --hours-per-period here: {periods} periods may be {what}")

    def why_unknown(self, periods: int) -> str:
        """In a sentence why the hours aren't known though the start is; empty where they are.

        Where clocks change within the periods only an offset from UTC says which hour is which.
        """
        if self.start is None or self.start.tzinfo or length_on_change(periods) != (self.hours or 1):
            return ""
        example = example_with_offset(self.start, periods)
        return (
            f"Periods have numbers and no hours: {periods} of them are {changed_day(periods)}. "
            f"A start with its offset from UTC, as {example}, gives them hours of that offset."
        )

    def times(self, periods: int) -> List[str]:
        """The beginning of each period; an empty text where it isn't known."""
        if self.start is None or self.why_unknown(periods):
            return [""] * periods
        length = timedelta(seconds=float((self.hours or 1) * 3600))
        begins = [self.start + t * length for t in range(periods)]
        is_exact = not any(time.second or time.microsecond for time in begins)
        part = "minutes" if is_exact else "seconds" if not any(time.microsecond for time in begins) else "milliseconds"
        return [time.isoformat(timespec=part) for time in begins]

    def labels(self, periods: int) -> List[str]:
        """What stands below a period in a picture: its time of day, or its number."""
        return [re.split("[-+]", it.split("T")[1])[0] if it else str(t) for t, it in enumerate(self.times(periods), 1)]

    def rows(self, periods: int) -> List[str]:
        """What stands beside a period in a table for people."""
        return [it.replace("T", " ") or str(t) for t, it in enumerate(self.times(periods), 1)]

    def axis(self, periods: int) -> str:
        if self.start is None or self.why_unknown(periods):
            return "period"
        offset = f", {self.start.tzname()}" if self.start.tzinfo else ""
        return f"beginning of the period{offset}"
