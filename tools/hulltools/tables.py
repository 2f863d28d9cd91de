"""Tables of the texts that `hull` prints, for spreadsheets and data frames.

Each table is a list of heads and a list of rows. A head ends with the unit of its numbers, which are the text's own, in kilowatts
and millionths; or, with `currency`, megawatts and the currency, exact all the same.
"""
import csv
import io
import re
from collections.abc import Iterable, Sequence
from datetime import datetime, timezone
from decimal import Decimal
from fractions import Fraction
from typing import TYPE_CHECKING, Any, Optional, SupportsFloat, Union, cast

from .beside import need_beside
from .cases import Case
from .costs import Costs
from .day_lengths import changed_day, example_with_offset, in_parts, length_on_change
from .numbers import decimal_text
from .errors import HullError, one_line
from .options import float_of, is_whole_number, number_option, time_of_text, told_value
from .outputs import Convex, Fixed, Owed, Priced, Report, Settlement, Text
from .schedules import Schedule
from .telling import is_shown, write_text

if TYPE_CHECKING:
    from pandas import DataFrame

Start = Union[str, datetime]  # when the first period begins
Cell = Union[str, int, float, Decimal, None]
UNITS = {  # how a number is told: the places that the point moves, and the ends of the heads
    "kw": (3, "kw", "mw"),
    "money": (6, "millionths", "currency"),
    "price": (3, "millionths_per_kw", "currency_per_mw"),
}
# Where a spreadsheet may find a formula, an empty cell or the mark that tells these apart: at the beginning of a name, and behind what parts
# cells in one country or another.
# (A look ahead ends at the next such place, so that a name of any length is looked through once.)
PLACE = r"(?:\A|(?<=[;\t\r\n]))"
BEGUN = r"(?=[\t\r\n]|[^\S\t\r\n]*[=+\-@\uff1d\uff0b\uff0d\uff20'])"
FORMULA, MARK = re.compile(PLACE + BEGUN), re.compile(f"{PLACE}'{BEGUN}")


class Table:
    """A table that is filled row by row. `heads` are names, with the unit behind a colon where there is one.

    `money_name` stands in the heads for the currency. It is any text, so a colon before anything else than a unit is part of a name.
    """

    heads: list[str]
    rows: list[list[Cell]]

    def __init__(self, heads: Sequence[str], currency: bool, money_name: str = "currency") -> None:
        named = [head_and_unit(head) for head in heads]
        self.units = [unit for _, unit in named]
        ends = {unit: in_currency if currency else exact for unit, (_, exact, in_currency) in UNITS.items()}
        told = {unit: end.replace("currency", money_name) for unit, end in ends.items()}
        self.heads = [f"{name}_{told[unit]}" if unit else name for name, unit in named]
        self.currency = currency
        self.rows = []

    def add(self, *cells: Cell) -> None:
        self.rows.append([self.cell(it, unit) for it, unit in zip(cells, self.units)])

    def cell(self, value: Cell, unit: str) -> Cell:
        if not unit or not self.currency or isinstance(value, str) or not is_whole_number(value):
            return value
        return Decimal(decimal_text(int(cast(Any, value)), UNITS[unit][0]))

    def text(self, names_as_they_are: bool = False, is_shown: bool = False) -> str:
        """The table as comma separated values; shown at a terminal, a text is one line of what is printable."""
        rows: list[list[Cell]] = [[*self.heads], *self.rows]  # (a head has the currency's name, which is any text)
        if not names_as_they_are:
            rows = [[told_apart(cell) for cell in row] for row in rows]
        if is_shown:
            rows = [[one_line(cell) if isinstance(cell, str) else cell for cell in row] for row in rows]
        into = io.StringIO()
        csv.writer(into).writerows(rows)
        return into.getvalue()

    def write(self) -> None:
        """Writes it to standard output."""
        write_text(self.text(is_shown=is_shown()))


def head_and_unit(head: str) -> tuple[str, str]:
    """The name in a head, and the unit behind its last colon; an empty text where none is there."""
    name, _, unit = head.rpartition(":")
    return (name, unit) if unit in UNITS else (head, "")


def told_apart(cell: Cell) -> Cell:
    """The cell, with ' in front of what a spreadsheet would take for a formula, or of ' itself: at the beginning of a text or within."""
    return FORMULA.sub("'", cell) if isinstance(cell, str) else cell


def as_it_was(cell: str) -> str:
    """The text that `told_apart` made this one of."""
    return MARK.sub("", cell)


def told_apart_count(tables: dict[str, Table]) -> int:
    """How many names have such a place."""
    cells = {it for table in tables.values() for row in table.rows for it in row if isinstance(it, str)}
    return sum(FORMULA.search(it) is not None for it in cells)


PER_MW = "_currency_per_mw"
MOST_HOURS = 10_000
NUMBERS = ("budget", "ahead", "proposals", "chosen", "proposal", "periods", "units", "scheduled_on")  # without an end
HEADS = {
    "runs": "report command side periods units budget ahead proposals chosen cost:money value:money payments:money "
    "make_whole:money lost_opportunity:money surplus:money gap:money radius:price bound:money distance:money least:money",
    "proposals": "report proposal value:money chosen",
    "prices": "report side proposal chosen period energy:price reserve:price supplied:kw reserved:kw demand:kw requirement:kw",
    "units": "report side kind name earned:money scheduled:money payment:money make_whole:money lost_opportunity:money",
    "responses": "report kind name period on power:kw reserve:kw scheduled_on scheduled_power:kw scheduled_reserve:kw",
}


def tables_of(
    texts: Iterable[Text], case: Optional[Case] = None, schedule: Optional[Schedule] = None, currency: bool = False
) -> dict[str, Table]:
    """The tables of some texts by name; demand, requirement and the schedule stand beside where these are given."""
    tables, costs = {name: Table(heads.split(), currency) for name, heads in HEADS.items()}, Costs()
    for text in texts:
        if isinstance(text, (Report, Settlement, Convex, Fixed)):
            need_beside(text, case, schedule, costs)
        if isinstance(text, (Report, Settlement, Convex)):
            add_priced(tables, text, case, schedule)
        elif isinstance(text, Fixed):
            add_fixed(tables, text, case)
        else:
            add_run(tables, text, **vars(text))  # (a text of `hull bound` or `hull certify`, which has sums alone)
    return {name: it for name, it in tables.items() if it.rows}


def add_run(tables: dict[str, Table], text: Text, side: Optional[str] = None, **known: Any) -> None:
    keys = HEADS["runs"].replace(":money", "").replace(":price", "").split()[3:]
    tables["runs"].add(text.name, text.command, side, *(known.get(key) for key in keys))


def add_priced(
    tables: dict[str, Table],
    priced: Union[Report, Settlement, Convex],
    case: Optional[Case],
    schedule: Optional[Schedule],
) -> None:
    report = priced if isinstance(priced, Report) else None
    run = {key: value for key, value in vars(priced).items() if key not in ("units", "proposals", "mixture")}
    run.update(units=len(priced.units), value=priced.best.value, make_whole=priced.make_whole)
    run.update(lost_opportunity=priced.payments - priced.make_whole)
    if report:
        run.update(proposals=len(priced.proposals), chosen=report.chosen)
    add_run(tables, priced, **run)
    for row in priced.proposals:
        number, is_chosen = row.number if report else None, int(row is priced.best)
        if report:
            tables["proposals"].add(priced.name, number, row.value, is_chosen)
        for t in range(priced.periods):
            due = (case.demand[t], case.reserves[t]) if case else (None, None)
            lists = (row.energy[t], row.reserve[t], row.supplied[t], row.reserved[t])
            tables["prices"].add(priced.name, None, number, is_chosen, t + 1, *lists, *due)
    for unit in priced.units:
        sums = (unit.earned, unit.scheduled, unit.payment, unit.make_whole, unit.lost_opportunity)
        tables["units"].add(priced.name, None, unit.kind, unit.name, *sums)
        add_response(tables["responses"], priced, unit, schedule)


def add_response(table: Table, priced: Priced, unit: Owed, schedule: Optional[Schedule]) -> None:
    plan = schedule.plan(unit.kind, unit.name) if schedule else None
    for t in range(priced.periods):
        due = (plan.on[t], plan.power[t], plan.reserve[t]) if plan else (None, None, None)
        table.add(priced.name, unit.kind, unit.name, t + 1, unit.on[t], unit.power[t], unit.reserve[t], *due)


def add_fixed(tables: dict[str, Table], fixed: Fixed, case: Optional[Case]) -> None:
    for name, side in (("hull", fixed.hull), ("fixed", fixed.fixed)):
        gap = side.payments + side.surplus
        add_run(tables, fixed, name, **{**vars(side), "cost": fixed.cost, "units": len(fixed.units), "gap": gap})
        for t, (energy, reserve) in enumerate(zip(side.prices.energy, side.prices.reserve)):
            due = (case.demand[t], case.reserves[t]) if case else (None, None)
            tables["prices"].add(fixed.name, name, side.chosen, 1, t + 1, energy, reserve, None, None, *due)
        for kind, unit, of_hull, of_fixed in fixed.units:
            payment = of_fixed if name == "fixed" else of_hull
            tables["units"].add(fixed.name, name, kind, unit, None, None, payment, None, None)


def load_pandas() -> Any:
    """Pandas, which is loaded with the first data frame. Raises `HullError` where it isn't there."""
    try:
        import pandas
    except ImportError:
        raise HullError("data frames need pandas (Debian: python3-pandas)") from None
    return pandas


def frames_of(
    tables: dict[str, Table], start: Optional[Start] = None, hours_per_period: Optional[SupportsFloat] = None
) -> dict[str, "DataFrame"]:
    """The tables as data frames of pandas; numbers in the currency and MW are floating there.

    With a start, rows of periods are indexed by time. With a length of periods other than an hour, prices per MWh stand behind the others.
    """
    length = 1 if hours_per_period is None else hours_per_period
    hours = number_option("hours_per_period", length, 0, MOST_HOURS, above=True)
    pandas = load_pandas()
    begins = None if start is None else start_of(pandas, start)
    found = {}
    for name, table in tables.items():
        columns = zip(table.heads, table.units, zip(*table.rows)) if table.rows else ()
        frame = pandas.DataFrame({head: column_of(pandas, head, unit, cells) for head, unit, cells in columns})
        frame = frame.reindex(columns=table.heads)
        for head in table.heads if hours != 1 else ():
            if head.endswith(PER_MW):
                frame[f"{head}h"] = frame[head] / hours
        if begins is not None and "period" in frame:
            need_sure_times(begins, frame["period"].tolist(), None if hours_per_period is None else hours)
            frame.index = times_of(pandas, begins, frame["period"], hours)
        found[name] = frame
    return found


def need_sure_times(start: Any, periods: list[int], hours: Optional[float]) -> None:
    """Refuses a start that doesn't say when each period begins: without their length, or, where clocks change, without its offset from UTC."""
    for last in sorted({one for one, other in zip(periods, [*periods[1:], 0]) if other <= one}):
        what = in_parts(last)
        if hours is None and what:
            raise HullError(f"start needs hours_per_period here: {last} periods may be {what}")
        if start.tzinfo is None and length_on_change(last) == Fraction(hours or 1):
            due = f"its offset from UTC is due, as {example_with_offset(start, last)}"
            raise HullError(f"start is {told_value(start)}: {last} periods are {changed_day(last)}: {due}")


def times_of(pandas: Any, start: Any, periods: Any, hours: float) -> Any:
    """When the periods begin."""
    try:
        return pandas.DatetimeIndex(start + (periods - 1) * pandas.Timedelta(hours=hours), name="time")
    except (ValueError, OverflowError):
        raise HullError(f"start is {told_value(start)}: the periods end behind the last time that pandas has") from None


def start_of(pandas: Any, start: Start) -> Any:
    """When the first period begins, as pandas has it."""
    try:
        found = pandas.NaT if is_number_text(start) else pandas.Timestamp(time_of(start))
    except (TypeError, ValueError, OverflowError):
        found = pandas.NaT
    if found is pandas.NaT:
        raise HullError(f"start is {told_value(start)}: a time is due, as 2026-07-01T00:00")
    zone = getattr(found.tzinfo, "key", None)
    # (pandas 1 and 2 have both hours of one name where summer ends by a zone's name alone, and not by a ZoneInfo)
    return found.tz_convert(zone) if zone else found


def time_of(start: Any) -> Any:
    """The time that a text says: pandas would take others too, as the time of today, and read UTC+2 as two hours behind."""
    if isinstance(start, str):
        return time_of_text(start)
    if isinstance(start, datetime) and start.tzinfo is not None:
        there = start.astimezone(timezone.utc).astimezone(start.tzinfo)
        if there.replace(tzinfo=None) != start.replace(tzinfo=None):
            raise HullError(f"start is {told_value(start)}: clocks skip this time")
    return start


def is_number_text(start: object) -> bool:
    """Whether what should be a time is a number, which pandas would take for nanoseconds or for a year. A time of NumPy is none, though it has one."""
    is_time = isinstance(start, datetime) or getattr(getattr(start, "dtype", None), "kind", "") == "M"
    return not is_time and float_of(start) is not None


def column_of(pandas: Any, head: str, unit: str, cells: Sequence[Cell]) -> Any:
    """The cells of a column. Where some of its numbers aren't there it has numbers all the same: NaN, or, of whole ones, NA of pandas."""
    numbers = [float(it) if isinstance(it, Decimal) else it for it in cells]
    if all(it is not None for it in cells):
        return numbers
    if not (unit or head in NUMBERS) or any(isinstance(it, str) for it in cells):
        return numbers
    if all(it is None for it in cells) or any(isinstance(it, float) for it in numbers):
        return pandas.Series(numbers, dtype="float64")
    whole = all(-(2**63) <= it < 2**63 for it in cells if isinstance(it, int))
    return pandas.Series(numbers, dtype="Int64" if whole else "float64")
