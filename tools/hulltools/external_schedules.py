"""Schedules in megawatts from elsewhere: what each unit is to do, by its name."""
from __future__ import annotations

import contextlib
import difflib
import math
import os
import re
from dataclasses import dataclass, field, replace
from datetime import datetime, timedelta
from typing import Any, Dict, Iterable, Iterator, List, Mapping, Optional, Sequence, Set, Tuple

from .cases import Bid, Case, Unit

from .converters import unpacked
from .converters.pypsa import solution
from .converters.series import CELL
from .inputs import GivenPowers, is_name, need_finite, need_keys, told
from .json_texts import Refused, is_number, json_text, parse
from .errors import HullError, named_rows, one_line, refuse_line_end, refuse_twice_named
from .options import hint_of, told_value
from .schedules import Schedule
from .tables import as_it_was

MOST_MEGAWATTS = 1_000_000
KILOWATTS_FROM = 10  # times the most that a unit gives: a greater power isn't in megawatts
FLAG_OFF = 0.01  # how far from 0 or 1 a solver may leave an on flag
LEAST_ON = 0.0005  # megawatts: a lower power is 0 in whole kilowatts, as a solver leaves it of a unit that is off
COLUMNS = ("unit", "period", "on", "power", "reserve")  # of a table
NEAR = 0.75  # how like another name is that is most likely meant
OF_A_MERGE = re.compile("_[xy]\\Z")  # what pandas puts behind a column that both frames have
JULIA: Dict[str, Tuple[str, ...]] = {
    "on": ("Is on",),
    "power": ("Production (MW)", "Thermal production (MW)", "Profiled production (MW)", "Price-sensitive loads (MW)"),
    "reserve": ("Reserve (MW)",),
}
# (EGRET's `headroom` is what a unit could give beside, whether it is reserve or not)
EGRET: Dict[str, Tuple[str, ...]] = {
    "on": ("commitment",),
    "power": ("pg", "p"),
    "reserve": ("spinning_supplied", "rg"),
}
PLAIN: Dict[str, Tuple[str, ...]] = {"on": ("on",), "power": ("power",), "reserve": ("reserve",)}
SPINNING = "Spinning reserve (MW)"  # of UnitCommitment.jl: by product, and then by unit
KINDS = {  # of the units that a member of a file names
    "thermal": "thermal",
    "Thermal production (MW)": "thermal",
    "renewable": "renewable",
    "Profiled production (MW)": "renewable",
    "Price-sensitive loads (MW)": "bid",
    "bids": "bid",
}


@dataclass
class Followed:
    """Lists over the periods by a unit's name: on flags, powers and reserves in megawatts; and kinds, as far as the form has them."""

    on: Dict[str, List[float]] = field(default_factory=dict)
    power: Dict[str, List[float]] = field(default_factory=dict)
    reserve: Dict[str, List[float]] = field(default_factory=dict)
    kinds: Dict[str, str] = field(default_factory=dict)
    guessed: List[str] = field(
        default_factory=list
    )  # units without on flags that are taken as off where they give nothing, and could be on
    skipped: List[str] = field(default_factory=list)  # columns of a table, or keys of its rows, that aren't read

    @property
    def names(self) -> Set[str]:
        return {*self.on, *self.power, *self.reserve}


Cells = Dict[str, Dict[str, Dict[int, float]]]  # numbers by what they are, unit and period
FLAGS = {"True": 1.0, "False": 0.0, "TRUE": 1.0, "FALSE": 0.0}  # as pandas and spreadsheets write cells of `on`
DIGITS = re.compile("[0-9]{1,18}")
# A time with its offset from UTC, which goes back by an hour where summer ends; and one by a clock of 12 hours, which begins at 12.
DATE, TIME = "([0-9]{4})-([0-9]{2})-([0-9]{2})", "([0-9]{2}):([0-9]{2})(?::([0-9]{2})(?:\\.0+)?)?"
STAMP = re.compile(rf"{DATE}[T ]{TIME} ?(?:Z|([+-])([0-9]{{2}}):?([0-9]{{2}})?)(?:\[[^\]]*\])?")
# Keys whose numbers rise with the time: dates, with a time or without; whole numbers.
YEAR_FIRST = re.compile(rf"[0-9]{{4}}([-/])[0-9]{{2}}\1[0-9]{{2}}(?:[T ]{TIME})?|[0-9]{{8}}T[0-9]{{4}}(?:[0-9]{{2}})?")
MONTH = re.compile("(?<![a-z])(?:jan|feb|mar|apr|may|jun|jul|aug|sep|oct|nov|dec)", re.IGNORECASE)
PLAIN_NUMBER, TIME_OF_DAY = re.compile("[0-9]+"), re.compile("[0-9]{1,2}:[0-9]{2}(?::[0-9]{2})?")
TWELVE_HOURS = re.compile(r"(?<![a-z])[ap]\.?\s?m\b|[0-9]\s?[ap]\b", re.IGNORECASE)


def number(value: Any, name: str, where: str, period: int) -> float:
    if isinstance(value, bool) or is_number(value) and -MOST_MEGAWATTS <= value <= MOST_MEGAWATTS:
        return float(value)
    raise HullError(f"{name}: {one_line(where)}: a number of at most {MOST_MEGAWATTS:,} is due", period=period)


def object_of(value: object, name: str, what: str) -> Dict[str, Any]:
    if not isinstance(value, dict):
        raise HullError(f"{name}: {what} isn't an object of units by name")
    return value


def instant_of(text: str) -> Optional[datetime]:
    """The time in UTC that a text says with its offset; None where it isn't such a text."""
    found = STAMP.fullmatch(text)
    if not found:
        return None
    sign, hours, minutes = found[7] or "+", int(found[8] or 0), int(found[9] or 0)
    try:
        local = datetime(*(int(it or 0) for it in found.groups()[:6]))  # type: ignore[arg-type]
        return local - (-1 if sign == "-" else 1) * timedelta(hours=hours, minutes=minutes)
    except (ValueError, OverflowError):
        return None


def in_order_of_time(keys: List[str], where: str) -> List[str]:
    """Periods or times as texts, the first one first; refused where it isn't sure which one that is."""
    if not all(DIGITS.search(key) for key in keys):
        raise HullError(f"{where}: a list is due, or numbers by period")
    twelve = next((key for key in keys if TWELVE_HOURS.search(key)), None)
    if twelve is not None:
        raise HullError(f"{where}: {one_line(twelve)!r} is of a clock of 12 hours, and one of 24 hours is due")
    instants = {key: instant_of(key) for key in keys}
    known = {key: time for key, time in instants.items() if time is not None}
    if known and len(known) < len(keys):
        odd = next(key for key in keys if key not in known)
        raise HullError(f"{where}: {one_line(odd)!r} has no offset from UTC, and other times have one")
    digits = {key: list(map(int, DIGITS.findall(key))) for key in keys}
    order = sorted(keys, key=lambda it: known[it]) if known else sorted(keys, key=lambda it: digits[it])
    for one, other in zip(order, order[1:]):
        if known[one] == known[other] if known else digits[one] == digits[other]:
            raise HullError(f"{where}: {one_line(one)!r} and {one_line(other)!r} are one time")
    if not (known or all(map(YEAR_FIRST.fullmatch, keys))):
        refuse_other_dates(keys, digits, where)
    # (the numbers of other texts need not rise with the time, as those of a day's hours do not at midnight)
    is_sure = known or order == keys or all(map(YEAR_FIRST.fullmatch, keys)) or all(map(PLAIN_NUMBER.fullmatch, keys))
    if not is_sure:
        odd = next(key for key, other in zip(keys, order) if key != other)
        due = "dates that begin with the year or whole numbers without a sign are due"
        raise HullError(f"{where}: the order isn't sure from {one_line(odd)!r} on: {due}")
    return order


def refuse_other_dates(keys: List[str], digits: Dict[str, List[int]], where: str) -> None:
    """Refuses dates in other forms, and times with an offset in them: such texts may stand in order as texts, and not as times."""
    for key in keys:
        if len(digits[key]) > 2 and not TIME_OF_DAY.fullmatch(key) or MONTH.search(key):
            due = "a date is due as 2026-10-25T02:00, with its offset behind it if it has one"
            raise HullError(f"{where}: {one_line(key)!r} isn't read as a time: {due}")


def numbers(value: Any, periods: int, name: str, where: str) -> List[float]:
    """A list over the periods, plain or under `values` as egret has it, or by period as text, in the order of time."""
    if isinstance(value, dict) and "values" in value:
        value = value["values"]
    if isinstance(value, dict):
        value = [value[key] for key in in_order_of_time(list(value), f"{name}: {one_line(where)}")]
    if not isinstance(value, list) or len(value) != periods:
        raise HullError(f"{name}: {one_line(where)}: a list of {periods} numbers is due")
    return [number(it, name, where, t) for t, it in enumerate(value, 1)]


class Keyed:
    """The keys of the first list of a file that is by period or by time."""

    def __init__(self, name: str) -> None:
        self.name, self.first, self.keys = name, ("", ""), set[str]()

    def refuse_others(self, unit: str, lists: Mapping[str, Any]) -> None:
        """Refuses lists whose keys are others than those of the first one, as 1 to 4 and 0 to 3: they would be matched by their places."""
        plain = {key: it["values"] if isinstance(it, dict) and "values" in it else it for key, it in lists.items()}
        for key, numbers in plain.items():
            if not isinstance(numbers, dict):
                continue
            if not self.keys:
                self.first, self.keys = (unit, key), set(numbers)
            odd = next(iter(sorted(self.keys ^ numbers.keys())), None)
            if odd is not None:
                one, other = (f"{one_line(it[0])}, {one_line(it[1])}" for it in (self.first, (unit, key)))
                told = f"{one} and {other} aren't of the same periods: {one_line(odd)!r} is in one of them alone"
                raise HullError(f"{self.name}: {told}")


def refuse_otherwise_written(found: Iterable[str], name: str, known: Iterable[str]) -> None:
    """Refuses a key that is a known one but for its case and spaces, since it would be skipped."""
    keys = {plain_key(key): key for key in known}
    for key in found:
        meant = keys.get(plain_key(key), key)
        if meant != key:
            raise HullError(f"{name}: `{one_line(key)}` is no key of it: is `{meant}` meant?")


def plain_key(key: str) -> str:
    return "".join(key.casefold().split())


def units_of(value: Dict[str, Any], name: str) -> Tuple[Dict[str, Any], Dict[str, Tuple[str, ...]]]:
    """By unit name an object of lists, whichever of the three forms the file has."""
    if isinstance(value.get("elements"), dict):
        return object_of(value["elements"].get("generator", {}), name, "generator"), EGRET
    known = [*KINDS, SPINNING, *(key for keys in JULIA.values() for key in keys)]
    refuse_otherwise_written(value, name, known)
    if any(isinstance(value.get(key), dict) for keys in JULIA.values() for key in keys):
        turned: Dict[str, Any] = {}
        value = with_one_reserve(value, name)
        for key, by_name in value.items():
            for unit, row in by_name.items() if isinstance(by_name, dict) else ():
                turned.setdefault(unit, {})[key] = row
        return turned, JULIA
    found: Dict[str, Any] = {}
    for group in ("thermal", "renewable", "bids"):
        for unit, row in object_of(value.get(group) or {}, name, group).items():
            # (of a renewable unit or bid a row without these keys has the powers themselves: a list, by period or under `values`)
            has_lists = isinstance(row, dict) and (group == "thermal" or not row or not row.keys().isdisjoint(PLAIN))
            found[unit] = row if has_lists else {"power": row}
    return found, PLAIN


def with_one_reserve(value: Dict[str, Any], name: str) -> Dict[str, Any]:
    """A solution of UnitCommitment.jl whose reserves are by unit, whether they stand there by unit, or by product and then by unit."""
    keys = [key for key in (*JULIA["reserve"], SPINNING) if value.get(key)]
    if len(keys) > 1:
        raise HullError(f"{name}: it has both `{keys[0]}` and `{keys[1]}`, and one alone can be followed")
    if not keys or keys[0] != SPINNING and not is_by_product(value[keys[0]]):
        return value
    products = object_of(value[keys[0]], name, keys[0])
    if len(products) > 1:
        several = f"{len(products)} products, {one_line(some(list(products)))}"
        raise HullError(f"{name}: {keys[0]} has {several}, and one alone can be followed")
    by_unit = object_of(next(iter(products.values())), name, keys[0])
    return {**value, JULIA["reserve"][0]: by_unit}


def is_by_product(value: Any) -> bool:
    """Whether the objects of an object have lists, or numbers by period in their turn, as a unit's numbers by period have not."""
    rows = [row for row in value.values() if isinstance(row, dict)] if isinstance(value, dict) else []
    return any(isinstance(it, (list, dict)) for row in rows if "values" not in row for it in row.values())


def kinds_of(value: Dict[str, Any], name: str) -> Dict[str, str]:
    """The kinds of units, as far as the form has them; two units of one name are refused, since the name tells which one a list is of."""
    found: Dict[str, str] = {}
    for group, kind in KINDS.items():
        rows = value.get(group)
        for unit in rows if isinstance(rows, dict) else ():
            if found.setdefault(unit, kind) != kind:
                raise HullError(mixed(name, unit, found[unit], kind))
    return found


def mixed(name: str, unit: str, one: str, other: str) -> str:
    """Why a name of two kinds is refused."""
    return f'{name}: "{one_line(unit)}" is both a {one} and a {other}, and units of a schedule to follow are told by their names alone'


def followed_json(data: bytes, name: str, periods: int) -> Followed:
    try:
        value = parse(data)
    except Refused as why:
        raise HullError(f"{name}: no JSON text: {why}") from None
    return followed_value(value, name, periods)


def followed_dict(given: Dict[str, Any], name: str, periods: int) -> Followed:
    """What a dict says, whose lists may be arrays or series."""
    need_finite("powers", given)
    try:
        value = parse(json_text(given).encode())
    except (Refused, RecursionError, TypeError, ValueError) as why:
        raise HullError(f"{name} can't be a file: {why}") from None
    if units_of(value, name)[1] is PLAIN:
        need_keys("powers", given)
    return followed_value(value, name, periods)


@contextlib.contextmanager
def told_of_unit(unit: str) -> Iterator[None]:
    """Gives what is refused the unit that it is of."""
    try:
        yield
    except HullError as why:
        why.unit = unit
        raise


def followed_value(value: Any, name: str, periods: int) -> Followed:
    """What a JSON value says."""
    if not isinstance(value, dict):
        raise HullError(f"{name}: an object is due")
    units, keys = units_of(value, name)
    found, keyed = Followed(kinds=kinds_of(value, name)), Keyed(name)
    for unit, row in units.items():
        if isinstance(row, dict):
            refuse_otherwise_written(
                row, f"{name}: {one_line(unit)}", [key for names in keys.values() for key in names]
            )
        if keys is PLAIN and isinstance(row, dict):
            refuse_misspelt(row, f"{name}: {one_line(unit)}", list(PLAIN), "key")
            found.skipped += [key for key in row if key not in (*PLAIN, *found.skipped)]
        lists: Dict[str, Any] = {}
        for what, names in keys.items():
            key = next((it for it in names if isinstance(row, dict) and it in row), None)
            if key is not None and (keys is PLAIN or row[key] is not None):
                lists[key] = row[key]
                with told_of_unit(unit):
                    getattr(found, what)[unit] = numbers(row[key], periods, name, f"{unit}, {key}")
        keyed.refuse_others(unit, lists)
    return found


def followed_csv(data: bytes, name: str, periods: int) -> Followed:
    """Rows of unit, period from 1, on, power and reserve; the first row names the columns, in any order."""
    columns, rows = named_rows(data.decode("utf-8-sig"), name)
    if not {"unit", "period", "power"} <= set(columns):
        raise HullError(
            f"{name}: the first line has to name the columns unit, period, on, power, reserve, with commas between them"
        )
    refuse_misspelt(columns, name, COLUMNS, "column")
    for line, row in rows:
        for column in (it for it in columns if it != "unit"):
            refuse_line_end(row[column], f"{name}, line {line}")
        row["unit"] = as_it_was(row["unit"])
    found = followed_rows(((f"{name}, line {line}", row) for line, row in rows), name, periods)
    return replace(found, skipped=unread(columns))


def unread(columns: Iterable[Any]) -> List[str]:
    """The columns of a table that aren't read; one without a name is an index, as pandas writes it."""
    return [str(column) for column in columns if column != "" and column not in COLUMNS]


def refuse_misspelt(found: Iterable[Any], name: str, known: Sequence[str], what: str) -> None:
    """Refuses a column or key that is skipped, and whose name is near to that of a known one that isn't there."""
    names = list(found)
    absent = [it for it in known if it not in names]
    for given in names:
        plain = OF_A_MERGE.sub("", str(given).casefold())
        near = difflib.get_close_matches(plain, absent, 1, NEAR) if given not in known else []
        if near:
            raise HullError(f"{name}: `{one_line(given)[:60]}` is no {what} of it: is `{near[0]}` meant?")


def followed_frame(frame: Any, name: str, periods: int) -> Followed:
    """What a data frame says, whose columns are those of a csv; a number that isn't there is an empty cell."""
    refuse_misspelt(frame.columns, name, COLUMNS, "column")
    missing = [column for column in ("unit", "period", "power") if column not in frame.columns]
    if missing:
        raise HullError(f"{name} has no column `{missing[0]}`: unit, period, on, power and reserve are its columns")
    refuse_twice_named([column for column in frame.columns if column in COLUMNS], name)
    known = frame[[column for column in COLUMNS if column in frame.columns]]
    cells = known.astype(object).where(known.notna(), None)
    rows = ((f"{name}, row {place}", row) for place, row in enumerate(cells.to_dict("records"), 1))
    return replace(followed_rows(rows, name, periods), skipped=unread(frame.columns))


def followed_schedule(schedule: Schedule, name: str, periods: int) -> Followed:
    """What a schedule in whole kilowatts says, in megawatts."""
    found = Followed()
    for (kind, unit), plan in schedule.with_plain_numbers().plans.items():
        if found.kinds.setdefault(unit, kind) != kind:
            raise HullError(mixed(name, unit, found.kinds[unit], kind))
        if not len(plan.on) == len(plan.power) == len(plan.reserve) == periods:
            raise HullError(f"{name}: {one_line(unit)}: lists of {periods} numbers are due", unit=unit)
        found.power[unit] = [power / 1e3 for power in plan.power]
        if kind == "thermal":
            found.on[unit] = [float(on) for on in plan.on]
            found.reserve[unit] = [reserve / 1e3 for reserve in plan.reserve]
    return found


def followed_rows(rows: Iterable[Tuple[str, Mapping[str, Any]]], name: str, periods: int) -> Followed:
    """What the rows of a table say, each with what an error calls it."""
    cells: Cells = {what: {} for what in PLAIN}
    seen: Set[Tuple[str, int]] = set()
    for where, row in rows:
        place = add_row(cells, row, where, periods)
        if place in seen:
            unit, period = place
            why = f'{where}: a second row of unit "{one_line(unit)}" and period {period}'
            raise HullError(why, unit=unit, period=period)
        seen.add(place)
    lists = {
        what: {unit: whole_list(cells, what, unit, name, periods) for unit in by_unit}
        for what, by_unit in cells.items()
    }
    for unit, flags in lists["on"].items():
        if max(flags) <= 0.5:  # (each of its empty cells is 0)
            lists["power"].setdefault(unit, [0.0] * periods)
    return Followed(lists["on"], lists["power"], lists["reserve"])


def float_of_cell(cell: Any) -> float:
    """A cell's number; Python would take `1_0` and digits of other scripts too."""
    if isinstance(cell, str) and not CELL.fullmatch(cell.strip(" \t")):
        raise ValueError(cell)
    return float(cell)


def period_of(cell: Any) -> int:
    """A cell's period; a whole number that a spreadsheet has as 3.0 is taken too."""
    if isinstance(cell, str):
        cell = re.sub(r"\.0*\Z", "", cell.strip(" \t"))
        if not re.fullmatch("[0-9]{1,9}", cell):
            raise ValueError(cell)
    period = int(cell)
    if not isinstance(cell, str) and period != cell:
        raise ValueError(cell)
    return period


def add_row(cells: Cells, row: Mapping[str, Any], where: str, periods: int) -> Tuple[str, int]:
    """Adds the numbers of a row, whose unit and period these are."""
    column, unit, period = "period", str(row["unit"]), 0
    try:
        period = period_of(row["period"])
        for column in cells:
            given: Any = row.get(column)
            if given not in (None, ""):
                value = FLAGS[given] if column == "on" and given in FLAGS else float_of_cell(given)
                if not abs(value) <= MOST_MEGAWATTS:
                    raise ValueError(value)
                cells[column].setdefault(unit, {})[period] = value
    except (ValueError, TypeError, OverflowError):
        bad = f"`{column}` is {told_value(row.get(column))}"
        why = f"{where}: no row of unit, period from 1 to {periods}, and numbers: {bad}"
        raise HullError(why, unit=unit, period=period or None) from None
    if not 1 <= period <= periods:
        raise HullError(f"{where}: period {period} isn't one of 1 to {periods}", unit=unit)
    return unit, period


def whole_list(cells: Cells, what: str, unit: str, name: str, periods: int) -> List[float]:
    """A unit's numbers over the periods; an empty cell is 0 where the unit is off, and a gap otherwise, which is refused."""
    found = cells[what][unit]
    off = {t for t, on in cells["on"].get(unit, {}).items() if on <= 0.5 and what != "on"}
    gap = next((t for t in range(1, periods + 1) if t not in found and t not in off), None)
    if gap is not None:
        is_there = any(gap in rows.get(unit, {}) for rows in cells.values())
        why = f'{name}: unit "{one_line(unit)}" has no {what if is_there else "row"} in period {gap}, and it has one in others'
        raise HullError(why, unit=unit, period=gap)
    return [found.get(t, 0.0) for t in range(1, periods + 1)]


def network_numbers(row: list[str], folder: str, unit: str, flags: Mapping[str, float]) -> list[float]:
    """The numbers of a column of a network's table, in which these texts may stand for numbers."""
    try:
        found = [flags[it] if it in flags else float_of_cell(it) for it in row]
    except ValueError:
        found = [math.inf]
    if not all(abs(it) <= MOST_MEGAWATTS for it in found):
        raise HullError(f"{folder}: {one_line(unit)}: a number of at most {MOST_MEGAWATTS:,} is due")
    return found


def followed_network(folder: str, periods: int) -> Followed:
    """The powers and states of a solved network of PyPSA, in its folder of tables."""
    powers, states = solution(folder)
    found = Followed({unit: network_numbers(row, folder, unit, FLAGS) for unit, row in states.items()}, {})
    found.power = {unit: network_numbers(row, folder, unit, {}) for unit, row in powers.items()}
    if not powers or any(len(row) != periods for row in powers.values()):
        raise HullError(
            f"{folder}: generators-p.csv hasn't a row for each of the {periods} periods: was the network solved?"
        )
    return found


def followed_file(name: str, periods: int) -> Followed:
    """What a file says, JSON or csv, which may be compressed by gzip."""
    data = unpacked(name)
    try:
        is_json = data.decode("utf-8-sig").lstrip().startswith("{")
        return (followed_json if is_json else followed_csv)(data, name, periods)
    except UnicodeDecodeError:
        raise HullError(f"{name}: it isn't UTF-8") from None


def strangers(followed: Followed, case: Case) -> List[str]:
    """The names of units that the case hasn't, and which nothing follows."""
    return sorted(followed.names - {unit.name for _, unit in case.units})


def free_units(followed: Followed, case: Case) -> List[str]:
    """The names of the units and bids whose powers the schedule from elsewhere hasn't."""
    return [unit.name for _, unit in case.units if unit.name not in followed.power]


def has_powers(followed: Followed, case: Case) -> bool:
    """Whether it has the powers of any unit or bid."""
    return any(unit.name in followed.power for _, unit in case.units)


def some(names: Sequence[str]) -> str:
    """The first of the names."""
    return f"{', '.join(names[:3])}{', ..' * (len(names) > 3)}"


def refuse_mixed(followed: Followed, case: Case, name: str) -> None:
    """Refuses a name that two units of the case have, or one that is of another kind there."""
    kinds = dict(followed.kinds)
    seen: Set[str] = set()
    for kind, unit in case.units:
        if unit.name in followed.names and (unit.name in seen or kinds.get(unit.name, kind) != kind):
            raise HullError(mixed(name, unit.name, kinds[unit.name], kind))
        seen.add(unit.name)
        kinds.setdefault(unit.name, kind)


def read_followed(name: str, case: Case, hint: str = "") -> Followed:
    """What a schedule from elsewhere says. Units that the case hasn't are skipped; `strangers` names them. Kilowatts are refused with the hint."""
    found = (followed_network if os.path.isdir(name) else followed_file)(name, case.periods)
    return with_flags(found, case, name, hint)


def schedule_in(given: object) -> Optional[Schedule]:
    """The schedule that is given, or that what is given has, as `Made`."""
    kept = (it for it in (given, getattr(given, "schedule", None)) if isinstance(it, Schedule))
    return next(kept, None)


def need_powers(followed: Followed, case: Case, name: str) -> None:
    """Refuses a thermal unit without powers: of a frame these most likely got lost, as in a merge by names that differ."""
    bare = next(
        (unit.name for unit in case.thermal if unit.name in followed.on and unit.name not in followed.power), None
    )
    if bare is not None:
        raise HullError(f'{name}: it has no power of thermal unit "{one_line(bare)}"', unit=bare)


def as_followed(given: GivenPowers, case: Case) -> Tuple[Followed, str]:
    """What a data frame, a schedule, a dict or a file says, and what an error calls it."""
    if is_name(given):
        return read_followed(os.fspath(given), case, " (read_schedule reads a schedule of hull)"), os.fspath(given)
    name, schedule = told("powers"), schedule_in(given)
    if schedule is not None:
        found = followed_schedule(schedule, name, case.periods)
    elif isinstance(given, dict):
        found = followed_dict(given, name, case.periods)
    elif hasattr(given, "columns") and hasattr(given, "to_dict"):
        found = followed_frame(given, name, case.periods)
        need_powers(found, case, name)
    else:
        due = "a data frame, a schedule, a dict or a file's name is due"
        raise HullError(f"{name}: no `{type(given).__name__}` can be taken: {due}")
    stranger = next(iter(strangers(found, case)), None)
    if stranger is not None:
        names = [unit.name for _, unit in case.units]
        raise HullError(
            f"{name}: the case has no unit {told_value(stranger)}: {hint_of(stranger, names)}", unit=stranger
        )
    return with_flags(found, case, name), name


def most_of(unit: Unit) -> int:
    """The most that a unit gives or a bid buys in any period, in kilowatts."""
    if isinstance(unit, Bid):
        return max((sum(width for width, _ in blocks) for blocks in unit.blocks), default=0)
    return max(unit.most, default=0) if isinstance(unit.most, list) else unit.most


def refuse_kilowatts(followed: Followed, case: Case, name: str, hint: str) -> None:
    """Refuses a power or reserve that is far above the most of its unit, since it is most likely in kilowatts."""
    for kind, unit in case.units:
        most, gives = most_of(unit) / 1e3, "buys" if kind == "bid" else "gives"
        for what, lists in (("power", followed.power), ("reserve", followed.reserve)):
            for t, power in enumerate(lists.get(unit.name, ()), 1):
                if most and power > KILOWATTS_FROM * most:
                    told = f"{what} {power:.10g} MW of {one_line(unit.name)} in period {t}, and it {gives}"
                    why = f"{name}: {told} at most {most:g} MW: is it in kilowatts?{hint}"
                    raise HullError(why, unit=unit.name, period=t)


def refuse_negative_reserves(followed: Followed, case: Case, name: str) -> None:
    """Refuses a reserve below 0, but for what a solver leaves of 0."""
    for unit in case.thermal:
        for t, reserve in enumerate(followed.reserve.get(unit.name, ()), 1):
            if reserve < -LEAST_ON:
                told = f"reserve {reserve:.10g} MW of {one_line(unit.name)} in period {t}"
                raise HullError(f"{name}: {told}: at least 0 is due", unit=unit.name, period=t)


def refuse_no_flag(followed: Followed, unit: str, name: str) -> None:
    """Refuses an on flag that is far from 0 and 1, since it is no commitment, as of a relaxation or of a count of units."""
    for t, on in enumerate(followed.on.get(unit, ()), 1):
        if min(abs(on), abs(on - 1)) > FLAG_OFF + 1e-9:  # (1.01 is as far from 1 as 0.01 is from 0)
            why = f'{name}: the on flag of unit "{one_line(unit)}" in period {t} is {on:.10g}, and 0 or 1 is due'
            raise HullError(why, unit=unit, period=t)


def with_flags(found: Followed, case: Case, name: str, hint: str = "") -> Followed:
    """The same, with on flags for each thermal unit that has powers; refused where it has neither, or where powers are in kilowatts or reserves below 0."""
    refuse_mixed(found, case, name)
    refuse_kilowatts(found, case, name, hint)
    refuse_negative_reserves(found, case, name)
    for unit in case.thermal:
        refuse_no_flag(found, unit.name, name)
        if unit.name not in found.on and unit.name in found.power:
            found.on[unit.name] = [float(power > LEAST_ON or unit.must_run) for power in found.power[unit.name]]
            if not unit.least and not all(found.on[unit.name]):
                found.guessed.append(unit.name)
        if unit.name not in found.names:
            raise HullError(f'{name}: it has no rows of thermal unit "{one_line(unit.name)}"', unit=unit.name)
        if unit.name not in found.on:
            raise HullError(f'{name}: it has no on flags of thermal unit "{one_line(unit.name)}"', unit=unit.name)
    return found
