"""Whether the members of a case that a script has changed are whole numbers, as kilowatts and millionths are."""
from __future__ import annotations

from collections.abc import Iterator
from dataclasses import replace
from typing import Any, Optional, TypeVar

from .cases import Bid, Case, Renewable, Thermal
from .errors import HullError, one_line
from .json_texts import refused_as
from .options import counted, is_flag, is_row, is_plain_whole, is_whole_number, refuse_backward, told_value

KILOWATTS, MILLIONTHS = "kilowatts", "millionths"
PER_KILOWATT = "millionths per kilowatt"
POWERS = ("least", "most", "ramp_up", "ramp_down", "start_limit", "stop_limit", "power0")
COUNTS, FLAGS = ("min_up", "min_down", "up0", "down0"), ("must_run", "on0")
NO_NUMBERS = ("name", "thermal", "renewable", "bids")
Whole = TypeVar("Whole", Case, Thermal, Renewable, Bid)
Found = tuple[str, Any, str, Optional[int]]  # a member, its number, the unit of that, and the period


def items_at(name: str, numbers: Any) -> list[Any]:
    if not is_row(numbers):
        raise HullError(f"{name} is {told_value(numbers)}: a list is due")
    refuse_backward(name, numbers)
    return list(numbers)


def need_length(name: str, numbers: Any, periods: int) -> None:
    """Refuses a list that hasn't an item for each period."""
    length = len(items_at(name, numbers))
    if length != periods:
        raise HullError(f"{name} has {counted(length, 'item')}, and the case {counted(periods, 'period')}")


def need_lengths(where: str, lists: dict[str, Any], periods: int, unit: Optional[str] = None) -> None:
    """Refuses lists, by what they are called, that haven't an item for each period."""
    try:
        for name, numbers in lists.items():
            need_length(name, numbers, periods)
    except HullError as why:
        raise HullError(f"{where}: {why.line}", unit=unit) from None


def by_period(name: str, numbers: Any) -> Iterator[Found]:
    """A list of a power for each period."""
    for t, number in enumerate(items_at(name, numbers), 1):
        yield f"{name} of period {t}", number, KILOWATTS, t


def pairs_of(name: str, rows: Any, units: tuple[str, str], period: Optional[int] = None) -> Iterator[Found]:
    """A list of pairs of numbers, each in its own unit."""
    for place, row in enumerate(items_at(name, rows), 1):
        numbers = items_at(f"{name}, item {place},", row)
        if len(numbers) != 2:
            raise HullError(f"{name}, item {place}, is {told_value(row)}: a pair of numbers is due")
        for number, unit in zip(numbers, units):
            yield f"{name}, item {place},", number, unit, period


def number_of_flag(flag: Any) -> Any:
    """A flag as 0 or 1, if it is False or True; otherwise what it is."""
    return int(flag) if is_flag(flag) else flag


def members_of(unit: Any) -> Iterator[Found]:
    """The numbers of a unit or bid."""
    if isinstance(unit, Thermal):
        for name in POWERS:
            yield name, getattr(unit, name), KILOWATTS, None
        for name in COUNTS:
            yield name, getattr(unit, name), "", None
        for name in FLAGS:
            yield name, number_of_flag(getattr(unit, name)), "", None
        yield from pairs_of("lags", unit.lags, ("", MILLIONTHS))
        yield from pairs_of("points", unit.points, (KILOWATTS, MILLIONTHS))
        for t, mark in enumerate(items_at("marks", unit.marks), 1):
            yield f"marks of period {t}", 0 if mark is None else number_of_flag(mark), "", t
    elif isinstance(unit, Renewable):
        yield from by_period("least", unit.least)
        yield from by_period("most", unit.most)
    elif isinstance(unit, Bid):
        for t, blocks in enumerate(items_at("blocks", unit.blocks), 1):
            yield from pairs_of(f"blocks of period {t}", blocks, (KILOWATTS, PER_KILOWATT), t)


def need_whole(where: str, numbers: Iterator[Found], unit: Optional[str] = None) -> None:
    """Refuses a number without a whole value, with its unit and its period."""
    period: Optional[int] = None
    try:
        for name, number, of, period in numbers:
            if not is_whole_number(number):
                raise HullError(f"{name} is {told_value(number)}: a whole number{' of ' * bool(of)}{of} is due")
    except HullError as why:
        raise HullError(f"{where}: {why.line}", unit=unit, period=period) from None


def need_names(case: Case) -> None:
    """Refuses a case in which two units of a kind have one name: its file would have the last of them alone."""
    for kind, units in (("thermal", case.thermal), ("renewable", case.renewable), ("bids", case.bids)):
        if not is_row(units):
            raise HullError(f"the case given: {kind} is {told_value(units)}: a list is due")
    seen: set[tuple[str, str]] = set()
    for kind, unit in case.units:
        if not isinstance(unit.name, str):
            raise HullError(f"the case given: a {kind} has the name {told_value(unit.name)}: a text is due")
        if (kind, unit.name) in seen:
            raise HullError(f'the case given: {kind} "{one_line(unit.name)}" stands twice', unit=unit.name)
        seen.add((kind, unit.name))


LISTS: dict[type, tuple[str, ...]] = {Thermal: ("marks",), Renewable: ("least", "most"), Bid: ("blocks",)}  # by period


@refused_as("case")
def need_form(case: Case) -> None:
    """Refuses a number that isn't whole, as 1.5 kilowatts, a list that hasn't an item for each period, and a name that stands twice."""

    def of_case() -> Iterator[Found]:
        yield "periods", case.periods, "", None
        yield from by_period("demand", case.demand)
        yield from by_period("reserves", case.reserves)

    need_names(case)
    need_whole("the case given", of_case())
    need_lengths("the case given", {"demand": case.demand, "reserves": case.reserves}, case.periods)
    for kind, unit in case.units:
        where = f'the case given: {kind} "{one_line(str(unit.name))}"'
        need_whole(where, members_of(unit), unit.name)
        need_lengths(where, {name: getattr(unit, name) for name in LISTS.get(type(unit), ())}, case.periods, unit.name)


def whole_list(items: Any) -> list[Any]:
    return [None if it is None else int(it) for it in items]


def whole_pairs(rows: Any) -> list[Any]:
    return [(int(one), int(other)) for one, other in rows]


def whole_members(holder: Any) -> dict[str, Any]:
    """The numbers of a case or a unit, which `need_form` has found whole, as lists of plain ones."""
    if isinstance(holder, Thermal):
        numbers = {name: int(getattr(holder, name)) for name in (*POWERS, *COUNTS, *FLAGS)}
        pairs = {name: whole_pairs(getattr(holder, name)) for name in ("lags", "points")}
        return {**numbers, **pairs, "marks": whole_list(holder.marks)}
    if isinstance(holder, Bid):
        return {"blocks": [whole_pairs(blocks) for blocks in holder.blocks]}
    if isinstance(holder, Renewable):
        return {name: whole_list(getattr(holder, name)) for name in ("least", "most")}
    lists = {name: whole_list(getattr(holder, name)) for name in ("demand", "reserves")}
    return {"periods": int(holder.periods), **lists}


def with_whole_members(holder: Whole) -> Whole:
    numbers = [member for name, member in vars(holder).items() if name not in NO_NUMBERS]
    return holder if is_plain_whole(numbers) else replace(holder, **whole_members(holder))


def with_plain_numbers(case: Case) -> Case:
    """The case with lists of plain whole numbers. A script may have set arrays or series, which have an index of their own, and numbers of others.

    Itself where it has such already. Raises `HullError` where one isn't whole.
    """
    need_form(case)
    kinds: dict[str, list[Any]] = {kind: getattr(case, kind) for kind in ("thermal", "renewable", "bids")}
    units: dict[str, Any] = {kind: list(map(with_whole_members, given)) for kind, given in kinds.items()}
    is_same = all(new is old for kind, given in kinds.items() for new, old in zip(units[kind], given))
    return with_whole_members(case if is_same else replace(case, **units))
