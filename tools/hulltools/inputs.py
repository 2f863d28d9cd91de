"""Cases, schedules, prices, mixtures and zones as they are given: objects, dicts as files have them, or names."""
from __future__ import annotations

import math
import os
import sys
import warnings
from collections.abc import Iterable, Iterator, Mapping, Sized
from decimal import Decimal
from fractions import Fraction
from typing import TYPE_CHECKING, Any, Optional, Protocol, SupportsFloat, Union, cast, overload

from .case_forms import with_plain_numbers
from .cases import Case, case_of, read_case
from .errors import HullError, Name, one_line
from .json_texts import STATUS, Refused, json_text, parse, refused_as
from .lint_keys import KEYS
from .mixtures import Mixture
from .numbers import PRICE_LIMIT, MillionthsPerKilowatt
from .options import (
    counted,
    float_of,
    hint_of,
    is_list,
    items_of,
    number_option,
    refuse_backward,
    refuse_other_times,
    told_value,
)
from .prices import FlatPrices, Prices, PriceSource, prices_of, read_prices
from .schedules import Schedule, read_schedule, schedule_of
from .zones import PRICES_KEYS, ZONES_KEYS, Zones, read_zones, zones_of

if TYPE_CHECKING:
    from pandas import DataFrame
    from typing_extensions import TypeGuard  # (in `typing` from Python 3.10 on)


class HasSchedule(Protocol):
    """An object with a schedule, as `make_schedule` and `study` give it."""

    @property
    def schedule(self) -> Schedule:
        ...


class HasPrices(Protocol):
    """An object with prices: a `Convex`, a `Settlement`, a `Report` or a list of a study."""

    @property
    def prices(self) -> Prices:
        ...


class HasMixture(Protocol):
    """An object with a mixture: a `Convex`."""

    @property
    def mixture(self) -> Mixture:
        ...


GivenCase = Union[Case, dict[str, Any], Name]
GivenSchedule = Union[Schedule, HasSchedule, dict[str, Any], Name]
GivenPrices = Union[Prices, FlatPrices, PriceSource, HasPrices, dict[str, Any], Name]
GivenMixture = Union[Mixture, HasMixture, dict[str, Any], Name]
GivenZones = Union[Zones, dict[str, Any], Name]
GivenPowers = Union["DataFrame", Schedule, HasSchedule, dict[str, Any], Name]  # a schedule in megawatts from elsewhere
Given = Union[GivenCase, GivenSchedule, GivenPrices, GivenMixture, GivenZones]
PerMwh = Union[SupportsFloat, str]  # a price in the currency per MWh, where a period is an hour
KINDS: dict[str, type] = {"case": Case, "schedule": Schedule, "prices": Prices, "mixture": Mixture, "zones": Zones}
KEYS_GIVEN: dict[str, dict[Any, list[str]]] = {
    **cast(Any, KEYS),
    "powers": cast(Any, KEYS["schedule"]),
    "zones": {(): ZONES_KEYS, ("zones", "*"): PRICES_KEYS},
}
FEWEST, MOST = 1e-9, 1e9  # between which a number is taken as it is written


def told(what: str) -> str:
    """What a fault calls what was given without a file: `the prices given`."""
    return f"the {what} given"


def values_at(value: Any, pattern: tuple[Any, ...], path: tuple[object, ...] = ()) -> Iterator[tuple[Any, Any]]:
    """The objects at a pattern of `lint_keys`, each with its path; `*` is any key or item."""
    if not pattern:
        yield path, value
        return
    rows = (
        value.items() if isinstance(value, Mapping) else enumerate(value, 1) if isinstance(value, (list, tuple)) else ()
    )
    for key, member in rows:
        if pattern[0] in ("*", key):
            yield from values_at(member, pattern[1:], (*path, key))


def need_keys(what: str, given: dict[str, Any]) -> None:
    """Refuses a key that means nothing in such a dict, since it is most likely misspelt. In a case it is warned of: cases have notes."""
    for pattern, known in KEYS_GIVEN[what].items():
        for path, value in values_at(given, pattern):
            for key in value if isinstance(value, Mapping) else ():
                if key not in known:
                    where = "".join(f"{one_line(step)}: " for step in path)
                    text = f"{told(what)}: {where}`{one_line(key)}` is no key of it: {hint_of(key, known)}"
                    if what != "case":
                        raise HullError(text)
                    warn_caller(text)


def warn_caller(text: str) -> None:
    """Warns of what the line gives that called this package."""
    level, outermost, frame = 0, 0, sys._getframe()
    while frame:
        level += 1
        if str(frame.f_globals.get("__package__")).partition(".")[0] == __package__:
            outermost = level
        frame = cast(Any, frame.f_back)
    warnings.warn(text, stacklevel=outermost + 1)


def numbers_of(value: Any, path: tuple[Any, ...] = ()) -> Iterator[tuple[tuple[Any, ...], Any]]:
    """The floating and decimal numbers of a value that goes into a file, and NA of pandas, each with its path; items are counted from 1.

    A series whose times go back is refused.
    """
    if isinstance(value, Mapping):
        for key, member in value.items():
            yield from numbers_of(member, (*path, key))
    elif isinstance(value, (list, tuple)):
        for place, member in enumerate(value, 1):
            yield from numbers_of(member, (*path, place))
    elif isinstance(value, (float, Decimal)) or type(value).__name__ == "NAType":
        yield path, value
    elif callable(getattr(value, "tolist", None)):
        refuse_backward(", ".join(one_line(str(it)) for it in path), value)
        yield from numbers_of(value.tolist(), path)


def place_of(what: str, path: tuple[Any, ...]) -> tuple[str, Optional[str], Optional[int]]:
    """What a number of a dict is called, and the unit and the period that it is of."""
    is_listed = {"startup", "piecewise_production"}.isdisjoint(map(str, path)) and len(path) > 1
    period = next((it for it in path if isinstance(it, int)), None) if is_listed and what != "mixture" else None
    if what == "prices" and len(path) == 2:
        return f"the {path[0]} price of period {path[1]}", None, period
    steps = (f"item {it}" if isinstance(it, int) else one_line(str(it)) for it in path)
    unit = str(path[1]) if len(path) > 2 and what in ("case", "schedule", "mixture", "powers") else None
    return f"{told(what)}: {', '.join(steps)}", unit, period


def need_finite(what: str, given: dict[str, Any]) -> None:
    """Refuses NaN and infinite numbers, which no file can have."""
    for path, number in numbers_of(given):
        if float_of(number) is None:
            name, unit, period = place_of(what, path)
            raise HullError(f"{name} is {told_value(number)}: a number is due", unit=unit, period=period)


def need_same_times(what: str, given: dict[str, Any]) -> None:
    """Refuses energy and reserve prices that are series of different times."""
    pattern = ("zones", "*") if what == "zones" else ()
    for path, prices in values_at(given, pattern) if what in ("prices", "zones") else ():
        if isinstance(prices, Mapping):
            where = f" of zone {one_line(path[-1])}" if path else ""
            refuse_other_times(
                f"the energy prices{where}", prices.get("energy"), "the reserve prices", prices.get("reserve")
            )


def text_given(what: str, given: dict[str, Any]) -> str:
    """The text of a file that holds a dict."""
    with refused_as(what):
        need_keys(what, given)
        need_same_times(what, given)
        try:
            need_finite(what, given)
            return json_text(given)
        except (RecursionError, TypeError, ValueError) as why:
            raise HullError(f"{told(what)} can't be a file: {why}") from None


def value_of(what: str, given: dict[str, Any]) -> Any:
    """The JSON value of a dict, with its numbers as a file of it would have them."""
    try:
        return parse(text_given(what, given).encode())
    except Refused as why:
        raise HullError(f"{told(what)} can't be a file: {why}", status=STATUS.get(what)) from None


def is_name(given: object) -> TypeGuard[Name]:
    return isinstance(given, (str, os.PathLike))


def object_of(what: str, given: object) -> Any:
    """The object of a kind, as `prices`: the one that is given, or one that it has as a member of that name."""
    for found in (given, getattr(given, what, None)):
        if isinstance(found, KINDS[what]):
            return found
    due = f"a file's name, a dict or `{KINDS[what].__name__}` is due"
    hint = ", and `per_mwh` makes prices of numbers" if what == "prices" else ""
    raise HullError(f"{told(what)}: no `{type(given).__name__}` can be taken: {due}{hint}")


def content_of(what: str, given: object) -> str:
    """The text of a file that holds what is given, a dict or an object."""
    if isinstance(given, dict):
        return text_given(what, given)
    holder = given if callable(getattr(given, "text", None)) else object_of(what, given)
    return cast(str, cast(Any, holder).text())


def length_of(numbers: object) -> Optional[int]:
    """How many items a list has; None of what is none."""
    return len(numbers) if is_list(numbers) and isinstance(numbers, Sized) else None


def need_periods(what: str, given: object, case: object) -> None:
    """Refuses prices that haven't one for each period, where the case is an object or a dict, so that its periods are known."""
    periods = case.get("time_periods") if isinstance(case, dict) else getattr(case, "periods", None)
    if what != "prices" or is_name(given) or not isinstance(periods, int):
        return
    prices = given if isinstance(given, dict) else vars(object_of(what, given))
    for key in ("energy", "reserve"):
        length = length_of(prices.get(key))
        if length is not None and length != periods:
            raise HullError(
                f"{told(what)}: {key} has {counted(length, 'price')}, and the case {counted(periods, 'period')}",
                status=STATUS[what],
            )


def as_case(given: GivenCase) -> Case:
    if isinstance(given, dict):
        return case_of(told("case"), value_of("case", given))
    if is_name(given):
        return read_case(given)
    return with_plain_numbers(object_of("case", given))


def as_checked_case(given: GivenCase) -> Case:
    """The same, refused where `hull` refuses it: a script may have set members of an object to what can't be."""
    found = as_case(given)
    if isinstance(given, dict) or is_name(given):
        return found
    return case_of(told("case"), parse(found.text().encode()))


def as_schedule(given: GivenSchedule, case: Case) -> Schedule:
    if isinstance(given, dict):
        return schedule_of(told("schedule"), value_of("schedule", given), case)
    if is_name(given):
        return read_schedule(given, case)
    return cast(Schedule, object_of("schedule", given)).with_plain_numbers()


def as_prices(given: GivenPrices, case: Case) -> Prices:
    """The prices, for a case; of a file that is a text of `hull price`, `settle` or `convex`, those of the text."""
    if isinstance(given, dict):
        return prices_of(told("prices"), value_of("prices", given), case.periods)
    if isinstance(given, FlatPrices):
        return given.over(case.periods)
    if not is_name(given):
        need_periods("prices", given, case)
        return cast(Prices, object_of("prices", given)).with_plain_numbers()
    return read_prices(given, case.periods)


def with_price_lists(given: dict[str, Any], case: Case) -> dict[str, Any]:
    """A dict of zones, with the prices of zones that are objects as a file has them."""
    zones = given.get("zones")
    if not isinstance(zones, dict):
        return given
    lists = {zone: in_file(zone, one, case) if has_prices(one) else one for zone, one in zones.items()}
    return {**given, "zones": lists}


def has_prices(given: object) -> bool:
    """Whether it is an object that is taken for prices."""
    return isinstance(given, PriceSource) or isinstance(getattr(given, "prices", None), Prices)


def in_file(zone: object, given: GivenPrices, case: Case) -> dict[str, Any]:
    """The prices of a zone as a dict of their file's form."""
    try:
        return as_prices(given, case).in_currency_per_mw()
    except HullError as why:
        text = why.line.removeprefix(f"{told('prices')}: ")
        raise HullError(f"{told('zones')}, zone {one_line(zone)}: {text}", period=why.period) from None


def as_zones(given: GivenZones, case: Case) -> Zones:
    """The zones, for a case; those of an object are looked at as those of a file are, since a script may have set any."""
    if is_name(given):
        return read_zones(given, case)
    zones = given if isinstance(given, dict) else cast(Zones, object_of("zones", given)).as_dict()
    return zones_of(told("zones"), value_of("zones", with_price_lists(zones, case)), case)


def as_beside(
    case: Optional[GivenCase], schedule: Optional[GivenSchedule]
) -> tuple[Optional[Case], Optional[Schedule]]:
    """The case and the schedule that are to stand beside a text, as far as they are given."""
    read = None if case is None else as_case(case)
    if schedule is None:
        return read, None
    if not is_name(schedule) and not isinstance(schedule, dict):
        return read, cast(Schedule, object_of("schedule", schedule)).with_plain_numbers()
    if read is None:
        raise HullError("a schedule is read with its case, which isn't given")
    return read, as_schedule(schedule, read)


def exact_of(value: Any, number: float) -> Fraction:
    """A number as it is written, since 30.0005 is no floating number, or as it floats where it is written in another way."""
    if FEWEST < abs(number) < MOST:  # (what is smaller rounds to 0, and what is larger is refused)
        try:
            return Fraction(str(value))
        except ValueError:
            pass
    return Fraction(number)


def price_of(price: Any, what: str, least: int, hours: float, period: Optional[int] = None) -> MillionthsPerKilowatt:
    """A price per MWh, for a period of so many hours, as a whole one."""
    number = float_of(price)
    if number is None:
        raise HullError(f"{what} is {told_value(price)}: a number is due", period=period)
    found = math.floor(exact_of(price, number) * exact_of(hours, hours) * 1000 + Fraction(1, 2))
    if not least <= found <= PRICE_LIMIT:
        due = f"{least // 1000:,} to {PRICE_LIMIT // 1000:,} per MW and period"
        raise HullError(f"{what} is {told_value(price)}: from {due} is due", period=period)
    return MillionthsPerKilowatt(found)


def prices_of_numbers(key: str, prices: Any, least: int, hours: float) -> list[MillionthsPerKilowatt]:
    """The prices of each period, or one price alone; what is none is told, by its period."""
    if not is_list(prices):
        return [price_of(prices, f"the {key} price", least, hours)]
    items = items_of(f"the {key} prices", prices)
    return [price_of(price, f"the {key} price of period {t}", least, hours, t) for t, price in enumerate(items, 1)]


@overload
def per_mwh(  # type: ignore[misc]
    energy: str, reserve: Optional[PerMwh] = None, hours_per_period: SupportsFloat = 1
) -> FlatPrices:
    ...


@overload
def per_mwh(
    energy: Iterable[PerMwh],
    reserve: Union[PerMwh, Iterable[PerMwh], None] = None,
    hours_per_period: SupportsFloat = 1,
) -> Prices:
    ...


@overload
def per_mwh(  # type: ignore[misc]
    energy: SupportsFloat, reserve: Optional[PerMwh] = None, hours_per_period: SupportsFloat = 1
) -> FlatPrices:
    ...


@overload
def per_mwh(energy: PerMwh, reserve: Iterable[PerMwh], hours_per_period: SupportsFloat = 1) -> Prices:
    ...


def per_mwh(
    energy: Union[PerMwh, Iterable[PerMwh]],
    reserve: Union[PerMwh, Iterable[PerMwh], None] = None,
    hours_per_period: SupportsFloat = 1,
) -> Union[Prices, FlatPrices]:
    """Prices of numbers in the currency per MWh, to the nearest thousandth per MW and period; a half goes up, as in a file.

    A period is an hour where `hours_per_period` says nothing else. Energy and reserve have a number for each period,
    or one number that holds in all. Reserve prices are 0 where they are left out. Where neither is a list the prices
    are `FlatPrices`, and fit a case of any periods. Raises `HullError` where one is no number, or is out of the
    limits of docs/FORMATS.md, or where the lists differ in length, or are series of different times.
    """
    hours = number_option("hours_per_period", hours_per_period, 0, above=True)
    energies = prices_of_numbers("energy", energy, -PRICE_LIMIT, hours)
    reserves = prices_of_numbers("reserve", 0 if reserve is None else reserve, 0, hours)
    periods = [len(prices) for prices, given in ((energies, energy), (reserves, reserve)) if is_list(given)]
    if len(set(periods)) > 1:
        raise HullError(f"there are not as many reserve prices as energy prices: {periods[1]} and {periods[0]}")
    if not periods:
        return FlatPrices(energies[0], reserves[0])
    refuse_other_times("the energy prices", energy, "the reserve prices", reserve)
    most = max(periods)
    return Prices(energies if is_list(energy) else energies * most, reserves if is_list(reserve) else reserves * most)
