"""Numbers of the files, read exactly as `hull` reads them, and written exactly.

An amount, a power and a price are whole numbers of a type each, so that a type checker tells them apart.
"""
import operator
from collections.abc import Iterable
from decimal import Decimal
from typing import NewType, Union, cast, overload

from .errors import HullError
from .options import is_list, told_value

Kilowatts = NewType("Kilowatts", int)
Millionths = NewType("Millionths", int)  # of the currency
MillionthsPerKilowatt = NewType(
    "MillionthsPerKilowatt", int
)  # a price of one period: 98000 is 98.00 per MWh where a period is an hour

Number = Union[int, Decimal]  # what a file's number is read as
PRICE_LIMIT = MillionthsPerKilowatt(10_000_000)  # 10,000 of the currency per MWh


def rounded(number: Union[Number, str], places: int) -> int:
    """floor(number * 10^places + 1/2) of a whole number or a Decimal, whatever its digits."""
    if isinstance(number, int):
        return int(number * 10**places)
    sign, digits, exponent = Decimal(number).as_tuple()
    value = int("".join(map(str, digits)) or "0") * (-1 if sign else 1)
    shift = int(exponent) + places
    if shift >= 0:
        return int(value * 10**shift)
    scale = int(10**-shift)
    return (2 * value + scale) // (2 * scale)


def kilowatts(number: Union[Number, str]) -> Kilowatts:
    """A power of a case's file, in megawatts there, as whole kilowatts."""
    return Kilowatts(rounded(number, 3))


def millionths(number: Union[Number, str]) -> Millionths:
    """An amount of money of a case's file as whole millionths of the currency."""
    return Millionths(rounded(number, 6))


def price(number: Union[Number, str]) -> MillionthsPerKilowatt:
    """A price of a file, in currency per MW and period, as millionths per kilowatt and period."""
    return MillionthsPerKilowatt(rounded(number, 3))


@overload
def in_currency(amount: Millionths) -> Decimal:
    ...


@overload
def in_currency(amount: Iterable[Millionths]) -> list[Decimal]:
    ...


def in_currency(amount: Union[Millionths, Iterable[Millionths]]) -> Union[Decimal, list[Decimal]]:
    """An amount in the currency of the case, exact: 164000000 is 164. Of a list each."""
    return said(amount, 6, "an amount in millionths")


@overload
def in_megawatts(power: Kilowatts) -> Decimal:
    ...


@overload
def in_megawatts(power: Iterable[Kilowatts]) -> list[Decimal]:
    ...


def in_megawatts(power: Union[Kilowatts, Iterable[Kilowatts]]) -> Union[Decimal, list[Decimal]]:
    """A power in megawatts, exact: 8500 is 8.5. Of a list each."""
    return said(power, 3, "a power in kilowatts")


@overload
def in_currency_per_mw(price: MillionthsPerKilowatt) -> Decimal:
    ...


@overload
def in_currency_per_mw(price: Iterable[MillionthsPerKilowatt]) -> list[Decimal]:
    ...


def in_currency_per_mw(
    price: Union[MillionthsPerKilowatt, Iterable[MillionthsPerKilowatt]]
) -> Union[Decimal, list[Decimal]]:
    """A price in the currency per MW and period, which is per MWh where a period is an hour, exact: 98500 is 98.5. Of a list each."""
    return said(price, 3, "a price in millionths per kilowatt")


def said(number: Union[int, Iterable[int]], places: int, what: str) -> Union[Decimal, list[Decimal]]:
    """A whole number, or each of a list, with its point moved."""
    if is_list(number):
        return [one_said(it, places, what) for it in cast("Iterable[int]", number)]
    return one_said(cast(int, number), places, what)


def one_said(number: int, places: int, what: str) -> Decimal:
    try:
        return Decimal(decimal_text(operator.index(number), places))
    except TypeError:
        raise HullError(f"{told_value(number)} is no whole number, as {what} is") from None


def is_whole(number: Number) -> bool:
    """Whether the number of a file has a whole value, as 8 and 8.0 have."""
    return Decimal(number) == Decimal(number).to_integral_value() if abs(Decimal(number)) < 10**20 else True


def decimal_text(number: int, places: int) -> str:
    """number / 10^places, exactly, without zeros at the end: 98000 with 3 places is 98."""
    sign, number = "-" if number < 0 else "", abs(number)
    whole, rest = divmod(number, 10**places)
    return f"{sign}{whole}" + (f".{rest:0{places}}".rstrip("0") if rest else "")


def money(number: int) -> str:
    """Millionths as the currency with two digits behind the point, for people."""
    cents = (abs(number) + 5_000) // 10_000
    return f"{'-' if number < 0 and cents else ''}{cents // 100:,}.{cents % 100:02}"


def per_mwh(number: int) -> str:
    """A price in millionths per kilowatt, for people, per MW and period."""
    return f"{number / 1000:,.3f}"
