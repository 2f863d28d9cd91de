"""A prices file: an energy price and a reserve price for each period, in millionths per kilowatt here."""
import difflib
import os
from collections.abc import Iterable, Sequence
from dataclasses import dataclass, field
from decimal import Decimal
from typing import TYPE_CHECKING, Any, Optional, SupportsFloat

from .errors import HullError, Name, one_line, write_whole
from .json_texts import is_number, read_json, refused_as
from .numbers import PRICE_LIMIT, MillionthsPerKilowatt, decimal_text, in_currency_per_mw, price
from .options import FieldsAlone, counted, float_of, is_list, items_of, refuse_other_times, told_value, whole_option

if TYPE_CHECKING:
    from pandas import DataFrame

    from .tables import Start

MOST_SHOWN = 4  # prices
MOST_PERIODS = 168
NEAR = 0.7  # how like `reserve` a key is that is most likely meant for it
TEXT = b"hull-"  # what each text of the program begins with


class PriceSource:
    """What has prices: lists of them, and the texts of `hull price`, `settle` and `convex`."""


def told_price(number: object) -> str:
    """A price for people, per MW and period."""
    found = float_of(number)
    return told_value(number) if found is None else f"{found / 1000:.10g}"


def told_prices(numbers: Any) -> str:
    """The prices of a list for people; of a long one the first ones."""
    shown = list(map(told_price, numbers)) if is_list(numbers) else [told_price(numbers)]
    return f"[{', '.join(shown[:MOST_SHOWN])}{', ..' if len(shown) > MOST_SHOWN else ''}]"


@dataclass(frozen=True)
class Cut:
    """A price outside the limits, in millionths per kilowatt and period, in place of which the limit stands; `key` is energy or reserve."""

    key: str
    period: int
    price: float
    limit: MillionthsPerKilowatt

    def __str__(self) -> str:
        return f"{self.key} of period {self.period} from {told_price(self.price)} to {told_price(self.limit)}"


@dataclass(repr=False, eq=False)
class Prices(FieldsAlone, PriceSource):
    """Energy and reserve prices of each period, in millionths per kilowatt and period; `cut` says which of them stand for others."""

    energy: list[MillionthsPerKilowatt]
    reserve: list[MillionthsPerKilowatt]
    cut: list[Cut] = field(default_factory=list, compare=False)

    def __repr__(self) -> str:
        told = f"energy={told_prices(self.energy)}, reserve={told_prices(self.reserve)}"
        return f"<Prices per MW and period: {told}>"

    @refused_as("prices")
    def need_form(self) -> None:
        """Refuses what isn't a whole price within the limits for each period."""
        lengths = [len(items_of(f"the {key} prices", getattr(self, key))) for key in ("energy", "reserve")]
        if lengths[0] != lengths[1]:
            raise HullError(f"there are not as many reserve prices as energy prices: {lengths[1]} and {lengths[0]}")
        refuse_other_times("the energy prices", self.energy, "the reserve prices", self.reserve)
        for key, numbers, least in (("energy", self.energy, -PRICE_LIMIT), ("reserve", self.reserve, 0)):
            for t, number in enumerate(numbers, 1):
                try:
                    whole_option(
                        f"the {key} price of period {t}, in millionths per kilowatt,", number, least, PRICE_LIMIT
                    )
                except HullError as why:
                    why.period = t
                    raise

    def with_plain_numbers(self) -> "Prices":
        """The same with lists of plain whole numbers, where a script has set arrays or series."""
        self.need_form()
        energy, reserve = ([MillionthsPerKilowatt(int(it)) for it in prices] for prices in (self.energy, self.reserve))
        return Prices(energy, reserve, self.cut)

    @property
    def told_cut(self) -> str:
        """Of how many periods prices were cut, in words; an empty text where none were."""
        periods = len({one.period for one in self.cut})
        return f"prices of {counted(periods, 'period')} were cut at the limits" if periods else ""

    @property
    def told_cuts(self) -> str:
        """The same with each price that was cut, and what it was; of many the first ones."""
        more = ", .." if len(self.cut) > MOST_SHOWN else ""
        return f"{self.told_cut}, per MW and period: {', '.join(map(str, self.cut[:MOST_SHOWN]))}{more}"

    @property
    def told_limits(self) -> str:
        """Which prices stand at a limit of a search, in words; an empty text where none do. Reserve prices of 0 are no such."""
        rows = (("energy", self.energy), ("reserve", self.reserve))
        found = [
            f"{key} of period {t} at {told_price(number)}"
            for key, numbers in rows
            for t, number in enumerate(numbers, 1)
            if abs(number) == PRICE_LIMIT
        ]
        more = ", .." if len(found) > MOST_SHOWN else ""
        return f"prices stand at the limits, per MW and period: {', '.join(found[:MOST_SHOWN])}{more}" if found else ""

    def text(self) -> str:
        """The file: prices in currency per MW and period, exact."""
        self.need_form()
        rows = (
            f'"{key}": [{", ".join(decimal_text(it, 3) for it in getattr(self, key))}]' for key in ("energy", "reserve")
        )
        return "{" + ", ".join(rows) + "}\n"

    def write(self, name: Name, inputs: Sequence[str] = ()) -> None:
        """Writes the file that `hull settle` reads."""
        write_whole(name, self.text(), inputs)

    def in_currency_per_mw(self) -> dict[str, list[Decimal]]:
        """The prices as their file has them: in the currency per MW and period, which is per MWh where a period is an hour."""
        return {"energy": in_currency_per_mw(self.energy), "reserve": in_currency_per_mw(self.reserve)}

    def frame(self, start: Optional["Start"] = None, hours_per_period: Optional[SupportsFloat] = None) -> "DataFrame":
        """A row for each period, as a data frame of pandas."""
        from .tables import Table, frames_of

        table, plain = Table(["period", "energy:price", "reserve:price"], True), self.with_plain_numbers()
        for t, prices in enumerate(zip(plain.energy, plain.reserve), 1):
            table.add(t, *prices)
        return frames_of({"prices": table}, start, hours_per_period)["prices"]


@dataclass(repr=False, eq=False)
class FlatPrices(FieldsAlone, PriceSource):
    """One energy price and one reserve price that hold in each period, in millionths per kilowatt and period."""

    energy: MillionthsPerKilowatt
    reserve: MillionthsPerKilowatt

    def __repr__(self) -> str:
        return f"<FlatPrices per MW and period: energy={told_price(self.energy)}, reserve={told_price(self.reserve)}>"

    def over(self, periods: int) -> Prices:
        """The same prices in each of so many periods, 1 to 168."""
        periods = whole_option("periods", periods, 1, MOST_PERIODS)
        return Prices([self.energy] * periods, [self.reserve] * periods)

    def in_currency_per_mw(self) -> dict[str, Decimal]:
        """Both prices in the currency per MW and period, one number each. A file has lists, as `over(periods)` gives them."""
        return {"energy": in_currency_per_mw(self.energy), "reserve": in_currency_per_mw(self.reserve)}

    def write(self, name: Name, inputs: Sequence[str] = (), periods: Optional[int] = None) -> None:
        """Writes the file of so many periods. Raises `HullError` where these are left out, since a file has a price for each."""
        self.over_all("a file", periods).write(name, inputs)

    def frame(
        self,
        start: Optional["Start"] = None,
        hours_per_period: Optional[SupportsFloat] = None,
        periods: Optional[int] = None,
    ) -> "DataFrame":
        """A row for each of so many periods. Raises `HullError` where these are left out."""
        return self.over_all("a frame", periods).frame(start, hours_per_period)

    def over_all(self, what: str, periods: Optional[int]) -> Prices:
        if periods is None:
            raise HullError(
                f"{what} has prices of each period, and these hold in any: give `periods=`, as case.periods"
            )
        return self.over(periods)


def nearest_prices(key: str, numbers: Any, least: int, cut: list[Cut]) -> list[MillionthsPerKilowatt]:
    """The nearest whole prices within the limits; what was outside is noted in `cut`."""
    found = []
    for t, given in enumerate(items_of(f"the {key} prices", numbers), 1):
        number = float_of(given)
        if number is None:
            raise HullError(f"the {key} price of period {t} is {told_value(given)}: a number is due", period=t)
        whole = round(number)
        found.append(MillionthsPerKilowatt(min(max(whole, least), PRICE_LIMIT)))
        if found[-1] != whole:
            cut.append(Cut(key, t, number, found[-1]))
    return found


def prices_near(energy: Iterable[float], reserve: Iterable[float]) -> Prices:
    """The whole prices nearest to some in millionths per kilowatt, as a solver's duals are.

    Each has a number for each period. One outside the limits of docs/FORMATS.md becomes the limit: 10,000.00 per MW and period either way,
    and 0 for reserve. `cut` says then what it was. Raises `HullError` where one is no number, or where the lists differ in length, or are
    series of different times.
    """
    refuse_other_times("the energy prices", energy, "the reserve prices", reserve)
    cut: list[Cut] = []
    energies, reserves = nearest_prices("energy", energy, -PRICE_LIMIT, cut), nearest_prices("reserve", reserve, 0, cut)
    found = Prices(energies, reserves, cut)
    found.need_form()
    return found


def is_text_of_hull(name: Name) -> bool:
    """Whether a file holds what the program printed. A pipe isn't looked into, since it is read once."""
    try:
        if not os.path.isfile(name):
            return False
        with open(name, "rb") as file:
            return file.read(len(TEXT)) == TEXT
    except (OSError, TypeError, ValueError):
        return False


def list_of(name: Name, key: str, value: Any, periods: Optional[int], least: int) -> list[MillionthsPerKilowatt]:
    if not isinstance(value, list):
        raise HullError(f"{name}: {key} isn't a list of a price for each period")
    if periods is not None and len(value) != periods:
        raise HullError(
            f"{name}: {key} has {counted(len(value), 'price')}: one for each of {counted(periods, 'period')} is due"
        )
    for t, given in enumerate(value, 1):
        if not is_number(given) or not least <= price(given) <= PRICE_LIMIT:
            raise HullError(
                f"{name}: {key} has in period {t} no price from {least // 1000:,} to {PRICE_LIMIT // 1000:,}", period=t
            )
    return [price(it) for it in value]


@refused_as("prices")
def prices_of(name: Name, value: Any, periods: Optional[int] = None) -> Prices:
    """The prices of a JSON value; where `periods` is None, as many as it has. What is refused has the status of a prices file."""
    return prices_within(name, value, periods)


def prices_within(name: Name, value: Any, periods: Optional[int] = None) -> Prices:
    """The same of a part of another file, as zones, which the program doesn't read."""
    if not isinstance(value, dict) or "energy" not in value:
        raise HullError(f"{name}: no prices: it isn't an object with the list `energy`")
    energy = list_of(name, "energy", value["energy"], periods, -PRICE_LIMIT)
    reserve = value.get("reserve", [0] * len(energy))
    return Prices(energy, list_of(name, "reserve", reserve, len(energy), 0))


@refused_as("prices")
def refuse_misspelt_reserve(name: Name, value: dict[str, Any]) -> None:
    """Refuses a key that is most likely meant for `reserve`, without which reserve prices are 0. Other keys are skipped, as by the program."""
    near = [] if "reserve" in value else [key for key in value if is_near(key, "reserve")]
    if near:
        raise HullError(f"{name}: `{one_line(near[0])}` is no key of it: is `reserve` meant?")


def refusal_of_reserve(name: Name) -> Optional[HullError]:
    """Why a prices file is refused, though the program would take it: for such a key. Of a file that can't be read the program says why."""
    if not os.path.isfile(name) or is_text_of_hull(name):
        return None
    try:
        value = read_json(name, "prices")
    except HullError:
        return None
    try:
        refuse_misspelt_reserve(name, value if isinstance(value, dict) else {})
    except HullError as why:
        return why
    return None


def is_near(key: str, known: str) -> bool:
    """Whether the known key is most likely meant, as by `reserves` or by `spinning_reserve`."""
    plain = key.casefold()
    return known in plain or bool(difflib.get_close_matches(plain, [known], 1, NEAR))


def read_prices(name: Name, periods: Optional[int] = None) -> Prices:
    """The prices of a file, in millionths per kilowatt and period.

    Without a reserve list those are 0. Of a file that is a text of `hull price`, `settle` or `convex` they are the prices of the text. Raises
    `HullError` where docs/FORMATS.md refuses the file, or where it hasn't a price for each of so many periods, if these are given, or where a key
    is most likely a misspelt `reserve`.
    """
    from .outputs import read_priced

    if not is_text_of_hull(name):
        value = read_json(name, "prices")
        prices = prices_of(name, value, periods)
        refuse_misspelt_reserve(name, value)
        return prices
    text = read_priced(name)
    if periods not in (None, text.periods):
        raise HullError(
            f"{text.name}: the text has {counted(text.periods, 'period')}, and a price for each of {periods} is due"
        )
    return text.prices
