"""The texts that `hull` prints, read as strictly as `hull audit` reads a report: to the byte, within its bounds.

A line ends at a line feed and at nothing else, so a name may hold any other character.
"""
from __future__ import annotations

import json
import re
from collections.abc import Iterator, Sequence
from dataclasses import dataclass, field
from decimal import Decimal
from typing import TYPE_CHECKING, Any, Callable, ClassVar, Optional, SupportsFloat, Union, cast

from .errors import HullError, Name, one_line, read_bytes, shown_name, write_whole
from .mixtures import MOST_WEIGHT, Entry, Mixture
from .numbers import Kilowatts, Millionths, MillionthsPerKilowatt, in_currency
from .options import member
from .prices import Prices, PriceSource
from .schedules import Plan

if TYPE_CHECKING:
    from pandas import DataFrame

    from .inputs import GivenCase, GivenSchedule
    from .named_texts import GivenTexts, Money
    from .tables import Start, Table

Range = tuple[int, int]  # the least and the greatest number
COUNT = (0, 2**32 - 1)
MONEY = (-(2**63), 2**63 - 1)
SUM = (-(2**127), 2**127 - 1)
PRICE = 10_000_000
RADIUS = (0, 20_000_000)
WITHIN, ROUNDS = 10**12, 1000  # the greatest of each that `hull convex` takes
NUMBER = r"(0|-?[1-9][0-9]{0,38})"
NAME = r'"(?:[^\x00-\x1f"\\]|\\["\\]|\\u00[01][0-9a-f])*"'
KINDS = ("thermal", "renewable", "bid")


@dataclass
class Row:
    """Prices of a proposal or of a settlement, with their dual value and the totals of the best responses."""

    number: int
    value: Millionths
    energy: list[MillionthsPerKilowatt]
    reserve: list[MillionthsPerKilowatt]
    supplied: list[Kilowatts]
    reserved: list[Kilowatts]


@dataclass
class Owed:
    """A unit or bid: what it earns at best and in the schedule, what it is owed, and its best response."""

    kind: str
    name: str
    earned: Millionths
    scheduled: Millionths
    payment: Millionths
    on: list[int] = field(default_factory=list)
    power: list[Kilowatts] = field(default_factory=list)
    reserve: list[Kilowatts] = field(default_factory=list)

    @property
    def make_whole(self) -> Millionths:
        """The part of the payment that makes a loss in the schedule good: up to 0, or up to the least loss that the unit can have."""
        return Millionths(min(self.payment, max(0, -self.scheduled)))

    @property
    def lost_opportunity(self) -> Millionths:
        """The rest of the payment: the profit that the unit forgoes."""
        return Millionths(self.payment - self.make_whole)


class Text:
    """What every text of `hull` can be turned into."""

    command: ClassVar[str]
    name: str
    file = ""  # (the name of the file that it was read from; empty where there is none)
    printed = b""  # (as the program printed it; empty where the object wasn't read from that)

    def write(self, name: Name, inputs: Sequence[str] = ()) -> None:
        """Writes the text as the program printed it, for `read_output` or `hull audit`."""
        if not self.printed:
            raise HullError(f"{self.name} wasn't read from a text of hull, so there is none to write")
        write_whole(name, self.printed, inputs)

    def tables(
        self,
        case: Optional[GivenCase] = None,
        schedule: Optional[GivenSchedule] = None,
        money: Union[Money, bool] = "currency",
        *,
        currency: Optional[bool] = None,
    ) -> dict[str, Table]:
        """The tables of the text by name, with heads and rows. Numbers are exact, in the currency and MW.

        With `money="millionths"` they are whole, in millionths and kilowatts. Demand, requirement and the schedule
        stand beside where case and schedule are given. `currency` is the old name of `money`, for a flag.
        """
        from .inputs import as_beside
        from .named_texts import is_in_currency, texts_of
        from .tables import tables_of

        return tables_of(texts_of(self), *as_beside(case, schedule), is_in_currency(money, currency))

    def frames(
        self,
        case: Optional[GivenCase] = None,
        schedule: Optional[GivenSchedule] = None,
        money: Union[Money, bool] = "currency",
        start: Optional[Start] = None,
        hours_per_period: Optional[SupportsFloat] = None,
        *,
        currency: Optional[bool] = None,
    ) -> dict[str, DataFrame]:
        """The same as data frames of pandas: what `frames` gives of the text alone."""
        from .named_texts import is_in_currency

        in_currency = is_in_currency(money, currency)
        return frames(self, case, schedule, "currency" if in_currency else "millionths", start, hours_per_period)


def frames(
    texts: GivenTexts,
    case: Optional[GivenCase] = None,
    schedule: Optional[GivenSchedule] = None,
    money: Union[Money, bool] = "currency",
    start: Optional[Start] = None,
    hours_per_period: Optional[SupportsFloat] = None,
    *,
    currency: Optional[bool] = None,
) -> dict[str, DataFrame]:
    """Data frames of texts: `runs`, `proposals`, `prices`, `units` and `responses`, as far as these have rows.

    `texts` are one, several, or several by name, each an object or a file's name. A row has the name of its text in
    the column `report`; of a file this is its name without folders, unless two files have that one. Texts of one name are numbered: `hull settle`, `hull settle 2`. Numbers are floating, in
    the currency and MW; with `money="millionths"` they are whole, in millionths and kilowatts. With a start, tables
    by period are indexed by time. `currency` is the old name of `money`, for a flag. Raises `HullError` where
    pandas isn't there, where something given isn't such a text, or where a start doesn't say when each period begins.
    """
    from .inputs import as_beside
    from .named_texts import is_in_currency, texts_of
    from .tables import frames_of, tables_of

    tables = tables_of(texts_of(texts), *as_beside(case, schedule), is_in_currency(money, currency))
    return frames_of(tables, start, hours_per_period)


@dataclass(repr=False)
class Priced(Text, PriceSource):
    """What reports and settlements have in common: one list of prices, and what each unit is owed at it."""

    name: str = field(compare=False)
    periods: int
    cost: Millionths
    best: Row
    units: list[Owed]
    surplus: Millionths
    payments: Millionths
    gap: Millionths

    def __repr__(self) -> str:
        sums = f"payments={self.payments}, gap={self.gap}, cost={self.cost}"
        return f"<{type(self).__name__} {self.name!r}: periods={self.periods}, units={len(self.units)}, {sums}>"

    @property
    def prices(self) -> Prices:
        """The prices, with lists of their own: a script may change them, and the text stays as it was printed."""
        return Prices(list(self.best.energy), list(self.best.reserve))

    @property
    def value(self) -> Millionths:
        """The dual value of the prices."""
        return self.best.value

    @property
    def make_whole(self) -> Millionths:
        return Millionths(sum(unit.make_whole for unit in self.units))

    @property
    def lost_opportunity(self) -> Millionths:
        return Millionths(sum(unit.lost_opportunity for unit in self.units))

    def unit(self, kind: Optional[str] = None, name: Optional[str] = None) -> Owed:
        """What a unit or bid is owed; a name of one kind needs no kind before it. Raises `HullError` where there is none."""
        return member({(unit.kind, unit.name): unit for unit in self.units}, kind, name, self.name)


@dataclass(repr=False)
class Report(Priced):
    """The text of `hull price`."""

    command = "price"
    budget: int
    ahead: int
    proposals: list[Row]

    @property
    def chosen(self) -> int:
        return self.best.number


@dataclass(repr=False)
class Settlement(Priced):
    """The text of `hull settle`."""

    command = "settle"

    @property
    def proposals(self) -> list[Row]:
        return [self.best]


@dataclass(repr=False)
class Convex(Priced):
    """The text of `hull convex`: prices with their settlement, and the mixture that bounds the dual value of all prices."""

    command = "convex"
    within: Millionths
    rounds: int
    made: int
    mixture: Mixture
    bound: Millionths
    distance: Millionths
    least: Millionths

    @property
    def proposals(self) -> list[Row]:
        return [self.best]

    @property
    def within_in_currency(self) -> Decimal:
        """The distance that was to be reached in the currency, exact, as the parameter `within` has it."""
        return in_currency(self.within)

    @property
    def is_near(self) -> bool:
        """Whether the distance that was to be reached is reached; the search also ends after its rounds, or at a millionth of the value."""
        return self.distance <= self.within

    @property
    def rounds_made(self) -> int:
        """How many rounds the search made, which `made` is here; `rounds` is the most that it was to make."""
        return self.made


AnyPriced = Union[Report, Settlement, Convex]


@dataclass
class Bound(Text):
    """The text of `hull bound`."""

    command = "bound"
    name: str = field(compare=False)
    proposals: int
    chosen: int
    value: Millionths
    radius: MillionthsPerKilowatt
    first: int
    last: int
    bound: Millionths
    distance: Millionths

    @property
    def proposal_count(self) -> int:
        """How many proposals the report has, which `proposals` is here."""
        return self.proposals


@dataclass
class Side:
    """One side of `hull fixed`: how many proposals, the chosen one, its value and prices, and the sums."""

    proposals: int
    chosen: int
    value: Millionths
    prices: Prices
    payments: Millionths = Millionths(0)
    surplus: Millionths = Millionths(0)


@dataclass(repr=False)
class Fixed(Text):
    """The text of `hull fixed`: the sides `hull` and `fixed`, and (kind, name, payment, payment) of each unit."""

    command = "fixed"
    name: str = field(compare=False)
    hull: Side
    fixed: Side
    units: list[tuple[str, str, Millionths, Millionths]]
    cost: Millionths

    def __repr__(self) -> str:
        payments = f"payments={self.hull.payments} and {self.fixed.payments}"
        return f"<Fixed {self.name!r}: units={len(self.units)}, {payments}, cost={self.cost}>"


@dataclass
class Certificate(Text):
    """The text of `hull certify`."""

    command = "certify"
    name: str = field(compare=False)
    periods: int
    units: int
    cost: Millionths
    value: Millionths
    surplus: Millionths
    payments: Millionths
    gap: Millionths
    radius: MillionthsPerKilowatt
    bound: Millionths
    distance: Millionths
    least: Millionths

    @property
    def unit_count(self) -> int:
        """How many units and bids the case has, which `units` is here."""
        return self.units


def numbers_of(text: str) -> Optional[list[int]]:
    """The numbers of a list, or None where one isn't in form, as +1, 01 and -0 aren't."""
    try:
        found = [int(it) for it in text.split(" ")] if len(text) < 10_000 else None
    except ValueError:
        return None
    return found if found and " ".join(map(str, found)) == text else None


class Lines:
    """The lines of a text, taken one by one, each with the form and the ranges that are due there."""

    def __init__(self, name: Name, data: bytes, what: str) -> None:
        self.name, self.what, self.read = shown_name(name), what, 0
        *self.whole, self.rest = data.split(b"\n")

    def wrong(self, more: str = "") -> HullError:
        at = self.read + 1
        return HullError(f"{self.name}, line {at}: not a line of {self.what}{more}", at_line=at)

    def next(self) -> Optional[str]:
        """The next line as a text, or None where there is no whole one."""
        if self.read >= len(self.whole):
            return None
        try:
            return self.whole[self.read].decode("utf-8")
        except UnicodeDecodeError:
            raise self.wrong(": it isn't UTF-8") from None

    def take(self, pattern: str, *ranges: Range) -> list[Any]:
        """The groups of the next line; the last of them are numbers within the ranges, and come as such."""
        line = self.next()
        found = re.fullmatch(pattern, line) if line is not None else None
        if not found:
            raise self.wrong()
        groups: list[Any] = list(found.groups())
        for place, (low, high) in enumerate(ranges, len(groups) - len(ranges)):
            groups[place] = int(groups[place])
            if not low <= groups[place] <= high:
                raise self.wrong(": a number is out of its range")
        self.read += 1
        return groups

    def number(self, word: str, low: int, high: int) -> int:
        found: int = self.take(f"{word} {NUMBER}", (low, high))[0]
        return found

    def amount(self, word: str) -> Millionths:
        return Millionths(self.number(word, *SUM))

    def numbers(self, word: str, length: int, low: int, high: int) -> list[int]:
        line = self.next()
        if line is None or not line.startswith(f"{word} "):
            raise self.wrong()
        text = line[len(word) + 1 :]
        if text.count(" ") + 1 != length:
            raise self.wrong(f": it has {text.count(' ') + 1} numbers, and not {length}")
        found = numbers_of(text)
        if found is None or not low <= min(found) <= max(found) <= high:
            raise self.wrong(": a number is out of form or of its range")
        self.read += 1
        return found

    def powers(self, word: str, length: int, limits: Range = COUNT) -> list[Kilowatts]:
        return cast("list[Kilowatts]", self.numbers(word, length, *limits))

    def prices(self, word: str, length: int, least: int) -> list[MillionthsPerKilowatt]:
        return cast("list[MillionthsPerKilowatt]", self.numbers(word, length, least, PRICE))

    def end(self) -> None:
        self.take("end")
        if self.read < len(self.whole) or self.rest:
            raise self.wrong(": the text ended above")


def name_of(text: str) -> str:
    return str(json.loads(text))


def read_row(lines: Lines, number: int, value: Millionths, periods: int) -> Row:
    energy, reserve = lines.prices("energy", periods, -PRICE), lines.prices("reserve", periods, 0)
    supplied, reserved = (lines.powers(word, periods, SUM) for word in ("supplied", "reserved"))
    return Row(number, value, energy, reserve, supplied, reserved)


def read_units(lines: Lines, count: int, periods: int) -> list[Owed]:
    units: list[Owed] = []
    least = 0
    for _ in range(count):
        owed = "".join(f" {it} {NUMBER}" for it in ("earned", "scheduled", "payment"))
        kind, name, *sums = lines.take(f"unit ({'|'.join(KINDS[least:])}) ({NAME}){owed}", MONEY, MONEY, MONEY)
        least = KINDS.index(kind)
        unit = Owed(kind, name_of(name), *sums)
        unit.on = lines.numbers("on", periods, 0, 1) if kind == "thermal" else [1] * periods
        unit.power = lines.powers("power", periods)
        unit.reserve = lines.powers("reserve", periods) if kind == "thermal" else [Kilowatts(0)] * periods
        units.append(unit)
    return units


def read_head(lines: Lines) -> tuple[int, int]:
    return lines.number("periods", 1, 168), lines.number("units", 1, 12_288)


def read_sums(lines: Lines) -> tuple[Millionths, Millionths, Millionths]:
    """Surplus, payments and gap."""
    return lines.amount("surplus"), lines.amount("payments"), lines.amount("gap")


def read_report(lines: Lines) -> Report:
    lines.take("hull-report 1")
    periods, count = read_head(lines)
    budget, ahead = lines.number("budget", 1, 10_000), lines.number("ahead", 1, 16)
    cost = lines.amount("cost")
    rows: list[Row] = []
    for number in range(1, lines.number("proposals", 1, COUNT[1]) + 1):
        (value,) = lines.take(f"proposal {number} value {NUMBER}", SUM)
        rows.append(read_row(lines, number, value, periods))
    chosen, value = lines.take(f"chosen {NUMBER} value {NUMBER}", COUNT, SUM)
    if not 1 <= chosen <= len(rows):
        raise HullError(f"{lines.name}, line {lines.read}: there is no proposal {chosen}", at_line=lines.read)
    if rows[chosen - 1].value != value:
        raise HullError(f"{lines.name}, line {lines.read}: proposal {chosen} has another value", at_line=lines.read)
    units, sums = read_units(lines, count, periods), read_sums(lines)
    lines.end()
    return Report(lines.name, periods, cost, rows[chosen - 1], units, *sums, budget, ahead, rows)


def read_settlement(lines: Lines) -> Settlement:
    lines.take("hull-settlement 1")
    periods, count = read_head(lines)
    cost, value = lines.amount("cost"), lines.amount("value")
    row = read_row(lines, 1, value, periods)
    units, sums = read_units(lines, count, periods), read_sums(lines)
    lines.end()
    return Settlement(lines.name, periods, cost, row, units, *sums)


def read_entry(lines: Lines, weight: int, periods: int) -> Entry:
    """An entry of a mixture: its share, and a schedule of the unit."""
    share = lines.number("share", 0, weight)
    on = lines.numbers("on", periods, 0, 1)
    return Entry(share, Plan(on, lines.powers("power", periods), lines.powers("reserve", periods)))


def read_mixture_lines(lines: Lines, names: list[str], periods: int) -> Mixture:
    """The mixture, which has entries of each thermal unit, in order, whose shares sum to the weight."""
    weight = lines.number("weight", 1, MOST_WEIGHT)
    thermal = {}
    for name in names:
        quoted, count = lines.take(f"mixture thermal ({NAME}) entries {NUMBER}", (1, COUNT[1]))
        if name_of(quoted) != name:
            raise HullError(f"{lines.name}, line {lines.read}: another unit's mixture is due here", at_line=lines.read)
        thermal[name] = [read_entry(lines, weight, periods) for _ in range(count)]
        if sum(entry.weight for entry in thermal[name]) != weight:
            raise HullError(
                f"{lines.name}, line {lines.read}: the unit's shares don't sum to the weight", at_line=lines.read
            )
    return Mixture(weight, thermal)


def read_convex(lines: Lines) -> Convex:
    lines.take("hull-convex 1")
    periods, count = read_head(lines)
    cost = lines.amount("cost")
    within = Millionths(lines.number("within", 0, WITHIN))
    rounds, made = lines.number("rounds", 1, ROUNDS), lines.number("made", 0, ROUNDS)
    row = read_row(lines, 1, lines.amount("value"), periods)
    units, sums = read_units(lines, count, periods), read_sums(lines)
    mixture = read_mixture_lines(lines, [unit.name for unit in units if unit.kind == "thermal"], periods)
    bound, distance, least = lines.amount("bound"), lines.amount("distance"), lines.amount("least")
    lines.end()
    return Convex(lines.name, periods, cost, row, units, *sums, within, rounds, made, mixture, bound, distance, least)


def read_bound(lines: Lines) -> Bound:
    lines.take("hull-bound 1")
    proposals = lines.number("proposals", 1, COUNT[1])
    chosen, value = lines.take(f"chosen {NUMBER} value {NUMBER}", COUNT, SUM)
    radius = MillionthsPerKilowatt(lines.number("radius", *RADIUS))
    first, last = lines.take(f"certificate first {NUMBER} last {NUMBER}", COUNT, COUNT)
    bound, distance = lines.amount("bound"), lines.amount("distance")
    lines.end()
    return Bound(lines.name, proposals, chosen, value, radius, first, last, bound, distance)


def read_side_prices(lines: Lines, word: str, periods: int) -> Prices:
    energy = lines.prices(f"{word} energy", periods, -PRICE)
    return Prices(energy, lines.prices(f"{word} reserve", periods, 0))


def read_fixed(lines: Lines) -> Fixed:
    lines.take("hull-fixed 1")
    run = f"proposals {NUMBER} chosen {NUMBER} value {NUMBER}"
    runs = [lines.take(f"{word} {run}", COUNT, COUNT, SUM) for word in ("hull", "fixed")]
    periods = len((lines.next() or "").split(" ")) - 2
    hull, fixed = (
        Side(count, chosen, value, read_side_prices(lines, word, periods))
        for (count, chosen, value), word in zip(runs, ("hull", "fixed"))
    )
    units: list[tuple[str, str, Millionths, Millionths]] = []
    while (lines.next() or "").startswith("unit "):
        form = f"unit ({'|'.join(KINDS)}) ({NAME}) hull {NUMBER} fixed {NUMBER}"
        kind, name, of_hull, of_fixed = lines.take(form, MONEY, MONEY)
        units.append((kind, name_of(name), of_hull, of_fixed))
    hull.payments, fixed.payments = lines.take(f"payments hull {NUMBER} fixed {NUMBER}", SUM, SUM)
    hull.surplus, fixed.surplus = lines.take(f"surplus hull {NUMBER} fixed {NUMBER}", SUM, SUM)
    cost = lines.amount("cost")
    lines.end()
    return Fixed(lines.name, hull, fixed, units, cost)


def read_certificate(lines: Lines) -> Certificate:
    lines.take("hull-certificate 1")
    periods, units = read_head(lines)
    cost, value, sums = lines.amount("cost"), lines.amount("value"), read_sums(lines)
    radius = MillionthsPerKilowatt(lines.number("radius", *RADIUS))
    bound, distance, least = lines.amount("bound"), lines.amount("distance"), lines.amount("least")
    lines.end()
    return Certificate(lines.name, periods, units, cost, value, *sums, radius, bound, distance, least)


Output = Union[AnyPriced, Bound, Fixed, Certificate]


def sums_of_units(text: AnyPriced) -> Iterator[tuple[str, int, int]]:
    """What each unit is owed, and what all are and supply: as the text has it, and as its rows of units make it."""
    for unit in text.units:
        yield f'the payment of "{one_line(unit.name)}"', unit.payment, unit.earned - unit.scheduled
    yield "the sum of payments", text.payments, sum(unit.payment for unit in text.units)
    signs = [-1 if unit.kind == "bid" else 1 for unit in text.units]
    for t in range(text.periods):
        supplied = sum(sign * unit.power[t] for sign, unit in zip(signs, text.units))
        yield f"what is supplied in period {t + 1}", text.best.supplied[t], supplied
        yield f"what is reserved in period {t + 1}", text.best.reserved[t], sum(unit.reserve[t] for unit in text.units)


def sums_of(text: Output) -> Iterator[tuple[str, int, int]]:
    """Numbers that others of the text determine: the name of each, as the text has it, and as the others make it."""
    if isinstance(text, (Report, Settlement, Convex)):
        yield from sums_of_units(text)
    if isinstance(text, (Report, Settlement, Convex, Certificate)):
        yield "the gap", text.gap, text.cost - text.value
        yield "the sum of payments and surplus", text.payments + text.surplus, text.gap
    if isinstance(text, (Convex, Certificate, Bound)):
        yield "the distance", text.distance, text.bound - text.value
    if isinstance(text, (Convex, Certificate)):
        yield "the least", text.least, max(0, text.cost - text.bound)
    if isinstance(text, Fixed):
        yield "the sum of payments", text.hull.payments, sum(of_hull for *_, of_hull, _ in text.units)
        yield "the sum of payments", text.fixed.payments, sum(of_fixed for *_, of_fixed in text.units)
        sums = [side.payments + side.surplus for side in (text.hull, text.fixed)]
        yield "the sum of payments and surplus", sums[0], text.cost - text.hull.value
        # (units that are held have no better responses than the same units of the case as given)
        yield "the sum of payments and surplus", sums[1], max(sums[1], text.cost - text.fixed.value)


def need_sums(text: Output) -> None:
    """Refuses a text whose numbers contradict each other: no program printed it so."""
    for name, said, due in sums_of(text):
        if said != due:
            raise HullError(
                f"{text.name}: its numbers contradict each other: {name} is {said}, and by the others {due}"
            )


FORMS: dict[str, tuple[str, Callable[[Lines], Output]]] = {
    "hull-report 1": ("a report of `hull price`", read_report),
    "hull-settlement 1": ("a text of `hull settle`", read_settlement),
    "hull-convex 1": ("a text of `hull convex`", read_convex),
    "hull-bound 1": ("a text of `hull bound`", read_bound),
    "hull-fixed 1": ("a text of `hull fixed`", read_fixed),
    "hull-certificate 1": ("a text of `hull certify`", read_certificate),
}


def parse_output(name: Name, data: bytes, due: Sequence[str] = tuple(FORMS)) -> Output:
    """The text of `hull` that these bytes are, of the forms that are due."""
    first = data.split(b"\n", 1)[0].decode("utf-8", "replace")
    if first.startswith("fault "):
        raise HullError(f"{shown_name(name)}: this run was refused: {one_line(first)[:200]}")
    other = re.fullmatch(r"hull-(bound|fixed|check|try|audit|report|settlement|certificate|convex) 1", first)
    if other and first not in due:
        is_a = FORMS[first][0] if first in FORMS else f"a text of `hull {other[1]}`"
        raise HullError(f"{shown_name(name)}: this is {is_a}, where {' or '.join(FORMS[it][0] for it in due)} is due")
    what, read = FORMS[first if first in due else due[0]]
    found = read(Lines(name, data, what))
    need_sums(found)
    found.printed = data
    return found


def read_priced(name: Name) -> AnyPriced:
    """The text of `hull price`, `settle` or `convex` in a file, as `read_output` reads it."""
    return cast(AnyPriced, read_output(name, ("hull-report 1", "hull-settlement 1", "hull-convex 1")))


def read_convex_text(name: Name) -> Convex:
    """The text of `hull convex` in a file, as `read_output` reads it."""
    return cast(Convex, read_output(name, ("hull-convex 1",)))


def read_certificate_text(name: Name) -> Certificate:
    """The text of `hull certify` in a file, as `read_output` reads it."""
    return cast(Certificate, read_output(name, ("hull-certificate 1",)))


def read_output(name: Name, due: Optional[Sequence[str]] = None) -> Output:
    """The text of `hull price`, `settle`, `convex`, `bound`, `fixed` or `certify` in a file, in millionths and kilowatts.

    `due` are the first lines that are taken, or None for each of them. Raises `HullError` where the text is none of
    these, where `hull audit` would call it out of form, or where its numbers contradict each other.
    """
    return parse_output(name, read_bytes(name, "a text of hull", most=2**31, begins=b"hull-"), due or tuple(FORMS))
