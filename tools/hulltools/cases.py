"""A case as `hull` reads it: whole kilowatts and millionths. A unit's members have the names of the file's fields."""
from collections.abc import Callable, Mapping, Sequence
from dataclasses import dataclass, field
from decimal import Decimal
from typing import Any, Optional, TypeVar, Union

from .json_texts import is_number, read_json, refused_as
from .numbers import (
    PRICE_LIMIT,
    Kilowatts,
    Millionths,
    MillionthsPerKilowatt,
    Number,
    is_whole,
    kilowatts,
    millionths,
    price,
)
from .errors import HullError, Name, one_line, write_whole
from .options import FieldsAlone, member

POWER, OUTPUT, COST, TIME = 10**9, 10**7, 10**13, 10**6
Lag = tuple[int, Millionths]  # periods off, and what a start costs then
Point = tuple[Kilowatts, Millionths]  # a power, and what a period at it costs
Block = tuple[Kilowatts, MillionthsPerKilowatt]  # a width, and its price
Factor = Union[int, float, str, Decimal]
Whole = TypeVar("Whole", bound=int)
MOST_PERIODS, MOST_OF_A_KIND, MOST_ITEMS, MOST_BLOCKS = 168, 4096, 32, 8


@dataclass(eq=False)
class Thermal(FieldsAlone):
    """A thermal unit. `lags` are (periods, millionths), `points` (kilowatts, millionths), `marks` None, 0 or 1."""

    name: str
    must_run: int
    least: Kilowatts
    most: Kilowatts
    ramp_up: Kilowatts
    ramp_down: Kilowatts
    start_limit: Kilowatts
    stop_limit: Kilowatts
    min_up: int
    min_down: int
    power0: Kilowatts
    on0: int
    up0: int
    down0: int
    lags: list[Lag]
    points: list[Point]
    marks: list[Optional[int]]

    @property
    def start_cap(self) -> Kilowatts:
        return min(self.start_limit, self.most)

    @property
    def stop_cap(self) -> Kilowatts:
        return min(self.stop_limit, self.most)

    @property
    def above0(self) -> Kilowatts:
        """Power above the least one in period 0."""
        return Kilowatts(self.power0 - self.least if self.on0 else 0)

    @property
    def is_too_high_to_stop(self) -> bool:
        """Whether a stop in period 1 would come down from above the stop limit, or by more than the downward ramp."""
        return bool(self.on0) and (self.power0 > self.stop_cap or self.above0 > self.ramp_down)

    def on_bounds(self) -> tuple[list[int], list[int]]:
        """Least and greatest on flag of each period, by the rules that fix it alone; a least above a greatest can't be met."""
        periods = len(self.marks)
        low, high = [self.must_run] * periods, [1] * periods
        for t in range(min(periods, self.min_up - self.up0 if self.on0 else 0)):
            low[t] = 1
        for t in range(min(periods, 0 if self.on0 else self.min_down - self.down0)):
            high[t] = 0
        if self.is_too_high_to_stop:
            low[0] = 1
        for t, mark in enumerate(self.marks):
            if mark is not None:
                low[t], high[t] = max(low[t], mark), min(high[t], mark)
        return low, high


@dataclass(eq=False)
class Renewable(FieldsAlone):
    """A renewable unit: its least and greatest power of each period, in kilowatts."""

    name: str
    least: list[Kilowatts]
    most: list[Kilowatts]


@dataclass(eq=False)
class Bid(FieldsAlone):
    """A demand bid: for each period blocks of (kilowatts, millionths per kilowatt), the dearest first."""

    name: str
    blocks: list[list[Block]]


Unit = Union[Thermal, Renewable, Bid]


@dataclass(repr=False, eq=False)
class Case(FieldsAlone):
    """Demand and required reserve of each period in kilowatts, and the units and bids in the file's order."""

    periods: int
    demand: list[Kilowatts]
    reserves: list[Kilowatts]
    thermal: list[Thermal] = field(default_factory=list)
    renewable: list[Renewable] = field(default_factory=list)
    bids: list[Bid] = field(default_factory=list)

    def __repr__(self) -> str:
        counts = f"thermal={len(self.thermal)}, renewable={len(self.renewable)}, bids={len(self.bids)}"
        return f"<Case: periods={self.periods}, {counts}>"

    @property
    def units(self) -> list[tuple[str, Unit]]:
        """Kind and unit, in the order of a report."""
        thermal, renewable = (("thermal", unit) for unit in self.thermal), (
            ("renewable", unit) for unit in self.renewable
        )
        return [*thermal, *renewable, *(("bid", bid) for bid in self.bids)]

    def unit(self, kind: Optional[str] = None, name: Optional[str] = None) -> Unit:
        """A unit or bid by its kind, `thermal`, `renewable` or `bid`, and its name, or by its name alone where one kind has it.

        Raises `HullError` where there is none.
        """
        return member({(known, unit.name): unit for known, unit in self.units}, kind, name, "the case")

    def text(self) -> str:
        """The case as its file."""
        from .case_files import text_of

        return text_of(self)

    def write(self, name: Name, inputs: Sequence[str] = ()) -> None:
        """Writes the file that `hull` reads."""
        write_whole(name, self.text(), inputs)

    def scaled(
        self, demand: Factor = 1, renewable: Factor = 1, offers: Optional[Mapping[str, Factor]] = None
    ) -> "Case":
        """The case with its demand and renewable power times these, and the cost curves of thermal units times those of `offers`, by name.

        Required reserves, start costs and bids stay. Powers and costs are rounded to the nearest kilowatt and millionth. Raises `HullError`
        where a factor is no number or below 0, or where the case has no thermal unit of a name in `offers`.
        """
        from .case_files import scaled

        return scaled(self, demand, renewable, {} if offers is None else offers)

    def without(self, *names: str, kind: Optional[str] = None) -> "Case":
        """The case without these units and bids, of a kind `thermal`, `renewable` or `bid` where one is given.

        Raises `HullError` where it has none of a name, or where two kinds have the name and no kind is given.
        """
        from .case_files import without

        return without(self, names, kind)


class Fields:
    """The fields of one object of the file, each with the tests of docs/FORMATS.md."""

    def __init__(self, name: Name, where: str, value: Any) -> None:
        self.name, self.where, self.value = name, where, value
        if not isinstance(value, dict):
            raise self.wrong("it isn't an object")

    def wrong(self, what: str) -> HullError:
        where = "" if self.name == "the case given" and self.where == "the case" else f"{one_line(self.where)}: "
        return HullError(f"{self.name}: {where}{what}")

    def take(self, key: str, kind: Optional[type]) -> Any:
        if key not in self.value:
            raise self.wrong(f"{key} isn't there")
        found = self.value[key]
        if not (is_number(found) if kind is None else isinstance(found, kind)):
            raise self.wrong(f"{key} is no {'number' if kind is None else 'list' if kind is list else 'object'}")
        return found

    def number(
        self, key: str, limit: int, reading: Callable[[Number], Whole], whole: bool = False, least: Optional[int] = 0
    ) -> Whole:
        found = self.take(key, None)
        if whole and not is_whole(found):
            raise self.wrong(f"{key} isn't whole")
        read = reading(found)
        if abs(read) > limit:
            raise self.wrong(f"{key} is too large")
        if least is not None and read < least:
            raise self.wrong(f"{key} is below {least}")
        return read

    def power(self, key: str, limit: int = POWER) -> Kilowatts:
        return self.number(key, limit, kilowatts)

    def time(self, key: str) -> int:
        return self.number(key, TIME, int, whole=True)

    def flag(self, key: str) -> int:
        found = self.time(key)
        if found not in (0, 1):
            raise self.wrong(f"{key} is neither 0 nor 1")
        return found

    def items(self, key: str, most: Optional[int] = None, length: Optional[int] = None) -> list[tuple[str, Any]]:
        """The items of a list, each with what is told of it."""
        found = self.take(key, list)
        if most is not None and len(found) > most:
            raise self.wrong(f"{key} has more than {most} items")
        if length is not None and len(found) != length:
            raise self.wrong(f"{key} has {len(found)} items, and there are {length} periods")
        return [(f"{self.where}, {key}, item {i}", it) for i, it in enumerate(found, 1)]

    def powers(self, key: str, length: int) -> list[Kilowatts]:
        rows = [Fields(self.name, where, {key: it}) for where, it in self.items(key, length=length)]
        return [it.power(key) for it in rows]

    def members(self, key: str, kind: str) -> list[tuple[str, "Fields"]]:
        found = self.take(key, dict)
        if len(found) > MOST_OF_A_KIND:
            raise self.wrong(f"{key} has more than {MOST_OF_A_KIND} members")
        return [
            (name, Fields(self.name, f'{kind} "{name}" (number {i})', value))
            for i, (name, value) in enumerate(found.items(), 1)
        ]


def read_lags(unit: Fields) -> list[Lag]:
    rows = [Fields(unit.name, where, it) for where, it in unit.items("startup", MOST_ITEMS)]
    lags = [(it.time("lag"), it.number("cost", COST, millionths)) for it in rows]
    if any(after[0] < before[0] for before, after in zip(lags, lags[1:])):
        raise unit.wrong("startup has a lag below the one before it")
    return lags


def read_points(unit: Fields, least: int, most: int) -> list[Point]:
    rows = [Fields(unit.name, where, it) for where, it in unit.items("piecewise_production", MOST_ITEMS)]
    points = [(it.power("mw"), it.number("cost", COST, millionths, least=None)) for it in rows]
    if any(after[0] < before[0] for before, after in zip(points, points[1:])):
        raise unit.wrong("piecewise_production has a power below the one before it")
    if not points or points[0][0] > least or points[-1][0] < most:
        raise unit.wrong("piecewise_production doesn't reach from the least to the greatest power")
    return points


def read_marks(unit: Fields, periods: int) -> list[Optional[int]]:
    found = unit.value.get("commitment", [None] * periods)
    if not isinstance(found, list) or len(found) != periods:
        raise unit.wrong("commitment isn't a list of an item for each period")
    if not all(it is None or (is_number(it) and it in (0, 1)) for it in found):
        raise unit.wrong("commitment has an item that is neither null nor 0 nor 1")
    return [None if it is None else int(it) for it in found]


def read_thermal(name: str, unit: Fields, periods: int) -> Thermal:
    must_run = unit.flag("must_run")
    least, most = unit.power("power_output_minimum"), unit.power("power_output_maximum", OUTPUT)
    if least > most:
        raise unit.wrong("power_output_minimum is above power_output_maximum")
    rise, fall, start, stop = (unit.power(f"ramp_{it}_limit") for it in ("up", "down", "startup", "shutdown"))
    up, down = (max(1, unit.time(f"time_{it}_minimum")) for it in ("up", "down"))
    power0, on0 = unit.power("power_output_t0", OUTPUT), unit.flag("unit_on_t0")
    up0, down0 = (unit.time(f"time_{it}_t0") for it in ("up", "down"))
    lags, points = read_lags(unit), read_points(unit, least, most)
    marks = read_marks(unit, periods)
    return Thermal(
        name, must_run, least, most, rise, fall, start, stop, up, down, power0, on0, up0, down0, lags, points, marks
    )


def read_renewable(name: str, unit: Fields, periods: int) -> Renewable:
    least, most = (unit.powers(f"power_output_{it}", periods) for it in ("minimum", "maximum"))
    if any(low > high for low, high in zip(least, most)):
        raise unit.wrong("power_output_minimum is above power_output_maximum")
    return Renewable(name, least, most)


def read_blocks(bid: Fields, where: str, period: Any) -> list[Block]:
    if not isinstance(period, list) or len(period) > MOST_BLOCKS:
        raise bid.wrong(f"{where} isn't a list of at most {MOST_BLOCKS} blocks")
    rows = [Fields(bid.name, where, it) for it in period]
    blocks = [(it.power("mw"), it.number("price", PRICE_LIMIT, price)) for it in rows]
    if any(after[1] > before[1] for before, after in zip(blocks, blocks[1:])):
        raise bid.wrong(f"{where} has a price above the one before it")
    if sum(width for width, _ in blocks) > POWER:
        raise bid.wrong(f"{where} has too large a sum of blocks")
    return blocks


def read_bid(name: str, bid: Fields, periods: int) -> Bid:
    return Bid(name, [read_blocks(bid, *it) for it in bid.items("blocks", length=periods)])


@refused_as("case")
def case_of(name: Name, value: Any) -> Case:
    """The case of a JSON value."""
    whole = Fields(name, "the case", value)
    periods = whole.number("time_periods", MOST_PERIODS, int, whole=True, least=1)
    case = Case(periods, whole.powers("demand", periods), whole.powers("reserves", periods))
    case.thermal = [read_thermal(*it, periods) for it in whole.members("thermal_generators", "thermal unit")]
    case.renewable = [read_renewable(*it, periods) for it in whole.members("renewable_generators", "renewable unit")]
    if "demand_bids" in value:
        case.bids = [read_bid(*it, periods) for it in whole.members("demand_bids", "bid")]
    if not case.thermal and not case.renewable:
        raise whole.wrong("there is neither a thermal nor a renewable unit")
    return case


def read_case(name: Union[Name, dict[str, Any]]) -> Case:
    """The case of a file, or of a dict as the file has it: powers in kilowatts, costs in millionths of the currency, lists with an item for each period.

    Raises `HullError` where the file can't be read, or where docs/FORMATS.md refuses it, with the place of what is wrong.
    """
    if isinstance(name, dict):
        from .inputs import as_case

        return as_case(name)
    return case_of(name, read_json(name, "a case"))
