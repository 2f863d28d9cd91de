"""All that `hull` would refuse in the fields of a case or of prices, as its fault lines, in the order of docs/FORMATS.md."""
from __future__ import annotations

from dataclasses import dataclass
from typing import Callable, List, Optional, Tuple

from .cases import COST, MOST_BLOCKS, MOST_ITEMS, MOST_OF_A_KIND, MOST_PERIODS, OUTPUT, POWER, TIME
from .json_places import Node, Odd, number_at
from .named_files import GROUPS
from .numbers import PRICE_LIMIT, is_whole, kilowatts, millionths, price


@dataclass(frozen=True)
class Fault:
    """A fault: its line, its code, the place in the file, and the unit, entry and period or item that it is told of."""

    line: str
    code: int
    at: int
    kind: str = "case"
    unit: int = 0
    item: int = 0
    key: str = ""
    entry: int = 0


@dataclass(frozen=True)
class Form:
    """How a number of a file is read, and what it may be."""

    reading: Callable[..., int]
    limit: int
    least: Optional[int] = 0
    whole: bool = False
    flag: bool = False


POWERS = Form(kilowatts, POWER)
OUTPUTS = Form(kilowatts, OUTPUT)
START_COSTS = Form(millionths, COST)
POINT_COSTS = Form(millionths, COST, None)
TIMES = Form(int, TIME, whole=True)
PERIODS = Form(int, MOST_PERIODS, whole=True)
FLAGS = Form(int, 1, whole=True, flag=True)
BLOCK_PRICES = Form(price, PRICE_LIMIT)
ENERGY_PRICES = Form(price, PRICE_LIMIT, None)
Number = Optional[int]


def reading_of(node: Node, form: Form) -> Tuple[int, Number]:
    """The code of the fault of a number, or 0, and what it is read as. What is odd was told as a fault of the text."""
    if isinstance(node.value, Odd):
        return 0, None
    value = number_at(node)
    if value is None:
        return 21, None
    if form.whole and not is_whole(value):
        return 22, None
    read = form.reading(value)
    if form.flag:
        return (0, read) if read in (0, 1) else (29, None)
    if abs(read) > form.limit:
        return 24, None
    return (23, None) if form.least is not None and read < form.least else (0, read)


class Fields:
    """The fields of one object of a file; what is wrong with them is added to `faults`."""

    def __init__(self, faults: List[Fault], node: Node, kind: str = "case", number: int = 0, what: str = "3 case"):
        self.faults, self.node, self.kind, self.number_of_unit, self.what = faults, node, kind, number, what

    def fault(self, code: int, key: str, at: int, item: int = 0) -> None:
        of_unit = "" if self.what == "9 prices" else f" kind {self.kind} unit {self.number_of_unit}"
        line = f"fault {self.what} {code} field {key}{of_unit} item {item}"
        self.faults.append(Fault(line, code, at, self.kind, self.number_of_unit, item, key))

    def take(self, key: str, kind: type) -> Optional[Node]:
        """The member of this kind, or None where it isn't there or is of another kind."""
        found = self.node.members.get(key)
        if found is None:
            self.fault(20, key, self.node.at)
        elif isinstance(found.value, Odd):
            return None
        elif not isinstance(found.value, kind):
            self.fault(21, key, found.at)
        else:
            return found
        return None

    def read(self, node: Node, form: Form, key: str, item: int = 0) -> Number:
        code, read = reading_of(node, form)
        if code:
            self.fault(code, key, node.at, item)
        return read

    def number(self, key: str, form: Form) -> Number:
        found = self.node.members.get(key)
        if found is None:
            self.fault(20, key, self.node.at)
            return None
        return self.read(found, form, key)

    def numbers(self, key: str, form: Form, periods: Number) -> List[Number]:
        """A list with an item for each period."""
        found = self.take(key, list)
        if found is None:
            return []
        if periods is not None and len(found.items) != periods:
            self.fault(25, key, found.at)
        return [self.read(it, form, key, i) for i, it in enumerate(found.items, 1)]

    def rows(self, key: str, most: int) -> List[Fields]:
        """The objects of a list, each with its item's number."""
        found = self.take(key, list)
        if found is None:
            return []
        if len(found.items) > most:
            self.fault(24, key, found.at)
        rows: List[Fields] = []
        for i, row in enumerate(found.items, 1):
            if isinstance(row.value, dict):
                rows.append(Row(self, row, key, i))
            elif not isinstance(row.value, Odd):
                self.fault(21, key, row.at, i)
        return rows


class Row(Fields):
    """An item of a list: its faults are told with the list's field and the item's number."""

    def __init__(self, owner: Fields, node: Node, key: str, item: int):
        super().__init__(owner.faults, node, owner.kind, owner.number_of_unit, owner.what)
        self.key, self.item = key, item

    def fault(self, code: int, key: str, at: int, item: int = 0) -> None:
        super().fault(code, self.key, at, self.item)


def pairs(unit: Fields, key: str, first: Tuple[str, Form], cost: Form, order: int) -> List[Number]:
    """The first numbers of a list of objects with two, which may not fall; `order` is the code where one does."""
    found: List[Number] = []
    for row in unit.rows(key, MOST_ITEMS):
        at = row.number(*first)
        row.number("cost", cost)
        before = next((it for it in reversed(found) if it is not None), None)
        if at is not None and before is not None and at < before:
            row.fault(order, key, row.node.at)
        found.append(at)
    return found


def is_above(one: Number, other: Number) -> bool:
    return one is not None and other is not None and one > other


def curve(unit: Fields, least: Number, most: Number) -> None:
    key = "piecewise_production"
    powers = pairs(unit, key, ("mw", POWERS), POINT_COSTS, 26)
    node = unit.node.members.get(key)
    if node is None or not isinstance(node.value, list) or len(powers) != len(node.items):
        return
    if not powers or is_above(powers[0], least) or is_above(most, powers[-1]):
        unit.fault(27, key, node.at)


def window(unit: Fields, periods: Number) -> None:
    node = unit.node.members.get("commitment")
    if node is None or isinstance(node.value, Odd):
        return
    if not isinstance(node.value, list) or periods is not None and len(node.items) != periods:
        unit.fault(33, "commitment", node.at)
        return
    for i, mark in enumerate(node.items, 1):
        is_mark = mark.value is None or number_at(mark) in (0, 1)
        if not is_mark and not isinstance(mark.value, Odd):
            unit.fault(33, "commitment", mark.at, i)


def thermal(unit: Fields, periods: Number) -> None:
    unit.number("must_run", FLAGS)
    least = unit.number("power_output_minimum", POWERS)
    most = unit.number("power_output_maximum", OUTPUTS)
    if least is not None and most is not None and least > most:
        unit.fault(30, "power_output_minimum", unit.node.members["power_output_minimum"].at)
        least = None
    for limit in ("up", "down", "startup", "shutdown"):
        unit.number(f"ramp_{limit}_limit", POWERS)
    for key in ("time_up_minimum", "time_down_minimum"):
        unit.number(key, TIMES)
    unit.number("power_output_t0", OUTPUTS)
    unit.number("unit_on_t0", FLAGS)
    for key in ("time_up_t0", "time_down_t0"):
        unit.number(key, TIMES)
    pairs(unit, "startup", ("lag", TIMES), START_COSTS, 28)
    curve(unit, least, most)
    window(unit, periods)


def renewable(unit: Fields, periods: Number) -> None:
    least, most = (unit.numbers(f"power_output_{it}", POWERS, periods) for it in ("minimum", "maximum"))
    for i, (low, high) in enumerate(zip(least, most), 1):
        if low is not None and high is not None and low > high:
            unit.fault(30, "power_output_minimum", unit.node.members["power_output_minimum"].items[i - 1].at, i)


def bid(unit: Fields, periods: Number) -> None:
    found = unit.take("blocks", list)
    if found is None:
        return
    if periods is not None and len(found.items) != periods:
        unit.fault(25, "blocks", found.at)
    for period, period_blocks in enumerate(found.items, 1):
        if isinstance(period_blocks.value, list):
            blocks(unit, period_blocks, period)
        elif not isinstance(period_blocks.value, Odd):
            unit.fault(21, "blocks", period_blocks.at, period)


def blocks(unit: Fields, node: Node, period: int) -> None:
    if len(node.items) > MOST_BLOCKS:
        unit.fault(24, "blocks", node.at, period)
    before, total = None, 0
    for block in node.items:
        if not isinstance(block.value, dict):
            if not isinstance(block.value, Odd):
                unit.fault(21, "blocks", block.at, period)
            continue
        row = Row(unit, block, "blocks", period)
        width, at = row.number("mw", POWERS), row.number("price", BLOCK_PRICES)
        if at is not None and before is not None and at > before:
            row.fault(37, "blocks", block.at)
        before, total = at if at is not None else before, total + (width or 0)
    if total > POWER:
        unit.fault(24, "blocks", node.at, period)


READERS: Tuple[Tuple[str, Callable[[Fields, Number], None]], ...] = (
    ("thermal", thermal),
    ("renewable", renewable),
    ("bid", bid),
)


def members(whole: Fields, kind: str, read: Callable[[Fields, Number], None], periods: Number) -> int:
    """Reads the units of a kind; how many there are."""
    key = GROUPS[kind]
    if kind == "bid" and key not in whole.node.members:
        return 0
    found = whole.take(key, dict)
    if found is None:
        return 1  # (so that it isn't told that there is none)
    if len(found.members) > MOST_OF_A_KIND:
        whole.fault(24, key, found.at)
    for number, member in enumerate(found.members.values(), 1):
        unit = Fields(whole.faults, member, kind, number)
        if isinstance(member.value, dict):
            read(unit, periods)
        elif not isinstance(member.value, Odd):
            unit.fault(21, key, member.at)
    return len(found.members)


def periods_of(whole: Fields) -> Number:
    periods = whole.number("time_periods", PERIODS)
    if periods == 0:
        whole.fault(34, "time_periods", whole.node.members["time_periods"].at)
        return None
    return periods


def case_faults(root: Node) -> List[Fault]:
    """The faults of a case's fields."""
    whole = Fields([], root)
    if not isinstance(root.value, dict):
        whole.fault(21, "whole", root.at)
        return whole.faults
    periods = periods_of(whole)
    for key in ("demand", "reserves"):
        whole.numbers(key, POWERS, periods)
    counts = [members(whole, kind, read, periods) for kind, read in READERS]
    if not counts[0] and not counts[1]:
        whole.fault(31, "renewable_generators", root.at)
    return whole.faults


def prices_faults(root: Node, periods: Number) -> List[Fault]:
    """The faults of a file of prices."""
    whole = Fields([], root, what="9 prices")
    if not isinstance(root.value, dict):
        whole.fault(21, "whole", root.at)
        return whole.faults
    whole.numbers("energy", ENERGY_PRICES, periods)
    if "reserve" in root.members:
        whole.numbers("reserve", BLOCK_PRICES, periods)
    return whole.faults
