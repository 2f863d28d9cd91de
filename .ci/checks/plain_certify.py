"""A plain reader of mixture files and a plain certificate, over the tiny cases of plain.py. It shares nothing with the program.

`MixtureFault` has the fault line's end where a file is refused.
"""
from fractions import Fraction

import plain
import plain_settle
from collections.abc import Sequence
from plain_rules import first_broken
from typing import Any

Entry = tuple[int, plain.Schedule]  # a weight, and a schedule of the unit
Mixture = tuple[int, list[list[Entry]]]  # the whole weight, and the entries of each thermal unit
MOST_WHOLE = 10**12
MOST_POWER = 10**9
LISTS = ("on", "power", "reserve")


class MixtureFault(Exception):
    """What stands behind `fault 10 mixture`."""


def wrong(code: int, kind: str = "case", unit: int = 0, entry: int = 0, item: int = 0) -> MixtureFault:
    return MixtureFault(f"{code} kind {kind} unit {unit} entry {entry} item {item}")


def is_whole(value: Any, least: int, most: int) -> bool:
    return isinstance(value, Fraction) and value.denominator == 1 and least <= value <= most


def read_entry(value: Any, whole: int, periods: int, unit: int, entry: int) -> Entry:
    """An entry's weight and its schedule, one (on, power, reserve) a period."""
    lists: list[Any] = [value.get(it) for it in LISTS] if isinstance(value, dict) and "weight" in value else [None]
    if any(not isinstance(it, list) or len(it) != periods for it in lists):
        raise wrong(42, "thermal", unit, entry)
    if not is_whole(value["weight"], 0, whole):
        raise wrong(62, "thermal", unit, entry)
    for key, items in zip(LISTS, lists):
        for item, number in enumerate(items, 1):
            if not is_whole(number, 0, 1 if key == "on" else MOST_POWER):
                raise wrong(43, "thermal", unit, entry, item)
    return int(value["weight"]), tuple((bool(on), int(power), int(reserve)) for on, power, reserve in zip(*lists))


def read_unit(value: Any, whole: int, periods: int, unit: int) -> list[Entry]:
    if not isinstance(value, list) or not value:
        raise wrong(42, "thermal", unit)
    found = [read_entry(it, whole, periods, unit, entry) for entry, it in enumerate(value, 1)]
    if sum(weight for weight, _ in found) != whole:
        raise wrong(62, "thermal", unit)
    return found


def read_mixture(data: bytes, case: plain.Case) -> Mixture:
    """The whole weight, and for each thermal unit its entries as (weight, schedule)."""
    try:
        value = plain_settle.Text(data).whole()
    except plain_settle.PricesFault as fault:
        raise MixtureFault(str(fault)) from None
    if not isinstance(value, dict) or "weight" not in value or not isinstance(value.get("thermal"), dict):
        raise wrong(42)
    if not is_whole(value["weight"], 1, MOST_WHOLE):
        raise wrong(62)
    whole, units = int(value["weight"]), case.names("thermal")
    names = [name for name, _ in units]
    for unit, name in enumerate(value["thermal"], 1):
        if name not in names:
            raise wrong(40, "thermal", unit)
    entries = []
    for unit, name in enumerate(names, 1):
        if name not in value["thermal"]:
            raise wrong(41, "thermal", unit)
        entries.append(read_unit(value["thermal"][name], whole, case.periods, unit))
    for number, ((_, thermal), found) in enumerate(zip(units, entries), 1):
        for entry, (_, schedule) in enumerate(found, 1):
            broken = first_broken(thermal, schedule)
            if broken:
                code, period, left, right = broken
                place = f"kind thermal unit {number} entry {entry} period {period}"
                raise MixtureFault(f"{code} {place} left {left} right {right}")
    return whole, entries


def flat(case: plain.Case, period: int, price: int) -> int:
    """What renewable units and bids earn at best in a period at an energy price."""
    sold: int = sum(max(price * it.least[period], price * it.most[period]) for _, it in case.names("renewable"))
    bought: list[int] = [
        width * max(0, worth - price) for _, unit in case.names("bid") for width, worth in unit.blocks[period]
    ]
    return sold + sum(bought)


def most_energy(case: plain.Case, period: int, price: int, radius: int, whole: int, lack: int) -> int:
    """The most that an energy price of the interval adds: all of them are tried where they are few."""
    low, high = max(-plain.LARGEST_PRICE, price - radius), min(plain.LARGEST_PRICE, price + radius)
    bends: set[int] = {0} | {worth for _, it in case.names("bid") for _, worth in it.blocks[period]}
    tried = range(low, high + 1) if high - low <= 500 else {low, high} | {it for it in bends if low <= it <= high}
    return max(it * lack - whole * flat(case, period, it) for it in tried)


def bound(case: plain.Case, energy: Sequence[int], reserve: Sequence[int], mixture: Mixture, radius: int) -> int:
    whole, entries = mixture
    mixed = [(weight, unit, it) for (_, unit), found in zip(case.names("thermal"), entries) for weight, it in found]
    total: int = sum(weight * unit.cost(it) for weight, unit, it in mixed)
    for at in range(case.periods):
        lack = whole * case.demand[at] - sum(weight * it[at][1] for weight, _, it in mixed)
        short = whole * case.reserves[at] - sum(weight * it[at][2] for weight, _, it in mixed)
        total += most_energy(case, at, energy[at], radius, whole, lack)
        total += max(short * max(0, reserve[at] - radius), short * min(plain.LARGEST_PRICE, reserve[at] + radius))
    return total // whole


def certificate(case: plain.Case, energy: Sequence[int], reserve: Sequence[int], mixture: Mixture, radius: int) -> str:
    """The text of `hull certify` for a case of plain.py and its plan."""
    value = case.dual_value(energy, reserve)
    _, kept = case.totals([schedule for schedule, _ in case.plan])
    surplus = sum(price * (it - due) for price, it, due in zip(reserve, kept, case.reserves))
    limit = bound(case, energy, reserve, mixture, radius)
    lines = [
        "hull-certificate 1",
        f"periods {case.periods}",
        f"units {len(case.units)}",
        f"cost {case.cost}",
        f"value {value}",
    ]
    lines += [
        f"surplus {surplus}",
        f"payments {case.cost - value - surplus}",
        f"gap {case.cost - value}",
        f"radius {radius}",
    ]
    lines += [f"bound {limit}", f"distance {limit - value}", f"least {max(0, case.cost - limit)}", "end"]
    return "\n".join(lines) + "\n"
