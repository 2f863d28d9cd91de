"""The price rule and the certified bound of docs/DEFINITIONS.md over the tiny cases of plain.py. It shares nothing with the program."""
from __future__ import annotations

import copy
from dataclasses import dataclass
from fractions import Fraction
from math import ceil, floor

import plain

MOST_HALVINGS = 20


@dataclass
class Row:
    """A proposal: its prices, their dual value, and the totals of the best responses."""

    value: int
    energy: list[int]
    reserve: list[int]
    supplied: list[int]
    reserved: list[int]


def row_at(case: plain.Case, energy: list[int], reserve: list[int]) -> Row:
    totals = case.totals([plain.least_best(it, energy, reserve) for it in case.units])
    return Row(case.dual_value(energy, reserve), energy, reserve, *totals)


def start_price(case: plain.Case, period: int) -> int:
    """The full-load price of the unit that meets demand, the units taken from the cheapest one on."""
    units = [unit for unit in case.units if isinstance(unit, plain.Thermal)]
    prices = {it: ceil(Fraction(it.cost_at[it.most], it.most)) if it.most else 0 for it in units}
    lacking = case.demand[period] - sum(it.most[period] for it in case.units if isinstance(it, plain.Renewable))
    for price in sorted(set(prices.values())):
        if sum(it.most for it in units if prices[it] <= price) >= lacking:
            return price
    return max(prices.values(), default=0)


def clamped(price: int, least: int) -> int:
    return max(least, min(plain.LARGEST_PRICE, price))


def lacking_of(case: plain.Case, row: Row) -> tuple[list[int], list[int]]:
    """Demand less supply, and the requirement less reserve."""
    energy = [due - it for due, it in zip(case.demand, row.supplied)]
    return energy, [due - it for due, it in zip(case.reserves, row.reserved)]


def direction_of(case: plain.Case, row: Row) -> tuple[list[int], list[int]]:
    """What is lacking, and 0 where it would push a price across its limit."""
    energy, reserve = lacking_of(case, row)
    for prices, directions, least in ((row.energy, energy, -plain.LARGEST_PRICE), (row.reserve, reserve, 0)):
        for at, price in enumerate(prices):
            if clamped(price + directions[at], least) == price:
                directions[at] = 0
    return energy, reserve


def next_prices(case: plain.Case, rows: list[Row]) -> tuple[list[int], list[int]] | None:
    """The prices that follow the last of these rows, or None where it is settled."""
    row = rows[-1]
    energy, reserve = direction_of(case, row)
    gap, squares = case.cost - row.value, sum(it * it for it in energy + reserve)
    if not gap or not squares:
        return None
    values = [it.value for it in rows]
    age = len(rows) - 1 - values.index(max(values))
    step = Fraction(gap, squares * 2 ** min(MOST_HALVINGS, age // 10))
    return (
        [clamped(price + int(step * it), -plain.LARGEST_PRICE) for price, it in zip(row.energy, energy)],
        [clamped(price + int(step * it), 0) for price, it in zip(row.reserve, reserve)],
    )


def proposals(case: plain.Case, budget: int, ahead: int) -> list[Row]:
    """All rows of a run."""
    starts = [start_price(case, at) for at in range(case.periods)]
    rows: list[Row] = []
    for number in range(1, budget + 1):
        prices = [clamped(floor(Fraction(it * (7 + number), 8)), -plain.LARGEST_PRICE) for it in starts], [
            0
        ] * case.periods
        if number > ahead:
            followed = next_prices(case, rows[: number - ahead])
            if followed is None:
                break
            prices = followed
        rows.append(row_at(case, *prices))
    return rows


def chosen_of(rows: list[Row]) -> int:
    """The number of the first row of the greatest value."""
    values = [it.value for it in rows]
    return 1 + values.index(max(values))


def held(case: plain.Case) -> plain.Case:
    """The case with each thermal unit held to the flags of its schedule."""
    found = copy.copy(case)
    found.units = [copy.copy(it) for it in case.units]
    for unit, (planned, _) in zip(found.units, case.plan):
        if unit.kind == "thermal":
            flags = [it[0] for it in planned]
            unit.schedules = [it for it in unit.schedules if [one[0] for one in it[0]] == flags]
    return found


def height(case: plain.Case, rows: list[Row], centre: Row, radius: int) -> int:
    """The greatest height over the box of the mean of the planes that the rows give."""
    total = Fraction(sum(it.value for it in rows))
    for key, place, least in (("energy", 0, -plain.LARGEST_PRICE), ("reserve", 1, 0)):
        for at, middle in enumerate(getattr(centre, key)):
            ends = clamped(middle - radius, least), clamped(middle + radius, least)
            slopes = [(lacking_of(case, it)[place][at], getattr(it, key)[at]) for it in rows]
            total += max(sum(slope * (end - price) for slope, price in slopes) for end in ends)
    return floor(total / len(rows))


def bound_text(case: plain.Case, rows: list[Row], radius: int) -> str:
    """The text of `hull bound`: the first of the certificates that has the least bound, the chosen row's own before all others."""
    chosen, count = chosen_of(rows), len(rows)
    centre = rows[chosen - 1]
    ranges = [(chosen, chosen), *((first, count) for first in range(1, count + 1))]
    bounds = [height(case, rows[first - 1 : last], centre, radius) for first, last in ranges]
    bound = min(bounds)
    first, last = ranges[bounds.index(bound)]
    lines = ["hull-bound 1", f"proposals {count}", f"chosen {chosen} value {centre.value}", f"radius {radius}"]
    lines += [f"certificate first {first} last {last}", f"bound {bound}", f"distance {bound - centre.value}", "end"]
    return "\n".join(lines) + "\n"
