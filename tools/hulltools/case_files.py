"""A case as its file, exact to the kilowatt and the millionth, and cases that are changed in one respect."""
import copy
import re
from collections.abc import Iterable, Mapping, Sequence
from dataclasses import replace
from decimal import Decimal
from fractions import Fraction
from typing import Any, Optional

from .case_forms import with_plain_numbers
from .cases import Bid, Case, Factor, Renewable, Thermal
from .errors import HullError, is_tool_at_work, one_line
from .json_texts import json_text
from .numbers import Kilowatts, Millionths, decimal_text
from .options import hint_of, is_flag, is_list, is_plain, member, told_value


LONG = re.compile(r"[eE][+-]?0*[1-9][0-9]{3}")  # an exponent that no file has


def megawatts(number: int) -> Decimal:
    return Decimal(decimal_text(int(number), 3))


def currency(number: int) -> Decimal:
    return Decimal(decimal_text(int(number), 6))


def thermal_fields(unit: Thermal) -> dict[str, Any]:
    powers = {"power_output_minimum": unit.least, "power_output_maximum": unit.most, "power_output_t0": unit.power0}
    limits = (unit.ramp_up, unit.ramp_down, unit.start_limit, unit.stop_limit)
    powers.update(zip((f"ramp_{it}_limit" for it in ("up", "down", "startup", "shutdown")), limits))
    found: dict[str, Any] = {"must_run": unit.must_run, **{key: megawatts(number) for key, number in powers.items()}}
    found.update(time_up_minimum=unit.min_up, time_down_minimum=unit.min_down, unit_on_t0=unit.on0)
    found.update(time_up_t0=unit.up0, time_down_t0=unit.down0)
    found["startup"] = [{"lag": lag, "cost": currency(cost)} for lag, cost in unit.lags]
    found["piecewise_production"] = [{"mw": megawatts(power), "cost": currency(cost)} for power, cost in unit.points]
    if any(mark is not None for mark in unit.marks):
        found["commitment"] = unit.marks
    return found


def renewable_fields(unit: Renewable) -> dict[str, Any]:
    rows = (("minimum", unit.least), ("maximum", unit.most))
    return {f"power_output_{it}": [megawatts(number) for number in numbers] for it, numbers in rows}


def bid_fields(bid: Bid) -> dict[str, Any]:
    blocks = [[{"mw": megawatts(width), "price": megawatts(price)} for width, price in period] for period in bid.blocks]
    return {"blocks": blocks}


def text_of(case: Case) -> str:
    """The file of a case, which reads as the same case. Refuses numbers that aren't whole."""
    case = with_plain_numbers(case)
    found: dict[str, Any] = {"time_periods": case.periods}
    found.update(demand=[megawatts(it) for it in case.demand], reserves=[megawatts(it) for it in case.reserves])
    found["thermal_generators"] = {unit.name: thermal_fields(unit) for unit in case.thermal}
    found["renewable_generators"] = {unit.name: renewable_fields(unit) for unit in case.renewable}
    if case.bids:
        found["demand_bids"] = {bid.name: bid_fields(bid) for bid in case.bids}
    return json_text(found) + "\n"


def times(numbers: Iterable[int], factor: Fraction) -> list[int]:
    """Each number times the factor, to the nearest whole number."""
    return [
        int(number * factor + Fraction(1, 2)) if number * factor >= 0 else -int(-number * factor + Fraction(1, 2))
        for number in numbers
    ]


def factor_of(number: Factor, what: str) -> Fraction:
    """A factor as it is written: 1.01 is 101/100."""
    try:
        is_short = is_plain(number) and not is_flag(number) and not LONG.search(str(number))
        found = Fraction(str(number)) if is_short else Fraction(-1)
    except (ValueError, ZeroDivisionError):
        found = Fraction(-1)
    if found < 0:
        raise HullError(f"the factor of {what} is {told_value(number)}: a number of at least 0 is due")
    return found


def need_units(case: Case, names: Sequence[str]) -> None:
    units = [unit.name for _, unit in case.units]
    for name in names:
        if not isinstance(name, str):
            hint = ": give names one by one, as without(*names)" if is_list(name) else ""
            raise HullError(f"{told_value(name)} is no name of a unit{hint}")
        if name not in units:
            raise HullError(f'the case has no unit "{one_line(name)}": {hint_of(name, units)}')


def need_offers(case: Case, offers: Any) -> None:
    """Refuses what has no cost curve: renewable units, bids, and units that the case hasn't."""
    if not isinstance(offers, Mapping):
        raise HullError(
            f'offers is {told_value(offers)}: factors by the names of thermal units are due, as {{"G1": 1.05}}'
        )
    need_units(case, list(offers))
    with_curve = [unit.name for unit in case.thermal]
    for name in offers:
        if name not in with_curve:
            raise HullError(f'"{one_line(name)}" has no cost curve that `offers` could scale: a thermal unit is due')


def scaled_offer(unit: Thermal, factor: Fraction) -> Thermal:
    costs = times([cost for _, cost in unit.points], factor)
    return replace(unit, points=[(power, Millionths(cost)) for (power, _), cost in zip(unit.points, costs)])


def scaled_powers(powers: list[Kilowatts], factor: Fraction) -> list[Kilowatts]:
    return [Kilowatts(power) for power in times(powers, factor)]


def copy_of(case: Case) -> Case:
    """The case with plain numbers in units and lists of its own: what a script changes in one of the two isn't changed in the other."""
    return copy.deepcopy(with_plain_numbers(case))


def scaled(case: Case, demand: Factor, renewable: Factor, offers: Mapping[str, Factor]) -> Case:
    """A copy of the case with its demand, renewable powers and cost curves times these; start costs stay."""
    need_offers(case, offers)
    case = copy_of(case)
    sun = factor_of(renewable, "renewable")
    units = [scaled_offer(unit, factor_of(offers.get(unit.name, 1), unit.name)) for unit in case.thermal]
    winds = [
        Renewable(unit.name, scaled_powers(unit.least, sun), scaled_powers(unit.most, sun)) for unit in case.renewable
    ]
    return replace(case, demand=scaled_powers(case.demand, factor_of(demand, "demand")), thermal=units, renewable=winds)


def kind_meant(case: Case, name: str, kind: Optional[str]) -> str:
    """The kind of the unit or bid that is meant. A name that two kinds have is refused without it: a buyer is no unit's outage."""
    need_units(case, [name])
    if kind is not None:
        member({(known, unit.name): unit for known, unit in case.units}, kind, name, "the case")
        return kind
    kinds = [known for known, unit in case.units if unit.name == name]
    if len(kinds) > 1:
        told = one_line(name)
        way = f"--outage {kinds[0]}:{told}" if is_tool_at_work() else f'without("{told}", kind="{kinds[0]}")'
        raise HullError(f'the case has a {" and a ".join(kinds)} "{told}": give the kind too, as {way}')
    return kinds[0]


def without(case: Case, names: Sequence[str], kind: Optional[str] = None) -> Case:
    """A copy of the case without these."""
    left = {(kind_meant(case, name, kind), name) for name in names}
    case = copy_of(case)
    return replace(
        case,
        thermal=[unit for unit in case.thermal if ("thermal", unit.name) not in left],
        renewable=[unit for unit in case.renewable if ("renewable", unit.name) not in left],
        bids=[bid for bid in case.bids if ("bid", bid.name) not in left],
    )
