"""A rule of a feasible schedule that is broken, in words."""
from .fault_hints import hint_of_rule
from .named_files import Files, GROUPS, Known, number_of, plan_of, who, written
from .numbers import Kilowatts, kilowatts

from collections.abc import Mapping
from decimal import Decimal
from typing import Any, Optional

RULES = {
    44: "{who} is off in period {period}, and must run in all periods",
    45: "{who} is {left_is} in period {period}, and has to stay {right_is} then: its minimum time from before period 1 isn't over",
    46: "{who} stops in period {period} after {left} periods on, and {right} are due",
    47: "{who} starts again in period {period} after {left} periods off, and {right} are due",
    49: "{who} starts in period {period} with {left} kW of power and reserve, and its start limit is {right} kW",
    50: "{who} stops after period {period} with {left} kW of power and reserve in it, and its stop limit is {right} kW",
    51: "{who} rises into period {period} by {left} kW, reserve counted, and its upward ramp is {right} kW",
    52: "{who} falls into period {period} by {left} kW, and its downward ramp is {right} kW",
    54: "in period {period} the units give {left} kW, less what bids buy, and demand is {right} kW: {difference} kW {lacking}{megawatts}",
    55: "in period {period} the units keep {right} kW of reserve, and {left} kW are required: {difference} kW are lacking",
    56: "{who} is {left_is} in period {period}, and its window says {right_is}",
    57: "{who} buys {left} kW in period {period}, and its blocks are {right} kW",
}


def told_range(
    name: str,
    period: int,
    left: int,
    right: int,
    cells: Mapping[str, Optional[Decimal]],
    least: Optional[int],
    most: Optional[int],
) -> str:
    """Rule 48, which is three rules: off, not below the least power, not above the greatest with reserve."""
    on, power, reserve = (cells.get(it) for it in ("on", "power", "reserve"))
    if on == 0:
        return f"{name} is off in period {period} with {left} kW of power or reserve, and 0 is due"
    is_above = power is not None and reserve is not None and power + reserve == left
    if power == right and (left == least or not is_above):
        return f"{name} gives {right} kW in period {period}, and its least power is {left} kW{in_megawatts(right, left, most)}"
    if power is not None and is_above:
        both = f" and keeps {int(reserve)} kW in reserve, {left} kW together" if reserve else ""
        return f"{name} gives {int(power)} kW{both}, in period {period}, and its greatest power is {right} kW"
    return f"{name} has {left} kW of power and reserve in period {period}, or a least power of that, against {right} kW"


def cells_of(plan: Any, period: int) -> dict[str, Optional[Decimal]]:
    """What a thermal unit's lists have in a period, as numbers."""
    lists = {it: plan.get(it) for it in ("on", "power", "reserve")} if isinstance(plan, dict) else {}
    return {
        key: number_of(numbers[period - 1])
        for key, numbers in lists.items()
        if isinstance(numbers, list) and 1 <= period <= len(numbers)
    }


def limit_of(files: Files, kind: str, number: int, key: str) -> Optional[Kilowatts]:
    """The least or greatest power of a unit in kilowatts, or None where the case doesn't tell it."""
    found = number_of(files.at("case", GROUPS.get(kind, ""), number, key))
    return None if found is None else kilowatts(found)


def in_megawatts(given: int, due: int, most: Optional[int] = None) -> str:
    """A question, where what is given is about a thousandth of what is due: at most that of `most`, where it is known."""
    limit = due // 500 if most is None else max(due // 500, most // 1000)
    return " (schedules are in kilowatts: are these megawatts?)" if 0 < given <= limit else ""


def told_rule(
    files: Files,
    what: str,
    code: int,
    kind: str,
    number: int,
    period: int,
    left: int,
    right: int,
    entry: Optional[int] = None,
) -> str:
    """A rule of a feasible schedule that is broken."""
    name = who(files, kind, number) if kind in GROUPS else ""
    name += f", entry {entry} of the mixture," if entry else ""
    rows = plan_of(files, what, kind, number, entry)
    least, most = (limit_of(files, kind, number, f"power_output_{it}") for it in ("minimum", "maximum"))
    if code == 48:
        return told_range(name, period, left, right, cells_of(rows, period), least, most) + "."
    if code == 53:
        given = rows[period - 1] if isinstance(rows, list) and period <= len(rows) else None
        if given is not None and written(given) == str(right):
            return f"{name} gives {right} kW in period {period}, and its least is {left} kW."
        return f"{name} gives {left} kW in period {period}, and its greatest is {right} kW."
    state = {0: "off", 1: "on"}
    known = dict(who=name, period=period, left=left, right=right, difference=abs(right - left))
    known.update(left_is=state.get(left, left), right_is=state.get(right, right))
    known.update(lacking="are lacking" if left < right else "too much")
    hint = hint_of_rule(files, code, kind, number, period)
    known["megawatts"] = "" if hint else in_megawatts(left, right)
    return RULES[code].format_map(Known(known)) + "." + barred(code, right, least) + hint


def barred(code: int, limit: int, least: Optional[int]) -> str:
    """What follows from a start or stop limit below the least power."""
    verb = {49: "start", 50: "stop"}.get(code)
    if verb is None or least is None or limit >= least:
        return ""
    return f" Its least power is {least} kW, so this unit can never {verb}: the case is to be mended."
