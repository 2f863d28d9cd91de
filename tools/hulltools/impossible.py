"""Which units keep a case, or given commitments of it, from being met."""
from __future__ import annotations

from typing import Iterator, List, NamedTuple, Optional

from .cases import Case, Thermal
from .fault_rules import RULES
from .lint_findings import called
from .lint_schedules import Breach, commitment_breaches
from .lint_units import limit_oddities, state_oddities
from .named_files import Known

TOLD = 3  # how many units are told


def units_that_bar(case: Case) -> str:
    """The units whose limits or state before period 1 bar a start, a stop, or to stay on; an empty text where there are none."""
    told: List[str] = []
    for unit in case.thermal:
        odd = [it for it in (*limit_oddities(unit), *state_oddities(unit)) if it.rule != "off-with-power"]
        told += [f"{called('thermal', unit.name)}: {it.text}" for it in odd[:1]]
    more = f"; and {len(told) - TOLD} more" if len(told) > TOLD else ""
    return f". Look at {'; '.join(told[:TOLD])}{more}" if told else ""


def flag_breaches(unit: Thermal, on: List[int]) -> Iterator[Breach]:
    """The rules that on flags break whatever the powers are."""
    yield from commitment_breaches(unit, on)
    for t, now in enumerate(on):
        before = on[t - 1] if t else unit.on0
        if now and not before and unit.start_cap < unit.least:
            yield 49, t + 1, unit.least, unit.start_cap
        if t and before and not now and unit.stop_cap < unit.least:
            yield 50, t, unit.least, unit.stop_cap
        mark = unit.marks[t]
        if mark is not None and now != mark:
            yield 56, t + 1, now, mark
    if unit.on0 and on and not on[0] and unit.power0 > unit.stop_cap:
        yield 50, 0, unit.power0, unit.stop_cap


class Barred(NamedTuple):
    """Why commitments can't be met, and the unit and the period, from 1, where one of them alone shows it."""

    sentence: str
    unit: Optional[str] = None
    period: Optional[int] = None


def barred_flags(case: Case, flags: List[List[int]]) -> Optional[Barred]:
    """Which rule of which unit the commitments break; None where they break none."""
    state = {0: "off", 1: "on"}
    for unit, on in zip(case.thermal, flags):
        found = next(flag_breaches(unit, on), None)
        if found:
            code, period, left, right = found
            known = dict(who=called("thermal", unit.name), period=period, left=left, right=right)
            known.update(left_is=state.get(left, left), right_is=state.get(right, right))
            return Barred(str(RULES[code].format_map(Known(known))), unit.name, period or None)
    return None


def why_flags(case: Case, flags: List[List[int]]) -> Barred:
    """The same; where they break none, what is left."""
    left = "each unit may be on and off as they say, but ramps, balance or reserve can't be kept with them"
    return barred_flags(case, flags) or Barred(left)
