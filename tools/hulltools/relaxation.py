"""Prices from linear programs: with all commitments of a schedule held, with those of slow units held, and with none."""
from __future__ import annotations

from typing import Optional

from .apart import run_apart
from .cases import Case
from .commitment import Commitment, Flags
from .errors import CannotBeMet, HullError
from .fast_start import FastStart
from .prices import Prices, prices_near
from .schedules import Schedule
from .search_limits import SECONDS


def dual_prices(model: Commitment, what: str) -> Prices:
    """The duals of balance and reserve as whole prices."""
    solved = model.program.solve_linear("highs-ds")
    if solved is None:
        told = f"the solver finds no solution of {what}"
        raise CannotBeMet(told) if model.program.is_infeasible else HullError(told)
    energy, reserve = model.prices(solved.duals)
    return prices_near([it * 1e3 for it in energy], [it * 1e3 for it in reserve])


def flags_of(case: Case, schedule: Schedule) -> Flags:
    return [schedule.plan("thermal", unit.name).on for unit in case.thermal]


HELD = "the linear program with the schedule's commitments held"
RELAXED = "the linear relaxation"
FAST = "the linear program with fast-start units relaxed"


def held(case: Case, schedule: Schedule) -> Prices:
    model = Commitment(case)
    model.fix(flags_of(case, schedule))
    return dual_prices(model, HELD)


def held_prices(case: Case, schedule: Schedule, seconds: Optional[float] = SECONDS) -> Prices:
    """LMPs: the schedule's commitments are held, so only the dispatch is left to choose."""
    return run_apart(held, (case, schedule), f"solving {HELD}", seconds)


def relaxed(case: Case) -> Prices:
    return dual_prices(Commitment(case), RELAXED)


def relaxed_prices(case: Case, seconds: Optional[float] = SECONDS) -> Prices:
    """The duals of the linear relaxation: units may be on by half. They approximate convex hull prices (Hua and Baldick 2017)."""
    return run_apart(relaxed, (case,), f"solving {RELAXED}", seconds)


def fast_start(case: Case, schedule: Schedule, fast: FastStart) -> Prices:
    model, flags = Commitment(case), flags_of(case, schedule)
    names = {unit.name for unit in fast.units(case)}
    model.fix(flags, [unit.name not in names for unit in case.thermal])
    for unit, on in zip(model.units, flags):
        if fast.online_only and unit.unit.name in names:
            for column, flag in zip(unit.on, on):
                model.program.high[column] = min(model.program.high[column], flag)
    return dual_prices(model, FAST)


def fast_start_prices(case: Case, schedule: Schedule, fast: FastStart, seconds: Optional[float] = SECONDS) -> Prices:
    """ELMPs: the commitments of slow units are held, and fast-start units may be on by a part, with a part of their start cost."""
    return run_apart(fast_start, (case, schedule, fast), f"solving {FAST}", seconds)
