"""Rows that bar on flags with which a case can't be met exactly, though the solver takes them for a solution.

It takes a flag of a millionth for 0, and a millionth of a large unit's power is a kilowatt.
"""
from __future__ import annotations

from typing import List, Optional, Tuple

from .cases import Case
from .commitment import Commitment, Flags

Cells = List[Tuple[int, int]]  # of on flags: the unit's place, and the period from 0


def bar(model: Commitment, flags: Flags) -> None:
    """Adds rows that these flags break, which can't be met, and no schedule does."""
    every = [(i, t) for i in range(len(flags)) for t in range(model.case.periods)]
    found = [cells_that_bar(model.case, flags, t) for t in unmet_periods(model.case, flags)]
    for cells in [it for it in found if it] or [every]:
        terms = [(model.units[i].on[t], -1 if flags[i][t] else 1) for i, t in cells]
        model.program.row(terms, 1 - sum(flags[i][t] for i, t in cells), float("inf"))


def unmet_periods(case: Case, flags: Flags) -> List[int]:
    """The periods that lack or have too much, where as little as can be is lacking or too much with the flags held."""
    model = Commitment(case)
    model.fix(flags)
    program = model.program
    program.cost = [0.0] * len(program.cost)
    rows = list(zip(model.balance, model.reserve))
    missed = [[program.slack(row, sign) for row in both if row is not None for sign in (1, -1)] for both in rows]
    solved = program.solve_linear()
    return [t for t, columns in enumerate(missed) if solved and any(solved.x[it] > 1e-6 for it in columns)]


def cells_that_bar(case: Case, flags: Flags, t: int) -> Optional[Cells]:
    """Flags of one period that no schedule has together: of units that are off, of those that are on, or all; None where there are none."""
    for held in ((0,), (1,), (0, 1)):
        cells = [(i, t) for i, row in enumerate(flags) if row[t] in held]
        model = Commitment(case)
        for i, _ in cells:
            column = model.units[i].on[t]
            model.program.low[column] = model.program.high[column] = flags[i][t]
        if cells and model.program.solve_linear() is None and model.program.is_infeasible:
            return cells
    return None
