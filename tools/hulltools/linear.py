"""Linear programs, with and without whole variables, as they come, solved by SciPy's HiGHS."""
from __future__ import annotations

from collections.abc import Iterable
from dataclasses import dataclass
from typing import Any, Optional

from .errors import HullError

WHY_MISSING: Optional[Exception] = None  # why SciPy couldn't be loaded
NO_ROOM = ("cannot allocate memory", "failed to map segment")  # (so the system's loader says it)
try:
    import numpy as np
    from scipy.optimize import Bounds, LinearConstraint, linprog, milp
    from scipy.sparse import coo_matrix
except (ImportError, MemoryError, OSError) as error:
    milp = None
    WHY_MISSING = error

INFINITY = float("inf")
ROUGHLY = 1e-5  # a share of a row's numbers: solvers keep rows but for a part of that
TRIFLE = 1e-6  # a share of a cost: less is within what the solver takes for the same
Term = tuple[int, float]  # a variable by its number, and its factor


def need_scipy() -> None:
    if isinstance(WHY_MISSING, MemoryError) or any(it in str(WHY_MISSING).lower() for it in NO_ROOM):
        raise HullError("no memory to load SciPy")
    if milp is None:
        raise HullError(
            "this needs SciPy with scipy.optimize.milp (Debian: apt install python3-scipy, and run it by /usr/bin/python3)"
        )


def was_cut_by_the_clock(found: Any) -> bool:
    """Whether the solver's answer depends on how fast it was."""
    return bool(found.status == 1 and found.message.startswith("Time limit"))


def is_below(cost: float, bound: float) -> bool:
    """Whether a cost is below a bound that the solver says, by more than it may be wrong for want of digits."""
    return cost < bound - TRIFLE * max(1.0, abs(bound))


@dataclass
class Solved:
    """A solution of a linear program: its value, its variables, and what a unit more at each row would cost."""

    value: float
    x: list[float]
    duals: list[float]


class Program:
    """Variables with bounds and costs, and rows over them."""

    def __init__(self) -> None:
        need_scipy()
        self.low: list[float] = []
        self.high: list[float] = []
        self.cost: list[float] = []
        self.whole: list[int] = []
        self.rows: list[int] = []
        self.columns: list[int] = []
        self.factors: list[float] = []
        self.from_: list[float] = []
        self.to: list[float] = []
        self.is_infeasible = False  # (so the solver found it, at the last solution without whole variables)

    def variable(self, low: float, high: float, cost: float = 0.0, whole: bool = False) -> int:
        """A variable; its number."""
        self.low.append(low)
        self.high.append(high)
        self.cost.append(cost)
        self.whole.append(int(whole))
        return len(self.low) - 1

    def row(self, terms: Iterable[Term], low: float, high: float) -> int:
        """A row whose sum is from `low` to `high`; its number."""
        for column, factor in terms:
            self.rows.append(len(self.from_))
            self.columns.append(column)
            self.factors.append(factor)
        self.from_.append(low)
        self.to.append(high)
        return len(self.from_) - 1

    def at_most(self, terms: Iterable[Term], high: float) -> int:
        return self.row(terms, -INFINITY, high)

    def slack(self, row: int, factor: float) -> int:
        """A variable of cost 1 more in that row; its number."""
        column = self.variable(0, INFINITY, 1.0)
        self.rows.append(row)
        self.columns.append(column)
        self.factors.append(factor)
        return column

    def table(self) -> Any:
        shape = len(self.from_), len(self.low)
        return coo_matrix((self.factors, (self.rows, self.columns)), shape=shape).tocsr()

    def solve(self, **options: float) -> Any:
        """HiGHS' answer with whole variables whole; a solution that it says, and that is none, is refused."""
        if not self.low:
            self.variable(0, 0)  # (SciPy wants one)
        limits = [LinearConstraint(self.table(), self.from_, self.to)] if self.from_ else []
        given: dict[str, Any] = dict(integrality=self.whole, bounds=Bounds(self.low, self.high), constraints=limits)
        # (in what it simplifies first HiGHS has missed solutions, and the best one, and has broken rows; without that it takes no longer)
        found = milp(self.cost, **given, options=dict(options, presolve=False))
        if found.x is not None and not self.is_kept_by(found.x):
            raise HullError("the solver's answer isn't a solution of its program: try another --gap")
        return found

    def is_kept_by(self, x: Any) -> bool:
        """Whether a solution keeps rows and bounds, but for what a solver takes for nothing."""
        table = self.table()
        sums, room = table @ x, ROUGHLY * np.maximum(1.0, abs(table) @ abs(x))
        is_within = (sums >= np.array(self.from_) - room) & (sums <= np.array(self.to) + room)
        high = np.array(self.high) + ROUGHLY * np.maximum(1.0, abs(x))
        low = np.array(self.low) - ROUGHLY * np.maximum(1.0, abs(x))
        return bool(is_within.all() and (low <= x).all() and (x <= high).all())

    def solve_linear(self, method: str = "highs") -> Optional[Solved]:
        """The solution without whole variables, with the duals of the rows; None where there is none."""
        table, low, high = self.table(), np.array(self.from_), np.array(self.to)
        equal = low == high
        above, below = np.isfinite(high) & ~equal, np.isfinite(low) & ~equal
        from scipy.sparse import vstack

        found = linprog(
            self.cost,
            A_eq=table[equal],
            b_eq=high[equal],
            A_ub=vstack([table[above], -table[below]]),
            b_ub=np.concatenate([high[above], -low[below]]),
            bounds=np.column_stack([self.low, self.high]),
            method=method,
        )
        self.is_infeasible = found.status == 2
        if found.x is None or found.status not in (0,):
            return None
        duals = np.zeros(len(low))
        duals[equal] = found.eqlin.marginals
        duals[above] += found.ineqlin.marginals[: above.sum()]
        duals[below] -= found.ineqlin.marginals[above.sum() :]
        return Solved(float(found.fun), list(found.x), list(duals))
