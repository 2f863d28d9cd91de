"""Feasible schedules in whole kilowatts: found by solving the unit commitment problem, or near one from elsewhere."""
from __future__ import annotations

import time
from dataclasses import dataclass, field, replace
from decimal import Decimal
from math import floor, inf, isfinite
from typing import Any, Callable, Dict, List, Optional, Sequence, Tuple, cast

from .apart import run_apart
from .barring import bar
from .cases import POWER, Case, Thermal
from .commitment import Commitment, Flags
from .costs import most_below_lines
from .deviations import Deviation, deviations, farthest
from .external_schedules import Followed
from .impossible import barred_flags, units_that_bar, why_flags
from .lint_units import clash
from .linear import Solved, Term, was_cut_by_the_clock
from .numbers import Millionths, in_currency
from .options import counted
from .progress import turn_to
from .rounding import SLACK, Lists, Powers, reserves_of, whole_powers
from .schedules import Plan, Schedule, flat_plan, kilowatt_list
from .search_limits import SECONDS, SearchLimits
from .errors import CannotBeMet, HullError, OverTime, one_line

CHOICES = 100  # how many choices of units are asked for, where none can be met exactly
SECONDS_A_RULE = 20.0  # how long the solver looks for a schedule without a rule


def relative_gap(cost: float, bound: float) -> float:
    """By what share of the cost it is above the bound."""
    return max(0.0, cost - bound) / max(abs(cost), 1e-9)


@dataclass(repr=False)
class Made:
    """A schedule, and of a search what it cost the solver, its nodes, and the gap that was to be reached.

    Where a schedule was followed, `deviations` are the powers and reserves that aren't its own, in kilowatts, the farthest first.
    `solver_cost` and `solver_bound` are floating, in the currency, and None where no search was made. The solver's costs are straight between
    the points of a curve; `below_lines` is how far below these a schedule's cost may be. `checked_cost` is what `hull check` says.
    """

    schedule: Schedule
    solver_cost: Optional[float] = None
    solver_bound: Optional[float] = None
    nodes: int = 0
    wanted_gap: float = 0.0
    below_lines: float = 0.0
    checked_cost: Optional[Millionths] = None
    deviations: List[Deviation] = field(default_factory=list)

    def __repr__(self) -> str:
        reached = f"farthest_mw={self.farthest_mw}"
        if self.gap is not None:
            reached = f"gap={self.gap:.6g}, is_near={self.is_near}, nodes={self.nodes}"
        return f"<Made: schedule={self.schedule!r}, cost={self.checked_cost}, {reached}>"

    @property
    def cost(self) -> Millionths:
        """The schedule's cost in millionths, exact, as `hull check` finds it. Raises `HullError` where the schedule wasn't checked."""
        if self.checked_cost is None:
            raise HullError("the schedule wasn't checked, so its cost isn't known: `check` says it")
        return self.checked_cost

    @property
    def cost_in_currency(self) -> Decimal:
        """The same in the currency, exact."""
        return in_currency(self.cost)

    @property
    def bound(self) -> Optional[Millionths]:
        """What no schedule costs less than, in millionths, by the solver's own numbers; None where it has no bound."""
        lowest = self.lowest
        return None if lowest is None else Millionths(floor(lowest * 1e6))

    @property
    def lowest(self) -> Optional[float]:
        """The bound in the currency, below the straight lines of the solver's costs."""
        is_known = self.solver_bound is not None and isfinite(self.solver_bound)
        return cast(float, self.solver_bound) - self.below_lines if is_known else None

    @property
    def gap(self) -> Optional[float]:
        """By what share of its cost the solver's choice is above its bound, both by the solver's own numbers; None where no search was made."""
        is_known = self.solver_cost is not None and self.solver_bound is not None
        return relative_gap(cast(float, self.solver_cost), cast(float, self.solver_bound)) if is_known else None

    @property
    def is_near(self) -> Optional[bool]:
        """Whether the gap is reached; None where no search was made."""
        return None if self.gap is None else self.gap <= self.wanted_gap

    @property
    def farthest_mw(self) -> Optional[float]:
        """How far the power that is farthest from the followed one is from it, in megawatts; None where a search was made."""
        return farthest(self.deviations, "power") / 1e3 if self.gap is None else None

    def told(self, cost: int) -> str:
        """What the search reached: how far the cost in millionths, which is what `hull check` says, is above a bound that holds for it."""
        near = "within" if self.is_near else f"the gap of {self.wanted_gap * 100:g} % is missed:"
        nodes, lowest = counted(self.nodes, "node"), self.lowest
        if lowest is None:
            return f"{near} the solver has no bound after {nodes}"
        return (
            f"{near} {relative_gap(cost / 1e6, lowest) * 100:.4f} % of the solver's bound, {lowest:,.2f}, after {nodes}"
        )


def refuse_contradictions(case: Case) -> None:
    """Says which two rules of a unit leave it no flag in a period."""
    for unit in case.thermal:
        found = clash(unit)
        if found:
            period, why, _ = found
            told = f'in period {period} unit "{one_line(unit.name)}" can be neither on nor off: {why}'
            raise CannotBeMet(f"the case can't be met: {told}", unit=unit.name, period=period)


def why_not(case: Case) -> Tuple[Optional[int], str]:
    """In which period the case can't be met, and why, as far as one period alone shows; None and an empty text where it doesn't."""
    bounds = [it.on_bounds() for it in case.thermal]
    for t in range(case.periods):
        at_most = sum(it.most * high[t] for it, (_, high) in zip(case.thermal, bounds))
        at_least = sum(it.least * low[t] for it, (low, _) in zip(case.thermal, bounds))
        most = at_most + sum(it.most[t] for it in case.renewable)
        least = at_least + sum(it.least[t] for it in case.renewable)
        buys = sum(width for it in case.bids for width, _ in it.blocks[t])
        kept = sum((it.most - it.least) * high[t] for it, (_, high) in zip(case.thermal, bounds))
        told = f": in period {t + 1} the units "
        if most < case.demand[t]:
            return t + 1, f"{told}give at most {most / 1e3:g} MW, and demand is {case.demand[t] / 1e3:g} MW"
        if least > case.demand[t] + buys:
            taken = f"demand and bids take {(case.demand[t] + buys) / 1e3:g} MW"
            return t + 1, f"{told}give at least {least / 1e3:g} MW, and {taken}"
        if kept < case.reserves[t]:
            required = f"{case.reserves[t] / 1e3:g} MW are required"
            return t + 1, f"{told}can keep at most {kept / 1e3:g} MW in reserve, and {required}"
        both = case.demand[t] + case.reserves[t]
        if most < both:
            required = f"demand and the required reserve are {both / 1e3:g} MW"
            return t + 1, f"{told}give at most {most / 1e3:g} MW, and {required}"
    return None, ""


def with_units(case: Case, **changed: Any) -> Case:
    """The case with members of each thermal unit changed; a callable is asked for each unit."""

    def new(unit: Thermal) -> Thermal:
        return replace(unit, **{key: it(unit) if callable(it) else it for key, it in changed.items()})

    return replace(case, thermal=[new(unit) for unit in case.thermal])


RULES: Dict[str, Callable[[Case], Case]] = {  # a case without each rule that goes over periods or units
    "the required reserve": lambda case: replace(case, reserves=[0] * case.periods),
    "the ramps": lambda case: with_units(case, ramp_up=POWER, ramp_down=POWER),
    "the start and stop limits": lambda case: with_units(
        case, start_limit=lambda it: it.most, stop_limit=lambda it: it.most
    ),
    "the minimum times": lambda case: with_units(case, min_up=1, min_down=1),
    "the windows": lambda case: with_units(case, marks=[None] * case.periods),
    "must-run": lambda case: with_units(case, must_run=0),
}


def rules_that_bar(case: Case, until: float) -> str:
    """In words, without which rule the solver finds a schedule; each is tried by itself, for some seconds, up to a time of the clock."""
    found = []
    for name, without in RULES.items():
        turn_to(f"the case can't be met: looking for a schedule without {name}")
        program = Commitment(without(case)).program
        program.cost = [0.0] * len(program.cost)
        seconds = min(SECONDS_A_RULE, max(0.0, until - time.monotonic()))
        if program.solve(time_limit=seconds).x is not None:
            found.append(name)
    if not found:
        alone = ": no period's sums show why, and no rule that is left out alone makes a schedule possible"
        return f"{alone}{units_that_bar(case)}"
    bars = f"there would be a schedule without {', or without '.join(found)}"
    return f": no period's sums show why; {bars}{units_that_bar(case)}"


def powers_found(model: Commitment, x: Sequence[float]) -> Powers:
    """The solver's powers in megawatts, by kind and place of the unit."""
    every = range(model.case.periods)
    found: Powers = {}
    for i, unit in enumerate(model.units):
        found["thermal", i] = [x[unit.on[t]] * unit.unit.least / 1e3 + x[unit.power[t]] for t in every]
    for i, row in enumerate(model.renewable):
        found["renewable", i] = [x[row[t]] for t in every]
    for i, blocks in enumerate(model.bids):
        found["bid", i] = [sum(x[block] for block in blocks[t]) for t in every]
    return found


def schedule_of(case: Case, flags: Flags, lists: Lists, reserves: List[List[int]]) -> Schedule:
    powers, renewable, bids = lists
    plans: Dict[Tuple[str, str], Plan] = {
        ("thermal", unit.name): Plan(on, kilowatt_list(power), kilowatt_list(reserve))
        for unit, on, power, reserve in zip(case.thermal, flags, powers, reserves)
    }
    plans.update({("renewable", it.name): flat_plan(kilowatt_list(row)) for it, row in zip(case.renewable, renewable)})
    plans.update({("bid", it.name): flat_plan(kilowatt_list(row)) for it, row in zip(case.bids, bids)})
    return Schedule(plans)


def dispatch(case: Case, flags: Flags) -> Optional[Schedule]:
    """The powers of least cost with the flags held, in whole kilowatts; None where the flags can't be met."""
    turn_to("the dispatch of the schedule that is found")
    model = Commitment(case)
    model.fix(flags)
    solved = model.program.solve_linear()
    if solved is None and model.program.is_infeasible:
        return None
    if solved is None:
        raise HullError("the solver ended without powers for its choice of units, and doesn't say that there are none")
    lists = whole_powers(case, flags, powers_found(model, solved.x), solved.value)
    if lists is None:
        raise HullError("no whole kilowatts near the solver's powers balance: try another --gap")
    return schedule_of(case, flags, lists, reserves_of(case, flags, lists[0]))


def searched(model: Commitment, limits: SearchLimits, until: float) -> Any:
    """The solver's answer, which depends on the program and the solver's version alone, or else is refused."""
    seconds = max(0.0, until - time.monotonic())
    found = model.program.solve(time_limit=seconds, mip_rel_gap=limits.gap, node_limit=limits.nodes)
    if found.status == 2:
        raise CannotBeMet(f"the solver finds that the case can't be met{rules_that_bar(model.case, until)}")
    if was_cut_by_the_clock(found):
        reached = "no schedule was found"
        if found.x is not None:
            reached = f"the gap is {relative_gap(found.fun, found.mip_dual_bound) * 100:.4f} %"
        raise OverTime(
            f"the outer limit of {limits.seconds:g} s is over: {reached}, and {limits.gap * 100:g} % are to be reached. "
            "A schedule that the clock chose isn't taken: give --seconds or --gap more"
        )
    if found.x is None:
        raise HullError(f"no schedule was found with {limits.nodes} nodes: give --nodes more")
    return found


def make_schedule(case: Case, limits: SearchLimits) -> Made:
    """A schedule whose cost is near the least: the same one wherever the solver is of the same version."""
    refuse_contradictions(case)
    period, why = why_not(case)
    if period is not None:
        raise CannotBeMet(f"the case can't be met{why}", period=period)
    return run_apart(search, (case, limits), "searching for a schedule", limits.seconds)


def search(case: Case, limits: SearchLimits) -> Made:
    """The search itself, which is over at the limit where the solver looks at the clock."""
    until = inf if limits.seconds is None else time.monotonic() + limits.seconds
    model, nodes = Commitment(case), 0
    for _ in range(CHOICES):
        found = searched(model, replace(limits, nodes=max(1, limits.nodes - nodes)), until)
        nodes += int(found.mip_node_count or 0)
        flags = model.flags(found.x)
        schedule = dispatch(case, flags)
        if schedule is not None:
            return made_of(case, schedule, found, nodes, limits.gap)
        turn_to("the solver's choice of units can't be met exactly: looking for another")
        bar(model, flags)
    raise HullError(f"none of {CHOICES} choices of units that the solver made can be met exactly: try another --gap")


def made_of(case: Case, schedule: Schedule, found: Any, nodes: int, wanted_gap: float) -> Made:
    """What the search found, with the solver's bound. With no whole variable it has none beside the optimum."""
    bound = found.fun if found.mip_dual_bound is None else found.mip_dual_bound
    below_lines = sum(most_below_lines(it.points) for it in case.thermal) * case.periods / 1e6
    return Made(schedule, float(found.fun), float(bound), nodes, wanted_gap, below_lines)


def wanted_powers(case: Case, followed: Followed) -> Powers:
    """What is wanted of each unit, by kind and place, as far as the file says it."""
    kinds: Tuple[Tuple[str, Sequence[Any]], ...] = (
        ("thermal", case.thermal),
        ("renewable", case.renewable),
        ("bid", case.bids),
    )
    rows = ((kind, i, it.name) for kind, units in kinds for i, it in enumerate(units))
    return {(kind, i): followed.power[name] for kind, i, name in rows if name in followed.power}


def terms_of(model: Commitment, kind: str, place: int, t: int) -> List[Term]:
    """The power of a unit or bid in a period, in megawatts."""
    if kind == "thermal":
        unit = model.units[place]
        return [(unit.on[t], unit.unit.least / 1e3), (unit.power[t], 1)]
    if kind == "renewable":
        return [(model.renewable[place][t], 1)]
    return [(block, 1) for block in model.bids[place][t]]


def add_distances(model: Commitment, wanted: Powers) -> List[int]:
    """Adds variables whose sum is at least the distance from the wanted powers, in megawatts."""
    program = model.program
    added: List[int] = []
    for (kind, place), powers in wanted.items():
        for t in range(model.case.periods):
            more, less = (program.variable(0, float("inf")) for _ in range(2))
            program.row([*terms_of(model, kind, place, t), (more, -1), (less, 1)], powers[t], powers[t])
            added += [more, less]
    return added


def nearest(model: Commitment, wanted: Powers) -> Optional[Solved]:
    """The solution of least cost among those that are nearest to the wanted powers; None where there is none."""
    program, distances = model.program, add_distances(model, wanted)
    if distances:
        cost, near = program.cost, set(distances)
        program.cost = [float(it in near) for it in range(len(cost))]
        solved = program.solve_linear()
        if solved is None:
            return None
        program.cost = cost
        program.at_most([(it, 1) for it in distances], solved.value + SLACK / 1e3)
        return program.solve_linear() or solved
    return program.solve_linear()


def follow(case: Case, followed: Followed, name: str, seconds: Optional[float] = SECONDS) -> Made:
    """A schedule with the commitments of one from elsewhere, in whole kilowatts: of those with powers as near as can be, the cheapest."""
    return run_apart(near_to, (case, followed, name), f"following {name}", seconds)


def near_to(case: Case, followed: Followed, name: str) -> Made:
    flags = [[int(it > 0.5) for it in followed.on[unit.name]] for unit in case.thermal]
    model, wanted = Commitment(case), wanted_powers(case, followed)
    model.fix(flags)
    # (flags that are held are held against the rules that the state before period 1 and windows give, too)
    is_barred = barred_flags(case, flags) is not None
    solved = None if is_barred else nearest(model, wanted)
    if solved is None and not (is_barred or model.program.is_infeasible):
        raise HullError(f"{name}: the solver ended without powers, and doesn't say that there are none")
    if solved is None:
        why = why_flags(case, flags)
        told = f"{name}: its commitments can't be met in this case: {why.sentence}"
        raise CannotBeMet(told, unit=why.unit, period=why.period)
    lists = whole_powers(case, flags, powers_found(model, solved.x), solved.value, wanted)
    if lists is None:
        raise HullError(f"{name}: no whole kilowatts near its powers balance")
    kept = {i: followed.reserve[it.name] for i, it in enumerate(case.thermal) if it.name in followed.reserve}
    schedule = schedule_of(case, flags, lists, reserves_of(case, flags, lists[0], kept))
    return Made(schedule, deviations=deviations(schedule, followed))
