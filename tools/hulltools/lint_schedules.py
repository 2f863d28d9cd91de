"""All that `hull` would refuse in a schedule or a mixture, as its fault lines, in the order of docs/FORMATS.md."""
from __future__ import annotations

from dataclasses import dataclass
from typing import Dict, Iterator, List, Optional, Tuple, Union

from .cases import MOST_PERIODS, POWER, Bid, Case, Renewable, Thermal
from .json_places import Node, Odd, whole_at
from .lint_cases import Fault
from .mixtures import MOST_WEIGHT
from .named_files import GROUPS, PLAN_GROUPS
from .schedules import Plan, flat_plan, kilowatt_list

Plans = Dict[Tuple[str, str], Tuple[Plan, Node]]
Breach = Tuple[int, int, int, int]  # code, period, left, right


@dataclass
class Shape:
    """What a schedule's form rests on: the number of periods, and the names by kind."""

    periods: int
    names: Dict[str, List[str]]


def shape_of(root: Node) -> Optional[Shape]:
    """The shape of a case's file, as far as it can be told; None where it can't."""
    periods = whole_at(root.members.get("time_periods"), 1, MOST_PERIODS)
    if periods is None:
        return None
    names = {kind: list(root.members[key].members) if key in root.members else [] for kind, key in GROUPS.items()}
    return Shape(periods, names)


def numbers_of(node: Node, most: int) -> List[int]:
    """The whole numbers of a list, but for items that are none."""
    return [number for number in (whole_at(it, 0, most) for it in node.items) if number is not None]


def bad_items(node: Node, most: int) -> List[int]:
    """The items, from 1, that are no whole numbers from 0 to `most`; what is odd was told as a fault of the text."""
    rows = enumerate(node.items, 1)
    return [i for i, it in rows if not isinstance(it.value, Odd) and whole_at(it, 0, most) is None]


@dataclass
class Told:
    """The unit or entry that faults are told of, in the file `4 schedule` or `10 mixture`."""

    faults: List[Fault]
    what: str
    kind: str
    unit: int
    entry: int = 0

    def line(self, code: int, rest: str) -> str:
        entry = f" entry {self.entry}" if self.what == "10 mixture" else ""
        return f"fault {self.what} {code} kind {self.kind} unit {self.unit}{entry} {rest}"

    def shape(self, code: int, at: int, item: int = 0) -> None:
        line = self.line(code, f"item {item}")
        self.faults.append(Fault(line, code, at, self.kind, self.unit, item, entry=self.entry))

    def rule(self, breach: Breach, at: int) -> None:
        code, period, left, right = breach
        line = self.line(code, f"period {period} left {left} right {right}")
        self.faults.append(Fault(line, code, at, self.kind, self.unit, period, entry=self.entry))

    def lists(self, rows: List[Tuple[Optional[Node], int]], periods: int, at: int) -> Optional[List[List[int]]]:
        """Lists with a whole number from 0 to a most for each period; None where one isn't so."""
        if any(it is None or not isinstance(it.value, list) or len(it.items) != periods for it, _ in rows):
            self.shape(42, at)
            return None
        is_odd, before = False, len(self.faults)
        for node, most in rows:
            assert node is not None
            is_odd = is_odd or any(isinstance(it.value, Odd) for it in node.items)
            for i in bad_items(node, most):
                self.shape(43, node.items[i - 1].at, i)
        return (
            None
            if is_odd or len(self.faults) > before
            else [numbers_of(it, most) for it, most in rows if it is not None]
        )

    def thermal_plan(self, node: Node, periods: int) -> Optional[Plan]:
        if isinstance(node.value, Odd):
            return None
        rows = [(node.members.get(key), most) for key, most in (("on", 1), ("power", POWER), ("reserve", POWER))]
        found = self.lists(rows, periods, node.at)
        if found is None:
            return None
        on, power, reserve = found
        return Plan(on, kilowatt_list(power), kilowatt_list(reserve))

    def flat_plan(self, node: Node, periods: int) -> Optional[Plan]:
        if isinstance(node.value, Odd):
            return None
        found = self.lists([(node, POWER)], periods, node.at)
        return None if found is None else flat_plan(kilowatt_list(found[0]))


def schedule_shape(root: Node, shape: Shape) -> Tuple[List[Fault], Plans]:
    """The faults of a schedule's form, and the plans that are in form."""
    faults: List[Fault] = []
    plans: Plans = {}
    whole = Told(faults, "4 schedule", "case", 0)
    groups = {kind: root.members.get(key) for kind, key in PLAN_GROUPS.items()}
    due = [kind for kind in GROUPS if kind != "bid" or shape.names["bid"] or groups["bid"]]
    if not all(isinstance(getattr(groups[kind], "value", None), dict) for kind in due):
        whole.shape(42, root.at)
        return faults, plans
    for kind in due:
        add_unknown(faults, "4 schedule", kind, groups[kind], shape.names[kind])
    for kind in due:
        add_plans(faults, plans, kind, groups[kind], shape)
    return faults, plans


def add_unknown(faults: List[Fault], what: str, kind: str, group: Optional[Node], names: List[str]) -> None:
    known = set(names)
    for number, (name, value) in enumerate((group.members if group else {}).items(), 1):
        if name not in known:
            Told(faults, what, kind, number).shape(40, value.at)


def add_plans(faults: List[Fault], plans: Plans, kind: str, group: Optional[Node], shape: Shape) -> None:
    found = group.members if group else {}
    for number, name in enumerate(shape.names[kind], 1):
        told = Told(faults, "4 schedule", kind, number)
        if name not in found:
            told.shape(41, group.at if group else 0)
            continue
        read = told.thermal_plan if kind == "thermal" else told.flat_plan
        plan = read(found[name], shape.periods)
        if plan is not None:
            plans[kind, name] = plan, found[name]


def thermal_breaches(unit: Thermal, plan: Plan) -> Iterator[Breach]:
    """The rules 44 to 52 and 56 that a plan breaks, each over rising periods."""
    yield from commitment_breaches(unit, plan.on)
    yield from range_breaches(unit, plan)
    yield from limit_breaches(unit, plan)
    yield from ramp_breaches(unit, plan)
    for t, mark in enumerate(unit.marks):
        if mark is not None and plan.on[t] != mark:
            yield 56, t + 1, plan.on[t], mark


def commitment_breaches(unit: Thermal, on: List[int]) -> Iterator[Breach]:
    periods = len(on)
    if unit.must_run:
        yield from ((44, t + 1, 0, 1) for t in range(periods) if not on[t])
    held = max(0, min(periods, unit.min_up - unit.up0 if unit.on0 else unit.min_down - unit.down0))
    yield from ((45, t + 1, on[t], unit.on0) for t in range(held) if on[t] != unit.on0)
    for code, state, due in ((46, 1, unit.min_up), (47, 0, unit.min_down)):
        begun = None
        for t in range(periods):
            before = on[t - 1] if t else unit.on0
            if on[t] == state and before != state:
                begun = t
            elif on[t] != state and before == state and begun is not None and t - begun < due:
                yield code, t + 1, t - begun, due


def range_breaches(unit: Thermal, plan: Plan) -> Iterator[Breach]:
    for t, (on, power, reserve) in enumerate(zip(plan.on, plan.power, plan.reserve), 1):
        if not on and (power or reserve):
            yield 48, t, power or reserve, 0
        elif on and power < unit.least:
            yield 48, t, unit.least, power
        elif on and power + reserve > unit.most:
            yield 48, t, power + reserve, unit.most


def limit_breaches(unit: Thermal, plan: Plan) -> Iterator[Breach]:
    periods, on = len(plan.on), plan.on
    both = [power + reserve for power, reserve in zip(plan.power, plan.reserve)]
    for t in range(periods):
        if on[t] and not (on[t - 1] if t else unit.on0) and both[t] > unit.start_cap:
            yield 49, t + 1, both[t], unit.start_cap
    if unit.on0 and not on[0] and unit.power0 > unit.stop_cap:
        yield 50, 0, unit.power0, unit.stop_cap
    for t in range(periods - 1):
        if on[t] and not on[t + 1] and both[t] > unit.stop_cap:
            yield 50, t + 1, both[t], unit.stop_cap


def ramp_breaches(unit: Thermal, plan: Plan) -> Iterator[Breach]:
    above = [power - unit.least if on else 0 for on, power in zip(plan.on, plan.power)]
    before = [unit.above0, *above]
    for t, reserve in enumerate(plan.reserve):
        rise = above[t] + reserve - before[t]
        if rise > unit.ramp_up:
            yield 51, t + 1, rise, unit.ramp_up
    for t in range(len(above)):
        if before[t] - above[t] > unit.ramp_down:
            yield 52, t + 1, before[t] - above[t], unit.ramp_down


def renewable_breaches(unit: Renewable, plan: Plan) -> Iterator[Breach]:
    for t, power in enumerate(plan.power):
        if power < unit.least[t]:
            yield 53, t + 1, unit.least[t], power
        elif power > unit.most[t]:
            yield 53, t + 1, power, unit.most[t]


def bid_breaches(bid: Bid, plan: Plan) -> Iterator[Breach]:
    for t, power in enumerate(plan.power):
        most = sum(width for width, _ in bid.blocks[t])
        if power > most:
            yield 57, t + 1, power, most


def breaches_of(unit: Union[Thermal, Renewable, Bid], plan: Plan) -> Iterator[Breach]:
    if isinstance(unit, Thermal):
        return thermal_breaches(unit, plan)
    return renewable_breaches(unit, plan) if isinstance(unit, Renewable) else bid_breaches(unit, plan)


def system_breaches(case: Case, plans: Plans) -> Iterator[Breach]:
    """Balance and reserve, where each unit has a plan."""
    rows = [(kind, plans[kind, unit.name][0]) for kind, unit in case.units]
    signs = {"thermal": 1, "renewable": 1, "bid": -1}
    for t, demand in enumerate(case.demand):
        total = sum(signs[kind] * plan.power[t] for kind, plan in rows)
        if total != demand:
            yield 54, t + 1, total, demand
    for t, due in enumerate(case.reserves):
        total = sum(plan.reserve[t] for _, plan in rows)
        if total < due:
            yield 55, t + 1, due, total


def schedule_rules(case: Case, plans: Plans, root: Node) -> List[Fault]:
    """The rules of a feasible schedule that are broken: those of each unit, and of the whole where each has a plan."""
    faults: List[Fault] = []
    numbers: Dict[str, int] = {}
    for kind, unit in case.units:
        number = numbers[kind] = numbers.get(kind, 0) + 1
        if (kind, unit.name) in plans:
            plan, node = plans[kind, unit.name]
            for breach in breaches_of(unit, plan):
                Told(faults, "4 schedule", kind, number).rule(breach, node.at)
    if all((kind, unit.name) in plans for kind, unit in case.units):
        for breach in system_breaches(case, plans):
            Told(faults, "4 schedule", "case", 0).rule(breach, root.at)
    return faults


def mixture_faults(root: Node, shape: Shape, case: Optional[Case]) -> List[Fault]:
    """The faults of a mixture; its entries are held against the rules where the case is given."""
    faults: List[Fault] = []
    whole, group, weight = (
        Told(faults, "10 mixture", "case", 0),
        root.members.get("thermal"),
        root.members.get("weight"),
    )
    if group is None or not isinstance(group.value, dict) or weight is None:
        whole.shape(42, root.at)
        return faults
    total = whole_at(weight, 1, MOST_WEIGHT)
    if total is None:
        whole.shape(62, weight.at)
        return faults
    add_unknown(faults, "10 mixture", "thermal", group, shape.names["thermal"])
    entries: List[Tuple[int, int, Plan, Node]] = []
    for number, name in enumerate(shape.names["thermal"], 1):
        told = Told(faults, "10 mixture", "thermal", number)
        rows = group.members.get(name)
        if rows is None:
            told.shape(41, group.at)
        elif not isinstance(rows.value, list) or not rows.items:
            told.shape(42, rows.at)
        else:
            entries += [(number, *it) for it in entries_of(told, rows, shape.periods, total)]
    for number, entry, plan, node in entries:
        if case is None:
            break
        breach = next(thermal_breaches(case.thermal[number - 1], plan), None)
        if breach:
            Told(faults, "10 mixture", "thermal", number, entry).rule(breach, node.at)
    return faults


def entries_of(told: Told, rows: Node, periods: int, total: int) -> List[Tuple[int, Plan, Node]]:
    """The entries of a unit that are in form, by their number."""
    found, weights = [], []
    for entry, row in enumerate(rows.items, 1):
        at = Told(told.faults, told.what, told.kind, told.unit, entry)
        lists = [row.members.get(key) for key in ("on", "power", "reserve")]
        is_shaped = all(one is not None and isinstance(one.value, list) and len(one.items) == periods for one in lists)
        if "weight" not in row.members or not is_shaped:
            at.shape(42, row.at)
            continue
        weight = whole_at(row.members["weight"], 0, total)
        if weight is None:
            at.shape(62, row.members["weight"].at)
        else:
            weights.append(weight)
        plan = at.thermal_plan(row, periods)
        if plan is not None:
            found.append((entry, plan, row))
    if len(weights) == len(rows.items) and sum(weights) != total:
        told.shape(62, rows.at)
    return found
