"""Looks at files before they cost a day: all that `hull` will refuse, and what it takes without a word though it is odd."""
from __future__ import annotations

import json
import os
from dataclasses import dataclass, field, replace
from itertools import islice
from typing import Callable, Dict, Iterable, Iterator, List, Optional, SupportsFloat, Tuple, Union

from .cases import Case, Fields, Thermal, case_of, read_thermal
from .curve_costs import CurveCosts, costs_by_unit
from .errors import HullError, read_bytes
from .faults import Files, sentence
from .json_places import TOKEN, Located, Node, Path, located, path_in_words, plain
from .lint_cases import Fault, case_faults, prices_faults
from .lint_costs import CostCheck, falling_in_sum, falls_of
from .lint_findings import Finding, Level, called, names_of, ranges
from .lint_keys import KEYS, unknown_keys
from .lint_schedules import Plans, Shape, mixture_faults, schedule_rules, schedule_shape, shape_of
from .lint_system import SystemOddity, capacity_oddities, in_megawatts, period_oddities, price_oddities
from .lint_units import Oddity, oddities
from .named_files import GROUPS, Written
from .prices import prices_of
from .schedules import Schedule

STATUS = {"case": 3, "schedule": 4, "prices": 9, "mixture": 10}
HOW = {"case": "a case", "schedule": "a schedule", "prices": "prices", "mixture": "a mixture"}
SHOWN = 5  # how many findings of one rule are told in full
IN_THE_CASE = " In the case "  # (how a sentence goes on that tells what a warning tells too)
POWER_RULES = {43, 48, 49, 50, 51, 52, 53, 54, 55, 57}  # what a schedule in megawatts breaks


@dataclass(frozen=True)
class Limits:
    """What is held for odd: marginal costs above `highest_cost` per MWh; `hours` is how long a period is.

    Of each kind of faults of a file, those of its text, its form and its rules, so many as `most` are told, and the
    others are counted.
    """

    highest_cost: float = 1000.0
    hours: float = 1.0
    most: int = 1000


@dataclass
class Review:
    """What was found in the files, and the cost of the schedule by three readings of the curves where it could be told."""

    findings: List[Finding] = field(default_factory=list)
    costs: Optional[CurveCosts] = None

    def of(self, level: Level) -> List[Finding]:
        return [it for it in self.findings if it.level is level]

    @property
    def status(self) -> int:
        """0 where nothing is odd, 1 with warnings, 2 with errors."""
        return 2 if self.of(Level.ERROR) else 1 if self.of(Level.WARNING) else 0

    @property
    def summary(self) -> str:
        counts = [(len(self.of(level)), level.value) for level in Level]
        return (
            ", ".join(f"{n} {word}{'' if n == 1 else 's'}" for n, word in counts) if self.findings else "nothing is odd"
        )

    def lines(self, every: bool = False) -> List[str]:
        """The findings in words; of each rule the first few, unless every one is asked for."""
        told: List[str] = []
        for rule, rows in by_rule(self.findings):
            shown = rows if every else rows[:SHOWN]
            told += [it.sentence for it in shown]
            if len(rows) > len(shown):
                names = names_of(list(dict.fromkeys(it.unit for it in rows[len(shown) :] if it.unit is not None)))
                told.append(
                    f"{rule[0].value}: {len(rows) - len(shown)} more like that{f': {names}' if names else ''} (--all tells them)"
                )
        return told

    def as_json(self) -> Dict[str, object]:
        costs = None
        if self.costs is not None:
            rows: Tuple[Tuple[str, SupportsFloat], ...] = (
                ("straight", self.costs.straight),
                ("convex_envelope", self.costs.convex),
                ("whole_price_envelope", self.costs.whole),
            )
            costs = {key: float(it) / 1e6 for key, it in rows}
        return {"status": self.status, "findings": [it.as_json() for it in self.findings], "thermal_cost": costs}


def by_rule(findings: Iterable[Finding]) -> Iterator[Tuple[Tuple[Level, str], List[Finding]]]:
    """The findings by level and rule, errors first, in the order in which they were found."""
    found: Dict[Tuple[Level, str], List[Finding]] = {}
    for finding in findings:
        found.setdefault((finding.level, finding.rule), []).append(finding)
    yield from sorted(found.items(), key=lambda row: list(Level).index(row[0][0]))


class Look:
    """One look at the files of a run."""

    def __init__(self, names: Dict[str, str], limits: Limits):
        self.names, self.limits, self.review = names, limits, Review()
        self.files = Files(dict(names))
        self.read: Dict[str, Located] = {}
        self.case: Optional[Case] = None

    def add(self, finding: Finding) -> None:
        self.review.findings.append(finding)

    def make(self) -> Review:
        self.open("case")
        self.look_at_case()
        root = self.root("case")
        shape = None if root is None else shape_of(root)
        for what, look_at in (
            ("schedule", self.look_at_schedule),
            ("prices", self.look_at_prices),
            ("mixture", self.look_at_mixture),
        ):
            if what in self.names:
                self.open(what)
            if shape is not None:
                look_at(shape)
        for what in self.read:
            self.look_at_keys(what)
        return self.review

    def root(self, what: str) -> Optional[Node]:
        return self.read[what].root if what in self.read else None

    def open(self, what: str) -> None:
        """Reads a file and tells the faults of its text."""
        try:
            self.read[what] = found = located(self.names[what], read_bytes(self.names[what], HOW[what]))
        except HullError as why:
            text = str(why).replace(f"{self.names[what]}: ", "", 1)
            if os.path.isdir(self.names[what]):
                text = "this is a folder: tools/convert.py makes a case of a folder of CSV files"
            self.add(Finding(Level.ERROR, "unreadable", self.names[what], text))
            return
        if found.faults and found.root is not None:
            self.files.values[what] = as_written(found.root, found.text)
        for fault in found.faults[: self.limits.most]:
            rest = "" if found.root is not None else " What stands behind it isn't read before this is mended."
            place = found.byte(fault.at)
            self.files.paths[what, place] = fault.path
            line = f"fault {STATUS[what]} {what} {fault.code} at {place}"
            self.add(self.error(what, line, f"text-{fault.code}", fault.at, rest=rest, unit=unit_on(fault.path)))
        self.count_others(what, found.count)

    def count_others(self, what: str, count: int) -> None:
        """Tells how many faults aren't told."""
        others = count - self.limits.most
        if others > 0:
            more = f"{others:,} more {'fault is' if others == 1 else 'faults are'} there."
            text = f"{more} Mend these first; --most of lint.py tells more."
            self.add(Finding(Level.ERROR, "more-faults", self.names[what], text))

    def error(
        self, what: str, line: str, rule: str, at: int, rest: str = "", unit: Optional[Tuple[str, str]] = None
    ) -> Finding:
        """The finding of a fault line, in the words of explain.py."""
        text, _, hint = sentence(line, self.files).partition(IN_THE_CASE)
        text += " The warnings say what in the case is odd." if hint else ""
        text = text[len(self.names[what]) + 2 :] if text.startswith(f"{self.names[what]}: ") else text
        kind, name = unit or (None, None)
        return Finding(
            Level.ERROR, rule, self.names[what], text + rest, self.read[what].line(at), kind, name, fault=line
        )

    def faults(self, what: str, faults: List[Fault]) -> None:
        """Tells faults, those of one unit and rule together."""
        rows: Dict[Tuple[object, ...], List[Fault]] = {}
        for fault in faults:
            rows.setdefault((fault.code, fault.key, fault.kind, fault.unit, fault.entry), []).append(fault)
        for same in islice(rows.values(), self.limits.most):
            first, items = same[0], tuple(it.item for it in same if it.item)
            more = "item" if first.code < 44 or first.code == 62 else "period"
            others = sorted(set(items[1:]) - {first.item})
            rest = (
                f" So in {len(others)} more {more}{'s' if len(others) > 1 else ''}: {ranges(others)}." if others else ""
            )
            name = self.name_of(what, first)
            found = self.error(what, first.line, f"{what}-{first.code}", first.at, rest, name)
            self.add(replace(found, periods=items))
        self.count_others(what, len(rows))

    def name_of(self, what: str, fault: Fault) -> Optional[Tuple[str, str]]:
        if fault.kind not in GROUPS or fault.code == 40:
            return None
        name = self.files.name_of("case", GROUPS[fault.kind], fault.unit)
        return None if name is None else (fault.kind, name)

    def warn(
        self, what: str, odd: Union[Oddity, SystemOddity], node: Node, unit: Optional[Tuple[str, str]] = None
    ) -> None:
        text = f"{called(*unit)}: {odd.text}." if unit else f"{odd.text[:1].upper()}{odd.text[1:]}."
        periods = odd.periods if isinstance(odd, SystemOddity) else (odd.period,) if odd.period else ()
        line, (kind, name) = self.read[what].line(node.at), unit or (None, None)
        self.add(
            Finding(
                Level.WARNING,
                odd.rule,
                self.names[what],
                text.replace("?.", "?"),
                line,
                kind,
                name,
                periods,
            )
        )

    def look_at_case(self) -> None:
        root = self.root("case")
        if root is None:
            return
        before = len(self.review.findings)
        self.faults("case", case_faults(root))
        if len(self.review.findings) == before and not self.read["case"].faults:
            try:
                self.case = case_of(self.names["case"], plain(root))
            except HullError as why:  # (the readers are stricter than what was looked for)
                self.add(Finding(Level.ERROR, "case", self.names["case"], str(why)))
        self.look_at_units(root)
        if self.case is not None:
            for odd in (*period_oddities(self.case.periods, self.limits.hours), *capacity_oddities(self.case)):
                self.warn("case", odd, root.members[odd.key])

    def look_at_units(self, root: Node) -> None:
        """The thermal units that are in form, whatever else is wrong."""
        units = self.case.thermal if self.case else readable_units(root)
        check = CostCheck.of(units, self.limits.highest_cost, self.limits.hours)
        nodes = root.members["thermal_generators"].members if units else {}
        for unit in units:
            node = nodes[unit.name]
            for odd in (*oddities(unit, self.limits.hours), *check.oddities(unit)):
                self.warn("case", odd, node.members.get(odd.field, node), ("thermal", unit.name))

    def look_at_schedule(self, shape: Shape) -> None:
        root, case_root = self.root("schedule"), self.root("case")
        plans: Plans = {}
        if root is not None and case_root is not None:
            faults, plans = schedule_shape(root, shape)
            if self.case is not None:
                faults += schedule_rules(self.case, plans, root)
            told = in_megawatts(case_root, root)
            if told:
                left_out = [it for it in faults if it.code in POWER_RULES]
                faults = [it for it in faults if it.code not in POWER_RULES]
                line = left_out[0].line if left_out else None
                rest = f". {len(left_out)} faults follow from that" if len(left_out) > 1 else ""
                text = f"{told[:1].upper()}{told[1:]}{rest}."
                self.add(Finding(Level.ERROR, "schedule-in-megawatts", self.names["schedule"], text, fault=line))
            self.faults("schedule", faults)
        self.look_at_curves(plans)

    def look_at_curves(self, plans: Plans) -> None:
        """Falling slopes, with what they change in the schedule where it is in form."""
        case, root = self.case, self.root("case")
        if case is None or root is None:
            return
        costs: Dict[str, CurveCosts] = {}
        if all(("thermal", it.name) in plans for it in case.thermal) and not self.has_errors():
            schedule = Schedule({key: plan for key, (plan, _) in plans.items()})
            rows = [(unit.name, cost) for unit, cost in costs_by_unit(case, schedule)]
            costs = dict(rows)
            if rows:
                self.review.costs = sum((cost for _, cost in rows[1:]), rows[0][1])
        group = root.members["thermal_generators"]
        found = falls_of(case.thermal, costs, self.limits.hours)
        for fall in found:
            odd = fall.oddity
            self.warn("case", odd, group.members[fall.unit.name].members[odd.field], ("thermal", fall.unit.name))
        if found:
            text = falling_in_sum(len(found), self.review.costs)
            self.warn("case", SystemOddity("falling-slopes-in-sum", "thermal_generators", text), group)

    def has_errors(self) -> bool:
        return any(it.level is Level.ERROR for it in self.review.findings)

    def look_at_prices(self, shape: Shape) -> None:
        root = self.root("prices")
        if root is None:
            return
        before = len(self.review.findings)
        self.faults("prices", prices_faults(root, shape.periods))
        if self.case is None or self.read["prices"].faults or len(self.review.findings) > before:
            return
        prices = prices_of(self.names["prices"], plain(root), shape.periods)
        for odd in price_oddities(prices, self.case, self.limits.hours):
            self.warn("prices", odd, root.members[odd.key])
        if "reserve" not in root.members and any(self.case.reserves):
            text = "the case requires reserve, and there is no list `reserve`: all reserve prices are 0 then"
            self.warn("prices", SystemOddity("no-reserve-prices", "energy", text), root)

    def look_at_mixture(self, shape: Shape) -> None:
        root = self.root("mixture")
        if root is not None:
            self.faults("mixture", mixture_faults(root, shape, self.case))

    def look_at_keys(self, what: str) -> None:
        root = self.root(what)
        if root is None or not set(KEYS[what][()]) & set(root.members):  # (it is another file)
            return
        for path, key, node, near in unknown_keys(what, root):
            place = path_in_words(path)
            meant = f' Is "{near}" meant?' if near else ""
            text = f"{place}: t" if place else "T"
            shown = json.dumps(key, ensure_ascii=False)
            line = self.read[what].line(node.at)
            text = f"{text}he key {shown} is skipped: hull doesn't read it there.{meant}"
            kind, name = unit_on(path) or (None, None)
            self.add(Finding(Level.WARNING, "unknown-key", self.names[what], text, line, kind, name))


def unit_on(path: Path) -> Optional[Tuple[str, str]]:
    """Kind and name of the unit that a path leads through."""
    kinds = {
        **{key: kind for kind, key in GROUPS.items()},
        "thermal": "thermal",
        "renewable": "renewable",
        "bids": "bid",
    }
    return (kinds[str(path[0])], str(path[1])) if len(path) > 1 and path[0] in kinds else None


def as_written(node: Node, text: str) -> object:
    """The value with its numbers as they are written, for sentences of a file that json.loads refuses."""
    if isinstance(node.value, dict):
        return {key: as_written(it, text) for key, it in node.value.items()}
    if isinstance(node.value, list):
        return [as_written(it, text) for it in node.value]
    if isinstance(node.value, (str, bool)) or node.value is None:
        return node.value
    found = TOKEN.match(text, node.at)
    return Written(found.group() if found else str(node.value))


def readable_units(root: Node) -> List[Thermal]:
    """The thermal units of a case that are in form, where not all of the case is."""
    shape, group = shape_of(root), root.members.get("thermal_generators")
    found: List[Thermal] = []
    for name, node in group.members.items() if shape and group else ():
        try:
            assert shape is not None
            found.append(read_thermal(name, Fields("", name, plain(node)), shape.periods))
        except HullError:
            pass
    return found


def look(names: Dict[str, str], limits: Limits = Limits()) -> Review:
    """All that is odd in the files of these names: `case`, and `schedule`, `prices` and `mixture` where they are given."""
    return Look(names, limits).make()


def first_look(names: Dict[str, str], tell: Callable[[str], None], hours: float = 1.0) -> List[str]:
    """The warnings of a tool's files in words, which are told too; HullError with all errors where `hull` would refuse them. A period has so many hours."""
    review = look(names, Limits(hours=hours))
    errors = [it.sentence for it in review.of(Level.ERROR)]
    if errors:
        more = f" And {len(errors) - SHOWN} more: tools/lint.py tells them." if len(errors) > SHOWN else ""
        raise HullError(" ".join(errors[:SHOWN]) + more)
    found = review.lines()
    for line in found:
        tell(line)
    return found
