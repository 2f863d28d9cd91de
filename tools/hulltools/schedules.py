"""A schedule file: whole kilowatts. Whether the rules of the case are kept is for `hull check` to say."""
from __future__ import annotations

import json
import os
from collections.abc import Callable, Sequence
from dataclasses import dataclass
from typing import TYPE_CHECKING, Any, Optional, Union, cast

from .cases import Case, POWER, Unit
from .json_texts import is_number, read_json, refused_as
from .numbers import is_whole, Kilowatts
from .errors import HullError, Name, one_line, write_whole
from .options import FieldsAlone, is_flag, is_row, is_plain_whole, is_whole_number, member, refuse_backward, told_value

if TYPE_CHECKING:
    from pandas import DataFrame

    from .inputs import GivenCase

Fault = Callable[[str], HullError]  # makes the error of a text


@dataclass(eq=False)
class Plan(FieldsAlone):
    """What one unit or bid is to do: an on flag, a power and a reserve for each period, in kilowatts."""

    on: list[int]
    power: list[Kilowatts]
    reserve: list[Kilowatts]


def flat_plan(power: list[Kilowatts]) -> Plan:
    """The plan of a renewable unit or a bid, which is always on and keeps no reserve."""
    return Plan([1] * len(power), power, [Kilowatts(0)] * len(power))


PLAN = {"on": "", "power": "kilowatts", "reserve": "kilowatts"}  # its lists, and what their numbers count


@refused_as("schedule")
def written(kind: str, name: str, key: str, numbers: Any) -> list[int]:
    """A list of a plan as its file has it. What a script has set may be an array, a series or whole floating numbers."""
    where, of = f'the schedule given: {kind} "{one_line(name)}": {key}', PLAN[key]
    if not is_row(numbers):
        raise HullError(f"{where} is {told_value(numbers)}: a list of a number for each period is due", unit=name)
    refuse_backward(where, numbers)
    found = [int(number) if key == "on" and is_flag(number) else number for number in numbers]
    wrong = next((t for t, number in enumerate(found, 1) if not is_whole_number(number)), None)
    if wrong is not None:
        due = f"a whole number{' of ' * bool(of)}{of} is due"
        raise HullError(f"{where} of period {wrong} is {told_value(found[wrong - 1])}: {due}", unit=name, period=wrong)
    return [int(number) for number in found]


@refused_as("schedule")
def refuse_more_than_powers(kind: str, name: str, plan: Plan) -> None:
    """Refuses an off flag or a reserve that a script has set of a renewable unit or a bid, which has powers alone."""
    for key, usual in (("on", 1), ("reserve", 0)):
        numbers = written(kind, name, key, getattr(plan, key))
        odd = next((t for t, number in enumerate(numbers, 1) if number != usual), None)
        if odd is not None:
            told = f'the schedule given: {kind} "{one_line(name)}": {key} of period {odd} is {numbers[odd - 1]}'
            due = (
                "which a thermal unit alone can have: a power of 0 is off"
                if key == "on"
                else "and a thermal unit alone keeps reserve"
            )
            raise HullError(f"{told}, {due}", unit=name, period=odd)


@dataclass(repr=False, eq=False)
class Schedule(FieldsAlone):
    """A plan for each unit and bid, by kind and name."""

    plans: dict[tuple[str, str], Plan]

    def __repr__(self) -> str:
        periods = max((len(plan.on) for plan in self.plans.values()), default=0)
        return f"<Schedule: periods={periods}, units={len(self.plans)}>"

    def plan(self, kind: Optional[str] = None, name: Optional[str] = None) -> Plan:
        """The plan of a unit or bid; a name of one kind needs no kind before it. Raises `HullError` where there is none."""
        return member(self.plans, kind, name, "the schedule")

    def with_plain_numbers(self) -> Schedule:
        """The schedule with lists of plain whole numbers. A script may have set arrays or series, which have an index of their own, and numbers of others."""
        lists = [getattr(plan, key) for plan in self.plans.values() for key in PLAN]
        if all(isinstance(it, list) and is_plain_whole(it) for it in lists):
            return self
        plans: dict[tuple[str, str], Plan] = {}
        for (kind, name), plan in self.plans.items():
            on, power, reserve = (written(kind, name, key, getattr(plan, key)) for key in PLAN)
            plans[kind, name] = Plan(on, kilowatt_list(power), kilowatt_list(reserve))
        return Schedule(plans)

    def as_json(self) -> dict[str, dict[str, Any]]:
        """The form of its file. Lists may be arrays or series; raises `HullError` where one has what isn't a whole number."""
        found: dict[str, dict[str, Any]] = {"thermal": {}, "renewable": {}}
        for (kind, name), plan in self.plans.items():
            if kind == "thermal":
                found[kind][name] = {key: written(kind, name, key, getattr(plan, key)) for key in PLAN}
            else:
                refuse_more_than_powers(kind, name, plan)
                found.setdefault("bids" if kind == "bid" else kind, {})[name] = written(kind, name, "power", plan.power)
        return found

    def frame(self) -> DataFrame:
        """A row for each unit and period, as a data frame of pandas: `unit`, `period`, `on`, and in megawatts `power` and `reserve`, as `follow_schedule` takes it."""
        from .tables import load_pandas

        rows = [
            (name, t, on, power / 1e3, reserve / 1e3)
            for (_, name), plan in self.with_plain_numbers().plans.items()
            for t, (on, power, reserve) in enumerate(zip(plan.on, plan.power, plan.reserve), 1)
        ]
        return load_pandas().DataFrame(rows, columns=["unit", "period", "on", "power", "reserve"])

    def text(self) -> str:
        return json.dumps(self.as_json(), ensure_ascii=False) + "\n"

    def write(self, name: Name, inputs: Sequence[str] = ()) -> None:
        write_whole(name, self.text(), inputs)


def whole_numbers(value: Any, periods: int, most: int, told: Fault) -> list[int]:
    """The list as whole numbers from 0 to `most`, one for each period; `told` makes the fault of a text."""
    if not isinstance(value, list) or len(value) != periods:
        raise told("isn't a list of a number for each period")
    for t, given in enumerate(value, 1):
        if not is_number(given) or not is_whole(given) or not 0 <= given <= most:
            raise told(f"has in period {t} no whole number from 0 to {most:,}")
    return [int(it) for it in value]


def kilowatt_list(numbers: list[int]) -> list[Kilowatts]:
    """The same numbers, which are known to be kilowatts."""
    return cast("list[Kilowatts]", numbers)


def thermal_plan(value: Any, periods: int, told: Fault) -> Plan:
    """The plan of a thermal unit's object; other keys are skipped."""
    if not isinstance(value, dict):
        raise told("isn't an object")

    def numbers(key: str, most: int) -> list[int]:
        return whole_numbers(value.get(key), periods, most, lambda what: told(f"{key} {what}"))

    return Plan(numbers("on", 1), kilowatt_list(numbers("power", POWER)), kilowatt_list(numbers("reserve", POWER)))


def group_of(name: Name, value: dict[str, Any], key: str, units: set[str], needed: bool) -> dict[str, Any]:
    """The members of `thermal`, `renewable` or `bids`, which are those of the case."""
    found = value.get(key)
    if found is None and key not in value and not needed:
        return {}
    if not isinstance(found, dict):
        raise HullError(f"{name}: no schedule: {key} isn't an object of lists by name")
    for unit in found:
        if unit not in units:
            raise HullError(f'{name}: the case has no unit "{one_line(unit)}" under {key}', unit=unit)
    for unit in units:
        if unit not in found:
            raise HullError(f'{name}: the unit "{one_line(unit)}" of the case isn\'t under {key}', unit=unit)
    return found


def teller_of(name: Name, kind: str, unit: Unit) -> Fault:
    """Makes errors that are told of the unit."""
    return lambda what: HullError(f'{name}: {kind} "{one_line(unit.name)}": {what}', unit=unit.name)


def plan_of(value: Any, kind: str, periods: int, told: Fault) -> Plan:
    """The plan of a unit or bid of the kind, as a schedule file has it."""
    if kind == "thermal":
        return thermal_plan(value, periods, told)
    return flat_plan(kilowatt_list(whole_numbers(value, periods, POWER, told)))


@refused_as("schedule")
def schedule_of(name: Name, value: Any, case: Case) -> Schedule:
    """The schedule of a JSON value for a case."""
    if not isinstance(value, dict):
        raise HullError(f"{name}: no schedule: it isn't an object")
    plans: dict[tuple[str, str], Plan] = {}
    kinds: list[tuple[str, str, Sequence[Unit]]] = [
        ("thermal", "thermal", case.thermal),
        ("renewable", "renewable", case.renewable),
        ("bid", "bids", case.bids),
    ]
    for kind, key, units in kinds:
        found = group_of(name, value, key, {it.name for it in units}, kind != "bid" or bool(case.bids))
        for unit in units:
            plans[kind, unit.name] = plan_of(found[unit.name], kind, case.periods, teller_of(name, kind, unit))
    return Schedule(plans)


def refuse_swapped(case: Any) -> None:
    """Refuses a schedule that is given for the case, as where the two are in the order of the other calls."""
    value: Any = case
    if isinstance(case, (str, os.PathLike)):
        value = read_json(case, "a case") if os.path.isfile(case) else None
    is_plan = isinstance(value, dict) and "thermal" in value and "time_periods" not in value
    if is_plan or isinstance(case, Schedule):
        what = one_line(os.fspath(case)) if isinstance(case, (str, os.PathLike)) else "the case given"
        raise HullError(
            f"{what}: this is a schedule. Are the two swapped? The schedule comes first here, and then its case"
        )


def read_schedule(name: Union[Name, dict[str, Any]], case: GivenCase) -> Schedule:
    """The schedule of a file, or of a dict as the file has it, for a case: for each unit and bid an on flag, a power and a reserve in each period, in whole kilowatts.

    The case is an object, a dict, or a file's name. Raises `HullError` where docs/FORMATS.md refuses the file, or where its units aren't those of the case. It may break a rule: see `check`.
    """
    from .inputs import as_case, as_schedule

    try:
        read = as_case(case)
    except HullError:
        refuse_swapped(case)
        raise
    return as_schedule(name, read) if isinstance(name, dict) else schedule_of(name, read_json(name, "a schedule"), read)
