"""A fault of the form of a schedule or of a mixture, in words."""
import difflib
import json
from dataclasses import dataclass
from typing import Any, Optional

from .day_lengths import hint_of_length
from .named_files import GROUPS, PLAN_GROUPS, Files, number_of, plan_of, who, written

KINDS = {"thermal": "a thermal unit", "renewable": "a renewable unit", "bid": "a bid"}
# What to do about a unit of the case that isn't in the schedule.
LISTED = {
    "thermal": "a unit that stays off is listed with zeros",
    "renewable": "a list with its power in each period is due",
    "bid": "a buyer that buys nothing is listed with zeros",
}
SHARES = " Weights are whole, and no shares of 1: a share of 0.33 is 33 where the outermost weight is 100."


@dataclass
class Place:
    """The unit or bid of a schedule or a mixture that a fault is told of; kind `case` is the whole file."""

    files: Files
    what: str
    kind: str
    number: int
    entry: Optional[int] = None

    @property
    def name(self) -> str:
        if self.kind not in GROUPS:
            return "the whole"
        return who(self.files, self.kind, self.number) + (f", entry {self.entry}" if self.entry else "")

    @property
    def plan(self) -> Any:
        return plan_of(self.files, self.what, self.kind, self.number, self.entry)

    @property
    def periods(self) -> str:
        found = self.files.at("case", "time_periods")
        return "periods" if found is None else f"{written(found)} periods"


def told_shape(
    files: Files, what: str, code: int, kind: str, number: int, item: int, entry: Optional[int] = None
) -> str:
    told = {40: told_unknown, 41: told_missing, 42: told_form, 43: told_number, 62: told_weight}[code]
    return told(Place(files, what, kind, number, entry), item)


def told_unknown(at: Place, item: int) -> str:
    """Code 40; the number counts the names of the file itself."""
    name = at.files.name_of(at.what, PLAN_GROUPS.get(at.kind, ""), at.number)
    text = f"{who(at.files, at.kind, at.number, at.what)}: the case has no unit of that name and kind."
    other = next((it for it in GROUPS if name in members_of(at.files, it)), None)
    if other is None:
        return text + nearest_name(at.files, name, at.kind)
    due = (
        "only thermal units have entries in a mixture"
        if at.what == "mixture"
        else f"`{PLAN_GROUPS[other]}` is where it is listed"
    )
    return f"{text} It has {KINDS[other]} of that name: {due}."


def members_of(files: Files, kind: str) -> dict[str, Any]:
    found = files.at("case", GROUPS.get(kind, ""))
    return found if isinstance(found, dict) else {}


def nearest_name(files: Files, given: Optional[str], kind: str) -> str:
    """A question after the case's unit whose name is like the given one, where there is one."""
    names = {it.casefold(): it for it in members_of(files, kind)}
    near = difflib.get_close_matches((given or "").casefold(), names, 1)
    return f" Is {json.dumps(names[near[0]], ensure_ascii=False)} meant?" if near else ""


def told_missing(at: Place, item: int) -> str:
    """Code 41."""
    due = "each thermal unit needs an entry, if only one that is off" if at.what == "mixture" else LISTED[at.kind]
    return f"{at.name} isn't in {at.files.told(at.what)}: {due}."


def told_form(at: Place, item: int) -> str:
    """Code 42: of the whole file, of a unit, or of an entry."""
    if at.kind not in GROUPS:
        return told_whole(at)
    plan = at.plan
    if at.what == "mixture" and not at.entry:
        return f"{at.name}: a list of entries is due, one at least.{found_text(plan)}"
    if at.kind != "thermal" and isinstance(plan, dict):
        return f"{at.name}: a plain list with an item for each of the {at.periods} is due, and no object.{found_text(plan)}"
    if at.kind != "thermal":
        return (
            f"{at.name} hasn't a list with an item for each of the {at.periods}.{found_text(plan)}{day_text(at, plan)}"
        )
    if plan is not None and not isinstance(plan, dict):
        return f"{at.name}: an object with the lists `on`, `power` and `reserve` is due.{found_text(plan)}"
    return f"{at.name} hasn't the lists that are due, with an item for each of the {at.periods}{lacking_of(at, plan)}.{found_text(plan)}{day_text(at, plan)}"


def lacking_of(at: Place, plan: Any) -> str:
    """Which member of a thermal unit's plan, or of an entry, isn't there."""
    due = ("weight", "on", "power", "reserve") if at.entry else ("on", "power", "reserve")
    return "".join(f": `{it}` isn't there" for it in due if plan is not None and it not in plan)


def found_text(plan: Any) -> str:
    """What stands there: of lists their lengths."""
    if isinstance(plan, dict):
        lists = [f"{key} with {len(it)} items" for key, it in plan.items() if isinstance(it, list)]
        return f" Found: {', '.join(lists)}." if lists else f" Found: {written(plan)}."
    if isinstance(plan, list):
        return f" Found: a list with {len(plan)} items."
    return "" if plan is None else f" Found: {written(plan)}."


def day_text(at: Place, plan: object) -> str:
    """Which day a plan's lists may be of, where clocks change."""
    lists = list(plan.values()) if isinstance(plan, dict) else [plan]
    lengths = {len(it) for it in lists if isinstance(it, list)}
    periods = number_of(at.files.at("case", "time_periods"))
    told = hint_of_length(lengths.pop(), int(periods)) if len(lengths) == 1 and periods is not None else None
    return f" {told[:1].upper()}{told[1:]}." if told else ""


def told_whole(at: Place) -> str:
    """Code 42 of a whole file: which of its members isn't there, or is of another kind."""
    has_bids = bool(members_of(at.files, "bid"))
    due = ("weight", "thermal") if at.what == "mixture" else ("thermal", "renewable", *(("bids",) if has_bids else ()))
    value = at.files.value(at.what)
    text = f"the whole isn't an object with {', '.join(f'`{it}`' for it in due[:-1])} and `{due[-1]}`"
    if isinstance(value, dict):
        wrong = next((it for it in due if it not in value or it != "weight" and not isinstance(value[it], dict)), None)
        if wrong is not None:
            why = "isn't there" if wrong not in value else "isn't an object by the names of units"
            text = f"`{wrong}` {why}" + (", and the case has bids" if wrong == "bids" else "")
        swapped = " Are the files swapped? This one is a case." if "time_periods" in value else ""
        return f"{text}.{swapped}"
    return f"{text}.{found_text(value)}"


def told_number(at: Place, item: int) -> str:
    """Code 43."""
    plan, found, hint = at.plan, "", ""
    lists = {key: plan.get(key) for key in ("on", "power", "reserve")} if isinstance(plan, dict) else {"power": plan}
    cells = {key: written(it[item - 1]) for key, it in lists.items() if isinstance(it, list) and 1 <= item <= len(it)}
    if cells:
        found = " Found: " + ", ".join(f"{key} {it}" for key, it in cells.items()) + "."
    if any("." in it for key, it in cells.items() if key != "on"):
        hint = " Powers are whole kilowatts: are these megawatts?"
    return f"{at.name}: item {item} of a list isn't a whole number of kilowatts from 0 to 1,000,000,000, or a flag 0 or 1.{found}{hint}"


def told_weight(at: Place, item: int) -> str:
    """Code 62: of the outermost weight, of an entry's, or of the sum of a unit's."""
    outermost = at.files.at(at.what, "weight")
    if at.kind not in GROUPS:
        return f"the outermost weight{why_no_weight(outermost, 1, '1,000,000,000,000')}"
    if at.entry:
        weight = at.plan.get("weight") if isinstance(at.plan, dict) else None
        most = "the outermost weight" + (f", {written(outermost)}" if outermost is not None else "")
        return f"{at.name}: its weight{why_no_weight(weight, 0, most)}"
    rows = at.plan if isinstance(at.plan, list) else []
    weights = [it.get("weight") for it in rows if isinstance(it, dict)]
    numbers = [number_of(it) for it in weights]
    if not numbers or None in numbers or outermost is None:
        return f"{at.name}: its weights don't sum to the outermost one."
    terms = " + ".join(str(weight) for weight in weights[:20]) + (" + .." if len(weights) > 20 else "")
    return f"{at.name}: its weights sum to {sum(int(it or 0) for it in numbers)}, and the outermost one is {written(outermost)}. Found: {terms}."


def why_no_weight(value: object, least: int, most: str) -> str:
    """What a weight isn't: a number, whole, or within its range."""
    found = "" if value is None else f" Found: {written(value)}."
    number = number_of(value)
    if value is not None and number is None:
        return f" isn't a number.{found}"
    if number is None:
        return f" isn't a whole number from {least} to {most}."
    if abs(number) < 10**20 and number != number.to_integral_value():
        return f" isn't a whole number.{found}{SHARES if 0 < number < 1 else ''}"
    return f" isn't within its range, from {least} to {most}.{found}"
