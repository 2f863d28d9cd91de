"""What a fault most likely comes from, and what to do about it, for the sentences of explain.py and lint.py."""
from __future__ import annotations

import math
import re
from typing import Any, Dict, List, Optional, Sequence, Union

from .cases import Fields, Thermal, read_thermal
from .day_lengths import hint_of_length
from .errors import HullError
from .json_places import path_in_words, path_of
from .json_texts import Refused, parse
from .lint_units import Oddity, ramp_oddities, state_oddities, time_oddities
from .named_files import Files, Written, number_of, written
from .numbers import is_whole, kilowatts

MOST_BYTES = (
    1 << 22
)  # of a larger file neither the place of a fault of the text nor what a unit is like is looked up, which takes long
EXACT = "the case with exact numbers"  # under which it is kept among the values of the files
STANDS_OUT = math.log(3)  # how far a part behind a decimal comma has to be from its neighbours
# What is due at a field that isn't there, or is of another kind; some fields differ by the kind of the unit.
DUE: Dict[object, str] = {
    "time_periods": "the number of periods, 1 to 168",
    "demand": "a list of MW, one for each period",
    "reserves": "a list of the reserve that is required in each period, in MW; zeros where none is",
    "thermal_generators": "an object of thermal units by name; {} where there is none",
    "renewable_generators": "an object of renewable units by name; {} where there is none",
    "must_run": "1 where the unit must run in every period, otherwise 0",
    "power_output_minimum": "its least power when it is on, in MW",
    "power_output_maximum": "its greatest power, in MW",
    ("power_output_minimum", "renewable"): "a list of its least power in each period, in MW",
    ("power_output_maximum", "renewable"): "a list of its greatest power in each period, in MW",
    "ramp_up_limit": "by how many MW its power may rise from one period to the next",
    "ramp_down_limit": "by how many MW its power may fall from one period to the next, as a positive number",
    "ramp_startup_limit": "the most power in the period of a start, in MW: at least its least power",
    "ramp_shutdown_limit": "the most power in the last period before a stop, in MW: at least its least power",
    "time_up_minimum": "for how many periods it stays on once it has started",
    "time_down_minimum": "for how many periods it stays off once it has stopped",
    "power_output_t0": "its power in the period before period 1, in MW; 0 where it is off",
    "unit_on_t0": "1 where it is on before period 1, otherwise 0",
    "time_up_t0": "for how many periods it has been on before period 1; 0 where it is off",
    "time_down_t0": "for how many periods it has been off before period 1; 0 where it is on",
    "startup": "a list of objects with `lag`, the periods off, and `cost`; [] where a start costs nothing",
    "piecewise_production": "a list of points with `mw` and `cost`, what a whole period at that power costs, from the least power to the greatest",
    "blocks": "for each period a list of blocks with `mw` and `price`, the dearest first",
    "energy": "a list of prices per MW and period, one for each period",
    "reserve": "a list of prices per MW and period, one for each period; without it they are 0",
}
LISTS_OF_NUMBERS = ("demand", "reserves", "power_output_minimum", "power_output_maximum", "energy", "reserve")
REMEDIES = {
    23: "Give it as a positive number.",
    26: "Sort the points by power.",
    27: "Add the point at the least or at the greatest power.",
    28: "Sort the items by lag.",
    29: "1 is yes, 0 is no.",
    30: "Are the two swapped?",
    31: "Bids alone are no market.",
    33: "`null` is for a period in which the unit is free.",
    37: "A buyer's dearest block comes first.",
}


def is_quoted_number(found: object) -> bool:
    """Whether a value, or a member of it, is a number between quotes."""
    if isinstance(found, dict):
        return any(map(is_quoted_number, found.values()))
    return (
        isinstance(found, str) and not isinstance(found, Written) and bool(re.fullmatch(r"\s*-?\d[\d.,' ]*\s*", found))
    )


def remedy(code: int, key: str, kind: str, item: int, found: object) -> str:
    """What to do about a field's fault, as a sentence with a space before it; an empty text where the sentence says it all."""
    due = DUE.get((key, kind)) or DUE.get(key)
    if is_quoted_number(found):
        return " Numbers stand without quotes, with a point, and without separators of thousands."
    if code == 21 and item:
        return " Give a number for each period." if key in LISTS_OF_NUMBERS else ""
    if code in (20, 21) and due:
        return f" Due: {due}."
    if code == 23 and key == "reserve":
        return " A price of reserve is 0 or more."
    return f" {REMEDIES[code]}" if code in REMEDIES else ""


def decimal_commas(items: Sequence[object], periods: int) -> str:
    """Which items of a list that is too long are most likely two parts of one number."""
    texts = [str(it) if isinstance(it, Written) else "" for it in items]
    pairs = [
        i for i in range(len(texts) - 1) if re.fullmatch(r"-?\d+", texts[i]) and re.fullmatch(r"\d{1,6}", texts[i + 1])
    ]
    pairs = [i for i in pairs if texts[i] != texts[i + 1]]  # (a number that is there twice was meant twice)
    if len(texts) == 2 * periods and {*range(0, len(texts), 2)} <= set(pairs):
        chosen = list(range(0, len(texts), 2))
    else:
        chosen = sorted(standing_out(texts, pairs)[: len(texts) - periods])
    if not chosen:
        return ""
    named = [
        f"items {i + 1} and {i + 2}, {texts[i]} and {texts[i + 1]}, are most likely {texts[i]}.{texts[i + 1]}"
        for i in chosen
    ]
    more = f", and so with {len(named) - 2} more" if len(named) > 2 else ""
    return f" A decimal comma makes two items of one: {', '.join(named[:2])}{more}. Numbers have a point."


def size_of(text: str) -> float:
    return math.log(1 + abs(float(text))) if text else 0.0


def standing_out(texts: List[str], pairs: List[int]) -> List[int]:
    """The pairs whose second part is far from what stands around it, the farthest first, none beside another."""
    far = {}
    for i in pairs:
        around = [size_of(text) for text in (texts[i], *texts[i + 2 : i + 3])]
        far[i] = abs(size_of(texts[i + 1]) - sum(around) / len(around))
    chosen: List[int] = []
    for i in sorted(far, key=lambda it: -far[it]):
        if far[i] >= STANDS_OUT and not {i - 1, i + 1} & set(chosen):
            chosen.append(i)
    return chosen


def hint_of_items(files: Files, items: Sequence[object]) -> str:
    """Why a list hasn't an item for each period: decimal commas, or a day on which clocks change."""
    found = number_of(files.at("case", "time_periods"))
    if found is None or not is_whole(found):
        return ""
    periods = int(found)
    commas = decimal_commas(items, periods) if len(items) > periods else ""
    changed = hint_of_length(len(items), periods)
    hint = commas or (f" {changed[:1].upper()}{changed[1:]}." if changed else "")
    return hint + ("" if commas else same_lengths(files, len(items)))


def same_lengths(files: Files, found: int) -> str:
    """A question, where demand and reserves both have so many items."""
    lists = [files.at("case", it) for it in ("demand", "reserves")]
    both = all(isinstance(it, list) and len(it) == found for it in lists)
    return f" Demand and reserves have {found} items each: is time_periods to be mended?" if both else ""


def place_in_words(files: Files, what: str, place: int) -> str:
    """Where in the file a fault of the text stands, as the unit, its field and the item; an empty text where it isn't known."""
    if (what, place) not in files.paths:
        data = files.bytes_of(what)
        files.paths[what, place] = path_of(data, place) if len(data) <= MOST_BYTES else ()
    return path_in_words(files.paths[what, place])


def exact_case(files: Files) -> Any:
    """The value of the case's file with exact numbers, read once; None where it is no JSON, or very large."""
    if EXACT not in files.values:
        try:
            data = files.bytes_of("case")
            files.values[EXACT] = parse(data) if len(data) <= MOST_BYTES else None
        except Refused:
            files.values[EXACT] = None
    return files.values[EXACT]


def thermal_of(files: Files, number: int) -> Optional[Thermal]:
    """A thermal unit of the case, as it is read."""
    try:
        value = exact_case(files)
        name, unit = list(value["thermal_generators"].items())[number - 1]
        found: Thermal = read_thermal(name, Fields("", name, unit), int(value["time_periods"]))
        return found
    except (HullError, KeyError, IndexError, TypeError, ValueError, AttributeError):
        return None


def hint_of_rule(files: Files, code: int, kind: str, number: int, period: int) -> str:
    """What in the case a broken rule comes from, where the schedule isn't to blame."""
    if code == 54:
        return demand_hint(files, period)
    unit = thermal_of(files, number) if kind == "thermal" and code in (45, 50, 51, 52) else None
    if unit is None:
        return ""
    found: List[Oddity] = []
    if code == 45:
        found += [*time_oddities(unit), *state_oddities(unit)]
    elif period <= 1 and (code != 50 or period == 0):
        found += state_oddities(unit)
    if code in (51, 52):
        key = "ramp_up_limit" if code == 51 else "ramp_down_limit"
        found += [it for it in ramp_oddities(unit, 1.0) if it.field == key]
    told = "".join(f" In the case {it.text}." for it in found[:2])
    return told.replace("?.", "?")


def demand_hint(files: Files, period: int) -> str:
    """A question, where demand is far above or below all that the units can give."""

    def power_at(*path: Union[str, int]) -> int:
        return kilowatts(number_of(files.at("case", *path)) or 0)

    def numbers_in(group: str) -> range:
        return range(1, len(files.at("case", group) or ()) + 1)

    thermal, renewable = "thermal_generators", "renewable_generators"
    most = sum(power_at(thermal, i, "power_output_maximum") for i in numbers_in(thermal))
    most += sum(power_at(renewable, i, "power_output_maximum", period) for i in numbers_in(renewable))
    demand = power_at("demand", period)
    if not most or not demand or most / 300 < demand < 300 * most:
        return ""
    unit = "kilowatts" if demand > most else "gigawatts"
    return f" In the case demand is {written(files.at('case', 'demand', period))} MW, and all units together give {most / 1e3:g} MW: is demand in {unit}? A case is in megawatts."
