"""The text of a case: numbers as they were written, a line for each unit, fields in the order of docs/FORMATS.md."""
from __future__ import annotations

import json
from decimal import Decimal
from typing import Any, List, Sequence, Set

from ..errors import HullError, shown_name
from ..json_texts import Refused, parse
from ..lint_keys import THERMAL
from ..named_files import Written
from .notes import Notes, Object, Taken

LIMITS = [it for it in THERMAL if it not in ("startup", "piecewise_production", "commitment", "name")]


def number_text(value: Any) -> str:
    """A number as a file has it: as it was written, or without an exponent and zeros at the end."""
    if isinstance(value, (Written, int)):
        return str(value)
    text = format(Decimal(value), "f")
    return text.rstrip("0").rstrip(".") if "." in text else text


def value_text(value: Any) -> str:
    """A value in one line."""
    if isinstance(value, dict):
        return "{" + ", ".join(f"{name_text(key)}: {value_text(it)}" for key, it in value.items()) + "}"
    if isinstance(value, list):
        return "[" + ", ".join(value_text(it) for it in value) + "]"
    is_text = isinstance(value, str) and not isinstance(value, Written)
    return (
        json.dumps(value, ensure_ascii=False)
        if is_text or isinstance(value, (bool, type(None)))
        else number_text(value)
    )


def name_text(name: str) -> str:
    return json.dumps(name, ensure_ascii=False)


def case_text(case: Object) -> str:
    """The file: a line for each of the case's keys, and one for each unit."""
    rows: List[str] = []
    for key, value in case.items():
        if isinstance(value, dict) and value:
            units = ",\n".join(f"{name_text(name)}: {value_text(unit)}" for name, unit in value.items())
            rows.append(f"{name_text(key)}: {{\n{units}\n}}")
        else:
            rows.append(f"{name_text(key)}: {value_text(value)}")
    return "{" + ",\n".join(rows) + "}\n"


def written_json(data: bytes, name: str) -> Any:
    """The value of a JSON text in the profile of docs/FORMATS.md, with its numbers as they are written."""
    try:
        parse(data)
    except Refused as why:
        raise HullError(f"{name}: no JSON text: {why}") from None
    return json.loads(data, parse_float=Written, parse_int=Written)


def read_hull(data: bytes, name: str, notes: Notes) -> Object:
    """A case of `hull`, with its fields in order; keys that `hull` skips are noted."""
    value = written_json(data, shown_name(name))
    if not isinstance(value, dict):
        raise HullError(f"{shown_name(name)}: no case: it isn't an object")
    top = Taken(value, "the case", None, notes)
    case: Object = {}
    for key in (it for it in CASE_KEYS if it in value):
        is_group = key in GROUPS and isinstance(value[key], dict)
        # (what has another form, or isn't there, stays so, for its fault to be told)
        case[key] = members(top, key, GROUPS[key], notes) if is_group else value[key]
        top.seen.add(key)
    top.rest()
    return case


RENEWABLE = ["power_output_minimum", "power_output_maximum"]
GROUPS = {"thermal_generators": THERMAL, "renewable_generators": RENEWABLE, "demand_bids": ["blocks"]}
CASE_KEYS = ("time_periods", "demand", "reserves", *GROUPS)
ITEMS = {"startup": ("lag", "cost"), "piecewise_production": ("mw", "cost"), "blocks": ("mw", "price")}


def members(top: Taken, key: str, fields: List[str], notes: Notes) -> Object:
    """The units of a kind, each with these fields in this order."""
    found: Object = {}
    for name, fields_of in top.object(key).items():
        unit = Taken(fields_of if isinstance(fields_of, dict) else {}, key, name, notes)
        found[name] = {field: unit.take(field) for field in fields if field in unit.value and field != "name"}
        for field in filter(ITEMS.__contains__, list(found[name])):
            skipped: Set[str] = set()
            found[name][field] = with_known_keys(found[name][field], ITEMS[field], skipped)
            for other in sorted(skipped):
                notes.left_out(f"{key}, {field}: the field `{other}`", name)
        if unit.take("name") not in (None, name):
            notes.left_out(f"{key}: the field `name`, which isn't the unit's", name)
        unit.rest()
    return found


def with_known_keys(value: Any, keys: Sequence[str], skipped: Set[str]) -> Any:
    """A list whose items have these keys alone, with the others among those skipped; what has another form stays, for its fault to be told."""
    if isinstance(value, list):
        return [with_known_keys(it, keys, skipped) for it in value]
    if not isinstance(value, dict):
        return value
    skipped.update(value.keys() - set(keys))
    return {key: value[key] for key in keys if key in value}
