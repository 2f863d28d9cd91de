"""The files that a refused run was given, as they are written, for a fault line in words."""
import json
import os
from collections.abc import Mapping
from dataclasses import dataclass, field
from decimal import Decimal, InvalidOperation
from itertools import islice
from typing import Any, Optional, Union

from .errors import Name
from .json_places import Path
from .json_texts import counted, Refused

GROUPS = {"thermal": "thermal_generators", "renewable": "renewable_generators", "bid": "demand_bids"}
MOST_ALIKE = 4  # how many items of one value are shown
PLAN_GROUPS = {"thermal": "thermal", "renewable": "renewable", "bid": "bids"}
WHOLE_FILES = {
    "case": "the case",
    "schedule": "the schedule",
    "report": "the report",
    "prices": "the prices",
    "mixture": "the mixture",
}


@dataclass
class Files:
    """The names of the files that the run was given, and what they hold, as far as they can be read.

    `shown` has what a sentence calls a file, where this isn't its name. `held` has contents, and `paths` where in a
    file the fault at a byte stands, as far as these are known.
    """

    names: Mapping[str, Name]
    values: dict[str, Any] = field(default_factory=dict)
    shown: Mapping[str, str] = field(default_factory=dict)
    held: dict[str, bytes] = field(default_factory=dict)
    paths: dict[tuple[str, int], Path] = field(default_factory=dict)

    def told(self, what: str) -> str:
        """What a sentence calls the file."""
        if what in self.shown:
            return self.shown[what]
        return os.fspath(self.names[what]) if what in self.names else WHOLE_FILES.get(what, f"the {what}")

    def bytes_of(self, what: str) -> bytes:
        """The contents of a file, which is read once; none where it can't be read."""
        if what not in self.held:
            try:
                with open(self.names[what], "rb") as file:
                    self.held[what] = file.read(1 << 27)
            except (OSError, KeyError, ValueError):
                self.held[what] = b""
        return self.held[what]

    def is_empty(self, what: str) -> bool:
        try:
            return os.path.getsize(self.names[what]) == 0
        except (OSError, KeyError, ValueError):
            return False

    def value(self, what: str) -> Any:
        """The JSON value of a file with its numbers as they are written; None where it can't be read."""
        if what not in self.values:
            try:
                text = self.bytes_of(what).decode("utf-8")
                self.values[what] = json.loads(text, parse_float=Written, parse_int=Written, parse_constant=Written)
            except (ValueError, RecursionError):
                self.values[what] = None
        return self.values[what]

    def at(self, what: str, *path: Union[str, int]) -> Any:
        """What stands at a path of keys and of places from 1; None where nothing does."""
        found = self.value(what)
        for step in path:
            if isinstance(found, dict) and isinstance(step, str):
                found = found.get(step)
            elif isinstance(found, (list, dict)) and isinstance(step, int):
                rows = found.values() if isinstance(found, dict) else found
                found = next(islice(rows, step - 1, None)) if 1 <= step <= len(rows) else None
            else:
                return None
        return found

    def name_of(self, what: str, group: str, number: int) -> Optional[str]:
        members = self.at(what, group)
        names = members if isinstance(members, dict) else ()
        return next(islice(names, number - 1, None)) if 1 <= number <= len(names) else None


class Written(str):
    """A number as its file has it."""


def number_of(value: object) -> Optional[Decimal]:
    """A number of a file, or None where it is none, or has more digits or a larger exponent than `hull` reads."""
    try:
        found = Decimal(counted(value)) if isinstance(value, Written) else Decimal("nan")
    except (Refused, InvalidOperation):
        return None
    return found if found.is_finite() else None


def written(value: object, levels: int = 8) -> str:
    """A value as a file would have it, cut where it is long or deep."""
    if isinstance(value, Written):
        return str(value) if len(value) <= 120 else value[:117] + "..."
    if isinstance(value, (list, dict)) and not levels:
        return "..."
    if isinstance(value, list) and len(value) > MOST_ALIKE and all(it == value[0] for it in value):
        return f"[{written(value[0], levels - 1)}, ..]"
    if isinstance(value, list):
        text = f"[{', '.join(written(it, levels - 1) for it in value[:200])}]"
    elif isinstance(value, dict):
        members = list(value.items())[:50]
        rows = (f"{json.dumps(key, ensure_ascii=False)}: {written(it, levels - 1)}" for key, it in members)
        text = f"{{{', '.join(rows)}}}"
    else:
        text = json.dumps(value, ensure_ascii=False)
    return text if len(text) <= 120 else text[:117] + "..."


def who(files: Files, kind: str, number: int, place_in: str = "case") -> str:
    """A unit with its name, by its number within its kind."""
    group = (GROUPS if place_in == "case" else PLAN_GROUPS)[kind]
    name = files.name_of(place_in, group, number)
    told = f" {json.dumps(name, ensure_ascii=False)}" if name is not None else ""
    return f"{kind} unit{told} (number {number})" if kind != "bid" else f"bid{told} (number {number})"


class Known(dict[str, Any]):
    """What isn't known is told as such."""

    def __missing__(self, key: str) -> str:
        return "what the case says"


def plan_of(files: Files, what: str, kind: str, number: int, entry: Optional[int] = None) -> Any:
    """What a schedule or a mixture has of a unit of the case, or of an entry of it; None where nothing is."""
    unit = files.name_of("case", GROUPS.get(kind, ""), number)
    found = files.at(what, PLAN_GROUPS.get(kind, ""), unit) if unit is not None else None
    return found[entry - 1] if entry and isinstance(found, list) and entry <= len(found) else found
