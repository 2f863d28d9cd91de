"""What a conversion leaves out, assumes or changes: nothing is left out without a note."""
from __future__ import annotations

from dataclasses import dataclass, field
from enum import Enum
from typing import Any, Dict, List, Optional, Tuple

from ..errors import HullError, one_line
from ..lint_findings import names_of

Object = Dict[str, Any]


class Kind(Enum):
    LEFT_OUT = "left out"
    ASSUMED = "assumed"
    CHANGED = "changed"


@dataclass
class Notes:
    """Notes by kind and text, each with the names that it is told of."""

    rows: Dict[Tuple[Kind, str], List[str]] = field(default_factory=dict)

    def add(self, kind: Kind, text: str, name: Optional[str] = None) -> None:
        names = self.rows.setdefault((kind, text), [])
        if name is not None and name not in names[-1:]:  # (a unit may have several parts of which one thing is said)
            names.append(name)

    def left_out(self, text: str, name: Optional[str] = None) -> None:
        self.add(Kind.LEFT_OUT, text, name)

    def assumed(self, text: str, name: Optional[str] = None) -> None:
        self.add(Kind.ASSUMED, text, name)

    def changed(self, text: str, name: Optional[str] = None) -> None:
        self.add(Kind.CHANGED, text, name)

    def lines(self) -> List[str]:
        """The notes in words, what was left out first."""
        rows = sorted(self.rows.items(), key=lambda row: list(Kind).index(row[0][0]))
        return [
            str(one_line(f"{kind.value}: {text}" + (f" ({len(names)}: {names_of(names)})" if names else "")))
            for (kind, text), names in rows
        ]

    def as_json(self) -> List[Object]:
        return [{"kind": kind.value, "what": text, "names": names} for (kind, text), names in self.rows.items()]


class Taken:
    """An object of a file whose members are taken one by one; `rest` notes those that nobody took."""

    def __init__(self, value: Object, group: str, name: Optional[str], notes: Notes):
        if not isinstance(value, dict):
            raise HullError(f"{group}{'' if name is None else f', {one_line(name)}'}: an object is due")
        self.value, self.group, self.name, self.notes = value, group, name, notes
        self.seen: set[str] = set()

    def take(self, key: str, default: Any = None) -> Any:
        """The member, or the default where it isn't there or null."""
        self.seen.add(key)
        found = self.value.get(key)
        return default if found is None else found

    def first(self, *keys: str) -> Any:
        """The first of these members that is there."""
        return next((it for it in map(self.take, keys) if it is not None), None)

    def object(self, key: str) -> Object:
        found = self.take(key, {})
        if not isinstance(found, dict):
            raise HullError(f"{self.group}: `{one_line(key)}` is no object")
        return found

    def list(self, key: str, default: List[Any]) -> List[Any]:
        found = self.take(key, default)
        if not isinstance(found, list):
            raise HullError(f"{self.group}, {one_line(self.name or '')}: `{one_line(key)}` is no list")
        return found

    def drop(self, text: str, *keys: str) -> None:
        """Notes the members that are there as left out, under one text."""
        for key in keys:
            if self.take(key) not in (None, False, [], {}):
                self.notes.left_out(text, self.name)

    def rest(self) -> None:
        for key in self.value:
            if key not in self.seen:
                self.notes.left_out(f"{self.group}: the field `{key}`", self.name)
