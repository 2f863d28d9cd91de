"""What a look at the files finds: errors, which `hull` refuses, and warnings, which it takes without a word."""
from __future__ import annotations

import json
from dataclasses import dataclass
from enum import Enum
from typing import Iterable, List, Optional, Tuple

from .errors import one_line

KIND_WORDS = {"thermal": "thermal unit", "renewable": "renewable unit", "bid": "bid"}


class Level(Enum):
    ERROR = "error"
    WARNING = "warning"


@dataclass(frozen=True)
class Finding:
    """One thing that is odd: its rule, the file and line, the unit and periods that it is told of, and a sentence."""

    level: Level
    rule: str
    file: str
    text: str
    line: Optional[int] = None
    kind: Optional[str] = None
    unit: Optional[str] = None
    periods: Tuple[int, ...] = ()
    fault: Optional[str] = None

    @property
    def sentence(self) -> str:
        place = f", line {self.line}" if self.line else ""
        return str(one_line(f"{self.level.value}: {self.file}{place}: {self.text}"))

    def as_json(self) -> dict[str, object]:
        return {
            "level": self.level.value,
            "rule": self.rule,
            "file": self.file,
            "line": self.line,
            "kind": self.kind,
            "unit": self.unit,
            "periods": list(self.periods),
            "text": self.text,
            "fault": self.fault,
        }


def called(kind: str, name: str) -> str:
    """A unit with its kind and name, as it begins a sentence."""
    return f"{KIND_WORDS[kind]} {json.dumps(name, ensure_ascii=False)}"


def megawatts(power: float) -> str:
    """A power in kilowatts as megawatts, for people."""
    return f"{power / 1e3:,.3f}".rstrip("0").rstrip(".") + " MW"


def per_mwh(slope: float, hours: float) -> str:
    """Millionths per kilowatt and period, which has so many hours, as the currency per MWh, for people."""
    return f"{slope / 1e3 / hours:,.2f}"


def ranges(numbers: Iterable[int]) -> str:
    """Numbers in rising order, with runs of three and more drawn together: '1, 2, 5 to 9'."""
    runs: List[List[int]] = []
    for number in sorted(set(numbers)):
        if runs and runs[-1][-1] == number - 1:
            runs[-1].append(number)
        else:
            runs.append([number])
    parts = [f"{run[0]} to {run[-1]}" if len(run) > 2 else ", ".join(map(str, run)) for run in runs]
    return ", ".join(parts[:12]) + (", .." if len(parts) > 12 else "")


def names_of(names: List[str], most: int = 12) -> str:
    """Names for people, cut where there are many."""
    return ", ".join(names[:most]) + (f", and {len(names) - most} more" if len(names) > most else "")
