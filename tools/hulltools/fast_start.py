"""Which units are fast-start, by name or by a rule."""
from dataclasses import dataclass
from typing import List, Optional, Tuple

from .cases import Case, Thermal
from .errors import HullError, one_line


@dataclass(frozen=True)
class FastStart:
    """Which units are fast-start: those of the names, or else those of a minimum up time and start cost up to these.

    With `online_only` a fast-start unit stays off where the schedule has it off.
    """

    names: Optional[Tuple[str, ...]] = None
    most_up: int = 1
    most_cost: Optional[int] = None
    online_only: bool = False

    def has(self, unit: Thermal) -> bool:
        if self.names is not None:
            return unit.name in self.names
        cost = max((cost for _, cost in unit.lags), default=0)
        return unit.min_up <= self.most_up and (self.most_cost is None or cost <= self.most_cost)

    def units(self, case: Case) -> List[Thermal]:
        known = {unit.name for unit in case.thermal}
        wrong = next((name for name in self.names or () if name not in known), None)
        if wrong is not None:
            raise HullError(f'the case has no thermal unit "{one_line(wrong)}"')
        return [unit for unit in case.thermal if self.has(unit)]


def names_told(units: List[Thermal]) -> str:
    """The names of units with commas between; one that has a comma or a double quote itself stands as --fast-start takes it."""
    quoted = {unit.name: unit.name.replace('"', '""') for unit in units}
    return one_line(", ".join(f'"{told}"' if "," in name or told != name else name for name, told in quoted.items()))
