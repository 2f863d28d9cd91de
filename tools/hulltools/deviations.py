"""How far a schedule is from the one from elsewhere that it follows: by unit and period, the farthest first."""
from __future__ import annotations

import csv
import io
from dataclasses import dataclass
from typing import List, Sequence

from .errors import one_line
from .external_schedules import Followed
from .numbers import Kilowatts
from .schedules import Schedule
from .tables import told_apart

ROUNDING = 0.5  # kilowatts: less is what whole numbers make of a power
SAME = 0.0005  # kilowatts: less is what a text of many digits makes of it
TOLD = 5  # how many are told in words
HEADS = ("kind", "unit", "period", "what", "followed_mw", "schedule_mw", "difference_mw")


@dataclass(frozen=True)
class Deviation:
    """A power or reserve that isn't the followed one, in kilowatts."""

    kind: str
    unit: str
    period: int
    what: str
    followed: float
    made: Kilowatts

    @property
    def off(self) -> float:
        return self.made - self.followed

    @property
    def sentence(self) -> str:
        return f"{one_line(self.unit)} in period {self.period}: {self.what} {self.followed / 1e3:g} MW there, {self.made / 1e3:g} MW here"


def deviations(schedule: Schedule, followed: Followed) -> List[Deviation]:
    """All powers and reserves that the file has and the schedule hasn't, the farthest first."""
    found: List[Deviation] = []
    for (kind, name), plan in schedule.plans.items():
        for what, wanted in (("power", followed.power), ("reserve", followed.reserve)):
            if name not in wanted or what == "reserve" and kind != "thermal":
                continue
            rows = zip(wanted[name], getattr(plan, what))
            found += [Deviation(kind, name, t, what, due * 1e3, made) for t, (due, made) in enumerate(rows, 1)]
    return sorted((it for it in found if abs(it.off) > SAME), key=lambda it: -abs(it.off))


def farthest(found: Sequence[Deviation], what: str) -> float:
    return max((abs(it.off) for it in found if it.what == what), default=0.0)


def in_words(found: Sequence[Deviation], name: str, has_powers: bool = True) -> str:
    """What a table of deviations says in a sentence; of a file without powers, that nothing but commitments was followed."""
    off = farthest(found, "power")
    large = [it for it in found if abs(it.off) > ROUNDING]
    reserves = f"; {count(large, 'reserve')} reserves differ" if count(large, "reserve") else ""
    if not has_powers:
        return f"its commitments are those of {name}, which has no powers of the case's units{reserves}"
    if off <= SAME:
        return f"its powers are those of {name}{reserves}"
    if off <= ROUNDING:
        return f"its powers are those of {name} in whole kilowatts, within {off:.3f} kW{reserves}"
    worst = "; ".join(it.sentence for it in [it for it in large if it.what == "power"][:TOLD])
    number = count(large, "power")
    more = "; .." if number > TOLD else ""
    differ = "1 of its powers differs" if number == 1 else f"{number} of its powers differ"
    return f"{differ} from {name} by up to {off / 1e3:g} MW: {worst}{more}{reserves}"


def count(found: Sequence[Deviation], what: str) -> int:
    return sum(it.what == what for it in found)


def table_text(found: Sequence[Deviation]) -> str:
    """The deviations as comma separated values, in megawatts."""
    into = io.StringIO()
    table = csv.writer(into, lineterminator="\n")
    table.writerow(HEADS)
    for row in found:
        powers = (f"{power / 1e3:.6f}" for power in (row.followed, row.made, row.off))
        table.writerow([row.kind, told_apart(row.unit), row.period, row.what, *powers])
    return into.getvalue()
