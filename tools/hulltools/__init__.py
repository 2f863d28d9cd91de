"""Tools around `hull`: files and texts, calls of the program, optimisers, tables and pages.

    import hulltools
    settled = hulltools.settle("case.json", "schedule.json", hulltools.per_mwh(98))
    settled.payments                # millionths of the currency
    settled.frames()["units"]       # a data frame of pandas, in the currency and MW

Calls take names of files, objects of this package, or dicts as the files have them. A `Convex`, a `Settlement` or a
`Report` is taken for its prices. What a file or a text has wrong, or the program refuses, is raised as `HullError`,
which says it in a sentence. docs/PYTHON.md is the way in.
"""
from __future__ import annotations

import re
from typing import TYPE_CHECKING, Any, List, Mapping, Optional, Union

from . import faults
from .cases import Bid, Case, Factor, Renewable, Thermal, read_case
from .errors import CannotBeMet, HullError, Name, OverTime, Tell
from .faults import Files
from .inputs import (
    GivenCase,
    GivenMixture,
    GivenPowers,
    GivenPrices,
    GivenSchedule,
    GivenZones,
    PerMwh,
    is_name,
    per_mwh,
)
from .mixtures import Entry, Mixture, read_mixture
from .named_texts import GivenTexts, Money
from .numbers import Kilowatts, Millionths, MillionthsPerKilowatt, in_currency, in_currency_per_mw, in_megawatts
from .outputs import Bound, Certificate, Convex, Fixed, Owed, Report, Row, Settlement, Side, Text, frames
from .prices import FlatPrices, Prices, PriceSource, prices_near, read_prices
from .program import Hull
from .read_texts import read_output
from .schedules import Plan, Schedule, read_schedule
from .tables import Start, Table
from .zones import Zonal, Zones

if TYPE_CHECKING:
    from .calls import (
        convex_prices,
        elmp,
        follow_schedule,
        integer_relaxation,
        lmp,
        make_schedule,
        settle_zones,
        study,
    )
    from .deviations import Deviation
    from .gap_parts import GapParts
    from .scheduling import Made
    from .studies import Study

__version__ = "1.0"
FAULT_LINE = re.compile(r"^hull \w+ ended with status \d+: (fault [^\n]+)\s*\Z")  # of a `HullError`
Wrong = HullError  # the name in version 1.0
# What is loaded when it is first used, and the module that has it.
LATER = {
    **dict.fromkeys(("convex_prices", "elmp", "follow_schedule", "integer_relaxation", "lmp"), "calls"),
    **dict.fromkeys(("make_schedule", "settle_zones", "study"), "calls"),
    "Deviation": "deviations",
    "GapParts": "gap_parts",
    "Made": "scheduling",
    "Study": "studies",
}
__all__ = [
    "Bid", "Bound", "CannotBeMet", "Case", "Certificate", "Convex", "Deviation", "Entry", "Factor", "Files", "Fixed", "FlatPrices", "GapParts",
    "GivenCase", "GivenMixture", "GivenPowers", "GivenPrices", "GivenSchedule", "GivenTexts", "GivenZones", "Hull", "HullError",
    "Kilowatts", "Made", "Millionths", "MillionthsPerKilowatt", "Mixture", "Money", "Name", "OverTime", "Owed", "PerMwh", "Plan",
    "PriceSource", "Prices", "Renewable", "Report", "Row", "Schedule", "Settlement", "Side", "Start", "Study", "Table", "Tell", "Text", "Thermal",
    "Wrong", "Zonal", "Zones", "certify", "check", "convex_prices", "elmp", "follow_schedule", "frames", "in_currency",
    "in_currency_per_mw", "in_megawatts", "integer_relaxation", "lmp", "make_schedule", "per_mwh", "price",
    "prices_near", "read_case", "read_mixture", "read_output", "read_prices", "read_schedule", "sentence", "settle",
    "settle_zones", "study",
]  # fmt: skip


def __getattr__(name: str) -> Any:
    """The calls that need SciPy, which is loaded with the first of them, and what they give."""
    if name not in LATER:
        raise AttributeError(f"module {__name__!r} has no attribute {name!r}")
    from importlib import import_module

    return getattr(import_module(f"{__name__}.{LATER[name]}"), name)


def __dir__() -> List[str]:
    """The public names, for an editor or a notebook that completes them, also where SciPy isn't loaded yet."""
    return sorted([*__all__, "__version__"])


def sentence(line: str, files: Union[Files, Mapping[str, Name]]) -> str:
    """A fault line of docs/FAULTS.md in words, with the unit's name, what stands in the file and what is due.

    The line may be that of a `HullError`, which has the fault line at its end. The files are `Files`, or a dict of names by `case`, `schedule`, `prices`, `mixture` and `report`. Raises
    `HullError` where it is no such line, or where a file that it is told of isn't among them or can't be read.
    """
    given = Files(files) if isinstance(files, Mapping) else files
    if not isinstance(given, Files) or not all(is_name(name) for name in given.names.values()):
        raise HullError("files is a dict of files' names, by `case`, `schedule`, `prices`, `mixture` and `report`")
    found = FAULT_LINE.search(line) if isinstance(line, str) else None
    return faults.sentence(found[1] if found else line, given)


def check(case: GivenCase, schedule: GivenSchedule, hull: Optional[Name] = None) -> Millionths:
    """The cost of a schedule in millionths, as `hull check` finds it.

    `hull` is the program's place, here and below. Raises `HullError` with the fault line where the schedule isn't feasible.
    """
    return Hull(hull).check(case, schedule)


def price(
    case: GivenCase,
    schedule: GivenSchedule,
    proposals: Optional[int] = None,
    ahead: Optional[int] = None,
    hull: Optional[Name] = None,
) -> Report:
    """The report of `hull price`: up to so many proposals, from 1 to 10,000, of which so many are worked out ahead, from 1 to 16.

    What is left out is as the program has it. Raises `HullError` where it refuses a file or the work.
    """
    return Hull(hull).price(case, schedule, proposals=proposals, ahead=ahead)


def settle(
    case: GivenCase,
    schedule: GivenSchedule,
    prices: GivenPrices,
    hull: Optional[Name] = None,
    name: Optional[str] = None,
) -> Settlement:
    """The settlement of `hull settle`: what each unit and bid is owed at the prices, in millionths.

    Prices have an energy price and perhaps a reserve price for each period, as `per_mwh` makes them, or are of a text
    that is given. The name tells the settlement apart in tables. Raises `HullError` where the program refuses a file.
    """
    return Hull(hull).settle(case, schedule, prices, name)


def certify(
    case: GivenCase,
    schedule: GivenSchedule,
    prices: GivenPrices,
    mixture: GivenMixture,
    radius: Optional[int] = None,
    hull: Optional[Name] = None,
    radius_per_mw: Optional[PerMwh] = None,
) -> Certificate:
    """The certificate of `hull certify`: how far the prices are from the best, in millionths, as the mixture bounds it.

    The bound is of all prices that there may be. With a radius, in millionths per kilowatt from 0 to 20,000,000, it is of the prices that differ
    from these by at most that in each period: 1000 is 1.00 per MW. `radius_per_mw` is the same in the currency per MW and period, 0 to 20,000. Raises
    `HullError` where the program refuses a file, where a radius is no such number, or where both are given.
    """
    return Hull(hull).certify(case, schedule, prices, mixture, radius=radius, radius_per_mw=radius_per_mw)
