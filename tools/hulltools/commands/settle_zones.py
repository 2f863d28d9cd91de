"""Settles each unit at the prices of its zone, or at prices of its own.

usage: settle_zones.py CASE SCHEDULE ZONES [--to FOLDER] [--currency C] [--seconds S] [--hull PROGRAM]

  ZONES            a JSON file: {"zones": {"NORTH": {"energy": [..], "reserve": [..]}, ..}, "units": {"GT5": "NORTH", ..}, "default": "SOUTH"}.
                   A zone's prices are as in a prices file; a unit that isn't under `units` is of the default zone. A name that two
                   kinds have stands there as thermal:GT5, renewable:GT5 or bid:GT5
  --to FOLDER      units.csv and the settlement of each zone are written there, together, with files.sha256, which has their sums; what this tool
                   wrote there before is replaced, and a file of another's that has such a name is refused. If left out, the table is printed
  --currency C     what money is in, for the heads of the table
  --seconds S      a settlement is ended after so many seconds, at most 2000000, and nothing is written then; if left
                   out, the case alone limits its work
  --hull PROGRAM   the program that settles; the launcher of this repository if left out

`hull settle` works out a settlement for each zone's prices, and each unit's line is taken from that of its zone. What a unit earns, its payment,
make-whole and lost opportunity depend on the unit and its own prices alone, so they hold. A dual value and a gap there isn't: both are of one
price for all. Nodal prices are settled so, with a zone for each node.
"""
from __future__ import annotations

from argparse import Namespace
from collections.abc import Sequence
from typing import Optional, Union

from ..cases import Case, read_case
from ..errors import Tell, need_output, run_tool
from ..held_files import HeldFiles
from ..outputs import Settlement
from ..prices import Prices
from ..program import Hull
from ..schedules import read_schedule
from ..study_folder import StudyFolder, write_in_folder
from ..study_tables import zonal_table
from ..zones import Zonal, Zones, read_zones, settle_zones
from .words import add_seconds, asker

TOOL, TABLE = "settle_zones.py", "units.csv"


def file_of(zone: str) -> str:
    return "".join(it if it.isascii() and it.isalnum() or it in "-_" else "_" for it in zone[:100])


def settlement_files(zones: Zones, case: Case) -> list[str]:
    """The names of the settlements, one for each zone that a unit is of, in the order of the zones."""
    used = {zones.zone_of(kind, unit.name) for kind, unit in case.units}
    there = (zone for zone in zones.prices if zone in used)
    return [f"{place}.{file_of(zone)}.settlement.txt" for place, zone in enumerate(there, 1)]


class Settled:
    """The case and its zones, and a text of `hull settle` for each zone, in the order of the names of their files."""

    def __init__(self, hull: Hull, given: Namespace) -> None:
        hull.check(given.case, given.schedule)
        self.hull, self.given, self.case = hull, given, read_case(given.case)
        self.zones = read_zones(given.zones, self.case)
        self.names = settlement_files(self.zones, self.case)
        self.texts: list[bytes] = []

    def settle(self, prices: Prices) -> Settlement:
        found = self.hull.settle(self.given.case, self.given.schedule, prices)
        self.texts.append(self.hull.last_text)
        return found

    def zonal(self) -> Zonal:
        return settle_zones(self.settle, self.case, read_schedule(self.given.schedule, self.case), self.zones)


def body(words: Sequence[str], tell: Tell) -> None:
    ask = asker(TOOL, __doc__)
    for option in ("case", "schedule", "zones", "--to", "--hull"):
        ask.add_argument(option)
    ask.add_argument("--currency", default="")
    add_seconds(ask)
    given = ask.parse_args(words)
    if given.to is None:
        need_output()
    hull, inputs = Hull(given.hull, tell, given.seconds), [given.case, given.schedule, given.zones]
    if given.to is not None:
        StudyFolder(given.to, inputs, TOOL).refuse([TABLE])
    with HeldFiles() as held:
        settled = Settled(hull, held.words_of(given))
        if given.to is not None:
            StudyFolder(given.to, inputs, TOOL).refuse(settled.names)
        zonal = settled.zonal()
    table = zonal_table(zonal, given.currency)
    if given.to is None:
        table.write()
        return
    files: dict[str, Union[str, bytes]] = {TABLE: table.text(), **dict(zip(settled.names, settled.texts))}
    write_in_folder(given.to, files, inputs, TOOL, StudyFolder, keeps=True)


def main(words: Optional[Sequence[str]] = None) -> int:
    return run_tool(TOOL, body, words)
