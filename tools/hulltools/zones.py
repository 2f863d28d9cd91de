"""Prices by zone: a file of price lists and of each unit's zone, and what each unit is owed at the prices of its own."""
import json
from dataclasses import dataclass
from typing import TYPE_CHECKING, Any, Callable, Dict, List, Optional

from .cases import Case
from .cash_flows import UnitFlows, flows_of_line
from .costs import Costs
from .errors import HullError, Name, one_line
from .json_texts import read_json
from .options import FieldsAlone, refuse_unknown_keys
from .outputs import Owed, Settlement
from .prices import Prices, prices_within
from .progress import step
from .schedules import Schedule

if TYPE_CHECKING:
    from pandas import DataFrame

ZONES_KEYS, PRICES_KEYS = ["zones", "units", "default"], ["energy", "reserve"]


@dataclass(eq=False)
class Zones(FieldsAlone):
    """Price lists by zone, and the zone of each unit; `default` is the zone of those that have none.

    Under `units` a unit stands by its name, or by kind and name as `thermal:G2` where two kinds have the name.
    """

    prices: Dict[str, Prices]
    units: Dict[str, str]
    default: Optional[str] = None

    def text(self) -> str:
        """The file: prices in the currency per MW and period, exact."""
        lists = (f"{json.dumps(zone, ensure_ascii=False)}: {it.text().strip()}" for zone, it in self.prices.items())
        members = [f'"zones": {{{", ".join(lists)}}}', f'"units": {json.dumps(self.units, ensure_ascii=False)}']
        if self.default is not None:
            members.append(f'"default": {json.dumps(self.default, ensure_ascii=False)}')
        return "{" + ", ".join(members) + "}\n"

    def as_dict(self) -> Dict[str, Any]:
        """The form of its file, in which the prices of a zone are objects still."""
        default = {} if self.default is None else {"default": self.default}
        return {"zones": self.prices, "units": self.units, **default}

    def zone_of(self, kind: str, name: str) -> str:
        return self.units.get(f"{kind}:{name}", self.units.get(name, self.default or ""))


def kinds_by_name(case: Case) -> Dict[str, List[str]]:
    """The kinds of the units that a name stands for, which may have the kind in front, as thermal:G2."""
    found: Dict[str, List[str]] = {}
    for kind, unit in case.units:
        for name in (unit.name, f"{kind}:{unit.name}"):
            found.setdefault(name, []).append(kind)
    return found


def zones_of(name: Name, value: Any, case: Case) -> Zones:
    """The zones of a JSON value, which has a zone for each unit of the case."""
    if not isinstance(value, dict) or not isinstance(value.get("zones"), dict) or not value["zones"]:
        raise HullError(f"{name}: no zones: it isn't an object with the object `zones`, of prices by zone")
    refuse_unknown_keys(f"{name}", value, ZONES_KEYS)
    units, default = value.get("units", {}), value.get("default")
    if not isinstance(units, dict):
        raise HullError(f"{name}: `units` isn't an object of zones by unit")
    for zone, given in value["zones"].items():
        refuse_unknown_keys(f"{name}: zones: {one_line(zone)}", given, PRICES_KEYS)
    prices = {
        zone: prices_within(f"{name}, zone {one_line(zone)}", given, case.periods)
        for zone, given in value["zones"].items()
    }
    kinds_of = kinds_by_name(case)
    for unit, zone in units.items():
        kinds = kinds_of.get(unit, [])
        if not kinds:
            raise HullError(f'{name}: the case has no unit "{one_line(unit)}"')
        if len(kinds) > 1:
            told = f'the case has a {" and a ".join(kinds)} "{one_line(unit)}"'
            raise HullError(f"{name}: {told}: say which, as {one_line(f'{kinds[0]}:{unit}')}")
        if not isinstance(zone, str) or zone not in prices:
            raise HullError(f'{name}: the zone of unit "{one_line(unit)}" has no prices')
    for kind, member in case.units:
        if member.name in units and f"{kind}:{member.name}" in units:
            raise HullError(
                f'{name}: `units` has unit "{one_line(member.name)}" twice, also as {kind}:{one_line(member.name)}'
            )
    if default is not None and (not isinstance(default, str) or default not in prices):
        raise HullError(f"{name}: the default zone has no prices")
    without = next((it.name for kind, it in case.units if not units.keys() & {it.name, f"{kind}:{it.name}"}), None)
    if without is not None and default is None:
        raise HullError(f'{name}: unit "{one_line(without)}" has no zone, and there is no default')
    return Zones(prices, dict(units), default)


def read_zones(name: Name, case: Case) -> Zones:
    return zones_of(name, read_json(name, "zones"), case)


@dataclass(repr=False)
class Zonal:
    """What each unit is owed at its zone's prices. There is no dual value of them all, and no gap: these are of one price list."""

    zones: Zones
    settlements: Dict[str, Settlement]
    flows: List[UnitFlows]

    def __repr__(self) -> str:
        payments = sum(unit.payment for unit in self.units)
        return f"<Zonal: zones={len(self.settlements)}, units={len(self.flows)}, payments={payments}>"

    @property
    def units(self) -> List[Owed]:
        return [unit.owed for unit in self.flows]

    def frame(self) -> "DataFrame":
        """A row for each unit, as a data frame of pandas."""
        from .study_tables import zonal_table
        from .tables import frames_of

        return frames_of({"units": zonal_table(self)})["units"]


def settle_zones(settle: Callable[[Prices], Settlement], case: Case, schedule: Schedule, zones: Zones) -> Zonal:
    """Settles once at each zone's prices, by `settle`, and takes each unit's line from its zone's settlement."""
    used = {zones.zone_of(kind, unit.name) for kind, unit in case.units}
    settlements: Dict[str, Settlement] = {}
    for zone, prices in zones.prices.items():
        if zone in used:
            with step(f"zone {zone}"):
                settlements[zone] = settle(prices)
    costs, flows = Costs(), []
    with step("revenue and cost by unit"):
        for i, (kind, unit) in enumerate(case.units):
            of_zone = settlements[zones.zone_of(kind, unit.name)]
            flows.append(flows_of_line(of_zone.units[i], unit, schedule, of_zone, costs))
    return Zonal(zones, settlements, flows)
