"""A network of PyPSA as `export_to_csv_folder` writes it: a table for each component, and one for each attribute that varies."""
from __future__ import annotations

import os
import re
from decimal import Decimal
from fractions import Fraction
from typing import Dict, List, Optional, Tuple

from ..errors import HullError, one_line, read_bytes, refuse_line_end, refuse_twice_named, rows_in
from .notes import Notes, Object
from .series import cell_number, in_pieces, lists_out_negative, points_of, scaled

PIECES = 10  # how many lines a quadratic cost is cut into
INFINITE = ("inf", "+inf", "infinity", "+infinity")  # (of a ramp: there is no limit)
# First columns of tables that stand in several levels, with what there are several of; snapshots.csv has a count in front of them.
LEVELS = {"period": "investment periods", "scenario": "scenarios"}
Table = Dict[str, Dict[str, str]]
NETWORK = "the network: all units and loads stand at one place"
# Columns of generators.csv that are read, and those that say nothing of operation.
READ = (
    "p_nom p_min_pu p_max_pu marginal_cost marginal_cost_quadratic committable start_up_cost stand_by_cost min_up_time min_down_time "
    "up_time_before down_time_before ramp_limit_up ramp_limit_down ramp_limit_start_up ramp_limit_shut_down active p_init sign"
).split()
SAID = "name bus carrier control type build_year lifetime capital_cost p_nom_min p_nom_max p_nom_mod p_nom_set efficiency weight".split()
# What a column that isn't read says where it says nothing: the default of PyPSA.
NOTHING = ("", "nan", "0", "0.0", "false", "inf")
DEFAULTS = {
    "e_sum_min": ("", "nan", "-inf", "-infinity"),
    "e_sum_max": ("", "nan", *INFINITE),
}
VARYING = ("p_max_pu", "p_min_pu", "marginal_cost")
KNOWN_FILES = (
    "generators.csv",
    "snapshots.csv",
    "loads.csv",
    "buses.csv",
    "network.csv",
    "investment_periods.csv",  # (a network of several is refused)
    "carriers.csv",
    "meta.json",
    "crs.json",
)
COMPONENTS = ("lines", "transformers", "links", "storage_units", "stores", "global_constraints", "shunt_impedances")
RESULTS = (
    "p",
    "q",
    "status",
    "mu_upper",
    "mu_lower",
    "start_up",
    "shut_down",
    "mu_p_set",
    "mu_ramp_limit_up",
    "mu_ramp_limit_down",
)


def is_mine(folder: str) -> bool:
    return all(os.path.exists(os.path.join(folder, it)) for it in ("generators.csv", "snapshots.csv"))


def table(folder: str, file: str) -> Table:
    """The rows of a table by its first column, each by column; an empty one where there is no file."""
    name = os.path.join(folder, file)
    if not os.path.exists(name):
        return {}
    try:
        text = read_bytes(name, "a table").decode("utf-8-sig")
    except UnicodeDecodeError:
        raise HullError(f"{name}: it isn't UTF-8") from None
    rows = []
    for line, cells in rows_in(text, name):
        for cell in cells:
            refuse_line_end(cell, f"{name}, line {line}")
        rows.append(cells)
    if not rows or not rows[0]:
        raise HullError(f"{name}: it has no first line with columns")
    if len(rows[0]) == 1 and re.search("[;\t]", rows[0][0]):
        what = "commas are due between its cells, as PyPSA writes them, and semicolons or tabs are found"
        raise HullError(f"{name}: {what}")
    level = next((LEVELS[it] for it in rows[0][:2] if it in LEVELS), None)
    if level:
        raise HullError(f"{name}: a network of several {level} isn't read: write one of them")
    columns = rows[0][1:]
    refuse_twice_named(columns, name)
    if any(len(row) > len(rows[0]) for row in rows):
        raise HullError(f"{name}: a row has more cells than the first line has columns")
    filled = [row for row in rows[1:] if any(map(str.strip, row))]  # (a spreadsheet writes empty ones behind a table)
    found = {row[0]: {**dict.fromkeys(columns, ""), **dict(zip(columns, row[1:]))} for row in filled}
    if len(found) < len(filled):
        raise HullError(f"{name}: a name of the first column stands twice")
    return found


def snapshots_of(folder: str) -> Table:
    """The rows of snapshots.csv by snapshot. PyPSA writes a count in front of the snapshots; by hand they often stand first."""
    rows = table(folder, "snapshots.csv")
    if "snapshot" not in next(iter(rows.values()), {}):
        return rows
    found = {row["snapshot"]: row for row in rows.values()}
    if len(found) < len(rows):
        raise HullError(f"{os.path.join(folder, 'snapshots.csv')}: a snapshot stands twice")
    return found


def number(text: str, what: str) -> Optional[Decimal]:
    """A cell's number; None where it is empty or nan, as PyPSA has what isn't known."""
    shown = text.strip()
    return None if shown.lower() in ("", "nan", "none") else cell_number(shown, what)


def is_true(text: str, what: str) -> bool:
    """A cell's flag; one that is empty or nan is false."""
    shown = text.strip().lower()
    if shown not in ("true", "1", "1.0", "false", "0", "0.0", "", "nan", "none"):
        raise HullError(one_line(f"{what}: True or False is due, and {text[:60]!r} is found"))
    return shown in ("true", "1", "1.0")


class Network:
    """One network while it is read."""

    def __init__(self, folder: str, notes: Notes):
        self.folder, self.notes = folder, notes
        self.snapshots = snapshots_of(folder)
        self.periods = len(self.snapshots)
        if not self.periods:
            raise HullError(f"{os.path.join(folder, 'snapshots.csv')}: it has no row of a snapshot")
        self.generators = table(folder, "generators.csv")
        self.varying = {it: self.columns_of("generators", it, self.generators) for it in VARYING}
        self.hours = Fraction(1)

    def columns(self, file: str) -> Dict[str, List[str]]:
        """The columns of a table over the snapshots, by name; its rows may stand in another order than those of snapshots.csv."""
        found, place = table(self.folder, file), os.path.join(self.folder, file)
        odd = sorted(found.keys() ^ self.snapshots.keys())
        if odd and os.path.exists(place):
            what = "snapshots.csv has no snapshot" if odd[0] in found else "it has no row of the snapshot"
            raise HullError(f"{place}: {what} {one_line(odd[0])}")
        names: Dict[str, str] = next(iter(found.values()), {})
        return {name: [found[it][name] for it in self.snapshots] for name in names}

    def columns_of(self, component: str, attribute: str, known: Table) -> Dict[str, List[str]]:
        """The columns of the table of an attribute, by name; those of no row of the component's table are noted."""
        found = self.columns(f"{component}-{attribute}.csv")
        for name in found:
            if name not in known:
                self.notes.left_out(f"columns of {component}-{attribute}.csv that have no row in {component}.csv", name)
        return found

    def numbers(self, file: str, name: str, texts: List[str], what: str) -> List[Decimal]:
        """The numbers of a column over the snapshots; a cell without one is refused."""
        found = []
        for snapshot, text in zip(self.snapshots, texts):
            value = number(text, what)
            if value is None:
                place = f"{os.path.join(self.folder, file)}, row {one_line(snapshot)}, column {one_line(name)}"
                raise HullError(f"{place}: {one_line(text.strip()) or 'nothing'} is there, and a number is due")
            found.append(value)
        return found

    def weight_of(self, snapshot: str, row: Dict[str, str]) -> Decimal:
        """A snapshot's weight in the costs; 1 where it has none."""
        found = number(row.get("objective") or row.get("weightings") or "1", "snapshots.csv")
        if found is not None and found <= 0:
            place = f"{os.path.join(self.folder, 'snapshots.csv')}, row {one_line(snapshot)}"
            raise HullError(f"{place}: the weight of a snapshot in the costs is to be above 0")
        return Decimal(1) if found is None else found

    def weight(self) -> Fraction:
        """How many hours a snapshot counts for in the costs."""
        found = {name: self.weight_of(name, row) for name, row in self.snapshots.items()}
        (first, weight), *others = found.items()
        odd = next((name for name, it in others if it != weight), None)
        if odd is not None:
            what = f"weights of snapshots in the costs differ, {weight} of {first} and {found[odd]} of {odd}"
            place = os.path.join(self.folder, "snapshots.csv")
            raise HullError(f"{place}: {one_line(what)}: periods of hull have one length")
        if weight != 1:
            self.notes.changed(f"costs are those of a snapshot, of weight {weight}")
        return Fraction(weight)

    def case(self) -> Object:
        self.hours = self.weight()  # (a solution to follow has no costs)
        case: Object = {"time_periods": self.periods, "demand": self.demand(), "reserves": [Decimal(0)] * self.periods}
        case.update(thermal_generators={}, renewable_generators={})
        for name in self.generators:
            self.add_unit(case, name)
        self.drop_files()
        return case

    def demand(self) -> List[Decimal]:
        loads, total = table(self.folder, "loads.csv"), [Decimal(0)] * self.periods
        if not loads:
            self.notes.assumed("no load in loads.csv: demand is 0 in all periods")
        varying = self.columns_of("loads", "p_set", loads)
        for name, row in loads.items():
            if row.get("active", "") and not is_true(row["active"], f'load "{name}", active'):
                self.notes.left_out("loads that aren't active", name)
                continue
            powers = self.load(name, row, varying)
            sign = number(row.get("sign", "-1"), f'load "{name}", sign')
            for t, power in enumerate(powers):
                total[t] -= power * (Decimal(-1) if sign is None else sign)
        lists_out_negative(total, "loads")
        return total

    def load(self, name: str, row: Dict[str, str], varying: Dict[str, List[str]]) -> List[Decimal]:
        """What a load takes in each snapshot."""
        what = f'load "{name}", p_set'
        if name in varying:
            return self.numbers("loads-p_set.csv", name, varying[name], what)
        power = number(row.get("p_set", ""), what)
        if power is None:
            self.notes.assumed("a load without p_set takes nothing", name)
        return [power or Decimal(0)] * self.periods

    def series(self, name: str, key: str, default: str) -> List[Decimal]:
        what, varying = f'generator "{name}", {key}', self.varying[key]
        if name in varying:
            return self.numbers(f"generators-{key}.csv", name, varying[name], what)
        text = self.generators[name].get(key, "")
        found = number(text, what)
        if found is None and text.strip():
            self.notes.assumed(f"{key} that is nan: {default} is taken", name)
        return [Decimal(default) if found is None else found] * self.periods

    def value(self, name: str, key: str) -> Optional[Decimal]:
        return number(self.generators[name].get(key, ""), f'generator "{name}", {key}')

    def flag(self, name: str, key: str) -> bool:
        return is_true(self.generators[name].get(key, ""), f'generator "{name}", {key}')

    def is_active(self, name: str) -> bool:
        return not self.generators[name].get("active", "") or self.flag(name, "active")

    def sign(self, name: str) -> Decimal:
        """How many MW one of a generator's power is: 0.001 where that is in kW. One that takes power is refused."""
        found = self.value(name, "sign")
        if found is not None and found <= 0:
            raise HullError(one_line(f'generator "{name}", sign: a number above 0 is due, and {found} is found'))
        return Decimal(1) if found is None else found

    def in_megawatts(self, name: str, powers: List[str]) -> List[str]:
        """Powers of a generator with a sign."""
        sign, what = self.sign(name), f'generator "{name}", p'
        return [str(cell_number(it.strip(), what) * sign) for it in powers]

    def size(self, name: str) -> Decimal:
        """What a generator can give at most, in MW."""
        found = self.value(name, "p_nom")
        if found is None:
            self.notes.assumed("a generator without p_nom gives nothing", name)
        return (found or Decimal(0)) * self.sign(name)

    def whole(self, name: str, key: str, default: int) -> int:
        found = self.value(name, key)
        if found is not None and found != int(found):
            self.notes.changed(f"{key} that isn't whole is cut to a whole number of snapshots", name)
        return default if found is None else int(found)

    def add_unit(self, case: Object, name: str) -> None:
        """Committable units are thermal; so are others with a cost, or whose power may rise only; the rest is renewable."""
        self.drop_columns(name)
        if not self.is_active(name):
            self.notes.left_out("generators that aren't active", name)
            return
        sign = self.sign(name)
        if sign != 1:
            self.notes.changed(
                "sign that isn't 1 is a factor: of p_nom and p_init, and 1 over it of marginal costs", name
            )
        if self.flag(name, "p_nom_extendable"):
            self.notes.left_out("that a capacity may be extended: p_nom is taken", name)
        most, least, cost = (
            self.series(name, key, default)
            for key, default in (("p_max_pu", "1"), ("p_min_pu", "0"), ("marginal_cost", "0"))
        )
        varies = len(set(most)) > 1 or len(set(least)) > 1
        if not self.flag(name, "committable"):
            self.drop_stand_by(name)
            has_cost = any(cost) or bool(self.value(name, "marginal_cost_quadratic"))
            if varies or not has_cost:
                case["renewable_generators"][name] = self.renewable(name, least, most, has_cost)
                return
        if varies:
            self.notes.left_out(
                "p_min_pu and p_max_pu of committable units that change over time: the greatest are taken", name
            )
        if len(set(cost)) > 1:
            self.notes.left_out("marginal costs that change over time: the first is taken", name)
        case["thermal_generators"][name] = self.thermal(name, max(least), max(most), cost[0])

    def drop_stand_by(self, name: str) -> None:
        if self.value(name, "stand_by_cost"):
            what = "stand_by_cost of generators that aren't committable: PyPSA charges it to committable ones alone"
            self.notes.left_out(what, name)

    def renewable(self, name: str, least: List[Decimal], most: List[Decimal], has_cost: bool) -> Object:
        """A renewable unit; what such a unit hasn't is noted."""
        if has_cost:
            self.notes.left_out("costs of generators whose p_max_pu changes over time: a renewable unit has none", name)
        for key in ("ramp_limit_up", "ramp_limit_down"):
            share = None if self.is_free(name, key) else self.value(name, key)
            if share is not None and share < max(most) - min(least):
                self.notes.left_out(f"{key} of generators that become renewable units: such a unit has none", name)
        if self.value(name, "p_init"):
            self.notes.left_out("p_init of generators that become renewable units: such a unit has none", name)
        size = self.size(name)
        return {"power_output_minimum": [size * it for it in least], "power_output_maximum": [size * it for it in most]}

    def is_free(self, name: str, key: str) -> bool:
        """Whether a ramp has no limit."""
        return self.generators[name].get(key, "").strip().lower() in INFINITE

    def times_before(self, name: str, min_off: int) -> Tuple[int, int]:
        """For how many snapshots a committable unit has been on, and off, before the first: one of the two is 0."""
        on, off = self.whole(name, "up_time_before", 1), self.whole(name, "down_time_before", 0)
        if on and off:  # (up_time_before is 1 where nobody wrote it)
            is_held = off < min_off
            self.notes.changed(
                "up_time_before and down_time_before that are both above 0: the unit is taken as "
                + ("off, since min_down_time holds it off" if is_held else "on, since PyPSA has no start cost then"),
                name,
            )
            return (0, off) if is_held else (on, 0)
        if not on and not off and min_off > 1:
            what = "down_time_before of 0 of a unit that is off: it may start at once, as PyPSA has it"
            self.notes.assumed(what, name)
        return on, 0 if on else off or max(1, min_off)

    def power_before(self, name: str, is_on: bool, halfway: Decimal) -> Decimal:
        """The power before the first snapshot, which few networks have."""
        found = self.value(name, "p_init")
        if not is_on:
            if found:
                self.notes.changed("p_init of a unit that is off before the first snapshot is taken as 0", name)
            return Decimal(0)
        if found is None:
            what = "PyPSA has no power before the first snapshot: of a unit that is on it is halfway from the least to the greatest"
            self.notes.assumed(what, name)
        return halfway if found is None else found * self.sign(name)

    def thermal(self, name: str, least_pu: Decimal, most_pu: Decimal, cost: Decimal) -> Object:
        size = self.size(name)
        least, most = size * least_pu, size * most_pu

        def ramp(key: str) -> Decimal:
            share = None if self.is_free(name, key) else self.value(name, key)
            return most if share is None else min(most, size * share)

        committable = self.flag(name, "committable")
        min_off = self.whole(name, "min_down_time", 0)
        on, off = self.times_before(name, min_off) if committable else (1, 0)
        if not committable:
            self.notes.changed(
                "generators that aren't committable and have a cost run in all periods, from p_min_pu on", name
            )
        start = scaled(self.value(name, "start_up_cost") or Decimal(0), Fraction(1))
        found: Object = {
            "must_run": 0 if committable else 1,
            "power_output_minimum": least,
            "power_output_maximum": most,
            "ramp_up_limit": ramp("ramp_limit_up"),
            "ramp_down_limit": ramp("ramp_limit_down"),
            "ramp_startup_limit": ramp("ramp_limit_start_up"),
            "ramp_shutdown_limit": ramp("ramp_limit_shut_down"),
            "time_up_minimum": self.whole(name, "min_up_time", 0),
            "time_down_minimum": min_off,
            "power_output_t0": self.power_before(name, on > 0, (least + most) / 2),
            "unit_on_t0": int(on > 0),
            "time_up_t0": on,
            "time_down_t0": off,
            "startup": [{"lag": max(1, min_off), "cost": start}] if start else [],
            "piecewise_production": self.curve(name, least, most, cost),
        }
        if on > 0:
            self.tell_first_ramps(name, found)
        return found

    def tell_first_ramps(self, name: str, unit: Object) -> None:
        """Notes that limits bind in the first snapshot, from the power before it: PyPSA has none there."""
        power = unit["power_output_t0"]
        least, most = (unit[f"power_output_{it}"] for it in ("minimum", "maximum"))
        can_stop = power <= unit["ramp_shutdown_limit"] or unit["must_run"]
        may_fall, may_rise = power - unit["ramp_down_limit"] <= least, power + unit["ramp_up_limit"] >= most
        if not (can_stop and may_fall and may_rise):
            what = "the first snapshot: ramps and stops hold from the power before it, where PyPSA leaves them free"
            self.notes.changed(f"{what}; the column p_init of generators.csv gives that power", name)

    def curve(self, name: str, least: Decimal, most: Decimal, cost: Decimal) -> List[Object]:
        square = self.value(name, "marginal_cost_quadratic") or Decimal(0)
        is_charged = self.flag(name, "committable")
        fixed = (self.value(name, "stand_by_cost") if is_charged else None) or Decimal(0)
        pieces = PIECES if square and most > least else 1
        if pieces > 1:
            self.notes.changed(f"quadratic costs are cut into {PIECES} straight pieces", name)
        powers = in_pieces(least, most, pieces)
        own = [scaled(at, 1 / Fraction(self.sign(name))) for at in powers]  # (in the unit that marginal costs are of)
        costs = [scaled(fixed + cost * it + square * it * it, self.hours) for it in own]
        return points_of(powers, costs, f'generator "{name}"')

    def drop_columns(self, name: str) -> None:
        """Notes what stands in columns that aren't read, where it isn't empty or 0."""
        if number(self.generators[name].get("shut_down_cost", ""), f'generator "{name}", shut_down_cost'):
            self.notes.left_out("shut-down costs", name)
        for key, text in self.generators[name].items():
            said = key in READ or key in SAID or key in ("shut_down_cost", "p_nom_extendable", "p_nom_opt")
            if not said and text.strip().lower() not in DEFAULTS.get(key, NOTHING):
                self.notes.left_out(f"generators.csv: the column {key}", name)

    def drop_files(self) -> None:
        """Notes what stands in files that aren't read; results of a solved network are none of the case's."""
        for component in COMPONENTS:
            what = (
                f"{component}: {NETWORK}"
                if component in ("lines", "transformers", "links")
                else component.replace("_", " ")
            )
            for name in table(self.folder, f"{component}.csv"):
                self.notes.left_out(what, name)
        self.drop_buses()
        read = {f"generators-{it}.csv" for it in VARYING} | {
            "loads-p_set.csv",
            *KNOWN_FILES,
            *(f"{it}.csv" for it in COMPONENTS),
        }
        for file in sorted(os.listdir(self.folder)):
            component, _, attribute = file[: -len(".csv")].partition("-")
            is_result = attribute in RESULTS or component == "buses"
            if file.endswith(".csv") and file not in read and not is_result and component not in COMPONENTS:
                self.notes.left_out(f"the file {file}")

    def drop_buses(self) -> None:
        """Notes that there are several buses; and that loads and generators stand at buses of heat, gas or the like too."""
        buses, loads = (table(self.folder, file) for file in ("buses.csv", "loads.csv"))
        if len(buses) > 1:
            self.notes.left_out(NETWORK)
        found = (row.get("bus", "") for row in (*loads.values(), *self.generators.values()))
        used = {buses[bus].get("carrier", "") or "AC" for bus in found if bus in buses}
        if len({"AC" if it == "DC" else it for it in used}) > 1:
            for carrier in sorted(used):
                what = "carriers of the buses: loads and generators of all of them are taken as of power"
                self.notes.left_out(what, carrier)


def read_pypsa(folder: str, notes: Notes) -> Object:
    return Network(folder, notes).case()


def solution(folder: str) -> Tuple[Dict[str, List[str]], Dict[str, List[str]]]:
    """Powers and states of a solved network by the generators' names; no powers where there is no table of them.

    PyPSA leaves columns out that have its default in each snapshot: a power of 0, and a state of 1.
    """
    network = Network(folder, Notes())
    powers, states = network.columns("generators-p.csv"), network.columns("generators-status.csv")
    for name in filter(network.is_active, network.generators) if powers else ():
        powers.setdefault(name, ["0"] * network.periods)
        if network.sign(name) != 1:
            powers[name] = network.in_megawatts(name, powers[name])
        if network.flag(name, "committable"):
            states.setdefault(name, ["1"] * network.periods)
    return powers, states
