"""Instances of UnitCommitment.jl, format 0.4 and before: one JSON object, plain or compressed by gzip."""
from __future__ import annotations

from decimal import Decimal
from fractions import Fraction
from typing import Any, List, Optional, Tuple

from ..errors import HullError, one_line
from .notes import Notes, Object, Taken
from .series import (
    constant,
    decimal,
    first,
    flag,
    in_periods,
    length_in_words,
    limit,
    lists_out_negative,
    periods_of,
    points_of,
    series,
    state_before,
    status_of,
    sum_of,
)

NETWORK = "the network: all units and loads stand at one place"
VERSIONS = ("0.2", "0.3", "0.4")


def is_mine(value: Object) -> bool:
    return "Parameters" in value and ("Generators" in value or "Buses" in value)


class Instance:
    """One instance while it is read."""

    def __init__(self, value: Object, notes: Notes):
        self.notes, self.top = notes, Taken(value, "the file", None, notes)
        self.parameters = Taken(self.top.object("Parameters"), "Parameters", None, notes)
        self.periods, self.per_hour = self.horizon()
        self.reserve_name: Optional[str] = None

    def horizon(self) -> Tuple[int, Fraction]:
        """The number of periods, and how many there are in an hour."""
        take = self.parameters.first
        step = take("Time step (min)")
        minutes = Fraction(decimal(60 if step is None else step, "Time step (min)"))
        hours, whole = take("Time horizon (h)", "Time (h)"), take("Time horizon (min)")
        if hours is None and whole is None:
            raise HullError("Parameters: there is no `Time horizon (h)`")
        if hours is not None and whole is not None:
            raise HullError("Parameters: the time horizon stands twice, in hours and in minutes")
        length = (
            Fraction(decimal(hours, "Time horizon (h)")) * 60
            if whole is None
            else Fraction(decimal(whole, "Time horizon (min)"))
        )
        if minutes <= 0:
            raise HullError("Parameters: a time step is to be above 0")
        periods = periods_of(length / minutes, "Parameters: the time horizon")
        if minutes != 60:
            self.notes.assumed(
                f"time steps of {length_in_words(minutes)}: ramps and costs are taken per time step, as they stand"
            )
        return periods, 60 / minutes

    def case(self) -> Object:
        """The case of the instance."""
        self.drop_parameters()
        case: Object = {"time_periods": self.periods, "demand": self.demand(), "reserves": self.reserves()}
        case["thermal_generators"], case["renewable_generators"] = self.generators()
        bids = self.bids()
        if bids:
            case["demand_bids"] = bids
        self.drop_others()
        return case

    def drop_parameters(self) -> None:
        taken = self.parameters
        taken.take("Scenario name")
        version = taken.take("Version")
        if version is not None and str(version) not in VERSIONS:
            self.notes.assumed(f"format {one_line(str(version))}, which isn't known, is read as {VERSIONS[-1]}")
        penalty = "penalties for what isn't met: demand and reserve have to be met"
        taken.drop(penalty, "Power balance penalty ($/MW)")
        weight = taken.take("Scenario weight")
        if weight is not None and decimal(weight, "Scenario weight") != 1:
            self.notes.left_out("the scenario's weight: this is one scenario by itself")
        taken.rest()

    def demand(self) -> List[Decimal]:
        rows = []
        for name, value in self.top.object("Buses").items():
            bus = Taken(value, "Buses", name, self.notes)
            if bus.value.get("Load (MW)") is None:
                self.notes.assumed("a bus without Load (MW) takes nothing", name)
            rows.append(series(bus.take("Load (MW)", 0), self.periods, f'bus "{name}", Load (MW)'))
            bus.rest()
        if not rows:
            self.notes.assumed("no bus: demand is 0 in all periods")
        found = sum_of(rows, self.periods)
        lists_out_negative(found, "Buses")
        return found

    def reserves(self) -> List[Decimal]:
        """The first spinning reserve; format 0.2 has `Spinning (MW)` in place of named ones."""
        found: Optional[List[Decimal]] = None
        for name, value in self.top.object("Reserves").items():
            if not isinstance(value, dict):
                if name == "Spinning (MW)" and found is None:
                    found = series(value, self.periods, name)
                else:
                    self.notes.left_out("further reserve products", name)
                continue
            reserve = Taken(value, "Reserves", name, self.notes)
            kind, amount = str(reserve.take("Type", "spinning")).lower(), reserve.take("Amount (MW)", 0)
            if reserve.value.get("Amount (MW)") is None:
                self.notes.assumed("a reserve without Amount (MW) is 0", name)
            reserve.drop("penalties for what isn't met: demand and reserve have to be met", "Shortfall penalty ($/MW)")
            reserve.rest()
            if kind == "spinning" and found is None:
                self.reserve_name, found = name, series(amount, self.periods, f'reserve "{name}"')
            else:
                self.notes.left_out(f"further reserve products: {kind}", name)
        return found if found is not None else [Decimal(0)] * self.periods

    def generators(self) -> Tuple[Object, Object]:
        thermal: Object = {}
        renewable: Object = {}
        for name, value in self.top.object("Generators").items():
            unit = Taken(value, "Generators", name, self.notes)
            unit.take("Bus")
            kind = str(unit.take("Type", "Thermal")).lower()
            if kind == "profiled":
                renewable[name] = self.profiled(unit, name)
            else:
                thermal[name] = self.thermal(unit, name)
            if kind not in ("thermal", "profiled"):
                self.notes.changed("generators that are neither thermal nor profiled are taken as thermal units", name)
            unit.rest()
        return thermal, renewable

    def profiled(self, unit: Taken, name: str) -> Object:
        cost = unit.take("Cost ($/MW)", 0)
        if any(series(cost, self.periods, f"{name}, Cost ($/MW)")):
            self.notes.left_out("costs of profiled generators: a renewable unit has none", name)

        def read(key: str, default: Optional[int]) -> List[Decimal]:
            return series(unit.take(key, default), self.periods, f"{name}, {key}")

        return {
            "power_output_minimum": read("Minimum power (MW)", 0),
            "power_output_maximum": read("Maximum power (MW)", None),
        }

    def thermal(self, unit: Taken, name: str) -> Object:
        notes = self.notes
        powers = self.curve(unit, name, "Production cost curve (MW)")
        costs = self.curve(unit, name, "Production cost curve ($)")
        most = powers[-1]

        def ramp(key: str) -> Decimal:
            value = unit.take(key)
            return limit(None if value is None else constant(value, self.periods, min, key, notes, name), most)

        def time(key: str) -> int:
            return in_periods(unit.take(key, 1), self.per_hour, key, notes, name)

        down = time("Minimum downtime (h)")
        lags = self.starts(unit, name)
        status, power = unit.take("Initial status (h)"), unit.take("Initial power (MW)")
        periods_before = None if status is None else status_of(status, self.per_hour, "Initial status (h)", notes, name)
        before = state_before(periods_before, max([down, *(lag["lag"] for lag in lags)]), notes, name)
        if power is None and before["unit_on_t0"]:
            notes.assumed("no initial power of a unit that is on: its least power", name)
        found: Object = {
            "must_run": 0,
            "power_output_minimum": powers[0],
            "power_output_maximum": most,
            "ramp_up_limit": ramp("Ramp up limit (MW)"),
            "ramp_down_limit": ramp("Ramp down limit (MW)"),
            "ramp_startup_limit": ramp("Startup limit (MW)"),
            "ramp_shutdown_limit": ramp("Shutdown limit (MW)"),
            "time_up_minimum": time("Minimum uptime (h)"),
            "time_down_minimum": down,
            "power_output_t0": decimal(power, f"{name}, Initial power (MW)")
            if power is not None
            else powers[0] * before["unit_on_t0"],
            **before,
            "startup": lags,
            "piecewise_production": points_of(powers, costs, f'generator "{name}", production cost curve'),
        }
        self.commitment(unit, found, name)
        self.eligibility(unit, name)
        return found

    def curve(self, unit: Taken, name: str, key: str) -> List[Decimal]:
        rows = unit.take(key)
        if not isinstance(rows, list) or not rows:
            raise HullError(f'generator "{name}": {key} isn\'t a list of numbers')
        return [constant(it, self.periods, first, key, self.notes, name) for it in rows]

    def starts(self, unit: Taken, name: str) -> List[Object]:
        costs = unit.list("Startup costs ($)", [0])
        delays = unit.list("Startup delays (h)", [1])
        if len(costs) != len(delays):
            raise HullError(f'generator "{name}": {len(costs)} startup costs and {len(delays)} delays')
        lags = [in_periods(it, self.per_hour, "Startup delays (h)", self.notes, name) for it in delays]
        rows = [{"lag": lag, "cost": decimal(cost, f"{name}, Startup costs ($)")} for lag, cost in zip(lags, costs)]
        return rows if any(it["cost"] for it in rows) else []

    def commitment(self, unit: Taken, found: Object, name: str) -> None:
        """Must-run, and a commitment that is given period by period."""
        must, given = (self.flags(unit, key, name) for key in ("Must run?", "Commitment status"))
        if isinstance(must, list):
            pairs = list(zip(must, given or [None] * len(must)))
            if (1, 0) in pairs:
                period = pairs.index((1, 0)) + 1
                raise HullError(
                    one_line(f'generator "{name}": it must run in period {period}, and its status is 0 there')
                )
            given = [1 if now else it for now, it in pairs]
        elif must:
            found["must_run"] = 1
        if given is not None:
            found["commitment"] = given

    def flags(self, unit: Taken, key: str, name: str) -> Any:
        """A list over the periods of 0, 1 and None; or a flag for all of them, where that may be."""
        value, what = unit.take(key), f'generator "{name}", {key}'
        if value is None or key == "Must run?" and not isinstance(value, list):
            return None if value is None else flag(value, what)
        if not isinstance(value, list) or len(value) != self.periods:
            raise HullError(f"{one_line(what)} isn't a list of {self.periods} items")
        return [None if it is None else int(flag(it, what)) for it in value]

    def eligibility(self, unit: Taken, name: str) -> None:
        """In `hull` each thermal unit may keep reserve."""
        spins, listed = unit.take("Provides spinning reserves?"), unit.list("Reserve eligibility", [])
        is_spinning = spins is None or flag(spins, f'generator "{name}", Provides spinning reserves?')
        is_barred = not is_spinning or self.reserve_name is not None and self.reserve_name not in listed
        if is_barred:
            self.notes.left_out("that a thermal unit isn't eligible for reserve: in hull each may keep reserve", name)

    def bids(self) -> Object:
        found: Object = {}
        for name, value in self.top.object("Price-sensitive loads").items():
            load = Taken(value, "Price-sensitive loads", name, self.notes)
            load.take("Bus")
            powers, prices = (
                series(load.take(key), self.periods, f'load "{name}", {key}')
                for key in ("Demand (MW)", "Revenue ($/MW)")
            )
            found[name] = {"blocks": [[{"mw": mw, "price": price}] for mw, price in zip(powers, prices)]}
            load.rest()
        return found

    def drop_others(self) -> None:
        for key in ("Transmission lines", "Interfaces"):
            for name in self.top.object(key):
                self.notes.left_out(f"{key.lower()}: {NETWORK}", name)
        for key in ("Storage units", "Contingencies"):
            for name in self.top.object(key):
                self.notes.left_out(key.lower(), name)
        if len(self.top.object("Buses")) > 1:
            self.notes.left_out(NETWORK)
        self.top.rest()


def case_of(value: Object, notes: Notes) -> Object:
    return Instance(value, notes).case()
