"""ModelData of EGRET as JSON: `elements` by kind and name, and `system`."""
from __future__ import annotations

from decimal import Decimal
from fractions import Fraction
from typing import Any, Callable, List, Optional, Tuple

from ..errors import HullError, one_line
from ..json_texts import is_number
from .notes import Notes, Object, Taken
from .series import (
    NO_LIMIT,
    constant,
    decimal,
    first,
    flag,
    in_periods,
    in_pieces,
    length_in_words,
    limit,
    lists_out_negative,
    pairs,
    points_of,
    scaled,
    series,
    state_before,
    status_of,
    sum_of,
)

PIECES, POWERS = 10, tuple("0123456789")  # how many lines a polynomial is cut into, and the powers that it may have
RESERVES = ("spinning_reserve_requirement", "reserve_requirement")
SAID = ("time_keys", "time_period_length_minutes", "name", "baseMVA", "reference_bus", "reference_bus_angle", "model_name", "load_mismatch_cost", "reserve_shortfall_cost")  # fmt: skip
OF_GENERATORS = ("bus", "generator_type", "fuel", "in_service", "name", "area", "zone", "unit_type", "owner")
NETWORK = "the network: all units and loads stand at one place"


def is_mine(value: Object) -> bool:
    return isinstance(value.get("elements"), dict) and isinstance(value.get("system"), dict)


def values(found: Any) -> Any:
    """A number, or the list of a time series."""
    return found.get("values") if isinstance(found, dict) and found.get("data_type") == "time_series" else found


def has_reserves(value: Any) -> bool:
    """Whether an area or a zone has a reserve to be met in it."""
    rows = value.items() if isinstance(value, dict) else ()
    return any(key.endswith("_requirement") and found not in (None, 0) for key, found in rows)


class Model:
    """One ModelData while it is read."""

    def __init__(self, value: Object, notes: Notes):
        self.notes, self.top = notes, Taken(value, "the file", None, notes)
        self.elements = Taken(self.top.object("elements"), "elements", None, notes)
        self.system = Taken(self.top.object("system"), "system", None, notes)
        keys, minutes = self.system.take("time_keys"), self.system.take("time_period_length_minutes", 60)
        if not isinstance(keys, list) or not keys:
            raise HullError("system: there are no `time_keys`: one period alone has no commitment")
        length = Fraction(decimal(minutes, "time_period_length_minutes"))
        if length <= 0:
            raise HullError("system: `time_period_length_minutes` is to be above 0")
        self.periods, self.per_hour = len(keys), 60 / length
        if self.per_hour != 1:
            notes.changed(
                f"periods of {length_in_words(60 / self.per_hour)}: "
                "ramps, costs and the power above the least of starts and stops, which the file has per hour, are scaled to a period"
            )

    def case(self) -> Object:
        case: Object = {"time_periods": self.periods, "demand": self.demand(), "reserves": self.reserves()}
        thermal, renewable = self.generators()
        case.update(thermal_generators=thermal, renewable_generators=renewable)
        for key in self.elements.value:
            if key not in self.elements.seen:
                what = f"{key}: {NETWORK}" if key in ("branch", "dc_branch", "interface", "shunt") else key
                for name, value in self.elements.object(key).items():
                    self.notes.left_out(f"{what}: its reserves" if has_reserves(value) else what, name)
        for key in SAID[2:]:
            self.system.take(key)
        if any(self.system.value.get(key) is not None for key in SAID[-2:]):
            self.notes.left_out("penalties for what isn't met: demand and reserve have to be met")
        self.system.rest()
        self.top.rest()
        return case

    def demand(self) -> List[Decimal]:
        rows = []
        for name, value in self.elements.object("load").items():
            load = Taken(value, "load", name, self.notes)
            for key in ("bus", "area", "zone", "name"):
                load.take(key)
            if flag(load.take("in_service", True), f'load "{name}", in_service'):
                if load.value.get("p_load") is None:
                    self.notes.assumed("a load without p_load takes nothing", name)
                rows.append(series(values(load.take("p_load", 0)), self.periods, f'load "{name}", p_load'))
            else:
                self.notes.left_out("loads that aren't in service", name)
            load.rest()
        if not self.elements.object("load"):
            self.notes.assumed("no load: demand is 0 in all periods")
        if len(self.elements.object("bus")) > 1:
            self.notes.left_out(NETWORK)
        found = sum_of(rows, self.periods)
        lists_out_negative(found, "load")
        return found

    def reserves(self) -> List[Decimal]:
        key = next((it for it in RESERVES if self.system.value.get(it) is not None), None)
        if key is None:
            return [Decimal(0)] * self.periods
        return series(values(self.system.take(key)), self.periods, key)

    def generators(self) -> Tuple[Object, Object]:
        found: Tuple[Object, Object] = ({}, {})
        for name, value in self.elements.object("generator").items():
            unit = Taken(value, "generator", name, self.notes)
            for key in OF_GENERATORS:
                unit.take(key)
            if not flag(unit.take("in_service", True), f'generator "{name}", in_service'):
                self.notes.left_out("generators that aren't in service", name)
                continue
            kind = unit.value.get("generator_type")
            if kind == "thermal":
                found[0][name] = self.thermal(unit, name)
            else:
                found[1][name] = self.renewable(unit, name)
            if kind not in ("thermal", "renewable"):
                self.notes.changed(
                    "generators that are neither thermal nor renewable are taken as renewable units", name
                )
            unit.rest()
        return found

    def renewable(self, unit: Taken, name: str) -> Object:
        cost = unit.take("p_cost")
        if cost not in (None, 0):
            self.notes.left_out("costs of renewable generators: a renewable unit has none", name)
        unit.drop("fixed commitment of renewable generators", "fixed_commitment")
        least, most = (
            series(values(unit.take(key, 0)), self.periods, f'generator "{name}", {key}') for key in ("p_min", "p_max")
        )
        if unit.value.get("p_max") is None:
            raise HullError(f'generator "{name}": there is no p_max')
        return {"power_output_minimum": least, "power_output_maximum": most}

    def number(self, unit: Taken, name: str, key: str, pick: Callable[..., Decimal] = first) -> Optional[Decimal]:
        found = values(unit.take(key))
        return None if found is None else constant(found, self.periods, pick, key, self.notes, name)

    def thermal(self, unit: Taken, name: str) -> Object:
        least, most = self.number(unit, name, "p_min", max) or Decimal(0), self.number(unit, name, "p_max", max)
        if most is None:
            raise HullError(f'generator "{name}": there is no p_max')

        def ramp(key: str) -> Decimal:
            found = self.number(unit, name, key, min)
            return limit(None if found is None else scaled(found, 1 / self.per_hour), most or Decimal(0))

        def time(key: str) -> int:
            return in_periods(unit.take(key, 0), self.per_hour, key, self.notes, name)

        down, lags, status = time("min_down_time"), self.starts(unit, name), unit.take("initial_status")
        periods_before = (
            None if status is None else status_of(status, self.per_hour, "initial_status", self.notes, name)
        )
        before = state_before(periods_before, max([down, *(lag["lag"] for lag in lags)]), self.notes, name)
        power = self.number(unit, name, "initial_p_output")
        if power is None and before["unit_on_t0"]:
            self.notes.assumed("no initial output of a unit that is on: its least power", name)
        if power and not before["unit_on_t0"]:
            self.notes.changed("initial_p_output of a unit that is off before period 1 is taken as 0", name)
        found: Object = {
            "must_run": 0,
            "power_output_minimum": least,
            "power_output_maximum": most,
            "ramp_up_limit": ramp("ramp_up_60min"),
            "ramp_down_limit": ramp("ramp_down_60min"),
            "ramp_startup_limit": self.edge(unit, name, "startup_capacity", least, most),
            "ramp_shutdown_limit": self.edge(unit, name, "shutdown_capacity", least, most),
            "time_up_minimum": time("min_up_time"),
            "time_down_minimum": down,
            "power_output_t0": power if power is not None and before["unit_on_t0"] else least * before["unit_on_t0"],
            **before,
            "startup": lags,
            "piecewise_production": self.curve(unit, name, least, most),
        }
        self.commitment(unit, found, name)
        unit.drop("shutdown costs", "shutdown_cost")
        return found

    def first_of(self, unit: Taken, name: str, key: str) -> Any:
        """The curve of a unit; of a list over the periods the first one, which is noted where they differ."""
        found = unit.take(key)
        curves = values(found)
        if curves is found or not isinstance(curves, list) or not curves:
            return found
        if any(it != curves[0] for it in curves):
            self.notes.left_out(f"{key} that changes over time: its first is taken", name)
        return curves[0]

    def fuel_cost(self, unit: Taken, name: str) -> Decimal:
        found = self.number(unit, name, "fuel_cost")
        if found is None:
            raise HullError(f"{one_line(name)}, fuel_cost: a number is due, and None is found")
        return found

    def edge(self, unit: Taken, name: str, key: str, least: Decimal, most: Decimal) -> Decimal:
        """The limit of a start or a stop, of which EGRET scales what is above the least power to a period."""
        found = self.number(unit, name, key, min)
        if found is None:
            self.notes.assumed(f"no {key}: there is no such limit but the ramp", name)
        elif least < found < NO_LIMIT:
            found = least + scaled(found - least, 1 / self.per_hour)
        return limit(found, most)

    def starts(self, unit: Taken, name: str) -> List[Object]:
        """Lags with costs, one cost for all, or lags with fuel."""
        what, rows = f"{name}, startup_cost", unit.take("startup_cost")
        if rows is None and unit.value.get("startup_fuel") is not None:
            price = self.fuel_cost(unit, name)
            other = decimal(unit.take("non_fuel_startup_cost", 0), f"{name}, non_fuel_startup_cost")
            fuel = pairs(unit.take("startup_fuel"), f"{name}, startup_fuel")
            rows = [[lag, decimal(burnt, f"{name}, startup_fuel") * price + other] for lag, burnt in fuel]
        if rows is None or is_number(rows):
            cost = decimal(rows if rows is not None else unit.take("non_fuel_startup_cost", 0), what)
            rows = [[unit.value.get("min_down_time") or 1, cost]] if cost else []
        lags = (
            (in_periods(lag, self.per_hour, "startup_cost", self.notes, name), cost) for lag, cost in pairs(rows, what)
        )
        return [{"lag": lag, "cost": decimal(cost, what)} for lag, cost in lags]

    def curve(self, unit: Taken, name: str, least: Decimal, most: Decimal) -> List[Object]:
        """Points of the cost of a period."""
        cost, factor = self.first_of(unit, name, "p_cost"), Decimal(1)
        if cost is None and unit.value.get("p_fuel") is not None:
            cost, factor = self.first_of(unit, name, "p_fuel"), self.fuel_cost(unit, name)
        if cost is None:
            raise HullError(f'generator "{one_line(name)}": it has neither p_cost nor p_fuel; a p_cost of 0 is taken')
        if "fuel_cost" not in unit.seen:
            unit.drop("fuel_cost of generators whose costs are in money", "fuel_cost")
        powers, costs = self.points(cost, name, least, most)
        fixed = decimal(unit.take("no_load_cost", 0), f"{name}, no_load_cost")
        return points_of(
            powers, [scaled(factor * it + fixed, 1 / self.per_hour) for it in costs], f'generator "{name}", p_cost'
        )

    def points(self, cost: Any, name: str, least: Decimal, most: Decimal) -> Tuple[List[Decimal], List[Decimal]]:
        """Powers and costs of a number, of a list of pairs, or of a polynomial."""
        what = f"{name}, p_cost"
        if is_number(cost):
            powers = in_pieces(least, most, 1)
            return powers, [decimal(cost, what) * it for it in powers]
        if not isinstance(cost, dict) or "values" not in cost:
            raise HullError(f"{what}: a number or a cost curve is due")
        if "polynomial" in (cost.get("cost_curve_type"), cost.get("fuel_curve_type")):
            return self.polynomial(cost["values"], name, least, most)
        rows = [[decimal(it, what) for it in pair] for pair in pairs(cost["values"], what)]
        return [row[0] for row in rows], [row[1] for row in rows]

    def polynomial(
        self, factors: Object, name: str, least: Decimal, most: Decimal
    ) -> Tuple[List[Decimal], List[Decimal]]:
        if not isinstance(factors, dict) or not all(it in POWERS for it in factors):
            raise HullError(f"{name}, p_cost: a polynomial has an object of factors by their powers, 0 to 9")
        terms = [(int(power), decimal(factor, f"{name}, p_cost")) for power, factor in factors.items()]
        pieces = PIECES if any(power > 1 and factor for power, factor in terms) and most > least else 1
        if pieces > 1:
            self.notes.changed(f"polynomial costs are cut into {PIECES} straight pieces", name)
        powers = in_pieces(least, most, pieces)
        # (Decimal has no 0 to the power of 0)
        rows = ([factor * at**power if power else factor for power, factor in terms] for at in powers)
        return powers, [sum(row, Decimal(0)) for row in rows]

    def commitment(self, unit: Taken, found: Object, name: str) -> None:
        fixed, what = values(unit.take("fixed_commitment")), f'generator "{name}", fixed_commitment'
        if isinstance(fixed, list):
            found["commitment"] = [None if it is None else int(flag(it, what)) for it in fixed]
        elif fixed is not None and flag(fixed, what):
            found["must_run"] = 1
        elif fixed is not None:
            found["commitment"] = [0] * self.periods


def case_of(value: Object, notes: Notes) -> Object:
    return Model(value, notes).case()
