"""The tests' market as other programs have it, written by hand after their documentation: none of their files is at hand here."""
from __future__ import annotations

import csv
import gzip
import json
import os
from typing import Any, Dict, List

import market

Json = Dict[str, Any]


def julia_thermal(unit: Json, number: int) -> Json:
    """A thermal generator of UnitCommitment.jl."""
    curve, starts = unit["piecewise_production"], unit["startup"]
    return {
        "Bus": f"b{1 + number % 2}",
        "Type": "Thermal",
        "Production cost curve (MW)": [row["mw"] for row in curve],
        "Production cost curve ($)": [row["cost"] for row in curve],
        "Startup costs ($)": [row["cost"] for row in starts],
        "Startup delays (h)": [row["lag"] for row in starts],
        "Ramp up limit (MW)": unit["ramp_up_limit"],
        "Ramp down limit (MW)": unit["ramp_down_limit"],
        "Startup limit (MW)": unit["ramp_startup_limit"],
        "Shutdown limit (MW)": unit["ramp_shutdown_limit"],
        "Minimum uptime (h)": unit["time_up_minimum"],
        "Minimum downtime (h)": unit["time_down_minimum"],
        "Initial status (h)": unit["time_up_t0"] if unit["unit_on_t0"] else -unit["time_down_t0"],
        "Initial power (MW)": unit["power_output_t0"],
        "Must run?": False,
        "Reserve eligibility": ["r1"],
    }


def unit_commitment_jl() -> Json:
    """An instance of UnitCommitment.jl, format 0.4, with a network, storage and a second reserve beside the market."""
    case = market.case()
    half = [it / 2 for it in case["demand"]]
    units = case["thermal_generators"].items()
    generators = {name: julia_thermal(it, number) for number, (name, it) in enumerate(units, 1)}
    for name, row in market.WIND.items():
        power = {"Minimum power (MW)": 0, "Maximum power (MW)": row}
        generators[name] = {"Bus": "b1", "Type": "Profiled", **power, "Cost ($/MW)": 0.0}
    blocks = enumerate(((40, 120), (30, 55), (20, 30)), 1)
    loads = {f"STEEL{i}": {"Bus": "b2", "Revenue ($/MW)": price, "Demand (MW)": mw} for i, (mw, price) in blocks}
    horizon = {"Version": "0.4", "Time horizon (h)": 24, "Time step (min)": 60}
    return {
        "Parameters": {**horizon, "Power balance penalty ($/MW)": 1000.0},
        "Buses": {"b1": {"Load (MW)": half}, "b2": {"Load (MW)": half}},
        "Generators": generators,
        "Price-sensitive loads": loads,
        "Reserves": {
            "r1": {"Type": "Spinning", "Amount (MW)": 20, "Shortfall penalty ($/MW)": 1000.0},
            "r2": {"Type": "Flexiramp", "Amount (MW)": 5},
        },
        "Transmission lines": {"l1": {"Source bus": "b1", "Target bus": "b2", "Susceptance (S)": 29.5}},
        "Storage units": {"su1": {"Bus": "b2", "Maximum level (MWh)": 100.0}},
        "Contingencies": {"c1": {"Affected lines": ["l1"]}},
    }


def over_time(values: List[Any]) -> Json:
    return {"data_type": "time_series", "values": values}


def egret_thermal(unit: Json) -> Json:
    """A thermal generator of EGRET."""
    curve = [[row["mw"], row["cost"]] for row in unit["piecewise_production"]]
    return {
        "generator_type": "thermal",
        "bus": "b1",
        "in_service": True,
        "fuel": "G",
        "fast_start": False,
        "p_min": unit["power_output_minimum"],
        "p_max": unit["power_output_maximum"],
        "p_cost": {"data_type": "cost_curve", "cost_curve_type": "piecewise", "values": curve},
        "startup_cost": [[row["lag"], row["cost"]] for row in unit["startup"]],
        "startup_capacity": unit["ramp_startup_limit"],
        "shutdown_capacity": unit["ramp_shutdown_limit"],
        "ramp_up_60min": unit["ramp_up_limit"],
        "ramp_down_60min": unit["ramp_down_limit"],
        "min_up_time": unit["time_up_minimum"],
        "min_down_time": unit["time_down_minimum"],
        "initial_status": unit["time_up_t0"] if unit["unit_on_t0"] else -unit["time_down_t0"],
        "initial_p_output": unit["power_output_t0"],
        "fixed_commitment": None,
    }


SQUARE = {"data_type": "cost_curve", "cost_curve_type": "polynomial", "values": {"0": 100, "1": 30, "2": 0.01}}


def egret() -> Json:
    """ModelData of EGRET, as its reader of pglib-uc makes it, with a branch and a storage beside the market."""
    case = market.case()
    generators = {name: egret_thermal(it) for name, it in case["thermal_generators"].items()}
    for name, row in market.WIND.items():
        power = {"p_min": over_time([0] * 24), "p_max": over_time(row)}
        generators[name] = {"generator_type": "renewable", "bus": "b2", **power, "p_cost": 0}
    load = [it + 70 for it in case["demand"]]  # (EGRET has no bids: the buyer's power is a load there)
    return {
        "elements": {
            "generator": generators,
            "load": {"L1": {"bus": "b1", "in_service": True, "p_load": over_time(load)}},
            "bus": {"b1": {"base_kv": 345}, "b2": {"base_kv": 345}},
            "branch": {"l1": {"from_bus": "b1", "to_bus": "b2", "rating_long_term": 300}},
            "storage": {"s1": {"bus": "b1", "energy_capacity": 50}},
        },
        "system": {
            "time_keys": [str(it) for it in range(1, 25)],
            "time_period_length_minutes": 60,
            "load_mismatch_cost": 5000,
            "reserve_requirement": over_time([20] * 24),
            "regulation_up_requirement": over_time([5] * 24),
        },
    }


def write_table(name: str, rows: List[List[Any]]) -> None:
    with open(name, "w", encoding="utf-8", newline="") as file:
        csv.writer(file).writerows(rows)


GENERATOR = (
    "name bus p_nom committable p_min_pu marginal_cost stand_by_cost start_up_cost min_up_time min_down_time up_time_before "
    "ramp_limit_up ramp_limit_start_up efficiency p_set"
).split()


def pypsa_generators() -> List[List[Any]]:
    """The rows of generators.csv: committable units, whose cost is a line, and wind."""
    rows: List[List[Any]] = [GENERATOR]
    for name, unit in market.case()["thermal_generators"].items():
        most, (first, *_, last) = unit["power_output_maximum"], unit["piecewise_production"]
        slope = (last["cost"] - first["cost"]) / (last["mw"] - first["mw"])
        costs = [slope, first["cost"] - slope * first["mw"], 900]
        times = [unit["time_up_minimum"], unit["time_down_minimum"], unit["time_up_t0"]]
        ramps = [unit["ramp_up_limit"] / most, unit["ramp_startup_limit"] / most]
        least = unit["power_output_minimum"] / most
        rows.append([name, "b1", most, True, least, *costs, *times, *ramps, 0.4, 1 if name == "GT5" else ""])
    return rows + [[name, "b2", 100, False, 0, 0, 0, 0, 0, 0, 1, "", "", 1, ""] for name in market.WIND]


def pypsa(folder: str) -> None:
    """A network of PyPSA as a folder: committable units, wind, loads at two buses, a line, and a storage unit."""
    os.makedirs(folder)
    case, hours = market.case(), [f"2026-11-30 {it:02}:00:00" for it in range(24)]
    write_table(f"{folder}/generators.csv", pypsa_generators())
    write_table(
        f"{folder}/snapshots.csv",
        [["snapshot", "objective", "stores", "generators"], *([it, 1.0, 1.0, 1.0] for it in hours)],
    )
    wind = [[hour, *(row[t] / 100 for row in market.WIND.values())] for t, hour in enumerate(hours)]
    write_table(f"{folder}/generators-p_max_pu.csv", [["snapshot", *market.WIND], *wind])
    write_table(f"{folder}/loads.csv", [["name", "bus", "p_set"], ["L1", "b1", 0], ["L2", "b2", 70]])
    write_table(
        f"{folder}/loads-p_set.csv", [["snapshot", "L1"], *([hour, it] for hour, it in zip(hours, case["demand"]))]
    )
    write_table(f"{folder}/buses.csv", [["name", "v_nom"], ["b1", 380], ["b2", 380]])
    write_table(f"{folder}/lines.csv", [["name", "bus0", "bus1", "s_nom"], ["l1", "b1", "b2", 500]])
    write_table(f"{folder}/storage_units.csv", [["name", "bus", "p_nom"], ["battery", "b2", 20]])
    write_table(f"{folder}/network.csv", [["name", "now"], ["market", "now"]])


def write_json(name: str, value: Json) -> None:
    data = json.dumps(value).encode()
    with open(name, "wb") as file:
        file.write(gzip.compress(data) if name.endswith(".gz") else data)
