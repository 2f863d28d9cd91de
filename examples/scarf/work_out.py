#!/usr/bin/env python3
"""Works out the modified Scarf example by itself: cases, schedules of least cost, convex hull prices and reports.

usage: work_out.py [FOLDER]   writes DEMAND.case.json, DEMAND.schedule.json, DEMAND.words and DEMAND.output for each
                              demand to the folder, with DEMAND.prices.json, DEMAND.mixture.json and DEMAND.certify.*,
                              and prints the table of README.md

It shares nothing with `hull`: one period, no ramps, no reserve, so that each rule is a line or two of whole numbers and
fractions. Power is in kW, money in millionths.
"""
import json
import sys
from fractions import Fraction

# name, how many, start cost, cost per kW, least and greatest power
TYPES = [
    ("Smokestack", 6, 53_000_000, 3_000, 0, 16_000),
    ("HighTech", 5, 30_000_000, 2_000, 0, 7_000),
    ("MedTech", 5, 0, 7_000, 2_000, 6_000),
]
UNITS = [(f"{kind}{i}", *rest) for kind, number, *rest in TYPES for i in range(1, number + 1)]
DEMANDS = [20, 60, 100, 131, 150]
PRICE_LIMIT = 10_000_000
BUDGET, AHEAD = 100, 4


def case_of(demand):
    units = {}
    for name, start, per_kw, least, most in UNITS:
        limits = {
            limit: most / 1000
            for limit in ("ramp_up_limit", "ramp_down_limit", "ramp_startup_limit", "ramp_shutdown_limit")
        }
        points = [{"mw": at / 1000, "cost": per_kw * at / 1e6} for at in (least, most)]
        units[name] = {
            "must_run": 0,
            "power_output_minimum": least / 1000,
            "power_output_maximum": most / 1000,
            **limits,
            "time_up_minimum": 1,
            "time_down_minimum": 1,
            "power_output_t0": 0,
            "unit_on_t0": 0,
            "time_up_t0": 0,
            "time_down_t0": 1,
            "startup": [{"lag": 1, "cost": start / 1e6}] if start else [],
            "piecewise_production": points,
        }
    return {
        "time_periods": 1,
        "demand": [demand / 1000],
        "reserves": [0],
        "thermal_generators": units,
        "renewable_generators": {},
    }


def cheapest(demand):
    """The schedule of least cost: every choice of how many units of each type are on, cheapest kilowatts first."""
    best = None
    for a in range(7):
        for b in range(6):
            for c in range(6):
                on = UNITS[:a] + UNITS[6 : 6 + b] + UNITS[11 : 11 + c]
                if not sum(it[3] for it in on) <= demand <= sum(it[4] for it in on):
                    continue
                power = {it[0]: it[3] for it in on}
                left = demand - sum(power.values())
                for name, _, _, least, most in sorted(on, key=lambda it: it[2]):
                    more = min(left, most - least)
                    power[name] += more
                    left -= more
                cost = sum(it[1] + it[2] * power[it[0]] for it in on)
                if best is None or cost < best[0]:
                    best = cost, power
    return best


def hull_price(demand):
    """The slope of the total cost's convex envelope left of the demand: each type filled by its cost per kW at full power."""
    order = sorted(
        (Fraction(start + per_kw * most, most), number * most) for _, number, start, per_kw, _, most in TYPES
    )
    for price, room in order:
        demand -= room
        if demand <= 0:
            return price


def shares(demand):
    """How much of each type's full power the envelope of the total cost takes at the demand."""
    found = {}
    for kind, number, start, per_kw, _, most in sorted(TYPES, key=lambda it: Fraction(it[2] + it[3] * it[5], it[5])):
        found[kind] = Fraction(min(demand, number * most), number * most)
        demand -= found[kind] * number * most
    return found


def mixture_of(demand):
    """Each unit at full power as often as its type's share says, and else off."""
    found = shares(demand)
    whole = max(it.denominator for it in found.values())
    units = {}
    for name, _, _, _, most in UNITS:
        on = int(found[name[:-1]] * whole)
        entries = [(on, 1, most), (whole - on, 0, 0)]
        units[name] = [
            {"weight": n, "on": [is_on], "power": [power], "reserve": [0]} for n, is_on, power in entries if n
        ]
    return {"weight": whole, "thermal": units}


def certificate(demand, cost, price):
    """The text of `hull certify`: nothing is lacking, so the bound is what the mixture costs, rounded down."""
    full = {kind: start + per_kw * most for kind, _, start, per_kw, _, most in TYPES}
    bound = int(sum(share * full[kind] * number for kind, number, *_ in TYPES for share in [shares(demand)[kind]]))
    gap, distance = cost - value(price, demand), bound - value(price, demand)
    lines = [
        "hull-certificate 1",
        "periods 1",
        f"units {len(UNITS)}",
        f"cost {cost}",
        f"value {cost - gap}",
        "surplus 0",
    ]
    lines += [f"payments {gap}", f"gap {gap}", "radius 20000000", f"bound {bound}", f"distance {distance}"]
    return "\n".join([*lines, f"least {cost - bound}", "end", ""])


def answer(unit, price):
    """The least of a unit's best responses and what it earns: off unless being on earns more, and then full power."""
    name, start, per_kw, least, most = unit
    earned = (price - per_kw) * most - start
    return (most, earned) if earned > 0 else (0, 0)


def value(price, demand):
    return price * demand - sum(
        max(0, *((price - per_kw) * at - start for at in (least, most))) for _, start, per_kw, least, most in UNITS
    )


def start_price(demand):
    full_load = sorted((-(-per_kw * most // most), most) for _, _, per_kw, _, most in UNITS)
    for price, _ in full_load:
        if sum(most for other, most in full_load if other <= price) >= demand:
            return price
    return full_load[-1][0]


def rows_of(demand, cost):
    """The proposals one after another: (price, value, supply)."""
    rows, settled = [], None
    best = []  # of the rows up to each one, which is the first of the greatest value
    for n in range(1, BUDGET + 1):
        if settled is not None and settled <= n - AHEAD:
            break
        if n <= AHEAD:
            price = start_price(demand) * (7 + n) // 8
        else:
            price, row_value, supply = rows[n - AHEAD - 1]
            age = n - AHEAD - 1 - best[n - AHEAD - 1]
            gap, lacking = cost - row_value, demand - supply
            size = gap * abs(lacking) // (lacking**2 * 2 ** min(20, age // 10))
            price = max(-PRICE_LIMIT, min(PRICE_LIMIT, price + (size if lacking > 0 else -size)))
        supply = sum(answer(it, price)[0] for it in UNITS)
        rows.append((price, value(price, demand), supply))
        best.append(n - 1 if n == 1 or rows[-1][1] > rows[best[-1]][1] else best[-1])
        if settled is None and (rows[-1][1] == cost or supply == demand):
            settled = n
    return rows


def report(demand, cost, power, rows):
    lines = [
        "hull-report 1",
        "periods 1",
        f"units {len(UNITS)}",
        f"budget {BUDGET}",
        f"ahead {AHEAD}",
        f"cost {cost}",
        f"proposals {len(rows)}",
    ]
    for n, (price, row_value, supply) in enumerate(rows, 1):
        lines += [
            f"proposal {n} value {row_value}",
            f"energy {price}",
            "reserve 0",
            f"supplied {supply}",
            "reserved 0",
        ]
    chosen = max(range(len(rows)), key=lambda i: (rows[i][1], -i))
    price, best, _ = rows[chosen]
    lines += [f"chosen {chosen + 1} value {best}"]
    payments = 0
    for unit in UNITS:
        name, start, per_kw, _, _ = unit
        gives, earned = answer(unit, price)
        scheduled = (price - per_kw) * power[name] - start if name in power else 0
        payments += earned - scheduled
        lines += [
            f'unit thermal "{name}" earned {earned} scheduled {scheduled} payment {earned - scheduled}',
            f"on {int(gives > 0)}",
            f"power {gives}",
            "reserve 0",
        ]
    return (
        chosen + 1,
        price,
        best,
        "\n".join([*lines, "surplus 0", f"payments {payments}", f"gap {cost - best}", "end", ""]),
    )


def main():
    folder = sys.argv[1] if sys.argv[1:] else None
    print(
        "| Demand, MW | Least cost | Convex hull price per MWh | Value there | Best whole price | Its value | Chosen price | Chosen value |"
    )
    print("|---|---|---|---|---|---|---|---|")
    for megawatts in DEMANDS:
        demand = megawatts * 1000
        cost, power = cheapest(demand)
        exact = hull_price(demand)
        whole = max((int(exact), int(exact) + 1), key=lambda it: value(it, demand))
        rows = rows_of(demand, cost)
        chosen, price, best, text = report(demand, cost, power, rows)
        print(
            f"| {megawatts} | {cost / 1e6:.6f} | {exact} = {float(exact) / 1000:.6f} | {float(value(exact, demand)) / 1e6:.6f} | {whole} | {value(whole, demand)} | {price} | {best} |"
        )
        if folder:
            schedule = {
                "thermal": {
                    unit[0]: {"on": [int(unit[0] in power)], "power": [power.get(unit[0], 0)], "reserve": [0]}
                    for unit in UNITS
                },
                "renewable": {},
            }
            files = {
                "case.json": json.dumps(case_of(demand), indent=1) + "\n",
                "schedule.json": json.dumps(schedule) + "\n",
                "output": text,
            }
            names = f"--case {megawatts}.case.json --schedule {megawatts}.schedule.json"
            files["words"] = f"price {names}\n"
            files["prices.json"] = json.dumps({"energy": [whole / 1000]}) + "\n"
            files["mixture.json"] = json.dumps(mixture_of(demand)) + "\n"
            more = f"--prices {megawatts}.prices.json --mixture {megawatts}.mixture.json"
            files["certify.words"] = f"certify {names} {more}\n"
            files["certify.output"] = certificate(demand, cost, whole)
            for ending, content in files.items():
                with open(f"{folder}/{megawatts}.{ending}", "w", encoding="utf-8") as file:
                    file.write(content)


if __name__ == "__main__":
    main()
