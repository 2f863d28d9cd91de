#!/usr/bin/env python3
"""Writes case.json: the case of examples/day with convex cost curves.

usage: make_case.py

Each cost curve becomes the lower convex envelope of its points. Each slope is rounded to a thousandth of the currency per MWh: with such
slopes the cost of a power is exactly that of the straight lines between the points. All else is as in examples/day.
"""
import json
import os
from decimal import Decimal

HERE = os.path.dirname(os.path.abspath(__file__))
THOUSANDTH = Decimal("0.001")


class Written(str):
    """A number as a file has it."""


def envelope(points):
    """The corners of the lower convex envelope of (power, cost) points in order of power."""
    corners = []
    for power, cost in points:
        while len(corners) > 1 and slope(corners[-2], corners[-1]) >= slope(corners[-2], (power, cost)):
            corners.pop()
        corners.append((power, cost))
    return corners


def slope(first, last):
    return (last[1] - first[1]) / (last[0] - first[0])


def with_whole_slopes(corners):
    found = corners[:1]
    for first, last in zip(corners, corners[1:]):
        found.append((last[0], found[-1][1] + slope(first, last).quantize(THOUSANDTH) * (last[0] - first[0])))
    return found


def convex(unit):
    points = [(Decimal(it["mw"]), Decimal(it["cost"])) for it in unit["piecewise_production"]]
    corners = with_whole_slopes(envelope(points))
    return {**unit, "piecewise_production": [{"mw": Written(power), "cost": Written(cost)} for power, cost in corners]}


def text_of(value):
    """JSON in which numbers stand as they were read."""
    if isinstance(value, dict):
        return "{" + ",".join(f"{json.dumps(key)}:{text_of(it)}" for key, it in value.items()) + "}"
    if isinstance(value, list):
        return "[" + ",".join(map(text_of, value)) + "]"
    return value if isinstance(value, Written) else json.dumps(value)


def main():
    with open(f"{HERE}/../day/case.json", encoding="utf-8") as file:
        case = json.load(file, parse_float=Written, parse_int=Written)
    case["thermal_generators"] = {name: convex(unit) for name, unit in case["thermal_generators"].items()}
    with open(f"{HERE}/case.json", "w", encoding="utf-8") as file:
        file.write(text_of(case).replace('},"GEN', '},\n"GEN').replace('},"REN', '},\n"REN') + "\n")


main()
