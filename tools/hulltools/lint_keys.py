"""Keys of a file that `hull` skips, each with the key that is most likely meant."""
from __future__ import annotations

import difflib
from typing import Dict, Iterator, List, Optional, Tuple

from .json_places import Node, Path

THERMAL = (
    "must_run power_output_minimum power_output_maximum ramp_up_limit ramp_down_limit ramp_startup_limit ramp_shutdown_limit "
    "time_up_minimum time_down_minimum power_output_t0 unit_on_t0 time_up_t0 time_down_t0 startup piecewise_production commitment name"
).split()
# By a path whose * is any name or item, the keys that are read there; `name` is pglib-uc's own.
CASE_KEYS: Dict[Path, List[str]] = {
    (): "time_periods demand reserves thermal_generators renewable_generators demand_bids".split(),
    ("thermal_generators", "*"): THERMAL,
    ("thermal_generators", "*", "startup", "*"): ["lag", "cost"],
    ("thermal_generators", "*", "piecewise_production", "*"): ["mw", "cost"],
    ("renewable_generators", "*"): ["power_output_minimum", "power_output_maximum", "name"],
    ("demand_bids", "*"): ["blocks", "name"],
    ("demand_bids", "*", "blocks", "*", "*"): ["mw", "price"],
}
SCHEDULE_KEYS: Dict[Path, List[str]] = {
    (): ["thermal", "renewable", "bids"],
    ("thermal", "*"): ["on", "power", "reserve"],
}
PRICES_KEYS: Dict[Path, List[str]] = {(): ["energy", "reserve"]}
MIXTURE_KEYS: Dict[Path, List[str]] = {
    (): ["weight", "thermal"],
    ("thermal", "*", "*"): ["weight", "on", "power", "reserve"],
}
KEYS = {"case": CASE_KEYS, "schedule": SCHEDULE_KEYS, "prices": PRICES_KEYS, "mixture": MIXTURE_KEYS}


def nodes_at(root: Node, pattern: Path) -> Iterator[Tuple[Path, Node]]:
    """The values at a pattern, each with its path."""
    if not pattern:
        yield (), root
        return
    rows: List[Tuple[Path, Node]]
    if pattern[0] == "*":
        rows = [((key,), it) for key, it in root.members.items()]
        rows += [((i,), it) for i, it in enumerate(root.items, 1)]
    else:
        rows = [((key,), it) for key, it in root.members.items() if key == pattern[0]]
    for step, value in rows:
        yield from ((step + path, found) for path, found in nodes_at(value, pattern[1:]))


def unknown_keys(what: str, root: Node) -> Iterator[Tuple[Path, str, Node, Optional[str]]]:
    """The keys that are skipped: the path of their object, the key, its value, and the key that is most like it."""
    for pattern, known in KEYS[what].items():
        for path, node in nodes_at(root, pattern):
            for key, value in node.members.items():
                if key not in known:
                    yield path, key, value, nearest(key, known, node)


def nearest(key: str, known: List[str], node: Node) -> Optional[str]:
    """The known key that is most like the given one; of those that the object hasn't before the others."""
    for names in ([it for it in known if it not in node.members], known):
        found = difflib.get_close_matches(key.casefold(), names, 1, 0.75)
        if found:
            return found[0]
    return None
