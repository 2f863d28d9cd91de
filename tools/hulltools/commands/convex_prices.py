"""Writes the prices and the mixture that `hull convex` finds as files that `hull settle` and `hull certify` read.

usage: convex_prices.py CASE SCHEDULE PRICES MIXTURE [--within MONEY] [--rounds N] [--seconds S] [--best-schedule S2]
                        [--hull PROGRAM]

  PRICES, MIXTURE  two files that are written, both or none. What is there is replaced, but for a file that is read
  --within MONEY   the search ends at a distance of at most that, in the currency; 1.00 if left out
  --rounds N       it ends after so many rounds at most; 150 if left out
  --seconds S      the program is ended after so many seconds, at most 2000000, and nothing is written then; if left out,
                   the rounds alone limit its work. Ctrl-C ends it in the same way: an earlier end that leaves
                   prices is one by MONEY or N
  --best-schedule S2  the best schedule known: the last line then tells the schedule's part of the gap from the duality gap
  --hull PROGRAM   the program; the launcher of this repository if left out

The last line has the gap in its parts: what the schedule costs above the best one known, what no whole prices within the
limits of prices save, and what better prices might. A case or schedule that is changed meanwhile is refused, and nothing is written.
One mixture serves for any prices of the case: `hull certify` with prices of your own and MIXTURE says how near those are to the best.
"""
from __future__ import annotations

import argparse
import os
from collections.abc import Sequence
from typing import Optional

from ..errors import HullError, Tell, run_tool, try_output
from ..gap_parts import gap_parts
from ..held_files import HeldFiles
from ..kept_work import write_found
from ..numbers import money
from ..outputs import Convex
from ..program import Hull
from ..provenance import refuse_changed, sums_of_files
from .words import add_seconds, asker, distance, rounds


def arguments(words: Sequence[str]) -> argparse.Namespace:
    ask = asker("convex_prices.py", __doc__)
    for option in ("case", "schedule", "prices", "mixture"):
        ask.add_argument(option)
    ask.add_argument("--within", type=distance)
    ask.add_argument("--rounds", type=rounds)
    add_seconds(ask)
    for name in ("--best-schedule", "--hull"):
        ask.add_argument(name)
    return ask.parse_args(words)


def told(found: Convex) -> str:
    """What was reached, in one sentence."""
    reached = "as near as was asked for" if found.distance <= found.within else "as near as the search came"
    return (
        f"{reached} after {found.made} rounds: hull convex proves that the prices' dual value, {money(found.value)}, is within "
        f"{money(found.distance)} of the greatest; payments {money(found.payments)}"
    )


def body(words: Sequence[str], tell: Tell) -> None:
    given = arguments(words)
    inputs = [it for it in (given.case, given.schedule, given.best_schedule) if it]
    for name in (given.prices, given.mixture):
        try_output(name, inputs)
    if os.path.realpath(given.prices) == os.path.realpath(given.mixture):
        raise HullError(f"{given.mixture}: prices and mixture need a file each")
    hull, before = Hull(given.hull, tell, given.seconds), sums_of_files(inputs)
    # (what is refused behind the search would lose it)
    with HeldFiles() as held:
        files = held.words_of(given)
        best_cost = hull.check(files.case, files.best_schedule) if given.best_schedule else None
        found = hull.convex(files.case, files.schedule, given.within, given.rounds)
    refuse_changed(before, "the gap would be")
    parts = gap_parts(found.cost, found.value, found.bound, best_cost)
    texts = {given.prices: found.prices.text(), given.mixture: found.mixture.text()}
    write_found(texts, inputs)
    tell(told(found))
    if found.prices.told_limits:
        tell(found.prices.told_limits)
    tell(parts.sentence("at these prices", found.is_near))


def main(words: Optional[Sequence[str]] = None) -> int:
    return run_tool("convex_prices.py", body, words)
