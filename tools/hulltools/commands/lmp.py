"""Finds ordinary marginal prices: the duals of the linear program with the schedule's commitments held.

usage: lmp.py CASE SCHEDULE PRICES [--seconds S] [--hull PROGRAM]

  PRICES          where the prices are written
  --seconds S     the solver is ended after so many seconds, 1800 if left out and at most 2000000, and so is the
                  program, where it is given; nothing is written then
  --hull PROGRAM  the program that checks the schedule; the launcher of this repository if left out

These are the prices that an ordinary market sets once the commitment is given. Where several prices are right, as at a kink of a cost
curve, the solver takes one. Needs SciPy.

Status 3: a price was outside the limits of prices, -10,000 to 10,000 per MW and period. The limit is written in its place, and a line
tells it.
"""
from __future__ import annotations

from collections.abc import Sequence
from typing import Optional

from ..cases import read_case
from ..held_files import HeldFiles
from ..linear import need_scipy
from ..program import Hull
from ..provenance import refuse_changed, sums_of_files
from ..relaxation import held_prices
from ..schedules import read_schedule
from ..errors import Tell, run_tool, try_output
from ..kept_work import write_found
from .words import add_seconds, asker, solver_seconds, status_of


def body(words: Sequence[str], tell: Tell) -> int:
    ask = asker("lmp.py", __doc__)
    for option in ("case", "schedule", "prices", "--hull"):
        ask.add_argument(option)
    add_seconds(ask)
    given = ask.parse_args(words)
    need_scipy()
    inputs = [given.case, given.schedule]
    try_output(given.prices, inputs)
    before = sums_of_files(inputs)
    with HeldFiles() as held:
        files = held.words_of(given)
        Hull(given.hull, tell, given.seconds).check(files.case, files.schedule)
        case = read_case(files.case)
        prices = held_prices(case, read_schedule(files.schedule, case), solver_seconds(given))
    refuse_changed(before, "check and prices are")
    write_found({given.prices: prices.text()}, inputs)
    return status_of(prices, tell)


def main(words: Optional[Sequence[str]] = None) -> int:
    return run_tool("lmp.py", body, words)
