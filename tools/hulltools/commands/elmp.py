"""Finds extended LMPs: the duals of the linear program with fast-start units relaxed and the other commitments held.

usage: elmp.py CASE SCHEDULE PRICES [--fast-start NAMES | --fast-start-up N --fast-start-cost MONEY] [--online-only]
               [--seconds S] [--hull PROGRAM]

  PRICES              where the prices are written
  --fast-start NAMES  the fast-start units, with commas between; a name that has one stands in double quotes, "A,B"
  --fast-start-up N, --fast-start-cost MONEY  in place of names: the units of a minimum up time of at most N periods (1 if left out) whose
                      dearest start costs at most MONEY (whatever it costs, if left out)
  --online-only       a fast-start unit stays off where the schedule has it off
  --seconds S         the solver is ended after so many seconds, 1800 if left out and at most 2000000, and so is the
                      program, where it is given; nothing is written then
  --hull PROGRAM      the program that checks the schedule; the launcher of this repository if left out

A fast-start unit may be on by any part between 0 and 1 in each period. It then pays that part of its cost at least power and of its start,
so both are spread over the power that it gives. MISO's ELMP (tariff, schedule 29A), and the fast-start pricing of PJM (Manual 11) and
ISO New England, relax such units so, each with rules of its own for who is eligible; Schiro, Zheng, Zhao and Litvinov (2016) set
them beside convex hull prices. Needs SciPy.

Status 3: a price was outside the limits of prices, -10,000 to 10,000 per MW and period. The limit is written in its place, and a line
tells it.
"""
from __future__ import annotations

from collections.abc import Sequence
from typing import Optional

from ..cases import read_case
from ..errors import HullError, Tell, run_tool, try_output
from ..fast_start import names_told
from ..held_files import HeldFiles
from ..kept_work import write_found
from ..linear import need_scipy
from ..program import Hull
from ..provenance import refuse_changed, sums_of_files
from ..relaxation import fast_start_prices
from ..schedules import read_schedule
from .words import add_fast_start, add_seconds, asker, fast_start, solver_seconds, status_of


def body(words: Sequence[str], tell: Tell) -> int:
    ask = asker("elmp.py", __doc__)
    for option in ("case", "schedule", "prices", "--hull"):
        ask.add_argument(option)
    add_fast_start(ask)
    add_seconds(ask)
    given = ask.parse_args(words)
    need_scipy()
    inputs = [given.case, given.schedule]
    try_output(given.prices, inputs)
    before = sums_of_files(inputs)
    with HeldFiles() as held:
        files, fast = held.words_of(given), fast_start(given)
        Hull(given.hull, tell, given.seconds).check(files.case, files.schedule)
        case = read_case(files.case)
        units = fast.units(case)
        if not units:
            raise HullError("no unit is fast-start by the rule given: these prices would be LMPs")
        prices = fast_start_prices(case, read_schedule(files.schedule, case), fast, solver_seconds(given))
    refuse_changed(before, "check and prices are")
    write_found({given.prices: prices.text()}, inputs)
    tell(f"fast-start: {names_told(units)}")
    return status_of(prices, tell)


def main(words: Optional[Sequence[str]] = None) -> int:
    return run_tool("elmp.py", body, words)
