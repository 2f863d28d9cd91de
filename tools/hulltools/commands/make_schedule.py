"""Makes a feasible schedule in whole kilowatts for a case.

usage: make_schedule.py CASE SCHEDULE [--gap G] [--nodes N] [--seconds S] [--follow FILE [--tolerance MW] [--deviations TABLE]] [--hull PROGRAM]

  CASE            a case as `hull` reads it (docs/FORMATS.md); one that is changed during the search is refused
  SCHEDULE        where the schedule is written, once `hull check` has accepted it
  --gap G         end at a cost within this share of the solver's bound; 0.0005 if left out
  --nodes N       end after so many nodes of the solver's tree, and take what it has, with status 3; at most 2147483647,
                  200 if left out
  --seconds S     an outer limit, at most 2000000: after so many seconds, and two more for what the solver has to say, the
                  search is ended and refused, and nothing is written; 1800 if left out. A call of the program is ended
                  after so many where they are given
  --follow FILE   no search: the commitments of a schedule in megawatts from elsewhere, and whole kilowatts as near to its powers as
                  can be; of these the cheapest, and powers that FILE hasn't are free. JSON as egret and UnitCommitment.jl write
                  it, plain or .json.gz, or as a schedule of hull in megawatts, the folder of a solved PyPSA network, or a csv with the columns
                  unit, period, on, power and reserve. A unit with a row in the csv has one for each period, and an empty cell is 0 where the
                  unit is off. Units of FILE and of the case are the same by their names
  --tolerance MW  with --follow: write no schedule where a power is farther than this from FILE's
  --deviations TABLE  with --follow: a csv of the powers and reserves that aren't FILE's, the farthest first; it is written also where
                  --tolerance or `hull check` refuses the schedule
  --hull PROGRAM  the program that checks; the launcher of this repository if left out

Gap and nodes don't depend on the clock: the same version of SciPy makes the same schedule of a case. The last line says how far above the
bound the cost of `hull check` is, as a share of that cost. Status 3 means that SCHEDULE is written and feasible, and that the solver's own
cost and bound miss the gap.

Needs SciPy with its solver HiGHS (Debian: python3-scipy, with /usr/bin/python3). Nothing of this tool is proved, and nothing has to
be: `hull check`, which is, holds the schedule against every rule. That no schedule costs less than the bound is the solver's word
alone.

Three steps: which units are on (a mixed integer program), what each gives (the same with those choices held), and the whole
kilowatts next to that which balance exactly and cost least (a small integer program).
"""
from __future__ import annotations

import argparse
from collections.abc import Sequence
from types import SimpleNamespace
from typing import Optional, Union

from ..cases import Case, read_case
from ..deviations import farthest, in_words, table_text
from ..external_schedules import free_units, has_powers, read_followed, some, strangers
from ..held_files import HeldFiles
from ..kept_work import write_found
from ..linear import need_scipy
from ..numbers import Millionths, money
from ..program import Hull
from ..provenance import refuse_changed, sums_of_files
from ..scheduling import Made, follow, make_schedule
from ..search_limits import SearchLimits
from ..errors import HullError, Tell, files_at, refuse_twice, run_tool, try_output, write_whole
from .words import MISSED_GAP, add_search_limits, asker, positive, search_limits, solver_seconds

Given = Union[argparse.Namespace, SimpleNamespace]


def arguments(words: Sequence[str]) -> argparse.Namespace:
    ask = asker("make_schedule.py", __doc__)
    ask.add_argument("case")
    ask.add_argument("schedule")
    add_search_limits(ask)
    ask.add_argument("--follow")
    ask.add_argument("--tolerance", type=positive)
    ask.add_argument("--deviations")
    ask.add_argument("--hull")
    return ask.parse_args(words)


def checked_case(hull: Hull, name: str) -> Case:
    """The case of a file that `hull` accepts."""
    why = hull.refusal_of_case(name)
    if why:
        raise HullError(f"hull refuses the case: {why} (docs/FAULTS.md)")
    return read_case(name)


def inputs_of(given: Given) -> list[str]:
    """What is read, and so is never replaced."""
    return [given.case, *(files_at(given.follow) if given.follow is not None else [])]


def followed_schedule(given: Given, case: Case, tell: Tell) -> tuple[Made, str]:
    """What follows a schedule from elsewhere, and how far it is from that."""
    followed = read_followed(given.follow, case)
    if free := free_units(followed, case):
        tell(f"{given.follow} has no powers of {some(free)}, which are free")
    if followed.skipped:
        tell(f"{given.follow} has {some(followed.skipped)}, which nothing reads")
    if followed.guessed:
        tell(f"{given.follow} has no on flags of {some(followed.guessed)}: off is taken where the power is 0")
    made = follow(case, followed, given.follow, solver_seconds(given))
    found = made.deviations
    if given.deviations is not None:
        write_whole(given.deviations, table_text(found), inputs_of(given))
    told = in_words(found, given.follow, has_powers(followed, case))
    if unknown := strangers(followed, case):
        told += f"; the case has no {some(unknown)}, which it names"
    if given.tolerance is not None and farthest(found, "power") > 1e3 * given.tolerance:
        raise HullError(f"no schedule is written, since {told}; --tolerance {given.tolerance:g} MW was asked for")
    return made, told


def searched_schedule(case: Case, limits: SearchLimits, tell: Tell) -> Made:
    """What a search finds."""
    sizes = f"{len(case.thermal)} thermal and {len(case.renewable)} renewable units, {len(case.bids)} bids, {case.periods} periods"
    tell(f"{sizes}: searching for at most {limits.nodes} nodes and {limits.seconds:g} s")
    return make_schedule(case, limits)


def make(given: Given, limits: SearchLimits, tell: Tell) -> tuple[Made, Millionths, str]:
    """Makes the schedule, has it checked, writes it; what was made, its cost in millionths and what is to be said of it."""
    hull = Hull(given.hull, tell, given.seconds)
    before = sums_of_files([given.case])
    with HeldFiles() as held:
        name = held.of(given.case)
        case = checked_case(hull, name)
        reached: Optional[str] = None
        if given.follow is not None:
            found, reached = followed_schedule(given, case, tell)
        else:
            found = searched_schedule(case, limits, tell)
        try:
            cost = hull.check(name, found.schedule)
        except HullError as why:
            raise HullError(f"no schedule is written, since what was found is refused: {why.line}") from None
    refuse_changed(before, "search and check are", "no schedule is written")
    write_found({given.schedule: found.schedule.text()}, inputs_of(given))
    return found, cost, reached or found.told(cost)


def body(words: Sequence[str], tell: Tell) -> int:
    given = arguments(words)
    if given.follow is None and (given.tolerance is not None or given.deviations is not None):
        raise HullError("--tolerance and --deviations go with --follow")
    need_scipy()
    refuse_twice([given.schedule, given.deviations])
    inputs = inputs_of(given)
    for output in (given.schedule, given.deviations):
        if output is not None:
            try_output(output, inputs)
    found, cost, reached = make(given, search_limits(given), tell)
    tell(f"hull check accepts {given.schedule}: cost {money(cost)}; {reached}")
    return MISSED_GAP if found.is_near is False else 0


def main(words: Optional[Sequence[str]] = None) -> int:
    return run_tool("make_schedule.py", body, words)
