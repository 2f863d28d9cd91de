"""Compares price lists of a case and its schedule: what each unit is paid, what consumers pay, and what the gap comes from.

usage: study.py CASE FOLDER [--schedule S] [--best-schedule S2 | --no-schedule] [--prices NAME=FILE].. [--zones FILE] [--search] [--skip LISTS]
                [--fast-start NAMES | --fast-start-up N --fast-start-cost MONEY] [--online-only] [--rule make-whole|full]
                [--title T] [--currency C] [--start TIME] [--hours-per-period H]
                [--gap G] [--nodes N] [--seconds S] [--within MONEY] [--rounds N] [--hull PROGRAM]

  CASE                a case as `hull` reads it
  FOLDER              gets the page study.html, the tables table.csv, units.csv and hours.csv, and the prices, settlements, mixture and
                      certificate
  --schedule S        a feasible schedule; if left out, one is made, and FOLDER gets it as schedule.json
  --best-schedule S2  the best schedule known, by which the schedule's part of the gap is told; with --schedule alone one is made for that,
                      and FOLDER gets it as best.schedule.json
  --no-schedule       make no schedule beside S: schedule's part and duality gap then stand as one

  --prices NAME=FILE  a prices file as a further list; as often as wanted
  --zones FILE        prices by zone, as for settle_zones.py: payments by unit at these stand beside those at the lists
  --search            the lists of `hull price` too, a subgradient search with 100 and with up to 1,000 proposals
  --skip LISTS        leave these lists out, with commas between: lmp, relaxation, elmp, convex_hull, subgradient_100, subgradient_1000,
                      zonal, or the NAME of a file; as often as wanted
  --fast-start NAMES  the fast-start units of the list ELMP, with commas between; a name that has one stands in double quotes, "A,B"
  --fast-start-up N, --fast-start-cost MONEY  in place of names: the units of a minimum up time of at most N periods (1 if left out) whose
                      dearest start costs at most MONEY (whatever it costs, if left out)
  --online-only       a fast-start unit stays off where the schedule has it off

  --rule RULE         payments under this rule alone: make-whole, or full, which adds lost opportunity; both if left out
  --title, --currency  what the page is called, and what money is in
  --start TIME        when period 1 begins, as 2026-07-01T00:00, up to the year 9000; where clocks change with its offset, as 2026-10-25T00:00+02:00
  --hours-per-period H  how long a period is, as 0.25 or 1/12, from 1/3600 to 8784; prices are then told per MWh. --start
                      takes an hour if left out, but for 46, 50, 92, 94, 96, 98, 100, 142 or 146 periods, where it is refused

  --gap, --nodes      when a search for a schedule ends, as for make_schedule.py
  --within, --rounds  when the search of `hull convex` ends: at a distance of 1.00, or after 150 rounds, if left out
  --seconds S         an outer limit of each step, at most 2000000. After so many seconds, 1800 if left out, a solver is
                      ended, and so is a call of the program, whose work ends by rounds and case if left out.
                      A list that takes longer is left out, and the page says so
  --hull PROGRAM      the program that checks, settles and certifies; the launcher of this repository if left out

Nothing that is written was chosen by the clock: what the searches find depends on the files, the words and the versions of SciPy and HiGHS,
which the page names. Status 3: the files are written, and a schedule that was made misses its gap, or none was made beside S, or a list took
too long, or its prices were cut at the limits of prices, or convex hull prices miss their distance; the page says so.

FOLDER is that of one study: its files come there together, in place of those of the study before, when all are made. After Ctrl-C, TERM or HUP
these are the lists that were there by then, and UNFINISHED.txt says which are missing, with status 130, 143 or 129; a third one ends it at
once, but for HUP. Where nothing was made FOLDER stays as it was. A file that no study made, or that was changed since, isn't replaced: the
study is refused, with status 2. docs/STUDY.md says what the lists are and how the page is read. Needs SciPy.
"""
from __future__ import annotations

import argparse
import contextlib
import os
from collections.abc import Callable, Iterator, Sequence
from dataclasses import dataclass, replace
from types import SimpleNamespace
from typing import TYPE_CHECKING, Optional, Type

from ..cases import Case, read_case
from ..clock import Clock
from ..errors import HullError, Tell, is_utf8, one_line, run_tool, write_together
from ..linear import is_below, need_scipy
from ..held_files import HeldFiles, is_pipe
from ..lint import first_look
from ..numbers import Millionths, in_currency, money
from ..prices import read_prices
from ..progress import step
from ..program import Hull
from ..provenance import Provenance, Source, command_line, date_of_run, refuse_changed, sha256_of, sums_of_files
from ..provenance import versions
from ..schedules import read_schedule
from ..scheduling import Made
from ..settlement_rules import RULES
from ..study_folder import StudyFolder
from ..zones import read_zones
from .make_schedule import make
from .words import (
    MISSED_GAP,
    Asker,
    add_fast_start,
    add_search_limits,
    asker,
    distance,
    fast_start,
    hours,
    rounds,
    search_limits,
    solver_seconds,
    time,
)

if TYPE_CHECKING:
    from ..studies import Study, Wanted


def named_file(text: str) -> tuple[str, str]:
    name, mark, file = text.partition("=")
    if not name or not mark or not file:
        raise argparse.ArgumentTypeError(f"{text}: NAME=FILE is due")
    return name, file


def arguments(words: Sequence[str], kind: Type[Asker] = Asker) -> argparse.Namespace:
    ask = asker("study.py", __doc__, kind)
    for word in ("case", "folder", "--schedule", "--zones", "--hull"):
        ask.add_argument(word)
    best = ask.add_mutually_exclusive_group()
    best.add_argument("--best-schedule")
    best.add_argument("--no-schedule", action="store_true")
    ask.add_argument("--prices", type=named_file, action="append", default=[])
    ask.add_argument("--search", action="store_true")
    ask.add_argument("--skip", action="append", default=[])
    add_fast_start(ask)
    ask.add_argument("--rule", choices=tuple(RULES))
    for word in ("--title", "--currency"):
        ask.add_argument(word, default="")
    ask.add_argument("--start", type=time)
    ask.add_argument("--hours-per-period", type=hours)
    add_search_limits(ask)
    ask.add_argument("--within", type=distance)
    ask.add_argument("--rounds", type=rounds)
    given = ask.parse_args(words)
    if given.no_schedule and not given.schedule:
        ask.error("--no-schedule goes with --schedule")
    refuse_names(given, words)
    return given


def refuse_names(given: argparse.Namespace, words: Sequence[str]) -> None:
    """Refuses names of files that the program can't be given, and names of lists that can't be."""
    from ..studies import keys_of, skipped

    odd = next((word for word in (*words, os.path.realpath(given.folder)) if not is_utf8(word)), None)
    if odd is not None:
        raise HullError(f"{one_line(odd)}: this name isn't UTF-8")
    names = [name for name, _ in given.prices]
    keys_of(names)
    skipped(given.skip, names)


def wanted(given: argparse.Namespace, case: Case) -> Wanted:
    from ..studies import Wanted, need_a_list, skipped

    files = {name: read_prices(file, case.periods) for name, file in given.prices}
    clock = Clock(given.hours_per_period, given.start)
    clock.need_length(case.periods)
    rules = [given.rule] if given.rule else list(RULES)
    zones = read_zones(given.zones, case) if given.zones else None
    found = Wanted(given.search, fast_start(given), files, zones, rules, given.title, given.currency, clock)
    found.within, found.rounds, found.seconds = given.within, given.rounds, solver_seconds(given)
    found.skip = skipped(given.skip, list(files))
    need_a_list(found, case)  # (this, and a fast-start unit that there isn't, is refused before anything is made)
    return found


@dataclass
class Schedules:
    """The schedule, its cost, and the best one known, which may be the same."""

    schedule: Source
    cost: Millionths
    best: Optional[Source] = None
    best_cost: Optional[Millionths] = None
    missing: str = ""  # why no best schedule was made


def made_source(given: argparse.Namespace, name: str, tell: Tell) -> tuple[Source, Millionths]:
    """Makes a schedule at a place; the source and its cost."""
    words = SimpleNamespace(case=given.case, schedule=name, follow=None, hull=given.hull, seconds=given.seconds)
    found, cost, reached = make(words, search_limits(given), tell)
    tell(f"a schedule is made: cost {money(cost)}; {reached}")
    return made_by_search(words.schedule, found, reached), cost


def made_by_search(name: str, found: Made, reached: str) -> Source:
    how = f"made by make_schedule.py, {reached}"
    return Source(name, sha256_of(name), how, found.gap, found.is_near is not False, found.lowest)


def given_source(hull: Hull, case: str, name: str) -> tuple[Source, Millionths]:
    return Source(name, sha256_of(name), "given"), hull.check(case, name)


def schedules_of(given: argparse.Namespace, hull: Hull, room: str, tell: Tell) -> Schedules:
    """The schedule and the best one known, made in the room where they aren't given."""
    names = (given.schedule, given.best_schedule)
    known, best = (given_source(hull, given.case, name) if name else None for name in names)
    if known is None:
        with step("a schedule"):
            known = made_source(given, os.path.join(room, "schedule.json"), tell)
    found = Schedules(*known)
    if best:
        found.best, found.best_cost = best
    elif given.schedule and not given.no_schedule:
        try:
            with step("a schedule beside the one given"):
                found.best, found.best_cost = made_source(given, os.path.join(room, "best.schedule.json"), tell)
        except HullError as why:
            found.missing = f"No schedule was made beside this one: {why.line}."
            tell(found.missing)
    elif not given.schedule:
        found.best_cost = found.cost
    looked_at = with_dearer_told(found)
    if looked_at.best and looked_at.best is not found.best:
        tell(f"the other schedule: {looked_at.best.made}")
    return looked_at


def with_dearer_told(found: Schedules) -> Schedules:
    """The same; where the one that was to be the best costs more than the schedule itself, that is said of it."""
    more = 0 if found.best_cost is None else found.best_cost - found.cost
    if found.best is None or more <= 0:
        return found
    told = f"it costs {money(more)} more than the schedule, which is the best one known"
    is_near = found.best.is_near
    if found.best.bound is not None and is_below(float(in_currency(found.cost)), found.best.bound):
        is_near, told = False, f"{told}, so the solver's bound is wrong"
    made = f"{found.best.made}; {told}"
    return replace(found, best=replace(found.best, made=made, is_near=is_near), best_cost=found.cost)


def study_of(
    given: argparse.Namespace,
    words: Sequence[str],
    hull: Hull,
    room: str,
    tell: Tell,
    look: Callable[[Sequence[str]], None] = lambda names: None,
    until_written: Optional[contextlib.ExitStack] = None,
) -> Study:
    """The study with the lists that could be made, whose files are written to the room; `look` gets the names of all files that it may write, first.

    An interrupt behind the last list is heard at the end of `until_written`.
    """
    from ..studies import Maker, Study, files_of

    # (prices and zones are read once, and the program reads these again and again)
    read_again = [it for it in (given.case, given.schedule, given.best_schedule) if it]
    date, before = date_of_run(), sums_of_files(read_again)
    with HeldFiles() as held:
        given = held.words_of(given)
        case = read_case(given.case)
        want = wanted(given, case)
        is_best_made = bool(given.schedule and not given.best_schedule and not given.no_schedule)
        look(files_of(want, not given.schedule, is_best_made))
        found = schedules_of(given, hull, room, tell)
        files = (given.case, found.schedule.name)
        best = found.best and held.named(found.best)
        sources = (held.own(given.case), sha256_of(given.case), held.named(found.schedule), best)
        with step("versions"):
            origin = Provenance(*sources, versions(hull), command_line("study.py", list(words)), date)
        study = Study(case, read_schedule(files[1], case), want, origin, found.cost, found.best_cost)
        if found.missing:
            study.is_short = True
            study.notes.append(held.with_own_names(found.missing))
        Maker(hull, files, study, room, tell).make(until_written)
    refuse_changed(before, "the lists are")
    return study


def need_lists(study: Study) -> None:
    """Refuses a study without a list of prices, by what left the first one out."""
    if not study.lists:
        told = " ".join(study.notes).rstrip(".") or "all are skipped"
        raise study.interrupted or study.failure or HullError(f"there is no list of prices: {told}")


def write_results(study: Study, room: str) -> None:
    """The tables and the page, which offers the tables and prices for download; of a list that isn't there no file stays."""
    from ..studies import files_of_list
    from ..study_page import study_page
    from ..study_tables import tables_of_study

    with step("tables and page"):
        for name in os.listdir(room):
            key = name.split(".")[0]
            if name in files_of_list(key) and key not in study.lists:
                os.unlink(os.path.join(room, name))
        texts = {name: table.text() for name, table in tables_of_study(study).items()}
        prices = {f"{key}.prices.json": it.settlement.prices.text() for key, it in study.lists.items()}
        page = study_page(study, {**texts, **prices})
        write_together({os.path.join(room, name): text for name, text in {**texts, "study.html": page}.items()})


def write_study(study: Study, folder: StudyFolder) -> None:
    """Writes what the folder is to have. Without a list of prices a schedule that was made is kept: its search may have taken hours."""
    with folder.keeping():
        need_lists(study)
        write_results(study, folder.room)


@contextlib.contextmanager
def kept_where_interrupted(folder: StudyFolder, tell: Tell) -> Iterator[None]:
    """Keeps what was made, as a schedule, where an interrupt comes before the study is written; a line says where it is."""
    try:
        yield
    except KeyboardInterrupt:
        if folder.is_begun and folder.has_work():
            tell(f"interrupted before the study was written; {folder.kept_room()}")
        raise


def inputs_of(given: argparse.Namespace) -> list[str]:
    names = (given.case, given.schedule, given.best_schedule, given.zones, *(file for _, file in given.prices))
    return [it for it in names if it]


def study_in(
    folder: StudyFolder,
    given: argparse.Namespace,
    words: Sequence[str],
    hull: Hull,
    tell: Tell,
    warnings: Sequence[str] = (),
) -> Study:
    """The study, whose files are placed in the folder; the warnings are among its notes."""
    with contextlib.ExitStack() as until_written, kept_where_interrupted(folder, tell):
        study = study_of(given, words, hull, folder.room, tell, folder.refuse, until_written)
        study.notes += warnings
        write_study(study, folder)
        folder.place(study.unfinished)
    return study


def body(words: Sequence[str], tell: Tell) -> int:
    given = arguments(words)
    need_scipy()
    hull = Hull(given.hull, tell, given.seconds)
    hull.need("convex")
    names = {"case": given.case, "schedule": given.schedule}
    with StudyFolder(given.folder, inputs_of(given)) as folder:
        with step("looking at the files"):
            there = {what: name for what, name in names.items() if name and not is_pipe(name)}
            warnings = first_look(there, tell, float(given.hours_per_period or 1)) if "case" in there else []
        study = study_in(folder, given, words, hull, tell, warnings)
    tell(study.sentence("at"))
    if study.interrupted:
        tell(
            f"{study.unfinished or 'Interrupted.'} {os.path.join(given.folder, 'study.html')} has those that are there"
        )
        return study.interrupted.status
    tell(f"{os.path.join(given.folder, 'study.html')} and the tables beside it are written")
    return MISSED_GAP if study.is_less else 0


def main(words: Optional[Sequence[str]] = None) -> int:
    return run_tool("study.py", body, words)
