"""Studies a case under changes, one at a time, and gathers the results in one table and a picture.

usage: sweep.py CASE FOLDER [--demand P].. [--wind P].. [--offer NAME=P].. [--outage NAME].. [--hull PROGRAM] [-- WORDS]

  CASE             a case as `hull` reads it; it is studied as it is too, as the scenario `base`
  FOLDER           gets sweep.csv, a row for each scenario and price list, sweep.svg, and a folder for each scenario
  --demand P       demand times 1 + P, as --demand=-2% or --demand=-2%,+2%; each P has its %
  --wind P         the same of the power of all renewable units
  --offer NAME=P   the same of the cost curve of a thermal unit; its start costs stay
  --outage NAME    the case without the unit or buyer; where units of two kinds have the name, with the kind before it, as
                   thermal:G2, renewable:G2 or bid:G2
  --hull PROGRAM   the program; the launcher of this repository if left out
  -- WORDS         what stands behind -- are words of study.py, as --search or --gap 0.001

Each scenario gets a schedule of its own. A scenario that is done stays so: after an interrupt the same words go on with what is left, and what
was made of another case, by other words, by another program or another version of SciPy is made anew. The key by which a run knows its own
lies in your home; where none can be kept, a line says so, and each run makes all anew. A scenario whose case can't be met is told and left out, with status 1 in the end.
One of which a list took longer than --seconds, or has prices that were cut, is done too: each run tells it, and ends with status 3.
Other --seconds make these anew, and no others. A search that missed its gap or its distance is told so too.
A file that no sweep made is refused before anything is made, with status 2; one that was changed since gets another name, which is told.
The table and picture of the sweep before go first. Where another sweep changes a scenario meanwhile there are none, with status 1. After Ctrl-C, TERM or HUP they have the scenarios that are done, and UNFINISHED.txt says so, with status
130, 143 or 129; --seconds and --skip behind --
limit the steps of each scenario. Needs SciPy.
"""
from __future__ import annotations

import argparse
import hashlib
import os
from collections.abc import Sequence
from contextlib import ExitStack
from dataclasses import replace
from functools import cached_property
from typing import TYPE_CHECKING, Optional

from .. import __version__
from ..cases import Case, read_case
from ..done_marks import Mark, done_text, files_done, key_file, lasts
from ..errors import (
    Found,
    HullError,
    Interrupted,
    NotOurs,
    Tell,
    heard_later,
    one_line,
    run_tool,
    taken,
    write_together,
    write_whole,
)
from ..linear import need_scipy
from ..progress import step
from ..program import Hull
from ..provenance import scipy_version, sha256_of
from ..studies import files_of
from ..study_folder import OWN, StudyFolder, bytes_in, sha256_in
from ..study_tables import lists_table
from ..sweeping import Scenario, joined, picture_of_sweep, scenarios_of
from .study import arguments as study_arguments
from .study import inputs_of, need_lists, study_of, wanted
from .words import asker

if TYPE_CHECKING:
    from ..studies import Study

SWEEP = "sweep.py"
CASE, TABLE, DONE = "case.json", "table.csv", "done.json"  # of each scenario
LACKS = "lacks.txt"  # where a scenario is done and isn't all that was asked for, as without a list that took too long: its study says so here
SHORT = 3  # the status where there is a scenario of that kind
GATHERED = ("sweep.csv", "sweep.svg")
HINT = "the variable XDG_STATE_HOME may name a folder where it can"
NOT_THERE = (
    "The table and the picture of this sweep aren't there: it is at work, or was ended, or left every scenario out."
)


def arguments(words: Sequence[str]) -> argparse.Namespace:
    ask = asker("sweep.py", __doc__)
    for option in ("case", "folder", "--hull"):
        ask.add_argument(option)
    for option in ("demand", "wind", "offer", "outage"):
        ask.add_argument(f"--{option}", action="append", default=[])
    place = words.index("--") if "--" in words else len(words)
    given = ask.parse_args(words[:place])
    given.more = list(words[place + 1 :]) + (["--hull", given.hull] if given.hull else [])
    given.hull = study_arguments([given.case, given.folder, *given.more]).hull  # (which may stand behind -- too)
    return given


def files_read(given: argparse.Namespace) -> list[str]:
    """The files that are read: the case, and those that words of study.py name."""
    return inputs_of(study_arguments([given.case, given.folder, *given.more]))


def sums_of_named(names: Sequence[str]) -> dict[str, str]:
    """The sums of the files that words name."""
    return {name: sha256_of(name) for name in names if os.path.isfile(name)}


def words_and_seconds(words: Sequence[str]) -> tuple[list[str], Optional[str]]:
    """Words of study.py without --seconds, and what that has, which is no part of what a search finds within it."""
    ask = argparse.ArgumentParser(add_help=False)
    ask.add_argument("--seconds")
    found, rest = ask.parse_known_args(list(words))
    return rest, found.seconds


def work_of(case: str, words: Sequence[str], inputs: Sequence[str], program: Sequence[str]) -> Mark:
    """What a scenario's files are made of, and by which program."""
    total, (rest, seconds) = hashlib.sha256(case.encode()).hexdigest(), words_and_seconds(words)
    made_by = {"tool": SWEEP, "version": __version__, "program": list(program), "scipy": scipy_version()}
    return {**made_by, "case": total, "words": rest, "seconds": seconds, "inputs": sums_of_named(inputs)}


def in_any_time(work: Mark) -> Mark:
    """The work of a scenario that lacks nothing: it is the same whatever --seconds are."""
    return {**work, "seconds": "any"}


def folder_of(folder: str, scenario: Scenario, inputs: Sequence[str]) -> StudyFolder:
    """The folder of a scenario, which lies in that of the sweep and nowhere else."""
    place = os.path.join(folder, scenario.key)
    if os.path.islink(place):
        raise NotOurs(f"{place}: this is a link, where a scenario's folder is due: move it away")
    return StudyFolder(place, inputs, SWEEP, keeps_changed=True)


def write_scenario(place: StudyFolder, study: Study, work: Mark) -> str:
    """Puts the files of a scenario's study in their places, with the mark that it is done if no list has failed; its table."""
    table = lists_table(study).text()
    write_whole(os.path.join(place.room, TABLE), table)
    if study.is_less:
        notes = "".join(f"{one_line(it)}\n" for it in (*study.missed_gaps, *study.notes))
        write_whole(os.path.join(place.room, LACKS), notes)
    sums = {name: sha256_in(place.room, name) for name in os.listdir(place.room) if name != OWN}
    if study.failure is None:
        of_mark = work if study.is_short else in_any_time(work)
        write_whole(os.path.join(place.room, DONE), done_text(of_mark, sums))
    place.place()
    return table


def make_scenario(
    place: StudyFolder, case: str, words: Sequence[str], hull: Hull, tell: Tell, until_written: ExitStack
) -> Study:
    """The study of one scenario, whose files are made in the room of its folder."""
    case_file = os.path.join(place.room, CASE)
    write_whole(case_file, case)
    given, shown = study_arguments([case_file, place.named, *words]), os.path.join(place.named, CASE)
    if given.fast_start:  # (the case as it is has all of these, and this one perhaps not: a unit is out)
        there = {unit.name for unit in read_case(case_file).thermal}
        out = [name for name in given.fast_start if name not in there]
        given.fast_start = [name for name in given.fast_start if name in there]
        if out:
            less = "" if given.fast_start else ", and no other unit is named: there is no list ELMP"
            tell(f"{one_line(', '.join(out))} of --fast-start is out{less}")
    study = study_of(given, [shown, place.named, *words], hull, place.room, tell, place.refuse, until_written)
    need_lists(study)
    if study.interrupted:
        raise study.interrupted
    study.provenance = replace(study.provenance, case_name=shown)
    return study


def sums_done(folder: str, work: Mark) -> dict[str, str]:
    """The files of a scenario that is done, with their sums."""
    return files_done(in_any_time(work), folder, DONE) or files_done(work, folder, DONE)


def table_done(folder: str, work: Mark) -> Optional[str]:
    """The table of a scenario that is done."""
    due, data = sums_done(folder, work).get(TABLE), bytes_in(folder, TABLE) or b""
    return data.decode("utf-8") if hashlib.sha256(data).hexdigest() == due else None


def lacks_of(folder: str, work: Mark) -> list[str]:
    """In sentences what the study of a scenario that is done says of it, where it isn't all that was asked for."""
    is_there = LACKS in sums_done(folder, work)
    return (bytes_in(folder, LACKS) or b"").decode("utf-8", "replace").splitlines() if is_there else []


def table_of(folder: StudyFolder, case: str, words: Sequence[str], work: Mark, hull: Hull, tell: Tell) -> str:
    """The table of one scenario, made where it isn't there yet."""
    done = table_done(folder.folder, work)
    if done is not None:
        lacks = lacks_of(folder.folder, work)
        tell(" ".join([f"{folder.named}: it is done{'; its study says:' if lacks else ''}", *lacks]))
        return done
    with folder as place, ExitStack() as until_written:
        study = make_scenario(place, case, words, hull, lambda text: tell(f"{place.named}: {text}"), until_written)
        table = write_scenario(place, study, work)
        tell_aside(place, tell)
    return table


def tell_aside(place: StudyFolder, tell: Tell) -> None:
    """Tells the new names of files that somebody has changed."""
    for name in place.aside:
        tell(f"{name} is what somebody has made of this sweep's file")


def begin_sweep(folder: str, inputs: Sequence[str], tell: Tell) -> None:
    """Takes away the table and the picture of the sweep before, which aren't of this one, however this one ends. One that was changed gets another name."""
    if any(os.path.lexists(os.path.join(folder, name)) for name in GATHERED):
        with heard_later(), StudyFolder(folder, inputs, SWEEP, keeps_changed=True) as place:
            with place.locked():
                place.set_aside(GATHERED)
            tell_aside(place, tell)
            place.place(NOT_THERE)


def write_sweep(folder: str, tables: dict[str, str], inputs: Sequence[str], unfinished: str = "") -> None:
    """Puts the table and the picture in their places, whatever interrupts come meanwhile; `unfinished` says what is missing."""
    if tables:
        with heard_later(), StudyFolder(folder, inputs, SWEEP) as place:
            text = joined(tables)
            texts = dict(zip(GATHERED, (text, picture_of_sweep(text))))
            write_together({os.path.join(place.room, name): it for name, it in texts.items()})
            place.place(unfinished)


class Sweep:
    """The tables of the scenarios that are done, and how many can't be met."""

    def __init__(self, given: argparse.Namespace, hull: Hull, case: Case, tell: Tell) -> None:
        self.given, self.hull, self.case, self.tell = given, hull, case, tell
        self.scenarios = scenarios_of(given.demand, given.wind, given.offer, given.outage)
        self.inputs = files_read(given)
        self.tables: dict[str, str] = {}
        self.works: dict[
            str, tuple[str, Mark]
        ] = {}  # by the name of a scenario that is done: its folder, and what it is made of
        self.left_out = 0
        self.is_less = False  # (whether a scenario that is done isn't all that was asked for)

    @cached_property
    def program(self) -> list[str]:
        """What tells the program apart, asked when the first scenario is due."""
        return self.hull.sums()

    def refuse(self) -> None:
        """Refuses words and folders that can't be, before anything is made."""
        given = study_arguments([self.given.case, self.given.folder, *self.given.more])
        if given.zones:
            raise HullError("--zones: the tables of a sweep have no payments by zone; study.py has them for one case")
        names = [*files_of(wanted(given, self.case), True, True), CASE, DONE, LACKS]
        StudyFolder(self.given.folder, self.inputs, SWEEP, keeps_changed=True).refuse(GATHERED)
        for scenario in self.scenarios:
            scenario.change(self.case)
            folder_of(self.given.folder, scenario, self.inputs).refuse(names)

    def add(self, scenario: Scenario) -> None:
        words, case = self.given.more, scenario.change(self.case).text()
        try:
            folder = folder_of(self.given.folder, scenario, self.inputs)
            work = work_of(case, words, self.inputs[1:], self.program)
            with step(scenario.name):
                self.tables[scenario.name] = table_of(folder, case, words, work, self.hull, self.tell)
                Found.is_there = True
            if table_done(folder.folder, work) is None:
                self.left_out += 1
                self.tell(f"{scenario.name} isn't done: the same words make it anew")
            else:
                self.works[scenario.name] = folder.folder, work
                self.is_less = self.is_less or bool(lacks_of(folder.folder, work))
        except HullError as why:
            self.left_out += 1
            self.tell(f"{scenario.name} is left out: {why.line}")

    def begin(self) -> None:
        begin_sweep(self.given.folder, self.inputs, self.tell)

    def look_again(self) -> None:
        """Takes the tables that lie there now. Where another sweep made a scenario anew, or a file that the words name changed, there is no table of all."""
        sums = sums_of_named(self.inputs[1:])
        for name, (folder, work) in self.works.items():
            table = table_done(folder, work)
            if table is None or work["inputs"] != sums:
                self.begin()
                what = "this" if table is None else "a file that the words name"
                raise HullError(f"{folder}: {what} was changed meanwhile, so there is no table of all: sweep again")
            self.tables[name] = table

    def write(self, unfinished: str = "") -> None:
        self.look_again()
        write_sweep(self.given.folder, self.tables, self.inputs, unfinished)


def body(words: Sequence[str], tell: Tell) -> int:
    given = arguments(words)
    need_scipy()
    seconds = study_arguments(["case", "folder", *given.more]).seconds
    sweep = Sweep(given, Hull(given.hull, tell, seconds), read_case(given.case), tell)
    sweep.refuse()
    goes_on = lasts()
    if not goes_on:
        tell(f"{key_file()}: no key of yours alone can be kept there, so a later run makes all anew: {HINT}")
    try:
        sweep.begin()
        for scenario in sweep.scenarios:
            sweep.add(scenario)
    except Interrupted as why:
        taken(why)
        of_all = f"{len(sweep.tables)} of {len(sweep.scenarios)} scenarios are done"
        sweep.write(f"Interrupted: {of_all}.")
        tell(f"interrupted: {of_all}; the same words {'go on with the others' if goes_on else 'make all anew'}")
        return why.status
    of_all = f"{len(sweep.tables)} of {len(sweep.scenarios)} scenarios are done"
    sweep.write(f"Left out: {of_all}. A folder of another one may be of a sweep before." if sweep.left_out else "")
    return 1 if sweep.left_out else SHORT if sweep.is_less else 0


def main(words: Optional[Sequence[str]] = None) -> int:
    return run_tool("sweep.py", body, words)
