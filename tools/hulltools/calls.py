"""What the command-line tools do, as calls. Cases, schedules, prices and zones are objects, dicts of the files' form, or names of files.

Each raises `HullError`, in one line, where a file isn't in form or `hull` refuses it, where `hull` is called and isn't there, or where SciPy is
needed and isn't there; and of its kinds `OverTime` where a step takes longer than it may, and `CannotBeMet` where a case has no schedule. `hull` is the program's place; `seconds` limits
each step of a solver, 0 to 2,000,000.
"""
from __future__ import annotations

import contextlib
import csv
import io
import os
import re
import tempfile
from argparse import Namespace
from collections.abc import Iterable
from typing import TYPE_CHECKING, Dict, Iterator, List, Mapping, Optional, Sequence, cast

from .cases import TIME, Case
from .errors import HullError, Name, Tell, told_with
from .inputs import (
    Given,
    GivenCase,
    GivenPowers,
    GivenPrices,
    GivenSchedule,
    GivenZones,
    as_case,
    as_checked_case,
    as_prices,
    as_schedule,
    as_zones,
    content_of,
    is_name,
    told,
)
from .held_files import HeldFiles
from .linear import need_scipy
from .numbers import millionths
from .progress import told_to
from .options import hint_of, is_flag, is_list, number_option, seconds_option, told_value, whole_option
from .outputs import Convex, Settlement
from .prices import Prices
from .program import Hull
from .provenance import refuse_changed, sums_of_files
from .fast_start import FastStart
from .relaxation import fast_start_prices, held_prices, relaxed_prices
from .deviations import in_words
from .external_schedules import as_followed, free_units, has_powers, some, strangers
from .scheduling import Made, follow
from .search_limits import SECONDS, SearchLimits
from .scheduling import make_schedule as search_schedule
from .zones import Zonal
from .zones import settle_zones as settle_each

if TYPE_CHECKING:
    from .studies import Study


MOST_NODES = 2**31 - 1
WORD = re.compile(r"(?<![^\s(])--([a-z][a-z-]*[a-z])\b")  # an option of a tool
OWN_OPTIONS = ("schedule", "best_schedule", "prices", "zones", "hull", "help")  # of study.py, which are parameters here


def make_schedule(
    case: GivenCase,
    gap: float = SearchLimits.gap,
    nodes: int = SearchLimits.nodes,
    seconds: Optional[float] = SECONDS,
    hull: Optional[Name] = None,
    tell: Optional[Tell] = None,
) -> Made:
    """A feasible schedule that `hull check` accepts, in `schedule`, with its `cost` in millionths and the solver's own `gap` as a share of its cost.

    The search ends at a gap, or after so many nodes; `is_near` says whether it reached the gap. `tell` gets a line of what a long step does, each ten
    seconds. Raises `CannotBeMet` where no schedule keeps the rules of the case, `OverTime` where no end is reached in `seconds`, and `HullError`
    where a case's file is changed meanwhile.
    """
    limits = SearchLimits(
        number_option("gap", gap, 0), whole_option("nodes", nodes, 1, MOST_NODES), seconds_option(seconds)
    )
    need_scipy()
    Hull(hull, tell).need("check")  # (before the search, which would be lost)
    before = sums_of_files([os.fspath(case)]) if is_name(case) else {}
    with told_to(tell), HeldFiles() as held:
        case = held.of(case)
        with told_of_a_call():
            found = search_schedule(as_checked_case(case), limits)
        found.checked_cost = Hull(hull, tell, limits.seconds).check(case, found.schedule)
    refuse_changed(before, "search and check are", "there is no schedule")
    return found


def follow_schedule(
    case: GivenCase,
    powers: GivenPowers,
    seconds: Optional[float] = SECONDS,
    hull: Optional[Name] = None,
    tell: Optional[Tell] = None,
) -> Made:
    """A feasible schedule in whole kilowatts with the commitments of one in megawatts from elsewhere, as near to its powers as can be.

    `powers` is a data frame with a row for each unit and period: the columns `unit`, `period` from 1 and `power`, and perhaps `on` and `reserve`.
    It may be a dict of the form of a schedule's file, or a file's name, in megawatts all the same (make_schedule.py --follow); or a `Schedule`, or
    what has one, as `Made`. What it hasn't is free, and of several schedules the cheapest is taken. `deviations` and `farthest_mw` of what is given
    back say how far it is from these powers. `tell` gets what is free or skipped, and the same in words. Raises `CannotBeMet` where the case can't be
    met with its commitments, with the unit and the period where one of them alone shows it; `OverTime` where a step takes longer than `seconds`; and
    `HullError` where its form is another one, where it has nothing of a thermal unit, or where a power is most likely in kilowatts.
    """
    seconds = seconds_option(seconds)
    need_scipy()
    Hull(hull, tell).need("check")
    said = in_words_of_a_call(tell)
    with told_to(tell), HeldFiles() as held:
        case = held.of(case)
        read = as_checked_case(case)
        followed, name = as_followed(powers, read)
        for names, is_so in (
            (free_units(followed, read), "are free"),
            (followed.guessed, "have no on flags, and are off where the power is 0"),
            (strangers(followed, read), "aren't in the case"),
            (followed.skipped, "are skipped"),
        ):
            if names:
                said(f"{name}: {some(names)} {is_so}")
        found = follow(read, followed, name, seconds)
        found.checked_cost = Hull(hull, tell, seconds).check(case, found.schedule)
    said(in_words(found.deviations, name, has_powers(followed, read)))
    return found


def lmp(
    case: GivenCase, schedule: GivenSchedule, hull: Optional[Name] = None, seconds: Optional[float] = SECONDS
) -> Prices:
    """LMPs, in millionths per kilowatt: the duals of the dispatch with the schedule's commitments held.

    Raises `HullError` where the schedule isn't feasible, and `OverTime` where the solver or the program takes longer than `seconds`.
    """
    seconds = seconds_option(seconds)
    need_scipy()
    with HeldFiles() as held:
        case, schedule = held.of(case), held.of(schedule)
        Hull(hull, seconds=seconds).check(case, schedule)
        read = as_case(case)
        return held_prices(read, as_schedule(schedule, read), seconds)


def integer_relaxation(case: GivenCase, seconds: Optional[float] = SECONDS) -> Prices:
    """Prices in millionths per kilowatt: the duals of the commitment problem with on flags between 0 and 1.

    Raises `CannotBeMet` where the case can't be met, and `OverTime` where the solver takes longer than `seconds`.
    """
    seconds = seconds_option(seconds)
    read = as_checked_case(case)
    need_scipy()
    return relaxed_prices(read, seconds)


def elmp(
    case: GivenCase,
    schedule: GivenSchedule,
    fast_start: Optional[Sequence[str]] = None,
    most_up: int = 1,
    most_cost: Optional[float] = None,
    online_only: bool = False,
    hull: Optional[Name] = None,
    seconds: Optional[float] = SECONDS,
) -> Prices:
    """ELMPs, in millionths per kilowatt: LMPs with fast-start units relaxed, and the commitments of the others held.

    Fast-start are the units that `fast_start` names, or else those of a minimum up time of at most `most_up` periods whose dearest start costs
    at most `most_cost`, in the currency. With `online_only` such a unit stays off where the schedule has it off. Raises `HullError` where names
    and a rule are given, where the case has no unit of a name, or where the schedule isn't feasible, and `OverTime` where the solver or the
    program takes longer than `seconds`.
    """
    seconds, most_up = seconds_option(seconds), whole_option("most_up", most_up, 0, TIME)
    cost = None if most_cost is None else millionths(str(number_option("most_cost", most_cost, 0)))
    if isinstance(fast_start, str):
        raise HullError(f"fast_start is {told_value(fast_start)}: a list of names is due, as [{fast_start!r}]")
    if fast_start is not None and (most_cost is not None or most_up != FastStart.most_up):
        raise HullError("fast_start is given, and most_up or most_cost, which are a rule in place of names")
    if not is_flag(online_only):
        raise HullError(f"online_only is {told_value(online_only)}: True or False is due")
    need_scipy()
    fast = FastStart(None if fast_start is None else tuple(fast_start), most_up, cost, online_only)
    with HeldFiles() as held:
        case, schedule = held.of(case), held.of(schedule)
        Hull(hull, seconds=seconds).check(case, schedule)
        read = as_case(case)
        return fast_start_prices(read, as_schedule(schedule, read), fast, seconds)


def convex_prices(
    case: GivenCase,
    schedule: GivenSchedule,
    within: Optional[float] = None,
    rounds: Optional[int] = None,
    hull: Optional[Name] = None,
    seconds: Optional[float] = None,
) -> Convex:
    """The text of `hull convex`: `prices`, their settlement, and the `mixture` that proves how far they are from the best, in `distance`.

    The search ends at a distance `within`, in the currency, or after so many rounds, or at a millionth of the dual value; what is left out is as the
    program has it. `is_near` says whether the distance is at most `within`. Raises `HullError` where the program refuses a file, and `OverTime`
    where it takes longer than `seconds`.
    """
    return Hull(hull, seconds=seconds).convex(case, schedule, within, rounds)


def settle_zones(case: GivenCase, schedule: GivenSchedule, zones: GivenZones, hull: Optional[Name] = None) -> Zonal:
    """What each unit is owed at the prices of its zone, in millionths, as `hull settle` finds it.

    Raises `HullError` where the schedule isn't feasible, and where a unit has no zone.
    """
    with HeldFiles() as held:
        files, program = (held.of(case), held.of(schedule)), Hull(hull)
        program.check(*files)
        read = as_case(files[0])

        def settle(prices: Prices) -> Settlement:
            return program.settle(*files, prices)

        return settle_each(settle, read, as_schedule(files[1], read), as_zones(zones, read))


def in_a_call(text: str) -> str:
    """A text of a tool in the words of a call: `seconds` in place of --seconds."""
    return WORD.sub(lambda found: f"`{found[1].replace('-', '_')}`", text)


def in_words_of_a_call(tell: Optional[Tell]) -> Tell:
    """A function that gets what a tool says, in the words of a call, and hands it to the one that is given; None hears nothing."""

    def said(text: object) -> None:
        if tell is not None:
            tell(in_a_call(str(text)))

    return said


@contextlib.contextmanager
def told_of_a_call() -> Iterator[None]:
    """Tells what is refused in the words of a call."""
    try:
        yield
    except HullError as why:
        why.line, why.sentence = in_a_call(why.line), in_a_call(why.sentence)
        raise


def names_in(value: object) -> Optional[List[str]]:
    """The names of a list, an array, a series or a set; None where it is no such."""
    if not is_list(value) or isinstance(value, Mapping):
        return None
    return [str(name) for name in cast("Iterable[object]", value)]


def word_of(key: str, value: object) -> str:
    """The value of an option as a word; a list of names has commas between them, and is a row of a csv where these are units."""
    names = names_in(value)
    if names is None:
        return str(value)
    if key == "fast_start":
        row = io.StringIO()
        csv.writer(row).writerow(names)
        return row.getvalue().removesuffix("\r\n")
    wrong = next((name for name in names if "," in name), None)
    if wrong is not None:
        raise HullError(f"{key} has {told_value(wrong)}: a name in this list has no comma")
    return ",".join(names)


def words_of(options: Dict[str, object]) -> List[str]:
    """Options of study.py as its words: True is a word alone; None, False and empty lists are left out, but for a list of no fast-start unit."""
    found = []
    for key, given in options.items():
        names = names_in(given)
        value = names if names is not None else bool(given) if is_flag(given) else given
        is_empty = value == [] and key != "fast_start"
        if value is not None and value is not False and not is_empty:
            found.append(f"--{key.replace('_', '-')}" + ("" if value is True else f"={word_of(key, value)}"))
    return found


def asked_of(words: Sequence[str], options: Mapping[str, object]) -> Namespace:
    """What the words of study.py ask for. Where it refuses an option this is told with its name."""
    from .commands.study import arguments
    from .commands.words import AskerOfACall, NotTaken

    try:
        return arguments(words, AskerOfACall)
    except NotTaken as refused:
        why, usage = refused.why, refused.usage
    found = re.search(r"unrecognized arguments: --([\w-]+)", why)
    if found:
        name = next((key for key in options if key.replace("_", "-") == found[1]), found[1])
        raise HullError(f"`study` has no option `{name}`: {hint_of(name, known_options(usage))}")
    raise HullError(f"an option of `study` is refused: {why or 'there is no page of it here'}")


def known_options(usage: str) -> List[str]:
    """The options that a page of study.py has, as words of a call."""
    names = dict.fromkeys(re.findall(r"--([a-z-]+[a-z])", usage))
    return [name for name in (name.replace("-", "_") for name in names) if name not in OWN_OPTIONS]


class Room:
    """A folder for the files of what is given without one, and what a fault calls each."""

    def __init__(self, folder: str) -> None:
        self.folder = folder
        self.shown: Dict[str, str] = {}

    def name_of(self, what: str, given: Given, told_as: str = "", name: str = "") -> str:
        """The name of a file: the one that is given, or one in the folder that holds what is given."""
        if isinstance(given, (str, os.PathLike)):
            return os.fspath(given)
        place, content = os.path.join(self.folder, f"{name or what}.json"), content_of(what, given)
        self.shown[place] = told_as or told(what)
        with told_with(f"{self.shown[place]}, in {place}"), open(place, "w", encoding="utf-8") as file:
            file.write(content)
        return place

    @contextlib.contextmanager
    def told(self) -> Iterator[None]:
        """Has faults name what was given, in place of the files here."""
        try:
            yield
        except HullError as why:
            why.line, why.sentence = self.without_places(why.line), self.without_places(why.sentence)
            raise

    def without_places(self, text: str) -> str:
        for place, shown in self.shown.items():
            text = text.replace(place, shown)
        return text


def folder_given(folder: Name) -> str:
    """The name of the folder. One in a new folder `~` of this one is hardly meant, since it is the home in a shell alone."""
    if not is_name(folder):
        raise HullError(f"folder is {told_value(folder)}: a folder's name is due")
    name = os.fspath(folder)
    if name.split(os.sep)[0] == "~":
        home = "`~` is your home in a shell alone, and os.path.expanduser names it here"
        raise HullError(f"folder is {told_value(name)}: {home}")
    return name


def named_prices(given: Optional[Mapping[str, GivenPrices]], case: Case) -> Dict[str, Prices]:
    """Price lists by name, for a case; what is none is told with its name."""
    if given is not None and not isinstance(given, Mapping):
        raise HullError(f"prices is a dict of price lists by name, and no `{type(given).__name__}` can be that")
    found = {}
    for name, prices in (given or {}).items():
        if "=" in str(name):
            raise HullError(f"the prices {told_value(name)} given: a name of a list has no `=`")
        try:
            found[name] = as_prices(prices, case)
        except HullError as why:
            what, named = told("prices"), f"the prices {name} given"
            why.line, why.sentence = why.line.replace(what, named), why.sentence.replace(what, named)
            raise
    return found


def study(
    case: GivenCase,
    schedule: Optional[GivenSchedule] = None,
    folder: Optional[Name] = None,
    prices: Optional[Mapping[str, GivenPrices]] = None,
    zones: Optional[GivenZones] = None,
    best_schedule: Optional[GivenSchedule] = None,
    hull: Optional[Name] = None,
    tell: Optional[Tell] = None,
    **options: object,
) -> Study:
    """The study of a case, whose page and tables go to the folder where one is given; `frames()` has its tables.

    Without a schedule one is made. `prices` are further lists by name; the options are those of study.py, as `title="1 July"`, `skip=["elmp"]` or
    `fast_start_up=2`. `tell` gets a line for each list, and of what a long step does. A list that takes too long is left out, and told in `notes`. Raises `HullError` where there is no such option, where a file
    isn't in form or is refused, and where no list was made; `KeyboardInterrupt` at an interrupt, after the folder got the lists that were there.
    """
    need_scipy()
    said = in_words_of_a_call(tell)
    from .commands.study import inputs_of, need_lists, study_in, study_of
    from .study_folder import StudyFolder

    with contextlib.ExitStack() as until_done:
        with told_with("a temporary folder"):
            room = Room(until_done.enter_context(tempfile.TemporaryDirectory(prefix="hull-study-")))
        to = room.folder if folder is None else folder_given(folder)
        read, words = as_case(case), words_of(options)
        if schedule is not None:
            words.append(f"--schedule={room.name_of('schedule', schedule)}")
        if best_schedule is not None:
            best = room.name_of("schedule", best_schedule, "the best schedule given", "best-schedule")
            words.append(f"--best-schedule={best}")
        if zones is not None:
            words.append(f"--zones={room.name_of('zones', zones if is_name(zones) else as_zones(zones, read))}")
        for place, (name, exact) in enumerate(named_prices(prices, read).items()):
            told_as = f"the prices {name} given"
            words.append(f"--prices={name}={room.name_of('prices', exact, told_as, f'{place}.prices')}")
        words += [f"--hull={os.fspath(hull)}"] if hull else []
        words = [room.name_of("case", case), to, *words]
        with told_of_a_call():
            asked = asked_of(words, options)
        program = Hull(hull, tell, asked.seconds)
        with told_to(tell), told_of_a_call(), room.told(), StudyFolder(to, inputs_of(asked)) as place_of:
            if folder is None:
                found = study_of(asked, words, program, place_of.room, said, place_of.refuse)
                need_lists(found)
            else:
                with told_with(to):  # (as where somebody takes the folder away)
                    found = study_in(place_of, asked, words, program, said)
    if found.interrupted:
        raise found.interrupted
    found.notes = list(map(in_a_call, found.notes))
    return found
