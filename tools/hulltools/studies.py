"""Price lists of one case and schedule: each is settled by `hull settle`, and `hull certify` bounds the dual value of all."""
from __future__ import annotations

import contextlib
import os
import unicodedata
from dataclasses import dataclass, field, replace
from typing import TYPE_CHECKING, Any, Callable, Dict, Iterator, List, Optional, Sequence, Set, Tuple, Union

from .cases import Case
from .cash_flows import UnitFlows, unit_flows
from .clock import Clock
from .costs import Costs
from .errors import (
    Found,
    HullError,
    Interrupted,
    NoOutput,
    NotOurs,
    OverTime,
    Tell,
    heard_later,
    one_line,
    raise_swallowed,
    taken,
    write_together,
)
from .gap_parts import GapParts, gap_parts
from .numbers import Millionths, money
from .options import counted, hint_of, told_value
from .outputs import Certificate, Convex, Owed, Settlement
from .price_lists import CONVEX_HULL, ELMP, LISTS, LMP, RELAXATION, SUBGRADIENT_100, SUBGRADIENT_1000, ZONAL, PriceList
from .prices import Prices
from .program import MOST_WORK, Hull
from .progress import step
from .provenance import Provenance
from .fast_start import FastStart, names_told
from .relaxation import fast_start_prices, held_prices, relaxed_prices
from .schedules import Schedule
from .search_limits import SECONDS
from .settlement_rules import RULES
from .zones import Zonal, Zones, settle_zones

if TYPE_CHECKING:
    from pandas import DataFrame


@dataclass
class Wanted:
    """What a study is to have beside LMP, integer relaxation and convex hull prices, and how it shows them."""

    search: bool = False
    fast: FastStart = field(default_factory=FastStart)
    files: Dict[str, Prices] = field(default_factory=dict)
    zones: Optional[Zones] = None
    rules: List[str] = field(default_factory=lambda: list(RULES))
    title: str = ""
    currency: str = ""
    clock: Clock = field(default_factory=Clock)
    within: Optional[float] = None
    rounds: Optional[int] = None
    seconds: float = SECONDS  # of each step of a solver
    skip: Set[str] = field(default_factory=set)  # keys of lists


@dataclass(repr=False)
class Settled:
    """A price list, its settlement, and by unit and period what is earned and spent."""

    list: PriceList
    settlement: Settlement
    flows: List[UnitFlows]

    def __repr__(self) -> str:
        return f"<Settled {self.list.name!r}: gap={self.settlement.gap}, payments={self.settlement.payments}>"

    @property
    def prices(self) -> Prices:
        return self.settlement.prices


class Lists(Dict[str, Settled]):
    """The lists of a study by key; a name is taken in place of a key, by `in` and `get` too."""

    def of_name(self, name: object) -> Optional[Settled]:
        return next((settled for settled in self.values() if settled.list.name == name), None)

    def __missing__(self, name: str) -> Settled:
        found = self.of_name(name)
        if found is None:
            raise KeyError(self.why_none(name))
        return found

    def __contains__(self, name: object) -> bool:
        return super().__contains__(name) or self.of_name(name) is not None

    def get(self, name: str, default: Any = None) -> Any:
        return self[name] if name in self else default

    def why_none(self, name: str) -> str:
        return f"the study has no list {told_value(name)}: {hint_of(name, self)}"


@dataclass(repr=False)
class Paid:
    """What units are paid under prices, and by unit and period what is earned and spent."""

    list: PriceList
    units: List[Owed]
    flows: List[UnitFlows]

    def __repr__(self) -> str:
        return f"<Paid {self.list.name!r}: units={len(self.units)}>"


@dataclass(repr=False)
class Study:
    """What was found: the lists by key, the certificate of convex hull prices where there are such, and the cost of the best schedule known."""

    case: Case
    schedule: Schedule
    wanted: Wanted
    provenance: Provenance
    cost: Millionths
    best_cost: Optional[Millionths] = None
    lists: Lists = field(default_factory=Lists)
    zonal: Optional[Zonal] = None
    certificate: Optional[Certificate] = None
    notes: List[str] = field(default_factory=list)
    is_short: bool = False  # (whether a schedule or a list that was to be made wasn't, or its prices were cut)
    is_far: bool = False  # (whether the search for convex hull prices missed its distance)
    missing: List[str] = field(default_factory=list)  # names of lists that an interrupt left out
    interrupted: Optional[Interrupted] = None
    failure: Optional[HullError] = None  # of the first list that couldn't be made

    def __repr__(self) -> str:
        names = ", ".join(settled.list.name for settled in self.in_order())
        return f"<Study {self.wanted.title!r}: cost={self.cost}, lists={names}>"

    @property
    def clock(self) -> Clock:
        return self.wanted.clock

    @property
    def main(self) -> Settled:
        """Convex hull prices, or a list whose dual value is greater by a cent or more; without them the first list that there is."""
        first = self.in_order()[0]
        if first.list.key != CONVEX_HULL.key:
            return first
        best = max(self.in_order(), key=lambda it: it.settlement.best.value)
        return best if best.settlement.best.value - first.settlement.best.value >= CENT else first

    @property
    def missed_gaps(self) -> List[str]:
        """In sentences which searches for a schedule missed their gaps."""
        sources = (self.provenance.schedule, self.provenance.best_schedule)
        return [f"A search for a schedule missed its gap: {it.made}." for it in sources if it and not it.is_near]

    @property
    def is_less(self) -> bool:
        """Whether the study isn't all that was asked for, as its notes and `missed_gaps` say."""
        return bool(self.is_short or self.is_far or self.missed_gaps)

    @property
    def unfinished(self) -> str:
        """In a sentence which lists an interrupt left out, if any."""
        return f"Interrupted before these lists were made: {', '.join(self.missing)}." if self.missing else ""

    def parts(self, key: str) -> GapParts:
        """The gap's parts at a list, by its key or its name. Raises `HullError` where there is none."""
        try:
            value = self.lists[key].settlement.best.value
        except KeyError:
            raise HullError(self.lists.why_none(key)) from None
        return gap_parts(self.cost, value, self.certificate.bound if self.certificate else None, self.best_cost)

    def sentence(self, where: str) -> str:
        """The gap's parts at convex hull prices, or at those of the list that stands for them."""
        price_list = self.main.list
        name = "convex hull prices" if self.is_best_convex else f"the prices of the list {price_list.name}"
        if self.is_far and price_list.key == CONVEX_HULL.key:
            name = "the prices that hull convex came to"
        return self.parts(price_list.key).sentence(f"{where} {name}", not self.is_far)

    @property
    def is_best_convex(self) -> bool:
        """Whether convex hull prices are there, as near as was asked, and no list here has better ones."""
        return not self.is_far and self.main.list.key == CONVEX_HULL.key

    def in_order(self) -> List[Settled]:
        """The lists as tables and pictures have them; those of files come last."""
        order = [it.key for it in LISTS]
        return sorted(
            self.lists.values(), key=lambda it: order.index(it.list.key) if it.list.key in order else len(order)
        )

    def frames(self) -> Dict[str, DataFrame]:
        """The tables `lists`, `units` and `hours` as data frames of pandas; hours are indexed by time where the start is known."""
        from .study_tables import frames_of_study

        return frames_of_study(self)

    def paid(self) -> List[Paid]:
        """Payments under each list, and under zonal prices where there are any."""
        found = [Paid(it.list, it.settlement.units, it.flows) for it in self.in_order()]
        return found + ([Paid(ZONAL, self.zonal.units, self.zonal.flows)] if self.zonal else [])


CENT, MILLION = 10_000, 10**6  # millionths, as which money is told
FAR = replace(
    CONVEX_HULL, about="prices of hull convex, whose search missed its distance; a certificate says how near they are"
)
Step = Tuple[PriceList, Callable[[], None]]


class Maker:
    """Makes the price lists of one case and settles them; files go to a folder."""

    def __init__(self, hull: Hull, files: Sequence[str], study: Study, folder: str, tell: Tell) -> None:
        self.hull, self.study, self.folder, self.tell = hull, study, folder, tell
        self.case_file, self.schedule_file = files
        self.costs = Costs()

    def settle(self, prices: Prices) -> Settlement:
        return self.hull.settle(self.case_file, self.schedule_file, prices)

    def add(self, price_list: PriceList, prices: Prices) -> None:
        """Settles at a list of prices, and writes both; a list whose prices were cut is told."""
        if prices.cut:
            price_list = replace(price_list, about=f"{price_list.about}; {prices.told_cut}")
            self.say_short(f"{price_list.name}: {prices.told_cuts}.")
        settlement = self.settle(prices)
        settlement.name = price_list.name
        text = self.hull.last_text
        with step("revenue and cost by unit"):
            flows = unit_flows(self.study.case, self.study.schedule, settlement, self.costs)
        self.write({f"{price_list.key}.prices.json": prices.text(), f"{price_list.key}.settlement.txt": text})
        self.study.lists[price_list.key] = Settled(price_list, settlement, flows)
        Found.is_there = True
        self.tell(f"{price_list.name}: gap {money(settlement.gap)}, payments {money(settlement.payments)}")

    def write(self, files: Dict[str, Union[str, bytes]]) -> None:
        write_together({os.path.join(self.folder, name): it for name, it in files.items()})

    def add_held(self) -> None:
        study = self.study
        self.add(LMP, held_prices(study.case, study.schedule, study.wanted.seconds))

    def add_relaxed(self) -> None:
        self.add(RELAXATION, relaxed_prices(self.study.case, self.study.wanted.seconds))

    def add_fast_start(self) -> None:
        study, wanted = self.study, self.study.wanted
        units = wanted.fast.units(study.case)
        if units:
            of_units = replace(ELMP, about=f"{ELMP.about}. Fast-start: {names_told(units)}")
            self.add(of_units, fast_start_prices(study.case, study.schedule, wanted.fast, wanted.seconds))
        else:
            study.notes.append("No unit is fast-start by the rule given, so there is no list ELMP: it would be LMP.")

    def add_searched(self, price_list: PriceList, *words: str) -> None:
        self.add(price_list, self.hull.price(self.case_file, self.schedule_file, *words).prices)

    def searches(self) -> Iterator[Step]:
        most = max(1, MOST_WORK // (len(self.study.case.units) * self.study.case.periods))
        few, many = (["--proposals", str(min(budget, most))] for budget in (100, 1000))
        yield SUBGRADIENT_100, lambda: self.add_searched(SUBGRADIENT_100, *few)
        yield SUBGRADIENT_1000, lambda: self.add_searched(SUBGRADIENT_1000, *many, "--ahead", "1")

    def add_zonal(self, zones: Zones) -> None:
        self.study.zonal = settle_zones(self.settle, self.study.case, self.study.schedule, zones)
        self.study.notes.append(
            "Zonal prices have payments by unit alone. A dual value, a gap and the consumers' bill are of one price for all."
        )

    def add_convex(self) -> None:
        """The prices of `hull convex`; its text, the mixture, and the certificate by it are written too."""
        wanted, files = self.study.wanted, (self.case_file, self.schedule_file)
        found = self.hull.convex(*files, wanted.within, wanted.rounds)
        text = self.hull.last_text
        self.write(
            {"convex.txt": text, "mixture.json": found.mixture.text()}
        )  # (which stay where no certificate comes)
        self.study.certificate = self.hull.certify(*files, found.prices, found.mixture)
        self.write({"certificate.txt": self.hull.last_text})
        self.study.is_far = is_far(found, wanted.within is not None)
        self.add(FAR if self.study.is_far else CONVEX_HULL, found.prices)
        if self.study.is_far:
            self.note(
                f"The search for convex hull prices missed its distance of {money(found.within)}: it came within {money(found.distance)} "
                f"of the greatest dual value, in {counted(found.made, 'round')}."
            )

    def note(self, told: str) -> None:
        self.study.notes.append(told)
        self.tell(told)

    def note_better_list(self) -> None:
        """Says so where convex hull prices aren't the best of the lists, whose search came only so near."""
        best, convex = self.study.main, self.study.lists.get(CONVEX_HULL.key)
        if convex and best is not convex:
            more = Millionths(best.settlement.best.value - convex.settlement.best.value)
            self.note(f"The list {best.list.name} has a dual value {money(more)} above that of {convex.list.name}.")

    def steps(self) -> Iterator[Step]:
        """Each list, and what makes it; those of a solver first, and what may take longest last."""
        wanted = self.study.wanted
        yield LMP, self.add_held
        yield RELAXATION, self.add_relaxed
        yield ELMP, self.add_fast_start
        if wanted.search:
            yield from self.searches()
        for name, prices in wanted.files.items():
            of_file = PriceList(key_of(name), name, "prices of a file")
            yield of_file, lambda of_file=of_file, prices=prices: self.add(of_file, prices)  # type: ignore[misc]
        if wanted.zones:
            yield ZONAL, lambda zones=wanted.zones: self.add_zonal(zones)  # type: ignore[misc]
        yield CONVEX_HULL, self.add_convex

    def make(self, until_written: Optional[contextlib.ExitStack] = None) -> Study:
        """The study, whose lists are those that are there when an interrupt comes. A later one is heard when it is written."""
        study, skip = self.study, self.study.wanted.skip
        steps = list(self.steps())
        skipped = [it.name for it, _ in steps if it.key in skip]
        left = [it for it in steps if it[0].key not in skip]
        unknown = study.clock.why_unknown(study.case.periods)
        if unknown:
            self.note(unknown)
        if skipped:
            study.notes.append(f"Left out by --skip: {', '.join(skipped)}.")
        try:
            while left:
                raise_swallowed()
                self.make_list(*left[0])
                del left[0]
            raise_swallowed()
            if study.lists:
                self.note_better_list()
            if until_written:
                until_written.enter_context(heard_later())
        except KeyboardInterrupt as why:
            study.interrupted = taken(why)
            study.missing = [it.name for it, _ in left]
            study.notes += [study.unfinished] if left else []
        study.lists = Lists({settled.list.key: settled for settled in study.in_order()})
        return study

    def make_list(self, price_list: PriceList, make: Callable[[], None]) -> None:
        """Makes one list; one that takes too long or can't be made is left out, and told: the others and the schedule aren't lost with it."""
        try:
            with step(price_list.name):
                make()
        except OverTime as why:
            self.say_short(f"{price_list.name} is left out: {why}. Give --seconds more, or --skip {price_list.key}.")
        except (NoOutput, NotOurs):
            raise
        except (HullError, MemoryError, RuntimeError) as error:  # (the last line of what a solver's process fell over)
            told = "no memory" if isinstance(error, MemoryError) else str(error).strip().rpartition("\n")[2]
            found = error if isinstance(error, HullError) else HullError(one_line(told))
            self.study.failure = self.study.failure or found
            self.say_short(f"{price_list.name} is left out: {found.line}.")

    def say_short(self, told: str) -> None:
        """Tells, and has the page say, what a list isn't that it was to be."""
        self.tell(told)
        self.study.notes.append(told)
        self.study.is_short = True


def is_far(found: Convex, is_asked: bool) -> bool:
    """Whether the search missed its distance. One that nobody asked for is met at a millionth of the dual value too, where the search ends."""
    return not found.is_near and (is_asked or found.distance * MILLION > abs(found.value))


def files_of_list(key: str) -> List[str]:
    return [f"{key}.prices.json", f"{key}.settlement.txt"]


def files_of(wanted: Wanted, is_schedule_made: bool, is_best_made: bool) -> List[str]:
    """The names of all files that a study may write in its folder."""
    keys = [it.key for it in LISTS] + [key_of(name) for name in wanted.files]
    found = [name for key in keys for name in files_of_list(key)]
    found += ["convex.txt", "mixture.json", "certificate.txt", "table.csv", "units.csv", "hours.csv", "study.html"]
    return found + ["schedule.json"] * is_schedule_made + ["best.schedule.json"] * is_best_made


def skipped(words: Sequence[str], files: Sequence[str]) -> Set[str]:
    """The keys of the lists that are named, by key or by name as they are written; `files` are the names of those of files."""
    known = {it.key: it.name for it in (*LISTS, ZONAL)}
    known.update({key_of(name): name for name in files})
    keys = {told: key for key, name in known.items() for told in (name, key)}
    names = [it.strip() for word in words for it in ([word] if word.strip() in keys else word.split(","))]
    wrong = next((it for it in names if it not in keys), None)
    if wrong is not None:
        raise HullError(f"--skip {one_line(wrong)}: there is no such list: these are {', '.join(known)}")
    return {keys[it] for it in names}


def need_a_list(wanted: Wanted, case: Case) -> None:
    """Refuses words by which a study would have no list of prices, before a schedule is made for it."""
    keys = {LMP.key, RELAXATION.key, CONVEX_HULL.key, *map(key_of, wanted.files)}
    keys |= {ELMP.key} if wanted.fast.units(case) else set()
    keys |= {SUBGRADIENT_100.key, SUBGRADIENT_1000.key} if wanted.search else set()
    if keys - wanted.skip:
        return
    rest = "" if ELMP.key in wanted.skip else " but ELMP, for which no unit is fast-start"
    zonal = "; settle_zones.py settles prices by zone alone" if wanted.zones else ""
    raise HullError(f"there is no list of prices: --skip leaves out all{rest}{zonal}")


def plain_name(name: str) -> str:
    """A name as it is compared with names of the study's own lists: these aren't told apart by case, width or spaces."""
    return " ".join(unicodedata.normalize("NFKC", name).casefold().split())


def key_of(name: str) -> str:
    """The name of a list from a file as the beginning of files' names."""
    key = "".join(it if it.isalnum() or it in "-_" else "_" for it in name)
    own = {plain_name(told) for it in (*LISTS, ZONAL) for told in (it.key, it.name)}
    if not key or own & {plain_name(name), plain_name(key)}:
        raise HullError(f"{name!r} can't be the name of a list of prices: the study has one of that name")
    return key


def keys_of(names: Sequence[str]) -> List[str]:
    """The keys of lists from files, no two of which are one."""
    keys = [key_of(name) for name in names]
    if len({plain_name(key) for key in keys}) < len(keys):
        raise HullError("two lists of --prices have one name, or names whose files would be one")
    return keys
