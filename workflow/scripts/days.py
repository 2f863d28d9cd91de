"""What is wanted of the days: the settings, the names that a day may have, and the steps with their files."""
import difflib
import json
import os
import re
import shlex
import shutil
import sys
from dataclasses import asdict, dataclass, field, replace
from datetime import date
from typing import Any, Dict, List, Mapping, Optional, Tuple

HOME = os.path.dirname(os.path.dirname(os.path.dirname(os.path.abspath(__file__))))
sys.path.insert(0, os.path.join(HOME, "tools"))

from hulltools.done_marks import state_folder  # noqa: E402
from hulltools.errors import HullError, one_line  # noqa: E402
from hulltools.program import default_program  # noqa: E402

LISTS = {
    "lmp": "LMP: duals of the dispatch with the schedule's commitments held",
    "elmp": "ELMP: LMP with fast-start units relaxed, their start costs spread",
    "relaxation": "integer relaxation: duals with on flags between 0 and 1",
    "subgradient_100": "hull price with 100 proposals, four ahead",
    "subgradient_1000": "hull price with up to 1,000 proposals, one ahead",
    "convex_hull": "convex hull prices, certified",
}
REPORT = "report"
FILES = ("table.csv", "page.html", "left.txt")  # of all days, in the folder of results
ABOUT = {**LISTS, REPORT: "hull price, with the words that are set, or the day's own report"}
KEYS = (
    "days",
    "results",
    "only",
    "lists",
    "report",
    "report_words",
    "audit",
    "schedule_words",
    "elmp_words",
    "convex_words",
    "program",
    "python",
    "audits",
)
# The variable by which the steps of a run have its settings: a file in the study may be anybody's.
HANDED = "HULL_DAYS_SETTINGS"
DAY_NAME = re.compile(r"\w(?:[\w.+@ -]{0,98}[\w.+@-])?", re.ASCII)


@dataclass(frozen=True)
class Step:
    """What is made of one day: from which files, and which files in the day's folder of results."""

    name: str
    takes: Tuple[str, ...]
    makes: Tuple[str, ...]


def price_list_step(name: str) -> Step:
    return Step(name, ("case", "schedule"), (f"{name}.prices.json", f"{name}.settlement.txt"))


CONVEX_MAKES = (
    "convex_hull.txt",
    "convex_hull.prices.json",
    "convex_hull.settlement.txt",
    "convex_hull.mixture.json",
    "convex_hull.certificate.txt",
)
STEPS = {
    "schedule": Step("schedule", ("case",), ("schedule.json",)),
    **{name: price_list_step(name) for name in LISTS},
    "convex_hull": Step("convex_hull", ("case", "schedule"), CONVEX_MAKES),
    REPORT: Step(REPORT, ("case", "schedule"), ("report.txt",)),
    "audit": Step("audit", ("case", "schedule", "report"), ("audit.txt",)),
}


@dataclass(frozen=True)
class Settings:
    """The configuration, as the steps take it."""

    days: str = "days"
    results: str = "results"
    audits: str = ""
    only: Optional[List[str]] = None
    lists: List[str] = field(default_factory=list)
    report: bool = True
    audit: bool = True
    program: str = "hull"
    python: str = sys.executable
    words: Dict[str, str] = field(default_factory=dict)

    def text(self) -> str:
        return json.dumps(asdict(self))

    def hand_on(self) -> None:
        """Hands the settings on to the processes that this one starts, but for the names of days, which may be many."""
        os.environ[HANDED] = replace(self, only=None).text()

    def words_of(self, step: str) -> List[str]:
        return shlex.split(self.words.get(step, ""))

    def wanted(self) -> List[str]:
        """The steps that are wanted of each day, without the schedule."""
        return [*self.lists, *([REPORT] if self.report else []), *(["audit"] if self.audit else [])]


def is_sound(settings: Settings) -> bool:
    """Whether all of the settings are of the types that they have in a run, but for the names of days."""
    due = asdict(Settings(only=settings.only))
    words = settings.words.values()
    are_types = all(type(found) is type(due[key]) for key, found in vars(settings).items())
    return are_types and set(settings.lists) <= set(LISTS) and all(isinstance(it, str) for it in words)


def settings_in(text: str, where: str) -> Settings:
    """The settings that a run has left as a text; HullError where no run can have."""
    try:
        found = Settings(**json.loads(text))
        if is_sound(found):
            return replace(found, only=names_of(found.only))
    except (AttributeError, HullError, ValueError, TypeError, RecursionError):
        pass
    raise HullError(f"{where}: these are no settings of a run")


def read_settings(name: str) -> Settings:
    """The settings that a run has left in a file."""
    with open(name, encoding="utf-8", errors="replace") as file:
        return settings_in(file.read(), name)


def handed_settings() -> Optional[Settings]:
    """The settings that the run hands on to this process; None where no run has started it."""
    text = os.environ.get(HANDED)
    return settings_in(text, HANDED) if text else None


def audits_folder(given: str) -> str:
    """Where the marks of right audits lie: outside of the study, since marks that came with a folder prove nothing."""
    return os.path.abspath(os.path.expanduser(given)) if given else os.path.join(state_folder(), "hull", "audits")


def settings_from(config: Mapping[str, Any]) -> Settings:
    """The settings that a configuration has; HullError where one can't be."""
    refuse_unknown(config)
    lists = config.get("lists", [])
    if lists in (None, ""):
        raise HullError("lists: nothing is given; lists=[] makes none")
    if not isinstance(lists, list):
        raise HullError(f"lists: a list is due, in brackets: lists=[{one_line(lists)}]")
    for name in lists:
        if not isinstance(name, str) or name not in LISTS:  # (a colon behind a name makes it a mapping)
            raise HullError(f"lists: {one_line(name)} isn't one of {', '.join(LISTS)}")
    words = {"schedule": "schedule_words", "elmp": "elmp_words", "convex_hull": "convex_words", REPORT: "report_words"}
    return Settings(
        days=folder_in("days", config),
        results=folder_in("results", config),
        audits=audits_folder(text_in("audits", config)),
        only=names_of(config.get("only")),
        lists=lists,
        report=truth("report", config.get("report", True)),
        audit=truth("audit", config.get("audit", True)),
        program=program_of(text_in("program", config)),
        python=python_of(text_in("python", config)),
        words={step: words_in(key, config) for step, key in words.items()},
    )


def refuse_unknown(config: Mapping[str, Any]) -> None:
    """Refuses a setting that there isn't, so that none is thought to be set that isn't."""
    for key in config:
        if key not in KEYS:
            near = difflib.get_close_matches(str(key), KEYS, 1)
            raise HullError(f"{one_line(key)}: no such setting" + (f"; is {near[0]} meant?" if near else ""))


def truth(key: str, given: object) -> bool:
    """What is given, as people and YAML write it; Snakemake hands a word of its command line on as a text."""
    for found, texts in ((True, ("true", "yes", "on", "1")), (False, ("false", "no", "off", "0"))):
        if str(given).lower() in texts:
            return found
    raise HullError(f"{key}: {one_line(given)} is neither true nor false")


def names_of(given: object) -> Optional[List[str]]:
    """The names of days. A number may have been written otherwise, as 1.10 or 2026_01_01, and a date may not."""
    if given is None:
        return None
    if given == "":
        raise HullError("only: nothing is given: name days, or leave the setting out")
    names = given if isinstance(given, list) else [given]
    for name in names:
        if not isinstance(name, str) and type(name) is not date:
            raise HullError(
                f"only: {one_line(name)} isn't read as a text: write each name in quotes, as in only=['2026.10']"
            )
    return [str(name) for name in names]


def text_in(key: str, config: Mapping[str, Any]) -> str:
    """A text, or an empty one where none is given."""
    given = config.get(key)
    if given is not None and not isinstance(given, str):
        raise HullError(f"{key}: {one_line(given)} isn't read as a text: write it in quotes")
    return given or ""


def folder_in(key: str, config: Mapping[str, Any]) -> str:
    """A folder's name, with one slash where several stand, and none at its end: Snakemake compares names as they are written."""
    name = os.path.expanduser(text_in(key, config) or key)
    if name.startswith("-"):
        raise HullError(f"{key}: {one_line(name)}: write it as ./{one_line(name)}")
    if "{" in name or "}" in name:
        raise HullError(f"{key}: {one_line(name)}: Snakemake takes braces for its own: name a folder without them")
    return re.sub("/+", "/", name.rstrip("/") or "/")


def words_in(key: str, config: Mapping[str, Any]) -> str:
    text = text_in(key, config)
    try:
        shlex.split(text)
    except ValueError as why:
        raise HullError(f"{key}: {one_line(text)}: {str(why).lower()}") from None
    return text


def program_of(given: str) -> str:
    """The program: the one that is given, whose name is one from here where it has a folder."""
    if not given:
        return default_program()
    return os.path.abspath(os.path.expanduser(given)) if "/" in given else given


def python_of(given: str) -> str:
    """The Python of the tools, which is to be there; this one where none is given."""
    python = os.path.expanduser(given) or sys.executable
    if not shutil.which(python):
        raise HullError(f"python: {one_line(given)}: there is no such program")
    return python


def refusal_of_name(name: str) -> Optional[str]:
    """Why a day can't have the name, or None."""
    if name in FILES:
        return f"no name for a day: {name} is that of a file of all days"
    if DAY_NAME.fullmatch(name):
        return None
    return (
        "no name for a day: letters, digits and ._+@- with spaces inside, 100 at most, and a letter, a digit or _ first"
    )


def shown(name: str) -> str:
    """A day's name for people: one that can't be is in quotes."""
    return name if DAY_NAME.fullmatch(name) else f"'{one_line(name)}'"


@dataclass(frozen=True)
class Day:
    """A day and where its files are."""

    name: str
    settings: Settings

    @property
    def folder(self) -> str:
        return os.path.join(self.settings.results, self.name)

    @property
    def given(self) -> str:
        return os.path.join(self.settings.days, self.name)

    def path(self, what: str) -> str:
        """The file `case`, `schedule` or `report`: the day's own where it has one, and else the result."""
        file = {"case": "case.json", "schedule": "schedule.json", "report": "report.txt"}[what]
        own = os.path.join(self.given, file)
        return own if what == "case" or os.path.lexists(own) else os.path.join(self.folder, file)

    def made(self, file: str) -> str:
        return os.path.join(self.folder, file)

    def is_given(self, what: str) -> bool:
        return self.path(what).startswith(os.path.join(self.given, ""))

    def steps(self) -> List[str]:
        """The steps that the day needs: none makes what the day has."""
        steps = [] if self.is_given("schedule") else ["schedule"]
        wanted = [step for step in self.settings.wanted() if not (step == REPORT and self.is_given("report"))]
        if "audit" in wanted and REPORT not in wanted and not self.is_given("report"):
            wanted.remove("audit")
        return steps + wanted


def days_of(settings: Settings) -> List[Day]:
    """The days that are named, or all that have a folder."""
    names = settings.only
    if names is None:
        try:
            # (a link to a folder that isn't there now, as on another disk, or to itself, is a day that is left)
            paths = ((it.name, it.path) for it in os.scandir(settings.days))
            named = (name for name, path in paths if os.path.isdir(path) or not os.path.exists(path))
            names = sorted(name for name in named if not name.startswith("."))  # (editors and disks keep such folders)
        except OSError as error:
            raise HullError(f"{one_line(settings.days)}: {error.strerror}") from None
    if not names and settings.only is not None:
        raise HullError("only: no day is named in it: leave it out for all days")
    if not names:  # (a table of none would replace that of the days before, as where their disk isn't mounted now)
        raise HullError(
            f"{one_line(settings.days)}: no day is in it: each is a folder there, as 2026-01-01 with case.json"
        )
    return [Day(name, settings) for name in dict.fromkeys(names)]
