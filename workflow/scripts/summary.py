"""Writes the table and the page over all days, and the list of what is left and why.

usage: summary.py --settings FILE [--audits FOLDER] [--quiet]

FILE is what a run has left. Where that run had a folder of its own for marks of audits, FOLDER names it again:
it isn't chosen by who can write FILE.
Status 1 where a day is left. What counts is what the files hold: a result of other files, or one that was changed, isn't in the table.
"""
import os
import signal
import sys
from dataclasses import dataclass, field, replace
from typing import Dict, List, Optional, Tuple

if __name__ == "__main__" and signal.getsignal(signal.SIGINT) is signal.default_int_handler:
    signal.signal(signal.SIGINT, signal.SIG_DFL)  # (an interrupt while modules are loaded has no traceback)
# (`python3 -I` and PYTHONSAFEPATH leave the folder out)
sys.path.insert(0, os.path.dirname(os.path.realpath(__file__)))

from contents import HIDDEN, auditor, basis, hear_ends, is_marked, read_record, record_of, refuse_links, sum_of
from contents import why_not_current, write_record
from days import FILES, LISTS, REPORT, STEPS, Day, Settings, audits_folder, handed_settings, read_settings, shown
from plan import plan_of
from runs import refuse_audits_inside, settings_file
from hulltools.commands.words import Asker
from hulltools.errors import HullError, need_output, one_line, write_together
from hulltools.outputs import read_output
from hulltools.tables import Table
from hulltools.telling import write_text

HEADS = (
    "day list kind unit cost:money dual_value:money payments:money make_whole:money lost_opportunity:money surplus:money uplift:money "
    "certified_least:money above_least:money earned:money scheduled:money audited schedule"
)


@dataclass
class Paid:
    """What a unit is owed."""

    kind: str
    name: str
    payment: int
    make_whole: int
    earned: int
    scheduled: int

    @property
    def lost_opportunity(self) -> int:
        return self.payment - self.make_whole


@dataclass
class Priced:
    """A price list of a day: the sums of its settlement, and whether a report of it was audited."""

    day: str
    list: str
    cost: int
    value: int
    surplus: int
    uplift: int
    units: List[Paid]
    audited: Optional[bool] = None
    least: Optional[int] = None
    auditor: str = ""  # the program by which the audit was made
    schedule: str = ""  # whether the day's schedule was given or made

    @property
    def payments(self) -> int:
        return sum(unit.payment for unit in self.units)

    @property
    def make_whole(self) -> int:
        return sum(unit.make_whole for unit in self.units)

    @property
    def above_least(self) -> Optional[int]:
        return None if self.least is None else self.uplift - self.least


@dataclass
class Summary:
    """What there is of all days, and by day what is left and why."""

    count: int = 0
    priced: List[Priced] = field(default_factory=list)
    left: List[Tuple[str, str]] = field(default_factory=list)

    def lists(self) -> List[str]:
        return [name for name in (*LISTS, REPORT) if any(it.list == name for it in self.priced)]

    def days(self) -> List[str]:
        return list(dict.fromkeys(it.day for it in self.priced))


def why_left(day: Day, step: str) -> Optional[str]:
    """Why the step isn't done, or None."""
    why = why_not_current(day, step)
    if why is None:
        return None
    left = record_of(day, step, "left")
    if all(left.get(key) == found for key, found in basis(day, step).items()):
        return str(left.get("why"))
    waits = [what for what in STEPS[step].takes if sum_of(day.path(what), is_input=True) is None]
    return f"waits for the {waits[0]}" if waits else why


def whys_left(day: Day, steps: List[str]) -> Dict[str, Optional[str]]:
    """Why each step isn't done, or None; nothing is that takes what a step left before it is to make anew."""
    found: Dict[str, Optional[str]] = {}
    for step in steps:
        waits = next((what for what in STEPS[step].takes if found.get(what) is not None), None)
        found[step] = why_left(day, step) or (f"waits for the {waits}" if waits else None)
    return found


def priced(day: Day, name: str, file: str, audited: Optional[bool] = None) -> Priced:
    """What a settlement or a report says, without its lists by period."""
    text = read_output(file, ("hull-settlement 1", "hull-report 1"))
    units = [Paid(it.kind, it.name, it.payment, it.make_whole, it.earned, it.scheduled) for it in text.units]
    return Priced(day.name, name, text.cost, text.best.value, text.surplus, text.gap, units, audited)


def certified_least(day: Day) -> int:
    """The least that payments and surplus sum to at any prices, by the day's certificate."""
    return read_output(day.made("convex_hull.certificate.txt"), ("hull-certificate 1",)).least


def barred_folders(day: Day) -> List[str]:
    """The day's folders of results that are there, and that this user may not write."""
    folders = (day.folder, day.made(HIDDEN), day.made("log"))
    return [it for it in folders if os.path.isdir(it) and not os.access(it, os.W_OK | os.X_OK)]


def add_day(summary: Summary, day: Day, steps: List[str]) -> None:
    """Adds the price lists of a day that are of the files that lie there, and what is left of it."""
    why = whys_left(day, steps)
    summary.left += [(day.name, f"{step}: {told}") for step, told in why.items() if told is not None]
    if any(why.values()):
        summary.left += [(day.name, f"{one_line(it)} may not be written by this user") for it in barred_folders(day)]
    if not day.settings.audit and day.settings.report and day.is_given(REPORT) and not is_marked(day):
        why_out = "report: it is its own, and isn't in the table until it is audited: leave audit=false out"
        summary.left.append((day.name, why_out))
    made = [step for step in steps if why[step] is None]
    found = [priced(day, name, day.made(f"{name}.settlement.txt")) for name in LISTS if name in made]
    if REPORT in made or day.is_given(REPORT) and is_marked(day) and not why.get("schedule"):
        found.append(priced(day, REPORT, day.path("report"), is_marked(day)))
        found[-1].auditor = auditor(day)
    least = certified_least(day) if "convex_hull" in made else None
    for price_list in found:
        price_list.least = least
        price_list.schedule = "given" if day.is_given("schedule") else "made"
    summary.priced += found


def summary_of(settings: Settings) -> Summary:
    plan = plan_of(settings)
    summary = Summary(len(plan.days) + len(plan.refused))
    summary.left = [(name, why) for name, why in plan.refused.items()]
    for day, steps in plan.days:
        try:
            add_day(summary, day, steps)
        except (HullError, OSError) as error:
            summary.left.append((day.name, one_line(error)))
    return summary


def table_of(summary: Summary) -> Table:
    """A row of kind `day` for each day and list, and behind it one for each unit."""
    table = Table(HEADS.split(), True)
    for priced in summary.priced:
        paid = (priced.payments, priced.make_whole, priced.payments - priced.make_whole)
        sums = (priced.cost, priced.value, *paid, priced.surplus, priced.uplift, priced.least, priced.above_least)
        audited = None if priced.audited is None else "yes" if priced.audited else "no"
        table.add(priced.day, priced.list, "day", None, *sums, None, None, audited, priced.schedule)
        for unit in priced.units:
            paid = (unit.payment, unit.make_whole, unit.lost_opportunity)
            rest = (None, None, None, None, unit.earned, unit.scheduled, None, None)
            table.add(priced.day, priced.list, unit.kind, unit.name, None, None, *paid, *rest)
    return table


def left_text(summary: Summary) -> str:
    return "".join(f"{shown(day)}: {one_line(why)}\n" for day, why in summary.left)


def write_files(settings: Settings, summary: Summary) -> None:
    """Writes the three files, whole; files of those names that weren't made here stay."""
    from uplift_page import uplift_page

    folder = os.path.join(settings.results, HIDDEN)
    refuse_links(settings, HIDDEN)
    os.makedirs(folder, exist_ok=True)
    record = os.path.join(folder, "summary.json")
    made = read_record(record).get("made") or []
    for name in FILES:
        if os.path.lexists(os.path.join(settings.results, name)) and name not in made:
            raise HullError(
                f"{one_line(os.path.join(settings.results, name))} wasn't made by this workflow, so it stays: move it away"
            )
    write_record(record, {"made": list(FILES)})
    texts = (table_of(summary).text(), uplift_page(summary), left_text(summary))
    # (a page beside the table of another run would have other sums)
    write_together({os.path.join(settings.results, name): text for name, text in zip(FILES, texts)})


def tell(settings: Settings, text: str) -> None:
    count = len(text.splitlines())
    told = "nothing is left" if not count else f"{count} line{'s' * (count > 1)} of what is left"
    where = os.path.join(settings.results, "")
    need_output()
    write_text(f"{text}{one_line(where)}table.csv, page.html and left.txt are written; {told}\n")


def settings_of(name: str, audits: str) -> Settings:
    """The settings that a run hands on, with the days in its file, or all of the file where no run calls.

    HullError where no run can have left them there, with places of their own to write to, or with marks of audits
    that the user doesn't name.
    """
    settings = read_settings(name)
    handed = handed_settings()
    if handed:
        return replace(handed, only=settings.only)
    place = settings_file(settings)
    if not os.path.isfile(place) or not os.path.samefile(name, place) or not os.path.isabs(settings.audits):
        raise HullError(f"{name}: these settings aren't those that a run has left for {settings.results}")
    refuse_audits_inside(settings)
    if settings.audits != audits_folder(audits):
        raise HullError(
            f"{name}: marks of audits are to be in {settings.audits}: if these are yours, add --audits FOLDER"
        )
    return settings


def body(words: List[str]) -> int:
    ask = Asker(prog="summary.py", usage=(__doc__ or "usage: ").split("usage: ")[1].split("\n")[0])
    ask.add_argument("--settings", required=True)
    ask.add_argument("--audits", default="")
    ask.add_argument("--quiet", action="store_true")
    given = ask.parse_args(words)
    settings = settings_of(given.settings, given.audits)
    summary = summary_of(settings)
    write_files(settings, summary)
    text = left_text(summary)
    if not given.quiet:
        tell(settings, text)
    return 1 if text else 0


def main() -> int:
    hear_ends()
    try:
        return body(sys.argv[1:])
    except HullError as error:
        why = str(error)
    except OSError as error:
        why = f"{error.filename or 'a file'}: {error.strerror or error}"
    print(f"summary.py: {one_line(why)}", file=sys.stderr)
    return 1


if __name__ == "__main__":
    sys.exit(main())
