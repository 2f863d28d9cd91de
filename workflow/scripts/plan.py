"""Which steps of which days can be made, and which have to be: what counts is what the files hold, and not when they were written.

Snakemake goes by times. So each step has a flag among its inputs, which is newer than the step's files unless these are what the step
makes of what lies there.
"""
import math
import os
import secrets
import sys
import time
from dataclasses import dataclass, field
from functools import cached_property
from typing import Dict, List, Optional, Tuple

from contents import HIDDEN, drop, drop_made, input_sums, make_folders, record_of, refuse_linked_day, refuse_links
from contents import refuse_taken, values_of, why_not_current, write_whole
from days import REPORT, STEPS, Day, Settings, days_of, refusal_of_name, shown
from hulltools.errors import HullError, one_line


@dataclass
class Plan:
    """Days with their steps, and by the name of a day why it can't be begun."""

    days: List[Tuple[Day, List[str]]] = field(default_factory=list)
    refused: Dict[str, str] = field(default_factory=dict)

    @cached_property
    def steps(self) -> Dict[str, List[str]]:
        return {day.name: steps for day, steps in self.days}

    def files(self) -> List[str]:
        return [day.made(file) for day, steps in self.days for step in steps for file in STEPS[step].makes]


def why_not_begun(day: Day) -> Optional[str]:
    """Why nothing of the day can be made, or None."""
    why = refusal_of_name(day.name)
    if why:
        return why
    if not os.path.isdir(day.given):
        return "there is no such folder"
    if not os.access(day.given, os.R_OK | os.X_OK):
        return "its folder may not be read"
    if os.path.join(os.path.realpath(day.settings.days), "").startswith(os.path.join(os.path.realpath(day.folder), "")):
        return "its results would lie where the days are"
    if not os.path.isfile(day.path("case")):
        return "no case.json"
    for what in ("schedule", REPORT):
        if day.is_given(what) and not os.path.isfile(day.path(what)):
            return f"its {os.path.basename(day.path(what))} is no file, or a link to none"
        meant = name_meant(day, what)
        if meant:
            return f"it has {one_line(meant)}, and no {os.path.basename(day.path(what))}: rename it, or move it away"
    try:
        refuse_linked_day(day)  # (a day of which no step is wanted, too: its folder is made)
        for step in day.steps():
            refuse_taken(day, step)
    except HullError as error:
        return str(error)
    return None


def name_meant(day: Day, what: str) -> Optional[str]:
    """A file that is named nearly as the schedule or report that the day lacks: one made in its place would be taken for it."""
    is_wanted = what in day.steps() or what == REPORT and day.settings.audit
    if day.is_given(what) or not is_wanted or any(values_of(day.settings.words_of(what), "--follow")):
        return None
    due = os.path.basename(day.path(what))
    return next((it for it in sorted(os.listdir(day.given)) if it.lower() in (due, f"{due}.txt", f"{due}.gz")), None)


def plan_of(settings: Settings) -> Plan:
    refuse_links(settings)
    plan = Plan()
    for day in days_of(settings):
        why = why_not_begun(day)
        if why:
            plan.refused[day.name] = why
        else:
            plan.days.append((day, day.steps()))
    return plan


def refuse_one_table_of_many(plan: Plan, settings: Settings) -> None:
    """Refuses words by which the schedule of each day would write the same table, where that of the last one stays."""
    count = sum("schedule" in steps for _, steps in plan.days)
    for name in values_of(settings.words_of("schedule"), "--deviations") if count > 1 else ():
        raise HullError(f"schedule_words: each of {count} days would replace {one_line(name)}: name one day by only")


def need_step(plan: Optional[Plan], day: Day, step: str) -> None:
    """Refuses a step that isn't planned, which a target may still ask for; a job, which has no plan, looks itself."""
    why = why_not_begun(day) if plan is None else plan.refused.get(day.name)
    if why is None and step not in (day.steps() if plan is None else plan.steps.get(day.name, [])):
        why = f"the settings don't want its {step}"
    if why is not None:
        raise HullError(f"{shown(day.name)}: {why}")


def flag_name(results: str, day: str, step: str) -> str:
    return os.path.join(results, day, HIDDEN, f"{step}.flag")


def time_of(name: str) -> float:
    try:
        return os.lstat(name).st_mtime
    except FileNotFoundError:
        return 0.0


def input_time_of(name: str) -> float:
    """The time of an input, or that of what it leads to, if it is a link and this is later: Snakemake goes by both."""
    return max(time_of(name), time_of(os.path.realpath(name)))


def set_time(name: str, when: float) -> None:
    """Dates a file of the workflow; one of another user, who shares the folder, is replaced by a copy first: its owner alone can date it."""
    try:
        os.utime(name, (when, when), follow_symlinks=False)
    except PermissionError:
        with open(os.open(name, os.O_RDONLY | os.O_NOFOLLOW | os.O_CLOEXEC), "rb") as file:
            data = file.read()
        write_whole(name, data)
        os.utime(name, (when, when), follow_symlinks=False)


def told_by_all(when: float) -> float:
    """The first time from then on that every disk can keep: some count in whole seconds, or in two."""
    return float(math.ceil(when / 2) * 2)


def settle_times(day: Day, step: str) -> None:
    """Gives the step's files a time that isn't before those of its inputs, since they are made of what the inputs hold."""
    inputs = [input_time_of(day.path(what)) for what in STEPS[step].takes]
    when = max(*inputs, time_of(flag_name(day.settings.results, day.name, step)))
    for name in (day.made(file) for file in STEPS[step].makes):
        if time_of(name) < when:
            set_time(name, told_by_all(when))


def raise_flag(name: str, day: Day, step: str) -> None:
    """Writes a flag that is newer than the step's files, and that holds what none held before: Snakemake looks at both."""
    write_whole(name, secrets.token_hex().encode())
    when = max([time.time(), *(time_of(day.made(file)) for file in STEPS[step].makes)]) + 1
    when = told_by_all(when)
    os.utime(name, (when, when), follow_symlinks=False)


def stale_steps(day: Day, steps: List[str]) -> List[str]:
    """The steps whose files aren't what they make of what lies there, and those that take what these make."""
    stale: List[str] = []
    for step in steps:
        flag = flag_name(day.settings.results, day.name, step)
        is_flagged = os.path.isfile(flag) and not os.path.islink(flag)
        if not is_flagged or set(STEPS[step].takes) & set(stale) or why_not_current(day, step) is not None:
            stale.append(step)
    return stale


def is_of_others(day: Day, step: str) -> bool:
    """Whether the step's files were made of other files than lie there."""
    of = record_of(day, step).get("of")
    return of is not None and of != input_sums(day, step)


def withdraw(day: Day, steps: List[str], stale: List[str]) -> None:
    """Takes away an audit that is to be made anew, and what isn't wanted and was made of other files than lie there."""
    for step in STEPS:
        if step not in steps and (set(STEPS[step].takes) & set(stale) or is_of_others(day, step)):
            drop_made(day, step)
    if "audit" in stale:
        drop(day.made("audit.txt"))


def set_flags(plan: Plan) -> None:
    """Sets the time of each step's flag; a day whose folder can't be written is refused."""
    for day, steps in list(plan.days):
        try:
            make_folders(day)
            stale = stale_steps(day, steps)
            for step in steps:
                if step in stale:
                    raise_flag(flag_name(day.settings.results, day.name, step), day, step)
                else:
                    settle_times(day, step)
            withdraw(day, steps, stale)
            continue
        except HullError as error:
            why = str(error)
        except OSError as error:
            why = f"{one_line(error.filename or day.folder)}: {error.strerror}"
        plan.days.remove((day, steps))
        plan.refused[day.name] = why
        print(f"{shown(day.name)}: {one_line(why)}", file=sys.stderr, flush=True)  # (what is left can't say it later)


def show_flags(plan: Plan, folder: str) -> Dict[str, List[str]]:
    """Sets flags in a folder outside of the study, for a run that only says what it would do; what is stale, by day."""
    stale = {day.name: stale_steps(day, steps) for day, steps in plan.days}
    for day, steps in plan.days:
        os.makedirs(os.path.join(folder, day.name, HIDDEN))
        for step in steps:
            name = flag_name(folder, day.name, step)
            raise_flag(name, day, step)
            if step not in stale[day.name]:
                os.utime(name, (0, 0))
    return stale
