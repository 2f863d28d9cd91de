"""What the Snakefile needs of a run: the lock of the study, resources that grow with the case and the attempt, and the summary."""
import contextlib
import fcntl
import math
import os
import re
import subprocess
import sys
from types import FrameType
from typing import Any, Callable, Iterator, List, Optional, Tuple, TypeVar

from contents import HIDDEN, refuse_links, values_of, write_whole
from days import Day, Settings
from hulltools.errors import HullError, one_line
from hulltools.options import MOST_SECONDS, float_of
from hulltools.search_limits import SECONDS

Found = TypeVar("Found")
BESIDE = (".snakemake/conda", ".snakemake/singularity")  # where Snakemake itself may keep links


def drop_closed_records() -> None:
    """Takes away Snakemake's own records that another user's run left in a shared folder, and that this one can't read: it would end by them.

    Nothing goes by them here: the flags say what is stale, and the steps' records what was made.
    """
    for kind in ("metadata", "incomplete"):
        for folder, _, files in os.walk(os.path.join(".snakemake", kind)):
            for name in (os.path.join(folder, it) for it in files):
                if not os.access(name, os.R_OK):
                    with contextlib.suppress(OSError):
                        os.unlink(name)


def is_main(workflow: Any) -> bool:
    """Whether this is the process that the user started, and not one of its jobs."""
    mode = getattr(workflow, "exec_mode", getattr(workflow, "mode", 0))  # (of Snakemake 8 and later, and of 7)
    return getattr(mode, "value", mode) == 0


# What Snakemake is asked for where it runs nothing, by the names of its arguments.
ASKED = (
    "dryrun dag rulegraph filegraph d3dag list list_target_rules lint summary detailed_summary print_compilation report archive "
    "list_version_changes list_code_changes list_input_changes list_params_changes list_untracked list_changes list_rules "
    "unlock cleanup_metadata cleanup_shadow containerize list_conda_envs conda_cleanup_envs conda_create_envs_only export_cwl "
    "generate_unit_tests"
).split()


def is_dry() -> bool:
    """Whether Snakemake is only to say something, as its calls have it: it doesn't tell the Snakefile."""
    frame: Optional[FrameType] = sys._getframe()
    while frame is not None:
        asked = frame.f_locals.get("args")
        if str(frame.f_globals.get("__name__")).split(".")[0] == "snakemake" and hasattr(asked, "dryrun"):
            return any(getattr(asked, name, None) for name in ASKED)
        frame = frame.f_back
    return False


# Words that say how many processors or jobs, as Snakemake takes them: `-c 2`, `--cores=2`, `-kj2`.
COUNT = re.compile(r"(?:-[a-zA-Z]*(?P<letter>[cj])|--(?P<name>cores?|jobs)(?=[= ]))[= ]?(?P<number>[0-9]+)")


def asked_counts(words: List[str]) -> Iterator[Tuple[str, str, int]]:
    """The words of a call that say how many processors (c) or jobs (j), each as it is written and with its number."""
    for word, after in zip(words, [*words[1:], ""]):
        for written in (word, f"{word} {after}"):
            found = COUNT.fullmatch(written)
            if found:
                yield written, found["letter"] or found["name"][0], int(found["number"])


def refuse_unheard_processors(workflow: Any) -> None:
    """Refuses a number of processors that a profile has Snakemake pass over: on one machine it heeds `-c 2` and `--cores=2` alone."""
    taken = getattr(workflow, "global_resources", {}).get("_cores")
    has_profile = "SNAKEMAKE_PROFILE" in os.environ or any(it.split("=")[0] == "--profile" for it in sys.argv)
    for word, letter, number in asked_counts(sys.argv[1:]):
        if taken not in (None, number) and not (letter == "j" and is_dry()):
            raise HullError(f"{word}: Snakemake would use {taken} processors, as the profile says: write -c {number}")
        if taken is None and has_profile and letter == "j" and re.fullmatch("-[a-zA-Z]+[0-9]+", word):
            raise HullError(f"{word}: Snakemake would take the number of the profile: write -j {number}")


def links_below(folder: str) -> Iterator[str]:
    for at, folders, files in os.walk(folder):
        folders[:] = [name for name in folders if os.path.join(at, name) not in BESIDE]
        yield from (os.path.join(at, name) for name in (*folders, *files) if os.path.islink(os.path.join(at, name)))


def refuse_audits_inside(settings: Settings) -> None:
    """Refuses a place for marks of audits that may have come with the study."""
    audits = os.path.join(os.path.realpath(settings.audits), "")
    home = os.path.realpath(os.path.expanduser("~"))
    for folder in {os.path.realpath(it) for it in (".", settings.days, settings.results)} - {home}:
        if audits.startswith(os.path.join(folder, "")):
            raise HullError(
                f"audits: {one_line(settings.audits)} is inside the study, and marks there may be anybody's"
            )


def refuse_results_among_days(settings: Settings) -> None:
    days, results = (os.path.join(os.path.realpath(name), "") for name in (settings.days, settings.results))
    if results.startswith(days):
        raise HullError(f"results: {one_line(settings.results)} is among the days, where nothing is written")


def or_end(call: Callable[..., Found], *words: Any) -> Found:
    """What the call gives; the process ends with one line where something is refused, without Snakemake's trace of it."""
    try:
        return call(*words)
    except HullError as error:
        print(one_line(error), file=sys.stderr, flush=True)
        os._exit(1)


def refuse_places(settings: Settings) -> None:
    """Refuses a study with links where Snakemake or the workflow writes, and places that can't be."""
    for name in [".snakemake"] * os.path.islink(".snakemake") + list(links_below(".snakemake")):
        raise HullError(f"{one_line(name)} is a symbolic link, and nothing is written through it")
    refuse_links(settings, HIDDEN)
    refuse_results_among_days(settings)
    refuse_audits_inside(settings)


def begin_alone(settings: Settings) -> int:
    """Takes the lock of the study for as long as this process lives, and leaves the settings for `summary.py`."""
    try:
        os.makedirs(os.path.join(settings.results, HIDDEN), exist_ok=True)
        name = os.path.join(settings.results, HIDDEN, "lock")
        handle = os.open(name, os.O_CREAT | os.O_WRONLY | os.O_NOFOLLOW | os.O_NONBLOCK | os.O_CLOEXEC, 0o666)
        fcntl.flock(handle, fcntl.LOCK_EX | fcntl.LOCK_NB)
        write_whole(settings_file(settings), settings.text().encode())
    except BlockingIOError:
        raise HullError(f"another run is at work in {settings.results}") from None
    except OSError as error:
        raise HullError(f"{error.filename or settings.results}: {error.strerror}") from None
    return handle


def settings_file(settings: Settings) -> str:
    """Where the settings of the run lie for `summary.py`: no step reads them there."""
    return os.path.join(settings.results, HIDDEN, "settings.json")


def megabytes(settings: Settings, day: str) -> float:
    try:
        return os.path.getsize(Day(day, settings).path("case")) / 1e6
    except OSError:
        return 0.0


def memory(settings: Settings, least: int, per_megabyte: int) -> Callable[..., int]:
    """MB for a job: more for a larger case, and more at each attempt."""
    return lambda wildcards, attempt: int((least + per_megabyte * megabytes(settings, wildcards.day)) * attempt)


def minutes(settings: Settings, least: int, per_megabyte: int, name: str = "") -> Callable[..., int]:
    """Minutes for a job, in the same way, and as long as the words of its step, which has this name or is a list, let a solver work."""

    def due(wildcards: Any, attempt: int) -> int:
        own = (least + per_megabyte * megabytes(settings, wildcards.day)) * attempt
        return int(own) + solver_minutes(settings, getattr(wildcards, "list", name))

    return due


def solver_minutes(settings: Settings, step: str) -> int:
    """How long the tool of a step lets a solver work, in whole minutes; 0 where there is no such tool."""
    if step not in ("schedule", "elmp"):
        return 0
    given = [float_of(it) for it in values_of(settings.words_of(step), "--seconds")]
    asked = [it for it in given if it is not None and 0 <= it <= MOST_SECONDS]  # (the tool refuses others)
    return math.ceil(max(asked, default=SECONDS) / 60)


def summary(settings: Settings, scripts: str) -> None:
    """Makes the table, the page and the list of what is left from what is there now, and prints that list.

    (Whether those that lie there are this run's, no time of a file says: another one may have written them meanwhile, or dated them.)
    """
    words = [settings.python, os.path.join(scripts, "summary.py"), "--settings", settings_file(settings)]
    try:
        subprocess.run(words, stdin=subprocess.DEVNULL)
    except OSError as error:
        print(f"no table is made: {one_line(settings.python)}: {error.strerror}", file=sys.stderr, flush=True)
