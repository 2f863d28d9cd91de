"""What a result was made from and by: contents of the files, versions, the search for the schedule, the command line and the date."""
import ctypes
import hashlib
import os
import platform
import re
import shlex
import sys
import tempfile
from dataclasses import dataclass
from datetime import datetime, timezone
from typing import Dict, List, Mapping, Optional, Sequence, Tuple

from .apart import run_apart
from .errors import HullError, read_bytes
from .program import Hull

MOST_FOR_VERSION = 60.0  # seconds


def sha256_of(name: str) -> str:
    return hashlib.sha256(read_bytes(name, "a file", most=2**31)).hexdigest()


def sums_of_files(names: Sequence[str]) -> Dict[str, str]:
    """The sums of those that are files: a pipe is read once."""
    return {name: sha256_of(name) for name in names if os.path.isfile(name)}


def refuse_changed(before: Mapping[str, str], what: str, rest: str = "nothing is written") -> None:
    """Refuses files that haven't the sums from before: what was made is then of more than one file."""
    changed = next((name for name, was in before.items() if sha256_of(name) != was), None)
    if changed:
        raise HullError(f"{changed} was changed meanwhile, so {what} of more than one file: {rest}")


def scipy_version() -> str:
    try:
        import scipy
    except ImportError:
        return "none"
    return str(scipy.__version__)


def solver_log() -> str:
    """What the solver in SciPy prints about the smallest program; for a process whose standard output nobody reads."""
    from scipy.optimize import linprog

    with tempfile.TemporaryFile() as file:
        os.dup2(file.fileno(), 1)
        linprog([1], bounds=[(0, 1)], method="highs", options={"disp": True})
        sys.stdout.flush()
        ctypes.CDLL(None).fflush(None)
        file.seek(0)
        return file.read().decode("utf-8", "replace")


def highs_version() -> str:
    """The version of the solver in SciPy, which says it where it solves something; `unknown` where it doesn't say it in a minute."""
    try:
        log = run_apart(solver_log, (), "the version of HiGHS", MOST_FOR_VERSION)
    except (HullError, RuntimeError):
        return "unknown"
    found = re.search(r"HiGHS (?:version )?(\d+\.\d+\.\d+)", log)
    return found.group(1) if found else "unknown"


def date_of_run() -> str:
    """The time in UTC, or that of SOURCE_DATE_EPOCH where a build sets it."""
    given = os.environ.get("SOURCE_DATE_EPOCH")
    if given and not re.fullmatch("[0-9]{1,11}", given):
        raise HullError("SOURCE_DATE_EPOCH is to have a number of seconds since 1970")
    at = datetime.fromtimestamp(int(given), timezone.utc) if given else datetime.now(timezone.utc)
    return at.strftime("%Y-%m-%dT%H:%M:%SZ")


@dataclass(frozen=True)
class Source:
    """A schedule's file, how it was made, and where a search made it the solver's relative gap, and its bound in the currency."""

    name: str
    sha256: str
    made: str
    gap: Optional[float] = None
    is_near: bool = True
    bound: Optional[float] = None


@dataclass(frozen=True)
class Provenance:
    """All of that for one study."""

    case_name: str
    case_sha256: str
    schedule: Source
    best_schedule: Optional[Source]
    versions: Dict[str, str]
    command: str
    date: str

    def columns(self) -> Dict[str, Optional[str]]:
        """The cells that stand in each row of a table."""
        best = self.best_schedule
        gap = self.schedule.gap
        return {
            "case": self.case_name,
            "case_sha256": self.case_sha256,
            "schedule_sha256": self.schedule.sha256,
            "schedule_made": self.schedule.made,
            "schedule_solver_gap": None if gap is None else f"{gap:.6f}",
            "best_schedule_sha256": best.sha256 if best else None,
            "best_schedule_made": best.made if best else None,
            **self.versions,
            "command": self.command,
            "date": self.date,
        }

    def lines(self) -> List[Tuple[str, str]]:
        """What a page shows: a name and a text each."""
        found = [("Case", f"{self.case_name}, sha256 {self.case_sha256}")]
        for told, source in (("Schedule", self.schedule), ("Best schedule known", self.best_schedule)):
            if source:
                found.append((told, f"{os.path.basename(source.name)}, sha256 {source.sha256}; {source.made}"))
        found.append(("Versions", ", ".join(f"{name} {it}" for name, it in self.versions.items())))
        return [*found, ("Command", self.command), ("Date", self.date)]


def versions(hull: Hull) -> Dict[str, str]:
    return {
        "hull": hull.version(),
        "python": platform.python_version(),
        "scipy": scipy_version(),
        "highs": highs_version(),
    }


def command_line(tool: str, words: List[str]) -> str:
    return shlex.join([tool, *words])
