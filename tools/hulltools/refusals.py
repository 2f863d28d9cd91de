"""What the program refuses, as an error that carries the parts of its fault line."""
import re
from typing import Optional, Sequence

from .errors import HullError, one_line
from .faults import sentence
from .named_files import GROUPS, PLAN_GROUPS, Files

# In lines of these an item stands for a period.
BY_PERIOD = re.compile(
    r"field (energy|reserve|demand|reserves|blocks|commitment) |field \w+ kind renewable |(schedule|mixture) 43 "
)
FILES = ("case", "schedule", "prices", "mixture", "report")
OF_ANOTHER_FILE = {"schedule": 40, "mixture": 40}  # codes whose unit is numbered within that file


class Held(str):
    """The name of a file that holds what was given as an object or a dict, and what a sentence calls it."""

    shown = ""


def files_of(words: Sequence[str]) -> Files:
    """The files that the words of a command name."""
    pairs = zip(words, words[1:])
    names = {option[2:]: name for option, name in pairs if option[2:] in FILES and option.startswith("--")}
    return Files(names, shown={what: name.shown for what, name in names.items() if isinstance(name, Held)})


def number_behind(word: str, line: str) -> Optional[int]:
    found = re.search(rf"\b{word} (\d+)\b", line)
    return int(found.group(1)) if found else None


def period_of(line: str) -> Optional[int]:
    """The period that a fault line is told of, or None: an item of a list by period is of the period of its number."""
    item = number_behind("item", line)
    return item if item and BY_PERIOD.search(line) else number_behind("period", line)


def unit_of(line: str, files: Files) -> Optional[str]:
    """The name of the unit that a fault line is told of, or None."""
    found = re.search(r"^fault \d+ (\w+) (\d+) .*\bkind (\w+) unit (\d+)", line)
    if not found or found.group(3) not in GROUPS:
        return None
    what, code, kind, number = found.groups()
    if OF_ANOTHER_FILE.get(what) == int(code):
        return files.name_of(what, PLAN_GROUPS[kind], int(number))
    return files.name_of("case", GROUPS[kind], int(number))


def place_of(line: str, files: Files) -> tuple[Optional[int], Optional[int]]:
    """The byte of a file, from 0, and its line, from 1, that a fault line says; each is None where it isn't known."""
    found = re.search(r"^fault \d+ (\w+) \d+ at (\d+)$", line)
    if not found:
        return None, None
    what, at = found.group(1), int(found.group(2))
    if what == "report":  # (its lines are counted, and not its bytes)
        return None, at
    data = files.bytes_of(what)
    return at, data.count(b"\n", 0, at) + 1 if at <= len(data) else None


def refusal(words: Sequence[str], status: int, output: bytes) -> HullError:
    """The error of a run that ended with a status other than 0."""
    line = one_line(output.decode("utf-8", "replace").strip())[:300]
    told = f"hull {words[0]} ended with status {status}" + (f": {line}" if line else "")
    files, code = files_of(words), re.match(r"fault \d+ (?!work )\w+ (\d+)", line)  # (of work the number is no code)
    try:
        said = sentence(line, files)
    except HullError:
        said = None
    number = int(code.group(1)) if code else None
    return HullError(told, status, number, unit_of(line, files), period_of(line), said, *place_of(line, files))
