"""A fault line of `hull` as a sentence: which file and unit, what was found there, and what is due."""
import re
from collections.abc import Callable
from typing import Any, Union

from .fault_hints import hint_of_items, place_in_words, remedy
from .fault_rules import told_rule
from .fault_shapes import told_shape
from .named_files import GROUPS, WHOLE_FILES, Files, Known, who, written
from .errors import HullError, one_line

__all__ = ["Files", "sentence"]

WORDS = {
    1: "no command was given: `hull help` lists them",
    2: "the first word is no command: `hull help` lists them",
    3: "word {0} is an option that the command doesn't have",
    4: "the option at word {0} was given before",
    5: "the option at word {0} has no value, or one that begins with -",
    6: "word {0} is or has a number that isn't 1 to 20 digits, or isn't within its range",
    7: "a required option, or the number of `try`, is missing after word {0}: every other command needs --case and --schedule, `audit` "
    "--report too, `settle` --prices, and `certify` --prices and --mixture",
    8: "word {0} is neither an option nor the value of one",
}
TEXTS = {
    10: "this isn't JSON, or can't stand there",
    11: "this number has more than 30 digits or an exponent above 400",
    12: "this opens level 33 of objects and lists, and 32 is the most",
    13: "this key stands twice in one object: rename or drop one of the two",
}
FIELDS = {
    20: "it isn't there, and it has to be",
    21: "it is of the wrong kind: {kind_due} is due",
    22: "it isn't whole: a number of periods, or a flag, is due",
    23: "it is below 0",
    24: "it is above the limit, {limit}",
    25: "it hasn't an item for each of the {periods} periods",
    26: "its power is below that of the point before it: rising powers are due",
    27: "its points have to reach from the least power, {power_output_minimum}, to the greatest, {power_output_maximum}",
    28: "its lag is below the one before it: rising lags are due",
    29: "it is neither 0 nor 1",
    30: "it is above the greatest power, {power_output_maximum}",
    31: "there is neither a thermal nor a renewable unit, and one at least is due",
    33: "a list with null, 0 or 1 for each of the {periods} periods is due",
    34: "there is no period: 1 to 168 are due",
    37: "a block's price is above that of the block before it: falling prices are due",
}
LISTS = ("demand", "reserves", "startup", "piecewise_production", "blocks", "commitment", "energy", "reserve")
LIMITS: dict[Union[str, tuple[str, str]], str] = {
    "time_periods": "168 periods",
    "power_output_t0": "10,000 MW",
    "startup": "32 items, lags of 1,000,000 periods and costs of 10,000,000",
    "piecewise_production": "32 items, powers of 1,000,000 MW and costs of 10,000,000",
    "blocks": "8 blocks, 1,000,000 MW in sum and a price of 10,000",
    "energy": "10,000 per MW and period either way",
    "reserve": "10,000 per MW and period",
    ("power_output_maximum", "thermal"): "10,000 MW",
    **{it: "4,096 members" for it in GROUPS.values()},
    **{it: "1,000,000 periods" for it in ("time_up_minimum", "time_down_minimum", "time_up_t0", "time_down_t0")},
}


def before(data: bytes, place: int, most: int = 1000) -> bytes:
    """What stands before a place."""
    return data[max(0, place - most) : place]


def told_text(files: Files, what: str, code: int, place: int) -> str:
    """A fault of a file's text, with the line and what stands around it."""
    data = files.bytes_of(what)
    line, column = data.count(b"\n", 0, place) + 1, place - data.rfind(b"\n", 0, place)
    near = before(data, place, 30).decode("utf-8", "replace"), data[place : place + 30].decode("utf-8", "replace")
    at = place_in_words(files, what, place)
    return (
        f"byte {place}, line {line}, column {column}{', in ' if at else ''}{at}: {TEXTS[code]}{known_mistake(files, what, place)}; "
        f"there stands {near[0]!r} and then {near[1]!r}"
    )


BEGINNINGS = {
    b"\xef\xbb\xbf": "a byte order mark: save the file as UTF-8 without one",
    b"\xff\xfe": "UTF-16: save the file as UTF-8",
    b"\xfe\xff": "UTF-16: save the file as UTF-8",
    b"\x1f\x8b": "a compressed file: unpack it first",
}


MOST_ESCAPES = (
    1000  # how many quotes with a backslash before them, and how many of these in a row, a string is looked through for
)


def is_open_string(data: bytes, place: int) -> bool:
    """Whether a string that begins at the place isn't closed; where very much of it is escaped that isn't known, and it counts as closed."""
    if data[place : place + 1] != b'"':
        return False
    at = place
    for _ in range(MOST_ESCAPES):
        at = data.find(b'"', at + 1)
        if at < 0:
            return True
        before = data[max(place + 1, at - MOST_ESCAPES) : at]
        backslashes = len(before) - len(before.rstrip(b"\\"))
        if backslashes % 2 == 0 or backslashes == MOST_ESCAPES:
            return False
    return False


def known_mistake(files: Files, what: str, place: int) -> str:
    """What a text's fault most likely is, by what stands at the place; an empty text where it isn't known."""
    data = files.bytes_of(what)
    told = next((it for mark, it in BEGINNINGS.items() if data.startswith(mark) and not place), None)
    if files.is_empty(what):
        told = "the file is empty"
    elif data and (is_open_string(data, place) or re.compile(rb"[-+.\w]*").fullmatch(data, min(place, len(data)))):
        told = "the file ends there"
    elif re.search(rb"\d,\s*\Z", before(data, place)) and data[place : place + 1].isdigit():
        told = "a decimal comma? Numbers have a point"
    elif re.match(rb"[-+]?(nan|inf)", data[place : place + 4], re.I):
        told = "no number of JSON: give the value; 0 is no power or money, and not a value that is missing"
    elif re.search(rb",\s*\Z", before(data, place)) and data[place : place + 1] in (b",", b"]", b"}"):
        told = "a comma too many"
    elif not place and told is None:
        told = "a JSON text begins with {"
    return f" ({told})" if told else ""


def kind_due(key: str, kind: str, item: int) -> str:
    """What kind of value is due at a field, or at an item of its list."""
    if item:
        return "an object with numbers" if key in ("startup", "piecewise_production", "blocks") else "a number"
    if key in ("startup", "piecewise_production", "blocks"):
        return "a list of objects with numbers"
    if key in LISTS or kind == "renewable":
        return "a list of numbers"
    return "an object" if key == "whole" or key in GROUPS.values() else "a number"


# Keys that only a file of another kind has.
OF_OTHERS = {"case": ("thermal", "energy"), "prices": ("thermal", "time_periods")}


def range_of(unit: dict[str, Any], item: int) -> dict[str, str]:
    """The least and the greatest power of a unit, of the item's period where they are lists."""
    limits = {name: unit.get(name) for name in ("power_output_minimum", "power_output_maximum")}
    return {
        name: written(value[item - 1] if isinstance(value, list) and 1 <= item <= len(value) else value)
        for name, value in limits.items()
    }


def told_field(files: Files, what: str, code: int, key: str, kind: str, number: int, item: int) -> str:
    """A fault of a field of the case or of the prices."""
    path: list[Union[str, int]] = [] if key == "whole" else [key]
    if kind in GROUPS:
        path = [GROUPS[kind], number, *([key] if key != GROUPS[kind] else [])]
    found = files.at(what, *path)
    listed = found
    if item and isinstance(found, list) and item <= len(found):
        found = found[item - 1]
    unit = files.at(what, GROUPS.get(kind, ""), number) or {}
    known = range_of(unit, item) if isinstance(unit, dict) else {}
    limit = LIMITS.get((key, kind)) or LIMITS.get(key) or "1,000,000 MW"
    known.update(
        periods=written(files.at("case", "time_periods")),
        kind_due=kind_due(key, kind, item),
        limit=limit,
    )
    where = f"{who(files, kind, number)}, " if kind in GROUPS else ""
    place = f", item {item}" if item else ""
    count = f"; it has {len(listed)} items" if code in (25, 33) and isinstance(listed, list) else ""
    is_known = found is not None or code == 21 and files.value(what) is not None
    value = f" Found: {written(found)}{count}." if code != 20 and is_known else ""
    hint = hint_of_field(files, what, code, limit, listed) or remedy(code, key, kind, item, found)
    return f"{where}{'the whole' if key == 'whole' else key}{place}: {due_at(code, known)}.{value}{hint}"


def due_at(code: int, known: dict[str, str]) -> str:
    """What a field's fault is, with what is known of the case."""
    told = FIELDS[code].format_map(Known(known))
    return told.replace("each of the 1 periods", "the one period")


def hint_of_field(files: Files, what: str, code: int, limit: str, listed: Any) -> str:
    """What mistake a field's fault may come from."""
    if code == 20 and any(files.at(what, it) is not None for it in OF_OTHERS[what]):
        return " Are the files swapped?"
    if code == 24 and limit.endswith(" MW"):
        return " A case is in megawatts: are these kilowatts?"
    if code == 25 and isinstance(listed, list) and what not in files.shown:  # (Python has no decimal commas)
        return hint_of_items(files, listed)
    return ""


NUMBER = r"(-?\d+)"
FORMS: list[tuple[str, Callable[..., str]]] = [
    (r"fault 1 words (\d+) (\d+)", lambda files, code, at: WORDS[int(code)].format(at) + "."),
    (r"fault 2 read (\w+)", lambda files, what: told_read(files, what)),
    (r"fault \d+ (\w+) 32", lambda files, what: f"{of(files, what)} has more than 67,108,864 bytes."),
    (
        r"fault (?:3|4|9|10) (\w+) (\d+) at (\d+)",
        lambda files, what, code, at: f"{of(files, what)}: {told_text(files, what, int(code), int(at))}.",
    ),
    (
        r"fault 3 (case) (\d+) field (\w+) kind (\w+) unit (\d+) item (\d+)",
        lambda files, what, code, key, kind, *numbers: f"{of(files, what)}: "
        + told_field(files, what, int(code), key, kind, *map(int, numbers)),
    ),
    (
        r"fault 9 (prices) (\d+) field (\w+) item (\d+)",
        lambda files, what, code, key, item: f"{of(files, what)}: "
        + told_field(files, what, int(code), key, "case", 0, int(item)),
    ),
    (
        r"fault 4 (schedule) (\d+) kind (\w+) unit (\d+) item (\d+)",
        lambda files, what, code, kind, *numbers: f"{of(files, what)}: "
        + told_shape(files, what, int(code), kind, *map(int, numbers)),
    ),
    (
        rf"fault 4 (schedule) (\d+) kind (\w+) unit (\d+) period (\d+) left {NUMBER} right {NUMBER}",
        lambda files, what, code, kind, *numbers: f"{of(files, what)}: "
        + told_rule(files, what, int(code), kind, *map(int, numbers)),
    ),
    (
        r"fault 10 (mixture) (\d+) kind (\w+) unit (\d+) entry (\d+) item (\d+)",
        lambda files, what, code, kind, unit, entry, item: f"{of(files, what)}: "
        + told_shape(files, what, int(code), kind, int(unit), int(item), int(entry)),
    ),
    (
        rf"fault 10 (mixture) (\d+) kind (\w+) unit (\d+) entry (\d+) period (\d+) left {NUMBER} right {NUMBER}",
        lambda files, what, code, kind, unit, entry, *numbers: f"{of(files, what)}: "
        + told_rule(files, what, int(code), kind, *map(int, (unit, *numbers, entry))),
    ),
    (
        r"fault 5 work (\d+) (\d+) (\d+)",
        lambda files, *numbers: "too much work: {} proposals times {} units times {} periods are above 50,000,000.".format(
            *numbers
        ),
    ),
    (r"fault 7 memory", lambda files: "the machine gave no memory when it was asked."),
    (r"fault 8 (report) 60 at (\d+)", lambda files, what, at: told_report(files, at, "can't stand there in a report")),
    (
        r"fault 8 (report) 61 at (\d+)",
        lambda files, what, at: told_report(
            files, at, "is the first that isn't that of the right report", of_others(at)
        ),
    ),
]


def of(files: Files, what: str) -> str:
    return files.told(what)


def told_read(files: Files, what: str) -> str:
    try:
        with open(files.names[what], "rb") as file:
            file.read(1)
        why = "it can be read now, so look whether it was there at the time of the run"
    except KeyError:
        why = "look at the name and at `ls -l`"
    except OSError as error:
        why = error.strerror or str(error)
    return f"{of(files, what)} can't be read: {why}".rstrip("?") + "."


def of_others(at: str) -> str:
    """What a line of a report that isn't right says of where the report comes from: lines 2, 3, 6 and 8 follow from the files alone."""
    return " The report is of another case or schedule, or of an older one." if int(at) in (2, 3, 6, 8) else ""


def told_report(files: Files, at: str, what: str, more: str = "") -> str:
    lines = files.bytes_of("report").split(b"\n")
    line = lines[int(at) - 1].decode("utf-8", "replace") if 1 <= int(at) <= len(lines) else ""
    found = f" Found: {line[:160]!r}." if line else ""
    if line.endswith("\r"):
        found += " Carriage returns were put in since it was printed."
    return f"{of(files, 'report')}: line {at} {what}.{found}{more}"


# The files that a line of each status is told of.
TOLD_OF = {
    "3": ("case",),
    "4": ("case", "schedule"),
    "8": ("report",),
    "9": ("case", "prices"),
    "10": ("case", "mixture"),
}


def need_files(line: str, files: Files) -> None:
    """Refuses to tell a line of a file that isn't given or can't be read."""
    for what in TOLD_OF.get(line.split(" ")[1], ()):
        if what not in files.names:
            raise HullError(f"this line is told of {WHOLE_FILES[what]}, whose file has to be given")
        try:
            with open(files.names[what], "rb") as file:
                file.read(1)
        except (OSError, ValueError) as error:
            raise HullError(f"{files.told(what)}: {getattr(error, 'strerror', None) or error}") from None


def sentence(line: str, files: Files) -> str:
    """A fault line of docs/FAULTS.md in words, with the unit's name, what stands in the file and what is due.

    Raises `HullError` where it is no such line, or where a file that it is told of isn't among the files or can't be read.
    """
    for form, told in FORMS if not re.search(r"\d{41}", line) else ():
        found = re.fullmatch(form, line)
        if found:
            need_files(line, files)
            try:
                return one_line(told(files, *found.groups()))
            except KeyError:
                break
    raise HullError(f"this is no fault line of hull: {one_line(line)[:200]}")
