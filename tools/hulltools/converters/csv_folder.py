"""A case as a folder of CSV files, which people fill in a spreadsheet: docs/CSV.md has the form."""
from __future__ import annotations

import os
import re
from difflib import get_close_matches
from typing import Dict, Iterable, Iterator, List, Optional, Set, Tuple

from ..errors import HullError, one_line, read_bytes, refuse_line_end, rows_in
from ..named_files import Written
from ..study_folder import MARK, SUMS, StudyFolder, write_in_folder
from ..tables import FORMULA, as_it_was, told_apart
from .case_texts import LIMITS, number_text
from .notes import Notes, Object

COLUMNS: Dict[str, List[str]] = {
    "units.csv": ["unit", *LIMITS],
    "offers.csv": ["unit", "mw", "cost"],
    "starts.csv": ["unit", "lag", "cost"],
    "hours.csv": ["period", "demand", "reserves"],
    "renewables.csv": ["unit", "period", "power_output_minimum", "power_output_maximum"],
    "bids.csv": ["bid", "period", "mw", "price"],
    "windows.csv": ["unit", "period", "commitment"],
}
TOOL = "convert.py"
OTHER_TABLES = (".txt", ".tsv", ".tab", ".xls", ".xlsx", ".ods", ".numbers", ".gz", ".zip")
NEEDED = ("units.csv", "offers.csv", "hours.csv")
NAMES = ("unit", "bid")  # columns of names, which may have several lines
FLAGS = ("must_run", "unit_on_t0", "commitment")
FLAG_TEXTS = {"true": "1", "false": "0"}  # (spreadsheets and pandas write flags so)
NUMBER = re.compile(r"-?(0|[1-9][0-9]*)(\.[0-9]+)?([eE][-+]?[0-9]+)?")
THOUSANDS = re.compile(r"[-+]?[1-9][0-9]{0,2}([,.][0-9]{3})+")  # what may have signs between thousands
SURE = "sure"
# A decimal sign of files with semicolons, with the first place that has it; and the first of a sign that parts no thousands.
Signs = Dict[str, str]


class Row(Dict[str, str]):
    """The cells of a row by column, with its place in the file."""

    place: str = ""

    def wrong(self, what: str) -> HullError:
        return HullError(f"{self.place}: {one_line(what)}")

    def number(self, column: str) -> Written:
        text = FLAG_TEXTS.get(self[column].lower(), self[column]) if column in FLAGS else self[column]
        if not NUMBER.fullmatch(text):
            what = (
                "is empty"
                if not text
                else f"is {text!r}, and a number is due, with a point and without separators of thousands"
            )
            raise self.wrong(f"{column} {what}")
        return Written(text)

    def period(self, periods: int) -> int:
        """The period, from 1; a whole number that a spreadsheet has as 3.0 is taken too."""
        text = re.sub(r"\.0*$", "", self["period"])
        if not re.fullmatch("[0-9]{1,9}", text) or not 1 <= int(text) <= periods:
            raise self.wrong(f"period is {self['period']!r}, and 1 to {periods} is due: hours.csv has {periods} rows")
        return int(text)


def rows_of(folder: str, file: str, notes: Notes, signs: Signs) -> List[Row]:
    """The rows of a file, or none where it isn't there; columns that aren't read are noted."""
    name = os.path.join(folder, file)
    if not os.path.exists(name) and file not in NEEDED:
        return []
    try:
        text = read_bytes(name, "a table").decode("utf-8-sig")
    except UnicodeDecodeError:
        raise HullError(f"{name}: it isn't UTF-8: save it as CSV UTF-8") from None
    head = text.split("\n", 1)[0]
    semicolons = ";" in head and "," not in head
    rows = rows_in(text, name, ";" if semicolons else ",")
    columns = [it.strip() for it in next((cells for _, cells in rows), [])]
    check_columns(name, columns, COLUMNS[file], notes)
    found = []
    for line, cells in rows:
        if any(it.strip() for it in cells):
            found.append(row_of(name, line, columns, cells))
            if semicolons:
                take_signs(found[-1], COLUMNS[file], signs)
    return found


def take_signs(row: Row, columns: List[str], signs: Signs) -> None:
    """Has a point in place of each decimal comma of a row. Where a folder has both, one of them may part thousands, so that is refused."""
    for column in (it for it in columns if it not in NAMES):
        for sign in (it for it in ",." if it in row[column]):
            other = signs.get("," if sign == "." else ".")
            signs.setdefault(sign, row.place)
            if other:
                place = "another number" if other == row.place else os.path.basename(other)
                one, two = ("point", "comma") if sign == "." else ("comma", "point")
                why = f"{row[column]!r} with a {one}, and there is a {two} in {place}: where semicolons part cells, not both are taken"
                raise row.wrong(f"{column} is {why}")
        if re.search("[,.]", row[column]) and not THOUSANDS.fullmatch(row[column]):
            signs.setdefault(SURE, row.place)
        row[column] = row[column].replace(",", ".")


def refuse_unsure(signs: Signs) -> None:
    """Refuses a folder whose commas, or whose points, may all stand between thousands."""
    for sign, word, way in ((",", "comma", "write numbers with points"), (".", "point", "part its cells by commas")):
        if sign in signs and SURE not in signs:
            what = f"each {word} of this folder may be one of decimals or of thousands: {way}"
            raise HullError(f"{signs[sign]}: {what}")


def row_of(name: str, line: int, columns: List[str], cells: List[str]) -> Row:
    row = Row()
    row.place = f"{name}, line {line}"
    if len(cells) > len(columns):
        raise row.wrong(
            f"it has {len(cells)} cells, and the first line names {len(columns)} columns. Is a decimal comma in it?"
        )
    for place, (column, cell) in enumerate(zip(columns, [*cells, *[""] * (len(columns) - len(cells))])):
        if not column and place and cell.strip():  # (in front stands an index, as pandas writes one)
            raise row.wrong(f"{cell.strip()!r} stands in a column without a name. Is a decimal comma in the row?")
        if column not in NAMES:
            refuse_line_end(cell, row.place)
        row[column] = as_it_was(cell) if column in NAMES else cell.strip()
    return row


def check_columns(name: str, columns: List[str], due: List[str], notes: Notes) -> None:
    lacking = [it for it in due if it not in columns]
    if lacking:
        raise HullError(f"{name}: the first line has no column {', '.join(lacking)}. Due: {', '.join(due)}")
    named = [it for it in columns if it]
    if len(set(named)) < len(named):
        raise HullError(f"{name}: the first line names a column twice")
    if not columns[0]:
        notes.left_out(f"{os.path.basename(name)}: the first column, which has no name")
    for column in columns:
        if column and column not in due:
            notes.left_out(f"{os.path.basename(name)}: the column {column}")


def by_name(rows: Iterable[Row], column: str, known: Optional[Iterable[str]] = None) -> Iterator[Tuple[str, Row]]:
    """The rows with their names, which have to be known where a list of those is given."""
    names = None if known is None else set(known)
    for row in rows:
        if not row[column]:
            raise row.wrong(f"{column} is empty")
        if names is not None and row[column] not in names:
            raise row.wrong(f'units.csv has no unit "{row[column]}"')
        yield row[column], row


def refuse_mixed_or_unread(folder: str, there: List[str]) -> None:
    """Refuses a folder that a run left unfinished, and one with a table in another form where a file that may be left out is due."""
    if MARK in there:
        place = one_line(os.path.join(folder, MARK))
        raise HullError(f"{place}: the files here may be of two cases: write them anew, or take {MARK} away")
    for file in there:
        name = f"{file.lower().partition('.')[0]}.csv"
        if file.lower().endswith(OTHER_TABLES) and name in COLUMNS and name not in there:
            place = one_line(os.path.join(folder, file))
            raise HullError(f"{place}: is it {name}, which isn't there? Save it as CSV of that name, or move it away")


def look_at_names(folder: str, notes: Notes) -> None:
    """Refuses a file whose name is nearly one that is read, and notes other CSV files."""
    stems = {os.path.splitext(it)[0]: it for it in COLUMNS}
    there = sorted(os.listdir(folder) if os.path.isdir(folder) else [])
    refuse_mixed_or_unread(folder, there)
    for file in there:
        stem, end = os.path.splitext(file.lower())
        if end != ".csv" or file in COLUMNS:
            continue
        near = get_close_matches(stem, stems, 1, 0.8)
        if near and not file.startswith("."):
            place = one_line(os.path.join(folder, file))
            raise HullError(f"{place}: is it {stems[near[0]]}? Name it so, or move it away")
        notes.left_out(f"the file {file}")


def read_csv(folder: str, notes: Notes) -> Object:
    """The case of a folder."""
    look_at_names(folder, notes)
    signs: Signs = {}
    tables = {file: rows_of(folder, file, notes, signs) for file in COLUMNS}
    refuse_unsure(signs)
    hours = tables["hours.csv"]
    periods = len(hours)
    for t, row in enumerate(hours, 1):
        if row.period(periods) != t:
            raise row.wrong(f"period is {row['period']}, and {t} is due: rows stand in the order of time")
    case: Object = {"time_periods": periods}
    for key in ("demand", "reserves"):
        case[key] = [row.number(key) for row in hours]
    case["thermal_generators"] = thermal_units(tables, periods)
    case["renewable_generators"] = renewable_units(tables["renewables.csv"], periods)
    if tables["bids.csv"] or os.path.exists(os.path.join(folder, "bids.csv")):
        case["demand_bids"] = bids_of(tables["bids.csv"], periods, notes)
    return case


def thermal_units(tables: Dict[str, List[Row]], periods: int) -> Object:
    units: Object = {}
    for name, row in by_name(tables["units.csv"], "unit"):
        if name in units:
            raise row.wrong(f'the unit "{name}" stands twice')
        units[name] = {key: row.number(key) for key in LIMITS}
        units[name].update(startup=[], piecewise_production=[])
    for name, row in by_name(tables["starts.csv"], "unit", units):
        units[name]["startup"].append({key: row.number(key) for key in ("lag", "cost")})
    for name, row in by_name(tables["offers.csv"], "unit", units):
        units[name]["piecewise_production"].append({key: row.number(key) for key in ("mw", "cost")})
    seen: Set[Tuple[str, int]] = set()
    for name, row in by_name(tables["windows.csv"], "unit", units):
        window, t = units[name].setdefault("commitment", [None] * periods), row.period(periods)
        if (name, t) in seen:
            raise row.wrong(f'the unit "{name}" has period {t} twice')
        seen.add((name, t))
        window[t - 1] = row.number("commitment") if row["commitment"] else None
    return units


def renewable_units(rows: List[Row], periods: int) -> Object:
    units: Object = {}
    keys = ("power_output_minimum", "power_output_maximum")
    for name, row in by_name(rows, "unit"):
        unit = units.setdefault(name, {key: [None] * periods for key in keys})
        t = row.period(periods) - 1
        if unit[keys[0]][t] is not None:
            raise row.wrong(f'the unit "{name}" has period {t + 1} twice')
        for key in keys:
            unit[key][t] = row.number(key)
    for name, unit in units.items():
        lacking = [t + 1 for t, it in enumerate(unit[keys[0]]) if it is None]
        if lacking:
            raise HullError(f'renewables.csv: the unit "{one_line(name)}" has no row of period {lacking[0]}')
    return units


def bids_of(rows: List[Row], periods: int, notes: Notes) -> Object:
    bids: Object = {}
    for name, row in by_name(rows, "bid"):
        blocks = bids.setdefault(name, {"blocks": [[] for _ in range(periods)]})["blocks"]
        period = blocks[row.period(periods) - 1]  # (a period may have several rows: each is a block)
        if row["mw"] or row["price"]:
            block = {key: row.number(key) for key in ("mw", "price")}
            if block in period:
                what = "rows of bids.csv that are alike are blocks of their own, and none stands there twice"
                notes.assumed(what, name)
            period.append(block)
    note_near_names(bids, notes)
    return bids


def note_near_names(bids: Object, notes: Notes) -> None:
    """Notes buyers whose names are one but for spaces or the case of letters, as by a slip in one row."""
    seen: Dict[str, str] = {}
    for name in bids:
        other = seen.setdefault(" ".join(name.split()).casefold(), name)
        if other != name:
            what = "buyers whose names differ by spaces or the case of letters alone are buyers of their own"
            notes.assumed(what, other)
            notes.assumed(what, name)


def rows_to_write(case: Object) -> Iterator[Tuple[str, List[str]]]:
    """Each row that a case has, with its file."""
    for name, unit in case["thermal_generators"].items():
        yield "units.csv", [name, *(number_text(unit[key]) for key in LIMITS)]
        for point in unit["piecewise_production"]:
            yield "offers.csv", [name, number_text(point["mw"]), number_text(point["cost"])]
        for lag in unit["startup"]:
            yield "starts.csv", [name, number_text(lag["lag"]), number_text(lag["cost"])]
        for t, mark in enumerate(unit.get("commitment", []), 1):
            yield "windows.csv", [name, str(t), "" if mark is None else number_text(mark)]
    for t, pair in enumerate(zip(case["demand"], case["reserves"]), 1):
        yield "hours.csv", [str(t), *map(number_text, pair)]
    for name, unit in case["renewable_generators"].items():
        for t, pair in enumerate(zip(unit["power_output_minimum"], unit["power_output_maximum"]), 1):
            yield "renewables.csv", [name, str(t), *map(number_text, pair)]
    for name, bid in case.get("demand_bids", {}).items():
        if not any(bid["blocks"]):
            yield "bids.csv", [name, "1", "", ""]
        for t, blocks in enumerate(bid["blocks"], 1):
            yield from (("bids.csv", [name, str(t), number_text(it["mw"]), number_text(it["price"])]) for it in blocks)


def cell_text(cell: str) -> str:
    """A cell of a file; a carriage return is quoted too, which not every Python's writer does."""
    return '"' + cell.replace('"', '""') + '"' if re.search('[",\r\n]', cell) else cell


def csv_texts(case: Object) -> Dict[str, str]:
    """The files of a case by name; those that needn't be there only where they have rows."""
    tables: Dict[str, List[List[str]]] = {file: [] for file in COLUMNS if file in NEEDED or file == "renewables.csv"}
    if "demand_bids" in case:
        tables["bids.csv"] = []
    for file, (name, *numbers) in rows_to_write(case):
        if not name:
            raise HullError("a unit whose name is empty has no place in CSV files: give it a name")
        tables.setdefault(file, []).append([str(told_apart(name)), *numbers])
    lines = {file: [",".join(map(cell_text, row)) for row in (COLUMNS[file], *tables[file])] for file in tables}
    return {file: "\n".join([*rows, ""]) for file, rows in lines.items()}


def marked_count(case: Object) -> int:
    """How many names of the case get ' in front of them, so that a spreadsheet finds no formula there."""
    groups = ("thermal_generators", "renewable_generators", "demand_bids")
    return sum(FORMULA.search(name) is not None for group in groups for name in case.get(group, {}))


def names_of_files(folder: str) -> List[str]:
    """All files that may be written to the folder, whose own links are followed; those within it aren't."""
    return [os.path.join(os.path.realpath(folder), file) for file in (*COLUMNS, MARK, SUMS)]


def refuse_files(folder: str, inputs: List[str]) -> None:
    """Refuses a folder with a file that a case may have, where it isn't as this tool left it."""
    StudyFolder(folder, inputs, TOOL).refuse(list(COLUMNS))


def write_csv(folder: str, case: Object, inputs: List[str]) -> None:
    """Writes the files in place of those that this tool wrote there before."""
    write_in_folder(folder, csv_texts(case), inputs, TOOL, StudyFolder)
