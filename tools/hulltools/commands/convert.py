"""Makes a case of hull of a folder of CSV files or of another program's instance, and a folder of CSV files of a case.

usage: convert.py FROM TO [--from FORM] [--left-out FILE]

  FROM             a case of hull; a folder of CSV files (docs/CSV.md); an instance of UnitCommitment.jl, plain or .json.gz; ModelData of
                   EGRET as JSON; or a folder that PyPSA's export_to_csv_folder wrote; standard input where it is -
  TO               a file that ends in .json gets a case of hull; any other name is a folder that gets CSV files, together, with
                   files.sha256, which has their sums; what this tool wrote there before is replaced
  --from FORM      hull, csv, unit-commitment-jl, egret or pypsa; told by what FROM holds if left out
  --left-out FILE  gets as JSON what was left out, assumed or changed; standard output has it in words in any case

Nothing is left out without a line. Nothing is written where hull would refuse the case: its first 20 faults are told.
A CSV file in TO that this tool didn't make, or that was changed since, is refused with status 2, and so is a link
that stands in place of no file of its own.
docs/CSV.md says what is read of each form. It needs neither the program nor SciPy.
"""
import contextlib
import json
import os
import tempfile
from typing import Callable, Dict, List, Optional, Sequence

from ..converters import FORMS, Notes, read_form
from ..converters.case_texts import case_text
from ..converters.csv_folder import TOOL, marked_count, names_of_files, refuse_files, write_csv
from ..converters.notes import Object
from ..errors import (
    HullError,
    files_at,
    need_output,
    refuse_inputs,
    refuse_twice,
    run_tool,
    shown_name,
    told_with,
    write_together,
    written_beside,
)
from ..lint import Review, look
from ..lint_findings import Level
from ..telling import write_lines
from .words import asker

TOLD = 20  # how many faults of a case are told


def review_of(text: str) -> Review:
    """What lint.py finds in the case."""
    with tempfile.TemporaryDirectory(prefix="hull-convert-") as folder:
        name = os.path.join(folder, "case.json")
        with told_with(name), open(name, "w", encoding="utf-8") as file:
            file.write(text)
        return look({"case": name})


def refuse_faults(review: Review, name: str) -> None:
    """Refuses a case that hull would refuse, with its first faults."""
    errors = review.of(Level.ERROR)
    if errors:
        told = [it.text.rstrip(".") for it in errors]
        more = f"; and {len(told) - TOLD} more" if len(told) > TOLD else ""
        raise HullError(f"{name}: hull would refuse this case: {'; '.join(told[:TOLD])}{more}")


def body(words: Sequence[str], tell: Callable[[str], None]) -> int:
    ask = asker(TOOL, __doc__)
    for option in ("from_name", "to"):
        ask.add_argument(option)
    ask.add_argument("--from", dest="form", choices=FORMS)
    ask.add_argument("--left-out")
    given = ask.parse_args(words)
    need_output()
    is_file = given.to.endswith(".json")
    for name in [given.to] if is_file else names_of_files(given.to):
        refuse_twice([name, given.left_out])  # (each alone, since links in a folder are refused)
    notes = Notes()
    case = read_form(given.from_name, notes, given.form)
    text, inputs = case_text(case), files_at(given.from_name)
    review = review_of(text)
    refuse_faults(review, shown_name(given.from_name))
    left = {given.left_out: json.dumps(notes.as_json(), ensure_ascii=False, indent=1) + "\n"} if given.left_out else {}
    if is_file:
        write_together({given.to: text, **left}, inputs, follow_links=True)
    else:
        write_folder(given.to, case, inputs, left)
    write_lines(notes.lines())
    tell_oddities(given.to, case, review, tell)
    return 0


def write_folder(to: str, case: Object, inputs: List[str], left: Dict[str, str]) -> None:
    """Writes the CSV files, and the file of what was left out, together."""
    refuse_inputs(to, inputs)
    refuse_files(to, inputs)
    is_new = bool(left) and not os.path.lexists(to)
    if is_new:  # (what was left out may be due in it)
        with told_with(to):
            os.makedirs(to)
    try:
        with written_beside(left, inputs, follow_links=True):
            write_csv(to, case, inputs)
    finally:
        if is_new:
            with contextlib.suppress(OSError):  # (something is there)
                os.rmdir(to)


def tell_oddities(to: str, case: Object, review: Review, tell: Callable[[str], None]) -> None:
    """Tells that the case is odd, or that its CSV files have other names than the case."""
    is_file = to.endswith(".json")
    count = len(review.of(Level.WARNING)) if is_file else marked_count(case)
    if count and is_file:
        tell(f"{count} {'thing is' if count == 1 else 'things are'} odd in this case: tools/lint.py {to} says what")
    elif count:
        tell(f"{count} name{'s' * (count > 1)} that a spreadsheet would take for something else got ' in front of it")


def main(words: Optional[Sequence[str]] = None) -> int:
    return int(run_tool(TOOL, body, words))
