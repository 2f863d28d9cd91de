"""Turns texts of `hull` into tables, a picture, a page to look at, or a file of prices or of a mixture.

usage: report.py csv TEXT.. FOLDER [--case F --schedule F] [--currency] [--names-as-they-are]
       report.py plot TEXT PICTURE
       report.py page TEXT PAGE [--case F --schedule F [--mixture F] [--seconds S] [--hull PROGRAM]] [--certificate F]
       report.py prices TEXT PRICES
       report.py mixture TEXT MIXTURE

  csv     writes runs.csv, proposals.csv, prices.csv, units.csv and responses.csv to FOLDER, those of them that have rows. The first
          column has the name of the text, so several can be given at once: of `hull price`, `settle`, `convex`, `bound`, `fixed` and
          `certify`
  plot    draws prices, values and payments of a text of `hull price`, `settle` or `convex` (PNG, SVG or PDF; needs
          matplotlib, and takes its own defaults)
  page    writes one HTML file that needs nothing else, of a text of `hull price`, `settle` or `convex`
  prices  writes the chosen prices of a text of `hull price`, or those of a text of `hull settle` or `convex`, as a prices file
  mixture writes the mixture of a text of `hull convex` as a file that `hull certify` reads

  --case F, --schedule F  demand, requirement and what each unit is to do stand beside
  --mixture F             the page says how near the prices are, by what `hull certify` makes of them and the mixture
  --certificate F         a text of `hull certify` of the same sums; it holds no prices, so the page takes it for that of these only with --mixture
  --seconds S             with --mixture: `hull certify` is ended after so many seconds, at most 2000000, and no page is written then; if left
                          out, the case and the mixture alone limit its work
  --hull PROGRAM          the program that certifies; the launcher of this repository if left out
  --currency              numbers in the currency and MW; left out, millionths and kW as the text has them
  --names-as-they-are     left out, ' is put into a name: in front of what a spreadsheet would take for a formula, at the beginning or behind
                          a semicolon, tab or line end, and in front of ' there

TEXT is a file, or - for standard input. A file is written whole or not at all, and never over a text of hull; the tables of csv appear together.
They replace those that csv wrote to FOLDER before, as files.sha256 there has their sums; a file that it didn't make, or that was changed since,
is refused, with status 2. A link that is named as a file to write is followed. A link in FOLDER is replaced. /dev/stdout and its like are written as they are.
"""
import argparse
import os
from collections.abc import Iterable, Sequence
from typing import Optional, Union

from ..beside import need_beside
from ..cases import Case, read_case
from ..costs import Costs
from ..held_files import HeldFiles
from ..outputs import (
    AnyPriced,
    Certificate,
    Output,
    Priced,
    read_certificate_text,
    read_convex_text,
    read_output,
    read_priced,
)
from ..pages import page_of
from ..pictures import picture_of
from ..prices import is_text_of_hull
from ..program import Hull
from ..schedules import Schedule, read_schedule
from ..study_folder import write_in_folder
from ..tables import tables_of, told_apart_count
from ..errors import HullError, Tell, is_replaced, one_line, refuse_inputs, run_tool, write_whole
from .words import add_seconds, asker


def arguments(words: Sequence[str]) -> argparse.Namespace:
    ask = asker("report.py", __doc__)
    ask.add_argument("verb", choices=("csv", "plot", "page", "prices", "mixture"))
    ask.add_argument("texts", nargs="+")
    ask.add_argument("to")
    for option in ("--case", "--schedule", "--certificate", "--mixture", "--hull"):
        ask.add_argument(option)
    for option in ("--currency", "--names-as-they-are"):
        ask.add_argument(option, action="store_true")
    add_seconds(ask)
    given = ask.parse_args(words)
    if given.verb != "csv" and len(given.texts) != 1:
        ask.error(f"{given.verb} takes one text")
    if bool(given.case) != bool(given.schedule):
        ask.error("--case and --schedule are given together")
    if given.mixture and not given.case:
        ask.error("--mixture goes with --case and --schedule")
    if given.seconds is not None and not given.mixture:
        ask.error("--seconds goes with --mixture")
    return given


def case_and_schedule(
    given: argparse.Namespace, texts: Iterable[Output]
) -> Union[tuple[Case, Schedule], tuple[None, None]]:
    """The case and the schedule, where they are given, that the texts are of."""
    if not given.case:
        return None, None
    case = read_case(given.case)
    named = [(kind, unit.name) for kind, unit in case.units]
    for text in texts:
        if isinstance(text, Priced) and [(owed.kind, owed.name) for owed in text.units] != named:
            raise HullError(f"{text.name} is not of the case {given.case}: its units are others")
        if isinstance(text, (Priced, Certificate)) and text.periods != case.periods:
            raise HullError(f"{text.name} is not of the case {given.case}: it has {text.periods} periods")
    return case, read_schedule(given.schedule, case)


def refuse_one_name(names: Sequence[str]) -> None:
    """Refuses texts of one name: by it the tables tell their rows apart."""
    places = [os.path.realpath(name) for name in names]
    twice = next((name for i, name in enumerate(names) if places[i] in places[:i]), None)
    if twice is not None:
        raise HullError(f"{one_line(twice)} is named twice, and its rows in the tables would be one text's")


def write_tables(given: argparse.Namespace, inputs: Sequence[str], tell: Tell) -> None:
    refuse_one_name(given.texts)
    if os.path.isfile(given.to):
        raise HullError(f"{given.to}: this is a file: behind its texts csv takes the folder for the tables")
    texts = [read_output(it) for it in given.texts]
    refuse_one_name([text.name for text in texts])
    case, schedule = case_and_schedule(given, texts)
    tables = tables_of(texts, case, schedule, given.currency)
    texts_of = {f"{name}.csv": table.text(given.names_as_they_are) for name, table in tables.items()}
    os.makedirs(given.to, exist_ok=True)
    write_in_folder(given.to, texts_of, inputs, "report.py")
    count = 0 if given.names_as_they_are else told_apart_count(tables)
    if count:
        tell(f"{count} name{'s' * (count > 1)} that a spreadsheet would take for something else got ' in front of it")


def certificate_of(given: argparse.Namespace, priced: AnyPriced, tell: Tell) -> Optional[Certificate]:
    """The certificate that is given; with a mixture that which the program makes of the text's prices, and the given one is to be the same."""
    read = read_certificate_text(given.certificate) if given.certificate else None
    if not given.mixture:
        return read
    radius = read.radius if read else None
    made = Hull(given.hull, tell, given.seconds).certify(
        given.case, given.schedule, priced.prices, given.mixture, radius=radius
    )
    if read and read != made:
        raise HullError(f"{read.name}: this certificate is of another case, of other prices or of another mixture")
    return made


def write_page(given: argparse.Namespace, priced: AnyPriced, inputs: Sequence[str], tell: Tell) -> None:
    with HeldFiles() as held:  # (the program reads them again)
        files = held.words_of(given)
        files.mixture = held.of(given.mixture)
        case, schedule = case_and_schedule(files, [priced])
        need_beside(priced, case, schedule, Costs())
        certificate = certificate_of(files, priced, tell)
    write_whole(given.to, page_of(priced, schedule, certificate, bool(given.mixture)), inputs)


def body(words: Sequence[str], tell: Tell) -> None:
    given = arguments(words)
    inputs = [*given.texts, *filter(None, (given.case, given.schedule, given.certificate, given.mixture))]
    if given.verb == "csv":
        write_tables(given, inputs, tell)
        return
    refuse_inputs(given.to, inputs)
    if is_replaced(given.to) and is_text_of_hull(given.to):
        raise HullError(f"{given.to}: this is a text of hull, and it would be replaced: {given.verb} takes one text")
    if given.verb == "mixture":
        write_whole(given.to, read_convex_text(given.texts[0]).mixture.text(), inputs)
        return
    priced = read_priced(given.texts[0])
    if given.verb == "plot":
        write_whole(given.to, picture_of(priced, given.to), inputs)
    elif given.verb == "prices":
        priced.prices.write(given.to, inputs)
    else:
        write_page(given, priced, inputs, tell)


def main(words: Optional[Sequence[str]] = None) -> int:
    return run_tool("report.py", body, words)
