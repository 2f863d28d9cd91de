"""What the command lines have in common."""
from __future__ import annotations

import argparse
import csv
import os
import re
from datetime import datetime
from fractions import Fraction
from types import SimpleNamespace
from typing import Any, NoReturn, Optional, Type, TypeVar, Union

from ..fast_start import FastStart
from ..numbers import millionths
from ..errors import HullError, Tell, told_with
from ..options import MOST_SECONDS, float_of, is_plain, time_of_text
from ..outputs import ROUNDS, WITHIN
from ..prices import Prices
from ..search_limits import MOST_NODES, SECONDS, SearchLimits
from ..telling import one_line

MISSED_GAP = 3  # the status where a schedule is written that misses the gap
CUT = 3  # the status where prices are written that were cut at the limits
HOURS = re.compile(r"[0-9./]{1,40}")
LAST_YEAR = 9000  # (with it no period of a case begins behind the last year that there is)
Range = TypeVar("Range", int, float)


class Asker(argparse.ArgumentParser):
    """A reader of words that repeats none of them as it is: a word may have what commands a terminal or turns text around.

    An empty text in place of an option's name, as of a variable of a shell that isn't set, is refused: it isn't an option that is left out.
    """

    def parse_args(self, args: Any = None, namespace: Any = None) -> argparse.Namespace:  # type: ignore[override]
        given: argparse.Namespace = super().parse_args(args, namespace)
        for option in (it for it in self._actions if it.option_strings and it.default is None):
            if getattr(given, option.dest, None) == "":
                raise HullError(f"{option.option_strings[0]}: a name is due, and an empty text is given")
        return given

    def error(self, message: str) -> NoReturn:
        super().error(one_line(message))


class NotTaken(Exception):
    """Why words are refused, and the usage that says which are taken; an empty text where this alone was asked for."""

    def __init__(self, why: str, usage: str) -> None:
        super().__init__(why)
        self.why, self.usage = why, usage


class AskerOfACall(Asker):
    """The same for a call of the package, which prints nothing: standard output and error are those of all threads."""

    def error(self, message: str) -> NoReturn:
        raise NotTaken(one_line(message), self.format_usage())

    def print_help(self, file: object = None) -> NoReturn:
        self.error("")


def description_of(tool: str) -> str:
    """A tool's description as its source has it: `python3 -OO` leaves such texts out."""
    import ast

    place = os.path.join(os.path.dirname(os.path.abspath(__file__)), tool)
    with told_with(place), open(place, encoding="utf-8") as file:
        return ast.get_docstring(ast.parse(file.read()), clean=False) or ""


def asker(tool: str, doc: Optional[str], kind: Type[Asker] = Asker) -> Asker:
    """A reader of words whose usage is that of the tool's description."""
    usage = (doc or description_of(tool)).split("usage: ")[1].rstrip().replace("%", "%%")
    return kind(prog=tool, usage=usage, allow_abbrev=kind is Asker)  # (an option of a call is one by its whole name)


def within(number: Range, least: Range, most: Range) -> Range:
    """The number, or a refusal of it that says what is due."""
    if not least <= number <= most:
        raise argparse.ArgumentTypeError(f"{least:,} to {most:,} is due")
    return number


def number_of(text: str) -> float:
    """A number of the command line."""
    number = float_of(text)
    if number is None:
        raise ValueError(text)
    return number


def positive(text: str) -> float:
    """A number of the command line that is at least 0."""
    number = number_of(text)
    if number < 0:
        raise ValueError(text)
    return number


def status_of(prices: Prices, tell: Tell) -> int:
    """The status of a tool that wrote such prices; those that were cut are told."""
    if prices.cut:
        tell(prices.told_cuts)
    return CUT if prices.cut else 0


def count(text: str) -> int:
    """A whole number of the command line that is at least 1."""
    return within(int(text if is_plain(text) else ""), 1, MOST_NODES)


def seconds(text: str) -> float:
    """A limit of time in seconds."""
    return within(number_of(text), 0, MOST_SECONDS)


def hours(text: str) -> Fraction:
    """How long a period is, as a decimal number of hours or a fraction: from a second to a year."""
    try:
        number = Fraction(text if HOURS.fullmatch(text) else "")
    except ZeroDivisionError:
        raise ValueError(text) from None
    if not Fraction(1, 3600) <= number <= 8784:
        raise argparse.ArgumentTypeError("1/3600 to 8784 is due")
    return number


def distance(text: str) -> float:
    """An amount of money of the command line that `hull convex` takes for --within."""
    number = positive(text)
    if millionths(str(number)) > WITHIN:
        raise argparse.ArgumentTypeError(f"{text} is more than {WITHIN // 10**6}")
    return number


def rounds(text: str) -> int:
    """A count of the command line that `hull convex` takes for --rounds."""
    number = count(text)
    if number > ROUNDS:
        raise argparse.ArgumentTypeError(f"{text} is more than {ROUNDS}")
    return number


def time(text: str) -> datetime:
    """When the first period begins."""
    found = time_of_text(text)
    within(found.year, 1, LAST_YEAR)
    return found


def add_search_limits(ask: argparse.ArgumentParser) -> None:
    """The words that end a search for a schedule."""
    ask.add_argument("--gap", type=positive, default=SearchLimits.gap)
    ask.add_argument("--nodes", type=count, default=SearchLimits.nodes)
    add_seconds(ask)


def add_seconds(ask: argparse.ArgumentParser) -> None:
    """The word that ends a step which takes too long."""
    ask.add_argument("--seconds", type=seconds)


def solver_seconds(given: Union[argparse.Namespace, SimpleNamespace]) -> float:
    """How long a step of a solver may take; a call of `hull`, which ends by what it has to do, takes what is given alone."""
    return SECONDS if given.seconds is None else float(given.seconds)


def search_limits(given: argparse.Namespace) -> SearchLimits:
    return SearchLimits(given.gap, given.nodes, solver_seconds(given))


def names_of(text: str) -> list[str]:
    """Names with commas between, as a row of a csv; an empty text has none."""
    try:
        rows = list(csv.reader([text], strict=True)) if text else [[]]
    except csv.Error:
        raise argparse.ArgumentTypeError('a name with a comma or a double quote stands as "A,B"') from None
    return rows[0]


def add_fast_start(ask: argparse.ArgumentParser) -> None:
    """The words that say which units are fast-start."""
    ask.add_argument("--fast-start", type=names_of, action="extend")
    ask.add_argument("--fast-start-up", type=count)
    ask.add_argument("--fast-start-cost", type=positive)
    ask.add_argument("--online-only", action="store_true")


def fast_start(given: argparse.Namespace) -> FastStart:
    names = None if given.fast_start is None else tuple(given.fast_start)
    rule = (given.fast_start_up, given.fast_start_cost)
    if names is not None and any(it is not None for it in rule):
        raise HullError(
            "--fast-start is given, and --fast-start-up or --fast-start-cost, which are a rule in place of names"
        )
    cost = None if given.fast_start_cost is None else millionths(str(given.fast_start_cost))
    return FastStart(names, given.fast_start_up or FastStart.most_up, cost, given.online_only)
