"""A reader of a report's form, by docs/FORMATS.md, that shares nothing with the program.

It goes line by line: the numbers of the first lines say how many proposals, units and periods follow. What it can't tell is
whether a report is right; `first_difference` compares two texts for that.
"""
import re
from itertools import zip_longest
from typing import NamedTuple, Optional


class Form(NamedTuple):
    """What the first lines of a report say."""

    periods: int
    units: int
    budget: int
    ahead: int
    proposals: int


Range = tuple[int, int]  # the least and the greatest number

COUNT = (0, 2**32 - 1)
MONEY = (-(2**63), 2**63 - 1)
SUM = (-(2**127), 2**127 - 1)
PRICE = 10_000_000

NUMBER = rb"(0|-?[1-9][0-9]{0,38})"
NAME = rb'"(?:[^\x00-\x1f"\\]|\\["\\]|\\u00[01][0-9a-f])*"'
KINDS = (b"thermal", b"renewable", b"bid")


class OutOfForm(Exception):
    """The number of the first line that can't stand where it does; one past the whole lines where the text ends too early."""

    def __init__(self, line: int) -> None:
        super().__init__(line)
        self.line = line


class Reader:
    def __init__(self, text: bytes) -> None:
        *self.whole, self.rest = text.split(b"\n")
        self.read = 0

    def line(self, pattern: bytes, *ranges: Range) -> tuple[bytes, ...]:
        """The groups of the next line, which has this form; the last of them are numbers within these ranges."""
        found = re.fullmatch(pattern, self.whole[self.read]) if self.read < len(self.whole) else None
        groups = found.groups() if found else ()
        numbers = groups[len(groups) - len(ranges) :]
        if not found or not all(low <= int(it) <= high for it, (low, high) in zip(numbers, ranges)):
            raise OutOfForm(self.read + 1)
        self.read += 1
        return groups

    def number(self, word: bytes, low: int, high: int) -> int:
        return int(self.line(word + b" " + NUMBER, (low, high))[0])

    def list_of(self, word: bytes, length: int, low: int, high: int) -> None:
        self.line(word + (b" " + NUMBER) * length, *[(low, high)] * length)

    def end(self) -> None:
        if self.read < len(self.whole) or self.rest:
            raise OutOfForm(self.read + 1)


def read_proposal(reader: Reader, number: int, periods: int) -> None:
    reader.line(b"proposal %d value " % number + NUMBER, SUM)
    reader.list_of(b"energy", periods, -PRICE, PRICE)
    reader.list_of(b"reserve", periods, 0, PRICE)
    reader.list_of(b"supplied", periods, *SUM)
    reader.list_of(b"reserved", periods, *SUM)


def read_unit(reader: Reader, least: int, periods: int) -> int:
    """A unit or bid of one of the kinds from `least` on; the place of its kind."""
    kinds = b"|".join(KINDS[least:])
    owed = b" earned " + NUMBER + b" scheduled " + NUMBER + b" payment " + NUMBER
    kind, name, *_ = reader.line(b"unit (" + kinds + b") (" + NAME + b")" + owed, MONEY, MONEY, MONEY)
    try:
        name.decode()
    except UnicodeDecodeError:
        raise OutOfForm(reader.read) from None
    if kind == b"thermal":
        reader.list_of(b"on", periods, 0, 1)
    reader.list_of(b"power", periods, *COUNT)
    if kind == b"thermal":
        reader.list_of(b"reserve", periods, *COUNT)
    return KINDS.index(kind)


def read_form(text: bytes) -> Form:
    """What the first lines of a report say; `OutOfForm` where the text is no report's."""
    reader = Reader(text)
    reader.line(b"hull-report 1")
    periods = reader.number(b"periods", 1, 168)
    units = reader.number(b"units", 1, 12_288)
    budget = reader.number(b"budget", 1, 10_000)
    ahead = reader.number(b"ahead", 1, 16)
    reader.number(b"cost", *SUM)
    proposals = reader.number(b"proposals", 1, COUNT[1])
    for number in range(1, proposals + 1):
        read_proposal(reader, number, periods)
    reader.line(b"chosen " + NUMBER + b" value " + NUMBER, COUNT, SUM)
    kind = 0
    for _ in range(units):
        kind = read_unit(reader, kind, periods)
    for word in (b"surplus", b"payments", b"gap"):
        reader.number(word, *SUM)
    reader.line(b"end")
    reader.end()
    return Form(periods, units, budget, ahead, proposals)


def first_difference(text: bytes, other: bytes) -> Optional[int]:
    """The number of the first line at which two texts differ; None where they are one."""
    lines = zip_longest(text.split(b"\n"), other.split(b"\n"))
    return next((number for number, (a, b) in enumerate(lines, 1) if a != b), None)
