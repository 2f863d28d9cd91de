"""A plain reader of prices files and a plain settlement, over the tiny cases of plain.py. It shares nothing with the program.

A text is taken token by token; `PricesFault` has the fault line's end where a file is refused.
"""
import re
from fractions import Fraction
from math import floor

import plain
from collections.abc import Callable, Iterable
from typing import Any, Optional

SPACE = b" \t\n\r"
NUMBER = re.compile(rb"-?(0|[1-9][0-9]*)(\.[0-9]+)?([eE][+-]?[0-9]+)?")
ESCAPES = {b'"': '"', b"\\": "\\", b"/": "/", b"b": "\b", b"f": "\f", b"n": "\n", b"r": "\r", b"t": "\t"}

Token = tuple[int, str, Any]  # its place, its kind and its value


class PricesFault(Exception):
    """What stands behind `fault 9 prices`."""


class Text:
    """The tokens of a JSON text, and its value."""

    def __init__(self, data: bytes) -> None:
        self.data, self.at = data, 0

    def fault(self, code: int, at: int) -> PricesFault:
        return PricesFault(f"{code} at {at}")

    def token(self) -> Token:
        """The next token as (first byte, kind, value); its place is where it begins."""
        while self.at < len(self.data) and self.data[self.at] in SPACE:
            self.at += 1
        start, head = self.at, self.data[self.at : self.at + 1]
        if not head:
            raise self.fault(10, len(self.data))
        if head in b"{}[]:,":
            self.at += 1
            return start, head.decode(), None
        if head == b'"':
            return start, "string", self.string(start)
        if head in b"-0123456789":
            return start, "number", self.run(start, b"0123456789-+.eE", NUMBER.fullmatch)
        words = {b"true": True, b"false": False, b"null": None}
        word = self.run(start, b"abcdefghijklmnopqrstuvwxyz", words.__contains__)
        return start, "word", words[word]

    def run(self, start: int, of: bytes, is_right: Callable[[bytes], object]) -> bytes:
        while self.at < len(self.data) and self.data[self.at] in of:
            self.at += 1
        if not is_right(self.data[start : self.at]):
            raise self.fault(10, start)
        return self.data[start : self.at]

    def string(self, start: int) -> str:
        """The text of a string whose opening quote is at `start`."""
        units: list[bytes] = []
        at = start + 1
        while True:
            one = self.data[at : at + 1]
            if not one or one < b" ":
                raise self.fault(10, start)
            if one == b'"':
                break
            if one == b"\\":
                kind = self.data[at + 1 : at + 2]
                if kind == b"u" and re.fullmatch(rb"[0-9a-fA-F]{4}", self.data[at + 2 : at + 6]):
                    units.append(chr(int(self.data[at + 2 : at + 6], 16)).encode("utf-16-be", "surrogatepass"))
                    at += 6
                elif kind in ESCAPES:
                    units.append(ESCAPES[kind].encode("utf-16-be"))
                    at += 2
                else:
                    raise self.fault(10, start)
                continue
            more = at
            while self.data[more : more + 1] not in (b"", b'"', b"\\") and self.data[more] >= 0x20:
                more += 1
            try:
                units.append(self.data[at:more].decode().encode("utf-16-be"))
            except UnicodeDecodeError:
                raise self.fault(10, start) from None
            at = more
        self.at = at + 1
        try:
            return b"".join(units).decode("utf-16-be")
        except UnicodeDecodeError:
            raise self.fault(10, start) from None

    def value(self, level: int = 1, token: Optional[Token] = None) -> Any:
        start, kind, value = token or self.token()
        if kind in ("{", "["):
            if level > 32:
                raise self.fault(12, start)
            return self.members(level) if kind == "{" else self.items(level)
        if kind == "number":
            return self.number(start, value)
        if kind not in ("string", "word"):
            raise self.fault(10, start)
        return value

    def number(self, start: int, text: bytes) -> Fraction:
        parts = re.fullmatch(rb"-?([0-9]+)(?:\.([0-9]+))?(?:[eE](.+))?", text)
        assert parts, text
        whole, fraction, exponent = parts.groups()
        digits = (whole + (fraction or b"")).lstrip(b"0")
        if len(digits) > 30 or abs(int(exponent or b"0")) > 400:
            raise self.fault(11, start)
        size = Fraction(int(digits or b"0")) * Fraction(10) ** (int(exponent or b"0") - len(fraction or b""))
        return -size if text.startswith(b"-") else size

    def members(self, level: int) -> dict[str, Any]:
        found: dict[str, Any] = {}
        token = self.token()
        if token[1] == "}":
            return found
        while True:
            start, kind, key = token
            if kind != "string":
                raise self.fault(10, start)
            if key in found:
                raise self.fault(13, start)
            self.expect(":")
            found[key] = self.value(level + 1)
            if self.expect(",", "}") == "}":
                return found
            token = self.token()

    def items(self, level: int) -> list[Any]:
        found: list[Any] = []
        token = self.token()
        if token[1] == "]":
            return found
        while True:
            found.append(self.value(level + 1, token))
            if self.expect(",", "]") == "]":
                return found
            token = self.token()

    def expect(self, *kinds: str) -> str:
        start, kind, _ = self.token()
        if kind not in kinds:
            raise self.fault(10, start)
        return kind

    def whole(self) -> Any:
        value = self.value()
        if self.data[self.at :].strip(SPACE):
            raise self.fault(10, self.at + len(self.data[self.at :]) - len(self.data[self.at :].lstrip(SPACE)))
        return value


def read_list(value: Any, key: str, periods: int, least: Optional[int]) -> list[int]:
    def wrong(code: int, item: int) -> PricesFault:
        return PricesFault(f"{code} field {key} item {item}")

    if not isinstance(value, list):
        raise wrong(21, 0)
    if len(value) != periods:
        raise wrong(25, 0)
    found = []
    for item, number in enumerate(value, 1):
        if not isinstance(number, Fraction):
            raise wrong(21, item)
        found.append(floor(number * 1000 + Fraction(1, 2)))
        if abs(found[-1]) > plain.LARGEST_PRICE:
            raise wrong(24, item)
        if least is not None and found[-1] < least:
            raise wrong(23, item)
    return found


def read_prices(data: bytes, periods: int) -> tuple[list[int], list[int]]:
    """Energy and reserve prices of a file, in millionths per kilowatt."""
    value = Text(data).whole()
    if not isinstance(value, dict):
        raise PricesFault("21 field whole item 0")
    if "energy" not in value:
        raise PricesFault("20 field energy item 0")
    energy = read_list(value["energy"], "energy", periods, None)
    return energy, read_list(value["reserve"], "reserve", periods, 0) if "reserve" in value else [0] * periods


def line_of(word: str, numbers: Iterable[int]) -> str:
    return " ".join([word, *map(str, numbers)])


def settlement(case: plain.Case, energy: list[int], reserve: list[int]) -> str:
    """The text of `hull settle` for a case of plain.py and its plan."""
    best = [plain.least_best(unit, energy, reserve) for unit in case.units]
    supplied, reserved = case.totals(best)
    value = case.dual_value(energy, reserve)
    lines = [
        "hull-settlement 1",
        f"periods {case.periods}",
        f"units {len(case.units)}",
        f"cost {case.cost}",
        f"value {value}",
    ]
    lists = {"energy": energy, "reserve": reserve, "supplied": supplied, "reserved": reserved}
    lines += [line_of(word, numbers) for word, numbers in lists.items()]
    payments = 0
    for kind in ("thermal", "renewable", "bid"):
        for at, unit in enumerate(case.units):
            if unit.kind != kind:
                continue
            schedule, cost = case.plan[at]
            earned, scheduled = plain.top(unit, energy, reserve), plain.earnings(unit, schedule, cost, energy, reserve)
            payments += earned - scheduled
            lines.append(f'unit {kind} "{kind}{at}" earned {earned} scheduled {scheduled} payment {earned - scheduled}')
            lists = {
                "on": [int(it[0]) for it in best[at]],
                "power": [it[1] for it in best[at]],
                "reserve": [it[2] for it in best[at]],
            }
            lines += [line_of(word, numbers) for word, numbers in lists.items() if kind == "thermal" or word == "power"]
    _, kept = case.totals([schedule for schedule, _ in case.plan])
    surplus = sum(price * (it - due) for price, it, due in zip(reserve, kept, case.reserves))
    lines += [f"surplus {surplus}", f"payments {payments}", f"gap {case.cost - value}", "end"]
    return "\n".join(lines) + "\n"


def due(case: plain.Case, data: bytes) -> tuple[int, str]:
    """Status and output that are due for a prices file."""
    try:
        return 0, settlement(case, *read_prices(data, case.periods))
    except PricesFault as fault:
        return 9, f"fault 9 prices {fault}\n"
