"""JSON files with the place of each value, read past faults of the text where that can be done."""
from __future__ import annotations

import bisect
import json
import re
from dataclasses import dataclass, field
from decimal import Decimal
from typing import Dict, Iterator, List, Optional, Tuple, Union

from .json_texts import LONE, MOST_DEPTH, Refused, counted
from .numbers import is_whole

Path = Tuple[Union[str, int], ...]
Value = Union[Dict[str, "Node"], List["Node"], int, Decimal, str, bool, None, "Odd"]
MOST_FAULTS = 100_000  # of a text, that are kept
SPACE = re.compile(r"[ \t\n\r]*")
TOKEN = re.compile(
    r"(?P<mark>[{}\[\],:])|(?P<number>-?(?:0|[1-9][0-9]*)(?:\.[0-9]+)?(?:[eE][-+]?[0-9]+)?(?![-+.eE0-9]))|(?P<word>(?:true|false|null)(?![a-z]))"
)
STRINGS = json.JSONDecoder()  # (an expression for a string would keep a state for each of its parts)
SHORT = r"-?(?:0|[1-9][0-9]{0,14})(?:\.[0-9]{1,14})?"
SHORT_NUMBER = re.compile(SHORT)
NUMBERS = re.compile(
    rf"(?:[ \t\n\r]*{SHORT}[ \t\n\r]*,){{1,999}}"
)  # (at most so many, since each has a state of its own)
ODD = re.compile(r"[-+.\w]+")
WORDS = {"true": True, "false": False, "null": None}
GROUP_WORDS = {
    "thermal_generators": "thermal unit",
    "renewable_generators": "renewable unit",
    "demand_bids": "bid",
    "thermal": "thermal unit",
    "renewable": "renewable unit",
    "bids": "bid",
}


@dataclass(frozen=True)
class Odd:
    """What stands in place of a value and is none, as NaN."""

    text: str


@dataclass
class Node:
    """A value of a file, and the place of its first character."""

    __slots__ = ("value", "at")
    value: Value
    at: int

    @property
    def members(self) -> Dict[str, Node]:
        return self.value if isinstance(self.value, dict) else {}

    @property
    def items(self) -> List[Node]:
        return self.value if isinstance(self.value, list) else []


def number_at(node: Node) -> Union[int, Decimal, None]:
    """The number that a value is, or None where it is none."""
    value = node.value
    return value if isinstance(value, (int, Decimal)) and not isinstance(value, bool) else None


def whole_at(node: Optional[Node], least: int, most: int) -> Optional[int]:
    """The whole number within these bounds that a value is, or None where it is none."""
    number = None if node is None else number_at(node)
    if number is None or not is_whole(number) or not least <= number <= most:
        return None
    return int(number)


@dataclass(frozen=True)
class TextFault:
    """A fault of a text: its code in docs/FAULTS.md, its place, and the path of keys and of items from 1 that leads there."""

    code: int
    at: int
    path: Path


def exact(text: str) -> Union[int, Decimal]:
    """The value of a number's text."""
    return Decimal(text) if "." in text or "e" in text or "E" in text else int(text)


def string_end(text: str, at: int) -> Optional[int]:
    """The place behind a string that begins there, or None where it is none, or has what isn't UTF-8."""
    try:
        _, end = STRINGS.raw_decode(text, at)
    except ValueError:
        return None
    return None if LONE.search(text, at, end) else end


class Ended(Exception):
    """The rest of the text can't be read."""


class Reader:
    """Reads a text from left to right, and notes its faults."""

    def __init__(self, text: str):
        self.text, self.at = text, 0
        self.path: List[Union[str, int]] = []
        self.faults: List[TextFault] = []
        self.count = 0

    def fault(self, code: int, at: int) -> None:
        """Notes a fault; of very many they are counted alone."""
        self.count += 1
        if self.count <= MOST_FAULTS:
            self.faults.append(TextFault(code, at, tuple(self.path)))

    def stop(self, code: int, at: int) -> Ended:
        self.fault(code, at)
        return Ended()

    def token(self) -> Tuple[str, str, int]:
        """Kind, text and place of the next token; an odd one has the kind `odd`."""
        match = SPACE.match(self.text, self.at)
        self.at = match.end() if match else self.at
        at = self.at
        end = string_end(self.text, at) if self.text[at : at + 1] == '"' else None
        if end is not None:
            self.at = end
            return "text", self.text[at:end], at
        found = TOKEN.match(self.text, at)
        if found:
            self.at = found.end()
            return str(found.lastgroup), found.group(), at
        odd = ODD.match(self.text, self.at)
        self.at = odd.end() if odd else self.at
        return ("odd" if odd else "none"), odd.group() if odd else "", at

    def whole(self) -> Optional[Node]:
        """The value of the text, or None where it can't be read to its end."""
        try:
            found = self.value(1, self.token())
            if isinstance(found.value, Odd):
                return None
            _, _, at = self.token()
            if at < len(self.text):
                raise self.stop(10, at)
            return found
        except Ended:
            return None

    def value(self, depth: int, token: Tuple[str, str, int]) -> Node:
        kind, text, at = token
        if kind == "mark" and text in "{[":
            if depth > MOST_DEPTH:
                raise self.stop(12, at)
            return Node(self.object_from(depth) if text == "{" else self.list_from(depth), at)
        if kind == "text":
            return Node(self.string(text, at), at)
        if kind == "number":
            return Node(self.number(text, at), at)
        if kind == "word":
            return Node(WORDS[text], at)
        if kind != "odd":
            raise self.stop(10, at)
        self.fault(10, at)
        return Node(Odd(text), at)

    def string(self, text: str, at: int) -> Union[str, Odd]:
        found = str(json.loads(text))
        if not LONE.search(found):
            return found
        self.fault(10, at)
        return Odd(text)

    def number(self, text: str, at: int) -> Union[int, Decimal, Odd]:
        try:
            counted(text)
        except Refused:
            self.fault(11, at)
            return Odd(text)
        return exact(text)

    def numbers(self) -> List[Node]:
        """Short numbers in a row, each with a comma behind: most of a large file is such."""
        found: List[Node] = []
        while row := NUMBERS.match(self.text, self.at):
            found += (
                Node(exact(one.group()), one.start()) for one in SHORT_NUMBER.finditer(self.text, self.at, row.end())
            )
            self.at = row.end()
        return found

    def list_from(self, depth: int) -> List[Node]:
        found: List[Node] = []
        while True:
            found += self.numbers()
            token = self.token()
            if token[:2] == ("mark", "]"):
                if found:
                    self.fault(10, token[2])
                return found
            self.path.append(len(found) + 1)
            found.append(self.value(depth + 1, token))
            self.path.pop()
            if self.ends("]"):
                return found

    def ends(self, mark: str) -> bool:
        """Whether the object or list ends there; otherwise a comma is due."""
        kind, text, at = self.token()
        if kind != "mark" or text not in (mark, ","):
            raise self.stop(10, at)
        return text == mark

    def object_from(self, depth: int) -> Dict[str, Node]:
        found: Dict[str, Node] = {}
        token = self.token()
        if token[:2] == ("mark", "}"):
            return found
        while True:
            self.member(depth, token, found)
            if self.ends("}"):
                return found
            token = self.token()
            while token[0] == "number":  # (behind a decimal comma)
                self.fault(10, token[2])
                if self.ends("}"):
                    return found
                token = self.token()
            if token[:2] == ("mark", "}"):
                self.fault(10, token[2])
                return found

    def member(self, depth: int, token: Tuple[str, str, int], found: Dict[str, Node]) -> None:
        kind, text, at = token
        if kind != "text":
            raise self.stop(10, at)
        key = self.string(text, at)
        name = key.text if isinstance(key, Odd) else key
        if name in found:
            self.fault(13, at)
        colon = self.token()
        if colon[:2] != ("mark", ":"):
            raise self.stop(10, colon[2])
        self.path.append(name)
        read = self.value(depth + 1, self.token())
        self.path.pop()
        found.setdefault(name, read)


@dataclass
class Located:
    """A file that was read: its value with places, None where it has none, and the faults of its text."""

    name: str
    text: str
    root: Optional[Node] = None
    faults: List[TextFault] = field(default_factory=list)
    count: int = 0  # of all faults
    last: Tuple[int, int] = (0, 0)  # a place, and the number of bytes before it
    breaks: List[int] = field(default_factory=list)

    def line(self, at: int) -> int:
        if not self.breaks:
            self.breaks = [-1, *(it.start() for it in re.finditer("\n", self.text))]
        return bisect.bisect_left(self.breaks, at)

    def byte(self, at: int) -> int:
        """How many bytes stand before a place; asked in rising order, each is counted once."""
        begin, count = self.last if self.last[0] <= at else (0, 0)
        self.last = at, count + len(self.text[begin:at].encode("utf-8", "surrogateescape"))
        return self.last[1]


def located(name: str, data: bytes) -> Located:
    """The file of these bytes. A byte order mark and what isn't UTF-8 are faults of the text as for `hull`."""
    found = Located(name, data.decode("utf-8", "surrogateescape"))
    reader = Reader(found.text)
    found.root = reader.whole()
    found.faults, found.count = reader.faults, reader.count
    return found


def plain(node: Node) -> object:
    """The value without places, as json_texts.parse gives it."""
    if isinstance(node.value, dict):
        return {key: plain(it) for key, it in node.value.items()}
    if isinstance(node.value, list):
        return [plain(it) for it in node.value]
    return node.value


def path_in_words(path: Path) -> str:
    """Where a path leads: 'renewable unit "W1", power_output_maximum, item 3'."""
    return ", ".join(words_of(path))


def words_of(path: Path) -> Iterator[str]:
    begins = 0
    if len(path) > 1 and path[0] in GROUP_WORDS and isinstance(path[1], str):
        yield f"{GROUP_WORDS[str(path[0])]} {json.dumps(path[1], ensure_ascii=False)}"
        begins = 2
    for step in path[begins:]:
        yield f"item {step}" if isinstance(step, int) else str(step)


def path_of(data: bytes, place: int) -> Path:
    """The path that leads to the fault at a byte of a text; an empty one where the reader finds none there."""
    found = located("", data)
    at = len(data[:place].decode("utf-8", "surrogateescape"))
    return next((it.path for it in found.faults if it.at == at), ())
