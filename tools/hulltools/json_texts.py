"""JSON texts in the profile of docs/FORMATS.md; a number with a fraction or an exponent is a Decimal."""
from __future__ import annotations

import contextlib
import json
import re
from collections.abc import Iterable, Iterator, Mapping
from decimal import Decimal
from typing import TYPE_CHECKING, Any

from .errors import HullError, Name, read_bytes
from .numbers import Number

if TYPE_CHECKING:
    from typing_extensions import TypeGuard  # (in `typing` from Python 3.10 on)

MOST_DIGITS, MOST_EXPONENT, MOST_DEPTH = 30, 400, 32
STATUS = {"case": 3, "schedule": 4, "prices": 9, "mixture": 10}  # of the program, by the file that it refuses
LONE = re.compile("[\ud800-\udfff]")


class Refused(ValueError):
    """Why a text isn't one of the profile."""


def counted(text: str) -> str:
    """Refuses the number's text where it has too many digits or too large an exponent."""
    digits, _, exponent = text.lower().lstrip("-").partition("e")
    if len(digits.replace(".", "").lstrip("0")) > MOST_DIGITS:
        raise Refused(f"a number has more than {MOST_DIGITS} digits")
    size = exponent.lstrip("+-").lstrip("0")
    if len(size) > 3 or int(size or 0) > MOST_EXPONENT:
        raise Refused(f"a number has an exponent above {MOST_EXPONENT}")
    return text


def whole_number(text: str) -> int:
    return int(counted(text))


def decimal_number(text: str) -> Decimal:
    return Decimal(counted(text))


def constant(text: str) -> Any:
    raise Refused(f"{text} is no JSON")


def pairs(members: Iterable[tuple[str, Any]]) -> dict[str, Any]:
    found = {}
    for key, value in members:
        if key in found:
            raise Refused(f"the key {json.dumps(key)} stands twice in one object")
        found[key] = value
    return found


def refuse_what_is_odd(value: object, depth: int = 1) -> None:
    """Refuses half a surrogate pair, and objects and lists that are too deep."""
    if isinstance(value, str):
        if LONE.search(value):
            raise Refused("a string has half a surrogate pair")
    elif isinstance(value, (list, dict)):
        if depth > MOST_DEPTH:
            raise Refused(f"it has more than {MOST_DEPTH} levels")
        for member in value.items() if isinstance(value, dict) else value:
            for part in member if isinstance(member, tuple) else (member,):
                refuse_what_is_odd(part, depth + 1)


def parse(data: bytes) -> Any:
    """The value of a JSON text, or Refused."""
    try:
        text = data.decode("utf-8")
    except UnicodeDecodeError as error:
        raise Refused(f"byte {error.start} isn't UTF-8") from None
    if text.startswith("\ufeff"):
        raise Refused("it begins with a byte order mark")
    try:
        value = json.loads(
            text,
            object_pairs_hook=pairs,
            parse_int=whole_number,
            parse_float=decimal_number,
            parse_constant=constant,
        )
        refuse_what_is_odd(value)
    except json.JSONDecodeError as error:
        raise Refused(f"at byte {len(text[: error.pos].encode())}: {error.msg}") from None
    except RecursionError:
        raise Refused(f"it has more than {MOST_DEPTH} levels") from None
    return value


def json_text(value: object) -> str:
    """The JSON text of a value, exact: a Decimal as it is written. Arrays of NumPy and series of pandas are lists."""
    if isinstance(value, Mapping):
        members = (f"{json_key(key)}: {json_text(member)}" for key, member in value.items())
        return f"{{{', '.join(members)}}}"
    if isinstance(value, (list, tuple)):
        return f"[{', '.join(map(json_text, value))}]"
    if isinstance(value, Decimal):
        return str(value)
    plain = getattr(value, "tolist", None)
    if callable(plain):
        return json_text(plain())
    return json_string(value) if isinstance(value, str) else json.dumps(value)


def json_key(key: object) -> str:
    """A key of a dict as a JSON text: 97 is "97"."""
    return json_string(key if isinstance(key, str) else json.dumps(key))


def json_string(text: str) -> str:
    """The text as it is, but for half a surrogate pair, which no file can have as it is."""
    return json.dumps(text, ensure_ascii=LONE.search(text) is not None)


@contextlib.contextmanager
def refused_as(what: str) -> Iterator[None]:
    """Gives what is refused of a file, or of what stands for it, the status that the program has for such a file, as 3 for a case."""
    try:
        yield
    except HullError as why:
        why.status = STATUS.get(what) if why.status is None else why.status
        raise


def read_json(name: Name, what: str) -> Any:
    """The value of a file; `what` says what it is to be, as 'a case'. `HullError` has the code and the place that `hull` says of the text."""
    with refused_as(what.split()[-1]):
        data = read_bytes(name, what)
    try:
        return parse(data)
    except Refused as why:
        from .text_refusals import text_refusal

        raise text_refusal(name, what, data, str(why)) from None


def is_number(value: object) -> TypeGuard[Number]:
    return isinstance(value, (int, Decimal)) and not isinstance(value, bool)
