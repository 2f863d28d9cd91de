"""A text that `hull` printed, of one type where that is asked for."""
from __future__ import annotations

import re
from collections.abc import Sequence
from typing import Optional, TypeVar, Union, cast, overload

from .errors import UNREADABLE, HullError, Name, read_bytes, shown_name
from .options import told_value
from .outputs import FORMS, Bound, Certificate, Convex, Fixed, Output, Report, Settlement, Text, parse_output

Found = TypeVar("Found", bound=Text)
FIRST_LINES: dict[type[Text], str] = {
    Report: "hull-report 1",
    Settlement: "hull-settlement 1",
    Convex: "hull-convex 1",
    Bound: "hull-bound 1",
    Fixed: "hull-fixed 1",
    Certificate: "hull-certificate 1",
}
ANY_FIRST_LINE = re.compile(r"hull-(\w+) 1")


def first_lines(due: Union[type[Text], Sequence[str], None]) -> Sequence[str]:
    """The first lines of the texts that are taken: of one type, those that are named, or each."""
    if isinstance(due, type):
        found = [first for kind, first in FIRST_LINES.items() if issubclass(kind, due)]
    else:
        found = [due] if isinstance(due, str) else list(due or FORMS)
    wrong = next((first for first in found if first not in FORMS), None)
    if wrong is not None or not found:
        told = due if wrong is None else wrong
        raise HullError(f"due is {told_value(told)}: a type of texts is due, as `Report`, or a first line of one")
    return found


def refuse_others(shown: Name, data: bytes) -> None:
    """Refuses what is no text of a kind that is read."""
    first = data[:80].split(b"\n", 1)[0].decode("utf-8", "replace")
    if first in FORMS or first.startswith("fault "):
        return
    other = ANY_FIRST_LINE.fullmatch(first)
    *commands, last = (f"`{kind.command}`" for kind in FIRST_LINES)
    is_a = f"a text of `hull {other[1]}`" if other else "no text of hull"
    raise HullError(f"{shown_name(shown)}: this is {is_a}: one of `hull` {', '.join(commands)} or {last} is due")


def bytes_of_file(name: Name) -> bytes:
    """What a file holds. What may have been meant as a text is told apart from a name."""
    if isinstance(name, str) and not name.strip():
        raise HullError("a file's name or a text of hull is due, and what is given is empty")
    try:
        return read_bytes(name, "a text of hull", most=2**31, begins=b"hull-")
    except HullError as why:
        if isinstance(name, str) and name.startswith("hull-") and why.status == UNREADABLE:
            why.sentence = f"{why.line}: this is taken for a file's name, since a text of hull has several lines"
        raise


@overload
def read_output(name: Name, due: type[Found]) -> Found:
    ...


@overload
def read_output(name: Name, due: Optional[Sequence[str]] = None) -> Output:
    ...


def read_output(name: Name, due: Union[type[Text], Sequence[str], None] = None) -> Union[Output, Text]:
    """The text of `hull price`, `settle`, `convex`, `bound`, `fixed` or `certify` in a file, in millionths and kilowatts.

    `due` is the type that is taken, as `Report`, or the first lines, or None for each of them. The printed text itself is taken too, in place of
    a file's name. Raises `HullError` where the text is none of these, or where `hull audit` would call it out of form.
    """
    forms, shown = first_lines(due), name
    if isinstance(name, str) and name.startswith("hull-") and "\n" in name:
        data, shown = name.encode("utf-8", "surrogateescape"), "the text given"
    else:
        data = bytes_of_file(name)
    refuse_others(shown, data)
    found = cast(Output, parse_output(shown, data, forms))
    found.file = "" if shown is not name else found.name
    return found
