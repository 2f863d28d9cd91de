"""Numbers that a call is given beside files: each is looked at before anything is started, and told with its name and its range."""
from __future__ import annotations

import difflib
import math
import operator
import re
from collections.abc import Iterable, Mapping, Sequence, Set
from dataclasses import fields
from datetime import date, datetime, time, timedelta, timezone
from typing import TYPE_CHECKING, Any, Optional, TypeVar, cast

from .errors import HullError, one_line

Found = TypeVar("Found")
MOST_TOLD = 60  # characters of a value
MOST_SECONDS = 2_000_000  # (the system waits no longer than some weeks)
UTC = re.compile(r"[zZ]\Z")  # (as a time ends; Python reads it from 3.11 on)
DATE = re.compile("[0-9]{4}-[0-9]{2}-[0-9]{2}([T ].+)?")


def told_value(value: object) -> str:
    text = one_line(" ".join(str(value).split()))
    return text if len(text) <= MOST_TOLD else f"{text[:MOST_TOLD]}.."


def counted(number: int, what: str) -> str:
    return f"{number} {what}{'s' * (number != 1)}"


def is_flag(value: object) -> bool:
    """Whether it is True or False, of Python or of NumPy, which count as 1 and 0 otherwise."""
    return type(value).__name__ in ("bool", "bool_")


def whole_option(name: str, value: Any, least: int, most: int) -> int:
    """A whole number within its range."""
    try:
        found = None if is_flag(value) else operator.index(value)
    except TypeError:
        found = None
    if found is None or not least <= found <= most:
        raise HullError(f"{name} is {told_value(value)}: a whole number from {least:,} to {most:,} is due")
    return found


def is_plain(value: object) -> bool:
    """Whether a text is no number that only Python reads as one: 1_5 is hardly meant to be 15."""
    return not isinstance(value, (bytes, bytearray)) and (
        not isinstance(value, str) or (value.isascii() and "_" not in value)
    )


def float_of(value: Any) -> Optional[float]:
    """A value as a floating number, or None where it is no finite one."""
    try:
        found = float(value) if is_plain(value) and not is_flag(value) else math.nan
    except (OverflowError, TypeError, ValueError):
        return None
    return found if math.isfinite(found) else None


def is_whole_number(number: Any) -> bool:
    """Whether a number has a whole value, as 8000 and 8000.0 have."""
    try:
        operator.index(number)
    except TypeError:
        return float_of(number) is not None and not isinstance(number, str) and bool(number == int(number))
    return not is_flag(number)


def number_option(name: str, value: Any, least: float, most: float = math.inf, above: bool = False) -> float:
    """A number from the least to the greatest, or, where it has to be so, above the least."""
    found = float_of(value)
    if found is None or not least <= found <= most or above and found == least:
        low, high = (
            f"{'above' if above else 'of at least'} {least:,}",
            f" and at most {most:,}" if most < math.inf else "",
        )
        raise HullError(f"{name} is {told_value(value)}: a number {low}{high} is due")
    return found


def seconds_option(value: Any) -> Optional[float]:
    """A limit of time, or None."""
    return None if value is None else number_option("seconds", value, 0, MOST_SECONDS)


def is_list(given: object) -> bool:
    """Whether there is a number for each period, in a list, an array or a series, and not one number."""
    return isinstance(given, Iterable) and not isinstance(given, (str, bytes)) and getattr(given, "ndim", 1) > 0


def is_row(value: object) -> bool:
    """Whether it is a list, an array or a series, whose items are its numbers in order: a dict or a data frame would give its keys or columns, and a set has no order."""
    return is_list(value) and not isinstance(value, (Mapping, Set)) and not hasattr(value, "columns")


def time_of_text(text: str) -> datetime:
    """The time that a text says, which is a date with a time or without; ValueError where it says none. Python would take `2026-07-01+02:00` for two o'clock."""
    found = UTC.sub("+00:00", text.strip())
    if not DATE.fullmatch(found):
        raise ValueError(text)
    return datetime.fromisoformat(found)


def time_of_label(label: Any) -> Any:
    """The time that a label of a series is, as a date, a time of day or a length of time; None of another label."""
    if isinstance(label, tuple):  # (of an index of several columns)
        return next((it for it in map(time_of_label, label) if it is not None), None)
    if isinstance(label, str):
        try:
            found = time.fromisoformat(label.strip()) if label.strip()[2:3] == ":" else time_of_text(label)
        except ValueError:
            return None
        return found
    found = getattr(label, "start_time", label)  # (of a period of pandas)
    if isinstance(found, date) and not isinstance(found, datetime):
        return datetime(found.year, found.month, found.day)
    return found if isinstance(found, (datetime, time, timedelta)) and found == found else None


def kind_of_time(given: Any) -> tuple[str, bool]:
    """What it is, and whether it has a zone: times of one kind are each later or earlier than another."""
    kinds = (("datetime", datetime), ("time", time), ("length", timedelta))
    return next(name for name, kind in kinds if isinstance(given, kind)), getattr(given, "tzinfo", None) is not None


def times_in(given: Any) -> list[Any]:
    """The times that are labels of a series of pandas; none where they aren't all of one kind."""
    index = getattr(given, "index", ())
    times = [] if callable(index) else [it for it in map(time_of_label, index) if it is not None]
    return times if len(set(map(kind_of_time, times))) == 1 else []


def is_end_of_summer(times: list[Any], place: int) -> bool:
    """Whether local times go back there as where summer ends: by an hour less a step, which those around it are too."""
    step = timedelta(hours=1) - (times[place - 1] - times[place])
    steps = [other - one for one, other in zip(times, times[1:])]
    around = steps[max(place - 2, 0) : place - 1] + steps[place : place + 1]
    return step > timedelta(0) and all(it == step for it in around)


def refuse_backward(name: str, given: Any) -> None:
    """Refuses a series of pandas whose times go back, as where the last one stands first: its numbers are taken by their places."""
    times = times_in(given)
    back = [place for place, (one, other) in enumerate(zip(times, times[1:]), 1) if other < one]
    if not back:
        return
    kind, has_zone = kind_of_time(times[0])
    # (times of a day pass midnight once)
    is_clock = kind == "time" or kind == "datetime" and not has_zone and is_end_of_summer(times, back[0])
    if not (is_clock and len(back) == 1):
        one, other = (told_value(it) for it in times[back[0] - 1 : back[0] + 1])
        raise HullError(f"{name}: its times go back from {one} to {other}, and the order of time is due")


def refuse_other_times(name: str, given: Any, beside: str, other: Any) -> None:
    """Refuses two series of pandas of one length and different times, as of two days: their numbers would be paired by their places."""
    times, others = times_in(given), times_in(other)
    if len(times) != len(others) or not times or kind_of_time(times[0])[0] != kind_of_time(others[0])[0]:
        return
    odd = [next((t for t, pair in enumerate(pairs) if pair[0] != pair[1]), None) for pairs in clocks_of(times, others)]
    t = odd[0]
    if t is not None and None not in odd:
        told = f"{told_value(times[t])} and {told_value(others[t])}"
        raise HullError(f"{name} and {beside} are of different times: period {t + 1} is {told}", period=t + 1)


def clocks_of(times: list[Any], others: list[Any]) -> list[list[tuple[Any, Any]]]:
    """The pairs of times that can be compared; where the one have no zone, by the clock of the others' zone, and by UTC."""
    if kind_of_time(times[0]) == kind_of_time(others[0]):
        return [list(zip(times, others))]
    both = list(zip(times, others))
    local = [(one.replace(tzinfo=None), other.replace(tzinfo=None)) for one, other in both]
    return [local, [(without_zone(one), without_zone(other)) for one, other in both]]


def without_zone(given: Any) -> Any:
    """A time by UTC, without its zone; one of a day by its clock."""
    is_plain = given.tzinfo is None or not isinstance(given, datetime)
    return given.replace(tzinfo=None) if is_plain else given.astimezone(timezone.utc).replace(tzinfo=None)


def items_of(name: str, given: Any) -> list[Any]:
    """The items of a list by period; what has another shape, or no item, is refused."""
    if not is_row(given) or getattr(given, "ndim", 1) > 1:
        raise HullError(f"{name}: a list of one number for each period is due, and not {told_value(given)}")
    refuse_backward(name, given)
    found = list(given)
    if not found:
        raise HullError(f"{name}: the list is empty, and a number for each period is due")
    return found


def hint_of(key: object, known: Iterable[str]) -> str:
    """What is most likely meant by a name that isn't known, or else which names are."""
    names = list(known)
    near = difflib.get_close_matches(str(key).casefold(), [name.casefold() for name in names], 1, 0.6)
    if near:
        meant = next(name for name in names if name.casefold() == near[0])
        return f"is `{one_line(meant)}` meant?"
    shown = ", ".join(f"`{one_line(name)}`" for name in names[:12])
    return f"known: {shown}{', ..' if len(names) > 12 else ''}" if names else "there is none"


def refuse_unknown_keys(where: str, given: object, known: Sequence[str]) -> None:
    """Refuses a key of an object that means nothing there, since it is most likely misspelt."""
    for key in given if isinstance(given, Mapping) else ():
        if key not in known:
            raise HullError(f"{where}: `{one_line(key)}` is no key of it: {hint_of(key, known)}")


def is_plain_whole(value: object) -> bool:
    """Whether it is a whole number of Python, or a list of such, and of None; a list of them may be of lists."""
    if isinstance(value, (list, tuple)):
        return all(map(is_plain_whole, value))
    return value is None or type(value) is int


def are_same(one: Any, other: Any) -> bool:
    """Whether two members are equal; lists are so item by item, since `==` of an array is none of the whole."""
    if not is_row(one) or not is_row(other):
        return is_row(one) == is_row(other) and bool(one == other)
    ones, others = list(one), list(other)
    return len(ones) == len(others) and all(map(are_same, ones, others))


class FieldsAlone:
    """A data class of which a script may set the fields, and nothing else: another name is most likely misspelt."""

    def __eq__(self, other: object) -> bool:
        if type(other) is not type(self):
            return NotImplemented
        names = [field.name for field in fields(cast(Any, self)) if field.compare]
        return all(are_same(getattr(self, name), getattr(other, name)) for name in names)

    if not TYPE_CHECKING:  # (a type checker would let any name be set)

        def __setattr__(self, name: str, value: object) -> None:
            known = self.__dataclass_fields__
            if name not in known:
                raise HullError(f"`{type(self).__name__}` has no member `{name}` to set: {hint_of(name, known)}")
            super().__setattr__(name, value)


def member(members: Mapping[tuple[str, str], Found], kind: Optional[str], name: Optional[str], what: str) -> Found:
    """What there is by the kind and the name of a unit or bid. Where one of them is None the other is a name, of whichever kind alone has it."""
    if kind is None or name is None:
        given = name if kind is None else kind
        if given is None:
            raise HullError(f"{what}: the name of a unit or bid is due")
        kind, name = kind_of(members, given, what), given
    found = members.get((kind, name))
    if found is None:
        kinds = list(dict.fromkeys(known for known, _ in members))
        if kind not in kinds:
            raise HullError(f"{what} has no kind {told_value(kind)}: {hint_of(kind, kinds)}")
        names = [known for of, known in members if of == kind]
        raise HullError(f'{what} has no {kind} unit "{told_value(name)}": {hint_of(name, names)}')
    return found


def kind_of(members: Mapping[tuple[str, str], object], name: str, what: str) -> str:
    """The kind of the unit or bid of a name, which one kind alone has to have."""
    kinds = [kind for kind, known in members if known == name]
    if len(kinds) > 1:
        raise HullError(f'{what} has a {" and a ".join(kinds)} "{told_value(name)}": give the kind before the name')
    if not kinds and any(name == kind for kind, _ in members):
        raise HullError(f"{what}: {name} is a kind: give a name too")
    if not kinds:
        names = [known for _, known in members]
        raise HullError(f'{what} has no unit "{told_value(name)}": {hint_of(name, names)}')
    return kinds[0]
