"""The texts that tables are made of, each with a name of its own, and the unit of the tables' numbers."""
from __future__ import annotations

import copy
import os
import warnings
from collections.abc import Iterable, Mapping
from typing import Any, Literal, Optional, Protocol, Union, cast

from .errors import HullError, Name
from .options import is_flag, told_value
from .outputs import Settlement, Text
from .read_texts import read_output


class HasSettlement(Protocol):
    """An object with a settlement: a list of a study."""

    @property
    def settlement(self) -> Settlement:
        ...


GivenText = Union[Text, HasSettlement, Name]
GivenTexts = Union[GivenText, Mapping[Any, GivenText], Iterable[GivenText]]
Money = Literal["currency", "millionths"]
MONEY = ("currency", "millionths")


def as_text(given: GivenText) -> Text:
    if isinstance(given, (str, os.PathLike)):
        return read_output(given)
    for text in (given, getattr(given, "settlement", None)):
        if isinstance(text, Text):
            return text
    raise HullError(
        f"no `{type(given).__name__}` can be taken for a text of hull: a file's name or what a call gives is due"
    )


def named(text: Text, name: str) -> Text:
    """The text, or a copy of it that has the name."""
    if text.name == name:
        return text
    found = copy.copy(text)
    found.name = name
    return found


def texts_of(given: GivenTexts) -> list[Text]:
    """One text, several, or several by name, each with a name of its own, as `hull settle 2` for the second one."""
    if isinstance(given, Mapping):
        texts = [as_text(text) for text in given.values()]
        return [named(text, name) for text, name in zip(texts, told_apart([str(name) for name in given]))]
    if isinstance(given, (str, os.PathLike, Text)) or not isinstance(given, Iterable):
        texts = [as_text(cast(GivenText, given))]
    else:
        texts = [as_text(text) for text in given]
    return [named(text, name) for text, name in zip(texts, told_apart(shown_names(texts)))]


def shown_names(texts: list[Text]) -> list[str]:
    """The names of texts in tables: of one that has its file's, this without folders, unless another file has that too."""
    files = {text.file for text in texts if text.file == text.name}
    ends = [os.path.basename(file) for file in files]
    is_cut = [text.file == text.name and ends.count(os.path.basename(text.file)) == 1 for text in texts]
    return [os.path.basename(text.name) if cut else text.name for text, cut in zip(texts, is_cut)]


def told_apart(names: list[str]) -> list[str]:
    """The names, where one that is there again has a number behind it."""
    found: list[str] = []
    taken, known = set(names), set[str]()
    counts = dict.fromkeys(names, 1)
    for name in names:
        told = name
        while told in known or told != name and told in taken:
            counts[name] += 1
            told = f"{name} {counts[name]}"
        known.add(told)
        found.append(told)
    return found


def is_in_currency(money: Union[Money, bool], currency: Optional[bool]) -> bool:
    """Whether numbers are in the currency and MW. A flag, by its old name or in its old place, is taken still."""
    name, flag = ("money", money) if currency is None else ("currency", currency)
    if is_flag(flag):
        due = MONEY[0] if flag else MONEY[1]
        warnings.warn(f'{name}={bool(flag)} is called money="{due}" now', DeprecationWarning, stacklevel=3)
        return bool(flag)
    if currency is not None:
        raise HullError(
            f"currency is {told_value(currency)}: True or False is due; the names of columns have no name of a currency"
        )
    if money not in MONEY:
        raise HullError(f'money is {told_value(money)}: "currency" or "millionths" is due')
    return money == "currency"
