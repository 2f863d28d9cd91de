"""Amounts by unit of a statement beside those of a settlement."""
import re
from dataclasses import dataclass
from decimal import Decimal, InvalidOperation
from typing import Dict, List, Mapping, Optional, Sequence

from .cash_flows import KINDS
from .errors import HullError, named_rows, one_line, refuse_line_end
from .numbers import Millionths
from .outputs import Owed
from .settlement_rules import paid
from .tables import Table, as_it_was

LARGEST = 10**15
AMOUNT = re.compile(r"[+-]?(?:[1-9][0-9]{0,2}(?:,[0-9]{3})+|[0-9]*)(?:\.[0-9]*)?(?:[eE][+-]?[0-9]{1,3})?")

# Tables of this package with rows of several texts: columns that they have, and how many of these say which text it is.
# (the workflow's table of all days is one of them)
OF_TEXTS = (
    (["day", "list", "kind", "unit"], 2),
    (["list", "kind", "unit"], 1),
    (["report", "side", "kind", "name"], 2),
)
OTHER_MONEY = "_millionths"  # as the columns of our tables end that aren't in the currency


@dataclass(frozen=True)
class Difference:
    """A unit's amount in the statement and in the settlement, in millionths; None where one of them hasn't the unit."""

    unit: str
    statement: Optional[Millionths]
    settlement: Optional[Millionths]

    @property
    def amount(self) -> Millionths:
        return Millionths((self.statement or 0) - (self.settlement or 0))


def amount_of(text: str, where: str) -> Millionths:
    """An amount of the statement in millionths; commas between thousands are taken, and a decimal comma isn't."""
    try:
        number = Decimal(text.strip().replace(",", "") if AMOUNT.fullmatch(text.strip()) else "nan")
    except InvalidOperation:
        number = Decimal("nan")
    if not number.is_finite() or abs(number) > LARGEST:
        raise HullError(f"{where}: {one_line(text)!r} is no amount")
    return Millionths(int((number * 10**6).to_integral_value()))


def kinds_of_names(units: Sequence[Owed]) -> Dict[str, List[str]]:
    """The kinds that have a unit of a name: by a name that several have no unit is known."""
    found: Dict[str, List[str]] = {}
    for unit in units:
        found.setdefault(unit.name, []).append(unit.kind)
    return found


def key_of(cell: str, kind: str, known: Mapping[str, Sequence[str]], where: str) -> str:
    """The name of a row's unit, or its kind and name as thermal:G2 where several kinds have the name, or another one than the row says.

    Spaces around a name are left out where no unit has it with them.
    """
    # (tables of this package tell names of a spreadsheet's formulas apart)
    name = as_it_was(cell)
    if name not in known:
        name = as_it_was(cell.strip())
    before, _, rest = name.partition(":")
    if name not in known and list(known.get(rest, ())) == [before]:
        name = rest  # (the kind stands before a name that one kind alone has)
    kinds, said = known.get(name, ()), kind.strip()
    if len(kinds) > 1 and not said:
        raise HullError(f"{where}: several kinds have a unit {one_line(name)!r}: write it as thermal:{one_line(name)}")
    is_other = bool(kinds) and said in KINDS and said not in kinds
    return f"{said}:{name}" if len(kinds) > 1 or is_other else name


def refuse_several(columns: List[str], rows: Sequence[Mapping[str, str]], name: str) -> None:
    """Refuses a table of this package that is of several price lists or texts: their amounts would be added up."""
    for begin, parts in OF_TEXTS:
        if set(begin) <= set(columns):
            texts = list(dict.fromkeys(" ".join(row[it] for it in begin[:parts]).strip() for row in rows))
            if len(texts) > 1:
                told = f"it has rows of {one_line(texts[0])} and of {one_line(texts[1])}"
                raise HullError(f"{name}: {told}, and those of one alone are a statement")


def statement_of(
    name: str, text: str, units: Sequence[Owed] = (), unit: str = "unit", amount: str = "amount"
) -> Dict[str, Millionths]:
    """The amounts by unit of a statement with these columns; what stands in several rows of one unit is added up.

    `units` are those of the settlement that it is of.
    """
    known = kinds_of_names(units)
    columns, rows = named_rows(text.removeprefix("\ufeff"), name)
    missing = [it for it in (unit, amount) if it not in columns]
    if missing:
        raise HullError(f"{name}: there is no column {missing[0]!r}")
    refuse_several(columns, [row for _, row in rows], name)
    if amount.endswith(OTHER_MONEY):
        told = "is in millionths: `report.py csv --currency` writes the currency"
        raise HullError(f"{name}: `{one_line(amount)}` {told}")
    found: Dict[str, Millionths] = {}
    for line, row in rows:
        for column in (it for it in columns if it != unit):
            refuse_line_end(row[column], f"{name}, line {line}")
        if not row[unit].strip() and row[unit] not in known:
            raise HullError(
                f"{name}, line {line}: no unit stands in it: a statement has rows of units, and none of sums"
            )
        key = key_of(row[unit], row.get("kind", ""), known, f"{name}, line {line}")
        found[key] = Millionths(found.get(key, 0) + amount_of(row[amount], f"{name}, line {line}"))
    return found


def differences(statement: Dict[str, Millionths], units: List[Owed], rule: str) -> List[Difference]:
    """Every unit of either, the largest difference first."""
    known = kinds_of_names(units)
    settled = {
        f"{owed.kind}:{owed.name}" if len(known[owed.name]) > 1 else owed.name: Millionths(paid(owed, rule))
        for owed in units
    }
    if len(settled) < len(units):
        raise HullError(
            "the settlement has two units that a statement can't tell apart: one's name is another's kind and name"
        )
    names = [*settled, *(name for name in statement if name not in settled)]
    found = [Difference(name, statement.get(name), settled.get(name)) for name in names]
    return sorted(found, key=lambda it: (-abs(it.amount), it.unit))


def table_of(rows: List[Difference]) -> Table:
    table = Table(["unit", "statement:money", "settlement:money", "difference:money"], True)
    for row in rows:
        table.add(row.unit, row.statement, row.settlement, row.amount)
    return table
