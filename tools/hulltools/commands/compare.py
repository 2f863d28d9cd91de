"""Holds the amounts by unit of a statement, an ISO's or a participant's, against a settlement.

usage: compare.py SETTLEMENT STATEMENT [--rule make-whole|full] [--unit COLUMN] [--amount COLUMN] [--tolerance MONEY]

  SETTLEMENT        a text of `hull settle` or `hull price`
  STATEMENT         a csv with a head: a column `unit` and a column `amount` in the currency. Rows of one unit are added up. A name that
                    two kinds have stands as thermal:G2 in it, or beside a column `kind`
  --rule RULE       what the statement is to have: make-whole payments, or payments in full, which is taken if left out
  --unit, --amount  other names of the columns
  --tolerance MONEY a difference up to that is none; 0.01 if left out

The table is printed, the largest difference first: statement less settlement. A unit that one of the two hasn't counts as 0 there, and its cell is
empty; a line names those whose amount isn't 0. Commas of amounts part thousands.
Status 0 where no difference is above the tolerance, else 3.
"""
from collections.abc import Sequence
from typing import Optional, Union, cast

from ..comparing import differences, statement_of, table_of
from ..errors import HullError, Tell, need_output, one_line, read_bytes, run_tool
from ..numbers import millionths, money
from ..outputs import Report, Settlement, read_output
from ..settlement_rules import RULES
from .words import asker, positive

DIFFERENT = 3


def body(words: Sequence[str], tell: Tell) -> int:
    ask = asker("compare.py", __doc__)
    ask.add_argument("settlement")
    ask.add_argument("statement")
    ask.add_argument("--rule", choices=tuple(RULES), default="full")
    ask.add_argument("--unit", default="unit")
    ask.add_argument("--amount", default="amount")
    ask.add_argument("--tolerance", type=positive, default=0.01)
    given = ask.parse_args(words)
    need_output()
    found = read_output(given.settlement, ("hull-settlement 1", "hull-report 1"))
    units = cast(Union[Settlement, Report], found).units
    try:
        text = read_bytes(given.statement, "a statement").decode("utf-8")
    except UnicodeDecodeError:
        raise HullError(f"{given.statement}: this isn't UTF-8") from None
    statement = statement_of(given.statement, text, units, given.unit, given.amount)
    rows = differences(statement, units, given.rule)
    table_of(rows).write()
    for told, missing in (
        ("the statement hasn't", [it.unit for it in rows if it.statement is None and it.settlement]),
        ("the settlement hasn't", [it.unit for it in rows if it.settlement is None]),
    ):
        if missing:
            tell(f"{told} {one_line(', '.join(missing))}")
    off = [it for it in rows if abs(it.amount) > millionths(str(given.tolerance))]
    tell(f"{len(off)} of {len(rows)} units differ, by {money(sum(it.amount for it in off))} in sum")
    return DIFFERENT if off else 0


def main(words: Optional[Sequence[str]] = None) -> int:
    return run_tool("compare.py", body, words)
