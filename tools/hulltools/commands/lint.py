"""Looks at the files of a run before it costs a day: all that `hull` will refuse, and what is odd though it is taken.

usage: lint.py CASE [SCHEDULE] [--prices F] [--mixture F] [--highest-cost C] [--hours H] [--most N] [--all] [--json]

  CASE             a case as `hull` reads it (docs/FORMATS.md)
  SCHEDULE         a schedule of it, and with --prices and --mixture such files too
  --highest-cost C a marginal cost above this is odd, in the currency per MWh; 1000 if left out
  --hours H        how long a period is, as 0.25 or 1/12, from 1/3600 to 8784; 1 if left out
  --most N         of the faults of a file's text, of its form and of its rules so many are told, 1000 if left out; the
                   others are counted
  --all            each finding in words; of one rule five are told if left out
  --json           the findings as JSON: level, rule, file, line, kind, unit, periods, text and, of an error, the fault line of hull

An error is what `hull` refuses; a warning is what it takes without a word though it is odd. Status 0 says that nothing is odd, 1 that
there are warnings, 2 that there are errors, or words that can't be. Status 6 says that the answer couldn't be written, 7 that there is none, as
where there is no memory. It needs neither the program nor SciPy.
"""
import json
from fractions import Fraction
from typing import Callable, Optional, Sequence

from ..errors import Ends, HullError, need_output, run_tool
from ..lint import Limits, look
from ..telling import is_shown, write_lines, write_text
from .words import asker, count, hours, positive

STATUSES = Ends(refused=7, no_output=6, no_memory=7)  # (1 and 2 are answers; the program has 6 and 7 for these too)


def body(words: Sequence[str], tell: Callable[[str], None]) -> int:
    ask = asker("lint.py", __doc__)
    ask.add_argument("case")
    ask.add_argument("schedule", nargs="?")
    for option in ("prices", "mixture"):
        ask.add_argument(f"--{option}")
    ask.add_argument("--highest-cost", type=positive, default=1000.0)
    ask.add_argument("--hours", type=hours, default=Fraction(1))
    ask.add_argument("--most", type=count, default=Limits.most)
    for option in ("all", "json"):
        ask.add_argument(f"--{option}", action="store_true")
    try:
        given = ask.parse_args(words)
    except HullError as why:  # (words that can't be have a status of their own here)
        ask.error(str(why))
    named = {it: getattr(given, it) for it in ("case", "schedule", "prices", "mixture")}
    names = {what: name for what, name in named.items() if name is not None}
    empty = next((what for what, name in names.items() if not name), None)
    if empty:
        ask.error(f"{empty}: a name is due, and an empty text is given")
    need_output()
    review = look(names, Limits(given.highest_cost, float(given.hours), given.most))
    if given.json:
        write_text(json.dumps(review.as_json(), ensure_ascii=is_shown(), indent=1) + "\n")
    else:
        write_lines([*review.lines(given.all), review.summary])
    return review.status


def main(words: Optional[Sequence[str]] = None) -> int:
    return int(run_tool("lint.py", body, words, STATUSES))
