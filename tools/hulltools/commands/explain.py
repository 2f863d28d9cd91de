"""Says a fault line of `hull` as a sentence: which file and unit, what was found there, and what is due.

usage: explain.py [CASE SCHEDULE] [--prices F] [--mixture F] [--report F] [--run WORDS..] < LINE

CASE and SCHEDULE are the files that the run was given, and so are those of the options. Behind --run stand the words of the run, all that
was behind `hull`, and the files are those that they name. LINE is what the run printed: its first line that begins with `fault` is explained.
A run that wasn't refused is said to be one. A file that LINE is told of has to be given and to be there, unless LINE says that it couldn't be
read.
"""
import argparse
import re
from collections.abc import Sequence
from typing import Optional

from ..faults import Files, sentence
from ..errors import HullError, need_output, one_line, read_bytes, run_tool
from ..telling import write_lines
from .words import asker


FILES = ("case", "schedule", "prices", "mixture", "report")


def files_of(words: list[str]) -> dict[str, str]:
    """The files that the words of a run name, by what they are."""
    found: dict[str, str] = {}
    options = iter(words)
    for option in options:
        name, equals, value = option.removeprefix("--").partition("=")
        if option.startswith("--") and name in FILES:
            found.setdefault(name, value if equals else next(options, ""))
    return found


def word_of(line: str, words: list[str]) -> str:
    """The word that a fault of the words is told of, with the value behind it, as a sentence; nothing where it isn't known."""
    found = re.fullmatch(r"fault 1 words \d+ (\d+)", line)
    place = int(found[1]) if found else 0
    if not 1 <= place <= len(words):
        return ""
    told = words[place - 1 : place + 1] if re.fullmatch("--[^=]*", words[place - 1]) else [words[place - 1]]
    return f" There stands {one_line(' '.join(told))[:100]!r}."


def body(words: list[str], tell: object) -> None:
    ask = asker("explain.py", __doc__)
    ask.add_argument("case", nargs="?")
    ask.add_argument("schedule", nargs="?")
    for option in ("prices", "mixture", "report"):
        ask.add_argument(f"--{option}")
    ask.add_argument("--run", nargs=argparse.REMAINDER, default=[])
    given = vars(ask.parse_args(words))
    run = given.pop("run")
    lines = read_bytes("-", "a fault line").decode("utf-8", "replace").split("\n")
    line = next((it.strip("\r") for it in lines if it.startswith("fault ")), None)
    if line is None and not lines[0].startswith("hull-"):
        raise HullError("standard input has no fault line")
    if line is None:
        text = f"The run wasn't refused: its text begins with {one_line(lines[0][:40])!r}."
    else:
        files = Files({**files_of(run), **{name: file for name, file in given.items() if file}})
        text = sentence(line, files) + word_of(line, run)
    need_output()
    write_lines([text])


def main(words: Optional[Sequence[str]] = None) -> int:
    return run_tool("explain.py", body, words)
