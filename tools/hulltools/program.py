"""Calls of `hull`: the program is found, run, and its text read."""
from __future__ import annotations

import contextlib
import hashlib
import math
import os
import re
import shutil
import subprocess
import tempfile
from collections.abc import Mapping
from fractions import Fraction
from types import TracebackType
from typing import Optional, Type, cast

from .apart import die_with_parent
from .errors import HullError, Name, OverTime, Tell, begun, is_tool_at_work, is_utf8, one_line, shown_name, told_with
from .held_files import HeldFiles, is_read_here
from .inputs import (
    Given,
    GivenCase,
    GivenMixture,
    GivenPrices,
    GivenSchedule,
    PerMwh,
    as_case,
    content_of,
    exact_of,
    is_name,
    need_periods,
    told,
)
from .numbers import Millionths, millionths
from .options import number_option, seconds_option, told_value, whole_option
from .outputs import RADIUS, ROUNDS, WITHIN, Certificate, Convex, Report, Settlement, parse_output, read_priced
from .prices import FlatPrices, Prices, is_text_of_hull, refusal_of_reserve
from .progress import step, told_to
from .refusals import Held, refusal

MOST_WORK = 50_000_000  # proposals times units times periods that `hull price` takes
PROGRAMS = (
    "crates/hull_cli/out/hull_cli",
    "dist/linux-x86_64/hull",
    "bin/hull",
)  # beside a launcher: those that it runs
HOME = os.path.dirname(os.path.dirname(os.path.dirname(os.path.abspath(__file__))))


def default_program() -> str:
    """The program to call: $HULL, the launcher of the repository or release that these tools stand in, or `hull` on the path."""
    launcher = os.path.join(HOME, "hull")
    if os.environ.get("HULL"):
        return os.environ["HULL"]
    beside = (os.path.join(HOME, it) for it in ("crates.txt", os.path.join("bin", "hull")))
    if os.access(launcher, os.X_OK) and any(map(os.path.isfile, beside)):
        return launcher
    found = shutil.which("hull")
    if not found:
        way = "give its place by --hull" if is_tool_at_work() else "give its place as `hull=` or `Hull(place)`"
        raise HullError(f"no `hull` is on the path: {way}, or in the variable HULL")
    return found


def say_nothing(text: object) -> None:
    """Hears what is told, and does nothing. (It has a name, so that a `Hull` can be sent to another process.)"""


class Hull:
    """The program. Each call gives what it prints, read; HullError where it refuses.

    A case, a schedule, prices and a mixture are names of files, objects of this package, or dicts as the files have
    them. An object that has one is taken for it: a `Convex` for its prices, and for its mixture. A call that takes
    longer than so many seconds is ended; where these are None a call ends by what it has to do, which the case and
    its words limit.
    """

    def __init__(self, program: Optional[Name] = None, tell: Optional[Tell] = None, seconds: Optional[float] = None):
        if program is not None and not is_name(program):
            raise HullError(f"`hull` is the place of the program, and no `{type(program).__name__}` can be that")
        if tell is not None and not callable(tell):
            raise HullError(f"tell is {told_value(tell)}: a function that gets each line is due, as print")
        self.seconds = seconds_option(seconds)
        self.program = os.fspath(program or default_program())
        self.commands: dict[str, bool] = {}
        self.tell: Tell = tell or say_nothing
        self.told = False
        self.last_text = b""

    def say_if_unbuilt(self) -> None:
        """A launcher whose program isn't there builds it, and says on standard error how far it is."""
        home = os.path.dirname(os.path.realpath(self.program))
        is_launcher = os.path.isdir(os.path.join(home, "crates", "hull_cli"))
        if is_launcher and not self.told and not any(os.access(os.path.join(home, it), os.X_OK) for it in PROGRAMS):
            self.tell("the program isn't built yet: ./hull proves and builds it first, and says how far it is")
        self.told = True

    def run(self, *words: str) -> tuple[int, bytes]:
        """Status and standard output."""
        odd = next((word for word in words if not is_utf8(word)), None)
        if odd is not None:  # (it would end with status 7, and say nothing)
            raise HullError(f"{shown_name(odd)}: this isn't UTF-8, and the program takes no other words")
        self.say_if_unbuilt()
        what = " ".join(["hull", *words[:1]])
        try:
            with told_to(None if self.tell is say_nothing else self.tell), step(what):
                # (however the tool ends, what it called ends with it: a launcher that explains nothing becomes the program)
                with begun(
                    [self.program, *words],
                    stdin=subprocess.DEVNULL,
                    stdout=subprocess.PIPE,
                    preexec_fn=die_with_parent,
                    env={**os.environ, "HULL_EXPLAIN": "0"},
                ) as process:
                    output = process.communicate(timeout=self.seconds)[0]
        except subprocess.TimeoutExpired:
            raise OverTime(f"the outer limit of {self.seconds:g} s is over: {what}") from None
        except (OSError, ValueError) as error:
            told = f"{self.program}: {getattr(error, 'strerror', None) or error}"
            hint = ", and `name` names a settlement" if words[:1] == ("settle",) else ""
            raise HullError(told, sentence=f"{told}: `hull` is the place of the program{hint}") from None
        return process.returncode, output

    def text(self, *words: str) -> bytes:
        """What the program prints with status 0."""
        status, output = self.run(*words)
        if status:
            raise refusal(words, status, output)
        self.last_text = output
        return output

    def has(self, command: str) -> bool:
        """Whether the program has the command: it refuses one that it hasn't by its first word."""
        if command not in self.commands:
            self.commands[command] = self.run(command)[1] != b"fault 1 words 2 1\n"
        return self.commands[command]

    def need(self, command: str) -> None:
        if not self.has(command):
            raise HullError(f"{self.program} has no command `{command}`: a newer program is needed")

    def version(self) -> str:
        """What `hull version` says, in one line; a program without its launcher is told by its contents."""
        status, output = self.run("version")
        if status == 0 and output.startswith(b"hull "):
            return one_line(", ".join(output.decode("utf-8", "replace").strip().split("\n"))).removeprefix("hull ")
        place = shutil.which(self.program) or self.program
        with open(place, "rb") as file:
            return f"program of sha256 {hashlib.sha256(file.read()).hexdigest()}"

    def files(self) -> list[str]:
        """The program's file, and those beside it that a launcher runs."""
        place = os.path.realpath(shutil.which(self.program) or self.program)
        beside = [os.path.join(os.path.dirname(place), it) for it in PROGRAMS]
        return [place, *filter(os.path.isfile, beside)]

    def sums(self) -> list[str]:
        """What tells the program apart: what it says of itself, and the sums of its files."""
        found = [self.version()]
        for name in self.files():
            with told_with(name), open(name, "rb") as file:
                found.append(hashlib.sha256(file.read()).hexdigest())
        return found

    def text_with(self, command: str, given: Mapping[str, Given], *more: str) -> bytes:
        """What a command prints of these files; each is held by a file for as long as it is needed."""
        unread: Optional[HullError] = None
        with contextlib.ExitStack() as files:
            words, held = [command], files.enter_context(HeldFiles())
            given = {what: held.of(one) if is_name(one) and is_read_here(one) else one for what, one in given.items()}
            for what, one in given.items():
                if isinstance(one, FlatPrices):
                    one, unread = flat_over(one, cast(GivenCase, given["case"]))
                if what == "prices" and is_name(one):  # (the program's own refusals come first)
                    unread = refusal_of_reserve(one)
                if not unread:
                    need_periods(what, one, given["case"])
                words += [f"--{what}", files.enter_context(as_file(one, what))]
            output = self.text(*words, *more)
            if unread:
                raise unread
        return output

    def check(self, case: GivenCase, schedule: GivenSchedule) -> Millionths:
        """The schedule's cost in millionths; HullError where it isn't feasible."""
        output = self.text_with("check", {"case": case, "schedule": schedule})
        return self.cost_of(output.decode("utf-8", "replace"))

    def cost_of(self, output: str) -> Millionths:
        """The cost that a text of `hull check` says."""
        found = re.fullmatch(r"hull-check 1\n[^\n]+\ncost (-?\d{1,39})\nfeasible\n", output)
        if not found:
            raise HullError(f"{self.program} ended with status 0, but printed no text of hull check")
        return Millionths(int(found[1]))

    def refusal_of_case(self, case: str) -> Optional[str]:
        """Why the case is refused, or None: an empty schedule is refused after the case."""
        status, output = self.run("check", "--case", case, "--schedule", os.devnull)
        line = one_line(output.decode("utf-8", "replace").strip())
        if status not in (0, 4) and not line.startswith(f"fault {status} "):
            raise HullError(f"hull check ended with status {status}, and with no line that says why")
        return line if status not in (0, 4) else None

    def price(
        self,
        case: GivenCase,
        schedule: GivenSchedule,
        *more: object,
        proposals: Optional[int] = None,
        ahead: Optional[int] = None,
    ) -> Report:
        """The report of `hull price`, with at most so many proposals and so many open at once; `more` are further words of the program."""
        words = [*more, *option_of("proposals", proposals, 1, 10_000), *option_of("ahead", ahead, 1, 16)]
        output = self.text_with("price", {"case": case, "schedule": schedule}, *map(str, words))
        return cast(Report, parse_output("hull price", output, ("hull-report 1",)))

    def settle(
        self, case: GivenCase, schedule: GivenSchedule, prices: GivenPrices, name: Optional[str] = None
    ) -> Settlement:
        """The settlement at prices; the name tells it apart in tables."""
        self.need("settle")
        output = self.text_with("settle", {"case": case, "schedule": schedule, "prices": prices})
        found = cast(Settlement, parse_output("hull settle", output, ("hull-settlement 1",)))
        found.name = name or found.name
        return found

    def certify(
        self,
        case: GivenCase,
        schedule: GivenSchedule,
        prices: GivenPrices,
        mixture: GivenMixture,
        *more: object,
        radius: Optional[int] = None,
        radius_per_mw: Optional[PerMwh] = None,
    ) -> Certificate:
        """The certificate of prices and a mixture; `more` are further words of the program.

        The bound is of all prices that differ from these, in each period, by at most the radius, in millionths per kilowatt, or `radius_per_mw`, in the
        currency per MW and period; where both are None it is of all.
        """
        words = [*more, *radius_option(radius_of(radius, radius_per_mw))]
        self.need("certify")
        given: dict[str, Given] = {"case": case, "schedule": schedule, "prices": prices, "mixture": mixture}
        output = self.text_with("certify", given, *map(str, words))
        return cast(Certificate, parse_output("hull certify", output, ("hull-certificate 1",)))

    def convex(
        self,
        case: GivenCase,
        schedule: GivenSchedule,
        within: Optional[float] = None,
        rounds: Optional[int] = None,
    ) -> Convex:
        """Convex hull prices, their settlement, and the mixture that bounds the dual value; `within` is in the currency."""
        more = []
        if within is not None:
            more += ["--within", str(millionths(str(number_option("within", within, 0, WITHIN // 10**6))))]
        if rounds is not None:
            more += ["--rounds", str(whole_option("rounds", rounds, 1, ROUNDS))]
        self.need("convex")
        output = self.text_with("convex", {"case": case, "schedule": schedule}, *more)
        return cast(Convex, parse_output("hull convex", output, ("hull-convex 1",)))

    def convex_prices(
        self,
        case: GivenCase,
        schedule: GivenSchedule,
        within: Optional[float] = None,
        rounds: Optional[int] = None,
    ) -> Convex:
        """The same as `convex`, by the name that the function has."""
        return self.convex(case, schedule, within, rounds)


def option_of(name: str, number: Optional[int], least: int, most: int) -> list[str]:
    """The words of an option with a whole number within its range; none where it is left out."""
    return [] if number is None else [f"--{name}", str(whole_option(name, number, least, most))]


def radius_of(radius: Optional[int], per_mw: Optional[PerMwh]) -> Optional[int]:
    """The radius in millionths per kilowatt, whichever of the two is given; one in the currency per MW is rounded to the nearest, a half up."""
    if per_mw is None:
        return radius
    if radius is not None:
        raise HullError("radius and radius_per_mw are both given, and one of them is due")
    number_option("radius_per_mw", per_mw, RADIUS[0] // 1000, RADIUS[1] // 1000)
    return math.floor(exact_of(per_mw, float(per_mw)) * 1000 + Fraction(1, 2))


def radius_option(radius: Optional[int]) -> list[str]:
    """The words of a radius. One that is none is refused with its unit, since it isn't in the currency as prices per MWh are."""
    try:
        return option_of("radius", radius, *RADIUS)
    except HullError as why:
        raise HullError(f"{why.line}, in millionths per kilowatt: 1000 is 1.00 per MW and period") from None


def flat_over(prices: FlatPrices, case: GivenCase) -> tuple[Prices, Optional[HullError]]:
    """Prices for the periods of a case. Of one that can't be read, prices of one period, and why: the command refuses it before its prices."""
    try:
        return prices.over(as_case(case).periods), None
    except HullError as why:
        return prices.over(1), why


class as_file:
    """The name of a file that holds what is given for as long as it is needed; a name stays itself.

    `what` is what it is, as `prices`; a text of the program that is named for prices is held as its prices.
    """

    def __init__(self, given: Given, what: str) -> None:
        self.given, self.what, self.held = given, what, contextlib.ExitStack()

    def __enter__(self) -> str:
        given, shown = self.given, told(self.what)
        if is_name(given):
            if self.what != "prices" or not is_text_of_hull(given):
                return os.fspath(given)
            shown, given = f"the prices in {os.fspath(given)}", read_priced(given)
        content = content_of(self.what, given)
        name = Held(self.nameless() or self.named())
        name.shown = shown
        with told_with(f"{shown or 'what is given'}, in {name}"), open(name, "w", encoding="utf-8") as file:
            file.write(content)
        return name

    def nameless(self) -> Optional[str]:
        """A file that is gone with this process, however it ends; None where the system has none."""
        try:
            number = os.memfd_create("hull-tools")
        except (AttributeError, OSError):
            return None
        self.held.callback(os.close, number)
        name = f"/proc/{os.getpid()}/fd/{number}"
        return name if os.access(name, os.R_OK | os.W_OK) else None

    def named(self) -> str:
        return os.path.join(self.held.enter_context(tempfile.TemporaryDirectory(prefix="hull-tools-")), "file.json")

    def __exit__(
        self, kind: Optional[Type[BaseException]], why: Optional[BaseException], where: Optional[TracebackType]
    ) -> None:
        self.held.close()
