"""Makes one step of one day: its files appear whole, with a record of what they were made of, or a reason stands in the day's log.

usage: step.py STEP DAY [--attempt N]

The settings are those that the run hands on.
"""
import contextlib
import os
import re
import shutil
import signal
import subprocess
import sys
import tempfile
from dataclasses import dataclass, field
from hashlib import sha256
from typing import Any, Callable, Dict, Iterator, List, Optional

if __name__ == "__main__" and signal.getsignal(signal.SIGINT) is signal.default_int_handler:
    signal.signal(signal.SIGINT, signal.SIG_DFL)  # (an interrupt while modules are loaded has no traceback)
# (`python3 -I` and PYTHONSAFEPATH leave the folder out)
sys.path.insert(0, os.path.dirname(os.path.realpath(__file__)))

from contents import PROGRAM, alone, audit_mark, basis, drop, hear_ends, log_of, make_folders, record_name, record_of
from contents import refuse_taken, refuse_too_large, sum_of, why_not_current, write_record, write_whole
from days import HOME, LISTS, REPORT, STEPS, Day, handed_settings, refusal_of_name, shown
from hulltools.apart import die_with_parent
from hulltools.commands.words import CUT, MISSED_GAP, Asker
from hulltools.errors import HullError, begun, one_line
from hulltools.faults import sentence
from hulltools.named_files import Files
from hulltools.outputs import parse_output
from hulltools.prices import Prices
from hulltools.program import MOST_WORK, Hull

Made = Dict[str, bytes]
SECONDS_TO_END = 2
PASSING = ("2", "7")  # statuses of what may pass: a file that can't be read, no memory
# (a launcher that explains nothing becomes the program, which ends with the step)
SAYS_NOTHING = {**os.environ, "HULL_EXPLAIN": "0"}
RIGHT_AUDIT = re.compile(rb"hull-audit 1\nproposals [0-9]+\nright\n")


class Missed(HullError):
    """Why what a solver made isn't taken, where another attempt makes the same."""


class Refused(Exception):
    """The program's fault line, and the line in words."""

    def __init__(self, line: str, words: str):
        super().__init__(f"refused: {line}" + (f" ({words})" if words else ""))
        self.passes = line.split()[1] in PASSING


def called(line: List[str], **how: Any) -> "contextlib.AbstractContextManager[subprocess.Popen[bytes]]":
    """A process that a step calls. It is ended with the step, however that ends: nobody would take what it makes."""
    return begun(line, stdin=subprocess.DEVNULL, stderr=subprocess.PIPE, preexec_fn=die_with_parent, **how)


@contextlib.contextmanager
def left_to_end(running: "subprocess.Popen[bytes]") -> Iterator[None]:
    """Where the step ends early its tool has some seconds to take away its temporary files: an interrupt at a terminal comes to both."""
    try:
        yield
    except BaseException:
        if not is_at_end(running):
            running.terminate()
            is_at_end(running)
        raise


def is_at_end(running: "subprocess.Popen[bytes]") -> bool:
    """Whether the process ends within some seconds."""
    try:
        running.wait(SECONDS_TO_END)
    except subprocess.TimeoutExpired:
        return False
    return True


def last_of(said: bytes) -> str:
    text = one_line(" ".join(said.decode("utf-8", "replace").split()))
    return f": {text[-300:]}" if text else ""


@dataclass(frozen=True)
class HeldDay(Day):
    """A day of which a step reads copies: whatever others write meanwhile, what it makes is of the files whose sums it notes."""

    copies: Dict[str, str] = field(default_factory=dict)

    def path(self, what: str) -> str:
        return self.copies.get(what) or super().path(what)

    def with_own_names(self, text: str) -> str:
        """A text with the names of the day's files in place of those of the copies."""
        for what, copy in self.copies.items():
            text = text.replace(copy, super().path(what))
        return text


def held(day: Day, step: str, room: str, sums: Dict[str, Optional[str]]) -> HeldDay:
    """The day with copies of all that the step takes, which have these sums."""
    folder = f"{room}/days/{day.name}"
    os.makedirs(folder)
    copies = {what: f"{folder}/{os.path.basename(day.path(what))}" for what in STEPS[step].takes}
    for what, name in copies.items():
        refuse_too_large(day.path(what))
        shutil.copyfile(day.path(what), name)
        if sum_of(name) != sums[what]:
            raise HullError("its files were changed meanwhile")
    return HeldDay(day.name, day.settings, copies)


def hull(day: Day, command: str, *more: str, **files: str) -> bytes:
    """What the program prints with status 0 for the day's case and schedule, and for further files."""
    given = {"case": day.path("case"), "schedule": day.path("schedule"), **files}
    words = [command, *(word for key, name in given.items() for word in (f"--{key}", name)), *more]
    with called([day.settings.program, *words], stdout=subprocess.PIPE, env=SAYS_NOTHING) as running:
        text, said = running.communicate()
    status = running.returncode
    if status == 0:
        return text
    line = one_line(text[:1000].decode("utf-8", "replace").rstrip("\n"))
    if line.startswith(f"fault {status} "):
        raise Refused(line, in_words(line, Files(given)))
    raise HullError(f"hull {command} ended with status {status}, and no line that says why{last_of(said)}")


def in_words(line: str, files: Files) -> str:
    try:
        return sentence(line, files)
    except HullError:
        return ""


def tool(day: Day, name: str, *words: str) -> None:
    """Runs a tool of the repository; what it says goes on to standard error."""
    program = [day.settings.python, os.path.join(HOME, "tools", name), *words]
    with called(program) as running, left_to_end(running):
        assert running.stderr is not None
        last = ""
        for line in running.stderr:
            last = one_line(line.decode("utf-8", "replace").rstrip("\n"))
            print(last, file=sys.stderr, flush=True)
        running.wait()
    if running.returncode in (MISSED_GAP, CUT):
        raise Missed(last)
    if running.returncode:
        raise HullError(last or f"{name} ended with status {running.returncode}, and says nothing")


def read(name: str) -> bytes:
    with open(name, "rb") as file:
        return file.read()


def make_schedule(day: Day, room: str) -> Made:
    why = Hull(day.settings.program).refusal_of_case(day.path("case"))
    if why:
        raise Refused(why, in_words(why, Files({"case": day.path("case")})))
    words = (*day.settings.words_of("schedule"), "--hull", day.settings.program)
    tool(day, "make_schedule.py", day.path("case"), f"{room}/schedule.json", *words)
    return {"schedule.json": read(f"{room}/schedule.json")}


def settlement(day: Day, prices: str) -> bytes:
    text = hull(day, "settle", prices=prices)
    parse_output("hull settle", text, ("hull-settlement 1",))
    return text


def report(day: Day, *words: str) -> bytes:
    """A report, by one worker unless the words say how many: its bytes are the same."""
    is_given = any(word.partition("=")[0] == "--workers" for word in words)
    workers = () if is_given else ("--workers", "1")
    text = hull(day, "price", *workers, *words)
    parse_output("hull price", text, ("hull-report 1",))
    return text


def searched_prices(day: Day, proposals: int, *words: str) -> Prices:
    """The prices that `hull price` chooses, from as many proposals as the case allows."""
    from hulltools.cases import read_case

    case = read_case(day.path("case"))
    most = max(1, min(proposals, MOST_WORK // (len(case.units) * case.periods)))
    return parse_output("hull price", report(day, "--proposals", str(most), *words)).prices


def optimised_prices(day: Day, held: bool) -> Prices:
    from hulltools.cases import read_case
    from hulltools.linear import need_scipy
    from hulltools.schedules import read_schedule

    need_scipy()
    from hulltools.relaxation import held_prices, relaxed_prices

    hull(day, "check")
    case = read_case(day.path("case"))
    return held_prices(case, read_schedule(day.path("schedule"), case)) if held else relaxed_prices(case)


PRICES: Dict[str, Callable[[Day], Prices]] = {
    "lmp": lambda day: optimised_prices(day, held=True),
    "relaxation": lambda day: optimised_prices(day, held=False),
    "subgradient_100": lambda day: searched_prices(day, 100),
    "subgradient_1000": lambda day: searched_prices(day, 1000, "--ahead", "1"),
}


def write_elmp(day: Day, prices: str) -> None:
    hull(day, "check")
    words = (*day.settings.words_of("elmp"), "--hull", day.settings.program)
    tool(day, "elmp.py", day.path("case"), day.path("schedule"), prices, *words)


def make_price_list(day: Day, name: str, room: str) -> Made:
    prices = f"{room}/prices.json"
    if name == "elmp":
        write_elmp(day, prices)
    else:
        found = PRICES[name](day)
        if found.cut:  # (the tools have status 3 for it, which leaves a step too)
            raise Missed(found.told_cuts)
        write_whole(prices, found.text().encode())
    return {f"{name}.prices.json": read(prices), f"{name}.settlement.txt": settlement(day, prices)}


def make_convex_hull(day: Day, room: str) -> Made:
    """What `hull convex` finds, its prices and mixture as files, and their settlement and certificate by themselves."""
    text, prices, mixture = f"{room}/convex.txt", f"{room}/prices.json", f"{room}/mixture.json"
    write_whole(text, hull(day, "convex", *day.settings.words_of("convex_hull")))
    tool(day, "report.py", "prices", text, prices)
    tool(day, "report.py", "mixture", text, mixture)
    certificate = hull(day, "certify", prices=prices, mixture=mixture)
    parse_output("hull certify", certificate, ("hull-certificate 1",))
    made = (read(text), read(prices), settlement(day, prices), read(mixture), certificate)
    return dict(zip(STEPS["convex_hull"].makes, made))


def make_audit(day: Day) -> Made:
    text = hull(day, "audit", "--workers", "1", report=day.path("report"))
    if not RIGHT_AUDIT.fullmatch(text):
        raise HullError("hull audit ended with status 0, and its text isn't that of a right audit")
    return {"audit.txt": text}


def make(day: Day, step: str, room: str) -> Made:
    if step == "schedule":
        return make_schedule(day, room)
    if step == "convex_hull":
        return make_convex_hull(day, room)
    if step in LISTS:
        return make_price_list(day, step, room)
    if step == REPORT:
        return {"report.txt": report(day, *day.settings.words_of(REPORT))}
    return make_audit(day)


def mark_audit(day: Day, sums: Dict[str, Optional[str]]) -> None:
    """Notes outside of the study that the files with these sums were found right, and by which program, as it is now."""
    os.makedirs(day.settings.audits, exist_ok=True)
    program = shutil.which(day.settings.program) or day.settings.program
    text = f"right: {day.name}\n{PROGRAM}{one_line(program)}\n"
    text += "".join(f"{what}: {sums[what]}\n" for what in STEPS["audit"].takes)
    text += "".join(f"sum of {one_line(it)}: {sum_of(it, is_input=True)}\n" for it in Hull(program).files())
    write_whole(audit_mark(day.settings, sums), text.encode())


def keep(day: Day, step: str, of: Dict[str, Any], made: Made) -> None:
    """Writes the record, and then the files: one without a record isn't ours."""
    if basis(day, step) != of:
        raise HullError("its files were changed meanwhile")
    write_record(record_name(day, step), {**of, "made": {file: sha256(it).hexdigest() for file, it in made.items()}})
    for file, data in made.items():
        write_whole(day.made(file), data)
    if step == "audit":
        mark_audit(day, of["of"])


def note(day: Day, step: str, of: Dict[str, Any], why: Exception, told: str) -> None:
    """Takes the step's old files away, and leaves the reason in the log and for the list of what is left."""
    refuse_taken(day, step)
    for file in STEPS[step].makes:
        drop(day.made(file))
    stays = isinstance(why, Missed) or isinstance(why, Refused) and not why.passes
    write_record(record_name(day, step, "left"), {**of, "why": told, "stays": stays})
    write_log(day, step, told)


def write_log(day: Day, step: str, why: str) -> None:
    write_whole(day.made(log_of(step)), f"{why}\n".encode())


def why_refused_before(day: Day, step: str, of: Dict[str, Any]) -> Optional[str]:
    """What an attempt before this one was refused for, where another attempt can't help."""
    left = record_of(day, step, "left")
    is_same = all(left.get(key) == found for key, found in of.items())
    return str(left.get("why")) if is_same and left.get("stays") else None


def run_step(day: Day, step: str, attempt: int) -> Optional[str]:
    """Runs the step; why it is left, or None."""
    of = basis(day, step)
    refuse_taken(day, step)
    if why_not_current(day, step) is None:
        return None
    before = why_refused_before(day, step, of) if attempt > 1 else None
    if before:
        return before
    copies = HeldDay(day.name, day.settings)
    try:
        with tempfile.TemporaryDirectory(prefix="hull-day-") as room:
            copies = held(day, step, room, of["of"])
            keep(day, step, of, make(copies, step, room))
        for name in (day.made(log_of(step)), record_name(day, step, "left")):
            drop(name)
        return None
    except (HullError, Refused, MemoryError) as error:
        why: Exception = error
    except OSError as error:
        why = HullError(f"{one_line(error.filename or 'a file')}: {error.strerror or error}")
    told = copies.with_own_names(str(why)) or "no memory"
    note(day, step, of, why, told)
    return told


def tell(text: str) -> None:
    print(f"{shown(sys.argv[2])}: {sys.argv[1]}: {one_line(text)}", file=sys.stderr, flush=True)


def body(words: List[str]) -> Optional[str]:
    ask = Asker(prog="step.py", usage=(__doc__ or "usage: ").split("usage: ")[1].split("\n")[0])
    ask.add_argument("step", choices=list(STEPS))
    ask.add_argument("day")
    ask.add_argument("--attempt", type=int, default=1)
    given = ask.parse_args(words)
    why = refusal_of_name(given.day)
    if why:
        return why
    settings = handed_settings()
    if settings is None:
        raise HullError("no run hands its settings on: Snakemake calls this")
    day = Day(given.day, settings)
    make_folders(day)
    with alone(day.made(f".steps/{given.step}.lock"), tell):
        return run_step(day, given.step, given.attempt)


def main() -> int:
    hear_ends()
    try:
        why = body(sys.argv[1:])
    except HullError as error:
        why = str(error)
    except OSError as error:
        why = f"{one_line(error.filename or 'a file')}: {error.strerror or error}"
    if why:
        tell(why)
    return 1 if why else 0


if __name__ == "__main__":
    sys.exit(main())
