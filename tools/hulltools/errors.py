"""What a tool refuses in one line, files that appear whole or not at all, and interrupts."""
from __future__ import annotations

import contextlib
import csv
import io
import os
import signal
import stat
import subprocess
import sys
import tempfile
import threading
from collections.abc import Callable, Iterator, Mapping, Sequence
from dataclasses import dataclass
from types import FrameType
from typing import Any, BinaryIO, Optional, Union, cast

from .progress import step, told_by
from .telling import Teller
from .telling import one_line as one_line

Name = Union[str, "os.PathLike[str]"]  # a file's
Handler = Union[Callable[[int, Optional[FrameType]], None], signal.Handlers]  # of a signal
Tell = Callable[[object], None]  # what is told to the user goes there, line by line
MOST_LINKS = 40  # (as many as the system follows)
MOST_SHOWN = 300  # characters of a name; a longer one is no file's
UNREADABLE = 2  # the status of the program where a file can't be read
TOO_LARGE = 32  # the code of a file that has too many bytes


class HullError(Exception):
    """What is to be told to the user: in `sentence` as people say it, and in `line` as a tool does.

    The two differ where the program refused something, or a reader a file that is no JSON text: `line` then has the fault line, and `status`,
    `code`, `unit`, `period`, `at_byte` (from 0) and `at_line` (from 1) are parts of it. Each of these six is None where it isn't known. As a text
    the error is the sentence, with such a line behind it.
    """

    def __init__(
        self,
        text: str,
        status: Optional[int] = None,
        code: Optional[int] = None,
        unit: Optional[str] = None,
        period: Optional[int] = None,
        sentence: Optional[str] = None,
        at_byte: Optional[int] = None,
        at_line: Optional[int] = None,
    ) -> None:
        super().__init__(text)
        self.line, self.sentence = text, sentence or text
        self.status, self.code, self.unit, self.period = status, code, unit, period
        self.at_byte, self.at_line = at_byte, at_line

    def __str__(self) -> str:
        return self.sentence if self.line in self.sentence else f"{self.sentence} ({self.line})"


class NoOutput(HullError):
    """Standard output is closed, so nothing can be said."""


class OverTime(HullError):
    """A step of a solver or of the program took longer than it may."""


class CannotBeMet(HullError):
    """No schedule of the case keeps its rules; `period` and `unit` say where, as far as one period or one unit shows it."""


class NotOurs(HullError):
    """A file that isn't the tool's own stands where it would write; the tool ends with status 2."""


class Interrupted(KeyboardInterrupt):
    """The tool is to end, by Ctrl-C or since the system or a scheduler says so."""

    def __init__(self, number: int) -> None:
        super().__init__()
        self.number = number

    @property
    def status(self) -> int:
        """As a shell has it of a process that a signal ended."""
        return 128 + self.number


ENDS = (signal.SIGINT, signal.SIGTERM, signal.SIGHUP)


class Found:
    """Whether a tool has found what an interrupt would have it write; one more is let go then, so that it isn't lost."""

    is_there = False


class Heard:
    """The interrupt of a tool that was raised, until somebody has taken it: libraries swallow one here and there, as while they are loaded."""

    is_kept = False  # (a tool runs)
    number: Optional[int] = None


def interrupt(number: int, _: Optional[FrameType]) -> None:
    """Interrupts what is at work; the next such signal ends the process at once, or the one behind it where something was found."""
    hear_others(number, let_go if Found.is_there else signal.SIG_DFL)
    Heard.number = number if Heard.is_kept else None
    raise Interrupted(number)


def is_tool_at_work() -> bool:
    """Whether a command-line tool runs here, whose words are what can be done about a fault, and not a script of somebody's."""
    return Heard.is_kept


def raise_swallowed() -> None:
    """Interrupts what goes on though it was interrupted."""
    if Heard.number is not None:
        raise Interrupted(Heard.number)


def taken(why: KeyboardInterrupt) -> Interrupted:
    """The interrupt, which goes no farther."""
    Heard.number = None
    return why if isinstance(why, Interrupted) else Interrupted(signal.SIGINT)


def let_go(number: int, _: Optional[FrameType]) -> None:
    """Hears nothing, but the next such signal ends the process at once."""
    hear_others(number, signal.SIG_DFL)


def pass_over(number: int, _: Optional[FrameType]) -> None:
    """Hears nothing."""


def hear_interrupts(by: Handler = interrupt) -> None:
    """Has the signals that end a tool handled so, but for SIGHUP where `nohup` keeps it from the tool."""
    for number in ENDS:
        if number != signal.SIGHUP or signal.getsignal(number) is not signal.SIG_IGN:
            with contextlib.suppress(ValueError):  # (a thread that isn't the first one can't)
                signal.signal(number, by)


def hear_others(number: int, by: Handler) -> None:
    """Has those behind a first one handled so. Of a terminal that is closed the shell and the system both tell: the second is passed over."""
    hear_interrupts(by)
    if number == signal.SIGHUP:
        signal.signal(number, pass_over)


@contextlib.contextmanager
def heard_later() -> Iterator[None]:
    """An interrupt is heard behind what is done within, so that this isn't lost; another one ends the process at once."""
    if signal.getsignal(signal.SIGINT) is not interrupt:
        yield
        return
    heard: list[int] = []

    def note(number: int, _: Optional[FrameType]) -> None:
        hear_others(number, signal.SIG_DFL)
        heard.append(number)

    hear_interrupts(note)
    try:
        yield
    finally:
        if not heard:
            hear_interrupts()
    if heard:
        raise Interrupted(heard[0])


@contextlib.contextmanager
def begun(line: Sequence[str], **how: Any) -> Iterator[subprocess.Popen[bytes]]:
    """A process, which is killed in the end.

    What a handler of signals raises while a process is made is lost, since the system's calls around a fork swallow it. So a signal
    that comes by then is handed to its handler as soon as the process is there.
    """
    raise_swallowed()
    is_first = threading.current_thread() is threading.main_thread()
    handlers = {int(number): signal.getsignal(number) for number in ENDS}
    held = [number for number, handler in handlers.items() if is_first and callable(handler)]
    noted: list[int] = []

    def give_back() -> None:
        while held:
            signal.signal(held[-1], handlers[held[-1]])
            held.pop()

    with contextlib.ExitStack() as stack:
        stack.callback(give_back)
        for number in held:
            signal.signal(number, lambda came, _: noted.append(came))
        process = stack.enter_context(subprocess.Popen(line, **how))
        stack.callback(process.kill)
        give_back()
        for number in noted:
            cast("Callable[[int, None], object]", handlers[number])(number, None)
        yield process


@dataclass(frozen=True)
class Ends:
    """The statuses of a tool that can't do its work: it was refused, its output can't be written, or there is no memory."""

    refused: int = 1
    no_output: int = 1
    no_memory: int = 1


def run_tool(
    tool: str,
    body: Callable[[list[str], Tell], Optional[int]],
    words: Optional[Sequence[str]],
    ends: Ends = Ends(),
) -> int:
    """Runs a tool over its words, or those of the process, to its exit status; each trouble is told in one line.

    An interrupt ends what is at work, and the process by the signal, unless the tool returns with what it has.
    """
    given = sys.argv[1:] if words is None else list(words)
    Found.is_there, Heard.is_kept = False, True
    hold_standard_files()
    hear_interrupts()
    tell = Teller(tool)
    try:
        with told_by(tell), flushed_output():
            status = body(given, tell) or 0
            raise_swallowed()
            return status
    except NotOurs as why:
        tell(why)
        return 2
    except HullError as why:
        tell(why.line)
        return ends.no_output if isinstance(why, NoOutput) else ends.refused
    except Interrupted as why:
        end_by_signal(taken(why).number)
    except BrokenPipeError:
        tell("nobody reads the output")
        forget_output()
        return ends.no_output
    except FileNotFoundError as error:
        tell(f"{error.filename or 'the working folder'}: {error.strerror or error}")
    except OSError as error:
        tell(f"{error.filename or 'standard output'}: {error.strerror or error}")
        forget_output()
        return ends.refused if error.filename else ends.no_output
    except MemoryError:
        tell("no memory")
        return ends.no_memory
    except UnicodeEncodeError:
        tell("a name that is given can't be written in UTF-8")
    finally:
        Heard.is_kept, Heard.number = False, None
    return ends.refused


def hold_standard_files() -> None:
    """Opens those of standard input, output and error that are closed: no other file or pipe gets their number."""
    for number in range(3):
        try:
            os.fstat(number)
        except OSError:
            os.set_inheritable(os.open(os.devnull, os.O_RDWR), True)


def end_by_signal(number: int) -> None:
    """Ends the process as the signal does where nobody hears it."""
    hear_interrupts(signal.SIG_DFL)
    os.kill(os.getpid(), number)


@contextlib.contextmanager
def flushed_output() -> Iterator[None]:
    """What was printed is written before the process is at its end, where nobody is told that it can't be."""
    try:
        yield
    finally:
        if sys.stdout is not None and not sys.stdout.closed:
            sys.stdout.flush()


def forget_output() -> None:
    """What couldn't be written isn't tried again at the end of the process."""
    with contextlib.suppress(AttributeError, OSError, ValueError):
        output = sys.stdout.fileno()
        os.dup2(os.open(os.devnull, os.O_WRONLY), output)


def need_output() -> None:
    """Refuses a standard output that is closed, before anything is done."""
    if sys.stdout is None:
        raise NoOutput("standard output is closed")


def rows_in(text: str, name: str, delimiter: str = ",") -> Iterator[tuple[int, list[str]]]:
    """The rows of a table, each with the line that it begins on; a quote without an end would swallow the rows behind it, and is refused."""
    reader = csv.reader(io.StringIO(text, newline=""), delimiter=delimiter, strict=True)
    while True:
        line = reader.line_num + 1
        try:
            cells = next(reader)
        except StopIteration:
            return
        except csv.Error as why:
            what = "a quote is without an end" if "unexpected end" in str(why) else why
            raise HullError(f"{name}, line {line}: no row of comma separated values: {what}") from None
        yield line, cells


def named_rows(text: str, name: str) -> tuple[list[str], list[tuple[int, dict[str, str]]]]:
    """The columns that the first line names, and the rows behind it with their lines; empty rows are passed over, as spreadsheets write them."""
    rows = rows_in(text, name)
    columns: list[str] = next((cells for _, cells in rows), [])
    refuse_twice_named([it for it in columns if it], name)
    found = []
    for line, cells in (row for row in rows if any(map(str.strip, row[1]))):
        if len(cells) > len(columns):
            raise HullError(
                f"{name}, line {line}: it has more cells than the first line names columns. Is a decimal comma in it?"
            )
        # (in front stands an index, as pandas writes one)
        bare = next((cell for column, cell in [*zip(columns, cells)][1:] if not column and cell.strip()), None)
        if bare is not None:
            told = f"{bare.strip()!r} stands in a column without a name. Is a decimal comma in the row?"
            raise HullError(f"{name}, line {line}: {one_line(told)}")
        found.append((line, dict(zip(columns, [*cells, *[""] * (len(columns) - len(cells))]))))
    return columns, found


def refuse_line_end(cell: str, where: str) -> None:
    """Refuses a cell of several lines, which are often rows that a quote has swallowed."""
    if "\n" in cell or "\r" in cell:
        raise HullError(f"{where}: a line's end stands in a cell. Is a quote too many in it?")


def refuse_twice_named(columns: Optional[Sequence[str]], name: str) -> None:
    """Refuses a table of which two columns have one name."""
    twice = next((it for place, it in enumerate(columns or ()) if it in (columns or ())[:place]), None)
    if twice is not None:
        raise HullError(f"{name}: the column {one_line(twice)!r} stands twice")


MOST_BYTES = 67_108_864  # of a file that the program takes


def read_bytes(name: Name, what: str, most: int = MOST_BYTES, begins: bytes = b"") -> bytes:
    """The bytes of a file, or of standard input where the name is `-`; of one that doesn't begin as is due perhaps only the first ones."""
    if not isinstance(name, (str, os.PathLike)):
        raise HullError(f"a file's name is due, of {what}, and no `{type(name).__name__}`")
    try:
        if name == "-":
            if sys.stdin is None:
                raise HullError("standard input is closed")
            with step("reading standard input"):
                data = bytes_of(sys.stdin.buffer, most, begins)
        else:
            with step(f"reading {os.fspath(name)}"), open(name, "rb") as file:
                data = bytes_of(file, most, begins)
    except OSError as error:
        raise HullError(f"{shown_name(name)}: {error.strerror}", status=UNREADABLE) from None
    except ValueError:
        raise HullError(f"{shown_name(name)}: this can't be the name of a file", status=UNREADABLE) from None
    if len(data) > most:
        raise HullError(f"{shown_name(name)}: {what} has at most {most:,} bytes", code=TOO_LARGE)
    return data


def bytes_of(source: BinaryIO, most: int, begins: bytes = b"") -> bytes:
    """What is read to its end, or until it is more than so many bytes, or doesn't begin as is due."""
    parts: list[bytes] = []
    left = most
    while left >= 0 and (not parts or parts[0][: len(begins)] == begins[: len(parts[0])]):
        part = source.read(1 << 20)
        if not part:
            break
        parts.append(part)
        left -= len(part)
    return b"".join(parts)


def is_utf8(text: str) -> bool:
    """Whether a word of the command line is UTF-8: another's bytes are kept as halves of characters."""
    try:
        text.encode("utf-8")
    except UnicodeEncodeError:
        return False
    return True


def refuse_twice(names: Sequence[Optional[str]]) -> None:
    """Refuses files to write that are one, of which the first would be lost."""
    places = [os.path.realpath(name) for name in names if name and is_replaced(name)]
    twice = next((it for place, it in enumerate(places) if it in places[:place]), None)
    if twice is not None:
        raise HullError(f"{twice}: this is to be two of the files that are written")


def shown_name(name: Name) -> str:
    """A file's name as an error has it: in one line, and cut where it is a whole text."""
    text = os.fspath(name)
    if name != "-" and (len(text) > MOST_SHOWN or "\n" in text):
        return f"{one_line(text)[:MOST_SHOWN]}.."
    return "standard input" if name == "-" else text


def refuse_inputs(to: str, inputs: Sequence[str]) -> None:
    """Refuses a file to write that is one of the files that are read."""
    for name in inputs:
        try:
            if name != "-" and os.path.samefile(to, name):
                raise HullError(f"{to}: this is a file to read, and it would be replaced")
        except (OSError, ValueError):
            pass


def files_at(name: str) -> list[str]:
    """The file of a name, or those of its folder: none of them is to be replaced."""
    return [os.path.join(name, it) for it in os.listdir(name)] if os.path.isdir(name) else [name]


def behind_links(name: str) -> Iterator[str]:
    """The name, and those that its links lead to one after another; the folder of each is resolved."""
    for _ in range(MOST_LINKS):
        name = os.path.join(os.path.realpath(os.path.dirname(name)), os.path.basename(name))
        yield name
        if not os.path.islink(name):
            return
        name = os.path.join(os.path.dirname(name), os.readlink(name))


def stream_at(name: str) -> Optional[str]:
    """The open file that a name such as /dev/stdout leads to, below /proc or /dev/fd; None where there is none."""
    return next((it for it in behind_links(name) if it.startswith(("/proc/", "/dev/fd/"))), None)


def write_on(stream: str, data: bytes) -> None:
    """Writes to an open file behind what is there. One of this process is written through, so that others who have it open go on behind."""
    folder, number = os.path.split(stream)
    is_ours = folder in ("/dev/fd", os.path.realpath("/proc/self/fd")) and number.isdigit()
    with open(int(number), "wb", closefd=False) if is_ours else open(stream, "ab") as file:
        file.write(data)


class Part:
    """A file that is written beside the one that it is to replace. `name` is the file, with its links resolved where they are followed."""

    def __init__(self, name: str, follow_links: bool = True) -> None:
        self.name = os.path.realpath(name) if follow_links else os.path.abspath(name)
        if os.path.isdir(self.name):
            raise HullError(f"{self.name}: Is a directory")
        folder = os.path.dirname(self.name)
        try:
            handle, self.part = tempfile.mkstemp(dir=folder, prefix=".part-")
        except OSError as error:
            raise HullError(f"{folder}: {error.strerror}") from None
        os.close(handle)
        self.kept: Optional[str] = None

    def fill(self, data: bytes) -> None:
        with open(self.part, "wb") as file:
            file.write(data)
            file.flush()
            os.fsync(file.fileno())
        os.chmod(self.part, mode_of("" if os.path.islink(self.name) else self.name))

    def place(self, keep: bool) -> None:
        """Puts it in its place; what was there is kept beside for a while, where it may have to come back."""
        if keep and os.path.lexists(self.name):
            kept = f"{self.part}-old"
            try:
                os.link(self.name, kept, follow_symlinks=False)
            except (OSError, NotImplementedError):  # (not every disk has links)
                os.rename(self.name, kept)
            self.kept = kept
        os.replace(self.part, self.name)

    def undo(self) -> None:
        """What was there before comes back."""
        if self.kept:
            os.replace(self.kept, self.name)  # (does nothing where both are still one file)
        elif not os.path.lexists(self.part):
            os.unlink(self.name)

    def drop(self) -> None:
        for name in (self.part, self.kept):
            if name and os.path.lexists(name):
                os.unlink(name)


def is_replaced(name: str) -> bool:
    """Whether the name is a file's, or nothing is there: a device, a pipe or an open file is written as it is."""
    return not stream_at(name) and (not os.path.exists(name) or os.path.isdir(name) or os.path.isfile(name))


def try_output(name: str, inputs: Sequence[str] = ()) -> None:
    """Refuses a file that can't be written, before what is to stand in it is worked out."""
    refuse_inputs(name, inputs)
    if is_replaced(name):
        Part(name).drop()


def write_whole(name: Name, content: Union[str, bytes], inputs: Sequence[str] = ()) -> None:
    """Writes a file so that it appears whole or not at all, and never over one of the inputs; a link is followed."""
    write_together({os.fspath(name): content}, inputs, follow_links=True)


@contextlib.contextmanager
def written_beside(
    files: Mapping[str, Union[str, bytes]], inputs: Sequence[str] = (), follow_links: bool = False
) -> Iterator[None]:
    """Writes files, by name, beside their places, which they take together once the block has ended well; none over one of the inputs.

    A link is replaced, since what is in a folder may be somebody else's; one that the user has named is to be followed. What has no place
    to be taken, as a pipe, is written before the block.
    """
    for name in files:
        refuse_inputs(name, inputs)
    contents = {name: it.encode("utf-8") if isinstance(it, str) else it for name, it in files.items()}
    parts: dict[str, Part] = {}
    try:
        for name, data in contents.items():
            if not follow_links or is_replaced(name):
                parts[name] = Part(name, follow_links)
                with told_with(parts[name].name):
                    parts[name].fill(data)
        for name in (it for it in contents if it not in parts):
            with told_with(name):
                write_on(stream_at(name) or name, contents[name])
        yield
        place_all(list(parts.values()))
    finally:
        for part in parts.values():
            part.drop()


def write_together(
    files: Mapping[str, Union[str, bytes]], inputs: Sequence[str] = (), follow_links: bool = False
) -> None:
    """Writes files, by name, so that all of them appear or none does, as `written_beside` says."""
    with written_beside(files, inputs, follow_links):
        pass


def place_all(parts: list[Part]) -> None:
    """Puts each in its place, or none."""
    placed: list[Part] = []
    try:
        for part in parts:
            with told_with(part.name):
                placed.append(part)
                part.place(len(parts) > 1)
    except BaseException:
        for part in placed:
            part.undo()
        raise


@contextlib.contextmanager
def told_with(name: str) -> Iterator[None]:
    """Tells what the system refuses with the name of the file."""
    try:
        yield
    except BrokenPipeError:
        raise
    except OSError as error:
        raise HullError(f"{name}: {error.strerror}") from None


def mode_of(name: str) -> int:
    """The permissions of a file that is there, or those that a new one gets."""
    if os.path.exists(name):
        return stat.S_IMODE(os.stat(name).st_mode)
    mask = os.umask(0)
    os.umask(mask)
    return 0o666 & ~mask
