"""Work in a process of its own, which is ended when its time is over, at an interrupt, and with the tool.

A solver doesn't look at the clock, nor hear of an interrupt, in all of its steps; and what it took of memory is given back. The process is
a Python of its own, and no fork of this one, in which a solver's threads would be missing.
"""
from __future__ import annotations

import contextlib
import ctypes
import os
import pickle
import shutil
import signal
import subprocess
import sys
import time
import traceback
from collections.abc import Iterator
from multiprocessing import Pipe
from multiprocessing.connection import Connection
from typing import Any, Callable, Optional, TypeVar, cast

from .errors import ENDS, HullError, OverTime, begun, told_with
from .options import seconds_option
from .progress import pass_steps_on, step, turn_to

GRACE = 2.0  # seconds that the work has to end by itself, and to say what it has, once its time is over
START = 120.0  # seconds that a Python may take until it is at work
DIE_WITH_PARENT = 1  # PR_SET_PDEATHSIG of prctl
CODE = "import sys, pickle; sys.path[:] = pickle.load(sys.stdin.buffer); from hulltools.apart import serve; serve()"
Found = TypeVar("Found")


def system_prctl() -> Optional[Callable[..., int]]:
    """The call of the system that says how a process ends, where there is one."""
    try:
        return cast(Callable[..., int], ctypes.CDLL(None).prctl)
    except (AttributeError, OSError, TypeError):
        return None


PRCTL = system_prctl()  # (looked up before any fork, in which the lock of the loader may be taken)


def die_with_parent() -> None:
    """This process is ended with the one that started it, however that ends; where the system has it."""
    if PRCTL:
        PRCTL(DIE_WITH_PARENT, signal.SIGKILL)


def leave_signals() -> None:
    """The tool alone hears interrupts, and ends this process."""
    for number in ENDS:
        signal.signal(number, signal.SIG_IGN)
    die_with_parent()


def this_python() -> str:
    """The place of the Python that is at work, which doesn't know it itself in an environment without a path."""
    if sys.executable:
        return sys.executable
    with contextlib.suppress(OSError):
        return os.readlink("/proc/self/exe")
    found = shutil.which("python3", path=os.defpath)
    if not found:
        raise HullError("the place of this Python isn't known: call the tool by `python3`, with its full name")
    return found


@contextlib.contextmanager
def worker_with(writer: Connection) -> Iterator[subprocess.Popen[bytes]]:
    """A Python that waits for work, and sends what it finds there. It is killed in the end."""
    python = this_python()
    with contextlib.ExitStack() as stack:
        with told_with(python):
            worker = stack.enter_context(
                begun(
                    [python, "-I", "-B", "-c", CODE, str(writer.fileno())],
                    stdin=subprocess.PIPE,
                    stdout=subprocess.DEVNULL,
                    stderr=subprocess.DEVNULL,
                    pass_fds=[writer.fileno()],
                    preexec_fn=leave_signals,
                )
            )
        yield worker


def folder_here() -> str:
    """The folder that the process is in; the top of the system's where that is gone."""
    try:
        return os.getcwd()
    except OSError:
        return os.sep


FOLDER = folder_here()  # (when this package was found: a script may go elsewhere)
PACKAGE = os.path.dirname(os.path.dirname(os.path.abspath(__file__)))


def module_places() -> list[str]:
    """Where modules are looked for, by whole names, so that the process finds what this one has found."""
    return [*(os.path.join(FOLDER, place) for place in sys.path if isinstance(place, str)), PACKAGE]


def run_apart(
    work: Callable[..., Found], given: tuple[object, ...], what: str, seconds: Optional[float] = None
) -> Found:
    """What a function of this package returns or raises; OverTime where it takes longer, by two seconds, than it may."""
    seconds = seconds_option(seconds)
    with step(what):
        reader, writer = Pipe(duplex=False)
        with reader, worker_with(writer) as worker:
            writer.close()
            hand_over(worker, pickle.dumps(module_places()) + pickle.dumps((work, given)))
            return cast(Found, answer(reader, worker, what, seconds))


def hand_over(worker: subprocess.Popen[bytes], data: bytes) -> None:
    with contextlib.suppress(BrokenPipeError):  # (how it ended is told then)
        assert worker.stdin is not None
        with worker.stdin as stdin:
            stdin.write(data)


def serve() -> None:
    """Does the work that comes by standard input, and sends what it found; what the process is for."""
    work, given = pickle.load(sys.stdin.buffer)
    with Connection(int(sys.argv[1]), readable=False) as writer:
        writer.send(("begun", None))
        pass_steps_on(lambda what: writer.send(("step", what)))
        writer.send(found_by(work, given))


def found_by(work: Callable[..., object], given: tuple[object, ...]) -> tuple[str, object]:
    try:
        return "found", work(*given)
    except HullError as why:
        return "refused", why
    except MemoryError:
        return "refused", HullError("no memory")
    except Exception:
        return "failed", traceback.format_exc()


def answer(reader: Connection, worker: subprocess.Popen[bytes], what: str, seconds: Optional[float]) -> object:
    """What the process sends in the end. Its time begins when it is at work."""
    until: Optional[float] = time.monotonic() + START
    while True:
        if not reader.poll(None if until is None else max(0.0, until - time.monotonic())):
            raise OverTime(f"the outer limit of {START if seconds is None else seconds:g} s is over: {what}")
        kind, found = received(reader, worker, what)
        if kind == "begun":
            until = None if seconds is None else time.monotonic() + seconds + GRACE
        elif kind == "step":
            what = found
            turn_to(what)
        elif kind == "found":
            return found
        else:
            raise found if kind == "refused" else RuntimeError(f"{what}:\n{found}")


def received(reader: Connection, worker: subprocess.Popen[bytes], what: str) -> tuple[str, Any]:
    try:
        return cast(tuple[str, Any], reader.recv())
    except EOFError:
        status = worker.wait()
    how = f"was ended by signal {-status}" if status < 0 else f"ended with status {status}"
    raise HullError(f"{what}: its process {how}")
