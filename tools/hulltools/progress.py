"""How far a tool is: nothing of a step that is soon done; of a longer one what it is, within two seconds, and then from time to time.

At a terminal a line is written anew each second; elsewhere, as in a log, there is a line at first and one each ten seconds.
"""
from __future__ import annotations

import contextlib
import os
import threading
import time
from collections.abc import Iterator
from typing import Callable, Optional

from .telling import Caller, Teller

FIRST, EVERY, TICK = 1.5, 10.0, 0.2  # seconds: when a step is first told, when again, and how often is looked


class Step:
    """Something that may take long, and since when it is at work."""

    def __init__(self, what: str) -> None:
        self.what, self.began = what, time.monotonic()


class Progress:
    """The steps of a tool, each within the one before it, told by a thread of its own."""

    def __init__(self, tell: Teller) -> None:
        self.tell, self.steps, self.shown_at = tell, [Step("at work")], 0.0
        self.is_over = threading.Event()
        self.thread = threading.Thread(target=self.watch, daemon=True)

    def watch(self) -> None:
        while not self.is_over.wait(TICK):
            self.look(time.monotonic())

    def look(self, now: float) -> None:
        """Tells what is at work where some step of it is so for long enough, and it is time for that."""
        steps = list(self.steps)
        old = [it for it in steps if now - it.began >= FIRST]
        if not old:
            return
        is_shown = self.tell.is_at_terminal
        last = max(self.shown_at, self.tell.told_at)
        if last > old[-1].began and now - last < (1.0 if is_shown else EVERY):
            return
        text = f"{': '.join(it.what for it in steps[1:]) or steps[0].what}: {now - old[-1].began:.0f} s"
        if is_shown:
            self.shown_at = now
            self.tell.show(text)
        else:
            self.tell(text)

    def begin(self, what: str) -> None:
        self.steps.append(Step(what))

    def end(self) -> None:
        self.steps.pop()
        self.tell.hide()

    def rename(self, what: str) -> None:
        self.steps[-1] = Step(what)


class Now(threading.local):
    """Who wants to hear of steps: a tool that runs, or, within a process that it started, what passes them on to it.

    Each thread has its own: a script may make several calls at once, each with its own `tell`.
    """

    def __init__(self) -> None:
        self.progress: Optional[Progress] = None
        self.relay: Optional[Callable[[str], None]] = None


NOW = Now()


def is_begun(thread: threading.Thread) -> bool:
    """Whether the thread could be begun: its stack is as large as all that a tool needs otherwise."""
    try:
        thread.start()
    except RuntimeError:
        return False
    return True


@contextlib.contextmanager
def told_by(tell: Teller) -> Iterator[None]:
    """Steps are told while this lasts, unless HULL_PROGRESS is 0, or there is no room for the thread that tells."""
    progress = Progress(tell)
    if NOW.progress or os.environ.get("HULL_PROGRESS") == "0" or not is_begun(progress.thread):
        yield
        return
    NOW.progress = progress
    try:
        yield
    finally:
        NOW.progress = None
        progress.is_over.set()
        progress.thread.join()
        tell.hide()


@contextlib.contextmanager
def told_to(tell: Optional[Callable[[object], None]]) -> Iterator[None]:
    """A function gets each step as a line of text while this lasts, as a log does: within two seconds, and each ten; None hears nothing."""
    if tell is None:
        yield
        return
    with told_by(Caller(tell)):
        yield


@contextlib.contextmanager
def step(what: str) -> Iterator[None]:
    """Something that may take long; `what` says it in words."""
    if NOW.relay:
        NOW.relay(what)
    progress = NOW.progress
    if progress:
        progress.begin(what)
    try:
        yield
    finally:
        if progress:
            progress.end()


def turn_to(what: str) -> None:
    """The innermost step goes on with something else."""
    if NOW.relay:
        NOW.relay(what)
    if NOW.progress:
        NOW.progress.rename(what)


def pass_steps_on(relay: Callable[[str], None]) -> None:
    """From now on this process tells nothing itself: `relay` gets each step."""
    NOW.progress, NOW.relay = None, relay
