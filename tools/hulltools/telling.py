"""What a tool says: its text on standard output; lines on standard error, at a terminal with one written anew."""
from __future__ import annotations

import os
import shutil
import sys
import threading
import time
from collections.abc import Callable, Iterable

CLEAR = "\r\x1b[K"


def one_line(text: object) -> str:
    """The text with what isn't printable as `?`: no name breaks the line, commands a terminal or turns text around."""
    return "".join(it if it.isprintable() else "?" for it in str(text))


def is_shown() -> bool:
    """Whether standard output is a terminal."""
    try:
        return sys.stdout.isatty()
    except (ValueError, AttributeError):
        return False


def write_text(text: str) -> None:
    """Writes to standard output, in UTF-8 whatever the locale is."""
    sys.stdout.buffer.write(text.encode("utf-8", "replace"))
    sys.stdout.buffer.flush()


def write_lines(lines: Iterable[object]) -> None:
    """Writes lines for people to standard output."""
    write_text("".join(f"{one_line(line)}\n" for line in lines))


class Teller:
    """Says lines in the name of a tool; that nobody reads them is no fault."""

    def __init__(self, tool: str) -> None:
        self.tool, self.lock, self.is_showing, self.told_at = tool, threading.RLock(), False, 0.0

    def __call__(self, text: object) -> None:
        self.told_at = time.monotonic()
        self.print(f"{self.tool}: {one_line(text)}\n")

    def show(self, text: str) -> None:
        """Shows a text at a terminal in place of the one that was shown there."""
        width = shutil.get_terminal_size().columns - 1
        self.print(f"{self.tool}: {one_line(text)}"[:width], True)

    def hide(self) -> None:
        """Takes away what is shown."""
        if self.is_showing:
            self.print("")

    def print(self, text: str, is_shown: bool = False) -> None:
        with self.lock:
            clear = CLEAR if self.is_showing or is_shown else ""
            self.is_showing = is_shown
            try:
                print(f"{clear}{text}", end="", file=sys.stderr, flush=True)
            except (OSError, ValueError, AttributeError):
                pass

    @property
    def is_at_terminal(self) -> bool:
        try:
            return sys.stderr.isatty() and os.environ.get("TERM", "dumb") != "dumb"
        except (ValueError, AttributeError):
            return False


class Caller(Teller):
    """Says lines to a function that somebody gave, one after another, and nothing at a terminal."""

    is_at_terminal = False

    def __init__(self, tell: Callable[[object], None]) -> None:
        super().__init__("")
        self.tell = tell

    def __call__(self, text: object) -> None:
        self.told_at = time.monotonic()
        with self.lock:
            self.tell(one_line(text))

    def hide(self) -> None:
        """Nothing is shown."""
