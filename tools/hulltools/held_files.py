"""Files that a run reads more than once. It reads copies of them, so that all that it makes is of one state of each, whatever others write meanwhile."""
from __future__ import annotations

import contextlib
import os
import tempfile
from argparse import Namespace
from dataclasses import replace
from pathlib import Path
from types import TracebackType
from typing import TYPE_CHECKING, Any, Dict, Optional, Type, TypeVar

from .errors import MOST_BYTES, HullError, Name, one_line, read_bytes, told_with
from .inputs import is_name

if TYPE_CHECKING:
    from .provenance import Source

Given = TypeVar("Given")
OPEN_HERE = ("/dev/fd/", "/proc/self/fd/")


def is_copied(name: Name) -> bool:
    """Whether that is a pipe, or a file that the program doesn't refuse for its size."""
    return is_pipe(name) or (os.path.isfile(name) and os.path.getsize(name) <= MOST_BYTES)


def is_pipe(name: Name) -> bool:
    """Whether what is there can be read once alone."""
    return Path(name).is_fifo()


def is_read_here(name: Name) -> bool:
    """Whether the program can't read it for the tool: a pipe, which is read once, or what the tool alone has open."""
    return is_pipe(name) or os.fspath(name) == "/dev/stdin" or os.fspath(name).startswith(OPEN_HERE)


class HeldFiles:
    """Copies of files in a temporary folder, each made when it is asked for first. What is refused within the context has the files' own names."""

    def __init__(self) -> None:
        self.copies: Dict[str, str] = {}  # by name
        self.folder: Optional[tempfile.TemporaryDirectory[str]] = None

    def __enter__(self) -> HeldFiles:
        return self

    def __exit__(
        self, kind: Optional[Type[BaseException]], why: Optional[BaseException], where: Optional[TracebackType]
    ) -> None:
        if isinstance(why, HullError):
            why.line, why.sentence = self.with_own_names(why.line), self.with_own_names(why.sentence)
        if self.folder:
            with contextlib.suppress(OSError):
                self.folder.cleanup()

    def of(self, given: Given) -> Given:
        """The copy of a file, or of what a pipe brings. All else stays as it is, as what isn't there, or what the program refuses for its size."""
        if not is_name(given) or not is_copied(given):
            return given
        name = os.fspath(given)
        if name not in self.copies:
            self.copies[name] = self.copied(name)
        copy: Any = self.copies[name]
        return copy  # type: ignore[no-any-return]

    def copied(self, name: str) -> str:
        data = read_bytes(name, "a file")
        with told_with("a temporary folder"):
            self.folder = self.folder or tempfile.TemporaryDirectory(prefix="hull-held-")
            folder = os.path.join(self.folder.name, str(len(self.copies)))
            os.mkdir(folder)
            copy = os.path.join(folder, os.path.basename(name))
            with open(copy, "wb") as file:
                file.write(data)
        return copy

    def words_of(self, given: Namespace) -> Namespace:
        """The words of a tool with copies of its case and schedules in their places."""
        words = dict(vars(given))
        words.update({key: self.of(words[key]) for key in ("case", "schedule", "best_schedule") if words.get(key)})
        return Namespace(**words)

    def own(self, name: str) -> str:
        """The file's own name, of a copy or of another one."""
        return next((it for it, copy in self.copies.items() if copy == name), name)

    def named(self, source: Source) -> Source:
        """The source of a schedule with its own name."""
        return replace(source, name=self.own(source.name))

    def with_own_names(self, text: str) -> str:
        for name, copy in self.copies.items():
            text = text.replace(copy, one_line(name))
        return text
