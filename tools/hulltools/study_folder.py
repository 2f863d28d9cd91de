"""The folder of a study, or of another tool's files: they are made in a room beside, and come into the folder together, in place of those of
the run before.

However a run ends, the folder is that of one run, or has the file UNFINISHED.txt. Files of others stay, whatever their names are: what a
tool left there is known by its sha256 sums, in a list whose first line names the tool and its version.
"""
from __future__ import annotations

import contextlib
import hashlib
import itertools
import os
import re
import shutil
import stat
import tempfile
import time
from collections.abc import Iterable, Iterator, Mapping, Sequence
from types import TracebackType
from typing import Optional, Type, Union

from . import __version__
from .errors import (
    HullError,
    NotOurs,
    heard_later,
    mode_of,
    one_line,
    refuse_inputs,
    told_with,
    write_together,
    write_whole,
)
from .progress import step

try:
    import fcntl
except ImportError:  # (a system without has no locks of files)
    fcntl = None  # type: ignore[assignment]

MARK, SUMS, ROOM, LOCK = "UNFINISHED.txt", "files.sha256", ".hull-study-", ".hull-lock"
STUDY = "study.py"
OWN = ".made-by-hull"  # in a room: which folder it is, so that a run that was killed is known by it, and a copy of it isn't
BOTH, END = ".both", ".end"  # in a room: the sums of both runs, and what the mark says in the end
NOTHING = hashlib.sha256().hexdigest()  # (no tool writes an empty file, so a list that names one is somebody else's)
MOST_SUMS = 1 << 20  # bytes
WAIT = 60.0  # seconds that another run may keep the folder
TICK = 0.05  # seconds: how often is looked whether it still does
Sums = set[tuple[str, str]]  # names of files, each with its sum


def head_of(tool: str) -> str:
    """The first line of a tool's list of sums (`sha256sum -c` passes over it)."""
    return f"# made by {tool} of hull {__version__}\n"


HEAD = head_of(STUDY)


def kind_of_run(tool: str) -> str:
    return "study" if tool == STUDY else f"run of {tool}"


def begun_text(tool: str) -> str:
    """What the mark says while files come to their places."""
    kind = kind_of_run(tool)
    return f"The files in this folder are those of a {kind} that didn't end, and perhaps of another one before it.\n"


class Kept(HullError):
    """Another run kept the folder for too long."""


def take_lock(handle: int) -> bool:
    """Takes the lock of an open file; whether the disk has locks. BlockingIOError where another run has it."""
    try:
        if fcntl is not None:
            fcntl.flock(handle, fcntl.LOCK_EX | fcntl.LOCK_NB)
            return True
    except BlockingIOError:
        raise
    except OSError:
        pass
    return False


def opened_lock(place: str) -> Optional[int]:
    """The file that is locked, which is made where it isn't there, for this user alone; None where it is another user's."""
    how = os.O_RDWR | os.O_CREAT | getattr(os, "O_NOFOLLOW", 0) | getattr(os, "O_NONBLOCK", 0)
    try:
        handle = os.open(place, how, 0o600)
    except PermissionError:
        if os.path.lexists(place):
            return None
        raise
    found = os.fstat(handle)
    if not stat.S_ISREG(found.st_mode):
        os.close(handle)
        raise HullError(f"{place}: this is no file")
    if found.st_size:  # (a lock of ours is empty, and goes in the end)
        os.close(handle)
        raise NotOurs(f"{place}: no run of hull made this, so it stays: move it away, or name another folder")
    return handle


def is_at(handle: int, place: str) -> bool:
    """Whether an open file still has its name: who held the lock takes it away in the end."""
    with contextlib.suppress(FileNotFoundError):
        return os.path.samestat(os.fstat(handle), os.lstat(place))
    return False


@contextlib.contextmanager
def lock_of(folder: str, kind: str) -> Iterator[bool]:
    """No other run of our tools in this folder begins or is placed meanwhile; whether the disk has locks. `Kept` after a minute."""
    place, until = os.path.join(folder, LOCK), time.monotonic() + WAIT
    with step(f"waiting for another {kind} of this folder"), told_with(place):
        while True:
            handle = opened_lock(place)
            try:
                if handle is not None:
                    is_locked = take_lock(handle)
                    if is_at(handle, place):
                        break
            except BlockingIOError:
                pass
            if handle is not None:
                os.close(handle)
            if time.monotonic() >= until:
                of_others = (
                    f"; {one_line(place)} is another user's, and can go if none is at work" if handle is None else ""
                )
                raise Kept(f"another {kind} kept this folder for {WAIT:g} s{of_others}")
            time.sleep(TICK)
    try:
        yield is_locked
    finally:
        with contextlib.suppress(OSError):
            os.unlink(place)
        os.close(handle)


def no_link(name: str, flags: int) -> int:
    return os.open(name, flags | getattr(os, "O_NOFOLLOW", 0) | getattr(os, "O_NONBLOCK", 0))


def bytes_in(folder: str, name: str, most: int = -1) -> Optional[bytes]:
    """What a file holds, at most so many bytes of it; None where it is none, or a link."""
    with contextlib.suppress(OSError), open(os.path.join(folder, name), "rb", opener=no_link) as file:
        if stat.S_ISREG(os.fstat(file.fileno()).st_mode):
            return file.read(most)
    return None


def sha256_in(folder: str, name: str) -> str:
    """The sum of a file; an empty text where it is none, or a link."""
    data = bytes_in(folder, name)
    return "" if data is None else hashlib.sha256(data).hexdigest()


def sums_of(folder: str, tool: str = STUDY) -> Optional[Sums]:
    """The names and sums that a tool noted of its files; None where there is no note in form, as where somebody else made the list."""
    head, *lines = (bytes_in(folder, SUMS, MOST_SUMS) or b"").decode("utf-8", "replace").split("\n")
    if not re.fullmatch(rf"# made by {re.escape(tool)} of hull(?: [\w.+-]+)?", head):
        return None
    rows = (re.fullmatch(r"([0-9a-f]{64})  ([^/\0\n]+)", line) for line in lines)
    return {(row[2], row[1]) for row in rows if row and row[2] not in (".", "..") and row[1] != NOTHING}


def text_of_sums(sums: Sums, tool: str) -> str:
    return head_of(tool) + "".join(f"{was}  {name}\n" for name, was in sorted(sums))


def text_of_room(place: str) -> bytes:
    """What a room says of itself: a copy of it is another folder."""
    at = os.lstat(place)
    return f"a folder of hull, which the run that made it removes: {at.st_dev} {at.st_ino} {at.st_uid}\n".encode()


def is_room(place: str) -> bool:
    """Whether a run made the folder, which says so itself; an empty one may be anybody's."""
    return bytes_in(place, OWN, 1000) == text_of_room(place)


def write_through(folder: str) -> None:
    """Has the system write what was renamed in a folder to the disk."""
    with contextlib.suppress(OSError):
        handle = os.open(folder, os.O_RDONLY)
        try:
            os.fsync(handle)
        finally:
            os.close(handle)


class StudyFolder:
    """A folder that a run is to have. Within the context `room` is where its files are made; they are gone at its end but for those placed.

    A file of the run before that somebody has changed is refused, or set `aside` under another name where `keeps_changed` says so.
    """

    replaces_links = False  # (also one that no run noted)

    def __init__(self, folder: str, inputs: Sequence[str] = (), tool: str = STUDY, keeps_changed: bool = False) -> None:
        if not folder:
            raise HullError(f"a {kind_of_run(tool)} needs a folder's name: write . for this one")
        self.inputs = [it for it in inputs if it]
        self.tool, self.kind, self.keeps_changed = tool, kind_of_run(tool), keeps_changed
        self.named, self.folder = folder, os.path.realpath(folder)
        self.is_new, self.is_kept = False, False
        self.room, self.handle = "", -1
        self.is_begun = False  # whether the names were looked at before the work
        self.aside: list[str] = []

    def __enter__(self) -> StudyFolder:
        self.is_new = not os.path.lexists(self.named)
        with told_with(self.named):
            os.makedirs(self.folder, exist_ok=True)
        try:
            with lock_of(self.folder, self.kind) as is_locked:
                if is_locked:
                    self.remove_left()
                with told_with(self.folder):
                    self.make_room()
        except BaseException:
            self.leave()
            raise
        return self

    def make_room(self) -> None:
        self.room = tempfile.mkdtemp(prefix=ROOM, dir=self.folder)
        self.handle = os.open(self.room, os.O_RDONLY)
        take_lock(self.handle)
        with open(os.path.join(self.room, OWN), "xb") as file:
            file.write(text_of_room(self.room))

    def __exit__(
        self, kind: Optional[Type[BaseException]], why: Optional[BaseException], where: Optional[TracebackType]
    ) -> None:
        self.leave()

    def leave(self) -> None:
        """Removes the room, and the folder where nothing was placed in a new one."""
        if self.room and not self.is_kept:
            shutil.rmtree(self.room, ignore_errors=True)
        if self.handle >= 0:
            os.close(self.handle)
        if self.is_new:
            with contextlib.suppress(OSError):  # (something was placed)
                os.rmdir(self.folder)

    def locked(self) -> contextlib.AbstractContextManager[bool]:
        """No other run of this folder begins or is placed meanwhile, where the disk has locks."""
        return lock_of(self.folder, self.kind)

    def remove_left(self) -> None:
        """Removes the rooms of runs that were killed: nobody holds their locks."""
        for entry in os.scandir(self.folder):
            if entry.name.startswith(ROOM) and entry.is_dir(follow_symlinks=False):
                with contextlib.suppress(OSError):
                    handle = os.open(entry.path, os.O_RDONLY | getattr(os, "O_NOFOLLOW", 0))
                    try:
                        if take_lock(handle) and is_room(entry.path):
                            shutil.rmtree(entry.path, ignore_errors=True)
                    finally:
                        os.close(handle)

    def refuse(self, names: Sequence[str]) -> None:
        """Refuses such names before the work begins; what is made behind this isn't thrown away."""
        self.refuse_names(names)
        self.is_begun = True

    def refuse_names(self, names: Sequence[str]) -> None:
        """Refuses names of files that can't be written, or that would replace a file that is read, that no run made, or that was changed."""
        known = sums_of(self.folder, self.tool)
        for name in (*names, MARK, SUMS):
            place = os.path.join(self.folder, name)
            refuse_inputs(place, self.inputs)
            with told_with(place), contextlib.suppress(FileNotFoundError):
                if stat.S_ISDIR(os.lstat(place).st_mode):
                    raise HullError(f"{place}: Is a directory")
                self.refuse_foreign(name, known)

    def refuse_foreign(self, name: str, known: Optional[Sums]) -> None:
        """Refuses a file that is there, and isn't as a run of this tool left it; a link in place of one is replaced, and not followed."""
        place = os.path.join(self.folder, name)
        if self.is_as_left(name, known) or (self.replaces_links and os.path.islink(place)):
            return
        if name not in {noted for noted, _ in known or ()}:
            maker = f"no {'study' if self.tool == STUDY else self.tool} here made this"
            raise NotOurs(f"{place}: {maker}, so it stays: move it away, or name another folder")
        if not (self.keeps_changed or os.path.islink(place)):
            raise NotOurs(f"{place}: it was changed since a {self.kind} wrote it, so it stays: move it away")

    def is_as_left(self, name: str, known: Optional[Sums]) -> bool:
        """Whether a file is as a run of this tool left it."""
        was = sha256_in(self.folder, name)
        is_begun = name == MARK and was == hashlib.sha256(begun_text(self.tool).encode()).hexdigest()
        return (known is not None and name == SUMS) or is_begun or (name, was) in (known or ())

    def place(self, unfinished: str = "") -> None:
        """Puts the files of the room in place of those of the run before; `unfinished` says what is missing of them, if anything.

        Where that can't be, as where somebody has put a file there meanwhile, the room is kept.
        """
        with self.keeping(), self.locked():
            self.place_all(unfinished)

    def has_work(self) -> bool:
        """Whether something was made in the room."""
        return set(os.listdir(self.room)) > {OWN}

    @contextlib.contextmanager
    def keeping(self) -> Iterator[None]:
        """Keeps the room, with what was made in it, where what is done within can't be done; the error says where it is."""
        try:
            yield
        except (HullError, OSError, MemoryError) as why:
            if not (self.is_begun or isinstance(why, Kept)) or not self.has_work():
                raise
            if isinstance(why, OSError):
                told = f"{one_line(why.filename or self.folder)}: {why.strerror}"
            else:
                told = why.line if isinstance(why, HullError) else "no memory"
            raise (NotOurs if isinstance(why, NotOurs) else HullError)(f"{told}; {self.kept_room()}") from None

    def kept_room(self) -> str:
        """Keeps the room: no later run takes it away. Says where it is."""
        self.is_kept = True
        with contextlib.suppress(OSError):
            os.unlink(os.path.join(self.room, OWN))
        return f"what was made is in {one_line(self.room)}"

    def place_all(self, unfinished: str) -> None:
        names = sorted(set(os.listdir(self.room)) - {OWN})
        self.refuse_names(names)
        self.set_aside(names)
        old, new = self.held_sums(), {(name, sha256_in(self.room, name)) for name in names}
        texts = {MARK: begun_text(self.tool), BOTH: text_of_sums(old | new, self.tool), END: f"{unfinished}\n"}
        ended = hashlib.sha256(texts[END].encode()).hexdigest()
        # (a file of the run before that is read stays, as a schedule that a study made and that is given to the next one)
        kept = {(name, was) for name, was in old if name not in names and self.is_read(os.path.join(self.folder, name))}
        texts[SUMS] = text_of_sums(new | kept | ({(MARK, ended)} if unfinished else set()), self.tool)
        for name, text in texts.items():
            write_whole(os.path.join(self.room, name), text)
        self.move(MARK)
        # (where it ends from here on, the next run knows the files of both)
        self.move(BOTH, SUMS)
        write_through(self.folder)
        self.remove((name, was) for name, was in old if name not in names)
        for name in [*names, SUMS]:
            self.move(name)
        write_through(self.folder)
        self.end(bool(unfinished))

    def held_sums(self) -> Sums:
        """The files of the run before that nobody has changed."""
        known = sums_of(self.folder, self.tool) or set()
        return {(name, was) for name, was in known if sha256_in(self.folder, name) == was}

    def set_aside(self, names: Sequence[str]) -> None:
        """Gives files of the run before that somebody has changed another name; `refuse` has let none through but those that are kept."""
        known = sums_of(self.folder, self.tool)
        for name in (*names, MARK):
            place = os.path.join(self.folder, name)
            if os.path.isfile(place) and not os.path.islink(place) and not self.is_as_left(name, known):
                tries = (f"{place}.changed{number or ''}" for number in itertools.count())
                free = next(it for it in tries if not os.path.lexists(it))
                with told_with(free):
                    os.rename(place, free)
                self.aside.append(free)

    def move(self, name: str, to: str = "") -> None:
        """Puts a file of the room in its place; a link that is there is replaced, and not followed."""
        place = os.path.join(self.folder, to or name)
        with told_with(place):
            if os.path.isfile(place) and not os.path.islink(place):
                os.chmod(os.path.join(self.room, name), mode_of(place))
            os.replace(os.path.join(self.room, name), place)

    def remove(self, files: Iterable[tuple[str, str]]) -> None:
        """Removes files of the run before that nobody reads now, and that are as it left them."""
        for name, was in files:
            place = os.path.join(self.folder, name)
            if name not in (MARK, SUMS) and not self.is_read(place) and sha256_in(self.folder, name) == was:
                with told_with(place):
                    os.unlink(place)

    def is_read(self, place: str) -> bool:
        return any(os.path.exists(it) and os.path.samefile(place, it) for it in self.inputs)

    def end(self, is_unfinished: bool) -> None:
        """Takes the mark away, or has it say what is missing."""
        mark = os.path.join(self.folder, MARK)
        with told_with(mark):
            if is_unfinished:
                os.replace(os.path.join(self.room, END), mark)
            else:
                os.unlink(mark)


class TablesFolder(StudyFolder):
    """A folder of tables, in which a link is replaced."""

    replaces_links = True


def write_in_folder(
    folder: str,
    files: Mapping[str, Union[str, bytes]],
    inputs: Sequence[str],
    tool: str,
    kind: Type[StudyFolder] = TablesFolder,
    keeps: bool = False,
) -> None:
    """Puts a tool's files, by name, into a folder together, in place of those of its run before. Where they can't come there, those that took long are kept in a room of it."""
    with kind(folder, inputs, tool) as place:
        place.is_begun = keeps
        if not keeps:
            place.refuse(list(files))
        write_together({os.path.join(place.room, name): content for name, content in files.items()})
        with heard_later():
            place.place()
