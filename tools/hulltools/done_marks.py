"""What says that a work is done: of which inputs and by which words it is, and the sums of its files.

Whoever hands a folder on can write any sums in it. So the mark has a seal by a key that lies in the user's home: nobody else can make it.
"""
from __future__ import annotations

import contextlib
import functools
import hashlib
import hmac
import json
import os
import secrets
import stat
import tempfile
from typing import Optional

from .study_folder import bytes_in, sha256_in

Mark = dict[str, object]
KEY_BYTES, MOST_BYTES = 32, 1 << 20


def state_folder() -> str:
    """Where what is the user's own lies. A name from the folder at hand is none of these: anybody may have made that."""
    named = os.environ.get("XDG_STATE_HOME", "")
    return named if os.path.isabs(named) else os.path.join(home_folder(), ".local", "state")


def home_folder() -> str:
    """The user's home; the one that the system knows where HOME names one from the folder at hand."""
    home = os.path.expanduser("~")
    if not os.path.isabs(home):
        with contextlib.suppress(ImportError, KeyError):  # (not every system has users)
            import pwd

            home = pwd.getpwuid(os.getuid()).pw_dir
    return home


def key_file() -> str:
    """Where the user's key lies: beside the marks of the workflow."""
    return os.path.join(state_folder(), "hull", "key")


def read_key(place: str) -> Optional[bytes]:
    """The key, where it is a file that nobody else may read or write."""
    folder, name = os.path.split(place)
    with contextlib.suppress(OSError, AttributeError):  # (not every system has users)
        at = os.lstat(place)
        if at.st_uid == os.geteuid() and not stat.S_IMODE(at.st_mode) & 0o077:
            data = bytes_in(folder, name, KEY_BYTES + 1) or b""
            return data if len(data) == KEY_BYTES else None
    return None


def make_key(place: str) -> None:
    """Makes the key where there is none, whole at once."""
    folder = os.path.dirname(place)
    with contextlib.suppress(OSError):
        os.makedirs(folder, mode=0o700, exist_ok=True)
        handle, part = tempfile.mkstemp(dir=folder, prefix=".part-")
        try:
            with open(handle, "wb") as file:
                file.write(secrets.token_bytes(KEY_BYTES))
            os.link(part, place)
        finally:
            os.unlink(part)


@functools.lru_cache(None)
def key_at(place: str) -> bytes:
    """The user's key; where there can be none, one of this process, by which no mark holds in a later run."""
    if not os.path.lexists(place):
        make_key(place)
    return read_key(place) or secrets.token_bytes(KEY_BYTES)


def lasts() -> bool:
    """Whether a mark of this process holds in a later run, too: the user's key is kept."""
    place = key_file()
    used = key_at(place)  # (which is made where there is none)
    return read_key(place) == used


def seal_of(mark: Mark) -> str:
    text = json.dumps(mark, sort_keys=True)
    return hmac.new(key_at(key_file()), text.encode(), hashlib.sha256).hexdigest()


def done_text(work: Mark, sums: dict[str, str]) -> str:
    """The mark of a work, whose files have these sums."""
    mark: Mark = {**work, "files": sums}
    return json.dumps({**mark, "seal": seal_of(mark)}) + "\n"


def files_done(work: Mark, folder: str, name: str) -> dict[str, str]:
    """The files with their sums where a mark in the folder is of this work, is ours, and holds; else none."""
    with contextlib.suppress(ValueError, RecursionError):
        found = json.loads(bytes_in(folder, name, MOST_BYTES) or b"")
        if isinstance(found, dict) and isinstance(found.get("files"), dict):
            sums, seal = found["files"], str(found.get("seal"))
            is_ours = hmac.compare_digest(seal.encode(), seal_of({**work, "files": sums}).encode())
            if is_ours and all(sha256_in(folder, file) == was for file, was in sums.items()):
                return dict(sums)
    return {}
