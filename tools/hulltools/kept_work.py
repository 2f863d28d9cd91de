"""What a long piece of work has found, where it can't be written in its place."""
from __future__ import annotations

import os
import shutil
import tempfile
from collections.abc import Mapping, Sequence
from typing import Optional

from .errors import HullError, one_line, write_together


def write_found(files: Mapping[str, str], inputs: Sequence[str] = ()) -> None:
    """Writes files, by name, all of them or none. Where that can't be they are kept among the temporary files, and the error says where."""
    try:
        write_together({**files}, inputs, follow_links=True)
    except BrokenPipeError:
        raise
    except (HullError, OSError) as why:
        place = kept_folder(files)
        if place is None:
            raise
        told = why.line if isinstance(why, HullError) else f"{one_line(why.filename or 'a file')}: {why.strerror}"
        raise HullError(f"{told}; what was found is in {place}") from None


def kept_folder(files: Mapping[str, str]) -> Optional[str]:
    """A temporary folder with these files, each by the last part of its name; None where there can't be one."""
    folder: Optional[str] = None
    try:
        folder = tempfile.mkdtemp(prefix="hull-found-")
        for number, (name, text) in enumerate(files.items(), 1):
            place = os.path.join(folder, os.path.basename(name) or "file")
            with open(f"{place}.{number}" if os.path.exists(place) else place, "x", encoding="utf-8") as file:
                file.write(text)
    except OSError:
        if folder:
            shutil.rmtree(folder, ignore_errors=True)
        return None
    return folder
