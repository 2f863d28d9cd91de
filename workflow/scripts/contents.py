"""What files hold: their sums, records of what was made of what, and files that appear whole or not at all.

No name is followed where it is a symbolic link, and no file is replaced that has no record of having been made here.
"""
import contextlib
import fcntl
import functools
import hashlib
import json
import os
import signal
import sys
import tempfile
import time
from typing import Any, Callable, Dict, Iterator, List, Mapping, Optional, Tuple

from days import REPORT, STEPS, Day, Settings
from hulltools.errors import ENDS, MOST_BYTES, HullError, one_line, told_with

HIDDEN = ".steps"  # the folder of records and flags
CHUNK = 1 << 20
MOST_SECONDS_OF_WAIT = 300
PROGRAM = "program: "  # (begins a line of a mark)
# Options by which a step makes the same, if it makes it: a schedule that the clock chose isn't taken.
LIMITS = {"schedule": "--seconds", "elmp": "--seconds", REPORT: "--workers"}


def end_quietly(number: int, frame: object) -> None:
    """Ends the process so that its temporary files go too."""
    sys.exit(128 + number)


def hear_ends() -> None:
    """An interrupt ends the process quietly from now on."""
    for number in ENDS:
        if number != signal.SIGHUP or signal.getsignal(number) is not signal.SIG_IGN:  # (`nohup` keeps that one away)
            signal.signal(number, end_quietly)


def refuse_too_large(name: str) -> None:
    """Refuses a file that hull refuses for its size, before it is copied."""
    size = os.path.getsize(name)
    if size > MOST_BYTES:
        raise HullError(f"{one_line(name)} has {size:,} bytes, and hull takes {MOST_BYTES:,} at most")


def sum_of(name: str, is_input: bool = False) -> Optional[str]:
    """The sum of a plain file's contents, or None; an input may be a symbolic link to one."""
    if not os.path.isfile(name) or os.path.islink(name) and not is_input:
        return None
    try:
        looks = os.stat(name)
        return sum_of_contents(name, (looks.st_ino, looks.st_size, looks.st_mtime_ns, looks.st_ctime_ns))
    except OSError:
        return None


@functools.lru_cache(maxsize=4096)
def sum_of_contents(name: str, looks: Tuple[int, ...]) -> str:
    """The sum, which is worked out once for as long as the file looks as it does; of a file that hull refuses its size alone."""
    if looks[1] > MOST_BYTES:
        return f"{looks[1]} bytes"
    found = hashlib.sha256()
    with open(name, "rb") as file:
        while part := file.read(CHUNK):
            found.update(part)
    return found.hexdigest()


def write_whole(name: str, data: bytes) -> None:
    """Writes a file so that it appears whole or not at all; a symbolic link of that name is replaced itself."""
    with told_with(name):
        handle, part = tempfile.mkstemp(dir=os.path.dirname(name), prefix=".part-")
        try:
            with os.fdopen(handle, "wb") as file:
                file.write(data)
                file.flush()
                os.fsync(file.fileno())
            mask = os.umask(0)
            os.umask(mask)
            os.chmod(part, 0o666 & ~mask)
            os.replace(part, name)
        finally:
            with contextlib.suppress(FileNotFoundError):
                os.unlink(part)


def refuse_links(settings: Settings, *names: str) -> None:
    """Refuses names below the folder of results that are or lead through symbolic links, and that folder where it is one."""
    root = settings.results
    parts = root.split("/") if not os.path.isabs(root) else [root]
    for name in ["/".join(parts[: i + 1]) for i in range(len(parts))] + [os.path.join(root, it) for it in names]:
        if os.path.islink(name):
            raise HullError(f"{one_line(name)} is a symbolic link, and nothing is written through it")


def refuse_linked_day(day: Day) -> None:
    """Refuses a day whose folders of results are links."""
    refuse_links(day.settings, day.name, f"{day.name}/{HIDDEN}", f"{day.name}/log")


def make_folders(day: Day) -> None:
    """Makes the folders of a day's results."""
    refuse_linked_day(day)
    for name in (HIDDEN, "log"):
        os.makedirs(day.made(name), exist_ok=True)


@contextlib.contextmanager
def alone(name: str, tell: Callable[[str], None], most: float = MOST_SECONDS_OF_WAIT) -> Iterator[None]:
    """Waits until no other process is within the same name, and tells of it; HullError where one is for too long."""
    handle = os.open(name, os.O_CREAT | os.O_WRONLY | os.O_NOFOLLOW | os.O_NONBLOCK | os.O_CLOEXEC, 0o666)
    try:
        began = time.monotonic()
        due = 1.0
        while not is_taken(handle):
            waited = time.monotonic() - began
            if waited >= most:
                raise HullError(f"another process has held {one_line(name)} for {most:.0f} s: end it, or wait for it")
            if waited >= due:
                tell(f"it waits for another process, which holds {one_line(name)}")
                due += 10
            time.sleep(0.1)
        yield
    finally:
        os.close(handle)


def is_taken(handle: int) -> bool:
    """Whether this process has the lock now."""
    try:
        fcntl.flock(handle, fcntl.LOCK_EX | fcntl.LOCK_NB)
    except BlockingIOError:
        return False
    return True


def input_sums(day: Day, step: str) -> Dict[str, Optional[str]]:
    return {what: sum_of(day.path(what), is_input=True) for what in STEPS[step].takes}


def made_sums(day: Day, step: str) -> Dict[str, Optional[str]]:
    return {file: sum_of(day.made(file)) for file in STEPS[step].makes}


def record_name(day: Day, step: str, kind: str = "made") -> str:
    return day.made(f"{HIDDEN}/{step}.{kind}.json")


def read_record(name: str) -> Dict[str, Any]:
    """A record, or an empty one where there is none that can be read."""
    try:
        if os.path.islink(name) or not os.path.isfile(name):
            return {}
        with open(name, encoding="utf-8") as file:
            found = json.load(file)
    except (OSError, ValueError, RecursionError):
        return {}
    return found if isinstance(found, dict) else {}


def record_of(day: Day, step: str, kind: str = "made") -> Dict[str, Any]:
    """A step's record, or an empty one where there is none that a step can have written."""
    found = read_record(record_name(day, step, kind))
    return found if all(isinstance(found.get(key, {}), dict) for key in ("of", "made")) else {}


def write_record(name: str, record: Mapping[str, Any]) -> None:
    write_whole(name, (json.dumps(record, indent=1) + "\n").encode())


def is_option(word: str, name: str) -> bool:
    """Whether a word is an option of a tool: `--follow`, `--follow=F`, or with the option cut short."""
    option = word.partition("=")[0]
    return len(option) > 2 and name.startswith(option)


def values_of(words: List[str], name: str) -> Iterator[str]:
    """What words give for an option of a tool: `--follow F`, or `--follow=F`."""
    for word, after in zip(words, [*words[1:], ""]):
        if is_option(word, name):
            yield word.partition("=")[2] if "=" in word else after


def words_without(words: List[str], name: str) -> List[str]:
    """The words but for an option of a tool and its value."""
    pairs = zip(["", *words], words)
    return [it for before, it in pairs if not is_option(it, name) and ("=" in before or not is_option(before, name))]


def are_made_alike(step: str, words: object, others: List[str]) -> bool:
    """Whether a step makes the same by the words of a record as by others."""
    if not isinstance(words, list) or not all(isinstance(it, str) for it in words):
        return False
    name = LIMITS.get(step)
    return words == others or name is not None and words_without(words, name) == words_without(others, name)


def named_sums(day: Day, step: str) -> Dict[str, Optional[str]]:
    """Sums of the files that the step's words have it read; of a folder a sum of all in it."""
    names = values_of(day.settings.words_of(step), "--follow")
    return {name: sum_of(name, is_input=True) or sum_of_folder(name) for name in names}


def sum_of_folder(name: str) -> Optional[str]:
    if not os.path.isdir(name):
        return None
    try:
        files = [f"{file} {sum_of(os.path.join(name, file), is_input=True)}\n" for file in sorted(os.listdir(name))]
    except OSError:
        return None
    return hashlib.sha256("".join(files).encode("utf-8", "surrogateescape")).hexdigest()


def basis(day: Day, step: str) -> Dict[str, Any]:
    """What a step's result follows from: sums of its inputs, its words, and sums of the files that these have it read."""
    return {"of": input_sums(day, step), "words": day.settings.words_of(step), "named": named_sums(day, step)}


def why_not_current(day: Day, step: str) -> Optional[str]:
    """Why the files of a step aren't those that it makes of the files that lie there, or None where they are."""
    made = made_sums(day, step)
    if any(found is None for found in made.values()):
        return f"no {next(file for file, found in made.items() if found is None)}"
    record = record_of(day, step)
    for what, found in input_sums(day, step).items():
        if record.get("of", {}).get(what) != found or found is None:
            return f"{STEPS[step].makes[0]} was made of another {what}"
    if not are_made_alike(step, record.get("words"), day.settings.words_of(step)):
        return f"{STEPS[step].makes[0]} was made with other words"
    if record.get("named", {}) != named_sums(day, step):
        return f"{STEPS[step].makes[0]} was made of other files that its words name"
    if record.get("made") != made:
        return f"{next(file for file in made if made[file] != record.get('made', {}).get(file))} was changed afterwards"
    if step == "audit" and not is_marked(day):
        return "audit.txt isn't of an audit that you made"
    return None


def refuse_taken(day: Day, step: str) -> None:
    """Refuses a step that would write through a symbolic link, or replace a file without a record, which stays."""
    refuse_linked_day(day)
    # A step at work writes a record before its file, and takes a log away before the record.
    there = [file for file in (*STEPS[step].makes, log_of(step)) if os.path.lexists(day.made(file))]
    ours = list(record_of(day, step).get("made", {}))
    if record_of(day, step, "left").get("why") is not None or is_empty(day.made(log_of(step))):
        ours.append(log_of(step))
    for file in there:
        if file not in ours and os.path.lexists(day.made(file)):
            raise HullError(f"{one_line(day.made(file))} wasn't made by this workflow, so it stays: move it away")


def is_empty(name: str) -> bool:
    """Whether it is a plain file with nothing in it, as Snakemake once left where a step had no log."""
    return not os.path.islink(name) and os.path.isfile(name) and os.path.getsize(name) == 0


def log_of(step: str) -> str:
    return f"log/{step}.txt"


def drop(name: str) -> None:
    if os.path.lexists(name):
        os.unlink(name)


def drop_made(day: Day, step: str) -> None:
    """Takes away the files of a step that are as the step made them."""
    made = record_of(day, step).get("made", {})
    for file in STEPS[step].makes:
        if file in made and sum_of(day.made(file)) == made[file]:
            os.unlink(day.made(file))


def audit_mark(settings: Settings, sums: Mapping[str, Optional[str]]) -> str:
    """The name of the mark that an audit of files with these sums was right."""
    text = "".join(f"{what} {sums[what]}\n" for what in STEPS["audit"].takes)
    return os.path.join(settings.audits, hashlib.sha256(text.encode()).hexdigest())


def is_marked(day: Day) -> bool:
    """Whether `hull audit`, run by this user, found right the very files that lie there."""
    sums = input_sums(day, "audit")
    return all(sums.values()) and os.path.isfile(audit_mark(day.settings, sums))


def auditor(day: Day) -> str:
    """The program by which that audit was made, as the mark of it names it."""
    try:
        with open(audit_mark(day.settings, input_sums(day, "audit")), encoding="utf-8", errors="replace") as file:
            lines = file.read().splitlines()
    except OSError:
        return ""
    return next((line[len(PROGRAM) :] for line in lines if line.startswith(PROGRAM)), "")
