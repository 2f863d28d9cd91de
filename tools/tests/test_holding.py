"""Tools that hold: limits of time, what is said meanwhile, interrupts, and a study's folder."""
from __future__ import annotations

import contextlib
import hashlib
import io
import os
import shutil
import signal
import subprocess
import sys
import tempfile
import threading
import time
import unittest
from typing import Callable, Dict, Iterator, List, Tuple
from unittest import mock

from tool import EXAMPLES, PROGRAM, ROOT, python_with
from worked_apart import killed, refuse, slow, steps

from hulltools import apart, errors, linear, progress
from hulltools.errors import HullError
from hulltools.study_folder import HEAD, MARK, OWN, ROOM, SUMS, StudyFolder, text_of_room
from hulltools.telling import CLEAR, Teller

DEAR = f"{EXAMPLES}/dear_schedule"
GIVEN = [f"{DEAR}/case.json", "st", "--schedule", f"{DEAR}/schedule.json", "--no-schedule"]
STUCK = """#!/bin/sh
[ "$1" != {command} ] || {{ [ $# -lt 2 ] && [ "$1" != version ]; }} || {{ echo $$ > {room}/stuck; exec sleep 600; }}
exec {program} "$@"
"""


def read(name: str) -> str:
    with open(name, encoding="utf-8") as file:
        return file.read()


def write(name: str, text: str) -> None:
    with open(name, "w", encoding="utf-8") as file:
        file.write(text)


def is_alive(process: int) -> bool:
    """Whether a process runs; one that has ended and waits to be heard of doesn't."""
    try:
        return read(f"/proc/{process}/stat").rsplit(")", 1)[1].split()[0] != "Z"
    except OSError:
        return False


def wait_for(is_so: Callable[[], object], seconds: float = 120.0) -> None:
    until = time.monotonic() + seconds
    while not is_so():
        if time.monotonic() > until:
            raise AssertionError("it didn't come")
        time.sleep(0.05)


class Room(unittest.TestCase):
    def setUp(self) -> None:
        self.room = tempfile.mkdtemp(prefix="hull-holding-")
        self.addCleanup(shutil.rmtree, self.room, ignore_errors=True)


class Told(Room):
    """What is said of steps, by a clock of the tests."""

    def lines(self, shown: bool, steps_at: List[Tuple[float, str]], until: float) -> str:
        """What is said up to a time, looked at five times a second, where these steps begin at these times."""
        said, now = io.StringIO(), [1000.0]
        todo = [(1000.0 + at, what) for at, what in steps_at]
        with contextlib.redirect_stderr(said), mock.patch("time.monotonic", lambda: now[0]), mock.patch.object(
            Teller, "is_at_terminal", shown
        ):
            told = progress.Progress(Teller("tool.py"))
            while now[0] < 1000.0 + until:
                if todo and todo[0][0] <= now[0]:
                    told.begin(todo.pop(0)[1])
                told.look(now[0])
                now[0] += 0.2
        return said.getvalue()

    def test_a_log_has_a_line_within_two_seconds_and_one_each_ten(self) -> None:
        due = [f"tool.py: solving: {it} s" for it in (2, 12, 22, 32)]
        self.assertEqual(self.lines(False, [(0.0, "solving")], 35.0).splitlines(), due)

    def test_a_step_that_is_soon_done_says_nothing(self) -> None:
        self.assertEqual(self.lines(False, [(0.0, "solving")], 1.4), "")

    def test_a_step_within_another_is_told_with_it(self) -> None:
        said = self.lines(False, [(0.0, "LMP"), (5.0, "hull settle")], 8.0)
        self.assertEqual(said.splitlines(), ["tool.py: LMP: 2 s", "tool.py: LMP: hull settle: 2 s"])

    def test_each_thread_tells_its_own_steps(self) -> None:
        """Two calls at one time, each with a `tell` of its own."""
        both = threading.Barrier(2)
        said: Dict[str, List[object]] = {"one": [], "other": []}

        def work(what: str) -> None:
            with progress.told_to(said[what].append), progress.step(what):
                both.wait(30)
                if progress.NOW.progress:
                    progress.NOW.progress.look(progress.NOW.progress.steps[-1].began + 2)
                both.wait(30)

        with mock.patch.dict(os.environ, HULL_PROGRESS="1"):
            threads = [threading.Thread(target=work, args=(what,)) for what in said]
            for thread in threads:
                thread.start()
            for thread in threads:
                thread.join()
        self.assertEqual(said, {what: [f"{what}: 2 s"] for what in said})

    def test_without_room_for_a_thread_nothing_is_told(self) -> None:
        why = RuntimeError("can't start new thread")
        with mock.patch.dict(os.environ, HULL_PROGRESS="1"), mock.patch.object(
            threading.Thread, "start", side_effect=why
        ):
            with progress.told_by(Teller("tool.py")), progress.step("waiting"):
                self.assertIsNone(progress.NOW.progress)

    def test_without_room_for_scipy_that_is_told(self) -> None:
        for why in (MemoryError(), ImportError("x.so: failed to map segment from shared object")):
            with mock.patch.multiple(linear, milp=None, WHY_MISSING=why):
                self.assertRaisesRegex(HullError, "no memory to load SciPy", linear.need_scipy)
        with mock.patch.multiple(linear, milp=None, WHY_MISSING=ImportError("No module named 'scipy'")):
            self.assertRaisesRegex(HullError, "this needs SciPy", linear.need_scipy)

    def test_a_terminal_has_one_line_that_is_written_anew(self) -> None:
        said = self.lines(True, [(0.0, "solving")], 4.3)
        self.assertEqual([it for it in said.split(CLEAR) if it], [f"tool.py: solving: {it} s" for it in (2, 3, 4)])
        self.assertNotIn("\n", said)

    def test_what_a_terminal_showed_is_gone_before_a_line(self) -> None:
        said = io.StringIO()
        with contextlib.redirect_stderr(said):
            tell = Teller("tool.py")
            tell.show("solving\x1b[31m")
            tell("done")
            tell.hide()
        self.assertEqual(said.getvalue(), f"{CLEAR}tool.py: solving?[31m{CLEAR}tool.py: done\n")


class Apart(unittest.TestCase):
    """Work in a process of its own."""

    def test_what_it_finds_comes_back(self) -> None:
        self.assertEqual(apart.run_apart(slow, (0.0,), "waiting", 60), "done")

    def test_a_relative_place_of_modules_is_that_of_the_beginning(self) -> None:
        """A script that adds `tools` to sys.path, and then goes to another folder."""
        script = (
            "import os, sys; sys.path.insert(0, 'tools'); from hulltools import apart; os.chdir('/')\n"
            "print(apart.run_apart(os.path.basename, ('a/b',), 'waiting', 60))"
        )
        ran = subprocess.run(
            [sys.executable, "-B", "-c", script], cwd=ROOT, capture_output=True, text=True, timeout=300
        )
        self.assertEqual((ran.returncode, ran.stdout), (0, "b\n"), ran.stderr)

    def test_a_limit_holds(self) -> None:
        began = time.monotonic()
        with mock.patch.object(apart, "GRACE", 0.0), self.assertRaisesRegex(
            apart.OverTime, r"the outer limit of 0\.5 s is over: waiting"
        ):
            apart.run_apart(slow, (600.0,), "waiting", 0.5)
        self.assertLess(time.monotonic() - began, 120)

    def test_the_step_that_it_was_at_is_told(self) -> None:
        with mock.patch.object(apart, "GRACE", 1.0), self.assertRaisesRegex(apart.OverTime, "over: the second step"):
            apart.run_apart(steps, (), "the first step", 1)

    def test_refusals_come_back_with_their_parts(self) -> None:
        with self.assertRaisesRegex(HullError, "refused by the work") as caught:
            apart.run_apart(refuse, (), "refusing")
        self.assertEqual(caught.exception.unit, "COAL")

    def test_a_process_that_is_killed_is_told(self) -> None:
        with self.assertRaisesRegex(HullError, "working: its process was ended by signal 9"):
            apart.run_apart(killed, (), "working")


class Interrupts(unittest.TestCase):
    def setUp(self) -> None:
        for number in errors.ENDS:
            self.addCleanup(signal.signal, number, signal.getsignal(number))
        errors.hear_interrupts()

    def test_one_is_heard_behind_what_would_be_lost(self) -> None:
        done = []
        with self.assertRaises(errors.Interrupted) as caught, errors.heard_later():
            os.kill(os.getpid(), signal.SIGTERM)
            done.append(signal.getsignal(signal.SIGTERM))
        self.assertEqual((done, caught.exception.status), ([signal.SIG_DFL], 143))

    def test_a_terminal_that_is_closed_is_told_of_twice(self) -> None:
        with self.assertRaises(errors.Interrupted) as caught, errors.heard_later():
            for _ in range(2):
                os.kill(os.getpid(), signal.SIGHUP)
        self.assertEqual(caught.exception.status, 129)

    def test_nohup_keeps_its_signal_from_a_tool(self) -> None:
        signal.signal(signal.SIGHUP, signal.SIG_IGN)
        errors.hear_interrupts()
        self.assertIs(signal.getsignal(signal.SIGHUP), signal.SIG_IGN)

    def test_without_one_all_is_as_before(self) -> None:
        with errors.heard_later():
            pass
        with self.assertRaises(errors.Interrupted):
            os.kill(os.getpid(), signal.SIGINT)
            time.sleep(60)


class Folder(Room):
    """A study's folder, without a study."""

    def setUp(self) -> None:
        super().setUp()
        self.folder = f"{self.room}/a folder\n$(x)"

    def study(self, unfinished: str = "", **files: str) -> None:
        with StudyFolder(self.folder, [f"{self.folder}/input.json"]) as folder:
            for name, text in files.items():
                write(f"{folder.room}/{name}", text)
            folder.place(unfinished)

    def names(self) -> List[str]:
        return sorted(os.listdir(self.folder))

    def test_files_of_the_study_before_go_and_others_stay(self) -> None:
        self.study(table="1", old="1", changed="1")
        write(f"{self.folder}/changed", "by the user")
        write(f"{self.folder}/mine", "1")
        self.study(table="2", new="2")
        self.assertEqual(self.names(), sorted(["changed", SUMS, "mine", "new", "table"]))
        self.assertEqual(read(f"{self.folder}/table"), "2")
        rows = [f"{hashlib.sha256(b'2').hexdigest()}  {name}\n" for name in ("new", "table")]
        self.assertEqual(read(f"{self.folder}/{SUMS}"), HEAD + "".join(rows))

    def test_files_that_no_study_made_stay(self) -> None:
        os.mkdir(self.folder)
        files = {"schedule.json": "mine", "thesis.txt": "1"}
        total = hashlib.sha256(b"1").hexdigest()
        files[SUMS] = f"{total}  thesis.txt\n"
        for name, text in files.items():
            write(f"{self.folder}/{name}", text)
        with self.assertRaisesRegex(HullError, "schedule.json: no study here made this, so it stays"):
            self.study(**{"schedule.json": "2"})
        with self.assertRaisesRegex(HullError, f"{SUMS}: no study here made this, so it stays"):
            self.study(table="2")
        self.assertEqual({name: read(f"{self.folder}/{name}") for name in self.names()}, files)

    def test_a_file_that_is_read_stays(self) -> None:
        self.study(**{"schedule": "1"})
        os.rename(f"{self.folder}/schedule", f"{self.folder}/input.json")
        write(f"{self.folder}/{SUMS}", read(f"{self.folder}/{SUMS}").replace("schedule", "input.json"))
        self.study(table="2")
        self.assertEqual(read(f"{self.folder}/input.json"), "1")
        with self.assertRaisesRegex(HullError, "this is a file to read"):
            self.study(**{"input.json": "2"})

    def test_a_note_of_somebody_else_reaches_nothing_outside(self) -> None:
        os.mkdir(self.folder)
        write(f"{self.room}/precious", "1")
        os.symlink(f"{self.room}/precious", f"{self.folder}/link")
        os.symlink(f"{self.room}/precious", f"{self.folder}/table")
        total = hashlib.sha256(b"1").hexdigest()
        rows = (f"{total}  {it}\n" for it in ("../precious", "link", "table", ".."))
        write(f"{self.folder}/{SUMS}", f"{HEAD}{''.join(rows)}nonsense\n")
        self.study(table="2")
        self.assertEqual(read(f"{self.room}/precious"), "1")
        self.assertTrue(os.path.islink(f"{self.folder}/link"))
        self.assertFalse(os.path.islink(f"{self.folder}/table"))

    def test_an_error_leaves_the_old_study(self) -> None:
        self.study(table="1")
        before = self.names()
        with self.assertRaises(HullError), StudyFolder(self.folder) as folder:
            write(f"{folder.room}/table", "2")
            raise HullError("refused")
        self.assertEqual((self.names(), read(f"{self.folder}/table")), (before, "1"))

    def test_a_folder_that_got_nothing_is_gone(self) -> None:
        with self.assertRaises(HullError), StudyFolder(self.folder):
            raise HullError("refused")
        self.assertFalse(os.path.exists(self.folder))

    def test_a_kill_while_files_are_placed_leaves_the_mark(self) -> None:
        self.study(a="1", b="1")
        move = StudyFolder.move

        def stop(folder: StudyFolder, name: str, to: str = "") -> None:
            if name == "b":
                raise KeyboardInterrupt
            move(folder, name, to)

        with mock.patch.object(StudyFolder, "move", stop), self.assertRaises(KeyboardInterrupt):
            self.study(a="2", b="2")
        self.assertIn("a study that didn't end", read(f"{self.folder}/{MARK}"))
        self.study(a="3")
        self.assertNotIn(MARK, self.names())

    def test_files_of_a_study_that_was_killed_go_with_the_next(self) -> None:
        self.study(a="1", old="1")
        move = StudyFolder.move

        def stop(folder: StudyFolder, name: str, to: str = "") -> None:
            if name == "c":
                raise KeyboardInterrupt
            move(folder, name, to)

        with mock.patch.object(StudyFolder, "move", stop), self.assertRaises(KeyboardInterrupt):
            self.study(a="2", b="2", c="2")
        self.assertEqual(self.names(), sorted([MARK, SUMS, "a", "b"]))
        self.study(new="3")
        self.assertEqual(self.names(), [SUMS, "new"])

    def test_what_is_missing_is_said(self) -> None:
        self.study("Interrupted.", a="1")
        self.assertEqual(read(f"{self.folder}/{MARK}"), "Interrupted.\n")

    def test_rooms_of_killed_runs_go_and_those_of_others_stay(self) -> None:
        for name in ("killed", "mine"):
            os.makedirs(f"{self.folder}/{ROOM}{name}")
        write(f"{self.folder}/{ROOM}killed/{OWN}", text_of_room(f"{self.folder}/{ROOM}killed").decode())
        with StudyFolder(self.folder) as one, StudyFolder(self.folder) as two:
            rooms = map(os.path.basename, (one.room, two.room))
            self.assertEqual(self.names(), sorted([f"{ROOM}mine", *rooms]))
            write(f"{one.room}/only one", "1")
            write(f"{two.room}/only two", "2")
            one.place()
            two.place()
        self.assertEqual(self.names(), [f"{ROOM}mine", SUMS, "only two"])

    def test_names_that_can_not_be_written_are_refused_first(self) -> None:
        with StudyFolder(self.folder) as folder:
            folder.refuse(["table"])
            with self.assertRaisesRegex(HullError, "File name too long"):
                folder.refuse(["x" * 300])
            os.mkdir(f"{self.folder}/{SUMS}")
            with self.assertRaisesRegex(HullError, f"{SUMS}: Is a directory"):
                folder.refuse(["table"])

    def test_a_folder_that_another_study_keeps_is_refused(self) -> None:
        with StudyFolder(self.folder) as one, one.locked(), mock.patch("hulltools.study_folder.WAIT", 0.1):
            with self.assertRaisesRegex(HullError, "another study kept this folder"):
                self.study(a="1")


class Studies(Room):
    """Studies of examples/dear_schedule that are ended."""

    def setUp(self) -> None:
        super().setUp()
        found = python_with("scipy.optimize._milp")
        if not found:
            self.skipTest("no Python here has SciPy with milp")
        self.python: str = found

    def program(self, command: str) -> str:
        """The program, which is stuck in one of its commands."""
        name = f"{self.room}/stuck.sh"
        write(name, STUCK.format(command=command, room=self.room, program=PROGRAM))
        os.chmod(name, 0o755)
        return name

    @contextlib.contextmanager
    def begun(self, *words: str, tool: str = "study.py", **more: str) -> Iterator["subprocess.Popen[str]"]:
        line = [self.python, "-B", f"{ROOT}/tools/{tool}", *words]
        env = {**os.environ, **more}
        with subprocess.Popen(line, cwd=self.room, env=env, stderr=subprocess.PIPE, text=True) as ran:
            try:
                yield ran
            finally:
                ran.kill()

    def run_study(self, *words: str, hull: str = PROGRAM, status: int = 0) -> str:
        with self.begun(*GIVEN, "--hull", hull, *words) as ran:
            said = ran.communicate(timeout=300)[1]
        self.assertEqual(ran.returncode, status, said)
        return said

    def stuck(self) -> int:
        """The process that is stuck."""
        name = f"{self.room}/stuck"
        wait_for(lambda: os.path.exists(name) and read(name).strip())
        return int(read(name))

    def names(self) -> List[str]:
        return sorted(os.listdir(f"{self.room}/st"))

    def test_interrupts_leave_the_lists_that_are_there(self) -> None:
        for number in errors.ENDS:
            with self.begun(*GIVEN, "--hull", self.program("convex")) as ran:
                process = self.stuck()
                ran.send_signal(number)
                said = ran.communicate(timeout=300)[1]
            self.assertEqual(ran.returncode, 128 + number, said)
            due = "Interrupted before these lists were made: Convex hull (certified)."
            self.assertEqual(read(f"{self.room}/st/{MARK}"), f"{due}\n")
            self.assertIn(due, read(f"{self.room}/st/study.html"))
            rows = read(f"{self.room}/st/table.csv").splitlines()
            self.assertEqual([it.split(",")[0] for it in rows], ["list", "LMP", "ELMP", "Integer relaxation"])
            self.assertIn("lmp.settlement.txt", self.names())
            self.assertNotIn("convex_hull.prices.json", self.names())
            self.assertFalse(is_alive(process))
            os.remove(f"{self.room}/stuck")
        # (LMP's gap is 1,200.00, worked out in the example's README, and no bound parts it)
        self.assertIn("the gap is 1,200.00: no bound on the dual value says how much of the gap", said)

    def test_what_a_search_found_stays_where_its_certificate_is_interrupted(self) -> None:
        with self.begun(*GIVEN, "--skip", "elmp,relaxation", "--hull", self.program("certify")) as ran:
            self.stuck()
            ran.send_signal(signal.SIGINT)
            said = ran.communicate(timeout=300)[1]
        self.assertEqual(ran.returncode, 128 + signal.SIGINT, said)
        found = {"convex.txt", "mixture.json", "certificate.txt", "convex_hull.prices.json"} & set(self.names())
        self.assertEqual(found, {"convex.txt", "mixture.json"})

    def test_an_interrupt_before_the_first_list_leaves_the_old_folder(self) -> None:
        self.run_study("--skip", "elmp,relaxation")
        before = {name: read(f"{self.room}/st/{name}") for name in self.names()}
        with self.begun(*GIVEN, "--hull", self.program("settle")) as ran:
            self.stuck()
            ran.send_signal(signal.SIGINT)
            ran.communicate(timeout=300)
        self.assertEqual(ran.returncode, -signal.SIGINT)
        self.assertEqual({name: read(f"{self.room}/st/{name}") for name in self.names()}, before)

    def kept_room(self, said: str) -> List[str]:
        """What is in the folder that a line names, in which the study left what it had made; a case and its schedule fit."""
        room = said.rsplit("what was made is in ", 1)[1].splitlines()[0]
        self.assertTrue(room.startswith(f"{self.room}/st/{ROOM}"), said)
        self.assertEqual(self.names(), [os.path.basename(room)])
        words = [PROGRAM, "check", "--case", f"{DEAR}/case.json", "--schedule", f"{room}/schedule.json"]
        self.assertEqual(subprocess.run(words, stdout=subprocess.DEVNULL, check=False).returncode, 0)
        return os.listdir(room)

    def test_a_schedule_that_was_made_stays_where_no_list_can_be_made(self) -> None:
        hull = f"{self.room}/failing.sh"
        write(hull, f'#!/bin/sh\n[ "$1" != settle ] || [ $# -lt 2 ] || exit 9\nexec {PROGRAM} "$@"\n')
        os.chmod(hull, 0o755)
        with self.begun(*GIVEN[:2], "--skip", "elmp,relaxation,convex_hull", "--hull", hull) as ran:
            said = ran.communicate(timeout=300)[1]
        self.assertEqual(ran.returncode, 1, said)
        self.assertIn("study.py: hull settle ended with status 9; what was made is in ", said)
        self.assertEqual(self.kept_room(said), ["schedule.json"])

    def test_a_schedule_that_was_made_stays_behind_an_interrupt(self) -> None:
        for command in ("settle", "version"):
            with self.begun(*GIVEN[:2], "--hull", self.program(command)) as ran:
                self.stuck()
                ran.send_signal(signal.SIGTERM)
                said = ran.communicate(timeout=300)[1]
            self.assertEqual(ran.returncode, -signal.SIGTERM, said)
            self.assertEqual(self.kept_room(said), ["schedule.json"])
            shutil.rmtree(f"{self.room}/st")
            os.remove(f"{self.room}/stuck")

    def test_a_kill_leaves_the_old_folder_and_no_process(self) -> None:
        self.run_study("--skip", "elmp,relaxation")
        before = self.names()
        with self.begun(*GIVEN, "--hull", self.program("convex")) as ran:
            process = self.stuck()
            ran.kill()
            ran.communicate(timeout=300)
        wait_for(lambda: not is_alive(process))
        self.assertEqual([it for it in self.names() if not it.startswith(ROOM)], before)
        self.run_study("--skip", "elmp,relaxation")
        self.assertEqual(self.names(), before)

    def test_a_case_that_is_changed_meanwhile_is_refused(self) -> None:
        shutil.copyfile(f"{DEAR}/case.json", f"{self.room}/case.json")
        hull = f"{self.room}/changing.sh"
        write(hull, f'#!/bin/sh\n[ "$1" != settle ] || echo >>{self.room}/case.json\nexec {PROGRAM} "$@"\n')
        os.chmod(hull, 0o755)
        with self.begun("case.json", *GIVEN[1:], "--skip", "elmp,relaxation,convex_hull", "--hull", hull) as ran:
            said = ran.communicate(timeout=300)[1]
        self.assertEqual(ran.returncode, 1, said)
        self.assertIn("study.py: case.json was changed meanwhile", said)
        self.assertFalse(os.path.exists(f"{self.room}/st"))

    def test_a_case_that_is_another_one_for_a_while(self) -> None:
        """All of a study is of the case that was read first, since the program reads a copy."""
        case, hull = f"{self.room}/case.json", f"{self.room}/changing.sh"
        shutil.copyfile(f"{DEAR}/case.json", case)
        change = f'[ "$1" != settle ] || echo "{{" >{case}'
        write(hull, f'#!/bin/sh\n{change}\n{PROGRAM} "$@"; s=$?\ncp {DEAR}/case.json {case}\nexit $s\n')
        os.chmod(hull, 0o755)
        with self.begun("case.json", *GIVEN[1:], "--skip", "elmp,relaxation,convex_hull", "--hull", hull) as ran:
            said = ran.communicate(timeout=300)[1]
        self.assertEqual(ran.returncode, 0, said)
        self.assertIn("LMP: gap 1,200.00", said)
        self.assertIn(">case.json<", read(f"{self.room}/st/study.html"))

    def test_prices_that_are_changed_meanwhile_are_those_that_were_read(self) -> None:
        hull, prices = f"{self.room}/changing.sh", f"{self.room}/posted.json"
        write(prices, '{"energy": [30]}')
        write(hull, f'#!/bin/sh\n[ "$1" != settle ] || echo "{{" >{prices}\nexec {PROGRAM} "$@"\n')
        os.chmod(hull, 0o755)
        self.run_study("--prices", "posted=posted.json", "--skip", "elmp,relaxation,convex_hull", hull=hull)
        self.assertEqual(read(f"{self.room}/st/posted.prices.json"), '{"energy": [30], "reserve": [0]}\n')

    def test_prices_of_a_case_that_is_changed_meanwhile_are_refused(self) -> None:
        hull = f"{self.room}/changing.sh"
        write(hull, f'#!/bin/sh\n{PROGRAM} "$@"; s=$?; echo >>{self.room}/case.json; exit $s\n')
        os.chmod(hull, 0o755)
        for tool in ("lmp.py", "elmp.py"):
            shutil.copyfile(f"{DEAR}/case.json", f"{self.room}/case.json")
            words = ["case.json", f"{DEAR}/schedule.json", "prices.json", "--hull", hull]
            with self.begun(*words, tool=tool) as ran:
                said = ran.communicate(timeout=300)[1]
            due = "case.json was changed meanwhile, so check and prices are of more than one file: nothing is written"
            self.assertEqual(said.splitlines()[-1], f"{tool}: {due}")
            self.assertEqual((ran.returncode, os.path.exists(f"{self.room}/prices.json")), (1, False))

    def test_pipes_are_read_once(self) -> None:
        pipes = f"<(cat {DEAR}/case.json) <(cat {DEAR}/schedule.json)"
        study = f"{pipes.replace(' <', ' st --schedule <', 1)} --no-schedule --skip elmp,relaxation,convex_hull"
        for tool, words in (("lmp.py", f"{pipes} prices.json"), ("study.py", study)):
            line = f"{self.python} -B {ROOT}/tools/{tool} {words} --hull {PROGRAM}"
            ran = subprocess.run(["bash", "-c", line], cwd=self.room, capture_output=True, text=True, check=False)
            self.assertEqual(ran.returncode, 0, ran.stderr)
        self.assertIn("LMP: gap 1,200.00", ran.stderr)
        self.assertEqual(read(f"{self.room}/prices.json"), read(f"{self.room}/st/lmp.prices.json"))

    def test_a_list_that_takes_too_long_is_left_out(self) -> None:
        said = self.run_study("--seconds", "20", hull=self.program("convex"), status=3)
        due = "Convex hull (certified) is left out: the outer limit of 20 s is over: hull convex."
        self.assertIn(due, said)
        self.assertIn(due, read(f"{self.room}/st/study.html"))
        self.assertNotIn(MARK, self.names())
        row = dict(zip(*(it.split(",") for it in read(f"{self.room}/st/table.csv").splitlines()[:2])))
        self.assertEqual((row["gap_currency"], row["gap_duality_currency"]), ("1200", ""))

    def test_lists_are_skipped_by_key_and_by_name(self) -> None:
        self.run_study("--skip", "LMP,Convex hull (certified)", "--skip", "elmp", "--skip", "Subgradient 1,000")
        self.assertEqual([it for it in self.names() if it.endswith(".prices.json")], ["relaxation.prices.json"])
        self.assertIn("Left out by --skip: LMP, ELMP, Convex hull (certified).", read(f"{self.room}/st/study.html"))

    def test_names_of_lists_that_are_none_are_refused(self) -> None:
        said = self.run_study("--skip", "lmp,LPM", status=1)
        self.assertEqual(said.count("there is no such list"), 1)
        self.assertIn("--skip LPM: there is no such list: these are convex_hull, lmp, elmp, relaxation,", said)

    def test_without_a_list_a_study_is_refused_before_a_schedule_is_made(self) -> None:
        three, due = "lmp,relaxation,convex_hull", "there is no list of prices: --skip leaves out all"
        said = self.run_study("--skip", f"{three},elmp", status=1)
        self.assertEqual(said.splitlines()[-1], f"study.py: {due}")
        said = self.run_study("--skip", three, "--fast-start", "", status=1)
        self.assertEqual(said.splitlines()[-1], f"study.py: {due} but ELMP, for which no unit is fast-start")
        self.assertFalse(os.path.exists(f"{self.room}/st"))
        self.run_study("--skip", f"{three},elmp", "--search")

    def test_a_step_that_takes_long_is_told(self) -> None:
        with self.begun(*GIVEN, "--hull", self.program("convex"), HULL_PROGRESS="1") as ran:
            self.stuck()
            time.sleep(4)
            ran.send_signal(signal.SIGINT)
            said = ran.communicate(timeout=300)[1]
        self.assertIn("study.py: Convex hull (certified): hull convex: ", said)

    def test_case_that_would_be_replaced_is_refused_first(self) -> None:
        os.mkdir(f"{self.room}/st")
        shutil.copy(f"{DEAR}/case.json", f"{self.room}/st/mixture.json")
        with self.begun("st/mixture.json", *GIVEN[1:], "--hull", PROGRAM) as ran:
            said = ran.communicate(timeout=300)[1]
        self.assertEqual(ran.returncode, 1)
        self.assertIn("this is a file to read, and it would be replaced", said)
        self.assertNotIn("gap", said)

    def test_a_solver_is_ended_with_its_tool(self) -> None:
        """A kill of make_schedule.py leaves no Python that searches on."""
        words = [f"{EXAMPLES}/day/case.json", "schedule.json", "--gap", "0", "--hull", PROGRAM]
        with self.begun(*words, tool="make_schedule.py") as ran:
            children = f"/proc/{ran.pid}/task/{ran.pid}/children"
            wait_for(lambda: "searching" in (ran.stderr.readline() if ran.stderr else "searching"))
            wait_for(lambda: read(children).split())
            process = int(read(children).split()[-1])
            ran.kill()
            ran.communicate(timeout=300)
        wait_for(lambda: not is_alive(process))
        self.assertEqual(os.listdir(self.room), [])


if __name__ == "__main__":
    sys.dont_write_bytecode = True
    unittest.main()
