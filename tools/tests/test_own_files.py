"""Tools write and remove files of their own alone: what others made is refused or left, whatever lists and marks say."""
from __future__ import annotations

import contextlib
import fcntl
import hashlib
import json
import os
import re
import shutil
import signal
import subprocess
import sys
import unittest
from typing import Any, Callable, List, Optional
from unittest import mock

from test_holding import Room, read, write
from tool import EXAMPLES, PROGRAM, python_with, run

from hulltools import done_marks, errors, program, studies, study_folder
from hulltools.commands import settle_zones
from hulltools.commands import study as study_command
from hulltools.errors import HullError, NotOurs
from hulltools.study_folder import HEAD, LOCK, MARK, ROOM, SUMS, StudyFolder, write_in_folder
from hulltools.price_lists import LISTS
from hulltools.sweeping import WIDTH, Bar, joined, picture_of_sweep, scenarios_of, uplifts
from hulltools.tables import told_apart

CASE, SCHEDULE = f"{EXAMPLES}/usual/case.json", f"{EXAMPLES}/usual/schedule.json"
REPORT = f"{EXAMPLES}/usual/price.output"


def sum_of(text: str) -> str:
    return hashlib.sha256(text.encode()).hexdigest()


class InFolder(Room):
    """A folder with files of a study and of others."""

    def setUp(self) -> None:
        super().setUp()
        self.folder = f"{self.room}/folder"

    def study(self, unfinished: str = "", **files: str) -> None:
        with StudyFolder(self.folder) as folder:
            for name, text in files.items():
                write(f"{folder.room}/{name}", text)
            folder.place(unfinished)

    def made(self, **files: str) -> None:
        """Files that others made."""
        for name, text in files.items():
            os.makedirs(os.path.dirname(f"{self.folder}/{name}"), exist_ok=True)
            write(f"{self.folder}/{name}", text)

    def all(self) -> dict[str, str]:
        """What the folder holds, by name."""
        names = [os.path.join(at, it) for at, _, files in os.walk(self.folder) for it in files]
        return {os.path.relpath(name, self.folder): read(name) for name in names}

    def refused(self, why: str, work: Callable[[], object]) -> None:
        before = self.all()
        with self.assertRaisesRegex(HullError, why):
            work()
        self.assertEqual(self.all(), before)


class Studies(InFolder):
    def test_a_file_that_was_changed_stays(self) -> None:
        self.study(table="1")
        write(f"{self.folder}/table", "1, and mine")
        self.refused("table: it was changed since a study wrote it, so it stays", lambda: self.study(table="2"))

    def test_a_list_with_other_sums_makes_no_file_ours(self) -> None:
        rows = f"{'0' * 64}  table\n{sum_of('')}  empty\n"
        self.made(table="mine", empty="", **{SUMS: HEAD + rows})
        self.refused("table: it was changed", lambda: self.study(table="2"))
        self.study(other="2")
        self.assertEqual({**self.all(), SUMS: ""}, {"table": "mine", "empty": "", "other": "2", SUMS: ""})

    def test_a_list_of_another_tool_makes_no_file_ours(self) -> None:
        self.made(table="1", **{SUMS: f"# made by report.py of hull\n{sum_of('1')}  table\n"})
        self.refused("table: no study here made this", lambda: self.study(table="2"))

    def test_a_mark_that_no_study_made_stays(self) -> None:
        self.made(**{MARK: "mine"})
        self.refused(f"{MARK}: no study here made this", lambda: self.study(table="1"))
        os.remove(f"{self.folder}/{MARK}")
        self.study("Interrupted.", table="1")
        self.study(table="2")
        self.assertNotIn(MARK, self.all())
        self.study("Interrupted.", table="1")
        write(f"{self.folder}/{MARK}", "mine")
        self.refused(f"{MARK}: it was changed", lambda: self.study(table="2"))

    def test_folders_that_are_no_rooms_stay(self) -> None:
        """A folder of somebody else with such a name, and the copy of a room."""
        self.made(**{f"{ROOM}notes/a.txt": "mine"})
        with StudyFolder(self.folder) as folder:
            shutil.copytree(folder.room, f"{self.folder}/{ROOM}copy")
            write(f"{self.folder}/{ROOM}copy/b.txt", "mine")
        os.symlink(self.room, f"{self.folder}/{ROOM}link")
        self.study(table="1")
        names = sorted((SUMS, f"{ROOM}copy", f"{ROOM}link", f"{ROOM}notes", "table"))
        self.assertEqual(sorted(os.listdir(self.folder)), names)
        self.assertEqual(
            (read(f"{self.folder}/{ROOM}notes/a.txt"), read(f"{self.folder}/{ROOM}copy/b.txt")), ("mine",) * 2
        )

    def test_an_empty_folder_of_somebody_stays(self) -> None:
        os.makedirs(f"{self.folder}/{ROOM}mine")
        self.study(table="1")
        self.assertEqual(os.listdir(f"{self.folder}/{ROOM}mine"), [])

    def test_a_lock_with_something_in_it_is_no_lock(self) -> None:
        self.made(**{LOCK: "mine"})
        self.refused(f"{LOCK}: no run of hull made this", lambda: self.study(table="1"))
        write(f"{self.folder}/{LOCK}", "")  # (as a run that was killed leaves it)
        self.study(table="1")
        self.assertFalse(os.path.exists(f"{self.folder}/{LOCK}"))

    def test_a_room_of_a_killed_run_goes(self) -> None:
        with StudyFolder(self.folder) as folder:
            write(f"{folder.room}/half", "1")
            left = f"{folder.room}-left"
            os.rename(folder.room, left)
        self.assertEqual(os.listdir(self.folder), [os.path.basename(left)])
        self.study(table="1")
        self.assertFalse(os.path.exists(left))

    def test_who_reads_the_folder_keeps_no_study_from_it(self) -> None:
        os.mkdir(self.folder)
        handle = os.open(self.folder, os.O_RDONLY)
        self.addCleanup(os.close, handle)
        fcntl.flock(handle, fcntl.LOCK_EX)
        with mock.patch.object(study_folder, "WAIT", 0.0):
            self.study(table="1")
        with StudyFolder(self.folder) as folder, folder.locked():
            self.assertEqual(os.stat(f"{self.folder}/{LOCK}").st_mode & 0o777, 0o600)

    def test_what_was_made_is_kept_where_another_study_keeps_the_folder(self) -> None:
        with StudyFolder(self.folder) as other:
            with StudyFolder(self.folder) as folder, other.locked(), mock.patch.object(study_folder, "WAIT", 0.0):
                write(f"{folder.room}/table", "1")
                with self.assertRaisesRegex(HullError, f"kept this folder for 0 s; what was made is in {folder.room}"):
                    folder.place()
        self.study(other="1")
        self.assertEqual(read(f"{folder.room}/table"), "1")

    def test_what_was_made_is_kept_where_a_file_has_come_meanwhile(self) -> None:
        self.study(table="1")
        for change, due in (
            (
                lambda: write(f"{self.folder}/table", "mine"),
                "it was changed since a study wrote it, so it stays: move it",
            ),
            (lambda: write(f"{self.folder}/page", "mine"), "no study here made this, so it stays"),
            (lambda: os.mkdir(f"{self.folder}/page"), "page: Is a directory"),
        ):
            with StudyFolder(self.folder) as folder:
                folder.refuse(["table", "page"])
                for name in ("table", "page"):
                    write(f"{folder.room}/{name}", "2")
                change()
                with self.assertRaisesRegex(HullError, f"{due}.*; what was made is in {folder.room}$"):
                    folder.place()
            self.assertEqual([read(f"{folder.room}/{name}") for name in ("table", "page")], ["2", "2"])
            for name in ("table", "page"):
                if os.path.isfile(f"{self.folder}/{name}"):
                    os.unlink(f"{self.folder}/{name}")

    def test_what_was_made_is_kept_where_a_page_cannot_be_written(self) -> None:
        with StudyFolder(self.folder) as folder:
            folder.refuse(["table"])
            write(f"{folder.room}/table", "1")
            due = f"^page: No space left on device; what was made is in {folder.room}$"
            with self.assertRaisesRegex(HullError, due), folder.keeping():
                raise OSError(28, "No space left on device", "page")
        self.assertEqual(read(f"{folder.room}/table"), "1")
        with StudyFolder(self.folder) as folder:
            folder.refuse(["table"])
            write(f"{folder.room}/table", "1")
            with self.assertRaisesRegex(HullError, f"^no memory; what was made is in {folder.room}$"), folder.keeping():
                raise MemoryError
        self.assertEqual(read(f"{folder.room}/table"), "1")

    def test_a_file_that_the_next_study_reads_stays_its_own(self) -> None:
        """As a schedule that a study made, which is given to the next one to spare the search."""
        self.study(schedule="1", table="1")
        with StudyFolder(self.folder, [f"{self.folder}/schedule"]) as folder:
            write(f"{folder.room}/table", "2")
            folder.place()
        self.assertIn(("schedule", sum_of("1")), study_folder.sums_of(self.folder) or set())
        self.study(schedule="3", table="3")
        self.assertEqual((read(f"{self.folder}/schedule"), read(f"{self.folder}/table")), ("3", "3"))

    def test_a_lock_is_no_link(self) -> None:
        self.made(precious="1")
        os.symlink("precious", f"{self.folder}/{LOCK}")
        self.refused("Too many levels of symbolic links", lambda: self.study(table="1"))


class Scenarios(InFolder):
    """A folder in which what somebody has changed gets another name, as those of a sweep's scenarios."""

    def scenario(self, **files: str) -> List[str]:
        with StudyFolder(self.folder, (), "sweep.py", keeps_changed=True) as folder:
            for name, text in files.items():
                write(f"{folder.room}/{name}", text)
            folder.place("Interrupted.")
        return [os.path.basename(name) for name in folder.aside]

    def test_what_was_changed_is_kept_beside(self) -> None:
        self.assertEqual((self.scenario(a="1", b="1"), self.scenario(a="2", b="2")), ([], []))
        for text in ("mine", "mine too"):
            self.made(a=text, **{MARK: text})
            aside = self.scenario(a="3", b="3")
        self.assertEqual(aside, ["a.changed1", f"{MARK}.changed1"])
        found = self.all()
        names = ("a", "a.changed", "a.changed1", "b", f"{MARK}.changed", MARK)
        self.assertEqual([found[name] for name in names], ["3", "mine", "mine too", "3", "mine", "Interrupted.\n"])

    def test_what_no_sweep_made_is_refused(self) -> None:
        self.made(a="mine")
        self.refused("a: no sweep.py here made this", lambda: self.scenario(a="1"))


class Tables(InFolder):
    """What report.py and settle_zones.py write to a folder."""

    def report(self, *texts: str) -> tuple[int, str]:
        status, _, said = run("report.py", "csv", *texts, self.folder)
        return status, said

    def settle(self, **zones: object) -> tuple[int, str]:
        write(f"{self.room}/zones.json", json.dumps(zones))
        words = [CASE, SCHEDULE, f"{self.room}/zones.json", "--to", self.folder, "--hull", PROGRAM]
        status, _, said = run("settle_zones.py", *words)
        return status, said

    def test_tables_of_the_run_before_go(self) -> None:
        self.assertEqual(self.report(REPORT), (0, ""))
        self.made(notes="mine")
        self.assertEqual(self.report(f"{EXAMPLES}/two_units/bound.output"), (0, ""))
        self.assertEqual(sorted(self.all()), [SUMS, "notes", "runs.csv"])

    def test_settlements_of_the_run_before_go(self) -> None:
        prices = {"A": {"energy": [98]}, "B": {"energy": [50]}}
        self.assertEqual(self.settle(zones=prices, units={"G1": "A"}, default="B"), (0, ""))
        self.assertEqual(self.settle(zones={"C": {"energy": [98]}}, default="C"), (0, ""))
        self.assertEqual(sorted(self.all()), ["1.C.settlement.txt", SUMS, "units.csv"])

    def test_the_files_of_a_case_stay(self) -> None:
        shutil.copytree(f"{EXAMPLES}/csv", self.folder)
        os.chmod(self.folder, 0o755)  # (that of a release may be read-only)
        before = self.all()
        for status, said in (self.report(REPORT), self.settle(zones={"C": {"energy": [98]}}, default="C")):
            self.assertEqual((status, said.count("\n"), self.all()), (2, 1, before))
            self.assertIn("units.csv: no ", said)

    def test_settlements_are_refused_before_they_are_worked_out(self) -> None:
        zones = {"zones": {"C": {"energy": [98]}}, "default": "C"}
        self.assertEqual(self.settle(**zones), (0, ""))
        with open(f"{self.folder}/1.C.settlement.txt", "a", encoding="utf-8") as file:
            file.write("mine\n")
        with mock.patch.object(program.Hull, "settle", side_effect=AssertionError("it was asked to settle")):
            with self.assertRaisesRegex(NotOurs, "1.C.settlement.txt: it was changed since"):
                words = [CASE, SCHEDULE, f"{self.room}/zones.json", "--to", self.folder, "--hull", PROGRAM]
                settle_zones.body(words, lambda told: None)

    def test_zones_are_settled_by_the_case_that_was_read_first(self) -> None:
        case, hull, zones = (f"{self.room}/{name}" for name in ("case.json", "changing.sh", "zones.json"))
        shutil.copyfile(CASE, case)
        write(
            zones,
            json.dumps({"zones": {"A": {"energy": [98]}, "B": {"energy": [50]}}, "units": {"G1": "A"}, "default": "B"}),
        )
        write(hull, f'#!/bin/sh\n[ "$1" != settle ] || echo "{{" >{case}\nexec {PROGRAM} "$@"\n')
        os.chmod(hull, 0o755)
        due = run("settle_zones.py", CASE, SCHEDULE, zones, "--hull", PROGRAM)
        self.assertEqual((due[0], run("settle_zones.py", case, SCHEDULE, zones, "--hull", hull)), (0, due))
        self.assertEqual(read(case), "{\n")

    def test_settlements_that_cannot_be_placed_are_kept(self) -> None:
        self.made(**{"1.C.settlement.txt": "mine"})
        with self.assertRaisesRegex(NotOurs, "so it stays.*; what was made is in ") as found:
            write_in_folder(self.folder, {"1.C.settlement.txt": "1"}, [], "settle_zones.py", StudyFolder, keeps=True)
        place = str(found.exception).rsplit(" is in ", 1)[1]
        self.assertEqual(read(f"{place}/1.C.settlement.txt"), "1")

    def test_files_behind_links_stay(self) -> None:
        self.made(units="precious")
        os.symlink("units", f"{self.folder}/units.csv")
        status, said = self.settle(zones={"C": {"energy": [98]}}, default="C")
        self.assertEqual((status, "units.csv: no settle_zones.py here made this" in said), (2, True), said)
        self.assertTrue(os.path.islink(f"{self.folder}/units.csv"))
        os.unlink(f"{self.folder}/units.csv")
        os.symlink("units", f"{self.folder}/link")
        errors.write_together({f"{self.folder}/link": "1", f"{self.folder}/other": "1"})
        self.assertEqual((read(f"{self.folder}/units"), read(f"{self.folder}/link")), ("precious", "1"))


class Cases(InFolder):
    """What convert.py writes to a folder."""

    def convert(self, case: str = CASE, *words: str) -> tuple[int, str]:
        status, _, said = run("convert.py", case, self.folder, *words)
        return status, said

    def stays(self, why: str, case: str = CASE) -> None:
        """That the folder is refused, and nothing is written."""
        before, left = self.all(), f"{self.room}/left.json"
        status, said = self.convert(case, "--left-out", left)
        self.assertEqual((status, said.count("\n"), self.all(), os.path.exists(left)), (2, 1, before, False), said)
        self.assertIn(why, said)

    def test_files_of_others_stay(self) -> None:
        for name in ("units.csv", "bids.csv", SUMS, MARK):
            shutil.rmtree(self.folder, ignore_errors=True)
            self.made(**{name: "mine"})
            self.stays(f"folder/{name}: no convert.py here made this, so it stays")
        shutil.rmtree(self.folder)
        self.study(**{"units.csv": "1"})
        self.stays("folder/units.csv: no convert.py here made this, so it stays")

    def test_hand_edits_stay(self) -> None:
        evening = f"{EXAMPLES}/evening/case.json"
        self.assertEqual(self.convert(evening)[0], 0)
        self.made(**{"bids.csv": self.all()["bids.csv"] + "\n"})
        for case in (evening, CASE):
            self.stays("folder/bids.csv: it was changed since a run of convert.py wrote it, so it stays", case)

    def test_files_of_the_run_before_are_replaced(self) -> None:
        self.made(notes="mine")
        self.assertEqual(self.convert(f"{EXAMPLES}/evening/case.json")[0], 0)
        self.assertIn("bids.csv", self.all())
        self.assertEqual(self.convert()[0], 0)
        names = [SUMS, "hours.csv", "notes", "offers.csv", "renewables.csv", "starts.csv", "units.csv"]
        self.assertEqual(sorted(self.all()), names)


class Done(InFolder):
    """Marks of what is done."""

    WORK = {"tool": "sweep.py", "words": ["--gap", "0"], "inputs": {"prices.json": "1"}}

    def setUp(self) -> None:
        super().setUp()
        self.addCleanup(mock.patch.stopall)
        mock.patch.dict(os.environ, XDG_STATE_HOME=f"{self.room}/state").start()
        self.made(table="1")
        self.sums = {"table": sum_of("1")}
        self.made(done=done_marks.done_text(self.WORK, self.sums))

    def done(self, **changed: Any) -> dict[str, str]:
        return done_marks.files_done({**self.WORK, **changed}, self.folder, "done")

    def test_a_mark_holds_for_its_work_and_files(self) -> None:
        self.assertEqual(self.done(), self.sums)
        self.assertEqual(self.done(words=["--gap", "1"]), {})
        self.assertEqual(self.done(inputs={"prices.json": "2"}), {})
        self.made(table="2")
        self.assertEqual(self.done(), {})

    def test_a_mark_that_somebody_else_made_is_none(self) -> None:
        found = json.loads(read(f"{self.folder}/done"))
        self.made(table="2", done=json.dumps({**found, "files": {"table": sum_of("2")}}))
        self.assertEqual(self.done(), {})
        for text in ("", "[", "{}", '{"files": []}', '{"files": {}, "seal": 1}', "[" * 100_000, '{"files": {"é": 1}}'):
            self.made(done=text)
            self.assertEqual(self.done(), {}, text[:20])

    def test_a_key_that_others_can_read_is_none(self) -> None:
        self.assertEqual(os.stat(done_marks.key_file()).st_mode & 0o777, 0o600)
        self.assertEqual(len(done_marks.read_key(done_marks.key_file()) or b""), 32)
        os.chmod(done_marks.key_file(), 0o644)
        self.assertIsNone(done_marks.read_key(done_marks.key_file()))

    def test_without_a_home_no_mark_holds_in_a_later_run(self) -> None:
        with mock.patch.dict(os.environ, XDG_STATE_HOME=".", HOME="."):
            self.assertTrue(os.path.isabs(done_marks.state_folder()))
        with mock.patch.dict(os.environ, XDG_STATE_HOME="/dev/null"):
            self.made(done=done_marks.done_text(self.WORK, self.sums))
            self.assertEqual(self.done(), self.sums)
            done_marks.key_at.cache_clear()
            self.assertEqual(self.done(), {})


class Sweeps(InFolder):
    """What a sweep refuses before it studies anything: there is no program here."""

    def sweep(self, *words: str, case: str = CASE) -> str:
        python = python_with("scipy.optimize._milp")
        if not python:
            self.skipTest("no Python here has SciPy with milp")
        before = self.all()
        words = (case, self.folder, *words, "--hull", "/nowhere/hull")
        status, _, said = run("sweep.py", *words, python=python)
        self.assertEqual((status in (1, 2), said.count("\n"), self.all()), (True, 1, before), said)
        return said

    def test_files_of_others_stay(self) -> None:
        for name in ("sweep.csv", "base/case.json", "base/done.json", "demand_+1/lmp.prices.json"):
            shutil.rmtree(self.folder, ignore_errors=True)
            self.made(**{name: "mine"})
            self.assertIn(f"{name}: no sweep.py here made this, so it stays", self.sweep("--demand=+1%"))

    def test_links_are_not_followed(self) -> None:
        self.made(**{"elsewhere/notes": "mine"})
        os.symlink("elsewhere", f"{self.folder}/base")
        self.assertIn("base: this is a link, where a scenario's folder is due", self.sweep())
        os.remove(f"{self.folder}/base")
        os.mkdir(f"{self.folder}/base")
        os.symlink("../elsewhere/notes", f"{self.folder}/base/case.json")
        self.assertIn("base/case.json: no sweep.py here made this", self.sweep())

    def test_a_change_has_its_mark(self) -> None:
        for word, told in (("--demand=0.05", "0.05"), ("--wind=+1%,-10", "-10"), ("--offer=COAL=5", "5")):
            self.assertIn(f"sweep.py: {told!r} is no change in per cent, as +1% or -10%", self.sweep(word))

    def test_its_own_case_stays(self) -> None:
        self.made(**{"demand_+10/case.json": read(CASE)})
        said = self.sweep("--demand=+10%", case=f"{self.folder}/demand_+10/case.json")
        self.assertIn("demand_+10/case.json: this is a file to read, and it would be replaced", said)

    def test_each_scenario_has_a_folder_of_its_own(self) -> None:
        sum_of_it = hashlib.sha256(b"A B").hexdigest()[:12]
        outages = ["COAL", "A B", "A_B", f"A_B.{sum_of_it}", "x" * 300, "x" * 299, "é" * 100, "5", "5%", "."]
        found = scenarios_of(["+1%", "-1%,+1%"], [], ["A B=+1%", "A_B=+1%"], outages)
        keys = [scenario.key for scenario in found]
        self.assertEqual(keys[:3], ["base", "demand_-1", "demand_+1"])
        self.assertEqual((len(set(keys)), max(len(key.encode()) for key in keys) < 200), (15, True))
        self.assertIn("outage_COAL", keys)
        self.assertIn("offer_A_B_+1", keys)
        self.assertEqual(found[-2].name, "outage 5%")

    def test_names_that_a_spreadsheet_evaluates_are_marked(self) -> None:
        for name, marked in (("offer G1;=A1 +1%", "offer G1;'=A1 +1%"), ("offer G1 +1%", "offer G1 +1%")):
            text = joined({name: "list,gap_duality\nLMP,1\n"})
            self.assertEqual(text, f"scenario,list,gap_duality\r\n{marked},LMP,1\r\n")
            self.assertEqual(uplifts(text), [Bar(name, "LMP", 1.0)])
        self.assertEqual(uplifts("scenario,list,gap_duality\r\nbase,'-5,1\r\n"), [Bar("base", "-5", 1.0)])

    def test_each_list_of_the_picture_has_a_key_of_its_own_within_it(self) -> None:
        lists = [*(it.name for it in LISTS), "Posted by the market", "Posted a day later", "=A"]
        name = "offer Kraftwerk am Neckar, Block 9 +5%"
        rows = "".join(f'{scenario},"{told_apart(it)}",,1,2\n' for scenario in ("base", f'"{name}"') for it in lists)
        picture = picture_of_sweep(f"scenario,list,gap_schedule,gap_duality,gap_prices\n{rows}")
        keys = re.findall(r'<rect x="(\d+)" y="(\d+)" width="10" height="10" ([^/]*)/><text[^>]*>([^<]*)', picture)
        self.assertEqual([it[3] for it in keys], lists)
        self.assertEqual(len({it[2] for it in keys}), len(lists))
        self.assertEqual(len({it[:2] for it in keys}), len(lists))
        self.assertLess(max(int(x) + 14 + 7 * len(told) for x, _, _, told in keys), WIDTH)
        first_bar = min(map(float, re.findall(r'x="190" y="([^"]*)', picture)))
        self.assertLess(max(int(it[1]) for it in keys) + 10, first_bar)
        self.assertIn(f">offer Kraftwe… Block 9 +5%<title>{name}</title>", picture)
        self.assertIn("<title>Gap, by scenario and price list</title>", picture)
        known = picture_of_sweep("scenario,list,gap_schedule,gap_duality,gap_prices\nbase,LMP,0,1,2\n")
        self.assertIn("<title>Gap at the best schedule known, by scenario and price list</title>", known)


class Words(Room):
    """Words that are refused before any work."""

    def names(self, *names: str) -> str:
        with self.assertRaises(HullError) as found:
            studies.keys_of(names)
        return str(found.exception)

    def test_names_of_the_studys_own_lists_are_its_own(self) -> None:
        for name in ("LMP", "lmp ", "Convex hull (certified)", "CONVEX_HULL", "zonal", "Zonal  prices", "\uff2cMP", ""):
            self.assertIn("can't be the name of a list of prices: the study has one of that name", self.names(name))
        for names in (("A", "A"), ("A B", "A_B"), ("A", "a")):
            self.assertIn("two lists of --prices have one name", self.names(*names))
        self.assertEqual(studies.keys_of(["A", "A B", "LMP 2"]), ["A", "A_B", "LMP_2"])

    def test_lists_are_skipped_by_their_whole_names(self) -> None:
        self.assertEqual(studies.skipped(["LMP", "elmp", "A B"], ["A B"]), {"lmp", "elmp", "A_B"})
        for name in ("Lmp", "a b", "A"):
            self.assertRaisesRegex(HullError, "there is no such list", studies.skipped, [name], ["A B"])

    def test_limits_that_the_program_refuses(self) -> None:
        given = study_command.arguments([CASE, "x", "--rounds", "1000", "--within", "1e6"])
        self.assertEqual((given.rounds, given.within), (1000, 1e6))
        for words in (["--rounds", "1001"], ["--within", "1e300"], ["--within", "1000000.000001"]):
            status, _, said = run("study.py", CASE, f"{self.room}/x", *words)
            self.assertEqual((status, f"argument {words[0]}: {words[1]} is more than" in said), (2, True), said)
            status, _, said = run("convex_prices.py", CASE, SCHEDULE, "p.json", "m.json", *words)
            self.assertEqual((status, f"argument {words[0]}: {words[1]} is more than" in said), (2, True), said)

    def test_names_that_are_not_utf8(self) -> None:
        for words in (["c\udcff.json", "x"], [CASE, "x\udcff"], [CASE, "x", "--zones", "\udcff"]):
            with self.assertRaisesRegex(HullError, r"\?.*: this name isn't UTF-8"):
                study_command.arguments(words)

    def test_two_files_that_would_be_one(self) -> None:
        both, folder = (os.path.realpath(f"{self.room}/{name}") for name in ("both.json", "folder"))
        os.symlink("both.json", f"{self.room}/link")
        due = ": this is to be two of the files that are written\n"
        for words in ([both, "--left-out", both], [both, "--left-out", f"{self.room}/link"]):
            self.assertEqual(run("convert.py", CASE, *words), (1, "", f"convert.py: {os.path.realpath(words[2])}{due}"))
        for name in ("units.csv", SUMS):
            words = [folder, "--left-out", f"{folder}/{name}"]
            self.assertEqual(run("convert.py", CASE, *words), (1, "", f"convert.py: {words[2]}{due}"))
        python = python_with("scipy.optimize._milp")
        if python:
            words = [CASE, both, "--follow", SCHEDULE, "--deviations", both, "--hull", "/nowhere/hull"]
            self.assertEqual(run("make_schedule.py", *words, python=python), (1, "", f"make_schedule.py: {both}{due}"))
        self.assertEqual(os.listdir(self.room), ["link"])


class AtAFork:
    """Sends this process a signal each time it forks, while one is set."""

    number: Optional[int] = None

    @classmethod
    def send(cls) -> None:
        if cls.number is not None:
            os.kill(os.getpid(), cls.number)


os.register_at_fork(before=AtAFork.send)


class Interrupts(unittest.TestCase):
    def setUp(self) -> None:
        for number in errors.ENDS:
            self.addCleanup(signal.signal, number, signal.getsignal(number))
        self.addCleanup(setattr, errors.Found, "is_there", False)
        self.addCleanup(setattr, errors.Heard, "number", None)
        self.addCleanup(setattr, errors.Heard, "is_kept", False)
        self.addCleanup(setattr, AtAFork, "number", None)
        errors.hear_interrupts()

    def forked(self, number: int) -> None:
        """Begins a process while the signal comes: it is heard, and the process is ended."""
        made: List[subprocess.Popen[bytes]] = []
        popen = subprocess.Popen

        def kept(*words: Any, **more: Any) -> subprocess.Popen[bytes]:
            made.append(popen(*words, **more))
            return made[0]

        AtAFork.number = number
        with mock.patch.object(subprocess, "Popen", kept), self.assertRaises(KeyboardInterrupt):
            with errors.begun(["sleep", "600"], preexec_fn=os.getpid):
                self.fail("it went on")
        AtAFork.number = None
        self.assertEqual([process.returncode for process in made], [-signal.SIGKILL])

    def test_an_interrupt_at_a_fork_is_heard(self) -> None:
        for number in errors.ENDS:
            errors.hear_interrupts()
            self.forked(number)
            later = {signal.SIGHUP: errors.pass_over} if number == signal.SIGHUP else {}
            due = [later.get(it, signal.SIG_DFL) for it in errors.ENDS]
            self.assertEqual([signal.getsignal(it) for it in errors.ENDS], due)

    def test_an_interrupt_of_a_notebook_is_heard(self) -> None:
        signal.signal(signal.SIGINT, signal.default_int_handler)
        self.forked(signal.SIGINT)
        self.assertIs(signal.getsignal(signal.SIGINT), signal.default_int_handler)

    def test_one_that_a_library_swallows_is_heard(self) -> None:
        errors.Heard.is_kept = True
        with contextlib.suppress(KeyboardInterrupt):
            os.kill(os.getpid(), signal.SIGINT)
        with self.assertRaises(errors.Interrupted), errors.begun(["sleep", "600"]):
            self.fail("it went on")
        with self.assertRaises(errors.Interrupted) as caught:
            errors.raise_swallowed()
        errors.taken(caught.exception)
        errors.raise_swallowed()

    def test_handlers_are_as_before_where_no_process_can_be_made(self) -> None:
        with self.assertRaises(OSError), errors.begun(["/nowhere/program"]):
            pass
        self.assertEqual({signal.getsignal(it) for it in errors.ENDS}, {errors.interrupt})

    def test_a_second_one_is_let_go_where_something_was_found(self) -> None:
        errors.Found.is_there = True
        with self.assertRaises(errors.Interrupted):
            os.kill(os.getpid(), signal.SIGINT)
        with errors.heard_later():
            os.kill(os.getpid(), signal.SIGINT)
        self.assertIs(signal.getsignal(signal.SIGINT), signal.SIG_DFL)


if __name__ == "__main__":
    sys.dont_write_bytecode = True
    unittest.main()
