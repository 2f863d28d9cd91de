"""workflow/ touches its own files alone, believes nothing that others write, and reads words as they are meant."""
import contextlib
import hashlib
import importlib
import json
import os
import re
import shutil
import signal
import subprocess
import sys
import tempfile
import time
import unittest
import unittest.mock
from datetime import date
from types import SimpleNamespace
from typing import Any, Dict, Iterator, List, Tuple

from built import ROOT
from test_workflow import PROFILES, RIGHT, SNAKEMAKE, Workflow, read, write

SCRIPTS = f"{ROOT}/workflow/scripts"
# The program, which has the settings of the run name another one when it is first called.
SWAPPING = """#!/usr/bin/env bash
sed -i 's|"program": "[^"]*"|"program": "'"$OTHER"'"|' results/.steps/settings.json
echo "$1 $3" >> "$CALLS"
exec "$PROGRAM" "$@"
"""
OTHER = """#!/bin/sh
echo "$*" >> "$CALLS.other"
printf 'hull-audit 1\\nproposals 1\\nright\\n'
"""
# Slurm, on this machine: the job runs by itself, and is asked for by its process.
SLURM = {
    "sbatch": """#!/usr/bin/env bash
for word; do case $word in --export=ALL,*) export "${word#--export=ALL,}" ;; esac; done
setsid "$word" > "$CALLS.job" 2>&1 < /dev/null &
echo $!
""",
    "scontrol": """#!/usr/bin/env bash
[ "$2 $3" = "show job" ] || exit 0
if kill -0 "$4" 2> /dev/null; then echo "JobState=RUNNING"; else echo "JobState=COMPLETED"; fi
""",
}


def write_program(name: str, text: str) -> None:
    write(name, text)
    os.chmod(name, 0o755)


def is_alive(process: int) -> bool:
    """Whether a process runs; one that has ended and waits to be heard of doesn't."""
    try:
        return read(f"/proc/{process}/stat").rsplit(b")", 1)[1].split()[0] != b"Z"
    except OSError:
        return False


def looks_of(folder: str) -> Dict[str, Tuple[int, bytes]]:
    """The time and the contents of all that is in the folder."""
    names = [os.path.join(at, name) for at, folders, files in os.walk(folder) for name in (*folders, *files)]
    return {it: (os.lstat(it).st_mtime_ns, read(it) if os.path.isfile(it) else b"") for it in names}


def steps_in(said: str) -> Dict[str, int]:
    """How many there are of each step in what Snakemake would do."""
    return {step: int(count) for step, count in re.findall(r"^(report|audit) +(\d+) ", said, re.M)}


def script(name: str) -> Any:
    """A module of the workflow."""
    if SCRIPTS not in sys.path:
        sys.path.insert(0, SCRIPTS)
    return importlib.import_module(name)


class OfOthers(Workflow):
    """What who can write into the study does there."""

    def ask(self, *words: str) -> "subprocess.CompletedProcess[str]":
        own = ["/usr/bin/env", "python3", f"{SCRIPTS}/summary.py", "--settings", "results/.steps/settings.json", *words]
        return subprocess.run(own, cwd=self.study, env=self.env, capture_output=True, text=True, check=False)

    def test_no_step_takes_settings_from_the_study(self) -> None:
        self.days("one")
        write_program(f"{self.room}/hull", SWAPPING)
        write_program(f"{self.room}/other", OTHER)
        self.env["OTHER"] = f"{self.room}/other"
        self.ends_well()
        self.assertEqual(self.calls(), ["audit days/one", "price days/one"])
        self.assertFalse(os.path.exists(f"{self.room}/calls.other"))
        marks = f"{self.room}/home/.local/state/hull/audits"
        text = read(f"{marks}/{os.listdir(marks)[0]}").decode()
        self.assertEqual(text.splitlines()[:2], ["right: one", f"program: {self.room}/hull"])
        due = ["case", "schedule", "report", f"sum of {self.room}/hull"]
        self.assertEqual([line.split(": ")[0] for line in text.splitlines()[2:]], due)
        self.assertIn(hashlib.sha256(SWAPPING.encode()).hexdigest(), text)
        self.assertIn(f" Audits were made by {self.room}/hull.</p>", read(self.result("page.html")).decode())

    def test_who_asks_what_is_left_names_marks_of_audits(self) -> None:
        self.days("one")
        self.ends_well()
        self.assertEqual(self.ask().returncode, 0)
        name, marks = self.result(".steps/settings.json"), f"{self.room}/marks"
        write(name, json.dumps({**json.loads(read(name)), "audits": marks}))
        table = read(self.result("table.csv"))
        ran = self.ask()
        self.assertEqual((ran.returncode, ran.stdout), (1, ""))
        self.assertIn(f"marks of audits are to be in {marks}: if these are yours, add --audits FOLDER\n", ran.stderr)
        self.assertEqual(read(self.result("table.csv")), table)
        self.assertIn("one: audit: audit.txt isn't of an audit that you made", self.ask("--audits", marks).stdout)

    def test_settings_that_no_run_has_left_are_refused(self) -> None:
        self.days("one")
        self.ends_well()
        name = self.result(".steps/settings.json")
        right = json.loads(read(name))
        changes = (("results", 5), ("lists", ["x"]), ("words", {"report": 1}), ("a", 1))
        wrong = [{**right, key: value} for key, value in changes]
        for text in ("x", "[]", "1", "[" * 9999, *map(json.dumps, wrong)):
            due = (1, "", "summary.py: HULL_DAYS_SETTINGS: these are no settings of a run\n")
            self.env["HULL_DAYS_SETTINGS"] = text
            ran = self.ask()
            self.assertEqual((ran.returncode, ran.stdout, ran.stderr), due)
            del self.env["HULL_DAYS_SETTINGS"]
            write(name, text)
            ran = self.ask()
            self.assertEqual(ran.stderr, "summary.py: results/.steps/settings.json: these are no settings of a run\n")
            write(name, json.dumps(right))

    @unittest.skipIf(sys.version_info < (3, 11), "this Python takes modules from where it begins")
    def test_a_job_of_slurm_takes_nothing_from_the_study(self) -> None:
        self.days("one")
        for name in ("snakemake.py", "yaml.py", "contents.py"):
            write(f"{self.study}/{name}", "import os\nopen(os.environ['CALLS'] + '.other', 'a').write(__file__)\n")
        write_program(f"{self.study}/status.sh", '#!/bin/sh\necho "$*" >> "$CALLS.other"\necho success\n')
        os.mkdir(f"{self.room}/bin")
        for name, text in SLURM.items():
            write_program(f"{self.room}/bin/{name}", text)
        write(f"{self.room}/config.json", json.dumps({**self.settings, "audit": False}))
        words = ["-s", f"{ROOT}/workflow/Snakefile", "--profile", f"{PROFILES}/slurm", "--retries", "0"]
        ran = subprocess.run(
            [SNAKEMAKE or "", *words, "--configfile", f"{self.room}/config.json"],
            cwd=self.study,
            env={**self.env, "PATH": f"{self.room}/bin:{self.env['PATH']}"},
            stdin=subprocess.DEVNULL,
            capture_output=True,
            text=True,
            check=False,
        )
        job = read(f"{self.room}/calls.job").decode()
        self.assertEqual(ran.returncode, 0, ran.stdout + ran.stderr + job)
        self.assertFalse(os.path.exists(f"{self.room}/calls.other"))
        self.assertEqual(self.calls(), ["price days/one"])


class OfTheUser(Workflow):
    """Files of the user's stay, whatever is asked for."""

    def test_a_single_target_is_refused_before_anything_is_touched(self) -> None:
        self.days("linked", "mine", "right")
        victim = f"{self.room}/victim"
        for name in (f"{victim}/.steps", self.result("mine/.steps")):
            os.makedirs(name)
            write(f"{name}/report.flag", "raised\n")
            write(f"{os.path.dirname(name)}/report.txt", "mine\n")
            os.utime(f"{os.path.dirname(name)}/report.txt", (1, 1))
        os.symlink(victim, self.result("linked"))
        before = looks_of(victim), looks_of(self.result("mine"))
        for target, why in (
            ("linked/report.txt", "linked: results/linked is a symbolic link, and nothing is written through it"),
            (
                "mine/report.txt",
                "mine: results/mine/report.txt wasn't made by this workflow, so it stays: move it away",
            ),
            ("right/lmp.prices.json", "right: the settings don't want its lmp"),
            ("none/report.txt", "none: the settings don't want its report"),
        ):
            is_right, said = self.run_all("--nocolor", f"results/{target}")
            self.assertEqual((is_right, said.splitlines()[-1]), (False, why), said)
        self.assertEqual((looks_of(victim), looks_of(self.result("mine"))), before)
        is_right, said = self.run_all("--nocolor", "results/right/report.txt")
        self.assertEqual(read(self.result("right/report.txt")), RIGHT, said)

    def test_a_link_in_place_of_a_day_of_which_nothing_is_wanted(self) -> None:
        self.days("linked", "right")
        os.makedirs(f"{self.room}/victim")
        os.makedirs(f"{self.study}/results")
        os.symlink(f"{self.room}/victim", self.result("linked"))
        is_right, said = self.run_all("--nocolor", report=False, audit=False)
        self.assertEqual(
            (is_right, "Error in file" in said, os.listdir(f"{self.room}/victim")), (False, False, []), said
        )
        due = "results/linked is a symbolic link, and nothing is written through it"
        self.assertEqual(self.left(), {"linked": [due]})

    def test_logs_of_the_user_stay_and_no_day_has_the_name_of_a_file_of_all(self) -> None:
        self.days("notes", "empty", "table.csv", "left.txt")
        for name, text in (("notes", "mine\n"), ("empty", "")):
            os.makedirs(self.result(f"{name}/log"))
            write(self.result(f"{name}/log/report.txt"), text)
        self.assertFalse(self.run_all("--retries", "0")[0])
        taken = "no name for a day: {} is that of a file of all days"
        due = {name: [taken.format(name)] for name in ("table.csv", "left.txt")}
        due["notes"] = ["results/notes/log/report.txt wasn't made by this workflow, so it stays: move it away"]
        self.assertEqual(self.left(), due)
        self.assertEqual(read(self.result("notes/log/report.txt")), b"mine\n")
        self.assertEqual(self.audited(), {"empty": "yes"})
        self.assertEqual(os.listdir(self.result("empty/log")), [])

    def test_what_is_not_wanted_is_not_left_beside_other_files(self) -> None:
        self.days("one", "edited")
        self.ends_well()
        write(self.result("edited/report.txt"), "mine\n")
        self.ends_well(audit=False, report_words="--proposals 1", only=["one"])
        self.assertFalse(os.path.exists(self.result("one/audit.txt")))
        self.assertTrue(os.path.exists(self.result("edited/audit.txt")))
        write(f"{self.study}/days/one/case.json", read(f"{self.study}/days/one/case.json").decode() + "\n")
        self.ends_well(audit=False, report=False)
        self.assertFalse(os.path.exists(self.result("one/report.txt")))
        self.assertFalse(os.path.exists(self.result("edited/audit.txt")))
        self.assertEqual(read(self.result("edited/report.txt")), b"mine\n")

    def test_files_that_words_name_count_by_their_contents(self) -> None:
        contents, days = script("contents"), script("days")
        os.mkdir(f"{self.room}/network")
        for word, file in (("--follow ", "plan.json"), ("--follow=", "plan.json"), ("--follow ", "network/loads.csv")):
            write(f"{self.room}/{file}", "1")
            write(f"{self.room}/table", word)  # (which the step writes)
            words = {"schedule": f"{word}{self.room}/{file.split('/')[0]} --deviations {self.room}/table"}
            day = days.Day("one", days.Settings(words=words))
            before = contents.basis(day, "schedule")
            self.assertEqual(len(before["named"]), 1)
            write(f"{self.room}/{file}", "22")
            self.assertNotEqual(contents.basis(day, "schedule")["named"], before["named"])
            self.assertEqual(contents.basis(day, "report")["named"], {})

    def test_words_that_limit_a_step_make_nothing_anew(self) -> None:
        alike = script("contents").are_made_alike
        for words in ("--gap 0.1 --seconds 240", "--seconds=600 --gap 0.1", "--sec 1 --gap 0.1", "--gap 0.1"):
            self.assertTrue(alike("schedule", words.split(), ["--gap", "0.1", "--seconds", "30"]), words)
            self.assertTrue(alike("elmp", words.split(), ["--gap", "0.1"]), words)
        for words in ("--gap 0.2 --seconds 30", "--gap 0.1 --nodes 30", "--gap --seconds 30"):
            self.assertFalse(alike("schedule", words.split(), ["--gap", "0.1", "--seconds", "30"]), words)
        self.assertFalse(alike("convex_hull", ["--within", "1"], []))
        self.assertFalse(alike("report", ["--seconds", "1"], []))
        for broken in (None, "--gap 0.1", [1], {}):
            self.assertFalse(alike("schedule", broken, []), broken)

    def test_what_takes_a_schedule_that_is_to_be_made_anew_is_not_in_the_table(self) -> None:
        summary, days = script("summary"), script("days")
        day = days.Day("one", days.Settings(lists=["lmp"]))
        steps = ["schedule", "lmp", "report", "audit"]
        told = {"schedule": "schedule.json was made with other words"}
        with unittest.mock.patch.object(summary, "why_left", lambda _, step: told.get(step)):
            found = summary.whys_left(day, steps)
            self.assertEqual([found[it] for it in steps], [told["schedule"], *["waits for the schedule"] * 3])
            told = {"report": "no report.txt"}
            found = summary.whys_left(day, steps)
            self.assertEqual([found[it] for it in steps], [None, None, "no report.txt", "waits for the report"])

    def test_a_report_of_a_schedule_that_is_to_be_made_anew_is_not_in_the_table(self) -> None:
        summary, days = script("summary"), script("days")
        day = days.Day("one", days.Settings(days=f"{self.room}/given", results=f"{self.room}/results"))
        os.makedirs(day.given)
        write(f"{day.given}/report.txt", RIGHT.decode())
        for why, count in (("schedule.json was made with other words", 0), (None, 1)):
            found = summary.Summary()
            with unittest.mock.patch.multiple(summary, why_left=lambda *_: why, is_marked=lambda _: True):
                summary.add_day(found, day, ["schedule", "audit"])
            self.assertEqual(len(found.priced), count)

    def test_profiles_of_snakemake_8_go_by_the_flags_alone(self) -> None:
        for name in ("here", "slurm8"):
            self.assertIn("\nrerun-triggers: mtime\n", read(f"{PROFILES}/{name}/config.yaml").decode(), name)

    def test_a_dry_run_changes_nothing(self) -> None:
        self.days("one", "two")
        is_right, said = self.run_all("-n")
        self.assertTrue(is_right, said)
        self.assertEqual(steps_in(said), {"report": 2, "audit": 2})
        self.assertFalse(os.path.exists(f"{self.study}/results"))
        self.ends_well()
        for at, _, files in os.walk(f"{self.study}/days"):
            for file in files:
                os.utime(f"{at}/{file}")
        before = looks_of(f"{self.study}/results")
        is_right, said = self.run_all("-n")
        self.assertTrue(is_right, said)
        self.assertEqual(steps_in(said), {})
        write(f"{self.study}/days/one/case.json", read(f"{self.study}/days/one/case.json").decode() + "\n")
        is_right, said = self.run_all("-n")
        self.assertTrue(is_right, said)
        self.assertEqual(steps_in(said), {"report": 1, "audit": 1})
        self.assertEqual(looks_of(f"{self.study}/results"), before)


class Shared(Workflow):
    """A folder that several users share."""

    def test_records_of_snakemake_that_cannot_be_read_go(self) -> None:
        runs = script("runs")
        names = ["metadata/open", "metadata/deep/closed", "incomplete/closed", "log/closed"]
        with tempfile.TemporaryDirectory() as room, unittest.mock.patch.object(
            os, "access", lambda name, how: "closed" not in name
        ):
            for name in names:
                os.makedirs(os.path.dirname(f"{room}/.snakemake/{name}"), exist_ok=True)
                with open(f"{room}/.snakemake/{name}", "w", encoding="utf-8"):
                    pass
            before = os.getcwd()
            os.chdir(room)
            try:
                runs.drop_closed_records()
            finally:
                os.chdir(before)
            self.assertEqual([os.path.exists(f"{room}/.snakemake/{it}") for it in names], [True, False, False, True])


class Words(Workflow):
    """Settings are what was written, or are refused."""

    def refusal(self, **config: object) -> str:
        days = script("days")
        try:
            days.settings_from(config)
        except days.HullError as why:
            return str(why)
        return ""

    def test_what_is_true_and_what_is_false(self) -> None:
        days = script("days")
        for given in (False, 0, "false", "False", "no", "off", "0"):
            settings = days.settings_from({"audit": given, "report": given})
            self.assertEqual((settings.audit, settings.report), (False, False), given)
        for given in (True, 1, "true", "yes", "ON", "1"):
            self.assertTrue(days.settings_from({"audit": given}).audit, given)
        self.assertEqual(self.refusal(audit="maybe"), "audit: maybe is neither true nor false")

    def test_a_setting_without_a_value_is_refused(self) -> None:
        """As of a variable of a shell that isn't set; a run of all days without lists would end well."""
        for nothing in ("", None):
            self.assertEqual(self.refusal(lists=nothing), "lists: nothing is given; lists=[] makes none")
        self.assertEqual(self.refusal(only=""), "only: nothing is given: name days, or leave the setting out")
        self.assertEqual((self.refusal(lists=[]), self.refusal(only=None)), ("", ""))

    def test_names_of_days_are_as_they_were_written(self) -> None:
        days = script("days")
        for given, due in (("2026.10", ["2026.10"]), (["a", date(2026, 1, 2)], ["a", "2026-01-02"]), (None, None)):
            self.assertEqual(days.settings_from({"only": given}).only, due)
        for wrong in (2026.1, [20260101], [True], [None], {"a": 1}):
            self.assertIn("isn't read as a text: write each name in quotes", self.refusal(only=wrong))

    def test_texts_are_as_they_were_written(self) -> None:
        for key in ("days", "results", "audits", "program", "python", "report_words"):
            self.assertEqual(self.refusal(**{key: 2026.1}), f"{key}: 2026.1 isn't read as a text: write it in quotes")
            self.assertEqual(self.refusal(**{key: None}), "")

    def test_names_of_folders(self) -> None:
        days = script("days")
        for key in ("days", "results"):
            for name in ("a{b", "a}", "x/{day}/y"):
                why = f"{key}: {name}: Snakemake takes braces for its own: name a folder without them"
                self.assertEqual(self.refusal(**{key: name}), why)
            for name, due in (("made//here/", "made/here"), ("/", "/"), ("", key)):
                self.assertEqual(getattr(days.settings_from({key: name}), key), due)

    def test_a_slash_behind_the_name_of_a_folder(self) -> None:
        self.days("one")
        self.ends_well(days="days/", results="results//")

    def test_a_quote_that_is_not_closed(self) -> None:
        for key in ("schedule_words", "elmp_words", "convex_words", "report_words"):
            self.assertEqual(self.refusal(**{key: '--proposals "5'}), f'{key}: --proposals "5: no closing quotation')

    def test_a_day_that_the_run_cannot_begin_is_told(self) -> None:
        self.days("one", "two")
        os.makedirs(self.result("one/.steps/report.flag"))
        is_right, said = self.run_all("--nocolor", "--retries", "0")
        self.assertFalse(is_right)
        self.assertRegex(said, r"(?m)^one: .*results/one/\.steps/.*: Is a directory$")
        self.assertEqual((list(self.left()), self.audited()), (["one"], {"two": "yes"}))

    def test_a_table_that_each_day_would_replace(self) -> None:
        self.days("one", "two", "three")
        for name in ("one", "two"):
            os.remove(f"{self.study}/days/{name}/schedule.json")
        words = f"--follow {self.study}/days/three/schedule.json --deviations={self.room}/far.csv"
        is_right, said = self.run_all("--nocolor", schedule_words=words)
        why = f"schedule_words: each of 2 days would replace {self.room}/far.csv: name one day by only"
        self.assertEqual((is_right, said.splitlines()[-1]), (False, why), said)
        is_right, said = self.run_all("-n", schedule_words=words, only=["one", "three"])
        self.assertTrue(is_right, said)

    def test_a_setting_that_there_is_not(self) -> None:
        self.assertEqual(self.refusal(list=["lmp"]), "list: no such setting; is lists meant?")
        self.assertEqual(self.refusal(zzz=1), "zzz: no such setting")
        self.assertEqual(self.refusal(lists="lmp"), "lists: a list is due, in brackets: lists=[lmp]")
        self.assertTrue(self.refusal(lists=[{"lmp": None}]).startswith("lists: {'lmp': None} isn't one of lmp, elmp, "))
        self.assertEqual(self.refusal(python="/none/py"), "python: /none/py: there is no such program")
        self.assertEqual(self.refusal(results="-r"), "results: -r: write it as ./-r")

    def test_a_folder_with_a_dot_is_no_day(self) -> None:
        days = script("days")
        with tempfile.TemporaryDirectory() as room:
            for name in (".ipynb_checkpoints", "_x", "2026-01-01"):
                os.mkdir(f"{room}/{name}")
            found = days.days_of(days.settings_from({"days": room}))
            self.assertEqual([day.name for day in found], ["2026-01-01", "_x"])

    def test_a_file_that_is_named_nearly_as_it_is_due_is_not_passed_over(self) -> None:
        days, plan = script("days"), script("plan")
        nearly = {
            "schedule.json": ("Schedule.JSON", "schedule.json.txt"),
            "report.txt": ("report.txt.txt", "report.txt.gz"),
        }
        for right, names in nearly.items():
            for name in names:
                with tempfile.TemporaryDirectory() as room:
                    os.makedirs(f"{room}/days/one")
                    for file in {"case.json", "schedule.json", "report.txt", name} - {right}:
                        write(f"{room}/days/one/{file}", "{}")
                    places = {"days": f"{room}/days", "results": f"{room}/results"}
                    found = plan.plan_of(days.settings_from(places))
                    why = f"it has {name}, and no {right}: rename it, or move it away"
                    self.assertEqual(found.refused, {"one": why})
                    more = {"schedule_words": f"--follow {name}", "report": False, "audit": False}
                    self.assertEqual(plan.plan_of(days.settings_from({**places, **more})).refused, {})
                    write(f"{room}/days/one/{right}", "{}")
                    self.assertEqual(plan.plan_of(days.settings_from(places)).refused, {})

    def test_where_there_is_no_day_the_table_stays(self) -> None:
        self.days("one")
        self.ends_well()
        table = read(self.result("table.csv"))
        os.rename(f"{self.study}/days", f"{self.room}/days")
        os.mkdir(f"{self.study}/days")
        shutil.copy(f"{self.room}/days/one/case.json", f"{self.study}/days/2026-01-01.json")
        why = "days: no day is in it: each is a folder there, as 2026-01-01 with case.json"
        for more, due in (({}, why), ({"only": []}, "only: no day is named in it: leave it out for all days")):
            is_right, said = self.run_all("--nocolor", **more)
            self.assertEqual((is_right, said.splitlines()[-1]), (False, due), said)
        self.assertEqual(read(self.result("table.csv")), table)

    def test_a_day_that_is_a_link_to_nothing_is_left(self) -> None:
        """As where it lies on a disk that isn't mounted now."""
        days, plan = script("days"), script("plan")
        with tempfile.TemporaryDirectory() as room:
            for name, place in (("2026-01-01", "/none/here"), ("2026-01-02", "2026-01-02")):
                os.symlink(place, f"{room}/{name}")
            found = plan.plan_of(days.settings_from({"days": room, "results": f"{room}/../none"}))
            self.assertEqual(found.refused, dict.fromkeys(("2026-01-01", "2026-01-02"), "there is no such folder"))

    def test_results_of_a_day_never_lie_where_the_days_are(self) -> None:
        days, plan = script("days"), script("plan")
        with tempfile.TemporaryDirectory() as room:
            os.makedirs(f"{room}/days/days")
            write(f"{room}/days/days/case.json", "{}")
            found = plan.plan_of(days.settings_from({"days": f"{room}/days", "results": room}))
            self.assertEqual(found.refused, {"days": "its results would lie where the days are"})

    def test_words_of_the_command_line(self) -> None:
        self.days("2026.1", "2026.10")
        is_right, said = self.run_all("--config", "only=2026.10")
        self.assertEqual((is_right, said.splitlines()[-1][:42]), (False, "only: 2026.1 isn't read as a text: write e"))
        is_right, said = self.run_all("-n", "--config", "only=['2026.10']", "audit=false")
        self.assertTrue(is_right, said)
        self.assertEqual(steps_in(said), {"report": 1})


class Jobs(unittest.TestCase):
    def test_a_job_has_the_time_that_its_words_let_a_solver_work(self) -> None:
        days, runs = script("days"), script("runs")
        hour = {"schedule_words": "--gap 0.005 --seconds 3600", "elmp_words": "--sec=1"}
        cases: Tuple[Tuple[Dict[str, str], str, int], ...] = (
            (hour, "schedule", 15 + 60),
            (hour, "elmp", 15 + 1),
            (hour, "lmp", 15),
            ({"schedule_words": "--gap 0.005"}, "schedule", 15 + 30),
            ({"schedule_words": "--seconds 1e99"}, "schedule", 15 + 30),
        )
        for config, name, due in cases:
            found = runs.minutes(days.settings_from(config), 15, 30, "schedule")
            one = SimpleNamespace(day="x") if name == "schedule" else SimpleNamespace(day="x", list=name)
            self.assertEqual((found(one, 1), found(one, 2)), (due, due + 15), (config, name))


class Times(unittest.TestCase):
    """Snakemake goes by times, so each result has one that isn't before those of its inputs, on whatever disk."""

    def setUp(self) -> None:
        self.room = tempfile.mkdtemp(prefix="hull-times-")
        self.addCleanup(shutil.rmtree, self.room)
        self.plan, days = script("plan"), script("days")
        self.day = days.Day("one", days.Settings(days=f"{self.room}/days", results=f"{self.room}/results"))
        self.flag = self.plan.flag_name(self.day.settings.results, "one", "report")
        self.names = {what: self.day.path(what) for what in ("case", "schedule", "report")}
        for name in (*self.names.values(), self.flag):
            os.makedirs(os.path.dirname(name), exist_ok=True)
            write(name, name)
            os.utime(name, (1001.5, 1001.5))

    def settle(self, utime: Any) -> None:
        """Settles times where the file system dates files so."""
        with unittest.mock.patch("os.utime", utime):
            self.plan.settle_times(self.day, "report")
            self.assertGreaterEqual(os.stat(self.names["report"]).st_mtime, os.stat(self.names["case"]).st_mtime)
            self.plan.raise_flag(self.flag, self.day, "report")
            self.assertGreater(os.stat(self.flag).st_mtime, os.stat(self.names["report"]).st_mtime)

    def test_a_disk_that_counts_in_two_seconds(self) -> None:
        utime, now = os.utime, float(int(time.time()) // 2 * 2)

        def in_two_seconds(name: str, times: Tuple[float, float], **more: Any) -> None:
            utime(name, (times[0] // 2 * 2, times[1] // 2 * 2), **more)

        for at in (1003.0, 1003.5, 1004.0, now, now + 0.9, now + 1.9, now + 1000.5):
            utime(self.names["case"], (at, at))
            with unittest.mock.patch("time.time", lambda: now + 1.9):
                self.settle(in_two_seconds)

    def test_a_file_of_another_user_in_a_shared_folder(self) -> None:
        utime, own = os.utime, os.stat(self.names["report"]).st_ino
        os.link(self.names["report"], f"{self.room}/kept")  # (so no other file has its number)

        def of_the_owner(name: str, times: Tuple[float, float], **more: Any) -> None:
            if os.stat(name).st_ino == own:
                raise PermissionError(1, "Operation not permitted", name)
            utime(name, times, **more)

        utime(self.names["case"], (2000, 2000))
        self.settle(of_the_owner)
        self.assertEqual(read(self.names["report"]).decode(), self.names["report"])


class Large(unittest.TestCase):
    def test_a_file_that_hull_refuses_for_its_size_is_not_read(self) -> None:
        contents = script("contents")
        with tempfile.TemporaryDirectory() as room:
            with open(f"{room}/report.txt", "wb") as file:
                file.truncate(10**12)
            self.assertEqual(contents.sum_of(f"{room}/report.txt"), "1000000000000 bytes")
            with self.assertRaises(contents.HullError) as why:
                contents.refuse_too_large(f"{room}/report.txt")
            self.assertIn("has 1,000,000,000,000 bytes, and hull takes 67,108,864 at most", str(why.exception))


class Waits(unittest.TestCase):
    def test_a_step_that_waits_says_so_and_not_for_ever(self) -> None:
        contents = script("contents")
        room = tempfile.mkdtemp(prefix="hull-waits-")
        self.addCleanup(shutil.rmtree, room)
        name = f"{room}/lock"
        told: List[str] = []
        with contents.alone(name, told.append):
            with self.assertRaises(contents.HullError) as why:
                with contents.alone(name, told.append, most=2.0):
                    pass
            self.assertEqual(told, [f"it waits for another process, which holds {name}"])
            self.assertEqual(str(why.exception), f"another process has held {name} for 2 s: end it, or wait for it")
        with contents.alone(name, told.append, most=0):
            self.assertEqual(len(told), 1)


class Ended(unittest.TestCase):
    """A step of a day whose tool is at work for ten minutes."""

    def setUp(self) -> None:
        self.room = tempfile.mkdtemp(prefix="hull-ended-")
        self.addCleanup(shutil.rmtree, self.room)
        os.makedirs(f"{self.room}/days/one")
        shutil.copy(f"{ROOT}/examples/usual/case.json", f"{self.room}/days/one")
        # (a Python that is none, and a program that takes any case)
        write_program(f"{self.room}/python", f"#!/bin/sh\necho $$ >{self.room}/tool\nexec sleep 600\n")
        write_program(f"{self.room}/hull", "#!/bin/sh\necho fault 4 schedule 1 0\nexit 4\n")

    @contextlib.contextmanager
    def begun(self) -> Iterator["subprocess.Popen[str]"]:
        settings = script("days").Settings(program=f"{self.room}/hull", python=f"{self.room}/python")
        line = [sys.executable, f"{SCRIPTS}/step.py", "schedule", "one"]
        env = {**os.environ, "HULL_DAYS_SETTINGS": settings.text(), "TMPDIR": self.room}
        with subprocess.Popen(line, cwd=self.room, env=env, stderr=subprocess.PIPE, text=True) as running:
            try:
                yield running
            finally:
                running.kill()

    def tool(self) -> int:
        """The process of the tool."""
        name, until = f"{self.room}/tool", time.monotonic() + 60
        while not (os.path.exists(name) and read(name).strip()) and time.monotonic() < until:
            time.sleep(0.05)
        return int(read(name))

    def test_a_tool_takes_its_files_away_where_its_step_is_interrupted(self) -> None:
        own = f"{self.room}/own"
        text = f"mkdir {own}\ntrap 'rm -r {own}; kill $!; exit' TERM\nsleep 600 &\necho $$ >{self.room}/tool\nwait\n"
        write_program(f"{self.room}/python", f"#!/bin/sh\n{text}")
        with self.begun() as running:
            self.tool()
            self.assertTrue(os.path.isdir(own))
            running.send_signal(signal.SIGTERM)
            running.communicate(timeout=60)
        self.assertEqual((running.returncode, os.path.exists(own)), (143, False))

    def test_a_tool_is_ended_with_its_step(self) -> None:
        for number, status in ((signal.SIGTERM, 143), (signal.SIGINT, 130), (signal.SIGKILL, -9)):
            with self.begun() as running:
                process = self.tool()
                running.send_signal(number)
                running.communicate(timeout=60)
            self.assertEqual(running.returncode, status)
            until = time.monotonic() + 60
            while is_alive(process) and time.monotonic() < until:
                time.sleep(0.05)
            self.assertFalse(is_alive(process))
            os.remove(f"{self.room}/tool")


if __name__ == "__main__":
    unittest.main()
