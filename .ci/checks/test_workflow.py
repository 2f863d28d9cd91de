"""workflow/ on small days on one machine, with one of each misfortune; passed over where there is no Snakemake."""
import csv
import json
import os
import re
import shutil
import signal
import subprocess
import tempfile
import time
import unittest
from typing import Any, Callable, Dict, List, Optional

from built import EXAMPLES, PROGRAM, ROOT

SNAKEMAKE = shutil.which("snakemake")
PROFILES = f"{ROOT}/workflow/profiles"
# The program, which notes its calls, but for days whose case has a note on what happens to it.
PROGRAM_OF_MISFORTUNES = """#!/usr/bin/env bash
echo "$1 $3" >> "$CALLS"
note=$(sed -n 's/.*"misfortune": "\\([a-z ]*\\)".*/\\1/p' "$3" 2>/dev/null)
[ -e "$CALM" ] || case "$1 $note" in
    "price the job is killed") kill -9 $$ ;;
    "price its step is killed") kill -9 "$PPID" ;;
    "price its output is cut") "$PROGRAM" "$@" | head -n 5; exit 6 ;;
    "price its output is cut behind") "$PROGRAM" "$@" | head -n 5; exit 0 ;;
    "price it is slow") exec sleep 600 ;;
    "audit the report is another meanwhile") mv days/swapped/report.txt "$CALLS.report"; cp "$RIGHT" days/swapped/report.txt
        "$PROGRAM" "$@"; status=$?; mv "$CALLS.report" days/swapped/report.txt; exit $status ;;
    "price another program says one") echo "/lib64/libc.so.6: version GLIBC_2.99 not found" >&2; exit 1 ;;
esac
exec "$PROGRAM" "$@"
"""
# Python's start where the disk is full for large files.
FULL_DISK = """import os
fsync = os.fsync
def fsync_small(handle):
    if os.fstat(handle).st_size > 50_000:
        raise OSError(28, "No space left on device")
    fsync(handle)
os.fsync = fsync_small
"""
NO_LINE = "hull price ended with status {}, and no line that says why"


def read(name: str) -> bytes:
    with open(name, "rb") as file:
        return file.read()


def write(name: str, text: str) -> None:
    with open(name, "w", encoding="utf-8") as file:
        file.write(text)


RIGHT = read(f"{EXAMPLES}/usual/price.output")  # of two proposals, one ahead


@unittest.skipUnless(SNAKEMAKE, "there is no snakemake here")
class Workflow(unittest.TestCase):
    def setUp(self) -> None:
        self.room = tempfile.mkdtemp(prefix="hull-workflow-")
        self.addCleanup(shutil.rmtree, self.room)
        self.study = f"{self.room}/study"
        os.makedirs(f"{self.study}/days")
        write(f"{self.room}/hull", PROGRAM_OF_MISFORTUNES)
        os.chmod(f"{self.room}/hull", 0o755)
        self.settings: Dict[str, Any] = {"lists": [], "report_words": "--proposals 2 --ahead 1"}
        self.settings["program"] = f"{self.room}/hull"
        self.env = {"PATH": os.environ["PATH"], "HOME": f"{self.room}/home", "TMPDIR": self.room, "PROGRAM": PROGRAM}
        self.env.update(
            RIGHT=f"{EXAMPLES}/usual/price.output",
            CALLS=f"{self.room}/calls",
            CALM=f"{self.room}/calm",
            PYTHONDONTWRITEBYTECODE="1",
        )

    def day(self, name: str, misfortune: Optional[str] = None, example: str = "usual") -> None:
        """A day of the example, whose case has a note."""
        folder = f"{self.study}/days/{name}"
        os.mkdir(folder)
        for file in ("case.json", "schedule.json"):
            shutil.copy(f"{EXAMPLES}/{example}/{file}", folder)
        if misfortune:
            self.change(name, "case.json", lambda value: value.update(misfortune=misfortune))

    def days(self, *names: str) -> None:
        for name in names:
            self.day(name)

    def change(self, name: str, file: str, how: Callable[[Any], None]) -> None:
        with open(f"{self.study}/days/{name}/{file}", encoding="utf-8") as text:
            value = json.load(text)
        how(value)
        write(f"{self.study}/days/{name}/{file}", json.dumps(value))

    def begin(self, *words: str, **more: Any) -> "subprocess.Popen[str]":
        write(f"{self.room}/config.json", json.dumps({**self.settings, **more}))
        given = ["-s", f"{ROOT}/workflow/Snakefile", "--profile", f"{PROFILES}/here", "-c", "2"]
        return subprocess.Popen(
            [SNAKEMAKE or "", *given, "--configfile", f"{self.room}/config.json", *words],
            cwd=self.study,
            env=self.env,
            stdin=subprocess.DEVNULL,
            stdout=subprocess.PIPE,
            stderr=subprocess.STDOUT,
            start_new_session=True,
            text=True,
        )

    def run_all(self, *words: str, **more: Any) -> "tuple[bool, str]":
        """Runs the workflow: whether it ends well, and what it says."""
        running = self.begin(*words, **more)
        said, _ = running.communicate(timeout=400)
        return running.returncode == 0, said

    def ends_well(self, *words: str, **more: Any) -> None:
        is_right, said = self.run_all(*words, **more)
        self.assertTrue(is_right, said)
        self.assertIn("nothing is left", said)

    def left(self) -> Dict[str, List[str]]:
        """What is left of each day."""
        found: Dict[str, List[str]] = {}
        for line in read(f"{self.study}/results/left.txt").decode().splitlines():
            day, why = line.split(": ", 1)
            found.setdefault(day, []).append(why)
        return found

    def calls(self) -> List[str]:
        """The calls of the program since the last look, but for questions what it has."""
        if not os.path.exists(f"{self.room}/calls"):
            return []
        lines = read(f"{self.room}/calls").decode().replace("/case.json", "").splitlines()
        # (a step reads copies, in a folder of such a name)
        found = sorted(re.sub(r" .*/(?=days/)", " ", line) for line in lines)
        os.remove(f"{self.room}/calls")
        return found

    def result(self, name: str) -> str:
        return f"{self.study}/results/{name}"

    def assert_priced(self, *names: str) -> None:
        for name in names:
            self.assertEqual(read(self.result(f"{name}/report.txt")), RIGHT, name)
            self.assertEqual(read(self.result(f"{name}/audit.txt"))[-7:], b"\nright\n", name)

    def table(self) -> List[Dict[str, str]]:
        with open(self.result("table.csv"), encoding="utf-8", newline="") as file:
            return list(csv.DictReader(file))

    def audited(self) -> Dict[str, str]:
        return {row["day"]: row["audited"] for row in self.table() if row["kind"] == "day"}


class Misfortunes(Workflow):
    """What is told of days that go wrong, and that the same command goes on."""

    def misfortunes(self) -> Dict[str, str]:
        """Days of which two are right, and what is told of the report of each of the others."""
        self.days("right", "with a space", "no case", "refused", "pipe", "leads to none")
        os.remove(f"{self.study}/days/no case/case.json")
        os.remove(f"{self.study}/days/pipe/schedule.json")
        os.mkfifo(f"{self.study}/days/pipe/schedule.json")
        os.symlink(f"{self.room}/none", f"{self.study}/days/leads to none/report.txt")
        self.change("refused", "schedule.json", lambda value: value["renewable"].update(W1=[9999]))
        told = {
            "killed": ("the job is killed", NO_LINE.format(-9)),
            "step killed": ("its step is killed", "no report.txt"),
            "cut": ("its output is cut", NO_LINE.format(6)),
            "cut behind": ("its output is cut behind", "hull price, line 6: "),
            "other": (
                "another program says one",
                f"{NO_LINE.format(1)}: /lib64/libc.so.6: version GLIBC_2.99 not found",
            ),
        }
        for name, (misfortune, _) in told.items():
            self.day(name, misfortune)
        refused = "refused: fault 4 schedule 53 kind renewable unit 1 period 1 left 9999 right 3000 (days/refused/schedule.json: "
        return {**{name: why for name, (_, why) in told.items()}, "refused": refused}

    def test_a_refused_case_without_a_schedule_is_told_once(self) -> None:
        self.days("one")
        os.remove(f"{self.study}/days/one/schedule.json")
        self.change("one", "case.json", lambda value: value.update(demand=[-1]))
        self.assertFalse(self.run_all("--retries", "2")[0])
        due = "schedule: refused: fault 3 case 23 field demand kind case unit 0 item 1 (days/one/case.json: "
        self.assertEqual(self.left()["one"][0][: len(due)], due)
        self.assertEqual([call for call in self.calls() if call.startswith("check")], ["check days/one"])

    def test_each_day_is_told_of_and_made_later(self) -> None:
        due = self.misfortunes()
        is_right, said = self.run_all("--retries", "1")
        self.assertFalse(is_right)
        left = self.left()
        self.assertEqual(left.pop("no case"), ["no case.json"])
        self.assertEqual(left.pop("pipe"), ["its schedule.json is no file, or a link to none"])
        self.assertEqual(left.pop("leads to none"), ["its report.txt is no file, or a link to none"])
        self.assertEqual(
            {name: why[0][: len(due[name]) + 8] for name, why in left.items()},
            {n: f"report: {due[n]}" for n in due},
            said,
        )
        self.assertEqual({why[1] for why in left.values()}, {"audit: waits for the report"})
        self.assertIn(due["refused"], read(self.result("refused/log/report.txt")).decode())
        self.assert_priced("right", "with a space")
        self.assertEqual([name for name in due if os.path.exists(self.result(f"{name}/report.txt"))], [])
        self.assertEqual(self.audited(), {"right": "yes", "with a space": "yes"})
        calls = self.calls()
        self.assertEqual((calls.count("price days/refused"), calls.count("price days/killed")), (1, 2), "retries")
        self.mend()
        self.ends_well()
        self.assert_priced("right", "no case", "pipe", "leads to none", *due)
        self.assertNotIn("price days/right", self.calls())
        self.assertEqual(set(self.audited().values()), {"yes"})

    def mend(self) -> None:
        write(f"{self.room}/calm", "")
        os.remove(f"{self.study}/days/leads to none/report.txt")
        os.remove(f"{self.study}/days/pipe/schedule.json")
        for name in ("no case", "refused", "pipe"):
            for file in ("case.json", "schedule.json"):
                shutil.copy(f"{EXAMPLES}/usual/{file}", f"{self.study}/days/{name}")

    def wait_for(self, is_so: Callable[[], bool]) -> None:
        until = time.monotonic() + 120
        while not is_so() and time.monotonic() < until:
            time.sleep(0.05)
        self.assertTrue(is_so())

    def is_slow_begun(self) -> bool:
        calls = f"{self.room}/calls"
        return (
            os.path.exists(calls)
            and re.search(rb"price .*days/slow", read(calls)) is not None
            and os.path.exists(self.result("first/audit.txt"))
        )

    def test_killed_in_the_middle_it_goes_on(self) -> None:
        self.days("first")
        self.day("slow", "it is slow")
        running = self.begin()
        self.wait_for(self.is_slow_begun)
        os.killpg(running.pid, signal.SIGKILL)
        running.communicate()
        self.assertFalse(os.path.exists(self.result("slow/report.txt")))
        self.calls()
        write(f"{self.room}/calm", "")
        self.ends_well()
        self.assert_priced("first", "slow")
        self.assertEqual([call for call in self.calls() if call.startswith("price")], ["price days/slow"])

    def test_a_second_run_in_the_folder_is_refused(self) -> None:
        self.days("first")
        self.day("slow", "it is slow")
        running = self.begin()
        self.addCleanup(running.communicate)
        self.wait_for(self.is_slow_begun)
        is_right, said = self.run_all()
        os.killpg(running.pid, signal.SIGTERM)
        self.assertFalse(is_right)
        self.assertEqual(said.splitlines()[-1], "another run is at work in results")
        self.assertNotIn("Snakefile", said)

    def test_processors_that_snakemake_would_not_see_are_refused(self) -> None:
        """On one machine it heeds -c and --cores alone, as words of their own, and else takes the profile's number."""
        self.days("first")
        words = [SNAKEMAKE or "", "-s", f"{ROOT}/workflow/Snakefile", "--profile", f"{PROFILES}/here"]

        def run_with(*more: str) -> Any:
            how: Any = {"cwd": self.study, "env": self.env, "stdin": subprocess.DEVNULL, "text": True}
            return subprocess.run([*words, *more], capture_output=True, **how)

        for more in ["-n", "-c", "999"], ["-n", "--cores=999"], ["-n", "-j", "999"], ["--list"], ["--list-conda-envs"]:
            ran = run_with(*more)
            self.assertEqual(ran.returncode, 0, ran.stderr)
        for more in ["-c999"], ["-kc999"], ["-j999"], ["-j", "999"], ["-pj999"], ["--jobs", "999"], ["--jobs=999"]:
            ran = run_with(*more)
            said = ran.stderr.splitlines()[-1]
            self.assertEqual(
                (ran.returncode, said.split(" processors")[1:]), (1, [", as the profile says: write -c 999"])
            )
            self.assertTrue(said.startswith(f"{' '.join(more)}: Snakemake would use "), said)
        self.assertNotIn("results", os.listdir(self.study))

    def test_a_full_disk(self) -> None:
        """A disk of 256 KB where root may mount one, and else a stand-in: no file of more than 50,000 bytes can be written."""
        self.days(*(f"d{number}" for number in range(8)))
        full = f"{self.room}/full"
        os.mkdir(full)
        wanted = {"results": full, "report_words": "--proposals 1000 --ahead 1"}
        make_room = self.fill(full)
        is_right, said = self.run_all(**wanted)
        self.assertFalse(is_right)
        self.assertRegex(said, f"{full}/[^:]+: No space left on device")
        reports = [name for name in (f"{full}/d{number}/report.txt" for number in range(8)) if os.path.exists(name)]
        self.assertTrue(all(read(name).endswith(b"\nend\n") for name in reports))
        self.assertLess(len(reports), 8)
        make_room()
        self.ends_well(**wanted)
        self.assertTrue(all(os.path.exists(f"{full}/d{number}/audit.txt") for number in range(8)))

    def fill(self, folder: str) -> Callable[[], Any]:
        """Makes the folder a small disk; how to make it a larger one."""
        mount = ["mount", "-t", "tmpfs", "-o", "size=256k", "none", folder]
        if os.geteuid() == 0 and subprocess.run(mount, stderr=subprocess.DEVNULL, check=False).returncode == 0:
            self.addCleanup(lambda: subprocess.run(["umount", folder], check=True))
            return lambda: subprocess.run(["mount", "-o", "remount,size=64m", folder], check=True)
        write(f"{self.room}/sitecustomize.py", FULL_DISK)
        self.env["PYTHONPATH"] = self.room
        return lambda: self.env.pop("PYTHONPATH")


class Contents(Workflow):
    """What is stale is known by what the files hold."""

    def test_touched_files_stay_and_changed_ones_are_followed(self) -> None:
        names = ("touched", "case", "schedule", "report", "audit", "no audit", "no report", "cut")
        self.days(*names)
        self.ends_well()
        self.calls()
        for folder in ("days", "results"):
            for at, _, files in os.walk(f"{self.study}/{folder}"):
                for file in files:
                    os.utime(f"{at}/{file}")
        self.ends_well()
        self.assertEqual(self.calls(), [])
        self.change(
            "schedule",
            "schedule.json",
            lambda value: value["renewable"].update(W1=[1999.0]) or value["thermal"]["G1"].update(power=[8001]),
        )
        os.utime(f"{self.study}/days/schedule/schedule.json", (1, 1))
        write(f"{self.study}/days/case/case.json", read(f"{self.study}/days/case/case.json").decode() + "\n")
        for name, old, new in (("report", b"payments 164", b"payments 165"), ("cut", b"\nend\n", b"\n")):
            text = read(self.result(f"{name}/report.txt"))
            self.assertIn(old, text)
            write(self.result(f"{name}/report.txt"), text.replace(old, new).decode())
        write(self.result("audit/audit.txt"), "hull-audit 1\nproposals 3\nright\n")
        os.remove(self.result("no audit/audit.txt"))
        os.remove(self.result("no report/report.txt"))
        self.ends_well()
        made = ("case", "schedule", "report", "no report", "cut")
        audits = [f"audit days/{name}" for name in ("audit", "no audit", *made)]
        self.assertEqual(self.calls(), sorted([f"price days/{name}" for name in made] + audits))
        self.assert_priced("touched", "report", "audit", "no audit", "no report", "cut")
        self.ends_well(report_words="--proposals 1")
        self.assertEqual(len([call for call in self.calls() if call.startswith("price")]), len(names), "other words")

    def test_a_touched_file_behind_a_link_makes_nothing_anew(self) -> None:
        """A large one, of which Snakemake looks at the time alone; a time to come is none of a change either."""
        self.days("one")
        name, store = f"{self.study}/days/one/case.json", f"{self.room}/store.json"
        write(store, read(name).decode() + " " * 200_000)
        os.unlink(name)
        os.symlink(store, name)
        self.ends_well()
        self.calls()
        for when in (time.time(), time.time() + 200 * 86400):
            os.utime(store, (when, when))
            self.ends_well()
            self.assertEqual(self.calls(), [])

    def test_no_old_result_lies_beside_a_refusal(self) -> None:
        self.days("one")
        self.ends_well()
        self.change("one", "schedule.json", lambda value: value["renewable"].update(W1=[9999]))
        self.assertFalse(self.run_all()[0])
        self.assertEqual(
            [name for name in ("report.txt", "audit.txt") if os.path.exists(self.result(f"one/{name}"))], []
        )
        self.assertEqual(self.table(), [])

    def test_files_of_all_days_are_made_anew_whatever_their_times_are(self) -> None:
        self.days("one", "two")
        self.ends_well()
        self.change("one", "schedule.json", lambda value: value["renewable"].update(W1=[9999]))
        later = time.time() + 2 * 86400
        for name in ("left.txt", "table.csv", "page.html"):
            os.utime(self.result(name), (later, later))
        is_right, said = self.run_all()
        self.assertFalse(is_right)
        self.assertIn("1 line of what is left", said.replace("2 lines", "1 line"))
        self.assertEqual((list(self.left()), list(self.audited())), (["one"], ["two"]))

    def test_files_of_all_days_come_together_or_stay(self) -> None:
        self.days("one", "two")
        self.ends_well()
        table = read(self.result("table.csv"))
        os.remove(self.result("page.html"))
        os.mkdir(self.result("page.html"))
        self.change("one", "schedule.json", lambda value: value["renewable"].update(W1=[9999]))
        is_right, said = self.run_all("--retries", "0")
        self.assertFalse(is_right)
        self.assertIn("results/page.html: Is a directory", said)
        self.assertEqual(read(self.result("table.csv")), table)

    def test_sums_of_lists_that_have_other_days_are_told(self) -> None:
        self.days("one", "two")
        told = "Not every list has all of these days, so don't compare their sums."
        for name in ("one", "two"):
            self.ends_well(lists=["convex_hull"], only=[name])
            page = read(self.result("page.html")).decode()
            self.assertNotIn(told, page)
            self.assertEqual(page.count('<circle class="least"'), 1)  # (a day alone is no line)
        write(f"{self.study}/days/two/report.txt", "x\n")
        self.run_all("--retries", "0", lists=["convex_hull"])
        self.assertIn(told, read(self.result("page.html")).decode())
        self.run_all("--retries", "0", lists=[])
        self.assertIn(" Above the least are the certified days alone.", read(self.result("page.html")).decode())

    def test_a_report_that_is_given_is_audited_and_never_written(self) -> None:
        self.days("right", "wrong")
        for name, old in (("right", ""), ("wrong", "payments 164")):
            write(f"{self.study}/days/{name}/report.txt", RIGHT.decode().replace(old or "?", "payments 165"))
        before = read(f"{self.study}/days/wrong/report.txt")
        is_right, _ = self.run_all("--retries", "0")
        self.assertFalse(is_right)
        self.assertTrue(self.left()["wrong"][0].startswith("audit: refused: fault 8 report 61 at "), self.left())
        self.assertEqual(self.audited(), {"right": "yes"})
        self.assertEqual(read(f"{self.study}/days/wrong/report.txt"), before)
        self.assertEqual(self.calls(), ["audit days/right", "audit days/wrong"])

    def test_words_that_say_how_many_workers(self) -> None:
        self.days("one")
        self.ends_well(report_words="--proposals 2 --ahead 1 --workers 2")
        self.assert_priced("one")
        self.calls()
        self.ends_well(report_words="--workers=1 --proposals 2 --ahead 1")
        self.assertEqual(self.calls(), [], "they make the same")

    def test_a_report_that_is_given_and_not_audited_is_told(self) -> None:
        self.days("made", "own")
        write(f"{self.study}/days/own/report.txt", RIGHT.decode())
        is_right, _ = self.run_all("--retries", "0", audit=False)
        why = "report: it is its own, and isn't in the table until it is audited: leave audit=false out"
        self.assertEqual((is_right, self.left(), self.audited()), (False, {"own": [why]}, {"made": "no"}))
        self.ends_well()
        self.ends_well(audit=False)
        self.assertEqual(self.audited(), {"made": "yes", "own": "yes"})


class FromOthers(Workflow):
    """Folders that somebody else has made."""

    def test_marks_of_audits_that_came_with_the_folder_do_not_count(self) -> None:
        from hashlib import sha256

        self.days("forged", "right")
        self.ends_well()
        forged = RIGHT
        for old, new in ((b"cost 850", b"cost 851"), (b"payments 164", b"payments 165"), (b"gap 164", b"gap 165")):
            forged = forged.replace(old, new)
        forged = forged.replace(b"scheduled 196000000 payment 98000000", b"scheduled 195000000 payment 99000000")
        write(self.result("forged/report.txt"), forged.decode())
        for step, place in (("report", "made"), ("audit", "of")):
            record = json.loads(read(self.result(f"forged/.steps/{step}.made.json")))
            record[place]["report.txt" if step == "report" else "report"] = sha256(forged).hexdigest()
            write(self.result(f"forged/.steps/{step}.made.json"), json.dumps(record))
        self.env["HOME"] = f"{self.room}/another home"
        self.calls()
        is_right, _ = self.run_all("--retries", "0")
        self.assertFalse(is_right)
        self.assertEqual(self.calls(), ["audit days/forged", "audit days/right"])
        self.assertTrue(self.left()["forged"][0].startswith("audit: refused: fault 8 report 61 at "), self.left())
        self.assertEqual(self.audited(), {"forged": "no", "right": "yes"})
        self.assertFalse(os.path.exists(self.result("forged/audit.txt")))

    def test_marks_are_not_looked_for_in_the_study(self) -> None:
        self.days("one")
        for place in (f"{self.study}/marks", "results/marks"):
            is_right, said = self.run_all(audits=place)
            self.assertFalse(is_right)
            self.assertIn("is inside the study", said)

    def test_settings_that_came_with_a_folder_are_refused(self) -> None:
        self.days("one")
        self.ends_well()
        name = self.result(".steps/settings.json")
        words = [
            "/usr/bin/env",
            "python3",
            f"{ROOT}/workflow/scripts/summary.py",
            "--settings",
            "results/.steps/settings.json",
        ]
        settings = json.loads(read(name))
        for change in ({"audits": f"{self.study}/marks"}, {"audits": "../marks"}, {"results": "other"}, {"x": 1}):
            write(name, json.dumps({**settings, **change}))
            ran = subprocess.run(words, cwd=self.study, env=self.env, capture_output=True, text=True)
            self.assertEqual((ran.returncode, ran.stdout), (1, ""), change)
            self.assertEqual(ran.stderr.count("\n"), 1, ran.stderr)
        self.assertFalse(os.path.exists(f"{self.study}/other"))
        write(name, json.dumps(settings))
        ran = subprocess.run(words, cwd=self.study, env=self.env, capture_output=True, text=True)
        self.assertEqual((ran.returncode, ran.stderr), (0, ""))

    def test_an_audit_is_of_the_files_that_are_noted(self) -> None:
        self.day("swapped", "the report is another meanwhile")
        write(f"{self.study}/days/swapped/report.txt", RIGHT.replace(b"payments 164", b"payments 165").decode())
        self.assertFalse(self.run_all("--retries", "0")[0])
        self.assertTrue(self.left()["swapped"][0].startswith("audit: refused: fault 8 report 61 at "), self.left())
        self.assertEqual(set(self.audited().values()), set())

    def test_names_that_no_day_can_have_are_refused(self) -> None:
        self.days("one", "-", "a\nb", "{c}", "$(touch x)")
        write(f"{self.study}/case.json", read(f"{EXAMPLES}/usual/case.json").decode())
        shutil.copy(f"{EXAMPLES}/usual/schedule.json", self.study)
        before = sorted(os.listdir(self.study))
        self.assertFalse(self.run_all()[0])
        self.assertEqual(set(self.left()), {"'-'", "'a?b'", "'{c}'", "'$(touch x)'"})
        self.assertFalse(self.run_all(only=["", ".", "..", "one", "../study/days/one", "none"])[0])
        self.assertEqual(set(self.left()), {"''", "'.'", "'..'", "'../study/days/one'", "none"})
        self.assertTrue(all(len(why) == 1 for why in self.left().values()), self.left())
        self.assertEqual(sorted(os.listdir(self.study)), sorted([*before, ".snakemake", "results"]))
        self.assertEqual(self.calls(), ["audit days/one", "price days/one"])

    def test_symbolic_links_lead_nowhere(self) -> None:
        self.days("folder", "hidden", "log", "report", "flag", "record", "lock", "taken", "right")
        self.day("fails", "its output is cut")
        outside = f"{self.room}/outside"
        os.mkdir(outside)
        write(f"{outside}/precious", "precious\n")
        for name in ("hidden", "log", "report", "flag", "record", "lock", "taken", "fails"):
            os.makedirs(self.result(name))
        for name in ("flag/.steps", "record/.steps", "lock/.steps", "taken/.steps", "fails/log"):
            os.mkdir(self.result(name))
        write(
            self.result("taken/.steps/report.made.json"),
            '{"made": {"report.txt": "a record that came with the folder"}}',
        )
        links = {
            "hidden/.steps": "",
            "log/log": "",
            "folder": "",
            "report/report.txt": "/precious",
            "table.csv": "/precious",
        }
        links.update({"flag/.steps/report.flag": "/precious", "record/.steps/report.made.json": "/precious"})
        links.update(
            {
                "lock/.steps/report.lock": "/precious",
                "taken/report.txt": "/precious",
                "fails/log/report.txt": "/precious",
            }
        )
        for name, to in links.items():
            os.symlink(outside + to, self.result(name))
        self.assertFalse(self.run_all("--retries", "1")[0])
        self.assertEqual(os.listdir(outside), ["precious"])
        self.assertEqual(read(f"{outside}/precious"), b"precious\n")
        self.assert_priced("right", "flag", "record", "taken")
        os.unlink(self.result("table.csv"))
        self.run_all("--retries", "0")
        self.assertEqual(set(self.left()), {"folder", "hidden", "log", "report", "lock", "fails"})
        for name in ("results", ".snakemake", ".snakemake/metadata"):
            shutil.rmtree(f"{self.study}/{name}", ignore_errors=True)
            os.symlink(outside, f"{self.study}/{name}")
            is_right, said = self.run_all()
            self.assertFalse(is_right)
            self.assertIn("symbolic link, and nothing is written through it", said)
            os.unlink(f"{self.study}/{name}")
            os.mkdir(f"{self.study}/{name}")
        self.assertEqual(read(f"{outside}/precious"), b"precious\n")

    def test_files_of_the_user_with_names_like_ours_stay(self) -> None:
        self.days("theirs", "beside")
        kept = [
            f"{self.study}/results/beside/{name}" for name in ("audit.xlsx", "report.partners.csv", "report.txt.bak")
        ]
        kept += [self.result("theirs/report.txt"), f"{self.study}/days/beside/audit.txt", self.result("page.html")]
        for name in kept:
            os.makedirs(os.path.dirname(name), exist_ok=True)
            write(name, "mine\n")
        is_right, said = self.run_all("--retries", "0")
        self.assertFalse(is_right)
        self.assertIn("results/page.html wasn't made by this workflow, so it stays: move it away", said)
        os.rename(kept.pop(), f"{self.study}/page.html")
        self.assertFalse(self.run_all()[0])
        self.assertEqual(
            self.left(),
            {"theirs": ["results/theirs/report.txt wasn't made by this workflow, so it stays: move it away"]},
        )
        self.assertEqual({read(name) for name in kept}, {b"mine\n"})
        self.assert_priced("beside")


class Lists(Workflow):
    """Price lists, the table and the page."""

    def test_every_list_of_days_with_and_without_a_schedule(self) -> None:
        """Of examples/evening any prices leave 135.71 of uplift at least, and of examples/usual 145.50 (worked by hand there)."""
        self.day("evening", example="evening")
        self.day("usual")
        self.day("made")
        os.remove(f"{self.study}/days/made/schedule.json")
        lists = ["lmp", "elmp", "relaxation", "subgradient_100", "subgradient_1000", "convex_hull"]
        is_right, said = self.run_all(lists=lists, elmp_words="--fast-start G1", convex_words="--within 10000")
        if "SciPy" in said:
            self.skipTest("Snakemake's Python has no SciPy")
        self.assertTrue(is_right, said)
        rows = {(row["day"], row["list"]): row for row in self.table() if row["kind"] == "day"}
        self.assertEqual(
            set(rows), {(day, name) for day in ("evening", "made", "usual") for name in (*lists, "report")}
        )
        for day, least in (("evening", 135.714285), ("usual", 145.5)):
            for name in (*lists, "report"):
                self.assertAlmostEqual(float(rows[day, name]["certified_least_currency"]), least, delta=0.011)
                self.assertGreaterEqual(float(rows[day, name]["above_least_currency"]), 0)
            self.assertLessEqual(float(rows[day, "convex_hull"]["above_least_currency"]), 0.01)
        self.assertEqual(rows["usual", "report"]["uplift_currency"], "164")
        schedules = {day: row["schedule"] for (day, _), row in rows.items()}
        self.assertEqual(schedules, {"evening": "given", "made": "made", "usual": "given"})
        units = [
            row for row in self.table() if (row["day"], row["list"]) == ("usual", "report") and row["kind"] != "day"
        ]
        self.assertEqual([(row["unit"], row["payments_currency"]) for row in units], [("G1", "66"), ("W1", "98")])
        page = read(self.result("page.html")).decode()
        for due in ("<svg", "certified least", "3 days are wanted, and 3 have prices. Certified are 3, audited are 3."):
            self.assertIn(due, page)
        self.assertIn("No whole prices within the limits of prices have one below the certified least.", page)

    def test_a_list_whose_prices_were_cut_is_left(self) -> None:
        """Of examples/usual without wind, and with G1 at 20,000.00 per MW, twice the limit."""

        def dear(case: Any) -> None:
            case.update(reserves=[0], renewable_generators={})
            case["thermal_generators"]["G1"]["piecewise_production"] = [
                {"mw": at, "cost": at * 20000} for at in (8, 20)
            ]

        self.day("dear")
        self.change("dear", "case.json", dear)
        plan = {"thermal": {"G1": {"on": [1], "power": [10000], "reserve": [0]}}, "renewable": {}}
        write(f"{self.study}/days/dear/schedule.json", json.dumps(plan))
        is_right, said = self.run_all(lists=["lmp"])
        if "SciPy" in said:
            self.skipTest("Snakemake's Python has no SciPy")
        self.assertFalse(is_right, said)
        due = (
            "lmp: prices of 1 period were cut at the limits, per MW and period: energy of period 1 from 20000 to 10000"
        )
        self.assertIn(due, self.left()["dear"])
        checks = [call for call in self.calls() if call.startswith("check")]
        self.assertEqual(checks, ["check days/dear"], "another attempt can't help")


class Slurm(unittest.TestCase):
    def test_states_of_jobs(self) -> None:
        with tempfile.TemporaryDirectory() as room:
            write(f"{room}/scontrol", '#!/bin/sh\necho "JobId=$4 JobName=x JobState=$STATE Reason=None"\n')
            os.chmod(f"{room}/scontrol", 0o755)
            for states, due in (
                ("COMPLETED", "success"),
                ("PENDING CONFIGURING RUNNING COMPLETING SUSPENDED REQUEUED", "running"),
                ("CANCELLED FAILED OUT_OF_MEMORY TIMEOUT NODE_FAIL PREEMPTED BOOT_FAIL DEADLINE", "failed"),
            ):
                for state in states.split():
                    env = {"PATH": f"{room}:/usr/bin:/bin", "STATE": state}
                    words = [f"{PROFILES}/slurm/status.sh", "7"]
                    told = subprocess.run(words, env=env, capture_output=True, text=True, check=True)
                    self.assertEqual(told.stdout, f"{due}\n", state)


if __name__ == "__main__":
    unittest.main()
