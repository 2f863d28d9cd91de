"""What the tools write: whole files, pairs of files, open files such as /dev/stdout, and links."""
import errno
import os
import shutil
import subprocess
import sys
import tempfile
import unittest
from unittest import mock

from tool import EXAMPLES, ROOT, python_with, run

from hulltools import errors
from hulltools.study_folder import SUMS

PRICES = '{"energy": [98], "reserve": [0]}\n'


def files(example: str) -> tuple[str, str]:
    return f"{EXAMPLES}/{example}/case.json", f"{EXAMPLES}/{example}/schedule.json"


class Outputs(unittest.TestCase):
    def setUp(self) -> None:
        self.room = tempfile.mkdtemp(prefix="hull-outputs-")
        self.addCleanup(shutil.rmtree, self.room)
        shutil.copy(f"{EXAMPLES}/usual/price.output", f"{self.room}/report.txt")

    def path(self, name: str) -> str:
        return f"{self.room}/{name}"

    def read(self, name: str) -> str:
        with open(self.path(name), encoding="utf-8") as file:
            return file.read()

    def write(self, name: str, text: str) -> None:
        with open(self.path(name), "w", encoding="utf-8") as file:
            file.write(text)

    def names(self) -> list[str]:
        return sorted(os.listdir(self.room))


class OpenFiles(Outputs):
    """A name that leads to an open file: what it is told goes behind what is there."""

    def shell(self, command: str) -> tuple[int, str, str]:
        """A shell's run with `prices X`, which writes the prices of the report to X."""
        tool = f'prices() {{ "{sys.executable}" -B "{ROOT}/tools/report.py" prices report.txt "$1"; }}\n'
        ended = subprocess.run(
            ["bash", "-c", tool + command], cwd=self.room, capture_output=True, text=True, timeout=60
        )
        return ended.returncode, ended.stdout, ended.stderr

    def test_a_log_is_gone_on_with(self) -> None:
        os.symlink("/dev/stdout", self.path("link"))
        for name in ("/dev/stdout", "/dev/fd/1", "/proc/self/fd/1", "link"):
            self.write("log", "old line\n")
            self.assertEqual(self.shell(f"prices {name} >> log"), (0, "", ""))
            self.assertEqual(self.read("log"), f"old line\n{PRICES}", name)
        self.assertTrue(os.path.islink(self.path("link")))

    def test_what_comes_before_and_after_stays(self) -> None:
        self.assertEqual(self.shell("{ echo before; prices /dev/stdout; echo after; } > log"), (0, "", ""))
        self.assertEqual(self.read("log"), f"before\n{PRICES}after\n")
        self.assertEqual(self.shell("{ echo before; prices /dev/fd/3 3>&1; } > log"), (0, "", ""))
        self.assertEqual(self.read("log"), f"before\n{PRICES}")

    def test_an_open_file_of_another_process_is_gone_on_with(self) -> None:
        self.write("log", "old line\n")
        self.assertEqual(self.shell("exec 3>>log; prices /proc/$$/fd/3"), (0, "", ""))
        self.assertEqual(self.read("log"), f"old line\n{PRICES}")

    def test_a_pipe(self) -> None:
        self.assertEqual(self.shell("prices /dev/stdout | cat"), (0, PRICES, ""))

    def test_what_is_refused_is_told_with_its_name(self) -> None:
        for command, why in (
            ("prices /dev/full", "/dev/full: No space left on device"),
            ("prices /dev/stdout > /dev/full", "/dev/stdout: No space left on device"),
            ("prices /dev/stdin < /dev/null", "/dev/stdin: Bad file descriptor"),
        ):
            self.assertEqual(self.shell(command), (1, "", f"report.py: {why}\n"))


class Together(Outputs):
    """Files that belong together."""

    def setUp(self) -> None:
        super().setUp()
        self.write("first", "old\n")
        os.remove(self.path("report.txt"))

    def pair(self) -> None:
        errors.write_together({self.path("first"): "new\n", self.path("second"): "new\n"})

    def test_both_appear(self) -> None:
        os.chmod(self.path("first"), 0o640)
        self.pair()
        self.assertEqual(
            (self.names(), self.read("first"), self.read("second")), (["first", "second"], "new\n", "new\n")
        )
        self.assertEqual(os.stat(self.path("first")).st_mode & 0o777, 0o640)

    def refused(self, what: str, of: str) -> None:
        """A call of the system that fails at the second file leaves the folder as it was."""
        real, calls = getattr(os, what), []

        def failing(*words, **more):
            calls.append(words)
            if len(calls) == 2:
                raise OSError(errno.ENOSPC, os.strerror(errno.ENOSPC))
            return real(*words, **more)

        with mock.patch.object(os, what, failing):
            self.assertRaisesRegex(errors.HullError, f"{of}: No space left", self.pair)
        self.assertEqual((self.names(), self.read("first")), (["first"], "old\n"), what)

    def test_none_appears_where_one_cannot_be_written(self) -> None:
        for what in ("fsync", "chmod", "replace"):
            self.refused(what, "second")

    def test_what_was_there_comes_back(self) -> None:
        self.write("second", "older\n")
        real, calls = os.replace, []

        def failing(*words, **more):
            calls.append(words)
            if len(calls) == 2:
                raise OSError(errno.EIO, os.strerror(errno.EIO))
            return real(*words, **more)

        for has_links in (True, False):
            calls.clear()
            refused = mock.patch.object(os, "link", os.link if has_links else mock.Mock(side_effect=PermissionError))
            with mock.patch.object(os, "replace", failing), refused:
                self.assertRaises(errors.HullError, self.pair)
            self.assertEqual(self.names(), ["first", "second"])
            self.assertEqual((self.read("first"), self.read("second")), ("old\n", "older\n"))

    def test_tables_of_a_report_appear_together(self) -> None:
        report = f"{EXAMPLES}/usual/price.output"
        real, calls = os.fsync, []

        def failing(handle):
            calls.append(handle)
            if len(calls) == 4:
                raise OSError(errno.ENOSPC, os.strerror(errno.ENOSPC))
            return real(handle)

        with mock.patch.object(os, "fsync", failing):
            status, _, said = run("report.py", "csv", report, self.path("tables"))
        self.assertEqual((status, said.count("\n"), os.listdir(self.path("tables"))), (1, 1, []))
        self.assertEqual(run("report.py", "csv", report, self.path("tables")), (0, "", ""))
        tables = ("prices.csv", "proposals.csv", "responses.csv", "runs.csv", "units.csv")
        self.assertEqual(sorted(os.listdir(self.path("tables"))), sorted((SUMS, *tables)))


class Links(Outputs):
    def test_a_link_in_a_folder_is_replaced_and_its_file_stays(self) -> None:
        self.write("precious", "precious\n")
        os.mkdir(self.path("tables"))
        os.symlink("../precious", self.path("tables/units.csv"))
        self.assertEqual(run("report.py", "csv", self.path("report.txt"), self.path("tables")), (0, "", ""))
        self.assertEqual(self.read("precious"), "precious\n")
        self.assertTrue(self.read("tables/units.csv").startswith("report,"))
        self.assertFalse(os.path.islink(self.path("tables/units.csv")))

    def test_a_link_that_is_named_is_followed(self) -> None:
        self.write("prices.json", "old\n")
        os.symlink("prices.json", self.path("link"))
        self.assertEqual(run("report.py", "prices", self.path("report.txt"), self.path("link")), (0, "", ""))
        self.assertEqual((self.read("prices.json"), os.path.islink(self.path("link"))), (PRICES, True))


class TriedFirst(Outputs):
    """What can't be written is told before a search: here the program would be asked, and there is none."""

    def refused(self, tool: str, *words: str) -> str:
        python = python_with("scipy.optimize._milp")
        if not python:
            self.skipTest("no Python here has SciPy with milp")
        before = self.names()
        status, text, said = run(tool, *words, "--hull", "/nowhere/hull", python=python)
        self.assertEqual((status, text, said.count("\n"), self.names()), (1, "", 1, before), said)
        return said.removeprefix(f"{tool}: ").replace(self.room, "ROOM")

    def test_outputs_are_tried_before_a_search(self) -> None:
        case, schedule = files("usual")
        fine, none = self.path("fine.json"), "/nonexistent/out.json"
        os.mkdir(self.path("folder"))
        self.assertEqual(self.refused("make_schedule.py", case, none), "/nonexistent: No such file or directory\n")
        self.assertEqual(self.refused("lmp.py", case, schedule, self.path("folder")), "ROOM/folder: Is a directory\n")
        self.assertEqual(self.refused("elmp.py", case, schedule, self.path("folder")), "ROOM/folder: Is a directory\n")
        words = (case, fine, "--follow", schedule, "--deviations", none)
        self.assertEqual(self.refused("make_schedule.py", *words), "/nonexistent: No such file or directory\n")
        for words in ((none, fine), (fine, none)):
            said = self.refused("convex_prices.py", case, schedule, *words)
            self.assertEqual(said, "/nonexistent: No such file or directory\n")
        said = self.refused("convex_prices.py", case, schedule, fine, self.path("folder"))
        self.assertEqual(said, "ROOM/folder: Is a directory\n")
        self.assertIn("/nowhere/hull", self.refused("convex_prices.py", case, schedule, fine, self.path("other.json")))


if __name__ == "__main__":
    unittest.main()
