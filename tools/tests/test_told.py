"""What the tools say at a terminal, by any locale, and where standard files are closed or there is no environment."""
from __future__ import annotations

import glob
import json
import os
import pty
import shutil
import subprocess
import sys
import tempfile
import unittest
from typing import Dict, List, Tuple

from tool import EXAMPLES, PROGRAM, ROOT, python_with, run

from hulltools.telling import one_line

NAME = "\x1b]0;pwned\x07\x1b[31mRED\u202eesrever\u009b31m\x7f\u2066\u200f, 7"
ODD = [*map(chr, range(32)), *map(chr, range(127, 160)), *"\u200e\u200f\u061c\u202a\u202e\u2066\u2069\u2028"]
SETTLED = f"{EXAMPLES}/usual/price.output"


class WithFiles(unittest.TestCase):
    def setUp(self) -> None:
        self.room = tempfile.mkdtemp(prefix="hull-told-")
        self.addCleanup(shutil.rmtree, self.room)

    def write(self, name: str, text: str) -> str:
        with open(f"{self.room}/{name}", "w", encoding="utf-8", newline="") as file:
            file.write(text)
        return f"{self.room}/{name}"

    def files(self, name: str) -> Tuple[str, str, str]:
        """The usual case, its schedule and zones, with a unit of this name."""
        found = []
        for what, group in (("case", "thermal_generators"), ("schedule", "thermal")):
            with open(f"{EXAMPLES}/usual/{what}.json", encoding="utf-8") as file:
                value = json.load(file)
            value[group] = {name if unit == "G1" else unit: it for unit, it in value[group].items()}
            found.append(self.write(f"{what}.json", json.dumps(value)))
        zones = {"zones": {"C": {"energy": [98]}}, "default": "C"}
        return found[0], found[1], self.write("zones.json", json.dumps(zones))

    def at_terminal(self, tool: str, *words: str, **env: str) -> str:
        """What a tool writes to a terminal."""
        ours, its = pty.openpty()
        command = [sys.executable, "-B", f"{ROOT}/tools/{tool}", *words]
        with subprocess.Popen(command, stdout=its, stderr=subprocess.DEVNULL, env={**os.environ, **env}):
            os.close(its)
            parts: List[bytes] = []
            try:
                while not parts or parts[-1]:
                    parts.append(os.read(ours, 65536))
            except OSError:  # (the terminal is closed)
                pass
        os.close(ours)
        return b"".join(parts).decode()

    def call(self, tool: str, *words: str, env: Dict[str, str], flags: str = "") -> Tuple[int, str, str]:
        command = ["/bin/bash", "-c", f'exec "$@" {flags}', "bash", sys.executable, "-B", f"{ROOT}/tools/{tool}"]
        ended = subprocess.run([*command, *words], env=env, capture_output=True, timeout=120)
        return ended.returncode, ended.stdout.decode(), ended.stderr.decode()


class AtATerminal(WithFiles):
    def shown(self, *words: str) -> str:
        text = self.at_terminal(*words, HULL=PROGRAM).replace("\r\n", "\n").replace("\r", "\n")
        self.assertEqual([it for it in text if it in ODD and it != "\n"], [], text)
        return text

    def test_one_line_has_nothing_that_commands_a_terminal_or_turns_text(self) -> None:
        self.assertEqual(one_line("".join(ODD)), "?" * len(ODD))
        self.assertEqual(one_line("Zürich ½ 東京 é"), "Zürich ½ 東京 é")

    def test_names_of_tables(self) -> None:
        shown = one_line(NAME)
        case, schedule, zones = self.files(NAME)
        self.assertIn(f'"{shown}",', self.shown("settle_zones.py", case, schedule, zones))
        doubled = NAME.replace('"', '""')
        statement = self.write("statement.csv", f'unit,amount\n"{doubled}",7\n"a\nb",1\n')
        told = self.shown("compare.py", SETTLED, statement)
        self.assertIn(f'"{shown}",', told)
        self.assertIn("\na?b,", told)

    def test_elsewhere_names_stay_as_they_are(self) -> None:
        case, schedule, zones = self.files(NAME)
        words = (case, schedule, zones)
        self.assertIn(f'"{NAME}",', self.call("settle_zones.py", *words, env={**os.environ, "HULL": PROGRAM})[1])

    def test_words_that_are_refused(self) -> None:
        for words in (
            ["lmp.py", "a", "b", "c", NAME],
            ["study.py", "a", "b", "--hours-per-period", NAME],
            ["report.py", NAME],
        ):
            status, text, said = self.call(*words, env=dict(os.environ))
            self.assertEqual((status, text, [it for it in said if it in ODD and it != "\n"]), (2, "", []), said)
            self.assertIn("[31mRED", said)

    def test_findings(self) -> None:
        with open(f"{EXAMPLES}/usual/case.json", encoding="utf-8") as file:
            case = json.load(file)
        unit = {**case["thermal_generators"]["G1"], "must_run": 7}
        case["thermal_generators"] = {f"{place} {NAME}": unit for place in range(9)}
        name = self.write("case.json", json.dumps(case))
        self.assertIn(" more like that: ", self.shown("lint.py", name))
        self.assertIn("\\u202e", self.shown("lint.py", name, "--json"))
        self.assertIn("\u202e", self.call("lint.py", name, "--json", env=dict(os.environ))[1])
        case["thermal_generators"] = {NAME: {**unit, "must_run": 1, "owner": "me"}}
        name = self.write("case.json", json.dumps(case))
        self.assertIn("?", self.shown("convert.py", name, f"{self.room}/to.json"))


class AnyLocale(WithFiles):
    def test_names_are_written_in_utf_8(self) -> None:
        env = {
            "LC_ALL": "C",
            "PYTHONUTF8": "0",
            "PYTHONCOERCECLOCALE": "0",
            "HULL_PROGRESS": "0",
            "PATH": os.defpath,
            "HULL": PROGRAM,
        }
        case, schedule, zones = self.files("Zürich")
        status, text, said = self.call("settle_zones.py", case, schedule, zones, env=env)
        self.assertEqual((status, said), (0, ""))
        self.assertIn("Zürich,", text)
        statement = self.write("statement.csv", "unit,amount\nZürich,7\n")
        status, text, said = self.call("compare.py", SETTLED, statement, env=env)
        self.assertEqual(status, 3)
        self.assertIn("Zürich,", text)


class ModulesBeside(unittest.TestCase):
    def test_a_python_that_takes_no_module_from_beside_a_tool(self) -> None:
        names = sorted(glob.glob(f"{ROOT}/tools/*.py"))
        names += [f"{ROOT}/workflow/scripts/{script}.py" for script in ("step", "summary")]
        self.assertGreater(len(names), 10)
        for flags, env in ((["-I"], {}), ([], {"PYTHONSAFEPATH": "1"})):
            for name in names:
                command = [sys.executable, "-B", *flags, name, "--help"]
                ended = subprocess.run(command, cwd="/", env={**os.environ, **env}, capture_output=True, timeout=120)
                self.assertEqual((ended.returncode, ended.stderr, ended.stdout[:7]), (0, b"", b"usage: "), command)


class WithoutDescriptions(unittest.TestCase):
    def test_each_tool_shows_its_usage_all_the_same(self):
        for tool in sorted(it for it in os.listdir(f"{ROOT}/tools/hulltools/commands") if it.endswith(".py")):
            if os.path.exists(f"{ROOT}/tools/{tool}"):
                due = run(tool, "--help")
                self.assertEqual((run(tool, "--help", flags=("-OO",)), due[0]), (due, 0), tool)
                self.assertIn(f"usage: {tool} ", due[1])


class LittleAround(WithFiles):
    def setUp(self) -> None:
        super().setUp()
        if python_with("scipy") != sys.executable:
            self.skipTest("this Python has no SciPy")
        self.words = [f"{EXAMPLES}/usual/{it}.json" for it in ("case", "schedule")] + [f"{self.room}/prices.json"]

    def test_without_an_environment(self) -> None:
        tool = f"{ROOT}/tools/lmp.py"
        command = [
            "/usr/bin/env",
            "-i",
            "HULL_PROGRESS=0",
            "/usr/bin/env",
            "python3",
            "-B",
            tool,
            *self.words,
            "--hull",
            PROGRAM,
        ]
        ended = subprocess.run(command, capture_output=True, timeout=120)
        if b"Needs SciPy" in ended.stderr or b"needs SciPy" in ended.stderr:
            self.skipTest("the Python of an empty environment has no SciPy")
        self.assertEqual((ended.returncode, ended.stderr), (0, b""))
        self.assertTrue(os.path.exists(self.words[2]))

    def test_standard_files_that_are_closed(self) -> None:
        for flags in ("<&- >&-", "<&-", "<&- >&- 2>&-"):
            status, _, said = self.call("lmp.py", *self.words, env={**os.environ, "HULL": PROGRAM}, flags=flags)
            self.assertEqual((status, said), (0, ""), flags)
            os.unlink(self.words[2])

    def test_a_table_without_standard_output_is_refused(self) -> None:
        case, schedule, zones = self.files("G1")
        words = ("settle_zones.py", case, schedule, zones)
        told = self.call(*words, env={**os.environ, "HULL": PROGRAM}, flags=">&-")
        self.assertEqual(told, (1, "", "settle_zones.py: standard output is closed\n"))


if __name__ == "__main__":
    unittest.main()
