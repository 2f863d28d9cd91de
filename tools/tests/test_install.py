"""The package installs without the network into a fresh virtual environment, and works from any folder."""
import glob
import os
import re
import shutil
import subprocess
import tempfile
import unittest

from tool import EXAMPLES, PROGRAM, ROOT, python_with

PYTHON = "/usr/bin/python3"
EVENING = [f"{EXAMPLES}/evening/{it}.json" for it in ("case", "schedule")]


def has(*modules: str) -> bool:
    """Whether the system's Python has the modules."""
    try:
        return subprocess.run([PYTHON, "-c", f"import {', '.join(modules)}"], capture_output=True).returncode == 0
    except OSError:
        return False


@unittest.skipUnless(has("venv", "ensurepip", "setuptools", "wheel"), f"{PYTHON} has no venv, setuptools or wheel")
class Install(unittest.TestCase):
    @classmethod
    def setUpClass(cls) -> None:
        cls.room = os.path.realpath(tempfile.mkdtemp(prefix="hull-install-"))
        cls.addClassCleanup(shutil.rmtree, cls.room)
        # (a build writes beside the sources, which may be somebody else's)
        shutil.copytree(f"{ROOT}/tools", f"{cls.room}/tools", ignore=shutil.ignore_patterns("tests", "__pycache__"))
        subprocess.run(["chmod", "-R", "u+w", f"{cls.room}/tools"], check=True)
        cls.bin = f"{cls.room}/environment/bin"
        environment = [PYTHON, "-m", "venv", "--system-site-packages", f"{cls.room}/environment"]
        install = [f"{cls.bin}/pip", "install", "--no-index", "--no-build-isolation", f"{cls.room}/tools"]
        if not has("numpy", "scipy"):
            install.append("--no-deps")
        for words in (environment, install):
            ran = subprocess.run(words, capture_output=True, text=True, env=cls.env(), cwd="/", timeout=300)
            assert ran.returncode == 0, ran.stdout + ran.stderr
        os.mkdir(f"{cls.room}/path")
        os.symlink(f"{ROOT}/hull", f"{cls.room}/path/hull")

    @classmethod
    def env(cls, **more: str) -> dict[str, str]:
        return {"PATH": "/usr/bin:/bin", "HOME": cls.room, **more}

    def call(self, *words: str, **env: str) -> tuple[int, str, str]:
        """Status, standard output and standard error of a command of the environment."""
        how = {"capture_output": True, "text": True, "cwd": "/", "timeout": 300}
        ran = subprocess.run([f"{self.bin}/{words[0]}", *words[1:]], env=self.env(**env), **how)
        return ran.returncode, ran.stdout, ran.stderr

    def test_each_module_is_there(self) -> None:
        there = glob.glob(f"{self.room}/environment/lib/python3*/site-packages/hulltools/**/*.py", recursive=True)
        due = glob.glob(f"{ROOT}/tools/hulltools/**/*.py", recursive=True)
        names = [sorted(it.split("/hulltools/")[1] for it in files) for files in (there, due)]
        self.assertEqual(names[0], names[1])

    def test_types_are_there(self) -> None:
        marks = glob.glob(f"{self.room}/environment/lib/python3*/site-packages/hulltools/py.typed")
        self.assertEqual(len(marks), 1)

    def test_each_command_says_how_it_is_called(self) -> None:
        with open(f"{ROOT}/tools/pyproject.toml", encoding="utf-8") as file:
            commands = re.findall(r'^(hull-[\w-]+) = "', file.read(), re.M)
        self.assertGreater(len(commands), 5)
        for command in commands:
            status, text, said = self.call(command, "--help")
            self.assertEqual((status, said), (0, ""), command)
            self.assertTrue(text.startswith("usage: "), command)

    def test_a_call_finds_the_program_by_its_variable_or_on_the_path(self) -> None:
        check = f"import hulltools; print(hulltools.check({EVENING[0]!r}, {EVENING[1]!r}))"
        path = f"{self.room}/path:/usr/bin:/bin"
        for env in ({"HULL": PROGRAM}, {"PATH": path}):
            status, text, said = self.call("python", "-c", check, **env)
            self.assertEqual((status, said), (0, ""))
            self.assertRegex(text, r"\A\d+\n\Z")
        status, text, said = self.call("python", "-c", check)
        self.assertEqual((status, text), (1, ""))
        self.assertIn(
            "no `hull` is on the path: give its place as `hull=` or `Hull(place)`, or in the variable HULL", said
        )
        self.assertNotIn("--hull", said)
        status, text, said = self.call("hull-settle-zones", *EVENING, EVENING[0])
        self.assertIn("no `hull` is on the path: give its place by --hull, or in the variable HULL", said)

    def test_the_first_session_of_the_page_runs_as_it_is_written(self) -> None:
        """docs/PYTHON.md: what its section of installing sets, and PYTHONPATH without an installation, in the folder of the examples."""
        with open(f"{ROOT}/docs/PYTHON.md", encoding="utf-8") as page:
            session, install = re.findall(r"```sh\n(.*?)```", page.read(), re.S)[:2]
        for line in ("python3 -m venv --system-site-packages V", "V/bin/pip install ./tools", "export HULL=$PWD/hull"):
            self.assertIn(line, install.split("\n"))
        code = 'import hulltools\nprint(hulltools.settle("usual/case.json", "usual/schedule.json", hulltools.per_mwh(98)).payments)\n'
        set_up = f"cd {ROOT!r}; export HULL=$PWD/hull; cd examples; {self.bin}/python3"
        for words in (set_up, session.strip()):
            how = {"input": code, "capture_output": True, "text": True, "cwd": EXAMPLES, "timeout": 300}
            ran = subprocess.run(["sh", "-c", f"{words} -B -"], env=self.env(), **how)
            self.assertEqual((ran.returncode, ran.stdout, ran.stderr), (0, "164000000\n", ""), words)

    def test_commands_read_and_write(self) -> None:
        ran = subprocess.run([PROGRAM, "price", "--case", EVENING[0], "--schedule", EVENING[1]], capture_output=True)
        with open(f"{self.room}/report", "wb") as file:
            file.write(ran.stdout)
        self.assertEqual(self.call("hull-report", "page", f"{self.room}/report", f"{self.room}/page.html"), (0, "", ""))
        self.assertTrue(os.path.exists(f"{self.room}/page.html"))
        if not python_with("scipy"):
            self.skipTest("SciPy isn't there")
        words = ["hull-make-schedule", EVENING[0], f"{self.room}/schedule.json"]
        self.assertEqual(self.call(*words, HULL=PROGRAM)[0], 0)
        ran = subprocess.run([PROGRAM, "check", "--case", EVENING[0], "--schedule", words[2]], capture_output=True)
        self.assertEqual(ran.returncode, 0)


if __name__ == "__main__":
    unittest.main()
