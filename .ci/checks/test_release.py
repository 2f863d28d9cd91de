"""A release: made twice it is the same to the byte, and unpacked elsewhere it needs neither the repository nor the kit."""
import glob
import os
import re
import shutil
import subprocess
import sys
import tempfile
import unittest

from built import EXAMPLES, PROGRAM, ROOT, run

BARE = {"PATH": "/usr/bin:/bin", "HOME": "/"}
ALWAYS = {
    "GIT_AUTHOR_DATE": "2026-01-01T12:00:00Z",
    "GIT_COMMITTER_DATE": "2026-01-01T12:00:00Z",
    "GIT_CONFIG_GLOBAL": "/dev/null",
}
FILES = ("case", "schedule")


def read(name):
    with open(name, encoding="utf-8") as file:
        return file.read()


VERSION = re.search(r"^## (\d[\d.]*)", read(f"{ROOT}/CHANGELOG.md"), re.M)[1]
KIT = re.search(r"`(rattle-kit-[^`]*)`", read(f"{ROOT}/README.md"))[1]
NAME = f"hull-{VERSION}-linux-x86_64"
ROOM = f"{os.path.realpath(tempfile.gettempdir())}/hull-release-{os.getpid()}"
ONE = f"{ROOM}/one"
ENV = {**BARE, **ALWAYS, "PATH": f"{ROOM}/bin:{BARE['PATH']}"}


def call(folder, *words, **how):
    done = subprocess.run(words, cwd=folder, env=ENV, capture_output=True, timeout=300, **how)
    return done.returncode, done.stdout.decode(), done.stderr.decode()


def ship_program(folder):
    """Puts the program into the repository's dist, as one that was made of what is there."""
    os.makedirs(f"{folder}/crates/hull_cli/out", exist_ok=True)
    shutil.copy(PROGRAM, f"{folder}/crates/hull_cli/out/hull_cli")
    note = 'home=$PWD; . tools/made_of.sh; taken=$(what_is_there); note_what_it_is_made_of "$taken"'
    assert call(folder, "bash", "-c", note)[0] == 0
    assert call(folder, "tools/ship.sh") == (0, "", "")
    shutil.rmtree(f"{folder}/crates/hull_cli/out")


def commit(folder, text):
    for words in (["add", "-A"], ["-c", "user.name=a", "-c", "user.email=a@b", "commit", "-qm", text]):
        assert call(folder, "git", *words)[0] == 0


def release(folder, *words):
    return call(folder, "tools/release.sh", *words)


def setUpModule():
    """A repository `one` of the files of this one in a commit of its own, with its program in dist and a stand-in for the kit's command."""
    os.mkdir(ROOM)
    unittest.addModuleCleanup(shutil.rmtree, ROOM)
    os.mkdir(f"{ROOM}/bin")
    with open(f"{ROOM}/bin/rt", "w", encoding="utf-8") as file:
        file.write(f"#!/bin/sh\necho '{KIT}'\n")
    os.chmod(f"{ROOM}/bin/rt", 0o755)
    shutil.copytree(ROOT, ONE, ignore=shutil.ignore_patterns("out", ".git", "__pycache__", "*.pyc"))
    ship_program(ONE)
    assert call(ONE, "git", "init", "-q")[0] == 0
    commit(ONE, "One")


class Making(unittest.TestCase):
    def test_twice_in_two_folders_it_is_the_same(self):
        other = f"{ROOM}/another folder"
        precious = f"{ROOM}/precious"
        with open(precious, "w", encoding="utf-8") as file:
            file.write("precious")
        os.symlink(precious, f"{ROOM}/{NAME}.tar.gz.part")
        before = os.umask(0o077)
        try:
            self.assertEqual(call(ROOM, "git", "clone", "-q", "one", other)[0], 0)
            made = [release(folder, VERSION, ROOM) for folder in (ONE, other)]
        finally:
            os.umask(before)
        self.assertEqual(made[0][::2], (0, ""))
        self.assertRegex(made[0][1], rf"\A[0-9a-f]{{64}}  {re.escape(NAME)}\.tar\.gz\n\Z")
        self.assertEqual(made[0], made[1])
        self.assertEqual(call(ROOM, "sha256sum", f"{NAME}.tar.gz")[1], made[0][1])
        self.assertEqual(os.stat(f"{ROOM}/{NAME}.tar.gz").st_mode & 0o777, 0o600)
        self.assertEqual(read(precious), "precious")

    def test_the_name_of_the_folder_of_temporary_files_is_no_command(self):
        for name in ("a'; touch run; echo '", 'b"; touch run; $(touch run)', "it's", "a b\n*"):
            room = f"{ROOM}/{name}"
            os.mkdir(room)
            done = subprocess.run(
                [f"{ONE}/tools/release.sh", VERSION, room],
                cwd=room,
                env={**ENV, "TMPDIR": room},
                capture_output=True,
                timeout=300,
            )
            self.assertEqual((done.returncode, done.stderr), (0, b""), name)
            self.assertEqual(os.listdir(room), [f"{NAME}.tar.gz"])

    def test_the_program_is_no_text_to_git(self):
        asked = ["check-attr", "binary", "dist/linux-x86_64/hull", "dist/linux-x86_64/hull.txt"]
        due = "".join(f"{name}: binary: {it}\n" for name, it in zip(asked[2:], ("set", "unspecified")))
        self.assertEqual(call(ONE, "git", *asked)[1], due)

    def test_what_cannot_be_released(self):
        def refused(why, *words):
            status, output, said = release(ONE, *words)
            self.assertEqual((status, output), (1, ""))
            self.assertRegex(said, rf"\Arelease\.sh: .*{why}.*\n\Z")

        refused("usage")
        refused("usage", "new", ROOM)
        refused("has no heading", "0.0.77", ROOM)
        refused("can't be written", VERSION, f"{ROOM}/none")
        for name, change, version, why in (
            ("dist/linux-x86_64/hull", lambda text: text + "\0", VERSION, "isn't the program that was put there"),
            ("dist/linux-x86_64/hull.txt", lambda text: text + "\n", VERSION, "was changed, or isn't whole"),
            ("crates/hull_cli/src/main.rt", lambda text: text + "\n", VERSION, "is of other sources than are there"),
            (
                "CHANGELOG.md",
                lambda text: text.replace(f"## {VERSION}", f"## 99.9\n\n## {VERSION}"),
                "99.9",
                "has the program of",
            ),
            ("README.md", lambda text: text.replace(KIT, "rattle-kit-0"), VERSION, "names another kit"),
        ):
            with open(f"{ONE}/{name}", encoding="latin-1", newline="") as file:
                text = file.read()
            with open(f"{ONE}/{name}", "w", encoding="latin-1", newline="") as file:
                file.write(change(text))
            refused("aren't those of a commit", version, ROOM)
            commit(ONE, "Another")
            refused(why, version, ROOM)
            self.assertEqual(call(ONE, "git", "reset", "-q", "--hard", "HEAD~")[0], 0)

    def test_the_notice_names_each_crate_of_the_kit_in_the_program(self):
        lines = [
            line.split("#")[0].split(":")
            for line in read(f"{ROOT}/crates.txt").splitlines()
            if ":" in line.split("#")[0]
        ]
        below = {names.split()[0]: stands_on.split() for names, stands_on in lines}
        found, due = ["hull_cli"], set()
        while found:
            new = set(below.get(found.pop(), ())) - due
            due |= new
            found.extend(new)
        notice = read(f"{ROOT}/NOTICE").split()
        self.assertEqual([it for it in sorted(due - set(below)) if it not in notice and f"{it}," not in notice], [])


class Using(unittest.TestCase):
    """The release, unpacked where nothing else is."""

    def setUp(self):
        above = tempfile.mkdtemp(prefix="hull-unpacked-")
        self.addCleanup(shutil.rmtree, above)
        self.assertEqual(release(ONE, VERSION, above)[0], 0)
        self.assertEqual(call(above, "tar", "-xzf", f"{NAME}.tar.gz")[0], 0)
        self.above, self.home = above, f"{above}/{NAME}"

    def hull(self, *words, folder=None, **how):
        return run(words, program=f"{self.home}/hull", folder=folder or self.home, env=BARE, **how)

    def test_what_is_in_it(self):
        names = {os.path.relpath(f"{at}/{it}", self.home) for at, _, files in os.walk(self.home) for it in files}
        due = {"hull", "bin/hull", "VERSION", "README.md", "CHANGELOG.md", "LICENSE", "NOTICE", "SHA256SUMS"}
        due |= {f"docs/{it}" for it in ("FORMATS.md", "REPORT.md", "FAULTS.md", "MANY.md", "hull.1", "help.txt")}
        due |= {"tools/report.py", "tools/make_schedule.py", "workflow/Snakefile", "examples/day/case.json"}
        self.assertEqual(due - names, set())
        self.assertEqual(
            [
                name
                for name in names
                if re.match(r"tools/(build|made_of|program|release|ship|tests)|crates|bench|dist|\.", name)
            ],
            [],
        )
        self.assertEqual(call(self.home, "sha256sum", "--check", "--quiet", "--strict", "SHA256SUMS"), (0, "", ""))
        listed = {it.split("  ", 1)[1] for it in read(f"{self.home}/SHA256SUMS").splitlines()}
        self.assertEqual(listed, names - {"SHA256SUMS"})

    def test_the_version_and_what_the_machine_must_have(self):
        status, text, _ = self.hull("version")
        self.assertEqual((status, text.decode()), (0, read(f"{self.home}/VERSION")))
        commit = call(ONE, "git", "rev-parse", "HEAD")[1].strip()
        first, last = text.decode().split("needs ")
        self.assertEqual(first, f"hull {VERSION}\nkit {KIT}\ncommit {commit}\n")
        self.assertRegex(last, r"\ALinux on x86-64-v\d with glibc 2\.\d+ or later\n\Z")

    def test_the_examples_help_and_faults(self):
        words = ["price", "--case", "case.json", "--schedule", "schedule.json", "--proposals", "1"]
        due = read(f"{EXAMPLES}/usual/price-1.output").encode()
        self.assertEqual(self.hull(*words, folder=f"{self.home}/examples/usual"), (0, due, b""))
        self.assertEqual(self.hull("help"), (0, read(f"{ROOT}/docs/help.txt").encode(), b""))
        self.assertEqual(self.hull("prise"), (1, b"fault 1 words 2 1\n", b""))
        os.symlink(f"{self.home}/hull", f"{self.above}/link")
        self.assertEqual(run([], program=f"{self.above}/link", env=BARE), (1, b"fault 1 words 1 0\n", b""))

    def test_a_program_that_is_empty(self):
        with open(f"{self.home}/bin/hull", "wb"):
            pass
        status, output, said = self.hull("check")
        self.assertEqual((status, output), (127, b""))
        self.assertRegex(said.decode(), r"\Ahull: .*/bin/hull can't be run: it isn't there, or is empty\n\Z")

    def test_a_program_that_is_damaged_or_another(self):
        with open(f"{self.home}/bin/hull", "rb") as file:
            whole = file.read()
        for other in (b"garbage\n", whole[:100_000], whole + b"\0"):
            with open(f"{self.home}/bin/hull", "wb") as file:
                file.write(other)
            status, output, said = self.hull("check")
            self.assertEqual((status, output), (127, b""))
            self.assertRegex(
                said.decode(), r"\Ahull: .*/bin/hull can't be run: it isn't the program that SHA256SUMS names\n\Z"
            )
        os.remove(f"{self.home}/bin/hull")
        self.assertRegex(
            self.hull("check")[2].decode(), r"\Ahull: .*/bin/hull can't be run: it isn't there, or is empty\n\Z"
        )

    def test_the_program_in_a_root_with_the_c_library_alone(self):
        if os.geteuid() != 0:
            self.skipTest("only root can change the root")
        libraries = re.findall(r"(/\S+) \(0x", call("/", "ldd", f"{self.home}/bin/hull")[1])
        self.assertTrue(libraries)
        root = f"{self.above}/root"
        for library in libraries:
            os.makedirs(os.path.dirname(f"{root}{library}"), exist_ok=True)
            shutil.copy(library, f"{root}{library}")
        shutil.copy(f"{self.home}/bin/hull", root)
        for name in FILES:
            shutil.copy(f"{EXAMPLES}/first/{name}.json", root)

        def enter():
            os.chroot(root)
            os.chdir("/")

        due = read(f"{EXAMPLES}/first/price.output").encode()
        words = read(f"{EXAMPLES}/first/price.words").split()
        ended = subprocess.run(["/hull", *words], env={}, preexec_fn=enter, cwd=root, capture_output=True, timeout=120)
        self.assertEqual((ended.returncode, ended.stdout, ended.stderr), (0, due, b""))

    def test_the_tools(self):
        report = f"{self.home}/examples/usual/price-1.output"
        for words in (["csv", report, f"{self.above}/tables"], ["page", report, f"{self.above}/page.html"]):
            os.makedirs(f"{self.above}/tables", exist_ok=True)
            status, _, said = call("/", sys.executable, "-B", f"{self.home}/tools/report.py", *words)
            self.assertEqual((status, said), (0, ""))
        self.assertIn("<html", read(f"{self.above}/page.html"))

    def test_the_workflow(self):
        """A day is priced and audited by the unpacked files alone."""
        if not shutil.which("snakemake", path=BARE["PATH"]):
            self.skipTest("there is no snakemake here")
        study = f"{self.above}/study"
        day = f"{study}/days/a day"
        os.makedirs(day)
        for name in FILES:
            shutil.copy(f"{EXAMPLES}/usual/{name}.json", day)
        flow, env = f"{self.home}/workflow", {**BARE, "HOME": f"{self.above}/home"}
        words = ["snakemake", "-s", f"{flow}/Snakefile", "--profile", f"{flow}/profiles/here", "--config", "lists=[]"]
        ended = subprocess.run(words, cwd=study, env=env, capture_output=True, timeout=300)
        self.assertEqual(ended.returncode, 0, ended.stderr)
        self.assertTrue(read(f"{study}/results/a day/audit.txt").endswith("\nright\n"))

    def test_the_manual_page(self):
        if not shutil.which("man"):
            self.skipTest("there is no man here")
        shown = call(self.home, "man", "--warnings", "-l", "docs/hull.1")
        if shown[0] or "has been minimized" in shown[1] or not shown[1]:
            self.skipTest(f"man can't show pages here: {shown[2].strip()[:100]}")
        self.assertIn("hull price --case F --schedule F", " ".join(shown[1].split()))


@unittest.skipIf(os.geteuid() != 0, "only root can be another user")
class AsMade(unittest.TestCase):
    """The release, for a user who may write nothing in it and has no environment."""

    @classmethod
    def setUpClass(cls):
        cls.above = tempfile.mkdtemp(prefix="hull-as-made-")
        cls.addClassCleanup(shutil.rmtree, cls.above)
        assert release(ONE, VERSION, cls.above)[0] == 0
        assert call(cls.above, "tar", "-xzf", f"{NAME}.tar.gz")[0] == 0
        cls.home = f"{cls.above}/{NAME}"
        shutil.copytree(f"{ROOT}/tools/tests", f"{cls.above}/tests", ignore=shutil.ignore_patterns("__pycache__"))
        assert call(cls.above, "chmod", "-R", "a-w,a+rX", ".")[0] == 0

    def call(self, folder, *words, **env):
        """Status, standard output and standard error."""
        how = {"user": 65534, "group": 65534, "extra_groups": [], "stdin": subprocess.DEVNULL}
        env = {"PATH": "/usr/bin:/bin", **env}
        done = subprocess.run(words, cwd=folder, env=env, capture_output=True, timeout=1800, **how)
        return done.returncode, done.stdout.decode(), done.stderr.decode()

    def listed(self):
        return call(self.above, "find", ".", "-printf", "%p %i %s %m %C@\n")

    def test_sums_and_each_example(self):
        before = self.listed()
        self.assertEqual(self.call(self.home, "sha256sum", "--check", "--quiet", "--strict", "SHA256SUMS"), (0, "", ""))
        runs = sorted(glob.glob(f"{self.home}/examples/**/*.words", recursive=True))
        self.assertGreater(len(runs), 30)
        for words in runs:
            due = read(words.removesuffix(".words") + ".output")
            status = int(due.split()[1]) if due.startswith("fault ") else 0
            told = self.call(os.path.dirname(words), f"{self.home}/hull", *read(words).split())
            self.assertEqual(told, (status, due, ""), words)
        self.assertEqual(self.listed(), before)

    def test_the_tools_by_their_own_tests(self):
        python = "/usr/bin/python3"
        if not os.access(python, os.X_OK):
            self.skipTest(f"there is no {python}")
        before = self.listed()
        command = [python, "-B", "-m", "unittest", "discover", "-p", "test*.py"]
        status, _, said = self.call(f"{self.above}/tests", *command, HULL_TESTED=self.home)
        self.assertEqual(status, 0, said[-3000:])
        self.assertEqual(self.listed(), before)
