"""Which files a run opens, as strace sees it: those that its words name, each once and in their order, and no other name."""
import os
import re
import shutil
import subprocess
import tempfile
import unittest

from built import EXAMPLES, PROGRAM, run

STRACE = shutil.which("strace") or ""
# What the loader looks for before the program's first step.
LOADER = re.compile(r"/etc/ld\.so\.(preload|cache)|(/usr)?/lib(64)?/.+\.so\.\d+")
# Where the operating system tells how many processors there are, for more than four workers.
PROCESSORS = ("/sys/", "/proc/")
FILES = {
    "check": ("case", "schedule"),
    "price": ("case", "schedule"),
    "bound": ("case", "schedule"),
    "fixed": ("case", "schedule"),
    "convex": ("case", "schedule"),
    "audit": ("case", "schedule", "report"),
    "settle": ("case", "schedule", "prices"),
    "certify": ("case", "schedule", "prices", "mixture"),
}


def why_not_traced() -> str:
    """Why no run can be traced here; nothing where it can."""
    if not STRACE:
        return "there is no strace"
    tried = subprocess.run([STRACE, "-o", os.devnull, "true"], capture_output=True, check=False)
    return "" if tried.returncode == 0 else "strace may trace nothing here"


@unittest.skipIf(why_not_traced(), why_not_traced())
class OpenedFiles(unittest.TestCase):
    def setUp(self) -> None:
        self.room = tempfile.mkdtemp(prefix="hull-files-")
        self.addCleanup(shutil.rmtree, self.room)
        for name in ("case", "schedule"):
            shutil.copy(f"{EXAMPLES}/usual/{name}.json", f"{self.room}/{name}")
        for name in ("prices", "mixture"):
            shutil.copy(f"{EXAMPLES}/certified/{name}.json", self.room)
            os.rename(f"{self.room}/{name}.json", f"{self.room}/{name}")
        with open(f"{self.room}/report", "wb") as file:
            file.write(run(self.words("price"), folder=self.room)[1])

    @staticmethod
    def words(command: str) -> list[str]:
        return [command, *(word for name in FILES[command] for word in (f"--{name}", name))]

    def traced(self, words: list[str]) -> tuple[int, list[tuple[str, str]]]:
        """The status of a run, and the calls that took a name, with the name, behind those of the loader."""
        trace = f"{self.room}/trace"
        command = [STRACE, "-f", "-qq", "-o", trace, "-e", "trace=%file", PROGRAM, *words]
        status = subprocess.run(command, cwd=self.room, stdout=subprocess.DEVNULL, check=False, timeout=120).returncode
        with open(trace, encoding="utf-8") as file:
            calls = re.findall(r'^\d+ +(\w+)\([^"\n]*"([^"\n]*)"', file.read(), re.M)
        os.remove(trace)
        self.assertEqual(calls[0], ("execve", PROGRAM))
        return status, [it for it in calls[1:] if it[1] and not LOADER.fullmatch(it[1])]

    def opened(self, words: list[str], status: int) -> list[str]:
        """The names that a run of that status opens; it does nothing else with a name."""
        found, calls = self.traced(words)
        self.assertEqual((found, {call for call, _ in calls} - {"open", "openat"}), (status, set()), words)
        return [name for _, name in calls]

    def test_each_file_is_opened_once_and_no_other(self) -> None:
        for command, files in FILES.items():
            with self.subTest(command=command):
                self.assertEqual(self.opened(self.words(command), 0), list(files))

    def test_the_order_is_that_of_the_files_and_not_of_the_words(self) -> None:
        words = self.words("certify")
        turned = [words[0], *(it for at in range(len(words) - 2, 0, -2) for it in words[at : at + 2])]
        self.assertEqual(self.opened(turned, 0), list(FILES["certify"]))

    def test_a_file_that_cannot_be_read_is_the_last_that_is_opened(self) -> None:
        for command, files in FILES.items():
            for at, name in enumerate(files):
                os.rename(f"{self.room}/{name}", f"{self.room}/kept")
                with self.subTest(command=command, missing=name):
                    self.assertEqual(self.opened(self.words(command), 2), list(files[: at + 1]))
                os.rename(f"{self.room}/kept", f"{self.room}/{name}")

    def test_no_file_is_opened_where_none_is_named(self) -> None:
        self.assertEqual(self.opened(["try", "7", "--proposals", "2"], 0), [])
        self.assertEqual(self.opened(["nothing"], 1), [])

    def test_more_workers_open_what_tells_the_processors(self) -> None:
        opened = self.opened([*self.words("price"), "--workers", "32"], 0)
        self.assertEqual([it for it in opened if not it.startswith(PROCESSORS)], ["case", "schedule"])


if __name__ == "__main__":
    unittest.main()
