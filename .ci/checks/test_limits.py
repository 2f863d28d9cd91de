"""What a run may not do, as docs/FAULTS.md tells it: a file that may not grow, outputs that fail late, and no standard input or output."""
import fcntl
import os
import resource
import shutil
import signal
import subprocess
import tempfile
import time
import unittest

from built import EXAMPLES, PROGRAM, run

FILES = ("case.json", "schedule.json", "report.txt", "prices.json")
SET_PIPE_SIZE = 1031  # (its name came with Python 3.10)
# A close of standard output, or a flush of it, that tells an error.
LATE = """
#define _GNU_SOURCE
#include <errno.h>
#include <sys/syscall.h>
#include <unistd.h>
int close(int file) { if (file == 1) { errno = EIO; return -1; } return (int)syscall(SYS_close, file); }
int fsync(int file) { (void)file; errno = EIO; return -1; }
"""


class Limits(unittest.TestCase):
    def setUp(self):
        self.room = tempfile.mkdtemp(prefix="hull-limits-")
        self.addCleanup(shutil.rmtree, self.room)
        for name in FILES[:2]:
            shutil.copy(f"{EXAMPLES}/usual/{name}", self.room)
        with open(f"{self.room}/prices.json", "w", encoding="utf-8") as file:
            file.write('{"energy": [98]}')
        self.words = ["price", "--case", "case.json", "--schedule", "schedule.json"]
        status, self.due, _ = self.hull(*self.words)
        self.assertEqual(status, 0)
        with open(f"{self.room}/report.txt", "wb") as file:
            file.write(self.due)
        self.commands = {
            "check": ["check", *self.words[1:]],
            "price": self.words,
            "bound": ["bound", *self.words[1:]],
            "fixed": ["fixed", *self.words[1:]],
            "audit": ["audit", *self.words[1:], "--report", "report.txt"],
            "settle": ["settle", *self.words[1:], "--prices", "prices.json"],
            "try": ["try", "7", "--proposals", "2"],
        }

    def hull(self, *words, **how):
        return run(words, folder=self.room, **how)

    def test_a_file_that_may_not_grow(self):
        def limit(ignored):
            resource.setrlimit(resource.RLIMIT_FSIZE, (1024, 1024))
            resource.setrlimit(resource.RLIMIT_CORE, (0, 0))
            signal.signal(signal.SIGXFSZ, signal.SIG_IGN if ignored else signal.SIG_DFL)

        for ignored, due in ((False, -signal.SIGXFSZ), (True, 6)):
            with open(f"{self.room}/output", "w+b") as file:
                status, _, said = self.hull(*self.words, stdout=file, preexec_fn=lambda: limit(ignored))
                file.seek(0)
                self.assertEqual((status, said, file.read()), (due, b"", self.due[:1024]))
        # (what ends before the limit is whole)
        with open(f"{self.room}/output", "w+b") as file:
            self.assertEqual(self.hull(*self.commands["check"], stdout=file, preexec_fn=lambda: limit(False))[0], 0)

    def test_an_output_that_fails_when_it_is_closed(self):
        compiler = shutil.which("cc") or shutil.which("gcc") or shutil.which("clang")
        if compiler is None:
            self.skipTest("there is no C compiler")
        with open(f"{self.room}/late.c", "w", encoding="utf-8") as file:
            file.write(LATE)
        subprocess.run([compiler, "-shared", "-fPIC", "late.c", "-o", "late.so"], cwd=self.room, check=True)
        status, output, _ = self.hull(*self.words, env={**os.environ, "LD_PRELOAD": f"{self.room}/late.so"})
        self.assertEqual((status, output), (0, self.due))

    def test_an_output_that_says_try_again(self):
        # (a pipe that is full tells a writer so where it doesn't wait; its reader here is slower than the program)
        for name in ("price", "audit", "settle", "try"):
            words = self.commands[name]
            due = self.hull(*words)[:2]
            reading, writing = os.pipe()
            fcntl.fcntl(writing, SET_PIPE_SIZE, 4096)
            os.set_blocking(writing, False)
            with subprocess.Popen(
                [PROGRAM, *words], cwd=self.room, stdout=writing, stdin=subprocess.DEVNULL
            ) as started:
                os.close(writing)
                read = b""
                while piece := os.read(reading, 997):
                    read += piece
                    time.sleep(0.002)
                os.close(reading)
            self.assertEqual((started.returncode, read), due)

    def test_an_input_that_comes_slowly(self):
        with open(f"{self.room}/case.json", "rb") as file:
            case = file.read()
        os.mkfifo(f"{self.room}/pipe")
        started = subprocess.Popen(
            [PROGRAM, "price", "--case", "pipe", "--schedule", "schedule.json"], cwd=self.room, stdout=subprocess.PIPE
        )
        with open(f"{self.room}/pipe", "wb", buffering=0) as file:
            for byte in range(0, len(case), 50):
                file.write(case[byte : byte + 50])
                time.sleep(0.002)
        output, _ = started.communicate(timeout=120)
        self.assertEqual((started.returncode, output), (0, self.due))

    def closed(self, words, which):
        command = f'exec "$0" "$@" {which}'
        ended = subprocess.run(
            ["bash", "-c", command, PROGRAM, *words], cwd=self.room, capture_output=True, timeout=120
        )
        return ended.returncode, ended.stdout

    def test_no_standard_input_or_output(self):
        before = {}
        for name in FILES:
            with open(f"{self.room}/{name}", "rb") as file:
                before[name] = file.read()
        for name, words in self.commands.items():
            due = self.hull(*words)[:2]
            self.assertEqual((name, *self.closed(words, "<&-")), (name, *due))
            self.assertEqual((name, *self.closed(words, "<&- 2>&-")), (name, *due))
            for which in (">&-", "<&- >&-", "<&- >&- 2>&-"):
                self.assertEqual((name, which, *self.closed(words, which)), (name, which, 6, b""))
        for which in (">&-", "<&- >&-"):
            self.assertEqual(self.closed(["check", "--case", "none", "--schedule", "none"], which), (2, b""))
        for name, text in before.items():
            with open(f"{self.room}/{name}", "rb") as file:
                self.assertEqual(file.read(), text)
