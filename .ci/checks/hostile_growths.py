#!/usr/bin/env python3
"""Refuses each allocation of each crate's tests in turn: a test then ends as it does with all memory, or says that memory is wanting.

It runs the tests that the gate, or `rt test` in a crate, has built, side by side, and prints tables in Markdown.

usage: hostile_growths.py [--minutes M] [--most N] [--jobs JOBS] [--seed SEED] [--test WORD] [--at NUMBER] [NAME..]

NAME is a crate whose tests are built, and each of them where none is named; with --test only the tests whose names have the word. The start of
a thread counts as an allocation. For M minutes each test gets as much time as any other, until all of its allocations are refused: of a test
that needs more, those that the seed tells come first. With --most only N of a test are refused. --at refuses one allocation of each test, and
prints all that it then says. The status is 1 where a test ended otherwise, or didn't end.
"""
import argparse
import collections
import glob
import os
import random
import re
import resource
import shutil
import signal
import struct
import subprocess
import sys
import tempfile
import threading
import time
import unittest
from concurrent.futures import ThreadPoolExecutor

from built import ROOT
from hostile_memory import refuser_in

# What a test says that hands on the error of what it calls, or compares it with what is due.
WANTING = {
    101: rb"^[Ee]rror: .*\b(AllocError|AllocFailed|Memory|OutOfMemory|out of memory)\b",
    -signal.SIGABRT: rb"^ *left: (Err|Some)\((Memory|out of memory)\)$",
}
# What stands for want of memory in what other tests compare, by the crate that they are of, or the module of tests that is named after it.
STANDS_FOR_WANTING = {
    # the code that this test gives it
    "uc_text": rb"left: (1|\(1, 0\))$",
    # one of four threads has halted the others
    "threads": rb"assertion failed: closed\.finished\(\)$",
}
RAN_ALONE = rb"assertion failed: least <= ran && ran <= most && !job\.in_vain$"
# What tests of several threads at once say, by their names, where one of them couldn't be started, and another did its work.
STANDS_FOR_ALONE = {
    "two_workers_answer_at_once": rb"left: 1$",
    "four_workers_answer_at_once": rb"left: [123]$",
    "two_jobs_run_on_two_threads": RAN_ALONE,
    "both_jobs_go_on_after_their_first_number": RAN_ALONE,
}
ENDS = SAME, MEMORY, ALONE, OTHERWISE = "as with all memory", "want of memory", "a thread too few", "otherwise"
# A run that takes longer than so many seconds, and than so many times what the test takes with all memory, hangs; with all memory it has longer.
SECONDS, TIMES, SECONDS_WHOLE = 10, 10, 120
# Beside the gate the machine may be as busy as it likes.
SECONDS_BESIDE = 300
# So many wrong ends of one test are enough.
ENOUGH = 10
NOTES = struct.Struct("4q")


class Ended:
    """How a run ended: the status, or None where it was stopped, what it said, and the notes of the library that refuses."""

    def __init__(self, status, said, notes, seconds):
        self.status, self.said, self.seconds = status, said[-4000:], seconds
        self.made, self.refused, self.size, self.started = notes

    def lines(self):
        """How it ended, and the last lines of what it said."""
        how = f"status {self.status}" if self.status is not None else "hangs"
        how = signal.Signals(-self.status).name if self.status and self.status < 0 else how
        said = [it.strip()[:150] for it in self.said.decode(errors="replace").splitlines()]
        return [how, *[it for it in said if it][-5:]]

    def kind(self):
        """Its lines without what differs from one run to the next: the error, or the condition or the left side that was compared."""
        how, *said = self.lines()
        told = [it[:60] for it in said if re.match(r"[Ee]rror: |left: |assertion failed: ", it)]
        return re.sub(r"Some\(\d+\)", "Some(..)", ", ".join([how, *told]))


class Test:
    """One test of a crate, and what came of its runs."""

    def __init__(self, crate, program, name):
        self.crate, self.program, self.name = crate, program, name
        self.of = [crate, *(it.removesuffix("_tests") for it in name.split("::"))]
        self.made, self.started, self.seconds = 0, 0, 0.0
        self.todo, self.spent = [], 0.0
        self.tried, self.ends, self.kinds, self.wrong = 0, collections.Counter(), collections.Counter(), []

    def says(self, ended, table):
        return any(re.search(table[it], ended.said, re.M) for it in self.of if it in table)

    def end(self, ended):
        """Which end it is. A test whose result is an error ends in 101, and an assertion that doesn't hold aborts it."""
        if ended.status == 0:
            return SAME
        if ended.refused and ended.status in WANTING and re.search(WANTING[ended.status], ended.said, re.M):
            return MEMORY
        if ended.refused and ended.status == -signal.SIGABRT:
            if self.says(ended, STANDS_FOR_WANTING):
                return MEMORY
            if ended.started < self.started and self.says(ended, STANDS_FOR_ALONE):
                return ALONE
        return OTHERWISE

    def note(self, number, ended):
        self.spent += ended.seconds - self.seconds
        # With threads a run may make fewer allocations than another, and then none is refused.
        if ended.refused or ended.status != 0:
            end = self.end(ended)
            self.tried += 1
            self.ends[end] += 1
            self.kinds[end, ended.kind()] += 1
            self.wrong += [(number, ended)] * (end == OTHERWISE)


class Runner:
    """Runs tests side by side, each in a folder of its own."""

    def __init__(self, room, library, jobs, seconds=SECONDS):
        self.room, self.library, self.jobs, self.seconds, self.lock = room, library, jobs, seconds, threading.Lock()

    def run(self, test, number, folder):
        """The test's end, with the allocation of that number refused; 0 refuses none."""
        notes = f"{folder}.notes"
        with open(notes, "wb") as file:
            file.write(bytes(NOTES.size))
        env = {**os.environ, "LD_PRELOAD": self.library, "NOTES": notes, "REFUSED": str(number or 1 << 60)}
        how = {
            "cwd": folder,
            "env": env,
            "stdin": subprocess.DEVNULL,
            "stdout": subprocess.PIPE,
            "stderr": subprocess.STDOUT,
        }
        limit = max(self.seconds, TIMES * test.seconds) if number else max(self.seconds, SECONDS_WHOLE)
        began = time.monotonic()
        with subprocess.Popen([test.program, test.name], **how) as run:
            try:
                said, _ = run.communicate(timeout=limit)
                status = run.returncode
            except subprocess.TimeoutExpired:
                run.kill()
                status, (said, _) = None, run.communicate()
        with open(notes, "rb") as file:
            return Ended(status, said, NOTES.unpack(file.read()), time.monotonic() - began)

    def run_all(self, next_run, note):
        """Makes the runs that are told, a test and a number each, until none is, and notes their ends."""

        def one_after_another():
            folder = tempfile.mkdtemp(dir=self.room)
            while True:
                with self.lock:
                    told = next_run()
                if told is None:
                    return
                ended = self.run(*told, folder)
                with self.lock:
                    note(*told, ended)

        with ThreadPoolExecutor(self.jobs) as pool:
            for job in [pool.submit(one_after_another) for _ in range(self.jobs)]:
                job.result()

    def run_each(self, tests, number, note):
        """Runs each test once."""
        runs = iter([(it, number) for it in tests])
        self.run_all(lambda: next(runs, None), note)


def tests_of(crate, word):
    program = f"{ROOT}/crates/{crate}/out/{crate}_tests"
    listed = subprocess.run([program, "--list"], capture_output=True, check=True).stdout.decode()
    return [Test(crate, program, it) for it in re.findall(r"^(\S+): test$", listed, re.M) if word in it]


def crates_with_tests():
    """The crates whose tests are built, after all of their files."""
    found = sorted(os.path.basename(it)[: -len("_tests")] for it in glob.glob(f"{ROOT}/crates/*/out/*_tests"))
    return [it for it in found if os.access(f"{ROOT}/crates/{it}/out/{it}_tests", os.X_OK)]


def note_whole(test, _number, ended):
    """Notes what a run with all memory tells: how many allocations the test makes, how many threads it starts, and how long it takes."""
    test.made, test.started, test.seconds = ended.made, ended.started, ended.seconds
    if ended.status != 0:
        test.made, test.wrong = 0, [(0, ended)]


def refuse(runner, tests, given):
    """Refuses allocations of the tests for so many minutes, each time of the test that has had the least time."""
    until = time.monotonic() + 60 * given.minutes
    runner.run_each(tests, 0, note_whole)
    chance = random.Random(given.seed)
    for test in tests:
        test.todo = chance.sample(range(1, test.made + 1), min(test.made, given.most))

    def next_run():
        left = [it for it in tests if it.todo and len(it.wrong) < ENOUGH] if time.monotonic() < until else []
        if not left:
            return None
        test = min(left, key=lambda it: it.spent)
        # as long as it may take; `note` puts in what it took
        test.spent += test.seconds
        return test, test.todo.pop()

    runner.run_all(next_run, Test.note)


def tell(test, number, ended):
    print(f"{test.crate} {test.name}: allocation {number}, of {ended.size} bytes:", *ended.lines()[:1], sep="\n")
    print(ended.said.decode(errors="replace"))


def row(cells):
    return f"| {' | '.join(str(it) for it in cells)} |"


def table_of(groups):
    """The table of named groups of tests."""
    lines = [row(["of", "tests", "allocations", "refused", *ENDS]), row(["---", *["---:"] * (3 + len(ENDS))])]
    for name, tests in groups:
        made, tried = sum(it.made for it in tests), sum(it.tried for it in tests)
        lines.append(row([name, len(tests), made, tried, *(sum(it.ends[end] for it in tests) for end in ENDS)]))
    return "\n".join(lines)


def table_of_kinds(tests):
    """The table of what the runs of each crate said at their end."""
    kinds = collections.Counter()
    for test in tests:
        for (end, kind), count in test.kinds.items():
            kinds[test.crate, ENDS.index(end), kind] += count
    lines = [row(["of", "ended", "saying", "runs"]), row(["---", "---", "---", "---:"])]
    return "\n".join(
        [*lines, *(row([crate, ENDS[end], f"`{kind}`", count]) for (crate, end, kind), count in sorted(kinds.items()))]
    )


def report(tests, given):
    print(
        f"Seed {given.seed}, {given.minutes:g} minutes, {given.jobs} runs at a time. The seed chose those refused of more.\n"
    )
    crates = list(dict.fromkeys(it.crate for it in tests))
    print(
        table_of([*((name, [it for it in tests if it.crate == name]) for name in crates), ("all", tests)]), end="\n\n"
    )
    print(table_of([(f"{it.crate} {it.name}", [it]) for it in tests]), end="\n\n")
    print(table_of_kinds(tests))
    for test in tests:
        for number, ended in test.wrong:
            what = f"allocation {number}, of {ended.size} bytes" if number else "no allocation refused"
            print(f"\n{test.crate} {test.name}: {what}:", *ended.lines(), sep="\n    ")
    return 1 if any(it.wrong for it in tests) else 0


class Growths(unittest.TestCase):
    def test_a_minute_of_refusals_over_what_the_gate_has_built(self):
        tests = [it for name in crates_with_tests() for it in tests_of(name, "")]
        if not tests:
            self.skipTest("no tests are built")
        resource.setrlimit(resource.RLIMIT_CORE, (0, resource.getrlimit(resource.RLIMIT_CORE)[1]))
        room = tempfile.mkdtemp(prefix="hull-growths-")
        self.addCleanup(shutil.rmtree, room)
        library = refuser_in(room)
        if library is None:
            self.skipTest("there is no C compiler")
        refuse(
            Runner(room, library, os.cpu_count(), SECONDS_BESIDE),
            tests,
            argparse.Namespace(minutes=1, seed=1, most=1 << 40),
        )
        self.assertEqual([(it.name, number, ended.lines()) for it in tests for number, ended in it.wrong], [])
        self.assertGreater(sum(it.tried for it in tests), 0)


def main():
    ask = argparse.ArgumentParser(description="Refuses each allocation of each crate's tests in turn.")
    ask.add_argument("names", nargs="*", metavar="NAME")
    ask.add_argument("--minutes", type=float, default=12)
    ask.add_argument("--most", type=int, default=1 << 40)
    ask.add_argument("--jobs", type=int, default=os.cpu_count())
    ask.add_argument("--seed", type=int, default=1)
    ask.add_argument("--test", default="", metavar="WORD")
    ask.add_argument("--at", type=int, metavar="NUMBER")
    given = ask.parse_args()
    # A test that aborts leaves no file of its memory.
    resource.setrlimit(resource.RLIMIT_CORE, (0, 0))
    tests = [it for name in given.names or crates_with_tests() for it in tests_of(name, given.test)]
    if not tests:
        sys.exit("no tests are built: `rt ci` builds them, or `rt test` in a crate")
    room = tempfile.mkdtemp(prefix="hull-growths-")
    try:
        library = refuser_in(room)
        if library is None:
            sys.exit("there is no C compiler")
        runner = Runner(room, library, given.jobs)
        if given.at:
            runner.run_each(tests, given.at, tell)
            return 0
        refuse(runner, tests, given)
        return report(tests, given)
    finally:
        shutil.rmtree(room)


if __name__ == "__main__":
    sys.dont_write_bytecode = True
    sys.exit(main())
