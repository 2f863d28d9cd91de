#!/usr/bin/env python3
"""Runs with little stack, over the built program: how much each command needs, and that what docs/FAULTS.md tells is enough.

usage: hostile_stack.py [--program PROGRAM]

By itself it prints the least stack of each command, in kB. A thread of a worker has as much stack as the first thread may have.
"""
import argparse
import os
import re
import resource
import shutil
import sys
import tempfile
import unittest

from built import PROGRAM, ROOT, run
from hostile_memory import commands, least_that

KB = 1024


def with_stack(words, kilobytes, program=PROGRAM):
    """The status and output of a run with so much stack, and an environment of one word."""

    def limit():
        resource.setrlimit(resource.RLIMIT_CORE, (0, 0))
        resource.setrlimit(resource.RLIMIT_STACK, (kilobytes * KB, kilobytes * KB))

    return run(words, program=program, env={"HOME": "/"}, preexec_fn=limit)[:2]


def least_stack(words, program):
    due = run(words, program=program)[:2]
    return least_that(lambda most: with_stack(words, most, program) == due, 16, 8192, 4)


def told():
    """What the page tells, in kB."""
    with open(f"{ROOT}/docs/FAULTS.md", encoding="utf-8") as file:
        return int(re.search(r"`ulimit -s (\d+)`", file.read())[1])


class Stack(unittest.TestCase):
    def setUp(self):
        self.room = tempfile.mkdtemp(prefix="hull-stack-")
        self.addCleanup(shutil.rmtree, self.room)

    def test_each_command_runs_with_the_stack_that_is_told(self):
        for example in ("day", "usual"):
            for name, words in commands(example, self.room, PROGRAM).items():
                self.assertEqual((name, *with_stack(words, told())), (name, *run(words)[:2]))

    def test_refusals_need_no_more(self):
        shown = [
            (["price", "--case", "/dev/zero", "--schedule", "none"], (3, b"fault 3 case 32\n")),
            ([], (1, b"fault 1 words 1 0\n")),
        ]
        deep = f"{self.room}/deep.json"
        with open(deep, "w", encoding="utf-8") as file:
            file.write("[" * 10_000)
        shown.append((["check", "--case", deep, "--schedule", "none"], (3, b"fault 3 case 12 at 32\n")))
        for words, due in shown:
            self.assertEqual(with_stack(words, told()), due)


def main():
    ask = argparse.ArgumentParser(description="Prints the least stack of each command, in kB.")
    ask.add_argument("--program", default=PROGRAM)
    program = os.path.abspath(ask.parse_args().program)
    room = tempfile.mkdtemp(prefix="hull-stack-")
    try:
        for example in ("day", "usual"):
            for name, words in commands(example, room, program).items():
                print(f"{example:6} {name:14} {least_stack(words, program):5}", flush=True)
    finally:
        shutil.rmtree(room)


if __name__ == "__main__":
    sys.dont_write_bytecode = True
    main()
