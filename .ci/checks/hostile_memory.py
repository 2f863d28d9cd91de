#!/usr/bin/env python3
"""Runs with too little memory, over the built program: a limit on the address space, and each allocation refused in turn.

A run ends in its whole text or in status 7 with its line (and without one where there was no memory for the words), and by
no signal.

usage: hostile_memory.py [--program PROGRAM]

By itself it tries every page and every allocation, which takes minutes, and prints how many runs ended how.
"""
import argparse
import collections
import json
import os
import resource
import shutil
import subprocess
import sys
import tempfile
import unittest

from built import EXAMPLES, PROGRAM, run
from collections.abc import Callable, Sequence
from typing import Any, Optional

PAGE = 4_096
MOST = 1 << 30
Ended = tuple[int, bytes]  # status and standard output of a run
STARVED = ((7, b"fault 7 memory\n"), (7, b""))


def read_json(name: str) -> Any:
    with open(name, encoding="utf-8") as text:
        return json.load(text)


def write_json(name: str, value: object) -> None:
    with open(name, "w", encoding="utf-8") as text:
        json.dump(value, text)


def commands(example: str, room: str, program: str) -> dict[str, list[str]]:
    """Runs of each command, on the files of an example, and in the room a report of three proposals, prices, and the schedule as a mixture."""
    files = [f"--{it}={EXAMPLES}/{example}/{it}.json" for it in ("case", "schedule")]
    report = f"--report={room}/report"
    with open(f"{room}/report", "wb") as report_file:
        report_file.write(run(["price", *files, "--proposals=3"], program=program)[1])
    periods = read_json(f"{EXAMPLES}/{example}/case.json")["time_periods"]
    units = read_json(f"{EXAMPLES}/{example}/schedule.json")["thermal"]
    write_json(f"{room}/prices", {"energy": [30] * periods, "reserve": [1] * periods})
    entries = {name: [{"weight": 1, **lists}] * 2 for name, lists in units.items()}
    write_json(f"{room}/mixture", {"weight": 2, "thermal": entries})
    return {
        "check": ["check", *files],
        "price": ["price", *files, "--proposals=3", "--workers=1"],
        "price by four": ["price", *files, "--proposals=3", "--workers=4"],
        "bound": ["bound", *files, "--proposals=3", "--workers=1"],
        "fixed": ["fixed", *files, "--proposals=3", "--workers=1"],
        "audit": ["audit", *files, report, "--workers=1"],
        "audit by four": ["audit", *files, report, "--workers=4"],
        "settle": ["settle", *files, f"--prices={room}/prices"],
        "certify": ["certify", *files, f"--prices={room}/prices", f"--mixture={room}/mixture"],
        "convex": ["convex", *files, "--rounds=3"],
        "try": ["try", "7", "--proposals=1", "--workers=1"],
    }


# Refuses the allocation whose number stands in the environment, and with a minus sign that one and all later ones. The start of a thread counts
# as one, since it takes memory for the stack. Where the environment names a file for notes, it says there how many were asked for, which one was
# refused last and of what size, and how many threads were started. Two seconds after a refusal nearly all yields return at once: who then still
# looks, a given number of times, for what a thread does that wasn't started, as a test of two threads may, is to be done with it soon.
REFUSER = """
#define _GNU_SOURCE
#include <dlfcn.h>
#include <errno.h>
#include <fcntl.h>
#include <pthread.h>
#include <stdatomic.h>
#include <stdlib.h>
#include <string.h>
#include <sys/mman.h>
#include <sys/syscall.h>
#include <time.h>
#include <unistd.h>
struct notes { _Atomic long made, refused, size, started; };
static struct notes own, *notes = &own;
static _Atomic long known;
static _Atomic long refused_at;
static __thread unsigned hurried __attribute__((tls_model("initial-exec")));
static long refused_number(void) {
    if (!known) { const char *word = getenv("REFUSED"); known = word ? atol(word) : 1L << 60; }
    return known;
}
// The loader runs this before the program's main; what was asked for earlier counts too.
__attribute__((constructor)) static void take_notes(void) {
    const char *name = getenv("NOTES");
    int file = name ? open(name, O_RDWR | O_CLOEXEC) : -1;
    if (file < 0) return;
    void *page = mmap(NULL, sizeof own, PROT_READ | PROT_WRITE, MAP_SHARED, file, 0);
    close(file);
    if (page == MAP_FAILED) return;
    memcpy(page, &own, sizeof own);
    notes = page;
}
static int is_refused(size_t size) {
    long number = ++notes->made, at = refused_number();
    if (at < 0 ? number < -at : number != at) return 0;
    notes->refused = number;
    notes->size = size;
    refused_at = time(NULL);
    errno = ENOMEM;
    return 1;
}
extern void *__libc_malloc(size_t), *__libc_calloc(size_t, size_t), *__libc_realloc(void *, size_t);
extern void *__libc_memalign(size_t, size_t);
void *malloc(size_t size) { return is_refused(size) ? NULL : __libc_malloc(size); }
void *calloc(size_t count, size_t size) { return is_refused(count * size) ? NULL : __libc_calloc(count, size); }
void *realloc(void *old, size_t size) { return is_refused(size) ? NULL : __libc_realloc(old, size); }
void *aligned_alloc(size_t align, size_t size) { return is_refused(size) ? NULL : __libc_memalign(align, size); }
int posix_memalign(void **into, size_t align, size_t size) {
    void *given = is_refused(size) ? NULL : __libc_memalign(align, size);
    if (!given) return ENOMEM;
    *into = given;
    return 0;
}
typedef int start(pthread_t *, const pthread_attr_t *, void *(*)(void *), void *);
int pthread_create(pthread_t *into, const pthread_attr_t *how, void *(*runs)(void *), void *given) {
    start *real = (start *)dlsym(RTLD_NEXT, "pthread_create");
    int failed = is_refused(0) ? EAGAIN : real(into, how, runs, given);
    notes->started += !failed;
    return failed;
}
int sched_yield(void) {
    if (!hurried && refused_at) hurried = time(NULL) - refused_at > 1;
    return hurried && ++hurried % (1 << 22) ? 0 : (int)syscall(SYS_sched_yield);
}
"""


def limited(words: Sequence[str], most: int, program: str) -> Ended:
    """The run under a limit on its address space."""

    def limit() -> None:
        resource.setrlimit(resource.RLIMIT_AS, (most, most))
        resource.setrlimit(resource.RLIMIT_CORE, (0, 0))

    return run(words, program=program, preexec_fn=limit)[:2]


def refuser_in(folder: str) -> Optional[str]:
    """A library that refuses allocations, or None where it can't be built."""
    compiler = shutil.which("cc") or shutil.which("gcc") or shutil.which("clang")
    if compiler is None:
        return None
    source, library = f"{folder}/refuser.c", f"{folder}/refuser.so"
    with open(source, "w", encoding="utf-8") as file:
        file.write(REFUSER)
    built = subprocess.run(
        [compiler, "-O1", "-shared", "-fPIC", source, "-o", library], capture_output=True, check=False
    )
    return library if built.returncode == 0 else None


def refused(words: Sequence[str], number: int, library: str, program: str) -> Ended:
    """The run in which the allocation of that number is refused; where it is negative, all later ones too."""
    return run(
        words,
        program=program,
        env={**os.environ, "LD_PRELOAD": library, "REFUSED": str(number)},
    )[:2]


def least_that(holds: Callable[[int], bool], low: int, high: int, step: int) -> int:
    """The least multiple of the step at which it holds, if it does so from there on."""
    low, high = low // step, high // step
    while low < high:
        middle = (low + high) // 2
        if holds(middle * step):
            high = middle
        else:
            low = middle + 1
    return low * step


def loaded(program: str) -> int:
    """The least address space in which the program begins: it then says what is wrong with its words."""
    return least_that(lambda most: limited([], most, program) == (1, b"fault 1 words 1 0\n"), 0, MOST, PAGE)


class Tally:
    """How the runs of a command ended, and those that ended otherwise."""

    def __init__(self, words: Sequence[str], program: str) -> None:
        self.due = run(words, program=program)[:2]
        self.ends: collections.Counter[int] = collections.Counter()
        self.wrong: list[tuple[int, Ended]] = []

    def note(self, at: int, ended: Ended) -> bool:
        if ended != self.due and ended not in STARVED:
            self.wrong.append((at, ended))
        self.ends[ended[0]] += 1
        return ended == self.due


def spaces(tally: Tally, words: Sequence[str], program: str, first: int, runs: Optional[int] = None) -> int:
    """Limits from that of loading to that of a whole run, page by page, or so many in equal steps."""
    enough = least_that(lambda most: limited(words, most, program) == tally.due, first, MOST, PAGE)
    step = PAGE if runs is None else max(PAGE, (enough - first) // runs // PAGE * PAGE)
    for most in range(first, enough + 8 * PAGE, step):
        tally.note(most, limited(words, most, program))
    return enough


def allocations(tally: Tally, words: Sequence[str], program: str, library: str, every: int = 1) -> int:
    """Refuses one allocation after another, until a run meets none that is refused twice over."""
    number = 0
    while True:
        number += every
        tally.note(number, refused(words, number, library, program))
        if tally.note(-number, refused(words, -number, library, program)):
            return number


class Starved(unittest.TestCase):
    def setUp(self) -> None:
        self.room = tempfile.mkdtemp(prefix="hull-hostile-")
        self.addCleanup(shutil.rmtree, self.room)

    def test_too_little_address_space(self) -> None:
        self.assertEqual(run([])[:2], (1, b"fault 1 words 1 0\n"))
        first = loaded(PROGRAM)
        for name, words in commands("day", self.room, PROGRAM).items():
            tally = Tally(words, PROGRAM)
            spaces(tally, words, PROGRAM, first, 20)
            self.assertEqual((name, tally.due[0], tally.wrong), (name, 0, []))

    def test_refused_allocations(self) -> None:
        library = refuser_in(self.room)
        if library is None:
            self.skipTest("there is no C compiler")
        for name, words in commands("usual", self.room, PROGRAM).items():
            tally = Tally(words, PROGRAM)
            allocations(tally, words, PROGRAM, library, 97 if name == "try" else 17)
            self.assertEqual((name, tally.due[0], tally.wrong), (name, 0, []))


def main() -> int:
    ask = argparse.ArgumentParser(description="Runs with too little memory, page by page and call by call.")
    ask.add_argument("--program", default=PROGRAM)
    program = os.path.abspath(ask.parse_args().program)
    first, wrong = loaded(program), 0
    room = tempfile.mkdtemp(prefix="hull-hostile-")
    try:
        library = refuser_in(room)
        print(f"{'command':14} {'what is refused':16} {'runs':>6} {'in 0':>6} {'in 7':>6} {'wrong':>6} {'enough':>9}")
        for kind, example in (("allocation", "usual"), ("address space", "day")):
            for name, words in commands(example, room, program).items():
                tally = Tally(words, program)
                if kind == "address space":
                    enough = spaces(tally, words, program, first)
                elif library is None:
                    print(f"{name:14} {kind:16} not run: there is no C compiler")
                    continue
                else:
                    enough = allocations(tally, words, program, library)
                print(
                    f"{name:14} {kind:16} {sum(tally.ends.values()):6} {tally.ends[0]:6} {tally.ends[7]:6}"
                    f" {len(tally.wrong):6} {enough:9}",
                    flush=True,
                )
                for wrong_end in tally.wrong[:5]:
                    print("   ", wrong_end)
                wrong += len(tally.wrong)
    finally:
        shutil.rmtree(room)
    return 1 if wrong else 0


if __name__ == "__main__":
    sys.dont_write_bytecode = True
    sys.exit(main())
