#!/usr/bin/env python3
"""Measures how near `hull convex` comes to the best prices, and how fast, over sixty generated cases.

usage: convex.py [--program PROGRAM] [--only WORD] [--large]

For each case a line: its size, the distance with the limit that it is to be within (the greater of 1.00 and a millionth of the dual
value), rounds, entries and bytes of the mixture's text, processor time and peak memory. Prices and mixture are taken from the text, and
`hull settle` and `hull certify` of the same program have to find the same numbers. --large adds c610 and c168 of run.py.
Ends with 1 where a case is beyond its limit or a number differs.
"""
import argparse
import ctypes
import json
import os
import subprocess
import sys
import tempfile

import make_case
import run
import try_case

# thermal, renewables, periods, reserve, bids, windows, must_run
SIZES = [
    (1, 0, 1, 5), (1, 1, 24, 5), (1, 0, 96, 0), (1, 2, 168, 5), (2, 0, 12, 5), (2, 1, 48, 3), (2, 0, 168, 5), (3, 3, 24, 4),
    (3, 2, 96, 5), (4, 0, 168, 5), (4, 1, 24, 5, 2), (5, 2, 24, 5), (5, 0, 48, 6, 0, True), (6, 1, 8, 5), (6, 3, 168, 4),
    (7, 0, 72, 5, 3), (8, 2, 96, 3), (10, 3, 120, 5), (10, 40, 48, 5), (12, 0, 24, 5, 0, False, True), (14, 4, 1, 5), (14, 4, 2, 5, 2),
    (14, 0, 24, 0), (14, 4, 24, 5), (14, 4, 24, 5, 3), (14, 4, 24, 5, 0, True), (14, 0, 168, 5), (18, 6, 60, 4, 5, True, True),
    (20, 30, 36, 5), (20, 30, 36, 5, 30), (25, 5, 24, 5, 4, True), (25, 0, 120, 4), (30, 10, 24, 5), (30, 0, 48, 5, 0, True),
    (30, 10, 48, 5, 5), (30, 4, 168, 5), (40, 20, 96, 5), (40, 0, 48, 8, 0, False, True), (50, 5, 72, 5), (50, 50, 24, 5, 10, True, True),
    (60, 10, 48, 0), (73, 81, 48, 5), (73, 81, 24, 4, 0, True), (73, 0, 48, 9), (73, 20, 96, 5), (100, 0, 24, 5), (100, 20, 48, 5, 20, True),
    (120, 30, 36, 5, 0, False, True), (150, 20, 24, 5), (200, 20, 48, 5), (250, 50, 24, 3, 10), (300, 50, 24, 5), (0, 3, 5, 0, 2), (0, 1, 1, 0),
]  # fmt: skip
TRIES = (20261201, 20261202, 20261203, 20261204, 20261205, 20261206)
LARGE = ("c610", "c168")
WORDS = ("thermal", "renewables", "periods", "reserve", "bids", "windows", "must_run")


def cases(large):
    """Name and files (case, schedule) of each case."""
    for number, size in enumerate(SIZES, 1):
        given = dict(zip(WORDS, size))
        name = "-".join([f"{given['thermal']}x{given['periods']}"] + [word for word in WORDS[4:] if given.get(word)])
        yield f"{number:02} {name}", make_case.make(seed=90_000 + number, **given)
    for number in TRIES:
        yield f"try {number}", try_case.make(number)
    for name in LARGE if large else ():
        yield name, make_case.make(**run.SIZES[name])


def numbers(line):
    return [int(word) for word in line.split(" ")[1:]]


def decimal(price):
    """A price in money units per kilowatt, as a prices file has it."""
    return f"{'-' if price < 0 else ''}{abs(price) // 1000}.{abs(price) % 1000:03d}"


class Found:
    """What a text of `hull convex` tells: its lines by their first word (the first of each), and its mixture."""

    def __init__(self, text):
        self.lines = text.decode().split("\n")
        self.first = {}
        for line in self.lines:
            self.first.setdefault(line.split(" ")[0], line)
        self.start = next(i for i, line in enumerate(self.lines) if line.startswith("weight "))
        self.thermal = dict(self.mixtures())

    def number(self, word):
        return numbers(self.first[word])[0]

    def mixtures(self):
        """Name and entries of each thermal unit."""
        place = self.start + 1
        while self.lines[place].startswith("mixture thermal "):
            name, count = self.lines[place][len("mixture thermal ") :].rsplit(" entries ", 1)
            rows = [self.lines[place + 1 + 4 * i : place + 5 + 4 * i] for i in range(int(count))]
            place += 1 + 4 * int(count)
            yield json.loads(name), [
                {"weight": numbers(share)[0], "on": numbers(on), "power": numbers(power), "reserve": numbers(reserve)}
                for share, on, power, reserve in rows
            ]

    def prices(self):
        """The text of a prices file."""
        lists = (f'"{word}":[{",".join(map(decimal, numbers(self.first[word])))}]' for word in ("energy", "reserve"))
        return "{" + ",".join(lists) + "}\n"

    def mixture(self):
        return json.dumps({"weight": self.number("weight"), "thermal": self.thermal}) + "\n"

    def settlement(self):
        """The lines that `hull settle` prints of the prices, but for the first and the last."""
        return [line for line in self.lines[1 : self.start] if line.split(" ")[0] not in ("within", "rounds", "made")]


def differences(program, folder, files, found):
    """What `hull settle` and `hull certify` find otherwise."""
    names = {word: os.path.join(folder, word + ".json") for word in ("prices", "mixture")}
    for word, text in (("prices", found.prices()), ("mixture", found.mixture())):
        with open(names[word], "w", encoding="utf-8") as to:
            to.write(text)
    words = [*files, "--prices", names["prices"]]
    settled = (
        subprocess.run([program, "settle", *words], stdout=subprocess.PIPE, check=False).stdout.decode().split("\n")
    )
    words += ["--mixture", names["mixture"]]
    certified = (
        subprocess.run([program, "certify", *words], stdout=subprocess.PIPE, check=False).stdout.decode().split("\n")
    )
    if settled[1:-2] != found.settlement():
        yield "settlement"
    for word in ("bound", "distance", "least"):
        if found.first[word] not in certified:
            yield word


def measure(program, words, to):
    """Status, processor seconds and peak memory in MB of one call, whose standard output is written to a file."""
    # (the system counts the memory of who starts a program to its peak: so a small shell does, as in run.py)
    shell = ["sh", "-c", 'to=$1; shift; "$@" > "$to" & echo $!', "sh", to, program, *words]
    started = subprocess.run(shell, stdin=subprocess.DEVNULL, stdout=subprocess.PIPE, check=True)
    _, status, used = os.wait4(int(started.stdout), 0)
    return os.waitstatus_to_exitcode(status), used.ru_utime + used.ru_stime, used.ru_maxrss / 1000


def row(program, folder, name, files):
    """Prints the line of a case, and answers whether all is well."""
    to = os.path.join(folder, "text")
    status, seconds, memory = measure(program, ["convex", *files], to)
    with open(to, "rb") as file:
        text = file.read()
    if status:
        print(f"{name:28} status {status} {text[:60]!r}", flush=True)
        return False
    found = Found(text)
    distance, limit = found.number("distance"), max(1_000_000, abs(found.number("value")) // 1_000_000)
    wrong = list(differences(program, folder, files, found))
    entries = sum(map(len, found.thermal.values()))
    print(
        f"{name:28} distance {distance / 1e6:9.4f} limit {limit / 1e6:8.2f} rounds {found.number('made'):4} entries {entries:5} "
        f"bytes {len(text):8} seconds {seconds:6.2f} MB {memory:5.1f}"
        + ("" if distance <= limit else "  BEYOND")
        + (f"  DIFFERS {wrong}" if wrong else ""),
        flush=True,
    )
    return distance <= limit and not wrong


def main():
    ask = argparse.ArgumentParser(description="Measures how near hull convex comes to the best prices, and how fast.")
    ask.add_argument("--program")
    ask.add_argument("--only", default="", help="cases whose name has this in it")
    ask.add_argument("--large", action="store_true")
    given = ask.parse_args()
    given.program = given.program or run.program_here()
    ctypes.CDLL(None).prctl(run.PR_SET_CHILD_SUBREAPER, 1)
    good = True
    with tempfile.TemporaryDirectory() as folder:
        for name, pair in cases(given.large):
            if given.only in name:
                files = []
                for word, value in zip(("case", "schedule"), pair):
                    files += [f"--{word}", os.path.join(folder, word + ".json")]
                    with open(files[-1], "w", encoding="utf-8") as to:
                        json.dump(value, to)
                good &= row(given.program, folder, name, files)
    return 0 if good else 1


if __name__ == "__main__":
    sys.exit(main())
