#!/usr/bin/env python3
"""Measures how much sooner several workers are done, and prints a table.

usage: workers.py [--runs N] [--only NAME,..] [--program PROGRAM]

The runs go in turn, N rounds (15 if left out) of one run with each number of workers. Each figure is a median over the rounds: seconds
by the clock, and beside them the share of one worker's time in the same round, since a machine's speed may change from one second to the
next. The number of workers that can be at work at once is that of open proposals times units, so `--ahead` matters; an audit works at one
proposal at a time.

The column '4 runs' is what the machine gives: four whole runs of one worker are started at once, and a quarter of the longest one's
time is put beside the time of one alone. 0.25 means four processors of full speed; a share of four workers can't be less.
Where processors are halves of one core, or where others use them too, one that works alone is faster than one beside three others. So
the last column, 'beside', puts four workers beside one of those four runs, the mean of them: both have all processors at work, and
what is told is the program's share and not the machine's.
Run this on a quiet machine with four processors or more, and compare figures of one machine alone.
"""
import argparse
import concurrent.futures
import os
import statistics
import subprocess
import sys
import tempfile
import time

import run

WORKERS = (1, 2, 4, 8, 32)
AHEAD = (4, 16)


def seconds(words):
    began = time.monotonic()
    ended = subprocess.run(words, stdin=subprocess.DEVNULL, stdout=subprocess.PIPE, check=False)
    if ended.returncode:
        sys.exit(f"workers.py: {' '.join(words)} ended with status {ended.returncode}")
    return time.monotonic() - began, ended.stdout


def seconds_at_once(words, number):
    """How long each of so many runs that begin at once takes, the longest last."""
    with concurrent.futures.ThreadPoolExecutor(number) as runs:
        return sorted(it.result()[0] for it in [runs.submit(seconds, words) for _ in range(number)])


def main():
    ask = argparse.ArgumentParser(description="Measures how much sooner several workers are done.")
    ask.add_argument("--runs", type=int, default=15)
    ask.add_argument("--only", default="day,c610,c168,c610-100,c168-100,day-audit,c610-audit,c168-audit")
    ask.add_argument("--program")
    given = ask.parse_args()
    given.program = given.program or run.program_here()
    only = given.only.split(",")
    print(f"{os.cpu_count()} processors\n")
    print(
        "| Case | Ahead | "
        + " | ".join(f"{it} workers" if it > 1 else "1 worker" for it in WORKERS)
        + " | 4 runs | beside |"
    )
    print("|---|---|" + "---|" * (len(WORKERS) + 2), flush=True)
    with tempfile.TemporaryDirectory(prefix="hull-workers-") as room:
        for row in run.ROWS:
            name = row[0]
            if name not in only:
                continue
            for ahead in AHEAD:
                words = [*run.words_of(row, room, given.program, "--ahead", str(ahead)), "--workers"]
                rounds = [
                    ({it: seconds([*words, str(it)]) for it in WORKERS}, seconds_at_once([*words, "1"], 4))
                    for _ in range(max(1, given.runs))
                ]
                if len({output for row, _ in rounds for _, output in row.values()}) != 1:
                    sys.exit(f"workers.py: {name}: the numbers of workers don't print the same bytes")
                took = {it: statistics.median(row[it][0] for row, _ in rounds) for it in WORKERS}
                share = {it: statistics.median(row[it][0] / row[1][0] for row, _ in rounds) for it in WORKERS}
                cells = [f"{took[it]:.3f} ({share[it]:.2f})" for it in WORKERS]
                four = statistics.median(at_once[-1] / 4 / row[1][0] for row, at_once in rounds)
                beside = statistics.median(row[4][0] / statistics.mean(at_once) for row, at_once in rounds)
                print(f"| {name} | {ahead} | " + " | ".join(cells) + f" | {four:.2f} | {beside:.2f} |", flush=True)


if __name__ == "__main__":
    main()
