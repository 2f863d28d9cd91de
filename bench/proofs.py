#!/usr/bin/env python3
"""Measures what the proof of each function of a crate takes, and prints the dearest ones.

usage: proofs.py [--least SECONDS] CRATE..

The crates below are read as .ci/run has left them in their folders crates/NAME/out, so nothing below may have changed since. One
process checks the crate, part by part, and writes a file as it ends with each part: that file's time less the one before is what the part
took. What is before the first is what every crate costs: reading what is below, and loading it. Part of the library is loaded later, by
the first part that needs it, and is counted there. A function has some twenty parts; two have columns: the one that goes over the steps of
its code, and its proof. Nothing is kept. Compare figures of one machine alone, and run this on a quiet one.
"""
import argparse
import collections
import os
import re
import shutil
import subprocess
import sys
import tempfile
import time

import run

PART = re.compile(r"Rattle-\w+-(specs|proofs)\.(.+)\.oantt")
# The parts of a function, of which each has the function's path before its own name.
PARTS = "Answers Code Given Goals Invariants Kinds Layout Lts Met Named Proof Reads Statement Symbol TheLaws TheLink TheReach TheSendSync Tie".split()
STEPS, PROOF = "Lts", "Proof"


def below(crate):
    """The crates that a crate stands on, of the repository and of the kit."""
    with open(f"{run.HOME}/crates.txt", encoding="utf-8") as lines:
        for line in lines:
            name, _, rest = line.partition("#")[0].partition(":")
            if name.split(" ")[0] == crate:
                return rest.split()
    sys.exit(f"proofs.py: crates.txt doesn't list {crate}")


def library_of(name: str, kit: str) -> str:
    """The folder that a crate's library lies in, of the repository or of the kit."""
    return f"{run.HOME}/crates/{name}/out/rlib" if os.path.isdir(f"{run.HOME}/crates/{name}") else f"{kit}/rlibs"


def all_below(crate: str) -> list[str]:
    """The crates of the repository that a crate stands on, and those that they stand on."""
    found: list[str] = []
    for name in below(crate):
        if os.path.isdir(f"{run.HOME}/crates/{name}"):
            found += [it for it in [*all_below(name), name] if it not in found]
    return found


def words_of(crate: str, kit: str) -> list[str]:
    root = "src/main.rt" if crate == "hull_cli" else "src/lib.rt"
    words = [f"{kit}/bin/rattle", "check", "--crate-name", crate, root, "--links", f"{crate}=", "--jobs", "1"]
    words += ["--antt-project", f"{kit}/rattle/logic/antt-project.json", "--logic-built", f"{kit}/logic_built"]
    words += ["-L", f"dependency={kit}/rlibs"]
    for name in all_below(crate):
        words += ["-L", f"dependency={library_of(name, kit)}"]
    for name in ["std", *below(crate)]:
        library = f"{library_of(name, kit)}/{name}.rlib"
        if not os.path.isdir(library):
            sys.exit(f"proofs.py: {library} isn't there: .ci/run makes it")
        words += ["--extern", f"{name}={library}"]
    return words


def check(crate, words):
    """Checks a crate, and answers how long it took in all, and each part with its time, in the order in which they were ended with."""
    ended = {}
    with tempfile.TemporaryDirectory() as folder:
        begun = time.time()
        asked = {
            "cwd": f"{run.HOME}/crates/{crate}",
            "env": {**os.environ, "TMPDIR": folder},
            "stdin": subprocess.DEVNULL,
        }
        with subprocess.Popen(words, stdout=subprocess.DEVNULL, stderr=subprocess.DEVNULL, **asked) as work:
            while work.poll() is None:
                look(folder, ended)
                time.sleep(0.2)
        whole = time.time() - begun
    if work.returncode or not ended:
        sys.exit(f"proofs.py: {crate} isn't proved: rt check in its folder says why")
    took, before = [], begun
    for part, at in sorted(ended.items(), key=lambda it: it[1]):
        took.append((at - before, part))
        before = at
    return whole, took


def look(folder, ended):
    """Notes when each file of a part was written. The prover takes them away at its end."""
    try:
        for home in os.scandir(folder):
            for file in os.scandir(home):
                if file.name not in ended and file.name.endswith(".oantt"):
                    ended[file.name] = file.stat().st_mtime
    except OSError:
        pass


def owner_of(part):
    """Whose part it is, a function or what the crate has beside them, and which."""
    named = PART.fullmatch(part)
    words = named.group(2).split(".") if named else ["TheLinks"]
    if "TheLinks" in words:
        return None, "links"
    if named.group(1) == "specs":
        return None, "contracts" if words[0] == "contracts" else "definitions"
    for place, word in enumerate(words):
        if place and word in PARTS:
            return "::".join(words[:place]), word
    return None, "lemmas" if len(words) == 1 else "others"


def print_times(crate, whole, took, least):
    (first, _), *others = took
    beside, functions = collections.Counter(), collections.defaultdict(collections.Counter)
    for seconds, part in others:
        owner, which = owner_of(part)
        if owner:
            functions[owner][which] += seconds
        else:
            beside[which] += seconds
    sums = {name: sum(parts.values()) for name, parts in functions.items()}
    steps, proofs = (sum(parts[which] for parts in functions.values()) for which in (STEPS, PROOF))
    print(
        f"{crate}: {whole:.1f} s: {first:.1f} before the first part, {sum(sums.values()):.1f} in {len(sums)} functions",
        end="",
    )
    print("".join(f", {seconds:.1f} in {which}" for which, seconds in beside.most_common()))
    print("   whole   steps   proof")
    print(f"{sum(sums.values()):8.1f}{steps:8.1f}{proofs:8.1f}  all functions")
    for name in sorted(sums, key=sums.get, reverse=True):
        if sums[name] >= least:
            print(f"{sums[name]:8.1f}{functions[name][STEPS]:8.1f}{functions[name][PROOF]:8.1f}  {name}")
    sys.stdout.flush()


def main():
    ask = argparse.ArgumentParser(description="Measures what the proof of each function of a crate takes.")
    ask.add_argument("--least", type=float, default=1.0, help="functions that take less aren't listed (1)")
    ask.add_argument("crates", nargs="+", metavar="CRATE")
    given = ask.parse_args()
    rt = shutil.which("rt") or sys.exit("proofs.py: rt isn't on the path")
    kit = os.path.dirname(os.path.dirname(os.path.realpath(rt)))
    for crate in given.crates:
        print_times(crate, *check(crate, words_of(crate, kit)), given.least)


if __name__ == "__main__":
    main()
