"""A small repository with a stand-in for the kit, which notes what it was asked, proves nothing, and makes a program of a few lines.

As the kit does, it takes what it has proved before as kept.

The program tells, by the word `src`, the text that the library `low` was made of, and by `where` the folder that it runs in.
"""
import os
import shutil
import subprocess
import tempfile
import time
import unittest

from built import ROOT, run
from collections.abc import Callable

CRATES = "# a comment\nlow: arrayvec\nfor_tests: low\nhigh may_wait=3: low  # a comment\nhull_cli: high low\n"
RT = r"""#!/usr/bin/env bash
kit=$(dirname "$(dirname "$0")")

# Stands for the proof of the crate $1, of whose files and of those below it $sum is a sum.
prove() {
    echo "$1" >> "$ASKED"
    if [ "$1" = "${HOLDS-}" ]; then
        : > "$ASKED.held"
        while [ -e "$ASKED.hold" ]; do sleep 0.02; done
    fi
    case "$1 ${FAILS-}" in
        "high high" | "hull_cli compile") return 1 ;;
        "high full") echo "error: No space left on device (os error 28)"; return 1 ;;
    esac
    : > "$kit/kept/$1-$sum"
}

# Stands for rt ci, which works where it is called.
ci() {
    local crate crates sum="" text
    local -A sum_of
    [ -e .git ] && [ -e HANDLES ] || { echo "no top of a repository"; exit 2; }
    mapfile -t crates < <(sed 's/#.*//;s/[ :].*//' crates.txt | grep .)
    for crate in "${crates[@]}"; do
        rm -rf "crates/$crate/out"
        mkdir "crates/$crate/out"
        sum_of[$crate]=$({ echo "$sum"; cat "$kit/KIT-ID" "crates/$crate"/{src,specs,proofs}/*; } 2>/dev/null | sha256sum | cut -c 1-40)
        [ "$crate" = for_tests ] || sum=${sum_of[$crate]}
    done
    sleep 0.02
    text=$(cat crates/low/src/lib.rt)
    eval "${WHILE-}"
    for crate in "${crates[@]}"; do
        sum=${sum_of[$crate]}
        if [ -e "$kit/kept/$crate-$sum" ] && [ "${1-}" != --anew ]; then
            echo "rt: $crate is kept: an earlier run on this machine proved the same files over the same libraries"
        elif prove "$crate"; then
            echo "rt: $crate proved"
        else
            echo "rt: $crate NOT PROVED"
            echo "rt: FAILED: $crate"
            exit 1
        fi
    done
    cat > crates/hull_cli/out/hull_cli <<END
#!/bin/sh
case "\$*" in
    where) exec pwd ;;
    src) echo '$text' ;;
    nine) exec cat <&9 ;;
    environment) env | sort ;;
    "") echo fault 1 words 1 0; exit 1 ;;
    *) echo "given \$*" ;;
esac
# stands for what a program needs: GLIBC_2.17 GLIBC_2.34
END
    chmod +x crates/hull_cli/out/hull_cli
    echo "3 passed, 0 failed"
    exit "${CI_STATUS-0}"
}

case "$1" in
    version) cat "$kit/KIT-ID" ;;
    ci) shift && ci "$@" ;;
esac
"""
BUILT = ["low", "high", "hull_cli"]
KIT = "rattle-kit-13x logic 0123"
TOOLS = ("hull", "tools/made_of.sh", "tools/build.sh", "tools/program.sh", "tools/ship.sh", "docs/help.txt", ".ci/run")


class Repository(unittest.TestCase):
    """Each test has a repository `room` of its own, and leaves no process."""

    def setUp(self) -> None:
        above = tempfile.mkdtemp(prefix="hull-launcher-")
        self.addCleanup(shutil.rmtree, above)
        os.chmod(above, 0o755)
        self.room = f"{above}/room"
        self.kit = f"{above}/a kit"
        for name in TOOLS:
            os.makedirs(os.path.dirname(f"{self.room}/{name}"), exist_ok=True)
            shutil.copy(f"{ROOT}/{name}", f"{self.room}/{name}")
        os.mkdir(f"{self.room}/.git")
        self.write("crates.txt", CRATES)
        self.write("HANDLES", "Handles allowed: none.\n")
        self.write("README.md", f"Proved with `{KIT}` (`rt version`).\n")
        self.write("CHANGELOG.md", "# Changes\n\n## 1.2.3 (2026-12-01)\n\n## 1.0.0\n")
        for crate in ("low", "for_tests", "high", "hull_cli"):
            self.write(f"crates/{crate}/src/lib.rt", "one\n")
        self.write("../a kit/bin/rt", RT)
        os.chmod(f"{self.kit}/bin/rt", 0o755)
        os.makedirs(f"{self.kit}/kept")
        self.write("../a kit/KIT-ID", f"{KIT}\n")
        os.mkdir(f"{above}/temporary")
        self.env = {
            "PATH": f"{self.kit}/bin:/usr/bin:/bin",
            "ASKED": f"{above}/asked",
            "HOME": "/",
            "TMPDIR": f"{above}/temporary",
        }
        self.out = f"{self.room}/crates/hull_cli/out"
        self.program = f"{self.out}/hull_cli"
        self.shipped = f"{self.room}/dist/linux-x86_64/hull"
        self.addCleanup(self.check_no_process)

    def check_no_process(self) -> None:
        """Nothing is left of a build: no process, and no folder."""
        self.assertTrue(self.comes(lambda: not self.processes()), f"left: {self.processes()}")
        self.assertEqual(os.listdir(self.env["TMPDIR"]), [])

    def processes(self) -> list[tuple[int, bytes]]:
        """The processes that were started for this repository and live."""
        found = []
        for pid in filter(str.isdigit, os.listdir("/proc")):
            try:
                with open(f"/proc/{pid}/environ", "rb") as file:
                    is_one = f"ASKED={self.env['ASKED']}".encode() in file.read().split(b"\0")
                with open(f"/proc/{pid}/stat", "rb") as file:
                    is_one &= file.read().rsplit(b")", 1)[1].split()[0] != b"Z"
                with open(f"/proc/{pid}/cmdline", "rb") as file:
                    found += [(int(pid), file.read())] * is_one
            except OSError:
                pass
        return found

    def comes(self, holds: Callable[[], bool], seconds: float = 60) -> bool:
        """Whether it holds within so many seconds."""
        until = time.monotonic() + seconds
        while not holds():
            if time.monotonic() > until:
                return False
            time.sleep(0.02)
        return True

    def write(self, name: str, text: str) -> None:
        os.makedirs(os.path.dirname(f"{self.room}/{name}"), exist_ok=True)
        with open(f"{self.room}/{name}", "w", encoding="utf-8") as file:
            file.write(text)

    def read(self, name: str) -> str:
        with open(f"{self.room}/{name}", encoding="utf-8") as file:
            return file.read()

    def forget(self) -> None:
        """Takes away what was built, and what the kit has kept."""
        for place in (self.out, f"{self.kit}/kept"):
            shutil.rmtree(place, ignore_errors=True)
        os.mkdir(f"{self.kit}/kept")

    def call(self, *words: str, **env: str) -> tuple[int, bytes, bytes]:
        """Runs one of the repository's own commands, or another program in the repository."""
        return run(words[1:], program=words[0], folder=self.room, env={**self.env, **env})

    def hull(self, *words: str, **env: str) -> tuple[int, bytes, bytes]:
        return run(words, program=f"{self.room}/hull", folder=self.room, env={**self.env, **env})

    def begin(self, *words: str, **env: str) -> "subprocess.Popen[bytes]":
        """Starts the launcher, and hands out its process."""
        return subprocess.Popen(
            [f"{self.room}/hull", *words],
            stdout=subprocess.PIPE,
            stderr=subprocess.PIPE,
            start_new_session=True,
            cwd=self.room,
            env={**self.env, **env},
            stdin=subprocess.DEVNULL,
        )

    def hold(self, crate: str, *words: str, **env: str) -> "subprocess.Popen[bytes]":
        """Starts the launcher, and waits until the prover is at the crate, where it stays until `go_on`."""
        with open(f"{self.env['ASKED']}.hold", "w", encoding="utf-8"):
            pass
        begun = self.begin(*words, HOLDS=crate, **env)
        self.assertTrue(self.comes(lambda: os.path.exists(f"{self.env['ASKED']}.held")))
        return begun

    def go_on(self) -> None:
        os.remove(f"{self.env['ASKED']}.hold")

    def ended(self, begun: "subprocess.Popen[bytes]") -> tuple[int, bytes, str]:
        output, said = begun.communicate(timeout=120)
        return begun.returncode, output, said.decode()

    def asked(self) -> list[str]:
        """What the prover was asked since this was looked at last."""
        if not os.path.exists(self.env["ASKED"]):
            return []
        with open(self.env["ASKED"], encoding="utf-8") as file:
            lines = file.read().splitlines()
        os.remove(self.env["ASKED"])
        return lines
