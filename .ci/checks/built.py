"""Where the program and its launcher are, and how the checks run them.

The program is the one that the launcher runs: that which was built here, as the gate builds it, or else that in dist.
"""
import os
import subprocess
from collections.abc import Sequence
from typing import Any

ROOT = os.path.dirname(os.path.dirname(os.path.dirname(os.path.abspath(__file__))))
LAUNCHER = os.path.join(ROOT, "hull")
EXAMPLES = os.path.join(ROOT, "examples")


def program_here() -> str:
    """The program that is made of what is there; where there is none, a name that doesn't exist, so that what runs it fails."""
    found = subprocess.run([f"{ROOT}/tools/program.sh"], stdout=subprocess.PIPE, check=False, text=True)
    return found.stdout.rstrip("\n") or f"{ROOT}/tools/program.sh finds no program"


PROGRAM = program_here()


def run(words: Sequence[str], program: str = PROGRAM, folder: str = ROOT, **how: Any) -> tuple[int, bytes, bytes]:
    """Runs the program to its end, and returns its status (negative: a signal), standard output and standard error."""
    given: dict[str, Any] = {
        "stdin": subprocess.DEVNULL,
        "stdout": subprocess.PIPE,
        "stderr": subprocess.PIPE,
        "timeout": 120,
        **how,
    }
    ended = subprocess.run([program, *words], cwd=folder, **given)
    return ended.returncode, ended.stdout, ended.stderr


def status_of(output: bytes) -> int:
    """The exit status that goes with what was printed: that of its fault line, or 0."""
    words = output.split()
    return int(words[1]) if words[:1] == [b"fault"] else 0
