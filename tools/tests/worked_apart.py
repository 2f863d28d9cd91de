"""What test_holding.py has done in processes of their own, which import it by its name."""
from __future__ import annotations

import os
import signal
import time

from hulltools import progress
from hulltools.errors import HullError


def slow(seconds: float) -> str:
    time.sleep(seconds)
    return "done"


def refuse() -> None:
    raise HullError("refused by the work", unit="COAL")


def steps() -> int:
    progress.turn_to("the second step")
    time.sleep(60)
    return 1


def killed() -> None:
    os.kill(os.getpid(), signal.SIGKILL)
