"""When a search for a schedule ends."""
from dataclasses import dataclass
from typing import Optional


SECONDS = 1800.0  # how long a step of a solver may take where nobody says
MOST_NODES = 2**31 - 1  # (the solver's)


@dataclass
class SearchLimits:
    """When the solver ends: at a relative gap, or after so many nodes. The time is an outer limit, after which nothing is taken."""

    gap: float = 0.0005
    nodes: int = 200
    seconds: Optional[float] = SECONDS
