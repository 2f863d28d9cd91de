"""The price lists of a study, by the names that they have in the field."""
from dataclasses import dataclass


@dataclass(frozen=True)
class PriceList:
    """A list's key, by which its files are named, its name, and what it is."""

    key: str
    name: str
    about: str


CONVEX_HULL = PriceList(
    "convex_hull", "Convex hull (certified)", "prices of the greatest dual value, with a certificate of how near"
)
LMP = PriceList("lmp", "LMP", "duals of the dispatch with the schedule's commitments held")
ELMP = PriceList("elmp", "ELMP", "LMP with fast-start units relaxed, their start costs spread")
RELAXATION = PriceList(
    "relaxation", "Integer relaxation", "duals of the commitment problem with on flags between 0 and 1"
)
SUBGRADIENT_100 = PriceList("subgradient_100", "Subgradient 100", "hull price with 100 proposals, four ahead")
SUBGRADIENT_1000 = PriceList(
    "subgradient_1000", "Subgradient 1,000", "hull price with up to 1,000 proposals, one ahead"
)
ZONAL = PriceList("zonal", "Zonal prices", "prices by zone, each unit settled at those of its own")

# (in the order of tables and pictures)
LISTS = (CONVEX_HULL, LMP, ELMP, RELAXATION, SUBGRADIENT_100, SUBGRADIENT_1000)
