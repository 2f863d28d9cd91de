"""The tables of a study: a row for each list, for each list and unit, and for each list and period."""
from fractions import Fraction
from typing import TYPE_CHECKING, Dict, List, Optional, Tuple

from .cash_flows import KINDS, UnitFlows, total, uplift_by_period
from .price_lists import PriceList
from .settlement_rules import RULES, bill, forced_loss, paid_by_kind
from .tables import Table, frames_of
from .zones import Zonal

if TYPE_CHECKING:
    from pandas import DataFrame

    from .studies import Settled, Study

SUMS = (
    "cost value gap gap_schedule gap_duality gap_prices payments make_whole lost_opportunity surplus forced_loss "
    "make_whole_thermal make_whole_renewable make_whole_bid full_thermal full_renewable full_bid "
    "consumers_energy consumers_reserve consumers_pay_make_whole consumers_pay_full left_over"
).split()


def money_name(study: "Study") -> str:
    return study.wanted.currency.lower() or "currency"


def price_heads(study: "Study", *names: str) -> List[str]:
    return [f"{name}_{money_name(study)}_{study.clock.price_suffix}" for name in names]


def heads_of_list(with_keys: bool) -> List[str]:
    """The heads above what `names_of` gives."""
    return ["list", "key"] if with_keys else ["list"]


def names_of(price_list: PriceList, with_keys: bool) -> Tuple[str, ...]:
    """The name of a list, and in a frame its key too."""
    return (price_list.name, price_list.key) if with_keys else (price_list.name,)


def sums_of(study: "Study", settled: "Settled") -> List[Optional[int]]:
    """The sums of one list, in the order of the heads."""
    settlement, parts = settled.settlement, study.parts(settled.list.key)
    bills = [bill(study.case, settlement, settled.flows, rule) for rule in RULES]
    gap = (settlement.gap, parts.schedule, parts.duality, parts.prices)
    found: List[Optional[int]] = [settlement.cost, settlement.best.value, *gap]
    found += [settlement.payments, settlement.make_whole, settlement.payments - settlement.make_whole]
    found += [settlement.surplus, sum(map(forced_loss, settlement.units))]
    found += [paid_by_kind(settlement.units, rule)[kind] for rule in RULES for kind in KINDS]
    return [*found, bills[0].energy, bills[0].reserve, *(it.total for it in bills), bills[0].left]


def lists_table(study: "Study", with_keys: bool = False) -> Table:
    """A row for each list, exact but for the means, with what the study was made from in each row; of a frame, with its key too."""
    origin = study.provenance.columns()
    prices = price_heads(study, "energy_price_mean", "energy_price_most", "reserve_price_mean")
    heads = [*heads_of_list(with_keys), "about", *(f"{name}:money" for name in SUMS), *prices, *origin]
    table = Table(heads, True, money_name(study))
    for settled in study.in_order():
        row = settled.settlement.best
        price = study.clock.price_number
        means = [price(Fraction(sum(numbers), len(numbers))) for numbers in (row.energy, row.reserve)]
        cells = (means[0], price(max(row.energy)), means[1])
        names = names_of(settled.list, with_keys)
        table.add(*names, settled.list.about, *sums_of(study, settled), *cells, *origin.values())
    return table


UNIT_SUMS = (
    "energy_revenue reserve_revenue production_cost start_cost profit best_profit payment make_whole lost_opportunity forced_loss"
).split()


def unit_sums(unit: UnitFlows) -> Tuple[int, ...]:
    """What a unit earns and spends in the schedule, and what it is owed, in the order of the heads."""
    flow, owed = total(unit.scheduled), unit.owed
    sums = (flow.energy, flow.reserve, flow.production, flow.start, flow.profit, owed.earned, owed.payment)
    return (*sums, owed.make_whole, owed.lost_opportunity, forced_loss(owed))


def units_table(study: "Study", with_keys: bool = False) -> Table:
    """A row for each list and unit; of a frame, with the list's key too."""
    heads = [*heads_of_list(with_keys), "kind", "unit", *(f"{name}:money" for name in UNIT_SUMS)]
    table = Table(heads, True, money_name(study))
    for paid in study.paid():
        for unit in paid.flows:
            table.add(*names_of(paid.list, with_keys), unit.owed.kind, unit.owed.name, *unit_sums(unit))
    return table


def zonal_table(zonal: Zonal, currency: str = "") -> Table:
    """A row for each unit at the prices of its zone."""
    heads = ["zone", "kind", "unit", *(f"{name}:money" for name in UNIT_SUMS)]
    table = Table(heads, True, currency.lower() or "currency")
    for unit in zonal.flows:
        table.add(zonal.zones.zone_of(unit.owed.kind, unit.owed.name), unit.owed.kind, unit.owed.name, *unit_sums(unit))
    return table


def hours_table(study: "Study", with_keys: bool = False) -> Table:
    """Prices, demand, the responses' supply and uplift by period at each list; of a frame, with the list's key too."""
    case, clock = study.case, study.clock
    powers = ("demand:kw", "requirement:kw", "response_supply:kw", "response_reserve:kw")
    prices_of = price_heads(study, "energy_price", "reserve_price")
    heads = [*heads_of_list(with_keys), "period", "begins", *prices_of, *powers, "uplift:money"]
    table = Table(heads, True, money_name(study))
    for settled in study.in_order():
        row = settled.settlement.best
        uplift = uplift_by_period(case, study.schedule, settled.settlement, settled.flows)
        for t, begins in enumerate(clock.times(case.periods)):
            prices = (clock.price_number(row.energy[t]), clock.price_number(row.reserve[t]))
            lists = (case.demand[t], case.reserves[t], row.supplied[t], row.reserved[t])
            names = names_of(settled.list, with_keys)
            table.add(*names, t + 1, begins or None, *prices, *lists, uplift[t])
    return table


def tables_of_study(study: "Study") -> Dict[str, Table]:
    """The tables by the names of their files."""
    return {"table.csv": lists_table(study), "units.csv": units_table(study), "hours.csv": hours_table(study)}


def frames_of_study(study: "Study") -> Dict[str, "DataFrame"]:
    """The tables as data frames of pandas."""
    makers = {"lists": lists_table, "units": units_table, "hours": hours_table}
    tables = {name: table(study, with_keys=True) for name, table in makers.items()}
    clock = study.clock
    start = None if clock.why_unknown(study.case.periods) else clock.start
    return frames_of(tables, start, clock.hours or 1)
