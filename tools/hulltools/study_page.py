"""One HTML page of a study, which needs nothing else."""
import base64
import html
from typing import Any, Dict, Iterable, List, Sequence, Tuple

from .cash_flows import KINDS, total, uplift_by_period
from .charts import steps_chart
from .errors import one_line
from .numbers import Millionths, money
from .pages import DRAWING, MOST_NUMBERS, SORT, document, head_row, number_cell, shown
from .settlement_rules import RULES, bill, forced_losses, paid, paid_by_kind
from .studies import Paid, Settled, Study
from .study_style import COLOURS, STYLE, UNIT_LISTS

KIND_COLOURS = {"thermal": "blue", "renewable": "green", "bid": "violet"}
KIND_NAMES = {"thermal": "thermal", "renewable": "renewable", "bid": "buyer"}
UNIT_KEYS = (
    '<i class="energy"></i>best response',
    '<i class="reserve"></i>its reserve',
    '<i class="energy first"></i>schedule',
    '<i class="reserve first"></i>its reserve',
)
HIDES = "Where lists agree, the last one hides the others."
Row = Tuple[str, Sequence[Tuple[str, int]], str]


def plain(text: str) -> str:
    """A text as HTML: what can't be printed, and what turns the direction, as ?."""
    return html.escape(one_line(text))


def keys_of(keys: Iterable[str]) -> str:
    """Keys of a picture, none of them parted from its mark by the end of a line."""
    return " ".join(f'<span class="key">{it}</span>' for it in keys)


def bars(rows: Sequence[Row], keys: List[Tuple[str, str]]) -> str:
    """Stacked bars: each row has a name, its parts as (colour, number), and what stands at its end."""
    most = max([1, *(sum(number for _, number in parts) for _, parts, _ in rows)])
    told = [f'<i class="box {colour}"></i>{name}' for colour, name in keys]
    found = [f"<p>{keys_of(told)}</p>"]
    for name, parts, end in rows:
        blocks = "".join(
            f'<b class="{colour}" style="width:{number / most * 100:.3f}%"></b>'
            for colour, number in parts
            if number > 0
        )
        found.append(
            f'<div class="list"><span>{plain(name)}</span><div class="stack">{blocks}</div><span class="sum">{end}</span></div>'
        )
    return "".join(found)


def table(heads: Iterable[str], rows: Iterable[str]) -> str:
    """A table that sorts; the column of names stays in sight where the table is wider than the page."""
    head = head_row(heads).replace("class=text", 'class="text name"', 1)
    return (
        f'<div class="wide"><table><thead><tr>{head}</tr></thead><tbody>\n{chr(10).join(rows)}\n</tbody></table></div>'
    )


def row_of(name: str, numbers: Iterable[int], more: str = "", attributes: str = "") -> str:
    cells = "".join(number_cell(number, money(number)) for number in numbers)
    return f'<tr{attributes}><td class="text name">{name}</td>{more}{cells}</tr>'


def headline(study: Study) -> str:
    """The gap's parts at convex hull prices, or else at those of the first list, and what the certificate says."""
    certificate = study.certificate
    found = f'<p class="said">{plain(study.sentence("At"))}</p>'
    if certificate is None:
        return found
    best = study.main
    name = "The convex hull prices" if study.is_best_convex else f"The prices of the list {plain(best.list.name)}"
    distance = Millionths(certificate.bound - best.settlement.best.value)
    return (
        f"{found}<p>hull certify proves that no whole prices within the limits of prices have a dual value above {money(certificate.bound)}. {name} come within "
        f"{money(distance)} of it.</p>"
    )


def notes_of(study: Study) -> str:
    found = list(study.notes)
    parts = study.parts(study.main.list.key)
    if parts.schedule:
        found.insert(
            0,
            f"A schedule is known that costs {money(parts.schedule)} less than this one. Each payment below is for this schedule.",
        )
    return "".join(f'<p class="note">{plain(it)}</p>' for it in (*study.missed_gaps, *found))


def what_saves(known: bool, bounded: bool) -> str:
    """What would save each part of the gap, in the order of the table."""
    if not known:
        first = "A better schedule may save some of the first part, and no whole prices within the limits of prices do; better prices save at most the second."
        return first if bounded else "A better schedule or better prices may save some of it."
    rest = (
        "no whole prices within the limits of prices save the second, and better prices save at most the third"
        if bounded
        else "better prices save at most the second"
    )
    return f"A better schedule saves the first part, {rest}. The bars are without the first part."


def gap_part(study: Study) -> str:
    """What of the gap each list has at the best schedule known, and the three parts as a table."""
    known, bounded = study.best_cost is not None, study.certificate is not None
    rows: List[Row] = []
    lines = []
    for settled in study.in_order():
        parts = study.parts(settled.list.key)
        left = ([("blue", parts.duality or 0)] if bounded else []) + [("orange", parts.prices)]
        rows.append((settled.list.name, left, money(parts.without_schedule)))
        sums = [*([parts.schedule or 0] if known else []), *(number for _, number in left), parts.gap]
        lines.append(row_of(plain(settled.list.name), sums))
    rest = ("duality gap" if known else "schedule and duality gap") + ", at least" * study.is_far
    keys = ([("blue", rest)] if bounded else []) + [("orange", "prices, at most")]
    heads = ["*Prices", *(["Schedule"] if known else []), *(told.capitalize() for _, told in keys), "Gap"]
    title = "Gap at the best schedule known" if known else "Gap by price list"
    return (
        f"<h2>{title}</h2><p>The gap is the schedule's cost less the dual value: uplift in full, payments and surplus reserve. "
        f"{what_saves(known, bounded)}</p>"
        f"{bars(rows, keys)}{table(heads, lines)}"
    )


def rule_part(study: Study, rule: str) -> str:
    """What units and buyers are paid under a rule, with subtotals by kind."""
    has = [kind for kind in KINDS if any(kind == it for it, _ in study.case.units)]
    rows, lines = [], []
    for paid in study.paid():
        sums = paid_by_kind(paid.units, rule)
        whole = sum(sums.values())
        rows.append((paid.list.name, [(KIND_COLOURS[kind], sums[kind]) for kind in has], money(whole)))
        lines.append(row_of(plain(paid.list.name), [whole, *(sums[kind] for kind in has)]))
    keys = [(KIND_COLOURS[kind], KINDS[kind].lower()) for kind in has]
    heads = ["*Prices", "All", *(KINDS[kind] for kind in has)]
    return f"<h2>Payments: {RULES[rule]}</h2>{of_the_schedule(study, rule)}{bars(rows, keys)}{table(heads, lines)}"


def of_the_schedule(study: Study, rule: str) -> str:
    """What of the payments comes from a dear schedule, which is known in full alone."""
    part = study.parts(study.main.list.key).schedule
    if not part:
        return ""
    if rule != "full":
        return "<p>The parts of the gap aren't parts of these payments: a study of the better schedule says what they would be.</p>"
    but = " but zonal prices, which have no such part," if study.zonal else ""
    return f"<p>Of payments and surplus reserve under each list{but} {money(part)} is the schedule's part.</p>"


def consumers_part(study: Study) -> str:
    """What consumers pay in all under each rule and list."""
    heads = ["*Prices", "Consumers pay", "Energy", "Reserve", "Payments", "Surplus reserve", "Left over"]
    found = []
    for rule in study.wanted.rules:
        rows = []
        for settled in study.in_order():
            due = bill(study.case, settled.settlement, settled.flows, rule)
            numbers = (due.total, due.energy, due.reserve, due.payments, due.surplus, due.left)
            rows.append(row_of(plain(settled.list.name), numbers))
        found.append(f"<h3>{RULES[rule].capitalize()}</h3>{table(heads, rows)}")
    return (
        "<h2>What consumers pay</h2><p>Demand at the energy prices, required reserve at the reserve prices, and uplift: payments to units and buyers, "
        "and the worth of surplus reserve. Buyers with bids pay for their own energy. Where several lists have the least gap, they can differ in this.</p>"
        + "".join(found)
    )


def forced_part(study: Study) -> str:
    """Losses that a unit's own rules force, which are no part of a payment."""
    lists = study.paid()
    forced: Dict[Tuple[str, str], List[int]] = {}  # (by kind too: units of two kinds may have one name)
    reasons: Dict[Tuple[str, str], str] = {}
    for place, paid in enumerate(lists):
        for loss in forced_losses(study.case, paid.units):
            reasons[loss.kind, loss.name] = loss.reason
            forced.setdefault((loss.kind, loss.name), [0] * len(lists))[place] = loss.forced
    if not forced:
        return ""
    rows = []
    for (kind, name), sums in forced.items():
        texts = "".join(f'<td class="text">{it}</td>' for it in (KIND_NAMES[kind], reasons[kind, name]))
        rows.append(row_of(shown(name), sums, texts))
    heads = ("*Name", "*Kind", "*Forced by", *(plain(it.list.name) for it in lists))
    return (
        "<h2>Forced losses</h2><p>These units lose at the prices whatever they do within their rules. No payment above covers the forced loss. Many markets make a "
        "unit whole for it where a reliability commitment is the reason, and not where it schedules itself.</p>"
        + table(heads, rows)
    )


def style_of(place: int) -> str:
    return f"l{place % len(COLOURS)}" + " dashed" * (place >= len(COLOURS))


def price_chart(study: Study, title: str, series: Sequence[Tuple[str, Sequence[int]]], places: List[int]) -> str:
    """A chart of price lists by period; `places` say which colour each has. Where prices are one, the last list is seen."""
    clock, periods = study.clock, study.case.periods
    rows = [
        (style_of(place), [float(clock.price(number)) for number in numbers])
        for place, (_, numbers) in zip(places, series)
    ]
    keys = keys_of(f'<i class="{style}"></i>{plain(name)}' for (style, _), (name, _) in zip(rows, series))
    told = f"{title}, {study.wanted.currency or 'currency'} {clock.price_unit}"
    return f"<h2>{plain(told)}</h2><p>{keys}{HIDES * (len(rows) > 1)}</p>{steps_chart(told, rows, periods, clock.axis(periods), clock.labels(periods))}"


def price_parts(study: Study) -> str:
    """Energy and reserve prices of all lists, and what the energy prices are above LMP."""
    lists = study.in_order()
    every = list(range(len(lists)))
    found = [price_chart(study, "Energy prices", [(it.list.name, it.settlement.best.energy) for it in lists], every)]
    others = [place for place in every if lists[place].list.key != "lmp"]
    if others and "lmp" in study.lists:
        lmp = study.lists["lmp"].settlement.best.energy
        above = [(lists[i].list.name, [a - b for a, b in zip(lists[i].settlement.best.energy, lmp)]) for i in others]
        found.append(price_chart(study, "Energy prices less LMP", above, others))
    if any(any(it.settlement.best.reserve) for it in lists):
        found.append(
            price_chart(study, "Reserve prices", [(it.list.name, it.settlement.best.reserve) for it in lists], every)
        )
    return "".join(found)


def folded(name: str, body: str, is_open: bool = False) -> str:
    return f"<details{' open' * is_open}><summary>{plain(name)}</summary>{body}</details>"


def hours_of(study: Study, settled: Settled) -> str:
    """The table of one list by period."""
    case, row, clock = study.case, settled.settlement.best, study.clock
    uplift = uplift_by_period(case, study.schedule, settled.settlement, settled.flows)
    rows = []
    for t, name in enumerate(clock.rows(case.periods)):
        prices = "".join(number_cell(price, clock.price_text(price)) for price in (row.energy[t], row.reserve[t]))
        powers = (case.demand[t], row.supplied[t], case.reserves[t])
        more = prices + "".join(number_cell(power, f"{power / 1000:,.3f}") for power in powers)
        rows.append(
            f'<tr><td class="name" data-is="{t}">{name}</td>{more}{number_cell(uplift[t], money(uplift[t]))}</tr>'
        )
    heads = ("Period", "Energy price", "Reserve price", "Demand, MW", "Response, MW", "Required reserve, MW", "Uplift")
    return table(heads, rows)


def hours_part(study: Study) -> str:
    parts = [folded(it.list.name, hours_of(study, it)) for it in study.in_order()]
    return (
        f"<h2>By period</h2><p>Prices are {study.clock.price_unit}. Response is what units would supply at the prices if each did its best, less what buyers would take. Uplift of a "
        "period is the profit of the responses less that of the schedule, and surplus reserve's worth. It can be below 0; the sum over the periods is the gap.</p>"
        + "".join(parts)
    )


def by_payment(lists: Sequence[Paid]) -> List[int]:
    """The places of the units, those of the largest payment under a list first."""
    return sorted(range(len(lists[0].units)), key=lambda i: -max(it.units[i].payment for it in lists))


def units_part(study: Study) -> str:
    """What each unit is paid under each rule and list, with a picture of the unit that is clicked."""
    lists, rules = study.paid(), study.wanted.rules
    units = lists[0].units
    rows = []
    for i in by_payment(lists):
        numbers = [paid(it.units[i], rule) for it in lists for rule in rules]
        kind = f'<td class="text">{KIND_NAMES[units[i].kind]}</td>'
        cells = "".join(number_cell(number, money(number)) for number in numbers)
        rows.append(
            f'<tr data-unit="{i}" tabindex="0">{kind}<td class="text name">{shown(units[i].name)}</td>{cells}</tr>'
        )
    names = [f"{plain(it.list.name)}<br>{rule}" for it in lists for rule in rules]
    head = head_row(["*Kind", "*Name", *names]).replace(
        'class=text><button type="button">Name', 'class="text name"><button type="button">Name'
    )
    options = "".join(f'<option value="{it.list.key}">{plain(it.list.name)}</option>' for it in lists)
    return (
        "<h2>Payments by unit</h2><p>What each unit and buyer is paid beside energy and reserve, for all periods together. A click on a head sorts, a click on a row shows that unit's best response "
        f'at the prices of <select id="chosen" aria-label="Prices">{options}</select></p>'
        f'<p>{keys_of(UNIT_KEYS)}</p><div id="unit"></div>'
        f'<div class="wide"><table><thead><tr>{head}</tr></thead><tbody>\n{chr(10).join(rows)}\n</tbody></table></div>'
    )


def revenue_part(study: Study) -> str:
    """Revenue and cost of each unit in the schedule, a table for each list."""
    heads = (
        "*Name",
        "*Kind",
        "Energy revenue",
        "Reserve revenue",
        "Production cost",
        "Start cost",
        "Profit",
        "Best profit",
        "Make-whole",
        "Lost opportunity",
        "Payment",
    )
    found = []
    for paid in study.paid():
        rows = []
        for unit in paid.flows:
            flow, owed = total(unit.scheduled), unit.owed
            sums = (
                flow.energy,
                flow.reserve,
                flow.production,
                flow.start,
                flow.profit,
                owed.earned,
                owed.make_whole,
                owed.lost_opportunity,
                owed.payment,
            )
            rows.append(row_of(shown(owed.name), sums, f'<td class="text">{KIND_NAMES[owed.kind]}</td>'))
        found.append(folded(paid.list.name, table(heads, rows)))
    return (
        "<h2>Revenue and cost by unit</h2><p>Profit is revenue less cost in the schedule; best profit is that of the best response. A buyer's revenue is what it pays, below 0, "
        "and its cost is the worth of what it takes, below 0.</p>" + "".join(found)
    )


def unit_lists(study: Study) -> Dict[int, Dict[str, Any]]:
    """For each unit by its place the schedule and the responses, as far as the page holds them: the largest payments first."""
    lists, units, found, room = study.paid(), study.case.units, {}, MOST_NUMBERS
    for i in by_payment(lists):
        kind, unit = units[i]
        plan, is_thermal = study.schedule.plan(kind, unit.name), kind == "thermal"
        schedule = {"scheduled": plan.power, **({"scheduledReserve": plan.reserve} if is_thermal else {})}
        responses = {}
        for paid in lists:
            owed = paid.units[i]
            responses[paid.list.key] = {"power": owed.power, **({"reserve": owed.reserve} if is_thermal else {})}
        room -= (1 + len(lists)) * len(schedule) * study.case.periods
        if room < 0:
            break
        found[i] = {"schedule": schedule, "responses": responses}
    return found


def files_part(files: Dict[str, str]) -> str:
    """Links that hold the files themselves."""
    links = []
    for name, text in files.items():
        form = "text/csv" if name.endswith(".csv") else "application/json" if name.endswith(".json") else "text/plain"
        data = base64.b64encode(text.encode()).decode()
        links.append(f'<a download="{plain(name)}" href="data:{form};base64,{data}">{plain(name)}</a>')
    return f'<h2>Files</h2><p class="files">{"".join(links)}</p>'


def origin_part(study: Study) -> str:
    rows = "".join(f"<dt>{plain(name)}</dt><dd>{plain(text)}</dd>" for name, text in study.provenance.lines())
    return f'<h2>How this page was made</h2><dl class="origin">{rows}</dl>'


def study_page(study: Study, files: Dict[str, str]) -> str:
    """The page; `files` are texts that it offers for download, by name."""
    title = study.wanted.title or "Price lists, one schedule"
    currency = plain(study.wanted.currency) if study.wanted.currency else "the case's currency"
    money_told = f"Money is in {currency}, rounded to the cent, bounds and parts too; table.csv has all digits."
    parts = [
        gap_part(study),
        *(rule_part(study, rule) for rule in study.wanted.rules),
        consumers_part(study),
        forced_part(study),
    ]
    parts += [
        price_parts(study),
        units_part(study),
        hours_part(study),
        revenue_part(study),
        files_part(files),
        origin_part(study),
    ]
    certified = ", the bound on the dual value by hull certify" if study.certificate else ""
    about = "".join(f"<dt>{plain(it.list.name)}</dt><dd>{plain(it.list.about)}</dd>" for it in study.paid())
    body = f"""<style>{STYLE}</style><h1>{plain(title)}</h1>
<p>{shown(study.provenance.case_name)}: {len(study.case.units)} units and buyers over {study.case.periods} period{"s" * (study.case.periods > 1)}, a schedule of cost {money(study.cost)}. {money_told}
Prices are {study.clock.price_unit}. Each settlement is by hull settle{certified}.</p>
{headline(study)}{notes_of(study)}{chr(10).join(parts)}
<h2>The lists</h2><dl class="origin">{about}</dl>"""
    return document(title, body, [SORT, DRAWING, UNIT_LISTS], {"lists": unit_lists(study)})
