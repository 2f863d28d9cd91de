"""One HTML page of a report or a settlement, which needs nothing else."""
import html
import json
from collections.abc import Iterable, Iterator, Sequence
from typing import Optional

from .charts import Chart, steps_chart
from .numbers import Kilowatts, decimal_text, money, per_mwh
from .errors import HullError, one_line
from .outputs import RADIUS, AnyPriced, Certificate, Convex, Owed, Report
from .schedules import Schedule

SHOWN = 25  # how many units the picture of payments names
MOST_NUMBERS = 600_000  # how many numbers of responses a page holds

STYLE = """
:root { color-scheme: light dark; --text: #1b1f24; --soft: #5b6570; --grid: #d9dee3; --back: #fff; --blue: #1763c7; --orange: #b85c00; --red: #b3261e; --green: #2c7a4b; --violet: #7a3fb0; }
@media (prefers-color-scheme: dark) { :root { --text: #e6e9ec; --soft: #a4adb6; --grid: #39414a; --back: #14181c; --blue: #7db2ff; --orange: #ffb05c; --red: #ff8a80; --green: #7ed6a2; --violet: #d0a5ff; } }
body { margin: 0 auto; padding: 1rem; max-width: 60rem; font: 16px/1.45 system-ui, sans-serif; color: var(--text); background: var(--back); overflow-wrap: anywhere; }
h1 { font-size: 1.5rem; margin: 0 0 .5rem; } h2 { font-size: 1.1rem; margin: 2rem 0 .25rem; } p { margin: .25rem 0 .5rem; color: var(--soft); } p.said { color: var(--text); }
dl { display: grid; grid-template-columns: repeat(auto-fit, minmax(9.5rem, 1fr)); gap: .5rem 1rem; margin: 1rem 0; }
dt { font-size: .85rem; color: var(--soft); } dd { margin: 0; font-weight: 600; font-variant-numeric: tabular-nums; }
svg { width: 100%; height: auto; overflow: visible; font-size: 13px; fill: var(--soft); } @media (max-width: 40rem) { svg { font-size: 21px; } } .grid { stroke: var(--grid); }
polyline { fill: none; stroke: var(--blue); stroke-width: 2; } polyline.reserve { stroke: var(--orange); } polyline.first { stroke-dasharray: 5 4; stroke-width: 1.3; opacity: .8; }
line.cost { stroke: var(--red); stroke-width: 2; } circle.mark { fill: var(--blue); }
i { display: inline-block; width: 1.5rem; border-top: 3px solid var(--blue); margin: 0 .3rem .25rem .8rem; vertical-align: middle; } i:first-child { margin-left: 0; }
i.reserve { border-color: var(--orange); } i.first { border-top-style: dashed; border-top-width: 2px; } i.cost { border-color: var(--red); }
.bar { display: grid; grid-template-columns: clamp(5rem, 22%, 11rem) 1fr 7.5rem; gap: .5rem; align-items: center; font-size: .85rem; line-height: 1.3; }
.bar > span:last-child { text-align: right; font-variant-numeric: tabular-nums; } .bar div { display: flex; }
.bar b { background: var(--blue); height: .7rem; } .bar b.loss { background: var(--orange); }
i.box { border: 0; width: .8rem; height: .7rem; background: var(--blue); margin-bottom: 0; } i.box.loss { background: var(--orange); }
.wide { overflow-x: auto; } table { border-collapse: collapse; width: 100%; font-size: .9rem; font-variant-numeric: tabular-nums; }
th, td { padding: .25rem .6rem; text-align: right; border-bottom: 1px solid var(--grid); white-space: nowrap; overflow-wrap: normal; }
th.text, td.text { text-align: left; } tr.clicked td { background: color-mix(in srgb, var(--blue) 14%, transparent); } tr[tabindex] { cursor: pointer; }
th button { font: inherit; font-weight: 600; color: inherit; background: none; border: 0; padding: 0; cursor: pointer; }
th[aria-sort=ascending] button::after { content: " \\25B2"; } th[aria-sort=descending] button::after { content: " \\25BC"; }
textarea { width: 100%; height: 9rem; box-sizing: border-box; font: .85rem/1.4 ui-monospace, monospace; color: inherit; background: inherit; border: 1px solid var(--grid); }
#unit { position: sticky; top: 0; background: var(--back); max-width: 40rem; }
.copy { font: inherit; padding: .3rem .8rem; margin: .3rem 0; }
"""

SORT = """
for (const table of document.querySelectorAll("table")) {
  const heads = [...table.tHead.querySelectorAll("th")];
  heads.forEach((head, i) => head.firstChild.addEventListener("click", () => {
    const text = head.classList.contains("text");
    const up = head.getAttribute("aria-sort") === "descending" || (text && !head.hasAttribute("aria-sort"));
    const key = row => row.cells[i].dataset.is ?? row.cells[i].textContent;
    const number = (a, b) => (BigInt(a) < BigInt(b) ? -1 : BigInt(a) > BigInt(b) ? 1 : 0);
    const compare = text ? (a, b) => key(a).localeCompare(key(b), undefined, { numeric: true }) : (a, b) => number(key(a), key(b));
    const body = table.tBodies[0];
    body.append(...[...body.rows].sort((a, b) => up ? compare(a, b) : compare(b, a)));
    heads.forEach(it => it.removeAttribute("aria-sort"));
    head.setAttribute("aria-sort", up ? "ascending" : "descending");
  }));
}
"""

DRAWING = """
const lists = JSON.parse(document.querySelector("#lists").textContent), shown = document.querySelector("#unit");
const steps = (numbers, x, y) => numbers.map((it, i) => `${x(i)},${y(it)} ${x(i + 1)},${y(it)}`).join(" ");
function draw(row, unit) {
  document.querySelectorAll("tr.clicked").forEach(it => it.classList.remove("clicked"));
  row.classList.add("clicked");
  if (!unit) { shown.innerHTML = "<p>The page holds the lists of the units with the largest payments alone.</p>"; return; }
  const all = Object.values(unit).flat(), most = Math.max(1, ...all), last = unit.power.length;
  const x = i => 70 + i / last * 636, y = it => 190 - it / most * 176;
  const kept = Object.entries(unit).filter(([key, numbers]) => !key.endsWith("eserve") || numbers.some(it => it > 0));
  const lines = kept.map(([key, numbers]) => {
    const style = (key.endsWith("eserve") ? "reserve" : "energy") + (key.startsWith("scheduled") ? " first" : "");
    return `<polyline class="${style}" points="${steps(numbers, x, y)}"/>`;
  });
  const levels = [0, most / 2, most].map(it => `<line class="grid" x1="70" x2="706" y1="${y(it)}" y2="${y(it)}"/><text x="64" y="${y(it) + 4}" text-anchor="end">${(it / 1000).toLocaleString("en", { maximumSignificantDigits: 5 })}</text>`);
  const places = [...Array(last).keys()].filter(i => i % Math.ceil(last / 12) === 0).map(i => `<text x="${x(i + .5)}" y="212" text-anchor="middle">${i + 1}</text>`);
  const title = document.createElement("p");
  title.className = "said";
  title.textContent = `${row.cells[1].textContent}, MW by period`;
  shown.replaceChildren(title);
  shown.insertAdjacentHTML("beforeend", `<svg viewBox="0 0 720 226" role="img">${[...levels, ...places, ...lines].join("")}</svg>`);
}
function watchRows(show) {
  for (const row of document.querySelectorAll("tr[data-unit]")) {
    row.addEventListener("click", () => show(row));
    row.addEventListener("keydown", event => { if (event.key === "Enter") show(row); });
  }
}
"""

UNIT_PICTURE = """
const show = row => draw(row, lists[row.dataset.unit]);
watchRows(show);
const payment = row => BigInt(row.cells[4].dataset.is);
const first = [...document.querySelectorAll("tr[data-unit]")].reduce((a, b) => (a && payment(a) >= payment(b) ? a : b), null);
if (first) show(first);
const copy = document.querySelector(".copy"), prices = document.querySelector("textarea");
copy.addEventListener("click", async () => {
  prices.select();
  try { await navigator.clipboard.writeText(prices.value); } catch { document.execCommand("copy"); }
  copy.textContent = "Copied";
});
"""


def document(title: str, body: str, scripts: Iterable[str], data: Optional[dict[str, object]] = None) -> str:
    """A whole page. `data` is what the scripts read, as JSON by its id."""
    held = "".join(
        f'<script type="application/json" id="{key}">{script_json(value)}</script>'
        for key, value in (data or {}).items()
    )
    return (
        '<!doctype html>\n<html lang="en"><head><meta charset="utf-8">'
        '<meta name="viewport" content="width=device-width, initial-scale=1">\n'
        f"<title>{html.escape(one_line(title))}</title>\n<style>{STYLE}</style></head><body>\n{body}\n{held}\n"
        f"<script>{''.join(scripts)}</script></body></html>\n"
    )


def script_json(value: object) -> str:
    """JSON that can't end the script that holds it."""
    return json.dumps(value, separators=(",", ":")).replace("<", "\\u003c").replace("&", "\\u0026")


def shown(name: str) -> str:
    """A name as HTML: what can't be printed, and what turns the direction, as ?; the rest by itself."""
    return f"<bdi>{html.escape(one_line(name))}</bdi>"


def short(name: str) -> str:
    name = one_line(name)
    return name if len(name) <= 22 else name[:21] + "…"


def largest_payments(units: Sequence[Owed]) -> tuple[list[Owed], str]:
    """The units that are paid most, and in words what the others get together."""
    order = sorted(units, key=lambda it: (-it.payment, it.name))
    rest = order[SHOWN:]
    told = f"The other {len(rest)} get {money(sum(it.payment for it in rest))} together." if rest else ""
    return order[:SHOWN], told


def payment_bars(units: Sequence[Owed]) -> str:
    bars, rest = largest_payments(units)
    most = max([1, *(it.payment for it in bars)])

    def part(number: int, style: str) -> str:
        return f'<b{style} style="width:{max(0, number) / most * 100:.2f}%"></b>' if number else ""

    row = '<div class="bar"><span><bdi>{}</bdi></span><div>{}{}</div><span>{}</span></div>'
    return (
        '<p><i class="box loss"></i>make-whole: a loss made good <i class="box"></i>lost opportunity: a profit forgone</p>'
        + "".join(
            row.format(
                html.escape(short(unit.name)),
                part(unit.make_whole, ' class="loss"'),
                part(unit.lost_opportunity, ""),
                money(unit.payment),
            )
            for unit in bars
        )
        + f"<p>{rest}</p>"
    )


def head_row(heads: Iterable[str]) -> str:
    """Heads of a table that sorts; a head that begins with * is of a text."""
    return "".join(
        f'<th scope="col"{" class=text" if head.startswith("*") else ""}><button type="button">{head.lstrip("*")}</button></th>'
        for head in heads
    )


def number_cell(number: int, told: str) -> str:
    return f'<td data-is="{number}">{told}</td>'


def unit_rows(units: Iterable[Owed], schedule: Optional[Schedule]) -> Iterator[str]:
    for place, unit in enumerate(units):
        sums = (unit.earned, unit.scheduled, unit.payment, unit.make_whole, unit.lost_opportunity)
        cells = "".join(number_cell(number, money(number)) for number in sums)
        given = [schedule.plan(unit.kind, unit.name).power] if schedule else []
        cells += "".join(number_cell(sum(power), f"{sum(power) / 1000:,.3f}") for power in (unit.power, *given))
        yield (
            f'<tr data-unit="{place}" tabindex="0"><td class="text">{unit.kind}</td>'
            f'<td class="text">{shown(unit.name)}</td>{cells}</tr>'
        )


def lists_of(priced: AnyPriced, schedule: Optional[Schedule]) -> dict[int, dict[str, list[Kilowatts]]]:
    """For each unit by its place the response and the schedule, as far as the page holds them."""
    found, room = {}, MOST_NUMBERS
    for place, unit in sorted(enumerate(priced.units), key=lambda it: -it[1].payment):
        lists = {"power": unit.power}
        if schedule:
            lists["scheduled"] = schedule.plan(unit.kind, unit.name).power
        if unit.kind == "thermal":
            lists["reserve"] = unit.reserve
            if schedule:
                lists["scheduledReserve"] = schedule.plan(unit.kind, unit.name).reserve
        room -= len(lists) * priced.periods
        if room < 0:
            break
        found[place] = lists
    return found


def price_part(priced: AnyPriced) -> str:
    rows = [("chosen", priced.best)]
    if priced.command == "price" and priced.proposals[0] is not priced.best:
        rows.insert(0, ("first", priced.proposals[0]))
    named = len(rows) > 1
    keys = [("energy", "energy")] + [("reserve", "reserve")] * any(any(row.reserve) for _, row in rows)
    series = [(f"{key} {style}", [it / 1e3 for it in getattr(row, key)]) for style, row in rows for key, _ in keys]
    key = " ".join(
        f'<i class="{name} {style}"></i>{name}{f", {style}" if named else ""}' for name, _ in keys for style, _ in rows
    )
    return f"<h2>Prices by period</h2><p>{key}</p>" + steps_chart("Prices by period", series, priced.periods)


def value_part(report: Report) -> str:
    values = [it.value / 1e6 for it in report.proposals]
    cost = report.cost / 1e6
    chart = Chart("Dual value by proposal", min(*values, cost), max(*values, cost), 1, len(values))
    chart.level(cost, "cost")
    chart.line(values, "energy")
    chart.dot(report.chosen, values[report.chosen - 1], "mark")
    for n in sorted({1, report.chosen, len(values)}):
        chart.label_x(n, n)
    chart.name_x("proposal")
    key = '<i class="cost"></i>cost of the schedule <i class="energy"></i>dual value; the dot is the chosen proposal'
    return f"<h2>Dual value by proposal</h2><p>{key}</p>{chart.svg()}"


def nearness(priced: AnyPriced, certificate: Optional[Certificate], is_own: bool = False) -> str:
    """How near the prices are to the best, as far as something says so; `is_own` where the certificate was made of these prices and this case."""
    gap = money(priced.gap)
    if certificate is None and isinstance(priced, Convex):
        return (
            f"Payments and surplus are {gap} together. By the bound in this text, no whole prices within the limits need less than "
            f"{money(priced.least)} for this schedule, and the dual value of these is within {money(priced.distance)} of the greatest. This page "
            "takes the bound from the text: --mixture, with the mixture in it, has hull certify work it out."
        )
    if certificate is None:
        return (
            f"Payments and surplus are {gap} together. How much of that other prices could save isn't said by this text; hull certify "
            "says it, from a mixture such as hull convex finds."
        )
    need_sums_of(priced, certificate)
    is_local = certificate.radius < RADIUS[1]
    least, distance = money(certificate.least), money(certificate.distance)
    if is_own:
        within = f" within {per_mwh(certificate.radius)} per MW and period of these" if is_local else ""
        return (
            f"No whole prices within the limits{within and f' and{within}'} need less than {least} of payments and surplus for this schedule; these need "
            f"{gap}, and their dual value is within {distance} of the greatest{' there' * is_local}."
        )
    within = f" and within {per_mwh(certificate.radius)} per MW and period of its prices" if is_local else ""
    return (
        f"Payments and surplus are {gap} together. A certificate with the same sums is given. It holds neither case nor prices, so this page can't tell "
        f"whether it is of these: --mixture can. By it no whole prices within the limits{within} need less than {least} for its schedule, and the dual "
        f"value of its prices is within {distance} of the greatest{' there' * is_local}."
    )


def need_sums_of(priced: AnyPriced, certificate: Certificate) -> None:
    """Refuses a certificate that differs in anything that both texts hold."""
    both = {
        "periods": (priced.periods, certificate.periods),
        "units": (len(priced.units), certificate.units),
        "cost": (priced.cost, certificate.cost),
        "value": (priced.best.value, certificate.value),
        "surplus": (priced.surplus, certificate.surplus),
        "payments": (priced.payments, certificate.payments),
        "gap": (priced.gap, certificate.gap),
    }
    for name, (due, found) in both.items():
        if due != found:
            told = f"its {name} {'are' if name.endswith('s') and name != 'surplus' else 'is'} {found}, and the text's {due}"
            raise HullError(
                f"{certificate.name}: this certificate is of another case, of other prices or of another schedule: {told}"
            )
    if isinstance(priced, Convex) and certificate.bound < priced.best.value:
        raise HullError(f"{certificate.name}: this certificate is of other prices: its bound is below the text's value")


def sums_part(priced: AnyPriced) -> str:
    lost = priced.payments - priced.make_whole
    rows = [
        ("Cost of the schedule", priced.cost),
        ("Dual value", priced.best.value),
        ("Gap: cost less value", priced.gap),
        ("Payments to units", priced.payments),
        ("of these make-whole", priced.make_whole),
        ("of these lost opportunity", lost),
        ("Surplus reserve's value", priced.surplus),
    ]
    return "<dl>" + "".join(f"<div><dt>{name}</dt><dd>{money(it)}</dd></div>" for name, it in rows) + "</dl>"


TITLES = {
    "price": "Report of hull price",
    "settle": "Settlement by hull settle",
    "convex": "Convex hull prices by hull convex",
}
HEADS = ("*Kind", "*Name", "Earned", "Scheduled", "Payment", "Make-whole", "Lost opportunity", "Response, MW periods")


def page_of(
    priced: AnyPriced,
    schedule: Optional[Schedule] = None,
    certificate: Optional[Certificate] = None,
    is_own: bool = False,
) -> str:
    """The page of a report or a settlement; `is_own` where the certificate was made of its prices and its case."""
    report = priced if isinstance(priced, Report) else None
    title = TITLES[priced.command]
    rows = "\n".join(unit_rows(priced.units, schedule))
    heads = (*HEADS, "Schedule, MW periods") if schedule else HEADS
    picture = '<i class="energy"></i>best response at the prices <i class="reserve"></i>its reserve'
    if schedule:
        picture += ' <i class="energy first"></i>schedule <i class="reserve first"></i>its reserve'
    table = "\n".join(
        f"{t + 1}\t{decimal_text(priced.best.energy[t], 3)}\t{decimal_text(priced.best.reserve[t], 3)}"
        for t in range(priced.periods)
    )
    proposals = f", {len(priced.proposals)} proposals (the {report.chosen}. is chosen)" if report else ""
    body = f"""<h1>{title}</h1>
<p>{shown(priced.name)}: {len(priced.units)} units over {priced.periods} periods{proposals}. Money is in the case's currency, rounded to the cent. Prices are per MW and period: per MWh where a period is an hour.</p>
{sums_part(priced)}<p class="said">{nearness(priced, certificate, is_own)}</p>
{price_part(priced)}
{value_part(report) if report else ""}
<h2>Payments by unit</h2><p>What each is owed for following the schedule, beyond what it earns in it; the largest first.</p>{payment_bars(priced.units)}
<h2>Units</h2><p>A click on a head sorts by it, one on a row shows that unit. Earned: what the best response earns at the prices; scheduled: what the schedule earns at them.</p>
<p>{picture}</p><div id="unit"></div>
<div class="wide"><table><thead><tr>{head_row(heads)}</tr></thead><tbody>
{rows}
</tbody></table></div>
<h2>Prices</h2><p>Currency per MW and period: period, energy, reserve.</p>
<button class="copy" type="button">Copy</button><textarea readonly aria-label="Prices">{table}</textarea>"""
    return document(title, body, [SORT, DRAWING, UNIT_PICTURE], {"lists": lists_of(priced, schedule)})
