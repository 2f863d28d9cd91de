"""One HTML page over all days, which needs nothing else: uplift by day and list as a picture, and in tables."""
import html
from typing import TYPE_CHECKING, Dict, List, Optional

from days import ABOUT, REPORT, shown
from hulltools.charts import Chart
from hulltools.errors import one_line
from hulltools.numbers import money
from hulltools.pages import SORT, document, head_row, number_cell

if TYPE_CHECKING:
    from summary import Priced, Summary

COLOURS = {
    "lmp": "var(--soft)",
    "elmp": "var(--teal)",
    "relaxation": "var(--violet)",
    "subgradient_100": "var(--red)",
    "subgradient_1000": "var(--green)",
    "convex_hull": "var(--blue)",
    REPORT: "var(--orange)",
}
STYLE = "".join(
    f"polyline.{name} {{ stroke: {colour}; }} circle.{name} {{ fill: {colour}; }} i.{name} {{ border-color: {colour}; }}"
    for name, colour in COLOURS.items()
) + (
    " :root { --teal: #00757a; } @media (prefers-color-scheme: dark) { :root { --teal: #5fd3d8; } }"
    " polyline { stroke-width: 1.4; } polyline.least { stroke: var(--text); stroke-dasharray: 5 4; }"
    " i.least { border-color: var(--text); border-top-style: dashed; } .key { display: inline-block; margin-right: .8rem; }"
    " td.about { white-space: normal; min-width: 9rem; }"
)


def by_day(summary: "Summary", name: str) -> Dict[str, "Priced"]:
    return {it.day: it for it in summary.priced if it.list == name}


def runs_of(numbers: List[Optional[float]]) -> List[List[int]]:
    """The places of numbers that stand beside each other, parted where one isn't there."""
    runs: List[List[int]] = [[]]
    for place, number in enumerate(numbers):
        if number is None:
            runs.append([])
        else:
            runs[-1].append(place)
    return [run for run in runs if run]


def draw(chart: Chart, numbers: List[Optional[float]], style: str, dots: bool) -> None:
    for run in runs_of(numbers):
        chart.polyline([(place + 1, numbers[place]) for place in run], style)
        for place in run if dots or len(run) == 1 else []:
            chart.dot(place + 1, numbers[place], style)


def leasts(summary: "Summary") -> Dict[str, int]:
    return {it.day: it.least for it in summary.priced if it.least is not None}


def picture(summary: "Summary") -> str:
    days, least = summary.days(), leasts(summary)
    rows: Dict[str, List[Optional[float]]] = {}
    for name in summary.lists():
        found = by_day(summary, name)
        rows[name] = [found[day].uplift / 1e6 if day in found else None for day in days]
    numbers = [it for row in rows.values() for it in row if it is not None]
    chart = Chart("Uplift by day and list", min(0.0, *numbers, 0.0), max(0.0, *numbers, 0.0), 1, len(days))
    for name, row in rows.items():
        draw(chart, row, name, len(days) <= 60)
    draw(chart, [least[day] / 1e6 if day in least else None for day in days], "least", False)
    for place in range(0, len(days), max(1, -(-len(days) // 6))):
        chart.label_x(html.escape(days[place]), place + 1)
    keys = [f'<span class="key"><i class="{name}"></i>{name}</span>' for name in rows]
    keys += ['<span class="key"><i class="least"></i>certified least</span>'] if least else []
    return f"<h2>Uplift by day and list</h2><p>{' '.join(keys)}</p>{chart.svg()}"


LIST_HEADS = ("*List", "*What it is", "Days", "Payments", "Surplus", "Uplift", "Above the least", "Audited")


def list_table(summary: "Summary") -> str:
    rows = []
    for name in summary.lists():
        found = list(by_day(summary, name).values())
        sums = (sum(getattr(it, key) for it in found) for key in ("payments", "surplus", "uplift"))
        cells = number_cell(len(found), str(len(found))) + "".join(number_cell(it, money(it)) for it in sums)
        known = [it.above_least for it in found if it.above_least is not None]
        cells += number_cell(sum(known), money(sum(known))) if known else number_cell(-1, "")
        audited = sum(bool(it.audited) for it in found)
        cells += number_cell(audited, str(audited) if name == REPORT else "")
        rows.append(
            f'<tr><td class="text">{name}</td><td class="text about">{html.escape(ABOUT[name])}</td>{cells}</tr>'
        )
    return table("All days together", about_lists(summary), LIST_HEADS, rows)


def about_lists(summary: "Summary") -> str:
    """What the sums of all days are of: they can be compared where each list has the same days."""
    lists = [by_day(summary, name) for name in summary.lists()]
    told = "Money is in the currency of the cases."
    if any(it.least is None for found in lists for it in found.values()):
        told += " Above the least are the certified days alone."
    if any(found.keys() != lists[0].keys() for found in lists):
        told += " <strong>Not every list has all of these days, so don't compare their sums.</strong>"
    return told


def day_table(summary: "Summary") -> str:
    lists, least = summary.lists(), leasts(summary)
    schedules = {it.day: it.schedule for it in summary.priced}
    found = {name: by_day(summary, name) for name in lists}
    rows = []
    for day in summary.days():
        gaps = [found[name][day].uplift if day in found[name] else None for name in lists]
        cells = "".join(number_cell(0, "") if gap is None else number_cell(gap, money(gap)) for gap in gaps)
        cells += number_cell(least[day], money(least[day])) if day in least else number_cell(0, "")
        report = found.get(REPORT, {}).get(day)
        cells += f'<td class="text">{"" if report is None else "yes" if report.audited else "no"}</td>'
        cells += f'<td class="text">{schedules[day]}</td>'
        rows.append(f'<tr><td class="text"><bdi>{html.escape(day)}</bdi></td>{cells}</tr>')
    about = (
        "Uplift of each list: payments plus surplus. No whole prices within the limits of prices have one below the certified least. "
        "A schedule is the day's own (given), or was made here."
    )
    return table("Uplift by day", about, ("*Day", *lists, "Certified least", "*Report audited", "*Schedule"), rows)


def left_table(summary: "Summary") -> str:
    rows = [
        f'<tr><td class="text">{html.escape(shown(day))}</td><td class="text about">{html.escape(one_line(why))}</td></tr>'
        for day, why in summary.left
    ]
    return table("What is left", "", ("*Day", "*Why"), rows) if rows else "<h2>What is left</h2><p>Nothing.</p>"


def table(title: str, about: str, heads: "tuple[str, ...]", rows: List[str]) -> str:
    return (
        f'<h2>{title}</h2><p>{about}</p><div class="wide"><table><thead><tr>{head_row(heads)}</tr></thead><tbody>\n'
        + "\n".join(rows)
        + "\n</tbody></table></div>"
    )


def uplift_page(summary: "Summary") -> str:
    """The page. Certificates and audits are counted as far as they are of the files that lie there."""
    count = len(summary.days())
    audited = sum(bool(it.audited) for it in summary.priced)
    programs = sorted({html.escape(one_line(it.auditor)) for it in summary.priced if it.audited and it.auditor})
    by = f" Audits were made by {', '.join(programs)}." if programs else ""
    body = f"""<style>{STYLE}</style><h1>Uplift of {count} day{"s" * (count != 1)}</h1>
<p>{summary.count} days are wanted, and {count} have prices. Certified are {len(leasts(summary))}, audited are {audited}. Each list is settled by hull.{by}</p>
{picture(summary) if summary.priced else ""}
{list_table(summary)}
{day_table(summary)}
{left_table(summary)}"""
    return document("Uplift by day and list", body, [SORT])
