"""A case under changes, one at a time: what each change is, the table over all, and its picture."""
import csv
import hashlib
import html
import io
import re
from dataclasses import dataclass
from fractions import Fraction
from functools import partial
from typing import Callable, Dict, List, Tuple

from .cases import Case
from .charts import ticks
from .errors import HullError, one_line
from .tables import as_it_was, told_apart

COLOURS = ("#1763c7", "#5b6570", "#b85c00", "#7a3fb0", "#b3261e", "#2c7a4b")
WIDTH, LEFT, BAR, GAP, LINE, TOP = 760, 190, 11, 14, 18, 38
LETTER, MOST_SHOWN = 7, 26  # how wide a letter is, and how many letters stand beside the bars

MOST_BYTES = 80  # of a part of a folder's name


def folder_part(text: str) -> str:
    """A text as a part of a folder's name; one that is changed or cut for that has its sum behind it, so that no two are one."""
    plain = re.sub(r"[^\w+.=-]+", "_", text)
    if plain == text and len(plain.encode()) <= MOST_BYTES and not re.search(r"\.[0-9a-f]{12}\Z", text):
        return text
    return f"{plain[:20]}.{hashlib.sha256(text.encode('utf-8', 'surrogatepass')).hexdigest()[:12]}"


@dataclass(frozen=True)
class Scenario:
    """What is changed, in words, and the case that it makes."""

    words: Tuple[str, ...]
    change: Callable[[Case], Case]

    @property
    def name(self) -> str:
        return " ".join(self.words)

    @property
    def key(self) -> str:
        """The name of its folder."""
        *words, last = self.words
        return "_".join(map(folder_part, [*words, last if words == ["outage"] else last.rstrip("%")]))


def factor_of(percent: str) -> Fraction:
    """+1% as 1.01. Without its mark 0.05 might be 5 per cent, and is refused."""
    found = re.fullmatch(r"([+-]?\d+(?:\.\d+)?)%", percent.strip())
    if not found:
        raise HullError(f"{percent!r} is no change in per cent, as +1% or -10%")
    return 1 + Fraction(found.group(1)) / 100


def percents(text: str) -> List[str]:
    return [it.strip() for it in text.split(",")]


def without_unit(text: str) -> Callable[[Case], Case]:
    """A case without a unit or buyer, by its name, or by kind and name as thermal:G2 where the case has one of these."""
    kind, _, name = text.partition(":")

    def change(case: Case) -> Case:
        is_kind = any((known, unit.name) == (kind, name) for known, unit in case.units)
        return case.without(name, kind=kind) if is_kind else case.without(text)

    return change


def scenarios_of(demand: List[str], wind: List[str], offers: List[str], outages: List[str]) -> List[Scenario]:
    """The case as it is, and each change by itself."""
    found = [Scenario(("base",), Case.scaled)]
    for name, key, rows in (("demand", "demand", demand), ("wind", "renewable", wind)):
        for text in (it for row in rows for it in percents(row)):
            found.append(Scenario((name, text), partial(Case.scaled, **{key: factor_of(text)})))
    for row in offers:
        unit, mark, texts = row.rpartition("=")
        if not mark:
            raise HullError(f"{row!r} is no change of an offer, as GT5=+5%")
        for text in percents(texts):
            found.append(Scenario(("offer", unit, text), partial(Case.scaled, offers={unit: factor_of(text)})))
    found += [Scenario(("outage", unit), without_unit(unit)) for unit in outages]
    return list({scenario.key: scenario for scenario in reversed(found)}.values())[::-1]


def joined(tables: Dict[str, str]) -> str:
    """Tables of studies as one, with the scenario in the first column, whose name is marked as theirs are."""
    into = io.StringIO()
    writer, head = csv.writer(into), None
    for name, text in tables.items():
        rows = list(csv.reader(io.StringIO(text), strict=True))
        if head is None:
            head = rows[0]
            writer.writerow(["scenario", *head])
        if rows[0] != head:
            raise HullError(f"the table of {name} has other columns than those before it")
        writer.writerows([told_apart(name), *row] for row in rows[1:])
    return into.getvalue()


@dataclass(frozen=True)
class Bar:
    """A scenario, a list, and the gap without the schedule's part."""

    scenario: str
    list: str
    gap: float


def uplifts(text: str) -> List[Bar]:
    """The bars of a sweep's table, in its order."""
    found = []
    for row in csv.DictReader(io.StringIO(text), strict=True):
        parts = [it for key, it in row.items() if key.startswith(("gap_duality", "gap_prices"))]
        found.append(Bar(as_it_was(row["scenario"]), as_it_was(row["list"]), sum(float(it or 0) for it in parts)))
    return found


def knows_schedules(text: str) -> bool:
    """Whether the schedule's part is known of each row of the table: without it a gap has it still."""
    rows = csv.DictReader(io.StringIO(text), strict=True)
    return all(it for row in rows for key, it in row.items() if key.startswith("gap_schedule"))


def fill_of(place: int) -> str:
    """The colour of a list by its place; further lists have the colours anew, paler and with an edge."""
    colour = COLOURS[place % len(COLOURS)]
    paler = f' fill-opacity="0.3" stroke="{colour}"' if place >= len(COLOURS) else ""
    return f'fill="{colour}"{paler}'


def shortened(name: str) -> str:
    """A name as long as there is room for, without its middle: what changes stands at the end."""
    name, half = one_line(name), MOST_SHOWN // 2
    return name if len(name) <= MOST_SHOWN else f"{name[:half]}…{name[1 - half:]}"


def keys_of(lists: List[str]) -> Tuple[str, int]:
    """The names of the lists with their colours, in as many lines as they take, and where the last of these ends."""
    found, x, y = [], 8, 8
    for place, name in enumerate(map(one_line, lists)):
        width = 30 + LETTER * len(name)
        if x > 8 and x + width > WIDTH:
            x, y = 8, y + LINE
        found.append(f'<rect x="{x}" y="{y}" width="10" height="10" {fill_of(place)}/>')
        found.append(f'<text x="{x + 14}" y="{y + 9}">{html.escape(name)}</text>')
        x += width
    return "".join(found), y


def bars_of(bars: List[Bar], lists: List[str], y: float, x: Callable[[float], float]) -> str:
    """The bars of one scenario from a height on, with its name beside them."""
    name, middle = html.escape(shortened(bars[0].scenario)), y + len(bars) * BAR / 2 + 4
    whole = html.escape(one_line(bars[0].scenario))
    found = [f'<text x="{LEFT - 8}" y="{middle}" text-anchor="end">{name}<title>{whole}</title></text>']
    for place, bar in enumerate(bars):
        top, told = y + place * BAR, html.escape(one_line(f"{bar.list}: {bar.gap:,.2f}"))
        found.append(
            f'<rect x="{LEFT}" y="{top}" width="{max(x(bar.gap) - LEFT, 0.5):.1f}" height="{BAR - 2}" {fill_of(lists.index(bar.list))}><title>{told}</title></rect>'
            f'<text x="{x(bar.gap) + 4:.1f}" y="{top + BAR - 3}" class="small">{bar.gap:,.0f}</text>'
        )
    return "".join(found)


def picture_of_sweep(text: str) -> str:
    """The gap without the schedule's part of each scenario and list, as an SVG file."""
    rows = uplifts(text)
    lists, scenarios = list(dict.fromkeys(it.list for it in rows)), list(dict.fromkeys(it.scenario for it in rows))
    most = max([1.0, *(it.gap for it in rows)])

    def x(number: float) -> float:
        return LEFT + number / most * (WIDTH - LEFT - 80)

    keys, above = keys_of(lists)
    top = y = float(above + TOP)
    parts = []
    for scenario in scenarios:
        own = [it for it in rows if it.scenario == scenario]
        parts.append(bars_of(own, lists, y, x))
        y += len(own) * BAR + GAP
    grid = "".join(
        f'<line x1="{x(at):.1f}" x2="{x(at):.1f}" y1="{top - 6}" y2="{y - GAP + 4}" stroke="#8886"/>'
        for at in ticks(0, most)
    )
    style = "text { font: 12px sans-serif; fill: #1b1f24; } .small { font-size: 10px; }"
    what = "Gap at the best schedule known" if knows_schedules(text) else "Gap"
    title = f"{what}, by scenario and price list"
    return (
        f'<svg xmlns="http://www.w3.org/2000/svg" viewBox="0 0 {WIDTH} {y:.0f}" width="{WIDTH}" height="{y:.0f}"><title>{title}</title>'
        f'<style>{style}</style><rect width="100%" height="100%" fill="#fff"/>{keys}{grid}{"".join(parts)}</svg>\n'
    )
