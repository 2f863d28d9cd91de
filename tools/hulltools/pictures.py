"""A picture of a report or a settlement by matplotlib."""
import io
import logging
import os
import warnings
from typing import Any

from .pages import largest_payments, short
from .errors import HullError
from .outputs import AnyPriced, Report

FORMS = ("png", "svg", "pdf")


def plain(name: str) -> str:
    """A name that matplotlib doesn't read as a formula."""
    return short(name).replace("$", r"\$")


def draw_prices(axes: Any, priced: AnyPriced) -> None:
    rows = [("prices", priced.best)]
    if isinstance(priced, Report):
        rows = [("first proposal", priced.proposals[0]), (f"chosen (proposal {priced.chosen})", priced.best)]
    for place, (name, row) in enumerate(rows):
        is_last = place == len(rows) - 1
        how = dict(linestyle="-" if is_last else "--", baseline=None, alpha=1 if is_last else 0.5)
        for key, colour in (("energy", "tab:blue"), ("reserve", "tab:orange")):
            numbers = [it / 1e3 for it in getattr(row, key)]
            if key == "energy" or any(numbers):
                edges = [t + 0.5 for t in range(priced.periods + 1)]
                axes.stairs(numbers, edges, color=colour, label=f"{key}, {name}", **how)
    axes.xaxis.get_major_locator().set_params(integer=True)
    axes.set(title="Prices by period", xlabel="period", ylabel="currency per MW and period")
    axes.legend(fontsize="small")


def draw_values(axes: Any, report: Report) -> None:
    numbers = [it.number for it in report.proposals]
    axes.axhline(report.cost / 1e6, color="tab:red", label="cost of the schedule")
    axes.plot(numbers, [it.value / 1e6 for it in report.proposals], ".-", color="tab:blue", label="dual value")
    axes.plot([report.chosen], [report.best.value / 1e6], "o", color="tab:blue", label="chosen")
    axes.set(title="Dual value by proposal", xlabel="proposal", ylabel="currency")
    axes.legend(fontsize="small")
    axes.ticklabel_format(style="plain", axis="y", useOffset=False)


def draw_payments(axes: Any, priced: AnyPriced) -> None:
    shown, rest = largest_payments(priced.units)
    places, whole = range(len(shown)), [it.make_whole / 1e6 for it in shown]
    lost = [it.lost_opportunity / 1e6 for it in shown]
    axes.bar(places, whole, color="tab:orange", label="make-whole")
    axes.bar(places, lost, bottom=whole, color="tab:blue", label="lost opportunity")
    axes.set_xticks(places, [plain(it.name) for it in shown], rotation=90, fontsize="small")
    axes.set(title="Payments by unit" + (f" ({rest.rstrip('.')})" if rest else ""), ylabel="currency")
    axes.legend(fontsize="small")


def ready_matplotlib() -> None:
    """Loads matplotlib with its own defaults: a `matplotlibrc` of the current folder may be somebody else's."""
    logging.getLogger("matplotlib").setLevel(logging.ERROR)
    try:
        import matplotlib
    except ImportError:
        raise HullError("plot needs matplotlib (Debian: python3-matplotlib); page draws without it") from None
    except Exception as why:
        raise HullError(f"matplotlib can't be loaded here: {why}") from None
    matplotlib.rcdefaults()
    matplotlib.use("Agg")


def picture_of(priced: AnyPriced, name: str) -> bytes:
    """The bytes of a picture in the form that the name's end says."""
    form = os.path.splitext(name)[1].lstrip(".").lower() or "png"
    if form not in FORMS:
        raise HullError(f"{name}: a picture's name ends with .{', .'.join(FORMS)}")
    ready_matplotlib()
    import matplotlib.pyplot as plt

    report = priced if isinstance(priced, Report) else None
    count = 3 if report else 2
    figure, axes = plt.subplots(count, 1, figsize=(9, 4 * count), constrained_layout=True)
    draw_prices(axes[0], priced)
    if report:
        draw_values(axes[1], report)
    draw_payments(axes[-1], priced)
    into = io.BytesIO()
    try:
        # (a letter that the font hasn't is drawn as a box, and isn't told)
        warnings.filterwarnings("ignore", "Glyph .* missing")
        figure.savefig(into, dpi=110, format=form)
    except ValueError as error:
        raise HullError(f"{name}: {error}") from None
    plt.close(figure)
    return into.getvalue()
