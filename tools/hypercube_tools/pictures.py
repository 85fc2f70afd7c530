"""Pictures of what the program writes: workloads, who answers whose calls, travel times, comparisons, sites, and the calls that
are reached in time."""
import math
import pathlib

import matplotlib
import numpy
import pandas
from matplotlib import colormaps
from matplotlib.axes import Axes
from matplotlib.figure import Figure
from matplotlib.ticker import MaxNLocator, PercentFormatter

from .faults import Fault
from .labels import Dot, name_dots
from .maps import Map
from .texts import SECONDS, SHARE

BLUE, DARK, ORANGE, GREY = "#4878a8", "#1c2f45", "#d9822b", "#9a9a9a"
MOST_LABELS = 60
UNIT_AREA = 60
# Intervals of a share that are narrower than this are drawn as one value.
NARROW = 0.001
MOST_NUMBERS = 40
MOST_TICKS = 8
# Of units that share a line, so many are named.
MOST_NAMES = 3
PERCENT = PercentFormatter(1.0)
# Under a number that may stand on a line.
PAPER = {"facecolor": "white", "edgecolor": "none", "pad": 1.0}
# So that the same picture is the same file each time.
matplotlib.rcParams["svg.hashsalt"] = "hypercube"
matplotlib.rcParams["axes.spines.top"] = False
matplotlib.rcParams["axes.spines.right"] = False


def one_panel(width: float, height: float) -> tuple[Figure, Axes]:
    figure = Figure(figsize=(width, height), layout="constrained")
    return figure, figure.subplots()


def save(figure: Figure, path: pathlib.Path) -> None:
    """Writes a picture in the format of its name, and nothing of the day it was made."""
    dated = {".svg": {"Date": None}, ".pdf": {"CreationDate": None}}
    figure.savefig(path, dpi=150, metadata=dated.get(path.suffix.lower()))


def middle(rows: pandas.DataFrame) -> pandas.Series:
    return (rows["low"] + rows["high"]) / 2


def rows_of(table: pandas.DataFrame, measure: str) -> pandas.DataFrame:
    rows = table[table["measure"] == measure]
    if rows.empty:
        raise Fault(f"the text has no rows of {measure}: this picture needs them")
    return rows


def workloads(table: pandas.DataFrame) -> Figure:
    """A bar for each unit, up to the low end of its workload, and the interval of the true value from there on. The mean of all
    units is drawn if it is known as closely as the picture can show. Of a fleet each bar is of a station's crews, and the mean
    that of all crews."""
    rows = rows_of(table, "workload").iloc[::-1]
    figure, axes = one_panel(7, 1.2 + 0.36 * len(rows))
    axes.barh(rows["subject"], rows["low"], color=BLUE, height=0.62)
    axes.barh(rows["subject"], rows["high"] - rows["low"], left=rows["low"], color=ORANGE, height=0.62)
    for name, low, high in zip(rows["subject"], rows["low"], rows["high"]):
        axes.annotate(shown(low, high, ".1%", NARROW), (high, name), (5, 0), textcoords="offset points", va="center",
                      fontsize=9, bbox=PAPER)
    label = "Share of time busy"
    if (rows["high"] - rows["low"]).max() < NARROW:
        crews = table[(table["measure"] == "crews") & (table["subject"] != "")].set_index("subject")["low"]
        mean = numpy.average(middle(rows), weights=rows["subject"].map(crews).fillna(1))
        axes.axvline(mean, color=DARK, linewidth=1, linestyle="--", zorder=0.5)
        label += f" (dashed: the mean of all {'units' if crews.empty else 'crews'})"
    axes.set_xlim(0, min(1.2, max(0.2, 1.2 * rows["high"].max())))
    axes.set_ylim(-0.7, len(rows) - 0.3)
    axes.xaxis.set_major_formatter(PERCENT)
    axes.set_xlabel(label)
    return figure


def shown(low: float, high: float, form: str, narrow: float) -> str:
    """A value in this form, or both its ends if they are not nearer than `narrow`."""
    ends = [(low + high) / 2] if high - low < narrow else [low, high]
    return " to ".join(format(end, form) for end in ends)


def answers(table: pandas.DataFrame) -> Figure:
    """Of the answered calls of each atom, the share that each unit answers. An atom without calls has an empty row."""
    rows = rows_of(table, "dispatch").assign(share=middle)
    grid = rows.pivot(index="second", columns="subject", values="share")
    grid = grid.reindex(index=rows["second"].unique(), columns=rows["subject"].unique())
    totals = grid.sum(axis=1)
    shares = grid.div(totals.where(totals > 0), axis=0)
    height, size = (0.27, 10) if shares.shape[0] <= MOST_LABELS else (0.15, 7)
    figure, axes = one_panel(2.6 + 0.72 * shares.shape[1], max(3.0, 1.9 + height * shares.shape[0]))
    image = axes.imshow(shares.to_numpy(), cmap="Blues", vmin=0, vmax=1, aspect="auto")
    axes.set_xticks(range(shares.shape[1]), shares.columns, rotation=40, ha="left", rotation_mode="anchor")
    axes.set_yticks(range(shares.shape[0]), shares.index, fontsize=size)
    axes.tick_params(length=0, top=False, bottom=False, labeltop=True, labelbottom=False)
    axes.spines[:].set_visible(False)
    if shares.shape[0] <= MOST_NUMBERS:
        number_cells(axes, shares)
    bar = figure.colorbar(image, ax=axes, format=PERCENT, fraction=0.05)
    bar.set_label("Share of the atom's answered calls", fontsize=9)
    return figure


def number_cells(axes: Axes, shares: pandas.DataFrame) -> None:
    for (row, column), share in numpy.ndenumerate(shares.to_numpy()):
        if share >= 0.005:
            colour = "white" if share > 0.6 else DARK
            axes.text(column, row, f"{share:.0%}", ha="center", va="center", color=colour, fontsize=8)


def travel(table: pandas.DataFrame, where: Map) -> Figure:
    """The mean travel time to calls of each atom, on the map. The larger the dot, the more calls."""
    rows = rows_of(table, "travel-atom")
    atoms = atoms_named(where, rows["subject"]).assign(minutes=middle(rows).to_numpy() / 60, shown=minutes_of(rows, ".1f"))
    atoms = atoms.assign(area=40 + 460 * atoms["calls"] / max(atoms["calls"].max(), 1)).sort_values("calls", ascending=False)
    figure, axes = map_axes(where)
    dots = axes.scatter(atoms["x"], atoms["y"], c=atoms["minutes"], s=atoms["area"], cmap="YlOrRd", vmin=0, edgecolors=DARK,
                        linewidths=0.6, zorder=2)
    axes.set_title("The larger the dot, the more calls", fontsize=10)
    figure.colorbar(dots, ax=axes, label="Mean travel time to a call, in minutes", fraction=0.05)
    if len(atoms) <= MOST_LABELS:
        name_dots(axes, [Dot(atom.x, atom.y, atom.area, f"{atom.Index}\n{atom.shown}") for atom in atoms.itertuples()],
                  units_on(where), DARK)
    return figure


def minutes_of(rows: pandas.DataFrame, form: str) -> list[str]:
    return [shown(low / 60, high / 60, form, 0.1) for low, high in zip(rows["low"], rows["high"])]


def sites(table: pandas.DataFrame, where: Map) -> Figure:
    """The sites that a sweep keeps, by their values; a cross is a site that is strictly beaten by one of them."""
    word = rows_of(table, "measure")["word"].iloc[0]
    unit = rows_of(table, "unit")["subject"].iloc[0]
    rows = rows_of(table, word)
    names = minutes_of(rows, ".2f") if rows["unit"].iloc[0] == SECONDS else percents_of(rows)
    kept = atoms_named(where, rows["subject"]).assign(shown=names)
    dropped = where.atoms.drop(index=rows["subject"])
    figure, axes = map_axes(where, without=unit)
    axes.scatter(dropped["x"], dropped["y"], marker="x", color=GREY, s=70, zorder=2)
    axes.scatter(kept["x"], kept["y"], color=ORANGE, s=130, edgecolors=DARK, zorder=3)
    scale = " in minutes" if rows["unit"].iloc[0] == SECONDS else ""
    axes.set_title(f"{unit}, by {word}{scale}: sites that no other beats, and sites that one beats (x)", fontsize=10)
    crosses = [Dot(atom.x, atom.y, 70, atom.Index) for atom in dropped.itertuples()]
    name_dots(axes, [Dot(atom.x, atom.y, 130, f"{atom.Index}\n{atom.shown}") for atom in kept.itertuples()], crosses, DARK)
    if len(crosses) <= MOST_LABELS:
        name_dots(axes, crosses, units_on(where), GREY)
    return figure


def percents_of(rows: pandas.DataFrame) -> list[str]:
    return [shown(low, high, ".2%", NARROW) for low, high in zip(rows["low"], rows["high"])]


def atoms_named(where: Map, names: pandas.Series) -> pandas.DataFrame:
    absent = [name for name in names if name not in where.atoms.index]
    if absent:
        raise Fault(f'the plan has no atom "{absent[0]}": the text is that of another plan')
    return where.atoms.loc[list(names)]


def units_on(where: Map) -> list[Dot]:
    return [Dot(unit.x, unit.y, UNIT_AREA, unit.Index) for unit in where.units.itertuples()]


def map_axes(where: Map, without: str = "") -> tuple[Figure, Axes]:
    """A map of the form of its points, with the units at the mean point of where they wait."""
    units = where.units.drop(index=without, errors="ignore")
    points = pandas.concat([where.atoms[["x", "y"]], units])
    middles, spans = (points.max() + points.min()) / 2, (points.max() - points.min()).clip(lower=2) * 1.24
    figure, axes = one_panel(8.4, min(10.0, max(4.2, 7.0 * spans["y"] / spans["x"])))
    axes.scatter(units["x"], units["y"], marker="^", s=UNIT_AREA, color=BLUE, edgecolors="white", zorder=4,
                 label="units, where they wait")
    axes.set_xlim(middles["x"] - spans["x"] / 2, middles["x"] + spans["x"] / 2)
    axes.set_ylim(middles["y"] - spans["y"] / 2, middles["y"] + spans["y"] / 2)
    axes.set_aspect("equal", adjustable="datalim")
    axes.set_xlabel("x")
    axes.set_ylabel("y")
    axes.legend(loc="upper right", bbox_to_anchor=(1, -0.08), frameon=False, fontsize=9)
    return figure, axes


def comparison(table: pandas.DataFrame, names: list[str]) -> Figure:
    """A panel for each measure, with the interval of each plan. A plan is filled if no other is certainly below it."""
    count = int(rows_of(table, "plans")["low"].iloc[0])
    values = table[table["low"].notna() & (table["measure"] != "plans")]
    verdicts = table[table["word"].isin(["below", "above"])]
    measures = list(dict.fromkeys(values["measure"]))
    columns = min(3, len(measures))
    lines = math.ceil(len(measures) / columns)
    figure = Figure(figsize=(1.2 + 3.4 * columns, lines * (1.4 + 0.3 * count)), layout="constrained")
    figure.get_layout_engine().set(h_pad=0.12, w_pad=0.08)
    grid = figure.subplots(lines, columns, sharey=True, squeeze=False)
    for axes, measure in zip(grid.flat, measures):
        panel(axes, values[values["measure"] == measure], verdicts[verdicts["measure"] == measure], names)
    for axes in grid.flat[len(measures):]:
        axes.set_visible(False)
    figure.supxlabel("Lines: the intervals. Filled: no other plan is certainly below this one", fontsize=9)
    return figure


def panel(axes: Axes, values: pandas.DataFrame, verdicts: pandas.DataFrame, names: list[str]) -> None:
    values = values.drop_duplicates("subject")
    beaten = {*verdicts["second"][verdicts["word"] == "below"], *verdicts["subject"][verdicts["word"] == "above"]}
    scale = 60 if values["unit"].iloc[0] == SECONDS else 1
    places = range(len(values), 0, -1)
    for place, subject, low, high in zip(places, values["subject"], values["low"] / scale, values["high"] / scale):
        axes.plot([low, high], [place, place], color=BLUE, linewidth=5, solid_capstyle="butt")
        filling = "white" if subject in beaten else ORANGE
        axes.plot((low + high) / 2, place, "o", color=DARK, markersize=8, markerfacecolor=filling)
    axes.set_yticks(places, [plan_name(subject, names) for subject in values["subject"]])
    axes.set_ylim(0.4, len(values) + 0.6)
    set_span(axes, values["low"].min() / scale, values["high"].max() / scale)
    axes.grid(axis="y", color="#e6e6e6")
    if values["unit"].iloc[0] == SHARE:
        axes.xaxis.set_major_formatter(PercentFormatter(1.0))
    axes.set_title(values["measure"].iloc[0] + (" (minutes)" if scale == 60 else ""), fontsize=10)


def set_span(axes: Axes, low: float, high: float) -> None:
    """An axis from the least to the greatest end, but never so short that its numbers differ only in far decimals."""
    span = max(1.3 * (high - low), 0.1 * high, 0.001)
    middle_point = (low + high) / 2
    axes.set_xlim(middle_point - span / 2, middle_point + span / 2)
    axes.xaxis.set_major_locator(MaxNLocator(4, prune="both"))
    axes.tick_params(axis="x", labelsize=9)


def reached(table: pandas.DataFrame) -> Figure:
    """The share of the answered calls that are reached, over the time: of the region, and of each unit's. A dot is the middle of
    an interval, and the band about it the interval, if it is wide enough to be seen. Lines only lead from dot to dot. Units with
    the same ends throughout, as crews of one station, have one line."""
    region, units = rows_of(table, "region"), rows_of(table, "unit")
    figure, axes = one_panel(8.4, 4.8)
    lines = alike(units)
    colours = colormaps["tab10" if len(lines) <= 10 else "tab20"]
    for place, names in enumerate(lines):
        draw_reached(axes, units[units["subject"] == names[0]], together(names), colours(place), 1.2)
    draw_reached(axes, region, "region", DARK, 3)
    minutes = sorted(region["second"].astype(float) / 60)
    axes.set_xlim(0, 1.06 * max(minutes[-1], 0.1))
    axes.set_ylim(0, 1.02)
    axes.set_xticks(minutes if len(minutes) <= MOST_TICKS else MaxNLocator(MOST_TICKS).tick_values(0, minutes[-1]))
    axes.xaxis.set_major_formatter(lambda value, _: clock(value))
    axes.yaxis.set_major_formatter(PERCENT)
    axes.grid(color="#e6e6e6")
    axes.set_xlabel("Travel time in minutes")
    axes.set_ylabel("Share of answered calls reached")
    handles, labels = axes.get_legend_handles_labels()
    axes.legend(handles[-1:] + handles[:-1], labels[-1:] + labels[:-1], loc="center left", bbox_to_anchor=(1, 0.5), frameon=False,
                fontsize=9)
    return figure


def alike(units: pandas.DataFrame) -> list[list[str]]:
    """The names of units that have the same ends for all numbers, in their order."""
    found: dict[tuple[float, ...], list[str]] = {}
    for name, rows in units.groupby("subject", sort=False):
        found.setdefault((*rows["low"], *rows["high"]), []).append(str(name))
    return list(found.values())


def together(names: list[str]) -> str:
    return ",\n".join(names) if len(names) <= MOST_NAMES else f"{names[0]} and {len(names) - 1} others"


def draw_reached(axes: Axes, rows: pandas.DataFrame, name: str, colour: str | tuple[float, ...], width: float) -> None:
    rows = rows.assign(minutes=rows["second"].astype(float) / 60)
    axes.fill_between(rows["minutes"], rows["low"], rows["high"], color=colour, alpha=0.3, linewidth=0)
    axes.vlines(rows["minutes"], rows["low"], rows["high"], color=colour, alpha=0.3, linewidth=6)
    axes.plot(rows["minutes"], middle(rows), marker="o", markersize=2 + 1.5 * width, color=colour, linewidth=width, label=name)


def clock(minutes: float) -> str:
    """Minutes, and seconds if there are some."""
    whole, left = divmod(round(60 * minutes), 60)
    return f"{whole}:{left:02}" if left else str(whole)


def plan_name(subject: str, names: list[str]) -> str:
    place = int(subject)
    return names[place - 1] if place <= len(names) else f"plan {place}"
