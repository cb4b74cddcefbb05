"""Pictures of plots: the finest masses with the boxes of each level, and the ledger over the steps."""

from __future__ import annotations

from dataclasses import dataclass

import matplotlib

matplotlib.use("Agg")

import numpy
from matplotlib import colormaps, pyplot
from matplotlib.collections import PatchCollection
from matplotlib.colors import Colormap, LogNorm, Normalize
from matplotlib.figure import Figure
from matplotlib.patches import Rectangle
from matplotlib.ticker import MaxNLocator

from .plots import Plot, finest_masses, level_masses

LEVEL_COLOURS = ["#8f7bff", "#ff9f40", "#38d6ff", "#ff5fa2", "#8dff5a"]
COLOURS = "viridis"
# a domain that is longer than this many times its height is drawn with stretched rows
LONGEST = 8
# no side of the picture has more than about this many cells: finer ones are averaged
MOST_PIXELS = 2048


@dataclass(frozen=True)
class Style:
    """How a plot is drawn: one level alone or the finest of all, colours by the logarithm, boxes or none, the ends of the
    scale, its colours, and what stands above."""

    level: int | None = None
    log: bool = False
    boxes: bool = True
    least: float | None = None
    greatest: float | None = None
    cmap: str = COLOURS
    title: str | None = None


def masses_shown(plot: Plot, style: Style) -> numpy.ma.MaskedArray:
    """The densities that a picture shows, as mass in a cell of level 0."""
    if style.level is None:
        return numpy.ma.masked_array(finest_masses(plot))
    return level_masses(plot, style.level)


def averaged(masses: numpy.ma.MaskedArray) -> numpy.ma.MaskedArray:
    """The same picture with at most `MOST_PIXELS` cells a side: means of squares of cells."""
    side = 1
    while max(masses.shape) // side > MOST_PIXELS and not any(n % (2 * side) for n in masses.shape):
        side *= 2
    if side == 1:
        return masses
    rows, columns = masses.shape
    return masses.reshape(rows // side, side, columns // side, side).mean(axis=(1, 3))


def sizes(plot: Plot) -> tuple[bool, float, float]:
    """Whether a domain is so long that its rows are stretched, and the width and the height of its picture."""
    long = max(plot.columns, plot.rows) > LONGEST * min(plot.columns, plot.rows)
    ratio = 0.35 if long else plot.rows / plot.columns
    width = 7.5 if ratio <= 1 else max(4.5, 7.5 / ratio)
    return long, width, min(max(width * ratio, 1.6), 7.5)


def draw(plot: Plot, style: Style) -> Figure:
    """The picture of a plot: the masses, and below them the ledger, or one line where it has nothing to show."""
    long, width, height = sizes(plot)
    still = no_change(plot)
    if still is None:
        figure, (above, below) = pyplot.subplots(2, 1, figsize=(width + 1.2, height + 2.9), height_ratios=[height, 1.7], layout="compressed")
        draw_ledger(below, plot)
    else:
        figure, above = pyplot.subplots(figsize=(width + 1.2, height + 1.3), layout="compressed")
        figure.supxlabel(still, fontsize="medium")
    figure.suptitle(plot.title if style.title is None else style.title)
    draw_masses(figure, above, plot, style, long)
    return figure


def draw_masses(figure: Figure, axes: pyplot.Axes, plot: Plot, style: Style, long: bool) -> None:
    masses = averaged(masses_shown(plot, style))
    norm = colours(masses, style)
    image = axes.imshow(
        # a logarithm has no place for 0: cells without mass get the colour below the scale
        numpy.ma.maximum(masses, norm.vmin / 2) if style.log else masses,
        origin="lower",
        extent=(0, plot.columns, 0, plot.rows),
        interpolation="nearest",
        aspect="auto" if long else "equal",
        cmap=with_ends(style),
        norm=norm,
    )
    # beside the picture and as high as it, whatever its sides
    beside = axes.inset_axes([1.02, 0, 0.03, 1])
    bar = figure.colorbar(image, cax=beside, extend=beyond(masses, norm, style.log))
    bar.set_label("mass in a cell of level 0" + (" (black: none)" if style.log else ""))
    if style.boxes:
        draw_boxes(axes, plot, style)
    axes.set_xlim(0, plot.columns)
    axes.set_ylim(0, plot.rows)
    axes.xaxis.set_major_locator(MaxNLocator(integer=True))
    axes.yaxis.set_major_locator(MaxNLocator(integer=True))
    axes.set_xlabel("column of level 0")
    axes.set_ylabel("row of level 0" + (", stretched" if long else ""))


def with_ends(style: Style) -> Colormap:
    """The colours, with one for what is no cell, and for the logarithm one for no mass."""
    cmap = colormaps[style.cmap].copy()
    cmap.set_bad("#dddddd")
    if style.log:
        cmap.set_under("black")
    return cmap


def beyond(masses: numpy.ma.MaskedArray, norm: Normalize, log: bool) -> str:
    """At which ends of the scale there are masses beyond it."""
    there = masses.compressed()
    low = log or bool(there.min(initial=norm.vmin) < norm.vmin)
    high = bool(there.max(initial=norm.vmax) > norm.vmax)
    return {(True, True): "both", (True, False): "min", (False, True): "max"}.get((low, high), "neither")


def colours(masses: numpy.ma.MaskedArray, style: Style) -> Normalize:
    there = masses.compressed()
    greatest = style.greatest if style.greatest is not None else max(there.max(initial=0), 1)
    if not style.log:
        least = style.least if style.least is not None else 0
        return Normalize(least, max(greatest, least + 1))
    if style.least is not None and style.least > 0:
        return LogNorm(style.least, max(greatest, 2 * style.least))
    least = there[there > 0].min(initial=greatest)
    return LogNorm(max(min(least, greatest / 10), greatest / 1e9), greatest)


def draw_boxes(axes: pyplot.Axes, plot: Plot, style: Style) -> None:
    """The edges of each level's boxes in that level's colour, and a legend where there is more than one."""
    levels = [level for level in plot.levels if style.level in (None, level.number) and level.boxes]
    entries = []
    # level 0 has its edges where the picture's frame would be
    axes.spines[:].set_visible(False)
    for level in levels:
        part = 1 / (1 << level.number)
        edges = [Rectangle((b.x0 * part, b.y0 * part), b.width * part, b.height * part) for b in level.boxes]
        colour = LEVEL_COLOURS[level.number % len(LEVEL_COLOURS)]
        wide = 1.2 if level.number else 2.4
        axes.add_collection(PatchCollection(edges, facecolor="none", edgecolor="black", linewidth=wide + 1, clip_on=False, zorder=3))
        axes.add_collection(PatchCollection(edges, facecolor="none", edgecolor=colour, linewidth=wide, clip_on=False, zorder=3))
        boxes = "1 box" if len(level.boxes) == 1 else f"{len(level.boxes)} boxes"
        entries.append(Rectangle((0, 0), 1, 1, facecolor="#555555", edgecolor=colour, linewidth=1.5, label=f"level {level.number}: {boxes}"))
    if len(levels) > 1:
        axes.legend(handles=entries, loc="upper left", bbox_to_anchor=(0, -0.12), ncols=3, fontsize="small", frameon=False)


def no_change(plot: Plot) -> str | None:
    """One line on a ledger in which nothing changes; None where something does."""
    mass = plot.ledger[:, 0]
    if plot.step == 0:
        return f"mass {mass[0]:,} at step 0"
    if (mass != mass[0]).any() or plot.ledger[:, 1:].any():
        return None
    when = "after step 1" if plot.step == 1 else f"after each of {plot.step} steps"
    return f"mass {mass[0]:,} {when}: nothing flowed in or out"


def draw_ledger(axes: pyplot.Axes, plot: Plot) -> None:
    """How the mass of level 0 changed since step 0, and what flowed in and out in each step, where anything did."""
    steps = numpy.arange(plot.step + 1)
    mass, inflow, outflow = plot.ledger.T
    mark = "." if plot.step < 60 else ""
    lines = axes.plot(steps, mass - mass[0], color="black", marker=mark, label=f"mass, less the {mass[0]:,} of step 0")
    room = 0.04 * plot.step or 0.5
    axes.set_xlim(-room, plot.step + room)
    axes.axhline(0, color="#999999", linewidth=0.7, zorder=1)
    axes.set_xlabel("step")
    axes.set_ylabel("change of mass")
    axes.xaxis.set_major_locator(MaxNLocator(integer=True, min_n_ticks=1))
    axes.yaxis.set_major_locator(MaxNLocator(integer=True))
    # row 0 of the ledger has no flows: no step came before it
    flows = [it for it in ((inflow, "#2a7f3a", "in"), (outflow, "#b3261e", "out")) if it[0].any()]
    if flows:
        beside = axes.twinx()
        for flow, colour, name in flows:
            lines += beside.plot(steps[1:], flow[1:], color=colour, marker=mark, linewidth=1, label=f"{name}, a step")
        beside.set_ylim(0, max(inflow.max(), outflow.max()) * 1.15)
        beside.set_ylabel("flow a step")
        beside.yaxis.set_major_locator(MaxNLocator(integer=True))
    # in the middle: the axes' powers of ten stand at both ends
    axes.legend(handles=lines, loc="lower center", bbox_to_anchor=(0.5, 1), ncols=3, fontsize="small", frameon=False)


def save(plot: Plot, path: str, style: Style) -> None:
    """Draws a plot into a file, whose kind its name says: png, svg or pdf."""
    save_figure(draw(plot, style), path)


def save_figure(figure: Figure, path: str) -> None:
    try:
        figure.savefig(path, dpi=110)
    finally:
        pyplot.close(figure)
