"""Two plots compared: where they differ and by how much, in words and as a picture."""

from __future__ import annotations

from collections.abc import Iterator

import numpy
from matplotlib import pyplot
from matplotlib.collections import PatchCollection
from matplotlib.colors import Normalize
from matplotlib.figure import Figure
from matplotlib.patches import Rectangle
from matplotlib.ticker import MaxNLocator

from .pictures import LEVEL_COLOURS, averaged, sizes
from .plots import Box, Level, Plot, finest_masses, level_masses


def differences_of_all(a: list[Plot], b: list[Plot]) -> Iterator[str]:
    """A line for each thing in which the plots of all species differ; none where they have the same bytes."""
    if (a[0].species is None) != (b[0].species is None) or len(a) != len(b):
        yield f"species: {how_many(a)} and {how_many(b)}"
    # what belongs to all species is told once
    told: set[str] = set()
    for ours, theirs in zip(a, b):
        head = "" if ours.species is None or theirs.species is None else f"species {ours.species}, "
        for of_all, line in lines_of(ours, theirs):
            if not of_all:
                yield head + line
            elif line not in told:
                told.add(line)
                yield line


def how_many(plots: list[Plot]) -> str:
    return "none by number" if plots[0].species is None else str(len(plots))


def differences(a: Plot, b: Plot) -> Iterator[str]:
    """A line for each thing in which two plots of one species differ, B less A."""
    return (line for _, line in lines_of(a, b))


def lines_of(a: Plot, b: Plot) -> Iterator[tuple[bool, str]]:
    """A line for each thing in which two plots differ, and whether that belongs to all species."""
    if a.name != b.name:
        yield True, f"name: {a.name} and {b.name}"
    if a.step != b.step:
        yield True, f"step: {a.step} and {b.step}"
    yield from ((False, line) for line in of_ledgers(a, b))
    if not are_comparable(a, b):
        yield True, f"domain: {a.columns} by {a.rows} and {b.columns} by {b.rows} cells at level 0"
        return
    for number in range(max(len(a.levels), len(b.levels))):
        both = [plot.levels[number] if number < len(plot.levels) else Level(number, []) for plot in (a, b)]
        yield from ((True, line) for line in of_boxes(*both))
        if min(len(a.levels), len(b.levels)) > number:
            yield from ((False, line) for line in of_cells(number, level_masses(a, number), level_masses(b, number)))


def are_comparable(a: Plot, b: Plot) -> bool:
    return (a.columns, a.rows) == (b.columns, b.rows)


def of_ledgers(a: Plot, b: Plot) -> Iterator[str]:
    """The first row of the ledger that differs, of those that both have, and how many do."""
    rows = min(a.step, b.step) + 1
    places = numpy.flatnonzero((a.ledger[:rows] != b.ledger[:rows]).any(axis=1))
    if places.size:
        k = int(places[0])
        ours, theirs = (" ".join(map(str, plot.ledger[k])) for plot in (a, b))
        yield f"ledger: {places.size} of {rows} rows differ, the first of step {k}: {ours} and {theirs}"


def corners(box: Box) -> tuple[int, int, int, int]:
    return box.x0, box.y0, box.x1, box.y1


def alone(a: Level, b: Level) -> list[Box]:
    """The boxes of the first level that the second has not."""
    others = set(map(corners, b.boxes))
    return [box for box in a.boxes if corners(box) not in others]


def of_boxes(a: Level, b: Level) -> Iterator[str]:
    """Boxes that one of two levels has alone, or another order of the same ones."""
    for name, boxes in (("A", alone(a, b)), ("B", alone(b, a))):
        if boxes:
            x0, y0, x1, y1 = corners(boxes[0])
            first = f"({x0}, {y0}) to ({x1}, {y1})"
            yield f"level {a.number}: {len(boxes)} of the boxes {'is' if len(boxes) == 1 else 'are'} in {name} alone, the first {first}"
    if list(map(corners, a.boxes)) != list(map(corners, b.boxes)) and not alone(a, b) and not alone(b, a):
        yield f"level {a.number}: the same boxes in another order"


def of_cells(number: int, a: numpy.ma.MaskedArray, b: numpy.ma.MaskedArray) -> Iterator[str]:
    """How many of the cells that two levels have in common differ in mass, by how much at most and where."""
    differ = (b - a) // 4**number
    count = int((differ != 0).sum()) if differ.count() else 0
    if count:
        size = numpy.ma.abs(differ)
        y, x = numpy.unravel_index(int(size.argmax()), size.shape)
        total = int(differ.sum())
        yield f"level {number}: {count} of {differ.count()} cells differ, most at ({x}, {y}) by {differ[y, x]:+d}, in all by {total:+d}"


def on_one_grid(a: Plot, b: Plot) -> tuple[numpy.ndarray, numpy.ndarray]:
    """The finest masses of both on the cells of the finer one's finest level."""
    finest = max(len(a.levels), len(b.levels))

    def spread(plot: Plot) -> numpy.ndarray:
        side = 1 << (finest - len(plot.levels))
        return finest_masses(plot).repeat(side, axis=0).repeat(side, axis=1)

    return spread(a), spread(b)


def draw(a: Plot, b: Plot, boxes: bool = True) -> Figure:
    """The picture of B less A, in colours about 0, with the edges of boxes that one of them has alone: A's dashed."""
    ours, theirs = on_one_grid(a, b)
    differ = averaged(numpy.ma.masked_array(theirs - ours))
    long, width, height = sizes(a)
    figure, axes = pyplot.subplots(figsize=(width + 1.2, height + 1.3), layout="compressed")
    most = max(float(numpy.abs(differ).max()), 1)
    image = axes.imshow(
        differ,
        origin="lower",
        extent=(0, a.columns, 0, a.rows),
        interpolation="nearest",
        aspect="auto" if long else "equal",
        cmap="RdBu_r",
        norm=Normalize(-most, most),
    )
    bar = figure.colorbar(image, cax=axes.inset_axes([1.02, 0, 0.03, 1]))
    bar.set_label("B less A, as mass in a cell of level 0")
    figure.suptitle(f"{b.title}, less {a.title}" if a.title != b.title else f"{a.title}: B less A")
    if boxes:
        draw_boxes(axes, a, b)
    axes.set_xlim(0, a.columns)
    axes.set_ylim(0, a.rows)
    axes.xaxis.set_major_locator(MaxNLocator(integer=True))
    axes.yaxis.set_major_locator(MaxNLocator(integer=True))
    axes.set_xlabel("column of level 0")
    axes.set_ylabel("row of level 0" + (", stretched" if long else ""))
    return figure


def draw_boxes(axes: pyplot.Axes, a: Plot, b: Plot) -> None:
    """The boxes that one plot has alone, in their level's colour, and a legend of those that there are."""
    entries = []
    for name, plot, other, style in (("A", a, b, "--"), ("B", b, a, "-")):
        for level in plot.levels:
            theirs = other.levels[level.number] if level.number < len(other.levels) else Level(level.number, [])
            boxes = alone(level, theirs)
            part = 1 / (1 << level.number)
            colour = LEVEL_COLOURS[level.number % len(LEVEL_COLOURS)]
            edges = [Rectangle((it.x0 * part, it.y0 * part), it.width * part, it.height * part) for it in boxes]
            axes.add_collection(PatchCollection(edges, facecolor="none", edgecolor=colour, linewidth=1.3, linestyle=style, zorder=3))
            if boxes:
                label = f"level {level.number}, in {name} alone: {len(boxes)}"
                entries.append(Rectangle((0, 0), 1, 1, facecolor="none", edgecolor=colour, linewidth=1.3, linestyle=style, label=label))
    if entries:
        axes.legend(handles=entries, loc="upper left", bbox_to_anchor=(0, -0.12), ncols=2, fontsize="small", frameon=False)
