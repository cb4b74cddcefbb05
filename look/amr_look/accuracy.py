"""How far the masses of a run are from the exact solution: two shapes that a constant flow moves over a periodic square.

The square has side 1. In the time of a run the flow moves what is there by a quarter of the side along x and by an eighth along
y. Courant numbers are a half and a quarter, so a level 0 of N by N cells takes N/2 steps.
"""

from __future__ import annotations

import math
import tempfile
from collections.abc import Callable
from dataclasses import dataclass
from pathlib import Path

import numpy
from matplotlib import pyplot
from matplotlib.figure import Figure

from .movies import plots_of_run
from .pictures import LEVEL_COLOURS
from .plots import Plot, finest_masses

MOVED = (0.25, 0.125)
RADIUS, DISC_AT = 0.2, (0.4, 0.45)
WIDTH, BUMP_AT = 0.5, 0.4
# the mass of a cell of level 0 where a shape is highest
HEIGHT = 1_000_000_000
SIZES = (64, 128, 256)
# boxes are made anew after so many steps, and tags grown by as many cells
REGRID = 2


def shares_of_disc(cells: int, at: tuple[float, float]) -> numpy.ndarray:
    """Of each cell, row by row, how much of it lies in the disc: by 16 by 16 points."""
    points = (numpy.arange(16 * cells) + 0.5) / (16 * cells)
    far = [((points - centre + 0.5) % 1 - 0.5) ** 2 for centre in at]
    inside = far[0][None, :] + far[1][:, None] < RADIUS**2
    return inside.reshape(cells, 16, cells, 16).mean(axis=(1, 3))


def shares_of_bump(cells: int, at: tuple[float, float]) -> numpy.ndarray:
    """The mean of a squared cosine over each column, the same in each row."""
    def integral(x: numpy.ndarray) -> numpy.ndarray:
        x = numpy.clip(x, -WIDTH / 2, WIDTH / 2)
        return x / 2 + WIDTH / (4 * math.pi) * numpy.sin(2 * math.pi * x / WIDTH)

    low = (numpy.arange(cells) / cells - at[0] + 0.5) % 1 - 0.5
    means = (integral(low + 1 / cells) - integral(low)) * cells
    return numpy.tile(means, (cells, 1))


@dataclass(frozen=True)
class Shape:
    """What is moved: its name, its mean over each cell where it stands somewhere, and where it starts."""

    name: str
    shares: Callable[[int, tuple[float, float]], numpy.ndarray]
    start: tuple[float, float]

    def exact(self, cells: int) -> numpy.ndarray:
        """The exact solution at the end, as means over cells."""
        return self.shares(cells, (self.start[0] + MOVED[0], self.start[1] + MOVED[1]))

    def blocks(self, cells: int, height: int) -> list[list[int]]:
        """The blocks of the start: a row of the disc's cells each, or a column of the bump."""
        means = self.shares(cells, self.start)
        if self.name == "bump":
            columns = [(x, round(height * float(means[0, x]))) for x in range(cells)]
            return [[x, 0, x, cells - 1, mass] for x, mass in columns if mass]
        inside = means >= 0.5
        rows = [(y, numpy.flatnonzero(inside[y])) for y in range(cells)]
        return [[int(row[0]), y, int(row[-1]), y, height] for y, row in rows if row.size]


DISC = Shape("disc", shares_of_disc, DISC_AT)
BUMP = Shape("bump", shares_of_bump, (BUMP_AT, 0.0))


@dataclass(frozen=True)
class Case:
    """A run: the shape, the cells of level 0 along a side, how many finer levels may come, and the greatest mass."""

    shape: Shape
    cells: int
    finer: int = 0
    height: int = HEIGHT

    def problem(self) -> str:
        """The problem's text."""
        tags = [max(self.height // 50 // 4**level, 1) for level in range(self.finer)]
        lines = [
            "version = 1",
            f'name = "{self.shape.name}-{self.cells}-{self.finer}"',
            f"cells = [{self.cells}, {self.cells}]",
            f"steps = {self.cells // 2}",
            "courant = [2, 1, 4]",
            "sides = [-1, -1, -1, -1]",
            f"max_level = {self.finer}",
            f"tag = {tags}",
            f"n_error_buf = {REGRID}",
            f"regrid_int = {REGRID}",
            f"blocks = {self.shape.blocks(self.cells, self.height)}",
        ]
        return "\n".join([*lines, ""])


@dataclass(frozen=True)
class Result:
    """What a run came to: its last plot, the errors as parts of the shape's height, how many cells were updated, and whether
    every unit of mass is accounted for at each step."""

    case: Case
    plot: Plot
    mean: float
    greatest: float
    updated: int
    conserved: bool


def measure(program: str, case: Case) -> Result:
    """Runs a case and compares its end with the exact solution."""
    with tempfile.TemporaryDirectory() as folder:
        problem = Path(folder) / "problem.toml"
        problem.write_text(case.problem())
        # with one level its boxes stay; else they are those of the steps since the last plot
        plots = plots_of_run(program, problem, REGRID if case.finer else case.cells)
    last = plots[-1]
    finest = len(last.levels) - 1
    shown = finest_masses(last) / case.height
    error = numpy.abs(shown - case.shape.exact(case.cells << finest))
    return Result(case, last, float(error.mean()), float(error.max()), updates(plots), all(map(is_conserved, plots)))


def updates(plots: list[Plot]) -> int:
    """How many cells were updated: each cell of a level at each of its steps, 2^l of them in one of level 0."""
    return sum(
        (after.step - before.step) * sum(2**level.number * box.masses.size for level in after.levels for box in level.boxes)
        for before, after in zip(plots, plots[1:])
    )


def is_conserved(plot: Plot) -> bool:
    """Whether the ledger and the finest cells account for every unit of mass."""
    mass, inflow, outflow = plot.ledger.T
    total = int(finest_masses(plot).sum())
    balanced = (mass[1:] == mass[:-1] + inflow[1:] - outflow[1:]).all()
    return bool(balanced) and total == int(mass[-1]) * 4 ** (len(plot.levels) - 1)


def cases() -> list[Case]:
    """All runs: one level, finer levels beside the uniform grid that is as fine, and smaller masses."""
    runs = []
    for shape in (DISC, BUMP):
        runs += [Case(shape, cells) for cells in SIZES]
        runs += [Case(shape, 64, 1), Case(shape, 128, 1), Case(shape, 64, 2)]
    return runs + [Case(BUMP, 256, 0, height) for height in (10_000, 1_000, 100, 10)]


def order(coarse: float, fine: float) -> float:
    """The order between two grids of which one has cells of half the width."""
    return math.log2(coarse / fine)


def table(results: list[Result]) -> str:
    """The results as a table of Markdown, and how many of the runs account for every unit of mass."""
    lines = ["shape | columns + finer levels | greatest mass | mean error | order | greatest error | order | cells updated"]
    lines.append("---|---|---|---|---|---|---|---")
    found = {(it.case.shape.name, it.case.cells, it.case.finer, it.case.height): it for it in results}
    for it in results:
        case = it.case
        half = found.get((case.shape.name, case.cells // 2, 0, case.height)) if not case.finer else None
        orders = [f"{order(a, b):.2f}" for a, b in ((half.mean, it.mean), (half.greatest, it.greatest))] if half else ["", ""]
        lines.append(
            f"{case.shape.name} | {case.cells}{f' + {case.finer}' if case.finer else ''} | {case.height:,} | {it.mean:.5f} "
            f"| {orders[0]} | {it.greatest:.4f} | {orders[1]} | {it.updated:,}"
        )
    kept = sum(it.conserved for it in results)
    return "\n".join([*lines, "", f"{kept} of {len(results)} runs account for every unit of mass."])


def draw(results: list[Result]) -> Figure:
    """The disc on three levels with its exact edge, the bump along a row, and the errors by cells a side and by work."""
    figure, ((disc, bump), (by_cells, by_work)) = pyplot.subplots(2, 2, figsize=(11, 9), layout="constrained")
    draw_disc(disc, next(it for it in results if (it.case.shape, it.case.cells, it.case.finer) == (DISC, 64, 2)))
    draw_bump(bump, [it for it in results if it.case.shape is BUMP and not it.case.finer and it.case.height == HEIGHT])
    for shape, mark, colour in ((DISC, "o", "#b3261e"), (BUMP, "s", "#1f5fa8")):
        of_shape = [it for it in results if it.case.shape is shape and it.case.height == HEIGHT]
        draw_errors(by_cells, [it for it in of_shape if not it.case.finer], mark, colour)
        draw_work(by_work, of_shape, mark, colour)
    for axes in (by_cells, by_work):
        axes.set_xscale("log")
        axes.set_yscale("log")
        axes.legend(fontsize="small", frameon=False)
    by_cells.set_xticks(SIZES, [str(it) for it in SIZES])
    by_cells.minorticks_off()
    by_cells.set_xlabel("cells along a side, one level")
    by_cells.set_ylabel("error, as a part of the height")
    by_work.set_xlabel("cells updated")
    by_work.set_ylabel("mean error, as a part of the height")
    return figure


def draw_disc(axes: pyplot.Axes, result: Result) -> None:
    plot = result.plot
    axes.imshow(finest_masses(plot) / result.case.height, origin="lower", extent=(0, 1, 0, 1), cmap="viridis", vmin=0, vmax=1)
    side = 1 / plot.columns
    for level in plot.levels:
        part = side / (1 << level.number)
        colour = LEVEL_COLOURS[level.number]
        for box in level.boxes:
            edge = pyplot.Rectangle((box.x0 * part, box.y0 * part), box.width * part, box.height * part, fill=False, edgecolor=colour, linewidth=0.8)
            axes.add_patch(edge)
    centre = (DISC_AT[0] + MOVED[0], DISC_AT[1] + MOVED[1])
    axes.add_patch(pyplot.Circle(centre, RADIUS, fill=False, edgecolor="white", linewidth=1.5, linestyle="--"))
    axes.set_title("disc, 64 by 64 and two finer levels; dashed: exact edge", fontsize="medium")


def draw_bump(axes: pyplot.Axes, results: list[Result]) -> None:
    for it in results:
        masses = finest_masses(it.plot)[0] / it.case.height
        axes.plot((numpy.arange(len(masses)) + 0.5) / len(masses), masses, linewidth=1.2, label=f"{it.case.cells} cells")
    exact = BUMP.exact(1024)[0]
    axes.plot((numpy.arange(1024) + 0.5) / 1024, exact, color="black", linewidth=1, linestyle="--", label="exact")
    axes.set_xlabel("x")
    axes.set_title("bump, along a row", fontsize="medium")
    axes.legend(fontsize="small", frameon=False)


def draw_errors(axes: pyplot.Axes, results: list[Result], mark: str, colour: str) -> None:
    name = results[0].case.shape.name
    cells = [it.case.cells for it in results]
    axes.plot(cells, [it.mean for it in results], mark + "-", color=colour, label=f"{name}, mean")
    axes.plot(cells, [it.greatest for it in results], mark + ":", color=colour, label=f"{name}, greatest")


def draw_work(axes: pyplot.Axes, results: list[Result], mark: str, colour: str) -> None:
    name = results[0].case.shape.name
    one = [it for it in results if not it.case.finer]
    axes.plot([it.updated for it in one], [it.mean for it in one], mark + "-", color=colour, label=f"{name}, one level")
    more = [it for it in results if it.case.finer]
    axes.plot([it.updated for it in more], [it.mean for it in more], mark, color=colour, fillstyle="none", markersize=9, label=f"{name}, finer levels")
    for it in more:
        below = it.case.cells == 128
        at = {"xytext": (7, -13) if below else (-7, -4), "ha": "left" if below else "right", "textcoords": "offset points"}
        axes.annotate(f"{it.case.cells} + {it.case.finer}", (it.updated, it.mean), fontsize="small", color=colour, **at)
