"""What the programs share: their words, and one line for what went wrong."""

from __future__ import annotations

import sys
from argparse import ArgumentParser, Namespace
from collections.abc import Callable
from pathlib import Path

from .plots import Plot, PlotFault, read_plots

PICTURES = (".png", ".svg", ".pdf")


class Refusal(Exception):
    """One line on what went wrong."""


def read(path: str) -> list[Plot]:
    """The plot of each species in a file or on standard input, or a refusal that says where it is none."""
    where = "standard input" if path == "-" else path
    try:
        return read_plots(path)
    except PlotFault as fault:
        raise Refusal(f"{where}: {fault}") from None
    except OSError as fault:
        raise Refusal(f"{where}: {fault.strerror}") from None


def of_species(plots: list[Plot], species: int) -> Plot:
    """The plot of one species, or a refusal where there is no such species."""
    if not 0 <= species < len(plots):
        raise Refusal(f"no species {species}: the plot has " + ("species 0 alone" if len(plots) == 1 else f"species 0 to {len(plots) - 1}"))
    return plots[species]


def with_species(parser: ArgumentParser, absent: str) -> None:
    """The word for one species, and what stands where it is absent."""
    parser.add_argument("--species", type=int, metavar="S", help=f"the masses of this species (default: {absent})")


def with_plot(parser: ArgumentParser) -> None:
    parser.add_argument("plot", nargs="?", default="-", metavar="PLOT", help="a file, or standard input where none is named")


def with_style(parser: ArgumentParser) -> None:
    """The words on how masses are drawn."""
    parser.add_argument("--log", action="store_true", help="colours by the logarithm of the mass")
    parser.add_argument("--no-boxes", action="store_true", help="no edges of boxes")
    parser.add_argument("--min", type=float, metavar="MASS", help="the mass at the low end of the scale (default: 0; with --log the least)")
    parser.add_argument("--max", type=float, metavar="MASS", help="the mass at its high end (default: the greatest)")
    parser.add_argument("--cmap", metavar="NAME", help="colours that matplotlib has a name for (default: viridis)")


def style_of(given: Namespace) -> dict:
    """What `pictures.Style` is to have of these words; a refusal where they say nothing that can be drawn."""
    from matplotlib import colormaps

    if given.cmap is not None and given.cmap not in colormaps:
        raise Refusal(f"--cmap {given.cmap}: matplotlib has no colours of that name")
    if given.log and given.min is not None and given.min <= 0:
        raise Refusal(f"--min {given.min:g}: with --log it has to be above 0")
    if given.min is not None and given.max is not None and given.min >= given.max:
        raise Refusal(f"--min {given.min:g} is not below --max {given.max:g}")
    style = {"log": given.log, "boxes": not given.no_boxes, "least": given.min, "greatest": given.max}
    return style if given.cmap is None else style | {"cmap": given.cmap}


def is_picture(path: str) -> None:
    if Path(path).suffix not in PICTURES:
        raise Refusal(f"{path}: the name ends in none of .png, .svg and .pdf")


def run(name: str, work: Callable[[], int | None], refused: int = 1) -> int:
    """Does the work, whose number is the status; a refusal is one line on standard error, and status 1 or the one given."""
    try:
        return work() or 0
    except Refusal as refusal:
        print(f"{name}: {refusal}", file=sys.stderr)
        return refused


def writing(path: str, work: Callable[[], None]) -> None:
    """Does what writes a file or a folder; a refusal where the system does not let it."""
    try:
        work()
    except OSError as fault:
        raise Refusal(f"{path}: {fault.strerror or fault}") from None
