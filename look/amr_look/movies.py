"""A run as a movie: the plots of some of its steps, each drawn on the same colours."""

from __future__ import annotations

import re
import subprocess
import sys
import tempfile
import tomllib
from collections.abc import Iterator
from dataclasses import replace
from pathlib import Path

import numpy
from matplotlib import pyplot
from matplotlib.backends.backend_agg import FigureCanvasAgg
from PIL import Image

from .pictures import Style, draw
from .plots import Plot, PlotFault, finest_masses, parse_plots
from .words import Refusal, of_species

PROGRAM = Path(__file__).resolve().parents[2] / "amr"
STEPS = re.compile(r"^[ \t]*steps[ \t]*=[ \t]*[0-9_]+", re.MULTILINE)
# what the program says of words that are none of its own, and of a store that it can't keep the run in
USAGE, STORE = 2, 7
# a checkpoint at the step that a run goes to, and at no other of a movie's
AT_ITS_END = "4096"


def steps_of(path: Path) -> tuple[str, int]:
    """The text of a problem, and how many steps it has."""
    try:
        text = path.read_text()
        steps = tomllib.loads(text).get("steps")
    except OSError as fault:
        raise Refusal(f"{path}: {fault.strerror}") from None
    except (UnicodeDecodeError, tomllib.TOMLDecodeError) as fault:
        raise Refusal(f"{path}: {fault}") from None
    if not isinstance(steps, int) or isinstance(steps, bool) or steps < 0 or not STEPS.search(text):
        raise Refusal(f"{path}: no line `steps = N`")
    return text, steps


def plots_after(program: str, text: str, words: list[str], folder: str | None = None) -> list[Plot] | None:
    """The plot of each species that the program writes, run in a folder; None where it takes no such words."""
    try:
        done = subprocess.run([program, "run", *words], input=text.encode(), capture_output=True, cwd=folder)
    except OSError as fault:
        raise Refusal(f"{program}: {fault.strerror}") from None
    if done.returncode in (USAGE, STORE) and words:
        return None
    if done.returncode:
        said = done.stderr.decode(errors="replace").strip().splitlines()
        raise Refusal(said[-1] if said else f"{program}: status {done.returncode}")
    try:
        return parse_plots(done.stdout.decode("latin-1"))
    except PlotFault as fault:
        raise Refusal(f"{program}: {fault}") from None


def plots_of_step(program: str, text: str, k: int, folder: str) -> list[Plot] | None:
    """The plot of each species after a step.

    The run goes on from the checkpoint of the last one, in the store of a folder, where the program keeps checkpoints of it. Else it
    starts anew, by `--to` where the program has it. Else it is that of the problem with fewer steps, which is the same state,
    since nothing of a step depends on how many follow it.
    """
    to = ["--to", str(k)]
    return (
        plots_after(program, text, [*to, "--keep", AT_ITS_END], folder)
        or plots_after(program, text, to)
        or plots_after(program, STEPS.sub(f"steps = {k}", text, count=1), [])
    )


def plots_of_run(program: str, path: Path, every: int, species: int = 0) -> list[Plot]:
    """A species' plots of the steps 0, `every`, twice `every` and so on, and of the last step. Each is a run of its own."""
    text, steps = steps_of(path)
    if "/" in program:
        program = str(Path(program).resolve())
    wanted = sorted({*range(0, steps + 1, every), steps})
    plots = []
    with tempfile.TemporaryDirectory() as folder:
        for k in progress(wanted):
            found = plots_of_step(program, text, k, folder)
            if found is None or found[0].step != k:
                raise Refusal(f"{program}: no plot of step {k}")
            plots.append(of_species(found, species))
    return plots


def progress(wanted: list[int]) -> Iterator[int]:
    """The numbers one after another, with a bar on standard error where that is a terminal."""
    shown = sys.stderr.isatty()
    for done, k in enumerate(wanted):
        if shown:
            full = 40 * done // len(wanted)
            print(f"\rstep {k} [{'#' * full}{'.' * (40 - full)}]", end="", file=sys.stderr, flush=True)
        yield k
    if shown:
        print("\r" + " " * 60 + "\r", end="", file=sys.stderr, flush=True)


def save(plots: list[Plot], path: str, style: Style) -> None:
    """Draws the plots into a GIF, eight of them a second, on one scale that has the greatest mass of all."""
    if style.greatest is None:
        style = replace(style, greatest=max(max(int(finest_masses(plot).max()) for plot in plots), 1))
    frames = [frame(plot, style) for plot in plots]
    size = (max(f.width for f in frames), max(f.height for f in frames))
    padded = [f if f.size == size else f.resize(size) for f in frames]
    padded[0].save(path, format="GIF", save_all=True, append_images=padded[1:], duration=125, loop=0)


def frame(plot: Plot, style: Style) -> Image.Image:
    figure = draw(plot, style)
    try:
        figure.set_dpi(80)
        canvas = FigureCanvasAgg(figure)
        canvas.draw()
        return Image.fromarray(numpy.asarray(canvas.buffer_rgba())).convert("RGB").quantize(128)
    finally:
        pyplot.close(figure)
