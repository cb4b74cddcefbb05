"""The plot of a state, read by the lines that docs/FORMATS.md names and by nothing else. A state of several species is read as
a plot of each: they have the same boxes."""

from __future__ import annotations

import re
import sys
from dataclasses import dataclass
from pathlib import Path

import numpy

NUMBERS = re.compile(r"(?:0|[1-9][0-9]*)(?: (?:0|[1-9][0-9]*))*")
NAME = re.compile(r"[a-z0-9_-]{1,32}")
GREATEST = 2**63 - 1


class PlotFault(Exception):
    """What is wrong with a plot, and in which line, counted from 1."""

    def __init__(self, line: int, what: str) -> None:
        super().__init__(f"line {line}: {what}")
        self.line = line


@dataclass(frozen=True)
class Box:
    """A box of a level, by its low and its high corner, both inside, with the mass of each cell.

    `masses[j, i]` is the mass of the cell in column `x0 + i` and row `y0 + j`.
    """

    x0: int
    y0: int
    x1: int
    y1: int
    masses: numpy.ndarray

    @property
    def width(self) -> int:
        return self.x1 - self.x0 + 1

    @property
    def height(self) -> int:
        return self.y1 - self.y0 + 1


@dataclass(frozen=True)
class Level:
    """A level: its number, from 0, and its boxes in order."""

    number: int
    boxes: list[Box]


@dataclass(frozen=True)
class Plot:
    """A species' state in a run. `ledger[k]` is the mass of level 0 after step k, and what flowed in and out in that step.
    `species` is the number of the species, from 0, where the plot names species."""

    name: str
    step: int
    ledger: numpy.ndarray
    levels: list[Level]
    species: int | None = None

    @property
    def title(self) -> str:
        """The name, the step, and the species where there is one by number."""
        return f"{self.name}, step {self.step}" + ("" if self.species is None else f", species {self.species}")

    @property
    def columns(self) -> int:
        """The columns of level 0, which is the whole domain in one box."""
        return max(box.x1 for box in self.levels[0].boxes) + 1

    @property
    def rows(self) -> int:
        """The rows of level 0."""
        return max(box.y1 for box in self.levels[0].boxes) + 1


class Lines:
    """The lines of a plot, taken one after another, each ended by a newline."""

    def __init__(self, text: str) -> None:
        parts = text.split("\n")
        self.cut = parts.pop()
        self.lines = parts
        self.taken = 0

    def take(self, wanted: str) -> str:
        if self.taken == len(self.lines):
            raise PlotFault(self.taken + 1, f"the plot is cut off where {wanted} should stand")
        self.taken += 1
        return self.lines[self.taken - 1]

    def fault(self, what: str) -> PlotFault:
        return PlotFault(self.taken, what)

    def next_is(self, head: str) -> bool:
        """Whether the next line, if there is one, begins so."""
        return self.taken < len(self.lines) and self.lines[self.taken].startswith(head)

    def number_line(self, word: str, names: str) -> list[int]:
        """The numbers of a line `WORD A B ..`, as many as there are names."""
        wanted = f"`{word} {names}`"
        line = self.take(wanted)
        head, _, rest = line.partition(" ")
        if head != word or not NUMBERS.fullmatch(rest) or rest.count(" ") != names.count(" "):
            raise self.fault(f"`{shown(line)}` is no line {wanted}")
        return [self.number(digits) for digits in rest.split(" ")]

    def number(self, digits: str) -> int:
        if len(digits) > 19 or int(digits) > GREATEST:
            raise self.fault(f"the number {shown(digits)} is greater than any that is written")
        return int(digits)

    def end(self) -> None:
        if self.taken < len(self.lines) or self.cut:
            raise PlotFault(self.taken + 1, "something stands behind `end`")


def shown(line: str) -> str:
    return line if len(line) <= 60 else line[:57] + "..."


def parse_plots(text: str) -> list[Plot]:
    """The plot of each species in a text, one where it names none; a PlotFault where the text is no plot."""
    lines = Lines(text)
    first = lines.take("`amr-plot 1`")
    if first not in ("amr-plot 1", "amr-plot 2"):
        raise lines.fault(f"`{shown(first)}` is neither `amr-plot 1` nor `amr-plot 2`")
    named = first == "amr-plot 2"
    word, _, name = lines.take("`name NAME`").partition(" ")
    if word != "name" or not NAME.fullmatch(name):
        raise lines.fault("no line `name NAME`, the name 1 to 32 of a to z, 0 to 9, - and _")
    (step,) = lines.number_line("step", "N")
    ledgers = parse_named_ledgers(lines, step) if named else [parse_ledger(lines, step)]
    levels = parse_levels(lines, len(ledgers), named)
    lines.end()
    return [Plot(name, step, ledger, levels[s], s if named else None) for s, ledger in enumerate(ledgers)]


def parse_plot(text: str, species: int = 0) -> Plot:
    """The plot of one species of a text; a PlotFault where the text is no plot."""
    return parse_plots(text)[species]


def parse_ledger(lines: Lines, step: int) -> numpy.ndarray:
    rows = []
    for k in range(step + 1):
        number, *row = lines.number_line("ledger", "K MASS IN OUT")
        if number != k:
            raise lines.fault(f"the ledger's row {number} stands where row {k} should")
        rows.append(row)
    return numpy.array(rows, dtype=numpy.int64)


def parse_named_ledgers(lines: Lines, step: int) -> list[numpy.ndarray]:
    """The ledger of each species. The rows of step 0 tell how many there are."""
    rows: list[list[list[int]]] = []
    for k in range(step + 1):
        row: list[list[int]] = []
        while lines.next_is("ledger 0 ") if k == 0 and row else len(row) < max(len(rows[0]) if rows else 0, 1):
            number, species, *entries = lines.number_line("ledger", "K S MASS IN OUT")
            if (number, species) != (k, len(row)):
                raise lines.fault(f"the ledger's row {number} of species {species} stands where row {k} of species {len(row)} should")
            row.append(entries)
        rows.append(row)
    return list(numpy.array(rows, dtype=numpy.int64).transpose(1, 0, 2))


def parse_levels(lines: Lines, species: int, named: bool) -> list[list[Level]]:
    """Of each species the levels up to `end`, of which there is at least one."""
    levels: list[list[Level]] = [[] for _ in range(species)]
    while True:
        count_so_far = len(levels[0])
        wanted = "`level L BOXES` or `end`" if count_so_far else "`level 0 BOXES`"
        line = lines.take(wanted)
        if line == "end" and count_so_far:
            return levels
        lines.taken -= 1
        number, count = lines.number_line("level", "L BOXES")
        if number != count_so_far:
            raise lines.fault(f"level {number} stands where level {count_so_far} should")
        boxes = [parse_box(lines, species, named) for _ in range(count)]
        for s, own in enumerate(levels):
            own.append(Level(number, [box[s] for box in boxes]))


def parse_box(lines: Lines, species: int, named: bool) -> list[Box]:
    """A box with the masses of each species."""
    x0, y0, x1, y1 = lines.number_line("box", "X0 Y0 X1 Y1")
    if x1 < x0 or y1 < y0:
        raise lines.fault(f"the box ({x0}, {y0}) to ({x1}, {y1}) has its corners out of order")
    boxes = []
    for s in range(species):
        if named and lines.number_line("species", "S") != [s]:
            raise lines.fault(f"another species stands where species {s} should")
        boxes.append(parse_rows(lines, x0, y0, x1, y1))
    return boxes


def parse_rows(lines: Lines, x0: int, y0: int, x1: int, y1: int) -> Box:
    rows = []
    for y in range(y0, y1 + 1):
        line = lines.take(f"row {y} of the box ({x0}, {y0}) to ({x1}, {y1})")
        if not NUMBERS.fullmatch(line):
            raise lines.fault(f"`{shown(line)}` is no row of masses")
        row = [lines.number(digits) for digits in line.split(" ")]
        if len(row) != x1 - x0 + 1:
            raise lines.fault(f"row {y} of the box ({x0}, {y0}) to ({x1}, {y1}) has {len(row)} masses, not {x1 - x0 + 1}")
        rows.append(row)
    return Box(x0, y0, x1, y1, numpy.array(rows, dtype=numpy.int64))


def read_plots(path: str | Path) -> list[Plot]:
    """The plot of each species in a file, or on standard input where the path is `-`."""
    data = sys.stdin.buffer.read() if str(path) == "-" else Path(path).read_bytes()
    # every byte stands for one character, so that a byte that no plot has is told by its line
    return parse_plots(data.decode("latin-1"))


def read_plot(path: str | Path, species: int = 0) -> Plot:
    """The plot of one species in a file."""
    return read_plots(path)[species]


def finest_masses(plot: Plot) -> numpy.ndarray:
    """The mass of the finest level at each place, on the cells of the plot's finest level.

    Entry `[y, x]` is the mass of the finest cell over that place, times `4^l` where the cell is of level `l`: the mass that a
    cell of level 0 has at that density. The sum of all entries over `4^finest` is the mass of the state.
    """
    finest = len(plot.levels) - 1
    shown = numpy.zeros((plot.rows << finest, plot.columns << finest), dtype=numpy.int64)
    for level in plot.levels:
        side = 1 << (finest - level.number)
        for box in level.boxes:
            masses = box.masses * 4**level.number
            shown[box.y0 * side : (box.y1 + 1) * side, box.x0 * side : (box.x1 + 1) * side] = masses.repeat(side, axis=0).repeat(side, axis=1)
    return shown


def level_masses(plot: Plot, number: int) -> numpy.ma.MaskedArray:
    """The masses of one level on its domain, times `4^number`; what is no cell of the level is masked."""
    shape = (plot.rows << number, plot.columns << number)
    shown = numpy.ma.masked_all(shape, dtype=numpy.int64)
    for box in plot.levels[number].boxes:
        shown[box.y0 : box.y1 + 1, box.x0 : box.x1 + 1] = box.masses * 4**number
    return shown
