"""A plot as VTK's overlapping AMR data set: a grid for each box, finer ones over coarser ones. The plots of several steps
are files that end in the step's number, which ParaView opens as one series in time."""

from __future__ import annotations

from pathlib import Path

from vtkmodules.util.numpy_support import numpy_to_vtk
from vtkmodules.vtkCommonCore import vtkDoubleArray, vtkStringArray
from vtkmodules.vtkCommonDataModel import VTK_XY_PLANE, vtkAMRBox, vtkAMRUtilities, vtkOverlappingAMR, vtkUniformGrid
from vtkmodules.vtkIOXML import vtkXMLUniformGridAMRWriter

from .plots import Plot


def spacing(level: int) -> tuple[float, float, float]:
    """The sides of a cell, where those of level 0 have length 1."""
    side = 1 / (1 << level)
    return (side, side, 1.0)


def grid_of(plots: list[Plot], level: int, k: int) -> vtkUniformGrid:
    """The cells of a box with two numbers each: `mass`, and `density`, the mass that a cell of level 0 has there. Where a plot names
    its species, their names end in its number."""
    side = spacing(level)[0]
    box = plots[0].levels[level].boxes[k]
    grid = vtkUniformGrid()
    grid.SetDimensions(box.width + 1, box.height + 1, 1)
    grid.SetSpacing(*spacing(level))
    grid.SetOrigin(box.x0 * side, box.y0 * side, 0.0)
    for plot in plots:
        masses = plot.levels[level].boxes[k].masses
        for name, numbers in (("mass", masses), ("density", masses * 4.0**level)):
            entries = numpy_to_vtk(numbers.ravel(), deep=True)
            entries.SetName(named(name, plot))
            grid.GetCellData().AddArray(entries)
    grid.GetCellData().SetActiveScalars(named("density", plots[0]))
    return grid


def named(name: str, plot: Plot) -> str:
    return name if plot.species is None else f"{name}_{plot.species}"


def amr_of(plots: list[Plot]) -> vtkOverlappingAMR:
    """The data set of the plots of some species. Cells under a finer level are blanked."""
    levels = plots[0].levels
    amr = vtkOverlappingAMR()
    amr.Initialize(len(levels), [len(level.boxes) for level in levels])
    amr.SetGridDescription(VTK_XY_PLANE)
    amr.SetOrigin([0.0, 0.0, 0.0])
    for level in levels:
        amr.SetSpacing(level.number, spacing(level.number))
        amr.SetRefinementRatio(level.number, 2)
        for k, box in enumerate(level.boxes):
            amr.SetAMRBox(level.number, k, vtkAMRBox([box.x0, box.y0, 0], [box.x1, box.y1, -1]))
            amr.SetDataSet(level.number, k, grid_of(plots, level.number, k))
    vtkAMRUtilities.BlankCells(amr)
    label(amr, plots[0])
    return amr


def label(amr: vtkOverlappingAMR, plot: Plot) -> None:
    """The problem's name and the step, as data of the whole set; the step is the time that ParaView shows."""
    name = vtkStringArray()
    name.SetName("name")
    name.InsertNextValue(plot.name)
    amr.GetFieldData().AddArray(name)
    for word in ("step", "TimeValue"):
        number = vtkDoubleArray()
        number.SetName(word)
        number.InsertNextValue(plot.step)
        amr.GetFieldData().AddArray(number)


def write_vtk(plots: list[Plot], folder: Path) -> Path:
    """Writes the data set of some species into a folder. The answer is the file to open."""
    folder.mkdir(parents=True, exist_ok=True)
    path = folder / f"{plots[0].name}_{plots[0].step:04}.vthb"
    writer = vtkXMLUniformGridAMRWriter()
    writer.SetInputData(amr_of(plots))
    writer.SetFileName(str(path))
    if not writer.Write():
        raise OSError(f"VTK could not write {path}")
    return path
