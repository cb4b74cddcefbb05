"""The VTK data set, written, and read back by VTK."""

import subprocess
import sys

import pytest
from conftest import LOOK, TWO

from amr_look import parse_plots, read_plot, read_plots

pytest.importorskip("vtkmodules.vtkIOXML")

from vtkmodules.util.numpy_support import vtk_to_numpy
from vtkmodules.vtkCommonDataModel import vtkDataSetAttributes
from vtkmodules.vtkIOXML import vtkXMLUniformGridAMRReader

from amr_look import export


def read_back(path):
    reader = vtkXMLUniformGridAMRReader()
    reader.SetFileName(str(path))
    reader.SetMaximumLevelsToReadByDefault(0)
    reader.Update()
    return reader.GetOutput()


def grids(amr):
    for level in range(amr.GetNumberOfLevels()):
        for k in range(amr.GetNumberOfDataSets(level)):
            yield level, amr.GetDataSet(level, k)


def test_vtk_reads_the_same_boxes_and_masses(plot_file, tmp_path):
    plots = read_plots(plot_file)
    amr = read_back(export.write_vtk(plots, tmp_path / "out"))
    assert amr.GetNumberOfLevels() == len(plots[0].levels)
    for plot in plots:
        read = {}
        for level, grid in grids(amr):
            side = 1 / 2**level
            x0, x1, y0, y1 = (round(edge / side) for edge in grid.GetBounds()[:4])
            read[level, x0, y0, x1 - 1, y1 - 1] = vtk_to_numpy(grid.GetCellData().GetArray(export.named("mass", plot)))
        stored = {(level.number, b.x0, b.y0, b.x1, b.y1): b.masses for level in plot.levels for b in level.boxes}
        assert read.keys() == stored.keys()
        for key, masses in stored.items():
            assert read[key].tolist() == masses.ravel().tolist()


def test_each_species_has_its_arrays(tmp_path):
    (_, grid), = grids(read_back(export.write_vtk(parse_plots(TWO), tmp_path / "out")))
    assert vtk_to_numpy(grid.GetCellData().GetArray("mass_1")).tolist() == [0, 4, 3, 0, 0, 0, 0, 0]
    two = tmp_path / "two.plot"
    two.write_text(TWO)
    words = [sys.executable, LOOK / "amr-vtk", two, "-o", tmp_path / "one", "--species", "1"]
    assert subprocess.run(words, capture_output=True).returncode == 0
    (_, grid), = grids(read_back(tmp_path / "one" / "ring_0001.vthb"))
    assert [grid.GetCellData().GetArray(k).GetName() for k in range(2)] == ["mass_1", "density_1"]


def test_the_cells_that_vtk_shows_have_the_mass_of_the_ledger(plot_file, tmp_path):
    plot = read_plot(plot_file)
    amr = read_back(export.write_vtk([plot], tmp_path / "out"))
    total = 0
    for _, grid in grids(amr):
        masses = vtk_to_numpy(grid.GetCellData().GetArray(export.named("mass", plot)))
        ghosts = grid.GetCellData().GetArray(vtkDataSetAttributes.GhostArrayName())
        hidden = vtk_to_numpy(ghosts) & vtkDataSetAttributes.REFINEDCELL if ghosts else 0
        total += int(masses[hidden == 0].sum()) if ghosts else int(masses.sum())
    assert total == plot.ledger[-1][0]


def test_a_file_has_the_name_and_the_step(disc, tmp_path):
    fields = read_back(export.write_vtk([read_plot(disc)], tmp_path / "out")).GetFieldData()
    assert fields.GetAbstractArray("name").GetValue(0) == "disc"
    assert [fields.GetArray(word).GetValue(0) for word in ("step", "TimeValue")] == [20, 20]


def test_the_program_names_the_files_to_open(disc, tmp_path):
    start = tmp_path / "start.plot"
    start.write_text("amr-plot 1\nname disc\nstep 0\nledger 0 8 0 0\nlevel 0 1\nbox 0 0 1 0\n8 0\nend\n")
    done = subprocess.run([sys.executable, LOOK / "amr-vtk", start, disc, "-o", tmp_path / "out"], capture_output=True, text=True)
    files = "".join(f"{tmp_path / 'out' / name}\n" for name in ("disc_0000.vthb", "disc_0020.vthb"))
    assert (done.returncode, done.stdout, done.stderr) == (0, files, "")
