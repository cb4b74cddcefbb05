"""Accuracy: the exact solutions, the problems that are run, and what is measured of a run, by a program that stands for amr."""

import subprocess
import sys
import tomllib

import numpy
import pytest
from conftest import EXAMPLES, LOOK

from amr_look import accuracy, read_plot

# what stands for amr: it gives the start of the problem back, as if nothing had moved
PROGRAM = """#!{python}
import sys, tomllib
problem = tomllib.loads(sys.stdin.read())
words = sys.argv[1:]
step = int(words[words.index("--to") + 1]) if "--to" in words else problem["steps"]
n = problem["cells"][0]
mass = [[0] * n for _ in range(n)]
for x0, y0, x1, y1, m in problem["blocks"]:
    for y in range(y0, y1 + 1):
        for x in range(x0, x1 + 1):
            mass[y][x] = m
total = sum(map(sum, mass))
print("amr-plot 1\\nname", problem["name"] + "\\nstep", step)
for k in range(step + 1):
    print("ledger", k, total, 0, 0)
print("level 0 1\\nbox 0 0", n - 1, n - 1)
for row in mass:
    print(*row)
print("end")
"""


@pytest.mark.parametrize("shape", [accuracy.DISC, accuracy.BUMP], ids=lambda it: it.name)
def test_the_exact_solution_is_the_start_moved_by_whole_cells(shape):
    start = shape.shares(64, shape.start)
    moved = numpy.roll(start, (8, 16), axis=(0, 1))
    assert numpy.allclose(shape.exact(64), moved, atol=0.02)
    assert numpy.isclose(shape.exact(64).mean(), start.mean(), atol=1e-3)


def test_the_mean_over_a_cell_is_the_mean_of_its_parts():
    fine = accuracy.BUMP.exact(128)
    assert numpy.allclose(fine.reshape(64, 2, 64, 2).mean(axis=(1, 3)), accuracy.BUMP.exact(64))


def test_each_problem_keeps_the_limits():
    for case in accuracy.cases():
        problem = tomllib.loads(case.problem())
        assert len(problem["blocks"]) <= 256 and len(problem["tag"]) == problem["max_level"]
        assert all(0 <= x0 <= x1 < case.cells and 0 <= y0 <= y1 < case.cells for x0, y0, x1, y1, _ in problem["blocks"])


def test_updates_count_each_cell_at_each_of_its_steps():
    disc = read_plot(EXAMPLES / "3_disc.plot")
    cells = [sum(box.masses.size for box in level.boxes) for level in disc.levels]
    ring = read_plot(EXAMPLES / "1_ring.plot")
    assert accuracy.updates([ring, ring]) == 0
    start = accuracy.Plot(disc.name, 18, disc.ledger, disc.levels)
    assert accuracy.updates([start, disc]) == 2 * (cells[0] + 2 * cells[1] + 4 * cells[2])


def test_each_stored_plot_is_conserved(plot_file):
    plot = read_plot(plot_file)
    assert accuracy.is_conserved(plot)
    lost = plot.ledger.copy()
    lost[-1, 0] += 1
    assert not accuracy.is_conserved(accuracy.Plot(plot.name, plot.step, lost, plot.levels))


def test_the_table_has_a_row_for_each_run(tmp_path):
    program = tmp_path / "program"
    program.write_text(PROGRAM.format(python=sys.executable))
    program.chmod(0o755)
    result = accuracy.measure(str(program), accuracy.Case(accuracy.BUMP, 64))
    # nothing moved, so the error is that of a start that stands a quarter of the side away
    start = accuracy.BUMP.shares(64, accuracy.BUMP.start)
    assert abs(result.mean - numpy.abs(start - accuracy.BUMP.exact(64)).mean()) < 1e-6
    assert result.updated == 32 * 64 * 64 and result.conserved
    (_, _, row, _, told) = accuracy.table([result]).splitlines()
    assert row.startswith("bump | 64 | 1,000,000,000 |") and row.endswith("| 131,072")
    assert told == "1 of 1 runs account for every unit of mass."


def test_the_program_tells_what_it_cannot_run(tmp_path):
    done = subprocess.run([sys.executable, LOOK / "amr-accuracy", "--amr", tmp_path / "none"], capture_output=True, text=True)
    assert (done.returncode, done.stdout) == (1, "")
    assert done.stderr == f"amr-accuracy: {tmp_path / 'none'}: No such file or directory\n"
