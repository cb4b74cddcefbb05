"""The parser: each stored plot back to its own bytes, the finest masses against the ledger, and one line for each fault."""

import re

import pytest
from conftest import TWO

from amr_look import Plot, PlotFault, finest_masses, parse_plot, parse_plots, read_plot, read_plots

RING = """amr-plot 1
name ring
step 1
ledger 0 8 0 0
ledger 1 8 0 0
level 0 1
box 0 0 3 1
4 4 0 0
0 0 0 0
end
"""


def written(plots: list[Plot]) -> str:
    """The text of a plot, by docs/FORMATS.md."""
    first = plots[0]
    named = first.species is not None
    lines = [f"amr-plot {2 if named else 1}", f"name {first.name}", f"step {first.step}"]
    for k in range(first.step + 1):
        lines += [" ".join(map(str, ["ledger", k, *([plot.species] if named else []), *plot.ledger[k]])) for plot in plots]
    for level in first.levels:
        lines.append(f"level {level.number} {len(level.boxes)}")
        for number, box in enumerate(level.boxes):
            lines.append(f"box {box.x0} {box.y0} {box.x1} {box.y1}")
            for plot in plots:
                lines += [f"species {plot.species}"] if named else []
                lines += [" ".join(map(str, row)) for row in plot.levels[level.number].boxes[number].masses]
    return "\n".join(lines + ["end", ""])


def test_a_plot_is_read_exactly(plot_file):
    assert written(read_plots(plot_file)) == plot_file.read_text()


def test_two_species_are_read_exactly():
    plots = parse_plots(TWO)
    assert written(plots) == TWO
    assert [plot.species for plot in plots] == [0, 1]
    assert [plot.ledger.tolist() for plot in plots] == [[[8, 0, 0], [8, 0, 0]], [[7, 0, 0], [7, 0, 0]]]
    assert parse_plot(TWO, 1).levels[0].boxes[0].masses.tolist() == [[0, 4, 3, 0], [0, 0, 0, 0]]
    one = TWO.replace("ledger 0 1 7 0 0\n", "").replace("ledger 1 1 7 0 0\n", "").replace("species 1\n0 4 3 0\n0 0 0 0\n", "")
    assert written(parse_plots(one)) == one


def test_the_worked_ring():
    plot = parse_plot(RING)
    assert (plot.name, plot.step, plot.columns, plot.rows) == ("ring", 1, 4, 2)
    assert plot.ledger.tolist() == [[8, 0, 0], [8, 0, 0]]
    (level,) = plot.levels
    (box,) = level.boxes
    assert (box.x0, box.y0, box.x1, box.y1) == (0, 0, 3, 1)
    assert box.masses.tolist() == [[4, 4, 0, 0], [0, 0, 0, 0]]


def test_the_finest_masses_add_up_to_the_ledger(plot_file):
    for plot in read_plots(plot_file):
        cells = 4 ** (len(plot.levels) - 1)
        total = int(finest_masses(plot).sum())
        assert total % cells == 0
        assert total // cells == plot.ledger[-1][0]


def test_the_finest_mass_of_each_place_is_that_of_the_finest_box(disc):
    plot = read_plot(disc)
    shown = finest_masses(plot)
    box = plot.levels[2].boxes[0]
    assert shown[box.y0, box.x0] == 16 * box.masses[0, 0]
    covered = {(x // 2, y // 2) for b in plot.levels[1].boxes for x in range(b.x0, b.x1 + 1) for y in range(b.y0, b.y1 + 1)}
    x, y = next((x, y) for y in range(plot.rows) for x in range(plot.columns) if (x, y) not in covered)
    assert shown[4 * y, 4 * x] == plot.levels[0].boxes[0].masses[y, x]


def test_the_stored_plots_have_what_they_are_there_for():
    from conftest import stored

    plots = {path.stem: read_plot(path) for path in stored()}
    assert len(plots["3_disc"].levels) == 3 and len(plots["3_disc"].levels[2].boxes) > 1
    assert plots["open_sides"].ledger[:, 1:].any(axis=0).all()
    assert len(plots["long_name"].name) == 32
    assert (plots["strip"].columns, plots["strip"].rows) == (256, 2)
    assert len(plots["5_levels"].levels) == 5
    assert plots["7_clusters_60"].step == 0


FAULTS = {
    "another first line": (("amr-plot 1", "amr-plot 3"), 1),
    "a ledger without species": (("amr-plot 1", "amr-plot 2"), 4),
    "a name with a letter that none has": (("name ring", "name Ring"), 2),
    "a name too long": (("name ring", "name " + "a" * 33), 2),
    "a number with a leading zero": (("step 1", "step 01"), 3),
    "a number with a plus sign": (("step 1", "step +1"), 3),
    "a ledger row left out": (("ledger 0 8 0 0\n", ""), 4),
    "a ledger row short": (("ledger 1 8 0 0", "ledger 1 8 0"), 5),
    "a step more than rows": (("step 1", "step 2"), 6),
    "another level first": (("level 0 1", "level 1 1"), 6),
    "corners out of order": (("box 0 0 3 1", "box 3 0 0 1"), 7),
    "a mass too few": (("4 4 0 0", "4 4 0"), 8),
    "two spaces": (("4 4 0 0", "4  4 0 0"), 8),
    "a row too few": (("0 0 0 0\n", ""), 9),
    "a row too many": (("4 4 0 0\n", "4 4 0 0\n4 4 0 0\n"), 10),
    "a mass beyond every limit": (("4 4 0 0", f"4 {2**64} 0 0"), 8),
    "no end": (("end\n", ""), 10),
    "something behind the end": (("end\n", "end\nend\n"), 11),
    "no last newline": (("end\n", "end"), 10),
}


@pytest.mark.parametrize("fault", FAULTS)
def test_a_fault_is_told_by_its_line(fault):
    (old, new), line = FAULTS[fault]
    assert RING.count(old) >= 1
    with pytest.raises(PlotFault) as told:
        parse_plot(RING.replace(old, new, 1))
    assert told.value.line == line
    assert re.fullmatch(rf"line {line}: [^\n]+", str(told.value))


SPECIES_FAULTS = {
    "no species named": (("amr-plot 2", "amr-plot 1"), 4),
    "another species first": (("ledger 0 0 8", "ledger 0 1 8"), 4),
    "a species twice": (("ledger 0 1 7", "ledger 0 0 7"), 5),
    "a later row of one species alone": (("ledger 1 1 7 0 0\n", ""), 7),
    "a species more in a later row": (("level 0 1\n", "ledger 1 2 9 0 0\nlevel 0 1\n"), 8),
    "species in another order": (("ledger 1 0 8 0 0\nledger 1 1 7", "ledger 1 1 7 0 0\nledger 1 0 8"), 6),
    "rows without a species": (("species 0\n", ""), 10),
    "rows of another species": (("species 1\n", "species 0\n"), 13),
    "rows of a species left out": (("species 1\n0 4 3 0\n0 0 0 0\n", ""), 13),
}


@pytest.mark.parametrize("fault", SPECIES_FAULTS)
def test_a_fault_of_species_is_told_by_its_line(fault):
    (old, new), line = SPECIES_FAULTS[fault]
    assert TWO.count(old) == 1
    with pytest.raises(PlotFault) as told:
        parse_plots(TWO.replace(old, new))
    assert told.value.line == line


def test_a_plot_that_is_cut_off_anywhere_is_refused():
    for text in (RING, TWO):
        for end in range(len(text)):
            with pytest.raises(PlotFault):
                parse_plots(text[:end])


def test_bytes_that_are_no_text_are_told_by_their_line(tmp_path):
    path = tmp_path / "bytes.plot"
    path.write_bytes(RING.encode().replace(b"4 4", b"4 \xff"))
    with pytest.raises(PlotFault) as told:
        read_plot(path)
    assert told.value.line == 8
