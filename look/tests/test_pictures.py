"""Pictures: their size, that they are not blank, and the words of the program that draws them."""

import subprocess
import sys

import numpy
import pytest
from conftest import EXAMPLES, LOOK, PLOTS, TWO
from matplotlib import image, pyplot
from matplotlib.text import Text

from amr_look import parse_plots, pictures, read_plot


def look(*words: str, stdin: bytes = b"") -> subprocess.CompletedProcess:
    return subprocess.run([sys.executable, LOOK / "amr-look", *map(str, words)], input=stdin, capture_output=True)


def colours_of(path) -> int:
    pixels = image.imread(path)
    return len(numpy.unique((pixels[:, :, :3] * 255).astype(int).reshape(-1, 3), axis=0))


def test_a_picture_of_each_plot_is_not_blank(plot_file, tmp_path):
    path = tmp_path / "picture.png"
    pictures.save(read_plot(plot_file), str(path), pictures.Style())
    height, width = image.imread(path).shape[:2]
    assert 500 <= width <= 1500 and 300 <= height <= 1500
    assert colours_of(path) > 20


def test_nothing_of_a_picture_is_cut_off(plot_file):
    figure = pictures.draw(read_plot(plot_file), pictures.Style())
    try:
        figure.draw_without_rendering()
        drawn, (width, height) = figure.get_tightbbox(), figure.get_size_inches()
        assert drawn.x0 >= 0 and drawn.y0 >= 0 and drawn.x1 <= width and drawn.y1 <= height
    finally:
        pyplot.close(figure)


def texts_of(figure) -> list[str]:
    return [text.get_text() for text in figure.findobj(Text) if text.get_text()]


@pytest.mark.parametrize(
    "name, line",
    [
        ("7_clusters_60", "mass 208,000 at step 0"),
        ("3_disc", "mass 832,000 after each of 20 steps: nothing flowed in or out"),
        ("1_ring", "mass 8 after step 1: nothing flowed in or out"),
    ],
)
def test_a_ledger_in_which_nothing_changes_is_one_line(name, line):
    figure = pictures.draw(read_plot(EXAMPLES / f"{name}.plot"), pictures.Style())
    try:
        assert line in texts_of(figure)
        assert "step" not in [axes.get_xlabel() for axes in figure.axes]
    finally:
        pyplot.close(figure)


def test_the_ledger_shows_the_change_since_step_0():
    plot = read_plot(EXAMPLES / "2_wind.plot")
    figure = pictures.draw(plot, pictures.Style())
    try:
        (ledger,) = (axes for axes in figure.axes if axes.get_ylabel() == "change of mass")
        drawn = ledger.get_lines()[0].get_ydata()
        assert drawn.tolist() == (plot.ledger[:, 0] - plot.ledger[0, 0]).tolist()
        assert {"in, a step", "out, a step"} <= set(texts_of(figure))
    finally:
        pyplot.close(figure)


def test_what_did_not_flow_is_not_in_the_legend(tmp_path):
    path = tmp_path / "out.plot"
    path.write_text("amr-plot 1\nname out\nstep 1\nledger 0 8 0 0\nledger 1 5 0 3\nlevel 0 1\nbox 0 0 1 0\n5 0\nend\n")
    figure = pictures.draw(read_plot(path), pictures.Style())
    try:
        told = texts_of(figure)
        assert "out, a step" in told and "in, a step" not in told
        assert not any(it.startswith("level ") for it in told)
    finally:
        pyplot.close(figure)


def test_the_colours_are_those_of_the_finest_masses(disc):
    plot = read_plot(disc)
    figure = pictures.draw(plot, pictures.Style())
    try:
        (drawn,) = figure.axes[0].get_images()
        cells = 4 ** (len(plot.levels) - 1)
        assert int(drawn.get_array().sum()) == cells * plot.ledger[-1][0]
        assert "disc, step 20" in [text.get_text() for text in figure.findobj(Text)]
    finally:
        pyplot.close(figure)


def test_the_ends_of_the_scale_are_those_given(disc):
    figure = pictures.draw(read_plot(disc), pictures.Style(least=100, greatest=3000, cmap="magma", title="A disc"))
    try:
        (drawn,) = figure.axes[0].get_images()
        assert (drawn.norm.vmin, drawn.norm.vmax, drawn.cmap.name) == (100, 3000, "magma")
        assert "A disc" in texts_of(figure) and "disc, step 20" not in texts_of(figure)
    finally:
        pyplot.close(figure)


def test_one_level_alone_leaves_out_what_is_no_cell_of_it(disc):
    plot = read_plot(disc)
    figure = pictures.draw(plot, pictures.Style(level=1))
    try:
        (drawn,) = figure.axes[0].get_images()
        there = drawn.get_array()
        assert there.count() == sum(box.width * box.height for box in plot.levels[1].boxes)
        assert int(there.sum()) == 4 * sum(int(box.masses.sum()) for box in plot.levels[1].boxes)
    finally:
        pyplot.close(figure)


def test_means_of_squares_keep_the_mass():
    masses = numpy.ma.masked_array(numpy.arange(4096 * 512).reshape(512, 4096) % 7)
    few = pictures.averaged(masses)
    assert few.shape == (256, 2048)
    assert few.sum() * 4 == masses.sum()


@pytest.mark.parametrize("kind, first", [("png", b"\x89PNG"), ("svg", b"<?xml"), ("pdf", b"%PDF")])
def test_each_kind_of_file_from_standard_input(disc, tmp_path, kind, first):
    path = tmp_path / f"disc.{kind}"
    done = look("-o", path, stdin=disc.read_bytes())
    assert (done.returncode, done.stdout, done.stderr) == (0, b"", b"")
    assert path.read_bytes().startswith(first)


WORDS = [
    ["--level", "1"],
    ["--log"],
    ["--no-boxes"],
    ["--log", "--level", "2"],
    ["--min", "1000"],
    ["--max", "2000"],
    ["--cmap", "magma"],
    ["--title", "A disc"],
]


@pytest.mark.parametrize("words", WORDS)
def test_each_word_changes_the_picture(disc, tmp_path, words):
    plain, other = tmp_path / "plain.png", tmp_path / "other.png"
    assert look(disc, "-o", plain).returncode == 0
    assert look(disc, "-o", other, *words).returncode == 0
    assert plain.read_bytes() != other.read_bytes()


def test_a_state_without_mass_is_drawn(tmp_path):
    path = tmp_path / "empty.plot"
    path.write_text("amr-plot 1\nname nil\nstep 0\nledger 0 0 0 0\nlevel 0 1\nbox 0 0 1 1\n0 0\n0 0\nend\n")
    for words in ([], ["--log"]):
        assert look(path, "-o", tmp_path / "empty.png", *words).returncode == 0


REFUSED = {
    "cut off": (["-"], b"amr-plot 1\nname ring\n", "amr-look: standard input: line 3: the plot is cut off where `step N` should stand"),
    "absent": (["absent.plot"], b"", "amr-look: absent.plot: No such file or directory"),
    "no such colours": ([PLOTS / "strip.plot", "--cmap", "none"], b"", "amr-look: --cmap none: matplotlib has no colours of that name"),
    "no scale": ([PLOTS / "strip.plot", "--min", "9", "--max", "9"], b"", "amr-look: --min 9 is not below --max 9"),
    "no logarithm": ([PLOTS / "strip.plot", "--min", "0", "--log"], b"", "amr-look: --min 0: with --log it has to be above 0"),
    "no such level": ([PLOTS / "strip.plot", "--level", "1"], b"", "amr-look: no level 1: the plot has levels 0 to 0"),
}


@pytest.mark.parametrize("case", REFUSED)
def test_what_goes_wrong_is_one_line(case, tmp_path):
    words, stdin, line = REFUSED[case]
    done = look(*words, "-o", tmp_path / "none.png", stdin=stdin)
    assert (done.returncode, done.stdout, done.stderr.decode()) == (1, b"", line + "\n")


def test_a_kind_of_file_that_is_none_is_refused(disc):
    done = look(disc, "-o", "disc.gif")
    assert (done.returncode, done.stderr) == (1, b"amr-look: disc.gif: the name ends in none of .png, .svg and .pdf\n")


def test_one_species_is_drawn(tmp_path):
    picture = tmp_path / "picture.png"
    assert look("-o", picture, "--species", 1, stdin=TWO.encode()).returncode == 0
    figure = pictures.draw(parse_plots(TWO)[1], pictures.Style())
    try:
        assert {"ring, step 1, species 1", "mass 7 after step 1: nothing flowed in or out"} <= set(texts_of(figure))
    finally:
        pyplot.close(figure)
    done = look("-o", picture, "--species", 2, stdin=TWO.encode())
    assert (done.returncode, done.stderr) == (1, b"amr-look: no species 2: the plot has species 0 to 1\n")
    done = look("-o", picture, "--species", 1, EXAMPLES / "1_ring.plot")
    assert (done.returncode, done.stderr) == (1, b"amr-look: no species 1: the plot has species 0 alone\n")
