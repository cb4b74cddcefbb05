"""Plots compared: each thing in which they differ is told, and the status says whether anything does."""

import subprocess
import sys

import pytest
from conftest import EXAMPLES, LOOK, TWO

from amr_look import compare, parse_plot, parse_plots, read_plot, read_plots

RING = """amr-plot 1
name ring
step 1
ledger 0 8 0 0
ledger 1 8 0 0
level 0 1
box 0 0 3 1
4 4 0 0
0 0 0 0
level 1 2
box 0 0 1 1
1 1
1 1
box 2 0 3 1
1 1
1 1
end
"""


def run(*words) -> tuple[int, str, str]:
    done = subprocess.run([sys.executable, LOOK / "amr-compare", *map(str, words)], capture_output=True, text=True)
    return done.returncode, done.stdout, done.stderr


def test_a_plot_does_not_differ_from_itself(plot_file):
    assert list(compare.differences_of_all(read_plots(plot_file), read_plots(plot_file))) == []


CHANGES = {
    "name": ("name ring", "name rang", ["name: ring and rang"]),
    "ledger": ("ledger 1 8 0 0", "ledger 1 7 0 1", ["ledger: 1 of 2 rows differ, the first of step 1: 8 0 0 and 7 0 1"]),
    "cells": ("4 4 0 0", "3 4 0 1", ["level 0: 2 of 8 cells differ, most at (0, 0) by -1, in all by +0"]),
    "fine cells": ("1 1\n1 1\nend", "1 1\n1 9\nend", ["level 1: 1 of 8 cells differ, most at (3, 1) by +8, in all by +8"]),
    "order": (
        "box 0 0 1 1\n1 1\n1 1\nbox 2 0 3 1",
        "box 2 0 3 1\n1 1\n1 1\nbox 0 0 1 1",
        ["level 1: the same boxes in another order"],
    ),
    "boxes": (
        "level 1 2\nbox 0 0 1 1\n1 1\n1 1\n",
        "level 1 1\n",
        ["level 1: 1 of the boxes is in A alone, the first (0, 0) to (1, 1)"],
    ),
}


@pytest.mark.parametrize("change", CHANGES)
def test_each_difference_is_told(change):
    old, new, told = CHANGES[change]
    assert RING.count(old) == 1
    assert list(compare.differences(parse_plot(RING), parse_plot(RING.replace(old, new)))) == told


def test_a_level_that_one_lacks_is_told():
    fewer = RING[: RING.index("level 1")] + "end\n"
    told = list(compare.differences(parse_plot(fewer), parse_plot(RING)))
    assert told == ["level 1: 2 of the boxes are in B alone, the first (0, 0) to (1, 1)"]


SPECIES_CHANGES = {
    "cells of one": ("0 4 3 0", "0 4 2 1", ["species 1, level 0: 2 of 8 cells differ, most at (2, 0) by -1, in all by +0"]),
    "the ledger of one": ("ledger 1 1 7 0 0", "ledger 1 1 6 0 1", ["species 1, ledger: 1 of 2 rows differ, the first of step 1: 7 0 0 and 6 0 1"]),
    "the name of all": ("name ring", "name rang", ["name: ring and rang"]),
}


@pytest.mark.parametrize("change", SPECIES_CHANGES)
def test_each_difference_of_species_is_told_once(change):
    old, new, told = SPECIES_CHANGES[change]
    assert TWO.count(old) == 1
    assert list(compare.differences_of_all(parse_plots(TWO), parse_plots(TWO.replace(old, new)))) == told


def test_how_many_species_there_are_is_told(tmp_path):
    assert list(compare.differences_of_all(parse_plots(RING), parse_plots(TWO)))[0] == "species: none by number and 2"
    for name, text in (("two", TWO), ("other", TWO.replace("0 4 3 0", "0 4 2 1"))):
        (tmp_path / name).write_text(text)
    two, other = tmp_path / "two", tmp_path / "other"
    assert run(two, other, "--species", 0) == (0, "no difference\n", "")
    assert run(two, other, "--species", 1)[:2] == (1, "level 0: 2 of 8 cells differ, most at (2, 0) by -1, in all by +0\n")
    assert run(two, other, "--species", 2) == (2, "", "amr-compare: no species 2: the plot has species 0 to 1\n")


def test_the_difference_on_one_grid_has_the_mass_of_the_difference():
    disc = read_plot(EXAMPLES / "3_disc.plot")
    ours, theirs = compare.on_one_grid(disc, disc)
    assert ours.shape == theirs.shape and not (ours - theirs).any()


def test_the_status_and_a_picture(tmp_path):
    disc = EXAMPLES / "3_disc.plot"
    assert run(disc, disc) == (0, "no difference\n", "")
    other = tmp_path / "other.plot"
    text = disc.read_text()
    other.write_text(text.replace("name disc", "name dosc"))
    picture = tmp_path / "difference.png"
    assert run(disc, other, "-o", picture) == (1, "name: disc and dosc\n", "")
    assert picture.stat().st_size > 10_000


def test_what_cannot_be_compared_is_one_line(tmp_path):
    disc = EXAMPLES / "3_disc.plot"
    assert run(disc, "absent") == (2, "", "amr-compare: absent: No such file or directory\n")
    assert run("-", "-") == (2, "", "amr-compare: standard input can be one of the plots alone\n")
    status, told, said = run(disc, EXAMPLES / "2_wind.plot", "-o", tmp_path / "none.png")
    assert (status, said) == (2, "amr-compare: no picture: the domains differ\n")
    assert "domain: 40 by 28 and 20 by 13 cells at level 0\n" in told
