"""The stored plots, and the folder of the package on the path."""

import sys
from pathlib import Path

import pytest

LOOK = Path(__file__).resolve().parents[1]
sys.path.insert(0, str(LOOK))
PLOTS = LOOK / "tests" / "plots"
EXAMPLES = LOOK.parent / "examples"


def stored() -> list[Path]:
    return sorted(PLOTS.glob("*.plot")) + sorted(EXAMPLES.glob("*.plot"))


@pytest.fixture(params=stored(), ids=lambda path: path.stem)
def plot_file(request) -> Path:
    return request.param


@pytest.fixture
def disc() -> Path:
    return EXAMPLES / "3_disc.plot"


# two species of a ring, one step after the start
TWO = """amr-plot 2
name ring
step 1
ledger 0 0 8 0 0
ledger 0 1 7 0 0
ledger 1 0 8 0 0
ledger 1 1 7 0 0
level 0 1
box 0 0 3 1
species 0
4 4 0 0
0 0 0 0
species 1
0 4 3 0
0 0 0 0
end
"""
