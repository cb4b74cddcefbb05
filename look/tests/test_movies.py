"""Movies: the steps that are run, by a program that stands for amr, and the frames of the file."""

import subprocess
import sys
from pathlib import Path

import pytest
from conftest import LOOK
from PIL import Image

# what stands for amr: one cell's mass goes round a ring, by the number of steps. Where it keeps checkpoints it tells in the file
# `made` how many steps each run made.
PROGRAM = """#!{python}
import pathlib, sys, tomllib
text = sys.stdin.read()
words = sys.argv[1:]
if words[0] != "run" or any(word.startswith("--") and word not in {knows} for word in words):
    sys.exit(2)
steps = int(words[2]) if len(words) > 1 else tomllib.loads(text)["steps"]
if "--keep" in words:
    store = pathlib.Path("mesh.store")
    last = int(store.read_text()) if store.exists() else 0
    store.write_text(str(steps))
    with open({made!r}, "a") as made:
        print(steps - last, file=made)
    print("checkpoint", steps, file=sys.stderr)
print("amr-plot 1\\nname ring\\nstep", steps)
for k in range(steps + 1):
    print("ledger", k, "8 0 0")
print("level 0 1\\nbox 0 0 3 1")
print(*[8 if i == steps % 4 else 0 for i in range(4)])
print("0 0 0 0\\nend")
"""
PROBLEM = 'version = 1\nname = "ring"\ncells = [4, 2]\nsteps = 7 # seven\ncourant = [1, 0, 1]\n'


@pytest.fixture(params=[["--to", "--keep"], ["--to"], []], ids=["with checkpoints", "with --to", "without --to"])
def program(request, tmp_path) -> Path:
    path = tmp_path / "program"
    path.write_text(PROGRAM.format(python=sys.executable, knows=request.param, made=str(tmp_path / "made")))
    path.chmod(0o755)
    return path


def movie(*words) -> subprocess.CompletedProcess:
    return subprocess.run([sys.executable, LOOK / "amr-movie", *map(str, words)], capture_output=True)


def test_a_movie_has_a_frame_for_each_step_asked_for(program, tmp_path):
    problem = tmp_path / "ring.toml"
    problem.write_text(PROBLEM)
    path = tmp_path / "ring.gif"
    done = movie(problem, "-o", path, "--every", 3, "--amr", program)
    assert (done.returncode, done.stdout, done.stderr) == (0, b"", b"")
    with Image.open(path) as film:
        # the steps 0, 3, 6 and 7
        assert film.n_frames == 4
        assert min(film.size) > 200
    made = tmp_path / "made"
    if made.exists():
        # each run goes on from the last one's checkpoint
        assert made.read_text().split() == ["0", "3", "3", "1"]


def test_what_the_program_refuses_is_told(tmp_path):
    problem = tmp_path / "ring.toml"
    problem.write_text(PROBLEM)
    program = tmp_path / "program"
    program.write_text("#!/bin/sh\necho 'amr: problem: missing key blocks' >&2\nexit 3\n")
    program.chmod(0o755)
    done = movie(problem, "-o", tmp_path / "ring.gif", "--amr", program)
    assert (done.returncode, done.stderr) == (1, b"amr-movie: amr: problem: missing key blocks\n")


def test_a_problem_without_steps_is_refused(tmp_path):
    problem = tmp_path / "ring.toml"
    problem.write_text("version = 1\n")
    done = movie(problem, "-o", tmp_path / "ring.gif")
    assert (done.returncode, done.stderr) == (1, f"amr-movie: {problem}: no line `steps = N`\n".encode())
