"""Times of runs: a row for each problem, and a line where two runs write different bytes."""

import subprocess
import sys

from conftest import LOOK

PROBLEMS = LOOK.parent / "examples" / "speed"


def speed(program: str, folder, *words) -> subprocess.CompletedProcess:
    path = folder / "program"
    path.write_text(f"#!/bin/sh\n{program}\n")
    path.chmod(0o755)
    return subprocess.run([sys.executable, LOOK / "amr-speed", "--amr", path, *map(str, words)], capture_output=True, text=True)


def test_a_row_for_each_problem(tmp_path):
    done = speed("cat", tmp_path, "--rounds", 2, "--workers", "1,3")
    assert (done.returncode, done.stderr) == (0, "")
    head, _, *rows = done.stdout.splitlines()
    assert head == "| problem | 1 worker, best | median | 3 workers, best | median |"
    assert [row.split(" ")[1] for row in rows] == sorted(it.stem for it in PROBLEMS.glob("*.toml"))


def test_runs_that_differ_are_told(tmp_path):
    done = speed('echo "$3"', tmp_path, PROBLEMS / "shear.toml", "--rounds", 1)
    assert (done.returncode, done.stderr) == (1, "amr-speed: shear: runs wrote different bytes\n")


def test_a_refusal_is_one_line(tmp_path):
    done = speed("echo amr: read failed >&2; exit 4", tmp_path, "--rounds", 1)
    assert (done.returncode, done.stdout, done.stderr) == (1, "", "amr-speed: amr: read failed\n")
    assert speed("cat", tmp_path, "--workers", "two").returncode == 1
