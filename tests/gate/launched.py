"""Builds the program as users do, and compares its bytes with those of the program that `rt ci` has built.

In a fresh copy of the repository without a release, `bin/nixkeep` proves and builds the program from the sources. It
finds the libraries that are proved already, which are those that `rt ci` has left here, so it proves and builds the
crate `nixkeep` alone. The bytes have to be those of the program here, or of the one that --program names. Skipped where
`rt ci` hasn't run.
"""
import filecmp
import os
import shutil
import subprocess
from pathlib import Path

import pytest

from nixkeep_dev.build import program
from nixkeep_dev.testing.tracked import copy_to


@pytest.fixture(scope="module")
def file(left_by_ci):
    """The program that has to come."""
    return left_by_ci(program.FILE, program.is_built)


def put_libraries(top):
    """Puts what is kept of proved libraries into the copy: by links where that can be, since it is large, and no run
    changes such a file."""
    to = Path(top, Path(program.KEPT).relative_to(program.HERE))
    to.mkdir(parents=True)
    for kept in Path(program.KEPT).iterdir():
        if kept.name.endswith((".tar.gz", ".made-of")):
            try:
                os.link(kept, to / kept.name)
            except OSError:
                shutil.copy2(kept, to / kept.name)


@pytest.fixture(scope="module")
def launched(file, shared_folder):
    """The copy, and the run of bin/nixkeep in it."""
    top = f"{shared_folder}/nixkeep"
    copy_to(top, ["release/"])
    put_libraries(top)
    return top, subprocess.run([f"{top}/bin/nixkeep", "help"], stdin=subprocess.DEVNULL, capture_output=True, text=True)


def test_it_runs(launched):
    assert launched[1].returncode == 0, launched[1].stderr


def test_it_proves_the_program_alone(launched):
    proved = launched[1].stderr.count(" proved in ")
    assert proved == 1, f"{proved} crates are proved, and the libraries are kept here:\n{launched[1].stderr}"


def test_its_bytes(launched, file):
    made = Path(launched[0], Path(program.FILE).relative_to(program.HERE))
    assert filecmp.cmp(made, file, shallow=False), f"its bytes: {made} isn't {file}"
