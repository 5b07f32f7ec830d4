"""Runs cases and tests by pytest in a small copy of this repository, and looks at what it says of each.

Each step of a case is a test that passes, one that came out otherwise fails with what differs, and one whose tools
aren't installed is skipped with the reason. A step that only prepares something isn't counted unless it fails. bin/run
does the same, also with a module of tests, and counts at its end. A part of the gate that hangs is ended, and has
failed.
"""
import os
import re
import shutil
import subprocess
import sys
from pathlib import Path

import pytest

from nixkeep_dev.build.program import HERE
from nixkeep_dev.testing import runs
from nixkeep_dev.testing.cases import steps_of

COPIED = ("bin/run", "dev", "pyproject.toml", "tests/conftest.py", "tests/__init__.py", "tests/packages.txt",
          "tests/cases/prelude.sh", "tests/cases/steps", "tests/cases/who.txt")
# A case with a step of each kind.
CASE = """One of each kind.

  $ echo as written
  as written

  $ echo otherwise
  as written

  $ without no-such-tool && echo done
  *done (glob)

  $ folder=here

  $ cd no-such-folder
"""
# A module with a test of each kind.
MODULE = """import pytest


def test_as_written():
    assert 1 + 1 == 2


def test_otherwise():
    assert 1 + 1 == 3


@pytest.fixture
def broken():
    raise ValueError


def test_without_what_it_needs(broken):
    pass


@pytest.mark.needs("no-such-tool")
@pytest.mark.parametrize("twice", range(2))
def test_with_a_tool(twice):
    pass
"""
# One with examples, at some of many places, and one that ends the run before its last test.
EXAMPLES = """import pytest

from nixkeep_dev.testing import report


def test_places(some):
    for at in some(1000, "places"):
        report.same(f"place {at}", at, at)


def test_that_ends_the_run(request):
    if request.config.getoption("--seed") == 7:
        pytest.exit("early", 0)


def test_more():
    report.passes(2)
"""


@pytest.fixture(scope="module")
def copied(shared_folder):
    for name in COPIED:
        Path(f"{shared_folder}/{name}").parent.mkdir(parents=True, exist_ok=True)
        put = shutil.copytree if Path(f"{HERE}/{name}").is_dir() else shutil.copy2
        put(f"{HERE}/{name}", f"{shared_folder}/{name}")
    Path(f"{shared_folder}/tests/cases/kinds.txt").write_text(CASE)
    os.mkdir(f"{shared_folder}/tests/tools")
    Path(f"{shared_folder}/tests/tools/test_kinds.py").write_text(MODULE)
    os.mkdir(f"{shared_folder}/tests/compare")
    Path(f"{shared_folder}/tests/compare/examples.py").write_text(EXAMPLES)
    return shared_folder


@pytest.fixture
def ran(copied, program):
    """Runs a command in the copy: its status, and what it printed."""
    def run(*words):
        came = subprocess.run([sys.executable, "-B", *words, f"--program={program}"], cwd=copied,
                              stdin=subprocess.DEVNULL, capture_output=True, text=True)
        return came.returncode, came.stdout + came.stderr

    return run


@pytest.fixture
def pytest_ran(ran):
    return lambda *words: ran("-m", "pytest", "-q", "-p", "no:cacheprovider", *words)


def test_a_case_that_passes(pytest_ran):
    status, said = pytest_ran("tests/cases/who.txt")
    steps = steps_of(Path(f"{HERE}/tests/cases/who.txt").read_text())
    prepared = sum(step.only_prepares() for step in steps)
    assert (status, f"{len(steps) - prepared} passed, {prepared} only prepare in" in said) == (0, True), said


def test_a_step_of_each_kind(pytest_ran):
    status, said = pytest_ran("tests/cases/kinds.txt")
    assert (status, "2 failed, 1 passed, 1 skipped, 1 only prepare in" in said) == (1, True), said
    assert re.search(r"^-as written\n\+otherwise$", said, re.M), said
    assert "kinds.txt, line 9: without no-such-tool" in said and "kinds.txt, line 14: $ cd no-such-folder" in said


def test_pages_by_bin_run(ran):
    status, said = ran("bin/run", "tests/cases/kinds.txt", "tests/cases/who.txt")
    passed = sum(not step.only_prepares() for step in steps_of(Path(f"{HERE}/tests/cases/who.txt").read_text()))
    assert (status, said.splitlines()[-1]) == (1, f"{passed + 1} passed, 2 failed, 1 skipped"), said
    assert re.findall("^skipped: .*", said, re.M) == ["skipped: kinds.txt, line 9: without no-such-tool"]


def test_one_step_by_its_line(pytest_ran):
    status, said = pytest_ran("tests/cases/kinds.txt", "-k", "line-3")
    assert (status, "1 passed, 4 deselected" in said) == (0, True), said


def test_a_module_with_a_test_of_each_kind(ran):
    status, said = ran("bin/run", "tests/tools/test_kinds.py")
    assert (status, said.splitlines()[-1]) == (1, "1 passed, 2 failed, 2 skipped"), said
    assert re.findall("^skipped: .*", said, re.M) == ["skipped: needs no-such-tool (Debian: no-such-tool)"]
    assert "assert (1 + 1) == 3" in said


def test_examples_are_counted(ran):
    status, said = ran("bin/run", "tests/compare/examples.py", "--count", "5")
    assert status == 0 and "test_places PASSED, 5 examples, at 5 of 1,000 places " in said, said
    assert said.splitlines()[-3:] == ["7 examples", "5 of 1,000 places tried", "3 passed, 0 failed"], said


def test_a_run_that_ends_early_has_failed(ran):
    status, said = ran("bin/run", "tests/compare/examples.py", "--seed", "7")
    last = ["the run ended before these tests did: 2", "1 passed, 2 failed"]
    assert (status, said.splitlines()[-2:]) == (1, last), said


def test_a_module_of_any_name_is_found_in_its_folder(pytest_ran):
    status, said = pytest_ran("tests/compare")
    assert (status, "3 passed" in said) == (0, True), said


def test_some_tests_of_a_module(ran):
    status, said = ran("bin/run", "tests/tools/test_kinds.py", "-k", "as_written")
    assert (status, said.splitlines()[-1]) == (0, "1 passed, 0 failed"), said
    status, said = ran("bin/run", "tests/tools/test_kinds.py", "-k", "no_such_name")
    assert (status != 0, said.splitlines()[-1]) == (True, "0 passed, 0 failed"), said


@pytest.mark.parametrize("words", ["sleep 100", "setsid sleep 100 & echo '5 passed, 0 failed'"])
def test_a_part_that_hangs_is_ended_and_has_failed(words):
    ran = runs.run(["sh", "-c", words], is_shown=False, limit=0.02)
    assert (ran.is_good(), ran.failed, ran.minutes < 1) == (False, 1, True), ran.output
    assert ran.output.endswith("it hangs: it was ended after 0.02 minutes\n")
