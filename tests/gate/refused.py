"""Runs the tests of crates/tests that are of refused memory, with each allocation refused in turn.

`rt ci` proves these tests, runs them with ample memory, and leaves their program, which `--program` may name. Here it
runs with the library of tests/faults/refuse_memory.c ahead of C's: of each test allocation 1 is refused, then
allocation 2, and so on, as many as it asks for. The test has to pass each time. Skipped where `rt ci` hasn't run; it
needs cc.
"""
import re
from pathlib import Path

import pytest

from nixkeep_dev.build import program
from nixkeep_dev.testing import report
from nixkeep_dev.testing.preload import Loaded

MODULE = "libraries/refused_memory"
SOURCE = Path(program.HERE, f"crates/tests/src/{MODULE}.rt")
FILE = Path(program.HERE, "crates/tests/out/tests_tests")


@pytest.fixture(scope="module")
def tests(left_by_ci, shared_folder, some):
    return Loaded(str(left_by_ci(FILE)), shared_folder, "tests/faults/refuse_memory.c", some)


@pytest.mark.parametrize("name", re.findall(r"^#\[test\]\nfn (\w+)\(", SOURCE.read_text(), re.M))
def test_refused(tests, name):
    call = [f"{MODULE.replace('/', '::')}::{name}"]
    report.same(f"{name} with ample memory", tests.run(call, REFUSE=0)[0], 0)
    for refused in tests.some(tests.counted()[0], name):
        status, _, said = tests.run(call, REFUSE=refused)
        report.right(f"{name}: allocation {refused} refused", status and f"status {status}: {said.decode()}")
