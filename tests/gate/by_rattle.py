"""Runs the cases with the program as Rattle's own compiler builds it.

`rt ci` builds the program twice, by LLVM and by this compiler, and leaves both. They have to do the same, so each case
of tests/cases has to pass with the second one, too; its steps are examples. `-k who` runs one. Where a machine lacks
something that a step needs, the case is skipped after its other steps. Skipped where `rt ci` hasn't run.
"""
import filecmp
from pathlib import Path

import pytest

from nixkeep_dev.build import program
from nixkeep_dev.testing import report
from nixkeep_dev.testing.cases import CASES, run_case


@pytest.fixture(scope="module")
def second(left_by_ci):
    """The program of the second compiler."""
    return left_by_ci(f"{program.FILE}.by-rattle")


@pytest.fixture(scope="module")
def runs(second, side_by_side):
    return side_by_side("case", lambda case: run_case(f"{CASES}/{case}", {"nixkeep": str(second)}))


def test_each_compiler_builds_its_own(second, pytestconfig):
    if not pytestconfig.getoption("--program"):
        assert not filecmp.cmp(second, program.FILE, shallow=False), "both programs have the same bytes"


@pytest.mark.parametrize("case", sorted(path.name for path in Path(CASES).glob("*.txt")))
def test_case(runs, case):
    ran = runs[case].result()
    report.passes(ran.passed())
    if ran.wrong:
        report.fail("\n".join(f"{case}, line {step.line}: $ {step.command}\n{why}" for step, why in ran.wrong))
    if ran.skipped:
        pytest.skip("; ".join(f"{case}, line {step.line}: without {what}" for step, what in ran.skipped))
