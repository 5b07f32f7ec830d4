"""Starts each benchmark with fewer objects, and looks whether it measures: its figures are of no interest here.

Each of bin/bench that needs no quiet machine has to end by itself and to write figures, without a traceback. What needs
the program of crates/bench is skipped unless --libraries names it. With --count N, N are chosen by the seed. The stored
figures, of which some are made worse, have to be warned of, and a machine on which all takes longer isn't.
"""
import copy
import json
import random
import subprocess
from pathlib import Path

import pytest

from nixkeep_dev.bench import compared
from nixkeep_dev.build import program as built
from nixkeep_dev.commands.bench import FIRST
from nixkeep_dev.testing import report
from nixkeep_dev.testing.runs import command, options_of

SECONDS = 1200


def pytest_generate_tests(metafunc):
    if "benchmark" in metafunc.fixturenames:
        option = metafunc.config.getoption
        count = report.count_places(option("--count"), len(FIRST), option("--seed"))
        # (all are tried in their order)
        names = FIRST if count == len(FIRST) else random.Random(option("--seed")).sample(FIRST, count)
        metafunc.parametrize("benchmark", names)


def test_a_benchmark_measures(benchmark, program, pytestconfig, folder):
    file, records = f"{built.HERE}/bench/{benchmark}.py", Path(folder, "records.json")
    libraries = pytestconfig.getoption("--libraries")
    if not libraries and options_of(file, {"libraries": ""}):
        pytest.skip(f"bench/{benchmark} needs the program of crates/bench")
    given = {"program": program, "libraries": libraries, "records": records}
    how = {"stdin": subprocess.DEVNULL, "stdout": subprocess.PIPE, "stderr": subprocess.STDOUT, "text": True}
    ran = subprocess.run(command([file, "--quick", *options_of(file, given)]), errors="replace", timeout=SECONDS, **how)
    assert "Traceback" not in ran.stdout and ran.returncode in (0, 1), ran.stdout[-1500:]
    assert json.loads(records.read_text()), "it has a figure"


# ---- what is said of the stored figures where some are worse

STORED = json.loads(Path(f"{built.HERE}/bench/figures.json").read_text())


@pytest.fixture
def measured():
    """The stored figures, which a test makes worse."""
    return copy.deepcopy(STORED)


@pytest.fixture
def slow(measured):
    """The times of these, each of which is three times as long."""
    times = [figure for of in measured.values() for figure in of["figures"]
             if "value" in figure and compared.is_of_machine(figure)]
    for figure in times:
        figure["value"] *= 1 / 3 if figure["unit"] in compared.RATES else 3
    return times


def ratios(measured):
    """By how much the figures that are warned of are more."""
    return sorted(line.rpartition(": ")[2].split()[0] for line in compared.warnings(measured, STORED))


def test_no_warning_of_the_same_figures(measured):
    assert ratios(measured) == []


def test_no_warning_where_all_takes_three_times_as_long(measured, slow):
    assert ratios(measured) == []


def test_no_warning_of_a_time_that_is_10_percent_more(measured, slow):
    slow[0]["value"] *= 1.1
    assert ratios(measured) == []


def test_warnings_of_others_that_are_more(measured, slow):
    slow[0]["value"] *= 1.1 * 1.4
    next(figure for figure in slow if figure["unit"] in compared.RATES)["value"] /= 1.7
    peers = [figure for of in measured.values() for figure in of["figures"] if figure.get("ratio")]
    next(figure for figure in peers
         if figure["unit"] not in compared.RATES and "least" not in (figure["limit"] or ""))["ratio"] *= 1.3
    assert ratios(measured) == ["1.30", "1.54", "1.70"]
