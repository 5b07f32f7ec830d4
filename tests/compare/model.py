"""Compares the program with a model of the whole store, over random scenarios.

A scenario is a database file (or none), configurations, and command lines, some of which serve a stream of HTTP
messages. The model (nixkeep_dev.model) says what each command prints and exits with, and which rows the file has in
the end. Where something else comes, the scenario is made smaller and printed as a case in the form of
tests/README.md: what the model says, and after it what the program gave.

Hypothesis draws the scenarios, EACH by one seed, and makes one that fails smaller; the failure names the options that
draw it again. `--count` scenarios are tried (2000), and each day has its own. Not compared: the texts of usage errors
and of help (a usage error has to print something on standard error, nothing on standard output, and to exit with 2), a
server on a port, streams that fail, refused memory, and inputs of several megabytes.
"""
import functools
import os
import subprocess
import sys
from concurrent.futures import ProcessPoolExecutor
from pathlib import Path

import pytest

from nixkeep_dev.build.program import HERE
from nixkeep_dev.model import as_case, runs, worked
from nixkeep_dev.testing import report

COUNT = 2000
# How many scenarios one seed draws. The first of them are small.
EACH = 500
# Prints a digest of the scenarios of a seed.
DIGEST = """import hashlib
from nixkeep_dev.testing import drawn
made = hashlib.sha256()
rows_of = lambda tables: tables and [(name, sorted(map(repr, rows))) for name, rows in tables.items()]
show = lambda scenario: made.update(
    repr([scenario.configs, rows_of(scenario.rows), [vars(step) for step in scenario.steps]]).encode())
drawn.tries(show, drawn.scenarios(), 1, 60)
print(made.hexdigest())
"""


class Differs(Exception):
    """The program differs from the model."""


def compare(program, seed, count):
    """The case of the smallest scenario with a difference; None where there is none."""
    # (what this imports needs Hypothesis)
    from nixkeep_dev.testing import drawn

    last = []

    def check(scenario):
        if difference := runs.difference(program, scenario):
            last[:] = scenario, difference
            raise Differs

    try:
        drawn.tries(check, drawn.scenarios(), seed, count)
        return None
    except Differs:
        what = f"A scenario of --seed {seed} --count {count}"
    except drawn.Flaky:
        what = f"A scenario of --seed {seed} --count {count} differed once, and not when it was run again"
    return f"{what}:\n\n{as_case.case_text(*last)}\n{as_case.came_text(*last)}"


def test_the_model_itself():
    """The model on known values."""
    count, wrong = worked.test()
    report.passes(count - len(wrong))
    assert not wrong


@pytest.mark.needs("python3-hypothesis")
def test_a_seed(folder):
    """It draws the same scenarios in each process, whatever Python's hashes are, and leaves no file."""
    environment = {"PYTHONPATH": f"{HERE}/dev", "PYTHONDONTWRITEBYTECODE": "1", "HOME": folder}
    digest = lambda hashes: subprocess.run([sys.executable, "-c", DIGEST], cwd=folder, check=True, capture_output=True,
                                           env={**environment, "PYTHONHASHSEED": hashes}).stdout
    report.same("the digest of the same scenarios", digest("1"), digest("2"))
    report.same("the files that drawing leaves", [*Path(folder).iterdir()], [])


@pytest.mark.needs("python3-hypothesis")
def test_scenarios(program, seed, count):
    count = count or COUNT
    parts = [(seed + at, min(EACH, count - at)) for at in range(0, count, EACH)]
    with ProcessPoolExecutor(min(len(parts), len(os.sched_getaffinity(0)))) as pool:
        for wrong in pool.map(functools.partial(compare, program), *zip(*parts)):
            if wrong:
                pool.shutdown(cancel_futures=True)
                report.fail(wrong)
    report.passes(count)
