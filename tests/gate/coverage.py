"""Measures which lines of the tools in Python their tests run.

Runs the tests of the tools and of the deployment, with each Python process that they start measured by coverage
(Debian: python3-coverage). Two kinds of numbers may only rise: the part of all lines that all tests run, and that which
each of them runs alone. tests/gate/coverage.txt has these, and --raise writes higher ones there. The last lines have
the part of each module that ran, the least first. Tests that fail fail here too, after a second run, since a machine
may be busy. `-k "[words]"` runs the test of that name alone, and compares its number. --jobs says how many run at once.

With --today it runs an eighth of the tests, by --seed, which is the day, so eight days try all. They take longer where
they are measured, so one that fails is skipped: it is a part of the gate itself. With --minutes none begins once these
processor minutes are spent, and what is left out is skipped.
"""
import os
from concurrent.futures import ThreadPoolExecutor

import pytest

from nixkeep_dev.testing import covered, days, report
from nixkeep_dev.testing.lowered import Raised
from nixkeep_dev.testing.runs import spent

pytestmark = pytest.mark.needs("python3-coverage")

TOGETHER = "all together"


def pytest_generate_tests(metafunc):
    option, names = metafunc.config.getoption, covered.measured_tests()
    if option("--today"):
        names = days.of_day(names, days.of_seed(option("--seed")))
    elif metafunc.function is test_lines:
        names = [*names, TOGETHER]
    metafunc.parametrize("name", names, ids=covered.short)


@pytest.fixture(scope="module")
def top(shared_folder):
    """A copy of the repository in which tools can be measured."""
    return covered.copied(f"{shared_folder}/copy")


@pytest.fixture(scope="module")
def running(request, program, seed, shared_folder, top, bound):
    """By its name each test that is to run and be measured; None comes of one that the bound leaves out."""
    option, of_module = request.config.getoption, [item for item in request.session.items if item.path == request.path]
    names = dict.fromkeys(test.callspec.params["name"] for test in of_module
                          if test.callspec.params["name"] != TOGETHER)

    def one(name):
        if not bound.leaves_out([name]):
            given = {"program": program, "seed": seed}
            return covered.Measured(name, f"{shared_folder}/{covered.short(name)}", top, given)

    with ThreadPoolExecutor(option("--jobs") or len(os.sched_getaffinity(0))) as pool:
        futures = {name: pool.submit(one, name) for name in names}
        yield futures
        pool.shutdown(cancel_futures=True)
    count = sum(bool(not future.cancelled() and future.result()) for future in futures.values())
    of_day = f", of the day by seed {seed}" if option("--today") else ""
    report.ends_with(f"{count} of {len(covered.measured_tests())} tests measured{of_day}, in {spent() / 60:.1f}"
                     " processor minutes")
    if bound.left_out and not count:
        pytest.fail("no measured tests were tried", pytrace=False)


def measured_of(running, bound, is_of_day):
    """What was measured of a test that ran. It is skipped where the bound left it out, and fails where it failed, but
    is skipped then, too, among those of a day."""
    measured = running.result()
    if not measured:
        pytest.skip(f"measured tests of the day, since {bound.minutes:g} processor minutes are spent")
    if measured.fault and is_of_day:
        pytest.skip(f"a test that fails where it is measured: {measured.name}")
    assert not measured.fault, measured.fault
    return measured


def test_passes(name, running, bound, pytestconfig):
    measured_of(running[name], bound, pytestconfig.getoption("--today"))


def test_lines(name, running, bound, top, pytestconfig):
    names = running if name == TOGETHER else [name]
    lines = covered.union(measured_of(running[test], bound, pytestconfig.getoption("--today")) for test in names)
    percent, modules = covered.percents(lines, top)
    kept, what = Raised("coverage.txt"), covered.OF_ALL if name == TOGETHER else covered.of_one(name)
    for module, part in modules if name == TOGETHER else []:
        report.ends_with(f"{part:5.1f} % of {module.removeprefix(top + '/')}")
    report.ends_with(f"{what}: {percent} %")
    assert what in kept.kept, f"{kept.name} has no line `{what}: 0`"
    if pytestconfig.getoption("--raise"):
        kept.write({what: percent})
    assert percent >= kept.kept[what], f"{kept.name}: {what}: {percent:g}, and {kept.bound.format(kept.kept[what])}"
