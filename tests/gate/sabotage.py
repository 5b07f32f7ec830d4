"""Plants faults, one at a time, and has the part of the tests that is named for each notice it.

tests/sabotage/faults.txt is the table. A fault of a file is put into a copy of the repository, and one of the program
into a copy of the program, or around it by a library that is loaded ahead of C's (tests/sabotage/ahead.c). The part
runs there, alone; it has noticed the fault if it fails, or if it takes 15 minutes and five times as long as without a
fault, and hasn't ended. Each part runs without a fault too, and has to pass then; a part that fails there is run once
more, since a machine may be busy, and a line says so. What is excused in the table has a reason there, and must not be
noticed: an excuse ends with its reason. `-k NAME` plants those whose name or part has NAME. It needs cc, git and what
the parts need.

With --today it tries those of a day, by --seed: each fault has one of eight days, so all are tried within eight days.
The days take about as long as one another, by the processor seconds of parts in tests/sabotage/costs.txt, where one
that isn't there counts as 20. With --minutes no further one is planted once these processor minutes are spent: what is
left out counts as skipped. Each eight days begin with other faults than the eight days before. --jobs says how many are
planted at a time.
"""
from concurrent.futures import ThreadPoolExecutor

import pytest

from nixkeep_dev.testing import days, report, sabotage, sabotage_runs


def chosen(option):
    """All faults, or those of the day."""
    day = days.of_seed(option("--seed"))
    return days.in_turn(sabotage.of_day(day), day) if option("--today") else sabotage.table()


def pytest_generate_tests(metafunc):
    faults = chosen(metafunc.config.getoption)
    metafunc.parametrize("fault", faults, ids=[f"{fault.name} ({' '.join(fault.part)})" for fault in faults])


@pytest.fixture(scope="module")
def runs(request, program, shared_folder, bound):
    """By the name of each fault that is planted its run, and the one of its part without a fault."""
    report.needs("cc", "git")
    faults = [item.callspec.params["fault"] for item in request.session.items if item.path == request.path]
    with ThreadPoolExecutor(request.config.getoption("--jobs") or 2) as pool:
        yield sabotage_runs.begun(pool, faults, sabotage.Copies(shared_folder), program, bound)
        pool.shutdown(cancel_futures=True)


def test_noticed(fault, runs, bound):
    with_fault, without = (running.result() for running in runs[fault.name])
    if not with_fault:
        pytest.skip(f"planted faults of the day, since {bound.minutes:g} processor minutes are spent")
    took = f"{with_fault.seconds:.0f} s"
    assert without.status == 0, f"the part fails without a fault:\n{without.last()}"
    if without.is_empty():
        pytest.skip(f"{fault.name}: its part tries nothing here")
    if fault.excused:
        assert with_fault.status == 0, f"it is noticed in {took}, and excused in the table: {fault.excused}"
    else:
        assert with_fault.status != 0, f"NOT NOTICED in {took}:\n{with_fault.last()}"
