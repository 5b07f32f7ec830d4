"""A plugin of pytest: how many examples each test tried, and what it took of the processors, with the processes that it
started and that have ended.

An example is what `report` compares or counts for a test: one cut of a head, one refused allocation, one reply.
"""
import resource
from collections.abc import Iterator
from pathlib import Path

import pytest

from nixkeep_dev.testing import report as checks

# Tests that take less are added up.
LEAST = 1.0


def spent() -> float:
    """The processor seconds of this process, and of all that has run and ended below it."""
    used = [resource.getrusage(who) for who in (resource.RUSAGE_SELF, resource.RUSAGE_CHILDREN)]
    return sum(usage.ru_utime + usage.ru_stime for usage in used)


def so_far() -> tuple:
    """The processor seconds, the examples, and of how many places how many were tried."""
    return spent(), checks.passed, checks.tried, checks.places


class Minutes:
    """Each report has what came in its phase, so that it comes also from another process of xdist; at the end is a
    table, those first that took most."""

    def __init__(self):
        # Of each test what `so_far` has, and the seconds of the clock.
        self.since, self.came, self.clock = so_far(), {}, {}

    @pytest.hookimpl(hookwrapper=True)
    def pytest_runtest_makereport(self, item: pytest.Item) -> Iterator[None]:
        outcome = yield
        now = so_far()
        outcome.get_result().came, self.since = [total - was for total, was in zip(now, self.since)], now

    @pytest.hookimpl(tryfirst=True)
    def pytest_runtest_logreport(self, report: pytest.TestReport) -> None:
        # (that of a test in which a process of xdist has died has nothing)
        report.came = getattr(report, "came", (0, 0, 0, 0))
        before = self.came.get(report.nodeid, (0, 0, 0, 0))
        self.came[report.nodeid] = [count + was for count, was in zip(report.came, before)]
        self.clock[report.nodeid] = self.clock.get(report.nodeid, 0) + report.duration

    def pytest_report_teststatus(self, report: pytest.TestReport) -> tuple | None:
        _, examples, tried, places = self.came.get(report.nodeid, (0, 0, 0, 0))
        if report.when == "call" and report.passed and examples > 1:
            of_places = f", at {tried:,} of {places:,} places" if tried < places else ""
            return "passed", ".", f"PASSED, {examples:,} examples{of_places}"
        return None

    def pytest_terminal_summary(self, terminalreporter) -> None:
        if not self.came:
            return
        rows = []
        for node, (work, examples, *_) in self.came.items():
            file, colons, test = node.partition("::")
            rows.append((work, self.clock[node], examples, f"{Path(file).name}{colons}{test}"))
        rows.sort(reverse=True)
        longest, others = [row for row in rows if row[0] >= LEAST], [row for row in rows if row[0] < LEAST]
        if others:
            longest.append((*(sum(other[at] for other in others) for at in range(3)), f"{len(others)} others"))
        terminalreporter.section("seconds of processors, and of the clock; examples")
        for work, clock, examples, name in longest:
            terminalreporter.write_line(f"{work:8.1f} {clock:8.1f} {examples:8,}  {name}")
