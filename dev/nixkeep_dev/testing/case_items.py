"""Runs the cases of tests/cases: command lines of the program, and what each prints and ends with.

A file is run whole, once, side by side with others, and each of its steps is a test: `bin/run tests/cases/who.txt`, or
`bin/test cases who`. A step that came out otherwise prints what differs, and one that was skipped what isn't here. A
step that only prepares something for others counts if it fails, and isn't counted if it doesn't.
"""
import os
from collections.abc import Callable, Iterator
from concurrent.futures import ThreadPoolExecutor
from pathlib import Path

import pytest

from nixkeep_dev.testing import cases


class Differs(Exception):
    """A step came out otherwise than written; with what differs."""


class Case(pytest.File):
    """A file of cases."""

    def collect(self) -> Iterator[pytest.Item]:
        steps = cases.steps_of(self.path.read_text())
        if not steps:
            raise self.CollectError(f"{self.path.name}: it has no step")
        for step in steps:
            yield Step.from_parent(self, name=f"line-{step.line}", step=step)


class Step(pytest.Item):
    """A step of a file."""

    def __init__(self, *, step, **more):
        super().__init__(**more)
        self.step, self.place = step, f"{self.path.name}, line {step.line}"
        if step.only_prepares():
            self.user_properties.append(cases.PREPARES)

    def runtest(self):
        ran = self.config.pluginmanager.get_plugin(Cases.__name__).ran(self)
        for step, what in ran.skipped:
            if step.line == self.step.line:
                pytest.skip(f"{self.place}: without {what}")
        for step, why in ran.wrong:
            if step.line == self.step.line:
                raise Differs(why)

    def repr_failure(self, excinfo, style=None):
        if isinstance(excinfo.value, Differs):
            return f"{self.place}: $ {self.step.command}\n{excinfo.value}"
        return super().repr_failure(excinfo, style)

    def reportinfo(self):
        return self.path, self.step.line - 1, f"{self.path.name}, {self.name}"


class Cases:
    """A plugin of pytest that collects the files, and runs those that are chosen: they begin with the first step that
    is to run. `program` gives the program's file in a session."""

    def __init__(self, program: Callable[[pytest.Session], str]):
        self.program, self.running = program, {}
        self.pool = ThreadPoolExecutor(len(os.sched_getaffinity(0)))

    def pytest_collect_file(self, file_path: Path, parent: pytest.Collector) -> Case | None:
        is_case = file_path.suffix == ".txt" and file_path.parent == Path(cases.CASES)
        return Case.from_parent(parent, path=file_path) if is_case else None

    def ran(self, step: Step) -> cases.Ran:
        """The run of the file of a step."""
        if step.path not in self.running:
            programs, seconds = {"nixkeep": self.program(step.session)}, step.config.getoption("--seconds")
            # (a process of xdist has all steps, and runs some)
            chosen = [step] if hasattr(step.config, "workerinput") else step.session.items
            for path in dict.fromkeys(item.path for item in chosen if isinstance(item, Step)):
                self.running[path] = self.pool.submit(cases.run_case, str(path), programs, seconds)
        return self.running[step.path].result()

    def pytest_report_teststatus(self, report: pytest.TestReport) -> tuple | None:
        is_no_test = report.when == "call" and report.passed and cases.PREPARES in report.user_properties
        return ("only prepare", "", "PREPARES") if is_no_test else None

    def pytest_unconfigure(self) -> None:
        self.pool.shutdown(cancel_futures=True)
