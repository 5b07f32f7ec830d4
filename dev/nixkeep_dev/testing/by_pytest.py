"""Modules of tests and cases, which pytest runs, next to scripts: bin/run starts both, and what each prints at its end
is the same.

A module with a function `test_..` is one of pytest, and so are the cases. tests/conftest.py has the options and the
fixtures. The words after the module are those of pytest, as `-k said`.
"""
import ast
import collections
import re
import textwrap
from pathlib import Path

from nixkeep_dev.testing import report
from nixkeep_dev.testing.cases import PREPARES

OPTIONS = """usage: bin/run {name} [WORD OF PYTEST..] [--program FILE] [--seed N] [--count N]

  -k NAME          the tests whose names have this in them; else all
  --program FILE   the program; else the one that bin/nixkeep runs
  --seed N         what chance begins with; else the day
  --count N        how much is tried; else as much as each test says
"""
# What is skipped comes at the end. Each test of a module is a line, and so is each file of cases.
SHOWN = ["--no-header", "-rfE", "-p", "no:cacheprovider"]


class Counts:
    """A plugin of pytest that counts tests, and keeps why some were skipped, which are left, and the seed where a test
    has asked for it."""

    def __init__(self):
        self.passed, self.failed, self.skipped, self.left = 0, set(), collections.Counter(), set()
        self.examples = self.tried = self.places = 0
        self.seed = None

    def pytest_fixture_setup(self, fixturedef, request):
        if fixturedef.argname == "seed":
            self.seed = request.config.getoption("--seed")

    def pytest_collection_finish(self, session):
        self.left = {item.nodeid for item in session.items}

    def pytest_runtest_logreport(self, report):
        if report.when == "teardown":
            self.left.discard(report.nodeid)
        _, *came = report.came
        self.examples, self.tried, self.places = map(sum, zip((self.examples, self.tried, self.places), came))
        self.pytest_collectreport(report)
        if report.passed and report.when == "call":
            self.passed += PREPARES not in report.user_properties

    def pytest_collectreport(self, report):
        if report.failed:
            self.failed.add(report.nodeid)
        elif report.skipped:
            self.skipped[report.longrepr[2].removeprefix("Skipped: ")] += 1

    def tell(self) -> None:
        """Prints the seed, what was skipped and why, how many examples were tried, and the last line."""
        if report.chosen_by is not None:
            self.seed = report.chosen_by
        if self.seed is not None:
            report.tell(f"chance begins with seed {self.seed}")
        for why in self.skipped:
            report.tell(f"skipped: {why}")
        if self.examples:
            report.tell(f"{self.examples:,} examples")
        if self.places:
            report.tell(f"{self.tried:,} of {self.places:,} places tried")
        if self.left and not self.failed:
            report.tell(f"the run ended before these tests did: {len(self.left)}")
            self.failed |= self.left
        report.tell(report.ending(self.passed, len(self.failed), self.skipped.total()))


def are_cases(file: str) -> bool:
    """Whether this is a page of cases, or the folder of all, here or in a copy of the repository."""
    place = Path(file).resolve()
    return (place.parent if place.suffix == ".txt" else place).parts[-2:] == ("tests", "cases")


def has_tests(file: str) -> bool:
    """Whether pytest runs this: it is of the cases, or a module of tests/ that has tests."""
    return are_cases(file) or re.search(r"^def test_", Path(file).read_text(), re.M) is not None


def help_of(file: str) -> str:
    """What a module is about, its options, and what its tests are about."""
    source = Path(__file__).with_name("case_items.py") if are_cases(file) else Path(file)
    tree = ast.parse(source.read_text())
    texts = {node.name: ast.get_docstring(node) for node in tree.body
             if isinstance(node, ast.FunctionDef) and node.name.startswith("test_")}
    tests = [textwrap.fill(f"{name}: {text}", 120, initial_indent="  ", subsequent_indent="    ")
             for name, text in texts.items() if text]
    return "\n".join([f"{ast.get_docstring(tree)}\n\n{OPTIONS.format(name=file)}", *tests])


def run(file: str, words: list) -> int:
    """Runs a module, prints what it says of its tests, and returns the status."""
    if {"-h", "--help"} & {*words}:
        report.tell(help_of(file))
        return 0
    if report.skips("python3-pytest"):
        report.tell(report.ending(0, 0, report.skipped))
        return 0
    import pytest

    counts, each = Counts(), [] if are_cases(file) else ["--verbose"]
    status = pytest.main([*SHOWN, *each, file, *words], plugins=[counts])
    counts.tell()
    return int(status or bool(counts.failed))
