"""The options and the fixtures of all tests: `pytest` runs all of it, and bin/run one module.

Each file of tests/cases is run once, and each of its steps is a test: `pytest tests/cases/who.txt`. What is marked
`needs("curl", ..)` is skipped where one of these isn't installed, and the summary (`-rs`) says what. With xdist,
`-n auto --dist loadfile` runs files side by side.
"""
import functools
import os
import random
import shutil
import tempfile
from collections.abc import Callable, Iterator
from concurrent.futures import ThreadPoolExecutor
from pathlib import Path

import pytest

from nixkeep_dev.build import release
from nixkeep_dev.build.program import HERE
from nixkeep_dev.sources import recorded
from nixkeep_dev.testing import case_items, cases, days, minutes, parts, report, script_items
from nixkeep_dev.testing.libraries import Libraries


def pytest_addoption(parser):
    add = parser.addoption
    add("--program", metavar="FILE", help="the program; else the one that bin/nixkeep runs")
    add("--seed", metavar="N", type=int, default=days.A_DAY * report.today(),
        help="what chance begins with; else the day")
    add("--count", metavar="N", type=int, help="how much is tried; else as much as each test says")
    add("--seconds", metavar="N", type=float, default=cases.SECONDS, help="what a page of cases may take")
    add("--libraries", metavar="FILE", help="the program of crates/bench; else what needs it is skipped")
    add("--minutes", metavar="N", type=float, default=0, help="faults/soak.py: how long at least it goes on; "
        "gate/plant.py: the time of a crate; gate/: the processor minutes within which one more is tried, if not 0")
    add("--today", action="store_true", help="gate/: what is tried on a day, by --seed")
    add("--gate", action="store_true", help="gate/wrong_bodies.py, edits.py: those that are always tried")
    add("--changed", action="store_true", help=f"gate/wrong_bodies.py: all of crates that differ from {recorded.NAME}")
    add("--record", action="store_true", help=f"gate/wrong_bodies.py: write the sums of the crates to {recorded.NAME}")
    add("--bodies", action="store_true", help="gate/edits.py: wrong bodies too, each alone")
    add("--jobs", metavar="N", type=int, help="gate/sabotage.py, coverage.py: how many at a time")
    add("--built", action="store_true", help="what `rt ci` leaves has to be there; else tests of that are skipped")
    add("--lower", action="store_true", help="gate/checks.py, plant.py: write what is lower to files of gate/")
    add("--raise", action="store_true", help="gate/checks.py, coverage.py: write what is higher to files of gate/")
    add("--write", action="store_true", help="gate/generated.py: write the pages")
    add("--root", metavar="FOLDER", help="a clean Debian that was made before, for package/clean_machine.py")


def pytest_configure(config):
    config.pluginmanager.register(minutes.Minutes())
    for plugin in (case_items.Cases, script_items.Scripts):
        config.pluginmanager.register(plugin(program_file), plugin.__name__)


def pytest_terminal_summary(terminalreporter):
    for line in report.endings:
        terminalreporter.write_line(line)


@pytest.hookimpl(tryfirst=True)
def pytest_runtest_setup(item):
    report.skip_without(*(tool for marker in item.iter_markers("needs") for tool in marker.args))


# ---- what tests are given


def program_file(session: pytest.Session) -> str:
    """The file of the program that is tried. Where there is none, nothing more is tried."""
    try:
        file = str(Path(session.config.getoption("--program") or release.ready()).absolute())
        why = None if os.access(file, os.X_OK) else f"there is no program {file}"
    except SystemExit as stopped:
        why = f"there is no program: status {stopped.code}"
    if why:
        session.shouldfail = why
        pytest.fail(why, pytrace=False)
    return file


@pytest.fixture(scope="session")
def program(request):
    return program_file(request.session)


@pytest.fixture(scope="session")
def left_by_ci(pytestconfig) -> Callable:
    """Gives the program that --program names, or a file that `rt ci` leaves: `left_by_ci(file, is_there)`. Where that
    isn't there, what needs it is skipped or, with --built, fails."""
    def left(file: str, is_there: Callable | None = None) -> Path:
        if named := pytestconfig.getoption("--program"):
            return Path(named).absolute()
        if not (is_there() if is_there else Path(file).exists()):
            missing = pytest.fail if pytestconfig.getoption("--built") else pytest.skip
            missing(f"there is no {Path(file).relative_to(HERE)} of the present sources: `rt ci` leaves it")
        return Path(file)

    return left


def names_module(config: pytest.Config) -> bool:
    """Whether a command line names a module, and not only folders or cases."""
    return any(".py" in word for word in config.args)


@pytest.fixture(scope="session")
def libraries(pytestconfig) -> Libraries:
    """The program of crates/bench: the one that is named or, for a module that is run by its name, the one that the
    toolchain proves and builds."""
    file = pytestconfig.getoption("--libraries")
    if not file and not (names_module(pytestconfig) and shutil.which("rt")):
        pytest.skip("needs the program of crates/bench, which the Rattle toolchain builds (--libraries)")
    return Libraries(file)


@pytest.fixture(scope="session")
def seed(pytestconfig) -> int:
    """What chance begins with: the last lines have it where a test asks for it."""
    return pytestconfig.getoption("--seed")


@pytest.fixture
def rng(seed) -> random.Random:
    """What chance gives, by the seed."""
    return random.Random(seed)


@pytest.fixture(scope="module")
def count(request) -> int | None:
    """How much is tried, where a command line says it. Where it names no module, as much as bin/test tries."""
    given = request.config.getoption("--count")
    return given if given is not None or names_module(request.config) else parts.count_of(request.path)


@pytest.fixture(scope="module")
def bound(pytestconfig) -> days.Bound:
    """The processor minutes within which one more of a day may begin."""
    return days.Bound(pytestconfig.getoption("--minutes") or None)


@pytest.fixture(scope="module")
def some(seed, count):
    """Chooses among places where something can go wrong, numbered from 1: `some(total, name)`. All, but for a count."""
    return functools.partial(report.some, seed, count)


@pytest.fixture
def folder():
    """A folder of a test's own, with a short path, which is gone after it."""
    with tempfile.TemporaryDirectory() as made:
        yield made


@pytest.fixture(scope="module")
def shared_folder():
    """A folder that the tests of a module share."""
    with tempfile.TemporaryDirectory() as made:
        yield made


@pytest.fixture(scope="module")
def pool() -> Iterator[ThreadPoolExecutor]:
    """As many threads as there are processors."""
    with ThreadPoolExecutor(len(os.sched_getaffinity(0))) as made:
        yield made


@pytest.fixture(scope="module")
def side_by_side(request) -> Iterator[Callable]:
    """Begins a call for each value that a parameter has in the tests of this module that are to run: what
    `side_by_side(name, call)` gives has the running call of each value, whose `result` waits for it."""
    with ThreadPoolExecutor(len(os.sched_getaffinity(0))) as pool:
        def begin(name, call):
            given = [item.callspec.params for item in request.session.items
                     if item.path == request.path and hasattr(item, "callspec")]
            return {value: pool.submit(call, value)
                    for value in dict.fromkeys(params[name] for params in given if name in params)}

        yield begin
        pool.shutdown(cancel_futures=True)
