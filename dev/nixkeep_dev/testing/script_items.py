"""The script that tries a team's deployment, as one test of pytest: what it checks are the examples of this test."""
from collections.abc import Callable, Iterator
from pathlib import Path

import pytest

from nixkeep_dev.testing import parts, report, runs


class Script(pytest.File):
    """A script that isn't a module."""

    def collect(self) -> Iterator[pytest.Item]:
        yield Whole.from_parent(self, name="whole")


class Whole(pytest.Item):
    """All that the script does."""

    def runtest(self):
        program = self.config.pluginmanager.get_plugin(Scripts.__name__).program(self.session)
        ran = runs.run([str(self.path), "--program", program], is_shown=False)
        report.passes(ran.passed)
        if not ran.is_good() or ran.failed:
            pytest.fail("\n".join(ran.output.splitlines()[-runs.LAST:]), pytrace=False)
        if not ran.passed:
            pytest.skip("; ".join(ran.skips()) or "it tried nothing")

    def reportinfo(self):
        return self.path, 0, f"{self.path.name}"


class Scripts:
    """A plugin of pytest that collects the script. `program` gives the program's file in a session."""

    def __init__(self, program: Callable[[pytest.Session], str]):
        self.program, self.file = program, Path(runs.file_of(parts.TEAM))

    def pytest_collect_file(self, file_path: Path, parent: pytest.Collector) -> Script | None:
        return Script.from_parent(parent, path=file_path) if file_path == self.file else None
