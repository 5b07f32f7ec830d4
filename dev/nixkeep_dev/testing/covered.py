"""Measures which lines of the tools in Python a test of them runs, by coverage (Debian: python3-coverage).

Each process of Python that the test starts sends its lines to a socket (measured.py), also where it ends by a signal,
or has a full disk. What a process ran that a test kills isn't counted.
"""
import collections
import contextlib
import json
import os
import re
import shutil
import socketserver
import subprocess
import threading
from collections.abc import Iterable, Iterator
from pathlib import Path

from nixkeep_dev.testing import measured, parts, report, sabotage
from nixkeep_dev.testing.runs import command, file_of, options_of, scripts

# The first line of a tool that reads nothing of its environment.
ALONE = "#!/usr/bin/python3 -ES\n"
# Where Debian has it. A Python of the same version that isn't Debian's is measured by it, too.
COVERAGE = "/usr/lib/python3/dist-packages/coverage"
# How tests/gate/coverage.txt calls the part of the lines that all tests run, and that which one runs.
OF_ALL, OF_ONE = "percent of the lines of tools", "percent that {} runs"
NO_TOOL = ("test_bench", "test_gate", "test_launcher", "test_package", "test_package_scripts", "test_release",
           "test_units")


def copied(top: str) -> str:
    """A copy of the repository in which each tool has a Python that reads its environment: else it isn't measured."""
    sabotage.base(top)
    for path in [file for file in Path(f"{top}/tools").glob("nixkeep-*") if file.read_text().startswith(ALONE)]:
        path.write_text(path.read_text().replace(ALONE, "#!/usr/bin/python3\n", 1))
    return top


class Lines(socketserver.ThreadingUnixStreamServer):
    """A socket to which processes say which lines of which files they ran."""

    daemon_threads, request_queue_size = True, 1000

    def __init__(self, place: str):
        self.by_file, self.lock = collections.defaultdict(set), threading.Lock()
        super().__init__(place, socketserver.StreamRequestHandler)

    def finish_request(self, request, _):
        with request.makefile("rb") as said, contextlib.suppress(ValueError):
            files = json.load(said)
            with self.lock:
                for file, lines in files.items():
                    self.by_file[file].update(lines)


@contextlib.contextmanager
def listening(place: str) -> Iterator[Lines]:
    with Lines(place) as lines:
        threading.Thread(target=lines.serve_forever, daemon=True).start()
        yield lines
        lines.shutdown()


def prepare(folder: str, top: str) -> dict[str, str]:
    """The environment in which each process of Python is measured."""
    os.makedirs(f"{folder}/path")
    os.symlink(COVERAGE, f"{folder}/path/coverage")
    shutil.copy(measured.__file__, f"{folder}/path/measured.py")
    begun = f"import measured\nmeasured.begin({place_in(folder)!r}, {f'{top}/tools'!r})\n"
    Path(f"{folder}/path/sitecustomize.py").write_text(begun)
    return {**os.environ, "PYTHONPATH": f"{folder}/path"}


def place_in(folder: str) -> str:
    """The socket to which processes say their lines, where the folder is that of a measurement."""
    return f"{folder}/lines"


def measured_tests() -> list[str]:
    """The names of the tests that are measured, those that take longest first."""
    tests = [f"tools/{name}" for name in scripts("tools", "test_") if name not in NO_TOOL]
    return [parts.TEAM, *sorted(
        tests, key=lambda test: parts.LONGEST.index(test) if test in parts.LONGEST else len(tests))]


def short(name: str) -> str:
    """What a user calls a test."""
    return Path(name).name.removeprefix("test_")


def of_one(name: str) -> str:
    """How tests/gate/coverage.txt calls the part of the lines that a test runs."""
    return OF_ONE.format(short(name))


class Measured:
    """A test of a copy: what it prints if it fails twice, and which lines of which files it ran."""

    def __init__(self, name: str, folder: str, top: str, given: dict):
        file = str(Path(f"{top}/tests/{name}").resolve())
        words = command([file if name == parts.TEAM else f"{file}.py", *options_of(file_of(name), given)])
        self.name, self.fault, environment = short(name), None, prepare(folder, top)
        how = {"stdin": subprocess.DEVNULL, "stdout": subprocess.PIPE, "stderr": subprocess.STDOUT, "text": True}
        with listening(place_in(folder)) as lines:
            for _ in range(2):
                ran = subprocess.run(words, env=environment, errors="replace", **how)
                self.fault = ran.returncode and f"{self.name}:\n{ran.stdout[-1500:]}"
                if not self.fault:
                    break
        self.lines = lines.by_file


def union(measured: Iterable[Measured]) -> dict[str, set[int]]:
    """The lines that any of these tests ran."""
    made = collections.defaultdict(set)
    for file, lines in (pair for one in measured for pair in one.lines.items()):
        made[file] |= lines
    return made


# Prints the report of coverage for the lines of files, which it reads.
REPORT = """import coverage, json, sys
measured = coverage.Coverage(data_file=None, config_file=False, messages=False)
measured.get_data().add_lines(json.load(sys.stdin))
measured.report()"""


def percents(lines: dict[str, set[int]], top: str) -> tuple[int, list[tuple[str, float]]]:
    """The percent of the lines that ran, of all and of each module, the least first."""
    how = {"cwd": top, "stdout": subprocess.PIPE, "stderr": subprocess.STDOUT, "text": True}
    given = json.dumps({file: sorted(of_file) for file, of_file in lines.items()})
    printed = subprocess.run(["/usr/bin/python3", "-c", REPORT], input=given, **how).stdout
    rows = re.findall(r"^(\S+) +(\d+) +(\d+) +(\d+)%", printed, re.M)
    if not rows:
        report.fail(f"coverage measured nothing: {printed[-1000:]}")
    by_file = {name: 100 * (1 - int(missed) / max(int(lines), 1)) for name, lines, missed, _ in rows}
    # (a whole number: some lines run only if something takes its time)
    return int(by_file.pop("TOTAL")), sorted(by_file.items(), key=lambda pair: pair[1])
