"""Runs a scenario with the program and with the model, and says where they differ."""
import contextlib
import os
import sqlite3
import subprocess
import tempfile
import time
from collections.abc import Sequence
from pathlib import Path

from nixkeep_dev.testing.pieces import unread
from nixkeep_dev.testing.tables import put
from . import tables
from .commands import Machine

FILE = "store.db"
SECONDS = 600
ROOM = "/dev/shm" if os.access("/dev/shm", os.W_OK) else None


class Step:
    """A command: its words, the parts of its standard input, and where this input is cut."""

    def __init__(self, words: list[str], parts: list[bytes], cuts: Sequence[int] = ()):
        self.words, self.parts, self.cuts = words, parts, cuts

    def input(self) -> bytes:
        return b"".join(self.parts)


class Scenario:
    """The text of each configuration, the rows of the database, and the steps.

    Rows of no table are no file; None is a file that is no database."""

    def __init__(self, configs: dict[str, bytes], rows: dict[str, set] | None, steps: list[Step]):
        self.configs, self.rows, self.steps = configs, rows, steps

    def machine(self) -> Machine:
        """The model before the first step."""
        return Machine(self.configs, {} if self.rows == {} else {FILE: tables.Database(self.rows)})


def make_file(path, rows):
    """Writes a database file with these rows; None is a file that is no database."""
    if rows is None:
        Path(path).write_bytes(b"not a database\n" * 100)
    elif rows:
        put(path, rows, "PRAGMA synchronous = OFF;" + "".join(map(tables.making, rows)))


def rows_in(path: str) -> dict[str, set]:
    """The rows of a database file, by table; where the file can't be read, its fault in place of a table."""
    if not Path(path).exists():
        return {}
    try:
        with contextlib.closing(sqlite3.connect(path)) as database:
            names = {name for (name,) in database.execute("SELECT name FROM sqlite_master WHERE type = 'table'")}
            return {name: {*database.execute(f"SELECT * FROM {name}")} for name in tables.TABLES if name in names}
    except sqlite3.DatabaseError as error:
        return {str(error): set()}


def feed(running, pieces):
    """Gives a running program each piece once it has read all before it."""
    pipe, end = running.stdin, time.monotonic() + SECONDS
    with contextlib.suppress(BrokenPipeError), pipe:
        for piece in pieces:
            pipe.write(piece)
            pipe.flush()
            while unread(pipe) and running.poll() is None and time.monotonic() < end:
                time.sleep(0.0005)


def pieces_of(step: Step) -> list[bytes]:
    data, places = step.input(), [0, *step.cuts]
    return [data[start:end] for start, end in zip(places, [*step.cuts, len(data)])]


def status_of(words, step, how):
    """Runs a command with the input of a step, and returns its status; None where it doesn't end."""
    with tempfile.TemporaryFile(dir=how["cwd"]) as given:
        if not step.cuts:
            given.write(step.input())
            given.seek(0)
        running = subprocess.Popen(words, stdin=subprocess.PIPE if step.cuts else given, **how)
        if step.cuts:
            feed(running, pieces_of(step))
        try:
            return running.wait(SECONDS)
        except subprocess.TimeoutExpired:
            running.kill()
            running.wait()
            return None


def run_step(program, room, step):
    """Standard output, standard error and status of the program."""
    with tempfile.TemporaryFile(dir=room) as output, tempfile.TemporaryFile(dir=room) as errors:
        status = status_of([program, *step.words], step, {"stdout": output, "stderr": errors, "cwd": room})
        output.seek(0)
        errors.seek(0)
        return output.read(), errors.read(), status


def is_same(wanted, came):
    """Whether the program printed what the model says; where it knows no text, any but the empty one is right."""
    has_errors = came[1] != b"" if wanted[1] is None else wanted[1] == came[1]
    return has_errors and wanted[0] == came[0] and wanted[2] == came[2]


def difference(program: str, scenario: Scenario) -> tuple | None:
    """The number of the first step that differs, what the model says and what came; None where all is the same.

    After all steps the rows of the database file are compared, as if they were a last step."""
    machine = scenario.machine()
    with tempfile.TemporaryDirectory(prefix="model-", dir=ROOM) as room:
        for name, text in scenario.configs.items():
            Path(f"{room}/{name}").write_bytes(text)
        make_file(f"{room}/{FILE}", scenario.rows)
        for at, step in enumerate(scenario.steps):
            wanted, came = machine.run(step.words, step.input()), run_step(program, room, step)
            if not is_same(wanted, came):
                return at, wanted, came
        rows = machine.databases[FILE].final_rows() if FILE in machine.databases else {}
        actual = rows if rows is None else rows_in(f"{room}/{FILE}")
        return None if actual == rows else (len(scenario.steps), rows, actual)
