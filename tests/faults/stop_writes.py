"""Stops the program at each of its writes to a file in turn, and opens what is left.

The process ends as it is about to make the k-th call that changes the database's file or its log: a write, of which
half is made or nothing, a truncation, a removal or a sync; and by itself, after the last one. What a crash may leave is
tried then: of the file and of the log, each by itself, all that was written, or only what had been synced, and of one
that is new nothing at all, where its folder hasn't been synced since. This is done for every k, for each of a list of
requests to a server over one file, for the making of the tables, for a request before which a long log is copied into
the file, and for files of the two earlier schemas that SQLite made, which are brought to the third. At its end each
server copies its log into the file, and the calls of that are tried as well. What is left has to
be opened, and be what was there before the request or after it; after, where the reply was there. Then SQLite has to
find the rows of one of the two, and no fault. Before that, SQLite alone reads a copy of what is left, and has to find
the rows of one of the two: so a change that is committed in two steps is seen also where opening the file would end
what the stop has left.

The same is done where the process goes on, and from the k-th call on every read, write, truncation, removal and sync
of the two files fails: the answer is that the disk failed, or the whole one, and then what is left is what was there
after the request. Where the first reads of all fail, by which a file is recognised as a database, it is refused
instead, and not changed. Last, the syncs of the file or of the log do nothing as a long log is copied, and what is left
has to be wrong: so a sync that the program leaves out is noticed.

With --count N, N stops and failures of each request are tried, chosen by the seed, its end, and all of each
migration. Needs cc, and SQLite 3.37 or later.
"""
import functools
import itertools
import tempfile
from pathlib import Path

import pytest

from nixkeep_dev.model.runs import ROOM, rows_in
from nixkeep_dev.testing import report
from nixkeep_dev.testing.http_messages import STATE, messages, replies, state_of
from nixkeep_dev.testing.nar import text_path
from nixkeep_dev.testing.preload import Loaded
from nixkeep_dev.testing.requests import named, some_store, text
from nixkeep_dev.testing.requests import path as path_of
from nixkeep_dev.testing.store import killed
from nixkeep_dev.testing.tables import made_by, put, sqlite

STOPPED = 77
LOG = "-wal"
FAILED, REFUSED = b"failed: disk\n", b"refused: 21 bad-schema\n"
NOTHING = {"": None, LOG: None}
# What is asked one after another: the name, the settings and the messages.
REQUESTS = [("the making of the tables", "", []), *((name, settings, [request]) for name, settings, request in named())]


def content(path):
    return Path(path).read_bytes() if Path(path).exists() else None


def lay(path, contents):
    """The file and its log have these bytes, or aren't there."""
    for more, data in contents.items():
        for file in (path + more, path + more + ".synced", path + more + ".named"):
            Path(file).unlink(missing_ok=True)
        if data is not None:
            Path(path + more).write_bytes(data)


def held(path):
    return {more: content(path + more) for more in ("", LOG)}


def left(path, before):
    """What a crash may leave of the file and its log: each as it was written, or as it was last synced. One that is new
    has no name after it, unless its folder was synced since."""
    written = held(path)
    synced = {more: before[more] if (kept := content(path + more + ".synced")) is None else kept for more in written}
    states = {more: {written[more], synced[more]} for more in written}
    for more in states:
        if before[more] is None and not Path(f"{path}{more}.named").exists():
            states[more].add(None)
    return [dict(zip(states, chosen)) for chosen in itertools.product(*states.values())]


class Tried(Loaded):
    """The program over a file of its own, with settings."""

    def __init__(self, *made):
        super().__init__(*made)
        self.path, self.spare = self.at("tried.db"), self.at("spare.db")

    def put_settings(self, text):
        self.config = self.put("settings.toml", text)

    def serve(self, requests, **where):
        words = ["--config", self.config, "--db", self.path, "serve"]
        return self.run(words, messages(requests), STOP_IN=self.path, **where)

    def state(self, contents):
        """What the store says over these bytes, and the rows that SQLite finds in the file then."""
        lay(self.path, contents)
        status, written, errors = self.serve(STATE)
        if (status, errors) != (0, b""):
            return f"it isn't opened: {errors!r}", None
        if sqlite(self.path, "PRAGMA integrity_check;") != "ok\n":
            return "SQLite finds a fault", None
        return state_of(written), rows_in(self.path)

    def spare_rows(self, contents):
        """The rows that SQLite alone finds in these bytes, or its error."""
        lay(self.spare, contents)
        return rows_in(self.spare)

    def fault(self, requests, before, at, wanted=STOPPED, **where):
        """What is wrong with a stop at this call, or with an end of this status; or None."""
        lay(self.path, before)
        status, written, errors = self.serve(requests, STOP_AT=at, **where)
        if status != wanted:
            return f"status {status}, {errors!r}"
        return self.wrong_in(before, bool(requests) and len(replies(written)[0]) == len(requests))

    def failure(self, requests, before, at):
        """What is wrong with a run whose files fail from this call on; or None."""
        lay(self.path, before)
        status, written, errors = self.serve(requests, STOP_AT=at, STOP_FAILS=1)
        if (status, written, errors) == (3, b"", REFUSED):
            # (an empty log may be there)
            is_changed = any((data or b"") != (before[more] or b"") for more, data in held(self.path).items())
            return "a file that is refused is changed" if is_changed else None
        # (if nothing is asked, an end without a failure says that the tables are made)
        is_done = written == self.written and (bool(requests) or status == 0)
        is_told = written.endswith(b"\r\n\r\n" + FAILED) and len(replies(written)[0]) == len(requests)
        if (status, written, errors) != (1, b"", FAILED) and (status or errors or not (is_done or is_told)):
            return f"status {status}, {written!r}, {errors!r}"
        return self.wrong_in(before, is_done)

    def wrong_in(self, before, is_done):
        """What is wrong with what a crash may have left of the files, after a request that was answered or wasn't; or
        None."""
        for files in left(self.path, before):
            if self.rows and self.spare_rows(files) not in self.rows[is_done:]:
                return "SQLite finds rows that are neither those before nor those after"
            state = self.state(files)
            if state not in ([self.after] if is_done else [self.was, self.after]):
                return f"neither what was there before nor what is after: {state}"[:600]
        return None

    def serve_whole(self, what, requests, before, was):
        """Keeps what a server that isn't stopped answers and leaves, over these bytes; returns how many of its calls
        can fail."""
        lay(self.path, before)
        self.serve(requests, STOP_FAILS=1)
        calls = self.counted()[0]
        lay(self.path, before)
        self.written = self.serve(requests)[1]
        self.total, after = self.counted()[0], held(self.path)
        self.was, self.after = was, self.state(after)
        # (a file that is being made is no database yet)
        self.rows = [self.spare_rows(state) for state in (before, after)] if before[""] is not None else []
        if isinstance(self.after[0], str):
            report.fail(f"{what}: {self.after[0]}")
        self.was = self.was or self.after
        return calls

    def stop_each(self, what, requests, before, was, some=None):
        """Each stop of a server that is asked this, over these bytes, or some."""
        calls, some = self.serve_whole(what, requests, before, was), some or self.some
        for torn in (False, True):
            for at in some(self.total, what, torn):
                why = self.fault(requests, before, at, **({"STOP_TORN": 1} if torn else {}))
                report.right(f"{what}: stopped at call {at}{', half of which is made' if torn else ''}", why)
        report.right(f"{what}: a crash after the last call", self.fault(requests, before, self.total + 1, 0))
        for at in some(calls, what, "failures"):
            report.right(f"{what}: files that fail from call {at} on", self.failure(requests, before, at))


@pytest.fixture(scope="module")
def tried(program, some):
    # (what a crash leaves is put together of what the program wrote and synced, so no disk has to sync)
    with tempfile.TemporaryDirectory(dir=ROOM) as folder:
        yield Tried(program, folder, "tests/faults/stop_writes.c", some)


@pytest.fixture(scope="module")
def before_each(tried):
    """The bytes and the state that each request finds."""
    states, before, was = [], NOTHING, None
    for _, settings, requests in REQUESTS:
        states.append((before, was))
        tried.put_settings(settings)
        lay(tried.path, before)
        tried.serve(requests)
        before = held(tried.path)
        was = tried.state(before)
    return states


@pytest.mark.parametrize("number", range(len(REQUESTS)), ids=lambda number: f"{number} {REQUESTS[number][0]}")
def test_requests(tried, before_each, number):
    name, settings, requests = REQUESTS[number]
    tried.put_settings(settings)
    tried.stop_each(name, requests, *before_each[number])


def test_creation(tried):
    """A request by which a file comes into being: what is answered has to stay, so its folder has to be synced."""
    tried.put_settings("")
    requests = [("ann", "POST", "/text", text("a", b"x"))]
    tried.stop_each("a request to a file that isn't there", requests, NOTHING, tried.state(NOTHING))


def first_copy(tried, lists):
    """The first of these lists of requests within which the log is copied into the file, and the bytes before it."""
    for requests in lists:
        before = held(tried.path)
        killed(tried.file, tried.path, requests, "--config", tried.config)
        if content(tried.path) != before[""]:
            lay(tried.path, before)
            return requests, before
    report.fail("no log was copied into the file")


@pytest.fixture(scope="module")
def long_log(tried):
    """A request that finds a long log, which is copied into the file first, and begun anew; and the bytes before it."""
    tried.put_settings("")
    lay(tried.path, NOTHING)
    made, root = text_path("a", b"x"), "/root/user/ann/kept"
    # (a server that is killed leaves the object in the log, so the file alone is another store)
    killed(tried.file, tried.path, [("ann", "POST", "/text", text("a", b"x"))], "--config", tried.config)
    both = [("ann", "POST", root, path_of(made)), ("ann", "DELETE", root)]
    first_copy(tried, 100 * [16 * both])
    return first_copy(tried, [[request] for request in 20 * both])


def test_copies(tried, long_log):
    requests, before = long_log
    tried.stop_each("a request that finds a long log", requests, before, tried.state(before))


@pytest.mark.parametrize("lost", ["", LOG], ids=["file", "log"])
def test_copies_without_a_sync(tried, long_log, lost):
    """What is left is wrong then, and that is noticed."""
    requests, before = long_log
    tried.serve_whole("a request that finds a long log", requests, before, tried.state(before))
    is_noticed = tried.fault(requests, before, tried.total + 1, 0, LOST=tried.path + lost)
    report.right(f"a lost sync of the {'log' if lost else 'file'}", None if is_noticed else "it isn't noticed")


@pytest.mark.parametrize("schema", [1, 2])
def test_migrations(tried, seed, schema):
    """All stops, whatever the count: they are few, and each file is opened in this way once."""
    tried.put_settings("")
    built, path = some_store(schema), tried.at(f"schema{schema}.db")
    put(path, built.rows(schema), made_by(schema))
    every = functools.partial(report.some, seed, None)
    tried.stop_each(f"a file of schema {schema}", [], {"": content(path), LOG: None}, None, every)
    if tried.after[1] != built.rows():
        report.fail(f"a file of schema {schema} was brought to other rows")
