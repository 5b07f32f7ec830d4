"""Tests nixkeep-backup on stores with roots of each kind: copies of files, through servers, and stores put back.

systemctl is a script here, which notes what it is asked.
"""
import concurrent.futures
import contextlib
import datetime
import errno
import fcntl
import functools
import itertools
import json
import os
import re
import resource
import shutil
import signal
import socket
import sqlite3
import stat
import subprocess
import time
import types
from pathlib import Path

import pytest

from nixkeep_dev.build.program import HERE
from nixkeep_dev.testing import stores
from nixkeep_dev.testing.nar import archive, hidden, nar_hash
from nixkeep_dev.testing.store import killed
from nixkeep_tools import as_owner, backup_check, backup_command, backup_fetch, backup_file, backup_folder
from nixkeep_tools import backup_restore, disk_room, http_client, objects, stopping, store_file, store_size, streams
from nixkeep_tools.failures import Stop
from tests.tools import servers
from tests.tools.servers import ran

BACKUP = f"{HERE}/tools/nixkeep-backup"
# The names of the daily copies of a year.
FIRST = datetime.datetime(2025, 1, 1, 3)
DAILY = [(FIRST + datetime.timedelta(days=at)).strftime(backup_folder.FORM) for at in range(365)]
CONFIG = """allowed-users = ["ann", "bob", "@builders"]
trusted-users = ["@builders"]

[groups]
builders = ["build"]
"""
# Names of units that are active are files in a folder; what is asked is a line of a file.
SYSTEMCTL = """#!/bin/sh
echo "$*" >>"$UNITS/notes"
for unit; do :; done
case $1 in
is-active)
  if [ -e "$UNITS/$unit" ]; then state=active; else state=inactive; fi
  [ "$2" = --quiet ] || echo $state; [ $state = active ] ;;
show) cat "$UNITS/memory" ;;
stop) rm -f "$UNITS/$unit"; while [ -e "$UNITS/held" ]; do sleep 0.1; done ;;
start) while [ -e "$UNITS/slow" ]; do sleep 0.1; done; : >"$UNITS/$unit" ;;
esac
"""


def backup(*words, env=None, most=None):
    """Runs nixkeep-backup, which writes no file above `most` KiB."""
    command = servers.limited([BACKUP, *words], most) if most else [BACKUP, *words]
    status, output, errors = ran(command, env={**os.environ, **(env or {})})
    return status, output.decode(), errors.decode()


class Store:
    """A store with roots of each kind, and nixkeep-backup on it."""

    def __init__(self, program, folder):
        self.program, self.folder, self.file, self.to = program, folder, f"{folder}/store.db", f"{folder}/copies"
        self.config, self.state = f"{folder}/store.toml", f"{folder}/state"
        Path(self.to).mkdir()
        Path(self.config).write_text(CONFIG)
        with self.opened() as ask:
            self.paths = [add(ask, f"text{at}", f"text {at}\n" * 10_000 ** (at % 2)) for at in range(6)]
            self.set_roots(ask)
        # (a server that is killed leaves a change in the log)
        request = ("ann", "POST", "/temp/ann/7", objects.lines(("path", self.paths[4])))
        killed(program, self.file, [request], "--config", self.config)

    def set_roots(self, ask):
        at = lambda number: objects.lines(("path", self.paths[number]))
        ask("build", "POST", "/root/permanent/kept", at(0))
        ask("ann", "POST", "/root/user/ann/mine", at(1))
        for number in (0, 1, 2, 3):
            ask("bob", "POST", "/profile/bob/tools", at(number))
        ask("bob", "DELETE", "/generation/bob/tools/1")
        ask("bob", "DELETE", "/generation/bob/tools/3")
        ask("build", "POST", "/runtime", objects.lines(("root", f"/proc/1/exe {self.paths[2]}")))

    @contextlib.contextmanager
    def opened(self, file=None):
        """Requests to the program on the file, or on another one."""
        child = objects.Child(self.program, file or self.file, self.config)
        store = objects.Store(child.server(objects.FilePlace("file"), {}), "build", "/nix/store", child)
        try:
            yield asker(store)
        finally:
            store.close()

    def options(self, *words):
        return [*words, "--config", self.config, "--program", self.program]

    def copy(self, *words, file=None):
        return backup(*self.options("copy"), "--db", file or self.file, "--to", self.to, *words)

    def copies(self):
        return sorted(os.listdir(self.to))

    def bytes_of_copies(self):
        return {copy: Path(self.to, copy).read_bytes() for copy in self.copies()}

    def damaged(self):
        """A copy of a copy, of which an archive isn't what it was."""
        made = Path(self.folder, "damaged.db")
        made.write_bytes(Path(self.to, self.copies()[0]).read_bytes().replace(b"text 2\n", b"text 3\n"))
        return made

    def bytes(self):
        return {name: Path(self.folder, name).read_bytes() for name in ("store.db", "store.db-wal")}


def asker(store):
    """A function that asks a store, as a user."""

    def ask(user, method, target, body=b""):
        store.server.fields = {"store-user": user}
        return store.ask(method, target, body)[1].decode("latin-1")

    return ask


def add(ask, name, text, user="ann"):
    return ask(user, "POST", "/text", objects.lines(("name", name)) + text.encode()).strip()


def all_of(ask):
    """All that a server says of its store, archives included."""
    lists = {target: ask("build", "GET", target) for target in ("/paths", "/roots", "/report", "/live", "/dead")}
    bases = [line.rpartition("/")[2] for line in lists["/paths"].splitlines()]
    objects_of = {f"{route} {base}": ask("build", "GET", f"/{route}/{base}")
                  for base in bases for route in ("info", "nar")}
    return {**lists, **objects_of}


@pytest.fixture
def store(program, folder):
    return Store(program, folder)


@pytest.fixture
def good(store):
    """The copies of the store, one, which no failure may cost."""
    store.copy()
    return store.bytes_of_copies()


def fails(came, pattern, store, good):
    """A run failed with one line, and the good copies are as they were."""
    status, output, errors = came
    assert status and not output and re.fullmatch(rf"nixkeep-backup: .*{pattern}.*\n", errors)
    assert store.bytes_of_copies() == good


# ---- copies of a file


def test_a_copy_is_the_store(store):
    before = store.bytes()
    status, output, errors = store.copy("--state", store.state)
    line = re.fullmatch(rf"{store.to}/([\dTZ-]+\.db): 6 objects, (\d+) bytes, in [\d.]+ seconds\n", output)
    assert status == 0 and line and not errors, (output, errors)
    assert store.copies() == [line[1]], "it is one file"
    assert Path(store.to, line[1]).stat().st_mode & 0o777 == 0o600, "which its owner alone reads"
    assert store.bytes() == before, "the store's files"
    state = json.loads(Path(store.state).read_text())
    assert (state["copy"], state["objects"], state["bytes"]) == (line[1], 6, int(line[2]))
    with store.opened(f"{store.to}/{line[1]}") as ask:
        of_copy = all_of(ask)
    with store.opened() as ask:
        assert of_copy == all_of(ask), "the copy answers as the store"


def test_a_failure_costs_no_copy(store, good):
    none = Path(store.folder, "none.db")
    fails(store.copy(file=none), "there is no such store", store, good)
    assert not none.exists()
    none.touch()
    fails(store.copy(file=none), "no table of a store", store, good)
    fails(store.copy(file=store.config), "failed: copy: .* is not a database", store, good)
    damaged = store.damaged()
    fails(store.copy("--state", store.state, file=damaged), "hash isn't", store, good)
    state = json.loads(Path(store.state).read_text())
    assert "hash isn't" in state["reason"] and "succeeded" not in state
    assert Path(store.state).stat().st_mode & 0o777 == 0o600, "a reason may name files"
    fails(store.copy("--state", store.folder), f"failed: state: {store.folder}: it is a folder", store, good)
    status, output, errors = store.copy("--state", f"{damaged}/state", file=damaged)
    lines = [line.removeprefix("nixkeep-backup: failed: ").partition(":")[0] for line in errors.splitlines()]
    assert (status, lines) == (1, ["state", "test"]), "a state that can't be written hides no reason"
    os.mkfifo(pipe := f"{store.folder}/pipe.db")
    fails(store.copy(file=pipe), "it is no file", store, good)
    fails(backup(*store.options("copy"), "--db", store.file, "--to", pipe), "failed: folder: .*Not a dir", store, good)
    os.symlink(f"{store.to}/{store.copies()[0]}", f"{store.folder}/log.db")
    os.mkfifo(f"{store.to}/{store.copies()[0]}-wal")
    assert backup_file.rows(f"{store.folder}/log.db")[0] == 6, "a pipe in the place of a log"
    os.unlink(f"{store.to}/{store.copies()[0]}-wal")
    with open(store.file, "r+b") as held:
        # (the bytes that SQLite and nixkeep lock)
        fcntl.lockf(held, fcntl.LOCK_EX, 512, 1 << 30)
        fails(store.copy(), "is locked by process", store, good)


def test_what_a_stopped_copy_has_left(store, good):
    """It isn't in the way, and nothing is written through a link."""
    other, new = Path(store.folder, "other"), Path(store.to, "new.db")
    other.write_bytes(b"other")
    new.symlink_to(other)
    Path(f"{new}-wal").write_bytes(b"left")
    Path(f"{new}-shm").symlink_to(store.folder)
    assert store.copy()[0] == 0
    assert other.read_bytes() == b"other", "the target of a link"
    assert all(map(backup_folder.time_of, store.copies())), "only copies are left"
    good = store.bytes_of_copies()
    new.mkdir()
    status, _, errors = store.copy()
    assert status == 1 and "is a folder, and in the way" in errors
    new.rmdir()
    opened = os.open(store.to, os.O_RDONLY)
    fcntl.flock(opened, fcntl.LOCK_EX)
    fails(store.copy(), "another copy is being made", store, good)
    os.close(opened)


def test_a_copy_leaves_room(store, monkeypatch):
    """A store on the same disk goes on: 64 MB are left (docs/OPERATING.md, A full disk)."""
    free, blocks, real, to = [1 << 20], 1, os.statvfs, f"{store.to}/new.db"
    room = lambda: types.SimpleNamespace(f_blocks=blocks, f_frsize=4096, f_bavail=free[0])
    monkeypatch.setattr(os, "statvfs", lambda path: room() if path == store.to else real(path))
    backup_file.copy(store.file, to)
    least = (os.stat(to).st_size + (64 << 20)) // 4096
    os.unlink(to)
    free[0] = least - 1
    with pytest.raises(Stop, match=f" has {4096 * free[0]} bytes left, too few: {4096 * least} are needed"):
        backup_file.copy(store.file, to)
    os.unlink(to)
    free[0] = least
    backup_file.copy(store.file, to)
    assert backup_file.rows(to)[0] == 6
    os.unlink(to)
    free[0], blocks = 0, 0
    backup_file.copy(store.file, to)


@pytest.mark.parametrize("what", ["copy", "fetch", "before-migration"])
def test_a_disk_that_fills_meanwhile(what, store, good):
    """It is a line, no copy is half there, and with room the next one is made."""
    of_schema_1(old := f"{store.folder}/old.db", bytes(100_000))
    program = servers.unstopped(store.program, store.folder)
    with servers.server(store.program, "--config", store.config, "--db", store.file) as port:
        words = {"copy": ["--db", f"{store.to}/{store.copies()[0]}", "--to", store.to],
                 "fetch": ["--server", f"http://127.0.0.1:{port}", "--to", store.to], "before-migration": ["--db", old]}
        words = [what, "--config", store.config, "--program", program, *words[what]]
        before = sorted(os.listdir(store.folder))
        fails(backup(*words, most=48), "failed: (copy: .*disk|disk)", store, good)
        assert sorted(os.listdir(store.folder)) == before
        assert backup(*words)[0] == 0


def test_a_folder_that_others_may_write(store, good):
    """Nothing is made there: what others put next to the copy could have SQLite write or delete a file of root's."""
    for mode in (0o777, 0o775, 0o1777):
        os.chmod(store.to, mode)
        fails(store.copy(), "other accounts may write there", store, good)
    os.chmod(store.to, 0o755)
    if os.geteuid() == 0:
        os.chown(store.to, 1234, 1234)
        fails(store.copy(), "other accounts may write there", store, good)
        os.chown(store.to, 0, 0)
    assert store.copy()[0] == 0


@pytest.mark.parametrize("is_read", [False, True])
def test_a_log_of_a_copy(is_read, folder, monkeypatch):
    """What is in it is brought into the file, and it stays while a reader keeps it from that."""
    other, path = f"{folder}/other.db", f"{folder}/new.db"
    rows = lambda: sqlite3.connect(path).execute("SELECT count(*) FROM t").fetchone()
    with contextlib.closing(sqlite3.connect(other)) as conn:
        conn.executescript("PRAGMA journal_mode = WAL; CREATE TABLE t (a); INSERT INTO t VALUES (1), (2);")
        for suffix in ("", "-wal"):
            shutil.copy(f"{other}{suffix}", f"{path}{suffix}")
    with contextlib.closing(sqlite3.connect(path, timeout=0)) as reader:
        if is_read:
            reader.execute("BEGIN")
            reader.execute("SELECT * FROM t").fetchall()
        # (the program that reports may leave a log)
        monkeypatch.setattr(backup_file, "ran", lambda *_: "text")
        assert backup_file.reported(path, None, "program") == "text"
        assert Path(f"{path}-wal").exists() == is_read and rows() == (2,)
    if not is_read:
        Path(f"{path}-wal").unlink(missing_ok=True)
        assert rows() == (2,)


def test_a_long_copy_is_stopped(folder, monkeypatch):
    """A time limit is met while the pages are copied."""
    large, to = f"{folder}/large.db", f"{folder}/new.db"
    with contextlib.closing(sqlite3.connect(large)) as conn, conn:
        conn.executescript("CREATE TABLE t (a); INSERT INTO t VALUES (zeroblob(60000000));")
    ring = lambda *_: (_ for _ in ()).throw(Stop("failed: time"))
    monkeypatch.setattr(disk_room, "demand", lambda *_: signal.setitimer(signal.ITIMER_REAL, 0.001))
    before = signal.signal(signal.SIGALRM, ring)
    try:
        with pytest.raises(Stop, match="^failed: time$"):
            backup_file.copy(large, to)
    finally:
        signal.setitimer(signal.ITIMER_REAL, 0)
        signal.signal(signal.SIGALRM, before)
    assert Path(to).stat().st_size < Path(large).stat().st_size


@pytest.mark.parametrize("table, wanted", [
    ({}, ("root", None)), ({"trusted-users": ["*", "ann"]}, ("root", None)),
    ({"trusted-users": ["", "a b", "@", "@b c", "@builders"]}, ("root", "builders")),
    ({"trusted-users": ["@*", "ann"]}, ("ann", None)), ({"trusted-users": []}, ("root", None)),
    ({"trusted-users": [], "allowed-users": ["a b"]}, None)])
def test_who_asks_by_a_configuration(table, wanted):
    """A user or a group that it lets connect, by a plain name."""
    with contextlib.nullcontext() if wanted else pytest.raises(Stop, match="names nobody who may connect"):
        assert backup_file.caller(table) == wanted


def test_a_new_file(folder):
    """It is its owner's, whatever the mask, and nothing that is there is taken for one."""
    before = os.umask(0)
    backup_file.create(f"{folder}/new.db")
    os.umask(before)
    assert os.stat(f"{folder}/new.db").st_mode & 0o777 == 0o600
    os.symlink("elsewhere", f"{folder}/link.db")
    for name in ("new.db", "link.db"):
        with pytest.raises(FileExistsError):
            backup_file.create(f"{folder}/{name}")
    with contextlib.suppress(sqlite3.Error):
        backup_file.open_copy(f"{folder}/gone.db").execute("CREATE TABLE t (a)")
    assert sorted(os.listdir(folder)) == ["link.db", "new.db"]


@pytest.mark.parametrize("script", ["yes | head -c 100000", "printf '\\377'", "printf '\\033[2J'"])
def test_what_a_failing_test_prints(script, capfd):
    """A line has a part of it, and nothing of it is meant for a terminal."""
    with pytest.raises(Stop, match="^failed: test: status 1: ") as stopped:
        backup_file.ran(["sh", "-c", f"{script}; exit 1"], "test")
    streams.say(stopped.value.line)
    line = capfd.readouterr().err
    assert len(line) < 400 and line.count("\n") == 1 and line[:-1].isprintable()


@pytest.mark.parametrize("report", ["", "total 6 7\n", "total 7 8\n"])
def test_a_report_that_is_not_of_the_rows(report, monkeypatch):
    monkeypatch.setattr(backup_file, "rows", lambda _: (7, 7))
    monkeypatch.setattr(backup_file, "explain", lambda *_: None)
    monkeypatch.setattr(backup_file, "reported", lambda *_: report)
    with pytest.raises(Stop, match="its rows have 7 objects of 7 bytes, its report others"):
        backup_file.test("new.db", None, "program")


@pytest.mark.parametrize("what", ["copy", "before-migration"])
def test_a_store_that_changed_while_it_was_copied(what, folder, monkeypatch):
    """No copy is kept."""
    figures = iter([(1, 1), (2, 2)])
    monkeypatch.setattr(backup_file, "rows", lambda _: next(figures))
    for name in ("explain", "test", "copy"):
        monkeypatch.setattr(backup_file, name, lambda *_: (1, 1))
    words = types.SimpleNamespace(db=f"{folder}/store.db", config=None, program="program", note=None)
    next(figures) if what == "copy" else None
    with pytest.raises(Stop, match="the store has other objects"):
        backup_command.of_file(words, f"{folder}/new.db") if what == "copy" else backup_file.keep(words, 1)


# What may be in the place of the state of the last runs.
STATES = {"nothing": lambda _: None, "half": lambda at: at.write_text("{"), "a list": lambda at: at.write_text("[]"),
          "bytes": lambda at: at.write_bytes(b"\xff"), "a pipe": os.mkfifo, "a link": lambda at: at.symlink_to("none"),
          "lists in lists": lambda at: at.write_text("[" * 60_000),
          "a terabyte": lambda at: (at.touch(), os.truncate(at, 1 << 40))}


@pytest.mark.parametrize("what", STATES)
def test_a_state(what, folder):
    """It is whole, and has what earlier runs did. What is in its place isn't waited for or written through."""
    state, other = Path(folder, "state"), Path(folder, "other")
    STATES[what](state)
    other.write_text("other")
    Path(f"{state}.new").symlink_to(other)
    backup_folder.write_state(str(state), succeeded=1)
    backup_folder.write_state(str(state), failed=2)
    assert json.loads(state.read_text()) == {"succeeded": 1, "failed": 2}
    assert sorted(os.listdir(folder)) == ["other", "state"] and other.read_text() == "other" and not state.is_symlink()


FAILURES = [(Stop("failed: x", 3), 3, "failed: x"), (MemoryError(), 1, "failed: memory"),
            (OSError(errno.EIO, "none", "place"), 1, "failed: place: none"),
            (store_file.Locked("file", 0), 1, "failed: file: file is locked by another process"),
            (KeyboardInterrupt(), 130, "")]


@pytest.mark.parametrize("error, status, line", FAILURES)
def test_a_failure_of_a_copy(error, status, line, store, good, monkeypatch, capfd):
    """It is a line and a status, also in the state. The clock rings no more."""
    monkeypatch.setattr(backup_file, "copy", lambda *_: (_ for _ in ()).throw(error))
    before = {number: signal.getsignal(number) for number in (signal.SIGALRM, signal.SIGHUP, signal.SIGTERM)}
    mask = os.umask(0o077)
    words = [*store.options("copy"), "--db", store.file, "--to", store.to, "--state", store.state]
    try:
        assert backup_command.main([BACKUP, *words]) == status and signal.alarm(0) == 0
    finally:
        os.umask(mask)
        for number, handler in before.items():
            signal.signal(number, handler)
    assert capfd.readouterr() == ("", f"nixkeep-backup: {line}\n" if line else "")
    assert not line or json.loads(Path(store.state).read_text())["reason"] == line
    assert store.bytes_of_copies() == good


def test_a_copy_without_an_output(store):
    """No file of it gets the number of an output that is closed."""
    words = [BACKUP, *store.options("copy"), "--db", store.file, "--to", store.to]
    assert ran(["sh", "-c", 'exec "$@" >&- 2>&-', "-", *words])[0] == 1
    assert backup_file.rows(f"{store.to}/{store.copies()[0]}")[0] == 6


def test_a_log_of_a_copy_that_is_damaged(folder):
    """It is a line."""
    for name in ("new.db", "new.db-wal"):
        Path(folder, name).write_text("none")
    with pytest.raises(Stop, match="^failed: copy: .* is not a database$"):
        backup_file.fold(f"{folder}/new.db")


@contextlib.contextmanager
def at_work(words, is_begun, env=None):
    """nixkeep-backup, once it has begun something. A shell starts what goes on in the background without SIGINT, and
    nohup without SIGHUP, so the signals get their effects back."""
    words = ["env", "--default-signal=INT,HUP", BACKUP, *words]
    with subprocess.Popen(words, stderr=subprocess.PIPE, text=True, env={**os.environ, **(env or {})},
                          start_new_session=True) as made:
        while made.poll() is None and not is_begun():
            time.sleep(0.05)
        yield made


def test_the_end_of_a_test(store, good):
    """A test that is killed, as where memory runs out, and a copy that a signal ends: each is in the state, and leaves
    nothing."""
    program = Path(store.folder, "program")
    words = [*store.options("copy"), "--db", store.file, "--to", store.to, "--state", store.state, "--program", program]
    reason = lambda: json.loads(Path(store.state).read_text())["reason"]
    program.write_text("#!/bin/sh\nkill -9 $$\n")
    program.chmod(0o755)
    fails(backup(*words), "failed: test: status -9", store, good)
    assert reason().startswith("failed: test: status -9")
    program.write_text(f"#!/bin/sh\ntouch {store.folder}/begun\nexec sleep 100\n")
    with socket.socket(socket.AF_UNIX, socket.SOCK_DGRAM) as manager:
        manager.bind(f"{store.folder}/manager")
        env = {"NOTIFY_SOCKET": f"{store.folder}/manager"}
        with at_work(words, Path(store.folder, "begun").exists, env) as running:
            assert manager.recv(100) == b"READY=1", "the server may start again while the copy is tested"
            running.terminate()
    assert running.returncode == 1 and reason() == "failed: copy: it was stopped by SIGTERM"
    fails(backup(*words, "--seconds", "1"), "failed: time: it took more than 1 seconds", store, good)
    assert reason() == "failed: time: it took more than 1 seconds"


def test_the_note_of_a_server_that_was_stopped(store, good):
    """It has the report that the server printed before."""
    note, version = Path(store.folder, "note"), store_file.version(store.file)
    report = "class paths bytes\ntotal           7              360\n"
    note.write_text(json.dumps({"version": version, "report": report}))
    fails(store.copy("--note", note), "isn't that of the server", store, good)
    for other in (None, version[::-1]):
        note.write_text(json.dumps({"version": other, "report": report}))
        assert store.copy("--note", note)[0] == 0, f"a store that was changed since {other}"
    note.unlink()
    status, _, errors = store.copy("--note", note)
    assert status == 1 and "failed: note" in errors


def test_which_copies_of_a_year_are_kept():
    kept = sorted(backup_folder.kept([*DAILY, "other.db", "2025-13-01T00-00-00Z.db"]))
    # (2025-12-31 is a Wednesday: its week, and the Sundays of the twelve before)
    sundays = [datetime.date(2025, 12, 28) - datetime.timedelta(weeks=at) for at in range(12)]
    wanted = {*[f"2025-12-{day}" for day in range(25, 32)], *map(str, sundays)}
    assert kept == sorted(f"{day}T03-00-00Z.db" for day in wanted)
    many = [f"2025-12-31T{hour:02}-00-00Z.db" for hour in range(4, 24)]
    assert [*filter(backup_folder.time_of, ["2025-1-1T3-0-0Z.db", f"{DAILY[0]}\n", *DAILY[:1]])] == DAILY[:1]
    left = backup_folder.kept([*DAILY, *many])
    assert {*kept} - left == {"2025-12-31T03-00-00Z.db"}, "many of one day delete none of the days before"
    assert backup_folder.kept(DAILY[:7]) == {*DAILY[:7]}, "old ones alone stay"


def copied_at(folder, monkeypatch, times):
    """Makes a copy at each of these times of the clock, and returns the names that are left."""
    monkeypatch.setattr(backup_folder, "sync", lambda _: None)
    for moment in times:
        monkeypatch.setattr(time, "gmtime", lambda *_, moment=moment: moment.timetuple())
        name, _ = backup_folder.add(folder, lambda path: Path(path).touch())
        assert name in os.listdir(folder), "a copy isn't deleted by its own run"
    return sorted(os.listdir(folder))


def nine_days_from(day):
    return [day + datetime.timedelta(days=at) for at in range(9)]


@pytest.mark.parametrize("wrong", [FIRST + datetime.timedelta(days=400), datetime.datetime(2000, 1, 1)],
                         ids=["ahead", "behind"])
def test_copies_of_a_clock_that_was_wrong(wrong, folder, monkeypatch):
    """The copies of each day are kept as without those of the wrong clock: while it is wrong, and once it is right."""
    before, meanwhile, after = map(nine_days_from, (FIRST, wrong, FIRST + datetime.timedelta(18)))
    names = lambda times: {moment.strftime(backup_folder.FORM) for moment in times}
    copied_at(folder, monkeypatch, before)
    assert names(meanwhile[-7:]) < {*copied_at(folder, monkeypatch, meanwhile)}
    assert names(after[-7:]) < {*copied_at(folder, monkeypatch, after)}


# ---- through a server


class Units:
    """A systemctl that has these units active; `env` is the environment with it, and `notes` the file of its notes."""

    def __init__(self, folder):
        self.folder = Path(folder, "units")
        (self.folder / "bin").mkdir(parents=True)
        command = self.folder / "bin/systemctl"
        command.write_text(SYSTEMCTL)
        command.chmod(0o755)
        self.env = {"UNITS": str(self.folder), "PATH": f"{command.parent}:{os.environ['PATH']}"}
        self.notes = self.folder / "notes"
        self.set()

    def set(self, *active, memory="infinity"):
        for unit in self.folder.glob("*@*"):
            unit.unlink()
        for unit in active:
            (self.folder / unit).touch()
        (self.folder / "memory").write_text(f"{memory}\n")


@pytest.fixture
def units(folder):
    return Units(folder)


def test_a_check_of_a_server(store, units):
    note, unit, later = Path(store.folder, "note"), "nixkeep@red.service", of_later_schema(store)
    with servers.server(store.program, "--config", store.config, "--db", store.file) as port:
        words = [*store.options("check"), "--db", store.file, "--server", f"http://127.0.0.1:{port}", "--note", note]
        of_unit = lambda: backup(*words, "--unit", unit, env=units.env)
        for memory in ("infinity", str(1 << 30)):
            units.set(unit, memory=memory)
            assert of_unit() == (0, "", ""), f"a server with {memory}"
        noted, report = (json.loads(note.read_text())[key] for key in ("version", "report"))
        assert noted == store_file.version(store.file)
        assert report.splitlines()[-1].split()[:2] == ["total", "6"]
        assert note.stat().st_mode & 0o777 == 0o600, "nobody else reads it"
        if os.geteuid() == 0:
            os.chown(store.folder, 1234, 1234)
            assert (backup(*words)[0], note.stat().st_uid) == (0, 1234), "but the account of the store"
            os.chown(store.folder, 0, 0)
        units.set(unit, memory="200000")
        fails_with("failed: memory", of_unit())
        units.set()
        fails_with("doesn't run", of_unit())
        Path(store.config).write_text(CONFIG.replace("trusted", "thrusted"))
        fails_with("bad-config", backup(*words))
        Path(store.config).write_text(CONFIG)
        fails_with("failed: schema", backup(*[later if word == store.file else word for word in words]))
    fails_with("failed: unreachable", backup(*words))
    with store.opened() as ask:
        add(ask, "late", "late")
        running = store_file.version(store.file)
    assert store_file.version(store.file) == running, "the version after a server has ended"
    assert running and running != noted, "which isn't that before a change"


def fails_with(line, came):
    assert came[0] == 1 and line in came[2]


def test_a_check_of_a_server_whose_unit_ends(store, units):
    """It waits for it no longer: the unit's next start waits for that of the copy, so nobody would be answered."""
    units.set(unit := "nixkeep@red.service")
    with socket.create_server(("127.0.0.1", 0)) as listener:
        place = f"http://127.0.0.1:{listener.getsockname()[1]}"
        words = [*store.options("check"), "--db", store.file, "--server", place, "--unit", unit]
        with at_work(words, lambda: True, units.env) as running:
            asking = listener.accept()[0]
            time.sleep(2)
            assert running.poll() is None, "it waits while the unit runs"
            (units.folder / unit).unlink()
            try:
                running.wait(60)
            finally:
                asking.close()
            line = running.stderr.read()
    said = f"nixkeep-backup: failed: unit: {unit} doesn't run, so nothing is copied\n"
    assert (running.returncode, line) == (1, said)


def test_looks_at_a_unit_where_systemctl_is_slow(monkeypatch):
    """None begins within another one, so the check goes on. After it there is none."""
    looks, most = [], []

    def is_active(unit):
        looks.append(unit)
        most.append(len(looks))
        time.sleep(0.2)
        looks.pop()
        return True

    monkeypatch.setattr(backup_check, "is_active", is_active)
    monkeypatch.setattr(backup_check, "LOOK", 0.05)
    with backup_check.while_active("nixkeep@red.service"):
        time.sleep(1)
    assert len(most) > 2 and max(most) == 1
    assert signal.getitimer(signal.ITIMER_REAL) == (0, 0)


@pytest.mark.parametrize("unit, machine, swap, start, line", [
    ("infinity", 4_000, 0, 0, None), ("infinity", 3_999, 0, 0, "the machine has 3999 bytes"),
    ("infinity", 3_000, 1_000, 0, None), ("4000", 5_000, 0, 0, None),
    ("3999", 5_000, 0, 0, "red has MemoryMax 3999 bytes"), ("4000", 3_999, 0, 0, "the machine has 3999 bytes"),
    ("4000", 5_000, 0, 4_000, None), ("4000", 5_000, 0, 4_001, "red has MemoryMax 4000 bytes"),
    ("infinity", 4_000, 0, 4_001, "the machine has 4000 bytes")])
def test_a_server_that_may_not_open_again(unit, machine, swap, start, line, monkeypatch):
    """By docs/OPERATING.md, Growth: archives that have more than three quarters of its memory, or rows for which the
    next start takes more than it."""
    monkeypatch.setattr(backup_file, "ran", lambda *_: f"{unit}\n")
    monkeypatch.setattr(store_size, "machine", lambda: machine)
    monkeypatch.setattr(backup_check, "swap", lambda: swap)
    why = f"and the server's next start takes {start}:" if start else "in which a store of 3000 bytes may not open"
    refused = pytest.raises(Stop, match=f"^failed: memory: {line}, {why}")
    with refused if line else contextlib.nullcontext():
        backup_check.refuse_large("total 7 3000\n", "red", start)


@pytest.mark.parametrize("status, kind, page, start", [
    (200, "text/plain; version=0.0.4", b"# HELP x\nnixkeep_start_memory_bytes 1.25e+09\nx 1.0\n", 1_250_000_000),
    (200, "text/plain", b"nixkeep_start_memory_bytes 5000.0\n", 5_000), (200, "text/plain", b"nixkeep_up 1.0\n", 0),
    (200, "text/plain", b"nixkeep_start_memory_bytes nan\n", 0), (404, "text/plain", b"refused: 39 no-route\n", 0),
    (404, "text/plain", b"the metrics need the Debian package python3-prometheus-client\n", 0)])
def test_what_the_next_start_takes(status, kind, page, start, folder):
    """nixkeep-cache says it among its figures, if it has any."""
    Path(config := f"{folder}/red.toml").write_text(CONFIG)
    with servers.answering(lambda *_: (status, kind, page)) as url, backup_check.server_of(url, config) as server:
        assert backup_check.start_of(server) == start


@contextlib.contextmanager
def in_the_place(file, put):
    """What `put(file)` puts in the place of a file, which is back at the end."""
    os.rename(file, f"{file}.kept")
    try:
        put(file)
        yield
    finally:
        with contextlib.suppress(FileNotFoundError):
            os.unlink(file)
        os.rename(f"{file}.kept", file)


PLACED = {"nothing": (lambda _: None, "No such file"), "a pipe": (os.mkfifo, "it is no file"),
          "a device": (lambda file: os.symlink("/dev/zero", file), "(it is no file|No such file)"),
          "a folder's file": (lambda file: os.symlink(f"{Path(file).parent}/copies", file), "(Is a dir|No such file)"),
          "another store": (lambda file: shutil.copy(f"{file}.kept", file), "the server has another one open")}


@pytest.mark.parametrize("what", PLACED)
@pytest.mark.parametrize("owner", [0, 1234] if os.geteuid() == 0 else [os.geteuid()])
def test_what_is_in_the_place_of_a_running_store(what, owner, store):
    """A check stops no server whose file is gone, and waits for no pipe. As root it follows no link of another."""
    note = Path(store.folder, "note")
    with servers.server(store.program, "--config", store.config, "--db", store.file) as port:
        words = [*store.options("check"), "--db", store.file, "--server", f"http://127.0.0.1:{port}", "--note", note]
        os.chown(store.folder, owner, owner)
        for file in (store.file, f"{store.file}-wal"):
            os.chown(file, owner, owner)
        put, line = PLACED[what]
        with in_the_place(store.file, put):
            status, _, errors = backup(*words)
        wanted = rf"failed: file: {store.file}: {line}.*the server isn't stopped"
        assert status == 1 and re.search(wanted, errors), errors
        assert not note.exists()
        assert backup(*words) == (0, "", ""), "and with the file again it does"


@pytest.mark.skipif(os.geteuid() != 0, reason="root alone can be another account")
def test_who_reads_for_root(folder):
    os.chown(folder, 1234, 1235)
    seen = lambda path: {"path": path, "ids": [*os.getresuid(), *os.getresgid(), *os.getgroups()],
                         "root": sorted(os.listdir("/")), "read": Path(path).read_text()}
    Path(folder, "mine").write_text("text")
    os.symlink(__file__, f"{folder}/link")
    assert as_owner.looked(f"{folder}/mine", seen) == {
        "path": "/mine", "ids": [1234] * 3 + [1235] * 3, "root": ["link", "mine"], "read": "text"}
    assert as_owner.looked(f"{folder}/link", seen) is None, "a file outside of the folder"
    os.chown(folder, 0, 0)
    assert as_owner.looked(f"{folder}/mine", seen)["path"] == f"{folder}/mine", "root's own folder"


def test_a_look_without_an_end(monkeypatch):
    monkeypatch.setattr(as_owner, "SECONDS", 0.3)
    endless = "WITH RECURSIVE c (x) AS (SELECT 1 UNION ALL SELECT 1 FROM c) SELECT max(x) FROM c"
    began = time.monotonic()
    look = lambda: sqlite3.connect(":memory:").execute(endless).fetchone()
    assert as_owner.by_child(lambda: None, look) is None
    assert time.monotonic() - began < 20
    for looked in (lambda: 1 / 0, lambda: "no table", lambda: {"long": "x" * 100_000}):
        assert as_owner.by_child(lambda: None, looked) is None


@pytest.mark.parametrize("text, line", [
    (b"total 0 0\n" * 1000, "more than 1000 bytes"), (None, "more than 1000 bytes"),
    (b"total %s 0\n" % (b"9" * 900), "has no total")], ids=["long", "endless", "huge"])
def test_a_hostile_report(text, line, store):
    """It fills no disk: a note has a report."""
    note = Path(store.folder, "note")
    with servers.server(store.program, "--config", store.config, "--db", store.file):
        with servers.answering(lambda *_: (200, "text/plain", text)) as url:
            fails_with(line, backup(*store.options("check"), "--db", store.file, "--server", url, "--note", note))
    assert not [name for name in os.listdir(store.folder) if name.startswith("note")]


def of_later_schema(store):
    """A copy of a store's file of a schema that this program doesn't know."""
    store.copy()
    later = shutil.copy(f"{store.to}/{store.copies()[-1]}", f"{store.folder}/later.db")
    with contextlib.closing(sqlite3.connect(later)) as conn, conn:
        conn.execute("UPDATE meta SET val = '4' WHERE word = 'schema'")
    return later


def fetched(store, url, *words):
    return backup(*store.options("fetch"), "--server", url, "--to", store.to, *words)


def all_of_server(place):
    """All that the server at a place says of its store, to build."""
    with contextlib.closing(place.connection()) as connection:
        server = http_client.Server(place, {}, connection=connection)
        return all_of(asker(objects.Store(server, "build", "/nix/store")))


def is_the_copy(store, wanted):
    """There is one copy, which answers this."""
    assert len(store.copies()) == 1
    with store.opened(f"{store.to}/{store.copies()[0]}") as ask:
        assert all_of(ask) == wanted


def test_a_copy_through_a_server(store):
    with servers.server(store.program, "--config", store.config, "--db", store.file) as port:
        url = f"http://127.0.0.1:{port}"
        came = fetched(store, url, "--state", store.state)
        assert came[0] == 0 and ": 6 objects, " in came[1] and not came[2]
        wanted = all_of_server(http_client.Place(url))
        fails_with("needs a trusted caller", fetched(store, url, "--as", "ann"))
        assert fetched(store, url, "--as", "eve") == (4, "", "nixkeep-backup: denied: connect\n")
        assert fetched(store, url, "--as", "a\nb") == (3, "", "nixkeep-backup: refused: 20 bad-caller\n")
    is_the_copy(store, wanted)
    fails_with("failed: server: none is named", backup(*store.options("fetch"), "--to", store.to))
    with servers.server(store.program, "--config", store.config, "--db", f"{store.folder}/empty.db") as port:
        assert fetched(store, f"http://127.0.0.1:{port}", "--as", "ann")[0] == 0, "where no label is censored"


def test_a_copy_through_a_server_leaves_room(store, monkeypatch):
    """As one of a file: at its beginning, and where others fill the disk meanwhile."""
    real, demands, left = os.statvfs, [], 64 << 20
    room = lambda free: types.SimpleNamespace(f_blocks=1, f_frsize=1, f_bavail=free)
    monkeypatch.setattr(os, "statvfs", lambda path: room(frees[len(demands)]) if path == store.to else real(path))
    demand = disk_room.demand
    monkeypatch.setattr(disk_room, "demand", lambda size, path: (demand(size, path), demands.append(size)))
    with servers.server(store.program, "--config", store.config, "--db", store.file) as port:
        server = http_client.Server(http_client.Place(f"http://127.0.0.1:{port}"), {"store-user": "build"})
        source = objects.Store(server, "build", "/nix/store")
        total = int(backup_file.TOTAL.search(asker(source)("build", "GET", "/report"))[2])
        for frees, count in (([left + total - 1], 0), ([left + total] * 2 + [left], 2), ([left + total] * 9, 7)):
            demands.clear()
            refused = pytest.raises(Stop, match=f"^failed: room: {store.to} has {frees[-1]} bytes left, too few")
            with refused if count < 7 else contextlib.nullcontext():
                backup_fetch.fetch(source, store.program, {}, f"{store.to}/new{count}.db")
            assert len(demands) == count and demands[0:1] == [total][:count]
        source.close()


def test_a_copy_of_labels_that_look_like_others(store):
    """A trusted user may give runtime roots any label, also that of what a caller may not see."""
    with servers.server(store.program, "--config", store.config, "--db", store.file) as port:
        place = http_client.Place(f"http://127.0.0.1:{port}")
        with contextlib.closing(place.connection()) as connection:
            ask = asker(objects.Store(http_client.Server(place, {}, connection=connection), "build", "/nix/store"))
            path = add(ask, "labels", "labels")
            labels = ["{censored}", "{temp:5}", "gcroots/x", "profiles/per-user/ann/a-1-link", "-"]
            ask("build", "POST", "/runtime", "".join(f"root: {label} {path}\n" for label in labels).encode() + b"\n")
        came = fetched(store, place.url)
        assert came[0] == 0, came
        fails_with("needs a trusted caller", fetched(store, place.url, "--as", "ann"))
        wanted = all_of_server(place)
    is_the_copy(store, wanted)


def dropped(ask, user, root):
    """A root is dropped, and what it has kept is deleted."""
    ask(user, "DELETE", root)
    ask(user, "POST", "/collect")


FIRST_PATH, SECOND_PATH = hidden("first"), hidden("second")


def replace(ask, contents):
    """Imports an object anew with these contents, and one that refers to it, which stays as it is."""
    there = [base for base in (SECOND_PATH, FIRST_PATH) if f"/{base}\n" in ask("build", "GET", "/paths")]
    if there:
        ask("build", "POST", "/delete", objects.lines(*[("path", base) for base in there]))
    for path, text, refs in ((FIRST_PATH, contents, []), (SECOND_PATH, b"second", [FIRST_PATH])):
        pairs = [("path", path), ("nar-hash", nar_hash(archive(text))), *[("reference", ref) for ref in refs]]
        ask("build", "POST", "/import", objects.lines(*pairs) + archive(text))


def test_what_a_copy_does_not_ask_for():
    """An archive that has become a large one, which nixkeep-cache would send whole; and a profile whose generations no
    store numbers so."""
    fetch = backup_fetch.Fetch(None, None, "")
    assert fetch.archive(objects.Record(FIRST_PATH, bytes(32), (16 << 20) + 1, [], None, None)) is None
    fetch.as_user = lambda *_: "generation 1\n"
    with pytest.raises(Stop, match="^failed: profile: ann tools: generation 2 is generation 1 in the copy"):
        fetch.set_profile("ann", "tools", {1: FIRST_PATH, 2: FIRST_PATH})


def test_a_copy_of_a_store_that_changes(store):
    """A proxy changes the store between two requests of a copy: records and archives are gone, and objects are there
    that weren't, or have other contents."""
    steps, count = [], itertools.count()
    with servers.server(store.program, "--config", store.config, "--db", store.file) as port:
        place = http_client.Place(f"http://127.0.0.1:{port}")

        def change(method, target):
            if steps and target.startswith(steps[0][0]):
                server = http_client.Server(place, {})
                try:
                    steps.pop(0)[1](asker(objects.Store(server, "build", "/nix/store")))
                finally:
                    server.connection.close()

        def always(ask):
            steps.append(("/report", always))
            add(ask, f"always{next(count)}", "always")

        with servers.proxy(port, everybody="build", hook=change) as made:
            steps += [("/info/", lambda ask: dropped(ask, "ann", "/temp/ann/7")),
                      ("/nar/", lambda ask: dropped(ask, "build", "/root/permanent/kept")),
                      ("/nar/", lambda ask: add(ask, "late", "late")),
                      ("/nar/", lambda ask: ask("ann", "DELETE", "/root/user/ann/mine"))]
            came = fetched(store, servers.url(made), "--as", "build")
            assert came[0] == 0 and not steps
            wanted = all_of_server(place)
            is_the_copy(store, wanted)
            for name in store.copies():
                os.unlink(f"{store.to}/{name}")
            with contextlib.closing(place.connection()) as connection:
                replace(asker(objects.Store(http_client.Server(place, {}, connection=connection), "", "")), b"first!")
            # (the same number of bytes, which no listing shows; and another one, once it was copied)
            steps += [(f"/nar/{FIRST_PATH}", lambda ask: replace(ask, b"second")),
                      (f"/nar/{SECOND_PATH}", lambda ask: replace(ask, b"the third"))]
            came = fetched(store, servers.url(made), "--as", "build")
            assert came[0] == 0 and not steps, came
            wanted = all_of_server(place)
            steps.append(("/report", always))
            came = fetched(store, servers.url(made), "--as", "build")
            assert came[0] == 1 and "changed in each of 10 passes" in came[2], "a store that never rests"
    is_the_copy(store, wanted)


PATH = b"/nix/store/" + b"0" * 32 + b"-x"
INFO, PROFILE = f"/info/{PATH[11:].decode()}", b"profiles/per-user/ann/tools-%s-link %s\n"
RECORD = b"StorePath: %s\nNarHash: sha256:%s\nNarSize: 1\nReferences: \n"
NO_ANSWERS = {
    "a huge generation": ({"/roots": PROFILE % (b"9" * 12, PATH)}, "other roots"),
    "a longer number": ({"/roots": PROFILE % (b"9" * 5000, PATH)}, "bad-"),
    "no label": ({"/roots": b" %s\n" % PATH}, "failed: answer"),
    "a label out of order": ({"/roots": b"{temp:1} %s\nx %s\n" % (PATH, PATH)}, "failed: answer"),
    "a long one": ({"/roots": b"{temp:1} %s\n%s %s\n" % (PATH, b"x" * 100_000, PATH)}, "failed: answer"),
    "bytes that are no text": ({"/roots": b"\xff\n"}, "failed: answer"),
    "a record that is none": ({"/paths": PATH + b"\n", INFO: b"x\n"}, "failed: answer"),
    "one with a wrong hash": ({"/paths": PATH + b"\n", INFO: RECORD % (PATH, b"!")}, "failed: answer"),
    "one of another path": ({"/paths": PATH + b"\n", INFO: RECORD % (PATH + b"y", b"0" * 52)}, "failed: answer"),
    "pointers that are none": ({"/pointers": b"x y\n"}, "failed: answer"),
    "an answer without an end": ({"/roots": None}, "failed: answer"),
}


@pytest.mark.parametrize("what", NO_ANSWERS)
def test_a_hostile_server(what, folder, program):
    """What no store answers is a line, within bounded time and memory, and no copy is there."""
    texts, wanted = {"/report": b"class paths bytes\ntotal 0 0\n", **NO_ANSWERS[what][0]}, NO_ANSWERS[what][1]
    with servers.answering(lambda _, target, __: (200, "text/plain", texts.get(target, b""))) as url:
        words = ["--server", url, "--as", "build", "--seconds", "100", "--program", program, "--to", folder]
        status, output, errors = backup("fetch", *words)
    assert status in (1, 3) and errors.count("\n") == 1 and wanted in errors and not output
    assert len(errors) < 1000 and os.listdir(folder) == []


# ---- stores put back

UNITS = ["nixkeep-backup@red.timer", "nixkeep@red.socket", "nixkeep@red.service"]


@pytest.fixture
def restored(store, good, units):
    """The words that put a store back, but for the file of the copy, where its units are active."""
    units.set(*UNITS)
    return lambda file, **how: backup(*store.options("restore"), "--folder", store.folder, "red", file, env=units.env,
                                      **how)


def test_a_restore_from_what_is_no_copy_stops_nothing(store, restored, units):
    os.mkfifo(pipe := f"{store.folder}/pipe.db")
    copy, logged = f"{store.to}/{store.copies()[0]}", f"{store.folder}/logged.db"
    for target in (logged, f"{logged}-wal"):
        shutil.copy(copy, target)
    for file, line in ((store.damaged(), "hash isn't"), (f"{store.folder}/none.db", "No such file"),
                       (store.config, "not a database"), (pipe, "it is no file"), (store.folder, "it is no file"),
                       (of_later_schema(store), "made by a later version"), (logged, "a copy is one file")):
        status, _, errors = restored(file)
        assert status == 1 and line in errors and errors.count("\n") == 1, file
        assert str(file) in errors and "aside-" not in errors, "it is the copy that is named"
    with open(copy, "r+b") as held:
        fcntl.lockf(held, fcntl.LOCK_EX, 512, 1 << 30)
        fails_with(f"failed: copy: {copy} is locked by process", restored(copy))
    assert not units.notes.exists()


def test_the_folder_of_a_restore(store, good, units):
    """Systemd has links to the folders of stores."""
    link, copy = f"{store.folder}/link", f"{store.to}/{store.copies()[0]}"
    restored = lambda folder: backup(*store.options("restore"), "--folder", folder, "red", copy, env=units.env)
    fails_with("there is none; start nixkeep@red once", restored(link))
    os.symlink(store.folder, link)
    assert restored(link)[0] == 0 and [*Path(store.folder).glob("aside-*")]


def test_the_account_of_a_store_stops_no_restore(folder, monkeypatch):
    monkeypatch.setattr(os, "geteuid", lambda: 1234)
    with backup_restore.alone(folder), backup_restore.alone(folder):
        pass


@pytest.mark.parametrize("what", ["a link", "a pipe"])
def test_a_new_folder_that_is_replaced(what, store, good, monkeypatch):
    """The account of a store puts something else in the place of root's: no copy is made there, and no pipe waited
    for."""
    before, real, secret = store.bytes(), os.mkdir, Path(store.folder, "secret")
    secret.mkdir()

    def mkdir(name, mode, dir_fd):
        real(name, mode, dir_fd=dir_fd)
        os.rmdir(name, dir_fd=dir_fd)
        os.symlink(secret, name, dir_fd=dir_fd) if what == "a link" else os.mkfifo(name, dir_fd=dir_fd)

    monkeypatch.setattr(os, "mkdir", mkdir)
    with pytest.raises(Stop, match="^failed: restore: .*/aside-[^/]*: Not a directory$"):
        backup_restore.put(f"{store.to}/{store.copies()[0]}", store.folder)
    assert store.bytes() == before and not os.listdir(secret)


def test_a_restore_from_a_copy_that_grows(store, good, monkeypatch):
    """Whoever may write it fills no disk: it has the bytes that it had."""
    real, sizes, copy = backup_file.fresh, [], f"{store.folder}/grows.db"
    shutil.copy(f"{store.to}/{store.copies()[0]}", copy)
    size = Path(copy).stat().st_size

    def fresh(*words):
        with open(copy, "ab") as more:
            more.write(bytes(3 << 20))
        return real(*words)

    monkeypatch.setattr(backup_file, "fresh", fresh)
    backup_restore.put(copy, store.folder, lambda path: sizes.append(Path(path).stat().st_size))
    assert sizes == [size]


@pytest.mark.parametrize("error", [MemoryError(), KeyboardInterrupt(), OSError(errno.EIO, "none", 7), Stop("failed")])
def test_a_restore_whose_test_fails(error, store, good):
    """Nothing is left of it, nor was the copy in a folder that others may read."""
    before, seen = store.bytes(), []

    def test(path):
        seen.append(Path(path).parent.stat().st_mode & 0o777)
        raise error

    mask = os.umask(0)
    with pytest.raises(Stop if isinstance(error, OSError) else type(error)):
        backup_restore.put(f"{store.to}/{store.copies()[0]}", store.folder, test)
    os.umask(mask)
    assert seen == [0o700] and store.bytes() == before and not [*Path(store.folder).glob("aside-*")]


# What may have a name next to a store, and whether a server that locks it is found: in a folder of one's own, and in
# that of another account.
NEXT = {"a file": (lambda at: Path(at).touch(), True, True), "a pipe": (os.mkfifo, False, False),
        "a folder": (os.mkdir, False, False), "a link to a file": (lambda at: os.symlink(__file__, at), True, False),
        "a link to nothing": (lambda at: os.symlink("none", at), False, False),
        "a link to a device": (lambda at: os.symlink("/dev/null", at), False, False)}


@pytest.mark.parametrize("what", NEXT)
@pytest.mark.parametrize("owner", [0, 1234] if os.geteuid() == 0 else [os.geteuid()])
def test_what_a_restore_looks_at(what, owner, folder):
    """Root opens no device or pipe for a look at its lock, and follows no link of another account."""
    make, own, of_another = NEXT[what]
    make(f"{folder}/store.db-x")
    os.chown(folder, owner, -1)
    with backup_restore.opened(folder) as here:
        number = backup_restore.for_locking("store.db-x", here)
    assert (number is not None) == (of_another if owner == 1234 else own)
    if number is not None:
        os.close(number)


def test_names_that_are_in_use(store, good, monkeypatch):
    """A copy, and the folder of a restore, have names that nothing else has, and no link that leads nowhere."""
    copy, taken, count = f"{store.to}/{store.copies()[0]}", FIRST.strftime(backup_folder.FORM), itertools.count()
    os.symlink("none", f"{store.to}/{taken}")
    os.symlink("none", f"{store.folder}/aside-{taken[:-3]}")
    monkeypatch.setattr(time, "gmtime", lambda *_: (FIRST + datetime.timedelta(seconds=next(count) // 2)).timetuple())
    assert backup_folder.add(store.to, lambda path: Path(path).touch())[0] > taken
    count = itertools.count()
    assert backup_restore.put(copy, store.folder) > f"{store.folder}/aside-{taken[:-3]}"
    assert os.readlink(f"{store.to}/{taken}") == os.readlink(f"{store.folder}/aside-{taken[:-3]}") == "none"


def test_a_restore_that_can_t_link(store, good, folder, monkeypatch):
    """Where there was no store, what was next to it stays as it was."""
    room, real = Path(folder, "room"), os.link
    room.mkdir()
    names = ["store.db-wal", "store.db-x"]
    for file in names:
        Path(room, file).write_text(file)
    fail = lambda name: (_ for _ in ()).throw(OSError(errno.EMLINK, "none")) if name == names[1] else None
    monkeypatch.setattr(os, "link", lambda name, *words, **more: fail(name) or real(name, *words, **more))
    with pytest.raises(Stop, match="^failed: restore: .*none$"):
        backup_restore.put(f"{store.to}/{store.copies()[0]}", str(room))
    assert sorted(os.listdir(room)) == names and [os.stat(room / file).st_nlink for file in names] == [1, 1]


def test_what_can_t_be_put_back(store, good, monkeypatch):
    """It stays in the other folder, and all else is back."""
    real, tried = {name: getattr(os, name) for name in ("link", "listdir")}, []

    def link(name, *words, **more):
        tried.append(name)
        if name == "store.db-wal" and tried.count(name) == 2:
            raise OSError(errno.EIO, "none")
        real["link"](name, *words, **more)

    monkeypatch.setattr(os, "link", link)
    monkeypatch.setattr(os, "listdir", lambda at: sorted(real["listdir"](at), reverse=True))
    monkeypatch.setattr(os, "rename", lambda *_, **__: (_ for _ in ()).throw(OSError(errno.EIO, "none")))
    before = store.bytes()
    with pytest.raises(Stop, match="^failed: restore: .*none$"):
        backup_restore.put(f"{store.to}/{store.copies()[0]}", store.folder)
    aside, = Path(store.folder).glob("aside-*")
    assert os.listdir(aside) == ["store.db-wal"] and Path(aside, "store.db-wal").read_bytes() == before["store.db-wal"]
    assert Path(store.file).read_bytes() == before["store.db"] and os.stat(store.file).st_nlink == 1


def test_a_restore_leaves_room(store, good, monkeypatch):
    """As a copy does: a file with a length and no bytes fills no disk."""
    copy, real, before = f"{store.folder}/long.db", os.statvfs, store.bytes()
    shutil.copy(f"{store.to}/{store.copies()[0]}", copy)
    os.truncate(copy, 1 << 26)
    free = [(1 << 26) + (64 << 20) - 1]
    seen = lambda _: types.SimpleNamespace(f_blocks=1, f_frsize=1, f_bavail=free[0])
    monkeypatch.setattr(os, "statvfs", lambda path: seen(path) if path == store.folder else real(path))
    with pytest.raises(Stop, match=f"^failed: room: {store.folder} has {free[0]} bytes left, too few"):
        backup_restore.put(copy, store.folder)
    assert store.bytes() == before and not [*Path(store.folder).glob("aside-*")]
    shutil.copy(f"{store.to}/{store.copies()[0]}", copy)
    free = [os.stat(copy).st_size + (64 << 20)]
    assert backup_restore.put(copy, store.folder).startswith(f"{store.folder}/aside-")


def test_a_restore_without_room(store, restored, units):
    """It leaves the store as it is, and starts again what ran."""
    before = store.bytes()
    status, _, errors = restored(f"{store.to}/{store.copies()[0]}", most=8)
    assert status == 1 and "failed: restore: " in errors and errors.count("\n") == 1
    assert store.bytes() == before, "leaves the store"
    assert [name for name in os.listdir(store.folder) if name.startswith(("aside-", "store.new"))] == []
    assert all((units.folder / unit).exists() for unit in UNITS), "whose units run again"


@pytest.mark.parametrize("what", ["a link", "another store"])
def test_a_restore_from_a_copy_that_another_changes(what, store, restored, units):
    """Whoever may write the folder of a copy puts something else in its place once it is tested, as units are stopped.
    What is put in the place of the store is what was tested."""
    copy, secret = f"{store.folder}/theirs/copy.db", Path(store.folder, "secret")
    os.mkdir(f"{store.folder}/theirs")
    shutil.copy(f"{store.to}/{store.copies()[0]}", copy)
    with store.opened() as ask:
        wanted = all_of(ask)
    secret.write_text("what root alone may read\n")
    change = {"a link": f"ln -sfn {secret} {copy}", "another store": f"echo none >{copy}"}[what]
    command = units.folder / "bin/systemctl"
    command.write_text(SYSTEMCTL.replace("case $1 in", f"[ $1 != stop ] || {change}\ncase $1 in"))
    assert restored(copy)[0] == 0 and "stop" in units.notes.read_text()
    assert Path(copy).read_text() == {"a link": secret.read_text(), "another store": "none\n"}[what]
    with store.opened() as ask:
        assert all_of(ask) == wanted


def test_a_restore_of_another_store(store, restored, units):
    """A copy in the folder of another store's copies is refused, since whoever reads this store would read that one."""
    green, red = (f"{store.folder}/nixkeep-backup/{name}" for name in ("green", "red"))
    for path in (green, red):
        shutil.copytree(store.to, path)
    os.symlink(f"{green}/{store.copies()[0]}", f"{store.folder}/link.db")
    for path in (f"{green}/{store.copies()[0]}", f"{store.folder}/link.db"):
        fails_with("it is one of the store green", restored(path))
    assert not units.notes.exists(), "and nothing is stopped"
    assert restored(f"{red}/{store.copies()[0]}")[0] == 0


@pytest.mark.parametrize("name", ["", "*", "red*", "re[d]", "../red", "a b", "a\nb", "\x1b[2J"])
def test_a_restore_of_what_is_no_name(name, store, good, units):
    """systemctl takes some names for those of many units."""
    words = [*store.options("restore"), "--folder", store.folder, name, f"{store.to}/{store.copies()[0]}"]
    status, output, errors = backup(*words, env=units.env)
    assert (status, output) == (1, "") and errors.startswith("nixkeep-backup: failed: name: "), errors
    assert errors.isascii() and errors.count("\n") == 1 and errors[:-1].isprintable()
    assert not units.notes.exists()


def test_a_restore_of_a_store_that_is_stopped(store, restored, units):
    """It stays so, and the line says it."""
    units.set()
    status, output, errors = restored(f"{store.to}/{store.copies()[0]}")
    lines = "".join(f"; {unit} didn't run, and isn't started" for unit in (UNITS[2], UNITS[0]))
    assert status == 0 and output.endswith(f"{lines}\n"), (output, errors)
    assert not any((units.folder / unit).exists() for unit in UNITS)


@pytest.mark.parametrize("name", ["-x", "a b", "a?b#c%41&mode=memory", "a\nb", "\x1b]0;title\x07", "\udcff", "'$(x)"])
def test_names_of_copies(name, store, restored):
    """A file of any name is put back, and copied. Nothing of its name is meant for a terminal."""
    # (the program takes words in UTF-8 alone, so a new file may have no other name)
    copy, to = f"{store.folder}/{name}.db", store.to if name == "\udcff" else f"{store.folder}/{name}"
    shutil.copy(f"{store.to}/{store.copies()[0]}", copy)
    os.makedirs(to, exist_ok=True)
    for came in (restored(copy), backup(*store.options("copy"), "--db", copy, "--to", to)):
        status, output, errors = came
        assert (status, errors) == (0, "") and output.count("\n") == 1 and output[:-1].isprintable(), came


def test_a_restore(store, restored, units):
    with store.opened() as ask:
        before = all_of(ask)
        add(ask, "lost", "after the copy")
    owner = (4321, 4321) if os.geteuid() == 0 else (os.geteuid(), os.getegid())
    os.chown(store.folder, *owner)
    os.symlink(store.config, f"{store.folder}/store.new")
    status, output, errors = restored(f"{store.to}/{store.copies()[0]}")
    assert status == 0 and output.startswith("restored 6 objects, ") and not errors, errors
    assert Path(store.config).read_text() == CONFIG, "a link in the place of the new file isn't followed"
    notes = units.notes.read_text().splitlines()
    assert [note.removeprefix("stop ") for note in notes if note.startswith("stop ")] == UNITS, "stopped in order"
    started = [note.removeprefix("start ") for note in notes if note.startswith("start ")]
    assert started == [*UNITS[1:], UNITS[0]], "started in order"
    aside = next(name for name in os.listdir(store.folder) if name.startswith("aside-"))
    assert sorted(os.listdir(f"{store.folder}/{aside}")) == ["store.db", "store.db-wal"], "the files before"
    seen = os.stat(store.file)
    assert (seen.st_mode & 0o777, seen.st_uid, seen.st_gid) == (0o600, *owner), "the owner is that of the folder"
    with store.opened() as ask:
        assert all_of(ask) == before, "the store is as it was"


class Stopped(BaseException):
    """A stop at once, without anything that is done at an end."""


def failing_at(patch, place, error):
    """The call at this place, among those that change a folder, raises the error in place of what it does, or a signal
    comes ahead of it. Those after it are done."""
    count = itertools.count()

    def changed(real):
        def call(*words, **more):
            if next(count) == place:
                if isinstance(error, BaseException):
                    raise error
                signal.raise_signal(error)
            return real(*words, **more)
        return call

    for name in ("open", "link", "unlink", "rename", "mkdir", "rmdir", "fchown", "fsync"):
        patch.setattr(os, name, changed(getattr(os, name)))
    return count


@pytest.fixture
def by_signals():
    """Signals end what is done here as they end a restore, also where nohup has the tests ignore one."""
    before = {number: signal.signal(number, signal.SIG_DFL) for number in stopping.ENDING}
    stopping.by_signals("restore")
    yield
    for number, handler in before.items():
        signal.signal(number, handler)


@pytest.mark.parametrize("error", [Stopped(), OSError(errno.EIO, "none"), signal.SIGTERM],
                         ids=["stopped", "failing", "signalled"])
def test_a_restore_that_is_stopped(error, store, good, monkeypatch, by_signals):
    """At each step: a server opens the store as it was with its log, or as the copy has it, or refuses the file. Then
    all that was there is in the folder for that, or in its place. A step that fails, or a signal, leaves no file that
    is refused."""
    was, copy, refused = store.bytes(), f"{store.to}/{store.copies()[0]}", 0
    listed = lambda file: ran([store.program, "--config", store.config, "--db", file, "--user", "build", "roots"])
    wanted = listed(copy)
    for place in itertools.count():
        room = Path(store.folder, f"room{place}")
        room.mkdir()
        for name, data in was.items():
            Path(room, name).write_bytes(data)
        Path(room, "store.db-x").symlink_to("none")
        Path(room, "store.db-y").mkdir()
        with monkeypatch.context() as patch, contextlib.suppress(Stopped, Stop):
            reached = failing_at(patch, place, error)
            backup_restore.put(copy, str(room))
        if next(reached) <= place:
            break
        status, output, errors = listed(f"{room}/store.db")
        assert status == 3 or (status, output, errors) == wanted, place
        # (lexists: the link leads nowhere, and Path.exists follows it)
        link, made = ([at / name for at in (room, *room.glob("aside-*")) if os.path.lexists(at / name)]
                      for name in ("store.db-x", "store.db-y"))
        assert {os.readlink(file) for file in link} == {"none"} and made[0].is_dir() and len(made) == 1
        if status == 3:
            aside, = room.glob("aside-*")
            assert {name: next(at / name for at in (aside, room) if (at / name).exists()).read_bytes()
            for name in was} == was
            refused += 1
    assert place > 10 and (0 < refused < 12 if isinstance(error, Stopped) else not refused)


def noted(patch):
    """What is done from now on: the syncs of files and folders, by their numbers and bytes, the names that are given,
    each with the same of the file and the number of its folder, and None for each name that is taken."""
    notes, real = [], {kind: getattr(os, kind) for kind in ("fsync", "rename", "link", "unlink", "mkdir")}
    seen = lambda at, **how: (lambda status: (
        status.st_ino, 0 if stat.S_ISDIR(status.st_mode) else status.st_size))(os.stat(at, **how))

    def sync(number):
        notes.append(seen(number))
        real["fsync"](number)

    def give(what, name, to, **where):
        real[what](name, to, **where)
        folder = where.get("dst_dir_fd")
        notes.append((*seen(to, dir_fd=folder, follow_symlinks=False),
                      os.stat(Path(to).parent if folder is None else folder).st_ino))

    def make(name, mode, dir_fd):
        real["mkdir"](name, mode, dir_fd=dir_fd)
        notes.append((None, 0, os.stat(dir_fd).st_ino))

    def take(name, **where):
        real["unlink"](name, **where)
        notes.append(None)

    for kind, call in {"fsync": sync, "mkdir": make, "unlink": take}.items():
        patch.setattr(os, kind, call)
    for kind in ("rename", "link"):
        patch.setattr(os, kind, functools.partial(give, kind))
    return notes


@pytest.mark.parametrize("what, names", [("copy", 1), ("restore", 4), ("before a migration", 1)])
def test_what_has_a_name_is_on_the_disk(what, names, store, good, monkeypatch):
    """All of a file is synced before it has its name, and the folder after that, before another name is taken. Else a
    power cut could leave a name without what it names, or take a name on which the next step relies."""
    monkeypatch.setattr(backup_restore, "PIECE", 1_000)
    copy, file = f"{store.to}/{store.copies()[0]}", f"{store.folder}/old.db"
    of_schema_1(file)
    old = {os.stat(path).st_ino for path in (store.file, f"{store.file}-wal", file)}
    run = {"copy": lambda: backup_folder.add(store.to, lambda path: backup_file.copy(store.file, path)),
           "restore": lambda: backup_restore.put(copy, store.folder),
           "before a migration": lambda: backup_file.before_migration(types.SimpleNamespace(db=file, config=None))}
    with monkeypatch.context() as patch:
        notes = noted(patch)
        run[what]()
    given = [(at, *note) for at, note in enumerate(notes) if note and len(note) == 3]
    assert len(given) == names
    for at, number, size, folder in given:
        assert number in {None, *old} or (number, size) in notes[:at], "the file"
        later = [*notes[at:], None]
        assert (folder, 0) in later[:later.index(None)], "its folder"


@pytest.mark.parametrize("error", [Stopped(), OSError(errno.ENOSPC, "none")], ids=["stopped", "failing"])
def test_a_copy_that_is_stopped(error, store, good, monkeypatch):
    """At each step: the good copies are as they were, a new one is whole, and the next run makes another one."""
    made = lambda: backup_folder.add(store.to, lambda path: backup_file.copy(store.file, path))
    for place in itertools.count():
        with monkeypatch.context() as patch, contextlib.suppress(Stopped, OSError, Stop):
            reached = failing_at(patch, place, error)
            made()
        if next(reached) <= place:
            break
        copies = {name: data for name, data in store.bytes_of_copies().items() if backup_folder.time_of(name)}
        assert good.items() <= copies.items() and len(copies) <= 2, place
        for other in copies.keys() - good.keys():
            assert backup_file.rows(f"{store.to}/{other}")[0] == 6
            os.unlink(f"{store.to}/{other}")
        name, _ = made()
        assert sorted(store.copies()) == sorted([*good, name]), "and nothing else is left"
        os.unlink(f"{store.to}/{name}")
    assert place > 8


def test_two_restores_at_once(store, restored):
    opened = os.open(store.folder, os.O_RDONLY)
    fcntl.flock(opened, fcntl.LOCK_EX)
    before = store.bytes()
    fails_with("another restore is running", restored(f"{store.to}/{store.copies()[0]}"))
    assert store.bytes() == before
    os.close(opened)


@pytest.mark.parametrize("number", [signal.SIGHUP, signal.SIGTERM, signal.SIGINT])
def test_a_restore_whose_terminal_is_lost(number, store, good, units):
    """The units that it has stopped run again, and the store is as it was."""
    units.set(*UNITS)
    before, held = store.bytes(), units.folder / "held"
    words = [*store.options("restore"), "--folder", store.folder, "red", f"{store.to}/{store.copies()[0]}"]
    held.touch()
    # (the first unit is gone: a command of systemctl's that is killed before would remove it later)
    with at_work(words, lambda: not (units.folder / UNITS[0]).exists(), units.env) as running:
        os.killpg(running.pid, number)
        time.sleep(0.5)
        held.unlink()
        line = running.stderr.read()
    assert (running.returncode, line) == ((130, "") if number == signal.SIGINT else (
        1, f"nixkeep-backup: failed: restore: it was stopped by {number.name}\n"))
    assert all((units.folder / unit).exists() for unit in UNITS) and store.bytes() == before


@pytest.mark.parametrize("number", [signal.SIGHUP, signal.SIGTERM, signal.SIGINT])
@pytest.mark.parametrize("at", UNITS)
def test_a_terminal_that_is_lost_while_units_start(at, number, store, good, units):
    """All that runs in a terminal gets the signal, and once more from its shell. Each unit that ran is started."""
    units.set(*UNITS)
    words = [*store.options("restore"), "--folder", store.folder, "red", f"{store.to}/{store.copies()[0]}"]
    command = units.folder / "bin/systemctl"
    slow = f'[ "$1 $unit" != "start {at}" ] || touch "$UNITS/slow" "$UNITS/begun"\ncase $1 in'
    command.write_text(SYSTEMCTL.replace("case $1 in", slow))
    with at_work(words, (units.folder / "begun").exists, units.env) as running:
        for _ in range(2):
            os.killpg(running.pid, number)
            time.sleep(0.2)
        command.write_text(SYSTEMCTL)
        (units.folder / "slow").unlink()
        line = running.stderr.read()
    assert (running.returncode, line) == (0, "")
    assert [unit for unit in UNITS if not (units.folder / unit).exists()] == []


def test_a_unit_that_does_not_start_after_a_restore(store, restored, units):
    """The timer of the copies is started all the same, and the line says which unit failed."""
    command, fails = units.folder / "bin/systemctl", f'[ "$1 $unit" != "start {UNITS[2]}" ] || exit 1\ncase $1 in'
    command.write_text(SYSTEMCTL.replace("case $1 in", fails))
    fails_with("failed: unit: status 1", restored(f"{store.to}/{store.copies()[0]}"))
    assert [unit for unit in UNITS if not (units.folder / unit).exists()] == [UNITS[2]]


@pytest.mark.parametrize("number", [*stopping.ENDING])
def test_signals_that_come_again(number, by_signals):
    """One ends what is done; those after it don't end what is tidied up."""
    with pytest.raises(Stop, match=number.name):
        signal.raise_signal(number)
    for ending in stopping.ENDING:
        signal.raise_signal(ending)


@pytest.mark.skipif(os.geteuid() != 0, reason="only root starts and stops units")
def test_a_restore_while_another_one_stops_units(store, restored, units):
    """It stops and starts none: or the server would be started below the other."""
    copy, held = f"{store.to}/{store.copies()[0]}", units.folder / "held"
    held.touch()
    with concurrent.futures.ThreadPoolExecutor() as pool:
        first = pool.submit(restored, copy)
        while not units.notes.exists() or "stop" not in (calls := units.notes.read_text()):
            time.sleep(0.1)
        second = pool.submit(restored, copy)
        concurrent.futures.wait([second], 20)
        was_asked = units.notes.read_text()
        held.unlink()
        fails_with("another restore is running", second.result())
        assert (first.result()[0], was_asked) == (0, calls)


def test_a_restore_below_a_server_that_is_none_of_the_units(store, restored, units):
    """It is refused while a process has the file or its log open. Then the units run again."""
    copy, log, moved = f"{store.to}/{store.copies()[0]}", f"{store.file}-wal", f"{store.folder}/moved.db"
    refused = lambda file: fails_with(f"failed: restore: {file} is locked by process ", restored(copy))
    with servers.server(store.program, "--config", store.config, "--db", store.file) as port:
        place = http_client.Place(f"http://127.0.0.1:{port}")
        wanted, seen = all_of_server(place), os.stat(store.file)
        refused(store.file)
        assert all((units.folder / unit).exists() for unit in UNITS)
        os.rename(store.file, moved)
        refused(log)
        os.rename(moved, store.file)
        assert (all_of_server(place), os.stat(store.file).st_ino) == (wanted, seen.st_ino)
    with store_file.open_store(store.file):
        refused(store.file)
    assert not [name for name in os.listdir(store.folder) if name.startswith(("aside-", "store.new"))]
    assert restored(copy)[0] == 0


def test_a_store_that_is_begun_in_a_restore(store, good, folder, monkeypatch):
    """It stays, and the restore fails. Where there is a store a server is refused meanwhile."""
    copy, real, answers = f"{store.to}/{store.copies()[0]}", backup_restore.move_aside, []
    listed = lambda room: ran([store.program, "--db", f"{room}/store.db", "--user", "ann", "list"])

    def move_aside(names, room, aside):
        answers.append(listed(os.readlink(f"/proc/self/fd/{room}")))
        real(names, room, aside)

    monkeypatch.setattr(backup_restore, "move_aside", move_aside)
    os.mkdir(empty := f"{folder}/empty")
    with pytest.raises(Stop, match="File exists"):
        backup_restore.put(copy, empty)
    assert answers.pop() == listed(empty) == (0, b"", b"")
    assert sorted(os.listdir(empty)) == ["store.db", "store.db-wal"]
    backup_restore.put(copy, store.folder)
    assert answers.pop()[0] == 3 and listed(store.folder)[1].count(b"\n") == 6


@pytest.mark.parametrize("names", [["store.db"], ["store.db-wal", "store.db-x"]])
def test_a_restore_of_what_a_service_has_left(names, store, restored):
    """Folders in the place of files are moved away as files are, and links as links."""
    with store.opened() as ask:
        wanted = all_of(ask)
    for entry in names:
        with contextlib.suppress(FileNotFoundError):
            os.unlink(f"{store.folder}/{entry}")
        os.makedirs(f"{store.folder}/{entry}/more")
    links = {"store.db-link": store.config, "store.db-none": "none", "store.db-folder": store.to}
    for entry, to in links.items():
        os.symlink(to, f"{store.folder}/{entry}")
    status, output, errors = restored(f"{store.to}/{store.copies()[0]}")
    assert (status, errors) == (0, "") and output.startswith("restored 6 objects, ")
    aside, = Path(store.folder).glob("aside-*")
    assert all((aside / name / "more").is_dir() for name in names)
    assert {entry: os.readlink(aside / entry) for entry in links} == links and os.stat(store.config).st_nlink == 1
    with store.opened() as ask:
        assert all_of(ask) == wanted


def test_a_restore_next_to_many_files(store, good):
    """A service may leave more of them than a process may have open."""
    before, most = resource.getrlimit(resource.RLIMIT_NOFILE), max(map(int, os.listdir("/proc/self/fd"))) + 20
    for number in range(most):
        Path(store.folder, f"store.db-{number}").touch()
    resource.setrlimit(resource.RLIMIT_NOFILE, (most, before[1]))
    try:
        aside = backup_restore.put(f"{store.to}/{store.copies()[0]}", store.folder)
    finally:
        resource.setrlimit(resource.RLIMIT_NOFILE, before)
    assert len(os.listdir(aside)) == most + 2, "with those of the store"


# ---- copies before a migration


def of_schema_1(file, text=b"old"):
    """A file of schema 1 with a text, whose path this is."""
    with contextlib.closing(sqlite3.connect(file)) as conn, conn:
        stores.put_tables(conn, 1)
        return stores.put_text(conn, "old", text)


def test_a_copy_before_a_migration(program, folder):
    """The copy is the way back: it has the old schema, and all rows of the file. No other file is copied."""
    file, kept = f"{folder}/store.db", Path(folder, "store.db-of-schema-1")
    copied = lambda: backup("before-migration", "--db", file)
    assert copied() == (0, "", ""), "no file"
    Path(file).touch()
    assert copied() == (0, "", ""), "an empty one"
    path = of_schema_1(file)
    with open(file, "r+b") as held:
        fcntl.lockf(held, fcntl.LOCK_EX, 512, 1 << 30)
        assert copied() == (0, "", ""), "one that a server has open"
    kept.write_text("of a start that was stopped")
    Path(f"{kept}.new").symlink_to("none")
    opened = os.open(folder, os.O_RDONLY)
    fcntl.flock(opened, fcntl.LOCK_EX)
    fails_with("another copy is being made", copied())
    os.close(opened)
    status, output, errors = copied()
    assert status == 0 and output.startswith(f"{kept}: 1 object, ") and not errors, errors
    assert kept.stat().st_mode & 0o777 == 0o600, "which its owner alone reads"
    with contextlib.closing(sqlite3.connect(kept)) as conn:
        assert conn.execute("SELECT val, base FROM meta, object WHERE word = 'schema'").fetchall() == [("1", path)]
    migrated = ran([program, "--db", file, "--user", "root", "list"])
    assert migrated == (0, f"/nix/store/{path}\n".encode(), b"")
    kept.unlink()
    assert copied() == (0, "", ""), "a file of today's schema"
    assert not kept.exists(), "isn't copied"


def test_a_file_that_is_no_store_before_a_migration(folder):
    of_schema_1(file := f"{folder}/damaged.db")
    with contextlib.closing(sqlite3.connect(file)) as conn, conn:
        conn.execute("UPDATE object SET hash = zeroblob(32)")
    fails_with("hash isn't", backup("before-migration", "--db", file))
    assert os.listdir(folder) == ["damaged.db"], "no half of a copy is left"
    Path(other := f"{folder}/other.db").write_text("none")
    assert backup("before-migration", "--db", other) == (0, "", ""), "no database"
    os.unlink(other)
    for schema in ("9" * 5000, "\xb2", "01", ""):
        with contextlib.closing(sqlite3.connect(file)) as conn, conn:
            conn.execute("UPDATE meta SET val = ? WHERE word = 'schema'", (schema,))
        assert backup("before-migration", "--db", file) == (0, "", ""), f"the schema {schema[:5]!r} is none"
        status, output, errors = ran([f"{HERE}/tools/nixkeep-explain", file])
        assert (status, errors) == (3, b"") and b"21 bad-schema" in output, "and is explained"


# ---- words


@pytest.mark.parametrize("tool", ["nixkeep-backup", "nixkeep-explain"])
def test_the_environment_of_another(tool, store, good):
    """What root runs by `su` has the path and the variables of a user. No program and no module there is run."""
    place = Path(store.folder, "theirs")
    place.mkdir()
    (place / "python3").write_text(f"#!/bin/sh\ntouch {place}/ran\n")
    (place / "python3").chmod(0o755)
    for name in ("argparse.py", "sqlite3.py", "sitecustomize.py"):
        (place / name).write_text(f"open('{place}/ran', 'w')\n")
    env = {"PATH": f"{place}:{os.environ['PATH']}", "PYTHONPATH": str(place)}
    words = {"nixkeep-backup": [*store.options("copy"), "--db", store.file, "--to", store.to],
             "nixkeep-explain": [store.file]}
    assert ran([f"{HERE}/tools/{tool}", *words[tool]], env={**os.environ, **env}, cwd=place)[0] == 0
    assert not (place / "ran").exists()


@pytest.mark.parametrize("words", ["", "copy", "copy --db a", "fetch", "restore red", "nope", "check --db a",
                                   *(f"copy --db a --to b --seconds {text}"
                                     for text in ("0", "-1", "99999999999", "x"))])
def test_usage_errors(words):
    status, output, errors = backup(*words.split())
    assert status == 2 and not output and errors.startswith("usage: ")
