"""What is tested before a server is stopped, for a copy or an upgrade: that it runs, and could start again."""
import argparse
import contextlib
import json
import os
import re
import signal
import sqlite3
import subprocess
from collections.abc import Iterator
from pathlib import Path

from . import as_owner, backup_file, store_file, store_size
from .failures import Stop, reason
from .http_client import Foreign, Place, Server

# The part of a unit's memory that an opened store may need for its archives; opening takes more than their bytes.
OPENS = 0.75
# The seconds between two looks at whether a unit still runs.
LOOK = 1
# The bytes of a report, which has four lines, and those of the figures of nixkeep-cache, at most.
REPORT, FIGURES = 1_000, 1 << 20
# The figure of the memory that the server's next start takes.
START = re.compile(r"^nixkeep_start_memory_bytes ([0-9]{1,20}(?:\.[0-9]{1,20})?(?:e\+[0-9]{2})?)$", re.M)


@contextlib.contextmanager
def server_of(url: str, config: str | None) -> Iterator[Server]:
    """A server, which is asked for the first caller of its configuration."""
    user, group = backup_file.caller(backup_file.settings(config))
    server = Server(Place(url), {"store-user": user, **({"store-group": group} if group else {})})
    try:
        yield server
    finally:
        server.connection.close()


def report_of(server):
    reply = server.ask("GET", "/report")
    text = reply.text(REPORT)
    if reply.status:
        raise Stop(text.rstrip("\n"), reply.status)
    return text


def start_of(server: Server) -> int:
    """The bytes of memory that a server's next start takes by the figures of nixkeep-cache, or 0 if there are none."""
    try:
        match = START.search(server.ask("GET", "/metrics", is_repeated=True).text(FIGURES))
    except Foreign:
        return 0
    return int(float(match[1])) if match else 0


def memory_of(unit):
    """The bytes of memory that a unit may use, and what says so. A server that runs may be in the swap space."""
    text = backup_file.ran(["systemctl", "show", "--property", "MemoryMax", "--value", unit], "unit").strip()
    machine = store_size.machine() + swap(), "the machine has"
    return min((int(text), f"{unit} has MemoryMax"), machine) if text.isdigit() else machine


def swap():
    """The bytes of the machine's swap space."""
    with contextlib.suppress(OSError), open("/proc/meminfo", encoding="ascii") as file:
        return sum(int(line.split()[1]) << 10 for line in file if line.startswith("SwapTotal:"))
    return 0


def refuse_large(text: str, unit: str, start: int) -> None:
    """Raises Stop if a server with the archives of this report may not fit into its memory, or one whose start takes
    `start` bytes."""
    size, (limit, whose) = int(backup_file.TOTAL.search(text)[2]), memory_of(unit)
    if size > limit * OPENS:
        raise Stop(f"failed: memory: {whose} {limit} bytes, in which a store of {size} bytes may not open: the server "
                   "isn't stopped")
    if start > limit:
        raise Stop(f"failed: memory: {whose} {limit} bytes, and the server's next start takes {start}: the server "
                   "isn't stopped")


def seen(path):
    """The schema of a file and the version of its store; both None where it can't be read, as while it is written."""
    with contextlib.suppress(OSError, sqlite3.Error, MemoryError):
        return {"schema": backup_file.schema_of(path, despite_lock=True), "version": store_file.version(path)}
    return {"schema": None, "version": None}


def refuse_newer(path, number):
    """Raises Stop for a file of a later schema, as after a downgrade of the program: this one doesn't open it."""
    if number is not None and number > max(store_file.LACKS):
        raise Stop(f"failed: schema: {path} is of schema {number}, which this program doesn't open: the server isn't "
                   "stopped")


def held(path):
    """Why a file isn't the one that a running server has open, or None."""
    try:
        with store_file.opened(path) as file:
            why = "the server has another one open" if store_file.locker(file) is None else None
    except OSError as error:
        why = reason(error)
    return {"why": why}


def refuse_replaced(path):
    """Raises Stop for a file that was deleted or replaced below its server, whose store would be lost with its end."""
    if why := looked_at(path, held)["why"]:
        raise Stop(f"failed: file: {path}: {why}: the server isn't stopped")


def looked_at(path, look):
    """What is seen of a file, by its owner."""
    facts = as_owner.looked(path, look)
    if facts is None:
        raise Stop(f"failed: file: {path}: it can't be read: the server isn't stopped")
    return facts


def check(words: argparse.Namespace) -> None:
    """Asks the server for its report, and notes it with the version of the store. Raises Stop if the server may not
    start again: then it has to go on as it is."""
    with while_active(words.unit):
        examine(words)


@contextlib.contextmanager
def while_active(unit: str | None) -> Iterator[None]:
    """What is done here ends by Stop as soon as a unit runs no more, if there is one. Its next start waits for that of
    the copy, so whoever asks it would wait for a server that waits for them."""
    delay = LOOK

    def look(*_):
        try:
            if not is_active(unit):
                raise Stop(f"failed: unit: {unit} doesn't run, so nothing is copied")
        finally:
            # (as long after this look: where systemctl is slow, the next one would begin within it)
            signal.setitimer(signal.ITIMER_REAL, delay)

    if not unit:
        yield
        return
    before = signal.signal(signal.SIGALRM, look)
    try:
        look()
        yield
    finally:
        delay = 0
        signal.setitimer(signal.ITIMER_REAL, 0)
        signal.signal(signal.SIGALRM, before)


def examine(words: argparse.Namespace) -> None:
    """What `check` does while the unit runs."""
    backup_file.ran(backup_file.words_of(backup_file.program_of(words), words.config, "who"), "configuration")
    before = looked_at(words.db, seen)
    refuse_newer(words.db, before["schema"])
    with server_of(words.server, words.config) as server:
        text, start = report_of(server), start_of(server) if words.unit else 0
    refuse_replaced(words.db)
    if not backup_file.TOTAL.search(text):
        raise Stop("failed: report: the server's report has no total")
    if words.unit:
        refuse_large(text, words.unit, start)
    if words.note:
        write_note(words.note, {"version": before["version"], "report": text}, Path(words.db).parent)


def is_active(unit):
    words = ["systemctl", "is-active", "--quiet", unit]
    try:
        return subprocess.run(words, stdin=subprocess.DEVNULL).returncode == 0
    except OSError as error:
        raise Stop(f"failed: unit: systemctl: {reason(error)}") from None


def write_note(path, note, folder):
    """Writes the note anew, for the account that has the folder of the store; a link at its place isn't followed."""
    fresh = f"{path}.new"
    try:
        seen = os.stat(folder)
        Path(fresh).unlink(missing_ok=True)
        with open(backup_file.fresh(fresh), "w", encoding="utf-8") as file:
            if os.geteuid() == 0:
                os.fchown(file.fileno(), seen.st_uid, seen.st_gid)
            json.dump(note, file)
        os.rename(fresh, path)
    except OSError as error:
        with contextlib.suppress(OSError):
            os.unlink(fresh)
        raise Stop(f"failed: note: {path}: {reason(error)}") from None


def wanted(path: str | None, database: str) -> str | None:
    """The report that a copy has to have by a note, or None if the store was changed since, or there is no note."""
    if not path:
        return None
    try:
        with open(path, encoding="utf-8") as file:
            note = json.load(file)
    except (OSError, ValueError) as error:
        raise Stop(f"failed: note: {path}: {reason(error)}") from None
    is_same = note["version"] and store_file.version(database) == note["version"]
    return note["report"] if is_same else None
