"""A folder of dated copies: a new one gets its name once it is tested, and then old ones are deleted."""
import contextlib
import datetime
import fcntl
import json
import os
import re
import stat
import time
from collections.abc import Callable, Iterable, Iterator

from . import store_file, whole_file
from .failures import Stop, reason

FORM = "%Y-%m-%dT%H-%M-%SZ.db"
NAME = re.compile(r"\d{4}-\d\d-\d\dT\d\d-\d\d-\d\dZ\.db")
# The copy that is being made, and what SQLite and nixkeep put next to it.
NEW = "new.db"
ALL_NEW = [NEW, *(f"{NEW}-{suffix}" for suffix in ("wal", "shm", "journal"))]
# What is kept: the newest copies, and the newest one of each of the latest days and weeks that have one.
COPIES, DAYS, WEEKS = 7, 7, 13
# The bytes that a state may have.
STATE = 1 << 16


def time_of(name: str) -> datetime.datetime | None:
    """The time in the name of a copy, or None for any other name."""
    try:
        return datetime.datetime.strptime(name, FORM) if NAME.fullmatch(name) else None
    except ValueError:
        return None


def newest_of_each(names, period, most):
    """The newest name of each of the latest periods. The names are in falling order."""
    newest = {}
    for name in names:
        newest.setdefault(period(time_of(name)), name)
    return [*newest.values()][:most]


def kept(names: Iterable[str]) -> set[str]:
    """The names of the copies that are kept, as a set. It depends on copies alone, so time by itself deletes none."""
    ordered = sorted(filter(time_of, names), reverse=True)
    days = newest_of_each(ordered, lambda moment: moment.date(), DAYS)
    weeks = newest_of_each(ordered, lambda moment: moment.isocalendar()[:2], WEEKS)
    return {*ordered[:COPIES], *days, *weeks}


def sync(path: str) -> None:
    """Waits until a file or the names in a folder are on the disk."""
    opened = os.open(path, os.O_RDONLY)
    try:
        os.fsync(opened)
    finally:
        os.close(opened)


@contextlib.contextmanager
def locked(folder: str) -> Iterator[None]:
    """One copy at a time is made in a folder. Nobody else may write there: a file that they put next to the copy could
    have SQLite write to another one, or delete it."""
    try:
        opened = os.open(folder, os.O_RDONLY | os.O_DIRECTORY)
    except OSError as error:
        raise Stop(f"failed: folder: {folder}: {reason(error)}") from None
    try:
        seen = os.fstat(opened)
        if seen.st_uid not in (0, os.geteuid()) or seen.st_mode & 0o022:
            raise Stop(f"failed: folder: {folder}: other accounts may write there; it has to be your own, of mode 0700")
        fcntl.flock(opened, fcntl.LOCK_EX | fcntl.LOCK_NB)
        yield
    except BlockingIOError:
        raise Stop(f"failed: folder: {folder}: another copy is being made there") from None
    finally:
        os.close(opened)


def delete_new(folder):
    """Deletes what a copy that was stopped has left."""
    for name in ALL_NEW:
        path = f"{folder}/{name}"
        try:
            if stat.S_ISDIR(os.lstat(path).st_mode):
                raise Stop(f"failed: folder: {path} is a folder, and in the way")
            os.unlink(path)
        except FileNotFoundError:
            pass


def give_name(folder):
    """Gives the copy its name, which no other has, and returns that."""
    # (lexists: a link that leads nowhere has its name, too, and Path.exists follows it)
    while os.path.lexists(f"{folder}/{(name := time.strftime(FORM, time.gmtime()))}"):
        time.sleep(0.1)
    sync(f"{folder}/{NEW}")
    os.rename(f"{folder}/{NEW}", f"{folder}/{name}")
    sync(folder)
    return name


def add(folder: str, make: Callable[[str], object]) -> tuple[str, list[str]]:
    """Makes a copy by `make(path)`, which also tests it, and returns its name, and the names of those deleted."""
    with locked(folder):
        delete_new(folder)
        try:
            make(f"{folder}/{NEW}")
            name = give_name(folder)
        finally:
            delete_new(folder)
        names = {entry for entry in os.listdir(folder) if time_of(entry)}
        # (later ones are of a clock that was wrong, then or now: each group has places of its own)
        later = {other for other in names if other > name}
        deleted = sorted(names - kept(names - later) - kept(later))
        for old in deleted:
            os.unlink(f"{folder}/{old}")
        return name, deleted


# ---- the state


def read_state(path: str) -> dict:
    """The state in a file, or an empty one: a service may put anything in its place."""
    with contextlib.suppress(OSError, ValueError, RecursionError), store_file.opened(path) as file:
        state = json.loads(file.read(STATE))
        return state if isinstance(state, dict) else {}
    return {}


def write_state(path: str, **more: str | float) -> None:
    """Puts what a run did into the file that others watch, whole or not at all; what it doesn't name stays."""
    whole_file.write(path, f"{json.dumps({**read_state(path), **more}, indent=2)}\n", 0o600)
