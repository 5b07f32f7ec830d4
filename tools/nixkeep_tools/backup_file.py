"""A copy of a store's file, and the tests that each copy has to pass."""
import argparse
import contextlib
import os
import re
import sqlite3
import subprocess
import sys
import tomllib
from collections.abc import Iterable
from pathlib import Path

from . import backup_folder, disk_room, objects, paths, store_file
from .count_of import count_of
from .failures import REFUSED, Stop, reason

HERE = Path(__file__).resolve().parents[1]
PAGES = 1_000
TOTAL = re.compile(r"^total +(\d{1,18}) +(\d{1,18})$", re.A | re.M)


# ---- the configuration


def settings(path: str | None) -> dict:
    """The table of a configuration file, or an empty one without a file."""
    if not path:
        return {}
    try:
        with open(path, "rb") as file:
            return tomllib.load(file)
    except OSError as error:
        raise Stop(f"failed: file: {path}: {reason(error)}") from None
    except ValueError as error:
        raise Stop(f"refused: 19 bad-config: {path}: {error}", REFUSED) from None


def caller(table: dict, keys: Iterable[str] = ("trusted-users", "allowed-users")) -> tuple[str, str | None]:
    """A user and a group, or None, that a configuration lets connect: the first one that it names."""
    defaults = {"trusted-users": ["root"], "allowed-users": ["*"]}
    for entry in (value for key in keys for value in table.get(key, defaults[key])):
        name = entry.removeprefix("@")
        if entry == "*":
            return "root", None
        if paths.is_plain_name(name):
            return ("root", name) if entry.startswith("@") else (name, None)
    raise Stop("failed: caller: the configuration names nobody who may connect")


def words_of(program: str, config: str | None, *more: str) -> list[str]:
    """A command line of the program for that caller."""
    user, group = caller(settings(config))
    options = [*(["--config", config] if config else []), "--user", user, *(["--group", group] if group else [])]
    return [program, *options, *more]


# ---- a file


def fresh(path: str, flags: int = os.O_WRONLY | os.O_CREAT | os.O_EXCL, folder: int | None = None) -> int:
    """The number of a new file that only its owner may read; none may be there. `folder` is an open one of a name."""
    return os.open(path, flags, 0o600, dir_fd=folder)


def create(path: str) -> None:
    """Makes an empty file that only its owner may read; none may be there."""
    os.close(fresh(path))


def open_copy(path: str) -> sqlite3.Connection:
    """A connection that writes a file which is there, and makes none."""
    return sqlite3.connect(f"file:{store_file.quoted(path)}?mode=rw", uri=True, isolation_level=None)


def copy(path: str, to: str) -> None:
    """Copies a store file with the changes in its log into one new file. It never writes or makes the store's own."""
    try:
        create(to)
        with store_file.open_store(path) as conn, contextlib.closing(open_copy(to)) as target:
            disk_room.demand(store_file.bytes_of(conn, "page_count"), to)
            # (between two parts a signal is seen, such as that of the time limit)
            conn.backup(target, pages=PAGES, progress=lambda *_: None)
    except FileNotFoundError:
        raise Stop(f"failed: file: {path}: there is no such store; nothing is copied, and none is made") from None
    except store_file.Locked as error:
        raise Stop(f"failed: file: {error}: a copy needs the file at rest") from None
    except (OSError, sqlite3.Error) as error:
        raise Stop(f"failed: copy: {path}: {reason(error)}") from None


def fold(path: str) -> None:
    """Brings a log into its file, so that the copy is one file."""
    log = Path(f"{path}-wal")
    try:
        if log.exists():
            with contextlib.closing(open_copy(path)) as conn:
                conn.execute("PRAGMA wal_checkpoint(TRUNCATE)")
        if log.exists() and not log.stat().st_size:
            log.unlink()
    except (OSError, sqlite3.Error) as error:
        raise Stop(f"failed: copy: {path}: {reason(error)}") from None


# ---- tests


def ran(words: list[str], what: str, process_group: int | None = None) -> str:
    """The standard output of a command that has to end with status 0."""
    try:
        done = subprocess.run(words, stdin=subprocess.DEVNULL, capture_output=True, text=True, errors="replace",
                              process_group=process_group)
    except OSError as error:
        raise Stop(f"failed: {what}: {words[0]}: {reason(error)}") from None
    if done.returncode:
        said = " ".join(f"{done.stdout}\n{done.stderr}".split())[:300]
        raise Stop(f"failed: {what}: status {done.returncode}: {said}")
    return done.stdout


def rows(path: str) -> tuple[int, int]:
    """The number of objects in a file and the bytes of their archives, as its rows have them."""
    try:
        with store_file.open_store(path) as conn:
            if "object" not in store_file.tables_of(conn):
                raise Stop(f"failed: test: {path}: it has no table of a store")
            by_base = store_file.read_objects(conn)
    except sqlite3.Error as error:
        raise Stop(f"failed: test: {path}: {reason(error)}") from None
    return len(by_base), sum(item.size for item in by_base.values())


def explain(path: str, config: str | None) -> None:
    """Tests all of a file by nixkeep-explain, which changes nothing."""
    ran([sys.executable, "-BES", f"{HERE}/nixkeep-explain", *(["--config", config] if config else []), path], "test")


def reported(path: str, config: str | None, program: str) -> str:
    """The report that the program prints of a file, which it opens, and so tests, as a server does."""
    text = ran(words_of(program, config, "--db", path, "report"), "test")
    fold(path)
    return text


def test(path: str, config: str | None, program: str, wanted: str | None = None) -> tuple[int, int]:
    """Tests a copy, and returns its number of objects and their bytes. `wanted` is the report that it has to have."""
    counted = rows(path)
    explain(path, config)
    text = reported(path, config, program)
    total = TOTAL.search(text)
    if not total or tuple(map(int, total.groups())) != counted:
        raise Stop(f"failed: test: {path}: its rows have {counted[0]} objects of {counted[1]} bytes, its report others")
    if wanted is not None and text != wanted:
        raise Stop(f"failed: test: {path}: its report isn't that of the server: {' '.join(text.split())}")
    return counted


# ---- an earlier schema


def schema_of(path: str, despite_lock: bool = False) -> int | None:
    """The number of a file's schema, or None if there is no file, or no store in it."""
    # (Path.exists raises an error in a folder that the caller may not look at)
    if not os.path.exists(path):
        return None
    with store_file.open_store(path, despite_lock) as conn:
        if "meta" not in store_file.tables_of(conn):
            return None
        row = conn.execute("SELECT val FROM meta WHERE word = 'schema'").fetchone()
    text = str(row[0]) if row else ""
    return int(text) if store_file.is_schema(text) else None


def before_migration(words: argparse.Namespace) -> str | None:
    """Copies a file of an earlier schema next to itself, in the place of an earlier copy of that schema.

    Returns the line that is printed, or None if nothing is done.
    """
    try:
        number = schema_of(words.db)
    except (sqlite3.Error, store_file.Locked):
        # (the program refuses such a file, and changes nothing)
        return None
    if number is None or number >= max(store_file.LACKS):
        return None
    # (else the copy that another start has begun would get the name of one that is tested)
    with backup_folder.locked(str(Path(words.db).absolute().parent)):
        return keep(words, number)


def keep(words: argparse.Namespace, number: int) -> str:
    """Copies a file of this schema, tests the copy, and gives it its name. Returns the line that is printed."""
    kept, fresh = f"{words.db}-of-schema-{number}", f"{words.db}-of-schema-{number}.new"
    with contextlib.suppress(FileNotFoundError):
        os.unlink(fresh)
    try:
        copy(words.db, fresh)
        counted = rows(fresh)
        explain(fresh, words.config)
        if counted != rows(words.db):
            raise Stop(f"failed: test: {fresh}: the store has other objects")
        backup_folder.sync(fresh)
        os.rename(fresh, kept)
        backup_folder.sync(str(Path(kept).parent))
    finally:
        with contextlib.suppress(FileNotFoundError):
            os.unlink(fresh)
    return f"{kept}: {count_of(counted[0], 'object')}, {counted[1]} bytes, of schema {number}, before it is migrated"


def program_of(words: argparse.Namespace) -> str:
    return words.program or objects.program_beside(Path(sys.argv[0]).absolute().parent)
