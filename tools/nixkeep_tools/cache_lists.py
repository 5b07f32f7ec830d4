"""Lists that nixkeep-cache keeps next to a store, each as a small database in a file of its own."""
import contextlib
import os
import sqlite3
import sys
from collections.abc import Iterable


# The connections to lists, which are closed at the end.
OPENED = []


def warn(text):
    print(f"nixkeep-cache: warning: {text}", file=sys.stderr, flush=True)


def opened(file: str, table: str) -> sqlite3.Connection:
    """A connection to the list in a file, whose table is made where it isn't there. The store doesn't depend on a list:
    one that is damaged is set aside and begun anew, and one that can't be used is in memory until the next start."""
    create(file)
    try:
        return connected(file, table)
    except sqlite3.OperationalError as error:
        warn(f"{file}: {error}; what is in it isn't used until the next start")
        return connected(":memory:", table)
    except sqlite3.DatabaseError as error:
        warn(f"{file}: {error}; it is begun anew, and {file}.damaged has what it was")
        os.rename(file, f"{file}.damaged")
        for suffix in ("-wal", "-shm"):
            with contextlib.suppress(FileNotFoundError):
                os.unlink(file + suffix)
        create(file)
        return connected(file, table)


def create(file):
    os.close(os.open(file, os.O_CREAT, 0o600))


def connected(file, table):
    conn = sqlite3.connect(file, isolation_level=None, timeout=1)
    try:
        # (so no other file is shared, and a power cut costs the last rows at most, and damages none)
        conn.execute("PRAGMA locking_mode = EXCLUSIVE")
        conn.execute("PRAGMA journal_mode = WAL")
        conn.execute("PRAGMA synchronous = NORMAL")
        conn.execute(f"CREATE TABLE IF NOT EXISTS {table}")
        # (else a damaged page would fail what needs it, each time)
        if (said := conn.execute("PRAGMA quick_check(1)").fetchone()) != ("ok",):
            raise sqlite3.DatabaseError(" ".join(said[0].split()))
        OPENED.append(conn)
        return conn
    except sqlite3.Error:
        conn.close()
        raise


def close() -> None:
    """Closes all lists, so that each is one file."""
    while OPENED:
        with contextlib.suppress(sqlite3.Error):
            OPENED.pop().close()


def rows(conn: sqlite3.Connection, statement: str, values: tuple = ()) -> list[tuple]:
    """What a list has. One that can't be read has nothing: a line says so, and the next start begins it anew."""
    try:
        return conn.execute(statement, values).fetchall()
    except sqlite3.Error as error:
        warn(f"a list can't be read: {error}")
        return []


def add(conn: sqlite3.Connection, statement: str, row: tuple) -> bool:
    """Adds a row, and returns whether it is new. What can't be written is left out, and a line says so."""
    try:
        return conn.execute(statement, row).rowcount > 0
    except sqlite3.Error as error:
        warn(f"a row of a list is left out: {error}")
        return False


def delete(conn: sqlite3.Connection, statement: str, rows: Iterable[tuple]) -> bool:
    """Deletes rows in one transaction, and returns whether it did. What can't be deleted stays, and a line says so: it
    is tried at the next listing."""
    try:
        conn.execute("BEGIN")
        conn.executemany(statement, rows)
        conn.execute("COMMIT")
        return True
    except sqlite3.Error as error:
        warn(f"rows of a list stay: {error}")
        if conn.in_transaction:
            conn.execute("ROLLBACK")
        return False
