"""Stores to measure, which C SQLite makes, and the same work by C SQLite."""
import contextlib
import hashlib
import os
import shutil
import sqlite3
import time
from collections.abc import Callable, Iterable

from nixkeep_dev.model.tables import PIECE, TABLES
from nixkeep_dev.testing.nar import archive

OF_OBJECT = ("object", "refs", "outs", "piece")


def base(number: int) -> str:
    return "%032d-object" % number


def opened(path: str) -> contextlib.closing:
    conn = sqlite3.connect(path, isolation_level=None)
    conn.execute("PRAGMA journal_mode = WAL")
    conn.execute("PRAGMA synchronous = FULL")
    return contextlib.closing(conn)


def drop_pages(path: str) -> None:
    """Has the kernel drop its copies of a file's pages, as nixkeep does of its own file whenever it opens it."""
    with open(path, "rb") as file:
        os.fsync(file.fileno())
        os.posix_fadvise(file.fileno(), 0, 0, os.POSIX_FADV_DONTNEED)


def insert(conn: sqlite3.Connection, name: str, nar: bytes, digest: bytes) -> None:
    """Puts an object: the first part of its archive in its row, the rest in pieces."""
    conn.execute("INSERT INTO object (base, nar, hash) VALUES (?1, ?2, ?3)", (name, nar[:PIECE], digest))
    pieces = [(name, at // PIECE, nar[at : at + PIECE]) for at in range(PIECE, len(nar), PIECE)]
    conn.executemany("INSERT INTO piece VALUES (?1, ?2, ?3)", pieces)


def refer(conn: sqlite3.Connection, name: str, targets: Iterable[int]) -> None:
    conn.executemany("INSERT INTO refs (base, target) VALUES (?1, ?2)", [(name, base(target)) for target in targets])


def filled(run: Callable, path: str, objects: int, size: int, references: int, roots: Iterable[int] = (),
           is_ring: bool = True) -> str:
    """A store of N objects of a size in bytes, each with references to those after it, the last ones to the first
    where they are a ring, and roots that lead to those with these numbers."""
    run(path, "list")
    with opened(path) as conn:
        conn.execute("BEGIN")
        for number in range(objects):
            nar = archive(number.to_bytes(8, "little") * (size // 8))
            insert(conn, base(number), nar, hashlib.sha256(nar).digest())
            targets = {(number + near + 1) % objects for near in range(references)}
            refer(conn, base(number), [target for target in targets if is_ring or target > number])
        named = [(f"root{at}", base(root)) for at, root in enumerate(roots)]
        conn.executemany("INSERT INTO permanent VALUES (?1, ?2)", named)
        conn.execute("COMMIT")
        conn.execute("PRAGMA wal_checkpoint(TRUNCATE)")
    return path


def foreign(run: Callable, path: str) -> str:
    """A copy of a file whose tables are another program's. A command opens it, and finds an empty store next to them:
    all that it tests is what `sqlite` tests by itself."""
    copy = shutil.copy(path, f"{path}-foreign")
    with opened(copy) as conn:
        for name in TABLES:
            conn.execute(f"ALTER TABLE {name} RENAME TO other_{name}")
        conn.execute("PRAGMA wal_checkpoint(TRUNCATE)")
    run(copy, "list")
    return copy


def delete(path: str, numbers: Iterable[int]) -> float:
    """Seconds of deletes of these objects, in one transaction."""
    with opened(path) as conn:
        start = time.perf_counter()
        conn.execute("BEGIN")
        for number in numbers:
            for table in OF_OBJECT:
                conn.execute(f"DELETE FROM {table} WHERE base = ?1", (base(number),))
        conn.execute("COMMIT")
        return time.perf_counter() - start
