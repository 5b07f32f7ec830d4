"""Times commands of nixkeep on a file next to C SQLite on the same tables, in one run.

  openings     `list` over 10,000 objects of 1 KiB, and `add-text` to that file
  large        `list` over 100 objects of 1 MiB
  growing      `list` over 10,000 and over 100,000 small objects, and over as many of 1 KiB with 3 references
  collections  `gc` of 3,048 of 5,000 objects
  archives     an archive of 16 MiB in and out

A command opens the file and tests all of it: it reads each row, and hashes each archive. So it is compared with
python3's sqlite3 reading the same rows once and hashing the same archives, and with its inserts. Both read the file
from the disk: nixkeep has the kernel drop its copies of the file's pages whenever it opens it, and here they are
dropped for C SQLite too; what it takes where they aren't is printed next to that. So is what `sqlite` takes to open
the same rows in tables of another program, which nixkeep doesn't test. Of five rounds the least time is shown. Needs
SQLite 3.37 or later. With --quick, openings have 1,000 objects, and large and growing are left out.
"""
import contextlib
import hashlib
import os
import shutil
import sqlite3
import tempfile

from nixkeep_dev.bench.figures import MIB, ROUNDS, limit, main, memory_of, timed, title, versus
from nixkeep_dev.bench.sqlite import base, delete, drop_pages, filled, foreign, opened
from nixkeep_dev.model.tables import TABLES
from nixkeep_dev.testing.nar import archive


def read(path):
    """What `nixkeep list` does, by C SQLite: reads all rows, and hashes all archives."""
    with contextlib.closing(sqlite3.connect(path, isolation_level=None)) as conn:
        for name, nar, digest in conn.execute("SELECT base, nar, hash FROM object ORDER BY base"):
            hashed = hashlib.sha256(nar)
            for (piece,) in conn.execute("SELECT bytes FROM piece WHERE base = ?1 ORDER BY num", (name,)):
                hashed.update(piece)
            assert hashed.digest() == digest
        for table in {*TABLES} - {"object", "piece"}:
            conn.execute(f"SELECT * FROM {table}").fetchall()


def read_all(path):
    """Seconds of a read of all rows from the disk, by C SQLite."""
    drop_pages(path)
    return timed(read, path)


def test(path):
    """The tests of C SQLite that are like nixkeep's own: of pages, indexes and constraints, and of the object of each
    reference. What an archive is it doesn't test, nor an address."""
    with opened(path) as conn:
        assert conn.execute("PRAGMA integrity_check").fetchall() == [("ok",)]
        objects = {name for name, in conn.execute("SELECT base FROM object")}
        assert all(objects.issuperset(pair) for pair in conn.execute("SELECT base, target FROM refs"))


def read_tested(path):
    drop_pages(path)
    return timed(test, path) + timed(read, path)


def opening(run, folder, objects, size, references, most_times=None, most=None, tested_times=None):
    path = filled(run, f"{tempfile.mkdtemp(dir=folder)}/store.db", objects, size, references)
    other = foreign(run, path)
    listed = lambda file: run(file, "list")[0]
    each = [(read_all(path), timed(read, path), read_tested(path), listed(path), listed(other)) for _ in range(ROUNDS)]
    theirs, kept, tested, ours, alone = map(list, zip(*each))
    title(f"`list` on {objects:,} objects of {size:,} bytes with {references} references each")
    versus("time", theirs, ours, most_times)
    versus("with the tests of `integrity_check` and of references", tested, ours, tested_times)
    versus("where the kernel keeps the file's pages for C SQLite", kept, ours)
    versus("of that, the opening by `sqlite` alone: the same rows in tables of another program", theirs, alone)
    memory = memory_of(run.words(path, "list"))
    limit("memory", memory, most, "MiB")
    limit("memory of the opening by `sqlite` alone", memory_of(run.words(other, "list")), None, "MiB")
    return path, min(ours), memory


def openings(run, words, folder):
    path, _, _ = opening(run, folder, 1000 if words.quick else 10_000, 1024, 3, 3, 48, 3)
    copy = shutil.copy(path, f"{folder}/adding.db")
    alone = min(run(copy, "list")[0] for _ in range(ROUNDS))
    refs = [base(near) for near in range(3)]
    adds = [run(copy, "add-text", f"text{at}", *refs, given=b"%1024d" % at)[0] for at in range(10)]
    limit("`add-text` of 1 KiB with 3 references to that file", adds, None)
    versus("`add-text` next to `list`", alone, adds, None, "`list`")


def large(run, words, folder):
    if not words.quick:
        opening(run, folder, 100, MIB, 0, 2.5, 24)


def growing(run, words, folder):
    """What ten times the objects cost."""
    if not words.quick:
        for size, references in ((200, 1), (1024, 3)):
            _, few, held_of_few = opening(run, folder, 10_000, size, references)
            _, many, held_of_many = opening(run, folder, 100_000, size, references)
            versus("100,000 objects next to 10,000", few, many, 11, "10,000")
            # (among them are pages of the file, of which the archive has 112 more than that)
            more = (held_of_many - held_of_few) * MIB / 90_000
            limit(f"memory for each object of {size:,} bytes more", more, None, "bytes")


def collections(run, words, folder):
    path = filled(run, f"{folder}/collect.db", 5000, 1024, 0, roots=range(1952))
    theirs, ours = [], []
    for _ in range(ROUNDS):
        copy = shutil.copy(path, f"{folder}/theirs.db")
        theirs.append(delete(copy, range(1952, 5000)) + read_all(copy))
        ours.append(run(shutil.copy(path, f"{folder}/ours.db"), "gc")[0])
    title("`gc` of 3,048 of 5,000 objects")
    versus("time", theirs, ours, 4, "reading, hashing and deleting by C SQLite")


def archives(run, words, folder):
    path, nar = f"{folder}/large.db", archive(os.urandom(16 * MIB - 112))
    took, out = run(path, "add-source", "large", given=nar)
    name = out.decode().strip()
    title("an archive of 16 MiB in and out")
    versus("`add-source` into a new file", timed(hashlib.sha256, nar), took, None, "one SHA-256 by C")
    takes = [run(path, "cat-nar", name)[0] for _ in range(ROUNDS)]
    versus("`cat-nar`", [run(path, "list")[0] for _ in range(ROUNDS)], takes, None, "`list`")
    limit("memory of `cat-nar`", memory_of(run.words(path, "cat-nar", name)), 64, "MiB")


if __name__ == "__main__":
    main(__doc__, [openings, large, growing, collections, archives])
