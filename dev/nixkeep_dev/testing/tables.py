"""The tables of a store, by SQLite, and stores of the model (dev/nixkeep_dev/model) that are made object by object."""
import contextlib
import random
import shutil
import sqlite3
import subprocess
from collections.abc import Iterable, Iterator

from nixkeep_dev.model import policy, tables, worlds
from nixkeep_dev.model.store import Store
from nixkeep_dev.model.tables import PIECE
from nixkeep_dev.testing import report
from nixkeep_dev.testing.nar import archive, derivation, hidden, nar_hash, source_path, text_path

SHELL = shutil.which("sqlite3")
BEFORE = (
    "CREATE TABLE note (id INTEGER PRIMARY KEY AUTOINCREMENT, t TEXT UNIQUE); INSERT INTO note (t) VALUES ('x'), ('y');"
)
BETWEEN = "CREATE TABLE middle (a TEXT, b BLOB, PRIMARY KEY (a)) WITHOUT ROWID; INSERT INTO middle VALUES ('m', x'00');"
AFTER = ("CREATE TABLE later (id INTEGER PRIMARY KEY, t TEXT); INSERT INTO later VALUES (7, 'z'); "
         "CREATE INDEX targets ON refs (target);")
THEIRS = "SELECT 'note', id, t FROM note; SELECT 'middle', a, hex(b) FROM middle; SELECT 'later', id, t FROM later;"


# ---- SQLite


def made_by(schema: int) -> str:
    """The texts that make the tables of a schema."""
    return "".join(map(tables.making, tables.tables_of(schema)))


ALL = made_by(3)


def statements(text: str) -> Iterator[str]:
    """The statements of a text, one after another; that of a trigger has semicolons within."""
    statement = ""
    for part in text.split(";"):
        statement += part + ";"
        if sqlite3.complete_statement(statement):
            yield statement
            statement = ""


def opened(path: str) -> contextlib.closing:
    return contextlib.closing(sqlite3.connect(path, isolation_level=None))


def sqlite(path: str, text: str) -> str:
    """Runs the statements, and returns the rows that they answer, a line for each with `|` between columns: by
    SQLite's shell, and where it isn't installed by SQLite in python."""
    if SHELL:
        ran = subprocess.run([SHELL, "-batch", "-bail", "-init", "/dev/null", path], input=text, capture_output=True,
                             text=True)
        if ran.returncode or ran.stderr:
            report.fail(f"SQLite: {ran.stderr}: {text[:200]}", path)
        return ran.stdout
    try:
        with opened(path) as conn:
            rows = [row for statement in statements(text) for row in conn.execute(statement)]
    except sqlite3.Error as error:
        report.fail(f"SQLite: {error}: {text[:200]}", path)
    return "".join("|".join(map(str, row)) + "\n" for row in rows)


def put(path: str, rows: dict, first: str = "", last: str = "") -> None:
    """Puts the rows of each table, by SQLite, in one transaction, between these statements."""
    try:
        with opened(path) as conn:
            conn.executescript(first)
            conn.execute("BEGIN")
            for table, of_table in rows.items():
                marks = ", ".join("?" * len(tables.columns_of(table)))
                conn.executemany(f"INSERT INTO {table} VALUES ({marks})", sorted(of_table, key=repr))
            conn.execute("COMMIT")
            conn.executescript(last)
    except sqlite3.Error as error:
        report.fail(f"SQLite: {error}", path)


# ---- stores of the model


class Built(Store):
    """A store of the model that is made object by object."""

    def __init__(self):
        super().__init__(policy.config_of(b""), worlds.World())

    def put(self, base: str, nar: bytes, refs: Iterable[str] = (), deriver: str | None = None,
            address: str | None = None) -> str:
        self.add(base, nar, [*refs], deriver, address, address is not None)
        return base

    def put_text(self, name: str, contents: bytes, refs: Iterable[str] = (), deriver: str | None = None) -> str:
        address = f"text:{nar_hash(contents)}"
        return self.put(text_path(name, contents, refs), archive(contents), refs, deriver, address)

    def put_source(self, name: str, nar: bytes, refs: Iterable[str] = (), deriver: str | None = None) -> str:
        return self.put(source_path(name, nar, refs), nar, refs, deriver, f"fixed:r:{nar_hash(nar)}")

    def rows(self, schema: int = 3) -> dict[str, set]:
        return tables.rows_of(self.world, self.dir, schema)


# Of contents: archives of a row and one byte less or more than pieces among them.
SIZES = [0, 1, 7, 8, 200, 5000, 65_424 - 8, 65_424, 65_424 + 1, 70_000, 2 * PIECE - 112, 2 * PIECE - 111, 300_000]


def some_object(rng, made, at, paths):
    """Puts a random object, which refers to some of these paths."""
    refs, contents = rng.sample(paths, min(len(paths), rng.choice([0, 0, 1, 2, 5]))), rng.randbytes(rng.choice(SIZES))
    deriver = rng.choice([None, None, hidden(f"gone{at}.drv"), *[drv for drv in paths if drv.endswith(".drv")][:3]])
    kind = rng.choice(["text", "source", "imported", "derivation"])
    if kind == "text":
        return made.put_text(f"text{at}", contents, refs, deriver)
    if kind == "source":
        return made.put_source(f"source{at}", archive(contents, rng.random() < 0.5), refs, deriver)
    if kind == "imported":
        path = hidden(f"handed{at}")
        return made.put(path, archive(contents), [*refs, *([path] if rng.random() < 0.3 else [])], deriver)
    names = rng.sample(["out", "dev", "lib"], rng.choice([1, 2]))
    return made.put_text(f"made{at}.drv",
                         derivation({name: rng.choice([hidden(f"out{at}"), *paths]) for name in names}), refs, deriver)


def some_built(rng: random.Random, count: int) -> Built:
    """A store of `count` random objects, and with roots of every kind where chance says so."""
    made, paths = Built(), []
    for at in range(count):
        paths.append(some_object(rng, made, at, paths))
    world, pick = made.world, lambda: rng.choice(paths)
    for at in range(rng.choice([0, 1, 3]) if paths else 0):
        world.permanent[f"root{at}"] = pick()
        world.user[rng.choice(["ann", "bob"]), f"root{at}"] = pick()
        world.runtime.add((f"/proc/{at}/exe", pick()))
        nums = rng.sample([1, 2, 3, 9, 9999], rng.choice([1, 2, 3]))
        profile = worlds.Profile({num: pick() for num in nums}, rng.choice(nums))
        world.profiles[rng.choice(["ann", "bob"]), f"profile{at}"] = profile
        owners, sessions = ["ann", "bob", "c" * 64], [1, 2, 10, 4_194_304]
        world.temporary |= {(rng.choice(owners), rng.choice(sessions), pick()) for _ in range(3)}
    return made
