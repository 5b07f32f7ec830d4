"""Compares stores in database files with SQLite and with the model of a store in nixkeep_dev.model, both ways.

Sound stores of random objects and roots, which SQLite makes, are opened by `nixkeep --db`: it lists, describes and
reports what the model has, and what it then adds, sets, drops and collects SQLite finds in the file, archives
cut in pieces. A row with each fault of nixkeep_dev.testing.unsound makes a store unsound, and each schema there has
its answer: a store, no store at all, or a refusal; a file that is refused stays as it was. Files of the two earlier
schemas, which SQLite makes, are brought to the third by their first command: the world is the model's before and
after, what SQLite finds then is exactly a file of the third, and a migration that has no room leaves the file as it
was. `--count` files of each kind are tried (5). SQLite's shell does what is more than rows, where it is installed; the
SQLite of python3 all else. Both have to be 3.37 or later.
"""
import random
import re
import subprocess
from pathlib import Path

import pytest

from nixkeep_dev.model.commands import Machine
from nixkeep_dev.model.runs import rows_in
from nixkeep_dev.model.tables import TABLES, Database, making, tables_of
from nixkeep_dev.testing import report
from nixkeep_dev.testing.nar import archive, text_path
from nixkeep_dev.testing.report import same
from nixkeep_dev.testing.store import Store, copy, small_files
from nixkeep_dev.testing.tables import AFTER, ALL, BEFORE, BETWEEN, THEIRS, Built, opened, put, some_built, sqlite
from nixkeep_dev.testing.unsound import Faulty, schemas

COUNT = 5
BAD_SCHEMA = "refused: 21 bad-schema\n"
NO_TEXT = "UPDATE {0} SET {1} = CAST(x'ff' AS TEXT) WHERE rowid = (SELECT min(rowid) FROM {0});"
OTHER_DIR = "refused: 22 other-store-dir\n"
SHOWN = "list", "roots", "live", "dead", "report"
MODES = ["PRAGMA journal_mode = WAL;", "PRAGMA page_size = 512;", ""]


# ---- what nixkeep says


class Refusing(Store):
    """The program on a file that it has to refuse."""

    def refuses(self, line, what, **more):
        """The file is refused with this line, and stays as it is."""
        before = Path(self.path).read_bytes()
        same(what, self.run("list", **more), (b"", line, 3), self.path)
        if Path(self.path).read_bytes() != before:
            report.fail(f"{what}: the file isn't what it was", self.path)


class Both(Store):
    """The program on a file, and the model on the same store."""

    def __init__(self, file, path, built=None):
        super().__init__(file, path)
        built, self.database = built or Built(), Database({})
        self.world = self.database.world = built.world
        self.database.dir, self.machine = built.dir, Machine({}, {path: self.database})

    def says(self, *words, given=b"", user="root"):
        """Runs the words, which print what the model says, and end with 0."""
        wanted, _, _ = self.machine.run(["--db", self.path, "--user", user, *words], given)
        same(" ".join(words), self.run(*words, given=given, user=user), (wanted, "", 0), self.path)

    def compare(self, rng, what):
        """The file is sound for SQLite and has the model's rows, and the program shows the model."""
        check = sqlite(self.path, "PRAGMA integrity_check; PRAGMA foreign_key_check;")
        same(f"{what}: what SQLite's own check says", check, "ok\n", self.path)
        if rows_in(self.path) != self.database.final_rows():
            report.fail(f"{what}: other rows", self.path)
        for path in rng.sample(sorted(self.world.objects), min(4, len(self.world.objects))):
            self.says("info", path)
            self.says("cat-nar", path)
        for word in SHOWN:
            self.says(word)
        self.says("roots", user="stan")

    def change(self, rng):
        """Adds, sets and drops."""
        refs = rng.sample(sorted(self.world.objects), min(3, len(self.world.objects)))
        contents = rng.randbytes(rng.choice([0, 100, 65_424, 65_425, 200_000]))
        path = text_path("added", contents, refs)
        self.says("add-text", "added", *refs, given=contents)
        self.says("root", "--permanent", "mine", path)
        self.says("root", "hers", path, user="ann")
        for name in [key for key in self.world.permanent if rng.random() < 0.3]:
            self.says("unroot", "--permanent", name)
        for owner, name in [key for key in self.world.user if rng.random() < 0.3]:
            self.says("unroot", "--owner", owner, name)
        self.sessions(rng, path)

    def change_and_collect(self, rng, what):
        for how, change in (("changed", lambda: self.change(rng)), ("collected", lambda: self.says("gc"))):
            change()
            self.compare(rng, f"{what}, {how} here")

    def sessions(self, rng, path):
        """Temporary roots of ann's are added, some twice, and sessions are ended by their owners or by root."""
        for number in (1, 7, 7, 4_194_304):
            self.says("temp", "add", str(number), path, user="ann")
        for owner, number in sorted({(owner, number) for owner, number, _ in self.world.temporary}):
            if rng.random() < 0.4:
                words, user = rng.choice([(["--owner", owner], "root"), ([], owner)])
                self.says("temp", *words, "end", str(number), user=user)


def laid(schema, path, built, rng=None, mode=""):
    """A file of a schema that SQLite makes: its tables in any order, with those of foreign programs, where chance says
    so."""
    made = [making(table) for table in tables_of(schema)]
    if rng:
        rng.shuffle(made)
    first, between, last = (mode + BEFORE, BETWEEN, AFTER) if rng else ("", "", "")
    put(path, built.rows(schema), first + "".join(made[:4]) + between + "".join(made[4:]), last)


def theirs_first(rng, file, path):
    """A store that SQLite makes, with tables of foreign programs, which stay."""
    built = some_built(rng, rng.choice([0, 1, 5, 30]))
    laid(3, path, built, rng, rng.choice(MODES))
    their_rows, store = sqlite(path, THEIRS), Both(file, path, built)
    store.compare(rng, "made by SQLite")
    store.change_and_collect(rng, "made by SQLite")
    same("rows of foreign tables", sqlite(path, THEIRS), their_rows, path)


def ours_first(rng, file, path):
    """A store that the program makes, with a foreign program's table or not; then SQLite puts rows."""
    is_beside = rng.random() < 0.5
    if is_beside:
        sqlite(path, BEFORE)
    store, more = Both(file, path), some_built(rng, 10).world
    store.change(rng)
    store.compare(rng, "made here")
    old = store.database.final_rows()
    for name in ("objects", "permanent", "user", "profiles", "runtime", "temporary"):
        setattr(store.world, name, getattr(more, name) | getattr(store.world, name))
    put(path, {table: of_table - old[table] for table, of_table in store.database.final_rows().items()}, last=AFTER)
    store.compare(rng, "made here, rows put by SQLite")
    if is_beside:
        same("rows of a foreign table", sqlite(path, "SELECT t FROM note ORDER BY id;"), "x\ny\n", path)


@pytest.mark.parametrize("change", [theirs_first, ours_first])
def test_stores(program, folder, rng, count, change):
    for at in range(count or COUNT):
        change(rng, program, f"{folder}/{at}.db")


# ---- faults, each of which makes a sound store unsound


def other_directory(folder):
    """The options for a store of another directory."""
    Path(config := f"{folder}/other.toml").write_text('store-dir = "/a/store"\n')
    return ["--config", config]


def refuse_each(file, folder, path, faults, of_what=""):
    for what, text in faults.items():
        sqlite(spoiled := copy(path, f"{folder}/spoiled.db"), text)
        Refusing(file, spoiled).refuses(BAD_SCHEMA, what + of_what)


@pytest.fixture
def faulty():
    return Faulty()


@pytest.fixture
def sound(faulty, folder):
    """A file of a sound store."""
    put(path := f"{folder}/sound.db", faulty.store.rows(), ALL)
    return path


def test_a_sound_store(program, sound, faulty):
    Both(program, sound, faulty.store).compare(random.Random(1), "a sound store")


def test_another_store_directory(program, sound, folder):
    Refusing(program, sound).refuses(OTHER_DIR, "another store directory", options=other_directory(folder))


def test_faults_of_rows_and_tables(program, folder, sound, faulty):
    faults = {**faulty.whatever_the_schema(), **faulty.of_pieces(), **faulty.of_sessions(), **faulty.of_tables()}
    refuse_each(program, folder, sound, faults)


# ---- schemas


def test_schemas(program, folder):
    for at, (text, wanted) in enumerate(schemas()):
        path = f"{folder}/schema{at}.db"
        sqlite(path, text + "PRAGMA user_version = 1;")
        refusing, what = Refusing(program, path), f"...{text[-200:]}"
        if wanted == "refused":
            refusing.refuses(BAD_SCHEMA, what)
            continue
        if wanted == "opened":
            refusing.refuses(BAD_SCHEMA, f"no settings in {what}")
            put(path, {"meta": Built().rows()["meta"]})
        store, rng = Both(program, path), random.Random(at)
        store.change(rng)
        store.compare(rng, what)


def misfits():
    """Tables and numbers of schemas that don't go together: the number, the tables, and what else is there."""
    for lacking in ([], ["piece"], ["temp_root"], ["piece", "temp_root"]):
        for schema in (1, 2, 3):
            tables = [table for table in TABLES if table not in lacking]
            if tables != tables_of(schema):
                yield schema, tables, ""
    for schema, more in ((1, "CREATE VIEW piece AS SELECT 1;"), (1, "CREATE VIEW temp_root AS SELECT 1;"),
                         (2, "CREATE TABLE t (a TEXT); CREATE INDEX temp_root ON t (a);")):
        yield schema, tables_of(schema), more


def test_tables_that_are_of_no_schema(program, folder):
    for at, (schema, tables, more) in enumerate(misfits()):
        path, rows = f"{folder}/number{at}.db", Built().rows(schema)
        put(path, {table: content for table, content in rows.items() if table in tables},
            "".join(map(making, tables)), more)
        Refusing(program, path).refuses(BAD_SCHEMA, f"schema {schema} with {', '.join(tables)} {more}")


def test_texts_that_are_no_utf_8(program, folder, sound):
    """In each column that has texts."""
    spoiled = [(table, column) for table, (columns, *_) in TABLES.items()
               for column in re.findall(r"(\w+) TEXT", columns)]
    texts = {f"bytes that are no text in {place[1]} of {place[0]}": NO_TEXT.format(*place) for place in spoiled}
    refuse_each(program, folder, sound, texts)


# ---- files of the earlier schemas


def forms_of(conn):
    """What SQLite shows of the store's tables: their columns and keys."""
    forms = {}
    for table in TABLES:
        keys = [name for _, name, _, origin, _ in conn.execute(f"PRAGMA index_list({table})") if origin == "pk"]
        forms[table] = (conn.execute(f"SELECT type, ncol, wr, strict FROM pragma_table_list('{table}')").fetchall(),
                        conn.execute(f"PRAGMA table_info({table})").fetchall(),
                        [conn.execute(f"PRAGMA index_xinfo({name})").fetchall() for name in keys])
    return forms


def third(store, rng, what):
    """The file is one of the third schema, with the model's world."""
    with opened(":memory:") as fresh, opened(store.path) as conn:
        fresh.executescript(ALL)
        same(f"{what}: the tables", forms_of(conn), forms_of(fresh), store.path)
    store.compare(rng, what)


def migrated(rng, file, path, schema):
    """A random world in a file of an earlier schema: one command migrates it, whichever it is."""
    built = some_built(rng, rng.choice([0, 1, 5, 30]))
    built.world.temporary.clear()
    laid(schema, path, built, rng, rng.choice(MODES))
    their_rows, store, what = sqlite(path, THEIRS), Both(file, path, built), f"a file of schema {schema}"
    store.says(*rng.choice([[word] for word in SHOWN] + [["cat-nar", base] for base in [*store.world.objects][:3]]))
    third(store, rng, what)
    store.change_and_collect(rng, what)
    same(f"{what}: rows of foreign tables", sqlite(path, THEIRS), their_rows, path)


EARLIER = pytest.mark.parametrize("schema", [1, 2])


@EARLIER
def test_unsound_files_of_an_earlier_schema(program, folder, faulty, schema):
    """A fault, or another store directory, leaves an earlier file as it was."""
    path = f"{folder}/sound{schema}.db"
    faulty.store.world.temporary.clear()
    laid(schema, path, faulty.store)
    faults = {**faulty.whatever_the_schema(), **(faulty.of_pieces() if schema == 2 else {})}
    refuse_each(program, folder, path, faults, f" in a file of schema {schema}")
    what = f"another store directory in a file of schema {schema}"
    Refusing(program, path).refuses(OTHER_DIR, what, options=other_directory(folder))
    sound = Both(program, copy(path, f"{folder}/after{schema}.db"), faulty.store)
    sound.says("list")
    third(sound, random.Random(3), f"a sound file of schema {schema}")


def test_a_migration_without_room(program, folder, rng):
    """The file has the rows of before, and is migrated by the next command."""
    built, path = Built(), f"{folder}/large.db"
    for at in range(40):
        built.put_source(f"source{at}", archive(rng.randbytes(300_000)))
    laid(1, path, built)
    words = [program, "--db", path, "--user", "root", "list"]
    ran = subprocess.run(words, capture_output=True, preexec_fn=small_files)
    same("a migration without room", (ran.stdout, ran.stderr, ran.returncode), (b"", b"failed: disk\n", 1), path)
    if rows_in(path) != built.rows(1):
        report.fail("a migration without room: other rows than before", path)
    store = Both(program, path, built)
    store.says("list")
    third(store, rng, "a migration that had no room before")


@EARLIER
def test_migrations(program, folder, rng, count, schema):
    for at in range(count or COUNT):
        migrated(rng, program, f"{folder}/earlier{schema}-{at}.db", schema)
