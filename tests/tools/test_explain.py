"""Tests nixkeep-explain on files that SQLite and the program make.

Each fault of nixkeep_dev.testing.unsound is planted in a file of each schema: table, row and rule are as
explain_faults.txt and explain_schemas.txt have them, and the program refuses the same file; what other programs have in
a file is as explain_others.txt has it. By chance, rows and bytes of random stores change: a fault is found where the
program refuses. What keeps the program from a file, but for its tables, is named: locks, other formats, other
directories, its log.

Needs python3 with SQLite 3.37 or later. `--count` is how many random files are tried (40).
"""
import contextlib
import os
import re
import shutil
import sqlite3
import struct
import subprocess
import sys
import time
from pathlib import Path

import pytest

from nixkeep_dev.build.program import HERE
from nixkeep_dev.model import archives
from nixkeep_dev.model.tables import TABLES, columns_of, making
from nixkeep_dev.testing.nar import STORE, hidden
from nixkeep_dev.testing.requests import text as text_body
from nixkeep_dev.testing.store import copy, killed, remove
from nixkeep_dev.testing.tables import ALL, BEFORE, Built, made_by, put, sqlite, statements
from nixkeep_dev.testing.unsound import Faulty, schemas
from nixkeep_tools import explain, explain_file, store_file
from tests.tools.explained import BAD_SCHEMA, EXPLAIN, change_bytes, explained, some_store

# ---- planted faults

FAULTY = Faulty()
NAMED = {**{getattr(FAULTY, name): f"{{{name}}}" for name in ("low", "top", "drv", "own", "out", "gone")},
         **{hidden(name): f"{{{name}}}" for name in FAULTY.lengths}, "a" * 257: "{257 a}", "a" * 65: "{65 a}"}


def expectations(name):
    """The lines of each fault in a file, by the fault."""
    parts = Path(HERE, "tests/tools", name).read_text().strip().split("\n\n")
    return {part.split("\n")[0]: [line.strip() for line in part.split("\n")[1:]] for part in parts}


FAULTS, SCHEMAS, OTHERS = (expectations(f"explain_{kind}.txt") for kind in ("faults", "schemas", "others"))


def are_lines(lines, wanted):
    """Whether these are the wanted lines; `*` ends one of which only the beginning is known."""
    return len(lines) == len(wanted) and all(
        line.startswith(text[:-1]) if text.endswith("*") else line == text for line, text in zip(lines, wanted))


def lines_of(output, named, dropped):
    """The lines of faults, with names in place of paths and of long texts, but for those that begin so."""
    for text, name in named.items():
        output = output.replace(text, name)
    return [line[2:] for line in output.split("\n") if line.startswith("  ") and not line[2:].startswith(dropped)]


def faults_of(schema):
    """The faults that a file of a schema can have."""
    faults = {**FAULTY.whatever_the_schema(), **(FAULTY.of_pieces() if schema > 1 else {})}
    return {**faults, **({**FAULTY.of_sessions(), **FAULTY.of_tables()} if schema == 3 else {})}


PLANTED = {(schema, what): text for schema in (1, 2, 3) for what, text in faults_of(schema).items()}


@pytest.fixture(scope="module")
def sound(shared_folder):
    """A sound file of each schema."""
    paths = {schema: f"{shared_folder}/sound{schema}.db" for schema in (1, 2, 3)}
    for schema, path in paths.items():
        put(path, FAULTY.store.rows(schema), made_by(schema))
    return paths


@pytest.mark.parametrize("schema", [1, 2, 3])
def test_a_sound_file(nixkeep, sound, schema):
    nixkeep.agrees(sound[schema], f"a sound file of schema {schema}")


@pytest.mark.parametrize("schema, what", PLANTED)
def test_a_fault_in_rows(nixkeep, folder, sound, schema, what):
    path = shutil.copy(sound[schema], f"{folder}/spoiled.db")
    sqlite(path, PLANTED[schema, what])
    lines = lines_of(nixkeep.agrees(path, what), NAMED, "no row is tested")
    assert are_lines(lines, wanted := FAULTS.get(what, [])), f"{lines} where {wanted} is meant"


@pytest.mark.parametrize("count, is_sound", [(4096, True), (4097, False)])
def test_the_limit_of_references(nixkeep, folder, sound, count, is_sound):
    path, own = shutil.copy(sound[3], f"{folder}/many.db"), FAULTY.own
    # (it has two already, and the others are of objects with its archive)
    others = f"WITH RECURSIVE n(i) AS (VALUES (1) UNION ALL SELECT i + 1 FROM n WHERE i < {count - 2}) SELECT"
    sqlite(path, f"""BEGIN;
        INSERT INTO object {others} printf('%032d-n', i), nar, hash, NULL, NULL FROM n, object WHERE base = '{own}';
        INSERT INTO refs {others} '{own}', printf('%032d-n', i) FROM n; COMMIT;""")
    output = nixkeep.agrees(path, f"{count} references")
    assert (f"object ({own}): it has 4097 references, and may have 4096" in output) != is_sound, output[:600]


def test_each_fault_of_the_table_is_planted():
    assert FAULTS.keys() - {what for _, what in PLANTED} == set()


def difference(text):
    """What a schema has that isn't among the tables of the third, or which of these it has."""
    text = text.replace(BEFORE, "")
    extra = [statement.strip() for statement in statements(text) if statement not in {*statements(ALL)}]
    return " ".join(extra) or " ".join(["only", *sorted(table for table in TABLES if making(table) in text)])


OTHER_SCHEMAS = [*schemas()]


@pytest.mark.parametrize("text, answer", OTHER_SCHEMAS, ids=range(len(OTHER_SCHEMAS)))
def test_a_schema(nixkeep, folder, text, answer):
    path, what = f"{folder}/schema.db", difference(text)
    sqlite(path, text + "PRAGMA user_version = 1;")
    if answer == "opened":
        put(path, {"meta": Built().rows()["meta"]})
    output = nixkeep.agrees(path, what)
    if answer == "refused":
        lines = lines_of(output, {}, ("no row is tested", "meta ("))
        assert are_lines(lines, wanted := SCHEMAS.get(what, [])), f"{what}: {lines} where {wanted} is meant"


def test_each_schema_of_the_table_is_planted():
    assert SCHEMAS.keys() - {difference(text) for text, answer in OTHER_SCHEMAS if answer == "refused"} == set()


THEIRS = "CREATE TABLE t (a INTEGER PRIMARY KEY, b TEXT); INSERT INTO t VALUES (1, 'x'); CREATE TABLE u (a TEXT);"


@pytest.mark.parametrize("text", [text for text in OTHERS if not text.startswith("#")])
def test_what_other_programs_have(nixkeep, folder, text):
    """Tables, settings and header bytes."""
    path, first = f"{folder}/others.db", "".join(re.findall("PRAGMA [^;]*;", text))
    sqlite(path, first + THEIRS + ("" if text.startswith("header ") else text[len(first):]))
    if text.startswith("header "):
        with open(path, "r+b") as file:
            file.seek(int(text.split()[1]))
            file.write(bytes.fromhex("".join(text.split()[2:])))
    lines = lines_of(nixkeep.agrees(path, text), {}, "of other programs: ")
    assert are_lines(lines, OTHERS[text]), f"{lines} where {OTHERS[text]} is meant"


# ---- chance


def change_row(rng, path):
    """Deletes, copies or changes one value of a random row."""
    with contextlib.closing(sqlite3.connect(path, isolation_level=None)) as conn:
        table = rng.choice(store_file.tables_of(conn))
        rows = conn.execute(f"SELECT rowid, * FROM {table}").fetchall()
        if not rows:
            return f"nothing in {table}"
        rowid, *values = rng.choice(rows)
        if rng.random() < 0.4:
            conn.execute(f"DELETE FROM {table} WHERE rowid = ?", (rowid,))
            return f"a row of {table} deleted: {str(values)[:200]}"
        at = rng.randrange(len(values))
        column = columns_of(table)[at]
        other = rng.choice(rows)[at + 1]
        changed = {int: lambda old: old + rng.choice([-1, 1, 10_000]), str: lambda old: old[:-1] + rng.choice("ax. /"),
                   bytes: lambda old: old[:-1] + bytes([rng.randrange(256)]), type(None): lambda old: "x"}
        value = rng.choice([other, changed[type(values[at])](values[at])])
        with contextlib.suppress(sqlite3.IntegrityError):
            conn.execute(f"UPDATE {table} SET {column} = ? WHERE rowid = ?", (value, rowid))
        return f"{column} of a row of {table} changed: {str(values)[:200]} {str(value)[:200]}"


def test_random_changes(nixkeep, folder, rng, many):
    for at in range(many):
        path = f"{folder}/chance{at}.db"
        some_store(rng, path)
        nixkeep.agrees(path, "a random store")
        nixkeep.agrees(path, (change_row if rng.random() < 0.6 else change_bytes)(rng, path))
        os.remove(path)


# ---- what is no fault of the tables


def says(words, first, status):
    """What is printed begins with this line, `*` in it for what isn't known, and the status is this."""
    output, came, errors = explained(*words)
    line = (output + errors).split("\n")[0]
    before, star, after = first.partition("*")
    assert came == status, line
    assert line.startswith(before) and line.endswith(after) if star else line == first


LOCKER = """
import fcntl, sys
file = open(sys.argv[1], "r+b")
fcntl.lockf(file, fcntl.{0}, 512, 1 << 30)
print(flush=True)
sys.stdin.read()
"""


def is_locked(path):
    """Whether some process has a lock on a file."""
    return f":{os.stat(path).st_ino} " in Path("/proc/locks").read_text(encoding="ascii")


@pytest.mark.parametrize("kind", ["LOCK_EX", "LOCK_SH"])
def test_a_lock_of_sqlite(nixkeep, path, kind):
    with subprocess.Popen([sys.executable, "-c", LOCKER.format(kind), path], stdin=-1, stdout=-1) as held:
        held.stdout.read(1)
        says([path], f"{path}: {BAD_SCHEMA}: the file is locked by process {held.pid} (*)", 3)
        assert nixkeep(path, "list")[1] == f"{BAD_SCHEMA}\n"
        held.stdin.close()


def test_the_lock_of_a_server(program, path):
    with subprocess.Popen([program, "--db", path, "serve"], stdin=-1, stdout=subprocess.DEVNULL) as server:
        # (nixkeep-explain holds a lock while it reads, so the server has to have its own before)
        end = time.monotonic() + 120
        while not is_locked(path) and time.monotonic() < end:
            time.sleep(0.05)
        line = f"{path}: {BAD_SCHEMA}: the file is locked by process {server.pid} (*serve)"
        says(["--usage", path], line, 3)
        server.stdin.close()


@pytest.mark.parametrize("data, line, status", [
    (b"no database at all\n", "{}: {bad}: no SQLite database: *", 3),
    (b"SQLite format 3\0" + bytes(50), "{}: {bad}: a damaged database: *", 3),
    (b"", "{}: no store yet: an empty database, *", 0)], ids=["a text", "a head alone", "empty"])
def test_no_database(folder, data, line, status):
    other = Path(folder, "other")
    other.write_bytes(data)
    says([str(other)], line.format(other, bad=BAD_SCHEMA), status)


def test_no_file(folder):
    other = f"{folder}/other"
    says([other], f"{other}: failed: there is no such file; *", 1)
    says([f"{other}/none.db"], f"{other}/none.db: {BAD_SCHEMA}: there is no folder {other}", 3)
    says([folder], f"{folder}: {BAD_SCHEMA}: a folder or a device, and no file", 3)


@pytest.mark.parametrize("path", [":memory:", "", "file:x"])
def test_no_path(path):
    says([path], f"{path}: {BAD_SCHEMA}: nixkeep opens no such path: *", 3)


def test_a_lock_without_a_process(path):
    """A lock of an open file belongs to no process, and is there until the file is closed."""
    with open(path, "rb") as seen, open(path, "r+b") as held, open(path, "r+b") as other:
        assert store_file.locker(seen) is None
        assert store_file.lock(held.fileno()) and not store_file.lock(other.fileno())
        assert store_file.locker(seen) == 0
        with pytest.raises(store_file.Locked, match="is locked by another process$"), store_file.open_store(path):
            pass
    with open(path, "rb") as seen:
        assert store_file.locker(seen) is None


def log_head(magic, size):
    """The head of a log: https://www.sqlite.org/fileformat2.html#the_write_ahead_log says how its sum is made."""
    head, sums = struct.pack(">6I", magic, 3_007_000, size, 0, 1, 2), [0, 0]
    words = struct.unpack(f"{'>' if magic & 1 else '<'}6I", head)
    for at in range(0, 6, 2):
        sums[0] = sums[0] + words[at] + sums[1] & 0xFFFFFFFF
        sums[1] = sums[1] + words[at + 1] + sums[0] & 0xFFFFFFFF
    return head + struct.pack(">2I", *sums)


@pytest.mark.parametrize("magic, size, page", [
    (0x377F0682, 4096, 4096), (0x377F0683, 512, 512), (0x377F0683, 65_536, 65_536), (0x377F0683, 256, None),
    (0x377F0682, 131_072, None), (0x377F0682, 4095, None), (0x377F0682, 0, None), (0x377F0684, 4096, None)])
def test_the_head_of_a_log(magic, size, page):
    """By SQLite's description of the format."""
    head = log_head(magic, size)
    assert store_file.page_of_log(head) == page
    assert store_file.page_of_log(head[:31]) is store_file.page_of_log(head[:31] + bytes([head[31] ^ 1])) is None


def test_the_log_of_a_link(path, folder):
    """It is next to the target of the link. What is no file there isn't waited for."""
    os.mkdir(f"{folder}/links")
    os.symlink(path, link := f"{folder}/links/store.db")
    with contextlib.closing(sqlite3.connect(path)) as conn:
        conn.execute("PRAGMA journal_mode = WAL")
        conn.execute("DELETE FROM permanent")
        conn.commit()
        with store_file.open_store(link, despite_lock=True) as seen:
            assert seen.execute("SELECT count(*) FROM permanent").fetchone() == (0,)
    for make in (os.mkfifo, os.mkdir):
        make(f"{path}-wal")
        assert [*store_file.commits(link)] == []
        (os.rmdir if make is os.mkdir else os.unlink)(f"{path}-wal")


def test_a_journal(path):
    Path(f"{path}-journal").write_bytes(b"x")
    says([path], f"{path}: {BAD_SCHEMA}: another program stopped *", 3)


@pytest.mark.parametrize("size, more, is_refused", [(4096, 1 << 20, False), (8192, 24, True), (8192, 23, False),
                                                    (0, 1 << 36, True), (0xFFFFFFF0, 1 << 36, True)])
def test_a_log_of_other_pages(nixkeep, path, size, more, is_refused):
    """A log of another file is refused, and one that is long and sparse takes neither time nor memory."""
    head = struct.pack(">4I8x", 0x377F0682, 3_007_000, size, 0)
    Path(f"{path}-wal").write_bytes(head + struct.pack(">2I", *store_file._sum(head, "<", 0, 0)))
    os.truncate(f"{path}-wal", 32 + more)
    assert nixkeep(path, "list")[2] == (3 if is_refused else 0)
    Path(f"{path}-wal").write_bytes(head + struct.pack(">2I", *store_file._sum(head, "<", 0, 0)))
    os.truncate(f"{path}-wal", 32 + more)
    output, status, errors = explained(path)
    assert (status, errors) == (3 if is_refused else 0, "")
    assert (f"has pages of {size} bytes, and the file has others" in output) == is_refused


def test_a_folder_with_a_long_name(nixkeep, folder):
    """A name has as many bytes as an archive has room for, and is in the paths of all that is in its folder. The test
    of such an archive takes hardly longer than that of one whose bytes are elsewhere: else a user could have the test
    of a copy take hours, so that there are no copies."""
    entries = [archives.spell(b"entry", b"(", b"name", b"%07d" % at, b"node", b"(", b"type", b"symlink", b"target",
                              b"x", b")", b")") for at in range(8_000)]
    long, took = b"n" * (6 << 20), {}
    for name, target in ((b"n", long), (long, b"n")):
        link = [b"entry", b"(", b"name", b"z", b"node", b"(", b"type", b"symlink", b"target", target, b")", b")"]
        head = [b"nix-archive-1", b"(", b"type", b"directory", b"entry", b"(", b"name", name, b"node"]
        archive = archives.spell(*head, b"(", b"type", b"directory")
        archive += b"".join(entries) + archives.spell(b")", b")", *link, b")")
        path = f"{folder}/{len(name)}.db"
        assert nixkeep(path, "add-source", "long", given=archive)[2] == 0
        began = time.monotonic()
        assert explained(path)[1] == 0
        took[name] = time.monotonic() - began
    assert took[long] < 2 + 3 * took[b"n"], took.values()


def test_a_journal_that_names_a_file(path, folder):
    """SQLite would delete that file, whichever it is. The tools leave it, and say so."""
    Path(named := f"{folder}/na\nmed").write_text("any")
    ends = {hot_journal(path, named.encode()): f", and deletes {folder}/na\\nmed, which the journal names",
            b"x" + explain_file.JOURNAL: "", b"x" + struct.pack(">2I", 1 << 31, 0) + explain_file.JOURNAL: "",
            b"x" + bytes(16): "", hot_journal(path, named.encode())[:-1]: ""}
    for data, deletes in ends.items():
        Path(f"{path}-journal").write_bytes(data)
        line = f"left {path}-journal: sqlite3 undoes the change when it opens the file{deletes}\n"
        assert explained(path) == (f"{path}: {BAD_SCHEMA}: another program stopped in a change, and {line}", 3, "")
    Path(f"{path}-journal").write_bytes(next(iter(ends)))
    with store_file.open_store(path) as conn:
        store_file.read(conn)
    assert store_file.version(path) and Path(named).exists()
    sqlite(path, "SELECT * FROM meta")
    assert not Path(named).exists(), "what SQLite does"


def hot_journal(path, named):
    """A journal that has the first page of a file, and names another file as that of a change of several databases."""
    size, page = 4_096, Path(path).read_bytes()[:4_096]
    pages = Path(path).stat().st_size // size
    total = sum(page[at] for at in range(size - 200, 0, -200))
    head = explain_file.JOURNAL + struct.pack(">5I", 1, 0, pages, 512, size)
    end = struct.pack(">I", (1 << 30) // size + 1) + named + struct.pack(">2I", len(named), sum(named))
    return head.ljust(512, b"\0") + struct.pack(">I", 1) + page + struct.pack(">I", total) + end + explain_file.JOURNAL


def test_two_names(nixkeep, path, folder):
    os.link(path, f"{folder}/other")
    says([path], f"{path}: {BAD_SCHEMA}: the file has 2 names *", 3)
    assert nixkeep(path, "list")[1] == f"{BAD_SCHEMA}\n"


def test_a_log_that_is_a_link(path, folder):
    os.symlink(f"{folder}/other", path + "-wal")
    says([path], f"{path}: {BAD_SCHEMA}: its log {path}-wal is a link, *", 3)


@pytest.mark.parametrize("text, line", [("x = ", "syntax: *"), ('store-dir = "/"', "store-dir"),
                                        ("keep-outputs = 1", "keep-outputs")])
def test_a_wrong_configuration(path, folder, text, line):
    config = Path(folder, "explain.toml")
    config.write_text(text)
    says(["--config", str(config), path], f"{config}: refused: 19 bad-config {line}", 3)


def test_another_directory(path, folder):
    config = f"{folder}/explain.toml"
    says(["--config", config, path], f"failed: No such file or directory: {config}", 1)
    Path(config).write_text('store-dir = "/a/store"')
    says(["--config", config, path],
         f"{path}: refused: 22 other-store-dir: a sound store of {STORE}, and not of /a/store", 3)


def test_a_later_version(path):
    sqlite(path, "UPDATE meta SET val = '4' WHERE word = 'schema';")
    says([path], f"{path}: {BAD_SCHEMA}: made by a later version of nixkeep: schema 4; *", 3)


def test_another_program_with_a_name_in_use(folder):
    foreign = f"{folder}/foreign.db"
    sqlite(foreign, "CREATE TABLE object (id INTEGER PRIMARY KEY); CREATE TABLE other (a TEXT);")
    says([foreign], f"{foreign}: {BAD_SCHEMA}: the database of another program, *: object", 3)
    sqlite(foreign, "DROP TABLE object;")
    says([foreign], f"{foreign}: no store yet: the database of another program, *", 0)


@pytest.mark.parametrize("words, status", [([], 2), (["--conf", "x", "{}"], 2), (["--help"], 0), (["{}"], 0)])
def test_the_status_of_the_command(path, words, status):
    assert subprocess.run([EXPLAIN, *[word.format(path) for word in words]], capture_output=True).returncode == status


def test_a_full_disk(path):
    with open("/dev/full", "w") as full:
        ran = subprocess.run([EXPLAIN, path], stdout=full, stderr=subprocess.PIPE)
    assert (ran.stderr, ran.returncode) == (b"failed: No space left on device: standard output\n", 1)


@pytest.mark.parametrize("name", ["man/nixkeep-explain.1", "completion/nixkeep-explain.bash"])
def test_each_option_is_in(name):
    options = [option for action in explain.parser()._actions for option in action.option_strings
               if option.startswith("--")]
    text = Path(HERE, name).read_text().replace("\\-", "-")
    assert [option for option in options if option not in text] == []


def test_a_file_and_its_folder_are_left_alone(program, folder):
    """Also where the rows are in the log alone."""
    path = f"{folder}/store.db"
    killed(program, path, [("root", "POST", "/text", text_body("t", b"text"))])
    before = {file.name: file.read_bytes() for file in sorted(Path(folder).iterdir())}
    says([path], f"{path}: sound: 1 object of 120 bytes in {STORE}, schema 3", 0)
    assert {file.name: file.read_bytes() for file in sorted(Path(folder).iterdir())} == before


# ---- its log


@pytest.fixture
def logged(program, folder):
    """A file with three objects, which are in its log alone, and the bytes of the log."""
    path = f"{folder}/logged.db"
    for at in range(3):
        killed(program, path, [("root", "POST", "/text", text_body(f"t{at}", b"text"))])
    return path, Path(path + "-wal").read_bytes()


def test_a_damaged_log(nixkeep, folder, rng, many, logged):
    """The program and SQLite take the commits before the damage, and the log stays as it is."""
    (path, whole), other = logged, f"{folder}/damaged.db"
    for _ in range(min(many, 20)):
        log, frame = bytearray(whole), 32 + 4120 * rng.randrange(len(whole) // 4120)
        at = rng.choice([rng.randrange(32), frame + rng.randrange(24), frame + rng.randrange(4120)])
        log[at] ^= 1 << rng.randrange(8)
        end = rng.choice([len(log), frame])
        del log[end:]
        shutil.copy(path, other)
        Path(other + "-wal").write_bytes(log)
        output, status, _ = explained(other)
        log_said = by_itself(other)
        assert Path(other + "-wal").read_bytes() == bytes(log)
        wanted = from_sqlite(folder, other)
        # (nothing counts where its head is damaged)
        assert log_said == (None if at < 32 else wanted[:2]), f"{at} changed of {end}: {output}"
        assert at >= 32 or wanted[2] == 0
        listed, errors, came = nixkeep(other, "list")
        assert (status, came) == (0, 0), output
        count_in = f"sound: {listed.count(chr(10))} object" if "no store yet" not in output else "no store yet"
        assert count_in in output, listed
        if 32 <= at and "no store yet" not in output:
            # (a command gives the first frame that doesn't count another salt: of one alone nothing is said any more)
            left = (0, 0) if log_said[0] == 1 else log_said
            assert by_itself(other) == left, f"after a command has read it: {output}"


def test_a_damaged_page_of_each_frame(folder, logged):
    """As many adds are lost by SQLite's reading as commits by --log."""
    (path, whole), other = logged, f"{folder}/damaged.db"
    for frame in range(32, 32 + 4120 * (len(whole) // 4120), 4120):
        if whole[frame + 8:frame + 16] == whole[16:24]:
            shutil.copy(path, other)
            damaged = whole[:frame + 1000] + bytes([whole[frame + 1000] ^ 1]) + whole[frame + 1001:]
            Path(other + "-wal").write_bytes(damaged)
            _, commits, objects = from_sqlite(folder, other)
            assert by_itself(other)[1] == commits, frame
            assert min(commits, 3) == 3 - objects, frame


@pytest.mark.parametrize("more", [b"", b"\0" * 24, b"own"])
def test_a_log_with_holes(more, logged):
    """It is said at once: a log of terabytes may have no more than a frame on the disk."""
    path, whole = logged
    count = (1 << 40) // 4120
    with open(f"{path}-wal", "r+b") as log:
        log.truncate(32 + 4120 * count)
        # (a frame of the log's own salt at its end, which ends a commit)
        frame = bytes(4) + b"\1" * 4 + whole[16:24] + bytes(8) if more == b"own" else more
        os.pwrite(log.fileno(), frame, 32 + 4120 * (count - 1))
    used = sum(whole[at + 8:at + 16] == whole[16:24] for at in range(32, len(whole), 4120))
    assert by_itself(path) == ((count - used, 1) if more == b"own" else (0, 0))


def from_sqlite(folder, path):
    """What has to be said of the log of a file, and its objects: SQLite says how many frames count."""
    log = Path(path + "-wal").read_bytes()
    copied = copy(path, f"{folder}/read.db")
    with contextlib.closing(sqlite3.connect(copied)) as conn:
        used = max(conn.execute("PRAGMA wal_checkpoint").fetchone()[1], 0)
        is_made = conn.execute("SELECT count(*) FROM sqlite_schema WHERE name = 'object'").fetchone()[0]
        objects = conn.execute("SELECT count(*) FROM object").fetchone()[0] if is_made else 0
    remove(copied)
    heads = [log[at:at + 24] for at in range(32, len(log) - 4119, 4120)]
    written = max((at for at, head in enumerate(heads, 1) if head[8:16] == log[16:24]), default=0)
    left = heads[used:max(written, used)]
    return len(left), sum(head[4:8] != bytes(4) for head in left), objects


def by_itself(path):
    """What --log says of the log of a file, as the numbers of frames and of commits; None if its head is damaged."""
    output, status, errors = explained("--log", path)
    match = re.fullmatch(rf"{re.escape(path)}: its log: (\d+) frames? at its end (?:don't|doesn't) count, "
                         r"with (\d+) commits?: (.*)\n", output)
    counted = (int(match[1]), int(match[2])) if match else (0, 0)
    if "its head is damaged" in output:
        return None
    assert (status, errors) == (3 if counted[1] else 0, ""), output
    assert bool(match) == bool(output), "one line or none"
    return counted
