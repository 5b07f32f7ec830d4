"""What nixkeep asks of the whole file, the tables of other programs included: header, pages and foreign keys."""
import contextlib
import re
import sqlite3
from collections.abc import Iterator
from pathlib import Path

from . import store_file
from .explain_rows import scanned
from .explain_schema import DAMAGED, Entry, Fault, foreign_keys, has_hidden_index, lower, quoted, words_of
from .store_file import FORMS

THE_FILE = "the file"
MOST = 1_000
HIDDEN = "a trigger, or an index with a WHERE or an expression"
_ROW = re.compile(r"row (\d+) missing from index (?:sqlite_autoindex_)?(\w+?)(?:_\d+)?")
_COLUMN = re.compile(r"(?:NULL|non-\w+|\w+) value in (\w+)\.(\w+)")
_PAGE = re.compile(r"\bpage (\d+)", re.IGNORECASE)


# ---- the header


def number(data, at, size=4):
    return int.from_bytes(data[at:at + size], "big")


def header_faults(path):
    """The rules that the first 100 bytes of the database break."""
    with open(path, "rb") as file:
        head, pages = file.read(100), None
    if not head:
        return
    for first, pages, _ in store_file.commits(path):
        head = first or head
    size = 65_536 if number(head, 16, 2) == 1 else number(head, 16, 2)
    if size not in (512 << at for at in range(8)):
        yield f"bytes 16 and 17 state pages of {size} bytes, which SQLite hasn't"
        return
    pages = Path(path).stat().st_size // size if pages is None else pages
    yield from setting_faults(head)
    if number(head, 28) != pages:
        yield f"bytes 28 to 31 state {number(head, 28)} pages, and there are {pages}"
    if head[20] == 8:
        yield from sum_faults(path, size)


def sum_faults(path, size):
    """The pages whose last 8 bytes, which are reserved, aren't the checksum that SQLite's cksumvfs writes there."""
    with open(path, "rb") as file:
        for at, page in enumerate(iter(lambda: file.read(size), b""), 1):
            if len(page) == size and store_file.checksum(page[:-8]) != page[-8:]:
                yield f"page {at} doesn't end in its checksum, for which byte 20 reserves 8 bytes"


def setting_faults(head):
    """The rules on the settings in a header."""
    if head[18:20] not in (b"\1\1", b"\2\2"):
        yield "bytes 18 and 19 state no version of the format that nixkeep knows"
    if head[20] not in (0, 8) or head[21:24] != b"\x40\x20\x20":
        yield "bytes 20 to 23 reserve bytes of each page, or state other parts of a page than 64, 32 and 32"
    if number(head, 44) not in (0, 4):
        yield f"bytes 44 to 47 state format {number(head, 44)} of the schema, and have to state 4"
    if number(head, 52) or number(head, 64):
        yield "auto_vacuum is on: PRAGMA auto_vacuum = NONE and VACUUM turn it off"
    if number(head, 56) not in (0, 1):
        yield "texts are in UTF-16, and have to be in UTF-8"
    if number(head, 24) != number(head, 92):
        yield "bytes 24 to 27 and 92 to 95 differ, so the number of pages isn't known"


# ---- pages


def owners(conn):
    """By page the table or index whose it is, where SQLite can say."""
    try:
        return dict(conn.execute("SELECT pageno, name FROM dbstat"))
    except DAMAGED:
        return {}


def table_of(name, tables):
    """The table of a table or an index."""
    return tables.get(name, name)


def key_of(conn, table, rowid):
    """The key of a row by its number, if it can be read."""
    columns, key = FORMS[table]
    names = ", ".join(column.split()[0] for column in columns[:key])
    try:
        return conn.execute(f"SELECT {names} FROM {table} NOT INDEXED WHERE rowid = ?", (rowid,)).fetchone()
    except DAMAGED:
        return None


def page_faults(conn, entries):
    """The Faults that SQLite's own check finds, of the store's tables by their names."""
    try:
        lines = [line for row in conn.execute(f"PRAGMA integrity_check({MOST})") for line in row[0].split("\n")]
    except DAMAGED as error:
        yield Fault(THE_FILE, None, f"SQLite can't check its pages: {error}")
        return
    tables, pages = {entry.name: entry.table for entry in entries}, None
    for line in lines:
        if line == "ok" or line.startswith("*** in database"):
            continue
        row, column, page = _ROW.fullmatch(line), _COLUMN.match(line), _PAGE.search(line)
        if row and row[2] in FORMS:
            yield Fault(row[2], key_of(conn, row[2], int(row[1])), "the row is missing from an index")
        elif column and column[1] in FORMS:
            yield Fault(column[1], None, line)
        else:
            pages = owners(conn) if pages is None and page else pages
            name = (pages or {}).get(int(page[1])) if page else None
            yield Fault(table_of(name, tables) if name else THE_FILE, None, line)


# ---- tables of other programs


def key_faults(conn, entries):
    """The Faults of rows that refer by a foreign key to none."""
    for listed in (entry for entry in entries if entry.type == "table" and not entry.name.startswith("sqlite_")):
        # (SQLite doesn't check a key to columns that are no key themselves)
        rows, _ = scanned(conn, f"PRAGMA foreign_key_check({quoted(listed.name)})")
        for table, rowid, to, _ in rows:
            yield Fault(table, None if rowid is None else (rowid,), f"a foreign key to {to} finds no row there")


def check_faults(conn, entries):
    """The Faults of rows that break a CHECK. SQLite's own check passes over these in a file that it only reads.

    nixkeep tests the tables that it could write.
    """
    untested = frozen(conn, entries) | set(FORMS)
    for entry in entries:
        if entry.type == "table" and "CHECK" in words_of(entry.text) and lower(entry.name) not in untested:
            with contextlib.closing(sqlite3.connect(":memory:")) as alone, contextlib.suppress(*DAMAGED):
                yield from broken_checks(conn, entry, alone)


def broken_checks(conn, entry, alone):
    """The Faults of one table, whose rows are put one by one into a table of the same text in another database."""
    alone.execute(entry.text)
    columns = alone.execute("SELECT name, hidden FROM pragma_table_xinfo(?)", (entry.name,)).fetchall()
    names, marks = ", ".join(quoted(name) for name, _ in columns), ", ".join("?" * len(columns))
    if any(hidden for _, hidden in columns):
        return
    for row in conn.execute(f"SELECT {names} FROM {quoted(entry.name)}"):
        try:
            alone.execute(f"INSERT INTO {quoted(entry.name)} ({names}) VALUES ({marks})", row)
        except sqlite3.IntegrityError as error:
            if "CHECK" in str(error):
                yield Fault(entry.name, row, str(error))
        alone.execute(f"DELETE FROM {quoted(entry.name)}")


def frozen(conn, entries):
    """The tables that nixkeep can't write, since they have a trigger or an index with a WHERE or an expression."""
    tables = {lower(entry.table) for entry in entries if entry.type == "trigger"}
    return tables | {lower(entry.name) for entry in entries
                     if entry.type == "table" and has_hidden_index(conn, entry.name)}


def faults_of_others(conn, entries):
    """What of other programs keeps nixkeep from the whole file, whatever the store's tables are."""
    kinds = {lower(entry.name): entry.type for entry in entries if entry.type in ("table", "view")}
    unwritten = frozen(conn, entries) - set(FORMS)
    for entry in entries:
        if entry.type == "table" and "VIRTUAL" in words_of(entry.text)[:2]:
            yield Fault(entry.name, None, "a virtual table, which nixkeep doesn't know")
        if entry.type == "trigger" and kinds.get(lower(entry.table)) == "view":
            yield Fault(entry.table, None, f"the trigger {entry.name} is on a view")
        if entry.type == "trigger" and lower(entry.name) in kinds:
            yield Fault(entry.table, None, f"the trigger {entry.name} has the name of a table or a view")
        if entry.type == "table" and lower(entry.name) in unwritten and "references" in lower(entry.text):
            yield Fault(entry.name, None, f"the table has the word REFERENCES, and {HIDDEN}")
    for name, to, columns in foreign_keys(conn, entries):
        if to in unwritten and lower(name) not in unwritten and has_reference(conn, name, columns):
            yield Fault(name, None, f"a row refers to {to}, which has {HIDDEN}")


def has_reference(conn, table, columns):
    """Whether a row of a table refers to one by these columns: none of them is NULL."""
    values = " AND ".join(f"{quoted(column)} IS NOT NULL" for column in columns)
    return conn.execute(f"SELECT EXISTS (SELECT 1 FROM {quoted(table)} WHERE {values})").fetchone()[0]


def faults(conn: sqlite3.Connection, entries: list[Entry], path: str) -> Iterator[Fault]:
    """All Faults of the file as a whole."""
    yield from (Fault(THE_FILE, None, rule) for rule in header_faults(path))
    yield from page_faults(conn, entries)
    yield from key_faults(conn, entries)
    yield from check_faults(conn, entries)
    yield from faults_of_others(conn, entries)
