"""The schema of a file: whether the store's tables have their form, and what of another program's is in their way."""
import collections
import re
import sqlite3
from collections.abc import Collection, Iterator

from .store_file import FORMS, LACKS

# A rule that a file breaks: the table, the key of the row or None, and the rule in words.
Fault = collections.namedtuple("Fault", "table row rule")
# An entry of SQLite's list of tables, indexes, views and triggers.
Entry = collections.namedtuple("Entry", "type name table root text")
# What an SQLite call raises on a damaged file: a message or a name may be no UTF-8.
DAMAGED = (sqlite3.Error, UnicodeError)
# Quoted parts and comments of SQL, and its words.
_QUOTED = r"'(?:[^']|'')*'|\"(?:[^\"]|\"\")*\"|`(?:[^`]|``)*`|\[[^\]]*\]"
_SQL = re.compile(_QUOTED + r"|--[^\n]*|/\*.*?(?:\*/|\Z)|\w+", re.DOTALL)


def shown(table: str, row: tuple | None) -> str:
    """A row in words: its table and the values of its key."""
    if row is None:
        return table
    return f"{table} ({', '.join(key if isinstance(key, str) and key.isprintable() else repr(key) for key in row)})"


def lower(name: str) -> str:
    """A name as SQLite compares names: by ASCII letters of either case."""
    return name.translate({at: at + 32 for at in range(65, 91)})


def quoted(name: str) -> str:
    return '"' + name.replace('"', '""') + '"'


def entries_of(conn: sqlite3.Connection) -> list[Entry]:
    columns = "type, name, tbl_name, rootpage, coalesce(sql, '')"
    return [Entry(*row) for row in conn.execute(f"SELECT {columns} FROM sqlite_schema")]


def words_of(text: str) -> list[str]:
    """The words of a statement in capitals, with their quotes, and without comments."""
    return [word.upper() for word in _SQL.findall(text) if not word.startswith(("--", "/*"))]


# ---- the form of one table


def form_faults(conn, entry):
    """The rules that a table breaks which has the name of one of the store's."""
    table = lower(entry.name)
    if entry.name != table:
        yield f"the table is named {entry.name}"
        return
    seen = [row for row in conn.execute("SELECT * FROM pragma_table_list(?)", (table,)) if row[0] == "main"]
    if not seen or seen[0][1] != table or entry.table != table:
        yield "the list of tables has another name for it"
        return
    _, _, kind, _, is_keyed, is_strict = seen[0]
    if kind != "table":
        yield f"it is a {kind}, and no table"
        return
    if not is_strict:
        yield "the table isn't STRICT"
    if is_keyed:
        yield "the table is WITHOUT ROWID"
    yield from column_faults(conn, table)
    yield from constraint_faults(conn, entry)


def column_faults(conn, table):
    columns, key = FORMS[table]
    rows = list(conn.execute("SELECT * FROM pragma_table_xinfo(?)", (table,)))
    names, wanted = [row[1] for row in rows], [column.split()[0] for column in columns]
    if names != wanted:
        yield f"the columns are {', '.join(names)}, and have to be {', '.join(wanted)}"
        return
    for at, (_, name, kind, is_required, default, place, hidden) in enumerate(rows):
        may_be_null = columns[at].endswith(" ?")
        if kind.upper().replace("INTEGER", "INT") != columns[at].split()[1].replace("INTEGER", "INT"):
            yield f"column {name} is {kind}, and has to be {columns[at].split()[1]}"
        # (a column of a key is NOT NULL in a STRICT table, whether its text says so or not)
        if not place and bool(is_required) == may_be_null:
            yield f"column {name} {'may' if may_be_null else 'may not'} be NULL, and the table says otherwise"
        if default is not None and default.upper() != "NULL":
            yield f"column {name} has the default {default}"
        if hidden:
            yield f"column {name} is computed"
        if place != (at + 1 if at < key else 0):
            yield f"the key has to be {', '.join(wanted[:key])}"
            return


def constraint_faults(conn, entry):
    words = words_of(entry.text)
    if "CHECK" in words:
        yield "the table has a CHECK"
    if any(word == "COLLATE" and after.strip("\"'`[]") != "BINARY" for word, after in zip(words, words[1:])):
        yield "a column has another collation than BINARY"
    for row in conn.execute("SELECT * FROM pragma_foreign_key_list(?)", (entry.name,)):
        yield f"the table has a foreign key to {row[2]}"


# ---- indexes, triggers and foreign keys


def index_columns(conn, name):
    """The columns of an index that order it: place, number, name, whether it falls, collation, and 1."""
    return [row for row in conn.execute("SELECT * FROM pragma_index_xinfo(?)", (name,)) if row[5]]


def has_hidden_index(conn: sqlite3.Connection, table: str) -> bool:
    """Whether a table has an index with a WHERE or an expression."""
    indexes = conn.execute("SELECT * FROM pragma_index_list(?)", (table,)).fetchall()
    return any(row[4] or any(column[1] == -2 for column in index_columns(conn, row[1])) for row in indexes)


def index_faults(conn, table):
    """Why an index keeps rows out of one of the store's tables, or keeps nixkeep from reading it."""
    wanted = list(range(FORMS[table][1]))
    for _, name, is_unique, origin, is_partial in conn.execute("SELECT * FROM pragma_index_list(?)", (table,)):
        columns = index_columns(conn, name)
        is_key = [row[1] for row in columns] == wanted
        is_plain = all(not row[3] and lower(row[4]) == "binary" for row in columns)
        if is_partial or any(row[1] == -2 for row in columns):
            yield f"index {name} has a WHERE or an expression"
        elif is_unique and not is_key and origin != "pk":
            yield f"the unique index {name} has other columns than the key"
        elif is_unique and not is_plain:
            yield f"the unique index {name} has an order or a collation of its own"


def foreign_keys(conn: sqlite3.Connection, entries: list[Entry]) -> Iterator[tuple[str, str, list[str]]]:
    """Each foreign key: its table, the table that it refers to in small letters, and its columns."""
    for entry in entries:
        keys = collections.defaultdict(list)
        if entry.type == "table":
            for key, _, to, column, *_ in conn.execute("SELECT * FROM pragma_foreign_key_list(?)", (entry.name,)):
                keys[key, lower(to)].append(column)
        for (_, to), columns in keys.items():
            yield entry.name, to, columns


def faults_by_others(conn: sqlite3.Connection, entries: list[Entry]) -> Iterator[Fault]:
    """What another program has that could act on one of the store's tables, there or not."""
    for name, to, _ in foreign_keys(conn, entries):
        if to in FORMS and lower(name) not in FORMS:
            yield Fault(to, None, f"table {name} of another program has a foreign key to it")
    for entry in entries:
        table = lower(entry.table)
        if entry.type == "trigger" and table in FORMS:
            yield Fault(table, None, f"the trigger {entry.name} is on it")


# ---- the whole schema


def taken(entries: list[Entry]) -> dict[str, Entry]:
    """The entries that have a name of one of the store's tables, by this name."""
    return {lower(entry.name): entry for entry in entries if lower(entry.name) in FORMS}


def lacks_counter(entries: list[Entry]) -> bool:
    """Whether a table counts its rowids without the table for it, so that SQLite can't add a table."""
    counts = any(entry.type == "table" and "AUTOINCREMENT" in words_of(entry.text) for entry in entries)
    return counts and "sqlite_sequence" not in {lower(entry.name) for entry in entries}


def number_by_tables(names: Collection[str]) -> int:
    """The schema whose tables these are, or that comes nearest."""
    return 3 if "temp_root" in names else 2 if "piece" in names else 1


def faults(conn: sqlite3.Connection, entries: list[Entry], schema: int) -> Iterator[Fault]:
    """The Faults of the schema, of a file that should have the tables of this one."""
    names = taken(entries)
    for table in FORMS:
        entry, is_lacking = names.get(table), table in LACKS[schema]
        if entry is None and not is_lacking:
            yield Fault(table, None, f"the table is missing, and schema {schema} has it")
        elif entry and is_lacking:
            yield Fault(table, None, f"schema {schema} has no such table, and {described(entry)} has its name")
        elif entry and entry.type != "table":
            yield Fault(table, None, f"{described(entry)} has its name")
        elif entry:
            for rule in (*form_faults(conn, entry), *index_faults(conn, table)):
                yield Fault(table, None, rule)
    yield from faults_by_others(conn, entries)
    yield from shared_trees(entries)
    if schema < 3 and lacks_counter(entries):
        yield Fault("sqlite_sequence", None, "the table is missing, and another program's table counts by it")


def described(entry):
    """An entry in words."""
    article = "an" if entry.type == "index" else "a"
    return f"{article} {entry.type}" + (f" on {entry.table}" if entry.type in ("index", "trigger") else "")


def shared_trees(entries):
    """Tables that have the same pages, which no honest program makes."""
    by_root = collections.defaultdict(list)
    for entry in entries:
        if entry.root:
            by_root[entry.root].append(entry.name)
    for names in by_root.values():
        for table in (name for name in names if len(names) > 1 and name in FORMS):
            yield Fault(table, None, f"its pages are those of {', '.join(name for name in names if name != table)} too")


def is_of_form(conn: sqlite3.Connection, entry: Entry) -> bool:
    """Whether the table has exactly the form of one of the store's."""
    return entry.type == "table" and not list(form_faults(conn, entry))
