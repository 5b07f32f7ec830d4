"""What the tables of a file are, every rule that they break, and what nixkeep answers of them."""
import sqlite3
from collections.abc import Iterator

from . import explain_pages, explain_rows, explain_schema, paths
from .count_of import count_of
from .explain_schema import Fault
from .store_file import FORMS, LACKS, is_schema

BAD_SCHEMA, OTHER_DIR = "21 bad-schema", "22 other-store-dir"
LAST = max(LACKS)


class Examined:
    """The tables of a connection.

    `faults` are all broken rules. `rows` and `objects` are what was read of the store's tables, None if there are none;
    `row_faults` are the rules that they break, and belong to `faults` if `are_rows_tested`.
    """

    def __init__(self, conn: sqlite3.Connection, path: str):
        self.rows, self.objects, self.row_faults, self.are_rows_tested = None, None, [], False
        self.entries = explain_schema.entries_of(conn)
        self.names = explain_schema.taken(self.entries)
        self.formed = {name for name, entry in self.names.items() if explain_schema.is_of_form(conn, entry)}
        self.meta = dict(explain_rows.scanned(conn, "SELECT word, val FROM meta")[0]) if "meta" in self.formed else {}
        self.faults = [*explain_pages.faults(conn, self.entries, path), *self.schema_faults(conn)]
        if self.names:
            self.read(conn)

    @property
    def stated(self) -> int | None:
        """The number of the schema that the file states; None if it states no number."""
        text = str(self.meta.get("schema", ""))
        return int(text) if is_schema(text) else None

    @property
    def store_dir(self) -> str:
        """The store directory that the file states, or the default if it states none."""
        named = self.meta.get("store-dir")
        return named if isinstance(named, str) and paths.is_store_dir(named) else paths.STORE

    @property
    def schema(self) -> int:
        """The schema whose tables the file should have."""
        tables = [name for name, entry in self.names.items() if entry.type == "table"]
        return self.stated if self.stated in LACKS else explain_schema.number_by_tables(tables)

    @property
    def is_of_another(self) -> bool:
        """Whether names of the store's tables are taken, and nothing has the form of one of them."""
        return bool(self.names) and not self.formed

    @property
    def foreign(self) -> list[str]:
        """The tables and views of other programs."""
        others = [entry.name for entry in self.entries
                  if entry.type in ("table", "view") and entry.name not in self.names]
        return [name for name in others if not name.startswith("sqlite_")]

    def schema_faults(self, conn: sqlite3.Connection) -> Iterator[Fault]:
        if not self.names:
            yield from explain_schema.faults_by_others(conn, self.entries)
            if explain_schema.lacks_counter(self.entries):
                yield Fault("sqlite_sequence", None, "the table is missing, and a table counts by it")
        for fault in explain_schema.faults(conn, self.entries, LAST if self.is_of_another else self.schema):
            if fault.table in self.names or self.formed:
                yield fault

    def read(self, conn: sqlite3.Connection) -> None:
        """Reads the rows, and tests them if all tables of the schema are there and no other."""
        self.rows = explain_rows.Rows(conn, max(self.schema, explain_schema.number_by_tables(self.formed)), self.formed)
        self.objects = explain_rows.Objects(self.rows, self.store_dir)
        faults = [*self.rows.faults, *explain_rows.settings(self.rows), *self.objects.faults()]
        self.row_faults = [*faults, *explain_rows.roots(self.rows, self.objects.objects)]
        self.are_rows_tested = self.formed == set(FORMS) - set(LACKS[self.schema])
        self.faults += self.row_faults if self.are_rows_tested else []

    # ---- what nixkeep answers

    def refusal(self, wanted: str) -> str | None:
        """What nixkeep answers if it is asked for the store of this directory; None if it opens the file."""
        if self.stated is not None and self.stated > LAST:
            return f"{BAD_SCHEMA}: made by a later version of nixkeep: schema {self.stated}; the last known is {LAST}"
        if self.is_of_another:
            taken = ", ".join(sorted(self.names))
            return f"{BAD_SCHEMA}: the database of another program, which uses names of the store's tables: {taken}"
        if self.faults:
            return f"{BAD_SCHEMA}: {len(self.faults)} fault{'s' if len(self.faults) > 1 else ''}"
        if self.names and self.store_dir != wanted:
            return f"{OTHER_DIR}: a sound store of {self.store_dir}, and not of {wanted}"
        return None

    def description(self) -> str:
        """What a file holds that nixkeep opens."""
        if not self.names:
            what = "the database of another program" if self.entries else "an empty database"
            return f"no store yet: {what}, to which nixkeep adds its tables"
        count, size = len(self.objects.checked), sum(item.size for item in self.objects.checked.values())
        later = "" if self.schema == LAST else f", which the next command brings to schema {LAST}"
        what = f"{count_of(count, 'object')} of {count_of(size, 'byte')} in {self.store_dir}"
        return f"sound: {what}, schema {self.schema}{later}"
