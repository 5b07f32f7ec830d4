"""The rows of a file: read as far as its damage allows, and every rule that one breaks."""
import collections
import hashlib
import sqlite3
import sys
from collections.abc import Iterable, Iterator

from . import drv, nar, paths
from .explain_schema import DAMAGED, Fault
from .store_file import FORMS, LACKS, PART

MOST_REFERENCES = 4_096
KINDS = {"TEXT": str, "INTEGER": int, "BLOB": bytes}

# The rows of one table by row number, whether none seems to be missing, and the Faults of reading them.
Read = collections.namedtuple("Read", "rows is_whole faults")
# What the test of an object found: the length and the SHA-256 of its archive, and whether its content address is right.
Checked = collections.namedtuple("Checked", "size digest is_proved")
HASH = "hash isn't the SHA-256 of the archive"


# ---- reading


def shown_columns(table):
    """The columns as they are read: an archive's by their length alone."""
    names = [column.split()[0] for column in FORMS[table][0]]
    return [f"iif(typeof({name}) = 'blob', length({name}), NULL)" if name in ("nar", "bytes") else name
            for name in names]


def scanned(conn: sqlite3.Connection, text: str, parameters: tuple = ()) -> tuple[list[tuple], str | None]:
    """The rows of a query up to the first damage, and what SQLite says of that, or None."""
    rows = []
    try:
        for row in conn.execute(text, parameters):
            # (one text for all rows that name an object, since there may be millions)
            rows.append(tuple([sys.intern(value) if type(value) is str else value for value in row]))
    except DAMAGED as error:
        return rows, str(error)
    return rows, None


def keys_of(conn, table):
    """The query of the keys of a table by the index of its key, or None without such an index."""
    columns, key = FORMS[table]
    names = ", ".join(column.split()[0] for column in columns[:key])
    index = [row[1] for row in scanned(conn, "SELECT * FROM pragma_index_list(?)", (table,))[0] if row[3] == "pk"]
    return f'SELECT rowid, {names} FROM {table} INDEXED BY "{index[0]}" ORDER BY {names}' if index else None


def by_key(conn, table):
    """The keys of a table in the index of its key, by row number, and what SQLite says of damage, or None."""
    query = keys_of(conn, table)
    if not query:
        return {}, "there is no index of the key"
    read, problem = scanned(conn, query)
    return {row[0]: row[1:] for row in read}, problem


def is_intact(conn, table, rows):
    """Whether the index of the key has these rows, and no others. None of them is kept: a file may have millions."""
    query, width, count = keys_of(conn, table), FORMS[table][1], 0
    try:
        for rowid, *key in conn.execute(query) if query else ():
            if rows.get(rowid, ())[:width] != tuple(key):
                return False
            count += 1
    except DAMAGED:
        return False
    return bool(query) and count == len(rows)


def read_table(conn, table):
    """The Read of a table: of its pages in both directions and, for rows that these lack, of the index of its key."""
    columns, width = ", ".join(shown_columns(table)), FORMS[table][1]
    text = f"SELECT rowid, {columns} FROM {table} NOT INDEXED"
    ordered, problem = scanned(conn, text + " ORDER BY rowid")
    if not problem and is_intact(conn, table, rows := {row[0]: row[1:] for row in ordered}):
        return Read(rows, True, [])
    more = scanned(conn, text + " ORDER BY rowid DESC")[0] if problem else []
    rows = {row[0]: row[1:] for row in (*more, *ordered)}
    keys, key_problem = by_key(conn, table)
    in_table = {(rowid, *row[:width]) for rowid, row in rows.items()}
    in_index = {(rowid, *key) for rowid, key in keys.items()}
    for rowid in keys.keys() - rows.keys():
        single = scanned(conn, f"{text} WHERE rowid = ?", (rowid,))[0]
        # (an index of all columns has the row whole)
        whole = {rowid: keys[rowid]} if width == len(FORMS[table][0]) else {}
        rows.update({row[0]: row[1:] for row in single} or whole)
    lost = [Fault(table, keys[key], "the row can't be read") for key in sorted(keys.keys() - rows.keys())]
    is_whole = not problem and in_index <= in_table or not key_problem and in_table <= in_index
    faults = [Fault(table, None, f"not all pages can be read: {problem}"), *lost] if problem else lost
    return Read(rows, is_whole and not lost, faults)


class Rows:
    """The rows of the tables of a schema, by table and row number, and the Faults of reading them.

    `partial` names the tables of which rows may be missing: they can't be read whole, or aren't `there`.
    """

    def __init__(self, conn: sqlite3.Connection, schema: int, there: set[str]):
        self.conn, self.schema, self.tables, self.faults, self.partial = conn, schema, {}, [], set()
        for table in FORMS:
            read = read_table(conn, table) if table in there else Read({}, table in LACKS[schema], [])
            self.faults += read.faults
            self.tables[table] = {rowid: row for rowid, row in read.rows.items() if self.is_of_kinds(table, row)}
            if not read.is_whole:
                self.partial.add(table)

    def is_of_kinds(self, table, row):
        """Whether each value has the type of its column; what hasn't is a Fault."""
        for column, value in zip(FORMS[table][0], row):
            name, kind = column.split()[:2]
            # (of an archive the length is read)
            wanted = int if kind == "BLOB" and name != "hash" else KINDS[kind]
            if not isinstance(value, wanted) and not (value is None and column.endswith("?")):
                self.faults.append(Fault(table, row[:FORMS[table][1]], f"{name} isn't a value of type {kind}"))
                return False
        return True

    def of(self, table: str) -> list[tuple]:
        """The rows of a table, in the order of their keys."""
        return sorted(self.tables[table].values(), key=lambda row: row[:FORMS[table][1]])

    def bytes_of(self, table: str, column: str, rowid: int) -> bytes:
        """The bytes of one archive column."""
        rows, problem = scanned(self.conn, f"SELECT {column} FROM {table} WHERE rowid = ?", (rowid,))
        if problem or not rows:
            raise Unreadable(problem or "the row is missing")
        return rows[0][0]


class Unreadable(Exception):
    """Bytes of an archive that SQLite can't read."""


# ---- settings


def settings(rows: Rows) -> Iterator[Fault]:
    """The Faults of meta."""
    values = dict(rows.of("meta"))
    for word in ("schema", "store-dir"):
        if word not in values:
            yield Fault("meta", (word,), "the row is missing")
    if values.get("schema", str(rows.schema)) != str(rows.schema):
        yield Fault("meta", ("schema",), f"val {values['schema']!r} isn't the number of a schema: 1, 2 or 3")
    if not paths.is_store_dir(values.get("store-dir", paths.STORE)):
        yield Fault("meta", ("store-dir",), f"val {values['store-dir']!r} isn't a store directory")
    for word in values.keys() - {"schema", "store-dir"}:
        yield Fault("meta", (word,), "meta has the rows schema and store-dir, and no other")


# ---- objects


class Objects:
    """The objects of a file, each tested with its references, outputs and pieces."""

    def __init__(self, rows: Rows, store: str):
        self.rows, self.store = rows, store
        self.objects = {row[0]: (rowid, row) for rowid, row in rows.tables["object"].items()}
        self.references, self.outputs, self.pieces = (collections.defaultdict(list) for _ in range(3))
        for base, target in rows.of("refs"):
            self.references[base].append(target)
        for base, name, target in rows.of("outs"):
            self.outputs[base].append((name, target))
        for rowid, (base, num, length) in rows.tables["piece"].items():
            self.pieces[base].append((num, rowid, length))
        for pieces in self.pieces.values():
            pieces.sort()
        self.checked = {}

    def archive(self, base: str) -> Iterator[bytes]:
        """Yields the bytes of an archive as they are: the row of the object and its pieces in order."""
        yield self.rows.bytes_of("object", "nar", self.objects[base][0])
        for _, rowid, _ in self.pieces[base]:
            yield self.rows.bytes_of("piece", "bytes", rowid)

    def faults(self) -> Iterator[Fault]:
        """The Faults of all objects and of the rows that belong to them."""
        for base in sorted(self.objects):
            yield from self.faults_of(base)
        yield from self.faults_around()

    def faults_of(self, base):
        _, (_, length, digest, deriver, address) = self.objects[base]
        row = (base,)
        if not paths.is_base_name(base):
            yield Fault("object", row, "base isn't the base name of a store path")
        if deriver is not None and not paths.is_base_name(deriver):
            yield Fault("object", row, f"deriver {deriver!r} isn't the base name of a store path")
        if len(self.references[base]) > MOST_REFERENCES:
            count = len(self.references[base])
            yield Fault("object", row, f"it has {count} references, and may have {MOST_REFERENCES}")
        yield from self.cutting(base, length)
        read = ArchiveRead(self.archive(base), base.endswith(".drv"))
        if read.problem:
            yield Fault("object", row, f"its archive can't be read: {read.problem}")
            return
        if read.fault:
            yield Fault("object", row, f"nar and its pieces are no archive: {read.fault}")
        if read.digest != digest:
            yield Fault("object", row, HASH)
        faults = [*self.address_faults(base, address, read)]
        yield from faults
        outputs, rule = read.outputs(self.store) if base.endswith(".drv") else ([], None)
        if rule:
            yield Fault("object", row, rule)
        yield from self.output_faults(base, outputs)
        self.checked[base] = Checked(read.size, read.digest, address is not None and not faults and not read.fault)

    def is_proved(self, base: str) -> bool:
        """Whether a content address proves the path, the references and the archive of an object."""
        return base in self.checked and self.checked[base].is_proved

    def cutting(self, base, length):
        """The rules on how an archive is cut: the row first, then each piece."""
        most = None if self.rows.schema == 1 else PART
        if most and length > most:
            yield Fault("object", (base,), f"nar has {length} bytes, and may have {most}")
        if self.pieces[base] and length < PART:
            yield Fault("object", (base,), f"nar has {length} bytes, and must have {PART} where pieces follow")
        for at, (num, _, length) in enumerate(self.pieces[base], 1):
            is_last = at == len(self.pieces[base])
            if num != at:
                yield Fault("piece", (base, num), f"num has to be {at}: pieces are numbered from 1 without a gap")
            if not 0 < length <= PART:
                yield Fault("piece", (base, num), f"bytes has {length} bytes, and must have 1 to {PART}")
            elif not is_last and length < PART:
                yield Fault("piece", (base, num), f"bytes has {length} bytes, and must have {PART} where pieces follow")

    def address_faults(self, base, address, read):
        """The rules on a content address."""
        if address is None:
            return
        row, references = (base,), self.references[base]
        try:
            kind, inner = paths.read_address(address)
        except paths.Malformed:
            yield Fault("object", row, f"ca {address!r} isn't a content address")
            return
        if base in references:
            yield Fault("refs", (base, base), "an object with a content address may not refer to itself")
        if kind == "text" and read.plain is None:
            yield Fault("object", row, "ca is that of a text, and the archive isn't one file that isn't executable")
        elif inner != (read.plain if kind == "text" else read.digest):
            yield Fault("object", row, "ca isn't that of the archive")
        elif paths.path_of(kind, inner, base[33:], references, self.store) != base:
            wanted = paths.path_of(kind, inner, base[33:], references, self.store)
            yield Fault("object", row, f"ca and the references give another path: {wanted}")

    def output_faults(self, base, outputs):
        """The rules on the recorded outputs of an object; None where its derivation text isn't known."""
        if outputs is None:
            return
        wanted, recorded = dict(outputs), dict(self.outputs[base])
        for name in sorted(wanted.keys() - recorded.keys()):
            yield Fault("outs", (base, name), f"the row is missing: the derivation has the output {wanted[name]}")
        for name in sorted(recorded):
            if not base.endswith(".drv"):
                yield Fault("outs", (base, name), "the name of base doesn't end in .drv, so it has no outputs")
            elif name not in wanted:
                yield Fault("outs", (base, name), "the derivation has no such output")
            elif recorded[name] != wanted[name]:
                yield Fault("outs", (base, name), f"target has to be that of the derivation: {wanted[name]}")

    def faults_around(self):
        """The Faults of rows that belong to no object, and of references to none."""
        for base in sorted({*self.references, *self.outputs, *self.pieces} - self.objects.keys()):
            for target in self.references[base]:
                yield Fault("refs", (base, target), "base isn't an object")
            for name, _ in self.outputs[base]:
                yield Fault("outs", (base, name), "base isn't an object")
            for num, _, _ in self.pieces[base]:
                yield Fault("piece", (base, num), "base isn't an object")
        for base, target in self.rows.of("refs"):
            if target not in self.objects:
                yield Fault("refs", (base, target), "target isn't an object")


class ArchiveRead:
    """What one pass over an archive finds: its size, digest and fault, and the digest of a plain file's contents."""

    def __init__(self, pieces, is_derivation):
        self.size, self.whole, self.inner = 0, hashlib.sha256(), hashlib.sha256()
        self.contents, self.problem, self.fault, top = bytearray() if is_derivation else None, None, None, None
        passed = self.passing(pieces)
        try:
            for node in nar.walk(passed, self.take):
                top = top or node
        except nar.Fault as fault:
            self.fault = fault
        except Unreadable as problem:
            self.problem = problem
        try:
            # (what comes after a fault belongs to the digest too)
            for _ in () if self.problem else passed:
                pass
        except Unreadable as problem:
            self.problem = problem
        self.digest = self.whole.digest()
        self.is_file = not self.fault and top is not None and top.kind in "rx"
        self.plain = self.inner.digest() if self.is_file and top.kind == "r" else None

    def passing(self, pieces: Iterable[bytes]) -> Iterator[bytes]:
        for piece in pieces:
            self.size += len(piece)
            self.whole.update(piece)
            yield piece

    def take(self, is_top: bool, part: bytes) -> None:
        if is_top:
            self.inner.update(part)
            if self.contents is not None:
                self.contents += part

    def outputs(self, store: str) -> tuple[list[tuple] | None, str | None]:
        """The outputs of the derivation text; or None, and the rule that it breaks."""
        if not self.is_file:
            return None, "the name ends in .drv, and the archive isn't a regular file"
        try:
            return drv.outputs(bytes(self.contents), store), None
        except paths.Malformed as error:
            what = "two outputs share a name" if error.number == 18 else "the file is no derivation text"
            return None, f"the name ends in .drv, and {what}"


# ---- roots


def names(row, count):
    """The rules on the first columns of a row of roots: owner and name, or name."""
    for what, value in zip(("owner", "name")[-count:], row):
        if not paths.is_plain_name(value):
            yield f"{what} {value!r} isn't a plain name"


def root_rules(table, row, generations):
    """The rules that a row of roots breaks by itself, but for its target."""
    if table == "permanent":
        yield from names(row, 1)
    elif table == "user_root":
        yield from names(row, 2)
    elif table == "profile":
        yield from names(row, 2)
        if row not in generations:
            yield f"cur {row[2]} isn't the number of a generation of the profile"
    elif table == "runtime" and not paths.is_label(row[0]):
        yield "label has to be 1 to 256 bytes that print, without blanks"
    elif table == "temp_root":
        if not paths.is_plain_name(row[0]):
            yield f"owner {row[0]!r} isn't a plain name"
        if not 1 <= row[1] <= 4_194_304:
            yield "session has to be 1 to 4194304"


def generation_rules(row, profiles):
    if not 1 <= row[2] <= 9_999:
        yield "num has to be 1 to 9999"
    if row[:2] not in profiles:
        yield "there is no such profile"


def roots(rows: Rows, objects: dict) -> Iterator[Fault]:
    """The Faults of all roots."""
    generations = {row[:3] for row in rows.of("generation")}
    profiles = {row[:2] for row in rows.of("profile")}
    for table in ("permanent", "user_root", "profile", "generation", "runtime", "temp_root"):
        for row in rows.of(table):
            rules = generation_rules(row, profiles) if table == "generation" else root_rules(table, row, generations)
            for rule in rules:
                yield Fault(table, row[:FORMS[table][1]], rule)
            if table != "profile" and row[-1] not in objects:
                yield Fault(table, row[:FORMS[table][1]], f"target {row[-1]!r} isn't an object")
