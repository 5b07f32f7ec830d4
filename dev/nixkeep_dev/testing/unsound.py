"""What makes a sound store unsound, row by row; and schemas, which are a store's or not."""
import random
from collections.abc import Iterable

from nixkeep_dev.model.tables import PIECE, TABLES, making
from nixkeep_dev.model.worlds import Profile
from nixkeep_dev.testing.nar import archive, derivation, hidden, nar_hash, sha256
from nixkeep_dev.testing.tables import AFTER, ALL, BEFORE, BETWEEN, Built


def blob(data):
    return f"x'{data.hex()}'"


def update(table, what, where):
    return f"UPDATE {table} SET {what} WHERE {where};"


def cut_at(path, parts, numbers):
    """The archive's row has the first of these bytes, and pieces the others, with these numbers."""
    pieces = "".join(f"INSERT INTO piece VALUES ('{path}', {at}, {blob(part)});"
                     for at, part in zip(numbers, parts[1:]))
    row = update("object", f"nar = {blob(parts[0])}", f"base = '{path}'")
    return f"BEGIN; {row} DELETE FROM piece WHERE base = '{path}'; {pieces} COMMIT;"


class Faulty:
    """A store with a row of each kind, and by name what spoils it."""

    def __init__(self):
        made, self.gone, self.malformed, self.out = Built(), hidden("gone"), "not-a-path", hidden("out")
        self.low = made.put_text("low", b"low")
        self.top = made.put_text("top", b"top", [self.low])
        self.drv = made.put_text("made.drv", derivation({"out": self.out}), [self.low])
        self.own = made.put(own := hidden("own"), archive(b"own"), [own, self.low], self.drv)
        world = made.world
        world.permanent["root"], world.user["ann", "root"] = self.top, self.low
        world.profiles["ann", "profile"] = Profile({1: self.low, 2: self.top}, 2)
        world.runtime.add(("/proc/1/exe", self.low))
        world.temporary |= {("ann", 1, self.low), ("b" * 64, 4_194_304, self.low)}
        # Archives of these bytes, which no address binds, so that nothing but the cutting can be at fault.
        self.lengths = {"brim": PIECE, "over": PIECE + 8, "even": 2 * PIECE, "long": 2 * PIECE + 800}
        some = random.Random(2)
        for name, length in self.lengths.items():
            made.put(hidden(name), archive(some.randbytes(length - 112)))
        self.store = made

    def of_settings(self) -> dict[str, str]:
        return {
            **{f"schema `{value}`": update("meta", f"val = '{value}'", "word = 'schema'")
               for value in ("", "0", "4", "01", "03", " 3", "3 ", "three")},
            "no schema": "DELETE FROM meta WHERE word = 'schema';",
            "no store directory": "DELETE FROM meta WHERE word = 'store-dir';",
            "a store directory that is none": update("meta", "val = '/'", "word = 'store-dir'"),
            "a further setting": "INSERT INTO meta VALUES ('more', '1');",
        }

    def of_objects(self) -> dict[str, str]:
        low, top, own, drv, out, gone = self.low, self.top, self.own, self.drv, self.out, self.gone
        other, digest = blob(archive(b"other")), blob(sha256(archive(b"other")))
        has = lambda base, what: update("object", what, f"base = '{base}'")
        return {
            "a path of an object that is none": f"INSERT INTO object VALUES ('{self.malformed}', {other}, {digest}, "
            "NULL, NULL);",
            "an archive that is none": has(own, f"nar = x'00', hash = {blob(sha256(bytes(1)))}"),
            "an archive without bytes": has(own, f"nar = x'', hash = {blob(sha256(b''))}"),
            "another digest": has(own, f"hash = {blob(sha256(b'x'))}"),
            "a digest that is too short": has(own, "hash = x'00'"),
            "another archive": has(own, f"nar = {other}"),
            "another archive with its digest under an address": has(low, f"nar = {other}, hash = {digest}"),
            "an address that is none": has(low, "ca = 'x'"),
            "an address of another object": has(low, f"ca = (SELECT ca FROM object WHERE base = '{top}')"),
            "an address of an object that refers to itself": has(own, f"ca = 'fixed:r:{nar_hash(archive(b'own'))}'"),
            "a deriver that is no path": has(own, f"deriver = '{self.malformed}'"),
            "a reference that isn't an object": f"INSERT INTO refs VALUES ('{own}', '{gone}');",
            "a reference that is no path": f"INSERT INTO refs VALUES ('{own}', '{self.malformed}');",
            "a reference of nobody": f"INSERT INTO refs VALUES ('{gone}', '{low}');",
            "a reference to itself under an address": f"INSERT INTO refs VALUES ('{low}', '{low}');",
            "a reference more under an address": f"INSERT INTO refs VALUES ('{low}', '{top}');",
            "a reference less under an address": f"DELETE FROM refs WHERE base = '{top}';",
            "an output of nobody": f"INSERT INTO outs VALUES ('{gone}', 'out', '{out}');",
            "an output of no derivation": f"INSERT INTO outs VALUES ('{low}', 'out', '{out}');",
            "a derivation without its output": f"DELETE FROM outs WHERE base = '{drv}';",
            "a derivation with another output": update("outs", f"target = '{low}'", f"base = '{drv}'"),
            "a derivation with an output more": f"INSERT INTO outs VALUES ('{drv}', 'dev', '{low}');",
        }

    def of_roots(self) -> dict[str, str]:
        low, gone = self.low, self.gone
        return {"a permanent root without its object": update("permanent", f"target = '{gone}'", "name = 'root'"),
                "a permanent root with a bad name": update("permanent", "name = 'a/b'", "name = 'root'"),
                "a user root without its object": update("user_root", f"target = '{gone}'", "name = 'root'"),
                "a user root with a bad name": update("user_root", "name = ''", "name = 'root'"),
                "a user root with a bad owner": update("user_root", "owner = '-ann'", "name = 'root'"),
                "a profile with a bad name": "UPDATE profile SET name = 'a b'; UPDATE generation SET name = 'a b';",
                "a profile with a bad owner": "UPDATE profile SET owner = 'a b'; UPDATE generation SET owner = 'a b';",
                "a current number without its generation": update("profile", "cur = 3", "name = 'profile'"),
                "a profile without generations": "DELETE FROM generation;",
                "a generation of no profile": f"INSERT INTO generation VALUES ('bob', 'profile', 1, '{low}');",
                "a generation without its object": update("generation", f"target = '{gone}'", "num = 1"),
                "generation 0": f"INSERT INTO generation VALUES ('ann', 'profile', 0, '{low}');",
                "generation 10,000": f"INSERT INTO generation VALUES ('ann', 'profile', 10000, '{low}');",
                "a generation below 0": f"INSERT INTO generation VALUES ('ann', 'profile', -1, '{low}');",
                "a runtime root without its object": update("runtime", f"target = '{gone}'", "1"),
                "a runtime root with an empty label": update("runtime", "label = ''", "1"),
                "a runtime root with a blank in its label": update("runtime", "label = 'a b'", "1"),
                "a runtime root with a long label": update("runtime", f"label = '{'a' * 257}'", "1")}

    def archive(self, base: str) -> bytes:
        return self.store.world.objects[base].archive

    def cut(self, name: str, *parts: bytes, numbers: Iterable[int] | None = None) -> str:
        """The archive's row has the first of these bytes, and pieces the others, numbered from 1 or so."""
        return cut_at(hidden(name), parts, numbers or range(1, len(parts)))

    def of_pieces(self) -> dict[str, str]:
        brim, over, even, long = (self.archive(hidden(name)) for name in self.lengths)
        first, second, rest = long[:PIECE], long[PIECE : 2 * PIECE], long[2 * PIECE :]
        short = self.archive(self.own)
        huge = archive(bytes(16_777_224 - 112))
        huge_parts = [huge[at : at + PIECE] for at in range(0, len(huge), PIECE)]
        return {
            "a piece of nobody": f"INSERT INTO piece VALUES ('{self.gone}', 1, x'00');",
            "a piece whose path is none": f"INSERT INTO piece VALUES ('{self.malformed}', 1, x'00');",
            "an empty piece of nobody": f"INSERT INTO piece VALUES ('{self.gone}', 1, x'');",
            "a byte after an archive": f"INSERT INTO piece VALUES ('{self.own}', 1, x'00');",
            "an empty piece after a short archive": f"INSERT INTO piece VALUES ('{self.own}', 1, x'');",
            "a short archive in two": cut_at(self.own, [short[:50], short[50:]], [1]),
            "a short archive in its piece alone": cut_at(self.own, [b"", short], [1]),
            "an empty piece after a full row": self.cut("brim", brim, b""),
            "a full row that is cut": self.cut("brim", brim[:-8], brim[-8:]),
            "a row that is too long": self.cut("over", over),
            "a row that is too long, and an empty piece": self.cut("over", over, b""),
            "a row that is too short": self.cut("over", over[: PIECE - 1], over[PIECE - 1 :]),
            "a row without its piece": self.cut("over", over[:PIECE]),
            "a piece numbered 2": self.cut("over", over[:PIECE], over[PIECE:], numbers=[2]),
            "a piece numbered 0": self.cut("over", over[:PIECE], over[PIECE:], numbers=[0]),
            "a piece below 0": self.cut("over", over[:PIECE], over[PIECE:], numbers=[-1]),
            "another byte in a piece": self.cut("over", over[:PIECE], over[PIECE:-1] + b"\1"),
            "a byte too few in the last piece": self.cut("over", over[:PIECE], over[PIECE:-1]),
            "an empty piece after a full one": self.cut("even", even[:PIECE], even[PIECE:], b""),
            "a full piece that is cut": self.cut("even", even[:PIECE], even[PIECE:-1], even[-1:]),
            "a last piece that is too long": self.cut("long", first, second + rest),
            "pieces of other lengths": self.cut("long", first, second[:-1], second[-1:] + rest),
            "an empty piece in the middle": self.cut("long", first, b"", second, rest),
            "pieces in another order": self.cut("long", first, second, rest, numbers=[2, 1]),
            "a number between pieces that is missing": self.cut("long", first, second, rest, numbers=[1, 3]),
            "pieces numbered from 0": self.cut("long", first, second, rest, numbers=[0, 1]),
            "no first piece": self.cut("long", first, rest, numbers=[2]),
            "no last piece": self.cut("long", first, second),
            "a whole archive as the row of another cutting": self.cut("long", long),
            "an archive above 16 MiB": update("object", f"hash = {blob(sha256(huge))}", f"base = '{hidden('long')}'")
            + self.cut("long", *huge_parts),
        }

    def of_sessions(self) -> dict[str, str]:
        put = lambda owner, session, target: f"INSERT INTO temp_root VALUES ('{owner}', {session}, '{target}');"
        owners = {"nobody": "", "a bad owner": "-ann", "an owner with a blank": "a b", "an owner with a slash": "a/b",
                  "a long owner": "a" * 65}
        numbers = {"session 0": 0, "a session below 0": -1, "session 4,194,305": 4_194_305,
                   "a session far above": 2**63 - 1}
        return {
            **{what: put("ann", number, self.low) for what, number in numbers.items()},
            "a temporary root without its object": put("ann", 1, self.gone),
            "a temporary root of no path": put("ann", 1, self.malformed),
            **{f"a temporary root of {what}": put(owner, 1, self.low) for what, owner in owners.items()},
        }

    def of_tables(self) -> dict[str, str]:
        return {
            "no rows at all": "".join(f"DELETE FROM {table};" for table in TABLES),
            **{f"schema `{value}` with all tables": update("meta", f"val = '{value}'", "word = 'schema'")
               for value in ("1", "2")},
            **{f"a {table} without its table": f"DROP TABLE {table};" for table in TABLES},
        }

    def whatever_the_schema(self) -> dict[str, str]:
        return {**self.of_settings(), **self.of_objects(), **self.of_roots()}


# ---- schemas


TRIGGER = "CREATE TRIGGER on_{0} AFTER INSERT ON {0} BEGIN DELETE FROM note; END;"


def changed(table, old, new):
    """All tables, one of them by another text."""
    assert old in making(table)
    return "".join(making(name).replace(old, new) if name == table else making(name) for name in TABLES)


def all_changed(by_table):
    return [changed(table, *pair) for table, pairs in by_table.items() for pair in pairs]


# Texts for an empty file, which is a store then that is made or opened, or is refused.
MADE = ["", BEFORE + BETWEEN]
# What a schema shows alike: a key's column is NOT NULL in a STRICT table, INT is INTEGER in one, and
# ON CONFLICT isn't carried out here.
OPENED_BY_TABLE = {
    "refs": [("target TEXT NOT NULL", "target TEXT"), ("PRIMARY KEY", "CONSTRAINT whole PRIMARY KEY"),
             ("(base, target)) ", "(base ASC, target)) ")],
    "profile": [("cur INTEGER", "cur INT")],
    "permanent": [("PRIMARY KEY (name)", "PRIMARY KEY (name) ON CONFLICT REPLACE")],
    "meta": [("PRIMARY KEY (word)", "PRIMARY KEY (word), UNIQUE (word)")],
    "object": [("deriver TEXT", "deriver TEXT DEFAULT NULL")],
    "piece": [("num INTEGER", "num INT")],
    "outs": [("name TEXT NOT NULL", "name TEXT NOT NULL COLLATE BINARY")],
}
OPENED = [
    ALL,
    BEFORE + ALL + BETWEEN + AFTER,
    ALL + "CREATE UNIQUE INDEX again ON refs (base, target);",
    ALL + "CREATE VIEW seen AS SELECT base FROM refs;",
    ALL + BEFORE + "CREATE TRIGGER theirs AFTER INSERT ON note BEGIN DELETE FROM refs; END;",
    ALL + "ANALYZE;",
    ALL.replace("CREATE TABLE refs (", "create  table \"refs\"\n("),
    ALL + "ALTER TABLE refs RENAME TO references_; ALTER TABLE references_ RENAME TO refs;",
    ALL + "CREATE INDEX numbers ON piece (num); CREATE INDEX kept ON temp_root (target);",
    *all_changed(OPENED_BY_TABLE),
]
REFUSED_BY_TABLE = {
    "piece": [(" STRICT", ""), ("(base, num)) ", "(num, base)) "), ("PRIMARY KEY (base, num)", "PRIMARY KEY (base)"),
              ("bytes BLOB NOT NULL", "bytes BLOB"), ("bytes BLOB", "bytes TEXT"), ("num INTEGER", "num TEXT"),
              ("base TEXT NOT NULL", "base TEXT NOT NULL REFERENCES object (base)")],
    "temp_root": [(" STRICT", ""), (") STRICT", ") STRICT, WITHOUT ROWID"), ("session INTEGER", "session TEXT"),
                  ("(owner, session, target)) ", "(owner, target, session)) "),
                  ("PRIMARY KEY (owner, session, target)", "PRIMARY KEY (owner, session)"),
                  ("session INTEGER NOT NULL", "session INTEGER NOT NULL CHECK (session > 0)")],
    "refs": [(" STRICT", ""), (") STRICT", ") STRICT, WITHOUT ROWID"), ("(base, target)) ", "(target, base)) "),
             ("(base, target)) ", "(base DESC, target)) "), ("base TEXT", "base BLOB")],
    "meta": [("val TEXT NOT NULL", "val TEXT"), ("val TEXT NOT NULL", "val TEXT NOT NULL CHECK (val <> '')"),
             ("val TEXT NOT NULL", "val TEXT NOT NULL DEFAULT 'x'"),
             ("word TEXT NOT NULL", "word TEXT NOT NULL COLLATE NOCASE")],
    "profile": [("cur INTEGER", "cur ANY")],
    "object": [("deriver TEXT", "deriver TEXT NOT NULL")],
    "permanent": [("target TEXT NOT NULL", "target TEXT NOT NULL REFERENCES object (base)")],
}
REFUSED = [
    # A table with an index that isn't understood can't be read here.
    ALL + "CREATE INDEX some ON refs (target) WHERE base > 'a';",
    ALL + "CREATE INDEX lowered ON refs (lower(target));",
    making("refs"),
    making("piece"),
    making("temp_root"),
    making("piece") + making("temp_root"),
    "CREATE VIEW temp_root AS SELECT 1 AS owner, 2 AS session, 3 AS target;",
    "CREATE TABLE t (a TEXT); CREATE INDEX piece ON t (a);",
    ALL + "DROP TABLE piece; CREATE VIEW piece AS SELECT 1 AS base, 2 AS num, 3 AS bytes;",
    ALL + "CREATE UNIQUE INDEX one ON piece (base);",
    ALL + "CREATE UNIQUE INDEX one ON temp_root (session);",
    ALL + "CREATE TABLE child (p TEXT REFERENCES piece (base));",
    ALL + "ALTER TABLE piece ADD COLUMN more BLOB;",
    ALL + "ALTER TABLE refs RENAME TO Refs_; ALTER TABLE Refs_ RENAME TO REFS;",
    ALL + "ALTER TABLE meta ADD COLUMN more TEXT;",
    ALL + "ALTER TABLE object DROP COLUMN ca;",
    ALL + "DROP TABLE refs; CREATE VIEW refs AS SELECT 1 AS base, 2 AS target;",
    "CREATE VIEW refs AS SELECT 1 AS base, 2 AS target;",
    "CREATE TABLE t (a TEXT); CREATE INDEX outs ON t (a);",
    "CREATE TABLE child (p TEXT REFERENCES refs (base));",
    ALL + "CREATE TABLE child (p TEXT REFERENCES permanent (name));",
    ALL + "CREATE UNIQUE INDEX one ON refs (target);",
    ALL + "CREATE UNIQUE INDEX one ON refs (lower(target));",
    ALL + "CREATE UNIQUE INDEX one ON runtime (label COLLATE NOCASE, target);",
    *[ALL + BEFORE + TRIGGER.format(table) for table in TABLES],
    *all_changed(REFUSED_BY_TABLE),
]


def schemas() -> list[tuple]:
    """Each such text, and what comes of it."""
    return [(text, word) for word, texts in (("made", MADE), ("opened", OPENED), ("refused", REFUSED))
            for text in texts]
