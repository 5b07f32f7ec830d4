"""The rows of a database file: from a world, and back to it where they are sound. There are three schemas."""
from . import archives, texts
from .store import GENERATIONS, REFERENCES, SESSIONS, outputs_of
from .texts import Refused, is_base, is_label, is_plain_name, is_store_dir, refuse
from .worlds import Object, Profile, World

PIECE = 65_536
# Each table: its columns, its key, and the first schema that has it.
TABLES = {
    "meta": ("word TEXT, val TEXT", "word", 1),
    "object": ("base TEXT, nar BLOB, hash BLOB, deriver TEXT ?, ca TEXT ?", "base", 1),
    "refs": ("base TEXT, target TEXT", "base, target", 1),
    "outs": ("base TEXT, name TEXT, target TEXT", "base, name", 1),
    "permanent": ("name TEXT, target TEXT", "name", 1),
    "user_root": ("owner TEXT, name TEXT, target TEXT", "owner, name", 1),
    "profile": ("owner TEXT, name TEXT, cur INTEGER", "owner, name", 1),
    "generation": ("owner TEXT, name TEXT, num INTEGER, target TEXT", "owner, name, num", 1),
    "runtime": ("label TEXT, target TEXT", "label, target", 1),
    "piece": ("base TEXT, num INTEGER, bytes BLOB", "base, num", 2),
    "temp_root": ("owner TEXT, session INTEGER, target TEXT", "owner, session, target", 3),
}


def tables_of(schema: int) -> list[str]:
    return [name for name, (_, _, first) in TABLES.items() if first <= schema]


def columns_of(name: str) -> list[str]:
    """The names of a table's columns."""
    return [column.split()[0] for column in TABLES[name][0].split(", ")]


def making(name: str) -> str:
    """The statement that makes a table."""
    columns, key, _ = TABLES[name]
    columns = [column[:-2] if column.endswith(" ?") else column + " NOT NULL" for column in columns.split(", ")]
    return f"CREATE TABLE {name} ({', '.join(columns)}, PRIMARY KEY ({key})) STRICT;"


def rows_of(world: World, store_dir: str, schema: int = 3) -> dict[str, set]:
    """The rows of each table, as sets of tuples."""
    objects = world.objects.items()
    cut = PIECE if schema > 1 else archives.LIMIT
    first = lambda stored: (stored.archive[:cut], texts.sha256(stored.archive), stored.deriver, stored.address)
    rows = {
        "meta": {("schema", str(schema)), ("store-dir", store_dir)},
        "object": {(base, *first(stored)) for base, stored in objects},
        "refs": {(base, target) for base, stored in objects for target in stored.references},
        "outs": {(base, *output) for base, stored in objects for output in stored.outputs},
        "permanent": {*world.permanent.items()},
        "user_root": {(*key, base) for key, base in world.user.items()},
        "profile": {(*key, profile.current) for key, profile in world.profiles.items()},
        "generation": {(*key, *generation) for key, profile in world.profiles.items()
                       for generation in profile.generations.items()},
        "runtime": {*world.runtime},
        "piece": {(base, number, piece) for base, stored in objects for number, piece in pieces_of(stored.archive)},
        "temp_root": {*world.temporary},
    }
    return {name: rows[name] for name in tables_of(schema)}


def pieces_of(archive):
    """The pieces after the first, with their numbers."""
    return [(at // PIECE, archive[at : at + PIECE]) for at in range(PIECE, len(archive), PIECE)]


def require(*facts):
    refuse(21, not all(facts))


def schema_of(rows):
    """The schema and the store directory that the rows name."""
    meta = dict(rows.get("meta", ()))
    require(meta.keys() == {"schema", "store-dir"}, meta.get("schema") in ("1", "2", "3"))
    require(is_store_dir(meta["store-dir"]), [*rows] == tables_of(int(meta["schema"])))
    return int(meta["schema"]), meta["store-dir"]


def archive_in(rows, base, first):
    """The whole archive of an object, whose first piece is given."""
    pieces = sorted((number, piece) for other, number, piece in rows.get("piece", ()) if other == base)
    archive = b"".join([first, *(piece for _, piece in pieces)])
    require("piece" not in rows or [*pieces_of(archive)] == pieces)
    return archive


def object_in(rows, store_dir, base, first, digest, deriver, address):
    archive = archive_in(rows, base, first)
    references = {target for other, target in rows["refs"] if other == base}
    node = archives.read(archive)
    require(is_base(base), texts.sha256(archive) == digest, deriver is None or is_base(deriver))
    require(len(references) <= REFERENCES, address is None or base not in references)
    if address is not None:
        texts.verify(address, store_dir, base, references, archive, archives.plain_contents(node))
    outputs = outputs_of(base, node, store_dir)
    require({output[1:] for output in rows["outs"] if output[0] == base} == {*outputs})
    return Object(archive, frozenset(references), deriver, address, outputs)


def add_roots(world, rows):
    for name, target in rows["permanent"]:
        require(is_plain_name(name))
        world.permanent[name] = target
    for owner, name, target in rows["user_root"]:
        require(is_plain_name(owner), is_plain_name(name))
        world.user[owner, name] = target
    for label, target in rows["runtime"]:
        require(is_label(label))
        world.runtime.add((label, target))
    for owner, session, target in rows.get("temp_root", ()):
        require(is_plain_name(owner), 1 <= session <= SESSIONS)
        world.temporary.add((owner, session, target))


def add_profiles(world, rows):
    for owner, name, current in rows["profile"]:
        require(is_plain_name(owner), is_plain_name(name))
        world.profiles[owner, name] = Profile({}, current)
    for owner, name, number, target in rows["generation"]:
        require((owner, name) in world.profiles, 1 <= number <= GENERATIONS)
        world.profiles[owner, name].generations[number] = target
    require(*(profile.current in profile.generations for profile in world.profiles.values()))


def world_of(rows: dict[str, set]) -> tuple[World, str]:
    """The world and the store directory of these rows; refused with 21 where they aren't a sound world."""
    try:
        _, store_dir = schema_of(rows)
        world = World()
        for row in rows["object"]:
            world.objects[row[0]] = object_in(rows, store_dir, *row)
        bases = [row[0] for name in ("refs", "outs", "piece") for row in rows.get(name, ())]
        targets = [target for _, target in rows["refs"]]
        require({*bases, *targets} <= world.objects.keys())
        add_roots(world, rows)
        add_profiles(world, rows)
        require({root.target for root in world.roots()} <= world.objects.keys())
    except Refused as refused:
        raise Refused(21) from refused
    return world, store_dir


class Database:
    """A database file: its rows, or, once it is opened, its world.

    None in place of rows is a file that is no database."""

    def __init__(self, rows: dict[str, set]):
        self.rows, self.world, self.dir = rows, None, None

    def open(self, store_dir: str) -> World:
        """The world of the file, or 21 or 22."""
        if self.world is None:
            refuse(21, self.rows is None)
            world, directory = world_of(self.rows) if self.rows else (World(), store_dir)
            refuse(22, directory != store_dir)
            self.world, self.dir = world, directory
        refuse(22, self.dir != store_dir)
        return self.world

    def final_rows(self) -> dict[str, set]:
        return self.rows if self.world is None else rows_of(self.world, self.dir)
