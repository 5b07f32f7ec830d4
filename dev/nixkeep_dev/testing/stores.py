"""Files of stores with many texts, whose rows SQLite writes. The paths, archives and digests are the model's."""
import contextlib
import random
import sqlite3
from collections.abc import Collection

from nixkeep_dev.testing.nar import STORE, archive, nar_hash, sha256, text_path
from nixkeep_dev.testing.tables import made_by


def put_store(file: str, count: int, rng: random.Random, roots: int, label: str = "/proc/1/exe") -> list[str]:
    """A file with `count` texts that refer to one another, and for each of three users `roots` roots and twelve
    generations."""
    with contextlib.closing(sqlite3.connect(file)) as conn, conn:
        put_tables(conn, 3)
        made = put_objects(conn, count, rng)
        for user in ("ann", "bob", "carol"):
            rows = [(user, f"root{at}", rng.choice(made)) for at in range(roots)]
            conn.executemany("INSERT INTO user_root VALUES (?, ?, ?)", rows)
            conn.execute("INSERT INTO profile VALUES (?, 'tools', 9)", (user,))
            rows = [(user, at, rng.choice(made)) for at in range(1, 13)]
            conn.executemany("INSERT INTO generation VALUES (?, 'tools', ?, ?)", rows)
        conn.execute("INSERT INTO permanent VALUES ('release', ?)", (made[-1],))
        conn.execute("INSERT INTO runtime VALUES (?, ?)", (label, made[0]))
    return made


def put_tables(conn: sqlite3.Connection, schema: int) -> None:
    """The tables of a schema, without any object."""
    conn.executescript(made_by(schema))
    conn.executemany("INSERT INTO meta VALUES (?, ?)", [("schema", str(schema)), ("store-dir", STORE)])


def put_text(conn: sqlite3.Connection, name: str, contents: bytes, references: Collection[str] = ()) -> str:
    """The rows of a text. Returns its path."""
    path, nar = text_path(name, contents, references), archive(contents)
    conn.execute("INSERT INTO object VALUES (?, ?, ?, NULL, ?)", (path, nar, sha256(nar), f"text:{nar_hash(contents)}"))
    conn.executemany("INSERT INTO refs VALUES (?, ?)", [(path, target) for target in references])
    return path


def put_objects(conn, count, rng):
    """Rows of texts, each with references to some of those before. Returns their paths."""
    made = []
    for at in range(count):
        contents = rng.randbytes(rng.choice([10, 100, 1000]))
        references = sorted(set(rng.choices(made[-400:], k=rng.randrange(5)))) if made else []
        made.append(put_text(conn, f"object-{at}", contents, references))
    return made
