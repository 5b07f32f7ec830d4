"""What the tests of nixkeep-explain share: what it prints, what the program says of the same file, and random files."""
import contextlib
import io
import random
import shutil
import sqlite3
import subprocess
from pathlib import Path

from nixkeep_dev.build.program import HERE
from nixkeep_dev.model.worlds import World
from nixkeep_dev.testing import report
from nixkeep_dev.testing.store import remove
from nixkeep_dev.testing.tables import made_by, put, some_built
from nixkeep_tools import explain

EXPLAIN = f"{HERE}/tools/nixkeep-explain"
BAD_SCHEMA = "refused: 21 bad-schema"


def explained(*words: str) -> tuple[str, int, str]:
    """What is printed, its status, and what is printed on standard error."""
    output, errors = io.StringIO(), io.StringIO()
    with contextlib.redirect_stdout(output), contextlib.redirect_stderr(errors):
        status = explain.main([*words])
    return output.getvalue(), status, errors.getvalue()


class Program:
    """The program, called by root."""

    def __init__(self, file: str, folder: str):
        self.file, self.folder = file, folder

    def __call__(self, path, *words, given=b"", user="root"):
        ran = subprocess.run([self.file, "--db", path, "--user", user, *words], input=given, capture_output=True)
        return ran.stdout.decode(), ran.stderr.decode(), ran.returncode

    def refusal(self, path: str, *options: str) -> str | None:
        """What it answers to an opening of a copy, if it refuses that."""
        copy = shutil.copy(path, f"{self.folder}/copy.db")
        _, errors, status = self(copy, *options, "list")
        remove(copy)
        return errors.strip() if status else None

    def agrees(self, path: str, what: str) -> str:
        """What is printed of a file, which the program refuses if and only if that says so."""
        output, status, _ = explained(path)
        refusal = self.refusal(path)
        report.same(f"{what}: refused by nixkeep-explain, which prints {output[:600]!r}", status, 3 if refusal else 0,
                    path)
        first = output.split("\n")[0]
        if refusal and not first.startswith(f"{path}: {refusal}"):
            report.fail(f"{what}: {first!r}, and the program answers {refusal!r}", path)
        return output


# ---- random files


def some_store(rng: random.Random, path: str, schema: int | None = None) -> World:
    """A random store in a file."""
    schema = schema or rng.choice([1, 2, 3, 3])
    built = some_built(rng, rng.choice([0, 1, 5, 20]))
    put(path, built.rows(schema), f"PRAGMA page_size = {rng.choice([512, 1024, 4096])};" + made_by(schema))
    return built.world


def schema_pages(path):
    """The pages of the list of tables, where SQLite says which they are; else the first."""
    with contextlib.closing(sqlite3.connect(path)) as conn, contextlib.suppress(sqlite3.Error):
        return [number for number, in conn.execute("SELECT pageno FROM dbstat WHERE name = 'sqlite_schema'")]
    return [1]


def change_bytes(rng: random.Random, path: str) -> str:
    """Changes some bytes of the header or of pages of tables, most of them near the start of a page, or cuts the file.

    Texts of the list of tables stay: if they are damaged, nixkeep and SQLite may differ on what they make.
    """
    schema = schema_pages(path)
    data = bytearray(Path(path).read_bytes())
    page, edits = int.from_bytes(data[16:18], "big"), []
    others = [number - 1 for number in range(1, 1 + len(data) // page) if number not in schema]
    for _ in range(rng.choice([1, 1, 2, 5])):
        near = rng.randrange(min(page, 200))
        at = rng.choice([page * rng.choice(others) + rng.choice([near, near, rng.randrange(page)]), rng.randrange(100)])
        data[at] = rng.choice([0, 255, data[at] ^ 1 << rng.randrange(8)])
        edits.append((at, data[at]))
    if rng.random() < 0.1:
        del data[rng.randrange(len(data)):]
    Path(path).write_bytes(data)
    return f"bytes changed: {edits}, {len(data)} are left"
