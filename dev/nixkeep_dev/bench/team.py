"""A team's store of sizes as in a real closure, and the model of dev/nixkeep_dev, which answers each request too."""
import hashlib
import json
import os
import random
import sqlite3
import threading
from pathlib import Path

from nixkeep_dev.bench.sqlite import insert, opened
from nixkeep_dev.model import policy, server, worlds
from nixkeep_dev.model.archives import LIMIT
from nixkeep_dev.model.store import Store
from nixkeep_dev.testing.nar import archive, hidden

CONFIGURATION = 'trusted-users = ["root", "build"]\nallowed-users = ["root", "build", "@staff"]\n'
BUILD, STAFF = "build", [f"user{at}" for at in range(1, 12)]
# How many objects a closure has, and the references of each that isn't the first.
CLOSURE, REFERENCES = 100, 3
# Of ten closures, how many have a root.
KEPT = 8
FRAME = len(archive(b""))


def configuration() -> str:
    return f"{CONFIGURATION}[groups]\nstaff = {json.dumps(STAFF)}\n"


def sizes(rng, count, total):
    """The sizes in bytes of files of this machine's /usr, drawn by chance: together at most 16 MiB above `total`."""
    files = (f"{at}/{name}" for at, _, names in os.walk("/usr") for name in sorted(names))
    each = [os.lstat(file).st_size for file in files if Path(file).is_file() and not Path(file).is_symlink()]
    each, drawn, together = [length for length in each if length <= LIMIT - FRAME - 8], [], 0
    while len(drawn) < count:
        size = rng.choice(each)
        if together + size <= total * (len(drawn) + 1) / count + LIMIT:
            drawn.append(size)
            together += size
    return drawn


class Team:
    """The store's file and the model of it, with closures of which most have a root."""

    def __init__(self, path: str, objects: int, total: int, seed: int):
        self.rng, self.closures, self.digests, self.lock = random.Random(seed), [], {}, threading.Lock()
        self.world = worlds.World()
        self.model = Store(policy.config_of(configuration().encode()), self.world)
        with opened(path) as conn:
            conn.execute("BEGIN")
            for at, size in enumerate(sizes(self.rng, objects, total)):
                self.put(conn, at, size)
            for at, closure in enumerate(self.closures):
                if at % 10 < KEPT:
                    self.pin(conn, at, closure[-1])
            conn.execute("COMMIT")
            conn.execute("PRAGMA wal_checkpoint(TRUNCATE)")

    def put(self, conn: sqlite3.Connection, number: int, size: int) -> None:
        """An object of a closure: it refers to the one before it, and to others of those before it."""
        if number % CLOSURE == 0:
            self.closures.append([])
        closure, name = self.closures[-1], hidden(f"object{number}")
        refs = {*closure[-1:], *self.rng.sample(closure, min(len(closure), REFERENCES - 1))}
        nar = archive(self.rng.randbytes(size))
        digest = hashlib.sha256(nar).digest()
        insert(conn, name, nar, digest)
        conn.executemany("INSERT INTO refs (base, target) VALUES (?1, ?2)", [(name, ref) for ref in refs])
        # (the model counts the bytes of an archive alone, so a range of their length has its place)
        self.world.objects[name] = worlds.Object(range(len(nar)), frozenset(refs), None, None, [])
        self.digests[name] = digest
        closure.append(name)

    def pin(self, conn: sqlite3.Connection, at: int, target: str) -> None:
        if at % 2:
            conn.execute("INSERT INTO permanent VALUES (?1, ?2)", (f"closure{at}", target))
            self.world.permanent[f"closure{at}"] = target
        else:
            owner = STAFF[at % len(STAFF)]
            conn.execute("INSERT INTO user_root VALUES (?1, ?2, ?3)", (owner, f"closure{at}", target))
            self.world.user[owner, f"closure{at}"] = target

    def kept(self, rng: random.Random) -> list[str]:
        """A closure that has had a root from the beginning."""
        return self.closures[rng.choice([at for at in range(len(self.closures)) if at % 10 < KEPT])]

    def answer(self, user: str, method: str, target: str, body: bytes | None) -> tuple[int, bytes]:
        """The status and the text that the model answers, and the change that it makes."""
        with self.lock:
            reply, _, _ = server.answer(self.model, method, target, [(b"store-user", user.encode())], body or b"")
        return server.status_of(reply), reply.text
