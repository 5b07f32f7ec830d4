"""What the users of a team's server do in a day. Each request is a connection of its own."""
import contextlib
import hashlib
import http.client
import random
import time
from collections import namedtuple

from nixkeep_dev.bench.team import REFERENCES, Team
from nixkeep_dev.testing.http_messages import lines
from nixkeep_dev.testing.nar import archive, base32, hidden, nar_hash

# A request that was answered: which kind, when it was sent, and the seconds until the reply was whole.
Request = namedtuple("Request", "kind sent took")
OF_CLOSURE = 20


class Differs(Exception):
    """A reply isn't the model's."""


class User:
    """A user of the server: each request is a connection of its own. A user `rests` for some seconds after each."""

    def __init__(self, team: Team, port: int, name: str, seed: int | str, rests: float = 0):
        self.team, self.port, self.name, self.rng = team, port, name, random.Random(f"{seed} {name}")
        self.rests = rests
        self.requests, self.made, self.pinned = [], 0, []

    def ask(self, kind: str, method: str, target: str, body: bytes | None = None) -> tuple[int, bytes]:
        """The status and the text of the server's reply."""
        sent, connection = time.perf_counter(), http.client.HTTPConnection("127.0.0.1", self.port, timeout=150)
        with contextlib.closing(connection):
            connection.request(method, target, body, {"store-user": self.name, "connection": "close"})
            reply = connection.getresponse()
            text = reply.read()
        self.requests.append(Request(kind, sent, time.perf_counter() - sent))
        time.sleep(self.rests)
        return reply.status, text

    def same(self, kind: str, method: str, target: str, body: bytes | None = None) -> str:
        """A request whose reply hangs on what this user alone has done, so it has to be the model's at once."""
        came = self.ask(kind, method, target, body)
        wanted = self.team.answer(self.name, method, target, body)
        if came != wanted:
            raise Differs(f"{self.name} {method} {target}: {came!r:.300} where {wanted!r:.300} is meant")
        return came[1].decode().strip().rpartition("/")[2]

    def add(self) -> None:
        """A small text that refers to a closure; every other one gets a root, and of four roots one is dropped."""
        self.made += 1
        refs = self.rng.sample(self.team.kept(self.rng), REFERENCES)
        contents = self.rng.randbytes(self.rng.choice([200, 2000, 20_000]))
        named = [("name", f"{self.name}-{self.made}"), *[("reference", ref) for ref in refs]]
        path = self.same("add", "POST", "/text", lines(*named, payload=contents))
        if self.made % 2:
            self.same("root", "POST", f"/root/user/{self.name}/at{self.made}", lines(("path", path)))
            self.pinned.append((f"at{self.made}", path))
        if self.made % 8 == 0:
            self.same("root", "DELETE", f"/root/user/{self.name}/{self.pinned.pop(0)[0]}")

    def profile(self) -> None:
        """A new generation of the user's profile, and sometimes back to the one before."""
        target = self.team.kept(self.rng)[-1]
        self.same("root", "POST", f"/profile/{self.name}/tools", lines(("path", target)))
        if self.rng.random() < 0.3:
            self.same("root", "POST", f"/rollback/{self.name}/tools")

    def pull(self) -> None:
        """Some of a closure: the record and the archive of each object."""
        for path in self.rng.sample(self.team.kept(self.rng), OF_CLOSURE):
            digest = self.team.digests[path]
            status, record = self.ask("record", "GET", f"/info/{path}")
            if status != 200 or f"NarHash: sha256:{base32(digest)}\n".encode() not in record:
                raise Differs(f"the record of {path}: {status}, {record!r:.300}")
            status, nar = self.ask("archive", "GET", f"/nar/{path}")
            if status != 200 or hashlib.sha256(nar).digest() != digest:
                raise Differs(f"the archive of {path}: {status}, {len(nar)} bytes")

    def push(self) -> None:
        """A new closure, each import under a path that refers to the one before, and a root for the last."""
        refs, self.made = [], self.made + 1
        for at in range(OF_CLOSURE):
            path = hidden(f"pushed{self.made}-{at}")
            nar = archive(self.rng.randbytes(self.rng.choice([500, 2000, 50_000])))
            named = [("path", path), ("nar-hash", nar_hash(nar)), *[("reference", ref) for ref in refs]]
            self.same("import", "POST", "/import", lines(*named, payload=nar))
            refs = [path]
        self.same("root", "POST", f"/root/permanent/pushed{self.made}", lines(("path", refs[0])))

    def question(self) -> None:
        """Why an object of the user's own is kept."""
        if self.pinned:
            self.same("question", "GET", f"/roots-of/{self.rng.choice(self.pinned)[1]}")
