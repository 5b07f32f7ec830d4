"""Runs an hour of a team's day in minutes over one store, and measures what its users wait for.

The store has 100,000 objects of sizes of files of this machine's /usr (drawn by a seed, 1.4 GiB together) in closures
of 100, of which four fifths have a root. Eleven users, who are allowed, add texts, pin them and let them go, install
profiles and roll them back, read closures, and ask why something is kept; one, who is trusted, imports closures. There
are six periods, and a collection after each; after the third come a backup through the server and a restart, while the
users ask on. Each reply that hangs on one user alone is compared with that of a model of the store at once; after each
period so are the lists of objects, of roots and of what is live, the report, and what the collection prints. Anything
that differs ends the benchmark, so it fails where something is lost.

The server is the child of nixkeep-cache, as the package's units have it, and each request is a connection of its own,
as by a proxy. Prints requests a second, percentiles of the time of a reply, the memory of both, and the gap at the
restart. With --quick, there are two short periods over 1,000 objects of 14 MiB. Needs the Debian package
python3-aiohttp.
"""
import contextlib
import http.client
import itertools
import os
import shutil
import statistics
import subprocess
import threading
import time
from collections import namedtuple
from concurrent.futures import ThreadPoolExecutor
from pathlib import Path

from nixkeep_dev.bench.figures import MIB, limit, main, skipped, timed, title
from nixkeep_dev.bench.serving import Serving
from nixkeep_dev.bench.team import BUILD, STAFF, Team, configuration
from nixkeep_dev.bench.users import Differs, User
from nixkeep_dev.build import program
from nixkeep_dev.testing import processes, report
from nixkeep_dev.testing.http_messages import free_port, lines

# How many objects and bytes the store has, how many periods the day, and how often each user acts in one.
Size = namedtuple("Size", "objects total periods rounds")
WHOLE, QUICK = Size(100_000, 1434 * MIB, 6, 20), Size(1000, 14 * MIB, 2, 3)
# The seconds that a user who reads while something else is done rests after each request.
RESTS = 0.05
# What each user does in a period: the chances of the four.
DOES = {"add": 6, "profile": 2, "pull": 3, "question": 3}


def family(pid):
    """A process, and those that it has started."""
    return [pid, *map(int, Path(f"/proc/{pid}/task/{pid}/children").read_text().split())]


class Day:
    """The cache and the server over the team's store, and its users."""

    def __init__(self, file, folder, size, seed):
        objects, total, self.periods, self.rounds = size
        self.program, self.folder, self.port = file, folder, free_port()
        self.file, self.config = f"{folder}/store.db", f"{folder}/store.toml"
        Path(self.config).write_text(configuration())
        self.words = [file, "--config", self.config, "--db", self.file]
        subprocess.run([*self.words, "--user", "root", "list"], check=True)
        self.team = Team(self.file, objects, total, seed)
        self.users = [User(self.team, self.port, name, seed) for name in (BUILD, *STAFF)]
        self.root = User(self.team, self.port, "root", seed)

    def serving(self):
        """nixkeep-cache, with the store's server as its child."""
        words = ["/usr/bin/python3", f"{program.HERE}/tools/nixkeep-cache", "--proxied", "--nixkeep", *self.words]
        return Serving(self.port, *words, "--listen", f"127.0.0.1:{self.port}", "--waiting", f"{self.folder}/waiting")

    def act(self, user):
        """What a user does in a period."""
        for _ in range(self.rounds):
            if user.name == BUILD:
                user.push()
            else:
                (does,) = user.rng.choices([*DOES], DOES.values())
                getattr(user, does)()

    def period(self, pool):
        """All users act; then what the store has is compared with the model, and a collection is made."""
        self.acting += timed(lambda: list(pool.map(self.act, self.users)))
        for target in ("/paths", "/roots", "/live", "/report"):
            self.root.same("whole store", "GET", target)
        self.root.same("collection", "POST", "/collect", lines())

    def reads(self, name, ends):
        """A user reads closures until the event is set, and asks again where the server has gone away."""
        user = User(self.team, self.port, name, f"{name} reads", RESTS)
        while not ends.wait(RESTS):
            with contextlib.suppress(OSError, http.client.HTTPException):
                user.pull()
        return user.requests

    def meanwhile(self, pool, call):
        """What users who read see while something else is done: the seconds of that, and of their longest pause."""
        ends = threading.Event()
        readers = [pool.submit(self.reads, name, ends) for name in STAFF[:4]]
        time.sleep(1)
        took = timed(call)
        time.sleep(1)
        ends.set()
        done = sorted(request.sent + request.took for reader in readers for request in reader.result())
        return took, max(after - before for before, after in itertools.pairwise(done))

    def back_up(self):
        """Copies the store through the server; the copy is tested to be the server's store."""
        os.mkdir(f"{self.folder}/copies")
        words = [f"{program.HERE}/tools/nixkeep-backup", "fetch", "--to", f"{self.folder}/copies", "--as", "root",
                 "--server", f"http://127.0.0.1:{self.port}", "--config", self.config, "--program", self.program]
        subprocess.run(words, check=True, stdout=subprocess.DEVNULL)
        shutil.rmtree(f"{self.folder}/copies")

    def restart(self) -> None:
        """Ends the server, and starts it again; it listens once it has opened the store."""
        self.server.__exit__()
        self.server = self.serving()

    def run(self) -> dict[str, float]:
        """The day; the seconds that its periods and what comes in the middle took."""
        self.server, self.acting, took = self.serving(), 0, {}
        try:
            with ThreadPoolExecutor(len(self.users)) as pool:
                for at in range(self.periods):
                    self.period(pool)
                    if at == self.periods // 2 - 1:
                        took["backup"] = self.meanwhile(pool, self.back_up)
                        took["restart"] = self.meanwhile(pool, self.restart)
            took["memory"] = sum(processes.memory(pid) for pid in family(self.server.started.pid)) / 1024
        finally:
            self.server.__exit__()
        return took


def show(day, took):
    """Prints the figures."""
    requests = [request for user in day.users for request in user.requests]
    limit("requests of users", len(requests) / day.acting, None, "requests each second")
    kinds = sorted({request.kind for request in requests})
    for kind, times in [(kind, [request.took for request in requests if request.kind == kind]) for kind in kinds]:
        limit(f"{kind}: half of {len(times):,} within", statistics.median(times), None)
        limit(f"{kind}: 99 of 100 within", statistics.quantiles(times, n=100)[98], None)
    for kind in ("whole store", "collection"):
        limit(f"{kind}: slowest", max(request.took for request in day.root.requests if request.kind == kind), None)
    limit("a backup through the server, with four users who read", took["backup"][0], None)
    limit("their longest pause meanwhile", took["backup"][1], None)
    limit("a restart", took["restart"][0], None)
    limit("longest pause of users who read meanwhile", took["restart"][1], None)
    limit("memory of the server and the cache", took["memory"], None, "MiB")
    limit("replies that aren't the model's", 0, 0, "replies")


def day(run, words, folder):
    if skipped("python3-aiohttp"):
        return
    size = QUICK if words.quick else WHOLE
    title(f"a day of 12 users over {size.objects:,} objects, {size.total // MIB:,} MiB together")
    made = Day(run.file, folder, size, words.seed)
    try:
        took = made.run()
    except Differs as wrong:
        report.fail(f"differs from the model: {wrong}")
    show(made, took)


def options(parser):
    parser.add_argument("--seed", type=int, default=1, metavar="N", help="what chance begins with [1]")


if __name__ == "__main__":
    main(__doc__, [day], more=options)
