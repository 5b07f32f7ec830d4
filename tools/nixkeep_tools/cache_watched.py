"""All by which whoever runs a store watches it: figures for Prometheus, the last day as a page, its health, and the
record of changes."""
import argparse
import re
import time
from pathlib import Path

from aiohttp import web

from . import backup_folder, cache_changes
from .cache_blobs import Blobs
from .cache_counts import of_blobs, of_sweep
from .cache_day import Day
from .cache_health import Health
from .cache_http import READ, Route, reply
from .cache_limit import Limit
from .cache_metrics import Metrics, of_backup, of_cache
from .cache_server import Server
from .cache_sweep import Sweep
from .cache_waiting import Waiting
from .cache_watching import Watching

try:
    from . import overview_day, overview_style
except ModuleNotFoundError:
    overview_day = None

PAGE = re.compile(r"/overview/day")
# The age of a copy in seconds from which on the page says so.
OLD = 2 * 86_400
# The seconds for which the page is kept. It is the same for all who ask, and takes long to make.
FRESH = 1


def state_of_backup(said):
    """The file with the state of the copies, or None."""
    near = said.db and str(Path(said.db).absolute().with_name("backup.json"))
    return said.backup_state or near


class Watched:
    """`metrics.sources` and `health.checks` are where other parts of nixkeep-cache add what they know."""

    def __init__(self, said: argparse.Namespace, server: Server, waiting: Waiting, limit: Limit, store: str):
        self.store, self.limit, self.state, self.server = store, limit, state_of_backup(said), server
        self.watching, self.health, self.metrics = Watching(), Health(server), Metrics()
        self.day, self.made, self.until = Day(f"{waiting.folder}/day.json"), None, 0
        self.metrics.sources += [of_cache(server, self.watching, limit, waiting), of_backup(self.state)]
        self.watching.observers += [self.metrics.observe, self.day.observe, cache_changes.Record().observe]

    def watch_blobs(self, blobs: Blobs, sweep: Sweep) -> None:
        self.metrics.sources += [of_blobs(blobs), of_sweep(sweep)]
        self.health.checks["blobs"] = blobs.answers

    def parts(self) -> list:
        return [self.health, self.metrics, self]

    def routes(self) -> list[Route]:
        return [Route(READ, PAGE, self.page)]

    async def page(self, _: web.Request) -> web.Response:
        if not overview_day:
            return reply(404, "the overview needs the Debian package python3-jinja2\n")
        if time.monotonic() > self.until:
            self.made = overview_day.page(self.day, self.store, "/overview", *self.now())
            self.until = time.monotonic() + FRESH
        return reply(200, self.made, "text/html; charset=utf-8", **overview_style.FIELDS)

    def now(self) -> tuple[list[tuple[str, str]], list[str]]:
        """What the page says of now: pairs of a word and a value, and lines of what needs somebody."""
        used, most = self.limit.figures()
        succeeded = backup_folder.read_state(self.state).get("succeeded") if self.state else None
        age = time.time() - succeeded if isinstance(succeeded, (int, float)) else None
        tiles = [("waiting now", f"{self.server.turns.waiting():,}")]
        tiles += [("file", overview_style.human(used))] if used is not None else []
        tiles += [("of its limit", f"{100 * used / most:.0f} %")] if most else []
        tiles += [("last copy", f"{age / 3600:.1f} h ago")] if age is not None else []
        notices = []
        if self.limit.near():
            notices.append("The store is nearly as large as it may be: drop roots, and collect.")
        if self.state and (age is None or age > OLD):
            notices.append("There is no copy of the last two days.")
        return tiles, notices
