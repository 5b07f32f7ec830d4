"""The record of who changed what: a line of JSON on standard output for each request that may change something."""
import contextlib
import datetime
import json
import re
import time

from aiohttp import web

from .cache_http import READ
from .cache_watching import Seen

# The paths that a line has at most, those where nothing was done, and the bytes of a body that are searched for them.
# So nobody makes the journal forget what was done by requests that do nothing, or takes the time of all by long bodies.
MOST, FEW, SEARCHED = 100, 3, 1 << 16
# The characters that a line has of a target, and where nothing was done.
LONG, SHORT = 1000, 300
# The seconds between two lines of requests that name no user, such as those of another site's page. They do nothing.
BETWEEN = 1
BASE = re.compile(r"[0-9a-z]{32}-[0-9A-Za-z+._?=-]{1,211}")
NAMED = re.compile(rb"^(?:path: |root: \S+ )(\S+)$", re.M)
PATH = re.compile(rb"^(/\S+)$", re.M)


def note(request: web.Request, given: bytes, text: bytes = b"") -> None:
    """Remembers what a request names in its body, and what its reply names, for the line that follows."""
    if request.method in READ:
        return
    request["named"] = NAMED.findall(given[:SEARCHED].partition(b"\n\n")[0])
    request["changed"] = PATH.findall(text)


def line(seen):
    """The line of a request, as a dictionary."""
    request, caller = seen.request, seen.request.get("caller")
    named = [path.decode("utf-8", "replace") for key in ("named", "changed") for path in request.get(key, ())]
    named = [path.rpartition("/")[2] for path in named]
    paths = [*dict.fromkeys(filter(BASE.fullmatch, named))]
    most, target = (MOST, LONG) if seen.status < 400 else (FEW, SHORT)
    fields = {
        "time": datetime.datetime.now(datetime.timezone.utc).isoformat(timespec="milliseconds"),
        "user": caller and caller.user,
        "group": caller and caller.group,
        "method": request.method[:16],
        "route": seen.route,
        "target": request.raw_path[:target],
        "paths": paths[:most],
        "status": seen.status,
        "bytes": seen.received,
        "seconds": round(seen.seconds, 3),
    }
    return fields | ({"more": len(paths) - most} if len(paths) > most else {})


class Record:
    """The record of changes. `since` is when the last line of a request was printed that names no user."""

    def __init__(self):
        self.since = -BETWEEN

    def observe(self, seen: Seen) -> None:
        """Prints the line of a request that may change something."""
        if seen.request.method in READ:
            return
        if not seen.request.get("caller"):
            if time.monotonic() - self.since < BETWEEN:
                return
            self.since = time.monotonic()
        # (a journal that takes nothing is no reason to fail a request)
        with contextlib.suppress(OSError, ValueError):
            print(json.dumps(line(seen)), flush=True)
