"""What is observed of each request: for /metrics, for the figures of the last day, and for the journal."""
import collections
import time

from aiohttp import web

from .cache_archives import RECORD
from .cache_http import Handler

# A request that has been answered, with the time and the bytes that it took. `answer` is None where it was cut off.
Seen = collections.namedtuple("Seen", "request answer route status received sent seconds")
# The status of a request whose client left, as nginx has it, and of one whose handler failed.
LEFT, FAULT = 499, 500
KNOWN = frozenset(
    "nix-cache-info overview metrics health text source import info nar ls roots-of paths live dead roots report root "
    "profile rollback switch generation temp runtime collect delete who large pointers sweep".split()
)
METHODS = ("GET", "HEAD", "POST", "PUT", "DELETE")


def route_of(target):
    """A word for a target: one of a few, whatever clients ask for."""
    if RECORD.fullmatch(target):
        return "record"
    first = target[1:].partition("/")[0].partition("?")[0]
    return first if first in KNOWN else "other"


def method_of(request: web.Request) -> str:
    return request.method if request.method in METHODS else "other"


class Watching:
    """`observers` are called with each request that has been answered, as a Seen."""

    def __init__(self):
        self.observers, self.running = [], 0

    @web.middleware
    async def observed(self, request: web.Request, handler: Handler) -> web.StreamResponse:
        began, status, sent, answer = time.monotonic(), LEFT, 0, None
        self.running += 1
        try:
            answer = await handler(request)
            status, sent = answer.status, 0 if request.method == "HEAD" else answer.content_length or 0
            return answer
        except Exception:
            status = FAULT
            raise
        finally:
            self.running -= 1
            # (what came, and not what the client said)
            seconds, received = time.monotonic() - began, getattr(request.content, "total_bytes", 0)
            self.saw(Seen(request, answer, route_of(request.raw_path), status, received, sent, seconds))

    def saw(self, seen: Seen) -> None:
        for observe in self.observers:
            observe(seen)
