"""Figures for Prometheus: /metrics."""
import asyncio
import functools
import os
import re
import time
from collections.abc import Iterator
from typing import Any

from aiohttp import web

from . import backup_folder
from .cache_counts import Figures
from .cache_http import READ, Route, reply
from .cache_limit import Limit
from .cache_server import Server
from .cache_turns import Turns
from .cache_waiting import Waiting
from .cache_watching import Seen, Watching, method_of

try:
    # (else each figure has another one, of the time of its first use)
    os.environ.setdefault("PROMETHEUS_DISABLE_CREATED_SERIES", "True")
    import prometheus_client
    from prometheus_client import core
except ImportError:
    prometheus_client = None

TARGET = re.compile(r"/metrics")
# The bounds of the histogram, in seconds.
BOUNDS = (0.005, 0.02, 0.1, 0.5, 2, 10, 60, 300)


def is_asked(request: web.Request) -> bool:
    return request.method in READ and TARGET.fullmatch(request.raw_path) is not None


class Metrics:
    """`sources` are functions that return triples: the name of a figure, what it is, and its value now, which is None
    where there is none. A name ends with `_total` where the value only rises. Other parts add theirs."""

    def __init__(self):
        self.sources, self.turns = [], Turns()
        if not prometheus_client:
            return
        self.registry = registry = prometheus_client.CollectorRegistry()
        made = lambda kind, name, about, labels, **more: kind(f"nixkeep_{name}", about, labels, registry=registry,
                                                              **more)
        counter, by_route = prometheus_client.Counter, ["method", "route"]
        self.requests = made(counter, "requests", "Requests by method, route and status.", [*by_route, "status"])
        self.seconds = made(prometheus_client.Histogram, "request_seconds", "How long requests took, with the time in "
                            "which they waited for others.", by_route, buckets=BOUNDS)
        self.received = made(counter, "received_bytes", "Bytes of the bodies of requests.", by_route)
        self.sent = made(counter, "sent_bytes", "Bytes of the bodies of replies.", by_route)
        self.lookups = made(counter, "lookups", "Records that were asked for, by whether they were found.", ["found"])
        # (to find the figures of labels takes longer than to count)
        self.of = functools.cache(self.labelled)
        registry.register(self)

    def labelled(self, method, route, status):
        """The figures of these requests: those that count one for each, and those of the time and of both bodies."""
        counts, by_route = [self.requests.labels(method, route, status)], (method, route)
        if route == "record" and method in READ and status in (200, 404):
            counts.append(self.lookups.labels("yes" if status == 200 else "no"))
        return counts, *(metric.labels(*by_route) for metric in (self.seconds, self.received, self.sent))

    def routes(self) -> list[Route]:
        return [Route(READ, TARGET, self.page)]

    def observe(self, seen: Seen) -> None:
        if not prometheus_client:
            return
        counts, seconds, received, sent = self.of(method_of(seen.request), seen.route, seen.status)
        for count in counts:
            count.inc()
        seconds.observe(seen.seconds)
        received.inc(seen.received)
        sent.inc(seen.sent)

    def collect(self) -> Iterator[Any]:
        """What Prometheus's own library asks for: the figures of the sources."""
        for source in self.sources:
            for name, about, value in source():
                is_sum = name.endswith("_total")
                if value is not None:
                    kind = core.CounterMetricFamily if is_sum else core.GaugeMetricFamily
                    yield kind(f"nixkeep_{name.removesuffix('_total')}", about, value=value)

    def describe(self):
        return []

    async def page(self, request: web.Request) -> web.Response:
        if not prometheus_client:
            return reply(404, "the metrics need the Debian package python3-prometheus-client\n")
        # (one at a time, so that between two of them other requests go on)
        async with self.turns.turn(request["caller"].user):
            await asyncio.sleep(0)
            return reply(200, prometheus_client.generate_latest(self.registry), prometheus_client.CONTENT_TYPE_LATEST)


def of_backup(file: str | None) -> Figures:
    """A source: the times of the last copy that succeeded and the last that failed, by the state in a file."""

    def figures():
        state = backup_folder.read_state(file) if file else {}
        succeeded, failed = (value if isinstance(value, (int, float)) else None
                             for value in (state.get("succeeded"), state.get("failed")))
        return [
            ("backup_succeeded_timestamp_seconds", "When the last good copy of the store was made.", succeeded),
            ("backup_age_seconds", "The age of the last good copy.", succeeded and time.time() - succeeded),
            ("backup_failed_timestamp_seconds", "When a copy failed for the last time.", failed),
        ]

    return figures


def of_cache(server: Server, watching: Watching, limit: Limit, waiting: Waiting) -> Figures:
    """A source: what goes on now."""

    def figures():
        used, most = limit.figures()
        return [
            ("up", "Whether the server of the store is there.", int(server.is_open())),
            ("connections", "The connections to the server since the start, so how often it was started.",
             server.connections),
            ("running_requests", "Requests that are being answered.", watching.running),
            ("queue", "Exchanges that wait for their turn at the server.", server.turns.waiting()),
            ("store_bytes", "The bytes that the file of the store uses.", used),
            ("store_bytes_limit", "The bytes beyond which adds are refused.", most),
            ("start_memory_bytes", "The bytes of memory that the server's next start takes.", limit.started()),
            ("waiting_files", "Uploaded archives that wait for their records, or have not been deleted yet.",
             len(waiting.files)),
            ("waiting_bytes", "The bytes of these.", sum(file.bytes for file in waiting.files.values())),
        ]

    return figures
