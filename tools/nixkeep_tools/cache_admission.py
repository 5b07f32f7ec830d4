"""Who asks nixkeep-cache, and whether that caller may connect to the store."""
from collections.abc import Callable
from typing import Any

from aiohttp import web

from . import cache_health, cache_metrics, cache_origin, paths
from .cache_http import reply
from .cache_server import Caller, Server


def caller(request: Any, fixed: Caller | None) -> Caller | None:
    """Who asks, or None where that isn't said by one field and at most one group, as the server demands it."""
    if fixed:
        return fixed
    users, groups = request.headers.getall("store-user", []), request.headers.getall("store-group", [])
    if len(users) != 1 or len(groups) > 1 or not all(map(paths.is_plain_name, [*users, *groups])):
        return None
    return Caller(users[0], groups[0] if groups else None)


def reader(fixed: Caller | None, is_local: bool) -> Callable[[Any], Caller | None]:
    """What returns who asks to read, by the head of a request, or None where it is refused."""
    return lambda request: None if is_local and cache_origin.is_rebound(request) else caller(request, fixed)


def naming(fixed: Caller | None, is_local: bool) -> Callable:
    """The middleware that says who asks, and refuses a foreign web page."""

    @web.middleware
    async def named(request, handler):
        if cache_health.is_asked(request):
            return await handler(request)
        if is_local and cache_origin.is_rebound(request) or cache_origin.is_of_other_site(request):
            return reply(403, "denied: other-site\n")
        who = caller(request, fixed)
        if not who:
            return reply(400, "refused: 20 bad-caller\n")
        request["caller"] = who
        return await handler(request)

    return named


def admission(server: Server, monitor: str | None) -> Callable:
    """The middleware for which nothing is answered, read or kept for a caller that may not connect to the store.
    Anybody may ask whether it is well, and `monitor` for its figures."""

    @web.middleware
    async def admitted(request, handler):
        who = request.get("caller")
        is_free = not who or monitor == who.user and cache_metrics.is_asked(request)
        denial = None if is_free else await server.denial(who)
        return reply(denial.status, denial.text) if denial else await handler(request)

    return admitted
