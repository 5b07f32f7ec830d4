"""A binary cache of Nix over a store's server, on Debian's python3-aiohttp."""
import argparse
import asyncio
import contextlib
import functools
import logging
import os
import resource
import sqlite3
import sys
from collections.abc import Awaitable, Callable
from concurrent.futures import ThreadPoolExecutor
from pathlib import Path

from aiohttp import HttpVersion10, HttpVersion11, web
from aiohttp.http_exceptions import HttpProcessingError

from . import blobs, blobs_command, cache_child, cache_limit, cache_listening, cache_lists, cache_options
from . import cache_signing, overview_source, store_size
from .cache_admission import admission, naming, reader
from .cache_archives import Archives
from .cache_at_once import AtOnce, Loop
from .cache_ending import FINISH, Ending
from .cache_blobs import Blobs
from .cache_fair import MOST, Fair
from .cache_http import BODY, FIRST, ROOM, THREADS, Answered, Handler, Sending, alone, begins, forget, passed, reply
from .cache_http import shown
from .cache_large import Large
from .cache_names import Names
from .cache_overview import Overviews
from .cache_passing import Passing
from .cache_pointers import Pointers
from .cache_records import Bad
from .cache_room import Left
from .cache_roots import Roots
from .cache_server import Caller, Port, Server, Unreachable
from .cache_sessions import Sessions
from .cache_shares import Shares
from .cache_stored import Stored
from .cache_sweep import Sweep
from .cache_uploads import Uploads
from .cache_waiting import Full, Waiting
from .cache_watched import Watched
from .cache_who import Who
from .notify import notify

# The part of the files that a process may open which requests may have: each has a connection, and may have a file.
PART = 2
# The seconds after which a thread that reads something long leaves others their turn: clients wait for the first thread
# at each step. Python's own are ten times as many.
SWITCH = 0.0005


def failures(idle: float) -> Callable[[web.Request, Handler], Awaitable[web.StreamResponse]]:
    """What fails is an answer, and a line where the server or the disk failed."""

    @web.middleware
    async def answered(request, handler):
        try:
            return await handler(request)
        except Bad as bad:
            return reply(400, f"{bad}\n")
        except Answered as answered:
            return answered.reply
        except overview_source.Denied as denied:
            return passed(denied.reply)
        except cache_limit.Full as full:
            return reply(507, f"{full}")
        except Full:
            return reply(503, "no room for one more archive that waits for its record: try again later\n")
        except Left:
            return reply(503, "the client has left\n")
        except TimeoutError:
            return reply(408, f"nothing came for {idle:.0f} seconds\n")
        except (Unreachable, cache_child.Refused, OSError, blobs.Failed, sqlite3.Error) as error:
            forget(error)
            print(f"nixkeep-cache: {request.method} {request.raw_path[:300]!r}: {error}", file=sys.stderr, flush=True)
            return reply(503 if isinstance(error, (OSError, blobs.Failed, sqlite3.Error)) else 502, f"{shown(error)}\n")

    return answered


@web.middleware
async def framed(request, handler):
    """A body has a length, as for the server: what comes after a request is never taken for another one."""
    is_known, is_coded = request.version in (HttpVersion10, HttpVersion11), "transfer-encoding" in request.headers
    if is_known and not is_coded:
        return await handler(request)
    answer = reply(400, "refused: 37 bad-length\n" if is_known else "refused: 36 bad-head\n")
    answer.force_close()
    return answer


def together(middlewares: list[Callable]) -> Callable:
    """One middleware for many, the first of which is the outermost. For each of its own, aiohttp copies the attributes
    of a function at each request."""

    @web.middleware
    async def answered(request, handler):
        for middleware in reversed(middlewares):
            handler = functools.partial(middleware, handler=handler)
        return await handler(request)

    return answered


def dispatched(parts):
    """The handler of all targets. Routes of aiohttp's would undo percent signs in them."""
    routes = [route for part in parts for route in part.routes()]

    async def answer(request):
        for methods, form, handler in routes:
            match = form.fullmatch(request.raw_path)
            if match and (not methods or request.method in methods):
                return await handler(request, *match.groups())
        raise AssertionError("the last route has all targets")

    return answer


def large_of(said, server, folder, sending, shares, store, ends):
    """The part that has large archives, and the one that sweeps them. None without blobs."""
    if not said.blobs:
        return []
    place = blobs.place_of(said.blobs, f"{folder}/incoming", said.blobs_endpoint)
    try:
        place.begin()
    except blobs.Failed as failed:
        if not said.blobs.startswith("s3:"):
            raise
        # (a bucket may come back, and what is small is served meanwhile)
        print(f"nixkeep-cache: {failed}", file=sys.stderr, flush=True)
    kept = Blobs(place, said.blobs_level, sending, ends)
    large = Large(kept, Pointers(server), said.large_from, Stored(f"{folder}/arrived"), store)
    near = said.db and str(Path(said.db).absolute().parent)
    return [large, Sweep(kept, large.pointers, shares, said.grace, said.idle, f"{folder}/swept.json", near)]


def parts_of(said: argparse.Namespace, server: Server, waiting: Waiting, settings: tuple[str, bool, bool],
             signing: cache_signing.Signing, ends: asyncio.Event) -> tuple[list, Sessions, Watched]:
    """The parts that answer, each with its routes, the sessions, and what is watched. The first route that fits has a
    request."""
    store, *keeps = settings
    shares = Shares(f"{waiting.folder}/shares.db", said.most_bytes_each)
    stored, names = Stored(f"{waiting.folder}/stored"), Names(server, said.list_every, [shares.listed, signing.listed])
    for name in filter(stored.base, [*waiting.files]):
        waiting.use(name)
    sending, sessions = Sending(ROOM, said.idle), Sessions(server, f"{waiting.folder}/sessions", said.session_seconds)
    roots = Roots(server, store)
    own = lambda: store_size.resident() + cache_limit.LISTINGS * (names.size + roots.size)
    limit = cache_limit.Limit(said.db, said.most_bytes, server.place.memory, own, lambda: server.place.opened)
    overviews = Overviews(server, store, keeps, sending, overview_source.name_of(said.config, said.db), left=limit.left)
    watched = Watched(said, server, waiting, limit, store)
    followers = [names.deleted, overviews.records.forget, shares.deleted, signing.deleted]
    of_large = large_of(said, server, waiting.folder, sending, shares, store, ends)
    large = of_large[0] if of_large else None
    uploads = Uploads(server, names, stored, waiting, sessions, signing, limit, shares, store, said.idle, large)
    passing = Passing(server, names, sessions, limit, shares, sending, followers, said.idle, roots)
    if large:
        large.uploads, large.passing = uploads, passing
        watched.watch_blobs(large.blobs, of_large[1])
    archives = Archives(server, names, stored, waiting, sessions, signing, sending, store, large)
    return [*of_large, archives, uploads, overviews, Who(server), *watched.parts(), passing], sessions, watched


async def application(said, server, waiting, settings, signing, is_local):
    fixed = Caller(said.user, said.group) if said.user else None
    ending = Ending()
    parts, sessions, watched = parts_of(said, server, waiting, settings, signing, ending.begun)
    files = resource.getrlimit(resource.RLIMIT_NOFILE)[0]
    fair, watching = Fair(min(MOST, files // (1 if fixed else PART)), bool(fixed)), watched.watching
    # (whoever waits to be admitted counts, too)
    middlewares = [ending.counted, watching.observed, alone, framed, failures(said.idle), naming(fixed, is_local),
                   fair.counted, admission(server, said.monitor)]
    # (a body is what came, as to the server: one that is unpacked ahead of its limits would fill the memory)
    made = web.Application(client_max_size=BODY, middlewares=[together(middlewares)],
                           handler_args={"auto_decompress": False, "read_bufsize": FIRST})
    made.router.add_route("*", "/{target:.*}", dispatched(parts))
    made.cleanup_ctx.extend([begun(server), expiring(waiting, sessions, watched.day)])
    made.on_response_prepare.append(begins)
    made.on_shutdown.append(ending.begin)
    archives = next(part for part in parts if isinstance(part, Archives))
    loop = asyncio.get_running_loop()
    loop.set_default_executor(ThreadPoolExecutor(THREADS, "archives"))
    loop.at_once = AtOnce(reader(fixed, is_local), server, archives, watching, fair, ending)
    return made


def begun(server):
    """Starts the server ahead of the first request, and says when it answers. Ends it at the end, and this process
    where no other server is started."""

    async def first_answer():
        while True:
            with contextlib.suppress(Unreachable):
                await server.ask(Caller("nixkeep-cache", None), "GET", "/")
                return notify("READY=1")

    async def watched():
        try:
            await first_answer()
            await server.place.ended()
        except cache_child.Refused as refused:
            print(f"nixkeep-cache: {refused.line}", file=sys.stderr, flush=True)
            raise web.GracefulExit() from None

    async def running(_):
        task = asyncio.create_task(watched())
        yield
        task.cancel()
        await server.end()

    return running


def expiring(waiting, sessions, day):
    """Deletes now and then what has waited for too long, ends sessions, and writes the figures of the day."""

    async def now_and_then():
        while True:
            try:
                waiting.expire()
                await sessions.expire()
            except (OSError, cache_child.Refused) as error:
                # (it is tried again: what waits may not stay for ever)
                print(f"nixkeep-cache: {error}", file=sys.stderr, flush=True)
            day.save()
            await asyncio.sleep(60)

    async def running(_):
        task = asyncio.create_task(now_and_then())
        yield
        task.cancel()
        day.save()

    return running


def main(words: list[str] | None = None) -> None:
    words = sys.argv[1:] if words is None else words
    if words[:1] in (["sweep"], ["verify"]):
        return blobs_command.main(words)
    said = cache_options.read(words)
    sys.setswitchinterval(SWITCH)
    try:
        settings = overview_source.settings(said.config)
        waiting = Waiting(said.waiting, said.waiting_count, said.waiting_bytes, said.waiting_seconds)
        signing = cache_signing.made(said, settings[0])
    except (OSError, sqlite3.Error, ValueError, cache_signing.BadKey) as error:
        sys.exit(f"nixkeep-cache: {error}")
    # A client's malformed head is answered; it is no line for the journal.
    logging.getLogger("aiohttp.server").addFilter(
        lambda record: not (record.exc_info and isinstance(record.exc_info[1], HttpProcessingError))
    )
    where = cache_listening.where(said.listen)
    if said.db:
        program = said.nixkeep or cache_child.program_near(sys.argv[0])
        server = Server(place := cache_child.Child(program, said.db, said.config), said.patience)
    else:
        server = Server(place := Port(*(said.store or ("127.0.0.1", 8080))), said.patience)

    async def start():
        is_local = bool(said.user) and cache_listening.is_loopback(where)
        return await application(said, server, waiting, settings, signing, is_local)

    try:
        web.run_app(start(), **where, print=None, access_log=None, shutdown_timeout=FINISH, loop=Loop(),
                    backlog=cache_listening.QUEUE)
    except (OSError, blobs.Failed) as error:
        sys.exit(f"nixkeep-cache: {error}")
    finally:
        cache_listening.removed(where)
    # (Python itself would wait for threads, and one may wait for a bucket that hangs)
    cache_lists.close()
    with contextlib.suppress(OSError, ValueError):
        sys.stdout.flush()
    os._exit(place.refused or 0)
