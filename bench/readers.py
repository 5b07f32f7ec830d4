"""Measures many readers of one store: nixkeep-cache alone, and nginx as the proxy of one copy of the file, and of
three, without its cache and with it.

  alone       nixkeep-cache without nginx, next to a server on the same aiohttp that answers everything at once; each
              record has been asked for once before, so all are in its memory
  one, three  how many copies there are; each has been asked for each record once before

Each copy has a server and a nixkeep-cache of its own. nginx has the configuration of examples/team, with its log and
its limits, which are high enough here for one address. 64 clients of wrk ask for records and archives of 10,000 objects
in turn: first without a cache, then with all of them in nginx's cache, next to the same nginx that has them as files,
then for archives of which nginx asks every two seconds whether they are still there, and last for records that are kept
for two seconds, while the servers of the stores are stopped for ten seconds. Prints requests a second, the 50th and the
99th percentile (of nginx with files, too), replies that weren't 200, and the processor time of the servers meanwhile.
Needs the Debian packages nginx-light, wrk and python3-aiohttp; all is skipped where one is missing, and it says so.
There is no TLS and no password: these cost nginx, not the store. With --quick, there are 1,000 objects, and each run
takes two seconds.
"""
import contextlib
import http.client
import os
import random
import shutil
import socket
import sqlite3
import sys
import tempfile
import threading
import time
from concurrent.futures import ThreadPoolExecutor
from pathlib import Path

import parts
from nixkeep_dev.bench.figures import limit, main, note, put, skipped, title, versus
from nixkeep_dev.bench.load import Load
from nixkeep_dev.bench.nginx import of_team
from nixkeep_dev.bench.serving import Serving, processor_of
from nixkeep_dev.testing import nar, report, stores
from nixkeep_dev.testing.http_messages import free_port

AWAY, CLIENTS = 10, 64
# The least requests a second of nixkeep-cache alone, the least part of what nginx does with files, and how many times
# as long as half of the clients one in a hundred may wait.
ALONE, OF_FILES, FAIR = 6000, 0.8, 5
# What a client says: the name of the host, as wrk writes it, and of the user.
SAYS = {"Host": "red.example.org", "store-user": "reader", "authorization": "Basic cmVhZGVyOng="}
# A server on aiohttp with one handler, which has nothing to do: the most that a server on it can reach.
BARE = """
import sys
from aiohttp import web
async def answer(_): return web.Response(body=b"x" * 400, headers={"content-type": "text/x-nix-narinfo"})
app = web.Application()
app.router.add_route("*", "/{target:.*}", answer)
web.run_app(app, host="127.0.0.1", port=int(sys.argv[1]), print=None, access_log=None)
"""
# Each thread of wrk begins elsewhere in the list.
LUA = """
{says}
local targets, at, threads = {{}}, 0, 0
for line in io.lines("{file}") do targets[#targets + 1] = line end
function setup(thread) thread:set("first", threads * math.floor(#targets / 2)); threads = threads + 1 end
function init() at = first end
function request() at = at % #targets + 1; return wrk.format("GET", targets[at]) end
"""


def processor(copies):
    """The seconds that processors have spent on the servers."""
    return sum(processor_of(server.running.pid) for server, _ in copies)


def load_of(folder, port, targets, seconds):
    """A run of wrk, which asks for these in turn."""
    Path(f"{folder}/targets").write_text("".join(f"{target}\n" for target in targets))
    says = "".join(f'wrk.headers["{key}"] = "{value}"\n' for key, value in SAYS.items())
    Path(f"{folder}/ask.lua").write_text(LUA.format(file=f"{folder}/targets", says=says))
    return Load(port, clients=CLIENTS, seconds=seconds, script=f"{folder}/ask.lua")


def show(what, load, seconds, least=None, is_fair=True, peer=None):
    """The figures of a run, its rate next to that of a peer. Each reply has to be 200, also while the servers are
    away."""
    if not load.rate:
        return note(f"{what}: no reply came")
    more = {"spread": None}
    if peer:
        more |= {"peer": peer[0], "theirs": peer[1].rate, "ratio": load.rate / peer[1].rate}
    put(f"{what}: requests", load.rate, "a second", least, more, is_least=True)
    half, last = load.percentiles[50], load.percentiles[99]
    limit(f"{what}: 50th percentile", half, None)
    versus(f"{what}: 99th percentile", half, last, FAIR if is_fair else None, "the 50th")
    if peer:
        versus(f"{what}: 99th percentile of {peer[0]}", *map(peer[1].percentiles.get, (50, 99)), None, "their 50th")
    limit(f"{what}: replies that aren't 200 or didn't come", load.wrong, 0, "requests")
    limit(f"{what}: processor time of the servers", seconds, None)


def places(copies):
    return [cache.place for _, cache in copies]


def connection_to(place):
    """A connection of a client to a port of this machine, or to a Unix socket."""
    connection = http.client.HTTPConnection("127.0.0.1", None if isinstance(place, str) else place)
    if isinstance(place, str):
        connection.sock = socket.socket(socket.AF_UNIX)
        connection.sock.connect(place)
    return connection


def fill(place, targets, folder=None):
    """Asks for each target once, so that nginx or nixkeep-cache has all of them. Writes each reply as a file below the
    folder."""

    def ask(some):
        connection = connection_to(place)
        for target in some:
            # (as wrk asks, since what is kept depends on it)
            connection.putrequest("GET", target, skip_host=True, skip_accept_encoding=True)
            for key, value in SAYS.items():
                connection.putheader(key, value)
            connection.endheaders()
            reply = connection.getresponse()
            text = reply.read()
            if reply.status != 200:
                sys.exit(f"{target}: {reply.status} {text[:300]}")
            if folder:
                file = Path(f"{folder}{target}")
                file.parent.mkdir(parents=True, exist_ok=True)
                file.write_bytes(text)

    with ThreadPoolExecutor(8) as pool:
        list(pool.map(ask, [targets[at::8] for at in range(8)]))


def targets_of(file):
    """Where nixkeep-cache has the records and the archives of a file's objects."""
    with contextlib.closing(sqlite3.connect(file)) as conn:
        made = conn.execute("SELECT base, hash FROM object").fetchall()
    return {"records": [f"/{path[:32]}.narinfo" for path, _ in made],
            "archives": [f"/nar/{nar.base32(digest)}/{path}" for path, digest in made]}


def measured(folder, copies, wanted, seconds):
    for what, targets in wanted.items():
        for how, kept in (("no cache", None), ("all in nginx's cache", "1h")):
            with of_team(folder, places(copies), kept) as proxy:
                fill(proxy.port, targets, f"{folder}/files")
                before = processor(copies)
                out = load_of(folder, proxy.port, targets, seconds)
                spent = processor(copies) - before
            if not kept:
                show(f"{what}, {how}", out, spent)
                continue
            with of_team(folder, places(copies), files=f"{folder}/files") as files:
                theirs = load_of(folder, files.port, targets, seconds)
            show(f"{what}, {how}", out, spent, OF_FILES, peer=("nginx, files", theirs))
    with of_team(folder, places(copies), "2s") as proxy:
        fill(proxy.port, wanted["archives"])
        before = processor(copies)
        out = load_of(folder, proxy.port, wanted["archives"], seconds)
        show("archives, confirmed every 2 s", out, processor(copies) - before, is_fair=False)
    with of_team(folder, places(copies), "2s") as proxy:
        fill(proxy.port, wanted["records"])
        away(folder, copies, proxy.port, wanted["records"], seconds)


def away(folder, copies, port, targets, seconds):
    """Records that are kept for two seconds, while the servers of the stores are stopped in the middle of the run."""
    spent, before = [], processor(copies)

    def stop_and_start():
        time.sleep(seconds / 2)
        spent.append(processor(copies) - before)
        for server, _ in copies:
            server.end()
        time.sleep(AWAY)
        for server, _ in copies:
            server.start()

    other = threading.Thread(target=stop_and_start)
    other.start()
    out = load_of(folder, port, targets, seconds + AWAY)
    other.join()
    show("records kept for 2 s, ten seconds without servers", out, sum(spent) + processor(copies), is_fair=False)


def put_store(words, folder):
    """Makes the store's file and its configuration."""
    stores.put_store(f"{folder}/store.db", words.objects, random.Random(1), 3)
    Path(f"{folder}/store.toml").touch()


def copies_of(words, count):
    """`count` copies of one file, each with its servers, and what clients get of them."""
    with tempfile.TemporaryDirectory() as folder, contextlib.ExitStack() as running:
        put_store(words, folder)
        copies = []
        for at in range(count):
            place = f"{folder}/{at}"
            os.makedirs(place)
            shutil.copy(f"{folder}/store.db", place)
            server = parts.server(words.file, place, f"{folder}/store.toml", f"{place}/store.db")
            copies.append((server, parts.cache(place, server.place, f"{place}/socket")))
            for part in copies[-1]:
                running.enter_context(part)
        named = f"{count} {'copy' if count == 1 else 'copies'}"
        title(f"{CLIENTS} clients through nginx over {named} of {words.objects:,} objects")
        targets = targets_of(f"{folder}/store.db")
        # (nginx would have each record in the memory of one copy, and the others ask their servers)
        for place in places(copies):
            fill(place, targets["records"])
        measured(folder, copies, targets, words.seconds)


def alone(_, words, folder):
    put_store(words, folder)
    targets = targets_of(f"{folder}/store.db")
    port = free_port()
    with Serving(port, "/usr/bin/python3", "-c", BARE, str(port)):
        theirs = load_of(folder, port, targets["records"], words.seconds)
    title(f"{CLIENTS} clients of nixkeep-cache alone over {words.objects:,} objects")
    with parts.server(words.file, folder, f"{folder}/store.toml", f"{folder}/store.db") as server, \
            parts.cache(folder, server.place) as cache:
        fill(cache.place, targets["records"])
        for what, asked_for in targets.items():
            before = processor([(server, cache)])
            out = load_of(folder, cache.place, asked_for, words.seconds)
            show(what, out, processor([(server, cache)]) - before, ALONE if what == "records" else None)
            at_once = f"{what}: next to aiohttp that answers at once"
            versus(at_once, theirs.rate, out.rate, None, "that", max, "a second")


def one(_, words, folder):
    copies_of(words, 1)


def three(_, words, folder):
    copies_of(words, 3)


def options(parser):
    parser.add_argument("--objects", type=int, default=10_000, metavar="N", help="of the store [10000]")
    parser.add_argument("--seconds", type=int, default=10, metavar="S", help="how long each run takes [10]")


def begin(words):
    words.file = report.program_file(words)
    if words.quick:
        words.objects, words.seconds = 1000, 2
    if skipped("nginx", "wrk", "python3-aiohttp"):
        words.parts = []


if __name__ == "__main__":
    main(__doc__, [alone, one, three], begin, options)
