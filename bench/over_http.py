"""Times requests over HTTP to `nixkeep serve`, next to nginx and python3's http.server with files of the same bytes.

  small      GETs of one record over 10,000 objects and over ten, by one client
  clients    the same by 1, 8 and 64 clients through nginx as docs/OPERATING.md has it: with a connection to the server
             for each request; and by 64 with 16 connections that nginx keeps, which nobody should have
  large_out  an archive of 16 MiB out
  large_in   an archive of 16 MiB in
  bytewise   heads that come byte by byte

What is read is asked for by wrk, which, nginx as a proxy and the server each have a processor of their own where there
are three. The rest comes from one connection of python3. Of five rounds the best is shown, of percentiles the median.
The digest next to what is added is by the program's own crate, which crates/bench times, and which is built for that
where it isn't there. Needs SQLite 3.37 or later; what isn't installed (Debian: wrk, nginx-light) is skipped, which is
printed. With --quick, there are 1,000 objects in place of 10,000, and one short round.
"""
import functools
import hashlib
import os
import statistics
import sys
from pathlib import Path

from nixkeep_dev.bench.figures import MIB, ROUNDS, limit, main, note, program, skipped, timed, title, versus
from nixkeep_dev.bench.load import PROXY, SERVER, Load, on
from nixkeep_dev.bench.nginx import KEPT, nginx
from nixkeep_dev.bench.serving import Handed, Serving, served
from nixkeep_dev.bench.sqlite import base, filled
from nixkeep_dev.testing import libraries
from nixkeep_dev.testing.http_messages import free_port
from nixkeep_dev.testing.nar import archive
from nixkeep_dev.testing.packages import place_of
from nixkeep_dev.testing.requests import imported

# How many times as long as half of the clients one in a hundred may wait.
FAIR = 5
PYTHON = """
import http.server, sys
class Files(http.server.SimpleHTTPRequestHandler):
    protocol_version, disable_nagle_algorithm = "HTTP/1.1", True
    def log_message(self, *_): pass
http.server.ThreadingHTTPServer(("127.0.0.1", int(sys.argv[1])), Files).serve_forever()
"""


def python(folder):
    port = free_port()
    return Serving(port, *on(SERVER, sys.executable, "-c", PYTHON, str(port)), folder=f"{folder}/files")


def files(folder, sendfile="on"):
    """nginx over the same files, which the kernel sends for it, or which it reads itself."""
    return nginx(folder, f"root {folder}/files;", f"sendfile {sendfile};", processor=SERVER)


def proxied(folder, port, how="", more=""):
    """nginx as the proxy of a server."""
    store = f"upstream store {{ server 127.0.0.1:{port}; {how} }}"
    each = f"proxy_pass http://store; {more} proxy_set_header store-user root; proxy_read_timeout 300s;"
    return nginx(folder, each, store, processor=PROXY)


def loads(words, server, target, clients=1):
    """Rounds of requests to a server, which isn't asked for anything else meanwhile."""
    with server:
        count, seconds = (1, 1) if words.quick else (ROUNDS, 3)
        runs = [Load(server.port, target, clients, seconds) for _ in range(count)]
    if wrong := sum(run.wrong for run in runs):
        note(f"{wrong} requests weren't answered with 200")
    return runs


def peers(folder):
    """The servers of files that are there, each with what starts it."""
    yield "http.server", lambda: python(folder)
    if place_of("nginx"):
        yield "nginx", lambda: files(folder)


def record_in(run, folder, path):
    """Puts a record of a store into a file for the others; returns its length."""
    return Path(f"{folder}/files/record").write_bytes(run(path, "info", base(7))[1])


def each(runs):
    return [run.each for run in runs]


def small(run, words, folder):
    objects = 1000 if words.quick else 10_000
    few, many = (filled(run, f"{folder}/{count}.db", count, 1024, 3) for count in (10, objects))
    size, target = record_in(run, folder, few), f"/info/{base(7)}"
    title(f"GET /info/{{path}}, a record of {size} bytes, over {objects:,} objects, one client")
    ours = each(loads(words, served(run, many, SERVER), target))
    limit("each", ours, None)
    for peer, server in peers(folder):
        theirs = each(loads(words, server(), "/record"))
        versus("next to a file of those bytes", theirs, ours, {"http.server": 1}.get(peer), peer)
    over_few = each(loads(words, served(run, few, SERVER), target))
    versus(f"{objects:,} objects next to 10", over_few, ours, 1.3, "over 10")


def show_clients(count, ours, theirs):
    """Prints what clients get through nginx, next to those of servers of files. One in a hundred may wait for five
    times as long as half of them do."""
    if not all(result.rate for result in ours):
        return note("no reply came in some round")
    for peer, of_peer in theirs.items():
        rates = [[run.rate for run in runs] for runs in (of_peer, ours)]
        versus("requests", *rates, None, f"{peer}, a file", max, "a second")
    # (a client that waits for its turn isn't in percentiles of those that are answered)
    limit("how long a client waits on average", [count / result.rate for result in ours], None)
    half, last = ([result.percentiles[part] for result in ours] for part in (50, 99))
    limit("50th percentile", half, None, of=statistics.median)
    versus("99th percentile", half, last, FAIR, "the 50th", statistics.median)


def clients(run, words, folder):
    """One server has one connection at a time, so a connection for each request gives each client its turn."""
    if skipped("nginx"):
        return
    objects, target = 1000 if words.quick else 10_000, f"/info/{base(7)}"
    path = filled(run, f"{folder}/clients.db", objects, 1024, 3)
    record_in(run, folder, path)
    for count in (1, 8, 64):
        title(f"GET /info/{{path}} over {objects:,} objects through nginx, {count} client{'s' * (count > 1)}")
        with served(run, path, SERVER) as store:
            ours = loads(words, proxied(folder, store.port), target, count)
        show_clients(count, ours, {peer: loads(words, server(), "/record", count) for peer, server in peers(folder)})
    title(f"GET /info/{{path}} over {objects:,} objects, 64 clients, by 16 connections that nginx keeps: a mistake")
    with served(run, path, SERVER) as store:
        kept = loads(words, proxied(folder, store.port, "keepalive 16;", KEPT), target, 64)
    limit("requests", [result.rate for result in kept], None, "a second", of=max)
    limit("99th percentile", [result.percentiles[99] for result in kept], None, of=statistics.median)


def large_out(run, words, folder):
    path, nar = f"{folder}/out.db", archive(os.urandom(16 * MIB - 112))
    name = run(path, "add-source", "large", given=nar)[1].decode().strip().rpartition("/")[2]
    Path(f"{folder}/files/archive").write_bytes(nar)
    with served(run, path) as serving:
        serving.client.get(f"/nar/{name}")
        most = serving.memory()
    title("GET /nar/{path} of 16 MiB")
    ours = each(loads(words, served(run, path, SERVER), f"/nar/{name}"))
    limit("time", ours, None)
    servers = dict(peers(folder))
    if "nginx" in servers:
        servers["nginx without sendfile"] = lambda: files(folder, "off")
    for peer, server in servers.items():
        theirs = each(loads(words, server(), "/archive"))
        versus("next to a file of those bytes", theirs, ours, {"nginx": 2}.get(peer), peer)
    limit("memory of the server", most, 48, "MiB")


def large_in(run, words, folder):
    """Again and again at another path, into a file and into memory."""
    nar = archive(os.urandom(16 * MIB - 112))
    Path(f"{folder}/files/added").write_bytes(nar)
    digest = functools.partial(libraries.Libraries(words.libraries, True).digests, f"{folder}/files/added", 1)
    for where, path in (("a file", f"{folder}/in.db"), ("memory", None)):
        ours, own, hashes = [], [], []
        with served(run, path) as serving:
            for at in range(ROUNDS):
                own += digest()
                hashes.append(timed(hashlib.sha256, nar))
                ours.append(timed(serving.client.ask, "POST", "/import", imported(base(at), nar)[3]))
                if at == 0:
                    most = serving.memory()
        title(f"POST /import of 16 MiB into a store in {where}")
        versus("next to one SHA-256 of it by the same crate", own, ours, 2 if path else None, "that one")
        versus("next to one SHA-256 of it by C", hashes, ours, None, "C")
        if path:
            limit("memory of the server, after the first", most, 48, "MiB")


START, END = b"GET /paths HTTP/1.1\r\nstore-user: root\r\n", b"\r\n\r\n"
# One has a long field; one has empty lines at its beginning, each of which might have been the last of a head.
HEADS = {"a long field": lambda size: (START + b"long: ").ljust(size - 4, b"a") + END,
         "empty lines first": lambda size: (START[:-2] + END).rjust(size, b"\n")}


def bytewise(run, words, folder):
    """Heads of up to 16 KiB, the most that one may have, each byte by itself: no quadratic time. The server has read
    each byte before the next is sent. What its processor takes is compared: on the clock it is mostly the client that
    is seen, and how the two take turns."""
    for what, head in HEADS.items():
        each_size = {}
        with Handed(run) as serving:
            for size in (1024, 4096, 16_384):
                took, own = [], []
                for _ in range(ROUNDS):
                    before = serving.processor()
                    took.append(timed(lambda: (serving.send_bytewise(head(size)), serving.client.reply())))
                    own.append(serving.processor() - before)
                each_size[size] = min(took), min(own)
        title(f"heads with {what} that come byte by byte")
        for size, (took, own) in each_size.items():
            note(f"{size:,} bytes: {took * 1000:.1f} ms, {own * 1000:.1f} of the processor")
        times = 4 * each_size[4096][1], each_size[16_384][1]
        versus("16,384 bytes, by the processor", *times, 2, "four times 4,096")


def begin(words):
    os.mkdir(f"{words.folder}/files")
    if skipped("wrk"):
        words.parts = [part for part in words.parts if part not in (small, clients, large_out)]
    else:
        skipped("nginx")
    return program(words)


if __name__ == "__main__":
    main(__doc__, [small, clients, large_out, large_in, bytewise], begin, libraries.option)
