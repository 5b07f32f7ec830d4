"""Times requests to a store that is open, over one connection to `nixkeep serve`, next to C SQLite on the same tables.

  adds      1,000 adds to a file of 1,000 objects, and to one of 20,000
  walks     what is read of 5,000 objects with 20,000 references, and a collection of 3,048 of them
  removals  2,000 of 10,000 objects deleted by name in one request
  looks     a record and a listing out of 10,000 objects
  reads     100 archives of 1 MiB, one after another
  archives  an archive of 16 MiB in and out

What a request takes here has HTTP in it. C SQLite makes the same changes of rows, each in a transaction of its own that
is synced, and hashes what the store hashes. Of five rounds the least time is shown. The digest next to an archive of 16
MiB is the program's own: that of crates/bench, which is proved and built where it isn't there. Needs SQLite 3.37 or
later. With --quick, walks, removals and looks alone are run.
"""
import functools
import hashlib
import os
import shutil
import socket
import subprocess
import time
from pathlib import Path

from nixkeep_dev.bench.figures import MIB, ROUNDS, limit, main, program, rounds, timed, title, versus
from nixkeep_dev.bench.serving import Client, served
from nixkeep_dev.bench.sqlite import base, delete, filled, insert, opened, refer
from nixkeep_dev.testing import libraries, report
from nixkeep_dev.testing.http_messages import messages
from nixkeep_dev.testing.nar import archive
from nixkeep_dev.testing.requests import text

# The most that an add of a large archive may take, in times of one SHA-256 of it.
ADD = 2


def copied(path):
    """Another copy of a file, under a name that none had yet: a log that is left belongs to one file."""
    copied.count = getattr(copied, "count", 0) + 1
    return shutil.copy(path, f"{path}-{copied.count}")


def add_by_sqlite(path, count):
    """Seconds of `count` adds by C SQLite, each in a transaction: of the inserts, an object and its three references;
    and with both digests."""
    start, rows = time.perf_counter(), []
    for number in range(count):
        contents = b"%1024d" % number
        nar = archive(contents)
        hashlib.sha256(contents).digest()
        rows.append((base(1_000_000 + number), nar, hashlib.sha256(nar).digest()))
    hashed = time.perf_counter() - start
    with opened(path) as conn:
        start = time.perf_counter()
        for name, nar, digest in rows:
            conn.execute("BEGIN")
            insert(conn, name, nar, digest)
            refer(conn, name, range(3))
            conn.execute("COMMIT")
        inserted = time.perf_counter() - start
    return inserted, inserted + hashed


def text_body(number):
    return text(f"text{number}", b"%1024d" % number, *[f"/nix/store/{base(near)}" for near in range(3)])


def added_twice(run, path, folder):
    """Seconds of 1,000 adds, and of the same made again, by a server that reads them of a file: no client is waited
    for."""
    texts = [text_body(number) for number in range(1000)]
    requests = [("root", "GET", "/roots"), *[("root", "POST", "/text", body) for body in [*texts, *texts]]]
    Path(f"{folder}/messages").write_bytes(messages(requests))
    words, came, times = [run.file, "--db", path, "serve"], 0, []
    with open(f"{folder}/messages", "rb") as given, \
            subprocess.Popen(words, stdin=given, stdout=subprocess.PIPE) as server:
        while written := os.read(server.stdout.fileno(), MIB):
            came += written.count(b"HTTP/1.1 200")
            if len(times) < 3 and came >= (1, 1001, 2001)[len(times)]:
                times.append(time.perf_counter())
    if len(times) < 3:
        report.fail(f"{came} replies of 2,001")
    return times[1] - times[0], times[2] - times[1]


def adds(run, words, folder):
    """An add that is made again writes nothing, and costs all else: HTTP, both digests and the tests. What an add
    costs beyond that is what the tables take, and is next to inserts alone."""
    few, many = (filled(run, f"{folder}/{count}.db", count, 1024, 0) for count in (1000, 20_000))
    theirs, ours, beyond, more = [], [], [], []
    for _ in range(ROUNDS):
        theirs.append(add_by_sqlite(copied(few), 1000))
        for path, times in ((few, ours), (many, more)):
            with served(run, copied(path)) as server:
                ask = functools.partial(server.client.ask, "POST", "/text")
                times.append(timed(lambda: [ask(text_body(number)) for number in range(1000)]))
        first, again = added_twice(run, copied(few), folder)
        beyond.append(first - again)
    inserts, both = zip(*theirs)
    title("1,000 adds of 1 KiB with 3 references")
    versus("time", both, ours, 3, "inserts and digests by C SQLite")
    versus("what the tables take of them: all beyond the same adds made again", inserts, beyond, 1.6,
           "inserts by C SQLite")
    versus("the same in a file of 20,000 objects", ours, more, 1.3, "in one of 1,000")


def walks(run, words, folder):
    path = filled(run, f"{folder}/walk.db", 5000, 1024, 4)
    title("5,000 objects with 20,000 references")
    with served(run, path) as server:
        for target, most in (("/live", 0.01), ("/paths", 0.002)):
            limit(f"GET {target}", rounds(server.client.get, target), most)
    path = filled(run, f"{folder}/collect.db", 5000, 1024, 0, roots=range(1952))
    times = deletes(run, path, range(1952, 5000), "/collect")
    versus("a collection of 3,048 of 5,000 objects", *times, 4, "deletes by C SQLite")


def deletes(run, path, numbers, *requests):
    """Rounds of deletes of these objects by C SQLite, and of the request that makes them."""
    theirs, ours = [], []
    for _ in range(ROUNDS):
        theirs.append(delete(copied(path), numbers))
        with served(run, copied(path)) as server:
            ours.append(timed(server.client.ask, "POST", *requests))
    return theirs, ours


def removals(run, words, folder):
    """Each fifth of 10,000 objects is deleted by name, all in one request."""
    path, numbers = filled(run, f"{folder}/remove.db", 10_000, 1024, 0), range(0, 10_000, 5)
    body = "".join(f"path: {base(number)}\n" for number in numbers).encode() + b"\n"
    title("2,000 of 10,000 objects deleted in one call")
    versus("time", *deletes(run, path, numbers, "/delete", body), 2.5, "deletes by C SQLite")


def looks(run, words, folder):
    """A look-up and a listing, next to a message whose answer has no line."""
    path = filled(run, f"{folder}/looks.db", 10_000, 1024, 3)
    title("10,000 objects with 30,000 references, from an open store")
    with served(run, path) as server:
        for what, targets in (("GET /info/{path}", [f"/info/{base(number)}" for number in range(0, 10_000, 5)]),
                              ("GET /paths", ["/paths"] * 10), ("GET /roots, where there is none", ["/roots"] * 2000)):
            each = rounds(lambda: [server.client.get(target) for target in targets])
            limit(what, [seconds / len(targets) for seconds in each], None)


def read_by_sqlite(conn, number):
    """The parts of an archive."""
    name = (base(number),)
    parts = [part for part, in conn.execute("SELECT nar FROM object WHERE base = ?1", name)]
    return parts + [part for part, in conn.execute("SELECT bytes FROM piece WHERE base = ?1 ORDER BY num", name)]


def read_all_by_sqlite(path, count):
    with opened(path) as conn:
        for number in range(count):
            read_by_sqlite(conn, number)


def hand_out(path, listener):
    """Answers each line of a connection, a number, with the archive of that object by C SQLite, as the server does."""
    peer, _ = listener.accept()
    with opened(path) as conn, peer, peer.makefile("r") as lines:
        for line in lines:
            parts = read_by_sqlite(conn, int(line))
            peer.sendall(b"HTTP/1.1 200 OK\r\ncontent-length: %d\r\n\r\n" % sum(map(len, parts)))
            for part in parts:
                peer.sendall(part)


def handed_out(path, count):
    """Seconds of `count` archives that a process reads by C SQLite and sends on a connection."""
    with socket.create_server(("127.0.0.1", 0)) as listener:
        child = os.fork()
        if child == 0:
            hand_out(path, listener)
            os._exit(0)
        client = Client.of_port(listener.getsockname()[1])
        with client.socket:
            took = timed(lambda: [(client.socket.sendall(b"%d\n" % number), client.reply()) for number in range(count)])
    os.waitpid(child, 0)
    return took


def reads(run, words, folder):
    path = filled(run, f"{folder}/read.db", 100, MIB, 0)
    theirs = rounds(read_all_by_sqlite, path, 100)
    sent = [handed_out(path, 100) for _ in range(ROUNDS)]
    with served(run, path) as serving:
        serving.forget()
        before = serving.memory()
        ours = rounds(lambda: [serving.client.get(f"/nar/{base(number)}") for number in range(100)])
        more = serving.memory() - before
    title("100 archives of 1 MiB read one after another")
    versus("time", theirs, ours, 2, "the same rows by C SQLite")
    versus("next to a server that reads them by C SQLite", sent, ours, None, "that one")
    limit(f"memory of the server, beyond the {before:.0f} MiB that it held once it had opened the file", more, 8, "MiB")


def archives(run, words, folder):
    """An executable file, and one that isn't. Of neither are the contents hashed by themselves: only the address of a
    text asks for that, and an add of a source has none."""
    contents = os.urandom(16 * MIB - 112)
    plain, executable = archive(contents), archive(contents[:-64], True)
    Path(f"{folder}/nar").write_bytes(plain)
    digest = functools.partial(libraries.Libraries(words.libraries, True).digests, f"{folder}/nar", 1)
    for kind, nar in (("an executable file", executable), ("a file", plain)):
        for where, path in (("a file", f"{folder}/{len(kind)}.db"), ("memory", None)):
            added(run, digest, nar, f"an add of 16 MiB, the archive of {kind}, to a store in {where}", path)
    path = f"{folder}/out.db"
    name = run(path, "add-source", "large", given=plain)[1].decode().strip().rpartition("/")[2]
    title("an archive of 16 MiB out")
    with served(run, path) as serving:
        limit("GET /nar/{path}", rounds(serving.client.get, f"/nar/{name}"), 0.03)
        limit("memory of the server", serving.memory(), 48, "MiB")


def added(run, digest, nar, what, path):
    """Adds of an archive by a name each, and a digest of it in turn with each."""
    once, takes = [], []
    with served(run, path) as serving:
        for at in range(ROUNDS):
            once += digest()
            takes.append(timed(serving.client.ask, "POST", "/source", text(f"large{at}", nar)))
            if at == 0:
                most = serving.memory()
    title(what)
    versus("time", once, takes, ADD, "one SHA-256 by the same crate")
    if path:
        limit("memory of the server, after the first", most, 48, "MiB")


def begin(words):
    words.parts = [part for part in words.parts if not words.quick or part in (walks, removals, looks)]
    return program(words)


if __name__ == "__main__":
    main(__doc__, [adds, walks, removals, looks, reads, archives], begin, libraries.option)
