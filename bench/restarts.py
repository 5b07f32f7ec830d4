"""Measures what clients see when a server of 10,000 objects ends and its service starts it again.

  gap       the time without answers, after --connections is used up: the second of RestartSec=1s, and the opening
  stopped   8 clients with kept connections to nginx read and add, while the service is restarted three times:
            through nginx alone, through nginx with two entries of the server, without and with max_fails=0, and
            through nginx and nixkeep-cache as in examples/team

Prints the requests that failed and the slowest answer. Needs the Debian packages nginx-light and python3-aiohttp; what
isn't installed is skipped, which is printed. With --quick, there are 1,000 objects.
"""
import contextlib
import http.client
import random
import subprocess
import threading
import time
from concurrent.futures import ThreadPoolExecutor
from pathlib import Path

import parts
from nixkeep_dev.bench.figures import limit, main, note, skipped, title
from nixkeep_dev.bench.nginx import nginx
from nixkeep_dev.testing import report, stores

# What the unit has.
RESTART = 1
FRONT = """proxy_set_header store-user $http_store_user; proxy_read_timeout 300s;
        proxy_next_upstream error timeout http_502; proxy_pass http://store;"""


class Service:
    """A server that is started again a second after each end, as by systemd."""

    def __init__(self, program, folder, connections):
        self.port, self.is_over = parts.free_port(), threading.Event()
        self.words = [program, "--config", f"{folder}/store.toml", "--db", f"{folder}/store.db"]
        self.words += ["serve", "--port", str(self.port), "--connections", str(connections)]
        self.running, self.thread = None, threading.Thread(target=self.run)

    def run(self) -> None:
        while not self.is_over.is_set():
            self.running = subprocess.Popen(self.words, stdin=subprocess.DEVNULL, stderr=subprocess.DEVNULL)
            self.running.wait()
            self.is_over.wait(RESTART)

    def __enter__(self):
        self.thread.start()
        parts.until("the server listens", lambda: parts.is_open(self.port))
        return self

    def __exit__(self, *_):
        self.is_over.set()
        self.running.terminate()
        self.thread.join()

    def restart(self) -> None:
        self.running.terminate()


def request(port, method, target, given=None):
    """The status of a request on a connection of its own; 0 where no reply came."""
    connection = http.client.HTTPConnection("127.0.0.1", port, timeout=330)
    try:
        connection.request(method, target, given, {"store-user": "reader"})
        reply = connection.getresponse()
        reply.read()
        return reply.status
    except (OSError, http.client.HTTPException):
        return 0
    finally:
        connection.close()


def gap(made, words, folder):
    """The time between the last answer of a server and the first of the next, thrice."""
    with Service(words.program, folder, 200) as service:
        gaps, last, failed = [], time.perf_counter(), False
        while len(gaps) < 3:
            status, now = request(service.port, "GET", f"/info/{made[-1]}"), time.perf_counter()
            if status == 200:
                if failed:
                    gaps.append(now - last)
                last, failed = now, False
            else:
                failed = True
                time.sleep(0.002)
    title(f"a server of {len(made):,} objects has used up its connections, and is started again")
    limit("time without answers, with RestartSec=1s", gaps, None)
    limit("the start and the opening of the file, in that", [pause - RESTART for pause in gaps], None)


@contextlib.contextmanager
def load(port, made, count=8):
    """Clients that read and add meanwhile: the status of each request, and its seconds."""
    replies, is_over = [], threading.Event()

    def client(number):
        rng, at = random.Random(number), 0
        while not is_over.is_set():
            at, began = at + 1, time.perf_counter()
            read, add = ("GET", f"/info/{rng.choice(made)}"), ("POST", "/text", f"name: text{number}-{at}\n\n{at}\n")
            replies.append((request(port, *(read if at % 10 else add)), time.perf_counter() - began))

    with ThreadPoolExecutor(count) as pool:
        for number in range(count):
            pool.submit(client, number)
        try:
            yield replies
        finally:
            is_over.set()


def loaded(what, folder, entries, service, made, most=None):
    """What clients of nginx, as its proxy, see while the service is restarted three times."""
    with nginx(folder, FRONT, f"upstream store {{ {entries} }}") as front, load(front.port, made) as replies:
        for _ in range(3):
            time.sleep(2)
            service.restart()
            parts.until("the server ends", lambda: not parts.is_open(service.port))
            parts.until("the server listens again", lambda: parts.is_open(service.port))
        time.sleep(2)
    failed = [status for status, _ in replies if status != 200]
    note(f"{len(replies):,} requests; of those that failed: {sorted(set(failed)) or 'none'}")
    limit(f"{what}: requests that failed", len(failed), most, "requests")
    limit(f"{what}: the slowest answer", max(seconds for _, seconds in replies), None)


def stopped(made, words, folder):
    title(f"a service of {len(made):,} objects is restarted three times, while 8 clients read and add")
    with Service(words.program, folder, 1_000_000) as service:
        place = f"server 127.0.0.1:{service.port}"
        entries = {
            "nginx alone": f"{place};",
            "nginx with two entries": f"{place}; {place};",
            "nginx with two entries and max_fails=0": f"{place} max_fails=0; {place} max_fails=0;",
        }
        for what, text in entries.items():
            loaded(what, folder, text, service, made)
        if not skipped("python3-aiohttp"):
            with parts.cache(folder, service.port) as cache:
                loaded("nginx and nixkeep-cache", folder, f"server 127.0.0.1:{cache.place};", service, made, 0)


def begin(words):
    """Makes the store, and returns the paths of its objects."""
    words.program = report.program_file(words)
    if stopped in words.parts and skipped("nginx"):
        words.parts.remove(stopped)
    Path(f"{words.folder}/store.toml").touch()
    return stores.put_store(f"{words.folder}/store.db", 1000 if words.quick else 10_000, random.Random(1), 3)


if __name__ == "__main__":
    main(__doc__, [gap, stopped], begin)
