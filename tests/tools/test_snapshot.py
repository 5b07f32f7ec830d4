"""Takes snapshots of a file system while a server changes a store on it: the two files in each are a store as it was.

The file system is btrfs in a file, mounted by a loop device in a namespace of its own. So it needs root, btrfs-progs,
a kernel that has both and a root that is a mount point, and is skipped without. A client adds texts one after another
meanwhile. Each snapshot has to have those that were answered before it was taken, and none that wasn't asked for before
it was there. `--count` is how many snapshots are taken (5).
"""
import http.client
import os
import shutil
import subprocess
import threading
import time

import pytest

import parts

SIZE = 256 << 20
pytestmark = [pytest.mark.needs("mkfs.btrfs", "unshare"),
              pytest.mark.skipif(os.geteuid() != 0, reason="a file system is mounted by root alone")]


def ran(*words):
    return subprocess.run(words, capture_output=True, text=True)


@pytest.fixture
def holder():
    """A process in a mount namespace of its own: what is mounted there is gone at the end, whatever happens."""
    tried = ran("unshare", "--mount", "true")
    if tried.returncode:
        # (the root is no mount point)
        pytest.skip(f"no mount namespace here: {tried.stderr.strip()}")
    pipes = {"stdin": subprocess.PIPE, "stdout": subprocess.PIPE}
    with subprocess.Popen(["unshare", "--mount", "sh", "-c", "echo; exec cat"], **pipes) as held:
        held.stdout.readline()
        yield held.pid
        held.stdin.close()


@pytest.fixture
def inside(holder):
    """The words before a command that runs in this namespace."""
    return ["nsenter", "--mount", "--target", str(holder)]


@pytest.fixture
def file_system(folder, inside):
    """Where a new btrfs is mounted in the namespace."""
    image, place = f"{folder}/image", f"{folder}/mounted"
    os.makedirs(place)
    with open(image, "wb") as file:
        file.truncate(SIZE)
    made = ran("mkfs.btrfs", "--quiet", image)
    mounted = made if made.returncode else ran(*inside, "mount", "-o", "loop", image, place)
    if mounted.returncode:
        pytest.skip(f"no btrfs can be mounted here: {mounted.stderr.strip()}")
    yield place
    ran(*inside, "umount", "--lazy", place)


class Adding:
    """A client that adds numbered texts, one after another, until it is stopped."""

    def __init__(self, port):
        self.port, self.sent, self.answered, self.ends = port, 0, 0, threading.Event()
        self.thread = threading.Thread(target=self.run)

    def run(self):
        connection = http.client.HTTPConnection("127.0.0.1", self.port)
        while not self.ends.is_set():
            self.sent += 1
            text = f"name: n{self.sent:06}\n\n".encode() + os.urandom(3000)
            connection.request("POST", "/text", text, {"store-user": "ann"})
            if b"-n" not in connection.getresponse().read():
                break
            self.answered = self.sent

    def __enter__(self):
        self.thread.start()
        return self

    def __exit__(self, *_):
        self.ends.set()
        self.thread.join()


def numbers(program, copy):
    """The numbers of the texts in a copy, or what the program says of it."""
    came = ran(program, "--db", copy, "--user", "ann", "list")
    return came.stderr or sorted(int(word.rpartition("-n")[2]) for word in came.stdout.split())


def test_snapshots(program, folder, count, holder, inside, file_system):
    store, config = f"{file_system}/store", f"{folder}/store.toml"
    assert ran(*inside, "btrfs", "subvolume", "create", store).returncode == 0
    open(config, "w").close()
    server = parts.server(program, folder, config, f"{store}/store.db")
    server.words = [*inside, *server.words]
    with server, Adding(server.place) as adding:
        for at in range(count or 5):
            time.sleep(0.3)
            place, least = f"{file_system}/snapshot{at}", adding.answered
            taken = ran(*inside, "btrfs", "subvolume", "snapshot", "-r", store, place)
            most = adding.sent
            assert taken.returncode == 0, taken.stderr
            copy = f"{folder}/copy{at}.db"
            for end in ("", "-wal"):
                shutil.copy(f"/proc/{holder}/root{place}/store.db{end}", copy + end)
            kept = numbers(program, copy)
            assert kept == [*range(1, len(kept) + 1)]
            assert least <= len(kept) <= most
    assert adding.answered == adding.sent
