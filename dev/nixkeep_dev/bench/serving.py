"""A server over a store or over files, and a client of it on one connection that stays open."""
import functools
import socket
import subprocess
import sys
import time
from pathlib import Path
from typing import Self

from nixkeep_dev.bench.figures import MIB, Runs
from nixkeep_dev.bench.load import on
from nixkeep_dev.testing import processes
from nixkeep_dev.testing.http_messages import connected, free_port, message
from nixkeep_dev.testing.pieces import unread


class Client:
    """One connection that stays open."""

    def __init__(self, connection: socket.socket):
        self.socket, self.room = connection, memoryview(bytearray(17 * MIB))

    @classmethod
    def of_port(cls, port: int) -> Self:
        connection = connected(port)
        connection.setsockopt(socket.IPPROTO_TCP, socket.TCP_NODELAY, 1)
        return cls(connection)

    def reply(self, status: int = 200) -> int:
        """The length of the text of the next reply, which has to have this status."""
        at, end = 0, -1
        while end < 0:
            count = self.socket.recv_into(self.room[at:])
            if not count:
                sys.exit("the server closed the connection")
            at += count
            end = bytes(self.room[: min(at, 4096)]).find(b"\r\n\r\n")
        head = bytes(self.room[:end]).lower()
        if not head.startswith(b"http/1.1 %d " % status):
            sys.exit(f"a reply: {bytes(self.room[:at])[:300]!r}")
        length = int(head.partition(b"content-length:")[2].split()[0])
        while at < end + 4 + length:
            at += self.socket.recv_into(self.room[at:])
        return length

    def ask(self, method: str, target: str, body: bytes | None = None, status: int = 200) -> int:
        self.socket.sendall(message("root", method, target, body))
        return self.reply(status)

    def get(self, target: str) -> int:
        return self.ask("GET", target)


def processor_of(pid: int) -> float:
    """The seconds that processors have spent on a process."""
    return int(Path(f"/proc/{pid}/schedstat").read_text().split()[0]) / 1e9


class Serving:
    """A program that listens on a port meanwhile, and a client of it where one is asked for."""

    def __init__(self, port: int, *words: str, folder: str | None = None):
        self.port = port
        self.started = subprocess.Popen(words, cwd=folder, stdout=subprocess.DEVNULL, stderr=subprocess.DEVNULL)
        (connected(port, self.started) or sys.exit(f"{words[0]} doesn't listen")).close()

    @functools.cached_property
    def client(self) -> Client:
        return Client.of_port(self.port)

    def __enter__(self):
        return self

    def __exit__(self, *_):
        if "client" in vars(self):
            self.client.socket.close()
        self.started.terminate()
        self.started.wait()

    def processor(self) -> float:
        return processor_of(self.started.pid)

    def forget(self) -> None:
        """Makes `memory` count from now on, over what the process holds now."""
        Path(f"/proc/{self.started.pid}/clear_refs").write_text("5")

    def memory(self) -> float:
        """The most memory in MiB that it held."""
        return processes.memory(self.started.pid) / 1024


class Handed(Serving):
    """A server over a store in memory whose standard input and output are one connection, as a super-server passes it
    on. The other end is kept here too, so that what the server hasn't read can be asked for."""

    def __init__(self, run: Runs):
        ours, self.theirs = socket.socketpair()
        self.client = Client(ours)
        self.started = subprocess.Popen([run.file, "serve"], stdin=self.theirs, stdout=self.theirs,
                                        stderr=subprocess.DEVNULL)

    def __exit__(self, *said):
        super().__exit__(*said)
        self.theirs.close()

    def send_bytewise(self, text: bytes) -> None:
        """Sends each byte only once the server has read all before it."""
        for byte in text:
            self.client.socket.sendall(bytes([byte]))
            while unread(self.theirs):
                if self.started.poll() is not None:
                    sys.exit("the server ended")
                time.sleep(0)


def served(run: Runs, path: str | None = None, processor: int | None = None) -> Serving:
    """A server of one connection after another, on a processor where one is given."""
    port, store = free_port(), ["--db", path] if path else []
    words = [run.file, *store, "serve", "--port", str(port), "--connections", "1000000"]
    return Serving(port, *(words if processor is None else on(processor, *words)))
