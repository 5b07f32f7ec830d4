"""The program on a file, called by one user or another, or serving on a port; and what a file of it is with its log."""
import resource
import shutil
import signal
import socket
import subprocess
from collections.abc import Iterable
from pathlib import Path
from typing import Any

from nixkeep_dev.testing import report
from nixkeep_dev.testing.http_messages import connected, free_port, messages, next_replies


class Store:
    """The program on a file, called by root, who is trusted, if not otherwise said."""

    def __init__(self, file: str, path: str):
        self.file, self.path = file, path

    def run(self, *words: str, given: bytes = b"", user: str = "root",
            options: Iterable[str] = ()) -> tuple[bytes, str, int]:
        words = [self.file, "--db", self.path, "--user", user, *options, *words]
        ran = subprocess.run(words, input=given, capture_output=True)
        return ran.stdout, ran.stderr.decode(), ran.returncode

    def __call__(self, *words, **more):
        """What a command prints, which has to end with 0."""
        printed, said, status = self.run(*words, **more)
        return printed if status == 0 else report.fail(f"nixkeep {' '.join(words)}: {said}", self.path)

    def lines(self, *words: str, **more: Any) -> list[str]:
        return self(*words, **more).decode().splitlines()


class Server:
    """The program, serving a number of connections on a port; it is killed where it hasn't ended."""

    def __init__(self, file: str, *options: str, connections: int = 1_000_000, **how: Any):
        self.port = free_port()
        words = [file, *options, "serve", "--port", str(self.port), "--connections", str(connections)]
        self.ran = subprocess.Popen(words, **{"stdin": subprocess.DEVNULL, "stderr": subprocess.PIPE, **how})

    def __enter__(self):
        return self

    def __exit__(self, *_):
        self.ran.kill()
        self.ran.communicate()

    def connect(self, timeout: float = 150) -> socket.socket:
        """A connection, as soon as it listens."""
        return connected(self.port, self.ran, timeout) or report.fail("the server doesn't listen")

    def ended(self, within: float) -> tuple[int, Any]:
        """Its status, and what it said, once it has ended by itself."""
        try:
            said = self.ran.communicate(timeout=within)[1]
        except subprocess.TimeoutExpired:
            report.fail(f"the server goes on after {within} seconds")
        return self.ran.returncode, said


def killed(file: str, path: str, requests: list[tuple], *options: str) -> list[tuple]:
    """Asks a server over a file, and kills it once it has answered: so it doesn't copy its log into the file. Returns
    the replies."""
    words = [file, *options, "--db", path, "serve"]
    with subprocess.Popen(words, stdin=subprocess.PIPE, stdout=subprocess.PIPE) as ran:
        ran.stdin.write(messages(requests))
        ran.stdin.flush()
        answered = next_replies(ran.stdout, len(requests))
        ran.kill()
    return answered


def small_files() -> None:
    """Called in a child: no file of it grows above 1 MiB, and a write that would fails."""
    signal.signal(signal.SIGXFSZ, signal.SIG_IGN)
    resource.setrlimit(resource.RLIMIT_FSIZE, (1_048_576, 1_048_576))


def remove(path: str) -> None:
    """Removes a file, with its log, where it is there."""
    for end in ("", "-wal", "-shm"):
        Path(path + end).unlink(missing_ok=True)


def copy(path: str, to: str) -> str:
    """Makes a file, with its log, one like another."""
    remove(to)
    for end in ("", "-wal"):
        if Path(path + end).exists():
            shutil.copy(path + end, to + end)
    return to
