"""Where nixkeep-cache accepts clients."""
import argparse
import contextlib
import os
import socket

DEFAULT = ("127.0.0.1", 8081)
# The first of the sockets that systemd passes: sd_listen_fds(3).
FIRST = 3
# The connections that wait at a socket until they are accepted, also while this restarts: a passed socket gets this
# number in the place of its own. nginx answers 502 where a Unix socket has no room for another one.
QUEUE = 4096


def place(text: str) -> tuple[str, int]:
    """HOST:PORT as a pair."""
    host, colon, port = text.rpartition(":")
    if not (host and port.isdigit()):
        raise argparse.ArgumentTypeError(f"{text}: HOST:PORT is meant")
    return host, int(port)


def listening(text: str) -> str | tuple[str, int]:
    return text if text.startswith("/") else place(text)


def passed():
    """The sockets that the service manager has opened and passed to this process."""
    count, pid = os.environ.pop("LISTEN_FDS", ""), os.environ.pop("LISTEN_PID", "")
    os.environ.pop("LISTEN_FDNAMES", None)
    if pid != str(os.getpid()) or not count.isdigit():
        return []
    sockets = [socket.socket(fileno=FIRST + at) for at in range(int(count))]
    for opened in sockets:
        opened.set_inheritable(False)
    return sockets


def where(wanted: str | tuple[str, int] | None) -> dict:
    """What aiohttp is to listen on: the place that was asked for, else the sockets passed, else the usual port."""
    given = passed()
    if wanted is None and given:
        return {"sock": given}
    wanted = wanted or DEFAULT
    return {"path": wanted} if isinstance(wanted, str) else {"host": wanted[0], "port": wanted[1]}


def removed(where: dict) -> None:
    """Deletes a Unix socket that was made here. One that was passed stays, with the clients that wait at it."""
    if "path" in where:
        with contextlib.suppress(FileNotFoundError):
            os.unlink(where["path"])


def is_loopback(where: dict) -> bool:
    return where.get("host") in ("127.0.0.1", "::1", "localhost")
