"""A command of `nixkeep` by `nixkeep-remote`: a server is started for the command, and asked.

The options before the subcommand become a server (`--db`, `--config`) and its caller (`--user`, `--group`). The
program itself does what no server can be asked: `serve`, `help`, and words before the subcommand that are no such
options.
"""
import contextlib
import os
import socket
import struct
import subprocess
import tempfile
import time
import tomllib
from collections.abc import Iterable
from typing import IO

from nixkeep_dev.testing.http_messages import free_port
from nixkeep_tools import paths, remote, streams, subcommands
from nixkeep_tools.command_line import Printed

OPTIONS = ("db", "config", "user", "group")
# What nixkeep-remote computes by itself.
LOCAL = ("text-path", "source-path", "ls")
# Numbers of sock_diag(7): the kind of socket, messages that ask and answer, one of an error, the state of a listener.
NETLINK_DIAG, DIAG, ERROR, LISTENS = 4, 20, 2, 10


def leading(words: list[str]) -> tuple[dict[str, str], list[str]] | None:
    """The options before the subcommand by name, and all words from that on; None where something else is there."""
    options, left = {}, list(words)
    while left and left[0].startswith("-"):
        name, has_value, value = left.pop(0)[2:].partition("=")
        if name not in OPTIONS or name in options or not (has_value or left):
            return None
        options[name] = value if has_value else left.pop(0)
        if not has_value and options[name].startswith("-"):
            return None
    return (options, left) if left else None


def why_not(line: tuple[dict[str, str], list[str]] | None) -> str | None:
    """Why the program itself does what the words say, or None."""
    if not line:
        return "words before the subcommand"
    word = line[1][0]
    return word if word in ("serve", "help") else None


def is_text(word):
    return word == word.encode("utf-8", "replace").decode()


def caller(options):
    """The value of `--as`: a bad one where the names aren't plain, and no text where one is none."""
    names = [options[key] for key in ("user", "group") if key in options]
    is_plain = "user" in options and all(map(paths.is_plain_name, names))
    return ":".join(names) if is_plain or not all(map(is_text, names)) else ""


class Ended(Exception):
    """The server ended before it served: what it wrote, and its exit status."""

    def __init__(self, text, status):
        super().__init__(text)
        self.text, self.status = text, status


def sockets(folder):
    """The sockets among the open files of a process, as links of /proc."""
    with contextlib.suppress(OSError):
        return {link for link in (os.readlink(f"{folder}/{name}") for name in os.listdir(folder))
                if link[:7] == "socket:"}
    return set()


def said_of(port):
    """What the kernel says of the sockets that listen on a port, by sock_diag(7): a message for each, and one that ends
    them."""
    question = struct.pack("=IHH8xBB2xI", 72, DIAG, 0x301, socket.AF_INET, socket.IPPROTO_TCP, 1 << LISTENS)
    with socket.socket(socket.AF_NETLINK, socket.SOCK_RAW, NETLINK_DIAG) as kernel:
        kernel.send(question + struct.pack("!H46x", port))
        said, at = kernel.recv(1 << 16), 0
    while at < len(said):
        length, kind = struct.unpack_from("=IH", said, at)
        yield kind, said[at : at + length]
        at += length


def listeners(port):
    """The links of /proc to the sockets that listen on a port of this machine."""
    with contextlib.suppress(OSError):
        replies = [*said_of(port)]
        if ERROR not in dict(replies):
            return {f"socket:[{struct.unpack_from('=I', data, 84)[0]}]" for kind, data in replies if kind == DIAG}
    # (a kernel without that has a table of all connections, also of those that ended within the last minute)
    with open("/proc/net/tcp") as file:
        return {f"socket:[{line.split()[9]}]" for line in file if f":{port:04X} 00000000:0000 0A " in line}


def listens(port, server):
    """Waits until this server, and no other program, listens on a port. Returns False if it ends before."""
    while server.poll() is None:
        # (before it has a socket none is looked for)
        if (opened := sockets(f"/proc/{server.pid}/fd")) and opened & listeners(port):
            return True
        time.sleep(0.002)
    return False


def started(program: str, words: Iterable[str], errors: IO[bytes],
            connections: int = 3) -> tuple[subprocess.Popen, int]:
    """A server on a port. Another program may take the port first, and then it is another one."""
    while True:
        port = free_port()
        command = [program, *words, "serve", "--port", str(port), "--connections", str(connections)]
        # (a case may have signals ignored, as they are for this process)
        null = subprocess.DEVNULL
        server = subprocess.Popen(command, stdin=null, stdout=null, stderr=errors, restore_signals=False)
        if listens(port, server):
            return server, port
        errors.seek(0)
        text = errors.read()
        if text != b"failed: input\n":
            raise Ended(text, server.returncode)
        errors.seek(0)
        errors.truncate()


@contextlib.contextmanager
def serving(program, options):
    """The port of a server that has the file and the configuration of the options."""
    words = [word for name in ("db", "config") if name in options for word in (f"--{name}", options[name])]
    with tempfile.TemporaryFile() as errors:
        server, port = started(program, words, errors)
        try:
            yield port
        finally:
            # (the connections that are left, so that it ends as it does by itself; reset, so that none is kept waiting)
            while server.poll() is None:
                with contextlib.suppress(OSError), socket.create_connection(("127.0.0.1", port)) as left:
                    left.setsockopt(socket.SOL_SOCKET, socket.SO_LINGER, struct.pack("ii", 1, 0))
                time.sleep(0.002)


def show(ended, is_who):
    streams.write([ended.text], 1 if is_who else 2)
    return ended.status


def store_dir(options):
    if "config" not in options:
        return []
    with open(options["config"], "rb") as file:
        return ["--store-dir", tomllib.load(file).get("store-dir", paths.STORE)]


def by_remote(program: str, title: str, options: dict[str, str], words: list[str]) -> int:
    """Does a command by nixkeep-remote, and returns its exit status."""
    named, nowhere = caller(options), ["--server", "unix:/nowhere"]
    as_words = ["--as", named, *words]
    try:
        name = subcommands.read(as_words, title).name
    except Printed:
        # (it ends before any server is asked)
        return remote.main([title, *nowhere, *as_words])
    if name in (*LOCAL, "who") or not named:
        options = {key: value for key, value in options.items() if key != "db"}
    try:
        if (name in LOCAL or not named) and "config" not in options:
            return remote.main([title, *nowhere, *as_words])
        with serving(program, options) as port:
            folder = store_dir(options) if name in LOCAL else []
            return remote.main([title, "--server", f"http://127.0.0.1:{port}", *folder, *as_words])
    except Ended as ended:
        return show(ended, name == "who")
