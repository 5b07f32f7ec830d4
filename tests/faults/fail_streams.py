"""Serves sessions over a file while the k-th call on an input or an output goes wrong, for every k.

Each session is some requests that change a store. The k-th `read` of standard input or the k-th `write` to standard
output fails, runs out of memory, takes one byte, takes none, or is interrupted; the other calls take what they are
given, or all of them one byte. What was written has to be a prefix of what is written when nothing goes wrong: the
replies to the messages that had come, or those before and a beginning of the next, byte for byte. The status and the
line on standard error are those of the fault, and SQLite finds in the file exactly what a run over these messages
alone leaves there. The same is done to the `recv` and `send` of a connection on a port; there the next client, whom
the same server serves, has to get what those messages leave. Where the k-th connection can't be accepted, those before
it were served, and the server ends with the line of its input; where a connection can't be set to send at once, it is
served all the same. Where it gets no time limits, or no second handle, nothing of it is read, the line is that of the
input, and the next client is served.

The same is done to commands that read all of standard input. Where a read fails, the store is as it was, and the line
is that of the input, also where the system has no memory for the read; where a write fails, the object is there, and
the line is that of the output.

With --count N, N calls of each kind of fault are tried, chosen by the seed, and of the shortest session all. Needs
cc, and SQLite 3.37 or later.
"""
import contextlib
import dataclasses
import functools
import itertools
import os
import random
import socket
import subprocess
import tempfile

import pytest

from nixkeep_dev.model.runs import rows_in
from nixkeep_dev.model.tables import PIECE
from nixkeep_dev.testing import report
from nixkeep_dev.testing.http_messages import STATE, all_replies, connected, message, messages, replies, state_of
from nixkeep_dev.testing.nar import archive, text_path
from nixkeep_dev.testing.preload import Loaded
from nixkeep_dev.testing.requests import imported, path, text
from nixkeep_dev.testing.store import Server, remove

INPUT, OUTPUT = b"failed: input\n", b"failed: output\n"
BAD_HEAD, BAD_LENGTH = b"refused: 36 bad-head\n", b"refused: 37 bad-length\n"
BAD_REQUEST = "HTTP/1.1 400 Bad Request\r\ncontent-type: text/plain\r\nconnection: close\r\ncontent-length: {}\r\n\r\n"
CONFIG = 'trusted-users = ["root"]\n'
# The session of two messages, of which each call is tried, whatever the count.
SHORTEST = "two"
# What a call does in place of what it should; the first three are tried on commands too.
KINDS = "fails", "runs out of memory", "is interrupted", "takes one byte", "takes none"
SESSIONS = pytest.mark.parametrize("name", [SHORTEST, "small", "large"])


def some_sessions():
    """Sessions by name, each a list of messages."""
    a = text_path("a", b"x")
    b, p, q = text_path("b", b"y", [a]), "0" * 32 + "-p", "1" * 32 + "-q"
    nar = archive(random.Random(5).randbytes(2 * PIECE + 777))
    two = [("ann", "GET", "/paths"), ("ann", "POST", "/text", text("a", b"x"))]
    small = [*two, ("ann", "POST", "/temp/ann/7", path(a)), ("ann", "POST", "/text", text("b", b"y", a)),
             ("bob", "POST", "/root/user/ann/r", path(b)), ("ann", "POST", "/root/user/ann/r", path(a)),
             ("ann", "GET", f"/nar/{a}"), ("ann", "POST", "/collect"), ("ann", "DELETE", "/temp/ann/7")]
    large = [imported(p, nar), ("ann", "POST", "/source", text("s", nar[:-8], p)),
             ("ann", "POST", "/source", text("s", nar, p)), ("ann", "POST", "/text", text("t", nar, p)),
             ("ann", "POST", "/profile/ann/work", path(p)), ("ann", "GET", f"/nar/{p}"),
             imported(q, archive(bytes(9)), ("reference", p)), ("ann", "GET", f"/info/{q}"),
             ("ann", "POST", "/delete", path(q)), ("ann", "POST", "/collect")]
    return {SHORTEST: two, "small": small, "large": large}


class Session:
    """Messages one after the other; what is written for them; and what each number of them leaves in a file."""

    def __init__(self, tried, name, requests):
        self.name, self.requests, self.given = name, requests, messages(requests)
        self.ends = [*itertools.accumulate(len(message(*request)) for request in requests)]
        # (the head of a message ends before its body)
        self.heads = [end - len(request[3]) if len(request) > 3 else end for request, end in zip(requests, self.ends)]
        path = tried.path(name)
        status, self.written, errors = tried.serve(path, self.given)
        if (status, errors) != (0, b""):
            report.fail(f"{name}: status {status}, {errors!r}")
        self.replies = [head + b"\r\n\r\n" + text for head, text in all_replies(self.written, len(requests))]
        self.starts = [*itertools.accumulate(map(len, self.replies), initial=0)]
        # Each number of messages by itself, over a file of its own.
        self.rows, self.states = [], []
        for count in range(len(requests) + 1):
            path = tried.path(f"{name}-{count}")
            _, written, _ = tried.serve(path, messages(requests[:count]))
            if written != b"".join(self.replies[:count]):
                report.fail(f"{name}: the first {count} messages alone are answered otherwise")
            self.rows.append(rows_in(path))
            self.states.append(state_of(tried.serve(path, messages(STATE))[1]))

    def of_input(self, taken):
        """How many whole messages this number of bytes has."""
        return sum(end <= taken for end in self.ends)

    def of_output(self, taken):
        """How many messages have been answered if this number of bytes was written and more was to be."""
        return sum(start <= taken for start in self.starts[:-1])

    def cut(self, taken):
        """What is written for this number of bytes of input and no more."""
        count = self.of_input(taken)
        whole = b"".join(self.replies[:count])
        if taken in (0, *self.ends):
            return whole, count
        line = BAD_LENGTH if taken >= self.heads[count] else BAD_HEAD
        return whole + BAD_REQUEST.format(len(line)).encode() + line, count


class Command:
    """A command that reads all of standard input: its words and what it is given; and once it ran without a fault, what
    it writes and leaves in a file."""

    def __init__(self, name, words, given):
        self.name, self.words, self.given = name, ["--user", "root", name, *words], given
        self.written = self.rows = None


def some_commands():
    nar = archive(random.Random(7).randbytes(2 * PIECE + 777))
    return [Command("add-text", ["t"], bytes(PIECE + 9)), Command("add-source", ["s"], nar),
            Command("import", [], imported("0" * 32 + "-p", nar)[3])]


class Tried(Loaded):
    """The program, run over files of one folder, with a fault or without."""

    def __init__(self, *made):
        super().__init__(*made)
        self.config = self.put("store.toml", CONFIG)

    def path(self, name):
        return self.at(f"{name}.db")

    def line(self, path, *words):
        return [self.file, "--config", self.config, "--db", path, *words]

    def command(self, path, words, given, **faults):
        """A run of these words over a file: status, output and errors."""
        # A file as the input, which gives as many bytes as are asked for.
        with tempfile.TemporaryFile(dir=self.folder) as source:
            source.write(given)
            source.seek(0)
            ran = subprocess.run(self.line(path, *words), stdin=source, capture_output=True, env=self.env(**faults))
        return ran.returncode, ran.stdout, ran.stderr

    def serve(self, path, given, **faults):
        return self.command(path, ["serve"], given, **faults)

    def serve_port(self, path, clients, connections, faults):
        """A number of connections, on which clients send this, one after another: what comes to each."""
        how = {"connections": connections, "env": self.env(**faults)}
        with Server(*self.line(path), **how) as server:
            came = [talk(server, given) for given in clients]
            status, said = server.ended(300)
            return status, came, said


def talk(server, given):
    """All that a server answers to this; what it doesn't take, or reset, is left."""
    client, came = connected(server.port, server.ran, 300), b""
    if not client:
        return None
    with client, contextlib.suppress(ConnectionResetError, BrokenPipeError):
        client.sendall(given)
        client.shutdown(socket.SHUT_WR)
        while more := client.recv(65_536):
            came += more
    return came


@dataclasses.dataclass
class Fault:
    """What goes wrong on a stream: one call of it, or with 0 none."""
    session: Session | Command
    stream: str
    kind: str
    one_byte: bool = False

    def name(self):
        return f"{self.session.name}: {self.stream}{' of one byte' if self.one_byte else ''} {self.kind}"

    def settings(self, tried, at):
        """A name for the run, and the settings of the library."""
        name = f"{self.name()}-{at}".replace(" ", "-").replace(":", "")
        variables = {"counts": tried.path(f"{name}-counts"), "STREAM": self.stream, "FAULT": self.kind, "FAULT_AT": at}
        return name, variables | ({"ONE_BYTE": 1} if self.one_byte else {})


def taken_at(tried, faults):
    """How many bytes the stream had taken when it came to the fault, None where it didn't; and how many calls there
    were."""
    calls, taken = tried.counted(faults["counts"])
    os.remove(faults["counts"])
    return taken - 1 if taken else None, calls


def last_rows(path):
    """The rows of a file, which is removed."""
    rows = rows_in(path)
    remove(path)
    return rows


def meant(fault, taken):
    """Status, output and errors that are meant, and how many messages have been answered."""
    session = fault.session
    if taken is None or fault.kind == "takes one byte":
        return 0, session.written, b"", len(session.requests)
    if fault.stream in ("write", "send"):
        return 1, session.written[:taken], OUTPUT, session.of_output(taken)
    if fault.kind == "takes none":
        written, count = session.cut(taken)
        return 0, written, b"", count
    count = session.of_input(taken)
    return 1, session.written[: session.starts[count]], INPUT, count


def try_one(tried, fault, at):
    """What is wrong with a run, or None; and how many calls of the stream there were."""
    session, (name, faults) = fault.session, fault.settings(tried, at)
    path, after = tried.path(name), None
    if fault.stream in ("recv", "send"):
        status, (came, after), errors = tried.serve_port(path, [session.given, messages(STATE)], 2, faults)
    else:
        status, came, errors = tried.serve(path, session.given, **faults)
    taken, calls = taken_at(tried, faults)
    wanted = meant(fault, taken)
    rows = last_rows(path)
    if (status, errors) != (wanted[0], wanted[2]):
        return f"status {status}, {errors!r} where {wanted[0]}, {wanted[2]!r} is meant", calls
    if came != wanted[1]:
        why = f"{wanted[3]} messages and {len(wanted[1])} bytes are meant: ..{came[-200:]!r}"
        return f"{len(replies(came)[0])} whole replies, {len(came)} bytes, where {why}", calls
    if rows != session.rows[wanted[3]]:
        return f"the file isn't as {wanted[3]} messages leave it", calls
    if after is not None and state_of(after) != session.states[wanted[3]]:
        return f"the next client isn't answered as {wanted[3]} messages leave it: {after!r}", calls
    return None, calls


def try_connecting(tried, fault, at):
    """What is wrong with a run over three connections, of which two are made, and the k-th call that makes them, or
    prepares the first, fails."""
    session, (name, faults) = fault.session, fault.settings(tried, at)
    path, is_over, is_read = tried.path(name), fault.stream == "accept", fault.stream not in ("limit", "handle")
    clients = [session.given, messages(STATE)][: at - 1 if is_over else 2]
    status, came, errors = tried.serve_port(path, clients, 3 if is_over else 2, faults)
    if taken_at(tried, faults)[0] is None:
        return "it doesn't come to the fault"
    if (status, errors) != ((1, INPUT) if is_over or not is_read else (0, b"")):
        return f"status {status}, {errors!r}"
    count = len(session.requests) if clients and is_read else 0
    wanted = [session.written if is_read else b"", session.states[count]][: len(clients)]
    if [*came[:1], *map(state_of, came[1:])] != wanted:
        return f"clients are answered {came!r}"
    return None if rows_in(path) == session.rows[count] else "the file isn't as it should be"


def try_command(tried, fault, at):
    """What is wrong with a run of a command, or None; and how many calls of the stream there were. The run without a
    fault comes first."""
    command, (name, faults) = fault.session, fault.settings(tried, at)
    path = tried.path(name)
    tried.serve(path, b"")
    before = rows_in(path)
    status, came, errors = tried.command(path, command.words, command.given, **faults)
    taken, calls = taken_at(tried, faults)
    rows = last_rows(path)
    if at == 0:
        command.written, command.rows = came, rows
        if rows == before:
            return f"status {status}, {errors!r}: nothing was added", calls
    wanted = 0, command.written, b"", command.rows
    if taken is not None:
        is_read = fault.stream == "read"
        wanted = (1, b"", INPUT, before) if is_read else (1, command.written[:taken], OUTPUT, command.rows)
    if (status, came, errors) != wanted[:3]:
        return f"status {status}, {came!r}, {errors!r} where {wanted[:3]} is meant", calls
    return None if rows == wanted[3] else "the file isn't as it should be", calls


def check(fault, at, why):
    report.right(f"{fault.name()}, call {at}", why)


def try_each(pool, tried, fault, run=try_one):
    """Each call of the stream in turn, or some of them."""
    why, total = run(tried, fault, 0)
    check(fault, 0, why)
    chosen = range(1, total + 1) if fault.session.name == SHORTEST else tried.some(total, fault.name())
    for at, (why, _) in zip(chosen, pool.map(functools.partial(run, tried, fault), chosen)):
        check(fault, at, why)


@pytest.fixture(scope="module")
def tried(program, shared_folder, some):
    return Tried(program, shared_folder, "tests/faults/fail_streams.c", some)


@pytest.fixture(scope="module")
def sessions(tried):
    return functools.cache(lambda name: Session(tried, name, some_sessions()[name]))


@SESSIONS
@pytest.mark.parametrize("call, most", [("accept", 3), ("setsockopt", 1), ("limit", 2), ("handle", 1)])
def test_a_connection_that_fails(tried, sessions, name, call, most):
    for at in range(1, most + 1):
        fault = Fault(sessions(name), call, "fails")
        check(fault, at, try_connecting(tried, fault, at))


@SESSIONS
@pytest.mark.parametrize("stream", ["read", "write", "recv", "send"])
@pytest.mark.parametrize("kind", KINDS)
def test_a_session(pool, tried, sessions, name, stream, kind):
    try_each(pool, tried, Fault(sessions(name), stream, kind))


@pytest.mark.parametrize("name", [SHORTEST, "small"])
@pytest.mark.parametrize("stream", ["read", "write"])
@pytest.mark.parametrize("kind", ["fails", "takes none"])
def test_a_session_byte_by_byte(pool, tried, sessions, name, stream, kind):
    try_each(pool, tried, Fault(sessions(name), stream, kind, one_byte=True))


@pytest.mark.parametrize("stream", ["read", "write"])
def test_a_large_session_byte_by_byte(tried, sessions, stream):
    """Nothing fails: the calls are too many."""
    fault = Fault(sessions("large"), stream, "fails", one_byte=True)
    check(fault, 0, try_one(tried, fault, 0)[0])


@pytest.mark.parametrize("command", some_commands(), ids=lambda command: command.name)
@pytest.mark.parametrize("stream", ["read", "write"])
@pytest.mark.parametrize("kind", KINDS[:3])
def test_a_command(pool, tried, command, stream, kind):
    try_each(pool, tried, Fault(command, stream, kind), try_command)
