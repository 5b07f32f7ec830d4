"""Tests nixkeep-remote: usage errors, an answer that comes late, forms of replies, streams, and the cases again with a
server for each command.

The cases run with a stand-in for the program that starts a server for each command and asks it by nixkeep-remote;
remote_steps.txt has the steps that can't be done so, and why. `--count` is how many cases are tried. (`-k` with words,
late, replies, streams or cases is a part of this.)
"""
import contextlib
import os
import random
import re
import resource
import shutil
import socket
import subprocess
import tempfile
import threading
import time
from pathlib import Path

import pytest

from nixkeep_dev.build.program import HERE
from nixkeep_dev.testing import cases, nar, report
from nixkeep_tools import failures, http_client, http_connection, subcommands
from tests.tools import replies, servers, stand_in
from tests.tools.remote import ALLOWED, REMOTE, Client, certificate, fails, file_of
from tests.tools.servers import ran

STEPS = f"{HERE}/tests/tools/remote_steps.txt"
# More than the cases have with the program: each command starts a server and a client.
SECONDS = 1200
MIB16 = 16_777_216
# (of an archive each byte is printed as it comes)
BASE = f"{'0' * 32}-x"

# Words that are no command line, or ask for help; each with `|` between words.
FAULTS = ["", *"""
who|ann text-path delete text-path|-h help|text-path help|nope help|help help|list|x help|--help help|profile|set --nope
list|--nope list|--use|x -x list|-x list|-xh list|-hx list|--help|x list|x|--help list|--= list|--help=1 --help=1 --=
--version --version|who --version=1 --version= -V -Vh -Vx -xV who|-V who|--version help|--version help|-V who|--user|ann
ls|--|-x -- --|list info|a|b info|-- root|r root|a|-- root|--permanent root|--permanent|--permanent|a|b unroot|--owner
unroot|--owner|ann|--owner|bob|r unroot|--owner|--|r unroot|--owner|--permanent|r unroot|--owner|x|-p
unroot|--owner=|r|s unroot|--permanent unroot|--permanent|--owner|a|r unroot|-p|x profile profile|set profile|set|r
profile|set|a|b|c profile|drop|r|1 profile|rollback|r|1 profile|--help profile|--owner|a profile|--owner|a|set
profile|--owner|x|a|b|-p profile|--owner|x|a|b|c|d profile|--owner|x|--owner=y temp temp|add|1 temp|end|1|x temp|drop|1
temp|--owner|x|add temp|--owner|--x|end temp|--owner|-x|end temp|--owner|-h|end gc|x gc|- gc|--max-freed
gc|--max-freed|x gc|--max-freed|01 gc|--max-freed|18446744073709551616 gc|--max-freed|-1 gc|--max-freed=-1
gc|--max-freed= gc|--ignore-liveness=1 gc|--ignore-liveness|--ignore-liveness gc|--ignore-liveness|x delete|--
delete|--ignore-liveness delete|--ignore-liveness|a|--ignore-liveness delete|a|b|--ignore-liveness= text-path|n|--help
text-path|a|b|c|--x add-text|a|--ca|b list|help help|root help|unroot help|delete help|temp help|gc help|info help|who
""".split()]


# ---- words


def said(file, line):
    """The status for words, and what a program says of them, with NAME in the place of its own."""
    status, output, errors = ran([file, *(line.split("|") if line else [])])
    return status, re.sub(rb"nixkeep[\w.-]*", b"NAME", errors + b"\0" + output)


HELP = [line for command in subcommands.COMMANDS for line in (f"{command.name}|--help", f"help|{command.name}")]


@pytest.mark.parametrize("line", [*FAULTS, *HELP])
def test_words_have_the_texts_of_the_program(line, program):
    """Usage errors and pages of help, but for its name."""
    assert said(REMOTE, line) == said(program, line)


def test_words_of_the_help():
    version = Path(HERE, "VERSION").read_text().strip()
    assert ran([REMOTE, "--version"]) == (0, f"nixkeep-remote {version}\n".encode(), b"")
    status, output, _ = ran([REMOTE, "--help"])
    assert status == 0
    assert [command.name for command in subcommands.COMMANDS if f"\n  {command.name} ".encode() not in output] == []


@pytest.mark.parametrize("line", ["--help", "who", "list", "report", "add-text|x", "cat-nar|x", "gc"])
def test_what_takes_long_to_load_is_not_loaded(line, program):
    """Each of these takes milliseconds, and a request takes less than one."""
    words = ["/usr/bin/python3", "-ES", "-X", "importtime", REMOTE]
    with servers.server(program) as port:
        words += ["--server", f"http://127.0.0.1:{port}", "--as", "root", *line.split("|")]
        lines = ran(words)[2].decode().splitlines()
    loaded = {row.rpartition("|")[2].strip() for row in lines}
    assert "nixkeep_tools.http_client" in loaded
    assert not loaded & {"argparse", "collections", "email", "enum", "http.client", "pathlib", "re", "socket", "ssl",
                         "tempfile", "typing"}


@pytest.mark.parametrize("page", ["completion/nixkeep-remote.bash", "man/nixkeep-remote.1"])
def test_words_of_pages(page):
    """The completion and the manual page have each subcommand and each option."""
    text = Path(HERE, page).read_text().replace("\\-", "-")
    words = [command.name for command in subcommands.COMMANDS]
    words += [f"--{option}" for command in (subcommands.TOP, *subcommands.COMMANDS) for option in command.options]
    assert [word for word in words if word not in text] == []


def test_late_answers(monkeypatch):
    """An answer that is late isn't taken for that to the next request, which has a connection of its own."""
    texts, head = [b"first", b"second"], b"HTTP/1.1 200 OK\r\ncontent-type: text/plain\r\ncontent-length: 6\r\n\r\n"
    given_up = threading.Event()

    def answer(listener):
        opened = []
        for text in texts:
            opened.append(listener.accept()[0])
            opened[-1].recv(1000)
            given_up.wait()
            with contextlib.suppress(OSError):
                opened[-1].sendall(head + text.ljust(6))

    with socket.create_server(("127.0.0.1", 0)) as listener:
        threading.Thread(target=answer, args=(listener,), daemon=True).start()
        server = http_client.Server(http_client.Place(f"http://127.0.0.1:{listener.getsockname()[1]}"))
        with monkeypatch.context() as patch, contextlib.suppress(failures.Stop):
            patch.setattr(http_connection, "SECONDS", 0.3)
            server.ask("GET", "/first")
        given_up.set()
        assert server.connection.sock is None
        assert server.ask("GET", "/second").text() == "second", "the next answer"


# ---- replies


def outcome(client, words, given, connections, **where):
    """What comes of a command that is answered so, with the URL of the server left out of its line."""
    with replies.server(*connections, **where) as at:
        status, output, errors = client(at, *words, given=given)
    line = errors.decode("utf-8", "backslashreplace")
    return replies.Outcome(status, output, line.rstrip("\n").replace(f" {at}:", " URL:"))


@pytest.fixture(scope="module")
def answered(pool):
    """What comes of each reply of the table, for a server in a place of each kind."""
    with tempfile.TemporaryDirectory() as folder:
        client, running = Client(folder), {}
        places = {"a port": lambda at: {}, "a Unix socket": lambda at: {"path": f"{folder}/{at}"}}
        if shutil.which("openssl"):
            pair = certificate(folder)
            client.env["NIXKEEP_CA"] = pair[0]
            places["TLS"] = lambda at: {"certificate": pair}
        for kind, where in places.items():
            for at, (what, (pieces, _)) in enumerate(TABLE.items()):
                running[kind, what] = pool.submit(outcome, client, ["cat-nar", BASE], b"", [[pieces]], **where(at))
        yield running


TABLE = {**replies.TABLE, **replies.OF_PORTS}
ROWS = [pytest.param(kind, what, marks=[pytest.mark.needs("openssl")] if kind == "TLS" else [])
        for kind in ("a port", "a Unix socket", "TLS") for what in (TABLE if kind == "a port" else replies.TABLE)]


@pytest.mark.parametrize("kind, what", ROWS)
def test_replies(kind, what, answered):
    """Each form of a reply that a proxy may write, in pieces or cut short."""
    assert answered[kind, what].result() == TABLE[what][1]


# A full path is asked about in a request of its own, by the same connection unless that is closed.
DENIED = {"text": b"denied: no-ignore-liveness\n", "status": "HTTP/1.1 403 Forbidden"}
KEPT, CLOSED, INFO = replies.whole(**DENIED), replies.whole("connection: close", **DENIED), replies.whole()
TWO = {
    "by one connection": ([[KEPT, INFO]], replies.DONE),
    "by two, as the first is closed": ([[CLOSED], [INFO]], replies.DONE),
    "by two, as the first ends with its text": ([[replies.reply(**DENIED)], [INFO]], replies.DONE),
    "by one, of chunks": ([[replies.chunked(**{**DENIED, "text": b"1b\r\n%b\r\n0\r\n\r\n" % DENIED["text"]}), INFO]],
                          replies.DONE),
    "by one that ends after the first": ([[KEPT], [INFO]], replies.NONE),
}


@pytest.mark.parametrize("what", TWO)
def test_replies_to_two_requests(what, client):
    connections, wanted = TWO[what]
    assert outcome(client, ["info", f"/nix/store/{BASE}"], b"", connections) == wanted


@contextlib.contextmanager
def recording(answers):
    """The URL of a server that answers one connection so, and the list of the methods and targets that it was asked."""
    seen = []
    with socket.create_server(("127.0.0.1", 0)) as listener:
        def run():
            with contextlib.closing(listener.accept()[0]) as peer, peer.makefile("rb") as came:
                for answer in answers:
                    seen.append(came.readline().decode().rpartition(" ")[0])
                    while came.readline().strip():
                        pass
                    peer.sendall(answer)

        threading.Thread(target=run, daemon=True).start()
        yield f"http://127.0.0.1:{listener.getsockname()[1]}", seen


def test_replies_that_point_elsewhere(client):
    """Credentials go to the server that is named, and neither where it points to nor to a proxy of the environment."""
    moved = "HTTP/1.1 307 Temporary Redirect\r\nlocation: {}/paths\r\ncontent-length: 0\r\n\r\n"
    with recording([b""]) as (other, requests), recording([moved.format(other).encode()]) as (at, _):
        more = {variable: other for variable in ("http_proxy", "https_proxy", "HTTP_PROXY", "ALL_PROXY")}
        came = client(at, "list", NIXKEEP_CREDENTIALS="ann:secret", **more)
        fails(came, rf"failed: proxy: \S+: 307 .*; it points to {other}/paths")
        assert requests == [], "what another one is asked"


# Where nixkeep-cache answers it, the class is read, and nothing is asked that is denied.
READ = replies.whole(text=b"class: trusted\nconnect: yes\n")
NO_ROUTE = replies.whole(text=b"refused: 39 no-route\n", status="HTTP/1.1 404 Not Found")
DENIAL = replies.whole(text=b"denied: trusted-permanent-root\n", status="HTTP/1.1 403 Forbidden")
STRANGER = replies.whole(text=b"denied: connect\n", status="HTTP/1.1 403 Forbidden")
OWN = "DELETE /root/permanent/-"


@pytest.mark.parametrize("answers, requests, wanted", [
    ([READ], ["GET /who"], (0, b"class: trusted\nconnect: yes\n", b"")),
    ([NO_ROUTE, DENIAL], ["GET /who", OWN], ALLOWED),
    ([STRANGER], ["GET /who"], (4, b"class: stranger\ndenied: connect\n", b""))],
    ids=["nixkeep-cache", "a server alone", "a stranger"])
def test_replies_to_who(answers, requests, wanted, client):
    with recording(answers) as (at, seen):
        assert client(at, "who") == wanted
    assert seen == requests


@pytest.mark.parametrize("answer, wanted", [
    (replies.whole(text=b"<html>", kind="text/html", status="HTTP/1.1 413 Too Large"),
     replies.proxy("413 Too Large; it takes no body of 9000009 bytes, and has to take 20971520")),
    (b"", replies.NONE)], ids=["a page", "nothing"])
def test_replies_before_the_end_of_the_request(answer, wanted, client):
    """The rest of that isn't taken."""
    assert outcome(client, ["add-text", "n"], bytes(9_000_000), [[answer]], is_early=True) == wanted


def test_replies_with_random_heads(rng):
    """Each that the client reads by itself is read so by Python's http.client, too."""
    count = 0
    for _ in range(20_000):
        head = replies.spoiled(rng)
        if parsed := http_connection.plain_head(head):
            reply = http_connection.Reply(None, *parsed, b"")
            fields = [reply.fields.get(name) for name in ("content-type", "location")]
            assert (reply.status, reply.reason, fields, reply.length, reply.is_last) == replies.by_http_client(head)
            count += 1
    assert count > 2_000, "many of the heads are read by the client itself"


# ---- streams


def limit_memory():
    resource.setrlimit(resource.RLIMIT_AS, (256 << 20, 256 << 20))


def slowly(pipe):
    """All that comes from a pipe, read so slowly that 16 MiB take more than a second."""
    pieces = []
    while part := pipe.read(1 << 20):
        pieces.append(part)
        time.sleep(0.1)
    return b"".join(pieces)


def test_streams_of_16_mib(port, client, folder):
    """An archive of 16 MiB, by a client with little memory."""
    at = ["--server", f"http://127.0.0.1:{port}", "--as", "root"]
    archive, large = nar.archive(os.urandom(MIB16 - 112)), Path(folder, "large.nar")
    assert len(archive) == MIB16, "the largest archive"
    large.write_bytes(archive)
    how = {"capture_output": True, "preexec_fn": limit_memory}
    with large.open("rb") as file:
        came = subprocess.run([REMOTE, *at, "add-source", "large"], stdin=file, **how)
    path = came.stdout.decode().strip()
    assert path.endswith("-large"), came.stderr
    assert client(None, *at, "add-source", "large", given=archive) == (0, came.stdout, b""), "from a pipe"
    out = subprocess.run([REMOTE, *at, "cat-nar", path], **how)
    assert out.stdout == archive and out.returncode == 0, "it comes out as it was"
    status, output, shown = servers.on_terminal([REMOTE, *at, "cat-nar", path], slowly)
    assert (status, output == archive) == (0, True), "it comes out slowly"
    assert re.search(rb"received [0-9.]+ MiB of 16\.0 MiB 0:0[0-9] left", shown), "progress on a terminal"
    assert shown.endswith(b"\r\x1b[K"), "which is removed"


NAR = nar.strings(b"nix-archive-1", b"(", b"type", b"regular", b"contents") + (40_000_000).to_bytes(8, "little")


@pytest.mark.parametrize("words, given, line", [
    ("add-text n", lambda: bytes(MIB16 - 111), "8 too-large"), ("add-text n", lambda: bytes(30_000_000), "8 too-large"),
    ("add-source n", lambda: NAR + bytes(40_000_000), "8 too-large"),
    ("import", lambda: f"path: {BASE}\nnar-hash: sha256:{'0' * 52}\n\n".encode() + NAR + bytes(40_000_000),
     "8 too-large"),
    ("runtime", lambda: bytes(30_000_000), "38 too-large")])
def test_streams_that_are_too_large(words, given, line, port, client):
    at = ["--server", f"http://127.0.0.1:{port}", "--as", "root"]
    assert client(None, *at, *words.split(), given=given()) == (3, b"", f"refused: {line}\n".encode())


@pytest.mark.parametrize("most", [0, 2_000])
def test_a_pipe_on_a_full_disk(most, port, client):
    """What comes from a pipe is in a file for a while."""
    words = [REMOTE, "--server", f"http://127.0.0.1:{port}", "--as", "root", "import"]
    came = ran(servers.limited(words, most), bytes(3_000_000), env=client.env)
    fails(came, "failed: temporary file: (File too large|No usable temporary directory.*)")


# ---- cases


# In the place of the tool of that name: however the client gets its input, the server gets it from the client.
IN_PIECES = """#!/bin/sh
[ "$1" != --each ] || shift
whole=$(mktemp) && cat >"$whole" && exec <"$whole" && rm "$whole" && exec "$@"
"""


def listed():
    """The steps that differ over a server: for each case the first lines of the commands."""
    steps, case = {}, None
    for line in Path(STEPS).read_text().splitlines():
        if line.startswith("  $ "):
            case.append(line[4:])
        elif line and not line.startswith((" ", "#")):
            case = steps.setdefault(line, [])
    return steps


NAMES = sorted(file.name for file in Path(cases.CASES).glob("*.txt"))


def pytest_generate_tests(metafunc):
    """All cases, or as many as a command line says."""
    if "case" in metafunc.fixturenames:
        option = metafunc.config.getoption
        count = report.count_places(option("--count"), len(NAMES), option("--seed"))
        metafunc.parametrize("case", sorted(random.Random(option("--seed")).sample(NAMES, count)))


@pytest.fixture(scope="module")
def by_servers(program, pool, request):
    """The runs of the cases that are chosen, whose commands are done by servers. They run side by side."""
    # (a bare pytest has items of other modules, too, of which some are no functions)
    items = [item for item in request.session.items if item.parent is request.node and "case" in item.fixturenames]
    names = [item.callspec.params["case"] for item in items]
    with tempfile.TemporaryDirectory() as folder, stand_in.answering(program, folder) as (file, _):
        programs = {"nixkeep": file, "in-pieces": file_of(folder, "in-pieces", IN_PIECES, 0o755)}
        yield {name: pool.submit(cases.run_case, f"{cases.CASES}/{name}", programs, SECONDS) for name in names}


def test_cases_that_are_listed():
    assert {*listed()} <= {*NAMES}


@pytest.mark.needs("cc")
def test_cases(case, by_servers):
    ran, left = by_servers[case].result(), listed().get(case, [])
    for step, why in ran.wrong:
        command = step.command.split("\n")[0]
        assert command in left, f"$ {command}\nline {step.line}: {why}"
        left.remove(command)
    skipped = [step.command.split("\n")[0] for step, _ in ran.skipped]
    assert [name for name in left if name not in skipped] == [], "they come out as written, and are listed"
    assert ran.passed() > 0
    if ran.skipped:
        pytest.skip(f"without {', '.join(sorted({what for _, what in ran.skipped}))}")
