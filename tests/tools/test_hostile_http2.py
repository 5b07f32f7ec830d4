"""Hostile requests by HTTP/2 to nginx with either file of examples/team, where `http2` is added to its `listen`: fields
that would be another request to the store, streams that are reset, and many at once. Needs what examples/team/try
needs, and is skipped without it."""
import base64
import contextlib
import struct
import tempfile
import time

import pytest

from tests.tools.http2 import CONTINUATION, HEADERS, Connection, packed
from tests.tools.logins import BOTH, deployed
from tests.tools.team_try import TEAM

pytestmark = pytest.mark.needs(*TEAM.TOOLS)
REFUSED = (400, "reset", "closed")
BUILD = b"POST /root/permanent/forged HTTP/1.1\r\nstore-user: build\r\nhost: x\r\ncontent-length: 0\r\n\r\n"


@pytest.fixture(scope="module", params=BOTH)
def site(request, program):
    more = [("443 ssl", "443 ssl http2")]
    with tempfile.TemporaryDirectory() as folder, deployed(program, folder, request.param, more) as made:
        with made.servers["red"], made.nginx:
            yield made


@pytest.fixture
def connect(site):
    """Makes connections, which end with the test."""
    with contextlib.ExitStack() as ending:
        def made(name="red.localhost", **more):
            connection = Connection(site.port, f"{site.etc}/tls/ca.pem", name, **more)
            ending.callback(connection.close)
            return connection
        yield made


def fields(method=b"GET", path=b"/who", *more, user="ann", host=None):
    """The fields of a request, with the password of a user, and more before and after."""
    login = b"Basic " + base64.b64encode(f"{user}:{user}-secret".encode())
    return [(b":method", method), (b":scheme", b"https"), (b":authority", host or b"red.localhost"), (b":path", path),
            (b"authorization", login), *more]


def test_a_request(connect):
    assert connect().status(fields()) == 200
    assert connect().status(fields(b"POST", b"/text"), b"name: by-http2\n\n", b"x") == 200
    assert connect().status(fields(user="nobody")) == 401


# Fields, and how nginx may answer them.
ODD = {
    "two lines in a value": ([(b"x", b"y\r\nstore-user: build")], REFUSED),
    "a request in a value": ([(b"x", b"y\r\n\r\n" + BUILD)], REFUSED),
    "a line in a name": ([(b"x\r\nstore-user", b"build")], REFUSED),
    "a colon in a name": ([(b"store-user: build\r\nx", b"y")], REFUSED),
    "a zero in a value": ([(b"x", b"y\0z")], REFUSED),
    "capital letters": ([(b"Store-User", b"build")], (*REFUSED, 200)),
    "a forged user": ([(b"store-user", b"build")], (200,)),
    "a forged user with a line": ([(b"store_user", b"build")], (200,)),
    "a forged group": ([(b"store-group", b"builders")], (200,)),
    "a forged name of a login": ([(b"x-auth-request-user", b"build")], (200,)),
    "a field of connections": ([(b"connection", b"authorization, store-user")], (*REFUSED, 200)),
    "a coding": ([(b"transfer-encoding", b"chunked")], (*REFUSED, 200)),
    "an upgrade": ([(b"upgrade", b"h2c")], (*REFUSED, 200)),
    "another host": ([(b"host", b"green.localhost")], (*REFUSED, 200, 421)),
    "a path twice": ([(b":path", b"/paths")], REFUSED),
    "a late scheme": ([(b":scheme", b"http")], REFUSED),
    "an unknown one": ([(b":user", b"build")], REFUSED),
}


@pytest.mark.parametrize("what", ODD)
def test_fields(what, connect):
    """None makes ann another user."""
    more, wanted = ODD[what]
    assert connect().status(fields(b"GET", b"/who", *more)) in wanted
    denied = connect().status(fields(b"DELETE", b"/root/permanent/none", *more))
    assert denied in REFUSED or denied in (403, 421)


# Targets, methods and names of hosts that would be another request to the store.
HEADS = {
    "a request in a target": dict(path=b"/who HTTP/1.1\r\nhost: x\r\n\r\n" + BUILD),
    "a blank in a target": dict(path=b"/who x"),
    "no slash": dict(path=b"who"),
    "an empty target": dict(path=b""),
    "a whole address": dict(path=b"https://red.localhost/who"),
    "a request in a method": dict(method=b"GET /who HTTP/1.1\r\nstore-user: build\r\n\r\nGET"),
    "a blank in a method": dict(method=b"GET /x"),
    "a line in a host": dict(host=b"red.localhost\r\nstore-user: build"),
    "another domain": dict(host=b"red.evil.example"),
}


@pytest.mark.parametrize("what", HEADS)
def test_heads(what, site, connect):
    assert connect().status(fields(**HEADS[what])) in (*REFUSED, 404, 405)
    assert b"forged" not in site.user("build")("GET", "/roots")[1]


@pytest.mark.parametrize("length, pieces", [(b"1", [b"x" * 200]), (b"300", [b"x" * 200]), (b"0", [BUILD]),
                                            (b"-1", [BUILD]), (b"1, 2", [BUILD]), (b"x", [BUILD])])
def test_lengths(length, pieces, site, connect):
    """A body that isn't as long as it is said to be is none."""
    status = connect().status(fields(b"POST", b"/text", (b"content-length", length)), *pieces)
    assert status in REFUSED
    assert b"forged" not in site.user("build")("GET", "/roots")[1]


def test_a_name_of_another_team(connect):
    """The name of a connection is that of its requests, so a login of one team asks no other one there."""
    assert connect().status(fields(host=b"green.localhost")) in (401, 421, "reset", "closed")


def test_streams_at_once(connect):
    """A client has no more requests at once than two connections of it may have together."""
    made = connect()
    assert made.status(fields()) == 200
    assert made.most == 32
    numbers = [made.ask(fields(b"POST", b"/text"), ends=False) for _ in range(40)]
    assert made.until(lambda: {*numbers[32:]} <= {*made.streams} or made.is_closed)
    assert {made.streams.get(number) for number in numbers[32:]} == {"reset"}


def test_streams_that_are_reset(site, connect):
    """A client that begins requests and resets them at once loses its connection after a thousand, and others are
    served."""
    made = connect()
    with contextlib.suppress(OSError):
        for _ in range(20_000):
            made.reset(made.ask(fields(b"GET", b"/paths")))
    made.until(lambda: made.is_closed)
    assert made.taken < 2 * 1_010
    began = time.monotonic()
    assert site.user("bob")("GET", "/who")[0] == 200
    assert time.monotonic() - began < 30


def test_fields_without_an_end(connect):
    """Fields that go on and on end the connection."""
    made, sent = connect(), 0
    made.send(HEADERS, 0, 1, packed(fields()))
    with contextlib.suppress(OSError):
        while sent < 10_000_000:
            made.send(CONTINUATION, 0, 1, packed([(b"x", b"y" * 8000)]))
            sent += 8000
        made.until(lambda: made.is_closed)
    assert sent < 10_000_000 or made.taken is not None


def test_a_reader_that_takes_nothing(site, connect):
    """A client whose window stays closed holds up nobody else."""
    made = connect(settings=struct.pack(">HI", 4, 0))
    for _ in range(30):
        made.ask(fields(b"GET", b"/nix-cache-info"))
    assert site.user("bob")("GET", "/who")[0] == 200
