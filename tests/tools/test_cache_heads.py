"""Tests of the heads that nixkeep-cache refuses, whoever passes them on, and of requests that come ahead of a reply."""
import asyncio
import contextlib
import itertools
import re
import socket
import types

import pytest
from aiohttp import http
from aiohttp.http_exceptions import BadHttpMessage
from hypothesis import given, settings
from hypothesis import strategies as draw

from nixkeep_dev.testing import drawn
from nixkeep_tools import cache_heads
from tests.tools.test_cache_at_once import LAST, OTHER, stores

pytestmark = pytest.mark.needs("curl", "python3-aiohttp", "python3-hypothesis")
# Lines of a head that are no field: RFC 9112, section 5.1, and RFC 9110, section 5.6.2.
NO_FIELDS = {
    "no name": b": x", "no name and no value": b":", "no name, twice": b"::", "a blank as a name": b" : x",
    "a tab as a name": b"\t: x", "a blank before the colon": b"x : y", "a tab before the colon": b"x\t: y",
    "a blank in a name": b"a b: x", "the user, and a blank": b"store-user : bob", "no colon": b"store-user",
    "nothing but blanks": b"  ", "a line that goes on": b" bob", "one that goes on by a tab": b"\tbob",
    "a line feed before no name": b"x: y\n: z", "a control character": b"a\x01: x", "a zero": b"a\x00: x",
    "a delete": b"a\x7f: x", "a letter beyond ASCII": b"\xe9: x", "a letter of UTF-8": b"store\xe2\x80\x90user: bob",
    "a return in a name": b"a\rb: x", "a return before a colon": b"a\r: x", "a vertical tab": b"\x0bx: y",
    **{f"the separator {char}": b"a%sb: x" % char.encode() for char in '"(),/;<=>?@[\\]{}'},
}
# Fields with each character of a token.
FIELDS = [b"!#$%&'*+.^_`|~-09azAZ: x", b"x:", b"x:y", b"x:  :y : z", b"x: \xe9"]
GET = b"GET %s HTTP/1.1\r\n%s\r\n\r\n"
USER, HOST = b"store-user: ann", b"host: red"
REFUSED = b"refused: 36 bad-head\n"


@pytest.fixture(scope="module")
def cache(program, tmp_path_factory):
    with stores(program, str(tmp_path_factory.mktemp("heads")), "--proxied") as (made, record):
        yield made.place, record.encode()


def places(line):
    """A head's fields with a line among them: first, in the middle, and last."""
    return [b"\r\n".join(lines) for lines in ([line, HOST, USER], [HOST, line, USER], [HOST, USER, line])]


def came(place, *pieces):
    """What comes for pieces on one connection, until it ends."""
    with socket.socket(socket.AF_UNIX) as client:
        client.settimeout(60)
        client.connect(place)
        data = b""
        with contextlib.suppress(BrokenPipeError, ConnectionResetError):
            for sent in pieces:
                client.sendall(sent)
        with contextlib.suppress(ConnectionResetError):
            while piece := client.recv(65_536):
                data += piece
    return data


def statuses(place, *pieces):
    return re.findall(rb"HTTP/1\.[01] (\d+) ", came(place, *pieces))


@pytest.mark.parametrize("name", NO_FIELDS)
def test_what_is_no_field(cache, name):
    """Wherever it is, and whichever way the request would be answered, it is refused, and nothing else is answered."""
    place, record = cache
    for fields in places(NO_FIELDS[name]):
        for target in (record, b"/nix-cache-info"):
            head = GET % (target, fields)
            seen = [statuses(place, head), statuses(place, head[:-9], head[-9:]), statuses(place, OTHER + head + LAST)]
            assert seen == [[b"400"], [b"400"], [b"200", b"400"]], (target, fields)


@pytest.mark.parametrize("line", FIELDS)
def test_what_is_a_field(cache, line):
    place, record = cache
    for fields in places(line):
        head = GET % (record, fields)
        assert statuses(place, head, LAST) == [b"200"] * 2, fields
        assert statuses(place, OTHER + head + LAST) == [b"200"] * 3, fields


def test_what_is_said_of_no_field(cache):
    """The text is the server's own, and the connection ends with it."""
    assert came(cache[0], GET % (b"/paths", USER + b"\r\n: x")).endswith(b"\r\n\r\n" + REFUSED)


def test_a_field_after_a_body(cache):
    """A head that follows a body is tested, and what is within a body isn't."""
    text = b"name: it\n\n: x\r\n: y\r\n\r\n"
    add = b"POST /text HTTP/1.1\r\n%s\r\ncontent-length: %d\r\n\r\n%s" % (USER, len(text), text)
    assert statuses(cache[0], add + GET % (b"/nix-cache-info", USER + b"\r\n: x")) == [b"200", b"400"]
    assert statuses(cache[0], add[:-5], add[-5:] + LAST) == [b"200"] * 2


def parser():
    protocol = types.SimpleNamespace(reading=[], pause_reading=lambda: protocol.reading.append("paused"),
                                     resume_reading=lambda: protocol.reading.append("resumed"),
                                     data_received=lambda data: protocol.messages.extend(made.feed_data(data)[0]),
                                     messages=[], _reading_paused=False)
    made = cache_heads.Heads(http.HttpRequestParser(protocol, asyncio.get_running_loop(), 2**16), protocol)
    return made, protocol


@pytest.mark.parametrize("size", [1, 2, 3, 7, 1000])
def test_heads_in_pieces(size):
    """Each head is the one that was sent, in whatever pieces it comes, after empty lines, and with a body."""
    head = GET % (b"/x", HOST + b"\r\nA-1:  b : c \r\ncontent-length: 9")

    async def run():
        made, messages = parser()[0], []
        sent = (b"\r\n\n" + head + b": x\r\n\r\n: ") * 3
        # (an empty piece is a turn of what is held)
        for at in [*range(0, len(sent), size), len(sent), len(sent)]:
            messages += made.feed_data(sent[at : at + size])[0]
            made.is_asked = False
        return [(message.raw_headers[1:], b"".join(payload._buffer)) for message, payload in messages]

    fields = ((b"A-1", b"b : c "), (b"content-length", b"9"))
    assert asyncio.run(run()) == [(fields, b": x\r\n\r\n: ")] * 3


def bytes_of(line_end, fields, body):
    """A request with these fields, and a body if there is one."""
    length = [] if body is None else [b"content-length: %d" % len(body)]
    return line_end.join([b"GET /x HTTP/1.1", *fields, *length, b"", body or b""])


def read_by(feed, pieces):
    # (what has no body has no buffer)
    messages = [message for piece in pieces for message in feed(piece)[0]]
    return [(message.raw_headers, b"".join(getattr(payload, "_buffer", []))) for message, payload in messages]


@settings(max_examples=500, derandomize=True, **drawn.SETTINGS)
@given(draw.lists(draw.builds(bytes_of, draw.sampled_from([b"\r\n", b"\n"]), draw.lists(draw.sampled_from(FIELDS)),
                              draw.none() | draw.binary() | draw.sampled_from([*NO_FIELDS.values()]))),
       draw.lists(draw.integers(1, 50), min_size=1))
def test_requests_are_those_of_aiohttp(requests, sizes):
    """However many they are, and in whatever pieces they come."""
    sent, ends = b"".join(requests), [*itertools.accumulate(itertools.islice(itertools.cycle(sizes), 2000))]

    async def run():
        made, _ = parser()

        def feed(piece):
            messages = made.feed_data(piece)[0]
            made.is_asked = False
            return messages, False, b""

        # (an empty piece is a turn of what is held)
        pieces = [sent[begin:end] for begin, end in zip([0, *ends], ends)] + [b""] * len(requests)
        return read_by(feed, pieces), read_by(parser()[0].parser.feed_data, [sent])

    came, wanted = asyncio.run(run())
    assert came == wanted and len(came) == len(requests)


def test_nothing_follows_a_head_that_is_refused():
    async def run():
        made = parser()[0]
        with pytest.raises(BadHttpMessage):
            made.feed_data(GET % (b"/x", b": x"))
        return [made.feed_data(piece) for piece in (GET % (b"/x", HOST), b"\r\n", HOST)]

    assert asyncio.run(run()) == [([], False, b"")] * 3


def test_a_long_name():
    """A name that never ends isn't kept in memory."""
    async def run():
        made, _ = parser()
        made.feed_data(b"GET / HTTP/1.1\r\n")
        with pytest.raises(BadHttpMessage):
            for _ in range(10):
                made.feed_data(b"x" * 1000)
        return len(made.held)

    assert asyncio.run(run()) < 8_200


def test_requests_ahead_of_a_reply():
    """One request of a connection is read, and the others once it is answered. Of many few are in memory."""
    async def run():
        made, protocol = parser()
        head, seen = GET % (b"/x", HOST), []
        messages = made.feed_data(head * 3)[0]
        for _ in range(4):
            seen.append((len(messages) + len(protocol.messages), *protocol.reading))
            made.set_upgraded(False)
            await asyncio.sleep(0.01)
        made.feed_data(head * 5_000)
        return seen, protocol.reading[-1], len(protocol.messages)

    assert asyncio.run(run()) == ([(1,), (2, "resumed"), (3, "resumed", "resumed"), (3, "resumed", "resumed")],
                                  "paused", 2)


def test_many_requests_on_one_connection(cache):
    """All are answered, in their order."""
    heads = [GET % (b"/x%d" % at, USER) for at in range(400)]
    assert statuses(cache[0], b"".join(heads) + OTHER + LAST) == [b"404"] * 400 + [b"200"] * 2


@pytest.mark.parametrize("more", [b"connection: upgrade\r\nupgrade: websocket", b"connection: upgrade\r\nupgrade: h2c"])
def test_no_other_protocol_hides_a_head(cache, more):
    """What follows a request for another protocol is a request, too."""
    first = GET % (b"/nix-cache-info", USER + b"\r\n" + more)
    assert statuses(cache[0], first + GET % (b"/nix-cache-info", USER + b"\r\n: x")) == [b"200", b"400"]
