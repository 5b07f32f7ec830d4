"""Gives a server heads as large as they may be, and larger, each in two pieces, cut at every place.

The cases of tests/cases/http.txt give these heads whole, byte by byte, and cut at 16 places. Here a server of its own
gets each, cut after each byte; the second piece comes only when the first was read. What comes back has to be, byte for
byte, what comes for the whole. With --count N, each head is cut at N places, chosen by the seed.
"""
import functools
import os
from concurrent.futures import ProcessPoolExecutor

import pytest

from nixkeep_dev.testing import pieces, report

REFUSED = (b"HTTP/1.1 400 Bad Request\r\ncontent-type: text/plain\r\nconnection: close\r\ncontent-length: 21\r\n\r\n"
           b"refused: 36 bad-head\n")
LISTED = b"HTTP/1.1 200 OK\r\ncontent-type: text/plain\r\ncontent-length: 0\r\n\r\n"
START = b"GET /paths HTTP/1.1\r\nstore-user: ann\r\n"


def head(size, fields):
    """A head of this size in bytes, with this number of fields."""
    front = START + b"a:\r\n" * (fields - 2)
    return front + b"b:" + b"0" * (size - len(front) - 6) + b"\r\n\r\n"


def heads():
    yield "16,384 bytes and 64 fields", head(16_384, 64), LISTED
    yield "16,385 bytes", head(16_385, 64), REFUSED
    yield "65 fields", head(16_384, 65), REFUSED
    yield "16,384 bytes of one field without an end", (START + b"a: ").ljust(16_384, b"0"), REFUSED
    yield "16,384 bytes, all but a request line empty lines", b"\n" * (16_382 - len(START)) + START + b"\r\n", LISTED


def came(program, given, at):
    return pieces.run([program, "serve"], [given[:at], given[at:]])


@pytest.mark.parametrize("name, given, wanted", [pytest.param(*case, id=case[0]) for case in heads()])
def test_each_cut(program, some, name, given, wanted):
    places = some(len(given) - 1, name)
    with ProcessPoolExecutor(len(os.sched_getaffinity(0))) as pool:
        for at, result in zip(places, pool.map(functools.partial(came, program, given), places, chunksize=16)):
            report.same(f"{name}, cut after byte {at}", result, (wanted, 0))
