"""What strangers take of nginx, as examples/team sets it up: the room for its limits, and the time to test passwords.

nginx alone runs, with lower limits and less room than the file has, so a request that passes it is answered 502. Needs
what examples/team/try needs, and is skipped without it.
"""
import base64
import contextlib
import http.client
import json
import socket
import ssl
import tempfile
from pathlib import Path

import pytest

import parts
from tests.tools.logins import BOTH, deployed
from tests.tools.team_try import TEAM

pytestmark = pytest.mark.needs(*TEAM.TOOLS)
PASSED = 502


@pytest.fixture(scope="module", params=BOTH)
def site(request, program):
    with tempfile.TemporaryDirectory() as folder, deployed(program, folder, request.param) as made:
        yield made


@contextlib.contextmanager
def nginx(site, *changes):
    """nginx, with texts of its files replaced by others."""
    files = [Path(site.folder, "nginx.conf"), *Path(site.folder, "snippets").iterdir()]
    before = {file: file.read_text() for file in files}
    changes = [("/red.socket;", "/nobody.socket;"), *changes]
    assert [old for old, _ in changes if not any(old in value for value in before.values())] == []
    for file, text in before.items():
        for old, new in changes:
            text = text.replace(old, new)
        file.write_text(text)
    try:
        with site.nginx:
            yield
    finally:
        for file, text in before.items():
            file.write_text(text)


def statuses(site, target, logins):
    """What comes to a request for each of these logins, on one connection."""
    tls, name = ssl.create_default_context(cafile=f"{site.etc}/tls/ca.pem"), "red.localhost"
    connection = http.client.HTTPConnection(name)
    plain = socket.create_connection(("127.0.0.1", site.port))
    connection.sock = tls.wrap_socket(plain, server_hostname=name)
    with contextlib.closing(connection):
        for login in logins:
            field = f"Basic {base64.b64encode(login.encode()).decode()}"
            connection.request("GET", target, headers={"authorization": field})
            with connection.getresponse() as reply:
                reply.read()
                yield reply.status


def test_names_that_strangers_give_keep_nobody_from_dear_questions(site):
    """Of the questions over all of a store nginx counts those of each user. A stranger gives many long names, so that
    the room for that is full: then it is made for others, however long their names are."""
    with nginx(site, ("zone=nixkeep_dear:10m", "zone=nixkeep_dear:32k"), ("auth_delay           200ms;", "")):
        names = [f"{at:0100}:wrong" for at in range(150)] + [f"{at}:wrong" for at in range(50)]
        assert [*statuses(site, "/paths", names)] == [401] * 200
        assert [site.user(name)("GET", "/paths")[0] for name in ("ann", "bob")] == [PASSED] * 2


def test_dear_questions_have_a_limit(site):
    """What takes long to answer is asked no faster than a limit. Anything else has none of this limit."""
    dear = ["/paths", "/roots", "/roots-of/x", "/live", "/dead", "/report", "/overview", "/overview?why=x",
            "/overview/day", "/metrics", "/pointers"]
    with nginx(site, ("rate=5r/s", "rate=1r/m"), ("burst=100 delay=20", "burst=1 nodelay")):
        ann = site.user("ann")
        assert [ann("GET", "/paths")[0] for _ in range(3)] == [PASSED, PASSED, 429]
        assert {target: ann("GET", target)[0] for target in dear} == dict.fromkeys(dear, 429)
        assert ann("GET", "/who")[0] == PASSED


def test_passwords_are_tested_no_faster_than_a_limit(site):
    """One address has few requests with a password, right or wrong. Others have none of this limit."""
    with nginx(site, ("rate=200r/s", "rate=1r/m"), ("burst=600 delay=500", "burst=2 nodelay")):
        wrong = site.user("ann", password="wrong")
        assert [wrong("GET", "/x")[0] for _ in range(5)] == [401, 401, 401, 429, 429]
        assert site.user("ann")("GET", "/x")[0] == 429
        assert [site.user(None)("GET", "/x")[0] for _ in range(5)] == [401] * 5
        if site.by_program:
            # (there no certificate is asked for)
            return
        carol = site.user("carol", certificate="carol")
        assert [carol("GET", "/x", None, "-u", "ann:wrong")[0] for _ in range(5)] == [PASSED] * 5
        dan = site.user("dan", certificate="dan")
        assert dan("GET", "/x", None, "-u", "ann:ann-secret")[0] == 429, "a certificate of another team is none"


def test_links_of_other_sites_try_few_passwords(site):
    """A page of another site has its visitor's browser try passwords, also ahead of a click. No line counts them, by
    which fail2ban would ban the visitor's address, so nginx tests few of them. A guess that has no such field, or
    another, has its line."""
    log = Path(f"{site.folder}/log/nixkeep.log")
    with nginx(site, ("zone=nixkeep_links burst=20", "zone=nixkeep_links burst=2")):
        wrong, before = site.user("ann", password="wrong"), log.stat().st_size
        guess = lambda where: wrong("GET", "/x", None, *(["-H", f"sec-fetch-site: {where}"] if where else []))[0]
        sites = ["cross-site", "same-site", "x", "none, cross-site", "None"]
        assert [guess(where) for where in sites] == [401, 401, 401, 429, 429]
        assert [guess(where) for where in ("", "none", "same-origin")] == [401] * 3
        ahead = "-H", "sec-fetch-site: none", "-H", "sec-purpose: prefetch"
        assert wrong("GET", "/x", None, *ahead)[0] == 429, "what a page has fetched ahead comes from no page"
        assert site.user("ann")("GET", "/x", None, "-H", "sec-fetch-site: none")[0] == PASSED
        assert site.user("ann")("GET", "/x", None, "-H", "sec-fetch-site: cross-site")[0] == 429
        assert log.read_bytes()[before:].count(b'"login":"failed"') == 3


# Networks as the log and fail2ban have them, each with four addresses of it as nginx writes them.
NETWORKS = {
    "2001:db8:1:2::": ["2001:db8:1:2::1", "2001:db8:1:2:3:4:5:6", "2001:db8:1:2:ffff::", "2001:db8:1:2:0:1:0:1"],
    "2001:db8::": ["2001:db8::1", "2001:db8::7:8:9:a", "2001:db8::", "2001:db8::1:0:0:1"],
    "2001:db8:1:3::": ["2001:db8:1:3::1"] * 4,
    "2001:0:0:5::": ["2001::5:1:2:3:4", "2001:0:0:5::1", "2001::5:0:0:1:1", "2001::5:1:0:0:0"],
    "2001:0:0:6::": ["2001::6:1:2:3:4"] * 4,
    "2001::": ["2001::1:2:3:4", "2001::1", "2001::", "2001:0:0:0:1::1"],
    "192.0.2.1": ["192.0.2.1"] * 4,
    "::ffff:192.0.2.7": ["::ffff:192.0.2.7"] * 4,
}


def test_a_network_of_ipv6_is_one_address(site):
    """A client by IPv6 has 2^64 addresses, and no more passwords than another one. fail2ban blocks all of them."""
    log = Path(f"{site.folder}/log/nixkeep.log")
    seen = "limit_conn_status    429;", "limit_conn_status 429;\nset_real_ip_from 127.0.0.1;\nreal_ip_header x-seen;"
    with nginx(site, seen, ("rate=200r/s", "rate=1r/m"), ("burst=600 delay=500", "burst=2 nodelay")):
        wrong, before = site.user("ann", password="wrong"), log.stat().st_size
        for one in NETWORKS.values():
            assert [wrong("GET", "/x", None, "-H", f"x-seen: {address}")[0]
                    for address in one] == [401, 401, 401, 429], one
        parts.until("the lines", lambda: log.read_bytes()[before:].count(b"\n") == 3 * len(NETWORKS))
        lines = map(json.loads, log.read_bytes()[before:].splitlines())
        assert [line["network"] for line in lines] == [network for network in NETWORKS for _ in range(3)]
        others = ["192.0.2.2", "::ffff:192.0.2.8", "2001:db8:1:4::1", "2001:db9::1"]
        assert [wrong("GET", "/x", None, "-H", f"x-seen: {address}")[0] for address in others] == [401] * 4
