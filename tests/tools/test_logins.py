"""Tests of nginx with auth-request.conf, and a stand-in for the program that knows the users: who a login is to the
store, what forged fields come to, what other sites' pages may do, what the log has, and large archives."""
import json
import re
from pathlib import Path

import pytest

import parts
from nixkeep_dev.testing import nar
from tests.tools.logins import SOCKET, deployed
from tests.tools.team_try import TEAM

pytestmark = pytest.mark.needs(*TEAM.TOOLS)
ALLOWED = (200, b"class: allowed\nconnect: yes\n")
NOBODY = (400, b"refused: 20 bad-caller\n")


@pytest.fixture(scope="module")
def site(program, shared_folder):
    with deployed(program, shared_folder, "auth-request.conf") as made, made.servers["red"], made.nginx:
        yield made


def who(user, *more):
    return user("GET", "/who", None, *more)


@pytest.mark.parametrize("name, wanted", [("domain", ALLOWED), ("bob", ALLOWED), ("foreign", NOBODY), ("odd", NOBODY),
                                          ("nameless", NOBODY)],
                         ids=["of the team's domain", "without a domain", "of another domain", "not plain", "no name"])
def test_who_a_login_is(name, wanted, site):
    assert who(site.user(name)) == wanted


@pytest.mark.parametrize("words", [{"password": "wrong"}, {"certificate": "carol"}],
                         ids=["a wrong password", "no login"])
def test_no_login(words, site):
    assert who(site.user("ann", **words))[0] == 401


@pytest.mark.parametrize("field", ["store-user: build", "x-auth-request-user: build", "store_user: build"])
def test_a_forged_field(field, site):
    assert who(site.user("ann"), "-H", field) == ALLOWED
    assert who(site.user(None), "-H", field)[0] == 401


def test_nginx_asks_by_sockets_alone():
    """On a port of this machine any account could be the program, or a store, while that doesn't run."""
    text = Path(f"{parts.HERE}/auth-request.conf").read_text()
    assert re.findall(r"\bserver +(\S+);", text) == ["unix:/run/nixkeep/red.socket", SOCKET]


@pytest.mark.parametrize("target", ["/who", "/oauth2/start"])
def test_the_program_gets_what_nginx_has_seen(target, site):
    """It may let in requests by their address, method or target, so a client can't say these itself."""
    del site.requests[:]
    words = ["x-real-ip: 10.0.0.1", "x-forwarded-for: 10.0.0.1", "x-forwarded-uri: /health",
             "x-forwarded-proto: gopher", "x-forwarded-host: evil.example", "forwarded: for=10.0.0.1",
             "x-original-uri: /health", "x-original-url: https://evil.example/health", "x-original-method: OPTIONS",
             "x-forwarded-method: OPTIONS", "cookie: a=b"]
    site.user("ann")("GET", target, None, *[option for word in words for option in ("-H", word)])
    (_, _, fields), = site.requests
    name = f"red.localhost:{site.port}"
    assert {key: value for key, value in fields.items() if key.startswith("x-")} == {
        "x-real-ip": "127.0.0.1", "x-forwarded-for": "127.0.0.1", "x-forwarded-uri": target,
        "x-forwarded-proto": "https", "x-forwarded-host": name, "x-forwarded-method": "GET",
        "x-original-uri": target, "x-original-url": f"https://{name}{target}", "x-original-method": "GET"}
    assert fields["host"] == name and "forwarded" not in fields and fields["cookie"] == "a=b"


def test_the_program_gets_no_field_of_the_client_but_logins(site):
    """Some programs take from fields of a request which server of LDAP they ask, so a client could name its own. The
    page where a browser signs in gets all fields."""
    del site.requests[:]
    words = ["x-ldap-url: ldap://evil.example", "x-cookiename: x", "x-forwarded-groups: builders", "user-agent: x",
             "x-auth-request-user: build", "cookie: a=b", "cookie: c=d", "range: bytes=0-0", "content-type: x"]
    given = [option for word in words for option in ("-H", word)]
    assert who(site.user("ann"), *given) == ALLOWED
    (_, _, fields), = site.requests
    assert {key for key in fields if not key.startswith(("x-forwarded-", "x-original-"))} == {
        "host", "connection", "cookie", "authorization", "x-real-ip"}
    assert fields["cookie"] in ("a=b; c=d", "a=b") and "x-forwarded-groups" not in fields


def test_other_sites(site):
    """What changes something comes from a page of the store's own, or from none."""
    ann, own = site.user("ann"), f"https://red.localhost:{site.port}"
    path = ann.add("of-a-page", b"x")
    for field in ("origin: https://evil.example", "origin: null", "sec-fetch-site: cross-site",
                  "sec-fetch-site: same-site"):
        for target in ("/collect", "/oauth2/sign_in"):
            assert ann("POST", target, b"", "-H", field) == (403, b"denied: other-site\n"), field
    assert path in ann.listed()
    assert ann("DELETE", "/root/user/ann/none", None, "-H", f"origin: {own}")[1] == b"refused: 27 no-root\n"
    assert ann("POST", "/oauth2/sign_in", b"x", "-H", f"origin: {own}") == (401, b"a page\n")


def test_long_cookies(site):
    """Those of a browser that has signed in: the program gives and gets them."""
    status, head = site.user(None)("GET", "/oauth2/callback", None, "-i")
    assert status == 302 and f"session={'x' * 8000}".encode() in head
    del site.requests[:]
    cookie = f"session={'x' * 20_000}"
    assert who(site.user("ann"), "-H", f"cookie: {cookie}") == ALLOWED
    assert site.requests[0][2]["cookie"] == cookie


def test_health_needs_no_login(site):
    assert site.user(None)("GET", "/health")[0] == 200
    assert site.user(None)("GET", "/metrics")[0] == 401


def test_names_of_no_team_get_no_answer(site):
    assert site.user("ann")("GET", "/who", None, "-H", "host: elsewhere.example")[0] == 0


def test_what_is_logged(site):
    """The user that was used, and each login that failed; neither strangers nor long targets."""
    file = Path(f"{site.folder}/log/nixkeep.log")
    size = file.stat().st_size
    site.user("ann", password="wrong")("GET", "/who")
    for more in (("-H", "store-user: build"), ("-H", "x-auth-request-user: build")):
        site.user(None)("GET", "/who", None, *more)
    site.user("foreign")("GET", "/" + "x" * 3000)
    site.user("nameless")("GET", "/who")
    site.user(None)("GET", "/oauth2/start")
    site.user(None)("POST", "/oauth2/sign_in", b"username=ann&password=wrong")
    site.user("ann")("GET", "/" + "x" * 3000)
    parts.until("three lines", lambda: file.read_bytes()[size:].count(b"\n") >= 3)
    lines = [json.loads(line) for line in file.read_bytes()[size:].splitlines()]
    assert [(line["status"], line["login"], line["user"], line["target"]) for line in lines] == [
        (401, "failed", "", "/who"), (401, "failed", "", "/oauth2/sign_in"), (404, "", "ann", "/" + "x" * 299)]


def test_what_one_user_reads_is_no_other_users(site):
    """Nothing is kept for others: who may not connect gets neither a record nor an archive that another user has
    read."""
    path = site.user("ann").add("kept", b"for ann\n")
    targets = [site.user("ann").archive(path), f"/{path[11:43]}.narinfo"]
    for target in targets:
        assert [site.user("ann")("GET", target)[0] for _ in range(2)] == [200] * 2
        assert site.user("eve")("GET", target) == (403, b"denied: connect\n")
        assert site.user(None)("GET", target)[0] == 401


def test_large_archives_pass(site):
    """An upload above the limit for bodies, and its archive."""
    archive = nar.archive(bytes(22_000_000))
    path, digest = f"/nix/store/{'7' * 32}-large", nar.nar_hash(archive)
    given = parts.body(("path", path), ("nar-hash", digest), payload=archive)
    assert site.user("build")("POST", "/import", given)[0] == 200
    assert site.user("ann")("GET", f"/nar/{path[11:]}")[1] == archive
    assert site.user("foreign")("GET", f"/nar/{path[11:]}") == NOBODY
    assert site.user("ann")("POST", "/text", bytes(21_000_000))[0] == 413
