"""Tests nixkeep-remote through proxies: credentials, certificates, Unix sockets, and what a proxy answers itself."""
import os
import re

import pytest

from nixkeep_dev.testing import report
from nixkeep_tools import credentials, http_place
from tests.tools import servers, shim
from tests.tools.remote import ALLOWED, certificate, fails, file_of, trusted


def test_proxies_netrc(folder, monkeypatch):
    """The credentials that ~/.netrc has for a host go there by https, and never in the clear."""
    user = lambda url: credentials.of_place(http_place.Place(url))
    file_of(folder, ".netrc", "machine store.example login bob password b\n")
    monkeypatch.setenv("HOME", folder)
    monkeypatch.setenv(credentials.VARIABLE, "")
    assert user("https://store.example").user == "bob"
    assert user("http://store.example") is None


@pytest.fixture
def tls(port, folder):
    """A proxy with TLS: its URL, and the file of its certificate."""
    report.skip_without("openssl")
    pair = certificate(folder)
    users = {"ann": "secret:word", "bob": "b"}
    with servers.proxy(port, certificate=pair, users=users, tokens={"t0ken": "carl"}, prefix="/team") as made:
        yield servers.url(made, "https"), pair[0]


def test_proxies_credentials(tls, client, folder):
    at, ca = tls
    fails(client(at, "list"), r"failed: certificate: https://\S+: self[- ]signed certificate")
    fails(client(at, "--ca", ca, "list"), r"failed: proxy: \S+: 401 Unauthorized; it wants credentials")
    for name, where in trusted(folder, ca).items():
        came = client(at, "who", NIXKEEP_CREDENTIALS="bob:b", **where)
        assert came == ALLOWED, f"a certificate that the system trusts, by a {name}"
    named = file_of(folder, "credentials", "ann:secret:word\n")
    own = ["--ca", ca, "--credentials", named]
    path = client(at, *own, "add-text", "of-ann", given=b"x")[1].decode().strip()
    assert path.endswith("-of-ann"), ("an add through the proxy", path)
    assert client(at, *own, "root", "mine", path) == (0, b"done\n", b""), "a root of the user whom the credentials name"
    assert client(f"{at}/team/", *own, "roots") == (0, f"gcroots/per-user/ann/mine {path}\n".encode(), b""), "it"
    assert client(at, "--ca", ca, "who", NIXKEEP_CREDENTIALS="bob:b") == ALLOWED, "of the environment"
    token = {"NIXKEEP_CREDENTIALS": "Bearer t0ken", "NIXKEEP_CA": ca, "NIXKEEP_SERVER": at}
    assert client(None, "who", **token) == ALLOWED, "a token, and all else of the environment"
    assert client(None, "--me", "carl", "profile", "set", "p", path, **token) == (0, b"generation 1\n", b""), (
        "a name next to a token")
    assert client(None, "--me", "ann", "profile", "set", "p", path, **token) == (4, b"", b"denied: own-root\n"), (
        "another's name")


def test_proxies_credentials_that_are_refused(tls, client, folder):
    at, ca = tls
    named = file_of(folder, "credentials", "ann:secret:word\n")
    own = ["--ca", ca, "--credentials", named]
    path = client(at, *own, "add-text", "of-ann", given=b"x")[1].decode().strip()
    fails(client(at, "--ca", ca, "list", NIXKEEP_CREDENTIALS="ann:no"),
          r"failed: proxy: \S+: 401 Unauthorized; it doesn't accept the credentials of NIXKEEP_CREDENTIALS")
    file_of(folder, ".netrc", "machine 127.0.0.1 login bob password b\n")
    assert client(at, "--ca", ca, "root", "mine", path)[0] == 0, "credentials of ~/.netrc"
    os.chmod(f"{folder}/.netrc", 0o644)
    fails(client(at, "--ca", ca, "list"), r"failed: credentials: \S+/\.netrc: .*")
    os.remove(f"{folder}/.netrc")
    if os.geteuid() == 0:
        os.chown(named, 4321, 4321)
        fails(client(at, *own, "list"), r"failed: credentials: \S+: it belongs to another user")
        os.chown(named, 0, 0)
    os.chmod(named, 0o640)
    fails(client(at, *own, "list"), r"failed: credentials: \S+: others may read it; run chmod 600 on it")
    fails(client(at, "--ca", f"{folder}/none", "list"), r"failed: certificate: \S+/none: No such file or directory")


def test_proxies_https_where_http_is_spoken(port, client):
    with servers.proxy(port) as made:
        at = servers.url(made).replace("http", "https")
        fails(client(at, "list"), r"failed: unreachable: \S+: TLS: .*")


def test_proxies_on_a_unix_socket(port, client, folder):
    at = f"unix:{folder}/socket"
    with servers.proxy(port, path=f"{folder}/socket"):
        assert client(at, "who") == ALLOWED
    fails(client(at, "who"), r"failed: unreachable: unix:\S+: Connection refused")
    fails(client(f"unix:{folder}/none", "who"), r"failed: unreachable: unix:\S+: No such file or directory")


def test_proxies_that_are_not_there(client):
    fails(client(f"http://127.0.0.1:{shim.free_port()}", "list"),
          r"failed: unreachable: http://127\.0\.0\.1:\d+: Connection refused")
    fails(client("http://nobody.invalid", "list"), r"failed: unreachable: http://nobody\.invalid: .+")
    fails(client(None, "list"), r"failed: server: none is named; .*")


@pytest.mark.parametrize("server", ["ftp://a", "http:/a", "http://", "https://a?b", "unix:relative", "http://u:p@a",
                                    "http://a:b", "a", "http://a:65536", "http://\xe9..a", "http://a/\xe9"])
def test_proxies_that_are_no_server(server, client):
    fails(client(server, "list"), r"failed: server: .* is meant")


def test_proxies_and_passwords(client):
    """None is repeated, or sent in the clear."""
    fails(client("https://ann:secret@a", "list"), r"failed: server: https://a: .* is meant")
    fails(client("http://192.0.2.1", "list", NIXKEEP_CREDENTIALS="a:b"),
          r"failed: credentials: http://192\.0\.2\.1: .* use https")
    fails(client("unix:/none", "list", NIXKEEP_CREDENTIALS="ann"), r"failed: credentials: NIXKEEP_CREDENTIALS: .*")


TOO_LARGE = r"; it takes no body of \d+ bytes, and has to take 20971520"
# Pages of a proxy, and why each is none of the server.
PAGES = {
    "502 Bad Gateway": ((502, b"<html>"), "; the server behind it doesn't answer"),
    "413 Request Entity Too Large": ((413, b"<html>"), TOO_LARGE),
    "403 Forbidden": ((403, b"denied by the proxy\n"), ""),
    "404 Not Found": ((404, b"<html>nothing</html>"), ""),
    "302 Found": ((302, b"", "text/html"), "; it points to nowhere"),
    "200 OK": ((200, b"<html>log in</html>"), "; a reply of type text/html isn't nixkeep's"),
    "500 Internal Server Error": ((500, b"oh"), ""),
    "429 Too Many Requests": ((429, b"<html>"), "; it takes no more requests for now: try again"),
    "503 Service Unavailable": ((503, b"busy"), "; the server behind it doesn't answer"),
}


@pytest.mark.parametrize("name", PAGES)
def test_proxies_that_answer_themselves(name, port, client):
    page, why = PAGES[name]
    with servers.proxy(port, page=page) as made:
        fails(client(servers.url(made), "add-text", "n", given=b"x"), rf"failed: proxy: http://\S+: {name}{why}")


def test_proxies_that_pass_nothing_on(port, client):
    with servers.proxy(shim.free_port()) as made:
        fails(client(servers.url(made), "list"),
              r"failed: proxy: \S+: 502 Bad Gateway; the server behind it doesn't answer")
    with servers.proxy(port, most=1_000_000) as made:
        came = client(servers.url(made), "add-text", "n", given=bytes(8_000_000))
        fails(came, rf"failed: proxy: \S+: 413 .*{TOO_LARGE}")
    with servers.proxy(port, cut=20) as made:
        status, output, errors = client(servers.url(made), "list")
        assert (status, len(output)) == (1, 20)
        assert re.fullmatch(rb"failed: unreachable: .* before the end of the answer\n", errors), errors
