"""Sends the hostile requests of hostile_requests.txt through nginx, with either file of examples/team, and to
nixkeep-cache without it. Each has to be answered as the table says, and none may do what it tries: to set a root as
another user.

Needs what examples/team/try needs, and is skipped without it.
"""
import base64
import contextlib
import re
import socket
import ssl
import tempfile
import time
from concurrent.futures import ThreadPoolExecutor
from pathlib import Path

import pytest

import parts
from nixkeep_dev.build.program import HERE
from nixkeep_dev.testing import nar
from tests.tools.logins import BOTH, deployed
from tests.tools.team_try import TEAM

TABLE = f"{HERE}/tests/tools/hostile_requests.txt"
LAST = b"GET /last HTTP/1.1\r\n%sconnection: close\r\n\r\n"
HOST = b"host: red.localhost\r\n"
LOGIN = b"authorization: Basic %s\r\n" % base64.b64encode(b"ann:ann-secret")


def rows():
    """The rows by their lines: the statuses through nginx, those without it, and what is sent."""
    for number, line in enumerate(Path(TABLE).read_text().splitlines(), 1):
        if line and not line.startswith("#"):
            through, straight, sent = line.split(" | ", 2)
            yield number, (through.split("/"), straight.split("/"), sent)


ROWS = dict(rows())
pytestmark = pytest.mark.needs(*TEAM.TOOLS)


def bytes_of(sent, fields, path):
    """The bytes of a row. `fields` name the host and the user, `path` is that of an object."""
    given = b"path: %s\n\n" % path[11:].encode()
    root = b"POST /root/permanent/forged HTTP/1.1\r\nstore-user: build\r\ncontent-length: %d\r\n\r\n" % len(given)
    root += given
    data = sent.encode().decode("unicode_escape").encode("latin-1")
    many = b"".join(b"x-%d: y\r\n" % at for at in range(500))
    for word, value in ((b"{}", fields), (b"{root}", root), (b"{r}", b"%d" % len(root)), (b"{path}", given),
                        (b"{n}", b"%d" % len(given)), (b"{long}", b"a" * 70_000), (b"{fields}", many)):
        data = data.replace(word, value)
    return data + LAST % fields


def replies(stream):
    """The statuses of the replies that come until the connection ends."""
    text, statuses = b"", []
    with contextlib.suppress(OSError):
        while part := stream.recv(65_536):
            text += part
    while text:
        head, _, left = text.partition(b"\r\n\r\n")
        status = re.match(rb"HTTP/\d\.\d (\d{3})", head)
        if not status:
            return [*statuses, "other"]
        statuses.append(status[1].decode())
        length = re.search(rb"^content-length: *(\d+)", head, re.I | re.M)
        size = 0 if b"HEAD" in statuses or not length else int(length[1])
        is_chunked = re.search(rb"^transfer-encoding: *chunked", head, re.I | re.M)
        text = left.partition(b"0\r\n\r\n")[2] if is_chunked else left[size:]
        if length and text and not text.startswith(b"HTTP/"):
            # (the reply to HEAD has a length and no body)
            text = left
    return statuses


def replies_to(connect, data):
    with connect() as stream:
        stream.settimeout(100)
        with contextlib.suppress(OSError):
            stream.sendall(data)
        return ",".join(replies(stream)) or "close"


def answers(connect, fields, path):
    """Sends all rows at once on a few connections: what comes to each, by its line."""
    with ThreadPoolExecutor(8) as pool:
        return dict(zip(ROWS, pool.map(lambda row: replies_to(connect, bytes_of(row[2], fields, path)), ROWS.values())))


# ---- what runs


@pytest.fixture(scope="module", params=BOTH)
def site(request, program):
    with tempfile.TemporaryDirectory() as folder, deployed(program, folder, request.param) as made:
        with made.servers["red"], made.nginx:
            yield made


@pytest.fixture(scope="module")
def path(site):
    """The path of an object."""
    return site.user("ann").add("target", b"x")


@pytest.fixture(scope="module")
def by_nginx(site, path):
    """What comes to all rows through nginx, and the roots and the objects of the store afterwards."""
    tls = ssl.create_default_context(cafile=f"{site.etc}/tls/ca.pem")

    def connect():
        plain = socket.create_connection(("127.0.0.1", site.port))
        return tls.wrap_socket(plain, server_hostname="red.localhost", suppress_ragged_eofs=True)

    came, build = answers(connect, HOST + LOGIN, path), site.user("build")
    return came, build("GET", "/roots"), sorted(base.rpartition("-")[2] for base in build.listed())


@pytest.fixture(scope="module")
def by_cache(site, path, by_nginx):
    """What comes to all rows from nixkeep-cache, after those through nginx."""
    def connect():
        connected = socket.socket(socket.AF_UNIX)
        connected.connect(site.servers["red"].place)
        return connected

    return answers(connect, HOST + b"store-user: ann\r\n", path)


# ---- what comes


def test_there_are_rows():
    assert len(ROWS) >= 200


# What differs where a program knows the users, by what a row has: the one team's name is the only one, and the program
# may take any kind of login.
BY_PROGRAM = {"https://green.localhost": ["close"], "Bearer ": ["200,404", "401,404"]}


@pytest.mark.parametrize("line", ROWS)
def test_through_nginx(line, site, by_nginx):
    wanted, _, sent = ROWS[line]
    differs = [other for key, other in BY_PROGRAM.items() if site.by_program and key in sent]
    assert by_nginx[0][line] in (differs or [wanted])[0], sent


def test_no_root_was_forged(by_nginx):
    _, (status, roots), _ = by_nginx
    assert status == 200 and b"forged" not in roots


def test_nothing_was_added_but_what_rows_add(by_nginx):
    assert by_nginx[2] == ["chunk", "target"]


@pytest.mark.parametrize("line", ROWS)
def test_to_the_cache(line, by_cache):
    _, wanted, sent = ROWS[line]
    assert by_cache[line] in wanted, sent


def test_a_forged_group_opens_nothing_that_is_kept(site, path):
    """This comes before other requests of the stranger, since nginx keeps for a minute who was denied."""
    ann, eve, record = site.user("ann"), site.user("eve"), f"/{path[11:43]}.narinfo"
    assert [ann("GET", record)[0] for _ in range(2)] == [200] * 2, "nginx keeps it"
    assert eve("GET", record, None, "-H", "store-group: builders") == (403, b"denied: connect\n")


# Conditions by which a stranger could learn of what nginx keeps, or get it.
CONDITIONS = ["if-none-match: *", "if-none-match: %s", 'if-match: "none"', "range: bytes=0-0", "range: bytes=99999-",
              "if-unmodified-since: Mon, 01 Jan 1990 00:00:00 GMT",
              "if-modified-since: Mon, 01 Jan 2035 00:00:00 GMT",
              "cache-control: only-if-cached", "accept-encoding: zstd", "user-agent: Nix/2.3",
              "connection: authorization"]


@pytest.mark.parametrize("what", ["an archive", "a record"])
def test_a_stranger_gets_nothing_that_nginx_keeps(what, site, path):
    ann, eve = site.user("ann"), site.user("eve")
    archive = ann.archive(path)
    target = archive if what == "an archive" else f"/{path[11:43]}.narinfo"
    assert [ann("GET", target)[0] for _ in range(2)] == [200] * 2, "nginx keeps it"
    tag = f'"{archive.split("/")[2]}"'
    for method in CONDITIONS:
        assert eve("GET", target, None, "-H", method.replace("%s", tag)) == (403, b"denied: connect\n"), method
    for method in ("POST", "PUT", "DELETE", "PURGE", "PROPFIND"):
        assert eve(method, target, b"")[0] == 403, method


# What a stranger may send, each with a target that is much longer than a line of the log may be.
STRANGERS = {
    "health beyond its limit": ((None, None), "GET", "/health?{}", []),
    "health as another user": (("ann", "wrong"), "GET", "/health", []),
    "health as a long name": (("x" * 3000, "wrong"), "GET", "/health", []),
    "a link of another site": (("ann", "wrong"), "GET", "/{}", ["-H", "sec-fetch-site: cross-site"]),
    "a link that is fetched ahead": (("ann", "wrong"), "GET", "/{}",
                                     ["-H", "sec-fetch-site: none", "-H", "sec-purpose: prefetch;prerender"]),
    "a body beyond its limit": (("ann", "wrong"), "POST", "/{}", ["-H", "content-length: 99999999"]),
    "another site's request": (("ann", "wrong"), "POST", "/{}", ["-H", "origin: https://evil.example"]),
    "a certificate of nobody, with a long subject": ((None, "long"), "GET", "/{}", []),
    "a certificate of nobody, and a password": ((None, "long"), "GET", "/{}", ["-u", "ann:wrong"]),
}


@pytest.fixture
def logs(site):
    """How many bytes are in nginx's logs."""
    return lambda: sum(file.stat().st_size for file in [*Path(f"{site.folder}/log").iterdir(),
                                                        Path(f"{site.folder}/nginx.log")])


@pytest.mark.parametrize("what", STRANGERS)
def test_what_a_stranger_sends_fills_no_disk(what, site, logs):
    """It is no line, neither of the log of requests nor of that of errors."""
    (name, secret), method, target, more = STRANGERS[what]
    if site.by_program and secret == "long" and more:
        # (there is no certificate there, and a login that failed has its line)
        return
    if secret == "long":
        subject = "/O=red/CN=ann" + "".join(f"/OU={at:060}" for at in range(100))
        TEAM.run("openssl", "req", "-x509", "-newkey", "rsa:2048", "-nodes", "-days", "1", "-subj", subject,
                 "-keyout", f"{site.etc}/tls/long.key", "-out", f"{site.etc}/tls/long.pem")
        user = site.user(None, certificate="long")
    else:
        user = site.user(name, password=secret)
    before = logs()
    for _ in range(20):
        assert user(method, target.format("x" * 3000), b"" if method == "POST" else None, *more)[0] in (
            200, 400, 401, 403, 404, 413, 429)
    # (a line is written after its reply)
    site.user("ann")("GET", "/nix-cache-info")
    parts.until("the line of a user", lambda: logs() > before)
    assert logs() - before < 1000


def test_names_of_no_team_fill_no_disk(site, logs):
    """Within a connection to a team such a name has no answer, and no line either. (Debian's nginx has a log for all
    servers that name no other.)"""
    before, eve = logs(), site.user(None)
    for _ in range(20):
        assert eve("GET", f"/{'x' * 3000}", None, "-H", "host: evil.example", "-A", "x" * 3000)[0] == 0
    site.user("ann")("GET", "/nix-cache-info")
    parts.until("the line of a user", lambda: logs() > before)
    assert logs() - before < 1000


# What is wrong with the first bytes of a client of TLS: bytes of them, and what comes in their place.
HANDSHAKES = {"an extension of another length": (b"\0\x17\0\0", b"\0\x17\0\1"),
              "no algorithms of signatures": (b"\0\x0d\0", b"\x12\x34\0")}


@pytest.mark.parametrize("what", HANDSHAKES)
def test_broken_handshakes_fill_no_disk(what, site, logs):
    """To nginx 1.22 some of them are critical."""
    sent, before = ssl.MemoryBIO(), logs()
    client = ssl.create_default_context().wrap_bio(ssl.MemoryBIO(), sent, server_hostname="red.localhost")
    with contextlib.suppress(ssl.SSLWantReadError):
        client.do_handshake()
    old, new = HANDSHAKES[what]
    assert old in (hello := sent.read())
    for _ in range(20):
        with socket.create_connection(("127.0.0.1", site.port)) as plain:
            plain.sendall(hello.replace(old, new, 1))
            assert plain.recv(100)[:1] == b"\x15", "the alert that ends it"
    site.user("ann")("GET", "/nix-cache-info")
    parts.until("the line of a user", lambda: logs() > before)
    assert logs() - before < 1000


def test_a_wrong_password_is_a_short_line(site, logs):
    before = logs()
    assert site.user("ann", password="wrong")("GET", f"/{'x' * 3000}")[0] == 401
    parts.until("its line", lambda: logs() > before)
    assert logs() - before < 1000


def test_no_reply_names_a_version(site):
    """Neither that of nginx nor what nixkeep-cache runs on, whoever answers, and by whatever refusal."""
    ann, eve, nobody = site.user("ann"), site.user("eve"), site.user(None)
    replies = [ann("GET", "/who", None, "-i"), ann("GET", "/x", None, "-i"), eve("GET", "/who", None, "-i"),
               nobody("GET", "/who", None, "-i"), nobody("GET", "/health", None, "-i"),
               nobody("POST", "/health", b"x", "-i"), ann("POST", "/x", bytes(21_000_000), "-i"),
               ann("POST", "/x", b"", "-i", "-H", "origin: https://evil.example"),
               ann("GET", "/x", None, "-i", "-H", f"x: {'x' * 40_000}"),
               parts.curl("-i", f"http://127.0.0.1:{site.port}/"), parts.curl("-i", *nobody.words, f"{nobody.url}/%zz")]
    assert [reply[0] for reply in replies] == [200, 404, 403, 401, 200, 403, 413, 403, 400, 400, 400]
    for status, text in replies:
        assert not re.search(rb"nginx/|aiohttp|Python", text, re.I), (status, text)


@pytest.mark.parametrize("name", ["ann", "nobody", "prometheus"])
def test_a_failed_login_takes_as_long_for_each_name(name, site):
    """A password is tested only where there is such a user, which takes time. So each 401 comes equally late."""
    wrong, spent = site.user(name, password="wrong"), []
    for _ in range(3):
        status, text = wrong("GET", "/who", None, "-o", "/dev/null", "-w", "%{time_starttransfer}\n%{http_code}")
        spent.append(float(text))
        assert status == 401
    assert min(spent) >= 0.2


@pytest.fixture(scope="module")
def large(site):
    """The targets of an archive of 100 MB, by which it is sent as it is."""
    archive = nar.archive(bytes(100_000_000))
    path, digest = f"/nix/store/{'6' * 32}-large", nar.nar_hash(archive)
    given = parts.body(("path", path), ("nar-hash", digest), payload=archive)
    assert site.user("build")("POST", "/import", given)[0] == 200
    return f"/nar/{path[11:]}", f"/large/{digest.removeprefix('sha256:')}/none/{path[11:]}"


def sent(site):
    """The bytes of large archives that nixkeep-cache has sent."""
    page = site.user("prometheus")("GET", "/metrics")[1]
    return float(re.search(rb"^nixkeep_blobs_sent_bytes_total (\S+)$", page, re.M)[1])


@pytest.mark.needs("python3-prometheus_client")
@pytest.mark.parametrize("at", [0, 1], ids=["by the store's own request", "as Nix asks"])
def test_slow_readers_of_large_archives_fill_no_disk(at, site, large):
    """nginx keeps nothing of a large archive for a reader that takes nothing of it."""
    before, tls = sent(site), ssl.create_default_context(cafile=f"{site.etc}/tls/ca.pem")
    with socket.create_connection(("127.0.0.1", site.port)) as plain:
        reader = tls.wrap_socket(plain, server_hostname="red.localhost")
        reader.sendall(b"GET %s HTTP/1.1\r\n%s\r\n" % (large[at].encode(), HOST + LOGIN))
        assert reader.recv(12) == b"HTTP/1.1 200"
        parts.until("the first bytes", lambda: sent(site) > before)
        now, last = sent(site), before
        while now > last:
            time.sleep(0.5)
            now, last = sent(site), now
        assert now - before < 40_000_000
        reader.close()


def test_no_request_has_harmed_the_server(site, by_nginx, by_cache):
    assert site.servers["red"].lines() == []
