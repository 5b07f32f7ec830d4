"""What `try` tests of a store's entry: TLS, health without a login, figures for who may have them, the record of
changes."""
import base64
import contextlib
import re
import shlex
import socket
import ssl
import subprocess
import threading
import time
from collections.abc import Iterator
from concurrent.futures import ThreadPoolExecutor
from pathlib import Path
from typing import Any

import by_nix
import parts
from parts import body, check, same


def connected(site: Any, name: str = "red.localhost") -> ssl.SSLSocket:
    """A connection to nginx by TLS. Nginx waits ten seconds for a client, and a loaded machine may take longer, so that
    is tried again."""
    trusted = ssl.create_default_context(cafile=f"{site.etc}/tls/ca.pem")
    for left in reversed(range(30)):
        plain = socket.create_connection(("127.0.0.1", site.port))
        try:
            return trusted.wrap_socket(plain, server_hostname=name)
        except OSError:
            plain.close()
            if not left:
                raise


def tls(site: Any) -> None:
    """TLS of today's versions, and no session that is resumed: its certificate may have been revoked meanwhile."""
    place, folder = f"127.0.0.1:{site.port}", f"{site.etc}/tls"
    request = b"GET /nix-cache-info HTTP/1.1\r\nhost: red.localhost\r\nconnection: close\r\n\r\n"

    def reply(version, *more):
        words = ["openssl", "s_client", "-connect", place, "-servername", "red.localhost", f"-{version}", "-ign_eof"]
        return subprocess.run([*words, *more], input=request, capture_output=True, timeout=300).stdout

    certified = ["-cert", f"{folder}/carol.pem", "-key", f"{folder}/carol.key"]
    for version in ("tls1_2", "tls1_3"):
        kept = f"{site.folder}/{version}"
        same(f"{version} with a certificate", b"HTTP/1.1 200" in reply(version, *certified, "-sess_out", kept), True)
        resumed = Path(kept).exists() and reply(version, "-sess_in", kept)
        is_new = not resumed or b"HTTP/1.1 401" in resumed and b"Reused" not in resumed
        check("its session isn't resumed", is_new, resumed)
    for version in ("tls1", "tls1_1"):
        same(f"{version} is refused", b"HTTP/1.1" in reply(version, "-cipher", "ALL:@SECLEVEL=0"), False)


def watched(site: Any) -> None:
    """Health without a login, and nothing else there; figures for the user `prometheus` alone, who has a password."""
    nobody, monitor, ann = site.user(None), site.user("prometheus"), site.user("ann")
    well = 200, b'{"store": "answers", "blobs": "answers"}\n'
    for _ in range(60):
        if (seen := nobody("GET", "/health")) == well:
            break
        # (a store that takes ten seconds, as on a loaded machine, doesn't answer)
        time.sleep(2)
    same("health without a login", seen, well)
    for method, target, given in [("POST", "/health", b""), ("PUT", "/health", b"x"), ("GET", "/health", bytes(1000)),
                                  ("GET", "/health/", None), ("GET", "/health?x", None), ("GET", "/%68ealth/x", None)]:
        status = nobody(method, target, given)[0]
        what = f"{method} {target} with {len(given or b'')} bytes, without a login, is nothing"
        check(what, 400 <= status < 500, status)
    same("figures", monitor("GET", "/metrics")[0], 200)
    others = ("GET", "/paths"), ("POST", "/collect"), ("GET", "/overview/day")
    same("and nothing else", [monitor(*request)[0] for request in others], [403] * 3)
    same("not for strangers, nor without a login",
         [user("GET", "/metrics")[0] for user in (site.user("eve"), nobody, ann)], [403, 401, 200])
    words = [*ann.words, "-o", "/dev/null", "-D", "-", f"{ann.url}/nix-cache-info"]
    head = parts.curl(*words)[1]
    check("a browser takes nothing for a page that isn't one", b"x-content-type-options: nosniff" in head, head)
    path = ann.add("recorded", b"x")
    # (a record is written after its reply, so those of earlier requests may come first)
    named = lambda: [(record["user"], record["paths"]) for record in site.servers["red"].records()
                     if path[11:] in record["paths"]]
    parts.until("a record", named)
    same("a change has its user, by the certificate or the password", named(), [("ann", [path[11:]])])
    lines = b"".join(b"path: %s\n" % (b"\xff" * 290) for _ in range(100)) + b"path: %s\n" % path.encode() * 2
    same("a request that does nothing", ann("POST", "/text", lines + b"\n")[0], 400)
    parts.until("its record", lambda: site.servers["red"].records()[-1]["status"] == 400)
    changed = site.servers["red"].records()[-1]
    same("has a short record, with what is a path alone", changed["paths"], [path[11:]])


@contextlib.contextmanager
def slowly(held: list[ssl.SSLSocket]) -> Iterator[None]:
    """One byte more comes by each connection every five seconds, however long what is done here takes: nginx waits
    thirty seconds for the next one."""
    stop = threading.Event()

    def send():
        while not stop.wait(5):
            for client in held:
                with contextlib.suppress(OSError):
                    client.send(b"p")

    with ThreadPoolExecutor(1) as pool:
        pool.submit(send)
        try:
            yield
        finally:
            stop.set()


def slow_imports(site: Any) -> None:
    """Imports whose bodies don't come hold up nobody else."""
    ann, login = site.user("ann"), base64.b64encode(b"bob:bob-secret").decode()
    head = f"POST /import HTTP/1.1\r\nhost: red.localhost\r\nauthorization: Basic {login}\r\n"
    held = [connected(site) for _ in range(20)]
    for client in held:
        client.sendall(f"{head}content-length: 20971520\r\n\r\np".encode())
    with slowly(held):
        path = ann.add("meanwhile", bytes(100_000))
        statuses = [ann("GET", target)[0] for target in ("/paths", f"/nar/{path[11:]}", "/roots")]
    same("while the imports of another user don't come, all is answered", statuses, [200] * 3)
    waiting = 0
    for client in held:
        client.setblocking(False)
        try:
            client.recv(1)
        except ssl.SSLWantReadError:
            waiting += 1
        client.close()
    check("and most of these still wait", waiting >= 7, waiting)


def slow_uploads(site: Any) -> None:
    """While eight large uploads of a user come slowly for longer than a minute, one of another user is done, and one
    more of the first user waits."""
    build, login = site.user("build"), base64.b64encode(b"build:build-secret").decode()
    archive, more = by_nix.archive(bytes(200_000)), by_nix.archive(b"more" * 5_000_000)
    name, of_more = by_nix.digest(archive), by_nix.digest(more)
    head = f"PUT /nar/{name}.nar HTTP/1.1\r\nhost: red.localhost\r\nauthorization: Basic {login}\r\n"
    held = [connected(site) for _ in range(8)]
    for client in held:
        client.sendall(f"{head}content-length: {len(archive)}\r\n\r\n".encode() + archive[:1000])
    with ThreadPoolExecutor(1) as pool:
        ninth = pool.submit(lambda: build("PUT", f"/nar/{of_more}.nar", more)[0])
        # (nginx waits thirty seconds for the next byte)
        for at in range(1000, 1024):
            time.sleep(3)
            for client in held:
                client.sendall(archive[at : at + 1])
        check("one more upload waits", not ninth.done())
        for client in held:
            client.sendall(archive[1024:])
        same("and is done once the others are", ninth.result(), 201)
    same("these are done, too", {client.recv(12) for client in held}, {b"HTTP/1.1 201"})
    for client in held:
        client.close()


def subjects(site: Any) -> None:
    """Certificates whose subjects have something else than one name and one team, and those of another CA."""
    folder = f"{site.etc}/tls"
    openssl = lambda words: subprocess.run(["openssl", *shlex.split(words)], cwd=folder, check=True,
                                           capture_output=True)
    openssl("req -x509 -newkey rsa:2048 -nodes -days 1 -subj /O=red/CN=build -keyout foreign.key -out foreign.pem")
    same("a certificate of another CA", site.user("build", certificate="foreign")("GET", "/paths")[0], 400)
    for subject in ("/O=red/CN=ann/CN=build", "/O=red/CN=x,O=red", "/O=green/O=red/CN=build", "/CN=build/O=red",
                    "/O=red+CN=build", "/O=red/CN=b\u00fcild", "/O=red/CN=build/emailAddress=x"):
        openssl(f"req -newkey rsa:2048 -nodes -utf8 -multivalue-rdn -subj '{subject}' -keyout odd.key -out odd.csr")
        openssl("x509 -req -in odd.csr -CA ca.pem -CAkey ca.key -CAcreateserial -days 1 -out odd.pem")
        same(f"the subject {subject} is nobody's", site.user("build", certificate="odd")("GET", "/paths")[0], 401)
    openssl("req -newkey rsa:2048 -nodes -subj /O=red/CN=build -keyout odd.key -out odd.csr")
    openssl("x509 -req -in odd.csr -CA carol.pem -CAkey carol.key -CAcreateserial -days 1 -out signed.pem")
    chain = "".join(Path(f"{folder}/{name}.pem").read_text() for name in ("signed", "carol"))
    Path(f"{folder}/odd.pem").write_text(chain)
    same("what a user's certificate has signed is nobody's",
         site.user("build", certificate="odd")("GET", "/paths")[0], 400)
    carol = site.user("carol", certificate="carol")
    status_of = lambda host: carol("GET", "/paths", None, "-H", f"host: {host}")[0]
    same("a name of another team within a connection", status_of("green.localhost"), 421)
    same("names of other domains",
         [status_of(name) for name in ("red.evil", "red.localhost.evil", "xred.localhost")], [0] * 3)


def half_asked(site: Any) -> None:
    """Who sends no request, or half of one, loses the connection after ten seconds, also within TLS, and after a
    request that was answered."""
    def closed(sent, is_encrypted, ahead=b""):
        with connected(site) if is_encrypted else socket.create_connection(("127.0.0.1", site.port)) as made:
            # (a loaded machine may close it later)
            made.settimeout(300)
            try:
                if ahead:
                    made.sendall(ahead)
                    while not made.recv(65_536).endswith(b"\r\n\r\n"):
                        pass
                made.sendall(sent)
                return made.recv(1)
            except OSError as error:
                return error

    half, health = b"GET /paths HTTP/1.1\r\nhost: red", b"HEAD /health HTTP/1.1\r\nhost: red.localhost\r\n\r\n"
    cases = (b"", False), (b"\x16\x03\x01\x02\x00\x01", False), (b"", True), (half, True), (half, True, health)
    with ThreadPoolExecutor(5) as pool:
        same("half a request is waited for ten seconds", [*pool.map(lambda case: closed(*case), cases)], [b""] * 5)


def forms_of_large(site: Any) -> None:
    """A large archive: nginx keeps its record for old and new Nix apart, and odd ranges are answered whole."""
    ann, build = site.user("ann"), site.user("build")
    archive = by_nix.archive(bytes(17_000_000))
    path, digest = f"/nix/store/{'7' * 32}-large", by_nix.nar_hash(archive)
    given = body(("path", path), ("nar-hash", digest), payload=archive)
    same("a trusted user imports a large archive", build("POST", "/import", given)[0], 200)
    record = lambda agent: ann("GET", f"/{path[11:43]}.narinfo", None, "-H", f"user-agent: {agent}")[1].decode()
    form = lambda agent: re.search("^Compression: (.*)$", record(agent), re.M)[1]
    same("a name with a letter that is none of ASCII is that of old Nix to both", form("Nix/2.3\u00e9"), "none")
    agents = "Nix/2.18.1", "Nix/2.3.16", "Nix/2.30.0", "Nix/1.11", "curl/8"
    same("old Nix gets it as it is, and others by zstd", [form(agent) for agent in agents * 2],
         ["zstd", "none", "zstd", "none", "zstd"] * 2)
    target = "/" + re.search("^URL: (.*)$", record("Nix/2.3.16"), re.M)[1]
    size = lambda field: (lambda reply: (reply[0], len(reply[1])))(
        ann("GET", target, None, "-H", f"range: bytes={field}"))
    same("a range", [size(field) for field in ("1-2", "-3", "17000000-")],
         [(206, 2), (206, 3), (206, len(archive) - 17_000_000)])
    odd = "9" * 5000 + "-", "0-" + "9" * 5000, "-" + "9" * 5000, "5-3", "0-1,3-4"
    same("a range that is none has the whole", [size(field) for field in odd], [(200, len(archive))] * 5)
    lines = site.servers["red"].lines()
    same("and none is a fault", [lines[at : at + 40] for at, line in enumerate(lines) if "Traceback" in line], [])
