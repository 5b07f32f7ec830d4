"""Asks a server on a port of this machine by curl, and compares what comes with what commands print.

The same requests are made by curl over one connection, by curl over a connection for each, and by commands, over
three files: each method of each route of the reference in docs/, what is denied and refused among them. Each reply
has, byte by byte, the head that the reference describes, with the status of the command's answer, and the text that
the command prints; and the three stores are the same at the end. Paths, archives and records are compared with what
is computed here too. Then: methods that a route doesn't have, HEAD among them; bodies with a key of the reference
left out, given twice or unknown to it; a connection that is kept, as curl says, and connections that end; bodies of
16 MiB, in and out, for which curl sends `Expect: 100-continue` and goes on when nothing comes; a body that is too
large; a client that closes in the middle of a reply, after which the next is served; and a store that has no room.
Needs curl, and fails without it.
"""
import collections
import contextlib
import glob
import random
import re
import subprocess
from pathlib import Path

import pytest

from nixkeep_dev.build import program
from nixkeep_dev.testing import report
from nixkeep_dev.testing.each_route import REFERENCE, fits, head_of, requests, routes, status_of
from nixkeep_dev.testing.http_messages import lines
from nixkeep_dev.testing.nar import STORE, archive, nar_hash, source_path, text_path
from nixkeep_dev.testing.report import same
from nixkeep_dev.testing.requests import imported, text
from nixkeep_dev.testing.store import Server, Store, small_files

HERE = program.HERE
CONFIG = 'allowed-users = ["ann", "bob"]\n'
# The options of curl for each request.
ALWAYS = """write-out = "%{num_connects} %{time_total}\\n"
silent
show-error
verbose
noproxy = "*"
max-time = 60
header = "store-group: users\""""
MOST, MOST_OF_BODY = 16_777_216, 20_971_520


# ---- servers, and curl


@contextlib.contextmanager
def serving(what, file, words, connections, ends=((0, b""),), prepare=None):
    """A server on a port for some connections, which has to end with this status, and print this."""
    # (one connection more finds out that it listens)
    with Server(file, *words, connections=connections + 1, preexec_fn=prepare, restore_signals=not prepare) as server:
        server.connect().close()
        yield server.port
        came = server.ended(30)
        same(f"{what}: whether the server ends well, which ends with {came}", came in ends, True)


Reply = collections.namedtuple("Reply", "head text connects seconds")


class Curl:
    """curl, with its files in a folder."""

    def __init__(self, folder):
        self.folder = folder

    def __call__(self, port, made, *more, output=None, status=0):
        """Asks in one run of curl; gives the reply to each, and what curl says of its doing."""
        config, files = [], []
        for at, (user, method, target, body) in enumerate(made):
            head, text, sent = (Path(f"{self.folder}/{at}.{suffix}") for suffix in ("head", "text", "sent"))
            files.append((head, text))
            # (curl makes no file where nothing comes)
            for file, data in ((head, b""), (text, b""), (sent, body)):
                file.write_bytes(data)
            config += [*["next"] * (at > 0), f'url = "http://127.0.0.1:{port}{target}"', f'request = "{method}"']
            config += [f'header = "store-user: {user}"', f'output = "{output or text}"', f'dump-header = "{head}"']
            config += [ALWAYS, *more, *[f'data-binary = "@{sent}"'] * bool(body)]
        how = {"capture_output": True, "text": True, "errors": "replace"}
        ran = subprocess.run(["curl", "-q", "-K", "-"], input="\n".join(config), **how)
        if ran.returncode != status:
            report.fail(f"curl ended with {ran.returncode}: {ran.stderr[-2000:]}")
        measured = [line.split() for line in ran.stdout.splitlines()]
        replies = [Reply(head.read_bytes(), text.read_bytes(), int(connects), float(seconds))
                   for (head, text), (connects, seconds) in zip(files, measured, strict=True)]
        return replies, ran.stderr


@pytest.fixture
def curl(folder):
    report.needs("curl")
    return Curl(folder)


def answers(what, reply, text, status=200, **head):
    """A reply has this text, and the head for it."""
    same(what, reply.head + reply.text, head_of(status, len(text), **head) + text)


# ---- each route


def test_each_route_is_asked():
    """The table has the routes that are defined, and each is asked by each of its methods."""
    fixed = [route for name in glob.glob(f"{HERE}/crates/*/specs/Table.antt")
             for route in re.findall(r'codes "(/[^"]+)"', Path(name).read_text())]
    same("the routes of the reference, next to those that are defined", sorted(routes()), sorted(fixed))
    made = [*requests()]
    for pattern, methods in routes().items():
        for method in methods:
            is_asked = any(request.method == method and fits(pattern, request.target) for request in made)
            report.right(f"{method} {pattern}", None if is_asked else "it isn't asked here")


def test_routes(program, folder, curl):
    """Each request over one connection, over one of its own, and by a command."""
    made = [*requests()]
    Path(config := f"{folder}/store.toml").write_text(CONFIG)
    options, stores = ["--config", config], [Store(program, f"{folder}/{name}.db")
                                             for name in ("commands", "one", "each")]
    over_one, over_each = ask_twice(program, options, folder, curl,
                                    [(request.user, request.method, request.target, request.body) for request in made])
    options += ["--group", "users"]
    for request, one, each in zip(made, over_one, over_each):
        ran = stores[0].run(*request.words, given=request.given, user=request.user, options=options)
        try_route(request, one, each, *ran)
    for word in ("list", "roots", "live", "dead", "report"):
        printed = [store.run(word, options=options) for store in stores]
        same(f"{word} over one connection", printed[1], printed[0])
        same(f"{word} over a connection for each", printed[2], printed[0])


def ask_twice(file, options, folder, curl, made):
    """The replies over one connection, and over a connection for each."""
    with serving("one connection", file, [*options, "--db", f"{folder}/one.db"], 1) as port:
        over_one, _ = curl(port, made)
    same("one connection: those that were made", [reply.connects for reply in over_one], [1] + [0] * (len(made) - 1))
    with serving("a connection for each", file, [*options, "--db", f"{folder}/each.db"], len(made)) as port:
        over_each = [curl(port, [request], 'header = "connection: close"')[0][0] for request in made]
    return over_one, over_each


def try_route(request, one, each, printed, said, code):
    """Compares replies with a command's outputs."""
    other, answer = (printed, said.encode()) if code else (said.encode(), printed)
    same(f"{request.name()}: the other output of the command", other, b"")
    if request.wanted is not None:
        same(f"{request.name()}: the command", answer, request.wanted)
    status = status_of(code, answer)
    media = "application/octet-stream" if code == 0 and request.target.startswith("/nar/") else "text/plain"
    for where, reply, closes in (("", one, False), (" over a connection of its own", each, True)):
        same(f"{request.name()}: the text{where}", reply.text, answer)
        same(f"{request.name()}: the head{where}", reply.head, head_of(status, len(answer), media, closes=closes))


def test_methods(program, curl):
    """Methods that a route doesn't have; targets without a route."""
    line = b"refused: 40 bad-method\n"
    targets = {re.sub(r"\{\w+\}", "7", pattern): methods for pattern, methods in routes().items()}
    denied = [(other, target, line, 405, methods) for target, methods in targets.items()
              for other in ("GET", "POST", "DELETE", "PUT", "HEAD") if other not in methods]
    none = ["/", "/path", "/paths/", "/paths?all=1", "/info/a/b", "/p%61ths", "/nix-cache-info"]
    every = [*denied, *[("GET", target, b"refused: 39 no-route\n", 404, None) for target in none]]
    with serving("methods", program, [], 1) as port:
        replies, _ = curl(port, [("ann", method, target, b"") for method, target, *_ in every])
    for (method, target, wanted, status, allow), reply in zip(every, replies):
        answers(f"{method} {target}", reply, wanted, status, allow=allow)
    # Asked for a head alone curl takes no text, and leaves it unread as it closes.
    with serving("HEAD", program, [], 1, [(0, b""), (1, b"failed: input\n")]) as port:
        (reply,), _ = curl(port, [("ann", "HEAD", "/paths", b"")], "head")
    same("HEAD /paths", reply.head, head_of(405, len(line), allow=["GET"]))


# ---- what the reference says of bodies


def body_keys():
    """The keys of each body as the table there has them: how often each may occur, by route; and whether a payload
    follows."""
    rooted = ["/root/permanent/{name}", "/root/user/{user}/{name}", "/profile/{user}/{name}", "/temp/{user}/{s}"]
    table, forms = REFERENCE.partition("| Body of |")[2].partition("\n\n")[0], {}
    for of, keys, payload in re.findall(r"^\| (.*) \| (.*) \| (.*) \|$", table, re.M):
        many = {}
        for some, words in re.findall(r"((?:`[a-z-]+`(?:, )?)+) (at most once|once|any number of times)", keys):
            many.update(dict.fromkeys(re.findall(r"`([a-z-]+)`", some), words))
        for route in re.findall(r"`(/[^`]*)`", of) or (rooted if of.startswith("what sets") else []):
            forms[route] = many, payload != "none"
    same("bodies of the reference", sorted(forms),
         sorted(["/text", "/source", "/import", "/runtime", "/collect", "/delete", *rooted]))
    return forms


def some_bodies():
    """Bodies that are read and such that aren't, each after its target: these lack a key, have one too often, or
    another; or they have lines and payloads that aren't meant."""
    nar, p = archive(b"x"), "0" * 32 + "-p"
    values = {"name": "n", "path": p, "reference": p, "deriver": p, "nar-hash": nar_hash(nar),
              "ca": f"fixed:r:{nar_hash(nar)}", "root": f"a {p}", "ignore-liveness": "false", "max-freed": "0"}
    good, bad = [], []
    for route, (keys, has_payload) in body_keys().items():
        target = re.sub(r"\{\w+\}", "7", route)
        payload = nar if has_payload else b""
        body = lambda chosen, payload=payload: lines(*chosen, payload=payload)
        once = [(key, values[key]) for key, words in keys.items() if words == "once"]
        each = [(key, values[key]) for key in keys]
        good += [(target, body(once)), (target, body(each)), (target, body(reversed(each)))]
        good += [(target, body(each + [pair])) for pair in each if keys[pair[0]] == "any number of times"]
        bad += [(target, body([pair for pair in each if pair != left])) for left in once]
        bad += [(target, body(each + [pair])) for pair in each if keys[pair[0]] != "any number of times"]
        bad += [(target, body(each + [(key, "7")])) for key in [*values, "", "other"] if key not in keys]
        bad += [(target, body([(key.upper(), value)] + [pair for pair in each if pair[0] != key]))
                for key, value in each]
        whole = body(each, b"")
        bad += [(target, data) for data in (whole.replace(b": ", b":", 1), whole[:-1], b"\xff: 7\n" + body(each))]
        if not has_payload:
            bad.append((target, body(each, b"\n")))
    bad += [("/rollback/7/7", data) for data in (b"7", b"path: " + p.encode() + b"\n\n", b"\n\n")]
    return good, bad


def test_bodies(program, curl):
    good, bad = some_bodies()
    with serving("bodies", program, [], 1) as port:
        replies, _ = curl(port, [("root", "POST", *pair) for pair in good + bad])
    line = b"refused: 41 bad-body-head\n"
    for (target, body), reply in zip(good + bad, replies):
        same(f"whether {target} is refused for its body {body[:300]!r}", reply.text == line, (target, body) in bad)


def test_connections(program, curl):
    """Connections that are kept, as curl reports it, and such that end."""
    paths = [("ann", "GET", "/paths", b"")] * 3
    with serving("connections", program, [], 1 + 3 + 3) as port:
        kept, said = curl(port, paths)
        closed, _ = curl(port, paths, 'header = "connection: close"')
        old, _ = curl(port, paths, "http1.0")
    same("a connection that is kept", [reply.connects for reply in kept], [1, 0, 0])
    same("a connection that curl says to use again", len(re.findall(r"^\* Re-?using existing ", said, re.M | re.I)), 2)
    same("connections that close", [reply.connects for reply in closed], [1, 1, 1])
    same("connections of HTTP/1.0", [reply.connects for reply in old], [1, 1, 1])
    for replies, closes in ((kept, False), (closed, True), (old, True)):
        for reply in replies:
            answers("GET /paths", reply, b"", closes=closes)


# ---- what is large


class Large:
    """Bodies of 16 MiB and more, and what their objects are."""

    def __init__(self):
        rng = random.Random(4)
        self.nar, self.other = (archive(rng.randbytes(MOST - 112)) for _ in range(2))
        self.path, self.p = source_path("large", self.nar), "0" * 32 + "-p"
        self.add = "ann", "POST", "/source", text("large", self.nar)
        self.imported = imported(self.p, self.other)
        self.over = "ann", "POST", "/text", bytes(MOST_OF_BODY + 1)
        self.long = "ann", "POST", "/source", text("long", archive(bytes(MOST - 104)))
        self.gets = [("ann", "GET", f"/nar/{base}", b"") for base in (self.path, self.p)]


def line_of(path):
    return f"{STORE}/{path}\n".encode()


def test_large_bodies(program, folder, curl):
    large = Large()
    at_once, waiting = 'header = "Expect:"', "Done waiting for 100-continue"
    ends = [(1, b"failed: output\n")]
    with serving("a client that goes away", program, ["--db", f"{folder}/large.db"], 7, ends) as port:
        # curl asks whether it may go on, gets no answer, and sends the body when it has waited for a second
        (added,), said = curl(port, [large.add])
        came = ["Expect: 100-continue" in said, waiting in said, added.seconds >= 1]
        same("a large body: what curl says", came, [True] * 3)
        answers("a large body", added, line_of(large.path))
        # both over one connection, at once
        (taken, refused), said = curl(port, [large.imported, large.long], at_once)
        same("a large body at once: what curl says", ["Expect" in said, waiting in said, refused.connects],
             [False, False, 0])
        answers("a large import", taken, line_of(large.p))
        answers("an archive above 16 MiB", refused, b"refused: 8 too-large\n", 400)
        # the reply comes while curl waits, or while it sends
        for more in ([], [at_once]):
            (reply,), _ = curl(port, [large.over], *more)
            answers("a body that is too large", reply, b"refused: 38 too-large\n", 400, closes=True)
        try_large_out(large, curl, port)


def try_large_out(large, curl, port):
    """Both archives out, and a client that closes in the middle of one."""
    replies, _ = curl(port, large.gets)
    for name, reply, nar in zip(("source", "import"), replies, (large.nar, large.other)):
        same(f"16 MiB out: the head of the {name}", reply.head, head_of(200, MOST, "application/octet-stream"))
        same(f"16 MiB out: whether the bytes of the {name} are the same", reply.text == nar, True)
    # curl can't write what comes, and closes in the middle of it
    curl(port, large.gets[:1], output="/dev/full", status=23)
    (next_one,), _ = curl(port, [("ann", "GET", "/paths", b"")])
    same("after a client that went away", next_one.text, b"".join(sorted([line_of(large.path), line_of(large.p)])))


def test_no_room(program, folder, curl):
    """A store whose file may not grow: what has failed has status 503, and the connection goes on."""
    small, large = (("ann", "POST", "/text", text("a", data)) for data in (b"x", bytes(3_000_000)))
    with serving("no room", program, ["--db", f"{folder}/limited.db"], 1, prepare=small_files) as port:
        replies, _ = curl(port, [small, large, ("ann", "GET", "/paths", b"")])
    added, failed, listed = replies
    answers("room", added, line_of(text_path("a", b"x")))
    same("why there is no room", failed.text in (b"failed: disk\n", b"failed: size\n"), True, failed.text)
    answers("no room", failed, failed.text, 503)
    answers("after what failed", listed, line_of(text_path("a", b"x")))
