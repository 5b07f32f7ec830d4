"""Requests of each route of the reference, the command that asks for the same, and the reply that has to come."""
import functools
import random
import re
from collections.abc import Iterator
from pathlib import Path

from nixkeep_dev.build.program import HERE
from nixkeep_dev.testing.http_messages import lines
from nixkeep_dev.testing.nar import STORE, archive, derivation, nar_hash, source_path, text_path
from nixkeep_dev.testing.requests import imported, path, text

PHRASES = {200: "OK", 400: "Bad Request", 403: "Forbidden", 404: "Not Found", 405: "Method Not Allowed",
           503: "Service Unavailable"}
NOT_FOUND = {23, 27, 28, 29}
RECORD = """StorePath: {store}/{path}
URL: nar/{path}
Compression: none
FileHash: {digest}
FileSize: 128
NarHash: {digest}
NarSize: 128
References: {reference}
CA: fixed:r:{digest}
"""
REFERENCE = Path(f"{HERE}/docs/REFERENCE.md").read_text()


def routes() -> dict[str, list[str]]:
    """The methods of each route, by its pattern, as the table there has them."""
    methods = {}
    for line in REFERENCE.splitlines():
        row = re.match(r"\| ((?:GET|POST|DELETE)(?:, \w+)*) (?:\| )?(`/[^|]*`) \|", line)
        for pattern in re.findall(r"`([^`]+)`", row[2]) if row else []:
            methods[pattern] = row[1].split(", ")
    return methods


def fits(pattern: str, target: str) -> bool:
    """Whether a target is one of a route."""
    return re.fullmatch(re.sub(r"\{\w+\}", "[^/]+", pattern), target) is not None


def head_of(status: int, length: int, media: str = "text/plain", allow: list[str] | None = None,
            closes: bool = False) -> bytes:
    """The head of a reply."""
    fields = [f"content-type: {media}", *([f"allow: {', '.join(allow)}"] if allow else []),
              *["connection: close"] * closes, f"content-length: {length}"]
    return "\r\n".join([f"HTTP/1.1 {status} {PHRASES[status]}", *fields, "", ""]).encode()


# ---- requests, and the commands that ask the same


class Request:
    """A request over HTTP; its command and what that reads; and what is to come of both, where it is computed here."""

    def __init__(self, user: str, route: str, command: str, wanted: str | bytes | None = None, body: bytes = b"",
                 given: bytes = b""):
        self.user, (self.method, self.target), self.words = user, route.split(), command.split()
        self.wanted = wanted.encode() if isinstance(wanted, str) else wanted
        self.body, self.given = body, given

    def name(self) -> str:
        return f"{self.user} {self.method} {self.target}"


def requests() -> Iterator[Request]:
    """Requests one after another over one store, as those who are asked here find it."""
    of_ann, of_root = functools.partial(Request, "ann"), functools.partial(Request, "root")
    nar, drv = archive(b"mycontent\n"), archive(derivation({"out": "1" * 32 + "-o"}))
    large, none, done = archive(random.Random(3).randbytes(200_000)), "7" * 32 + "-none", "done\n"
    a, d = text_path("a", b"x"), "0" * 32 + "-d.drv"
    f, o = source_path("myfile", nar, [a]), "1" * 32 + "-o"
    full = lambda *paths: "".join(sorted(f"{STORE}/{base}\n" for base in paths))

    def an_import(of_user, wanted, base, nar, *more):
        body = imported(base, nar, *more)[3]
        return of_user("POST /import", "import", wanted, body, body)

    yield of_ann("GET /report", "report")
    yield Request("eve", "GET /report", "report", "denied: connect\n")
    yield of_ann("POST /text", "add-text a", full(a), text("a", b"x"), b"x")
    yield of_ann("POST /source", f"add-source myfile {a}", full(f), text("myfile", nar, a), nar)
    yield of_ann("POST /source", "add-source cut", "refused: 1 truncated\n", text("cut", nar[:-1]), nar[:-1])
    missing = "refused: 24 missing-reference\n"
    yield of_ann("POST /text", f"add-text b {none}", missing, text("b", b"x", none), b"x")
    yield an_import(of_ann, "denied: trusted-import\n", d, drv)
    yield an_import(of_root, full(d), d, drv, ("reference", f))
    yield an_import(of_root, full(o), o, large, ("reference", a), ("reference", o), ("deriver", d))
    yield of_ann("GET /paths", "list", full(a, f, d, o))
    yield of_ann(f"GET /info/{f}", f"info {f}", RECORD.format(store=STORE, path=f, digest=nar_hash(nar), reference=a))
    yield of_ann(f"GET /info/{o}", f"info {o}")
    yield of_ann(f"GET /info/{none}", f"info {none}", "refused: 23 not-valid\n")
    yield of_ann(f"GET /nar/{f}", f"cat-nar {f}", nar)
    yield of_ann(f"GET /nar/{o}", f"cat-nar {o}", large)
    yield of_ann(f"GET /ls/{f}", "ls", "r 10 .\n", given=nar)
    yield of_root("POST /root/permanent/ours", f"root --permanent ours {d}", done, path(d))
    denied = "denied: trusted-permanent-root\n"
    yield of_ann("POST /root/permanent/mine", f"root --permanent mine {d}", denied, path(d))
    yield of_ann("POST /root/user/ann/mine", f"root mine {f}", done, path(f))
    yield of_ann("POST /root/user/ann/mine", f"root mine {none}", "refused: 23 not-valid\n", path(none))
    yield of_ann("POST /temp/ann/7", f"temp add 7 {o}", done, path(o))
    yield of_ann("POST /temp/ann/0", f"temp add 0 {o}", "refused: 42 bad-session\n", path(o))
    roots = lines(("root", f"/proc/1/exe {o}"), ("root", f"/proc/2/exe {none}"))
    yield of_root("POST /runtime", "runtime", "runtime roots 1\n", roots, roots)
    yield of_ann("POST /profile/ann/tools", f"profile set tools {a}", "generation 1\n", path(a))
    yield of_ann("POST /profile/ann/tools", f"profile set tools {f}", "generation 2\n", path(f))
    yield of_ann("POST /rollback/ann/tools", "profile rollback tools", "generation 1\n")
    yield of_ann("POST /rollback/ann/tools", "profile rollback tools", "refused: 31 no-older-generation\n")
    yield of_ann("POST /rollback/ann/play", "profile rollback play", "refused: 28 no-profile\n")
    yield of_ann("POST /switch/ann/tools/2", "profile switch tools 2", "generation 2\n")
    yield of_ann("POST /switch/ann/tools/007", "profile switch tools 007", "refused: 29 no-generation\n")
    yield of_ann("DELETE /generation/ann/tools/2", "profile delete tools 2", "refused: 30 current-generation\n")
    yield of_ann("DELETE /generation/ann/tools/1", "profile delete tools 1", done)
    yield of_root("GET /roots", "roots")
    yield of_ann("GET /roots", "roots")
    yield of_ann(f"GET /roots-of/{a}", f"why {a}")
    yield of_root(f"GET /roots-of/{a}", f"why {a}")
    yield of_ann("GET /live", "live")
    yield of_ann("GET /dead", "dead", "")
    yield of_ann("POST /delete", f"delete {a}", f"denied: live gcroots/ours {STORE}/{d}\n", path(a))
    yield of_root("DELETE /root/permanent/ours", "unroot --permanent ours", done)
    yield of_ann("POST /delete", f"delete {d}", f"denied: live {{censored}} {STORE}/{o}\n", path(d))
    yield of_root("POST /runtime", "runtime", "runtime roots 0\n", lines(), lines())
    yield of_ann("DELETE /temp/ann/7", "temp end 7", "temporary roots 1\n")
    yield of_ann("GET /dead", "dead", full(d, o))
    ignoring = lines(("ignore-liveness", "true"))
    yield of_ann("POST /collect", "gc --ignore-liveness", "denied: no-ignore-liveness\n", ignoring)
    yield of_ann("POST /collect", "gc --max-freed 1", body=lines(("max-freed", 1)))
    yield of_ann("GET /report", "report")
    yield of_ann("POST /collect", "gc")
    yield of_ann("DELETE /root/user/ann/mine", "unroot mine", done)
    yield of_ann("DELETE /root/user/ann/mine", "unroot mine", "refused: 27 no-root\n")
    kept = f"denied: live profiles/per-user/ann/tools-2-link {STORE}/{f}\n"
    yield of_ann("POST /delete", f"delete {none} {f}", kept, lines(("path", none), ("path", f)))
    yield of_ann("POST /delete", f"delete {none}", "refused: 23 not-valid\n", path(none))
    yield of_ann("GET /paths", "list", full(a, f))


def status_of(status: int, text: bytes) -> int:
    """The status over HTTP for what a command says and ends with."""
    if status in (0, 4):
        return 403 if status else 200
    return 404 if int(re.match(rb"refused: (\d+) ", text)[1]) in NOT_FOUND else 400
