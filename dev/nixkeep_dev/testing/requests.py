"""Requests that meet one another, of every kind, and a store with a row of each kind: what is tried where something
goes wrong meanwhile."""
from nixkeep_dev.model.tables import PIECE
from nixkeep_dev.model.worlds import Profile
from nixkeep_dev.testing.http_messages import lines
from nixkeep_dev.testing.nar import archive, derivation, hidden, nar_hash, text_path
from nixkeep_dev.testing.tables import Built


def path(base: str) -> bytes:
    return lines(("path", base))


def text(name: str, contents: bytes, *refs: str) -> bytes:
    """The body that adds a text, or with an archive in place of the contents a source."""
    return lines(("name", name), *[("reference", ref) for ref in refs], payload=contents)


def imported(base: str, nar: bytes, *more: tuple) -> tuple:
    """An import of an archive under a path, with further entries."""
    return "root", "POST", "/import", lines(("path", base), ("nar-hash", nar_hash(nar)), *more, payload=nar)


def requests() -> list[tuple]:
    """Requests that meet one another, of every kind: one after another over one file."""
    drv, out, gone = "0" * 32 + "-d.drv", "1" * 32 + "-o", "7" * 32 + "-gone"
    long = b"x" * (PIECE + 9)
    added = text_path("long", long, [out])
    return [("ann", "GET", "/report"), imported(drv, archive(derivation({"out": out}))),
            imported(out, archive(b""), ("deriver", drv)), ("ann", "POST", "/text", text("long", long, out)),
            ("ann", "POST", "/source", text("s", archive(b"abc"), out, drv)),
            imported(gone, archive(b"x"), ("reference", "8" * 32 + "-none")), ("ann", "GET", f"/info/{added}"),
            ("ann", "GET", f"/nar/{added}"), ("ann", "GET", f"/ls/{added}"),
            ("ann", "POST", "/root/user/ann/mine", path(out)), ("root", "POST", "/root/permanent/ours", path(added)),
            ("root", "POST", "/root/permanent/ours", path(drv)),
            ("root", "POST", "/runtime", lines(("root", f"a {out}"), ("root", f"b {added}"), ("root", f"c {gone}"))),
            ("ann", "POST", "/temp/ann/3", path(added)), ("ann", "POST", "/temp/ann/3", path(out)),
            ("ann", "GET", f"/roots-of/{out}"), ("ann", "POST", "/delete", lines(("path", out))),
            ("ann", "POST", "/profile/ann/tools", path(out)), ("ann", "POST", "/profile/ann/tools", path(added)),
            ("ann", "POST", "/rollback/ann/tools"), ("ann", "POST", "/profile/ann/tools", path(added)),
            ("ann", "DELETE", "/generation/ann/tools/2"), ("ann", "POST", "/switch/ann/tools/1"),
            ("ann", "POST", "/switch/ann/tools/2"), ("ann", "DELETE", "/generation/ann/tools/1"),
            ("ann", "POST", "/rollback/ann/tools"), ("ann", "DELETE", "/generation/ann/tools/7"),
            ("ann", "DELETE", "/temp/ann/3"), ("root", "POST", "/runtime", lines()),
            ("root", "DELETE", "/root/permanent/ours"), ("ann", "POST", "/collect", lines(("max-freed", 1))),
            ("ann", "DELETE", "/root/user/ann/mine"), ("ann", "POST", "/collect", lines()), ("ann", "GET", "/dead"),
            ("bob", "POST", "/profile/ann/tools", path(out)), ("ann", "POST", "/profile/ann/tools", path(out)),
            ("ann", "DELETE", "/generation/ann/tools/2"), ("ann", "POST", "/delete", lines(("path", added)))]


def kept() -> list[tuple]:
    """A derivation and its output, which go, and then a root keeps the output: where outputs and derivers are kept."""
    drv, out = "2" * 32 + "-d.drv", "3" * 32 + "-o"
    both = [imported(drv, archive(derivation({"out": out}))), imported(out, archive(b""), ("deriver", drv))]
    collect = "ann", "POST", "/collect", lines()
    return [*both, ("ann", "GET", "/dead"), collect, *both, ("ann", "POST", "/root/user/ann/kept", path(out)),
            ("ann", "GET", f"/roots-of/{drv}"), ("ann", "POST", "/delete", path(drv)), collect]


def lost():
    """The root keeps the output alone, and the derivation is deleted: where derivers aren't kept."""
    return [("ann", "GET", "/dead"), ("ann", "GET", f"/roots-of/{'2' * 32}-d.drv"),
            ("ann", "POST", "/delete", path("3" * 32 + "-o")), ("ann", "POST", "/collect", lines())]


# What is asked under which settings, over one file.
LISTS = [("", requests), ("keep-outputs = true\nkeep-derivations = true\n", kept),
         ("keep-outputs = true\nkeep-derivations = false\n", lost)]


def named() -> list:
    """Each request of LISTS, in order: its name, the settings and the request."""
    return [(" ".join(request[:3]), settings, request) for settings, requests in LISTS for request in requests()]


def some_store(schema: int) -> Built:
    """A store with a row of each kind that a schema has, and an archive of more than a row."""
    made, out = Built(), hidden("out")
    made.put(out, archive(b"x" * (PIECE + 9)))
    one = made.put_text("text", b"text", [out])
    drv = made.put_text("made.drv", derivation({"out": out}), [one])
    made.put_source("source", archive(b"source"), [one], drv)
    world = made.world
    world.permanent["ours"] = world.user["ann", "mine"] = one
    world.profiles["ann", "tools"] = Profile({1: out, 2: one}, 2)
    world.runtime.add(("/proc/1/exe", out))
    if schema == 3:
        world.temporary.add(("ann", 3, out))
    return made
