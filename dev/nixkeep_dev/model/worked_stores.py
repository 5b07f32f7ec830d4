"""Checks of the model on hand-made values: what stores and servers answer."""
from . import archives, tables, texts, worlds
from .commands import Machine
from .worked_texts import ABC, CONFIG, DERIVE, EMPTY, MINE, MYFILE, MYHASH, A, B, D, O, P, Q, S, X, Y, refused


class Worked:
    """A store with a configuration; what its commands and messages give, as one text."""

    def __init__(self, config=b"", rows=None):
        self.machine = Machine({"c": config}, {} if rows is None else {"f": tables.Database(rows)})

    def run(self, words: str, given: bytes = b"") -> str:
        output, errors, _ = self.machine.run(["--db", "f", "--config", "c", "--user", *words.split()], given)
        return (output + errors).decode().replace("/nix/store/", "")

    def status(self, words: str, given: bytes = b"") -> int:
        return self.machine.run(["--db", "f", "--config", "c", "--user", *words.split()], given)[2]

    def add(self, base: str, *references: str, archive: bytes = EMPTY, user: str = "root", **lines: str) -> str:
        return self.run(f"{user} import", body(base, archive, references, **lines))

    def ask(self, stream: bytes) -> bytes:
        return self.machine.run(["--db", "f", "--config", "c", "serve"], stream)[0]


def body(base, archive, references=(), digest=None, **lines):
    """The body of an import."""
    digest = digest or "sha256:" + texts.base32(texts.sha256(archive))
    fields = [f"path: {base}", f"nar-hash: {digest}", *(f"reference: {reference}" for reference in references)]
    fields += [f"{key}: {value}" for key, value in lines.items()]
    return "\n".join([*fields, "", ""]).encode() + archive


def adds():
    worked = Worked()
    yield worked.run("ann add-source myfile", MINE), MYFILE + "\n"
    yield worked.run(f"ann info {MYFILE}"), (
        f"StorePath: {MYFILE}\nURL: nar/{MYFILE}\nCompression: none\nFileHash: sha256:{MYHASH}\nFileSize: 128\n"
        f"NarHash: sha256:{MYHASH}\nNarSize: 128\nReferences: \nCA: fixed:r:sha256:{MYHASH}\n"
    )
    yield worked.run("ann add-source myfile", MINE) + worked.run("ann list"), f"{MYFILE}\n" * 2
    worked = Worked(CONFIG)
    path = worked.run("ann add-text empty")
    yield path[32:], "-empty\n"
    yield worked.run("ann report").splitlines()[3], "total           1              112"
    worked = Worked()
    path = texts.text_path("/nix/store", "t", [], b"hello")
    yield worked.add(path, archive=archives.file_archive(b"other")), path + "\n"
    yield worked.run("ann add-text t", b"hello"), path + "\n"
    yield worked.run(f"ann cat-nar {path}").encode(), archives.file_archive(b"other")
    yield "CA" in worked.run(f"ann info {path}"), False


def imports():
    right = {"ca": f"fixed:r:sha256:{MYHASH}", "user": "ann"}
    yield Worked().add(MYFILE, archive=MINE, **right), MYFILE + "\n"
    yield Worked().add(MYFILE + "2", archive=MINE, **right), "refused: 16 ca-mismatch\n"
    changed, digest = MINE.replace(b"my", b"mx"), f"sha256:{MYHASH}"
    yield Worked().add(MYFILE, archive=changed, digest=digest, **right), "refused: 25 nar-hash-mismatch\n"
    yield Worked().add(MYFILE, archive=MINE, ca=f"text:sha256:{ABC}", user="ann"), "refused: 16 ca-mismatch\n"
    yield Worked().add(MYFILE, archive=MINE, user="ann"), "denied: trusted-import\n"
    yield Worked().add(MYFILE, archive=b"x", user="ann"), "denied: trusted-import\n"
    worked = Worked()
    yield worked.add(MYFILE, archive=MINE, deriver=D, **right), MYFILE + "\n"
    yield f"Deriver: {D}\n" in worked.run(f"ann info {MYFILE}"), True
    yield Worked().add(P, Q), "refused: 24 missing-reference\n"
    worked = Worked()
    yield worked.add(S, S) + worked.run("ann gc"), f"{S}\n{S}\nfreed 1 paths 112 bytes\n"
    yield worked.add(S, S, ca=f"text:sha256:{ABC}"), "refused: 26 self-reference\n"


def with_derivation(config, root=False):
    """A store with a derivation and its output, which names it as its deriver."""
    worked = Worked(config)
    worked.add(D, archive=archives.file_archive(DERIVE))
    worked.add(O, deriver=D)
    if root:
        worked.run(f"ann root r {O}")
    return worked


def collections():
    keeps = b"keep-outputs = true\nkeep-derivations = true\n"
    yield len(archives.file_archive(DERIVE)), 208
    yield with_derivation(keeps).run("ann gc"), f"{D}\n{O}\nfreed 2 paths 320 bytes\n"
    yield with_derivation(keeps, True).run("ann gc"), "freed 0 paths 0 bytes\n"
    worked = with_derivation(b"keep-outputs = true\nkeep-derivations = false\n", True)
    yield worked.run("ann report"), (
        "class       paths            bytes\nlive            1              112\n"
        "dead            1              208\ntotal           2              320\n"
    )
    yield worked.run("ann gc"), f"{D}\nfreed 1 paths 208 bytes\n"
    yield Worked().run("ann report"), (
        "class       paths            bytes\nlive            0                0\n"
        "dead            0                0\ntotal           0                0\n"
    )
    flags = [Worked().run(f"{user} gc --ignore-liveness") for user in ("ann", "root")]
    yield flags, ["denied: no-ignore-liveness\n"] * 2


def triangle():
    """A store in which two paths refer to a third."""
    worked = Worked()
    for base, *references in [P], [X, P], [Y, P]:
        worked.add(base, *references)
    return worked


def deletions():
    worked = triangle()
    worked.run("root runtime", f"root: /proc/1/exe {Y}\nroot: /proc/2/exe {X}\n\n".encode())
    yield worked.run(f"ann delete {P}"), f"denied: live {{censored}} {X}\n"
    yield worked.run(f"root delete {P}"), f"denied: live /proc/2/exe {X}\n"
    worked = Worked()
    worked.add(P), worked.add(X), worked.run(f"ann root r {X}")
    yield worked.run(f"ann delete {P} {X}"), f"denied: live gcroots/per-user/ann/r {X}\n"
    yield worked.run("ann list"), f"{P}\n{X}\n"
    worked = Worked()
    worked.add(P), worked.add(X, P)
    yield worked.run(f"ann delete {P}"), f"{P}\n{X}\nfreed 2 paths 224 bytes\n"
    yield worked.run(f"ann delete {P}"), "refused: 23 not-valid\n"
    yield worked.ask(message("POST /delete")).endswith(b"freed 0 paths 0 bytes\n"), True


def runtime():
    worked = Worked()
    worked.add(P)
    yield worked.run("root runtime", f"root: a {P}\nroot: b {P}\n\n".encode()), "runtime roots 2\n"
    for command in "roots", f"why {P}":
        yield worked.run(f"ann {command}"), f"{{censored}} {P}\n"
        yield worked.run(f"root {command}"), f"a {P}\nb {P}\n"
    yield worked.run("root runtime", f"root: a {P}\nroot: a {P}\nroot: b {Q}\n\n".encode()), "runtime roots 1\n"
    yield worked.run("root runtime", f"root: {'a' * 257} {P}\n\n".encode()), "refused: 35 bad-label\n"
    yield worked.run("root roots"), f"a {P}\n"


def profiles():
    worked = Worked()
    worked.add(P), worked.add(X)
    profile = lambda words: worked.run(f"ann profile {words}")
    steps = [f"set w {P}", f"set w {X}", "rollback w", f"set w {X}"]
    yield [profile(step) for step in steps], [f"generation {number}\n" for number in (1, 2, 1, 2)]
    yield profile("delete w 2"), "refused: 30 current-generation\n"
    yield profile("delete w 1") + worked.run("ann dead"), f"done\n{P}\n"
    yield profile("rollback w") + profile("delete w 7"), "refused: 31 no-older-generation\nrefused: 29 no-generation\n"
    yield [profile("switch w 0"), profile("switch w 007")], ["refused: 29 no-generation\n"] * 2
    worked = triangle()
    steps = [f"set w {P}", f"set w {X}", f"set w {Y}", "rollback w", "delete w 3", f"set w {Y}"]
    yield "".join(worked.run(f"ann profile {step}")[-2:-1] for step in steps), "1232e3"
    world = worlds.World()
    world.objects = {base: worlds.Object(EMPTY, frozenset(), None, None, []) for base in (P, X)}
    world.profiles["ann", "w"] = worlds.Profile({9999: P}, 9999)
    worked = Worked(rows=tables.rows_of(world, "/nix/store"))
    yield worked.run(f"ann profile set w {P}"), "generation 9999\n"
    yield worked.run(f"ann profile set w {X}"), "refused: 32 generation-limit\n"


def roots():
    worked = Worked()
    worked.add(P), worked.run(f"bob root r {P}")
    yield worked.ask(message("POST /root/user/bob/r", f"path: {P}\n\n", "root")).endswith(b"denied: own-root\n"), True
    yield [worked.run("root unroot --owner bob r") for _ in range(2)], ["done\n", "refused: 27 no-root\n"]
    yield worked.run(f"root root --permanent r {P}") + worked.run("root unroot --permanent r"), "done\ndone\n"
    usage = ["unroot --permanent --owner bob r", "profile keep w", "profile set w", "delete"]
    usage += ["serve --connections 2", "gc --max-freed 007"]
    yield [worked.status(f"ann {words}") for words in usage], [2] * 6


def sessions():
    worked = Worked()
    worked.add(P), worked.add(X, P)
    worked.run("root runtime", f"root: a {P}\nroot: a {X}\n\n".encode())
    worked.run(f"ann temp add 2 {P}"), worked.run(f"ann temp add 2 {X}")
    yield worked.run("root roots"), f"a {P}\na {X}\n{{temp:2}} {P}\n{{temp:2}} {X}\n"
    yield worked.run("ann roots"), f"{{censored}} {P}\n{{censored}} {X}\n"
    worked = Worked()
    worked.add(P)
    worked.run(f"ann temp add 10 {P}"), worked.run(f"ann temp add 2 {P}"), worked.run(f"bob temp add 2 {P}")
    yield worked.run(f"root delete {P}"), f"denied: live {{temp:10}} {P}\n"
    yield worked.run("ann temp --owner bob end 2"), "denied: own-root\n"
    yield [worked.run(f"ann temp add {number} {P}") for number in ("0", "4194305")], ["refused: 42 bad-session\n"] * 2
    yield worked.run("ann temp end 10") + worked.run("ann temp end 10"), "temporary roots 1\ntemporary roots 0\n"
    yield worked.run("root roots"), f"{{temp:2}} {P}\n"
    yield worked.run("ann temp end 2") + worked.run("ann live"), f"temporary roots 1\n{P}\n"
    yield worked.run("root temp --owner bob end 2") + worked.run("ann live"), "temporary roots 1\n"


def limits():
    worked = triangle()
    yield worked.run("ann gc --max-freed 0"), "freed 0 paths 0 bytes\n"
    yield worked.run("ann gc --max-freed 1"), f"{X}\nfreed 1 paths 112 bytes\n"
    yield worked.run("ann gc --max-freed 113"), f"{P}\n{Y}\nfreed 2 paths 224 bytes\n"
    world = worlds.World()
    world.objects = {base: worlds.Object(EMPTY, frozenset([other]), None, None, []) for base, other in ((A, B), (B, A))}
    worked = Worked(rows=tables.rows_of(world, "/nix/store"))
    yield worked.run("ann gc --max-freed 1"), f"{A}\n{B}\nfreed 2 paths 224 bytes\n"
    yield triangle().run(f"ann gc --max-freed {2**64 - 1}"), triangle().run("ann gc")


def files():
    world = worlds.World()
    archive, other = (archives.file_archive(b"x" * size) for size in (65_432, 65_424))
    world.objects[P] = worlds.Object(archive, frozenset(), None, None, [])
    world.objects[X] = worlds.Object(other, frozenset([P]), None, None, [])
    rows = {schema: tables.rows_of(world, "/nix/store", schema) for schema in (1, 2, 3)}
    yield rows[3]["piece"], {(P, 1, archive[-8:])}
    yield [tables.world_of(rows[schema])[0].objects == world.objects for schema in (1, 2, 3)], [True] * 3
    opened = lambda **changed: refused(tables.world_of, {**rows[3], **changed})
    yield [opened(), opened(piece=set()), opened(piece={(P, 2, archive[-8:])})], [0, 21, 21]
    yield opened(object={row for row in rows[3]["object"] if row[0] == X}, piece=set()), 21
    yield opened(object={(*row[:2], bytes(32), *row[3:]) for row in rows[3]["object"]}), 21
    yield opened(profile={("ann", "w", 1)}), 21
    yield opened(profile={("ann", "w", 10_000)}, generation={("ann", "w", 10_000, P)}), 21
    yield refused(tables.world_of, {name: content for name, content in rows[3].items() if name != "refs"}), 21
    yield refused(tables.world_of, {**rows[1], "piece": set()}), 21
    yield Worked(b'store-dir = "/a/store"', rows[2]).run("ann list"), "refused: 22 other-store-dir\n"
    with_outs = tables.rows_of(with_derivation(b"").machine.databases["f"].world, "/nix/store")
    yield refused(tables.world_of, with_outs), 0
    yield refused(tables.world_of, {**with_outs, "outs": set()}), 21


def message(line, body="", user="ann", *fields):
    lines = [f"{line} HTTP/1.1", f"store-user: {user}", *fields, f"content-length: {len(body)}", "", body]
    return "\r\n".join(lines).encode()


def reply(status, text, *fields):
    lines = [f"HTTP/1.1 {status}", "content-type: text/plain", *fields, f"content-length: {len(text)}", "", text]
    return "\r\n".join(lines).encode()


def streams():
    answered = Worked(CONFIG).ask(message("GET /nothing", "", "bob") + message("GET /nothing"))
    yield answered, reply("403 Forbidden", "denied: connect\n") + reply("404 Not Found", "refused: 39 no-route\n")
    stream = b"GET /paths HTTP/1.1\r\nstore-user: ann\r\n\r\n"
    stream += b"POST /text HTTP/1.1\r\nstore-user: ann\r\ncontent-length: 10\r\n\r\nname: a\n\nx"
    first, second = reply("200 OK", ""), reply("200 OK", "/nix/store/12wigjpizrn8axaqxj288q1b751qmwya-a\n")
    yield Worked().ask(stream), first + second
    yield len(second) - len(reply("200 OK", "x" * 10)), 36
    short = b"HTTP/1.1 400 Bad Request\r\ncontent-type: text/plain\r\nconnection: close\r\ncontent-length: 23\r\n\r\n"
    yield Worked().ask(stream[:-1]), first + short + b"refused: 37 bad-length\n"
    closed = lambda text: reply("400 Bad Request", text, "connection: close")
    yield Worked().ask(b"GET /paths"), closed("refused: 36 bad-head\n")
    yield Worked().ask(b""), b""
    yield Worked().ask(stream[:-1] + b"x" + message("PUT /temp/ann/1")).endswith(
        reply("405 Method Not Allowed", "refused: 40 bad-method\n", "allow: POST, DELETE")
    ), True


GROUPS = [adds, imports, collections, deletions, runtime, profiles, roots, sessions, limits, files, streams]
