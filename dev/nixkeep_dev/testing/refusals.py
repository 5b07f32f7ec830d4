"""Words and input that are refused, for each refusal that an empty store in memory can give; and denials."""
from collections.abc import Iterator

from nixkeep_dev.model.archives import nested
from nixkeep_dev.testing.http_messages import lines, message
from nixkeep_dev.testing.nar import archive, derivation, nar_hash, of_node, source_path, strings

PATH, OTHER = "0" * 32 + "-p", "1" * 32 + "-x"
ANN, ROOT = ["--user", "ann"], ["--user", "root"]


def archives():
    """An archive with each fault, by the line that refuses it."""
    empty, whole = ("directory", []), archive(b"abc")
    of_names = lambda *names: of_node(("directory", [(name, empty) for name in names]))
    return {
        "1 truncated": whole[:-1],
        "2 bad-tag": strings(b"nix-archive-1", b"(", b"type", b"folder", b")"),
        "3 bad-padding": whole.replace(b"abc\0", b"abc\1"),
        "4 bad-name": of_names(b"a", b".."),
        "5 not-sorted": of_names(b"b", b"a"),
        "6 too-deep": nested(257),
        "7 trailing": whole + b"x",
        "8 too-large": b"\xff" * 8,
    }


def derivations():
    """A derivation text with each fault."""
    whole = derivation({"out": OTHER})
    return {"17 bad-derivation": whole[:-1], "18 double-output": derivation([("out", OTHER), ("out", OTHER)])}


def settings():
    """A configuration with each fault."""
    return {
        "syntax": "x =",
        "unknown-key": 'x = 1\nstore-dir = "/"\n',
        "store-dir": 'store-dir = "/"\n',
        "allowed-users": 'allowed-users = ["@"]\n',
        "trusted-users": 'trusted-users = "ann"\n',
        "keep-outputs": "keep-outputs = 1\n",
        "keep-derivations": 'keep-derivations = "true"\n',
        "groups": 'groups = { wheel = ["ann", "*"] }\n',
    }


def imported(path, nar, *more, digest=None):
    return lines(("path", path), ("nar-hash", digest or nar_hash(nar)), *more, payload=nar)


def of_inputs():
    """Archives and derivation texts, where they are read whole and where they are checked as they come."""
    for line, nar in archives().items():
        yield line, ["ls"], nar
        yield line, [*ANN, "add-source", "n"], nar
        yield line, [*ROOT, "import"], imported(PATH, nar)
    for line, text in derivations().items():
        yield line, [*ANN, "add-text", "n.drv"], text
        yield line, [*ANN, "add-source", "n.drv"], archive(text)
        yield line, [*ROOT, "import"], imported(PATH + ".drv", archive(text))


def of_requests():
    nar = archive(b"abc")
    address = "ca", f"fixed:r:{nar_hash(nar)}"
    itself = source_path("n", nar)
    yield "12 bad-store-name", [*ANN, "add-text", "."], b""
    yield "14 bad-store-path", [*ANN, "info", "x"], b""
    yield "16 ca-mismatch", [*ANN, "import"], imported(PATH, nar, address)
    yield "20 bad-caller", ["--user", "a b", "list"], b""
    yield "23 not-valid", [*ANN, "info", PATH], b""
    yield "24 missing-reference", [*ANN, "add-text", "n", PATH], b""
    yield "25 nar-hash-mismatch", [*ROOT, "import"], imported(PATH, nar, digest=nar_hash(b""))
    yield "26 self-reference", [*ANN, "import"], imported(itself, nar, ("reference", itself), address)
    yield "27 no-root", [*ANN, "unroot", "mine"], b""
    yield "28 no-profile", [*ANN, "profile", "rollback", "tools"], b""
    yield "33 too-many-references", [*ANN, "import"], imported(PATH, nar, *[("reference", OTHER)] * 4097, address)
    yield "34 bad-root-name", [*ANN, "root", "my root", PATH], b""
    yield "35 bad-label", [*ROOT, "runtime"], lines(("root", f" {PATH}"))
    yield "42 bad-session", [*ANN, "temp", "add", "0", PATH], b""


def of_messages():
    whole = message("ann", "POST", "/text", lines(("name", "n")))
    for line, given in {
        "20 bad-caller": message("a b", "GET", "/paths"),
        "36 bad-head": b"GET /paths",
        "37 bad-length": whole[:-1],
        "38 too-large": b"GET / HTTP/1.1\r\ncontent-length: 20971521\r\n\r\n",
        "39 no-route": message("ann", "GET", "/nothing"),
        "40 bad-method": message("ann", "DELETE", "/paths"),
        "41 bad-body-head": message("ann", "POST", "/text", b"x\n\n"),
    }.items():
        yield line, ["serve"], given


def denials():
    yield "connect", ["--user", "eve", "list"], b""
    yield "trusted-import", [*ANN, "import"], imported(PATH, archive(b""))
    yield "trusted-permanent-root", [*ANN, "root", "--permanent", "ours", PATH], b""
    yield "trusted-runtime-roots", [*ANN, "runtime"], lines()
    yield "own-root", [*ANN, "unroot", "--owner", "bob", "mine"], b""
    yield "no-ignore-liveness", [*ANN, "gc", "--ignore-liveness"], b""


def all_refused() -> Iterator[tuple]:
    """Lines that refuse or deny, each with the configuration, the words and the input that it answers."""
    some = 'allowed-users = ["ann"]\n'
    for word, text in settings().items():
        for words in (["who"], ["text-path", "n"]):
            yield f"refused: 19 bad-config {word}\n", text, [*ROOT, *words], b""
    for line, words, given in [*of_inputs(), *of_requests(), *of_messages()]:
        yield f"refused: {line}\n", "", words, given
    for word, words, given in denials():
        yield f"denied: {word}\n", some, words, given
