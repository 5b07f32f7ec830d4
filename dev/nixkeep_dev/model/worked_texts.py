"""Checks of the model on published or hand-made values: texts, archives, derivations, configurations and heads."""
from collections.abc import Callable
from typing import Any

from . import archives, derivations, policy, server, texts
from .commands import Machine
from .texts import Refused

EMPTY = archives.file_archive(b"")
MINE = bytes.fromhex(
    "0d000000000000006e69782d617263686976652d31000000010000000000000028000000000000000400000000000000"
    "74797065000000000700000000000000726567756c6172000800000000000000636f6e74656e74730a00000000000000"
    "6d79636f6e74656e740a00000000000001000000000000002900000000000000"
)
MYFILE = "xv2iccirbrvklck36f1g7vldn5v58vck-myfile"
MYHASH = "1qwy7y49hyqd7kdpkyjfclz5fkfqalqapzc4v18lbibkx1yzdzib"
ABC = "1b8m03r63zqhnjf7l5wnldhh7c134ap5vpj0850ymkq1iyzicy5s"
DERIVE = b'Derive([("out","/nix/store/11111111111111111111111111111111-o","","")],[],[],"p","b",[],[])'
CONFIG = b'allowed-users = []\ntrusted-users = ["@wheel"]\n[groups]\nwheel = ["ann"]\n'
NAMES = ["0-d.drv", "1-o", "0-p", "1-x", "2-y", "3-s", "4-q", "0-a", "1-b"]
D, O, P, X, Y, S, Q, A, B = (name[0] * 31 + name for name in NAMES)


def refused(call: Callable, *arguments: Any) -> int:
    """The number of the refusal of a call; 0 where there is none."""
    try:
        call(*arguments)
    except Refused as refusal:
        return refusal.number
    return 0


def spellings():
    yield texts.base32(bytes(20)), "0" * 32
    yield texts.base32(b"\xff" * 20), "z" * 32
    yield texts.base32(b"\xff"), "7z"
    yield texts.base32(b""), ""
    yield [refused(texts.unbase32, text, 1) for text in ("zz", "7e", "7")], [11, 9, 10]
    yield texts.unbase32("7z", 1), b"\xff"
    folded = texts.folded(b"\x01" + bytes(19) + b"\xff" + bytes(11))
    yield folded, b"\xfe" + bytes(19)
    yield texts.base32(folded), "0" * 30 + "7y"
    yield texts.base32(texts.sha256(b"")), "0mdqa9w1p6cmli6976v4wi0sw9r4p5prkj7lzfd1877wk11c9c73"
    yield texts.base32(texts.sha256(b"abc")), ABC
    yield texts.base32(texts.sha256(MINE)), MYHASH


def names():
    accepted = ["a" * 211, ".x", "...", "a?=+_.-"]
    yield [texts.is_store_name(text) for text in accepted], [True] * 4
    others = ["a" * 212, ".", "..", "..-x", ".-x", "", "a b", "a/b", "\u00e9"]
    yield [text for text in others if texts.is_store_name(text)], []
    yield [text for text in ("a" * 64, "a" * 65, "", "-a", ".", "a-b") if texts.is_plain_name(text)], [
        "a" * 64, ".", "a-b"]
    yield [texts.is_store_dir(text) for text in ("/", "/a", "/a/", "/a/../b", "/" + "a" * 199, "/" + "a" * 200)], [
        False, True, False, False, True, False,
    ]
    addresses = [f"text:sha256:{ABC}", "text:sha256:" + "1" * 52, "text:sha256:" + "2" + "0" * 51, f"sha256:{ABC}"]
    yield [refused(texts.address_of, address) for address in addresses], [0, 0, 15, 15]


def paths():
    yield archives.file_archive(b"mycontent\n"), MINE
    yield texts.source_path("/nix/store", "myfile", [], MINE), MYFILE
    yield texts.text_path("/nix/store", "myfile", [], b"mycontent\n") == MYFILE, False
    print_of = lambda kind: texts.base32(texts.folded(texts.sha256(kind.encode())))
    digest = "ba7816bf8f01cfea414140de5dae2223b00361a396177a9cb410ff61f20015ad"
    wanted = print_of(f"text:/nix/store/{A}:/nix/store/{B}:sha256:{digest}:/nix/store:n") + "-n"
    yield texts.text_path("/nix/store", "n", [B, A, B], b"abc"), wanted
    address = f"fixed:r:sha256:{MYHASH}"
    verified = lambda base: refused(texts.verify, address, "/nix/store", base, [], MINE, b"mycontent\n")
    yield [verified(MYFILE), verified(MYFILE + "2")], [0, 16]


def archive_faults():
    leaf = ("regular", False, b"")
    directory = lambda *entries: archives.write(("directory", [(name, leaf) for name in entries]))
    number = lambda data: refused(archives.read, data)
    yield len(EMPTY), 112
    yield len(directory()), 96
    yield [number(directory()), number(directory(b"a", b"b"))], [0, 0]
    yield [number(directory(b"b", b"a")), number(directory(b"a", b"a"))], [5, 5]
    yield [number(directory()[:-1]), number(directory() + b"\0"), number(b"")], [1, 7, 1]
    yield {number(MINE[:size]) for size in range(128)}, {1}
    yield {number(MINE + bytes([byte])) for byte in range(256)}, {7}
    yield number(b"\xff" * 8), 8
    yield [number(size.to_bytes(8, "little")) for size in (16_777_209, 16_777_208)], [8, 1]
    deep = [archives.nested(count) for count in (256, 257)]
    yield [(len(text), number(text)) for text in deep], [(42_936, 0), (43_104, 6)]
    yield [number(deep[1][:34_839]), number(deep[1][:34_840])], [1, 6]
    node = "directory", [(b"a", leaf), (b"b", ("symlink", b"a"))]
    yield archives.listing(node), "d .\nr 0 ./a\nl ./b -> a\n"
    yield archives.listing(archives.read(MINE)), "r 10 .\n"


def derivation_texts():
    outputs = lambda data: derivations.outputs(data, "/nix/store")
    yield outputs(DERIVE), [("out", O)]
    yield refused(outputs, b'Derive([("out","","",""),("out","","","")],[],[],"p","b",[],[])'), 18
    yield [refused(outputs, DERIVE + b"x"), refused(outputs, DERIVE.replace(b'"p"', b'"\\x"'))], [17, 17]
    yield {refused(outputs, DERIVE[:size]) for size in range(91)}, {17}
    yield derivations.write([(b"out", b"/nix/store/" + O.encode(), b"", b"")]), DERIVE


def classes():
    word = lambda user, group, config=CONFIG: policy.class_of(policy.config_of(config), policy.Caller(user, group))
    yield [word("ann", "users"), word("bob", "users"), word("bob", "wheel")], ["trusted", "stranger", "trusted"]
    yield [word("root", None, b""), word("ann", None, b"")], ["trusted", "allowed"]
    ask = lambda *words: Machine({"c": CONFIG}, {}).run(["--config", "c", *words, "who"], b"")
    yield ask("--user", "ann", "--group", "users"), (b"class: trusted\nconnect: yes\n", b"", 0)
    yield ask("--user", "bob", "--group", "users"), (b"class: stranger\ndenied: connect\n", b"", 4)
    yield ask(), (b"refused: 20 bad-caller\n", b"", 3)
    yield [refused(policy.caller_of, "a" * size, None) for size in (64, 65)], [0, 20]


def configurations():
    faults = {
        b'x = 1\nstore-dir = "/"': "unknown-key",
        b'store-dir = "/"': "store-dir",
        b'allowed-users = "ann"': "allowed-users",
        b'allowed-users = ["@"]': "allowed-users",
        b" " * 1_048_577: "syntax",
        b"\xff": "syntax",
    }
    for text, word in faults.items():
        machine = Machine({"c": text}, {})
        yield machine.run(["--config", "c", "ls"], b""), (b"", f"refused: 19 bad-config {word}\n".encode(), 3)
    yield refused(policy.config_of, b" " * 1_048_576), 0


def heads():
    whole = lambda head: refused(server.head_of, head)
    long = lambda size: b"GET /paths HTTP/1.1\r\nx: " + b"y" * (size - 28) + b"\r\n\r\n"
    many = lambda count: b"GET /paths HTTP/1.1\r\n" + b"x: y\r\n" * count + b"\r\n"
    yield [len(long(16_384)), whole(long(16_384)), whole(long(16_385))], [16_384, 0, 36]
    yield [whole(many(64)), whole(many(65))], [0, 36]
    yield whole(long(16_384)[:-4]), 36
    length = lambda *values: refused(server.length_of, [(b"content-length", value) for value in values])
    yield [length(), length(b"00"), length(b"1", b"1"), length(b"+1"), length(b"")], [0, 0, 37, 37, 37]
    yield [length(text) for text in (b"20971520", b"20971521", b"9" * 30, b"18446744073709551615")], [0, 38, 38, 38]
    yield refused(server.length_of, [(b"transfer-encoding", b"chunked"), (b"content-length", b"20971521")]), 37
    who = lambda *fields: refused(server.caller_in, [*fields])
    user, group = (b"store-user", b"ann"), (b"store-group", b"users")
    yield [who(user), who(user, group), who(user, user), who(user, group, group), who()], [0, 0, 20, 20, 20]


GROUPS = [spellings, names, paths, archive_faults, derivation_texts, classes, configurations, heads]
