"""Names, store paths and content addresses: which texts are well formed, and which path follows from contents.

A function that rejects a text raises Malformed, with the number and the name of the refusal that nixkeep answers.
A path is kept as its base name, such as `xv2iccirbrvklck36f1g7vldn5v58vck-myfile`; `full` adds the store directory.
"""
from __future__ import annotations

# (for hints alone: see `http_connection`)
TYPE_CHECKING = False
if TYPE_CHECKING:
    from collections.abc import Iterable

DIGITS = "0123456789abcdfghijklmnpqrsvwxyz"
STORE = "/nix/store"
_VALUES = {digit: value for value, digit in enumerate(DIGITS)}
# The characters of a text of each kind. (Sets, as loading `re` takes longer than a request.)
_LETTERS = "ABCDEFGHIJKLMNOPQRSTUVWXYZabcdefghijklmnopqrstuvwxyz0123456789"
_OF_PLAIN, _OF_NAME, _OF_DIGITS = frozenset(f"{_LETTERS}_.-"), frozenset(f"{_LETTERS}+._?=-"), frozenset(DIGITS)
_DOTS = (".", "..")


class Malformed(ValueError):
    """A text that isn't of its kind: the number and the name of its refusal."""

    def __init__(self, number: int, name: str):
        super().__init__(f"refused: {number} {name}")
        self.number, self.name = number, name


# ---- base 32


def base32(data: bytes) -> str:
    """Bytes in Nix's base 32: they are one little-endian number, and its most significant digit comes first."""
    number = int.from_bytes(data, "little")
    return "".join(DIGITS[number >> 5 * at & 31] for at in reversed(range((8 * len(data) + 4) // 5)))


def unbase32(text: str, count: int) -> bytes:
    """The bytes, `count` of them, that the digits spell."""
    if any(char not in _VALUES for char in text):
        raise Malformed(9, "bad-digit")
    if len(text) != (8 * count + 4) // 5:
        raise Malformed(10, "bad-length")
    number = 0
    for digit in text:
        number = number << 5 | _VALUES[digit]
    if number >> 8 * count:
        raise Malformed(11, "overflow")
    return number.to_bytes(count, "little")


# ---- texts of a kind


def is_plain_name(text: str) -> bool:
    """Whether the text may name a user, a group, a root or a profile: 1 to 64 letters, digits, `_`, `.` and `-`, and no
    `-` first."""
    return 1 <= len(text) <= 64 and text[0] != "-" and _OF_PLAIN.issuperset(text)


def is_store_name(text: str) -> bool:
    """Whether the text may follow the digits and the dash of a base name: 1 to 211 letters, digits, `+`, `.`, `_`, `?`,
    `=` and `-`, and before the first `-` neither `.` nor `..` alone."""
    return 1 <= len(text) <= 211 and _OF_NAME.issuperset(text) and text.partition("-")[0] not in _DOTS


def is_store_dir(text: str) -> bool:
    """Whether the text may be a store directory: an absolute path of at most 200 bytes."""
    start, *folders = text.split("/")
    is_path = start == "" and folders and all(
        name and _OF_NAME.issuperset(name) and name not in _DOTS for name in folders)
    return len(text) <= 200 and bool(is_path)


def is_base_name(text: str) -> bool:
    """Whether the text is a base name: 32 digits, a dash and a store name."""
    return text[32:33] == "-" and _OF_DIGITS.issuperset(text[:32]) and is_store_name(text[33:])


def is_label(text: str) -> bool:
    """Whether the text may be the label of a runtime root: 1 to 256 printable ASCII characters without blanks."""
    return 1 <= len(text) <= 256 and text.isascii() and text.isprintable() and " " not in text


def store_name(text: str) -> str:
    """The name, where it is a store name."""
    if not is_store_name(text):
        raise Malformed(12, "bad-store-name")
    return text


def base_name(text: str, store: str = STORE) -> str:
    """The base name that a path text stands for: a base name, or a full path in the store directory."""
    base = text.removeprefix(store + "/")
    if not is_base_name(base):
        raise Malformed(14, "bad-store-path")
    return base


def full(base: str, store: str = STORE) -> str:
    """The full path of a base name."""
    return f"{store}/{base}"


# ---- paths that follow from contents


def sha256(pieces: Iterable[bytes]) -> bytes:
    """The SHA-256 of an iterable of pieces."""
    import hashlib

    digest = hashlib.sha256()
    for piece in pieces:
        digest.update(piece)
    return digest.digest()


def fold20(digest):
    """The 20 bytes that the digits of a path spell, from the 32 bytes of a SHA-256."""
    folded = bytearray(20)
    for at, byte in enumerate(digest):
        folded[at % 20] ^= byte
    return bytes(folded)


def path_of(kind: str, inner: bytes, name: str, references: Iterable[str] = (), store: str = STORE) -> str:
    """The base name of an object with a content address.

    `kind` is `text` or `source`. `inner` is the SHA-256 of the contents of a text, or of the archive of a source.
    The references are base names. Their order and repeats make no difference.
    """
    start = ":".join([kind, *(full(base, store) for base in sorted(set(references)))])
    fingerprint = f"{start}:sha256:{inner.hex()}:{store}:{name}"
    return f"{base32(fold20(sha256([fingerprint.encode()])))}-{name}"


# ---- content addresses

_METHODS = {"text": "text:sha256:", "source": "fixed:r:sha256:"}


def address(kind: str, inner: bytes) -> str:
    """The content address of a `text` or a `source`; `inner` as for `path_of`."""
    return _METHODS[kind] + base32(inner)


def read_address(text: str) -> tuple[str, bytes]:
    """The kind, `text` or `source`, and the digest of a content address."""
    for kind, start in _METHODS.items():
        if text.startswith(start):
            try:
                return kind, unbase32(text[len(start):], 32)
            except Malformed:
                break
    raise Malformed(15, "bad-ca")


def nar_hash(digest: bytes) -> str:
    """A SHA-256 as `nixkeep info` and the body of an import write it."""
    return "sha256:" + base32(digest)
