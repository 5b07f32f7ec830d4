"""Refusals, base 32, names, store paths and content addresses."""
import hashlib
import re
from collections.abc import Iterable

DIGITS = "0123456789abcdfghijklmnpqrsvwxyz"

# The names of all refusals, by number from 1 on.
REFUSALS = """
truncated bad-tag bad-padding bad-name not-sorted too-deep trailing too-large bad-digit bad-length overflow
bad-store-name bad-store-dir bad-store-path bad-ca ca-mismatch bad-derivation double-output bad-config bad-caller
bad-schema other-store-dir not-valid missing-reference nar-hash-mismatch self-reference no-root no-profile
no-generation current-generation no-older-generation generation-limit too-many-references bad-root-name bad-label
bad-head bad-length too-large no-route bad-method bad-body-head bad-session
""".split()


class Refused(Exception):
    """A refusal, by its number; the one of a configuration also has the word of the key."""

    def __init__(self, number: int, word: str = ""):
        super().__init__(number, word)
        self.number, self.word = number, word

    def line(self) -> str:
        return f"refused: {self.number} {REFUSALS[self.number - 1]} {self.word}".rstrip() + "\n"


def refuse(number: int, is_wrong: object, word: str = "") -> None:
    """Refuses what is wrong."""
    if is_wrong:
        raise Refused(number, word)


def base32(data: bytes) -> str:
    """The bytes as one number, the first counting least, with the most significant digit first."""
    number = int.from_bytes(data, "little")
    return "".join(DIGITS[number >> 5 * at & 31] for at in reversed(range((8 * len(data) + 4) // 5)))


def unbase32(text: str, size: int) -> bytes | None:
    """The bytes that a text spells."""
    refuse(9, any(digit not in DIGITS for digit in text))
    refuse(10, len(text) != (8 * size + 4) // 5)
    number = 0
    for digit in text:
        number = number * 32 + DIGITS.index(digit)
    refuse(11, number >= 256**size)
    return number.to_bytes(size, "little")


def folded(digest: bytes, size: int = 20) -> bytes:
    """As many bytes, each the exclusive or of the bytes of the digest that are that many places apart."""
    octets = bytearray(size)
    for at, byte in enumerate(digest):
        octets[at % size] ^= byte
    return bytes(octets)


def is_plain_name(text: str) -> bool:
    return re.fullmatch(r"[A-Za-z0-9_.][A-Za-z0-9_.-]{0,63}", text) is not None


def is_store_name(text: str) -> bool:
    is_odd = text in (".", "..") or text.startswith((".-", "..-"))
    return not is_odd and re.fullmatch(r"[A-Za-z0-9+._?=-]{1,211}", text) is not None


def is_store_dir(text: str) -> bool:
    parts = text.split("/")
    is_right = lambda part: part not in (".", "..") and re.fullmatch(r"[A-Za-z0-9+._?=-]+", part) is not None
    return 2 <= len(text) <= 200 and parts[0] == "" and len(parts) > 1 and all(map(is_right, parts[1:]))


def is_label(text: str) -> bool:
    return re.fullmatch(r"[!-~]{1,256}", text) is not None


def is_base(text: str) -> bool:
    return re.fullmatch(rf"[{DIGITS}]{{32}}-.+", text, re.S) is not None and is_store_name(text[33:])


def base_of(store_dir: str, text: str) -> str | None:
    """The base name of a full path or of a base name."""
    base = text.removeprefix(store_dir + "/")
    refuse(14, not is_base(base))
    return base


def sha256(data: bytes) -> bytes:
    return hashlib.sha256(data).digest()


def path_of(kind: str, store_dir: str, name: str, references: Iterable[str], inner: bytes) -> str:
    """The base name of what has this kind, name, references and inner digest."""
    kind = ":".join([kind, *(f"{store_dir}/{base}" for base in sorted(set(references)))])
    return base32(folded(sha256(f"{kind}:sha256:{inner.hex()}:{store_dir}:{name}".encode()))) + "-" + name


def text_path(store_dir: str, name: str, references: Iterable[str], contents: bytes) -> str:
    return path_of("text", store_dir, name, references, sha256(contents))


def source_path(store_dir: str, name: str, references: Iterable[str], archive: bytes) -> str:
    return path_of("source", store_dir, name, references, sha256(archive))


def digest_of(text: str, prefix: str) -> bytes | None:
    """The digest that a text with this prefix spells, or None."""
    digits = text.removeprefix(prefix)
    is_right = text.startswith(prefix) and re.fullmatch(rf"[01][{DIGITS}]{{51}}", digits)
    return unbase32(digits, 32) if is_right else None


def address_of(text: str) -> tuple[str, bytes] | None:
    """The kind and the digest of a content address."""
    for kind, prefix in ("text", "text:sha256:"), ("source", "fixed:r:sha256:"):
        digest = digest_of(text, prefix)
        if digest is not None:
            return kind, digest
    raise Refused(15)


def verify(address: str, store_dir: str, base: str, references: Iterable[str], archive: bytes,
           plain: bytes | None) -> None:
    """Refuses an object that its content address doesn't fit; plain is the contents of a plain file, else None."""
    kind, digest = address_of(address)
    hashed = plain if kind == "text" else archive
    refuse(16, hashed is None or sha256(hashed) != digest)
    refuse(16, path_of(kind, store_dir, base[33:], references, digest) != base)
