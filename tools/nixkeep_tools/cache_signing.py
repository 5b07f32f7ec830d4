"""Signatures of records (narinfo), as Nix makes and tests them: ed25519 over a path, the hash and size of its archive,
and its references."""
import argparse
import base64
import binascii
import os
import re
from collections.abc import Iterable
from pathlib import Path

from . import cache_lists, cache_records, paths
from .cache_server import bases_in

try:
    from nacl import exceptions, signing
except ImportError:
    signing = None

# A key or a signature: the name of the key, and bytes in base 64.
FORM = re.compile(r"([!-9;-~]+):([A-Za-z0-9+/]+={0,2})")
SIGNATURE = re.compile(r"^Sig: *(\S+) *$", re.M)
# The bytes of a public key, and of a secret one, whose second half is the public one.
PUBLIC, SECRET = 32, 64
# The signatures of one key that are tested for one record.
TESTED = 4


class BadKey(Exception):
    """A key that can't be used, with the line that says so."""


def read_form(text):
    """The name and the bytes of a key or a signature, or None."""
    match = FORM.fullmatch(text)
    try:
        return match and (match[1], base64.b64decode(match[2], validate=True))
    except binascii.Error:
        return None


def written(name, data):
    return f"{name}:{base64.b64encode(data).decode()}"


def needs_library():
    if not signing:
        raise BadKey("signatures need the Debian package python3-nacl")


class Key:
    """A secret key, in the form that `nix-store --generate-binary-cache-key` writes."""

    def __init__(self, text: str):
        needs_library()
        form = read_form(text.strip())
        if not form:
            raise BadKey("it isn't a key that nix-store --generate-binary-cache-key makes: NAME:BASE64 is meant")
        self.name, data = form
        if len(data) == PUBLIC:
            raise BadKey("it is a public key; the secret one is meant")
        if len(data) != SECRET:
            raise BadKey(f"it is a key of another kind: it has {len(data)} bytes, and one of ed25519 has {SECRET}")
        self.key = signing.SigningKey(data[:PUBLIC])
        if self.public() != data[PUBLIC:]:
            raise BadKey("it is damaged: its two halves are of different keys")

    def public(self) -> bytes:
        return self.key.verify_key.encode()

    def sign(self, message: bytes) -> str:
        """The signature of a message, as a record has it."""
        return written(self.name, self.key.sign(message).signature)


def read_key(file):
    """The key in a file. Raises BadKey, or OSError."""
    try:
        with open(file, encoding="ascii") as text:
            return Key(text.read(10_000))
    except UnicodeDecodeError:
        raise BadKey(f"{file}: it isn't a key that nix-store --generate-binary-cache-key makes") from None
    except BadKey as bad:
        raise BadKey(f"{file}: {bad}") from None


def trusted_keys(text):
    """The public keys in a text, by their names; blanks separate them, as in Nix's own setting. Raises BadKey."""
    keys = {}
    for word in text.split():
        needs_library()
        key = read_form(word)
        if not key or len(key[1]) != PUBLIC:
            raise BadKey(f"{word[:200]}: it isn't a public key: NAME:BASE64 of {PUBLIC} bytes is meant")
        keys[key[0]] = signing.VerifyKey(key[1])
    return keys


def credential(name: str) -> str | None:
    """The file of a credential that systemd passes to this service, or None: systemd.exec(5)."""
    folder = os.environ.get("CREDENTIALS_DIRECTORY")
    return f"{folder}/{name}" if folder and Path(folder, name).exists() else None


def trusted_text(said):
    """The public keys of the command line, or those of a credential."""
    file = credential("trusted-public-keys")
    if said is not None or not file:
        return said or ""
    with open(file, encoding="ascii", errors="replace") as text:
        return text.read(100_000)


def fingerprint(record, store):
    """What is signed of a record, whose references may be base names."""
    references = sorted(paths.full(path.rpartition("/")[2], store) for path in record.get("References", "").split())
    parts = "1", record["StorePath"], record["NarHash"], record.get("NarSize", ""), ",".join(references)
    return ";".join(parts).encode()


class Signing:
    """Signs records by `key`, or doesn't where that is None. Signatures of the `trusted` keys, which came with uploads,
    are kept in a list in `file`."""

    def __init__(self, key: Key | None, trusted: dict, file: str, store: str):
        self.key, self.trusted, self.store, self.conn = key, trusted, store, None
        # How often others were kept, or some of them no more.
        self.changes = 0
        if trusted:
            table = "signature (base TEXT, digest BLOB, text TEXT, PRIMARY KEY (base, digest, text)) STRICT"
            self.conn = cache_lists.opened(file, table)

    def signed(self, text: bytes) -> bytes:
        """A record with its signatures."""
        if not (self.key or self.conn):
            return text
        record = cache_records.fields(text)
        message = fingerprint(record, self.store)
        kept = [self.key.sign(message)] if self.key else []
        if self.conn:
            base, digest = record["StorePath"].rpartition("/")[2], paths.sha256([message])
            query = "SELECT text FROM signature WHERE base = ? AND digest = ?"
            rows = cache_lists.rows(self.conn, query, (base, digest))
            kept += [sig for (sig,) in rows if sig not in kept and sig.partition(":")[0] in self.trusted]
        return text + "".join(f"Sig: {sig}\n" for sig in kept).encode()

    def uploaded(self, text: bytes) -> None:
        """Follows an upload: keeps the signatures of its record that are of trusted keys. Its archive has been tested
        against its hash by then."""
        if not self.conn:
            return
        record = cache_records.fields(text)
        message, by_name = fingerprint(record, self.store), {}
        for sig in SIGNATURE.findall(text.decode("ascii")):
            by_name.setdefault(sig.partition(":")[0], []).append(sig)
        row = record["StorePath"].rpartition("/")[2], paths.sha256([message])
        for name in self.trusted.keys() & by_name.keys():
            for sig in by_name[name][:TESTED]:
                if self.is_good(name, message, sig):
                    # (in the one form of its bytes, or it could be kept sixteen times)
                    normal = written(*read_form(sig))
                    statement = "INSERT OR IGNORE INTO signature VALUES (?, ?, ?)"
                    self.changes += cache_lists.add(self.conn, statement, (*row, normal))

    def is_good(self, name: str, message: bytes, text: str) -> bool:
        form = read_form(text)
        try:
            return bool(form) and bool(self.trusted[name].verify(message, form[1]))
        except (exceptions.BadSignatureError, ValueError):
            return False

    def deleted(self, text: bytes) -> None:
        """Follows a reply that names the paths which have been deleted, one a line."""
        if self.conn:
            self.drop(bases_in(text))

    def listed(self, bases: Iterable[str]) -> None:
        """Follows a listing of all paths: what was deleted elsewhere has no signature."""
        if self.conn:
            there, rows = {*bases}, cache_lists.rows(self.conn, "SELECT DISTINCT base FROM signature")
            self.drop([base for (base,) in rows if base not in there])

    def drop(self, bases: Iterable[str]) -> None:
        rows = [(base,) for base in bases]
        self.changes += bool(rows)
        cache_lists.delete(self.conn, "DELETE FROM signature WHERE base = ?", rows)



def made(said: argparse.Namespace, store: str) -> Signing:
    """The Signing of the words of a command line. Raises BadKey, OSError, or sqlite3.Error."""
    file = f"{said.db}.signatures" if said.db else f"{said.waiting}/signatures"
    key = read_key(said.sign_with) if said.sign_with else None
    return Signing(key, trusted_keys(trusted_text(said.trusted_public_keys)), file, store)
